"""Whose tags are right: the node looks at each endorsement before it puts it, by the key by which its organisation stands. Whether
it counts is for the ledger's program to say."""
import asyncio
import dataclasses
import functools
import hashlib
import hmac
import json
import pathlib

from cryptography.exceptions import InvalidSignature
from cryptography.hazmat.primitives.asymmetric.ed25519 import Ed25519PublicKey

from .peer import Peer
from .wire import HMAC, SIGNATURE, Endorsement

# What stands in front of all that is signed under rules 2, before the genesis file's SHA-256.
BOUND = b"\xfftag "
# So many public keys are kept as OpenSSL made them, which are more than stand at a time.
MOST_KEYS = 64


def front_of(genesis: bytes) -> bytes:
    """What stands in front of what organisations sign in the ledger of a genesis file: nothing under rules 1."""
    return BOUND + hashlib.sha256(genesis).digest() if json.loads(genesis).get("rules", 1) > 1 else b""


@functools.lru_cache(MOST_KEYS)
def made_of(public: bytes) -> Ed25519PublicKey:
    """A public key as OpenSSL has it, which it makes once and not for each signature."""
    return Ed25519PublicKey.from_public_bytes(public)


@dataclasses.dataclass(frozen=True)
class Key:
    """An organisation's key, of which it has one: a shared one, or a public one of Ed25519. What is signed has this front."""
    shared: bytes = b""
    public: bytes = b""
    front: bytes = b""

    def is_right(self, tag: bytes, payload: bytes) -> bool:
        if self.shared:
            return hmac.compare_digest(tag, hmac.new(self.shared, payload, hashlib.sha256).digest())
        try:
            made_of(self.public).verify(tag, self.front + payload)
            return True
        except (InvalidSignature, ValueError):
            return False

    def endorses(self, organisation: str, endorsement: bytes, payload: bytes) -> bool:
        """Whether these bytes are the organisation's endorsement of a payload by this key."""
        tag = endorsement[-(HMAC if self.shared else SIGNATURE):]
        return endorsement == Endorsement(organisation, tag).encode() and self.is_right(tag, payload)


class Keys:
    """By which keys organisations stand."""

    def __init__(self, genesis: str):
        self.genesis, self.front = genesis, b""
        self.first: dict[str, Key] = {}
        # The membership that stood behind so many blocks, and from where on it is known to have stood.
        self.height = self.since = -1
        self.serial, self.asking = 0, asyncio.Lock()
        self.standing: dict[str, Key] = {}

    async def at(self, peer: Peer, height: int) -> dict[str, Key]:
        """The keys that stand now, where the store has so many blocks. Behind each block they are asked for once."""
        if self.height >= height:
            return self.standing
        async with self.asking:
            if self.height < height:
                said, height = await peer.ask_for("members")
                if self.since < 0 or said["serial"] != self.serial:
                    self.since = height
                self.height, self.serial = height, said["serial"]
                self.standing = {it["name"]: self._of(it["name"], it.get("public")) for it in said["members"]}
        return self.standing

    def stood(self, height: int) -> bool:
        """Whether these keys stood behind so many blocks, as far as is known."""
        return self.since <= height <= self.height

    def _of(self, organisation: str, public: str | None) -> Key:
        """A member's own key, or the one that the genesis file gives it."""
        if not self.first:
            self._read()
        return Key(public=bytes.fromhex(public), front=self.front) if public else self.first[organisation]

    def _read(self) -> None:
        """Reads the genesis file: its keys, and what stands in front of what is signed in its ledger."""
        text = pathlib.Path(self.genesis).read_bytes()
        self.front = front_of(text)
        self.first = {it["name"]: Key(bytes.fromhex(it.get("key", "")), bytes.fromhex(it.get("public", "")), self.front)
                      for it in json.loads(text)["orgs"]}
