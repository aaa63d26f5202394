"""The bytes of the ledger (docs/RULES.md, "Bytes of the ledger"), from definitions to envelopes. The node and its client, the scripts
of python/, and the generators of examples and test data all spell them by this module.

Nothing is checked: the program says what is well-formed, and generators spell malformed bytes on purpose. test/shown.py and the page's
script share no code with this module, since they check what it spells.
"""
import dataclasses
import hashlib
import struct
from collections.abc import Sequence
from typing import Any, Self

# A JSON object, as those who make or check it know its values.
Object = dict[str, Any]
# The block and the place of the transaction that wrote a key.
Version = tuple[int, int]
# First bytes that are no name's length: of an upgrade, of an amendment, and of an endorsement by a signature. How long tags are.
UPGRADE, AMENDMENT, SIGNED = b"\0", b"\x80", b"\0"
HMAC, SIGNATURE = 32, 64
# The key of the membership, and what stands before a chaincode's name in the key of its definition.
RESERVED = b"\0"
# The bytes of the longest proposal: a call, by its name, argument and nonce.
LONGEST_PROPOSAL = 33 + 2 + 4096 + 16


def sized(data: bytes, places: int) -> bytes:
    """Bytes behind their length, which takes so many places."""
    return len(data).to_bytes(places, "big") + data


def counted(items: Sequence[bytes], places: int) -> bytes:
    """Items behind their count."""
    return len(items).to_bytes(places, "big") + b"".join(items)


def optional(data: bytes | None) -> bytes:
    return b"\0" if data is None else b"\1" + data


@dataclasses.dataclass(frozen=True)
class Definition:
    profile: int
    module: bytes
    fuel: int
    policy: str

    @classmethod
    def of(cls, it: Object) -> Self:
        """The one that a JSON object says."""
        return cls(it["profile"], bytes.fromhex(it["module"]), it["fuel"], it["policy"])

    @classmethod
    def decode(cls, data: bytes) -> Self:
        return cls(data[0], data[1:33], int.from_bytes(data[33:37], "big"), data[39:].decode("ascii"))

    def encode(self) -> bytes:
        return bytes([self.profile]) + self.module + self.fuel.to_bytes(4, "big") + sized(self.policy.encode(), 2)


@dataclasses.dataclass(frozen=True)
class Member:
    """A member's name, and its public key, or None where it keeps the genesis file's key."""
    name: str
    public: bytes | None = None

    def fields(self) -> Object:
        """As JSON has it."""
        return {"name": self.name} if self.public is None else {"name": self.name, "public": self.public.hex()}

    def encode(self) -> bytes:
        return sized(self.name.encode(), 1) + optional(self.public)


@dataclasses.dataclass(frozen=True)
class Membership:
    serial: int
    members: Sequence[Member]
    policy: str

    @classmethod
    def of(cls, it: Object) -> Self:
        members = [Member(member["name"], bytes.fromhex(member["public"]) if "public" in member else None) for member in it["members"]]
        return cls(it["serial"], members, it["policy"])

    @property
    def by_name(self) -> dict[str, Member]:
        return {it.name: it for it in self.members}

    def fields(self) -> Object:
        return {"members": [it.fields() for it in self.members], "policy": self.policy, "serial": self.serial}

    def encode(self) -> bytes:
        members = counted([it.encode() for it in self.members], 1)
        return b"\1" + self.serial.to_bytes(4, "big") + members + sized(self.policy.encode(), 2)


@dataclasses.dataclass(frozen=True)
class Call:
    chaincode: str
    argument: bytes
    nonce: bytes

    def encode(self) -> bytes:
        return sized(self.chaincode.encode(), 1) + sized(self.argument, 2) + self.nonce


@dataclasses.dataclass(frozen=True)
class Upgrade:
    chaincode: str
    definition: Definition
    nonce: bytes

    def encode(self) -> bytes:
        return UPGRADE + sized(self.chaincode.encode(), 1) + self.definition.encode() + self.nonce


@dataclasses.dataclass(frozen=True)
class Amendment:
    membership: Membership
    nonce: bytes

    def encode(self) -> bytes:
        return AMENDMENT + self.membership.encode() + self.nonce


Proposal = Call | Upgrade | Amendment


def proposal_of(it: Object) -> Proposal:
    """The proposal that a JSON object says."""
    nonce = bytes.fromhex(it["nonce"])
    if "chaincode" in it:
        return Call(it["chaincode"], bytes.fromhex(it["arg"].strip("-")), nonce)
    if "upgrade" in it:
        return Upgrade(it["upgrade"], Definition.of(it), nonce)
    return Amendment(Membership.of(it), nonce)


def id_of(proposal: Object) -> str:
    """The id of the transaction that a proposal would be."""
    return hashlib.sha256(proposal_of(proposal).encode()).hexdigest()


def proposal_in(payload: bytes) -> bytes:
    """The bytes of the proposal with which a payload begins, as far as they are there. IndexError where its lengths are not."""
    def behind_text(place: int) -> int:
        return place + 2 + int.from_bytes(payload[place:place + 2], "big")
    if payload[:1] == AMENDMENT:
        # A membership: its first byte, serial, and members, of whom each has a name, and a key or none; and the text of its policy.
        end = 7
        for _ in range(payload[6]):
            end += 1 + payload[end]
            end += 33 if payload[end] else 1
    else:
        # A name; where it is an upgrade, also a definition: its profile, module and fuel, and the text of its policy.
        end = 2 + payload[1] + 1 + 32 + 4 if payload[:1] == UPGRADE else 1 + payload[0]
    return payload[:behind_text(end) + 16]


@dataclasses.dataclass(frozen=True)
class Read:
    key: bytes
    version: Version | None

    def encode(self) -> bytes:
        return sized(self.key, 1) + optional(self.version and struct.pack(">II", *self.version))


@dataclasses.dataclass(frozen=True)
class Range:
    start: bytes
    end: bytes
    limit: int
    entries: Sequence[tuple[bytes, Version]]

    def encode(self) -> bytes:
        entries = counted([sized(key, 1) + struct.pack(">II", *version) for key, version in self.entries], 1)
        return sized(self.start, 1) + sized(self.end, 1) + bytes([self.limit]) + entries


@dataclasses.dataclass(frozen=True)
class Write:
    """A key gets a value, or is deleted."""
    key: bytes
    value: bytes | None

    def encode(self) -> bytes:
        return sized(self.key, 1) + optional(None if self.value is None else sized(self.value, 2))


@dataclasses.dataclass(frozen=True)
class Payload:
    proposal: Proposal
    result: bytes = b""
    reads: Sequence[Read] = ()
    ranges: Sequence[Range] = ()
    writes: Sequence[Write] = ()

    @classmethod
    def of_change(cls, it: Upgrade | Amendment, version: Version | None = None) -> Self:
        """That of an upgrade or an amendment, which reads the key that it writes at this version, or absent."""
        if isinstance(it, Upgrade):
            write = Write(RESERVED + it.chaincode.encode(), it.definition.encode())
        else:
            write = Write(RESERVED, it.membership.encode())
        return cls(it, reads=[Read(write.key, version)], writes=[write])

    def encode(self) -> bytes:
        lists: tuple[Sequence[Read | Range | Write], ...] = (self.reads, self.ranges, self.writes)
        return self.proposal.encode() + sized(self.result, 2) + b"".join(counted([it.encode() for it in items], 2) for items in lists)


@dataclasses.dataclass(frozen=True)
class Endorsement:
    organisation: str
    tag: bytes

    def encode(self) -> bytes:
        return (SIGNED if len(self.tag) == SIGNATURE else b"") + sized(self.organisation.encode(), 1) + self.tag


@dataclasses.dataclass(frozen=True)
class Envelope:
    """The bytes of a payload, with endorsements of them."""
    payload: bytes
    endorsements: Sequence[Endorsement]

    def encode(self) -> bytes:
        return self.payload + counted([it.encode() for it in self.endorsements], 1)


def envelope(payload: str, endorsements: Sequence[str]) -> str:
    """The hex of an envelope, from the hex that peers hand out."""
    return payload + f"{len(endorsements):02x}" + "".join(endorsements)
