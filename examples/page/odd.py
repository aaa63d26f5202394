"""Makes chains of odd envelopes for the page's test: the ledger itself flags them.

Each round hands some envelopes to `./ledger run`, on the state that it printed after the last round. They claim reads,
ranges and writes that no peer made, name keys that are kept for definitions and the membership, propose upgrades of every
form, to closed definitions and to open ones, and amendments by which members come, go and change keys, and carry right tags
and wrong ones of both kinds: one organisation of the genesis file has a shared key, and two have public ones. Some claim to know
what the block that they come into writes, and some write keys that are not their chaincode's own, as only rules 1 let them.
"""
import hashlib
import hmac
import json
import pathlib
import random
import subprocess
from typing import Any

# This comes first: it says where the modules of the node and of python/ lie.
import make
import rfc8032
from make import ROOT
from regtuma.wire import Definition, Membership

EXAMPLE = json.loads((ROOT / "examples/assets/genesis.json").read_text())
EXAMPLE_KEYS = ROOT / "examples/assets/example_keys"
SHARED_KEY = b"maker's key"
SEEDS = {name: bytes.fromhex((EXAMPLE_KEYS / f"{name.lower()}.key").read_text()) for name in ("Carrier", "Shop")}
GENESIS: dict[str, Any] = {**EXAMPLE, "peers": ["Maker"], "count": 40,
                           "orgs": [{"name": "Maker", "key": SHARED_KEY.hex()}, *EXAMPLE["orgs"][1:]]}
DIGESTS = [hashlib.sha256(bytes.fromhex(it["module"])).hexdigest() for it in EXAMPLE["chaincodes"] + EXAMPLE["modules"]]
ORGS = [org["name"] for org in GENESIS["orgs"]]
NAMES = ["assets", "other", "third"]
MEMBERS = ["Carrier", "Depot", "Maker", "Shop", "a", "a_"]
# Keys that members get later, by their seeds.
LATER = {rfc8032.secret_to_public(seed).hex(): seed for seed in (bytes([number]) * 32 for number in range(1, 5))}
PUBLICS = {name: rfc8032.secret_to_public(seed).hex() for name, seed in SEEDS.items()}
NO_KEYS = [make.NO_POINT, make.SMALL_ORDER, "ff" * 32, "00" * 32, "ee" + "ff" * 30 + "7f"]
# What keys have behind their chaincode's name, and keys of no chaincode.
RESTS = [b"", b"a", b"a\0", b"ab", b"b\xff", b"c"]
STRANGE = [b"a", b"assets", b"assets0", b"assets2/a", b"\1", b"\xff"]
SHOWN = [*(f"{name}/".encode() + rest for name in NAMES for rest in RESTS), *STRANGE]
BOUNDS = [b"assets/", b"assets/ab", b"assets/b", b"assets0", b"b", b"other/", b"other0"]
POLICIES = [
    "'Maker'", "'Shop'", "OR('Maker','Carrier')", "AND('Maker', 'Shop')", "OutOf( 2 ,'Maker' , 'Carrier','Shop' )",
    "AND('Maker',OR('Carrier','Shop'))", "OutOf(1,AND('Maker','Shop'),'Carrier')", "OutOf(2,'Shop','Shop')",
    "OR(" * 8 + "'Carrier'" + ")" * 8, "AND  (  'Carrier'  )",
]
NO_POLICIES = [
    " ", " 'Maker'", "'Maker' ", "'Nobody'", "OutOf(0,'Maker')", "OutOf(2,'Maker')", "OutOf(01,'Maker')", "OutOf(00001,'Maker')",
    "OutOf('Maker')", "AND()", "and('Maker')", "OR('Maker',)", "OR('Maker'", "OR(" * 9 + "'Carrier'" + ")" * 9,
    "'Maker''Shop'", "''", "</script>",
]


def genesis_text(rules: int) -> str:
    """The genesis file of a ledger under these rules."""
    return json.dumps({name: it for name, it in GENESIS.items() if name != "rules" or rules > 1})


class Odd:
    """Envelopes that are made up on a state."""

    def __init__(self, seed: int, rules: int):
        self.chance, self.made = random.Random(seed), 0
        # What stands in front of what is signed.
        self.front = b"\xfftag " + hashlib.sha256(genesis_text(rules).encode()).digest() if rules > 1 else b""
        # The version of each key before the block that is made; what that has most likely written so far, and how many envelopes it has.
        self.state: dict[bytes, str] = {}
        self.ahead: dict[bytes, str | None] = {}
        self.block, self.place = 1, 0
        self.earlier: list[dict] = []
        # What amendments would put, by its bytes, and what stands.
        self.memberships: dict[bytes, dict] = {}
        self.serial = 0
        self.members: dict[str, str | None] = dict.fromkeys(ORGS)

    def follow(self, entries: list[list[str]]) -> None:
        """Takes up the state behind a block that was printed: each key, its version and its value."""
        self.state = {bytes.fromhex(key): version for key, version, _ in entries}
        self.ahead, self.block, self.place = {}, self.block + 1, 0
        for key, _, value in entries:
            if bytes.fromhex(key) == make.MEMBERSHIP_KEY:
                amend = self.memberships[bytes.fromhex(value)]
                self.serial, self.members = amend["serial"], {it["name"]: it.get("public") for it in amend["members"]}

    def often(self, share: float = 0.85) -> bool:
        return self.chance.random() < share

    def name(self) -> str:
        return self.chance.choices(NAMES, weights=[8, 3, 1])[0]

    def now(self) -> dict[bytes, str]:
        """What the state most likely is by now."""
        untouched = {key: version for key, version in self.state.items() if key not in self.ahead}
        return untouched | {key: version for key, version in self.ahead.items() if version is not None}

    def guessed(self) -> dict[bytes, str]:
        """The state before the block; or, now and then, what it most likely is by now."""
        return self.state if self.often(0.7) else self.now()

    def version(self, key: bytes) -> str | None:
        """The key's version, or now and then another."""
        if self.often(0.95):
            return self.guessed().get(key)
        return self.chance.choice([None, "1.0", "1.1", *self.state.values()])

    def ranges(self) -> list[dict]:
        ranges = []
        for _ in range(self.chance.choice([0, 0, 0, 1, 1, 2])):
            start = self.chance.choice([b"", b"\0", b"\0zz", *BOUNDS, *sorted(self.ahead)])
            end = self.chance.choice([b"", b"\xff\xff", *BOUNDS])
            limit, state = self.chance.choice([1, 2, 3, 64]), self.guessed()
            keys = sorted(key for key in state if key[0] and start <= key and (not end or key < end))[:limit]
            if not self.often(0.9) and keys:
                keys.pop(self.chance.randrange(len(keys)))
            entries = [{"key": key.hex(), "version": state[key]} for key in keys]
            ranges.append({"start": start.hex(), "end": end.hex(), "limit": limit, "entries": entries})
        return ranges

    def writes(self, keys: set[bytes]) -> list[dict]:
        values = [None, b"", b"1", b"\xff\xfe", "é".encode(), make.HOSTILE]
        chosen = [(key, self.chance.choice(values)) for key in sorted(keys)]
        return [{"key": key.hex(), "value": None if value is None else value.hex()} for key, value in chosen]

    def tag(self, org: str, payload: bytes) -> bytes:
        """An organisation's tag, or now and then one that is wrong, by its bytes or by its kind, or by a key of before."""
        if self.often(0.95):
            return self.tag_under(org, self.members.get(org), payload)
        seed = self.chance.choice([*SEEDS.values(), *LATER.values(), bytes(32)])
        return self.chance.choice([
            bytes(32), bytes(64), hmac.digest(SHARED_KEY, payload, "sha256"), rfc8032.sign(seed, payload),
            rfc8032.sign(seed, self.front + payload),
            self.tag_under(org, None, payload), hmac.digest(rfc8032.secret_to_public(seed), payload, "sha256"),
            self.tag_under(org, self.members.get(org), payload + b"\0")])

    def tag_under(self, org: str, public: str | None, payload: bytes) -> bytes:
        """A tag under a public key of later, or under the genesis file's key."""
        seed = LATER.get(public or "") or SEEDS.get(org)
        return rfc8032.sign(seed, self.front + payload) if seed else hmac.digest(SHARED_KEY, payload, "sha256")

    def endorsed(self, tx: dict) -> dict:
        """The transaction with tags, of which some are wrong, of nobody or there twice."""
        payload = make.payload_bytes(tx)
        tags, count = [], self.chance.choice([0, 1, 2, 3, 3, 4, 5, 6]) if "arg" in tx else 8
        names = ["Maker", "Carrier", "Shop", "Nobody", *(name for name in self.members if name not in ORGS)]
        for org in self.chance.choices(names, weights=[6, 6, 6, 1] + [3] * (len(names) - 4), k=count):
            tags.append({"org": org, "tag": self.tag(org, payload).hex()})
        self.made += 1
        return {**tx, "endorsements": tags}

    def known(self) -> list[dict]:
        """A range of the first key from one on that the block has most likely written; or none."""
        if not self.ahead or self.often(0.6):
            return []
        start, state = self.chance.choice(sorted(self.ahead)), self.now()
        entries = [{"key": key.hex(), "version": state[key]} for key in sorted(state) if key[0] and start <= key]
        return [{"start": start.hex(), "end": "", "limit": 1, "entries": entries[:1]}]

    def plain(self) -> dict:
        """A call that is most likely VALID, unless it knows what its block writes: all who stand endorse it."""
        own, put, ranges = b"\0assets", self.writes({b"assets/" + self.chance.choice(RESTS)}), self.known()
        tx: dict[str, Any] = {
            "chaincode": "assets", "arg": (b"plain %d" % self.made).hex(), "nonce": "%032x" % self.made, "result": "",
            "reads": [{"key": own.hex(), "version": self.state.get(own)}], "ranges": ranges, "writes": put}
        payload = make.payload_bytes(tx)
        tags = [{"org": org, "tag": self.tag_under(org, public, payload).hex()} for org, public in self.members.items()]
        self.made += 1
        for it in put if not ranges else []:
            self.ahead[bytes.fromhex(it["key"])] = None if it["value"] is None else f"{self.block}.{self.place}"
        return {**tx, "endorsements": tags}

    def call(self) -> dict:
        name = self.name()
        own = b"\0" + name.encode()
        reads = {*self.chance.sample(SHOWN, self.chance.randrange(3)), *([own] if self.often(0.95) else [])}
        if self.ahead and not self.often(0.7):
            reads.add(self.chance.choice(sorted(self.ahead)))
        writes = {f"{name}/".encode() + rest for rest in self.chance.sample(RESTS, self.chance.randrange(3))}
        if not self.often(0.9):
            writes.add(self.chance.choice(SHOWN))
        if not self.often(0.93):
            self.chance.choice([reads, writes]).add(b"\0" + self.chance.choice(["", *NAMES]).encode())
        return {"chaincode": name, "arg": (b"call %d" % self.made).hex(), "nonce": "%032x" % self.made, "result": "",
                "reads": [{"key": key.hex(), "version": self.version(key)} for key in sorted(reads)],
                "ranges": self.ranges(), "writes": self.writes(writes)}

    def upgrade(self) -> dict:
        name = self.name()
        own = b"\0" + name.encode()
        module = self.chance.choice(DIGESTS) if self.often(0.9) else "ab" * 32
        policy = self.chance.choice(POLICIES if self.often(0.6) else NO_POLICIES)
        profile, fuel = self.chance.choices([1, 17, 2, 18], weights=[6, 5, 1, 1])[0], self.chance.choice([1, 71, 10000000])
        definition = {"profile": profile, "module": module, "fuel": fuel, "policy": policy}
        put = Definition.of(definition if self.often(0.95) else {**definition, "fuel": 5}).encode()
        tx: dict[str, Any] = {
            "chaincode": name, "upgrade": definition, "nonce": "%032x" % self.made, "result": "" if self.often(0.95) else "00",
            "reads": [{"key": own.hex(), "version": self.version(own)}], "ranges": [] if self.often(0.95) else self.ranges(),
            "writes": [{"key": own.hex(), "value": put.hex()}]}
        if not self.often(0.95):
            tx["reads"].append({"key": b"a".hex(), "version": self.version(b"a")})
        if not self.often(0.95):
            tx["writes"].append({"key": b"b".hex(), "value": "00"})
        return tx

    def key(self, name: str) -> str | None:
        """A key for a member: that of the genesis file, one of its own, or none that can be."""
        if name in ORGS and self.often(0.4):
            return None
        if self.often(0.93):
            return self.chance.choice([*LATER, *LATER, *PUBLICS.values()])
        return self.chance.choice([None, self.chance.randbytes(32).hex(), *NO_KEYS])

    def next_members(self) -> dict[str, str | None]:
        """Those who stand, with a change or two; or any others."""
        if not self.often(0.9):
            return {name: self.key(name) for name in self.chance.sample(MEMBERS, self.chance.randrange(1, 5))}
        members = dict(self.members)
        for _ in range(self.chance.choice([1, 1, 2])):
            name = self.chance.choice([*members, *MEMBERS])
            if name in members and len(members) > 1 and self.often(0.3):
                del members[name]
            else:
                members[name] = self.key(name)
        return members

    def amendment(self) -> dict:
        members = dict(sorted(self.next_members().items()))
        least = self.chance.choice([1, 1, 2])
        good = f"OutOf({least},{','.join(repr(name) for name in members)})"
        policy = good if self.often(0.7) else self.chance.choice(POLICIES + NO_POLICIES)
        serial = self.serial + 1 if self.often(0.9) else self.chance.choice([0, self.serial, self.serial + 2, 2**32 - 1])
        listed = [{"name": name} if key is None else {"name": name, "public": key} for name, key in members.items()]
        amend, own = {"serial": serial, "members": listed, "policy": policy}, make.MEMBERSHIP_KEY
        put = Membership.of(amend).encode()
        self.memberships[put] = amend
        tx: dict[str, Any] = {
            "amend": amend, "nonce": "%032x" % self.made, "result": "" if self.often(0.95) else "00",
            "reads": [{"key": own.hex(), "version": self.version(own)}], "ranges": [] if self.often(0.95) else self.ranges(),
            "writes": [{"key": own.hex(), "value": put.hex()}]}
        if not self.often(0.95):
            tx["writes"].append({"key": b"b".hex(), "value": "00"})
        return tx

    def envelope(self) -> dict:
        if self.earlier and not self.often(0.96):
            return self.chance.choice(self.earlier)
        propose = self.chance.choices([self.call, self.upgrade, self.amendment], weights=[15, 4, 3])[0]
        tx = self.endorsed(propose()) if self.often(0.8) else self.plain()
        self.earlier.append(tx)
        return tx

    def next(self) -> dict:
        """The next envelope of the block."""
        tx = self.envelope()
        self.place += 1
        return tx


def run(room: pathlib.Path, lines: list[dict], store: pathlib.Path) -> list[str]:
    """What `./ledger run` prints on these lines."""
    events = room / "odd.jsonl"
    events.write_text("".join(json.dumps(line) + "\n" for line in lines))
    command: list[str | pathlib.Path] = [ROOT / "ledger", "run", room / "odd_genesis.json", events, "--store", store]
    return subprocess.run(command, stdout=subprocess.PIPE, stderr=subprocess.DEVNULL, text=True).stdout.splitlines()


def odd_chain(room: pathlib.Path, rounds: int, seed: int, rules: int) -> list[str]:
    """Writes a genesis file and a store into a folder. Returns what `run` printed."""
    odd = Odd(seed, rules)
    lines: list[dict] = []
    printed: list[str] = []
    (room / "odd_genesis.json").write_text(genesis_text(rules))
    for _ in range(rounds):
        for _ in range(GENESIS["count"]):
            lines += [{"do": "submit", "hex": make.envelope_bytes(odd.next()).hex()}, {"do": "take"}]
        lines.append({"do": "commit", "peer": 0})
        printed = run(room, lines, room / "odd.store")
        odd.follow([line.split()[1:] for line in printed if line.startswith("state ")])
    return printed
