#!/usr/bin/env python3
"""Makes chains to try the page on, as lines of `show`. It works out hashes and flags by docs/RULES.md; bytes are the node's codec's.

    examples/page/make.py BLOCKS > chain.jsonl

The transactions are made up, and so are the tags of organisations with shared keys: which are right is said, as in every such
file. Members with public keys sign.
"""
import hashlib
import json
import pathlib
import random
import re
import sys
from collections.abc import Iterable, Iterator

ROOT = pathlib.Path(__file__).resolve().parents[2]
sys.path[:0] = [str(ROOT / "node"), str(ROOT / "python")]
import rfc8032
from regtuma import wire

ORGS = ["Maker", "Carrier", "Shop"]


def two_of(names: list[str]) -> str:
    return f"OutOf(2,{','.join(repr(name) for name in names)})"


POLICY = two_of(ORGS)
# The organisations and the policy of an open definition's text, beside POLICY's.
LATER_ORGS = ["Carrier", "Depot", "Maker"]
CHAINCODE = "assets"
DEFINITION_KEY, MEMBERSHIP_KEY = b"\0" + CHAINCODE.encode(), b"\0"
# What each key begins with that the chaincode may write under rules 2.
NAMESPACE = CHAINCODE.encode() + b"/"
# Those that are installed, and one that was written later. A profile is of a closed definition, or of an open one.
MODULES = [hashlib.sha256(name).digest() for name in (b"first", b"second")]
LATER = hashlib.sha256(b"later").digest()
CLOSED, OPEN = 1, 17
# 32 bytes that are no public key, and others that are one of small order.
NO_POINT, SMALL_ORDER = "5a" * 32, "01" + 31 * "00"
VALID, NOT_ENDORSED, CONFLICT, PHANTOM, DUPLICATE = range(5)
# A range that is read: its start, its end and its limit; and a key with the value that it gets, if any.
Range = tuple[bytes, bytes, int]
Write = tuple[bytes, bytes | None]
HOSTILE = b"</script><img src=x onerror=\"document.title='escaped'\">"


def digest(data: bytes) -> str:
    return hashlib.sha256(data).hexdigest()


def field(item: dict, name: str) -> bytes:
    return bytes.fromhex(item[name])


def place_of(version: str) -> wire.Version:
    block, place = version.split(".")
    return int(block), int(place)


def proposal_of(tx: dict) -> wire.Proposal:
    if "amend" in tx:
        return wire.Amendment(wire.Membership.of(tx["amend"]), field(tx, "nonce"))
    if "upgrade" in tx:
        return wire.Upgrade(tx["chaincode"], wire.Definition.of(tx["upgrade"]), field(tx, "nonce"))
    return wire.Call(tx["chaincode"], field(tx, "arg"), field(tx, "nonce"))


def payload_bytes(tx: dict) -> bytes:
    reads = [wire.Read(field(it, "key"), it["version"] and place_of(it["version"])) for it in tx["reads"]]
    ranges = [wire.Range(field(it, "start"), field(it, "end"), it["limit"],
                         [(field(entry, "key"), place_of(entry["version"])) for entry in it["entries"]]) for it in tx["ranges"]]
    writes = [wire.Write(field(it, "key"), None if it["value"] is None else field(it, "value")) for it in tx["writes"]]
    return wire.Payload(proposal_of(tx), field(tx, "result"), reads, ranges, writes).encode()


def envelope_bytes(tx: dict) -> bytes:
    return wire.Envelope(payload_bytes(tx), [wire.Endorsement(it["org"], field(it, "tag")) for it in tx["endorsements"]]).encode()


def data_bytes(txs: list[dict]) -> bytes:
    return wire.counted([wire.sized(envelope_bytes(tx), 4) for tx in txs], 2)


def header_hash(block: dict) -> str:
    return digest(block["block"].to_bytes(4, "big") + field(block, "previous") + field(block, "data"))


def public_of(seed: bytes) -> str:
    return rfc8032.secret_to_public(seed).hex()


class Chain:
    """Blocks of transactions whose flags are worked out as they are added. Two tags are wanted of each. It may be the rest of a chain
    whose blocks before wrote nothing."""

    def __init__(self, rules: int = 1, first: int = 1) -> None:
        self.rules, self.first, self.blocks = rules, first, list[dict]()
        # The version and the value of each key, and before the block that is made; and the keys that this wrote so far.
        self.state: dict[bytes, tuple[str, str]] = {}
        self.before: dict[bytes, tuple[str, str]] = {}
        self.written: set[bytes] = set()
        self.ids: set[str] = set()
        self.made = self.serial = 0
        # Who stands: each member's public key, or None for its shared one. Under which key each tag that is right was made.
        self.members: dict[str, str | None] = dict.fromkeys(ORGS)
        self.keys_of_tags: dict[str, str | None] = {}
        # Whose calls count: the organisations that the policy of the definition names.
        self.callers = ORGS
        # The seeds of those who sign.
        self.seeds: dict[str, bytes] = {}

    def version(self, key: bytes) -> str | None:
        return self.state[key][0] if key in self.state else None

    def transaction(self, reads: Iterable[bytes] = (), ranges: Iterable[Range] = (), writes: Iterable[Write] = (),
                    orgs: list[str] = ORGS[:2], argument: bytes = b"") -> dict:
        """A call of this moment, with tags of these organisations; those behind a ! are wrong."""
        call = {"chaincode": CHAINCODE, "arg": argument.hex()}
        return self.proposed(call, {DEFINITION_KEY, *reads}, ranges, writes, orgs)

    def proposed(self, what: dict, reads: Iterable[bytes], ranges: Iterable[Range], writes: Iterable[Write], orgs: list[str],
                 claimed: str | None = None) -> dict:
        """The same of a call, an upgrade or an amendment, with all that it reads, at the versions of now or as claimed."""
        self.made += 1
        tx = {"id": "", "flag": 0, **what, "nonce": "%032x" % self.made, "result": "",
              "reads": [{"key": key.hex(), "version": claimed or self.version(key)} for key in sorted(reads)],
              "ranges": [{"start": a.hex(), "end": b.hex(), "limit": n, "entries": self.entries(a, b, n)} for a, b, n in ranges],
              "writes": [{"key": key.hex(), "value": None if value is None else value.hex()} for key, value in sorted(writes)],
              "endorsements": []}
        tx["id"] = digest(proposal_of(tx).encode())
        tx["endorsements"] = [{"org": org.lstrip("!"), "tag": self.tag(org, payload_bytes(tx))} for org in orgs]
        return tx

    def tag(self, org: str, payload: bytes) -> str:
        """A signature where the organisation has a seed; else one that nobody can judge, which is wrong behind a !."""
        seed = self.seeds.get(org)
        tag = rfc8032.sign(seed, payload).hex() if seed else digest(f"{org} {self.made}".encode())
        if not org.startswith("!"):
            self.keys_of_tags[tag] = public_of(seed) if seed else None
        return tag

    def is_right(self, org: str, tag: str) -> bool:
        return org in self.members and tag in self.keys_of_tags and self.keys_of_tags[tag] == self.members[org]

    def upgrade(self, module: bytes, policy: str = POLICY, orgs: list[str] = ORGS[:2], profile: int = CLOSED) -> dict:
        upgrade = {"profile": profile, "module": module.hex(), "fuel": 100000, "policy": policy}
        what, write = {"chaincode": CHAINCODE, "upgrade": upgrade}, (DEFINITION_KEY, wire.Definition.of(upgrade).encode())
        return self.proposed(what, [DEFINITION_KEY], [], [write], orgs)

    def amendment(self, members: list[dict], policy: str | None = None, orgs: list[str] = ORGS, serial: int | None = None,
                  claimed: str | None = None) -> dict:
        """By default the next one, to the policy of two of the members."""
        names = [it["name"] for it in members]
        amend = {"serial": self.serial + 1 if serial is None else serial, "members": members, "policy": policy or two_of(names)}
        return self.proposed({"amend": amend}, [MEMBERSHIP_KEY], [], [(MEMBERSHIP_KEY, wire.Membership.of(amend).encode())], orgs, claimed)

    def entries(self, start: bytes, end: bytes, limit: int, before: bool = False) -> list[dict]:
        """The first entries of a range, now or before the block that is made."""
        state = self.before if before else self.state
        keys = sorted(key for key in state if key[0] and start <= key and (not end or key < end))
        return [{"key": key.hex(), "version": state[key][0]} for key in keys[:limit]]

    def flag(self, tx: dict) -> int:
        if tx["id"] in self.ids:
            return DUPLICATE
        right = {it["org"] for it in tx["endorsements"] if it["right"]}
        if len(right & set(self.callers if "arg" in tx else self.members)) < 2 or not self.is_usable(tx):
            return NOT_ENDORSED
        if not all(self.is_current(field(it, "key"), it["version"]) for it in tx["reads"]):
            return CONFLICT
        # Under rules 2 a range has to be as it is now, and as it was before the block.
        moments = [False] if self.rules == 1 else [False, True]
        seen = [(it["entries"], self.entries(field(it, "start"), field(it, "end"), it["limit"], before))
                for it in tx["ranges"] for before in moments]
        return VALID if all(claimed == found for claimed, found in seen) else PHANTOM

    def is_current(self, key: bytes, version: str | None) -> bool:
        """Whether a key was read as it is now, and, under rules 2, its block has not written it so far."""
        return self.version(key) == version and (self.rules == 1 or key not in self.written)

    def is_usable(self, tx: dict) -> bool:
        """Whether it is a call that writes what it may, or proposes a definition or the next membership that can be used, on what
        stood before."""
        if "arg" not in tx and any(self.is_newer(it) for it in tx["reads"]):
            return False
        if "amend" in tx:
            return tx["amend"]["serial"] == self.serial + 1 and self.is_usable_membership(tx["amend"])
        if "upgrade" not in tx:
            return self.rules == 1 or all(field(it, "key").startswith(NAMESPACE) for it in tx["writes"])
        closed, policy = tx["upgrade"]["profile"] == CLOSED, tx["upgrade"]["policy"]
        if closed:
            return field(tx["upgrade"], "module") in MODULES and policy == POLICY
        return any(policy == two_of(names) and set(names) <= set(self.members) for names in (ORGS, LATER_ORGS))

    def is_newer(self, read: dict) -> bool:
        """Whether it claims a version that is later than the one before the block."""
        before = self.before.get(field(read, "key"))
        return read["version"] is not None and (before is None or place_of(before[0]) < place_of(read["version"]))

    def is_usable_membership(self, amend: dict) -> bool:
        """Public keys are those of seeds that are known here, and one that is none."""
        names, publics = [it["name"] for it in amend["members"]], [it["public"] for it in amend["members"] if "public" in it]
        have_keys = all("public" in it or it["name"] in ORGS for it in amend["members"])
        are_keys = not {NO_POINT, SMALL_ORDER} & set(publics) and len(set(publics)) == len(publics)
        return have_keys and are_keys and len(names) > 1 and amend["policy"] == two_of(names)

    def follow(self, block: dict) -> None:
        """Takes up what the VALID transactions of a block changed for those behind it."""
        for tx in block["txs"]:
            if tx["flag"] == VALID and "amend" in tx:
                self.members = {it["name"]: it.get("public") for it in tx["amend"]["members"]}
                self.serial = tx["amend"]["serial"]
            if tx["flag"] == VALID and "upgrade" in tx:
                self.callers = next(names for names in (ORGS, LATER_ORGS) if tx["upgrade"]["policy"] == two_of(names))

    def add(self, *proposed: dict) -> None:
        """Puts transactions into the next block."""
        number = self.first + len(self.blocks)
        self.before, self.written = dict(self.state), set()
        txs: list[dict] = [
            {**tx, "endorsements": [{**it, "right": self.is_right(it["org"], it["tag"])} for it in tx["endorsements"]]}
            for tx in proposed]
        for place, tx in enumerate(txs):
            tx["flag"] = self.flag(tx)
            self.ids.add(tx["id"])
            for it in tx["writes"] if tx["flag"] == VALID else []:
                self.written.add(field(it, "key"))
                self.state.pop(field(it, "key"), None)
                if it["value"] is not None:
                    self.state[field(it, "key")] = (f"{number}.{place}", it["value"])
        previous = self.blocks[-1]["hash"] if self.blocks else "00" * 32
        block = {"block": number, "hash": "", "previous": previous, "data": digest(data_bytes(txs)), "txs": txs}
        block["hash"] = header_hash(block)
        self.blocks.append(block)
        self.follow(block)

    def flags(self) -> list[int]:
        """How many transactions have each flag."""
        flags = [tx["flag"] for block in self.blocks for tx in block["txs"]]
        return [flags.count(flag) for flag in range(5)]

    def lines(self) -> Iterator[dict]:
        modules = [{"profile": 1, "module": module.hex()} for module in MODULES]
        chaincode = {"name": CHAINCODE, "policy": POLICY, "fuel": 100000, **modules[0]}
        rules = {"rules": self.rules, "digest": digest(b"genesis")} if self.rules > 1 else {}
        yield {"ledger": 1, "orgs": ORGS, "peers": ORGS, "chaincodes": [chaincode], "modules": modules, "upgrade": POLICY,
               "count": 8, "preferred": 65536, "absolute": 524288, "reorder": False, **rules}
        yield from self.blocks
        yield {"audit": "agrees", "rerun": self.flags()[VALID], "blocks": len(self.blocks), "end": "clean"}


def text_of(lines: Iterable[dict]) -> str:
    return "".join(json.dumps(line, separators=(",", ":")) + "\n" for line in lines)


def key_of(number: int) -> bytes:
    return NAMESPACE + b"%04d" % number


def kept(names: list[str]) -> list[dict]:
    """Members that keep their keys."""
    return [{"name": name} for name in sorted(names)]


def some_transaction(chain: Chain, chance: random.Random, before: list[dict]) -> dict:
    """One of several kinds: mostly a transfer; some are made stale by those of `before`, which are put in front of it."""
    key, kind = key_of(chance.randrange(400)), chance.random()
    value = chance.choice(ORGS).encode() + b" %d" % chance.randrange(10**6)
    if kind < 0.04:
        return chain.transaction(ranges=[(key, b"assets0", chance.randrange(1, 17))], argument=b"list")
    if kind < 0.08:
        return chain.transaction(reads=[key], writes=[(key, None)], argument=b"drop " + key)
    if kind < 0.14:
        return chain.transaction(reads=[key], writes=[(key, value)], orgs=["Shop", "!Carrier"], argument=b"take " + key)
    if kind < 0.17 and before:
        return chance.choice(before)
    if kind < 0.18:
        return chain.upgrade(chance.choice(MODULES))
    if kind < 0.19:
        return chain.upgrade(LATER, profile=chance.choice([CLOSED, OPEN, OPEN]))
    if kind < 0.195:
        return chain.amendment(kept(chance.choice([ORGS, ORGS, ORGS, ORGS[:2], ORGS[:2], ORGS[1:], ORGS[:1]])))
    other = key_of(chance.randrange(400))
    return chain.transaction(reads=[key, other], writes=[(key, value)], argument=b"transfer " + key + b" " + value)


def made_up(blocks: int, rules: int = 1, first: int = 1) -> Chain:
    """A chain of so many blocks, of all flags."""
    chain, chance = Chain(rules, first), random.Random(1)
    before: list[dict] = []
    for _ in range(blocks):
        txs = [some_transaction(chain, chance, before) for _ in range(chance.randrange(1, 7))]
        chain.add(*txs)
        before = txs
    return chain


def hostile() -> Chain:
    """A chain with markup wherever a chain can hold text."""
    chain = Chain()
    chain.add(chain.transaction(reads=[b"<b>key"], writes=[(b"<b>key", HOSTILE)], argument=HOSTILE))
    chain.add(chain.upgrade(MODULES[1], policy=HOSTILE.decode()), chain.upgrade(LATER, policy=HOSTILE.decode(), profile=OPEN))
    chain.add(chain.amendment([{"name": "Maker"}], policy=HOSTILE.decode()))
    return chain


def later() -> Chain:
    """A chain of code that the genesis file does not have: an open upgrade and a call behind it, and upgrades and an amendment
    that are not endorsed."""
    chain = Chain()
    chain.add(chain.transaction(writes=[(b"a", b"1")]), chain.upgrade(LATER, profile=OPEN))
    chain.add(
        chain.transaction(reads=[b"a"], writes=[(b"a", b"2")]),
        chain.upgrade(LATER),
        chain.upgrade(LATER, policy="'Depot'", profile=OPEN),
        chain.upgrade(LATER, policy="'Maker' ", profile=OPEN),
        chain.amendment([{"name": "Carrier"}, {"name": "Depot", "public": "5a" * 32}], policy="OR('Carrier','Depot')"))
    return chain


def claiming(tx: dict, reads: dict[bytes, str | None], entries: list[tuple[bytes, str]] | None = None) -> dict:
    """A call that claims to have read these versions, and these entries of its only range."""
    tx["reads"] = [{**it, "version": reads.get(field(it, "key"), it["version"])} for it in tx["reads"]]
    if entries is not None:
        tx["ranges"][0]["entries"] = [{"key": key.hex(), "version": version} for key, version in entries]
    return tx


def settled(rules: int) -> Chain:
    """A chain that differs by its rules: its calls know what their own block writes, and write keys of others."""
    chain, (a, b, c) = Chain(rules), (NAMESPACE + it for it in (b"a", b"b", b"c"))
    everything = (NAMESPACE, b"assets0", 9)
    chain.add(chain.transaction(writes=[(a, b"1"), (b, b"1")]))
    now = [(a, "2.0"), (b, "1.0")]
    chain.add(
        chain.transaction(reads=[a], writes=[(a, b"2")]),
        claiming(chain.transaction(reads=[a]), {a: "2.0"}),
        chain.transaction(reads=[b]),
        chain.transaction(reads=[a]),
        claiming(chain.transaction(ranges=[everything]), {}, now),
        chain.transaction(ranges=[everything]),
        chain.transaction(writes=[(c, b"1")]),
        chain.transaction(reads=[c]),
        chain.transaction(writes=[(c, None)]),
        chain.transaction(reads=[c]),
        claiming(chain.transaction(ranges=[(b, b"assets0", 9)]), {}, [(b, "1.0")]),
        *(chain.transaction(writes=[(NAMESPACE, b"1"), (key, value)])
          for key, value in ((b"other/a", b"1"), (b"assets2/a", None), (b"assets", b"1"), (b"a", b"1"))))
    chain.add(chain.transaction(reads=[a], ranges=[everything], writes=[(NAMESPACE + b"d", b"1")]))
    return chain


def amended() -> Chain:
    """A chain whose members change: Depot joins, its key is replaced and the Carrier gets a public one, and Depot and the Shop
    leave; before and behind each what no longer counts, or does not yet, and what no amendment may be."""
    chain, seeds = Chain(), [bytes([number]) * 32 for number in range(3)]
    public = [public_of(seed) for seed in seeds]
    depot = {"name": "Depot", "public": public[0]}
    chain.add(chain.transaction(orgs=["Maker", "Carrier"]))
    chain.seeds = {"Depot": seeds[0]}
    chain.add(
        chain.transaction(orgs=["Maker", "Depot"]),
        chain.amendment([*kept(["Carrier"]), depot, *kept(["Maker", "Shop"])], orgs=["Maker", "Shop"]),
        chain.upgrade(LATER, policy=two_of(LATER_ORGS), profile=OPEN, orgs=["Maker", "Shop"]))
    chain.add(
        chain.upgrade(LATER, policy=two_of(LATER_ORGS), profile=OPEN, orgs=["Shop", "Depot"]),
        chain.amendment(kept(["Maker", "Shop"]), serial=1),
        chain.amendment(kept(["Maker", "Stranger"])),
        chain.amendment([{"name": "Depot", "public": NO_POINT}, *kept(["Maker"])]),
        chain.amendment([{"name": "Depot", "public": SMALL_ORDER}, *kept(["Maker"])]),
        chain.amendment([depot, {"name": "Maker", "public": public[0]}]),
        chain.amendment(kept(["Maker", "Shop"]), policy=two_of(["Maker", "Carrier"])),
        chain.amendment(kept(["Maker", "Shop"]), orgs=["Maker", "!Depot"]),
        chain.amendment(kept(["Maker", "Shop"]), claimed="3.7"))
    chain.add(
        chain.amendment([{"name": "Carrier", "public": public[1]}, {"name": "Depot", "public": public[2]}, *kept(["Maker", "Shop"])],
                        orgs=["Maker", "Depot"]),
        chain.transaction(orgs=["Depot", "Maker"]))
    old = [chain.transaction(orgs=orgs) for orgs in (["Depot", "Maker"], ["Carrier", "Maker"])]
    chain.seeds = {"Carrier": seeds[1], "Depot": seeds[2]}
    chain.add(*old, chain.transaction(orgs=["Depot", "Carrier"], writes=[(b"a", b"1")]))
    chain.add(chain.amendment([{"name": "Carrier", "public": public[1]}, *kept(["Maker"])], orgs=["Depot", "Carrier"]))
    chain.add(
        chain.transaction(orgs=["Depot", "Maker", "Shop", "Nobody"]),
        chain.amendment([*kept(["Maker"]), {"name": "Shop", "public": public[2]}], orgs=["Depot", "Shop"]),
        chain.transaction(orgs=["Carrier", "Maker", "Shop"], writes=[(b"a", b"2")]))
    return chain


def linked(lines: list[dict]) -> list[dict]:
    """The lines of a chain with the hashes that its blocks have."""
    lines, previous = json.loads(json.dumps(lines)), "00" * 32
    for block in lines[1:-1]:
        block.update(previous=previous, data=digest(data_bytes(block["txs"])))
        previous = block["hash"] = header_hash(block)
    return lines


def tampered(lines: list[dict]) -> tuple[list[dict], list[str]]:
    """The lines of the example's chain with six lies, and what the page is to find: the kind of each, and where."""
    lines = json.loads(json.dumps(lines))
    first, second, third, fourth = lines[1:5]
    first["txs"][0]["writes"][0]["value"] = b"Thief".hex()
    second["txs"][1]["flag"] = VALID
    third["previous"] = "ab" * 32
    fourth["txs"][0]["id"] = "cd" * 32
    fourth["txs"][1]["endorsements"][0].update(org="Nobody")
    lines[-1].update(audit="flags differ 2", rerun=0, end="refused 701")
    # The first value was signed by two. The header of block 3 is another now, so block 4 does not name it; the tag of nobody
    # changes the bytes of block 4.
    found = "data 1, signature 1.0, signature 1.0, flag 2.1, link 3, hash 3, link 4, data 4, id 4.0, tag 4.1".split(", ")
    return lines, found


def main(words: list[str]) -> int:
    if len(words) != 1 or not re.fullmatch("[0-9]{1,9}", words[0]):
        is_help = words in (["--help"], ["-h"])
        print(__doc__, file=sys.stdout if is_help else sys.stderr)
        return 0 if is_help else 2
    sys.stdout.write(text_of(made_up(int(words[0])).lines()))
    return 0


if __name__ == "__main__":
    sys.exit(main(sys.argv[1:]))
