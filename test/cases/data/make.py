#!/usr/bin/env python3
"""Writes orders*, sizes*, names*, ends.json, scans.jsonl, stranger.jsonl, bytes.jsonl, upgrades*, versions.jsonl,
predicted.jsonl, profiles*, rules*, seatless.json, nobody.json, doubled.json, look.json, extend.wasm, signed*, alone*, second.json,
forged.jsonl, bound*, open*, modules*, members*, args.jsonl, logs (*.log) and other lines of a peer (*.lines), key files and stores
beside this file: events with envelopes, genesis files, modules files, modules and stores that are laid out here, by
docs/RULES.md.

older.store is not among them: the program wrote it when calls did not read their definitions yet. It has the blocks of
whole.store but for these reads.
"""
import hashlib
import hmac
import json
import pathlib
import sys

HERE = pathlib.Path(__file__).parent
sys.path[:0] = [str(HERE.resolve().parents[2] / folder) for folder in ("node", "python")]
import rfc8032
from regtuma import wire

KEYS = {"A": b"Jefe", "B": b"B"}
PUT_A, GET_PUT_A = (
    bytes.fromhex(json.loads((HERE / name).read_text())["chaincodes"][0]["module"]) for name in ("put.json", "get.json")
)


def short(data):
    return bytes([len(data)]) + data


def payload(nonce, reads=(), ranges=(), writes=(), argument=b"", name="kv"):
    """A call. A read is a key and a version or None, a range its start, end, limit and entries, a write a key and a
    value."""
    proposal = wire.Call(name, argument, nonce.to_bytes(16, "big"))
    lists = [wire.Read(*it) for it in reads], [wire.Range(*it) for it in ranges], [wire.Write(*it) for it in writes]
    return wire.Payload(proposal, b"", *lists).encode()


def call(nonce, reads=(), definition=None, name="kv", **rest):
    """The same, which reads its definition: of this version, or absent."""
    return payload(nonce, [(b"\0" + name.encode(), definition), *reads], name=name, **rest)


def envelope(data, orgs="A"):
    """A payload with the tags of organisations."""
    return wire.Envelope(data, [wire.Endorsement(org, hmac.digest(KEYS[org], data, "sha256")) for org in orgs]).encode()


def event(do, **fields):
    return json.dumps({"do": do, **fields}, separators=(",", ":"))


def write(name, lines):
    (HERE / name).write_text("".join(line + "\n" for line in lines))


LIMITS = {"queue": 4, "count": 1, "preferred": 65536, "absolute": 524288, "reorder": False}


def installed(code, profile=1):
    """A module as it is listed, which is read by a profile."""
    return {"module": code.hex(), "profile": profile}


def genesis(name, policy="'A'", more=(), modules=(), upgrade=None, fuel=400, code=PUT_A, **others):
    """Two peers, a chaincode `kv`, which puts `1` at `a` where its module is no other, more chaincodes by their names and
    modules, and modules as they are listed. The policy is that of upgrades too, where these are given no other."""
    chaincodes = [("kv", code, 1), *more]
    text = {
        "orgs": [{"name": org, "key": key.hex()} for org, key in KEYS.items()],
        "peers": list(KEYS),
        "seats": 2,
        **LIMITS,
        **others,
        "chaincodes": [
            {"name": called, "policy": policy, "fuel": fuel, **installed(code, profile)}
            for called, code, profile in chaincodes
        ],
        "modules": list(modules),
        "upgrade": upgrade or policy,
    }
    (HERE / name).write_text(json.dumps(text, separators=(",", ":")))


def batch(*payloads):
    """Submits payloads with A's tag, has them taken, and ticks."""
    lines = [event("submit", hex=envelope(data).hex()) for data in payloads]
    return lines + [event("take")] * len(payloads) + [event("tick")]


def puts(*keys):
    return [(key, b"1") for key in keys]


# Batches that are put in order, or stay as they were cut.
FIRST = (1, 0)
orders = batch(call(1, writes=puts(b"k1", b"k2", b"k3", b"k4", b"k5")))
orders += batch(
    call(11, writes=puts(b"k1", b"k2")),
    call(12, reads=[(b"k1", FIRST)], writes=puts(b"k3")),
    call(13, writes=puts(b"k2")),
    call(14, reads=[(b"k2", FIRST)], writes=puts(b"k2")),
    call(15, reads=[(b"k5", FIRST)], writes=puts(b"k6")),
)
# Each reads what the other writes.
orders += batch(
    call(21, reads=[(b"x", FIRST)], writes=puts(b"y")), call(22, reads=[(b"y", FIRST)], writes=puts(b"x"))
)
# A range stands before the writers of its keys, with an end and without; one that ends before a key does not hold it.
for nonce, letter, end in ((30, b"p", b"pc"), (40, b"q", b"qb"), (50, b"r", b"")):
    orders += batch(
        call(nonce + 1, writes=puts(letter + b"b")),
        call(nonce + 2, writes=puts(letter + b"a")),
        call(nonce + 3, ranges=[(letter + b"aa", end, 1, [])], writes=puts(letter + b"!")),
    )
# A read that is older than another's; a key that was absent; each has an older one.
orders += batch(call(61, reads=[(b"x", (1, 0))]), call(62, reads=[(b"x", (2, 0))]))
orders += batch(call(71, reads=[(b"x", None)]), call(72, reads=[(b"x", (2, 0))]))
orders += batch(
    call(81, reads=[(b"x", (1, 0)), (b"y", (2, 0))]), call(82, reads=[(b"x", (2, 0)), (b"y", (1, 0))])
)
# One that is left out takes no part in the order of the others.
orders += batch(
    call(91, writes=puts(b"s1", b"s2")),
    call(92, reads=[(b"s1", None)], writes=puts(b"s3")),
    call(93, writes=puts(b"s2")),
    call(94, reads=[(b"k1", (1, 0)), (b"s2", None)], writes=puts(b"s2")),
    call(95, reads=[(b"k1", (2, 2))], writes=puts(b"s6")),
)
write("orders.jsonl", orders + [event("commit", peer=0)] * 10)
genesis("orders-on.json", queue=5, count=512, reorder=True)
genesis("orders-off.json", queue=5, count=512)

# Batches that are cut by their count, by their size, by a tick and by an envelope above the preferred size.


def submit(nonce, size):
    """Submits an envelope of so many bytes, without tags. Without an argument it has 30."""
    return event("submit", hex=envelope(payload(nonce, argument=bytes(size - 30)), "").hex())


sizes = []
for count, size in enumerate((30, 30, 30, 30, 30, 41, None, None, 30, 101, 100, 30, None, 140, 141)):
    sizes += [event("tick")] if size is None else [submit(count, size), event("take")]
sizes += [submit(100 + count, 30) for count in range(5)]
write("sizes.jsonl", sizes + [event("commit", peer=0)])
genesis("sizes.json", count=3, preferred=100, absolute=140)

# Names that are bound again, and what two names stand for together.


def begin(peer, nonce, seat=0, chaincode="kv", **argument):
    return event("begin", peer=peer, seat=seat, chaincode=chaincode, **(argument or {"arg": "-"}), nonce="%032x" % nonce)


def upgrade(peer, nonce, code, fuel=400, policy="'A'", chaincode="kv", profile=1):
    """Begins an upgrade to this module."""
    definition = {"fuel": fuel, "module": hashlib.sha256(code).hexdigest(), "policy": policy, "profile": profile}
    return event("begin", **definition, nonce="%032x" % nonce, peer=peer, seat=0, upgrade=chaincode)


def amend(peer, nonce, serial, policy, *members, seat=0):
    """Begins an amendment: the next membership."""
    return event("begin", members=members, policy=policy, serial=serial, nonce="%032x" % nonce, peer=peer, seat=seat)


def finish(peer, name, seat=0):
    return event("finish", peer=peer, seat=seat, **{"as": name})


def use(*names):
    return [event("submit", use=list(names)), event("take")]


names = [begin(0, 1), finish(0, "e1"), begin(1, 2), finish(1, "e2"), begin(0, 2), finish(0, "e1")]
names += use("e1", "e2") + use("e2", "e1") + [begin(0, 1), finish(0, "e3")] + use("e3")
write("names.jsonl", names + [event("commit", peer=0)] * 3)
genesis("names.json", policy="AND('A', 'B')")

# Calls by texts on peer 1, which are those by hex on peer 0: one payload with two endorsements.
same = [begin(0, 1, arg="612062"), finish(0, "e1"), begin(1, 1, args=["a", "b"]), finish(1, "e2"), *use("e1", "e2")]
same += [begin(0, 2), finish(0, "e3"), begin(1, 2, args=[]), finish(1, "e4"), *use("e3", "e4")]
write("args.jsonl", same + [event("commit", peer=0)] * 2)


# Ends of calls: a trap, a status, and a range and a delete that are told.
def section(number, data):
    return bytes([number, len(data)]) + data


def module(code, imports=()):
    """A module whose `invoke` is this code, with a memory that begins with `ac`."""
    types = [b"\x60" + short(b"\x7f" * parameters) + b"\x01\x7f" for parameters in (0, 2, 7, 4)]
    named = b"".join(short(b"fabric") + short(name) + bytes([0, kind]) for name, kind in imports)
    body = b"\0" + code + b"\x0b"
    return (
        b"\0asm\1\0\0\0"
        + section(1, bytes([len(types)]) + b"".join(types))
        + section(2, bytes([len(imports)]) + named)
        + section(3, b"\1\0")
        + section(5, b"\1\0\1")
        + section(7, b"\1" + short(b"invoke") + b"\0" + bytes([len(imports)]))
        + section(10, b"\1" + short(body))
        + section(11, b"\1\0\x41\0\x0b" + short(b"ac"))
    )


def constants(*numbers):
    return b"".join(b"\x41" + bytes([number]) for number in numbers)


SCAN = constants(0, 1, 1, 1, 2, 16, 32) + b"\x10\x00\x1a" + constants(0, 1) + b"\x10\x01\x1a" + constants(0)
genesis(
    "ends.json",
    more=[
        ("scan", module(SCAN, [(b"range_state", 2), (b"del_state", 1)]), 1),
        ("status", module(constants(0x79)), 1),
        ("trap", module(b"\x00"), 1),
        ("zero", module(constants(1, 0) + b"\x6d"), 1),
    ],
)

# A range that a key comes into before the call that asked for it is finished.
scans = [begin(0, 1, chaincode="scan"), begin(0, 2, seat=1), finish(0, "e1", seat=1), *use("e1")]
scans += [event("commit", peer=0), finish(0, "e2"), begin(0, 3, chaincode="scan"), finish(0, "e2"), *use("e2")]
write("scans.jsonl", scans + [event("commit", peer=0)])

# An envelope of a chaincode that the genesis does not have.
stranger = event("submit", hex=envelope(call(1, writes=puts(b"a"), name="zz")).hex())
write("stranger.jsonl", [stranger, event("take"), event("commit", peer=0)])

# An envelope whose last byte is missing, one with its writes out of order, one with a range of limit 0, and one with a byte
# behind it; then the first as it is whole.
whole = envelope(call(1, writes=puts(b"a", b"b")))
damaged = [
    whole[:-1],
    envelope(call(1, writes=puts(b"b", b"a"))),
    envelope(call(1, ranges=[(b"a", b"c", 0, [])])),
    whole + b"\0",
]
write("bytes.jsonl", [event("submit", hex=data.hex()) for data in [*damaged, whole]])

# Upgrades. `kv` puts `1` at `a`; `key` puts the byte of its argument at itself. A endorses calls, and B upgrades.
KEY = module(
    constants(0, 1) + b"\x10\x00\x1a" + constants(0, 1, 0, 1) + b"\x10\x01\x1a" + constants(0),
    [(b"get_arg", 1), (b"put_state", 3)],
)
UPGRADES = {"more": [("key", KEY, 1)], "upgrade": "'B'"}
SECOND = [installed(GET_PUT_A)]
genesis("upgrades-on.json", modules=SECOND, queue=5, count=512, reorder=True, **UPGRADES)
genesis("upgrades-off.json", modules=SECOND, queue=5, count=512, **UPGRADES)
genesis("upgrades.json", modules=SECOND, **UPGRADES)
genesis("upgrades-bare.json", **UPGRADES)


def submitted(begun, peer=0):
    """Begins a proposal at a peer, finishes it there, and has what it endorsed taken."""
    return [begun, finish(peer, "e"), *use("e")]


def committed(begun, peer=0):
    """The same, with its block committed at both peers."""
    return submitted(begun, peer) + [event("commit", peer=0), event("commit", peer=1)]


# In a batch: an upgrade before two calls; one before another; one to a policy of B, before a call that B endorsed and
# one that A endorsed.
upgrades = submitted(upgrade(1, 1, GET_PUT_A, chaincode="key"), 1)
upgrades += submitted(begin(0, 2, chaincode="key", arg="62")) + submitted(begin(0, 3, chaincode="key", arg="63"))
upgrades += [event("tick"), event("commit", peer=0), event("commit", peer=1)]
upgrades += submitted(upgrade(1, 4, KEY), 1) + submitted(upgrade(1, 5, GET_PUT_A), 1)
upgrades += [event("tick"), event("commit", peer=0), event("commit", peer=1)]
upgrades += submitted(upgrade(1, 6, PUT_A, policy="'B'", chaincode="new"), 1)
upgrades += [event("tick"), event("commit", peer=0), event("commit", peer=1)]
upgrades += submitted(upgrade(1, 7, PUT_A, chaincode="new"), 1)
upgrades += submitted(begin(1, 8, chaincode="new"), 1) + submitted(begin(0, 9, chaincode="new"))
upgrades += [event("tick"), event("commit", peer=0), event("commit", peer=1)]
write("upgrades.jsonl", upgrades)

# Block after block: the first version is called, and the second, by which `a` is read, with a call between them that is
# begun before the upgrade is committed, and finished behind it; the second with too little fuel; an unknown name, which
# is then defined; upgrades that are refused, and one that A endorsed.
versions = committed(begin(0, 1)) + [begin(0, 13, seat=1)]
versions += committed(upgrade(1, 2, GET_PUT_A, 141), 1) + [finish(0, "e", seat=1)] + committed(begin(0, 3))
versions += committed(upgrade(1, 4, GET_PUT_A, 140), 1) + [begin(0, 5), finish(0, "e")]
versions += [begin(0, 6, chaincode="nw"), finish(0, "e")]
versions += committed(upgrade(1, 7, PUT_A, 71, chaincode="nw"), 1) + committed(begin(0, 8, chaincode="nw"))
versions += [upgrade(1, 9, b"another module"), finish(1, "e"), upgrade(1, 10, PUT_A, policy="'C'"), finish(1, "e")]
versions += [upgrade(1, 11, b"another module", policy="'C'"), finish(1, "e")]
versions += committed(upgrade(0, 12, PUT_A))
write("versions.jsonl", versions)

# Two calls behind an upgrade, in its block, of which the second claims to have read the version that the upgrade gets.
predicted = submitted(upgrade(1, 1, GET_PUT_A), 1)
for nonce, at in ((2, (1, 1)), (3, (1, 0))):
    predicted += [event("submit", hex=envelope(call(nonce, definition=at, writes=puts(b"a"))).hex()), event("take")]
write("predicted.jsonl", predicted + [event("tick"), event("commit", peer=0)])

# Profiles. `sign` puts the second byte of its argument's sign extension at `c`: ff where the first byte of the argument
# is 80 or above, else 00. It has an operator of profile 2.
EXTEND = module(
    constants(0, 1) + b"\x10\x00\x1a" + constants(0, 0) + b"\x2d\x00\x00\xc0" + constants(8) + b"\x76\x3a\x00\x00"
    + constants(1, 1, 0, 1) + b"\x10\x01\x1a" + constants(0),
    [(b"get_arg", 1), (b"put_state", 3)],
)
(HERE / "extend.wasm").write_bytes(EXTEND)
SIGN = [("sign", EXTEND, 2)]
genesis("profiles.json", more=SIGN, modules=[installed(PUT_A, 2), SECOND[0]])
genesis("profiles-bare.json", more=SIGN)
genesis("profiles-one.json", more=[("sign", EXTEND, 1)])

# Calls of `sign`; an upgrade of `kv` from profile 1 to 2 of one module, a call that is begun before it and finished behind
# it, and one of the new definition; an upgrade of `kv` to the module of `sign`, and a call of that; upgrades to modules that
# are installed by the other profile alone.
profiles = committed(begin(0, 1, chaincode="sign", arg="80")) + committed(begin(0, 2, chaincode="sign", arg="7f"))
profiles += committed(begin(0, 3)) + [begin(0, 4, seat=1)]
profiles += committed(upgrade(0, 5, PUT_A, profile=2)) + [finish(0, "e", seat=1)] + committed(begin(0, 6))
profiles += committed(upgrade(0, 7, EXTEND, profile=2)) + committed(begin(0, 8, arg="ff"))
for nonce, code, profile in ((9, EXTEND, 1), (10, GET_PUT_A, 2)):
    profiles += [upgrade(0, nonce, code, profile=profile), finish(0, "e")]
write("profiles.jsonl", profiles)

# Genesis files that are refused: without a seat, with a policy of an organisation that is not listed, and with two
# chaincodes of one name.
genesis("seatless.json", seats=0)
genesis("nobody.json", policy="'C'")
genesis("doubled.json", more=[("kv", PUT_A, 1)])

# Four seats. `look` reads `a`, which it never puts, and puts `a` at `c`.
LOOK = module(
    constants(0, 1, 2, 1) + b"\x10\x00\x1a" + constants(1, 1, 0, 1) + b"\x10\x01\x1a" + constants(0),
    [(b"get_state", 3), (b"put_state", 3)],
)
genesis("look.json", more=[("look", LOOK, 1)], seats=4)

# Stores of two blocks that each put `1` at `a`.


def recorded(number, link, envelopes, flags, data_hash=None):
    """A block as it is stored, behind a header with this hash, and the hash of its own header."""
    data = wire.counted([wire.sized(one, 4) for one in envelopes], 2)
    header = number.to_bytes(4, "big") + link + (data_hash or hashlib.sha256(data).digest())
    stored = wire.sized(header + data, 4) + bytes(flags)
    return stored + hashlib.sha256(stored).digest(), hashlib.sha256(header).digest()


def record(number, link, flag=0, data_hash=None, one=None):
    """The same of a block of one envelope."""
    return recorded(number, link, [one or envelope(call(number, writes=puts(b"a")))], [flag], data_hash)


NO_LINK = bytes(32)


def chain(*blocks):
    """Blocks as they are stored, one behind another: each its envelopes and their flags."""
    stored, link = [], NO_LINK
    for number, (envelopes, flags) in enumerate(blocks, 1):
        kept, link = recorded(number, link, envelopes, flags)
        stored.append(kept)
    return stored


first, link = record(1, NO_LINK)
second, _ = record(2, link)
STORES = {
    "whole": first + second,
    # Its last byte is missing; and that of a store of one block.
    "torn": first + second[:-1],
    "part": first[:-1],
    # The second block's flag is 2.
    "differs": first + record(2, link, flag=2)[0],
    # The second block is behind no other.
    "unlinked": first + record(2, NO_LINK)[0],
    # The same, and behind it two bytes of a third record.
    "unlinked-torn": first + record(2, NO_LINK)[0] + b"\0\0",
    # The second block is behind no other, and the first block's flag is 2, or the second one's.
    "differs-unlinked": record(1, NO_LINK, flag=2)[0] + record(2, NO_LINK)[0],
    "unlinked-differs": first + record(2, NO_LINK, flag=2)[0],
    # The first digest's last bit is turned.
    "damaged": first[:-1] + bytes([first[-1] ^ 1]) + second,
    # The second block has other data than its header says.
    "wrong": first + record(2, link, data_hash=hashlib.sha256(b"").digest())[0],
}
for name, store in STORES.items():
    (HERE / f"{name}.store").write_bytes(store)

# A file that is no store, and events after which a store has no block.
write("notes.txt", ["Pallet 7 is with the carrier.", "Pallet 9 is not."])
write("no-events.jsonl", [])

# Logs, as a peer reads them: `log`, an index and a mark. Of the limits of sizes.json: each kind of mark and of line, two that
# end two blocks, and at the end a part of a line.
LIMITED = hashlib.sha256((HERE / "sizes.json").read_bytes()).hexdigest()


def sized(nonce, size):
    """The hex of an envelope of so many bytes, without tags."""
    return envelope(payload(nonce, argument=bytes(size - 30)), "").hex()


def log(marks):
    return [f"log {1 + at // 4}.{at % 4} {mark}" for at, mark in enumerate(marks)]


def asking(*lines):
    """Lines that ask, each a word and what stands behind its tag, with the tags 1, 2, .."""
    return [f"{word} {tag} {rest}" for tag, (word, rest) in enumerate(lines, 1)]


def asks(*questions):
    """The lines of questions."""
    return asking(*(("ask", it if isinstance(it, str) else json.dumps(it)) for it in questions))


SEEN = recorded(1, NO_LINK, [bytes.fromhex(sized(nonce, 30)) for nonce in (1, 2)], [])[1].hex()
marks = [f"genesis {LIMITED}", "tick", sized(1, 30), sized(2, 30), "tick", sized(1, 30).upper()]
marks += ["TICK", "tick ", "", "abc", "zz", sized(3, 30)[:-2], sized(3, 30) + "00", sized(3, 141)]
marks += [envelope(call(1, writes=puts(b"b", b"a"))).hex(), envelope(call(1, ranges=[(b"a", b"c", 0, [])])).hex()]
marks += [f"seen A 1 {SEEN}", f"seen B 1 {'00' * 32}", f"seen B 0 {SEEN}", f"seen A 2 {SEEN}", f"seen A 1 {SEEN[:-2]}", "seen"]
marks += [sized(4, 140), sized(5, 30), sized(6, 30), sized(7, 30), f"genesis {'00' * 32}", sized(8, 41), sized(9, 60), "tick", "tick"]
lines = log(marks)
write("marks.log", lines[:20])
(HERE / "all-marks.log").write_bytes(
    "".join(line + "\n" for line in lines).encode()
    + b"log alone\nlog \nlog  \xff\xfe\nlog 9.0 \xff\nlog 9.1 " + sized(10, 30).encode() + b"\nlog 9.2 tick"
)
write("another.log", log([f"genesis {'00' * 32}", "tick"]))
# The first line of the log behind one that asks, and a later one that names another genesis.
write("asked-another.log", [*asks({"ask": "members"}), *log([f"genesis {'00' * 32}"])])
write("later-another.log", log(["tick", f"genesis {'00' * 32}"]))
# First lines: the digest behind another word, cut short, and missing; no word; an envelope that is too large; and a block
# that was seen.
FIRST_LINES = {"upper": f"GENESIS {LIMITED}", "short": f"genesis {LIMITED[:-1]}", "bare": "genesis", "blank": ""}
FIRST_LINES |= {"too-large": sized(3, 141), "seen": f"seen A 1 {SEEN}", "tick": "tick"}
for name, mark in FIRST_LINES.items():
    write(f"first-{name}.log", log([mark, "GENESIS"]))

# The batches of orders.jsonl.
marks = [json.loads(line) for line in orders]
write("orders.log", log([mark["hex"] if mark["do"] == "submit" else "tick" for mark in marks if mark["do"] in ("submit", "tick")]))

# Calls that return, trap and fail, and of an unknown name; upgrades; and words that spell no proposal.


def proposal(begun):
    """The fields of a begin that are the proposal's."""
    return json.dumps({k: v for k, v in json.loads(begun).items() if k not in ("do", "peer", "seat")}, separators=(",", ":"))


calls = [proposal(begin(0, at, chaincode=name)) for at, name in enumerate(("kv", "trap", "status", "zero", "none"))]
calls += [proposal(upgrade(0, 6, PUT_A)), proposal(upgrade(0, 7, b"another module")), begin(0, 1), "{}", "", calls[0]]
write("proposals.lines", asking(*(("call", it) for it in calls)))
# By texts, and by hex; and by both, by a number among the texts, and by no list.
arguments: list[dict[str, object]] = [{"args": ["a", "b"]}, {"arg": "612062"}, {"args": ["a"], "arg": "61"}, {"args": ["a", 1]}, {"args": "a"}]
write("args.lines", asking(*(("call", proposal(begin(0, 1, **it))) for it in arguments)))

# Public keys: those of the seeds of RFC 8032, section 7.1, tests 1 and 2. B has the first, A a shared key.
SEEDS = [
    bytes.fromhex("9d61b19deffd5a60ba844af492ec2cc44449c5697b326919703bac031cae7f60"),
    bytes.fromhex("4ccd089b28ff96da9db6c346ec114e0f5b8a319f35aba624da8cf6ed4fb8a6fb"),
]
PUBLIC = [rfc8032.secret_to_public(seed) for seed in SEEDS]
B_SIGNS = {"name": "B", "public": PUBLIC[0].hex()}
genesis("signed.json", policy="AND('A','B')", orgs=[{"name": "A", "key": KEYS["A"].hex()}, B_SIGNS], peers=["B", "A"])
genesis("alone.json", policy="'B'", orgs=[B_SIGNS], peers=["B"], fuel=71)
genesis("second.json", orgs=[{"name": "A", "key": KEYS["A"].hex()}, B_SIGNS])

# Key files: both seeds, in digits of either case; the second alone; and what is none: a digit less, no line, a last line
# without its end, a line's end of another system, a blank line, and a line more than 16.
BOTH = [SEEDS[0].hex(), SEEDS[1].hex().upper()]
write("signed.keys", BOTH)
write("other.keys", BOTH[1:])
write("short.keys", [BOTH[0][:-1]])
write("empty.keys", [])
(HERE / "open.keys").write_text("\n".join(BOTH))
(HERE / "returns.keys").write_text("".join(f"{line}\r\n" for line in BOTH))
write("blank.keys", [*BOTH, ""])
write("sixteen.keys", [SEEDS[0].hex()] * 16)
write("seventeen.keys", [SEEDS[0].hex()] * 17)

# Both peers endorse a call, B by a signature and A by an HMAC; then each endorses one alone.
both = [begin(0, 1), finish(0, "e1"), begin(1, 1), finish(1, "e2"), *use("e2", "e1")]
both += submitted(begin(0, 2)) + submitted(begin(1, 3), 1)
write("signed.jsonl", both + [event("commit", peer=0)] * 3 + [event("commit", peer=1)])
write("alone.jsonl", [begin(0, 0), finish(0, "e1"), *use("e1"), event("commit", peer=0)])


TAGS = {
    "A": lambda data: wire.Endorsement("A", hmac.digest(KEYS["A"], data, "sha256")),
    "old B": lambda data: wire.Endorsement("B", hmac.digest(KEYS["B"], data, "sha256")),
    "no B": lambda data: wire.Endorsement("B", hmac.digest(b"", data, "sha256")),
    "B": lambda data: wire.Endorsement("B", rfc8032.sign(SEEDS[0], data)),
    "C": lambda data: wire.Endorsement("C", rfc8032.sign(SEEDS[1], data)),
}


def tagged(data, *signs):
    return wire.Envelope(data, [TAGS[it](data) for it in signs]).encode()


def turned(tag):
    return tag[:-1] + bytes([tag[-1] ^ 1])


# Envelopes with A's HMAC, and with what claims to be of B: its signature, one by another seed, one whose last bit is turned,
# the HMAC under the public key; then one by B's seed that claims to be of A, beside B's own.
forged = []
for nonce in range(1, 6):
    data = call(nonce, writes=puts(b"a"))
    shared, signature = hmac.digest(KEYS["A"], data, "sha256"), rfc8032.sign(SEEDS[0], data)
    wrong = [
        signature,
        rfc8032.sign(SEEDS[1], data),
        turned(signature),
        hmac.digest(PUBLIC[0], data, "sha256"),
        signature,
    ][nonce - 1]
    one = wire.Envelope(data, [wire.Endorsement("A", signature if nonce == 5 else shared), wire.Endorsement("B", wrong)]).encode()
    forged += [event("submit", hex=one.hex()), event("take"), event("commit", peer=0)]
write("forged.jsonl", forged)

# A store of one block with both tags, and the same envelope as a line of a log.
one = tagged(call(1, writes=puts(b"a")), "A", "B")
stored, _ = record(1, NO_LINK, one=one)
(HERE / "signed.store").write_bytes(stored)
write("signed.log", log([one.hex(), one[:-1].hex()]))

# What organisations say of the block of signed.store, which has OWN as its header's hash.
OWN, LIE = hashlib.sha256(stored[4:72]).digest(), bytes(32)


def seen(org, number, header, seed=SEEDS[0], ledger="signed.json", signed=None):
    """What an organisation says, with a signature by this seed, of what it says in this ledger, or of another number."""
    digest = hashlib.sha256((HERE / ledger).read_bytes()).digest()
    data = b"\xffseen " + digest + (number if signed is None else signed).to_bytes(4, "big") + header
    return f"seen {org} {number} {header.hex()} {rfc8032.sign(seed, data).hex()}"


LIES = seen("B", 1, LIE)
# A log of that block and of what is said of it: what is so; lies of who has a shared key, is not listed, and has a public key,
# without a signature; B's lies of the block, and of blocks that there are not; with a signature by another seed, a wrong one,
# and one of another ledger and of another number; lies in the name of the others, and of who cannot be; digits of the other
# case; and less, and more.
marks = [one.hex(), *(f"seen {org} 1 {header.hex()}" for org, header in (("A", OWN), ("A", LIE), ("C", LIE), ("B", LIE)))]
marks += [seen("B", 1, OWN), LIES, seen("B", 0, LIE), seen("B", 2, OWN), seen("B", 70000, OWN)]
marks += [seen("B", 1, LIE, SEEDS[1]), LIES[:-1] + "%x" % (int(LIES[-1], 16) ^ 1)]
marks += [seen("B", 1, LIE, ledger="alone.json"), seen("B", 1, LIE, signed=2)]
marks += [seen("A", 1, LIE), seen("C", 1, LIE), seen("-", 1, LIE), LIES[:10] + LIES[10:].upper()]
write("seen.log", log([*marks, LIES[:-2], LIES + " 00", "seen B 1", "seen"]))
# A log whose first mark is signed.
write("seen-first.log", log([LIES]))
# The block, one that there is not yet, and what names none.
numbers = ["1", "2", "99", "0", "01", "+1", "1 ", "1 1", " 1", "4294967297", "", "x"]
write("seen.lines", asking(*(("seen", it) for it in numbers)))

# The same ledger under rules 2, where the digest of its file stands in front of what is signed. Envelopes with A's HMAC and of B
# its signature for this ledger, one as under rules 1, ones for two other ledgers, and one by another seed; what B says of the
# block, signed so, as under rules 1, and for another ledger, in front and at all; and a store of the first envelope. The chaincode
# puts `1` at `kv/a`: PUT_A with another key and other places.
PUT_OWN = PUT_A.replace(b"\x41\0\x41\1\x41\1\x41\1", b"\x41\0\x41\4\x41\4\x41\1")
PUT_OWN = PUT_OWN.replace(b"\x0b\x08\1\0\x41\0\x0b\2a1", b"\x0b\x0b\1\0\x41\0\x0b\5kv/a1")
BOUND = {"orgs": [{"name": "A", "key": KEYS["A"].hex()}, B_SIGNS], "peers": ["B", "A"]}
genesis("bound.json", policy="AND('A','B')", code=PUT_OWN, rules=2, **BOUND)


def front(ledger):
    """What stands in front of what is signed in a ledger of rules 2."""
    return b"\xfftag " + hashlib.sha256((HERE / ledger).read_bytes()).digest()


def both_tagged(data, signed, seed=SEEDS[0]):
    """A payload with A's tag, and B's signature of these bytes."""
    tags = [wire.Endorsement("A", hmac.digest(KEYS["A"], data, "sha256")), wire.Endorsement("B", rfc8032.sign(seed, signed))]
    return wire.Envelope(data, tags).encode()


datas = [call(nonce, writes=puts(b"kv/a")) for nonce in range(1, 6)]
fronts = [front("bound.json"), b"", front("signed.json"), b"\xfftag " + bytes(32), front("bound.json")]
bounds = [both_tagged(data, it + data, SEEDS[at == 4]) for at, (data, it) in enumerate(zip(datas, fronts))]
write("bound.log", log([it.hex() for it in bounds]))
(HERE / "bound.store").write_bytes(record(1, NO_LINK, one=bounds[0])[0])
said = [b"\xffseen " + hashlib.sha256((HERE / it).read_bytes()).digest() + (1).to_bytes(4, "big") + LIE for it in ("bound.json", "signed.json")]
signs = [fronts[0] + said[0], said[0], fronts[2] + said[0], fronts[2] + said[1]]
write("bound-seen.log", log([bounds[0].hex(), *(f"seen B 1 {LIE.hex()} {rfc8032.sign(SEEDS[0], it).hex()}" for it in signs)]))
write("bound.lines", asking(("call", calls[0]), ("seen", "1")))

# A log and what is asked between its lines; lines that are none of a peer's, and such as have no tag or are no UTF-8; a line of
# the log in which a call stands. The log is that of signed.store.
CALL, GET = proposal(begin(0, 9)), json.dumps({"ask": "get", "key": "61"})
AGREES = proposal(amend(0, 5, 1, "'A'", {"name": "A"}))
between = [f"log 1 genesis {hashlib.sha256((HERE / 'signed.json').read_bytes()).hexdigest()}", f"ask q1 {GET}", f"call c1 {CALL}"]
between += [f"log 2 call c2 {CALL}", "seen s1 1", f"log 3 {one.hex()}", f"ask q2 {GET}", f"call c3 {CALL}", f"log 4 {one.hex()}"]
between += ["seen s2 1", "seen s3 9", f"call c4 {AGREES}", f"agreed c5 {AGREES}", "call c6 {}", 'ask q3 {"ask":"none"}', "log 5 tick"]
between += [f"log 6 {LIES}", "", "hello", "log", "call", "call c7", f" ask q4 {GET}", f"asks q5 {GET}", f"ASK q6 {GET}", f"ask  {GET}"]
(HERE / "between.lines").write_bytes(
    "".join(it + "\n" for it in between).encode() + b"ask q\xff {}\ncall c8 \xff\nlog 7 \xff\nlog 8 tick\nlog 9 ti"
)

# Open definitions, and modules files. A is alone, and no module is installed beside that of `kv`. Modules files: of the
# module that `open.jsonl` upgrades to; of none; of 65; of a module that is not valid; and what is no JSON.
ALONE = {"orgs": [{"name": "A", "key": KEYS["A"].hex()}], "peers": ["A"]}
genesis("open.json", **ALONE)
(HERE / "open-bad.json").write_text("[")
MODULES = {"": [installed(GET_PUT_A)], "-none": [], "-many": [installed(PUT_A)] * 65, "-wrong": [installed(GET_PUT_A[:-1])]}
for name, held in MODULES.items():
    (HERE / f"modules{name}.json").write_text(json.dumps(held, separators=(",", ":")))
(HERE / "modules-bad.json").write_text("[")


def alone(name, begun):
    """Begins a proposal, finishes it under a name, and has what it endorsed committed."""
    return [begun, finish(0, name), *use(name), event("commit", peer=0)]


# A call, an upgrade to a module of modules.json by an open definition, and a call of that.
TO = {"code": GET_PUT_A, "fuel": 141, "profile": 17}
write("open.jsonl", alone("e1", begin(0, 1)) + alone("e2", upgrade(0, 2, **TO)) + alone("e3", begin(0, 3)))
# The same upgrade, closed; an open one to a policy of whom nobody knows, which is endorsed, and fails the policy; and an
# amendment that is not the next.
write(
    "open-refused.jsonl",
    [upgrade(0, 4, **(TO | {"profile": 1})), finish(0, "e")]
    + alone("e5", upgrade(0, 5, PUT_A, profile=17, policy="'Z'"))
    + [amend(0, 6, 2, "'A'", {"name": "A"}), finish(0, "e6")],
)
# Proposals behind that chain: a call, the upgrade once more, and an amendment.
asked = [proposal(begin(0, 7)), proposal(upgrade(0, 8, **TO)), proposal(amend(0, 6, 1, "'A'", {"name": "A"}))]
write("open.lines", asking(*(("call", it) for it in asked)))


def upgrading(nonce, form, policy, at=None, code=PUT_A, fuel=400):
    """The payload of an upgrade of `kv` that read this version."""
    definition = wire.Definition(form, hashlib.sha256(code).digest(), fuel, policy)
    return wire.Payload.of_change(wire.Upgrade("kv", definition, nonce.to_bytes(16, "big")), at).encode()


# The log of open.jsonl with modules.json, and its store.
opened = [
    envelope(call(1, writes=puts(b"a"))),
    envelope(upgrading(2, 17, "'A'", code=GET_PUT_A, fuel=141)),
    envelope(call(3, reads=[(b"a", (1, 0))], definition=(2, 0), writes=puts(b"a"))),
]
stored = chain(*(([one], [0]) for one in opened))
(HERE / "open.store").write_bytes(b"".join(stored))
write("open.log", log([one.hex() for one in opened]))
# The same chain, made of envelopes that others endorsed.
handed = [[event("submit", hex=one.hex()), event("take"), event("commit", peer=0)] for one in opened]
write("open-handed.jsonl", sum(handed, []))

# Memberships: A and B are listed, and each endorses calls; A agrees to upgrades and amendments. C has the second seed.
genesis("members.json", policy="OR('A','B')", upgrade="'A'")
A, B, C = {"name": "A"}, {"name": "B"}, {"name": "C", "public": PUBLIC[1].hex()}
COMMITS = [event("commit", peer=0), event("commit", peer=1)]


def by_both(begins):
    """Has both peers endorse what they begin, and its block committed."""
    return [begins[0], finish(0, "e1"), begins[1], finish(1, "e2"), *use("e1", "e2"), *COMMITS]


# By kept keys: B leaves, comes back, and is then alone. One amendment is not the next.
members = committed(begin(1, 1), 1) + committed(amend(0, 2, 1, "'A'", A))
members += committed(begin(1, 3), 1) + committed(begin(0, 4)) + [amend(0, 5, 1, "OR('A','B')", A, B), finish(0, "e")]
members += committed(amend(0, 6, 2, "OR('A','B')", A, B)) + committed(begin(1, 7), 1)
members += committed(amend(0, 8, 3, "'B'", B)) + committed(begin(0, 9))
write("members.jsonl", members)
# Behind it A, which has left, is named by the policy of calls, and satisfies nothing.
write("members-left.lines", asks(*({"ask": "satisfied", "chaincode": "kv", "orgs": orgs} for orgs in (["A"], ["A", "B"]))))


def amending(nonce, serial, policy, *members, at=None):
    """The payload of an amendment that read this version."""
    membership = wire.Membership.of({"serial": serial, "members": members, "policy": policy})
    return wire.Payload.of_change(wire.Amendment(membership, nonce.to_bytes(16, "big")), at).encode()


# C joins, and B has a key of its own in the place of the one that is listed; then C leaves. Of a call that is begun before
# the new key stands the tag is wrong behind it. A alone agrees, then A or C, and then it needs A and B.
OWN_B, ANY, BOTH_AGREE = {"name": "B", "public": PUBLIC[0].hex()}, "OR('A','B','C')", "AND('A','B')"
THIRD = (3, 0)
joined = [
    (tagged(upgrading(1, 17, ANY), "A"), 1),
    (tagged(amending(2, 1, "OR('A','C')", A, B, C), "A"), 0),
    (tagged(upgrading(3, 17, ANY), "A"), 0),
    (tagged(call(4, definition=THIRD, writes=puts(b"a")), "C"), 0),
    (tagged(amending(5, 2, BOTH_AGREE, A, OWN_B, C, at=(2, 0)), "A"), 0),
    (tagged(call(6, definition=THIRD, writes=puts(b"a")), "old B"), 1),
    (tagged(call(7, definition=THIRD, writes=puts(b"a")), "B"), 0),
    (tagged(amending(8, 3, BOTH_AGREE, A, OWN_B, at=(5, 0)), "A"), 1),
    (tagged(amending(9, 3, BOTH_AGREE, A, OWN_B, at=(5, 0)), "A", "B"), 0),
    (tagged(call(10, definition=THIRD, writes=puts(b"a")), "C"), 1),
    (tagged(upgrading(11, 1, "'A'", at=THIRD), "A"), 1),
    (tagged(upgrading(12, 1, "'A'", at=THIRD), "A", "B"), 0),
]
stored = chain(*(([one], [flag]) for one, flag in joined))
(HERE / "members-keys.store").write_bytes(b"".join(stored))
(HERE / "members-joined.store").write_bytes(b"".join(stored[:5]))

# Between these blocks C and B say by their seeds that the first is another one, and are asked to endorse a call; behind them B
# says what is so.
lies = [seen("C", 1, LIE, SEEDS[1], "members.json"), seen("B", 1, LIE, SEEDS[0], "members.json")]
lines = []
for number, (envelope_of, _) in enumerate(joined, 1):
    lines.append(f"log {number} {envelope_of.hex()}")
    if number in (1, 2, 5, 9):
        lines += [*(f"log {number}.{at} {lie}" for at, lie in enumerate(lies)), f"call {number} {CALL}"]
own = seen("B", 1, hashlib.sha256(stored[0][4:72]).digest(), SEEDS[0], "members.json")
write("members-keys.log", [*lines, f"log 13 {own}"])


def by_hand(number):
    """Submits the envelope of a block of that chain, and has it committed."""
    return [event("submit", hex=joined[number - 1][0].hex()), event("take"), *COMMITS]


keys = committed(upgrade(0, 1, PUT_A, profile=17, policy=ANY)) + committed(amend(0, 2, 1, "OR('A','C')", A, B, C))
keys += committed(upgrade(0, 3, PUT_A, profile=17, policy=ANY)) + by_hand(4) + [begin(1, 6), finish(1, "old")]
keys += committed(amend(0, 5, 2, BOTH_AGREE, A, OWN_B, C)) + use("old") + COMMITS + committed(begin(1, 7), 1)
keys += committed(amend(0, 8, 3, BOTH_AGREE, A, OWN_B)) + by_both([amend(peer, 9, 3, BOTH_AGREE, A, OWN_B) for peer in (0, 1)])
keys += by_hand(10) + committed(upgrade(0, 11, PUT_A)) + by_both([upgrade(peer, 12, PUT_A) for peer in (0, 1)])
write("members-keys.jsonl", keys)

# In one block: an amendment by which B leaves, and B's call behind it; two amendments that are next; an amendment and its
# copy. Between them B's call, when it has left and when it is back.
genesis("members-two.json", policy="OR('A','B')", upgrade="'A'", count=2)
genesis("members-ordered.json", policy="OR('A','B')", upgrade="'A'", count=2, reorder=True)
two = submitted(amend(0, 1, 1, "'A'", A)) + submitted(begin(1, 2), 1) + COMMITS
two += submitted(begin(1, 3), 1) + [event("tick"), *COMMITS]
two += [amend(0, 4, 2, "'A'", A), finish(0, "e4"), amend(0, 5, 2, "OR('A','B')", A, B), finish(0, "e5"), *use("e4"), *use("e5")]
two += COMMITS + [amend(0, 6, 3, "OR('A','B')", A, B), finish(0, "e6"), *use("e6"), *use("e6"), *COMMITS]
two += submitted(begin(1, 7), 1) + [event("tick"), *COMMITS]
write("members-two.jsonl", two)
copied = tagged(amending(6, 3, "OR('A','B')", A, B, at=(3, 0)), "A")
batches = [
    ([tagged(amending(1, 1, "'A'", A), "A"), tagged(call(2, writes=puts(b"a")), "old B")], [0, 0]),
    ([tagged(call(3, writes=puts(b"a")), "no B")], [1]),
    ([tagged(amending(4, 2, "'A'", A, at=(1, 0)), "A"), tagged(amending(5, 2, "OR('A','B')", A, B, at=(1, 0)), "A")], [0, 2]),
    ([copied, copied], [0, 4]),
    ([tagged(call(7, writes=puts(b"a")), "old B")], [0]),
]
(HERE / "members-two.store").write_bytes(b"".join(chain(*batches)))

# A call, the amendment of serial number 1 and the one of 3, as calls and as what is agreed to, and whether there is a first block.
asked = [*map(proposal, (begin(0, 20), amend(0, 21, 1, "'A'", A), amend(0, 22, 3, "OR('A','C')", A, OWN_B, C)))]
write("members.lines", asking(*((word, it) for word in ("call", "agreed") for it in asked), ("seen", "1")))

# Logs of chains: those of whole.store, which are also cut short by the last line's end, in another order, and with another
# second block; and of members-two.store.


def marks_of(*blocks):
    return [line for envelopes in blocks for line in [*(one.hex() for one in envelopes), "tick"]]


ONE, TWO, OTHER = ([envelope(call(nonce, writes=puts(b"a")))] for nonce in (1, 2, 3))
write("marks-whole.log", log(marks_of(ONE, TWO)))
(HERE / "marks-part.log").write_text("\n".join(log(marks_of(ONE, TWO)[:3])))
write("marks-turned.log", log(marks_of(TWO, ONE)))
write("marks-forked.log", log(marks_of(ONE, OTHER)))
write("marks-two.log", log(marks_of(*(envelopes for envelopes, _ in batches))))

# Questions: one of each form, in any order of its fields and in hex of either case; and words that spell none.
ID = "00" * 32
questions = [
    {"ask": "setting"},
    {"ask": "block", "number": 1},
    {"number": 4000000000, "ask": "block"},
    {"ask": "get", "key": "61"},
    {"ask": "get", "key": "006b76"},
    {"ask": "get", "key": "6F"},
    {"ask": "range", "start": "", "end": "", "limit": 1},
    {"limit": 1000, "end": "62", "start": "61", "ask": "range"},
    {"ask": "history", "key": "61"},
    {"ask": "history", "key": "61", "from": 1, "blocks": 1},
    {"blocks": 1000, "from": 2, "key": "61", "ask": "history"},
    {"ask": "history", "key": "61", "from": 4000000000, "blocks": 1},
    {"ask": "transaction", "id": ID},
    {"ask": "satisfied", "chaincode": "kv", "orgs": ["A", "B"]},
    {"ask": "satisfied", "chaincode": "kv", "orgs": []},
    {"ask": "satisfied", "chaincode": "none", "orgs": ["A"]},
    {"ask": "call", "chaincode": "kv", "arg": ""},
    {"ask": "call", "chaincode": "status", "arg": "00"},
    {"ask": "call", "chaincode": "none", "arg": ""},
    {"ask": "members"},
]
none = [
    {"ask": "settings"},
    {"ask": "members", "number": 1},
    {"ask": "setting", "number": 1},
    {"ask": "block", "number": 0},
    {"ask": "block", "number": 4000000001},
    {"ask": "block", "number": "1"},
    {"ask": "get", "key": ""},
    {"ask": "get", "key": "00" * 65},
    {"ask": "get", "key": "6"},
    {"ask": "range", "start": "", "end": "", "limit": 0},
    {"ask": "range", "start": "", "end": "", "limit": 1001},
    {"ask": "range", "start": "00" * 65, "end": "", "limit": 1},
    {"ask": "history", "id": ID},
    {"ask": "history", "key": "61", "from": 1},
    {"ask": "history", "key": "61", "blocks": 1},
    {"ask": "history", "key": "61", "from": 0, "blocks": 1},
    {"ask": "history", "key": "61", "from": 4000000001, "blocks": 1},
    {"ask": "history", "key": "61", "from": 1, "blocks": 0},
    {"ask": "history", "key": "61", "from": 1, "blocks": 1001},
    {"ask": "history", "key": "61", "from": 1, "blocks": "1"},
    {"ask": "history", "key": "", "from": 1, "blocks": 1},
    {"ask": "get", "key": "61", "from": 1, "blocks": 1},
    {"ask": "transaction", "id": ID[2:]},
    {"ask": "satisfied", "chaincode": "kv", "orgs": "A"},
    {"ask": "satisfied", "chaincode": "kv", "orgs": ["A-"]},
    {"ask": "satisfied", "chaincode": "kv", "orgs": ["A"] * 33},
    {"ask": "call", "chaincode": "", "arg": ""},
    {"ask": "call", "chaincode": "kv", "arg": "-"},
    {"ask": "call", "chaincode": "kv", "arg": "00" * 4097},
]
write("questions.lines", asks(*questions, *none, "", "[]", "{", questions[0]))

# Ledgers under rules 1 and 2, and under rules that there are not. Calls that read versions of blocks past 65,535: two that no
# chain here has, and one past the last number that a block can have.
for number, named in enumerate(("one", "two", "three"), 1):
    genesis(f"rules-{named}.json", rules=number)
write("setting.lines", asks({"ask": "setting"}))
past = enumerate((65536, 4000000000, 4000000001), 1)
write("rules.log", log(envelope(call(nonce, reads=[(b"a", (block, 0))], writes=puts(b"kv/a"))).hex() for nonce, block in past))
calls = [{"chaincode": name, "arg": ""} for name in ("status", "trap", "zero", "kv")]
# By texts; and by both, by a number among the texts, by no list, by a list as hex, and by more bytes than there may be.
calls += [{"chaincode": "kv", "args": texts} for texts in (["a", "b"], [])]
calls += [{"chaincode": "kv", "args": [], "arg": ""}, {"chaincode": "kv", "args": ["a", 1]}, {"chaincode": "kv", "args": "a"}]
calls += [{"chaincode": "kv", "arg": ["a"]}, {"chaincode": "kv", "args": ["a" * 2048, "b" * 2048]}]
write("calls.lines", asks(*({"ask": "call", **it} for it in calls)))
question = {"ask": "history", "key": "61"}
write("one-question.lines", asks(question))
# A question, one that is no text, and one without its line's end.
first, second, third = (it.encode() for it in asks(question, "?", question))
(HERE / "part-questions.lines").write_bytes(first + b"\n" + second.replace(b"?", b"\xff") + b"\n" + third)
# Of the chain of members-keys.store: tags of B under the old key and the new one, and of C.
of_call = wire.id_of({"chaincode": "kv", "arg": "-", "nonce": "%032x" % 4})
questions = [{"ask": "members"}, {"ask": "block", "number": 6}, {"ask": "block", "number": 7}]
questions += [{"ask": "transaction", "id": of_call}]
questions += [{"ask": "block", "number": 10}, {"ask": "get", "key": "00"}, {"ask": "history", "key": "00"}]
questions += [{"ask": "range", "start": "", "end": "", "limit": 1000}, {"ask": "satisfied", "chaincode": "kv", "orgs": ["A"]}]
write("members-questions.lines", asks(*questions))
