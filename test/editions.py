#!/usr/bin/env python3
"""Works out cases of both rules: which versions are current, and which keys `kv` may write.

The rules are those of docs/RULES.md, on a state of keys in hex or as they are written. `make.py` puts the rows into `stdin` and `stdout`.
"""
import dataclasses

Row = tuple[str, str]
Version = str | None

VALID, UNENDORSED, CONFLICT, PHANTOM, DUPLICATE = range(5)


def bytes_of(word: str) -> bytes:
    return bytes.fromhex(word[2:]) if word.startswith("0x") else word.encode()


def version_of(word: str) -> Version:
    return None if word == "-" else word


@dataclasses.dataclass
class Range:
    start: bytes
    end: bytes
    limit: int
    entries: list[tuple[bytes, str]]


@dataclasses.dataclass
class Transaction:
    """What its words say: reads, ranges, keys written with whether a value is put, a nonce and whether it is endorsed."""

    reads: list[tuple[bytes, Version]] = dataclasses.field(default_factory=list)
    ranges: list[Range] = dataclasses.field(default_factory=list)
    writes: list[tuple[bytes, bool]] = dataclasses.field(default_factory=list)
    nonce: str = ""
    endorsed: bool = True


def range_of(text: str) -> Range:
    bounds, _, rest = text.partition("*")
    start, _, end = bounds.partition("..")
    limit, _, seen = rest.partition("=")
    pairs = [word.split("@") for word in seen.split(",") if word]
    return Range(bytes_of(start), bytes_of(end), int(limit), [(bytes_of(key), version) for key, version in pairs])


def transaction_of(text: str) -> Transaction:
    tx = Transaction()
    for word in text.split():
        kind, _, rest = word.partition(":")
        if kind == "r":
            key, _, version = rest.rpartition("@")
            tx.reads.append((bytes_of(key), version_of(version)))
        elif kind == "q":
            tx.ranges.append(range_of(rest))
        elif kind == "w":
            tx.writes.append((bytes_of(rest.partition("=")[0]), True))
        elif kind == "d":
            tx.writes.append((bytes_of(rest), False))
        elif kind == "n":
            tx.nonce = rest
        else:
            tx.endorsed = False
    return tx


State = dict[bytes, str]


def entries(state: State, asked: Range) -> list[tuple[bytes, str]]:
    held = [key for key in sorted(state) if key[0] and key >= asked.start and (not asked.end or key < asked.end)]
    return [(key, state[key]) for key in held[: asked.limit]]


def flag_of(tx: Transaction, rules: int, before: State, now: State, written: set[bytes], nonces: set[str]) -> int:
    """The first line of the table: `before` is the state before the block, in which these keys were written since."""
    if tx.nonce and tx.nonce in nonces:
        return DUPLICATE
    if not tx.endorsed:
        return UNENDORSED
    for key, version in tx.reads:
        if now.get(key) != version or (rules == 2 and key in written):
            return CONFLICT
    for asked in tx.ranges:
        if entries(now, asked) != asked.entries or (rules == 2 and entries(before, asked) != asked.entries):
            return PHANTOM
    return VALID


def flags_of(chain: str, rules: int) -> str:
    """The flags of each block of a chain."""
    state: State = {}
    nonces: set[str] = set()
    flags: list[str] = []
    for number, text in enumerate(chain.split(" / "), 1):
        before = dict(state)
        written: set[bytes] = set()
        found: list[str] = []
        for place, words in enumerate(text.split(" | ")):
            tx = transaction_of(words)
            flag = flag_of(tx, rules, before, state, written, nonces)
            found.append(str(flag))
            nonces.add(tx.nonce)
            for key, is_put in tx.writes if flag == VALID else []:
                written.add(key)
                state.pop(key, None)
                state |= {key: f"{number}.{place}"} if is_put else {}
        flags.append(" ".join(found))
    return " / ".join(flags)


CHAINS = [
    "w:j=1 | w:k=1 | r:k@1.0 | r:k@1.1",
    "w:k=1 / d:k | r:k@1.0 | r:k@-",
    "w:k=1 | d:k | r:k@-",
    "d:k | r:k@-",
    "w:k=1 e:no | r:k@1.0 | r:k@-",
    "r:k@1.0 w:k=1 | r:k@-",
    "w:k=1 / r:k@1.0 w:k=2 | r:k@1.0 | r:k@2.0 | r:j@-",
    "w:k=1 / r:k@1.0 w:j=1 | w:k=2 / r:j@2.0 r:k@2.1",
    "w:k=1 n:7 | r:k@1.0 n:7 | r:k@1.0",
    "w:a=1 w:b=1 / w:b=2 | q:a..c*2=a@1.0,b@1.0 | q:a..c*2=a@1.0,b@2.0",
    "w:a=1 w:b=1 / d:a | q:a..c*2=a@1.0,b@1.0 | q:a..c*2=b@1.0",
    "w:a=1 w:b=1 / w:bb=1 | q:a..c*2=a@1.0,b@1.0 | q:a..c*3=a@1.0,b@1.0,bb@2.0",
    "w:a=1 / w:b=1 | d:b | q:a..c*3=a@1.0",
    "w:a=1 / w:a=2 | r:a@2.0 q:a..b*1=a@2.0 | r:b@- q:a..b*1=a@2.0",
    "r:0x006b76@- w:0x006b76=x | r:0x006b76@1.0 w:a=1 | r:0x006b76@- w:b=1",
    "r:0x006b76@- w:a=1 | r:0x006b76@- w:0x006b76=x / r:0x006b76@1.1 w:a=2",
]


def versions() -> list[Row]:
    return [(f"{under}flags {chain}", flags_of(chain, rules)) for chain in CHAINS for under, rules in (("", 1), ("under 2 ", 2))]


# ---- keys of `kv`'s own

OWN = b"kv/"
MOST_VALUE_BYTES = 4096


def printed(data: bytes) -> str:
    return data.decode() if all(32 <= byte < 127 for byte in data) else f"0x{data.hex()}"


def host_of(calls: list[str], memory: bytes, rules: int) -> str:
    """What the host answers to puts, deletes and reads of keys that are absent, and what it records."""
    answers: list[int] = []
    reads: set[bytes] = set()
    writes: dict[bytes, bytes | None] = {}
    for call in calls:
        name, *words = call.split()
        numbers = [int(word) for word in words]
        key = memory[numbers[0] : numbers[0] + numbers[1]]
        is_own = rules == 1 or key.startswith(OWN)
        if not 1 <= len(key) <= 64 or key[0] == 0 or (name != "get_state" and not is_own):
            answers.append(-2)
        elif name == "get_state":
            answers.append(-1)
            reads.add(key)
        elif name == "put_state" and numbers[3] > MOST_VALUE_BYTES:
            answers.append(-4)
        else:
            answers.append(0)
            writes[key] = memory[numbers[2] : numbers[2] + numbers[3]] if name == "put_state" else None
    seen = "".join(f" r:{printed(key)}@-" for key in sorted(reads))
    left = "".join(f" d:{printed(key)}" if value is None else f" w:{printed(key)}={printed(value)}" for key, value in sorted(writes.items()))
    return f"{' '.join(map(str, answers))}, recorded{seen}{left}"


MEMORY = b"kv/akv2/xkv.KV/" + bytes(range(1, 3)) + b"." * 4097
CALLS = [
    # kv/a and kv/ themselves, and what they begin
    ["put_state 0 4 15 1", "put_state 0 3 16 1", "put_state 0 2 15 1", "put_state 0 1 15 1"],
    ["del_state 0 4", "del_state 0 3", "del_state 0 2"],
    # kv2/x and KV/ are others' keys: a read sees them
    ["put_state 4 5 15 1", "del_state 4 5", "get_state 4 5 0 0", "put_state 12 3 15 1", "get_state 12 3 0 0"],
    # a key is looked at before a value
    ["put_state 4 5 17 4097", "put_state 0 4 17 4097", "put_state 0 4 17 1", "put_state 0 65 17 1"],
    # what was refused is not recorded
    ["put_state 0 4 15 1", "put_state 4 5 16 1", "del_state 4 5"],
]


def own_keys() -> list[Row]:
    held = f"{MEMORY[:17].hex()} 2e*4097"
    rows = [(under, rules, calls) for calls in CALLS for under, rules in (("", 1), ("under 2 ", 2))]
    return [(f"{under}call w:a=1 | 00*0 | {held} | {' | '.join(calls)}", host_of(calls, MEMORY, rules)) for under, rules, calls in rows]


# ---- calls that claim writes

CLAIMED = ["w:kv/a=1", "d:kv/a", "w:kv/=1", "w:kv=1", "d:kv", "w:kv2/x=1", "d:kv2/x", "w:kv/a=1 w:l=1", "d:k w:kv/a=1", "w:K=1", ""]


def is_claimed_right(words: str, rules: int) -> bool:
    return rules == 1 or all(bytes_of(word[2:].partition("=")[0]).startswith(OWN) for word in words.split())


def claims() -> list[Row]:
    rows = [(under, rules, words) for words in CLAIMED for under, rules in (("", 1), ("under 2 ", 2))]
    read = "r:0x006b76@-"
    return [(f"{under}endorsed A A/A 'A' | {read} {words}".rstrip(), str(is_claimed_right(words, rules)).lower()) for under, rules, words in rows]
