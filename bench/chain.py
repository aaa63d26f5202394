"""Chains that the program itself makes, and the files of them that its commands read."""
import dataclasses
import hmac
import itertools
import json
import pathlib
from collections.abc import Iterable, Iterator

# This comes first: it says where the node's modules are.
from measure import ORGANISATIONS, ROOT, fail, genesis, said
from regtuma.wire import Call, Endorsement, Envelope, Payload, Read, Write

TWO_OF_THREE = "OutOf(2, 'A', 'B', 'C')"
# The seeds of the organisations, where they sign.
SEEDS = [(name * 32).encode() for name in ORGANISATIONS]
KEYS_MODULE = ROOT / "bench/keys.wasm"
REGISTER_MODULE = ROOT / "examples/chaincode/asset_register.wasm"
# The assets of a long chain, each of which gets a new owner in turn.
ASSETS = 1000
# A chaincode may write so many keys.
MOST_WRITES = 64
# The arguments of the calls of a block.
Block = list[bytes]


def line(do: str, **fields: object) -> str:
    return json.dumps({"do": do, **fields}, separators=(",", ":")) + "\n"


def endorse(chaincode: str, argument: bytes, number: int, endorsers: int) -> Iterator[str]:
    """Simulates a call at its endorsers, and has what they endorsed taken."""
    names = ORGANISATIONS[:endorsers]
    for peer, name in enumerate(names):
        yield line("begin", peer=peer, seat=0, chaincode=chaincode, arg=argument.hex(), nonce=f"{number:032x}")
        yield line("finish", peer=peer, seat=0, **{"as": name})
    yield line("submit", use=names)
    yield line("take")


def events(chaincode: str, blocks: Iterable[Block], endorsers: int) -> Iterator[str]:
    """The calls of each block are simulated on the state before it."""
    numbers = itertools.count(1)
    for block in blocks:
        for argument in block:
            yield from endorse(chaincode, argument, next(numbers), endorsers)
        yield line("tick")
        for peer in range(endorsers):
            yield line("commit", peer=peer)


def transfers(blocks: int, calls: int) -> Iterator[Block]:
    """Two blocks make assets, and the others give each a new owner in turn."""
    for number in range(blocks):
        at = range(number * calls, (number + 1) * calls)
        yield [f"{'create' if number < 2 else 'transfer'} asset{call % (2 * calls)} owner{call}".encode() for call in at]


def proposals(count: int) -> Iterator[str]:
    """Lines of a peer: calls that make assets."""
    for at in range(count):
        argument = f"create asset{at} owner".encode().hex()
        proposal = json.dumps({"arg": argument, "chaincode": "assets", "nonce": f"{at:032x}"}, separators=(",", ":"))
        yield f"call {at} {proposal}\n"


def amendments(count: int) -> Iterator[str]:
    """So many amendments that keep the members, a block each, which A's peer simulates."""
    members = [{"name": it} for it in ORGANISATIONS]
    for serial in range(1, count + 1):
        yield line("begin", peer=0, seat=0, members=members, policy="'A'", serial=serial, nonce=f"{serial:032x}")
        yield line("finish", peer=0, seat=0, **{"as": "A"})
        yield line("submit", use=["A"])
        yield line("take")
        yield line("commit", peer=0)


def drawn(keys: int) -> Iterator[int]:
    """Numbers of keys, the same in every run, by a linear congruential generator (Knuth's MMIX)."""
    random = 1
    while True:
        random = (random * 6364136223846793005 + 1442695040888963407) % 2**64
        yield random // 2**32 % keys


def item(letter: bytes, number: int) -> bytes:
    return letter + number.to_bytes(8, "big")


def touching(keys: int, reads: int, writes: int, calls: int) -> Iterator[Block]:
    """Blocks without end, of calls that read and write so many keys each."""
    numbers = drawn(keys)
    letters = reads * [b"r"] + writes * [b"w"]
    while True:
        yield [b"".join(item(letter, next(numbers)) for letter in letters) for _ in range(calls)]


def filling(keys: int, calls: int) -> Iterator[Block]:
    """Blocks that write each of so many keys."""
    numbers = range(0, keys, MOST_WRITES)
    arguments = [b"".join(item(b"w", it) for it in range(first, min(keys, first + MOST_WRITES))) for first in numbers]
    for first in range(0, len(arguments), calls):
        yield arguments[first:first + calls]


@dataclasses.dataclass
class Chain:
    """The files of a chain: its genesis, its store, and the lines of a log that makes it. Then the flags of its transactions."""
    genesis: pathlib.Path
    store: pathlib.Path
    log: pathlib.Path
    flags: list[str] = dataclasses.field(default_factory=list)


def make(program: pathlib.Path, room: pathlib.Path, setting: dict, blocks: Iterable[Block]) -> Chain:
    """The chain of such calls of the only chaincode of a genesis, each endorsed by as many organisations as it has peers."""
    return made(program, room, setting, events(setting["chaincodes"][0]["name"], blocks, len(setting["peers"])))


def made(program: pathlib.Path, room: pathlib.Path, setting: dict, asked_for: Iterable[str]) -> Chain:
    """The chain of these events."""
    room.mkdir()
    chain = Chain(room / "genesis.json", room / "chain.store", room / "log")
    asked, seeds = room / "events.jsonl", write_seeds(room / "all.key")
    chain.genesis.write_text(json.dumps(setting))
    with asked.open("w") as lines:
        lines.writelines(asked_for)
    done = said([program, "run", chain.genesis, asked, "--store", chain.store, "--keys", seeds])
    # Each peer commits each block.
    committed = [it.split()[3:] for it in done if it.startswith("committed ")][::len(setting["peers"])]
    chain.flags += [flag for flags in committed for flag in flags]
    marks = said([program, "marks", chain.genesis, chain.store])
    chain.log.write_text("".join(f"log 1.{at} {mark}\n" for at, mark in enumerate(marks)))
    return chain


def write_seeds(file: pathlib.Path) -> pathlib.Path:
    file.write_text("".join(f"{seed.hex()}\n" for seed in SEEDS))
    file.chmod(0o600)
    return file


def register(program: pathlib.Path, room: pathlib.Path, module: bytes, blocks: int, calls: int,
             are_signed: bool = False) -> Chain:
    """So many blocks of calls of the asset register, which two of three organisations endorse, and which all end VALID."""
    setting = genesis("assets", module, TWO_OF_THREE, 100_000, count=calls, peers=ORGANISATIONS[:2])
    if are_signed:
        public = said([program, "public", write_seeds(room.with_suffix(".key"))])
        setting["orgs"] = [{"name": name, "public": it.split()[1]} for name, it in zip(ORGANISATIONS, public)]
    chain = make(program, room, setting, transfers(blocks, calls))
    if chain.flags != ["0"] * (blocks * calls):
        fail(f"{len(chain.flags)} flags, not all of them 0")
    return chain


def amended(program: pathlib.Path, room: pathlib.Path, blocks: int) -> Chain:
    """So many blocks, of an amendment each, which all end VALID."""
    chain = made(program, room, genesis("keys", KEYS_MODULE.read_bytes(), peers=ORGANISATIONS[:1]), amendments(blocks))
    if chain.flags != ["0"] * blocks:
        fail(f"{len(chain.flags)} flags of amendments, not all of them 0")
    return chain


def lasting() -> dict[str, object]:
    """The genesis of a ledger whose chain may be long: each call of the asset register is a block."""
    return genesis("assets", REGISTER_MODULE.read_bytes(), fuel=100_000, rules=2, peers=ORGANISATIONS[:1])


def blocks_of_one() -> Iterator[bytes]:
    """Lines of a log without end, each of which makes a block of that ledger. What its call reads and writes is worked out here: so an
    audit, which runs it again, sees whether that is so."""
    key = (ORGANISATIONS[0] * 32).encode()
    for number in itertools.count(1):
        asset, owner = f"asset{number % ASSETS}".encode(), f"owner{number}".encode()
        call = Call("assets", b" ".join([b"transfer" if number > ASSETS else b"create", asset, owner]), number.to_bytes(16, "big"))
        state = b"assets/asset/" + asset
        reads = [Read(b"\0assets", None), Read(state, (number - ASSETS, 0) if number > ASSETS else None)]
        payload = Payload(call, reads=reads, writes=[Write(state, owner)]).encode()
        tag = hmac.digest(key, payload, "sha256")
        yield b"log %d %s\n" % (number, Envelope(payload, [Endorsement(ORGANISATIONS[0], tag)]).encode().hex().encode())


def of_keys(program: pathlib.Path, room: pathlib.Path, blocks: Iterable[Block], calls: int, reorder: bool = False) -> Chain:
    """The chain of these blocks of calls that read and write keys, which one organisation endorses."""
    setting = genesis("keys", KEYS_MODULE.read_bytes(), count=calls, reorder=reorder, peers=ORGANISATIONS[:1])
    return make(program, room, setting, blocks)
