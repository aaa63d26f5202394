#!/usr/bin/env python3
"""Writes genesis.json, events.jsonl and the key files of example_keys beside this file: three organisations that share a
register of pallets, and put its second version in the place of the first.

The versions are ../chaincode/asset_register.wasm and asset_register_2.wasm. The forged envelope is made here, since no peer
hands one out.
"""
import hashlib
import json
import pathlib
import sys

sys.dont_write_bytecode = True
HERE = pathlib.Path(__file__).resolve().parent
sys.path[:0] = [str(HERE.parents[1] / folder) for folder in ("node", "python")]
import rfc8032
from regtuma.wire import Call, Endorsement, Envelope, Payload, Read, Write

PEERS = ["Maker", "Carrier", "Shop"]
# Seeds that everybody has. Those of `./ledger keygen` come from chance.
SEEDS = {name: hashlib.sha256(f"the seed of {name} in examples/assets, and nowhere else".encode()).digest() for name in PEERS}
MAKER, CARRIER, SHOP = range(3)
CHAINCODE = "assets"
FIRST, SECOND = ((HERE / f"../chaincode/{name}.wasm").read_bytes() for name in ("asset_register", "asset_register_2"))
TWO_OF_THREE = "OutOf(2, 'Maker', 'Carrier', 'Shop')"
FUEL = 100000
PROFILE = 1
# A proposal that peers have begun: its name, these peers, and the seat of each.
Begun = tuple[str, list[int], int]

lines: list[str] = []
proposals = 0


def line(do: str, **fields: object) -> None:
    lines.append(json.dumps({"do": do, **fields}, separators=(",", ":")))


def begin(name: str, peers: list[int], **proposal: object) -> Begun:
    """Begins one proposal at these peers, each at a seat of its own, and answers what finishes it."""
    global proposals
    proposals += 1
    seat = proposals % 4
    for peer in peers:
        line("begin", peer=peer, seat=seat, **proposal, nonce="%032x" % proposals)
    return name, peers, seat


def call(name: str, peers: list[int], argument: str) -> Begun:
    return begin(name, peers, chaincode=CHAINCODE, arg=argument.encode().hex())


def upgrade(name: str, peers: list[int], module: bytes) -> Begun:
    digest = hashlib.sha256(module).hexdigest()
    return begin(name, peers, upgrade=CHAINCODE, module=digest, fuel=FUEL, policy=TWO_OF_THREE, profile=PROFILE)


def finish(begun: Begun) -> None:
    """Finishes a proposal at its peers and submits what they endorsed as one envelope."""
    name, peers, seat = begun
    names = [f"{name}-{PEERS[peer].lower()}" for peer in peers]
    for peer, bound in zip(peers, names):
        line("finish", peer=peer, seat=seat, **{"as": bound})
    line("submit", use=names)


def commit(envelopes: int) -> None:
    """Orders so many envelopes, and commits the block at each peer."""
    for _ in range(envelopes):
        line("take")
    for peer in range(len(PEERS)):
        line("commit", peer=peer)


def forged() -> bytes:
    """A transfer of pallet-8 that no peer has seen, with tags that nobody made."""
    key, proposal = CHAINCODE.encode() + b"/asset/pallet-8", Call(CHAINCODE, b"transfer pallet-8 Thief", (99).to_bytes(16, "big"))
    reads = [Read(b"\0" + CHAINCODE.encode(), None), Read(key, (1, 1))]
    payload = Payload(proposal, reads=reads, writes=[Write(key, b"Thief")])
    return Envelope(payload.encode(), [Endorsement(org, bytes(64)) for org in ("Maker", "Carrier")]).encode()


def create_pallets() -> None:
    """Two pallets are created, each endorsed by two of the three organisations."""
    first = call("create-7", [MAKER, CARRIER], "create pallet-7 Maker")
    second = call("create-8", [MAKER, SHOP], "create pallet-8 Maker")
    finish(first)
    finish(second)
    commit(2)


def race() -> None:
    """Two transfers of one pallet race: both read the same version, and the second in the block is a conflict."""
    to_carrier = call("to-carrier", [MAKER, CARRIER], "transfer pallet-7 Carrier")
    to_shop = call("to-shop", [MAKER, SHOP], "transfer pallet-7 Shop")
    finish(to_carrier)
    finish(to_shop)
    commit(2)


def list_beside_a_creation() -> None:
    """A list is made before a new pallet comes in, and ordered behind it: its range has a phantom."""
    create = call("create-9", [CARRIER, SHOP], "create pallet-9 Carrier")
    listed = call("list", [MAKER, CARRIER], "list")
    finish(create)
    finish(listed)
    commit(2)


def fail_the_policy() -> None:
    """A forged transfer does not satisfy the policy, nor does one that a single organisation endorsed."""
    line("submit", hex=forged().hex())
    finish(call("alone", [CARRIER], "transfer pallet-9 Carrier"))
    commit(2)


def upgrade_behind_a_race() -> None:
    """The second version of the register takes the first's place: two organisations endorse it, as the genesis asks for. A
    transfer that was simulated by the first version, and is ordered behind the upgrade, is a conflict."""
    second_version = upgrade("upgrade", [MAKER, SHOP], SECOND)
    late = call("late", [CARRIER, SHOP], "transfer pallet-9 Shop")
    finish(second_version)
    finish(late)
    commit(2)


def use_the_second_version() -> None:
    """The second version makes the transfer, and an inspection of a pallet that the first wrote, which the first could not do."""
    again = call("again", [CARRIER, SHOP], "transfer pallet-9 Shop")
    inspect = call("inspect", [MAKER, CARRIER], "inspect pallet-7 Shop 2026-11-25")
    finish(again)
    finish(inspect)
    commit(2)


def genesis() -> dict[str, object]:
    """Three organisations with one chaincode, the second version of which is installed."""
    return {
        "orgs": [{"name": name, "public": rfc8032.secret_to_public(seed).hex()} for name, seed in SEEDS.items()],
        "peers": PEERS,
        "seats": 4,
        "queue": 64,
        "count": 2,
        "preferred": 65536,
        "absolute": 524288,
        "reorder": False,
        "rules": 2,
        "chaincodes": [
            {
                "name": CHAINCODE,
                "module": FIRST.hex(),
                "policy": TWO_OF_THREE,
                "fuel": FUEL,
                "profile": PROFILE,
            }
        ],
        "modules": [{"module": SECOND.hex(), "profile": PROFILE}],
        "upgrade": TWO_OF_THREE,
    }


def write_keys(folder: pathlib.Path) -> None:
    """Writes a key file of each organisation, and one that has all three."""
    folder.mkdir(exist_ok=True)
    texts = {name: seed.hex() + "\n" for name, seed in SEEDS.items()}
    for name, text in [*texts.items(), ("all", "".join(texts.values()))]:
        (folder / f"{name.lower()}.key").write_text(text)


def main(words: list[str]) -> int:
    if words:
        is_help = words in (["--help"], ["-h"])
        print(__doc__, file=sys.stdout if is_help else sys.stderr)
        return 0 if is_help else 2
    create_pallets()
    race()
    list_beside_a_creation()
    fail_the_policy()
    upgrade_behind_a_race()
    use_the_second_version()
    (HERE / "genesis.json").write_text(json.dumps(genesis(), indent=1) + "\n")
    (HERE / "events.jsonl").write_text("".join(it + "\n" for it in lines))
    write_keys(HERE / "example_keys")
    return 0


if __name__ == "__main__":
    sys.exit(main(sys.argv[1:]))
