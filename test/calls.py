"""./ledger call: its lines and refusals, a nonce that was used, calls at once, and calls that are killed."""
import hashlib
import json
import os
import pathlib
import shutil
import signal
import subprocess
import sys
import time

from report import Ran, Report, start
from seeing import comes_to_be
from tree import PROVED, ROOT, UNPROVED, program, run_ledger

sys.path.insert(0, str(ROOT / "node"))
from regtuma.wire import Call, Envelope, Payload

# How long a command may take, in seconds.
SECONDS = 120
NONCE = "000102030405060708090a0b0c0d0e0f"
# A chain under rules 1 has so many blocks at most.
LAST_BLOCK = 65_535
POLICY = "OutOf(2, 'Maker', 'Carrier', 'Shop')"
# Modules by the code of `invoke`, which traps, branches for ever, or returns 7; and one that says "not yet" and returns 4.
ENDS = {"trap": "0a05010300000b", "loop": "0a0b010900" "03400c000b41000b", "seven": "0a0601040041070b"}
SAYS = ("0061736d01000000010b0260027f7f017f6000017f021501066661627269630a7365745f726573756c740000030201010503010001070a0106696e766f6b65"
        "00010a0d010b004100410710001a41040b0b0d010041000b076e6f7420796574")
# Calls of stores of test/cases: the words, the refusal, and what its sentence tells.
REFUSED = [
    ("open.json open.store kv", "refused 406", "at hand"),
    ("open.json open.store kv --modules modules-bad.json", "refused 801", "modules-bad.json"),
    ("put.json damaged.store kv", "refused 702 block 1", "record 1 is damaged"),
    ("put.json put.json kv", "refused 702 block 1", "put.json looks like a genesis file, and STORE has to be a store"),
    ("put.json put.wasm kv", "refused 702 block 1", "put.wasm looks like a module, and STORE has to be a store"),
    ("put.json notes.txt kv", "refused 702 block 1", "notes.txt looks like a text, and STORE has to be a store"),
    ("put.json unlinked.store kv", "refused 602 block 2", "the block is of another chain"),
    ("put.json wrong.store kv", "refused 603 block 2", "(603)"),
    ("put.json older.store kv", "refused 711 block 1", "(711)"),
    ("put.json . kv", "refused 703", ".: it is a folder (703)"),
    ("put.json none/new.store kv", "refused 703", "there is no folder for it"),
    ("none.json new.store kv", "refused 703", "none.json: there is no such file"),
    ("bad.json new.store kv", "refused 802", "bad.json"),
    ("text.json new.store kv", "refused 801", "text.json"),
    ("signed.json signed.store kv", "refused 808", "kv needs AND('A','B'); name a key file by --keys (808)"),
    ("signed.json signed.store kv --keys other.keys", "refused 808", "the seeds in other.keys are those of A (808)"),
    ("signed.json signed.store kv --keys short.keys", "refused 809", "short.keys: it is no key file"),
    ("signed.json signed.store kv --keys none.keys", "refused 703", "none.keys: there is no such file"),
    ("small.json small.store kv", "refused 421", "(421)"),
    ("put.json whole.store kw", "refused 401", 'there is no chaincode "kw"; did you mean "kv"? (401)'),
    ("put.json whole.store other", "refused 401", 'there is no chaincode "other"; there is kv (401)'),
    ("put.json whole.store KV", "refused 401", 'there is no chaincode "KV"'),
    ("put.json whole.store kw --dry-run", "refused 401", 'did you mean "kv"? (401)'),
    ("open.json open.store kv --dry-run", "refused 406", "at hand"),
    ("put.json damaged.store kv --dry-run", "refused 702 block 1", "record 1 is damaged"),
    ("put.json whole.store kv --orgs Nobody", "refused 806", "Nobody: no member of that name stands behind the store (806)"),
]
# Words that name no call, and what is told.
WRONG: list[tuple[list[str], str]] = [
    ([], "GENESIS is missing"), (["g", "s"], "CHAINCODE is missing"), (["g", "s", "c", "--nonce", "00"], "16 bytes of hex"),
    (["g", "s", "c", "--hex"], "one ARG, of hex"), (["g", "s", "c", "--hex", "0"], "one ARG, of hex"),
    (["g", "s", "c", "--hex", "00", "00"], "one ARG"), (["g", "s", "c", "--orgs", "A,"], "names with a comma"),
    (["g", "s", "c", "--orgs"], "the value NAME,.. of --orgs is missing"),
    (["g", "s", "c", "-5"], "what stands behind -- is no option"), (["g", "s", "c", "--dry"], 'did you mean "--dry-run"?'),
    (["g", "s", "c", "--hex=1"], "--hex has no value"), (["g", "s", "c", "--keys", "k", "--keys", "k"], "--keys stands twice"),
    (["g", "s", "c", "x" * 4097], "up to 4,096 bytes, and this one has 4,097"), (["g", "s", "c", "\udcff"], "no UTF-8"),
]
# A program that ends who began it, where it is asked for this: as a command begins, of which `endorse` is a peer of an organisation,
# or behind the call's block is on the disk.
KILLER = """#!/usr/bin/python3
import os, signal, subprocess, sys
real, step = {real!r}, os.environ.get("STEP")
begun = "endorse" if "--org" in sys.argv else sys.argv[1]
def end():
    # Where the call has ended already, the test has its place.
    parent = os.getppid()
    with open(f"/proc/{{parent}}/cmdline", "rb") as it:
        if b"ledger\\0call\\0" in it.read():
            os.kill(parent, signal.SIGKILL)
if begun == step:
    end()
if begun != "peer" or step != "written":
    os.execv(real, [real, *sys.argv[1:]])
with subprocess.Popen([real, *sys.argv[1:]], stdout=subprocess.PIPE, text=True) as child:
    for line in child.stdout:
        if line.startswith("committed "):
            end()
        else:
            print(line, end="", flush=True)
"""
STEPS = ["peer", "public", "endorse", "marks", "written"]


class Calls:
    """A folder of networks, and calls of their chaincodes."""

    def __init__(self, report: Report, tree: pathlib.Path, room: pathlib.Path, env: dict[str, str]):
        self.report, self.tree, self.room, self.env = report, tree, room / "calls", env
        shutil.copytree(tree / "test" / "cases" / "data", self.room)
        for name, code in ENDS.items():
            head = "0061736d01000000" "0105016000017f" "03020100" "070a0106696e766f6b650000"
            (self.room / f"{name}.wasm").write_bytes(bytes.fromhex(head + code))
        (self.room / "says.wasm").write_bytes(bytes.fromhex(SAYS))
        small = json.loads((self.room / "put.json").read_text())
        (self.room / "small.json").write_text(json.dumps({**small, "absolute": 40}))
        for keys in self.room.glob("*.keys"):
            keys.chmod(0o600)

    def ledger(self, *words: object) -> Ran:
        return run_ledger([self.tree / "ledger", *words], self.room, SECONDS, self.env)

    def call(self, *words: object) -> Ran:
        return self.ledger("call", *words)

    def case(self, name: str, is_so: bool, ran: Ran) -> bool:
        return self.report.case(name, is_so, f"status {ran.status}\n{ran.out}{ran.err}")

    def is_valid(self, name: str, block: int, *words: object) -> None:
        """A call that is VALID in this block."""
        ran = self.call(*words)
        self.case(name, ran.status == 0 and f"\nVALID in block {block}, tx " in "\n" + ran.out, ran)

    def is_refused(self, name: str, line: str, told: str, *words: object) -> None:
        """A call that is refused by a line and a sentence. The store is as it was; a new one is empty."""
        store = self.room / str(words[1])
        before = store.read_bytes() if store.is_file() else b""
        ran = self.call(*words)
        after = store.read_bytes() if store.is_file() else b""
        is_told = ran.status == 1 and ran.out == f"{line}\n" and told in ran.err and "Traceback" not in ran.err
        self.case(name, is_told and before == after, ran)

    def blocks(self, folder: str) -> int:
        """How many blocks a folder's chain has, which has to be whole and agree."""
        ran = self.ledger("audit", folder)
        self.case(f"{folder}: the store is one", ran.status == 0 and ran.out.endswith("audit agrees\n"), ran)
        return int(ran.out.split()[1]) if ran.out.startswith("blocks ") else -1


def try_calls(report: Report, tree: pathlib.Path, room: pathlib.Path, env: dict[str, str]) -> None:
    at = Calls(report, tree, room, env)
    for said, line, told in REFUSED:
        at.is_refused(said, line, told, *said.split())
    for words, told in WRONG:
        ran = at.call(*words)
        is_told = ran.status == 2 and not ran.out and told in ran.err.splitlines()[-1]
        at.case(f"words that name no call: {words!a}"[:80], is_told and ran.err.startswith("usage: ledger call GENESIS"), ran)
    words = [it for name in ("assets", "others") for it in ("--chaincode", f"{name}={tree}/examples/chaincode/asset_register.wasm")]
    words += [it for name in (*ENDS, "says") for it in ("--chaincode", f"{name}={name}.wasm")]
    ran = at.ledger("new", "net", *words, "--policy", POLICY)
    at.case("a network is made", ran.status == 0, ran)
    # A loop is to end soon.
    genesis = at.room / "net" / "genesis.json"
    genesis.write_text(genesis.read_text().replace('"fuel": 1000000', '"fuel": 10000'))
    try_lines(at)
    try_ends(at)
    try_nonces(at)
    try_torn(at)
    try_full(at)
    try_at_once(at)
    try_kills(at)


def try_lines(at: Calls) -> None:
    """What a call prints, to the letter, and what a dry run does."""
    ran = at.call("net", "assets", "create", "pallet-7", "Maker", "--dry-run")
    is_so = ran.status == 0 and ran.out == "write assets/asset/pallet-7 put Maker\n" and "the empty state" in ran.err
    at.case("a dry run on no store", is_so and not (at.room / "net/chain.store").exists(), ran)
    ran = at.call("net", "assets", "create", "pallet-7", "Maker")
    first, last = (ran.out.splitlines() + ["", ""])[:2]
    is_so = first == "write assets/asset/pallet-7 put Maker" and last.startswith("VALID in block 1, tx ") and len(last) == 85
    at.case("the first call", is_so and ran.status == 0 and ran.out.count("\n") == 2 and "is a new store" in ran.err, ran)
    ran = at.call("net", "assets", "create", "pallet-8", "Maker")
    at.case("the second one: nothing else is told", ran.out.endswith("\n") and not ran.err, ran)
    ran = at.call("net", "assets", "list", "--dry-run")
    at.case("each line of a result", ran.out == "result pallet-7 Maker\nresult pallet-8 Maker\n", ran)
    ran = at.call("net", "assets", "--hex", b"list".hex(), "--dry-run")
    at.case("a result in hex", ran.out == f"result {b'pallet-7 Maker'.hex()}0a{b'pallet-8 Maker'.hex()}0a\n", ran)
    ran = at.call("net", "assets", "--hex", b"create \xff y".hex(), "--dry-run")
    at.case("a write in hex", ran.out == f"write {b'assets/asset/'.hex()}ff put 79\n", ran)
    ran = at.call("net", "assets", "create", "\u202e", "0x", "--dry-run")
    at.case("what is no plain text is in hex", ran.out == f"write 0x{b'assets/asset/'.hex()}e280ae put 0x3078\n", ran)
    ran = at.call("net", "assets", "delete", "pallet-8", "--orgs", "Shop,Maker")
    at.case("those who are named endorse", ran.out.startswith("write assets/asset/pallet-8 delete\nVALID in block 3, tx "), ran)
    ran = at.call("net", "assets", "delete", "pallet-7", "--orgs", "Maker")
    is_so = ran.status == 1 and ran.out.startswith("ENDORSEMENT_POLICY_FAILURE in block 4, tx ") and ran.out.count("\n") == 1
    at.case("too few endorse", is_so and "(flag 1)" in ran.err, ran)
    shown = [json.loads(it) for it in at.ledger("show", "net").out.splitlines()]
    orgs = [[it["org"] for it in block["txs"][0]["endorsements"]] for block in shown[1:-1]]
    wanted = [["Maker", "Carrier"]] * 2 + [["Shop", "Maker"], ["Maker"]]
    at.report.case("the fewest endorse, the first ones", orgs == wanted, str(orgs))


def try_ends(at: Calls) -> None:
    """Calls that the chaincode does not do, and keys that do not suffice."""
    files = ["net/genesis.json", "net/chain.store"]
    keys = ["--keys", "net/all.key"]
    shows = "; `ledger debug` shows where"
    told = f"the chaincode trapped by trap 1, unreachable; 1 of 10000 fuel used{shows} (402)"
    at.is_refused("a trap", "refused 402 trap 1", told, *files, "trap", *keys)
    at.is_refused("no fuel", "refused 403", f"10000 of 10000 fuel used{shows} (403)", *files, "loop", *keys)
    told = f"the chaincode returned the status 7; 1 of 10000 fuel used{shows} (404)"
    at.is_refused("a status", "refused 404 status 7", told, *files, "seven", *keys)
    at.is_refused("a status with a result", "refused 404 status 4", "the status 4, and said: not yet; 69 of 10000 fuel used", *files, "says", *keys)
    told = "the status 1; it may not write assets/asset/x, which does not begin with others/; "
    at.is_refused("a key of another's", "refused 404 status 1", told, *files, "others", "create", "x", "y", *keys)
    delete = [*files, "assets", "delete", "pallet-7", "--keys", "net/Shop/key"]
    told = f"assets needs {POLICY}; the seeds in net/Shop/key are those of Shop (808)"
    at.is_refused("a key short", "refused 808", told, *delete)
    at.is_refused("one that is named, whose key is not at hand", "refused 808", "net/Shop/key lacks the seed of Maker (808)", *delete, "--orgs", "Shop,Maker")
    ran = at.call(*files, "assets", "--", "--dry-run")
    at.case("behind -- stands no option", ran.out == "refused 808\n", ran)
    for chaincode, number, told in [("says", "404 status 4", "sim: the chaincode returned the status 4, and said: not yet; 69 of 10000 fuel used"),
                                    ("trap", "402 trap 1", "unreachable; 1 of 10000 fuel used"), ("loop", "403", "10000 of 10000 fuel used")]:
        ran = at.ledger("sim", "net", chaincode, "-")
        at.case(f"sim of {chaincode}", (ran.status, ran.out) == (1, f"refused {number}\n") and ran.err.count(told + shows) == 1, ran)
    ran = at.call("open.json", "open.store", "kv", "--modules", "modules.json")
    at.case("a module of an open definition", ran.out.startswith("write a put 1\nVALID in block 4, tx "), ran)


def try_nonces(at: Calls) -> None:
    """A call of a nonce that was used has its first outcome, and is in no new block."""
    words = ["net", "assets", "create", "pallet-9", "Shop", "--nonce", NONCE]
    first, second = at.call(*words), at.call(*words[:-1], NONCE.upper())
    at.case("a nonce for the first time", first.status == 0 and "VALID in block 5, " in first.out, first)
    at.case("a nonce again", second.status == 0 and second.out == first.out and "stands in block 5 already" in second.err, second)
    words = ["net", "assets", "create", "pallet-10", "Shop", "--nonce", NONCE]
    first, second = at.call(*words, "--orgs", "Shop"), at.call(*words)
    at.case("of another call the nonce is another one", first.out.startswith("ENDORSEMENT_POLICY_FAILURE in block 6, tx "), first)
    at.case("what failed has failed", second.status == 1 and second.out == first.out, second)
    at.report.case("nothing was written for a nonce again", at.blocks("net") == 6)


def try_torn(at: Calls) -> None:
    """A part of a record is cut off, and told of."""
    ran = at.call("put.json", "torn.store", "kv")
    is_so = ran.out.startswith("write a put 1\nVALID in block 2, tx ") and "bytes of a part of a record were cut off" in ran.err
    at.case("a torn end", is_so and ran.status == 0, ran)


def chain_of(count: int) -> bytes:
    """A store of so many blocks, each with a call that nobody endorsed."""
    records, link = [], bytes(32)
    for number in range(1, count + 1):
        envelope = Envelope(Payload(Call("kv", b"", number.to_bytes(16, "big"))).encode(), []).encode()
        data = b"\0\1" + len(envelope).to_bytes(4, "big") + envelope
        header = number.to_bytes(4, "big") + link + hashlib.sha256(data).digest()
        record = len(header + data).to_bytes(4, "big") + header + data + b"\1"
        records.append(record + hashlib.sha256(record).digest())
        link = hashlib.sha256(header).digest()
    return b"".join(records)


def try_full(at: Calls, last: int = LAST_BLOCK) -> None:
    """The last block of a chain under rules 1 is one's, and the next call is refused. Under rules 2 the chain goes on. An unproved program
    would read such a chain for minutes."""
    if last == LAST_BLOCK and program() != PROVED:
        print("calls: the program is unproved, so no full chain is tried", flush=True)
        return
    (at.room / "full.store").write_bytes(chain_of(last - 1))
    at.is_valid("the last block", last, "put.json", "full.store", "kv")
    at.is_refused("a full chain", "refused 422", "the chain is full", "put.json", "full.store", "kv")
    ran = at.call("put.json", "full.store", "kv", "--dry-run")
    at.case("a dry run on a full chain", ran.status == 0 and ran.out == "write a put 1\n", ran)
    (at.room / "long.store").write_bytes(chain_of(last))
    at.is_valid("the same number under rules 2", last + 1, "net/genesis.json", "long.store", "assets", "create", "pallet-1", "Maker",
                "--keys", "net/all.key")


def try_at_once(at: Calls) -> None:
    """The store is one call's alone. A dry run reads beside it."""
    holder = subprocess.Popen([at.tree / (program() or UNPROVED), "peer", "net/genesis.json", "net/chain.store"], cwd=at.room, text=True,
                              stdin=subprocess.PIPE, stdout=subprocess.PIPE, stderr=subprocess.DEVNULL)
    assert holder.stdin and holder.stdout
    holder.stdout.readline()
    at.is_refused("the store is another one's", "refused 703", "another process has it: a node, a peer or a run; ask the node",
                  "net/genesis.json", "net/chain.store", "assets", "list")
    ran = at.call("net", "assets", "read", "pallet-7", "--dry-run")
    at.case("a dry run beside another process", ran.status == 0 and ran.out == "result Maker\n", ran)
    holder.stdin.close()
    holder.wait()
    before = at.blocks("net")
    words = [at.tree / "ledger", "call", "net", "assets", "create"]
    begun = [start([*words, f"pallet-2{it}", "Maker"], at.room, at.env) for it in range(3)]
    said = [it.communicate(timeout=SECONDS) for it in begun]
    done = [out for out, _ in said if "\nVALID in block " in out]
    is_so = len(done) >= 1 and all(out in done or out == "refused 703\n" and "another process has it" in err for out, err in said)
    at.report.case("calls at once: the store is one's", is_so, str(said))
    at.report.case("calls at once: what was told is there", at.blocks("net") == before + len(done), str(said))


def try_kills(at: Calls) -> None:
    """Killed at any step a call leaves a store, in which all is that was told."""
    # An installed tree's program is taken before others.
    killer = at.tree / "ledger_cli"
    killer.write_text(KILLER.format(real=str(at.tree / (program() or UNPROVED))))
    killer.chmod(0o755)
    count = at.blocks("net")
    for number, step in enumerate(STEPS):
        words = ["call", "net", "assets", "create", f"pallet-3{number}", "Maker"]
        began = start([at.tree / "ledger", *words], at.room, {**at.env, "STEP": step})
        out, err = began.communicate(timeout=SECONDS)
        is_killed = began.returncode == -signal.SIGKILL and not out
        at.report.case(f"killed at {step}", is_killed, f"status {began.returncode}\n{out}{err}")
        before, count = count, at.blocks("net")
        at.report.case(f"killed at {step}: the blocks", count == before + (step == "written"), f"{before} and {count}")
    killer.unlink()
    for number, seconds in enumerate((0.2, 0.6, 1.2)):
        began = start([at.tree / "ledger", "call", "net", "assets", "create", f"pallet-4{number}", "Maker"], at.room, at.env)
        time.sleep(seconds)
        os.killpg(began.pid, signal.SIGKILL)
        out, _ = began.communicate(timeout=SECONDS)
        is_free = comes_to_be(lambda: at.call("net", "assets", "create", f"pallet-5{number}", "Maker").status == 0)
        least, most, count = count + 1 + ("VALID" in out), count + 2, at.blocks("net")
        at.report.case(f"killed after {seconds} s: a call goes on", is_free and least <= count <= most, f"{least} {count}\n{out}")
