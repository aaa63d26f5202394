"""./ledger debug: it agrees with the program on every chaincode of the repository, and tells where a call ended."""
import contextlib
import json
import os
import pathlib
import pty
import re
import subprocess
import sys

import machine_lines
import debug
from report import Ran, Report
from tree import program, run_ledger

# How long a command may take, in seconds.
SECONDS = 120
# What a call may spend here.
FUEL = 30_000
# `trace` takes its time for so many steps.
MOST_TRACED = 5_000
# The chaincodes of the repository, but for those that are no valid modules.
CHAINCODES = ("examples/chaincode/*.wasm", "examples/*.wasm", "bench/*.wasm", "bench/untuned/*.wasm", "test/cases/data/*.wasm")
INVALID = {"longer.wasm", "cut.wasm", "empty.wasm"}
# A genesis file has so many chaincodes at most.
MOST_CHAINCODES = 16
# What the registers are called by.
REGISTERS = ("asset_register", "asset_register_2", "asset_register_rust")
ARGUMENTS = ("create pallet-1 Maker", "create pallet-1", "read pallet-1", "transfer pallet-1 Shop", "delete pallet-1", "list",
             "inspect pallet-1 x", "none", "create " + "p" * 80 + " Maker", "")
# How `trace` tells the end of a call.
TRACED = re.compile(r"(?:returned|trapped) -?\d+ used (\d+)")
# 7 below a loop that has a result and begins again twice, and 5 above it.
LOOP = "0061736d010000000105016000017f03020100070a0106696e766f6b6500000a1a011801017f4107037f200041016a22004103490d0041050b6a0b"
# 1 is divided by 0.
DIVIDED = "0061736d010000000105016000017f03020100070a0106696e766f6b6500000a09010700410141006d0b"
# What is told of it.
TOLD = """\
{0}()
at 0x28 in {0}: i32.div_s
  in {0}:
    0x24 i32.const 1
    0x26 i32.const 0
    0x28 i32.div_s (1, 0)
trapped by trap 2, division by zero; 3 of 30000 fuel used
"""
# Words that name no call, and what is told.
MISTAKES = [
    ((), "GENESIS is missing"), (("g.json",), "CHAINCODE is missing"), (("g.json", "kv", "--foo"), "there is no option --foo"),
    (("g.json", "kv", "--store"), "the value FILE of --store is missing"), (("g.json", "kv", "--hex=6"), "--hex has no value"),
    (("g.json", "kv", "--last", "x"), "--last is x; it has to be 0 to"), (("g.json", "kv", "--last=-1"), "--last is -1"),
    (("g.json", "kv", "--last", "0", "--last", "1"), "--last stands twice"), (("g.json", "kv", "--hex"), "one ARG, of hex"),
    (("g.json", "kv", "p" * 4097), "up to 4,096 bytes, and this one has 4,097"),
]
# Runs a script that tells a terminal after a second how far it is.
IMPATIENT = "import runpy, sys, program; program.PATIENCE = 1; del sys.argv[0]; runpy.run_path(sys.argv[0], run_name='__main__')"
# A program that asks the real one, and changes what a peer answers to the call; or ends.
PROGRAM = """\
#!{python}
import json, pathlib, subprocess, sys
how = pathlib.Path({how!r}).read_text()
child = subprocess.Popen([{program!r}, *sys.argv[1:]], stdin=subprocess.PIPE, stdout=subprocess.PIPE, text=True)
print(child.stdout.readline(), end="", flush=True)
for line in sys.stdin:
    print(line, end="", file=child.stdin, flush=True)
    said = child.stdout.readline()
    if how == "ends":
        break
    if how == "differs" and '"writes"' in said:
        before, words = said.rsplit(" ", 1)
        said = before + " " + json.dumps({{**json.loads(words), "result": "00"}}, separators=(",", ":")) + "\\n"
    print(said, end="", flush=True)
"""


class Debugging:
    """A folder with genesis files."""

    def __init__(self, report: Report, tree: pathlib.Path, room: pathlib.Path, env: dict[str, str]):
        self.report, self.tree, self.at, self.env = report, tree, room / "debugging", env
        self.at.mkdir()

    def ledger(self, *words: object) -> Ran:
        return run_ledger([self.tree / "ledger", *words], self.at, SECONDS, self.env)

    def genesis(self, name: str, modules: dict[str, bytes], fuel: int = FUEL) -> str:
        """Writes a genesis file with these chaincodes, of profile 2."""
        chaincodes = [{"name": it, "module": module.hex(), "profile": 2, "policy": "'A'", "fuel": fuel}
                      for it, module in modules.items()]
        made = {"orgs": [{"name": "A", "key": "4a656665"}], "peers": ["A"], "seats": 1, "queue": 1, "count": 1, "preferred": 1000,
                "absolute": 1000, "reorder": False, "chaincodes": chaincodes, "modules": [], "upgrade": "'A'"}
        (self.at / name).write_text(json.dumps(made))
        return name

    def asking(self, genesis: str, *words: str) -> debug.State:
        """Questions about the chain of a store, or of none."""
        return debug.State(str(self.tree / str(program())), str(self.at / genesis), *map(str, words or (debug.NOTHING,)))

    def agree(self, state: debug.State, asked: debug.Asked) -> debug.Run:
        """Runs a call, of which the program has to say the same."""
        said = state.answer("call", chaincode=asked.chaincode, arg=asked.arg)
        run = debug.Run(asked, state, asked.last)
        run.run()
        what = f"{pathlib.Path(asked.genesis).name} {asked.chaincode} {bytes.fromhex(asked.arg)[:40]!r}"
        why = f"{run.end}\n{str(run.answer())[:400]}\nand the program says\n{str(said)[:400]}"
        self.report.case(what, run.answer() == said, why)
        return run

    def asked(self, genesis: str, chaincode: str, argument: str = "", modules: tuple[str, ...] = ()) -> debug.Asked:
        return debug.Asked(str(self.at / genesis), debug.NOTHING, modules, chaincode, argument.encode().hex(), False, int(debug.LAST))


def try_chaincodes(at: Debugging) -> None:
    """Every chaincode of the repository, the registers by several calls; the fuel of each is what `trace` says."""
    files = [it for pattern in CHAINCODES for it in sorted(at.tree.glob(pattern)) if it.name not in INVALID]
    at.report.case("the repository has chaincodes", len(files) > 20, str(files))
    for begin in range(0, len(files), MOST_CHAINCODES):
        some = {f"c{number}": file for number, file in enumerate(files[begin:begin + MOST_CHAINCODES])}
        genesis = at.genesis(f"chaincodes{begin}.json", {name: file.read_bytes() for name, file in some.items()})
        with at.asking(genesis) as state:
            for name, file in some.items():
                for argument in ARGUMENTS if file.stem in REGISTERS else ("",):
                    run = at.agree(state, at.asked(genesis, name, argument))
                # The last one is without an argument.
                if run.used() < MOST_TRACED and run.refusal != "403":
                    try_fuel(at, genesis, name, run)


def try_fuel(at: Debugging, genesis: str, chaincode: str, run: debug.Run) -> None:
    """A call without an argument uses as much fuel as `trace` says."""
    command = [at.tree / str(program()), "trace", genesis, chaincode, "-", "--steps", "1"]
    traced = run_ledger(command, at.at, SECONDS, at.env).out
    found = TRACED.fullmatch((traced.splitlines() or [""])[-1])
    is_same = found is not None and int(found[1]) == run.used()
    at.report.case(f"the fuel of {genesis} {chaincode}", is_same, f"{run.used()}\n{traced[-200:]}")


def try_ends(at: Debugging) -> None:
    """Each kind of trap, by the first line of the cases that has it; fuel that is spent; a status below 0; and a loop."""
    lines = zip(*((at.tree / machine_lines.CASES / name).read_text().splitlines() for name in ("stdin", "stdout")))
    runs = [(line.partition(" #")[0].split(" ", 2)[2], answer) for line, answer in lines if line.startswith("run ")]
    modules, refusals = {"loop": bytes.fromhex(LOOP)}, {"loop": "404 status 12"}
    traps = [(f"e{kind}", f"trapped {it}", f"402 trap {kind}") for kind, it in machine_lines.KINDS.items()]
    others = [("minus", "returned 4294967295", "404 status -1"), ("spent", "spent", "403")]
    for name, beginning, refusal in [*traps, *others]:
        modules[name] = machine_lines.hex_of(next(module for module, answer in runs if answer.startswith(beginning)))
        refusals[name] = refusal
    for fuel in (9_999, 26):
        genesis = at.genesis(f"ends{fuel}.json", modules, fuel)
        with at.asking(genesis) as state:
            for name, refusal in refusals.items():
                run = at.agree(state, at.asked(genesis, name))
                at.report.case(f"{name} with {fuel}", fuel == 26 or name == "spent" or run.refusal == refusal, run.refusal)
                is_placed = ("at 0x" in "\n".join(run.lines(False))) == (run.refusal[:3] in ("402", "403"))
                at.report.case(f"{name} with {fuel}: its place", is_placed, "\n".join(run.lines(False)))


def try_stores(at: Debugging) -> None:
    """Calls on states of stores: by the definition that stands there, and where its module is at hand."""
    example, cases = at.tree / "examples/assets", at.tree / "test/cases/data"
    keys, genesis = example / "example_keys/all.key", str(example / "genesis.json")
    at.ledger("run", genesis, example / "events.jsonl", "--keys", keys, "--store", "assets.store")
    with at.asking(genesis, str(at.at / "assets.store")) as state:
        for argument in (*ARGUMENTS, "read pallet-7", "transfer pallet-7 Shop", "inspect pallet-9 2027-01-01"):
            at.agree(state, at.asked(genesis, "assets", argument))
    for argument, get in (("read pallet-7", '("assets/asset/pallet-7") = 7 "Carrier"'),
                          (f"--hex {b'read pallet-7'.hex()}", f"(0x{b'assets/asset/pallet-7'.hex()}) = 7 0x{b'Carrier'.hex()}")):
        ran = at.ledger("debug", genesis, "assets", *argument.split(), "--store", "assets.store")
        at.report.case(f"debug {argument}", ran.status == 0 and f"\n  get_state{get}\n" in ran.out, ran.out + ran.err)
    for file in [*cases.glob("open*"), *cases.glob("modules*")]:
        (at.at / file.name).write_bytes(file.read_bytes())
    with at.asking("open.json", str(at.at / "open.store"), "--modules", str(at.at / "modules.json")) as state:
        run = at.agree(state, at.asked("open.json", "kv", modules=("--modules", str(at.at / "modules.json"))))
        at.report.case("it takes the newest definition", run.given == 141, str(run.given))
    for typed, line, told in (("open.json kv --store open.store", "refused 406\n", "at hand"),
                              ("open.json kw", "refused 401\n", 'no chaincode "kw"; did you mean "kv"?'),
                              ("open.json Kv", "refused 401\n", 'no chaincode "Kv"'), ("- kv", "refused 703\n", "no such file"),
                              ("open.json kv --store none", "refused 703\n", "none: "), ("modules.json kv", "refused 802\n", "modules.json")):
        ran = at.ledger("debug", *typed.split())
        is_told = (ran.status, ran.out) == (1, line) and told in ran.err.splitlines()[-1] and "Traceback" not in ran.err
        at.report.case(f"debug {typed}", is_told, ran.out + ran.err)


def try_names(at: Debugging) -> None:
    """A function has the name that the module has for it, if that can be shown, else that of its export."""
    divided = bytes.fromhex(DIVIDED)
    modules = {"bare": divided, "named": divided + names(b"pay::share::h0123456789abcdef"), "odd": divided + names(b"\x1b[31m"),
               "cut": divided + names(b"pay").replace(b"\3pay", b"\4pay"),
               "other": divided + names(b"pay").replace(b"name", b"game")}
    shown = {"bare": "invoke", "named": "pay::share", "odd": r"'\x1b[31m'", "cut": "invoke", "other": "invoke"}
    genesis = at.genesis("names.json", modules)
    with at.asking(genesis) as state:
        for name, function in shown.items():
            lines = list(at.agree(state, at.asked(genesis, name)).lines(False))
            at.report.case(f"names of {name}", lines == TOLD.format(function).splitlines(), "\n".join(lines))
    for words, wanted in ((("named", "--", "--last", "-x"), TOLD.format("pay::share")),
                          (("bare", "--last", "1"), re.sub(".*const.*\n", "", TOLD.format("invoke")))):
        ran = at.ledger("debug", genesis, *words)
        at.report.case(f"debug {' '.join(words)}", (ran.status, ran.out, ran.err) == (1, wanted, ""), ran.out + ran.err)


def names(name: bytes) -> bytes:
    """A name section with a name of function 0."""
    part = bytes([1, 0, len(name)]) + name
    section = b"\4name\1" + bytes([len(part)]) + part
    return bytes([0, len(section)]) + section


def try_words(at: Debugging) -> None:
    for words, told in MISTAKES:
        ran = at.ledger("debug", *words)
        is_told = ran.status == 2 and not ran.out and told in ran.err and ran.err.startswith("usage: ledger debug ")
        at.report.case(f"debug {str(words)[:80]}", is_told and ran.err.endswith(" (usage)\n"), ran.out + ran.err)


def try_faults(at: Debugging) -> None:
    """A program that answers otherwise, and one that ends."""
    how, fake = at.at / "how", at.tree / "ledger_cli"
    real = at.tree / str(program())
    for name, status, line, told in (("differs", 3, "returned status 0; ", "this is wrong"),
                                     ("ends", 1, "", "ledger peer ended with status 0")):
        how.write_text(name)
        fake.write_text(PROGRAM.format(python=sys.executable, how=str(how), program=str(real)))
        fake.chmod(0o755)
        ran = at.ledger("debug", at.tree / "examples/assets/genesis.json", "assets", "create", "p", "Maker")
        is_told = ran.status == status and told in ran.err and line in ran.out and "Traceback" not in ran.err
        why = f"status {ran.status}\n{ran.out[-300:]}{ran.err}"
        at.report.case(f"a program that {name}", is_told and (line != "" or not ran.out), why)
    fake.unlink()


def try_terminal(at: Debugging) -> None:
    """On a terminal a long run tells how far it is, and takes that away behind it."""
    genesis = at.genesis("long.json", {"count": (at.tree / "bench/count.wasm").read_bytes()}, 1_000_000)
    ours, theirs = pty.openpty()
    command = [sys.executable, "-B", "-c", IMPATIENT, str(at.tree / "ledger"), "debug", genesis, "count"]
    env = {**os.environ, **at.env, "PYTHONPATH": str(at.tree / "python")}
    with subprocess.Popen(command, cwd=at.at, env=env, stdin=subprocess.DEVNULL, stdout=subprocess.DEVNULL, stderr=theirs) as process:
        os.close(theirs)
        said = b""
        # The terminal's other end is gone once the process ends.
        with contextlib.suppress(OSError):
            while more := os.read(ours, 4096):
                said += more
    os.close(ours)
    is_told = re.search(rb"\r\x1b\[Kledger: [0-9,]+ of 1,000,000 fuel used", said) and said.endswith(b"\r\x1b[K")
    at.report.case("a long run on a terminal", process.returncode == 1 and bool(is_told), repr(said))


def try_debugging(report: Report, tree: pathlib.Path, room: pathlib.Path, env: dict[str, str]) -> None:
    machine_lines.try_machine(report, tree)
    at = Debugging(report, tree, room, env)
    for part in (try_chaincodes, try_ends, try_stores, try_names, try_words, try_faults, try_terminal):
        part(at)
