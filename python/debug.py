"""`ledger debug`: runs a call on the state of a store instruction by instruction, and says where it ended.

The run is this script's own (wasm_machine.py), and nothing of it is proved. So each time it is compared with what the program
answers to the same call.
"""
import dataclasses
import hashlib
import io
import json
import os
import pathlib
import re
import sys
from collections.abc import Iterator
from typing import Any, NamedTuple

from commands import Call, Given, Misuse, argument, modules
from debug_lines import bytes_of, call_lines, moment_lines, stack_lines
from fabric_host import Entry, Fabric, namespace_of
from membership import Ledger
from network import CHAINCODES, OPEN, quoted
from outcome import shown
from peer import Beside, Ended, Peer, Refused, answered
from program import find, progress, say
from regtuma import wire
from wasm_machine import Machine, Spent
from wasm_module import Module
from wasm_operators import TRAPS, WORD, Trap

# How many instructions are shown, and how many at most.
LAST, MOST_LAST = "6", 100_000
# A store that is empty.
NOTHING = "/dev/null"
# What a call is refused by once it is run, and how much fuel is run for the sentence beside that: it takes a second.
RUN, MOST_FUEL = ("402", "403", "404"), 300_000
# The statuses.
DONE, REFUSED, DIFFERS = 0, 1, 3


@dataclasses.dataclass(frozen=True)
class Asked(Call):
    """What somebody asks for: a call, and how many instructions are shown."""
    last: int


def asked_in(found: Given) -> Asked:
    """What the words ask for."""
    genesis, chaincode, *args = found.words
    last = found.option("--last") or LAST
    if not re.fullmatch("[0-9]{1,6}", last) or int(last) > MOST_LAST:
        raise Misuse(f"--last is {quoted(last)}; it has to be 0 to {MOST_LAST}")
    is_hex = "--hex" in found.options
    store = found.option("--store") or NOTHING
    return Asked(genesis, store, modules(found), chaincode, argument(args, is_hex), is_hex, int(last))


# ---------------------------------------------------------------- what the program says


class State(Beside):
    """The state of a store."""

    def get(self, key: bytes) -> Entry | None:
        said = self.answer("get", key=key.hex())
        return entry_of(said) if said else None

    def range(self, start: bytes, end: bytes, limit: int) -> list[Entry]:
        return [entry_of(it) for it in self.answer("range", start=start.hex(), end=end.hex(), limit=limit)]


def entry_of(said: dict[str, str]) -> Entry:
    return Entry(bytes.fromhex(said["key"]), bytes.fromhex(said["value"]), said["version"])


def state_of(program: str, call: Call) -> State:
    """The state on which a call is made."""
    return State(program, call.genesis, call.store, *call.modules)


def simulated(peer: Peer, call: Call, program: str) -> dict[str, Any]:
    """What the program says that a call comes to."""
    check_name(peer, call, program)
    said: dict[str, Any] = peer.answer("call", chaincode=call.chaincode, arg=call.arg)
    return said


def check_name(peer: Peer, call: Call, program: str) -> None:
    """A name that no chaincode can have is one that none has. Files are judged before."""
    if not CHAINCODES.name.fullmatch(call.chaincode) and peer.answer("setting"):
        raise refusal(call, program, "refused 401")


def refusal(call: Call, program: str, line: str) -> Refused:
    """The refusal of a call with its sentence: which chaincode was meant, how the run ended, or what `sim` says."""
    number = line.split()[1]
    if number == "401":
        return Refused(line, Ledger(program, call.genesis, call.store).unknown(call.chaincode))
    if number in RUN and (run := rerun(call, program, line)):
        return Refused(line, f"{run.sentence()} ({number})")
    try:
        answered(program, "sim", call.genesis, call.chaincode, call.arg or "-", "--store", call.store, *call.modules)
    except Refused as refused:
        if refused.line == line:
            return Refused(line, refused.why.removeprefix("sim: "))
    return Refused(line, "")


def rerun(call: Call, program: str, line: str) -> "Run | None":
    """A call that the program refuses by a line; nothing where it ends otherwise here, or runs for too long."""
    try:
        with state_of(program, call) as state:
            run = Run(call, state, most=MOST_FUEL)
            run.run()
    except (Ended, Refused):
        return None
    is_so = f"refused {run.refusal}" == line and (run.refusal != "403" or run.given <= MOST_FUEL)
    return run if is_so else None


def tell_more(found: Given, program: str, line: str) -> None:
    """Says of a call that `sim` refuses by a line what the program does not say: its fuel and its result."""
    genesis, chaincode, arg = found.words
    call = Call(genesis, found.option("--store") or NOTHING, modules(found), chaincode, arg.strip("-"), is_hex=True)
    files = [genesis, *(it for name in ("--store", "--modules") for it in found.options.get(name, []))]
    # What is no file cannot be read twice.
    is_there = all(os.path.isfile(it) and not it.startswith("/dev/") for it in files)
    if is_there and line.split()[1] in RUN and (run := rerun(call, program, line)):
        say(f"sim: {run.sentence()}")


class Definition(NamedTuple):
    """What a call runs, on how much fuel and under which rules; and the entry of the state that says so, if there is one."""
    module: bytes
    fuel: int
    rules: int
    entry: Entry | None


def definition_of(call: Call, state: State) -> Definition:
    """The definition of the chaincode, which can be used. The program has read the files before."""
    try:
        return definition_in(call, state.get(b"\0" + call.chaincode.encode()))
    except (ValueError, LookupError, TypeError, StopIteration) as error:
        raise Ended(f"{call.genesis} and a modules file are read twice: they have to be files that stay") from error


def definition_in(call: Call, entry: Entry | None) -> Definition:
    """The definition by the entry of the state, else that of the genesis file."""
    genesis = json.loads(pathlib.Path(call.genesis).read_bytes())
    rules = genesis.get("rules", 1)
    if entry is None:
        own = next(it for it in genesis["chaincodes"] if it["name"] == call.chaincode)
        return Definition(bytes.fromhex(own["module"]), own["fuel"], rules, None)
    held = [it for file in call.modules[1:] for it in json.loads(pathlib.Path(file).read_bytes())]
    at_hand = [(bytes.fromhex(it["module"]), it["profile"]) for it in [*genesis["chaincodes"], *genesis["modules"], *held]]
    stands = wire.Definition.decode(entry.value)
    module = next(it for it, profile in at_hand if profile == stands.profile % OPEN and hashlib.sha256(it).digest() == stands.module)
    return Definition(module, stands.fuel, rules, entry)


# ---------------------------------------------------------------- the run


class Run:
    """A call as it is run here, on so much of its fuel at most, and how it ends."""

    def __init__(self, call: Call, state: State, last: int = 0, most: int = sys.maxsize):
        definition = definition_of(call, state)
        self.key, self.entry, self.given = b"\0" + call.chaincode.encode(), definition.entry, definition.fuel
        self.begun = min(self.given, most)
        self.fabric = Fabric(state, bytes.fromhex(call.arg), namespace_of(call.chaincode, definition.rules))
        self.machine = Machine(Module(definition.module), self.fabric, self.begun, last)
        # How it ended: the refusal as the program tells it, empty where it is none, and words for people.
        self.refusal, self.end = "", "returned status 0"

    def run(self) -> None:
        try:
            status = self.machine.invoke()
            if status:
                self.refusal, self.end = f"404 status {status}", f"returned the status {status}"
        except Trap as trap:
            self.refusal, self.end = f"402 trap {trap.kind}", f"trapped by trap {trap.kind}, {TRAPS[trap.kind]}"
        except Spent:
            self.refusal, self.end = "403", "spent its fuel: the next instruction costs more than is left"

    def used(self) -> int:
        return self.begun - self.machine.fuel

    def fuel(self) -> str:
        return f"{self.used()} of {self.given} fuel used"

    def sentence(self) -> str:
        """How it ended, with what it had set as its result and a key that it may not write, and what tells more."""
        said = f", and said: {shown(self.fabric.result)}" if self.fabric.result else ""
        outside, front = self.fabric.outside, self.fabric.namespace.decode()
        refused = f"; it may not write {shown(outside)}, which does not begin with {front}" if outside else ""
        return f"the chaincode {self.end}{said}{refused}; {self.fuel()}; `ledger debug` shows where"

    def answer(self) -> dict[str, Any]:
        """What the program has to answer to the call."""
        if self.refusal:
            return {"refused": self.refusal}
        reads = {self.key: self.entry, **self.fabric.reads}
        return {
            "ranges": [{"start": it.start.hex(), "end": it.end.hex(), "limit": it.limit,
                        "entries": [{"key": entry.key.hex(), "version": entry.version} for entry in it.entries]}
                       for it in self.fabric.ranges],
            "reads": [{"key": key.hex(), "version": entry.version if entry else None} for key, entry in sorted(reads.items())],
            "result": self.fabric.result.hex(),
            "writes": [{"key": key.hex(), "value": None if value is None else value.hex()}
                       for key, value in sorted(self.fabric.writes.items())],
        }

    def lines(self, is_hex: bool) -> Iterator[str]:
        """What is told of the run."""
        yield from call_lines(self.machine.calls, is_hex)
        if self.refusal:
            yield from stack_lines(self.machine)
            yield from moment_lines(list(self.machine.recent))
            if self.fabric.result:
                yield f"its result was {bytes_of(self.fabric.result, is_hex)}"
        yield f"{self.end}; {self.fuel()}"


def debug(asked: Asked, program: str, state: State) -> int:
    """Runs the call, prints what is told of it, and compares it with the program's answer. The status."""
    said = simulated(state, asked, program)
    if "refused" in said and said["refused"][:3] not in RUN:
        raise refusal(asked, program, f"refused {said['refused']}")
    run = Run(asked, state, asked.last)
    with progress(lambda _: f"{run.used():,} of {run.given:,} fuel used"):
        run.run()
    for line in run.lines(asked.is_hex):
        print(line)
    if run.answer() != said:
        say(f"debug: the program answers otherwise, so this is wrong, by a fault of `ledger debug`: {json.dumps(said)[:1000]}")
        return DIFFERS
    return REFUSED if run.refusal else DONE


def main(found: Given) -> int:
    """Does what the words ask for. The status."""
    asked, program = asked_in(found), str(find())
    if isinstance(sys.stdout, io.TextIOWrapper):
        sys.stdout.reconfigure(encoding="utf-8")
    try:
        with state_of(program, asked) as state:
            return debug(asked, program, state)
    except Refused as refused:
        print(refused.line)
        say(f"debug: {refused.why or refused.line}")
    except Ended as ended:
        say(f"debug: {ended}")
    return REFUSED
