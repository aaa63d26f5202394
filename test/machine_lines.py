"""The machine of `ledger debug` on the lines of crates/ledger_cases: it ends as the proved one does, by the same fuel.

So each looks at the other, since the machine in python/ was written by docs/MODULES.md alone.
"""
import itertools
import pathlib
import re
import sys
from collections.abc import Callable, Iterator

from report import Report

sys.path.insert(0, str(pathlib.Path(__file__).resolve().parent.parent / "python"))
from fabric_host import Entry, Fabric, namespace_of
from wasm_machine import Call, Machine, Memory, Spent
from wasm_module import Function, Module, Type
from wasm_operators import INSTRUCTIONS, LONG, OPERATORS, OUT_OF_BOUNDS, WORD, Trap

CASES = "crates/ledger_cases"
# What the lines call the kinds of traps.
KINDS = dict(enumerate(["Unreachable", "DivideByZero", "IntegerOverflow", "OutOfBounds", "UndefinedElement",
                        "UninitializedElement", "IndirectCallType", "CallDepth"], 1))
# Verbs of operators, and the instructions that they stand for.
VERBS = {"binary32": "i32.{}", "binary64": "i64.{}", "compare32": "i32.{}", "compare64": "i64.{}",
         "unary32": "i32.{}", "unary64": "i64.{}"}
TESTS = {"eqz32": "i32.eqz", "eqz64": "i64.eqz"}
CONVERSIONS = {"wrap": "i32.wrap_i64", "extend_s": "i64.extend_i32_s", "extend_u": "i64.extend_i32_u"}
# As many instructions as a line shows, and what each costs but for host calls and growths.
ALL, OWN_COST = 1_000_000, 1
# The chaincode of calls, and what stands before a line of a ledger under rules 2.
CHAINCODE, SECOND = "kv", "under 2 "
# An answer of a line that is no case, or of a module that is refused.
NO_RUN = re.compile("bad line|fault |invalid ")


class Answering:
    """A host that always answers the same."""

    def __init__(self, word: str):
        self.word = word

    def answer(self, _call: Call, _arguments: list[int], _memory: Memory) -> int:
        if self.word == "past":
            raise Trap(OUT_OF_BOUNDS)
        return int(self.word)


class States:
    """A state that the blocks of a line leave."""

    def __init__(self) -> None:
        self.entries: dict[bytes, Entry] = {}
        self.height = 0

    def write(self, writes: dict[bytes, bytes | None]) -> None:
        """Adds a block."""
        self.height += 1
        for key, value in writes.items():
            self.entries.pop(key, None)
            if value is not None:
                self.entries[key] = Entry(key, value, f"{self.height}.0")

    def get(self, key: bytes) -> Entry | None:
        return self.entries.get(key)

    def range(self, start: bytes, end: bytes, limit: int) -> list[Entry]:
        found = [it for key, it in sorted(self.entries.items()) if start <= key and (not end or key < end) and key[0]]
        return found[:limit]


def hex_of(pieces: str) -> bytes:
    """The bytes of pieces, of which one with `*N` behind it stands N times."""
    parts = [it.partition("*") for it in pieces.split()]
    return b"".join(bytes.fromhex(digits) * int(count or "1") for digits, _, count in parts)


def text_of(data: bytes) -> str:
    """Bytes as the lines write them."""
    return data.decode() if all(0x20 <= it < 0x7f for it in data) else f"0x{data.hex()}"


def bytes_of(text: str) -> bytes:
    return bytes.fromhex(text[2:]) if text.startswith("0x") else text.encode()


def ended(machine: Machine, fuel: int, run: Callable[[Machine], int]) -> str:
    """How a run ends, in the words of a line."""
    try:
        status = run(machine)
        return f"returned {WORD.bits(status)} used {fuel - machine.fuel}"
    except Trap as trap:
        return f"trapped {KINDS[trap.kind]} used {fuel - machine.fuel}"
    except Spent:
        return "spent"


def of_run(rest: str) -> str:
    """`run FUEL HEX`: the end, and what was written."""
    fuel, _, module = rest.partition(" ")
    fabric = Fabric(States(), b"")
    end = ended(Machine(Module(hex_of(module)), fabric, int(fuel)), int(fuel), Machine.invoke)
    writes = [f" {key.hex()}" + (" deleted" if value is None else f"={value.hex()}")
              for key, value in sorted(fabric.writes.items())]
    return end + "".join(writes)


def of_answer(rest: str) -> str:
    """`answer ANSWER FUEL HEX`: the end where each host call is answered so."""
    answer, fuel, module = rest.split(" ", 2)
    return ended(Machine(Module(hex_of(module)), Answering(answer), int(fuel)), int(fuel), Machine.invoke)


class Noting(Machine):
    """A machine that notes the fuel behind each instruction."""

    def __init__(self, module: Module, fuel: int):
        super().__init__(module, Fabric(States(), b""), fuel, ALL)
        self.left: list[int] = []

    def spend(self, cost: int) -> None:
        if cost != OWN_COST:
            # It comes on top of what the instruction has cost already.
            self.left.pop()
        super().spend(cost)
        self.left.append(self.fuel)


def of_trace(rest: str) -> str:
    """`trace FUEL HEX`: each step that costs fuel with what it leaves, and what `run` answers."""
    fuel, _, module = rest.partition(" ")
    machine = Noting(Module(hex_of(module)), int(fuel))
    ended(machine, int(fuel), Machine.invoke)
    names = [INSTRUCTIONS[it.instruction.opcode][0] for it in machine.recent]
    return ", ".join([*(f"{name} fuel={left}" for name, left in zip(names, machine.left)), of_run(rest)])


def of_operator(verb: str, rest: str) -> str | None:
    """`binary32 OP A B` and the like: what the operator gives, in hex. Nothing where no instruction has it."""
    name, *operands = rest.split()
    if verb in TESTS:
        name, operands = TESTS[verb], [name, *operands]
    else:
        name = CONVERSIONS[name] if verb == "convert" else VERBS[verb].format(name)
    operator = next((it for it in OPERATORS.values() if it.name == name), None)
    if operator is None:
        return None
    words = LONG if len(operands[0]) == 16 else WORD
    given = LONG if verb in ("convert", "binary64", "unary64") else WORD
    try:
        made = operator.compute(*(words.of(int(it, 16)) for it in operands))
    except Trap as trap:
        return KINDS[trap.kind]
    # A word of 32 bits that is converted is shown with zeros in front.
    bits = WORD.bits(made) if name == "i32.wrap_i64" else given.bits(made)
    return f"{bits:0{given.width // 4}x}"


def recorded(fabric: Fabric, before: list[str]) -> str:
    """The result and what was recorded, in the words of a line, behind some."""
    parts = before + ([f"= {text_of(fabric.result)}"] if fabric.result else [])
    parts += [f"r:{text_of(key)}@{it.version if it else '-'}" for key, it in sorted(fabric.reads.items())]
    for it in fabric.ranges:
        entries = ",".join(f"{text_of(entry.key)}@{entry.version}" for entry in it.entries)
        parts.append(f"q:{text_of(it.start)}..{text_of(it.end)}*{it.limit}" + (f"={entries}" if entries else ""))
    parts += [f"d:{text_of(key)}" if value is None else f"w:{text_of(key)}={text_of(value)}"
              for key, value in sorted(fabric.writes.items())]
    return " ".join(parts)


def of_call(rest: str, rules: int) -> str:
    """`call STATE | ARGUMENT | MEMORY | CALL | ..`: the answers, the memory where it changed, and what was recorded."""
    written, argument, filled, *calls = rest.split(" | ")
    state = States()
    state.write(dict(writes_of(written)))
    fabric, memory = Fabric(state, hex_of(argument), namespace_of(CHAINCODE, rules)), Memory(0, 0)
    memory.bytes += hex_of(filled)
    before, answers = bytes(memory.bytes), []
    for name, *numbers in map(str.split, calls):
        call = Call(0, Function(name, Type(b"", b""), is_import=True), [])
        try:
            answers.append(str(fabric.answer(call, list(map(int, numbers)), memory)))
        except Trap:
            answers.append("out-of-bounds")
    changed = f", memory {memory.bytes.hex()}" if memory.bytes != before else ""
    return f"{' '.join(answers)}{changed}, {recorded(fabric, ['recorded'])}"


def writes_of(text: str) -> Iterator[tuple[bytes, bytes | None]]:
    """What the words of a transaction write."""
    for kind, _, word in (it.partition(":") for it in text.split()):
        key, _, value = word.partition("=")
        yield bytes_of(key), bytes_of(value) if kind == "w" else None


def of_simulate(rest: str, rules: int) -> str | None:
    """`simulate NAME FUEL HEX | ARGUMENT | ..`: what each call comes to on the state of those before. Nothing of upgrades."""
    head, *calls = rest.split(" |")
    name, fuel, module = head.split(" ", 2)
    if name != CHAINCODE or any(":" in it for it in calls):
        return None
    state, answers, key = States(), [], b"\0" + name.encode()
    for text in calls:
        argument = text.removeprefix(" ")
        fabric = Fabric(state, argument.encode(), namespace_of(name, rules))
        fabric.reads[key] = None
        end = ended(Machine(Module(hex_of(module)), fabric, int(fuel)), int(fuel), Machine.invoke)
        answers.append(refused(end) or recorded(fabric, [f"{name}({argument})"]))
        if not refused(end):
            state.write(fabric.writes)
    return " / ".join(answers)


def refused(end: str) -> str:
    """How a line tells that a call is refused; nothing where it is done."""
    if end == "spent":
        return "refused 403"
    kind, what, _, used = end.split()
    if kind == "trapped":
        number = next(number for number, name in KINDS.items() if name == what)
        return f"refused 402 trap {number} used {used}"
    return f"refused 404 status {WORD.of(int(what))}" if what != "0" else ""


RUNS: dict[str, Callable[[str], str]] = {"run": of_run, "answer": of_answer, "trace": of_trace}
# These differ by the rules of their ledger.
CALLS: dict[str, Callable[[str, int], str | None]] = {"call": of_call, "simulate": of_simulate, "simulate2": of_simulate}


def answered(line: str) -> str | None:
    """What the machine answers to a line; nothing where it is of something else."""
    case = line.partition(" #")[0].rstrip()
    rules = 2 if case.startswith(SECOND) else 1
    verb, _, rest = re.sub("^by [0-9]+ ", "", case.removeprefix(SECOND)).partition(" ")
    if verb in RUNS:
        return RUNS[verb](rest)
    if verb in CALLS:
        return CALLS[verb](rest, rules)
    return of_operator(verb, rest) if verb in [*VERBS, *TESTS, "convert"] else None


def try_machine(report: Report, tree: pathlib.Path) -> None:
    given, wanted = ((tree / CASES / it).read_text().splitlines() for it in ("stdin", "stdout"))
    count = 0
    for number, (line, answer) in enumerate(itertools.zip_longest(given, wanted), 1):
        if NO_RUN.match(answer):
            continue
        said = answered(line)
        if said is not None:
            count += 1
            report.case(f"{CASES}/stdin:{number}: {line[:80]}", said == answer, f"said   {said[:400]}\nwanted {answer[:400]}")
    report.case("there are lines of the machine", count > 600, str(count))
