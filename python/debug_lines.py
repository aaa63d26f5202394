"""What `ledger debug` prints of a run."""
import json
import re
from collections.abc import Iterator

from fabric_host import ABSENT, BAD_KEY, BAD_LENGTH, BAD_LIMIT, NO_ROOM
from wasm_machine import Call, Journal, Machine, Moment
from wasm_module import CONSTANTS, Function, Instruction, Type
from wasm_operators import INSTRUCTIONS, LOADS, STORES

# What an answer of a host call below 0 stands for.
WHY = {ABSENT: "absent", BAD_KEY: "key", NO_ROOM: "count", BAD_LENGTH: "length", BAD_LIMIT: "limit"}
# So many characters of a text, bytes in hex, characters of a name and items of a reply are shown.
MOST_TEXT, MOST_HEX, MOST_NAME, MOST_ITEMS = 96, 48, 80, 8
# What rustc puts behind the name of a function, to tell it from others of the name.
RUST_HASH = re.compile(r"::h[0-9a-f]{16}$")


def name_of(function: Function) -> str:
    """A function's name as it can be shown."""
    name = RUST_HASH.sub("", function.name)
    name = name if name.isprintable() else ascii(name)
    return name if len(name) <= MOST_NAME else f"{name[:MOST_NAME]}.."


def text_of(data: bytes) -> str | None:
    """The text that the bytes spell, if it can be shown."""
    try:
        text = data.decode()
    except UnicodeDecodeError:
        return None
    return text if text.replace("\n", "").isprintable() else None


def bytes_of(data: bytes, is_hex: bool) -> str:
    """Bytes as a text between quotes, or in hex. Of long ones the front."""
    text = None if is_hex else text_of(data)
    if text is None:
        return f"0x{data.hex()}" if len(data) <= MOST_HEX else f"0x{data[:MOST_HEX].hex()}.. ({len(data)} bytes)"
    front = json.dumps(text[:MOST_TEXT], ensure_ascii=False)
    return front if len(text) <= MOST_TEXT else f"{front}.. ({len(data)} bytes)"


def call_line(call: Call, is_hex: bool) -> str:
    """A call by its arguments, and what it answered, if it did."""
    words = [bytes_of(it, is_hex) if isinstance(it, bytes) else str(it) for it in call.words]
    parts = [f"{'  ' * call.depth}{name_of(call.function)}({', '.join(words)})"]
    if call.answer is not None:
        parts.append(f"= {call.answer}")
    if call.function.is_import and call.answer in WHY:
        parts.append(f"({WHY[call.answer]})")
    items = [bytes_of(it, is_hex) for it in call.reply[:MOST_ITEMS]] + [".."] * (len(call.reply) > MOST_ITEMS)
    return " ".join([*parts, ", ".join(items)]).rstrip()


def call_lines(calls: Journal, is_hex: bool) -> Iterator[str]:
    """The calls in their order, each below the one that it was made by."""
    for call in calls.first:
        yield call_line(call, is_hex)
    if calls.left_out():
        yield f".. {calls.left_out():,} calls are left out .."
    for call in calls.last:
        yield call_line(call, is_hex)


def instruction_text(instruction: Instruction) -> str:
    """An instruction with what stands behind it, but for blocks."""
    name, immediate = INSTRUCTIONS[instruction.opcode][0], instruction.immediate
    if isinstance(immediate, Function):
        return f"{name} {name_of(immediate)}"
    if instruction.opcode in LOADS or instruction.opcode in STORES:
        return f"{name} offset={immediate}" if immediate else name
    return f"{name} {immediate}" if isinstance(immediate, int) else name


def stack_lines(machine: Machine) -> Iterator[str]:
    """Where each function stands, the innermost first."""
    for frame in reversed(machine.frames):
        instruction = frame.instruction()
        yield f"at {instruction.offset:#x} in {name_of(frame.function)}: {instruction_text(instruction)}"


def taken(instruction: Instruction) -> int:
    """How many values an instruction takes of those that are remembered."""
    immediate = instruction.immediate
    type = immediate.type if isinstance(immediate, Function) else immediate
    parameters = len(type.parameters) if isinstance(type, Type) else 0
    return INSTRUCTIONS[instruction.opcode][1] + parameters


def moment_lines(moments: list[Moment]) -> Iterator[str]:
    """The last instructions, each with the values that it took in parentheses, and with the one that it gave."""
    function = None
    for moment, after in zip(moments, [*moments[1:], None]):
        if moment.function is not function:
            function = moment.function
            yield f"  in {name_of(function)}:"
        yield f"    {moment.instruction.offset:#x} {moment_text(moment, after)}"


def moment_text(moment: Moment, after: Moment | None) -> str:
    instruction, count = moment.instruction, taken(moment.instruction)
    text = instruction_text(instruction)
    if count:
        rest = ".., " if count > len(moment.top) else ""
        text += f" ({rest}{', '.join(map(str, moment.top[-count:]))})"
    is_shown = INSTRUCTIONS[instruction.opcode][2] and instruction.opcode not in CONSTANTS
    return f"{text} = {after.top[-1]}" if after and is_shown else text
