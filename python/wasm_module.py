"""A module of WebAssembly, as a debugger needs it: each instruction with its offset, and the names of functions.

The program has found the module valid; nothing of that is looked at again. docs/MODULES.md lists what a module may hold.
"""
import dataclasses
from collections.abc import Callable
from typing import Any, NamedTuple, TypeVar

from wasm_operators import (BLOCK, BRANCH, BRANCH_IF, BRANCH_TABLE, CALL, CALL_INDIRECT, ELSE, END, IF, INSTRUCTIONS, LOADS, LONG,
                            LOOP, RETURN, STORES, WORD)

Item = TypeVar("Item")
# A memory has so many pages at most.
MOST_PAGES = 16
# A number has so many bytes at most.
MOST_BYTES = 10
NO_TYPE, CUSTOM, INDEXED, SIZED, CONSTANTS = 0x40, 0, range(0x20, 0x25), (0x3f, 0x40), {0x41: WORD, 0x42: LONG}
FUNCTION_NAMES = 1


class Malformed(Exception):
    """The bytes end inside an item, or a number has too many."""


class Type(NamedTuple):
    """The type of a function: a byte for each of its parameters and results."""
    parameters: bytes
    results: bytes


class Instruction(NamedTuple):
    """An instruction at its place: the offset among the module's bytes, the opcode, and what stands behind it."""
    offset: int
    opcode: int
    immediate: Any


@dataclasses.dataclass(eq=False)
class Block:
    """What a branch leads to. It takes so many values along, and cuts the stack to this height."""
    arity: int
    height: int
    results: int
    # The index of the instruction with which the run goes on, and of the one with which it does where an `if` does not hold.
    # Below 0 it is not known yet.
    target: int = -1
    otherwise: int = -1


@dataclasses.dataclass(eq=False)
class Function:
    """A function. An import has no code. In code an `end` is no instruction, and an `else` leads behind its block."""
    name: str
    type: Type
    is_import: bool = False
    locals: int = 0
    code: list[Instruction] = dataclasses.field(default_factory=list)


class Reader:
    """Takes items off the front of bytes."""

    def __init__(self, data: bytes, at: int, end: int):
        self.data, self.at, self.end = data, at, end

    def byte(self) -> int:
        return self.take(1)[0]

    def take(self, count: int) -> bytes:
        if self.at + count > self.end:
            raise Malformed
        self.at += count
        return self.data[self.at - count:self.at]

    def number(self, is_signed: bool = False) -> int:
        """A number in LEB128."""
        found = 0
        for place in range(MOST_BYTES):
            byte = self.byte()
            found |= (byte & 0x7f) << 7 * place
            if byte < 0x80:
                return found - (1 << 7 * place + 7) if is_signed and byte & 0x40 else found
        raise Malformed

    def text(self) -> str:
        return self.take(self.number()).decode(errors="replace")

    def list(self, item: Callable[[], Item]) -> list[Item]:
        return [item() for _ in range(self.number())]

    def part(self) -> tuple[int, "Reader"]:
        """An id and the bytes of what it stands before, which are passed over."""
        id, size = self.byte(), self.number()
        begin = self.at
        self.take(size)
        return id, Reader(self.data, begin, self.at)

    def limits(self) -> tuple[int, int]:
        """The least and the greatest size; the greatest is that of memories where none is said."""
        has_most, least = self.byte(), self.number()
        return least, min(self.number(), MOST_PAGES) if has_most else MOST_PAGES

    def constant(self) -> int:
        """The value of an expression that is one constant."""
        words = CONSTANTS[self.byte()]
        value = words.of(self.number(is_signed=True))
        self.byte()
        return value


class Module:
    """A valid module."""

    def __init__(self, data: bytes):
        self.types: list[Type] = []
        self.functions: list[Function] = []
        self.table: list[Function | None] = []
        self.pages = self.most_pages = 0
        self.globals: list[int] = []
        self.exports: dict[str, int] = {}
        self.data: list[tuple[int, bytes]] = []
        names: dict[int, str] = {}
        whole = Reader(data, 8, len(data))
        while whole.at < whole.end:
            id, section = whole.part()
            if id == CUSTOM:
                names |= names_in(section)
            else:
                SECTIONS[id](self, section)
        for index, function in enumerate(self.functions):
            exported = next((name for name, it in self.exports.items() if it == index), f"function {index}")
            if not function.is_import:
                function.name = names.get(index, exported)

    def read_types(self, it: Reader) -> None:
        for _ in range(it.number()):
            it.byte()
            self.types.append(Type(it.take(it.number()), it.take(it.number())))

    def read_imports(self, it: Reader) -> None:
        for _ in range(it.number()):
            it.text()
            name, _ = it.text(), it.byte()
            self.functions.append(Function(name, self.types[it.number()], is_import=True))

    def read_functions(self, it: Reader) -> None:
        self.functions += [Function("", self.types[index]) for index in it.list(it.number)]

    def read_table(self, it: Reader) -> None:
        for _ in range(it.number()):
            it.byte()
            self.table = [None] * it.limits()[0]

    def read_memory(self, it: Reader) -> None:
        for _ in range(it.number()):
            self.pages, self.most_pages = it.limits()

    def read_globals(self, it: Reader) -> None:
        for _ in range(it.number()):
            it.take(2)
            self.globals.append(it.constant())

    def read_exports(self, it: Reader) -> None:
        for _ in range(it.number()):
            name, kind, index = it.text(), it.byte(), it.number()
            if kind == 0:
                self.exports[name] = index

    def read_elements(self, it: Reader) -> None:
        for _ in range(it.number()):
            it.number()
            begin, indices = it.constant(), it.list(it.number)
            self.table[begin:begin + len(indices)] = [self.functions[index] for index in indices]

    def read_code(self, it: Reader) -> None:
        it.number()
        for function in self.functions:
            if not function.is_import:
                it.number()
                function.locals = sum(it.list(lambda: (it.number(), it.byte())[0]))
                Body(self, function).read(it)

    def read_data(self, it: Reader) -> None:
        for _ in range(it.number()):
            it.number()
            self.data.append((it.constant(), it.take(it.number())))


SECTIONS = {
    1: Module.read_types, 2: Module.read_imports, 3: Module.read_functions, 4: Module.read_table, 5: Module.read_memory,
    6: Module.read_globals, 7: Module.read_exports, 9: Module.read_elements, 10: Module.read_code, 11: Module.read_data,
}


def names_in(section: Reader) -> dict[int, str]:
    """The names of functions in a custom section, which may hold anything."""
    found: dict[int, str] = {}
    try:
        is_names = section.text() == "name"
        while is_names and section.at < section.end:
            id, part = section.part()
            if id == FUNCTION_NAMES:
                found |= part.list(lambda: (part.number(), part.text()))
    except Malformed:
        pass
    return found


class Body:
    """Reads the code of a function. The stack's height at an instruction is the same whenever it is reached."""

    def __init__(self, module: Module, function: Function):
        self.module, self.code = module, function.code
        results = len(function.type.results)
        # The blocks that are open, the function's own first.
        self.blocks, self.height = [Block(results, 0, results)], 0

    def read(self, it: Reader) -> None:
        while self.blocks:
            offset, opcode = it.at, it.byte()
            if opcode == END:
                self.end()
            elif opcode == ELSE:
                self.code.append(Instruction(offset, opcode, self.blocks[-1]))
                self.blocks[-1].otherwise = len(self.code)
                self.height = self.blocks[-1].height
            else:
                _, takes, gives = INSTRUCTIONS[opcode]
                self.height -= takes
                self.code.append(Instruction(offset, opcode, self.immediate(opcode, it)))
                self.height += gives

    def end(self) -> None:
        """Ends the innermost block. A loop has its target already."""
        block = self.blocks.pop()
        block.target = len(self.code) if block.target < 0 else block.target
        block.otherwise = len(self.code) if block.otherwise < 0 else block.otherwise
        self.height = block.height + block.results

    def immediate(self, opcode: int, it: Reader) -> Any:
        """What stands behind an opcode: of a branch the block, of a call the function or its type."""
        if opcode in (BLOCK, LOOP, IF):
            return self.opened(opcode == LOOP, 0 if it.byte() == NO_TYPE else 1)
        if opcode in (BRANCH, BRANCH_IF):
            return self.blocks[-1 - it.number()]
        if opcode == BRANCH_TABLE:
            return [self.blocks[-1 - depth] for depth in [*it.list(it.number), it.number()]]
        if opcode == RETURN:
            return self.blocks[0]
        if opcode in (CALL, CALL_INDIRECT):
            return self.called(opcode, it)
        if opcode in INDEXED:
            return it.number()
        if opcode in LOADS or opcode in STORES:
            return (it.number(), it.number())[1]
        if opcode in SIZED:
            return it.byte() or None
        return CONSTANTS[opcode].of(it.number(is_signed=True)) if opcode in CONSTANTS else None

    def opened(self, is_loop: bool, results: int) -> Block:
        block = Block(0 if is_loop else results, self.height, results, len(self.code) if is_loop else -1)
        self.blocks.append(block)
        return block

    def called(self, opcode: int, it: Reader) -> Function | Type:
        function = self.module.functions[it.number()] if opcode == CALL else None
        type = function.type if function else (self.module.types[it.number()], it.byte())[0]
        self.height += len(type.results) - len(type.parameters)
        return function or type
