"""The six functions of the module `fabric` that a chaincode calls, by docs/MODULES.md, on a state that is only read."""
import struct
from collections.abc import Callable
from typing import NamedTuple, Protocol

from wasm_machine import LIMIT_ARGUMENT, MOST_ENTRIES, Call, Memory

ABSENT, BAD_KEY, NO_ROOM, BAD_LENGTH, BAD_LIMIT = -1, -2, -3, -4, -5
MOST_READS, MOST_WRITES, MOST_RANGES = 256, 64, 16
LONGEST_KEY, LONGEST_VALUE = 64, 4096


class Entry(NamedTuple):
    """A key that the state has."""
    key: bytes
    value: bytes
    version: str


class Range(NamedTuple):
    """A range that was read, and the entries that were found."""
    start: bytes
    end: bytes
    limit: int
    entries: list[Entry]


class State(Protocol):
    """The committed state."""

    def get(self, key: bytes) -> Entry | None:
        """The entry of a key."""

    def range(self, start: bytes, end: bytes, limit: int) -> list[Entry]:
        """So many entries at most from `start` on and below `end`, which is no bound where it is empty."""


class Fabric:
    """The calls of one run, and what they recorded. What is written has to be in the namespace: each key begins with it."""

    def __init__(self, state: State, argument: bytes, namespace: bytes = b""):
        self.state, self.argument, self.namespace, self.result = state, argument, namespace, b""
        self.reads: dict[bytes, Entry | None] = {}
        self.ranges: list[Range] = []
        self.writes: dict[bytes, bytes | None] = {}
        # The first key that was to be written and is not in the namespace.
        self.outside: bytes | None = None

    def answer(self, call: Call, arguments: list[int], memory: Memory) -> int:
        return CALLS[call.function.name](self, call, arguments, memory)

    def get_state(self, call: Call, arguments: list[int], memory: Memory) -> int:
        key = memory.read(*arguments[:2])
        memory.look(*arguments[2:])
        call.words = [key]
        if not is_key(key):
            return BAD_KEY
        if key not in self.reads and len(self.reads) == MOST_READS:
            return NO_ROOM
        entry = self.reads.setdefault(key, self.state.get(key))
        if entry is None:
            return ABSENT
        call.reply = [entry.value]
        return written(entry.value, memory, *arguments[2:])

    def put_state(self, call: Call, arguments: list[int], memory: Memory) -> int:
        key, value = memory.read(*arguments[:2]), memory.read(*arguments[2:])
        call.words = [key, value]
        return self.record(key, value)

    def del_state(self, call: Call, arguments: list[int], memory: Memory) -> int:
        key = memory.read(*arguments)
        call.words = [key]
        return self.record(key, None)

    def record(self, key: bytes, value: bytes | None) -> int:
        """Records a write."""
        if not is_key(key):
            return BAD_KEY
        if not key.startswith(self.namespace):
            self.outside = self.outside or key
            return BAD_KEY
        if value is not None and len(value) > LONGEST_VALUE:
            return BAD_LENGTH
        if key not in self.writes and len(self.writes) == MOST_WRITES:
            return NO_ROOM
        self.writes[key] = value
        return 0

    def range_state(self, call: Call, arguments: list[int], memory: Memory) -> int:
        start, end, limit = memory.read(*arguments[:2]), memory.read(*arguments[2:4]), arguments[LIMIT_ARGUMENT]
        memory.look(*arguments[5:])
        call.words = [start, end, limit]
        if max(len(start), len(end)) > LONGEST_KEY:
            return BAD_KEY
        if not 1 <= limit <= MOST_ENTRIES:
            return BAD_LIMIT
        if len(self.ranges) == MOST_RANGES:
            return NO_ROOM
        found = Range(start, end, limit, self.state.range(start, end, limit))
        self.ranges.append(found)
        call.reply = [part for it in found.entries for part in (it.key, it.value)]
        return written(spelled(found.entries), memory, *arguments[5:])

    def get_arg(self, call: Call, arguments: list[int], memory: Memory) -> int:
        memory.look(*arguments)
        call.words, call.reply = [], [self.argument]
        return written(self.argument, memory, *arguments)

    def set_result(self, call: Call, arguments: list[int], memory: Memory) -> int:
        result = memory.read(*arguments)
        call.words = [result]
        if len(result) > LONGEST_VALUE:
            return BAD_LENGTH
        self.result = result
        return 0


CALLS: dict[str, Callable[[Fabric, Call, list[int], Memory], int]] = {
    "get_state": Fabric.get_state, "put_state": Fabric.put_state, "del_state": Fabric.del_state,
    "range_state": Fabric.range_state, "get_arg": Fabric.get_arg, "set_result": Fabric.set_result,
}


def namespace_of(chaincode: str, rules: int) -> bytes:
    """What each key begins with that a chaincode may write: nothing under rules 1, its name and `/` under rules 2."""
    return b"" if rules == 1 else f"{chaincode}/".encode()


def is_key(key: bytes) -> bool:
    return 1 <= len(key) <= LONGEST_KEY and key[0] != 0


def spelled(entries: list[Entry]) -> bytes:
    """The reply of a range."""
    parts = [bytes([len(it.key)]) + it.key + struct.pack("<H", len(it.value)) + it.value for it in entries]
    return bytes([len(entries)]) + b"".join(parts)


def written(data: bytes, memory: Memory, target: int, capacity: int) -> int:
    """Writes data where it fits the capacity. Its length."""
    if len(data) <= capacity:
        memory.write(target, data)
    return len(data)
