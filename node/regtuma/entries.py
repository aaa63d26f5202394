"""The log that nodes share, whatever keeps it: etcd (etcd.py), or on one machine a file (filed.py); and which of its lines count.

A log is entries in one order, which all who read it see alike. Each entry has a name, which no other one has, and its lines are
the marks. What an organisation writes has a name below `ORG/`: that is its part of the log.
"""
import collections
import dataclasses
import json
import math
import pathlib
import re
from collections.abc import AsyncIterator, Iterator
from typing import Protocol

from .table import MOST
from .ticks import LAST_BLOCKS, SHARE_OF

# How long it may take to put an entry, in seconds.
PATIENCE = 20.0
# An entry of etcd has at most 1.5 MiB, so many characters are put into one, and so many of its lines count.
ENTRY_CHARACTERS, ENTRY_LINES = 1_000_000, 500
PART = re.compile(rb"([A-Za-z0-9_]{1,32})/")
# The entry in which a tick of a number counts, and the names of those that fill a new log from a store.
TICK, REFILL = re.compile(rb"[A-Za-z0-9_]{1,32}/tick-([1-9][0-9]{0,9})(?:-[0-9a-f]+)?"), b"/refill-"
# The entry in which an organisation says what its block of a number is.
SEEN = re.compile(rb"([A-Za-z0-9_]{1,32})/seen-([1-9][0-9]{0,9})")
# The bytes of the shortest envelope, by docs/RULES.md, "Bytes of the ledger": of a call whose name has one byte, behind its
# length, without argument (the two bytes of its length), with a nonce, without result, reads, ranges, writes (two bytes each) and
# endorsements (one). Upgrades and amendments are longer.
SHORTEST = 2 + 2 + 16 + 4 * 2 + 1
# What may be a mark in any entry, as long as no line has counted, and in a refill: each line between line feeds of its own.
ENVELOPE, GENESIS = rb"[0-9A-Fa-f]{%d,}\n" % (2 * SHORTEST), rb"genesis [0-9a-f]{64}\n"
MARKS, FIRST_MARKS, REFILL_MARKS = (re.compile(rb"\n(?:%s)" % b"|".join(it))
                                    for it in ([ENVELOPE], [ENVELOPE, GENESIS], [ENVELOPE, GENESIS, rb"tick\n"]))
# The longest line of what was seen, by a name of 32 characters, a number of ten digits, and a hash and a signature in hex.
LONGEST_SEEN = len("seen ") + 33 + 11 + 65 + 128
# An envelope of so many bytes costs no more than two blocks, however small the batches of a ledger are.
LONG = 65536
# Whose the blocks of a refill are.
NOBODY = b""


class LogError(Exception):
    """An entry was not taken, or the log can't be read."""


@dataclasses.dataclass(frozen=True)
class Entry:
    # Ascends from entry to entry; those that were put by one request share it.
    revision: int
    name: bytes
    value: bytes


class Log(Protocol):
    """Appends to a log, and reads it."""

    # Why no entry could be put when that was asked last. Since when nothing of the log could be read, and why, if so.
    why: str
    unread: tuple[float, str] | None

    async def append(self, name: str, marks: list[str], patience: float = PATIENCE) -> bool:
        """Puts an entry where none has this name, and tells whether this request made it. A name must never be used for two
        things: an entry is asked for again where it is not known whether it was put."""

    def watch(self) -> AsyncIterator[list[Entry]]:
        """The entries from the log's beginning on, for ever: each once, in order, as many at a time as are at hand."""

    async def read(self, name: str) -> str | None:
        """The lines of the entry of this name, or none."""

    async def is_empty(self) -> bool:
        """Whether the log has no entry, and never had one."""

    async def count(self) -> int:
        """How many entries were put into the log, or taken out of it."""

    async def is_led(self) -> bool:
        """Whether entries can be put now."""

    async def close(self) -> None:
        """Lets go of whatever keeps the log."""


class Shares:
    """How many blocks each part of a log has brought about, at the most.

    A part brings about three times as many blocks as are left, and no more: whoever else uses up the chain, a fourth of what is left
    is there for the others. That is counted by the lines alone, since a log has no state. A tick costs a block. An envelope costs
    what it adds to a batch: of a batch that ends by its envelopes' count, or by their bytes and those of the next one, each has
    paid its part. So there are never more blocks than were paid for.

    Every peer keeps each envelope. So all bytes are paid for: those of a batch alone too, which makes one block however long it is.
    """

    def __init__(self, count: int, preferred: int, last: int = LAST_BLOCKS[1]):
        # The ledger's last block.
        self.last = last
        # A batch has at most so many envelopes, and where it has several so many bytes. Costs are in parts of a block.
        self.count, self.preferred, self.block = count, preferred, count * preferred
        # What an entry costs that counts for nothing.
        self.least = math.ceil(self.block / MOST["block_transactions"])
        self.paid: collections.Counter[bytes] = collections.Counter()
        self.total = 0

    def cost(self, size: int) -> int:
        """What an envelope of so many bytes costs: two blocks or more where it ends what waits, and is a batch alone."""
        if size > self.preferred:
            return 2 * max(self.block, size * self.block // max(self.preferred, LONG))
        weight = size * self.count
        return weight + max(weight, self.preferred)

    def bears(self, part: bytes, cost: int) -> bool:
        """Whether a part's share bears this."""
        left = self.last * self.block - self.total - cost
        return part == NOBODY or self.paid[part] + cost <= (SHARE_OF - 1) * left

    def pay(self, part: bytes, cost: int) -> bool:
        """Whether a part's share bears this, which is then paid."""
        if not self.bears(part, cost):
            return False
        self.paid[part] += cost
        self.total += cost
        return True

    def brought(self, part: bytes) -> int:
        """How many blocks a part has brought about, at the most."""
        return self.paid[part] // self.block

    def left(self, part: bytes) -> int:
        """How many blocks a part can still bring about, where no other one brings about any."""
        left = self.last * self.block - self.total
        return max(0, ((SHARE_OF - 1) * left - self.paid[part]) // (SHARE_OF * self.block))


class Lines:
    """Makes of entries lines `<revision>.<line> <mark>`, as the ledger's peer reads them, of the marks that count: alike wherever and
    whenever the log is read from its beginning.

    An organisation says what it has seen of each block once, in its own part, in its entry `ORG/seen-N`, as soon as the log's envelopes
    before it may have made N blocks: else it could have each node verify signatures for all numbers. An envelope counts in any
    organisation's part, as far as that one's share goes, and a tick as the first line of its entry `ORG/tick-N`, where it is the Nth that
    counts, and there is an envelope behind the one before. What the first entry's organisation puts next, as `ORG/refill-..`, is a chain that
    was, and costs nobody's share. Which genesis file counts says the first line that counts, and no other one.

    Each entry takes each node some time. So one that counts for nothing costs its part a little, and is passed over once the share is used
    up. One regular expression finds what may count: Python sees no other line.
    """

    def __init__(self, count: int = 512, preferred: int = 65536, last: int = LAST_BLOCKS[1]):
        self.shares = Shares(count, preferred, last)
        # The revision of the last entry, and how many lines its entries had.
        self.revision = self.lines = 0
        # How many ticks have counted, and whose envelopes stand behind the last one.
        self.ticks, self.behind = 0, set[bytes]()
        # How many envelopes have counted: each block has one or more.
        self.envelopes = 0
        # The entries in which somebody has said what was seen.
        self.seen = set[bytes]()
        # How names of entries that fill the log begin, as long as no other entry has come behind the first.
        self.is_begun, self.refill = False, b""
        # Whether a line has counted.
        self.has_lines = False

    @classmethod
    def by(cls, genesis: str) -> "Lines":
        """The lines of a log whose batches have the limits of a genesis file, and whose blocks go as far as its rules let them."""
        try:
            limits = json.loads(pathlib.Path(genesis).read_bytes())
            return cls(int(limits["count"]), int(limits["preferred"]), LAST_BLOCKS[limits.get("rules", 1)])
        except (OSError, ValueError, KeyError, TypeError, RecursionError):
            raise LogError(f"{genesis} is no genesis file") from None

    def of(self, entry: Entry) -> dict[int, bytes]:
        """The lines of an entry that count, by their places in it."""
        if entry.revision != self.revision:
            self.revision, self.lines = entry.revision, 0
        part, found, text = self._part(entry.name), dict[int, bytes](), apart(entry.value)
        if part is not None:
            for place, mark in numbered(text, self._candidates(part, entry.name, text)):
                if self._counts(part, entry.name, mark):
                    self.has_lines = True
                    # Any byte is a character, the same on each machine, so that each line is UTF-8.
                    found[place] = f"{self.revision}.{self.lines + place} {mark.decode('latin-1')}\n".encode()
            if not found and part != NOBODY:
                self.shares.pay(part, self.shares.least)
        self.lines += text.count(b"\n") // 2
        return found

    def filled(self, marks: list[bytes]) -> list[bytes]:
        """The lines of marks that a node takes from its own store, behind the first entry of a renewed log: they count as a refill's do."""
        return list(self.of(Entry(self.revision, self.refill, b"\n".join(marks))).values())

    def end_refill(self) -> None:
        """No further entry is a refill's."""
        self.refill = b""

    def _part(self, name: bytes) -> bytes | None:
        """Whose share bears what an entry of this name brings about, if it is anybody's part."""
        found = PART.match(name)
        if self.refill and name.startswith(self.refill):
            return NOBODY
        self.refill = found[1] + REFILL if found and not self.is_begun else b""
        self.is_begun = True
        return found[1] if found else None

    def _candidates(self, part: bytes, name: bytes, text: bytes) -> list[tuple[int, bytes]]:
        """The lines of an entry that may count, each behind where it begins; of a share that is used up, what was seen alone."""
        found = []
        if self.shares.bears(part, self.shares.least):
            marks = REFILL_MARKS if part == NOBODY else MARKS if self.has_lines else FIRST_MARKS
            found = [(it.start(), it[0].strip(b"\n")) for it in marks.finditer(text)]
            if text.startswith(b"\ntick\n") and TICK.fullmatch(name):
                found.append((0, b"tick"))
        if (said := SEEN.fullmatch(name)) and int(said[2]) <= min(self.shares.last, self.envelopes) and name not in self.seen:
            if (at := text.find(b"\nseen %s %s " % said.groups())) >= 0:
                mark = text[at + 1:text.index(b"\n", at + 1)]
                if len(mark) <= LONGEST_SEEN:
                    found.append((at, mark))
        return found

    def _counts(self, part: bytes, name: bytes, mark: bytes) -> bool:
        """Whether a line counts that may, in the entry of a name."""
        if mark == b"tick":
            return self._ticks(part, name)
        if mark.startswith(b"seen "):
            # It may cost each node the verification of a signature, so that there is one for each block of an organisation.
            self.seen.add(name)
            return True
        if mark.startswith(b"genesis "):
            return not self.has_lines
        return self._takes(part, len(mark) // 2)

    def _takes(self, part: bytes, size: int) -> bool:
        """Whether an envelope of so many bytes counts. What a refill has is paid by its ticks, one behind each block."""
        is_paid = part == NOBODY or self.shares.pay(part, self.shares.cost(size))
        if is_paid:
            self.behind.add(part)
            self.envelopes += 1
        return is_paid

    def _ticks(self, part: bytes, name: bytes) -> bool:
        """Whether a tick counts in the entry of a name."""
        found = TICK.fullmatch(name)
        is_next = part == NOBODY or found is not None and int(found[1]) == self.ticks + 1
        if not is_next or not self.behind or not self.shares.pay(part, self.shares.block):
            return False
        self.ticks, self.behind = self.ticks + 1, set()
        return True


def apart(value: bytes) -> bytes:
    """The lines of an entry's value that may count, each between line feeds of its own."""
    if value.count(b"\n") >= ENTRY_LINES:
        value = b"\n".join(value.split(b"\n", ENTRY_LINES)[:ENTRY_LINES])
    return b"\n%s\n" % value.replace(b"\n", b"\n\n")


def numbered(text: bytes, marks: list[tuple[int, bytes]]) -> Iterator[tuple[int, bytes]]:
    """Lines of such a text in their order, each behind its number, of lines that are found by where they begin."""
    number = last = 0
    for at, mark in sorted(marks):
        number, last = number + text.count(b"\n", last, at) // 2, at
        yield number, mark
