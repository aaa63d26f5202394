"""A renewed log: its first entry says behind which block it goes on, and no entry has the marks of the blocks up to that one. Each node
hands its peer those of its own store, before the log's lines. So etcd has room again, and all lines count as behind a refill.

That entry has two lines: `genesis DIGEST`, and `behind NUMBER HASH`, by the hash of the block's header.
"""
import asyncio
import dataclasses
import re
import sys
from collections.abc import AsyncGenerator

from .config import Config, Ledger
from .filters import FilterEnded
from .peer import AT_ONCE, Peer
from .table import MOST

RENEWED = re.compile(rb"genesis [0-9a-f]{64}\nbehind ([1-9][0-9]{0,9}) ([0-9a-f]{64})")
# The longest mark, with its end: an envelope in hex.
LONGEST = 2 * MOST["block_bytes"] + 1


@dataclasses.dataclass(frozen=True)
class Renewal:
    """The block that a renewed log goes on behind: its number, and the hash of its header."""
    number: int
    hash: str

    @classmethod
    def of(cls, first: bytes) -> "Renewal | None":
        """What the lines of a log's first entry say of it, if that log was renewed."""
        found = RENEWED.fullmatch(first)
        return cls(int(found[1]), found[2].decode()) if found else None

    def line(self) -> str:
        return f"behind {self.number} {self.hash}"


async def hear_nothing(_words: list[str]) -> None:
    """Where no line of a log is read."""


async def last_block(config: Config) -> Renewal | None:
    """The last block of the node's store, if it has one. A peer commits all of it again, which it cannot while the node runs."""
    peer = Peer(config.peer_command(), hear_nothing, lambda line: print(line, file=sys.stderr))
    try:
        if (height := await peer.begin()) == 0:
            return None
        await peer.write(b"seen last %d\n" % height)
        # answer last HEIGHT seen ORG HEIGHT HASH, and perhaps a signature
        return Renewal(height, (await peer.line()).split(" ")[6])
    finally:
        await peer.close()


async def marks_of(ledger: Ledger, blocks: int) -> AsyncGenerator[list[bytes], None]:
    """The marks of a store's first blocks, as many at a time as are handed on together. None is kept: there may be gigabytes."""
    ran = await asyncio.create_subprocess_exec(ledger.program, "marks", ledger.genesis, ledger.store, stdin=asyncio.subprocess.DEVNULL,
                                               stdout=asyncio.subprocess.PIPE, limit=LONGEST)
    assert ran.stdout
    try:
        marks, left = list[bytes](), blocks
        while left:
            mark = (await ran.stdout.readline()).rstrip(b"\n")
            if not mark or mark.startswith(b"refused"):
                raise FilterEnded(f"ledger marks says: {mark.decode()}" if mark else f"ledger marks ended {left} blocks too early")
            marks.append(mark)
            left -= mark == b"tick"
            if len(marks) == AT_ONCE or not left:
                yield marks
                marks = []
    finally:
        if ran.returncode is None:
            ran.kill()
        await ran.wait()
