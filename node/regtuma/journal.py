"""The node's journal has so many lines a minute of what others bring about: what its children say on their standard error, who lies, and
who does not endorse.

Anybody whose calls are endorsed, or who writes into the log, can make the peer say a line. If a unit says too much, journald throws lines
away, whosever they are.
"""
import asyncio
import time
from collections.abc import Callable

MOST_LINES, MINUTE = 20, 60.0
# How much is read at a time, and how many bytes of a line are said.
PIECE, LONGEST = 1 << 16, 4000


class Quota:
    """Says so many lines a minute, and how many it left out."""

    def __init__(self, name: str, say: Callable[[str], None]):
        self.name, self.say = name, say
        # Since when lines are counted, how many were said since then, how many were not, and the last of these.
        self.began, self.said, self.left_out, self.last = -MINUTE, 0, 0, ""

    @property
    def is_used_up(self) -> bool:
        if time.monotonic() - self.began >= MINUTE:
            self.tell_rest()
            self.began, self.said = time.monotonic(), 0
        return self.said >= MOST_LINES

    def tell(self, line: str) -> None:
        """Says a line, or leaves it out."""
        if self.is_used_up:
            self.leave_out(1, line)
        else:
            self.said += 1
            self.say(line)

    def leave_out(self, count: int, last: str) -> None:
        """Leaves out so many lines. They are told of once the minute is over."""
        if not self.left_out:
            asyncio.get_running_loop().call_later(self.began + MINUTE - time.monotonic(), self.tell_rest)
        self.left_out, self.last = self.left_out + count, last

    def tell_rest(self) -> None:
        """Says how many lines were left out."""
        if self.left_out:
            self.say(f"{self.name}: {self.left_out:,} more lines are left out, the last: {self.last}")
        self.left_out = 0


async def follow(name: str, stream: asyncio.StreamReader, say: Callable[[str], None]) -> None:
    """Says what comes from a child's standard error, until it ends. Lines that are left out cost little."""
    quota, begun = Quota(name, say), b""
    try:
        while piece := await stream.read(PIECE):
            *lines, begun = (begun + piece).split(b"\n") if not quota.is_used_up else counted(quota, begun + piece)
            for it in lines:
                quota.tell(it[:LONGEST].decode(errors="replace"))
            begun = begun[:LONGEST]
        if begun:
            quota.tell(begun.decode(errors="replace"))
    finally:
        quota.tell_rest()


def counted(quota: Quota, data: bytes) -> list[bytes]:
    """Counts the lines that are whole, and leaves them out. What is left of the last one."""
    whole, end, begun = data.rpartition(b"\n")
    if end:
        last = whole[whole.rfind(b"\n") + 1:]
        quota.leave_out(whole.count(b"\n") + 1, last[:LONGEST].decode(errors="replace"))
    return [begun]
