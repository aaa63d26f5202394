"""How often a node puts entries into the log, and how many bytes.

Each entry costs etcd some time whenever a log is read from its beginning, and more, the more there are. So what comes within a short time
goes into one entry, once a node has put many: a call that comes alone waits for nothing. Bytes take etcd's space, which all organisations
have together.
"""
import asyncio
import math
import time

# An entry each so many seconds, and so many at once before that. In an hour these are 3,600 / 0.2 + 1,000 = 19,000, ticks and what was seen
# counted: a door takes 20,000 of an organisation (door.cfg).
EACH, BURST = 0.2, 1000
# The least time from one entry with calls to the next, and from one request to another node to the next. What comes meanwhile goes along:
# an entry costs its node about a millisecond, and etcd and all readers some time too; a request costs its two nodes as much.
ENTRIES_APART, REQUESTS_APART = 0.05, 0.02
# So many bytes in a second, and so many at once before that. In an hour these are 178 MB, and 237 MB in base64, where a door takes 268 MB.
# One caller has a half of both.
BYTES, BYTES_AT_ONCE = 40_000, 32 << 20


class Pace:
    """So many at once, and behind that one each so many seconds."""

    def __init__(self, each: float = EACH, burst: float = BURST):
        self.each, self.burst = each, burst
        # When the next one may be put, by a clock that never goes back, if none were put at once. That clock may begin with the machine.
        self.next = -math.inf

    def take(self, count: float = 1) -> None:
        self.next = max(self.next, time.monotonic() - self.burst * self.each) + count * self.each

    def wait(self) -> float:
        """In how many seconds the next one may be put."""
        return max(0.0, self.next - time.monotonic())

    async def turn(self) -> None:
        """Waits until one more may be put."""
        self.take()
        await asyncio.sleep(self.wait())


def apart(seconds: float) -> Pace:
    """One each so many seconds; who comes alone waits for nothing."""
    return Pace(seconds, 1)


def pace_of_bytes(part: int = 1) -> Pace:
    """How many bytes may be put, of all or of a part of them."""
    return Pace(part / BYTES, BYTES_AT_ONCE / part)
