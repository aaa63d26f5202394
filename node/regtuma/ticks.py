"""When a block is asked for.

A chain has 4,000,000,000 blocks under rules 2, and of these one organisation alone brings about three fourths (entries.py): 47 years of
them at half a second. Under rules 1 it has 65,535, and 49,151 of them last 7 hours at half a second, 34 days at a minute, 4 years at 40
minutes. So an organisation may lay out the blocks that it brings about itself, along a line from the day on which the chain begins to
the last one of `lasts_days`, `burst` of them at once.
Below that line a tick comes after `wait` seconds: what was saved in quiet hours is spent in busy ones. Above it, a tick waits until the
line has come up, at most `longest` seconds. Blocks of others move no line, so nobody makes another one's calls wait.

All is worked out of the clock and the log, so that the nodes of an organisation agree without a word, also behind a new start.
"""
import dataclasses

from .table import MOST

# The last block of a ledger by the number of its rules, and the greatest number that a block of any ledger can have.
LAST_BLOCKS = {rules: MOST[f"last_block_of_rules_{rules}"] for rules in (1, 2)}
LAST_BLOCK = LAST_BLOCKS[2]
# One of so many blocks that are left is the others' by itself.
SHARE_OF = 4
DAY = 86400
# So few blocks are told of, wherever the chain is on its line: this number, or this part of a long chain, which is 23 days at half a
# second under rules 2.
FEW, FEW_OF = 5000, 1000


@dataclasses.dataclass(frozen=True)
class Ticks:
    wait: float = 0.5
    longest: float = 700.0
    # The start of the line, in seconds since 1970; 0 lays no line.
    begins: float = 0.0
    lasts_days: int = 0
    burst: int = 1000
    # The ledger's last block.
    last: int = LAST_BLOCKS[1]

    @property
    def share(self) -> int:
        """How many blocks one organisation brings about where nobody else does."""
        return self.last * (SHARE_OF - 1) // SHARE_OF

    @property
    def few(self) -> int:
        """Below how many blocks that are left people are told so."""
        return max(FEW, self.last // FEW_OF)

    def each(self) -> float:
        """The seconds from one block to the next along the line."""
        return self.lasts_days * DAY / (self.share - self.burst)

    def allowed(self, now: float) -> float:
        """How many blocks an organisation may have brought about by now."""
        return self.burst + max(0.0, now - self.begins) / self.each()

    def seconds(self, brought: int, now: float) -> float:
        """For how long envelopes of an organisation wait that has brought about so many blocks, before it asks for the next one."""
        if not self.begins:
            return self.wait
        return min(self.longest, max(self.wait, (brought + 1 - self.allowed(now)) * self.each()))

    def shortest_days(self) -> float:
        """How long the share of an organisation lasts where its envelopes never cease to wait, no block is full, and no other one calls."""
        slowest = self.longest if self.begins else self.wait
        return self.share * slowest / DAY

    def promise(self) -> str:
        """What the numbers come to, where they do not keep what they seem to say; else nothing."""
        if self.begins and self.shortest_days() < self.lasts_days:
            days = f"{self.shortest_days():.0f} days of steady traffic, not after {self.lasts_days}"
            return f"[ticks] longest of {self.longest:g} s lets this organisation use up its share after {days}: {self.each():.0f} s would do"
        return ""

    def warning(self, height: int, share: int, wait: float) -> str:
        """What is told of a chain with so many blocks, to which the organisation can add so many, and where its envelopes wait for so
        many seconds, if the end comes near or the organisation is above its line; else nothing."""
        left = self.last - height
        if left == 0:
            return f"the chain is full: it has its {self.last:,} blocks, and takes no calls"
        if (share := min(left, share)) < self.few:
            return f"the chain has {left:,} blocks left, and this organisation's share of these is {share:,}"
        if wait > self.wait:
            return f"this organisation is ahead of its plan, so it asks for a block after {wait:.0f} s: {share:,} blocks of its share are left"
        return ""

    def is_full(self, number: int) -> bool:
        """Whether a chain whose next block would have this number takes no more calls."""
        return number > self.last
