"""What waits for the same thing, of several callers."""
import collections
from typing import Generic, TypeVar

T = TypeVar("T")


class Turns(Generic[T]):
    """One of each caller is taken after another: however many one has here, those of others come soon."""

    def __init__(self) -> None:
        # Those that wait, by their callers: the first one's turn comes next.
        self.waiting: collections.OrderedDict[str, collections.deque[T]] = collections.OrderedDict()

    def __len__(self) -> int:
        return sum(map(len, self.waiting.values()))

    def add(self, caller: str, one: T) -> None:
        self.waiting.setdefault(caller, collections.deque()).append(one)

    def next(self) -> T:
        """Which one is taken next, of those that there are."""
        return next(iter(self.waiting.values()))[0]

    def take(self) -> T:
        caller, own = self.waiting.popitem(last=False)
        taken = own.popleft()
        if own:
            self.waiting[caller] = own
        return taken

    def take_all(self) -> list[T]:
        found = [it for own in self.waiting.values() for it in own]
        self.waiting.clear()
        return found
