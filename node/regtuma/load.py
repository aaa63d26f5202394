"""What the node does and holds in memory for each caller at a time, so that none takes what others need."""
import asyncio
import collections
import contextlib
import weakref
from collections.abc import AsyncIterator

from aiohttp import web

from .proposals import Refused
from .wire import Object

# How many bytes of an organisation's bodies are held at a time, and how many more for those of its callers alone who have few; how many
# simulations are made for a caller, or blocks and other long answers sent to it, and how many for all callers of an organisation.
BODIES, KEPT, FEW, OF_CALLER, OF_ORGANISATION = 16 << 20, 8 << 20, 1 << 20, 4, 16
# How many bytes are held for the calls of a caller, and for all calls: they were answered to these, and are not in the log yet. One call may
# have 32 answers of 1 MiB.
CALLS_OF_CALLER, CALLS = 64 << 20, 256 << 20
# Who reads the page on the loopback, without a certificate.
NOBODY = "/page"


class Load:
    def __init__(self) -> None:
        # How many bytes each organisation has here, and each caller.
        self.bodies: collections.Counter[str] = collections.Counter()
        self.of_callers: collections.Counter[str] = collections.Counter()
        # Those that somebody has or waits for, by callers and organisations.
        self.turns: weakref.WeakValueDictionary[str, asyncio.Semaphore] = weakref.WeakValueDictionary()

    def take(self, request: web.Request, size: int) -> None:
        """So many bytes more of a request's body or its answer are held, until it is answered. A caller with many leaves room for others."""
        organisation, caller = organisation_of(request), caller_of(request)
        room = BODIES + KEPT if self.of_callers[caller] + size <= FEW else BODIES
        if self.bodies[organisation] + size > room:
            raise Refused(429, {"why": f"requests of {organisation} have {BODIES >> 20} MiB under way here: ask again"})
        self.bodies[organisation] += size
        self.of_callers[caller] += size
        request["held"] = request.get("held", 0) + size

    def give(self, request: web.Request) -> None:
        """The request is answered, or what was held for it is on its way."""
        if held := request.pop("held", 0):
            self.bodies[organisation_of(request)] -= held
            self.of_callers[caller_of(request)] -= held

    @contextlib.asynccontextmanager
    async def turn(self, request: web.Request) -> AsyncIterator[None]:
        """For as long as something long is done: so many are at a time, and others wait."""
        async with self._of(caller_of(request), OF_CALLER), self._of(organisation_of(request) + "/", OF_ORGANISATION):
            yield

    def _of(self, name: str, most: int) -> asyncio.Semaphore:
        return self.turns.setdefault(name, asyncio.Semaphore(most))


class Held:
    """What is held for one call of a caller, until it is in the log, beside what is for all other calls."""

    def __init__(self, all_held: collections.Counter[str], caller: str):
        self.all_held, self.caller, self.size = all_held, caller, 0

    def take(self, said: Object) -> None:
        """So much more is held. A call that finds no room ends by that."""
        size = size_of(said)
        if self.all_held[self.caller] + size > CALLS_OF_CALLER:
            raise Refused(429, {"why": f"calls of {self.caller} have {CALLS_OF_CALLER >> 20} MiB under way here: ask again"})
        if self.all_held.total() + size > CALLS:
            raise Refused(503, {"why": f"calls have {CALLS >> 20} MiB under way here: ask again"})
        self.all_held[self.caller] += size
        self.size += size

    def give(self) -> None:
        """Nothing is held any more."""
        self.all_held[self.caller] -= self.size
        self.size = 0


def size_of(said: Object) -> int:
    """How many letters the texts of a proposal or an answer have."""
    return sum(len(it) for it in said.values() if isinstance(it, str))


def caller_of(request: web.Request) -> str:
    caller: str = request.get("caller", NOBODY)
    return caller


def organisation_of(request: web.Request) -> str:
    return caller_of(request).partition("/")[0]
