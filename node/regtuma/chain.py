"""The organisation's part in the chain: what the log has for the ledger's peer, what becomes of it, and what is put into the log.

    the log ─ lines ─▶ ledger peer ─▶ store
"""
import asyncio
import collections
import contextlib
import dataclasses
import json
import secrets
import time
from collections.abc import Callable, Coroutine
from typing import Any, NamedTuple

from .config import Config
from .entries import ENTRY_CHARACTERS, ENTRY_LINES, Entry, Lines, Log, LogError
from .journal import Quota
from .origins import Origins
from .pace import EACH, ENTRIES_APART, Pace, apart, pace_of_bytes
from .peer import Peer
from .proposals import Refused
from .renewal import Renewal, marks_of
from .tags import Key, Keys
from .times import Times
from .turns import Turns
from .waiting import within
from .wire import Object

FULL, NO_MARK = 422, 300
# How often the log is asked whether it takes entries, and how long it may take for a tick, in seconds.
PROBE, SHORT_PATIENCE = 3.0, 3.0
# The JSON of so many blocks is kept for those who watch.
NEWEST = 16
# After how many seconds without a block a log that gives fewer than the store has is taken for another one.
SHORT = 15.0
# So many calls that came to no block are remembered with the reason.
REMEMBERED = 1000
# So many blocks may be of lines that the log has told other nodes and not yet this one.
AHEAD = 100
# An id and its envelope that are to be put, and who waits for that.
Unput = tuple[str, str, asyncio.Future[None]]
NO_SHARE = "this organisation has brought about its share of the chain's blocks: a call may be put by another one's node"


class Awaited(NamedTuple):
    """The block that comes next: its number, how many envelopes wait for it, and since when this organisation's do, by a clock that
    never goes back."""
    number: int = 1
    waiting: int = 0
    since: float | None = None


@dataclasses.dataclass(frozen=True)
class Asking:
    """The tick that was put last: its number, and when that was."""
    number: int = 0
    at: float = 0.0


class Chain:
    def __init__(self, config: Config, log: Log, say: Callable[[str], None]):
        self.config, self.log, self.say = config, log, say
        self.peer = Peer(config.peer_command(), self.hear, say)
        # How many blocks the store has, and the transactions of the next one that the peer has told of.
        self.height, self.grown = 0, asyncio.Condition()
        self.told: list[list[str]] = []
        self.keys = Keys(config.ledger.genesis)
        # Who has another block, as long as nobody has looked into it: nothing is endorsed or put meanwhile.
        self.forked: str | None = None
        self.lies: dict[str, Quota] = {}
        # What was looked into: an organisation, and what it says of a block; or the organisation whole.
        self.past_forks = frozenset(config.ledger.past_forks)
        # When the log was seen last to take entries.
        self.led = time.monotonic()
        # This organisation's part of the log, and what of the log counts.
        self.part, self.lines = config.organisation.encode(), Lines()
        # When this organisation asks for a block, and how many there can be.
        self.ticks = config.ticks
        # Where the log is, and how many entries it has; how many of its lines the peer was given, and how many it has read.
        self.revision = self.entries = self.given = self.read = 0
        # When they made the last block, by a clock that never goes back.
        self.made_at = time.monotonic()
        # How often entries are put, and how many bytes of all callers and of each: a file bears any number.
        self.pace, self.space = (Pace(0.0), Pace(0.0)) if config.is_local else (Pace(EACH), pace_of_bytes())
        self.apart = apart(0.0 if config.is_local else ENTRIES_APART)
        self.spaces: collections.defaultdict[str, Pace] = collections.defaultdict(lambda: Pace(0.0) if config.is_local else pace_of_bytes(2))
        self.awaited, self.asking = Awaited(), Asking()
        # Numbers of committed blocks whose hashes are to be told.
        self.unsaid: asyncio.Queue[int] = asyncio.Queue()
        # Who waits for the flag of a transaction, by its id.
        self.waiters: dict[str, set[asyncio.Future[Object]]] = {}
        # What became of those that this node has put and that are in no block, for those who ask later.
        self.refused: collections.OrderedDict[str, Object] = collections.OrderedDict()
        # Ids of those that this node has put into the log, and that are in no block yet, with their callers; those of the envelopes of its
        # entries, by their names, until these are read; and those of lines that the peer has not read.
        self.in_log: dict[str, str] = {}
        self.own: dict[bytes, list[str]] = {}
        self.unread: dict[str, str] = {}
        # Whose envelopes of the calls that are under way here came first.
        self.origins = Origins(config.organisation, say)
        self.unput: Turns[Unput] = Turns()
        self.put_wanted = asyncio.Event()
        self.counts: collections.defaultdict[str, float] = collections.defaultdict(float)
        # For how many ticks calls of each caller have waited, and how many bytes these have in the log.
        self.ticked: collections.Counter[str] = collections.Counter()
        self.put_bytes: collections.Counter[str] = collections.Counter()
        self.newest: collections.OrderedDict[int, asyncio.Task[str]] = collections.OrderedDict()

    async def start(self) -> None:
        """Begins the peer, and waits until the store is read."""
        self.height = await self.peer.begin()
        self.say(f"height {self.height}")
        self.lines = Lines.by(self.config.ledger.genesis)
        self.times = Times(self.config.ledger.store + ".times")

    def works(self) -> list[Coroutine[Any, Any, None]]:
        """What runs as long as the node does. None of them returns."""
        return [self.feed(), self.peer.follow(), self.keep_time(), self.put_envelopes(), self.probe()]

    async def close(self) -> None:
        await self.peer.close()

    @property
    def most_blocks(self) -> int:
        """How many blocks another node can have, as far as this one knows the log: a line of it ends two batches at most."""
        return max(self.height, self.awaited.number - 1) + 2 * (self.given - self.read) + AHEAD

    @property
    def is_full(self) -> bool:
        """Whether the last block was cut, so that what is put now is in none."""
        return self.ticks.is_full(max(self.awaited.number, self.height + 1))

    @property
    def shortness(self) -> str:
        """What is told where the log has given fewer blocks than the store has: its next block is another one, if it is another log."""
        number = self.awaited.number - 1
        return f"the store has {self.height:,} blocks, and the log has given {number:,} of them" if number < self.height else ""

    @property
    def is_other_log(self) -> bool:
        """Whether it gives no more of them, as far as one sees."""
        return self.shortness != "" and time.monotonic() - self.made_at > SHORT

    @property
    def share(self) -> int:
        """How many blocks this organisation can bring about still."""
        return self.lines.shares.left(self.part)

    @property
    def wait(self) -> float:
        """For how many seconds this organisation's envelopes wait before it asks for a block, by what it has brought about itself."""
        return self.ticks.seconds(self.lines.shares.brought(self.part), time.time())

    async def standing(self) -> dict[str, Key]:
        """The members and their keys, as the store has them now."""
        return await self.keys.at(self.peer, self.height)

    # ---------------------------------------------------------------- the log, and what becomes of it

    async def feed(self) -> None:
        """Hands the lines of the log that count to the peer."""
        async for entries in self.log.watch():
            if not self.entries:
                first = entries.pop(0)
                await self.hand_on([first])
                await self.go_behind(first)
            await self.hand_on(entries)

    async def hand_on(self, entries: list[Entry]) -> None:
        await self.give([line for it in entries for line in self.counted(it)])
        self.revision = self.lines.revision
        self.entries += len(entries)

    async def give(self, lines: list[bytes]) -> None:
        self.given += len(lines)
        await self.peer.log(lines)

    async def go_behind(self, first: Entry) -> None:
        """Where a renewed log begins, hands on the marks of the blocks of which it has none: the store has them."""
        renewal = Renewal.of(first.value) if self.lines.has_lines else None
        if renewal is None:
            return
        await self.look_at_renewal(renewal, first.name.split(b"/")[0].decode())
        async with contextlib.aclosing(marks_of(self.config.ledger, renewal.number)) as told:
            async for marks in told:
                await self.give(self.lines.filled(marks))
        self.lines.end_refill()

    async def look_at_renewal(self, renewal: Renewal, renewer: str) -> None:
        """Ends the node whose store does not have the block that a renewed log goes on behind."""
        store, behind = self.config.ledger.store, f"{renewer} has renewed the log behind block {renewal.number}"
        # The peer ends before it answers, where the log is of another genesis file.
        said, _ = await self.peer.answer_to("seen", str(renewal.number))
        if self.height < renewal.number:
            raise LogError(f"{behind}, and {store} has {self.height} blocks: put a copy of {renewer}'s store in its place")
        if renewal.hash not in said.split(" ")[3:4]:
            raise LogError(f"{behind} with the hash {renewal.hash}, and {store} has another one: compare its hash with each organisation")

    def counted(self, entry: Entry) -> list[bytes]:
        """The lines of an entry that count. Who waits for one that does not is told."""
        made = self.lines.of(entry)
        self.origins.read(entry.name, made.values())
        for place, id in enumerate(self.own.pop(entry.name, [])):
            if line := made.get(place):
                self.unread[line.decode().split(" ")[0]] = id
            else:
                self.resolve(id, {"id": id, "pending": True, "why": NO_SHARE})
        return list(made.values())

    async def hear(self, words: list[str]) -> None:
        """Hears what becomes of the log's lines."""
        match words:
            case ["tx", *tx]:
                self.told.append(tx)
            case ["committed", number, "flags", *flags]:
                self.awaited, self.made_at = Awaited(int(number) + 1), time.monotonic()
                for it in flags:
                    self.counts[f"flag {it}"] += 1
                await self.committed(int(number))
            case ["known", number]:
                self.awaited, self.made_at = Awaited(int(number) + 1), time.monotonic()
            case ["read", index, waiting]:
                is_own = waiting != "0" and self.part in self.lines.behind
                self.awaited = Awaited(self.awaited.number, int(waiting), self.awaited.since or time.monotonic() if is_own else None)
                self.read += 1
                self.unread.pop(index, None)
            case ["skipped", index, number]:
                # What nodes tell each other is no mark, and is skipped so by all.
                self.counts[f"skipped {number}"] += int(number) != NO_MARK
                if id := self.unread.get(index):
                    self.resolve(id, {"id": id, "refused": int(number), "why": f"the orderer skips its envelope (refused {number})"})
            case ["aborted", id, number]:
                self.counts[f"aborted {number}"] += 1
                # Whoever knows the id may have put an envelope that is left out, before the one that was endorsed.
                if self.origins.is_own(id):
                    self.resolve(id, {"id": id, "refused": int(number)})
            case ["forked", organisation, number]:
                self.hear_fork(organisation, number)
            case _:
                self.say(f"{self.peer.name}: {' '.join(words)}")

    def hear_fork(self, organisation: str, number: str) -> None:
        """Somebody has another block: as long as nobody has looked into these very words, or into all that it says, the node reads on, and
        puts nothing."""
        words = f"{organisation} says that it has another block {number}"
        self.lies.setdefault(organisation, Quota(organisation, self.say)).tell(f"forked: {words}")
        if not self.past_forks & {organisation, f"{organisation} {number}"}:
            self.forked = self.forked or words

    async def committed(self, number: int) -> None:
        """A block is on the disk: those who wait for its transactions are told, and those who watch."""
        self.times.note(number)
        async with self.grown:
            self.height = number
            self.grown.notify_all()
        if number % self.config.ledger.seen == 0:
            self.unsaid.put_nowait(number)
        told, self.told = self.told, []
        for place, id, flag, result in told:
            self.origins.judge(id, flag)
            if id in self.waiters or id in self.in_log:
                self.resolve(id, outcome_of(place, id, flag, result))
        if self.ticks.is_full(number + 1):
            for id in [*self.waiters, *self.in_log]:
                self.resolve(id, {"id": id, "refused": FULL})

    async def keep_time(self) -> None:
        """Asks for blocks. Where the log does not take it, it is asked again after a rest."""
        while True:
            await asyncio.sleep(0.05)
            try:
                if self.is_due(time.monotonic()):
                    await self.pace.turn()
                    await self.tick(time.monotonic())
            except LogError as error:
                self.say(f"not put: {error}")
                await asyncio.sleep(1)

    async def probe(self) -> None:
        """Asks the log again and again whether it takes entries."""
        while True:
            if await self.log.is_led():
                self.led = time.monotonic()
            await asyncio.sleep(PROBE)

    def is_due(self, now: float) -> bool:
        """Whether this organisation's envelopes have waited for long enough, as far as the log was read: each organisation asks, and
        pays, for its own. A tick may come behind another one's, and not count, so that it is asked again after as long."""
        awaited, asking = self.awaited, self.asking
        if self.read < self.given or awaited.since is None or self.forked or self.ticks.is_full(awaited.number) or not self.share:
            return False
        asked = asking.at if asking.number == self.lines.ticks + 1 else 0.0
        return now - max(awaited.since, asked) >= self.wait

    async def tick(self, now: float) -> None:
        """Asks for a block, where one is due. Nodes of one organisation ask by one name; that may be used up, so that the next one has
        a part that nobody knows before."""
        if self.is_due(now):
            number = self.lines.ticks + 1
            name = f"{self.config.organisation}/tick-{number}"
            if self.asking.number == number:
                name += f"-{secrets.token_hex(8)}"
            if await self.log.append(name, ["tick"], SHORT_PATIENCE):
                self.counts["ticks"] += 1
                self.ticked.update(set(self.in_log.values()))
            self.asking = Asking(number, time.monotonic())

    # ---------------------------------------------------------------- blocks, and who waits for them

    async def at_least(self, height: int, patience: float) -> bool:
        """Whether the store has so many blocks, within so many seconds."""
        try:
            await within(patience, self._grow(height))
        except asyncio.TimeoutError:
            pass
        return self.height >= height

    async def _grow(self, height: int) -> None:
        async with self.grown:
            await self.grown.wait_for(lambda: self.height >= height)

    async def block(self, number: int) -> str:
        """The JSON of a block that the store has, and when it was committed here."""
        if number not in self.newest:
            self.newest[number] = asyncio.ensure_future(self._read_block(number))
            if len(self.newest) > NEWEST:
                self.newest.popitem(last=False)
        try:
            return await asyncio.shield(self.newest[number])
        except Refused:
            # It may be read back later.
            self.newest.pop(number, None)
            raise

    async def _read_block(self, number: int) -> str:
        text, _ = await self.peer.text_of("block", number=number)
        return f'{{"at":{json.dumps(self.times.of(number))},{text[1:]}'

    def wait_for(self, id: str) -> asyncio.Future[Object]:
        waiter: asyncio.Future[Object] = asyncio.get_running_loop().create_future()
        self.waiters.setdefault(id, set()).add(waiter)
        return waiter

    def forget(self, id: str, waiter: asyncio.Future[Object]) -> None:
        if waiters := self.waiters.get(id):
            waiters.discard(waiter)
            if not waiters:
                del self.waiters[id]

    def resolve(self, id: str, outcome: Object) -> None:
        if id in self.in_log and "block" not in outcome:
            self.refused[id] = outcome
            if len(self.refused) > REMEMBERED:
                self.refused.popitem(last=False)
        self.in_log.pop(id, None)
        self.origins.end(id)
        for waiter in self.waiters.pop(id, ()):
            if not waiter.done():
                waiter.set_result(outcome)

    # ---------------------------------------------------------------- envelopes

    async def put(self, caller: str, id: str, envelope: str) -> None:
        """Puts a transaction's envelope into the log. What comes before the next entry may be put goes into it together."""
        done: asyncio.Future[None] = asyncio.get_running_loop().create_future()
        self.spaces[caller].take(len(envelope))
        self.put_bytes[caller] += len(envelope)
        self.unput.add(caller, (id, envelope, done))
        self.put_wanted.set()
        self.in_log[id] = caller
        self.origins.note_put(id, envelope)
        try:
            await done
        except LogError:
            self.in_log.pop(id, None)
            raise

    async def put_envelopes(self) -> None:
        while True:
            await self.put_wanted.wait()
            await self.apart.turn()
            await self.pace.turn()
            await asyncio.sleep(self.space.wait())
            batch = self._next_entry()
            self.space.take(sum(len(envelope) for _, envelope, _ in batch))
            failed: LogError | None = None
            began, name = time.monotonic(), f"{self.config.organisation}/call-{secrets.token_hex(12)}"
            self.own[name.encode()] = [id for id, _, _ in batch]
            try:
                await self.log.append(name, [it for _, it, _ in batch])
                self.counts["entries"] += 1
                self.counts["entry seconds"] += time.monotonic() - began
            except LogError as error:
                failed = error
                # It may have been put all the same, and read already.
                self.own.pop(name.encode(), None)
            for _, _, done in batch:
                if not done.done():
                    done.set_exception(failed) if failed else done.set_result(None)

    def _next_entry(self) -> list[Unput]:
        """Takes as many envelopes as one entry may have."""
        batch, size = list[Unput](), 0
        while self.unput and len(batch) < ENTRY_LINES:
            _, envelope, _ = self.unput.next()
            size += len(envelope) + 1
            if batch and size > ENTRY_CHARACTERS:
                break
            batch.append(self.unput.take())
        if not self.unput:
            self.put_wanted.clear()
        return batch


def outcome_of(place: str, id: str, flag: str, result: str) -> Object:
    """What the peer tells of a transaction of a block."""
    block, _, within_block = place.partition(".")
    return {"id": id, "block": int(block), "place": int(within_block), "flag": int(flag), "result": result.strip("-")}
