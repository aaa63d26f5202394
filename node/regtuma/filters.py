"""Filters as children: lines in, lines out. They are the proved program's `peer` (peer.py) and the approver (endorsing.py)."""
import asyncio
import collections
from collections.abc import Callable

from . import journal

# The longest line, as a block's JSON, and how much is read at a time.
LONGEST, PIECE = 1 << 24, 1 << 18
# So many lines wait for an answer at most: what is written behind them waits for no more than these, whoever asks.
MOST_ASKED = 64
# How long a filter may take for what it was given, once its input has ended, in seconds.
LAST_SECONDS = 5


class FilterEnded(Exception):
    """A filter has ended, so the node ends too, and is begun again."""


class TooLong(Exception):
    """A filter's line is longer than any that the node reads, as part of the history of a key that has long values."""


def say_nothing(_line: str) -> None:
    """Where nobody wants to know what a filter says on its standard error."""


class Filter:
    def __init__(self, name: str, command: list[str], say: Callable[[str], None] = say_nothing):
        self.name, self.command, self.say = name, command, say
        self.is_started = False

    async def start(self) -> None:
        # Lines that nobody has taken yet, and the pieces of the next one, with its length so far.
        self.unread: collections.deque[str | TooLong] = collections.deque()
        self.begun, self.length = list[bytes](), 0
        pipe = asyncio.subprocess.PIPE
        try:
            self.process = await asyncio.create_subprocess_exec(*self.command, stdin=pipe, stdout=pipe, stderr=pipe, limit=PIECE)
        except OSError as error:
            raise FilterEnded(f"{self.name}: {self.command[0]} cannot be run: {error.strerror}") from None
        # All are pipes.
        assert self.process.stdin and self.process.stdout and self.process.stderr
        self.errors = asyncio.ensure_future(journal.follow(self.name, self.process.stderr, self.say))
        self.stdin, self.stdout, self.is_started = self.process.stdin, self.process.stdout, True
        # Where it ends before it has read all, that is asked for here: else asyncio of Python 3.11.2 says that nobody did.
        closed = asyncio.ensure_future(self.stdin.wait_closed())
        closed.add_done_callback(lambda it: it.cancelled() or it.exception())

    async def write(self, *lines: bytes) -> None:
        """Hands lines on, and waits where the filter is behind."""
        try:
            self.stdin.writelines(lines)
            await self.stdin.drain()
        except (BrokenPipeError, ConnectionResetError):
            # What it said last tells why, and is read by whoever reads it.
            pass

    async def line(self) -> str:
        """The next line that it says."""
        while not self.unread:
            await self._read()
        line = self.unread.popleft()
        if isinstance(line, TooLong):
            raise line
        return line

    async def _read(self) -> None:
        """Reads on: many lines at once, or a piece of one."""
        piece = await self.stdout.read(PIECE)
        if not piece:
            raise FilterEnded(f"{self.name} ended with status {await self.process.wait()}")
        *lines, rest = piece.split(b"\n")
        for line in lines:
            self._begin(line)
            self.unread.append(self._whole())
        self._begin(rest)

    def _begin(self, piece: bytes) -> None:
        """Keeps a piece of the next line. One that is too long is left out."""
        self.length += len(piece)
        if self.length > LONGEST:
            self.begun.clear()
        elif piece:
            self.begun.append(piece)

    def _whole(self) -> str | TooLong:
        """The line whose last piece has come. Its pieces are joined here, once: a long one has hundreds."""
        line, is_too_long = b"".join(self.begun).decode(errors="replace"), self.length > LONGEST
        self.begun, self.length = [], 0
        return TooLong(f"{self.name} has an answer of more than {LONGEST >> 20} MiB: ask for less") if is_too_long else line

    async def close(self) -> None:
        """It ends behind what it was given, within some seconds."""
        if not self.is_started:
            return
        try:
            self.stdin.close()
            # What it says meanwhile is not needed, and must not hold it up.
            await asyncio.wait_for(asyncio.gather(self.process.wait(), self._drain()), LAST_SECONDS)
        except asyncio.TimeoutError:
            self.process.kill()
            await self.process.wait()
        await self._end_errors()

    async def _end_errors(self) -> None:
        """What it said last is said. A child of its own may keep its standard error open."""
        await asyncio.wait([self.errors], timeout=LAST_SECONDS)
        self.errors.cancel()

    async def _drain(self) -> None:
        while await self.stdout.read(1 << 16):
            pass


class Asked(Filter):
    """A filter that answers each line by one line, in their order."""

    def __init__(self, name: str, command: list[str], say: Callable[[str], None] = say_nothing):
        super().__init__(name, command, say)
        # The lines that wait for an answer, each with who asked; and by how many of their kind may wait at a time those that are not
        # written yet, and how many are.
        self.asked: collections.deque[tuple[str, asyncio.Future[str], int]] = collections.deque()
        self.unwritten: dict[int, collections.deque[tuple[str, asyncio.Future[str]]]] = {}
        self.written: collections.Counter[int] = collections.Counter()
        self.is_to_write = False
        # Why it answers no more.
        self.ended: FilterEnded | None = None

    @property
    def unanswered(self) -> int:
        """How many lines were asked, and have no answer."""
        return len(self.asked) + sum(map(len, self.unwritten.values()))

    def ask(self, line: str, most: int = MOST_ASKED) -> asyncio.Future[str]:
        """What it answers to a line, of whose kind so many wait for an answer at a time."""
        asker: asyncio.Future[str] = asyncio.get_running_loop().create_future()
        if self.ended:
            asker.set_exception(self.ended)
            return asker
        self.unwritten.setdefault(most, collections.deque()).append((line, asker))
        self._write_soon()
        return asker

    def room(self, most: int) -> int:
        """How many lines may wait for an answer at a time, of a kind of which that many may at the most."""
        return most

    def _write_soon(self) -> None:
        if not self.is_to_write:
            self.is_to_write = True
            asyncio.get_running_loop().call_soon(self._write)

    def _write(self) -> None:
        """Writes as many lines as may wait for an answer, but none whose asker has gone."""
        self.is_to_write, lines = False, list[str]()
        for most in sorted(self.unwritten):
            unwritten = self.unwritten[most]
            while unwritten and len(self.asked) < MOST_ASKED and self.written[most] < self.room(most):
                line, asker = unwritten.popleft()
                if not asker.done():
                    lines.append(f"{line}\n")
                    self.asked.append((line, asker, most))
                    self.written[most] += 1
        if lines:
            self.stdin.write("".join(lines).encode())

    async def follow(self) -> None:
        """Hands on what the filter says, as long as it runs."""
        try:
            while True:
                await self._hand_on()
        except FilterEnded as ended:
            self.ended = ended
            askers = [it[1] for it in self.asked] + [it[1] for unwritten in self.unwritten.values() for it in unwritten]
            for asker in askers:
                settle(asker, ended)
            self.asked.clear()
            self.unwritten.clear()
            raise

    async def _hand_on(self) -> None:
        """Hands on the next line."""
        try:
            said: str | TooLong = await self.line()
        except TooLong as too_long:
            said = too_long
        await self.hear(said)

    async def hear(self, said: str | TooLong) -> None:
        """Hears a line, which answers who asked first."""
        self.answer(said)

    def answer(self, said: str | TooLong) -> None:
        """Answers who asked first. The next line may be written then."""
        if not self.asked:
            raise FilterEnded(f"{self.name} says: {said}")
        _, asker, most = self.asked.popleft()
        self.written[most] -= 1
        settle(asker, said)
        self._write_soon()


def settle(asker: asyncio.Future[str], said: str | Exception) -> None:
    """Tells who asked, if anybody waits still."""
    if not asker.done():
        asker.set_result(said) if isinstance(said, str) else asker.set_exception(said)
