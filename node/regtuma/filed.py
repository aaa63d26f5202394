"""The log in a file, for nodes of one person on one machine: each entry is a line of JSON with `name` and `marks`.

Who appends has the file locked, and reads on to its end, so that it knows which names there are. Who may write the file may append
under any name. Beside etcd it has no copies.
"""
import asyncio
import fcntl
import json
import os
import pathlib
import time
from collections.abc import AsyncIterator, Iterator
from typing import BinaryIO

from .entries import PATIENCE, Entry, LogError

# How often a reader looks for more, and how often the lock is asked for where another process has it, in seconds.
LOOK, TRY = 0.02, 0.002
# How many bytes are read at a time, where a line has no more.
PIECE = 1 << 20


class Reading:
    """How far a log was read."""

    def __init__(self, name: str):
        # The bytes and the entries that were read.
        self.name, self.known, self.count = name, 0, 0

    def more(self, file: BinaryIO) -> list[Entry]:
        """Entries behind those that were read, none at the end. A line that has no end is none: it may be under way, or torn, and
        another one comes in its place."""
        size, entries = PIECE, []
        # Nothing of it is kept: another process may have put other bytes there.
        while b"\n" not in (data := os.pread(file.fileno(), size, self.known)) and len(data) == size:
            size *= 2
        for line in data.split(b"\n")[:-1]:
            entries.append(entry_of(line, self.name, self.count + 1))
            self.known, self.count = self.known + len(line) + 1, self.count + 1
        return entries


class FileLog:
    def __init__(self, file: str):
        self.file, self.why = file, "it was not asked"
        self.unread: tuple[float, str] | None = None
        # The names that were read in order to append, and how far.
        self.names: set[bytes] = set()
        self.reading = Reading(file)
        self.turn = asyncio.Lock()
        try:
            pathlib.Path(file).touch(mode=0o600)
            # As long as it is open, no other file is taken for it.
            self.kept = open(file, "rb")
        except OSError as error:
            raise LogError(f"{file}: {error.strerror}") from None

    async def close(self) -> None:
        self.kept.close()

    async def append(self, name: str, marks: list[str], patience: float = PATIENCE) -> bool:
        async with self.turn:
            return await asyncio.to_thread(self._append, name, marks, patience)

    def _append(self, name: str, marks: list[str], patience: float) -> bool:
        line = json.dumps({"name": name, "marks": marks}).encode() + b"\n"
        try:
            with self._opened() as file:
                self._lock(file, patience)
                while entries := self.reading.more(file):
                    self.names.update(it.name for it in entries)
                if name.encode() in self.names:
                    return False
                # What stands behind the last whole line counts for nobody: who wrote it has ended in between.
                file.truncate(self.reading.known)
                file.seek(self.reading.known)
                file.write(line)
                file.flush()
                os.fsync(file.fileno())
                return True
        except OSError as error:
            raise LogError(f"{self.file}: {error.strerror}") from None

    def _opened(self) -> BinaryIO:
        """The file, to be read and written, as long as it is the one with which this log began."""
        file = open(self.file, "r+b")
        found = os.fstat(file.fileno())
        if os.path.samestat(found, os.fstat(self.kept.fileno())) and found.st_size >= self.reading.known:
            return file
        file.close()
        raise LogError(f"{self.file} is not the file that it was")

    def _lock(self, file: BinaryIO, patience: float) -> None:
        until = time.monotonic() + patience
        while True:
            try:
                return fcntl.flock(file, fcntl.LOCK_EX | fcntl.LOCK_NB)
            except BlockingIOError:
                if time.monotonic() > until:
                    raise LogError(f"{self.file}: another process has had it locked for {patience:g} s") from None
                time.sleep(TRY)

    async def read(self, name: str) -> str | None:
        found = next((it for it in entries_of(self.file) if it.name == name.encode()), None)
        return found.value.decode("latin-1") if found else None

    async def is_empty(self) -> bool:
        return next(entries_of(self.file), None) is None

    async def count(self) -> int:
        return sum(1 for _ in entries_of(self.file))

    async def is_led(self) -> bool:
        try:
            self._opened().close()
            return True
        except OSError as error:
            self.why = f"{self.file}: {error.strerror}"
        except LogError as error:
            self.why = str(error)
        return False

    async def watch(self) -> AsyncIterator[list[Entry]]:
        reading = Reading(self.file)
        with open(self.file, "rb") as file:
            while True:
                if entries := reading.more(file):
                    yield entries
                else:
                    await asyncio.sleep(LOOK)


def entry_of(line: bytes, name: str, number: int) -> Entry:
    """The entry that a line of the file is."""
    try:
        said = json.loads(line)
        return Entry(number, said["name"].encode(), "\n".join(said["marks"]).encode())
    except (ValueError, KeyError, TypeError, AttributeError):
        raise LogError(f"{name}, line {number}: it is no entry of a log") from None


def entries_of(name: str) -> Iterator[Entry]:
    """The entries that a file has now."""
    reading = Reading(name)
    with open(name, "rb") as file:
        while entries := reading.more(file):
            yield from entries
