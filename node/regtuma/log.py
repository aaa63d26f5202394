"""What is put into the log by hand, and read from it.

    regtuma-log node.toml begin                    puts the first entry, which names the genesis file
    regtuma-log node.toml renew                    puts the first entry of a new, empty log that goes on behind the node's store
    regtuma-log node.toml refill STORE             puts every block of a store into a new, empty log, so that its chain goes on
    regtuma-log node.toml module MODULE [1 | 2]    puts a module of profile 1 or 2, by default 1, for those who are to install it
    regtuma-log node.toml fetch DIGEST             prints the bytes of the module with this digest
    regtuma-log node.toml leave ORG [PASSWORD]     shows what is left on this machine of an organisation that has left; with the file of
                                                   the password of etcd's root, takes its members and users out of etcd before

`renew` and `refill` are for when etcd's space runs out, or its majority is lost for good. All nodes are stopped; of their stores, each
of which is a beginning of the longest, the longest is taken. `renew` puts the number and the hash of its last block alone: each node
needs a store with that block, or a copy of one. `refill` puts all that its blocks are made of, so that a node without a store makes one:
by `ledger marks`, a mark for each envelope, and a tick behind each block. Where either was stopped, begin again with a new, empty etcd.

A module is no mark: every node skips it.
"""
import asyncio
import hashlib
import pathlib
import subprocess
import sys
from collections.abc import Iterable, Iterator

from . import config as configuration
from . import numbers
from .config import Config, Mistake
from .entries import ENTRY_CHARACTERS, ENTRY_LINES, REFILL, Log, LogError
from .filters import FilterEnded
from .leaving import leave
from .renewal import last_block


class NotDone(Exception):
    """Why nothing was put."""


def asked(config: Config, *words: str) -> list[str]:
    """The lines that the program prints, of which there may be gigabytes: they are kept once."""
    command = [config.ledger.program, *words]
    with subprocess.Popen(command, stdin=subprocess.DEVNULL, stdout=subprocess.PIPE, text=True) as ran:
        assert ran.stdout
        lines = [it.rstrip("\n") for it in ran.stdout]
    if ran.returncode:
        raise NotDone(f"`{' '.join(command)}` answers: {numbers.explained(lines[-1]) if lines else f'status {ran.returncode}'}")
    return lines


def entries(marks: Iterable[str]) -> Iterator[list[str]]:
    """Marks in entries that a log takes."""
    entry: list[str] = []
    size = 0
    for mark in marks:
        if entry and (size + len(mark) > ENTRY_CHARACTERS or len(entry) == ENTRY_LINES):
            yield entry
            entry, size = [], 0
        entry.append(mark)
        size += len(mark) + 1
    if entry:
        yield entry


async def check_empty(log: Log) -> None:
    if not await log.is_empty():
        raise NotDone("the log has begun already: it has, or had, entries. A refill or renewal that was stopped wants a new, empty etcd")


async def put_first(log: Log, config: Config, *lines: str) -> str:
    """Puts the first entry, in which these lines follow the genesis file's. What is said of it."""
    digest = hashlib.sha256(pathlib.Path(config.ledger.genesis).read_bytes()).hexdigest()
    await log.append(f"{config.organisation}/genesis", [f"genesis {digest}", *lines])
    return f"the log has begun: its first entry names the genesis file {digest}"


async def check_alone(log: Log, count: int) -> None:
    """Refuses a log that has, or had, other entries than so many of this organisation."""
    if await log.count() != count:
        raise NotDone("somebody else has put entries meanwhile, so that these blocks would not come out: begin again with a new, empty etcd,"
                      " which no other organisation reaches until it is filled")


async def begin(log: Log, config: Config, marks: list[str]) -> str:
    """Puts the first entry, and marks behind it."""
    await check_empty(log)
    begun, count = await put_first(log, config), 0
    for count, entry in enumerate(entries(marks), 1):
        await log.append(f"{config.organisation}{REFILL.decode()}{count}", entry)
    if not marks:
        return begun
    await check_alone(log, count + 1)
    return f"{begun}, and {len(marks)} marks are behind it in {count} more entries"


async def renew(log: Log, config: Config) -> str:
    """Puts the first entry of a log that goes on behind the last block of the node's store."""
    await check_empty(log)
    store = config.ledger.store
    renewal = await last_block(config) if pathlib.Path(store).exists() else None
    if renewal is None:
        raise NotDone(f"{store} has no block: `begin` begins the log of a new chain")
    begun = await put_first(log, config, renewal.line())
    await check_alone(log, 1)
    return f"{begun}, and it goes on behind block {renewal.number}, whose hash is {renewal.hash}"


async def put_module(log: Log, config: Config, file: str, profile: str) -> str:
    digest, = asked(config, "digest", file, "--profile", profile)
    await log.append(f"{config.organisation}/module-{digest}", [f"module {profile} {pathlib.Path(file).read_bytes().hex()}"])
    return f"put module {digest}"


async def fetch(log: Log, config: Config, digest: str) -> bytes:
    """The bytes of a module, whichever organisation put it: they have the digest."""
    for organisation in config.organisations:
        line = await log.read(f"{organisation}/module-{digest}")
        try:
            data = bytes.fromhex(line.split(" ")[-1]) if line else b""
        except ValueError:
            continue
        if hashlib.sha256(data).hexdigest() == digest:
            return data
    raise NotDone(f"no organisation has put the module {digest}")


async def work(config: Config, words: list[str]) -> str | bytes:
    """Does what the words say. What is printed."""
    log = config.log()
    try:
        match words:
            case ["begin"]:
                return await begin(log, config, [])
            case ["renew"]:
                return await renew(log, config)
            case ["refill", store]:
                return await begin(log, config, asked(config, "marks", config.ledger.genesis, store))
            case ["module", file, profile]:
                return await put_module(log, config, file, profile)
            case ["fetch", digest]:
                return await fetch(log, config, digest)
            case ["leave", organisation, password]:
                return await leave(config, organisation, password)
        raise NotDone("these words name nothing")
    finally:
        await log.close()


def main(words: list[str]) -> int:
    if words in (["--help"], ["-h"]):
        print(__doc__)
        return 0
    match words:
        case [file, "begin" | "renew"] | [file, "refill" | "fetch", _] | [file, "module", _, "1" | "2"]:
            task = words[1:]
        case [file, "module", _]:
            task = [*words[1:], "1"]
        case [file, "leave", _] | [file, "leave", _, _]:
            task = [*words[1:], ""][:3]
        case _:
            print(__doc__, file=sys.stderr)
            return 2
    try:
        said = asyncio.run(work(configuration.read(file), task))
        # Members of etcd have the names that they give themselves: nothing in what is said speaks to a terminal.
        shown = said if isinstance(said, bytes) else "".join(it if it.isprintable() or it == "\n" else "?" for it in said).encode() + b"\n"
        sys.stdout.buffer.write(shown)
        return 0
    except (Mistake, NotDone, LogError, FilterEnded, OSError, ValueError) as error:
        print(f"regtuma-log: {numbers.explained(str(error))}", file=sys.stderr)
        return 1


if __name__ == "__main__":
    sys.exit(main(sys.argv[1:]))
