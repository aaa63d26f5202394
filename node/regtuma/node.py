"""One organisation's node.

    regtuma-node node.toml

It runs the ledger's peer as its child, follows the log, and answers HTTP (api.py). It ends where something is wrong, says what,
and is to be begun again by whatever keeps services running; it can be killed at any time.
"""
import asyncio
import json
import logging
import os
import signal
import socket
import sys
from typing import Any

from aiohttp import web
from aiohttp.http_exceptions import HttpProcessingError

from . import config as configuration
from . import numbers
from .access import check_authorities
from .api import Api
from .chain import Chain
from .config import Config, Mistake
from .endorsing import Endorsing
from .entries import LogError
from .filters import FilterEnded
from .gateway import Gateway
from .ticks import DAY
from .wire import Object

# The number of the lines that the peer reads and prints, as `ledger version` tells it, which this node speaks.
LINES = 2
# How long connections may take to end, in seconds.
SHUTDOWN = 2
# How many connections of the proxy may wait to be taken: one more is refused at once, where a socket is a file.
BACKLOG = 4096


def say(text: str) -> None:
    """Prints a line. Anybody may have put words of it into the log, so that nothing in it speaks to a terminal."""
    print("".join(it if it.isprintable() else "?" for it in text[:4000]), flush=True)


def tell_systemd(word: str) -> None:
    if name := os.environ.get("NOTIFY_SOCKET"):
        with socket.socket(socket.AF_UNIX, socket.SOCK_DGRAM) as there:
            there.sendto(word.encode(), name.replace("@", "\0", 1))


async def feed_watchdog() -> None:
    """Tells systemd that the loop turns, twice as often as it asks for that: what keeps it from turning ends the node."""
    asked = int(os.environ.get("WATCHDOG_USEC", "0")) / 1e6
    while True:
        await asyncio.sleep(asked / 2 if asked else DAY)
        if asked:
            tell_systemd("WATCHDOG=1")


def hush(record: logging.LogRecord) -> bool:
    """Whether what aiohttp logs is told: a request that is none is answered by 400, and tells nothing of this node."""
    return not (record.exc_info and isinstance(record.exc_info[1], HttpProcessingError))


async def version_of(program: str) -> Object:
    """What `ledger version` says. A program that speaks other lines is refused."""
    try:
        process = await asyncio.create_subprocess_exec(program, "version", stdout=asyncio.subprocess.PIPE)
        said = json.loads((await process.communicate())[0])
    except OSError as error:
        raise FilterEnded(f"{program} cannot be run: {error.strerror}") from None
    except ValueError:
        said = None
    if not isinstance(said, dict):
        raise FilterEnded(f"{program} is no program of the ledger: `{program} version` tells no numbers")
    if said.get("lines") != LINES:
        raise FilterEnded(f"{program} speaks lines of number {said.get('lines')}, and this node those of number {LINES}")
    return said


class Node:
    def __init__(self, config: Config):
        self.config = config
        self.log = config.log()
        self.chain = Chain(config, self.log, say)
        self.endorsing = Endorsing(config, self.chain)
        self.gateway = Gateway(config, self.chain, self.endorsing)
        self.runners: list[web.AppRunner] = []
        self.tasks: list[asyncio.Future[Any]] = []

    async def run(self) -> None:
        """Serves until it is asked to end, which it may be while the store is read."""
        stopped = asyncio.Event()
        loop = asyncio.get_running_loop()
        for number in (signal.SIGTERM, signal.SIGINT):
            loop.add_signal_handler(number, stopped.set)
        loop.add_signal_handler(signal.SIGHUP, self.reload)
        asked, begun = asyncio.ensure_future(stopped.wait()), asyncio.ensure_future(self.begin())
        self.tasks = [asked, begun]
        await asyncio.wait(self.tasks, return_when=asyncio.FIRST_COMPLETED)
        if asked.done():
            return
        program = begun.result()
        api = Api(self.config, self.chain, self.endorsing, self.gateway, program)
        works = [*self.chain.works(), *self.endorsing.works(), api.access.end_gone(), feed_watchdog()]
        self.tasks = [asked, *(asyncio.ensure_future(it) for it in works)]
        await self.listen(api.app(), self.config.listen)
        if self.config.page:
            await self.listen(api.page_app(), self.config.page)
        say(f"{self.config.organisation} listens at {self.config.listen}")
        tell_systemd("READY=1")
        done, _ = await asyncio.wait(self.tasks, return_when=asyncio.FIRST_COMPLETED)
        for it in done:
            it.result()

    async def begin(self) -> Object:
        """Begins the peer, which reads the store. What `ledger version` says."""
        program = await version_of(self.config.ledger.program)
        await self.chain.start()
        if promise := self.chain.ticks.promise():
            say(f"warning: {promise}")
        await self.endorsing.start()
        return program

    async def listen(self, app: web.Application, where: str) -> None:
        """Answers at a socket of this machine, or on the loopback."""
        logging.getLogger("aiohttp.server").addFilter(hush)
        self.runners.append(runner := web.AppRunner(app, access_log=None, auto_decompress=False))
        await runner.setup()
        if self.config.is_local:
            host, _, port = where.rpartition(":")
            await web.TCPSite(runner, host.strip("[]"), int(port), shutdown_timeout=SHUTDOWN).start()
            return
        await web.UnixSite(runner, where, shutdown_timeout=SHUTDOWN, backlog=BACKLOG).start()
        # The folder says who may enter: the proxy's group.
        os.chmod(where, 0o660)

    def reload(self) -> None:
        """Takes rights anew: a client is shut out by taking its name away."""
        try:
            self.config.rights = configuration.read(self.config.file).rights
            say("rights are read anew")
        except Mistake as mistake:
            say(f"rights stay as they were: {mistake}")

    async def close(self) -> None:
        tell_systemd("STOPPING=1")
        for runner in self.runners:
            await runner.cleanup()
        for task in self.tasks:
            task.cancel()
        await asyncio.gather(*self.tasks, return_exceptions=True)
        await asyncio.gather(self.gateway.close(), self.endorsing.close(), self.chain.close(), self.log.close())


async def serve(config: Config) -> int:
    try:
        node = Node(config)
    except LogError as error:
        say(f"ended: {error}")
        return 1
    try:
        await node.run()
        return 0
    except (FilterEnded, LogError, OSError) as error:
        say(f"ended: {numbers.explained(str(error))}")
        return 1
    finally:
        await node.close()


def main(words: list[str]) -> int:
    if words in (["--help"], ["-h"]):
        print(__doc__)
        return 0
    if len(words) != 1:
        print(__doc__, file=sys.stderr)
        return 2
    # What its unit loads beside OpenSSL is not for its children.
    os.environ.pop("LD_PRELOAD", None)
    try:
        config = configuration.read(words[0])
        config.check_files()
        check_authorities(config)
    except Mistake as mistake:
        print(f"regtuma-node: {mistake}", file=sys.stderr)
        return 2
    except (OSError, ValueError) as error:
        print(f"regtuma-node: a certificate, key or password of {words[0]} is not read: {error}", file=sys.stderr)
        return 2
    return asyncio.run(serve(config))


if __name__ == "__main__":
    sys.exit(main(sys.argv[1:]))
