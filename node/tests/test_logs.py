"""What a log is, whatever keeps it: each name once, and one order for all who read it. In a file no part of an entry counts."""
import asyncio
import fcntl
import json
import multiprocessing
import pathlib
import tempfile
import unittest
from unittest import mock

import support
from aiohttp import web
from regtuma import etcd, filed
from regtuma.entries import SHORTEST, Entry, Lines, Log, LogError
from regtuma.etcd import EtcdLog
from regtuma.filed import FileLog

TORN = b'{"name": "Maker/b", "ma'


class Etcd:
    """A member of etcd, as far as a log asks it."""

    def __init__(self) -> None:
        self.events: list[dict] = []
        self.grown = asyncio.Condition()

    async def begin(self) -> str:
        app = web.Application()
        app.add_routes([web.post("/v3/kv/txn", self.put), web.post("/v3/kv/range", self.range),
                        web.post("/v3/watch", self.watch), web.post("/v3/maintenance/status", self.status)])
        self.runner = web.AppRunner(app)
        await self.runner.setup()
        site = web.TCPSite(self.runner, "127.0.0.1", 0, shutdown_timeout=0.1)
        await site.start()
        return "http://127.0.0.1:%d" % self.runner.addresses[0][1]

    def found(self, key: str) -> list[dict]:
        return [it["kv"] for it in self.events if it["kv"]["key"] == key]

    async def put(self, request: web.Request) -> web.Response:
        asked = (await request.json())["success"][0]["request_put"]
        is_new = not self.found(asked["key"])
        if is_new:
            async with self.grown:
                self.events.append({"kv": {**asked, "version": "1", "mod_revision": str(len(self.events) + 2)}})
                self.grown.notify_all()
        return web.json_response({"succeeded": is_new})

    async def range(self, request: web.Request) -> web.Response:
        asked = await request.json()
        found = [it["kv"] for it in self.events] if "range_end" in asked else self.found(asked["key"])
        return web.json_response({"header": {"revision": str(len(self.events) + 1)}, "kvs": found})

    async def status(self, _request: web.Request) -> web.Response:
        return web.json_response({"leader": "1"})

    async def watch(self, request: web.Request) -> web.StreamResponse:
        stream, told = web.StreamResponse(), 0
        await stream.prepare(request)
        while True:
            async with self.grown:
                await self.grown.wait_for(lambda: len(self.events) > told)
            new, told = self.events[told:], len(self.events)
            await stream.write(json.dumps({"result": {"events": new}}).encode() + b"\n")


async def watched(log: Log, count: int) -> list[Entry]:
    """The first entries that a log tells, so many at least."""
    found: list[Entry] = []
    async with asyncio.timeout(60):
        async for entries in log.watch():
            found += entries
            if len(found) >= count:
                break
    return found


class Of:
    """The cases of both logs, which is no test by itself."""

    class Both(unittest.IsolatedAsyncioTestCase):
        async def opened(self) -> Log:
            """The log, as one more node has it."""
            raise NotImplementedError

        async def log(self) -> Log:
            made = await self.opened()
            self.addAsyncCleanup(made.close)
            return made

        async def test_a_name_is_taken_once(self):
            one, other = await self.log(), await self.log()
            self.assertTrue(await one.append("Maker/a", ["x", "y"]))
            self.assertFalse(await other.append("Maker/a", ["z"]))
            self.assertFalse(await one.append("Maker/a", ["x", "y"]))
            self.assertTrue(await other.append("tick-1", ["tick"]))
            self.assertEqual((await one.read("Maker/a"), await one.read("tick-1"), await one.read("b")), ("x\ny", "tick", None))

        async def test_it_is_empty_before_its_first_entry(self):
            one, other = await self.log(), await self.log()
            self.assertEqual((await one.is_empty(), await one.is_led()), (True, True))
            await other.append("Maker/genesis", ["genesis 00"])
            self.assertEqual((await one.is_empty(), await one.count()), (False, 1))

        async def test_lines_have_their_numbers(self):
            log = await self.log()
            one, two = "00" * SHORTEST, "ff" * SHORTEST
            await log.append("Maker/a", [one, "tick", two])
            await log.append("Shop/seen-1", ["seen Shop 1 \xff", "seen Shop 1 00"])
            await log.append("Shop/tick-1", ["tick"])
            entries = await watched(log, 3)
            first, second, third = (it.revision for it in entries)
            self.assertLess(first, second)
            self.assertLess(second, third)
            lines = Lines()
            self.assertEqual(b"".join(line for it in entries for line in lines.of(it).values()).decode("latin-1"),
                             f"{first}.0 {one}\n{first}.2 {two}\n{second}.0 seen Shop 1 \xc3\x83\xc2\xbf\n{third}.0 tick\n")

        async def test_all_see_one_order(self):
            logs = [await self.log() for _ in range(3)]
            watching = [asyncio.ensure_future(watched(it, 40)) for it in logs]

            async def append(own: int, log: Log) -> list[bool]:
                names = [name for turn in range(10) for name in (f"tick-{turn}", f"Maker/{own}-{turn}")]
                return [await log.append(name, ["tick"], 60) for name in names]
            made = await asyncio.gather(*(append(*it) for it in enumerate(logs)))
            self.assertEqual(sum(it.count(True) for it in made), 40)
            told = [await it for it in watching]
            self.assertEqual(told[0], told[1])
            self.assertEqual(told[1], told[2])
            self.assertEqual((await watched(logs[0], 1))[0], told[0][0])


class InEtcd(Of.Both):
    async def asyncSetUp(self):
        # A busy machine is no failure of etcd.
        self.enterContext(mock.patch.object(etcd, "NODE_SECONDS", 20.0))
        self.etcd = Etcd()
        self.url = await self.etcd.begin()
        self.addAsyncCleanup(self.etcd.runner.cleanup)

    async def opened(self) -> Log:
        return EtcdLog([self.url], "", "", None)


def append_all(file: str, own: str, count: int, made: "multiprocessing.Queue[tuple[int, int]]") -> None:
    """A process that appends names which others append too, and as many of its own."""
    async def work() -> tuple[int, int]:
        log = FileLog(file)
        shared = [await log.append(f"tick-{it}", ["tick"]) for it in range(count)]
        owned = [await log.append(f"{own}/call-{it}", [own * 1000]) for it in range(count)]
        await log.close()
        return sum(shared), sum(owned)
    made.put(asyncio.run(work()))


class InAFile(Of.Both):
    async def asyncSetUp(self):
        folder = tempfile.TemporaryDirectory()
        self.addCleanup(folder.cleanup)
        self.file = pathlib.Path(folder.name) / "log"

    async def opened(self) -> FileLog:
        return FileLog(str(self.file))

    def tear(self) -> None:
        """Puts a part of an entry at the end, as one does who is killed."""
        with self.file.open("ab") as file:
            file.write(TORN)

    async def names(self, count: int) -> list[bytes]:
        return [it.name for it in await watched(await self.log(), count)]

    async def test_processes_that_append_the_same(self):
        made: multiprocessing.Queue[tuple[int, int]] = multiprocessing.Queue()
        works = [multiprocessing.Process(target=append_all, args=(str(self.file), it, 20, made)) for it in ("Maker", "Shop", "Depot")]
        for it in works:
            it.start()
        counts = [await asyncio.to_thread(made.get, timeout=60) for _ in works]
        for it in works:
            it.join()
        self.assertEqual((sum(shared for shared, _ in counts), [own for _, own in counts]), (20, [20, 20, 20]))
        self.assertEqual(len(set(await self.names(80))), 80)

    async def test_a_torn_line_is_taken_away(self):
        await (await self.log()).append("Maker/a", ["x"])
        self.tear()
        log = await self.log()
        self.assertEqual((await log.read("Maker/b"), await log.is_empty()), (None, False))
        self.assertTrue(await log.append("Maker/b", ["y"]))
        self.assertEqual(await self.names(2), [b"Maker/a", b"Maker/b"])

    async def test_a_log_that_is_torn_alone_is_empty(self):
        self.tear()
        self.assertTrue(await (await self.log()).is_empty())

    async def test_who_watches_over_a_torn_line(self):
        log = await self.log()
        watching = asyncio.ensure_future(watched(log, 2))
        await log.append("Maker/a", ["x"])
        self.tear()
        await asyncio.sleep(0.2)
        await (await self.log()).append("Maker/c", ["y"])
        self.assertEqual([it.name for it in await watching], [b"Maker/a", b"Maker/c"])

    async def test_a_line_comes_in_two_parts(self):
        watching = asyncio.ensure_future(watched(await self.log(), 1))
        line = json.dumps({"name": "Maker/a", "marks": ["x"]}).encode() + b"\n"
        for part in (line[:9], line[9:]):
            with self.file.open("ab") as file:
                file.write(part)
            await asyncio.sleep(0.1)
        self.assertEqual([it.name for it in await watching], [b"Maker/a"])

    async def test_a_line_of_any_length(self):
        log = await self.log()
        with mock.patch.object(filed, "PIECE", 8):
            for size in (1, 7, 300):
                await log.append(f"Maker/{size}", ["x" * size])
            self.assertEqual([len(it.value) for it in await watched(log, 3)], [1, 7, 300])

    async def test_a_line_that_is_no_entry_is_told(self):
        for line in (b"no JSON\n", b"[]\n", b'{"name": 5, "marks": []}\n', b'{"name": "a"}\n', b'{"name": "a", "marks": [5]}\n', b"\n",
                     b"\xff\n"):
            with self.subTest(line=line):
                self.file.write_bytes(b'{"name": "a", "marks": ["x"]}\n' + line)
                log = await self.log()
                for doing in (log.append("b", ["x"]), log.append("b", ["x"]), log.read("b"), watched(log, 2)):
                    with self.assertRaisesRegex(LogError, "log, line 2: it is no entry of a log$"):
                        await doing

    async def test_a_file_that_is_taken_away_or_replaced(self):
        log = await self.log()
        await log.append("Maker/a", ["x"])
        self.file.unlink()
        with self.assertRaisesRegex(LogError, "log: No such file or directory$"):
            await log.append("Maker/b", ["x"])
        self.assertEqual((await log.is_led(), log.why), (False, f"{self.file}: No such file or directory"))
        await (await self.log()).append("Maker/other", ["x"])
        with self.assertRaisesRegex(LogError, "log is not the file that it was$"):
            await log.append("Maker/b", ["x"])
        self.assertFalse(await log.is_led())

    async def test_a_folder_that_is_not_there(self):
        with self.assertRaisesRegex(LogError, "nowhere/log: No such file or directory$"):
            FileLog(str(self.file.parent / "nowhere" / "log"))

    async def test_who_has_it_locked_is_not_waited_for_for_good(self):
        log = await self.log()
        with self.file.open("rb") as file:
            fcntl.flock(file, fcntl.LOCK_EX)
            with self.assertRaisesRegex(LogError, "log: another process has had it locked for 0.1 s$"):
                await log.append("Maker/a", ["x"], 0.1)
            waiting = asyncio.ensure_future(log.append("Maker/a", ["x"]))
            await asyncio.sleep(0.1)
            self.assertFalse(waiting.done())
        self.assertTrue(await waiting)

    async def test_its_owner_alone_reads_it(self):
        await self.log()
        self.assertEqual(self.file.stat().st_mode & 0o777, 0o600)


if __name__ == "__main__":
    unittest.main()
