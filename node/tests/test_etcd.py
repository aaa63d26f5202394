"""Each failure of etcd, by nodes that answer from a list."""
import asyncio
import base64
import contextlib
import io
import json
import re
import shutil
import socket
import tempfile
import unittest
from unittest import mock

import support
from aiohttp import web
from regtuma import entries as log_entries
from regtuma import etcd
from regtuma.entries import Lines, LogError
from regtuma.etcd import EtcdLog as Log
from regtuma.etcd import base64_of, entry_of, is_first

DONE: tuple[int, dict] = (200, {"succeeded": True})
NOT_DONE: tuple[int, dict] = (200, {"header": {}})
NO_LEADER = (503, {"error": "etcdserver: no leader", "code": 14})
BAD_TOKEN, NO_ACCESS = (401, {"error": "etcdserver: invalid auth token"}), (403, {"error": "etcdserver: permission denied"})
TOKEN = (200, {"token": "t"})


def event(revision: int, text: str, version: int = 1, key: str = "log/Maker/x", **more: str) -> dict:
    kv = {"key": base64_of(key), "mod_revision": str(revision), "version": str(version), "value": base64_of(text)}
    return {"kv": kv, **more}


def entries(events: list[dict]) -> list:
    return [entry_of(it) for it in events if is_first(it)]


async def first(told):
    """The first that somebody tells."""
    async for it in told:
        yield it
        return


def told(*events: dict) -> dict:
    return {"result": {"header": {}, "events": list(events)}}


class Node:
    """A member of etcd that answers each request by the next of its list, and a watch by several lines."""

    def __init__(self, *answers):
        self.answers, self.asked = list(answers), []

    async def __aenter__(self) -> "Node":
        app = web.Application()
        app.router.add_post("/{path:.*}", self.answer)
        self.runner = web.AppRunner(app)
        await self.runner.setup()
        site = web.TCPSite(self.runner, "127.0.0.1", 0, shutdown_timeout=0.1)
        await site.start()
        self.url = "http://127.0.0.1:%d" % self.runner.addresses[0][1]
        return self

    async def __aexit__(self, *_) -> None:
        await self.runner.cleanup()

    async def answer(self, request: web.Request) -> web.StreamResponse:
        self.asked.append((request.path, await request.json(), request.headers.get("Authorization")))
        answer = self.answers.pop(0) if self.answers else (500, {"error": "there is no more answer"})
        if isinstance(answer, Values):
            answer = 200, {"kvs": [answer[self.asked[-1][1]["key"]]["kv"]]}
        if answer is None:
            assert request.transport
            request.transport.close()
            return web.Response()
        if answer == "nothing":
            await asyncio.sleep(60)
        if isinstance(answer, list):
            stream = web.StreamResponse()
            await stream.prepare(request)
            for piece in answer:
                if piece == "nothing":
                    await asyncio.sleep(60)
                try:
                    await stream.write(piece if isinstance(piece, bytes) else json.dumps(piece).encode() + b"\n")
                except ConnectionResetError:
                    break
            return stream
        status, said = answer
        made = web.Response(status=status, text=said if isinstance(said, str) else json.dumps(said), content_type="application/json")
        for number in range(100 * isinstance(answer, Cookies)):
            made.set_cookie(f"cookie{number}", "x")
        return made


class Values(dict):
    """Events by their keys, of which the one that is asked for is answered."""


class Cookies(tuple):
    """An answer with a hundred cookies."""


class Elsewhere(Node):
    """One that sends all who ask it to another place."""

    def __init__(self, place: str):
        super().__init__()
        self.place = place

    async def answer(self, request: web.Request) -> web.StreamResponse:
        raise web.HTTPTemporaryRedirect(self.place + request.path)


class Case(unittest.IsolatedAsyncioTestCase):
    async def asyncSetUp(self):
        # A busy machine is no failure of etcd; and what is asked one by one is answered in this order.
        self.enterContext(mock.patch.multiple(etcd, NODE_SECONDS=20.0, ENTRIES=1))
        # Here digits of any number stand for an envelope.
        digits = re.compile(rb"\n[0-9a-f]+\n")
        self.enterContext(mock.patch.multiple(log_entries, MARKS=digits, FIRST_MARKS=digits))

    async def log(self, *nodes: Node, user: str = "") -> Log:
        for node in nodes:
            await self.enterAsyncContext(node)
        made = Log([it.url for it in nodes], user, "secret", None)
        self.addAsyncCleanup(made.close)
        return made

    async def watched(self, log: Log, count: int) -> list[bytes]:
        """So many lines of a watch from the beginning."""
        found: list[bytes] = []
        lines = Lines()
        async with asyncio.timeout(60):
            async for events in log.watch():
                found += [line for it in events for line in lines.of(it).values()]
                if len(found) >= count:
                    break
        return found


class Failures(Case):
    async def test_an_entry_is_put(self):
        node = Node(DONE)
        self.assertTrue(await (await self.log(node)).append("Maker/a", ["x", "y"]))
        path, body, token = node.asked[0]
        put = body["success"][0]["request_put"]
        self.assertEqual((path, base64.b64decode(put["key"]), base64.b64decode(put["value"]), token),
                         ("/v3/kv/txn", b"log/Maker/a", b"x\ny", None))
        self.assertEqual(body["compare"][0]["create_revision"], "0")

    async def test_an_entry_that_is_there_is_not_put(self):
        self.assertFalse(await (await self.log(Node(NOT_DONE))).append("Maker/a", ["x"]))

    async def test_the_next_node_is_asked_where_one_fails(self):
        for failure in [(500, {"error": "boom"}), NO_LEADER, (200, "no JSON"), (200, "[]"), (502, "<html>"), None]:
            with self.subTest(failure=failure):
                first, second = Node(failure), Node(DONE)
                self.assertTrue(await (await self.log(first, second)).append("Maker/a", ["x"]))
                self.assertEqual((len(first.asked), len(second.asked)), (1, 1))

    async def test_a_node_that_says_nothing(self):
        log = await self.log(Node("nothing"))
        with mock.patch.object(etcd, "NODE_SECONDS", 0.2), self.assertRaisesRegex(LogError, "in 0.1 s: it gave no answer in time$"):
            await log.append("Maker/a", ["x"], 0.1)

    async def test_a_token_is_asked_for_anew(self):
        node = Node(TOKEN, BAD_TOKEN, TOKEN, DONE)
        self.assertTrue(await (await self.log(node, user="maker")).append("Maker/a", ["x"]))
        self.assertEqual([it[0] for it in node.asked], ["/v3/auth/authenticate", "/v3/kv/txn"] * 2)
        self.assertEqual(node.asked[3][2], "t")

    async def test_a_wrong_password_is_told(self):
        log = await self.log(Node((400, {"error": "etcdserver: authentication failed, invalid user ID or password"})), user="maker")
        with self.assertRaisesRegex(LogError, "^etcd refuses: etcdserver: authentication failed"):
            await log.append("Maker/a", ["x"])

    async def test_a_user_who_may_not_is_told(self):
        with self.assertRaisesRegex(LogError, "^etcd refuses: etcdserver: permission denied$"):
            await (await self.log(Node(NO_ACCESS))).append("Carrier/a", ["x"])

    async def test_without_a_majority_it_is_told_after_a_while(self):
        node = Node(*[NO_LEADER] * 50)
        log = await self.log(node)
        self.assertFalse(await log.is_led())
        self.assertEqual(log.why, "etcdserver: no leader")
        with self.assertRaisesRegex(LogError, "^no member of etcd did it in 0.2 s: etcdserver: no leader$"):
            await log.append("Maker/a", ["x"], 0.2)

    async def test_a_log_that_has_begun(self):
        log = await self.log(Node((200, {"header": {"revision": "1"}}), (200, {"header": {"revision": "4"}, "count": "1"})))
        self.assertEqual((await log.is_empty(), await log.count()), (True, 3))

    async def test_a_log_of_which_an_entry_was_deleted_has_begun(self):
        log = await self.log(Node((200, {"header": {"revision": "3"}, "count": "0"})))
        self.assertFalse(await log.is_empty())

    async def test_a_watch_that_ends_goes_on_behind_what_was_read(self):
        first, second = Node([told(event(5, "a"))]), Node([told(event(6, "b"))])
        self.assertEqual(await self.watched(await self.log(first, second), 2), [b"5.0 a\n", b"6.0 b\n"])
        self.assertEqual(second.asked[0][1]["create_request"]["start_revision"], "6")

    async def test_a_door_that_lets_in_no_watch_is_left_for_a_while(self):
        """However well its member is: each way back would begin one more watch at another door, which has as few."""
        first, second = Node((429, {"error": "too many"}), *[(200, {})] * 4), Node([told(event(5, "a"))], *[(200, {})] * 2)
        log = await self.log(first, second)
        self.assertEqual(await self.watched(log, 1), [b"5.0 a\n"])
        self.assertEqual((await log.is_led(), log.turn, len(first.asked)), (True, 1, 1))
        log.back_at = 0.0
        self.assertEqual((await log.is_led(), log.turn), (True, 0))

    async def test_a_watch_may_end_inside_a_revision(self):
        """What was told of it alone is told again, with the rest."""
        cut = {"result": {"header": {}, "fragment": True, "events": [event(5, "a"), event(6, "b\nc")]}}
        second = Node([told(event(6, "b\nc"), event(7, "f"))])
        self.assertEqual(await self.watched(await self.log(Node([cut]), second), 4), [b"5.0 a\n", b"6.0 b\n", b"6.1 c\n", b"7.0 f\n"])
        self.assertEqual(second.asked[0][1]["create_request"]["start_revision"], "6")

    async def test_a_watch_is_begun_again_where_it_fails(self):
        for failure in [[b'{"error": {"message": "no leader"}}\n'], [{"result": {"canceled": True}}], [b"no JSON\n"], None,
                        [b'{"result": {"ev']]:
            with self.subTest(failure=failure):
                self.assertEqual(await self.watched(await self.log(Node(failure), Node([told(event(5, "a"))])), 1), [b"5.0 a\n"])

    async def test_a_silent_watch_is_left_where_its_node_fails(self):
        first, second = Node([told(event(5, "a")), "nothing"], NO_LEADER), Node([told(event(6, "b"))], DONE)
        log = await self.log(first, second)
        with mock.patch.object(etcd, "LOOK", 0.1):
            found = asyncio.ensure_future(self.watched(log, 2))
            while not first.asked:
                await asyncio.sleep(0.05)
            self.assertFalse(await log.is_led())
            self.assertEqual(await found, [b"5.0 a\n", b"6.0 b\n"])

    async def test_the_first_member_is_asked_again_as_soon_as_it_is_well(self):
        well = (200, {})
        first, second = Node(NO_LEADER, well, well), Node(well, well)
        log = await self.log(first, second)
        self.assertEqual([(await log.is_led(), log.turn) for _ in range(2)], [(False, 1), (True, 0)])
        self.assertEqual((len(first.asked), len(second.asked)), (3, 0))

    async def test_a_watch_that_is_silent_for_too_long_is_begun_again(self):
        first, second = Node([told(event(5, "a")), "nothing"]), Node([told(event(6, "b"))])
        with mock.patch.object(etcd, "QUIET", 0.3), mock.patch.object(etcd, "LOOK", 0.1):
            self.assertEqual(await self.watched(await self.log(first, second), 2), [b"5.0 a\n", b"6.0 b\n"])

    async def test_a_watch_ends_in_the_very_moment_in_which_it_tells(self):
        async def read(log: Log) -> None:
            async for _ in log._pieces("", mock.Mock(readany=mock.AsyncMock(side_effect=piece))):
                await asyncio.sleep(0)

        async def piece() -> bytes:
            await asyncio.sleep(0)
            return b"a"
        log = await self.log(Node())
        for steps in range(1, 9):
            work = asyncio.ensure_future(read(log))
            for _ in range(steps):
                await asyncio.sleep(0)
            work.cancel()
            done, _ = await asyncio.wait([work], timeout=0.5)
            work.cancel()
            self.assertTrue(done, steps)

    async def test_a_watch_that_does_not_begin(self):
        with mock.patch.object(etcd, "NODE_SECONDS", 0.5):
            self.assertEqual(await self.watched(await self.log(Node("nothing"), Node([told(event(5, "a"))])), 1), [b"5.0 a\n"])

    async def test_events_that_come_in_pieces(self):
        text = json.dumps(told(event(5, "a"))).encode() + b"\n"
        self.assertEqual(await self.watched(await self.log(Node([text[:7], text[7:20], text[20:]])), 1), [b"5.0 a\n"])

    async def test_what_is_no_event_loses_none(self):
        """What a member tells in a form that is none is asked of the next one, with what came beside it."""
        wrong: list = [{}, {"kv": {}}, {"kv": {"key": 7, "mod_revision": "6", "version": "1"}}, {"kv": {"mod_revision": "six"}}, 7, None]
        for it in wrong:
            with self.subTest(it=it):
                first, second = Node([told(event(5, "a"), it)]), Node([told(event(5, "a"), event(6, "b"))])
                self.assertEqual(await self.watched(await self.log(first, second), 2), [b"5.0 a\n", b"6.0 b\n"])
        for result in ([], 7, {"events": 7}, {"compact_revision": "x"}):
            with self.subTest(result=result):
                self.assertEqual(await self.watched(await self.log(Node([{"result": result}]), Node([told(event(5, "a"))])), 1), [b"5.0 a\n"])

    async def test_what_is_too_long_is_not_read(self):
        with mock.patch.object(etcd, "LONGEST", 1000):
            first, second = Node([b"x" * 2000]), Node([told(event(5, "a"))])
            self.assertEqual(await self.watched(await self.log(first, second), 1), [b"5.0 a\n"])
            self.assertTrue(await (await self.log(Node((200, {"succeeded": True, "more": "x" * 2000})), Node(DONE))).append("Maker/a", ["x"]))

    async def test_where_history_was_thrown_away_what_is_left_is_read_in_the_order_of_creation(self):
        gone: list = [{"result": {"canceled": True, "compact_revision": "7"}}]
        kvs = [{"key": base64_of(f"log/Maker/{name}"), "create_revision": revision} for name, revision in (("a", "9"), ("b", "4"), ("c", "11"))]
        keys = [{"header": {"revision": "10"}, "kvs": kvs[:2], "more": True}, {"header": {"revision": "11"}, "kvs": kvs[2:]}]
        # One of the two was made anew meanwhile: that tells the watch behind.
        left = [(200, {"kvs": [event(revision, text, key=f"log/Maker/{name}")["kv"]]}) for revision, text, name in ((4, "00", "b"), (12, "01", "a"))]
        node = Node(gone, (200, keys[0]), (200, keys[1]), *left, [told(event(11, "02"))])
        with contextlib.redirect_stdout(io.StringIO()) as said:
            self.assertEqual(await self.watched(await self.log(node), 2), [b"4.0 00\n", b"11.0 02\n"])
        self.assertRegex(said.getvalue(), "^warning: .* up to revision 7: .* left; 7 of its revisions left none, so somebody has deleted")
        asked = [body for _, body, _ in node.asked]
        self.assertEqual(base64.b64decode(asked[2]["key"]), b"log/Maker/b\0")
        self.assertEqual(asked[3:5], [{"key": base64_of("log/Maker/b")}, {"key": base64_of("log/Maker/a")}])
        self.assertEqual(asked[5]["create_request"]["start_revision"], "11")

    async def test_names_as_long_as_an_entry_count_for_nothing_and_hold_nobody_up(self):
        """They are left out of a watch, and of what is left: fewer are asked for at a time, and none of their entries."""
        long = event(5, "00", key="log/Shop/" + "a" * 200)
        gone: list = [{"result": {"canceled": True, "compact_revision": "7"}}]
        names = {"key": long["kv"]["key"], "create_revision": "5"}
        short = {"key": base64_of("log/Shop/b"), "create_revision": "6"}
        pages = [{"header": {"revision": "6"}, "kvs": [names], "more": True}, {"header": {"revision": "6"}, "kvs": [short]}]
        node = Node([told(long, event(6, "01"))], gone, (200, {"kvs": "x" * 2000}), "nothing", *((200, it) for it in pages),
                    (200, {"kvs": [event(6, "02", key="log/Shop/b")["kv"]]}))
        log = await self.log(node)
        self.assertEqual(await self.watched(log, 1), [b"6.0 01\n"])
        with mock.patch.multiple(etcd, LONGEST=1000, NODE_SECONDS=5.0), contextlib.redirect_stdout(io.StringIO()):
            self.assertEqual(await self.watched(log, 1), [b"6.0 02\n"])
        asked = [body for _, body, _ in node.asked]
        self.assertEqual([it["limit"] for it in asked[2:6]], [100, 12, 1, 2])
        self.assertEqual(asked[6], {"key": short["key"]})

    def left(self, *events: dict) -> list:
        """What a member tells that has thrown away its history, of which these are left."""
        keys = [{"key": it["kv"]["key"], "create_revision": it["kv"]["mod_revision"]} for it in events]
        values = Values({it["kv"]["key"]: it for it in events})
        return [[{"result": {"compact_revision": "7"}}], (200, {"header": {"revision": "7"}, "kvs": keys}), *[values] * len(events)]

    async def test_of_several_entries_of_one_revision_none_counts(self):
        """Whether a watch tells them in pieces or their keys are left. One whose name or value is too long is none of them."""
        events = [event(int(it[0]), text, key=f"log/Shop/{it}") for it, text in
                  {"4a": "02", "5z": "00", "5+": "01", "6l": "ff" * 2000, "6b": "03", "6" + "a" * 200: "00", "7a": "04"}.items()]
        pieces = [{"result": {"header": {}, "fragment": True, "events": it}} for it in (events[:2], events[2:3], events[3:6])]
        counts = [b"4.0 02\n", b"6.0 03\n", b"7.0 04\n"]
        with mock.patch.object(etcd, "LONGEST_VALUE", 1000), contextlib.redirect_stdout(io.StringIO()):
            for answers in ([[*pieces, told(events[6])]], self.left(*events)):
                self.assertEqual(await self.watched(await self.log(Node(*answers)), 3), counts)

    async def test_an_entry_that_is_longer_than_what_is_read_holds_nobody_up(self):
        """A member may take what others do not. It is told in a line alone; and asked for of all, once nothing else is left."""
        before, long, last = (event(number, text, key=f"log/Shop/{number}") for number, text in ((5, "aa"), (6, "ff" * 9000), (7, "bb")))
        counts = [b"5.0 aa\n", b"7.0 bb\n"]
        with mock.patch.multiple(etcd, LONGEST=4000, LONGEST_LINE=4000), contextlib.redirect_stdout(io.StringIO()):
            self.assertEqual(await self.watched(await self.log(Node([told(before), told(long), told(last)])), 2), counts)
            several = Node([told(before), told(long, last)]), Node([told(long), told(last)])
            self.assertEqual(await self.watched(await self.log(*several), 2), counts)
            nodes = Node(*self.left(before, long, last)), Node(*self.left(before, long, last)[2:]), Node(*[NO_LEADER] * 9)
            log = await self.log(*nodes)
            self.assertEqual((await self.watched(log, 2), "4000" in str(log.unread) or "MiB" in str(log.unread)), (counts, True))

    async def test_names_that_are_longer_than_what_is_read_hold_nobody_up(self):
        """Where they alone are left of what another member took: those that begin as they do are too long to count, too."""
        name, last = "log/Shop/" + "a" * 9000, event(7, "bb", key="log/Shop/b")
        long = 200, {"header": {"revision": "7"}, "kvs": [{"key": base64_of(name), "create_revision": "6"}]}
        rest = 200, {"header": {"revision": "7"}, "kvs": [{"key": last["kv"]["key"], "create_revision": "7"}]}
        node = Node([{"result": {"compact_revision": "7"}}], long, long, long, rest, (200, {"kvs": [last["kv"]]}))
        with mock.patch.object(etcd, "LONGEST", 4000), contextlib.redirect_stdout(io.StringIO()):
            self.assertEqual(await self.watched(await self.log(node), 1), [b"7.0 bb\n"])
        starts = [base64.b64decode(body["key"]) for _, body, _ in node.asked[1:5]]
        self.assertEqual(starts, [b"log/"] * 3 + [name[:203].encode() + b"b"])

    async def test_why_nothing_is_read(self):
        log = await self.log(Node(*[[b"no JSON\n"]] * 3, [told(event(5, "a"))]))
        self.assertEqual((await self.watched(log, 1), log.unread), ([b"5.0 a\n"], None))
        log = await self.log(Node(*[[b"no JSON\n"]] * 50))
        work = asyncio.ensure_future(self.watched(log, 1))
        while not log.unread:
            await asyncio.sleep(0.01)
        work.cancel()
        self.assertRegex(log.unread[1], "Expecting value")

    async def test_what_is_left_in_no_form_is_told(self):
        gone: list = [{"result": {"compact_revision": "7"}}]
        for answers in ([{}], [{"header": {"revision": "9"}, "kvs": [7]}],
                        [{"header": {"revision": "9"}, "kvs": [{"key": base64_of("log/"), "create_revision": "4"}], "more": True}] * 2,
                        [{"header": {"revision": "9"}, "kvs": [{"key": base64_of("log/a"), "create_revision": "4"}]}, {"kvs": [7]}]):
            with self.subTest(answers=answers), self.assertRaisesRegex(LogError, "tells what is no key or entry: "):
                await self.watched(await self.log(Node(gone, *((200, it) for it in answers))), 1)

    async def test_history_that_was_thrown_away_behind_what_was_read(self):
        node = Node([told(event(5, "a"))], [{"result": {"canceled": True, "compact_revision": "7"}}],
                    (200, {"header": {"revision": "8"}, "kvs": [{"key": base64_of("log/x"), "create_revision": it} for it in ("5", "6")]}),
                    (200, {"kvs": [event(6, "b")["kv"]]}))
        self.assertEqual(await self.watched(await self.log(node), 2), [b"5.0 a\n", b"6.0 b\n"])
        self.assertEqual(node.asked[3][1], {"key": base64_of("log/x")})


class Liars(Case):
    """A node of etcd may be anybody's program: nothing that it tells ends another way than a failure of etcd."""

    async def test_what_a_watch_tells(self):
        good = event(5, "a")
        for lie in ({}, [], 7, None, {"kv": None}, {"kv": {}}, {"kv": {**good["kv"], "key": 5}}, {"kv": {**good["kv"], "key": "a"}},
                    {"kv": {**good["kv"], "value": {}}}, {"kv": {**good["kv"], "mod_revision": "x"}}, {"kv": {**good["kv"], "mod_revision": None}},
                    {"kv": {**good["kv"], "mod_revision": "9" * 5000}}):
            with self.subTest(lie=str(lie)[:80]):
                self.assertEqual(await self.watched(await self.log(Node([told(lie)]), Node([told(good)])), 1), [b"5.0 a\n"])
        for line in ({"result": None}, {"result": []}, {"result": {"events": 5}}, {"result": {"events": {"a": 1}}}, {"result": {"compact_revision": "x"}},
                     b"[" * 100_000 + b"\n", b"\xff\n"):
            with self.subTest(line=str(line)[:80]):
                self.assertEqual(await self.watched(await self.log(Node([line]), Node([told(good)])), 1), [b"5.0 a\n"])

    async def test_a_line_and_an_answer_without_end(self):
        with mock.patch.multiple(etcd, LONGEST=1 << 20, LONGEST_LINE=1 << 20, ENDLESS=1 << 20):
            # Behind that it says nothing, for longer than a watch is waited for here.
            endless = [*[b"x" * (1 << 18)] * 8, "nothing"]
            self.assertEqual(await self.watched(await self.log(Node(endless), Node([told(event(5, "a"))])), 1), [b"5.0 a\n"])
            with self.assertRaisesRegex(LogError, "its answer has more than 1 MiB$"):
                await (await self.log(Node(*[endless] * 9))).append("Maker/a", ["x"], 0.0)

    async def test_a_revision_without_end(self):
        """However many entries it has, nearly nothing is kept of them."""
        cut = json.dumps({"result": {"fragment": True, "events": [event(5, "a" * 1000)]}}).encode() + b"\n"
        self.assertEqual(await self.watched(await self.log(Node([*[cut] * 9, told(event(6, "b"))])), 1), [b"6.0 b\n"])

    async def test_many_values(self):
        """What is short as bytes may be long in memory."""
        many = b"[" + b"[]," * 1000 + b"[]]"
        with mock.patch.object(etcd, "MOST_COMMAS", 900):
            self.assertEqual(await self.watched(await self.log(Node([many + b"\n"]), Node([told(event(5, "a"))])), 1), [b"5.0 a\n"])
            with self.assertRaisesRegex(LogError, "its answer has more than 900 commas$"):
                await (await self.log(Node((200, many.decode())))).append("Maker/a", ["x"], 0.0)

    async def test_nobody_is_sent_elsewhere(self):
        inner = Node(DONE)
        log = await self.log(inner)
        log.endpoints = [(await self.enterAsyncContext(Elsewhere(inner.url))).url]
        with self.assertRaisesRegex(LogError, "in 0 s: "):
            await log.append("Maker/a", ["x"], 0.0)
        self.assertEqual(inner.asked, [])

    async def test_what_is_read(self):
        for said in ({"kvs": 5}, {"kvs": [5]}, {"kvs": {"a": 1}}, {"kvs": [{"value": 5}]}, {"kvs": [{"value": "a"}]}):
            with self.assertRaisesRegex(LogError, "no answer of etcd$"):
                await (await self.log(Node((200, said)))).read("Maker/a")
        for said in ({}, {"header": []}, {"header": {}}, {"header": {"revision": "x"}}, {"header": {"revision": {}}}):
            with self.assertRaisesRegex(LogError, "no answer of etcd$"):
                await (await self.log(Node((200, said)))).is_empty()
        self.assertFalse(await (await self.log(Node((200, {}), (200, {"errors": {"a": []}})))).is_led())


@unittest.skipUnless(shutil.which("etcd"), "etcd is not installed")
class Real(unittest.IsolatedAsyncioTestCase):
    """A real node of etcd."""

    async def begin(self, *words: str) -> Log:
        log, = await self.begin_each(words)
        return log

    async def begin_each(self, *members: tuple[str, ...]) -> list[Log]:
        """Begins a member with each of these words, and the log of each."""
        with contextlib.ExitStack() as held:
            ports = [held.enter_context(socket.create_server(("127.0.0.1", 0))).getsockname()[1] for _ in range(2 * len(members))]
        urls = [f"http://127.0.0.1:{it}" for it in ports]
        cluster = ",".join(f"m{place}={url}" for place, url in enumerate(urls[1::2]))
        logs = [Log([url], "", "", None) for url in urls[::2]]
        for place, words in enumerate(members):
            url, peer, room = urls[2 * place], urls[2 * place + 1], self.enterContext(tempfile.TemporaryDirectory())
            words = ("--name", f"m{place}", "--data-dir", f"{room}/data", "--listen-client-urls", url, "--advertise-client-urls", url,
                     "--listen-peer-urls", peer, "--initial-advertise-peer-urls", peer, "--initial-cluster", cluster, "--unsafe-no-fsync",
                     "--logger", "zap", "--log-level", "fatal", *words)
            process = await asyncio.create_subprocess_exec("etcd", *words, stderr=asyncio.subprocess.DEVNULL)
            self.addAsyncCleanup(process.wait)
            self.addCleanup(process.kill)
            self.addAsyncCleanup(logs[place].close)
        async with asyncio.timeout(60):
            for log in logs:
                while not await log.is_led():
                    await asyncio.sleep(0.05)
        return logs

    async def test_one_revision_that_deletes_many_long_names(self):
        """Nothing of it counts, and it holds nobody up."""
        log = await self.begin()
        self.enterContext(mock.patch.object(etcd, "NODE_SECONDS", 20.0))
        for number in range(14):
            await log._ask("/v3/kv/put", {"key": base64_of(f"log/Shop/{number}/{'x' * 1_300_000}")}, 60)
        await log._ask("/v3/kv/deleterange", {"key": base64_of("log/Shop/"), "range_end": base64_of("log/Shop0")}, 60)
        await log.append("Maker/a", ["00"])
        async with asyncio.timeout(60):
            self.assertEqual([[it.name for it in entries] async for entries in first(log.watch())], [[b"Maker/a"]])

    async def test_what_another_member_takes_holds_nobody_up(self):
        """One entry of 18 MB, and twenty in one request: by history, and by the keys that are left."""
        log, other = await self.begin_each((), ("--max-request-bytes", "200000000", "--max-txn-ops", "100"))
        self.enterContext(mock.patch.object(etcd, "NODE_SECONDS", 20.0))
        await other._ask("/v3/kv/put", {"key": base64_of("log/Shop/long"), "value": base64_of("x" * 18_000_000)}, 60)
        puts = [{"request_put": {"key": base64_of(f"log/Shop/{it}"), "value": base64_of("x" * 1_000_000)}} for it in range(20)]
        await other._ask("/v3/kv/txn", {"success": puts}, 60)
        await log.append("Maker/a", ["00"])
        async with asyncio.timeout(60):
            self.assertEqual([[it.name for it in entries] async for entries in first(log.watch())], [[b"Maker/a"]])
        await log._ask("/v3/kv/compaction", {"revision": "4"}, 60)
        with contextlib.redirect_stdout(io.StringIO()):
            async with asyncio.timeout(60):
                self.assertEqual([[it.name for it in entries] async for entries in first(log.watch())], [[b"Maker/a"]])

    async def test_at_its_quota_it_takes_nothing_and_says_so(self):
        log = await self.begin("--quota-backend-bytes", "300000")
        with self.assertRaisesRegex(LogError, "^etcd refuses: etcdserver: mvcc: database space exceeded$"):
            for number in range(100):
                await log.append(f"Maker/{number}", ["x" * 60_000])
        self.assertFalse(await log.is_led())
        self.assertIn("etcd has used up its space", log.why)
        self.assertEqual(len(await log.read("Maker/1") or ""), 60_000)


class Events(unittest.TestCase):
    def test_only_the_first_version_of_a_key_counts(self):
        events = [event(7, "00\nff"), event(7, "0a"), event(8, "0b", 2), event(9, "", type="DELETE"), event(10, "")]
        found = [(it.revision, it.name, it.value) for it in entries(events)]
        self.assertEqual(found, [(7, b"Maker/x", b"00\nff"), (7, b"Maker/x", b"0a"), (10, b"Maker/x", b"")])


if __name__ == "__main__":
    unittest.main()
