"""The API: each route stands in the documents, asks for a right, and tells what is wrong with a request."""
import asyncio
import collections
import contextlib
import io
import json
import re
import time
import unittest
from typing import Any
from unittest import mock

import aiohttp
import support
from aiohttp import web
from aiohttp.test_utils import TestClient, TestServer
from regtuma import api, config, gateway, load, numbers, pace, page, ticks, wire
from regtuma.chain import Awaited, Chain
from regtuma.endorsing import Endorsing
from regtuma.entries import Lines
from regtuma.fields import RIGHTS
from regtuma.filters import FilterEnded, TooLong
from regtuma.gateway import Gateway
from regtuma.proposals import Refused
from test_chain import CALL, LAST_BLOCK, FakeLog, Says, Times

ROW = re.compile(r"^- `(GET|POST|DELETE) (/[^`?\s]*)`", re.MULTILINE)
EMPTY: dict[str, Any] = {"setting": {"ledger": 1}, "members": {"serial": 0}, "get": None, "range": [], "history": [],
                         "transaction": None, "call": {"result": "00"}}


class Query(Says):
    """A peer that answers each question by what a test says, or by nothing."""

    def __init__(self, *lines: str, **answers):
        super().__init__(*lines, height=4)
        self.answers: dict[str, Any] = {**EMPTY, **answers}
        self.asked: list[tuple[str, dict]] = []

    async def ask_for(self, what, **question):
        self.asked.append((what, question))
        return self.answers[what], 4

    async def text_of(self, what, **question):
        if what == "block":
            return json.dumps({"block": question["number"], "txs": [{"chaincode": "assets", "id": "ab"}, {"amend": {}}]}), 4
        self.asked.append((what, question))
        return json.dumps(self.answers[what]), 4


class Case(unittest.IsolatedAsyncioTestCase):
    async def asyncSetUp(self):
        folder = support.Folder()
        self.addCleanup(folder.close)
        self.config = folder.config(('read = ["Maker/*"]', "\n".join(f'{it} = ["Maker/alice", "*/node"]' for it in RIGHTS)))
        self.config.ledger.template = str(support.ROOT / "examples/page/template.html")
        self.said: list[str] = []
        self.chain = Chain(self.config, FakeLog(), self.said.append)
        self.chain.times, self.chain.peer, self.chain.height, self.chain.awaited = Times(), Query(), 4, Awaited(5)
        endorsing = Endorsing(self.config, self.chain)
        with mock.patch.object(config.Config, "node_tls", return_value=None):
            gateway = Gateway(self.config, self.chain, endorsing)
        self.addAsyncCleanup(gateway.close)
        self.api = api.Api(self.config, self.chain, endorsing, gateway, {"lines": 2})
        self.api.access.caller = lambda request: request.headers.get("Caller")
        self.client = await self.serve(self.api.app())

    async def serve(self, app) -> TestClient:
        return await self.enterAsyncContext(TestClient(TestServer(app)))

    async def ask(self, method: str, path: str, client=None, caller: str | None = "Maker/alice", **more) -> tuple[int, object]:
        headers = {**({"Caller": caller} if caller else {}), **more.pop("headers", {})}
        async with (client or self.client).request(method, path, headers=headers, **more) as said:
            text = await said.text()
            return said.status, json.loads(text) if said.content_type == "application/json" else text

    async def get(self, path: str, **more) -> tuple[int, object]:
        return await self.ask("GET", path, **more)

    async def post(self, path: str, body, **more) -> tuple[int, object]:
        return await self.ask("POST", path, json=body, **more)


class Routes(Case):
    def routes(self) -> set[tuple[str, str]]:
        return {(method, re.sub(r"{(\w+)[^}]*}", lambda it: it[1].upper(), path).replace("NUMBER", "N"))
                for method, path, _, _ in [*self.api.reads(), *self.api.calls()]}

    async def test_each_stands_in_the_documents(self):
        """One page lists exactly these routes, each once."""
        lists = [ROW.findall(it.read_text(encoding="utf-8")) for it in (support.ROOT / "docs").glob("*.md")]
        self.assertEqual([sorted(it) for it in lists if it], [sorted(self.routes())])

    async def test_each_needs_a_right(self):
        for method, path, right, _ in [*self.api.reads(), *self.api.calls()]:
            self.assertIn(right, RIGHTS)
            status, said = await self.ask(method, re.sub("{.*}", "1", path), caller="Shop/alice")
            self.assertEqual((status, said["why"]), (403, f"Shop/alice may not {right}"), path)

    async def test_who_shows_no_certificate_may_nothing(self):
        self.config.rights["read"] = ["*/*"]
        self.assertEqual(await self.get("/height", caller=None), (403, {"why": "no certificate may not read"}))

    async def test_a_post_has_the_type_of_json(self):
        for path in ("/transactions", "/endorse", "/evaluate", "/agreed"):
            status, said = await self.ask("POST", path, data="{}", headers={"Content-Type": "text/plain"})
            self.assertEqual((status, said["why"]), (415, "a request has the type application/json"))

    async def test_the_type_of_a_body_is_no_work(self):
        """aiohttp takes 39 ms of the loop for a header of 8 KB."""
        def parsed(_) -> str:
            raise AssertionError
        with mock.patch.object(web.BaseRequest, "content_type", property(parsed)):
            for kind, status in (("application/json", 400), ("Application/JSON ; charset=x", 400), (f'application/json;"{";" * 8000}', 400),
                                 ("text/plain", 415), ("text/plain; application/json", 415), ("application/jsonx", 415), ("", 415)):
                said = await self.ask("POST", "/evaluate", data="{", headers={"Content-Type": kind})
                self.assertEqual(said[0], status, kind[:40])

    async def test_what_is_no_request(self):
        self.assertEqual((await self.get("/nothing"))[0], 404)
        # OPTIONS is what a browser asks before it sends JSON for a foreign page, which needs a yes.
        for method in ("DELETE", "OPTIONS"):
            self.assertEqual((await self.ask(method, "/transactions"))[0], 405)
        for body, told in (("[1]", "the body is a JSON object"), ("{", "the body is no JSON"), ("", "the body is no JSON"),
                           ("[" * 100_000, "the body is no JSON")):
            status, said = await self.ask("POST", "/transactions", data=body, headers={"Content-Type": "application/json"})
            self.assertEqual((status, said["why"]), (400, told))
        status, _ = await self.ask("POST", "/transactions", data=io.BytesIO(b"1" * (api.BODY + 1)), headers={"Content-Type": "application/json"})
        self.assertEqual(status, 413)

    async def test_a_filter_that_ends_is_told(self):
        self.chain.peer.text_of = mock.AsyncMock(side_effect=FilterEnded("ledger peer ended with status 1"))
        self.assertEqual(await self.get("/members"), (503, {"why": "ledger peer ended with status 1"}))


class Lost(Case):
    """A block that the store does not give back."""

    async def asyncSetUp(self):
        await super().asyncSetUp()
        self.chain.peer.text_of = mock.AsyncMock(side_effect=Refused(503, numbers.in_words("refused 702 block 1")))
        self.chain.peer.ask_for = self.chain.peer.text_of

    async def test_who_asks_for_it_is_told(self):
        told = (503, {"refused": 702, "why": "the store is damaged (block 1)"})
        for path in ("/blocks/1", "/blocks", "/history/a", f"/transactions/{'ab' * 32}"):
            self.assertEqual(await self.get(path), told)
        call = {"chaincode": "assets", "args": ["x"], "nonce": "07" * 16}
        self.assertEqual(await self.post("/transactions", call), told)
        self.assertEqual(await self.post("/transactions", {"calls": [call]}), (200, {"answers": [{"status": 503, **told[1]}]}))
        self.assertEqual(await self.get("/height"), (200, {"height": 4}))

    async def test_a_stream_ends_and_the_block_is_asked_for_anew(self):
        async with self.client.get("/events?from=1", headers={"Caller": "Maker/alice"}) as stream:
            with self.assertRaises(aiohttp.ClientError):
                await stream.content.read()
        self.chain.peer.text_of = Query().text_of
        self.assertEqual((await self.get("/blocks/1"))[0], 200)

    async def test_it_is_wrong_and_counted(self):
        self.chain.peer.lost, self.chain.peer.why_lost = 2, "refused 702 block 1: the store is damaged"
        status, said = await self.get("/healthz")
        self.assertEqual((status, said["wrong"][0].partition(":")[0]), (503, f"2 blocks were not read back from {self.config.ledger.store}, the last"))
        self.assertIn("\nregtuma_lost 2.0\n", (await self.get("/metrics"))[1])


class Reads(Case):
    async def test_of_the_chain(self):
        self.assertEqual(await self.get("/height"), (200, {"height": 4}))
        self.assertEqual(await self.get("/setting"), (200, {"ledger": 1}))
        self.assertEqual(await self.get("/members"), (200, {"serial": 0}))
        status, block = await self.get("/blocks/4")
        self.assertEqual((status, block["block"], block["at"]), (200, 4, 1.5))
        self.assertEqual(await self.get("/blocks/5"), (404, {"why": "there is none", "height": 4}))
        for it in ("0", "4000000001", "x", "-1"):
            self.assertEqual((await self.get(f"/blocks/{it}"))[0], 400)
        lines = (await self.get("/blocks?from=2&to=3"))[1].splitlines()
        self.assertEqual([json.loads(it)["block"] for it in lines], [2, 3])
        self.assertEqual(await self.get("/blocks?from=9"), (200, ""))

    async def test_of_the_state(self):
        self.chain.peer.answers["get"] = {"key": "61", "value": "00", "version": "1.0"}
        self.assertEqual((await self.get("/state/asset%2Fa%FF"))[0], 200)
        self.assertEqual(self.chain.peer.asked[-1], ("get", {"key": b"asset/a\xff".hex()}))
        self.assertEqual((await self.get("/state/asset/a"))[0], 200)
        self.assertEqual(self.chain.peer.asked[-1], ("get", {"key": b"asset/a".hex()}))
        self.assertEqual(await self.get("/state/" + "a" * 65), (400, {"why": "a key has 1 to 64 bytes"}))
        self.assertEqual(await self.get("/state?start=a&end=0xff&limit=9"), (200, {"entries": [], "height": 4}))
        self.assertEqual(self.chain.peer.asked[-1], ("range", {"start": "61", "end": "ff", "limit": 9}))
        for it in ("start=0xz", "limit=0", "limit=1001", "height=x"):
            self.assertEqual((await self.get(f"/state?{it}"))[0], 400)
        self.assertEqual(await self.get("/history/a"), (200, []))

    async def test_a_history_comes_in_parts(self):
        """Whole, also where a part is too long for one answer, and where the chain grows meanwhile."""
        asked: list[tuple[int, int]] = []

        async def text_of(what, key, blocks, **question):
            asked.append((question["from"], blocks))
            if blocks > 8 and question["from"] > 16:
                raise TooLong("too long")
            height = 40 if len(asked) < 3 else 41
            part = [it for it in range(question["from"], question["from"] + blocks) if it <= height]
            return json.dumps([{"key": key, "block": it} for it in part if it != 17]), height
        self.chain.peer.text_of = text_of
        wanted = [{"key": "61", "block": it} for it in range(1, 42) if it != 17]
        self.assertEqual(await self.get("/history/a"), (200, wanted))
        self.assertEqual(asked, [(1, 16), (17, 16), (17, 8), (25, 8), (33, 8), (41, 8)])
        with mock.patch.object(self.chain.peer, "text_of", side_effect=TooLong("too long")):
            self.assertEqual(await self.get("/history/a"), (422, {"why": "too long"}))

    async def test_past_65_535_blocks(self):
        for height in (65_536, 70_000, ticks.LAST_BLOCK):
            self.chain.height = height
            self.assertEqual(await self.get("/height"), (200, {"height": height}))
            status, block = await self.get(f"/blocks/{height}")
            self.assertEqual((status, block["block"]), (200, height))
            lines = (await self.get(f"/blocks?from={height - 1}&to={ticks.LAST_BLOCK}"))[1].splitlines()
            self.assertEqual([json.loads(it)["block"] for it in lines], [height - 1, height])
            for words, last in ((f"?from={height - 1}", None), ("", str(height - 2))):
                headers = {"Caller": "Maker/alice", **({"Last-Event-ID": last} if last else {})}
                async with self.client.get(f"/events{words}", headers=headers) as stream:
                    text = "".join([(await stream.content.readline()).decode() for _ in range(8)])
                self.assertEqual(re.findall(r"id: (\d+)\nevent", text), [str(height - 1), str(height)])
            self.assertEqual((await self.get(f"/state?height={height}"))[0], 200)
            self.assertIn(f'\n{{"at":1.5,"block": {height},', (await self.get("/"))[1])

    async def test_a_height_is_waited_for(self):
        with mock.patch.object(Chain, "at_least", return_value=False):
            self.assertEqual((await self.get("/state/a?height=9"))[0], 503)

    async def test_of_a_transaction(self):
        id = "ab" * 32
        self.assertEqual(await self.get(f"/transactions/{id}?wait=0.1"), (404, {"id": id, "pending": True, "why": "it is in no block"}))
        self.assertEqual(await self.get("/transactions/ab"), (400, {"why": "an id is hex of 32 bytes"}))
        self.assertEqual((await self.get(f"/transactions/{id}?wait=nan"))[0], 400)
        asked = asyncio.ensure_future(self.get(f"/transactions/{id.upper()}?wait=5"))
        while id not in self.chain.waiters:
            await asyncio.sleep(0.01)
        self.chain.resolve(id, {"id": id, "block": 5, "place": 0, "flag": 4, "result": ""})
        said = (await asked)[1]
        self.assertEqual((said["valid"], said["why"]), (False, "its id stands earlier in the chain"))
        self.assertEqual(self.chain.waiters, {})

    async def test_events(self):
        headers = {"Caller": "Maker/alice", "Last-Event-ID": "2"}
        async with self.client.get("/events?chaincode=assets", headers=headers) as stream:
            text = "".join([(await stream.content.readline()).decode() for _ in range(8)])
        events = re.findall(r"id: (\d+)\nevent: block\ndata: (.*)\n\n", text)
        self.assertEqual([(int(number), json.loads(data)["block"], len(json.loads(data)["txs"])) for number, data in events],
                         [(3, 3, 1), (4, 4, 1)])
        self.assertEqual((await self.get("/events?from=0"))[0], 400)
        self.assertEqual((await self.get("/events", headers={"Last-Event-ID": "x"}))[0], 400)

    async def test_a_block_is_looked_into_for_one_reader_at_a_time(self):
        """The loop is for others in between: there are many readers, and long blocks."""
        happened = list[str]()

        def chosen(line: str, _) -> str:
            happened.append("chosen")
            return line

        async def turn() -> None:
            while happened.count("chosen") < 9:
                happened.append("turn")
                await asyncio.sleep(0)
        with mock.patch.object(api, "chosen", chosen):
            await asyncio.gather(turn(), *(self.api.choose("{}", "assets") for _ in range(9)))
        self.assertNotIn("chosen chosen", " ".join(happened))

    async def test_a_stream_ends_with_the_right_to_it(self):
        async with self.client.get("/events?from=4", headers={"Caller": "Maker/alice"}) as stream:
            self.assertEqual(await stream.content.readline(), b"id: 4\n")
            self.config.rights["read"] = []
            await self.chain.committed(5)
            self.assertNotIn(b"id: 5", await stream.content.read())

    async def test_the_page(self):
        self.chain.peer.answers["setting"] = {"ledger": "</script><b>"}
        status, text = await self.get("/")
        self.assertEqual((status, "new EventSource(" in text, "</script><b>" in text, "\\u003c/script>" in text), (200, True, False, True))
        for template, told in [(support.ROOT / "VERSION", "the template of the page is none"), (support.ROOT / "none", "No such file")]:
            self.config.ledger.template = str(template)
            status, said = await self.get("/")
            self.assertEqual((status, told in said["why"]), (503, True))
        self.config.ledger.template = ""
        self.assertEqual((await self.get("/"))[0], 404)

    async def test_a_policy_of_the_page(self):
        *_, policy = page.live((support.ROOT / "examples/page/template.html").read_text(), "Maker")
        self.assertIn("connect-src 'self'; script-src 'sha256-", policy)
        with self.assertRaises(ValueError):
            page.live("<html>", "Maker")


class Health(Case):
    async def test_it_does_its_work(self):
        status, said = await self.get("/healthz")
        self.assertEqual((status, said["ok"], said["wrong"], said["height"], said["program"]), (200, True, [], 4, {"lines": 2}))

    async def test_what_is_wrong(self):
        for told, changes in [("forked: Shop says", {"forked": "Shop says that it has another block 4"}),
                              ("envelopes wait, and no tick comes", {"awaited": Awaited(5, 1, -1e6)}),
                              ("the log could take no entry for", {"led": -1e6}), ("20000 lines of the log are unread", {"given": 20000}),
                              ("the store has 4 blocks, and the log has given 1", {"awaited": Awaited(2), "made_at": -1e6}),
                              ("the chain is full", {"awaited": Awaited(LAST_BLOCK + 1)})]:
            with self.subTest(told=told), contextlib.ExitStack() as changed:
                for name, value in changes.items():
                    changed.enter_context(mock.patch.object(self.chain, name, value))
                status, said = await self.get("/healthz")
                self.assertEqual((status, said["ok"], said["wrong"][0][:len(told)]), (503, False, told))

    async def test_why_etcd_has_no_majority(self):
        self.chain.led = -1e6
        self.assertRegex((await self.get("/healthz"))[1]["wrong"][0], r"^the log could take no entry for \d+ s: no leader$")

    async def test_what_people_should_know(self):
        self.chain.height, self.api.endorsing.out_of_place = LAST_BLOCK - 9, "refused 806"
        status, said = await self.get("/healthz")
        self.assertEqual((status, said["warnings"]), (200, ["nothing is endorsed: refused 806", "the chain has 9 blocks left, and this organisation's share of these is 9"]))

    async def test_whose_calls_the_ticks_were_for(self):
        self.chain.counts["ticks"], self.chain.ticked = 1010, collections.Counter({"Maker/bob": 20, "Maker/alice": 1000})
        said = "this organisation is ahead of its plan, so it asks for a block after 700 s: 9 blocks of its share are left"
        with mock.patch.object(ticks.Ticks, "warning", return_value=said):
            self.assertEqual((await self.get("/healthz"))[1]["warnings"],
                             [f"{said}; calls of Maker/alice waited for 1,000 of the 1,010 ticks since this node began"])
        self.assertIn('regtuma_ticks_total{caller="Maker/alice"} 1000.0', (await self.get("/metrics"))[1])

    async def test_a_log_of_many_entries(self):
        self.chain.entries = 312_000
        self.assertEqual((await self.get("/healthz"))[1]["warnings"], ["the log has 312,000 entries, so that a node takes minutes to start: renew it"])
        self.assertIn("\nregtuma_log_entries 312000.0\n", (await self.get("/metrics"))[1])

    async def test_waiting_is_measured_by_a_clock_that_never_goes_back(self):
        self.chain.awaited = Awaited(5, 1, time.monotonic() - 3)
        for now in (0.0, 1e12):
            with mock.patch("time.time", return_value=now):
                self.assertEqual((self.chain.is_due(time.monotonic()), self.api.wrong()), (True, []))
                self.assertRegex(self.api.metrics.text().decode(), r"\nregtuma_oldest_seconds [3-9]\.\d+\n")

    async def test_metrics(self):
        await self.get("/height")
        self.chain.counts["flag 0"] += 7
        text = (await self.get("/metrics"))[1]
        for line in ("regtuma_height 4.0", f"regtuma_blocks_left {LAST_BLOCK - 4}.0", 'regtuma_counted_total{what="flag 0"} 7.0',
                     'regtuma_requests_total{route="/height",status="200"} 1.0'):
            self.assertIn(line, text)

    async def test_metrics_of_a_long_chain_are_whole_numbers(self):
        self.chain.ticks, self.chain.lines = ticks.Ticks(last=ticks.LAST_BLOCK), Lines(last=ticks.LAST_BLOCK)
        for height in (65_536, 70_001, ticks.LAST_BLOCK - 1):
            self.chain.height = height
            text = (await self.get("/metrics"))[1]
            found = {name: float(value) for name, value in re.findall(r"^regtuma_(height|blocks_left|share_left) (\S+)$", text, re.MULTILINE)}
            self.assertEqual(found, {"height": height, "blocks_left": ticks.LAST_BLOCK - height, "share_left": 3_000_000_000})


class Calls(Case):
    async def test_evaluate(self):
        self.assertEqual(await self.post("/evaluate", {"chaincode": "assets", "args": ["x"]}), (200, {"result": "00", "height": 4}))
        self.chain.peer.answers["call"] = {"refused": "404 status 2"}
        self.assertEqual(await self.post("/evaluate", {"chaincode": "assets"}),
                         (422, {"refused": 404, "why": "the chaincode refused the call (status 2)"}))

    async def test_so_many_simulations_are_made_for_one_caller(self):
        """So that those of others do not wait behind all of its own."""
        begun, ready, body = [], asyncio.Event(), {"chaincode": "assets", "args": ["x"]}

        async def evaluate(*_) -> dict:
            begun.append(1)
            await ready.wait()
            return {}
        with mock.patch.object(Gateway, "evaluate", evaluate), mock.patch.object(Endorsing, "answers", evaluate):
            asked = [asyncio.ensure_future(self.post("/evaluate", body)) for _ in range(load.OF_CALLER + 3)]
            asked += [asyncio.ensure_future(self.post("/endorse", {"proposals": [CALL]})) for _ in range(3)]
            others = [asyncio.ensure_future(self.post(*it, caller="Carrier/node")) for it in
                      (("/evaluate", body), ("/endorse", {"proposals": [CALL]}))]
            while len(begun) < load.OF_CALLER + len(others):
                await asyncio.sleep(0.01)
            await asyncio.sleep(0.1)
            self.assertEqual(len(begun), load.OF_CALLER + len(others))
            ready.set()
            self.assertEqual([it[0] for it in await asyncio.gather(*asked, *others)], [200] * len(asked + others))

    async def test_endorse(self):
        self.chain.peer.lines = ["endorsed aa 01"]
        said = await self.post("/endorse", {"proposals": [CALL], "height": 4}, caller="Carrier/node")
        self.assertEqual(said, (200, {"answers": [{"payload": "aa", "endorsement": "01", "height": 4}]}))
        for body in ({}, {"proposals": []}, {"proposals": [1]}, {"proposals": [CALL], "height": "4"}, {"proposals": [{**CALL, "x": 1}]},
                     {"proposals": [CALL] * (api.MOST_CALLS + 1)}):
            self.assertEqual((await self.post("/endorse", body))[0], 400)

    async def test_answers_to_proposals_are_counted_as_they_come(self):
        """Those that have no room are not made: an answer has up to a megabyte, and there may be 500."""
        made = list[int]()

        async def answer_to(*_) -> tuple[str, int]:
            made.append(1)
            await asyncio.sleep(0)
            return f"endorsed {'aa' * 20_000} 01", 4
        with mock.patch.object(load, "BODIES", 1 << 20), mock.patch.object(self.chain.peer, "answer_to", answer_to):
            status, said = await self.post("/endorse", {"proposals": [CALL] * 500}, caller="Carrier/node")
            self.assertEqual((status, said["why"]), (429, "requests of Carrier have 1 MiB under way here: ask again"))
            self.assertLess(len(made), 100)
            status, said = await self.post("/endorse", {"proposals": [CALL] * 20}, caller="Carrier/node")
            self.assertEqual((status, len(said["answers"])), (200, 20))
        self.assertEqual(self.api.access.load.bodies["Carrier"], 0)

    async def test_one_caller_leaves_room_for_bodies_of_others(self):
        """However many it sends, and does not end."""
        body = {"chaincode": "assets", "args": ["a" * 1000]}
        ready, begun = asyncio.Event(), []

        async def pieces():
            yield b"x" * 900_000
            begun.append(1)
            await ready.wait()
            yield b"x"
        with mock.patch.object(load, "BODIES", 4 << 20):
            more = {"headers": {"Content-Type": "application/json"}}
            slow = {"headers": {"Content-Type": "application/json", "Content-Length": "900001"}}
            many = [asyncio.ensure_future(self.ask("POST", "/evaluate", data=pieces(), **slow)) for _ in range(4)]
            while len(begun) < 4:
                await asyncio.sleep(0.01)
            while self.api.access.load.bodies["Maker"] < 3_600_000:
                await asyncio.sleep(0.01)
            status, said = await self.ask("POST", "/evaluate", data=b"x" * 700_000, **more)
            self.assertEqual((status, said["why"]), (429, "requests of Maker have 4 MiB under way here: ask again"))
            self.config.rights["evaluate"].append("Maker/bob")
            self.assertEqual((await self.post("/evaluate", body, caller="Maker/bob"))[0], 200)
            status, _ = await self.ask("POST", "/evaluate", data=b"x" * 700_000, caller="Maker/bob", **more)
            self.assertEqual(status, 400)
            ready.set()
            self.assertEqual([it[0] for it in await asyncio.gather(*many)], [400] * 4)
        load_now = self.api.access.load
        self.assertEqual((load_now.bodies["Maker"], load_now.of_callers["Maker/alice"]), (0, 0))

    async def test_submit(self):
        with mock.patch.object(Gateway, "submit", side_effect=[{"id": "ab", "pending": True}, {"id": "ab"}, {"id": "a"}, {"id": "b"}]):
            self.assertEqual((await self.post("/transactions", CALL))[0], 202)
            self.assertEqual(await self.post("/transactions?wait=5", CALL), (200, {"id": "ab"}))
            self.assertEqual(await self.post("/transactions", {"calls": [CALL, CALL]}), (200, {"answers": [{"id": "a"}, {"id": "b"}]}))
        for body in ({"calls": []}, {"calls": [CALL], "wait": 1}, {"calls": [CALL] * (api.MOST_CALLS + 1)}, {"chaincode": 1}):
            self.assertEqual((await self.post("/transactions", body))[0], 400)

    async def test_one_caller_has_so_many_calls_under_way(self):
        """Also where it does not wait for them."""
        calls, ready = [{"chaincode": "assets", "args": [str(it)], "nonce": f"{it:032x}"} for it in range(4)], asyncio.Event()
        with mock.patch.object(gateway, "MOST_OF_CALLER", 2), mock.patch.object(Gateway, "endorse_and_put", lambda *_: ready.wait()):
            said = [await self.post("/transactions?wait=0.01", it) for it in calls[:3]]
            self.assertEqual([it[0] for it in said], [202, 202, 429])
            self.assertIn("2 calls of Maker/alice are under way here: ask again", said[2][1]["why"])
            self.assertEqual((await self.post("/transactions?wait=0.01", calls[3], caller="Shop/node"))[0], 202)
            ready.set()
            await asyncio.sleep(0)
            self.assertEqual((await self.post("/transactions?wait=0.01", calls[2]))[0], 202)

    async def test_one_caller_waits_for_so_many_calls(self):
        """Also for one and the same, which is in the log and in no block."""
        call = {"chaincode": "assets", "args": ["x"], "nonce": "07" * 16}
        id, many = wire.id_of({**call, "arg": b"x".hex()}), self.api.gateway.waiting
        self.chain.in_log[id] = "Maker/alice"
        with mock.patch.object(gateway, "MOST_OF_CALLER", 3), mock.patch.object(gateway, "MOST_UNDER_WAY", 4):
            asked = asyncio.ensure_future(self.post("/transactions", {"calls": [call] * 5}))
            other = asyncio.ensure_future(self.post("/transactions", call, caller="Shop/node"))
            while many.total() < 4:
                await asyncio.sleep(0.01)
            status, said = await self.post("/transactions", call, caller="Carrier/node")
            self.assertEqual((status, said["why"]), (503, "4 calls are under way here: ask again"))
            self.chain.resolve(id, {"id": id, "block": 5, "place": 0, "flag": 0, "result": ""})
            answers = [it.get("valid") or it["why"] for it in (await asked)[1]["answers"]]
            self.assertEqual((answers.count(True), (await other)[1]["valid"]), (3, True))
        self.assertEqual((answers.count("3 calls of Maker/alice are under way here: ask again"), many.total()), (2, 0))

    async def test_one_caller_has_so_many_bytes_in_the_log(self):
        """Its space is that of all organisations."""
        calls = [{"chaincode": "assets", "args": [str(it)], "nonce": f"{it:032x}"} for it in range(4)]
        made, fits = mock.AsyncMock(return_value="a" * 1500), mock.AsyncMock()
        with mock.patch.multiple(pace, BYTES=4, BYTES_AT_ONCE=4000), mock.patch.multiple(Gateway, endorsed=made, check_size=fits):
            self.assertEqual([(await self.post("/transactions?wait=0.1", it))[0] for it in calls[:2]], [202, 202])
            status, said = await self.post("/transactions?wait=0.1", calls[2])
            self.assertEqual(status, 429)
            self.assertRegex(said["why"], r"^calls of Maker/alice have had their part of the log's bytes: ask again in [45]\d\d s$")
            self.assertEqual((await self.post("/transactions?wait=0.1", calls[3], caller="Shop/node"))[0], 202)
        self.assertIn('regtuma_put_bytes_total{caller="Maker/alice"} 3000.0', (await self.get("/metrics"))[1])

    async def test_one_caller_has_so_many_known_calls_looked_for(self):
        """Each may look through the whole chain: those of others do not wait behind all of its own."""
        asked, ready, call = list[str](), asyncio.Event(), {"chaincode": "assets", "args": ["x"], "nonce": "07" * 16}

        async def ask_for(what, **question):
            asked.append(what)
            await ready.wait()
            return {"id": question["id"], "block": 1, "place": 0, "flag": 0, "result": ""}, 4
        with mock.patch.object(self.chain.peer, "ask_for", ask_for), mock.patch.object(gateway, "MOST_OF_CALLER", 300):
            many = [asyncio.ensure_future(self.post("/transactions", {"calls": [call] * 250})) for _ in range(3)]
            while len(asked) < gateway.LOOKED_FOR:
                await asyncio.sleep(0.01)
            await asyncio.sleep(0.2)
            self.assertEqual(asked, ["transaction"] * gateway.LOOKED_FOR)
            other = asyncio.ensure_future(self.post("/transactions", call, caller="Shop/node"))
            while len(asked) <= gateway.LOOKED_FOR:
                await asyncio.sleep(0.01)
            ready.set()
            self.assertEqual((await other)[1]["valid"], True)
            answers = [it for said in await asyncio.gather(*many) for it in said[1]["answers"]]
        told = [it.get("valid") or it["why"] for it in answers]
        self.assertEqual({it: told.count(it) for it in told}, {True: 300, "300 calls of Maker/alice are under way here: ask again": 450})

    async def test_agree(self):
        change = {"members": [{"name": "Maker"}], "policy": "'Maker'", "serial": 1, "nonce": "07" * 16}
        self.api.chain.peer.answers["members"] = {"members": [{"name": "Maker"}]}
        status, said = await self.post("/agreed", change)
        self.assertEqual((status, await self.get("/agreed")), (200, (200, {"agreed": [said]})))
        self.assertIn("the members are Maker; the policy for changes is 'Maker'", said["words"])
        self.assertIn(f"Maker/alice agrees to {said['id']}", self.said[0])
        self.assertEqual((await self.post("/agreed", CALL))[0], 400)
        for status in (200, 404):
            self.assertEqual((await self.ask("DELETE", f"/agreed/{said['id']}"))[0], status)
        self.assertEqual(((await self.get("/agreed"))[1], self.said[1]), ({"agreed": []}, f"Maker/alice agrees no more to {said['id']}"))

    async def test_who_asks_is_known_behind_the_end_of_its_connection(self):
        """The certificate is asked for once, when the right is: a connection that has ended has none."""
        change = {"members": [{"name": "Maker"}], "policy": "'Maker'", "serial": 1, "nonce": "07" * 16}
        self.api.chain.peer.answers["members"] = {"members": []}
        self.api.access.caller = mock.Mock(side_effect=["Maker/alice", None])
        status, said = await self.post("/agreed", change)
        self.assertEqual((status, self.said[0].startswith(f"Maker/alice agrees to {said.get('id')}: ")), (200, True), self.said)


class Loopback(Case):
    async def test_it_only_reads_and_is_asked_by_its_own_names(self):
        client = await self.serve(self.api.page_app())
        for host in ("127.0.0.1", "127.7.7.7:8080", "localhost:8080", "[::1]:8080"):
            self.assertEqual(await self.get("/height", client=client, caller=None, headers={"Host": host}), (200, {"height": 4}))
        for host in ("evil.example", "127.0.0.1.evil.example:80", "10.0.0.1", ""):
            self.assertEqual((await self.get("/height", client=client, headers={"Host": host}))[0], 403)
        self.assertEqual((await self.post("/transactions", CALL, client=client))[0], 404)

    async def test_a_request_that_names_no_host(self):
        """Nobody is asked for this machine's name: where DNS is away that takes ten seconds of the loop."""
        client = await self.serve(self.api.page_app())
        with mock.patch("socket.getfqdn", side_effect=AssertionError):
            reader, writer = await asyncio.open_connection("127.0.0.1", client.server.port)
            writer.write(b"GET /height HTTP/1.0\r\n\r\n")
            self.assertEqual((await reader.readline())[9:12], b"403")
            writer.close()


if __name__ == "__main__":
    unittest.main()
