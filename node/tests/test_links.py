"""Another organisation's node, which answers in time, late, or not at all; and what is put into the log by hand."""
import asyncio
import contextlib
import hashlib
import io
import json
import unittest
from unittest import mock

import support
from regtuma import config, links, log
from regtuma.etcd import EtcdLog as Log
from regtuma.etcd import base64_of
from regtuma.leaving import leave_etcd
from regtuma.links import Link
from test_chain import CALL, ENDORSED
from test_etcd import DONE, NOT_DONE, Cookies, Elsewhere, Node


CHANGE = {"members": [{"name": "Maker"}], "policy": "'Maker'", "serial": 1, "nonce": "07" * 16}
ANSWER = {**ENDORSED}


def answers(count: int) -> tuple[int, dict]:
    return 200, {"answers": [ANSWER] * count}


class Links(unittest.IsolatedAsyncioTestCase):
    async def link(self, *answered) -> Link:
        self.node = await self.enterAsyncContext(Node(*answered))
        folder = support.Folder()
        self.addCleanup(folder.close)
        found = folder.config()
        found.nodes["Carrier"] = self.node.url
        self.said: list[str] = []
        with mock.patch.object(config.Config, "node_tls", return_value=None):
            link = Link("Carrier", found, self.said.append)
        self.addAsyncCleanup(link.close)
        return link

    def proposals(self) -> list[int]:
        return [len(body["proposals"]) for _, body, _ in self.node.asked]

    async def test_what_is_asked_at_once_goes_together(self):
        link = await self.link(answers(5))
        found = await asyncio.gather(*(link.ask("Maker/alice", CALL, it) for it in range(5)))
        self.assertEqual((found, self.proposals(), self.node.asked[0][1]["height"]), ([ANSWER] * 5, [5], 4))

    async def test_a_slow_node_gets_fewer_at_a_time(self):
        link = await self.link(answers(2), answers(2), answers(1))
        link.each = 0.5
        await asyncio.gather(*(link.ask("Maker/alice", CALL, 0) for _ in range(5)))
        self.assertEqual(self.proposals(), [2, 2, 1])
        self.assertLess(link.each, 0.5)

    async def test_a_node_that_answers_late_is_slow(self):
        link = await self.link([b"{"])
        with mock.patch.object(links, "ENDORSE_SECONDS", 0.1):
            self.assertIsNone(await link.ask("Maker/alice", CALL, 0))
        link = await self.link()
        with mock.patch.object(Link, "post", return_value=None), mock.patch.object(links, "ENDORSE_SECONDS", -1.0):
            self.assertIsNone(await link.ask("Maker/alice", CALL, 0))
        self.assertEqual(link.each, 0.04)

    async def test_a_node_that_gives_no_answer_is_passed_over_for_a_while(self):
        for failure, told in [((403, {"why": "Maker/node may not endorse"}), "Maker/node may not endorse"), (None, "Server disconnected"),
                              ((200, {"answers": []}), "it does not answer each proposal"), ((200, {}), "it does not answer each proposal"),
                              ((200, {"answers": [{"payload": "aa\n", "endorsement": "00", "height": 1}]}), "it does not answer each proposal"),
                              ((200, []), "200")]:
            with self.subTest(told=told):
                link = await self.link(failure)
                self.assertIsNone(await link.ask("Maker/alice", CALL, 0))
                self.assertGreater(link.down, 0)
                self.assertIn(f"no endorsement of Carrier: {told}", self.said[0])

    async def test_who_waits_for_a_node_that_falls_silent_asks_another_one_at_once(self):
        link = await self.link(*["nothing"] * 20)
        with mock.patch.object(links, "ENDORSE_SECONDS", 0.5), mock.patch.object(Link, "most", return_value=10):
            self.assertEqual(await asyncio.gather(*(link.ask("Maker/alice", CALL, 0) for _ in range(200))), [None] * 200)
        self.assertLessEqual(len(self.node.asked), links.REQUESTS)

    async def test_callers_take_turns(self):
        """However many calls one has, and however slow they are, those of others go with the next ones."""
        link = await self.link(answers(2), answers(2), answers(2), answers(2), answers(1))
        link.requests = 1
        many = [link.ask("Maker/alice", {**CALL, "arg": f"{it:02x}"}, 0) for it in range(7)]
        others = [link.ask(f"Maker/{it}", {**CALL, "arg": it}, 0) for it in ("bb", "cc")]
        with mock.patch.object(Link, "most", return_value=2):
            self.assertEqual(await asyncio.gather(*many, *others), [ANSWER] * 9)
        asked = [[it["arg"] for it in body["proposals"]] for _, body, _ in self.node.asked]
        self.assertEqual(asked, [["00", "bb"], ["cc", "01"], ["02", "03"], ["04", "05"], ["06"]])

    async def test_an_answer_that_is_too_long_is_none(self):
        link = await self.link(answers(5))
        with mock.patch.object(links, "LONGEST", 9):
            self.assertIsNone(await link.ask("Maker/alice", CALL, 0))
        self.assertEqual(self.said, ["no endorsement of Carrier: its answer has more than 0 MiB"])

    async def test_one_long_word_takes_little_memory(self):
        """However many bytes its letters have: a lie of 60 MB is not read, and one of any letters is short."""
        for word, told in (("a" * links.LONGEST_ONE, "its answer has more than 1 MiB"), ("\U0001f600" + "a" * links.WORDS, "its answer has too many words"),
                           ("a" * 301, "it does not answer each proposal")):
            for escapes in (True, False):
                link = await self.link((200, json.dumps({"answers": [{"denied": word, "height": 0}]}, ensure_ascii=escapes)))
                self.assertIsNone(await link.ask("Maker/alice", CALL, 0))
                self.assertEqual(self.said, [f"no endorsement of Carrier: {told}"])

    async def test_who_has_much_to_say_is_asked_for_less(self):
        link = await self.link(answers(8), answers(4), answers(4), answers(4))
        with mock.patch.object(links, "LONGEST", len(json.dumps(answers(4)[1]))):
            self.assertEqual(await asyncio.gather(*(link.ask("Maker/alice", CALL, 0) for _ in range(8))), [None] * 8)
            self.assertEqual(await asyncio.gather(*(link.ask("Maker/alice", CALL, 0) for _ in range(4))), [ANSWER] * 4)
        self.assertEqual((self.proposals(), self.said, link.few), ([8, 4], [], 8))
        link = await self.link((429, {"why": "ask again"}), answers(1))
        self.assertEqual(await asyncio.gather(link.ask("Maker/alice", CALL, 0), link.ask("Maker/alice", CALL, 0)), [None] * 2)
        self.assertEqual((await link.ask("Maker/alice", CALL, 0), self.said), (ANSWER, []))

    async def test_no_cookies_are_read(self):
        """To read those of all headers of an answer takes a second of the loop, and 140 MiB."""
        link = await self.link(Cookies(answers(1)), Cookies((200, {})))
        log = Log([self.node.url], "", "", None)
        self.addAsyncCleanup(log.close)
        with mock.patch("http.cookies.BaseCookie.load", side_effect=AssertionError):
            self.assertEqual(await link.ask("Maker/alice", CALL, 0), ANSWER)
            self.assertIsNone(await log.read("Maker/x"))

    async def test_no_cookies_are_kept(self):
        link = await self.link(Cookies(answers(1)), Cookies(answers(1)), answers(1))
        # Of names alone they are kept.
        link.url = link.url.replace("127.0.0.1", "localhost")
        for _ in range(3):
            self.assertEqual(await link.ask("Maker/alice", CALL, 0), ANSWER)
        self.assertEqual(len(link.http.cookie_jar), 0)

    async def test_an_answer_of_many_values_is_none(self):
        link = await self.link((200, '{"answers":[' + "[]," * 2000 + "[]]}"), answers(2))
        self.assertEqual(await asyncio.gather(link.ask("Maker/alice", CALL, 0)), [None])
        self.assertEqual(self.said, ["no endorsement of Carrier: its answer has more than 1,000 commas"])
        self.assertEqual(await asyncio.gather(link.ask("Maker/alice", CALL, 0), link.ask("Maker/alice", CALL, 0)), [ANSWER] * 2)

    async def test_a_node_sends_another_one_nowhere(self):
        link = await self.link(answers(1))
        link.url = (await self.enterAsyncContext(Elsewhere(self.node.url))).url
        self.assertIsNone(await link.ask("Maker/alice", CALL, 0))
        self.assertEqual(self.node.asked, [])

    async def test_a_change_has_the_time_of_a_call(self):
        link = await self.link()
        with mock.patch.object(Link, "post", return_value=[ANSWER]) as post:
            for proposal in (CALL, CHANGE):
                link.each = 0.01
                await link.ask("Maker/alice", proposal, 3)
                self.assertEqual(post.call_args.args, ([proposal], 3, links.ENDORSE_SECONDS + 0.04))

    async def test_nobody_hangs_where_something_fails(self):
        link = await self.link()
        with mock.patch.object(Link, "post", side_effect=RuntimeError("boom")), mock.patch.object(Link, "most", return_value=1):
            self.assertEqual(await asyncio.gather(*(link.ask("Maker/alice", CALL, 3) for _ in range(5))), [None] * 5)


class ByHand(unittest.IsolatedAsyncioTestCase):
    async def asyncSetUp(self):
        self.folder = support.Folder()
        self.addCleanup(self.folder.close)
        self.config = self.folder.config()

    async def log(self, *answered) -> Log:
        self.node = await self.enterAsyncContext(Node(*answered))
        made = Log([self.node.url], "", "", None)
        self.addAsyncCleanup(made.close)
        return made

    async def test_a_log_begins_once(self):
        with self.assertRaisesRegex(log.NotDone, "^the log has begun already: it has, or had, entries."):
            await log.begin(await self.log(support.changed(1)), self.config, [])

    async def test_marks_go_into_entries_that_cost_no_share(self):
        with mock.patch.object(log, "ENTRY_CHARACTERS", 7):
            said = await log.begin(await self.log(support.changed(0), DONE, DONE, NOT_DONE, support.changed(3)), self.config, ["aabb", "tick", "cc"])
        keys = [it[1]["compare"][0]["key"] for it in self.node.asked[1:-1]]
        self.assertEqual(keys, [base64_of(f"log/{it}") for it in ("Maker/genesis", "Maker/refill-1", "Maker/refill-2")])
        begun = f"the log has begun: its first entry names the genesis file {hashlib.sha256(b'').hexdigest()}"
        self.assertEqual(said, f"{begun}, and 3 marks are behind it in 2 more entries")
        self.assertEqual(await log.begin(await self.log(support.changed(0), DONE), self.config, []), begun)

    async def test_a_refill_that_somebody_has_broken_is_told(self):
        """What stands between its entries ends it: other blocks would come out."""
        with self.assertRaisesRegex(log.NotDone, "^somebody else has put entries meanwhile, .* begin again with a new, empty etcd"):
            await log.begin(await self.log(support.changed(0), DONE, DONE, support.changed(3)), self.config, ["aabb", "tick"])

    async def test_a_module_has_its_digest(self):
        digest = hashlib.sha256(b"\0asm").hexdigest()
        other, right = ((200, {"kvs": [{"value": base64_of(f"module 1 {it}")}]}) for it in ("00", b"\0asm".hex()))
        self.assertEqual(await log.fetch(await self.log(other, right), self.config, digest), b"\0asm")
        with self.assertRaisesRegex(log.NotDone, f"no organisation has put the module {digest}"):
            await log.fetch(await self.log((200, {}), (200, {"kvs": [{"value": base64_of("no hex")}]})), self.config, digest)

    async def test_who_leaves_does_not_hide_behind_a_name(self):
        """A member of etcd says itself what its name is: by addresses one sees who is left."""
        names = {"1": "carrier", "2": "carrier", "3": "shop", "4": "Shop"}
        members = [{"ID": id, "name": name, "peerURLs": [f"https://10.0.0.{id}:2380"]} for id, name in names.items()]
        log = await self.log((200, {}), (200, {"members": members}), (200, {}), (200, {}))
        self.assertEqual(await leave_etcd(log, "Shop"), [
            "etcd has no member shop any more, which was at https://10.0.0.3:2380",
            "etcd has no member Shop any more, which was at https://10.0.0.4:2380",
            "users of etcd: ; members: carrier at https://10.0.0.1:2380, carrier at https://10.0.0.2:2380"])
        self.assertEqual([body["ID"] for path, body, _ in self.node.asked if path.endswith("remove")], ["3", "4"])

    async def test_what_is_printed_speaks_to_no_terminal(self):
        printed = io.BytesIO()
        with mock.patch.object(log, "work", return_value="a\x1b[2J\nb"), contextlib.redirect_stdout(io.TextIOWrapper(printed)):
            self.assertEqual(await asyncio.to_thread(log.main, [self.config.file, "begin"]), 0)
            self.assertEqual(printed.getvalue(), b"a?[2J\nb\n")

    async def test_a_refusal_of_the_program_is_told(self):
        self.config.ledger.program = "false"
        with self.assertRaisesRegex(log.NotDone, "^`false marks a b` answers: status 1$"):
            log.asked(self.config, "marks", "a", "b")

    async def test_a_password_that_is_no_text_is_told(self):
        file = self.folder.path / "etcd.password"
        file.write_bytes(b"\xff")
        said = io.StringIO()
        with contextlib.redirect_stderr(said):
            status = await asyncio.to_thread(log.main, [self.config.file, "begin"])
        self.assertEqual((status, said.getvalue().startswith("regtuma-log: 'utf-8' codec can't decode ")), (1, True))


if __name__ == "__main__":
    unittest.main()
