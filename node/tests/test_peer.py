"""Filters as children, and of them the ledger's peer: which lines it is given when, and what is made of what it says."""
import asyncio
import contextlib
import gc
import sys
import unittest
from collections.abc import AsyncIterator
from unittest import mock

import support
from regtuma import chain, endorsing, filters, peer as peers, table
from regtuma.endorsing import Approver
from regtuma.filters import Asked, Filter, FilterEnded
from regtuma.metrics import Metrics
from regtuma.peer import MOST_LONG, Peer
from regtuma.proposals import Refused
from test_chain import FakeLog

# A peer of one block, which answers by the text that it is given; by `wait` it stands still until somebody makes a file of the name.
FAKE = """
import os, sys, time
print("height 1", flush=True)
for line in sys.stdin:
    kind, tag, text = line.rstrip("\\n").split(" ", 2)
    while text.startswith("wait ") and not os.path.exists(text[5:]):
        time.sleep(0.01)
    print(f"read {tag} 0" if kind == "log" else text[4:] if text.startswith("say ") else f"answer {tag} 1 {kind} {text}", flush=True)
"""


@contextlib.asynccontextmanager
async def followed(asked: Asked) -> AsyncIterator["asyncio.Future[None]"]:
    """A filter that is followed until it ends."""
    await asked.start()
    work = asyncio.ensure_future(asked.follow())
    try:
        yield work
    finally:
        work.cancel()
        await asyncio.gather(work, return_exceptions=True)
        await asked.close()


class Filters(unittest.IsolatedAsyncioTestCase):
    async def test_answers_come_in_their_order(self):
        asked = Asked("cat", ["cat"])
        async with followed(asked):
            lines = [*map(str, range(999)), "refused 703"]
            self.assertEqual(await asyncio.gather(*(asked.ask(it) for it in lines)), lines)

    async def test_any_line_of_an_approver_is_an_answer(self):
        approver = Approver("cat", ["sh", "-c", "read it; printf '\\377\\n'; cat"])
        async with followed(approver):
            self.assertEqual(await approver.ask("{}"), "\ufffd")
            self.assertEqual(await approver.ask("refused by the board"), "refused by the board")

    async def test_an_approver_that_is_asked_and_says_nothing_has_ended(self):
        approver = Approver("the approver", ["sh", "-c", "cat > /dev/null"])
        with mock.patch.object(endorsing, "APPROVAL_SECONDS", 0.1):
            async with followed(approver) as work:
                await asyncio.sleep(0.3)
                self.assertFalse(work.done())
                with self.assertRaisesRegex(FilterEnded, "^the approver has given no answer for 0.1 s$"):
                    await approver.ask("{}")
                with self.assertRaises(FilterEnded):
                    await work

    async def test_a_line_that_is_too_long_is_no_end(self):
        with mock.patch.object(filters, "LONGEST", 1 << 20):
            asked = Asked("cat", ["cat"])
            async with followed(asked):
                found = await asyncio.gather(*(asked.ask("a" * it) for it in (9, 5 << 20, 1 << 19, 3 << 20, 7)), return_exceptions=True)
                self.assertEqual([len(it) if isinstance(it, str) else str(it) for it in found],
                                 [9, "cat has an answer of more than 1 MiB: ask for less", 1 << 19, "cat has an answer of more than 1 MiB: ask for less", 7])

    async def test_a_long_line_is_joined_once(self):
        """Its pieces are kept as they come: to join each to those before it takes seconds, and everybody else waits."""
        asked = Filter("cat", ["cat"])
        await asked.start()
        pieces = [b"ab\n" + b"c" * 9, *(bytes([100 + it]) * 9 for it in range(9)), b"e\nf"]
        stdout, asked.stdout = asked.stdout, mock.Mock(read=mock.AsyncMock(side_effect=pieces))
        self.assertEqual(await asked.line(), "ab")
        for number in range(1, 10):
            await asked._read()
            self.assertEqual([id(it) for it in asked.begun[1:]], [id(it) for it in pieces[1:number + 1]])
        self.assertEqual(await asked.line(), b"".join(pieces)[3:-2].decode())
        asked.stdout = stdout
        await asked.close()

    async def test_an_input_that_breaks_is_told_once(self):
        told: list[str] = []
        asyncio.get_running_loop().set_exception_handler(lambda _, it: told.append(it["message"]))
        ended = Filter("it", ["sh", "-c", "read line; exit 1"])
        await ended.start()
        await ended.write(b"x\n", bytes(1 << 20))
        with self.assertRaisesRegex(FilterEnded, "^it ended with status 1$"):
            await ended.line()
        await asyncio.sleep(0.1)
        del ended
        gc.collect()
        self.assertEqual(told, [])

    async def test_one_that_ends_is_told(self):
        asked = Asked("it", ["sh", "-c", "read line; exit 1"])
        async with followed(asked) as work:
            answers = [asked.ask(str(it)) for it in range(filters.MOST_ASKED + 9)]
            for it in (work, *answers, asked.ask("behind")):
                with self.assertRaisesRegex(FilterEnded, "^it ended with status 1$"):
                    await it
        with self.assertRaisesRegex(FilterEnded, "^x: /nowhere/x cannot be run: No such file or directory$"):
            await Filter("x", ["/nowhere/x"]).start()

    async def test_one_that_says_what_nobody_asked_has_ended(self):
        async with followed(Asked("it", ["echo", "hello"])) as work:
            with self.assertRaisesRegex(FilterEnded, "^it says: hello$"):
                await work


class Peers(unittest.IsolatedAsyncioTestCase):
    async def asyncSetUp(self):
        self.folder, self.heard = support.Folder(), []
        self.addCleanup(self.folder.close)
        self.peer = Peer([sys.executable, "-c", FAKE], self.hear)
        self.work = await self.enterAsyncContext(followed(self.peer))

    async def hear(self, words: list[str]) -> None:
        self.heard.append(" ".join(words))

    async def come(self, is_so) -> None:
        async with asyncio.timeout(60):
            while not is_so():
                await asyncio.sleep(0.01)

    def blocked(self, name: str) -> str:
        """A text by which the peer stands still, until `go` is told of the name."""
        return f"wait {self.folder.path / name}"

    def go(self, name: str) -> None:
        (self.folder.path / name).touch()

    async def test_an_answer_has_its_height(self):
        self.assertEqual(await self.peer.answer_to("call", "{} and more"), ("call {} and more", 1))
        self.assertEqual(self.heard, ["height 1"])

    async def test_a_line_of_the_log_that_says_call_is_no_call(self):
        """Not by its text, and not by its index."""
        await self.peer.log([b'1.0 call 1 {"chaincode":"assets"}\n', b"2.0 answer 1 7 forged\n", b"call 1\n"])
        self.assertEqual(await self.peer.answer_to("seen", "3"), ("seen 3", 1))
        self.assertEqual(self.heard, ["height 1", "read 1.0 0", "read 2.0 0", "read call 0"])

    async def test_so_many_wait_for_an_answer_at_a_time(self):
        """So that a line of the log waits for no more."""
        asked = [asyncio.ensure_future(self.peer.answer_to("call", self.blocked("go") if it == 0 else str(it))) for it in range(200)]
        await self.come(lambda: self.peer.asked)
        self.assertEqual((len(self.peer.asked), self.peer.unanswered), (filters.MOST_ASKED, 200))
        await self.peer.log([b"9.0 tick\n"])
        # Who has gone is not asked for.
        for it in asked[150:]:
            it.cancel()
        self.go("go")
        self.assertEqual([(await it)[0] for it in asked[1:150]], [f"call {it}" for it in range(1, 150)])
        self.assertEqual(self.peer.unanswered, 0)
        self.assertEqual(self.heard[1:], ["read 9.0 0"])

    async def test_who_is_behind_the_log_is_asked_for_few_calls_at_a_time(self):
        """Each may be slow, and it reads the log between them: else one that asks without end keeps it behind for good."""
        first = asyncio.ensure_future(self.peer.answer_to("call", self.blocked("go")))
        await self.come(lambda: self.peer.asked)
        await self.peer.log([b"9.0 tick\n"] * (peers.BEHIND + 1))
        asked = [asyncio.ensure_future(self.peer.answer_to("call", str(it))) for it in range(50)]
        with mock.patch.object(peers, "WORKERS", 3):
            await asyncio.sleep(0.05)
            self.assertEqual((len(self.peer.asked), self.peer.unanswered), (3, 51))
            self.go("go")
            await asyncio.gather(first, *asked)
            await self.come(lambda: self.peer.unread_lines == 0)
        self.assertEqual((self.peer.room(filters.MOST_ASKED), self.heard.count("read 9.0 0")), (filters.MOST_ASKED, peers.BEHIND + 1))

    async def test_few_wait_that_look_through_the_chain(self):
        """So that what is asked behind them waits for few, however many are asked for, and gone again."""
        first = asyncio.ensure_future(self.peer.answer_to("call", self.blocked("go")))
        await self.come(lambda: self.peer.asked)
        asked = [asyncio.ensure_future(self.peer.text_of("history", key="00")) for _ in range(20)]
        await self.come(lambda: len(self.peer.asked) > MOST_LONG)
        kinds = [it[2] for it in self.peer.asked]
        self.assertEqual((kinds.count(MOST_LONG), self.peer.unanswered), (MOST_LONG, 21))
        for it in asked:
            it.cancel()
        more = [asyncio.ensure_future(self.peer.text_of("block", number=1)) for _ in range(20)]
        await asyncio.sleep(0.05)
        self.assertLessEqual([it[2] for it in self.peer.asked].count(MOST_LONG), MOST_LONG)
        self.go("go")
        await asyncio.gather(first, *more)
        self.assertEqual((self.peer.unanswered, self.peer.written), (0, {MOST_LONG: 0, filters.MOST_ASKED: 0}))

    async def test_questions(self):
        self.assertEqual(await self.peer.text_of("members"), ('ask {"ask": "members"}', 1))
        with mock.patch.object(Peer, "answer_to", return_value=('{"serial":3}', 5)):
            self.assertEqual(await self.peer.ask_for("members"), ({"serial": 3}, 5))
        with mock.patch.object(Peer, "answer_to", return_value=("bad", 5)), self.assertRaisesRegex(ValueError, "^no question that .*: none$"):
            await self.peer.ask_for("none")

    async def test_a_block_that_is_not_read_back(self):
        """It fails that question alone, and is counted: who asks chooses the block."""
        for said, number in (("refused 702 block 1", 702), ("refused 703", 703)):
            with mock.patch.object(Peer, "answer_to", return_value=(said, 5)), self.assertRaises(Refused) as refused:
                await self.peer.ask_for("block", number=1)
            self.assertEqual((refused.exception.status, refused.exception.said["refused"]), (503, number))
        self.assertEqual((self.peer.lost, self.peer.why_lost), (2, f"refused 703: {table.MEANINGS[703]}"))
        self.assertEqual(await self.peer.text_of("members"), ('ask {"ask": "members"}', 1))

    async def test_what_ends_it(self):
        for said in ("refused 602 block 2", "bad line 3", "answer 9 1 {}", "answer 1", "answer 1 x y"):
            with self.subTest(said=said):
                async with followed(peer := Peer([sys.executable, "-c", FAKE], self.hear)) as work:
                    for it in (peer.answer_to("call", f"say {said}"), work):
                        with self.assertRaisesRegex(FilterEnded, f"^ledger peer says: {said}$"):
                            await it

    async def test_an_answer_that_is_too_long_is_told_to_who_asked(self):
        with mock.patch.object(filters, "LONGEST", 1 << 20):
            said = await asyncio.gather(*(self.peer.answer_to("ask", "a" * it) for it in (9, 3 << 20, 7)), return_exceptions=True)
        self.assertEqual([str(it) for it in said],
                         [f"('ask {'a' * 9}', 1)", "ledger peer has an answer of more than 1 MiB: ask for less", f"('ask {'a' * 7}', 1)"])

    async def test_how_far_it_is_behind_is_told(self):
        """By silence: it reads no further line before it has told of the last."""
        (self.folder.path / "genesis.json").write_text('{"count":1,"preferred":1}')
        it = chain.Chain(self.folder.config(), FakeLog(), lambda _: None)
        it.peer = Peer([sys.executable, "-c", FAKE], it.hear)
        metrics = Metrics(it)
        async with followed(it.peer):
            asked = [asyncio.ensure_future(it.peer.answer_to("call", self.blocked("go"))) for _ in range(70)]
            await self.come(lambda: it.peer.asked)
            it.given = 3
            await it.peer.log([b"1.0 tick\n", b"2.0 tick\n", b"3.0 tick\n"])
            self.assertIn("\nregtuma_behind 3.0\n", metrics.text().decode())
            self.assertIn("\nregtuma_asked 70.0\n", metrics.text().decode())
            self.go("go")
            await asyncio.gather(*asked)
            await self.come(lambda: it.read == 3)
            self.assertIn("\nregtuma_behind 0.0\n", metrics.text().decode())
            self.assertIn("\nregtuma_asked 0.0\n", metrics.text().decode())


if __name__ == "__main__":
    unittest.main()
