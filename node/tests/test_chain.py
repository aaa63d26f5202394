"""The chain's decisions, with a peer, an approver and a log that say what a test wants."""
import asyncio
import dataclasses
import json
import tempfile
import time
import unittest
from collections.abc import Callable
from unittest import mock

import support
from regtuma import chain as chains
from regtuma import config, endorsing, gateway, load, ticks, times
from regtuma.chain import Asking, Awaited, Chain
from regtuma.endorsing import Agreed, Endorsing
from regtuma.entries import Entry, LogError
from regtuma.filters import FilterEnded
from regtuma.gateway import Gateway
from regtuma.links import Link
from regtuma.load import Held
from regtuma.proposals import Refused
from regtuma.tags import Key
from regtuma.ticks import LAST_BLOCKS
from regtuma.wire import id_of

# The last block of a ledger under rules 1.
LAST_BLOCK = LAST_BLOCKS[1]
CALL = {"chaincode": "assets", "arg": "00", "nonce": "07" * 16}
ENDORSED = {"payload": "aa", "endorsement": "01", "height": 3}
# As many digits as the shortest envelope has.
ENVELOPE = "0161" + "00" * 27


class Says:
    """A filter that answers by these lines, a peer at one height, and keeps what it is asked."""

    name, unanswered, lost, why_lost = "the peer", 0, 0, ""

    def __init__(self, *lines: str, height: int = 0):
        self.lines, self.height = list(lines), height
        self.given: list[tuple[str, ...]] = []

    async def ask(self, line: str) -> str:
        said, _ = await self.answer_to(line)
        return said

    async def answer_to(self, *asked: str) -> tuple[str, int]:
        self.given.append(asked)
        if not self.lines:
            raise FilterEnded("it has ended")
        return self.lines.pop(0), self.height


class FakeLog:
    """Takes entries, or fails."""

    def __init__(self, failure: str = ""):
        self.failure, self.why, self.unread = failure, "no leader", None
        self.entries: dict[str, list[str]] = {}

    async def append(self, name: str, marks: list[str], _patience: float = 0) -> bool:
        if self.failure:
            raise LogError(self.failure)
        self.entries[name] = marks
        return True


class Answers(Says):
    """A peer that knows transactions by their ids, and which organisations satisfy a policy."""

    def __init__(self, known=None, satisfying=()):
        super().__init__()
        self.known, self.satisfying = known or {}, [set(it) for it in satisfying]

    async def ask_for(self, what, **question):
        if what == "transaction":
            return self.known.get(question["id"]), 1
        if what == "setting":
            return {"absolute": 4}, 1
        return any(it <= set(question["orgs"]) for it in self.satisfying), 1

    async def text_of(self, _what, number):
        return json.dumps({"block": number, "txs": [{"id": "ab", "flag": 0}]}), number


class Times:
    def note(self, number):
        pass

    def of(self, number):
        return 1.5


class Case(unittest.IsolatedAsyncioTestCase):
    async def asyncSetUp(self):
        self.folder = support.Folder()
        self.addCleanup(self.folder.close)
        self.said = []
        self.config = self.folder.config()
        self.chain = Chain(self.config, FakeLog(), self.said.append)
        self.chain.times, self.chain.peer = Times(), Answers(satisfying=[("Maker", "Carrier"), ("Carrier", "Shop")])
        self.endorsing = Endorsing(self.config, self.chain)
        with mock.patch.object(config.Config, "node_tls", return_value=None):
            self.gateway = Gateway(self.config, self.chain, self.endorsing)
        self.addAsyncCleanup(self.gateway.close)

    async def endorsed(self, *proposals: dict) -> list[dict]:
        """What the organisation answers to proposals, or to a call."""
        return await self.endorsing.answers("Shop/node", list(proposals) or [CALL])

    async def passed(self, *lines: str) -> None:
        """The peer says these lines."""
        for line in lines:
            await self.chain.hear(line.split(" "))


class Ticks(Case):
    def due(self, now, awaited, asking=Asking(), **changes):
        self.chain.awaited, self.chain.asking = awaited, asking
        for name, value in changes.items():
            setattr(self.chain, name, value)
        return self.chain.is_due(now)

    async def test_a_block_is_asked_for_after_the_wait(self):
        self.assertEqual([self.due(it, Awaited(4, 1, 100.0)) for it in (100.4, 100.5)], [False, True])
        self.assertFalse(self.due(200.0, Awaited(4)))

    async def test_each_further_tick_waits_as_long(self):
        asked = Asking(1, 101.0)
        self.assertEqual([self.due(it, Awaited(4, 1, 100.0), asked) for it in (101.4, 101.5)], [False, True])
        self.chain.lines.ticks = 1
        self.assertTrue(self.due(100.5, Awaited(5, 1, 100.0), asked))

    async def test_nobody_asks_before_the_log_is_read(self):
        self.assertFalse(self.due(200.0, Awaited(4, 1, 100.0), given=5, read=4))

    async def test_nobody_asks_on_a_fork(self):
        self.assertFalse(self.due(200.0, Awaited(4, 1, 100.0), forked="Shop"))

    async def test_nobody_asks_for_a_block_behind_the_last(self):
        found = [self.due(200.0, Awaited(it, 1, 100.0)) for it in (LAST_BLOCK, LAST_BLOCK + 1)]
        self.assertEqual(found, [True, False])

    async def test_nobody_asks_for_others(self):
        """Each organisation pays for its own ticks: whose envelopes do not wait asks for no block."""
        for part, is_asked in (("Shop", False), ("Maker", True)):
            self.chain.counted(Entry(2, f"{part}/call-1".encode(), ENVELOPE.encode()))
            await self.passed("read 2.0 1")
            self.assertEqual(self.chain.awaited.since is not None, is_asked)

    async def test_blocks_of_others_make_nobody_here_wait_longer(self):
        """An organisation waits by the blocks that it has brought about itself."""
        plan = ticks.Ticks(begins=time.time(), lasts_days=365, burst=10)
        self.chain.ticks = plan
        for part, is_due in (("Shop", True), ("Maker", False)):
            self.bring_about(part, 20)
            for height in (0, 20, 40):
                self.assertEqual(self.due(100.5, Awaited(height + 1, 1, 100.0)), is_due, (part, height))
        self.assertTrue(self.due(100.0 + plan.longest, Awaited(41, 1, 100.0)))

    def bring_about(self, part: str, blocks: int) -> None:
        """The log has so many blocks of one envelope each in an organisation's part."""
        for _ in range(blocks):
            number = self.chain.lines.ticks + 1
            for name, text in ((f"{part}/call-{number}", ENVELOPE), (f"{part}/tick-{number}", "tick")):
                self.assertEqual(len(self.chain.counted(Entry(number, name.encode(), text.encode()))), 1)

    async def test_waiting_is_measured_by_a_clock_that_never_goes_back(self):
        for revision, now in enumerate((0.0, 1e12), 2):
            self.chain.awaited, self.chain.asking, began = Awaited(), Asking(), time.monotonic()
            with self.subTest(now=now), mock.patch("time.time", return_value=now):
                self.chain.counted(Entry(revision, b"Maker/call", ENVELOPE.encode()))
                await self.passed(f"read {revision}.0 1")
                work = asyncio.ensure_future(self.chain.keep_time())
                async with asyncio.timeout(60):
                    while not self.chain.asking.number:
                        await asyncio.sleep(0.01)
                work.cancel()
                self.assertEqual([began <= it < began + 60 for it in (self.chain.awaited.since, self.chain.asking.at)], [True, True])

    async def test_no_name_of_a_tick_is_known_before_from_the_second_try_on(self):
        for _ in range(3):
            self.chain.awaited = Awaited(4, 1, 0.0)
            await self.chain.tick(1e10)
        first, *others = self.chain.log.entries
        self.assertEqual((first, len(set(others))), ("Maker/tick-1", 2))
        for name in others:
            self.assertRegex(name, "^Maker/tick-1-[0-9a-f]{16}$")


class Lines(Case):
    async def test_what_becomes_of_them(self):
        await self.passed("known 1", "tx 2.0 ab 0 -", "tx 2.1 cd 4 -", "committed 2 flags 0 4", "skipped 5.0 300", "skipped 6.0 301", "read 6.0 2")
        self.assertEqual((self.chain.height, self.chain.awaited.number, self.chain.awaited.waiting, self.chain.read), (2, 3, 2, 1))
        self.assertEqual(self.chain.counts, {"flag 0": 1, "flag 4": 1, "skipped 300": 0, "skipped 301": 1})
        await self.passed("hello there")
        self.assertEqual(self.said, ["the peer: hello there"])

    async def test_who_waits_for_a_transaction_is_told_once_its_block_is_on_the_disk(self):
        waiters = [self.chain.wait_for(it) for it in ("ab", "cd", "ef")]
        self.chain.in_log = {"ab": "Maker/alice"}
        await self.passed("tx 7.0 ab 0 6d", "tx 7.1 cd 4 -")
        self.assertEqual([it.done() for it in waiters], [False] * 3)
        await self.passed("committed 7 flags 0 4")
        told = [{"id": "ab", "block": 7, "place": 0, "flag": 0, "result": "6d"}, {"id": "cd", "block": 7, "place": 1, "flag": 4, "result": ""}]
        self.assertEqual(([it.result() for it in waiters[:2]], waiters[2].done(), self.chain.in_log), (told, False, {}))

    async def test_many_that_wait_for_one_call_may_go_at_once(self):
        """Their number is not looked through for each."""
        asyncio.get_running_loop().set_debug(False)
        waiters = [self.chain.wait_for("ab") for _ in range(50_000)]
        began = time.process_time()
        for it in reversed(waiters):
            self.chain.forget("ab", it)
        self.assertLess(time.process_time() - began, 5.0)
        self.assertEqual(self.chain.waiters, {})

    async def test_an_aborted_transaction_is_told(self):
        waiter = self.chain.wait_for("ab")
        self.chain.origins.begin("ab")
        self.chain.origins.note_put("ab", ENVELOPE)
        await self.passed("aborted ab 441")
        self.assertEqual((await self.gateway.outcome("Maker/alice", waiter.result()))["refused"], 441)

    async def test_an_envelope_of_another_one_that_is_aborted_is_not_told(self):
        """Nor that of a call which another node has put: its own one may come into a block."""
        waiter = self.chain.wait_for("ab")
        await self.passed("aborted ab 442")
        self.chain.origins.begin("ab")
        self.chain.origins.note_put("ab", ENVELOPE)
        self.chain.origins.foreign.add("ab")
        await self.passed("aborted ab 442")
        self.assertFalse(waiter.done())
        await self.passed("tx 7.0 ab 0 6d", "committed 7 flags 0")
        self.assertEqual(waiter.result()["flag"], 0)

    async def test_a_call_whose_line_is_skipped_is_told_why(self):
        waiter, envelope = self.chain.wait_for("ab"), ENVELOPE
        work = asyncio.ensure_future(self.chain.put_envelopes())
        await self.chain.put("Maker/alice", "ab", envelope)
        work.cancel()
        name, = self.chain.log.entries
        self.assertEqual(self.chain.counted(Entry(7, name.encode(), envelope.encode())), [f"7.0 {envelope}\n".encode()])
        await self.passed("skipped 7.0 301", "read 7.0 0")
        told = {"id": "ab", "refused": 301, "why": "the orderer skips its envelope (refused 301)"}
        self.assertEqual([await self.gateway.outcome("Maker/alice", waiter.result()), await self.gateway.status("Maker/alice", "ab")], [told, told])
        self.assertEqual((self.chain.in_log, self.chain.own, self.chain.unread), ({}, {}, {}))

    async def test_a_call_that_finds_no_share_left_is_told(self):
        waiter = self.chain.wait_for("ab")
        work = asyncio.ensure_future(self.chain.put_envelopes())
        await self.chain.put("Maker/alice", "ab", ENVELOPE)
        work.cancel()
        self.chain.lines.shares.paid[b"Maker"] = 3 * LAST_BLOCK * self.chain.lines.shares.block
        name, = self.chain.log.entries
        self.assertEqual(self.chain.counted(Entry(7, name.encode(), ENVELOPE.encode())), [])
        self.assertEqual(await self.gateway.outcome("Maker/alice", waiter.result()), {"id": "ab", "pending": True, "why": chains.NO_SHARE})
        with self.assertRaises(Refused) as raised:
            self.gateway.check_open()
        self.assertEqual((raised.exception.status, raised.exception.said), (422, {"why": chains.NO_SHARE}))

    async def test_a_fork_stops_what_is_put(self):
        await self.passed("forked Shop 4", "forked Carrier 8")
        self.assertEqual(self.chain.forked, "Shop says that it has another block 4")
        with self.assertRaises(Refused) as raised:
            self.gateway.check_open()
        self.assertEqual((raised.exception.status, raised.exception.said["why"]), (503, self.chain.forked))
        self.assertEqual(await self.endorsed(), [{"denied": self.chain.forked, "height": 0}])

    async def test_while_the_log_has_given_fewer_blocks_than_the_store_has_no_call_is_taken(self):
        """It may be another log, whose next block is another one. Where no more come, nothing is endorsed either."""
        self.chain.height, told = 8, "the store has 8 blocks, and the log has given 5 of them"
        await self.passed("known 5")
        with self.assertRaises(Refused) as raised:
            self.gateway.check_open()
        self.assertEqual((raised.exception.status, raised.exception.said["why"]), (503, f"{told}: ask again"))
        self.assertFalse(self.chain.is_other_log)
        self.chain.made_at -= 2 * chains.SHORT
        self.assertEqual(await self.endorsed(), [{"denied": told, "height": 8}])
        await self.passed("known 8")
        self.gateway.check_open()
        self.assertFalse(self.chain.is_other_log)

    async def test_who_waits_for_a_block_ends_in_the_very_moment_in_which_it_comes(self):
        async def follow() -> None:
            await self.chain.at_least(1, 60.0)
            await asyncio.sleep(60)
        for steps in range(9):
            self.chain.height = 0
            work = asyncio.ensure_future(follow())
            await asyncio.sleep(0.01)
            async with self.chain.grown:
                self.chain.height = 1
                self.chain.grown.notify_all()
            for _ in range(steps):
                await asyncio.sleep(0)
            work.cancel()
            done, _ = await asyncio.wait([work], timeout=0.5)
            work.cancel()
            self.assertTrue(done, steps)

    async def test_a_block_is_waited_for_so_long(self):
        self.chain.height = 1
        self.assertEqual([await self.chain.at_least(it, 0.01) for it in (1, 2)], [True, False])

    async def test_past_forks_it_goes_on_for_that_lie_alone(self):
        self.chain.past_forks = frozenset(["Shop 4"])
        await self.passed("forked Shop 4")
        self.assertIsNone(self.chain.forked)
        for other in ("Shop 5", "Carrier 4"):
            await self.passed(f"forked {other}")
            self.assertIn("says that it has another block", self.chain.forked or "")
            self.chain.forked = None

    async def test_past_all_forks_of_an_organisation(self):
        """It may lie about each block, also of those that are still to come."""
        self.config.ledger.past_forks = ["Shop", "Carrier 7"]
        self.chain = Chain(self.config, FakeLog(), self.said.append)
        await self.passed(*(f"forked Shop {it}" for it in range(1, 1000)), "forked Carrier 7")
        self.assertIsNone(self.chain.forked)
        await self.passed("forked Carrier 8")
        self.assertEqual(self.chain.forked, "Carrier says that it has another block 8")


class End(Case):
    async def test_calls_are_refused_behind_the_last_block(self):
        self.gateway.check_open()
        self.chain.awaited = Awaited(LAST_BLOCK + 1)
        with self.assertRaises(Refused) as raised:
            self.gateway.check_open()
        self.assertEqual((raised.exception.status, raised.exception.said),
                         (422, {"refused": 422, "why": "the chain is full: the rules of the ledger allow no further block"}))

    async def test_a_store_that_is_full_takes_none(self):
        self.chain.height = LAST_BLOCK
        self.assertTrue(self.chain.is_full)

    async def test_who_waits_behind_the_last_block_is_told(self):
        inside, outside = self.chain.wait_for("ab"), self.chain.wait_for("cd")
        await self.passed(f"tx {LAST_BLOCK - 1}.0 ab 0 -", f"committed {LAST_BLOCK - 1} flags 0")
        self.assertEqual((inside.done(), outside.done()), (True, False))
        inside = self.chain.wait_for("ab")
        await self.passed(f"tx {LAST_BLOCK}.0 ab 0 -", f"committed {LAST_BLOCK} flags 0")
        self.assertEqual((inside.result()["block"], outside.result()), (LAST_BLOCK, {"id": "cd", "refused": 422}))

    async def test_under_rules_2_it_goes_on_past_65_535_blocks(self):
        """And ends with the last one of these rules."""
        last = LAST_BLOCKS[2]
        self.chain.ticks = dataclasses.replace(self.chain.ticks, last=last)
        for number in (65_535, 65_536, 70_000, last - 1, last):
            inside, outside = self.chain.wait_for("ab"), self.chain.wait_for("cd")
            await self.passed(f"tx {number}.511 ab 0 -", f"committed {number} flags 0")
            told = inside.result()
            self.assertEqual((told["block"], told["place"], self.chain.height, self.chain.most_blocks), (number, 511, number, number + chains.AHEAD))
            self.assertEqual((self.chain.is_full, outside.done()), (number == last, number == last))
            self.chain.forget("cd", outside)
        with self.assertRaises(Refused):
            self.gateway.check_open()

    async def test_a_node_takes_the_last_block_from_the_rules(self):
        (self.folder.path / "genesis.json").write_text(json.dumps({"count": 1, "preferred": 1, "rules": 2}))
        self.assertEqual(Chain(self.folder.config(), FakeLog(), self.said.append).ticks.last, LAST_BLOCKS[2])

    async def test_reads_are_answered(self):
        self.chain.height = LAST_BLOCK
        self.assertIn('"at":1.5', await self.chain.block(LAST_BLOCK))


class Clock(unittest.TestCase):
    def test_a_block_has_its_time_whatever_its_number(self):
        """Of those before, which were committed elsewhere, none is told."""
        with tempfile.TemporaryDirectory() as room:
            kept = times.Times(f"{room}/times")
            for number in (65_536, 70_000, LAST_BLOCKS[2]):
                kept.note(number)
                with mock.patch("time.time", return_value=1.0):
                    kept.note(number)
            found = [kept.of(it) for it in (65_536, 70_000, LAST_BLOCKS[2])]
            self.assertTrue(all(it and it > 1.0 for it in found), found)
            self.assertEqual([kept.of(it) for it in (1, 65_535, 65_537, LAST_BLOCKS[2] - 1)], [None] * 4)
            kept.file.close()


class Entries(Case):
    async def put(self, *envelopes: str) -> list:
        work = asyncio.ensure_future(self.chain.put_envelopes())
        done = await asyncio.gather(*(self.chain.put("Maker/alice", it, it) for it in envelopes), return_exceptions=True)
        work.cancel()
        return done

    async def test_what_waits_goes_together(self):
        self.assertEqual(await self.put("aa", "bb"), [None, None])
        (name, marks), = self.chain.log.entries.items()
        self.assertEqual((name.startswith("Maker/call-"), marks), (True, ["aa", "bb"]))

    async def test_what_comes_until_the_next_entry_may_be_put_goes_into_it(self):
        """A tick takes a turn as well."""
        turns = asyncio.Semaphore(0)
        self.chain.pace, self.chain.awaited = mock.Mock(turn=turns.acquire), Awaited(4, 1, 0.0)
        works = [asyncio.ensure_future(self.chain.put_envelopes())]
        puts = []
        for it in ("aa", "bb", "cc"):
            puts.append(asyncio.ensure_future(self.chain.put("Maker/alice", it, it)))
            await asyncio.sleep(0.01)
        self.assertEqual(self.chain.log.entries, {})
        turns.release()
        await asyncio.gather(*puts)
        works.append(asyncio.ensure_future(self.chain.keep_time()))
        await asyncio.sleep(0.2)
        self.assertEqual(list(self.chain.log.entries.values()), [["aa", "bb", "cc"]])
        turns.release()
        async with asyncio.timeout(60):
            while len(self.chain.log.entries) < 2:
                await asyncio.sleep(0.01)
        for it in works:
            it.cancel()
        self.assertEqual(list(self.chain.log.entries.values()), [["aa", "bb", "cc"], ["tick"]])

    async def test_callers_take_turns(self):
        """However many long envelopes one has, those of others go into the next entries."""
        work = asyncio.ensure_future(self.chain.put_envelopes())
        with mock.patch.object(chains, "ENTRY_CHARACTERS", 10):
            puts = [self.chain.put("Maker/alice", it, it) for it in ("a1a1a1", "a2a2a2", "a3a3a3")]
            await asyncio.gather(*puts, *(self.chain.put(f"Maker/{it}", it, it) for it in ("bb", "cc")))
        work.cancel()
        self.assertEqual(list(self.chain.log.entries.values()), [["a1a1a1", "bb"], ["cc", "a2a2a2"], ["a3a3a3"]])

    async def test_who_waited_for_ticks_is_counted(self):
        self.chain.in_log = {"ab": "Maker/alice", "cd": "Maker/alice", "ef": "Maker/bob"}
        for number in (4, 5):
            self.chain.awaited = Awaited(number, 1, 0.0)
            await self.chain.tick(1e10)
            self.chain.in_log.pop("ef", None)
        self.assertEqual((self.chain.ticked, self.chain.counts["ticks"]), ({"Maker/alice": 2, "Maker/bob": 1}, 2))

    async def test_entries_have_so_many_lines_and_characters(self):
        await self.put(*["aa"] * (chains.ENTRY_LINES + 1))
        self.assertEqual([len(it) for it in self.chain.log.entries.values()], [chains.ENTRY_LINES, 1])
        self.chain.log.entries = {}
        await self.put("a" * chains.ENTRY_CHARACTERS, "bb")
        self.assertEqual([len(it) for it in self.chain.log.entries.values()], [1, 1])

    async def test_an_entry_may_be_read_though_it_was_not_known_to_be_put(self):
        async def append(name: str, marks: list[str]) -> bool:
            self.chain.counted(Entry(2, name.encode(), "\n".join(marks).encode()))
            raise LogError("no answer")
        with mock.patch.object(self.chain.log, "append", append):
            self.assertEqual([str(it) for it in await self.put("aa", "bb")], ["no answer"] * 2)
        self.assertEqual(self.chain.own, {})

    async def test_each_is_told_of_a_failure(self):
        self.chain.log.failure = "no majority"
        self.assertEqual([str(it) for it in await self.put("aa", "bb")], ["no majority"] * 2)


class Endorsements(Case):
    async def test_a_change_needs_the_operators_word(self):
        change = {"members": [{"name": "Maker"}], "policy": "'Maker'", "serial": 1, "nonce": "07" * 16}
        self.assertIn("operator has not agreed to ", self.endorsing.denial(change))
        self.endorsing.agreed.add(id_of(change), "the members are Maker")
        self.assertIsNone(self.endorsing.denial(change))
        self.assertIn("operator has not agreed to ", self.endorsing.denial({**change, "serial": 2}))
        self.assertEqual(Agreed(self.endorsing.agreed.file).listed(), self.endorsing.agreed.listed())

    async def test_an_agreement_ends(self):
        agreed, ids = self.endorsing.agreed, ["ab", "cd", "ef"]
        for it in ids:
            self.assertEqual(agreed.add(it, f"the words of {it}")["id"], it)
        self.assertEqual((agreed.withdraw("cd"), agreed.withdraw("cd"), agreed.withdraw("zz")), (True, False, False))
        with open(agreed.file, "a") as file:
            file.write("0f" * 32 + '\n[]\n{"id":5}\n{"id":"gh","until":1')
        for held in (agreed, Agreed(agreed.file)):
            self.assertEqual([(it["id"], it["words"]) for it in held.listed()], [("ab", "the words of ab"), ("ef", "the words of ef")])
        Agreed(agreed.file).add("gh", "behind a torn line")
        self.assertTrue(Agreed(agreed.file).holds("gh"))
        with mock.patch.object(endorsing.time, "time", return_value=time.time() + 7 * 86400 + 1):
            self.assertEqual(agreed.listed(), [])

    async def test_a_change_is_asked_for_as_agreed(self):
        change = {"members": [{"name": "Maker"}], "policy": "'Maker'", "serial": 1, "nonce": "07" * 16}
        self.endorsing.agreed.add(id_of(change), "the members are Maker")
        for said, answer in [("endorsed aa 01", {"payload": "aa", "endorsement": "01"}), ("refused 406", {"refused": "refused 406"}),
                             ("refused 806", {"refused": "refused 806"}), ("bad", {"refused": "refused 303"})]:
            self.chain.peer = Says(said, height=4)
            self.assertEqual(await self.endorsed(change), [{**answer, "height": 4}])
            self.assertEqual(self.chain.peer.given, [("agreed", json.dumps(change))])
        self.endorsing.agreed.withdraw(id_of(change))
        self.assertEqual(await self.endorsed(change), [{"denied": f"its operator has not agreed to {id_of(change)}", "height": 0}])
        self.assertEqual(len(self.chain.peer.given), 1)

    async def test_an_approver_is_asked(self):
        self.endorsing.approver, self.chain.peer = Says("yes", "not today"), Says("endorsed aa 01")
        said = await self.endorsed(CALL, {**CALL, "nonce": "08" * 16})
        self.assertEqual(said, [{"payload": "aa", "endorsement": "01", "height": 0}, {"denied": "not today", "height": 0}])
        self.assertEqual(json.loads(self.endorsing.approver.given[0][0]), {"asker": "Shop/node", **CALL})
        self.assertEqual(self.chain.peer.given, [("call", json.dumps(CALL))])

    async def test_a_place_is_looked_at_by_what_the_peer_says(self):
        signed, bare = "seen Maker 3 00 ff", "seen Maker 3 00"
        for key, seen, told in [(None, bare, endorsing.NO_MEMBER), (Key(public=b"k"), bare, endorsing.OLD_SEED), (Key(public=b"k"), signed, None),
                                (Key(shared=b"k"), bare, None), (Key(public=b"k"), "bad", None)]:
            self.endorsing.look_at_place(key, seen)
            self.assertEqual(self.endorsing.out_of_place, told)
        self.assertEqual(self.said, [f"nothing is endorsed: {it}" for it in (endorsing.NO_MEMBER, endorsing.OLD_SEED)])

    async def looked(self, standing: mock.AsyncMock, answers: dict[str, Callable[[], str]], *heights: int) -> None:
        """Keeps the place while the chain grows to these heights, one after another. The peer answers `seen` so."""
        async def answer_to(_kind: str, text: str) -> tuple[str, int]:
            return answers[text](), int(text)
        self.chain.peer = mock.Mock(answer_to=mock.AsyncMock(side_effect=answer_to))
        self.chain.keys = mock.Mock(serial=0, at=standing)
        work = asyncio.ensure_future(self.endorsing.keep_place())
        for calls, height in enumerate(heights, 1):
            if height:
                await self.chain.committed(height)
            while standing.await_count < calls:
                await asyncio.sleep(0.01)
            for _ in range(5):
                await asyncio.sleep(0)
        work.cancel()

    async def test_a_place_is_looked_at_whenever_the_members_have_changed(self):
        def change() -> str:
            self.chain.keys.serial = 1
            return "seen Maker 2 00 ff"
        said = {"0": lambda: "bad", "1": lambda: "seen Maker 1 00 ff", "2": change, "3": lambda: "seen Maker 3 00"}
        standing = mock.AsyncMock(return_value={"Maker": Key(public=b"k")})
        await self.looked(standing, said, 0, 1)
        self.assertIsNone(self.endorsing.out_of_place)
        self.endorsing.looked = -1
        await self.looked(standing, said, 2, 3, 4)
        self.assertEqual([it.args for it in self.chain.peer.answer_to.call_args_list], [("seen", "2"), ("seen", "3")])
        self.assertEqual(self.endorsing.out_of_place, endorsing.OLD_SEED)

    async def test_members_that_change_while_the_peer_is_asked_are_looked_at(self):
        standing = mock.AsyncMock(return_value={})

        def change() -> str:
            self.chain.keys.serial, standing.return_value = 1, {"Maker": Key(shared=b"k")}
            return "seen Maker 1 00"
        await self.looked(standing, {"0": lambda: "bad", "1": change, "2": lambda: "seen Maker 2 00"}, 0, 1, 2)
        self.assertEqual((self.endorsing.out_of_place, self.said), (None, [f"nothing is endorsed: {endorsing.NO_MEMBER}"]))

    async def test_who_has_no_place_is_told_once(self):
        """The peer says so of each call by the state that it has then, and of the next one too."""
        self.chain.peer = Says("refused 806", "refused 806", "endorsed aa 01", height=3)
        said = await self.endorsed(CALL, CALL, CALL)
        self.assertEqual(said, [{"refused": "refused 806", "height": 3}] * 2 + [{"payload": "aa", "endorsement": "01", "height": 3}])
        self.assertEqual(self.said, ["nothing is endorsed: the organisation is no member: not yet, or no more"])

    async def test_what_the_peer_answers(self):
        """At the height that it says, whatever the chain has by then."""
        self.chain.peer, self.chain.height = Says("endorsed aa 01", "refused 404 status 2", "bad", height=3), 4
        self.assertEqual(await self.endorsed(CALL, CALL, CALL), [
            {"payload": "aa", "endorsement": "01", "height": 3}, {"refused": "refused 404 status 2", "height": 3},
            {"refused": "refused 303", "height": 3}])
        with self.assertRaisesRegex(FilterEnded, "it has ended"):
            await self.endorsed(CALL)

    async def test_the_peer_has_so_many_calls_of_one_asker_at_a_time(self):
        """However many one asks for, those of others come soon."""
        asked: list[asyncio.Future[tuple[str, int]]] = []

        def answer_to(_kind: str, _text: str) -> asyncio.Future[tuple[str, int]]:
            asked.append(asyncio.get_running_loop().create_future())
            return asked[-1]

        async def rest() -> int:
            for _ in range(5):
                await asyncio.sleep(0)
            return len(asked)
        self.chain.peer = mock.Mock(answer_to=answer_to)
        many = [asyncio.ensure_future(self.endorsing.answers("Carrier/node", [CALL] * 500)) for _ in range(4)]
        self.assertEqual(await rest(), endorsing.OF_ASKER)
        one = asyncio.ensure_future(self.endorsing.answers("Shop/node", [CALL]))
        self.assertEqual(await rest(), endorsing.OF_ASKER + 1)
        for it in asked[:]:
            it.set_result(("endorsed aa 01", 0))
        self.assertEqual((await one)[0]["payload"], "aa")
        self.assertEqual(await rest(), 2 * endorsing.OF_ASKER + 1)
        for it in many:
            it.cancel()
        await asyncio.gather(*many, return_exceptions=True)
        had = await rest()
        self.assertLess(had, 3 * endorsing.OF_ASKER)
        again = asyncio.ensure_future(self.endorsing.answers("Carrier/node", [CALL] * 500))
        self.assertEqual(await rest(), had + endorsing.OF_ASKER)
        again.cancel()

    async def test_the_approver_has_so_many_calls_of_one_asker_at_a_time(self):
        """However slow it is, it comes to those of others soon."""
        asked: list[tuple[str, asyncio.Future[str]]] = []

        def ask(line: str) -> asyncio.Future[str]:
            asked.append((json.loads(line)["asker"], asyncio.get_running_loop().create_future()))
            return asked[-1][1]
        self.endorsing.approver, self.chain.peer = mock.Mock(ask=ask), Says(*["endorsed aa 01"] * 501)
        many = asyncio.ensure_future(self.endorsing.answers("Carrier/node", [CALL] * 500))
        one = asyncio.ensure_future(self.endorsing.answers("Shop/node", [CALL]))
        while len(asked) <= endorsing.OF_ASKER:
            await asyncio.sleep(0)
        self.assertEqual([it for it, _ in asked], ["Carrier/node"] * endorsing.OF_ASKER + ["Shop/node"])
        asked[-1][1].set_result("yes")
        self.assertEqual((await one)[0]["payload"], "aa")
        for _, it in asked[:-1]:
            it.set_result("")
        while len(asked) <= 2 * endorsing.OF_ASKER:
            await asyncio.sleep(0)
        many.cancel()

    async def test_who_is_no_member_endorses_nothing(self):
        """Whatever the node has heard of its place: the peer says so by its own state."""
        self.chain.peer = Says("refused 806", "refused 808", height=5)
        self.assertEqual(await self.endorsed(CALL, CALL), [{"refused": "refused 806", "height": 5}, {"refused": "refused 808", "height": 5}])
        self.assertEqual(self.endorsing.out_of_place, endorsing.OLD_SEED)


class Calls(Case):
    """Answers are those of a list, by organisation. Endorsements pass."""

    async def asyncSetUp(self):
        await super().asyncSetUp()
        self.gateway.faults = mock.AsyncMock(return_value={})
        # The members have been known since the chain began.
        self.chain.keys.since, self.chain.keys.height = 0, 3

    def answer(self, **answers):
        self.asked, self.chain.height, self.chain.awaited = [], 3, Awaited(4)

        async def ask(organisation, _caller, _proposal, height):
            self.asked.append((organisation, height))
            return answers[organisation].pop(0)
        self.gateway.ask = ask if answers else self.gateway.ask

    def held(self) -> Held:
        return Held(self.gateway.held, "Maker/alice")

    async def entries(self, count: int) -> None:
        """Waits until so many entries are in the log."""
        while len(self.chain.log.entries) < count:
            await asyncio.sleep(0.01)

    async def refusal(self, named=None) -> tuple[int, str]:
        with self.assertRaises(Refused) as raised:
            await self.gateway.endorsed(self.held(), CALL, named)
        return raised.exception.status, raised.exception.said["why"]

    async def test_the_fewest_are_asked(self):
        self.assertEqual(await self.gateway.organisations(CALL, gateway.Asking("Maker", None)), ["Maker", "Carrier"])
        self.assertEqual(await self.gateway.fewest("assets", ["Shop", "Maker", "Carrier"]), ["Shop", "Carrier"])
        self.assertEqual((await self.gateway.fewest("assets", ["Maker", "Carrier", "Shop"])), ["Maker", "Carrier"])

    async def test_who_is_down_is_not_asked(self):
        self.gateway.links["Carrier"].down = 1e18
        self.answer()
        self.assertEqual(await self.refusal(), (503, "the nodes that are up do not satisfy the policy of assets: Maker"))

    async def test_an_envelope_is_made_of_what_agrees(self):
        self.answer(Maker=[{**ENDORSED}], Carrier=[{**ENDORSED, "endorsement": "02"}])
        self.assertEqual(await self.gateway.endorsed(self.held(), CALL, None), "aa020102")

    async def test_who_is_behind_is_asked_again_on_the_height_of_the_other(self):
        self.answer(Maker=[{**ENDORSED, "height": 2, "payload": "bb"}, ENDORSED], Carrier=[ENDORSED, ENDORSED])
        await self.gateway.endorsed(self.held(), CALL, None)
        self.assertEqual([height for _, height in self.asked], [0, 0, 3, 3])

    async def test_who_stays_behind_is_passed_over(self):
        late = {**ENDORSED, "height": 2, "payload": "bb"}
        self.answer(Maker=[ENDORSED] * 3, Carrier=[late] * 2)
        self.assertEqual(await self.refusal(), (503, "the nodes that are up do not satisfy the policy of assets: Maker"))
        self.assertEqual(self.asked, [("Maker", 0), ("Carrier", 0), ("Maker", 3), ("Carrier", 3)])
        self.assertEqual(self.said, ["no endorsement of Carrier: it has 2 blocks, and not yet 3"])

    def shop(self) -> None:
        """The Shop has a node as well, and may endorse in the Carrier's place."""
        self.chain.peer.satisfying = [{"Maker", "Carrier"}, {"Maker", "Shop"}]
        with mock.patch.object(config.Config, "node_tls", return_value=None):
            self.config.nodes["Shop"] = "https://127.0.0.3:7051"
            self.gateway.links["Shop"] = Link("Shop", self.config, self.said.append)

    async def test_who_says_that_it_has_blocks_that_nobody_gets_is_passed_over(self):
        """Else the others, who do not come up to these, would be passed over for it, and each call would end with no answer."""
        self.shop()
        shop = {**ENDORSED, "endorsement": "02"}
        told = f"no endorsement of Carrier: {gateway.TOO_HIGH}"
        for lie in ({"refused": "refused 404", "height": 53}, {**ENDORSED, "payload": "bb", "height": 53}):
            with self.subTest(lie=lie):
                self.gateway.chosen, self.gateway.links["Carrier"].down = {}, 0
                self.answer(Maker=[ENDORSED] * 12, Carrier=[lie] * 12, Shop=[shop] * 12)
                self.assertEqual(await self.gateway.endorsed(self.held(), CALL, None), "aa020102")
                self.assertEqual(([it for it, _ in self.asked].count("Carrier"), self.asked[-1]), (4, ("Shop", 3)))
        self.chain.peer.satisfying = [{"Maker", "Carrier", "Shop"}]
        self.gateway.chosen, self.gateway.links["Carrier"].down = {}, 0
        self.answer(Maker=[ENDORSED] * 12, Carrier=[lie] * 12, Shop=[shop] * 12)
        self.assertEqual(await self.refusal(), (503, told))
        self.assertEqual(self.said, [told] * 3)

    async def test_who_says_that_there_are_more_blocks_than_can_be_is_passed_over(self):
        self.chain.given, self.chain.read = 12, 2
        self.answer(Maker=[ENDORSED], Carrier=[{**ENDORSED, "height": LAST_BLOCK, "payload": "bb"}])
        self.assertEqual(await self.refusal(), (503, "the nodes that are up do not satisfy the policy of assets: Maker"))
        self.assertEqual(self.said, ["no endorsement of Carrier: it says that it has 65535 blocks, and there can be 123"])

    async def test_refusals(self):
        self.answer(Maker=[{"refused": "refused 404", "height": 3}], Carrier=[{"refused": "refused 404", "height": 3}])
        self.assertEqual(await self.refusal(), (422, "the chaincode refused the call"))
        self.answer(Maker=[ENDORSED], Carrier=[{"denied": "not today", "height": 3}])
        self.assertEqual(await self.refusal(), (422, "Carrier does not endorse it: not today"))
        self.answer(Maker=[ENDORSED], Carrier=[None])
        self.assertEqual(await self.refusal(["Maker", "Carrier"]), (503, "no answer of Carrier"))
        self.answer(Maker=[ENDORSED] * 12, Carrier=[{**ENDORSED, "payload": "bb"}] * 12)
        self.assertEqual(await self.refusal(["Maker", "Carrier"]), (503, "the organisations do not simulate on one state"))

    async def test_who_refuses_what_others_endorse(self):
        no_module = {"refused": "refused 406", "height": 3}
        self.answer(Maker=[ENDORSED], Carrier=[no_module])
        self.assertEqual(await self.refusal(), (422, "Carrier does not endorse it: no module of the definition's digest and profile is installed or at hand"))
        self.assertEqual(len(self.asked), 2)
        self.answer(Maker=[ENDORSED] * 2, Carrier=[{**no_module, "height": 2}, ENDORSED])
        self.assertEqual(await self.gateway.endorsed(self.held(), CALL, None), "aa020101")

    async def test_another_one_is_asked_in_the_place_of_who_refuses(self):
        self.shop()
        refused = {"refused": "refused 406", "height": 3}
        for carrier in ([{"denied": "not today", "height": 3}], [refused]):
            self.gateway.chosen, turns = {}, len(carrier) + 1
            self.answer(Maker=[ENDORSED] * turns, Carrier=carrier, Shop=[{**ENDORSED, "endorsement": "02"}])
            self.assertEqual(await self.gateway.endorsed(self.held(), CALL, None), "aa020102")
        self.answer(Maker=[ENDORSED], Carrier=[{"denied": "not today", "height": 3}])
        self.assertEqual(await self.refusal(["Maker", "Carrier"]), (422, "Carrier does not endorse it: not today"))
        self.answer(Maker=[{"denied": "not today", "height": 3}], Carrier=[ENDORSED])
        self.assertEqual(await self.refusal(), (422, "Maker does not endorse it: not today"))

    async def test_who_is_at_fault_is_passed_over_at_once(self):
        for fault in (gateway.OTHER_KEY, gateway.OTHER_PAYLOAD):
            self.gateway.links["Carrier"].down = 0
            self.answer(Maker=[ENDORSED], Carrier=[ENDORSED])
            self.gateway.faults.return_value = {"Carrier": fault}
            self.assertEqual(await self.refusal(), (503, f"no endorsement of Carrier: {fault}"))
            self.assertEqual((self.said[-1], self.gateway.links["Carrier"].down > 0), (f"no endorsement of Carrier: {fault}", True))

    async def test_who_is_at_fault_on_blocks_that_this_node_does_not_know_is_passed_over_once_it_is_sure(self):
        """As behind a change of key: the next one is right."""
        self.chain.keys.since = 3
        for height in (2, 4):
            doubted = {**ENDORSED, "height": height}
            with self.subTest(height=height):
                self.answer(Maker=[ENDORSED] * 2, Carrier=[doubted, ENDORSED])
                self.gateway.faults.side_effect = [{"Carrier": "it lies"}, {}]
                self.assertEqual(await self.gateway.endorsed(self.held(), CALL, ["Maker", "Carrier"]), "aa020101")
                self.answer(Maker=[ENDORSED] * 3, Carrier=[doubted] * 3)
                self.gateway.faults.side_effect = [{"Carrier": "it lies"}] * 3
                self.assertEqual(await self.refusal(["Maker", "Carrier"]), (503, "no endorsement of Carrier: it lies"))
                self.assertEqual([height for _, height in self.asked], [0, 0] + [max(3, height)] * 4)

    async def test_this_node_is_asked_too_where_others_are_named(self):
        self.answer(Maker=[ENDORSED], Carrier=[ENDORSED])
        self.assertEqual(await self.gateway.endorsed(self.held(), CALL, ["Carrier"]), "aa0101")
        self.assertEqual((len(self.asked), list(self.gateway.faults.call_args.args[1]), self.gateway.faults.call_args.args[2]),
                         (2, ["Carrier"], ENDORSED))

    async def test_an_approver_that_has_ended_gives_no_answer(self):
        self.endorsing.approver = Says()
        self.assertIsNone(await self.gateway.own("Maker/alice", CALL, 0))
        self.assertEqual(await self.refusal(["Maker"]), (503, "no answer of Maker"))

    async def test_an_unknown_organisation(self):
        self.assertEqual(await self.refusal(["Nobody"]), (422, "no node of Nobody is known here"))

    async def test_a_change_names_who_has_agreed(self):
        change = {"members": [{"name": "Maker"}], "policy": "'Maker'", "serial": 1, "nonce": "07" * 16}
        with self.assertRaisesRegex(Refused, "names the organisations that have agreed to it"):
            await self.gateway.submit("Maker/alice", change, 60.0)

    async def test_so_many_are_under_way_at_most(self):
        with mock.patch.object(gateway, "MOST_UNDER_WAY", 0), self.assertRaises(Refused) as raised:
            await self.gateway.submit("Maker/alice", CALL, 60.0)
        self.assertEqual((raised.exception.status, self.chain.waiters), (503, {}))

    async def test_calls_of_one_caller_hold_so_many_bytes(self):
        """As long as they wait for other answers, or for the log; others go on."""
        calls = [{**CALL, "nonce": f"{it:032x}"} for it in range(5)]
        size = load.size_of(CALL) + 2 * load.size_of(ENDORSED)
        self.answer(Maker=[ENDORSED] * 5, Carrier=[ENDORSED] * 5)
        with mock.patch.object(load, "CALLS_OF_CALLER", 2 * size), mock.patch.object(load, "CALLS", 3 * size):
            said = [await self.gateway.submit_all(it, [call], 0.05) for it, call in zip(("Maker/alice",) * 3 + ("Maker/bob",) * 2, calls)]
        self.assertEqual([it.get("pending") or it["why"][:16] for answers in said for it in answers],
                         [True, True, "calls of Maker/a", True, "calls have 0 MiB"])
        self.assertEqual(self.gateway.held, {"Maker/alice": 2 * size, "Maker/bob": size})
        work = asyncio.ensure_future(self.chain.put_envelopes())
        while self.gateway.under_way:
            await asyncio.sleep(0.01)
        work.cancel()
        self.assertEqual(self.gateway.held.total(), 0)

    async def test_one_nonce_is_put_once(self):
        self.answer(Maker=[ENDORSED] * 2, Carrier=[ENDORSED] * 2)
        work = asyncio.ensure_future(self.chain.put_envelopes())
        both = [asyncio.ensure_future(self.gateway.submit("Maker/alice", CALL, 60.0)) for _ in range(2)]
        await self.entries(1)
        self.chain.resolve(id_of(CALL), {"id": id_of(CALL), "block": 1, "place": 0, "flag": 0, "result": ""})
        first, second = await asyncio.gather(*both)
        work.cancel()
        self.assertEqual((first, first["valid"], len(self.chain.log.entries)), (second, True, 1))
        self.assertEqual((self.gateway.under_way, self.chain.waiters), ({}, {}))

    async def test_one_that_is_in_the_chain_is_not_put(self):
        tx = {"id": id_of(CALL), "block": 1, "place": 0, "flag": 0, "result": "00"}
        self.chain.peer.known = {id_of(CALL): tx}
        self.chain.height = LAST_BLOCK
        self.assertEqual((await self.gateway.submit("Maker/alice", CALL, 5.0))["result"], "00")

    async def test_one_that_another_node_has_put_meanwhile_is_not_refused(self):
        tx = {"id": id_of(CALL), "block": 1, "place": 0, "flag": 0, "result": "00"}

        async def ask(*_):
            self.chain.peer.known = {id_of(CALL): tx}
            return {"refused": "refused 404", "height": 3}
        self.gateway.ask = ask
        self.assertEqual((await self.gateway.submit("Maker/alice", CALL, 5.0))["valid"], True)

    async def test_it_is_told_that_one_is_in_no_block_yet(self):
        self.answer(Maker=[ENDORSED], Carrier=[ENDORSED])
        work = asyncio.ensure_future(self.chain.put_envelopes())
        said = await self.gateway.submit("Maker/alice", CALL, 0.1)
        work.cancel()
        self.assertEqual((said["pending"], said["id"]), (True, id_of(CALL)))

    async def test_what_is_in_the_log_is_not_put_again(self):
        self.answer(Maker=[ENDORSED] * 2, Carrier=[ENDORSED] * 2)
        work = asyncio.ensure_future(self.chain.put_envelopes())
        for _ in range(2):
            self.assertTrue((await self.gateway.submit("Maker/alice", CALL, 0.1))["pending"])
            await self.entries(1)
        self.assertEqual((len(self.chain.log.entries), self.chain.in_log), (1, {id_of(CALL): "Maker/alice"}))
        self.chain.resolve(id_of(CALL), {"id": id_of(CALL), "refused": 441})
        await asyncio.sleep(0)
        self.assertTrue((await self.gateway.submit("Maker/alice", CALL, 0.1))["pending"])
        await self.entries(2)
        work.cancel()

    async def test_what_is_not_put_may_be_put_again(self):
        self.answer(Maker=[ENDORSED] * 2, Carrier=[ENDORSED] * 2)
        self.chain.log.failure = "no majority"
        work = asyncio.ensure_future(self.chain.put_envelopes())
        for _ in range(2):
            failure, = await asyncio.gather(self.gateway.submit("Maker/alice", CALL, 60.0), return_exceptions=True)
            self.assertEqual(str(failure), "no majority")
        self.assertEqual((self.chain.in_log, self.chain.waiters), ({}, {}))
        work.cancel()

    async def test_what_is_too_large_is_not_put(self):
        self.answer(Maker=[{**ENDORSED, "payload": "aabb"}], Carrier=[{**ENDORSED, "payload": "aabb"}])
        with self.assertRaises(Refused) as raised:
            await self.gateway.submit("Maker/alice", CALL, 60.0)
        self.assertEqual((raised.exception.status, raised.exception.said["refused"], self.chain.log.entries), (422, 421, {}))

    async def test_several_are_answered_each_by_itself(self):
        self.answer(Maker=[{"refused": "refused 404", "height": 3}], Carrier=[{"refused": "refused 404", "height": 3}])
        said = await self.gateway.submit_all("Maker/alice", [CALL, {"chaincode": 5}], 60.0)
        self.assertEqual([(it["status"], it.get("refused"), it["why"].split()[0]) for it in said], [(422, 404, "the"), (400, None, "chaincode")])
        self.answer(Maker=[ENDORSED], Carrier=[ENDORSED])
        self.chain.put = mock.AsyncMock(side_effect=LogError("the log takes none"))
        self.assertEqual(await self.gateway.submit_all("Maker/alice", [CALL], 60.0), [{"status": 503, "why": "the log takes none"}])


if __name__ == "__main__":
    unittest.main()
