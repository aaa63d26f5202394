"""A log that was renewed: which entry says so, what counts behind it, and how nodes go on, with their own stores, short ones and others."""
import asyncio
import hashlib
import shutil
import unittest

import support
import test_chain
import test_network
from regtuma import log, renewal
from regtuma.chain import Chain
from regtuma.entries import Entry, Lines, LogError
from regtuma.etcd import EtcdLog, base64_of
from regtuma.filed import FileLog
from regtuma.filters import FilterEnded
from regtuma.renewal import Renewal
from test_entries import ENVELOPE, OTHER, counted
from test_etcd import DONE, Node
from test_network import call

GENESIS, HASH = f"genesis {'0f' * 32}", "ab" * 32
# Two blocks, and the first entry of a log that goes on behind them.
MARKS = [ENVELOPE, OTHER, "tick", ENVELOPE + "00", "tick"]
FIRST = f"{GENESIS}\nbehind 2 {HASH}"


def begun(first: str = FIRST, name: str = "Maker/genesis") -> Lines:
    """The lines of a log behind its first entry."""
    lines = Lines(last=600)
    counted(lines, (name, first))
    return lines


def renewed() -> Lines:
    lines = begun()
    lines.filled([it.encode() for it in MARKS])
    lines.end_refill()
    return lines


class Lays(unittest.TestCase):
    def test_the_first_entry_is_these_two_lines(self):
        self.assertEqual(Renewal.of(FIRST.encode()), Renewal(2, HASH))
        self.assertEqual(FIRST, f"{GENESIS}\n{Renewal(2, HASH).line()}")
        behind = [f"{it} {HASH}" for it in ("0", "02", "-2", "9" * 11)] + [f"2 {it}" for it in (HASH[1:], HASH.upper(), "")]
        for other in (GENESIS, f"behind 2 {HASH}", f"{FIRST}\n", f"{FIRST}\ntick", f"\n{FIRST}", f"behind 2 {HASH}\n{GENESIS}",
                      *(f"{GENESIS}\nbehind {it}" for it in behind)):
            self.assertIsNone(Renewal.of(other.encode()), other)

    def test_they_count_as_a_refill_does(self):
        refilled = begun(GENESIS)
        found = counted(refilled, ("Maker/refill-1", "\n".join(MARKS[:2])), ("Maker/refill-2", "\n".join(MARKS[2:])), first=3)
        lines = begun()
        made = [it.decode() for marks in (MARKS[:1], MARKS[1:]) for it in lines.filled([it.encode() for it in marks])]
        # The first entry has two lines itself.
        self.assertEqual(made, [f"2.{place} {it}\n" for place, it in enumerate(MARKS, 2)])
        self.assertEqual([it.split(" ")[1] for it in found], MARKS)
        lines.end_refill()
        back = [("Shop/a", f"{ENVELOPE}\ntick"), ("Shop/tick-3", "tick"), ("Carrier/tick-3", "tick"), ("Shop/seen-3", "seen Shop 3 00"),
                ("Shop/seen-5", "seen Shop 5 00"), ("Maker/genesis", GENESIS), ("Maker/b", FIRST)]
        self.assertEqual(counted(lines, *back, first=9), counted(refilled, *back, first=9))
        for it in ("ticks", "behind", "envelopes", "seen", "has_lines", "refill"):
            self.assertEqual(getattr(lines, it), getattr(refilled, it), it)
        self.assertEqual(vars(lines.shares), vars(refilled.shares))

    def test_nothing_else_fills_it(self):
        self.assertEqual(counted(renewed(), ("Maker/refill-1", f"{ENVELOPE}\ntick"), first=9), [f"9.0 {ENVELOPE}"])

    def test_no_other_log_is_filled(self):
        for lines in (Lines(), begun(name="tick-1"), renewed()):
            self.assertEqual(lines.filled([it.encode() for it in MARKS]), [])


class Watched(test_chain.FakeLog):
    """A log that has these entries."""

    def __init__(self, *entries: tuple[str, str]):
        super().__init__()
        self.told = [Entry(number, name.encode(), text.encode()) for number, (name, text) in enumerate(entries, 2)]

    async def watch(self):
        yield self.told[:2]
        yield self.told[2:]


class Heard(test_chain.Says):
    """A peer that keeps the lines of the log which it is given."""

    def __init__(self, *lines: str):
        super().__init__(*lines)
        self.handed_on: list[bytes] = []

    async def log(self, lines: list[bytes]) -> None:
        self.handed_on += lines


class Case(test_chain.Case):
    def program(self, script: str) -> str:
        file = self.folder.path / "program"
        file.write_text(f"#!/bin/sh\n{script}\n")
        file.chmod(0o700)
        return str(file)


class Nodes(Case):
    """A node with a peer that says what a test wants, and a program that prints marks."""

    async def fed(self, *entries, height=2, said=HASH, marks=MARKS, behind="exit 0"):
        """What the peer is handed on of a log, where the store has so many blocks, and this hash of the last one."""
        self.config.ledger.program = self.program("\n".join(f"echo {it}" for it in marks) + f"\n{behind}")
        self.chain = Chain(self.config, Watched(*entries), self.said.append)
        self.peer = Heard(*([f"seen Maker 2 {said} 00"] if said is not None else []))
        self.chain.peer, self.chain.height = self.peer, height
        await self.chain.feed()
        return [it.decode() for it in self.peer.handed_on]

    async def test_the_stores_marks_come_before_the_logs(self):
        back = [("Shop/a", ENVELOPE), ("Maker/refill-1", "tick"), ("Shop/tick-3", "tick")]
        before = [f"2.0 {GENESIS}\n", *(f"2.{place} {it}\n" for place, it in enumerate(MARKS, 2))]
        self.assertEqual(await self.fed(("Maker/genesis", FIRST), *back), [*before, f"3.0 {ENVELOPE}\n", "5.0 tick\n"])
        self.assertEqual((self.chain.given, self.chain.entries, self.chain.revision, self.chain.lines.ticks), (8, 4, 5, 3))
        self.assertEqual(self.peer.given, [("seen", "2")])

    async def test_of_a_longer_store_its_first_blocks_do(self):
        """The program that prints more is not waited for."""
        async with asyncio.timeout(30):
            found = await self.fed(("Maker/genesis", FIRST), height=3, marks=[*MARKS, ENVELOPE, "tick"], behind="exec sleep 60")
        self.assertEqual(len(found), 1 + len(MARKS))

    async def test_a_log_that_is_none_begins_at_its_first_block(self):
        for first in (("Maker/genesis", GENESIS), ("Maker/a", f"behind 2 {HASH}"), ("Maker/a", f"{FIRST}\n"), ("x", FIRST)):
            found = await self.fed(first, ("Maker/genesis-2", FIRST), ("Maker/c", FIRST), height=0)
            self.assertEqual(found[1:] if found else [], [], first)
            self.assertEqual(self.chain.lines.ticks, 0)

    async def test_a_store_that_is_too_short_ends_the_node(self):
        store = self.config.ledger.store
        with self.assertRaises(LogError) as raised:
            await self.fed(("Maker/genesis", FIRST), height=1)
        self.assertEqual(str(raised.exception), f"Maker has renewed the log behind block 2, and {store} has 1 blocks:"
                                                " put a copy of Maker's store in its place")

    async def test_a_peer_that_ends_by_another_genesis_file_is_told_first(self):
        with self.assertRaisesRegex(FilterEnded, "^it has ended$"):
            await self.fed(("Maker/genesis", FIRST), height=1, said=None)

    async def test_another_block_ends_the_node(self):
        for said in ("cd" * 32, HASH[1:], ""):
            with self.assertRaisesRegex(LogError, f"^Maker has renewed the log behind block 2 with the hash {HASH}, and .* has another one: "):
                await self.fed(("Maker/genesis", FIRST), said=said)
        self.assertEqual(self.peer.handed_on, [f"2.0 {GENESIS}\n".encode()])

    async def test_what_the_program_refuses_ends_the_node(self):
        for marks, told in ((["refused 702 block 2"], "ledger marks says: refused 702 block 2"), ([], "ledger marks ended 2 blocks too early"),
                            (MARKS[:3], "ledger marks ended 1 blocks too early")):
            with self.assertRaisesRegex(FilterEnded, f"^{told}$"):
                await self.fed(("Maker/genesis", FIRST), marks=marks)

    async def test_the_longest_mark_is_read(self):
        longest = "0" * (renewal.LONGEST - 1)
        self.config.ledger.program = self.program(f"head -c {len(longest)} /dev/zero | tr '\\0' 0\necho\necho tick")
        found = [it async for it in renewal.marks_of(self.config.ledger, 1)]
        self.assertEqual(found, [[longest.encode(), b"tick"]])


class ByHand(Case):
    """The command that puts the first entry."""

    PEER = f"""[ "$2" = {{genesis}} ] && echo height 2
read line
[ "$line" = "seen last 2" ] && echo answer last 2 seen Maker 2 {HASH} 00"""

    async def renew(self, *answered, script: str = PEER) -> str:
        self.config.ledger.program = self.program(script.replace("{genesis}", self.config.ledger.genesis))
        self.node = await self.enterAsyncContext(Node(*answered))
        made = EtcdLog([self.node.url], "", "", None)
        self.addAsyncCleanup(made.close)
        return await log.renew(made, self.config)

    async def test_it_puts_one_entry(self):
        (self.folder.path / "chain.store").touch()
        said = await self.renew(support.changed(0), DONE, support.changed(1))
        digest = hashlib.sha256(b"").hexdigest()
        self.assertEqual(said, f"the log has begun: its first entry names the genesis file {digest}, and it goes on behind block 2, whose hash is {HASH}")
        put = self.node.asked[1][1]["success"][0]["request_put"]
        self.assertEqual(put, {"key": base64_of("log/Maker/genesis"), "value": base64_of(f"genesis {digest}\nbehind 2 {HASH}")})

    async def test_it_wants_an_empty_log(self):
        with self.assertRaisesRegex(log.NotDone, "^the log has begun already: it has, or had, entries."):
            await self.renew(support.changed(1))

    async def test_an_entry_of_somebody_else_is_told(self):
        (self.folder.path / "chain.store").touch()
        with self.assertRaisesRegex(log.NotDone, "^somebody else has put entries meanwhile, "):
            await self.renew(support.changed(0), DONE, support.changed(2))

    async def test_a_store_without_a_block_is_told(self):
        for _ in range(2):
            with self.assertRaisesRegex(log.NotDone, "chain.store has no block: `begin` begins the log of a new chain$"):
                await self.renew(support.changed(0), script="echo height 0")
            (self.folder.path / "chain.store").touch()

    async def test_a_refusal_of_the_peer_is_told(self):
        (self.folder.path / "chain.store").touch()
        with self.assertRaisesRegex(FilterEnded, "^ledger peer says: refused 703$"):
            await self.renew(support.changed(0), script="echo refused 703; exit 1")


class Chains(test_network.Case):
    """By the program's own peer, over a log in a file."""

    async def asyncSetUp(self):
        await super().asyncSetUp()
        self.begun: list[tuple[Chain, list[asyncio.Future[None]]]] = []

    async def node(self, organisation: str, store: str) -> Chain:
        chain = (await self.begin(organisation, store)).chain
        self.begun.append((chain, self.works))
        return chain

    async def stop(self) -> None:
        for chain, works in self.begun:
            await self.end(works)
            await chain.close()
        self.begun = []

    async def renewed(self, chain: Chain) -> None:
        """All nodes are stopped, and the log is a new one, which goes on behind a chain's store."""
        await self.stop()
        self.log.unlink()
        made = FileLog(str(self.log))
        self.addAsyncCleanup(made.close)
        await log.renew(made, chain.config)
        self.assertEqual(self.log.read_bytes().count(b"\n"), 1)

    async def ended(self, organisation: str, store: str) -> str:
        """Why a node ends, which does not follow its log."""
        await self.node(organisation, store)
        chain, works = self.begun.pop()
        async with asyncio.timeout(test_network.PATIENCE):
            done, _ = await asyncio.wait(works, return_when=asyncio.FIRST_COMPLETED)
        await self.end(works)
        await chain.close()
        return str(next(iter(done)).exception())

    async def test_nodes_go_on_behind_their_stores(self):
        stores = {it: self.at / it for it in ("store", "carrier", "short", "other")}
        maker, carrier = await self.node("Maker", "store"), await self.node("Carrier", "carrier")
        for it in range(3):
            self.assertEqual(await self.flag(maker, call(it), self.enveloped(call(it), "Maker", "Carrier")), 0)
        await self.come(lambda: carrier.height == 3)
        await self.stop()
        whole = stores["store"].read_bytes()
        for it in ("short", "other"):
            stores[it].write_bytes(whole[:-1])

        # One who goes back behind block 2 makes another block 3.
        made = self.enveloped(call(9), "Maker", "Carrier")
        other = await self.node("Maker", "other")
        self.assertEqual(other.height, 2)
        await self.renewed(other)
        other = await self.node("Maker", "other")
        self.assertEqual(await self.flag(other, call(9), made), 0)

        await self.renewed(maker)
        short = await self.ended("Carrier", "short")
        self.assertRegex(short, "^Maker has renewed the log behind block 3, and .*/short has 2 blocks: put a copy of Maker's store in its place$")
        self.assertRegex(await self.ended("Carrier", "other"), "^Maker has renewed the log behind block 3 with the hash .*/other has another one")
        shutil.copy(stores["store"], stores["short"])
        chains = [await self.node(*it) for it in (("Maker", "store"), ("Carrier", "carrier"), ("Shop", "short"))]
        self.assertEqual(await self.flag(chains[0], call(4), self.enveloped(call(4), "Maker", "Carrier")), 0)
        await self.come(lambda: {it.height for it in chains} == {4})
        self.assertEqual({it.lines.ticks for it in chains}, {4})
        await self.stop()
        found = {stores[it].read_bytes() for it in ("store", "carrier", "short")}
        self.assertEqual([it[:len(whole)] for it in found], [whole])


if __name__ == "__main__":
    unittest.main()
