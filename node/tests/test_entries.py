"""Which lines of a log count, and how many blocks each organisation's part of it may bring about."""
import itertools
import json
import pathlib
import random
import re
import sys
import tempfile
import unittest

import support
from regtuma import entries
from regtuma.entries import Entry, Lines, LogError, Shares
from regtuma.ticks import LAST_BLOCKS

# Envelopes of the fewest bytes, which nobody has endorsed: calls of `a` and `b` with no argument, no reads, no writes.
ENVELOPE, OTHER = "0161" + "00" * 27, "0162" + "00" * 27
GENESIS = support.ROOT / "examples" / "assets" / "genesis.json"


def counted(lines: Lines, *given: tuple[str, str], first: int = 2) -> list[str]:
    """The lines that count of entries, each a name and its text."""
    made = [lines.of(Entry(number, name.encode(), text.encode("latin-1"))) for number, (name, text) in enumerate(given, first)]
    return [line.decode().rstrip("\n") for it in made for line in it.values()]


def grown(lines: Lines, many: int) -> Lines:
    """Lines of a log with so many envelopes, as there are where it has so many blocks. None of them waits."""
    counted(lines, ("Depot/a", f"{ENVELOPE}\n" * many), (f"Depot/tick-{lines.ticks + 1}", "tick"), first=1)
    return lines


class Counts(unittest.TestCase):
    def test_what_can_be_no_mark_does_not(self):
        noise = f"\n\nno hex\n{ENVELOPE} \nTICK\ngenesis 00\nmodule 1 0061736d\nseen\nseen \nseen Maker\n\xff\n{ENVELOPE}g\n {ENVELOPE}\r"
        self.assertEqual(counted(Lines(), ("Maker/a", f"{noise}\n{ENVELOPE}aB")), [f"2.13 {ENVELOPE}aB"])

    def test_an_envelope_has_so_many_bytes(self):
        self.assertEqual(len(ENVELOPE), 2 * entries.SHORTEST)
        given = "\n".join((ENVELOPE[:-1], ENVELOPE[:-2], "", ENVELOPE + "0", ENVELOPE))
        self.assertEqual(counted(Lines(), ("Maker/a", given)), [f"2.3 {ENVELOPE}0", f"2.4 {ENVELOPE}"])

    def test_an_organisation_speaks_for_itself(self):
        given = [("Shop/seen-1", f"seen Maker 1 00\n{ENVELOPE}"), ("Maker/seen-1", "seen Maker 1 \xff"), ("seen", "seen")]
        self.assertEqual(counted(Lines(), *given), [f"2.1 {ENVELOPE}", "3.0 seen Maker 1 \xff"])

    def test_an_organisation_says_of_each_block_once_what_it_is(self):
        said = f"seen Shop 65 00\nseen Shop 6\n{ENVELOPE}\nseen Shop 64 01\nseen Shop 64 02\n{OTHER}"
        given = [("Shop/a", "seen Shop 64 00"), ("Shop/seen-64", said), ("Shop/seen-64", "seen Shop 64 03"), ("Shop/seen-064", "seen Shop 064 00"), ("Shop/seen-65", "seen Shop 65 04"),
                 ("Shop/x/seen-66", "seen Shop 66 00"), ("Maker/seen-64", "seen Maker 64 05"), ("Shop/seen-100000", "seen Shop 100000 00")]
        self.assertEqual(counted(grown(Lines(), 65), *given), [f"3.2 {ENVELOPE}", "3.3 seen Shop 64 01", f"3.5 {OTHER}", "6.0 seen Shop 65 04",
                                                               "8.0 seen Maker 64 05"])

    def test_what_was_seen_has_a_longest_line(self):
        said = f"seen Shop 7 {'0f' * 32} {'0f' * 64}"
        for more, wanted in (("", 1), ("0" * 500, 0)):
            self.assertEqual(len(grown(Lines(), 7).of(Entry(7, b"Shop/seen-7", (said + more).encode()))), wanted)

    def test_a_block_is_seen_once_there_may_be_one_of_its_number(self):
        """A block has an envelope or more, in a refill too; and the ledger's rules have a last block."""
        for lines, wanted in ((Lines(), 3), (Lines(last=2), 2)):
            given = [(f"Shop/seen-{it}", f"seen Shop {it} 00") for it in (1, 2, 3, 4, 4_000_000_000)]
            self.assertEqual(counted(lines, *given), [])
            self.assertEqual(len(counted(grown(lines, 3), *given, first=9)), wanted)
        refill = [("Maker/genesis", f"genesis {'0f' * 32}"), ("Maker/refill-1", f"{ENVELOPE}\n{OTHER}")]
        given = [("Shop/seen-2", "seen Shop 2 00"), ("Shop/seen-3", "seen Shop 3 00")]
        self.assertEqual(counted(Lines(), *refill, *given)[3:], ["4.0 seen Shop 2 00"])

    def test_numbers_past_65_535_count_under_rules_2(self):
        for rules, last in LAST_BLOCKS.items():
            lines = Lines(last=last)
            lines.envelopes, lines.ticks, lines.behind = 70_000, 69_999, {b"Maker"}
            given = [(f"Shop/seen-{it}", f"seen Shop {it} 00") for it in (65_535, 65_536, 70_000, 70_001)]
            wanted = ["2.0 seen Shop 65535 00", "3.0 seen Shop 65536 00", "4.0 seen Shop 70000 00"][:3 if rules == 2 else 1]
            self.assertEqual(counted(lines, *given, ("Maker/tick-70000", "tick"), ("Maker/a", ENVELOPE), ("Maker/tick-70001", "tick")),
                             [*wanted, "6.0 tick", f"7.0 {ENVELOPE}", "8.0 tick"])

    def test_the_first_line_says_which_genesis_counts(self):
        first, other = (f"genesis {it * 32}" for it in ("0f", "f0"))
        for given in ([("Maker/genesis", first)], [("tick-1", other), ("Maker/genesis", first)],
                      [("Maker/tick-1", f"tick\n{first}\n{other}")], [("Maker/genesis", f"{first}\n{other}")] * 9,
                      [("Maker/genesis", first), *((f"Shop/{it}", f"{other}\n" * 500) for it in range(9))]):
            self.assertEqual([it.split(" ", 1)[1] for it in counted(Lines(), *given)], [first])

    def test_nothing_counts_in_what_is_nobodys_part(self):
        for name in ("tick-1", "tick-refill-1", "x", "", "/tick-1", "Ma-ker/tick-1", f"{'M' * 33}/tick-1"):
            given = [("Maker/a", ENVELOPE), (name, f"tick\n{ENVELOPE}\nseen Maker 1 00")]
            self.assertEqual(counted(Lines(), *given), [f"2.0 {ENVELOPE}"], name)

    def test_the_nth_tick_counts_once_where_an_envelope_is(self):
        given = [("Shop/tick-1", "tick"), ("Maker/a", f"{ENVELOPE}\ntick"), ("Maker/tick-2", "tick"), ("Maker/tick-01", "tick"),
                 ("Maker/tick-1-x", "tick"), ("Maker/b/tick-1", "tick"), ("Maker/tick-1", f"{OTHER}\ntick"),
                 ("Shop/tick-1-0f", f"tick\ntick\n{OTHER}\ntick"), ("Maker/tick-1", "tick"), ("Maker/tick-2-1", "tick")]
        self.assertEqual(counted(Lines(), *given), [f"3.0 {ENVELOPE}", f"8.0 {OTHER}", "9.0 tick", f"9.2 {OTHER}", "11.0 tick"])

    def test_so_many_lines_of_an_entry_count(self):
        found = counted(Lines(), ("Maker/a", f"{ENVELOPE}\n" * 501), ("Maker/b", "\n" * 1_400_000), ("Maker/c", "\n" * 499 + ENVELOPE))
        self.assertEqual((len(found), found[-2:]), (501, [f"2.499 {ENVELOPE}", f"4.499 {ENVELOPE}"]))

    def test_entries_of_one_revision_are_numbered_on(self):
        lines = Lines()
        one, two = ENVELOPE.encode(), OTHER.encode()
        given = ((b"Maker/a", one + b"\n" + two), (b"Shop/b", b"\n" + one), (b"x", b""), (b"Maker/d", b"\n" * 600), (b"Shop/c", two))
        found = [list(lines.of(Entry(7, name, text)).values()) for name, text in given]
        self.assertEqual(found, [[b"7.0 %s\n" % one, b"7.1 %s\n" % two], [b"7.3 %s\n" % one], [], [], [b"7.505 %s\n" % two]])


class Refills(unittest.TestCase):
    def test_they_cost_no_share(self):
        lines, blocks = Lines(last=8), f"{ENVELOPE}\ntick\n{OTHER}\ntick"
        refill = [(f"Maker/refill-{it}", text) for text in (blocks, "x") for it in range(3)]
        found = counted(lines, ("Maker/genesis", f"genesis {'0f' * 32}"), *refill)
        self.assertEqual((len(found), lines.shares.paid), (13, {b"": 6 * lines.shares.block}))

    def test_they_come_first_and_of_whom_the_log_begins_with(self):
        first = ("Maker/genesis", f"genesis {'0f' * 32}")
        chain = f"{ENVELOPE}\ntick"
        for given in ([first, ("Shop/refill-1", chain)], [first, ("Maker/a", ""), ("Maker/refill-1", chain)],
                      [("tick-1", ""), ("Maker/refill-1", chain)]):
            self.assertNotIn("tick", str(counted(Lines(), *given)))


class Attacks(unittest.TestCase):
    """One organisation does what it can to end the chain. The others' envelopes come into blocks behind it."""

    def others_go_on(self, lines: Lines, first: int) -> None:
        for part in ("Maker", "Carrier"):
            tick = f"{part}/tick-{lines.ticks + 1}"
            self.assertEqual(len(counted(lines, (f"{part}/call", ENVELOPE), (tick, "tick"), first=first)), 2, part)
            self.assertFalse(lines.behind)

    def test_by_envelopes_and_ticks_in_entries_that_all_may_write(self):
        lines = Lines()
        attack = [(f"tick-{it}", f"{ENVELOPE}\ntick\n" * 30_000) for it in range(3)]
        self.assertEqual(counted(lines, *attack), [])
        self.others_go_on(lines, 9)

    def test_by_envelopes_and_ticks_in_its_own_part(self):
        lines = Lines(last=600)
        attack = [entry for it in range(1, 700) for entry in ((f"Shop/{it}", ENVELOPE), (f"Shop/tick-{it}", "tick"))]
        ticks = str(counted(lines, *attack)).count("tick")
        self.assertTrue(440 <= ticks <= 450, ticks)
        self.assertEqual((lines.shares.left(b"Shop"), lines.shares.left(b"Maker") > 100), (0, True))
        self.others_go_on(lines, 9000)

    def test_by_full_blocks(self):
        lines = Lines(count=10, preferred=4096, last=600)
        many = len(counted(lines, *((f"Shop/{it}", f"{ENVELOPE}\n" * 400) for it in range(30))))
        self.assertLessEqual(many, 4500)
        self.assertEqual(counted(lines, ("Shop/large", "00" * 4096), first=200), [])
        self.others_go_on(lines, 9000)

    def test_by_long_envelopes(self):
        """Each peer keeps all their bytes, and so these are paid for."""
        lines, long = Lines(last=600), "00" * 266_531
        many = len(counted(lines, *((f"Shop/{it}", long) for it in range(60))))
        self.assertTrue(50 < many <= 450 * 32_768 // 266_531, many)
        self.others_go_on(lines, 9000)

    def test_by_a_tick_behind_each_envelope_of_others(self):
        """Who ticks pays: what others put costs them no more than their part of a block."""
        lines, had = Lines(last=600), Lines(last=600).shares.left(b"Maker")
        for it in range(1, 400):
            counted(lines, (f"Maker/{it}", ENVELOPE), (f"Shop/tick-{it}", "tick"), first=10 * it)
        shares = lines.shares
        self.assertEqual((had, shares.paid[b"Maker"] // shares.block, shares.paid[b"Shop"] // shares.block), (450, 0, 399))
        self.others_go_on(lines, 9000)

    def test_by_signatures_that_all_verify(self):
        lines = grown(Lines(), 9)
        attack = [(f"Shop/seen-{it % 9 + 1}", f"seen Shop {it % 9 + 1} {'00' * 32} {'11' * 64}\n" * 400) for it in range(50)]
        self.assertEqual(len(counted(lines, *attack, ("Shop/x", attack[0][1]))), 9)
        self.others_go_on(lines, 90)

    def test_by_what_it_says_that_it_has_seen(self):
        """Each signature costs each committer its verification: of a block one counts."""
        lines, said = grown(Lines(), 8), f"seen Shop 7 {'0f' * 32} {'0f' * 64}"
        attack = [(f"Shop/{name}", f"{said}\n" * 500) for name in ("x", "seen-7", "seen-07", "seen-8", "seen-7-1", "x/seen-7", "seen-100007")]
        self.assertEqual(counted(lines, *attack), [f"3.0 {said}"])
        for wrong in ("\n" + said, f"seen Shop 70 {'0f' * 32}", "seen Shop 7"):
            self.assertEqual(counted(lines, ("Shop/seen-7", wrong)), [])
        self.others_go_on(lines, 9)

    def test_the_longest_envelope_counts_in_each_ledger(self):
        for preferred in (1, 1000, 65_536, 524_288):
            shares = Shares(512, preferred)
            costs = [shares.cost(it) / shares.block for it in (preferred, preferred + 1, 65_536, 524_288)]
            with self.subTest(preferred=preferred):
                self.assertTrue(max(costs[:3]) < 2.1, costs)
                self.assertEqual(costs[3], 2 if preferred == 524_288 else 16)
                self.assertEqual(len(counted(Lines(512, preferred), ("Maker/a", "00" * 524_288))), 1)

    def test_two_leave_a_sixteenth(self):
        shares = Shares(512, 65536, 600)
        for part in (b"Shop", b"Depot"):
            while shares.pay(part, shares.block):
                pass
        left = 600 - shares.total // shares.block
        self.assertEqual((left, shares.left(b"Shop"), shares.left(b"Depot"), shares.left(b"Maker") > 0), (38, 0, 0, True))

    def test_all_together_have_no_more_than_the_chain(self):
        shares = Shares(512, 65536, 600)
        for it in range(10_000):
            shares.pay(b"%d" % (it % 16), shares.block)
        self.assertTrue(580 <= shares.total // shares.block <= 600)


class Junk(unittest.TestCase):
    """What counts for nothing: it costs each node little, and its part something."""

    def begun(self, last: int = 65_535) -> Lines:
        lines = Lines(last=last)
        counted(lines, ("Maker/genesis", f"genesis {'0f' * 32}"))
        return lines

    def test_python_sees_nothing_of_what_cannot_count(self):
        """However many lines of whatever kind an entry has, it takes few calls."""
        lines, calls = grown(self.begun(), 7), 0

        def count(_frame, event, _):
            nonlocal calls
            calls += event in ("call", "c_call")
        for name, line in itertools.product(("a", "tick-1", "tick-2", "seen-7"), (
                "", "x", "00", "0" * 57, "0" * 60 + "x", "tick", "seen ", "seen Shop 70 ", "seen Shop 8 00", f"genesis {'0f' * 32}", "tick\nx")):
            entry, calls = Entry(5, f"Shop/{name}".encode(), "\n".join([line] * 500).encode()), 0
            sys.setprofile(count)
            found = lines.of(entry)
            sys.setprofile(None)
            with self.subTest(name=name, line=line):
                self.assertEqual((found, calls < 60), ({}, True), calls)

    def test_an_entry_that_counts_for_nothing_costs_a_little(self):
        lines = grown(self.begun(), 8)
        given = [("Shop/a", "x"), ("Shop/b", ""), ("Shop/tick-1", "tick"), ("Shop/seen-7", "x"), ("Shop/seen-8", "seen Shop 8 00"), ("x", "x")]
        self.assertEqual(counted(lines, *given), ["6.0 seen Shop 8 00"])
        self.assertEqual((lines.shares.paid[b"Shop"], lines.shares.least), (4 * lines.shares.block // 512, lines.shares.block // 512))
        counted(lines, ("Carrier/a", ENVELOPE))
        self.assertEqual(lines.shares.paid[b"Carrier"], lines.shares.cost(entries.SHORTEST))

    def test_where_the_share_is_used_up_an_entry_is_passed_over(self):
        """But for what was seen: of that nobody is to be silenced."""
        lines = self.begun(last=2)
        for it in range(3000):
            counted(lines, (f"Shop/{it}", "x"), first=2 + it)
        paid = lines.shares.paid[b"Shop"]
        self.assertTrue(1.4 < paid / lines.shares.block <= 1.5)
        given = [("Shop/a", ENVELOPE), ("Shop/seen-2", f"{ENVELOPE}\nseen Shop 2 00"), ("Carrier/a", ENVELOPE)]
        self.assertEqual(counted(grown(lines, 2), *given, first=9000), ["9001.1 seen Shop 2 00", f"9002.0 {ENVELOPE}"])
        self.assertEqual(lines.shares.paid[b"Shop"], paid)

    def test_one_expression_finds_what_each_line_by_itself_is(self):
        chance, words = random.Random(7), ["", "x", "tick", "tick", "tickx", ENVELOPE, ENVELOPE, OTHER + "x", ENVELOPE[:-1], "seen Shop 2 1",
                                           "seen Shop 2", "seen Shop 2 \xff", f"genesis {'0f' * 32}", f"genesis {'0f' * 31}"]
        for _ in range(300):
            lines, plain = Lines(), Plain()
            for number in range(2, 12):
                name = chance.choice(("Shop/a", f"Shop/tick-{lines.ticks + 1}", "Shop/seen-2", "Shop/refill-1", "x", "Maker/tick-1-0"))
                entry = Entry(number, name.encode(), "\n".join(chance.choices(words, k=chance.randrange(9))).encode("latin-1"))
                self.assertEqual(list(lines.of(entry)), plain.of(entry), entry)
            self.assertEqual((lines.ticks, lines.has_lines), (plain.ticks, plain.has_lines))


class Plain:
    """Which lines count, each by itself, where no share is used up."""

    def __init__(self):
        self.ticks, self.behind, self.has_lines, self.seen, self.names = 0, False, False, set[bytes](), list[bytes]()
        # How many envelopes have counted, and how many before the last entry.
        self.envelopes = self.before = 0

    def of(self, entry: Entry) -> list[int]:
        self.before = self.envelopes
        self.names.append(entry.name)
        is_refill = self.names[0].startswith(b"Shop/") and all(it.startswith(b"Shop/refill-") for it in self.names[1:]) and len(self.names) > 1
        if b"/" not in entry.name:
            return []
        return [place for place, it in enumerate(entry.value.split(b"\n")) if self.counts(entry.name, it, is_refill, place)]

    def counts(self, name: bytes, line: bytes, is_refill: bool, place: int) -> bool:
        if line.startswith(b"seen Shop 2 ") and name == b"Shop/seen-2" and name not in self.seen and self.before >= 2:
            self.seen.add(name)
        elif re.fullmatch(rb"[0-9a-f]{58,}", line):
            self.behind, self.envelopes = True, self.envelopes + 1
        elif line == b"tick" and self.behind and (is_refill or not place and re.fullmatch(rb"\w+/tick-%d(-0)?" % (self.ticks + 1), name)):
            self.ticks, self.behind = self.ticks + 1, False
        elif self.has_lines or not re.fullmatch(rb"genesis [0-9a-f]{64}", line):
            return False
        self.has_lines = True
        return True


def batches(count: int, preferred: int, sizes: list[int]) -> int:
    """How many batches are cut of envelopes of these sizes without a tick, by docs/RULES.md, "Ordering"."""
    cut, waiting = 0, list[int]()
    for size in sizes:
        if waiting and sum(waiting) + size > preferred:
            cut, waiting = cut + 1, []
        waiting.append(size)
        if size > preferred or len(waiting) == count:
            cut, waiting = cut + 1, []
    return cut


class Blocks(unittest.TestCase):
    """A peer never makes more blocks than were paid for, whatever it is given."""

    def blocks(self, count: int, preferred: int, seed: int) -> tuple[int, float]:
        chance, lines, room = random.Random(seed), Lines(count, preferred), self.enterContext(tempfile.TemporaryDirectory())
        genesis = pathlib.Path(room) / "genesis.json"
        genesis.touch(mode=0o600)
        genesis.write_text(json.dumps({**json.loads(GENESIS.read_text()), "count": count, "preferred": preferred}))
        given = b""
        for number in range(2, 82):
            size = chance.choice((0, 1, 30, preferred // 2, max(0, preferred - 28), preferred))
            envelope = f"0161{size:04x}" + "00" * size + "00" * 25
            text, name = (envelope, f"Maker/{number}") if chance.random() < 0.8 else ("tick", f"Shop/tick-{lines.ticks + 1}-{number:x}")
            given += b"".join(b"log " + it for it in lines.of(Entry(number, name.encode(), text.encode())).values())
        said = support.ledger("peer", genesis, pathlib.Path(room) / "chain.store", lines=given.decode())
        self.assertNotIn("skipped", said)
        return said.count("committed "), lines.shares.total / lines.shares.block

    def test_by_the_rules(self):
        """Of lengths up to the longest, for which the program would take long."""
        chance = random.Random(11)
        for count, preferred in itertools.product((1, 2, 7, 512), (1, 500, 65_536, 524_288)):
            shares, kinds = Shares(count, preferred), (29, preferred // 3, preferred, preferred + 1, 65_537, 524_288)
            for _ in range(20):
                sizes = [max(29, chance.choice(kinds)) for _ in range(chance.randrange(1, 40))]
                paid = sum(map(shares.cost, sizes)) / shares.block
                self.assertLessEqual(batches(count, preferred, sizes), paid, (count, preferred, sizes))

    def test_by_the_program(self):
        for count, preferred, seed in ((512, 600, 1), (3, 200, 3), (1, 400, 4), (7, 1, 5)):
            with self.subTest(count=count, preferred=preferred):
                blocks, paid = self.blocks(count, preferred, seed)
                self.assertLessEqual(blocks, paid)
                self.assertGreater(blocks, 5)

    def test_the_last_one_goes_by_the_rules_of_the_genesis_file(self):
        file = pathlib.Path(self.enterContext(tempfile.TemporaryDirectory())) / "genesis.json"
        for rules, last in (({}, 65_535), ({"rules": 1}, 65_535), ({"rules": 2}, 4_000_000_000)):
            file.write_text(json.dumps({"count": 1, "preferred": 1, **rules}))
            self.assertEqual(Lines.by(str(file)).shares.last, last)
        file.write_text(json.dumps({"count": 1, "preferred": 1, "rules": 3}))
        with self.assertRaises(LogError):
            Lines.by(str(file))


if __name__ == "__main__":
    unittest.main()
