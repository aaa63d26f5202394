"""When an organisation asks for blocks, over simulated years, and what is told of a chain that comes to its end."""
import dataclasses
import random
import unittest

import support
from regtuma import ticks
from regtuma.ticks import DAY, LAST_BLOCKS, Ticks

BEGINS = float(DAY)
# The last block of a ledger under rules 1, and the share of one organisation.
LAST_BLOCK, SHARE = LAST_BLOCKS[1], Ticks().share


def chain(rule: Ticks, arrivals: list[float], block: int = 512) -> tuple[int, list[float]]:
    """How many blocks calls of one organisation at these times bring about, and how long each call waits, sorted."""
    brought, waits = 0, []
    pending: list[float] = []
    for at in arrivals:
        if pending and at >= (due := pending[0] + rule.seconds(brought, pending[0])):
            waits += [due - it for it in pending]
            brought, pending = brought + 1, []
        pending.append(at)
        if len(pending) == block:
            waits += [at - it for it in pending]
            brought, pending = brought + 1, []
    return brought, sorted(waits)


def office(days: int, calls_a_day: int) -> list[float]:
    """Calls at random in the eight working hours of each of five days of seven."""
    chance = random.Random(1)
    return sorted(BEGINS + day * DAY + 9 * 3600 + chance.random() * 8 * 3600
                  for day in range(days) if day % 7 < 5 for _ in range(calls_a_day))


def plan(days: int, **more) -> Ticks:
    return dataclasses.replace(Ticks(begins=BEGINS, lasts_days=days, burst=1000, longest=700.0), **more)


class Years(unittest.TestCase):
    def test_light_traffic_waits_half_a_second(self):
        brought, waits = chain(plan(5 * 365), office(5 * 365, 30))
        self.assertLess(brought, LAST_BLOCK)
        self.assertEqual(waits[len(waits) * 99 // 100], 0.5)

    def test_a_share_lasts_as_long_as_it_was_laid_out(self):
        for calls in (100, 1000):
            brought, waits = chain(plan(365, longest=3600.0), office(365, calls))
            self.assertLessEqual(brought, SHARE)
            self.assertLess(waits[-1], 3600.1)

    def test_five_busy_years(self):
        brought, _ = chain(plan(5 * 365, longest=3600.0), office(5 * 365, 300))
        self.assertLessEqual(brought, SHARE)

    def test_without_a_plan_each_block_waits_alike(self):
        self.assertEqual(Ticks().seconds(60000, 1e9), 0.5)

    def test_nobody_waits_longer_than_the_longest(self):
        self.assertEqual(plan(365, longest=60.0).seconds(LAST_BLOCK, BEGINS + DAY), 60.0)

    def test_before_the_day_it_begins_the_burst_is_there(self):
        self.assertEqual((plan(365).seconds(999, 0.0), plan(365).seconds(1000, 0.0) > 0.5), (0.5, True))


class Words(unittest.TestCase):
    def test_a_promise_that_is_not_kept_is_told(self):
        self.assertIn("lets this organisation use up its share after 398 days of steady traffic, not after 1825: 3275 s would do", plan(1825).promise())
        self.assertEqual((plan(365).promise(), Ticks().promise()), ("", ""))

    def test_the_end_comes_near(self):
        rule = Ticks()
        said = [rule.warning(*it, rule.wait) for it in ((55535, ticks.FEW), (55535, ticks.FEW - 1), (LAST_BLOCK - 1, 0), (LAST_BLOCK, 0))]
        self.assertEqual(said, ["", "the chain has 10,000 blocks left, and this organisation's share of these is 4,999",
                                "the chain has 1 blocks left, and this organisation's share of these is 0",
                                "the chain is full: it has its 65,535 blocks, and takes no calls"])

    def test_ahead_of_the_plan(self):
        said = "this organisation is ahead of its plan, so it asks for a block after 700 s: 40,000 blocks of its share are left"
        self.assertEqual([plan(365).warning(5000, 40000, it) for it in (0.5, 700.0)], ["", said])

    def test_the_last_block_is_the_end(self):
        for last in LAST_BLOCKS.values():
            self.assertEqual([Ticks(last=last).is_full(it) for it in (1, last, last + 1)], [False, False, True])

    def test_under_rules_2_a_share_lasts_47_years_at_half_a_second(self):
        rule = Ticks(last=LAST_BLOCKS[2])
        self.assertEqual((rule.share, int(rule.shortest_days() / 365)), (3_000_000_000, 47))
        self.assertEqual(rule.warning(65_535, rule.share, rule.wait), "")
        self.assertEqual(dataclasses.replace(plan(1825), last=rule.last).promise(), "")

    def test_of_a_long_chain_the_end_is_told_weeks_before(self):
        rule = Ticks(last=LAST_BLOCKS[2])
        self.assertEqual((rule.few, int(rule.few * rule.wait / DAY), Ticks().few), (4_000_000, 23, ticks.FEW))
        said = [rule.warning(it, rule.share, rule.wait) for it in (70_000, rule.last - rule.few, rule.last - rule.few + 1, rule.last)]
        self.assertEqual(said, ["", "", "the chain has 3,999,999 blocks left, and this organisation's share of these is 3,999,999",
                                "the chain is full: it has its 4,000,000,000 blocks, and takes no calls"])


if __name__ == "__main__":
    unittest.main()
