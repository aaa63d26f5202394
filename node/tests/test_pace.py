"""How often a node puts entries into the log, and how many bytes."""
import asyncio
import re
import unittest
from unittest import mock

import support
from regtuma import pace
from regtuma.pace import Pace, pace_of_bytes


class Clock:
    """Turns that take no time, by a clock that goes on where one waits."""

    def __init__(self) -> None:
        self.now, self.slept = 1e6, list[float]()

    def monotonic(self) -> float:
        return self.now

    async def sleep(self, seconds: float) -> None:
        self.slept.append(max(0.0, seconds))
        self.now += max(0.0, seconds)


class Paces(unittest.IsolatedAsyncioTestCase):
    def setUp(self) -> None:
        self.clock = Clock()
        self.enterContext(mock.patch.object(pace, "time", self.clock))
        self.enterContext(mock.patch.object(asyncio, "sleep", self.clock.sleep))

    async def test_who_comes_alone_waits_for_nothing(self) -> None:
        turns = Pace()
        for _ in range(3 * pace.BURST):
            await turns.turn()
            self.clock.now += 0.3
        self.assertEqual(set(self.clock.slept), {0.0})

    async def test_who_begins_with_the_machine_has_its_burst(self) -> None:
        self.clock.now = 0.0
        turns = Pace()
        for _ in range(pace.BURST):
            await turns.turn()
        self.assertEqual(set(self.clock.slept), {0.0})

    async def test_a_node_under_full_load_stays_below_its_share_of_a_door(self) -> None:
        turns, began, count = Pace(), self.clock.now, 0
        while self.clock.now < began + 3600:
            await turns.turn()
            count += 1
        share = re.search(r"puts { sc2_gpc0_rate,sub\(txn.failed\) ge (\d+) }", (support.ROOT / "node" / "door.cfg").read_text())
        assert share
        self.assertEqual((count <= 19_001, int(share[1])), (True, 20_000))
        self.assertEqual([round(it, 6) for it in self.clock.slept[pace.BURST:]], [0.2] * (count - pace.BURST))

    async def test_bytes_stay_below_the_share_of_a_door(self) -> None:
        """In base64, and with what a request has beside them; and a caller has a half."""
        share, most = re.search(r"puts { sc2_bytes_in_rate gt (\d+) }", (support.ROOT / "node" / "door.cfg").read_text()), list[int]()
        assert share
        for part in (1, 2):
            turns, began, size = pace_of_bytes(part), self.clock.now, 0
            while self.clock.now < began + 3600:
                await self.clock.sleep(turns.wait())
                turns.take(500_000)
                size += 500_000
            most.append(size)
        self.assertLess(most[0] * 4 // 3 + 19_000 * 800, int(share[1]))
        self.assertLess(abs(most[1] * 2 - most[0]), 2_000_000)

    async def test_a_file_bears_any_number(self) -> None:
        turns = Pace(0.0)
        for _ in range(3 * pace.BURST):
            await turns.turn()
        self.assertEqual(set(self.clock.slept), {0.0})


if __name__ == "__main__":
    unittest.main()
