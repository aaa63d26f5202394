"""The node's journal has so many lines a minute of what others bring about, and none of its own messages is lost by a flood."""
import asyncio
import sys
import unittest
from unittest import mock

import support
from regtuma import journal
from regtuma.filters import Filter
from regtuma.journal import MOST_LINES, Quota
from test_chain import Case

# Says lines on its standard error, and answers when it has.
FLOOD = "import sys; [print('line', it, file=sys.stderr) for it in range(int(sys.argv[1]))]; print('done', flush=True); sys.stdin.read()"


class Floods(unittest.IsolatedAsyncioTestCase):
    async def said(self, *command: str) -> list[str]:
        """What the node says of a child's standard error, until the child ends."""
        said: list[str] = []
        child = Filter("it", list(command), said.append)
        await child.start()
        async with asyncio.timeout(60):
            self.assertEqual(await child.line(), "done")
        await child.close()
        return said

    async def test_of_many_lines_few_are_said_and_the_others_counted(self):
        for count in (100_000, MOST_LINES + 1):
            said = await self.said(sys.executable, "-c", FLOOD, str(count))
            told = f"it: {count - MOST_LINES:,} more lines are left out, the last: line {count - 1}"
            self.assertEqual(said, [f"line {it}" for it in range(MOST_LINES)] + [told])

    async def test_few_lines_are_said_as_they_are(self):
        self.assertEqual(await self.said(sys.executable, "-c", FLOOD, "3"), ["line 0", "line 1", "line 2"])
        self.assertEqual(await self.said("sh", "-c", "printf '\\377 at its end' >&2; echo done"), ["\ufffd at its end"])

    async def test_a_line_without_end_is_cut(self):
        said = await self.said(sys.executable, "-c", "import sys; sys.stderr.write('x' * 9_000_000); print('done')")
        self.assertEqual((len(said), len(said[0])), (1, journal.LONGEST))

    async def test_a_child_of_its_own_holds_nothing_up(self):
        with mock.patch("regtuma.filters.LAST_SECONDS", 0.5):
            self.assertEqual(await self.said("sh", "-c", "echo why >&2; sleep 60 > /dev/null & echo done"), ["why"])

    async def test_each_minute_has_its_lines(self):
        said: list[str] = []
        quota = Quota("it", said.append)
        with mock.patch.object(journal, "MINUTE", 0.5):
            quota.began = -journal.MINUTE
            for it in range(30):
                quota.tell(str(it))
            self.assertEqual(len(said), MOST_LINES)
            # The rest is told of once the minute is over, whether or not there is another line.
            await asyncio.sleep(1.0)
            self.assertEqual(said[MOST_LINES:], ["it: 10 more lines are left out, the last: 29"])
            quota.tell("again")
            self.assertEqual(said[-1], "again")


class Messages(Case):
    async def test_one_who_lies_and_one_who_does_not_endorse_keep_no_other_out(self):
        for number in range(1, 5000):
            await self.passed(f"forked Shop {number}")
            self.gateway.links["Carrier"].pass_over("no answer")
        await self.passed("forked Carrier 7")
        self.assertEqual((len(self.said), self.said[-1]), (2 * MOST_LINES + 1, "forked: Carrier says that it has another block 7"))
        self.assertEqual(self.chain.forked, "Shop says that it has another block 1")



if __name__ == "__main__":
    unittest.main()
