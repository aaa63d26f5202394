"""`ledger peer` as a child, which does all that is proved: lines of the log and what is asked go in, in one stream, and what becomes of
them comes out in their order.

A line of the log begins with `log`, so that nothing in the log is taken for something that is asked.
"""
import json
import os
from collections.abc import Awaitable, Callable
from typing import Any

from . import numbers
from .filters import MOST_ASKED, Asked, FilterEnded, TooLong, say_nothing
from .proposals import Refused

# So many lines of the log are handed on together: what is asked meanwhile comes between.
AT_ONCE = 64
# Where so many lines are unread, which are two entries, only as many calls and questions of a kind wait for an answer as the program answers
# side by side: between those at hand and the next ones it reads no more lines than the pipe has.
BEHIND, WORKERS = 1000, len(os.sched_getaffinity(0))
# Questions that look through many transactions, or verify all of a block, and how many of them wait for an answer at a time: what
# comes behind them waits too.
LONG, MOST_LONG = ("block", "history", "transaction"), 4


class Peer(Asked):
    def __init__(self, command: list[str], hear_log: Callable[[list[str]], Awaitable[None]], say: Callable[[str], None] = say_nothing):
        super().__init__("ledger peer", command, say)
        # Who hears what becomes of the log's lines, a word at a time.
        self.hear_log = hear_log
        self.turn = 0
        # How many lines of the log were handed on, and are not read.
        self.unread_lines = 0
        # How many blocks were not read back from the store, and what was said of the last one.
        self.lost, self.why_lost = 0, ""

    async def begin(self) -> int:
        """Begins it, and waits until the store is read. How many blocks that has."""
        await self.start()
        while not (line := await self.line()).startswith("height"):
            if line.startswith("refused"):
                raise FilterEnded(f"{self.name} says: {line}")
            self.say(f"{self.name}: {line}")
        return int(line.split()[1])

    async def log(self, lines: list[bytes]) -> None:
        """Hands on lines of the log, each an index and a text, and waits where the program is behind."""
        for place in range(0, len(lines), AT_ONCE):
            handed_on = lines[place:place + AT_ONCE]
            self.unread_lines += len(handed_on)
            await self.write(*(b"log " + it for it in handed_on))

    def room(self, most: int) -> int:
        return min(most, WORKERS) if self.unread_lines > BEHIND else most

    async def answer_to(self, kind: str, text: str, most: int = MOST_ASKED) -> tuple[str, int]:
        """What is answered to a line of this kind, and the height at which it was."""
        self.turn += 1
        *_, height, words = (await self.ask(f"{kind} {self.turn} {text}", most)).split(" ", 3)
        return words, int(height)

    async def hear(self, said: str | TooLong) -> None:
        """Hears a line, which answers who asked first, or tells of the log."""
        if isinstance(said, TooLong):
            return self.answer(said)
        match said.split(" ", 3):
            case ["answer", tag, height, _] if self.asked and tag == self.asked[0][0].split(" ", 2)[1] and height.isdigit():
                self.answer(said)
            case ["answer" | "refused", *_] | ["bad", "line", *_]:
                raise FilterEnded(f"{self.name} says: {said}")
            case [word, *_]:
                self.unread_lines -= word == "read"
                await self.hear_log(said.split(" "))

    # ---------------------------------------------------------------- questions

    async def text_of(self, what: str, **question: object) -> tuple[str, int]:
        """The JSON of an answer, and the height at which it was given. A block that the store's file does not give back has none."""
        most = MOST_LONG if what in LONG else MOST_ASKED
        said, height = await self.answer_to("ask", json.dumps({"ask": what, **question}), most)
        if said == "bad":
            raise ValueError(f"no question that the program answers: {what}")
        if said.startswith("refused "):
            self.lost, self.why_lost = self.lost + 1, numbers.explained(said)
            raise Refused(503, numbers.in_words(said))
        return said, height

    async def ask_for(self, what: str, **question: object) -> tuple[Any, int]:
        """The answer, and the height at which it was given."""
        answer, height = await self.text_of(what, **question)
        return json.loads(answer), height
