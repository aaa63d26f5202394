"""`ledger peer` as a child: lines in, lines out."""
import json
import os
import pathlib
import re
import shutil
import subprocess
import tempfile
from types import TracebackType
from typing import Any, Self

# How a sentence of the program begins, and the place that it names of a line that nobody typed.
SENTENCE, PLACE = "ledger: ", re.compile(r"^standard input, line \d+: ")


class Refused(Exception):
    """A line `refused ..`, and the sentence beside it."""

    def __init__(self, line: str, why: str):
        super().__init__(line)
        self.line, self.why = line, why

    @property
    def number(self) -> str:
        return self.line.split()[1]


class Ended(Exception):
    """The program ended without a word."""


def sentence(told: str) -> str:
    """The last sentence on a standard error."""
    found = [it.removeprefix(SENTENCE) for it in told.splitlines() if it.startswith(SENTENCE)]
    return PLACE.sub("", found[-1]) if found else ""


class Peer:
    """`ledger peer` on a store, which no other process has meanwhile. It reads a log, endorses calls, and answers questions about
    the chain and the state after it."""

    def __init__(self, program: str, genesis: str, store: str, *options: str):
        self.told = tempfile.TemporaryFile()
        self.process = subprocess.Popen([program, "peer", genesis, store, *options], stdin=subprocess.PIPE, stdout=subprocess.PIPE,
                                        stderr=self.told, encoding="utf-8", errors="replace")
        # How many bytes of a part of a record were cut off the store, and how many blocks it then had.
        self.cut, self.height = 0, 0
        while (said := self.line().split())[0] != "height":
            self.cut = int(said[1])
        self.height = int(said[1])

    def __enter__(self) -> Self:
        return self

    def __exit__(self, _kind: type[BaseException] | None, _error: BaseException | None, _trace: TracebackType | None) -> None:
        self.close()

    def line(self) -> str:
        """The next line that it says, which is none of its end."""
        assert self.process.stdout
        said = self.process.stdout.readline().rstrip("\n")
        if said.startswith("refused "):
            self.close()
            raise Refused(said, self.why())
        if not said:
            self.close()
            raise Ended(f"ledger peer ended with status {self.process.returncode}")
        return said

    def why(self) -> str:
        """The last sentence that it said."""
        # It writes where its own handle stands, so this one is not moved.
        handle = self.told.fileno()
        return sentence(os.pread(handle, os.fstat(handle).st_size, 0).decode(errors="replace"))

    def say(self, line: str) -> None:
        """Gives it a line."""
        assert self.process.stdin
        try:
            self.process.stdin.write(f"{line}\n")
            self.process.stdin.flush()
        except BrokenPipeError:
            # Its last line says why it has ended.
            pass

    def said(self, kind: str, words: str) -> str:
        """What it answers to a line of this kind."""
        self.say(f"{kind} - {words}")
        return self.line().split(" ", 3)[3]

    def answer(self, what: str, **question: object) -> Any:
        """The answer to a question, or that a block is not read back."""
        said = self.said("ask", json.dumps({"ask": what, **question}))
        if said.startswith("refused "):
            raise Refused(said, self.why())
        return json.loads(said)

    def endorsed(self, proposal: dict[str, str]) -> tuple[str, str]:
        """The payload of a call and the organisation's endorsement, in hex."""
        said = self.said("call", json.dumps(proposal))
        if said.startswith("refused "):
            raise Refused(said, self.why())
        _, payload, endorsement = said.split()
        return payload, endorsement

    def read(self, text: str) -> list[str]:
        """What it says of the next line of the log, but that it is read. A line that is skipped is refused, and so is a transaction
        that is left out of its block."""
        self.say(f"log - {text}")
        lines: list[str] = []
        while not (line := self.line()).startswith("read "):
            lines.append(line)
        for it in lines:
            if it.startswith(("skipped ", "aborted ")):
                raise Refused(f"refused {it.split()[2]}", self.why())
        return lines

    def close(self) -> None:
        """It ends, behind what it was given."""
        assert self.process.stdin and self.process.stdout
        try:
            self.process.stdin.close()
        except BrokenPipeError:
            pass
        self.process.stdout.read()
        self.process.wait()


class Beside(Peer):
    """A peer on a copy of a store, beside whoever has that: nothing that it does stays."""

    def __init__(self, program: str, genesis: str, store: str, *options: str):
        with tempfile.TemporaryDirectory() as room:
            self.store, self.copy = store, str(pathlib.Path(room, "store"))
            try:
                shutil.copyfile(store, self.copy)
            except OSError:
                # Another command says what is wrong with the name.
                answered(program, "marks", genesis, store)
                raise
            # Once it has begun, it needs the name of the copy no more.
            super().__init__(program, genesis, self.copy, *options)

    def why(self) -> str:
        """The last sentence that it said, in which what is said of the copy is said of the store."""
        return super().why().replace(self.copy, self.store)


def answered(program: str, *words: str) -> list[str]:
    """The lines of a command that ends by itself."""
    ran = subprocess.run([program, *words], stdin=subprocess.DEVNULL, capture_output=True, encoding="utf-8", errors="replace")
    lines = ran.stdout.splitlines()
    if ran.returncode and lines and lines[-1].startswith("refused "):
        raise Refused(lines[-1], sentence(ran.stderr))
    if ran.returncode:
        raise Ended(f"ledger {words[0]} ended with status {ran.returncode}")
    return lines
