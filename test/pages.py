"""The documents: which commands they tell people to type, and what they print of the answers.

A block of commands stands on lines that begin with four spaces, and so does what they print, in a block behind it. In what is
printed `..` stands for anything in its line, and a line `..` for any lines.
"""
import dataclasses
import pathlib
import re

from report import Report, run

# The words with which a block of commands begins, beside paths (`./ledger`) and settings (`name=value`).
COMMANDS = {"cat", "cc", "cd", "clang", "cmp", "cp", "echo", "etcd", "etcdctl", "export", "install", "ledger", "ln", "machine", "make",
            "mkdir", "regtuma", "regtuma-audit", "regtuma-certs", "regtuma-change", "regtuma-log", "rt", "sed", "set", "systemctl", "tar", "test",
            "wasm-objdump"}
PATH = re.compile(r"(\./|bench/|docs/|examples/|node/|test/|/)\S+|[A-Za-z_]+=.*")
# What is printed where a command ends with status 1.
FAILS = re.compile(r"refused |(?!VALID )[A-Z_]+ in block ")
# How long all the commands of a page may take, in seconds.
SECONDS = 550


@dataclasses.dataclass(frozen=True)
class Block:
    """A block of a document: at which line, from 1, and in which language, which is empty for one that is indented."""
    document: str
    line: int
    language: str
    text: str

    def is_command(self) -> bool:
        first = self.text.split(maxsplit=1)[0] if self.text.strip() else ""
        return self.language in ("", "sh") and (first in COMMANDS or PATH.fullmatch(first) is not None)

    def __str__(self) -> str:
        return f"{self.document}:{self.line}: {self.text.splitlines()[0]}"


def blocks_of(root: pathlib.Path, document: str) -> list[Block]:
    """The blocks of a document, in order."""
    found: list[Block] = []
    lines = (root / document).read_text(encoding="utf-8").split("\n")
    at = 0
    while at < len(lines):
        first = at
        if lines[at].startswith("```"):
            at = lines.index("```", at + 1)
            found.append(Block(document, first + 1, lines[first][3:], "\n".join(lines[first + 1:at])))
        elif lines[at].startswith("    ") and not (at and lines[at - 1].strip()):
            while at < len(lines) and (lines[at].startswith("    ") or is_gap(lines, at)):
                at += 1
            found.append(Block(document, first + 1, "", "\n".join(it[4:] for it in lines[first:at])))
        at += 1
    return found


def is_gap(lines: list[str], at: int) -> bool:
    """Whether a line is an empty one within an indented block."""
    return not lines[at] and at + 1 < len(lines) and lines[at + 1].startswith("    ")


def fits(wanted: str, said: str) -> bool:
    """Whether what was said is what a page prints."""
    parts = []
    for line in wanted.splitlines():
        words = ".*".join(re.escape(it) for it in line.split("..")) + "\n"
        parts.append("(?:.*\n)*?" if line == ".." else words)
    return re.fullmatch("".join(parts), said if said.endswith("\n") or not said else f"{said}\n") is not None


class Typist:
    """Types the commands of a document into one shell, in a copy of the repository."""

    def __init__(self, tree: pathlib.Path, room: pathlib.Path):
        self.tree, self.room = tree, room
        self.typed: set[Block] = set()

    def type(self, report: Report, blocks: list[Block], folders: dict[str, pathlib.Path] | None = None,
             instead: dict[str, str] | None = None, env: dict[str, str] | None = None) -> None:
        """Types the blocks of commands among these, and compares what they print with the blocks behind them.

        `folders` has the folder of a command that is not typed in the repository's, by the word with which it begins, and
        `instead` what is typed in place of a text.
        """
        commands = [it for it in blocks if it.is_command()]
        self.typed.update(commands)
        self.room.mkdir(parents=True, exist_ok=True)
        instead = {"/tmp/": f"{self.room}/", **(instead or {})}
        script = self.room / "typed.sh"
        script.write_text("".join(self._lines(it, number, folders or {}, instead) for number, it in enumerate(commands)))
        run(["bash", script], self.tree, SECONDS, env)
        for number, command in enumerate(commands):
            self._compare(report, command, self._answers(blocks, command), number)

    def _lines(self, block: Block, number: int, folders: dict[str, pathlib.Path], instead: dict[str, str]) -> str:
        folder = next((it for word, it in folders.items() if block.text.startswith(word)), self.tree)
        text = block.text
        for before, after in instead.items():
            text = text.replace(before, after)
        to = self.room / str(number)
        return f"cd '{folder}'\n{{\n{text}\n}} > '{to}.out' 2> '{to}.err'\necho $? > '{to}.status'\n"

    def _answers(self, blocks: list[Block], command: Block) -> list[str]:
        """What the page prints behind a command, up to the next one."""
        found = []
        for block in blocks[blocks.index(command) + 1:]:
            if block.is_command():
                break
            if not block.language:
                found.append(block.text)
        return found

    def _compare(self, report: Report, command: Block, wanted: list[str], number: int) -> None:
        files = [self.room / f"{number}.{it}" for it in ("status", "out", "err")]
        if not files[0].exists():
            report.case(str(command), False, "it did not end")
            return
        status, out, err = (it.read_text(errors="replace") for it in files)
        is_refused = any(FAILS.match(line) for text in wanted for line in text.splitlines())
        is_right = int(status) == is_refused and all(fits(it, out) for it in wanted)
        told = "\n".join(wanted)
        report.case(str(command), is_right, f"status {status}the page prints\n{told}\nand it prints\n{out[-800:]}{err[-800:]}")
