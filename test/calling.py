"""CALLING.md: its pieces stand in sources that the gate compiles, proves and runs."""
import pathlib
import re

from pages import Block
from report import Report

SOURCE = re.compile(r"`(\w+\.rt)`")


def plain(text: str) -> str:
    """The lines of a text without their indentation, so that a piece is found at any depth."""
    return "\n" + "\n".join(it.strip() for it in text.splitlines()) + "\n"


def sections(document: str) -> dict[int, set[str]]:
    """The sources that each section names, by the line with which it begins."""
    found: dict[int, set[str]] = {}
    begun = 0
    for number, line in enumerate(document.splitlines(), 1):
        if line.startswith("## "):
            begun = number
        found.setdefault(begun, set()).update(SOURCE.findall(line))
    return found


def find_pieces(report: Report, tree: pathlib.Path, blocks: list[Block]) -> None:
    """Each piece stands, line for line, in a source that its section names."""
    named = sections((tree / "docs/CALLING.md").read_text())
    sources = {it: plain(it.read_text()) for it in tree.glob("crates/*/src/**/*.rt")}
    for block in blocks:
        if block.language != "rust":
            continue
        names = named[max(it for it in named if it <= block.line)]
        found = [it for it, text in sources.items() if it.name in names and plain(block.text) in text]
        report.case(f"in {', '.join(sorted(names))}: {block}", found != [], block.text)
    for names in named.values():
        for name in names:
            report.case(f"there is {name}", any(it.name == name for it in sources))
