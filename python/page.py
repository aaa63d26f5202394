"""The page of a chain: examples/page/template.html with the lines of `show` in it."""
from collections.abc import Iterable, Iterator

from program import ROOT

TEMPLATE = ROOT / "examples" / "page" / "template.html"
# The element of the page that the lines stand in.
LINES = '<script type="application/jsonl" id="lines">'


def page_with(lines: Iterable[str]) -> Iterator[str]:
    """The parts of the page with these lines in it. No `<` of theirs is left, so that none ends their element."""
    before, element, after = TEMPLATE.read_text(encoding="utf-8").partition(LINES)
    yield before + element + "\n"
    for line in lines:
        yield line.replace("<", "\\u003c")
    yield after
