"""Sources, without a proof or a browser: the layout of crates, whether each wrong body can be put into them, and the page's elements."""
import html.parser
import pathlib
import re
import shutil
import sys

from report import Report, run
from tree import ROOT

sys.path.insert(0, str(ROOT / "python"))
import kit

CRATES = ROOT / "crates"
# Elements without an end, and how the page's script asks for one.
EMPTY = {"meta", "input", "link", "br"}
ASKED = re.compile(r"""byId\(["'](.+?)["']\)""")
# How long the layout of all sources may take, in seconds.
SECONDS = 550


def try_layout(report: Report) -> None:
    """Each source has the layout that `rt fmt` gives it."""
    rattle = pathlib.Path(shutil.which("rt") or "rt").resolve().parent / "rattle"
    folders = (CRATES.glob(f"*/{it}/**/*") for it in ("src", "specs", "proofs"))
    sources = sorted(it for found in folders for it in found if it.suffix in (".rt", ".antt"))
    ran = run([rattle, "fmt", "--check", *sources], ROOT, SECONDS)
    said = f"`rt fmt` in the crate's folder mends it; status {ran.status}\n{ran.out}{ran.err}"
    report.case(f"{len(sources)} sources have the layout of rt fmt", ran.status == 0, said[:2000])


def try_edits(report: Report) -> None:
    """Each wrong body can be put into its sources."""
    edits = sorted([*CRATES.glob("*/must-fail/*.edit"), *CRATES.glob("*/plants/*.edit")])
    report.case("there are wrong bodies", edits != [])
    for edit in edits:
        why = ""
        try:
            is_applied = kit.edited(edit.parent.parent, edit) != {}
        except (kit.BadEdit, OSError, KeyError) as error:
            is_applied, why = False, str(error)
        report.case(f"{edit.relative_to(ROOT)} can be applied", is_applied, why)


class Elements(html.parser.HTMLParser):
    """The elements of a page: their ids, and what is wrong with their ends."""

    def __init__(self) -> None:
        super().__init__()
        self.open: list[str] = []
        self.ids: list[str] = []
        self.wrong: list[str] = []

    def handle_starttag(self, tag: str, attrs: list[tuple[str, str | None]]) -> None:
        self.open += [] if tag in EMPTY else [tag]
        self.ids += [value for name, value in attrs if name == "id" and value]

    def handle_endtag(self, tag: str) -> None:
        begun = self.open.pop() if self.open else "nothing"
        if begun != tag:
            self.wrong.append(f"line {self.getpos()[0]}: </{tag}> ends {begun}")


def try_page(report: Report, template: pathlib.Path) -> None:
    """Each element of the page has its end, and those that its script asks for stand there once."""
    text, elements = template.read_text(encoding="utf-8"), Elements()
    elements.feed(text)
    report.case(f"{template.name}: each element has its end", not elements.wrong and not elements.open, f"{elements.wrong} {elements.open}")
    for name in sorted(set(ASKED.findall(text))):
        report.case(f"{template.name}: one element has the id {name}", elements.ids.count(name) == 1, f"{elements.ids.count(name)} have it")
