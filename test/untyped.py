"""The commands of the documents that the test does not type, with the reason."""
from pages import Block, blocks_of
from report import Report
from tree import ROOT

LONG = "too long"
MEASURES = "measures, and no test depends on it"
SMALL = "measures; the part timed tries it with small amounts"
# The first line of a block, in any document, and why it is not typed.
ANYWHERE = {
    "make test": "it is the test that types the others",
}
# The same in one document.
REASONS = {
    ("docs/OPERATIONS.md", "tar -C /"): "changes the machine; the part install unpacks the same tarball",
    ("docs/OPERATIONS.md", "etcd has no user"): "is printed, by regtuma-log leave; the demo compares it",
    ("docs/OPERATIONS.md", "etcdctl user passwd"): "sets a password anew, in the words by which the part operations types `user add`",
    ("bench/README.md", "bench/run"): SMALL,
    ("bench/README.md", "bench/build.sh"): "makes what bench/run measures",
    ("bench/README.md", "bench/untuned/build.sh"): "makes what bench/run measures",
    ("bench/README.md", "bench/plot"): "draws figures, which the part made compares",
    ("bench/README.md", "bench/state"): SMALL,
    ("bench/README.md", "bench/slowest"): SMALL,
    ("bench/README.md", "bench/threads"): SMALL,
    ("bench/README.md", "bench/node"): MEASURES,
    ("bench/README.md", "bench/instructions"): f"{MEASURES}; it needs a build of ledger_cases",
    ("bench/README.md", "bench/gate"): LONG,
    ("bench/README.md", "bench/plants"): LONG,
    ("bench/README.md", "bench/hostile"): LONG,
}
# Commands within the text.
WITHIN_TEXT = {"./ledger prove": LONG, "rt ci": f"{LONG}: it is the gate, behind which test/documents runs",
               "rt check, rt try, rt tidy ..": "for those who change crates; the gate does as much"}


def documents() -> list[str]:
    names = [*ROOT.glob("*.md"), *ROOT.glob("docs/**/*.md"), *ROOT.glob("bench/*.md")]
    return sorted(str(it.relative_to(ROOT)) for it in names)


def reason(block: Block) -> str | None:
    everywhere = [((block.document, word), why) for word, why in ANYWHERE.items()]
    found = (why for (document, word), why in [*everywhere, *REASONS.items()] if block.document == document and block.text.startswith(word))
    return next(found, None)


def compare(report: Report, typed: set[Block]) -> None:
    """Lists the commands that neither test types. Each has to have a reason, and each reason a command."""
    commands = [it for name in documents() for it in blocks_of(ROOT, name) if it.is_command()]
    places = {(it.document, it.line) for it in typed}
    for command in commands:
        if (command.document, command.line) not in places:
            why = reason(command)
            print(f"not typed: {command}: {why}")
            report.case(f"typed, or with a reason: {command}", why is not None)
    for words, why in WITHIN_TEXT.items():
        print(f"not typed: {words}: {why}")
    for document, word in [*(("", word) for word in ANYWHERE), *REASONS]:
        is_there = any(document in ("", it.document) and it.text.startswith(word) for it in commands)
        report.case(f"a reason for what is there: {document}: {word}", is_there)
