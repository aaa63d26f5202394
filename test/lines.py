"""The part `lines`: the command lines of test/cases, what the program prints on each, and its status.

In test/cases/lines a line of words stands behind `> `, and behind it what is printed, with remarks of the standard error behind
`! `, and the status. Lines that are empty or begin with `#` are for readers. Behind ` < ` stands the file that is the standard
input, which else is empty, and behind a store's name how many of its bytes there are, as in `whole.store:100`.
"""
import contextlib
import dataclasses
import json
import os
import pathlib
import re
import shutil
import subprocess
from collections.abc import Iterator

import shown
from report import Ran, Report

# How long a command may take, in seconds, and one of 64 threads.
SECONDS, LONG = 60, 600
# A name of a store in the cases, of which so many bytes are taken.
CUT = re.compile(r"(.+):(\d+)")
# What refuses on the standard output, and what has to stand at the end of a sentence for it.
REFUSAL = re.compile(r"(?:answer \S+ \d+ )?refused (\d+).*|answer \S+ \d+ (bad)|(bad line) \d+|(flags differ) \d+|(usage): .*")
# How a sentence on the standard error ends, and how each of its lines begins.
SENTENCE, SAID = re.compile(r"ledger: .*\((\d+|bad|bad line|flags differ|usage)\)"), "ledger: "
# What `threads` prints where the seats' calls read what others put.
COUNTS = re.compile(r"endorsed ([1-9]\d*)\nrefused (\d+)\nblocks [1-9]\d*\naudit agrees\n")


@dataclasses.dataclass
class Case:
    """A command line, what is printed on it, the remarks beside that, and the status."""
    line: str
    out: list[str]
    remarks: list[str]
    status: str

    def words(self) -> list[str]:
        return self.line.partition(" < ")[0].split()


def ran(program: pathlib.Path, words: list[str], folder: pathlib.Path, given: bytes = b"", seconds: int = SECONDS) -> Ran:
    """What the program prints on words in a folder."""
    done = subprocess.run([program, *words], cwd=folder, input=given, capture_output=True, timeout=seconds)
    return Ran(done.returncode, done.stdout.decode(errors="replace"), done.stderr.decode(errors="replace"))


def cases_of(text: str) -> Iterator[Case]:
    """The cases of a text, in their order."""
    for block in text.split("\n> ")[1:]:
        line, *printed = block.split("\n")
        end = next(place for place, it in enumerate(printed) if it.startswith("status "))
        lines = printed[:end]
        yield Case(line, [it for it in lines if not it.startswith("! ")], [it[2:] for it in lines if it.startswith("! ")], printed[end])


def refusals(lines: list[str]) -> list[str]:
    """What is refused on the standard output, in order. What `threads` counts is no refusal."""
    if lines[:1] and lines[0].startswith("endorsed ") and lines[-1].startswith("audit "):
        return []
    found = [REFUSAL.fullmatch(line) for line in lines]
    return [next(filter(None, it.groups())) for it in found if it]


def sentences(err: str) -> list[str]:
    """How the sentences on the standard error end, in order."""
    found = [SENTENCE.fullmatch(line) for line in err.splitlines()]
    return [it[1] for it in found if it]


def remarks(err: str, known: set[str]) -> list[str]:
    """The lines on the standard error that some case has as a remark."""
    return [it for line in err.splitlines() if (it := line.removeprefix(SAID)) in known]


def made(case: Case, data: pathlib.Path) -> tuple[list[str], bytes]:
    """The words of a case, and its standard input. What a cut name stands for is made."""
    words, given = case.words(), case.line.partition(" < ")[2]
    for place, word in enumerate(words):
        if (cut := CUT.fullmatch(word)) and (data / cut[1]).exists():
            words[place] = f"{cut[1]}.{cut[2]}"
            (data / words[place]).write_bytes((data / cut[1]).read_bytes()[:int(cut[2])])
    return words, (data / given).read_bytes() if given else b""


@contextlib.contextmanager
def as_it_was(files: list[pathlib.Path]) -> Iterator[dict[pathlib.Path, bytes | None]]:
    """Lets files be written, and gives them back what they had."""
    before = {it: it.read_bytes() if it.is_file() else None for it in files}
    yield before
    for file, had in before.items():
        if had is not None:
            file.write_bytes(had)
        elif file.is_file():
            file.unlink()


def did(case: Case, program: pathlib.Path, data: pathlib.Path) -> Ran:
    """Types a case. What `peer` and `checkpoint` write is forgotten."""
    words, given = made(case, data)
    with as_it_was([data / it for it in words] if words[0] in ("peer", "checkpoint") else []):
        return ran(program, words, data, given)


def try_cases(cases: list[Case], program: pathlib.Path, data: pathlib.Path, report: Report) -> Iterator[tuple[Case, Ran]]:
    """Types each case, and looks whether what is printed is what stands there."""
    known = {it for case in cases for it in case.remarks}
    for case in cases:
        now = did(case, program, data)
        is_so = (now.out.splitlines(), remarks(now.err, known), f"status {now.status}") == (case.out, case.remarks, case.status)
        report.case(f"{program.name} {case.line}", is_so, f"{now.out}{now.err}status {now.status}\nwanted {case}"[:4000])
        yield case, now


def try_sentences(report: Report, case: Case, now: Ran) -> None:
    """For each number that is printed there is one sentence that ends with it, and for nothing else. `show` prints JSON."""
    if case.words()[0] == "show":
        return
    told, said = refusals(now.out.splitlines()), sentences(now.err)
    if case.words()[0] == "peer":
        # A line that is skipped has a sentence, and no refusal.
        said = [it for it in said if it in told]
    report.case(f"{case.line}: a sentence for each number", told == said, f"told {told}\nsaid {said}\n{now.err[:1000]}")


def try_shown(report: Report, case: Case, now: Ran, data: pathlib.Path) -> None:
    """What is shown of a store is what is worked out here of its bytes."""
    lines = now.out.splitlines()
    if shown.is_shown(case.line, lines, now.status, data):
        wanted = shown.stated(case.line, data)
        report.case(f"{case.line}: what the store's bytes say", (lines, now.status) == wanted, f"{lines}\nwanted {wanted}"[:4000])


def try_checkpoint(report: Report, program: pathlib.Path, case: Case, now: Ran, data: pathlib.Path) -> None:
    """A checkpoint is the one that is worked out here of the store's bytes, in a new file and in the place of another checkpoint."""
    if case.words()[0] != "checkpoint" or now.status:
        return
    words = made(case, data)[0]
    words[3], wanted = "made.checkpoint", shown.checkpoint(words, data)
    with as_it_was([data / words[3]]):
        for held in (None, b"", wanted[:8]):
            if held is not None:
                (data / words[3]).write_bytes(held)
            again = ran(program, words, data)
            is_so = again == now and (data / words[3]).read_bytes() == wanted and not (data / f"{words[3]}.part").exists()
            report.case(f"{case.line}: its bytes, over {held!r}", is_so, str(again))


def try_pipe(report: Report, program: pathlib.Path, data: pathlib.Path) -> None:
    """A store that is a pipe gets what a file gets, and stays a pipe."""
    words, pipe, file = ["run", "get.json", "race.jsonl", "--store"], data / "written.pipe", data / "written.store"
    os.mkfifo(pipe)
    with subprocess.Popen(["timeout", str(SECONDS), "cat", pipe], stdout=subprocess.PIPE) as reader:
        now = ran(program, [*words, pipe.name], data)
        read = reader.communicate()[0]
    ran(program, [*words, file.name], data)
    is_so = now.status == 0 and pipe.is_fifo() and read == file.read_bytes()
    report.case("run with a pipe for a store", is_so, f"{now}\n{read!r}")


def try_threads(report: Report, program: pathlib.Path, data: pathlib.Path) -> None:
    """Seats whose calls all read and put one key. No rule says how many are refused: each is endorsed or refused, and the audit agrees."""
    setting, contended = json.loads((data / "get.json").read_text(encoding="utf-8")), data / "contended.json"
    for seats, rounds in ((4, 50), (64, 20)):
        contended.write_text(json.dumps({**setting, "seats": seats}), encoding="utf-8")
        now = ran(program, ["threads", contended.name, "kv", str(rounds)], data, seconds=LONG)
        told = COUNTS.fullmatch(now.out)
        is_so = now.status == 0 and told is not None and int(told[1]) + int(told[2]) == seats * rounds
        report.case(f"threads: {seats} seats that contend for {rounds} rounds", is_so, str(now))


def try_lines(report: Report, tree: pathlib.Path, room: pathlib.Path, program: pathlib.Path) -> None:
    cases = list(cases_of((tree / "test/cases/lines").read_text(encoding="utf-8")))
    for built in (program, program.with_name(f"{program.name}.by-rattle")):
        if not built.exists():
            print(f"lines: `rt ci` has not built {built.name} here, so it is not tried", flush=True)
            continue
        data = room / built.name
        shutil.copytree(tree / "test/cases/data", data)
        for case, now in try_cases(cases, built, data, report):
            if built == program:
                try_sentences(report, case, now)
                try_shown(report, case, now, data)
                try_checkpoint(report, built, case, now, data)
        try_pipe(report, built, data)
        try_threads(report, built, data)
