"""The part `growths`: each growth of memory of some of the ledger's calls is refused in turn.

Of calls without a state a case line of `ledger_cases` is asked twice: one of the two may say that it got no memory, and all else is
answered as if nothing had been. The others are tests (`crates/ledger_tests/src/growths_test.rt`) that make a call again which was
refused memory. Both programs run as `rt ci` built them; where it did not, they are not tried: an unproved one has an allocator of its
own, which looks for bad accesses, and which bench/refuse.c does not reach.
"""
import os
import pathlib
import subprocess

from report import Report
from tree import ROOT

CASES, TESTS = ROOT / "crates/ledger_cases", ROOT / "crates/ledger_tests/out/ledger_tests_tests"
# A verb, and how the answer begins: the first line is taken that has both.
LINES = {"validate": "valid ", "simulate": "kv() ", "endorsed": "true", "flags": "0 / 0 2", "state": "2 "}
# What a line is answered that gets no memory: of the call it is 9; a policy that cannot be read is a bad line.
REFUSED = {"simulate": ["no memory", "refused 9"], "endorsed": ["no memory", "bad line"]}
USUAL_REFUSED = ["no memory"]
# How a test ends that passed, and one whose set-up got no memory; and how a program ends whose set-up got none.
PASSED, NO_SETUP, NO_INPUT = 0, 101, 1
SECONDS = 60


class Refusing:
    """Runs programs of which one growth is refused."""

    def __init__(self, room: pathlib.Path):
        self.room, self.mark, self.library = room, room / "mark", room / "refuse.so"
        subprocess.run(["cc", "-O2", "-shared", "-fPIC", "-o", self.library, ROOT / "bench/refuse.c", "-ldl"], check=True)

    def run(self, words: list, number: int, given: str = "") -> subprocess.CompletedProcess[str] | None:
        """How a program ends whose growth of a number is refused; None where it has not so many."""
        self.mark.unlink(missing_ok=True)
        env = {**os.environ, "LD_PRELOAD": str(self.library), "FAIL_MARK": str(self.mark), "FAIL_ALLOC": str(number)}
        ran = subprocess.run(words, env=env, input=given, text=True, errors="replace", capture_output=True, timeout=SECONDS, cwd=self.room)
        return ran if self.mark.exists() else None


def names() -> list[str]:
    """The names of the tests."""
    listed = subprocess.run([TESTS, "--list"], capture_output=True, text=True, check=True).stdout
    return [line.removesuffix(": test") for line in listed.splitlines() if line.startswith("growths_test::")]


def try_test(report: Report, refusing: Refusing, name: str) -> None:
    number, tried, wrong = 1, 0, []
    while (ran := refusing.run([TESTS, name], number)) is not None:
        tried += ran.returncode == PASSED
        if ran.returncode not in (PASSED, NO_SETUP):
            wrong.append(f"growth {number}: status {ran.returncode}")
        number += 1
    report.case(f"{name}: {number - 1} growths, {tried} of the calls", tried > 0 and not wrong, "\n".join(wrong))


def chosen(verb: str, begin: str) -> tuple[str, str]:
    """The first case of a verb whose answer begins so, and that answer."""
    rows = zip((CASES / "stdin").read_text().splitlines(), (CASES / "stdout").read_text().splitlines())
    return next((line, answer) for line, answer in rows if line.startswith(f"{verb} ") and answer.startswith(begin))


def try_line(report: Report, refusing: Refusing, program: pathlib.Path, line: str, answer: str) -> None:
    """Asks a line twice, with each growth refused: of the line, or of what reads it."""
    number, tried, wrong = 1, 0, []
    refused = REFUSED.get(line.split(" ")[0], USUAL_REFUSED)
    right = [[answer, answer], *([it, answer] for it in refused), *([answer, it] for it in refused)]
    while (ran := refusing.run([program], number, f"{line}\n{line}\n")) is not None:
        said = ran.stdout.splitlines()
        is_answered = ran.returncode == 0 and said in right
        tried += is_answered
        if not is_answered and (ran.returncode != NO_INPUT or not ran.stderr or said not in ([], [answer])):
            wrong.append(f"growth {number}: status {ran.returncode}, {said!a:.300} {ran.stderr[-300:]}")
        number += 1
    name = f"{line[:60]}: {number - 1} growths, {tried} of the calls"
    report.case(name, tried > 0 and not wrong, "\n".join([*wrong[:10], f"wanted {answer!a:.300} twice, or {' or '.join(refused)} once"]))


def growths(report: Report, room: pathlib.Path) -> None:
    """Each growth of each line and of each test."""
    refusing, program = Refusing(room), CASES / "out/ledger_cases"
    if program.exists():
        for verb, begin in LINES.items():
            try_line(report, refusing, program, *chosen(verb, begin))
    if TESTS.exists():
        tests = names()
        report.case("there are tests", len(tests) >= 2, str(tests))
        for name in tests:
            try_test(report, refusing, name)
    for built in (program, TESTS):
        if not built.exists():
            print(f"growths: `rt ci` has not built {built.name} here, so it is not tried", flush=True)
