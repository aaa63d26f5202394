"""The programs of cases and of tests, compiled without a proof and with checks of indices, overflow and memory in its place."""
import concurrent.futures
import itertools
import pathlib
import subprocess
import sys
import time

from report import Report, run, say
from tree import ROOT

sys.path.insert(0, str(ROOT / "python"))
import proving
from program import NoProgram, is_current, kept, unproved_of

CRATES = ROOT / "crates"
# So many bytes of memory a compiler of the largest program takes at most, with what it runs beside. It takes two cores.
OF_A_COMPILER = 8 << 30
# How long the lines of a program, or a test, may take, in seconds: a test that orders 131,072 blocks takes some minutes.
SECONDS = 1100
# The case lines of a program are answered in so many pieces: no line knows of those before it.
PIECES = 4
# A crate, and the flags of `rt try` by which it is compiled.
Compiled = tuple[str, ...]


class Compilers:
    """Compiles programs, each once, the first ones first; as many side by side as there are pairs of cores, and memory."""

    def __init__(self, programs: list[Compiled], cores: int, reports: list[Report]):
        self.reports = reports
        self.pool = concurrent.futures.ThreadPoolExecutor(max(1, min(cores // 2, proving.memory() // OF_A_COMPILER)))
        self.begun = {it: self.pool.submit(self.compile, *it) for it in programs}

    def compile(self, crate: str, *flags: str) -> bool:
        """Compiles a program. Whether it is there."""
        program, report = kept(CRATES / crate, *flags), Report(crate, f"cd crates/{crate} && rt try {' '.join(flags)}".rstrip())
        self.reports.append(report)
        if not is_current(program, ["src"]):
            say(f"{program.name}: is compiled, or waited for where another command does that, for some minutes")
        try:
            unproved_of(CRATES / crate, *flags)
        except (NoProgram, OSError) as error:
            report.case("it compiles", False, f"{getattr(error, 'said', '')[:4000]}{error}")
            say(report.summary())
            return False
        if (took := time.monotonic() - report.began) > 5:
            say(f"{program.name}: compiled in {took:.0f} s")
        return True

    def has(self, program: Compiled | None) -> bool:
        """Whether a program was compiled, once it is known; also where none is needed."""
        return program is None or self.begun[program].result()

    def end(self) -> None:
        self.pool.shutdown(wait=False, cancel_futures=True)


def answer(program: pathlib.Path, given: bytes) -> tuple[bytes, str]:
    """What a program of cases answers lines, and what is wrong beside that."""
    try:
        ran = subprocess.run([program], input=given, capture_output=True, timeout=SECONDS)
    except subprocess.TimeoutExpired as error:
        return error.stdout or b"", f"no end within {SECONDS} s"
    said = ran.stderr.decode(errors="replace")[-2000:]
    return ran.stdout, f"status {ran.returncode}\n{said}" if ran.returncode or said else ""


def answers(program: pathlib.Path, given: bytes) -> tuple[bytes, str]:
    """The same, in pieces side by side."""
    lines = given.splitlines(keepends=True)
    size = -(-len(lines) // PIECES)
    pieces = [b"".join(lines[at:at + size]) for at in range(0, len(lines), size)]
    with concurrent.futures.ThreadPoolExecutor(PIECES) as pool:
        answered = list(pool.map(lambda it: answer(program, it), pieces))
    return b"".join(out for out, _ in answered), "\n".join(wrong for _, wrong in answered if wrong)


def try_cases(report: Report, crate: str) -> None:
    """Each line of a program's cases has its answer."""
    given, wanted = ((CRATES / crate / it).read_bytes() for it in ("stdin", "stdout"))
    program = kept(CRATES / crate)
    out, wrong = answers(program, given)
    report.case(f"{crate}: it ends well", not wrong, wrong)
    rows = itertools.zip_longest(given.splitlines(), wanted.splitlines(), out.splitlines())
    for number, (line, answer, said) in enumerate(rows, 1):
        if not (line or b"").startswith(b"#") or answer != said:
            alone = f"sed -n {number}p crates/{crate}/stdin | {program.relative_to(ROOT)}"
            why = f"said   {said!a:.400}\nwanted {answer!a:.400}"
            report.case(f"crates/{crate}/stdin:{number}: {(line or b'')[:80]!a}", answer == said, why, alone)


def try_tests(report: Report, room: pathlib.Path, crate: str, side_by_side: int) -> None:
    """Each #[test] function of a crate passes."""
    program = kept(CRATES / crate, "--test")
    listed = run([program, "--list"], room, SECONDS)
    names = [it.removesuffix(": test") for it in listed.out.splitlines() if it.endswith(": test")]
    report.case("there are tests", names != [], listed.out + listed.err)
    with concurrent.futures.ThreadPoolExecutor(side_by_side) as pool:
        for name, ran in zip(names, pool.map(lambda it: run([program, it], room, SECONDS), names)):
            said = f"status {ran.status}\n{ran.out}{ran.err}"
            report.case(name, ran.status == 0, said[-2000:], f"{program.relative_to(ROOT)} {name}")
