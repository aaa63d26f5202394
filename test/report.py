"""What the parts of the test find, and how they run commands."""
import dataclasses
import os
import pathlib
import signal
import subprocess
import sys
import threading
import time

# How long a process may take to end once it is asked to, in seconds.
GRACE = 20
# So many failures of a part are printed.
MOST_SHOWN = 20
# Set where the test is to end: each part ends at its next case.
STOPPED = threading.Event()


class Stopped(Exception):
    """The test takes too long, or somebody ends it."""


@dataclasses.dataclass
class Ran:
    """How a command ended: its status, which is None where it took too long, and what it printed."""
    status: int | None
    out: str
    err: str


class Report:
    """The cases of one part, and the command that does it alone."""

    def __init__(self, part: str, alone: str = ""):
        self.part, self.alone, self.passed = part, alone, 0
        self.failures: list[str] = []
        self.began = time.monotonic()

    def case(self, name: str, is_so: bool, why: str = "", alone: str = "") -> bool:
        """Counts a case. Where it fails, `alone` is a command that shows it, and else the part's."""
        if STOPPED.is_set():
            raise Stopped
        self.count(name, is_so, why, alone)
        return is_so

    def count(self, name: str, is_so: bool, why: str = "", alone: str = "") -> None:
        """Counts a case, also where the test is to end."""
        if is_so:
            self.passed += 1
            return
        again = alone or self.alone
        self.failures.append(f"{name}\n{why}".rstrip().replace("\n", "\n    ") + (f"\n    again: {again}" if again else ""))

    def summary(self) -> str:
        took = time.monotonic() - self.began
        lines = [f"{self.part}: FAILED: {it}" for it in self.failures[:MOST_SHOWN]]
        more = [f"{self.part}: {len(self.failures) - MOST_SHOWN} more failed"] if len(self.failures) > MOST_SHOWN else []
        return "\n".join([*lines, *more, f"{self.part}: {self.passed} passed, {len(self.failures)} failed, {took:.1f} s"])


def say(text: str) -> None:
    """Prints lines at once, those of other threads before or behind them."""
    sys.stdout.write(f"{text}\n")
    sys.stdout.flush()


def start(command: list, folder: pathlib.Path, env: dict[str, str] | None = None) -> subprocess.Popen[str]:
    """A process in a session of its own, without an input, whose output is read. Signals end it, also where the shell that began the
    test in the background has some ignored."""
    return subprocess.Popen(["env", "--default-signal", *command], cwd=folder, env={**os.environ, **(env or {})}, text=True,
                            start_new_session=True, errors="replace", stdin=subprocess.DEVNULL, stdout=subprocess.PIPE,
                            stderr=subprocess.PIPE)


def end(process: subprocess.Popen[str]) -> tuple[str, str]:
    """Ends a process and its group. What it printed last."""
    for number in (signal.SIGTERM, signal.SIGKILL):
        try:
            os.killpg(process.pid, number)
        except ProcessLookupError:
            pass
        try:
            return process.communicate(timeout=GRACE)
        except subprocess.TimeoutExpired:
            pass
    return "", ""


def run(command: list, folder: pathlib.Path, seconds: float, env: dict[str, str] | None = None) -> Ran:
    """Runs a command, for so many seconds at most."""
    process = start(command, folder, env)
    try:
        out, err = process.communicate(timeout=seconds)
        return Ran(process.returncode, out, err)
    except subprocess.TimeoutExpired:
        out, err = end(process)
        return Ran(None, out, f"{err}no end within {seconds:g} s")


def children() -> list[int]:
    """The processes that this one started, and that they started, as long as each has its parent."""
    parents: dict[int, list[int]] = {}
    for stat in pathlib.Path("/proc").glob("[0-9]*/stat"):
        try:
            parent = int(stat.read_text().rpartition(")")[2].split()[1])
        except OSError:
            continue
        parents.setdefault(parent, []).append(int(stat.parent.name))
    found, left = [], [os.getpid()]
    while left:
        more = parents.get(left.pop(), [])
        found += more
        left += more
    return found


def left_behind(patience: float) -> list[str]:
    """The commands of processes that were started and do not end by themselves within so many seconds."""
    until = time.monotonic() + patience
    while (alive := [it for it in children() if is_alive(it)]) and time.monotonic() < until:
        time.sleep(0.05)
    return [command_of(it) for it in alive]


def end_children() -> None:
    """Kills whatever is left of what was started, each by its number."""
    for number in children():
        try:
            os.kill(number, signal.SIGKILL)
        except ProcessLookupError:
            pass


def command_of(number: int) -> str:
    """What a process was started by, and its number."""
    try:
        words = pathlib.Path(f"/proc/{number}/cmdline").read_bytes().rstrip(b"\0").split(b"\0")
    except OSError:
        words = []
    return f"{number} {b' '.join(words).decode(errors='replace')}"


def is_alive(number: int, group: int | None = None) -> bool:
    """Whether a process is there, of this group where one is given, that has not ended."""
    try:
        state, _, its_group = pathlib.Path(f"/proc/{number}/stat").read_text().rpartition(")")[2].split()[:3]
    except OSError:
        return False
    return state != "Z" and group in (None, int(its_group))
