"""The kit's command `rt`, run so that what it has begun ends with the one that asked for it; folders for its copies; its edits."""
import contextlib
import ctypes
import os
import pathlib
import signal
import subprocess
import tempfile
from collections.abc import Callable, Iterator

# How a kit that keeps what `rt ci` proved lets it be proved again.
ANEW = "--anew"
# What asks Linux for a signal once the process that began this one has gone.
PR_SET_PDEATHSIG = 1
# The signals that end what is done here.
ENDINGS = (signal.SIGINT, signal.SIGTERM, signal.SIGHUP)


class BadEdit(Exception):
    """An edit that cannot be applied."""


def keeps_proofs() -> bool:
    """Whether this kit's `rt ci` keeps what it proved, and takes it again: kits differ in that, and those that do say how to do without."""
    asked = subprocess.run(["rt", "help"], stdin=subprocess.DEVNULL, capture_output=True, text=True, errors="replace", check=False)
    return ANEW in asked.stdout + asked.stderr


def edited(crate: pathlib.Path, edit: pathlib.Path) -> dict[str, str]:
    """The texts of the files that an edit of a crate changes, as it leaves them."""
    texts: dict[str, str] = {}
    file = old = ""
    for line in edit.read_text(encoding="utf-8").split("\n"):
        if line.startswith("file: "):
            file = line.removeprefix("file: ").strip()
            texts.setdefault(file, (crate / file).read_text(encoding="utf-8"))
        elif line.startswith("old: "):
            old = line.removeprefix("old: ")
            if texts[file].count(old) != 1:
                raise BadEdit(f"in {file} this stands {texts[file].count(old)} times, and has to stand there once: {old}")
        elif line.startswith("new:"):
            texts[file] = texts[file].replace(old, line.removeprefix("new:").removeprefix(" "))
    return texts


def end_with_parent(number: int) -> Callable[[], None]:
    """What a new process calls, so that this signal ends it when its parent goes, even by SIGKILL."""
    parent = os.getpid()

    def ask() -> None:
        ctypes.CDLL(None).prctl(PR_SET_PDEATHSIG, number)
        if os.getppid() != parent:
            os._exit(1)
    return ask


def run(words: list[str], room: pathlib.Path, settings: dict[str, str], say: Callable[[str], None]) -> int:
    """Runs `rt` in a folder, with these settings in its environment, and hands on each line that it says. Its status."""
    env = {**os.environ, "PYTHONUNBUFFERED": "1", **settings}
    with subprocess.Popen(["rt", *words], cwd=room, env=env, stdin=subprocess.DEVNULL, stdout=subprocess.PIPE,
                          stderr=subprocess.STDOUT, text=True, errors="replace", preexec_fn=end_with_parent(signal.SIGKILL)) as ran:
        try:
            for line in ran.stdout or ():
                say(line)
        except BaseException:
            # Interrupted, it would wait for the checks that it has begun. Killed, it takes them with it.
            ran.kill()
            raise
    return ran.returncode


@contextlib.contextmanager
def folder(prefix: str, beside: pathlib.Path | None = None) -> Iterator[pathlib.Path]:
    """A temporary folder. From its end on no signal ends what is done, so that it goes away whole."""
    with tempfile.TemporaryDirectory(prefix=prefix, dir=beside, ignore_cleanup_errors=True) as name:
        try:
            yield pathlib.Path(name)
        finally:
            ignore_signals()


def ignore_signals() -> None:
    for it in ENDINGS:
        signal.signal(it, signal.SIG_IGN)


def interrupt(_number: int, _frame: object) -> None:
    """Ends what is done, once: a second signal, as a terminal that closes sends two, would end it while it takes files away."""
    ignore_signals()
    raise KeyboardInterrupt


def end_by_signals() -> None:
    """Lets these signals end what is done, with its checks and its temporary folders."""
    for it in ENDINGS:
        # `nohup` has the last ignored.
        if signal.getsignal(it) != signal.SIG_IGN:
            signal.signal(it, interrupt)
