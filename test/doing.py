"""How the parts of a test are done: side by side, each in a copy of the repository, and told of as they begin and end.

Behind them no process may be left, and the repository has to be as it was.
"""
import concurrent.futures
import os
import pathlib
import signal
import sys
import tempfile
import threading
import time
import traceback
from collections.abc import Callable

import kit
from pages import Block
from parts import Part, Setting
from report import GRACE, STOPPED, Report, Stopped, end_children, left_behind, say
from tree import ROOT, adopt_orphans, copy_to, files

CORES = len(os.sched_getaffinity(0))


def named(doc: str, words: list[str], parts: list[Part]) -> int | None:
    """Tells how a test is used where words ask for that, or name none of its parts. The status then."""
    names, is_help = [it.__name__ for it in parts], words in (["--help"], ["-h"])
    if not is_help and set(words) <= set(names):
        return None
    wrong = "" if is_help else f"no such part: {' '.join(it for it in words if it not in names)}\n"
    print(f"{wrong}{doc}\nParts: {' '.join(names)}", file=sys.stdout if is_help else sys.stderr)
    return 0 if is_help else 2


def do(part: Part, report: Report, room: pathlib.Path) -> set[Block]:
    """Does a part in a folder of its own. Which commands it typed."""
    at = Setting(room / "regtuma", room)
    say(f"{report.part}: begins")
    report.began = time.monotonic()
    try:
        (room / "tmp").mkdir(parents=True)
        copy_to(at.tree)
        part(report, at)
    except Exception:
        # What is stopped fails in many ways, of which none is told.
        report.count("the part ends", False, traceback.format_exc())
    return at.typist.typed


def do_all(parts: list[Part], command: str, room: pathlib.Path, reports: list[Report], side_by_side: int,
           is_ready: Callable[[Part], bool] = lambda _: True) -> set[Block]:
    """Does those parts that are ready, each once it is, and so many side by side. Adds the report of each that ends. Which commands were
    typed."""
    workers = threading.Semaphore(side_by_side)

    def one(part: Part, report: Report) -> set[Block]:
        if not is_ready(part):
            return set()
        with workers:
            if STOPPED.is_set():
                return set()
            typed = do(part, report, room / part.__name__)
            if not STOPPED.is_set():
                reports.append(report)
                say(report.summary())
            return typed

    pool = concurrent.futures.ThreadPoolExecutor(len(parts) or 1)
    begun = {pool.submit(one, it, Report(it.__name__, f"{command} {it.__name__}")): it.__name__ for it in parts}
    try:
        return set().union(*(it.result() for it in concurrent.futures.as_completed(begun)))
    except Stopped as error:
        raise Stopped(f"{error}: {' '.join(name for it, name in begun.items() if not it.done())}") from None
    finally:
        pool.shutdown(wait=False, cancel_futures=True)


def stop(number: int, _frame: object) -> None:
    """Ends the test, once."""
    signal.alarm(0)
    kit.ignore_signals()
    raise Stopped("they took too long" if number == signal.SIGALRM else f"stopped by signal {number}")


def end_all(patience: float) -> list[str]:
    """Ends what is being done still, with its processes. The commands of those that did not end by themselves within so many seconds."""
    signal.alarm(0)
    kit.ignore_signals()
    STOPPED.set()
    left = left_behind(patience)
    end_children()
    until = time.monotonic() + GRACE
    while threading.active_count() > 1 and time.monotonic() < until:
        # A part that was stopped may begin another command.
        end_children()
        time.sleep(0.05)
    return left


def conduct(work: Callable[[pathlib.Path, list[Report]], None]) -> int:
    """Does the work of a test in a temporary folder, and counts the cases of its reports. The status."""
    began, before = time.monotonic(), files(ROOT)
    adopt_orphans()
    report = Report("all")
    reports = [report]
    with tempfile.TemporaryDirectory(prefix="regtuma-test-", ignore_cleanup_errors=True) as room:
        try:
            for number in (*kit.ENDINGS, signal.SIGALRM):
                if signal.getsignal(number) != signal.SIG_IGN:
                    signal.signal(number, stop)
            work(pathlib.Path(room), reports)
        except Stopped as error:
            report.count("all parts end", False, str(error))
        finally:
            # Who is asked to end may take a moment, and its children another.
            left = end_all(0 if report.failures else GRACE)
    report.count("no process is left", not left or report.failures != [], "\n".join(left))
    after = files(ROOT)
    changed = [it for it in {**before, **after} if before.get(it) != after.get(it)]
    report.count("the repository is as it was", not changed, " ".join(changed))
    say(report.summary())
    passed, failed = sum(it.passed for it in reports), sum(len(it.failures) for it in reports)
    say(f"wall time {time.monotonic() - began:.0f} s\n{passed} passed, {failed} failed")
    return 1 if failed else 0


def leave(status: int) -> None:
    """Ends this process. Nobody waits for a part that was stopped."""
    sys.stdout.flush()
    end_children()
    os._exit(status)
