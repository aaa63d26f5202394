"""What the scripts of this folder share: their words, the genesis files, and what a command takes."""
import argparse
import contextlib
import dataclasses
import os
import pathlib
import shutil
import subprocess
import sys
import time
from collections.abc import Callable
from typing import NoReturn

ROOT = pathlib.Path(__file__).resolve().parent.parent
sys.path.insert(0, str(ROOT / "python"))
import kit
from program import NoProgram, find

LEDGER = ROOT / "crates/ledger_cli/out/ledger_cli"
REGISTER = ROOT / "examples/chaincode/asset_register.c"
TO_WASM = ("clang --target=wasm32 -mcpu=mvp -O2 -w -ffreestanding -fno-builtin -nostdlib -Wl,--no-entry -Wl,--strip-all"
           " -Wl,-z,stack-size=8192")
# The files of all rows have fewer bytes.
ROOM = 1 << 30
# How the script was called.
NAME = f"bench/{pathlib.Path(sys.argv[0]).name}"
ORGANISATIONS = ["A", "B", "C"]


def positive(word: str) -> int:
    number = int(word)
    if not 0 < number < 10**9:
        raise ValueError
    return number


def fail(why: str) -> NoReturn:
    sys.exit(f"{NAME}: {why}")


def reader(text: str, rounds: int) -> argparse.ArgumentParser:
    """Reads the words that all scripts take."""
    words = argparse.ArgumentParser(prog=NAME, description=text, allow_abbrev=False,
                                    formatter_class=argparse.RawDescriptionHelpFormatter)
    words.add_argument("rounds", nargs="?", type=positive, default=rounds, help=f"{rounds} by default")
    words.add_argument("--program", type=pathlib.Path, default=LEDGER, help="another program than the proved one of this tree")
    words.add_argument("--small", action="store_true", help="small amounts, to try the script: the figures mean nothing")
    return words


def need(program: pathlib.Path) -> pathlib.Path:
    if program == LEDGER and os.environ.get("LEDGER_UNPROVED"):
        try:
            return find()
        except NoProgram as error:
            fail(str(error))
    if not os.access(program, os.X_OK):
        fail(f"there is no program {program}: ./ledger prove makes it")
    return program.resolve()


def folder(is_small: bool) -> contextlib.AbstractContextManager[pathlib.Path]:
    """A folder in memory, where there is room, so that no row waits for a disk. It goes away where a signal ends the script."""
    kit.end_by_signals()
    memory = pathlib.Path("/dev/shm")
    has_room = not is_small and os.access(memory, os.W_OK) and shutil.disk_usage(memory).free > ROOM
    return kit.folder("regtuma-bench-", memory if has_room else None)


def end_with(main: Callable[[], None]) -> NoReturn:
    """Does what a script does, and ends."""
    try:
        main()
        sys.exit(0)
    except KeyboardInterrupt:
        sys.exit(130)


@dataclasses.dataclass
class Took:
    """What a command takes: seconds of the clock and of processors, and the most bytes of memory, where these were looked at."""
    clock: float
    processors: float = 0.0
    memory: int = 0


def run(command: list, lines: pathlib.Path | None = None, cores: int | None = None) -> Took:
    """What a command takes that reads a file, on so many of the cores at hand. It has to end well."""
    at_hand = os.sched_getaffinity(0)
    # A process has the cores of its parent.
    os.sched_setaffinity(0, sorted(at_hand)[:cores])
    with open(lines or os.devnull, "rb") as given:
        start = time.monotonic()
        process = subprocess.Popen(list(map(str, command)), stdin=given, stdout=subprocess.DEVNULL, stderr=subprocess.DEVNULL)
        try:
            _, status, used = os.wait4(process.pid, 0)
        except KeyboardInterrupt:
            process.kill()
            raise
        clock = time.monotonic() - start
    os.sched_setaffinity(0, at_hand)
    process.returncode = os.waitstatus_to_exitcode(status)
    if process.returncode:
        fail(f"{' '.join(map(str, command))} ended with {process.returncode}")
    return Took(clock, used.ru_utime + used.ru_stime)


def least(rounds: int, commands: list[list], lines: pathlib.Path | None = None, cores: int | None = None,
          made: pathlib.Path | None = None) -> list[Took]:
    """The least that each command takes in some rounds, in turns. A file that they make is taken away before each."""
    runs: list[list[Took]] = [[] for _ in commands]
    for _ in range(rounds):
        for command, its_runs in zip(commands, runs):
            if made:
                made.unlink(missing_ok=True)
            its_runs.append(run(command, lines, cores))
    return [Took(min(it.clock for it in its), min(it.processors for it in its)) for its in runs]


def peak(process: subprocess.Popen) -> int:
    """The most bytes of memory that a process had until now; 0 where it has ended. What its parent had is no part of it, as it
    is of the system's own count at the end."""
    words = pathlib.Path(f"/proc/{process.pid}/status").read_text().split()
    return 1024 * int(words[words.index("VmHWM:") + 1]) if "VmHWM:" in words else 0


def memory(command: list, lines: pathlib.Path | None = None) -> int:
    """The most bytes of memory that a command has, looked at each millisecond."""
    most = 0
    with open(lines or os.devnull, "rb") as given:
        process = subprocess.Popen(list(map(str, command)), stdin=given, stdout=subprocess.DEVNULL, stderr=subprocess.DEVNULL)
        while process.poll() is None:
            most = max(most, peak(process))
            time.sleep(0.001)
    return most


def said(command: list, lines: pathlib.Path | None = None) -> list[str]:
    """The lines that a command prints, which has to end well."""
    with open(lines or os.devnull, "rb") as given:
        ran = subprocess.run(list(map(str, command)), stdin=given, capture_output=True, text=True)
    if ran.returncode:
        fail(f"{' '.join(map(str, command))} ended with {ran.returncode}: {(ran.stdout + ran.stderr)[-500:]}")
    return ran.stdout.splitlines()


def genesis(name: str, module: bytes, policy: str = "'A'", fuel: int = 10_000_000, **changes: object) -> dict[str, object]:
    """A genesis of three organisations with shared keys, and one chaincode."""
    chaincode = {"name": name, "module": module.hex(), "policy": policy, "fuel": fuel, "profile": 1}
    return {
        "orgs": [{"name": it, "key": (it * 32).encode().hex()} for it in ORGANISATIONS],
        "peers": ORGANISATIONS,
        "seats": 1,
        "queue": 1,
        "count": 1,
        "preferred": 524288,
        "absolute": 524288,
        "reorder": False,
        "chaincodes": [chaincode],
        "modules": [],
        "upgrade": "'A'",
        **changes,
    }


def compiled(room: pathlib.Path) -> tuple[bytes, pathlib.Path]:
    """The asset register for the ledger, compiled for speed, and the baseline: the register compiled for this machine."""
    module, native, baseline = room / "register.wasm", room / "register.o", room / "baseline"
    said([*TO_WASM.split(), "-o", module, REGISTER])
    said(["clang", "-O2", "-w", "-c", "-o", native, REGISTER])
    said(["clang++", "-std=c++17", "-O2", "-o", baseline, ROOT / "bench/baseline.cpp", native, "-lcrypto"])
    return module.read_bytes(), baseline
