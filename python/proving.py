"""Proves the crates that a program stands on, and builds it, by the merge gate's own command on a copy of their files.

The gate builds libraries of statements alone, which crates above read in half the time that whole ones take, takes the
longest chain of crates first, and gives a crate the cores that no other needs, unless it is told how many there are (steps).
Where the kit keeps what it proved, and may write beside itself, a run that was interrupted goes on by that. Wrong bodies are not
copied: the gate alone tries them.

    RT_JOBS=$(python3 python/proving.py) rt ci      runs the gate by the same rule (jobs)
"""
import os
import pathlib
import re
import shutil
import time
from collections.abc import Callable
from typing import TextIO

import kit

# For each crate, the libraries that it stands on, those of the kit too.
Libraries = dict[str, list[str]]
# Crates that a run of the gate proves beside those before, and its settings.
Step = tuple[set[str], dict[str, str]]
# Tells of a crate whether it is proved, how many are so far, and of how many.
Tell = Callable[[str, bool, int, int], None]
# So many bytes of memory are enough for each core: a check takes 3 GB at most.
ENOUGH_MEMORY = 5 << 30
# Where a container's limit of memory stands, by the two versions of control groups.
MEMORY_LIMITS = (pathlib.Path("/sys/fs/cgroup/memory.max"), pathlib.Path("/sys/fs/cgroup/memory/memory.limit_in_bytes"))
# `rt` keeps nothing more where fewer bytes of the disk are left.
LEAST_DISK = 5_000 << 20
# What the gate says of a crate.
SAID = re.compile(r"rt: (\w+) (proved|NOT PROVED|is kept)\b")


def libraries_of(root: pathlib.Path) -> Libraries:
    """The libraries that crates.txt names for each crate."""
    lines = [it.split(":", 1) for it in (root / "crates.txt").read_text().splitlines() if ":" in it and it[0] != "#"]
    return {head.split()[0]: tail.split() for head, tail in lines}


def below(libraries: Libraries, crate: str) -> set[str]:
    """All that a crate stands on."""
    found, left = set(), [*libraries.get(crate, [])]
    while left:
        name = left.pop()
        if name not in found:
            found.add(name)
            left += libraries.get(name, [])
    return found


def last_of(libraries: Libraries, program: str) -> set[str]:
    """The program, and below it those crates that wait for all others: one is proved behind the other."""
    last: set[str] = set()
    top = {program}
    while len(top) == 1:
        last |= top
        named = [it for crate in top for it in libraries[crate] if it in libraries]
        top = {it for it in named if not any(it in below(libraries, other) for other in named)}
    return last


def jobs(cores: int) -> str:
    """How many checks the gate is told to do side by side, for RT_JOBS. `rt` reckons with three times the memory that high crates take,
    and so leaves cores idle, unless it is told to give each check one core. Nothing where there is too little memory for that: `rt`
    chooses then. Who has told it how many jobs it may use is heard."""
    return os.environ.get("RT_JOBS") or (str(cores) if memory() >= cores * ENOUGH_MEMORY else "")


def steps(libraries: Libraries, program: str, cores: int) -> list[Step]:
    """The runs of the gate: one, or two where each crate gets one core. Those beside which no other is proved would have one too: a
    second run proves these, on what the first one kept. Where nothing is kept it would prove all again, so it is one run."""
    crates = libraries.keys() & (below(libraries, program) | {program})
    last = last_of(libraries, program)
    each = {"RT_JOBS": jobs(cores)}
    if not crates > last:
        return [(crates, {})]
    if os.environ.get("RT_JOBS") or not each["RT_JOBS"] or not can_keep():
        return [(crates, each)]
    return [(crates - last, each), (last, {})]


def memory() -> int:
    """The bytes of memory that there are: the machine's, or what a container may take."""
    limits = [it.read_text().strip() for it in MEMORY_LIMITS if it.is_file()]
    return min([os.sysconf("SC_PHYS_PAGES") * os.sysconf("SC_PAGE_SIZE"), *(int(it) for it in limits if it.isdigit())])


def can_keep() -> bool:
    """Whether `rt` keeps what it proves, and can: in a folder of this user's beside the kit."""
    if not kit.keeps_proofs():
        return False
    beside = pathlib.Path(shutil.which("rt") or "rt").resolve().parent.parent.parent
    kept = beside / "rattle-kept"
    place = kept if kept.exists() else beside
    is_own = place == beside or place.stat().st_uid == os.geteuid()
    return is_own and os.access(place, os.W_OK) and shutil.disk_usage(place).free >= LEAST_DISK


def copy_sources(root: pathlib.Path, room: pathlib.Path, crates: set[str]) -> None:
    """Copies what the gate reads of some crates into the top of a repository."""
    lines = (root / "crates.txt").read_text().splitlines(keepends=True)
    with open(room / "crates.txt", "a", encoding="utf-8") as listed:
        listed.writelines(it for it in lines if it.partition(":")[0].partition(" ")[0] in crates)
    for crate in crates:
        shutil.copytree(root / "crates" / crate, room / "crates" / crate, ignore=shutil.ignore_patterns("out", "must-fail", "plants"))


def put(made: pathlib.Path, out: pathlib.Path, begun: float) -> None:
    """Puts a program into a folder in one step, also from another disk, and where the one of before runs."""
    # It is of the sources as they were then: what was changed meanwhile is newer.
    os.utime(made, (begun, begun))
    out.mkdir(exist_ok=True)
    shutil.move(made, out / f"{made.name}.new")
    (out / f"{made.name}.new").replace(out / made.name)
    # What Rattle's own compiler made of older sources would be tried as this program (test/lines.py).
    (out / f"{made.name}.by-rattle").unlink(missing_ok=True)


def prove(root: pathlib.Path, program: str, cores: int, log: TextIO, tell: Tell) -> bool:
    """Proves a program and all that it stands on, on so many cores, and puts it into its crate's out/. Whether all is proved."""
    begun = time.time()
    planned = steps(libraries_of(root), program, cores)
    count = sum(len(crates) for crates, _ in planned)
    proved: set[str] = set()
    os.sched_setaffinity(0, sorted(os.sched_getaffinity(0))[:cores])
    # Beside the repository the program can be moved.
    beside = root.parent if os.access(root.parent, os.W_OK) else None
    with kit.folder("regtuma-prove-", beside) as room:
        room.joinpath(".git").mkdir()
        shutil.copy2(root / "HANDLES", room)

        def say(line: str) -> None:
            # The copy is gone when the log is read.
            log.write(line.replace(str(room), str(root)))
            log.flush()
            said = SAID.match(line)
            if said and said[1] not in proved:
                is_proved = said[2] != "NOT PROVED"
                proved.update([said[1]] if is_proved else [])
                tell(said[1], is_proved, len(proved), count)

        for crates, settings in planned:
            copy_sources(root, room, crates)
            if kit.run(["ci"], room, settings, say) != 0:
                return False
        out = pathlib.Path("crates", program, "out")
        put(room / out / program, root / out, begun)
    return True


if __name__ == "__main__":
    print(jobs(len(os.sched_getaffinity(0))))
