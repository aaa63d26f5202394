"""./ledger prove, by an `rt` that only says what the gate would: what is copied, told, put and left."""
import os
import pathlib
import re
import shutil
import signal
import sys
import time

from report import Ran, Report, end, is_alive, run, start
from seeing import comes_to_be
from tree import ROOT

sys.path.insert(0, str(ROOT / "python"))
import proving

# How long a command may take, in seconds.
SECONDS = 60
# More cores than there is memory for.
MANY = 1000
# In the place of rt: it lists what it finds, and how many jobs it may use. Where the program is there, it makes it, behind an edit
# of a source, and ends as it is told to, or makes many files more and goes on.
RT = """\
#!/bin/sh
[ "$1" = help ] && { echo "rt ci [$KEEPS]"; exit 0; }
find . -type f > "$FOUND"
echo "jobs: $RT_JOBS"
echo "rt: left is kept: an earlier run on this machine proved the same files"
echo "rt: right proved"
[ -d crates/ledger_cli ] || exit 0
echo "rt: ledger_cli: its tests are NOT PROVED"
echo "rt: ledger_cli $SAYS in $PWD"
echo edited > "$SOURCE"
mkdir crates/ledger_cli/out
echo new > crates/ledger_cli/out/ledger_cli
[ "$THEN" = wait ] || exec $THEN
mkdir many
cd many
seq 3000 | xargs touch
echo $$ > "$FOUND.process"
exec sleep 100
"""
FILES = {"crates.txt": "# Base: for any program\nleft: serde_json\nright:\nledger_cli: left right\nother: ledger_cli\n",
         "HANDLES": "Handles allowed: none.\n", "crates/left/src/lib.rt": "", "crates/right/src/lib.rt": "",
         "crates/ledger_cli/src/main.rt": "", "crates/ledger_cli/must-fail/a.edit": "", "crates/ledger_cli/plants/b.edit": "",
         "crates/other/src/lib.rt": "", "crates/ledger_cli/out/ledger_cli": "old\n", "crates/ledger_cli/out/ledger_cli.by-rattle": "old\n"}
FOUND = ["./HANDLES", "./crates.txt", "./crates/ledger_cli/src/main.rt", "./crates/left/src/lib.rt", "./crates/right/src/lib.rt"]
TOLD = ["1 of 3: left", "2 of 3: right"]


class Proving:
    """A small repository with the script, in a folder in which the copy of it comes and goes."""

    def __init__(self, tree: pathlib.Path, room: pathlib.Path, env: dict[str, str]):
        self.around, self.root, self.found = room / "proving", room / "proving/repository", room / "found"
        for name, text in FILES.items():
            (self.root / name).parent.mkdir(parents=True, exist_ok=True)
            (self.root / name).write_text(text)
        shutil.copy2(tree / "ledger", self.root)
        for folder in ("python", "node/regtuma"):
            shutil.copytree(tree / folder, self.root / folder)
        # The script reads its version, and the table of the program's commands.
        shutil.copy2(tree / "VERSION", self.root)
        shutil.copytree(tree / "crates/cli_words/src", self.root / "crates/cli_words/src")
        # As in a kit, so that beside it something can be kept.
        kit = room / "kit/rattle/bin"
        kit.mkdir(parents=True)
        (kit / "rt").write_text(RT)
        (kit / "rt").chmod(0o755)
        self.source = self.root / "crates/left/src/lib.rt"
        self.env = {**env, "PATH": f"{kit}:{env['PATH']}", "FOUND": str(self.found), "SOURCE": str(self.source), "RT_JOBS": "", "KEEPS": "--anew"}

    def prove(self, says: str, then: str, **env: str) -> tuple[list[str], Ran]:
        """What is told behind the first line where `rt` says this of the program, and ends so; without the minutes."""
        ran = run([self.root / "ledger", "prove", "1"], self.root, SECONDS, {**self.env, "SAYS": says, "THEN": then, **env})
        lines = [re.sub(r" after \d+\.\d minutes", "", it.removeprefix("ledger: ")) for it in ran.err.splitlines()]
        return lines[1:], ran

    def left(self) -> list[str]:
        """What lies beside the repository."""
        return sorted(it.name for it in self.around.iterdir() if it != self.root)

    def log(self) -> str:
        return (self.root / "crates/ledger_cli/out/prove.log").read_text()

    def jobs(self) -> list[str]:
        """How many jobs each run of the gate was told to use; nothing where it chooses."""
        return re.findall("^jobs: (.*)", self.log(), re.MULTILINE)


def try_proving(report: Report, tree: pathlib.Path, room: pathlib.Path, env: dict[str, str]) -> None:
    at = Proving(tree, room, env)
    out = at.root / "crates/ledger_cli/out"
    told, ran = at.prove("NOT PROVED: its library left failed", "false", RT_JOBS="3")
    report.case("what is not proved is told", ran.status == 1 and told[:3] == [*TOLD, "ledger_cli is not proved"], ran.out + ran.err)
    report.case("the program of before stays", (out / "ledger_cli").read_text() == "old\n" and not at.left(), str(at.left()))
    report.case("who tells rt how many jobs it may use is heard", at.jobs() == ["3"], str(at.jobs()))
    planned = proving.steps(proving.libraries_of(at.root), "ledger_cli", MANY)
    report.case("without memory for each core it is one run", len(planned) == 1, str(planned))
    told, ran = at.prove("proved", "true")
    report.case("what is proved is told", ran.status == 0 and told == [*TOLD, "3 of 3: ledger_cli", "proved and built"], ran.out + ran.err)
    found = sorted(at.found.read_text().split())
    report.case("what the program stands on is copied", found == FOUND, str(found))
    made = {it.name: it.read_text() for it in out.iterdir() if it.name != "prove.log"}
    report.case("the program is put", made == {"ledger_cli": "new\n"}, str(made))
    is_older = (out / "ledger_cli").stat().st_mtime < at.source.stat().st_mtime
    report.case("what is edited meanwhile is newer", is_older)
    report.case("the log names the repository", f"rt: ledger_cli proved in {at.root}\n" in at.log())
    is_enough, has_disk = proving.memory() >= proving.ENOUGH_MEMORY, shutil.disk_usage(room).free >= proving.LEAST_DISK
    wanted = ["1", ""] if is_enough and has_disk else ["1" if is_enough else ""]
    report.case("what waits for all others has a run of its own", at.jobs() == wanted, f"{at.jobs()}\nwanted {wanted}")
    goes_on = "goes on by what was proved" if has_disk else "begins anew"
    report.case("on a kit that keeps proofs it goes on", ran.err.splitlines()[0].endswith(f"; interrupted, it {goes_on}"), ran.err)
    told, ran = at.prove("proved", "true", KEEPS="")
    wanted = ["1" if is_enough else ""]
    report.case("on a kit that keeps nothing it is one run", ran.status == 0 and at.jobs() == wanted, f"{at.jobs()}\nwanted {wanted}")
    report.case("on that kit it begins anew", ran.err.splitlines()[0].endswith("; interrupted, it begins anew"), ran.err)
    report.case("the copy goes", not at.left(), str(at.left()))
    interrupt(report, at, [signal.SIGINT])
    # As a terminal does that closes: the second while files are taken away.
    interrupt(report, at, [signal.SIGHUP, signal.SIGHUP])


def interrupt(report: Report, at: Proving, signals: list[signal.Signals]) -> None:
    """Interrupted, it ends the gate, which would wait for what it has begun, and takes the copy away."""
    mark = at.found.with_suffix(".process")
    mark.unlink(missing_ok=True)
    # A test that `nohup` began has SIGHUP ignored, and what it begins would have too.
    process = start([at.root / "ledger", "prove"], at.root, {**at.env, "SAYS": "proved", "THEN": "wait"})
    is_begun = comes_to_be(lambda: mark.exists() and mark.read_text() != "")
    for number in signals:
        if process.poll() is None:
            os.kill(process.pid, number)
        time.sleep(0.005)
    has_ended = is_begun and comes_to_be(lambda: process.poll() is not None)
    gate_has = is_begun and comes_to_be(lambda: not is_alive(int(mark.read_text())))
    said = "\n".join(end(process))
    name = " and ".join(it.name for it in signals)
    report.case(f"{name}: it ends, and the gate with it", has_ended and gate_has and process.returncode == 130, said)
    report.case(f"{name}: it leaves nothing", not at.left(), str(at.left()))
