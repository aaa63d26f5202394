"""Why an input is refused, in words: each sentence on the standard error."""
import fcntl
import json
import os
import pathlib
import shutil

from lines import as_it_was, ran
from report import Report

# What a peer is asked by a kind of lines. Others are events, which a run reads.
ASKED = {"proposal": "call c", "question": "ask q"}


def bytes_of(text: str) -> bytes:
    """The bytes of a text of a row. A lone surrogate stands for a byte that is no UTF-8, as `\\udcff` for ff."""
    return text.encode("utf-8", "surrogateescape")


def rows_of(tree: pathlib.Path, name: str) -> list[dict]:
    """The rows of a file of wrong inputs."""
    return [json.loads(it) for it in (tree / "test" / f"{name}.jsonl").read_text(encoding="utf-8").splitlines()]


def try_words(report: Report, program: pathlib.Path, tree: pathlib.Path, data: pathlib.Path) -> None:
    """Each row of a file: words, what stands on the standard input, which file another has or stays, and the sentences."""
    for row in rows_of(tree, "wrong_words"):
        held = (data / row["held"]).open() if "held" in row else None
        if held:
            fcntl.flock(held, fcntl.LOCK_EX)
        words = row["words"].split()
        with as_it_was([data / it for it in words]) as before:
            err = ran(program, words, data, row.get("input", "").encode()).err
            if stays := row.get("stays"):
                report.case(f"{row['words']}: {stays} stays", (data / stays).read_bytes() == before[data / stays])
        if held:
            held.close()
        said = [it.removeprefix("ledger: ") for it in err.splitlines() if it.startswith("ledger: ")]
        report.case(f"{row['words']}: its sentences", said == row["says"], f"said   {said}\nwanted {row['says']}")


def try_genesis(report: Report, program: pathlib.Path, tree: pathlib.Path, data: pathlib.Path) -> None:
    """Each row of a file: what stands in the place of a text of the example's genesis file, the number, and the sentence."""
    genesis = (tree / "examples/assets/genesis.json").read_text(encoding="utf-8")
    for row in rows_of(tree, "wrong_genesis"):
        (data / "wrong.json").write_bytes(bytes_of(genesis.replace(row["old"], row["new"], 1)))
        now = ran(program, ["marks", "wrong.json", "/dev/null"], data)
        wanted = f"refused {row['number']}\n", f"ledger: wrong.json: {row['sentence']}\n"
        report.case(f"{row['old']} as {row['new'][:80]!a}", (now.out, now.err) == wanted, f"{now}\nwanted {wanted}")


def try_lines(report: Report, program: pathlib.Path, tree: pathlib.Path, data: pathlib.Path) -> None:
    """Each row of a file: a line of events, proposals or questions, and the sentence."""
    for row in rows_of(tree, "wrong_lines"):
        line, kind = bytes_of(row["line"]), row["kind"]
        if kind in ASKED:
            now = ran(program, ["peer", "put.json", "empty.store", "--org", "A"], data, f"{ASKED[kind]} ".encode() + line + b"\n")
            wanted = "height 0\nanswer %s 0 bad\n" % ASKED[kind][-1], f"ledger: standard input, line 1: {row['sentence']} (bad)\n"
        else:
            (data / "wrong.jsonl").write_bytes(line + b"\n")
            now = ran(program, ["run", "put.json", "wrong.jsonl"], data)
            wanted = "bad line 1\n", f"ledger: wrong.jsonl, line 1: {row['sentence']} (bad line)\n"
        report.case(f"{kind} {row['line'][:80]!a}", (now.out, now.err) == wanted, f"{now}\nwanted {wanted}")


def try_modules(report: Report, program: pathlib.Path, tree: pathlib.Path, data: pathlib.Path) -> None:
    """Each row of a file: the bytes of a module, a profile, and the sentence."""
    for row in rows_of(tree, "wrong_modules"):
        (data / "wrong.wasm").write_bytes(bytes.fromhex(row["hex"]))
        err = ran(program, ["check", "wrong.wasm", "--profile", str(row["profile"])], data).err
        wanted = f"ledger: wrong.wasm: {row['sentence']}\n"
        report.case(f"module {row['hex'][:80]}", err == wanted, f"{err}\nwanted {wanted}")


def try_pipe(report: Report, program: pathlib.Path, data: pathlib.Path) -> None:
    """A store that is a pipe is refused at once: nobody waits for its other end."""
    os.mkfifo(data / "pipe.store")
    wanted = "refused 703\n", "ledger: pipe.store: it is a device or a pipe, and cannot be used so (703)\n"
    now = ran(program, ["peer", "put.json", "pipe.store"], data)
    report.case("a peer of a pipe", (now.out, now.err) == wanted, f"{now}\nwanted {wanted}")


def try_reasons(report: Report, tree: pathlib.Path, room: pathlib.Path, program: pathlib.Path) -> None:
    data = room / "cases"
    shutil.copytree(tree / "test/cases/data", data)
    try_words(report, program, tree, data)
    try_modules(report, program, tree, data)
    try_genesis(report, program, tree, data)
    try_lines(report, program, tree, data)
    try_pipe(report, program, data)
