"""./ledger modules: the modules file that it prints, which the program reads, and what it refuses."""
import json
import pathlib
from typing import Any

from networks import EXTEND, SECONDS
from report import Ran, Report
from tree import run_ledger

# Words, and the modules of the file that is printed: by their files and profiles.
MADE: list[tuple[tuple[str, ...], list[tuple[str, int]]]] = [
    ((), []),
    (("kv.wasm",), [("kv.wasm", 1)]),
    (("kv.wasm:1",), [("kv.wasm", 1)]),
    (("kv.wasm", "extend.wasm:2"), [("kv.wasm", 1), ("extend.wasm", 2)]),
    (("kv.wasm:2", "kv.wasm"), [("kv.wasm", 2), ("kv.wasm", 1)]),
    (("a:3",), [("a:3", 1)]),
    (("kv.wasm",) * 64, [("kv.wasm", 1)] * 64),
]
# Words that are refused, and what is told.
MISTAKES: list[tuple[Any, ...]] = [
    (("none.wasm",), "the module", "none.wasm cannot be read: No such file or directory"),
    (("kv.wasm", "none.wasm:2"), "none.wasm cannot be read: No such file or directory"),
    ((".",), "cannot be read: Is a directory"),
    (("extend.wasm",), "extend.wasm", "is no valid module of profile 1: refused"),
    (("text.wasm:2",), "text.wasm", "is no valid module of profile 2: refused"),
    (("/dev/zero",), "is no valid module of profile 1"),
    (("kv.wasm",) * 65, "up to 64 modules, and 65 are named"),
]


def try_modules(report: Report, tree: pathlib.Path, room: pathlib.Path, env: dict[str, str]) -> None:
    at = room / "modules"
    at.mkdir()
    (at / "kv.wasm").write_bytes((tree / "examples/put_a.wasm").read_bytes())
    (at / "a:3").write_bytes((at / "kv.wasm").read_bytes())
    (at / "extend.wasm").write_bytes(bytes.fromhex(EXTEND))
    (at / "text.wasm").write_text("no module")

    def ledger(*words: object) -> Ran:
        return run_ledger([tree / "ledger", *words], at, SECONDS, env)

    for words, entries in MADE:
        what = f"modules {' '.join(words)[:80]}"
        ran = ledger("modules", *words)
        wanted = [{"module": (at / name).read_bytes().hex(), "profile": profile} for name, profile in entries]
        report.case(what, ran.status == 0 and not ran.err and json.loads(ran.out) == wanted, ran.out[:400] + ran.err)
        (at / "modules.json").write_text(ran.out)
        genesis = tree / "examples" / "assets" / "genesis.json"
        read = ledger("sim", genesis, "none", "-", "--modules", "modules.json")
        report.case(f"{what}: the program reads it", read.out == "refused 401\n", read.out + read.err)
    for words, *told in MISTAKES:
        ran = ledger("modules", *words)
        is_told = ran.status == 1 and not ran.out and ran.err.count("\n") == 1 and "Traceback" not in ran.err
        is_told = is_told and all(it in ran.err for it in told)
        report.case(f"modules {' '.join(words)[:80]}", is_told, f"status {ran.status}\n{ran.out[:400]}{ran.err}\nand it has to tell {told}")
    for words in ("--no",), ("kv.wasm", "--modules"):
        ran = ledger("modules", *words)
        report.case(f"modules {words}: its usage", ran.status == 2 and ran.err.startswith("usage: ") and not ran.out, ran.err)
