"""The parts of the test: each types what some documents say, or runs what they send people to."""
import hashlib
import os
import pathlib
import re
import sys
import tomllib
from collections.abc import Callable

import asking as asked
import calls as called
import changes
import debugging
import developing
import escrows
import explaining
import founding
import growths as growing
import installing
import keygen
import lines as typed_lines
import modules_files
import networks
import operating
import proved
import questions as questioning
import reasons as sentences
import running
import sources
import timed as timed_words
import unproved
import untyped
from calling import find_pieces
from pages import Block, Typist, blocks_of
from report import Ran, Report, children, end, is_alive, run, start
from seeing import comes_to_be
from tree import ENVIRONMENT, UNPROVED, program

# How long a script may take to say how it is used, and how long tests may take, in seconds.
SHORT, LONG = 30, 550
# The scripts that people run.
SCRIPTS = ["ledger", "docs/definitions", "docs/stands-on", "docs/tables", "test/run", "test/documents", "test/questions.py", "examples/chaincode/build.sh",
           "examples/assets/*.py", "examples/page/make.py", "examples/page/seal.py", "examples/page/test", "examples/roles/plain",
           "bench/build.sh", "bench/gate", "bench/hostile", "bench/instructions", "bench/node", "bench/plants", "bench/plot",
           "bench/run", "bench/slowest", "bench/state", "bench/threads", "bench/untuned/build.sh",
           "node/bin/*", "node/certs.sh", "node/change.py", "node/demo/run", "node/demo/demo.py", "node/demo/traffic.py"]
# Scripts that say whether a file is as they would write it; and those that write, with the files.
CHECKS = ["docs/definitions --check", "docs/stands-on --check", "examples/page/seal.py --check"]
WRITTEN = {"examples/assets/make.py": ["examples/assets/*.json*", "examples/assets/example_keys/*.key"], "bench/plot": ["bench/*.svg"]}
# The example in a copy of the repository, and the words by which ./ledger runs it.
EXAMPLE = pathlib.Path("examples/assets")
RUN = ["run", EXAMPLE / "genesis.json", EXAMPLE / "events.jsonl", "--keys", EXAMPLE / "example_keys/all.key"]
# A C source of which clang copies a struct and fills one with zeros.
STRUCTS = """
#define CHAINCODE "assets"
#include "fabric.h"
struct big { char bytes[200]; };
static struct big one, two;
__attribute__((export_name("invoke"))) int invoke(void) {
    struct big zeros = {{0}};
    if (get_arg(&one, sizeof one) > (int)sizeof one) return 1;
    two = one;
    if (put_state(OWN_KEY("a"), 8, &two, 3)) return 2;
    return put_state(OWN_KEY("b"), 8, &zeros, 3);
}
"""


class Setting:
    """Where a part works: a folder of its own with a copy of the repository in it."""

    def __init__(self, tree: pathlib.Path, room: pathlib.Path):
        self.tree, self.room = tree, room
        # What is left in a folder for temporary files goes away with this one.
        self.env = {**ENVIRONMENT, "TMPDIR": str(room / "tmp")}
        self.typist = Typist(tree, room / "typed")

    def type(self, report: Report, blocks: list[Block], folders: dict[str, pathlib.Path] | None = None,
             instead: dict[str, str] | None = None) -> None:
        self.typist.type(report, blocks, folders, instead, self.env)

    def run(self, report: Report, name: str, command: list, seconds: float = LONG) -> str:
        """Runs a command, which has to end with status 0. What it prints."""
        ran = run(command, self.tree, seconds, self.env)
        report.case(name, ran.status == 0, f"status {ran.status}\n{ran.out[-1500:]}{ran.err[-1500:]}")
        return ran.out


def readme(report: Report, at: Setting) -> None:
    at.type(report, typed_of(at.tree, "README.md"))
    page = at.tree / "demo.html"
    report.case("README.md: the page is whole", page.exists() and page.read_text().rstrip().endswith("</html>"))


def tutorial(report: Report, at: Setting) -> None:
    at.type(report, blocks_of(at.tree, "docs/TUTORIAL.md"))
    follow(report, at)


def follow(report: Report, at: Setting) -> None:
    """A replica that follows a log commits what comes into it later, until its store is that of which the marks are."""
    genesis, whole, store, log = EXAMPLE / "genesis.json", at.room / "whole.store", at.room / "followed.store", at.room / "log"
    at.run(report, "a store whose marks are followed", ["./ledger", *RUN, "--store", whole])
    marks = at.run(report, "its marks", ["./ledger", "marks", genesis, whole]).splitlines()
    lines = [f"{number} {mark}\n" for number, mark in enumerate(marks, 1)]
    first = lines.index(next(it for it in lines if it.endswith("tick\n"))) + 1
    log.write_text("".join(lines[:first]))
    replica = start(["examples/roles/plain", genesis, log, store, "--follow"], at.tree, at.env)
    is_begun = comes_to_be(lambda: store.exists() and store.stat().st_size > 0)
    with log.open("a") as more:
        more.writelines(lines[first:])
    is_whole = is_begun and comes_to_be(lambda: store.read_bytes() == whole.read_bytes())
    said = "\n".join(end(replica))
    # The programs that it began end by the same signal, each in its time.
    has_ended = comes_to_be(lambda: not any(is_alive(it, replica.pid) for it in children()))
    report.case("examples/roles/plain --follow", is_whole and has_ended, said)


def typed_of(tree: pathlib.Path, document: str) -> list[Block]:
    """The blocks of a document, but for the commands that are not typed, for a reason."""
    return [it for it in blocks_of(tree, document) if not it.is_command() or untyped.reason(it) is None]


def formats(report: Report, at: Setting) -> None:
    store = "formats.store"
    at.run(report, "a store to show", ["./ledger", *RUN, "--store", store])
    at.type(report, typed_of(at.tree, "docs/OUTPUT.md"), instead={"GENESIS": str(EXAMPLE / "genesis.json"), "STORE": store})


def scripts(report: Report, at: Setting) -> None:
    """Each script says how it is used, from any folder, and does nothing else. Beside those of the node none takes another word."""
    for script in (it for pattern in SCRIPTS for it in sorted(at.tree.glob(pattern))):
        name, ran = script.relative_to(at.tree), run_script(at, script, "--help")
        is_said = ran.status == 0 and ran.out.strip() != "" and "Traceback" not in ran.out + ran.err
        report.case(f"{name} --help", is_said, f"status {ran.status}\n{ran.out}{ran.err}"[-800:])
        if name.parts[0] != "node":
            ran = run_script(at, script, "no-such-word")
            is_refused = ran.status in (1, 2) and ran.err.strip() != "" and "Traceback" not in ran.out + ran.err
            report.case(f"{name} no-such-word", is_refused, f"status {ran.status}\n{ran.out}{ran.err}"[-800:])
    # A command without its words prints its usage, by the program.
    said, asked = [run([at.tree / "ledger", word], at.tree, LONG, at.env).out for word in ("digest", "--help")]
    is_there = said.startswith("usage:") and all(it in asked for it in said.removeprefix("usage:").splitlines())
    report.case("ledger --help has the program's usage", is_there, said + asked)
    for word in ("prove", "dist"):
        ran = run([at.tree / "ledger", word, "0"], at.tree, SHORT, at.env)
        report.case(f"ledger {word} 0: its usage", ran.status == 2 and ran.err.startswith(f"usage: ledger {word}"), ran.out + ran.err)


def run_script(at: Setting, script: pathlib.Path, word: str) -> Ran:
    """Runs a script with a word, in another folder."""
    return run([*([sys.executable] if is_python(script) else []), script, word], pathlib.Path("/"), SHORT, at.env)


def made(report: Report, at: Setting) -> None:
    """What scripts write is what is kept, and the page is whole."""
    sources.try_page(report, at.tree / "examples/page/template.html")
    for command in CHECKS:
        at.run(report, command, command.split())
    for script, patterns in WRITTEN.items():
        kept = {it: it.read_bytes() for pattern in patterns for it in at.tree.glob(pattern)}
        for file in kept:
            file.unlink()
        at.run(report, script, [sys.executable, script])
        for file, before in kept.items():
            report.case(f"{file.name} is what {script} writes", file.exists() and file.read_bytes() == before)
    page = at.room / "page.md"
    page.write_text("A member signs.\n\nWho is no member counts for nothing.\n")
    said = at.run(report, "test/english", ["test/english", page])
    report.case("a turn is found", said.startswith(f"{page}:3: 'Who' (") and said.count("\n") == 1, said)
    at.run(report, "test/english of all pages", ["test/english"])


def chaincode(report: Report, at: Setting) -> None:
    """The builds of CHAINCODE.md, of its own two examples too, and of the modules that are kept here."""
    blocks = blocks_of(at.tree, "docs/CHAINCODE.md")
    pieces = {language: [it.text for it in blocks if it.language == language] for language in ("c", "rust", "toml")}
    example, manifest = at.tree / "register.c", at.tree / "examples/chaincode/register"
    example.write_text(pieces["c"][0])
    (at.tree / "register_test.c").write_text(pieces["c"][1])
    (manifest / "src").mkdir(parents=True)
    (manifest / "src/lib.rs").write_text(pieces["rust"][0])
    (manifest / "Cargo.toml").write_text(pieces["toml"][0])
    at.type(report, blocks, folders={"RUSTFLAGS": manifest})
    built = manifest / "target/wasm32-unknown-unknown/release/register.wasm"
    said = at.run(report, "the module in Rust is valid", ["./ledger", "check", built])
    report.case("the module in Rust is one", said.startswith("valid functions="), said)
    build(report, at)
    copy_a_struct(report, at)


def build(report: Report, at: Setting) -> None:
    """Builds the modules again, with a wasm-opt at hand that must not be asked: they are those that are kept."""
    folder = at.tree / "examples/chaincode"
    kept = {it.name: it.read_bytes() for it in folder.glob("*.wasm")}
    for module in folder.glob("*.wasm"):
        module.unlink()
    optimizer = at.room / "bin" / "wasm-opt"
    optimizer.parent.mkdir()
    optimizer.write_text("#!/bin/sh\necho wasm-opt was run >&2\nexit 1\n")
    optimizer.chmod(0o755)
    path = f"{optimizer.parent}:{ENVIRONMENT['PATH']}"
    ran = run([folder / "build.sh"], at.tree, LONG, {**at.env, "PATH": path})
    report.case("build.sh", ran.status == 0, f"status {ran.status}\n{ran.out}{ran.err}")
    for name, before in kept.items():
        now = (folder / name).read_bytes() if (folder / name).exists() else b""
        digests = [hashlib.sha256(it).hexdigest() for it in (before, now)]
        report.case(f"the digest of {name}", before == now, f"kept {digests[0]}, built {digests[1]}")


def copy_a_struct(report: Report, at: Setting) -> None:
    """What fabric.h has for copies of structs works, at the levels that are used."""
    flags = "--target=wasm32 -mcpu=mvp -ffreestanding -fno-builtin -Wall -Wextra -Werror -Iexamples/chaincode -c".split()
    (at.room / "structs.c").write_text(STRUCTS)
    module, genesis = at.room / "structs.wasm", at.room / "structs.json"
    for level in ("-Oz", "-O2"):
        built = at.room / "structs.o"
        at.run(report, f"structs {level}: compiled", ["clang", *flags, level, "-o", built, at.room / "structs.c"])
        at.run(report, f"structs {level}: linked", ["wasm-ld", "--no-entry", "-z", "stack-size=8192", "-o", module, built])
        text = (at.tree / "examples/assets/genesis.json").read_text()
        genesis.write_text(re.sub('"module": "[0-9a-f]+"', f'"module": "{module.read_bytes().hex()}"', text, count=1))
        said, front = at.run(report, f"structs {level}: simulated", ["./ledger", "sim", genesis, "assets", "616263"]), b"assets/".hex()
        report.case(f"structs {level}: its writes", said.endswith(f"write {front}61 put 616263\nwrite {front}62 put 000000\n"), said)


def page(report: Report, at: Setting) -> None:
    at.run(report, "examples/page/test", ["examples/page/test"])


def demo(report: Report, at: Setting) -> None:
    """The demo of the nodes, with a real etcd."""
    blocks = blocks_of(at.tree, "docs/OPERATIONS.md")
    place = next(place for place, it in enumerate(blocks) if it.text == "node/demo/run")
    # On a busy machine the unproved program may need longer than the demo's own 300 seconds.
    at.type(report, blocks[place:place + 2], instead={"node/demo/run": "node/demo/run --seconds 540"})


def operations(report: Report, at: Setting) -> None:
    operating.operate(report, at.tree, at.room / "machines", at.env, blocks_of(at.tree, "docs/OPERATIONS.md"), at.typist.typed)


def node(report: Report, at: Setting) -> None:
    """The node's own tests."""
    tests = ["/usr/bin/python3", "-B", "-m", "unittest", "discover", "-s", "node/tests"]
    at.run(report, "the node's tests", tests)


def dev(report: Report, at: Setting) -> None:
    """A network on one machine."""
    blocks = blocks_of(at.tree, "docs/OPERATIONS.md")
    place = next(place for place, it in enumerate(blocks) if it.text.startswith("./ledger dev "))
    # It runs as long as nobody ends it, and is begun by other words.
    at.typist.typed.add(blocks[place])
    developing.try_developing(developing.Developing(report, at.tree, at.room, at.env), at.typist, blocks[place + 2:place + 4])


def keys(report: Report, at: Setting) -> None:
    keygen.try_keygen(report, at.tree, at.room, at.env)


def numbers(report: Report, at: Setting) -> None:
    at.run(report, "docs/tables --check", ["docs/tables", "--check"])
    explaining.try_explain(report, at.tree, at.env)


def install(report: Report, at: Setting) -> None:
    installing.try_installing(report, at.tree, at.room, at.env)


def prove(report: Report, at: Setting) -> None:
    proved.try_proving(report, at.tree, at.room, at.env)


def network(report: Report, at: Setting) -> None:
    networks.try_networks(report, at.tree, at.room, at.env)


def debug(report: Report, at: Setting) -> None:
    debugging.try_debugging(report, at.tree, at.room, at.env)


def modules(report: Report, at: Setting) -> None:
    modules_files.try_modules(report, at.tree, at.room, at.env)


def change(report: Report, at: Setting) -> None:
    changes.try_changes(report, at.tree, at.room, at.env)


def questions(report: Report, at: Setting) -> None:
    questioning.try_questions(report, at.tree, at.room, at.env)


def reasons(report: Report, at: Setting) -> None:
    sentences.try_reasons(report, at.tree, at.room, at.tree / (program() or UNPROVED))


def lines(report: Report, at: Setting) -> None:
    typed_lines.try_lines(report, at.tree, at.room, at.tree / (program() or UNPROVED))


def escrow(report: Report, at: Setting) -> None:
    escrows.try_escrows(report, at.tree, at.room, at.env)


def folders(report: Report, at: Setting) -> None:
    founding.try_folders(report, at.tree, at.room, at.env)


def asking(report: Report, at: Setting) -> None:
    asked.try_asking(report, at.tree, at.room, at.env)


def calls(report: Report, at: Setting) -> None:
    called.try_calls(report, at.tree, at.room, at.env)


def calling(report: Report, at: Setting) -> None:
    find_pieces(report, at.tree, blocks_of(at.tree, "docs/CALLING.md"))


def growths(report: Report, at: Setting) -> None:
    """Each growth of some calls is refused."""
    growing.growths(report, at.room)


def timed(report: Report, at: Setting) -> None:
    """What bench/ times, with small amounts."""
    timed_words.try_timed(report, at.tree, at.tree / (program() or UNPROVED), at.env)


def types(report: Report, at: Setting) -> None:
    """The Python passes mypy: each script, and the modules of python/ strictly."""
    told = tomllib.loads((at.tree / "pyproject.toml").read_text())["tool"]["mypy"]
    scripts = {it for it in at.tree.glob("**/*") if it.is_file() and is_python(it)}
    left = scripts.difference(*(at.tree.glob(it) for it in told["files"]))
    report.case("pyproject.toml has each script", len(scripts) > 90 and not left, " ".join(map(str, left)))
    strict = {it for row in told["overrides"] for it in row["module"]}
    loose = {it.stem for it in (at.tree / "python").glob("*.py")} - strict
    report.case("mypy is strict in python/", not loose, " ".join(loose))
    at.run(report, "mypy", ["/usr/bin/python3", "-m", "mypy", "--cache-dir", at.room / "mypy"])


def is_python(file: pathlib.Path) -> bool:
    return file.suffix == ".py" or file.read_bytes().startswith(b"#!/usr/bin/env python3")


def cases(report: Report, _at: Setting) -> None:
    unproved.try_cases(report, "ledger_cases")


def tests(report: Report, at: Setting) -> None:
    """Each test takes two cores, since some have threads."""
    unproved.try_tests(report, at.room, "ledger_tests", max(1, len(os.sched_getaffinity(0)) // 2))


def layout(report: Report, _at: Setting) -> None:
    sources.try_layout(report)


def edits(report: Report, _at: Setting) -> None:
    sources.try_edits(report)


def itself(report: Report, at: Setting) -> None:
    running.try_running(report, at.tree, at.room, at.env)


Part = Callable[[Report, Setting], None]
LEDGER = ("ledger_cli",)
# What test/run does, without a proof: first what needs no program. In each list those that take long come first.
WITHOUT_PROGRAM: list[Part] = [itself, layout, types, made, prove, edits, calling]
WITH_LEDGER: list[Part] = [lines, node, reasons, debug, network, modules, change, folders, asking, readme, formats, numbers, keys, scripts]
# The programs that are compiled for it, the dearest first, and for which parts.
COMPILED: dict[Part, unproved.Compiled] = {**dict.fromkeys(WITH_LEDGER, LEDGER), tests: ("ledger_tests", "--test"), cases: ("ledger_cases",)}
QUICK: list[Part] = [*WITHOUT_PROGRAM, tests, cases, *WITH_LEDGER]
# What test/documents does behind the gate: what needs the programs as they were proved, a browser, etcd, a Rust compiler, or many signatures.
BEHIND: list[Part] = [demo, operations, dev, calls, escrow, page, questions, chaincode, tutorial, lines, install, growths, timed]
DOCUMENTS: list[Part] = [*BEHIND, *(it for it in [*WITH_LEDGER, made, prove, calling, types] if it not in BEHIND)]
# The documents all of whose commands test/run types.
TYPED_BEFORE = {readme: "README.md", formats: "docs/OUTPUT.md"}
# The packages of Debian that parts of test/run need.
OF_NODE = ["openssl", "nodejs", "haproxy", "python3-aiohttp", "python3-cryptography", "python3-prometheus-client"]
OF_LOG = ["etcd-server", "etcd-client"]
PACKAGES: dict[Part, list[str]] = {types: ["mypy", *OF_NODE[3:]], formats: ["jq"], keys: ["openssl"], asking: ["wabt"], node: [*OF_NODE, *OF_LOG],
                                   scripts: [*OF_LOG, "curl", *OF_NODE]}


def typed_before(tree: pathlib.Path) -> set[Block]:
    """The commands that test/run types."""
    return {it for document in TYPED_BEFORE.values() for it in typed_of(tree, document) if it.is_command()}
