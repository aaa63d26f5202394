"""What people try first: --help, --version, words that are none, `-`, completion for bash, the man page, and what a terminal
shows."""
import concurrent.futures
import os
import pathlib
import re
import shutil
import subprocess
import sys

from report import Ran, Report, run
from tree import ROOT, run_ledger

# How long a command may take, in seconds.
SECONDS = 120
# Words that name no task, and what is told last.
WRONG = [
    ("cal", 'there is no command cal; did you mean "call"?'), ("help audt", 'there is no command audt; did you mean "audit"?'),
    ("--nothing", "there is no command --nothing"), ("explain", "explain: "), ("new", "new: DIR is missing"),
    ("cc", "cc: FILE.c is missing"), ("cc a.c b.c", "'b.c' is one word too many"), ("completion zsh", "is bash"),
    ("man x", "man: "), ("run - -", "the standard input is read once"),
]
# What bash completes: the words so far, and what is found.
COMPLETED = [("ledger ca", "call"), ("ledger call --dr", "--dry-run"), ("ledger help au", "audit"), ("ledger call d", ""),
             ("ledger state --m", "--members")]
COMPLETE = '. ./completed; COMP_WORDS=($1); COMP_CWORD=$((${#COMP_WORDS[@]} - 1)); _ledger; echo "${COMPREPLY[@]}"'
# Under rules 1, by which the module writes a key that does not begin with the chaincode's name.
NETWORK = """rules = 1
upgrade = "'A'"
[orgs]
A.key = "4a"
[chaincodes.kv]
module = "put_a.wasm"
policy = "'A'"
"""
# A module in text, whose memory has 31 pages, and one in C.
LARGE, SOURCE = '(module (memory 31) (func (export "invoke") (result i32) (i32.const 0)))', "int x;\n"
# Files given in the place of others, and what is told: G, S and N are a network's genesis file, store and network file.
REMARKS = [
    ("check object.o", "object.o looks like an object file, and MODULE has to be a module: link it by wasm-ld, or build"),
    ("check large.wat", "large.wat looks like a text of WebAssembly, and MODULE has to be a module: wat2wasm makes"),
    ("check S", "looks like a store, and MODULE has to be"), ("check G", "looks like a genesis file, and MODULE has to be a module"),
    ("check large.wasm", "large.wasm wants 31 pages of memory, and 16 are the most: link it with -z stack-size=8192"),
    ("modules object.o", "refused 105 at 38; object.o looks like an object file"),
    ("new other --chaincode a=large.wasm", "refused 111 at 23; large.wasm wants 31 pages"),
    ("audit N S", "and GENESIS has to be a genesis file: `ledger genesis` makes a genesis file of it"),
    ("audit S S", "looks like a store, and GENESIS has to be"), ("audit put_a.wasm S", "looks like a module, and GENESIS has to be"),
    ("audit G G", "looks like a genesis file, and STORE has to be a store"), ("audit G text", "looks like a text, and STORE has to be"),
    ("run G S", "looks like a store, and EVENTS has to be a file of events"), ("public N", "and KEYS has to be a key file"),
    ("sim G kv - --modules G", "looks like a genesis file, and --modules has to be a modules file"),
    ("audit mark.json S", "mark.json begins with a byte order mark: save it without"),
    ("audit wide.json S", "wide.json is in UTF-16: save it as UTF-8"),
    ("audit twice.json S", 'twice.json has the field "seats" twice in an object: the last one counts'),
    ("run G twice.jsonl --keys net/all.key", 'twice.jsonl has the field "do" twice in an object: the last one counts'),
    ("sim G kw -", 'there is no chaincode "kw"; did you mean "kv"?'), ("trace G other -", 'there is no chaincode "other"; there is kv'),
    ("sim net kw -", 'there is no chaincode "kw"; did you mean "kv"?'),
    ("sim cases/upgrades.json nx - --store cases/new.store", 'there is no chaincode "nx"; did you mean "nw"?'),
    ("run cases/signed.json cases/signed.jsonl --keys cases/other.keys", "other.keys lacks the seed of B, and has none of this ledger's"),
    ("threads cases/signed.json kv 1 --keys cases/other.keys", "other.keys lacks the seed of B, and has none of this ledger's"),
    ("peer cases/signed.json cases/signed.store --org B --keys cases/other.keys", "other.keys lacks the seed of B, and has none of"),
    ("peer cases/members.json cases/members-joined.store --org C --keys cases/sixteen.keys", "lacks the seed of C, and has the seed of B"),
    ("state net --at 2", "net/chain.store: there is no block 2; the last is 1"),
    ("show net --from 3", "net/chain.store: there is no block 3; the last is 1"),
    ("show net --from 4 --to 2", "net/chain.store: there is no block from 4 to 2"), ("page net --from 3", "there is no block 3; the last is 1"),
]
# Words of which there is nothing to be said.
SILENT = ["audit net", "state net --at 1", "show net --from 1 --to 1", "sim net kv -", "check put_a.wasm", "marks net", "public net/all.key",
          "trace net kv -", "show net --from 1", "sim cases/upgrades.json nw - --store cases/new.store",
          "threads cases/signed.json kv 1 --keys cases/signed.keys", "peer cases/signed.json cases/signed.store --org A --keys cases/other.keys",
          "peer cases/members.json cases/members-joined.store --org C --keys cases/other.keys"]
# Words behind those that make the network, and what is printed.
TEXTS = [
    ("sim g.json kv a b --text", "tx [0-9a-f]{64}\nresult -\nread 0x006b76 absent\nwrite a put 1\n"),
    ("call g.json s kv a b", "write a put 1\nVALID in block 1, tx [0-9a-f]{64}\n"),
    ("state g.json s --text", '{"key":"a","value":"1","version":"1.0"}\n'),
    ("state g.json s --text --key a", '{"block":1,"id":"[0-9a-f]{64}","key":"a","place":0,"value":"1"}\n'),
    ("state g.json s --key=0x61 --text", '{"block":1,"id":"[0-9a-f]{64}","key":"a","place":0,"value":"1"}\n'),
    ("show g.json s --from 1 --text", '(.*\n)+.*"arg":"a b",.*"key":"0x006b76","version":null.*"key":"a","value":"1".*\n.*"end":"clean".*\n'),
    ("trace g.json kv --steps 1 --text --", "1 .*\n(.*\n)*"),
]
# An `rt` that takes some seconds and compiles nothing, and what compiles by it.
SLOW = "#!/bin/sh\nsleep 4\n"
COMPILES = "import pathlib, program; program.PATIENCE = 1; program._compile(pathlib.Path('.'), (), pathlib.Path('made').absolute())"


class Asking:
    def __init__(self, report: Report, tree: pathlib.Path, room: pathlib.Path, env: dict[str, str]):
        self.report, self.tree, self.room, self.env = report, tree, room / "asking", env
        self.room.mkdir()
        shutil.copy(tree / "examples/put_a.wasm", self.room)

    def ledger(self, *words: object) -> Ran:
        return run_ledger([self.tree / "ledger", *words], self.room, SECONDS, self.env)

    def case(self, name: str, is_so: bool, ran: Ran) -> bool:
        return self.report.case(name, is_so, f"status {ran.status}\n{ran.out[-800:]}{ran.err[-800:]}")


def try_asking(report: Report, tree: pathlib.Path, room: pathlib.Path, env: dict[str, str]) -> None:
    at = Asking(report, tree, room, env)
    names = try_help(at)
    try_wrong_words(at)
    try_made(at, names)
    try_input(at)
    try_remarks(at)
    try_head(at)
    try_texts(at)
    try_terminal(at)
    try_application(at)


def try_help(at: Asking) -> list[str]:
    """Each command says how it is used. Their names."""
    everything = at.ledger("--help")
    names = re.findall(r"^(?:usage:)? +(?:\./)?ledger (\w+)", everything.out, re.MULTILINE)
    at.case("the commands", everything.status == 0 and {"check", "call", "new", "dist", "version"} <= set(names), everything)
    with concurrent.futures.ThreadPoolExecutor(4) as pool:
        helped = dict(zip(names, pool.map(lambda it: at.ledger(it, "--help"), names)))
    for name, ran in helped.items():
        is_told = ran.status == 0 and not ran.err and ran.out.startswith(f"usage: ledger {name}")
        at.case(f"{name} --help", is_told and len(ran.out.splitlines()) > 2 and ran.out.count("usage:") == 1, ran)
    for words in ("help call", "call demo assets --help", "call -h"):
        at.case(words, (ran := at.ledger(*words.split())).out == helped["call"].out and ran.status == 0, ran)
    version = f"ledger {(at.tree / 'VERSION').read_text().strip()}\n"
    at.case("--version", (ran := at.ledger("--version")).out == version and ran.status == 0 and not ran.err, ran)
    return names


def try_wrong_words(at: Asking) -> None:
    """The sentence comes last, and no usage of other commands."""
    for words, told in WRONG:
        ran = at.ledger(*words.split())
        is_told = ran.status == 2 and not ran.out and told in ran.err.splitlines()[-1] and ran.err.count("\n") <= 2
        at.case(f"ledger {words}", is_told and ran.err.endswith("(usage)\n"), ran)


def try_made(at: Asking, names: list[str]) -> None:
    """Completion for bash, and the man page, have each command."""
    (at.room / "completed").write_text(at.ledger("completion", "bash").out)
    for words, found in COMPLETED:
        ran = run(["bash", "-c", COMPLETE, "bash", words], at.room, SECONDS, at.env)
        at.case(f"bash completes {words}", ran.out == f"{found}\n" and not ran.err, ran)
    page = at.ledger("man")
    at.case("the man page", page.status == 0 and all(f"\n.B ledger {it}" in page.out for it in names), page)
    if shutil.which("groff"):
        (at.room / "ledger.1").write_text(page.out)
        ran = run(["groff", "-man", "-ww", "-Tutf8", "ledger.1"], at.room, SECONDS, at.env)
        at.case("groff reads the man page", ran.status == 0 and ran.out != "" and not ran.err, ran)


def try_input(at: Asking) -> None:
    """`-` is the standard input where a file is read, and no bytes where it is an argument."""
    (at.room / "net.toml").write_text(NETWORK)
    script = ("{0} check - < put_a.wasm; {0} genesis - < net.toml > g.json; {0} sim - kv - < g.json; : > s; "
              "{0} audit g.json - < s; echo 'upgrade = 1' | {0} genesis -")
    ran = run(["bash", "-c", script.format(at.tree / "ledger")], at.room, SECONDS, at.env)
    is_read = ran.out.startswith("valid functions=1 bytes=95\ntx ")
    is_read = is_read and ran.out.endswith("write 61 put 31\nblocks 0\naudit agrees\n")
    at.case("- is the standard input", is_read and "the standard input" in ran.err.splitlines()[-1], ran)


def try_remarks(at: Asking) -> None:
    """Files of another kind are recognised, blocks that are not there are told, and nothing else is said."""
    (at.room / "large.wat").write_text(LARGE)
    (at.room / "object.c").write_text(SOURCE)
    (at.room / "text").write_text("notes\n")
    run(["wat2wasm", "large.wat", "-o", "large.wasm"], at.room, SECONDS, at.env)
    run(["clang", "--target=wasm32", "-c", "-o", "object.o", "object.c"], at.room, SECONDS, at.env)
    made = [at.ledger("new", "net", "--chaincode", "kv=put_a.wasm", "--policy", "'A'"), at.ledger("call", "net", "kv")]
    genesis = (at.room / "net/genesis.json").read_text()
    (at.room / "mark.json").write_text(genesis, encoding="utf-8-sig")
    (at.room / "wide.json").write_text(genesis, encoding="utf-16")
    (at.room / "twice.jsonl").write_text('{"do":"take","do":"tick"}\n')
    (at.room / "twice.json").write_text(genesis.replace('"seats":', '"seats": 3,\n "seats":'))
    at.case("a network to look at", made[0].status == made[1].status == 0, made[1])
    shutil.copytree(at.tree / "test/cases/data", at.room / "cases")
    for keys in at.room.glob("cases/*.keys"):
        keys.chmod(0o600)
    at.ledger("run", "cases/upgrades.json", "cases/versions.jsonl", "--store", "cases/new.store")
    names = {"G": "net/genesis.json", "S": "net/chain.store", "N": "net/network.toml"}
    with concurrent.futures.ThreadPoolExecutor(4) as pool:
        asked = [*REMARKS, *((words, "") for words in SILENT)]
        found = list(pool.map(lambda it: at.ledger(*(names.get(word, word) for word in it[0].split())), asked))
    for (words, told), ran in zip(asked, found):
        if told:
            at.case(f"{words}: what is told", ran.err.count(told) == 1 and "Traceback" not in ran.err, ran)
        else:
            at.case(f"{words}: nothing is told", ran.status == 0 and not ran.err, ran)


def try_head(at: Asking) -> None:
    """Who reads no more than the beginning is told nothing."""
    ran = run(["bash", "-c", f"{at.tree / 'ledger'} page net 2> told | head -c 15; grep -vE ': (unproved|sources)' told"], at.room, SECONDS, at.env)
    at.case("the beginning of a page", ran.out == "<!doctype html>", ran)


def try_texts(at: Asking) -> None:
    """Texts are given and printed in the place of hex."""
    for words, told in TEXTS:
        ran = at.ledger(*words.split())
        at.case(words, re.fullmatch(told, ran.out) is not None and ran.status == 0, ran)
    ran = at.ledger(*"state g.json s --text --key 0x6".split())
    at.case("a key that is no hex", ran.status == 2 and "--key is a text, or hex behind 0x" in ran.err, ran)


def try_terminal(at: Asking) -> None:
    """A terminal shows how long the program has been compiled."""
    (at.room / "rt").write_text(SLOW)
    (at.room / "rt").chmod(0o755)
    terminal, end = os.openpty()
    env = {**at.env, "PATH": f"{at.room}:{os.environ['PATH']}", "PYTHONPATH": str(ROOT / "python")}
    subprocess.run([sys.executable, "-B", "-c", COMPILES], cwd=at.room, env={**os.environ, **env}, stderr=end, timeout=SECONDS)
    os.close(end)
    shown = os.read(terminal, 4096).decode()
    os.close(terminal)
    is_shown = re.search(r"\r\x1b\[Kledger: compiling, [1-9] s", shown) is not None
    at.report.case("a terminal shows how long it takes", is_shown, repr(shown))


def try_application(at: Asking) -> None:
    """The application in JavaScript says that nothing was sent where it does not know any node."""
    if not shutil.which("node"):
        return
    ran = run(["node", at.tree / "examples/node/transfer.mjs", "pallet-7", "Shop"], at.room, SECONDS, at.env)
    is_told = ran.err.startswith("nothing was sent: the environment has no REGTUMA_NODES and no REGTUMA_CERT")
    at.case("transfer.mjs without its environment", is_told and ran.status == 1 and not ran.out, ran)
