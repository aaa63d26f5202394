"""The escrow in C and in Rust: its tests, its modules, which do the same, and the test ledger for C."""
import pathlib
import re

from report import Ran, Report, run
from tree import run_ledger

# How long a command may take, in seconds.
SECONDS = 300
LIBRARY = pathlib.Path("/usr/lib/rustlib/wasm32-unknown-unknown/lib")
FLAGS = "-C target-cpu=mvp -C link-arg=-zstack-size=8192 -C link-arg=--compress-relocations"
WARNINGS = ["-Wall", "-Wextra", "-Werror", "-g"]
SANITIZERS = "-fsanitize=address,undefined"
# Calls of a deal, one behind the other, and what is printed of each.
CALLS = [
    ("pay d1", "refused 404 status 3\n"),
    ("open d1 Anna Ben 100", "write escrow/deal/d1 put open Anna Ben 100\nVALID in block 1, tx ..\n"),
    ("open d1 Anna Ben 100", "refused 404 status 2\n"),
    ("pay d1", "write escrow/deal/d1 put paid Anna Ben 100\nVALID in block 2, tx ..\n"),
    ("show d1 --dry-run", "result paid Anna Ben 100\n"),
    ("release d1", "write escrow/deal/d1 put done Anna Ben 100\nVALID in block 3, tx ..\n"),
    ("refund d1", "refused 404 status 4\n"),
    ("refund", "refused 404 status 1\n"),
]
# A chaincode that faults as its argument says, and one that asks each host call for what it refuses.
FAULTS = """
#include "fabric.h"
static char words[8];
FABRIC_INVOKE {
    int length = get_arg(words, sizeof words);
    if (length > 0 && words[0] == 'd') return 10 / (words[1] - '0');
    if (length > 0 && words[0] == 'm') return *(volatile int *)(1L << 40);
    if (length > 0 && words[0] == 'l') for (volatile int i = 0;; ++i) {}
    if (length > 0 && words[0] == 't') __builtin_trap();
    static int times;
    return times++;
}
"""
FAULTS_TEST = """
#include "fabric_test.h"
int main(void) {
    EXPECT_STATUS(ledger_call("d0"), LEDGER_TRAPPED);
    EXPECT_STATUS(ledger_call("m"), LEDGER_TRAPPED);
    EXPECT_STATUS(ledger_call("t"), LEDGER_TRAPPED);
    EXPECT_STATUS(ledger_call("l"), LEDGER_SPENT);
    EXPECT_STATUS(ledger_call("x"), 0);
    EXPECT_STATUS(ledger_call("x"), 0);
    EXPECT_STATUS(ledger_call("d2"), 5);
    return ledger_end();
}
"""
HOST = """
#include "fabric.h"
#define IS(call, wanted) if ((call) != (wanted)) return __LINE__
static char big[4097], key[65];
FABRIC_INVOKE {
    IS(get_arg(0, 0), 3);
    IS(get_state(key, 0, 0, 0), FABRIC_KEY_LENGTH);
    IS(get_state("\\0a", 2, 0, 0), FABRIC_KEY_LENGTH);
    memset(key, 'k', 33);
    memcpy(key + 33, key, 32);
    IS(get_state(key, 65, 0, 0), FABRIC_KEY_LENGTH);
    IS(get_state(key, 64, 0, 0), FABRIC_ABSENT);
    IS(get_state("a", 1, big, 1), 2);
    IS(big[0], 0);
    IS(get_state("a", 1, big, 2), 2);
    IS(big[0], 'A');
    IS(put_state("a", 1, big, 4097), FABRIC_VALUE_LENGTH);
    IS(put_state(key, 65, big, 4097), FABRIC_KEY_LENGTH);
    IS(put_state("a", 1, 0, 0), 0);
    IS(get_state("a", 1, big, 2), 2);
    IS(del_state("", 0), FABRIC_KEY_LENGTH);
    IS(del_state("b", 1), 0);
    IS(range_state(key, 65, "", 0, 0, 0, 0), FABRIC_KEY_LENGTH);
    IS(range_state("", 0, "", 0, 0, 0, 0), FABRIC_LIMIT);
    IS(range_state("", 0, "", 0, 65, 0, 0), FABRIC_LIMIT);
    IS(range_state("", 0, "", 0, 64, big, 4097), 1 + 6 + 5);
    IS(big[0], 2);
    IS(big[1] == 1 && big[2] == 'a' && big[3] == 2 && big[4] == 0 && big[5] == 'A', 1);
    IS(range_state("", 0, "", 0, 1, 0, 0), 1 + 6);
    IS(range_state("a", 1, "b", 1, 64, 0, 0), 1 + 6);
    for (int i = 3; i < 16; ++i) IS(range_state("b", 1, "", 0, 64, 0, 0), 1 + 5);
    IS(range_state("b", 1, "", 0, 64, 0, 0), FABRIC_NO_ROOM);
    for (int i = 2; i < 64; ++i) { key[0] = i; IS(put_state(key, 1, "v", 1), 0); }
    IS(put_state("new", 3, "v", 1), FABRIC_NO_ROOM);
    IS(put_state("a", 1, "w", 1), 0);
    for (int i = 2; i < 256; ++i) { key[0] = 'x'; key[1] = i; IS(get_state(key, 2, 0, 0), FABRIC_ABSENT); }
    IS(get_state("new", 3, 0, 0), FABRIC_NO_ROOM);
    IS(set_result(big, 4097), FABRIC_VALUE_LENGTH);
    IS(set_result(0, 0), 0);
    return set_result("done", 4);
}
"""
# A chaincode that asks what it may write.
OWN = """
#define CHAINCODE "own"
#include "fabric.h"
#define IS(call, wanted) if ((call) != (wanted)) return __LINE__
static char big[4097];
FABRIC_INVOKE {
    IS(put_state("x", 1, "", 0), FABRIC_KEY_LENGTH);
    IS(put_state("own", 3, "", 0), FABRIC_KEY_LENGTH);
    IS(put_state("own2/x", 6, big, 4097), FABRIC_KEY_LENGTH);
    IS(del_state("own2/x", 6), FABRIC_KEY_LENGTH);
    IS(del_state("", 0), FABRIC_KEY_LENGTH);
    IS(get_state("own2/x", 6, 0, 0) < FABRIC_ABSENT, 0);
    IS(put_state(OWN_KEY("x"), 5, big, 4097), FABRIC_VALUE_LENGTH);
    IS(put_state(OWN_KEY("x"), 5, "1", 1), 0);
    IS(put_state("own/", 4, "1", 1), 0);
    return del_state(OWN_KEY("y"), 5);
}
"""
OWN_TEST = """
#include "fabric_test.h"
int main(void) {
    ledger_set("own2/x", "1");
    EXPECT_STATUS(ledger_call("%s", ""), 0);
    EXPECT(ledger_writes() == 3 && ledger_has_read("own2/x"));
    return ledger_end();
}
"""
HOST_TEST = """
#include "fabric_test.h"
int main(void) {
    ledger_set("a", "AA");
    ledger_set("b", "B");
    ledger_set_bytes("\\0def", 4, "d", 1);
    EXPECT_STATUS(ledger_call("a%c%d", ' ', 1), 0);
    EXPECT_TEXT(ledger_result(), "done");
    EXPECT(ledger_writes() == 64 && ledger_has_read("a") && !ledger_has_read("new"));
    ledger_commit();
    EXPECT_TEXT(ledger_get("a"), "w");
    EXPECT_TEXT(ledger_get("b"), 0);
    ledger_set("a", 0);
    EXPECT_TEXT(ledger_get("a"), 0);
    ledger_clear();
    return ledger_end();
}
"""


class Escrows:
    """Where escrows are built and called."""

    def __init__(self, report: Report, tree: pathlib.Path, room: pathlib.Path, env: dict[str, str]):
        self.report, self.tree, self.room, self.env = report, tree, room / "escrows", env
        self.room.mkdir()
        self.sources = tree / "examples" / "chaincode"

    def run(self, *words: object, folder: pathlib.Path | None = None, **env: str) -> Ran:
        return run([str(it) for it in words], folder or self.room, SECONDS, {**self.env, **env})

    def ledger(self, *words: object) -> Ran:
        return run_ledger([self.tree / "ledger", *words], self.room, SECONDS, self.env)

    def case(self, name: str, is_so: bool, ran: Ran) -> bool:
        return self.report.case(name, is_so, f"status {ran.status}\n{ran.out[-1500:]}{ran.err[-1500:]}")


def try_escrows(report: Report, tree: pathlib.Path, room: pathlib.Path, env: dict[str, str]) -> None:
    at = Escrows(report, tree, room, env)
    for name, sources in {"fault": (FAULTS, FAULTS_TEST), "host": (HOST, HOST_TEST), "own": (OWN, OWN_TEST)}.items():
        for end, text in zip((".c", "_test.c"), sources):
            (at.room / f"{name}{end}").write_text(text)
    for compiler in ("gcc", "clang"):
        options: list[list[str]] = [[], [SANITIZERS]]
        for more in options:
            try_natively(at, "escrow", 20, at.sources, compiler, *more)
            try_natively(at, "host", 6, at.room, compiler, *more)
            try_natively(at, "own", 2, at.room, compiler, *more)
        try_natively(at, "fault", 7, at.room, compiler)
    try_building(at)
    if not LIBRARY.exists():
        print("the escrow in Rust is not tried: Debian's cargo and libstd-rust-dev-wasm32 are not installed")
        return
    try_rust(at)


def try_natively(at: Escrows, name: str, checks: int, folder: pathlib.Path, compiler: str, *more: str) -> None:
    """A test in C is compiled without a warning, and passes."""
    sources = [folder / f"{name}_test.c", folder / f"{name}.c"]
    built = at.run(compiler, "-std=c11", *WARNINGS, *more, f"-I{at.sources}", "-o", "tried", *sources)
    if at.case(f"{name}: built by {compiler} {more}", built.status == 0 and not built.err, built):
        ran = at.run("./tried")
        has_passed = ran.out.endswith(f"{checks} of {checks} checks passed\n")
        at.case(f"{name}: its test {compiler} {more}", ran.status == 0 and has_passed, ran)


def try_building(at: Escrows) -> None:
    """ledger cc builds the module, or says what is wrong."""
    ran = at.ledger("cc", at.sources / "escrow.c")
    at.case("ledger cc", ran.status == 0 and ran.out.startswith("valid functions=5 bytes=") and not ran.err, ran)
    play(at, "c", at.room / "escrow.wasm")
    at.report.case("the names of functions stay", b"turn" in (at.room / "escrow.wasm").read_bytes())
    made = [at.ledger("cc", "own.c"), at.ledger("new", "owner", "--chaincode", "own=own.wasm", "--policy", "'A'")]
    ran = at.ledger("call", "owner", "own", "--dry-run")
    is_own = ran.out == "write own/ put 1\nwrite own/x put 1\nwrite own/y delete\n" and not any(it.status for it in made)
    at.case("the program refuses what fabric_test.h does", is_own, ran)
    (at.room / "wrong.c").write_text("int invoke(void) { return x; }\n")
    for words, told in [(["wrong.c"], "wrong.c is not built: clang says why"), (["none.c"], "none.c is not built"),
                        (["escrow.wasm"], "its name has to end with .c"), (["host.c", "-o", "none/a.wasm"], "wasm-ld says why")]:
        ran = at.ledger("cc", *words)
        is_told = ran.status == 1 and not ran.out and told in ran.err.splitlines()[-1] and "Traceback" not in ran.err
        at.case(f"ledger cc {' '.join(words)}", is_told, ran)


def try_rust(at: Escrows) -> None:
    """The crate passes its tests, and its module does what that in C does."""
    ran = at.run("cargo", "test", "--offline", "-p", "escrow", folder=at.sources)
    at.case("cargo test", ran.status == 0 and "2 passed" in ran.out, ran)
    words = ["cargo", "build", "--release", "--offline", "-p", "escrow", "--target", "wasm32-unknown-unknown"]
    ran = at.run(*words, folder=at.sources, RUSTFLAGS=FLAGS)
    if at.case("cargo build", ran.status == 0, ran):
        play(at, "rust", at.sources / "target/wasm32-unknown-unknown/release/escrow.wasm")


def play(at: Escrows, name: str, module: pathlib.Path) -> None:
    """The calls of a deal."""
    ran = at.ledger("new", name, "--chaincode", f"escrow={module}", "--policy", "AND('Buyer', 'Seller')")
    at.case(f"{name}: a network", ran.status == 0 and not ran.out, ran)
    for words, wanted in CALLS:
        ran = at.ledger("call", name, "escrow", *words.split())
        said = re.sub("tx [0-9a-f]{64}", "tx ..", ran.out)
        at.case(f"{name}: {words}", said == wanted and ran.status == wanted.startswith("refused"), ran)
    ran = at.ledger("audit", name)
    at.case(f"{name}: the audit", ran.out == "blocks 3\naudit agrees\n", ran)
