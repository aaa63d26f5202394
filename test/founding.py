"""./ledger new, and the folder of a network in the place of files."""
import fcntl
import os
import pathlib
import shutil
import stat
import subprocess

from report import Ran, Report, run
from tree import ABOUT_THE_PROGRAM, run_ledger

# How long a command may take, in seconds.
SECONDS = 120
# What `ledger new` refuses: its words, its status, and what it tells.
REFUSED: list[tuple[list[str], int, str]] = [
    ([], 2, "DIR is missing"), (["a", "b"], 2, "'b' is one word too many"), (["a", "--chaincode", "kv"], 2, "NAME=MODULE"),
    (["a", "--chaincode", "kv=kv.wasm", "--chaincode", "kv=kv.wasm"], 2, "a name of its own"),
    (["a", "--policy", "'A'", "--policy", "'B'"], 2, "one --policy, or one for each"), (["a", "--fresh"], 2, "no option --fresh"),
    (["there"], 1, "there is there already"), (["kv.wasm"], 1, "kv.wasm is there already"),
    (["none/a"], 1, "none/a cannot be made"),
    (["a", "--chaincode", "KV=kv.wasm"], 1, "KV is no name of a chaincode"),
    (["a", "--chaincode", "kv=none.wasm"], 1, "the module none.wasm cannot be read"),
    (["a", "--chaincode", "kv=text"], 1, "text is no valid module of profile 1"),
    (["a", "--policy", "OutOf(1)"], 1, "names nobody: one is as AND('Buyer', 'Seller')"),
    (["a", "--policy", "AND('A'"], 1, "a/network.toml, [chaincodes.assets]: policy is no policy"),
]
# A call that a peer is to endorse.
PROPOSAL = 'call c {"chaincode":"assets","arg":"6c697374","nonce":"000102030405060708090a0b0c0d0e0f"}\n'
LIST = "6c697374"
# Commands with a folder, and with its files, by the letters G (genesis), S (store) and K (keys).
SAME = [
    ("audit net", "audit G S", ""), ("show net --from 2 --to 3", "show G S --from 2 --to 3", ""),
    ("state --members net", "state --members G S", ""), ("state net --at 1", "state G S --at 1", ""),
    ("marks net", "marks G S", ""), (f"sim net assets {LIST}", f"sim G assets {LIST} --store S", ""),
    (f"trace net assets {LIST} --steps 3", f"trace G assets {LIST} --steps 3", ""),
    ("peer net --org Maker", "peer G S --org Maker --keys K", PROPOSAL), ("peer net", "peer G S", 'ask q {"ask":"block","number":1}\n'),
    ("threads net assets 1", "threads G assets 1 --keys K", ""),
    ("page net", "page G S", ""), ("audit net other.store", "audit G other.store", ""),
    (f"sim net assets {LIST} --store other.store", f"sim G assets {LIST} --store other.store", ""),
    ("peer net other.store --org Maker", "peer G other.store --org Maker --keys K", PROPOSAL),
]


class Folders:
    """Where networks are made."""

    def __init__(self, report: Report, tree: pathlib.Path, room: pathlib.Path, env: dict[str, str]):
        self.report, self.tree, self.room, self.env = report, tree, room / "folders", env
        self.room.mkdir()
        (self.room / "there").mkdir()
        (self.room / "text").write_text("no module\n")
        (self.room / "other.store").write_bytes(b"")
        shutil.copy(tree / "examples/put_a.wasm", self.room / "kv.wasm")

    def ledger(self, *words: object) -> Ran:
        return run_ledger([self.tree / "ledger", *words], self.room, SECONDS, self.env)

    def given(self, words: str, given: str) -> tuple[str, int]:
        """What a command prints that reads this, and its status."""
        ran = subprocess.run([self.tree / "ledger", *words.split()], cwd=self.room, input=given, capture_output=True, text=True,
                             timeout=SECONDS)
        return ran.stdout, ran.returncode

    def case(self, name: str, is_so: bool, ran: Ran) -> bool:
        return self.report.case(name, is_so, f"status {ran.status}\n{ran.out}{ran.err}")


def mode(file: pathlib.Path) -> int:
    return stat.S_IMODE(file.stat().st_mode)


def try_folders(report: Report, tree: pathlib.Path, room: pathlib.Path, env: dict[str, str]) -> None:
    at = Folders(report, tree, room, env)
    try_new(at)
    for words, status, told in REFUSED:
        before = sorted(at.room.iterdir())
        ran = at.ledger("new", *words)
        is_told = ran.status == status and not ran.out and told in ran.err.splitlines()[-1] and "Traceback" not in ran.err
        at.case(f"new {' '.join(words)}", is_told and sorted(at.room.iterdir()) == before, ran)
    try_same(at)


def try_new(at: Folders) -> None:
    """What is made, and who can read it, whatever the umask is."""
    ran = run(["sh", "-c", f"umask 0; {at.tree}/ledger new demo"], at.room, SECONDS, at.env)
    told = ran.err.splitlines()
    is_told = any("made demo: assets by OutOf(2" in it for it in told)
    at.case("a network is made", ran.status == 0 and not ran.out and is_told, ran)
    at.case("it is told once of the program", sum(it.startswith(ABOUT_THE_PROGRAM) for it in told) < 2, ran)
    demo, orgs = at.room / "demo", ["Carrier", "Maker", "Shop"]
    made = sorted(str(it.relative_to(demo)) for it in demo.rglob("*"))
    wanted = sorted([*orgs, *(f"{it}/key" for it in orgs), "all.key", "assets.wasm", "genesis.json", "network.toml"])
    at.report.case("its files", made == wanted, str(made))
    seeds = {it: (demo / it / "key").read_text() for it in orgs}
    in_order = "".join(seeds[it] for it in ("Maker", "Carrier", "Shop"))
    at.report.case("all.key has each seed", (demo / "all.key").read_text() == in_order)
    modes = {str(it): mode(demo / it) for it in [".", *orgs, "all.key", *(f"{it}/key" for it in orgs)]}
    is_own = all(it == (0o600 if name.endswith("key") else 0o700) for name, it in modes.items())
    at.report.case("they are their owner's", is_own, str(modes))
    texts = ran.out + ran.err + (demo / "genesis.json").read_text() + (demo / "network.toml").read_text()
    at.report.case("no seed is told", not any(it.strip() in texts for it in seeds.values()))
    ran = at.ledger("genesis", "demo/network.toml")
    at.case("its genesis file is that of its network file", ran.out == (demo / "genesis.json").read_text(), ran)
    words = ["--chaincode", "one=kv.wasm", "--chaincode", "two=kv.wasm", "--policy", "'A'", "--policy", "OR('B')"]
    ran = at.ledger("new", "two", *words)
    at.case("two chaincodes with a policy each", ran.status == 0 and "made two: one by 'A', two by OR('B')" in ran.err, ran)
    ran = at.ledger("call", "two", "two")
    at.case("the second is called: what it puts is no key of its own", ran.out.startswith("VALID in block 1, tx "), ran)
    store, log = at.room / "two" / "chain.store", at.room / "two" / "log"
    before = store.read_bytes()
    log.touch()
    ran = at.ledger("call", "two", "two")
    is_told = ran.status == 1 and not ran.out and "a network that `ledger dev` began in two was killed" in ran.err
    at.case("no call behind a network that was killed", is_told and store.read_bytes() == before, ran)
    ran = at.ledger("call", "two/genesis.json", "two/chain.store", "two")
    at.case("nor where its files are named", ran.status == 1 and not ran.out and store.read_bytes() == before, ran)
    log.unlink()
    held = os.open(at.room / "two", os.O_RDONLY)
    fcntl.flock(held, fcntl.LOCK_EX)
    ran = at.ledger("call", "two", "two")
    os.close(held)
    is_told = ran.status == 1 and not ran.out and "the network in two begins or ends: try again" in ran.err
    at.case("no call while `ledger dev` begins", is_told and store.read_bytes() == before, ran)


def try_same(at: Folders) -> None:
    """A folder stands for its files. A run replaces no chain of a folder's."""
    net, example = at.room / "net", at.tree / "examples" / "assets"
    net.mkdir()
    for file in (example / "genesis.json", example / "example_keys/all.key"):
        shutil.copy(file, net)
    (net / "all.key").chmod(0o600)
    ran = at.ledger("run", "net", example / "events.jsonl")
    store = net / "chain.store"
    at.case("a run begins a chain", ran.status == 0 and ran.out.endswith("audit agrees\n") and store.stat().st_size > 0, ran)
    before = store.read_bytes()
    ran = at.ledger("run", "net", example / "events.jsonl")
    is_told = ran.status == 1 and not ran.out and "has a chain, which a run would replace: name another file" in ran.err
    at.case("a run replaces none", is_told and store.read_bytes() == before, ran)
    ran = at.ledger("run", "net", example / "events.jsonl", "--store", "third.store")
    at.case("a run into another file", ran.status == 0 and (at.room / "third.store").read_bytes() == before, ran)
    files = {"G": "net/genesis.json", "S": "net/chain.store", "K": "net/all.key"}
    for words, wanted, given in SAME:
        by_files = " ".join(files.get(it, it) for it in wanted.split())
        one, two = at.given(words, given), at.given(by_files, given)
        at.report.case(f"{words} is {wanted}", one == two and one[0] != "", f"{one}\n{two}"[-800:])
    ran = at.ledger("audit", "there")
    at.case("a folder without a network is none", ran.status == 2, ran)
    ran = at.ledger("audit", "two/genesis.json", "none.store")
    at.case("files stay as they are named", ran.out == "refused 703\n", ran)
