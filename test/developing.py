"""./ledger dev: the network of a folder, applications that need its URL alone, how it ends, and what is left then."""
import contextlib
import os
import pathlib
import signal
import socket
import subprocess

from pages import Block, Typist
from report import Ran, Report, end, start
from seeing import comes_to_be, see_page
from tree import run_ledger

ORGS = ("Maker", "Carrier", "Shop")
# How long a command may take on a busy machine, and a network until it is up, in seconds.
SECONDS = 180
NONCE = "000102030405060708090a0b0c0d0e0f"


class Developing:
    """A folder with a network, and the network as long as it runs."""

    def __init__(self, report: Report, tree: pathlib.Path, room: pathlib.Path, env: dict[str, str]):
        self.report, self.tree, self.env, self.folder = report, tree, env, room / "demo"
        self.words = (str(tree / "ledger"), "dev", str(self.folder))

    def run(self, *words: object, **env: str) -> Ran:
        return run_ledger([str(it) for it in words], self.tree, SECONDS, {**self.env, **env})

    def make(self) -> None:
        """The folder, with a chain of a block."""
        ran = self.run("./ledger", "new", self.folder)
        self.report.case("a folder", ran.status == 0, ran.err)
        self.calls("create", "pallet-1", "Maker", begins="write assets/asset/pallet-1 put Maker\nVALID in block 1, tx ")

    # ------------------------------------------------ what is there

    def chain(self) -> bytes:
        file = self.folder / "chain.store"
        return file.read_bytes() if file.exists() else b""

    def url(self, org: str = "") -> str:
        """Where the network is, or the node of an organisation."""
        if not org:
            return (self.folder / "url").read_text().strip()
        text = (self.folder / org / "node.toml").read_text()
        return "http://" + next(it.split('"')[1] for it in text.splitlines() if it.startswith("listen"))

    def processes(self, word: str = "", org: str = "") -> list[int]:
        """The processes that work in the folder, or in an organisation's, or on it; those alone that have a word in their commands."""
        found, folder = [], (self.folder / org).resolve()
        for process in pathlib.Path("/proc").glob("[0-9]*"):
            try:
                words = (process / "cmdline").read_bytes().decode(errors="replace").split("\0")
                is_there = pathlib.Path(os.readlink(process / "cwd")).is_relative_to(folder) or words[-2:-1] == [str(folder)]
                if is_there and (not word or word in words):
                    found.append(int(process.name))
            except OSError:
                continue
        return found

    def signal(self, number: int, word: str = "", org: str = "") -> None:
        for it in self.processes(word, org):
            with contextlib.suppress(ProcessLookupError):
                os.kill(it, number)

    def begin(self, *command: str) -> subprocess.Popen[str]:
        """Begins the network, by other words than the usual ones if there are some, and waits until it says where it is."""
        # One that was killed has left the file.
        before = self.folder.joinpath("url").stat().st_mtime_ns if self.folder.joinpath("url").exists() else 0
        begun = start(list(command or self.words), self.tree, self.env)

        def is_there() -> bool:
            return any(it.stat().st_mtime_ns > before for it in self.folder.glob("url"))
        is_up = comes_to_be(lambda: is_there() or begun.poll() is not None, SECONDS) and begun.poll() is None
        self.report.case("the network is up", is_up, "" if is_up else "\n".join(end(begun)))
        return begun

    def submit(self, *words: str, node: str = "") -> Ran:
        """Submits a call by the shell's client, which is Python, with nothing but a URL."""
        return self.run("node/bin/regtuma", "submit", "assets", *words, REGTUMA_NODES=node or self.url())

    def calls(self, *words: str, begins: str, told: str = "") -> Ran:
        """Makes a call by `ledger call`, whose lines begin so, and whose sentence tells this."""
        ran = self.run("./ledger", "call", self.folder, "assets", *words)
        is_so = ran.out.startswith(begins) and told in ran.err and ran.status == (0 if "VALID in" in begins or "result" in begins else 1)
        self.report.case(f"ledger call {' '.join(words)}"[:60], is_so, f"status {ran.status}\n{ran.out}{ran.err}")
        return ran

    def told(self, name: str, ran: Ran, begins: str) -> None:
        self.report.case(name, ran.status == 0 and ran.out.startswith(begins), f"status {ran.status}\n{ran.out}{ran.err}")

    def nothing_is_left(self, how: str) -> None:
        is_gone = comes_to_be(lambda: not self.processes() and not (self.folder / "url").exists())
        self.report.case(f"{how}: no process and no url is left", is_gone, f"{self.processes()}")

    def stores_are_equal(self, how: str, blocks: int) -> None:
        genesis, chain = self.folder / "genesis.json", self.folder / "chain.store"
        stores = {self.chain(), *((self.folder / it / "chain.store").read_bytes() for it in ORGS[1:])}
        said = self.run("./ledger", "audit", genesis, chain).out.splitlines()
        shown = self.run("./ledger", "show", genesis, chain, "--from", str(blocks)).out
        self.report.case(f"{how}: the stores are equal", len(stores) == 1, str([len(it) for it in stores]))
        is_one = said[-1:] == ["audit agrees"] and shown.count('{"block":') == 1
        self.report.case(f"{how}: one chain of {blocks} blocks", is_one, f"{said}\n{shown[-2000:]}")
        self.report.case(f"{how}: the log is in the chain", not (self.folder / "log").exists())


def develop(at: Developing, typist: Typist, blocks: list[Block]) -> None:
    """What OPERATIONS.md shows: applications call, the page is there, and Ctrl-C ends all. A port that is taken is passed over."""
    report = at.report
    with socket.socket() as busy:
        busy.setsockopt(socket.SOL_SOCKET, socket.SO_REUSEADDR, 1)
        if busy.connect_ex(("127.0.0.1", 7051)):
            busy.bind(("127.0.0.1", 7051))
            busy.listen()
        running = at.begin()
        ran = at.run("./ledger", "dev", at.folder)
        is_refused = ran.status == 1 and "has a network that runs" in ran.err
        report.case("a second network of the folder is refused", is_refused, ran.out + ran.err)
        typist.type(report, blocks, instead={"http://127.0.0.1:7051": at.url()}, env=at.env)
        report.case("another port is taken", not at.url().endswith(":7051"), at.url())
        call_meanwhile(at)
        see_page(report, f"{at.url()}/", lambda asset: at.submit("create", asset, "Maker"))
        running.send_signal(signal.SIGINT)
        out, err = running.communicate(timeout=SECONDS)
    wanted = [*(f"{it:7}  http://127.0.0.1:" for it in ORGS), "The page of the chain: http://127.0.0.1:",
              "2.0 VALID: assets create pallet-7 Maker\n", "3.0 VALID: assets transfer pallet-7 Shop\n",
              "6.0 ENDORSEMENT_POLICY_FAILURE: assets transfer pallet-2 Shop\n"]
    is_told = running.returncode == 0 and all(it in out for it in wanted)
    report.case("Ctrl-C ends the network with status 0", is_told, f"{running.returncode}\n{out}{err}")
    at.nothing_is_left("Ctrl-C")
    at.stores_are_equal("Ctrl-C", 7)
    at.calls("delete", "pallet-1", begins="write assets/asset/pallet-1 delete\nVALID in block 8, tx ")


def call_meanwhile(at: Developing) -> None:
    """`ledger call` asks the node, and prints what it prints where none runs: the same lines, numbers and sentences."""
    first = at.calls("create", "pallet-2", "Maker", "--nonce", NONCE, begins="write assets/asset/pallet-2 put Maker\nVALID in block 4, tx ")
    again = at.calls("create", "pallet-2", "Maker", "--nonce", NONCE, begins=first.out, told="stands in block 4 already")
    at.report.case("a nonce that was used", again.out == first.out, again.out)
    at.calls("read", "pallet-2", "--dry-run", begins="result Maker\n")
    at.calls("read", "pallet-2", begins="result Maker\nVALID in block 5, tx ")
    at.calls("transfer", "pallet-2", "Shop", "--orgs", "Maker", begins="ENDORSEMENT_POLICY_FAILURE in block 6, tx ", told="(flag 1)")
    at.calls("read", "pallet-9", begins="refused 404 status 3\n", told="returned the status 3")
    at.calls("read", "pallet-9", "--dry-run", begins="refused 404 status 3\n", told="returned the status 3")
    at.calls("read", "pallet-2", "--orgs", "Nobody", begins="refused 806\n", told="Nobody")
    at.calls("read", "pallet-2", "--keys", f"{at.folder}/Maker/key", begins="", told="leave out --keys")
    ran = at.run("./ledger", "call", at.folder, "asset", "list")
    at.report.case("a name that is none", ran.out == "refused 401\n" and 'did you mean "assets"' in ran.err, ran.out + ran.err)


def kill(at: Developing) -> str:
    """All processes are killed while the first node's store is behind what another node has told. The id that was told."""
    running = at.begin()
    at.told("the chain goes on", at.submit("transfer", "pallet-7", "Carrier"), "VALID, block 9, ")
    before = at.chain()
    at.signal(signal.SIGSTOP, "peer", "Maker")
    ran = at.submit("transfer", "pallet-7", "Shop", "--orgs", "Carrier,Shop", node=at.url("Carrier"))
    at.told("another node tells of a block", ran, "VALID, block 10, ")
    running.kill()
    while at.processes():
        at.signal(signal.SIGKILL)
    at.report.case("the chain was behind", at.chain() == before, str(len(before)))
    at.calls("list", begins="", told="was killed: begin it once more")
    return ran.out.split()[-1] if ran.out else ""


def close_terminal(at: Developing, id: str) -> None:
    """What was told is not lost where all was killed. The terminal is closed."""
    running = at.begin("script", "-qec", " ".join(at.words), "/dev/null")
    at.told("what was told is there", at.run("node/bin/regtuma", "status", id, REGTUMA_NODES=at.url()), "VALID, block 10, ")
    os.kill(running.pid, signal.SIGKILL)
    end(running)
    at.nothing_is_left("a closed terminal")
    at.stores_are_equal("a closed terminal", 10)


def lose_a_node(at: Developing) -> None:
    """A node that ends by itself ends all, and its name is told."""
    running = at.begin()
    at.signal(signal.SIGKILL, "peer", "Shop")
    out, err = running.communicate(timeout=SECONDS)
    is_told = running.returncode == 1 and "has ended" in err and "ledger peer" in err and "Traceback" not in err
    at.report.case("a node that ends is told, with what it said", is_told, f"{running.returncode}\n{out}{err}")
    at.nothing_is_left("a node that ends")
    at.stores_are_equal("a node that ends", 10)


def end_early(at: Developing) -> None:
    """SIGTERM before the network is up."""
    running = start([str(at.tree / "ledger"), "dev", str(at.folder)], at.tree, at.env)
    comes_to_be(lambda: at.processes("regtuma.node") != [] or running.poll() is not None)
    running.send_signal(signal.SIGTERM)
    out, err = running.communicate(timeout=SECONDS)
    at.report.case("SIGTERM ends it at any time", "Traceback" not in err, f"{running.returncode}\n{out}{err}")
    at.nothing_is_left("SIGTERM")


def refuse(at: Developing) -> None:
    """Words and folders that are of no network."""
    no_network = "nowhere has no genesis.json: ./ledger new nowhere makes a network"
    cases: list[tuple[list[str], int, str]] = [([], 2, "DIR is missing (usage)"), (["nowhere"], 1, no_network)]
    for words, status, told in cases:
        ran = at.run("./ledger", "dev", *words)
        is_told = ran.status == status and told in ran.err and "Traceback" not in ran.err
        at.report.case(f"ledger dev {' '.join(words)}", is_told, f"{ran.status}\n{ran.err}")
    store = at.folder / "chain.store"
    whole = store.read_bytes()
    for name, data, told in [("damaged", whole[:40] + b"\0" + whole[41:], "(702)"), ("of another kind", b"notes\n" * 99, "(702)")]:
        store.write_bytes(data)
        ran = at.run("./ledger", "dev", at.folder)
        is_kept = ran.status == 1 and told in ran.err and store.read_bytes() == data
        at.report.case(f"a store that is {name}", is_kept, f"{ran.status}\n{ran.err}")
    store.write_bytes(whole)


def try_developing(at: Developing, typist: Typist, blocks: list[Block]) -> None:
    try:
        at.make()
        develop(at, typist, blocks)
        close_terminal(at, kill(at))
        lose_a_node(at)
        end_early(at)
        refuse(at)
    finally:
        at.signal(signal.SIGKILL)
