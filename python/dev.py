"""`ledger dev`: a network on this machine, to write chaincode and clients against.

It works on a folder that `ledger new` made. Each organisation has a node, with a key and a store of its own, over one log in a
file. Nodes answer this user's programs alone, by HTTP on the loopback. The first one's store is the folder's chain, to which
`ledger call` adds while no network runs. So the log is made of the chain anew at each start. A log that is there still is of a
network that was killed: what its nodes told is in it, and is committed first.
"""
import concurrent.futures
import dataclasses
import fcntl
import json
import os
import pathlib
import queue
import signal
import socket
import subprocess
import sys
import threading
import time
from collections.abc import Iterator

import kit
from folder import GENESIS, KEY, LOG, NETWORK, STORE, URL
from network import Mistake
from program import NODE, ROOT, find, progress, say
from regtuma import cli, numbers
from regtuma.client import Client, Failed
from regtuma.entries import Lines, LogError
from regtuma.filed import entries_of
from regtuma.table import FLAGS
from regtuma.wire import Object

# The Python that has Debian's packages, and those that a node needs.
PYTHON = "/usr/bin/python3"
PACKAGES = {it: f"python3-{it.replace('_', '-')}" for it in ("aiohttp", "cryptography", "prometheus_client")}
# A program that prints which of its words are no packages that are there.
LACKING = "import importlib.util as it, sys; print(*(word for word in sys.argv[1:] if not it.find_spec(word)))"
# Files of each organisation's folder beside its key and store; and what is put behind the name of a store that is of no use.
CONFIGURATION, OUTPUT, ASIDE = "node.toml", "node.out", ".aside"
# Where nodes listen, from the first of these ports on that are free.
HOST, PORTS = "127.0.0.1", range(7051, 8051)
# A block is asked for after so many seconds.
WAIT = 0.1
# How long nodes may take to begin and to end, and how long a folder is waited for whose nodes end, in seconds.
PATIENCE, LAST_SECONDS, SOON = 300.0, 10.0, 3.0
# How many lines of a node's output are told where it ends, and how much of a file is compared at a time.
LAST_LINES, PIECE = 5, 1 << 20


class NoNetwork(Mistake):
    """Why there is no network, in words."""


@dataclasses.dataclass(frozen=True)
class Network:
    """A folder, and the organisations of its genesis file."""
    folder: pathlib.Path
    organisations: list[str]
    program: str

    def room(self, organisation: str) -> pathlib.Path:
        return self.folder / organisation

    def store(self, organisation: str) -> pathlib.Path:
        """The first organisation's is the folder's chain."""
        return (self.folder if organisation == self.organisations[0] else self.room(organisation)) / STORE

    @property
    def chain(self) -> pathlib.Path:
        return self.folder / STORE

    @property
    def log(self) -> pathlib.Path:
        return self.folder / LOG


def network_of(folder: pathlib.Path) -> Network:
    """The network that a folder has."""
    try:
        text = (folder / GENESIS).read_text(encoding="utf-8")
        organisations = [str(it["name"]) for it in json.loads(text)["orgs"]]
    except OSError:
        raise NoNetwork(f"{folder} has no {GENESIS}: ./ledger new {folder} makes a network") from None
    except (ValueError, KeyError, TypeError):
        raise NoNetwork(f"{folder / GENESIS} is no genesis file: ./ledger genesis {folder / NETWORK} prints one") from None
    for it in organisations:
        if not (folder / it).is_dir():
            raise NoNetwork(f"{folder} has no folder {it} with the key of {it}: ./ledger new makes a network with all of them")
    return Network(folder, organisations, str(find()))


def hold(folder: pathlib.Path) -> int:
    """Takes the folder for this process and for the nodes that it begins: it is free again once all of them have ended."""
    handle = os.open(folder, os.O_RDONLY | os.O_DIRECTORY)
    until = time.monotonic() + SOON
    while True:
        try:
            fcntl.flock(handle, fcntl.LOCK_EX | fcntl.LOCK_NB)
            return handle
        except BlockingIOError:
            if time.monotonic() > until:
                raise NoNetwork(f"{folder} has a network that runs: end that one, or call it where {folder / URL} says") from None
            time.sleep(0.1)


# ---------------------------------------------------------------- the chain and the log


def settle(network: Network) -> None:
    """Commits to each store what the log has beyond it, and takes the log away: so all is in the chain that a network told, also
    where it was killed. The end of a store inside a record is cut."""
    if not network.chain.exists():
        # Whoever took the chain away wants another one.
        network.log.unlink(missing_ok=True)
        network.chain.with_name(f"{STORE}.times").unlink(missing_ok=True)
    lines = lines_of_log(network)
    stores = network.organisations if network.log.exists() else network.organisations[:1]
    with concurrent.futures.ThreadPoolExecutor() as pool:
        refusals = list(pool.map(lambda it: committed(network, network.store(it), lines), stores))
    if refusals[0]:
        raise NoNetwork(refusals[0])
    for organisation in network.organisations[1:]:
        put_aside_another(network.store(organisation), network.chain)
    network.log.unlink(missing_ok=True)


def lines_of_log(network: Network) -> bytes:
    """The lines of the log that count, if there is one, as a peer reads them."""
    if not network.log.exists():
        return b""
    try:
        counted = Lines.by(str(network.folder / GENESIS))
        return b"".join(b"log " + line for it in entries_of(str(network.log)) for line in counted.of(it).values())
    except LogError as error:
        raise NoNetwork(f"{error}; {without(network)}") from None


def without(network: Network) -> str:
    return f"where {network.log} is taken away, what {network.chain} has stays"


def committed(network: Network, store: pathlib.Path, log: bytes) -> str:
    """Commits to a store those blocks of the log that it has not. Why it was refused, or nothing."""
    command = [network.program, "peer", str(network.folder / GENESIS), str(store)]
    ran = subprocess.run(command, input=log, capture_output=True)
    lines = ran.stdout.decode(errors="replace").splitlines()
    for line in lines:
        if line.startswith("cut "):
            say(f"{store}: {line.split()[1]} bytes of a part of a record were cut off")
    if not ran.returncode:
        return ""
    why = sentence(ran, store)
    return f"{why.replace('standard input', str(network.log))}; {without(network)}" if why.startswith("standard input") else why


def sentence(ran: subprocess.CompletedProcess[bytes], file: pathlib.Path) -> str:
    """Why a peer ended over a store: its last words, or its last line."""
    said, lines = (it.decode(errors="replace").splitlines() for it in (ran.stderr, ran.stdout))
    words = [it.removeprefix("ledger: ") for it in said if it.startswith("ledger: ")]
    if words:
        return words[-1]
    return f"{file}: {numbers.explained(lines[-1]) if lines else f'`ledger` ended with status {ran.returncode}'}"


def put_aside_another(store: pathlib.Path, chain: pathlib.Path) -> None:
    """Puts a node's store aside that is no beginning of the chain: the node makes it again out of the log."""
    if store.exists() and not is_beginning(store, chain):
        aside = store.with_name(store.name + ASIDE)
        os.replace(store, aside)
        store.with_name(f"{STORE}.times").unlink(missing_ok=True)
        say(f"{store} was of another chain than {chain}: it is {aside} now, and the node makes it again")


def is_beginning(one: pathlib.Path, other: pathlib.Path) -> bool:
    """Whether a file begins with another one."""
    with one.open("rb") as shorter, other.open("rb") as longer:
        while piece := shorter.read(PIECE):
            if longer.read(len(piece)) != piece:
                return False
    return True


def make_log(network: Network) -> None:
    """Makes the log of which the chain comes."""
    first = network.room(network.organisations[0])
    ran = subprocess.run([PYTHON, "-P", "-m", "regtuma.log", CONFIGURATION, "refill", str(network.chain.absolute())], cwd=first,
                         env={**os.environ, "PYTHONPATH": str(NODE)}, stdin=subprocess.DEVNULL, capture_output=True, text=True)
    if ran.returncode:
        raise NoNetwork(f"the log is not made: {ran.stderr.strip().removeprefix('regtuma-log: ')}")


# ---------------------------------------------------------------- nodes


def free_ports(count: int) -> list[int]:
    """The first ports that nobody has."""
    found = [it for _, it in zip(range(count), filter(is_free, PORTS))]
    if len(found) < count:
        raise NoNetwork(f"of the ports {PORTS[0]} to {PORTS[-1]} no {count} are free")
    return found


def is_free(port: int) -> bool:
    with socket.socket() as it:
        it.setsockopt(socket.SOL_SOCKET, socket.SO_REUSEADDR, 1)
        try:
            it.bind((HOST, port))
            return True
        except OSError:
            return False


def configure(network: Network, urls: dict[str, str]) -> None:
    """Writes each organisation's node.toml."""
    for organisation, url in urls.items():
        room = network.room(organisation)
        ledger = {"program": network.program, "genesis": f"../{GENESIS}", "store": os.path.relpath(network.store(organisation), room),
                  "template": str(ROOT / "examples" / "page" / "template.html")}
        # Who has a shared key in the genesis file needs no file with a seed.
        ledger |= {"keys": KEY} if (room / KEY).exists() else {}
        others = {it: urls[it] for it in urls if it != organisation}
        lines = [*toml("", {"organisation": organisation, "listen": url.removeprefix("http://")}),
                 *toml("log", {"file": f"../{LOG}"}), *toml("ledger", ledger), *toml("nodes", others), *toml("ticks", {"wait": WAIT})]
        (room / CONFIGURATION).write_text("\n".join(lines) + "\n", encoding="utf-8")


def toml(name: str, fields: dict[str, str] | dict[str, float]) -> Iterator[str]:
    """A table of a file in TOML, in which a text is spelled as in JSON."""
    if name:
        yield f"\n[{name}]"
    yield from (f"{it} = {json.dumps(value, ensure_ascii=False)}" for it, value in fields.items())


def begin(network: Network, organisation: str, held: int) -> subprocess.Popen[bytes]:
    """Begins a node, in a session of its own: a terminal's key ends this process, which ends the nodes in order."""
    room = network.room(organisation)
    with (room / OUTPUT).open("wb") as out:
        return subprocess.Popen([PYTHON, "-P", "-m", "regtuma.node", CONFIGURATION], cwd=room, stdin=subprocess.DEVNULL, stdout=out,
                                stderr=out, env={**os.environ, "PYTHONPATH": str(NODE)}, start_new_session=True, pass_fds=[held],
                                preexec_fn=kit.end_with_parent(signal.SIGTERM))


def await_nodes(network: Network, nodes: dict[str, subprocess.Popen[bytes]], urls: dict[str, str]) -> int:
    """Waits until each node answers, and has the whole chain. How many blocks that has."""
    until, waiting, height = time.monotonic() + PATIENCE, list(nodes), 0
    while waiting:
        for organisation, node in nodes.items():
            if node.poll() is not None or time.monotonic() > until:
                raise ended(network, organisation)
        height = max([height, *(heights := {it: height_of(urls[it], it) for it in waiting}).values()])
        waiting = [it for it in waiting if heights[it] < height or heights[it] < 0]
        time.sleep(0.05)
    return height


def height_of(url: str, organisation: str) -> int:
    """How many blocks the node of an organisation has; -1 where it does not answer yet."""
    try:
        said = Client([url], seconds=1.0).health()
        return int(said["height"]) if said["organisation"] == organisation else -1
    except (Failed, KeyError):
        return -1


def ended(network: Network, organisation: str) -> NoNetwork:
    """That a node has ended, with what it said last."""
    file = network.room(organisation) / OUTPUT
    lines = file.read_text(errors="replace").splitlines()[-LAST_LINES:]
    said = "\n".join(f"  {it}" for it in map(cli.shown, lines)) if lines else "  nothing"
    return NoNetwork(f"the node of {organisation} has ended, or does not begin. {file} ends by\n{said}")


def end(nodes: dict[str, subprocess.Popen[bytes]]) -> None:
    """Ends nodes, and the children of one that does not end by itself."""
    for node in nodes.values():
        node.terminate()
    until = time.monotonic() + LAST_SECONDS
    for node in nodes.values():
        try:
            node.wait(max(0.1, until - time.monotonic()))
        except subprocess.TimeoutExpired:
            os.killpg(node.pid, signal.SIGKILL)
            node.wait()


# ---------------------------------------------------------------- what is told


def tell(network: Network, urls: dict[str, str]) -> None:
    """Says where the network is."""
    width, first = max(map(len, urls)), urls[network.organisations[0]]
    for it in urls:
        print(f"{it:{width}}  {urls[it]}")
    for chaincode in json.loads((network.folder / GENESIS).read_text(encoding="utf-8"))["chaincodes"]:
        print(f"{chaincode['name']}: {chaincode['policy']}")
    print(f"\nThe page of the chain: {first}/\nAn application: REGTUMA_NODES={first}\n"
          f"Ctrl-C ends all; the chain stays in {network.folder}.\n", flush=True)


def lines_of(block: Object) -> Iterator[str]:
    """A line for each transaction of a block."""
    for place, tx in enumerate(block["txs"]):
        result = f" -> {cli.text_of(tx['result'])}" if tx["result"] else ""
        yield f"{block['block']}.{place} {FLAGS[tx['flag']]}: {cli.call(tx)}{result}"


def follow(url: str, first: int, told: "queue.SimpleQueue[str | NoNetwork]") -> None:
    """Tells of blocks as they come."""
    try:
        for block in Client([url], seconds=SOON).blocks(first):
            for line in lines_of(block):
                told.put(line)
    except Failed as failed:
        told.put(NoNetwork(str(failed)))


def watch(network: Network, organisation: str, node: subprocess.Popen[bytes], told: "queue.SimpleQueue[str | NoNetwork]") -> None:
    """Tells that a node has ended."""
    node.wait()
    told.put(ended(network, organisation))


def serve(network: Network, nodes: dict[str, subprocess.Popen[bytes]], urls: dict[str, str]) -> None:
    """Tells of transactions until a signal comes, or a node ends."""
    with progress(lambda seconds: f"the nodes begin, {seconds:.0f} s"):
        height = await_nodes(network, nodes, urls)
    first = urls[network.organisations[0]]
    (network.folder / URL).write_text(f"{first}\n", encoding="ascii")
    tell(network, urls)
    told: queue.SimpleQueue[str | NoNetwork] = queue.SimpleQueue()
    threading.Thread(target=follow, args=(first, height + 1, told), daemon=True).start()
    for organisation, node in nodes.items():
        threading.Thread(target=watch, args=(network, organisation, node, told), daemon=True).start()
    while isinstance(line := told.get(), str):
        print(line, flush=True)
    raise line


def check_packages() -> None:
    """Looks whether all that a node needs is there."""
    try:
        ran = subprocess.run([PYTHON, "-P", "-c", LACKING, *PACKAGES], stdin=subprocess.DEVNULL, capture_output=True, text=True)
    except OSError as error:
        raise NoNetwork(f"a node needs {PYTHON}: {error.strerror}") from None
    if missing := ran.stdout.split():
        packages = " ".join(PACKAGES[it] for it in missing)
        raise NoNetwork(f"a node needs {' and '.join(missing)}: apt-get install {packages}")


def dev(folder: pathlib.Path) -> None:
    """Begins the network of a folder, and ends it by a signal."""
    kit.end_by_signals()
    network = network_of(folder)
    check_packages()
    held = hold(folder)
    (folder / URL).unlink(missing_ok=True)
    settle(network)
    urls = {it: f"http://{HOST}:{port}" for it, port in zip(network.organisations, free_ports(len(network.organisations)))}
    configure(network, urls)
    make_log(network)
    nodes: dict[str, subprocess.Popen[bytes]] = {}
    try:
        for it in network.organisations:
            nodes[it] = begin(network, it, held)
        serve(network, nodes, urls)
    except KeyboardInterrupt:
        pass
    finally:
        # A second signal would end this before the nodes.
        kit.ignore_signals()
        (folder / URL).unlink(missing_ok=True)
        end(nodes)
        settle(network)
