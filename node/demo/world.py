"""The machines of the demo and of the load, all on this one: each organisation has an address of its own below 127, with a node
of etcd, a node, certificates and a key. All of them have the same ports, as they would on machines of their own."""
import concurrent.futures
import json
import os
import pathlib
import secrets
import shutil
import signal
import ssl
import subprocess
import sys
import time
import urllib.error
import urllib.request
from collections.abc import Callable

ROOT = pathlib.Path(__file__).resolve().parents[2]
NODE = ROOT / "node"
# Who imports this module finds the modules of the node, and of python/, from then on.
sys.path[:0] = [str(NODE), str(ROOT / "python")]
from keys import keygen
from regtuma.client import Client

MAKER, CARRIER, SHOP = ORGS = ("Maker", "Carrier", "Shop")
# An organisation that joins later, and the Maker's second node.
DEPOT, SECOND = "Depot", "Maker2"
PLACES = (*ORGS, DEPOT, SECOND)
# Where nodes listen, their pages, and etcd: its door, itself for its operator, and for its own.
PORT, PAGE, ETCD, LOCAL, PEERS = 7051, 8080, 2379, 2378, 2380
# The Python that has the node's packages.
PYTHON = "/usr/bin/python3"
# A chaincode that loops until its fuel is spent: few units are much for the unproved program.
LOOP = "0061736d010000000105016000017f03020100070a0106696e766f6b6500000a0b01090003400c000b41000b"
SLOW = {"name": "slow", "module": LOOP, "profile": 1, "fuel": 10_000, "policy": "OutOf(2, 'Maker', 'Carrier', 'Shop')"}
# How long something may take to come about, in seconds, with the unproved program on a busy machine too.
PATIENCE = 240.0


class Wrong(Exception):
    """Something is not as it has to be."""


def expect(what: str, got: object, wanted: object) -> None:
    if got != wanted:
        raise Wrong(f"{what}: {got!r:.600} in place of {wanted!r:.300}")


def wait_until(what: str, is_so: Callable[[], bool], seconds: float = PATIENCE) -> None:
    until = time.monotonic() + seconds
    while not is_so():
        if time.monotonic() > until:
            raise Wrong(f"{what}: not within {seconds:g} s")
        time.sleep(0.05)


def org_of(place: str) -> str:
    """Whose machine it is."""
    return MAKER if place == SECOND else place


class World:
    def __init__(self, folder: pathlib.Path, program: str, block: int = 10, wait: float = 0.25, has_shared_keys: bool = False):
        self.folder, self.program, self.block, self.wait, self.has_shared_keys = folder, program, block, wait, has_shared_keys
        net = f"127.{20 + secrets.randbelow(200)}.{1 + secrets.randbelow(250)}"
        # What the proxies run by.
        self.proxy = NODE / "haproxy.cfg"
        self.address = {place: f"{net}.{number}" for number, place in enumerate(PLACES, 1)}
        # Whose node reaches etcd by a cable that can be cut, and where that begins.
        self.cabled, self.cable = "", f"{net}.{len(PLACES) + 1}"
        self.passwords = {it: secrets.token_hex(16) for it in ("root", *ORGS, DEPOT)}
        self.processes: dict[str, subprocess.Popen] = {}
        # More lines of the part [ledger] of a place's node.toml, and which organisations' nodes are to have the chain.
        self.more: dict[str, list[str]] = {it: [] for it in PLACES}
        self.members = list(ORGS)
        # Those who have a member of etcd; and those who know each other: who joins later is known before.
        self.voters, self.known = list(ORGS), [*ORGS, DEPOT]

    def room(self, place: str) -> pathlib.Path:
        return self.folder / place.lower()

    def store(self, place: str) -> pathlib.Path:
        return self.room(place) / "chain.store"

    def sockets(self, place: str) -> pathlib.Path:
        """Where a place's node hears its proxy."""
        return self.folder / "run" / place.lower()

    def url(self, place: str) -> str:
        return f"https://{self.address[place]}:{PORT}"

    def etcd_at(self, org: str, place: str = "") -> str:
        """Where an organisation's member of etcd is, as it is reached from a place."""
        if place and place == self.cabled:
            return f"{self.cable}:{ETCD + PLACES.index(org)}"
        return f"{self.address[org]}:{ETCD}"

    # ---------------------------------------------------------------- processes

    def start(self, what: str, *words: object, env: dict[str, str] | None = None) -> subprocess.Popen:
        """Starts a process in a group of its own, whose output goes behind that of the one before."""
        with open(self.folder / f"{what}.out", "ab") as out:
            self.processes[what] = subprocess.Popen([str(it) for it in words], stdin=subprocess.DEVNULL, stdout=out, stderr=out,
                                                    env={**os.environ, **(env or {})}, start_new_session=True)
        return self.processes[what]

    def said(self, what: str) -> str:
        return (self.folder / f"{what}.out").read_text(errors="replace")

    def signal(self, what: str, number: int) -> None:
        """Sends a signal to a process and all that it started."""
        os.killpg(self.processes[what].pid, number)

    def kill(self, what: str) -> None:
        """Kills a process and all that it started, with no time to tidy up."""
        if self.processes[what].poll() is None:
            self.signal(what, signal.SIGKILL)
        self.processes.pop(what).wait()

    def end(self, *places: str) -> None:
        """Asks nodes to end, as systemd does, which they have to do well."""
        for place in places:
            self.processes[f"node-{place}"].terminate()
        for place in places:
            expect(f"the end of the node of {place}", self.processes.pop(f"node-{place}").wait(timeout=PATIENCE), 0)

    def stop(self) -> None:
        for what in list(self.processes):
            self.kill(what)

    # ---------------------------------------------------------------- certificates, keys and settings

    def certs(self, *words: object) -> None:
        made = subprocess.run([NODE / "certs.sh", *map(str, words)], capture_output=True, text=True)
        if made.returncode:
            raise Wrong(f"certs.sh {' '.join(map(str, words))}: {made.stderr.strip()}")

    def prepare(self) -> None:
        """Each organisation's certificates, whom its member of etcd trusts, and the genesis file."""
        with concurrent.futures.ThreadPoolExecutor() as pool:
            list(pool.map(self.certify, self.known))
        for org in self.known:
            self.trust(org)
        genesis = json.loads((ROOT / "examples" / "assets" / "genesis.json").read_text())
        chaincodes = [*genesis["chaincodes"], SLOW]
        text = json.dumps({**genesis, "count": self.block, "orgs": [self.entry(org) for org in ORGS], "chaincodes": chaincodes})
        for org in (*ORGS, DEPOT):
            file = self.room(org) / "genesis.json"
            file.touch(mode=0o600)
            file.write_text(text)
        for org in ORGS:
            self.configure(org)

    def entry(self, org: str) -> dict[str, str]:
        """An organisation's entry in the genesis file. Where it has a key of its own, that is made."""
        if self.has_shared_keys:
            return {"name": org, "key": secrets.token_hex(32)}
        return json.loads(keygen(str(self.room(org) / "secret.key"), org, program=self.program))

    def certify(self, org: str) -> None:
        room, address = self.room(org), self.address[org]
        self.certs("ca", room, org)
        self.certs("node", room, org, address, "localhost")
        self.certs("member", room, org, address, self.cable, "127.0.0.1")
        for name in ("alice", "operator", "reader"):
            self.certs("client", room, org, name)

    def trust(self, place: str) -> None:
        """Lays down whom a place trusts, by who is known now."""
        self.certs("trust", self.room(place), *(self.room(it) for it in self.known if it != org_of(place)))

    def configure(self, place: str) -> None:
        """Writes a place's node.toml, by what is known now."""
        org, room = org_of(place), self.room(place)
        secret = room / "etcd.password"
        secret.touch(mode=0o600)
        secret.write_text(self.passwords[org])
        self.configure_proxy(place)
        others = [it for it in self.known if it != org]
        endpoints = [f"https://{self.etcd_at(it, place)}" for it in sorted(self.voters, key=lambda it: it != org)]
        if org in self.voters and org == place != self.cabled:
            # An organisation's own node has no door before its member.
            endpoints[0] = f"https://{self.address[org]}:{LOCAL}"
        parts: dict[str, dict[str, object]] = {
            "": {"organisation": org, "listen": str(self.sockets(place) / "node.sock"), "page": str(self.sockets(place) / "page.sock")},
            "ledger": {"program": self.program, "genesis": "genesis.json", "store": "chain.store", "keys": "secret.key", "seen": 4,
                       "template": str(ROOT / "examples" / "page" / "template.html")},
            "tls": {"certificate": "node.pem", "key": "node.key"},
            "authorities": {it: f"../{it.lower()}/ca.pem" for it in self.known},
            "etcd": {"endpoints": endpoints, "authorities": "etcd/members.pem", "user": org.lower(), "password_file": "etcd.password",
                     "certificate": "etcd.pem", "key": "etcd.key"},
            "nodes": {it: self.url(it) for it in others},
            "rights": {"read": [f"{org}/*"], "observe": [f"{org}/*"], "evaluate": [f"{org}/alice"], "submit": [f"{org}/alice"],
                       "endorse": [f"{it}/node" for it in others], "agree": [f"{org}/operator"]},
            "ticks": {"wait": self.wait},
        }
        if self.has_shared_keys:
            del parts["ledger"]["keys"]
        more = "".join(f"{it}\n" for it in self.more[place])
        tables = [f"[{name}]\n" * bool(name) + lines(table) + (more if name == "ledger" else "") for name, table in parts.items()]
        (room / "node.toml").write_text("\n".join(tables))

    def configure_proxy(self, place: str) -> None:
        """Lays down a place's own certificate, by which its proxy answers, and that of its member of etcd, by which the door does."""
        room = self.room(place)
        self.sockets(place).mkdir(mode=0o700, parents=True, exist_ok=True)
        for made, name in ((room / "proxy.pem", "node"), (room / "etcd" / "door.pem", "member")):
            made.touch(mode=0o600)
            made.write_text("".join((room / f"{name}.{it}").read_text() for it in ("pem", "key")))

    # ---------------------------------------------------------------- etcd

    def start_etcd(self, org: str) -> None:
        """Starts a member, and its door by whom it trusts now."""
        if f"door-{org}" in self.processes:
            self.kill(f"door-{org}")
        room, at = self.room(org), self.address[org]
        # As the unit has it: with --client-cert-auth a caller's common name would be a user.
        tls: list[object] = ["--peer-client-cert-auth"]
        for kind, trusted in (("", "own"), ("peer-", "members")):
            tls += [f"--{kind}cert-file", room / "member.pem", f"--{kind}key-file", room / "member.key",
                    f"--{kind}trusted-ca-file", room / "etcd" / f"{trusted}.pem"]
        client, peer = f"https://{at}:{LOCAL}", f"https://{at}:{PEERS}"
        cluster = ",".join(f"{it.lower()}=https://{self.address[it]}:{PEERS}" for it in self.voters)
        self.start(f"door-{org}", "/usr/sbin/haproxy", "-db", "-f", NODE / "door.cfg",
                   env={"DOOR": self.etcd_at(org), "LOCAL": f"{at}:{LOCAL}", "SETTINGS": str(room / "etcd")})
        self.start(f"etcd-{org}", "etcd", "--name", org.lower(), "--data-dir", room / "data", "--listen-client-urls", client,
                   "--advertise-client-urls", f"https://{self.etcd_at(org)}", "--max-txn-ops", 1, "--listen-peer-urls", peer, "--initial-advertise-peer-urls", peer,
                   "--initial-cluster", cluster, *tls, "--auto-compaction-retention", "0", "--logger", "zap", "--log-level", "error")

    def etcdctl(self, *words: str, user: str | None = None, check: bool = True, given: str = "", at: str = MAKER,
                certificate: str = "") -> subprocess.CompletedProcess:
        """What a member's operator types, past the door."""
        certificate = certificate or f"{at.lower()}/etcd"
        env = {**os.environ, "ETCDCTL_API": "3", "ETCDCTL_CACERT": str(self.room(MAKER) / "etcd" / "members.pem"),
               "ETCDCTL_CERT": str(self.folder / f"{certificate}.pem"), "ETCDCTL_KEY": str(self.folder / f"{certificate}.key"),
               "ETCDCTL_ENDPOINTS": f"https://{self.address[at]}:{LOCAL}"}
        if user:
            env["ETCDCTL_USER"] = f"{user.lower()}:{self.passwords[user]}"
        ran = subprocess.run(["etcdctl", "--command-timeout=60s", *words], env=env, text=True, input=given, stdout=subprocess.PIPE,
                             stderr=subprocess.STDOUT)
        if check and ran.returncode:
            raise Wrong(f"etcdctl {' '.join(words[:2])}: {ran.stdout.strip()}")
        return ran

    def lay_cable(self, place: str) -> None:
        """From now on a place's node reaches etcd by a cable, which is cut while the process `cable` is stopped."""
        self.cabled = place
        ends = [end for org in ORGS for end in (self.etcd_at(org, place), self.etcd_at(org))]
        self.start("cable", sys.executable, NODE / "demo" / "cable.py", *ends)

    def begin_etcd(self) -> None:
        """Starts etcd on all machines, and gives each organisation a user, who reads the log and writes its own part."""
        for org in self.voters:
            self.start_etcd(org)
        wait_until("etcd comes up", lambda: all(self.etcdctl("endpoint", "health", check=False, at=it).returncode == 0 for it in self.voters))
        self.etcdctl("user", "add", f"root:{self.passwords['root']}")
        self.etcdctl("user", "grant-role", "root", "root")
        for org in self.known:
            user = org.lower()
            self.etcdctl("user", "add", f"{user}:{self.passwords[org]}")
            self.etcdctl("role", "add", user)
            self.etcdctl("user", "grant-role", user, user)
            for how, prefix in (("read", "log/"), ("readwrite", f"log/{org}/")):
                self.etcdctl("role", "grant-permission", user, "--prefix=true", how, prefix)
        self.etcdctl("auth", "enable")

    def restart_etcd(self, org: str) -> None:
        """Begins a member again, by whom it trusts now."""
        self.kill(f"etcd-{org}")
        self.start_etcd(org)
        healthy = ("endpoint", "health", "--command-timeout=5s")
        wait_until(f"the member of {org} is back", lambda: self.etcdctl(*healthy, user="root", check=False, at=org).returncode == 0)

    def leader(self) -> str:
        """Whose member of etcd leads."""
        said: list[dict] = []

        def is_led() -> bool:
            ran = [self.etcdctl("endpoint", "status", "-w", "json", user="root", check=False, at=it) for it in self.voters]
            told = [json.loads(line)[0]["Status"] for it in ran for line in it.stdout.splitlines() if line.startswith("[")]
            said[:] = told if len(told) == len(self.voters) else []
            return bool(said)
        wait_until("etcd has a leader", is_led)
        return next(org for org, it in zip(self.voters, said) if it["leader"] == it["header"]["member_id"])

    def space(self) -> int:
        """How many bytes the Maker's member of etcd has in use."""
        said = self.etcdctl("endpoint", "status", "-w", "json", user="root")
        return json.loads(next(it for it in said.stdout.splitlines() if it.startswith("[")))[0]["Status"]["dbSizeInUse"]

    # ---------------------------------------------------------------- nodes

    def log(self, place: str, *words: object, check: bool = True) -> bytes:
        """What regtuma-log prints, by the settings of a place."""
        ran = subprocess.run([NODE / "bin" / "regtuma-log", self.room(place) / "node.toml", *map(str, words)], capture_output=True)
        if not check:
            return ran.stdout + ran.stderr
        if ran.returncode:
            raise Wrong(f"regtuma-log {' '.join(map(str, words))}: {(ran.stdout + ran.stderr).decode().strip()}")
        return ran.stdout

    def start_node(self, place: str) -> None:
        """Starts a place's proxy, by what is laid down now, and its node."""
        if f"proxy-{place}" in self.processes:
            self.kill(f"proxy-{place}")
        self.start(f"proxy-{place}", "/usr/sbin/haproxy", "-db", "-f", self.proxy,
                   env={"LISTEN": f"{self.address[place]}:{PORT}", "PAGE": f"{self.address[place]}:{PAGE}",
                        "SETTINGS": str(self.room(place)), "SOCKETS": str(self.sockets(place))})
        self.start(f"node-{place}", NODE / "bin" / "regtuma-node", self.room(place) / "node.toml")

    def begin_nodes(self, *places: str) -> None:
        """Starts nodes, and waits until each is well."""
        for place in places:
            self.start_node(place)
        for place in places:
            self.up(place)

    def up(self, place: str) -> None:
        def is_up() -> bool:
            if self.processes[f"node-{place}"].poll() is not None:
                raise Wrong(f"the node of {place} has ended: {self.said(f'node-{place}')[-2000:]}")
            return self.ask(place, "/healthz").get("ok") is True
        wait_until(f"the node of {place} is well", is_up)

    def restart(self, *places: str) -> None:
        """Ends nodes well and begins them again, by the settings that stand now."""
        self.end(*places)
        for place in places:
            self.configure(place)
        self.begin_nodes(*places)

    def read(self, place: str, path: str, **headers: str) -> str:
        """What the page's listener answers, whatever the status is; nothing where nobody answers."""
        request = urllib.request.Request(f"http://{self.address[place]}:{PAGE}{path}", headers=headers)
        try:
            with urllib.request.urlopen(request, timeout=10) as answer:
                return answer.read().decode()
        except urllib.error.HTTPError as error:
            return error.read().decode()
        except OSError:
            return ""

    def ask(self, place: str, path: str) -> dict:
        """The same as JSON."""
        return json.loads(self.read(place, path) or "{}")

    def height(self, place: str) -> int:
        return self.ask(place, "/height").get("height", -1)

    def same_height(self, *places: str) -> int:
        """Waits until nodes have the same number of blocks, and nothing waits for the next."""
        def are_alike() -> bool:
            heights = {self.height(it) for it in places}
            return len(heights) == 1 and heights != {-1}
        wait_until("the nodes have the same height", are_alike)
        return self.height(places[0])

    # ---------------------------------------------------------------- clients

    def client_env(self, org: str, name: str = "alice", nodes: tuple[str, ...] = ()) -> dict[str, str]:
        room = self.room(org)
        nodes = nodes or (org,)
        return {"REGTUMA_NODES": ",".join(self.url(it) for it in nodes), "REGTUMA_CERT": str(room / f"{name}.pem"),
                "REGTUMA_KEY": str(room / f"{name}.key"), "REGTUMA_CA": ",".join(self.authority(it) for it in nodes)}

    def authority(self, place: str) -> str:
        """By which a place's node is believed."""
        return str(self.room(org_of(place)) / "ca.pem")

    def client(self, org: str, name: str = "alice", nodes: tuple[str, ...] = (), seconds: float = PATIENCE) -> Client:
        env = self.client_env(org, name, nodes)
        return Client(env["REGTUMA_NODES"].split(","), env["REGTUMA_CERT"], env["REGTUMA_KEY"], env["REGTUMA_CA"], seconds)

    def regtuma(self, org: str, *words: object, name: str = "alice") -> tuple[int, str]:
        """The status of the command line, and what it prints."""
        return self.run_client([NODE / "bin" / "regtuma", *words], org, name)

    def run_client(self, words: list, org: str, name: str = "alice") -> tuple[int, str]:
        env = {**os.environ, **self.client_env(org, name)}
        ran = subprocess.run([str(it) for it in words], env=env, text=True, stdout=subprocess.PIPE, stderr=subprocess.STDOUT)
        return ran.returncode, ran.stdout.strip()

    def tls(self, org: str) -> ssl.SSLContext:
        made = ssl.create_default_context(cafile=self.authority(org))
        made.load_cert_chain(self.room(org) / "alice.pem", self.room(org) / "alice.key")
        return made

    def answered(self, org: str, key: pathlib.Path, line: str) -> str:
        """What the peer of an organisation, by a key file, answers to a line, on a copy of the Maker's store."""
        store = shutil.copy(self.store(MAKER), self.folder / "copy.store")
        status, said = self.ledger("peer", self.room(org) / "genesis.json", store, "--org", org, "--keys", key, given=f"{line}\n")
        expect("the end of a peer", status, 0)
        return said.splitlines()[-1].split(" ", 3)[-1]

    def ledger(self, *words: object, given: str = "") -> tuple[int, str]:
        """The status of the program, and what it prints."""
        command = [self.program, *map(str, words)]
        ran = subprocess.run(command, text=True, input=given, stdout=subprocess.PIPE, stderr=subprocess.DEVNULL)
        return ran.returncode, ran.stdout


def lines(table: dict[str, object]) -> str:
    """A part of a TOML file, whose values JSON spells alike."""
    return "".join(f"{name} = {json.dumps(value)}\n" for name, value in table.items())

