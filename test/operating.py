"""OPERATIONS.md typed on three machines, which are folders and addresses here: install, certificates, etcd, keys, first start, calls,
backup, a log that is lost, a member of etcd that is lost, another version, a member, code that was written later, and one that leaves."""
import hashlib
import json
import pathlib
import re
import secrets
import shutil
import subprocess
import sys
import time
from collections.abc import Callable

from pages import Block, Typist
from report import Report, run
from seeing import see_page
from tree import program
from units import laid, process_of, stop

# How long something may take to come about, in seconds.
PATIENCE = 200
ORGS = ("Maker", "Carrier", "Shop")
# What stands in for a reader's own module, which is valid by profile 2 too.
LATER = "examples/chaincode/asset_register_rust.wasm"
# What stands in for commands that change the machine: nobody is there, who is added gets a folder, and everybody owns all.
INSTEAD = {"getent": "exit 2", "chown": "exit 0", "useradd": 'mkdir -p "{root}$4"', "systemctl": 'exec {python} {tree}/test/units.py {root} "$@"'}


class Machine:
    """One organisation's machine: the page is typed on the Maker's, and on each other with its name and address in their place."""

    def __init__(self, org: str, number: int, net: str, tree: pathlib.Path, room: pathlib.Path, env: dict[str, str]):
        self.org, self.number, self.net, self.tree = org, number, net, tree
        self.root, self.etc = room / org.lower(), room / org.lower() / "etc/regtuma"
        shims = self.root / "shims"
        self.etc.mkdir(parents=True)
        shims.mkdir()
        for name, text in INSTEAD.items():
            (shims / name).write_text(f"#!/bin/sh\n{text.format(root=self.root, python=sys.executable, tree=tree)}\n")
        for it in shims.iterdir():
            it.chmod(0o755)
        self.env = {**env, "PATH": f"{shims}:{self.root}/usr/local/bin:{env['PATH']}"}
        self.typist = Typist(tree, self.root / "typed")
        # Folders of a test lie below /tmp, which is a reader's there.
        self.instead = {"/tmp/": "/tmp/", "make install": f"make -C {tree} install DESTDIR={self.root} LEDGER={program()}",
                        "make users": f"make -C {tree} users"}

    def own(self, text: str) -> str:
        """A text of the page as it is on this machine."""
        for one, other in (("Maker", self.org), ("maker", self.org.lower()), ("10.0.0.1", f"10.0.0.{self.number}")):
            text = text.replace(one, "\0").replace(other, one).replace("\0", other)
        # Members of etcd that are all on this machine's loopback have different addresses there.
        text = text.replace("127.0.0.1:2378", f"{self.net}.{self.number}:2378")
        return laid(text.replace("10.0.0.", f"{self.net}."), self.root)

    def type(self, report: Report, *blocks: Block, instead: dict[str, str] | None = None) -> None:
        """Types blocks one after another, in the folder of the settings."""
        made = [Block(it.document, it.line, it.language, self.own(it.text)) for it in blocks]
        self.typist.type(report, made, folders={"": self.etc}, instead={**self.instead, **(instead or {})}, env=self.env)

    def says(self, unit: str) -> str:
        file = self.root / f"{unit}.service.out"
        return file.read_text(errors="replace")[-1500:] if file.exists() else ""

    def run(self, *words: object) -> str:
        return run([str(it) for it in words], self.etc, PATIENCE, self.env).out

    def stop(self, *units: str) -> None:
        for it in units:
            stop(self.root, f"{it}.service")


class Operating:
    def __init__(self, report: Report, tree: pathlib.Path, room: pathlib.Path, env: dict[str, str], blocks: list[Block], typed: set[Block]):
        self.report, self.tree, self.blocks, self.typed = report, tree, blocks, typed
        net = f"127.{20 + secrets.randbelow(200)}.{1 + secrets.randbelow(250)}"
        self.machines = [Machine(org, number, net, tree, room, env) for number, org in enumerate(ORGS, 1)]
        self.maker, self.carrier, self.shop = self.machines

    def block(self, begin: str) -> list[Block]:
        """The block of commands that begins so, and what the page prints of it."""
        place = next(at for at, it in enumerate(self.blocks) if it.is_command() and it.text.startswith(begin))
        self.typed.add(self.blocks[place])
        behind = next((at for at, it in enumerate(self.blocks) if at > place and it.is_command()), len(self.blocks))
        return self.blocks[place:behind]

    def everywhere(self, *begins: str) -> None:
        for machine in self.machines:
            for begin in begins:
                machine.type(self.report, *self.block(begin))

    def wait(self, what: str, is_so: Callable[[], bool], why: Callable[[], str]) -> None:
        until = time.monotonic() + PATIENCE
        while not (is_there := is_so()) and time.monotonic() < until:
            time.sleep(0.2)
        self.report.case(what, is_there, "" if is_there else why())

    def well(self) -> None:
        """Waits until each node says that it is."""
        for machine in self.machines:
            def health(it: Machine = machine) -> str:
                return it.run("regtuma", "health", "--json")
            self.wait(f"the node of {machine.org} is well", lambda: '"ok": true' in health(),
                      lambda: f"{health()}\n{machine.says('regtuma-node')}")

    # ------------------------------------------------ the parts of the page

    def install(self) -> None:
        self.everywhere("make install")
        for machine in self.machines:
            for example in ("node.toml.example", "etcd.env.example", "proxy.env.example"):
                file = machine.root / "usr/local/lib/regtuma/node" / example
                file.write_text(machine.own(file.read_text()).replace("PAGE=127.0.0.1", f"PAGE={machine.net}.{machine.number}"))
        self.everywhere("mkdir -p")
        for machine in self.machines:
            for other in self.machines:
                if machine is not other:
                    self.send_authorities(other, machine.etc / other.org.lower())
        self.everywhere("regtuma-certs trust")

    def send_authorities(self, machine: Machine, to: pathlib.Path) -> None:
        to.mkdir()
        for file in machine.etc.glob("*ca.pem"):
            shutil.copy(file, to)

    def begin_etcd(self) -> None:
        self.everywhere("systemctl enable --now --no-block regtuma-etcd")
        for machine in self.machines:
            shutil.copy(machine.etc / "etcd.password", self.maker.etc / f"{machine.org.lower()}.password")
        (self.maker.etc / "root.password").write_text(f"{secrets.token_hex(16)}\n")
        users = self.block("export ETCDCTL_API=3")
        self.maker.env |= dict(it.split("=", 1) for line in self.maker.own(users[0].text).splitlines()[:2] for it in line.split()[1:])
        self.etcd_is_there()
        self.maker.type(self.report, *users)

    def etcd_is_there(self) -> None:
        self.wait("etcd is there", lambda: run(["etcdctl", "endpoint", "health"], self.maker.etc, PATIENCE, self.maker.env).status == 0,
                  lambda: "".join(it.says("regtuma-etcd") for it in self.machines))

    def write_genesis(self) -> None:
        """Each organisation makes its key. One writes the genesis file, over the example's register."""
        entries = []
        for machine in self.machines:
            machine.type(self.report, *self.block("ledger keygen"))
            public = machine.run("ledger", "public", f"{machine.org.lower()}.key").split()
            entries.append({"name": machine.org, "public": public[-1] if public else ""})
        genesis = json.loads((self.tree / "examples/assets/genesis.json").read_text())
        for machine in self.machines:
            (machine.etc / "genesis.json").write_text(json.dumps({**genesis, "orgs": entries}))

    def first_start(self) -> None:
        self.everywhere("cp /usr/local/lib/regtuma/node/node.toml.example", "cp /usr/local/lib/regtuma/node/proxy.env.example")
        self.maker.type(self.report, *self.block("regtuma-log node.toml begin"))
        self.everywhere("systemctl enable --now regtuma-node")
        calls = self.block("export REGTUMA_NODES=https")
        for machine in self.machines:
            settings = (it.partition("=") for line in machine.own(calls[0].text).splitlines()[:2] for it in line.split()[1:])
            machine.env.update((name, value) for name, _, value in settings)
        self.well()
        self.maker.type(self.report, *calls)
        self.maker.type(self.report, *self.block("regtuma health"))
        self.everywhere("ledger checkpoint")
        see_page(self.report, f"http://{self.maker.net}.1:8080/", lambda asset: self.maker.run("regtuma", "submit", "assets", "create", asset, "x"))

    def lose_member(self) -> None:
        """The Shop's member of etcd is lost, and a new one takes its place."""
        self.shop.stop("regtuma-etcd")
        shutil.rmtree(self.shop.root / "var/lib/regtuma-etcd")
        # etcd changes members only once all of them have been connected for five seconds.
        time.sleep(8)
        self.maker.type(self.report, *self.block("export ETCDCTL_USER"), *self.block("etcdctl member remove"))
        self.shop.type(self.report, *self.block("sed -i s/STATE=new"))
        self.maker.env["ETCDCTL_USER"] = f"root:{(self.maker.etc / 'root.password').read_text().strip()}"
        self.etcd_is_there()
        self.well()

    def lose_etcd(self) -> None:
        """All of etcd is thrown away, with the Carrier's store. The log goes on behind the Maker's, of which the Carrier gets a copy."""
        self.maker.type(self.report, *self.block("cp /var/lib/regtuma/chain.store"))
        for machine in self.machines:
            machine.stop("regtuma-node", "regtuma-etcd")
            shutil.rmtree(machine.root / "var/lib/regtuma-etcd")
        before = (self.maker.root / "var/lib/regtuma/chain.store").read_bytes()
        (self.carrier.root / "var/lib/regtuma/chain.store").unlink()
        self.begin_etcd()
        self.maker.type(self.report, *self.block("systemctl stop regtuma-node regtuma-door"))
        (self.carrier.etc / "longest.store").write_bytes(before)
        self.carrier.type(self.report, *self.block("cp longest.store"))
        for machine in (self.carrier, self.shop):
            machine.run("systemctl", "start", "regtuma-node")
        self.maker.type(self.report, *self.block("systemctl start regtuma-door regtuma-node"))
        self.well()

        def stores() -> set[bytes]:
            return {(it.root / "var/lib/regtuma/chain.store").read_bytes() for it in self.machines}
        # A node is well before it has read the log.
        self.wait("the stores are as they were", lambda: stores() == {before}, lambda: str([len(it) for it in (before, *stores())]))

    def change_members(self) -> None:
        self.maker.type(self.report, *self.block("systemctl stop regtuma-node\nmake install"))
        self.well()
        self.maker.run("regtuma-certs", "ca", "depot", "Depot")
        self.maker.type(self.report, *self.block("regtuma-certs trust . carrier shop depot"))
        (self.maker.etc / "depot.json").write_text(self.maker.run("ledger", "keygen", "depot.key", "Depot"))
        self.maker.type(self.report, *self.block("regtuma-change members"))
        shutil.copy(self.maker.etc / "change.json", self.carrier.etc)
        for machine in (self.carrier, self.maker):
            machine.type(self.report, *self.block("REGTUMA_CERT=operator.pem"))
        self.maker.type(self.report, *self.block("regtuma change change.json"))
        members = json.loads(self.maker.run("regtuma", "members", "--json"))
        names = [it["name"] for it in members["members"]]
        self.report.case("Depot is a member", names == ["Carrier", "Depot", "Maker", "Shop"], str(members))

    def upgrade(self) -> None:
        data = (self.tree / LATER).read_bytes()
        (self.maker.etc / "assets2.wasm").write_bytes(data)
        self.maker.type(self.report, *self.block("ledger digest"), instead={"DIGEST": hashlib.sha256(data).hexdigest()})
        proposal = json.loads((self.maker.etc / "change.json").read_text())
        made = (proposal["upgrade"], proposal["profile"], proposal["fuel"])
        self.report.case("an upgrade", made == ("assets", 18, 900000), str(proposal))

    def leave(self) -> None:
        """The Shop leaves: the others take away what they are shown of it."""
        self.shop.stop("regtuma-proxy", "regtuma-node")
        self.maker.type(self.report, *self.block("regtuma-log node.toml leave"))
        self.shop.stop("regtuma-door", "regtuma-etcd")
        for machine in (self.maker, self.carrier):
            settings = machine.etc / "node.toml"
            settings.write_text(re.sub(r', "Shop/node"|, "https://[^"]*.3:2379"|\nShop = .*', "", settings.read_text()))
            machine.type(self.report, *self.block("regtuma-certs trust . carrier\n"))
        self.etcd_is_there()
        self.machines.remove(self.shop)
        self.well()
        said = self.maker.run("regtuma-log", "node.toml", "leave", "Shop")
        self.report.case("nothing of the Shop is left", said == "nothing of Shop is left on this machine\n", said)

    def end(self) -> None:
        """Ends what the units started, each of which has to end by itself."""
        for machine in self.machines:
            units = ("regtuma-proxy", "regtuma-node", "regtuma-door", "regtuma-etcd")
            machine.stop(*units)
            left = [it for it in units if process_of(machine.root, f"{it}.service")]
            self.report.case(f"{machine.org}: units end", not left, f"{left} {machine.says('regtuma-node')}")


def operate(report: Report, tree: pathlib.Path, room: pathlib.Path, env: dict[str, str], blocks: list[Block], typed: set[Block]) -> None:
    at = Operating(report, tree, room, env, blocks, typed)
    try:
        at.install()
        at.everywhere("cp /usr/local/lib/regtuma/node/etcd.env.example")
        at.begin_etcd()
        at.write_genesis()
        at.first_start()
        at.lose_etcd()
        at.lose_member()
        at.change_members()
        at.upgrade()
        at.leave()
    except (OSError, ValueError, KeyError, subprocess.SubprocessError) as error:
        report.case("the page can be typed to its end", False, repr(error))
    finally:
        at.end()
