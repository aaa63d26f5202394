"""What the tests of the node share. Those that import it find the modules of the node."""
import atexit
import functools
import json
import logging
import os
import pathlib
import re
import resource
import shutil
import subprocess
import sys
import tempfile

ROOT = pathlib.Path(__file__).resolve().parents[2]
sys.dont_write_bytecode = True
for folder in ("node", "python"):
    sys.path.insert(0, str(ROOT / folder))
import program
from keys import keygen
from regtuma import config

# The genesis file of a register of pallets.
EXAMPLE = json.loads((ROOT / "examples" / "assets" / "genesis.json").read_text())
# A test may block its loop for a while, and has connections refused.
logging.getLogger("asyncio").setLevel(logging.CRITICAL)
# A certificate that takes OpenSSL half a second to read: its key is on a curve of its own, over the prime 141 * 2^640 + 1.
SLOW = ("MIICizCCAnCgAwIBAgIBAjAKBggqhkjOPQQDAjAMMQowCAYDVQQDDAF4MB4XDTI1MDEwMTAwMDAwMFoXDTM1MDEwMTAwMDAwMFowDDEKMAgGA1UEAwwBeDCCAhwwggHDBg"
        "cqhkjOPQIBMIIBtgIBATBdBgcqhkjOPQEBAlIAjQAAAAAAAAAAAAAAAAAAAAAAAAAAAAAAAAAAAAAAAAAAAAAAAAAAAAAAAAAAAAAAAAAAAAAAAAAAAAAAAAAAAAAAAAAA"
        "AAAAAAAAAAAAAAABMIGmBFEAAAAAAAAAAAAAAAAAAAAAAAAAAAAAAAAAAAAAAAAAAAAAAAAAAAAAAAAAAAAAAAAAAAAAAAAAAAAAAAAAAAAAAAAAAAAAAAAAAAAAAAAAAA"
        "EEUQAAAAAAAAAAAAAAAAAAAAAAAAAAAAAAAAAAAAAAAAAAAAAAAAAAAAAAAAAAAAAAAAAAAAAAAAAAAAAAAAAAAAAAAAAAAAAAAAAAAAAAAAAAAQRSAnsDMS6tIikwrpFY"
        "1KifA7xaTe5IErFhB/G+Q3x7psr0o0ECOu1U7xJaJb2mWZmGSOAT1TFvMsMkRKSMHVyh/rYknfICXwv3pL3EWCcvSY2/qAJSAI0AAAAAAAAAAAAAAAAAAAAAAAAAAAAAAA"
        "AAAAAAAAAAAAAAAAAAAAAAAAAAAAAAAAAAAAAAAAAAAAAAAAAAAAAAAAAAAAAAAAAAAAAAAAAAAQIBAQNTAAKKF2qLUYNVznOth+UNH28XoMAsu3zfVPpQICHcLDZpJlqC"
        "nBFym7M7jGd2an8/Ckg6iN+MZ140+B39btyRlmqT4XC6kPDmTVKgmJBiUULBJ4wwCgYIKoZIzj0EAwIDCQAwBgIBAQIBAQ==")
CONFIGURATION = """\
organisation = "Maker"
listen = "node.sock"
page = "page.sock"

[ledger]
program = "ledger"
genesis = "genesis.json"
store = "chain.store"
keys = "maker.key"

[tls]
certificate = "node.pem"
key = "node.key"

[authorities]
Maker = "maker.ca.pem"
Carrier = "carrier.ca.pem"

[etcd]
endpoints = ["https://127.0.0.1:2379"]
authorities = "members.pem"
user = "maker"
password_file = "etcd.password"
certificate = "node.pem"
key = "node.key"

[nodes]
Carrier = "https://127.0.0.2:7051"

[rights]
read = ["Maker/*"]

[ticks]
wait = 0.5
"""

# The same of a node on one machine.
LOCAL = """\
organisation = "Maker"
listen = "127.0.0.1:7051"

[log]
file = "log"

[ledger]
program = "ledger"
genesis = "genesis.json"
store = "chain.store"
keys = "maker.key"

[nodes]
Carrier = "http://127.0.0.1:7052"

[ticks]
wait = 0.1
"""


class Folder:
    """A folder with a configuration, the files that it names, and two authorities."""

    def __init__(self):
        self.room = tempfile.TemporaryDirectory()
        self.path = pathlib.Path(self.room.name)
        for name in ("ledger", "genesis.json", "maker.key", "node.pem", "node.key", "etcd.password"):
            self.file(name)
        for name in ("Maker", "Carrier"):
            (self.path / f"{name.lower()}.ca.pem").write_text(authority(name))
        (self.path / "members.pem").write_text("".join(authority(it, "etcd") for it in ("Maker", "Carrier")))
        self.write(CONFIGURATION)

    def file(self, name: str, mode: int = 0o600) -> None:
        (self.path / name).touch(mode)

    def write(self, text: str) -> str:
        name = self.path / "node.toml"
        name.write_text(text)
        return str(name)

    def config(self, *changes: tuple[str, str], text: str = CONFIGURATION) -> config.Config:
        """The configuration in which each of these texts stands for another one."""
        for old, new in changes:
            assert old in text, old
            text = text.replace(old, new, 1)
        return config.read(self.write(text))

    def close(self) -> None:
        self.room.cleanup()


# Runs the rest of its words as a process that makes no memory to write and execute, where the kernel has that: PR_SET_MDWE.
DENY = "import ctypes, os, sys; ctypes.CDLL(None).prctl(65, 1, 0, 0, 0); os.execvp(sys.argv[1], sys.argv[1:])"


def as_unit(name: str) -> list[str]:
    """Words before a command, which then has what its unit of systemd gives it: open files, memory, and no capabilities."""
    text = (ROOT / f"node/systemd/{name}.service").read_text()
    settings = dict(it.split("=", 1) for it in text.splitlines() if re.match(r"[A-Za-z]+=", it))
    files = min(int(settings["LimitNOFILE"]), resource.getrlimit(resource.RLIMIT_NOFILE)[1])
    alone = ["setpriv", "--bounding-set=-all", "--no-new-privs"] if os.geteuid() == 0 else []
    denied = [sys.executable, "-ISc", DENY] if settings.get("MemoryDenyWriteExecute") == "yes" else []
    return ["prlimit", f"--nofile={files}:{files}", *alone, *denied]


def changed(count: int) -> tuple[int, dict]:
    """What etcd says of a log that was changed so many times."""
    return 200, {"header": {"revision": str(count + 1)}}


@functools.cache
def preload() -> pathlib.Path:
    """What the units load beside OpenSSL, as the Makefile makes it."""
    room = tempfile.TemporaryDirectory()
    atexit.register(room.cleanup)
    made, flags = pathlib.Path(room.name) / "certificates.so", ["-shared", "-fPIC", "-O2", "-Wall", "-Wextra", "-Werror"]
    subprocess.run(["clang", *flags, "-o", made, ROOT / "node/certificates.c"], check=True)
    return made


@functools.cache
def authority(organisation: str, part: str = "", extension: str = "keyUsage=keyCertSign") -> str:
    """A certificate of an authority of an organisation, for a part of what it has, as openssl makes it."""
    words = ["openssl", "req", "-x509", "-newkey", "ec", "-pkeyopt", "ec_paramgen_curve:P-256", "-nodes", "-keyout", "/dev/null",
             "-subj", f"/O={organisation}/CN={organisation} authority{part}", "-addext", extension]
    return subprocess.run(words, check=True, stdout=subprocess.PIPE, stderr=subprocess.DEVNULL, text=True).stdout


def ledger(*words: object, lines: str = "") -> str:
    """What the ledger's program prints."""
    ran = subprocess.run([str(program.find()), *map(str, words)], input=lines, text=True, stdout=subprocess.PIPE)
    return ran.stdout


def ledger_of(folder: pathlib.Path, **settings: object) -> pathlib.Path:
    """The genesis file of a register of pallets, in which the Maker has a shared key, and the Carrier and the Shop sign, by key files of
    their names. An empty store is beside it."""
    signing = [json.loads(keygen(str(folder / it), it, program=str(program.find()))) for it in ("Carrier", "Shop")]
    genesis = folder / "genesis.json"
    genesis.touch(mode=0o600)
    genesis.write_text(json.dumps({**EXAMPLE, **settings, "orgs": [{"name": "Maker", "key": "0f" * 32}, *signing]}))
    (folder / "store").touch()
    return genesis


def answered(folder: pathlib.Path, organisation: str, line: str) -> tuple[str, int]:
    """What the peer of an organisation of that ledger answers to a line, on a copy of the store, and at which height."""
    options = [] if organisation == "Maker" else ["--keys", folder / organisation]
    with tempfile.TemporaryDirectory() as room:
        store = shutil.copy(folder / "store", room)
        said = ledger("peer", folder / "genesis.json", store, "--org", organisation, *options, lines=line + "\n")
    *_, height, words = said.splitlines()[-1].split(" ", 3)
    return words, int(height)


def endorsed(folder: pathlib.Path, organisation: str, proposal: dict) -> dict:
    """What an organisation of that ledger endorses, as its node answers it."""
    words, height = answered(folder, organisation, f"{'call' if 'chaincode' in proposal else 'agreed'} 1 {json.dumps(proposal)}")
    _, payload, endorsement = words.split()
    return {"payload": payload, "endorsement": endorsement, "height": height}
