"""./ledger keygen: the key files that it makes, what it refuses, and whether others can read one."""
import json
import pathlib
import re

from report import Ran, Report, run
from tree import run_ledger

# How long a command may take, in seconds.
SECONDS = 60
ENTRY = re.compile(r'\{"name":"A_1","public":"([0-9a-f]{64})"\}\n')
# How OpenSSL makes what is no private key of Ed25519 by itself, of the one in ed25519.pem.
OTHERS = {
    "x25519.pem": "genpkey -algorithm x25519",
    "ed448.pem": "genpkey -algorithm ed448",
    "encrypted.pem": "pkey -in ed25519.pem -aes256 -passout pass:word",
    "public.pem": "pkey -in ed25519.pem -pubout",
    "with_text.pem": "pkey -in ed25519.pem -text",
}


class Keygen:
    """Where keys are made, and how."""

    def __init__(self, report: Report, tree: pathlib.Path, room: pathlib.Path, env: dict[str, str]):
        self.report, self.tree, self.room, self.env = report, tree, room / "keys", env
        self.room.mkdir()

    def ledger(self, *words: str) -> Ran:
        """Runs a command in the folder of the keys."""
        return run_ledger([self.tree / "ledger", *words], self.room, SECONDS, self.env)

    def openssl(self, words: str, out: str) -> None:
        ran = run(["openssl", *words.split(), "-out", out], self.room, SECONDS, self.env)
        self.report.case(f"openssl {words}", ran.status == 0, ran.err)

    def made(self, name: str, *words: str) -> str:
        """Makes a key file. Its public key."""
        ran, file = self.ledger("keygen", *words, f"{name}.key", "A_1"), self.room / f"{name}.key"
        entry = ENTRY.fullmatch(ran.out)
        self.report.case(f"{name}: an entry of orgs", ran.status == 0 and entry is not None and not ran.err, ran.out + ran.err)
        is_one = file.exists() and re.fullmatch("[0-9a-f]{64}\n", file.read_text()) is not None
        if self.report.case(f"{name}: a key file", is_one):
            self.report.case(f"{name}: its owner's alone", file.stat().st_mode & 0o777 == 0o600)
            self.report.case(f"{name}: no seed is printed", file.read_text()[:64] not in ran.out + ran.err)
        public = json.loads(ran.out)["public"] if entry else ""
        self.report.case(f"{name}: ledger public", self.ledger("public", file.name).out == f"public {public}\n")
        return public

    def refused(self, what: str, *words: str) -> None:
        """A command that is refused in a sentence, and makes no file."""
        before = {it.name: it.read_bytes() for it in self.room.iterdir() if it.is_file()}
        ran = self.ledger("keygen", *words)
        is_told = ran.status == 1 and not ran.out and ran.err.count("\n") == 1 and "Traceback" not in ran.err
        self.report.case(what, is_told, f"status {ran.status}\n{ran.out}{ran.err}")
        after = {it.name: it.read_bytes() for it in self.room.iterdir() if it.is_file()}
        self.report.case(f"{what}: no file changes", before == after)


def try_keygen(report: Report, tree: pathlib.Path, room: pathlib.Path, env: dict[str, str]) -> None:
    at = Keygen(report, tree, room, env)
    report.case("two keys differ", at.made("one") != at.made("two"))
    at.refused("a file that is there", "one.key", "A_1")
    at.refused("a folder that is not there", "none/one.key", "A_1")
    for name in ("", "A-1", "A 1", "A" * 33, "\u00c4"):
        at.refused(f"the name {name!r}", "new.key", name)
    report.case("keygen without words", at.ledger("keygen").status == 2)
    at.openssl("genpkey -algorithm ed25519", "ed25519.pem")
    at.openssl("pkey -in ed25519.pem -pubout -outform DER", "public.der")
    public = (at.room / "public.der").read_bytes()[-32:].hex()
    report.case("the public key is that of openssl", at.made("of_pem", "--pem", "ed25519.pem") == public)
    for file, words in OTHERS.items():
        at.openssl(words, file)
        at.refused(file, "--pem", file, "new.key", "A_1")
    at.refused("a PEM file that is not there", "--pem", "none", "new.key", "A_1")
    tell_of_others(at)


def tell_of_others(at: Keygen) -> None:
    """A key file that others can read is told of, and used."""
    (at.room / "open.key").write_bytes((at.room / "one.key").read_bytes())
    (at.room / "open.key").chmod(0o644)
    for file, is_told in ("one.key", False), ("open.key", True):
        for words in (["--keys", file], [f"--keys={file}"]):
            ran = at.ledger("peer", "none", "none", "--org", "A_1", *words)
            told = "can read the key file open.key" in ran.err
            at.report.case(f"others can read {words}: {is_told}", told == is_told and ran.out == "refused 703\n", ran.out + ran.err)
