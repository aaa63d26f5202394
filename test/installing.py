"""make install, ./ledger dist and regtuma-certs: what they lay and make, and what they refuse."""
import os
import pathlib
import re
import shutil
import ssl
import stat
import subprocess

from report import Ran, Report, run
from tree import PROVED, ROOT, program

# How long a command may take, in seconds.
SECONDS = 120
# How much a unit may be exposed, in tenths of what systemd-analyze tells.
MOST_EXPOSED = 20
COMMANDS = ("ledger", "regtuma", "regtuma-audit", "regtuma-certs", "regtuma-change", "regtuma-log", "regtuma-node")


def fails_in_words(ran: Ran, status: int = 1) -> bool:
    """Whether a command was refused by a sentence, not by a crash."""
    return ran.status == status and ran.err.strip() != "" and "Traceback" not in ran.err + ran.out


class Installing:
    """A root to install into, beside the tree."""

    def __init__(self, report: Report, tree: pathlib.Path, room: pathlib.Path, env: dict[str, str]):
        self.report, self.tree, self.env = report, tree, env
        self.root, self.certs = room / "root", room / "certs"
        self.certs.mkdir()

    def run(self, *words: object) -> Ran:
        return run([str(it) for it in words], self.certs, SECONDS, self.env)

    def case(self, name: str, is_so: bool, ran: Ran) -> bool:
        return self.report.case(name, is_so, f"status {ran.status}\n{ran.out}{ran.err}")


def try_installing(report: Report, tree: pathlib.Path, room: pathlib.Path, env: dict[str, str]) -> None:
    at = Installing(report, tree, room, env)
    ran = at.run("sh", "-c", 'umask 077 && exec "$@"', "sh", "make", "-C", tree, "install", f"DESTDIR={at.root}", f"LEDGER={program()}")
    if at.case("make install", ran.status == 0, ran):
        closed = [str(it) for it in at.root.rglob("*") if not it.is_symlink() and not it.stat().st_mode & stat.S_IROTH]
        report.case("everybody reads what was installed, whatever the umask", not closed, ", ".join(closed))
        try_installed(at)
        try_units(at)
    ran = at.run("make", "-C", tree, "install", f"DESTDIR={at.root}/none", "LEDGER=none")
    at.case("nothing is installed without a program", fails_in_words(ran, 2) and not (at.root / "none").exists(), ran)
    try_users(at)
    try_dist(at)
    try_certs(at)


def try_installed(at: Installing) -> None:
    """What was installed works from where it is, without the repository."""
    for name in COMMANDS:
        ran = at.run(at.root / "usr/local/bin" / name, "--help")
        at.case(f"{name} --help, installed", ran.status == 0 and ran.out != "" and not ran.err, ran)
    ledger = at.root / "usr/local/bin/ledger"
    ran = at.run(ledger, "version")
    at.case("the installed program", ran.status == 0 and ran.out.startswith('{"lines":') and not ran.err, ran)
    at.case("numbers are explained", "docs/" in (ran := at.run(ledger, "explain", "703")).out, ran)
    try_chaincode(at, ledger)
    for word in ("prove", "dist"):
        ran = at.run(ledger, word)
        at.case(f"an installed tree has nothing for ledger {word}", fails_in_words(ran), ran)


def try_chaincode(at: Installing, ledger: pathlib.Path) -> None:
    """What chaincode is built with is there, and a call can be made; so are the man page and completion."""
    local = at.root / "usr/local"
    chaincode = local / "lib/regtuma/examples/chaincode"
    files = ["fabric_test.h", "shim/Cargo.toml", "shim/src/lib.rs", "escrow/src/lib.rs", "escrow_test.c", "build.sh"]
    missing = [it for it in files if not (chaincode / it).is_file()]
    at.report.case("sources of chaincode, installed", not missing, " ".join(missing))
    ran = at.run(ledger, "cc", chaincode / "escrow.c")
    at.case("ledger cc, installed", ran.status == 0 and ran.out.startswith("valid functions="), ran)
    ran = at.run("sh", "-c", f"{ledger} new demo && {ledger} call demo assets create pallet-7 Maker")
    at.case("a network and a call, installed", ran.out.startswith("write assets/asset/pallet-7 put Maker\nVALID in block 1, "), ran)
    for name, begins in {"man/man1/ledger.1": ".TH LEDGER 1", "bash-completion/completions/ledger": "_ledger() {"}.items():
        text = (local / "share" / name).read_text()
        at.report.case(name, text.startswith(begins) and stat.S_IMODE((local / "share" / name).stat().st_mode) == 0o644, text[:80])


def try_units(at: Installing) -> None:
    """systemd reads the units, whose programs are there."""
    for unit in sorted((at.root / "etc/systemd/system").iterdir()):
        text = unit.read_text().replace("/usr/local/", f"{at.root}/usr/local/")
        (at.certs / unit.name).write_text(text)
        programs = re.findall(r"^Exec\w+=(\S+)", text, re.MULTILINE)
        at.report.case(f"{unit.name}: its programs", all(pathlib.Path(it).exists() for it in programs), " ".join(programs))
    units = sorted(at.certs.glob("regtuma-*"))
    ran = at.run("systemd-analyze", "verify", *units)
    at.case("systemd-analyze verify", len(units) == 6 and ran.status == 0 and not ran.err, ran)
    for unit in units:
        if unit.suffix == ".service":
            ran = at.run("systemd-analyze", "security", "--offline=true", "--no-pager", f"--threshold={MOST_EXPOSED}", unit)
            at.case(f"systemd-analyze security {unit.name}", ran.status == 0, ran)
        unit.unlink()


def try_users(at: Installing) -> None:
    """Those of the units, whose folders are empty. They are made on no real machine, which wants root all the same."""
    if os.geteuid():
        return
    machine, shims = at.root.parent / "machine", at.root.parent / "shims"
    for folder in (machine / "etc", machine / "var/lib", shims):
        folder.mkdir(parents=True)
    for name in ("passwd", "group", "shadow"):
        (machine / "etc" / name).touch()
    for name, text in (("getent", "exit 2"), ("useradd", f'exec /usr/sbin/useradd --prefix {machine} "$@"')):
        (shims / name).write_text(f"#!/bin/sh\n{text}\n")
        (shims / name).chmod(0o755)
    ran = at.run("env", f"PATH={shims}:{at.env['PATH']}", "make", "-C", at.tree, "users")
    found = {str(it.relative_to(machine / "var/lib")) for it in (machine / "var/lib").glob("**/*")}
    is_made = ran.status == 0 and found == {"regtuma", "regtuma-etcd", "regtuma-proxy"}
    at.case("make users", is_made, Ran(ran.status, ran.out, f"{ran.err}{sorted(found)}"))


def try_dist(at: Installing) -> None:
    """Only a proved program is packed, and what is packed is whole."""
    ran = at.run(at.tree / "ledger", "dist")
    packed = sorted((at.tree / "out").glob("*")) if (at.tree / "out").exists() else []
    if ran.status:
        at.case("no unproved program is packed", fails_in_words(ran) and "./ledger prove" in ran.err and not packed, ran)
        return
    at.case("the proved program is packed", (ROOT / PROVED).exists() and len(packed) == 2, ran)
    ran = run(["sha256sum", "--check", "SHA256SUMS"], at.tree / "out", SECONDS)
    at.case("SHA256SUMS of the tarball", ran.status == 0, ran)
    opened = at.root.parent / "opened"
    opened.mkdir()
    subprocess.run(["tar", "-C", opened, "--strip-components=1", "-xzf", next(it for it in packed if it.suffix == ".gz")], check=True)
    ran = run(["sha256sum", "--quiet", "--check", "SHA256SUMS"], opened / "usr/local/lib/regtuma", SECONDS)
    at.case("SHA256SUMS of its files", ran.status == 0, ran)
    ran = at.run(opened / "usr/local/bin/ledger", "version")
    at.case("the program of the tarball", ran.status == 0 and not ran.err, ran)


def sign_anew(certificate: pathlib.Path, old: bytes, new: bytes) -> None:
    """Gives an authority's certificate other fields, as long as the old ones, by its own signature."""
    text = ssl.PEM_cert_to_DER_cert(certificate.read_text())
    # Each of the two sequences has its tag and a length in two bytes before it.
    end = 8 + int.from_bytes(text[6:8], "big")
    fields, count = re.subn(old, new, text[4:end])
    assert count == 1
    signing = ["openssl", "dgst", "-sha256", "-sign", str(certificate.with_suffix(".key"))]
    signature = subprocess.run(signing, input=fields, stdout=subprocess.PIPE, check=True).stdout
    body = fields + text[end:end + 2 + text[end + 1]] + bytes([3, len(signature) + 1, 0]) + signature
    certificate.write_text(ssl.DER_cert_to_PEM_cert(b"\x30\x82" + len(body).to_bytes(2, "big") + body))


def try_certs(at: Installing) -> None:
    """Each certificate is of its organisation's authority, its key its owner's alone; what is no name is refused."""
    certs = at.tree / "node" / "certs.sh"
    for words in (["ca", "maker", "Maker"], ["node", "maker", "Maker", "10.0.0.1", "node.maker.example", "::1"],
                  ["member", "maker", "Maker", "10.0.0.1"], ["client", "maker", "Maker", "alice"], ["ca", "shop", "Shop"],
                  ["trust", "maker", "shop"], ["node", "maker", "Maker", "10.0.0.9"]):
        ran = at.run(certs, *words)
        at.case(f"regtuma-certs {' '.join(words)}", ran.status == 0 and not ran.out + ran.err, ran)
    trusted = {made: "".join((at.certs / f"{it}.pem").read_text() for it in parts)
               for made, parts in [("proxy.ca", ("maker/ca", "shop/ca")), ("etcd/members", ("maker/member.ca", "shop/member.ca")),
                                   ("etcd/callers", ("maker/etcd.ca", "shop/etcd.ca")), ("etcd/own", ("maker/member.ca", "maker/etcd.ca"))]}
    at.report.case("whom a machine trusts", {it: (at.certs / "maker" / f"{it}.pem").read_text() for it in trusted} == trusted)
    for key in sorted(at.certs.glob("*/*.key")):
        at.report.case(f"{key.name} is its owner's", stat.S_IMODE(key.stat().st_mode) == 0o600)
    both = ["TLS Web Server Authentication", "TLS Web Client Authentication"]
    for name, authority, wanted, uses in [("node", "ca", "O = Maker, CN = node", both), ("alice", "ca", "O = Maker, CN = alice", both[1:]),
                                          ("etcd", "etcd.ca", "O = Maker, OU = etcd", both[1:]),
                                          ("member", "member.ca", "O = Maker, OU = etcd member", both)]:
        ran = at.run(certs, "show", f"maker/{name}.pem")
        at.case(f"who {name} is", f"subject={wanted}" in ran.out.splitlines(), ran)
        ran = at.run("openssl", "verify", "-CAfile", f"maker/{authority}.pem", f"maker/{name}.pem")
        at.case(f"{name} is of its authority", ran.status == 0, ran)
        ran = at.run("openssl", "x509", "-in", f"maker/{name}.pem", "-noout", "-ext", "extendedKeyUsage")
        at.case(f"what {name} is for", ran.out.splitlines()[-1].strip() == ", ".join(uses), ran)
    for name in ("ca", "etcd.ca", "member.ca"):
        ran = at.run("openssl", "x509", "-in", f"maker/{name}.pem", "-noout", "-ext", "basicConstraints")
        at.case(f"{name}: an authority makes no other", "pathlen:0" in ran.out, ran)
    # Authorities of clients in the place of those of etcd; one organisation twice; another one's behind its own; and two of two.
    for folder in ("mixed", "twice", "more", "false"):
        shutil.copytree(at.certs / "shop", at.certs / folder)
    shop, maker = ((at.certs / it / "ca.pem").read_text() for it in ("shop", "maker"))
    for name in ("member", "etcd"):
        (at.certs / "mixed" / f"{name}.ca.pem").write_text(shop)
    for name in ("ca", "member.ca", "etcd.ca"):
        shutil.copy(at.certs / "maker" / f"{name}.pem", at.certs / "twice")
    (at.certs / "more" / "ca.pem").write_text(shop + maker.replace("CERTIFICATE", "TRUSTED CERTIFICATE"))
    (at.certs / "false" / "ca.pem").write_text(maker)
    # A name of which another program may read another part, and a length of a path that only looks like none.
    for folder, subject, length in (("named", "/CN=x+O=Maker/O=Shop/OU=etcd", "0"), ("deep", "/O=Shop/OU=etcd/CN=Shop authority of those who ask etcd", str(1 << 130))):
        shutil.copytree(at.certs / "shop", at.certs / folder)
        at.run("openssl", "req", "-x509", "-newkey", "ec", "-pkeyopt", "ec_paramgen_curve:P-256", "-nodes", "-multivalue-rdn", "-keyout", f"{folder}/etcd.ca.key",
               "-out", f"{folder}/etcd.ca.pem", "-subj", subject, "-addext", f"basicConstraints=critical,CA:true,pathlen:{length}",
               "-addext", "keyUsage=critical,keyCertSign,cRLSign")
    # A thirteenth month, and another version, which only etcd refuses to read.
    for folder, old, new in (("dated", rb"(\x17\x0d\d{12}Z\x17\x0d\d\d)..", rb"\g<1>13"), ("numbered", b"\xa0\x03\x02\x01\x02", b"\xa0\x03\x02\x01\x4d")):
        shutil.copytree(at.certs / "shop", at.certs / folder)
        sign_anew(at.certs / folder / "etcd.ca.pem", old, new)
    # An organisation's seed, which `ledger keygen` makes beside.
    (at.certs / "maker" / "seed.key").write_text("seed")
    kept = (at.certs / "maker" / "ca.key").read_bytes()
    for words in (["ca", "maker", "Maker"], ["node", "none", "Maker", "10.0.0.1"], ["node", "maker", "Maker", "a,b"],
                  ["node", "maker", "Maker/CN=x", "10.0.0.1"], ["client", "maker", "Maker", "../alice"], ["client", "maker", "Maker", "ca"],
                  ["client", "maker", "Maker", "member"], ["client", "maker", "Maker", "shop.ca"], ["client", "maker", "Maker", "root"],
                  ["client", "maker", "Maker", "proxy"], ["client", "maker", "Maker", "seed"], ["ca", "other", "A-1"],
                  ["ca", "other", "Root"], ["trust", "none", "maker"], ["trust", "maker", "mixed"], ["trust", "maker", "twice"],
                  ["trust", "maker", "more"], ["trust", "maker", "false"], ["trust", "maker", "named"], ["trust", "maker", "deep"],
                  ["trust", "maker", "dated"], ["trust", "maker", "numbered"]):
        ran = at.run(certs, *words)
        at.case(f"refused: {' '.join(words)}", fails_in_words(ran) and ran.err.count("\n") == 1, ran)
    (at.certs / "shop" / "member.ca.key").unlink()
    ran = at.run(certs, "ca", "shop", "Shop")
    at.case("an authority that is missing is made", ran.status == 0 and (at.certs / "shop" / "member.ca.key").exists(), ran)
    at.report.case("an authority is not written over", (at.certs / "maker" / "ca.key").read_bytes() == kept)
    usages: list[list[str]] = [[], ["node", "maker"], ["nothing"]]
    for words in usages:
        ran = at.run(certs, *words)
        at.case(f"usage: regtuma-certs {' '.join(words)}", ran.status == 2 and "regtuma-certs ca DIR ORG" in ran.err, ran)


