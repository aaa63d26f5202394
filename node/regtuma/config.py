"""The file node.toml. A mistake in it is told in one sentence: the place, the name, and what is possible."""
import dataclasses
import datetime
import pathlib
import re
import ssl
import stat
import tomllib
from collections.abc import Iterable
from typing import Any

from .entries import Lines, Log, LogError
from .etcd import EtcdLog
from .fields import LOCAL_URL, OF_ORGANISATIONS, ORGANISATION, SOCKET, TABLES, Field, is_loopback, place
from .filed import FileLog
from .guard import Context, Guarded
from .ticks import LAST_BLOCKS, Ticks

# Files that need not be there.
MADE = (("ledger", "store"), ("log", "file"))
# The longest name that Linux has for a socket.
LONGEST_SOCKET = 107
# What there is none of where [log] is.
OF_CERTIFICATES = ("tls", "authorities", "etcd", "rights")
BEGIN, CERTIFICATE = "-----BEGIN", re.compile("-----BEGIN CERTIFICATE-----.+?-----END CERTIFICATE-----", re.DOTALL)
# A seed, or a password as OPERATIONS.md makes it; and what a genesis file with a shared key has.
SECRET, SHARED_KEY = re.compile("[0-9A-Fa-f]{32,}"), re.compile(rb'"key"\s*:')
# The name in the certificates of nodes.
NODE = "node"
# A table of the file, each of whose values is what fields.py says of its name.
Table = dict[str, Any]


class Mistake(Exception):
    """What is wrong with the configuration, in one sentence. What may be a secret is not told."""

    def __init__(self, why: str):
        super().__init__(SECRET.sub("..", why))


@dataclasses.dataclass
class Ledger:
    program: str
    genesis: str
    store: str
    # The file with the organisation's seeds, where it has a public key, and that of modules for open definitions.
    keys: str = ""
    modules: str = ""
    # A command that says of each proposal, its own clients' too, whether this organisation endorses it (endorsing.py).
    approver: list[str] = dataclasses.field(default_factory=list)
    # The template of the live page, examples/page/template.html of the repository.
    template: str = ""
    # Once in so many blocks nodes tell each other a hash; and which words of others that a block is another one were looked into,
    # or whose all.
    seen: int = 64
    past_forks: list[str] = dataclasses.field(default_factory=list)


@dataclasses.dataclass
class Files:
    certificate: str
    key: str


@dataclasses.dataclass
class Etcd(Files):
    # Asked in turn, the first as long as it answers: the organisation's own, past its door; and by which authorities their
    # certificates are signed.
    endpoints: list[str]
    authorities: str
    user: str = ""
    password_file: str = ""


@dataclasses.dataclass
class Config:
    file: str
    organisation: str
    # Where the proxy hands on what clients and other nodes ask, and what the page's readers do: names of sockets. On one machine
    # where callers come: host:port.
    listen: str
    page: str
    ledger: Ledger
    # The file that is the log; no name where etcd keeps it. Where it is a file, all nodes and callers are one person's, on this
    # machine, and there are no certificates and no rights.
    log_file: str
    tls: Files
    etcd: Etcd
    # Each organisation's authority: what its certificates are signed by.
    authorities: dict[str, str]
    # Where the other organisations' nodes are.
    nodes: dict[str, str]
    # Who may do what, by the names of their certificates: "Maker/alice", "Maker/*".
    rights: dict[str, list[str]]
    ticks: Ticks

    @property
    def is_local(self) -> bool:
        """Whether this is a node of one person's network on one machine."""
        return self.log_file != ""

    @property
    def organisations(self) -> list[str]:
        return [self.organisation, *self.nodes] if self.is_local else list(self.authorities)

    def peer_command(self) -> list[str]:
        """The command of the organisation's peer, over the node's store."""
        ledger = self.ledger
        options = [word for it in ("keys", "modules") if (file := getattr(ledger, it)) for word in (f"--{it}", file)]
        return [ledger.program, "peer", ledger.genesis, ledger.store, "--org", self.organisation, *options]

    def log(self) -> Log:
        if self.is_local:
            return FileLog(self.log_file)
        return EtcdLog(self.etcd.endpoints, self.etcd.user, self.password(), self.etcd_tls())

    def check_files(self) -> None:
        """Reads certificates, keys and the password, so that a bad one is told before anything is begun."""
        for it in self.nodes:
            self.node_tls(it)
        if not self.is_local:
            self.etcd_tls()
            self.password()
            self.check_sockets()

    def check_sockets(self) -> None:
        """Who reaches a socket is taken for the proxy: no others may enter its folder."""
        for socket in filter(None, (self.listen, self.page)):
            folder = pathlib.Path(socket).parent
            if not folder.is_dir():
                raise Mistake(f"{self.file} names {socket}, and there is no such folder")
            if stat.S_IMODE(folder.stat().st_mode) & 0o007:
                raise Mistake(f"{self.file} names {socket}, whose folder everybody may enter: chmod o= {folder}")

    def password(self) -> str:
        return pathlib.Path(self.etcd.password_file).read_text(encoding="utf-8").strip() if self.etcd.password_file else ""

    def authority_certificates(self) -> dict[str, set[bytes]]:
        """The certificates of each organisation's authority."""
        tls = {it: self._trusting([file]) for it, file in self.authorities.items()}
        return {it: set(tls[it].get_ca_certs(binary_form=True)) for it in tls}

    def etcd_tls(self) -> Context:
        """For etcd: the password is told to its members alone, never to who has a certificate of clients and nodes."""
        tls = self._trusting([self.etcd.authorities])
        tls.load_cert_chain(self.etcd.certificate, self.etcd.key)
        return tls

    def node_tls(self, organisation: str) -> Context | None:
        """For the node of an organisation, which no other one's authority can speak for, and no other certificate of its own. None on
        one machine."""
        if self.is_local:
            return None
        tls = self._trusting([self.authorities[organisation]])
        tls.sslobject_class = OfNode
        tls.load_cert_chain(self.tls.certificate, self.tls.key)
        return tls

    def _trusting(self, files: Iterable[str]) -> Context:
        """By TLS 1.3 and one curve: a server could choose a group by which a handshake takes the loop a second."""
        tls = Context(ssl.PROTOCOL_TLS_CLIENT)
        tls.load_verify_locations(cadata="\n".join(pathlib.Path(it).read_text(encoding="ascii") for it in files))
        tls.minimum_version = ssl.TLSVersion.TLSv1_3
        tls.set_ecdh_curve("prime256v1")
        return tls


class OfNode(Guarded):
    """A connection to who has to be a node by its certificate."""

    def do_handshake(self) -> None:
        super().do_handshake()
        certificate: Table = self.getpeercert() or {}
        subject = dict(pair for part in certificate.get("subject", ()) for pair in part)
        if (name := subject.get("commonName")) != NODE:
            raise ssl.SSLCertVerificationError(f"its certificate is of {name!r}, and no node's")


class Reader:
    """Reads one file."""

    def __init__(self, file: str):
        self.path = pathlib.Path(file).resolve()
        try:
            self.text = self.path.read_text(encoding="utf-8")
            self.given = tomllib.loads(self.text)
        except OSError as error:
            raise Mistake(f"{file} cannot be read: {error.strerror}") from None
        except UnicodeDecodeError:
            raise Mistake(f"{file} is no UTF-8") from None
        except tomllib.TOMLDecodeError as error:
            raise Mistake(f"{file} is no TOML: {error}") from None

    def mistake(self, table: str, name: str, why: str) -> Mistake:
        """A mistake, with the line of a name of a table, or of the table, where the file has it."""
        inside, found = "", 0
        for line, said in enumerate(self.text.splitlines(), 1):
            if header := re.match(r"\s*\[\s*(.*?)\s*\]", said):
                inside = header[1]
                found = line if inside == table and not found else found
            elif inside == table and re.match(rf'\s*"?{re.escape(name)}"?\s*=', said):
                found = line
                break
        where = f", line {found}" if found else ""
        what = " ".join(it for it in (f"[{table}]" if table else "", name, why) if it)
        return Mistake(f"{self.path}{where}: {what}")

    def table(self, name: str) -> Table:
        """A table of the file, each of whose values passes; by no name what stands in none."""
        tables = {*TABLES, *OF_ORGANISATIONS}
        value = self.given.get(name, {}) if name else {it: self.given[it] for it in self.given if it not in tables}
        if not isinstance(value, dict):
            raise self.mistake("", name, "has to be a table")
        for key, held in value.items():
            field = self.field(name, key)
            if not field.passes(held):
                raise self.mistake(name, key, f"has to be {field.words}, and is {held!r:.100}")
        for key, field in TABLES.get(name, {}).items():
            if field.needed and key not in value:
                raise self.mistake(name, key, f"is missing: it has to be {field.words}")
        return value

    def field(self, table: str, name: str) -> Field:
        """What a name of a table may hold."""
        if table in OF_ORGANISATIONS:
            if not ORGANISATION.fullmatch(name):
                raise self.mistake(table, name, "is no name of an organisation")
            return LOCAL_URL if table == "nodes" and "log" in self.given else OF_ORGANISATIONS[table]
        if name not in TABLES[table]:
            tables = "" if table else f", or a table of {', '.join([*filter(None, TABLES), *OF_ORGANISATIONS])}"
            raise self.mistake(table, name, f"is no name that is known here: possible are {', '.join(TABLES[table])}{tables}")
        return TABLES[table][name]

    def near(self, table: str, values: Table, *names: str) -> Table:
        """The values with names of files from where the configuration stands. Each has to be a file, but what is made."""
        found = dict(values)
        for name in names:
            if name in values:
                path = self.path.parent / values[name]
                found[name] = str(path)
                is_made = (table, name) in MADE
                if is_made and not path.parent.is_dir():
                    raise self.mistake(table, name, f"names {path}, and there is no such folder")
                if not is_made and not path.is_file():
                    raise self.mistake(table, name, f"names {path}, and there is no such file")
        return found

    def secret(self, table: str, values: Table, *names: str) -> None:
        """Files with secrets are read by their owner alone."""
        for name in names:
            if name in values and stat.S_IMODE(pathlib.Path(values[name]).stat().st_mode) & 0o077:
                file = values[name]
                raise self.mistake(table, name, f"names {file}, which others than its owner may read: chmod 600 {file}")

    def sockets(self, top: Table) -> Table:
        """The values with names of sockets from where the configuration stands. Their folder is there while the node runs."""
        found = dict(top)
        for name in (it for it in ("listen", "page") if it in top):
            if place(top[name]):
                raise self.mistake("", name, f"has to be {SOCKET}: the proxy listens at addresses (proxy.env)")
            found[name] = str(self.path.parent / top[name])
            if len(found[name].encode()) > LONGEST_SOCKET:
                raise self.mistake("", name, f"names {found[name]}, of more than {LONGEST_SOCKET} bytes")
        return found

    def check_genesis(self, ledger: Table) -> None:
        """One with a shared key is a file with secrets."""
        file = ledger["genesis"]
        try:
            is_secret = SHARED_KEY.search(pathlib.Path(file).read_bytes())
        except OSError as error:
            raise self.mistake("ledger", "genesis", f"names {file}, which cannot be read: {error.strerror}") from None
        if is_secret:
            self.secret("ledger", ledger, "genesis")


def read(file: str) -> Config:
    """The configuration of a file. Names of files in it are taken from where it stands."""
    reader = Reader(file)
    top = reader.table("")
    ledger = reader.near("ledger", reader.table("ledger"), "program", "genesis", "store", "keys", "modules", "template")
    if "log" in reader.given:
        return read_local(reader, top, ledger)
    tls = reader.near("tls", reader.table("tls"), "certificate", "key")
    etcd = reader.near("etcd", reader.table("etcd"), "certificate", "key", "password_file", "authorities")
    for table, values in (("ledger", ledger), ("tls", tls), ("etcd", etcd)):
        reader.secret(table, values, *(["keys"] if table == "ledger" else ["key", "password_file"]))
    reader.check_genesis(ledger)
    top = reader.sockets(top)
    if ("user" in etcd) != ("password_file" in etcd):
        raise reader.mistake("etcd", "user", "and password_file go together: name both, or none")
    given = reader.table("authorities")
    authorities = reader.near("authorities", given, *given)
    nodes, organisation = reader.table("nodes"), top["organisation"]
    check_organisations(reader, organisation, authorities, nodes)
    check_etcd(reader, etcd["authorities"], authorities)
    urls = {it: nodes[it].rstrip("/") for it in nodes}
    return Config(file=file, organisation=organisation, listen=top["listen"], page=top.get("page", ""), ledger=Ledger(**ledger),
                  log_file="", tls=Files(**tls), etcd=Etcd(**etcd), authorities=authorities, nodes=urls, rights=reader.table("rights"),
                  ticks=ticks_of(reader, ledger["genesis"]))


def read_local(reader: Reader, top: Table, ledger: Table) -> Config:
    """The same of a node of one person's network on one machine."""
    for table in OF_CERTIFICATES:
        if table in reader.given:
            raise reader.mistake(table, "", "is not for a node on one machine, as this is by [log]: take one of the two away")
    if not is_loopback(top["listen"].rpartition(":")[0]):
        raise reader.mistake("", "listen", "has to be a place on the loopback where [log] is, as there are no certificates")
    if "page" in top:
        raise reader.mistake("", "page", "is not for a node on one machine: what listens there serves the page")
    reader.secret("ledger", ledger, "keys")
    reader.check_genesis(ledger)
    nodes = reader.table("nodes")
    check_others(reader, top["organisation"], nodes)
    return Config(file=str(reader.path), organisation=top["organisation"], listen=top["listen"], page="", ledger=Ledger(**ledger),
                  log_file=reader.near("log", reader.table("log"), "file")["file"], tls=Files("", ""), etcd=Etcd("", "", [], ""),
                  authorities={}, nodes={it: nodes[it].rstrip("/") for it in nodes}, rights={},
                  ticks=ticks_of(reader, ledger["genesis"]))


def check_organisations(reader: Reader, own: str, authorities: dict[str, str], nodes: dict[str, str]) -> None:
    """Whether each organisation has an authority of its own name."""
    check_others(reader, own, nodes)
    for organisation in [own, *nodes]:
        if organisation not in authorities:
            raise reader.mistake("authorities", organisation, "is missing: name the file with its authority's certificate")
    for organisation, file in authorities.items():
        for name in owners(reader, "authorities", organisation, file):
            if name != organisation:
                raise reader.mistake("authorities", organisation, f"names {file}, with an authority of {name!r:.100}")


def check_others(reader: Reader, own: str, nodes: dict[str, str]) -> None:
    if own in nodes:
        raise reader.mistake("nodes", own, "is this organisation itself: name the others' nodes alone")


def check_etcd(reader: Reader, file: str, authorities: dict[str, str]) -> None:
    """Whether etcd has authorities of its own."""
    owners(reader, "etcd", "authorities", file)
    members = certificates_in(file)
    for organisation, other in authorities.items():
        if members & certificates_in(other):
            raise reader.mistake("etcd", "authorities", f"names {file}, with {organisation}'s authority of clients and nodes")


def certificates_in(file: str) -> set[str]:
    return set(CERTIFICATE.findall(pathlib.Path(file).read_text(encoding="ascii")))


def has_more(file: str) -> bool:
    """Whether a file has what is passed over here, and the proxy may take for an authority, as a `TRUSTED CERTIFICATE`."""
    text = pathlib.Path(file).read_text(encoding="ascii")
    return text.count(BEGIN) != len(CERTIFICATE.findall(text))


def owners(reader: Reader, table: str, name: str, file: str) -> list[str | None]:
    """The organisations whose authorities a file has."""
    try:
        found = owners_of(file)
    except (OSError, ValueError):
        found = []
    if not found or len(found) != len(certificates_in(file)) or has_more(file):
        raise reader.mistake(table, name, f"names {file}, which has to hold certificates of authorities alone")
    return found


def owners_of(file: str) -> list[str | None]:
    """The organisation of each authority in a file; none where its name has several, of which the proxy would take another one."""
    tls = ssl.SSLContext(ssl.PROTOCOL_TLS_CLIENT)
    tls.load_verify_locations(cadata=pathlib.Path(file).read_text(encoding="ascii"))
    found: list[Table] = tls.get_ca_certs()
    named = [[value for part in it["subject"] for kind, value in part if kind == "organizationName"] for it in found]
    return [it[0] if len(it) == 1 else None for it in named]


def last_block_of(genesis: str) -> int:
    """The last block of the ledger. Of a file that is no genesis file the node says so where it begins."""
    try:
        return Lines.by(genesis).shares.last
    except LogError:
        return LAST_BLOCKS[1]


def ticks_of(reader: Reader, genesis: str) -> Ticks:
    given = dict(reader.table("ticks"))
    if ("begins" in given) != ("lasts_days" in given):
        raise reader.mistake("ticks", "begins", "and lasts_days go together: name both, or none")
    if begins := given.get("begins"):
        given["begins"] = datetime.datetime.combine(begins, datetime.time(), datetime.timezone.utc).timestamp()
    ticks = Ticks(**given, last=last_block_of(genesis))
    if ticks.longest < ticks.wait:
        raise reader.mistake("ticks", "longest", f"is {ticks.longest:g}, and below wait, which is {ticks.wait:g}")
    if ticks.begins and ticks.burst >= ticks.share:
        raise reader.mistake("ticks", "burst", f"is {ticks.burst:,}, and has to be below an organisation's share, {ticks.share:,} blocks")
    return ticks
