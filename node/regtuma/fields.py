"""What the tables of node.toml may hold."""
import dataclasses
import datetime
import ipaddress
import re
from collections.abc import Callable
from urllib.parse import urlsplit

from .table import NAMES
from .ticks import LAST_BLOCK

RIGHTS = ("read", "observe", "evaluate", "submit", "endorse", "agree")
ORGANISATION = NAMES["organisation"]
CALLER = re.compile(r"[A-Za-z0-9_*]{1,32}/[A-Za-z0-9_.*@-]{1,64}")
# What somebody says of a block, that it has another one; or all that an organisation says so.
FORK = re.compile(r"[A-Za-z0-9_]{1,32}( [1-9][0-9]{0,9})?")
# By which a caller says who it is where there are no certificates.
CALLER_HEADER = "Regtuma-Caller"
# By which the proxy hands on a caller's certificate, as haproxy.cfg has it: DER in base64.
CERTIFICATE_HEADER = "Regtuma-Certificate"


@dataclasses.dataclass(frozen=True)
class Field:
    """A name of a table: what passes for its value, in words too, and whether it has to be there."""
    passes: Callable[[object], bool]
    words: str
    needed: bool = False


def text(value: object) -> bool:
    return isinstance(value, str) and value != ""


def number(least: float, most: float, whole: bool = True) -> Field:
    kinds = (int,) if whole else (int, float)
    words = f"{'a whole number' if whole else 'a number'} from {least} to {most}"
    return Field(lambda it: isinstance(it, (int, float)) and type(it) in kinds and least <= it <= most, words)


def place(value: object) -> bool:
    host, _, port = value.rpartition(":") if isinstance(value, str) else ("", "", "")
    return host != "" and port.isascii() and port.isdigit() and 0 < int(port) < 65536


def is_loopback(host: str) -> bool:
    """Whether a host, as a URL spells it, is this machine itself. Other names than its own may lead here too."""
    try:
        return host == "localhost" or ipaddress.ip_address(host.strip("[]")).is_loopback
    except ValueError:
        return False


def url(value: object, scheme: str = "https") -> bool:
    try:
        at = urlsplit(value) if isinstance(value, str) else None
        return at is not None and at.scheme == scheme and bool(at.hostname) and at.port is not None and at.path in ("", "/")
    except ValueError:
        return False


def local_url(value: object) -> bool:
    """Whether this is the URL of a node that answers this machine alone."""
    return isinstance(value, str) and url(value, "http") and is_loopback(urlsplit(value).hostname or "")


def listed(passes: Callable[[object], bool]) -> Callable[[object], bool]:
    return lambda value: isinstance(value, list) and all(passes(it) for it in value)


def date(value: object) -> bool:
    return isinstance(value, datetime.date) and not isinstance(value, datetime.datetime)


SOCKET = 'the name of a socket, as "/run/regtuma/node.sock"'
NEEDED_FILE, FILE = Field(text, "the name of a file", True), Field(text, "the name of a file")
URL = Field(url, 'a URL with a port, as "https://10.0.0.2:7051"')
LOCAL_URL = Field(local_url, 'a URL on the loopback with a port, as "http://127.0.0.1:7052", where [log] is')
CALLERS = Field(listed(lambda it: isinstance(it, str) and CALLER.fullmatch(it) is not None),
                'a list of names of certificates, as ["Maker/alice", "Maker/*"]')
TABLES: dict[str, dict[str, Field]] = {
    "": {"organisation": Field(lambda it: isinstance(it, str) and ORGANISATION.fullmatch(it) is not None,
                               "a name of 1 to 32 letters, digits and _", True),
         "listen": Field(text, f"{SOCKET}, or where [log] is an address and a port", True), "page": Field(text, SOCKET)},
    "ledger": {"program": NEEDED_FILE, "genesis": NEEDED_FILE, "store": NEEDED_FILE, "keys": FILE, "modules": FILE,
               "template": FILE, "seen": number(1, LAST_BLOCK),
               "approver": Field(listed(text), "a command, as a list of words"),
               "past_forks": Field(listed(lambda it: isinstance(it, str) and FORK.fullmatch(it) is not None),
                                   'a list of what was looked into, each an organisation and a block, or an organisation, as ["Shop 64", "Depot"]')},
    # In the place of [tls], [authorities], [etcd] and [rights], for nodes of one person on one machine.
    "log": {"file": NEEDED_FILE},
    "tls": {"certificate": NEEDED_FILE, "key": NEEDED_FILE},
    "etcd": {"endpoints": Field(lambda it: listed(url)(it) and it != [], "a list of URLs with ports, one at least", True),
             "user": Field(text, "the name of a user of etcd"), "password_file": FILE,
             "authorities": NEEDED_FILE, "certificate": NEEDED_FILE, "key": NEEDED_FILE},
    "ticks": {"wait": number(0.01, 3600, whole=False), "longest": number(0.01, 86400, whole=False),
              "begins": Field(date, "a date, as 2026-12-01"), "lasts_days": number(1, 36500), "burst": number(0, LAST_BLOCK)},
    "rights": {it: CALLERS for it in RIGHTS},
}
# Tables whose names are those of organisations.
OF_ORGANISATIONS = {"nodes": URL, "authorities": NEEDED_FILE}
