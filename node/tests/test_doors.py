"""The doors of a node: what strangers, callers and partners send through the proxy costs others little.

Each trial is against one node behind one proxy, with a chain of 200 blocks of 300 KB that no ledger made.
"""
import asyncio
import base64
import contextlib
import functools
import http.client
import itertools
import json
import logging
import os
import pathlib
import re
import resource
import shutil
import socket
import ssl
import subprocess
import sys
import tempfile
import threading
import time
import unittest
from unittest import mock

import support
from regtuma import api, config, node
from regtuma.chain import Awaited, Chain
from regtuma.endorsing import Endorsing
from regtuma.gateway import Gateway
from test_access import AUTHORITY, Certificates
from test_api import Query
from test_chain import FakeLog, Times

CONFIGURATION = support.ROOT / "node/haproxy.cfg"
# Behind it all, a node takes no more than this, in MiB.
MOST_MEMORY = 200
# How long something may take to come about, and within which time others are to be answered, in seconds.
PATIENCE, SOON, FILES = 60.0, 10.0, 512
BLOCKS, LONG = 200, "x" * 300_000
RIGHTS = "\n".join(f'{it} = ["Maker/*", "Carrier/*"]' for it in ("read", "observe", "evaluate", "submit", "endorse"))
MALFORMED = (b"GARBAGE\r\n\r\n", b"GET /state/\xff HTTP/1.1\r\nHost: x\r\n\r\n", b"GET /" + b"a" * 20000 + b" HTTP/1.1\r\n\r\n",
             b"GET /height HTTP/1.1\r\nHost: x\r\na b: c\r\n\r\n", b"GET /height\r\n\r\n")
JSON, SOCKET_KEY = "Content-Type: application/json", "Sec-WebSocket-Version: 13\r\nSec-WebSocket-Key: dGhlIHNhbXBsZSBub25jZQ=="
# How the Carrier may spell its own name as a signer: to TLS all are one.
SPELLINGS = {"upper": "CARRIER", "mixed": "cArrieR", "before": " Carrier", "behind": "Carrier  "}
# What TLS answers to what it does not take: a record of an alert, illegal_parameter.
ILLEGAL = bytes.fromhex("1503030002022f")
WAITS = f"/transactions/{'ab' * 32}?wait=600"


class LongBlocks(Query):
    async def ask_for(self, what, **question):
        return ({"result": 12 * LONG}, BLOCKS) if what == "call" else await super().ask_for(what, **question)

    async def text_of(self, what, **question):
        if what == "block":
            return json.dumps({"block": question["number"], "txs": [], "long": f"{LONG}{question['number']}"}), BLOCKS
        if what in ("range", "history"):
            # As long as 1,000 entries of 4,096 bytes.
            return f'["{28 * LONG}"]', BLOCKS
        return await super().text_of(what, **question)


async def serve(folder):
    """A node of which only the doors are real. It has few files, so that connections which come as far as here soon are too many."""
    resource.setrlimit(resource.RLIMIT_NOFILE, (FILES, FILES))
    logging.getLogger("asyncio").setLevel(logging.ERROR)
    settings = config.read(str(folder / "node.toml"))
    settings.ledger.template = str(support.ROOT / "examples/page/template.html")
    it = mock.Mock(config=settings, runners=[])
    chain = Chain(settings, FakeLog(), lambda said: print(said, flush=True))
    chain.times, chain.peer, chain.height, chain.awaited = Times(), LongBlocks(), BLOCKS, Awaited(BLOCKS + 1)
    endorsing = Endorsing(settings, chain)
    with mock.patch.object(config.Config, "node_tls", return_value=None):
        gateway = Gateway(settings, chain, endorsing)
    made = api.Api(settings, chain, endorsing, gateway, {"lines": 2})
    await node.Node.listen(it, made.app(), settings.listen)
    await node.Node.listen(it, made.page_app(), settings.page)
    await made.access.end_gone()


def block(text: bytes) -> bytes:
    """As TLS spells what has a length of two bytes."""
    return len(text).to_bytes(2, "big") + text


def hello(more: dict[int, bytes]) -> bytes:
    """A ClientHello in records, with these extensions beside those that TLS 1.3 wants."""
    parts = {43: b"\2\3\4", 13: block(b"\4\3\x08\4"), 10: block(b"\0\x1d"), **more}
    extensions = b"".join(number.to_bytes(2, "big") + block(it) for number, it in parts.items())
    said = b"\3\3" + bytes(33) + block(b"\x13\1") + b"\1\0" + block(extensions)
    text = b"\1" + len(said).to_bytes(3, "big") + said
    return b"".join(b"\x16\3\1" + block(text[it:it + 16_384]) for it in range(0, len(text), 16_384))


def free_ports():
    with contextlib.ExitStack() as opened:
        found = [opened.enter_context(socket.create_server(("127.0.0.1", 0))) for _ in range(2)]
        return [it.getsockname()[1] for it in found]


@unittest.skipUnless(shutil.which("haproxy", path="/usr/sbin") and shutil.which("clang"), "no haproxy, or no clang")
class Doors(unittest.TestCase):
    room: pathlib.Path
    node: subprocess.Popen
    proxy: subprocess.Popen
    port: int
    page: int

    @classmethod
    def setUpClass(cls):
        folder = support.Folder()
        cls.addClassCleanup(folder.close)
        cls.room = folder.path
        made = Certificates(cls.room)
        for name in ("maker", "carrier"):
            made.make(f"{name}.ca", f"/O={name.capitalize()}/CN=authority", extension=f"{AUTHORITY},pathlen:0")
        made.make("node", "/O=Maker/CN=node", by="maker.ca")
        for name in ("alice", "bob", "eve"):
            made.make(name, f"/O=Maker/CN={name}", by="maker.ca")
        made.make("carrier", "/O=Carrier/CN=node", by="carrier.ca")
        for name in ("dan", "dora"):
            made.make(name, f"/O=Carrier/CN={name}", by="carrier.ca")
        made.make("forged", "/O=Maker/CN=alice", by="carrier.ca")
        for name, spelling in SPELLINGS.items():
            made.respell(name, spelling, by="carrier.ca")
        made.make("stranger", "/O=Maker/CN=alice")
        folder.config(('read = ["Maker/*"]', RIGHTS))
        for name, parts in (("proxy.pem", ("node.pem", "node.key")), ("proxy.ca.pem", ("maker.ca.pem", "carrier.ca.pem"))):
            (cls.room / name).write_text("".join((cls.room / it).read_text() for it in parts))
        cls.port, cls.page = free_ports()
        cls.node = cls.begin([sys.executable, "-B", __file__, cls.room])
        cls.proxy = cls.begin_proxy(CONFIGURATION, cls.port, cls.page)
        cls.come(lambda: cls.get("/height")[0] == 200)

    @classmethod
    def begin_proxy(cls, settings: pathlib.Path, port: int, page: int) -> subprocess.Popen:
        places = {"LISTEN": f"127.0.0.1:{port}", "PAGE": f"127.0.0.1:{page}", "SETTINGS": str(cls.room), "SOCKETS": str(cls.room)}
        return cls.begin([*support.as_unit("regtuma-proxy"), "/usr/sbin/haproxy", "-db", "-f", settings], {**places, "LD_PRELOAD": str(support.preload())})

    @classmethod
    def begin(cls, command: list, env: dict[str, str] | None = None) -> subprocess.Popen:
        with open(cls.room / "said", "ab") as out:
            begun = subprocess.Popen(list(map(str, command)), stdout=out, stderr=out, env={**os.environ, **(env or {})})
        cls.addClassCleanup(begun.wait)
        cls.addClassCleanup(begun.kill)
        return begun

    @classmethod
    def come(cls, is_so) -> None:
        until = time.monotonic() + PATIENCE
        while not (is_there := is_so()) and time.monotonic() < until:
            time.sleep(0.1)
        assert is_there, cls.said()[-2000:]

    @classmethod
    def said(cls) -> str:
        return (cls.room / "said").read_text()

    def setUp(self):
        # The most memory is counted from here on.
        pathlib.Path(f"/proc/{self.node.pid}/clear_refs").write_text("5")
        self.opened = self.enterContext(contextlib.ExitStack())

    def memory(self):
        """The most that the node had in this trial, in MiB."""
        found = re.search(r"VmHWM:\s*(\d+) kB", pathlib.Path(f"/proc/{self.node.pid}/status").read_text())
        return int(found[1]) >> 10

    def files(self) -> int:
        """How many files the node has open."""
        return len(os.listdir(f"/proc/{self.node.pid}/fd"))

    def is_quiet(self) -> bool:
        """Whether no connection of an earlier trial ends."""
        files = self.files()
        time.sleep(0.5)
        return self.files() == files

    @classmethod
    @functools.cache
    def tls(cls, name: str) -> ssl.SSLContext:
        tls = ssl.create_default_context(cafile=str(cls.room / "maker.ca.pem"))
        tls.load_cert_chain(cls.room / f"{name}.pem", cls.room / f"{name}.key")
        return tls

    def connect(self, name: str = "", port: int = 0, source: str = "127.0.0.1") -> socket.socket:
        """A connection to the page, or with a certificate of this name to the API."""
        place = ("127.0.0.1", port or (self.port if name else self.page))
        plain = socket.create_connection(place, PATIENCE, (source, 0))
        return self.opened.enter_context(self.tls(name).wrap_socket(plain, server_hostname="127.0.0.1") if name else plain)

    @classmethod
    def get(cls, path: str, name: str = "", **headers: str) -> tuple[int, str]:
        """What one request is answered, of the page's reader, or by a certificate."""
        with contextlib.suppress(OSError):
            at = (http.client.HTTPSConnection("127.0.0.1", cls.port, timeout=SOON, context=cls.tls(name)) if name else
                  http.client.HTTPConnection("127.0.0.1", cls.page, timeout=SOON))
            with contextlib.closing(at):
                at.request("GET", path, headers={it.replace("_", "-"): value for it, value in headers.items()})
                answer = at.getresponse()
                return answer.status, answer.read().decode()
        return 0, ""

    def counted(self, status: int, route: str) -> float:
        found = re.search(rf'regtuma_requests_total{{route="{route}",status="{status}"}} (\S+)', self.get("/metrics")[1])
        return float(found[1]) if found else 0.0

    def others_are_served(self, *names: str) -> None:
        for path, by in (("/height", ""), ("/metrics", ""), *(("/height", it) for it in names or ("bob", "carrier"))):
            self.assertEqual(self.get(path, by)[0], 200, f"{path} {by} {self.said()[-500:]}")
        self.assertLess(self.memory(), MOST_MEMORY)

    # ------------------------------------------------ who comes in

    def test_a_certificate_speaks_for_its_own_organisation(self):
        self.assertEqual(self.get("/height", "alice"), (200, f'{{"height":{BLOCKS}}}'))
        status, said = self.get("/height", "forged")
        self.assertEqual((status, "no certificate may not read" in said), (403, True))

    def test_nobody_hands_on_another_ones_certificate(self):
        stolen = ssl.PEM_cert_to_DER_cert((self.room / "alice.pem").read_text())
        text = base64.b64encode(stolen).decode()
        self.assertEqual(self.get("/height", "forged", Regtuma_Certificate=text)[0], 403)
        self.assertEqual(self.get("/height", "forged", regtuma_certificate=text)[0], 403)

    def trailers(self, name: str) -> tuple[bytes, bytes]:
        """What a caller without rights sends: a body in chunks, then another one's certificate; and its own next request."""
        own, other = (base64.b64encode(ssl.PEM_cert_to_DER_cert((self.room / f"{it}.pem").read_text())).decode() for it in (name, "alice"))
        begun = self.post(f"2\r\n{{}}\r\n0\r\nRegtuma-Certificate: {other}\r\n\r\n".encode(), f"{JSON}\r\nTransfer-Encoding: chunked")
        return begun, f"GET /height HTTP/1.1\r\nHost: 127.0.0.1\r\nRegtuma-Certificate: {own}\r\n\r\n".encode()

    def test_what_follows_a_body_in_chunks_names_no_caller(self):
        """By the proxy, which takes no such body; also in the next request of its connection."""
        at = self.connect("forged")
        first, second = self.trailers("forged")
        self.assertEqual(self.answered(at, first), (411, '{"why":"a body says its length by Content-Length, and is not in chunks"}'))
        with contextlib.suppress(OSError, http.client.HTTPException):
            self.assertEqual(self.answered(at, second)[0], 403)
        self.assertEqual(self.answered(self.connect(), first)[0], 411)

    def test_the_node_takes_no_body_in_chunks(self):
        """Whatever the proxy hands on: the connection ends, also if more requests have come already."""
        first, second = self.trailers("forged")
        for more in (b"", second):
            with self.subTest(more=more[:20]), socket.socket(socket.AF_UNIX) as at:
                at.settimeout(SOON)
                at.connect(str(self.room / "node.sock"))
                self.assertEqual(self.answered(at, first + more)[0], 411)
                with contextlib.suppress(OSError):
                    at.sendall(second)
                    self.assertEqual(at.recv(100), b"")

    def test_strangers_do_not_come_in(self):
        """With a certificate of an unknown authority, or with none."""
        unnamed = ssl.create_default_context(cafile=str(self.room / "maker.ca.pem"))
        for tls in (self.tls("stranger"), unnamed):
            with self.assertRaises(OSError), tls.wrap_socket(self.connect(port=self.port), server_hostname="127.0.0.1") as at:
                at.sendall(b"GET /height HTTP/1.1\r\nHost: x\r\n\r\n")
                self.assertEqual(at.recv(100), b"")
                raise OSError

    def test_a_stranger_chooses_no_long_handshake(self):
        for group, comes_in in (("X25519", True), ("P-256", True), ("ffdhe2048", False), ("ffdhe8192", False)):
            words = ["openssl", "s_client", "-connect", f"127.0.0.1:{self.port}", "-tls1_3", "-groups", group]
            said = subprocess.run(words, stdin=subprocess.DEVNULL, stdout=subprocess.PIPE, stderr=subprocess.STDOUT, text=True).stdout
            self.assertEqual("New, TLSv1.3" in said, comes_in, f"{group} {said}")

    def chain(self, count: int) -> pathlib.Path:
        """A stranger's certificate with so many slow ones behind it."""
        made = self.room / f"chain{count}.pem"
        made.write_text((self.room / "stranger.pem").read_text() + count * ssl.DER_cert_to_PEM_cert(base64.b64decode(support.SLOW)))
        return made

    def processor(self) -> float:
        """The seconds of processor that the proxy had."""
        fields = pathlib.Path(f"/proc/{self.proxy.pid}/stat").read_text().rpartition(")")[2].split()
        return (int(fields[11]) + int(fields[12])) / os.sysconf("SC_CLK_TCK")

    def test_no_certificate_takes_the_proxy_long(self):
        """OpenSSL reads those of a stranger before it looks whether they count, and haproxy ends where that takes a second."""
        stranger = ssl.create_default_context(cafile=str(self.room / "maker.ca.pem"))
        stranger.load_cert_chain(self.chain(2), self.room / "stranger.key")
        before = self.processor()
        for _ in range(2):
            with self.assertRaises(OSError), stranger.wrap_socket(self.connect(port=self.port), server_hostname="127.0.0.1") as at:
                at.sendall(b"GET /height HTTP/1.1\r\nHost: x\r\n\r\n")
                self.assertEqual(at.recv(100), b"")
                raise OSError
        self.assertLess(self.processor() - before, 0.5)
        self.others_are_served()

    def test_no_certificate_takes_a_node_long(self):
        """That asks another one which sends them: its Python has the same beside OpenSSL."""
        server = ssl.create_default_context(ssl.Purpose.CLIENT_AUTH)
        server.load_cert_chain(self.chain(2), self.room / "stranger.key")
        at = self.opened.enter_context(socket.create_server(("127.0.0.1", 0)))

        def serve() -> None:
            with contextlib.suppress(OSError):
                for _ in range(2):
                    server.wrap_socket(at.accept()[0], server_side=True).close()
        threading.Thread(target=serve, daemon=True).start()
        script = "import socket, ssl, sys, time\ntls = ssl.create_default_context(cafile=sys.argv[1])\nbegan = time.process_time()\n" \
                 "try:\n    tls.wrap_socket(socket.create_connection(('127.0.0.1', int(sys.argv[2]))), server_hostname='127.0.0.1')\n" \
                 "except OSError as error:\n    print(error, time.process_time() - began)"
        words = [sys.executable, "-c", script, str(self.room / "stranger.pem"), str(at.getsockname()[1])]
        said = subprocess.run(words, env={**os.environ, "LD_PRELOAD": str(support.preload())}, stdout=subprocess.PIPE, text=True, check=True).stdout
        self.assertIn("ASN1 lib", said)
        self.assertLess(float(said.split()[-1]), 0.3, said)

    def test_a_stranger_begins_no_long_handshake(self):
        """OpenSSL compares each share of a key with each group that is named, 100 million times in 64 KB, and keeps each name. It asks who
        sends no share of a key for a second ClientHello."""
        groups, share, before = b"\0\x1d" + b"\xfe\0" * 16_200 + b"\x12\x34", block(b"\0\x1d" + block(os.urandom(32))), self.processor()
        long = {"nothing": {}, "groups": {10: block(groups), 51: block(b"\x12\x34\0\1\1" * 6_400)}, "authorities": {47: block(block(b"0\0") * 16_000)},
                "signatures": {13: block(b"\4\3" * 16_000)}, "protocols": {16: block(b"\2h2" * 16_000)},
                "responders": {5: b"\1" + block(b"\0\4\xa1\2\x30\0" * 10_000) + block(b"")}}
        for what, is_second in itertools.product(long, (False, True)):
            with self.subTest(what=what, is_second=is_second), self.connect(port=self.port) as at:
                if is_second:
                    at.sendall(hello({51: block(b"")}))
                    self.assertEqual(at.recv(4096)[:1], b"\x16")
                at.sendall(hello({51: share, **long[what]}))
                self.assertEqual(at.recv(4096) == ILLEGAL, what != "nothing")
        self.assertLess(self.processor() - before, 0.3)

    def test_no_session_is_taken_up_again(self):
        at = self.connect("alice")
        self.answered(at, b"GET /height HTTP/1.1\r\nHost: x\r\n\r\n")
        with self.tls("alice").wrap_socket(self.connect(port=self.port), server_hostname="127.0.0.1", session=at.session) as again:
            self.answered(again, b"GET /height HTTP/1.1\r\nHost: x\r\n\r\n")
            self.assertFalse(again.session_reused)

    def test_the_sockets_are_the_proxys(self):
        self.assertEqual([(self.room / it).stat().st_mode & 0o777 for it in ("node.sock", "page.sock")], [0o660, 0o660])

    def test_one_caller_has_so_many_connections(self):
        held = [self.connect("alice") for _ in range(110)]
        self.come(lambda: self.get("/height", "alice")[0] == 429)
        self.others_are_served()
        for it in held:
            it.close()
        self.come(lambda: self.get("/height", "alice")[0] == 200)

    def test_who_may_not_ask_is_heard_less_often(self):
        """Each request takes the node's loop some time."""
        with contextlib.closing(http.client.HTTPSConnection("127.0.0.1", self.port, timeout=PATIENCE, context=self.tls("forged"))) as at:
            said, until = list[int](), time.monotonic() + PATIENCE
            while 429 not in said and time.monotonic() < until:
                at.request("GET", "/height")
                answer = at.getresponse()
                answer.read()
                said.append(answer.status)
        self.assertEqual((set(said[:90]), said[-1]), ({403}, 429))
        self.others_are_served()

    def test_who_has_no_right_is_told_of_no_path(self):
        self.assertEqual(self.get("/nothing", "alice")[0], 404)
        status, said = self.get("/nothing", "forged")
        self.assertEqual((status, said), (403, '{"why":"no certificate may do nothing here"}'))
        self.assertEqual(self.get("/nothing")[0], 404)

    def asks_often(self, name: str, times: int) -> list[int]:
        """The statuses for what the proxy answers itself, so that a busy machine does as much within ten seconds."""
        at = self.connect(name)
        threading.Thread(target=at.sendall, args=(b"GET http://x/ HTTP/1.1\r\nHost: x\r\n\r\n" * times,), daemon=True).start()
        return [self.answered(at)[0] for _ in range(times)]

    def test_a_caller_asks_so_often(self):
        """And what is denied then counts not against others of its organisation."""
        answers = self.asks_often("eve", 5000)
        self.assertEqual((set(answers[:1000]), answers[-1]), ({400}, 429))
        self.assertEqual(self.get("/height", "eve")[0], 429)
        self.others_are_served()

    def test_what_is_denied_to_an_organisation_counts_for_nothing_against_it(self):
        """At another proxy, where it has 10 requests in a second: who asks for more without end keeps no other one out."""
        text, settings, (port, page) = CONFIGURATION.read_text(), self.room / "proxy.cfg", free_ports()
        for old, new in (("sc1_gpc1_rate ge 4000", "sc1_gpc1_rate ge 10"), ("gpc1,gpc1_rate(10s)", "gpc1,gpc1_rate(1s)")):
            self.assertEqual(text.count(old), 1)
            text = text.replace(old, new)
        settings.write_text(text)
        self.begin_proxy(settings, port, page)
        ended, said = threading.Event(), list[int]()

        def asks(name: str, pause: float) -> None:
            at = self.connect(name, port)
            while not ended.wait(pause):
                said.append(self.answered(at, b"GET /height HTTP/1.1\r\nHost: x\r\n\r\n")[0])
        self.come(lambda: self.is_there(port))
        greedy = threading.Thread(target=asks, args=("dan", 0.01))
        greedy.start()
        self.addCleanup(greedy.join)
        self.addCleanup(ended.set)
        self.come(lambda: 429 in said)
        at, often = self.connect("dora", port), b"GET /height HTTP/1.1\r\nHost: x\r\n\r\n"
        self.come(lambda: self.answered(at, often)[0] == 200)

    def is_there(self, port: int) -> bool:
        with contextlib.suppress(OSError):
            self.connect("alice", port).close()
            return True
        return False

    def test_an_organisations_node_has_a_share_of_its_own(self):
        for name in ("dan", "dora"):
            self.asks_often(name, 2100)
            for _ in range(105):
                self.connect(name, source="127.0.0.7")
        self.come(lambda: self.get("/height", "dora")[0] == 429)
        self.others_are_served()
        self.opened.close()
        self.come(lambda: self.get("/height", "forged")[0] == 403)

    def test_an_address_begins_so_many_connections(self):
        """Each costs the proxy a millisecond, also where nothing more is said."""
        def is_refused() -> bool:
            for _ in range(700):
                with contextlib.suppress(OSError):
                    socket.create_connection(("127.0.0.1", self.port), PATIENCE, ("127.0.0.6", 0)).close()
            try:
                self.connect("alice", source="127.0.0.6")
                return False
            except OSError:
                return True
        self.come(is_refused)
        self.others_are_served()

    def test_an_organisation_has_one_share_however_it_spells_its_name(self):
        for name in ("before", "behind"):
            with self.subTest(name=name):
                self.assertEqual(self.get("/height", name)[0], 0)
        for name in ("carrier", "upper", "mixed"):
            for _ in range(70):
                self.connect(name, source="127.0.0.5")
        self.come(lambda: self.get("/height", "mixed")[0] == 429)
        self.others_are_served("alice")

    def test_where_the_node_ends_a_client_asks_again(self):
        """So it takes 503, and that alone."""
        self.come(self.is_quiet)
        at, files = self.connect("alice"), self.files()
        at.sendall(f"GET {WAITS} HTTP/1.1\r\nHost: 127.0.0.1\r\n\r\n".encode())
        self.come(lambda: self.files() > files)
        self.node.kill()
        self.node.wait()
        self.assertEqual(self.answered(at), (503, '{"why":"the node has ended: ask again"}'))
        self.assertEqual(self.get("/height", "alice")[0], 503)
        type(self).node = self.begin([sys.executable, "-B", __file__, self.room])
        self.come(lambda: self.get("/height")[0] == 200)

    def test_streams_do_not_keep_prometheus_out(self):
        for _ in range(230):
            self.connect().sendall(b"GET /events HTTP/1.1\r\nHost: 127.0.0.1\r\n\r\n")
        for path, says in (("/metrics", "regtuma_height"), ("/healthz", '{"ok":'), ("/metrics", "regtuma_height")):
            self.assertIn(says, self.get(path)[1])
        self.assertLess(self.memory(), MOST_MEMORY)

    def test_so_many_readers_of_the_page_are_answered_at_a_time(self):
        """So that the node's loop has few of them in a turn."""
        self.come(self.is_quiet)
        files = self.files()
        for _ in range(150):
            self.connect().sendall(f"GET {WAITS} HTTP/1.1\r\nHost: 127.0.0.1\r\n\r\n".encode())
        self.come(lambda: self.files() >= files + 45)
        self.come(self.is_quiet)
        self.assertLess(self.files(), files + 65)
        self.assertEqual(self.get("/metrics")[0], 200)

    # ------------------------------------------------ memory

    def flood(self, at: socket.socket, begin: bytes, more: bytes, size: int = 20 << 20) -> None:
        """Sends as much as is taken, at most so many bytes."""
        at.sendall(begin)
        at.settimeout(1.0)
        until, sent = time.monotonic() + PATIENCE, 0
        with contextlib.suppress(OSError):
            while sent < size and time.monotonic() < until:
                sent += at.send(more)

    def test_requests_one_behind_another(self):
        for name in ("alice", ""):
            waits, more = (f"GET {it} HTTP/1.1\r\nHost: 127.0.0.1\r\n\r\n".encode() for it in (WAITS, "/height"))
            self.flood(self.connect(name), waits, more * 1000)
            self.others_are_served()

    def test_another_protocol(self):
        """What comes behind a wish for one is no more than it is without."""
        body = f"POST /transactions HTTP/1.1\r\nHost: 127.0.0.1\r\n{JSON}\r\nContent-Length: {1 << 30}\r\n\r\n".encode()
        for name in ("alice", ""):
            for protocol in ("websocket", "h2c"):
                wish = f"HTTP/1.1\r\nHost: 127.0.0.1\r\nConnection: Upgrade\r\nUpgrade: {protocol}\r\n{SOCKET_KEY}\r\n\r\n".encode()
                stream, asked = self.connect(name), self.connect(name)
                self.flood(stream, b"GET /events " + wish, b"x" * 65536, 300 << 20)
                self.assertEqual(self.answered(asked, b"GET /height " + wish)[0], 200)
                self.flood(asked, body, b"x" * 65536, 300 << 20)
                self.others_are_served()

    def test_who_has_gone_is_forgotten(self):
        counted, files = self.counted(499, "/transactions/{id}"), self.files()
        for _ in range(1000):
            with socket.create_connection(("127.0.0.1", self.page)) as at:
                at.sendall(f"GET {WAITS} HTTP/1.1\r\nHost: 127.0.0.1\r\n\r\n".encode())
        # Some have gone before the proxy had asked the node for them.
        self.come(lambda: self.counted(499, "/transactions/{id}") > counted and self.files() < files + 10)
        self.others_are_served()

    def test_slow_readers(self):
        for path, name in [("/blocks", "alice"), ("/", "alice"), ("/", ""), ("/events?from=1", "alice")]:
            for _ in range(15):
                self.connect(name).sendall(f"GET {path} HTTP/1.1\r\nHost: 127.0.0.1\r\n\r\n".encode())
        for _ in range(3):
            time.sleep(0.3)
            self.others_are_served()

    def test_a_reader_gets_the_blocks_that_one_answer_has(self):
        status, said = self.get("/blocks?from=3", "bob")
        numbers = [json.loads(it)["block"] for it in said.splitlines()]
        self.assertEqual((status, numbers), (200, list(range(3, 3 + api.MOST_ANSWER // len(LONG) + 1))))
        status, said = self.get("/")
        self.assertEqual((status, said.endswith("</html>\n"), len(said) < 2 * api.MOST_ANSWER), (200, True, True))

    def test_large_bodies(self):
        """Of each organisation as many as its share; one that comes too slowly is not waited for."""
        held = [self.connect("alice") for _ in range(20)]
        head = f"POST /transactions HTTP/1.1\r\nHost: x\r\nContent-Type: application/json\r\nContent-Length: {5 << 20}\r\n\r\n".encode()
        for it in held:
            it.settimeout(0.2)
            with contextlib.suppress(OSError):
                it.sendall(head + b" " * (4 << 20))
        self.others_are_served()
        answers = []
        for it in held:
            with contextlib.suppress(OSError):
                answers.append(it.recv(100)[:12])
        self.assertIn(b"HTTP/1.1 429", answers)

    def test_who_does_not_read_a_long_answer(self):
        call = self.post(b'{"chaincode":"assets","arg":""}', JSON)
        held = [self.connect("alice") for _ in range(40)]
        for it in held:
            it.sendall(call)
        # It takes the node a moment to spell all these.
        self.come(lambda: self.counted(429, "/evaluate") > 0 and self.get("/height", "carrier")[0] == 200)
        self.assertLess(self.memory(), MOST_MEMORY)
        for it in held:
            it.close()
        self.come(lambda: self.answered(self.connect("alice"), call)[0] == 200)

    def test_who_does_not_read_many_entries(self):
        for path, route in (("/state?limit=1000", "/state"), ("/history/a", "/history/{key}")):
            for name in ("alice", "bob"):
                for _ in range(20):
                    self.connect(name).sendall(f"GET {path} HTTP/1.1\r\nHost: 127.0.0.1\r\n\r\n".encode())
            self.come(lambda: self.counted(429, route) > 0 and self.get("/height", "carrier")[0] == 200)
            self.others_are_served("carrier")
        self.opened.close()
        self.come(lambda: self.get("/state", "alice")[0] == 200)

    def test_a_body_of_many_values(self):
        said = self.answered(self.connect("alice"), self.post(b'{"calls":[' + b"[]," * 1_700_000 + b"[]]}", JSON))
        self.assertEqual(said, (400, '{"why":"the body has more than 50,000 commas: ask for less at a time"}'))
        self.others_are_served()

    # ------------------------------------------------ time

    def test_silent_connections(self):
        for number in range(400):
            for port in (self.page, self.port):
                self.connect(port=port, source=f"127.0.0.{2 + number % 4}")
        halves = [self.connect("alice", source="127.0.0.9") for _ in range(60)]
        for it in halves:
            it.sendall(b"GET /hei")
        self.others_are_served()
        halves[0].settimeout(PATIENCE)
        self.assertEqual(self.answered(halves[0])[0], 408)

    def test_a_charset_of_the_callers(self):
        """Punycode takes half a minute for a megabyte."""
        body, began = b'"' + b"a" * 1_000_000 + b"-" + b"9" * 100_000 + b'"', time.monotonic()
        status, _ = self.answered(self.connect("alice"), self.post(body, f"{JSON}; charset=punycode"))
        self.others_are_served()
        self.assertEqual((status, time.monotonic() - began < SOON), (400, True))

    # ------------------------------------------------ words

    def answered(self, at: socket.socket, data: bytes = b"") -> tuple[int, str]:
        at.sendall(data)
        answer = http.client.HTTPResponse(at)
        answer.begin()
        return answer.status, answer.read().decode()

    def post(self, body: bytes, headers: str) -> bytes:
        length = "" if "chunked" in headers else f"\r\nContent-Length: {len(body)}"
        return f"POST /evaluate HTTP/1.1\r\nHost: 127.0.0.1\r\n{headers}{length}\r\n\r\n".encode() + body

    def requests(self) -> list[tuple[bytes, int, str]]:
        return [*((it, 400, "") for it in MALFORMED),
                (b"GET /blocks/%FF HTTP/1.1\r\nHost: 127.0.0.1\r\n\r\n", 400, "a block's number"),
                (b"GET /transactions/%FF%FE HTTP/1.1\r\nHost: 127.0.0.1\r\n\r\n", 400, "an id is hex"),
                (b"GET /blocks?from=%FF HTTP/1.1\r\nHost: 127.0.0.1\r\n\r\n", 400, "from is a whole number"),
                (b"GET /state?start=%FF HTTP/1.1\r\nHost: 127.0.0.1\r\n\r\n", 400, "start is no text in UTF-8"),
                (self.post(b"{}", f"{JSON}; charset=nowhere"), 400, "chaincode is a name"),
                (self.post(b'"\xff"', JSON), 400, "the body is no JSON"),
                (self.post(b"\x1f\x8bxx", f"{JSON}\r\nContent-Encoding: gzip"), 400, "a body is not packed"),
                (self.post(b"zz\r\n\r\n", f"{JSON}\r\nTransfer-Encoding: chunked"), 400, ""),
                (self.post(b"2\r\n{}\r\n0\r\n\r\n", f"{JSON}\r\nTransfer-Encoding: chunked"), 411, "Content-Length")]

    def test_what_is_no_request_is_answered_with_the_reason(self):
        """By the proxy or by the node, which tells nothing of it in the journal."""
        for data, status, why in self.requests():
            with self.subTest(data=data[:60]):
                found, said = self.answered(self.connect("alice"), data)
                self.assertEqual((found, why in said), (status, True), said)
        for data, _, _ in self.requests():
            with self.subTest(data=data[:60]), socket.socket(socket.AF_UNIX) as at:
                at.settimeout(SOON)
                at.connect(str(self.room / "node.sock"))
                self.assertLess(self.answered(at, data)[0], 500)
        self.others_are_served()
        self.assertFalse("Traceback" in self.said(), self.said()[-2000:])

    def test_a_request_names_a_path(self):
        """aiohttp takes a host in its place for a URL, and ends without an answer, where it is none."""
        for host in ("[::1", "xn--", "127.0.0.1"):
            for name in ("alice", ""):
                for scheme in ("http", "https"):
                    with self.subTest(host=host, name=name, scheme=scheme):
                        asked = f"GET {scheme}://{host}/height HTTP/1.1\r\nHost: {host}\r\n\r\n".encode()
                        self.assertEqual(self.answered(self.connect(name), asked)[0], 400)
        self.assertFalse("Traceback" in self.said(), self.said()[-2000:])

    def test_a_long_path(self):
        """What its query has takes the node's loop some milliseconds."""
        for name in ("alice", ""):
            self.assertEqual(self.get("/height?" + "a&" * 300, name)[0], 200)
            self.assertEqual(self.get("/height?" + "a&" * 600, name)[0], 400)

    def test_a_body_that_breaks_off(self):
        """By bytes that are none of its form, or by the caller's end: the journal has nothing of it."""
        certificate = base64.b64encode(ssl.PEM_cert_to_DER_cert((self.room / "alice.pem").read_text())).decode()
        begun = self.post(b'2\r\n{"\r\n', f"{JSON}\r\nRegtuma-Certificate: {certificate}\r\nTransfer-Encoding: chunked")
        files = self.files()
        for more in (b"zz\r\n", b""):
            with socket.socket(socket.AF_UNIX) as at:
                at.settimeout(PATIENCE)
                at.connect(str(self.room / "node.sock"))
                at.sendall(begun)
                if more:
                    # Where they come behind the header, aiohttp leaves the handler to its time.
                    self.assertIn(self.answered(at, more)[0], (400, 411))
        self.come(lambda: self.files() <= files)
        self.assertFalse("Traceback" in self.said(), self.said()[-2000:])


if __name__ == "__main__":
    if sys.argv[1:2] and pathlib.Path(sys.argv[1]).is_dir():
        asyncio.run(serve(pathlib.Path(sys.argv[1])))
    else:
        unittest.main()
