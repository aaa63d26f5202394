"""Connections to other nodes and to etcd, whose other end says what nobody asked for: records without data, answers, nothing at all."""
import asyncio
import contextlib
import functools
import json
import os
import pathlib
import ssl
import tempfile
import unittest
from asyncio import sslproto
from unittest import mock

import support
from regtuma import guard, links
from regtuma.config import Config, OfNode
from regtuma.links import Link
from test_access import AUTHORITY, Certificates
from test_chain import CALL, ENDORSED

ANSWER = json.dumps({"answers": [ENDORSED]}).encode()
HEADER = b"HTTP/1.1 200 OK\r\nContent-Type: application/json\r\nContent-Length: %d\r\n\r\n"
# How long something may take to come about, in seconds.
PATIENCE, SOON = 30.0, 8.0


class Guards(unittest.IsolatedAsyncioTestCase):
    room: pathlib.Path

    @classmethod
    def setUpClass(cls):
        room = tempfile.TemporaryDirectory()
        cls.addClassCleanup(room.cleanup)
        cls.room = pathlib.Path(room.name)
        made = Certificates(cls.room)
        made.make("carrier.ca", "/O=Carrier/CN=authority", extension=f"{AUTHORITY},pathlen:0")
        made.make("node", "/O=Carrier/CN=node", by="carrier.ca")

    def setUp(self):
        self.folder = support.Folder()
        self.addCleanup(self.folder.close)
        self.said: list[str] = []

    def server_tls(self, tickets: int = 2) -> ssl.SSLContext:
        """That of a node which sends so many tickets, each of which is a record without data, as a change of keys is."""
        tls = ssl.create_default_context(ssl.Purpose.CLIENT_AUTH)
        tls.load_cert_chain(self.room / "node.pem", self.room / "node.key")
        setattr(tls, "num_tickets", tickets)
        return tls

    def client_tls(self) -> guard.Context:
        tls = Config._trusting(self.folder.config(), [str(self.room / "carrier.ca.pem")])
        tls.sslobject_class = OfNode
        return tls

    async def link(self, answer, tls: ssl.SSLContext | None = None) -> Link:
        """A link to a node that answers each request so."""
        async def serve(reader: asyncio.StreamReader, writer: asyncio.StreamWriter) -> None:
            with contextlib.suppress(OSError, asyncio.IncompleteReadError):
                while True:
                    head = await reader.readuntil(b"\r\n\r\n")
                    await reader.readexactly(int(head.lower().partition(b"content-length: ")[2].partition(b"\r\n")[0]))
                    await answer(writer)
            writer.close()
        server = await asyncio.start_server(serve, "127.0.0.1", 0, ssl=tls)
        self.addCleanup(server.close)
        config = self.folder.config()
        config.nodes["Carrier"] = f"http{'s' if tls else ''}://127.0.0.1:{server.sockets[0].getsockname()[1]}"
        config.node_tls = lambda _: tls and self.client_tls()
        link = Link("Carrier", config, self.said.append)
        self.addAsyncCleanup(link.close)
        return link

    async def rightly(self, writer: asyncio.StreamWriter) -> None:
        writer.write(HEADER % len(ANSWER) + ANSWER)
        await writer.drain()

    async def ask(self, link: Link):
        return await link.ask("Maker/alice", CALL, 4)

    async def come(self, is_so, seconds: float = PATIENCE) -> None:
        async with asyncio.timeout(seconds):
            while not is_so():
                await asyncio.sleep(0.01)

    def pair(self, tickets: int) -> tuple[guard.Guarded, ssl.MemoryBIO, bytes]:
        """A connection behind its handshake, what comes to it, and what its node sends then."""
        incoming, outgoing, to_server, from_server = (ssl.MemoryBIO() for _ in range(4))
        client = self.client_tls().wrap_bio(incoming, outgoing, server_hostname="127.0.0.1")
        assert isinstance(client, guard.Guarded)
        server = self.server_tls(tickets).wrap_bio(to_server, from_server, server_side=True)
        for it in (client, server, client, server):
            with contextlib.suppress(ssl.SSLWantReadError):
                it.do_handshake()
            to_server.write(outgoing.read())
            if it is server and client.version() is None or incoming.pending == 0:
                incoming.write(from_server.read())
        return client, incoming, from_server.read()

    async def test_a_connection_has_few_records_without_data(self):
        for tickets, is_few in ((2, True), (8, True), (500, False)):
            for take in (guard.Guarded.read, guard.Guarded.unwrap):
                client, incoming, rest = self.pair(tickets)
                incoming.write(rest)
                with self.subTest(tickets=tickets, take=take), self.assertRaises(ssl.SSLError) as raised:
                    take(client)
                is_cut = "it sends records without data" in str(raised.exception)
                self.assertEqual(is_cut, not is_few, raised.exception)

    async def test_who_sends_records_without_data_is_passed_over(self):
        link = await self.link(self.rightly, self.server_tls(500))
        self.assertIsNone(await self.ask(link))
        self.assertEqual(self.said[0], "no endorsement of Carrier: it sends records without data")

    async def test_a_turn_of_the_loop_has_so_much_of_a_connection(self):
        self.assertEqual(sslproto.SSLProtocol.max_size, 16384)

    async def test_a_long_answer_in_short_records_comes_whole(self):
        async def slowly(writer: asyncio.StreamWriter) -> None:
            words = json.dumps({"answers": [{**ENDORSED, "payload": "ab" * 50_000}]}).encode()
            writer.write(HEADER % len(words))
            for place in range(0, len(words), 50):
                writer.write(words[place:place + 50])
            await writer.drain()
        link = await self.link(slowly, self.server_tls())
        for _ in range(3):
            said = await self.ask(link)
            self.assertEqual((self.said, len(said["payload"])), ([], 100_000))

    async def test_answers_that_nobody_asked_for_end_a_connection(self):
        """Also while it is kept for the next request."""
        async def goes_on(writer: asyncio.StreamWriter, more: bytes) -> None:
            await self.rightly(writer)
            await asyncio.sleep(0.1)
            writer.write(more * 20)
            await writer.drain()
        for more in (b"HTTP/1.1 200 OK\r\nContent-Length: 0\r\n\r\n", b"HTTP/1.1 100 Continue\r\n\r\n"):
            for tls in (None, self.server_tls()):
                with self.subTest(more=more, tls=tls):
                    self.said.clear()
                    link = await self.link(functools.partial(goes_on, more=more), tls)
                    self.assertEqual(await self.ask(link), ENDORSED)
                    await self.come(lambda: self.said)
                    self.assertEqual(self.said, ["no endorsement of Carrier: it answers what nobody asked"])

    async def test_a_connection_ends_without_a_farewell_of_the_other_side(self):
        """Behind an answer that is its last, one that is none, and the end of patience."""
        async def stays(writer: asyncio.StreamWriter, said: bytes) -> None:
            writer.write(said)
            await writer.drain()
            assert isinstance(transport := writer.transport, asyncio.Transport)
            transport.pause_reading()
            await ended.wait()
            transport.abort()
        ended = asyncio.Event()
        self.addAsyncCleanup(asyncio.sleep, 0.1)
        self.addCleanup(ended.set)
        last = HEADER.replace(b"\r\n\r\n", b"\r\nConnection: close\r\n\r\n") % len(ANSWER) + ANSWER
        for said, answer in ((last, ENDORSED), (b"x" * 100, None), (b"", None)):
            with self.subTest(said=said), mock.patch.object(links, "ENDORSE_SECONDS", 3.0 if said else 0.3):
                link, files = await self.link(functools.partial(stays, said=said), self.server_tls()), len(os.listdir("/proc/self/fd"))
                for _ in range(6):
                    self.assertEqual(await self.ask(link), answer)
                # Those of the other side are there still.
                await self.come(lambda: len(os.listdir("/proc/self/fd")) <= files + 7, SOON)


if __name__ == "__main__":
    unittest.main()
