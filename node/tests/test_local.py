"""A node on one machine: this user's own programs call it by plain HTTP, and nobody else does."""
import asyncio
import os
import pathlib
import shutil
import socket
import subprocess
import unittest
from unittest import mock

import support
from aiohttp import web
from aiohttp.test_utils import TestClient, TestServer
from regtuma import access, api, links, owners
from regtuma.chain import Chain
from regtuma.endorsing import Endorsing
from regtuma.gateway import Gateway
from test_api import Query
from test_chain import CALL, ENDORSED, FakeLog, Times

# The user `nobody` of Debian.
NOBODY = 65534
# A program that asks the node at the URL which is its word for its height, and prints the status.
ASKING = """
import sys, urllib.error, urllib.request
try:
    print(urllib.request.urlopen(sys.argv[1] + "/height").status)
except urllib.error.HTTPError as error:
    print(error.code)
"""
# The same of the clients that nodes have.
CLIENTS = [["python3", "-c", "from regtuma.client import from_environment as f; print(f().evaluate('assets', 'read', 'x').hex())"],
           ["node", "--input-type=module", "-e", f"""
import {{ fromEnvironment, hex }} from "{(support.ROOT / "node/clients/regtuma.mjs").as_uri()}";
console.log(hex(await (await fromEnvironment()).evaluate("assets", ["read", "x"])));
"""]]


class Case(unittest.IsolatedAsyncioTestCase):
    async def asyncSetUp(self):
        folder = support.Folder()
        self.addCleanup(folder.close)
        self.config = folder.config(text=support.LOCAL)
        chain = Chain(self.config, FakeLog(), lambda _: None)
        chain.times, chain.peer, chain.height = Times(), Query(), 4
        endorsing = Endorsing(self.config, chain)
        gateway = Gateway(self.config, chain, endorsing)
        self.addAsyncCleanup(gateway.close)
        self.api = api.Api(self.config, chain, endorsing, gateway, {"lines": 2})
        self.client = await self.enterAsyncContext(TestClient(TestServer(self.api.app())))
        self.url = str(self.client.make_url("")).rstrip("/")

    async def ask(self, method: str, path: str, body: dict | None = None, **headers: str) -> tuple[int, str]:
        """The status of an answer, and its text."""
        named = {it.replace("_", "-"): headers[it] for it in headers}
        async with self.client.request(method, path, json=body, headers=named) as said:
            return said.status, await said.text()


class Refusals(Case):
    async def test_this_users_programs_are_answered(self):
        for method, path, body in [("GET", "/height", None), ("GET", "/healthz", None), ("GET", "/blocks/1", None), ("GET", "/agreed", None),
                                   ("POST", "/evaluate", {"chaincode": "assets", "args": ["read", "x"]})]:
            with self.subTest(path=path):
                self.assertEqual((await self.ask(method, path, body))[0], 200)

    async def test_no_other_user_is(self):
        with mock.patch.object(access.os, "getuid", return_value=os.getuid() + 1):
            for method, path in (("GET", "/height"), ("POST", "/transactions"), ("GET", "/")):
                status, said = await self.ask(method, path, {} if method == "POST" else None)
                self.assertEqual((status, f"for the user {os.getuid()} of this machine alone" in said), (403, True))

    @unittest.skipIf(os.getuid(), "one user can't ask as another one")
    async def test_nobody_is_not(self):
        command = [shutil.which("python3", path="/usr/bin"), "-c", ASKING, self.url]
        for user, status in ((NOBODY, "403"), (0, "200")):
            ran = await asyncio.to_thread(subprocess.run, command, user=user, cwd="/", capture_output=True, text=True, timeout=60)
            self.assertEqual((ran.stdout, ran.stderr), (f"{status}\n", ""))

    async def test_no_page_of_another_site_is(self):
        for origin in ("http://example.com", "http://localhost:3000", "http://127.0.0.1:1", "null", f"{self.url}.example.com"):
            for method, path in (("GET", "/height"), ("POST", "/transactions")):
                status, said = await self.ask(method, path, {} if method == "POST" else None, Origin=origin)
                self.assertEqual((status, "its own page" in said), (403, True), origin)
        self.assertEqual((await self.ask("GET", "/height", Origin=self.url))[0], 200)

    async def test_no_name_of_its_own_for_this_machine_is(self):
        for host in ("example.com", "example.com:7051", "127.0.0.1.example.com", "10.0.0.1:7051", "[::2]:7051", "localhost.example.com"):
            status, said = await self.ask("GET", "/height", Host=host)
            self.assertEqual((status, "of this machine" in said), (403, True), host)
        for host in ("localhost", "localhost:7051", "127.0.0.1:7051", "[::1]:7051"):
            self.assertEqual((await self.ask("GET", "/height", Host=host))[0], 200, host)

    async def test_what_a_page_can_send_without_asking_is_not(self):
        for kind in ("text/plain", "application/x-www-form-urlencoded", "multipart/form-data"):
            async with self.client.post("/transactions", data=b"{}", headers={"Content-Type": kind}) as said:
                self.assertEqual(said.status, 415)
        # Nobody is told that a page may send more.
        async with self.client.options("/transactions", headers={"Origin": "http://example.com"}) as said:
            self.assertEqual((said.status, [it for it in said.headers if it.startswith("Access-Control")]), (405, []))

    async def test_another_machine_does_not_reach_it(self):
        port = int(self.url.rpartition(":")[2])
        with socket.socket(socket.AF_INET, socket.SOCK_DGRAM) as outwards:
            try:
                outwards.connect(("192.0.2.1", 9))
            except OSError:
                self.skipTest("this machine has no other address")
            address = outwards.getsockname()[0]
        with self.assertRaises(ConnectionRefusedError):
            socket.create_connection((address, port), 5)


class Named(Case):
    async def test_a_caller_says_who_it_is(self):
        app, seen = web.Application(middlewares=[self.api.access.answered]), []

        async def who(request: web.Request) -> web.Response:
            seen.append(self.api.access.caller(request))
            return web.Response()
        app.router.add_get("/", self.api.access.needing("read", who))
        asker = await self.enterAsyncContext(TestClient(TestServer(app)))
        for said, status in [({}, 200), ({"Regtuma-Caller": "Shop/node"}, 200), ({"Regtuma-Caller": "alice"}, 400), ({"Regtuma-Caller": "Maker/*"}, 400)]:
            async with asker.get("/", headers=said) as answer:
                self.assertEqual(answer.status, status)
        self.assertEqual(seen, ["Maker/dev", "Shop/node"])

    async def test_a_node_says_who_it_is(self):
        self.config.nodes["Carrier"] = self.url
        link = links.Link("Carrier", self.config, lambda _: None)
        self.addAsyncCleanup(link.close)
        with mock.patch.object(self.api.endorsing, "answers", mock.AsyncMock(return_value=[ENDORSED])) as asked:
            self.assertEqual(await link.ask("Maker/alice", CALL, 0), ENDORSED)
        self.assertEqual(asked.call_args.args[0], "Maker/node")

    async def test_the_owner_is_looked_for_once_a_connection(self):
        with mock.patch.object(access, "owner_of", side_effect=owners.owner_of) as looked:
            for _ in range(3):
                await self.ask("GET", "/height")
        self.assertEqual(looked.call_count, 1)

    async def test_clients_need_the_urls_alone(self):
        env = {"PATH": os.environ["PATH"], "PYTHONPATH": str(support.ROOT / "node"), "REGTUMA_NODES": f"{self.url},{self.url}/"}
        for command in CLIENTS:
            ran = await asyncio.to_thread(subprocess.run, command, env=env, capture_output=True, text=True, timeout=60)
            self.assertEqual((ran.stdout, ran.stderr), ("00\n", ""))


class Owners(unittest.TestCase):
    """What Linux tells of the other end of a connection."""

    def connected(self, family: int, address: str) -> tuple[socket.socket, socket.socket]:
        server = self.enterContext(socket.socket(family))
        server.bind((address, 0))
        server.listen()
        caller = self.enterContext(socket.create_connection(server.getsockname()[:2]))
        return caller, self.enterContext(server.accept()[0])

    def test_a_program_of_this_user(self):
        for family, address in ((socket.AF_INET, "127.0.0.1"), (socket.AF_INET6, "::1")):
            with self.subTest(address=address):
                _, own = self.connected(family, address)
                self.assertEqual(owners.owner_of(own.getpeername(), own.getsockname()), os.getuid())

    def test_who_has_gone_is_nobody(self):
        caller, own = self.connected(socket.AF_INET, "127.0.0.1")
        ends = own.getpeername(), own.getsockname()
        # What was not read keeps the connection.
        caller.sendall(b"GET / HTTP/1.1\r\n\r\n")
        caller.close()
        lines = [it.split() for it in pathlib.Path("/proc/net/tcp").read_text().splitlines()]
        self.assertEqual([it[owners.USER] for it in lines if it[1:3] == [owners.spelled(it) for it in ends]], ["0"])
        self.assertIsNone(owners.owner_of(*ends))

    def test_who_is_not_there_is_nobody(self):
        self.assertIsNone(owners.owner_of(("127.0.0.1", 1), ("127.0.0.1", 2)))
        self.assertIsNone(owners.owner_of(None, ("127.0.0.1", 2)))
        with mock.patch.object(owners, "PROC", pathlib.Path("/nowhere")):
            self.assertIsNone(owners.owner_of(("127.0.0.1", 1), ("127.0.0.1", 2)))

    def test_addresses_as_they_stand_there(self):
        self.assertEqual(owners.spelled(("127.0.0.1", 7051)), "0100007F:1B8B")
        self.assertEqual(owners.spelled(("::1", 7051, 0, 0)), "00000000000000000000000001000000:1B8B")


if __name__ == "__main__":
    unittest.main()
