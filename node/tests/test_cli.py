"""The client and its command line: what is printed, and how a stream of blocks goes on and ends."""
import contextlib
import io
import itertools
import json
import os
import pathlib
import re
import shutil
import socket
import subprocess
import sys
import tempfile
import threading
import time
import unittest
from unittest import mock

import support
from regtuma import cli, client as clients
from regtuma.client import Client, Failed, Invalid, Link, NoAnswer, Pending, Refused

TXS = [{"id": "ab", "flag": 0, "chaincode": "assets", "arg": "61"}, {"id": "cd", "flag": 0, "chaincode": "assets", "upgrade": {"fuel": 1}},
       {"id": "ef", "flag": 2, "amend": {}}]
WELL = {"ok": True, "organisation": "Maker", "height": 4, "wrong": [], "warnings": ["the chain has 9 blocks left\x1b"]}
# A client in JavaScript over a node that does not answer, and one that knows no transaction, and answers when it is told to.
DEAD = 'const dead = new Client(["https://1:1"], async () => { throw new Error("no way"); }, { seconds: 0.3 });'
SLOW = """
const asked = [], slow = new Client(["https://1:1"], async url => {
  asked.push(url);
  await new Promise(resolve => setTimeout(resolve, 1000 * url.split("=")[1]));
  return new Response('{"pending":true}', { status: 404 });
});"""
# One whose calls stay pending.
WAITING = """
const waits = [], nonces = new Set(), waiting = new Client(["https://1:1"], async (url, { body }) => {
  waits.push(Number(url.split("=")[1]));
  nonces.add(JSON.parse(body).nonce);
  await new Promise(resolve => setTimeout(resolve, 1000 * waits.at(-1)));
  const said = { id: "ab", pending: true, why: "it is in no block yet" };
  return new Response(JSON.stringify(JSON.parse(body).calls ? { answers: [said, said] } : said), { status: 202 });
}, { seconds: 1 });"""


class Answer(io.BytesIO):
    """What a node answers."""

    def __init__(self, status: int, body: bytes):
        super().__init__(body)
        self.status = status


def client_of(*nodes: str) -> Client:
    """A client without certificates."""
    client = Client.__new__(Client)
    client.nodes, client.own, client.seconds = list(nodes), threading.local(), 1.0
    return client


def told(*words: str, given: str = "", **answers) -> tuple[int, str]:
    """The status of the command line, and what it prints, over a client that answers so."""
    out, ledger = io.StringIO(), mock.Mock(**{f"{name}.return_value": it for name, it in answers.items()})
    with (mock.patch.object(cli, "from_environment", return_value=ledger), mock.patch("sys.stdin", io.StringIO(given)),
          contextlib.redirect_stdout(out), contextlib.redirect_stderr(out)):
        status = cli.main(list(words))
    return status, out.getvalue()


class CommandLine(unittest.TestCase):
    def test_each_transaction_has_a_line(self):
        blocks = [{"block": 4, "txs": TXS}]
        lines = ["4.0 assets a, flag 0, id ab", "4.1 upgrade of assets, flag 0, id cd", "4.2 amendment of the members, flag 2, id ef"]
        self.assertEqual(told("watch", blocks=blocks), (0, "".join(f"{it}\n" for it in lines)))
        status, said = told("watch", "--json", blocks=blocks)
        self.assertEqual([json.loads(it) for it in said.splitlines()], [{"block": 4, "place": place, **tx} for place, tx in enumerate(TXS)])

    def test_nothing_that_a_node_answers_speaks_to_a_terminal(self):
        spoken = "\x1b]0;x\x07"
        members = {"serial": spoken, "policy": spoken, "members": [{"name": spoken}]}
        for words, said in [(["health"], {"health": {**WELL, "organisation": spoken}}), (["members"], {"members": members}), (["height"], {"height": spoken}),
                            (["status", "ab"], {"status": {"id": spoken, "block": spoken, "place": spoken, "flag": 0, "valid": True, "result": ""}})]:
            with self.subTest(words=words):
                self.assertRegex(told(*words, **said)[1], r"^[^\x00-\x09\x0b-\x1f]+$")

    def test_health_tells_what_is_wrong_and_what_it_warns_of(self):
        self.assertEqual(told("health", health=WELL), (0, "Maker has 4 blocks\nwarning: the chain has 9 blocks left\\x1b\n"))
        wrong = {**WELL, "ok": False, "wrong": ["forked"], "warnings": []}
        self.assertEqual(told("health", health=wrong), (1, "Maker has 4 blocks\nwrong: forked\n"))

    def test_agreements(self):
        said = {"id": "ab", "until": time.mktime((2026, 12, 1, 9, 30, 0, 0, 0, -1)), "words": "Shop leaves\x1b"}
        line = "ab until 2026-12-01 09:30: Shop leaves\\x1b\n"
        self.assertEqual(told("agree", "-", given='{"members":[]}', agree=said), (0, line))
        self.assertEqual(told("agree", "-", "--json", given='{"members":[]}', agree=said), (0, json.dumps(said) + "\n"))
        for changes, words, text in [([said, said], [], line + line), ([], [], "nothing was agreed to\n"), ([said], ["--json"], json.dumps([said]) + "\n")]:
            self.assertEqual(told("agreed", *words, agreed=changes), (0, text))
        self.assertEqual(told("withdraw", "ab", withdraw=None), (0, "ab is agreed to no more\n"))

    def test_words_that_are_none(self):
        self.assertEqual(told("get", "\udcff"), (2, "regtuma: a word is not UTF-8\n"))
        for it in ("nan", "-1", "1e12", "x"):
            with self.subTest(it=it), self.assertRaises(SystemExit) as raised:
                told("status", "ab", f"--wait={it}")
            self.assertEqual(raised.exception.code, 2)

    def test_an_output_that_nobody_reads(self):
        script = ("import sys; from unittest import mock; from regtuma import cli;"
                  " ledger = mock.Mock(height=mock.Mock(side_effect=[4] if sys.argv[1] == 'told' else cli.Failed('why')));"
                  " cli.from_environment = lambda _: ledger; sys.exit(cli.main(['height']))")
        env = {**os.environ, "PYTHONPATH": str(support.ROOT / "node"), "PYTHONUNBUFFERED": ""}
        for what in ("told", "failed"):
            reads, writes = os.pipe()
            os.close(reads)
            command = [sys.executable, "-B", "-c", script, what]
            ran = subprocess.run(command, env=env, stdout=writes, stderr=subprocess.PIPE, text=True, timeout=60)
            os.close(writes)
            self.assertEqual((ran.returncode, ran.stderr), (1, ""), what)

    def test_a_stream_that_no_node_gives(self):
        ledger = mock.Mock(blocks=mock.Mock(side_effect=NoAnswer("no node answers")))
        with mock.patch.object(cli, "from_environment", return_value=ledger), contextlib.redirect_stdout(io.StringIO()) as out:
            self.assertEqual((cli.main(["watch"]), out.getvalue()), (3, "no node answers\n"))


class CurrentFolder(unittest.TestCase):
    """No command runs what lies in the folder in which it is typed."""

    def test_no_module_of_it_is_imported(self):
        with tempfile.TemporaryDirectory() as room:
            at = pathlib.Path(room)
            for name in ("json", "argparse", "asyncio", "hashlib", "subprocess", "importlib", "aiohttp", "cryptography", "regtuma", "sys"):
                (at / f"{name}.py").write_text(f"open({room!r} + '/ran', 'a').write({name!r})\nraise SystemExit(7)\n")
            (at / "demo").mkdir()
            (at / "demo" / "genesis.json").write_text('{"orgs":[]}')
            commands = [[it, "--help"] for it in sorted((support.ROOT / "node" / "bin").iterdir())]
            commands += [[support.ROOT / "node" / "change.py", "--help"], [support.ROOT / "ledger", "dev", "demo"]]
            statuses = [subprocess.run(it, cwd=at, capture_output=True, timeout=60).returncode for it in commands]
            self.assertEqual((statuses, (at / "ran").exists()), ([0] * 5 + [1], False))


class Clients(unittest.TestCase):
    def test_nothing_that_a_node_says_speaks_to_a_terminal(self):
        said = {"id": "ab", "flag": 2, "block": 1, "place": 0, "why": "it read a\x1b[2J at 1.0\n"}
        self.assertEqual(cli.outcome(said), "flag 2, block 1, place 0: it read a\\x1b[2J at 1.0\\x0a, id ab")

    def test_a_refusal_ends_a_stream(self):
        refused = Answer(403, b'{"why":"Maker/alice may not read"}')
        with mock.patch.object(Link, "begin", return_value=refused), self.assertRaisesRegex(Refused, "^Maker/alice may not read$"):
            next(client_of("https://1:1").blocks())

    def test_a_stream_goes_on_at_the_next_node_beside_what_is_asked(self):
        asked = []

        def begin(link: Link, _method: str, path: str, _body: None, _seconds: float) -> Answer:
            asked.append((path, link.turn))
            if path == "/height":
                return Answer(200, b'{"height":2}')
            number = 1 if path == "/events?from=1" else 2
            return Answer(200, b'id: %d\nevent: block\ndata: {"block":%d}\n\n' % (number, number))
        client = client_of("https://1:1", "https://2:1")
        with mock.patch.object(Link, "begin", begin), mock.patch.object(clients, "PAUSE", 0):
            blocks = client.blocks(1)
            self.assertEqual([next(blocks), {"height": client.height()}, next(blocks)], [{"block": 1}, {"height": 2}, {"block": 2}])
            blocks.close()
        self.assertEqual(asked, [("/events?from=1", 0), ("/height", 0), ("/events?from=2", 1)])

    def test_a_stream_ends_where_no_node_answers(self):
        client = client_of("https://1:1", "https://2:1")
        client.seconds = 0.2
        for answer, failure, why in [(ConnectionRefusedError("no way"), NoAnswer, "^no node answers, of https://1:1, https://2:1: no way$"),
                                     (lambda *_: Answer(503, b'{"why":"not now"}'), Refused, "^not now$")]:
            with self.subTest(why=why), mock.patch.object(Link, "begin", side_effect=answer), mock.patch.object(clients, "PAUSE", 0.05):
                with self.assertRaisesRegex(failure, why):
                    next(client.blocks())

    def test_a_stream_begins_where_it_is_asked_to(self):
        with mock.patch.object(Link, "begin", return_value=Answer(400, b'{"why":"from is a number"}')) as begin:
            for first, path in ((None, "/events"), (0, "/events?from=0")):
                with self.assertRaises(Refused):
                    next(client_of("https://1:1").blocks(first))
                self.assertEqual(begin.call_args.args[1], path)
                begin.return_value = Answer(400, b'{"why":"from is a number"}')

    def test_what_no_node_answers(self):
        """Where a list or a text comes in the place of an object, or an object in that of a list, a sentence says so."""
        for status, body, failure, why in [
                (200, b"[4]", NoAnswer, "^no node answers, of https://1:1: what answers there is no node$"),
                (502, b'"no way"', Refused, "^the node answers by status 502$")]:
            client = client_of("https://1:1")
            client.seconds = 0.0
            for ask in (client.height, client.health, lambda: client.get("a"), lambda: client.evaluate("assets", "x")):
                with self.subTest(status=status), mock.patch.object(Link, "begin", return_value=Answer(status, body)):
                    with self.assertRaisesRegex(failure, why):
                        ask()
        with mock.patch.object(Link, "begin", return_value=Answer(200, b"{}")), self.assertRaises(NoAnswer):
            client.history("a")
        with mock.patch.object(Link, "begin", return_value=Answer(502, b"[]")), self.assertRaisesRegex(Refused, "status 502$"):
            next(client.blocks())

    def test_a_transaction_is_waited_for_in_parts(self):
        asked = []

        def begin(_link: Link, _method: str, path: str, _body: None, _seconds: float) -> Answer:
            asked.append(path)
            time.sleep(float(path.rpartition("=")[2]))
            return Answer(404, b'{"pending":true}')
        with mock.patch.object(Link, "begin", begin), mock.patch.object(Client, "_patience", 0.1):
            self.assertEqual(client_of("https://1:1").status("a b/c", 0.15), {"pending": True})
        self.assertEqual((asked[0], asked[-1]), ("/transactions/a%20b%2Fc?wait=0.100", "/transactions/a%20b%2Fc?wait=0.000"))

    def test_a_call_that_is_pending_returns_once_its_time_is_up(self):
        waits, limits, nonces = [], [], set()

        def begin(_link: Link, _method: str, path: str, body: dict, seconds: float) -> Answer:
            nonces.add(body.get("nonce"))
            waits.append(float(path.rpartition("=")[2]))
            limits.append(seconds)
            time.sleep(waits[-1])
            said = {"id": "ab", "pending": True, "why": "it is in no block yet"}
            return Answer(202, json.dumps({"answers": [said] * 3} if "calls" in body else said).encode())
        client = client_of("https://1:1")
        # The day's clock stands still.
        self.enterContext(mock.patch("time.time", return_value=0.0))
        with mock.patch.object(Link, "begin", begin):
            for ask in (lambda: client.submit("assets", "x", tries=5), lambda: client.change({"nonce": "00" * 16}, ["Maker"])):
                with self.assertRaisesRegex(Pending, "^the time is up: it is in no block yet$") as raised:
                    ask()
                self.assertEqual(raised.exception.said["id"], "ab")
            self.assertEqual([it.get("pending") for it in client.submit_all([{}, {}, {}])], [True] * 3)
        # What may still come into a block is not made anew.
        self.assertEqual(len(nonces), 3)
        self.assertEqual([it < limit for it, limit in zip(waits, limits)], [True] * len(waits))
        self.assertLess(sum(waits), 3.0)
        with mock.patch.object(cli, "from_environment", return_value=client), mock.patch.object(Link, "begin", begin):
            with contextlib.redirect_stdout(io.StringIO()) as out:
                self.assertEqual((cli.main(["submit", "assets", "x"]), out.getvalue()), (3, "the time is up: it is in no block yet, id ab\n"))

    def test_conflicts_are_tried_again_until_the_time_is_up(self):
        nonces = set()

        def begin(_link: Link, _method: str, _path: str, body: dict, _seconds: float) -> Answer:
            nonces.add(body["nonce"])
            time.sleep(0.3)
            return Answer(200, b'{"id":"ab","flag":2,"valid":false,"why":"call again"}')
        with mock.patch.object(Link, "begin", begin), self.assertRaisesRegex(Invalid, "^call again$"):
            client_of("https://1:1").submit("assets", "x", tries=50)
        self.assertLess(len(nonces), 9)

    def test_a_call_whose_id_was_used_up_is_made_anew(self):
        nonces = []

        def begin(_link: Link, _method: str, _path: str, body: dict, _seconds: float) -> Answer:
            nonces.append(body["nonce"])
            return Answer(200, b'{"flag":1,"valid":false,"why":"used up","used_up_by":"Shop"}' if len(nonces) < 3 else b'{"valid":true}')
        with mock.patch.object(Link, "begin", begin):
            with self.assertRaisesRegex(Invalid, "^used up$"):
                client_of("https://1:1").submit("assets", "x", nonce="0f" * 16)
            self.assertTrue(client_of("https://1:1").submit("assets", "x", tries=2)["valid"])
        self.assertEqual((nonces[0], len(set(nonces))), ("0f" * 16, 3))

    def test_a_call_that_was_left_out_of_a_batch_keeps_its_nonce(self):
        """Its envelope stands in the log, for everybody to put again: by one nonce it counts once."""
        nonces = []

        def begin(_link: Link, _method: str, _path: str, body: dict, _seconds: float) -> Answer:
            nonces.append(body["nonce"])
            return Answer(200, b'{"refused":442,"why":"left out"}' if len(nonces) in (1, 3) else b'{"valid":true}')
        with mock.patch.object(Link, "begin", begin):
            self.assertTrue(client_of("https://1:1").submit("assets", "x", tries=2)["valid"])
            with self.assertRaisesRegex(Refused, "^left out$") as raised:
                client_of("https://1:1").submit("assets", "x")
        self.assertEqual((nonces[0], nonces[2]), (nonces[1], raised.exception.said["nonce"]))

    def test_a_call_may_be_in_the_log_where_nodes_can_do_nothing(self):
        """One of them may have put it, and been cut off before it said so."""
        client, pending = client_of("https://1:1", "https://2:1"), Answer(200, b'{"pending":true,"why":"later"}')
        client.seconds = 0.6
        for first, later in [(ConnectionResetError("gone"), 503), (ConnectionResetError("gone"), 403), (Answer(503, b"{}"), 429), (pending, 429),
                             (ConnectionRefusedError("none"), 403), (ConnectionRefusedError("none"), 422)]:
            answers = itertools.chain([first], iter(lambda: Answer(later, b'{"why":"not now"}'), None))
            failure = Refused if isinstance(first, ConnectionRefusedError) else NoAnswer
            with self.subTest(first=first, later=later), mock.patch.object(Link, "begin", side_effect=answers), mock.patch.object(clients, "PAUSE", 0.05):
                with self.assertRaisesRegex(failure, "^not now$") as raised:
                    client.submit("assets", "x", nonce="0f" * 16)
                self.assertEqual("id" in raised.exception.said, failure == NoAnswer)

    def test_several_calls_may_be_in_the_log_where_a_node_was_cut_off(self):
        """The next one refuses some, and what it knows of the others stands."""
        client, calls = client_of("https://1:1", "https://2:1"), [clients.call_of("assets", "x") for _ in range(5)]
        known = [{"id": "aa", "flag": 0, "valid": True, "block": 1}, {"id": "bb", "refused": 442, "why": "left out"}]
        answers = json.dumps({"answers": [*known, {"refused": 404, "why": "no"}, {"status": 429, "why": "later"}, {"why": "refused"}]}).encode()
        for first, is_known in [(ConnectionRefusedError("none"), True), (ConnectionResetError("gone"), False), (Answer(503, b"{}"), False)]:
            begun = mock.patch.object(Link, "begin", side_effect=[first, Answer(200, answers)])
            with self.subTest(first=first), begun, mock.patch.object(clients, "PAUSE", 0):
                said = client.submit_all(calls)
                self.assertEqual(said[:2], known)
                self.assertEqual([(it.get("pending"), it["why"]) for it in said[2:]], [(None if is_known else True, it) for it in ("no", "later", "refused")])
                self.assertEqual([it.get("id") for it in said[2:]], [None if is_known else clients.id_of(it) for it in calls[2:]])

    def test_of_several_calls_each_is_told(self):
        """One that is asked for alone loses no answer of the others, whatever becomes of it."""
        client, calls, valid = client_of("https://1:1"), [clients.call_of("assets", "x") for _ in range(3)], {"id": "aa", "valid": True}
        for first in ({"id": "bb", "pending": True, "why": "later"}, {"status": 503, "why": "no log"}):
            answers = json.dumps({"answers": [valid, first, valid]}).encode()
            for alone, why in [((429, b'{"why":"not now"}'), "not now"), ((422, b'{"refused":404,"why":"no"}'), "no"), ((503, b'{"why":"down"}'), "down"),
                               ((200, b'{"id":"bb","valid":true}'), None)]:
                client.seconds = 0.6
                asked = itertools.chain([Answer(200, answers)], iter(lambda: Answer(*alone), None))
                with self.subTest(first=first, alone=alone), mock.patch.object(Link, "begin", side_effect=asked), mock.patch.object(clients, "PAUSE", 0.05):
                    said = client.submit_all(calls)
                    self.assertEqual((said[0], said[2]), (valid, valid))
                    told = {"id": clients.id_of(calls[1]), "pending": True, "why": why} if why else {"id": "bb", "valid": True}
                    self.assertEqual(said[1], told)

    def test_a_list_of_calls_may_be_in_the_log_where_no_node_answers_it(self):
        client, calls = client_of("https://1:1", "https://2:1"), [clients.call_of("assets", "x") for _ in range(2)]
        client.seconds = 0.3
        for first, later, failure in [(ConnectionResetError("gone"), 503, NoAnswer), (ConnectionResetError("gone"), 429, NoAnswer),
                                      (Answer(503, b"{}"), 403, NoAnswer), (ConnectionRefusedError("none"), 429, Refused)]:
            asked = itertools.chain([first], iter(lambda: Answer(later, b'{"why":"not now"}'), None))
            with self.subTest(first=first, later=later), mock.patch.object(Link, "begin", side_effect=asked), mock.patch.object(clients, "PAUSE", 0.05):
                with self.assertRaisesRegex(failure, "^not now$") as raised:
                    client.submit_all(calls)
                self.assertEqual(raised.exception.said.get("ids"), [clients.id_of(it) for it in calls] if failure == NoAnswer else None)

    def test_a_call_that_was_left_out_may_be_put_by_anybody(self):
        """So what refuses it at its second ask says not that it is in no block."""
        asked = [Answer(200, b'{"id":"ab","refused":442,"why":"left out"}'), Answer(429, b'{"why":"not now"}')]
        with mock.patch.object(Link, "begin", side_effect=asked), self.assertRaisesRegex(NoAnswer, "^not now$") as raised:
            client_of("https://1:1").submit("assets", "x", tries=2)
        self.assertIn("id", raised.exception.said)

    def test_a_node_that_says_nothing_is_not_waited_for(self):
        with socket.create_server(("127.0.0.1", 0)) as silent:
            client = Client([f"http://127.0.0.1:{silent.getsockname()[1]}"], seconds=0.6)
            for ask in (client.height, lambda: client.submit("assets", "x"), lambda: client.submit_all([clients.call_of("assets", "x")])):
                with self.assertRaisesRegex(NoAnswer, "^no node answers, of http://127.0.0.1:[0-9]+: timed out$"):
                    ask()

    def serves(self, said: bytes, goes_on: bool = False) -> int:
        """The port of a node that says this, and may go on by a byte now and then."""
        at = self.enterContext(socket.create_server(("127.0.0.1", 0)))

        def serve() -> None:
            with contextlib.suppress(OSError):
                while True:
                    caller, _ = at.accept()
                    with caller, contextlib.suppress(OSError):
                        caller.recv(65536)
                        caller.sendall(said)
                        while goes_on:
                            caller.sendall(b" ")
                            time.sleep(0.1)
        threading.Thread(target=serve, daemon=True).start()
        return at.getsockname()[1]

    def test_a_node_that_answers_byte_by_byte_is_not_waited_for(self):
        """Neither for its headers, nor for its body; and the next call asks the next one."""
        well = self.serves(b'HTTP/1.1 200 OK\r\nContent-Length: 12\r\n\r\n{"height":7}')
        for begin in (b"HTTP/1.1 200 OK\r\nX:", b"HTTP/1.1 200 OK\r\nContent-Length: 1000\r\n\r\n"):
            client, began = Client([f"http://127.0.0.1:{it}" for it in (self.serves(begin, goes_on=True), well)], seconds=1.0), time.monotonic()
            with self.subTest(begin=begin), self.assertRaisesRegex(NoAnswer, ": timed out$"):
                client.height()
            self.assertLess(time.monotonic() - began, 10.0)
            client.seconds = 20.0
            self.assertEqual(client.height(), 7)

    def test_an_answer_that_is_too_long_is_none(self):
        answer = Answer(200, b'{"height":7}')
        client = client_of("https://1:1")
        client.seconds = 0.0
        with mock.patch.object(clients, "LONGEST", 10), mock.patch.object(Link, "begin", return_value=answer):
            with self.assertRaisesRegex(NoAnswer, ": its answer has more than 0 MiB$"):
                client.height()

    def test_a_node_has_a_url(self):
        for it in ("10.0.0.1:7051", "http://10.0.0.1:7051", "https://10.0.0.1", "https://[::1", ""):
            with self.subTest(it=it), self.assertRaisesRegex(Failed, f"^{re.escape(it)} is no URL of a node with its port, as https://10.0.0.1:7051"):
                Client([it], "none.pem", "none.key", "none.pem")

    def test_a_call_is_made_once_at_least(self):
        client = client_of()
        client.outcome = lambda call, *_: {"valid": True, "arg": call["arg"]}
        self.assertEqual(client.submit("assets", "x", tries=0)["arg"], b"x".hex())


@unittest.skipUnless(shutil.which("node"), "no Node.js")
class InJavascript(unittest.TestCase):
    def said(self, script: str, **env: str) -> str:
        """What a script over the client prints."""
        module = json.dumps((support.ROOT / "node" / "clients" / "regtuma.mjs").as_uri())
        text = f"import {{ Client, callOf, fromEnvironment }} from {module};\n{script}"
        ran = subprocess.run(["node", "--input-type=module", "-e", text], env={**os.environ, **env}, capture_output=True, text=True, timeout=60)
        return ran.stdout + (ran.stderr if ran.returncode else "")

    def test_a_stream_ends_where_no_node_answers(self):
        said = self.said(DEAD + "try { await dead.blocks().next(); } catch (error) { console.log(`${error.name}: ${error.message}`); }")
        self.assertEqual(said, "NoAnswer: no node answers, of https://1:1: no way\n")

    def test_a_transaction_is_waited_for_in_parts(self):
        said = self.said(SLOW + "slow.seconds = 6; console.log(await slow.status('a b/c', 1.2), asked[0], asked.at(-1));")
        path = "https://1:1/transactions/a%20b%2Fc"
        self.assertEqual(said, f"{{ pending: true }} {path}?wait=1.000 {path}?wait=0.000\n")

    def test_a_call_that_is_pending_returns_once_its_time_is_up(self):
        said = self.said(WAITING + """
            const limits = [], { timeout } = AbortSignal;
            AbortSignal.timeout = limit => (limits.push(limit), timeout.call(AbortSignal, limit));
            await waiting.submit("assets", ["x"], { tries: 5 }).catch(error => console.log(error.name, error.message, error.said.id, nonces.size));
            const answers = await waiting.submitAll([callOf("assets", "x"), callOf("assets", "y")]);
            console.log(answers.map(it => it.pending), limits.every(Number.isInteger), waits.reduce((sum, it) => sum + it) < 2.5);""")
        self.assertEqual(said, "Pending the time is up: it is in no block yet ab 1\n[ true, true ] true true\n")

    def test_conflicts_are_tried_again_until_the_time_is_up(self):
        said = self.said("""
            let asked = 0;
            const busy = new Client(["https://1:1"], async () => {
              asked++;
              await new Promise(resolve => setTimeout(resolve, 300));
              return new Response('{"id":"ab","flag":2,"valid":false,"why":"call again"}');
            }, { seconds: 1 });
            await busy.submit("assets", ["x"], { tries: 50 }).catch(error => console.log(error.message, asked < 9));""")
        self.assertEqual(said, "call again true\n")

    def test_a_call_whose_id_was_used_up_is_made_anew(self):
        said = self.said("""
            const nonces = new Set();
            const vetoed = new Client(["https://1:1"], async (_, { body }) => {
              nonces.add(JSON.parse(body).nonce);
              return new Response(nonces.size < 3 ? '{"flag":1,"valid":false,"why":"used up","used_up_by":"Shop"}' : '{"valid":true}');
            });
            await vetoed.submit("assets", ["x"]).catch(error => console.log(error.message));
            console.log((await vetoed.submit("assets", ["x"], { tries: 2 })).valid, nonces.size);""")
        self.assertEqual(said, "used up\ntrue 3\n")

    def test_a_call_that_was_left_out_of_a_batch_keeps_its_nonce(self):
        said = self.said("""
            const nonces = [], left = '{"refused":442,"why":"left out"}';
            const busy = new Client(["https://1:1"], async (_, { body }) => {
              nonces.push(JSON.parse(body).nonce);
              return new Response([1, 3].includes(nonces.length) ? left : '{"valid":true}');
            });
            console.log((await busy.submit("assets", ["x"], { tries: 2 })).valid, nonces[0] === nonces[1]);
            await busy.submit("assets", ["x"]).catch(error => console.log(error.name, error.said.nonce === nonces[2]));""")
        self.assertEqual(said, "true true\nNotValid true\n")

    def test_a_call_may_be_in_the_log_where_nodes_can_do_nothing(self):
        said = self.said("""
            const later = status => () => new Response('{"why":"not now"}', { status }), fails = code => () => { throw { code }; };
            const pending = () => new Response('{"pending":true,"why":"later"}');
            for (const [first, status] of [[later(503), 503], [later(403), 403], [fails("ECONNRESET"), 403], [later(503), 429], [pending, 429],
                                           [fails("ECONNREFUSED"), 422]]) {
              let asked = 0;
              const busy = new Client(["https://1:1"], async () => (asked++ ? later(status) : first)(), { seconds: 0.6 });
              await busy.submit("assets", ["x"]).catch(error => console.log(error.name));
            }""")
        self.assertEqual(said, "NoAnswer\nNotValid\nNoAnswer\nNoAnswer\nNoAnswer\nNotValid\n")

    def test_several_calls_may_be_in_the_log_where_a_node_was_cut_off(self):
        said = self.said("""
            const known = [{ id: "aa", flag: 0, valid: true, block: 1 }, { id: "bb", refused: 442, why: "left out" }];
            const answers = [...known, { refused: 404, why: "no" }, { status: 429, why: "later" }, { why: "refused" }];
            const fails = code => () => { throw { code }; };
            for (const first of [fails("ECONNREFUSED"), fails("ECONNRESET"), () => new Response("{}", { status: 503 })]) {
              let asked = 0;
              const cut = new Client(["https://1:1"], async () => asked++ ? new Response(JSON.stringify({ answers })) : first());
              const said = await cut.submitAll(answers.map(() => callOf("assets", "x", { nonce: "0f".repeat(16) })));
              console.log(JSON.stringify(said.slice(0, 2)) === JSON.stringify(known), said.slice(2).map(it => it.pending), said[2].id);
            }""")
        id = clients.id_of({"chaincode": "assets", "arg": "78", "nonce": "0f" * 16})
        pending = f"true [ true, true, true ] {id}\n"
        self.assertEqual(said, f"true [ undefined, undefined, undefined ] undefined\n{pending}{pending}")

    def test_of_several_calls_each_is_told(self):
        said = self.said("""
            const valid = { id: "aa", valid: true }, later = (status, said) => () => new Response(JSON.stringify(said), { status });
            for (const first of [{ id: "bb", pending: true, why: "later" }, { status: 503, why: "no log" }])
              for (const alone of [later(429, { why: "not now" }), later(422, { refused: 404, why: "no" }), later(200, { id: "bb", valid: true })]) {
                let asked = 0;
                const busy = new Client(["https://1:1"], async () => asked++ ? alone() : new Response(JSON.stringify({ answers: [valid, first, valid] })));
                const [before, said, after] = await busy.submitAll([1, 2, 3].map(it => callOf("assets", String(it), { nonce: "0f".repeat(16) })));
                console.log(before.valid && after.valid, said.valid ?? (said.pending && said.why), said.id);
              }""")
        id, dead = clients.id_of({"chaincode": "assets", "arg": "32", "nonce": "0f" * 16}), "no node answers, of https://1:1"
        self.assertEqual(said, f"true {dead}: not now {id}\ntrue {dead}: no {id}\ntrue true bb\n" * 2)

    def test_a_list_of_calls_may_be_in_the_log_where_no_node_answers_it(self):
        said = self.said("""
            const later = status => () => new Response('{"why":"not now"}', { status }), fails = code => () => { throw { code }; };
            for (const [first, status] of [[fails("ECONNRESET"), 503], [fails("ECONNRESET"), 429], [later(503), 403], [fails("ECONNREFUSED"), 429]]) {
              let asked = 0;
              const busy = new Client(["https://1:1"], async () => (asked++ ? later(status) : first)(), { seconds: 0.6 });
              await busy.submitAll([callOf("assets", "x")]).catch(error => console.log(error.name));
            }""")
        self.assertEqual(said, "NoAnswer\nNoAnswer\nNoAnswer\nNotValid\n")

    def test_a_call_that_was_left_out_may_be_put_by_anybody(self):
        said = self.said("""
            let asked = 0;
            const busy = new Client(["https://1:1"], async () =>
              asked++ ? new Response('{"why":"not now"}', { status: 429 }) : new Response('{"id":"ab","refused":442,"why":"left out"}'));
            await busy.submit("assets", ["x"], { tries: 2 }).catch(error => console.log(error.name));""")
        self.assertEqual(said, "NoAnswer\n")

    def test_a_node_that_says_nothing_is_not_waited_for(self):
        with socket.create_server(("127.0.0.1", 0)) as silent:
            said = self.said(f"""
                const silent = new Client(["http://127.0.0.1:{silent.getsockname()[1]}"], undefined, {{ seconds: 0.6 }});
                const asked = [silent.health(), silent.submit("assets", ["x"]), silent.submitAll([callOf("assets", "x")])];
                console.log((await Promise.allSettled(asked)).map(it => it.reason?.name));""")
        self.assertEqual(said, "[ 'NoAnswer', 'NoAnswer', 'NoAnswer' ]\n")

    def test_waiting_is_measured_by_a_clock_that_never_goes_back(self):
        said = self.said(WAITING + DEAD + """
            Date.now = () => 0;
            const ends = [waiting.submit("assets", ["x"]), dead.health(), dead.blocks().next()];
            console.log((await Promise.allSettled(ends)).map(it => it.reason?.name));""")
        self.assertEqual(said, "[ 'Pending', 'NoAnswer', 'NoAnswer' ]\n")

    def test_a_node_has_a_url(self):
        env = {it: "none" for it in clients.SETTINGS}
        said = self.said("await fromEnvironment().catch(error => console.log(error.message));", **env)
        self.assertEqual(said, "none is no URL of a node with its port, as https://10.0.0.1:7051\n")


if __name__ == "__main__":
    unittest.main()
