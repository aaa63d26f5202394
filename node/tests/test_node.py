"""The node's process: what it refuses before it begins, and what it takes anew."""
import asyncio
import contextlib
import io
import os
import signal
import socket
import time
import unittest
from unittest import mock

import support
from regtuma import config, node
from regtuma.filters import FilterEnded


class Starts(unittest.TestCase):
    def setUp(self):
        self.folder = support.Folder()
        self.addCleanup(self.folder.close)

    def program(self, script: str) -> str:
        """A program that does this."""
        file = self.folder.path / "program"
        file.write_text(f"#!/bin/sh\n{script}\n")
        file.chmod(0o700)
        return str(file)

    def told(self, *words: str) -> tuple[int, str]:
        out, err = io.StringIO(), io.StringIO()
        with contextlib.redirect_stdout(out), contextlib.redirect_stderr(err):
            status = node.main(list(words))
        return status, out.getvalue() + err.getvalue()

    def test_words(self):
        self.assertEqual(self.told("--help"), (0, f"{node.__doc__}\n"))
        self.assertEqual(self.told(), (2, f"{node.__doc__}\n"))
        self.assertEqual(self.told("nowhere.toml"), (2, "regtuma-node: nowhere.toml cannot be read: No such file or directory\n"))

    def test_a_certificate_that_is_none(self):
        status, said = self.told(self.folder.write(support.CONFIGURATION))
        self.assertEqual((status, "a certificate, key or password of " in said, "Traceback" in said), (2, True, False))

    def test_a_password_that_cannot_be_read(self):
        file, refused = self.folder.write(support.CONFIGURATION), PermissionError(13, "Permission denied", "etcd.password")
        with mock.patch.multiple(config.Config, node_tls=mock.Mock(), etcd_tls=mock.Mock(), password=mock.Mock(side_effect=refused)):
            told = f"regtuma-node: a certificate, key or password of {file} is not read: [Errno 13] Permission denied: 'etcd.password'\n"
            self.assertEqual(self.told(file), (2, told))

    def test_an_authority_that_may_make_others(self):
        """The proxy would take those whom it makes for callers of another organisation."""
        file, well = self.folder.write(support.CONFIGURATION), mock.Mock(return_value=0)
        self.enterContext(mock.patch.multiple(node, serve=well, asyncio=mock.Mock(run=well)))
        with mock.patch.multiple(config.Config, node_tls=well, etcd_tls=well, password=well):
            status, said = self.told(file)
            self.assertEqual((status, "[authorities] Maker names an authority that may make others: " in said), (2, True), said)
            for name in ("Maker", "Carrier"):
                made = support.authority(name, extension="basicConstraints=critical,CA:true,pathlen:0")
                (self.folder.path / f"{name.lower()}.ca.pem").write_text(made)
            self.assertEqual(self.told(file)[1], "")

    def test_a_program_of_other_lines_is_refused(self):
        for script, told in [("echo '{\"lines\":1}'", "speaks lines of number 1, and this node those of number 2"),
                             ("echo no", "is no program of the ledger"), ("exit 1", "is no program of the ledger"),
                             ("echo 1", "is no program of the ledger"), ("echo '[]'", "is no program of the ledger")]:
            with self.subTest(script=script), self.assertRaisesRegex(FilterEnded, told):
                asyncio.run(node.version_of(self.program(script)))
        with self.assertRaisesRegex(FilterEnded, "^/nowhere/ledger cannot be run: No such file or directory$"):
            asyncio.run(node.version_of("/nowhere/ledger"))
        self.assertEqual(asyncio.run(node.version_of(self.program("echo '{\"lines\":2,\"rules\":7}'"))), {"lines": 2, "rules": 7})

    def test_the_program_speaks_these_lines(self):
        self.assertIn(f'"lines":{node.LINES},', support.ledger("version"))

    def ended(self, peer: str) -> str:
        """How a node ends over a peer that does this."""
        (self.folder.path / "genesis.json").write_text('{"count":1,"preferred":1}')
        program = self.program(f"case $1 in version) echo '{{\"lines\":2}}'; exit;; esac; {peer}")
        settings, out = self.folder.config(('"ledger"', f'"{program}"'), ('"127.0.0.1:7051"', '"127.0.0.1:1"'), text=support.LOCAL), io.StringIO()
        with contextlib.redirect_stdout(out), mock.patch.object(node.Node, "listen"):
            self.assertEqual(asyncio.run(asyncio.wait_for(node.serve(settings), 60)), 1)
        return out.getvalue().splitlines()[-1]

    def test_it_ends_with_its_peer_and_says_why(self):
        for peer, told in [("echo refused 702 block 3; exit 1", "ledger peer says: refused 702 block 3: the store is damaged"),
                           ("echo height 3; echo refused 807; exit 1", "ledger peer says: refused 807: the log is of another genesis file"),
                           ("echo height 3; kill -9 $$", "ledger peer ended with status -9"), ("exit 5", "ledger peer ended with status 5"),
                           ("echo height 3; read line; echo answer 9 9 null; cat", "ledger peer says: answer 9 9 null")]:
            with self.subTest(peer=peer):
                self.assertEqual(self.ended(peer), f"ended: {told}")

    def test_it_ends_while_it_reads_the_store(self):
        program = self.program("[ $1 = version ] && echo '{\"lines\":2}' || exec cat")
        settings = self.folder.config(('"ledger"', f'"{program}"'))

        async def serve() -> int:
            asyncio.get_running_loop().call_later(0.3, os.kill, os.getpid(), signal.SIGTERM)
            return await asyncio.wait_for(node.serve(settings), 10)
        no_tls = {it: mock.Mock(return_value=None) for it in ("etcd_tls", "node_tls", "password")}
        with mock.patch.multiple(config.Config, **no_tls):
            self.assertEqual(asyncio.run(serve()), 0)

    def test_rights_are_taken_anew_where_they_are_whole(self):
        it = mock.Mock(config=self.folder.config())
        for new, told, rights in [('read = ["Maker/bob"]', "rights are read anew", {"read": ["Maker/bob"]}),
                                  ('reads = []', "rights stay as they were: ", {"read": ["Maker/bob"]})]:
            self.folder.write(support.CONFIGURATION.replace('read = ["Maker/*"]', new))
            with mock.patch.object(node, "say") as said:
                node.Node.reload(it)
            self.assertIn(told, said.call_args.args[0])
            self.assertEqual(it.config.rights, rights)

    def test_nothing_that_is_said_speaks_to_a_terminal(self):
        out = io.StringIO()
        with contextlib.redirect_stdout(out):
            node.say("a\x1b[2Jb\nc")
        self.assertEqual(out.getvalue(), "a?[2Jb?c\n")

    def test_systemd_is_told(self):
        with mock.patch.dict("os.environ", {"NOTIFY_SOCKET": "@regtuma"}), mock.patch("socket.socket") as made:
            node.tell_systemd("READY=1")
        made.return_value.__enter__.return_value.sendto.assert_called_once_with(b"READY=1", "\0regtuma")

    def systemd(self) -> socket.socket:
        """What hears a process as systemd does, and wants to hear from its watchdog each tenth of a second."""
        made = self.enterContext(socket.socket(socket.AF_UNIX, socket.SOCK_DGRAM))
        made.bind(name := str(self.folder.path / "notify"))
        self.enterContext(mock.patch.dict("os.environ", {"NOTIFY_SOCKET": name, "WATCHDOG_USEC": "100000"}))
        return made

    def test_a_node_tells_systemd_that_it_is_there_and_goes_on(self):
        systemd, program = self.systemd(), self.program("case $1 in version) echo '{\"lines\":2}'; exit;; esac; echo height 0; exec cat > /dev/null")
        systemd.setblocking(False)
        (self.folder.path / "genesis.json").write_text('{"count":1,"preferred":1}')
        with socket.create_server(("127.0.0.1", 0)) as free:
            place = f"127.0.0.1:{free.getsockname()[1]}"
        settings = self.folder.config(('"ledger"', f'"{program}"'), ('"127.0.0.1:7051"', f'"{place}"'), text=support.LOCAL)

        async def serve() -> tuple[list[bytes], int]:
            served, said = asyncio.ensure_future(node.serve(settings)), list[bytes]()
            async with asyncio.timeout(60):
                while said.count(b"WATCHDOG=1") < 2:
                    said.append(await asyncio.get_running_loop().sock_recv(systemd, 100))
                os.kill(os.getpid(), signal.SIGTERM)
                return said, await served
        with contextlib.redirect_stdout(io.StringIO()):
            said, status = asyncio.run(serve())
        self.assertEqual((said, status), ([b"READY=1", b"WATCHDOG=1", b"WATCHDOG=1"], 0))

    def test_the_watchdog_is_fed_by_the_loop_alone(self):
        """A loop that stands still tells nothing, for which its unit has the node begun again."""
        self.assertIn("\nWatchdogSec=60\nRestart=always\n", (support.ROOT / "node/systemd/regtuma-node.service").read_text())
        systemd = self.systemd()
        systemd.settimeout(60)

        async def stand_still() -> None:
            fed = asyncio.ensure_future(node.feed_watchdog())
            await asyncio.to_thread(systemd.recv, 100)
            systemd.setblocking(False)
            with contextlib.suppress(BlockingIOError):
                while systemd.recv(100):
                    pass
            time.sleep(0.3)
            self.assertRaises(BlockingIOError, systemd.recv, 100)
            fed.cancel()
        asyncio.run(stand_still())


if __name__ == "__main__":
    unittest.main()
