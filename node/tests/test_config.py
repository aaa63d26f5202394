"""Each mistake of a configuration is told in one sentence, with its place."""
import json
import pathlib
import ssl
import subprocess
import unittest
from unittest import mock

import support
from regtuma import config

# What stands in the configuration, what is put in its place, and what is told of it.
MISTAKES = [
    ('organisation = "Maker"\n', "", "node.toml: organisation is missing: it has to be a name of 1 to 32 letters"),
    ('organisation = "Maker"', 'organisation = "Ma ker"', "line 1: organisation has to be a name of 1 to 32 letters, digits and _, and is 'Ma ker'"),
    ('listen = "node.sock"', 'listen = "10.0.0.1:7051"', "line 2: listen has to be the name of a socket, as "),
    ('listen = "node.sock"', 'listen = 7051', "line 2: listen has to be the name of a socket, as "),
    ('listen = "node.sock"', f'listen = "{100 * "x"}"', "of more than 107 bytes"),
    ('page = "page.sock"', 'page = "127.0.0.1:8080"', "line 3: page has to be the name of a socket, as "),
    ('page = "page.sock"', 'pages = "page.sock"', "line 3: pages is no name that is known here: possible are organisation, "
     "listen, page, or a table of ledger, log, tls, etcd, ticks, rights, nodes, authorities"),
    ('[ticks]\n', '[tick]\n', "tick is no name that is known here"),
    ('program = "ledger"\n', "", "line 5: [ledger] program is missing: it has to be the name of a file"),
    ('genesis = "genesis.json"', 'genesis = "other.json"', "line 7: [ledger] genesis names "),
    ('store = "chain.store"', 'store = "nowhere/chain.store"', "line 8: [ledger] store names "),
    ('keys = "maker.key"', 'key = "maker.key"', "line 9: [ledger] key is no name that is known here: possible are program, genesis, store, keys"),
    ('keys = "maker.key"', 'seen = 0', "line 9: [ledger] seen has to be a whole number from 1 to 4000000000, and is 0"),
    ('keys = "maker.key"', 'seen = true', "[ledger] seen has to be a whole number"),
    ('keys = "maker.key"', 'endorsers = 1', "line 9: [ledger] endorsers is no name that is known here: possible are program, genesis, "),
    ('keys = "maker.key"', 'seen = 1.5', "[ledger] seen has to be a whole number from 1 to 4000000000, and is 1.5"),
    ('keys = "maker.key"', 'approver = "yes"', "[ledger] approver has to be a command, as a list of words"),
    ('keys = "maker.key"', 'past_forks = true', "[ledger] past_forks has to be a list of what was looked into"),
    ('keys = "maker.key"', 'past_forks = ["Shop 0"]', "[ledger] past_forks has to be a list of what was looked into"),
    ('keys = "maker.key"', f'keys = "{32 * "5e"}"', "line 9: [ledger] keys names "),
    ('"etcd.password"', f'"{16 * "5e"}"', "line 23: [etcd] password_file names "),
    ('[tls]\ncertificate = "node.pem"\n', '[tls]\n', "line 11: [tls] certificate is missing"),
    ('Carrier = "carrier.ca.pem"\n', '', "line 15: [authorities] Carrier is missing: name the file with its authority's certificate"),
    ('Carrier = "carrier.ca.pem"', 'Carrier = "maker.ca.pem"', "line 17: [authorities] Carrier names "),
    ('Carrier = "carrier.ca.pem"', 'Carrier = "node.pem"', "which has to hold certificates of authorities alone"),
    ('Carrier = "carrier.ca.pem"', 'Carrier = "carrier.ca.pem"\n"a b" = "carrier.ca.pem"', "line 18: [authorities] a b is no name of an organisation"),
    ('["https://127.0.0.1:2379"]', '["http://127.0.0.1:2379"]', "line 20: [etcd] endpoints has to be a list of URLs with ports"),
    ('["https://127.0.0.1:2379"]', '[]', "[etcd] endpoints has to be a list of URLs with ports, one at least"),
    ('"members.pem"', '"node.pem"', "line 21: [etcd] authorities names "),
    ('"members.pem"', '"carrier.ca.pem"', "with Carrier's authority of clients and nodes"),
    ('authorities = "members.pem"\n', '', "line 19: [etcd] authorities is missing"),
    ('user = "maker"\n', '', "[etcd] user and password_file go together: name both, or none"),
    ('Carrier = "https://127.0.0.2:7051"', 'Carrier = "https://127.0.0.2"', "[nodes] Carrier has to be a URL with a port"),
    ('Carrier = "https://127.0.0.2:7051"', 'Maker = "https://127.0.0.2:7051"', "[nodes] Maker is this organisation itself"),
    ('[rights]\nread', '[rights]\nwrite', "line 31: [rights] write is no name that is known here: possible are read, observe, evaluate, submit, endorse, agree"),
    ('read = ["Maker/*"]', 'read = "Maker/*"', "[rights] read has to be a list of names of certificates"),
    ('read = ["Maker/*"]', 'read = ["alice"]', "[rights] read has to be a list of names of certificates"),
    ('wait = 0.5', 'wait = 0', "[ticks] wait has to be a number from 0.01 to 3600, and is 0"),
    ('wait = 0.5', 'wait = 701', "[ticks] longest is 700, and below wait, which is 701"),
    ('wait = 0.5', 'begins = 2026-12-01', "[ticks] begins and lasts_days go together: name both, or none"),
    ('wait = 0.5', 'begins = "2026-12-01"\nlasts_days = 9', "[ticks] begins has to be a date, as 2026-12-01"),
    ('wait = 0.5', 'begins = 2026-12-01\nlasts_days = 9\nburst = 49151', "[ticks] burst is 49,151, and has to be below an organisation's share, 49,151 blocks"),
    ('wait = 0.5', 'burst = 4000000001', "[ticks] burst has to be a whole number from 0 to 4000000000, and is 4000000001"),
    ('listen = ', 'listen ', "node.toml is no TOML: "),
    ('organisation = "Maker"', 'organisation = "Maker"\nledger = 1', "node.toml is no TOML: "),
]

# The same of the configuration of a node on one machine.
LOCAL_MISTAKES = [
    ('[log]\nfile = "log"\n', '', "[tls] certificate is missing"),
    ('file = "log"\n', '', "line 4: [log] file is missing: it has to be the name of a file"),
    ('file = "log"', 'file = "nowhere/log"', "line 5: [log] file names "),
    ('[ledger]', '[etcd]\nendpoints = ["https://127.0.0.1:2379"]\n\n[ledger]', "line 7: [etcd] is not for a node on one machine"),
    ('[ledger]', '[tls]\n\n[ledger]', "line 7: [tls] is not for a node on one machine"),
    ('[ledger]', '[authorities]\n\n[ledger]', "line 7: [authorities] is not for a node on one machine"),
    ('[ticks]', '[rights]\nread = ["Maker/*"]\n\n[ticks]', "line 16: [rights] is not for a node on one machine"),
    ('"127.0.0.1:7051"', '"0.0.0.0:7051"', "line 2: listen has to be a place on the loopback where [log] is"),
    ('"127.0.0.1:7051"', '"[::]:7051"', "line 2: listen has to be a place on the loopback where [log] is"),
    ('"127.0.0.1:7051"', '"10.0.0.1:7051"', "line 2: listen has to be a place on the loopback where [log] is"),
    ('"127.0.0.1:7051"', '"regtuma.example:7051"', "line 2: listen has to be a place on the loopback where [log] is"),
    ('[log]', 'page = "127.0.0.1:8080"\n\n[log]', "line 4: page is not for a node on one machine"),
    ('"http://127.0.0.1:7052"', '"http://10.0.0.1:7052"', "[nodes] Carrier has to be a URL on the loopback with a port"),
    ('"http://127.0.0.1:7052"', '"https://127.0.0.1:7052"', "[nodes] Carrier has to be a URL on the loopback with a port"),
    ('Carrier =', 'Maker =', "[nodes] Maker is this organisation itself"),
]


class Handshakes(unittest.TestCase):
    def test_a_server_chooses_neither_version_nor_group(self):
        """By a group of its own of 10,000 bits a handshake takes the loop a second, and by the largest one of TLS 1.3 a seventh of it."""
        folder = support.Folder()
        self.addCleanup(folder.close)
        made, said = folder.config(), ssl.MemoryBIO()
        tls = made._trusting([made.authorities["Maker"]])
        with self.assertRaises(ssl.SSLWantReadError):
            tls.wrap_bio(ssl.MemoryBIO(), said, server_hostname="127.0.0.1").do_handshake()
        hello = said.read()
        for extension in ("002b 0003 02 0304", "000a 0004 0002 0017"):
            self.assertIn(bytes.fromhex(extension), hello)


class Mistakes(unittest.TestCase):
    def setUp(self):
        self.folder = support.Folder()
        self.addCleanup(self.folder.close)

    def test_a_whole_one_is_read(self):
        found = self.folder.config()
        self.assertEqual((found.organisation, found.ledger.seen, found.ticks.wait), ("Maker", 64, 0.5))
        self.assertEqual(found.ledger.store, str(self.folder.path / "chain.store"))

    def test_numbers_of_blocks_go_by_the_rules_of_the_ledger(self):
        genesis, plan = self.folder.path / "genesis.json", "begins = 2026-12-01\nlasts_days = 9\nburst = "
        for rules, last, burst in ((1, 65_535, 49_150), (2, 4_000_000_000, 49_151), (2, 4_000_000_000, 2_999_999_999)):
            genesis.write_text(json.dumps({"count": 1, "preferred": 1, "rules": rules}))
            found = self.folder.config(("wait = 0.5", f"{plan}{burst}"), ('keys = "maker.key"', 'seen = 70000'))
            self.assertEqual((found.ledger.seen, found.ticks.last, found.ticks.burst), (70_000, last, burst))
            self.assertGreater(found.ticks.each(), 0)
        for text in ("", "{}", "[]", "[" * 100_000, '{"count":1,"preferred":1,"rules":3}', '{"count":1,"preferred":1,"rules":[]}'):
            genesis.write_text(text)
            self.assertEqual(self.folder.config().ticks.last, 65_535, text[:50])
        genesis.write_text(json.dumps({"count": 1, "preferred": 1, "rules": 2}))
        with self.assertRaisesRegex(config.Mistake, "burst is 3,000,000,000, and has to be below an organisation's share, 3,000,000,000 blocks"):
            self.folder.config(("wait = 0.5", f"{plan}3000000000"))

    def test_each_mistake_is_one_sentence(self):
        for old, new, told in MISTAKES:
            with self.subTest(new=new):
                with self.assertRaises(config.Mistake) as raised:
                    self.folder.config((old, new))
                said = str(raised.exception)
                self.assertIn(told, said)
                self.assertNotIn("\n", said)
                # No secret is told that stands in the place of a file's name.
                self.assertNotIn("5e5e", said)
                self.assertIn("node.toml", said)

    def test_an_authority_of_another_kind_is_told(self):
        """The proxy would take it for an authority of whom it names, and nothing else here would see it."""
        trusted = subprocess.run(["openssl", "x509", "-trustout"], input=support.authority("Maker", " too"), stdout=subprocess.PIPE, text=True).stdout
        self.assertIn("-----BEGIN TRUSTED CERTIFICATE-----", trusted)
        for name, told in (("carrier.ca.pem", "[authorities] Carrier names "), ("members.pem", "[etcd] authorities names ")):
            file, whole = self.folder.path / name, (self.folder.path / name).read_text()
            file.write_text(whole + trusted)
            with self.assertRaises(config.Mistake) as raised:
                self.folder.config()
            self.assertIn(told, str(raised.exception))
            self.assertIn("which has to hold certificates of authorities alone", str(raised.exception))
            file.write_text(whole)

    def test_each_mistake_on_one_machine_is_one_sentence(self):
        for old, new, told in LOCAL_MISTAKES:
            with self.subTest(new=new):
                with self.assertRaises(config.Mistake) as raised:
                    self.folder.config((old, new), text=support.LOCAL)
                self.assertIn(told, str(raised.exception))
                self.assertNotIn("\n", str(raised.exception))

    def test_a_node_on_one_machine_needs_no_certificate(self):
        for name in ("node.pem", "node.key", "etcd.password"):
            (self.folder.path / name).unlink()
        for listen in ("127.0.0.1:7051", "[::1]:7051", "localhost:7051"):
            found = self.folder.config(("127.0.0.1:7051", listen), text=support.LOCAL)
            found.check_files()
            self.assertEqual((found.is_local, found.organisations), (True, ["Maker", "Carrier"]))
            self.assertEqual((found.node_tls("Carrier"), found.log_file), (None, str(self.folder.path / "log")))
        (self.folder.path / "maker.key").chmod(0o640)
        with self.assertRaisesRegex(config.Mistake, "maker.key, which others than its owner may read: chmod 600 "):
            self.folder.config(text=support.LOCAL)

    def test_the_proxy_alone_enters_the_folder_of_the_sockets(self):
        for socket, told in [("/tmp/node.sock", "names /tmp/node.sock, whose folder everybody may enter: chmod o= /tmp"),
                             ("nowhere/node.sock", "nowhere/node.sock, and there is no such folder")]:
            with self.subTest(socket=socket), self.assertRaisesRegex(config.Mistake, told):
                self.folder.config(('"node.sock"', f'"{socket}"')).check_sockets()
        self.folder.config().check_sockets()

    def test_an_authority_has_the_name_of_one_organisation(self):
        """Of several the proxy takes the first one, so that another organisation would be charged."""
        (self.folder.path / "carrier.ca.pem").write_text(support.authority("Maker/O=Carrier", "/O=Carrier"))
        with self.assertRaisesRegex(config.Mistake, r"\[authorities\] Carrier names .*carrier.ca.pem, with an authority of None$"):
            self.folder.config()

    def test_secrets_are_the_owners_alone(self):
        for name in ("maker.key", "node.key", "etcd.password"):
            with self.subTest(name=name):
                (self.folder.path / name).chmod(0o640)
                with self.assertRaisesRegex(config.Mistake, f"{name}, which others than its owner may read: chmod 600 "):
                    self.folder.config()
                (self.folder.path / name).chmod(0o600)

    def test_a_genesis_file_with_a_shared_key_is_the_owners_alone(self):
        genesis = self.folder.path / "genesis.json"
        genesis.chmod(0o644)
        genesis.write_text('{"orgs":[{"name":"key","public":"00"}]}')
        self.folder.config()
        genesis.write_text('{"orgs":[{"name":"A","key" : "00"}]}')
        with self.assertRaisesRegex(config.Mistake, r"genesis names .*genesis.json, which others than its owner may read: chmod 600 "):
            self.folder.config()
        genesis.chmod(0o600)
        self.folder.config()
        refused = mock.patch.object(pathlib.Path, "read_bytes", side_effect=PermissionError(13, "Permission denied"))
        with refused, self.assertRaisesRegex(config.Mistake, r"genesis names .*genesis.json, which cannot be read: Permission denied$"):
            self.folder.config()

    def test_no_table_is_left_out_by_another_kind(self):
        text = support.CONFIGURATION.replace("[ticks]\nwait = 0.5\n", "")
        with self.assertRaisesRegex(config.Mistake, "line 1: ticks has to be a table"):
            config.read(self.folder.write(f"ticks = 5\n{text}"))

    def test_a_file_that_is_not_there(self):
        with self.assertRaisesRegex(config.Mistake, "^nowhere.toml cannot be read: No such file or directory$"):
            config.read("nowhere.toml")
        (self.folder.path / "node.toml").write_bytes(b"\xff")
        with self.assertRaisesRegex(config.Mistake, "node.toml is no UTF-8$"):
            config.read(str(self.folder.path / "node.toml"))


if __name__ == "__main__":
    unittest.main()
