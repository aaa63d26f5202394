"""Ids are those of the program."""
import json
import re
import tempfile
import unittest

import support
from regtuma import wire

EXAMPLE = support.ROOT / "examples" / "assets"
NONCE = "07" * 16
CALL = {"chaincode": "assets", "arg": b"list".hex(), "nonce": NONCE}


def proposals() -> list[dict]:
    """One of each kind, and a call without an argument."""
    modules = json.loads((EXAMPLE / "genesis.json").read_text())["modules"]
    digest = support.ledger("digest", support.ROOT / "examples/chaincode/asset_register_2.wasm").strip()
    assert modules
    upgrade = {"upgrade": "assets", "module": digest, "profile": 1, "fuel": 141, "policy": "'Maker'", "nonce": NONCE}
    public = support.ledger("public", EXAMPLE / "example_keys" / "carrier.key").split()[1]
    members = [{"name": "Depot", "public": public}, {"name": "Maker"}]
    return [CALL, {**CALL, "arg": "-"}, upgrade, {"members": members, "policy": "OR('Depot','Maker')", "serial": 1, "nonce": NONCE}]


class Ids(unittest.TestCase):
    def test_an_id_is_that_of_sim(self):
        said = support.ledger("sim", EXAMPLE / "genesis.json", "assets", CALL["arg"], "--nonce", NONCE)
        self.assertEqual(said.splitlines()[0], f"tx {wire.id_of(CALL)}")

    def test_ids_of_all_kinds_are_those_of_run(self):
        for proposal in proposals():
            with self.subTest(proposal=proposal), tempfile.NamedTemporaryFile("w", suffix=".jsonl") as events:
                begin = {"do": "begin", "peer": 0, "seat": 0, **proposal}
                events.write(f"{json.dumps(begin)}\n" + '{"do":"finish","peer":0,"seat":0,"as":"e"}\n')
                events.flush()
                said = support.ledger("run", EXAMPLE / "genesis.json", events.name, "--keys", EXAMPLE / "example_keys/all.key")
                found = re.search("endorsed e ([0-9a-f]+)", said)
                if proposal.get("arg") == "-":
                    self.assertIn("refused 404", said)
                else:
                    self.assertEqual(found and found[1], wire.id_of(proposal), said)

    def test_an_envelope(self):
        self.assertEqual(wire.envelope("aa", ["01", "02"]), "aa020102")


if __name__ == "__main__":
    unittest.main()
