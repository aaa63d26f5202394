"""Flags are those of the rules, and numbers have words."""
import asyncio
import re
import unittest

import support
from regtuma import numbers, table


class Numbers(unittest.TestCase):
    def test_flags_are_those_of_the_rules(self):
        text = (support.ROOT / "docs" / "RULES.md").read_text(encoding="utf-8")
        rows = re.findall(r"^\| ([A-Z_]+) \| ([0-4]) \|", text, re.MULTILINE)
        self.assertEqual({int(number): name for name, number in rows}, table.FLAGS)

    def test_a_refusal_in_words(self):
        self.assertEqual(numbers.in_words("refused 404 status 2"), {"refused": 404, "why": "the chaincode refused the call (status 2)"})
        self.assertEqual(numbers.in_words("refused 499"), {"refused": 499, "why": "refused 499"})
        self.assertEqual(numbers.explained("ledger peer says: refused 702 block 3"), "ledger peer says: refused 702 block 3: the store is damaged")
        self.assertEqual(numbers.explained("height 4"), "height 4")


class Peer:
    """Answers each key by one version."""

    async def ask_for(self, what, key):
        return {"version": "7.0"} if key == "62" else None, 9


class Why(unittest.TestCase):
    def why(self, flag, reads=()):
        tx = {"flag": flag, "reads": [{"key": key, "version": version} for key, version in reads],
              "endorsements": [{"org": "Shop", "right": True}, {"org": "Maker", "right": False}]}
        return asyncio.run(numbers.why(Peer(), tx))

    def test_flags_in_words(self):
        self.assertEqual(self.why(0), "VALID")
        self.assertEqual(self.why(1), "the endorsements that are right do not satisfy the policy: Shop; not right by the key that stood: Maker")
        self.assertEqual(self.why(2, [("62", "7.0"), ("61", "2.0")]), "it read a at 2.0, which is absent now; call again")
        self.assertEqual(self.why(2, [("62", None)]), "it read b absent, which is at 7.0 now; call again")
        self.assertEqual(self.why(2, [("62", "7.0")]), "MVCC_READ_CONFLICT")
        self.assertIn("range", self.why(3))
        self.assertIn("earlier", self.why(4))


if __name__ == "__main__":
    unittest.main()
