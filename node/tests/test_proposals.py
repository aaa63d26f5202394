"""What a request may spell, and what is told of what it may not."""
import unittest

import support
from regtuma.links import is_answer
from regtuma.proposals import Refused, bound_of, call_of, checked, described, number_of, organisations_of, seconds_of

NONCE = "07" * 16
CALL = {"chaincode": "assets", "arg": "00", "nonce": NONCE}
UPGRADE = {"upgrade": "assets", "module": "ab" * 32, "profile": 17, "fuel": 9, "policy": "'Maker'", "nonce": NONCE}
AMENDMENT = {"members": [{"name": "Maker"}, {"name": "Depot", "public": "ab" * 32}], "policy": "'Maker'", "serial": 1, "nonce": NONCE}
# A proposal, what is changed in it, and what is told.
MISTAKES = [
    ({}, {}, "a proposal has chaincode, upgrade or members"),
    (CALL, {"fuel": 1}, "has exactly the fields arg, chaincode, nonce"),
    (CALL, {"chaincode": "Assets"}, "chaincode is a name"),
    (CALL, {"chaincode": "a" * 33}, "chaincode is a name"),
    (CALL, {"arg": ""}, "an argument is hex of 1 to 4096 bytes, or - for none"),
    (CALL, {"arg": "0"}, "an argument is hex"),
    (CALL, {"arg": "00" * 4097}, "an argument is hex"),
    (CALL, {"arg": 5}, "an argument is hex"),
    (CALL, {"nonce": "07"}, "nonce is hex of 16 bytes"),
    (CALL, {"nonce": None}, "nonce is hex of 16 bytes"),
    (UPGRADE, {"module": "ab"}, "module is the digest of one"),
    (UPGRADE, {"profile": 3}, "profile is 1, 2, 17 or 18"),
    (UPGRADE, {"profile": True}, "profile is 1, 2, 17 or 18"),
    (UPGRADE, {"fuel": 0}, "fuel is a number from 1 to 10000000"),
    (UPGRADE, {"policy": "é"}, "policy is a text"),
    (UPGRADE, {"upgrade": ""}, "upgrade is a name"),
    (AMENDMENT, {"members": []}, "members is a list of 1 to 16 objects"),
    (AMENDMENT, {"members": [{"name": "Maker", "key": "00"}]}, "a member has a name"),
    (AMENDMENT, {"members": [{"name": "Ma ker"}]}, "a member has a name"),
    (AMENDMENT, {"members": [{"name": "Maker", "public": "ab"}]}, "public is a public key"),
    (AMENDMENT, {"serial": -1}, "serial is a number from 0 on"),
    (AMENDMENT, {"serial": 2**32}, "serial is a number from 0 on"),
]


class Proposals(unittest.TestCase):
    def refused(self, told: str, call, *words) -> None:
        with self.assertRaisesRegex(Refused, told) as raised:
            call(*words)
        self.assertEqual(raised.exception.status, 400)

    def test_each_kind_is_one(self):
        for it in (CALL, {**CALL, "arg": "-"}, UPGRADE, AMENDMENT):
            self.assertEqual(checked(it), it)

    def test_each_mistake_is_told(self):
        for proposal, change, told in MISTAKES:
            with self.subTest(change=change):
                self.refused(told, checked, {**proposal, **change})

    def test_a_call_by_texts(self):
        found = call_of({"chaincode": "assets", "args": ["read", "é"]})
        self.assertEqual((found["arg"], len(found["nonce"])), ("read é".encode().hex(), 32))
        self.assertEqual(call_of({"chaincode": "assets"})["arg"], "-")
        self.assertEqual(call_of({**CALL, "organisations": ["Maker"]}), CALL)

    def test_a_call_that_is_none(self):
        self.refused("may have nonce and organisations", call_of, {**CALL, "args": []})
        self.refused("may have nonce and organisations", call_of, {**CALL, "wait": 1})
        self.refused("args is a list of texts", call_of, {"chaincode": "assets", "args": "read"})
        self.refused("args is a list of texts", call_of, {"chaincode": "assets", "args": [1]})

    def test_organisations(self):
        self.assertIsNone(organisations_of({}))
        self.assertEqual(organisations_of({"organisations": ["Shop", "Maker", "Shop"]}), ["Shop", "Maker"])
        for it in ([], "Maker", [1], ["Ma ker"], ["a"] * 33):
            self.refused("organisations is a list of their names", organisations_of, {"organisations": it})

    def test_bounds_and_numbers(self):
        self.assertEqual([bound_of(it, "start") for it in ("", "a/", "0xff")], ["", "612f", "ff"])
        self.refused("start is a text of up to 64 bytes, or hex behind 0x", bound_of, "0xf", "start")
        self.refused("start is a text of up to 64 bytes, or hex behind 0x", bound_of, "a" * 65, "start")
        self.assertEqual(number_of("7", "limit", 1, 9), 7)
        for it in ("", "-1", "10", "1.5", "٣", "x", "9" * 5000):
            self.refused("limit is a whole number from 1 to 9", number_of, it, "limit", 1, 9)

    def test_seconds(self):
        self.assertEqual([seconds_of(it, 600.0) for it in ("0", "0.5", "30", "9999")], [0, 0.5, 30, 600])
        for it in ("", "-1", "nan", "inf", "1e9", "1" * 9):
            self.refused("wait is a number of seconds, up to 600", seconds_of, it, 600.0)


class AnswersOfNodes(unittest.TestCase):
    def test_three_kinds(self):
        for it in ({"payload": "aa", "endorsement": "01"}, {"refused": "refused 404 status 2"}, {"denied": "not today"}):
            self.assertTrue(is_answer({**it, "height": 1}))

    def test_what_is_none(self):
        for it in (None, [], {}, {"payload": "aa"}, {"payload": "aa", "endorsement": "01\nff"}, {"payload": 1, "endorsement": "01"},
                   {"refused": "yes"}, {"refused": "refused x"}, {"refused": "refused 4\nrefused 5"}, {"refused": f"refused 404 {'a' * 301}"},
                   {"denied": None}):
            self.assertFalse(is_answer({**it, "height": 1} if isinstance(it, dict) else it), it)
        self.assertFalse(is_answer({"denied": "no", "height": "1"}))


class Words(unittest.TestCase):
    """What one agrees to."""

    def test_an_upgrade(self):
        upgrade = {"upgrade": "assets", "module": "0f" * 32, "profile": 2, "fuel": 900, "policy": "'Maker'", "nonce": "07" * 16}
        said = f"assets gets the module {'0f' * 32}, a module of the genesis file, 900 units of fuel a call, and the policy 'Maker'"
        self.assertEqual(described(upgrade), said)
        self.assertIn("any module at hand", described({**upgrade, "profile": 18}))

    def test_an_amendment(self):
        stand = {"serial": 0, "members": [{"name": "Carrier"}, {"name": "Maker", "public": "aa"}, {"name": "Shop", "public": None}], "policy": "'Shop'"}
        change = {"members": [{"name": "Carrier", "public": "bb"}, {"name": "Depot"}, {"name": "Maker", "public": "aa"}], "policy": "'Maker'",
                  "serial": 1, "nonce": "07" * 16}
        rest = "the members are Carrier, Depot, Maker; the policy for changes is 'Maker'"
        self.assertEqual(described(change, stand), f"Shop leaves; Depot joins with the key of the genesis file; Carrier gets the key bb; {rest}")
        self.assertEqual(described(change), rest)


if __name__ == "__main__":
    unittest.main()
