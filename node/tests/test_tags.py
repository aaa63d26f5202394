"""Whose tags are right, by endorsements that the ledger's program makes; and that the gateway puts none which is not."""
import asyncio
import json
import pathlib
import tempfile
import unittest
from unittest import mock

import support
from regtuma.gateway import Gateway
from regtuma.tags import Key, Keys

CALL = {"chaincode": "assets", "arg": b"create pallet-7 Maker".hex(), "nonce": "07" * 16}
ORGANISATIONS = ("Maker", "Carrier", "Shop")


class Endorsed(unittest.IsolatedAsyncioTestCase):
    """The Maker has a shared key, the Carrier and the Shop sign."""

    @classmethod
    def setUpClass(cls):
        cls.room = tempfile.TemporaryDirectory()
        cls.addClassCleanup(cls.room.cleanup)
        at = pathlib.Path(cls.room.name)
        cls.genesis = support.ledger_of(at)
        cls.answers = {it: support.endorsed(at, it, CALL) for it in ORGANISATIONS}

    def setUp(self):
        self.members = {"serial": 0, "members": [{"name": it} for it in ORGANISATIONS]}
        self.peer = mock.Mock(ask_for=mock.AsyncMock(side_effect=lambda _: (self.members, 0)))
        self.keys = Keys(str(self.genesis))

    async def faults(self, answers: dict, own: dict | None = None) -> dict[str, str]:
        gateway: mock.Mock = mock.Mock(is_own=lambda *said: Gateway.is_own(gateway, *said))
        gateway.config.organisation, gateway.chain.keys = "Maker", self.keys
        gateway.chain.standing = lambda: self.keys.at(self.peer, 0)
        return await Gateway.faults(gateway, CALL, answers, own)

    async def test_what_the_program_endorses_is_right(self):
        self.assertEqual(await self.faults(self.answers, self.answers["Maker"]), {})

    async def test_a_lie_is_told_by_who_gave_it(self):
        right, not_right = self.answers["Carrier"], "its endorsement is not by the key by which it stands"
        tag, other = right["endorsement"], self.answers["Shop"]["endorsement"]
        for lie in (tag[:-2] + f"{int(tag[-2:], 16) ^ 1:02x}", other, tag[2:], tag[:-2], tag + "00", "", "00", self.answers["Maker"]["endorsement"]):
            self.assertEqual(await self.faults({"Maker": self.answers["Maker"], "Carrier": {**right, "endorsement": lie}}), {"Carrier": not_right})
        self.assertEqual(await self.faults({"Depot": right}), {"Depot": not_right})
        other_call = {**right, "payload": right["payload"].replace(b"pallet-7".hex(), b"pallet-8".hex())}
        self.assertEqual(await self.faults({"Carrier": other_call}), {"Carrier": "its payload is that of another call"})

    async def test_what_the_own_peer_signs_by_a_key_of_today_is_not_looked_at(self):
        signed = {**self.answers["Maker"], "endorsement": "00"}
        self.assertEqual(await self.faults({"Maker": signed}), {})
        not_right = {"Maker": "its endorsement is not by the key by which it stands"}
        self.assertEqual(await self.faults({"Maker": {**signed, "height": 1}}), not_right)

    async def test_a_signature_is_of_one_ledger(self):
        text, not_right = self.genesis.read_bytes(), "its endorsement is not by the key by which it stands"
        for rules, changed, lies in ((2, text, {}), (2, text + b" ", dict.fromkeys(("Carrier", "Shop"), not_right)),
                                     (1, text.replace(b'"rules": 2', b'"rules": 1'), dict.fromkeys(("Carrier", "Shop"), not_right))):
            other = self.genesis.with_name("other.json")
            other.write_bytes(changed)
            self.assertEqual(json.loads(changed).get("rules", 1), rules)
            self.keys = Keys(str(other))
            self.assertEqual(await self.faults(self.answers), lies)

    async def test_what_this_node_does_not_execute_is_told(self):
        own = {**self.answers["Maker"], "payload": self.answers["Maker"]["payload"] + "00"}
        self.assertEqual(await self.faults({"Shop": self.answers["Shop"]}, own), {"Shop": "its payload is not what this node's own execution gives"})
        for another in ({**own, "height": 1}, {"refused": "refused 406", "height": 0}, {"denied": "no", "height": 0}):
            self.assertEqual(await self.faults({"Shop": self.answers["Shop"]}, another), {})

    async def test_the_key_that_stands_counts(self):
        shop = await self.keys.at(self.peer, 0)
        self.members = {"serial": 1, "members": [{"name": "Carrier", "public": shop["Shop"].public.hex()}, {"name": "Shop"}]}
        self.assertEqual(await self.keys.at(self.peer, 0), shop)
        self.peer.ask_for.side_effect = lambda _: (self.members, 1)
        stand = await self.keys.at(self.peer, 1)
        self.assertEqual((list(stand), stand["Carrier"], stand["Shop"], self.keys.serial), (["Carrier", "Shop"], shop["Shop"], shop["Shop"], 1))

    async def test_they_are_asked_for_once_behind_each_block(self):
        self.peer.ask_for.side_effect = None
        for height, asked in ((3, 1), (3, 1), (5, 2)):
            self.peer.ask_for.return_value = (self.members, height)
            found = await asyncio.gather(*(self.keys.at(self.peer, height) for _ in range(500)))
            self.assertEqual((self.peer.ask_for.await_count, [list(it) for it in found]), (asked, [list(ORGANISATIONS)] * 500))

    async def test_it_is_known_behind_which_blocks_keys_stood(self):
        self.assertFalse(self.keys.stood(0))
        for serial, height, known in ((0, 3, [3]), (0, 5, [3, 4, 5]), (1, 7, [7]), (1, 8, [7, 8])):
            self.members["serial"], self.peer.ask_for.side_effect = serial, lambda _, height=height: (self.members, height)
            await self.keys.at(self.peer, height)
            self.assertEqual([it for it in range(10) if self.keys.stood(it)], known)

    def test_a_key_that_is_none_is_not_right(self):
        for key in (Key(), Key(public=b"\xff" * 32), Key(public=b"short")):
            self.assertFalse(key.is_right(bytes(64), b"payload"))


if __name__ == "__main__":
    unittest.main()
