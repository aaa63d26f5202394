"""Whose envelope of a call came first, and who is blamed for that."""
import unittest
from unittest import mock

import support
from regtuma import config, gateway, origins, wire
from regtuma.links import Link
from regtuma.origins import Origins, id_in
from regtuma.wire import id_of, proposal_in, proposal_of
from test_chain import Case

NONCE = "07" * 16
CALL = {"chaincode": "assets", "arg": "616263", "nonce": NONCE}
LONG = {"chaincode": "a" * 32, "arg": "00" * 4096, "nonce": NONCE}
UPGRADE = {"upgrade": "assets", "module": "0f" * 32, "profile": 17, "fuel": 9, "policy": "'Maker'", "nonce": NONCE}
MEMBERS = [{"name": "Maker"}, {"name": "S" * 32, "public": "ab" * 32}, {"name": "Carrier", "public": "cd" * 32}]
AMENDMENT = {"members": MEMBERS, "policy": "'Maker'" + " " * 1000, "serial": 7, "nonce": NONCE}


def envelope(proposal: dict, rest: str = "0" * 18) -> str:
    """An envelope of a proposal, as far as that goes: what is behind it."""
    return proposal_of(proposal).encode().hex() + rest


class Ids(unittest.TestCase):
    def test_an_envelope_begins_with_its_proposal(self):
        for proposal in (CALL, {**CALL, "arg": "-"}, LONG, UPGRADE, AMENDMENT):
            self.assertEqual(proposal_in(proposal_of(proposal).encode() + b"more"), proposal_of(proposal).encode())
            for made in (envelope(proposal), envelope(proposal, "").upper(), envelope(proposal, "ab" * 9999)):
                self.assertEqual(id_in(made.encode()), id_of(proposal))
        self.assertEqual(len(proposal_of(LONG).encode()), wire.LONGEST_PROPOSAL)

    def test_what_is_no_envelope_has_no_id(self):
        for line in (b"tick", b"seen Shop 7 00", b"", b"0", b"00", b"80", b"8001", b"800100000001ff00", b"\xff"):
            self.assertEqual(id_in(line), "", line)


class Blame(unittest.TestCase):
    def setUp(self):
        self.said: list[str] = []
        self.origins, self.call_id = Origins("Maker", self.said.append), id_of(CALL)

    def read(self, name: str, *envelopes: str) -> None:
        self.origins.read(name.encode("latin-1"), [f"7.{place} {it}\n".encode() for place, it in enumerate(envelopes)])

    def blamed(self, *entries: tuple[str, str], flag: str = "1", put: str = "") -> set[str]:
        """Who is blamed where these entries come in this order, and the first has this flag."""
        self.origins = Origins("Maker", self.said.append)
        self.origins.begin(self.call_id)
        if put:
            self.origins.note_put(self.call_id, put)
        for name, made in entries:
            self.read(name, "tick", envelope(UPGRADE), made)
        self.origins.judge(self.call_id, flag)
        self.origins.judge(self.call_id, "4")
        return self.origins.blamed

    def test_who_uses_up_an_id_before_or_behind_what_is_put(self):
        own, forged = envelope(CALL), envelope(CALL, "00")
        for put, entries in (("", [("Shop/x", forged)]), (own, [("Shop/x", forged), ("Maker/call", own)]),
                             (own, [("Shop/x", forged), ("Carrier/x", own)])):
            self.assertEqual(self.blamed(*entries, put=put), {"Shop"})
            self.assertEqual(self.origins.used_up, {self.call_id: "Shop"})

    def test_nobody_is_blamed(self):
        """For an envelope that is endorsed, or aborted; for one that is equal to what was put; for what is the node's own; and for one that
        came later."""
        own, other = envelope(CALL), envelope(CALL, "11" * 9)
        for flag in "0234":
            self.assertEqual(self.blamed(("Shop/x", other), flag=flag, put=own), set())
        for entries in ([("Shop/x", own.upper())], [("Maker/call", own), ("Shop/x", other)], [("Maker/other", other)], []):
            self.assertEqual(self.blamed(*entries, put=own), set())

    def test_whose_envelopes_were_read(self):
        own, other = envelope(CALL), envelope(CALL, "00")
        for entries, wanted in (([], True), ([("Maker/call", own)], True), ([("Shop/x", other), ("Maker/call", own)], False),
                                ([("\xff/x", other)], False)):
            self.assertEqual((self.blamed(*entries, flag="0", put=own), self.origins.is_own(self.call_id)), (set(), wanted))
        self.origins.end(self.call_id)
        self.assertEqual((self.origins.is_own(self.call_id), self.origins.foreign), (False, set()))

    def use_up(self, count: int) -> None:
        """The Shop uses up the ids of so many calls."""
        for nonce in range(count):
            proposal = {**CALL, "nonce": f"{nonce:032x}"}
            self.origins.begin(id_of(proposal))
            self.read("Shop/x", envelope(proposal, "00"))
            self.origins.judge(id_of(proposal), "1")
            self.origins.end(id_of(proposal))

    def test_it_is_told_once(self):
        self.use_up(3)
        self.assertEqual((len(self.said), len(self.origins.used_up), self.origins.first), (1, 3, {}))

    def test_so_many_are_remembered(self):
        with mock.patch.object(origins, "REMEMBERED", 2):
            self.use_up(5)
        self.assertEqual(list(self.origins.used_up), [id_of({**CALL, "nonce": f"{it:032x}"}) for it in (3, 4)])

    def test_what_is_not_under_way_is_not_looked_at(self):
        with mock.patch.object(origins, "id_in", side_effect=AssertionError):
            self.read("Shop/x", envelope(CALL))


class Choice(Case):
    async def test_who_is_blamed_is_asked_where_no_others_will_do(self):
        self.config.nodes["Shop"] = "https://127.0.0.3:7051"
        with mock.patch.object(config.Config, "node_tls", return_value=None):
            self.gateway.links["Shop"] = Link("Shop", self.config, self.said.append)
        self.gateway.links["Shop"].each = 100.0
        asking = gateway.Asking("Maker", None)
        for satisfying, blamed, wanted in (([{"Maker", "Carrier"}, {"Maker", "Shop"}], set(), ["Maker", "Carrier"]),
                                           ([{"Maker", "Carrier"}, {"Maker", "Shop"}], {"Carrier"}, ["Maker", "Shop"]),
                                           ([{"Maker", "Carrier"}], {"Carrier"}, ["Maker", "Carrier"])):
            self.gateway.chosen, self.chain.origins.blamed = {}, blamed
            self.chain.peer.satisfying = satisfying
            self.assertEqual(await self.gateway.organisations(CALL, asking), wanted)


if __name__ == "__main__":
    unittest.main()
