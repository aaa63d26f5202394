"""A node's part in a network, by the program's own peer over a log in a file: what others put there, endorse, and take away."""
import asyncio
import itertools
import json
import unittest
from collections.abc import Callable
from unittest import mock

import support
import program
from aiohttp import web
from aiohttp.test_utils import TestServer
from keys import keygen
from regtuma import endorsing, entries, gateway
from regtuma.chain import Chain
from regtuma.endorsing import Endorsing
from regtuma.filed import FileLog
from regtuma.gateway import Gateway
from regtuma.proposals import Refused
from regtuma.wire import envelope, id_of
from test_entries import ENVELOPE

# How long something may take to come about, in seconds, with the unproved program on a busy machine too.
PATIENCE = 240.0
POLICY = "OutOf(2, 'Carrier', 'Maker', 'Shop')"
# A chaincode that loops until its fuel is spent.
LOOP = "0061736d010000000105016000017f03020100070a0106696e766f6b6500000a0b01090003400c000b41000b"
SLOW = {"name": "slow", "module": LOOP, "profile": 1, "fuel": 2_000, "policy": POLICY}


def call(number: int) -> dict:
    return {"chaincode": "assets", "arg": f"create pallet-{number} Maker".encode().hex(), "nonce": f"{number:032x}"}


def broken(hex_: str) -> str:
    """The same with another last byte."""
    return hex_[:-2] + f"{int(hex_[-2:], 16) ^ 1:02x}"


class Case(unittest.IsolatedAsyncioTestCase):
    async def asyncSetUp(self):
        self.folder = support.Folder()
        self.addCleanup(self.folder.close)
        self.at, self.said = self.folder.path, []
        self.log = self.at / "log"
        support.ledger_of(self.at, count=10, chaincodes=[*support.EXAMPLE["chaincodes"], SLOW])
        # A busy machine is no fault of another node.
        self.enterContext(mock.patch.object(gateway.Link, "most", lambda _: 1))
        self.enterContext(mock.patch("regtuma.links.ENDORSE_SECONDS", PATIENCE))

    def say(self, line: str) -> None:
        """What the node says itself; the peer's sentences, of which each begins so, are no matter here."""
        if not line.startswith("ledger: "):
            self.said.append(line)

    async def begin(self, organisation: str = "Maker", store: str = "store", **nodes: str) -> Gateway:
        """A node's part as it runs, with other organisations' nodes at these URLs. Its works are cancelled behind the test."""
        key = "" if organisation == "Maker" else f'keys = "{organisation}"\n'
        others = "\n".join(f'{it} = "{url}"' for it, url in nodes.items())
        changes = [('"Maker"', f'"{organisation}"'), ('"ledger"', f'"{program.find()}"'), ('"chain.store"', f'"{store}"'),
                   ('keys = "maker.key"\n', key), ('Carrier = "http://127.0.0.1:7052"', others)]
        config = self.folder.config(*changes, text=support.LOCAL)
        chain = Chain(config, FileLog(str(self.log)), self.say)
        self.addAsyncCleanup(chain.log.close)
        made = Gateway(config, chain, Endorsing(config, chain))
        self.addAsyncCleanup(made.close)
        self.addAsyncCleanup(chain.close)
        await chain.start()
        self.addAsyncCleanup(made.endorsing.close)
        await made.endorsing.start()
        self.addCleanup(chain.times.file.close)
        self.works: list[asyncio.Future[None]] = [asyncio.ensure_future(it) for it in [*chain.works(), *made.endorsing.works()]]
        self.addAsyncCleanup(self.end, self.works)
        return made

    async def end(self, works: list[asyncio.Future[None]]) -> None:
        for it in works:
            it.cancel()
        await asyncio.gather(*works, return_exceptions=True)

    async def come(self, is_so: Callable[[], object]) -> None:
        async with asyncio.timeout(PATIENCE):
            while not is_so():
                await asyncio.sleep(0.02)

    def enveloped(self, proposal: dict, *organisations: str) -> str:
        said = [support.endorsed(self.at, it, proposal) for it in organisations]
        return envelope(said[0]["payload"], [it["endorsement"] for it in said])

    async def flag(self, chain: Chain, proposal: dict, made: str) -> int:
        """What becomes of an envelope that is put as it is."""
        waiter = chain.wait_for(id_of(proposal))
        await chain.put("Maker/alice", id_of(proposal), made)
        async with asyncio.timeout(PATIENCE):
            flag: int = (await waiter)["flag"]
            return flag

    async def replace_key(self, chain: Chain) -> None:
        """The Maker and the Shop give the Carrier another key, of the key file `more`."""
        public = json.loads(keygen(str(self.at / "more"), "Carrier", program=str(program.find())))["public"]
        members = [{"name": "Carrier", "public": public}, {"name": "Maker"}, {"name": "Shop"}]
        change = {"members": members, "policy": POLICY, "serial": 1, "nonce": "0f" * 16}
        self.assertEqual(await self.flag(chain, change, self.enveloped(change, "Maker", "Shop")), 0)


class Attacks(Case):
    async def test_others_calls_are_valid_behind_an_attack(self):
        made = {it: self.enveloped(call(it), "Maker", "Carrier") for it in range(2)}
        with mock.patch.dict(entries.LAST_BLOCKS, {2: 40}):
            chain = (await self.begin()).chain
            for it in range(1, 50):
                await chain.log.append(f"tick-{it}", [ENVELOPE, "tick"] * 500)
                await chain.log.append(f"Shop/{it}", [ENVELOPE])
                await chain.log.append(f"Shop/tick-{it}", ["tick"])
            for it in made:
                self.assertEqual(await self.flag(chain, call(it), made[it]), 0)
            # An envelope costs a tenth of a block here, and its tick a block.
            self.assertEqual((chain.height, chain.lines.shares.left(b"Shop"), chain.share), (27 + 2, 0, 5))


    async def test_a_line_of_the_log_that_says_call_is_no_call(self):
        chain, made = (await self.begin()).chain, self.enveloped(call(0), "Maker", "Carrier")
        lines = [f"call 1 {json.dumps(call(1))}", f"9.9 call 1 {json.dumps(call(1))}", 'ask 1 {"ask":"members"}', "log 9.9 tick", "seen 1 1",
                 f"agreed 1 {json.dumps(call(1))}", "answer 1 7 null", f"seen Shop 1 {'00' * 32} call 1"]
        await chain.log.append("Shop/a", [ENVELOPE])
        await chain.log.append("Shop/seen-1", lines)
        self.assertEqual(await self.flag(chain, call(0), made), 0)
        # Nor is it where the node hands it on.
        read = chain.read
        await chain.peer.log([f"9.{place} {line}\n".encode() for place, line in enumerate(lines)])
        asked = [chain.peer.ask_for("members") for _ in lines]
        self.assertEqual({height for _, height in await asyncio.gather(*asked)}, {1})
        self.assertEqual((chain.read - read, chain.height, self.said[1:]), (len(lines), 1, []))

    async def test_a_slow_chaincode_does_not_keep_the_log_waiting(self):
        """However many somebody has simulated all the time: their turns come one at a time, and the log's between."""
        gateway, refused = await self.begin(), set[str]()

        async def spend() -> None:
            for number in itertools.count(1):
                slow = [{"chaincode": "slow", "arg": "-", "nonce": f"{32 * number + it:032x}"} for it in range(32)]
                refused.update(it["refused"] for it in await gateway.endorsing.answers("Shop/node", slow))
        work = asyncio.ensure_future(spend())
        self.addAsyncCleanup(self.end, [work])
        for it in range(3):
            await self.come(lambda: gateway.chain.peer.asked)
            self.assertEqual(await self.flag(gateway.chain, call(it), self.enveloped(call(it), "Maker", "Carrier")), 0)
        await self.come(lambda: refused)
        self.assertEqual((refused, work.done()), ({"refused 403"}, False))


class Endorsers(Case):
    """The Carrier's node answers by what `answer` makes of what the Carrier endorses; the Shop's is honest."""

    async def asyncSetUp(self):
        await super().asyncSetUp()
        self.answer, self.asked = dict, 0
        self.gateway = await self.begin(Carrier=await self.serve("Carrier"), Shop=await self.serve("Shop"))
        self.chain = self.gateway.chain

    async def serve(self, organisation: str) -> str:
        """The URL of an organisation's node."""
        async def endorse(request: web.Request) -> web.Response:
            proposal, = (await request.json())["proposals"]
            self.asked += organisation == "Carrier"
            said = await asyncio.to_thread(support.endorsed, self.at, organisation, proposal)
            return web.json_response({"answers": [self.answer(said) if organisation == "Carrier" else said]})
        app = web.Application()
        app.router.add_post("/endorse", endorse)
        server = TestServer(app)
        self.addAsyncCleanup(server.close)
        await server.start_server()
        return str(server.make_url("")).rstrip("/")

    async def submit(self, number: int, *organisations: str) -> dict:
        named = {"organisations": list(organisations)} if organisations else {}
        return await self.gateway.submit("Maker/alice", {**call(number), **named}, PATIENCE)

    async def test_a_lying_endorser_is_passed_over_and_named(self):
        other = await asyncio.to_thread(support.endorsed, self.at, "Carrier", call(9))
        lies = [(gateway.OTHER_KEY, lambda said: {**said, "endorsement": broken(said["endorsement"])}),
                (gateway.OTHER_KEY, lambda said: {**said, "endorsement": "00"}),
                (gateway.OTHER_CALL, lambda said: {**other, "height": said["height"]})]
        for number, (fault, lie) in enumerate(lies):
            self.answer, self.gateway.links["Carrier"].down = lie, 0.0
            # The Carrier's node is asked first, as it answers sooner.
            self.gateway.links["Shop"].each = 100.0
            done = await self.submit(number)
            block = json.loads(await self.chain.block(done["block"]))
            self.assertEqual((done["flag"], [it["org"] for it in block["txs"][done["place"]]["endorsements"]]), (0, ["Maker", "Shop"]))
            self.assertEqual(self.said[-1], f"no endorsement of Carrier: {fault}")
        with self.assertRaises(Refused) as raised:
            await self.submit(8, "Maker", "Carrier")
        self.assertEqual((raised.exception.status, str(raised.exception)), (503, f"no endorsement of Carrier: {gateway.OTHER_CALL}"))
        self.assertEqual(self.log.read_text().count('"Maker/call-'), len(lies))

    def use_up(self, said: dict) -> dict:
        """The Carrier puts another envelope of the id first, which nobody has endorsed, and has it cut; and then endorses as it should."""
        number = self.chain.lines.ticks + 1
        for name, line in ((f"forged-{self.asked}", said["payload"] + "00"), (f"tick-{number}", "tick")):
            self.assertTrue(self.chain.log._append(f"Carrier/{name}", [line], PATIENCE))
        return said

    async def test_who_uses_up_the_id_of_a_call_is_asked_no_more(self):
        self.answer, self.gateway.links["Shop"].each = self.use_up, 100.0
        body = {it: call(0)[it] for it in ("chaincode", "arg")}
        done = await self.gateway.submit("Maker/alice", body, PATIENCE)
        block = json.loads(await self.chain.block(done["block"]))
        endorsers = [it["org"] for it in block["txs"][done["place"]]["endorsements"]]
        self.assertEqual((done["flag"], endorsers, self.asked), (0, ["Maker", "Shop"], 1))
        self.assertEqual([it for it in self.said if "Carrier" in it], [self.said[-1]])
        self.assertTrue(self.said[-1].startswith("Carrier used up the id of a call of ours: "))
        # It answers sooner than the Shop, and is asked where it is named.
        self.assertEqual(((await self.submit(1))["flag"], self.asked), (0, 1))
        for number, named in enumerate((["Maker", "Carrier"], ["Carrier", "Shop"]), 2):
            said = await self.submit(number, *named)
            self.assertEqual((said["flag"], said["valid"], said["used_up_by"], self.asked), (1, False, "Carrier", number))
            self.assertEqual(said["why"], "its id was used up by an entry of Carrier: ask again by a new nonce")
            self.assertEqual((await self.gateway.status("Maker/alice", said["id"])), said)
        self.assertEqual(len([it for it in self.said if "used up" in it]), 1)
        self.assertEqual((self.chain.origins.first, self.chain.origins.put), ({}, {}))

    async def test_one_call_at_two_nodes_blames_nobody(self):
        """The Carrier's own node has the same call committed meanwhile, by other endorsements or by the same ones."""
        for number, others in enumerate((["Carrier", "Shop"], ["Maker", "Carrier"])):
            made = await asyncio.to_thread(self.enveloped, call(number), *others)

            def answer(said: dict) -> dict:
                self.assertTrue(self.chain.log._append(f"Carrier/call-{number}", [made], PATIENCE))
                return said
            self.answer = answer
            self.assertEqual((await self.submit(number, "Maker", "Carrier"))["flag"], 0)
        self.assertEqual((self.chain.origins.blamed, self.chain.origins.used_up), (set(), {}))

    async def test_who_calls_is_told_of_a_line_that_the_orderer_skips(self):
        """As where a lie got by."""
        self.answer = lambda said: {**said, "endorsement": "00"}
        with mock.patch.object(self.gateway, "faults", mock.AsyncMock(return_value={})):
            said = await self.submit(0, "Maker", "Carrier")
        self.assertEqual((said["refused"], said["why"]), (301, "the orderer skips its envelope (refused 301)"))
        self.assertEqual(await self.gateway.status("Maker/alice", id_of(call(0))), said)

    async def test_behind_a_change_of_key_it_is_asked_again(self):
        old, other = [await asyncio.to_thread(support.endorsed, self.at, "Carrier", call(it)) for it in range(2)]
        self.assertEqual(list(await self.chain.standing()), ["Maker", "Carrier", "Shop"])
        await self.replace_key(self.chain)
        (self.at / "more").replace(self.at / "Carrier")
        self.answer = lambda said: old if self.asked < 2 else said
        self.assertEqual(((await self.submit(0, "Maker", "Carrier"))["flag"], self.asked), (0, 2))
        # One by the old key that says to know the new one lies.
        self.answer = lambda said: {**other, "height": said["height"]}
        with self.assertRaisesRegex(Refused, f"^no endorsement of Carrier: {gateway.OTHER_KEY}$"):
            await self.submit(1, "Maker", "Carrier")


class Places(Case):
    async def test_a_node_says_that_its_seed_is_old(self):
        node = await self.begin("Carrier", Maker="http://127.0.0.1:1")
        await self.replace_key(node.chain)
        await self.come(lambda: node.endorsing.out_of_place)
        self.assertEqual(self.said[-1], f"nothing is endorsed: {endorsing.OLD_SEED}")
        said, = await node.endorsing.answers("Maker/node", [call(0)])
        self.assertEqual(said, {"refused": "refused 808", "height": 1})


class Deletions(Case):
    """An entry was deleted, and with etcd's history its first version: nodes that begin read what is left."""

    async def asyncSetUp(self):
        await super().asyncSetUp()
        chain = (await self.begin()).chain
        for it in range(3):
            self.assertEqual(await self.flag(chain, call(it), self.enveloped(call(it), "Maker", "Carrier")), 0)
        said, _ = support.answered(self.at, "Carrier", "seen 1 2")
        self.assertRegex(said, "^seen Carrier 2 [0-9a-f]{64} [0-9a-f]{128}$")
        given = chain.given
        await chain.log.append("Carrier/seen-2", [said])
        await self.come(lambda: chain.given > given and chain.read == chain.given)
        self.assertIsNone(chain.forked)
        await self.end(self.works)
        await chain.close()
        self.delete("Maker/call-", 1)

    def delete(self, name: str, place: int = 0) -> None:
        """Takes the entry at a place away, of those whose names begin so."""
        lines = self.log.read_text().splitlines(keepends=True)
        lines.remove([it for it in lines if f'"{name}' in it][place])
        self.log.write_text("".join(lines))

    async def test_a_node_with_a_store_ends(self):
        await self.begin()
        done, _ = await asyncio.wait(self.works, timeout=PATIENCE, return_when=asyncio.FIRST_EXCEPTION)
        self.assertEqual([str(it.exception()) for it in done], ["ledger peer says: refused 602 block 2"])

    async def test_a_node_without_a_store_is_told_by_what_was_seen(self):
        chain = (await self.begin(store="other")).chain
        await self.come(lambda: chain.forked)
        self.assertEqual((chain.forked, self.said[-1]), (words := "Carrier says that it has another block 2", f"forked: {words}"))

    async def test_where_nothing_was_seen_it_is_not_told(self):
        self.delete("Carrier/seen-2")
        chain = (await self.begin(store="other")).chain
        await self.come(lambda: chain.height == 2)
        self.assertEqual((chain.forked, json.loads(await chain.block(2))["txs"][0]["id"]), (None, id_of(call(2))))


if __name__ == "__main__":
    unittest.main()
