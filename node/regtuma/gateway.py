"""What clients ask a node for: a call is endorsed by several organisations, put into the log, and waited for."""
import asyncio
import collections
import contextlib
import time
import weakref
from collections.abc import Iterator

from . import numbers
from .access import refusal_of
from .chain import FULL, NO_SHARE, Chain
from .config import Config
from .endorsing import Endorsing
from .entries import LogError
from .filters import FilterEnded, TooLong
from .links import Link
from .load import Held
from .proposals import Refused, call_of, check, checked, organisations_of
from .waiting import beside
from .wire import Object, envelope, id_of, proposal_of

TOO_LARGE = 421
TRIES = 12
# How often somebody may be at fault on blocks that this node does not know, before it is passed over: a key may have changed there.
DOUBTS = 3
OTHER_CALL, OTHER_KEY, OTHER_PAYLOAD = ("its payload is that of another call", "its endorsement is not by the key by which it stands",
                                        "its payload is not what this node's own execution gives")
TOO_HIGH = "it does not agree, and says that it has blocks which this node does not get"
# How many calls are endorsed and put at a time, and how many of one caller: more are refused, and asked for again later. So many may be
# waited for, too: each takes 13 KB.
MOST_UNDER_WAY, MOST_OF_CALLER = 4000, 1000
# How many transactions are looked for in the chain for one caller at a time, since each may take long.
LOOKED_FOR = 4
# For how long it is remembered which organisations satisfy a policy, in seconds.
MEMORY = 1.0


class Gateway:
    def __init__(self, config: Config, chain: Chain, endorsing: Endorsing):
        self.config, self.chain, self.endorsing = config, chain, endorsing
        # The fewest that satisfy the policy of a chaincode, of those whose nodes are up.
        self.chosen: dict[tuple[str, tuple[str, ...]], asyncio.Task[list[str]]] = {}
        self.chosen_at = 0.0
        # Those under way, by their ids: who asks again for one waits for the same.
        self.under_way: dict[str, asyncio.Task[None]] = {}
        # How many each caller has under way, also where it has gone; and for how many it waits, also once these are in the log.
        self.callers: collections.Counter[str] = collections.Counter()
        self.waiting: collections.Counter[str] = collections.Counter()
        self.turns: weakref.WeakValueDictionary[str, asyncio.Semaphore] = weakref.WeakValueDictionary()
        # How many bytes an envelope may have, once it is known.
        self.absolute: int | None = None
        self.links = {it: Link(it, config, chain.say) for it in config.nodes}
        # How many bytes are held for the calls of each caller.
        self.held: collections.Counter[str] = collections.Counter()

    async def close(self) -> None:
        await asyncio.gather(*(it.close() for it in self.links.values()))

    async def evaluate(self, body: Object) -> Object:
        """What a call comes to on this node's state."""
        call = call_of(body)
        answer, height = await self.chain.peer.ask_for("call", chaincode=call["chaincode"], arg=call["arg"].strip("-"))
        if "refused" in answer:
            raise Refused(422, numbers.in_words(f"refused {answer['refused']}"))
        return {**answer, "height": height}

    async def submit_all(self, caller: str, calls: list[Object], patience: float) -> list[Object]:
        """The same of several calls, each answered as if it were alone, where it is refused with the status."""
        async def one(body: Object) -> Object:
            try:
                return await self.submit(caller, body, patience)
            except (Refused, TooLong, LogError) as error:
                status, said = refusal_of(error)
                return {"status": status, **said}
        answers: list[Object] = await asyncio.gather(*(one(it) for it in calls))
        return answers

    async def submit(self, caller: str, body: Object, patience: float) -> Object:
        """Has a call put into the log, and waits for its flag. If an organisation used up its id, and the caller gave no nonce, it is made
        anew, but not for one that did so before or that the caller names."""
        until, blamed = time.monotonic() + patience, set(organisations_of(body) or [])
        while True:
            with self.waits(caller):
                said = await self.submit_once(caller, body, until - time.monotonic())
            organisation = said.get("used_up_by")
            if "nonce" in body or organisation is None or organisation in blamed:
                return said
            blamed.add(organisation)

    async def submit_once(self, caller: str, body: Object, patience: float) -> Object:
        """The same by one id. A call of the same nonce is the same transaction, and is put into the log by this node once, however often it
        is asked for."""
        named = organisations_of(body)
        is_change = "chaincode" not in body
        proposal = checked({it: body[it] for it in body if it != "organisations"}) if is_change else call_of(body)
        id = id_of(proposal)
        waiter = self.chain.wait_for(id)
        try:
            if "nonce" in body and (known := await self.in_chain(caller, id)):
                return known
            if id not in self.under_way and id not in self.chain.in_log:
                self.check_open()
                self.check_space(caller)
                self.count(self.callers, caller)
                self.chain.origins.begin(id)
                self.under_way[id] = asyncio.ensure_future(self.endorse_and_put(id, caller, proposal, named))
                self.under_way[id].add_done_callback(lambda it: self.ended(id, caller, it))
            async with asyncio.timeout(patience):
                if task := self.under_way.get(id):
                    await asyncio.shield(task)
                tx = await waiter
            return await self.outcome(caller, tx)
        except asyncio.TimeoutError:
            return {"id": id, "pending": True, "why": f"it is in no block yet; ask /transactions/{id} for it"}
        except Refused as refused:
            # Another node may have put the same call meanwhile: then it is refused on the very state that it made.
            if refused.status == 422 and (known := await self.in_chain(caller, id)):
                return known
            raise
        finally:
            self.chain.forget(id, waiter)

    def check_open(self) -> None:
        """Whether calls are taken."""
        if self.chain.is_full:
            raise Refused(422, numbers.in_words(f"refused {FULL}"))
        if not self.chain.share:
            raise Refused(422, {"why": NO_SHARE})
        if self.chain.forked:
            raise Refused(503, {"why": self.chain.forked})
        if self.chain.shortness:
            raise Refused(503, {"why": f"{self.chain.shortness}: ask again"})

    def check_space(self, caller: str) -> None:
        """Whether the log has room for a call of a caller."""
        if seconds := self.chain.spaces[caller].wait():
            raise Refused(429, {"why": f"calls of {caller} have had their part of the log's bytes: ask again in {seconds:.0f} s"})

    def count(self, calls: collections.Counter[str], caller: str) -> None:
        """Counts one more call of a caller, who may have so many, as all callers may together."""
        if calls[caller] >= MOST_OF_CALLER:
            raise Refused(429, {"why": f"{MOST_OF_CALLER} calls of {caller} are under way here: ask again"})
        if calls.total() >= MOST_UNDER_WAY:
            raise Refused(503, {"why": f"{MOST_UNDER_WAY} calls are under way here: ask again"})
        calls[caller] += 1

    @contextlib.contextmanager
    def waits(self, caller: str) -> Iterator[None]:
        """For as long as a caller waits for a call."""
        self.count(self.waiting, caller)
        try:
            yield
        finally:
            self.waiting[caller] -= 1

    def ended(self, id: str, caller: str, task: asyncio.Task[None]) -> None:
        """A call is in the log, or is not put. Where nobody waits any more, nobody minds which."""
        self.under_way.pop(id, None)
        self.callers[caller] -= 1
        if id not in self.chain.in_log:
            self.chain.origins.end(id)
        if not task.cancelled():
            task.exception()

    async def transaction(self, caller: str, id: str) -> Object | None:
        """A transaction of the chain, once it is the caller's turn."""
        async with self.turns.setdefault(caller, asyncio.Semaphore(LOOKED_FOR)):
            found: tuple[Object | None, int] = await self.chain.peer.ask_for("transaction", id=id)
            return found[0]

    async def in_chain(self, caller: str, id: str) -> Object | None:
        """What became of a transaction, if it is in a block."""
        tx = await self.transaction(caller, id)
        return tx and await self.outcome(caller, tx)

    async def status(self, caller: str, id: str) -> Object | None:
        """The same, or why one that was put here came into no block, as far as that is remembered."""
        known, refused = await self.in_chain(caller, id), self.chain.refused.get(id)
        return known or refused and await self.outcome(caller, refused)

    async def outcome(self, caller: str, tx: Object) -> Object:
        """What a caller is told of a transaction, of which the chain may know the flag alone."""
        if "block" not in tx:
            return {**(numbers.in_words(f"refused {tx['refused']}") if "refused" in tx else {}), **tx}
        words = {it: tx[it] for it in ("id", "block", "place", "flag", "result")}
        if organisation := self.chain.origins.used_up.get(tx["id"]):
            why = f"its id was used up by an entry of {organisation}: ask again by a new nonce"
            return {**words, "valid": False, "used_up_by": organisation, "why": why}
        if tx["flag"] in numbers.EXPLAINED and "reads" not in tx:
            tx = await self.transaction(caller, tx["id"]) or tx
        return {**words, "valid": tx["flag"] == 0, "why": await numbers.why(self.chain.peer, tx)}

    async def endorse_and_put(self, id: str, caller: str, proposal: Object, named: list[str] | None) -> None:
        held = Held(self.held, caller)
        try:
            made = await self.endorsed(held, proposal, named)
            await self.check_size(made)
            self.check_space(caller)
            if id not in self.chain.origins.used_up:
                await self.chain.put(caller, id, made)
        finally:
            held.give()

    async def check_size(self, made: str) -> None:
        """Whether the orderer takes an envelope of this size."""
        if self.absolute is None:
            setting, _ = await self.chain.peer.ask_for("setting")
            self.absolute = setting["absolute"]
        if len(made) > 2 * self.absolute:
            raise Refused(422, numbers.in_words(f"refused {TOO_LARGE}"))

    # ---------------------------------------------------------------- endorsements

    async def endorsed(self, held: Held, proposal: Object, named: list[str] | None) -> str:
        """The envelope of a proposal. It is begun again where a node is behind another one, gives no answer, or endorses what it should
        not, and without those who refuse, unless they were named."""
        height, why, asking = 0, "no organisation answers", Asking(self.config.organisation, named)
        for turn in range(TRIES):
            held.give()
            held.take(proposal)
            asked = named or await self.organisations(proposal, asking)
            said = await self.said(asked, held, proposal, height)
            answers = {it: said[it] for it in asked if it in said}
            if missing := [it for it in asked if it not in answers]:
                why = f"no answer of {', '.join(missing)}"
                if named:
                    break
                continue
            own = said.get(self.config.organisation)
            faults, high = await self.faults(proposal, answers, own), self.too_high(answers, height, own)
            if made := made_of(answers, faults):
                return made
            doubts = {*high, *(it for it in faults if not self.chain.keys.stood(answers[it]["height"]))}
            faults = {**high, **faults}
            for organisation in asking.judge(answers, faults, doubts):
                self.leave_out(organisation, faults[organisation], asking)
                del answers[organisation]
            height, why = self.next_height(answers, height, own), "the organisations do not simulate on one state"
            await asyncio.sleep(0.01 * turn)
        raise Refused(503, {"why": why})

    async def said(self, asked: list[str], held: Held, proposal: Object, height: int) -> dict[str, Object]:
        """What these answer to a proposal, and this organisation too, with whose execution theirs are compared."""
        own = [self.config.organisation] if "chaincode" in proposal and not self.endorsing.out_of_place else []
        # This organisation comes first, if it is asked.
        everybody = sorted(dict.fromkeys([*asked, *own]), key=lambda it: it != self.config.organisation)
        first, *others = (self.counted(it, held, proposal, height) for it in everybody)
        return {it: answer for it, answer in zip(everybody, await beside(first, others)) if answer is not None}

    async def counted(self, organisation: str, held: Held, proposal: Object, height: int) -> Object | None:
        """What an organisation answers, which is held from then on; None where its node gives no answer."""
        answer = await self.ask(organisation, held.caller, proposal, height)
        held.take(answer or {})
        return answer

    async def faults(self, proposal: Object, answers: dict[str, Object], own: Object | None) -> dict[str, str]:
        """What is wrong with endorsements, by who gave them: none of them is put."""
        begin, keys, faults = proposal_of(proposal).encode().hex(), await self.chain.standing(), {}
        for organisation, said in answers.items():
            if "payload" not in said:
                continue
            payload, endorsement = bytes.fromhex(said["payload"]), bytes.fromhex(said["endorsement"])
            if not said["payload"].startswith(begin):
                faults[organisation] = OTHER_CALL
            elif organisation not in keys:
                faults[organisation] = OTHER_KEY
            elif not self.is_own(organisation, said) and not keys[organisation].endorses(organisation, endorsement, payload):
                faults[organisation] = OTHER_KEY
            elif own and "payload" in own and own["height"] == said["height"] and own["payload"] != said["payload"]:
                faults[organisation] = OTHER_PAYLOAD
        return faults

    def is_own(self, organisation: str, said: Object) -> bool:
        """Whether this node's own peer answered, on a state with today's keys: it is proved that it signs by the right one there."""
        return organisation == self.config.organisation and self.chain.keys.stood(said["height"])

    def leave_out(self, organisation: str, fault: str, asking: "Asking") -> None:
        """Asks who was at fault no more, for a while."""
        if organisation in self.links:
            self.links[organisation].pass_over(fault)
        asking.refuse(organisation, {"why": f"no endorsement of {organisation}: {fault}"}, 503)

    def too_high(self, answers: dict[str, Object], asked: int, own: Object | None) -> dict[str, str]:
        """What is wrong with those who say that they have more blocks than this node got, where it has waited for these."""
        if own is None or own["height"] >= asked:
            return {}
        return {it: TOO_HIGH for it in answers.keys() & self.links.keys() if answers[it]["height"] > own["height"]}

    def next_height(self, answers: dict[str, Object], asked: int, own: Object | None) -> int:
        """The height on which all are asked anew, where some are behind: that of the one that is ahead.

        Who did not come up to the last one is passed over, as one whose node of etcd has lost the others, and so is who says that
        there are more blocks than there can be. Nobody has to come up to what this node has not.
        """
        asked = min(asked, own["height"]) if own else asked
        most, heights = self.chain.most_blocks, {it: said["height"] for it, said in answers.items()}
        for organisation in heights.keys() & self.links.keys():
            had = heights[organisation]
            if had > most:
                self.links[organisation].pass_over(f"it says that it has {had} blocks, and there can be {most}")
            elif had < asked:
                self.links[organisation].pass_over(f"it has {had} blocks, and not yet {asked}")
        return max(self.chain.keys.since, max((it for it in heights.values() if it <= most), default=self.chain.height))

    async def organisations(self, proposal: Object, asking: "Asking") -> list[str]:
        """Who is asked: the fewest that satisfy the chaincode's policy, this one first, then those that answer soonest, and at last those
        that used up an id of a call."""
        check("chaincode" in proposal, "a change of code or members names the organisations that have agreed to it: organisations")
        chaincode, now = proposal["chaincode"], time.monotonic()
        if now - self.chosen_at > MEMORY:
            self.chosen, self.chosen_at = {}, now
        blamed = self.chain.origins.blamed
        links = sorted(self.links.values(), key=lambda it: (it.organisation in blamed, round(it.each, 2)))
        own = () if self.endorsing.out_of_place else (self.config.organisation,)
        up = (*own, *(it.organisation for it in links if it.down < now and it.organisation not in asking.refusals))
        if (chaincode, up) not in self.chosen:
            self.chosen[chaincode, up] = asyncio.ensure_future(self.fewest(chaincode, list(up)))
        try:
            chosen = self.chosen[chaincode, up]
            return chosen.result() if chosen.done() else await asyncio.shield(chosen)
        except Refused as too_few:
            raise next(iter(asking.refusals.values()), too_few) from None

    async def fewest(self, chaincode: str, up: list[str]) -> list[str]:
        """Of these, so few that without any of them they would not satisfy the policy. The last are left out first."""
        if not await self.satisfies(chaincode, up):
            raise Refused(503, {"why": f"the nodes that are up do not satisfy the policy of {chaincode}: {', '.join(up)}"})
        for organisation in reversed(up[:]):
            rest = [it for it in up if it != organisation]
            if rest and await self.satisfies(chaincode, rest):
                up = rest
        return up

    async def satisfies(self, chaincode: str, organisations: list[str]) -> bool:
        answer: bool | None = (await self.chain.peer.ask_for("satisfied", chaincode=chaincode, orgs=organisations))[0]
        if answer is None:
            raise Refused(422, numbers.in_words("refused 401"))
        return answer

    async def ask(self, organisation: str, caller: str, proposal: Object, height: int) -> Object | None:
        """What an organisation answers; None where its node gives no answer."""
        if organisation == self.config.organisation:
            return await self.own(caller, proposal, height)
        if organisation not in self.links:
            raise Refused(422, {"why": f"no node of {organisation} is known here"})
        return await self.links[organisation].ask(caller, proposal, height)

    async def own(self, caller: str, proposal: Object, height: int) -> Object | None:
        """What this organisation answers; None where the peer or the approver has ended, of which the node tells where it ends for it."""
        try:
            await self.endorsing.come_up(height)
            return await self.endorsing.answer(caller, proposal)
        except FilterEnded:
            return None


class Asking:
    """Who has been asked to endorse one proposal, and what is made of what they answer."""

    def __init__(self, own: str, named: list[str] | None):
        self.own, self.named = own, named
        # Why some are not asked again, and how often each may have been at fault.
        self.refusals: dict[str, Refused] = {}
        self.doubts: collections.Counter[str] = collections.Counter()

    def judge(self, answers: dict[str, Object], faults: dict[str, str], doubts: set[str]) -> set[str]:
        """What to make of answers that do not agree. Who is to be passed over: those at fault, but where that is in doubt still."""
        for organisation, said in answers.items():
            if "denied" in said:
                self.refuse(organisation, {"why": f"{organisation} does not endorse it: {said['denied']}"})
        refused = [it for it, said in answers.items() if "refused" in said]
        if len(refused) == len(answers) and len({answers[it]["refused"] for it in refused}) == 1:
            raise Refused(422, numbers.in_words(answers[refused[0]]["refused"]))
        if len({it["height"] for it in answers.values()}) > 1:
            # Who is behind may refuse what others endorse.
            refused = []
        for organisation in refused:
            words = numbers.in_words(answers[organisation]["refused"])
            self.refuse(organisation, {**words, "why": f"{organisation} does not endorse it: {words['why']}"})
        self.doubts.update(doubts)
        return {it for it in faults if it not in doubts or self.doubts[it] >= DOUBTS}

    def refuse(self, organisation: str, said: Object, status: int = 422) -> None:
        """Another one is asked in the place of this one, where that may be: nobody has named it, and it is not this node's own."""
        refusal = Refused(status, said)
        if self.named or organisation == self.own:
            raise refusal
        self.refusals[organisation] = refusal


def made_of(answers: dict[str, Object], faults: dict[str, str]) -> str | None:
    """The envelope of answers that agree; none where they do not."""
    first, *others = answers.values()
    if faults or "payload" not in first or any(it.get("payload") != first["payload"] for it in others):
        return None
    return envelope(first["payload"], [it["endorsement"] for it in answers.values()])
