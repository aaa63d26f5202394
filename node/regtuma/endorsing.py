"""What the organisation endorses: calls, as far as its approver lets them, and changes of members and code that its operator has
agreed to, each by itself."""
import asyncio
import json
import os
import time
import weakref
from collections.abc import Callable, Coroutine
from typing import Any

from .chain import Chain
from .config import Config
from .entries import LogError
from .filters import Asked, FilterEnded
from .load import size_of
from .table import MEANINGS
from .tags import Key
from .waiting import each
from .wire import Object, id_of

# What is answered where the organisation has no place in the ledger, as it may have later.
NO_MEMBER, OLD_SEED = "the organisation is no member: not yet, or no more", MEANINGS[808]
NO_PLACE = {"refused 806": NO_MEMBER, "refused 808": OLD_SEED}
# For how long a change is agreed to.
AGREED_SECONDS = 7 * 86400.0
# How many of one asker's proposals the approver and the peer are given at a time: each takes them one behind the other, and others
# come between.
OF_ASKER = 16
# How many letters of what the approver says are told.
MOST_WORDS = 300
# The words of a `seen` that is not signed.
BARE_WORDS = 4
# After how many seconds what the log did not take is put again, and how long an answer of the approver may take.
PAUSE, APPROVAL_SECONDS = 5.0, 30.0


def uncounted(_size: int) -> None:
    """Where nobody counts answers."""


class Agreed:
    """The changes that the operator has agreed to, by the ids of their transactions: in a file beside the store a line of JSON for each
    agreement, and for each that was withdrawn, which has no time left."""

    def __init__(self, file: str):
        self.file = file
        # What is agreed to, with `until` in seconds since 1970, and `words`.
        self.changes: dict[str, Object] = {}
        if os.path.exists(file):
            with open(file, encoding="ascii", errors="replace") as lines:
                for line in lines:
                    self._take(line)

    def _take(self, line: str) -> None:
        """A line counts from the next one of its id on no more. Lines of another form, as of an older node, are no agreements."""
        try:
            said = json.loads(line)
            self.changes[said["id"]] = {"until": float(said["until"]), "words": str(said["words"])}
        except (ValueError, KeyError, TypeError):
            pass

    def add(self, id: str, words: str) -> Object:
        """Agrees to a change for some days."""
        return self._put(id, time.time() + AGREED_SECONDS, words)

    def withdraw(self, id: str) -> bool:
        """Agrees to a change no more. Whether it was agreed to."""
        return self.holds(id) and bool(self._put(id, 0.0, "withdrawn"))

    def _put(self, id: str, until: float, words: str) -> Object:
        line = json.dumps({"id": id, "until": until, "words": words})
        with open(self.file, "a", encoding="ascii") as file:
            # The line before may be torn.
            file.write(f"\n{line}\n")
            file.flush()
            os.fsync(file.fileno())
        self._take(line)
        return {"id": id, **self.changes[id]}

    def holds(self, id: str) -> bool:
        return id in self.changes and time.time() < self.changes[id]["until"]

    def listed(self) -> list[Object]:
        """What is agreed to now."""
        return [{"id": it, **self.changes[it]} for it in sorted(self.changes) if self.holds(it)]


class Approver(Asked):
    """The command that says of each proposal whether the organisation endorses it. Any line is an answer."""

    async def _hand_on(self) -> None:
        """One that is asked and says nothing has ended: its answers would be taken for those to other questions."""
        is_asked = bool(self.asked)
        try:
            async with asyncio.timeout(APPROVAL_SECONDS):
                await super()._hand_on()
        except asyncio.TimeoutError:
            if is_asked:
                raise FilterEnded(f"{self.name} has given no answer for {APPROVAL_SECONDS:g} s") from None


class Endorsing:
    def __init__(self, config: Config, chain: Chain):
        self.config, self.chain = config, chain
        ledger = config.ledger
        self.approver = Approver("the approver", ledger.approver, chain.say) if ledger.approver else None
        self.agreed = Agreed(ledger.store + ".agreed")
        # The proposals that approver and peer are given, by who asks.
        self.turns: weakref.WeakValueDictionary[str, asyncio.Semaphore] = weakref.WeakValueDictionary()
        # Why nothing is endorsed: the organisation is no member, or its seed is not at hand; and by which membership that was looked at.
        self.out_of_place: str | None = None
        self.looked = -1

    async def start(self) -> None:
        if self.approver:
            await self.approver.start()

    def works(self) -> list[Coroutine[Any, Any, None]]:
        """What runs as long as the node does."""
        return [self.tell(), self.keep_place(), *([self.approver.follow()] if self.approver else [])]

    async def close(self) -> None:
        if self.approver:
            await self.approver.close()

    def put_out(self, why: str) -> None:
        """The organisation has no place, which is told once."""
        if self.out_of_place != why:
            self.chain.say(f"nothing is endorsed: {why}")
        self.out_of_place = why

    async def keep_place(self) -> None:
        """Looks, whenever the members have changed, whether the organisation is one by a key whose seed is at hand."""
        while True:
            height = self.chain.height
            members = await self.chain.standing()
            # They may change while the peer is asked.
            if (serial := self.chain.keys.serial) != self.looked:
                seen, _ = await self.chain.peer.answer_to("seen", str(height))
                self.look_at_place(members.get(self.config.organisation), seen)
                if height:
                    self.looked = serial
            while not await self.chain.at_least(height + 1, 60.0):
                pass

    def look_at_place(self, key: Key | None, seen: str) -> None:
        """The organisation's place, by the key by which it stands, and by what its peer says of a block, if there is one: that is signed
        where the organisation stands by a public key of which the seed is at hand."""
        if key is None:
            self.put_out(NO_MEMBER)
        elif key.public and len(seen.split()) == BARE_WORDS:
            self.put_out(OLD_SEED)
        else:
            self.out_of_place = None

    # ---------------------------------------------------------------- endorsements

    async def answers(self, asker: str, proposals: list[Object], height: int = 0, take: Callable[[int], None] = uncounted) -> list[Object]:
        """What this organisation answers to proposals, each by its payload and endorsement on a state after so many blocks at
        least, as far as it comes up within a second; or why not.

        An endorsement says that the chaincode does this, and not that the organisation wants it. Where it has an approver, that
        is asked first: a line of JSON with the proposal and who asks, and the answer is `yes`, or why not. A change of code or
        members is endorsed where the operator has agreed to this very one.

        Each answer is counted as it comes: where there is no room for it, none of the others is waited for.
        """
        async def counted(proposal: Object) -> Object:
            said = await self.answer(asker, proposal)
            take(size_of(said))
            return said
        await self.come_up(height)
        return await each(proposals, OF_ASKER, counted)

    async def come_up(self, height: int) -> None:
        """Waits until the store has so many blocks, for a second at most."""
        if self.chain.height < height:
            await self.chain.at_least(height, 1.0)

    async def answer(self, asker: str, proposal: Object) -> Object:
        """The answer to a proposal, once it is the asker's turn: why it is denied, or what the peer says."""
        kind = "call" if "chaincode" in proposal else "agreed"
        async with self.turns.setdefault(asker, asyncio.Semaphore(OF_ASKER)):
            if denied := self.denial(proposal) or await self.disapproval(asker, proposal):
                return {"denied": denied, "height": self.chain.height}
            said, height = await self.chain.peer.answer_to(kind, json.dumps(proposal))
        match said.split():
            case ["endorsed", payload, endorsement]:
                return {"payload": payload, "endorsement": endorsement, "height": height}
            case ["refused", *_]:
                if why := NO_PLACE.get(said):
                    self.put_out(why)
                return {"refused": said, "height": height}
        return {"refused": "refused 303", "height": height}

    def denial(self, proposal: Object) -> str | None:
        """Why a proposal is not even simulated, if so."""
        if why := self.chain.forked or self.chain.is_other_log and self.chain.shortness:
            return why
        if "chaincode" not in proposal and not self.agreed.holds(id := id_of(proposal)):
            return f"its operator has not agreed to {id}"
        return None

    async def disapproval(self, asker: str, proposal: Object) -> str | None:
        """Why the approver does not want it, if so."""
        said = await self.approver.ask(json.dumps({"asker": asker, **proposal})) if self.approver else "yes"
        return None if said == "yes" else said[:MOST_WORDS] or "no"

    # ---------------------------------------------------------------- what was seen

    async def tell(self) -> None:
        """Tells the others the hashes of blocks that were committed here, signed where the organisation has a public key."""
        while True:
            number = await self.chain.unsaid.get()
            if self.out_of_place or self.chain.forked:
                continue
            said, _ = await self.chain.peer.answer_to("seen", str(number))
            if not said.startswith("seen "):
                self.chain.say(f"does not tell the hash of block {number}: {self.chain.peer.name} says {said}")
                continue
            await self.put_seen(number, said)

    async def put_seen(self, number: int, line: str) -> None:
        await self.chain.pace.turn()
        while True:
            try:
                await self.chain.log.append(f"{self.config.organisation}/seen-{number}", [line])
                return
            except LogError as error:
                self.chain.say(f"not put: {error}")
                await asyncio.sleep(PAUSE)
