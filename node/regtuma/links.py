"""Other organisations' nodes, which are asked for endorsements."""
import asyncio
import re
import time
from collections.abc import Callable, Sequence

import aiohttp

from .config import Config
from .fields import CALLER_HEADER
from .guard import Connector
from .journal import Quota
from .pace import REQUESTS_APART, apart
from .proposals import is_hex, matches
from .turns import Turns
from .waiting import Answer, TooMuch, value_of, whole
from .wire import Object

ENDORSE_SECONDS, DOWN_SECONDS = 3.0, 5.0
# How many requests are under way to another node, how many proposals go into one, and in how many seconds they should be done.
REQUESTS, MOST_PROPOSALS, ENOUGH = 2, 250, 1.0
# How much slower than of late a node may be until it counts as dead.
SLACK = 4
# The longest answer that is read, in bytes, and the longest to one proposal: an envelope has 524,288 bytes at most, which are in hex. How
# many commas it has for each proposal at most: an answer has two, but for its words.
LONGEST, LONGEST_ONE, MOST_COMMAS = 16 << 20, (1 << 20) + (1 << 16), 1000
# Up to which length an answer may have words in any letters, which take four bytes each in memory; and how many of a denial count.
WORDS, MOST_WORDS = 1 << 20, 300
# The status of a node that holds as much for the asking organisation as it does at a time.
TOO_MANY = 429
REFUSAL = re.compile(r"refused \d{1,3}( .{0,%d})?" % MOST_WORDS, re.ASCII)
# A proposal, the height on which it is simulated at least, and who waits for the answer.
Waiting = tuple[Object, int, asyncio.Future[Object | None]]


class Batches:
    """Proposals that are asked together. What comes while requests are under way goes into the next one."""

    def __init__(self, requests: int):
        self.requests, self.under_way, self.apart = requests, 0, apart(REQUESTS_APART)
        self.waiting: Turns[Waiting] = Turns()
        self.works: set[asyncio.Task[None]] = set()

    def most(self) -> int:
        """How many proposals go together."""
        return MOST_PROPOSALS

    async def answers(self, proposals: list[Object], height: int) -> list[Object] | None:
        """What is answered to proposals on a state after so many blocks at least, each by one; None where no answer came."""
        raise NotImplementedError

    def ask(self, caller: str, proposal: Object, height: int) -> asyncio.Future[Object | None]:
        done: asyncio.Future[Object | None] = asyncio.get_running_loop().create_future()
        is_first = not self.waiting
        self.waiting.add(caller, (proposal, height, done))
        if is_first:
            self._begin()
        return done

    def _begin(self) -> None:
        """Begins a request for those that wait, unless so many are under way: then the first that ends goes on with them."""
        if self.under_way < self.requests:
            self.under_way += 1
            self.works.add(work := asyncio.get_running_loop().create_task(self._work()))
            work.add_done_callback(self.works.discard)

    async def _work(self) -> None:
        try:
            while self.waiting:
                # Those that ask in this very moment come along.
                await self.apart.turn()
                batch = [self.waiting.take() for _ in range(min(self.most(), len(self.waiting)))]
                if self.waiting:
                    self._begin()
                if batch:
                    await self._answer(batch)
        finally:
            self.under_way -= 1
            if self.waiting:
                self._begin()

    async def _answer(self, batch: list[Waiting]) -> None:
        """Has a batch answered. Whatever fails, nobody waits for good."""
        answers: Sequence[Object | None] = [None] * len(batch)
        try:
            answers = await self.answers([it for it, _, _ in batch], max(it for _, it, _ in batch)) or answers
        finally:
            for (_, _, done), said in zip(batch, answers):
                if not done.done():
                    done.set_result(said)


class Link(Batches):
    """One organisation's node."""

    def __init__(self, organisation: str, config: Config, say: Callable[[str], None]):
        super().__init__(REQUESTS)
        self.organisation, self.url, self.quota = organisation, config.nodes[organisation], Quota(organisation, say)
        connector = Connector(config.node_tls(organisation), self.pass_over, limit_per_host=8)
        # Where there are no certificates, a node says who it is.
        headers = {CALLER_HEADER: f"{config.organisation}/node"} if config.is_local else {}
        self.http = aiohttp.ClientSession(connector=connector, headers=headers, cookie_jar=aiohttp.DummyCookieJar(),
                                          response_class=Answer)
        # How long it took for a call of late, in seconds, and until when it is passed over; how many answers were not too long together.
        self.each, self.down, self.few = 0.01, 0.0, MOST_PROPOSALS

    async def close(self) -> None:
        await self.http.close()

    def most(self) -> int:
        """A node that is slow, or has much to say, gets fewer at a time."""
        return max(1, min(self.few, int(ENOUGH / self.each)))

    async def answers(self, proposals: list[Object], height: int) -> list[Object] | None:
        began, patience = time.monotonic(), ENDORSE_SECONDS + SLACK * self.each * len(proposals)
        answers = await self.post(proposals, height, patience)
        each = (time.monotonic() - began) / len(proposals)
        if answers:
            self.each += 0.2 * (each - self.each)
        elif time.monotonic() - began >= patience:
            self.each = min(ENOUGH, SLACK * self.each)
        return answers

    async def post(self, proposals: list[Object], height: int, patience: float) -> list[Object] | None:
        """What the node answers to these, each by one."""
        try:
            body, timeout = {"proposals": proposals, "height": height}, aiohttp.ClientTimeout(total=patience)
            # It may be anybody's program: it sends this node nowhere else.
            async with self.http.post(self.url + "/endorse", json=body, timeout=timeout, allow_redirects=False) as answer:
                data = await whole(answer.content, min(LONGEST, LONGEST_ONE * len(proposals)))
                if answer.status == TOO_MANY:
                    raise TooMuch("it has too much to answer")
                found = answers_of(answer.status, said_by(data, len(proposals)), len(proposals))
                self.few = min(MOST_PROPOSALS, self.few + len(proposals))
                return found
        except asyncio.TimeoutError:
            why = f"no answer in {patience:.1f} s"
        except (ValueError, RecursionError, OSError, aiohttp.ClientError) as error:
            if isinstance(error, TooMuch) and len(proposals) > 1:
                # They are asked anew, fewer at a time.
                self.few = len(proposals) // 2
                return None
            why = (str(error) or repr(error))[:200]
        self.pass_over(why)
        return None

    def pass_over(self, why: str) -> None:
        """The node is not asked for a while. Those who wait for their turn have no answer at once, so that they ask another one's."""
        self.quota.tell(f"no endorsement of {self.organisation}: {why}")
        self.down = time.monotonic() + DOWN_SECONDS
        for _, _, done in self.waiting.take_all():
            if not done.done():
                done.set_result(None)


def said_by(data: bytes, count: int) -> object:
    """The JSON value of an answer to so many proposals."""
    if len(data) > WORDS and (b"\\" in data or not data.isascii()):
        raise ValueError("its answer has too many words")
    return value_of(data, MOST_COMMAS * count)


def answers_of(status: int, said: object, count: int) -> list[Object]:
    """The answers to so many proposals that a node's answer has."""
    if not isinstance(said, dict) or status != 200:
        raise ValueError(said.get("why", status) if isinstance(said, dict) else status)
    answers = said.get("answers")
    if not isinstance(answers, list) or len(answers) != count or not all(is_answer(it) for it in answers):
        raise ValueError("it does not answer each proposal")
    return answers


def is_answer(said: object) -> bool:
    """Whether a node has answered a proposal in one of the three ways. It may be anybody's program: what is no hex would be
    another line of the log."""
    if not isinstance(said, dict) or type(said.get("height")) is not int:
        return False
    if "payload" in said:
        return is_hex(said["payload"]) and is_hex(said.get("endorsement"))
    if "refused" in said:
        return matches(REFUSAL, said["refused"])
    return isinstance(said.get("denied"), str) and len(said["denied"]) <= MOST_WORDS
