"""The node's HTTP API: its routes, and what each answers. Who may ask is in access.py, what a request may spell in proposals.py."""
import asyncio
import json
import pathlib
import time
from collections.abc import AsyncIterator, Awaitable, Callable
from urllib.parse import unquote_to_bytes

from aiohttp import web
from aiohttp.http_exceptions import HttpProcessingError

from . import VERSION, page, ticks
from .access import Access, Handler, answer, dumps
from .chain import Chain
from .config import Config
from .endorsing import Endorsing
from .filters import FilterEnded, TooLong
from .gateway import Gateway
from .load import caller_of
from .metrics import TYPE, Metrics
from .proposals import DIGEST, Refused, bound_of, check, checked, described, matches, number_of, objects, refuse, seconds_of
from .waiting import within
from .wire import Object, id_of

PATIENCE, LONGEST_WAIT = 30.0, 600.0
MOST_BLOCKS, MOST_ENTRIES, MOST_CALLS, HEARTBEAT = 200, 1000, 500, 15.0
# The longest body: calls or proposals of the longest argument, in hex; how many commas it has at most, and how long it may take, in
# seconds. What lies between the commas takes up to thirty times as much in memory.
BODY, MOST_COMMAS, BODY_SECONDS = 5 << 20, 50_000, 30.0
# How much of the chain one answer has, beside its last block; how it is written, and how long the reader may take for one block.
MOST_ANSWER, PIECE, READ_SECONDS = 4 << 20, 1 << 16, 60.0
# The peer is asked for a history in parts of so many blocks, so that nothing waits long behind one.
PART = 16
JSON, LINES, EVENTS = "application/json", "application/jsonl", "text/event-stream"
# How long it may take until it is told that something is wrong: envelopes that wait, a log that takes none; lines that are unread.
STUCK, UNLED, BEHIND = 30.0, 15.0, 10_000
# With so many entries of the log a node takes minutes to start.
MANY_ENTRIES = 300_000
# Method, path, the right that it needs, and what answers.
Route = tuple[str, str, str, Handler]
Middleware = Callable[[web.Request, Handler], Awaitable[web.StreamResponse]]


class Api:
    def __init__(self, config: Config, chain: Chain, endorsing: Endorsing, gateway: Gateway, program: Object):
        self.config, self.chain, self.endorsing, self.gateway = config, chain, endorsing, gateway
        # What `ledger version` says.
        self.program = program
        self.metrics = Metrics(chain)
        self.access = Access(config, self.metrics.requests)
        self.choosing = asyncio.Lock()

    def reads(self) -> list[Route]:
        """Routes that change nothing."""
        return [("GET", "/", "read", self.get_page), ("GET", "/healthz", "observe", self.get_health),
                ("GET", "/metrics", "observe", self.get_metrics), ("GET", "/height", "read", self.get_height),
                ("GET", "/setting", "read", self.get_setting), ("GET", "/members", "read", self.get_members),
                ("GET", "/blocks", "read", self.get_blocks), ("GET", "/blocks/{number}", "read", self.get_block),
                ("GET", "/events", "read", self.get_events), ("GET", "/state", "read", self.get_range),
                ("GET", "/state/{key:.+}", "read", self.get_state), ("GET", "/history/{key:.+}", "read", self.get_history),
                ("GET", "/transactions/{id}", "read", self.get_transaction)]

    def calls(self) -> list[Route]:
        """Routes for those who show a certificate."""
        return [("POST", "/evaluate", "evaluate", self.evaluate), ("POST", "/transactions", "submit", self.submit),
                ("POST", "/endorse", "endorse", self.endorse), ("POST", "/agreed", "agree", self.agree),
                ("GET", "/agreed", "agree", self.get_agreed), ("DELETE", "/agreed/{id}", "agree", self.withdraw)]

    def app(self) -> web.Application:
        """What clients and other nodes ask, by certificates."""
        return self._app(self.access.needing, [*self.reads(), *self.calls()], self.access.known)

    def page_app(self) -> web.Application:
        """What this machine's own people and Prometheus read, on the loopback."""
        return self._app(self.access.on_loopback, self.reads())

    def _app(self, guarded: Callable[[str, Handler], Handler], routes: list[Route], *more: Middleware) -> web.Application:
        app = web.Application(middlewares=[self.access.answered, *more], client_max_size=BODY)
        for method, path, right, handler in routes:
            app.router.add_route(method, path, guarded(right, handler))
        return app

    # ---------------------------------------------------------------- the node

    async def get_health(self, _request: web.Request) -> web.Response:
        """Whether the node does its work, and what its people should know."""
        wrong = self.wrong()
        said = {"ok": not wrong, "wrong": wrong, "warnings": self.warnings(), "height": self.chain.height,
                "organisation": self.config.organisation, "version": VERSION, "program": self.program}
        return answer(said, 503 if wrong else 200)

    def wrong(self) -> list[str]:
        chain, awaited, now, wrong = self.chain, self.chain.awaited, time.monotonic(), []
        if chain.forked:
            wrong.append(f"forked: {chain.forked}. Compare the hash of that block with each organisation, not through the log")
        if chain.is_other_log:
            wrong.append(f"{chain.shortness}. It may be another log: compare the stores, and renew the log behind the longest one")
        if awaited.since and now - awaited.since > STUCK + chain.wait and not chain.is_full:
            wrong.append("envelopes wait, and no tick comes: the log may take none")
        if (unled := now - chain.led) > UNLED:
            wrong.append(f"the log could take no entry for {unled:.0f} s: {chain.log.why}")
        if chain.log.unread and (silent := now - chain.log.unread[0]) > UNLED:
            wrong.append(f"the log could not be read for {silent:.0f} s: {chain.log.unread[1]}")
        if (unread := chain.given - chain.read) > BEHIND:
            wrong.append(f"{unread} lines of the log are unread")
        if chain.peer.lost:
            wrong.append(f"{chain.peer.lost} blocks were not read back from {self.config.ledger.store}, the last: {chain.peer.why_lost}."
                         " Look at the disk, put the store aside, and start the node without it")
        if chain.is_full:
            wrong.append(f"the chain is full: it has its {chain.ticks.last:,} blocks, and takes no calls")
        return wrong

    def warnings(self) -> list[str]:
        warnings = [self.endorsing.out_of_place and f"nothing is endorsed: {self.endorsing.out_of_place}",
                    self.plan_warning(),
                    *(f"{it} used up the id of a call of ours, and is asked to endorse only if no others will do"
                      for it in sorted(self.chain.origins.blamed))]
        if self.chain.entries > MANY_ENTRIES:
            warnings.append(f"the log has {self.chain.entries:,} entries, so that a node takes minutes to start: renew it")
        return [it for it in warnings if it]

    def plan_warning(self) -> str:
        """What is told of the chain's end and of this organisation's plan, and whose calls the ticks were for."""
        chain = self.chain
        warning = chain.ticks.warning(chain.height, chain.share, chain.wait)
        if not warning or not chain.ticked:
            return warning
        (caller, count), = chain.ticked.most_common(1)
        return f"{warning}; calls of {caller} waited for {count:,} of the {chain.counts['ticks']:,.0f} ticks since this node began"

    async def get_metrics(self, _request: web.Request) -> web.Response:
        return web.Response(body=self.metrics.text(), headers={"Content-Type": TYPE})

    async def get_page(self, request: web.Request) -> web.StreamResponse:
        """The page with the newest blocks, as many as an answer has. The later ones it reads as they are committed."""
        if not self.config.ledger.template:
            raise Refused(404, {"why": "there is no page: [ledger] has no template"})
        newest = max(1, self.chain.height - MOST_BLOCKS + 1)
        first = number_of(request.query.get("from", str(newest)), "from", 1, ticks.LAST_BLOCK)
        try:
            template = pathlib.Path(self.config.ledger.template).read_text(encoding="utf-8")
            begin, end, policy = page.live(template, self.config.organisation)
        except (OSError, ValueError) as error:
            raise Refused(503, {"why": f"there is no page: {error}"}) from None

        setting, _ = await self.chain.peer.text_of("setting")

        async def texts() -> AsyncIterator[str]:
            yield begin + page.line(setting)
            async for it in self.blocks(first, first + MOST_BLOCKS - 1):
                yield page.line(it)
            yield end
        headers = {"Content-Security-Policy": policy, "X-Content-Type-Options": "nosniff", "Cache-Control": "no-store"}
        return await self.send(request, texts(), "text/html; charset=utf-8", headers)

    # ---------------------------------------------------------------- the chain

    async def get_height(self, _request: web.Request) -> web.Response:
        return answer({"height": self.chain.height})

    async def get_setting(self, request: web.Request) -> web.StreamResponse:
        return await self.ask(request, "{}", "setting")

    async def get_members(self, request: web.Request) -> web.StreamResponse:
        return await self.ask(request, "{}", "members")

    async def get_block(self, request: web.Request) -> web.StreamResponse:
        number = number_of(request.match_info["number"], "a block's number", 1, ticks.LAST_BLOCK)
        if number > self.chain.height:
            return self.found(None)
        return await self.send(request, self.blocks(number, number), JSON)

    async def get_blocks(self, request: web.Request) -> web.StreamResponse:
        """Blocks, each as a line of JSON, so many at most."""
        first, last = (number_of(request.query.get(it, left_out), it, 1, ticks.LAST_BLOCK)
                       for it, left_out in (("from", "1"), ("to", str(ticks.LAST_BLOCK))))
        lines = (it + "\n" async for it in self.blocks(first, min(last, first + MOST_BLOCKS - 1)))
        return await self.send(request, lines, LINES)

    async def get_events(self, request: web.Request) -> web.StreamResponse:
        """Blocks as they are committed, as server-sent events: from `from` on, or behind the last one that was read."""
        last = request.headers.get("Last-Event-ID")
        first = request.query.get("from", str(min(self.chain.height + 1, ticks.LAST_BLOCK)))
        number = number_of(first, "from", 1, ticks.LAST_BLOCK)
        if last:
            number = number_of(last, "Last-Event-ID", 0, ticks.LAST_BLOCK) + 1
        stream = web.StreamResponse(headers={"Content-Type": EVENTS, "Cache-Control": "no-store"})
        await stream.prepare(request)
        self.metrics.streams += 1
        try:
            while True:
                is_there = await self.chain.at_least(number, HEARTBEAT)
                if not self.access.may_go_on(request):
                    # Rights were read anew meanwhile.
                    return stream
                if not is_there:
                    await stream.write(b":\n\n")
                    continue
                async with self.access.load.turn(request):
                    line = await self.choose(await self.chain.block(number), request.query.get("chaincode"))
                    await write(stream, f"id: {number}\nevent: block\ndata: {line}\n\n")
                number += 1
        except (ConnectionResetError, asyncio.TimeoutError, Refused):
            return cut(request, stream)
        finally:
            self.metrics.streams -= 1

    async def get_state(self, request: web.Request) -> web.Response:
        await self.wait_for_height(request)
        answered, _ = await self.chain.peer.ask_for("get", key=key_of(request))
        return self.found(answered)

    async def get_history(self, request: web.Request) -> web.StreamResponse:
        return await self.send(request, self.writes(request, key_of(request)), JSON)

    async def get_range(self, request: web.Request) -> web.StreamResponse:
        """Keys from one to another, as text, or as hex behind 0x."""
        await self.wait_for_height(request)
        bounds = {it: bound_of(request.query.get(it, ""), it) for it in ("start", "end")}
        limit = number_of(request.query.get("limit", "64"), "limit", 1, MOST_ENTRIES)
        return await self.ask(request, '{{"entries":{},"height":{}}}', "range", **bounds, limit=limit)

    async def get_transaction(self, request: web.Request) -> web.Response:
        """What became of a transaction; with `wait`, it is waited for so many seconds."""
        id = request.match_info["id"]
        check(matches(DIGEST, id), "an id is hex of 32 bytes")
        id = id.lower()
        wait = seconds_of(request.query.get("wait", "0"), LONGEST_WAIT)
        waiter, caller = self.chain.wait_for(id), caller_of(request)
        try:
            if known := await self.gateway.status(caller, id):
                return answer(known)
            if wait:
                return answer(await self.gateway.outcome(caller, await asyncio.wait_for(waiter, wait)))
        except asyncio.TimeoutError:
            pass
        finally:
            self.chain.forget(id, waiter)
        return answer({"id": id, "pending": True, "why": "it is in no block"}, 404)

    # ---------------------------------------------------------------- calls

    async def evaluate(self, request: web.Request) -> web.StreamResponse:
        body = await self.body_of(request)
        async with self.access.load.turn(request):
            said = await self.gateway.evaluate(body)
        return await self.tell(request, said)

    async def submit(self, request: web.Request) -> web.StreamResponse:
        """One call, or a list of them, each answered by what it would be answered alone."""
        body = await self.body_of(request)
        patience = seconds_of(request.query.get("wait", str(PATIENCE)), LONGEST_WAIT)
        caller: str = request["caller"]
        with self.metrics.submits.time():
            if "calls" in body:
                check(set(body) == {"calls"}, "a request with calls has nothing else")
                calls = objects(body["calls"], "calls", MOST_CALLS)
                said: Object = {"answers": await self.gateway.submit_all(caller, calls, patience)}
            else:
                said = await self.gateway.submit(caller, body, patience)
        return await self.tell(request, said, 202 if said.get("pending") else 200)

    async def endorse(self, request: web.Request) -> web.StreamResponse:
        """For other organisations' nodes: proposals are simulated on a state after so many blocks at least, and endorsed."""
        body = await self.body_of(request)
        height = body.get("height", 0)
        is_one = set(body) <= {"proposals", "height"} and type(height) is int
        check(is_one, "a request has a list of proposals, and may have a height")
        proposals = [checked(it) for it in objects(body.get("proposals"), "proposals", MOST_CALLS)]
        asker: str = request["caller"]
        counted = list[int]()

        def take(size: int) -> None:
            self.access.load.take(request, size)
            counted.append(size)
        async with self.access.load.turn(request):
            said: Object = {"answers": await self.endorsing.answers(asker, proposals, height, take)}
        return await self.tell(request, said, counted=sum(counted))

    async def agree(self, request: web.Request) -> web.Response:
        """The operator's word that the organisation endorses this very upgrade or amendment."""
        proposal = checked(await self.body_of(request))
        check("chaincode" not in proposal, "a call needs no agreement: one agrees to an upgrade or an amendment")
        members, _ = await self.chain.peer.ask_for("members")
        said = self.endorsing.agreed.add(id_of(proposal), described(proposal, members))
        self.chain.say(f"{request['caller']} agrees to {said['id']}: {dumps(proposal)}")
        return answer(said)

    async def withdraw(self, request: web.Request) -> web.Response:
        """The operator agrees no more. What was endorsed already counts still."""
        id = request.match_info["id"].lower()
        if not self.endorsing.agreed.withdraw(id):
            raise Refused(404, {"why": "nothing of this id is agreed to"})
        self.chain.say(f"{request['caller']} agrees no more to {id}")
        return answer({"id": id})

    async def get_agreed(self, _request: web.Request) -> web.Response:
        return answer({"agreed": self.endorsing.agreed.listed()})

    # ---------------------------------------------------------------- helpers

    async def wait_for_height(self, request: web.Request) -> None:
        height = number_of(request.query.get("height", "0"), "height", 0, ticks.LAST_BLOCK)
        if not await self.chain.at_least(height, 5.0):
            raise Refused(503, {"why": f"this node has {self.chain.height} blocks, and not yet {height}"})

    def found(self, said: Object | None) -> web.Response:
        return answer(said) if said is not None else answer({"why": "there is none", "height": self.chain.height}, 404)

    async def blocks(self, first: int, last: int) -> AsyncIterator[str]:
        """The blocks that there are, from one to another, as many as an answer has."""
        size = 0
        for number in range(first, min(last, self.chain.height) + 1):
            yield (text := await self.chain.block(number))
            size += len(text)
            if size > MOST_ANSWER:
                return

    async def writes(self, request: web.Request, key: str) -> AsyncIterator[str]:
        """The list of all writes to a key, in parts. As long as a long one is on its way, it counts as in `ask`."""
        first, blocks, height, begin = 1, PART, 1, "["
        while first <= height:
            try:
                said, height = await self.chain.peer.text_of("history", key=key, blocks=blocks, **{"from": first})
            except TooLong:
                if blocks == 1:
                    raise
                blocks //= 2
                continue
            first += blocks
            if part := said[1:-1]:
                self.access.load.take(request, len(part) if len(part) > PIECE else 0)
                yield begin + part
                self.access.load.give(request)
                begin = ","
        yield "[]" if begin == "[" else "]"

    async def ask(self, request: web.Request, form: str, what: str, **question: object) -> web.StreamResponse:
        """What the program answers to a question, with its height, in this form. As long as it is on its way, a long one counts among the
        bytes that are held for the organisation."""
        async def texts() -> AsyncIterator[str]:
            text = form.format(*await self.chain.peer.text_of(what, **question))
            if len(text) > PIECE:
                self.access.load.take(request, len(text))
            yield text
        return await self.send(request, texts(), JSON)

    async def tell(self, request: web.Request, said: Object, status: int = 200, counted: int = 0) -> web.StreamResponse:
        """An answer that may be long: as long as it is on its way, it is one of the bytes that are held for the organisation, of which so
        many were counted before."""
        text = dumps(said)
        if len(text) <= PIECE:
            return web.Response(text=text, status=status, content_type=JSON)
        said.clear()
        self.access.load.take(request, len(text) - counted)

        async def texts() -> AsyncIterator[str]:
            yield text
        return await self.send(request, texts(), JSON, status=status)

    async def send(self, request: web.Request, texts: AsyncIterator[str], kind: str, headers: dict[str, str] | None = None,
                   status: int = 200) -> web.StreamResponse:
        """An answer of texts, each of which is read once the one before was taken."""
        stream = web.StreamResponse(status=status, headers={**(headers or {}), "Content-Type": kind})
        while True:
            try:
                async with self.access.load.turn(request):
                    if (text := await anext(texts, None)) is None:
                        break
                    if not stream.prepared:
                        await stream.prepare(request)
                    await write(stream, text)
            except (FilterEnded, TooLong, Refused, asyncio.TimeoutError):
                if stream.prepared:
                    # It is too late for another status.
                    return cut(request, stream)
                raise
        if not stream.prepared:
            await stream.prepare(request)
        await stream.write_eof()
        return stream

    async def choose(self, line: str, chaincode: str | None) -> str:
        """A block's line, with the transactions of one chaincode alone where that is asked for. That takes the loop some time: it is done
        for one reader at a time, and as long as it took, the loop is for others."""
        if chaincode is None:
            return line
        async with self.choosing:
            began = time.monotonic()
            line = chosen(line, chaincode)
            await asyncio.sleep(time.monotonic() - began)
            return line

    async def body_of(self, request: web.Request) -> Object:
        """The JSON object that a request has."""
        # What is packed may be of any length once it is unpacked.
        check("Content-Encoding" not in request.headers, "a body is not packed: leave Content-Encoding out")
        check_length(request.content_length or 0)
        try:
            return parsed(await within(BODY_SECONDS, self.read(request)))
        except asyncio.TimeoutError:
            raise Refused(408, {"why": f"the body has not come within {BODY_SECONDS:.0f} s"}) from None
        except (web.RequestPayloadError, HttpProcessingError):
            raise refuse("the body is broken off, or not encoded as its headers say") from None

    async def read(self, request: web.Request) -> bytes:
        data = bytearray()
        async for piece in request.content.iter_any():
            self.access.load.take(request, len(piece))
            data += piece
            check_length(len(data))
        return bytes(data)


async def write(stream: web.StreamResponse, text: str) -> None:
    """Writes a text, a piece once the one before is on its way; TimeoutError where the reader takes too long."""
    async def pieces() -> None:
        for place in range(0, len(text), PIECE):
            await stream.write(text[place:place + PIECE].encode())
    await within(READ_SECONDS, pieces())


def cut(request: web.Request, stream: web.StreamResponse) -> web.StreamResponse:
    """Ends an answer's connection before its end, so that nobody takes it for whole."""
    if request.transport:
        request.transport.abort()
    return stream


def chosen(line: str, chaincode: str) -> str:
    """A block's line, with the transactions of one chaincode alone."""
    block = json.loads(line)
    return dumps({**block, "txs": [it for it in block["txs"] if it.get("chaincode") == chaincode]})


def key_of(request: web.Request) -> str:
    """The key that a path names: its bytes, each one that is no letter as %XX."""
    key = unquote_to_bytes(request.rel_url.raw_path.split("/", 2)[2]).hex()
    check(2 <= len(key) <= 128, "a key has 1 to 64 bytes")
    return key


def check_length(length: int) -> None:
    if length > BODY:
        raise Refused(413, {"why": f"a body has at most {BODY >> 20} MiB"})


def parsed(data: bytes) -> Object:
    """The JSON object that bytes spell, in UTF-8 whatever else the request says of them."""
    check(data.count(b",") <= MOST_COMMAS, f"the body has more than {MOST_COMMAS:,} commas: ask for less at a time")
    try:
        body = json.loads(data.decode())
    except (ValueError, RecursionError):
        raise refuse("the body is no JSON") from None
    if not isinstance(body, dict):
        raise refuse("the body is a JSON object")
    return body
