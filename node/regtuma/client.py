"""A client of Regtuma's nodes, which needs nothing but Python.

    from regtuma.client import Client, Failed

    ledger = Client(["https://10.0.0.1:7051"], "alice.pem", "alice.key", "ca.pem")
    try:
        done = ledger.submit("assets", "transfer", "pallet-7", "Shop")
        print(f"VALID, in block {done['block']}")
    except Failed as failed:
        print(failed)
    print(ledger.evaluate("assets", "read", "pallet-7").decode())
    for block in ledger.blocks(1):
        print(block["block"], [tx["flag"] for tx in block["txs"]])

A call is one transaction, by its nonce, however often nodes are asked for it: where one gives no answer the next one is asked
for the same. What fails is told by one of the exceptions of `Failed`, in a sentence.
"""
import functools
import http.client
import io
import json
import os
import secrets
import socket
import ssl
import threading
import time
from collections.abc import Iterable, Iterator
from typing import Any, TypeVar
from urllib.parse import quote, urlencode, urlsplit

from .fields import local_url, url
from .wire import Object, id_of

# What is tried again: flags of a conflict and of a phantom, and the orderer's answers to a batch that has no legal order.
CONFLICTS, ABORTED = (2, 3), (441, 442)
# The status of a node that can do nothing now: another one is asked.
UNAVAILABLE = 503
# How long to wait before the next node is asked, and how long one may take at the least, in seconds.
PAUSE, LEAST = 0.2, 0.5
# How long a stream of blocks may be silent: a node says something each 15 seconds.
SILENCE = 45.0
# The longest answer that is read, in bytes: that of a long history.
LONGEST = 256 << 20
# What there is where a node gives no answer, or none that a node gives.
FAILURES = (OSError, http.client.HTTPException, ValueError)
# Those behind which a node has not even been asked.
UNASKED = (ConnectionRefusedError, ssl.SSLCertVerificationError, socket.gaierror)
# The environment's names of the nodes' URLs, with commas between, and of the files of certificate, key and authority: one for all
# nodes, or one for each, with commas between too.
SETTINGS = ("REGTUMA_NODES", "REGTUMA_CERT", "REGTUMA_KEY", "REGTUMA_CA")
# What an answer is: an object or a list.
Kind = TypeVar("Kind")


class Failed(Exception):
    """Something did not come about. `said` is what a node answered, if one did."""

    def __init__(self, why: str, said: Object | None = None):
        super().__init__(why)
        self.said = said or {}
        # Whether a node that was asked before may have done it.
        self.may_be_done = False


class Refused(Failed):
    """A node refused: the call is in no block. `status` is that of HTTP, `said["refused"]` the ledger's number, if it has one. Behind 441
    and 442 `submit` may be asked again by `said["nonce"]` alone."""

    def __init__(self, status: int, said: Object):
        super().__init__(str(said.get("why", f"the node answers by status {status}")), said)
        self.status = status


class Invalid(Failed):
    """The transaction is in a block and not VALID: `said` has its flag, block and place."""


class NoAnswer(Failed):
    """No node answered, or could do it. Whether a call that was submitted is in the log is not known: `said["id"]` is its id, for `status`."""


class Pending(Failed):
    """The time is up, and the call is in no block yet: it may still come into one. `said["id"]` is its id, for `status`."""


class InTime(io.RawIOBase):
    """What comes by a socket up to a time: its own timeout is for each piece alone."""

    def __init__(self, sock: socket.socket, until: float):
        self.sock, self.until, self.pieces = sock, until, sock.makefile("rb", buffering=0)

    def readable(self) -> bool:
        return True

    def readinto(self, buffer: Any) -> int | None:
        if (left := self.until - time.monotonic()) <= 0:
            raise TimeoutError("timed out")
        self.sock.settimeout(left)
        return self.pieces.readinto(buffer)

    def close(self) -> None:
        self.pieces.close()
        super().close()


class Answered(http.client.HTTPResponse):
    """An answer that comes up to a time."""

    def __init__(self, until: float, sock: socket.socket, **more: Any):
        super().__init__(sock, **more)
        self.fp.close()
        self.fp = io.BufferedReader(InTime(sock, until))


class Link:
    """A connection to the node whose turn it is, for requests or for a stream."""

    def __init__(self, client: "Client", turn: int = 0, is_stream: bool = False):
        self.client, self.turn, self.is_stream = client, turn, is_stream
        self.connection: http.client.HTTPConnection | None = None

    def begin(self, method: str, path: str, body: Object | None, seconds: float) -> http.client.HTTPResponse:
        """Begins a request, whose answer comes within so many seconds, and that of a stream is silent for no more."""
        if self.connection is None:
            turn = self.turn % len(self.client.nodes)
            at = urlsplit(self.client.nodes[turn])
            if at.scheme == "http":
                self.connection = http.client.HTTPConnection(at.netloc, timeout=seconds)
            else:
                self.connection = http.client.HTTPSConnection(at.netloc, timeout=seconds, context=self.client.tls[turn])
        self.connection.timeout = seconds
        if self.connection.sock:
            self.connection.sock.settimeout(seconds)
        if not self.is_stream:
            setattr(self.connection, "response_class", functools.partial(Answered, time.monotonic() + seconds))
        self.connection.request(method, path, json.dumps(body) if body else None, {"Content-Type": "application/json"})
        return self.connection.getresponse()

    def leave(self) -> None:
        """Leaves the node: the turn is the next one's."""
        if self.connection:
            self.connection.close()
        self.connection, self.turn = None, self.turn + 1


class Client:
    """For any number of threads: each has a connection of its own, and so has each stream of blocks."""

    def __init__(self, nodes: list[str], certificate: str = "", key: str = "", authorities: str = "", seconds: float = 40.0):
        """`nodes` are URLs, asked in turn; files are in PEM, and needed unless all nodes are this user's own, as those of `ledger
        dev`, whose URLs begin with http. `authorities` is the file of the organisation's own authority; where other organisations'
        nodes are named too, it has a file for each node, with commas between: only that authority speaks for the node. After
        `seconds` without an answer a call fails."""
        self.nodes, self.seconds, self.own = nodes, seconds, threading.local()
        for it in nodes:
            if not url(it) and not local_url(it):
                raise Failed(f"{it} is no URL of a node with its port, as https://10.0.0.1:7051, or here http://127.0.0.1:7051")
        if are_local(nodes):
            return
        trusted = authorities.split(",")
        if len(trusted) not in (1, len(nodes)):
            raise Failed(f"there are {len(trusted)} authorities for {len(nodes)} nodes: name one for all, or one for each")
        try:
            contexts = [tls_of(certificate, key, it) for it in trusted]
            self.tls = contexts if len(trusted) > 1 else contexts * len(nodes)
        except OSError as error:
            files = f"{certificate}, {key}, {authorities}"
            raise Failed(f"the certificate, its key or an authority cannot be used ({files}): {error.strerror or error}") from None

    def submit(self, chaincode: str, *args: str, arg: bytes | None = None, organisations: list[str] | None = None,
               tries: int = 1, nonce: str | None = None) -> Object:
        """Has a call committed: its id, block, place, flag and result once it is VALID. One that conflicts with another, or whose id
        another organisation used up, is made anew, `tries` times in all. One that the orderer left out of a batch (441, 442) is asked for
        again by its own nonce, as anybody may put it once more: so it counts once. `organisations` are to endorse, in place of those that the
        policy needs; a `nonce` of 32 hex digits names the transaction, where the caller has asked for it before. After the client's
        `seconds` it ends by `Pending`, where the call is in no block yet."""
        until, is_left_out = time.monotonic() + self.seconds, False
        for left in range(max(tries, 1) - 1, -1, -1):
            call = call_of(chaincode, args, arg, organisations, nonce)
            said = self.outcome(call, until, is_left_out)
            is_left_out = said.get("refused") in ABORTED
            nonce = call["nonce"] if is_left_out else None
            if said.get("valid"):
                return said
            if not left or time.monotonic() > until or not may_be_tried_again(said):
                break
        raise failure({**said, "nonce": call["nonce"]})

    def outcome(self, call: Object, until: float = 0.0, may_be_put: bool = False) -> Object:
        """What becomes of a call or a change, whatever that is: an answer of the API with `valid`, `refused` or neither; with `pending`
        where its time is up, by the clock of `time.monotonic`, by default after the client's `seconds`. Where nodes could do nothing up to
        the end (503), or one refuses behind one that gave no answer, it ends by `NoAnswer`: a call may have been put before, as it may
        where `may_be_put` says so."""
        until = until or time.monotonic() + self.seconds
        try:
            while True:
                # Who asks again for the same call waits for it, or has it put where it is not under way.
                said = self._ask(dict, "POST", self._transactions(until), call, (), until)
                if not said.get("pending") or until - time.monotonic() < LEAST:
                    return said
                may_be_put = True
        except (NoAnswer, Refused) as error:
            if is_final(error) and not may_be_put and not error.may_be_done:
                raise
            raise NoAnswer(str(error), {"id": id_of(call)}) from None

    def submit_all(self, calls: Iterable[Object]) -> list[Object]:
        """Has several calls committed by one request, each of which `call_of` makes: the answer to each, in order, with `valid`,
        or with `refused`, `flag` or `pending`, and `why`. With `pending` it has an `id`, for `status`: the call may still come into a
        block. Where no node answers it ends as `outcome`, with the calls' `ids`. Calls of one request are simulated side by side, so they
        must not conflict."""
        calls, until = list(calls), time.monotonic() + self.seconds
        try:
            said, may_be_done = self._asked(dict, "POST", self._transactions(until), {"calls": calls}, (), until)
        except (NoAnswer, Refused) as error:
            if is_final(error) and not error.may_be_done:
                raise
            raise NoAnswer(str(error), {"ids": [id_of(it) for it in calls]}) from None
        return [self._told(call, it, until, may_be_done) for call, it in zip(calls, said["answers"])]

    def _told(self, call: Object, said: Object, until: float, may_be_done: bool) -> Object:
        """What is told of one of several calls, of which a node has said this: `pending` where it may be in the log, whoever refuses."""
        is_open = said.get("pending") or said.get("status") == UNAVAILABLE
        try:
            if is_open and time.monotonic() < until:
                return self.outcome(call, until, may_be_put=True)
        except NoAnswer as error:
            said = {"why": str(error)}
        # A refusal has no id.
        is_known = "id" in said or not (is_open or may_be_done)
        return said if is_known else {"id": id_of(call), "pending": True, "why": said["why"]}

    def evaluate(self, chaincode: str, *args: str, arg: bytes | None = None) -> bytes:
        """The result of a call that changes nothing, on the state that the node has."""
        call = call_of(chaincode, args, arg)
        return bytes.fromhex(self.ask("POST", "/evaluate", {it: call[it] for it in ("chaincode", "arg")})["result"])

    def get(self, key: str | bytes, height: int = 0) -> bytes | None:
        """A key's bytes, or None, by the state after `height` blocks at least."""
        said = self.ask("GET", f"/state/{quote(key, safe='')}?height={height}", accept=(404,))
        return bytes.fromhex(said["value"]) if "value" in said else None

    def state(self, start: str = "", end: str = "", limit: int = 64) -> list[Object]:
        """The first entries from a key on and below another one, each with `key`, `value` (both hex) and `version`."""
        said = self.ask("GET", "/state?" + urlencode({"start": start, "end": end, "limit": limit}))
        return self._list(said, "entries")

    def history(self, key: str | bytes) -> list[Object]:
        """Each write of a VALID transaction to a key."""
        return self._ask(list, "GET", "/history/" + quote(key, safe=""), None, ())

    def status(self, id: str, wait: float = 0) -> Object:
        """What became of a transaction, for which it waits so many seconds; `pending` where it is in no block."""
        until = time.monotonic() + wait
        while True:
            left = max(0.0, until - time.monotonic())
            path = f"/transactions/{quote(id, safe='')}?wait={min(left, self._patience):.3f}"
            said = self.ask("GET", path, accept=(404,))
            if not said.get("pending") or not left:
                return said

    def members(self) -> Object:
        """The membership that stands: `serial`, `members` and `policy`."""
        return self.ask("GET", "/members")

    def agree(self, proposal: Object) -> Object:
        """Lets the node endorse this very upgrade or amendment, by a person's decision: the `id` that its transaction has, `until` when,
        in seconds since 1970, and in `words` what that is."""
        return self.ask("POST", "/agreed", proposal)

    def agreed(self) -> list[Object]:
        """What the node may endorse."""
        return self._list(self.ask("GET", "/agreed"), "agreed")

    def withdraw(self, id: str) -> None:
        """Lets the node endorse a change no more."""
        self.ask("DELETE", f"/agreed/{quote(id, safe='')}")

    def change(self, proposal: Object, organisations: list[str]) -> Object:
        """Has an upgrade or an amendment committed, as `submit` a call, by organisations that have agreed to it."""
        said = self.outcome({**proposal, "organisations": organisations})
        if not said.get("valid"):
            raise failure(said)
        return said

    def height(self) -> int:
        height: int = self.ask("GET", "/height")["height"]
        return height

    def block(self, number: int) -> Object:
        return self.ask("GET", f"/blocks/{number}")

    def health(self) -> Object:
        """Whether a node is well: `ok`, and `wrong` and `warnings`, lists of sentences."""
        return self.ask("GET", "/healthz", accept=(UNAVAILABLE,))

    def blocks(self, first: int | None = None) -> Iterator[Object]:
        """Blocks from a number on, by default those that are still to come, for ever. Where a node ends the next one goes on; one
        that refuses ends it by `Refused`, and `NoAnswer` does where no node has answered for `seconds`."""
        link, until = Link(self, self._link().turn, is_stream=True), 0.0
        while True:
            try:
                answer = link.begin("GET", "/events" + ("" if first is None else f"?from={first}"), None, SILENCE)
                if answer.status != 200:
                    raise refusal(answer)
                until = 0.0
                for block in blocks_in(answer):
                    first = block["block"] + 1
                    yield block
            except (Refused, *FAILURES) as error:
                why, until = self._why(error), until or time.monotonic() + self.seconds
                if is_final(why) or time.monotonic() > until:
                    raise why from None
            finally:
                link.leave()
            time.sleep(PAUSE)

    def ask(self, method: str, path: str, body: Object | None = None, accept: tuple[int, ...] = ()) -> Object:
        """The object that a node answers. The next one is asked where one gives none, or cannot do it now (503)."""
        return self._ask(dict, method, path, body, accept)

    def _ask(self, kind: type[Kind], method: str, path: str, body: Object | None, accept: tuple[int, ...], until: float = 0.0) -> Kind:
        return self._asked(kind, method, path, body, accept, until)[0]

    def _asked(self, kind: type[Kind], method: str, path: str, body: Object | None, accept: tuple[int, ...],
               until: float = 0.0) -> tuple[Kind, bool]:
        """What a node answers, and whether one that was asked before may have done it."""
        link, until, may_be_done = self._link(), until or time.monotonic() + self.seconds, False
        while True:
            try:
                answer = link.begin(method, path, body, max(LEAST, until - time.monotonic()))
                if answer.status < 400 or answer.status in accept:
                    return of_kind(kind, said_by(answer)), may_be_done
                why: Failed = refusal(answer)
                why.may_be_done = may_be_done
                if is_final(why):
                    raise why
                may_be_done = True
            except FAILURES as error:
                why, may_be_done = self._why(error), may_be_done or not isinstance(error, UNASKED)
            link.leave()
            if time.monotonic() > until:
                raise why
            time.sleep(PAUSE)

    def _why(self, error: Exception) -> Failed:
        """What a node refused, or that no node answers."""
        if isinstance(error, Refused):
            return error
        return NoAnswer(f"no node answers, of {', '.join(self.nodes)}: {str(error) or type(error).__name__}")

    @property
    def _patience(self) -> float:
        """How long a node may wait before it answers: the client does not take it for dead yet."""
        return max(1.0, self.seconds - 5)

    def _transactions(self, until: float) -> str:
        """Where calls are posted: a node answers before the time is up."""
        left = max(0.0, until - time.monotonic())
        return f"/transactions?wait={left - min(5.0, left / 4):.3f}"

    def _list(self, said: Object, name: str) -> list[Object]:
        found: list[Object] = said[name]
        return found

    def _link(self) -> Link:
        """This thread's connection."""
        if not hasattr(self.own, "link"):
            self.own.link = Link(self)
        link: Link = self.own.link
        return link


def call_of(chaincode: str, args: Iterable[str] = (), arg: bytes | None = None, organisations: list[str] | None = None,
            nonce: str | None = None) -> Object:
    """A call as the API takes it: its argument is `arg`, or the words `args` with spaces between."""
    data = " ".join(args).encode() if arg is None else arg
    call = {"chaincode": chaincode, "arg": data.hex(), "nonce": nonce or secrets.token_hex(16)}
    return {**call, "organisations": organisations} if organisations else call


def tls_of(certificate: str, key: str, authority: str) -> ssl.SSLContext:
    """Shows this certificate, and believes what this authority has signed. As for a node, a server chooses no long handshake."""
    tls = ssl.create_default_context(cafile=authority)
    tls.minimum_version = ssl.TLSVersion.TLSv1_3
    tls.set_ecdh_curve("prime256v1")
    tls.load_cert_chain(certificate, key)
    return tls


def blocks_in(answer: Iterable[bytes]) -> Iterator[Object]:
    """The blocks of a stream's lines."""
    return (json.loads(line[6:]) for line in answer if line.startswith(b"data: "))


def of_kind(kind: type[Kind], said: object) -> Kind:
    """What is said, where it is of this kind."""
    if not isinstance(said, kind):
        raise ValueError("what answers there is no node")
    return said


def said_by(answer: http.client.HTTPResponse) -> object:
    """The JSON value of an answer."""
    data = answer.read(LONGEST + 1)
    if len(data) > LONGEST:
        raise ValueError(f"its answer has more than {LONGEST >> 20} MiB")
    return json.loads(data)


def refusal(answer: http.client.HTTPResponse) -> Refused:
    """What a node, or who answers in its place, refuses by."""
    said = said_by(answer)
    return Refused(answer.status, said if isinstance(said, dict) else {})


def may_be_tried_again(said: Object) -> bool:
    """Whether a call that is not VALID may be so later, or by another nonce."""
    return said.get("flag") in CONFLICTS or said.get("refused") in ABORTED or "used_up_by" in said


def is_final(why: Failed) -> bool:
    """Whether no other node is to be asked: one has refused, and not for now alone."""
    return isinstance(why, Refused) and why.status != UNAVAILABLE


def failure(said: Object) -> Failed:
    """The exception for an outcome that is not VALID."""
    if said.get("pending"):
        why = f"the time is up: {said['why']}"
        return Pending(why, {**said, "why": why})
    return Invalid(said["why"], said) if "flag" in said else Refused(200, said)


def are_local(nodes: list[str]) -> bool:
    """Whether all nodes are of this machine, and ask for no certificate."""
    return all(it.startswith("http://") for it in nodes)


def from_environment(seconds: float = 40.0) -> Client:
    """The client that the environment's REGTUMA_NODES, REGTUMA_CERT, REGTUMA_KEY and REGTUMA_CA name; where all URLs begin with
    http, by the first alone."""
    if are_local(nodes := os.environ.get("REGTUMA_NODES", "").split(",")):
        return Client(nodes, seconds=seconds)
    missing = [it for it in SETTINGS if not os.environ.get(it)]
    if missing:
        raise Failed(f"the environment has no {' and no '.join(missing)}: REGTUMA_NODES are the nodes' URLs with commas between,"
                     " the others the files of the client's certificate, its key and its organisation's authority")
    certificate, key, authorities = (os.environ[it] for it in SETTINGS[1:])
    return Client(nodes, certificate, key, authorities, seconds)
