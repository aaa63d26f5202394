"""Who asks, and what they may. A caller is known by a certificate: its organisation and its name, as Maker/alice. The proxy ends
TLS, and hands each request on with its caller's certificate. On one machine, where the log is a file, there are no certificates:
all callers are programs of the node's own user."""
import asyncio
import base64
import fnmatch
import functools
import json
import os
import re
import weakref
from collections.abc import Awaitable, Callable

import prometheus_client as prometheus
from aiohttp import web
from cryptography import x509
from cryptography.exceptions import InvalidSignature, UnsupportedAlgorithm
from cryptography.hazmat.primitives.asymmetric import ec, ed25519, padding, rsa
from cryptography.x509.oid import NameOID

from .config import Config, Mistake
from .entries import LogError
from .fields import CALLER, CALLER_HEADER, CERTIFICATE_HEADER, is_loopback
from .filters import FilterEnded, TooLong
from .load import Load
from .owners import owner_of
from .proposals import Refused, check
from .wire import Object

Handler = Callable[[web.Request], Awaitable[web.StreamResponse]]
# Whose certificates are kept in mind, and how often it is looked whether callers are there still, in seconds.
MOST_CALLERS, LOOK = 256, 1.0
# What python3-cryptography raises where a certificate, which any partner may sign, is none or has what it does not know.
UNREADABLE = (ValueError, TypeError, LookupError, x509.InvalidVersion)
# What is counted where the caller has gone before it was answered.
GONE = 499
# The status for a body that does not say its length.
CHUNKED = 411


def dumps(said: object) -> str:
    return json.dumps(said, separators=(",", ":"))


def answer(said: object, status: int = 200) -> web.Response:
    return web.json_response(said, status=status, dumps=dumps)


def authorities_of(config: Config) -> dict[str, list[x509.Certificate]]:
    """The certificates of each organisation's authority."""
    found = config.authority_certificates()
    return {it: [x509.load_der_x509_certificate(data) for data in found[it]] for it in found}


def check_authorities(config: Config) -> None:
    """An authority must make no other one: the proxy counts a caller for the organisation that the signer's name has."""
    for organisation, authorities in authorities_of(config).items():
        if not all(is_last(it) for it in authorities):
            raise Mistake(f"{config.file}: [authorities] {organisation} names an authority that may make others: it has to be one of"
                          " pathlen:0, as `regtuma-certs ca` makes it")


def is_last(authority: x509.Certificate) -> bool:
    """Whether an authority makes no other one."""
    try:
        return authority.extensions.get_extension_for_class(x509.BasicConstraints).value.path_length == 0
    except x509.ExtensionNotFound:
        return False


def is_signed(certificate: x509.Certificate, authority: x509.Certificate) -> bool:
    """Whether an authority's own key signed a certificate. That it is valid in all else, the proxy has seen."""
    key, tag, signed = authority.public_key(), certificate.signature, certificate.tbs_certificate_bytes
    try:
        digest = certificate.signature_hash_algorithm
        if isinstance(key, ed25519.Ed25519PublicKey):
            key.verify(tag, signed)
        elif digest and isinstance(key, ec.EllipticCurvePublicKey):
            key.verify(tag, signed, ec.ECDSA(digest))
        elif digest and isinstance(key, rsa.RSAPublicKey):
            key.verify(tag, signed, padding.PKCS1v15(), digest)
        else:
            return False
        return True
    except (InvalidSignature, UnsupportedAlgorithm):
        return False


def only(certificate: x509.Certificate, oid: x509.ObjectIdentifier) -> str:
    """What the subject of a certificate has of a kind, where that is one text; else nothing."""
    found = [it.value for it in certificate.subject.get_attributes_for_oid(oid)]
    return found[0] if len(found) == 1 and isinstance(found[0], str) else ""


def type_of(request: web.Request) -> str:
    """The type of a body, without its parameters: aiohttp parses these, which takes it tens of milliseconds for a long header."""
    return request.headers.get("Content-Type", "").partition(";")[0].strip().lower()


def by_loopback(request: web.Request) -> bool:
    """Whether a request names this machine by a name of the loopback. For one that names none, aiohttp would ask DNS, and wait."""
    return is_loopback(re.sub(r":\d*$", "", request.headers.get("Host", "")))


class Access:
    def __init__(self, config: Config, requests: prometheus.Counter):
        self.config, self.requests = config, requests
        self.authorities = authorities_of(config)
        # Callers by what the proxy sends, and on one machine the users at the other ends of connections.
        self.name_of = functools.lru_cache(MOST_CALLERS)(self._name_of)
        self.users: weakref.WeakKeyDictionary[asyncio.BaseTransport, int | None] = weakref.WeakKeyDictionary()
        self.load = Load()
        # Requests that are being answered, by their tasks.
        self.going: dict[asyncio.Task[object], web.Request] = {}

    def caller(self, request: web.Request) -> str | None:
        """Whose certificate it is, where the organisation that it names has signed it; on one machine who it says it is."""
        if self.config.is_local:
            return request.headers.get(CALLER_HEADER, f"{self.config.organisation}/dev")
        found: list[str] = request.headers.getall(CERTIFICATE_HEADER, [])
        # The proxy sends one. aiohttp 3.8 takes what follows a body in chunks for headers, also of the connection's next request.
        return self.name_of(found[0]) if len(found) == 1 else None

    def _name_of(self, certificate: str) -> str | None:
        """The caller that a certificate names, which is DER in base64. It has to be signed by that organisation's authority itself:
        no other one speaks for it, also not by an authority in between that bears its name."""
        try:
            found = x509.load_der_x509_certificate(base64.b64decode(certificate))
            organisation, name = only(found, NameOID.ORGANIZATION_NAME), only(found, NameOID.COMMON_NAME)
        except UNREADABLE:
            return None
        authorities = self.authorities.get(organisation, [])
        is_own = found not in authorities and any(is_signed(found, it) for it in authorities)
        return f"{organisation}/{name}" if name and is_own else None

    def has(self, caller: str | None, right: str) -> bool:
        """Whether a caller has a right, as rights are now."""
        return caller is not None and any(fnmatch.fnmatchcase(caller, it) for it in self.config.rights.get(right, []))

    def may_go_on(self, request: web.Request) -> bool:
        """Whether who reads a stream has the right to it still. The loopback asks for none, and neither does one machine."""
        return "right" not in request or self.has(self.caller(request), request["right"])

    def needing(self, right: str, handler: Handler) -> Handler:
        """A handler for those alone who have a right; on one machine for this user's own programs."""
        if self.config.is_local:
            return self.of_own_user(handler)

        async def guarded(request: web.Request) -> web.StreamResponse:
            caller = self.caller(request)
            if not self.has(caller, right):
                raise Refused(403, {"why": f"{caller or 'no certificate'} may not {right}"})
            if request.method == "POST" and type_of(request) != "application/json":
                # What a page of another site can make a browser send, with its certificate, has another type.
                raise Refused(415, {"why": "a request has the type application/json"})
            request["right"], request["caller"] = right, caller
            return await handler(request)
        return guarded

    def of_own_user(self, handler: Handler) -> Handler:
        """A handler for this user's own programs, and for no other site's page in this user's browser: that has an origin of its
        own, or a name of its own for this machine, and cannot send JSON without being allowed to first."""
        async def guarded(request: web.Request) -> web.StreamResponse:
            origin = request.headers.get("Origin")
            if not by_loopback(request) or origin not in (None, f"http://{request.host}"):
                raise Refused(403, {"why": "this node is for programs of this machine, and for its own page"})
            if request.method == "POST" and type_of(request) != "application/json":
                raise Refused(415, {"why": "a request has the type application/json"})
            if self.user(request) != os.getuid():
                raise Refused(403, {"why": f"this node is for the user {os.getuid()} of this machine alone"})
            if not CALLER.fullmatch(caller := self.caller(request) or "") or "*" in caller:
                raise Refused(400, {"why": f"{CALLER_HEADER} is an organisation and a name, as Maker/alice"})
            request["caller"] = caller
            return await handler(request)
        return guarded

    def user(self, request: web.Request) -> int | None:
        """Which user of this machine has the other end of a connection."""
        if (transport := request.transport) is None:
            return None
        if transport not in self.users:
            self.users[transport] = owner_of(transport.get_extra_info("peername"), transport.get_extra_info("sockname"))
        return self.users[transport]

    def on_loopback(self, _right: str, handler: Handler) -> Handler:
        """A handler for all on this machine: it is asked by a name of the loopback, so that no other site's page reads through a
        name of its own."""
        async def guarded(request: web.Request) -> web.StreamResponse:
            if not by_loopback(request):
                raise Refused(403, {"why": "this listener is for the loopback"})
            return await handler(request)
        return guarded

    async def end_gone(self) -> None:
        """Ends the handlers of callers who have gone: aiohttp 3.8 lets them go on."""
        while True:
            await asyncio.sleep(LOOK)
            for task, request in self.going.items():
                if has_gone(request):
                    task.cancel()

    @web.middleware
    async def known(self, request: web.Request, handler: Handler) -> web.StreamResponse:
        """Tells those alone who have some right what is no route: others get 403 for all, and may ask less often."""
        if request.match_info.http_exception and not self.config.is_local:
            caller = self.caller(request)
            if not any(self.has(caller, it) for it in self.config.rights):
                raise Refused(403, {"why": f"{caller or 'no certificate'} may do nothing here"})
        return await handler(request)

    @web.middleware
    async def answered(self, request: web.Request, handler: Handler) -> web.StreamResponse:
        """Counts the request, and turns what fails into an answer."""
        route, status, task = request.match_info.route.resource, 500, asyncio.current_task()
        assert task
        self.going[task] = request
        try:
            check(request.raw_path.isascii(), "a path has no byte above 7F: write it as %XX")
            if "Transfer-Encoding" in request.headers:
                raise Refused(CHUNKED, {"why": "a body says its length by Content-Length, and is not in chunks"})
            response = await handler(request)
            status = response.status
            return response
        except (Refused, web.HTTPException, TooLong, LogError, FilterEnded) as error:
            status, said = refusal_of(error)
            refusal = answer(said, status)
            if status == CHUNKED:
                # No request of this connection follows.
                refusal.force_close()
            return refusal
        except asyncio.CancelledError:
            status = GONE
            raise
        except ConnectionError:
            if not has_gone(request):
                raise
            # This ends it as well, and nothing is told of it in the journal.
            status = GONE
            raise asyncio.CancelledError from None
        finally:
            del self.going[task]
            self.load.give(request)
            self.requests.labels(route.canonical if route else "none", status).inc()


def has_gone(request: web.Request) -> bool:
    """Whether the caller is there no more."""
    return request.transport is None or request.transport.is_closing()


def refusal_of(error: Exception) -> tuple[int, Object]:
    """The status and the words for what fails."""
    if isinstance(error, Refused):
        return error.status, error.said
    if isinstance(error, web.HTTPException):
        return error.status, {"why": error.reason}
    return 422 if isinstance(error, TooLong) else 503, {"why": str(error)}
