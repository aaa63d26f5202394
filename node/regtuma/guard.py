"""Connections to other nodes and to etcd, whose other end may be anybody's program. What it says unasked ends them: else it would take
the loop's time and the node's memory, also while a connection is kept for the next request."""
import asyncio
import functools
import ssl
from asyncio import constants, sslproto
from collections.abc import Callable

import aiohttp
from aiohttp.client_proto import ResponseHandler

# How much of a connection is looked at in a turn of the loop, in bytes. A record has no more data, so that one read gives all of it.
PIECE = 1 << 14
# What a record of TLS 1.3 has beside its data; and how many bytes of a connection may be no data: some tickets, and the part of a record
# that is there. A change of keys has 27, and takes the loop up to a seventh of a millisecond.
RECORD, MOST_SILENT = 22, 2 * PIECE
# How many answers may be there that nobody has read: some before the one that counts (100 Continue).
MOST_UNREAD = 8
sslproto.SSLProtocol.max_size = PIECE
# For how long a connection is there behind the other side's farewell, in seconds, where that does not take what is still to be said.
constants.SSL_SHUTDOWN_TIMEOUT = 1.0


class Guarded(ssl.SSLObject):
    """A connection that ends where too much comes that is no data, as changes of keys without end."""
    incoming: ssl.MemoryBIO
    silent = 0

    def read(self, size: int = PIECE, buffer: bytearray | None = None) -> bytes:
        assert buffer is None
        pending = self.incoming.pending
        try:
            data = super().read(size)
            self.silent -= RECORD + len(data)
            return data
        finally:
            self._count(pending)

    def unwrap(self) -> None:
        pending = self.incoming.pending
        try:
            super().unwrap()
        finally:
            self._count(pending)

    def _count(self, pending: int) -> None:
        """Counts what was taken, of so many bytes that were there."""
        self.silent += pending - self.incoming.pending
        if self.silent > MOST_SILENT:
            raise ssl.SSLError(ssl.SSL_ERROR_SSL, "it sends records without data")


class Context(ssl.SSLContext):
    """That of a client, whose connections are guarded."""
    sslobject_class = Guarded

    def wrap_bio(self, incoming: ssl.MemoryBIO, outgoing: ssl.MemoryBIO, server_side: bool = False,
                 server_hostname: str | None = None, session: ssl.SSLSession | None = None) -> ssl.SSLObject:
        made = super().wrap_bio(incoming, outgoing, server_side, server_hostname, session)
        assert isinstance(made, Guarded)
        made.incoming = incoming
        return made


class Answers(ResponseHandler):
    """A connection that ends where answers come that nobody asked for, and at once: its end waits for no farewell of the other side. What
    ends it so is told."""

    def __init__(self, tell: Callable[[str], None], loop: asyncio.AbstractEventLoop):
        super().__init__(loop)
        self.tell = tell

    def data_received(self, data: bytes) -> None:
        super().data_received(data)
        if len(self) > MOST_UNREAD and self.transport:
            self.tell("it answers what nobody asked")
            self.transport.abort()
        elif self.transport and self.transport.is_closing():
            # It was no answer.
            self.transport.abort()

    def close(self) -> None:
        if self.transport:
            self.transport.abort()
        super().close()

    def connection_lost(self, exc: BaseException | None) -> None:
        super().connection_lost(exc)
        if isinstance(exc, ssl.SSLError):
            self.tell(str(exc))


class Connector(aiohttp.TCPConnector):
    """Makes such connections."""

    def __init__(self, tls: ssl.SSLContext | None, tell: Callable[[str], None] = lambda _: None, limit_per_host: int = 0):
        super().__init__(ssl=tls, limit_per_host=limit_per_host)
        self._factory = functools.partial(Answers, tell, self._loop)
