"""Connections: how many there may be, and until when each must have sent a whole request or taken its answer.

aiohttp parses HTTP; what it has no limit for is here. A connection counts from the moment on in which it is accepted, so ahead of TLS's
handshake too. It owes a whole request from its beginning and from the end of each answer on, silence between two requests included.
"""
from __future__ import annotations

import asyncio
import socket
import ssl
from asyncio import sslproto
from typing import Any, Awaitable, Callable, Dict, Optional

from aiohttp import web
from aiohttp.http_exceptions import BadHttpMessage

from hub_limits import (
    FAILURES_APART, HANDSHAKE, MOST_FIELD, MOST_HEAD, MOST_PIPELINED, TLS_BUFFER, WHOLE_ANSWER, WHOLE_REQUEST,
)
from hub_pipe import tell

NEVER_BY_AIOHTTP = 86_400.0  # aiohttp's own limit of silence, seconds: WHOLE_REQUEST comes first

if hasattr(sslproto.SSLProtocol, "max_size"):  # from Python 3.11 on 262,144 bytes a connection
    setattr(sslproto.SSLProtocol, "max_size", TLS_BUFFER)

Handler = Callable[[web.BaseRequest], Awaitable[web.StreamResponse]]


class Parser:
    """aiohttp's parser. An address that can't be read (`http://[::1/`) is a faulty request to it as any other."""

    def __init__(self, parser: Any) -> None:
        self.parser = parser

    def __getattr__(self, name: str) -> Any:
        return getattr(self.parser, name)

    def feed_data(self, data: bytes) -> Any:
        """Parses what came."""
        try:
            return self.parser.feed_data(data)
        except ValueError:
            raise BadHttpMessage("the address can't be read") from None


class Connection(web.RequestHandler):
    """aiohttp's connection, watched."""

    def __init__(self, door: "Connections", **words: Any) -> None:
        super().__init__(door, **words)
        self._request_parser: Any = Parser(self._request_parser)
        self.door = door
        self.head = 0  # bytes that came since the last answer
        self.is_asking = False  # a request's head has arrived, and its answer isn't made

    def connection_made(self, transport: asyncio.BaseTransport) -> None:
        super().connection_made(transport)
        self.door.owes(self)

    def connection_lost(self, exc: Optional[BaseException]) -> None:
        self.door.forget(self)
        super().connection_lost(exc)

    def data_received(self, data: bytes) -> None:
        super().data_received(data)
        self.head += len(data)
        if not self.is_asking and not self._messages:
            if self.head > MOST_HEAD:
                self.drop()
        elif len(self._messages) > MOST_PIPELINED:
            self.drop()

    def log_access(self, request: web.BaseRequest, response: web.StreamResponse, time: Optional[float]) -> None:
        self.head, self.is_asking = 0, False
        if self.transport is not None:
            self.door.owes(self)
        self.door.answered(request, response)

    def log_exception(self, *args: Any, **words: Any) -> None:
        """A request that can't be parsed is logged by its line, as every other."""

    def handle_error(self, request: web.BaseRequest, status: int = 500, exc: Optional[BaseException] = None,
                     message: Optional[str] = None) -> web.StreamResponse:
        if request.writer.output_size > 0:
            raise ConnectionError("an answer was begun")
        response = self.door.faulty(status)
        response.force_close()
        return response

    def drop(self) -> None:
        """Closes the connection at once."""
        self.door.forget(self)
        if self.transport is not None:
            self.transport.abort()


class Connections(web.Server):
    """A server of watched connections. `answered` is told each answer, `faulty` makes the one to what isn't HTTP."""

    def __init__(self, handler: Handler, faulty: Callable[[int], web.Response],
                 answered: Callable[[web.BaseRequest, web.StreamResponse], None], most: int, most_body: int) -> None:
        super().__init__(handler, request_factory=self._request, keepalive_timeout=NEVER_BY_AIOHTTP, auto_decompress=False,
                         max_line_size=MOST_FIELD, max_field_size=MOST_FIELD, access_log=None)
        self.loop = asyncio.get_running_loop()
        self.faulty = faulty
        self.answered = answered
        self.most = most
        self.most_body = most_body
        self.beginning: "Dict[socket.socket, asyncio.Task[None]]" = {}  # TLS's handshake is under way, the oldest first
        self.owing: Dict[Connection, float] = {}  # since when, the longest first
        self.answering: Dict[Connection, float] = {}
        self.closed_early = 0  # connections that were too many, and not told yet
        self.told_at = float("-inf")

    def __call__(self) -> web.RequestHandler:
        return Connection(self, loop=self.loop, **self._kwargs)

    # ---- from the socket to a connection

    async def accept_for_ever(self, listening: socket.socket, context: Optional[ssl.SSLContext]) -> None:
        """Accepts connections, one a turn of the loop."""
        listening.setblocking(False)
        while True:
            try:
                accepted, _ = await self.loop.sock_accept(listening)
            except OSError as fault:  # out of file handles, say
                tell(f"a connection can't be accepted: {fault.strerror}")
                self._make_room(0)
                await asyncio.sleep(0.1)
                continue
            self.beginning[accepted] = self.loop.create_task(self._begin(accepted, context))
            self._make_room(self.most)
            await asyncio.sleep(0)

    async def _begin(self, accepted: socket.socket, context: Optional[ssl.SSLContext]) -> None:
        words: Any = {"ssl": context, "ssl_handshake_timeout": HANDSHAKE} if context else {}
        try:
            if context and not await self._is_spoken_to(accepted):
                accepted.close()
                return
            await self.loop.connect_accepted_socket(self, accepted, **words)
        except (OSError, ValueError, asyncio.TimeoutError) as fault:  # an SSLError is an OSError
            if accepted in self.beginning:
                tell(f"TLS: {getattr(fault, 'reason', None) or str(fault) or type(fault).__name__}")
        finally:
            self.beginning.pop(accepted, None)

    async def _is_spoken_to(self, accepted: socket.socket) -> bool:
        """Waits for the first byte, or the other side's end: until then a connection costs no TLS. False where it is over
        before that."""
        came: "asyncio.Future[None]" = self.loop.create_future()
        self.loop.add_reader(accepted, _note, came)
        try:
            await asyncio.wait({came}, timeout=HANDSHAKE)
        finally:
            self.loop.remove_reader(accepted)
        if not came.done():
            tell(f"TLS: nothing came within {HANDSHAKE} seconds")
        return came.done() and accepted in self.beginning

    def _make_room(self, most: int) -> None:
        """Closes one that is too many: the oldest before its handshake's end, else the one that has owed a request for longest."""
        if len(self.beginning) + len(self.owing) + len(self.answering) <= most:
            return
        if len(self.beginning) > 1:
            self._end_early(next(iter(self.beginning)))
        elif self.owing:
            next(iter(self.owing)).drop()

    def _end_early(self, accepted: socket.socket) -> None:
        """Ends a handshake. The socket is closed by who waits for it: another connection must not get its number before."""
        del self.beginning[accepted]
        self.closed_early += 1
        try:
            accepted.shutdown(socket.SHUT_RDWR)
        except OSError:
            pass  # the other side has gone

    def tell_closed(self) -> None:
        """Says how many were closed before their handshake's end, every so often."""
        if self.closed_early and self.loop.time() - self.told_at >= FAILURES_APART:
            tell(f"TLS: {self.closed_early} connections were too many, and closed before the end of their handshake")
            self.closed_early, self.told_at = 0, self.loop.time()

    # ---- what a connection owes

    def _request(self, message: Any, payload: Any, protocol: Any, writer: Any, task: Any) -> web.BaseRequest:
        protocol.is_asking = True
        return web.BaseRequest(message, payload, protocol, writer, task, self.loop, client_max_size=self.most_body + 1)

    def owes(self, connection: Connection) -> None:
        """From now on it owes a whole request. Of too many the one that has owed for longest is closed."""
        self.forget(connection)
        self.owing[connection] = self.loop.time()
        self._make_room(self.most)

    def asked(self, connection: Connection) -> None:
        """Its request has arrived whole."""
        if self.owing.pop(connection, None) is not None:
            self.answering[connection] = self.loop.time()

    def forget(self, connection: Connection) -> None:
        """It is closed, or what it owed begins anew."""
        self.owing.pop(connection, None)
        self.answering.pop(connection, None)

    async def close_late(self) -> None:
        """Closes connections that are past their time, for ever."""
        while True:
            await asyncio.sleep(1)
            self.tell_closed()
            now = self.loop.time()
            for watched, most in ((self.owing, WHOLE_REQUEST), (self.answering, WHOLE_ANSWER)):
                late = [connection for connection, since in watched.items() if now - since > most]
                for connection in late:
                    connection.drop()


def _note(came: "asyncio.Future[None]") -> None:
    """Something came; it is told as long as nobody reads it."""
    if not came.done():
        came.set_result(None)
