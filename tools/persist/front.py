"""The connections of the server: what it takes from a client before anything is carried out, and how it answers one that reads slowly.

It stands on aiohttp's low-level server. Beyond what that does, each connection has seconds for the head of a request and for its body, a
most of bytes for both, and has to take what is written to it. Where there are too many connections, the one that has waited longest without
a whole request is ended for the next one, so that those who only hold connections keep nobody out.

Tested (tools/tests), not proved. It needs aiohttp.
"""

import asyncio
import contextlib
import hashlib
import hmac
import json
import re
import time
from typing import Any, Awaitable, Callable, Dict, List, Optional, Tuple, Union

from aiohttp import web
from aiohttp.http_exceptions import HttpProcessingError, LineTooLong
from aiohttp.web_protocol import RequestHandler, RequestPayloadError
from aiohttp.web_server import Server

from . import kept

__all__ = ['Answering', 'Front', 'Guarded', 'Limits', 'Problem', 'Talk', 'body_of', 'check_origin', 'check_token', 'digest', 'wants_text']


class Limits(kept.Limits):
    """How much a server takes and does at once. Each whole number or number of seconds may be set by `--limit NAME=NUMBER`."""
    clients = 1024              # connections
    head = 32_768               # bytes of the head of a request
    field = 8190                # bytes of a line of it
    head_seconds = 10.0         # for the whole head
    idle_seconds = 60.0         # between two requests of a connection
    body = 4 << 20              # bytes of a body
    body_seconds = 20.0         # for the whole body
    take_seconds = 20.0         # for taking 64 KiB of an answer
    lines = 10_000              # lines of a body
    line = 1024                 # bytes of a line
    program = 1 << 20           # bytes of a program
    stores = 10_000             # stores in the folder
    open_stores = 256           # stores that have a process
    store_seconds = 300.0       # without a request behind which a store's processes are ended
    followers = 256             # clients that follow the versions of stores
    names = 10_000              # names of versions of a store
    large = 32                  # answers of more than 256 KiB that are written at once
    working = 512               # requests that are worked at, at once
    lease = 5.0                 # seconds behind which a machine that is not heard of loses its stores
    log_seconds = 8.0           # in which a group has to be in the log of several machines
    pass_seconds = 20.0         # in which another machine has to answer what is passed on to it
    image_commands = 10_000     # commands behind an image before there is another one


class Problem(Exception):
    """What is answered in place of what was asked for: a status, and a line that says what to do."""

    def __init__(self, status: int, text: str, more: Optional[Dict[str, Any]] = None, last: bool = False) -> None:
        super().__init__(text)
        self.status, self.text, self.more = status, text, more or {}
        # Whether the connection is closed behind it.
        self.last = last


Talk = Callable[[web.BaseRequest], Awaitable[web.StreamResponse]]


# Connections.

class Guarded(RequestHandler):
    """A connection, with what it is waited for, since when, and how many bytes of a head have come."""

    def __init__(self, front: 'Front', **given: Any) -> None:
        super().__init__(front, loop=asyncio.get_running_loop(), **given)
        self.front = front
        self.since = time.monotonic()
        self.head = 0
        # Whether a whole request is being worked at, and whether one was answered.
        self.works = self.answered = False
        # How many requests of this connection were answered.
        self.answers = 0
        # How much was still to be taken by the client at the last look, and since when it has not become less.
        self.left, self.left_since = 0, self.since

    def connection_made(self, transport: asyncio.BaseTransport) -> None:
        """A client has come."""
        super().connection_made(transport)
        self.front.make_room(self)

    def data_received(self, data: bytes) -> None:
        """Bytes have come: parts of heads are counted, and so are requests that wait behind each other."""
        before = self._request_count
        if not self.head and not self.works:
            self.since = time.monotonic()
        super().data_received(data)
        if self._request_count > before:
            self.head = 0
        elif self._request_count == self.answers:
            # Else these are bytes of the body of a request that is not answered yet, also where its work is not begun.
            self.head += len(data)
            if self.head > self.front.limits.head:
                self.say_and_end(431, f'the head of a request has at most {self.front.limits.head:,} bytes: send fewer and shorter lines')
        if len(self._messages) > 64 or len(self._message_tail) > 65_536:
            self.drop()

    def say_and_end(self, status: int, text: str) -> None:
        """Answers a client whose request has not come, and ends its connection."""
        if self.transport is not None and not self.transport.is_closing():
            line = json.dumps({'error': text, 'status': status}).encode() + b'\n'
            head = f'HTTP/1.1 {status} {REASONS[status]}\r\nContent-Type: application/json\r\nContent-Length: {len(line)}\r\nConnection: close\r\n\r\n'
            with contextlib.suppress(OSError, RuntimeError):
                self.transport.write(head.encode() + line)
        self.force_close()

    def drop(self) -> None:
        """Ends the connection at once; what was to be written is thrown away."""
        if self.transport is not None:
            self.transport.abort()

    def look(self, now: float) -> None:
        """Ends a connection that waits too long for something."""
        limits = self.front.limits
        waiting = self.transport.get_write_buffer_size() if self.transport is not None else 0
        if not waiting or waiting < self.left:
            self.left_since = now
        self.left = waiting
        if waiting and now - self.left_since > limits.take_seconds:
            self.drop()
        elif self.works or self._current_request is not None:
            pass
        elif self.head and now - self.since > limits.head_seconds:
            self.say_and_end(408, f'the head of a request has to come in {limits.head_seconds:g} seconds: send it at once')
        elif now - self.since > (limits.idle_seconds if self.answered else limits.head_seconds):
            self.force_close()

    async def _handle_request(self, *given: Any) -> Tuple[web.StreamResponse, bool]:
        """A request is not begun where the connection was lost before its turn. (aiohttp asserts that it was not, and tells a fault.)"""
        if self._request_handler is None:
            raise ConnectionError('the client has gone')
        try:
            return await super()._handle_request(*given)
        except HttpProcessingError:
            # The request was answered, and what stands behind its body is none.
            raise ConnectionError('the bytes behind a request are none') from None

    def handle_error(self, request: web.BaseRequest, status: int = 500, exc: Optional[BaseException] = None,
                     message: Optional[str] = None) -> web.StreamResponse:
        """What is answered to bytes that are no request."""
        if request.writer.output_size > 0:
            raise ConnectionError('an answer was begun already')
        if isinstance(exc, LineTooLong):
            status, told = 431, f'a line of the head has at most {self.front.limits.field:,} bytes: send a shorter one'
        else:
            told = 'the bytes are no request of HTTP/1.1' if status == 400 else 'the server has a fault; it is told on its standard error'
        answer = web.Response(status=status, text=json.dumps({'error': told, 'status': status}) + '\n', content_type='application/json')
        answer.force_close()
        return answer


REASONS = {408: 'Request Timeout', 431: 'Request Header Fields Too Large', 503: 'Service Unavailable'}


class Front(Server):
    """All connections of a server."""

    def __init__(self, talk: Talk, limits: Limits) -> None:
        super().__init__(talk, access_log=None, keepalive_timeout=limits.idle_seconds, lingering_time=2.0, max_line_size=limits.field,
                         max_field_size=limits.field, auto_decompress=False)
        self.limits = limits
        # How many were ended for others, and how many were not taken.
        self.pushed_out = self.turned_away = 0

    def __call__(self) -> RequestHandler:
        """The next connection."""
        return Guarded(self, **self._kwargs)

    def make_room(self, fresh: Guarded) -> None:
        """Ends the connection that has waited longest without a whole request, where there are too many; or the new one, where all work."""
        if len(self._connections) <= self.limits.clients:
            return
        idle = [it for it in self._connections if isinstance(it, Guarded) and not it.works and it is not fresh]
        if idle:
            self.pushed_out += 1
            oldest = min(idle, key=lambda it: it.since)
            oldest.drop()
            # It is told that it is lost only later, and is counted no more.
            self._connections.pop(oldest, None)
            return
        self.turned_away += 1
        fresh.say_and_end(503, f'{self.limits.clients:,} clients are served already; come again later')

    async def watch(self) -> None:
        """Looks at all connections, again and again."""
        while True:
            await asyncio.sleep(min(1.0, self.limits.head_seconds / 4))
            now = time.monotonic()
            for it in list(self._connections):
                if isinstance(it, Guarded):
                    it.look(now)


# What a request has to be.

def digest(text: str) -> bytes:
    """A token as it is kept and compared: of one length, whatever the token is."""
    return hashlib.sha256(text.encode('utf-8', 'surrogateescape')).digest()


def check_token(request: web.BaseRequest, token: Optional[bytes]) -> None:
    """Refuses a request without the token, where one is wanted. The comparison takes as long for every wrong one."""
    if token is None:
        return
    kind, _, given = request.headers.get('Authorization', '').partition(' ')
    if not hmac.compare_digest(digest(given.strip()), token) or kind.lower() != 'bearer':
        raise Problem(401, 'a token is wanted here: send the line `Authorization: Bearer TOKEN`', last=True)


def check_origin(request: web.BaseRequest, hosts: Optional[Tuple[str, ...]]) -> None:
    """Refuses what a page of another origin sends, and names of this host that are not its own, by which a page elsewhere may reach it."""
    host = request.headers.get('Host', '')
    if hosts is not None and host.lower() not in hosts:
        raise Problem(403, f'this server is not called {host[:80]!r}: use the address that it told at its start, or begin it with --host', last=True)
    origin = request.headers.get('Origin')
    if origin is not None and origin.lower() not in (f'http://{host.lower()}', f'https://{host.lower()}'):
        raise Problem(403, 'a page of another origin sends no commands here: open the page of this server', last=True)
    if request.headers.get('Sec-Fetch-Site', 'none') not in ('none', 'same-origin') and request.raw_path != '/':
        raise Problem(403, 'a page of another origin asks nothing here: open the page of this server', last=True)


async def body_of(request: web.BaseRequest, limits: Limits) -> bytes:
    """The body of a request; its size and its seconds are limited, and it is plain bytes."""
    if request.headers.get('Content-Encoding', 'identity').lower() != 'identity':
        raise Problem(415, 'a body is sent as it is, without Content-Encoding', last=True)
    too_large = Problem(413, f'a body has at most {limits.body:,} bytes: send it in parts', last=True)
    if (request.content_length or 0) > limits.body:
        raise too_large
    if request.headers.get('Expect', '').lower() == '100-continue' and request.transport is not None:
        request.transport.write(b'HTTP/1.1 100 Continue\r\n\r\n')
    parts: List[bytes] = []
    size, until = 0, time.monotonic() + limits.body_seconds
    while True:
        try:
            part = await asyncio.wait_for(request.content.readany(), max(0.01, until - time.monotonic()))
        except asyncio.TimeoutError:
            raise Problem(408, f'a body has to come in {limits.body_seconds:g} seconds: send it at once', last=True) from None
        except (RequestPayloadError, HttpProcessingError):
            raise Problem(400, 'the body is not sent as its head says', last=True) from None
        if not part:
            return b''.join(parts)
        size += len(part)
        if size > limits.body:
            raise too_large
        parts.append(part)


def wants_text(request: web.BaseRequest) -> bool:
    """Whether a client asks for lines rather than for JSON."""
    accepted = request.headers.get('Accept', '')
    return 'text/plain' in accepted and 'application/json' not in accepted or request.query.get('as') == 'text'


# Answers.

SAFE = {'X-Content-Type-Options': 'nosniff', 'X-Frame-Options': 'DENY', 'Referrer-Policy': 'no-referrer', 'Cache-Control': 'no-store',
        'Cross-Origin-Resource-Policy': 'same-origin'}
PIECE = 65_536


class Answering:
    """Writes answers in pieces, each of which the client has to take in a while."""

    def __init__(self, limits: Limits) -> None:
        self.limits = limits
        self._large = asyncio.Semaphore(limits.large)

    async def send(self, request: web.BaseRequest, status: int, data: Union[bytes, str], kind: str, more: Optional[Dict[str, str]] = None,
                   last: bool = False) -> web.StreamResponse:
        """Sends a whole answer."""
        data = data.encode('utf-8', 'surrogateescape') if isinstance(data, str) else data
        store = request.get('store')
        number = {'Persist-Number': str(store.place)} if store is not None and store.log.shared else {}
        answer = web.StreamResponse(status=status, headers={**SAFE, **number, **(more or {}), 'Content-Type': kind})
        answer.content_length = len(data)
        if last:
            answer.force_close()
        if len(data) <= 4 * PIECE:
            await self.write(request, answer, data)
            return answer
        try:
            await asyncio.wait_for(self._large.acquire(), self.limits.take_seconds)
        except asyncio.TimeoutError:
            raise Problem(503, f'{self.limits.large} large answers are written already; ask again later') from None
        try:
            await self.write(request, answer, data)
        finally:
            self._large.release()
        return answer

    async def write(self, request: web.BaseRequest, answer: web.StreamResponse, data: bytes) -> None:
        """Writes an answer piece by piece."""
        await answer.prepare(request)
        for at in range(0, len(data), PIECE):
            await self.piece(request, answer, data[at:at + PIECE])
        await self.in_time(request, answer.write_eof())

    async def piece(self, request: web.BaseRequest, answer: web.StreamResponse, data: bytes) -> None:
        """Writes some bytes, and waits until the client has taken most of what was written."""
        await self.in_time(request, answer.write(data))

    async def in_time(self, request: web.BaseRequest, work: Awaitable[None]) -> None:
        """Waits for a client to read, but not too long: it is cut off then."""
        try:
            await asyncio.wait_for(work, self.limits.take_seconds)
        except asyncio.TimeoutError:
            if request.transport is not None:
                request.transport.abort()
            raise ConnectionResetError('the client did not take what it was sent') from None

    async def json(self, request: web.BaseRequest, told: Any, status: int = 200, last: bool = False) -> web.StreamResponse:
        """Sends a value as JSON."""
        text = json.dumps(told, separators=(',', ':')) + '\n'
        return await self.send(request, status, text, 'application/json', last=last)

    async def text(self, request: web.BaseRequest, text: str, status: int = 200, last: bool = False) -> web.StreamResponse:
        """Sends lines."""
        return await self.send(request, status, text, 'text/plain; charset=utf-8', last=last)

    async def problem(self, request: web.BaseRequest, problem: Problem) -> web.StreamResponse:
        """Says what is wrong."""
        status, last = problem.status, problem.last or request.content.is_eof() is False
        more = {'WWW-Authenticate': 'Bearer'} if status == 401 else {'Retry-After': '1'} if status in (429, 503) else {}
        if 'allow' in problem.more:
            more['Allow'] = problem.more.pop('allow')
        if wants_text(request):
            return await self.send(request, status, f'{problem.text}\n', 'text/plain; charset=utf-8', more, last)
        told = json.dumps({'error': problem.text, 'status': status, **problem.more}) + '\n'
        return await self.send(request, status, told, 'application/json', more, last)


def plain(text: str, most: int) -> str:
    """A text of a client as it may be kept: without control characters, and not too long."""
    return re.sub(r'[\x00-\x1f\x7f]', ' ', text)[:most].strip()
