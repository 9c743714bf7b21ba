"""What the server answers: each path of docs/SERVER.md, and which status each error has.

Tested (tools/tests), not proved. It needs aiohttp.
"""

import asyncio
import base64
import contextlib
import dataclasses
import errno
import hashlib
import json
import os
import re
import socket
import sys
import time
import traceback
from typing import Any, AsyncIterator, Awaitable, Callable, Dict, List, Optional, Tuple

from aiohttp import web

from . import client, journal
from .client import Outline, PersistError, Reply, text_of
from .etcd import EtcdError
from .front import Answering, Front, Guarded, Limits, Problem, body_of, check_origin, check_token, digest, plain, wants_text
from .history import (
    Difference, Note, Record, Records, Value, at_version, difference, difference_text, is_name, log_text, names_text, sequence_text, show_text)
from .kept import Behind, Busy, Store, TooLarge, kind_of
from .log import NotOwner, Who
from .passing import PASSED, InDoubt, NotBegun, Passing
from .server import Exists, Stores, TooMany
from .shell import FAULTS, REFUSALS, TRAPS

__all__ = ['Site']

Work = Callable[['Site', web.BaseRequest, Dict[str, str]], Awaitable[web.StreamResponse]]
ROUTES: List[Tuple[str, 're.Pattern[str]', Work]] = []
PARTS = {'NAME': r'(?P<name>[A-Za-z0-9_-]{1,64})', 'CALLED': r'(?P<called>[A-Za-z0-9_.-]{1,64})', 'V': r'(?P<v>[A-Za-z0-9_.-]{1,64})',
         'A': r'(?P<a>[A-Za-z0-9_.-]{1,64})', 'B': r'(?P<b>[A-Za-z0-9_.-]{1,64})', 'PATH': r'(?P<path>[A-Za-z0-9_.]{1,2000})'}
# How many versions are told of at once, and how many events are sent together.
VERSIONS, EVENTS = 10_000, 500


def route(method: str, path: str) -> Callable[[Work], Work]:
    """Sets what answers a method and a path, in which words of capitals stand for names and versions."""
    form = re.sub('[A-Z]+', lambda it: PARTS[it[0]], path)

    def add(work: Work) -> Work:
        ROUTES.append((method, re.compile(form), work))
        return work
    return add


# Errors.

def causes(error: Optional[BaseException]) -> List[BaseException]:
    """An error, and what it came of."""
    found: List[BaseException] = []
    while error is not None and len(found) < 9:
        found.append(error)
        error = error.__cause__
    return found


def is_full(error: BaseException) -> bool:
    """Whether it came of a disk without room."""
    numbers = [it.errno for it in causes(error) if isinstance(it, OSError)]
    return any(number in (errno.ENOSPC, errno.EDQUOT, errno.EFBIG) for number in numbers)


BROKEN = 'the process or the disk of the store failed; it is opened again with the next command'
IN_DOUBT = 'whether the command that was not answered was carried out is told by the versions: GET /stores/NAME'
STATUSES: List[Tuple[type, int, str]] = [
    (NotOwner, 421, '; ask again'), (Behind, 503, ''), (EtcdError, 503, '; ask again'), (InDoubt, 503, f'; {IN_DOUBT}'), (Busy, 429, ''), (TooLarge, 413, ''), (TooMany, 507, ''), (Exists, 409, ''), (journal.NoStore, 404, ''), (journal.Locked, 503, '; end that one'),
    (journal.Damaged, 500, '; put a backup in its place'), (journal.Broken, 503, IN_DOUBT), (client.WrongText, 400, ''),
    (client.Ended, 503, '; ask again'), (client.UnknownReply, 500, ''), (PersistError, 500, '')]


def problem_of(error: BaseException) -> Problem:
    """What is answered where an error came in the place of an answer."""
    if isinstance(error, Problem):
        return error
    if isinstance(error, client.ProgramRefused):
        told = {'kind': error.kind, 'line': error.line, 'text': error.text, 'means': FAULTS.get(error.kind, '')}
        return Problem(422, f'the program is refused: {error.kind} at line {error.line}; mend it there', told)
    if is_full(error):
        return Problem(507, f'the disk is full: make room on it; {IN_DOUBT}')
    for kind, status, more in STATUSES:
        if isinstance(error, kind):
            return Problem(status, f'{BROKEN}; {more}' if kind is journal.Broken else f'{error}{more}')
    if isinstance(error, OSError):
        return Problem(503, f'the system refuses it: {error.strerror or error}')
    traceback.print_exception(type(error), error, error.__traceback__, file=sys.stderr)
    return Problem(500, 'the server has a fault; it is told on its standard error')


# Values as JSON. Numbers of 64 bits are texts, since many readers of JSON would round them.

def value_json(value: Value) -> Any:
    """What a field holds: null, a number as text, or a record by its name."""
    return None if value is None else {'record': value} if isinstance(value, str) else str(value)


def record_json(record: Record) -> Dict[str, Any]:
    """A record with its fields in their order."""
    return {'name': record.name, 'type': record.type, 'fields': [[name, value_json(value)] for name, value in record.fields]}


def difference_json(found: Difference) -> Dict[str, Any]:
    """What differs."""
    return {'added': [record_json(it) for it in found.added], 'removed': [record_json(it) for it in found.removed],
            'changed': [{'name': record.name, 'type': record.type, 'fields': [[name, value_json(was), value_json(now)] for name, was, now in fields]}
                        for record, fields in found.changed]}


def note_json(note: Note, call: str) -> Dict[str, Any]:
    """What is known of a version."""
    return {'version': note.version, 'parent': note.parent, 'call': call, 'by': note.by, 'at': note.at, 'why': note.why}


def reply_json(line: str, reply: Reply, source: List[str]) -> Dict[str, Any]:
    """A reply, typed and as text; of a trap also what stands in the line of the program."""
    told: Dict[str, Any] = {'line': line, 'reply': type(reply).__name__.lower(), 'text': text_of(reply), 'printed': [str(it) for it in reply.printed]}
    for field in dataclasses.fields(reply):
        if field.name != 'printed':
            told['at' if field.name == 'line' else field.name] = getattr(reply, field.name)
    if isinstance(reply, client.Trapped) and 0 < reply.line <= len(source):
        told['source'] = source[reply.line - 1].strip()
    if isinstance(reply, (client.Trapped, client.Refused)):
        told['means'] = (TRAPS if isinstance(reply, client.Trapped) else REFUSALS).get(reply.kind, '')
    return told


def heads_json(heads: Dict[str, Tuple[str, ...]]) -> Dict[str, Any]:
    """Procedures with their parameters."""
    return {name: [dict(zip(('name', 'type'), it.split(': '))) for it in parameters] for name, parameters in heads.items()}


def outline_json(outline: Outline) -> Dict[str, Any]:
    """What a program declares."""
    def fields(given: Tuple[client.Field, ...]) -> List[Dict[str, Any]]:
        return [{'name': it.name, 'type': it.type, 'elements': it.elements} for it in given]
    return {'procedures': heads_json(outline.procedures), 'queries': heads_json(outline.queries), 'roots': fields(outline.roots),
            'records': {name: fields(given) for name, given in outline.records.items()}}


class Site:
    """All that is answered."""

    def __init__(self, stores: Stores, limits: Limits, token: Optional[str]) -> None:
        self.stores, self.limits = stores, limits
        self.token = digest(token) if token else None
        self.hosts: Optional[Tuple[str, ...]] = None
        self.answer = Answering(limits)
        self.front = Front(self.talk, limits)
        self.followers = self.working = 0
        self.ending = asyncio.Event()
        self.page, self.policy = read_page()
        self._socket: Optional[str] = None
        self._passing = Passing(limits.pass_seconds)

    # Beginning and end.

    async def listen(self, host: str, port: int, hosts: Callable[[int], Optional[Tuple[str, ...]]]) -> str:
        """Listens at an address; gives what it is called."""
        loop = asyncio.get_running_loop()
        self._server = await loop.create_server(self.front, host, port, backlog=1024)
        bound = self._server.sockets[0].getsockname()[1]
        self.hosts = hosts(bound)
        return f'http://{f"[{host}]" if ":" in host else host}:{bound}'

    async def listen_at_path(self, path: str) -> str:
        """Listens at a socket of the file system, which only this user may use. One that nobody serves any more is put in its place."""
        if os.path.exists(path):
            with socket.socket(socket.AF_UNIX) as probe:
                try:
                    probe.connect(path)
                except OSError:
                    os.unlink(path)
                else:
                    raise OSError(errno.EADDRINUSE, f'{path} is served already')
        before = os.umask(0o177)
        try:
            self._server = await asyncio.get_running_loop().create_unix_server(self.front, path, backlog=1024)
        finally:
            os.umask(before)
        self._socket = path
        return f'unix:{path}'

    async def end(self) -> None:
        """Takes no more requests, and waits a while for those that are worked at."""
        self.ending.set()
        self._server.close()
        for _ in range(100):
            if not self.working:
                break
            await asyncio.sleep(0.05)
        with contextlib.suppress(asyncio.TimeoutError):
            await asyncio.wait_for(self.front.shutdown(1.0), 3)
        await self._passing.end()
        if self._socket:
            with contextlib.suppress(OSError):
                os.unlink(self._socket)

    # A request.

    async def talk(self, request: web.BaseRequest) -> web.StreamResponse:
        """Answers a request, with what was asked for or with what is wrong."""
        connection = request.protocol
        self.working += 1
        try:
            try:
                return await self._routed(request)
            except ConnectionError:
                raise
            except Exception as error:
                problem = problem_of(error)
                if request.writer.output_size > 0:
                    raise ConnectionResetError('an answer was begun already') from error
                problem.text = problem.text.replace(self.stores.folder + os.sep, '')
                return await self.answer.problem(request, problem)
        finally:
            self.working -= 1
            if isinstance(connection, Guarded):
                connection.works, connection.answered, connection.since = False, True, time.monotonic()
                connection.answers += 1

    async def _routed(self, request: web.BaseRequest) -> web.StreamResponse:
        check_origin(request, self.hosts)
        path = request.raw_path.partition('?')[0]
        if 'Upgrade' in request.headers:
            raise Problem(400, 'no other protocol is spoken here', last=True)
        found = [(method, match, work) for method, form, work in ROUTES for match in [form.fullmatch(path)] if match]
        if not found:
            raise Problem(404, 'there is nothing at this path: docs/SERVER.md lists the paths, and GET /stores the stores', last=True)
        if path != '/':
            check_token(request, self.token)
        for method, match, work in found:
            if method == request.method:
                if method == 'GET':
                    self.whole(request)
                if self.working > self.limits.working:
                    raise Problem(503, f'{self.limits.working} requests are worked at already; send it again later', last=True)
                return await work(self, request, match.groupdict())
        allowed = ', '.join(method for method, _, _ in found)
        raise Problem(405, f'this path takes {allowed} alone', {'allow': allowed}, last=True)

    async def body(self, request: web.BaseRequest) -> bytes:
        """The body of a request. From here on the connection is not ended for another one."""
        data = await body_of(request, self.limits)
        self.whole(request)
        return data

    def whole(self, request: web.BaseRequest) -> None:
        """Notes that a request is there as a whole."""
        if isinstance(request.protocol, Guarded):
            request.protocol.works = True

    @contextlib.asynccontextmanager
    async def using(self, request: web.BaseRequest, name: str) -> AsyncIterator[Store]:
        """A store, behind the number that the client names."""
        async with self.stores.use(name) as store:
            request['store'] = store
            await store.reach(number_in(request.headers.get('Persist-After', request.query.get('after', '0'))))
            yield store

    async def passed_on(self, request: web.BaseRequest, name: str, data: bytes) -> Optional[web.StreamResponse]:
        """The answer of the machine that writes a store; None where it is this one. While a store changes hands it is waited for."""
        until = time.monotonic() + self.limits.lease + self.limits.log_seconds
        while True:
            with contextlib.suppress(NotBegun, NotOwner):
                url = await self.stores.writer(name)
                if url is None:
                    return None
                if PASSED in request.headers:
                    raise Problem(421, f'{url} writes this store, or is to; nothing of this was carried out')
                status, headers, body = await self._passing.send(url, request, data)
                return await self.answer.send(request, status, body, headers.pop('Content-Type', 'application/json'), headers)
            if PASSED in request.headers or time.monotonic() > until:
                raise Problem(421, 'no machine writes this store now, and nothing of this was carried out: ask again')
            await asyncio.sleep(0.1)

    # Pages and lists.

    @route('GET', '/')
    async def get_page(self, request: web.BaseRequest, _: Dict[str, str]) -> web.StreamResponse:
        """The page."""
        return await self.answer.send(request, 200, self.page, 'text/html; charset=utf-8', {'Content-Security-Policy': self.policy})

    @route('GET', '/stores')
    async def get_stores(self, request: web.BaseRequest, _: Dict[str, str]) -> web.StreamResponse:
        """The stores."""
        names = await self.stores.names()
        if wants_text(request):
            return await self.answer.text(request, sequence_text(names))
        opened = [(name, self.stores.opened(name)) for name in names]
        told = [{'name': name, 'versions': len(store.history.parents) if store else None} for name, store in opened]
        return await self.answer.json(request, {'stores': told})

    @route('PUT', '/stores/NAME')
    async def put_store(self, request: web.BaseRequest, at: Dict[str, str]) -> web.StreamResponse:
        """Makes a store of a program."""
        data = await self.body(request)
        if len(data) > self.limits.program:
            raise Problem(413, f'a program has at most {self.limits.program:,} bytes')
        try:
            program = data.decode()
        except UnicodeDecodeError:
            raise Problem(400, 'the body is no text of UTF-8') from None
        if client.SEPARATOR.search(program):
            raise Problem(400, 'the body is a program alone: send what stands behind the line %% as commands')
        made = await self.stores.create(at['name'], program)
        async with self.using(request, at['name']) as store:
            return await self.answer.json(request, await self.described(store), 201 if made else 200)

    @route('GET', '/stores/NAME')
    async def get_store(self, request: web.BaseRequest, at: Dict[str, str]) -> web.StreamResponse:
        """A store: its program, what that declares, and how far it is."""
        async with self.using(request, at['name']) as store:
            if wants_text(request):
                return await self.answer.text(request, store.log.program)
            return await self.answer.json(request, await self.described(store))

    async def described(self, store: Store) -> Dict[str, Any]:
        """What is told of a store."""
        stats = (await store.commands(['stats'], Who()))[0]
        counts = dataclasses.asdict(stats) if isinstance(stats, client.Stats) else None
        runs = {str(run): {'version': version, 'calls': calls} for run, (version, calls) in store.history.open_runs.items()}
        return {'name': store.name, 'program': store.log.program, **outline_json(store.outline), 'versions': len(store.history.parents),
                'newest': store.history.newest, 'counts': counts, 'open_runs': runs, 'names': store.notes.names}

    @route('GET', '/stores/NAME/versions')
    async def get_versions(self, request: web.BaseRequest, at: Dict[str, str]) -> web.StreamResponse:
        """Versions from a number on, by columns."""
        async with self.using(request, at['name']) as store:
            begin, many = number(request, 'from', 0), min(VERSIONS, number(request, 'many', VERSIONS))
            count = len(store.history.parents)
            end = min(count, begin + many)
            notes = [store.notes.of(version) for version in range(begin, end)]
            told = {'from': begin, 'count': count, 'parents': store.history.parents[begin:end], 'at': [it.at for it in notes],
                    'calls': [label(store, version) for version in range(begin, end)], 'by': [it.by for it in notes], 'why': [it.why for it in notes]}
            return await self.answer.json(request, told)

    # Commands.

    @route('POST', '/stores/NAME/commands')
    async def post_commands(self, request: web.BaseRequest, at: Dict[str, str]) -> web.StreamResponse:
        """Carries commands out."""
        data = await self.body(request)
        lines, who = self.lines_of(request, data)
        if any(map(kind_of, lines)):
            answer = await self.passed_on(request, at['name'], data)
            if answer is not None:
                return answer
        async with self.using(request, at['name']) as store:
            outcomes = await store.commands(lines, who)
            source = store.log.program.split('\n')
            replies = [reply_json(line, it, source) if isinstance(it, Reply) else None
                       for line, it in zip(lines, outcomes) if not isinstance(it, PersistError)]
            failed = next((it for it in outcomes if isinstance(it, PersistError)), None)
            if failed is not None:
                problem = problem_of(failed)
                problem.more.update({'replies': replies, 'unanswered': lines[len(replies)]})
                raise problem
            if wants_text(request):
                return await self.answer.text(request, ''.join(text_of(it) for it in outcomes if isinstance(it, Reply)))
            return await self.answer.json(request, {'replies': replies})

    def lines_of(self, request: web.BaseRequest, data: bytes) -> Tuple[List[str], Who]:
        """The lines of a body, which is text or JSON, and who sends them."""
        by, why = request.query.get('by', ''), request.query.get('why', '')
        if request.content_type == 'application/json':
            told = json_of(data)
            given = told.get('lines')
            if not isinstance(given, list) or not all(isinstance(it, str) for it in given):
                raise Problem(400, 'the body is an object with "lines", a list of texts, and if wanted "by" and "why"')
            lines, by, why = [str(it) for it in given], str(told.get('by', by)), str(told.get('why', why))
        else:
            lines = data.decode('utf-8', 'surrogateescape').split('\n')
            lines = lines[:-1] if lines[-1] == '' else lines
        self.check_lines(lines)
        return lines, Who(plain(by, 64), plain(why, 500))

    def check_lines(self, lines: List[str]) -> None:
        """Refuses lines that are too many, too long, or no lines."""
        if len(lines) > self.limits.lines:
            raise Problem(413, f'a body has at most {self.limits.lines:,} lines: send the rest in another one')
        for at, line in enumerate(lines, 1):
            if '\n' in line:
                raise Problem(400, f'line {at} has a line feed in it: send it as two')
            if not writable(line):
                raise Problem(400, f'line {at} has half a character in it: send it as UTF-8')
            if len(line.encode('utf-8', 'surrogateescape')) > self.limits.line:
                raise Problem(400, f'line {at} is too long: a command has at most {self.limits.line:,} bytes')

    # What versions hold.

    @route('GET', '/stores/NAME/versions/V')
    async def get_version(self, request: web.BaseRequest, at: Dict[str, str]) -> web.StreamResponse:
        """A version: who made it and what it changed."""
        async with self.using(request, at['name']) as store:
            version = version_of(store, at['v'])
            parent = store.history.parents[version]
            found = None if parent is None else await differing(store, parent, version)
            if wants_text(request):
                return await self.answer.text(request, sequence_text(show_text(store.notes, version, found)))
            told = {**note_json(store.notes.of(version), label(store, version)), 'names': store.notes.names_of(version),
                    'changes': None if found is None else difference_json(found)}
            return await self.answer.json(request, told)

    @route('GET', '/stores/NAME/versions/V/records')
    async def get_records(self, request: web.BaseRequest, at: Dict[str, str]) -> web.StreamResponse:
        """The records of a version, the nearest to the roots first."""
        async with self.using(request, at['name']) as store:
            version = version_of(store, at['v'])
            records = list((await store.records(version)).values())
            shown = records[:number(request, 'many', 2000)]
            if wants_text(request):
                return await self.answer.text(request, sequence_text([it.text() for it in shown]))
            return await self.answer.json(request, {'version': version, 'count': len(records), 'records': [record_json(it) for it in shown]})

    @route('GET', '/stores/NAME/versions/V/changed/PATH')
    async def get_changed(self, request: web.BaseRequest, at: Dict[str, str]) -> web.StreamResponse:
        """Which version changed what a path reads."""
        async with self.using(request, at['name']) as store:
            version = version_of(store, at['v'])
            found = await store.changed(version, at['path'])
            if isinstance(found, client.Refused):
                raise Problem(404, f'there is no path {at["path"]}: a root, and then fields that are no arrays, joined by dots')
            if wants_text(request):
                return await self.answer.text(request, f'{found}\n')
            return await self.answer.json(request, {'version': version, 'path': at['path'], 'changed': getattr(found, 'version', None)})

    @route('GET', '/stores/NAME/diff/A/B')
    async def get_diff(self, request: web.BaseRequest, at: Dict[str, str]) -> web.StreamResponse:
        """What differs between two versions."""
        async with self.using(request, at['name']) as store:
            old, new = version_of(store, at['a']), version_of(store, at['b'])
            found = await differing(store, old, new)
            if wants_text(request):
                return await self.answer.text(request, sequence_text(difference_text(found)))
            return await self.answer.json(request, {'old': old, 'new': new, **difference_json(found)})

    @route('GET', '/stores/NAME/log/V')
    async def get_log(self, request: web.BaseRequest, at: Dict[str, str]) -> web.StreamResponse:
        """The versions on the way from one to version 0."""
        async with self.using(request, at['name']) as store:
            version, most = version_of(store, at['v']), min(VERSIONS, number(request, 'many', 50))
            if wants_text(request):
                return await self.answer.text(request, sequence_text(log_text(store.notes, version, most)))
            way: List[Dict[str, Any]] = []
            on: Optional[int] = version
            while on is not None and len(way) < most:
                way.append({**note_json(store.notes.of(on), label(store, on)), 'names': store.notes.names_of(on)})
                on = store.history.parents[on]
            return await self.answer.json(request, {'versions': way, 'next': on})

    @route('GET', '/stores/NAME/image')
    async def get_image(self, request: web.BaseRequest, at: Dict[str, str]) -> web.StreamResponse:
        """A backup."""
        async with self.using(request, at['name']) as store:
            image = await self.stores.workers.heavy(store.packed)
            name = {'Content-Disposition': f'attachment; filename="{store.name}.image"'}
            return await self.answer.send(request, 200, image, 'application/octet-stream', name)

    # Names.

    @route('GET', '/stores/NAME/names')
    async def get_names(self, request: web.BaseRequest, at: Dict[str, str]) -> web.StreamResponse:
        """The names of versions."""
        async with self.using(request, at['name']) as store:
            if wants_text(request):
                return await self.answer.text(request, sequence_text(names_text(store.notes.names)))
            return await self.answer.json(request, {'names': store.notes.names})

    @route('PUT', '/stores/NAME/names/CALLED')
    async def put_name(self, request: web.BaseRequest, at: Dict[str, str]) -> web.StreamResponse:
        """Calls a version so; the body is its number, or another name of it."""
        data = await self.body(request)
        word = data.decode('latin-1').strip()
        answer = await self.passed_on(request, at['name'], data)
        if answer is not None:
            return answer
        async with self.using(request, at['name']) as store:
            if not is_name(at['called']):
                raise Problem(400, 'a name is letters, digits and _ - . with a letter or _ first, at most 64')
            if len(store.notes.names) >= self.limits.names and at['called'] not in store.notes.names:
                raise Problem(507, f'there are {self.limits.names:,} names already: take one away')
            version = version_of(store, word)
            await store.name_version(at['called'], version)
            return await self.answer.json(request, {'name': at['called'], 'version': version})

    @route('DELETE', '/stores/NAME/names/CALLED')
    async def delete_name(self, request: web.BaseRequest, at: Dict[str, str]) -> web.StreamResponse:
        """Takes a name away."""
        answer = await self.passed_on(request, at['name'], await self.body(request))
        if answer is not None:
            return answer
        async with self.using(request, at['name']) as store:
            if at['called'] not in store.notes.names:
                raise Problem(404, f'no version is called {at["called"]}: GET /stores/{store.name}/names lists the names')
            await store.name_version(at['called'], None)
            return await self.answer.json(request, {'name': at['called'], 'version': None})

    # Events.

    @route('GET', '/stores/NAME/events')
    async def get_events(self, request: web.BaseRequest, at: Dict[str, str]) -> web.StreamResponse:
        """New versions as they come, as server-sent events."""
        if self.followers >= self.limits.followers:
            raise Problem(503, f'{self.limits.followers} clients follow already: ask for versions now and then instead')
        async with self.using(request, at['name']) as store:
            last = request.headers.get('Last-Event-ID', '')
            begin = int(last) + 1 if re.fullmatch('[0-9]{1,9}', last) else number(request, 'from', len(store.history.parents))
            answer = web.StreamResponse(headers={'Content-Type': 'text/event-stream', 'Cache-Control': 'no-store', 'X-Content-Type-Options': 'nosniff'})
            answer.force_close()
            self.whole(request)
            self.followers += 1
            # Those who follow are not waited for at the end.
            self.working -= 1
            try:
                await answer.prepare(request)
                await self.follow(request, answer, store, begin)
                return answer
            finally:
                self.followers -= 1
                self.working += 1

    async def follow(self, request: web.BaseRequest, answer: web.StreamResponse, store: Store, begin: int) -> None:
        """Sends what comes, until the client goes or the server ends."""
        told = -1
        while not self.ending.is_set() and request.transport is not None and not request.transport.is_closing():
            pulse = store.pulse
            parts = [event(store, version) for version in range(begin, min(begin + EVENTS, len(store.history.parents)))]
            begin += len(parts)
            if told != store.names_told:
                told = store.names_told
                parts.append(f'event: names\ndata: {json.dumps(store.notes.names)}\n\n')
            if parts:
                await self.answer.piece(request, answer, ''.join(parts).encode())
                continue
            ending = asyncio.ensure_future(self.ending.wait())
            waited: List['asyncio.Future[Any]'] = [pulse, ending]
            await asyncio.wait(waited, timeout=15, return_when=asyncio.FIRST_COMPLETED)
            ending.cancel()
            if pulse is store.pulse:
                await self.answer.piece(request, answer, b': still here\n\n')


# Parts of the answers.

def event(store: Store, version: int) -> str:
    """A version as an event."""
    told = json.dumps(note_json(store.notes.of(version), label(store, version)))
    return f'id: {version}\nevent: version\ndata: {told}\n\n'


def label(store: Store, version: int) -> str:
    """The calls that made a version, in at most 200 characters."""
    return store.history.label(version, 200)


async def differing(store: Store, old: int, new: int) -> Difference:
    """What differs between two versions."""
    past = await store.past(max(old, new))

    def both() -> Difference:
        before: Records = past.records(old)
        return difference(before, past.records(new))
    return await store.workers.heavy(both)


def version_of(store: Store, word: str) -> int:
    """The version that a number or a name means."""
    found = at_version(word, store.notes.names, store.history.newest)
    if found is None:
        raise Problem(404, f'there is no version {word[:64]}: the newest one is {store.history.newest}')
    return found


def number(request: web.BaseRequest, name: str, otherwise: int) -> int:
    """A number of the words behind the path."""
    word = request.query.get(name)
    if word is None:
        return otherwise
    if not re.fullmatch('[0-9]{1,9}', word):
        raise Problem(400, f'{name} is a whole number')
    return int(word)


def number_in(word: str) -> int:
    """The number of the log that a client names."""
    if not re.fullmatch('[0-9]{1,15}', word):
        raise Problem(400, 'Persist-After is a number that Persist-Number told')
    return int(word)


def json_of(data: bytes) -> Dict[str, Any]:
    """The object of a body."""
    try:
        told = json.loads(data)
    except (ValueError, RecursionError):
        raise Problem(400, 'the body is no JSON') from None
    if not isinstance(told, dict):
        raise Problem(400, 'the body is no object of JSON')
    return told


def writable(line: str) -> bool:
    """Whether a text can be written as bytes."""
    try:
        line.encode('utf-8', 'surrogateescape')
    except UnicodeEncodeError:
        return False
    return True


def read_page() -> Tuple[bytes, str]:
    """The page, and what it may do: its own script and style, and questions to this server."""
    with open(os.path.join(os.path.dirname(os.path.abspath(__file__)), 'page.html'), 'rb') as file:
        page = file.read()

    def sums(tag: bytes) -> str:
        texts = re.findall(b'<%s>(.*?)</%s>' % (tag, tag), page, re.S)
        return ' '.join(f"'sha256-{base64.b64encode(hashlib.sha256(it).digest()).decode()}'" for it in texts)
    policy = (f"default-src 'none'; script-src {sums(b'script')}; style-src {sums(b'style')}; connect-src 'self'; img-src data:; base-uri 'none'; "
              "form-action 'none'; frame-ancestors 'none'")
    return page, policy
