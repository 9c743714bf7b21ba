"""Speaks to etcd: transactions, ranges of keys, leases and watches, by its JSON gateway (v3) and nothing but the standard library.

    etcd = Etcd(endpoints_of('127.0.0.1:2379,127.0.0.1:22379'))
    etcd.txn([created(b'lock', 0)], [put(b'lock', b'me')], [get(b'lock')])

What is asked goes to one server; where that does not answer in time it is asked again of the next one, until the seconds of the call are over.
So whatever changes something has to bear being carried out twice: a transaction that compares what it changes, or one that is known by a mark.

Tested (tools/tests), not proved. It needs python3.8 and nothing else, and etcd 3.4 or later.
"""

import base64
import contextlib
import http.client
import json
import re
import socket
import threading
import time
from typing import Any, Dict, List, NamedTuple, Optional, Sequence, Tuple

from .errors import PersistError

__all__ = ['Endpoint', 'Etcd', 'EtcdError', 'EtcdRefused', 'Event', 'Key', 'Txn', 'Watch', 'created', 'delete', 'endpoints_of', 'get', 'put', 'written']

Endpoint = Tuple[str, int]
# Part of a transaction.
Part = Dict[str, Any]
# The errors of gRPC behind which the same may be asked of another server: it is too slow, too busy, or has no leader.
PASSING = {1, 2, 4, 10, 13, 14}
NO_LEASE = 5


class EtcdError(PersistError):
    """etcd does not answer. Whether what was asked is carried out is not known."""


class EtcdRefused(EtcdError):
    """etcd refuses what was asked; `code` is that of gRPC."""

    def __init__(self, code: int, text: str) -> None:
        super().__init__(f'etcd refuses it: {text}')
        self.code = code


class Key(NamedTuple):
    """A key with its value, and the revisions that made it and wrote it last."""
    key: bytes
    value: bytes
    created: int
    written: int


class Event(NamedTuple):
    """What became of a key; without a value it was deleted."""
    key: Key
    deleted: bool


class Txn(NamedTuple):
    """What came of a transaction: whether its conditions held, at which revision, the keys that each `get` found, and how many times it was asked."""
    held: bool
    revision: int
    found: List[List[Key]]
    asked: int


def endpoints_of(text: str) -> List[Endpoint]:
    """The servers of a text like 10.0.0.1:2379,10.0.0.2:2379. What is none is a ValueError."""
    found = [re.fullmatch(r'\[?([A-Za-z0-9.:-]+?)\]?:([0-9]{1,5})', it) for it in text.split(',')]
    if not all(found):
        raise ValueError(f'{text}: servers of etcd are written HOST:PORT,HOST:PORT')
    return [(it[1], int(it[2])) for it in found if it]


def text_of(data: bytes) -> str:
    """Bytes as the gateway has them."""
    return base64.b64encode(data).decode()


def created(key: bytes, revision: int) -> Part:
    """The condition that a key was made by this revision; 0 where there is none."""
    return {'key': text_of(key), 'target': 'CREATE', 'result': 'EQUAL', 'create_revision': str(revision)}


def written(key: bytes, revision: int) -> Part:
    """The condition that a key was written last by this revision; 0 where there is none."""
    return {'key': text_of(key), 'target': 'MOD', 'result': 'EQUAL', 'mod_revision': str(revision)}


def put(key: bytes, value: bytes, lease: int = 0) -> Part:
    """Writes a key, which lives as long as the lease does."""
    return {'request_put': {'key': text_of(key), 'value': text_of(value), 'lease': str(lease)}}


def get(key: bytes) -> Part:
    """Reads a key."""
    return {'request_range': {'key': text_of(key)}}


def delete(key: bytes, end: Optional[bytes] = None) -> Part:
    """Deletes a key, or all from it up to another one."""
    return {'request_delete_range': {'key': text_of(key), **({'range_end': text_of(end)} if end else {})}}


def key_of(told: Dict[str, Any]) -> Key:
    """A key as the gateway tells it."""
    value = base64.b64decode(told.get('value', ''))
    return Key(base64.b64decode(told['key']), value, int(told.get('create_revision', 0)), int(told.get('mod_revision', 0)))


class Etcd:
    """A few servers of etcd. Several threads may ask at once."""

    def __init__(self, endpoints: Sequence[Endpoint], patience: float = 2.0) -> None:
        """`patience` is how many seconds one server is given for one answer."""
        self.endpoints, self.patience = list(endpoints), patience
        self._at = 0
        self._idle: List[Tuple[int, http.client.HTTPConnection]] = []
        self._lock = threading.Lock()

    # Asking.

    def call(self, path: str, body: Any, seconds: float = 8.0) -> Tuple[Dict[str, Any], int]:
        """What is answered to a request, and how many times it was asked."""
        until, asked, text = time.monotonic() + seconds, 0, json.dumps(body)
        while True:
            at, asked = self._at, asked + 1
            try:
                return self._ask(at, path, text, max(0.05, min(self.patience, until - time.monotonic()))), asked
            except (OSError, http.client.HTTPException, ValueError) as error:
                with self._lock:
                    if self._at == at:
                        self._at = (at + 1) % len(self.endpoints)
                if time.monotonic() >= until:
                    raise EtcdError(f'etcd does not answer: {error}') from error
                time.sleep(0.05)

    def _ask(self, at: int, path: str, text: str, seconds: float) -> Dict[str, Any]:
        connection = self._connection(at, seconds)
        try:
            connection.request('POST', path, text, {'Content-Type': 'application/json'})
            answer = connection.getresponse()
            told = json.loads(answer.read())
        except BaseException:
            connection.close()
            raise
        with self._lock:
            self._idle.append((at, connection))
        if answer.status != 200:
            code = int(told.get('code', 2))
            if code in PASSING:
                raise OSError(str(told.get('message', told)))
            raise EtcdRefused(code, str(told.get('message', told)))
        return dict(told)

    def _connection(self, at: int, seconds: float) -> http.client.HTTPConnection:
        with self._lock:
            for idle in reversed(self._idle):
                if idle[0] == at:
                    self._idle.remove(idle)
                    idle[1].sock.settimeout(seconds)
                    return idle[1]
        connection = http.client.HTTPConnection(*self.endpoints[at], timeout=seconds)
        connection.connect()
        connection.sock.setsockopt(socket.IPPROTO_TCP, socket.TCP_NODELAY, 1)
        return connection

    def end(self) -> None:
        """Closes the connections that are idle."""
        with self._lock:
            while self._idle:
                self._idle.pop()[1].close()

    # What is asked.

    def txn(self, conditions: Sequence[Part], then: Sequence[Part], otherwise: Sequence[Part] = (), seconds: float = 8.0) -> Txn:
        """Carries a transaction out. One that has neither writes nor reads may be answered by a server that is behind: give it a `get`."""
        told, asked = self.call('/v3/kv/txn', {'compare': list(conditions), 'success': list(then), 'failure': list(otherwise)}, seconds)
        found = [[key_of(kv) for kv in it['response_range'].get('kvs', ())] for it in told.get('responses', ()) if 'response_range' in it]
        return Txn(bool(told.get('succeeded')), int(told['header']['revision']), found, asked)

    def get(self, key: bytes, seconds: float = 8.0) -> Optional[Key]:
        """A key as it stands."""
        told, _ = self.call('/v3/kv/range', {'key': text_of(key)}, seconds)
        return next((key_of(it) for it in told.get('kvs', ())), None)

    def range(self, begin: bytes, end: bytes, most: int = 256, only_keys: bool = False) -> Tuple[List[Key], bool, int]:
        """The keys from one up to another, in their order; whether there are more of them; and at which revision they stood so."""
        told, _ = self.call('/v3/kv/range', {'key': text_of(begin), 'range_end': text_of(end), 'limit': str(most), 'keys_only': only_keys})
        return [key_of(it) for it in told.get('kvs', ())], bool(told.get('more')), int(told['header']['revision'])

    def all(self, begin: bytes, end: bytes, most: int = 256, only_keys: bool = False) -> List[Key]:
        """All of these keys, by as many ranges as it takes."""
        found: List[Key] = []
        more = True
        while more:
            keys, more, _ = self.range(found[-1].key + b'\0' if found else begin, end, most, only_keys)
            found += keys
        return found

    def grant(self, seconds: int) -> int:
        """A new lease of so many seconds."""
        return int(self.call('/v3/lease/grant', {'TTL': str(seconds)})[0]['ID'])

    def renew(self, lease: int, seconds: float) -> bool:
        """Renews a lease; whether it was still there."""
        told, _ = self.call('/v3/lease/keepalive', {'ID': str(lease)}, seconds)
        return int(told['result'].get('TTL', 0)) > 0

    def revoke(self, lease: int, seconds: float = 2.0) -> None:
        """Ends a lease, and so all keys that have it."""
        with contextlib.suppress(EtcdRefused):
            self.call('/v3/lease/revoke', {'ID': str(lease)}, seconds)

    def watch(self, begin: bytes, end: bytes, revision: int) -> 'Watch':
        """What becomes of keys from one up to another, from this revision on."""
        at = self._at
        try:
            return Watch(self.endpoints[at], begin, end, revision, self.patience)
        except OSError as error:
            with self._lock:
                if self._at == at:
                    self._at = (at + 1) % len(self.endpoints)
            raise EtcdError(f'etcd does not answer: {error}') from error


class Watch:
    """A connection on which a server tells what becomes of keys. It is asked as HTTP 1.0, so that lines come as they are."""

    def __init__(self, endpoint: Endpoint, begin: bytes, end: bytes, revision: int, patience: float) -> None:
        body = json.dumps({'create_request': {'key': text_of(begin), 'range_end': text_of(end), 'start_revision': str(revision)}})
        self._socket = socket.create_connection(endpoint, patience)
        self._rest, self._in_head = b'', True
        self._socket.sendall(f'POST /v3/watch HTTP/1.0\r\nContent-Type: application/json\r\nContent-Length: {len(body)}\r\n\r\n{body}'.encode())

    def events(self, seconds: float) -> List[Event]:
        """What has come, or none where nothing came in so many seconds. Where the server says no more it is `EtcdError`."""
        self._socket.settimeout(max(0.01, seconds))
        try:
            data = self._socket.recv(1 << 18)
        except socket.timeout:
            return []
        except OSError as error:
            raise EtcdError(f'etcd ended a watch: {error}') from error
        if not data:
            raise EtcdError('etcd ended a watch')
        *lines, self._rest = (self._rest + data).split(b'\n')
        found: List[Event] = []
        for line in lines:
            if self._in_head:
                self._in_head = line.strip() != b''
            elif line.strip():
                found += self._told(json.loads(line))
        return found

    def _told(self, told: Dict[str, Any]) -> List[Event]:
        result = told.get('result')
        if not result or result.get('canceled'):
            raise EtcdError(f'etcd ended a watch: {told}')
        return [Event(key_of(it['kv']), it.get('type') == 'DELETE') for it in result.get('events', ())]

    def end(self) -> None:
        """Ends the connection; whoever waits for it is woken."""
        with contextlib.suppress(OSError):
            self._socket.shutdown(socket.SHUT_RDWR)
        self._socket.close()
