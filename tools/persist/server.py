"""Serves a folder of stores over HTTP, with a page to look at them.

    python3 tools/persist_server.py STORES                        at http://127.0.0.1:8040, until Ctrl-C
    python3 tools/persist_server.py STORES --listen ADDR:PORT     at another address; one beyond this machine wants --token
    python3 tools/persist_server.py STORES --listen unix:PATH     at a socket of the file system, for this user alone
        --token FILE          whoever asks has to send the line of this file, of 16 characters at least: Authorization: Bearer TOKEN
        --host NAME           a further name by which this server is asked, as behind a proxy; may stand several times
        --limit NAME=NUMBER   sets one of the limits of docs/SERVER.md; may stand several times
        --log etcd:HOST:PORT,HOST:PORT,..    shares its stores with the machines that name the same servers of etcd: docs/MACHINES.md
        --url URL             how other machines reach this one, where that is not http:// and the address of --listen

STORES is made where it is not there. PERSIST names another build of the program. The status is 0 where it was ended by a signal, 1 where
the folder, the address or etcd can't be had, 2 for other words, and 3 where aiohttp is missing. Tested (tools/tests), not proved.
"""

import argparse
import asyncio
import contextlib
import ipaddress
import os
import re
import resource
import signal
import stat
import sys
import time
from typing import Any, AsyncIterator, Dict, List, Optional, Sequence, Tuple

from .client import PersistError, program_path
from .etcd import Etcd, endpoints_of
from .etcd_log import EtcdShelf, Machine, Shape
from .journal import JournalError, NoStore
from .kept import Busy, Limits, Store, Workers
from .log import FolderShelf, NotOwner, Shelf, is_store_name

__all__ = ['Exists', 'Stores', 'is_store_name', 'main']


class Exists(JournalError):
    """There is another store of this name."""


class TooMany(JournalError):
    """There are as many stores as there may be."""


class Stores:
    """The stores of a shelf. One has processes from when it is asked for until it was not for a while."""

    def __init__(self, folder: str, shelf: Shelf, workers: Workers, limits: Any, path: str) -> None:
        self.folder, self.shelf, self.workers, self.limits, self.path = folder, shelf, workers, limits, path
        self._open: Dict[str, Store] = {}
        self._locks: Dict[str, asyncio.Lock] = {}

    async def names(self) -> List[str]:
        """The names of all stores."""
        return await self.workers.write(self.shelf.names) if self.shelf.shared else self.shelf.names()

    async def writer(self, name: str) -> Optional[str]:
        """Where the machine is asked that writes a store; None where it is this one, from now on at least."""
        if not isinstance(self.shelf, EtcdShelf):
            return None
        store = self._open.get(name)
        if store is None or store.broken or not store.log.owned:
            if not is_store_name(name):
                raise no_store(name)
            url = await self.workers.write(self.shelf.owner, name)
            if url != self.shelf.machine.url:
                return url
            try:
                async with self.use(name) as store:
                    await store.own()
            except NotOwner as error:
                if not error.url or error.url == self.shelf.machine.url:
                    raise
                return error.url
        return None

    def opened(self, name: str) -> Optional[Store]:
        """A store that has processes."""
        return self._open.get(name)

    @contextlib.asynccontextmanager
    async def use(self, name: str) -> AsyncIterator[Store]:
        """A store, which is opened where it is not, and stays open meanwhile."""
        async with self._locks.setdefault(name, asyncio.Lock()):
            store = self._open.get(name)
            if store is None:
                store = await self._begin(name)
            store.users += 1
        try:
            yield store
        finally:
            store.users -= 1
            store.used = time.monotonic()

    async def _begin(self, name: str) -> Store:
        if not is_store_name(name) or not await self.workers.write(self.shelf.has, name):
            self._locks.pop(name, None)
            raise no_store(name)
        if len(self._open) >= self.limits.open_stores and not await self._end_one():
            raise Busy(f'{len(self._open)} stores are open, and all are at work: ask again later')
        store = Store(name, self.shelf, self.workers, self.limits, self.path)
        await store.open()
        self._open[name] = store
        return store

    async def _end_one(self) -> bool:
        """Ends the store that was not used for longest, where there is one that nobody uses."""
        idle = [it for it in self._open.values() if not it.users]
        if not idle:
            return False
        await self._end(min(idle, key=lambda it: it.used))
        return True

    async def _end(self, store: Store) -> None:
        """Ends a store that nobody uses. Meanwhile it is not opened again."""
        async with self._locks.setdefault(store.name, asyncio.Lock()):
            if self._open.get(store.name) is store and not store.users:
                del self._open[store.name]
                await store.end()

    async def create(self, name: str, program: str) -> bool:
        """Makes a store; False where it is there already with the same program."""
        async with self._locks.setdefault(name, asyncio.Lock()):
            if await self.workers.write(self.shelf.has, name):
                if await self.workers.heavy(self.shelf.is_of, name, program):
                    return False
                raise Exists(f'there is a store {name} of another program: choose another name')
            if len(await self.names()) >= self.limits.stores:
                raise TooMany(f'there are {self.limits.stores:,} stores, and no more may be made: begin the server with --limit stores=NUMBER')
            await self.workers.heavy(self.shelf.create, name, program)
            return True

    async def look_after(self) -> None:
        """Ends stores and readers that were not used for a while, again and again."""
        while True:
            await asyncio.sleep(min(5.0, self.limits.store_seconds / 4))
            since = time.monotonic() - self.limits.store_seconds
            for store in list(self._open.values()):
                store.readers.thin()
                with contextlib.suppress(PersistError, OSError):
                    if store.notes.unsynced:
                        await self.workers.heavy(store.notes.sync)
                    if not store.users and store.used < since:
                        await self._end(store)

    async def end(self) -> None:
        """Ends all stores."""
        await asyncio.gather(*(it.end() for it in self._open.values()))
        self._open.clear()
        await self.workers.heavy(self.shelf.end)


def no_store(name: str) -> NoStore:
    """What is told of a store that there is not."""
    return NoStore(f'there is no store {name}: GET /stores lists them, PUT /stores/{name} makes one of a program')


# The command line.

class Wrong(Exception):
    """Words that can't be carried out."""


def token_of(path: str) -> str:
    """The token that a file holds."""
    try:
        mode = os.stat(path).st_mode
        with open(path, encoding='utf-8') as file:
            token = file.read().strip()
    except (OSError, UnicodeDecodeError) as error:
        raise Wrong(f'the token can\'t be read: {error}') from None
    if mode & (stat.S_IRWXG | stat.S_IRWXO):
        raise Wrong(f'others may read {path}: chmod 600 {path}')
    if len(token) < 16 or not token.isascii() or not token.isprintable() or ' ' in token:
        raise Wrong(f'the token in {path} has to be a line of at least 16 characters without blanks')
    return token


def address_of(listen: str) -> Tuple[str, int]:
    """The address and port of a text like 127.0.0.1:8040 or [::1]:8040."""
    host, colon, port = listen.rpartition(':')
    host = host[1:-1] if host.startswith('[') and host.endswith(']') else host
    if not colon or not host or not re.fullmatch('[0-9]{1,5}', port) or int(port) > 65535:
        raise Wrong(f'--listen {listen}: it is written ADDRESS:PORT or unix:PATH')
    return host, int(port)


def is_loopback(host: str) -> bool:
    """Whether only this machine reaches an address."""
    if host == 'localhost':
        return True
    with contextlib.suppress(ValueError):
        return ipaddress.ip_address(host).is_loopback
    return False


def hosts_for(host: str, port: int, more: Sequence[str]) -> Tuple[str, ...]:
    """What a request may call this server."""
    names = {host, 'localhost', '127.0.0.1', '::1'} if is_loopback(host) else {host}
    written = [f'[{it}]' if ':' in it else it for it in names]
    return tuple(it.lower() for name in [*written, *more] for it in (f'{name}:{port}', *([name] if port == 80 or name in more else [])))


def set_limits(limits: Any, words: Sequence[str]) -> None:
    """Sets limits that are named as NAME=NUMBER."""
    for word in words:
        name, _, number = word.partition('=')
        before = getattr(limits, name, None) if re.fullmatch('[a-z_]+', name) else None
        if not isinstance(before, (int, float)) or not re.fullmatch(r'[0-9]{1,12}(\.[0-9]{1,3})?', number):
            raise Wrong(f'--limit {word}: it is written NAME=NUMBER, and docs/SERVER.md has the names')
        setattr(limits, name, type(before)(float(number)))


def words_read(words: Sequence[str]) -> argparse.Namespace:
    """The words of the command line."""
    parser = argparse.ArgumentParser('persist_server', description=__doc__, formatter_class=argparse.RawDescriptionHelpFormatter)
    parser.add_argument('stores')
    parser.add_argument('--listen', default='127.0.0.1:8040')
    parser.add_argument('--token')
    parser.add_argument('--host', action='append', default=[])
    parser.add_argument('--limit', action='append', default=[])
    parser.add_argument('--log')
    parser.add_argument('--url')
    return parser.parse_args(list(words))


def more_files() -> None:
    """Lets this process have as many files and connections as the system gives it."""
    most = resource.getrlimit(resource.RLIMIT_NOFILE)[1]
    with contextlib.suppress(ValueError, OSError):
        resource.setrlimit(resource.RLIMIT_NOFILE, (most, most))


def shelf_of(given: argparse.Namespace, limits: Any) -> Shelf:
    """The shelf of a folder, or one that machines share."""
    os.makedirs(given.stores, mode=0o700, exist_ok=True)
    if not given.log:
        return FolderShelf(given.stores, program_path())
    kind, _, servers = given.log.partition(':')
    url = given.url or f'http://{given.listen}'
    try:
        endpoints = endpoints_of(servers)
    except ValueError as error:
        raise Wrong(f'--log {error}') from None
    if kind != 'etcd' or not re.fullmatch(r'http://[^/\s]+:[1-9][0-9]*', url):
        raise Wrong('--log is written etcd:HOST:PORT,HOST:PORT and wants an address with a port: --listen ADDR:PORT, or --url http://HOST:PORT')
    machine = Machine(Etcd(endpoints), url, limits.lease)
    return EtcdShelf(machine, program_path(), Shape(limits.image_commands, Shape().share, limits.log_seconds))


async def serve(given: argparse.Namespace, limits: Any) -> None:
    """Serves until a signal comes."""
    from .routes import Site
    token = token_of(given.token) if given.token else None
    workers = Workers()
    stores = Stores(os.path.abspath(given.stores), shelf_of(given, limits), workers, limits, program_path())
    loop = asyncio.get_running_loop()
    ended = asyncio.Event()
    for number in (signal.SIGINT, signal.SIGTERM):
        loop.add_signal_handler(number, ended.set)
    site = Site(stores, limits, token)
    if given.listen.startswith('unix:'):
        where = await site.listen_at_path(given.listen[5:])
    else:
        host, port = address_of(given.listen)
        if not is_loopback(host) and token is None:
            raise Wrong(f'{host} is reached from other machines: name a file with a token, by --token FILE')
        where = await site.listen(host, port, lambda bound: hosts_for(host, bound, given.host) if token is None or given.host else None)
    print(f'persist_server: {stores.folder} at {where}', flush=True)
    watching = [loop.create_task(it) for it in (site.front.watch(), stores.look_after())]
    await ended.wait()
    for task in watching:
        task.cancel()
    await site.end()
    await stores.end()
    workers.end()


def main(words: Sequence[str]) -> int:
    """Serves a folder; gives the status."""
    given = words_read(words)
    try:
        from .front import Limits as AllLimits
    except ImportError as error:
        print(f'persist_server: {error.name or "aiohttp"} is missing: apt-get install python3-aiohttp, or pip install aiohttp', file=sys.stderr)
        return 3
    more_files()
    limits: Limits = AllLimits()
    try:
        set_limits(limits, given.limit)
        asyncio.run(serve(given, limits))
    except Wrong as error:
        print(f'persist_server: {error}', file=sys.stderr)
        return 2
    except (PersistError, OSError) as error:
        print(f'persist_server: {error}', file=sys.stderr)
        return 1
    except KeyboardInterrupt:
        pass
    return 0
