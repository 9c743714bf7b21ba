"""A store as the server has it: who keeps it, the processes that answer queries beside it, and what is told of its versions.

What keeps a store is a `StoreLog` (log.py): a folder on this machine, or a log that several machines share. Of those one writes and the others
follow; a store that is asked for a change here comes to own its log first.

Commands that change the history go to one process in the order in which they came, many of several clients together. Queries do not:
a version never changes, so any process that was given the log up to it gives the same reply. Each store has a few such readers, begun when
they are needed; a query waits only where all of them are at work, and one of them is never given to a procedure that was slow before.

Tested (tools/tests), not proved. It needs python3.8 and nothing else.
"""

import asyncio
import contextlib
import os
import re
import signal
import subprocess
import time
from collections import deque
from concurrent.futures import ThreadPoolExecutor
from typing import Any, Callable, Deque, Dict, List, NamedTuple, Optional, Sequence, Set, Tuple, TypeVar, Union

from .client import (
    CHANGES, MARK, MARKED, Changed, Ended, History, Never, Outline, PersistError, Refused, Reply, UnknownReply, Version, encoded, is_last,
    read_outline, stretches_of, take_reply, text_for, words_of, written_by)
from .history import Note, Notes, Past, Records, call_of
from .image import Image
from .journal import Broken, Damaged
from .log import Began, Heard, News, Outcome, Shelf, StoreLog, Trimmed, Who

__all__ = ['Behind', 'Busy', 'Limits', 'Store', 'TooLarge', 'Workers']

T = TypeVar('T')


class Busy(PersistError):
    """Too much waits already; what was asked was not begun."""


class TooLarge(PersistError):
    """What was asked for is larger than may be given."""


class Behind(PersistError):
    """This machine has not followed the log as far as the client asks."""


class Limits:
    """How much one server does at once; each may be set on its command line."""
    readers = 4                 # processes of one store that answer queries
    processes = 512             # processes of all stores
    waiting = 512               # commands of one store that wait to be carried out, in pieces of a client
    together = 32               # commands that are carried out and written together
    slow = 0.05                 # seconds behind which a query counts as a slow one
    image = 256 << 20           # bytes of an image that is read for records and differences
    numbers = 1_000_000         # printed numbers that the replies to one client have together
    rest = 30.0                 # seconds without a query behind which only one reader of a store stays
    behind = 5.0                # seconds that a query waits for the number that its client names


class Workers:
    """The threads in which a server waits: for stores that write, and for work that takes long."""

    def __init__(self, writers: int = 64, heavy: int = 4) -> None:
        self._writers = ThreadPoolExecutor(writers, 'writer')
        self._heavy = ThreadPoolExecutor(heavy, 'heavy')
        # One for each store that is open and follows; they are made as they are needed.
        self._following = ThreadPoolExecutor(4096, 'follower')
        # The readers that are there, of all stores.
        self.processes = 0

    async def write(self, work: Callable[..., T], *given: Any) -> T:
        """Waits for a store's own process, or its disk."""
        return await asyncio.get_running_loop().run_in_executor(self._writers, work, *given)

    async def heavy(self, work: Callable[..., T], *given: Any) -> T:
        """Waits for work that takes long; a few of them at once."""
        return await asyncio.get_running_loop().run_in_executor(self._heavy, work, *given)

    async def follow(self, work: Callable[..., T], *given: Any) -> T:
        """Waits for a log to go on."""
        return await asyncio.get_running_loop().run_in_executor(self._following, work, *given)

    def end(self) -> None:
        """Lets the threads end."""
        self._following.shutdown(wait=False)
        self._writers.shutdown(wait=False)
        self._heavy.shutdown(wait=False)


# The processes that answer queries.

TOO_MANY = 'the replies so far have more printed numbers than are sent together; this line was not carried out: send fewer lines at once'


def printed_in(outcomes: Sequence[Outcome]) -> int:
    """How many numbers were printed."""
    return sum(len(it.printed) for it in outcomes if isinstance(it, Reply))


class Reader:
    """A process of its own that was given a store's image and its log so far, and answers queries."""

    # How many bytes of lines are sent before their replies are read.
    PIECE = 16_384

    def __init__(self, log: StoreLog, path: str, workers: Workers) -> None:
        self.log, self._path, self._workers = log, path, workers
        self._process: Optional['subprocess.Popen[bytes]'] = None
        self._lines: Deque[bytes] = deque()
        self._rest = b''
        self._is_closed = False
        # How far in the log it is, and how many versions the log has made there.
        self.place = self.versions = 0
        self.sent = 0
        self.used = time.monotonic()

    @property
    def ended(self) -> bool:
        """Whether the process has ended."""
        return self._process is not None and self._process.poll() is not None

    async def _start(self) -> None:
        loop = asyncio.get_running_loop()
        self._process = subprocess.Popen([self._path, 'serve'], stdin=subprocess.PIPE, stdout=subprocess.PIPE, start_new_session=True)
        self._source = asyncio.StreamReader()
        self._reading, _ = await loop.connect_read_pipe(lambda: asyncio.StreamReaderProtocol(self._source), self._process.stdout)
        way, protocol = await loop.connect_write_pipe(asyncio.streams.FlowControlMixin, self._process.stdin)
        self._sink = asyncio.StreamWriter(way, protocol, None, loop)
        image, self.place = await self._workers.write(self.log.base)
        await self._put(image)
        await self._send(f'{MARK}\n')
        if await self._line() != MARKED.encode():
            raise Ended(self._process.poll() or 0)

    async def _send(self, text: str) -> None:
        data = text.encode('utf-8', 'surrogateescape')
        self.sent += len(data)
        await self._put(data)

    async def _put(self, data: bytes) -> None:
        try:
            self._sink.write(data)
            await self._sink.drain()
        except ConnectionError:
            raise Ended(await self._status()) from None

    async def _status(self) -> int:
        assert self._process
        for _ in range(40):
            if self._process.poll() is not None:
                break
            await asyncio.sleep(0.05)
        return self._process.poll() or 0

    async def _line(self) -> bytes:
        while not self._lines:
            data = await self._source.read(1 << 18)
            if not data:
                raise Ended(await self._status())
            *whole, self._rest = (self._rest + data).split(b'\n')
            self._lines.extend(whole)
        return self._lines.popleft()

    async def follow(self) -> None:
        """Is given what stands in the log by now."""
        if self._process is None:
            await self._start()
        lines, place = await self._workers.write(self.log.read, self.place)
        texts = [f'{line}\n' for line in lines]
        for stretch in stretches_of(list(map(len, texts)), self.PIECE):
            await self._send(''.join(texts[stretch.start:stretch.stop]))
            for _ in stretch:
                last = await self._line()
                while last.startswith(b'| '):
                    last = await self._line()
                self.versions += last.startswith(b'version ')
        self.place = place

    async def ask(self, lines: Sequence[str], most: int) -> List[Outcome]:
        """The replies to lines that change nothing, as long as they have no more printed numbers than that together."""
        found: List[Outcome] = []
        for at in range(0, len(lines), 8):
            piece = [(line, words_of(line)) for line in lines[at:at + 8]]
            await self._send(''.join(text_for(line, words) for line, words in piece))
            for _, words in piece:
                told: List[str] = []
                while not told or not is_last(words, told[-1]):
                    told.append((await self._line()).decode('latin-1'))
                found.append(take_reply(words, iter(told).__next__))
            most -= printed_in(found[at:])
            if most < 0 and at + 8 < len(lines):
                return found + [TooLarge(TOO_MANY)]
        return found

    def end(self) -> None:
        """Ends the process at once."""
        if self._process is None or self._is_closed:
            return
        with contextlib.suppress(ProcessLookupError, PermissionError):
            os.killpg(self._process.pid, signal.SIGKILL)
        if hasattr(self, '_sink'):
            self._sink.close()
            self._reading.close()
        self._process.wait()
        self._is_closed = True


class Waiting(NamedTuple):
    """One that waits for a reader: whether it is for slow queries, and a promise of it."""
    slow: bool
    turn: 'asyncio.Future[Reader]'


class Readers:
    """The readers of a store. Those who ask wait in the order in which they came, and none waits for a reader that is still given the log while
    another one is free: that takes long behind many commands."""
    # How often a question is asked again whose reader stood before a later image.
    TRIES = 8

    def __init__(self, log: StoreLog, path: str, workers: Workers, limits: Limits) -> None:
        self._log, self._path, self._workers, self._limits = log, path, workers, limits
        self._idle: List[Reader] = []
        self._all: List[Reader] = []
        self._waiting: Deque[Waiting] = deque()
        # The one that is being begun, where there is one.
        self._beginning: Optional['asyncio.Task[None]'] = None
        self._slow = 0
        # The longest that a procedure took, and where in the log the budget was set last.
        self._seconds: Dict[str, float] = {}
        self.budget_place = 0

    async def ask(self, lines: Sequence[str]) -> List[Outcome]:
        """The replies to lines that change nothing, by one that is free."""
        for _ in range(self.TRIES):
            # Where the log begins behind a later image by now, another reader begins with that.
            with contextlib.suppress(Trimmed):
                return await self._ask_one(lines)
        return await self._ask_one(lines)

    async def _ask_one(self, lines: Sequence[str]) -> List[Outcome]:
        names = {words[2] for words in map(words_of, lines) if words[0] == 'query' and len(words) > 2}
        slow = any(self._seconds.get(name, 0) > self._limits.slow for name in names)
        reader = await self._take(slow)
        try:
            if not self._stands_there(reader, lines):
                await reader.follow()
            begun = time.monotonic()
            found = await reader.ask(lines, self._limits.numbers)
            self._learn(names, (time.monotonic() - begun) / len(lines))
        except BaseException:
            self._give_back(reader, slow, lost=True)
            raise
        self._give_back(reader, slow, lost=reader.sent > 32 << 20)
        return found

    def _learn(self, names: Set[str], seconds: float) -> None:
        for name in names:
            self._seconds[name] = max(seconds, self._seconds.get(name, 0) / 2)
        if len(self._seconds) > 1000:
            self._seconds.clear()

    def _stands_there(self, reader: Reader, lines: Sequence[str]) -> bool:
        """Whether a reader has all that these lines ask of, though the log may have gone on."""
        asked = [words[1] if words[0] == 'query' and len(words) > 1 else '' for words in map(words_of, lines)]
        behind = reader.place and reader.place >= self.budget_place
        return bool(behind) and all(it.isdigit() and len(it) < 9 and int(it) <= reader.versions for it in asked)

    async def _take(self, slow: bool) -> Reader:
        """A reader that is free, when it is this one's turn."""
        waiting = Waiting(slow, asyncio.get_running_loop().create_future())
        self._waiting.append(waiting)
        self._hand_out()
        try:
            return await waiting.turn
        except asyncio.CancelledError:
            if waiting in self._waiting:
                self._waiting.remove(waiting)
            elif not waiting.turn.cancelled() and not waiting.turn.exception():
                self._give_back(waiting.turn.result(), slow, lost=False)
            raise

    def _hand_out(self) -> None:
        """Gives free readers to those who wait; where there are too few, one more is begun."""
        self._drop_ended()
        most = max(2, self._limits.readers)
        passed: List[Waiting] = []
        while self._waiting and self._idle:
            waiting = self._waiting.popleft()
            if waiting.turn.done():
                continue
            if waiting.slow and self._slow >= most - 1:
                passed.append(waiting)
                continue
            self._slow += waiting.slow
            waiting.turn.set_result(self._idle.pop())
        wanted = bool(self._waiting)
        self._waiting.extendleft(reversed(passed))
        if wanted and len(self._all) < most and self._beginning is None and self._may_begin():
            reader = Reader(self._log, self._path, self._workers)
            self._all.append(reader)
            self._workers.processes += 1
            self._beginning = asyncio.get_running_loop().create_task(self._begin(reader))

    async def _begin(self, reader: Reader) -> None:
        """Starts a reader, and gives it the log. Where that fails, one who waits is told, unless others are there."""
        try:
            await reader.follow()
            self._free(reader)
        except BaseException as error:
            self._lose(reader)
            if not isinstance(error, Exception):
                raise
            if not self._all:
                self._fail_one(error)
        finally:
            self._beginning = None
            self._hand_out()

    def _fail_one(self, error: Exception) -> None:
        """Tells the first one who waits why there is no reader."""
        while self._waiting:
            turn = self._waiting.popleft().turn
            if not turn.done():
                turn.set_exception(error)
                return

    def _may_begin(self) -> bool:
        return not self._all or self._workers.processes < self._limits.processes

    def _drop_ended(self) -> None:
        for reader in [it for it in self._idle if it.ended]:
            self._idle.remove(reader)
            self._lose(reader)

    def _lose(self, reader: Reader) -> None:
        reader.end()
        if reader in self._all:
            self._all.remove(reader)
            self._workers.processes -= 1

    def _free(self, reader: Reader) -> None:
        """Has a reader wait for what is asked next. The one that is farthest in the log is the last one, and is taken first."""
        if reader not in self._all or reader.log is not self._log:
            self._lose(reader)
            return
        reader.used = time.monotonic()
        self._idle.append(reader)
        self._idle.sort(key=lambda it: it.place)

    def _give_back(self, reader: Reader, slow: bool, lost: bool) -> None:
        self._slow -= slow
        if lost:
            self._lose(reader)
        else:
            self._free(reader)
        self._hand_out()

    def thin(self) -> None:
        """Ends readers that have had nothing to do for a while, but for one."""
        since = time.monotonic() - self._limits.rest
        for reader in [it for it in self._idle if it.used < since][:max(0, len(self._all) - 1)]:
            self._idle.remove(reader)
            self._lose(reader)

    def moved_to(self, log: StoreLog) -> None:
        """Another log stands in the place of the one before, and goes on from it."""
        self._log = log
        for reader in list(self._idle):
            self._lose(reader)
        self._idle.clear()
        self._hand_out()

    def end(self) -> None:
        """Ends all of them."""
        if self._beginning is not None:
            self._beginning.cancel()
        for reader in list(self._all):
            self._lose(reader)
        self._idle.clear()
        while self._waiting:
            self._fail_one(Busy('the store is being ended: ask again'))


# The store.

class Asked:
    """The lines of a client that change the history, what came of the first of them, and a promise of the whole."""

    def __init__(self, lines: List[str], who: Who) -> None:
        self.lines, self.who = lines, who
        self.outcomes: List[Outcome] = []
        self.done: 'asyncio.Future[List[Outcome]]' = asyncio.get_running_loop().create_future()


class Store:
    """A store that a server has opened."""

    def __init__(self, name: str, shelf: Shelf, workers: Workers, limits: Limits, path: str) -> None:
        self.name, self.shelf, self.workers, self.limits, self.path = name, shelf, workers, limits, path
        self.history = History()
        self.users, self.used = 0, time.monotonic()
        # Why the store takes no changes any more, until it is opened again.
        self.broken: Optional[PersistError] = None
        self._waiting: Deque[Asked] = deque()
        self._wake = asyncio.Event()
        self._past: Optional[Past] = None
        self._past_lock, self._recovering, self._owning = asyncio.Lock(), asyncio.Lock(), asyncio.Lock()
        # The place up to which the history is told, and where in the log the budget was set last.
        self.place = self._budget_place = 0
        self._tasks: List['asyncio.Task[None]'] = []
        self._shortening: Optional['asyncio.Future[bool]'] = None
        # What is waited for by those who follow: it is done when there are more versions or other names.
        self.pulse: 'asyncio.Future[None]' = asyncio.get_running_loop().create_future()
        self.names_told = 0

    # Beginning and end.

    async def open(self) -> None:
        """Takes in what the log holds. One that no other machine has is owned from now on."""
        await self.workers.write(self._open)
        self.readers = Readers(self.log, self.path, self.workers, self.limits)
        self.readers.budget_place = self._budget_place
        work = [self._write(), self._follow()] if self.log.shared else [self._write()]
        self._tasks = [asyncio.get_running_loop().create_task(it) for it in work]

    def _open(self) -> None:
        self.log = self.shelf.log(self.name)
        try:
            self.log.begin()
            self.outline: Outline = read_outline(self.log.program)
            self.notes = Notes(self.shelf.notes(self.name))
            self._take_in_news(self.log.news())
        except BaseException:
            self.log.end()
            raise

    async def end(self) -> None:
        """Waits for what is at work, and lets go of the store."""
        for task in self._tasks:
            task.cancel()
        await asyncio.gather(*self._tasks, return_exceptions=True)
        self._give_up(Broken('the server ends'))
        self.readers.end()
        await self.workers.write(self.log.end)
        await self.workers.write(self.notes.end)

    # What the log tells.

    def _take_in_news(self, news: Sequence[News]) -> None:
        """Makes the history of what the log tells."""
        notes: List[Note] = []
        anew = False
        for it in news:
            if isinstance(it, Began):
                notes, anew = [], True
                self._begin_anew(it)
            elif isinstance(it, Heard):
                words = words_of(it.line)
                self.history.note(it.line, words, it.reply)
                self.place = it.place
                if words[0] == 'budget':
                    self._budget_place = it.place
                if isinstance(it.reply, Version) and it.who is not None:
                    version = it.reply.number
                    notes.append(Note(version, self.history.parents[version], call_of(self.history, version), it.who.by, it.at, it.who.why))
            else:
                self.notes.add(*notes)
                notes = []
                self.notes.name(it.name, it.version)
                self.names_told += 1
                self.place = it.place
        self.notes.add(*notes)
        if anew:
            self.notes.complete(self.history)
            self.place = max(self.place, self.log.size)

    def _begin_anew(self, told: Began) -> None:
        """Has the versions of an image. Which calls made them is known from the notes."""
        if told.notes is not None:
            self.notes = Notes(None)
            self.notes.take(told.notes)
        self.history = History(Image(told.image).parents)
        self.history.calls = [(self.notes.of(version).call,) for version in range(len(self.history.parents))]
        self.place = self._budget_place = 0

    def _hear(self) -> None:
        """Takes in what the log tells by now, and wakes those who wait for it."""
        news = self.log.news()
        if news:
            self._take_in_news(news)
            self.readers.budget_place = self._budget_place
            self.tell()

    async def _follow(self) -> None:
        """Takes in what others append, as long as the store is open."""
        while True:
            log = self.log
            try:
                await self.workers.follow(log.follow, log.size, 5.0)
                self._hear()
            except (PersistError, OSError) as error:
                if log is self.log and not self.broken:
                    self.broken = error if isinstance(error, PersistError) else broken_by(error)
                await self._recover()
                if self.broken:
                    await asyncio.sleep(0.3)

    async def reach(self, place: int) -> None:
        """Waits until the history is told up to a place of the log."""
        until = time.monotonic() + self.limits.behind
        while self.log.shared and self.place < place:
            pulse, left = self.pulse, until - time.monotonic()
            if left <= 0:
                raise Behind(f'this machine has followed {self.name} up to {self.place}, not to {place} yet: ask again, or ask another one')
            await asyncio.wait([pulse], timeout=min(left, 0.3))
            if pulse is self.pulse:
                with contextlib.suppress(PersistError, OSError):
                    await self.workers.write(self.log.look)
                self._hear()

    async def own(self) -> None:
        """Comes to write the store; where another machine does it is `NotOwner`."""
        async with self._owning:
            if self.broken:
                await self._recover()
            if self.broken:
                raise self.broken
            if not self.log.owned:
                try:
                    await self.workers.write(self.log.own)
                finally:
                    self._hear()

    async def name_version(self, name: str, version: Optional[int]) -> None:
        """Calls a version so; with None nothing is called so any more."""
        if self.log.shared:
            await self.own()
        await self.workers.write(self.log.name, name, version)
        self._hear()

    # Commands.

    async def commands(self, lines: Sequence[str], who: Who) -> List[Outcome]:
        """What came of each line, in their order. Changes and the lines between them that change nothing go to different processes, each
        when what stands before it has come to its end."""
        found: List[Outcome] = []
        # What is held and what changed is asked by requests of their own; as commands they are none.
        lines = [MARK if words_of(line)[:1] in (['dump'], ['changed']) else line for line in lines]
        at = 0
        while at < len(lines):
            begin, kind = at, kind_of(lines[at])
            while at < len(lines) and kind_of(lines[at]) == kind:
                at += 1
            part = list(lines[begin:at])
            found += [None] * len(part) if kind is None else await (self._append(part, who) if kind else self._ask(part))
            if found and isinstance(found[-1], PersistError):
                break
        return found

    async def _ask(self, lines: List[str]) -> List[Outcome]:
        """The replies to lines that change nothing. Where their process was ended by another one they are asked once more."""
        try:
            try:
                return await self.readers.ask(lines)
            except (Ended, Trimmed):
                return await self.readers.ask(lines)
        except (PersistError, OSError) as error:
            return [error if isinstance(error, PersistError) else Busy(str(error))]

    async def _append(self, lines: List[str], who: Who) -> List[Outcome]:
        try:
            await self.own()
        except PersistError as error:
            return [error]
        if len(self._waiting) >= self.limits.waiting:
            return [Busy(f'{len(self._waiting)} clients wait for this store already; send it again later')]
        asked = Asked(lines, who)
        self._waiting.append(asked)
        self._wake.set()
        return await asked.done

    async def _recover(self) -> None:
        """Begins again with the log behind a write or a process that failed; what stands is told by the log. Queries are answered meanwhile,
        and also where it can't be begun, as on a full disk."""
        async with self._recovering:
            if not self.broken:
                return
            try:
                log = await self.workers.write(self._begin_again)
            except (PersistError, OSError) as error:
                self.broken = error if isinstance(error, PersistError) else broken_by(error)
                return
            self.log = log
            self.readers.moved_to(log)
            self.broken = None
            self._hear()

    def _begin_again(self) -> StoreLog:
        self.log.end()
        log = self.shelf.log(self.name)
        try:
            log.begin()
        except BaseException:
            log.end()
            raise
        return log

    async def _write(self) -> None:
        """Carries out what waits, as long as the store is open: a group of commands at a time, some of each client."""
        while True:
            if not self._waiting:
                self._wake.clear()
                await self._wake.wait()
            group = self._next_group()
            lines, whos, log = [asked.lines[at] for asked, at in group], [asked.who for asked, _ in group], self.log
            try:
                outcomes = await asyncio.shield(asyncio.ensure_future(self.workers.write(log.append, lines, whos)))
            except PersistError as error:
                outcomes = [error] * len(lines)
            except (OSError, ValueError) as error:
                outcomes = [broken_by(error)] * len(lines)
            if log.dead and log is self.log and not self.broken:
                self.broken = next((it for it in outcomes if isinstance(it, PersistError)), None)
            try:
                self._hear()
                self._take_in(group, outcomes)
            except Exception as error:
                self._give_up(broken_by(error))
            if log.due and (self._shortening is None or self._shortening.done()):
                self._shortening = asyncio.ensure_future(self._shorten(log))

    def _give_up(self, error: Broken) -> None:
        """Tells all who wait that it is not known what came of their lines."""
        self.broken = error
        while self._waiting:
            asked = self._waiting.popleft()
            if len(asked.outcomes) < len(asked.lines):
                asked.outcomes.append(error)
            if not asked.done.done():
                asked.done.set_result(asked.outcomes)

    def _next_group(self) -> List[Tuple[Asked, int]]:
        group: List[Tuple[Asked, int]] = []
        # A round of several machines takes longer than a disk, so more go with it.
        most = self.limits.together * (8 if self.log.shared else 1)
        for _ in range(len(self._waiting)):
            asked = self._waiting.popleft()
            room = most - len(group)
            begin = len(asked.outcomes)
            group += [(asked, at) for at in range(begin, min(len(asked.lines), begin + room))]
            self._waiting.append(asked)
            if len(group) >= most:
                break
        return group

    def _take_in(self, group: List[Tuple[Asked, int]], outcomes: List[Outcome]) -> None:
        """Answers those of whose lines all are carried out."""
        for (asked, _), outcome in zip(group, outcomes):
            asked.outcomes.append(outcome)
            if isinstance(outcome, Broken):
                self.broken = outcome
        if self.broken:
            self.tell()
        for asked in {id(asked): asked for asked, _ in group}.values():
            if len(asked.outcomes) < len(asked.lines) and printed_in(asked.outcomes) > self.limits.numbers:
                asked.outcomes.append(TooLarge(TOO_MANY))
            failed = isinstance(asked.outcomes[-1], PersistError)
            if failed or len(asked.outcomes) == len(asked.lines):
                self._waiting.remove(asked)
                if not asked.done.done():
                    asked.done.set_result(asked.outcomes)

    async def _shorten(self, log: StoreLog) -> bool:
        """Puts an image in the place of the log's beginning. Where that fails the log stays as it is."""
        with contextlib.suppress(PersistError, OSError):
            return await self.workers.heavy(log.shorten, self.notes.text())
        return False

    def tell(self) -> None:
        """Wakes those who follow."""
        pulse, self.pulse = self.pulse, asyncio.get_running_loop().create_future()
        if not pulse.done():
            pulse.set_result(None)

    # What versions hold.

    async def past(self, version: int) -> Past:
        """All versions up to this one at least, by an image; it is made once for all who ask meanwhile."""
        async with self._past_lock:
            if self._past is None or len(self._past) <= version:
                self._past = await self.workers.heavy(self._read_past)
            return self._past

    def _read_past(self) -> Past:
        image = self.packed()
        if len(image) > self.limits.image:
            raise TooLarge(f'its image has {len(image):,} bytes, and records are told of images up to {self.limits.image:,}: ask for a dump')
        return Past(image, self.outline)

    async def records(self, version: int) -> Records:
        """The records of a version."""
        past = await self.past(version)
        return await self.workers.heavy(past.records, version)

    def packed(self) -> bytes:
        """An image of the store as it stands."""
        base, begin = self.log.base()
        lines, _ = self.log.read(begin)
        status, image = written_by(['repack'], base + encoded(''.join(f'{line}\n' for line in lines)), self.path)
        if status == 4:
            raise Damaged(image.decode('latin-1').strip())
        if status != 0:
            raise Ended(status)
        return image

    async def changed(self, version: int, path: str) -> Union[Changed, Never, Refused]:
        """Which version, on the way from this one to version 0, changed what a path reads."""
        if not re.fullmatch(r'\w+(\.\w+)*', path, re.ASCII):
            return Refused('path')
        found = (await self._ask([f'changed {version} {path}']))[0]
        if isinstance(found, (Changed, Never, Refused)):
            return found
        raise found if isinstance(found, PersistError) else UnknownReply(str(found))


def broken_by(error: BaseException) -> Broken:
    """A store that takes no changes, and why."""
    broken = Broken(str(error))
    broken.__cause__ = error
    return broken


def kind_of(line: str) -> Optional[bool]:
    """Whether a line changes the history; None where it has no reply."""
    words = words_of(line)
    return words[0] in CHANGES if words else None
