"""Keeps a store in a folder, beyond its process: each command is on disk before it is answered.

    with Journal.create('book', program) as journal:      # and later: with Journal('book') as journal
        sold = must(journal.run(0, 'sell', 12))
        journal.checkpoint()

What it promises, whenever the process or the machine stops, in the midst of a checkpoint too:
1. Each command that was answered is there when the folder is opened again, with the numbers of versions and runs that were told.
2. Of commands that were not answered a first part is there, in the order of the log, and none of them twice.
3. A query is answered when all that it has seen is on disk.
4. Behind a write or an fsync that failed no command is answered any more; opening the folder again tells what stands.
5. A checkpoint stands whole or not at all. Where it fails, the image and the log before it stand.
6. An image that breaks a rule, a log of another image, and one with damage in its midst are refused, and nothing is changed.
7. No two processes have one folder, also where its lock is removed, and all threads of a process may send commands at once. In a process
   that was forked from the one that opened it a journal answers nothing, and does nothing.
It promises nothing of a disk that says of bytes that they are kept and loses them, or that changes the last group of a log.

This module is tested (tools/tests) and not proved. It needs python3.8 and nothing else, and a system with `flock`.

A folder holds `program`, its text in the canonical form, and `log.0`; from the first checkpoint on `image.N` and `log.N` in their place; and
`lock`. A log is a script: its first line says which image it follows, the commands come in groups as they were written, and behind each
group stands a comment with a sum of all commands so far. So `cat image.3 log.3 | persist serve` carries it out. Whatever stands there, the
journal's process is `serve`: before the first checkpoint behind an image that `pack` makes of the program.
"""

import contextlib
import enum
import errno
import fcntl
import os
import re
import sys
import threading
import weakref
import zlib
from typing import Any, Callable, Dict, Iterator, List, NamedTuple, Optional, Sequence, Tuple, Union

from .client import (
    CHANGES, Commands, Ended, ImageRefused, Opened, PersistError, Refused, Reply, Session, WrongText, answer_to, descriptors_of, encoded, program_path,
    read_text, split_input, text_of, words_of, written_by)
from .image import read_bytes

__all__ = ['Broken', 'CheckpointFailed', 'Damaged', 'Disk', 'Journal', 'JournalError', 'Locked', 'NoStore', 'RunsAreOpen']

# The most bytes of a command, which needs a few hundred, and the most commands that are carried out together.
LONGEST, MOST_TOGETHER = 1024, 32
# How many commands of a log are carried out again at once.
AT_ONCE = 10_000


class JournalError(PersistError):
    """What every error of this module is; those below say what comes of the journal."""


class NoStore(JournalError):
    """The folder holds no store; or it holds one already, where one was to be made."""


class Locked(JournalError):
    """Another process, or another journal of this one, has the folder."""


class Damaged(JournalError):
    """What the folder holds is refused, and was not changed. `rule` is the one that the image breaks, where it is that."""

    def __init__(self, text: str, rule: Optional[int] = None) -> None:
        super().__init__(text)
        self.rule = rule


class RunsAreOpen(JournalError):
    """A checkpoint would drop runs that are open, and was not asked to."""


class CheckpointFailed(JournalError):
    """There is no new image; the one before and its log stand, and the journal goes on."""


class Broken(JournalError):
    """A write or the program failed. The command may be there or not when the folder is opened again; this journal answers no more."""


# Bytes on disk.

class Disk:
    """What a journal asks of the system. Tests put one in its place that fails."""

    def create(self, path: str) -> Any:
        """A new file, whose writes are not held back."""
        return open(path, 'xb', buffering=0)

    def write(self, file: Any, data: bytes) -> None:
        """Writes all the bytes, also where the system takes them in parts."""
        left = memoryview(data)
        while left:
            count = file.write(left)
            if not count:
                raise OSError(f'{file.name}: nothing was written')
            left = left[count:]

    def sync(self, file: Any) -> None:
        """Waits until what was written is on disk."""
        os.fsync(file.fileno())

    def rename(self, old: str, new: str) -> None:
        """Puts a file in the place of another one."""
        os.rename(old, new)

    def sync_folder(self, path: str) -> None:
        """Waits until the names in a folder are on disk."""
        descriptor = os.open(path, os.O_RDONLY)
        try:
            os.fsync(descriptor)
        finally:
            os.close(descriptor)

    def remove(self, path: str) -> None:
        """Removes a file."""
        os.remove(path)


def put(disk: Disk, path: str, data: bytes) -> Any:
    """Makes a file with these bytes, whole or not at all, and gives it open for more."""
    fresh = f'{path}.new'
    if os.path.exists(fresh):
        disk.remove(fresh)
    file = disk.create(fresh)
    try:
        disk.write(file, data)
        disk.sync(file)
        disk.rename(fresh, path)
        disk.sync_folder(os.path.dirname(path))
    except BaseException:
        file.close()
        raise
    return file


# The log.

class Groups(NamedTuple):
    """The whole groups of a log: the commands, how many bytes they take with the first line, and the sum so far."""
    lines: List[str]
    length: int
    sum: int


def first_line(number: int, base: bytes) -> bytes:
    """The first line of the log behind an image, or behind the program's text, which is number 0."""
    return b'# log %d behind %08x\n' % (number, zlib.crc32(base))


def hides_group(data: bytes, at: int, total: int) -> bool:
    """Whether the end of a log, from this byte on, holds a group that was whole: its sum stands there with something behind it, and the line
    feed before it, that behind it, or the sign between is damaged."""
    for begin in range(at + 1, len(data) - 9):
        if data[begin + 1:begin + 9] == b'%08x' % total:
            return True
        total = zlib.crc32(data[begin - 1:begin], total)
    return False


def read_groups(data: bytes, begin: bytes, name: str) -> Groups:
    """The whole groups behind the first line of a log. What stands behind the last one was never answered, since a group is on disk before
    the next one is written; a group that is not whole with others behind it is damage."""
    lines: List[str] = []
    group: List[bytes] = []
    length, total, at = len(begin), zlib.crc32(begin), len(begin)
    parts = data[at:].split(b'\n')[:-1]
    for count, part in enumerate(parts, 1):
        at += len(part) + 1
        if not part.startswith(b'#'):
            group.append(part)
            continue
        total_here = zlib.crc32(b'\n'.join(group), total)
        if part != b'#%08x' % total_here:
            if any(later.startswith(b'#') for later in parts[count:]):
                raise Damaged(f'{name} has a damaged group before byte {at}, and others behind it')
            break
        lines += [line.decode('utf-8', 'surrogateescape') for line in group]
        length, total, group = at, total_here, []
    if hides_group(data, length, total):
        raise Damaged(f'{name} has a damaged group behind byte {length}')
    return Groups(lines, length, total)


class Log:
    """The log that commands are added to. It is written anew when a folder is opened, so that all of it is known to be on disk."""

    def __init__(self, disk: Disk, path: str, begin: bytes, total: int) -> None:
        self.size = len(begin)
        self._disk, self._sum = disk, total
        self._file = put(disk, path, begin)

    def add(self, lines: List[str]) -> None:
        """Adds a group, and waits until it is on disk."""
        group = b'\n'.join(map(encoded, lines))
        self._sum = zlib.crc32(group, self._sum)
        data = group + b'\n#%08x\n' % self._sum
        self._disk.write(self._file, data)
        self._disk.sync(self._file)
        self.size += len(data)

    def descriptors(self) -> Tuple[int, ...]:
        """What leads to the file, where it is open."""
        return descriptors_of(self._file)

    def close(self) -> None:
        """Closes the file."""
        self._file.close()


# The program.

def is_kept(words: Sequence[str], reply: Optional[Reply]) -> bool:
    """Whether a line of these words that was answered so stands in the log: it has to be carried out again to come to the same store."""
    return words[0] in CHANGES and not isinstance(reply, Refused)


def canonical(program: str, path: str) -> bytes:
    """A program's text in its canonical form, whose lines the traps name."""
    # Where it is refused, a session says why.
    Session(program, path).end()
    return encoded(answer_to(['check'], program, path))


def image_of(text: bytes, path: str) -> bytes:
    """The image of a program of which nothing was carried out yet."""
    status, image = written_by(['pack'], text, path)
    if status == 4:
        raise Damaged(f'the program is refused: {image.decode("latin-1").strip()}')
    if status != 0:
        raise Ended(status)
    return image


class Live:
    """A store as a process has it: that of `serve`, behind its image."""

    def __init__(self, image: bytes, path: str) -> None:
        try:
            self._session = Session(path=path, image=image, keeps_history=False)
        except ImageRefused as error:
            raise Damaged(str(error), error.rule) from None
        self.program = self._session.program

    def carry_out(self, lines: Sequence[str]) -> List[Reply]:
        """The replies to some commands, each of which has one."""
        return self._session.commands(lines)

    def descriptors(self) -> Tuple[int, ...]:
        """What leads to the process."""
        return self._session.descriptors()

    def end(self) -> None:
        """Ends the process."""
        self._session.end()


# The journal.

class Asked:
    """A command that waits to be carried out, and then its reply, or the error in place of one."""

    def __init__(self, line: str) -> None:
        self.line, self.words = line, words_of(line)
        self.changes = self.words[0] in CHANGES
        self.answered = False
        self.reply: Union[Reply, JournalError, None] = None

    def answer(self, reply: Union[Reply, JournalError]) -> None:
        """Sets what came of it."""
        self.reply, self.answered = reply, True

    def outcome(self) -> Reply:
        """The reply; an error is raised."""
        if isinstance(self.reply, JournalError):
            raise self.reply
        assert self.reply is not None
        return self.reply


# The journals of this process that were not ended.
OPENED: 'weakref.WeakSet[Journal]' = weakref.WeakSet()


def let_go_of_all() -> None:
    """In a process that was forked: lets go of the journals of the one before."""
    nowhere = os.open(os.devnull, os.O_RDWR)
    for journal in list(OPENED):
        journal.let_go(nowhere)
    OPENED.clear()
    os.close(nowhere)


os.register_at_fork(after_in_child=let_go_of_all)

# What is told of a line of the log, and its reply.
Heard = Callable[[str, Reply], None]


class Held(enum.Enum):
    """Which commands a checkpoint holds back."""
    NOTHING = 0
    CHANGES = 1
    ALL = 2


# The files of a journal but its lock, also those that are not in place yet.
OURS = re.compile(r'(?:program|image\.(?P<image>\d+)|log\.(?P<log>\d+))(?P<new>\.new)?')


def files_in(folder: str, kind: str) -> Dict[int, str]:
    """The images or logs of a folder that are in place, by number. The image of number 0 is the program's text."""
    names = os.listdir(folder) if os.path.isdir(folder) else []
    found = [it for it in map(OURS.fullmatch, names) if it and not it['new'] and (it['log'] is None) is (kind == 'image')]
    return {int(it[kind] or 0): os.path.join(folder, it[0]) for it in found}


def newest_in(folder: str) -> Optional[int]:
    """The number of the image that stands in a folder, 0 where it is the program's text, and None where there is neither."""
    return max(files_in(folder, 'image'), default=None)


def standing_in(folder: str) -> Optional[int]:
    """The same; where the image of a log is lost, the folder is `Damaged`. What is not lost is a log without commands behind the newest one:
    that of a checkpoint, or of a new folder, that did not come to its end."""
    newest = newest_in(folder)
    next_one = 0 if newest is None else newest + 1
    for number, path in sorted(files_in(folder, 'log').items()):
        if number > next_one or (number == next_one and holds_commands(path)):
            raise Damaged(f'{path} is there, and its {"image" if number else "program"} is missing')
    return newest


def holds_commands(log: str) -> bool:
    """Whether something stands behind the first line of a log."""
    with open(log, 'rb') as file:
        file.readline()
        return bool(file.read(1))


class Lock:
    """The lock of a folder, which the system takes back when the process ends. It is that of the folder itself and that of a file in it, which is
    never removed; where the file is removed all the same, or the system gives folders no lock, the other one holds."""

    def __init__(self, folder: str) -> None:
        self.descriptors: List[int] = []
        try:
            for path, flags in ((folder, os.O_RDONLY), (os.path.join(folder, 'lock'), os.O_WRONLY | os.O_CREAT | os.O_APPEND)):
                self.descriptors.append(os.open(path, flags | os.O_CLOEXEC, 0o666))
                self._take(self.descriptors[-1], folder, path == folder)
        except BaseException:
            self.close()
            raise

    def _take(self, descriptor: int, folder: str, may_fail: bool) -> None:
        try:
            fcntl.flock(descriptor, fcntl.LOCK_EX | fcntl.LOCK_NB)
        except OSError as error:
            if error.errno in (errno.EWOULDBLOCK, errno.EACCES) or not may_fail:
                raise Locked(f'{folder} is kept by another process') from None

    def __enter__(self) -> 'Lock':
        return self

    def __exit__(self, *_: object) -> None:
        self.close()

    def close(self) -> None:
        """Lets the folder go."""
        while self.descriptors:
            os.close(self.descriptors.pop())


class Journal(Commands):
    """A store in a folder. It is opened by its name, as `Journal(folder)`, and ended by `end` or as a context; `open` and `close` are the
    commands of open runs, as those of `Session`.

    Callers hand their commands to whichever of them is at work: that one carries out what waits, writes it as one group, waits for the
    disk once, and so answers all of them.
    """

    def __init__(self, folder: str, path: Optional[str] = None, disk: Optional[Disk] = None, heard: Optional[Heard] = None) -> None:
        """Opens a folder. `path` is the program to run; `heard` is told each line of the log with its reply, while the folder is opened."""
        self.folder, self.path, self.disk = os.path.abspath(folder), path or program_path(), disk or Disk()
        self._moved = threading.Condition()
        self._waiting: List[Asked] = []
        self._at_work = self._ended = self._forked = False
        self._held = Held.NOTHING
        self._broken: Optional[BaseException] = None
        self.open_runs: List[int] = []
        self._heard = heard
        if standing_in(self.folder) is None:
            raise NoStore(f'{folder} holds no store')
        self._lock = Lock(self.folder)
        try:
            self._begin()
        except BaseException:
            self._lock.close()
            raise
        OPENED.add(self)

    @classmethod
    def create(cls, folder: str, program: str, path: Optional[str] = None, disk: Optional[Disk] = None) -> 'Journal':
        """Makes a folder, where there is none, and in it a store of this program's version 0. The text is kept in its canonical form."""
        path, disk, folder = path or program_path(), disk or Disk(), os.path.abspath(folder)
        text = canonical(program, path)
        if not os.path.isdir(folder):
            os.mkdir(folder)
            disk.sync_folder(os.path.dirname(folder))
        with Lock(folder):
            if standing_in(folder) is not None:
                raise NoStore(f'{folder} holds a store already')
            begin = first_line(0, text)
            Log(disk, os.path.join(folder, 'log.0'), begin, zlib.crc32(begin)).close()
            put(disk, os.path.join(folder, 'program'), text).close()
        return cls(folder, path, disk)

    def __enter__(self) -> 'Journal':
        return self

    def __exit__(self, *_: object) -> None:
        self.end()

    # Beginning and end.

    def _name(self, kind: str, number: int) -> str:
        return os.path.join(self.folder, 'program' if kind == 'image' and number == 0 else f'{kind}.{number}')

    def _begin(self) -> None:
        """Carries the folder's log out behind its image, and then makes sure that all of it is on disk."""
        number = standing_in(self.folder)
        assert number is not None
        self._number = number
        groups = self._start()
        data = read_bytes(self._name('log', number))
        # How many bytes of a group that was never answered stood at the end of the log.
        self.cut = len(data) - groups.length
        try:
            self._log = Log(self.disk, self._name('log', number), data[:groups.length], groups.sum)
            self._remove_others()
        except BaseException:
            self._process.end()
            raise

    def _start(self) -> Groups:
        """Starts the program on what the folder holds."""
        base = read_bytes(self._name('image', self._number))
        name = self._name('log', self._number)
        if not os.path.exists(name):
            raise Damaged(f'{name} is missing')
        data, begin = read_bytes(name), first_line(self._number, base)
        # An image with damage is refused here by its rule, which tells more than the sum in the log.
        process = Live(base if self._number else image_of(base, self.path), self.path)
        try:
            if not data.startswith(begin):
                raise Damaged(f'{name} is the log of another image')
            groups = read_groups(data, begin, name)
            self.open_runs = []
            for at in range(0, len(groups.lines), AT_ONCE):
                part = groups.lines[at:at + AT_ONCE]
                if not all(map(words_of, part)):
                    raise Damaged(f'{name} has a line without a command')
                for line, reply in zip(part, process.carry_out(part)):
                    self._take_again(name, line, reply)
        except BaseException:
            process.end()
            raise
        self._process, self._heard = process, None
        return groups

    def _take_again(self, name: str, line: str, reply: Reply) -> None:
        """Takes a line of a log in, with the reply that it has now."""
        words = words_of(line)
        if not is_kept(words, reply):
            raise Damaged(f'{name}: `{line}` was answered, and now is not: {reply}')
        self._note(words, reply)
        if self._heard:
            self._heard(line, reply)

    def _remove_others(self) -> None:
        """Removes what a checkpoint left that did not come to its end."""
        kept = {os.path.basename(self._name(kind, self._number)) for kind in ('image', 'log')}
        for name in os.listdir(self.folder):
            if OURS.fullmatch(name) and name not in kept:
                self.disk.remove(os.path.join(self.folder, name))

    def end(self) -> None:
        """Waits for the commands or the checkpoint that are being carried out, ends the process, and lets go of the folder."""
        with self._moved:
            self._await_hold()
            if self._ended or self._forked:
                return
            with self._holding():
                self._ended = True
                OPENED.discard(self)
                self._process.end()
                self._log.close()
                self._lock.close()

    def let_go(self, nowhere: int) -> None:
        """In a process that was forked: leads all that is shared with the process before to this other file, so that the folder and the program
        stay with that one alone. Another thread may have been at work there, so nothing is waited for."""
        self._forked, self._moved = True, threading.Condition()
        for descriptor in (*self._lock.descriptors, *self._log.descriptors(), *self._process.descriptors()):
            os.dup2(nowhere, descriptor, inheritable=False)

    # What stands on disk, for those who read beside it.

    @property
    def program(self) -> str:
        """The program's text in its canonical form, whose lines the traps name."""
        return self._process.program

    @property
    def number(self) -> int:
        """The number of the image that the log follows; 0 where it is the program's text."""
        return self._number

    @property
    def base(self) -> str:
        """The path of that image, or of the program's text."""
        return self._name('image', self._number)

    def image(self) -> bytes:
        """The image that the log follows: that of the folder, or that of its program."""
        base = read_bytes(self.base)
        return base if self._number else image_of(base, self.path)

    @property
    def log(self) -> str:
        """The path of the log."""
        return self._name('log', self._number)

    @property
    def kept(self) -> int:
        """How many bytes of the log are known to be on disk."""
        return self._log.size

    # Commands.

    def command(self, line: str) -> Optional[Reply]:
        """Carries a line of the script out, and returns its reply when all that it saw or did is on disk; None for a line that has none."""
        asked = self._asked(line)
        if asked is None:
            return None
        self._carry_out([asked])
        return asked.outcome()

    def outcomes(self, lines: Sequence[str]) -> List[Union[Reply, JournalError, None]]:
        """Carries lines of the script out in their order, as many together as wait for the disk once; gives for each its reply, None where
        it has none, or the error that came in its place."""
        asked = [self._asked(line) for line in lines]
        waiting = [it for it in asked if it is not None]
        try:
            self._carry_out(waiting)
        except JournalError as error:
            for it in waiting:
                if not it.answered:
                    it.answer(error)
        return [None if it is None else it.reply for it in asked]

    def _asked(self, line: str) -> Optional[Asked]:
        data = encoded(line)
        has_words = bool(words_of(line))
        if b'\n' in data or (has_words and len(data) > LONGEST):
            raise WrongText(f'a command is one line of at most {LONGEST:,} bytes')
        return Asked(line) if has_words else None

    def _carry_out(self, asked: List[Asked]) -> None:
        """Hands commands in, and works or waits until all of them are answered."""
        left = list(reversed(asked))
        with self._moved:
            self._waiting += asked
            while left:
                if left[-1].answered:
                    left.pop()
                    continue
                self._fail_if_broken()
                if self._has_to_wait(left[-1]):
                    self._moved.wait()
                    continue
                group = self._next_group()
                with self._working():
                    self._answer(group)

    def _next_group(self) -> List[Asked]:
        """The commands that are carried out next."""
        return [asked for asked in self._waiting if not self._has_to_wait(asked)][:MOST_TOGETHER]

    def _has_to_wait(self, asked: Asked) -> bool:
        return self._at_work or self._held is Held.ALL or (self._held is Held.CHANGES and asked.changes)

    @contextlib.contextmanager
    def _unlocked(self) -> Iterator[None]:
        """Has the lock before and behind, and not meanwhile."""
        self._moved.release()
        try:
            yield
        finally:
            self._moved.acquire()

    @contextlib.contextmanager
    def _working(self) -> Iterator[None]:
        """Is at work, without the lock. What goes wrong breaks the journal, but for a checkpoint that left all as it was."""
        self._at_work = True
        try:
            with self._unlocked():
                yield
        except CheckpointFailed:
            raise
        except BaseException as error:
            self._broken = error
            if isinstance(error, Exception):
                self._fail_if_broken()
            raise
        finally:
            self._at_work = False
            self._moved.notify_all()

    @contextlib.contextmanager
    def _holding(self) -> Iterator[None]:
        """Lets no other command begin, and waits until none is carried out any more. At the end they go on, whatever comes."""
        try:
            self._hold_all()
            yield
        finally:
            self._held = Held.NOTHING
            self._moved.notify_all()

    def _await_hold(self) -> None:
        """Waits until nobody holds commands back."""
        self._moved.wait_for(lambda: self._held is Held.NOTHING or self._ended)

    def _hold_all(self) -> None:
        """Lets no command begin, and waits until none is carried out any more."""
        self._held = Held.ALL
        self._moved.wait_for(lambda: not self._at_work)

    def _fail_if_broken(self) -> None:
        if self._forked:
            raise JournalError(f'the journal of {self.folder} is that of the process from which this one was forked')
        if self._ended:
            raise JournalError(f'the journal of {self.folder} was ended')
        if self._broken:
            raise Broken(f'{self._broken!r}; what stands is told when {self.folder} is opened again') from self._broken

    def _answer(self, group: List[Asked]) -> None:
        """Carries commands out, writes those that changed something as one group, and answers all of them."""
        replies = self._process.carry_out([asked.line for asked in group]) if group else []
        kept = [asked.line for asked, reply in zip(group, replies) if is_kept(asked.words, reply)]
        if kept:
            self._log.add(kept)
        for asked, reply in zip(group, replies):
            self._note(asked.words, reply)
            asked.answer(reply)
        with self._moved:
            self._waiting = [asked for asked in self._waiting if not asked.answered]

    def _note(self, words: Sequence[str], reply: Reply) -> None:
        """Follows which runs are open."""
        if isinstance(reply, Opened):
            self.open_runs.append(reply.run)
        elif words[0] in ('close', 'drop') and not isinstance(reply, Refused):
            self.open_runs.remove(int(words[1]))

    # Checkpoints.

    def checkpoint(self, drop_open_runs: bool = False) -> None:
        """Packs the store into a new image, and begins a new log. While it is packed queries are answered, and changes wait. Refused while
        runs are open; or they are dropped first, and stay dropped where it fails."""
        with self._moved:
            self._await_hold()
            self._fail_if_broken()
            with self._holding():
                self._drop_open_runs(drop_open_runs)
                with self._unlocked():
                    image = self._packed()
                self._hold_all()
                self._fail_if_broken()
                with self._working():
                    self._switch(image)

    def _drop_open_runs(self, asked_to: bool) -> None:
        """Drops the open runs, and lets queries go on."""
        self._fail_if_broken()
        if self.open_runs and not asked_to:
            raise RunsAreOpen(f'a checkpoint would drop the open runs {", ".join(map(str, self.open_runs))}')
        drops = [Asked(f'drop {run}') for run in self.open_runs]
        with self._working():
            self._answer(drops)
        self._held = Held.CHANGES
        self._moved.notify_all()

    def _packed(self) -> bytes:
        """The image of the store that the folder holds, by a process of its own."""
        try:
            status, image = written_by(['repack'], self.image() + read_bytes(self.log), self.path)
        except (OSError, JournalError, Ended) as error:
            raise CheckpointFailed(f'the folder can not be packed: {error}') from error
        if status != 0:
            told = image.decode('latin-1').strip() if status == 4 else str(Ended(status))
            raise CheckpointFailed(f'`repack` gives no image: {told}')
        return image

    def _switch(self, image: bytes) -> None:
        """Puts the image and its log in place. From the moment on in which the image has its name it is the one that stands."""
        number, old = self._number + 1, [self._name(kind, self._number) for kind in ('image', 'log')]
        names = self._name('image', number), self._name('log', number)
        begin = first_line(number, image)
        log = None
        try:
            log = Log(self.disk, names[1], begin, zlib.crc32(begin))
            put(self.disk, names[0], image).close()
        except BaseException as error:
            if log:
                log.close()
            if not isinstance(error, OSError) or os.path.exists(names[0]):
                raise
            with contextlib.suppress(OSError):
                self.disk.remove(f'{names[0]}.new')
            raise CheckpointFailed(f'the image could not be written: {error}') from error
        self._log.close()
        # The process holds all that the new image does, and goes on.
        self._number, self._log = number, log
        # What is left of these is removed when the folder is opened again.
        with contextlib.suppress(OSError):
            for name in old:
                self.disk.remove(name)


# Lines from standard input.

def serve(journal: Journal) -> None:
    """Answers the lines of standard input, each when its reply is on disk."""
    for line in sys.stdin.buffer:
        reply = journal.command(line.decode('utf-8', 'surrogateescape').rstrip('\n'))
        sys.stdout.write(text_of(reply))
        sys.stdout.flush()


def opened(folder: str, path: Optional[str]) -> Journal:
    """The journal of a folder. Where a program is named a folder without a store is given one, and one that stands there has to be of the same
    program."""
    if path is None:
        return Journal(folder)
    program = split_input(read_text(path))[0]
    if standing_in(folder) is None:
        return Journal.create(folder, program)
    journal = Journal(folder)
    try:
        if encoded(journal.program) != canonical(program, journal.path):
            raise JournalError(f'{folder} holds a store of another program than {path}')
        return journal
    except BaseException:
        journal.end()
        raise


def main(words: List[str]) -> int:
    """Serves a folder, which is made where a program is named and it holds no store, or makes a checkpoint of it."""
    try:
        if len(words) == 2 and words[0] == '--checkpoint':
            with Journal(words[1]) as journal:
                journal.checkpoint()
            return 0
        if len(words) not in (1, 2) or words[0].startswith('-'):
            print('usage: persist_journal.py FOLDER [PROGRAM.persist], or persist_journal.py --checkpoint FOLDER', file=sys.stderr)
            return 2
        with opened(words[0], words[1] if len(words) == 2 else None) as journal:
            if journal.cut:
                print(f'persist_journal: {journal.cut} bytes of commands that were never answered are cut off', file=sys.stderr)
            serve(journal)
        return 0
    except (PersistError, OSError) as error:
        print(f'persist_journal: {error}', file=sys.stderr)
        return 1


if __name__ == '__main__':
    sys.exit(main(sys.argv[1:]))
