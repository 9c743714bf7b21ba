"""The log of a store, and the shelf that stores stand on: all that a server asks of what keeps them, on this machine or on several.

A store is an image and the commands behind it, in an order. Four calls are enough to keep one (`StoreLog`):

    own        from now on this one alone appends
    append     carries commands out, and answers when the log holds them
    read       gives what stands in the log from a place on
    follow     waits until the log goes on

There are two engines: a folder with a journal (`FolderLog`, here) and etcd (`EtcdLog` in etcd_log.py). Places are whole numbers that rise: bytes
of a file in the one, numbers of groups in the other.

Tested (tools/tests), not proved. It needs python3.8 and nothing else.
"""

import abc
import os
import re
import threading
import time
from typing import List, NamedTuple, Optional, Sequence, Set, Tuple, Union

from .client import PersistError, Reply, answer_to, words_of
from .image import Image, read_bytes
from .journal import Journal, JournalError, is_kept, newest_in

__all__ = ['Began', 'FolderLog', 'FolderShelf', 'Heard', 'Named', 'News', 'NotOwner', 'Outcome', 'Shelf', 'StoreLog', 'Trimmed', 'Who', 'is_store_name']

# What comes of a line: its reply, None where it has none, or an error in its place.
Outcome = Union[Reply, PersistError, None]


class NotOwner(JournalError):
    """Another one writes this store, and nothing of what was asked was carried out. `url` is where it is asked, as far as that is known."""

    def __init__(self, text: str, url: str = '') -> None:
        super().__init__(text)
        self.url = url


class Trimmed(JournalError):
    """What was asked for stood in the log, which begins behind a later image by now: begin again with that."""


class Who(NamedTuple):
    """Who sends a command, and why."""
    by: str = ''
    why: str = ''


class Began(NamedTuple):
    """The history begins anew behind an image. `notes` are the lines that tell of its versions, None where they are kept elsewhere."""
    image: bytes
    notes: Optional[bytes]


class Heard(NamedTuple):
    """A line of the log and its reply, and the place behind it. `who` is None where that is kept elsewhere; `at` is in seconds since 1970."""
    line: str
    reply: Reply
    place: int
    who: Optional[Who] = None
    at: Optional[float] = None


class Named(NamedTuple):
    """A version was called so; None takes the name away. `place` is that behind it in the log."""
    name: str
    version: Optional[int]
    place: int


News = Union[Began, Heard, Named]


def is_store_name(name: str) -> bool:
    """Whether a store may be called so: letters, digits, `-` and `_`, at most 64."""
    return re.fullmatch(r'[A-Za-z0-9_-]{1,64}', name) is not None


class StoreLog(abc.ABC):
    """The log of one store. Its calls may wait, and are made from threads."""

    # The program in its canonical form, once the log was begun.
    program: str
    # Whether other machines have this store too.
    shared = False
    # Whether this one appends, and whether it has to be begun again.
    owned = dead = False

    def __init__(self) -> None:
        self._news: List[News] = []
        self._news_lock = threading.Lock()

    @property
    @abc.abstractmethod
    def size(self) -> int:
        """The place up to which the log is known here."""

    @property
    def due(self) -> bool:
        """Whether the log has grown so long that an image is worth its while."""
        return False

    @abc.abstractmethod
    def begin(self) -> None:
        """Takes in what there is."""

    @abc.abstractmethod
    def base(self) -> Tuple[bytes, int]:
        """The image that the log follows, and the place behind which it goes on from there."""

    @abc.abstractmethod
    def own(self) -> None:
        """From now on this one alone appends, until it ends or loses the store. Where another one does it is `Locked` or `NotOwner`."""

    @abc.abstractmethod
    def append(self, lines: Sequence[str], whos: Sequence[Who]) -> List[Outcome]:
        """Carries out commands that change the history, in their order, and gives what came of each when the log holds it."""

    @abc.abstractmethod
    def name(self, name: str, version: Optional[int]) -> None:
        """Calls a version so, from here on in the log."""

    @abc.abstractmethod
    def read(self, begin: int) -> Tuple[List[str], int]:
        """The commands that stand in the log behind a place, and the place behind them. `Trimmed` where an image has taken their place."""

    @abc.abstractmethod
    def follow(self, begin: int, seconds: float) -> bool:
        """Waits until the log goes beyond a place; whether it does by then."""

    @abc.abstractmethod
    def end(self) -> None:
        """Lets go of the store. It may be called again."""

    def look(self) -> None:
        """Takes in at once what others have appended by now."""

    def shorten(self, notes: bytes) -> bool:
        """Puts an image in the place of the log's beginning; whether it did. `notes` tell of the versions."""
        return False

    def tell(self, *news: News) -> None:
        """Adds to what is told."""
        with self._news_lock:
            self._news += news

    def news(self) -> List[News]:
        """What has come since the last call, in the order of the log."""
        with self._news_lock:
            news, self._news = self._news, []
            return news


class Shelf(abc.ABC):
    """Where stores stand. Its calls may wait, and are made from threads."""

    # Whether other machines have the same stores.
    shared = False

    @abc.abstractmethod
    def names(self) -> List[str]:
        """The names of all stores, in their order."""

    @abc.abstractmethod
    def has(self, name: str) -> bool:
        """Whether there is a store of this name."""

    @abc.abstractmethod
    def create(self, name: str, program: str) -> None:
        """Makes a store of a program."""

    @abc.abstractmethod
    def is_of(self, name: str, program: str) -> bool:
        """Whether a store was made of this program."""

    @abc.abstractmethod
    def log(self, name: str) -> StoreLog:
        """The log of a store, which is still to be begun."""

    @abc.abstractmethod
    def notes(self, name: str) -> Optional[str]:
        """The file in which its notes stand; None where the log has them."""

    def end(self) -> None:
        """Lets go of what all stores share."""


# The folder.

class FolderLog(StoreLog):
    """A store in a folder with a log and images, by a journal. Nobody else has the folder from the beginning on, so beginning is owning."""

    def __init__(self, folder: str, path: str) -> None:
        super().__init__()
        self._folder, self._path = folder, path
        self._journal: Optional[Journal] = None
        self._size = 0
        self._moved = threading.Condition()

    @property
    def size(self) -> int:
        """How many bytes of the log are on disk."""
        return self._size

    def begin(self) -> None:
        """Opens the folder, and carries its log out."""
        self.own()

    def own(self) -> None:
        """Opens the folder where it is not open yet."""
        if self._journal is not None:
            return
        heard: List[Tuple[str, Reply]] = []
        self._journal = Journal(self._folder, self._path, heard=lambda line, reply: heard.append((line, reply)))
        self.program, self.owned = self._journal.program, True
        self._log, self._size = self._journal.log, self._journal.kept
        self.tell(Began(self._journal.image(), None), *(Heard(line, reply, self._size) for line, reply in heard))

    def base(self) -> Tuple[bytes, int]:
        """The image of the folder, or that of its program."""
        assert self._journal
        return self._journal.image(), 0

    def append(self, lines: Sequence[str], whos: Sequence[Who]) -> List[Outcome]:
        """Carries commands out, as one group or several."""
        assert self._journal
        at = round(time.time(), 3)
        try:
            outcomes = list(self._journal.outcomes(lines))
        finally:
            with self._moved:
                self._size = self._journal.kept
                self._moved.notify_all()
        self.tell(*(Heard(line, it, self._size, who, at) for line, it, who in zip(lines, outcomes, whos) if isinstance(it, Reply) and is_kept(words_of(line), it)))
        return list(outcomes)

    def name(self, name: str, version: Optional[int]) -> None:
        """Tells it; the file of the notes keeps it."""
        self.tell(Named(name, version, self._size))

    def read(self, begin: int) -> Tuple[List[str], int]:
        """The commands of the log from a byte on."""
        end = self._size
        if begin >= end:
            return [], begin
        with open(self._log, 'rb') as file:
            file.seek(begin)
            data = file.read(end - begin)
        lines = data.decode('utf-8', 'surrogateescape').split('\n')
        return [line for line in lines if line and not line.startswith('#')], end

    def follow(self, begin: int, seconds: float) -> bool:
        """Waits for what another thread appends."""
        with self._moved:
            return self._moved.wait_for(lambda: self._size > begin, seconds)

    def end(self) -> None:
        """Ends the journal."""
        if self._journal is not None:
            self._journal.end()
        self.owned = False


class FolderShelf(Shelf):
    """The stores of a folder, each in a folder of its own."""

    def __init__(self, folder: str, path: str) -> None:
        self.folder, self._path = os.path.abspath(folder), path
        # Folders that are known to hold stores, which they never cease to do.
        self._made: Set[str] = set()

    def names(self) -> List[str]:
        """The names of all stores."""
        with os.scandir(self.folder) as found:
            return sorted(it.name for it in found if is_store_name(it.name) and it.is_dir() and self._is_made(it.name))

    def _is_made(self, name: str) -> bool:
        if name not in self._made and self.has(name):
            self._made.add(name)
        return name in self._made

    def has(self, name: str) -> bool:
        """Whether the folder of this name holds a store."""
        return newest_in(os.path.join(self.folder, name)) is not None

    def create(self, name: str, program: str) -> None:
        """Makes a folder with a store."""
        Journal.create(os.path.join(self.folder, name), program, self._path).end()

    def is_of(self, name: str, program: str) -> bool:
        """Whether a store was made of this program, whose canonical form it has."""
        folder = os.path.join(self.folder, name)
        number = newest_in(folder)
        base = read_bytes(os.path.join(folder, f'image.{number}' if number else 'program'))
        kept = Image(base).text.encode('latin-1') if number else base
        return answer_to(['check'], program, self._path).encode('latin-1') == kept

    def log(self, name: str) -> StoreLog:
        """The log in a folder."""
        return FolderLog(os.path.join(self.folder, name), self._path)

    def notes(self, name: str) -> Optional[str]:
        """The file in the folder."""
        return os.path.join(self.folder, name, 'notes')
