"""Stores on several machines: each is a log in etcd, and `persist` on each machine behind it.

Tested (tools/tests), not proved; under faults by .ci/replicated. It needs python3.8 and nothing else, and etcd 3.4 or later.

    machine = Machine(Etcd(endpoints), 'http://10.0.0.1:8040', lease=5)
    log = EtcdShelf(machine, program_path()).log('book')
    log.begin()                # follows: the image, and the log behind it
    log.own()                  # or NotOwner, which says who writes
    log.append(['run 0 add 5'], [Who('anna')])

Who writes a store is whose key `owner` it has, and that key hangs on the machine's lease. A group of commands is carried out, and then put into
the log by a transaction with two conditions: that key is the one that this machine made, and the log's next number is free. Only then it is
answered. So no clock is trusted: a machine that stood still and lost its lease finds that the first condition fails, whatever it believes. A
transaction that was cut off is asked again; where it was carried out before, its own mark stands under the number. What is refused changes
nothing and stands in no log, so it is answered behind a read of that key alone.

etcd holds, for each store:

    persist/stores/NAME                    its program
    persist/log/NAME/owner                 who writes it, on the lease of a machine
    persist/log/NAME/group/NUMBER          the log, a group of commands a key
    persist/log/NAME/base                  which image the log follows
    persist/image/NAME/NUMBER-TERM/..      the pieces of that image and of the notes of its versions, of 1 MiB at most

and `persist/machines/URL` for each machine, on its lease.
"""

import contextlib
import hashlib
import json
import threading
import time
import uuid
import zlib
from typing import Any, Dict, List, NamedTuple, Optional, Sequence, Tuple

from .client import Ended, PersistError, Reply, encoded, program_path, words_of, written_by
from .etcd import Etcd, EtcdError, EtcdRefused, Event, Key, Watch, created, delete, get, put, written
from .journal import Broken, Damaged, JournalError, Live, NoStore, canonical, image_of, is_kept
from .log import Began, Heard, Named, News, NotOwner, Outcome, Shelf, StoreLog, Trimmed, Who

__all__ = ['EtcdLog', 'EtcdShelf', 'Machine', 'PIECE', 'Shape']

PROGRAMS, MACHINES = b'persist/stores/', b'persist/machines/'
# The most bytes of a piece of an image; a server of etcd takes 1.5 MiB in one request.
PIECE = 1 << 20
# How many seconds a watch may be silent before the log is read past it, which also finds a server that stands still.
SILENCE = 5.0


class Shape(NamedTuple):
    """When an image is worth its while: so many commands stand behind the last one, and so large a part of those that it holds."""
    commands: int = 10_000
    share: float = 0.25
    # How many seconds a group may take to be in the log.
    seconds: float = 8.0


def behind(prefix: bytes) -> bytes:
    """The key behind all that begin so; the prefix ends with a slash."""
    return prefix[:-1] + b'0'


# Machines.

class Machine:
    """This server among those that share the stores. Its lease is renewed as long as it runs, and a new one is taken where it was lost."""

    def __init__(self, etcd: Etcd, url: str, lease: float) -> None:
        self.etcd, self.url, self.seconds = etcd, url, max(2, round(lease))
        self._ended = threading.Event()
        self._lock = threading.Lock()
        self._known: Tuple[float, List[str]] = (0.0, [])
        self.lease = 0
        self._register()
        self._thread = threading.Thread(target=self._keep, name='lease', daemon=True)
        self._thread.start()

    def _register(self) -> None:
        lease = self.etcd.grant(self.seconds)
        self.etcd.txn([], [put(MACHINES + self.url.encode(), b'', lease)])
        self.lease = lease

    def _keep(self) -> None:
        while not self._ended.wait(self.seconds / 3):
            with contextlib.suppress(PersistError):
                self.check()

    def check(self) -> None:
        """Renews the lease, or takes a new one."""
        with self._lock:
            if not self._ended.is_set() and not self.etcd.renew(self.lease, self.seconds / 2):
                self._register()

    def machines(self) -> List[str]:
        """The machines that have a lease, as they were at most a second ago."""
        at, known = self._known
        if time.monotonic() - at > 1:
            known = [it.key[len(MACHINES):].decode() for it in self.etcd.all(MACHINES, behind(MACHINES), only_keys=True)]
            self._known = (time.monotonic(), known)
        return known

    def preferred(self, name: str) -> str:
        """The machine that is to write a store that nobody writes. Each store has an order of machines of its own, so that a machine more or
        less moves no store but those that it gets or had."""
        return max(self.machines(), default=self.url, key=lambda url: hashlib.sha256(f'{url} {name}'.encode()).digest())

    def end(self) -> None:
        """Gives the lease back, so that others take over at once."""
        self._ended.set()
        with self._lock, contextlib.suppress(EtcdError):
            self.etcd.revoke(self.lease)
        self.etcd.end()


# Groups and images as bytes.

class Group(NamedTuple):
    """What is appended together: commands, who sent each, when in seconds since 1970, and the names that versions were given. `mark` is its own."""
    mark: str
    lines: List[str]
    whos: List[Who]
    at: float
    names: List[Tuple[str, Optional[int]]]

    def data(self) -> bytes:
        """The group as a value."""
        told: Dict[str, Any] = {'mark': self.mark, 'lines': self.lines, 'at': self.at}
        for field, texts in (('by', [it.by for it in self.whos]), ('why', [it.why for it in self.whos])):
            told.update({field: texts} if any(texts) else {})
        told.update({'names': self.names} if self.names else {})
        return json.dumps(told, separators=(',', ':')).encode()


def group_of(data: bytes) -> Group:
    """The group that a value tells."""
    told = json.loads(data)
    lines = [str(it) for it in told['lines']]
    none = [''] * len(lines)
    whos = [Who(by, why) for by, why in zip(told.get('by', none), told.get('why', none))]
    return Group(told['mark'], lines, whos, told['at'], [(name, version) for name, version in told.get('names', ())])


def pieces_of(data: bytes) -> List[bytes]:
    """Bytes in pieces."""
    return [data[at:at + PIECE] for at in range(0, len(data), PIECE)]


class Base(NamedTuple):
    """Which image the log follows: the number it stands for, the commands up to there, where its pieces are, how many bytes it and its notes
    have, and their sum."""
    number: int
    commands: int
    at: str
    image: int
    notes: int
    sum: int

    def data(self) -> bytes:
        """It as a value."""
        return json.dumps(self._asdict(), separators=(',', ':')).encode()


class Image(NamedTuple):
    """An image, the notes of its versions, the number of the last group in it, and how many commands it holds."""
    image: bytes
    notes: bytes
    number: int
    commands: int


class Keys:
    """The keys of a store."""

    def __init__(self, name: str) -> None:
        self.program = PROGRAMS + name.encode()
        self.log = b'persist/log/%s/' % name.encode()
        self.owner, self.base, self.groups = self.log + b'owner', self.log + b'base', self.log + b'group/'
        self.images = b'persist/image/%s/' % name.encode()

    def group(self, number: int) -> bytes:
        """The key of a group."""
        return self.groups + b'%016x' % number

    def number(self, key: bytes) -> int:
        """The number of a group's key."""
        return int(key[len(self.groups):], 16)


# The log.

class EtcdLog(StoreLog):
    """A store's log in etcd. It follows from the beginning on, and may come to own the store; once it has lost it, it is dead."""

    shared = True

    def __init__(self, machine: Machine, name: str, path: str, shape: Shape) -> None:
        super().__init__()
        self._machine, self._etcd, self._name, self._path, self._shape = machine, machine.etcd, name, path, shape
        self._keys = Keys(name)
        # At the process, and at what is known of etcd.
        self._lock = threading.RLock()
        self._live: Optional[Live] = None
        self._watch: Optional[Watch] = None
        self._revision = self._owner_revision = self._base_revision = 0
        # Who writes, as far as is known here.
        self.owner = ''
        # At the groups behind the image, for those who read them meanwhile.
        self._cache_lock = threading.Lock()
        self._image = Image(b'', b'', 0, 0)
        self._groups: List[List[str]] = []
        self._size = 0
        # The open runs, and the last number at which there were none: an image leaves them out.
        self._open_runs = self._quiet = 0
        # The commands behind the image, and those up to that number.
        self._commands = self._quiet_commands = 0
        self._ended = False

    @property
    def size(self) -> int:
        """The number of the last group that was carried out here."""
        return self._size

    # Beginning: the image, and the log behind it.

    def begin(self) -> None:
        """Takes the image and the log behind it. Where a later image comes meanwhile it begins again with that."""
        for left in reversed(range(5)):
            try:
                with self._lock:
                    self._load()
                return
            except Trimmed:
                if not left:
                    raise

    def _load(self) -> None:
        program = self._etcd.get(self._keys.program)
        if program is None:
            raise NoStore(f'there is no store {self._name}')
        image = self._read_image()
        image = image._replace(image=image.image or image_of(program.value, self._path))
        if self._live is not None:
            self._live.end()
        self._live = Live(image.image, self._path)
        self.program = self._live.program
        with self._cache_lock:
            self._image = image
            self._groups, self._size, self._quiet = [], image.number, image.number
            self._open_runs = self._commands = self._quiet_commands = 0
        self.news()
        self.tell(Began(image.image, image.notes))
        self._catch_up()

    def _read_image(self) -> Image:
        """The image that the log follows; without bytes where it is that of the program."""
        key = self._etcd.get(self._keys.base)
        self._base_revision = key.written if key else 0
        if key is None:
            return Image(b'', b'', 0, 0)
        base = Base(**json.loads(key.value))
        prefix = self._keys.images + base.at.encode() + b'/'
        # A piece at a time: more together is more than the gateway hands on.
        data = b''.join(it.value for it in self._etcd.all(prefix, behind(prefix), 1))
        if len(data) != base.image + base.notes or zlib.crc32(data) != base.sum:
            raise Trimmed(f'the image of {self._name} is not whole: a later one takes its place')
        return Image(data[:base.image], data[base.image:], base.number, base.commands)

    def _catch_up(self) -> None:
        """Carries out what stands in the log by now, and knows who writes."""
        more, begin = True, self._keys.group(self._size + 1)
        while more:
            keys, more, self._revision = self._etcd.range(begin, behind(self._keys.groups))
            if keys:
                self._take([(self._keys.number(it.key), it) for it in keys])
                begin = keys[-1].key + b'\0'
        owner = self._etcd.get(self._keys.owner)
        self.owner = str(json.loads(owner.value)['url']) if owner else ''

    def _take(self, keys: Sequence[Tuple[int, Key]]) -> None:
        """Carries out groups that others appended."""
        assert self._live
        groups = [(number, group_of(key.value)) for number, key in keys if number > self._size]
        if not groups:
            return
        if groups[0][0] != self._size + 1:
            raise Trimmed(f'the log of {self._name} begins behind {self._size}')
        replies = iter(self._live.carry_out([line for _, group in groups for line in group.lines]))
        for number, group in groups:
            told = [next(replies) for _ in group.lines]
            for line, reply in zip(group.lines, told):
                if not is_kept(words_of(line), reply):
                    raise Damaged(f'group {number} of {self._name}: `{line}` was answered, and now is not: {reply}')
            self._note(number, group, told)

    def _note(self, number: int, group: Group, replies: Sequence[Reply]) -> None:
        """Notes a group that the log holds and that was carried out here."""
        for line in group.lines:
            self._open_runs += {'open': 1, 'close': -1, 'drop': -1}.get(words_of(line)[0], 0)
        news: List[News] = [Heard(line, reply, number, who, group.at) for line, reply, who in zip(group.lines, replies, group.whos)]
        with self._cache_lock:
            self._groups.append(group.lines)
            self._size = number
            self._commands += len(group.lines)
            if not self._open_runs:
                self._quiet, self._quiet_commands = number, self._commands
        self.tell(*news, *(Named(name, version, number) for name, version in group.names))

    # Reading and following.

    def base(self) -> Tuple[bytes, int]:
        """The image, and its number."""
        with self._cache_lock:
            return self._image.image, self._image.number

    def read(self, begin: int) -> Tuple[List[str], int]:
        """The commands behind a number."""
        with self._cache_lock:
            at = begin - self._image.number
            if at < 0:
                raise Trimmed(f'the log of {self._name} begins behind {self._image.number}')
            return [line for group in self._groups[at:] for line in group], max(begin, self._size)

    def look(self) -> None:
        """Takes in at once what others have appended."""
        with self._lock:
            self._fail_if_dead()
            if not self.owned:
                self._catch_up()

    def follow(self, begin: int, seconds: float) -> bool:
        """Waits until the log goes beyond a number. Where this machine loses the store meanwhile it is `NotOwner`."""
        until = silent = time.monotonic()
        until += seconds
        while self._size <= begin and time.monotonic() < until:
            self._fail_if_dead()
            watch = self._watch
            if watch is None or time.monotonic() - silent > SILENCE:
                self._watch_anew()
                silent = time.monotonic()
                continue
            try:
                events = watch.events(min(1.0, until - time.monotonic()))
            except EtcdError:
                self._stop_watching()
                time.sleep(0.05)
                continue
            if events:
                silent = time.monotonic()
                with self._lock:
                    self._hear(events)
        return self._size > begin

    def _watch_anew(self) -> None:
        """Reads up to where the log stands, and watches from there on."""
        self._stop_watching()
        with self._lock:
            self._fail_if_dead()
            if not self.owned:
                self._catch_up()
            else:
                self._check_owner(self._etcd.get(self._keys.owner))
                self._revision = max(self._revision, self._owner_revision)
            self._watch = self._etcd.watch(self._keys.log, behind(self._keys.log), self._revision + 1)

    def _stop_watching(self) -> None:
        if self._watch is not None:
            self._watch.end()
            self._watch = None

    def _hear(self, events: Sequence[Event]) -> None:
        """Takes in what became of the keys of the log."""
        self._fail_if_dead()
        groups: List[Tuple[int, Key]] = []
        based: Optional[Key] = None
        for key, deleted in events:
            self._revision = max(self._revision, key.written)
            if key.key == self._keys.owner and key.written > self._owner_revision:
                self._check_owner(None if deleted else key)
            elif key.key == self._keys.base and not deleted:
                based = key
            elif key.key.startswith(self._keys.groups) and not deleted and not self.owned:
                groups.append((self._keys.number(key.key), key))
        self._take(groups)
        if based is not None and not self.owned and based.written != self._base_revision:
            self._move_base()

    def _check_owner(self, key: Optional[Key]) -> None:
        """Knows who writes; where it is no more this one it is dead."""
        self.owner = str(json.loads(key.value)['url']) if key else ''
        if self.owned and (key is None or key.created != self._owner_revision):
            raise self._die(NotOwner(f'this machine lost {self._name}; nothing of this was carried out', self.owner))

    def _move_base(self) -> None:
        """Has a later image in the place of the beginning of its log."""
        with contextlib.suppress(Trimmed):
            image = self._read_image()
            if image.number <= self._size:
                self._trim(image)

    def _trim(self, image: Image) -> None:
        with self._cache_lock:
            gone = self._groups[:max(0, image.number - self._image.number)]
            del self._groups[:len(gone)]
            count = sum(map(len, gone))
            self._commands, self._quiet_commands, self._quiet = self._commands - count, self._quiet_commands - count, max(self._quiet, image.number)
            self._image = image

    # Owning and appending.

    def _fail_if_dead(self) -> None:
        if self._ended:
            raise NotOwner(f'the log of {self._name} is begun again; nothing of this was carried out')
        if self.dead:
            raise NotOwner(f'this machine lost {self._name}; nothing of this was carried out', self.owner)

    def _die(self, error: JournalError) -> JournalError:
        """From now on nothing is answered: the process may be ahead of the log, or behind it."""
        self.dead, self.owned = True, False
        return error

    def own(self) -> None:
        """Takes the store where nobody has it, and carries out all that the log holds. A key that this machine left behind, when it was killed
        or could not tell what became of a group, is taken away first, and with it all that was still on its way."""
        with self._lock:
            self._fail_if_dead()
            until = time.monotonic() + self._shape.seconds
            while not self.owned:
                revision = self._try_to_own()
                if revision:
                    self._owner_revision = revision
                    self._catch_up()
                    self.owned, self.owner = True, self._machine.url
                elif time.monotonic() > until:
                    raise NotOwner(f'{self._name} changes hands; nothing of this was carried out')

    def _try_to_own(self) -> int:
        """The revision at which the key was made; 0 where it has to be tried again."""
        key = self._keys.owner
        value = json.dumps({'url': self._machine.url, 'mark': uuid.uuid4().hex}).encode()
        try:
            told = self._etcd.txn([created(key, 0)], [put(key, value, self._machine.lease)], [get(key)])
        except EtcdRefused:
            # The lease is gone.
            self._machine.check()
            return 0
        if told.held:
            return told.revision
        found = next(iter(told.found[0]), None)
        if found is None:
            return 0
        if found.value == value:
            return found.created
        url = str(json.loads(found.value)['url'])
        if url != self._machine.url:
            self.owner = url
            raise NotOwner(f'{url} writes {self._name}; nothing of this was carried out', url)
        self._etcd.txn([created(key, found.created)], [delete(key)])
        return 0

    def append(self, lines: Sequence[str], whos: Sequence[Who]) -> List[Outcome]:
        """Carries commands out, puts those that are kept into the log as one group, and then gives the replies."""
        with self._lock:
            self._fail_if_dead()
            if not self.owned or self._live is None:
                raise NotOwner(f'this machine does not write {self._name}; nothing of this was carried out', self.owner)
            try:
                replies = self._live.carry_out(list(lines))
            except Ended as error:
                raise self._die(NotOwner(f'{error}; nothing of this was carried out')) from error
            kept = [it for it in zip(lines, replies, whos) if is_kept(words_of(it[0]), it[1])]
            if kept:
                group = Group(uuid.uuid4().hex, [it[0] for it in kept], [it[2] for it in kept], round(time.time(), 3), [])
                self._add(group, [it[1] for it in kept])
            else:
                self._read_own_key()
            return list(replies)

    def name(self, name: str, version: Optional[int]) -> None:
        """Appends a group that names a version."""
        with self._lock:
            self._fail_if_dead()
            if not self.owned:
                raise NotOwner(f'this machine does not write {self._name}; nothing of this was carried out', self.owner)
            self._add(Group(uuid.uuid4().hex, [], [], round(time.time(), 3), [(name, version)]), [])

    def _read_own_key(self) -> None:
        """Makes sure that this machine writes still, and so that what was refused is refused by all that was answered before."""
        key = self._keys.owner
        try:
            held = self._etcd.txn([created(key, self._owner_revision)], [get(key)], [get(key)], self._shape.seconds).held
        except EtcdError as error:
            raise self._die(NotOwner(f'{error}; nothing of this was carried out')) from error
        if not held:
            raise self._die(NotOwner(f'this machine lost {self._name}; nothing of this was carried out'))

    def _add(self, group: Group, replies: Sequence[Reply]) -> None:
        """Puts a group under the next number."""
        number = self._size + 1
        self._put(number, group.data())
        self._note(number, group, replies)

    def _put(self, number: int, data: bytes) -> None:
        """The transaction that makes a group stand, or the error that says why it does not."""
        key, owner = self._keys.group(number), self._keys.owner
        try:
            told = self._etcd.txn([created(owner, self._owner_revision), created(key, 0)], [put(key, data)], [get(key), get(self._keys.base)], self._shape.seconds)
        except EtcdError as error:
            raise self._die(Broken(str(error))) from error
        if told.held:
            return
        there, base = told.found
        if there and there[0].value == data:
            # An attempt that was cut off was carried out.
            return
        if not there and told.asked > 1 and base and Base(**json.loads(base[0].value)).number >= number:
            raise self._die(Broken(f'this machine lost {self._name}, and its log was shortened meanwhile'))
        raise self._die(NotOwner(f'this machine lost {self._name}; nothing of this was carried out'))

    # Images.

    @property
    def due(self) -> bool:
        """Whether as much stands behind the image as the shape says."""
        return self.owned and self._quiet_commands >= max(self._shape.commands, self._shape.share * self._image.commands)

    def shorten(self, notes: bytes) -> bool:
        """Makes an image at the last number without open runs. The log from the image before on stays for those who are behind."""
        with self._cache_lock:
            base, number, term = self._image, self._quiet, self._owner_revision
            lines = [line for group in self._groups[:number - base.number] for line in group]
        if not self.owned or not term:
            return False
        status, image = written_by(['repack'], base.image + encoded(''.join(f'{line}\n' for line in lines)), self._path)
        if status != 0:
            raise Damaged(image.decode('latin-1').strip()) if status == 4 else Ended(status)
        made = Image(image, notes, number, base.commands + len(lines))
        if not self._put_image(made, term):
            return False
        self._trim(made)
        return True

    def _put_image(self, made: Image, term: int) -> bool:
        """Puts the pieces, and then says that the log follows them, where this machine writes the store still."""
        at = f'{made.number:016x}-{term:x}'
        prefix, data = self._keys.images + at.encode() + b'/', made.image + made.notes
        for count, piece in enumerate(pieces_of(data)):
            self._etcd.txn([], [put(prefix + b'%08x' % count, piece)])
        base = Base(made.number, made.commands, at, len(made.image), len(made.notes), zlib.crc32(data)).data()
        mine = [created(self._keys.owner, term)]
        told = self._etcd.txn([*mine, written(self._keys.base, self._base_revision)], [put(self._keys.base, base)], [get(self._keys.base)])
        found = next(iter(told.found[0]), None) if not told.held else None
        if not told.held and (found is None or found.value != base):
            self._etcd.txn([], [delete(prefix, behind(prefix))])
            return False
        self._base_revision = found.written if found else told.revision
        older = self._keys.images + b'%016x' % self._image.number
        self._etcd.txn(mine, [delete(self._keys.groups, self._keys.group(self._image.number + 1)), delete(self._keys.images, older)])
        return True

    def end(self) -> None:
        """Gives the store up, so that another machine may take it at once."""
        self._ended = True
        self._stop_watching()
        with self._lock:
            self.owned = False
            if self._owner_revision:
                revision, self._owner_revision = self._owner_revision, 0
                with contextlib.suppress(EtcdError):
                    self._etcd.txn([created(self._keys.owner, revision)], [delete(self._keys.owner)], seconds=2.0)
            if self._live is not None:
                self._live.end()
                self._live = None


# The shelf.

class EtcdShelf(Shelf):
    """The stores that several machines share."""

    shared = True

    def __init__(self, machine: Machine, path: Optional[str] = None, shape: Shape = Shape()) -> None:
        self.machine, self._etcd, self._path, self._shape = machine, machine.etcd, path or program_path(), shape

    def names(self) -> List[str]:
        """The names of all stores."""
        return [it.key[len(PROGRAMS):].decode() for it in self._etcd.all(PROGRAMS, behind(PROGRAMS), 5000, only_keys=True)]

    def has(self, name: str) -> bool:
        """Whether there is such a store."""
        return self._etcd.get(PROGRAMS + name.encode()) is not None

    def create(self, name: str, program: str) -> None:
        """Makes a store, where there is none."""
        key, text = PROGRAMS + name.encode(), canonical(program, self._path)
        told = self._etcd.txn([created(key, 0)], [put(key, text)], [get(key)])
        if not told.held and (told.asked == 1 or told.found[0][0].value != text):
            raise NoStore(f'there is a store {name} already')

    def is_of(self, name: str, program: str) -> bool:
        """Whether a store has this program."""
        found = self._etcd.get(PROGRAMS + name.encode())
        return found is not None and found.value == canonical(program, self._path)

    def log(self, name: str) -> StoreLog:
        """The log of a store."""
        return EtcdLog(self.machine, name, self._path, self._shape)

    def notes(self, name: str) -> Optional[str]:
        """None: they stand in the log."""
        return None

    def owner(self, name: str) -> str:
        """The machine that writes a store, or else the one that is to; by what etcd holds now."""
        found = self._etcd.get(Keys(name).owner)
        return str(json.loads(found.value)['url']) if found else self.machine.preferred(name)

    def end(self) -> None:
        """Gives the machine's lease back."""
        self.machine.end()
