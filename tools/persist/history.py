"""What is told of the versions of a store: who made each, when and why, their names, and what differs between two of them.

    notes = Notes('book/notes')
    notes.add(Note(3, 2, 'sell 12', by='anna', at=1764646400.0, why='a loaf'))
    notes.name('monday', 3)
    past = Past(image, outline)                     # an image, as `persist pack` writes it
    print('\\n'.join(difference_text(difference(past.records(2), past.records(3)))))

A record's own name says which version made it, and the how manieth of that version it is, from 0: `Letter 3.0`. It stays the same in all
versions, where the numbers of a dump shift. It is read from an image, which holds all versions of a store at once.

Tested (tools/tests), not proved. It needs python3.8 and nothing else.
"""

import bisect
import contextlib
import json
import os
import time
from dataclasses import dataclass
from typing import Any, Dict, Iterator, List, NamedTuple, Optional, Sequence, Tuple, Union

from .client import History, Outline
from .image import Image

__all__ = ['Difference', 'Names', 'Note', 'Notes', 'Past', 'Record', 'Records', 'Value', 'call_of', 'difference', 'difference_text', 'field_names',
           'is_name', 'log_text', 'moment', 'names_text', 'show_text']

# What a field holds: a number, null, or the own name of a record.
Value = Union[int, None, str]


# The records of versions.

class Record(NamedTuple):
    """A record of a version by its own name, with what its fields hold: the numbers first, then the pointers."""
    name: str
    type: str
    fields: Tuple[Tuple[str, Value], ...]

    def text(self) -> str:
        """The record in a line."""
        return f'{self.name}  {", ".join(f"{name}: {value_text(value)}" for name, value in self.fields)}'.rstrip()


# The records that the roots of a version lead to, by their names, the nearest first. That of the roots is called `root`.
Records = Dict[str, Record]


def value_text(value: Value) -> str:
    """What a field holds, in words."""
    return 'null' if value is None else str(value)


def field_names(outline: Outline, type_name: Optional[str]) -> List[Tuple[str, bool]]:
    """The names of the slots of a record type, or of the roots, in the order of an image; and whether each is a pointer."""
    fields = outline.roots if type_name is None else outline.records[type_name]
    found: List[Tuple[str, bool]] = []
    for pointers in (False, True):
        for field in fields:
            if (field.type != 'int') is pointers:
                many = range(field.elements or 0)
                names = [field.name] if field.elements is None else [f'{field.name}({at})' for at in many]
                found += [(name, pointers) for name in names]
    return found


class Past:
    """All versions of a store, from its image. The image is taken as the program writes it; a damaged one is an error or gives nonsense."""

    def __init__(self, image: bytes, outline: Outline) -> None:
        it = Image(image)
        self.text, self.parents, self._numbers, self._nodes = it.text, it.parents, it.numbers, it.nodes
        first, end = it.versions.start, it.versions.stop
        self._begins = self._numbers[first + 2:end:4]
        self._made_by = {run: version for version, run in enumerate(self._numbers[first + 1:end:4])}
        self._slots = [field_names(outline, None)] + [field_names(outline, name) for name in outline.records]
        self._types = ['root', *outline.records]
        self._read_root()

    def _read_root(self) -> None:
        """The nodes of the root record, with the places from which on they live."""
        numbers = self._numbers
        self._root_nodes, self._root_begins = [0], [numbers[self._nodes[0] + 3]]
        while numbers[self._nodes[self._root_nodes[-1]] + 5]:
            self._root_nodes.append(numbers[self._nodes[self._root_nodes[-1]] + 5] - 1)
            self._root_begins.append(numbers[self._nodes[self._root_nodes[-1]] + 3])

    def __len__(self) -> int:
        """How many versions there are."""
        return len(self.parents)

    def _living(self, node: int, place: int) -> int:
        """The node of the same record that lives at a place."""
        numbers, nodes = self._numbers, self._nodes
        while numbers[nodes[node] + 4] <= place and numbers[nodes[node] + 5]:
            node = numbers[nodes[node] + 5] - 1
        return node

    def _name(self, node: int) -> str:
        """The own name of a node's record."""
        run, ordinal, kind = self._numbers[self._nodes[node]:self._nodes[node] + 3]
        return f'{self._types[kind]} {self._made_by.get(run, "?")}.{ordinal}' if kind else 'root'

    def _held(self, node: int, place: int) -> List[Tuple[str, bool, int]]:
        """What the slots of a node hold at a place: their names, whether they are pointers, and the numbers of the image."""
        numbers, at = self._numbers, self._nodes[node]
        slots = self._slots[numbers[at + 2]]
        held = list(numbers[at + 7:at + 7 + len(slots)])
        at += 7 + numbers[at + 6]
        for stamp in range(at + 1, at + 1 + 3 * numbers[at], 3):
            slot, since, content = numbers[stamp:stamp + 3]
            if slot < len(held) and since <= place:
                held[slot] = content
        return [(name, pointer, content) for (name, pointer), content in zip(slots, held)]

    def records(self, version: int) -> Records:
        """The records of a version that its roots lead to, by their own names."""
        place = self._begins[version]
        found: Records = {}
        rest = [self._root_nodes[bisect.bisect_right(self._root_begins, place) - 1]]
        known = set(rest)
        for node in rest:
            fields: List[Tuple[str, Value]] = []
            for name, pointer, content in self._held(node, place):
                if pointer and content:
                    target = self._living(content - 1, place)
                    fields.append((name, self._name(target)))
                    if target not in known:
                        known.add(target)
                        rest.append(target)
                else:
                    fields.append((name, None if pointer else content))
            own = self._name(node)
            found[own] = Record(own, self._types[self._numbers[self._nodes[node] + 2]], tuple(fields))
        return found


# What differs.

class Difference(NamedTuple):
    """What another version has beside one: records that are new, records that are gone, and of others the fields that hold something else."""
    added: List[Record]
    removed: List[Record]
    changed: List[Tuple[Record, List[Tuple[str, Value, Value]]]]


def difference(old: Records, new: Records) -> Difference:
    """What the new records have beside the old ones, told by the records' own names."""
    changed: List[Tuple[Record, List[Tuple[str, Value, Value]]]] = []
    for name, record in new.items():
        before = old.get(name)
        if before is not None and before.fields != record.fields:
            pairs = zip(before.fields, record.fields)
            changed.append((record, [(field, was, now) for (field, was), (_, now) in pairs if was != now]))
    return Difference([it for it in new.values() if it.name not in old], [it for it in old.values() if it.name not in new], changed)


GREEN, RED, YELLOW, FAINT, PLAIN = '\033[32m', '\033[31m', '\033[33m', '\033[2m', '\033[0m'


def coloured(colour: str, text: str, colours: bool) -> str:
    """A text in a colour of the terminal, or as it is."""
    return f'{colour}{text}{PLAIN}' if colours and text else text


def difference_text(found: Difference, colours: bool = False) -> List[str]:
    """A difference in lines: `+` a new record, `-` one that is gone, `~` one of whose fields some hold something else."""
    lines = []
    for record, fields in found.changed:
        told = ', '.join(f'{name}: {value_text(was)} -> {value_text(now)}' for name, was, now in fields)
        lines.append(coloured(YELLOW, f'~ {record.name}  {told}', colours))
    lines += [coloured(GREEN, f'+ {record.text()}', colours) for record in found.added]
    lines += [coloured(RED, f'- {record.text()}', colours) for record in found.removed]
    return lines or ['nothing']


# Who, when and why.

@dataclass(frozen=True)
class Note:
    """Of a version: its parent, the calls that made it, and who made it, when in seconds since 1970, and why, as far as that is known."""
    version: int
    parent: Optional[int]
    call: str = ''
    by: str = ''
    at: Optional[float] = None
    why: str = ''


# The names of versions.
Names = Dict[str, int]


def is_name(text: str) -> bool:
    """Whether a version may be called so: letters, digits and `_ - .`, at most 64, of which the first is no digit, no dot and no `-`."""
    plain = text.replace('-', '').replace('.', '').replace('_', '')
    return text.isascii() and 0 < len(text) <= 64 and (plain.isalnum() or not plain) and (text[0].isalpha() or text[0] == '_')


def moment(at: Optional[float]) -> str:
    """A moment in words, by the clock of Greenwich."""
    return '' if at is None else time.strftime('%Y-%m-%d %H:%M:%S', time.gmtime(at))


class Notes:
    """The notes of a store, in a file of its own, and beside it a copy. Each line is an object of JSON that tells of one version, or of a
    name; a later line of a name stands. Where one of the files is lost or damaged it is made again from the other; where both are, the
    parents and calls are told again by `complete`, from the store itself."""

    def __init__(self, path: Optional[str]) -> None:
        """Without a path they stand in memory alone."""
        self.paths = (path, f'{path}.copy') if path else ()
        self.by_version: Dict[int, Note] = {}
        self.names: Names = {}
        # Lines that could not be written yet.
        self._unwritten: List[bytes] = []
        # Whether something was written that may not be on disk yet.
        self.unsynced = False
        # The longer one is read last, since what a later line tells stands.
        texts = {it: self._read(it) for it in sorted(self.paths, key=lambda it: os.path.getsize(it) if os.path.exists(it) else 0)}
        self._files = [open(it, 'ab', buffering=0) for it in self.paths]
        if len(set(texts.values())) > 1 or not all(text.endswith(b'\n') for text in texts.values() if text):
            self._write_anew()

    def _read(self, path: str) -> bytes:
        """Takes in the whole lines of a file; gives them."""
        try:
            with open(path, 'rb') as file:
                data = file.read()
        except FileNotFoundError:
            return b''
        self.take(data)
        return data

    def take(self, data: bytes) -> None:
        """Takes in the whole lines of a text."""
        for line in data.split(b'\n'):
            with contextlib.suppress(ValueError, KeyError, TypeError):
                self._take(json.loads(line))

    def _take(self, told: Dict[str, Any]) -> None:
        if 'name' in told:
            name, number = str(told['name']), told['version']
            self.names.pop(name, None)
            if number is not None:
                self.names[name] = int(number)
            return
        note = note_in(told)
        before = self.by_version.get(note.version)
        if before is None or note.at is not None:
            self.by_version[note.version] = note

    def text(self) -> bytes:
        """All that is known, as the lines of a file."""
        lines = [encoded(note) for _, note in sorted(self.by_version.items())]
        return b''.join(lines + [encoded_name(name, version) for name, version in self.names.items()])

    def take_over(self, text: bytes, history: History) -> None:
        """Adds notes and names from the lines of another file. A note is added where the version was made so here too: from the same parent, and
        by the same calls where they are known."""
        for line in text.split(b'\n'):
            with contextlib.suppress(ValueError, KeyError, TypeError, AttributeError):
                told = json.loads(line)
                if told['version'] not in range(len(history.parents)):
                    continue
                if 'name' in told:
                    self.name(str(told['name']), int(told['version']))
                    continue
                note = note_in(told)
                if note.parent == history.parents[note.version] and (not history.calls[note.version] or note.call == call_of(history, note.version)):
                    self.add(note)

    def _write_anew(self) -> None:
        """Writes both files with all that is known, each whole or not at all."""
        text = self.text()
        for at, path in enumerate(self.paths):
            with open(f'{path}.new', 'wb') as fresh:
                fresh.write(text)
                fresh.flush()
                os.fsync(fresh.fileno())
            os.rename(f'{path}.new', path)
            self._files[at].close()
            self._files[at] = open(path, 'ab', buffering=0)

    def of(self, version: int) -> Note:
        """What is known of a version."""
        return self.by_version.get(version) or Note(version, None)

    def add(self, *notes: Note) -> None:
        """Adds what is known of versions that were made."""
        for note in notes:
            self.by_version[note.version] = note
        self._append([encoded(note) for note in notes])

    def name(self, name: str, version: Optional[int]) -> None:
        """Calls a version so, from now on; with None nothing is called so any more."""
        if not is_name(name):
            raise ValueError(f'{name!r} is no name: letters, digits and _ - . with a letter or _ first, at most 64')
        self.names.pop(name, None)
        if version is not None:
            self.names[name] = version
        self._append([encoded_name(name, version)])

    def names_of(self, version: int) -> List[str]:
        """What a version is called."""
        return [name for name, number in self.names.items() if number == version]

    def _append(self, lines: List[bytes]) -> None:
        """Adds lines to both files. Where that fails they are kept, and added with the next ones."""
        self._unwritten += lines
        data = b''.join(self._unwritten)
        if not data:
            return
        self.unsynced = True
        with contextlib.suppress(OSError):
            sizes = [os.fstat(file.fileno()).st_size for file in self._files]
            try:
                for file in self._files:
                    if file.write(data) != len(data):
                        raise OSError('not all was written')
                self._unwritten = []
            except OSError:
                for file, size in zip(self._files, sizes):
                    file.truncate(size)
                raise

    def complete(self, history: History) -> None:
        """Adds a note of each version of a history of which none is there; what is known of a version that is not there is dropped."""
        missing = [Note(version, parent, call_of(history, version))
                   for version, parent in enumerate(history.parents) if version not in self.by_version]
        if missing:
            self.add(*missing)
        for version in [it for it in self.by_version if it >= len(history.parents)]:
            del self.by_version[version]
        for name in [it for it, version in self.names.items() if version >= len(history.parents)]:
            del self.names[name]

    def sync(self) -> None:
        """Waits until all that was written is on disk."""
        self.unsynced = False
        with contextlib.suppress(OSError):
            for file in self._files:
                os.fsync(file.fileno())

    def end(self) -> None:
        """Lets go of the files."""
        self.sync()
        for file in self._files:
            file.close()


def call_of(history: History, version: int) -> str:
    """The calls that made a version, as a note has them."""
    return '; '.join(history.calls[version])


def note_in(told: Dict[str, Any]) -> Note:
    """The note that the object of a line tells."""
    return Note(int(told['version']), told.get('parent'), str(told.get('call', '')), str(told.get('by', '')), told.get('at'), str(told.get('why', '')))


def encoded(note: Note) -> bytes:
    """A note as a line of the file."""
    told: Dict[str, Any] = {'version': note.version, 'parent': note.parent}
    told.update({name: value for name, value in (('call', note.call), ('by', note.by), ('at', note.at), ('why', note.why)) if value})
    return json.dumps(told, separators=(',', ':')).encode() + b'\n'


def encoded_name(name: str, version: Optional[int]) -> bytes:
    """A name as a line of the file."""
    return json.dumps({'name': name, 'version': version}, separators=(',', ':')).encode() + b'\n'


# Texts.

def way_back(notes: Notes, version: int) -> Iterator[Note]:
    """What is known of a version, of its parent, and so on to version 0."""
    at: Optional[int] = version
    while at is not None:
        note = notes.of(at)
        yield note
        at = note.parent


def note_text(notes: Notes, note: Note, colours: bool = False) -> str:
    """What is known of a version, in a line."""
    names = ', '.join(notes.names_of(note.version))
    by = ' '.join(part for part in (f'by {note.by}' if note.by else '', moment(note.at)) if part)
    parts = [coloured(YELLOW, f'version {note.version}', colours), coloured(GREEN, f'({names})' if names else '', colours), note.call,
             coloured(FAINT, by, colours), note.why]
    return '  '.join(part for part in parts if part)


def log_text(notes: Notes, version: int, most: int = 50, colours: bool = False) -> List[str]:
    """The versions on the way from one to version 0, a line each, the newest first; at most so many."""
    lines: List[str] = []
    for note in way_back(notes, version):
        if len(lines) == most:
            return lines + [f'.. and on to version 0, from version {note.version}']
        lines.append(note_text(notes, note, colours))
    return lines


def show_text(notes: Notes, version: int, found: Optional[Difference], colours: bool = False) -> List[str]:
    """What is known of a version, and what it has beside its parent."""
    note = notes.of(version)
    lines = [note_text(notes, note, colours)]
    if note.parent is not None and found is not None:
        lines += [coloured(FAINT, f'beside version {note.parent}', colours), *difference_text(found, colours)]
    return lines


def names_text(names: Names) -> List[str]:
    """The names of versions, in lines."""
    width = max(map(len, names), default=0)
    return [f'{name:{width}}  {version}' for name, version in sorted(names.items())]


def at_version(word: str, names: Names, newest: int) -> Optional[int]:
    """The version that a number or a name means; None where there is none."""
    if word.isascii() and word.isdigit():
        return int(word) if len(word) < 10 and int(word) <= newest else None
    return names.get(word)


def sequence_text(lines: Sequence[str]) -> str:
    """Lines as a text."""
    return ''.join(f'{line}\n' for line in lines)
