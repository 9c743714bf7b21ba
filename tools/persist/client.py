"""Drives the program `persist` from Python: one process, and one typed reply to each command.

    program, script = split_input(read_text('examples/editor.persist'))
    with Session(program) as session:
        typed = must(session.run(0, 'key', 104))    # Version(number=1, printed=())
        session.query(typed.number, 'text')         # Answer(printed=(104,))
        session.dump(typed.number).records          # what version 1 holds, record by record

A session is given a program text without a separator line, or an image: `Session(image='monday.image')` goes on from there. Each of its
commands sends one line of a script and returns the reply to it. Traps and refusals are replies too; `must` makes errors of them. Errors
of their own say that the program or the image was refused, that the process ended, and that something was written that is no reply.

This module is tested (tools/tests) and not proved: a reply says what the program wrote. It needs python3.8 and nothing else.
"""

import contextlib
import os
import re
import select
import shutil
import signal
import subprocess
import threading
from dataclasses import dataclass
from typing import Any, Callable, Dict, Iterator, List, NamedTuple, Optional, Pattern, Sequence, Tuple, Union

from .errors import (
    INPUT_LIMIT, CutOff, Ended, ImageRefused, NoAnswer, NoProgram, PersistError, ProgramRefused, UnknownReply, WrongImage, WrongText)
from .image import Image, is_image, read_bytes, split_image

__all__ = [
    'CHANGES', 'INPUT_LIMIT', 'Answer', 'Budget', 'Changed', 'Commands', 'Content', 'CutOff', 'Done', 'Dropped', 'Dump', 'Ended', 'Field', 'History',
    'ImageRefused', 'Never', 'NoAnswer', 'NoProgram', 'NotCarriedOut', 'Opened', 'Outline', 'PersistError', 'Pointer', 'ProgramRefused',
    'Record', 'Refused', 'Reply', 'Running', 'Session', 'Stats', 'Trapped', 'UnknownReply', 'Version', 'Versions', 'WrongImage', 'WrongText',
    'answer_to', 'descriptors_of', 'encoded', 'is_last', 'must', 'program_path', 'read_answer', 'read_dump', 'read_outline', 'read_reply',
    'read_text', 'read_versions', 'session_on', 'split_input', 'stretches_of', 'take_reply', 'text_for', 'text_of', 'words_of', 'write_text', 'written_by',
]

# A line of no form. Its reply shows the end of what was written before it.
MARK = '.'
MARKED = 'refused line'
# The commands that change a history.
CHANGES = frozenset(('run', 'open', 'call', 'step', 'close', 'drop', 'budget'))
# The most bytes that are read at once.
CHUNK = 65_536
# Seconds that a process is given to end when its input is closed or it is told to.
PATIENCE = 10
# The most bytes of an input whose first part is an image: more than any memory holds.
SERVED_LIMIT = 1 << 62


# The replies.

class Reply:
    """A reply to a command. `str` gives its last line as the program writes it, and `text_of` the whole of it."""

    # The numbers that were printed; only those that say so have any.
    printed: Tuple[int, ...] = ()


@dataclass(frozen=True)
class Version(Reply):
    """A run was published as this version (`run`, `close`)."""
    number: int
    printed: Tuple[int, ...] = ()

    def __str__(self) -> str:
        return f'version {self.number}'


@dataclass(frozen=True)
class Answer(Reply):
    """A query came to its end (`query`)."""
    printed: Tuple[int, ...] = ()

    def __str__(self) -> str:
        return 'ok'


@dataclass(frozen=True)
class Trapped(Reply):
    """A run or query trapped at this line of the program, and nothing was published (`run`, `query`, `close`)."""
    kind: str
    line: int
    printed: Tuple[int, ...] = ()

    def __str__(self) -> str:
        return f'trap {self.kind} at {self.line}'


@dataclass(frozen=True)
class Refused(Reply):
    """The command was refused and changed nothing; also what is told of a version or path that there is not."""
    kind: str

    def __str__(self) -> str:
        return f'refused {self.kind}'


@dataclass(frozen=True)
class Opened(Reply):
    """A run was opened under this number (`open`)."""
    run: int

    def __str__(self) -> str:
        return f'run {self.run}'


@dataclass(frozen=True)
class Running(Reply):
    """The open run has more to do than the charges granted so far reach for (`call`, `step`)."""
    run: int

    def __str__(self) -> str:
        return f'run {self.run} running'


@dataclass(frozen=True)
class Done(Reply):
    """The open run has ended or trapped, or its whole budget was granted (`call`, `step`)."""
    run: int

    def __str__(self) -> str:
        return f'run {self.run} done'


@dataclass(frozen=True)
class Dropped(Reply):
    """The open run was given up (`drop`)."""
    run: int

    def __str__(self) -> str:
        return f'dropped {self.run}'


@dataclass(frozen=True)
class Budget(Reply):
    """Runs and queries that come now may take so many charges (`budget`)."""
    charges: int

    def __str__(self) -> str:
        return f'budget {self.charges}'


@dataclass(frozen=True)
class Versions(Reply):
    """The version tree: `parents[v]` is the version that v was made from, and None for version 0 (`versions`)."""
    parents: Tuple[Optional[int], ...]

    def __str__(self) -> str:
        return '\n'.join(['0'] + [f'{version} from {parent}' for version, parent in enumerate(self.parents) if parent is not None])


@dataclass(frozen=True)
class Stats(Reply):
    """How many records were made and pointers and values written by all runs, and the bound on the store (`stats`)."""
    records: int
    pointers: int
    values: int
    bound: int

    def __str__(self) -> str:
        return f'records {self.records} pointers {self.pointers} values {self.values} bound {self.bound}'


# What is told about versions.

@dataclass(frozen=True)
class Pointer:
    """A pointer to the record of a dump that has this number."""
    record: int

    def __str__(self) -> str:
        return f'@{self.record}'


# What a field holds: a number, null, or a record.
Content = Union[int, None, Pointer]


@dataclass(frozen=True)
class Record:
    """A record of a dump. Its contents are the numbers and then the pointers; `Outline.contents` has their names."""
    number: int
    type: str
    contents: Tuple[Content, ...]

    def __str__(self) -> str:
        return ' '.join([f'{self.number} {self.type}:'] + ['null' if it is None else str(it) for it in self.contents])


@dataclass(frozen=True)
class Dump(Reply):
    """The records of a version that its roots lead to; `records[n]` has number n, and 0 is the root record."""
    records: Tuple[Record, ...]

    def __str__(self) -> str:
        return '\n'.join(map(str, self.records))


@dataclass(frozen=True)
class Changed(Reply):
    """The nearest version, on the way to version 0, that changed what the path reads."""
    version: int

    def __str__(self) -> str:
        return f'changed {self.version}'


@dataclass(frozen=True)
class Never(Reply):
    """No version on the way to version 0 changed what the path reads."""

    def __str__(self) -> str:
        return 'never'


# Traps and refusals as errors.

class NotCarriedOut(PersistError):
    """`must` was handed a trap or a refusal."""

    def __init__(self, reply: Reply) -> None:
        super().__init__(str(reply))
        self.reply = reply


def must(reply: Any) -> Any:
    """The reply itself; traps and refusals are raised as `NotCarriedOut`."""
    if isinstance(reply, (Trapped, Refused)):
        raise NotCarriedOut(reply)
    return reply


# Texts.

SEPARATOR = re.compile(r'^%%[ \t\r]*$', re.MULTILINE)
WORD = re.compile(r'[^ \t\r]+')


def read_text(path: str) -> str:
    """A file as text, byte by byte: line ends are kept, and bytes that are no characters come through unchanged."""
    with open(path, 'rb') as file:
        return file.read().decode('utf-8', 'surrogateescape')


def write_text(path: str, text: str) -> None:
    """Writes what `read_text` gives."""
    with open(path, 'wb') as file:
        file.write(text.encode('utf-8', 'surrogateescape'))


def encoded(text: str) -> bytes:
    """A text as bytes; what came from bytes that are no characters becomes them again. Other halves of a character are `WrongText`."""
    try:
        return text.encode('utf-8', 'surrogateescape')
    except UnicodeEncodeError as fault:
        raise WrongText(f'{text[fault.start:fault.start + 1]!r} is half of a character, and no text') from None


def split_input(text: str) -> Tuple[str, List[str]]:
    """The program text of an input, and the lines of its script."""
    found = SEPARATOR.search(text)
    if not found:
        return text, []
    lines = text[found.end() + 1:].split('\n')
    return text[:found.start()], lines[:-1] if lines[-1] == '' else lines


def words_of(line: str) -> List[str]:
    """The words of a script line; none where the line has no reply."""
    # Of all that `split` takes for blanks only the blank itself is printable.
    words = line.split() if line.isprintable() else WORD.findall(line)
    return words if words and words[0][0] != '#' else []


def text_of(reply: Optional[Reply]) -> str:
    """A reply as the program writes it; None, of a line without one, is nothing."""
    if reply is None:
        return ''
    return ''.join(f'| {number}\n' for number in reply.printed) + f'{reply}\n' + ('ok\n' if isinstance(reply, Dump) else '')


def number_in(line: str, begin: str) -> int:
    """The number, not below 0, that stands in a line behind what it begins with."""
    digits = line[len(begin):]
    if digits.isdecimal() and line.isascii() and line.startswith(begin):
        return int(digits)
    raise UnknownReply(line)


def printed_in(line: str) -> int:
    """The number that a line of a reply prints."""
    return -number_in(line, '| -') if line.startswith('| -') else number_in(line, '| ')


# The replies that each command may have, beside a refusal.
REPLIES: Dict[str, Tuple[Any, ...]] = {
    'run': (Version, Trapped), 'query': (Answer, Trapped), 'open': (Opened,), 'call': (Running, Done), 'step': (Running, Done),
    'close': (Version, Trapped), 'drop': (Dropped,), 'budget': (Budget,), 'stats': (Stats,),
}
# The last lines of replies, by their first word: forms, each with the reply that its numbers and words make.
FORMS: Dict[str, List[Tuple[Pattern[str], Any]]] = {}
for _form, _kind in (
        (r'version (\d+)', Version), (r'ok', Answer), (r'trap ([a-z]+) at (\d+)', Trapped), (r'refused ([a-z]+)', Refused),
        (r'run (\d+) running', Running), (r'run (\d+) done', Done), (r'run (\d+)', Opened), (r'dropped (\d+)', Dropped),
        (r'budget (\d+)', Budget), (r'records (\d+) pointers (\d+) values (\d+) bound (\d+)', Stats)):
    FORMS.setdefault(_form.partition(' ')[0], []).append((re.compile(_form, re.ASCII), _kind))


# The last lines that a command may have, by their first word; one that the program does not know is refused.
REFUSED = {'refused': FORMS['refused']}
ENDINGS: Dict[str, Dict[str, List[Tuple[Pattern[str], Any]]]] = {
    _command: {**{_word: [(_form, _kind) for _form, _kind in _forms if _kind in _kinds] for _word, _forms in FORMS.items()}, **REFUSED}
    for _command, _kinds in REPLIES.items()}


def read_reply(command: str, printed: Tuple[int, ...], last: str) -> Reply:
    """The reply to a command with this first word, of which these numbers were printed and this is the last line."""
    # First the two that come most often.
    if command == 'run' and last.startswith('version '):
        return Version(number_in(last, 'version '), printed)
    if command == 'query' and last == 'ok':
        return Answer(printed)
    for form, kind in ENDINGS.get(command, REFUSED).get(last.partition(' ')[0], ()):
        found = form.fullmatch(last)
        if not found:
            continue
        parts: List[Union[int, str]] = [int(part) if part.isdigit() else part for part in found.groups()]
        if kind in (Version, Answer, Trapped):
            return kind(*parts, printed=printed)  # type: ignore[no-any-return]
        if not printed:
            return kind(*parts)  # type: ignore[no-any-return]
    raise UnknownReply(last)


def read_versions(lines: Sequence[str]) -> Versions:
    """The reply to `versions`."""
    if not lines or lines[0] != '0':
        raise UnknownReply('\n'.join(lines[:1]))
    parents: List[Optional[int]] = [None]
    for line in lines[1:]:
        found = re.fullmatch(r'(\d+) from (\d+)', line, re.ASCII)
        if not found or int(found[1]) != len(parents) or int(found[2]) >= len(parents):
            raise UnknownReply(line)
        parents.append(int(found[2]))
    return Versions(tuple(parents))


def is_marked(words: Sequence[str]) -> bool:
    """Whether a command with these words is sent with a mark behind it: a list of versions has no last line of its own."""
    return words[0] == 'versions' and len(words) == 1


def text_for(line: str, words: Sequence[str]) -> str:
    """What is sent for a command."""
    return f'{line}\n{MARK}\n' if words[0] == 'versions' and is_marked(words) else f'{line}\n'


def is_last(words: Sequence[str], line: str) -> bool:
    """Whether a line is the last one of the reply to a command with these words, or of the mark behind it."""
    if words[0] == 'dump':
        return not line[:1].isdigit()
    return line == MARKED if is_marked(words) else not line.startswith('| ')


def take_reply(words: Sequence[str], next_line: Callable[[], str]) -> Reply:
    """The reply to a command with these words, from what gives the lines that are written, one at a time."""
    command = words[0]
    if command == 'versions' and is_marked(words):
        return read_versions(list(iter(next_line, MARKED)))
    last = next_line()
    if command == 'dump':
        return take_dump(last, next_line)
    printed: Tuple[int, ...] = ()
    if last.startswith('| '):
        printed, last = take_printed(last, next_line)
    if command == 'changed' and last != MARKED and not printed:
        return read_answer([last])
    return read_reply(command, printed, last)


def take_printed(line: str, next_line: Callable[[], str]) -> Tuple[Tuple[int, ...], str]:
    """The numbers that were printed from this line on, and the line behind them."""
    printed: List[int] = []
    while line.startswith('| '):
        printed.append(printed_in(line))
        line = next_line()
    return tuple(printed), line


def take_dump(line: str, next_line: Callable[[], str]) -> Reply:
    """The reply to `dump`, of which this is the first line."""
    records: List[str] = []
    while line[:1].isdigit():
        records.append(line)
        line = next_line()
    if line == 'ok':
        return read_dump(records)
    if records:
        raise UnknownReply(line)
    return read_reply('dump', (), line)


def read_content(word: str) -> Content:
    """What a field holds, as a dump tells it."""
    if word == 'null':
        return None
    return Pointer(int(word[1:])) if word.startswith('@') else int(word)


def read_dump(lines: Sequence[str]) -> Union[Dump, Refused]:
    """What `dump` writes."""
    if lines == ['refused version']:
        return Refused('version')
    records: List[Record] = []
    for line in lines:
        found = re.fullmatch(r'(\d+) (\w+):((?: (?:-?\d+|null|@\d+))*)', line, re.ASCII)
        if not found or int(found[1]) != len(records):
            raise UnknownReply(line)
        records.append(Record(len(records), found[2], tuple(map(read_content, found[3].split()))))
    for record in records:
        if any(isinstance(content, Pointer) and content.record >= len(records) for content in record.contents):
            raise UnknownReply(str(record))
    if not records:
        raise UnknownReply('')
    return Dump(tuple(records))


def read_answer(lines: Sequence[str]) -> Union[Changed, Never, Refused]:
    """What `changed` writes."""
    line = '\n'.join(lines)
    if line == 'never':
        return Never()
    if line in ('refused path', 'refused version'):
        return Refused(line.split()[1])
    return Changed(number_in(line, 'changed '))


# What a program declares.

@dataclass(frozen=True)
class Field:
    """A field of a record type: its name, its type (`int` or a record type's name), and how many elements it has as an array."""
    name: str
    type: str
    elements: Optional[int] = None


@dataclass(frozen=True)
class Outline:
    """What a program declares: its roots, the fields of its record types, and the parameters of procedures and queries."""
    roots: Tuple[Field, ...]
    records: Dict[str, Tuple[Field, ...]]
    procedures: Dict[str, Tuple[str, ...]]
    queries: Dict[str, Tuple[str, ...]]

    def fields(self, record: Record) -> Tuple[Field, ...]:
        """The fields of a record of a dump. Record 0 is the root record, whatever a type is called."""
        return self.roots if record.number == 0 else self.records.get(record.type, ())

    def contents(self, record: Record) -> List[Tuple[str, Content]]:
        """What a record of a dump holds, with the names: the numbers first, and arrays as `name(0)`, `name(1)`, .."""
        fields = self.fields(record)
        ordered = [it for it in fields if it.type == 'int'] + [it for it in fields if it.type != 'int']
        names: List[str] = []
        for field in ordered:
            names += [field.name] if field.elements is None else [f'{field.name}({at})' for at in range(field.elements)]
        if len(names) != len(record.contents):
            names = [str(at) for at in range(len(record.contents))]
        return list(zip(names, record.contents))


def read_outline(canonical: str) -> Outline:
    """What a program declares, from its canonical form, in which each record, root and head of a procedure is a line."""
    roots: List[Field] = []
    records: Dict[str, Tuple[Field, ...]] = {}
    heads: Dict[str, Dict[str, Tuple[str, ...]]] = {'proc': {}, 'query': {}}
    for line in canonical.split('\n'):
        record = re.fullmatch(r'record (\w+) \d+ \{ (.*)\}', line)
        root = re.fullmatch(r'root (\w+): (\w+);', line)
        head = re.match(r'(proc|query) (\w+)\((.*)\)(?:: \w+)? \{', line)
        if record:
            fields = re.findall(r'(?:val|ptr) (\w+): (\w+)(?: \* (\d+))?;', record[2])
            records[record[1]] = tuple(Field(name, kind, int(many) if many else None) for name, kind, many in fields)
        elif root:
            roots.append(Field(root[1], root[2]))
        elif head:
            heads[head[1]][head[2]] = tuple(head[3].split(', ')) if head[3] else ()
    return Outline(tuple(roots), records, heads['proc'], heads['query'])


# What was carried out.

class History:
    """What commands and their replies made: the version tree, what made each version, and the lines that make it again."""

    def __init__(self, parents: Sequence[Optional[int]] = (None,)) -> None:
        """Begins with version 0, or with the versions of an image, of which is not known what made them."""
        # All lines that were carried out and may have changed something, in order.
        self.lines: List[str] = []
        self.parents: List[Optional[int]] = list(parents)
        # The calls of the run that made each version, as the script has them.
        self.calls: List[Tuple[str, ...]] = [()] * len(parents)
        # The open runs by number, each with its version and its calls so far.
        self.open_runs: Dict[int, Tuple[int, List[str]]] = {}

    @property
    def newest(self) -> int:
        """The number of the version that was made last."""
        return len(self.parents) - 1

    def label(self, version: int, most: int = 60) -> str:
        """What made a version, in at most so many characters."""
        text = '; '.join(self.calls[version])
        return text if len(text) <= most else text[:most - 2] + '..'

    def note(self, line: str, words: Sequence[str], reply: Optional[Reply]) -> None:
        """Adds a line of these words that was answered by this reply."""
        command = words[0]
        if command not in CHANGES or reply is None or isinstance(reply, Refused):
            return
        self.lines.append(line)
        if command == 'run':
            if isinstance(reply, Version):
                self._publish(reply, int(words[1]), (' '.join(words[2:]),))
        elif isinstance(reply, Opened):
            self.open_runs[reply.run] = (int(words[1]), [' '.join(words[2:])] if words[2:] else [])
        elif command == 'call':
            self.open_runs[int(words[1])][1].append(' '.join(words[2:]))
        elif command in ('close', 'drop'):
            version, calls = self.open_runs.pop(int(words[1]))
            if isinstance(reply, Version):
                self._publish(reply, version, tuple(calls))

    def _publish(self, reply: Version, parent: int, calls: Tuple[str, ...]) -> None:
        if reply.number != len(self.parents) or parent >= reply.number:
            raise UnknownReply(str(reply))
        self.parents.append(parent)
        self.calls.append(calls)


# The process.

def program_path() -> str:
    """The program to run: what PERSIST names, or else the script of the repository in which this file lies, or else the `persist` of the
    PATH. That script proves and builds the program first where it is not built yet, which may take an hour; it says so on standard error."""
    beside = os.path.join(os.path.dirname(os.path.dirname(os.path.dirname(os.path.abspath(__file__)))), 'persist')
    found = os.environ.get('PERSIST') or (beside if os.path.isfile(beside) else shutil.which('persist'))
    if not found:
        raise NoProgram('there is no program `persist`: name its file by PERSIST, or put it into a folder of the PATH')
    return found


def send(process: 'subprocess.Popen[bytes]', number: int) -> None:
    """Sends a signal to a process and those that it started, since the program may run below a script."""
    try:
        os.killpg(process.pid, number)
    except (ProcessLookupError, PermissionError):
        process.send_signal(number)


def wait_for(process: 'subprocess.Popen[bytes]') -> int:
    """Waits for the end of a process, and gives its status; where it does not come the process is killed."""
    try:
        return process.wait(PATIENCE)
    except subprocess.TimeoutExpired:
        send(process, signal.SIGKILL)
        return process.wait()


def written_by(words: Sequence[str], given: bytes, path: str) -> Tuple[int, bytes]:
    """The status of a process of its own, and what it writes for an input."""
    process = subprocess.Popen([path, *words], stdin=subprocess.PIPE, stdout=subprocess.PIPE, start_new_session=True)
    with process:
        try:
            written, _ = process.communicate(given)
        except BaseException:
            send(process, signal.SIGTERM)
            wait_for(process)
            raise
    return process.returncode, written


def answer_to(words: Sequence[str], given: str, path: str) -> str:
    """What a process of its own writes for an input; another status than 0 is `NoAnswer`."""
    status, written = written_by(words, given.encode('utf-8', 'surrogateescape'), path)
    if status != 0:
        raise NoAnswer(words, status)
    return written.decode('latin-1')


def stretches_of(sizes: Sequence[int], most: int) -> Iterator[range]:
    """Parts things of these sizes into stretches, each of at most so much together, or of one thing."""
    begin = together = 0
    for at, size in enumerate(sizes):
        if at > begin and together + size > most:
            yield range(begin, at)
            begin, together = at, 0
        together += size
    if begin < len(sizes):
        yield range(begin, len(sizes))


def descriptors_of(*streams: Any) -> Tuple[int, ...]:
    """The descriptors of those streams that are open."""
    found = []
    for stream in streams:
        with contextlib.suppress(ValueError):
            found.append(stream.fileno())
    return tuple(found)


class Commands:
    """One method a command, over one that sends a line of the script."""

    def command(self, line: str) -> Optional[Reply]:
        """Sends a line of the script, and returns its reply; None for a line that has none, which is not sent."""
        raise NotImplementedError

    def _command(self, *words: object) -> Reply:
        reply = self.command(' '.join(map(str, words)))
        assert reply is not None
        return reply

    def run(self, version: int, procedure: str, *arguments: int) -> Reply:
        """Runs a procedure on a version: `Version`, `Trapped` or `Refused`."""
        return self._command('run', version, procedure, *arguments)

    def query(self, version: int, query: str, *arguments: int) -> Reply:
        """Asks a version: `Answer`, `Trapped` or `Refused`."""
        return self._command('query', version, query, *arguments)

    def open(self, version: int, *call: object) -> Reply:
        """Opens a run on a version, with a procedure and its arguments or without: `Opened` or `Refused`."""
        return self._command('open', version, *call)

    def call(self, run: int, procedure: str, *arguments: int) -> Reply:
        """Adds a call to an open run: `Running`, `Done` or `Refused`."""
        return self._command('call', run, procedure, *arguments)

    def step(self, run: int, charges: int) -> Reply:
        """Grants an open run so many more charges: `Running`, `Done` or `Refused`."""
        return self._command('step', run, charges)

    def close(self, run: int) -> Reply:
        """Carries an open run to its end and publishes it: `Version`, `Trapped` or `Refused`. What sends the commands is ended by `end`."""
        return self._command('close', run)

    def drop(self, run: int) -> Reply:
        """Gives an open run up: `Dropped` or `Refused`."""
        return self._command('drop', run)

    def budget(self, charges: int) -> Reply:
        """Sets the charges that later runs and queries may take: `Budget` or `Refused`."""
        return self._command('budget', charges)

    def versions(self) -> Reply:
        """The version tree: `Versions`."""
        return self._command('versions')

    def stats(self) -> Reply:
        """What all runs made and wrote: `Stats`."""
        return self._command('stats')

    def dump(self, version: int) -> Union[Dump, Refused]:
        """The records of a version that its roots lead to."""
        reply = self._command('dump', version)
        assert isinstance(reply, (Dump, Refused))
        return reply

    def changed(self, version: int, path: str) -> Union[Changed, Never, Refused]:
        """Which version, on the way from this one to version 0, changed what a path such as `first.next.key` reads."""
        reply = self._command('changed', version, path)
        assert isinstance(reply, (Changed, Never, Refused))
        return reply


class Front(NamedTuple):
    """What a process is given first, the word that it is started by, and what it holds then."""
    word: str
    data: bytes
    program: str
    parents: Sequence[Optional[int]] = (None,)
    # Whether a script may follow: an image that is cut off would take it for the rest.
    is_whole: bool = True
    # How many bytes stand behind the image.
    behind: int = 0


def front_of_program(program: str, word: str) -> Front:
    """That of a program's text."""
    if SEPARATOR.search(program):
        raise WrongText('the program has a separator line, which split_input takes out')
    program = program if program.endswith('\n') or not program else program + '\n'
    return Front(word, encoded(f'{program}%%\n'), program)


def front_of_image(given: Union[str, 'os.PathLike[str]', bytes]) -> Front:
    """That of an image, which the program judges."""
    data = given if isinstance(given, bytes) else read_bytes(os.fspath(given))
    try:
        image = Image(data)
    except WrongImage:
        return Front('serve', data, '', is_whole=False)
    return Front('serve', data[:image.length], image.text, image.parents, behind=len(data) - image.length)


class Session(Commands):
    """A program that runs, with what it was given so far. Several threads may send commands; each waits for its own reply.

    The process does not get the signals of a terminal. A command that is interrupted, as by Ctrl-C, leaves its reply unread:
    the session is then cut off until `restart` has carried the history out again.
    """

    def __new__(cls, *_: Any, embedded: bool = False, **__: Any) -> 'Session':
        if embedded and cls is Session:
            from .embedded import EmbeddedSession
            cls = EmbeddedSession
        return super().__new__(cls)

    def __init__(self, program: Optional[str] = None, path: Optional[str] = None, word: str = 'run',
                 image: Union[str, 'os.PathLike[str]', bytes, None] = None, keeps_history: bool = True, embedded: bool = False) -> None:
        """Starts a process on a program text, which ends with a line feed or is given one; `word` may be `line` or `replay`. Or on an image,
        given by the path of its file or as bytes; then the program is the text in it. The history takes a few hundred bytes a command; a session
        that does not keep it, since its user does, cannot be restarted or packed. Where it is `embedded` there is no process: see `embedded`."""
        if (program is None) is (image is None):
            raise TypeError('a session is given either a program or an image')
        self.path = path or program_path()
        self._front = front_of_program(program or '', word) if image is None else front_of_image(image)
        # The program's text, whose lines the traps name.
        self.program = self._front.program
        self._outline: Optional[Outline] = None
        self._keeps_history = keeps_history
        self._lock = threading.RLock()
        self._start()

    def __enter__(self) -> 'Session':
        return self

    def __exit__(self, *_: object) -> None:
        self.end()

    @property
    def newest(self) -> int:
        """The number of the version that was made last."""
        return self.history.newest

    @property
    def is_served(self) -> bool:
        """Whether it began with an image."""
        return self._front.word == 'serve'

    @property
    def pid(self) -> int:
        """The number of the process, which is also that of its group."""
        return self._process.pid

    def descriptors(self) -> Tuple[int, ...]:
        """What leads to the process, as long as it is not ended."""
        return descriptors_of(self._process.stdin, self._process.stdout)

    # Beginning and end.

    def _start(self) -> None:
        self.history = History(self._front.parents)
        self._process = subprocess.Popen(
            [self.path, self._front.word], bufsize=0, stdin=subprocess.PIPE, stdout=subprocess.PIPE, start_new_session=True)
        assert self._process.stdin and self._process.stdout
        self._write, self._read = self._process.stdin.write, self._process.stdout.read
        # What was read: whole lines, the next one last, and the beginning of one more.
        self._lines: List[str] = []
        self._begun = ''
        # How many bytes may still be sent before the program ends with status 5.
        self.room = SERVED_LIMIT if self.is_served else INPUT_LIMIT
        self._status: Optional[int] = None
        # Whether a reply is still unread.
        self._cut_off = True
        try:
            # What is accepted is answered by nothing, so the reply to a line of no form tells that it was accepted.
            self._send(self._front.data)
            if self._front.is_whole:
                self._send(encoded(f'{MARK}\n'))
            else:
                self._close_input()
            first = self._line()
            if first != MARKED:
                raise self._fault(first)
            if self._front.behind:
                raise WrongText(f'{self._front.behind:,} bytes stand behind the image, which split_image takes out')
        except BaseException:
            self.end()
            raise
        self._cut_off = False

    def _fault(self, first: str) -> PersistError:
        if self.is_served:
            return ImageRefused(number_in(first, 'refused image '))
        found = re.fullmatch(r'refused ([a-z-]+) at (\d+)', first, re.ASCII)
        if not found:
            return UnknownReply(first)
        line, lines = int(found[2]), self.program.split('\n')
        return ProgramRefused(found[1], line, lines[line - 1] if 0 < line <= len(lines) else '')

    def end(self) -> int:
        """Ends the process, and gives its status. Where a reply is still unread it is told to end at once, by a signal."""
        if self._status is None:
            if self._cut_off:
                send(self._process, signal.SIGTERM)
            self._status = self._wait()
        return self._status

    def _wait(self) -> int:
        """Closes the input and waits for the end."""
        assert self._process.stdout
        self._close_input()
        try:
            return wait_for(self._process)
        finally:
            self._process.stdout.close()

    def _close_input(self) -> None:
        assert self._process.stdin
        try:
            self._process.stdin.close()
        except BrokenPipeError:
            pass

    def restart(self) -> None:
        """Ends the process, also in the middle of a command, and carries the history out again in a new one.

        What was being carried out is given up. The versions and the open runs are there again, with their numbers; the counts of
        `stats` are those of the history.
        """
        with self._lock:
            before = self._kept_history()
            self._cut_off = True
            self.end()
            try:
                self._start()
                for line in before.lines:
                    self.command(line)
            except BaseException:
                self.history, self._cut_off = before, True
                raise

    # Lines.

    def _send(self, data: bytes) -> None:
        self.room -= len(data)
        try:
            sent = self._write(data)
            while sent < len(data):
                sent += self._write(memoryview(data)[sent:])
        except BrokenPipeError:
            # It has ended; what it wrote before can still be read.
            pass

    def _line(self) -> str:
        while not self._lines:
            data = self._read(CHUNK)
            if not data:
                # Nothing more comes. It is given time to end by itself, so that its own status is told.
                self._status = self._wait()
                raise Ended(self._status)
            self._lines = (self._begun + data.decode('latin-1')).split('\n')
            self._begun = self._lines.pop()
            self._lines.reverse()
        return self._lines.pop()

    def _lost(self) -> PersistError:
        """Why no command can be sent."""
        return CutOff('an earlier command was interrupted') if self._status is None else Ended(self._status)

    def _reply(self, line: str, words: Sequence[str]) -> Reply:
        """Reads the reply to a line that was sent."""
        reply = take_reply(words, self._line)
        if self._keeps_history:
            self.history.note(line, words, reply)
        return reply

    def command(self, line: str) -> Optional[Reply]:
        """Sends a line of the script, and returns its reply; None for a line that has none, which is not sent."""
        if '\n' in line:
            raise WrongText('a command is one line')
        words = words_of(line)
        if not words:
            return None
        with self._lock:
            if self._cut_off or self._status is not None:
                raise self._lost()
            data = encoded(text_for(line, words))
            self._cut_off = True
            self._send(data)
            reply = self._reply(line, words)
            self._cut_off = False
            return reply

    def commands(self, lines: Sequence[str]) -> List[Reply]:
        """Sends lines, each of which has a reply, as many at once as every pipe holds, and returns their replies."""
        words = list(map(words_of, lines))
        with self._lock:
            if self._cut_off or self._status is not None:
                raise self._lost()
            texts = [encoded(text_for(line, its)) for line, its in zip(lines, words)]
            self._cut_off = True
            replies = []
            # All that was sent before is answered and so read: what is sent now has an empty pipe, and the process is never waited for while
            # it waits for its replies to be read.
            for stretch in stretches_of(list(map(len, texts)), select.PIPE_BUF):
                self._send(b''.join(texts[stretch.start:stretch.stop]))
                replies += [self._reply(lines[at], words[at]) for at in stretch]
            self._cut_off = False
            return replies

    # What the history is, and questions about it.

    def _kept_history(self) -> History:
        if not self._keeps_history:
            raise PersistError('this session keeps no history')
        return self.history

    def _given(self) -> bytes:
        with self._lock:
            return self._front.data + encoded(''.join(f'{line}\n' for line in self._kept_history().lines))

    def input(self) -> str:
        """The history as an input: the program, the separator line, and the lines that make the versions and open runs again. Behind an
        image it is that image in the place of the program and the separator line, as `write_text` writes it byte by byte."""
        return self._given().decode('utf-8', 'surrogateescape')

    def packed(self) -> bytes:
        """An image of the history, by a process of its own. Open runs are not in it."""
        word = 'repack' if self.is_served else 'pack'
        status, image = written_by([word], self._given(), self.path)
        if status != 0:
            raise NoAnswer([word], status)
        return image

    def dump(self, version: int) -> Union[Dump, Refused]:
        """The records of a version that its roots lead to. Behind an image the process itself is asked; else one of its own, which is given
        the history so far."""
        if self.is_served:
            return super().dump(version)
        return read_dump(answer_to(['dump', str(version)], self.input(), self.path).splitlines())

    def changed(self, version: int, path: str) -> Union[Changed, Never, Refused]:
        """Which version, on the way from this one to version 0, changed what a path such as `first.next.key` reads. It is asked as `dump`."""
        if self.is_served:
            return super().changed(version, path)
        return read_answer(answer_to(['changed', str(version), path], self.input(), self.path).splitlines())

    def canonical(self) -> str:
        """The program in its canonical form."""
        return answer_to(['check'], self.program, self.path)

    def outline(self) -> Outline:
        """What the program declares. It is asked for once."""
        if self._outline is None:
            self._outline = read_outline(self.canonical())
        return self._outline


def session_on(given: bytes, path: Optional[str] = None) -> Tuple[Session, List[str]]:
    """A session on what an input begins with, a program or an image, and the lines of its script, which were not sent."""
    if is_image(given):
        try:
            image, script = split_image(given)
        except WrongImage:
            # The program tells why.
            image, script = given, []
        return Session(path=path, image=image), script
    program, script = split_input(given.decode('utf-8', 'surrogateescape'))
    return Session(program, path), script
