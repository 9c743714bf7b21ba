"""The cases of crates/pst_cli_cases/data: whole inputs with what has to be written for them, as its file `programs` says."""
import functools
import re
import sys
from typing import Dict, Iterable, Iterator, List, Tuple

from shared.pages import PAGES, blocks_of, examples
from shared.repository import TOP, read

DATA = f'{TOP}/crates/pst_cli_cases/data'
NUMBERS = {'status', 'reads', 'writes', 'failing reads', 'failing writes', 'room', 'store'}
HEADS = {'words', 'each fails'} | NUMBERS
PARTS = {'head', 'input', 'output', 'script', 'cuts'}
ESCAPES = {'t': '\t', 'r': '\r', 'n': '\n', 'e': ''}


def plain(line: str, count: int = 0) -> str:
    """A line without its escapes, where a count stands for itself; a backslash at its end takes the line's own feed away."""
    line = re.sub(r'(?<!\\)((?:\\\\)*)\\\n$', r'\1', line)
    return re.sub(r'\\(x[0-9A-F]{2}|.)', lambda it: unescaped(it[1], count), line)


def unescaped(escape: str, count: int) -> str:
    if len(escape) == 3:
        return chr(int(escape[1:], 16))
    return str(count) if escape == '#' else ESCAPES.get(escape, escape)


def text_of(lines: Iterable[str], programs: Dict[str, str]) -> str:
    """What the lines of a text stand for."""
    text = ''
    for line in lines:
        name, _, rest = line.rstrip('\n').partition(' ')
        if name == '\\use':
            if rest not in programs:
                sys.exit(f'no program of the file `programs` is called {rest}')
            text += programs[rest]
        elif name == '\\each':
            first, last, pattern = rest.split(' ', 2)
            text += ''.join(plain(pattern + '\n', count) for count in range(int(first), int(last) + 1))
        elif name == '\\pad':
            text += '\n' * (int(rest) - len(text))
        elif name != '\\first':
            text += plain(line)
    return text


def bodies_of(file: str) -> Iterator[Tuple[str, int, List[str]]]:
    """The names of what stands in a file of cases, each with the number of its first line, and its lines."""
    name, first, body = None, 0, [''][:0]
    with open(f'{DATA}/{file}', encoding='latin-1', newline='') as text:
        for number, line in enumerate(text, 1):
            if line.startswith('== '):
                if name is not None:
                    yield name, first, body
                name, first, body = line[3:].rstrip('\n'), number, []
            elif name is not None:
                body.append(line)
    if name is not None:
        yield name, first, body


class Case:
    """A whole input with what has to be written for it. `at` is where it stands, and `wrong` what is wrong with how it is written."""

    def __init__(self, file: str, name: str, at: int, body: List[str], programs: Dict[str, str]) -> None:
        self.file, self.name, self.at = file, name, f'{file}:{at}'
        self.parts: Dict[str, List[str]] = {'head': []}
        part = self.parts['head']
        for line in body:
            if line.startswith('-- '):
                part = self.parts[line[3:].rstrip('\n')] = []
            else:
                part.append(line)
        self.programs = programs
        self.read_head()

    @functools.cached_property
    def given(self) -> bytes:
        """The input."""
        script = [line for line in self.parts.get('script', []) if not line.startswith(('=> ', '-> '))]
        return self.bytes_of(self.parts.get('input', []) + script)

    @functools.cached_property
    def wanted(self) -> bytes:
        """What has to be written."""
        replies = [line[3:] for line in self.parts.get('script', []) if line.startswith('=> ')]
        return self.bytes_of(self.parts.get('output', []) + replies)

    def bytes_of(self, lines: Iterable[str]) -> bytes:
        return text_of(lines, self.programs).encode('latin-1')

    def read_head(self) -> None:
        lines = [line.rstrip('\n') for line in self.parts['head'] if line.strip() and not line.startswith('#')]
        head = {name: rest.strip() for name, _, rest in (line.partition(':') for line in lines)}
        self.wrong = [f'the head has a line `{name}`, which is none' for name in head if name not in HEADS]
        self.wrong += [f'`{name}` stands before no number' for name in NUMBERS & set(head) if not re.match('[0-9]', head[name])]
        self.wrong += [f'there is a part `{part}`, which is none' for part in self.parts if part not in PARTS]
        if 'words' not in head:
            self.wrong.append('no words are given to the program')
        self.words = [[plain(word) for word in words.split(' ') if word] for words in head.get('words', '').split('|')]
        status = re.match('[0-9]+', head.get('status', '0'))
        self.status = int(status[0]) if status else 0
        self.on_devices = bool({'failing reads', 'failing writes', 'room'} & set(head))

    def cuts(self) -> Iterator[Tuple[int, int, bytes]]:
        """For how many of the first bytes on something is told, with the status and what is written."""
        for line in self.parts.get('cuts', []):
            first, status, *rest = line.split(' ', 2)
            yield int(first), int(status), self.bytes_of(rest)

    def runs(self) -> Iterator[Tuple[bytes, int, bytes]]:
        """What the program is given, with the status and what it has to write: the whole input, and as many of its first bytes as
        the cuts tell of."""
        yield self.given, self.status, self.wanted
        cuts = list(self.cuts())
        for length in range(cuts[0][0], len(self.given) + 1) if cuts else []:
            _, status, wanted = [cut for cut in cuts if cut[0] <= length][-1]
            yield self.given[:length], status, wanted


def case_files() -> List[str]:
    """The files of cases in the order in which the program of the cases reads them."""
    return re.findall(r'^    "(\w+)",$', read('crates/pst_cli_cases/src/main.rt'), re.M)


@functools.lru_cache(maxsize=None)
def all_cases() -> List[Case]:
    """The cases of all files."""
    programs = {name: text_of(body, {}) for name, _, body in bodies_of('programs')}
    return [Case(file, name, at, body, programs) for file in case_files() for name, at, body in bodies_of(file)]


def worked() -> Iterator[Tuple[str, bytes]]:
    """Inputs with their names: those of the cases, of examples/ and of the documents."""
    for case in all_cases():
        if ['run'] in case.words and not case.wrong:
            yield case.at, case.given
    for name, text in examples():
        yield name, text.encode()
    for page in PAGES:
        for number, body in enumerate((body for kind, body in blocks_of(page) if kind == 'run'), 1):
            yield f'{page}, input {number}', body.encode()
