"""Sessions in Python's own process, over libpersist: `Session(program, embedded=True)`, in the place of a process of the program.

    ./persist library PREFIX
    PERSIST_LIBRARY=PREFIX python3 ..

The replies are those of a process, a few microseconds sooner. Where Python's process ends, so do its sessions; `restart` makes one anew from its
history. Tested (tools/tests), not proved, as the client is: what is proved is the library.
"""

import importlib.util
import os
import re
from typing import Any, Callable, Dict, List, Optional, Sequence, Tuple, Union

from . import client
from .client import Answer, Budget, Changed, Done, Dropped, Dump, Never, Opened, Refused, Reply, Running, Session, Trapped, Version
from .errors import NoProgram, WrongText
from .image import Image

__all__ = ['EmbeddedSession', 'library']

# In the order of their numbers in persist.h.
TRAPS = ('null', 'indegree', 'index', 'overflow', 'divide', 'budget', 'depth', 'output')
REFUSALS = ('line', 'number', 'name', 'arguments', 'version', 'run', 'runs', 'open', 'calls', 'old')
MAKERS: Dict[int, Callable[[int, int, Tuple[int, ...]], Reply]] = {
    0: lambda detail, number, printed: Version(number, printed),
    1: lambda detail, number, printed: Answer(printed),
    2: lambda detail, number, printed: Trapped(TRAPS[detail], number, printed),
    3: lambda detail, number, printed: Opened(number),
    4: lambda detail, number, printed: Running(number),
    5: lambda detail, number, printed: Done(number),
    6: lambda detail, number, printed: Dropped(number),
    7: lambda detail, number, printed: Budget(number),
    11: lambda detail, number, printed: Refused(REFUSALS[detail]),
}
# The lines that ask about versions behind an image.
NAME = (r'(?!(?:record|val|ptr|root|proc|query|var|new|call|print|if|else|while|return|null|and|or|not|int)(?!\w))'
        r'[A-Za-z_][A-Za-z0-9_]{0,31}')
QUESTION = re.compile(rf'(?:dump (?:0|[1-9]\d*)|changed (?:0|[1-9]\d*) {NAME}(?:\.{NAME})*)', re.ASCII)
_found: List[Any] = []


def library() -> Any:
    """The module `_persist`, which `./persist library PREFIX` builds; PERSIST_LIBRARY names the prefix. Else /usr/local is looked in."""
    if not _found:
        path = os.path.join(os.environ.get('PERSIST_LIBRARY') or '/usr/local', 'lib', 'persist', '_persist.so')
        spec = importlib.util.spec_from_file_location('_persist', path)
        if spec is None or spec.loader is None or not os.path.exists(path):
            raise NoProgram(f'there is no library at {path}: PERSIST_LIBRARY names the prefix that it was built for')
        module = importlib.util.module_from_spec(spec)
        spec.loader.exec_module(module)
        _found.append(module)
    return _found[0]


class EmbeddedSession(Session):
    """A session in this process, for the thread that made it. It has no descriptors, and no limit of what it is given."""

    # Beginning and end.

    def _start(self) -> None:
        if self._front.word not in ('run', 'serve'):
            raise WrongText(f'the library answers as run does, and not as {self._front.word}')
        self.history = client.History(self._front.parents)
        self.room = client.SERVED_LIMIT
        self._status: Optional[int] = None
        self._cut_off = False
        self._live = library().Session()
        try:
            self._begin()
        except library().Refused as refused:
            self._live.close()
            raise self._fault(str(refused).rstrip('\n')) from None

    def _begin(self) -> None:
        if self.is_served:
            self._live.resume(self._front.data)
            if self._front.behind:
                raise WrongText(f'{self._front.behind:,} bytes stand behind the image, which split_image takes out')
        else:
            self._live.open(client.encoded(self.program))

    @property
    def pid(self) -> int:
        """The number of this process."""
        return os.getpid()

    def descriptors(self) -> Tuple[int, ...]:
        """None."""
        return ()

    def end(self) -> int:
        """Lets the session go."""
        self._live.close()
        self._status = 0
        return 0

    # Lines.

    def command(self, line: str) -> Optional[Reply]:
        """Carries a line of the script out, and returns its reply; None for a line that has none."""
        if '\n' in line:
            raise WrongText('a command is one line')
        return self.commands([line])[0] if client.words_of(line) else None

    def commands(self, lines: Sequence[str]) -> List[Reply]:
        """Carries some lines out, each of which has a reply, and returns their replies."""
        with self._lock:
            if self._status is not None:
                raise self._lost()
            return [self._answered(line, client.words_of(line)) for line in lines]

    def _answered(self, line: str, words: List[str]) -> Reply:
        reply = self._answer(line, words)
        if self._keeps_history:
            self.history.note(line, words, reply)
        return reply

    def _answer(self, line: str, words: List[str]) -> Reply:
        if self.is_served and words[0] in ('dump', 'changed') and QUESTION.fullmatch(' '.join(words)) and int(words[1]) < 1 << 32:
            return self.dump(int(words[1])) if words[0] == 'dump' else self.changed(int(words[1]), words[2])
        kind, detail, number, printed, length = self._live.do(client.encoded(line))
        if kind in MAKERS:
            return MAKERS[kind](detail, number, printed)
        text: str = self._live.made(length).decode('ascii')
        rest = iter([*text.splitlines(), client.MARKED])
        return client.take_reply(words, lambda: next(rest))

    # Questions.

    def packed(self) -> bytes:
        """An image of the versions. Open runs are not in it."""
        with self._lock:
            image: bytes = self._live.image()
            return image

    def dump(self, version: int) -> Union[Dump, Refused]:
        """The records of a version that its roots lead to."""
        with self._lock:
            text = self._live.dump(version).decode('ascii')
        return client.read_dump(text.splitlines())

    def changed(self, version: int, path: str) -> Union[Changed, Never, Refused]:
        """Which version, on the way from this one to version 0, changed what a path such as `first.next.key` reads."""
        with self._lock:
            text = self._live.changed(version, client.encoded(path)).decode('ascii')
        return client.read_answer(text.splitlines())

    def canonical(self) -> str:
        """The program in its canonical form."""
        text: str = Image(self.packed()).text
        return text
