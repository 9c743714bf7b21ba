"""The built program, and how it is asked. PERSIST names it, where it is not the one built here."""
import functools
import os
import subprocess
import sys
import threading
from typing import Iterable, List, Optional, Sequence, Tuple, Union

from shared.repository import TOP

SECONDS = 120
# A status, or what stands for it where there was none, and what was written.
Answer = Tuple[Union[int, str], bytes]


@functools.lru_cache(maxsize=None)
def program() -> str:
    """The path of the program: the one that PERSIST names, or the one built here, which is built first where a source is newer."""
    if os.environ.get('PERSIST'):
        return os.path.abspath(os.environ['PERSIST'])
    if subprocess.run([f'{TOP}/persist', 'check'], stdin=subprocess.DEVNULL, stdout=subprocess.DEVNULL).returncode != 0:
        sys.exit(1)
    return f'{TOP}/crates/persist/out/persist'


def written(words: Union[str, Sequence[str]], given: bytes, by: Optional[str] = None) -> Answer:
    """The status and what is written for an input, by the program or by this other one. The words stand in a text, or in a list where
    there are blanks in one."""
    words = words.split() if isinstance(words, str) else words
    try:
        run = subprocess.run([by or program(), *words], input=given, stdout=subprocess.PIPE, timeout=SECONDS)
    except subprocess.TimeoutExpired:
        return 'no end', b''
    return run.returncode, run.stdout


class Session:
    """A call of the program whose replies are read as they come, a few commands at a time."""

    def __init__(self, text: bytes, word: str = 'run') -> None:
        self.given, self.replies = bytearray(), [b''][:0]
        self.child = subprocess.Popen([program(), word], stdin=subprocess.PIPE, stdout=subprocess.PIPE)
        assert self.child.stdin and self.child.stdout
        self.input, self.output = self.child.stdin, self.child.stdout
        self.clock = threading.Timer(SECONDS, self.child.kill)
        self.clock.start()
        self.put(text)

    def put(self, text: bytes) -> None:
        self.given += text
        try:
            self.input.write(text)
            self.input.flush()
        except BrokenPipeError:
            pass

    def ask(self, commands: Iterable[str]) -> List[bytes]:
        """The replies to some commands. `stats` stands behind them, so that their end is known."""
        lines = [command.encode('latin-1') for command in commands] + [b'stats']
        self.put(b'\n'.join(lines) + b'\n')
        left = lines.count(b'stats')
        fresh = len(self.replies)
        for reply in self.output:
            self.replies.append(reply)
            left -= reply.startswith(b'records ')
            if left == 0:
                break
        return self.replies[fresh:]

    def end(self) -> Tuple[int, bytes]:
        """The status and all that was written."""
        try:
            self.input.close()
        except BrokenPipeError:
            pass
        with self.output:
            rest = self.output.read()
        status = self.child.wait()
        self.clock.cancel()
        return status, b''.join(self.replies) + rest
