"""What an input costs the program: seconds of the processor, and memory."""
import os
import resource
import subprocess
import sys
import tempfile
from typing import IO, Iterable, Iterator, Optional, Tuple, Union

from shared.program import program

MIB = 1 << 20
# A program that is started by another one is told the memory of that one too, as far as this was more. `time` takes little itself.
TIME = '/usr/bin/time'
Pieces = Iterable[Union[str, bytes]]


def need_time() -> None:
    """Ends the script where there is no `time`."""
    if not os.access(TIME, os.X_OK):
        print(f'{os.path.basename(sys.argv[0])}: skipped, there is no {TIME}')
        sys.exit(0)


def pieces_of(file: IO[bytes], size: int = MIB) -> Iterator[bytes]:
    file.seek(0)
    return iter(lambda: file.read(size), b'')


def put_pieces(file: IO[bytes], pieces: Pieces) -> None:
    for piece in pieces:
        file.write(piece if isinstance(piece, bytes) else piece.encode())


def measured(words: str, given: IO[bytes], taken: IO[bytes], limit: int = 0, by: Optional[str] = None, stack: int = 8) -> Tuple[int, float, float]:
    """Runs the program on a stack of so many MiB; gives its status, seconds of the processor, and MiB of memory, of which it may take no
    more than the limit where that is not 0."""
    given.seek(0)
    with tempfile.NamedTemporaryFile('r') as used:
        room = f'ulimit -v {limit * 1024}; ' if limit else ''
        command = f'ulimit -s {stack * 1024}; {room}exec {TIME} -q -o {used.name} -f %M "$0" {words}'
        before = resource.getrusage(resource.RUSAGE_CHILDREN)
        status = subprocess.run(['sh', '-c', command, by or program()], stdin=given, stdout=taken).returncode
        after = resource.getrusage(resource.RUSAGE_CHILDREN)
        most = used.read().split()[-1]
    return status, after.ru_utime - before.ru_utime + after.ru_stime - before.ru_stime, int(most) / 1024
