"""The program where growths of memory are refused, and reads and writes fail: by a library that is preloaded, built from refusing.c."""
import functools
import os
import shutil
import subprocess
import sys
import tempfile
from typing import Any, Dict, List, Sequence, Tuple

from shared.repository import TOP


@functools.lru_cache(maxsize=None)
def refuser() -> 'tempfile.TemporaryDirectory[str]':
    """A folder with the library. It is there as long as the script runs."""
    folder = tempfile.TemporaryDirectory(prefix='persist-')
    if subprocess.run(['gcc', '-O2', '-Wall', '-Wextra', '-shared', '-fPIC', '-o', f'{folder.name}/refusing.so',
                       f'{TOP}/.ci/shared/refusing.c']).returncode != 0:
        sys.exit(1)
    return folder


def need_gcc() -> None:
    """Ends the script where there is no C compiler."""
    if shutil.which('gcc') is None:
        print(f'{os.path.basename(sys.argv[0])}: skipped, there is no gcc')
        sys.exit(0)


def preloaded(command: Sequence[str], settings: Dict[str, object], **how: Any) -> Tuple[int, bytes, List[int]]:
    """Runs a program with the library, told by these settings. Gives its status, what it writes, and how many growths, reads and writes it
    asked for, or -1 for each where it did not tell."""
    end, told = os.pipe()
    env = {**os.environ, 'LD_PRELOAD': f'{refuser().name}/refusing.so', 'COUNTED': str(told), **{name: str(it) for name, it in settings.items()}}
    how.setdefault('stderr', subprocess.PIPE)
    run = subprocess.run(command, stdout=subprocess.PIPE, env=env, pass_fds=[told], **how)
    os.close(told)
    with os.fdopen(end) as counted:
        return run.returncode, run.stdout, [int(count) for count in counted.read().split() or 3 * ['-1']]


def refusing(command: Sequence[str], number: int, on: bool = False, **how: Any) -> Tuple[int, bytes, int]:
    """Runs a program with this growth refused, and all later ones where that is asked for; with number 0 none is. Gives its status,
    what it writes, and how many growths it asked for."""
    status, text, (growths, _, _) = preloaded(command, {'REFUSED': number, **({'REFUSED_ON': 1} if on else {})}, **how)
    return status, text, growths
