"""Builds the program without its proof, once, and keeps it, so that checks can ask it as often as they want.

`rt try` compiles the whole program, gives it one input, and keeps nothing. Before it links, it hands `clang` the program as one module. So it is
run here from a folder that is a copy of the kit, made of links, in which `clang` sets this module aside and ends; then the kit's own
`clang` and linker make the program of it. What is built has the run-time checks of `rt try` in it, takes some two to four times as long
as the proved program, and is proved by nothing.
"""
import os
import shutil
import signal
import subprocess
import sys
import tempfile
import time
from types import FrameType
from typing import Iterator, Optional

from shared.repository import TOP

PROGRAM = f'{TOP}/out/unproved'
TARGET = 'x86_64-unknown-linux-gnu'
# With this status a script ends that could not build it.
NOT_BUILT = 125
# The first module that `rt try` compiles is a small one of its own.
CLANG = '''#!/usr/bin/env bash
for word in "$@"; do
    if [[ $word = *module.bc ]] && [ "$(stat -c %s "$word")" -gt 100000 ]; then
        cp "$word" '{aside}'
        exit 1
    fi
done
exec '{clang}' "$@"
'''


class Signalled(BaseException):
    """A signal came."""

    def __init__(self, number: int) -> None:
        self.number = number


def end_by(number: int, _frame: Optional[FrameType]) -> None:
    """What a signal does during a build."""
    raise Signalled(number)


def tell(what: str) -> None:
    """Says on standard error how far the build is."""
    print(what, file=sys.stderr, flush=True)


def sources() -> Iterator[str]:
    """The files that the program is built from."""
    yield f'{TOP}/crates.txt'
    for folder, below, files in os.walk(f'{TOP}/crates'):
        below[:] = [name for name in below if name != 'out']
        yield from (f'{folder}/{file}' for file in files if file.endswith(('.rt', '.antt')))


def is_stale() -> bool:
    """Whether the program is not there, or older than a source."""
    return not os.path.exists(PROGRAM) or any(os.path.getmtime(source) > os.path.getmtime(PROGRAM) for source in sources())


def kit() -> str:
    """The folder of the toolchain."""
    found = shutil.which('rt')
    if found is None:
        tell('there is no `rt`, the toolchain of Rattle')
        sys.exit(NOT_BUILT)
    return os.path.dirname(os.path.dirname(os.path.realpath(found)))


def linked(kit: str, folder: str, aside: str) -> str:
    """A copy of the kit in a folder, made of links, whose `clang` sets the program's module aside. Gives its `rt`."""
    os.makedirs(f'{folder}/bin')
    for name in os.listdir(kit):
        if name not in ('bin', 'toolchain'):
            os.symlink(f'{kit}/{name}', f'{folder}/{name}')
    # These find the kit by the folder in which they stand.
    for name in os.listdir(f'{kit}/bin'):
        if name in ('rt', 'rtlib.py'):
            shutil.copy(f'{kit}/bin/{name}', f'{folder}/bin/{name}')
        else:
            os.symlink(f'{kit}/bin/{name}', f'{folder}/bin/{name}')
    shutil.copytree(f'{kit}/toolchain', f'{folder}/toolchain', copy_function=os.symlink)
    os.remove(f'{folder}/toolchain/bin/clang')
    with open(f'{folder}/toolchain/bin/clang', 'w', encoding='utf-8') as clang:
        clang.write(CLANG.format(aside=aside, clang=f'{kit}/toolchain/bin/clang'))
    os.chmod(clang.name, 0o755)
    return f'{folder}/bin/rt'


def compiled(kit: str, module: str, to: str) -> None:
    """Compiles and links a module into a program."""
    tools = f'{kit}/toolchain'
    subprocess.run([f'{tools}/bin/clang', f'--target={TARGET}', f'--sysroot={tools}', '-march=x86-64', '-ffunction-sections', '-fdata-sections',
                    '--no-default-config', '-no-canonical-prefixes', '-fPIE', '-O2', '-c', '-x', 'ir', module, '-o', f'{module}.o'], check=True)
    subprocess.run([f'{kit}/bin/rattle-link', '--target', TARGET, '--toolchain', tools, '-o', to, f'{module}.o',
                    f'{kit}/c/libos_c.a', f'{kit}/c/liblibc_c.a'], stderr=subprocess.DEVNULL, check=True)


def module_of(rt: str, module: str) -> None:
    """Lets `rt` make the program's module. Where a signal ends this meanwhile, `rt` ends what it started first."""
    words = [sys.executable, rt, 'try', '--', 'check']
    with subprocess.Popen(words, cwd=f'{TOP}/crates/persist', stdin=subprocess.DEVNULL, stdout=subprocess.PIPE, stderr=subprocess.STDOUT) as run:
        try:
            said, _ = run.communicate()
        except BaseException:
            run.terminate()
            raise
    if not os.path.exists(module):
        tell(f'{said.decode(errors="replace")}\nthe program could not be compiled')
        sys.exit(NOT_BUILT)


def make() -> None:
    """Makes the program, and puts it in its place."""
    began, new = time.time(), f'{PROGRAM}.{os.getpid()}'
    with tempfile.TemporaryDirectory(prefix='persist-') as folder:
        module = f'{folder}/module.bc'
        module_of(linked(kit(), f'{folder}/kit', module), module)
        os.makedirs(os.path.dirname(PROGRAM), exist_ok=True)
        compiled(kit(), module, f'{folder}/program')
        shutil.copy(f'{folder}/program', new)
    # What changes a source meanwhile makes the program older than it.
    os.utime(new, (began, began))
    os.replace(new, PROGRAM)
    tell(f'it is built ({time.time() - began:.0f} s)')


def build() -> None:
    """Builds the program where it is not there or a source is newer. Where that fails it says why, and ends the script with status 125,
    which is none of the program's. A signal ends what was started, and then the script."""
    if not is_stale():
        return
    tell('the program is built once without its proof, in out/unproved: a minute or two on an idle machine, more on a busy one')
    heeded = [it for it in (signal.SIGHUP, signal.SIGINT, signal.SIGTERM) if signal.getsignal(it) is not signal.SIG_IGN]
    before = {it: signal.signal(it, end_by) for it in heeded}
    try:
        make()
    except Signalled as signalled:
        signal.signal(signalled.number, signal.SIG_DFL)
        os.kill(os.getpid(), signalled.number)
    for it, handler in before.items():
        signal.signal(it, handler)
