"""Microseconds of a command of the client, in this process and by a pipe: python3 tests/embedded_times.py, from tools. Least and median of 40 takes.

PERSIST names the program, and PERSIST_LIBRARY where the library is.
"""
import sys
import time
from typing import Callable

sys.path.insert(0, '.')
from persist.client import Session, must
from persist.embedded import library

PROGRAM = '''record Letter 2 { val code: int; ptr next: Letter; }
root last: Letter;
proc key(code: int) { var n: Letter; n = new Letter; n.code = code; last = n; }
proc set(code: int) { last.code = code; }
query code() { print last.code; }
'''


def measure(what: str, call: Callable[[], object], calls: int = 1000) -> None:
    takes = []
    for _ in range(40):
        begun = time.perf_counter()
        for _ in range(calls):
            call()
        takes.append((time.perf_counter() - begun) / calls * 1e6)
    takes.sort()
    print(f'{what:44} least {takes[0]:.2f}  median {takes[len(takes) // 2]:.2f}')


def both(where: str, session: Session) -> None:
    must(session.run(0, 'key', 7))
    measure(f'{where}: query', lambda: session.query(1, 'code'))
    measure(f'{where}: refused', lambda: session.query(999999, 'code'))
    measure(f'{where}: run', lambda: session.run(session.newest, 'set', 5))


live = library().Session()
live.open(PROGRAM.encode())
live.say(b'run 0 key 7')
measure('module: query, reply in bytes', lambda: live.say(b'query 1 code'))
measure('module: query, typed', lambda: live.do(b'query 1 code'))
measure('module: refused, reply in bytes', lambda: live.say(b'query 999999 code'))
newest = [1]


def run() -> None:
    newest[0] = live.do(b'run %d set 5' % newest[0])[2]


measure('module: run, typed', run)
with Session(PROGRAM, embedded=True) as embedded, Session(PROGRAM) as piped:
    both('client in this process', embedded)
    both('client by a pipe', piped)
