"""What the tests share: a program, scripts for it, and programs that behave badly."""
import contextlib
import os
import random
import stat
import subprocess
import sys
import tempfile
import time
from typing import Iterator, List

from persist.client import program_path

TOOLS = os.path.dirname(os.path.dirname(os.path.abspath(__file__)))
TOP = os.path.dirname(TOOLS)

LIST = '''record Node 2 { val key: int; ptr next: Node; }
root first: Node;
proc add(key: int) {
  var n: Node;
  n = new Node;
  n.key = key;
  n.next = first;
  first = n;
}
query sum() {
  var n: Node;
  var s: int;
  n = first;
  while n != null {
    s = s + n.key;
    n = n.next;
  }
  print s;
}
query top() {
  print 1;
  print first.key;
}
query flood(n: int) {
  while n > 0 {
    print n;
    n = n - 1;
  }
}
query spin() {
  while 0 == 0 {
  }
}
'''
SCRIPT = '''%%
run 0 add 1
run 1 add 2
open 1
call 3 add 7
call 3 add 8
run 2 add 4
run 9 add 4
query 0 top
close 3
run 1 add 5
'''
# The version tree of this script.
TREE = '''0
1  add 1
+- 4  add 7; add 8
+- 5  add 5
|
2  add 2
3  add 4
'''


def written(word: str, given: str) -> bytes:
    """What the program writes for a whole input."""
    return subprocess.run([program_path(), word], input=given.encode(), stdout=subprocess.PIPE, check=True).stdout


def alive(of: int, group: bool = False) -> List[int]:
    """The processes that a process started, or those of a group, without those that have ended and wait to be asked for."""
    found = []
    for pid in filter(str.isdigit, os.listdir('/proc')):
        with contextlib.suppress(OSError), open(f'/proc/{pid}/stat') as file:
            state, parent, leader = file.read().rpartition(')')[2].split()[:3]
            if state != 'Z' and of == int(leader if group else parent):
                found.append(int(pid))
    return found


def all_ended(group: int, seconds: float = 10) -> bool:
    """Whether all processes of a group end in this time."""
    until = time.monotonic() + seconds
    while alive(group, group=True):
        if time.monotonic() > until:
            return False
        time.sleep(0.05)
    return True


@contextlib.contextmanager
def a_program(text: str) -> Iterator[str]:
    """The path of a program in Python, which is there as long as it is needed."""
    with tempfile.TemporaryDirectory() as folder:
        path = os.path.join(folder, 'program')
        with open(path, 'w') as file:
            file.write(f'#!{sys.executable}\nimport os, sys, time\n{text}\n')
        os.chmod(path, os.stat(path).st_mode | stat.S_IXUSR)
        yield path


def made_up_script(commands: int, seed: int) -> List[str]:
    """A script for the list, of all forms, with lines that are refused and lines without a reply."""
    draw = random.Random(seed)
    versions, runs, opened, script = 1, 1, [], []
    for _ in range(commands):
        version = max(0, versions - draw.randrange(1, 40)) if draw.random() < 0.8 else draw.randrange(versions)
        kind = draw.random()
        if kind < 0.35:
            script.append(f'run {version} add {draw.randrange(-9, 99)}')
            versions, runs = versions + 1, runs + 1
        elif kind < 0.65:
            script.append(f'query {version} {draw.choice(["sum", "top", "flood 3"])}')
        elif kind < 0.72 and len(opened) < 60:
            script.append(f'open {version}' + draw.choice(['', f' add {draw.randrange(9)}']))
            opened.append(runs)
            runs += 1
        elif kind < 0.87 and opened:
            run = draw.choice(opened)
            script.append(draw.choice([f'step {run} {draw.randrange(1, 9)}', f'call {run} add {draw.randrange(9)}']))
        elif kind < 0.93 and opened:
            run = opened.pop(draw.randrange(len(opened)))
            closes = draw.random() < 0.7
            script.append(f'{"close" if closes else "drop"} {run}')
            versions += closes
        else:
            script.append(draw.choice([
                'stats', 'budget 400000', '', ' \t# nothing', 'jump', 'run 0 sum', 'run 0 add 1 2', f'run {versions + 5} add 1',
                'step 0 1', 'step 1 0', '  query\t0  top \r', 'run 0 add -0', 'versions now']))
    return script
