"""Measures `serve` by the client: python3 tools/tests/serve_times.py [VERSIONS [MOST]]

Behind an image of so many versions of a cell, in a chain: when the first reply comes, beside `repack` and `resume` with an empty script on the
same bytes, by turns; and runs a second, each sent when the one before was answered, beside the same behind a program. Then an image of
the most versions is opened, gone on from, and packed again: seconds, and the most memory. PERSIST names the program.
"""
import os
import subprocess
import sys
import tempfile
import time

sys.path.insert(0, os.path.dirname(os.path.dirname(os.path.abspath(__file__))))
from persist.client import Session, program_path  # noqa: E402

CELL = '''record C 1 { val n: int; }
root c: C;
proc make() {
  var x: C;
  x = new C;
  c = x;
}
proc set(n: int) {
  c.n = n;
}
query get() {
  print c.n;
}
'''
SECONDS, TURNS, MORE = 3, 5, 1000


def written(word, given, result):
    """Has the program write what it makes of a file into another one; gives its seconds by the clock, those of the processor, and MiB."""
    begin = time.monotonic()
    child = subprocess.Popen([program_path(), word], stdin=given, stdout=result)
    _, status, used = os.wait4(child.pid, 0)
    child.returncode = os.WEXITSTATUS(status) if os.WIFEXITED(status) else -os.WTERMSIG(status)
    assert child.returncode == 0, f'{word} ends with {child.returncode}'
    return time.monotonic() - begin, used.ru_utime + used.ru_stime, used.ru_maxrss / 1024


def put_image(versions, result):
    """Writes an image of so many versions."""
    with tempfile.TemporaryFile() as given:
        given.write(f'{CELL}%%\nrun 0 make\n'.encode())
        given.writelines(b'run %d set %d\n' % (k, k) for k in range(1, versions))
        given.seek(0)
        written('pack', given, result)
    result.flush()


def most_of(pid):
    """The most MiB that a process has had."""
    with open(f'/proc/{pid}/status') as file:
        return next(int(line.split()[1]) / 1024 for line in file if line.startswith('VmHWM'))


def opened(path):
    """A session on an image, which has had its first reply, and how long that took."""
    begin = time.monotonic()
    session = Session(image=path)
    return session, time.monotonic() - begin


def raw_seconds(path):
    """Seconds to the first reply of the program alone, without the client."""
    begin = time.monotonic()
    child = subprocess.Popen([program_path(), 'serve'], stdin=subprocess.PIPE, stdout=subprocess.PIPE)
    with child, open(path, 'rb') as file:
        while child.stdin.write(file.read(1 << 20)):
            pass
        child.stdin.write(b'.\n')
        child.stdin.flush()
        assert child.stdout.readline() == b'refused line\n'
        seconds = time.monotonic() - begin
        child.stdin.close()
    return seconds


def runs_a_second(session):
    """How many runs a second are answered one by one, each on the newest version."""
    count, at, begin = 0, session.newest, time.monotonic()
    while time.monotonic() - begin < SECONDS:
        for _ in range(100):
            at = session.run(at, 'set', count).number
        count += 100
    return count / (time.monotonic() - begin)


def first_replies(path):
    """Prints when the first reply comes; the least of some turns."""
    rows = {'`repack`, empty script': [], '`resume`, empty script': [], '`serve`, by itself': [], '`serve`, by the client': []}
    for _ in range(TURNS):
        for word in ('repack', 'resume'):
            with open(path, 'rb') as given, open(os.devnull, 'wb') as result:
                rows[f'`{word}`, empty script'].append(written(word, given, result)[0])
        rows['`serve`, by itself'].append(raw_seconds(path))
        session, seconds = opened(path)
        rows['`serve`, by the client'].append(seconds)
        session.end()
    whole = min(rows['`resume`, empty script'])
    print(f'| {os.path.getsize(path):,} bytes | seconds | to `resume` (wanted: at most 5) |\n|---|---|---|')
    for name, seconds in rows.items():
        print(f'| {name} | {min(seconds):.3f} | {min(seconds) / whole:.2f} |', flush=True)


def rates(path, versions):
    """Prints runs a second, behind a program and behind an image, by turns."""
    best = {}
    for _ in range(2):
        with Session(CELL) as session:
            session.run(0, 'make')
            best['behind a program'] = max(runs_a_second(session), best.get('behind a program', 0))
        session, _ = opened(path)
        with session:
            name = f'behind an image of {versions:,} versions (wanted: at least 20,000)'
            best[name] = max(runs_a_second(session), best.get(name, 0))
    print('\n| runs by the client, one by one | a second |\n|---|---|')
    for name, rate in best.items():
        print(f'| {name} | {rate:,.0f} |', flush=True)


def great(most, folder):
    """Prints what an image of the most versions takes to be opened, gone on from, and packed again."""
    path, again = os.path.join(folder, 'great.image'), os.path.join(folder, 'again.image')
    with open(path, 'wb') as result:
        put_image(most, result)
    session, seconds = opened(path)
    with session:
        begin = time.monotonic()
        for version in range(most, most + MORE):
            assert session.run(version, 'set', version).number == version + 1
        went, memory = time.monotonic() - begin, most_of(session.pid)
        assert session.query(most, 'get').printed == (most - 1,)
        with open(path, 'ab') as file:
            file.write(''.join(f'{line}\n' for line in session.history.lines).encode())
    with open(path, 'rb') as given, open(again, 'wb') as result:
        packed = written('repack', given, result)
    print(f'\n| an image of {most:,} versions | seconds | MiB |\n|---|---|---|')
    print(f'| opened by the client | {seconds:.2f} | |\n| {MORE:,} runs one by one | {went:.3f} | {memory:,.0f} |')
    print(f'| packed again by `repack`, {os.path.getsize(again):,} bytes | {packed[0]:.2f} | {packed[2]:,.0f} |')
    session, seconds = opened(again)
    with session:
        assert session.newest == most + MORE and session.query(most + MORE, 'get').printed == (most + MORE - 1,)
    print(f'| that one opened | {seconds:.2f} | |', flush=True)


def main(versions, most):
    """Measures and prints."""
    with tempfile.TemporaryDirectory() as folder:
        path = os.path.join(folder, 'image')
        with open(path, 'wb') as result:
            put_image(versions, result)
        first_replies(path)
        rates(path, versions)
        great(most, folder)


if __name__ == '__main__':
    main(int(sys.argv[1]) if len(sys.argv) > 1 else 100_000, int(sys.argv[2]) if len(sys.argv) > 2 else 1_000_000)
