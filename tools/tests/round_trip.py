"""Measures the round trip of a command through the client: python3 tools/tests/round_trip.py [COMMANDS]

Each command is sent when the reply to the one before was read. Beside the client stand the same lines without it, by a bare pipe to the
program, and a line to `cat` and back. They are measured by turns, a hundred commands at a time, so that what else the machine does
falls on all alike. Prints a table: median, 99th of a hundred, and the median as a ratio to that of `cat`. PERSIST names the program.
"""
import os
import subprocess
import sys
import time

sys.path.insert(0, os.path.dirname(os.path.dirname(os.path.abspath(__file__))))
from persist.client import Session, program_path  # noqa: E402
from tests.samples import LIST  # noqa: E402


class Pipe:
    """A process that answers each line by one."""

    def __init__(self, *words):
        self.process = subprocess.Popen(words, stdin=subprocess.PIPE, stdout=subprocess.PIPE)

    def command(self, line):
        """Sends a line, and waits for the last line of its answer."""
        self.process.stdin.write(line.encode() + b'\n')
        self.process.stdin.flush()
        while self.process.stdout.readline().startswith(b'| '):
            pass

    def end(self):
        """Closes the pipes, and waits."""
        self.process.stdin.close()
        self.process.stdout.close()
        self.process.wait()


def bare(program):
    """A bare pipe to the program, which has accepted a program text."""
    pipe = Pipe(program_path(), 'run')
    pipe.process.stdin.write(program.encode() + b'%%\n')
    pipe.command('.')
    return pipe


def main(commands):
    """Measures and prints."""
    asked = {'stats': lambda at: 'stats', 'query': lambda at: f'query {at} top', 'run': lambda at: f'run {at} add 5'}
    ways = {(kind, way): make() for kind in asked for way, make in (('client', lambda: Session(LIST)), ('bare pipe', lambda: bare(LIST)))}
    ways['a line', 'cat'] = Pipe('cat')
    times = {key: [] for key in ways}
    for (kind, _), way in ways.items():
        if kind == 'query':
            for at in range(commands):
                way.command(f'run {at} add 5')
    for begin in range(0, commands, 100):
        for (kind, name), way in ways.items():
            for at in range(begin, min(begin + 100, commands)):
                line = asked.get(kind, asked['query'])(at)
                start = time.perf_counter()
                way.command(line)
                times[kind, name].append(time.perf_counter() - start)
    for way in ways.values():
        way.end()
    middle = sorted(times['a line', 'cat'])[commands // 2]
    print('| command | by | median | 99th of a hundred | median, to `cat` |\n|---|---|---|---|---|')
    for (kind, name), row in times.items():
        row.sort()
        half, most = row[commands // 2], row[commands * 99 // 100]
        print(f'| {kind if kind == "a line" else f"`{kind}`"} | {name} | {half * 1e6:.1f} µs | {most * 1e6:.1f} µs | {half / middle:.2f} |')


if __name__ == '__main__':
    main(int(sys.argv[1]) if len(sys.argv) > 1 else 20_000)
