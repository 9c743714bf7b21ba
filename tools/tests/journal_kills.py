"""Kills a journal at work again and again, and looks at what is there then: python3 tools/tests/journal_kills.py [KILLS [SEED]]

A process keeps a folder, and its eight callers make versions of the list, each with a key that no other has, ask versions, and make
checkpoints; it tells each key before it is sent and what each command was answered. It is killed at a moment that is drawn. Then the
folder is opened again: all that was answered has to be there, each version as it was told, no key twice, and no number of a run given
again. A folder is killed four times, and then another one begins. PERSIST names the program.
"""
import itertools
import os
import random
import signal
import sys
import tempfile
import threading
import time
import warnings

sys.path.insert(0, os.path.dirname(os.path.dirname(os.path.abspath(__file__))))
from persist.client import Opened, Refused, Version  # noqa: E402
from persist.journal import Journal, Locked, newest_in  # noqa: E402
from tests.samples import LIST  # noqa: E402

CALLERS, KILLS_OF_ONE = 8, 4
SECONDS = 60
# How many lines a process tells at most before it is killed: those of some ten commands for each caller.
MOST_LINES = 80


# ---- the process that is killed

def tell(*words):
    """Writes a line, which is whole or not there."""
    os.write(1, (' '.join(map(str, words)) + '\n').encode())


class Load:
    """What the callers share: the journal, and the versions that were answered."""

    def __init__(self, folder, first_key, seed):
        self.journal = Journal(folder)
        self.seed = seed
        self.versions = list(range(len(self.journal.versions().parents)))
        self.keys = itertools.count(first_key)
        self.lock = threading.Lock()

    def key(self):
        """A key that no other command has."""
        with self.lock:
            key = next(self.keys)
        tell('sent', key)
        return key

    def made(self, reply, parent, key):
        """Notes the version that was made with this key."""
        assert isinstance(reply, Version), reply
        tell('version', reply.number, parent, key)
        self.versions.append(reply.number)

    def by_open_run(self, draw, parent):
        """Makes a version by an open run, which a checkpoint may drop meanwhile."""
        opened = self.journal.open(parent)
        assert isinstance(opened, Opened), opened
        tell('run', opened.run)
        key = self.key()
        self.journal.call(opened.run, 'add', key)
        self.journal.step(opened.run, draw.randrange(1, 9))
        reply = self.journal.close(opened.run) if draw.random() < 0.8 else self.journal.drop(opened.run)
        if isinstance(reply, Version):
            self.made(reply, parent, key)

    def ask(self, version):
        """Asks a version, and tells what it holds."""
        tell('top', version, self.journal.query(version, 'top').printed[-1])

    def call(self, number):
        """What one caller does, until the process is killed."""
        draw = random.Random(f'{self.seed} {number}')
        while True:
            parent, kind = draw.choice(self.versions), draw.random()
            if number == 0 and draw.random() < 0.2:
                self.journal.checkpoint(drop_open_runs=True)
            elif kind < 0.6:
                key = self.key()
                self.made(self.journal.run(parent, 'add', key), parent, key)
            elif kind < 0.8:
                self.by_open_run(draw, parent)
            elif kind < 0.95:
                self.ask(parent)
            else:
                assert isinstance(self.journal.run(parent, 'sum'), Refused)


def be_at_work(folder, first_key, seed):
    """Begins all callers. An error of one of them ends the process."""
    load = Load(folder, first_key, seed)
    tell('ready')

    def call(number):
        try:
            load.call(number)
        except BaseException as error:
            tell('error', repr(error))
            os._exit(1)

    for number in range(CALLERS):
        threading.Thread(target=call, args=(number,)).start()
    threading.Event().wait()


# ---- the one that kills it

def opened_again(folder):
    """The journal of a folder. A process that the killed one had just begun may have its lock for a moment."""
    until = time.monotonic() + SECONDS
    while True:
        try:
            return Journal(folder)
        except Locked:
            if time.monotonic() > until:
                raise
            time.sleep(0.05)


class Told:
    """What was answered of one folder."""

    def __init__(self):
        # The parent and the key of each version, the keys that were sent, the greatest number of a run, and the answers that were asked for.
        self.versions, self.sent, self.run, self.tops, self.lines = {0: (None, 1)}, set(), 0, [], 0

    def read(self, lines):
        """Takes in what a process told before it was killed."""
        for kind, *words in map(str.split, lines):
            if kind == 'error':
                raise AssertionError(f'a caller had the error {" ".join(words)}')
            numbers = [int(word) for word in words]
            self.lines += 1
            if kind == 'sent':
                self.sent.add(numbers[0])
            elif kind == 'run':
                self.run = max(self.run, numbers[0])
            elif kind == 'top':
                self.tops.append(tuple(numbers))
            elif kind == 'version':
                number, *made = numbers
                assert number not in self.versions, f'version {number} was told twice'
                self.versions[number] = tuple(made)

    def compare(self, journal):
        """Compares what was told with what is there, which is known from then on too."""
        # All at once, and not into the log: behind an image each group has a process of its own.
        listed, opened = journal._process.carry_out(['versions', 'open 0'])
        parents = listed.parents
        asked = [f'query {version} {query}' for query in ('top', 'sum') for version in range(len(parents))]
        printed = [reply.printed[-1] for reply in journal._process.carry_out(asked)]
        tops, sums = printed[:len(parents)], printed[len(parents):]
        for number, made in self.versions.items():
            assert number < len(parents), f'version {number} was answered, and is not there'
            assert made == (parents[number], tops[number]), f'version {number} was made of {made}, and is of {parents[number], tops[number]}'
        for number, key in enumerate(tops[1:], 1):
            assert sums[number] == sums[parents[number]] + key, f'version {number} sums up to {sums[number]}'
            assert key in self.sent, f'version {number} has the key {key}, which was not sent'
        assert len(set(tops[1:])) == len(tops) - 1, 'a key is there twice'
        assert all(tops[number] == top for number, top in self.tops), 'a version was answered otherwise before'
        assert opened.run > self.run, f'run {opened.run} was given twice'
        self.tops = []
        self.versions = {number: (parent, tops[number]) for number, parent in enumerate(parents)}


def begin(folder, first_key, seed, told):
    """Begins a process that works in a folder, and tells into a file; gives its number."""
    with warnings.catch_warnings():
        # It has none of the threads that were running, and needs none.
        warnings.simplefilter('ignore', DeprecationWarning)
        child = os.fork()
    if child == 0:
        try:
            os.dup2(told.fileno(), 1)
            be_at_work(folder, first_key, seed)
        except BaseException as error:
            tell('error', repr(error))
        finally:
            os._exit(1)
    return child


def kill_once(folder, first_key, draw):
    """Has a process work in a folder, and kills it; gives the lines that it told."""
    with tempfile.TemporaryFile() as told:
        child = begin(folder, first_key, draw.random(), told)
        # It has told so many lines and a moment more goes by; with none it is about to open the folder.
        lines, until = draw.randrange(MOST_LINES), time.monotonic() + SECONDS
        while os.pread(told.fileno(), 1 << 20, 0).count(b'\n') < lines and time.monotonic() < until:
            time.sleep(0.005)
        time.sleep(draw.random() / 10)
        os.kill(child, signal.SIGKILL)
        os.waitpid(child, 0)
        told.seek(0)
        # Each line is one write, which the process either did or did not do.
        return told.read().decode().splitlines()


def kill(times, seed):
    """Kills so many times; gives how many lines were told, versions made, and checkpoints done."""
    lines = versions = checkpoints = 0
    draw = random.Random(f'kills {seed}')
    for begin in range(0, times, KILLS_OF_ONE):
        with tempfile.TemporaryDirectory() as above:
            folder, told = os.path.join(above, 'store'), Told()
            Journal.create(folder, LIST).end()
            for number in range(begin, min(begin + KILLS_OF_ONE, times)):
                try:
                    told.read(kill_once(folder, (number + 1) * 1_000_000, draw))
                    with opened_again(folder) as journal:
                        told.compare(journal)
                except BaseException:
                    print(f'kill {number} of seed {seed}')
                    raise
            lines, versions, checkpoints = lines + told.lines, versions + len(told.versions) - 1, checkpoints + newest_in(folder)
    return lines, versions, checkpoints


def main(times='500', seed='1'):
    """Kills, and says what there was."""
    lines, versions, checkpoints = kill(int(times), seed)
    print(f'journal_kills: {times} kills of seed {seed}, {lines:,} lines told, {versions:,} versions, {checkpoints:,} checkpoints; '
          'nothing that was answered is lost, and nothing is there twice')


if __name__ == '__main__':
    main(*sys.argv[1:])
