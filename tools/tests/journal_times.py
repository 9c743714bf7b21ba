"""Measures the journal: python3 tools/tests/journal_times.py [COMMANDS [FOLDER]]

Commands a second by one caller and by eight, beside an fsync of a line alone in the same folder and beside the bare client; in a folder
without a checkpoint, and in one that was opened behind an image of so many versions, with what share of the fresh folder's rate that is.
Then how long it takes to open a folder with so many commands, without a checkpoint and with one. Beside the rates stand what does not
depend on who else uses the machine: processor time of this process and of those that have ended, and how often the disk was waited for.
PERSIST names the program.
"""
import os
import resource
import sys
import tempfile
import threading
import time

sys.path.insert(0, os.path.dirname(os.path.dirname(os.path.abspath(__file__))))
from persist.client import Session  # noqa: E402
from persist.journal import Disk, Journal  # noqa: E402

CELL = 'root n: int;\nproc set(k: int) {\n  n = k;\n}\n'
SECONDS = 3


class Counting(Disk):
    """A disk that counts how often it is waited for."""
    waits = 0

    def sync(self, file):
        """Waits."""
        self.waits += 1
        super().sync(file)


class NoDisk(Disk):
    """A disk that waits for nothing, to make a long log quickly."""

    def sync(self, file):
        """Does not wait."""


def processor():
    """Seconds of the processor so far."""
    used = [resource.getrusage(whose) for whose in (resource.RUSAGE_SELF, resource.RUSAGE_CHILDREN)]
    return sum(it.ru_utime + it.ru_stime for it in used)


def a_second(callers, command):
    """How many commands a second so many callers send, each when its own before was answered; how many there were, and the microseconds of
    the processor for one."""
    counts, end, before = [0] * callers, time.monotonic() + SECONDS, processor()

    def call(number):
        while time.monotonic() < end:
            command()
            counts[number] += 1
    threads = [threading.Thread(target=call, args=(number,)) for number in range(callers)]
    begin = time.monotonic()
    for thread in threads:
        thread.start()
    for thread in threads:
        thread.join()
    return sum(counts) / (time.monotonic() - begin), sum(counts), (processor() - before) / sum(counts) * 1e6


def syncs_a_second(folder):
    """How many times a second a line is written and synced, alone."""
    with open(os.path.join(folder, 'lines'), 'ab', buffering=0) as file:
        def write():
            file.write(b'run 0 set 5\n')
            os.fsync(file.fileno())
        return a_second(1, write)


def seconds_to(work):
    """How many seconds something takes by the clock and of the processor, and what it gives."""
    begin, before = time.monotonic(), processor()
    given = work()
    return (time.monotonic() - begin, processor() - before), given


class Table:
    """Rows of commands a second, beside an fsync of a line and beside the bare client."""

    def __init__(self, sync, bare):
        self.sync, self.bare = sync[0], bare[0]
        print('| what | a second | to an fsync of a line | to the bare client | processor | waits for the disk |\n|---|---|---|---|---|---|')
        self.row('a line, written and synced', sync, '1.00')
        self.row('the bare client', bare)

    def row(self, name, measured, waits='0'):
        """Prints a row."""
        rate, _, each = measured
        print(f'| {name} | {rate:,.0f} | {rate / self.sync:.2f} | {rate / self.bare:.3f} | {each:,.0f} µs | {waits} |', flush=True)

    def of(self, name, callers, command, disk):
        """Measures so many callers, and prints a row."""
        disk.waits = 0
        measured = a_second(callers, command)
        self.row(name, measured, f'{disk.waits / measured[1]:.2f}')
        return measured[0]


def main(commands, above):
    """Measures and prints."""
    sync = syncs_a_second(above)
    with Session(CELL) as session:
        bare = a_second(1, lambda: session.run(0, 'set', 5))
    table, disk = Table(sync, bare), Counting()
    small, great = os.path.join(above, 'small'), os.path.join(above, 'great')

    def run():
        return journal.run(0, 'set', 5)

    with Journal.create(small, CELL, disk=disk) as journal:
        fresh = {callers: table.of(f'runs by {callers}', callers, run, disk) for callers in (1, 8)}
        table.of('queries by 1', 1, journal.stats, disk)
        journal.checkpoint()
        table.of('runs by 1, behind a checkpoint of the same process', 1, run, disk)
    with Journal(small, disk=disk) as journal:
        for callers in (1, 8):
            table.of(f'runs by {callers}, opened behind a small image', callers, run, disk)
    with Journal.create(great, CELL, disk=NoDisk()) as journal:
        made, _ = seconds_to(lambda: [journal.run(version, 'set', version) for version in range(commands)])
    plain, journal = seconds_to(lambda: Journal(great))
    packed, _ = seconds_to(journal.checkpoint)
    size = os.path.getsize(os.path.join(great, 'image.1'))
    journal.end()
    behind, journal = seconds_to(lambda: Journal(great, disk=disk))
    for callers in (1, 8):
        rate = table.of(f'runs by {callers}, opened behind an image of {commands:,} versions', callers, run, disk)
        print(f'| that is, to the fresh folder | {rate / fresh[callers]:.2f} times (wanted: at least 0.3) | | | | |')
    journal.end()
    print(f'\n| {commands:,} commands | by the clock | processor | to an fsync of a line |\n|---|---|---|---|')
    for name, (seconds, used) in (('carried out and logged, without waiting for the disk', made), ('opened without a checkpoint', plain),
                                  (f'packed into an image of {size:,} bytes', packed), ('opened behind it', behind)):
        print(f'| {name} | {seconds:.2f} s | {used:.2f} s | {seconds * table.sync:,.1f} |')


if __name__ == '__main__':
    with tempfile.TemporaryDirectory(dir=sys.argv[2] if len(sys.argv) > 2 else None) as place:
        main(int(sys.argv[1]) if len(sys.argv) > 1 else 100_000, place)
