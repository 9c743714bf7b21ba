"""The journal: what it keeps when it is killed, when the disk fails, and when what the folder holds is damaged."""
import errno
import os
import shutil
import signal
import stat
import subprocess
import sys
import tempfile
import threading
import time
import unittest
import warnings
from fcntl import flock
from unittest import mock

from persist import journal as the_module
from persist.client import (
    Answer, Budget, Changed, Dropped, Never, Opened, ProgramRefused, Refused, Session, Trapped, Version, Versions, WrongText, read_text, text_of)
from persist.journal import Broken, CheckpointFailed, Damaged, Disk, Journal, JournalError, Locked, NoStore, RunsAreOpen
from tests.journal_kills import kill
from tests.samples import LIST, TOOLS, TOP, made_up_script


class Folder(unittest.TestCase):
    """A test with the name of a folder for a store."""

    def setUp(self):
        above = tempfile.TemporaryDirectory()
        self.addCleanup(above.cleanup)
        self.folder = os.path.join(above.name, 'store')

    def name(self, of):
        return os.path.join(self.folder, of)

    def bytes_of(self, of):
        with open(self.name(of), 'rb') as file:
            return file.read()

    def put(self, of, data):
        with open(self.name(of), 'wb') as file:
            file.write(data)

    def files(self):
        """What the folder holds, byte for byte."""
        return {name: self.bytes_of(name) for name in os.listdir(self.folder)}

    def two_versions(self, disk=None):
        """A new store with two versions."""
        journal = Journal.create(self.folder, LIST, disk=disk)
        self.addCleanup(journal.end)
        self.assertEqual((journal.run(0, 'add', 1), journal.run(1, 'add', 2)), (Version(1), Version(2)))
        return journal

    def sums(self):
        """What the folder holds when it is opened again: the sums of its versions from 1 on."""
        with Journal(self.folder) as journal:
            count = len(journal.versions().parents)
            return [reply.printed[0] for reply in journal._process.carry_out([f'query {it} sum' for it in range(1, count)])]


class Kept(Folder):
    def test_the_replies_are_those_of_one_session_whenever_it_is_opened_again_or_packed(self):
        journal = Journal.create(self.folder, LIST.replace('\n', ' # note\n'))
        with Session(LIST) as session:
            for number, line in enumerate(made_up_script(160, 5)):
                if number in (60, 100):
                    for run in list(journal.open_runs):
                        session.drop(run)
                    journal.checkpoint(drop_open_runs=True)
                if number in (30, 80, 110):
                    journal.end()
                    journal = Journal(self.folder)
                self.assertEqual(text_of(journal.command(line)), text_of(session.command(line)), line)
            self.assertEqual(sorted(journal.open_runs), sorted(session.history.open_runs))
        journal.end()
        self.assertEqual(sorted(os.listdir(self.folder)), ['image.2', 'lock', 'log.2'])

    def test_only_changes_that_were_carried_out_stand_in_the_log(self):
        with self.two_versions() as journal:
            for line in ('run 9 add 1', 'query 2 sum', 'versions', 'stats', 'jump', '', '# note', 'query 0 top', 'budget 0'):
                journal.command(line)
            self.assertEqual(journal.budget(3), Budget(3))
            self.assertEqual(journal.run(0, 'add', 1), Trapped('budget', 8))
        lines = self.bytes_of('log.0').decode().split('\n')
        self.assertEqual([line for line in lines if not line.startswith('#')], ['run 0 add 1', 'run 1 add 2', 'budget 3', 'run 0 add 1', ''])

    def test_open_runs_go_on_in_a_folder_that_is_opened_again(self):
        with self.two_versions() as journal:
            self.assertEqual((journal.open(2, 'add', 5), journal.open(0)), (Opened(3), Opened(4)))
            self.assertEqual(journal.drop(4), Dropped(4))
        with Journal(self.folder) as journal:
            self.assertEqual(journal.open_runs, [3])
            with self.assertRaisesRegex(RunsAreOpen, '3'):
                journal.checkpoint()
            self.assertEqual(journal.close(3), Version(3))
            journal.checkpoint()
            self.assertEqual(journal.open(3), Opened(5))
            journal.checkpoint(drop_open_runs=True)
            self.assertEqual((journal.close(5), journal.run(3, 'add', 1)), (Refused('run'), Version(4)))
        with Journal(self.folder) as journal:
            self.assertEqual((journal.open_runs, journal.versions()), ([], Versions((None, 0, 1, 2, 3))))

    def test_traps_name_the_lines_of_the_canonical_form_before_and_behind_a_checkpoint(self):
        with Journal.create(self.folder, '\n\n' + LIST) as journal:
            self.assertEqual(journal.query(0, 'top'), Trapped('null', 22, (1,)))
            journal.checkpoint()
            self.assertEqual(journal.query(0, 'top'), Trapped('null', 22, (1,)))
        with Journal(self.folder) as journal:
            self.assertEqual(journal.query(0, 'top'), Trapped('null', 22, (1,)))

    def test_what_is_no_store_or_is_one_already(self):
        self.assertRaises(NoStore, Journal, self.folder)
        self.assertRaises(ProgramRefused, Journal.create, self.folder, 'root a: b;\n')
        self.assertFalse(os.path.exists(self.folder))
        with self.two_versions() as journal:
            self.assertRaises(WrongText, journal.command, 'versions\nversions')
            self.assertRaises(WrongText, journal.command, 'x' * 1025)
        with self.assertRaisesRegex(NoStore, 'already'):
            Journal.create(self.folder, LIST)
        with self.assertRaisesRegex(JournalError, 'ended'):
            journal.stats()
        with self.assertRaisesRegex(JournalError, 'ended'):
            journal.checkpoint()
        journal.end()

    def test_there_is_room_beyond_64_mib(self):
        with self.two_versions() as journal:
            for _ in range(70):
                self.assertEqual(journal._process.carry_out(['x' * (1 << 20)]), [Refused('line')])
            self.assertEqual(journal.run(2, 'add', 4), Version(3))
            journal.checkpoint()
            self.assertEqual(journal.run(3, 'add', 5), Version(4))
        self.assertEqual(self.sums(), [1, 3, 7, 12])

    def test_it_tells_what_versions_hold(self):
        with self.two_versions() as journal:
            for _ in range(2):
                self.assertEqual(str(journal.dump(2)), '0 root: @1\n1 Node: 2 @2\n2 Node: 1 null')
                self.assertEqual((journal.changed(2, 'first.next'), journal.changed(0, 'first')), (Changed(2), Never()))
                self.assertEqual((journal.dump(9), journal.changed(2, 'last')), (Refused('version'), Refused('path')))
                journal.checkpoint()


class Killed(Folder):
    def test_nothing_answered_is_lost_and_nothing_is_there_twice(self):
        lines, _, _ = kill(int(os.environ.get('KILLS', 20)), 'tools')
        self.assertGreater(lines, 0)

    def test_the_program_that_ends_breaks_the_journal_and_nothing_is_lost(self):
        journal = self.two_versions()
        os.kill(journal._process._session.pid, signal.SIGKILL)
        self.assertRaises(Broken, journal.run, 2, 'add', 3)
        with self.assertRaisesRegex(Broken, 'opened again'):
            journal.stats()
        self.assertRaises(Broken, journal.checkpoint)
        journal.end()
        self.assertEqual(self.sums(), [1, 3])


class Callers(Folder):
    def at_once(self, count, work):
        """Calls this in so many threads, with the number of each."""
        errors = []

        def call(number):
            try:
                work(number)
            except BaseException as error:
                errors.append(error)
        threads = [threading.Thread(target=call, args=(number,)) for number in range(count)]
        for thread in threads:
            thread.start()
        for thread in threads:
            thread.join()
        return errors

    def test_eight_at_once_are_answered_each_with_its_own_reply(self):
        for pack in (False, True):
            with Journal.create(self.folder, LIST) as journal:
                if pack:
                    journal.checkpoint()
                made = {}

                def work(number):
                    for key in range(number * 10, number * 10 + 5):
                        version = journal.run(0, 'add', key).number
                        self.assertEqual(journal.query(version, 'sum'), Answer((key,)))
                        made[version] = key

                if pack:
                    journal.end()
                    journal = Journal(self.folder)
                self.assertEqual(self.at_once(8, work), [])
                journal.end()
            self.assertEqual(self.sums(), [made[version] for version in range(1, 41)])
            shutil.rmtree(self.folder)

    def test_those_that_wait_are_written_together(self):
        class Slow(Disk):
            syncs = 0

            def sync(self, file):
                self.syncs += 1
                super().sync(file)

        disk = Slow()
        with Journal.create(self.folder, LIST, disk=disk) as journal:
            begin = threading.Barrier(9)
            original, disk.syncs = journal._process.carry_out, 0

            def carry_out(lines):
                """Waits at first, so that all others come meanwhile."""
                journal._process.carry_out = original
                begin.wait(20)
                while len(journal._waiting) < 8:
                    pass
                return original(lines)

            journal._process.carry_out = carry_out
            first = threading.Thread(target=journal.run, args=(0, 'add', 1))
            first.start()

            def work(number):
                begin.wait(20)
                journal.run(0, 'add', number)
            self.assertEqual(self.at_once(8, work), [])
            first.join()
            self.assertLessEqual(disk.syncs, 3)

    def test_queries_are_answered_while_an_image_is_packed_and_changes_wait(self):
        for again in (False, True):
            journal = Journal(self.folder) if again else self.two_versions()
            packing, go_on = threading.Event(), threading.Event()
            original = journal._packed

            def packed():
                packing.set()
                self.assertTrue(go_on.wait(60))
                return original()

            journal._packed = packed
            pack = threading.Thread(target=journal.checkpoint)
            pack.start()
            self.assertTrue(packing.wait(60))
            change = threading.Thread(target=journal.run, args=(2, 'add', 4))
            change.start()
            for _ in range(5):
                self.assertEqual(journal.query(2, 'sum'), Answer((3,)))
            self.assertEqual(len(journal.versions().parents), 4 if again else 3)
            go_on.set()
            pack.join()
            change.join()
            self.assertIn(b'run 2 add 4', self.bytes_of(f'log.{1 + again}'))
            journal.end()
        self.assertEqual(self.sums(), [1, 3, 7, 7])

    def test_two_that_want_one_folder(self):
        with self.two_versions():
            self.assertRaises(Locked, Journal, self.folder)
            words = [sys.executable, os.path.join(TOOLS, 'persist_journal.py'), self.folder]
            done = subprocess.run(words, stdin=subprocess.DEVNULL, stderr=subprocess.PIPE)
            self.assertEqual(done.returncode, 1)
            self.assertIn(b'kept by another process', done.stderr)
        self.assertEqual(self.sums(), [1, 3])


    def test_where_the_lock_is_removed_the_folder_is_kept_all_the_same(self):
        with self.two_versions() as journal:
            os.remove(self.name('lock'))
            self.assertRaises(Locked, Journal, self.folder)
            self.assertEqual(journal.run(2, 'add', 4), Version(3))
        self.assertEqual(self.sums(), [1, 3, 7])

    def test_where_folders_have_no_lock_the_file_has_one(self):
        with mock.patch.object(the_module.fcntl, 'flock', flock_of_files):
            with self.two_versions():
                self.assertRaises(Locked, Journal, self.folder)
        self.assertEqual(self.sums(), [1, 3])

    def in_a_child(self, work):
        """Does something in a process that is forked; gives what it says, or its error."""
        with tempfile.TemporaryFile() as told:
            with warnings.catch_warnings():
                warnings.simplefilter('ignore', DeprecationWarning)
                child = os.fork()
            if child == 0:
                try:
                    said = str(work())
                except BaseException as error:
                    said = repr(error)
                os.pwrite(told.fileno(), said.encode(), 0)
                os._exit(0)
            os.waitpid(child, 0)
            return os.pread(told.fileno(), 10000, 0).decode()

    def test_a_process_that_was_forked_does_nothing(self):
        for packed in (False, True):
            journal = Journal(self.folder) if packed else self.two_versions()
            for work in (lambda: journal.run(2, 'add', 9), lambda: journal.query(2, 'sum'), journal.checkpoint):
                self.assertIn('from which this one was forked', self.in_a_child(work))
            self.assertIn('Locked', self.in_a_child(lambda: Journal(self.folder)))
            self.assertEqual(self.in_a_child(journal.end), 'None')
            self.assertEqual(journal.query(2, 'sum'), Answer((3,)))
            journal.checkpoint()
            journal.end()
        self.assertEqual(self.sums(), [1, 3])

    def test_a_process_that_was_forked_keeps_neither_the_folder_nor_the_program(self):
        with self.two_versions() as journal:
            go_on, begun = os.pipe(), os.pipe()
            with warnings.catch_warnings():
                warnings.simplefilter('ignore', DeprecationWarning)
                child = os.fork()
            if child == 0:
                os.write(begun[1], b'x')
                os.close(go_on[1])
                os.read(go_on[0], 1)
                os._exit(0)
            os.read(begun[0], 1)
            before = time.monotonic()
            self.assertEqual(journal.run(2, 'add', 4), Version(3))
            journal.end()
            self.assertLess(time.monotonic() - before, 5)
            self.assertEqual(self.sums(), [1, 3, 7])
            for descriptor in (*go_on, *begun):
                os.close(descriptor)
            os.waitpid(child, 0)

    def test_ctrl_c_while_a_checkpoint_or_the_end_waits(self):
        with self.two_versions() as journal:
            for work in (journal.checkpoint, journal.end):
                slow, go_on = threading.Event(), threading.Event()
                original = journal._process.carry_out

                def carry_out(lines):
                    journal._process.carry_out = original
                    slow.set()
                    self.assertTrue(go_on.wait(60))
                    return original(lines)

                journal._process.carry_out = carry_out
                caller = threading.Thread(target=journal.query, args=(2, 'sum'))
                caller.start()
                self.assertTrue(slow.wait(60))
                timer = threading.Timer(0.3, os.kill, (os.getpid(), signal.SIGINT))
                timer.start()
                self.assertRaises(KeyboardInterrupt, work)
                timer.join()
                go_on.set()
                caller.join(60)
                self.assertEqual(journal.query(2, 'sum'), Answer((3,)))
            journal.checkpoint()
            self.assertEqual(journal.run(2, 'add', 4), Version(3))
        self.assertEqual(self.sums(), [1, 3, 7])


def flock_of_files(file, how):
    """A lock as on a system that gives folders none."""
    if stat.S_ISDIR(os.fstat(file).st_mode):
        raise OSError(errno.EBADF, 'no lock')
    flock(file, how)


class Stopped(BaseException):
    """The machine stops here."""


class Failing(Disk):
    """A disk that fails at a step. It knows what is lost where the machine stops: what was not synced."""

    def __init__(self, aside, at, error):
        self.aside, self.at, self.error, self.step = aside, at, error, 0
        # The bytes of files that are safe, and how to take back the names that are not, the last one first.
        self.safe, self.names = {}, []

    def count(self):
        self.step += 1
        if self.step == self.at:
            raise self.error

    def keep(self, path):
        """What puts a file back that is there now."""
        if not os.path.exists(path):
            return lambda: None
        kept = os.path.join(self.aside, f'{self.step}')
        os.link(path, kept)
        return lambda: os.path.exists(path) or os.link(kept, path)

    def create(self, path):
        self.count()
        file = super().create(path)
        self.safe[os.fstat(file.fileno()).st_ino] = 0
        return file

    def write(self, file, data):
        half = len(data) // 2
        super().write(file, data[:half])
        self.count()
        super().write(file, data[half:])

    def sync(self, file):
        self.count()
        super().sync(file)
        self.safe[os.fstat(file.fileno()).st_ino] = os.fstat(file.fileno()).st_size

    def rename(self, old, new):
        self.count()
        put_back = self.keep(new)
        super().rename(old, new)
        self.names += [put_back, lambda: os.path.exists(new) and os.rename(new, old)]

    def sync_folder(self, path):
        self.count()
        super().sync_folder(path)
        self.names = []

    def remove(self, path):
        self.count()
        put_back = self.keep(path)
        super().remove(path)
        self.names.append(put_back)

    def lose(self, folder):
        """Takes back what was not synced."""
        for take_back in reversed(self.names):
            take_back()
        for entry in os.scandir(folder):
            if entry.inode() in self.safe:
                os.truncate(entry.path, self.safe[entry.inode()])


class Failures(Folder):
    def work(self, disk):
        """Commands with a checkpoint between; gives the sums of the versions that were answered, the error, and the greatest sum sent."""
        answered, sent, error = [1, 3], 2, None
        journal = None
        try:
            journal = Journal(self.folder, disk=disk)
            for number in range(3, 7):
                if number == 5:
                    journal.checkpoint()
                sent = number
                journal.run(number - 1, 'add', number)
                answered.append(answered[-1] + number)
        except (JournalError, OSError, Stopped) as caught:
            error = caught
        if isinstance(error, Broken):
            self.assertRaises(Broken, journal.stats)
            self.assertRaises(Broken, journal.run, 0, 'add', 1)
        if isinstance(error, CheckpointFailed):
            sent = 5
            try:
                journal.run(4, 'add', 5)
                answered.append(answered[-1] + 5)
            except Broken as caught:
                self.assertIn('No space', str(caught))
        if journal:
            journal.end()
        return answered, sent, error

    def look(self, answered, sent, at):
        """What was answered has to be there, and of what was sent no more than it."""
        found = self.sums()
        self.assertEqual(found[:len(answered)], answered, at)
        self.assertIn(len(found), (len(answered), sent), at)
        self.assertEqual(found, [it * (it + 1) // 2 for it in range(1, len(found) + 1)], at)
        self.assertEqual(len(os.listdir(self.folder)), 3, at)

    def each_step(self, error, loses):
        """Fails at each step in turn; gives what errors came."""
        self.two_versions().end()
        shutil.copytree(self.folder, self.folder + '.before')
        errors = []
        for at in range(1, 100):
            shutil.rmtree(self.folder)
            shutil.copytree(self.folder + '.before', self.folder)
            disk = Failing(tempfile.mkdtemp(dir=os.path.dirname(self.folder)), at, error)
            answered, sent, error_here = self.work(disk)
            if disk.step < at:
                self.assertGreater(at, 15)
                return errors
            errors.append(type(error_here))
            if loses:
                disk.lose(self.folder)
            self.look(answered, sent, f'step {at}')
        raise AssertionError('there is no end')

    def test_stopped_at_each_step(self):
        self.assertEqual(set(self.each_step(Stopped(), False)), {Stopped})

    def test_stopped_at_each_step_with_all_that_was_not_synced_lost(self):
        self.assertEqual(set(self.each_step(Stopped(), True)), {Stopped})

    def test_each_step_fails(self):
        self.assertEqual(set(self.each_step(OSError(28, 'No space left on device'), False)),
                         {OSError, Broken, CheckpointFailed, type(None)})

    def test_a_disk_that_takes_a_byte_at_a_time_or_is_full_after_some(self):
        class Narrow:
            """A file that takes few bytes at once, and no more than there is room for."""

            def __init__(self, file, room):
                self.file, self.room, self.name = file, room, file.name

            def write(self, data):
                if self.room[0] <= 0:
                    raise OSError(28, 'No space left on device')
                count = self.file.write(data[:min(7, self.room[0])])
                self.room[0] -= count
                return count

            def fileno(self):
                return self.file.fileno()

            def close(self):
                self.file.close()

        class Small(Disk):
            def __init__(self, room):
                self.room = [room]

            def create(self, path):
                return Narrow(super().create(path), self.room)

        self.two_versions().end()
        shutil.copytree(self.folder, self.folder + '.before')
        errors = set()
        for room in (0, 30, 76, 77, 90, 99, 100, 120, 130, 500, 1000, 1 << 20):
            shutil.rmtree(self.folder)
            shutil.copytree(self.folder + '.before', self.folder)
            answered, sent, error = self.work(Small(room))
            errors.add(type(error))
            self.look(answered, sent, f'room for {room} bytes')
        self.assertEqual(errors, {OSError, Broken, CheckpointFailed, type(None)})

    def test_all_that_wait_get_the_error_of_a_write(self):
        journal = self.two_versions(Failing(os.path.dirname(self.folder), 0, None))
        journal.disk.at = journal.disk.step + 1
        journal.disk.error = OSError(5, 'Input/output error')
        errors = []

        def call(number):
            try:
                journal.run(0, 'add', number)
            except Broken as error:
                errors.append(str(error))
        threads = [threading.Thread(target=call, args=(number,)) for number in range(8)]
        for thread in threads:
            thread.start()
        for thread in threads:
            thread.join()
        self.assertEqual(len(errors), 8)
        self.assertIn('Input/output error', errors[0])
        journal.end()
        self.assertEqual(self.sums()[:2], [1, 3])


class Damage(Folder):
    def packed(self):
        """A store behind a checkpoint, with a version in its log."""
        with self.two_versions() as journal:
            journal.checkpoint()
            journal.run(2, 'add', 4)
        self.assertEqual(self.sums(), [1, 3, 7])

    def refused(self, text, rule=None):
        """The folder is refused, and stays as it is."""
        before = self.files()
        with self.assertRaisesRegex(Damaged, text) as caught:
            Journal(self.folder)
        self.assertEqual(caught.exception.rule, rule)
        self.assertEqual(self.files(), before)

    def test_an_image_with_damage_is_refused_by_its_rule(self):
        self.packed()
        image = self.bytes_of('image.1')
        behind_text = 16 + int.from_bytes(image[8:16], 'big')
        for data, rule in ((b'X' + image[1:], 0), (image[:-1], 0), (image[:20] + b'#' + image[21:], 1),
                           (image[:behind_text] + bytes(8) + image[behind_text + 8:], 2)):
            self.put('image.1', data)
            self.refused(f'refused image {rule}', rule)
        # Another budget breaks no rule; that it is another image is seen all the same.
        self.put('image.1', image[:behind_text + 7] + b'\7' + image[behind_text + 8:])
        self.refused('log of another image')
        self.put('image.1', image)
        self.assertEqual(self.sums(), [1, 3, 7])

    def test_a_log_of_another_image_and_none(self):
        self.packed()
        log = self.bytes_of('log.1')
        for other in (log.replace(b'# log 1', b'# log 2'), b'', log[:10], log[1:], log.replace(b'behind ', b'behind 0', 1)):
            self.put('log.1', other)
            self.refused('log of another image')
        os.remove(self.name('log.1'))
        self.refused('missing')

    def test_the_end_of_a_log_that_was_never_answered_is_cut_off(self):
        self.two_versions().end()
        log = self.bytes_of('log.0')
        last = log.index(b'run 1')
        for behind in (b'run 2 ad', b'run 2 add 4\n', b'run 2 add 4\n#0', b'run 2 add 4\n#01234567\n', bytes(50), b'\n\n', b'#01234567\n'):
            self.put('log.0', log + behind)
            with Journal(self.folder) as journal:
                self.assertEqual((journal.cut, journal.versions()), (len(behind), Versions((None, 0, 1))))
            self.assertEqual(self.bytes_of('log.0'), log)
        for length in range(last, len(log)):
            self.put('log.0', log[:length])
            if length in (last, last + 1, len(log) - 9, len(log) - 1):
                self.assertEqual(self.sums(), [1])

    def test_damage_in_the_midst_of_a_log_is_refused(self):
        self.two_versions().end()
        log = self.bytes_of('log.0')
        for old, new in ((b'add 1', b'add 7'), (b'run 0 add 1\n', b''), (b'run 0', b'run 9')):
            self.put('log.0', log.replace(old, new, 1))
            self.refused('damaged group')

    def test_a_byte_of_the_last_sum_but_one_ends_no_group_silently(self):
        with self.two_versions() as journal:
            journal.run(2, 'add', 4)
        log = self.bytes_of('log.0')
        # The sum behind the second group, with the line feeds on both sides of it, and that of the third.
        seconds = [at for at in range(len(log)) if log[at:at + 2] == b'\n#']
        for begin in seconds[-2:]:
            for at in (*range(begin, begin + 11),)[:11 if begin == seconds[-2] else 2]:
                self.put('log.0', log[:at] + bytes([log[at] ^ 1]) + log[at + 1:])
                self.refused('damaged group')
        self.put('log.0', log)
        self.assertEqual(self.sums(), [1, 3, 7])

    def test_a_log_whose_image_is_missing(self):
        self.packed()
        os.rename(self.name('image.1'), self.name('kept'))
        self.refused('image is missing')
        before = self.files()
        self.assertRaises(Damaged, Journal.create, self.folder, LIST)
        example = os.path.join(TOP, 'examples', 'monday.persist')
        for words in ([self.folder], [self.folder, example]):
            done = subprocess.run([sys.executable, os.path.join(TOOLS, 'persist_journal.py'), *words], stdin=subprocess.DEVNULL, stderr=subprocess.PIPE)
            self.assertEqual(done.returncode, 1)
            self.assertIn(b'image is missing', done.stderr)
        self.assertEqual(self.files(), before)
        # The image before it, put back from somewhere, is not the one that the log follows.
        self.put('image.0', self.bytes_of('kept'))
        self.refused('image is missing')

    def test_a_log_whose_program_is_missing_and_a_folder_that_was_not_made_to_its_end(self):
        self.two_versions().end()
        os.remove(self.name('program'))
        self.refused('program is missing')
        begin = self.bytes_of('log.0').split(b'\n')[0] + b'\n'
        self.put('log.0', begin)
        self.assertRaises(NoStore, Journal, self.folder)
        self.two_versions().end()
        self.assertEqual(self.sums(), [1, 3])

    def test_a_damaged_program(self):
        self.two_versions().end()
        text = self.bytes_of('program')
        for data in (text[:-3], b'\xff' + text, b'', text.replace(b'first', b'fir5t', 1), text.replace(b'Node 2', b'Node 3')):
            self.put('program', data)
            self.refused('')

    def test_what_a_checkpoint_left_that_did_not_come_to_its_end(self):
        self.packed()
        for name in ('program', 'image.0', 'image.2.new', 'log.0', 'log.2', 'log.1.new', 'program.new'):
            self.put(name, b'left')
        self.put('mine', b'')
        self.assertEqual(self.sums(), [1, 3, 7])
        self.assertEqual(sorted(os.listdir(self.folder)), ['image.1', 'lock', 'log.1', 'mine'])


class Great(Folder):
    def test_no_memory_for_an_image(self):
        with self.two_versions() as journal:
            for packed in (False, True):
                before = self.files()
                for status, written, told in ((4, b'refused image 2\n', 'refused image 2'), (6, b'', 'no memory')):
                    with mock.patch.object(the_module, 'written_by', lambda *_: (status, written)):
                        with self.assertRaisesRegex(CheckpointFailed, told):
                            journal.checkpoint()
                self.assertEqual(self.files(), before)
                journal.checkpoint()
            self.assertEqual(journal.run(2, 'add', 4), Version(3))
        self.assertEqual(self.sums(), [1, 3, 7])

    def test_the_folder_is_gone(self):
        with self.two_versions() as journal:
            os.rename(self.folder, self.folder + '.moved')
            self.assertRaises(CheckpointFailed, journal.checkpoint)
            self.assertEqual(journal.query(2, 'sum'), Answer((3,)))
            os.rename(self.folder + '.moved', self.folder)
            journal.checkpoint()
        self.assertEqual(self.sums(), [1, 3])


class Script(Folder):
    def ask(self, *words, given=''):
        """What the script writes, and its status."""
        done = subprocess.run([sys.executable, '-W', 'error', os.path.join(TOOLS, 'persist_journal.py'), *words], input=given.encode(),
                              stdout=subprocess.PIPE, stderr=subprocess.PIPE)
        return done.returncode, done.stdout.decode(), done.stderr.decode()

    def test_lines_are_answered_and_kept(self):
        example = os.path.join(TOP, 'examples', 'monday.persist')
        self.assertEqual(self.ask(self.folder, example, given='run 0 sell 12\n# note\nquery 1 book'), (0, 'version 1\n| 12\n| 12\nok\n', ''))
        self.assertEqual(self.ask('--checkpoint', self.folder), (0, '', ''))
        with open(self.name('log.1'), 'ab') as log:
            log.write(b'run')
        self.assertEqual(self.ask(self.folder, example, given='versions\nrun 1 sell 1\n'), (
            0, '0\n1 from 0\nversion 2\n', 'persist_journal: 3 bytes of commands that were never answered are cut off\n'))
        self.assertEqual(self.ask(self.folder + '1')[::2], (1, f'persist_journal: {self.folder}1 holds no store\n'))
        self.assertEqual(self.ask('--help')[0], 2)

    def test_another_program_is_told(self):
        example, other = (os.path.join(TOP, 'examples', name) for name in ('monday.persist', 'ledger.persist'))
        self.assertEqual(self.ask(self.folder, example, given='run 0 sell 12\n'), (0, 'version 1\n', ''))
        for checkpoint in (False, True):
            self.assertEqual(self.ask(self.folder, other, given='run 1 sell 30\n'), (
                1, '', f'persist_journal: {self.folder} holds a store of another program than {other}\n'))
            self.assertEqual(self.ask(self.folder, example, given='dump 1\n')[:2], (0, '0 root: 12 @1\n1 Sale: 12 null\nok\n'))
            self.assertEqual(self.ask('--checkpoint', self.folder)[0], 0)

    def test_a_long_comment_is_no_command(self):
        long = '#' * 5000 + '\n' + ' ' * 5000 + '\n'
        example = os.path.join(TOP, 'examples', 'monday.persist')
        self.assertEqual(self.ask(self.folder, example, given=long + 'run 0 sell 12\n'), (0, 'version 1\n', ''))


class Example(unittest.TestCase):
    def test_the_example_prints_its_replies(self):
        with tempfile.TemporaryDirectory() as above:
            words = [sys.executable, '-W', 'error', os.path.join(TOP, 'examples', 'week.py'), os.path.join(above, 'book')]
            done = subprocess.run(words, stdout=subprocess.PIPE, check=True)
        self.assertEqual(done.stdout.decode(), read_text(os.path.join(TOP, 'examples', 'week.replies')))


if __name__ == '__main__':
    unittest.main()
