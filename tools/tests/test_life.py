"""A process that is killed, that gets too much, or whose output nobody reads; and commands that are interrupted."""
import os
import signal
import threading
import time
import unittest

from persist.client import INPUT_LIMIT, CutOff, Ended, Opened, Refused, Session, Trapped, Version, program_path
from tests.samples import LIST, a_program, alive, all_ended


class Killed(unittest.TestCase):
    def test_between_two_commands(self):
        with Session(LIST) as session:
            session.run(0, 'add', 1)
            os.kill(session.pid, signal.SIGKILL)
            with self.assertRaises(Ended) as caught:
                session.run(1, 'add', 2)
            self.assertEqual(caught.exception.status, -9)
            self.assertIn('signal 9', str(caught.exception))
            self.assertRaises(Ended, session.stats)
            self.assertEqual(session.end(), -9)

    def test_in_the_middle_of_a_command(self):
        with Session(LIST) as session:
            session.run(0, 'add', 1)
            session.budget(1_000_000_000)
            timer = threading.Timer(0.2, os.kill, (session.pid, signal.SIGKILL))
            timer.start()
            self.assertRaises(Ended, session.query, 1, 'spin')
            timer.join()
            session.restart()
            self.assertEqual(session.run(1, 'add', 2), Version(2))
            self.assertEqual(session.end(), 0)

    def test_an_end_by_itself_is_no_error(self):
        session = Session(LIST)
        self.assertEqual((session.end(), session.end()), (0, 0))
        self.assertRaises(Ended, session.stats)


class TooLong(unittest.TestCase):
    def test_64_mib_are_read_and_a_byte_more_is_not(self):
        with Session(LIST) as session:
            session.run(0, 'add', 1)
            self.assertEqual(session.command('x' * (session.room - 7)), Refused('line'))
            self.assertEqual((session.room, session.stats().records, session.room), (6, 2, 0))
            with self.assertRaises(Ended) as caught:
                session.stats()
            self.assertEqual(caught.exception.status, 5)
            self.assertIn(f'{INPUT_LIMIT:,}', str(caught.exception))
            session.restart()
            self.assertEqual(session.run(1, 'add', 2), Version(2))


class NobodyReads(unittest.TestCase):
    def test_the_write_fails(self):
        with Session(LIST) as session:
            nowhere = os.open(os.devnull, os.O_RDONLY)
            os.dup2(nowhere, session._process.stdout.fileno())
            os.close(nowhere)
            with self.assertRaises(Ended) as caught:
                session.run(0, 'add', 1)
            self.assertEqual(caught.exception.status, 2)


class Interrupted(unittest.TestCase):
    def interrupt(self, session, work):
        """Sends this process the signal of Ctrl-C while it waits for a reply."""
        timer = threading.Timer(0.3, os.kill, (os.getpid(), signal.SIGINT))
        timer.start()
        try:
            self.assertRaises(KeyboardInterrupt, work)
        finally:
            timer.join()
        self.assertRaises(CutOff, session.stats)

    def test_a_long_query_is_given_up_and_the_history_is_kept(self):
        with Session(LIST) as session:
            session.run(0, 'add', 1)
            self.assertEqual(session.open(1, 'add', 5), Opened(2))
            session.budget(1_000_000_000)
            before = session.versions(), session.stats()
            began = time.monotonic()
            self.interrupt(session, lambda: session.query(1, 'spin'))
            session.restart()
            self.assertLess(time.monotonic() - began, 6)
            self.assertEqual((session.versions(), session.stats()), before)
            self.assertEqual(session.close(2), Version(2))
            self.assertEqual(session.budget(5).charges, 5)
            self.assertEqual(session.query(1, 'spin'), Trapped('budget', 31))

    def test_a_session_that_is_left_in_the_middle_ends_at_once(self):
        began = time.monotonic()
        with Session(LIST) as session:
            session.budget(1_000_000_000)
            self.interrupt(session, lambda: session.query(0, 'spin'))
        self.assertEqual(session.end(), -15)
        self.assertLess(time.monotonic() - began, 6)

    def test_a_program_that_runs_below_a_script_ends_too(self):
        with a_program(f'import subprocess\nsys.exit(subprocess.call([{program_path()!r}] + sys.argv[1:]))') as path:
            with Session(LIST, path) as session:
                self.assertEqual(session.budget(1_000_000_000).charges, 1_000_000_000)
                self.interrupt(session, lambda: session.query(0, 'spin'))
                self.assertEqual(len(alive(session.pid, group=True)), 2)
            self.assertEqual(session.end(), -15)
            self.assertTrue(all_ended(session.pid))
            with Session(LIST, path) as session:
                self.assertEqual(session.run(0, 'add', 1), Version(1))
            self.assertEqual(session.end(), 0)


if __name__ == '__main__':
    unittest.main()
