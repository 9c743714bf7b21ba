"""The shell on a pseudo-terminal: keys, completion, kept history, Ctrl-C and Ctrl-D."""
import contextlib
import importlib.util
import os
import pty
import re
import select
import subprocess
import sys
import tempfile
import time
import unittest

from tests.samples import LIST, TOOLS, alive, all_ended

SECONDS = 20
UP, LEFT, CTRL_C, CTRL_D, TAB, ERASE_LINE = '\x1b[A', '\x1b[D', '\x03', '\x04', '\t', '\x15'
# Makes its standard input the terminal whose keys send it signals.
AT_TERMINAL = 'import fcntl, os, sys, termios; fcntl.ioctl(0, termios.TIOCSCTTY, 0); os.execv(sys.argv[1], sys.argv[1:])'


class Terminal:
    """A shell at a pseudo-terminal."""

    def __init__(self, home, *words):
        self.keys, other = pty.openpty()
        self.shown, self.seen = '', 0
        self.process = subprocess.Popen(
            [sys.executable, '-c', AT_TERMINAL, sys.executable, '-W', 'error', os.path.join(TOOLS, 'persist_shell.py'), *words],
            stdin=other, stdout=other, stderr=other, start_new_session=True,
            env={**os.environ, 'HOME': home, 'TERM': 'dumb', 'INPUTRC': os.devnull})
        os.close(other)

    def type(self, text):
        """Presses these keys."""
        os.write(self.keys, text.encode())

    def press_until(self, key, text):
        """Presses a key, and again each second, until a text is shown: line editing may miss a signal that comes in just then."""
        for _ in range(SECONDS):
            time.sleep(0.2)
            self.type(key)
            with contextlib.suppress(AssertionError):
                self.wait(text, 1)
                return
        raise AssertionError(f'{text!r} is not shown')

    def wait(self, text, seconds=SECONDS):
        """Waits until a text is shown behind what was waited for before; gives what stands between."""
        until = time.monotonic() + seconds
        while text not in self.shown[self.seen:]:
            left = until - time.monotonic()
            if left <= 0 or not select.select([self.keys], [], [], left)[0]:
                raise AssertionError(f'{text!r} is not shown, but {self.shown[self.seen:]!r}')
            try:
                fresh = os.read(self.keys, 65536).decode()
            except OSError:
                raise AssertionError(f'{text!r} is not shown before the end, but {self.shown[self.seen:]!r}') from None
            self.shown += re.sub('\x1b\\[[0-9;?]*[a-zA-Z]|\x07', '', fresh).replace('\r', '')
        at = self.shown.index(text, self.seen)
        between, self.seen = self.shown[self.seen:at], at + len(text)
        return between

    def end(self):
        """Waits for the end, and gives the status."""
        try:
            return self.process.wait(SECONDS)
        except subprocess.TimeoutExpired:
            self.process.kill()
            return self.process.wait()

    def close(self):
        """Lets go of the terminal, and ends the shell where it has not ended."""
        os.close(self.keys)
        if self.process.poll() is None:
            self.process.kill()
            self.process.wait()


@unittest.skipUnless(os.path.exists('/dev/ptmx'), 'there are no pseudo-terminals')
class Keys(unittest.TestCase):
    def setUp(self):
        folder = tempfile.TemporaryDirectory()
        self.addCleanup(folder.cleanup)
        self.home = folder.name
        self.path = os.path.join(self.home, 'list.persist')
        with open(self.path, 'w') as file:
            file.write(LIST + '%%\nrun 0 add 5\n')

    def terminal(self, *words):
        """A shell at a terminal, up to its first prompt."""
        terminal = Terminal(self.home, *words)
        self.addCleanup(terminal.close)
        terminal.wait(r'\help lists what can be typed')
        terminal.wait('1> ' if words else '0> ')
        return terminal

    def test_keys_and_the_end(self):
        terminal = self.terminal(self.path)
        terminal.type('add 7\n')
        terminal.wait('version 2\n2> ')
        terminal.type(r'\at 1' + '\n')
        terminal.wait('1 of 2> ')
        terminal.type('top\n')
        terminal.wait('| 1\n| 5\nok\n1 of 2> ')
        terminal.type('adx 8' + LEFT * 2 + '\x08d' + '\n')
        terminal.wait('version 3\n3> ')
        terminal.type(CTRL_D)
        self.assertEqual(terminal.end(), 0)

    @unittest.skipUnless(importlib.util.find_spec('readline'), 'this python has no line editing')
    def test_completion(self):
        terminal = self.terminal(self.path)
        terminal.type('ad' + TAB + '9\n')
        terminal.wait('version 2\n2> ')
        terminal.type('que' + TAB + '1 su' + TAB + '\n')
        terminal.wait('query 1 sum')
        terminal.wait('| 5\nok\n2> ')
        terminal.type('\\ch' + TAB + '2 fi' + TAB + '\n')
        terminal.wait('changed 2  add 9\n2> ')
        terminal.type('s' + TAB + TAB)
        self.assertIn('stats', terminal.wait('sum'))
        terminal.type(ERASE_LINE + r'\load ' + self.path[:-4] + TAB + '\n')
        terminal.wait('procedures add')

    @unittest.skipUnless(importlib.util.find_spec('readline'), 'this python has no line editing')
    def test_the_history_is_kept_from_one_shell_to_the_next(self):
        terminal = self.terminal(self.path)
        terminal.type('add 3\n')
        terminal.wait('version 2\n2> ')
        terminal.type(UP + '\n')
        terminal.wait('version 3\n3> ')
        terminal.type(r'\quit' + '\n')
        self.assertEqual(terminal.end(), 0)
        terminal = self.terminal(self.path)
        terminal.type(UP * 2 + '\n')
        terminal.wait('add 3\nversion 2\n')

    def test_ctrl_c_ends_a_long_run_and_not_the_session(self):
        terminal = self.terminal(self.path)
        terminal.type('budget 1000000000\n')
        terminal.wait('budget 1000000000\nbudget 1000000000\n1> ')
        began = time.monotonic()
        terminal.type('spin\n')
        terminal.wait('spin\n')
        time.sleep(0.5)
        terminal.type(CTRL_C)
        terminal.wait('given up; the program was started again, and 2 lines of the history were carried out\n1> ')
        self.assertLess(time.monotonic() - began, 6)
        terminal.type('add 1\n')
        terminal.wait('version 2\n2> ')
        terminal.type('add')
        terminal.wait('add')
        terminal.press_until(CTRL_C, '2> ')
        terminal.type('top\n')
        terminal.wait('| 1\n| 1\nok\n2> ')
        terminal.type(CTRL_D)
        self.assertEqual(terminal.end(), 0)

    def test_ctrl_c_leaves_out_the_rest_of_a_file(self):
        more = os.path.join(self.home, 'more')
        with open(more, 'w') as file:
            file.write('budget 1000000000\nrun 1 add 1\nquery 1 spin\nrun 1 add 2\n')
        terminal = self.terminal(self.path)
        terminal.type(rf'\do {more}' + '\n')
        terminal.wait('version 2\n')
        time.sleep(0.5)
        terminal.type(CTRL_C)
        terminal.wait('3 lines of the history were carried out\n2> ')
        terminal.type('add 1\n')
        terminal.wait('version 3\n3> ')

    def test_the_program_ends_with_the_shell(self):
        terminal = self.terminal(self.path)
        terminal.type(r'\dump' + '\n')
        terminal.wait('key: 5, next: null\n1> ')
        below = alive(terminal.process.pid)
        self.assertEqual(len(below), 1)
        terminal.type(CTRL_D)
        self.assertEqual(terminal.end(), 0)
        self.assertTrue(all_ended(below[0]))


if __name__ == '__main__':
    unittest.main()
