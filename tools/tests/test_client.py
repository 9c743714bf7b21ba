"""The client: all forms of replies, errors, questions, and the same replies as by standard input."""
import fcntl
import glob
import os
import pathlib
import select
import signal
import sys
import tempfile
import threading
import unittest

from persist import client as the_module
from persist.client import (
    Answer, Budget, Changed, CutOff, Done, Dropped, Dump, Ended, Field, ImageRefused, Never, NoAnswer, NotCarriedOut, Opened, PersistError,
    Pointer, ProgramRefused, Record, Refused, Running, Session, Stats, Trapped, UnknownReply, Version, Versions, WrongImage, WrongText, answer_to,
    must, read_answer, read_dump, read_outline, read_reply, read_text, read_versions, session_on, split_input, stretches_of, text_of,
    words_of)
from persist.errors import RULES
from persist.image import split_image
from tests.samples import LIST, TOP, a_program, made_up_script, written


class Replies(unittest.TestCase):
    def test_each_form(self):
        with Session(LIST) as session:
            self.assertEqual(session.run(0, 'add', 5), Version(1))
            self.assertEqual(session.run(1, 'add', -7), Version(2))
            self.assertEqual(session.run(1, 'add', 9), Version(3))
            self.assertEqual(session.query(2, 'sum'), Answer((-2,)))
            self.assertEqual(session.query(0, 'top'), Trapped('null', 22, (1,)))
            self.assertEqual(session.query(9, 'sum'), Refused('version'))
            self.assertEqual(session.open(3, 'add', 1), Opened(4))
            self.assertEqual(session.step(4, 1), Running(4))
            self.assertEqual(session.call(4, 'add', 2), Running(4))
            self.assertEqual(session.step(4, 1_000_000), Done(4))
            self.assertEqual(session.close(4), Version(4))
            self.assertEqual(session.open(0), Opened(5))
            self.assertEqual(session.drop(5), Dropped(5))
            self.assertEqual(session.budget(3), Budget(3))
            self.assertEqual(session.run(0, 'add', 1), Trapped('budget', 8))
            self.assertEqual(session.versions(), Versions((None, 0, 1, 1, 3)))
            self.assertEqual(session.stats(), Stats(7, 11, 6, 85))
            self.assertEqual(session.newest, 4)
            self.assertEqual(session.end(), 0)

    def test_each_has_printed_numbers_and_its_text(self):
        for reply, text in (
                (Version(1, (5, -6)), '| 5\n| -6\nversion 1\n'), (Answer(), 'ok\n'), (Trapped('null', 2, (7,)), '| 7\ntrap null at 2\n'),
                (Refused('line'), 'refused line\n'), (Opened(1), 'run 1\n'), (Running(2), 'run 2 running\n'), (Done(3), 'run 3 done\n'),
                (Dropped(4), 'dropped 4\n'), (Budget(5), 'budget 5\n'), (Versions((None, 0, 0)), '0\n1 from 0\n2 from 0\n'),
                (Stats(1, 2, 3, 4), 'records 1 pointers 2 values 3 bound 4\n'), (None, '')):
            self.assertEqual(text_of(reply), text)
            if reply:
                self.assertIsInstance(reply.printed, tuple)

    def test_a_line_without_a_reply(self):
        with Session(LIST) as session:
            for line in ('', ' \t\r', '# run 0 add 1', '  #x'):
                self.assertIsNone(session.command(line))
            self.assertEqual(session.command(' run\t0  add 5\r'), Version(1))
            self.assertEqual(session.command('run 0 add\x0b5'), Refused('line'))
            self.assertEqual(session.command('run 0 ädd 5'), Refused('line'))
            self.assertRaises(WrongText, session.command, 'run 0 add 1\nversions')

    def test_words_are_split_as_the_program_does(self):
        self.assertEqual(words_of('a\x0bb\x1cc\td \r'), ['a\x0bb\x1cc', 'd'])

    def test_versions_of_version_0_alone_and_twice(self):
        with Session('') as session:
            self.assertEqual(session.versions(), Versions((None,)))
            self.assertEqual(session.versions(), Versions((None,)))
            self.assertEqual(session.command('versions now'), Refused('line'))
            self.assertEqual(session.stats(), Stats(1, 0, 0, 1))

    def test_a_long_reply(self):
        with Session(LIST) as session:
            self.assertEqual(len(must(session.query(0, 'flood', 65536)).printed), 65536)
            reply = session.query(0, 'flood', 65537)
            self.assertEqual((reply.kind, len(reply.printed)), ('output', 65536))

    def test_must(self):
        with Session(LIST) as session:
            for refused in (session.query(0, 'top'), session.query(9, 'sum')):
                with self.assertRaises(NotCarriedOut) as caught:
                    must(refused)
                self.assertIs(caught.exception.reply, refused)
            self.assertEqual(must(session.run(0, 'add', 1)).number, 1)

    def test_what_is_no_reply(self):
        for command, printed, last in (
                ('run', (), 'ok'), ('run', (), 'version'), ('run', (), 'version 1 '), ('run', (), 'version ١'), ('run', (1,), 'refused line'),
                ('query', (), 'version 1'), ('step', (1,), 'run 1 done'), ('step', (), 'run 1'), ('open', (), 'run 1 done'), ('jump', (), 'ok'),
                ('budget', (), ''), ('stats', (), 'records 1 pointers 2 values 3'), ('query', (), 'trap null at'), ('drop', (), 'run 1')):
            self.assertRaises(UnknownReply, read_reply, command, printed, last)
        for lines in ([], ['1'], ['0', '1 from 1'], ['0', '2 from 0'], ['0', '1 from 0 ']):
            self.assertRaises(UnknownReply, read_versions, lines)
        for lines in ([], ['1 root:'], ['0 root: @1'], ['0 root: x'], ['refused path']):
            self.assertRaises(UnknownReply, read_dump, lines)
        for lines in ([], ['changed'], ['never', 'never'], ['refused line']):
            self.assertRaises(UnknownReply, read_answer, lines)


class Halves(unittest.TestCase):
    def test_half_of_a_character_is_not_sent(self):
        with Session(LIST) as session:
            self.assertRaises(WrongText, session.command, 'run 0 add \ud800')
            self.assertRaises(WrongText, session.commands, ['stats', 'jump \udfff\ud800'])
            self.assertEqual(session.command('jump \udc80'), Refused('line'))
            self.assertEqual(session.run(0, 'add', 1), Version(1))
        self.assertRaises(WrongText, Session, 'root \ud800: int;')


class Programs(unittest.TestCase):
    def test_a_refused_program(self):
        with self.assertRaises(ProgramRefused) as caught:
            Session('root a: int;\nproc p() {\n  a = b;\n}\n')
        fault = caught.exception
        self.assertEqual((fault.kind, fault.line, fault.text), ('unknown', 3, '  a = b;'))
        self.assertEqual(str(fault), 'refused unknown at 3: a = b;')
        with self.assertRaises(ProgramRefused) as caught:
            Session('root ' + 'a' * 33 + ': int;')
        self.assertEqual(caught.exception.kind, 'name-length')
        with self.assertRaises(ProgramRefused) as caught:
            Session('root a: int;\nproc p() {\n')
        self.assertEqual((caught.exception.line, caught.exception.text), (3, ''))

    def test_a_refused_program_that_fills_the_pipe(self):
        self.assertRaises(ProgramRefused, Session, 'root 7: int;\n' + '# a comment\n' * 100_000)

    def test_a_program_without_a_last_line_feed_or_with_a_separator(self):
        with Session('root a: int;') as session:
            self.assertEqual(session.stats().records, 1)
        self.assertRaises(WrongText, Session, 'root a: int;\n%% \nversions\n')

    def test_split_input(self):
        self.assertEqual(split_input('a\n%%\nb\nc\n'), ('a\n', ['b', 'c']))
        self.assertEqual(split_input('a\r\n%% \t\r\nb\r\n\r\nc'), ('a\r\n', ['b\r', '\r', 'c']))
        self.assertEqual(split_input('a\n %%\n'), ('a\n %%\n', []))
        self.assertEqual(split_input('%%\n'), ('', []))
        self.assertEqual(split_input('a\n%%'), ('a\n', []))

    def test_line_has_its_own_refusals(self):
        with Session(LIST, word='line') as session:
            session.run(0, 'add', 1)
            self.assertEqual(session.run(0, 'add', 2), Refused('old'))
            self.assertEqual(session.open(0), Refused('line'))
            self.assertEqual(session.stats(), Stats(2, 2, 1, 5))

    def test_wrong_words_and_no_program(self):
        with self.assertRaises(Ended) as caught:
            Session(LIST, word='jump')
        self.assertEqual(caught.exception.status, 3)
        self.assertRaises(FileNotFoundError, Session, LIST, path='/no/such/program')

    def test_an_outline(self):
        text = written('check', 'language 2 root n: int; record A 2 { ptr next: A; val x: int*2; val y: int; } root top: A;'
                       'proc p() { } query q(a: int, b: A): A { return b; }').decode()
        outline = read_outline(text)
        self.assertEqual(outline.roots, (Field('n', 'int'), Field('top', 'A')))
        self.assertEqual(outline.records, {'A': (Field('next', 'A'), Field('x', 'int', 2), Field('y', 'int'))})
        self.assertEqual((outline.procedures, outline.queries), ({'p': ()}, {'q': ('a: int', 'b: A')}))
        self.assertEqual(outline.contents(Record(1, 'A', (5, 6, 7, None))), [('x(0)', 5), ('x(1)', 6), ('y', 7), ('next', None)])
        self.assertEqual(outline.contents(Record(0, 'root', (5, Pointer(1)))), [('n', 5), ('top', Pointer(1))])


class Questions(unittest.TestCase):
    def test_dump_and_changed_in_mid_session(self):
        with Session(LIST) as session:
            session.run(0, 'add', 5)
            session.query(1, 'sum')
            session.query(0, 'top')
            session.run(9, 'add', 5)
            session.open(1)
            session.call(2, 'add', 7)
            session.run(1, 'add', 1)
            session.close(2)
            self.assertEqual(session.dump(3), Dump((
                Record(0, 'root', (Pointer(1),)), Record(1, 'Node', (7, Pointer(2))), Record(2, 'Node', (5, None)))))
            self.assertEqual(str(session.dump(3)), '0 root: @1\n1 Node: 7 @2\n2 Node: 5 null')
            self.assertEqual(session.changed(3, 'first.next.key'), Changed(3))
            self.assertEqual(session.changed(2, 'first.next.next'), Changed(2))
            self.assertEqual(session.changed(0, 'first'), Never())
            self.assertEqual(session.changed(3, 'first.size'), Refused('path'))
            self.assertEqual((session.dump(9), session.changed(9, 'first')), (Refused('version'), Refused('version')))
            with self.assertRaises(NoAnswer) as caught:
                session.changed(3, 'first..key')
            self.assertEqual((caught.exception.words, caught.exception.status), (('changed', '3', 'first..key'), 3))
            self.assertEqual(session.history.lines, ['run 0 add 5', 'open 1', 'call 2 add 7', 'run 1 add 1', 'close 2'])
            self.assertEqual(session.run(3, 'add', 1), Version(4))

    def test_a_history_given_again_is_the_same(self):
        with Session(LIST) as session:
            for line in ('run 0 add 1', 'budget 2', 'run 1 add 2', 'open 1 add 3', 'budget 100', 'run 1 add 4', 'step 3 2', 'close 3',
                         'jump', 'run 2 add 5', 'stats', 'versions', 'open 1', 'drop 6'):
                session.command(line)
            versions, stats, lines = session.versions(), session.stats(), session.history.lines
            with Session(session.program) as again:
                for line in lines:
                    again.command(line)
                self.assertEqual((again.versions(), again.stats(), again.history.lines), (versions, stats, lines))
            session.restart()
            self.assertEqual((session.versions(), session.stats(), session.history.lines), (versions, stats, lines))
            self.assertEqual(session.history.parents, list(versions.parents))

    def test_what_made_each_version(self):
        with Session(LIST) as session:
            for line in ('run 0 add 1', 'open 1 add 2', 'call 2 add 3', 'run 1 add 4', 'close 2', 'open 0', 'close 3'):
                session.command(line)
            self.assertEqual(session.history.calls, [(), ('add 1',), ('add 4',), ('add 2', 'add 3')])
            self.assertEqual((session.history.label(3), session.history.label(3, 8)), ('add 2; add 3', 'add 2;..'))
            self.assertEqual(session.history.parents, [None, 0, 1, 1])


class SameReplies(unittest.TestCase):
    def assert_same(self, program, script, word='run'):
        """A session gives what standard input gives."""
        with Session(program, word=word) as session:
            got = ''.join(text_of(session.command(line)) for line in script)
            self.assertEqual(session.end(), 0)
        self.assertEqual(got, written(word, ''.join([program, '%%\n', *(f'{line}\n' for line in script)])).decode())
        return session

    def test_20_000_commands(self):
        script = made_up_script(19_997, 1)
        for at in (500, 5000, 19_999):
            script.insert(at, 'versions')
        session = self.assert_same(LIST, script)
        self.assertEqual(len(script), 20_000)
        self.assertGreater(session.newest, 5000)
        seen = {line.split()[0] for line in script if line.split()}
        self.assertGreaterEqual(seen, {'run', 'query', 'open', 'call', 'step', 'close', 'drop', 'budget', 'versions', 'stats'})

    def test_by_replay_and_line(self):
        script = made_up_script(300, 2)
        self.assert_same(LIST, script, 'replay')
        self.assert_same(LIST, script, 'line')

    def test_the_examples(self):
        paths = sorted(glob.glob(os.path.join(TOP, 'examples', '*.persist')))
        self.assertTrue(paths)
        for path in paths:
            program, script = split_input(read_text(path))
            with Session(program) as session:
                got = ''.join(text_of(session.command(line)) for line in script)
            self.assertEqual(got, read_text(path[:-len('persist')] + 'replies'), path)

    def test_several_threads(self):
        with Session(LIST) as session:
            got = []

            def work(key):
                for _ in range(200):
                    got.append(must(session.run(0, 'add', key)).number)
            threads = [threading.Thread(target=work, args=(key,)) for key in range(4)]
            for thread in threads:
                thread.start()
            for thread in threads:
                thread.join()
            self.assertEqual(sorted(got), list(range(1, 801)))


class Pipes(unittest.TestCase):
    """Many lines at once, through pipes of one page."""

    # Sets how many bytes a pipe of Linux holds; fcntl names it from python3.10 on.
    SET_PIPE_SIZE = 1031

    @unittest.skipUnless(sys.platform == 'linux', 'pipes have a size of their own elsewhere')
    def test_long_lines_with_long_replies(self):
        with Session(LIST) as session:
            for descriptor in session.descriptors():
                self.assertEqual(fcntl.fcntl(descriptor, self.SET_PIPE_SIZE, select.PIPE_BUF), select.PIPE_BUF)
            # Where both wait for each other the process is killed, and that is an error.
            timer = threading.Timer(60, os.killpg, (session.pid, signal.SIGKILL))
            timer.start()
            lines = [f'query 0 flood {count}'.ljust(1000) for count in range(2000, 2032)]
            replies = session.commands([*lines, 'versions', 'x' * 100_000, 'run 0 add 1'])
            timer.cancel()
            self.assertEqual([len(must(it).printed) for it in replies[:32]], list(range(2000, 2032)))
            self.assertEqual(replies[32:], [Versions((None,)), Refused('line'), Version(1)])
            self.assertEqual(session.commands([]), [])

    def test_stretches(self):
        for sizes, stretches in (([], []), ([9], [[0]]), ([1, 2, 3], [[0, 1], [2]]), ([9, 1, 2, 1], [[0], [1, 2], [3]]), ([3, 3], [[0], [1]])):
            self.assertEqual([list(it) for it in stretches_of(sizes, 3)], stretches)


class WithoutHistory(unittest.TestCase):
    def test_it_answers_and_is_not_begun_again(self):
        with Session(LIST, keeps_history=False) as session:
            self.assertEqual([session.run(0, 'add', 5), session.query(1, 'sum')], [Version(1), Answer((5,))])
            self.assertEqual((session.history.lines, session.history.parents), ([], [None]))
            for asked in (session.restart, session.packed, session.input):
                self.assertRaises(PersistError, asked)
            self.assertEqual(session.run(1, 'add', 7), Version(2))


class Images(unittest.TestCase):
    """Sessions that begin with an image."""

    def setUp(self):
        with Session(LIST) as session:
            session.run(0, 'add', 5)
            session.run(1, 'add', 7)
            session.open(2)
            self.image = session.packed()

    def test_a_session_on_bytes_and_on_a_file(self):
        with tempfile.TemporaryDirectory() as folder:
            path = os.path.join(folder, 'image')
            with open(path, 'wb') as file:
                file.write(self.image)
            for given in (self.image, path, pathlib.Path(path)):
                with Session(image=given) as session:
                    self.assertEqual((session.newest, session.history.parents, session.program.count('proc')), (2, [None, 0, 1], 1))
                    self.assertEqual(session.query(2, 'sum'), Answer((12,)))
                    self.assertEqual(session.query(0, 'top'), Trapped('null', 22, (1,)))
                    self.assertEqual((session.run(2, 'add', 1), session.versions().parents), (Version(3), (None, 0, 1, 2)))

    def test_it_tells_what_versions_hold(self):
        with Session(image=self.image) as session:
            self.assertEqual(session.dump(2), Dump((
                Record(0, 'root', (Pointer(1),)), Record(1, 'Node', (7, Pointer(2))), Record(2, 'Node', (5, None)))))
            self.assertEqual(text_of(session.command('dump 1')), '0 root: @1\n1 Node: 5 null\nok\n')
            self.assertEqual((session.changed(2, 'first.next'), session.changed(0, 'first')), (Changed(2), Never()))
            self.assertEqual((session.dump(9), session.changed(9, 'first'), session.changed(2, 'last')),
                             (Refused('version'), Refused('version'), Refused('path')))
            self.assertEqual((session.command('dump'), session.command('changed 1')), (Refused('line'), Refused('line')))
            self.assertEqual(session.commands(['dump 9', 'stats', 'changed 2 first'])[::2], [Refused('version'), Changed(2)])
        with Session(LIST) as session:
            self.assertEqual((session.command('dump 0'), session.command('changed 0 first')), (Refused('line'), Refused('line')))

    def test_it_is_started_again_and_packed_again(self):
        with Session(image=self.image) as session:
            session.run(2, 'add', 1)
            session.open(3, 'add', 9)
            before = session.versions(), session.stats(), session.dump(3)
            session.restart()
            self.assertEqual((session.versions(), session.stats(), session.dump(3)), before)
            self.assertEqual(session.close(5), Version(4))
            self.assertEqual(session.input().encode('utf-8', 'surrogateescape')[:len(self.image)], self.image)
            again = session.packed()
        with Session(image=again) as session:
            self.assertEqual((session.newest, session.query(4, 'sum'), session.open(4)), (4, Answer((22,)), Opened(6)))

    def test_an_image_with_damage_is_refused_by_its_rule(self):
        text = 16 + int.from_bytes(self.image[8:16], 'big')
        cut = [(self.image[:length], 0) for length in (0, 1, 8, 15, 16, text - 1, text, text + 60, len(self.image) - 8, len(self.image) - 1)]
        for data, rule in cut + [(b'X' + self.image[1:], 0), (self.image[:20] + b'#' + self.image[21:], 1),
                                 (self.image[:text] + bytes(8) + self.image[text + 8:], 2), (self.image[:text + 48] + b'\xff' * 8, 0)]:
            with self.assertRaises(ImageRefused) as caught:
                Session(image=data)
            self.assertEqual(caught.exception.rule, rule)
            self.assertRegex(str(caught.exception), rf'^refused image {rule}: [a-z ,]+')
        self.assertEqual(len(RULES), 10)

    def test_what_stands_behind_an_image_is_its_script(self):
        given = self.image + b'run 2 add 1\n# \xff\nquery 3 sum'
        self.assertRaises(WrongText, Session, image=given)
        self.assertEqual(split_image(given), (self.image, ['run 2 add 1', '# \udcff', 'query 3 sum']))
        session, script = session_on(given)
        with session:
            self.assertEqual([session.command(line) for line in script], [Version(3), None, Answer((13,))])
        session, script = session_on(LIST.encode() + b'%%\nstats\n')
        with session:
            self.assertEqual((session.is_served, script), (False, ['stats']))
        self.assertRaises(ImageRefused, session_on, given[:400])
        self.assertRaises(WrongImage, split_image, given[:400])
        self.assertRaises(TypeError, Session)
        self.assertRaises(TypeError, Session, LIST, image=self.image)


class BadPrograms(unittest.TestCase):
    """Programs that do not do what `persist` does."""

    def test_another_text(self):
        begin = "sys.stdin.readline()\nprint('refused line', flush=True)\nfor line in sys.stdin: print({!r}, flush=True)"
        for text in ('version 2', 'hello', '| x', '', 'ok', 'version 1 \u00e9'):
            with a_program(begin.format(text)) as path, Session('', path) as session:
                self.assertRaises(UnknownReply, session.run, 0, 'add', 1)
                self.assertRaises(CutOff, session.run, 0, 'add', 1)

    def test_another_beginning(self):
        for text, error in (("print('hello', flush=True)", UnknownReply), ("print('refused line', end='')", Ended), ('', Ended)):
            with a_program(text) as path:
                self.assertRaises(error, Session, '', path)

    def test_half_a_reply(self):
        text = "print('refused line', flush=True)\nprint('| 1\\nversi', end='', flush=True)\nsys.exit(9)"
        with a_program(text) as path, Session('', path) as session:
            with self.assertRaises(Ended) as caught:
                session.run(0, 'add', 1)
            self.assertEqual(caught.exception.status, 9)
            self.assertRaises(Ended, session.stats)

    def test_standard_output_closed_and_no_end(self):
        patience, the_module.PATIENCE = the_module.PATIENCE, 0.2
        self.addCleanup(setattr, the_module, 'PATIENCE', patience)
        text = "print('refused line', flush=True)\nos.close(1)\ntime.sleep(60)"
        with a_program(text) as path, Session('', path) as session:
            with self.assertRaises(Ended) as caught:
                session.run(0, 'add', 1)
            self.assertEqual((caught.exception.status, session.end()), (-9, -9))

    def test_one_that_does_not_end(self):
        patience, the_module.PATIENCE = the_module.PATIENCE, 0.2
        self.addCleanup(setattr, the_module, 'PATIENCE', patience)
        with a_program("print('refused line', flush=True)\ntime.sleep(60)") as path:
            self.assertEqual(Session('', path).end(), -9)
        with a_program("import signal\nsignal.signal(signal.SIGTERM, signal.SIG_IGN)\ntime.sleep(60)") as path:
            timer = threading.Timer(0.5, os.kill, (os.getpid(), signal.SIGINT))
            timer.start()
            self.assertRaises(KeyboardInterrupt, Session, '', path)
            timer.join()
            timer = threading.Timer(0.5, os.kill, (os.getpid(), signal.SIGINT))
            timer.start()
            self.assertRaises(KeyboardInterrupt, answer_to, ['check'], '', path)
            timer.join()


if __name__ == '__main__':
    unittest.main()
