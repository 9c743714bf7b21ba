"""The session in this process: the same replies as from a process of the program. What the library has to be built for is skipped without it."""
import os
import unittest

from persist import client, embedded
from persist.client import Answer, Refused, Session, Trapped, Version, must


PROGRAM = '''record Letter 2 { val code: int; ptr next: Letter; }
root text: Letter;
proc key(code: int) { var n: Letter; n = new Letter; n.code = code; n.next = text; text = n; }
query last() { print text.code; }
'''
LINES = ['run 0 key 104', 'run 1 key -105', 'query 2 last', 'query 0 last', 'query 9 last', 'run 1 last', 'now', 'open 1 key 7', 'step 1 3', 'open 2', 'call 2 key 9',
         'drop 2', 'close 1', 'budget 300', 'versions', 'stats', 'run 3 key', 'run 3 key 9223372036854775808', 'query 3 last']


@unittest.skipUnless(os.environ.get('PERSIST_LIBRARY'), 'PERSIST_LIBRARY does not name where the library is')
class EmbeddedTest(unittest.TestCase):
    def test_replies_are_those_of_a_process(self) -> None:
        with Session(PROGRAM) as one, Session(PROGRAM, embedded=True) as other:
            self.assertIsInstance(other, embedded.EmbeddedSession)
            for line in LINES:
                self.assertEqual(one.command(line), other.command(line), line)
            self.assertIsNone(other.command('# nothing'))
            self.assertEqual([one.dump(v) for v in range(5)], [other.dump(v) for v in range(5)])
            self.assertEqual(one.changed(2, 'text.next.code'), other.changed(2, 'text.next.code'))
            self.assertEqual(one.changed(2, 'text.code.next'), other.changed(2, 'text.code.next'))
            self.assertEqual((one.packed(), one.canonical(), one.input()), (other.packed(), other.canonical(), other.input()))

    def test_goes_on_from_an_image(self) -> None:
        with Session(PROGRAM, embedded=True) as first:
            must(first.run(0, 'key', 104))
            image = first.packed()
        with Session(image=image) as one, Session(image=image, embedded=True) as other:
            for line in [*LINES, 'dump 1', 'changed 1 text.code', 'dump 99', 'changed 1 text..code', 'changed 1 int', 'changed 1 text.none', 'dump 01', 'dump 4294967296', 'dump']:
                self.assertEqual(one.command(line), other.command(line), line)
            self.assertEqual(one.packed(), other.packed())

    def test_refusals(self) -> None:
        for program in ['root n', 'root n: Letter;\n', 'root n: int;\nroot n: int;\n']:
            with self.assertRaises(client.ProgramRefused) as one, Session(program):
                pass
            with self.assertRaises(client.ProgramRefused) as other, Session(program, embedded=True):
                pass
            self.assertEqual(str(one.exception), str(other.exception))
        with self.assertRaises(client.ImageRefused), Session(image=b'no image', embedded=True):
            pass

    def test_ends_and_begins_again(self) -> None:
        session = Session(PROGRAM, embedded=True)
        self.assertEqual(session.run(0, 'key', 7), Version(1))
        session.restart()
        self.assertEqual((session.query(1, 'last'), session.query(0, 'last').__class__, session.query(2, 'last')), (Answer((7,)), Trapped, Refused('version')))
        self.assertEqual((session.end(), session.end()), (0, 0))
        with self.assertRaises(client.Ended):
            session.command('versions')


if __name__ == '__main__':
    unittest.main()
