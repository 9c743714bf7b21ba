"""The shell without a terminal: lines, words, what is said of traps and refusals, and what completion offers."""
import glob
import io
import os
import re
import subprocess
import sys
import tempfile
import unittest
import unittest.mock
import xml.dom.minidom

from persist.client import Ended, read_text
from persist.history import Notes
from persist.shell import COMMANDS, FAULTS, HELP, REFUSALS, SHOWN, TRAPS, WORDS, Shell
from tests.samples import LIST, SCRIPT, TOOLS, TOP, TREE


class Typed(unittest.TestCase):
    """A shell on a sample, and what it says."""

    def setUp(self):
        folder = tempfile.TemporaryDirectory()
        self.addCleanup(folder.cleanup)
        self.folder = folder.name
        self.out = io.StringIO()
        self.shell = Shell(self.out)
        self.addCleanup(lambda: self.shell.end())
        self.ask(rf'\load {self.file("list.persist", LIST + SCRIPT)}')

    def file(self, name, text):
        """The path of a file with a text."""
        path = os.path.join(self.folder, name)
        with open(path, 'w') as file:
            file.write(text)
        return path

    def ask(self, *lines):
        """What is said when these lines are typed."""
        self.out.truncate(self.out.seek(0))
        for line in lines:
            self.assertTrue(self.shell.line(line))
        return self.out.getvalue()


class Lines(Typed):
    def test_lines_and_short_lines(self):
        self.assertEqual(self.ask('sum', 'query 2 sum', r'\at 3', 'add 100', 'query . sum', '# nothing', ''),
                         '| 6\nok\n| 3\nok\nversion 6\n| 107\nok\n')
        self.assertEqual(self.shell.prompt(), '6> ')
        self.assertEqual(self.ask('open . add 1', 'run 6 add 1', 'close 9', 'close 7'),
                         'run 7\nversion 7\nrefused run\n  no open run has that number\nversion 8\n')

    def test_moving(self):
        said = self.ask(r'\at 3', r'\up', r'\tree')
        self.assertEqual(said, TREE.replace('2  add 2', '2 *  add 2'))
        self.assertEqual(self.shell.prompt(), '2 of 5> ')
        self.assertEqual(self.ask(r'\at 0', r'\up'), 'version 0 was made from none\n')

    def test_a_trap_is_shown_with_its_line_and_meaning(self):
        self.assertEqual(self.ask('query 0 top'),
                         '| 1\ntrap null at 22\n  a field of null was read or written\n>  22    print first.key;\n')

    def test_a_refusal_is_shown_with_its_meaning(self):
        self.assertEqual(self.ask('add', 'run 9 add 1'), 'refused arguments\n  there are not as many arguments as parameters, or a '
                         'parameter is not int\nrefused version\n  no version has that number\n')

    def test_what_fails_in_a_file_is_told_with_the_line_of_the_script(self):
        path = os.path.join(self.folder, 'list.persist')
        said = self.ask(rf'\load {path}')
        self.assertTrue(said.startswith(f'{path}: procedures add; queries sum, top, flood, spin\nversion 1\n'), said)
        self.assertIn(f'refused version\n  {path}:41: run 9 add 4\n  no version has that number\n', said)
        self.assertIn(f'trap null at 22\n  {path}:42: query 0 top\n', said)
        more = self.file('more', 'add 1\njump\n')
        self.assertEqual(self.ask(rf'\do {more}'), f'version 6\nrefused line\n  {more}:2: jump\n  the words have none of the forms of '
                         'a script line\n')

    def test_a_process_that_ended_is_started_again(self):
        os.kill(self.shell.session.pid, 9)
        self.assertEqual(self.ask('add 1', 'add 1'), 'the program ended with status -9, by signal 9; the program was started again, and 8 '
                         'lines of the history were carried out\nversion 6\n')

    def test_a_session_that_can_t_be_started_again(self):
        os.kill(self.shell.session.pid, 9)
        self.shell.session.path = '/no/such/program'
        self.assertIn('could not be carried out again', self.ask('add 1'))
        self.assertRaises(Ended, self.shell.session.stats)
        self.assertIn('run 0 add 1\n', self.ask(rf'\save {self.folder}/kept') or read_text(f'{self.folder}/kept'))


class Words(Typed):
    def test_dump_and_changed(self):
        self.assertEqual(self.ask(r'\dump 1', r'\changed first.key', r'\changed 0 first.next', r'\changed . last', r'\changed a..b'),
                         '0 root  first: @1\n1 Node  key: 1, next: null\nchanged 5  add 5\nnever\nrefused path\n  the program has no such '
                         'path: a root, and then fields that are no arrays, joined by dots\na..b is no path: a root, and then fields, '
                         'joined by dots\n')

    def test_list(self):
        self.assertEqual(self.ask(r'\list 2'), '    1  record Node 2 { val key: int; ptr next: Node; }\n>   2  root first: Node;\n'
                         '    3  proc add(key: int) {\n    4    var n: Node;\n')
        self.assertEqual(self.ask(r'\list').count('\n'), LIST.count('\n'))
        self.assertEqual(self.ask(r'\list x'), 'x is no line\n')

    def test_a_saved_history_is_the_same(self):
        said = self.ask('run . add 3', rf'\save "{self.folder}/a name"', rf'\load "{self.folder}/a name"', r'\tree')
        self.assertTrue(said.endswith('+- 2  add 2\n|  3  add 4\n+- 4  add 7; add 8\n|\n5  add 5\n6 *  add 3\n'), said)

    def image(self, behind=b''):
        """The path of a file with an image of the sample, and a script behind it."""
        path = os.path.join(self.folder, 'list.image')
        with open(path, 'wb') as file:
            file.write(self.shell.session.packed() + behind)
        return path

    def test_an_image_is_loaded(self):
        said = self.ask(rf'\load {self.image()}')
        self.assertTrue(said.endswith('an image, whose newest version is 5\n'), said)
        self.assertEqual((self.shell.prompt(), self.ask('sum', 'add 2', 'query . sum')), ('5> ', '| 6\nok\nversion 6\n| 8\nok\n'))
        self.assertEqual(self.ask(r'\dump 1', r'\changed 6 first.next', r'\at 5'), '0 root  first: @1\n1 Node  key: 1, next: null\nchanged 6  add 2\n')
        self.assertEqual(self.ask(r'\diff 1 2'), '~ root  first: Node 1.0 -> Node 2.0\n+ Node 2.0  key: 2, next: Node 1.0\n')
        self.assertEqual(self.ask('query 0 top').splitlines()[1], 'trap null at 22')
        self.assertIn('|\n5 *\n6  add 2\n', self.ask(r'\tree'))
        self.assertEqual(self.ask(rf'\save {self.folder}/saved', rf'\load {self.folder}/saved')[-21:], 'version is 5\nversion 6\n'[-21:])
        self.assertEqual(self.ask('query 6 sum', r'\restart', 'query 6 sum').count('| 8\nok\n'), 2)

    def test_an_image_with_a_script_or_with_damage(self):
        path = self.image(b'run 5 add 3\nrun 9 add 1\n')
        said = self.ask(rf'\load {path}', 'sum')
        self.assertTrue(said.endswith(f'version 6\nrefused version\n  {path}:2: run 9 add 1\n  no version has that number\n| 9\nok\n'), said)
        with open(path, 'r+b') as file:
            file.truncate(700)
        self.assertTrue(self.ask(rf'\load {path}').startswith('refused image 0: '))
        self.assertEqual(self.ask('sum'), '| 9\nok\n')

    def test_pictures(self):
        self.assertEqual(self.ask(rf'\draw {self.folder}/t.svg', rf'\draw {self.folder}/r.svg 4', rf'\draw {self.folder}/t.dot',
                                  rf'\draw {self.folder}/r.dot .', rf'\draw {self.folder}/t.txt'), '')
        for name, elements, many in (('t.svg', 'path', 5), ('r.svg', 'path', 5)):
            picture = xml.dom.minidom.parse(os.path.join(self.folder, name))
            self.assertEqual(len(picture.getElementsByTagName(elements)), many, name)
        self.assertEqual(read_text(os.path.join(self.folder, 't.txt')), TREE.replace('5  add', '5 *  add'))
        for name in ('t.dot', 'r.dot'):
            self.assertTrue(read_text(os.path.join(self.folder, name)).startswith('digraph'))
        self.assertEqual(self.ask(r'\draw x.png', r'\draw x.txt 1'),
                         'x.png has to end with .svg or .dot, or with .txt\nx.txt has to end with .svg or .dot\n')

    def test_a_program_with_a_fault_leaves_the_old_one(self):
        bad = self.file('bad.persist', 'root a: int;\nproc p() {\n  a = b;\n}\n')
        self.assertEqual(self.ask(rf'\load {bad}'), 'refused unknown at 3\n  a name that is not declared; new and call give their result to a '
                         'local or parameter only\n    1  root a: int;\n    2  proc p() {\n>   3    a = b;\n    4  }\n')
        self.assertIn('>   2  (the end', self.ask(rf'\load {self.file("end.persist", "proc p() {" + chr(10))}'))
        self.assertIn('No such file', self.ask(r'\load /no/such/file'))
        self.assertEqual(self.ask('sum'), '| 6\nok\n')

    def test_what_is_written_otherwise(self):
        self.assertEqual(self.ask(r'\at 9', r'\at', r'\at 1 2', r'\jump', r'\at x', r'\save "x', '\\'), 'there is no version 9\n'
                         'it is written \\at V\nit is written \\at V\n\\jump is no word of the shell; \\help lists them\nthere is no version x\n'
                         'a quotation mark has no end\n\\ is no word of the shell; \\help lists them\n')
        self.assertEqual(self.ask(r'\help'), HELP + '\n')
        for word in WORDS:
            self.assertIn(f'\\{word} ', HELP)
            self.assertTrue(word == 'quit' or hasattr(self.shell, f'do_{word}'))
        self.assertFalse(self.shell.line(r'\quit'))
        self.assertFalse(self.shell.line(r' \q '))

    def test_restart(self):
        self.assertEqual(self.ask(r'\restart', 'sum'),
                         'the program was ended; the program was started again, and 8 lines of the history were carried out\n| 6\nok\n')


class Past(Typed):
    """What is told of versions: log, show, diff, and names."""

    def test_log_and_show(self):
        self.assertEqual(self.ask(r'\name monday 2', r'\log 3'), 'version 3  add 4\nversion 2  (monday)  add 2\nversion 1  add 1\nversion 0\n')
        self.assertEqual(self.ask(r'\log 0', r'\show 0'), 'version 0\nversion 0\n')
        self.assertEqual(self.ask(r'\at 1', r'\log'), 'version 1  add 1\nversion 0\n')
        self.assertEqual(self.ask(r'\show 3'), 'version 3  add 4\nbeside version 2\n~ root  first: Node 2.0 -> Node 3.0\n'
                         '+ Node 3.0  key: 4, next: Node 2.0\n')

    def test_differences(self):
        self.assertEqual(self.ask(r'\diff 3 3'), 'nothing\n')
        self.assertEqual(self.ask(r'\diff 3 1'), '~ root  first: Node 3.0 -> Node 1.0\n- Node 3.0  key: 4, next: Node 2.0\n'
                         '- Node 2.0  key: 2, next: Node 1.0\n')
        self.assertEqual(self.ask('add 9', r'\diff 5 .'), 'version 6\n~ root  first: Node 5.0 -> Node 6.0\n+ Node 6.0  key: 9, next: Node 5.0\n')
        self.assertEqual(self.ask(r'\diff 1', r'\diff 1 9'), 'it is written \\diff A B\nthere is no version 9\n')

    def test_names_are_kept_with_the_file(self):
        self.assertEqual(self.ask(r'\names', r'\name monday 2', r'\name last', r'\at monday', r'\names'), 'last    5\nmonday  2\n')
        self.assertEqual(self.shell.prompt(), '2 of 5> ')
        self.assertEqual(self.shell.fitting(['\\at'], 'm'), ['monday '])
        self.assertEqual(self.ask(r'\name 7up', r'\name a..b 9', r'\unname sunday', r'\at sunday'),
                         '7up is no name: letters, digits and _ - . with a letter or _ first, at most 64\nthere is no version 9\n'
                         'no version is called sunday\nthere is no version sunday\n')
        self.ask(r'\unname last', rf'\save {self.folder}/kept', r'\name other 1', rf'\load {self.folder}/kept')
        self.assertEqual(self.ask(r'\names', r'\dump monday'), 'monday  2\n0 root  first: @1\n1 Node  key: 2, next: @2\n2 Node  key: 1, next: null\n')

    def test_who_when_and_why_are_noted_and_kept_with_the_file(self):
        told = r'by anna \d{4}-\d\d-\d\d \d\d:\d\d:\d\d'
        self.ask(r'\by anna', r'\why "a loaf"', 'add 9', r'\why', 'add 8', r'\name loaf 6')
        self.assertEqual(self.ask(r'\by'), 'anna\n')
        shown = rf'version 7  add 8  {told}\nversion 6  \(loaf\)  add 9  {told}  a loaf\nversion 5  .*\n'
        self.assertRegex(self.ask(r'\log 7'), shown)
        self.ask(rf'\save {self.folder}/kept', rf'\load {self.folder}/kept')
        self.assertRegex(self.ask(r'\log 7'), shown)
        # It is the file of a server, and tells nothing of versions that were made otherwise.
        notes = Notes(f'{self.folder}/kept.notes')
        self.addCleanup(notes.end)
        self.assertEqual((notes.of(6).by, notes.of(6).why, notes.of(6).call, notes.names), ('anna', 'a loaf', 'add 9', {'loaf': 6}))
        text = read_text(f'{self.folder}/kept').replace('add 9', 'add 10')
        self.file('kept', text)
        self.ask(rf'\load {self.folder}/kept')
        self.assertRegex(self.ask(r'\log 7'), rf'version 7  add 8  {told}\nversion 6  \(loaf\)  add 10\nversion 5  .*\n')

    def test_of_a_long_file_only_what_fails_is_shown(self):
        lines = [f'run {version} add 1' for version in range(SHOWN)] + ['jump']
        path = self.file('long.persist', LIST + '%%\n' + '\n'.join(lines) + '\n')
        said = self.ask(rf'\load {path}')
        number = LIST.count('\n') + len(lines) + 1
        self.assertEqual(said.split('\n')[1:], ['refused line', f'  {path}:{number}: jump', '  the words have none of the forms of a script line',
                                                f'{len(lines)} lines were carried out; the newest version is {SHOWN}', ''])
        self.assertEqual(self.ask('add 1'), f'version {SHOWN + 1}\n')

    def test_a_pager_and_colours_at_a_terminal(self):
        with tempfile.TemporaryDirectory() as folder:
            shown = os.path.join(folder, 'shown')
            self.shell.out = self.out = AtTerminal()
            with unittest.mock.patch.dict(os.environ, {'PAGER': f'tee {shown}', 'LINES': '3', 'COLUMNS': '80', 'TERM': 'xterm'}), \
                    unittest.mock.patch('subprocess.Popen', quietly(subprocess.Popen)):
                os.environ.pop('NO_COLOR', None)
                self.assertEqual(self.ask(r'\log 3'), '')
                self.assertEqual(read_text(shown).split('\n')[0], '\033[33mversion 3\033[0m  add 4')
                os.environ['NO_COLOR'] = '1'
                self.assertEqual(self.ask(r'\log 1'), 'version 1  add 1\nversion 0\n')
                os.environ['PAGER'] = '/no/such/pager'
                self.assertTrue(self.ask(r'\log 3').startswith('the pager /no/such/pager can not be started'))


class AtTerminal(io.StringIO):
    """What is said as if at a terminal."""

    def isatty(self):
        return True


def quietly(start):
    """Starts processes of which the pager's output is thrown away."""
    def started(words, **given):
        return start(words, **({'stdout': subprocess.DEVNULL, **given} if words[0] == 'tee' else given))
    return started


class Faults(Typed):
    def test_paths_that_are_none_and_halves_of_characters(self):
        self.assertIn('null byte', self.ask('\\load a\0b'))
        self.assertIn('null byte', self.ask('\\save a\0b'))
        self.assertIn('is a folder', self.ask(rf'\load {self.folder}'))
        self.assertEqual(self.ask('add \ud800', 'sum'), "'\\ud800' is half of a character, and no text\n| 6\nok\n")


class Completion(Typed):
    def test_what_may_stand_there(self):
        fitting = self.shell.fitting
        self.assertEqual(fitting([], 's'), ['step ', 'stats ', 'sum ', 'spin '])
        self.assertEqual(fitting([], '\\d'), ['\\diff ', '\\dump ', '\\do ', '\\draw '])
        self.assertEqual(fitting(['run', '1'], ''), ['add '])
        self.assertEqual(fitting(['query', '1'], 't'), ['top '])
        self.assertEqual(fitting(['query', '1', 'top'], ''), [])
        self.assertEqual(fitting(['\\changed'], ''), ['first'])
        self.assertEqual(fitting(['\\changed', '3'], 'first.next.'), ['first.next.key', 'first.next.next'])
        self.assertEqual(fitting(['\\changed'], 'nothing.'), [])
        self.assertEqual(fitting(['\\load'], f'{self.folder}/li'), [f'{self.folder}/list.persist '])
        os.mkdir(f'{self.folder}/sub')
        self.assertEqual(fitting(['\\do'], f'{self.folder}/s'), [f'{self.folder}/sub/'])
        self.assertEqual([word for word in COMMANDS if f'{word} ' not in fitting([], '')], [])


class Meanings(unittest.TestCase):
    def test_each_kind_of_the_notation_has_a_meaning(self):
        page = read_text(os.path.join(TOP, 'docs', 'NOTATION.md'))
        for title, meanings in (('Traps', TRAPS), ('Refused lines', REFUSALS), ('Refused programs', FAULTS)):
            section = re.search(rf'^## {title}$(.*?)(?=^## |\Z)', page, re.M | re.S)
            self.assertTrue(section, title)
            kinds = set(re.findall(r'^\| `([a-z-]+)` \|', section[1], re.M))
            self.assertEqual(kinds, set(meanings) - {'path'}, title)


class Script(unittest.TestCase):
    def run_shell(self, *words, given='', **others):
        """What the script writes without a terminal, and its status."""
        done = subprocess.run([sys.executable, '-W', 'error', os.path.join(TOOLS, 'persist_shell.py'), *words], input=given.encode(),
                              stdout=subprocess.PIPE, stderr=subprocess.PIPE, **others)
        return done.returncode, done.stdout.decode('utf-8', 'surrogateescape'), done.stderr.decode()

    def test_lines_from_standard_input(self):
        path = os.path.join(TOP, 'examples', 'editor.persist')
        status, said, wrong = self.run_shell(path, given='text\n\\at 1\ntext\n\u00e9\n')
        self.assertEqual((status, wrong), (0, ''))
        self.assertTrue(said.endswith('| 104\n| 105\n| 33\nok\n| 104\nok\nrefused line\n  the words have none of the forms of a script line\n'))

    def test_each_example_is_loaded(self):
        for path in sorted(glob.glob(os.path.join(TOP, 'examples', '*.persist'))):
            shown = io.StringIO()
            shell = Shell(shown)
            shell.attempt(shell.do_load, path)
            shell.end()
            replies = [line for line in shown.getvalue().split('\n')[1:] if not line.startswith((' ', '>'))]
            self.assertEqual('\n'.join(replies), read_text(path[:-len('persist')] + 'replies'), path)

    def test_other_words_and_no_program(self):
        self.assertEqual(self.run_shell('--help')[0], 2)
        self.assertEqual(self.run_shell('a', 'b')[0], 2)
        status, said, wrong = self.run_shell(env={**os.environ, 'PERSIST': '/no/such/program'})
        self.assertEqual((status, said), (1, ''))
        self.assertIn('persist_shell: ', wrong)


if __name__ == '__main__':
    unittest.main()
