"""What stands beside the tools: the syntax for vim, the examples of the pages, and that the sources are python3.8."""
import ast
import contextlib
import glob
import io
import os
import re
import shutil
import subprocess
import tempfile
import unittest

from persist.client import read_text
from persist.shell import Shell
from tests.samples import TOOLS, TOP

SAMPLE = '''language 2
# A note && no more.
record Node 2 { val key: int * 3; ptr next: Node; }
root first: Node;
proc add(key: int) {
  if first == null and key != 007 { print a[0] + 5x; }
  n_ame_that_is_longer_than_32_byte = new Node;
}
%%
# A note.
run 0 add -5
  query 1 sum
go 1
'''
# A word, the how manieth it is in the sample, and its group.
COLOURS = [
    ('language', 1, 'persistLanguage'), ('A note', 1, 'persistComment'), ('&&', 1, 'persistComment'), ('record', 1, 'persistWord'),
    ('Node', 1, 'persistName'), ('int', 1, 'persistType'), ('3', 1, 'persistNumber'), ('ptr', 1, 'persistWord'), ('next', 1, 'persistName'),
    ('add', 1, 'persistName'), ('if', 1, 'persistDo'), ('null', 1, 'persistNull'), ('!=', 1, ''), ('007', 1, 'persistWrong'),
    ('[', 1, 'persistWrong'), ('5x', 1, 'persistWrong'), ('n_ame', 1, 'persistWrong'), ('new', 1, 'persistDo'), ('%%', 1, 'persistSeparator'),
    ('A note', 2, 'persistNote'), ('run', 1, 'persistCommand'), ('-5', 1, 'persistArgument'), ('query', 1, 'persistCommand'), ('go', 1, 'persistScript'),
]


def has_colours():
    """Whether there is a vim that colours texts."""
    if not shutil.which('vim'):
        return False
    return b'+syntax' in subprocess.run(['vim', '--version'], stdin=subprocess.DEVNULL, stdout=subprocess.PIPE).stdout


class Vim(unittest.TestCase):
    @unittest.skipUnless(has_colours(), 'there is no vim with syntax')
    def test_each_word_has_its_colour(self):
        with tempfile.TemporaryDirectory() as folder:
            sample, told = os.path.join(folder, 'sample.persist'), os.path.join(folder, 'told')
            with open(sample, 'w') as file:
                file.write(SAMPLE)
            asked = []
            for word, number, _ in COLOURS:
                at = [found.start() for found in re.finditer(re.escape(word), SAMPLE)][number - 1]
                line, column = SAMPLE.count('\n', 0, at) + 1, at - SAMPLE.rfind('\n', 0, at)
                asked.append(f'call add(g:told, synIDattr(synID({line}, {column}, 1), "name"))')
            script = os.path.join(folder, 'script.vim')
            with open(script, 'w') as file:
                file.write('\n'.join([
                    f'set nocompatible runtimepath^={os.path.join(TOOLS, "vim")}', 'filetype plugin on', 'syntax on', f'edit {sample}',
                    'let g:told = [&filetype, &commentstring]', *asked, f'call writefile(g:told, "{told}")', 'qall!']))
            subprocess.run(['vim', '-Nu', 'NONE', '-i', 'NONE', '-es', '-S', script], stdin=subprocess.DEVNULL, stdout=subprocess.DEVNULL,
                           stderr=subprocess.DEVNULL, timeout=20)
            found = read_text(told).split('\n')
        self.assertEqual(found[:2], ['persist', '# %s'])
        self.assertEqual([(word, group) for (word, _, _), group in zip(COLOURS, found[2:])], [(word, group) for word, _, group in COLOURS])


class Pages(unittest.TestCase):
    """The examples of the pages: a block marked `python` or `typed` has a block marked `shown` behind it."""

    def blocks(self, name):
        """The marks and texts of the blocks of a page."""
        return re.findall(r'^```([\w. ]+)\n(.*?)^```$', read_text(os.path.join(TOP, name)), re.S | re.M)

    def test_what_is_typed_is_answered_so(self):
        blocks = self.blocks('tools/README.md')
        told = 0
        for (kind, given), (_, shown) in zip(blocks, blocks[1:]):
            if kind == 'typed':
                out = io.StringIO()
                shell = Shell(out)
                shell.attempt(shell.do_load, os.path.join(TOP, 'examples', 'editor.persist'))
                out.truncate(out.seek(0))
                for line in given.splitlines():
                    shell.line(line)
                shell.end()
                self.assertEqual(out.getvalue(), shown)
                told += 1
        self.assertEqual(told, 2)

    def test_examples_in_python_print_so(self):
        here = os.getcwd()
        self.addCleanup(os.chdir, here)
        os.chdir(TOP)
        told = 0
        blocks = self.blocks('tools/README.md')
        for (kind, given), (_, shown) in zip(blocks, blocks[1:]):
            if kind == 'python':
                out = io.StringIO()
                with contextlib.redirect_stdout(out):
                    exec(compile(given, 'tools/README.md', 'exec'), {})
                self.assertEqual(out.getvalue(), shown)
                told += 1
        self.assertGreater(told, 0)

    def test_links_of_the_pages_of_the_tools(self):
        for page in ('README.md', 'rust/README.md', 'node/README.md'):
            for target in re.findall(r'\]\(([^)\s]+)\)', read_text(os.path.join(TOOLS, page))):
                path = os.path.join(TOOLS, os.path.dirname(page), target.partition('#')[0])
                self.assertTrue(target.startswith('#') or os.path.exists(path), target)


class Sources(unittest.TestCase):
    def test_they_are_those_of_python_3_8_and_say_that_they_are_not_proved(self):
        paths = [path for folder in ('', 'persist', 'tests') for path in glob.glob(os.path.join(TOOLS, folder, '*.py'))]
        self.assertGreater(len(paths), 12)
        for path in paths:
            ast.parse(read_text(path), path, feature_version=(3, 8))
        for path in glob.glob(os.path.join(TOOLS, '*.*')) + glob.glob(os.path.join(TOOLS, 'persist', '*.[!t]*')):
            head = ' '.join(read_text(path)[:1500].split())
            self.assertRegex(head, r'[Tt]ested \((tools/tests|`bash \.ci/tools`)\)(,| and) not proved', path)


if __name__ == '__main__':
    unittest.main()
