"""The packages: pip's, with its commands; the crate; the module for Node; that all say one version; and the lines of the page of the tools."""
import glob
import json
import os
import re
import shutil
import subprocess
import sys
import tempfile
import unittest

import persist
from persist.client import program_path, read_text
from tests.samples import TOOLS, TOP

# A command may take long on a machine that has much else to do.
SECONDS = 280


def python_that_builds():
    """A python3 that builds packages without a registry: this one, or the system's."""
    for path in (sys.executable, '/usr/bin/python3'):
        asked = [path, '-c', 'import setuptools, wheel, pip, venv']
        if os.path.exists(path) and not subprocess.run(asked, stderr=subprocess.DEVNULL).returncode:
            return path
    return None


def run(words, given='', **others):
    """The status of a command, and what it writes."""
    done = subprocess.run(words, input=given.encode(), stdout=subprocess.PIPE, stderr=subprocess.STDOUT, timeout=SECONDS, **others)
    return done.returncode, done.stdout.decode('utf-8', 'replace')


class Pip(unittest.TestCase):
    @unittest.skipUnless(python_that_builds(), 'there is no python3 with pip, setuptools and wheel')
    def test_it_is_installed_with_its_commands(self):
        with tempfile.TemporaryDirectory() as folder:
            os.mkdir(os.path.join(folder, 'tools'))
            for name in ('pyproject.toml', 'README.md'):
                shutil.copy(os.path.join(TOOLS, name), os.path.join(folder, 'tools', name))
            shutil.copytree(os.path.join(TOOLS, 'persist'), os.path.join(folder, 'tools', 'persist'),
                            ignore=shutil.ignore_patterns('__pycache__'))
            bin_folder = os.path.join(folder, 'venv', 'bin')
            python = os.path.join(bin_folder, 'python3')
            others = {'cwd': folder, 'env': {**os.environ, 'PIP_DISABLE_PIP_VERSION_CHECK': '1', 'PIP_NO_INDEX': '1'}}
            status, said = run([python_that_builds(), '-m', 'venv', '--without-pip', '--system-site-packages', 'venv'], **others)
            self.assertEqual(status, 0, said)
            self.assertIn('\n    pip install ./tools', read_text(os.path.join(TOOLS, 'README.md')))
            status, said = run([python, '-m', 'pip', 'install', '-q', '--no-build-isolation', '--no-deps', './tools'], **others)
            self.assertEqual(status, 0, said)
            self.check_commands(folder, bin_folder, python, others)

    def check_commands(self, folder, bin_folder, python, others):
        """Runs what was installed, with the sources gone."""
        shutil.rmtree(os.path.join(folder, 'tools'))
        told = 'import importlib.metadata, os, persist; print(importlib.metadata.version("persist"), persist.__version__); ' \
            'print(os.path.dirname(persist.__file__))'
        status, said = run([python, '-c', told], **others)
        self.assertEqual(said.split('\n')[0], f'{persist.__version__} {persist.__version__}', said)
        there = said.split('\n')[1]
        self.assertTrue(there.startswith(folder), there)
        for name in ('page.html', 'py.typed'):
            self.assertTrue(os.path.exists(os.path.join(there, name)), name)
        self.assertEqual(run([python, '-m', 'persist', '--version'], **others), (0, f'{persist.__version__}\n'))
        self.assertEqual(run([python, '-m', 'persist', 'jump'], **others)[0], 2)
        editor = os.path.join(TOP, 'examples', 'editor.persist')
        status, said = run([os.path.join(bin_folder, 'persist-shell'), editor], '\\at 1\ntext\n', **others)
        self.assertTrue(status == 0 and said.endswith('| 104\nok\n'), said)
        status, said = run([python, '-m', 'persist', 'draw', 'text'], read_text(editor), **others)
        self.assertTrue(status == 0 and '1  key 104\n' in said, said)
        self.assertEqual(run([os.path.join(bin_folder, 'persist-draw'), 'jump'], **others)[0], 2)
        status, said = run([os.path.join(bin_folder, 'persist-journal'), 'book', editor], 'run 0 key 104\n', **others)
        self.assertEqual((status, said), (0, 'version 1\n'))
        status, said = run([os.path.join(bin_folder, 'persist-server'), '--jump'], **others)
        self.assertIn(status, (2, 3), said)

    def test_without_a_program_it_is_said_what_to_do(self):
        with tempfile.TemporaryDirectory() as folder:
            shutil.copytree(os.path.join(TOOLS, 'persist'), os.path.join(folder, 'site', 'persist'))
            environment = {'PYTHONPATH': os.path.join(folder, 'site'), 'PATH': folder}
            status, said = run([sys.executable, '-m', 'persist', 'shell'], cwd=folder, env=environment)
            self.assertEqual(status, 1)
            self.assertIn('name its file by PERSIST', said)
            os.symlink(program_path(), os.path.join(folder, 'persist'))
            status, said = run([sys.executable, '-m', 'persist', 'shell'], 'stats\n', cwd=folder, env={**environment, 'PATH': f'{folder}:{os.environ["PATH"]}'})
            self.assertEqual(status, 0, said)
            self.assertIn('records 1 pointers 0', said)


class Rust(unittest.TestCase):
    @unittest.skipUnless(shutil.which('cargo'), 'there is no cargo')
    def test_the_crate_and_its_host(self):
        """All tests of the crate, those of its page among them, and the host over each example."""
        with tempfile.TemporaryDirectory() as folder:
            environment = {**os.environ, 'PERSIST': program_path(), 'CARGO_TARGET_DIR': folder, 'CARGO_NET_OFFLINE': 'true',
                           'CARGO_PROFILE_DEV_DEBUG': '0', 'CARGO_PROFILE_TEST_DEBUG': '0', 'RUSTFLAGS': '-D warnings'}
            crate = ['--offline', '--locked', '--manifest-path', os.path.join(TOOLS, 'rust', 'Cargo.toml')]
            status, said = run(['cargo', 'test', '-q', *crate], env=environment)
            self.assertEqual(status, 0, said)
            counts = [int(many) for many in re.findall(r'test result: ok\. (\d+) passed', said)]
            self.assertGreaterEqual(sum(counts), 13, said)
            self.assertGreaterEqual(counts[-1], 1, 'the example of the page was not run')
            status, said = run(['cargo', 'build', '-q', '--example', 'host', *crate], env=environment)
            self.assertEqual(status, 0, said)
            self.check_host(os.path.join(folder, 'debug', 'examples', 'host'), folder)

    def check_host(self, host, folder):
        """Runs the host over the examples, over one whose lines end with CR and LF, and over a refused program."""
        paths = sorted(glob.glob(os.path.join(TOP, 'examples', '*.persist')))
        self.assertTrue(paths)
        for path in paths:
            replies = read_text(path[:-len('persist')] + 'replies') + 'status Some(0)\n'
            self.assertEqual(run([host, program_path(), path]), (0, replies), path)
        other = os.path.join(folder, 'other.persist')
        with open(other, 'w', newline='') as file:
            file.write(read_text(paths[0]).replace('\n', '\r\n'))
        self.assertEqual(run([host, program_path(), other]), (0, read_text(paths[0][:-len('persist')] + 'replies') + 'status Some(0)\n'))
        with open(other, 'w') as file:
            file.write('root a: b;\n' + '# more\n' * 100_000 + '%%\n')
        status, said = run([host, program_path(), other])
        self.assertEqual(status, 1)
        self.assertIn('unknown', said)


def node_version():
    """The first number of the version of node; 0 where there is none."""
    if not shutil.which('node'):
        return 0
    return int(run(['node', '-p', 'process.versions.node.split(".")[0]'])[1])


class Node(unittest.TestCase):
    @unittest.skipUnless(node_version() >= 18, 'there is no node, or one before 18')
    def test_the_module_and_the_example_of_its_page(self):
        module = os.path.join(TOOLS, 'node')
        environment = {**os.environ, 'PERSIST': program_path()}
        status, said = run(['node', '--test', module + '/'], cwd=module, env=environment)
        self.assertEqual(status, 0, said)
        self.assertGreaterEqual(int(re.search(r'pass (\d+)', said)[1]), 10, said)
        blocks = re.findall(r'^```(\w+)\n(.*?)^```$', read_text(os.path.join(module, 'README.md')), re.S | re.M)
        self.assertEqual([kind for kind, _ in blocks], ['js', 'shown'])
        with tempfile.TemporaryDirectory() as folder:
            os.mkdir(os.path.join(folder, 'node_modules'))
            os.symlink(module, os.path.join(folder, 'node_modules', 'persist'))
            with open(os.path.join(folder, 'example.mjs'), 'w') as file:
                file.write(blocks[0][1])
            self.assertEqual(run(['node', 'example.mjs'], cwd=folder, env=environment), (0, blocks[1][1]))

    def test_its_types_name_what_it_exports(self):
        exports = re.compile(r'^export (?:declare )?(?:class|function) (\w+)', re.M)
        given, typed = (exports.findall(read_text(os.path.join(TOOLS, 'node', name))) for name in ('persist.mjs', 'persist.d.ts'))
        self.assertEqual(sorted(given), sorted(typed))
        methods = re.compile(r'^  (?:static )?(?:async )?([a-z]\w*)\(', re.M)
        given, typed = (set(methods.findall(read_text(os.path.join(TOOLS, 'node', name)).split('class Session', 1)[1]))
                        for name in ('persist.mjs', 'persist.d.ts'))
        self.assertEqual(given - {'constructor', 'if'}, typed)


class Versions(unittest.TestCase):
    def test_all_say_one_version_and_the_list_of_changes_begins_with_it(self):
        self.assertRegex(persist.__version__, r'^20[0-9]{2}\.(1[0-2]|[1-9])\.([12][0-9]|3[01]|[1-9])$')
        self.assertEqual(json.loads(read_text(os.path.join(TOOLS, 'node', 'package.json')))['version'], persist.__version__)
        for name in ('Cargo.toml', 'Cargo.lock'):
            self.assertIn(f'\nversion = "{persist.__version__}"\n', read_text(os.path.join(TOOLS, 'rust', name)), name)
        self.assertEqual(re.findall(r'^## (\S+)', read_text(os.path.join(TOP, 'CHANGELOG.md')), re.M)[0], persist.__version__)


class Page(unittest.TestCase):
    """The lines of the page of the tools that are typed at a prompt of the system."""

    def test_lines_of_the_page_end_well(self):
        page = re.sub(r'^```.*?^```$', '', read_text(os.path.join(TOOLS, 'README.md')), flags=re.S | re.M)
        lines = [re.split(' {4,}', line)[0] for line in re.findall(r'^    (\S.*)$', page, re.M)]
        tried = [line for line in lines if re.match(r'python3 tools/persist_(shell|draw|journal)\.py ', line)]
        self.assertGreaterEqual(len(tried), 5)
        with tempfile.TemporaryDirectory() as folder:
            for name in ('tools', 'examples'):
                os.symlink(os.path.join(TOP, name), os.path.join(folder, name))
            shutil.copy(os.path.join(TOP, 'examples', 'monday.persist'), os.path.join(folder, 'PROGRAM.persist'))
            with open(os.path.join(folder, 'lines'), 'w') as file:
                file.write('run 0 sell 12\n')
            environment = {**os.environ, 'PERSIST': program_path()}
            for line in tried:
                status, said = run(['sh', '-c', line.replace('python3', sys.executable, 1)], cwd=folder, env=environment)
                self.assertEqual(status, 0, f'{line}: {said}')


if __name__ == '__main__':
    unittest.main()
