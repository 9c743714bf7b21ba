r"""A prompt for `persist`: line editing, kept history, completion, the version tree and what versions hold.

    python3 tools/persist_shell.py [FILE]       loads an input, and carries out its script where it has one; or an image, with a script or none

A line of the script may be typed as it is, and `.` stands in it for the current version, which is the one that the last run made.
Shorter, a procedure or query is named first:

    add 5          run . add 5          sum            query . sum

The prompt shows the current version, and the newest one where that is another. A trap or refusal is told with the line that it
speaks of and its meaning. Ctrl-C ends a long run: the program is started again, and the history up to there carried out again.
Ctrl-D ends the shell. PERSIST names another build of the program. Tested (tools/tests), not proved.
"""

import getpass
import glob
import os
import re
import shlex
import shutil
import subprocess
import sys
import tempfile
import time
from typing import Callable, Dict, List, Optional, Sequence, TextIO, Tuple

from .client import (
    Changed, Ended, Field, Outline, PersistError, ProgramRefused, Refused, Reply, Session, Trapped, Version, read_text, session_on,
    split_input, text_of, words_of, write_text)
from .draw import held_text, let_go, records_dot, records_svg, short, tree_dot, tree_svg, tree_text
from .history import Note, Notes, Past, at_version, call_of, difference, difference_text, is_name, log_text, names_text, show_text
from .image import read_bytes

# What traps mean, as docs/NOTATION.md has them.
TRAPS = {
    'null': 'a field of null was read or written',
    'index': 'an index was below 0, or not below the number of elements of its array',
    'indegree': 'a pointer write would have raised an in-degree above its limit; records that nothing reaches count too (docs/NOTATION.md, In-degrees)',
    'overflow': 'a result was outside 64 bits',
    'divide': 'a divisor was zero',
    'budget': 'a statement was due, and the budget was used up',
    'depth': 'a call was due, and 256 were active',
    'output': 'a number was to be printed, and the run had printed 65,536',
}
# What refusals of a line mean.
REFUSALS = {
    'line': 'the words have none of the forms of a script line',
    'number': 'a numeral is outside its range',
    'name': 'no procedure (for run, open and call) or no query (for query) has that name',
    'arguments': 'there are not as many arguments as parameters, or a parameter is not int',
    'version': 'no version has that number',
    'old': 'the version is not the newest one',
    'run': 'no open run has that number',
    'runs': '1,048,576 run numbers were taken',
    'open': '64 runs are open',
    'calls': 'the run has 1,024 calls',
    'path': 'the program has no such path: a root, and then fields that are no arrays, joined by dots',
}
# What faults of a program mean.
FAULTS = {
    'byte': 'a byte that may not stand in a text, or begins no token',
    'number': 'a word that begins with a digit and is no number up to 9,223,372,036,854,775,807 without leading zeros',
    'name-length': 'a name of more than 32 bytes',
    'unexpected': 'the first token, or the end, that no program goes on with; what is missing may stand on the line before',
    'too-deep': 'an expression deeper than 64, or blocks deeper than 16',
    'unknown': 'a name that is not declared; new and call give their result to a local or parameter only',
    'duplicate': 'a name that is declared twice; a local or parameter may not have the name of a root',
    'mismatch': 'an expression that does not fit its place; a comparison is a condition and no number',
    'limit': 'an in-degree limit, or a number of elements, that is not from 1 to 16 (docs/NOTATION.md, In-degrees, tells what to do with more)',
    'too-many': 'more of them than a program may have',
    'query-writes': 'a query that writes, makes a record, or calls a procedure that is no query',
}
COMMANDS = ['run', 'query', 'open', 'call', 'step', 'close', 'drop', 'budget', 'versions', 'stats']
# The words of the shell: what may stand behind each, in brackets where it may be missing, and what it does.
WORDS: Dict[str, Tuple[str, str]] = {
    'at': ('V', 'makes version V the current one'),
    'up': ('', 'goes to the version that the current one was made from'),
    'tree': ('', 'draws the version tree'),
    'log': ('[V]', 'lists what made version V, its parent, and so on to version 0'),
    'show': ('[V]', 'tells what made version V, and what it has beside its parent'),
    'diff': ('A B', 'tells what version B has beside version A, by names of records that stay the same'),
    'name': ('NAME [V]', 'calls version V so; wherever a version is wanted its name may stand'),
    'unname': ('NAME', 'takes a name away'),
    'names': ('', 'lists the names of versions'),
    'by': ('[NAME]', 'tells, or sets, who makes the versions that are typed from now on; at first the user'),
    'why': ('[REASON]', 'sets the reason, in quotation marks, that is noted beside each of them; without one, none'),
    'dump': ('[V]', 'tells the records of a version'),
    'changed': ('[V] PATH', 'tells which version, from V on the way to 0, changed what PATH reads'),
    'list': ('[N]', 'shows the program, or the lines round line N'),
    'load': ('[FILE]', 'begins anew with an input or an image; without a name, with the last one'),
    'do': ('FILE', 'carries out the script lines of a file'),
    'save': ('FILE', 'writes the program or image, the history and the names as an input'),
    'draw': ('FILE [V]', 'draws the tree, or the records of version V, as .svg, .dot or .txt by the name of the file'),
    'restart': ('', 'starts the program again, and carries the history out again'),
    'help': ('', 'lists these words'),
    'quit': ('', 'ends; so does Ctrl-D'),
}
HELP = '\n'.join(
    ['  LINE               a line of the script, where . stands for the current version; or NAME ARG .. for run or query']
    + ['  {:<18} {}'.format(f'\\{word} {wanted}', does) for word, (wanted, does) in WORDS.items()])


def user() -> str:
    """The name of the user, where the system has one."""
    try:
        return getpass.getuser()
    except (KeyError, OSError):
        return ''


class Wrong(Exception):
    """What was typed can't be done, and why."""


# A comment of a script that gives a version a name, as `save` writes it.
NAMED = re.compile(r'#[ \t]*name[ \t]+(\S+)[ \t]+([0-9]{1,9})[ \t\r]*')
# How many replies of a file that is loaded are shown; from more of them only what fails, and how many there were.
SHOWN = 100


class GivenUp(Exception):
    """A line was interrupted, or the process ended in it; what was to follow from a file is left out."""


def begun(given: bytes) -> Tuple[Session, Outline, List[str]]:
    """A session on the program or the image of an input, what the program declares, and the lines of the script."""
    session, script = session_on(given)
    try:
        return session, session.outline(), script
    except BaseException:
        session.end()
        raise


class Shell:
    """A session with a current version, and what is typed at its prompt."""

    def __init__(self, out: Optional[TextIO] = None) -> None:
        self.out = out or sys.stdout
        self.file: Optional[str] = None
        self.current = 0
        # Whether replies are shown; those of a long file are not.
        self.is_quiet = False
        self.session, self.outline, _ = begun(b'')
        self.folder = tempfile.TemporaryDirectory(prefix='persist-')
        self.notes = self.no_notes()
        # Who makes the versions that are typed, and why.
        self.by, self.why = user(), ''
        self.past: Optional[Past] = None

    def end(self) -> None:
        """Ends the session."""
        self.session.end()
        self.notes.end()
        self.folder.cleanup()

    def no_notes(self) -> Notes:
        """Notes of which none is there yet. They are kept as long as the session, and by `save`."""
        for path in glob.glob(os.path.join(glob.escape(self.folder.name), '*')):
            os.remove(path)
        return Notes(os.path.join(self.folder.name, 'notes'))

    def say(self, *lines: str) -> None:
        """Shows lines."""
        for line in lines:
            print(line, file=self.out, flush=True)

    @property
    def at_terminal(self) -> bool:
        """Whether what is said is shown at a terminal."""
        return self.out.isatty()

    @property
    def has_colours(self) -> bool:
        """Whether it may have colours."""
        return self.at_terminal and 'NO_COLOR' not in os.environ and os.environ.get('TERM', 'dumb') != 'dumb'

    def page(self, lines: Sequence[str]) -> None:
        """Shows lines; where a terminal has no room for them, by the pager that PAGER names, or `less`."""
        pager = os.environ.get('PAGER') or ('less' if shutil.which('less') else '')
        if not self.at_terminal or not pager or len(lines) < shutil.get_terminal_size().lines:
            self.say(*lines)
            return
        text = ''.join(f'{line}\n' for line in lines).encode('utf-8', 'surrogateescape')
        try:
            shown = subprocess.Popen(shlex.split(pager), stdin=subprocess.PIPE, env={'LESS': 'FRX', **os.environ})
        except (OSError, ValueError) as fault:
            self.say(f'the pager {pager} can not be started: {fault}', *lines)
            return
        while True:
            try:
                shown.communicate(text)
                return
            except KeyboardInterrupt:
                # It is the pager's: it goes on, or ends.
                continue

    def prompt(self) -> str:
        """What stands in front of the line that is typed."""
        newest = self.session.newest
        return f'{self.current}> ' if self.current == newest else f'{self.current} of {newest}> '

    def line(self, line: str) -> bool:
        """Does what was typed. False where it was the last line."""
        if re.fullmatch(r'\s*\\q(uit)?\s*', line):
            return False
        work: Callable[[str], None] = self.command
        if line.lstrip().startswith('\\'):
            work = self.own
        self.attempt(work, line)
        return True

    def attempt(self, work: Callable[[str], None], words: str) -> None:
        """Does what was asked. Where it can't be done it is said why, and the session goes on."""
        try:
            work(words)
        except GivenUp:
            pass
        except KeyboardInterrupt:
            self.say('given up')
        except (Wrong, PersistError, OSError, ValueError) as fault:
            # A ValueError comes of a path that is none, as one with a NUL.
            self.say(str(fault))

    # Lines of the script.

    def command(self, line: str, where: Optional[str] = None) -> None:
        """A line of the script, or one shortened; and where it stands, to be told where it fails."""
        words = self.spelled_out(words_of(line))
        if not words:
            return
        line = ' '.join(words)
        try:
            reply = self.session.command(line)
        except KeyboardInterrupt:
            self.again('given up')
            raise GivenUp from None
        except Ended as fault:
            self.again(str(fault))
            raise GivenUp from None
        if not self.is_quiet or isinstance(reply, (Trapped, Refused)):
            self.say(text_of(reply)[:-1])
        if isinstance(reply, Version):
            self.current = reply.number
            if where is None:
                self.note(reply.number)
        if isinstance(reply, (Trapped, Refused)):
            self.explain(line, reply, where)

    def note(self, version: int) -> None:
        """Notes who made a version, when and why, as a server does."""
        history = self.session.history
        self.notes.add(Note(version, history.parents[version], call_of(history, version), self.by, round(time.time(), 3), self.why))

    def spelled_out(self, words: List[str]) -> List[str]:
        """The words of a line, with the command that was left out and the current version in the place of a dot."""
        if words and words[0] not in COMMANDS:
            if words[0] in self.outline.procedures:
                words = ['run', '.'] + words
            elif words[0] in self.outline.queries:
                words = ['query', '.'] + words
        if len(words) > 1 and words[0] in ('run', 'query', 'open') and words[1] == '.':
            words[1] = str(self.current)
        return words

    def explain(self, line: str, reply: Reply, where: Optional[str]) -> None:
        """What a trap or refusal means, with the line that it speaks of."""
        if where:
            self.say(f'  {where}: {line}')
        if isinstance(reply, Trapped):
            self.say(f'  {TRAPS.get(reply.kind, "a trap that this shell does not know")}')
            self.show(self.session.program, reply.line, 0)
        elif isinstance(reply, Refused):
            self.say(f'  {REFUSALS.get(reply.kind, "a refusal that this shell does not know")}')

    def again(self, why: str) -> None:
        """Begins again with the history: a line was given up, the process has ended, or it was asked for."""
        many = len(self.session.history.lines)
        try:
            self.session.restart()
        except KeyboardInterrupt:
            self.say(why, 'carrying out the history again was given up: \\restart tries once more, \\save keeps it')
        except (PersistError, OSError) as fault:
            self.say(why, f'the history could not be carried out again: {fault}')
        else:
            self.say(f'{why}; the program was started again, and {many:,} lines of the history were carried out')

    # Words of the shell.

    def own(self, line: str) -> None:
        """A line with a word of the shell."""
        try:
            word, *given = shlex.split(line.strip()[1:]) or ['']
        except ValueError:
            raise Wrong('a quotation mark has no end') from None
        if word not in WORDS:
            raise Wrong(f'\\{word} is no word of the shell; \\help lists them')
        wanted = WORDS[word][0].split()
        least = sum(not it.startswith('[') for it in wanted)
        if not least <= len(given) <= len(wanted) or word == 'quit':
            raise Wrong(f'it is written \\{word} {WORDS[word][0]}'.rstrip())
        work: Callable[..., None] = getattr(self, f'do_{word}')
        work(*given)

    def version(self, word: Optional[str]) -> int:
        """The version that a word names; the current one without a word or by a dot."""
        if word is None or word == '.':
            return self.current
        found = at_version(word, self.notes.names, self.session.newest)
        if found is None:
            raise Wrong(f'there is no version {word}')
        return found

    def do_help(self) -> None:
        """Lists the words."""
        self.say(HELP)

    def do_at(self, version: str) -> None:
        """Makes a version the current one."""
        self.current = self.version(version)

    def do_up(self) -> None:
        """Makes the parent of the current version the current one."""
        parent = self.session.history.parents[self.current]
        if parent is None:
            raise Wrong('version 0 was made from none')
        self.current = parent

    def do_tree(self) -> None:
        """Draws the version tree."""
        self.say(*tree_text(self.session.history.parents, self.session.history.label, self.current))

    def told(self) -> Notes:
        """The notes, with one of each version."""
        self.notes.complete(self.session.history)
        return self.notes

    def image(self, version: int) -> Past:
        """What the versions hold, up to this one at least. All are read at once from an image, which is made when it is asked for."""
        if self.past is None or len(self.past) <= version:
            self.past = Past(self.session.packed(), self.outline)
        return self.past

    def do_log(self, version: Optional[str] = None) -> None:
        """Lists what made a version and those before it."""
        at = self.version(version)
        self.page(log_text(self.told(), at, at + 1, self.has_colours))

    def do_show(self, version: Optional[str] = None) -> None:
        """Tells what made a version, and what it has beside its parent."""
        at = self.version(version)
        parent = self.session.history.parents[at]
        found = None
        if parent is not None:
            past = self.image(at)
            found = difference(past.records(parent), past.records(at))
        self.page(show_text(self.told(), at, found, self.has_colours))

    def do_diff(self, old: str, new: str) -> None:
        """Tells what a version has beside another one."""
        versions = self.version(old), self.version(new)
        past = self.image(max(versions))
        self.page(difference_text(difference(*map(past.records, versions)), self.has_colours))

    def do_name(self, name: str, version: Optional[str] = None) -> None:
        """Gives a version a name."""
        at = self.version(version)
        if not is_name(name):
            raise Wrong(f'{name} is no name: letters, digits and _ - . with a letter or _ first, at most 64')
        self.notes.name(name, at)

    def do_unname(self, name: str) -> None:
        """Takes a name away."""
        if name not in self.notes.names:
            raise Wrong(f'no version is called {name}')
        self.notes.name(name, None)

    def do_by(self, name: Optional[str] = None) -> None:
        """Tells or sets who makes the versions that are typed."""
        if name is None:
            self.say(self.by)
        self.by = self.by if name is None else name

    def do_why(self, reason: str = '') -> None:
        """Sets why the versions that are typed are made."""
        self.why = reason

    def do_names(self) -> None:
        """Lists the names."""
        self.page(names_text(self.notes.names))

    def do_dump(self, version: Optional[str] = None) -> None:
        """Tells the records of a version, with the names of their fields."""
        dump = self.session.dump(self.version(version))
        if isinstance(dump, Refused):
            raise Wrong(str(dump))
        for record in dump.records:
            held = ', '.join(f'{name}: {held_text(content)}' for name, content in self.outline.contents(record))
            self.say(f'{record.number} {record.type}  {held}'.rstrip())

    def do_changed(self, first: str, second: Optional[str] = None) -> None:
        """Tells which version changed what a path reads."""
        version, path = (None, first) if second is None else (first, second)
        if not re.fullmatch(r'[A-Za-z_]\w*(\.[A-Za-z_]\w*)*', path, re.ASCII):
            raise Wrong(f'{path} is no path: a root, and then fields, joined by dots')
        found = self.session.changed(self.version(version), path)
        self.say(f'{found}  {self.session.history.label(found.version)}'.rstrip() if isinstance(found, Changed) else str(found))
        if isinstance(found, Refused):
            self.explain('', found, None)

    def do_list(self, line: Optional[str] = None) -> None:
        """Shows the program."""
        if line is not None and not re.fullmatch('[0-9]{1,9}', line):
            raise Wrong(f'{line} is no line')
        self.show(self.session.program, None if line is None else int(line))

    def show(self, program: str, line: Optional[int] = None, around: int = 2) -> None:
        """Lines of a program, with their numbers; one of them marked, and those around it."""
        lines = program.split('\n')
        lines = lines[:-1] if lines[-1] == '' else lines
        for number, text in enumerate(lines, 1):
            if line is None or abs(number - line) <= around:
                self.say(f'{">" if number == line else " "}{number:4}  {text}'.rstrip())
        if line is not None and line > len(lines):
            self.say(f'>{line:4}  (the end of the program)')

    def do_load(self, path: Optional[str] = None) -> None:
        """Begins anew with an input. Where its program is refused, the session stays as it was."""
        path = path or self.file
        if not path:
            raise Wrong('nothing was loaded yet: \\load FILE')
        if os.path.isdir(path):
            raise Wrong(f'{path} is a folder; a store in it is opened by persist-journal, or looked at by persist-server')
        given = read_bytes(path)
        try:
            session, outline, script = begun(given)
        except ProgramRefused as fault:
            self.say(f'refused {fault.kind} at {fault.line}', f'  {FAULTS.get(fault.kind, "a fault that this shell does not know")}')
            self.show(split_input(given.decode('utf-8', 'surrogateescape'))[0], fault.line)
            return
        self.session.end()
        self.session, self.outline, self.file, self.current = session, outline, path, session.newest
        self.notes.end()
        self.notes, self.past = self.no_notes(), None
        named = [f'{what} {", ".join(names) or "none"}' for what, names in (
            ('procedures', self.outline.procedures), ('queries', self.outline.queries))]
        self.say(f'{path}: {"; ".join(named)}')
        if session.is_served:
            self.say(f'an image, whose newest version is {session.newest}')
        # The lines of a script have numbers: behind a program those of the file, and behind an image from 1.
        self.lines_of(path, script, 1 if session.is_served else session.program.count('\n') + 2)
        if os.path.isfile(f'{path}.notes'):
            self.notes.take_over(read_bytes(f'{path}.notes'), session.history)

    def do_do(self, path: str) -> None:
        """Carries out the script lines of a file."""
        self.lines_of(path, read_text(path).split('\n'), 1)

    def lines_of(self, path: str, lines: Sequence[str], first: int) -> None:
        """Carries out the lines of a file, the first of which has this number. Where they are many, only what fails is shown."""
        many = sum(bool(words_of(line)) for line in lines)
        self.is_quiet = many > SHOWN
        try:
            for number, line in enumerate(lines, first):
                self.command(line, f'{path}:{number}')
                named = NAMED.fullmatch(line)
                if named and is_name(named[1]) and int(named[2]) <= self.session.newest:
                    self.notes.name(named[1], int(named[2]))
        finally:
            was_quiet, self.is_quiet = self.is_quiet, False
        if was_quiet:
            self.say(f'{many:,} lines were carried out; the newest version is {self.session.newest}')

    def do_save(self, path: str) -> None:
        """Writes the program, the history and the names as an input; and beside it, in PATH.notes, who made which version, when and why."""
        names = ''.join(f'# name {name} {version}\n' for name, version in sorted(self.notes.names.items()))
        write_text(path, self.session.input() + names)
        if self.notes.by_version:
            with open(f'{path}.notes', 'wb') as file:
                file.write(self.notes.text())

    def do_draw(self, path: str, version: Optional[str] = None) -> None:
        """Draws the tree, or the records of a version."""
        form = os.path.splitext(path)[1]
        history = self.session.history
        if version is None and form == '.txt':
            drawing = '\n'.join(tree_text(history.parents, history.label, self.current)) + '\n'
        elif version is None and form in ('.svg', '.dot'):
            drawing = (tree_svg if form == '.svg' else tree_dot)(history.parents, short(history), self.current)
        elif form in ('.svg', '.dot'):
            dump = self.session.dump(self.version(version))
            if isinstance(dump, Refused):
                raise Wrong(str(dump))
            drawing = (records_svg if form == '.svg' else records_dot)(dump, self.outline)
        else:
            raise Wrong(f'{path} has to end with .svg or .dot' + (', or with .txt' if version is None else ''))
        write_text(path, drawing)

    def do_restart(self) -> None:
        """Starts the program again with the history."""
        self.again('the program was ended')

    # Completion.

    def fitting(self, before: Sequence[str], begun: str) -> List[str]:
        """What may stand in the place of a word that is begun behind these words; a word that is whole ends with a blank."""
        procedures, queries = list(self.outline.procedures), list(self.outline.queries)
        words: List[str] = []
        if not before:
            words = [f'\\{it}' for it in WORDS] if begun.startswith('\\') else COMMANDS + procedures + queries
        elif before[0] in ('run', 'open', 'call') and len(before) == 2:
            words = procedures
        elif before[0] == 'query' and len(before) == 2:
            words = queries
        elif before[0] in ('\\load', '\\do', '\\save', '\\draw') and len(before) == 1:
            return [f'{it}/' if os.path.isdir(it) else f'{it} ' for it in sorted(glob.glob(glob.escape(begun) + '*'))]
        elif before[0] == '\\changed':
            return self.paths(begun)
        elif before[0] in ('\\at', '\\log', '\\show', '\\diff', '\\dump', '\\unname'):
            words = sorted(self.notes.names)
        return [f'{it} ' for it in words if it.startswith(begun)]

    def paths(self, begun: str) -> List[str]:
        """The paths that go on from what is begun by one name."""
        *names, last = begun.split('.')
        fields: Sequence[Field] = self.outline.roots
        for name in names:
            fields = next((self.outline.records.get(it.type, ()) for it in fields if it.name == name and it.elements is None), ())
        lead = ''.join(f'{name}.' for name in names)
        return [lead + it.name for it in fields if it.elements is None and it.name.startswith(last)]


# The terminal.

def edit_lines(shell: Shell) -> Callable[[], None]:
    """Line editing, completion and the history of what was typed, where the system has them; gives what keeps the history."""
    try:
        import readline
    except ImportError:
        return lambda: None
    kept = os.path.join(os.path.expanduser('~'), '.persist_history')
    try:
        readline.read_history_file(kept)
    except OSError:
        pass
    readline.set_history_length(1000)

    def complete(begun: str, number: int) -> Optional[str]:
        fitting = shell.fitting(readline.get_line_buffer()[:readline.get_begidx()].split(), begun)
        return fitting[number] if number < len(fitting) else None

    def keep() -> None:
        try:
            readline.write_history_file(kept)
        except OSError:
            pass

    readline.set_completer(complete)
    readline.set_completer_delims(' \t')
    edits_as_bsd = 'libedit' in (readline.__doc__ or '')
    readline.parse_and_bind('bind ^I rl_complete' if edits_as_bsd else 'tab: complete')
    return keep


def converse(shell: Shell, live: bool) -> None:
    """Reads lines and does them, up to the last one. At a terminal there is a prompt."""
    while True:
        try:
            line = input(shell.prompt() if live else '')
        except KeyboardInterrupt:
            shell.say('')
            continue
        except EOFError:
            if live:
                shell.say('')
            return
        if not shell.line(line):
            return


def main(words: Sequence[str]) -> int:
    """Begins a session, and converses; gives the status."""
    if len(words) > 1 or words and words[0].startswith('-'):
        print(__doc__, file=sys.stderr)
        return 2
    for stream in (sys.stdin, sys.stdout):
        getattr(stream, 'reconfigure')(errors='surrogateescape')
    live = sys.stdin.isatty()
    try:
        shell = Shell()
    except (PersistError, OSError) as fault:
        print(f'persist_shell: {fault}', file=sys.stderr)
        return 1
    except KeyboardInterrupt:
        return 130
    keep = edit_lines(shell) if live else lambda: None
    try:
        if live:
            shell.say('persist: \\help lists what can be typed; Ctrl-D ends')
        if words:
            shell.attempt(shell.do_load, words[0])
        converse(shell, live)
    except BrokenPipeError:
        let_go(sys.stdout)
    finally:
        keep()
        shell.end()
    return 0


if __name__ == '__main__':
    sys.exit(main(sys.argv[1:]))
