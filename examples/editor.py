"""An outline with undo, redo, branches and named versions: python3 examples/editor.py

The program is that of outline.persist. Its versions are a tree already, so the host keeps little: where it stands, where it went last from
each version, and names for some. Nothing is ever lost: after an undo, another edit begins a branch, and the old one stays.
"""
import os
import sys

HERE = os.path.dirname(os.path.abspath(__file__))
sys.path.insert(0, os.path.join(HERE, '..', 'tools'))
from persist_client import Session, Trapped, must, read_text, split_input  # noqa: E402


class Editor:
    """A session with a current version. `parents` has the version that each one was made from, `last` where one went from it last."""

    def __init__(self, session):
        self.session, self.current = session, 0
        self.parents, self.last, self.names = {0: None}, {}, {}

    def do(self, name, *numbers):
        """An edit of the current version. One that traps changes nothing."""
        reply = self.session.run(self.current, name, *numbers)
        if isinstance(reply, Trapped):
            return reply
        made = must(reply).number
        self.parents[made] = self.current
        self.last[self.current] = made
        self.current = made
        return reply

    def undo(self):
        """Goes to the version that this one was made from."""
        above = self.parents[self.current]
        if above is not None:
            self.last[above], self.current = self.current, above

    def redo(self):
        """Goes back to where one came from."""
        self.current = self.last.get(self.current, self.current)

    def keep(self, name):
        """Gives the current version a name."""
        self.names[name] = self.current

    def go(self, name):
        """Goes to a version by its name."""
        self.current = self.names[name]

    def items(self):
        """The items in order: how deep each stands, its number, and whether it is done."""
        numbers = iter(must(self.session.query(self.current, 'show')).printed)
        return ' '.join('-' * depth + str(number) + '!' * done for depth, number, done in zip(numbers, numbers, numbers))


def main():
    program, _ = split_input(read_text(os.path.join(HERE, 'outline.persist')))
    with Session(program) as session:
        editor = Editor(session)
        for name in ('insert', 'insert', 'below', 'toggle'):
            editor.do(name)
        editor.keep('draft')
        print('draft:', editor.items())
        editor.undo()
        editor.undo()
        print('two undone:', editor.items())
        editor.redo()
        print('one done again:', editor.items())
        editor.do('outdent')
        print('a branch:', editor.items())
        editor.do('go', 1)
        print('below what is not there:', repr(editor.do('indent')))
        editor.go('draft')
        print('the draft again:', editor.items())
        print('all versions:', {made: above for made, above in editor.parents.items() if made})


main()
