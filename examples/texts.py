"""Records with texts: the program keeps a number for each text, and the host keeps the texts: python3 examples/texts.py

A text is given a number once and never changed, so a number means the same text at every version. Two texts that are equal get one number,
so the program can compare texts by `==`. A host that wants them after its end writes them beside the image or the log, each before the run
that names it.
"""
import os
import sys

HERE = os.path.dirname(os.path.abspath(__file__))
sys.path.insert(0, os.path.join(HERE, '..', 'tools'))
from persist_client import Session, must  # noqa: E402

PROGRAM = """record Note 2 { val title: int; val price: int; ptr next: Note; }
root first: Note;
proc add(title: int, price: int) {
  var n: Note;
  n = new Note;
  n.title = title;
  n.price = price;
  n.next = first;
  first = n;
}
proc rename(old: int, title: int) {
  var n: Note;
  n = first;
  while n != null {
    if n.title == old {
      n.title = title;
    }
    n = n.next;
  }
}
query all() {
  var n: Note;
  n = first;
  while n != null {
    print n.title;
    print n.price;
    n = n.next;
  }
}
"""


class Texts:
    """Texts by their numbers, from 0."""

    def __init__(self):
        self.texts, self.numbers = [], {}

    def number(self, text):
        """The number of a text, which it gets when it comes for the first time."""
        if text not in self.numbers:
            self.numbers[text] = len(self.texts)
            self.texts.append(text)
        return self.numbers[text]


def main():
    texts = Texts()

    def show(version):
        numbers = iter(must(session.query(version, 'all')).printed)
        print(f'version {version}:', ', '.join(f'{texts.texts[title]} {price / 100:.2f}' for title, price in zip(numbers, numbers)))

    with Session(PROGRAM) as session:
        # A price has two decimals, so it is kept as hundredths.
        session.run(0, 'add', texts.number('tea'), 250)
        session.run(1, 'add', texts.number('Käsekuchen'), 395)
        session.run(2, 'rename', texts.number('tea'), texts.number('green tea'))
        session.run(2, 'add', texts.number('tea'), 199)
        for version in (1, 2, 3, 4):
            show(version)


main()
