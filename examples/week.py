"""A shop's book that is kept in a folder from day to day: python3 examples/week.py FOLDER

Each sale is on disk before it is answered. The program is that of monday.persist; in the evening a checkpoint packs the book.
"""
import os
import sys

HERE = os.path.dirname(os.path.abspath(__file__))
sys.path.insert(0, os.path.join(HERE, '..', 'tools'))
from persist.client import must, read_text, split_input  # noqa: E402
from persist.journal import Journal  # noqa: E402

folder = sys.argv[1]
program, _ = split_input(read_text(os.path.join(HERE, 'monday.persist')))

with Journal.create(folder, program) as book:
    for version, amount in enumerate([12, 30, 5]):
        print('Monday:', must(book.run(version, 'sell', amount)))
    book.checkpoint()

# On Tuesday another process opens the folder. And if Monday's last sale had not been?
with Journal(folder) as book:
    print('Tuesday:', must(book.run(3, 'sell', 8)), 'and', must(book.run(2, 'sell', 7)))

with Journal(folder) as book:
    for version in (3, 4, 5):
        *sales, till = must(book.query(version, 'book')).printed
        print(f'version {version}: sales {sales}, till {till}')
