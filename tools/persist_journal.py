#!/usr/bin/env python3
"""A store in a folder, from a checkout: persist_journal.py FOLDER [PROGRAM.persist]. Tested (tools/tests), not proved; it is persist/journal.py."""
import sys

from persist import journal

if __name__ == '__main__':
    sys.exit(journal.main(sys.argv[1:]))
sys.modules[__name__] = journal
