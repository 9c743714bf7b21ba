#!/usr/bin/env python3
"""The prompt, from a checkout: persist_shell.py [FILE]. Tested (tools/tests), not proved; it is persist/shell.py."""
import sys

from persist import shell

if __name__ == '__main__':
    sys.exit(shell.main(sys.argv[1:]))
sys.modules[__name__] = shell
