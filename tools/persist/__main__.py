"""Begins a tool by its name: `python3 -m persist shell FILE`. Installed, the same tool is the command `persist-shell FILE`.

Tested (tools/tests), not proved.
"""

import importlib
import sys
from typing import List

from . import __version__

TOOLS = ('shell', 'draw', 'journal', 'server')


def begin(tool: str, words: List[str]) -> int:
    """The status of a tool that is given these words. Only the module of this tool is read."""
    status: int = importlib.import_module(f'{__package__}.{tool}').main(words)
    return status


def shell() -> int:
    """The prompt."""
    return begin('shell', sys.argv[1:])


def draw() -> int:
    """Pictures."""
    return begin('draw', sys.argv[1:])


def journal() -> int:
    """A store in a folder."""
    return begin('journal', sys.argv[1:])


def server() -> int:
    """The server."""
    return begin('server', sys.argv[1:])


def main(words: List[str]) -> int:
    """Begins the tool that is named first."""
    if words == ['--version']:
        print(__version__)
        return 0
    if not words or words[0] not in TOOLS:
        print(f'usage: python3 -m persist {" | ".join(TOOLS)}, with the words of that tool, or --version', file=sys.stderr)
        return 2
    sys.argv[1:] = words[1:]
    status: int = globals()[words[0]]()
    return status


if __name__ == '__main__':
    sys.exit(main(sys.argv[1:]))
