"""The examples of the documents: blocks of code with a mark, such as `run` and the `replies` behind it."""
import glob
import os
import re
from typing import Iterator, List, Tuple

from shared.repository import TOP, read

# The pages whose blocks are run.
PAGES = ['README.md', 'docs/NOTATION.md', 'docs/IMAGES.md', 'docs/HOSTS.md']


def blocks_of(page: str) -> List[Tuple[str, str]]:
    """The blocks of a page that have a mark, each with its text."""
    return re.findall(r'^```(\w+[\w. ]*)\n(.*?)^```$', read(page), re.S | re.M)


def examples() -> Iterator[Tuple[str, str]]:
    """The files of examples/ that are inputs, with their texts."""
    for path in sorted(glob.glob(f'{TOP}/examples/*.persist')):
        name = os.path.relpath(path, TOP)
        yield name, read(name)
