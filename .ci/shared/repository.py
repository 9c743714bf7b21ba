"""The files of this repository, and its crates."""
import os
from typing import Dict, List

TOP = os.path.dirname(os.path.dirname(os.path.dirname(os.path.abspath(__file__))))


def read(path: str) -> str:
    """A text of the repository."""
    with open(f'{TOP}/{path}', encoding='utf-8') as text:
        return text.read()


def read_named() -> Dict[str, List[str]]:
    """The crates in the order of crates.txt, with the libraries that each names, those of the kit too."""
    lines = (line.partition('#')[0].partition(':') for line in read('crates.txt').splitlines())
    return {name.split()[0]: below.split() for name, colon, below in lines if colon}


def read_crates() -> Dict[str, List[str]]:
    """The crates, lowest first, with those of the repository that each names."""
    named: Dict[str, List[str]] = read_named()
    crates: Dict[str, List[str]] = {}

    def visit(name: str) -> None:
        if name in named and name not in crates:
            for low in named[name]:
                visit(low)
            crates[name] = [low for low in named[name] if low in named]

    for name in named:
        visit(name)
    return crates
