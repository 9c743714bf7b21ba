"""How the trials of a check are counted and told."""
import tempfile
from collections import Counter
from typing import Any, Counter as Counts, Iterable, List, Tuple


def keep(given: bytes) -> str:
    """Keeps an input in a file of its own, and gives the file's name."""
    with tempfile.NamedTemporaryFile(prefix='persist-', suffix='.persist', delete=False) as kept:
        kept.write(given)
    return kept.name


def differing(pairs: Iterable[Tuple[str, Any, Any]]) -> List[str]:
    """What is wrong with things that have to be as wanted: the name of each, what it is, and what is wanted."""
    return [f'{name} is {found!r}, and {wanted!r} is wanted' for name, found, wanted in pairs if found != wanted]


class Score:
    """How many trials of a check passed and how many failed. `seen` counts what else the check tells of them."""

    def __init__(self, name: str) -> None:
        self.name, self.passed, self.failed = name, 0, 0
        self.seen: Counts[Any] = Counter()

    def count(self, what: str, right: object, *seen: object) -> None:
        """Counts a trial, and shows what was seen where it is not right."""
        if right:
            self.passed += 1
            return
        self.failed += 1
        print(f'{what}: something else' if seen else what, *seen, sep='\n', flush=True)

    def judge(self, what: str, given: bytes, faults: List[str]) -> None:
        """Counts a trial of an input by its faults. Where there are some, they are told and the input is kept in a file."""
        if not faults:
            self.passed += 1
            return
        self.failed += 1
        print(f'{what}: {"; ".join(faults)}; the input is {keep(given)}', flush=True)

    def end(self, told: str = '') -> int:
        """Says how many passed and failed, and gives the status of the script. A check in which nothing passed fails too."""
        print(f'{self.name}: {self.passed} passed, {self.failed} failed' + (f'; {told}' if told else ''), flush=True)
        return 1 if self.failed or not self.passed else 0
