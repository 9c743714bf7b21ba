"""What goes wrong between a tool and the program `persist`. These errors are those of `client` too.

Tested (tools/tests), not proved. It needs python3.8 and nothing else.
"""

from typing import Sequence

__all__ = ['INPUT_LIMIT', 'CutOff', 'Ended', 'ImageRefused', 'NoAnswer', 'NoProgram', 'PersistError', 'ProgramRefused', 'UnknownReply',
           'WrongImage', 'WrongText']

# The most bytes of an input that the program reads; behind an image there is no such limit but memory.
INPUT_LIMIT = 67_108_864

STATUSES = {
    0: 'the input was read to its end',
    1: 'a read failed',
    2: 'a write failed',
    3: 'the words are none that the program knows',
    4: 'the program has a fault, or the image breaks a rule',
    5: f'the input has more than {INPUT_LIMIT:,} bytes',
    6: 'there was no memory',
    7: 'the system did not give the words',
    125: 'the program could not be built',
}
# What each rule of an image asks, as docs/IMAGES.md has it.
RULES = (
    'the bytes have to be those of an image, and each number one of its kind',
    'the text has to be that of an accepted program, in its canonical form',
    'the numbers have to be in their ranges',
    'each version has to have a parent below it, a run of its own, and a stretch inside that of its parent',
    'each node has to be of a type that is there, and to hold what its slots may hold',
    'the nodes of each record have to be one chain',
    'each pointer has to have just one entry in the node that it leads to',
    'each entry has to have its pointer',
    'no node may have more stamped values than its type allows',
    'there may be no more nodes and stamped values than the counts allow',
)


def meaning_of(status: int) -> str:
    """What a status says, in words."""
    if status < 0:
        return f'by signal {-status}'
    return STATUSES.get(status, 'which is none of its own')


class PersistError(Exception):
    """What every error of these tools is."""


class NoProgram(PersistError):
    """The program to run is not found."""


class ProgramRefused(PersistError):
    """The program has a fault: its kind, its line from 1, and what stands in that line."""

    def __init__(self, kind: str, line: int, text: str) -> None:
        super().__init__(f'refused {kind} at {line}' + (f': {text.strip()}' if text.strip() else ''))
        self.kind, self.line, self.text = kind, line, text


class WrongImage(PersistError):
    """Bytes that are no image, or a part of one."""


class ImageRefused(WrongImage):
    """The program refuses an image: the number of the first rule that it breaks."""

    def __init__(self, rule: int) -> None:
        super().__init__(f'refused image {rule}: {RULES[rule] if rule < len(RULES) else "a rule that these tools do not know"}')
        self.rule = rule


class Ended(PersistError):
    """The process ended before it replied. The status is negative where a signal ended it."""

    def __init__(self, status: int) -> None:
        super().__init__(f'the program ended with status {status}, {meaning_of(status)}')
        self.status = status


class NoAnswer(PersistError):
    """A question about the history was not answered: the words that were asked, and the status of their process."""

    def __init__(self, words: Sequence[str], status: int) -> None:
        super().__init__(f'`{" ".join(words)}` ended with status {status}, {meaning_of(status)}')
        self.words, self.status = tuple(words), status


class UnknownReply(PersistError):
    """A text that is no reply to what was sent."""

    def __init__(self, text: str) -> None:
        super().__init__(f'{text[:200]!r} is no reply to what was sent')
        self.text = text


class CutOff(PersistError):
    """An earlier command was interrupted before its reply was read; only `restart` and `end` go on from here."""


class WrongText(PersistError, ValueError):
    """A command of several lines, a program that contains a separator line, or an image with a script behind it."""
