"""Images as bytes: the program that stands in one, its versions, its nodes, and where it ends.

    image, script = split_image(read_bytes('monday.image'))
    parents = Image(image).parents

It does not judge an image: the program does that, by its rules. Of one that breaks a rule it tells what its numbers seem to say, or that they
promise more than there is.

Tested (tools/tests), not proved. It needs python3.8 and nothing else.
"""

import sys
from array import array
from typing import List, Optional, Tuple

from .errors import WrongImage

__all__ = ['Image', 'is_image', 'read_bytes', 'split_image']

MAGIC = b'PSTIMG01'


def is_image(data: bytes) -> bool:
    """Whether bytes begin as an image does, and so as no program that is accepted."""
    return data[:len(MAGIC)] == MAGIC


def read_bytes(path: str) -> bytes:
    """The bytes of a file."""
    with open(path, 'rb') as file:
        return file.read()


class Image:
    """The numbers of an image. Those behind the text have positions from 0; what stands behind the image is left out of account."""

    def __init__(self, data: bytes) -> None:
        """Reads as far as the sizes tell. Where they tell of more than there is, or the bytes begin otherwise, that is `WrongImage`."""
        if not is_image(data) or len(data) < 16:
            raise WrongImage('the bytes do not begin as an image does')
        begin = 16 + int.from_bytes(data[8:16], 'big')
        self.text = data[16:begin].decode('latin-1')
        self.numbers = array('q')
        self.numbers.frombytes(memoryview(data)[begin:begin + (len(data) - begin) // 8 * 8])
        if sys.byteorder == 'little':
            self.numbers.byteswap()
        try:
            self.length = begin + 8 * self._read()
        except IndexError:
            raise WrongImage('the image is cut off') from None

    def _read(self) -> int:
        """Finds the versions and the nodes; gives how many numbers there are."""
        numbers = self.numbers
        # In front stand the budget, the next run, three counts and the number of places.
        self.versions = range(7, 7 + 4 * numbers[6], 4)
        at = 8 + 4 * numbers[6]
        # Where each node begins.
        self.nodes = array('q')
        for _ in range(numbers[at - 1]):
            self.nodes.append(at)
            stamps = at + 7 + numbers[at + 6]
            end = stamps + 1 + 3 * numbers[stamps]
            if not at < stamps < end:
                raise IndexError
            at = end
        if not 8 <= at <= len(numbers):
            raise IndexError
        return at

    @property
    def parents(self) -> List[Optional[int]]:
        """The version that each version was made from; None for version 0."""
        return [None, *self.numbers[self.versions.start + 4:self.versions.stop:4]]


def split_image(data: bytes) -> Tuple[bytes, List[str]]:
    """The image of an input of `serve` or `resume`, and the lines of its script."""
    length = Image(data).length
    lines = data[length:].decode('utf-8', 'surrogateescape').split('\n')
    return data[:length], lines[:-1] if lines[-1] == '' else lines
