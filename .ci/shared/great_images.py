"""Images that are made to take time or memory, as pieces, and what `resume` and `repack` have to answer.

Each is made for a number of bytes. Its counts are so great that they pay for all its nodes.
"""
import math
import random
import struct
import sys
from array import array
from typing import Callable, Iterable, Iterator, List, Optional, Sequence, Tuple

from shared.image_rules import ENTRY, MAGIC, MOST_COUNT, MOST_RUN, U16, U32, U64

# What it is, how it is made for a number of bytes, the lines behind it, the status, the answer or the image itself, and the memory in MiB.
Row = Tuple[str, Callable[[int], Iterable[bytes]], str, int, Optional[List[str]], int]
# The numbers of a node or a version by its place among them.
NumbersOf = Callable[[int], List[int]]

PAID = 3 * (MOST_COUNT,)
PAID_BY = f'records {MOST_COUNT} pointers {MOST_COUNT} values {{}} bound {{}}\n'
# What a node takes beside its slots and its stamped values, in bytes.
NODE, NUMBER, STAMPED, VERSION = 64, 8, 24, 32
# Places, as many as there can be.
MOST_PLACES = 2 * MOST_RUN


def coded(numbers: Iterable[int]) -> bytes:
    """Numbers as they stand in an image."""
    words = array('Q', numbers)
    if sys.byteorder == 'little':
        words.byteswap()
    return words.tobytes()


def head(text: bytes, places: int, versions: int) -> bytes:
    """An image up to its versions."""
    return MAGIC + struct.pack('>Q', len(text)) + text + coded([1000000, (places + 1) // 2, *PAID, places, versions])


def in_parts(count: int, part: int, numbers_of: NumbersOf) -> Iterator[bytes]:
    """The numbers of so many versions or nodes, a part of them at once."""
    for start in range(0, count, part):
        yield coded([number for k in range(start, min(start + part, count)) for number in numbers_of(k)])


def image(text: bytes, places: int, nodes: int, numbers_of: NumbersOf, versions: int = 1, version_of: NumbersOf = lambda k: []) -> Iterator[bytes]:
    """An image by the numbers of each node, and of each version but the first."""
    yield head(text, places, versions)
    yield coded([0, 0, 0, places - 1])
    yield from in_parts(versions - 1, 1024, version_of)
    yield coded([nodes])
    yield from in_parts(nodes, 1024, numbers_of)


def stats(writes: int = 0) -> str:
    """What `stats` tells where so many numbers were written behind the image."""
    return PAID_BY.format(MOST_COUNT + writes, 9 * MOST_COUNT + 2 * writes)


def step_for(count: int) -> int:
    """A number by which those below a count are multiplied, so that ones which follow each other come to lie far apart."""
    return next(step for step in range(count * 5 // 8, 2 * count + 2) if math.gcd(step, count) == 1)


# ---- nodes in chains

ROOT_OF_NONE = [1, 0, 0]


def chain(length: int, shuffled: bool) -> Iterator[bytes]:
    """The root record's nodes, each over one place; it has no fields. The first has number 0, the others stand in turn or anyhow."""
    count = (length - 256) // (NODE + NUMBER)
    step = step_for(count) if shuffled else 1
    back = pow(step, -1, count)

    def node(k: int) -> List[int]:
        at = k * back % count
        return [0, 0, 0, at, at + 1, (at + 1) * step % count + 1 if at + 1 < count else 0, *ROOT_OF_NONE]
    return image(b'', count + 1, count, node)


BARE = b'record Bare 1 { }\n'


def named(length: int, name_of: Callable[[int, int], Tuple[int, int]]) -> Iterator[bytes]:
    """Records of one node each without fields, by their names; each lives from the first place to the last."""
    count = (length - 256) // (NODE + NUMBER)
    return image(BARE, 4, count, lambda k: [*(name_of(k, count) if k else (0, 0)), int(k > 0), 0, 3, 0, *ROOT_OF_NONE])


# ---- places and versions

def only_places(length: int) -> Iterator[bytes]:
    """As many places as there can be at the greatest length, and nothing else."""
    count = min(MOST_PLACES, length // 32)
    return image(b'', count, 1, lambda k: [0, 0, 0, 0, count - 1, 0, *ROOT_OF_NONE])


def versions(length: int, made_for: Callable[[int], NumbersOf]) -> Iterator[bytes]:
    """As many versions as there can be at the greatest length, by the numbers of each."""
    count = min(length // 64, MOST_RUN - 1)
    places, version_of = 2 * (count + 1), made_for(count)
    return image(b'', places, 1, lambda k: [0, 0, 0, 0, places - 1, 0, *ROOT_OF_NONE], count + 1, lambda k: version_of(k + 1))


def each_in_the_last(count: int) -> NumbersOf:
    return lambda version: [version - 1, version, version, 2 * count + 1 - version]


def all_in_the_first(count: int, step: int = 1) -> NumbersOf:
    """Of two versions the one with the later run stands before the other."""
    def version_of(version: int) -> List[int]:
        run = version * step % count + 1
        return [0, run, 2 * (count - run) + 1, 2 * (count - run) + 2]
    return version_of


def in_no_order(count: int) -> NumbersOf:
    return all_in_the_first(count, step_for(count))


# ---- pointers and their entries

# How many places further on along a ring the records are that one holds.
STRIDES = [1 + k * k * 37 for k in range(16)]
KNOT = b'language 2\nrecord Knot 16 { ptr to: Knot * 16; }\n'


def knots(length: int) -> Iterator[bytes]:
    """Each record has 16 pointers, and is held by 16, the last pointers in the first inverse slots."""
    count = (length - 256) // (NODE + 32 * NUMBER)

    def node(k: int) -> List[int]:
        if k == 0:
            return [0, 0, 0, 0, 3, 0, *ROOT_OF_NONE]
        pointers = [(k - 1 + stride) % count + 2 for stride in STRIDES]
        entries = [((k - 1 - stride) % count + 2) * ENTRY + slot for slot, stride in enumerate(STRIDES)]
        return [1, k - 1, 1, 0, 3, 0, 32, *pointers, *reversed(entries), 0]
    return image(KNOT, 4, count + 1, node)


def long_text(length: int) -> Iterator[bytes]:
    """A text of statements, and an empty store."""
    front, piece, behind = b'query q() {\n', b'  print 1;\n', b'}\n'
    count = (length - 512) // len(piece)
    size = len(front) + count * len(piece) + len(behind)
    yield MAGIC + struct.pack('>Q', size) + front
    for _ in range(count // 65536):
        yield piece * 65536
    yield piece * (count % 65536) + behind
    yield coded([1000000, 1, *PAID, 2, 1, 0, 0, 0, 1, 1, 0, 0, 0, 0, 1, 0, *ROOT_OF_NONE])


STAR = b'language 2\nrecord Star 16 { }\nrecord Ray 1 { ptr to: Star * 16; }\n'


def star(length: int) -> Iterator[bytes]:
    """All pointers hold one record: 16 of a node, which lives over one place, and then those of the next one. Its node has more stamped
    values than it may have."""
    count = (length - 512) // (NODE + 17 * NUMBER + 16 * STAMPED)

    def entry(k: int, slot: int) -> int:
        return (k + 3) * ENTRY + 15 - slot

    def ray(k: int) -> List[int]:
        return [2, k, 2, k + 1, k + 2, 0, 17, *16 * [2], 0, 0]

    yield head(STAR, count + 3, 1)
    yield coded([0, 0, 0, count + 2, count + 2, 0, 0, 0, 0, count + 2, 0, *ROOT_OF_NONE])
    yield coded([1, 0, 1, 1, count + 1, 0, 16, *(entry(0, slot) for slot in range(16)), 16 * (count - 1)])
    for slot in range(16):
        yield coded([number for k in range(1, count) for number in (slot, k + 1, entry(k, slot))])
    yield from in_parts(count, 1024, ray)


CELL = b'record Cell 1 { val n: int; }\n'


def stamped(length: int) -> Iterator[bytes]:
    """One node with all the stamped values."""
    count = min((length - 512) // STAMPED, MOST_PLACES - 2)
    yield head(CELL, count + 2, 1)
    yield coded([0, 0, 0, count + 1, 2, 0, 0, 0, 0, count + 1, 0, *ROOT_OF_NONE, 1, 0, 1, 0, count + 1, 0, 2, 0, 0, count])
    for start in range(0, count, 65536):
        yield coded([number for k in range(start, min(start + 65536, count)) for number in (0, k + 1, k)])


FULL = """language 2
record Link {limit} {{ val key: int; ptr to: Link * {pointers}; }}
root first: Link;
proc set(n: int) {{
  first.key = n;
}}
"""


def full(length: int, strides: Sequence[int]) -> Iterator[bytes]:
    """Records around a ring that hold those so many places further on, in nodes with as many stamped values as they may have, anywhere. A
    write splits one of them, which stamps its neighbours, so that each of these is split, and so on."""
    draw, last, pointers = random.Random('full'), MOST_PLACES - 5, len(strides)
    room = 2 * (2 * pointers + 1)
    count = (length - 512) // (NODE + (2 * pointers + 2) * NUMBER + room * STAMPED)

    def link(k: int) -> List[int]:
        if k == 0:
            return [0, 0, 0, 0, last, 0, 2, 2, 0, 0]
        held = [(k - 1 + stride) % count + 2 for stride in strides]
        entries = [((k - 1 - stride) % count + 2) * ENTRY + slot for slot, stride in enumerate(strides, 1)]
        places = sorted(draw.sample(range(1, last), room))
        return [1, k, 1, 0, last, 0, 2 * pointers + 2, k, *held, ENTRY if k == 1 else 0, *entries, room,
                *(number for place in places for number in (0, place, draw.randrange(U64)))]
    return image(FULL.format(limit=pointers + 1, pointers=pointers).encode(), last + 1, count + 1, link)


# ---- counts at their ends

def zeros(front: bytes, length: int) -> Iterator[bytes]:
    """Numbers, and then zeros up to the length."""
    yield front
    left = length - len(front)
    for _ in range(left // 65536):
        yield bytes(65536)
    yield bytes(left % 65536)


def counted(place: str, count: int, length: int) -> Iterator[bytes]:
    """Zeros behind a count: that of the bytes of the text, of versions, of nodes, of slots, or of stamped values."""
    numbers = {'text': [count], 'versions': [0, 1, 1, *PAID, 2, count], 'nodes': [0, 1, 1, *PAID, 2, 0, count],
               'slots': [0, 1, 1, *PAID, 2, 0, 1, *6 * [0], count], 'stamped': [0, 1, 1, *PAID, 2, 0, 1, *7 * [0], count]}
    return zeros(MAGIC + coded(numbers[place]), length)


COUNTS = {'text': [U64 - 1, U64 - 16, 1 << 63, U32], 'versions': [U64 - 1, 1 << 59, 1 << 40, U32 - 1], 'nodes': [U64 - 1, 1 << 58, 1 << 40, U32],
          'slots': [U64 - 1, U16], 'stamped': [U64 - 1, 1 << 61, U64 // 24 + 1, U32]}


def refused(rule: int) -> Tuple[str, int, List[str]]:
    return '', 4, [f'refused image {rule}\n']


ACCEPTED = 'stats\n', 0, [stats()]
SPLIT = 'run 0 set 7\nstats\n', 0, ['version 1\n', stats(1)]
# How much memory an image may take in MiB: 12 times its length. A text alone may take more.
ROOM, TEXT_ROOM = 12 * 64, 32 * 64
GREAT: List[Row] = [
    ('an image of a text alone', long_text, *ACCEPTED, TEXT_ROOM),
    ('an image of a chain of nodes', lambda length: chain(length, False), *ACCEPTED, ROOM),
    ('an image of a chain of nodes that lie anyhow', lambda length: chain(length, True), *ACCEPTED, ROOM),
    ('an image of places', only_places, *ACCEPTED, ROOM),
    ('an image of versions, each in the last', lambda length: versions(length, each_in_the_last), *ACCEPTED, ROOM),
    ('an image of versions, all in the first', lambda length: versions(length, all_in_the_first), *ACCEPTED, ROOM),
    ('an image of versions in no order', lambda length: versions(length, in_no_order), *ACCEPTED, ROOM),
    ('an image with 16 entries on every node', knots, *ACCEPTED, ROOM),
    ('an image whose contents all name one node', star, *refused(8), ROOM),
    ('an image of stamped values of one node', stamped, *refused(8), ROOM),
    ('an image of names that are all alike', lambda length: named(length, lambda k, count: (1, 7)), *refused(5), ROOM),
    ('an image of names that fall', lambda length: named(length, lambda k, count: (1, count - k)), *ACCEPTED, ROOM),
    ('an image of names that rise and fall', lambda length: named(length, lambda k, count: (1, min(2 * k, 2 * (count - k) + 1))), *ACCEPTED, ROOM),
    ('an image of a ring, each node of which a write splits', lambda length: full(length, [1, -1]), *SPLIT, ROOM),
    ('an image of records that hold 15, each node of which a write splits', lambda length: full(length, STRIDES[:15]), *SPLIT, ROOM),
    *((f'an image with {count} as the number of {place}', lambda length, place=place, count=count: counted(place, count, length), *refused(0), ROOM)
      for place, counts in COUNTS.items() for count in counts)]


def packed_again(name: str, make: Callable[[int], Iterable[bytes]], lines: str, status: int, answer: Optional[List[str]], bound: int) -> Row:
    """The row of `repack` for that of `resume`: an image behind which nothing is counted is written again, byte for byte; behind the others
    more is counted than an image can hold."""
    if status != 0:
        return name, make, lines, status, answer, bound
    if (lines, status, answer) == ACCEPTED:
        return name, make, lines, 0, None, bound + AGAIN
    return name, make, lines, 4, ['refused image 2\n'], bound + AGAIN


# How much more memory an image takes that is written again, in MiB: its parts and its bytes, of 64 each, and as much while these grow.
AGAIN = 4 * 64
PACKED_AGAIN = [packed_again(*row) for row in GREAT]
