"""Images that are made here, with the rule that each fails first: those of a small store with one number or one piece of its text
changed, those of stores with a record that is written again and again, and those of an empty store.

The rules that are wanted were found by reading the images and the rules, not by asking a checker.
"""
import itertools
import random
import struct
from typing import Dict, Iterator, Optional, Sequence, Tuple

from shared import image_model
from shared.image_rules import ENTRY, MAGIC, MOST_BUDGET, MOST_COUNT, MOST_RUN, U16, U32

# An image with what it is, and the rule that it fails first, or None.
Wanted = Tuple[str, Optional[int], bytes]
EMPTY = [0, 1000000, 1, 1, 0, 0, 2, 1, 0, 0, 0, 1, 1, 0, 0, 0, 0, 1, 0, 1, 0, 0]
TEXT = b"""record N 2 { val key: int; ptr next: N; ptr other: M; }
record M 3 { val key: int; }
root first: N;
root size: int;
"""
ROOT, ONE, CELL, TWO = (0, 0), (1, 0), (1, 1), (2, 0)


def scene() -> image_model.Store:
    """Five versions of two records, of which version 2 adds a third; the root record and the record `ONE` have two nodes each. A run that
    is left has made a record, which is in no version."""
    store = image_model.Store(TEXT)

    def version(parent: int, made: Sequence[int], writes: Sequence[Tuple[image_model.Name, int, image_model.Held]]) -> None:
        run = store.fork(parent)
        for number in made:
            store.allocate(run, number)
        for write in writes:
            store.write(run, *write)
        store.publish(run)

    version(0, [1, 2], [(ROOT, 1, ONE), (ONE, 2, CELL), (ONE, 0, -5)])
    version(1, [1], [(TWO, 1, ONE), (ROOT, 1, TWO), (ROOT, 0, 2)])
    version(1, [], [(ONE, 1, ONE), (ONE, 0, 6)])
    store.allocate(store.fork(0), 2)
    version(1, [], [(ONE, 0, 7), (ONE, 2, None)])
    return store


# A node of the one type may have 8 stamped values, and one of the other 2; both have five slots.
CROWDED = b"""record Long 1 { val a: int; ptr x: Long; ptr y: Long; ptr z: Long; }
record Wide 1 { val a: int; val b: int; val c: int; val d: int; }
"""
# The dumps of the versions of the scene.
DUMPS = [b'0 root: 0 null\n',
         b'0 root: 0 @1\n1 N: -5 null @2\n2 M: 0\n',
         b'0 root: 2 @1\n1 N: 0 @2 null\n2 N: -5 null @3\n3 M: 0\n',
         b'0 root: 0 @1\n1 N: 6 @1 @2\n2 M: 0\n',
         b'0 root: 0 @1\n1 N: 7 null null\n']


def entry(x: int, f: int) -> int:
    return (x + 1) * ENTRY + f


# Single numbers of the scene's image: the rule that fails first where one is changed to this, or None where it is accepted still.
CHANGED = [
    (None, {'budget': [1, MOST_BUDGET], 'next run': [MOST_RUN], 'records': [MOST_COUNT], 'node 1 base 0': [1, 1 << 63, 2 ** 64 - 1],
            'node 3 ordinal': [U32 - 1], 'node 3 run': [5], 'version 3 run': [4], 'pointers': [5]}),
    (0, {'length': [1 << 63], 'budget': [U32], 'next run': [U32], 'places': [U32], 'versions': [1 << 40, 2 ** 64 - 1], 'nodes': [8, 1 << 40],
         'version 2 parent': [U32], 'version 2 run': [U32], 'version 0 end': [U32], 'node 3 run': [U32], 'node 3 ordinal': [U32],
         'node 3 type': [256], 'node 3 lo': [U32], 'node 3 hi': [U32], 'node 0 slots': [U16], 'node 0 stamped': [1 << 40],
         'node 0 slot 1': [U16], 'node 0 stamp 2': [U32]}),
    (2, {'budget': [0, MOST_BUDGET + 1], 'next run': [0, 5, MOST_RUN + 1], 'records': [MOST_COUNT + 1], 'pointers': [MOST_COUNT + 1],
         'values': [MOST_COUNT + 1, 2 ** 64 - 1], 'places': [0, 1, 13]}),
    (3, {'places': [11], 'version 0 parent': [1], 'version 0 run': [1], 'version 0 begin': [1], 'version 0 end': [10, 12],
         'version 1 parent': [1], 'version 2 parent': [2, 3, 5], 'version 2 run': [0, 6, 1, 4], 'version 2 begin': [9, 10, 6, 7],
         'version 1 begin': [0], 'version 1 end': [11], 'version 3 end': [8], 'version 4 begin': [3]}),
    (4, {'node 3 type': [2, 3, 255], 'node 3 lo': [9, 10], 'node 4 hi': [12, U32 - 1], 'node 0 slot 0': [3, U16 - 1, 1],
         'node 0 slot 3': [0, 3], 'node 0 stamp 0': [0, 9], 'node 0 stamp 1': [0], 'node 0 stamp 3': [9, 10, 7, 6], 'node 0 stamp 2': [3],
         'node 0 content 1': [8, 3, 1, 2 ** 64 - 1], 'node 0 base 2': [entry(0, 1)],
         'node 1 base 3': [1, 127, entry(7, 1), entry(2, 0), entry(2, 1), entry(0, 0), entry(0, 2), entry(0, 3), entry(1, 2), entry(1, 127)]}),
    (5, {'node 0 run': [1], 'node 0 ordinal': [1], 'node 0 lo': [1], 'node 0 hi': [10], 'node 0 later': [0, 8, 6, 1, 3, 2 ** 64 - 1],
         'node 1 later': [0, 5, 4], 'node 1 hi': [8], 'node 4 later': [5, 1], 'node 5 later': [4], 'node 6 run': [0, 6, U32 - 1],
         'node 5 ordinal': [2], 'node 5 run': [2], 'node 3 run': [1], 'node 2 ordinal': [0]}),
    (6, {'node 0 content 1': [4], 'node 0 content 2': [2, 4], 'node 0 stamp 1': [2, 4], 'node 0 stamp 2': [6], 'node 1 base 3': [0, entry(4, 1)],
         'node 1 content 4': [3], 'node 3 base 1': [2], 'node 3 base 2': [3], 'node 3 base 4': [entry(0, 1)], 'node 2 lo': [2],
         'node 5 content 1': [0, entry(0, 1)]}),
    (7, {'node 0 content 1': [0], 'node 0 content 3': [0], 'node 1 content 3': [0], 'node 1 base 2': [0], 'node 3 base 1': [0],
         'node 2 base 2': [entry(1, 2)], 'node 2 content 0': [entry(1, 2)], 'node 1 base 4': [entry(0, 1)], 'node 6 base 1': [entry(1, 2)],
         'node 5 content 3': [entry(3, 1)]})]
# Pieces of the text with others of the same length in their place, and the rule that fails first then.
RESPELLED = [(1, b'next: N', b'next: O'), (1, b'N 2', b'N 0'), (1, b'int; ptr', b'int;\tptr'), (1, b'size', b'root'), (1, b'first', b'fir\xc8t'),
             (1, b'record M', b'record N'), (1, b'int;\n', b'int; '), (1, b'root first: N;\n', b'%%            \n'), (1, b'size', b'007s'),
             (1, b'N 2 {', b'N 17{'), (1, b'key', b'ptr'), (1, b'root size: int;', b'proc size() { }'),
             (4, b'M 3', b'M 2'), (4, b'M 3', b'M 9'), (4, b'ptr other: M', b'ptr other: N'), (None, b'size', b'long')]


def wanted_of_changes(fields: Dict[str, int]) -> Iterator[Wanted]:
    """Images with what is wanted of them: the scene's with one number or one piece of the text changed."""
    for rule, changes in CHANGED:
        for name, values in changes.items():
            for value in values:
                yield f'{name} {fields[name]}, now {value}', rule, image_model.image_of(TEXT, {**fields, name: value})
    for rule, old, new in RESPELLED:
        yield f'{old!r} for {new!r}', rule, image_model.image_of(TEXT.replace(old, new, 1), fields)


def wanted_of_types() -> Iterator[Wanted]:
    """A record of the first type of `CROWDED` is written in some versions, so that its node has more stamped values than one of the second
    type may have. Nothing points to it, and it points to nothing: so with the number of its type changed all else holds."""
    for writes in (2, 3, 4):
        for slot in range(4):
            store = image_model.Store(CROWDED)
            for version in range(writes + 1):
                run = store.fork(version)
                if version == 0:
                    store.allocate(run, 1)
                else:
                    store.write(run, ONE, slot, None if slot else version)
                store.publish(run)
            fields = image_model.fields_of(store)
            yield f'{writes} writes of slot {slot}', None, image_model.image_of(CROWDED, fields)
            yield f'{writes} writes of slot {slot}, of another type', 8, image_model.image_of(CROWDED, {**fields, 'node 1 type': 2})


def wanted_of_records(fields: Dict[str, int]) -> Iterator[Wanted]:
    """The scene's image, whose 7 nodes and their potential of 5 are paid for by records alone, and less of them."""
    for records in range(13):
        paid = image_model.image_of(TEXT, {**fields, 'records': records, 'pointers': 0, 'values': 0})
        yield f'{records} records', None if records == 12 else 9, paid


def empty_image(numbers: Sequence[int] = EMPTY) -> bytes:
    return MAGIC + struct.pack(f'>{len(numbers)}Q', *numbers)


def wanted_of_empty() -> Iterator[Wanted]:
    """The image of an empty store, with one number changed."""
    for at, number, rule in [(6, 3, 2), (17, 0, 4), (20, 128, 4), (13, 1, 5), (3, 0, 9), (3, 7, None)]:
        yield f'an empty store, number {at} now {number}', rule, empty_image([*EMPTY[:at], number, *EMPTY[at + 1:]])


def one_changed() -> Iterator[Wanted]:
    """Images in which one number, or one piece of the text, is not that of a good one: at least ten for each rule."""
    fields = image_model.fields_of(scene())
    for wanted in (wanted_of_changes(fields), wanted_of_types(), wanted_of_records(fields), wanted_of_empty()):
        yield from wanted


def wanted_of_texts(fields: Dict[str, int]) -> Iterator[Wanted]:
    """Images of another length, or with another text and its length: what is wanted of them."""
    data = image_model.image_of(TEXT, fields)
    yield 'an empty store', None, empty_image()
    yield 'an empty store, short', 0, empty_image()[:-1]
    for length in (0, 7, 8, 15, 16, 100, len(data) - 8, len(data) - 1):
        yield f'the first {length} bytes', 0, data[:length]
    yield 'another opening', 0, data.replace(b'G01', b'G02', 1)
    for text in (TEXT[:-1], TEXT + b'\n', b'# N\n' + TEXT, TEXT + b'%%\n', b'language 3\n' + TEXT, TEXT + b'proc p() { }\n', TEXT[1:], b'\0'):
        yield f'the text {text!r}', 1, image_model.image_of(text, {**fields, 'length': len(text)})
    for text in (b'', b'language 2\n', TEXT[:TEXT.index(b'root')]):
        yield f'the text {text!r}', 4, image_model.image_of(text, {**fields, 'length': len(text)})
    text = b'language 2\n' + TEXT + b'proc p() {\n}\n'
    yield f'the text {text!r}', None, image_model.image_of(text, {**fields, 'length': len(text)})
    for part in ('version', 'node'):
        rest = {name: value for name, value in fields.items() if not name.startswith(f'{part} ')}
        yield f'no {part}', 2, image_model.image_of(TEXT, {**rest, f'{part}s': 0})


def wanted_of_paid(fields: Dict[str, int]) -> Iterator[Wanted]:
    """The scene's image, paid for in other ways, and what is wanted of it."""
    for counts, right in [((12, 0, 0), True), ((11, 0, 0), False), ((0, 2, 0), True), ((0, 1, 2), False), ((0, 0, 6), True), ((1, 0, 5), False),
                          ((0, 0, 0), False), ((5, 1, 0), False), ((6, 1, 0), True), (3 * (MOST_COUNT,), True)]:
        paid = dict(zip(('records', 'pointers', 'values'), counts))
        yield f'{paid}', None if right else 9, image_model.image_of(TEXT, {**fields, **paid})


# Two types without fields, so that a node of the one has as many slots as a node of the other; and one that may point to itself.
BARE = b"""record A 1 { }
record B 1 { }
"""
LOOPED = b"""record N 2 { ptr next: N; }
"""
# One whose pointer has a slot other than 0, and one with arrays.
KEYED = b"""record N 2 { val key: int; ptr next: N; }
"""
PAIRED = b"""language 2
record N 2 { val keys: int * 3; ptr next: N * 2; }
"""


def bare(text: bytes, versions: Sequence[Sequence[int]], *nodes: Sequence[int]) -> bytes:
    """An image of eight places with few numbers in it: three runs took one, and nine records pay for what there is."""
    numbers = [1000000, 4, 9, 0, 0, 8, len(versions), *itertools.chain(*versions), len(nodes), *itertools.chain(*nodes)]
    return MAGIC + struct.pack('>Q', len(text)) + text + struct.pack(f'>{len(numbers)}Q', *numbers)


def wanted_of_bare() -> Iterator[Wanted]:
    """Images that break one rule by one thing, in ways that the scene can't; the last two records live longer than any version."""
    whole, free = (0, 0, 0, 7), (1, 0, 0)
    root = (0, 0, 0, 0, 7, 0, *free)
    stamps = [(2, 0), (3, 0), (4, 0)]
    yield 'a version of the next run', 3, bare(b'', [whole, (0, 4, 1, 2)], root)
    yield 'nothing stamped in a slot that is not there', 4, bare(b'', [whole], (*root[:-1], 1, 5, 3, 0))
    yield 'a later node that is not there', 5, bare(b'', [whole], (0, 0, 0, 0, 7, 5, *free))
    yield 'a root record of another type', 5, bare(BARE, [whole], (0, 0, 1, 0, 7, 0, *free))
    yield 'a later node of another type', 5, bare(BARE, [whole], root, (1, 0, 1, 1, 3, 3, *free), (1, 0, 2, 3, 5, 0, *free))
    yield 'a gap in the life of the root record', 5, bare(b'', [whole], (0, 0, 0, 0, 3, 2, *free), (0, 0, 0, 4, 7, 0, *free))
    yield 'a root record that ends early', 5, bare(b'', [whole], (0, 0, 0, 0, 6, 0, *free))
    yield 'a record of run 0', 5, bare(BARE, [whole], root, (0, 5, 1, 1, 3, 0, *free))
    yield 'a record of type 0', 5, bare(BARE, [whole], root, (1, 0, 0, 1, 3, 0, *free))
    yield 'a pointer to itself without an entry', 6, bare(LOOPED, [whole], root, (1, 0, 1, 1, 3, 0, 3, 2, 0, 0, 0))
    yield 'an entry of no node', 4, bare(KEYED, [whole], root, (1, 0, 1, 1, 3, 0, 4, 0, 0, 1, 0, 0))
    yield 'a record with arrays', None, bare(PAIRED, [whole], root, (1, 0, 1, 1, 3, 0, 7, *(7 * [0]), 0))
    yield 'a node of 65,536 slots', 0, bare(b'', [whole], (*root[:6], U16, *(U16 * [0]), 0))
    yield 'one more stamped value than the root record may have', 8, bare(b'', [whole], (*root[:-1], 3, *itertools.chain(*((0, *s) for s in stamps))))
    yield 'a record that lives up to the last place', None, bare(BARE, [whole], root, (1, 0, 1, 1, 7, 0, *free))


def hot(writes: int, splits: bool) -> image_model.Store:
    """A store in which one record is written in so many versions, each from the one before."""
    store = image_model.Store(TEXT, splits)
    for version in range(writes):
        run = store.fork(version)
        if version == 0:
            store.allocate(run, 1)
            store.write(run, ROOT, 1, ONE)
        store.write(run, ONE, 0, version + 1)
        store.publish(run)
    return store


def wanted_of_hot() -> Iterator[Wanted]:
    """A node of `N` has room for 8 stamped values, and each version behind the first stamps two."""
    for writes in (2, 5, 6, 7, 8, 9, 14, 30):
        for splits in (False, True):
            store = hot(writes, splits)
            wanted = None if splits or writes <= 5 else 8
            yield f'{writes} writes, {"" if splits else "not "}split', wanted, image_model.image_of(TEXT, image_model.fields_of(store))


def wanted_of_left() -> Iterator[Wanted]:
    """Runs that made records and left them: these live over no version. They hold each other, and their nodes are split."""
    store = image_model.Store(TEXT)
    for _ in range(3):
        run = store.fork(0)
        one, cell = store.allocate(run, 1), store.allocate(run, 2)
        for k in range(20):
            store.write(run, one, 1, one if k % 2 else None)
            store.write(run, one, 2, cell)
            store.write(run, cell, 0, k)
    yield 'records that live over no version', None, image_model.image_of(TEXT, image_model.fields_of(store))


def others() -> Iterator[Wanted]:
    """Images that are other ones by more than a number."""
    fields = image_model.fields_of(scene())
    for wanted in (wanted_of_texts(fields), wanted_of_paid(fields), wanted_of_bare(), wanted_of_hot(), wanted_of_left()):
        yield from wanted


def made_up_store(draw: random.Random) -> image_model.Store:
    """A store with made-up runs, and some that are left."""
    store = image_model.Store(TEXT)
    for _ in range(draw.choice([5, 10, 20])):
        run = store.fork(draw.randrange(len(store.versions)))
        for _ in range(draw.randrange(6)):
            if draw.random() < 0.3:
                store.allocate(run, draw.choice([1, 2]))
            name = draw.choice(list(run.heap))
            it = store.types[run.heap[name][0]]
            slot = draw.randrange(it.contents)
            names = [other for other, (number, _) in run.heap.items() if it.is_pointer(slot) and number == it.target(slot)]
            store.write(run, name, slot, draw.choice([None, *names]) if it.is_pointer(slot) else draw.choice([0, 1, -1, 2 ** 63 - 1, -2 ** 63]))
        if draw.random() < 0.8:
            store.publish(run)
    return store
