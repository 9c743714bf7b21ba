"""Reads the images that `pack` writes, judges them by the ten rules, and reads the heap of a version from one.

An image is the bytes `PSTIMG01` and then numbers of 8 bytes, most significant first: the length of the program's text, which stands
directly behind it; the budget and the next run number; the counts of records, pointer writes and value writes; how many places the
order has, each of which is named by its position from 0; how many versions there are, and of each its parent, run, begin and end; how
many nodes, and of each its run, ordinal, type, `lo`, `hi`, `later` plus 1 or 0, how many slots it has, the base of each, how many
stamped values, and of each the slot, the stamp and the content, in the order of slot and then place. A content is a number in two's
complement, or 0 for null and for a free slot, or a node plus 1, or for an entry (x, f) the number (x + 1) * 128 + f.

All this is written from the rules alone. The program is asked for one thing, whether a text is that of a program: by its word `check`.
"""
import functools
import itertools
import sys
from array import array
from collections import Counter
from typing import Any, Dict, Iterator, List, NamedTuple, Optional, Sequence, Tuple

from shared.declarations import Field, declarations_of
from shared.program import written

MAGIC = b'PSTIMG01'
U8, U16, U32, U64 = 1 << 8, 1 << 16, 1 << 32, 1 << 64
MOST_TEXT = U32 - 1
MOST_BUDGET = 1000000000
MOST_RUN = 1048577
MOST_COUNT = 1 << 50
ENTRY = 128

# The name of a record: its run, and how many that run had made before.
Name = Tuple[int, int]
# What a field of a heap holds: a number, None for null, or the name of a record; which of them, its slot tells.
Held = Any
# The records of a heap by their names: type and contents of each.
Heap = Dict[Name, Tuple[int, List[Held]]]
# A stamped value: slot, stamp and content. A side of the mirror: node, node, slot, from where, up to where.
Triple = Tuple[int, int, int]
Side = Tuple[int, int, int, int, int]


class Version(NamedTuple):
    """A version as it stands in an image: the places between which it stands are positions."""
    parent: int
    run: int
    begin: int
    end: int


class NoForm(Exception):
    """The bytes do not begin with the form of an image."""


class Type:
    """A type of records: the slots of its values come first, then those of its pointers with their targets, then the inverse ones."""

    def __init__(self, name: str, limit: int, fields: Sequence[Field], numbers: Dict[str, int]) -> None:
        self.name = name
        self.values = sum(it.elements or 1 for it in fields if it.kind == 'int')
        self.targets = [numbers[it.kind] for it in fields if it.kind != 'int' for _ in range(it.elements or 1)]
        self.contents = self.values + len(self.targets)
        self.slots = self.contents + limit
        self.capacity = 2 * (len(self.targets) + limit)

    def is_pointer(self, slot: int) -> bool:
        return self.values <= slot < self.contents

    def target(self, slot: int) -> int:
        return self.targets[slot - self.values]


@functools.lru_cache(maxsize=16)
def types_of(text: bytes) -> List[Type]:
    """The types that a program in its canonical form declares: first that of the root record, then those of the records."""
    roots, records = declarations_of(text.decode('ascii'))
    numbers = {declared.name: number for number, declared in enumerate(records, 1)}
    return [Type('root', 1, roots, numbers), *(Type(*declared, numbers) for declared in records)]


class Numbers:
    """The numbers behind the text of an image, which are taken from the front."""

    def __init__(self, data: bytes) -> None:
        self.words, self.at = array('Q'), 0
        self.words.frombytes(data[:len(data) // 8 * 8])
        if sys.byteorder == 'little':
            self.words.byteswap()

    def take(self, count: int, end: int = U64) -> 'array[int]':
        """So many numbers, each below the end of its type."""
        part = self.words[self.at:self.at + count]
        if len(part) < count or (count and max(part) >= end):
            raise NoForm
        self.at += count
        return part


def triples(numbers: 'array[int]') -> List[Triple]:
    """Stamped values: slot, stamp and content of each."""
    slots, stamps = numbers[0::3], numbers[1::3]
    if max(slots) >= U16 or max(stamps) >= U32:
        raise NoForm
    return list(zip(slots, stamps, numbers[2::3]))


class Node:
    """A node as it stands in an image: `bases` has the base of each slot, `stamped` the slot, stamp and content of each stamped value."""

    __slots__ = 'run', 'ordinal', 'type', 'lo', 'hi', 'later', 'bases', 'stamped'

    def __init__(self, numbers: Numbers) -> None:
        self.run, self.ordinal, self.type, self.lo, self.hi, later, slots = numbers.take(7)
        if max(self.run, self.ordinal, self.lo, self.hi) >= U32 or self.type >= U8 or slots >= U16:
            raise NoForm
        self.later = later - 1 if later else None
        self.bases = numbers.take(slots)
        stamps, = numbers.take(1)
        self.stamped = triples(numbers.take(3 * stamps)) if stamps else ()

    @property
    def name(self) -> Name:
        return self.run, self.ordinal


class Image:
    """What an image holds; `length` is how many bytes of the data it takes."""

    def __init__(self, data: bytes) -> None:
        size = int.from_bytes(data[8:16], 'big')
        self.text = data[16:16 + size]
        if data[:8] != MAGIC or len(data) < 16 or len(self.text) < size:
            raise NoForm
        numbers = Numbers(data[16 + size:])
        self.budget, self.next_run = numbers.take(2, U32)
        self.records, self.pointer_writes, self.value_writes = self.counts = tuple(numbers.take(3))
        self.places, = numbers.take(1, U32)
        self.versions = [Version(*numbers.take(4, U32)) for _ in range(*numbers.take(1))]
        self.nodes = [Node(numbers) for _ in range(*numbers.take(1))]
        self.length = 16 + size + 8 * numbers.at

    @functools.cached_property
    def types(self) -> List[Type]:
        return types_of(self.text)

    @functools.cached_property
    def mirror(self) -> Tuple[List[Side], List[Side]]:
        """The two sides of the mirror, each as a list of (y, x, f, a, c): that from place a up to c slot f of node x holds node y, and that
        then an inverse slot of node y holds the entry (x, f)."""
        pointers: List[Side] = []
        entries: List[Side] = []
        for number, node in enumerate(self.nodes):
            it = self.types[node.type]
            for slot, begin, end, content in segments(node):
                if content and it.is_pointer(slot):
                    pointers.append((content - 1, number, slot, begin, end))
                elif content and slot >= it.contents:
                    entries.append((number, content // ENTRY - 1, content % ENTRY, begin, end))
        return pointers, entries

    def potential(self) -> int:
        """What the nodes have stamped over half their capacity, in all."""
        return sum(max(0, len(node.stamped) - self.types[node.type].capacity // 2) for node in self.nodes)


def segments(node: Node) -> Iterator[Tuple[int, int, int, int]]:
    """The segments of a node, slot by slot: the slot, from where, up to where, and the content."""
    stamped, at = node.stamped, 0
    for slot, content in enumerate(node.bases):
        begin = node.lo
        while at < len(stamped) and stamped[at][0] == slot:
            yield slot, begin, stamped[at][1], content
            _, begin, content = stamped[at]
            at += 1
        yield slot, begin, node.hi, content


# ---- the rules, each over an image for which those before it hold. Rule 0 is that there is one, which `Image` itself finds out.

@functools.lru_cache(maxsize=256)
def is_canonical(text: bytes) -> bool:
    """Whether a text is that of an accepted program, in its canonical form."""
    return written('check', text) == (0, text)


def text_is_canonical(image: Image) -> bool:
    """1: the text is the canonical text of a program that is accepted, and has fewer than 4,294,967,295 bytes."""
    return len(image.text) < MOST_TEXT and is_canonical(image.text)


def numbers_are_in_range(image: Image) -> bool:
    """2: budget and next run number are ones that a session can have, no count is above 2^50, the runs before the next one account for
    the places, of which there are at least two, and there is a version and a node."""
    return (1 <= image.budget <= MOST_BUDGET and 1 <= image.next_run <= MOST_RUN and max(image.counts) <= MOST_COUNT
            and 2 <= image.places <= 2 * image.next_run and len(image.versions) > 0 and len(image.nodes) > 0)


def versions_nest(image: Image) -> bool:
    """3: version 0 has run 0, is named as its own parent, and goes from the first place to the last. Each other version has a parent
    with a lower number, a run that no other has, from 1 and below the next one, and a stretch strictly inside its parent's. Of two
    versions with one parent, that of the greater run ends before the other begins."""
    versions, others = image.versions, image.versions[1:]
    if versions[0] != (0, 0, 0, image.places - 1) or len({it.run for it in others}) < len(others):
        return False
    for number, it in enumerate(others, 1):
        if it.parent >= number or not 1 <= it.run < image.next_run:
            return False
        if not versions[it.parent].begin < it.begin < it.end < versions[it.parent].end:
            return False
    siblings = sorted(others, key=lambda it: (it.parent, -it.run))
    return all(it.parent != after.parent or it.end < after.begin for it, after in zip(siblings, siblings[1:]))


def row_is_sound(image: Image, node: Node) -> bool:
    """The part of rule 4 on a node's type, slots, life and stamps."""
    if node.type >= len(image.types) or len(node.bases) != image.types[node.type].slots or not node.lo < node.hi < image.places:
        return False
    before = -1, 0
    for slot, stamp, _ in node.stamped:
        if slot >= len(node.bases) or not node.lo < stamp < node.hi or (slot, stamp) <= before:
            return False
        before = slot, stamp
    return True


def content_fits(image: Image, number: int, slot: int, content: int) -> bool:
    """The part of rule 4 on a content, other than 0, of a pointer or inverse slot of a node of this type."""
    it = image.types[number]
    x, f = (content - 1, None) if it.is_pointer(slot) else (content // ENTRY - 1, content % ENTRY)
    if not 0 <= x < len(image.nodes):
        return False
    if f is None:
        return image.nodes[x].type == it.target(slot)
    held = image.types[image.nodes[x].type]
    return held.is_pointer(f) and held.target(f) == number


def rows_are_sound(image: Image) -> bool:
    """4: each node has a type that there is and just its slots, and lives from a place to a later one. Its stamped values stand in
    the order of slot and then place, each in a slot that there is, the stamps of a slot rise and lie strictly inside the life. A pointer
    slot holds nothing or a node of its target type, an inverse slot nothing or a node with a pointer slot of it whose target is the
    type of the node that holds the entry."""
    if not all(row_is_sound(image, node) for node in image.nodes):
        return False
    for node in image.nodes:
        values = image.types[node.type].values
        contents = itertools.chain(enumerate(node.bases), ((slot, content) for slot, _, content in node.stamped))
        if not all(content == 0 or slot < values or content_fits(image, node.type, slot, content) for slot, content in contents):
            return False
    return True


def later_chains(image: Image) -> Optional[List[Node]]:
    """The part of rule 5 on `later`: the first nodes of the chains, or None where two nodes have one later node or the two of a link do
    not fit. A link leads to a greater `lo`, so no chain comes back to itself."""
    nodes, followed = image.nodes, set()
    for node in nodes:
        if node.later is None:
            continue
        if node.later >= len(nodes) or node.later in followed:
            return None
        after = nodes[node.later]
        if (after.name, after.type, after.lo) != (node.name, node.type, node.hi):
            return None
        followed.add(node.later)
    return [node for number, node in enumerate(nodes) if number not in followed]


def records_are_chains(image: Image) -> bool:
    """5: node 0 is the first one of the root record, which has the name (0, 0) and type 0, and lives from the first place to the last. The
    nodes of a record are one chain by `later`, of one name and type, each beginning where the one before ends; different chains have
    different names. No other record has run 0 or type 0, and each has a run below the next one."""
    root, chains = image.nodes[0], later_chains(image)
    if chains is None or (root.name, root.type, root.lo) != ((0, 0), 0, 0) or len({node.name for node in chains}) < len(chains):
        return False
    last = root
    while last.later is not None:
        last = image.nodes[last.later]
    return last.hi == image.places - 1 and all(node is root or (node.type != 0 and 1 <= node.run < image.next_run) for node in chains)


def pointers_have_entries(image: Image) -> bool:
    """6: a pointer segment lies inside the life of the node that it holds, and just one inverse slot of that node holds its entry over
    just the same places."""
    pointers, entries = image.mirror
    times, nodes = Counter(entries), image.nodes
    return all(times[pointer] == 1 and nodes[pointer[0]].lo <= pointer[3] and pointer[4] <= nodes[pointer[0]].hi for pointer in pointers)


def entries_have_pointers(image: Image) -> bool:
    """7: for each segment in which an inverse slot holds an entry, that pointer slot holds the node over just the same places."""
    pointers, entries = image.mirror
    return set(pointers).issuperset(entries)


def nodes_have_room(image: Image) -> bool:
    """8: no node has more stamped values than its type's capacity, twice its pointer slots and inverse slots."""
    return all(len(node.stamped) <= image.types[node.type].capacity for node in image.nodes)


def counts_pay(image: Image) -> bool:
    """9: nodes and potential are together at most one for each record, six for each pointer write and two for each value write."""
    return len(image.nodes) + image.potential() <= image.records + 6 * image.pointer_writes + 2 * image.value_writes


RULES = [text_is_canonical, numbers_are_in_range, versions_nest, rows_are_sound, records_are_chains, pointers_have_entries,
         entries_have_pointers, nodes_have_room, counts_pay]


def first_failed(data: bytes) -> Optional[int]:
    """The number of the first rule that fails for these bytes, or None where they begin with an image that all of them accept."""
    try:
        image = Image(data)
    except NoForm:
        return 0
    return next((number for number, holds in enumerate(RULES, 1) if not holds(image)), None)


# ---- what an image denotes

def signed(content: int) -> int:
    """The number that a content of 64 bits stands for in two's complement."""
    return content - U64 if content >> 63 else content


def contents_at(image: Image, node: Node, place: int) -> 'array[int]':
    """What the slots of a node for values and pointers hold at a place of its life."""
    contents = node.bases[:image.types[node.type].contents]
    for slot, stamp, content in node.stamped:
        if slot < len(contents) and stamp <= place:
            contents[slot] = content
    return contents


def record_at(image: Image, node: Node, place: int) -> Tuple[Name, int, List[Held]]:
    """A record at a place of its node's life: name, type, and the contents: numbers, and null as None or the name of a record."""
    it = image.types[node.type]
    contents = contents_at(image, node, place)
    held = [image.nodes[content - 1].name if content else None for content in contents[it.values:]]
    return node.name, node.type, [signed(content) for content in contents[:it.values]] + held


def heap_of(image: Image, version: int) -> Heap:
    """All records of a version, by their names: type and contents of each."""
    place = image.versions[version].begin
    records = (record_at(image, node, place) for node in image.nodes if node.lo <= place < node.hi)
    return {name: (number, contents) for name, number, contents in records}


def reached(heap: Heap, types: Sequence[Type]) -> List[Name]:
    """The names of the records that are reached from the root record, in the order of their least paths: shorter ones first, and of
    two as long that of the lower slots."""
    names = [(0, 0)]
    found = set(names)
    for name in names:
        number, contents = heap[name]
        for held in contents[types[number].values:]:
            if held is not None and held not in found:
                found.add(held)
                names.append(held)
    return names


def dump_of(image: Image, version: int) -> bytes:
    """The dump of a version, as the word `dump` writes it: a line for each record that is reached."""
    heap = heap_of(image, version)
    names = reached(heap, image.types)
    numbers = {name: number for number, name in enumerate(names)}
    lines = []
    for name in names:
        it, contents = image.types[heap[name][0]], heap[name][1]
        held = ['null' if content is None else f'@{numbers[content]}' for content in contents[it.values:]]
        told = ' '.join([*map(str, contents[:it.values]), *held])
        lines.append(f'{numbers[name]} {it.name}:{" " if told else ""}{told}\n')
    return ''.join(lines).encode()
