"""A small store of fat nodes over plain lists, and the image of one. It is for tests of the rules: it is slow and keeps the heap of each
version beside the nodes."""
import struct
from typing import Dict, Iterable, Iterator, List, NamedTuple, Optional, Sequence, Tuple, Union

from shared.image_rules import ENTRY, MAGIC, U64, Heap, Held, Image, Name, types_of


class Target(NamedTuple):
    """What a pointer slot holds: a node."""
    x: int


class Entry(NamedTuple):
    """What an inverse slot holds: a slot of a node."""
    x: int
    f: int


Content = Union[int, None, Target, Entry]
# The segments of a slot, each from where it begins.
Segments = List[Tuple[int, Content]]


class Run:
    """A run on a version: its places, its heap, and how many records it has made."""

    def __init__(self, number: int, parent: int, begin: int, end: int, heap: Heap) -> None:
        self.number, self.parent, self.begin, self.end, self.heap, self.made = number, parent, begin, end, heap, 0


class Node:
    """A node with its life. A row is a slot's segments, each from where it begins, with its content: a number, None, a target or an
    entry."""

    def __init__(self, name: Name, type_number: int, lo: int, hi: int, rows: List[Segments]) -> None:
        self.name, self.type, self.lo, self.hi, self.rows = name, type_number, lo, hi, rows
        self.later: Optional[int] = None

    def stamps(self) -> List[int]:
        """The places of the stamped values."""
        return [begin for row in self.rows for begin, _ in row[1:]]


class Store:
    """Versions, nodes and counts. With `splits` false no node is ever split, which is wrong."""

    def __init__(self, text: bytes, splits: bool = True) -> None:
        self.text, self.types, self.splits = text, types_of(text), splits
        self.order, self.places, self.budget = [0, 1], 2, 1000000
        self.counts = {'records': 1, 'pointers': 0, 'values': 0}
        self.nodes: List[Node] = []
        heap: Heap = {(0, 0): (0, self.defaults(0))}
        self.make_node((0, 0), 0, 0, 1)
        self.runs, self.versions = [Run(0, 0, 0, 1, heap)], [0]

    # ---- places

    def at(self, place: int) -> int:
        return self.order.index(place)

    def behind(self, place: int) -> int:
        """A new place directly behind this one."""
        self.places += 1
        self.order.insert(self.at(place) + 1, self.places)
        return self.places

    # ---- runs and versions

    def fork(self, version: int) -> Run:
        origin = self.runs[self.versions[version]]
        begin = self.behind(origin.begin)
        heap = {name: (number, list(contents)) for name, (number, contents) in origin.heap.items()}
        run = Run(len(self.runs), version, begin, self.behind(begin), heap)
        self.runs.append(run)
        return run

    def publish(self, run: Run) -> int:
        self.versions.append(run.number)
        return len(self.versions) - 1

    # ---- records

    def defaults(self, number: int) -> List[Held]:
        it = self.types[number]
        return [*it.values * [0], *len(it.targets) * [None]]

    def make_node(self, name: Name, number: int, lo: int, hi: int) -> None:
        it = self.types[number]
        contents: List[Optional[int]] = [*it.values * [0], *(it.slots - it.values) * [None]]
        self.nodes.append(Node(name, number, lo, hi, [[(lo, content)] for content in contents]))

    def allocate(self, run: Run, number: int) -> Name:
        name = run.number, run.made
        run.made += 1
        self.counts['records'] += 1
        run.heap[name] = number, self.defaults(number)
        self.make_node(name, number, run.begin, run.end)
        return name

    def node_at(self, name: Name, place: int) -> int:
        """The number of the node that covers a place of a record's life."""
        return next(x for x, node in enumerate(self.nodes)
                    if node.name == name and self.at(node.lo) <= self.at(place) < self.at(node.hi))

    def held_at(self, node: Node, slot: int, place: int) -> Content:
        return [content for begin, content in node.rows[slot] if self.at(begin) <= self.at(place)][-1]

    def in_degree(self, heap: Heap, name: Name, slot: int, target: Name) -> int:
        """How many fields but this one hold the record."""
        return sum(content == target and (other, k) != (name, slot)
                   for other, (number, contents) in heap.items()
                   for k, content in enumerate(contents) if self.types[number].is_pointer(k))

    # ---- writes

    def write(self, run: Run, name: Name, slot: int, content: Held) -> bool:
        """Writes a field of a record by name: a number, null, or the name of a record. False where a pointer trapped."""
        number, contents = run.heap[name]
        if not self.types[number].is_pointer(slot):
            self.counts['values'] += 1
            self.set_over(self.nodes[self.node_at(name, run.begin)], slot, run, content)
        elif content is not None and self.in_degree(run.heap, name, slot, content) == self.slots_for(run.heap[content][0]):
            return False
        else:
            self.counts['pointers'] += 1
            self.write_pointer(run, self.node_at(name, run.begin), slot, content)
        contents[slot] = content
        while self.splits and self.split_one():
            pass
        return True

    def slots_for(self, number: int) -> int:
        return self.types[number].slots - self.types[number].contents

    def write_pointer(self, run: Run, x: int, slot: int, name: Optional[Name]) -> None:
        """Writes a pointer of node x: the entry in the node that it held is taken away, and one is put into that of the record named."""
        old = self.held_at(self.nodes[x], slot, run.begin)
        if isinstance(old, Target):
            self.set_over(self.nodes[old.x], self.inverse(old.x, run.begin, Entry(x, slot)), run, None)
        target = None if name is None else Target(self.node_at(name, run.begin))
        if target is not None:
            self.set_over(self.nodes[target.x], self.inverse(target.x, run.begin, None), run, Entry(x, slot))
        self.set_over(self.nodes[x], slot, run, target)

    def inverse(self, y: int, place: int, entry: Optional[Entry]) -> int:
        """The first inverse slot that holds this entry at a place."""
        node = self.nodes[y]
        first = self.types[node.type].contents
        return next(slot for slot in range(first, len(node.rows)) if self.held_at(node, slot, place) == entry)

    def set_over(self, node: Node, slot: int, run: Run, content: Content) -> None:
        """Sets a slot over the stretch of a run, behind which it holds what it held."""
        row = node.rows[slot]
        k = max(k for k, (begin, _) in enumerate(row) if self.at(begin) <= self.at(run.begin))
        begin, old = row[k]
        end = row[k + 1][0] if k + 1 < len(row) else node.hi
        fresh = [(begin, old)] if begin != run.begin else []
        fresh.append((run.begin, content))
        fresh += [(run.end, old)] if end != run.end else []
        row[k:k + 1] = fresh

    # ---- splits

    def split_one(self) -> bool:
        """Splits the first node over its capacity, if there is one."""
        for x, node in enumerate(self.nodes):
            stamps = sorted(node.stamps(), key=self.at)
            if len(stamps) > self.types[node.type].capacity:
                self.split(x, stamps[len(stamps) // 2])
                return True
        return False

    def split(self, x: int, place: int) -> None:
        """Splits a node at a place: each segment that refers to it is cut there, and from there on refers to the right node."""
        node = self.nodes[x]
        for it in self.nodes:
            it.rows = [[part for segment in self.segments(it, row) for part in self.cut(segment, place, it is node, x)] for row in it.rows]
        right = Node(node.name, node.type, place, node.hi, [self.side(row, place, True) for row in node.rows])
        node.rows = [self.side(row, place, False) for row in node.rows]
        right.later, node.later, node.hi = node.later, len(self.nodes), place
        self.nodes.append(right)
        for it in self.nodes:
            it.rows = [[(begin, self.led(begin, content, x, place, node.later)) for begin, content in row] for row in it.rows]

    def segments(self, node: Node, row: Segments) -> List[Tuple[int, int, Content]]:
        """The segments of a row with their ends."""
        return [(begin, end, content) for (begin, content), end in zip(row, [begin for begin, _ in row[1:]] + [node.hi])]

    def cut(self, segment: Tuple[int, int, Content], place: int, always: bool, x: int) -> Iterator[Tuple[int, Content]]:
        """The parts of a segment, which is cut at a place where it refers to node x, or where that is asked for."""
        begin, end, content = segment
        yield begin, content
        if self.at(begin) < self.at(place) < self.at(end) and (always or refers(content, x)):
            yield place, content

    def side(self, row: Segments, place: int, later: bool) -> Segments:
        return [(begin, content) for begin, content in row if (self.at(begin) >= self.at(place)) == later]

    def led(self, begin: int, content: Content, x: int, place: int, right: int) -> Content:
        """The content of a segment behind a split of node x at a place."""
        if isinstance(content, (Target, Entry)) and content.x == x and self.at(begin) >= self.at(place):
            return content._replace(x=right)
        return content


def refers(content: Content, x: int) -> bool:
    return isinstance(content, (Target, Entry)) and content.x == x


# ---- the image of a store

def coded(content: Content) -> int:
    """A content as a number of 8 bytes."""
    if content is None:
        return 0
    if isinstance(content, int):
        return content % U64
    return (content.x + 1) * ENTRY + content.f if isinstance(content, Entry) else content.x + 1


def fields_of(store: Store) -> Dict[str, int]:
    """The numbers of a store's image by names, as `named` gives them."""
    position = {place: k for k, place in enumerate(store.order)}
    versions = []
    for number in store.versions:
        run = store.runs[number]
        versions.append((run.parent, number, position[run.begin], position[run.end]))
    nodes = []
    for node in store.nodes:
        head = *node.name, node.type, position[node.lo], position[node.hi], 0 if node.later is None else node.later + 1
        stamped = [(slot, position[begin], coded(content)) for slot, row in enumerate(node.rows) for begin, content in row[1:]]
        nodes.append((head, [coded(row[0][1]) for row in node.rows], stamped))
    return named(store.text, (store.budget, len(store.runs), *store.counts.values(), len(store.order)), versions, nodes)


def fields_in(image: Image) -> Dict[str, int]:
    """The numbers of an image that was read."""
    nodes = [((*it.name, it.type, it.lo, it.hi, 0 if it.later is None else it.later + 1), it.bases, it.stamped) for it in image.nodes]
    return named(image.text, (image.budget, image.next_run, *image.counts, image.places), image.versions, nodes)


def named(text: bytes, head: Iterable[int], versions: Sequence[Sequence[int]], nodes: Sequence[Tuple[Sequence[int], Sequence[int], Sequence[Sequence[int]]]]) -> Dict[str, int]:
    """The numbers of an image by names, such as `budget`, `version 2 begin`, `node 0 base 1`, or `node 0 stamp 2` for that of the third
    stamped value of node 0."""
    fields = {'length': len(text), **dict(zip(('budget', 'next run', 'records', 'pointers', 'values', 'places'), head)),
              'versions': len(versions)}
    for version, row in enumerate(versions):
        fields.update((f'version {version} {name}', value) for name, value in zip(('parent', 'run', 'begin', 'end'), row))
    fields['nodes'] = len(nodes)
    for x, (told, bases, stamped) in enumerate(nodes):
        fields.update((f'node {x} {name}', value) for name, value in zip(('run', 'ordinal', 'type', 'lo', 'hi', 'later'), told))
        fields[f'node {x} slots'] = len(bases)
        fields.update((f'node {x} base {slot}', base) for slot, base in enumerate(bases))
        fields[f'node {x} stamped'] = len(stamped)
        for k, triple in enumerate(stamped):
            fields.update((f'node {x} {name} {k}', value) for name, value in zip(('slot', 'stamp', 'content'), triple))
    return fields


def image_of(text: bytes, fields: Dict[str, int]) -> bytes:
    """The bytes of an image with this text and these numbers."""
    length, *numbers = fields.values()
    return MAGIC + struct.pack('>Q', length) + text + struct.pack(f'>{len(numbers)}Q', *numbers)
