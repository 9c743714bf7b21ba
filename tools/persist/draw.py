"""Draws what `persist` tells: the tree of versions, and the records of one version.

    python3 tools/persist_draw.py text          < INPUT                  the version tree as text
    python3 tools/persist_draw.py tree          < INPUT > tree.svg       the same as a picture
    python3 tools/persist_draw.py tree dot      < INPUT > tree.dot       the same for Graphviz
    python3 tools/persist_draw.py records V     < INPUT > records.svg    the records of version V, with the names of their fields
    python3 tools/persist_draw.py records V dot < INPUT > records.dot    the same for Graphviz

INPUT is what `persist run` takes, or what `persist serve` does: an image, with a script behind it or none. PERSIST names another build of
the program. The status is 0, 1 where there is nothing to draw, and
2 for other words. A history of more versions than can be looked at is folded: a fold stands for versions that hang together, and
says how many they are. No SVG is larger than 200 KB, and none needs another program. Tested (tools/tests), not proved.
"""

import os
import re
import sys
from dataclasses import dataclass, field
from html import escape
from typing import Callable, Dict, Iterable, List, Optional, Sequence, Set, TextIO, Tuple, Union

from .client import (
    Content, Dump, History, Outline, PersistError, Pointer, Record, Refused, Session, Versions, session_on)

Parents = Sequence[Optional[int]]
Label = Callable[[int], str]

# The most bytes of a picture.
LIMIT = 200_000
# How many versions are drawn without folding, in a picture and as text.
SHOWN, SHOWN_AS_TEXT = 160, 100
# How many records are drawn.
RECORDS_SHOWN = 120
# The width of a character of 12 pixels' height, in pixels.
CHARACTER = 7.3


def no_label(_: int) -> str:
    """A version without a label."""
    return ''


# Which versions are shown.

@dataclass
class Mark:
    """What stands in a picture of a tree: a version, or a fold of `hidden` versions that begins with this one."""
    version: int
    hidden: int = 0
    children: List['Mark'] = field(default_factory=list)
    # How many versions it and all below it stand for.
    size: int = 0

    def text(self) -> str:
        """The number, or how many are folded."""
        return f'.. {self.hidden:,} versions' if self.hidden else str(self.version)


def children_of(parents: Parents) -> List[List[int]]:
    """The versions that were made from each version."""
    children: List[List[int]] = [[] for _ in parents]
    for version, parent in enumerate(parents):
        if parent is not None:
            children[parent].append(version)
    return children


def sizes_of(parents: Parents) -> List[int]:
    """How many versions each version and all below it are."""
    sizes = [1] * len(parents)
    for version in range(len(parents) - 1, 0, -1):
        parent = parents[version]
        assert parent is not None
        sizes[parent] += sizes[version]
    return sizes


def way_to(parents: Parents, version: int, steps: int) -> List[int]:
    """A version, and as many of those that it was made from."""
    way: List[int] = []
    at: Optional[int] = version
    while at is not None and len(way) <= steps:
        way.append(at)
        at = parents[at]
    return way


def chosen(parents: Parents, here: Optional[int], most: int) -> Set[int]:
    """The versions that are shown, about `most` of them: all where they are so few; else version 0, the newest one and `here` with those
    just before them, what was made from `here`, and then where branches begin, part and end, the one with the most below it first."""
    if len(parents) <= most:
        return set(range(len(parents)))
    children, sizes = children_of(parents), sizes_of(parents)
    shown = {0, *way_to(parents, len(parents) - 1, most // 10)}
    if here is not None:
        shown |= {*way_to(parents, here, most // 10), *children[here][:8]}
    ends = {version for version, below in enumerate(children) if len(below) != 1}
    ends |= {child for version in ends for child in children[version]}
    for version in sorted(ends, key=lambda it: (-sizes[it], it)):
        if len(shown) >= most:
            break
        shown.add(version)
    return shown


def folded(parents: Parents, here: Optional[int], most: int) -> Mark:
    """The tree that is drawn. Hidden versions that hang together are one fold; of those that lead to nothing shown, all that hang
    below one shown version are one fold. A fold of one version is that version."""
    shown = chosen(parents, here, most)
    above: Set[int] = set()
    for version in sorted(shown, reverse=True):
        at: Optional[int] = version
        while at is not None and at not in above:
            above.add(at)
            at = parents[at]
    root = Mark(0)
    marks: Dict[int, Mark] = {0: root}
    ends: Dict[int, Mark] = {}
    for version in range(1, len(parents)):
        parent = parents[version]
        assert parent is not None
        before = marks[parent]
        if version in shown or before.hidden == 0 and version in above:
            marks[version] = place(Mark(version, int(version not in shown)), before)
        elif before.hidden == 0:
            mark = ends.get(id(before))
            marks[version] = mark or place(Mark(version), before)
            ends[id(before)] = marks[version]
            marks[version].hidden += 1
        else:
            marks[version] = before
            before.hidden += 1
    for mark in reversed(in_order(root)):
        if mark.hidden == 1:
            mark.hidden = 0
        mark.size = max(1, mark.hidden) + sum(it.size for it in mark.children)
    return root


def place(mark: Mark, parent: Mark) -> Mark:
    """Hangs a mark below another one."""
    parent.children.append(mark)
    return mark


def in_order(root: Mark) -> List[Mark]:
    """All marks, each before those below it."""
    marks, rest = [], [root]
    while rest:
        mark = rest.pop()
        marks.append(mark)
        rest.extend(mark.children)
    return marks


@dataclass
class Row:
    """A line of a drawn tree: what stands there, how far it is moved in, and on which row its parent stands."""
    mark: Mark
    lane: int
    above: Optional[int]


def rows_of(root: Mark) -> List[Row]:
    """The lines of a tree. What was made from a version stands below it, moved in by one; but the child with the most versions, of
    equals the last one, comes behind the others and goes straight on, so that a long history stays at the left. A fold that leads
    to nothing goes straight on only where it is alone."""
    rows: List[Row] = []
    rest: List[Row] = [Row(root, 0, None)]
    while rest:
        row = rest.pop()
        rows.append(row)
        children = sorted(row.mark.children, key=lambda it: it.version)
        if not children:
            continue
        straight = max(children, key=lambda it: (not it.hidden or bool(it.children), it.size, it.version))
        rest.append(Row(straight, row.lane, len(rows) - 1))
        rest.extend(Row(it, row.lane + 1, len(rows) - 1) for it in reversed(children) if it is not straight)
    return rows


# The version tree.

def tree_text(parents: Parents, label: Label = no_label, here: Optional[int] = None, most: int = SHOWN_AS_TEXT) -> List[str]:
    """The tree as lines of text; `here` has a star."""
    rows = rows_of(folded(parents, here, most))
    lanes: List[int] = []
    lines: List[str] = []
    for at, row in enumerate(rows):
        # The lanes that go on below this line: those in which a later row stands, straight below one that is already there.
        lanes = [lane for lane in lanes if lane < row.lane]
        lead = ''.join('|  ' if lane in lanes else '   ' for lane in range(row.lane))
        if row.above is not None and rows[row.above].lane < row.lane:
            lead = lead[:-3] + '+- '
        elif row.above is not None and row.above < at - 1:
            lines.append(lead + '|')
        star = ' *' if row.mark.version == here and not row.mark.hidden else ''
        words = '' if row.mark.hidden else label(row.mark.version)
        lines.append(f'{lead}{row.mark.text()}{star}  {words}'.rstrip())
        if row.mark.children:
            lanes.append(row.lane)
    return lines


def quoted(text: str) -> str:
    """A text between quotes of DOT."""
    return '"' + text.replace('\\', '\\\\').replace('"', '\\"').replace('\n', '\\n') + '"'


def tree_dot(parents: Parents, label: Label = no_label, here: Optional[int] = None, most: int = SHOWN) -> str:
    """The tree for Graphviz."""
    lines = ['digraph versions {', '  node [shape=box, style=rounded, fontname=monospace];']
    rows = rows_of(folded(parents, here, most))
    for at, row in enumerate(rows):
        mark = row.mark
        text = mark.text() + ('' if mark.hidden or not label(mark.version) else '\n' + label(mark.version))
        look = ', style=dashed' if mark.hidden else ', style="rounded,filled", fillcolor="#fff3c9"' if mark.version == here else ''
        lines.append(f'  n{at} [label={quoted(text)}{look}];')
        if row.above is not None:
            lines.append(f'  n{row.above} -> n{at};')
    return '\n'.join(lines + ['}', ''])


STYLE = '''<style>
text { font: 12px monospace; fill: #222; white-space: pre }
.number { font-weight: bold } .faint { fill: #777 }
rect { fill: #fff; stroke: #667 } .head { fill: #e4ecf7 } .here { fill: #ffedb0 } .fold { stroke-dasharray: 4 3; fill: #f6f6f6 }
path { fill: none; stroke: #667 } .back { stroke: #b04a4a; stroke-dasharray: 5 3 }
#tip { fill: #667; stroke: none } #back-tip { fill: #b04a4a; stroke: none }
</style>
'''
TIPS = '<defs>\n' + ''.join(
    f'<marker id="{kind}arrow" viewBox="0 0 8 8" refX="8" refY="4" markerWidth="8" markerHeight="8" orient="auto">'
    f'<path id="{kind}tip" d="M0,0 L8,4 L0,8 z"/></marker>\n' for kind in ('', 'back-')) + '</defs>\n'


def svg(width: float, height: float, parts: Iterable[str], extra: str = '') -> str:
    """A picture of these parts on white ground."""
    size = f'width="{width:.0f}" height="{height:.0f}"'
    return (f'<svg xmlns="http://www.w3.org/2000/svg" {size} viewBox="0 0 {width:.0f} {height:.0f}">\n{STYLE}{extra}'
            '<rect class="ground" width="100%" height="100%" style="fill:#fff;stroke:none"/>\n' + '\n'.join(parts) + '\n</svg>\n')


def written(text: str) -> str:
    """A text as XML has it; characters that XML has not become question marks."""
    return escape(re.sub('[^\t -\ud7ff\ue000-\ufffd]', '?', text))


def boxed(kind: str, x: float, y: float, width: float, height: float) -> str:
    """A box with rounded corners."""
    look = f' class="{kind}"' if kind else ''
    return f'<rect{look} x="{x:.0f}" y="{y:.0f}" width="{width:.0f}" height="{height:.0f}" rx="5"/>'


def lettered(kind: str, x: float, y: float, text: str) -> str:
    """A line of text."""
    look = f' class="{kind}"' if kind else ''
    return f'<text{look} x="{x:.0f}" y="{y:.0f}">{written(text)}</text>'


def tree_svg(parents: Parents, label: Label = no_label, here: Optional[int] = None, most: int = SHOWN) -> str:
    """The tree as a picture: a row a version, with what made it at the right."""
    picture = tree_picture(rows_of(folded(parents, here, most)), label, here)
    if len(picture.encode()) > LIMIT and most > 8:
        return tree_svg(parents, label, here, most // 2)
    return picture


def tree_picture(rows: Sequence[Row], label: Label, here: Optional[int]) -> str:
    """The rows of a tree as a picture. Lines to what was made from a version leave its box below, 14 pixels from its left."""
    step, indent, high, margin = 30, 36, 22, 12
    lines: List[str] = []
    boxes: List[str] = []
    right = 0.0
    for at, row in enumerate(rows):
        x, y = margin + indent * row.lane, margin + step * at
        mark = row.mark
        width = max(28, len(mark.text()) * CHARACTER + 14)
        kind = 'fold' if mark.hidden else 'here' if mark.version == here else ''
        boxes.append(boxed(kind, x, y, width, high))
        boxes.append(lettered('faint' if mark.hidden else 'number', x + (width - len(mark.text()) * CHARACTER) / 2, y + 15, mark.text()))
        words = '' if mark.hidden else label(mark.version)
        if words:
            boxes.append(lettered('', x + width + 8, y + 15, words))
        right = max(right, x + width + 8 + len(words) * CHARACTER)
        if row.above is not None:
            left, top = margin + indent * rows[row.above].lane + 14, margin + step * row.above + high
            way = f'V{y}' if rows[row.above].lane == row.lane else f'V{y + high / 2:.0f} H{x}'
            lines.append(f'<path d="M{left},{top} {way}"/>')
    return svg(right + margin, 2 * margin + step * len(rows) - (step - high), lines + boxes)


# The records of a version.

def held_text(content: Content) -> str:
    """What a field holds, in words."""
    return 'null' if content is None else str(content)


def lines_of(record: Record, outline: Outline) -> List[Tuple[str, Content]]:
    """The lines of a record's box: what it says, and what the field holds."""
    return [(f'{name}: {held_text(content)}', content) for name, content in outline.contents(record)]


def kept(dump: Dump, most: int) -> Tuple[Sequence[Record], int]:
    """The records that are drawn, which are the nearest to the roots, and how many are not."""
    return dump.records[:most], max(0, len(dump.records) - most)


def records_dot(dump: Dump, outline: Outline, most: int = RECORDS_SHOWN) -> str:
    """The records for Graphviz: a table each, from whose rows the pointers lead."""
    records, hidden = kept(dump, most)
    lines = ['digraph records {', '  rankdir=LR;', '  node [shape=plain, fontname=monospace];']
    for record in records:
        head = f'<tr><td bgcolor="#e4ecf7" port="head"><b>{record.number} {record.type}</b></td></tr>'
        cells = [f'<tr><td align="left" port="f{at}">{words}</td></tr>' for at, (words, _) in enumerate(lines_of(record, outline))]
        lines.append(f'  r{record.number} [label=<<table border="0" cellborder="1" cellspacing="0">{head}{"".join(cells)}</table>>];')
    for record in records:
        for at, content in enumerate(record.contents):
            if isinstance(content, Pointer) and content.record < len(records):
                lines.append(f'  r{record.number}:f{at} -> r{content.record}:head;')
    if hidden:
        lines.append(f'  more [shape=box, style=dashed, label=".. {hidden:,} records"];')
    return '\n'.join(lines + ['}', ''])


@dataclass
class Box:
    """Where a record is drawn: its band and its column in it, and its place in pixels."""
    record: Record
    lines: List[Tuple[str, Content]]
    band: int = 0
    column: int = 0
    x: float = 0
    y: float = 0
    width: float = 0

    @property
    def height(self) -> float:
        """The height in pixels: a row for the head and one for each content."""
        return ROW * (1 + len(self.lines))


@dataclass
class Column:
    """The boxes that stand below each other, those that as many pointers lead to."""
    boxes: List[Box]
    width: float
    height: float


ROW, GAP, GUTTER, MARGIN, BAND_WIDTH = 18, 16, 64, 14, 1500


def columns_of(records: Sequence[Record], outline: Outline) -> List[Column]:
    """The records by how many pointers lead to them from the root record; in a column by the height of what holds them first."""
    depth = {0: 0}
    order: Dict[int, int] = {0: 0}
    for record in records:
        for content in record.contents:
            if isinstance(content, Pointer) and content.record not in depth:
                depth[content.record] = depth[record.number] + 1
                order[content.record] = len(order)
    layers: List[List[Record]] = [[] for _ in range(1 + max(depth[it.number] for it in records))]
    for record in records:
        layers[depth[record.number]].append(record)
    columns = []
    for layer in layers:
        boxes = [Box(it, lines_of(it, outline)) for it in sorted(layer, key=lambda it: order[it.number])]
        wide = max(len(words) for box in boxes for words in [head_of(box.record)] + [it[0] for it in box.lines])
        for box in boxes:
            box.width = wide * CHARACTER + 16
        columns.append(Column(boxes, wide * CHARACTER + 16, sum(it.height + GAP for it in boxes) - GAP))
    return columns


def head_of(record: Record) -> str:
    """The head of a record's box."""
    return f'{record.number} {record.type}'


@dataclass
class Band:
    """Columns side by side, with the lanes below them for pointers that lead far back."""
    columns: List[Column]
    top: float = 0
    bottom: float = 0
    lanes: int = 0


def bands_of(columns: Sequence[Column]) -> List[Band]:
    """The columns, broken into bands that are not too wide, with the place of each box but for its height."""
    bands: List[Band] = [Band([])]
    x = float(MARGIN + GUTTER / 2)
    for column in columns:
        if x + column.width > BAND_WIDTH and bands[-1].columns:
            bands.append(Band([]))
            x = MARGIN + GUTTER / 2
        for box in column.boxes:
            box.band, box.column, box.x = len(bands) - 1, len(bands[-1].columns), x
        bands[-1].columns.append(column)
        x += column.width + GUTTER
    return bands


def lay_out(bands: Sequence[Band], boxes: Dict[int, Box]) -> float:
    """Sets the heights of bands and boxes; gives the height of all."""
    top = float(MARGIN)
    for band in bands:
        band.top = top
        band.bottom = top + max(it.height for it in band.columns)
        for column in band.columns:
            y = top
            for box in column.boxes:
                box.y = y
                y += box.height + GAP
        far = sum(leads_far(box, boxes.get(content.record)) for column in band.columns for box in column.boxes
                  for _, content in box.lines if isinstance(content, Pointer))
        top = band.bottom + 2 * GAP + 6 * far
    return top - GAP


def leads_far(box: Box, target: Optional[Box]) -> bool:
    """Whether a pointer goes back in its band by more than one column, and so below the boxes."""
    return target is not None and target.band == box.band and target.column < box.column - 1


def arrow(box: Box, at: int, target: Optional[Box], band: Band) -> str:
    """The way of a pointer from a row of a box. Where its target is in another band, or is not drawn, it is a stub."""
    y = box.y + ROW * (at + 1.5)
    left, right = box.x, box.x + box.width
    if target is None or target.band != box.band:
        forward = target is None or target.band > box.band
        way = f'M{right:.0f},{y:.0f} h16' if forward else f'M{left:.0f},{y:.0f} h-16'
        return drawn(way, not forward)
    head, end = target.y + ROW / 2, target.x + target.width
    if target.column == box.column + 1:
        bend = GUTTER * 0.5
        return drawn(f'M{right:.0f},{y:.0f} C{right + bend:.0f},{y:.0f} {target.x - bend:.0f},{head:.0f} {target.x:.0f},{head:.0f}', False)
    if target.column == box.column:
        out = right + 18 + 4 * (at % 5)
        return drawn(f'M{right:.0f},{y:.0f} C{out:.0f},{y:.0f} {out:.0f},{head + 4:.0f} {end:.0f},{head + 4:.0f}', True)
    if target.column == box.column - 1:
        bend = (left - end) * 0.5
        return drawn(f'M{left:.0f},{y:.0f} C{left - bend:.0f},{y:.0f} {end + bend:.0f},{head + 4:.0f} {end:.0f},{head + 4:.0f}', True)
    band.lanes += 1
    low, aside = band.bottom + 6 * band.lanes, 8 + 4 * (band.lanes % 5)
    return drawn(f'M{left:.0f},{y:.0f} H{left - aside:.0f} V{low:.0f} H{end + aside:.0f} V{head + 4:.0f} H{end:.0f}', True)


def drawn(way: str, back: bool) -> str:
    """An arrow; those that lead back are dashed."""
    return f'<path{" class=" + chr(34) + "back" + chr(34) if back else ""} d="{way}" marker-end="url(#{"back-" if back else ""}arrow)"/>'


def records_svg(dump: Dump, outline: Outline, most: int = RECORDS_SHOWN) -> str:
    """The records as a picture, from the roots to the right. Each row says what its field holds; arrows show pointers within a band."""
    records, hidden = kept(dump, most)
    columns = columns_of(records, outline)
    bands = bands_of(columns)
    boxes = {box.record.number: box for column in columns for box in column.boxes}
    height = lay_out(bands, boxes)
    parts: List[str] = []
    for box in boxes.values():
        parts.append(f'<rect x="{box.x:.0f}" y="{box.y:.0f}" width="{box.width:.0f}" height="{box.height:.0f}"/>')
        parts.append(f'<rect class="head" x="{box.x:.0f}" y="{box.y:.0f}" width="{box.width:.0f}" height="{ROW}"/>')
        parts.append(lettered('number', box.x + 8, box.y + 13, head_of(box.record)))
        for at, (words, content) in enumerate(box.lines):
            parts.append(lettered('faint' if content is None else '', box.x + 8, box.y + ROW * (at + 1) + 13, words))
    for box in boxes.values():
        for at, (_, content) in enumerate(box.lines):
            if isinstance(content, Pointer):
                parts.append(arrow(box, at, boxes.get(content.record), bands[box.band]))
    width = max(box.x + box.width for box in boxes.values()) + GUTTER / 2 + MARGIN
    if hidden:
        words = f'.. {hidden:,} records'
        parts.append(boxed('fold', MARGIN + GUTTER / 2, height, len(words) * CHARACTER + 16, 22))
        parts.append(lettered('faint', MARGIN + GUTTER / 2 + 8, height + 15, words))
        height += 22 + GAP
    picture = svg(width, height, parts, TIPS)
    if len(picture.encode()) > LIMIT and most > 1:
        return records_svg(dump, outline, most // 2)
    return picture


# The words.

def carried_out(given: bytes) -> Tuple[History, Session]:
    """A session to which a whole input was given. The one who asks ends it."""
    session, script = session_on(given)
    try:
        for line in script:
            session.command(line)
    except BaseException:
        session.end()
        raise
    return session.history, session


def draw_tree(given: bytes, form: str) -> str:
    """The version tree of an input as `text`, `svg` or `dot`."""
    history, session = carried_out(given)
    with session:
        tree = session.versions()
        assert isinstance(tree, Versions)
    if form == 'text':
        return '\n'.join(tree_text(tree.parents, history.label)) + '\n'
    return (tree_dot if form == 'dot' else tree_svg)(tree.parents, short(history))


def short(history: History) -> Label:
    """Labels of at most 40 characters, for pictures."""
    return lambda version: history.label(version, 40)


def draw_records(given: bytes, version: int, form: str) -> Union[str, Refused]:
    """The records of a version of an input as `svg` or `dot`."""
    _, session = carried_out(given)
    with session:
        dump = session.dump(version)
        if isinstance(dump, Refused):
            return dump
        return (records_dot if form == 'dot' else records_svg)(dump, session.outline())


def let_go(stream: TextIO) -> None:
    """Where nobody reads a stream any more: what is left of it is not written at the end either."""
    nowhere = os.open(os.devnull, os.O_WRONLY)
    os.dup2(nowhere, stream.fileno())
    os.close(nowhere)


def main(words: Sequence[str]) -> int:
    """Carries the words out; gives the status."""
    form = 'dot' if words[-1:] == ['dot'] else 'svg'
    asked = list(words[:-1] if form == 'dot' else words)
    if asked not in (['text'], ['tree']) and not (len(asked) == 2 and asked[0] == 'records' and re.fullmatch('[0-9]+', asked[1])):
        print(__doc__, file=sys.stderr)
        return 2
    try:
        given = sys.stdin.buffer.read()
        if asked[0] == 'records':
            drawing = draw_records(given, int(asked[1]), form)
        else:
            drawing = draw_tree(given, 'text' if asked == ['text'] else form)
    except (PersistError, OSError) as fault:
        print(f'persist_draw: {fault}', file=sys.stderr)
        return 1
    except KeyboardInterrupt:
        return 130
    if isinstance(drawing, Refused):
        print(f'persist_draw: there is no version {asked[1]}', file=sys.stderr)
        return 1
    try:
        sys.stdout.write(drawing)
        sys.stdout.flush()
    except BrokenPipeError:
        let_go(sys.stdout)
    return 0


if __name__ == '__main__':
    sys.exit(main(sys.argv[1:]))
