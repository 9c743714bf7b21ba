"""The pictures: what is shown and folded, parsed as XML and counted, without overlaps, and never too large."""
import itertools
import os
import random
import re
import subprocess
import sys
import unittest
import xml.dom.minidom

from persist.client import Dump, Field, History, Outline, Pointer, Record, Session, read_outline, split_input, words_of
from persist.draw import (
    LIMIT, SHOWN, folded, in_order, records_dot, records_svg, rows_of, tree_dot, tree_svg, tree_text)
from tests.samples import LIST, SCRIPT, TOOLS, TREE, written

PARENTS = (None, 0, 1, 2, 1, 1)


def chain(versions):
    """Each version made from the one before."""
    return [None, *range(versions - 1)]


def fan(versions):
    """All made from version 0."""
    return [None] + [0] * (versions - 1)


def made_up(versions, straight, seed=1):
    """Most versions made from the one before, by a part; the others from any."""
    draw = random.Random(seed)
    return [None] + [at if draw.random() < straight else draw.randrange(at + 1) for at in range(versions - 1)]


def comb(versions):
    """A chain in which each version has a further child."""
    return [None] + [at if at % 2 == 0 else at - 1 for at in range(versions - 1)]


TREES = {
    'one': [None], 'two': [None, 0], 'small': PARENTS, 'chain': chain(1000), 'fan': fan(1000), 'comb': comb(3000),
    'long chain': chain(50_000), 'long fan': fan(50_000), 'bush': made_up(3000, 0), 'typing': made_up(3000, 0.98), 'mixed': made_up(300, 0.6),
}


def label(version):
    """A label as long as they get, with what XML and DOT have signs for."""
    return f'add {version} <&">\\ ' + 'x' * 24


def look(text):
    """The picture, and how many elements of each name and class there are."""
    picture = xml.dom.minidom.parseString(text)
    counts = {}
    for element in picture.getElementsByTagName('*'):
        key = (element.tagName, element.getAttribute('class'))
        counts[key] = counts.get(key, 0) + 1
    return picture, counts


def boxes_of(picture):
    """The boxes of a picture as left, top, right, bottom, without its ground and the heads of records."""
    for rect in picture.getElementsByTagName('rect'):
        if rect.getAttribute('class') not in ('ground', 'head'):
            x, y, width, height = (float(rect.getAttribute(name)) for name in ('x', 'y', 'width', 'height'))
            yield x, y, x + width, y + height


class Pictures(unittest.TestCase):
    def assert_apart(self, picture):
        """No two boxes overlap, all lie in the picture, and no text leaves it."""
        root = picture.documentElement
        width, height = float(root.getAttribute('width')), float(root.getAttribute('height'))
        boxes = list(boxes_of(picture))
        for box in boxes:
            self.assertTrue(0 < box[0] and 0 < box[1] and box[2] < width and box[3] < height, box)
        for one, other in itertools.combinations(boxes, 2):
            apart = one[2] <= other[0] or other[2] <= one[0] or one[3] <= other[1] or other[3] <= one[1]
            self.assertTrue(apart, (one, other))
        for text in picture.getElementsByTagName('text'):
            words = text.firstChild.data
            right = float(text.getAttribute('x')) + 7.2 * len(words)
            self.assertLessEqual(right, width, words)


class Trees(Pictures):
    def test_text(self):
        history = History()
        program, script = split_input(LIST + SCRIPT)
        with Session(program) as session:
            for line in script:
                history.note(line, words_of(line), session.command(line))
            self.assertEqual(session.versions().parents, PARENTS)
        self.assertEqual('\n'.join(tree_text(history.parents, history.label)) + '\n', TREE)
        self.assertEqual(tree_text([None, 0, 0], here=1), ['0', '+- 1 *', '|', '2'])
        self.assertEqual(tree_text([None, 0, 0, 1, 1], here=0), ['0 *', '+- 2', '|', '1', '+- 3', '|', '4'])

    def test_a_long_chain_is_folded(self):
        self.assertEqual(tree_text(chain(1000)), ['0', '.. 988 versions', *map(str, range(989, 1000))])
        self.assertEqual(tree_text(chain(1000), here=500, most=20), [
            '0', '.. 497 versions', '498', '499', '500 *', '501', '.. 495 versions', '997', '998', '999'])
        self.assertEqual(tree_text([None, 0, *range(1, 983), 1], most=10),
                         ['0', '1', '+- 984', '|', '2', '.. 980 versions', '983'])
        self.assertEqual(tree_text(fan(1000), most=5)[-3:], ['+- .. 995 versions', '|', '999'])

    def test_each_version_is_shown_or_folded_once(self):
        for name, parents in TREES.items():
            for here in (None, len(parents) // 2):
                marks = in_order(folded(parents, here, SHOWN))
                self.assertEqual(sum(mark.hidden or 1 for mark in marks), len(parents), name)
                shown = {mark.version for mark in marks if not mark.hidden}
                self.assertGreaterEqual(shown, {0, len(parents) - 1} | ({here} if here is not None else set()), name)
                self.assertEqual(len(marks) == len(parents), len(parents) <= SHOWN, name)
                self.assertLess(len(marks), 3 * SHOWN, name)

    def test_a_mark_hangs_below_what_its_version_was_made_from(self):
        for parents in (TREES['mixed'], TREES['typing'], TREES['bush']):
            rows = rows_of(folded(parents, None, SHOWN))
            for row in rows[1:]:
                above = rows[row.above].mark
                self.assertTrue(above.hidden or parents[row.mark.version] == above.version)

    def test_each_picture_is_xml_and_has_its_parts(self):
        for name, parents in TREES.items():
            text = tree_svg(parents, label, 0)
            marks = in_order(folded(parents, 0, SHOWN))
            folds = sum(mark.hidden > 0 for mark in marks)
            picture, counts = look(text)
            self.assertLess(len(text.encode()), LIMIT, name)
            self.assertEqual(counts.get(('rect', 'fold'), 0), folds, name)
            self.assertEqual(counts['rect', 'here'] + counts.get(('rect', ''), 0), len(marks) - folds, name)
            self.assertEqual(counts['text', 'number'], len(marks) - folds, name)
            self.assertEqual(counts['text', ''], len(marks) - folds, name)
            self.assertEqual(counts.get(('path', ''), 0), len(marks) - 1, name)
            self.assert_apart(picture)

    def test_a_picture_is_never_too_large(self):
        wide = lambda version: '<' * 40
        for parents in (made_up(3000, 0.5), comb(20_000)):
            text = tree_svg(parents, wide, 17, most=1000)
            self.assertLess(len(text.encode()), LIMIT)
            look(text)

    def test_dot(self):
        self.assertEqual(tree_dot([None, 0, 0], lambda version: '"\\' if version else '', 2), '\n'.join([
            'digraph versions {', '  node [shape=box, style=rounded, fontname=monospace];', '  n0 [label="0"];',
            '  n1 [label="1\\n\\"\\\\"];', '  n0 -> n1;',
            '  n2 [label="2\\n\\"\\\\", style="rounded,filled", fillcolor="#fff3c9"];', '  n0 -> n2;', '}', '']))
        text = tree_dot(chain(1000), most=20)
        self.assertEqual((text.count('->'), text.count('style=dashed'), text.count('label=')), (4, 1, 5))


NODES = read_outline('record Node 2 { val key: int; ptr next: Node; ptr back: Node; }\nroot first: Node;\n')


def listed(records):
    """A list with pointers back."""
    return Dump((Record(0, 'root', (Pointer(1),)), *(
        Record(at, 'Node', (at * at, Pointer(at + 1) if at < records else None, Pointer(at - 1) if at > 1 else None))
        for at in range(1, records + 1))))


def ringed(records, seed):
    """Records that hold any others; each is held by one before it."""
    draw = random.Random(seed)
    holders = {at: draw.randrange(max(1, at - 3), at) for at in range(2, records + 1)}
    contents = [[] for _ in range(records + 1)]
    for at, holder in holders.items():
        contents[holder].append(Pointer(at))
    for at in range(1, records + 1):
        contents[at] += [Pointer(draw.randrange(1, records + 1)) for _ in range(3)]
    return Dump((Record(0, 'root', (Pointer(1),)), *(Record(at, 'Any', tuple(contents[at])) for at in range(1, records + 1))))


class Records(Pictures):
    def assert_parts(self, dump, outline, shown):
        """The picture has a box with a head for each record that is shown, a line for each content, an arrow for each pointer."""
        picture, counts = look(records_svg(dump, outline))
        contents = [content for record in dump.records[:shown] for content in record.contents]
        hidden = len(dump.records) > shown
        self.assertEqual((counts['rect', ''], counts['rect', 'head'], counts['text', 'number']), (shown, shown, shown))
        self.assertEqual(counts.get(('rect', 'fold'), 0), int(hidden))
        self.assertEqual(counts.get(('text', ''), 0) + counts.get(('text', 'faint'), 0), len(contents) + hidden)
        arrows = counts.get(('path', ''), 0) + counts.get(('path', 'back'), 0) - 2
        self.assertEqual(arrows, sum(isinstance(content, Pointer) for content in contents))
        self.assert_apart(picture)

    def test_a_root_record_alone_a_list_and_a_long_one(self):
        self.assert_parts(Dump((Record(0, 'root', ()),)), NODES, 1)
        self.assert_parts(listed(3), NODES, 4)
        self.assert_parts(listed(500), NODES, 120)

    def test_records_that_hold_any_others(self):
        for seed in range(5):
            self.assert_parts(ringed(40, seed), NODES, 41)

    def test_records_of_a_version_with_the_names_of_their_fields(self):
        with Session(LIST) as session:
            session.run(0, 'add', -5)
            dump, outline = session.dump(1), session.outline()
        picture, _ = look(records_svg(dump, outline))
        self.assertEqual([text.firstChild.data for text in picture.getElementsByTagName('text')],
                         ['0 root', 'first: @1', '1 Node', 'key: -5', 'next: null'])
        self.assertIn('r0:f0 -> r1:head;', records_dot(dump, outline))
        self.assertIn('<td align="left" port="f1">next: null</td>', records_dot(dump, outline))

    def test_elements_of_arrays(self):
        outline = Outline((), {'A': (Field('side', 'A', 2), Field('x', 'int', 2))}, {}, {})
        dump = Dump((Record(0, 'root', (Pointer(1),)), Record(1, 'A', (3, 4, None, Pointer(1)))))
        picture, _ = look(records_svg(dump, outline))
        self.assertEqual([text.firstChild.data for text in picture.getElementsByTagName('text')],
                         ['0 root', '0: @1', '1 A', 'x(0): 3', 'x(1): 4', 'side(0): null', 'side(1): @1'])

    def test_a_picture_is_never_too_large(self):
        name = 'n' * 32
        outline = Outline((Field(name, 'A'),), {'A': (Field(name, 'A', 16), *(Field(f'{name}{at}', 'int', 16) for at in range(3)))}, {}, {})
        record = lambda at: Record(at, 'A', (-2 ** 63,) * 48 + (Pointer(at % 3000 + 1),) * 16)
        text = records_svg(Dump((Record(0, 'root', (Pointer(1),)), *map(record, range(1, 3001)))), outline)
        self.assertLess(len(text.encode()), LIMIT)
        self.assert_apart(look(text)[0])

    def test_dot_of_many_records(self):
        text = records_dot(listed(500), NODES)
        self.assertIn('label=".. 381 records"', text)
        self.assertEqual(len(re.findall(r'^  r\d+ \[', text, re.M)), 120)


class Words(unittest.TestCase):
    def draw(self, *words, given=LIST + SCRIPT):
        """What the script writes, and its status."""
        given = given if isinstance(given, bytes) else given.encode()
        done = subprocess.run([sys.executable, '-W', 'error', os.path.join(TOOLS, 'persist_draw.py'), *words], input=given,
                              stdout=subprocess.PIPE, stderr=subprocess.PIPE)
        return done.returncode, done.stdout.decode(), done.stderr.decode()

    def test_each(self):
        self.assertEqual(self.draw('text'), (0, TREE, ''))
        for words, begin in ((('tree',), '<svg'), (('tree', 'dot'), 'digraph'), (('records', '3'), '<svg'), (('records', '3', 'dot'), 'digraph')):
            status, text, _ = self.draw(*words)
            self.assertEqual((status, text[:len(begin)]), (0, begin))
            if begin == '<svg':
                look(text)

    def test_of_an_image(self):
        image = written('pack', LIST + SCRIPT)
        bare = re.sub('  add.*', '', TREE)
        self.assertEqual(self.draw('text', given=image), (0, bare, ''))
        self.assertEqual(self.draw('text', given=image + b'run 5 add 6\n'), (0, '0\n1\n+- 2\n|  3\n+- 4\n|\n5\n6  add 6\n', ''))
        self.assertEqual(self.draw('records', '3', 'dot', given=image), self.draw('records', '3', 'dot'))
        self.assertEqual(self.draw('records', '9', given=image), (1, '', 'persist_draw: there is no version 9\n'))
        status, text, said = self.draw('text', given=image[:500])
        self.assertEqual((status, text, said[:31]), (1, '', 'persist_draw: refused image 0: '))

    def test_what_can_t_be_drawn(self):
        self.assertEqual(self.draw('records', '9'), (1, '', 'persist_draw: there is no version 9\n'))
        self.assertEqual(self.draw('text', given='root'), (1, '', 'persist_draw: refused unexpected at 2\n'))
        for words in ((), ('dot',), ('text', 'dot', 'x'), ('records',), ('records', '-1')):
            status, text, said = self.draw(*words)
            self.assertEqual((status, text, said.startswith('Draws what')), (2, '', True), words)

    def test_nobody_reads_to_the_end(self):
        given = LIST + '%%\n' + ''.join(f'run 0 add {at}\n' for at in range(2000))
        draw = subprocess.Popen([sys.executable, '-W', 'error', os.path.join(TOOLS, 'persist_draw.py'), 'tree'],
                                stdin=subprocess.PIPE, stdout=subprocess.PIPE, stderr=subprocess.PIPE)
        draw.stdout.close()
        with draw.stderr, draw.stdin:
            draw.stdin.write(given.encode())
            draw.stdin.close()
            self.assertEqual((draw.stderr.read(), draw.wait()), (b'', 0))


if __name__ == '__main__':
    unittest.main()
