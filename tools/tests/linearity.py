"""Checks a history of calls and replies of a store on several machines against the log that etcd held.

The log's order is offered as the order in which the calls took effect. It is one, if each reply is the one that the program gives to the log up
to its line, and if a call that was answered before another one began stands before it. So nothing has to be searched, and a history that is
found to be linearizable is so. Each command of a history is another text, so a line of the log tells whose it is.
"""
import bisect
import re
from typing import Dict, List, NamedTuple, Optional, Sequence, Tuple

from persist.client import Refused, Reply, Version, is_last, program_path, take_reply, text_of, words_of, written_by

# What became of a call: it was answered, it is not known, or it was said that nothing of it was carried out.
ANSWERED, UNKNOWN, NOT_BEGUN = 'answered', 'unknown', 'not begun'


class Call(NamedTuple):
    """A line that a client sent, when it was sent and when it was told of it, what became of it, and the number that came with the answer.
    `after` is the number that the client named."""
    line: str
    start: float
    end: float
    fate: str
    text: str = ''
    number: int = 0
    after: int = 0


class Line(NamedTuple):
    """A line of the log: the number of its group, and the reply that the program gives to it there."""
    line: str
    group: int
    reply: Reply


class Record:
    """The log of a store, and what the program makes of it."""

    def __init__(self, program: str, groups: Sequence[Tuple[int, Sequence[str]]]) -> None:
        self.program = program
        self.gaps = [f'behind group {before[0]} of the log stands {after[0]}' for before, after in zip(groups, groups[1:]) if after[0] != before[0] + 1]
        lines = [(line, number) for number, group in groups for line in group]
        replies = replies_to(program, [line for line, _ in lines])
        self.lines = [Line(line, number, reply) for (line, number), reply in zip(lines, replies)]
        # Where in the log each version was made.
        self.made: Dict[int, int] = {0: -1}
        for at, it in enumerate(self.lines):
            if isinstance(it.reply, Version):
                self.made[it.reply.number] = at

    @property
    def newest(self) -> int:
        """The newest version."""
        return len(self.made) - 1

    def answers(self, query: str) -> List[str]:
        """The replies to a query at each version."""
        return [text_of(it) for it in replies_to(self.program, [it.line for it in self.lines] + [f'query {version} {query}' for version in range(len(self.made))])[len(self.lines):]]


def replies_to(program: str, lines: Sequence[str]) -> List[Reply]:
    """What the program replies to lines."""
    status, said = written_by(['run'], f'{program}%%\n{"".join(f"{line}{chr(10)}" for line in lines)}'.encode(), program_path())
    if status != 0:
        raise AssertionError(f'the log can not be carried out: status {status}')
    told = iter(said.decode().splitlines())
    return [take_reply(words_of(line), told.__next__) for line in lines]


def faults_of(record: Record, calls: Sequence[Call], query: str) -> List[str]:
    """What is wrong with a history; nothing where it is linearizable, and nothing is lost or there twice."""
    found = list(record.gaps)
    places: Dict[str, List[int]] = {}
    for at, it in enumerate(record.lines):
        places.setdefault(it.line, []).append(at)
        if isinstance(it.reply, Refused):
            found.append(f'`{it.line}` stands in the log, and is refused there')
    found += [f'twice in the log: `{line}`' for line, many in places.items() if len(many) > 1]
    changes = [it for it in calls if words_of(it.line)[0] != 'query']
    sent = {it.line for it in changes}
    found += [f'nobody sent `{line}`' for line in places if line not in sent]
    found += replies_that_differ(record, changes, places)
    found += order_that_differs(changes, places, record)
    answers = record.answers(query)
    for call in calls:
        if words_of(call.line)[0] == 'query' and call.fate == ANSWERED:
            found += query_that_differs(record, call, answers)
    return found


def replies_that_differ(record: Record, changes: Sequence[Call], places: Dict[str, List[int]]) -> List[str]:
    """What was answered otherwise than the log has it, or is lost, or is there though it was said that it is not."""
    found: List[str] = []
    for call in changes:
        there = places.get(call.line, [])
        if call.fate == NOT_BEGUN and there:
            found.append(f'`{call.line}` was not begun, and stands in the log')
        if call.fate != ANSWERED or call.text.startswith('refused '):
            if call.fate == ANSWERED and there:
                found.append(f'`{call.line}` was refused, and stands in the log')
            continue
        if not there:
            found.append(f'lost: `{call.line}` was answered {call.text!r}')
        elif text_of(record.lines[there[0]].reply) != call.text:
            found.append(f'`{call.line}` was answered {call.text!r}, and the log makes it {text_of(record.lines[there[0]].reply)!r}')
        elif call.number < record.lines[there[0]].group:
            found.append(f'`{call.line}` stands in group {record.lines[there[0]].group}, and was answered with number {call.number}')
    return found


def order_that_differs(changes: Sequence[Call], places: Dict[str, List[int]], record: Record) -> List[str]:
    """Calls that stand before others which were answered before they began; and refusals of versions that were there already."""
    found: List[str] = []
    ended = sorted((it.end, places[it.line][0]) for it in changes if it.fate == ANSWERED and it.line in places)
    moments, farthest = [it[0] for it in ended], [-1]
    for _, place in ended:
        farthest.append(max(farthest[-1], place))
    for call in changes:
        before = farthest[bisect.bisect_left(moments, call.start)]
        there = places.get(call.line)
        if there and there[0] < before:
            found.append(f'`{call.line}` stands before `{record.lines[before].line}`, which was answered before it was sent')
        if call.fate == ANSWERED and call.text == 'refused version\n':
            made = record.made.get(int(words_of(call.line)[1]))
            if made is not None and made <= before:
                found.append(f'`{call.line}` was refused, and its version was there')
    return found


def query_that_differs(record: Record, call: Call, answers: Sequence[str]) -> List[str]:
    """What is wrong with the reply to a query: a version always tells the same, and one that stands up to the number that was named is there."""
    version = int(words_of(call.line)[1])
    if call.text != 'refused version\n':
        wanted = answers[version] if version < len(answers) else None
        return [] if call.text == wanted else [f'`{call.line}` was answered {call.text!r}, and the log makes it {wanted!r}']
    made = record.made.get(version)
    if made is not None and (made < 0 or record.lines[made].group <= call.after):
        return [f'`{call.line}` was refused behind number {call.after}, and its version was there']
    return []


def dumps_of(image: bytes, newest: int) -> List[bytes]:
    """What `dump` writes of each version, by `serve` behind an image."""
    lines = ''.join(f'dump {version}\n' for version in range(newest + 1))
    status, said = written_by(['serve'], image + lines.encode(), program_path())
    if status != 0:
        raise AssertionError(f'status {status} behind an image')
    dumps, words = [b''], ['dump', '0']
    for line in said.splitlines(keepends=True):
        dumps[-1] += line
        if is_last(words, line.decode().rstrip('\n')):
            dumps.append(b'')
    return dumps[:-1]


def versions_in(text: str) -> Optional[int]:
    """The version that a reply tells."""
    told = re.fullmatch(r'version (\d+)\n', text)
    return int(told[1]) if told else None
