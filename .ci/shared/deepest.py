"""Inputs that take the most stack: their expressions, blocks and calls are as deep as they may be."""
from typing import Iterable, List, Tuple

HEAD = 'language 2\nrecord R 16 { val key: int; val a: int * 4; ptr next: R; ptr side: R * 2; }\nroot g: R;\nroot h: int;\n'
BUILD = ['r = new R;', 'r.key = 7;', 'r.a(1) = 5;', 'r.next = r;', 'r.side(0) = r;', 'g = r;']
# Expressions of each form, all of depth 64, and the numbers that they give.
EXPRESSIONS = {
    '1 - (' * 31 + '1' + ')' * 31: 0,
    '(' * 63 + '1' + ')' * 63: 1,
    '-' * 63 + '1': -1,
    '1' + ' - 1' * 63: -62,
    'r' + '.next' * 62 + '.key': 7,
    'r.a(' * 63 + '0' + ')' * 63: 0,
    'r' + '.side(0)' * 62 + '.a(1)': 5,
}
# Conditions that hold, of each form.
CONDITIONS = ['not ' * 60 + '1 == 1', '0 == 0 and (' * 31 + '1 == 1' + ')' * 31, '0 == 1 or (' * 31 + '1 == 1' + ')' * 31,
              '1 == 1' + ' and 1 == 1' * 62]
FRONTS = {'if': 'if 0 == 0 {', 'else': 'if 0 == 1 {\n} else {', 'while': 'while t == 0 {'}
MIXED = ['while', 'if', 'else'] * 5


def nested(kinds: Iterable[str], inside: List[str]) -> List[str]:
    """Statements inside 15 blocks of these kinds; each `while` goes round once."""
    return [FRONTS[kind] for kind in kinds] + inside + ['t = 1;'] + ['}'] * 15


def tests(conditions: Iterable[str]) -> List[str]:
    """A statement with each condition."""
    return [f'if {e} {{\nx = 1;\n}}' for e in conditions]


def procedure(name: str, inside: List[str], back: str) -> List[str]:
    """A procedure with eight arguments and a result."""
    head = ', '.join(f'a{n}: int' for n in range(8))
    return [f'proc {name}({head}): int {{', 'var x: int;', 'var r: R;', 'var t: int;', *inside, f'return {back};', '}']


def called(kinds: Iterable[str]) -> Tuple[str, str]:
    """256 procedures, of which each calls the next one inside 15 blocks: the last one prints an expression of each form. And the reply to
    the run of the first one on version 0, which makes version 1."""
    arguments = ', '.join(f'a{n}' for n in range(8))
    lines = []
    for k in range(255):
        lines += procedure(f'p{k}', nested(kinds, [f'x = call p{k + 1}({arguments});']), 'x')
    inside = [f'print {e};' for e in EXPRESSIONS]
    lines += procedure('p255', BUILD + nested(kinds, inside) + tests(CONDITIONS), list(EXPRESSIONS)[-1])
    reply = ''.join(f'| {n}\n' for n in EXPRESSIONS.values()) + 'version 1\n'
    return HEAD + ''.join(line + '\n' for line in lines), reply


def spelled(kinds: Iterable[str]) -> str:
    """A program with an expression of each form wherever one may stand inside 15 blocks: for the words that read, print and compile it."""
    inside = []
    for e in EXPRESSIONS:
        inside += [f'x = {e};', f'h = {e};', f'r.key = {e};', f'print {e};', f'x = call q({e}, {e}, 1, 2, 3, 4, 5, {e});']
    lines = procedure('p0', BUILD + nested(kinds, inside) + tests(CONDITIONS), list(EXPRESSIONS)[0])
    lines += procedure('q', [f'while {e} {{\nreturn 1;\n}}' for e in CONDITIONS], '0')
    return HEAD + ''.join(line + '\n' for line in lines)
