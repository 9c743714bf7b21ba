"""Reads programs in their canonical form, and carries their procedures out over plain heaps, by the rules of docs/NOTATION.md.

A heap has its records by their names, each with the number of its type and its contents: numbers first, and then null as None or the
name of a record. What is evaluated here is made into functions first: one of an expression takes the run and the locals, and gives
the value; one of a statement gives None, or in a list of one what is returned. It is slow, and knows nothing of nodes. A text that is
no accepted program has no meaning here.
"""
import functools
import re
import sys
from collections import Counter
from typing import Any, Callable, Container, Counter as Counts, Dict, List, Optional, Sequence, Tuple

from shared.declarations import Field, declarations_of
from shared.image_rules import Heap, Held, Image, Name, Type, heap_of, types_of

# The locals of a call; what an expression gives, by a run and its locals; and what a statement does, which gives what is returned, if anything.
Env = Dict[str, Any]
Value = Callable[['Run', Env], Any]
Statement = Callable[['Run', Env], Optional[List[Any]]]

LEAST, GREATEST = -1 << 63, (1 << 63) - 1
MOST_ACTIVE = 256
MOST_PRINTED = 65536
MOST_RUNS = 1048576
ROOT = 0, 0
# A call of a program is one of some functions here: each block and each operand takes one more.
sys.setrecursionlimit(100000)


class Trap(Exception):
    """A statement goes no further; its line is that of the charge that was taken last, or was due."""


# ---- numbers

def limited(number: int) -> int:
    if not LEAST <= number <= GREATEST:
        raise Trap('overflow')
    return number


def quotient(a: int, b: int) -> int:
    """The quotient, rounded towards zero."""
    if b == 0:
        raise Trap('divide')
    return abs(a) // abs(b) * (1 if (a < 0) == (b < 0) else -1)


SUMS = {'+': lambda a, b: limited(a + b), '-': lambda a, b: limited(a - b)}
TERMS = {'*': lambda a, b: limited(a * b), '/': lambda a, b: limited(quotient(a, b)), '%': lambda a, b: a - b * quotient(a, b)}
COMPARISONS = {'==': lambda a, b: a == b, '!=': lambda a, b: a != b, '<': lambda a, b: a < b, '<=': lambda a, b: a <= b,
               '>': lambda a, b: a > b, '>=': lambda a, b: a >= b}


def applied(op: Callable[[Any, Any], Any], left: Value, right: Value) -> Value:
    return lambda run, env: op(left(run, env), right(run, env))


# ---- programs

class Procedure:
    """A procedure: its name, the names and kinds of its parameters and then of its locals, what it gives, and its statements."""

    def __init__(self, is_query: bool) -> None:
        self.is_query, self.parameters = is_query, 0
        self.kinds: Dict[str, str] = {}
        self.result: Optional[str] = None
        self.body: List[Statement] = []

    def takes(self) -> List[str]:
        """The kinds of its parameters."""
        return list(self.kinds.values())[:self.parameters]

    def first_env(self, arguments: Sequence[Any]) -> Env:
        """The locals as they begin: the arguments, and 0 or null."""
        env = {name: 0 if kind == 'int' else None for name, kind in self.kinds.items()}
        return {**env, **dict(zip(env, arguments))}


class Program:
    """A program by its canonical text. `fields` has of each type and field the first slot, the kind, and the number of elements or None;
    type numbers stand by their names, and the root record's by `root`."""

    def __init__(self, data: bytes) -> None:
        self.types, text = types_of(data), data.decode('ascii')
        self.tokens = [(token, number) for number, line in enumerate(text.splitlines(), 1)
                       for token in re.findall(r'\w+|==|!=|<=|>=|\S', line)]
        self.at = 0
        self.fields: Dict[Tuple[str, str], Tuple[int, str, Optional[int]]] = {}
        self.procedures: Dict[str, Procedure] = {}
        roots, records = declarations_of(text)
        self.numbers = {record.name: number for number, record in enumerate(records, 1)}
        self.place('', roots)
        for record in records:
            self.place(record.name, record.fields)
        while self.at < len(self.tokens):
            self.declaration()

    # ---- declarations

    def place(self, owner: str, fields: Sequence[Field]) -> None:
        """The slots of the fields of a record type: first those of numbers, and then those of pointers."""
        slot = 0
        for name, kind, elements in sorted(fields, key=lambda it: it.kind != 'int'):
            self.fields[owner, name] = slot, kind, elements
            slot += elements or 1

    def peek(self, ahead: int = 0) -> str:
        return self.tokens[self.at + ahead][0]

    def take(self) -> str:
        self.at += 1
        return self.tokens[self.at - 1][0]

    def skip(self, *tokens: str) -> None:
        for token in tokens:
            if self.take() != token:
                raise ValueError(f'{token} is wanted at {self.tokens[self.at - 1]}')

    def is_next(self, token: str) -> bool:
        """Takes a token where it comes next."""
        found = self.at < len(self.tokens) and self.peek() == token
        self.at += found
        return found

    def declaration(self) -> None:
        """Goes past `language 2`, records and roots, which are known by then, and reads a procedure."""
        word = self.take()
        if word in ('proc', 'query'):
            self.procedure(word == 'query')
        elif word == 'language':
            self.skip('2')
        else:
            end = '}' if word == 'record' else ';'
            while self.take() != end:
                pass

    def procedure(self, is_query: bool) -> None:
        self.own = Procedure(is_query)
        self.procedures[self.take()] = self.own
        self.skip('(')
        while not self.is_next(')'):
            self.is_next(',')
            self.kinds_of_one()
        self.own.parameters = len(self.own.kinds)
        if self.is_next(':'):
            self.own.result = self.take()
        self.skip('{')
        while self.is_next('var'):
            self.kinds_of_one()
            self.skip(';')
        self.own.body = self.rest_of_block()

    def kinds_of_one(self) -> None:
        name = self.take()
        self.skip(':')
        self.own.kinds[name] = self.take()

    # ---- statements, each with its charge

    def block(self) -> List[Statement]:
        self.skip('{')
        return self.rest_of_block()

    def rest_of_block(self) -> List[Statement]:
        statements: List[Statement] = []
        while not self.is_next('}'):
            statements.append(self.statement())
        return statements

    def statement(self) -> Statement:
        line, word = self.tokens[self.at][1], self.peek()
        if word == 'while':
            self.take()
            return looped(line, self.expression()[0], self.block())
        return charged(line, self.plain_statement(word))

    def plain_statement(self, word: str) -> Statement:
        if word == 'if':
            self.take()
            condition, first = self.expression()[0], self.block()
            return chosen(condition, first, self.block() if self.is_next('else') else [])
        done = self.simple_statement(word)
        self.skip(';')
        return done

    def simple_statement(self, word: str) -> Statement:
        if word == 'print':
            self.take()
            return printed(self.expression()[0])
        if word == 'return':
            self.take()
            return (lambda run, env: [None]) if self.peek() == ';' else returned(self.expression()[0])
        if word == 'call':
            return self.call(None)
        if self.peek(1) == '=' and self.peek(2) == 'call':
            self.at += 2
            return self.call(word)
        if self.peek(1) == '=' and self.peek(2) == 'new':
            self.at += 3
            return made(word, self.numbers[self.take()])
        return self.assignment()

    def call(self, result: Optional[str]) -> Statement:
        self.skip('call')
        name = self.take()
        arguments: List[Value] = []
        self.skip('(')
        while not self.is_next(')'):
            self.is_next(',')
            arguments.append(self.expression()[0])
        return called(self.procedures, name, arguments, result)

    def assignment(self) -> Statement:
        """An assignment to a local, a root, a field or an element."""
        name = self.take()
        if self.is_next('='):
            value = self.expression()[0]
            return set_local(name, value) if name in self.own.kinds else stored(lambda run, env: ROOT, self.fields['', name][0], None, value)
        whole, kind = self.named(name)
        while True:
            self.skip('.')
            slot, of, elements = self.fields[kind, self.take()]
            index = self.index(elements)
            if self.is_next('='):
                return stored(whole, slot, index, self.expression()[0])
            whole, kind = loaded(whole, slot, index), of

    # ---- expressions: each as a function, with its kind

    def chain(self, operand: Callable[[], Tuple[Value, str]], operators: Container[str], combine: Callable[[str, Value, Value], Tuple[Value, str]]) -> Tuple[Value, str]:
        whole, kind = operand()
        while self.peek() in operators:
            whole, kind = combine(self.take(), whole, operand()[0])
        return whole, kind

    def expression(self) -> Tuple[Value, str]:
        return self.chain(self.conjunct, ['or'], lambda _, a, b: (lambda run, env: a(run, env) or b(run, env), 'truth'))

    def conjunct(self) -> Tuple[Value, str]:
        return self.chain(self.negation, ['and'], lambda _, a, b: (lambda run, env: a(run, env) and b(run, env), 'truth'))

    def negation(self) -> Tuple[Value, str]:
        if self.is_next('not'):
            operand = self.negation()[0]
            return lambda run, env: not operand(run, env), 'truth'
        return self.chain(self.sum, COMPARISONS, lambda op, a, b: (applied(COMPARISONS[op], a, b), 'truth'))

    def sum(self) -> Tuple[Value, str]:
        return self.chain(self.term, SUMS, lambda op, a, b: (applied(SUMS[op], a, b), 'int'))

    def term(self) -> Tuple[Value, str]:
        return self.chain(self.unary, TERMS, lambda op, a, b: (applied(TERMS[op], a, b), 'int'))

    def unary(self) -> Tuple[Value, str]:
        if self.is_next('-'):
            operand = self.unary()[0]
            return lambda run, env: limited(-operand(run, env)), 'int'
        whole, kind = self.atom()
        while self.is_next('.'):
            slot, of, elements = self.fields[kind, self.take()]
            whole, kind = loaded(whole, slot, self.index(elements)), of
        return whole, kind

    def atom(self) -> Tuple[Value, str]:
        token = self.take()
        if token == '(':
            inside = self.expression()
            self.skip(')')
            return inside
        if token == 'null':
            return lambda run, env: None, 'null'
        if token.isdecimal():
            number = int(token)
            return lambda run, env: number, 'int'
        return self.named(token)

    def named(self, name: str) -> Tuple[Value, str]:
        """A local, or a root."""
        if name in self.own.kinds:
            return lambda run, env: env[name], self.own.kinds[name]
        slot, kind, _ = self.fields['', name]
        return lambda run, env: run.heap[ROOT][1][slot], kind

    def index(self, elements: Optional[int]) -> Optional[Value]:
        """The index of an element, where the field is an array: it traps where there is no such element."""
        if elements is None:
            return None
        self.skip('(')
        inside = self.expression()[0]
        self.skip(')')

        def index(run: 'Run', env: Env) -> int:
            at = inside(run, env)
            if not 0 <= at < elements:
                raise Trap('index')
            return at
        return index


@functools.lru_cache(maxsize=16)
def program_of(text: bytes) -> Program:
    return Program(text)


# ---- what statements and fields do

def object_of(name: Optional[Name]) -> Name:
    if name is None:
        raise Trap('null')
    return name


def loaded(pointer: Value, slot: int, index: Optional[Value]) -> Value:
    if index is None:
        return lambda run, env: run.heap[object_of(pointer(run, env))][1][slot]
    at = index

    def load(run: 'Run', env: Env) -> Held:
        name = object_of(pointer(run, env))
        return run.heap[name][1][slot + at(run, env)]
    return load


def charged(line: int, does: Statement) -> Statement:
    def do(run: 'Run', env: Env) -> Optional[List[Any]]:
        run.charge(line)
        return does(run, env)
    return do


def all_of(statements: Sequence[Statement], run: 'Run', env: Env) -> Optional[List[Any]]:
    for statement in statements:
        left = statement(run, env)
        if left is not None:
            return left
    return None


def looped(line: int, condition: Value, body: Sequence[Statement]) -> Statement:
    """A loop takes a charge before each evaluation of its condition."""
    def do(run: 'Run', env: Env) -> Optional[List[Any]]:
        run.charge(line)
        while condition(run, env):
            left = all_of(body, run, env)
            if left is not None:
                return left
            run.charge(line)
        return None
    return do


def chosen(condition: Value, first: Sequence[Statement], other: Sequence[Statement]) -> Statement:
    return lambda run, env: all_of(first if condition(run, env) else other, run, env)


def returned(value: Value) -> Statement:
    return lambda run, env: [value(run, env)]


def printed(value: Value) -> Statement:
    return lambda run, env: run.print(value(run, env))


def set_local(name: str, value: Value) -> Statement:
    def do(run: 'Run', env: Env) -> None:
        env[name] = value(run, env)
    return do


def stored(pointer: Value, slot: int, index: Optional[Value], value: Value) -> Statement:
    def do(run: 'Run', env: Env) -> None:
        name = object_of(pointer(run, env))
        at = slot + (index(run, env) if index else 0)
        run.write(name, at, value(run, env))
    return do


def made(name: str, number: int) -> Statement:
    def do(run: 'Run', env: Env) -> None:
        env[name] = run.allocate(number)
    return do


def called(procedures: Dict[str, Procedure], name: str, arguments: Sequence[Value], result: Optional[str]) -> Statement:
    def do(run: 'Run', env: Env) -> None:
        left = run.call(procedures[name], [argument(run, env) for argument in arguments])
        if result is not None:
            env[result] = left
    return do


class Run:
    """A run or a query over a heap of its own: what it has counted, and what it has printed. `line` is that of its last charge."""

    def __init__(self, types: Sequence[Type], heap: Heap, number: int, budget: int) -> None:
        self.types, self.number, self.charges, self.line = types, number, budget, 0
        self.heap = {name: (of, list(contents)) for name, (of, contents) in heap.items()}
        self.records = self.pointers = self.values = self.active = 0
        self.printed: List[int] = []
        self.in_degrees: Optional[Counts[Optional[Name]]] = None

    def charge(self, line: int) -> None:
        self.line = line
        if self.charges == 0:
            raise Trap('budget')
        self.charges -= 1

    def print(self, number: int) -> None:
        if len(self.printed) == MOST_PRINTED:
            raise Trap('output')
        self.printed.append(number)

    def allocate(self, number: int) -> Name:
        it, name = self.types[number], (self.number, self.records)
        self.heap[name] = number, [0] * it.values + [None] * len(it.targets)
        self.records += 1
        return name

    def write(self, name: Name, slot: int, content: Held) -> None:
        """Writes a field. A pointer to a record whose in-degree, apart from this field, is at its limit traps."""
        number, contents = self.heap[name]
        if not self.types[number].is_pointer(slot):
            self.values += 1
        else:
            degrees = self.count_in_degrees()
            degrees[contents[slot]] -= 1
            if content is not None and degrees[content] == self.limit_of(content):
                raise Trap('indegree')
            degrees[content] += 1
            self.pointers += 1
        contents[slot] = content

    def limit_of(self, name: Name) -> int:
        it = self.types[self.heap[name][0]]
        return it.slots - it.contents

    def count_in_degrees(self) -> Counts[Optional[Name]]:
        """How many fields hold each record, which is counted once for the run."""
        if self.in_degrees is None:
            self.in_degrees = Counter(held for of, contents in self.heap.values() for held in contents[self.types[of].values:])
        return self.in_degrees

    def call(self, procedure: Procedure, arguments: Sequence[Any]) -> Any:
        """Carries a procedure out, and gives its result."""
        if self.active == MOST_ACTIVE:
            raise Trap('depth')
        self.active += 1
        left = all_of(procedure.body, self, procedure.first_env(arguments))
        self.active -= 1
        return left[0] if left else 0 if procedure.result == 'int' else None


# ---- histories

class History:
    """Versions with their heaps, which answers lines that run, that ask, that set the budget and that list; all others are refused."""

    def __init__(self, text: bytes, budget: int, next_run: int, counts: Sequence[int], parents: List[int], heaps: List[Heap]) -> None:
        self.program, self.budget, self.next_run = program_of(text), budget, next_run
        self.counts, self.parents, self.heaps = list(counts), parents, heaps

    @classmethod
    def opening(cls, text: bytes) -> 'History':
        """That of a program whose script has not begun."""
        it = types_of(text)[0]
        return cls(text, 1000000, 1, (1, 0, 0), [0], [{ROOT: (0, [0] * it.values + [None] * len(it.targets))}])

    @classmethod
    def of_image(cls, image: Image) -> 'History':
        """That of an image that no rule refuses."""
        heaps = [heap_of(image, version) for version in range(len(image.versions))]
        return cls(image.text, image.budget, image.next_run, image.counts, [it.parent for it in image.versions], heaps)

    def reply(self, line: bytes) -> str:
        """What is replied to a line."""
        form, *words = re.sub(rb'[ \t\r]+', b' ', line.strip(b' \t\r')).decode('latin-1').split(' ')
        if not form or form.startswith('#'):
            return ''
        if form in ('run', 'query') and len(words) > 1 and words[1] in self.program.procedures:
            return self.carried_out(form == 'run', int(words[0]), self.program.procedures[words[1]], [int(word) for word in words[2:]])
        if form == 'budget' and len(words) == 1:
            self.budget = int(words[0])
            return f'budget {words[0]}\n'
        if (form, words) == ('versions', []):
            return '0\n' + ''.join(f'{number} from {parent}\n' for number, parent in enumerate(self.parents) if number)
        if (form, words) == ('stats', []):
            records, pointers, values = self.counts
            return f'records {records} pointers {pointers} values {values} bound {records + 6 * pointers + 2 * values}\n'
        return 'refused line\n'

    def carried_out(self, is_run: bool, version: int, procedure: Procedure, arguments: Sequence[Any]) -> str:
        """The reply to a run or a query, which is over a heap of its own; a run that does not trap makes a version."""
        if is_run and self.next_run > MOST_RUNS:
            return 'refused runs\n'
        run, last = Run(self.program.types, self.heaps[version], self.next_run, self.budget), 'ok'
        try:
            run.call(procedure, arguments)
            if is_run:
                last = f'version {len(self.parents)}'
                self.parents.append(version)
                self.heaps.append(run.heap)
        except Trap as trap:
            last = f'trap {trap} at {run.line}'
        if is_run:
            self.next_run += 1
            self.counts = [total + more for total, more in zip(self.counts, (run.records, run.pointers, run.values))]
        return ''.join(f'| {number}\n' for number in run.printed) + last + '\n'
