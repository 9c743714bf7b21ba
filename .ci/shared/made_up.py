"""Made-up programs, in their canonical form, and the commands of made-up scripts."""
import random
import re
from typing import Dict, Iterable, Iterator, List, Optional, Tuple

# Numbers at which sums, products and quotients are odd.
ODD = [0, 1, 2, 3, 7, 10, 255, 256, 65536, 2147483648, 3037000500, 4611686018427387904, 9223372036854775806, 9223372036854775807]
COMPARISONS = ['==', '!=', '<', '<=', '>', '>=']
KEYWORDS = 'record val ptr root proc query var new call print if else while return null and or not int'.split()


# Names with their kinds: `int` or a record type.
Fields = List[Tuple[str, str]]


class Procedure:
    """A procedure's head: what it is called with, and what it gives."""

    def __init__(self, name: str, query: bool, parameters: Fields, result: Optional[str]) -> None:
        self.name, self.query, self.parameters, self.result = name, query, parameters, result

    def is_callable(self) -> bool:
        """Whether a script can call it: each parameter is a number."""
        return all(kind == 'int' for _, kind in self.parameters)


class Program:
    """A typed program, of language 2 now and then. `text` is its canonical form; no statement of it is refused."""

    def __init__(self, draw: random.Random) -> None:
        self.draw = draw
        self.arrays: Dict[Tuple[str, str], int] = {}
        self.language = draw.choice([1, 1, 2])
        self.records: Dict[str, Tuple[int, Fields]] = {}
        self.roots: Fields = []
        self.procedures: List[Procedure] = []
        self.make_records()
        self.make_roots()
        self.make_heads()
        lines = ['language 2'] if self.language == 2 else []
        lines += [self.record_line(name) for name in self.records]
        lines += [f'root {name}: {kind};' for name, kind in self.roots]
        for procedure in self.procedures:
            lines += Body(self, procedure).lines()
        self.text = ''.join(line + '\n' for line in lines)

    def chance(self, part: float) -> bool:
        return self.draw.random() < part

    # ---- declarations

    def make_records(self) -> None:
        names = ['N', 'Knot', 'cell_2'][:self.draw.choice([1, 1, 2, 2, 3])]
        for name in names:
            fields = [(f'v{k}', 'int') for k in range(self.draw.choice([0, 1, 1, 2, 3]))]
            fields += [(f'p{k}', self.draw.choice(names)) for k in range(self.draw.choice([0, 1, 2, 2, 3, 8]))]
            self.draw.shuffle(fields)
            self.records[name] = (self.draw.choice([1, 1, 2, 2, 3, 4, 16]), fields)
            self.make_arrays(name, fields)

    def make_arrays(self, name: str, fields: Fields) -> None:
        """Makes arrays of some fields of language 2; a type has at most 64 elements."""
        left = 64 - len(fields)
        for field, _ in fields if self.language == 2 else []:
            elements = self.draw.choice([1, 2, 2, 3, 4, 16])
            if self.chance(0.5) and elements - 1 <= left:
                self.arrays[name, field] = elements
                left -= elements - 1

    def record_line(self, name: str) -> str:
        limit, fields = self.records[name]
        inside = ''.join(f'{"val" if kind == "int" else "ptr"} {field}: {kind}{self.size_text(name, field)}; ' for field, kind in fields)
        return f'record {name} {limit} {{ {inside}}}'

    def size_text(self, name: str, field: str) -> str:
        return f' * {self.arrays[name, field]}' if (name, field) in self.arrays else ''

    def make_roots(self) -> None:
        self.roots = [(f'sum{k}', 'int') for k in range(self.draw.choice([0, 1, 1, 2]))]
        for k, name in enumerate(self.records):
            self.roots += [(f'top{k}{end}', name) for end in self.draw.choice([[''], ['', '_b'], ['', '_b', '_c']])]
        self.draw.shuffle(self.roots)

    def make_heads(self) -> None:
        kinds = ['int', 'int', 'int', *self.records]
        for k in range(self.draw.randrange(3, 8)):
            query = k > 0 and self.chance(0.35)
            count = self.draw.choice([0, 0, 1, 1, 2, 3])
            kind = 'int' if self.chance(0.7) else None
            parameters = [(f'a{at}', kind or self.draw.choice(kinds)) for at in range(count)]
            result = self.draw.choice([None, None, None, 'int', *self.records])
            self.procedures.append(Procedure(f'{"ask" if query else "do"}{k}', query, parameters, result))
        for k, name in enumerate(self.records):
            self.procedures.append(Procedure(f'grow{k}', False, [('a0', 'int')], None))
        self.procedures.append(Procedure('see', True, [], None))
        self.procedures.append(Procedure('flood', False, [('a0', 'int')], None))


class Body:
    """The text of a procedure."""

    def __init__(self, program: Program, procedure: Procedure) -> None:
        self.program, self.procedure, self.draw = program, procedure, program.draw
        self.chance = program.chance
        self.locals: Fields = []
        self.names: Dict[str, List[str]] = {}
        for name, kind in program.roots + procedure.parameters:
            self.names.setdefault(kind, []).append(name)
        self.own: Dict[str, List[str]] = {}
        for name, kind in procedure.parameters:
            self.own.setdefault(kind, []).append(name)
        for kind in ['int', *program.records]:
            for k in range(self.draw.choice([0, 1, 1, 2])):
                self.declare(f'{"i" if kind == "int" else "r" + kind}{k}', kind)
        self.left = self.draw.choice([3, 6, 10, 16])

    def declare(self, name: str, kind: str) -> str:
        self.locals.append((name, kind))
        self.names.setdefault(kind, []).append(name)
        self.own.setdefault(kind, []).append(name)
        return name

    def lines(self) -> Iterator[str]:
        p = self.procedure
        inside = self.inside()
        if p.result and self.chance(0.8):
            inside.append(f'  return {self.whole(p.result, 2)};')
        head = ', '.join(f'{name}: {kind}' for name, kind in p.parameters)
        result = f': {p.result}' if p.result else ''
        yield f'{"query" if p.query else "proc"} {p.name}({head}){result} {{'
        yield from (f'  var {name}: {kind};' for name, kind in self.locals)
        yield from inside
        yield '}'

    def inside(self) -> List[str]:
        """The statements: made up, or those of one of the procedures that every program has."""
        name = self.procedure.name
        if name.startswith('grow'):
            return self.growing()
        if name == 'see':
            return self.seeing()
        if name == 'flood':
            return ['  while a0 > 0 {', '    print a0;', '    a0 = a0 - 1;', '  }']
        return self.beginning() + self.block(2, 0)

    def beginning(self) -> List[str]:
        """Lets most pointers hold a record, so that not every run traps for want of one."""
        lines = []
        for name, kind in self.locals:
            roots = [root for root, of in self.program.roots if of == kind]
            if kind != 'int' and self.chance(0.8):
                fresh = not self.procedure.query and self.chance(0.4)
                lines.append(f'  {name} = {f"new {kind}" if fresh else self.draw.choice(roots)};')
        return lines

    def growing(self) -> List[str]:
        """Makes a record, fills it, and hangs it where it can be found."""
        kind = list(self.program.records)[int(self.procedure.name[4:])]
        made = self.declare('made', kind)
        lines = [f'  {made} = new {kind};']
        for field, of in self.program.records[kind][1]:
            if self.chance(0.7):
                lines.append(f'  {self.field(kind, made, field, 1)} = {"a0" if of == "int" else self.draw.choice(self.names[of])};')
        for root, of in self.program.roots:
            if of == kind and (self.chance(0.5) or root.endswith(kind[-1])):
                lines.append(f'  {root} = {made};')
        return lines + [f'  {root} = {made};' for root, of in self.program.roots if of == kind][:1]

    def seeing(self) -> List[str]:
        """Prints what the roots hold, and what hangs from them."""
        lines = []
        for root, of in self.program.roots:
            if of == 'int':
                lines.append(f'  print {root};')
                continue
            lines.append(f'  if {root} != null {{')
            lines.append('    print 1;')
            for place, kind in self.places(of, root):
                if kind == 'int':
                    lines.append(f'    print {place};')
                    continue
                lines.append(f'    if {place} != null and {place} == {self.draw.choice(self.names[kind])} {{')
                lines.append('      print 2;')
                lines.append('    }')
            lines.append('  }')
        return lines

    # ---- statements

    def block(self, indent: int, depth: int) -> List[str]:
        lines = []
        for _ in range(self.draw.choice([0, 1, 2, 3, 4]) if depth else 5):
            if self.left > 0:
                self.left -= 1
                lines += [' ' * indent + line for line in self.statement(indent, depth)]
        return lines

    def statement(self, indent: int, depth: int) -> List[str]:
        kind = self.draw.random()
        if kind < 0.16 and depth < 4:
            return self.choice_of_blocks(indent, depth)
        if kind < 0.28 and depth < 3:
            return self.loop(indent, depth)
        if kind < 0.42:
            return [f'print {self.whole("int", 3)};']
        if kind < 0.54:
            return self.call()
        if kind < 0.57:
            return [f'return {self.whole(self.procedure.result, 2)};' if self.procedure.result else 'return;']
        if kind < 0.70 or self.procedure.query:
            return self.assignment(self.own)
        if kind < 0.80:
            return self.make()
        return self.assignment(self.names) if kind < 0.86 else self.store()

    def inner(self, indent: int, depth: int) -> List[str]:
        """The lines of a block inside a statement, which the statement's own indent is put before."""
        return [line[indent:] for line in self.block(indent + 2, depth + 1)]

    def choice_of_blocks(self, indent: int, depth: int) -> List[str]:
        lines = [f'if {self.truth(2)} {{'] + self.inner(indent, depth)
        if self.chance(0.5):
            lines += ['} else {'] + self.inner(indent, depth)
        return lines + ['}']

    def loop(self, indent: int, depth: int) -> List[str]:
        lists = [(kind, field) for kind in self.own for field, of in self.fields(kind) if of == kind]
        if lists and self.chance(0.4):
            kind, field = self.draw.choice(lists)
            name = self.draw.choice(self.own[kind])
            step, test = f'{name} = {self.field(kind, name, field, 0)};', f'{name} != null'
        elif self.chance(0.1):
            return [f'while {self.truth(1)} {{'] + self.inner(indent, depth) + ['}']
        else:
            name = self.declare(f'n{len(self.locals)}', 'int')
            step, test = f'{name} = {name} + 1;', f'{name} < {self.draw.randrange(6)}'
        if self.chance(0.2):
            test += f' and {self.comparison(1)}'
        return [f'while {test} {{'] + self.inner(indent, depth) + [f'  {step}', '}']

    def assignment(self, names: Dict[str, List[str]]) -> List[str]:
        kind = self.draw.choice([kind for kind in names if names[kind]] or ['int'])
        if not names.get(kind):
            return ['print 0;']
        return [f'{self.draw.choice(names[kind])} = {self.whole(kind, 3)};']

    def make(self) -> List[str]:
        kinds = [kind for kind in self.program.records if self.own.get(kind)]
        if not kinds:
            return self.assignment(self.names)
        kind = self.draw.choice(kinds)
        return [f'{self.draw.choice(self.own[kind])} = new {kind};']

    def store(self) -> List[str]:
        kinds = [kind for kind in self.program.records if self.names.get(kind) and self.fields(kind)]
        if not kinds:
            return self.assignment(self.names)
        kind = self.draw.choice(kinds)
        place = self.draw.choice(self.names[kind])
        own = [of for of in self.fields(kind) if of[1] == kind]
        if own and self.chance(0.2):
            place = self.field(kind, place, self.draw.choice(own)[0], 1)
        field, of = self.draw.choice(self.fields(kind))
        write = f'{self.field(kind, place, field, 2)} = {self.whole(of, 2)};'
        if self.chance(0.75):
            return [f'if {place} != null {{', f'  {write}', '}']
        return [write]

    def call(self) -> List[str]:
        allowed = [p for p in self.program.procedures if p.query or not self.procedure.query]
        called = self.draw.choice(allowed)
        given = ', '.join(self.whole(kind, 2) for _, kind in called.parameters)
        names = self.own.get(called.result) if called.result else None
        front = f'{self.draw.choice(names)} = ' if names and self.chance(0.7) else ''
        lines = [f'{front}call {called.name}({given});']
        if self.own.get('int') and self.chance(0.5):
            name = self.draw.choice(self.own['int'])
            return [f'if {name} < {self.draw.choice([1, 3, 300])} {{', f'  {name} = {name} + 1;', f'  {lines[0]}', '}']
        return lines

    # ---- expressions

    def fields(self, kind: str) -> Fields:
        return self.program.records[kind][1] if kind != 'int' else []

    def field(self, kind: str, pointer: str, field: str, depth: int) -> str:
        """A field of what a pointer to records of a type leads to: of an array one element, most often one that is there."""
        elements = self.program.arrays.get((kind, field))
        if elements is None:
            return f'{pointer}.{field}'
        if self.chance(0.75):
            index = str(self.draw.randrange(elements))
        elif self.chance(0.5):
            index = self.draw.choice(['-1', str(elements), str(elements - 1), '9223372036854775807', f'{elements} - 1'])
        else:
            index = self.sum(max(depth - 1, 0))
        return f'{pointer}.{field}({index})'

    def places(self, kind: str, pointer: str) -> Iterator[Tuple[str, str]]:
        """All that a record holds, with its kinds: each element of an array."""
        for field, of in self.fields(kind):
            elements = self.program.arrays.get((kind, field))
            for index in range(elements or 1):
                yield f'{pointer}.{field}' + (f'({index})' if elements else ''), of

    def whole(self, kind: str, depth: int) -> str:
        """An expression that fits a place of this kind."""
        return self.sum(depth) if kind == 'int' else 'null' if self.chance(0.2) else self.pointer(kind, depth)

    def pointer(self, kind: str, depth: int) -> str:
        if depth > 0 and self.chance(0.1):
            return f'({self.pointer(kind, depth - 1)})'
        steps = [(of, field) for of in self.program.records for field, to in self.fields(of) if to == kind and self.names.get(of)]
        if steps and (self.chance(0.3) or not self.names.get(kind)):
            of, field = self.draw.choice(steps)
            return self.field(of, self.pointer(of, depth - 1) if depth > 1 else self.draw.choice(self.names[of]), field, depth)
        return self.draw.choice(self.names.get(kind) or ['null'])

    def sum(self, depth: int) -> str:
        if depth > 0 and self.chance(0.35):
            return f'{self.sum(depth - 1)} {self.draw.choice("+-")} {self.term(depth - 1)}'
        return self.term(depth)

    def term(self, depth: int) -> str:
        if depth > 0 and self.chance(0.25):
            return f'{self.term(depth - 1)} {self.draw.choice("*/%")} {self.unary(depth - 1)}'
        return self.unary(depth)

    def unary(self, depth: int) -> str:
        if self.chance(0.08):
            return f'-{self.unary(depth)}'
        if depth > 0 and self.chance(0.15):
            return f'({self.sum(depth - 1)})'
        if self.chance(0.25):
            return str(self.draw.choice(ODD) if self.chance(0.3) else self.draw.randrange(12))
        loads = [(kind, field) for kind in self.program.records for field, of in self.fields(kind) if of == 'int' and self.names.get(kind)]
        if loads and self.chance(0.25):
            kind, field = self.draw.choice(loads)
            pointer = self.pointer(kind, depth)
            return self.field(kind, pointer, field, depth) if not is_null(pointer) else '5'
        return self.draw.choice(self.names.get('int') or ['4'])

    def truth(self, depth: int) -> str:
        if depth > 0 and self.chance(0.2):
            return f'{self.truth(depth - 1)} or {self.conjunct(depth - 1)}'
        return self.conjunct(depth)

    def conjunct(self, depth: int) -> str:
        if depth > 0 and self.chance(0.25):
            return f'{self.conjunct(depth - 1)} and {self.negation(depth - 1)}'
        return self.negation(depth)

    def negation(self, depth: int) -> str:
        if self.chance(0.12):
            return f'not {self.negation(depth)}'
        if depth > 0 and self.chance(0.15):
            return f'({self.truth(depth - 1)})'
        return self.comparison(depth)

    def comparison(self, depth: int) -> str:
        kinds = [kind for kind in self.program.records if self.names.get(kind)]
        if not kinds or self.chance(0.6):
            return f'{self.sum(depth)} {self.draw.choice(COMPARISONS)} {self.sum(depth)}'
        kind = self.draw.choice(kinds)
        sides = [self.pointer(kind, depth), 'null' if self.chance(0.6) else self.pointer(kind, depth)]
        if all(side.strip('()') == 'null' for side in sides):
            sides[0] = self.draw.choice(self.names[kind])
        self.draw.shuffle(sides)
        return f'{sides[0]} {self.draw.choice(COMPARISONS[:2])} {sides[1]}'


def is_null(pointer: str) -> bool:
    """Whether a pointer is null in parentheses, or a field of that."""
    return re.match(r'\(*null', pointer) is not None


def tokens_of(text: str) -> List[str]:
    return re.findall(r'[A-Za-z_][A-Za-z_0-9]*|[0-9]+|==|!=|<=|>=|\S', text)


def spread(draw: random.Random, text: str) -> str:
    """The same program with other blanks, line feeds and comments between its tokens."""
    pieces: List[str] = []
    before = ';'
    for token in tokens_of(text):
        tight = before in '(){};,.' or token in '(){};,.'
        blank = draw.choice(['', '', '', ' ']) if tight else draw.choice([' ', ' ', ' ', '  ', '\n'])
        if draw.random() < 0.03:
            blank = draw.choice(['\t', '\r\n', '\n\n', ' # a remark, "%% {";\n', '#\n'])
        pieces += [blank, token]
        before = token
    return ''.join(pieces)


def spoil_line(draw: random.Random, text: str) -> str:
    """The text with a line taken out, repeated or moved, or with a head or a limit exchanged."""
    lines = text.splitlines(keepends=True)
    at = draw.randrange(len(lines))
    kind = draw.randrange(6)
    if kind == 0:
        del lines[at]
    elif kind == 1:
        lines[at] *= draw.choice([2, 2, 70, 300])
    elif kind == 2:
        lines.insert(draw.randrange(len(lines)), lines.pop(at))
    elif kind == 3:
        return text.replace('proc ', 'query ')
    elif kind == 4:
        return re.sub('^(record .*) [0-9]+ ', lambda found: f'{found[1]} {draw.choice([0, 17, 99])} ', text, count=1, flags=re.M)
    else:
        return text.replace('  var ', f'  var {draw.choice(["a0", "sum0", "do0", "N", "i0", "top0"])}: int;\n  var ', 1)
    return ''.join(lines)


def spoil_name(draw: random.Random, text: str) -> str:
    """The text with a name in another name's place, so that it reads as a program whose types do not fit."""
    tokens = re.split('([A-Za-z_0-9]+)', text)
    names = [at for at, token in enumerate(tokens) if re.match('[A-Za-z_]', token) and token not in KEYWORDS]
    for _ in range(draw.choice([1, 1, 2])):
        tokens[draw.choice(names)] = draw.choice([tokens[draw.choice(names)], tokens[draw.choice(names)], '7', 'null', 'other'])
    return ''.join(tokens)


def spoil_token(draw: random.Random, text: str) -> str:
    """The text with tokens or bytes taken out, put in or exchanged."""
    tokens = re.findall(r'\s+|[A-Za-z_][A-Za-z_0-9]*|[0-9]+|==|!=|<=|>=|\S', text)
    for _ in range(draw.choice([1, 1, 1, 2, 5])):
        at = draw.randrange(len(tokens))
        kind = draw.random()
        if kind < 0.3:
            tokens[at] = ''
        elif kind < 0.5:
            tokens[at] += ' ' + draw.choice(tokens)
        elif kind < 0.7:
            tokens[at] = draw.choice(tokens)
        elif kind < 0.9:
            odd = ['0', '00', '7x', '9223372036854775808', 'x' * 32, 'x' * 33, '# ', '(' * draw.randrange(70), '-' * draw.randrange(70)]
            tokens[at] = draw.choice([*KEYWORDS, *'{}();:,.=+-*/%<>!@$', '==', '!=', *odd])
        else:
            tokens[at] += draw.choice(['\0', '\t', '\r', '\x0b', '\x7f', '~', '`', '\xe9', '%%', '\n%%\n'])
    return ''.join(tokens)


def spoil(draw: random.Random, text: str) -> str:
    """The text with a change after which it is most likely no program."""
    return draw.choice([spoil_line, spoil_name, spoil_token])(draw, text)


class Script:
    """The commands of a script. What there is by then is learnt from the replies."""

    def __init__(self, draw: random.Random, procedures: Iterable[Procedure]) -> None:
        self.draw = draw
        self.procs = [(p.name, len(p.parameters)) for p in procedures if not p.query and p.is_callable()]
        self.procs += [call for call in self.procs if call[0].startswith('grow')] * 2
        self.queries = [(p.name, len(p.parameters)) for p in procedures if p.query and p.is_callable()]
        self.others = [p.name for p in procedures if not p.is_callable()] + ['nothing', 'Do0', 'new', 'x' * 33]
        self.versions, self.runs = 1, 0
        self.opened: List[int] = []

    def learn(self, replies: Iterable[bytes]) -> None:
        for reply in replies:
            words = reply.split()
            if words[:1] == [b'version']:
                self.versions += 1
            elif words[:1] == [b'run'] and len(words) == 2:
                self.opened.append(int(words[1]))
            elif words[:1] == [b'dropped'] and int(words[1]) in self.opened:
                self.opened.remove(int(words[1]))
        self.opened = self.opened[-80:]

    def number(self) -> object:
        kind = self.draw.random()
        if kind < 0.7:
            return self.draw.randrange(-3, 9)
        if kind < 0.97:
            return self.draw.choice([1, -1]) * self.draw.choice(ODD)
        return self.draw.choice(['-9223372036854775808', '9223372036854775808', '-9223372036854775809', '-0', '07', '+1', '1x', '9' * 40])

    def call(self, query: bool = False) -> str:
        kind = self.draw.random()
        names = self.queries if query else self.procs
        if kind < 0.03 or not names:
            return f'{self.draw.choice(self.others)} {self.number()}'
        name, count = self.draw.choice(self.procs if kind < 0.05 and self.procs else self.queries if kind < 0.07 and self.queries else names)
        if self.draw.random() < 0.03:
            count = self.draw.randrange(10)
        return ' '.join([name, *(str(self.number()) for _ in range(count))])

    def version(self) -> object:
        kind = self.draw.random()
        if kind < 0.03:
            return self.draw.choice([self.versions, self.versions + 1, 4294967295, 4294967296, '00', '-1'])
        return max(0, self.versions - 1 - self.draw.randrange(8)) if kind < 0.6 else self.draw.randrange(self.versions)

    def run(self) -> object:
        if not self.opened or self.draw.random() < 0.05:
            return self.draw.choice([0, 1, self.runs, self.runs + 1, 4294967295, 4294967296, '01'])
        return self.draw.choice(self.opened[-self.draw.randrange(1, 9):])

    def command(self) -> str:
        kind = self.draw.random()
        if not self.opened and 0.54 <= kind < 0.9 and self.draw.random() < 0.9:
            kind = self.draw.random() * 0.54
        if kind < 0.25:
            return f'run {self.version()} {self.call()}'
        if kind < 0.42:
            return f'query {self.version()} {self.call(query=True)}'
        if kind < 0.54:
            return f'open {self.version()} {self.call()}' if self.draw.random() < 0.7 else f'open {self.version()}'
        if kind < 0.64:
            return f'call {self.run()} {self.call()}'
        if kind < 0.78:
            return f'step {self.run()} {self.draw.choice([1, 1, 2, 3, 5, 7, 20, 400, 1000000000, 0, 1000000001])}'
        if kind < 0.87:
            return f'close {self.run()}'
        if kind < 0.90:
            return f'drop {self.run()}'
        if kind < 0.93:
            return f'budget {self.draw.choice([1, 2, 5, 17, 60, 300, 300, 2000, 0, 1000000001])}'
        if kind < 0.96:
            return self.draw.choice(['versions', 'stats', 'query 0 see', f'query {self.version()} see'])
        return self.spoilt()

    def odd_begin(self) -> List[str]:
        """Commands that come to a limit: on open runs, on the calls of a run, or on printed numbers. Mostly none."""
        kind = self.draw.random()
        if kind < 0.02:
            return [f'open 0 {self.call()}' for _ in range(70)]
        if kind < 0.03:
            return ['open 0', *(f'call 1 {self.call()}' for _ in range(1100))]
        if kind < 0.04:
            return ['budget 1000000', 'open 0 flood 65530', f'call 1 flood {self.draw.randrange(4, 9)}', 'step 1 500000', 'close 1', 'budget 300']
        return []

    def spoilt(self) -> str:
        """A line of no form, or one with blanks and bytes that a form has not."""
        kind = self.draw.random()
        if kind < 0.4:
            return self.draw.choice(['', ' \t', '# a remark', '  # run 0', '#', '%%', 'run', 'run 0', 'step 1', 'close', 'drop 1 2', 'versions 0', 'Stats', 'jump 0', '\0', '\xff\xfe', 'x' * 300])
        line = f'run {self.version()} {self.call()}'
        if kind < 0.7:
            return '\t ' + line.replace(' ', self.draw.choice(['  ', '\t', ' \r'])) + self.draw.choice(['', ' ', '\r', ' # no remark'])
        at = self.draw.randrange(len(line) + 1)
        return line[:at] + self.draw.choice(['', '\0', '-', '9', '\x0b', '\x80', ' ']) + line[at + 1:]
