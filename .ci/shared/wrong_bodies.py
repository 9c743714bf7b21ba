"""The wrong bodies of crates/NAME/wrong/*.edit: what each changes, and which function of the crate that is.

An edit has the form of `rt must-fail`: lines 'file: PATH', and then pairs 'old: TEXT' and 'new: TEXT' of one line each. Each old text
stands exactly once in its file, as the pairs before it left that file.
"""
import os
import re
from typing import Dict, Iterator, List, Optional, Sequence, Set, Tuple

PARTS = ('src', 'specs', 'proofs')
HEAD = re.compile(r'(\s*)(?:pub(?:\([^)]*\))? )?(?:(?:const|final|unsafe) )*fn (\w+)')
ITEM = re.compile(r'}|(?:pub(?:\([^)]*\))? )?(?:const|static|struct|enum|impl|trait|mod|use|type|ghost)\b')

Texts = Dict[str, str]


class Unreadable(Exception):
    """Why an edit cannot be made."""


def read(path: str) -> str:
    with open(path, encoding='utf-8') as text:
        return text.read()


def pairs_of(text: str) -> Iterator[Tuple[str, str, str]]:
    """The pairs of an edit: the file, the text that stands there and the one that takes its place."""
    file = old = ''
    for line in text.split('\n'):
        if line.startswith('file: '):
            file = line[6:].strip()
            if os.path.normpath(file) != file or not file.startswith(tuple(f'{part}/' for part in PARTS)):
                raise Unreadable('a line `file:` names no file below src/, specs/ or proofs/')
        elif line.startswith('old: '):
            old = line[5:]
        elif line.startswith('new:'):
            if not file or not old:
                raise Unreadable('a line `new:` stands before any `file:` or `old:`')
            yield file, old, line[5:]
            old = ''


class Edit:
    """A wrong body. `functions` are those that it changes, by the paths that a check takes; they are none where it changes anything else."""

    def __init__(self, folder: str, name: str) -> None:
        self.folder, self.name, self.bad = folder, name[:-len('.edit')], ''
        self.pairs: List[Tuple[str, str, str]] = []
        self.functions: Set[str] = set()
        try:
            self.pairs = [*pairs_of(read(f'{folder}/wrong/{name}'))]
            texts = changed([self])
        except (Unreadable, OSError, UnicodeError) as why:
            self.bad = str(why)
            return
        if not self.pairs or all(text == read(f'{folder}/{file}') for file, text in texts.items()):
            self.bad = 'it changes nothing'
            return
        found = [self.function_of(*pair[:2]) for pair in self.pairs]
        if None not in found:
            self.functions = {it for it in found if it}

    def function_of(self, file: str, old: str) -> Optional[str]:
        text = read(f'{self.folder}/{file}')
        if not file.startswith('src/') or text.count(old) != 1:
            return None
        return function_at(self.folder, file, row_of(text, old))

    @property
    def label(self) -> str:
        return f'{os.path.basename(self.folder)}/{self.name}'


def changed(edits: Sequence[Edit]) -> Texts:
    """The texts of a crate's files that these edits change, as they are behind them, by their paths in the crate."""
    texts: Texts = {}
    for edit in edits:
        for file, old, new in edit.pairs:
            if file not in texts:
                texts[file] = read(f'{edit.folder}/{file}')
            if texts[file].count(old) != 1:
                raise Unreadable(f'an old text stands {texts[file].count(old)} times in {file}')
            texts[file] = texts[file].replace(old, new)
    return texts


def edits_of(folder: str) -> List[Edit]:
    """The wrong bodies of a crate."""
    wrong = f'{folder}/wrong'
    names = sorted(os.listdir(wrong)) if os.path.isdir(wrong) else []
    return [Edit(folder, name) for name in names if name.endswith('.edit')]


def fits(edit: Edit, others: List[Edit]) -> bool:
    """Whether an edit can be tried beside these: each changes functions of its own and nothing else."""
    if not edit.functions or any(not it.functions or it.functions & edit.functions for it in others):
        return False
    try:
        changed([*others, edit])
    except Unreadable:
        return False
    return True


def rounds_of(edits: Sequence[Edit]) -> List[List[Edit]]:
    """The edits in rounds, so that those of a round can be tried at once."""
    rounds: List[List[Edit]] = []
    for edit in edits:
        beside = next((it for it in rounds if fits(edit, it)), None)
        if beside is None:
            rounds.append([edit])
        else:
            beside.append(edit)
    return rounds


# ---- which function stands where

def row_of(text: str, old: str) -> int:
    """The row of a file in which a text stands."""
    return text[:text.index(old) + len(old) - len(old.lstrip())].count('\n')


def indent_of(row: str) -> int:
    return len(row) - len(row.lstrip())


def unbracketed(text: str) -> str:
    """A text without what stands in angle brackets."""
    deep, kept = 0, ''
    for letter in text:
        deep += letter == '<'
        kept += '' if deep else letter
        deep -= letter == '>' and deep > 0
    return kept


def type_of(text: str) -> str:
    """A type's or a trait's own name, without references, path and bounds."""
    return re.sub(r"^&(?:'\w+ )?(?:mut )?", '', text.strip()).split('::')[-1].split(':')[0].strip()


def owner_of(rows: List[str], start: int) -> Optional[Tuple[str, str]]:
    """The type to which the method that begins in this row belongs, and the trait, or '' where it is of none."""
    at = next((it for it in range(start, -1, -1) if re.match(r'(unsafe )?impl\b|(pub )?trait ', rows[it])), None)
    if at is None:
        return None
    head = rows[at]
    while '{' not in head and at + 1 < len(rows):
        at += 1
        head += ' ' + rows[at].strip()
    head = re.sub(r'^(?:pub |unsafe )*(?:impl|trait)\b', '', unbracketed(head.split('{')[0])).split(' where ')[0]
    trait, _, kind = head.rpartition(' for ')
    return type_of(kind), type_of(trait) if trait else ''


def body_of(rows: List[str], start: int) -> int:
    """The row in which the body of the function that begins in this row opens, or how many rows there are."""
    indent = indent_of(rows[start])
    for at in range(start, len(rows)):
        if indent_of(rows[at]) == indent and rows[at].endswith(('{', '{}')):
            return at
        if at > start and rows[at].strip() and indent_of(rows[at]) < indent:
            break
    return len(rows)


def module_of(file: str) -> List[str]:
    return [it for it in file[len('src/'):-len('.rt')].split('/') if it not in ('lib', 'main', 'mod')]


def module_with(folder: str, kind: str, file: str) -> List[str]:
    """The module of a crate in which a type is declared, or that of this file where that is not known. The methods of a type stand there."""
    declared = re.compile(rf'(?m)^(?:pub(?:\([^)]*\))? )?(?:struct|enum|trait) {re.escape(kind)}\b')
    found = [path for path, text in files_of(folder, 'src', '.rt') if declared.search(text)]
    return module_of(found[0] if len(found) == 1 else file)


def path_of(folder: str, file: str, rows: List[str], start: int) -> Optional[str]:
    """The path by which a check takes the function that begins in this row."""
    head = HEAD.match(rows[start])
    if not head or not head[1]:
        return '::'.join([*module_of(file), head[2]]) if head else None
    owner = owner_of(rows, start)
    if not owner:
        return None
    module = module_of(file) if owner[1] else module_with(folder, owner[0], file)
    return '::'.join([*module, ''.join(owner), head[2]])


def function_at(folder: str, file: str, row: int) -> Optional[str]:
    """The function of a source in whose body this row stands, by the path that a check takes, or None."""
    rows = read(f'{folder}/{file}').split('\n')
    indent = indent_of(rows[row])
    start = next((it for it in range(row, -1, -1) if HEAD.match(rows[it]) and indent_of(rows[it]) < indent), None)
    if start is None or body_of(rows, start) >= row or any(ITEM.match(it) for it in rows[start + 1:row]):
        return None
    return path_of(folder, file, rows, start)


# ---- which functions an edit outside their bodies is about

def name_at(text: str, row: int) -> str:
    """The name whose definition stands in a row of a file of specs/."""
    rows = text.split('\n')
    while row > 0 and (not rows[row].strip() or rows[row][0].isspace()):
        row -= 1
    words = [it for it in re.findall(r'[^\s:(){}]+', rows[row]) if it not in ('pub', 'abbrev', 'unfoldable', 'opaque', 'data', 'record', 'open')]
    return words[0] if words else ''


def files_of(folder: str, part: str, ending: str) -> Iterator[Tuple[str, str]]:
    """The files of a part of a crate, with their paths in the crate."""
    for at, _, names in sorted(os.walk(f'{folder}/{part}')):
        for name in sorted(names):
            if name.endswith(ending):
                yield os.path.relpath(f'{at}/{name}', folder), read(f'{at}/{name}')


def rows_with(text: str, names: Set[str]) -> Iterator[int]:
    """The rows in which one of these names stands."""
    word = re.compile('|'.join(rf'(?<![\w.-]){re.escape(it)}(?![\w-])' for it in sorted(names)))
    return (number for number, row in enumerate(text.split('\n')) if word.search(row))


def functions_with(folder: str, names: Set[str], in_bodies: bool) -> Set[str]:
    """The functions in whose heads, or in whose bodies too, one of these names stands."""
    found = set()
    for file, text in files_of(folder, 'src', '.rt'):
        rows = text.split('\n')
        for row in rows_with(text, names):
            start = next((it for it in range(row, -1, -1) if HEAD.match(rows[it])), None)
            if start is not None and start <= row < body_of(rows, start) < len(rows):
                found.add(path_of(folder, file, rows, start))
            elif in_bodies:
                found.add(function_at(folder, file, row))
    return {it for it in found if it}


def citing_constant(folder: str, file: str, row: int) -> Set[str]:
    """The functions that name the constant of a row, or that in whose head the row stands."""
    rows = read(f'{folder}/{file}').split('\n')
    constant = re.match(r'\s*(?:pub(?:\([^)]*\))? )?(?:const|static) (\w+):', rows[row])
    if constant:
        return functions_with(folder, {constant[1]}, True)
    start = next((it for it in range(row, -1, -1) if HEAD.match(rows[it])), None)
    path = path_of(folder, file, rows, start) if start is not None and row <= body_of(rows, start) < len(rows) else None
    return {path} if path else set()


def citing_definition(folder: str, name: str) -> Set[str]:
    """The functions whose contracts name this definition of specs/, or else those that stand on it by fewest others."""
    names = {name}
    while name:
        found = functions_with(folder, names, False)
        if found:
            return found
        known = set(names)
        for _, text in files_of(folder, 'specs', '.antt'):
            names |= {it for it in (name_at(text, row) for row in rows_with(text, known)) if it}
        if names == known:
            break
    return set()


def citing(edit: Edit) -> Set[str]:
    """Functions that an edit is about that changes something else than their bodies; none where they are many or not known."""
    found: Set[str] = set()
    for file, old, _ in edit.pairs:
        text = read(f'{edit.folder}/{file}')
        if text.count(old) == 1 and file.startswith('specs/'):
            found |= citing_definition(edit.folder, name_at(text, row_of(text, old)))
        elif text.count(old) == 1 and file.startswith('src/'):
            found |= citing_constant(edit.folder, file, row_of(text, old))
    return found if len(found) <= 4 else set()
