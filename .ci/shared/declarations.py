"""Reads the declarations of a program in its canonical form, in which each record type and each root stands in a line of its own."""
import re
from typing import List, NamedTuple, Optional, Tuple


class Field(NamedTuple):
    """A field or a root: its kind is `int` or a record type, and an array tells how many elements it has."""
    name: str
    kind: str
    elements: Optional[int] = None


class Record(NamedTuple):
    """A record type with its in-degree limit."""
    name: str
    limit: int
    fields: List[Field]


def fields_in(text: str) -> List[Field]:
    """The fields that stand inside the braces of a record type."""
    found = re.findall(r'(?:val|ptr) (\w+): (\w+)(?: \* (\d+))?;', text)
    return [Field(name, kind, int(count) if count else None) for name, kind, count in found]


def declarations_of(text: str) -> Tuple[List[Field], List[Record]]:
    """The roots and the record types of a program, each in the order of declaration."""
    roots, records = [], []
    for line in text.splitlines():
        record = re.fullmatch(r'record (\w+) (\d+) \{ (.*)\}', line)
        root = re.fullmatch(r'root (\w+): (\w+);', line)
        if record:
            records.append(Record(record[1], int(record[2]), fields_in(record[3])))
        elif root:
            roots.append(Field(root[1], root[2]))
    return roots, records
