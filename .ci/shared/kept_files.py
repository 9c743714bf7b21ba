"""Stores in two files, apart from the program: what bytes stand for, what calls make of a file, and what a crash may leave of it."""
import hashlib
import random
import re
from typing import List, NamedTuple, Optional, Sequence, Tuple, Union

HEAD, END = 49, 30
# Zeros behind the image of a file that was written anew.
ROOM = 1 << 18
NONE_COUNTS, EMPTY = 'there is no whole store in the file', 'the file is empty'
DAMAGED_IMAGE, DAMAGED_GROUP = 'the image is damaged', 'a command is damaged'
DAMAGED_END = 'the end of the commands is damaged'


class Store(NamedTuple):
    """An image, and the commands behind it, a group at a time."""
    image: bytes
    groups: Tuple[bytes, ...] = ()

    def said(self) -> bytes:
        return b''.join(self.groups)


# A store, or why there is none.
Reading = Union[Store, str]


# ---- the form of a file

def letters(digest: bytes) -> bytes:
    return bytes(48 + byte % 64 for byte in digest[:16])


def check_of(before: bytes, body: bytes) -> bytes:
    return letters(hashlib.sha256(before + body).digest())


def text_of(store: Store) -> bytes:
    """The groups of a store as they stand in a file."""
    check, text = letters(hashlib.sha256(store.image).digest()), b''
    for body in store.groups:
        check = check_of(check, body)
        text += body + check + bytes([END])
    return text


def file_of(store: Store, generation: int, zeros: int, gate: int = 1) -> bytes:
    """A whole file."""
    front = bytes([gate]) + generation.to_bytes(8, 'big') + len(store.image).to_bytes(8, 'big')
    return front + hashlib.sha256(store.image).digest() + store.image + text_of(store) + bytes(zeros)


def generation_of(file: bytes) -> Optional[int]:
    """The generation of a file that counts."""
    if len(file) < HEAD or file[0] != 1 or HEAD + int.from_bytes(file[9:17], 'big') > len(file):
        return None
    return int.from_bytes(file[1:9], 'big')


def may_be_torn(rest: bytes) -> bool:
    """Whether what stands behind the whole groups may be what a crash left of one more."""
    _, end, behind = rest.partition(bytes([END]))
    return 0 in rest and (rest[0] == 0 or not end or not behind.strip(b'\0'))


def read_counting(file: bytes) -> Reading:
    """What a file that counts keeps."""
    base = HEAD + int.from_bytes(file[9:17], 'big')
    image = file[HEAD:base]
    if hashlib.sha256(image).digest() != file[17:HEAD]:
        return DAMAGED_IMAGE
    zero = file.find(0, base)
    behind = file.rfind(END, base, zero if zero >= 0 else len(file)) + 1 or base
    if not may_be_torn(file[behind:]):
        return DAMAGED_END
    check, bodies = letters(file[17:HEAD]), []
    for group in file[base:behind].split(bytes([END]))[:-1]:
        body, told = group[:-16], group[-16:]
        if len(group) < 16 or told != check_of(check, body):
            return DAMAGED_GROUP
        check = told
        bodies.append(body)
    return Store(image, tuple(bodies))


def read_files(one: bytes, two: bytes) -> Reading:
    """What two files keep."""
    if len(one) <= 1 and len(two) <= 1:
        return EMPTY
    first, second = generation_of(one), generation_of(two)
    if first == second:
        return NONE_COUNTS
    return read_counting(one if second is None or first is not None and first > second else two)


# ---- bytes as the program reads and writes them

def shown(data: bytes) -> str:
    pieces = [f'z{len(piece)}' if i % 2 else piece.hex() for i, piece in enumerate(re.split(rb'(\x00{16,})', data))]
    return '.'.join(piece for piece in pieces if piece) or '-'


def bytes_of(text: str) -> bytes:
    pieces = [] if text == '-' else text.split('.')
    return b''.join(bytes(int(piece[1:])) if piece.startswith('z') else bytes.fromhex(piece) for piece in pieces)


# ---- calls, and what a crash may make of them

class Call(NamedTuple):
    """A call of a file: `write`, with its offset and bytes, `cut`, with the length, or `sync`; and whether it was done."""
    kind: str
    at: int = 0
    data: bytes = b''
    done: bool = True


def overlaid(file: bytes, at: int, data: bytes) -> bytes:
    return file[:at].ljust(at, b'\0') + data + file[at + len(data):]


class Disk:
    """A file: what a read returns, what was there at the last sync, and the calls since. A crash may leave each of these in part."""

    def __init__(self, file: bytes) -> None:
        self.seen = self.synced = file
        self.pending: List[Call] = []

    def follow(self, call: Call) -> None:
        if call.kind == 'sync':
            if call.done:
                self.synced, self.pending = self.seen, []
            return
        self.pending.append(call)
        if call.done and call.kind == 'write':
            self.seen = overlaid(self.seen, call.at, call.data)
        elif call.done:
            self.seen = self.seen[:call.at].ljust(call.at, b'\0')

    def left(self, draw: random.Random, stale: Sequence[bytes]) -> bytes:
        """What a crash may leave: a first part of the calls, each whole or torn. Where bytes may be any, also such as stand in `stale`."""
        file, count = self.synced, draw.choice((draw.randint(0, len(self.pending)), len(self.pending)))
        for call in self.pending[:count]:
            if draw.random() < 0.5:
                whole = call.kind == 'write'
                file = overlaid(file, call.at, call.data) if whole else file[:call.at].ljust(call.at, b'\0')
            elif call.kind == 'write':
                file = torn(draw, file, call, stale)
            else:
                low, high = sorted((len(file), call.at))
                file = with_any(draw, file[:low], length_between(draw, low, high), b'', stale)
        return file


def length_between(draw: random.Random, low: int, high: int) -> int:
    near = min(high, low + draw.choice((0, 1, 2, 16, 17, 48, 49, 60, 200)))
    return draw.choice((low, near, draw.randint(low, high), high - draw.randint(0, min(3, high - low)), high))


def torn(draw: random.Random, file: bytes, call: Call, stale: Sequence[bytes]) -> bytes:
    """What may be left of a write: of what is below the end each byte old or new, and behind it any bytes, of any length up to its own."""
    end = call.at + len(call.data)
    over = max(0, min(end, len(file)) - call.at)
    old, new = file[call.at:call.at + over], call.data[:over]
    inside = file[:call.at] + mixed(draw, old, new) + file[call.at + over:]
    if end <= len(file):
        return inside
    return with_any(draw, inside, length_between(draw, len(file), end), overlaid(file, call.at, call.data)[len(file):], stale)


def mixed(draw: random.Random, old: bytes, new: bytes) -> bytes:
    """Each byte old or new: cut at a place, one byte another than all others, or any of the first 400, between which and the end all are alike."""
    way, at = draw.randrange(4), draw.randrange(min(400, len(old)) + 1)
    if draw.random() < 0.5:
        old, new = new, old
    if way == 0:
        return old[:at] + new[at:]
    if way == 1:
        return old[:at] + new[at:at + 1] + old[at + 1:]
    if way == 2:
        at = draw.randrange(len(old) + 1)
        return old[:at] + new[at:]
    most, few = min(400, len(old)), draw.choice((0.5, 0.1, 0.02))
    return bytes(a if draw.random() < few else b for a, b in zip(old[:most], new[:most])) + new[most:]


def with_any(draw: random.Random, file: bytes, length: int, new: bytes, stale: Sequence[bytes]) -> bytes:
    """More bytes up to a length: zeros, new ones, some of other files, at their place or not, or any."""
    count, way = length - len(file), draw.randrange(5)
    other = draw.choice(stale) if stale else b''
    if way == 0:
        more = b''
    elif way == 1:
        more = new
    elif way == 2:
        more = other[len(file):length]
    elif way == 3:
        more = other[draw.randrange(len(other) + 1):][:count]
    else:
        more = bytes(draw.choice((0, 1, END, draw.randrange(256))) for _ in range(min(count, draw.choice((1, 40, 300)))))
    return file + more[:count].ljust(count, b'\0')
