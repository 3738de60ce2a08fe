"""The parts of an index file, and how they are composed out: what the makers of test files stand on.

Written from the requirements of the index code (documents 01 and 02). It shares nothing with the proved library, nor
with index_reader. The parts can be given faults: fields that stand for a wrong value. Object names are given with as many
bytes as any kind has, and the first of them are written.
"""

import hashlib
import random
import struct
from dataclasses import dataclass, field
from functools import partial
from typing import NamedTuple, Optional

from kinds import SHA1, Kind

# what the makers of files take from here, each by "from layout import *"
__all__ = [
    "COUNT_TEXTS", "EXECUTABLE", "GITLINK", "LEFT_OUT", "LINK", "LISTING_LIMIT", "MODES", "REGULAR", "SUBTREE_TEXTS",
    "UNDO_MODES", "WRONG_MODES",
    "Extension", "Made", "Maker", "Plan", "Record", "Tree", "Undo",
    "arrange", "bad_names", "end_of_entries", "git_order", "index_order", "compose", "compose_number", "compose_record",
    "compose_tree", "compose_undo", "left_out_too", "refused", "with_checksum", "whole_tree",
]

REGULAR, EXECUTABLE, LINK, GITLINK = 0o100644, 0o100755, 0o120000, 0o160000
MODES = (REGULAR, EXECUTABLE, LINK, GITLINK)
WRONG_MODES = (
    0, 1, 0o644, 0o040000, 0o100000, 0o100600, 0o100645, 0o100664, 0o100775, 0o120644, 0o120777, 0o160644, 0o170000,
    0x10000 | REGULAR, 0x80000000 | GITLINK, 0xA4810000, 0xFFFFFFFF,
)

LISTING_LIMIT = 65_536
LEFT_OUT = "checksum left out"  # the end of check's answer


class Made(NamedTuple):
    """A file, and what check answers where that is known by the way the file was made."""

    name: str
    data: bytes
    answer: Optional[tuple] = None

    def left_out(self, kind: Kind) -> "Made":
        """The same with zeros in place of the checksum, which is right."""
        answer = self.answer
        if answer is not None and answer[0] == "accepted":
            answer += (LEFT_OUT,)
        return Made(f"{self.name}-left-out", kind.zeroed(self.data), answer)


# ---- the parts of a file


@dataclass(frozen=True)
class Record:
    """An entry as it is to be written. The fields after `spare` are for faults: None stands for the right value."""

    name: bytes
    stage: int = 0
    mode: int = REGULAR
    object: bytes = b"\x11" * 32
    numbers: tuple = (0,) * 9  # ctime, mtime (seconds, nanoseconds each), dev, ino, uid, gid, size
    assume_valid: bool = False
    skip_worktree: bool = False
    intent_to_add: bool = False
    zero_word: bool = False  # the extended word is written even if it is zero
    spare: int = 0  # in version 4, by how much N is larger than it needs to be

    extended: Optional[bool] = None
    word: Optional[int] = None
    length: Optional[int] = None
    remove: Optional[bytes] = None  # N as it is written
    added: Optional[bytes] = None  # S as it is written
    padding: Optional[bytes] = None


@dataclass
class Tree:
    """A node of the cache tree. The two texts are for faults."""

    name: bytes
    count: int  # negative: invalid
    children: list = field(default_factory=list)
    object: bytes = b"\x33" * 32
    count_text: Optional[bytes] = None
    subtrees_text: Optional[bytes] = None

    def all(self):
        """This node and all below it, in the order of the file."""
        yield self
        for child in self.children:
            yield from child.all()


@dataclass(frozen=True)
class Undo:
    path: bytes
    modes: tuple  # three; 0 is a missing stage
    objects: tuple = (b"\x44" * 32, b"\x55" * 32, b"\x66" * 32)


@dataclass(frozen=True)
class Extension:
    signature: bytes
    data: bytes
    size: Optional[int] = None  # for faults: the size as it is written


class Composed(NamedTuple):
    body: bytes
    places: list  # the first byte of each entry
    end: int  # the byte where entries end
    extension_places: list


def compose_number(value: int) -> bytes:
    """N of version 4, in one byte or two."""
    if value < 128:
        return bytes([value])
    high, low = divmod(value - 128, 128)
    return bytes([128 + high, low])


def common(a: bytes, b: bytes) -> int:
    """The length of the common beginning."""
    return next((i for i, (x, y) in enumerate(zip(a, b)) if x != y), min(len(a), len(b)))


def compose_record(version: int, record: Record, previous: bytes, kind: Kind = SHA1) -> bytes:
    word = record.word
    if word is None:
        word = record.skip_worktree << 14 | record.intent_to_add << 13
    extended = record.extended
    if extended is None:
        extended = version > 2 and (word != 0 or record.zero_word)
    length = min(len(record.name), 4095) if record.length is None else record.length
    flags = record.assume_valid << 15 | extended << 14 | record.stage << 12 | length
    head = struct.pack(">10I", *record.numbers[:6], record.mode, *record.numbers[6:])
    head += record.object[: kind.width] + struct.pack(">H", flags)
    if extended and version > 2:
        head += struct.pack(">H", word)
    if version == 4:
        keep = max(0, common(previous, record.name) - record.spare)
        remove = compose_number(len(previous) - keep) if record.remove is None else record.remove
        return head + remove + (record.name[keep:] if record.added is None else record.added) + b"\0"
    unpadded = head + record.name
    padding = bytes(8 - len(unpadded) % 8) if record.padding is None else record.padding
    return unpadded + padding


def compose_tree(tree: Tree, kind: Kind = SHA1) -> bytes:
    count = b"%d" % tree.count if tree.count_text is None else tree.count_text
    subtrees = b"%d" % len(tree.children) if tree.subtrees_text is None else tree.subtrees_text
    own = tree.name + b"\0" + count + b" " + subtrees + b"\n" + (tree.object[: kind.width] if tree.count >= 0 else b"")
    return own + b"".join(compose_tree(child, kind) for child in tree.children)


def compose_undo(undo: list, kind: Kind = SHA1) -> bytes:
    data = b""
    for record in undo:
        data += record.path + b"\0" + b"".join(b"%o\0" % mode for mode in record.modes)
        data += b"".join(name[: kind.width] for mode, name in zip(record.modes, record.objects) if mode)
    return data


def compose(
    version: int, records: list, extensions: list = (), count: Optional[int] = None, kind: Kind = SHA1
) -> Composed:
    body = b"DIRC" + struct.pack(">II", version, len(records) if count is None else count)
    places, extension_places, previous = [], [], b""
    for record in records:
        places.append(len(body))
        body += compose_record(version, record, previous, kind)
        previous = record.name
    end = len(body)
    for extension in extensions:
        extension_places.append(len(body))
        size = len(extension.data) if extension.size is None else extension.size
        body += extension.signature + struct.pack(">I", size) + extension.data
    return Composed(body, places, end, extension_places)


def with_checksum(body: bytes, kind: Kind = SHA1) -> bytes:
    return body + kind.hash(body)


def end_of_entries(end: int, extensions: list, kind: Kind = SHA1) -> Extension:
    """A right EOIE extension, to be written after the given ones."""
    heads = b"".join(e.signature + struct.pack(">I", len(e.data)) for e in extensions)
    return Extension(b"EOIE", struct.pack(">I", end) + kind.hash(heads))


@dataclass
class Plan:
    """A sound file before it is composed out."""

    version: int
    records: list
    tree: Optional[Tree] = None
    undo: Optional[list] = None
    others: tuple = ()  # (slot, extension): 0 before, 1 between, 2 after TREE and REUC
    undo_first: bool = False
    with_end: bool = False  # EOIE at the end
    kind: Kind = SHA1

    def extensions(self) -> list:
        known = []
        if self.tree is not None:
            known.append(Extension(b"TREE", compose_tree(self.tree, self.kind)))
        if self.undo is not None:
            known.append(Extension(b"REUC", compose_undo(self.undo, self.kind)))
        if self.undo_first:
            known.reverse()
        row = [e for slot, e in self.others if slot == 0] + known[:1]
        row += [e for slot, e in self.others if slot == 1] + known[1:]
        row += [e for slot, e in self.others if slot == 2]
        if self.with_end:
            end = compose(self.version, self.records, kind=self.kind).end
            row.append(end_of_entries(end, row, self.kind))
        return row

    def composed(self) -> Composed:
        return compose(self.version, self.records, self.extensions(), kind=self.kind)

    def answer(self) -> tuple:
        return (
            "accepted",
            self.version,
            len(self.records),
            self.composed().end,
            None if self.tree is None else sum(1 for _ in self.tree.all()),
            None if self.undo is None else len(self.undo),
        )

    def made(self, name: str) -> Made:
        return Made(name, with_checksum(self.composed().body, self.kind), self.answer())


def refused(name: str, body: bytes, number: int, place: int, kind: Kind = SHA1) -> Made:
    """A file with one fault and a right checksum."""
    return Made(name, with_checksum(body, kind), ("refused", number, place))


def left_out_too(files, kind: Kind):
    """These files; of those with a right checksum, the first of each version and each refusal with it left out too."""
    met = set()
    for made in files:
        yield made
        if made.answer is None or made.answer[:2] in met:
            continue
        if with_checksum(made.data[: -kind.width], kind) == made.data:
            met.add(made.answer[:2])
            yield made.left_out(kind)


class Maker:
    """The functions above for one kind of object names."""

    def __init__(self, kind: Kind):
        self.kind = kind
        self.width = kind.width
        self.fixed = 42 + kind.width  # an entry's bytes before the extended word and the name
        self.plan = partial(Plan, kind=kind)
        for function in (compose, compose_record, compose_tree, compose_undo, end_of_entries, refused, with_checksum):
            setattr(self, function.__name__, partial(function, kind=kind))


# ---- cache trees


def index_order(tree: Tree) -> bytes:
    return tree.name + b"/"


def git_order(tree: Tree) -> tuple:
    return len(tree.name), tree.name


def whole_tree(names: list, name: bytes = b"", prefix: bytes = b"") -> Tree:
    """The valid tree of these names, which are sorted and all begin with the prefix; siblings in index order."""
    tree = Tree(name, len(names), object=(hashlib.sha1(prefix).digest() * 2)[:32])
    rests = [n[len(prefix) :] for n in names]
    for component in dict.fromkeys(rest.split(b"/")[0] for rest in rests if b"/" in rest):
        path = prefix + component + b"/"
        tree.children.append(whole_tree([n for n in names if n.startswith(path)], component, path))
    return tree


def arrange(tree: Tree, order: str, rng: random.Random) -> None:
    """Puts the siblings of the whole tree into one of three orders."""
    for node in tree.all():
        if order == "random":
            rng.shuffle(node.children)
        else:
            node.children.sort(key=git_order if order == "git" else index_order)


# ---- texts that break a rule

COUNT_TEXTS = (b"", b"-", b"+1", b"01", b"00", b"-0", b"-01", b"--1", b" 1", b"1\t", b"0x1", b"1_0", b"1.0",
               b"2147483648", b"-2147483649", b"99999999999", b"4294967296", b"\xb2", b"/", b":", b"-1-")
SUBTREE_TEXTS = (b"", b"-", b"-1", b"-0", b"+0", b"00", b"01", b" 0", b"0 ", b"0\r", b"2147483648", b"4294967296",
                 b"18446744073709551616", b":")
UNDO_MODES = (b"", b"00", b"0100644", b"100664", b"40000", b"040000", b"644", b"1", b"-0", b"+0", b" 0", b"0 ",
              b"100644 ", b"100645", b"1006440", b"10064", b"33188", b"0x81A4", b"170000", b"\x00")


def bad_names(rng: random.Random) -> list:
    """Names that break one rule each. They hold no NUL."""
    good = b"dir/file"
    rows = [b"", b"/", b"/a", b"a/", b"a//b", b"//", b".", b"..", b".git", b"a/.", b"a/..", b"a/.git", b"./a"]
    rows += [b"../a", b".git/a", b"a/./b", b"a/../b", b"a/.git/b", good + b"//" + good, good + b"/" * 3]
    rows.append(b"/".join([b"x"] * rng.randint(1, 30) + [rng.choice((b"", b".", b"..", b".git"))] + [b"y"] * 3))
    return rows
