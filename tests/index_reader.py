"""An independent reading of a Git index, after the requirements of the index code (documents 01 and 02).

It shares nothing with the proved library: the tests hold the library's answers against it. It is written for
clarity, one rule after the other in the order in which the rules are tested.

    check(data)    ('accepted', version, entries, end, nodes or None, records or None), with LEFT_OUT at its end where
                   the checksum was left out, or ('refused', number, place)
    entries(data)  the entries, a list of Entry
    nodes(data)    the nodes of the cache tree, a list of Node, or None without the extension
    undo(data)     the resolve-undo records, a list of Undo, or None without the extension
    listing(data)  the bytes that the listing program prints

entries, nodes and undo raise Refused for a file that check refuses. All take the kind of object names, SHA-1 where it is
not told.

As a program it prints the listing of the named file, or of standard input, with SHA-1 names.
"""

import bisect
import sys
from typing import NamedTuple, Optional

from kinds import SHA1, Kind

FILE_LIMIT = 16_777_216
LISTING_LIMIT = 65_536
NAME_LIMIT = 8_192
LEVEL_LIMIT = 128

HEADER = 12
OBJECT_AT = 40  # where an entry's object name is: after ten numbers

LEFT_OUT = "checksum left out"  # the words of check's answer and of the listing

MODES = (0o100644, 0o100755, 0o120000, 0o160000)
LENGTH_MAX = 4095  # the largest value of the length field: the name has this length or more


class Refused(Exception):
    """A refusal with its number and its place."""

    def __init__(self, number: int, place: int):
        super().__init__(f"refused {number} at {place}")
        self.number = number
        self.place = place


class Entry(NamedTuple):
    ctime_seconds: int
    ctime_nanoseconds: int
    mtime_seconds: int
    mtime_nanoseconds: int
    dev: int
    ino: int
    mode: int
    uid: int
    gid: int
    size: int
    object: bytes
    assume_valid: bool
    stage: int
    skip_worktree: bool
    intent_to_add: bool
    name: bytes


class Node(NamedTuple):
    name: bytes
    level: int
    count: Optional[int]  # None for an invalid node
    subtrees: int
    object: bytes  # zeros for an invalid node


class Undo(NamedTuple):
    path: bytes
    modes: tuple  # of stages 1 to 3, 0 for a missing stage
    objects: tuple  # zeros for a missing stage


class Index(NamedTuple):
    """Everything that is read from an accepted file."""

    version: int
    entries: list
    places: list  # the first byte of each entry
    end: int  # the byte where entries end
    nodes: Optional[list]
    undo: Optional[list]
    others: list  # (signature, place) of each extension that was passed over
    left_out: bool  # zeros are in place of the checksum


# ---- the whole file


def read(data: bytes, limit: int = FILE_LIMIT, kind: Kind = SHA1) -> Index:
    """Reads a whole file, or raises Refused with the first rule that it breaks."""
    if len(data) < HEADER + kind.width:
        raise Refused(1, 0)
    if len(data) > limit:
        raise Refused(2, 0)
    if data[:4] != b"DIRC":
        raise Refused(3, 0)
    version = number(data, 4, 4)
    if version not in (2, 3, 4):
        raise Refused(4, 0)
    # The body is the file less the checksum. No rule below looks past it.
    body, last = data[: -kind.width], data[-kind.width :]
    # A checksum that is itself all zeros would match.
    matches = kind.hash(body) == last
    left_out = not matches and not any(last)
    if not matches and not left_out:
        raise Refused(5, len(body))

    found, places, end = read_entries(body, kind, version, number(body, 8, 4))
    tree, undo_records, others = read_extensions(body, kind, end, [entry.name for entry in found])
    return Index(version, found, places, end, tree, undo_records, others, left_out)


def number(data: bytes, at: int, width: int) -> int:
    return int.from_bytes(data[at : at + width], "big")


# ---- entries


def read_entries(body: bytes, kind: Kind, version: int, count: int):
    """Reads `count` entries. Answers them, the first byte of each, and the byte where they end."""
    found, places, at = [], [], HEADER
    while len(found) < count:
        previous = found[-1] if found else None
        entry, after = read_entry(body, kind, version, at, previous.name if previous else b"")
        if previous and not may_follow(previous, entry):
            raise Refused(11, at)
        found.append(entry)
        places.append(at)
        at = after
    return found, places, at


def may_follow(previous: Entry, entry: Entry) -> bool:
    """The order of entries. A name is there at stage 0 alone, or at some of 1 to 3, which rise."""
    if previous.name == entry.name:
        return 0 < previous.stage < entry.stage
    # Bytes compare as unsigned numbers, and a proper beginning comes first.
    return previous.name < entry.name


def read_entry(body: bytes, kind: Kind, version: int, place: int, previous_name: bytes):
    """Reads the entry at `place`. Answers it and the byte after it."""
    flags_at = place + OBJECT_AT + kind.width
    if flags_at + 2 > len(body):
        raise Refused(6, place)
    numbers = [number(body, place + 4 * i, 4) for i in range(10)]
    if numbers[6] not in MODES:
        raise Refused(7, place)
    object_name = body[place + OBJECT_AT : flags_at]

    flags = number(body, flags_at, 2)
    assume_valid = bool(flags & 0x8000)
    extended = bool(flags & 0x4000)
    stage = flags >> 12 & 3
    length_field = flags & 0x0FFF
    if extended and version == 2:
        raise Refused(8, place)
    at = flags_at + 2
    word = 0
    if extended:
        if at + 2 > len(body):
            raise Refused(6, place)
        word = number(body, at, 2)
        if word & 0x9FFF:  # the reserved bit and the 13 unused ones
            raise Refused(8, place)
        at += 2

    if version == 4:
        keep, at = read_keep(body, at, place, len(previous_name))
        stop = body.find(b"\0", at)
        if stop < 0:
            raise Refused(6, place)
        name = previous_name[:keep] + body[at:stop]
    elif length_field < LENGTH_MAX:
        stop = at + length_field
        if stop + 1 > len(body):
            raise Refused(6, place)
        name = body[at:stop]
    else:
        stop = body.find(b"\0", at)
        if stop < 0:
            raise Refused(6, place)
        name = body[at:stop]

    if not name_is_good(name) or length_field != min(len(name), LENGTH_MAX):
        raise Refused(9, place)

    if version == 4:
        after = stop + 1
    else:
        # The fixed bytes, the word and the name, then 1 to 8 NULs up to a multiple of 8.
        after = place + 8 * ((at - place + len(name)) // 8) + 8
        if after > len(body):
            raise Refused(6, place)
        if any(body[stop:after]):
            raise Refused(10, place)

    entry = Entry(*numbers, object_name, assume_valid, stage, bool(word & 0x4000), bool(word & 0x2000), name)
    return entry, after


def read_keep(body: bytes, at: int, place: int, previous_length: int):
    """Reads N of version 4. Answers how many bytes of the previous name stay, and the byte after N."""
    if at + 1 > len(body):
        raise Refused(6, place)
    first = body[at]
    if first < 128:
        remove, after = first, at + 1
    else:
        if at + 2 > len(body):
            raise Refused(6, place)
        second = body[at + 1]
        if second >= 128:
            raise Refused(10, place)
        remove, after = (first - 128 + 1) * 128 + second, at + 2
    if remove > previous_length:
        raise Refused(10, place)
    return previous_length - remove, after


def name_is_good(name: bytes) -> bool:
    """The rules on names, of entries and of resolve-undo paths. A '/' at an end makes an empty component."""
    if not 1 <= len(name) <= NAME_LIMIT or b"\0" in name:
        return False
    return not any(component in (b"", b".", b"..", b".git") for component in name.split(b"/"))


# ---- extensions


def read_extensions(body: bytes, kind: Kind, at: int, names: list):
    """Reads the extensions from `at` up to the end of the body."""
    tree = undo_records = None
    others = []
    while at < len(body):
        place = at
        if place + 8 > len(body):
            raise Refused(12, place)
        signature = body[place : place + 4]
        at = place + 8 + number(body, place + 4, 4)
        if at > len(body):
            raise Refused(12, place)
        data = body[place + 8 : at]
        if not ord("A") <= signature[0] <= ord("Z"):
            raise Refused(13, place)
        if signature == b"TREE":
            if tree is not None:
                raise Refused(14, place)
            tree = read_tree(data, kind, place, names)
        elif signature == b"REUC":
            if undo_records is not None:
                raise Refused(14, place)
            undo_records = read_undo(data, kind, place)
        else:
            others.append((signature, place))
    return tree, undo_records, others


class Cursor:
    """Reads the data of one extension from its start; what is missing is the given refusal."""

    def __init__(self, data: bytes, kind: Kind, refusal: Refused):
        self.data = data
        self.kind = kind
        self.at = 0
        self.refusal = refusal

    def until(self, mark: bytes) -> bytes:
        """The bytes before the next mark, and passes the mark."""
        stop = self.data.find(mark, self.at)
        if stop < 0:
            raise self.refusal
        part = self.data[self.at : stop]
        self.at = stop + len(mark)
        return part

    def take(self, length: int) -> bytes:
        if self.at + length > len(self.data):
            raise self.refusal
        self.at += length
        return self.data[self.at - length : self.at]

    def object(self, present: bool) -> bytes:
        """An object name; zeros where there is none."""
        return self.take(self.kind.width) if present else bytes(self.kind.width)

    def finished(self) -> bool:
        return self.at == len(self.data)


# ---- the cache tree


def read_tree(data: bytes, kind: Kind, place: int, names: list) -> list:
    """Reads the nodes (15), then tests their counts against the names of the entries (16)."""
    cursor = Cursor(data, kind, Refused(15, place))
    found = []
    read_node(cursor, 1, found)
    if found[0].name != b"" or not cursor.finished():
        raise Refused(15, place)
    check_counts(found, names, Refused(16, place))
    return found


def read_node(cursor: Cursor, level: int, found: list) -> bytes:
    """Reads a node and all below it to the end of `found`. Answers its name."""
    if level > LEVEL_LIMIT:
        raise cursor.refusal
    name = cursor.until(b"\0")
    if level > 1 and (name == b"" or b"/" in name):
        raise cursor.refusal
    count = decimal(cursor.until(b" "), -(2**31), 2**31 - 1, cursor.refusal)
    subtrees = decimal(cursor.until(b"\n"), 0, 2**31 - 1, cursor.refusal)
    valid = count >= 0
    found.append(Node(name, level, count if valid else None, subtrees, cursor.object(valid)))
    siblings = set()
    for _ in range(subtrees):
        child = read_node(cursor, level + 1, found)
        if child in siblings:
            raise cursor.refusal
        siblings.add(child)
    return name


def decimal(text: bytes, least: int, most: int, refusal: Refused) -> int:
    """A decimal number without leading zeros, within its limits. There is no '-0', and no '+'."""
    digits = text[1:] if text[:1] == b"-" else text
    # No number within the limits has more than ten digits.
    if not 1 <= len(digits) <= 10 or any(digit not in b"0123456789" for digit in digits):
        raise refusal
    if digits[:1] == b"0" and text != b"0":
        raise refusal
    value = int(text)
    if not least <= value <= most:
        raise refusal
    return value


def check_counts(found: list, names: list, refusal: Refused) -> None:
    """Judges the counts of all nodes. The names are in order: those below a directory stand together."""

    def test_counts(k: int, prefix: bytes) -> int:
        """Judges node k, whose path with '/' is `prefix`, and all below it. Answers the node after them."""
        node = found[k]
        below = names_below(names, prefix)
        direct = sum(1 for name in below if b"/" not in name[len(prefix) :])
        in_subtrees = 0
        after = k + 1
        for _ in range(node.subtrees):
            child = found[after]
            if node.count is not None:
                if child.count is None:
                    raise refusal
                in_subtrees += child.count
            after = test_counts(after, prefix + child.name + b"/")
        if node.count is not None:
            if node.count != len(below) or node.count != direct + in_subtrees:
                raise refusal
        return after

    test_counts(0, b"")


def names_below(names: list, prefix: bytes) -> list:
    """The names that begin with the prefix: empty, or one that ends with '/', whose successor is '0'."""
    if prefix == b"":
        return names
    return names[bisect.bisect_left(names, prefix) : bisect.bisect_left(names, prefix[:-1] + b"0")]


# ---- resolve undo


def read_undo(data: bytes, kind: Kind, place: int) -> list:
    refusal = Refused(17, place)
    cursor = Cursor(data, kind, refusal)
    found = []
    while not cursor.finished():
        path = cursor.until(b"\0")
        if not name_is_good(path):
            raise refusal
        if found and found[-1].path >= path:
            raise refusal
        modes = tuple(undo_mode(cursor.until(b"\0"), refusal) for _ in range(3))
        if modes == (0, 0, 0):
            raise refusal
        objects = tuple(cursor.object(mode != 0) for mode in modes)
        found.append(Undo(path, modes, objects))
    return found


def undo_mode(text: bytes, refusal: Refused) -> int:
    """A mode of a resolve-undo record: '0' or one of the four, spelled in octal without leading zeros."""
    for mode in (0,) + MODES:
        if text == b"%o" % mode:
            return mode
    raise refusal


# ---- the calls


def check(data: bytes, limit: int = FILE_LIMIT, kind: Kind = SHA1) -> tuple:
    try:
        index = read(data, limit, kind)
    except Refused as refusal:
        return ("refused", refusal.number, refusal.place)
    accepted = (
        "accepted",
        index.version,
        len(index.entries),
        index.end,
        None if index.nodes is None else len(index.nodes),
        None if index.undo is None else len(index.undo),
    )
    return accepted + (LEFT_OUT,) if index.left_out else accepted


def entries(data: bytes, kind: Kind = SHA1) -> list:
    return read(data, kind=kind).entries


def nodes(data: bytes, kind: Kind = SHA1) -> Optional[list]:
    return read(data, kind=kind).nodes


def undo(data: bytes, kind: Kind = SHA1) -> Optional[list]:
    return read(data, kind=kind).undo


# ---- the listing program


def escape(name: bytes) -> bytes:
    """The name as a listing line shows it: a backslash and three octal digits for each byte that is not plain."""
    return b"".join(
        b"\\%03o" % byte if byte < 32 or byte == 92 or byte > 126 else bytes([byte]) for byte in name
    )


def listing(data: bytes, limit: int = LISTING_LIMIT, kind: Kind = SHA1) -> bytes:
    try:
        index = read(data, limit, kind)
    except Refused as refusal:
        return b"refused %d at %d\n" % (refusal.number, refusal.place)
    lines = [b"version %d entries %d" % (index.version, len(index.entries))]
    lines += [b" " + LEFT_OUT.encode(), b"\n"] if index.left_out else [b"\n"]
    for entry in index.entries:
        object_name = entry.object.hex().encode()
        lines.append(b"%o %s %d\t%s\n" % (entry.mode, object_name, entry.stage, escape(entry.name)))
    if index.nodes is None:
        lines.append(b"cache tree none\n")
    else:
        lines.append(b"cache tree %d nodes\n" % len(index.nodes))
    if index.undo is None:
        lines.append(b"resolve-undo none\n")
    else:
        lines.append(b"resolve-undo %d paths\n" % len(index.undo))
    return b"".join(lines)


def main() -> int:
    if len(sys.argv) > 2:
        print("usage: index_reader.py [FILE]", file=sys.stderr)
        return 2
    if len(sys.argv) == 2:
        with open(sys.argv[1], "rb") as stream:
            data = stream.read()
    else:
        data = sys.stdin.buffer.read()
    sys.stdout.buffer.write(listing(data))
    return 0


if __name__ == "__main__":
    sys.exit(main())
