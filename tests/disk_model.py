"""What a disk may hold after a loss of power, from the calls that a program has made on one folder.

The calls are those that cut_writes.c logs. A file that is not synced may have lost any part of what was written: it may
be cut at any length, be filled up with zeros or with what stood there before, or hold what it held earlier. A change of
names (a file created, renamed or removed) that is not followed by a sync of the folder may have been made or not, each
for itself; a rename is one change. What is synced stands.
"""

import itertools
from typing import Iterator, NamedTuple, Optional


class Call(NamedTuple):
    number: int
    name: str  # open, create, truncate, read, write, sync, close, chmod, rename or unlink
    file: str  # the name inside the folder, "." for the folder itself
    value: str = ""  # a length, a place, a mode or a new name
    data: bytes = b""  # of a write


def parse(log: str) -> list:
    calls = []
    for line in log.splitlines():
        number, name, file, value, *rest = line.split(" ")
        calls.append(Call(int(number), name, file, value, bytes.fromhex("".join(rest))))
    return calls


class Change(NamedTuple):
    """A file's bytes before and after a call that has put `data` at a place."""

    before: bytes
    at: int
    data: bytes
    after: bytes

    def parts(self) -> set:
        """All that the disk may hold on the way from before to after."""
        found = {self.after}
        for length in range(len(self.data) + 1):
            part = self.before[: self.at].ljust(self.at, b"\0") + self.data[:length]
            found |= {part, part + self.before[len(part) :], part.ljust(len(self.after), b"\0")}
        return found


class Disk:
    """A folder: what programs see in it, and what may be on the disk."""

    def __init__(self, files: dict):
        self.names = {name: number for number, name in enumerate(files)}  # and the number of the file behind each
        self.seen = list(files.values())  # the bytes of each file, as programs see them
        self.synced = list(self.seen)  # its bytes at the last sync
        self.changes = [[] for _ in self.seen]  # and the changes since
        self.synced_names = dict(self.names)
        self.renamed = []  # changes of names since the last sync of the folder: each a row of (name, number or None)

    def apply(self, call: Call) -> None:
        if call.name in ("create", "truncate") and call.file not in self.names:
            self.add(call.file)
        if call.name == "truncate":
            self.change(call.file, int(call.value), b"", self.of(call.file)[: int(call.value)])
        elif call.name == "write":
            self.write(call.file, int(call.value), call.data)
        elif call.name == "sync":
            self.sync(call.file)
        elif call.name == "rename":
            self.rename(((call.value, self.names[call.file]), (call.file, None)))
        elif call.name == "unlink":
            self.rename(((call.file, None),))

    def of(self, name: str) -> bytes:
        """The bytes of a file as programs see them."""
        return self.seen[self.names[name]]

    def files(self) -> dict:
        return {name: self.of(name) for name in self.names}

    # ---- changes

    def add(self, name: str) -> None:
        self.seen.append(b"")
        self.synced.append(b"")
        self.changes.append([])
        self.rename(((name, len(self.seen) - 1),))

    def rename(self, rows: tuple) -> None:
        set_names(self.names, rows)
        self.renamed.append(rows)

    def write(self, name: str, at: int, data: bytes) -> None:
        before = self.of(name).ljust(at, b"\0")
        self.change(name, at, data, before[:at] + data + before[at + len(data) :])

    def change(self, name: str, at: int, data: bytes, after: bytes) -> None:
        number = self.names[name]
        self.changes[number].append(Change(self.seen[number], at, data, after))
        self.seen[number] = after

    def sync(self, name: str) -> None:
        if name == ".":
            self.synced_names, self.renamed = dict(self.names), []
        else:
            number = self.names[name]
            self.synced[number], self.changes[number] = self.seen[number], []

    # ---- after a loss of power

    def possible(self, name: str) -> set:
        """All that a file may hold; None where it may be missing."""
        found = set()
        for made in itertools.product((False, True), repeat=len(self.renamed)):
            names = dict(self.synced_names)
            for rows in itertools.compress(self.renamed, made):
                set_names(names, rows)
            found |= self.stored(names.get(name))
        return found

    def stored(self, number: Optional[int]) -> set:
        """All that the disk may have for a file."""
        if number is None:
            return {None}
        return {self.synced[number]}.union(*(change.parts() for change in self.changes[number]))


def set_names(names: dict, rows: tuple) -> None:
    for name, number in rows:
        if number is None:
            names.pop(name, None)
        else:
            names[name] = number


def states(files: dict, calls: list) -> Iterator:
    """The disk before the first call and after each: the number of calls made, and the disk, which changes."""
    disk = Disk(files)
    yield 0, disk
    for made, call in enumerate(calls, start=1):
        disk.apply(call)
        yield made, disk
