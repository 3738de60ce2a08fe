"""Rewrites an index after documents 01 and 02: what index_reader reads, as layout composes it."""

import hashlib

import index_reader
import layout
from kinds import Kind


def extended(entries: list) -> bool:
    """Whether one of the entries needs the extended word."""
    return any(entry.skip_worktree or entry.intent_to_add for entry in entries)


def lowest(entries: list) -> int:
    """The lowest version that a file of these entries can have."""
    return 3 if extended(entries) else 2


def tree(nodes) -> layout.Tree:
    """The next of these nodes with all below it."""
    node = next(nodes)
    count = -1 if node.count is None else node.count
    return layout.Tree(node.name, count, [tree(nodes) for _ in range(node.subtrees)], node.object)


def rewritten(data: bytes, version: int, kind: Kind) -> bytes:
    """The one file of the records in a version."""
    index = index_reader.read(data, kind=kind)
    records = [
        layout.Record(e.name, e.stage, e.mode, e.object, e[:6] + e[7:10], *e[11:12], *e[13:15]) for e in index.entries
    ]
    nodes = None if index.nodes is None else tree(iter(index.nodes))
    undo = None if index.undo is None else [layout.Undo(*record) for record in index.undo]
    return layout.Plan(version, records, nodes, undo, kind=kind).made("rewritten").data


def answer(data: bytes, asked: int, kind: Kind) -> tuple:
    """What rewrite answers: ('done', bytes) or ('refused', number, place)."""
    entries = index_reader.read(data, kind=kind).entries
    if asked > 4:
        return ("refused", 4, 0)
    if asked == 2 and extended(entries):
        return ("refused", 21, 0)
    version = {0: 4, 1: lowest(entries)}.get(asked, asked)
    return ("done", rewritten(data, version, kind))


def words(given: tuple) -> str:
    """An answer as vectors/versions/expected.tsv spells it."""
    if given[0] == "refused":
        return "refused %d at %d" % given[1:]
    return f"written {len(given[1])} sha256 {hashlib.sha256(given[1]).hexdigest()}"
