"""Stores the made files in a folder that is composed out as vectors/, for the comparison in Rust.

    store_files.py FOLDER [--seeds A-B] [--kind 1|2]

A file has the name that make_files gives it. The answers in expected.tsv are index_reader's; selftest.py holds these
against the ones that are known from the making.
"""

import argparse
import os
import sys

import index_reader
import make_files
from kinds import SHA1, by_number


def words(answer: tuple) -> str:
    """An answer of check as expected.tsv spells it."""
    if answer[0] == "refused":
        return "refused %d at %d" % answer[1:]
    names = ("version", "entries", "end", "nodes", "records")
    counts = ("absent" if number is None else str(number) for number in answer[1:6])
    return " ".join(("accepted", *(f"{name} {count}" for name, count in zip(names, counts)), *answer[6:]))


def main() -> int:
    parser = argparse.ArgumentParser(description="Store the made files with check's answers in a folder.")
    parser.add_argument("--seeds", type=make_files.seed_range, default=make_files.seed_range("0-59"), help="seeds A-B")
    parser.add_argument("--kind", type=by_number, default=SHA1, help="the kind of object names: 1 or 2")
    parser.add_argument("folder", help="the folder, which is made")
    options = parser.parse_args()
    rows = []
    for made in make_files.every(options.seeds, kind=options.kind):
        path = os.path.join(options.folder, made.name)
        os.makedirs(os.path.dirname(path), exist_ok=True)
        with open(path, "wb") as stream:
            stream.write(made.data)
        rows.append(f"{made.name}\t{words(index_reader.check(made.data, kind=options.kind))}\n")
    with open(os.path.join(options.folder, "expected.tsv"), "w", encoding="utf-8") as stream:
        stream.writelines(rows)
    return 0


if __name__ == "__main__":
    sys.exit(main())
