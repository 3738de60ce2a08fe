"""Runs the listing program on the stored vectors and on made files, and compares what it prints byte for byte.

    run_listing.py PROGRAM [--only GROUP] [--seeds A-B] [--count N] [--jobs N]

The expected output is that of index_reader. A vector is held against expected.tsv and its .list file as well, a
made file against the answer that is known from its making, the document's examples against their text. The last
line is 'N passed, M failed', and the exit status is 0 only where M is 0.
"""

import argparse
import itertools
import os
import re
import subprocess
import sys
import time
from concurrent.futures import ThreadPoolExecutor
from typing import NamedTuple, Optional

import index_reader
import make_cases
import make_files
from kinds import Kind, by_number
from report import SECONDS, WIDTH, Program, ProgramFailed, Report, difference

VECTORS = os.path.join(os.path.dirname(os.path.abspath(__file__)), "vectors")
OWN_TABLE = ("left-out", "stages")  # the folders of SHA-1 files with an expected.tsv of their own

# The listing that document 01 prints whole, for the file document/listing-example.
EXAMPLE = b"""\
version 2 entries 2
100644 1111111111111111111111111111111111111111 0\ta
100755 2222222222222222222222222222222222222222 0\tb/c
cache tree none
resolve-undo none
"""
DOCUMENT = {
    "document/listing-example": EXAMPLE,
    "checksum/listing-example": EXAMPLE.replace(b"entries 2", b"entries 2 checksum left out"),
    "document/listing-example-wrong-checksum": b"refused 5 at 148\n",
    "document/empty-index": b"version 2 entries 0\ncache tree none\nresolve-undo none\n",
    "document/resolve-undo": b"version 2 entries 0\ncache tree none\nresolve-undo 1 paths\n",
    "document/name-of-8193-version-2": b"refused 9 at 12\n",
    "size/filled-65537": b"refused 2 at 0\n",
}


class Case(NamedTuple):
    """An input. `answer` is check's answer, `listing` the whole output, where they are known from elsewhere."""

    name: str
    data: bytes
    answer: Optional[tuple] = None
    listing: Optional[bytes] = None


class Rewriting(NamedTuple):
    """A stored file to be rewritten in a version, with the answer as the table spells it."""

    name: str
    data: bytes
    kind: Kind
    asked: int
    answer: str


# ---- the cases


def load(*path: str) -> bytes:
    with open(os.path.join(VECTORS, *path), "rb") as stream:
        return stream.read()


def parse_answer(text: str) -> tuple:
    """An answer of expected.tsv, as index_reader.check gives it."""
    words = text.split(" ")
    if words[0] == "refused":
        return ("refused", int(words[1]), int(words[3]))
    counts = tuple(None if word == "absent" else int(word) for word in words[2:11:2])
    return ("accepted",) + counts + ((" ".join(words[11:]),) if words[11:] else ())


def answers(folder: str = "") -> dict:
    """The answers of a folder of the vectors, by the names of the files."""
    lines = load(folder, "expected.tsv").decode().splitlines()
    rows = (line.split("\t") for line in lines)
    return {os.path.join(folder, name): parse_answer(text) for name, text in rows}


def vectors():
    """The stored vectors with SHA-1 names. Each has a row in an expected.tsv; a file without one is an error."""
    rows = answers()
    for folder in OWN_TABLE:
        rows.update(answers(folder))
    folders = ("made", "real", *OWN_TABLE)
    files = {f"{folder}/{name}" for folder in folders for name in os.listdir(os.path.join(VECTORS, folder))}
    indexes = {name for name in files if name.endswith(".index")}
    if indexes != set(rows):
        raise SystemExit(f"expected.tsv and the vectors differ: {sorted(indexes ^ set(rows))}")
    for name, answer in rows.items():
        list_name = name[: -len(".index")] + ".list"
        listing = load(list_name) if list_name in files else None
        yield Case(name, load(name), answer, listing)


def rewritings() -> list:
    """The rows of versions/. Each file has one for 0, 1 and 5 asked; another number of rows is an error."""
    found = []
    for line in load("versions", "expected.tsv").decode().splitlines():
        name, call, answer = line.split("\t")
        kind, asked = re.fullmatch(r"rewrite kind (\d) asked (\d+)", call).groups()
        found.append(Rewriting(name, load("versions", name), by_number(kind), int(asked), answer))
    names = [name for name in os.listdir(os.path.join(VECTORS, "versions")) if name.endswith(".index")]
    if sorted((row.name, row.asked) for row in found) != sorted(itertools.product(names, (0, 1, 5))):
        raise SystemExit("expected.tsv and the files of versions/ differ")
    return found


def made(files):
    for file in files:
        yield Case(file.name, file.data, file.answer, DOCUMENT.get(file.name))


def drawn(seeds: range, count: int):
    for seed in seeds:
        yield from made(make_files.drawn(seed, count))
        if seed % 10 == 0:
            yield from made(make_files.cuts(seed))


# ---- the comparison


def shows(listing: bytes, answer: tuple, size: int) -> bool:
    """Whether a listing shows the numbers of this answer of check. The byte where entries end is not shown."""
    if size > index_reader.LISTING_LIMIT:
        return listing == b"refused 2 at 0\n"
    if answer[0] == "refused":
        return listing == b"refused %d at %d\n" % answer[1:]
    _, version, entries, _, nodes, records, *left_out = answer
    first = b"version %d entries %d" % (version, entries) + b"".join(b" " + words.encode() for words in left_out)
    lines = listing.splitlines()
    return (
        len(lines) == entries + 3
        and lines[0] == first
        and lines[-2] == (b"cache tree none" if nodes is None else b"cache tree %d nodes" % nodes)
        and lines[-1] == (b"resolve-undo none" if records is None else b"resolve-undo %d paths" % records)
    )


def problem(case: Case, listing_of) -> Optional[tuple]:
    """What is wrong with the output for a case: None, or lines that say it."""
    expected = index_reader.listing(case.data)
    try:
        got = listing_of(case.data)
    except ProgramFailed as failure:
        return (f"expected {expected[:WIDTH]!r}", f"got      {failure}")
    if got != expected:
        return difference(expected, got)
    if case.listing is not None and got != case.listing:
        return ("against the stored text:",) + difference(case.listing, got)
    if case.answer is not None and not shows(got, case.answer, len(case.data)):
        return (f"stored or known from the making: {case.answer}", f"got      {got[:WIDTH]!r}")
    return None


def compare(cases, listing_of, report: Report, jobs: int) -> None:
    """Runs all cases, some at a time, in blocks so that few inputs are held at once."""
    with ThreadPoolExecutor(jobs) as pool:
        block = []
        for case in cases:
            block.append(case)
            if len(block) == 200:
                run_block(pool, block, listing_of, report)
                block = []
        run_block(pool, block, listing_of, report)


def run_block(pool, block: list, listing_of, report: Report) -> None:
    for case, wrong in zip(block, pool.map(lambda case: problem(case, listing_of), block)):
        report.test(case.name, wrong is None, *(wrong or ()))


# ---- standard input of other kinds


def slow_input(program: Program, data: bytes, piece: int) -> bytes:
    """Writes the input to a pipe a piece at a time: one read then gives less than the whole."""
    child = subprocess.Popen([program.path], stdin=subprocess.PIPE, stdout=subprocess.PIPE, stderr=subprocess.PIPE)
    try:
        for at in range(0, len(data), piece):
            child.stdin.write(data[at : at + piece])
            child.stdin.flush()
            time.sleep(0.002)
    except BrokenPipeError:
        pass  # the program may stop reading; what it prints is tested
    try:
        out, err = child.communicate(timeout=SECONDS)
    except subprocess.TimeoutExpired:
        child.kill()
        child.communicate()
        raise
    return program.output(child.returncode, out, err)


def file_input(program: Program, path: str) -> bytes:
    with open(path, "rb") as stream:
        done = subprocess.run([program.path], stdin=stream, capture_output=True, timeout=SECONDS, check=False)
    return program.output(done.returncode, done.stdout, done.stderr)


def inputs(program: Program, report: Report) -> None:
    """Bytes from a slow pipe and from a file, none at all, and far more than the program takes."""
    files = {file.name: file.data for file in make_cases.document_cases()}
    files.update((file.name, file.data) for file in make_cases.size_cases())
    rows = [("document/listing-example", 1), ("document/name-of-8192-version-4", 97)]
    rows += [("size/filled-65536", 1009), ("size/filled-65537", 1009), ("size/many-entries-version-4", 4096)]
    for name, piece in rows:
        run_input(f"slow pipe, {name}", files[name], lambda data: slow_input(program, data, piece), report)
    for name in ("real/v4-committed.index", "real/long-names-v2.index"):
        path = os.path.join(VECTORS, name)
        run_input(f"from a file, {name}", load(name), lambda _: file_input(program, path), report)
    run_input("from a file, empty", b"", lambda _: file_input(program, os.devnull), report)
    for size in (1 << 20, (16 << 20) + 1):
        run_input(f"{size} zeros", bytes(size), program, report)


def run_input(name: str, data: bytes, listing_of, report: Report) -> None:
    try:
        report.same(name, index_reader.listing(data), listing_of(data))
    except (ProgramFailed, OSError, subprocess.TimeoutExpired) as failure:
        report.test(name, False, failure)


# ---- the program


GROUPS = ("vectors", "cases", "drawn", "inputs")


def main() -> int:
    parser = argparse.ArgumentParser(description="Compare the listing program with an independent reading.")
    parser.add_argument("program", help="the listing program")
    parser.add_argument("--only", choices=GROUPS, help="run one group of tests")
    parser.add_argument("--seeds", type=make_files.seed_range, default=make_files.seed_range("0-59"), help="seeds A-B")
    parser.add_argument("--count", type=int, default=20, help="random edits for each seed")
    parser.add_argument("--jobs", type=int, default=2, help="programs that run at a time")
    options = parser.parse_args()

    report = Report()
    program = Program(options.program)
    if not program.usable(report):
        return report.finish()
    groups = {
        "vectors": lambda: compare(vectors(), program, report, options.jobs),
        "cases": lambda: compare(made(make_cases.cases()), program, report, options.jobs),
        "drawn": lambda: compare(drawn(options.seeds, options.count), program, report, options.jobs),
        "inputs": lambda: inputs(program, report),
    }
    for group in GROUPS:
        if options.only in (None, group):
            before, start = report.passed + report.failed, time.monotonic()
            groups[group]()
            tests, seconds = report.passed + report.failed - before, time.monotonic() - start
            print(f"{group}: {tests} tests in {seconds:.1f} s", flush=True)
    return report.finish()


if __name__ == "__main__":
    sys.exit(main())
