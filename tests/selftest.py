"""A test of the tests: it needs no program of the library.

It holds index_reader against the stored vectors, against the answers known from the making of files, against bytes
written out by hand and against Git. Then it sees that the tests notice what they should: a row of wrong readings, each
made from index_reader by one edit, stand-in programs that are right, wrong or fail, and wrong assurance pages. The last
line is 'N passed, M failed', and the exit status is 0 only where M is 0.
"""

import contextlib
import hashlib
import io
import itertools
import os
import shlex
import shutil
import subprocess
import sys
import tempfile
import time
import types

import edit_requests
import git_files
import index_reader
import layout
import make_cases
import make_files
import rewriting
import run_listing
import wrong_pages
import wrong_readings
from kinds import ALL, SHA1, SHA256, Kind
from report import Report

HERE = os.path.dirname(os.path.abspath(__file__))
SEEDS = range(0, 60)

# Programs that answer requests: each with the bytes of its file, or with one refusal.
LOOP = """\
for line in sys.stdin.buffer:
    file, name = (int(word) for word in line.split()[2:4])
    data = sys.stdin.buffer.read(file + name)[:file]
    sys.stdout.buffer.write(ANSWER)
    sys.stdout.flush()
"""
ECHO = LOOP.replace("ANSWER", 'b"done %d\\n" % file + data')
REFUSING = LOOP.replace("ANSWER", 'b"refused 5 12\\n"')


# ---- the reader against what is known


def vectors(report: Report) -> None:
    for case in run_listing.vectors():
        report.same(f"{case.name}: check", case.answer, index_reader.check(case.data))
        wrong = run_listing.problem(case, index_reader.listing)
        report.test(f"{case.name}: listing", wrong is None, *(wrong or ()))
    for name, answer in run_listing.answers("sha256").items():
        data = run_listing.load(name)
        report.same(f"{name}: check", answer, index_reader.check(data, kind=SHA256))
    for row in run_listing.rewritings():
        answer = rewriting.answer(row.data, row.asked, row.kind)
        report.same(f"versions/{row.name}: asked {row.asked}", row.answer, rewriting.words(answer))


def made_files(report: Report) -> None:
    for kind in ALL:
        made_files_of(kind, report)
        sixteen_mebibytes(kind, report)
    for case in run_listing.made(make_cases.cases()):
        wrong = run_listing.problem(case, index_reader.listing)
        report.test(f"{case.name}: listing", wrong is None, *(wrong or ()))


def made_files_of(kind: Kind, report: Report) -> None:
    """The made files of a kind: their answers, their names, sizes and refusals."""
    names, numbers, over, digests = [], set(), 0, []
    other = next(other for other in ALL if other != kind)
    for file in make_files.every(SEEDS, kind=kind):
        answer = index_reader.check(file.data, kind=kind)
        if file.answer is not None:
            report.same(file.name, file.answer, answer)
        if answer[0] == "accepted":
            # Without a checksum the same bytes may read as both.
            otherwise = index_reader.check(file.data, kind=other)
            refused = otherwise[0] == "refused" or otherwise[-1] == index_reader.LEFT_OUT
            report.test(f"{file.name} as {other.name}", refused, otherwise)
        names.append(file.name)
        numbers.add(answer[1] if answer[0] == "refused" else 0)
        over += len(file.data) > index_reader.LISTING_LIMIT
        digests.append(hashlib.sha1(file.data).digest())
    report.same("every file has a name of its own", len(names), len(set(names)))
    report.test("the document's texts belong to made files", set(run_listing.DOCUMENT) <= set(names))
    # Refusal 2 of check itself needs more than 16 MiB; the listing's limit is lower.
    report.same("every refusal of a file occurs", set(range(18)) - {2}, numbers)
    report.test("few files are over the listing's limit", 1 <= over <= 10, over)
    again = [hashlib.sha1(file.data).digest() for file in make_files.every(range(0, 10), kind=kind)]
    report.same("the maker is deterministic", digests[: len(again)], again)


def sixteen_mebibytes(kind: Kind, report: Report) -> None:
    large = index_reader.check(bytes(index_reader.FILE_LIMIT + 1), kind=kind)
    report.same("a file over 16 MiB", ("refused", 2, 0), large)
    fill = layout.Extension(b"FILL", bytes(index_reader.FILE_LIMIT - 20 - kind.width))
    file = layout.Plan(2, [], others=((0, fill),), kind=kind).made("a file of 16 MiB")
    answer = index_reader.check(file.data, kind=kind)
    report.same(file.name, (index_reader.FILE_LIMIT, file.answer), (len(file.data), answer))


def hand_written(report: Report) -> None:
    """The examples of document 01, from bytes that are written out here."""

    def with_checksum(body: bytes) -> bytes:
        return body + hashlib.sha1(body).digest()

    empty = with_checksum(bytes.fromhex("44495243 00000002 00000000"))
    report.same("empty index: length", 32, len(empty))
    report.same("empty index", ("accepted", 2, 0, 12, None, None), index_reader.check(empty))

    fixed = bytes(24)
    a = fixed + bytes.fromhex("000081a4") + bytes(12) + b"\x11" * 20 + bytes.fromhex("0001") + b"a\0"
    b = fixed + bytes.fromhex("000081ed") + bytes(12) + b"\x22" * 20 + bytes.fromhex("0003") + b"b/c" + bytes(7)
    example = with_checksum(bytes.fromhex("44495243 00000002 00000002") + a + b)
    report.same("listing example: length", 168, len(example))
    report.same("listing example", run_listing.EXAMPLE, index_reader.listing(example))
    report.same("listing example, wrong checksum", b"refused 5 at 148\n", index_reader.listing(example[:-1] + b"\0"))
    listed = {file.name: file.data for file in make_cases.document_cases()}
    report.same("listing example, as made", example, listed["document/listing-example"])
    left_out_by_hand(empty, example, report)
    stages_by_hand(a, report)

    undo = b"plan\x00100644\x000\x00100644\x00" + b"\x44" * 20 + b"\x66" * 20
    report.same("resolve undo: length", 61, len(undo))
    file = with_checksum(bytes.fromhex("44495243 00000002 00000000") + b"REUC\0\0\0\x3d" + undo)
    expected = index_reader.Undo(b"plan", (0o100644, 0, 0o100644), (b"\x44" * 20, bytes(20), b"\x66" * 20))
    report.same("resolve undo", [expected], index_reader.undo(file))
    report.same("resolve undo, as made", file, listed["document/resolve-undo"])

    tree = b"\x003 1\n" + b"\x33" * 20 + b"a\x002 0\n" + b"\x34" * 20
    report.same("cache tree: length", 51, len(tree))
    report.same("cache tree after a put: length", 13, len(b"\x00-1 1\na\x00-1 0\n"))
    records = [layout.Record(name) for name in (b"a-b", b"a/b", b"a/c")]
    body = layout.compose(2, records, [layout.Extension(b"TREE", tree)]).body
    nodes = [index_reader.Node(b"", 1, 3, 1, b"\x33" * 20), index_reader.Node(b"a", 2, 2, 0, b"\x34" * 20)]
    report.same("cache tree", nodes, index_reader.nodes(with_checksum(body)))

    def entry_length(name: bytes, word: bool) -> int:
        return len(layout.compose_record(3, layout.Record(name, zero_word=word), b""))

    for word, length, expected in ((0, 1, 64), (0, 2, 72), (0, 9, 72), (0, 10, 80), (1, 1, 72), (1, 8, 80)):
        name = b"n" * length
        report.same(f"entry length {length} {word}", expected, entry_length(name, bool(word)))
        file = layout.with_checksum(layout.compose(3, [layout.Record(name, zero_word=bool(word))]).body)
        report.same(f"entry end {length} {word}", 12 + expected, index_reader.check(file)[3])
    for code, value in ((b"\x7f", 127), (b"\x80\x00", 128), (b"\xbf\x00", 8192)):
        report.same(f"N, written {value}", code, layout.compose_number(value))
        report.same(f"N, read {value}", (9000 - value, len(code)), index_reader.read_keep(code, 0, 0, 9000))
    after = layout.compose_record(4, layout.Record(b"saw/cutter.txt"), b"saw/cut.txt")
    report.same("N and S after saw/cut.txt", b"\x04ter.txt\0", after[62:])

    entry = layout.Record(
        b"all/fields", 2, 0o120000, b"\x77" * 20, (1, 2, 3, 4, 5, 6, 8, 9, 10), True, True, True
    )
    for version in (3, 4):
        read = index_reader.entries(with_checksum(layout.compose(version, [entry]).body))
        fields = (1, 2, 3, 4, 5, 6, 0o120000, 8, 9, 10, b"\x77" * 20, True, 2, True, True, b"all/fields")
        report.same(f"all fields of an entry, version {version}", [fields], [tuple(e) for e in read])


def left_out_by_hand(empty: bytes, example: bytes, report: Report) -> None:
    """Two files with zeros in place of their checksums, and a made-up hash function that gives zeros."""
    zeros = bytes(20)
    answer = ("accepted", 2, 0, 12, None, None, "checksum left out")
    report.same("empty index, no checksum", answer, index_reader.check(empty[:12] + zeros))
    expected = run_listing.EXAMPLE.replace(b"version 2 entries 2\n", b"version 2 entries 2 checksum left out\n")
    report.same("listing example, no checksum", expected, index_reader.listing(example[:148] + zeros))
    for at in range(148, 168):
        wrong = bytearray(example[:148] + zeros)
        wrong[at] = 1
        report.same(f"listing example, byte {at} alone", b"refused 5 at 148\n", index_reader.listing(bytes(wrong)))
    matching = Kind(1, "zeros", 20, lambda _: types.SimpleNamespace(digest=lambda: zeros))
    report.same("a checksum that is zeros matches", answer[:-1], index_reader.check(empty[:12] + zeros, kind=matching))


def stages_by_hand(entry: bytes, report: Report) -> None:
    """The entry of the name a twice, at any two stages: the flags are its bytes 60 and 61."""
    for first, second in itertools.product(range(4), repeat=2):
        both = b"".join(entry[:60] + bytes([stage << 4, 1]) + entry[62:] for stage in (first, second))
        body = bytes.fromhex("44495243 00000002 00000002") + both
        good = (first, second) in ((1, 2), (1, 3), (2, 3))
        answer = ("accepted", 2, 2, 140, None, None) if good else ("refused", 11, 76)
        report.same(f"stages {first} and {second}", answer, index_reader.check(body + hashlib.sha1(body).digest()))


def hand_written_sha256(report: Report) -> None:
    """The same examples with SHA-256 names."""

    def check(body: bytes) -> tuple:
        return index_reader.check(body + hashlib.sha256(body).digest(), kind=SHA256)

    head = bytes.fromhex("44495243 00000002 00000000")
    report.same("SHA-256, empty index", ("accepted", 2, 0, 12, None, None), check(head))
    report.same("SHA-256, 43 bytes", ("refused", 1, 0), index_reader.check(bytes(43), kind=SHA256))
    report.same("SHA-256, wrong checksum", ("refused", 5, 12), index_reader.check(head + b"\1" * 32, kind=SHA256))
    left_out = ("accepted", 2, 0, 12, None, None, "checksum left out")
    report.same("SHA-256, no checksum", left_out, index_reader.check(head + bytes(32), kind=SHA256))
    report.same("SHA-256, 20 zeros", ("refused", 5, 12), index_reader.check(head + b"\1" * 12 + bytes(20), kind=SHA256))
    for count, word, length in ((5, b"", 80), (6, b"", 88), (3, bytes(2), 80), (4, bytes(2), 88)):
        flags = (0x4000 if word else 0) | count
        entry = bytes(24) + bytes.fromhex("000081a4") + bytes(12) + b"\x11" * 32
        entry += flags.to_bytes(2, "big") + word + b"n" * count
        body = bytes.fromhex("44495243 00000003 00000001") + entry + bytes(length - len(entry))
        report.same(f"SHA-256, entry of {length}", ("accepted", 3, 1, 12 + length, None, None), check(body))
    undo = b"plan\x00100644\x000\x00100644\x00" + b"\x44" * 32 + b"\x66" * 32
    report.same("SHA-256, resolve undo: length", 85, len(undo))
    report.same("SHA-256, resolve undo", ("accepted", 2, 0, 12, None, 1), check(head + b"REUC\0\0\0\x55" + undo))
    tree = b"\0000 0\n" + b"\x33" * 32
    report.same("SHA-256, cache tree", ("accepted", 2, 0, 12, 1, None), check(head + b"TREE\0\0\0\x25" + tree))


def git(report: Report) -> None:
    for kind in ALL:
        git_files.run(lambda data: index_reader.listing(data, kind=kind), report, kind)


# ---- wrong readings that the cases must notice


def edited(name: str, old: str, new: str):
    """A module of this folder with one edit."""
    with open(os.path.join(HERE, f"{name}.py"), encoding="utf-8") as stream:
        source = stream.read()
    if source.count(old) != 1:
        raise ValueError(f"the text stands {source.count(old)} times in {name}")
    module = types.ModuleType(f"edited_{name}")
    # Nodes below an invalid one are passed over by one of the edits.
    module.skip = lambda k, prefix: k + 1
    exec(compile(source.replace(old, new), module.__name__, "exec"), module.__dict__)
    return module


def is_noticed(report: Report, name: str, edit: tuple, differs) -> None:
    """Expects that a module with one edit differs."""
    what, old, new = edit
    try:
        module = edited(name, old, new)
    except ValueError as error:
        report.test(f"wrong reading: {what}", False, error)
        return
    report.test(f"wrong reading is noticed: {what}", differs(module))


def readings(report: Report) -> None:
    files = [(SHA1, case.data) for case in run_listing.vectors()]
    files += [(SHA1, file.data) for file in make_cases.cases()]
    files += [(SHA1, file.data) for seed in range(10) for file in make_files.drawn(seed)]
    files += [(SHA256, file.data) for file in make_files.every(range(1), kind=SHA256)]
    files.sort(key=lambda file: len(file[1]))
    cases = [(kind, data, index_reader.listing(data, kind=kind)) for kind, data in files]

    def differs(listing_of, kind: Kind, data: bytes, expected: bytes) -> bool:
        try:
            return listing_of(data, kind=kind) != expected
        except (ValueError, IndexError, TypeError):
            return True

    for edit in wrong_readings.EDITS:
        is_noticed(report, "index_reader", edit, lambda module: any(differs(module.listing, *case) for case in cases))


def versions(report: Report) -> None:
    rows = run_listing.rewritings()

    def differs(module) -> bool:
        return any(module.words(module.answer(row.data, row.asked, row.kind)) != row.answer for row in rows)

    for edit in wrong_readings.VERSIONS:
        is_noticed(report, "rewriting", edit, differs)


# ---- stand-in programs


def stand_ins(report: Report) -> None:
    """Runs run_listing.py on programs of a few lines: a right one passes, the others are noticed."""
    folder = tempfile.mkdtemp(prefix="stand-in-")
    reader = f"{shlex.quote(sys.executable)} -EsSB {shlex.quote(os.path.join(HERE, 'index_reader.py'))}"
    rows = (
        ("right", f"exec {reader}", "inputs", True),
        ("wrong-line", f"{reader} | sed 's/cache tree none/cache tree 0 nodes/'", "inputs", False),
        ("wrong-status", f"{reader}; exit 3", "inputs", False),
        ("wrong-error-output", f"{reader}; echo warning >&2", "inputs", False),
        ("one-answer", "cat >/dev/null; echo refused 5 at 12", "vectors", False),
        ("silent", "exit 0", "vectors", False),
    )
    try:
        for name, command, group, good in rows:
            path = os.path.join(folder, name)
            with open(path, "w", encoding="utf-8") as stream:
                stream.write(f"#!/bin/sh\n{command}\n")
            os.chmod(path, 0o755)
            expect_result(report, name, ["run_listing.py", path, "--only", group], good)
        expect_result(report, "missing program", ["run_listing.py", os.path.join(folder, "missing")], False)
        expect_result(report, "missing program, Git", ["git_files.py", os.path.join(folder, "missing")], False)
        expect_result(report, "one answer, Git", ["git_files.py", os.path.join(folder, "one-answer")], False)
    finally:
        shutil.rmtree(folder)


def edit_stand_ins(report: Report) -> None:
    """Programs that answer requests wrongly, or end wrongly after an answer, are noticed."""
    folder = tempfile.mkdtemp(prefix="stand-in-")
    wrong = (
        ("input-bytes", ECHO),
        ("one-answer", REFUSING),
        ("one-request", "sys.stdin.buffer.readline()\nsys.exit(1)\n"),
        ("silent", "pass\n"),
    )
    ends = (
        ("right end", "", True),
        ("wrong status", "sys.exit(3)\n", False),
        ("wrong error output", "print('warning', file=sys.stderr)\n", False),
        ("one answer too many", "print('refused 1 0')\n", False),
    )
    try:
        for name, code in wrong:
            expect_result(report, f"{name}, edits", ["git_edits.py", script(folder, code), "--only", "links"], False)
        expect_result(report, "missing program, edits", ["git_edits.py", os.path.join(folder, "missing")], False)
        for name, tail, good in ends:
            session, counted = edit_requests.Session(script(folder, ECHO + tail)), Report()
            report.same(f"{name}: answer", ("done", b"file"), session(edit_requests.Request("remove", b"file", 0, 9)))
            with contextlib.redirect_stdout(io.StringIO()):
                session.finish(counted)
            report.same(f"stand-in: {name}", good, counted.failed == 0)
    finally:
        shutil.rmtree(folder)


def script(folder: str, code: str) -> str:
    """A program of these lines."""
    descriptor, path = tempfile.mkstemp(dir=folder)
    with open(descriptor, "w", encoding="utf-8") as stream:
        stream.write(f"#!{sys.executable} -B\nimport sys\n{code}")
    os.chmod(path, 0o755)
    return path


def expect_result(report: Report, name: str, arguments: list, good: bool) -> None:
    command = [sys.executable, "-B", os.path.join(HERE, arguments[0]), *arguments[1:]]
    done = subprocess.run(command, stdin=subprocess.DEVNULL, capture_output=True, text=True, check=False)
    last = done.stdout.splitlines()[-1] if done.stdout else ""
    words = last.split(" ")
    shaped = len(words) == 4 and words[1] == "passed," and words[3] == "failed"
    passed, failed = (int(words[0]), int(words[2])) if shaped else (0, 0)
    as_expected = shaped and ((passed > 0 and failed == 0) if good else failed > 0)
    report.test(f"stand-in: {name}", as_expected and done.returncode == (0 if good else 1), last, done.stderr)


def main() -> int:
    report = Report()
    groups = (
        ("vectors", vectors),
        ("made files", made_files),
        ("hand-written bytes", hand_written),
        ("hand-written bytes, SHA-256", hand_written_sha256),
        ("Git", git),
        ("wrong readings", readings),
        ("wrong versions", versions),
        ("stand-in programs", stand_ins),
        ("stand-in programs of edits", edit_stand_ins),
        ("wrong assurance pages", wrong_pages.noticed),
    )
    for name, group in groups:
        before, start = report.passed + report.failed, time.monotonic()
        group(report)
        tests, seconds = report.passed + report.failed - before, time.monotonic() - start
        print(f"{name}: {tests} tests in {seconds:.1f} s", flush=True)
    return report.finish()


if __name__ == "__main__":
    sys.exit(main())
