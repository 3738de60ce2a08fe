"""Tests what the library is to programs in C: the header, the calls, and the examples that list and put.

    run_c.py PROGRAM [--only GROUP]

    header     compiles alone and included twice, in C and C++; its declarations and its layout are those of the others,
               and wrong declarations are noticed (wrong_declarations)
    calls      each call from C and C++ (calls.c)
    list       c/examples/list.c on the stored vectors, with and without their checksum, and on large files, against
               index_reader
    put        c/examples/put.c against PROGRAM, which answers the requests of edit_requests; refusals, locks and wrong
               use leave the index as it was; what is no sound index is not saved (save_bytes.c)

It needs gcc and g++, and the archive (see build_c). The last line is 'N passed, M failed', and the exit status
is 0 only where M is 0.
"""

import argparse
import os
import re
import shutil
import subprocess
import sys
import tempfile
import time
from typing import NamedTuple

import build_c
import declarations
import index_reader
import run_listing
import wrong_declarations
from edit_requests import Request, Session
from index_reader import FILE_LIMIT, Entry
from kinds import SHA1
from layout import *
from report import SECONDS, WIDTH, Program, Report

HERE = os.path.dirname(os.path.abspath(__file__))
STANDARDS = ("c99", "c11", "c++11", "c++17")
OBJECT = "ce013625030ba8dba906f756967f9e9ca394464a"
LOWEST = 1  # asked for: NERUPAZHIL_VERSION_LOWEST
ROOM = 20_000  # by how much a put makes an index longer at most, and more


class Done(NamedTuple):
    status: int
    out: bytes
    err: bytes


def run(*command: str, folder=None) -> Done:
    done = subprocess.run(command, capture_output=True, timeout=SECONDS, check=False, cwd=folder)
    return Done(done.returncode, done.stdout, done.stderr)


def load(path: str) -> bytes:
    with open(path, "rb") as stream:
        return stream.read()


def store(path: str, data: bytes) -> str:
    with open(path, "wb") as stream:
        stream.write(data)
    return path


def built(report: Report, name: str, make):
    """What `make` builds, or None. It is a test that it can be built."""
    try:
        result = make()
    except build_c.BuildFailed as failure:
        report.test(name, False, str(failure)[:2000])
        return None
    report.test(name, True)
    return result


# ---- the header


def header(report: Report, _folder: str, _session: Session) -> None:
    for standard in STANDARDS:
        for label, times in (("alone", 1), ("twice", 2)):
            source = build_c.write("header.c", '#include "nerupazhil.h"\n' * times + "typedef int some_type;\n")
            name = f"the header {label} in {standard}"
            built(report, name, lambda: build_c.build_object("header.o", source, standard))
    texts = declarations.texts()
    declared = {language: declarations.read(language, text) for language, text in texts.items()}
    same = report.same("the number of functions", 11, len(declared["Rattle"].functions))
    for left, right in (("Rattle", "Rust"), ("Rattle", "C"), ("Rust", "C")):
        for name, one, other in declarations.differences(declared[left], declared[right]):
            same &= report.same(f"{name} in {left} and {right}", one, other)
    if same:
        layouts(report, declared["Rattle"].functions, texts["C"])
        wrong_texts(report, texts, declared)


def layouts(report: Report, functions: dict, text: str) -> None:
    """Arrays of Rattle as the compilers of C and C++ see them: size, alignment, and the place of each number."""
    expected = array_lines(functions)
    source = build_c.write("layout.c", c_layout(functions, declarations.without_comments("C", text)))
    for standard in ("c11", "c++11"):
        path = built(report, f"layout in {standard}", lambda: build_c.build("layout", [source], standard))
        got = build_c.run(path).decode().splitlines() if path else []
        report.same(f"lines of the layout in {standard}", len(expected), len(got))
        for line, other in zip(expected, got):
            report.same(f"layout in {standard}", line, other)


def lent_arrays(functions: dict):
    """The arrays of numbers that functions of Rattle take: function, place among its parameters, width, count."""
    for name, (_, parameters) in functions.items():
        for place, (_, kind) in enumerate(parameters):
            array = re.fullmatch(r"\*\w+ \[u(32|64); (\d+)\]", kind)
            if array:
                yield name, place, int(array[1]) // 8, int(array[2])


def array_lines(functions: dict) -> list:
    lines = []
    for name, place, width, count in lent_arrays(functions):
        lines.append(f"{name} {place} {width * count} {width}")
        lines += [f"{name} {place} {width * k} {width}" for k in range(count)]
    return lines


def c_layout(functions: dict, text: str) -> str:
    """A program that prints the same lines for the structs of the header. It also has a pointer to each function, with
    the types that were read."""
    structs, spelled = declarations.structs_of(text), declarations.spelled(text)
    rows = ["#include <stdio.h>", '#include "nerupazhil.h"']
    rows += ["#ifndef __cplusplus", "#define alignof _Alignof", "#endif"]
    rows += [f"void (*the_{name})({', '.join(kinds)}) = {name};" for name, kinds in spelled.items()]
    rows += ["int main(void)", "{"]
    for name, place, _, _ in lent_arrays(functions):
        kind = spelled[name][place].removeprefix("const ").removesuffix(" *")
        rows.append(f'    printf("{name} {place} %zu %zu\\n", sizeof({kind}), alignof({kind}));')
        for number, _ in structs[kind.removeprefix("struct nerupazhil_")]:
            size = f"sizeof((({kind} *)0)->{number})"
            rows.append(f'    printf("{name} {place} %zu %zu\\n", offsetof({kind}, {number}), {size});')
    return "\n".join(rows) + "\n    return 0;\n}\n"


def wrong_texts(report: Report, texts: dict, declared: dict) -> None:
    """Wrong declarations are noticed: the comparison finds them, or the header does not compile."""
    report.test("the header as a source", compiles(texts["C"]))
    for language, text in texts.items():
        for what, wrong in wrong_declarations.edits(language, text):
            noticed = is_other(language, wrong, declared) or (language == "C" and not compiles(wrong))
            report.test(f"wrong declaration in {language}, {what}: noticed", noticed and wrong != text)


def is_other(language: str, text: str, declared: dict) -> bool:
    read = {**declared, language: declarations.read(language, text)}
    rows = declarations.differences(read["Rattle" if language == "Rattle" else "Rust"], read["C"])
    return any(one != other for _, one, other in rows)


def compiles(header_text: str) -> bool:
    """Whether a header compiles in one of three languages: it asserts in each in another way."""
    source = build_c.write("wrong_header.c", header_text)
    for standard in ("c99", "c11", "c++11"):
        try:
            build_c.build_object("wrong_header.o", source, standard)
            return True
        except build_c.BuildFailed:
            pass
    return False


# ---- the calls


def calls(report: Report, _folder: str, _session: Session) -> None:
    """Runs calls.c, which counts its own tests, in C and C++."""
    sources = [os.path.join(HERE, "calls.c")]
    for standard in ("c99", "c++11"):
        path = built(report, f"calls in {standard}", lambda: build_c.build("calls", sources, standard))
        done = run(path) if path else Done(1, b"", b"")
        counted = re.search(rb"(\d+) passed, (\d+) failed\n$", done.out)
        report.test(f"calls in {standard} ends well", done.status == 0 and counted is not None, done)
        if counted:
            report.passed += int(counted.group(1))
            report.failed += int(counted.group(2))


# ---- list


def listed(report: Report, name: str, program: str, path: str, data: bytes) -> bytes:
    """Lists a file and compares with index_reader: output, exit status and standard error."""
    expected = index_reader.listing(data, FILE_LIMIT)
    refused = re.fullmatch(rb"(refused \d+ at \d+)\n", expected)
    done = run(program, path)
    report.same(f"{name}: listing", expected, done.out)
    report.same(f"{name}: status", 1 if refused else 0, done.status)
    if refused:
        told = b"list: %s: %s: " % (os.fsencode(path), refused.group(1))
        report.test(f"{name}: what is told", done.err.startswith(told) and len(done.err) > len(told) + 10, done.err)
    else:
        report.same(f"{name}: nothing told", b"", done.err)
    return done.out


def list_files(report: Report, folder: str, _session: Session) -> None:
    built(report, "list.c in C11", lambda: build_c.build_example("list", "c11"))
    program = built(report, "list.c", lambda: build_c.build_example("list"))
    if program is None:
        return
    list_vectors(report, program)
    list_left_out(report, program, folder)
    for name, data in large_files():
        listed(report, name, program, store(os.path.join(folder, name), data), data)
    list_failures(report, program, folder)


def list_vectors(report: Report, program: str) -> None:
    for case in run_listing.vectors():
        out = listed(report, case.name, program, os.path.join(run_listing.VECTORS, case.name), case.data)
        wrong = run_listing.problem(case, lambda _: out)
        report.test(f"{case.name}: against the stored answer", wrong is None, *(wrong or ()))


def list_left_out(report: Report, program: str, folder: str) -> None:
    """The vectors that are accepted, with their checksum and with zeros in its place: only the first line differs."""
    for case in run_listing.vectors():
        if case.answer[0] == "accepted":
            signed, zeros = with_checksum(case.data[: -SHA1.width]), SHA1.zeroed(case.data)
            paths = [os.path.join(folder, name) for name in ("signed", "zeros")]
            before = run(program, store(paths[0], signed)).out
            out = listed(report, f"{case.name}, no checksum", program, store(paths[1], zeros), zeros)
            expected_lines = before.replace(b"\n", b" checksum left out\n", 1)
            report.same(f"{case.name}, no checksum: only the first line differs", expected_lines, out)


def list_failures(report: Report, program: str, folder: str) -> None:
    rows = [(2, (), b"usage: list INDEX"), (2, ("a", "b"), b"usage: list INDEX")]
    rows += [(1, (path,), os.fsencode(path)) for path in (os.path.join(folder, "none"), folder)]
    for status, arguments, told in rows:
        done = run(program, *arguments)
        good = done.status == status and done.out == b"" and told in done.err
        report.test(f"list with {len(arguments)} arguments", good, done)
    with open("/dev/full", "wb") as full:
        path = os.path.join(run_listing.VECTORS, "real/v2-committed.index")
        done = subprocess.run([program, path], stdout=full, stderr=subprocess.PIPE, check=False)
        report.test("list to a full disk", done.returncode == 1 and b"standard output" in done.stderr, done)


def large_files():
    """Files of sizes that the listing program does not take, and of lengths at the limits."""
    yield "nothing", b""
    yield "31-bytes", bytes(31)
    names = sorted(b"%s/%05d" % (b"folder" * (k % 9), k) for k in range(9, 5009) if k % 9)
    for version in (2, 3, 4):
        records = [Record(name, skip_worktree=version == 3 and name[-1] == 49) for name in names]
        yield f"many-{version}", Plan(version, records, whole_tree(names)).made("").data
    yield "filled-2", filled(2, FILE_LIMIT)
    yield "filled-4", filled(4, FILE_LIMIT)
    yield "too-long", filled(2, FILE_LIMIT + 1)


def filled(version: int, length: int) -> bytes:
    """A file of this length, with three entries and an invalid node that has a very long name. Of version 4, it would
    be longer in another version, since the names have much in common."""
    records = [Record(b"n" * 8000 + end) for end in (b"", b"\n\\\x7f\xff", b"1")]
    tree = Tree(b"", -1, [Tree(b"", -1)])
    short = len(with_checksum(compose(version, records, [Extension(b"TREE", compose_tree(tree))]).body))
    tree.children[0].name = b"x" * (length - short)
    return with_checksum(compose(version, records, [Extension(b"TREE", compose_tree(tree))]).body)


# ---- put


class Index:
    """An index in a folder of its own, and a program that puts records into it."""

    def __init__(self, program: str, folder: str, data: bytes):
        self.program = program
        self.folder = tempfile.mkdtemp(dir=folder)
        self.path = store(os.path.join(self.folder, "index"), data)
        self.data = data

    def put(self, name, mode="100644", stage=None, object_name=OBJECT, path=None, folder=None) -> Done:
        arguments = (path or self.path, mode, object_name, name) + (() if stage is None else (stage,))
        return run(self.program, *arguments, folder=folder)

    def untouched(self) -> bool:
        """Whether the index is as it was and nothing else stands beside it."""
        return os.listdir(self.folder) == [os.path.basename(self.path)] and load(self.path) == self.data


def new_entry(name: bytes, mode: int = REGULAR, stage: int = 0) -> Entry:
    """The record that put makes."""
    return Entry(0, 0, 0, 0, 0, 0, mode, 0, 0, 0, bytes.fromhex(OBJECT), False, stage, False, False, name)


def expected(session: Session, data: bytes, asked: int, entry: Entry) -> bytes:
    """The file that a put writes."""
    answer = session(Request("put", data, asked, 2 * len(data) + ROOM, entry))
    return answer[1] if answer[0] == "done" else b""


def put_files(report: Report, folder: str, session: Session) -> None:
    built(report, "put.c in C11", lambda: build_c.build_example("put", "c11"))
    program = built(report, "put.c", lambda: build_c.build_example("put"))
    if program is None:
        return
    put_vectors(report, program, folder, session)
    data = Plan(2, [Record(b"a"), Record(b"b/c")], whole_tree([b"a", b"b/c"])).made("").data
    for tests in (unguarded, refusals, wrong_use, no_index, locks, permissions, together):
        tests(report, lambda: Index(program, folder, data))
    links(report, Index(program, folder, data), session)
    unsound(report, folder, data)
    conflict = Plan(2, [Record(b"a", stage=1), Record(b"a", stage=3), Record(b"b")]).made("").data
    conflicts(report, Index(program, folder, conflict), session)
    index = Index(program, folder, filled(4, FILE_LIMIT))
    refused(report, "a result that is too long", index, 2, name="a")
    refused(report, "the same, a stage beside stage 0", index, 11, name="n" * 8000, stage="1")


def put_vectors(report: Report, program: str, folder: str, session: Session) -> None:
    for case in run_listing.vectors():
        index = Index(program, folder, case.data)
        if case.answer[0] == "accepted":
            put_records(report, case.name, index, session)
        else:
            done = index.put("some/name")
            told = b"put: %s: refused %d at %d: " % (os.fsencode(index.path), *case.answer[1:])
            report.test(f"{case.name}: put is refused", done.status == 1 and done.err.startswith(told), done)
            report.test(f"{case.name}: left as it was", index.untouched())
        shutil.rmtree(index.folder)


def put_records(report: Report, name: str, index: Index, session: Session) -> None:
    """Puts records one after another and compares the file with the expected one: new ones, one in place of another, a
    conflict, and names that a command line can hold but a listing escapes. Then a stage that the last one forbids."""
    read = index_reader.read(index.data)
    asked = 4 if read.version == 4 else LOWEST
    rows = [new_entry(b"!first"), new_entry(b"saw/cut.txt", EXECUTABLE), new_entry(b"saw/both.txt", LINK, 2)]
    rows += [new_entry(b"saw/both.txt", REGULAR, 1), new_entry(b"\xff\n\\", GITLINK)]
    rows += [new_entry(entry.name, REGULAR, entry.stage) for entry in read.entries[:1]]
    data = index.data
    for entry in rows:
        done = index.put(entry.name, f"{entry.mode:o}", str(entry.stage))
        data = expected(session, data, asked, entry)
        report.same(f"{name}: put of {entry.name[:WIDTH]!r}", Done(0, b"", b""), done)
        report.same(f"{name}: the file after it", data, load(index.path))
    out = run(build_c.path_of("list"), index.path).out
    report.same(f"{name}: listed after the puts", index_reader.listing(data, FILE_LIMIT), out)
    index.data = data
    report.test(f"{name}: nothing beside the index", index.untouched())
    other = "2" if rows[-1].stage == 0 else "0"
    refused(report, f"{name}: stage {other} beside another", index, 11, name=rows[-1].name, stage=other)


def unguarded(report: Report, make) -> None:
    """An index whose checksum was left out is taken, and has one afterwards."""
    index, signed = make(), make()
    store(index.path, SHA1.zeroed(index.data))
    for one in (index, signed):
        report.same("put, no checksum", Done(0, b"", b""), one.put("saw/cut.txt"))
    new = load(index.path)
    report.same("put, no checksum: the file is that with one", load(signed.path), new)
    report.same("put, no checksum: one afterwards", with_checksum(new[: -SHA1.width]), new)


def refused(report: Report, label: str, index: Index, number: int, **record) -> None:
    """A record that the library refuses: this is told with a sentence, and the index stays as it was."""
    done = index.put(**record)
    told = b"put: %s: refused %d at 0: " % (os.fsencode(index.path), number)
    good = done.status == 1 and done.out == b"" and done.err.startswith(told) and len(done.err) > len(told) + 10
    report.test(label, good and index.untouched(), done)


def refusals(report: Report, make) -> None:
    index = make()
    rows = [(7, {"mode": "100600"}), (7, {"mode": "0"}), (7, {"mode": "37777777777"}), (8, {"stage": "4"})]
    rows += [(8, {"stage": "4294967295"})]
    rows += [(9, {"name": name}) for name in ("", "/a", "a/", "a//b", "a/../b", ".git", "a/.git/b", "n" * 8193)]
    rows += [(11, {"stage": stage}) for stage in "123"]
    for number, changes in rows:
        refused(report, f"put is refused: {str(changes)[:WIDTH]}", index, number, **{"name": "a", **changes})


def conflicts(report: Report, index: Index, session: Session) -> None:
    """Stages that are put into an index where a path is in conflict and another is not."""
    refused(report, "stage 0 beside a conflict", index, 11, name="a")
    refused(report, "a stage of a conflict beside stage 0", index, 11, name="b", stage="2")
    refused(report, "a wrong mode, before the stages", index, 7, name="a", mode="100600")
    refused(report, "a wrong stage, before the stages", index, 8, name="b", stage="4")
    for name, stage in ((b"a", 1), (b"a", 2), (b"b", 0)):
        index.data = expected(session, index.data, LOWEST, new_entry(name, REGULAR, stage))
        report.same(f"put of {name!r} at stage {stage}", Done(0, b"", b""), index.put(name, stage=str(stage)))
        report.test("the file after it", index.untouched(), load(index.path))


def wrong_use(report: Report, make) -> None:
    index = make()
    usage = b"usage: put INDEX MODE OBJECT NAME [STAGE]\n"
    rows = [{"mode": mode} for mode in ("", "8", "100648", "-1", "+1", " 1", "0x1", "40000000000", "100644 ")]
    rows += [{"object_name": text} for text in ("", OBJECT[1:], OBJECT + "0", "g" + OBJECT[1:], " " + OBJECT[1:])]
    rows += [{"stage": text} for text in ("", "x", "-1", "1 ", "4294967296")]
    for changes in rows:
        done = index.put(**{"name": "a", **changes})
        good = done.status == 2 and done.out == b"" and done.err.endswith(usage) and len(done.err) > len(usage)
        report.test(f"put, wrong use: {changes}", good and index.untouched(), done)
    for arguments in ((), (index.path,), (index.path, "100644", OBJECT), (index.path, "100644", OBJECT, "a", "0", "0")):
        done = run(index.program, *arguments)
        good = done.status == 2 and done.err.endswith(usage) and index.untouched()
        report.test(f"put, {len(arguments)} arguments", good, done)


def no_index(report: Report, make) -> None:
    """Paths of no file and of a folder; and one without a folder in it."""
    index = make()
    done = index.put("a", path=index.path + "-none")
    good = done.status == 1 and b"No such file" in done.err and index.untouched()
    report.test("put, no such index", good, done)
    done = index.put("a", path=index.folder)
    report.test("put, a folder", done.status == 1 and b"directory" in done.err and index.untouched(), done)
    report.test("put, no lock of a folder", not os.path.exists(index.folder + ".lock"))
    done = index.put("a", object_name=OBJECT.upper(), path="index", folder=index.folder)
    report.test("put, from the folder itself and with upper-case digits", done == Done(0, b"", b""), done)


def unsound(report: Report, folder: str, data: bytes) -> None:
    """The save itself refuses bytes that are no sound index, cut or with a bit turned, or that have no checksum."""
    sources = [os.path.join(build_c.EXAMPLES, part) for part in ("save.c", "index_file.c")]
    sources.append(os.path.join(HERE, "save_bytes.c"))
    program = built(report, "save_bytes.c", lambda: build_c.build("save_bytes", sources))
    if program is None:
        return
    wrong = [data[:length] for length in range(0, len(data), 13)]
    wrong += [data[:at] + bytes([data[at] ^ 1]) + data[at + 1 :] for at in range(0, len(data), 13)]
    for number, new in enumerate(wrong):
        index = Index(program, folder, data)
        done = run(program, index.path, store(os.path.join(folder, "new"), new))
        told = b"refused %d at %d: " % index_reader.check(new)[1:]
        good = done.status == 1 and told in done.out and index.untouched()
        report.test(f"unsound bytes {number} are not saved", good, done)
    index = Index(program, folder, data)
    done = run(program, index.path, store(os.path.join(folder, "new"), SHA1.zeroed(data)))
    good = done.status == 1 and b"checksum of the new index was left out" in done.out and index.untouched()
    report.test("bytes without a checksum are not saved", good, done)
    other = Plan(4, [Record(b"other")]).made("").data
    index = Index(program, folder, data)
    done = run(program, index.path, store(os.path.join(folder, "new"), other))
    saved = (done.status, load(index.path), os.listdir(index.folder))
    report.same("sound bytes are saved", (0, other, ["index"]), saved)


def locks(report: Report, make) -> None:
    """A lock that is there already stays, whatever it is, and the message says what to do."""
    index = make()
    lock = index.path + ".lock"
    os.chmod(index.path, 0o640)
    for label, data in (("empty", b""), ("with bytes", b"of another program")):
        store(lock, data)
        done = index.put("a")
        good = done.status == 1 and os.fsencode(lock) in done.err and b"remove" in done.err
        report.test(f"a lock, {label}: told", good, done)
        report.same(f"a lock, {label}: lock and index stay", (data, index.data), (load(lock), load(index.path)))
        os.remove(lock)
    os.symlink("nowhere", lock)
    done = index.put("a")
    good = done.status == 1 and os.path.islink(lock) and sorted(os.listdir(index.folder)) == ["index", "index.lock"]
    report.test("a lock that is a dangling link stays and is not followed", good, done)
    os.remove(lock)
    report.same("without the lock", Done(0, b"", b""), index.put("a"))
    report.test("the lock is given back", os.listdir(index.folder) == ["index"])


def links(report: Report, index: Index, session: Session) -> None:
    """The file behind a symbolic link is replaced, and the link stays."""
    link = os.path.join(tempfile.mkdtemp(dir=os.path.dirname(index.folder)), "link")
    os.symlink(index.path, link)
    store(index.path + ".lock", b"")
    done = index.put("a", path=link)
    good = done.status == 1 and os.fsencode(index.path + ".lock") in done.err
    report.test("the lock of the file behind a link", good, done)
    os.remove(index.path + ".lock")
    done = index.put("a", path=link)
    report.test("put through a link", done == Done(0, b"", b"") and os.readlink(link) == index.path, done)
    report.same("the file behind the link", expected(session, index.data, LOWEST, new_entry(b"a")), load(index.path))
    report.same("nothing beside the link", ["link"], os.listdir(os.path.dirname(link)))


def permissions(report: Report, make) -> None:
    before = os.umask(0o027)
    for mode in (0o600, 0o644, 0o664, 0o666, 0o640, 0o444):
        index = make()
        os.chmod(index.path, mode)
        done = index.put("a")
        report.same(f"permission bits {mode:o}", (0, mode), (done.status, os.stat(index.path).st_mode & 0o7777))
    os.umask(before)


def together(report: Report, make) -> None:
    """Programs that put at the same time: each record that was reported as put is there, and no other."""
    index = make()
    names = [f"together/{k}" for k in range(24)]
    command = [index.program, index.path, "100644", OBJECT]
    children = [subprocess.Popen([*command, name], stderr=subprocess.PIPE) for name in names]
    errors = [child.communicate()[1] for child in children]
    done = {name for name, child in zip(names, children) if child.returncode == 0}
    told = all(child.returncode == 0 or b".lock" in error for child, error in zip(children, errors))
    report.test("of programs at the same time some put, and the others tell of the lock", done and told, *errors)
    found = {entry.name.decode() for entry in index_reader.entries(load(index.path))}
    report.same("each record that was put is there", {"a", "b/c"} | done, found)
    report.same("and no lock", ["index"], os.listdir(index.folder))


# ---- the program

GROUPS = {"header": header, "calls": calls, "list": list_files, "put": put_files}


def main() -> int:
    parser = argparse.ArgumentParser(description="Test the header and the examples for C.")
    parser.add_argument("program", help="a program that answers the requests of edit_requests")
    parser.add_argument("--only", choices=GROUPS, help="run one group of tests")
    options = parser.parse_args()
    report = Report()
    program = Program(options.program)
    there = report.test("the archive is there", os.path.isfile(build_c.archive()), build_c.archive())
    if not there or not program.usable(report):
        return report.finish()
    session = Session(program.path)
    with tempfile.TemporaryDirectory() as folder:
        for name, group in GROUPS.items():
            if options.only in (None, name):
                before, start = report.passed + report.failed, time.monotonic()
                group(report, folder, session)
                tests, seconds = report.passed + report.failed - before, time.monotonic() - start
                print(f"{name}: {tests} tests in {seconds:.1f} s", flush=True)
    session.finish(report)
    return report.finish()


if __name__ == "__main__":
    sys.exit(main())
