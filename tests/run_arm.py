"""Tests the library for AArch64, under the emulator qemu-aarch64, and holds it against the one for x86-64.

    run_arm.py PROGRAM [--only GROUP]

    archives   what ./archives has made: exports, what is needed, machine, register x18; targets that it refuses
    programs   calls.c; c/examples/list.c on the stored vectors; c/examples/put.c
    answers    every call on the vectors, the made files, many of these without a checksum, and files with deep trees:
               replies, fields, object names, workspaces and outputs are the same, byte for byte (answers.c); a wrong
               bit is noticed
    stack      every call in threads with as little stack as the header promises (stack.c)

PROGRAM is the harness's stack_files, which writes files with deep trees. It needs gcc and qemu-user for AArch64, and
what './archives aarch64-linux-android21' makes (see build_c). The last line is 'N passed, M failed', and the exit status
is 0 only where M is 0.
"""

import argparse
import os
import re
import shutil
import signal
import sys
import tempfile
import time
from concurrent.futures import ThreadPoolExecutor
from pathlib import Path
from typing import NamedTuple

import build_c
import make_files
import processors
import run_listing
from kinds import ALL, SHA1
from processors import OTHER, OURS, PROCESSORS, File, run, source, stream
from report import Program, Report

ROOT = build_c.ROOT
CROSS = "aarch64-linux-gnu-"
OURS_FOLDER, OTHER_FOLDER, ANDROID = "x86_64-linux", "aarch64-linux", "aarch64-linux-android21"  # of the archives
OBJECT = "ce013625030ba8dba906f756967f9e9ca394464a"


class Given(NamedTuple):
    """What the groups are given: a folder for files, and the files that take most stack."""

    folder: str
    deep: list


def built(report: Report, name: str, sources: list):
    """The commands that run a program for each processor, or None. It is a test that it can be built."""
    try:
        commands = processors.build(name, sources)
    except build_c.BuildFailed as failure:
        report.test(f"{name} is built", False, str(failure)[:2000])
        return None
    report.test(f"{name} is built", True)
    return commands


# ---- the archives


def archive(folder: str) -> str:
    """An archive that ./archives has made, by the folder's name."""
    folders = os.path.dirname(os.path.dirname(build_c.archive(OTHER)))
    return os.path.join(folders, folder, "libnerupazhil.a")


def load(path: str) -> bytes:
    with open(path, "rb") as data:
        return data.read()


def exported() -> list:
    """The functions that the crate nerupazhil_c exports."""
    text = load(os.path.join(ROOT, "crates", "nerupazhil_c", "src", "lib.rt")).decode()
    return sorted(re.findall(r'^pub extern "C" fn (\w+)', text, re.MULTILINE))


def symbols(folder: str, *options: str) -> list:
    """The names that nm prints, sorted."""
    lines = build_c.run(CROSS + "nm", "--format=just-symbols", *options, archive(folder)).decode().splitlines()
    return sorted(line for line in lines if line and not line.endswith(":"))


def archives(report: Report, given: Given) -> None:
    report.same("the archive for x86-64 is rt's", load(build_c.archive()), load(archive(OURS_FOLDER)))
    report.test("eleven functions are exported", len(exported()) == 11, exported())
    machines = {OURS_FOLDER: "Advanced Micro Devices X86-64", OTHER_FOLDER: "AArch64", ANDROID: "AArch64"}
    for folder, machine in machines.items():
        header = build_c.run(CROSS + "readelf", "-h", archive(folder)).decode()
        for name, value in (("Machine", machine), ("Class", "ELF64"), ("Data", "2's complement, little endian")):
            report.same(f"{folder}: {name}", [value], re.findall(rf"{name}: +(.*)", header))
        report.same(f"{folder}: exports", exported(), symbols(folder, "--defined-only", "--extern-only"))
        report.same(f"{folder}: what is needed", ["memcpy", "memset"], symbols(folder, "--undefined-only"))
    for folder in (OTHER_FOLDER, ANDROID):
        registers(report, folder)
        position_independent(report, folder, os.path.join(given.folder, "library.so"))
    # So what is run here of the one is true of the other.
    report.same("the code for Linux and for Android", code(OTHER_FOLDER), code(ANDROID))
    refusals(report)


def code(folder: str) -> bytes:
    """The instructions of an archive, without its name."""
    text = build_c.run(CROSS + "objdump", "-d", "-r", archive(folder))
    return text[text.index(b"Disassembly") :]


def registers(report: Report, folder: str) -> None:
    """Android keeps register x18 for itself."""
    text = code(folder).decode()
    report.test(f"{folder}: the code can be read", len(re.findall(r"\b[xw]19\b", text)) > 100)
    report.same(f"{folder}: register x18 is left alone", [], re.findall(r".*\b[xw]18\b.*", text)[:3])


def position_independent(report: Report, folder: str, path: str) -> None:
    """The archive can be a part of a library that is loaded anywhere, as an app for Android has it."""
    whole = ("-Wl,--whole-archive", archive(folder), "-Wl,--no-whole-archive")
    try:
        build_c.run(CROSS + "gcc", "-shared", "-Wl,-z,text", "-Wl,--fatal-warnings", *whole, "-o", path)
    except build_c.BuildFailed as failure:
        report.test(f"{folder}: a shared library", False, str(failure)[:2000])
        return
    lines = build_c.run(CROSS + "nm", "--dynamic", "--defined-only", path).decode().splitlines()
    report.same(f"{folder}: a shared library", exported(), sorted(line.split()[-1] for line in lines))


REFUSED = {
    "does not fit the module, whose pointers have 64 bits": (
        "armv7a-linux-androideabi21",
        "i686-linux-gnu",
        "x86_64-linux-gnux32",
    ),
    "does not fit the module, whose numbers have the low byte first": (
        "aarch64_be-linux-gnu",
        "powerpc64-linux-gnu",
        "s390x-linux-gnu",
    ),
    "is neither Linux nor Android, and what is made for it could not be linked here": (
        "arm64-apple-ios13.0",
        "x86_64-pc-windows-msvc",
        "wasm64",
    ),
}


def refusals(report: Report) -> None:
    """Targets that ./archives refuses before it proves anything; what was made before stays."""
    rows = [(target, f"{target} {told}") for told, targets in REFUSED.items() for target in targets]
    rows += [("powerpc64le-linux-gnu", "powerpc64le-linux-gnu: the kit's clang makes no code for this processor")]
    rows += [("no-such-target", "no-such-target: the kit's clang does not know this target")]
    for name in ("", "../x86_64-linux", "--help", "a b"):
        rows.append((name, f"'{name}' is not the name of a target; usage: archives [TRIPLE...]"))
    folders = (OURS_FOLDER, OTHER_FOLDER, ANDROID)
    before = [load(archive(folder)) for folder in folders]
    for target, told in rows:
        done = run([os.path.join(ROOT, "archives")], ANDROID, target)
        report.same(f"archives {target}", (2, b"", f"archives: {told}\n".encode()), tuple(done))
    report.test("the archives stay", before == [load(archive(folder)) for folder in folders])


# ---- the programs


def programs(report: Report, given: Given) -> None:
    calls(report)
    list_vectors(report, given.folder)
    put_records(report, given.folder)


def calls(report: Report) -> None:
    """calls.c counts its own tests."""
    commands = built(report, "calls", source("calls.c"))
    if commands is None:
        return
    done = run(commands[OTHER])
    counted = re.search(rb"(\d+) passed, 0 failed\n$", done.out)
    report.test("calls.c on AArch64", done.status == 0 and counted is not None, done)
    report.same("calls.c on both", tuple(run(commands[OURS])), tuple(done))


def list_vectors(report: Report, folder: str) -> None:
    commands = built(report, "list", build_c.example_sources("list"))
    if commands is None:
        return
    path = os.path.join(folder, "listed")
    for name, data in listed_files():
        Path(path).write_bytes(data)
        ours, other = (run(commands[processor], path) for processor in PROCESSORS)
        report.same(f"list {name}", ours.out, other.out)
        report.same(f"list {name}: the rest", (ours.status, ours.err), (other.status, other.err))


def listed_files():
    """The vectors, and those that are accepted without their checksum too."""
    for case in run_listing.vectors():
        yield case.name, case.data
        if case.answer[0] == "accepted":
            yield f"{case.name}, no checksum", SHA1.zeroed(case.data)


# To be put one after the other: the last four are refused, by the library and by the program.
RECORDS = (
    ("100644", OBJECT, "new/in/folder"),
    ("100755", OBJECT, "a"),
    ("120000", OBJECT, "new/in/folder"),
    ("160000", OBJECT, "conflict", "2"),
    ("100644", OBJECT, "conflict"),
    ("100644", OBJECT, ".git"),
    ("100600", OBJECT, "a"),
    ("100644", OBJECT),
)
# All but the last are sound.
INDEXES = (
    "real/empty",
    "real/v2-committed",
    "real/v4-committed",
    "real/v2-conflict",
    "real/v4-extended",
    "real/v4-resolve-undo",
    "real/deep-127",
    "made/damaged-7000-33",
)


def indexes() -> list:
    """The indexes to put records into, by name; of the last one the checksum was left out."""
    rows = [(name, load(os.path.join(run_listing.VECTORS, f"{name}.index"))) for name in INDEXES]
    return rows + [("no checksum", SHA1.zeroed(rows[1][1]))]


def contents(folder: str) -> dict:
    """The files of a folder."""
    return {name: load(os.path.join(folder, name)) for name in os.listdir(folder)}


def put_record(command: list, folder: str, record: tuple) -> tuple:
    """Puts a record into the index of a folder, whose path is left out of what is told."""
    done = run(command, "index", *record, folder=folder)
    return (done.status, done.out, done.err.replace(os.fsencode(folder), b""))


def put_records(report: Report, folder: str) -> None:
    """Puts the same records, one after the other, into the same index in two folders."""
    commands = built(report, "put", build_c.example_sources("put"))
    if commands is None:
        return
    done = 0
    for name, data in indexes():
        paths = {processor: tempfile.mkdtemp(dir=folder) for processor in PROCESSORS}
        for path in paths.values():
            Path(path, "index").write_bytes(data)
        for record in RECORDS:
            ours, other = (put_record(commands[one], paths[one], record) for one in PROCESSORS)
            report.same(f"put {record} into {name}", ours, other)
            done += ours[0] == 0
            left, right = (contents(paths[one]) for one in PROCESSORS)
            report.test(f"the index after put {record} into {name}", left == right and list(left) == ["index"])
    report.same("records that are put", 4 * (len(indexes()) - 1), done)


# ---- the answers of every call


def answers(report: Report, given: Given) -> None:
    commands = built(report, "answers", source("answers.c"))
    if commands is None:
        return
    vectors = [File(case.name, SHA1, case.data) for case in run_listing.vectors()]
    made = made_files()
    zeros = left_out(vectors + made[::50])
    # A search on each of many levels takes seconds a call under the emulator.
    slow = re.compile(r"searches on all levels to (64|128)")
    deep = [file for file in given.deep if not slow.match(file.name)]
    report.test("files of every kind", len(vectors) > 100 and len(made) > 5000 and len(deep) > 50)
    notice(report, commands, vectors)
    tell_left_out(report, commands, zeros)
    files = vectors + made + zeros
    blocks = [deep[k::8] for k in range(8)] + [files[k : k + 400] for k in range(0, len(files), 400)]
    with ThreadPoolExecutor(os.cpu_count()) as pool:
        for block, outs in zip(blocks, pool.map(lambda block: both(commands, block), blocks)):
            compare(report, block, *outs)


def made_files() -> list:
    """Made files of each kind of object names. The emulator is slow: the kinds share the seeds."""
    files = []
    for kind, seeds in zip(ALL, ("0-29", "30-59")):
        every = make_files.every(make_files.seed_range(seeds), kind=kind)
        files += [File(f"{kind.name}: {file.name}", kind, file.data) for file in every]
    return files


def left_out(files: list) -> list:
    """These files with zeros in place of the checksum, where they are long enough to have one."""
    long = [file for file in files if len(file.data) >= 12 + file.kind.width]
    return [File(f"{file.name}, no checksum", file.kind, file.kind.zeroed(file.data)) for file in long]


def tell_left_out(report: Report, commands: dict, files: list) -> None:
    """Check refuses no file without a checksum with 5; where it accepts one, number 9 of its reply is 1."""
    parts = re.findall(rb"^file .*\ncheck .*? = (.*?) work", run(commands[OURS], data=stream(files)).out, re.MULTILINE)
    numbers = [[int(number, 16) for number in part.split()[:16]] for part in parts]
    report.same("files without a checksum", len(files), len(numbers))
    report.test("none is refused with 5", all(row[0] != 5 for row in numbers))
    for kind in ALL:
        rows = [row[9] for file, row in zip(files, numbers) if file.kind == kind and row[0] == 0]
        report.test(f"{kind.name}: check says that it was left out", len(rows) > 20 and set(rows) == {1}, len(rows))


def both(commands: dict, files: list) -> list:
    """What answers.c prints for some files on each processor."""
    data = stream(files)
    return [run(commands[processor], data=data) for processor in PROCESSORS]


def compare(report: Report, files: list, ours, other) -> None:
    """A test for each file: the lines for it are the same."""
    parts = [re.split(rb"^file ", done.out, flags=re.MULTILINE)[1:] for done in (ours, other)]
    whole = [done.status == 0 and done.err == b"" for done in (ours, other)]
    counts = {len(files), *map(len, parts)}
    if not report.test("answers of all files", all(whole) and len(counts) == 1, counts, ours.err, other.err):
        return
    for file, left, right in zip(files, *parts):
        report.same(f"answers on {file.name}", left, right)


def notice(report: Report, commands: dict, vectors: list) -> None:
    """One wrong bit in what a call gives is noticed, whatever it is a part of; and the lines have each call."""
    files = stream(file for file in vectors if file.name in ("real/v2-resolve-undo.index", "real/v4-committed.index"))
    right = run(commands[OURS], data=files)
    called = {line.split(b" ")[0].decode() for line in right.out.splitlines()}
    missing = {name.replace("nerupazhil_", "") for name in exported()} - called
    report.same("calls that answers.c does not make", set(), missing)
    report.same("answers before a change", right.out, run(commands[OTHER], data=files).out)
    for part in ("reply", "fields", "object", "work", "output", "guard"):
        wrong = run(commands[OTHER], part, data=files)
        differ = sum(a != b for a, b in zip(right.out.splitlines(), wrong.out.splitlines()))
        report.same(f"lines that differ after a change of {part}", (0, 1), (wrong.status, differ))


# ---- stack


LITTLE, SHALLOW = 32, 16  # KiB of a thread for trees of at most so many levels
ENOUGH = 64  # KiB of a thread for every tree


def stack(report: Report, given: Given) -> None:
    commands = built(report, "stack", source("stack.c"))
    if commands is None:
        return
    shallow = [file for file in given.deep if file.levels <= SHALLOW]
    deep = [file for file in given.deep if file.levels > SHALLOW]
    report.test("files of every depth", len(shallow) > 50 and {file.levels for file in deep} == {32, 64, 128})
    tasks = [(LITTLE, shallow[k::4]) for k in range(4)] + [(ENOUGH, deep[k::4]) for k in range(4)]
    with ThreadPoolExecutor(os.cpu_count()) as pool:
        for (kib, files), done in zip(tasks, pool.map(lambda task: threads(commands[OTHER], *task), tasks)):
            in_thread(report, kib, files, done)
    too_little(report, commands, [file for file in deep if file.levels == 128][:1])


def threads(command: list, kib: int, files: list):
    """Makes all calls on each file in a thread with so much stack."""
    return run(command, str(kib), data=stream(files))


def in_thread(report: Report, kib: int, files: list, done) -> None:
    """A line for each file, whose first number is the refusal of check."""
    lines = done.out.decode().splitlines()
    report.test(f"threads with {kib} KiB", done.status == 0 and len(lines) == len(files), done.status, done.err)
    for k, file in enumerate(files):
        line = lines[k] if k < len(lines) else "nothing"
        report.test(f"a thread with {kib} KiB, {file.name}", line.startswith("0 "), line)


def too_little(report: Report, commands: dict, files: list) -> None:
    """The threads have no more than that: less than what a call takes ends the program."""
    for processor in PROCESSORS:
        done = threads(commands[processor], 24, files)
        report.same(f"{processor}: a thread with too little", (-signal.SIGSEGV, b""), (done.status, done.out))


# ---- the program

GROUPS = {"archives": archives, "programs": programs, "answers": answers, "stack": stack}


def ready(report: Report) -> bool:
    """Whether the archives and the programs that the tests need are there."""
    paths = [archive(folder) for folder in (OURS_FOLDER, OTHER_FOLDER, ANDROID)] + [build_c.archive()]
    there = [report.test(f"{path} is there", os.path.isfile(path)) for path in paths]
    for command in ("gcc", CROSS + "gcc", processors.EMULATOR):
        there.append(report.test(f"{command} is installed", shutil.which(command) is not None))
    return all(there)


def main() -> int:
    parser = argparse.ArgumentParser(description="Test the library for AArch64 under an emulator.")
    parser.add_argument("program", help="the harness's stack_files")
    parser.add_argument("--only", choices=GROUPS, help="run one group of tests")
    options = parser.parse_args()
    processors.leave_no_core()
    report = Report()
    program = Program(options.program)
    if not ready(report) or not program.usable(report):
        return report.finish()
    with tempfile.TemporaryDirectory() as folder:
        given = Given(folder, processors.stack_files(program.path, os.path.join(folder, "deep")))
        for name, group in GROUPS.items():
            if options.only in (None, name):
                before, start = report.passed + report.failed, time.monotonic()
                group(report, given)
                tests, seconds = report.passed + report.failed - before, time.monotonic() - start
                print(f"{name}: {tests} tests in {seconds:.1f} s", flush=True)
    return report.finish()


if __name__ == "__main__":
    sys.exit(main())
