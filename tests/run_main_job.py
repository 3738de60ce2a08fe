"""Tests ./run, and what tools/prove shows while crates are proved, with a stand-in for rt that proves nothing.

    run_main_job.py PROGRAM

PROGRAM is the listing program, which ./run finds as if it had just been built. The last line is 'N passed, M failed',
and the exit status is 0 only where M is 0.
"""

import argparse
import os
import re
import shlex
import shutil
import subprocess
import sys
import tempfile
from typing import NamedTuple

import index_reader
from layout import LISTING_LIMIT, Plan, Record
from report import SECONDS, Program, Report

ROOT = os.path.abspath(os.path.join(os.path.dirname(os.path.abspath(__file__)), ".."))
VECTOR = os.path.join(ROOT, "tests", "vectors", "real", "v2-committed.index")

# list stands on three crates of the repository and two of the kit.
CRATES = """\
# NAME: the crates that it stands on
ground:
walls: ground   # the walls
shed: ground
roof: walls ground io
list: roof io
list_c staticlib: list
"""

# The stand-in says what the real one says: it names a crate when its proof begins, and not one that is unchanged. Under
# 'rt run' its words are on standard error, and 3 is the program's standard output. 'shown' waits until a line is on
# standard error, and ends with status 7 where it does not come.
RT = """\
#!/bin/sh
exec 3>&1
[ "$1" != run ] || exec >&2
say() { echo "rt: $*"; }
begin() { say "chose --jobs 2 for $1"; echo "fn $1::f: proved"; }
prove() { begin "$1"; echo 'logic=proved functions=1'; }
shown() {
    for _ in $(seq 300); do
        if grep -qxF "$1" ../../standard-error; then return; fi
        sleep 0.1
    done
    exit 7
}
"""
UNCHANGED = "say 'nothing has changed since the last proved build, by out/list.stamp, so nothing is checked now'"
QUIET = ["run: proving list and what it stands on: 4 crates", "run: all 4 unchanged since they were proved"]
NAMED = ["c/examples/list.c", "rust/Cargo.toml", "rust/examples/list.rs"]
EXAMPLE = "tools/staticlib && cargo run --manifest-path rust/Cargo.toml --example list -- "


class Done(NamedTuple):
    status: int
    out: bytes
    err: list


class Room:
    """A folder like the repository, with a stand-in for rt."""

    def __init__(self, folder: str, program: Program):
        self.folder = folder
        for name in ("run", "tools/prove"):
            os.makedirs(os.path.dirname(self.path(name)), exist_ok=True)
            shutil.copy(os.path.join(ROOT, name), self.path(name))
        os.makedirs(self.path("crates/list/out"))
        shutil.copy(program.path, self.path("crates/list/out/list"))
        self.store("crates.txt", CRATES.encode())

    def path(self, name: str) -> str:
        return os.path.join(self.folder, name)

    def store(self, name: str, data: bytes) -> str:
        with open(self.path(name), "wb") as stream:
            stream.write(data)
        return self.path(name)

    def load(self, name: str) -> bytes:
        with open(self.path(name), "rb") as stream:
            return stream.read()

    def run(self, *command: str, rt: str = UNCHANGED, temporary: str = None, **options) -> Done:
        """Runs a command with a stand-in that does what `rt` says."""
        os.makedirs(self.path("bin"), exist_ok=True)
        os.chmod(self.store("bin/rt", f"{RT}{rt}\n".encode()), 0o755)
        environment = {**os.environ, "PATH": self.path("bin") + os.pathsep + os.environ["PATH"]}
        if temporary:
            environment["TMPDIR"] = temporary
        options = {"cwd": self.folder, "stdin": subprocess.DEVNULL, **options, "env": environment}
        with open(self.path("standard-error"), "wb") as err:
            done = subprocess.run(command, stdout=subprocess.PIPE, stderr=err, timeout=SECONDS, check=False, **options)
        return Done(done.returncode, done.stdout, self.load("standard-error").decode().splitlines())


# ---- what is shown of the proofs


def progress(report: Report, room: Room) -> None:
    def same(name: str, command: tuple, rt: str, expected: list) -> None:
        done = room.run(*command, rt=rt)
        program = command[1]
        expected = ["proving list and what it stands on: 4 crates", *expected]
        got = [re.sub(r"\d+ s\b", "N s", line) for line in done.err]
        report.same(f"{name}: standard error", [f"{program}: {line}" for line in expected], got)
        report.same(f"{name}: status and standard output", (0, b""), (done.status, done.out))

    prove = ("tools/prove", "run", "list", "run")
    rt = """say 'walls: begins with what a check kept in another folder'; begin ground
        shown 'run: proving 1 of 4: ground'; echo 'logic=proved functions=1'
        prove walls; prove roof; prove list
        say 'running out/list'"""
    expected = []
    for place, name in enumerate(("ground", "walls", "roof", "list"), 1):
        expected += [f"proving {place} of 4: {name}", f"{name} proved, N s"]
    same("nothing proved before", prove, rt, [*expected, "all 4 proved in N s"])
    said = ["rt: chose --jobs 2 for walls", "fn walls::f: proved", "logic=proved functions=1"]
    report.same("what is kept of a crate", said, room.load("target/log/walls.say").decode().splitlines())

    rt = "begin roof; shown 'run: proving 3 of 4: roof'; printf 'logic=pro'; sleep 1.5; echo 'ved functions=2'; prove list"
    expected = ["proving 3 of 4: roof", "roof proved, N s", "proving 4 of 4: list", "list proved, N s"]
    same("some unchanged", prove, rt, [*expected, "2 proved in N s, 2 unchanged since they were proved"])
    seconds = [int(line.split()[-2]) for line in room.run(*prove, rt=rt).err if line.startswith("run: roof proved, ")]
    report.test("the seconds are those of the proof", len(seconds) == 1 and 1 <= seconds[0] <= 20, seconds)

    expected = ["all 4 unchanged since they were proved"]
    same("all unchanged", prove, UNCHANGED, expected)
    same("by its whole path", (room.path(prove[0]), *prove[1:]), UNCHANGED, expected)
    report.same("an output of the program", (0, b""), room.run(*prove, rt="echo refused >&3; prove list")[:2])

    os.makedirs(room.path("crates/list_c"))
    rt = "[ \"$*\" = 'lib --cpu x86-64' ] || exit 9; prove list_c"
    done = room.run("tools/prove", "bench", "list_c", "lib", "--cpu", "x86-64", rt=rt)
    expected = ["proving list_c and what it stands on: 5 crates", "proving 5 of 5: list_c", "list_c proved, N s"]
    expected += ["1 proved in N s, 4 unchanged since they were proved"]
    got = [re.sub(r"\d+ s\b", "N s", line) for line in done.err]
    report.same("an archive: standard error", [f"bench: {line}" for line in expected], got)
    report.same("an archive: status and standard output", (0, b""), done[:2])


def failures(report: Report, room: Room) -> None:
    rt = "prove ground; begin walls; echo why; echo 'logic=not-proved'; say FAILED: walls; exit 2"
    done = room.run("./run", VECTOR, rt=rt)
    said = ["rt: chose --jobs 2 for ground", "fn ground::f: proved", "logic=proved functions=1"]
    said += ["rt: chose --jobs 2 for walls", "fn walls::f: proved", "why", "logic=not-proved", "rt: FAILED: walls"]
    shown = ["proving 1 of 4: ground", "ground proved, N s", "proving 2 of 4: walls"]
    expected = [QUIET[0], *(f"run: {line}" for line in shown), *said, "run: list is not proved"]
    err = [re.sub(r"\d+ s\b", "N s", line) for line in done.err]
    report.same("not proved", Done(1, b"", expected), done._replace(err=err))
    report.same("not proved: the log", said, room.load("target/log/run.log").decode().splitlines())
    unbuilt = room.run("./run", VECTOR, rt="prove list; rm ../../crates/list/out/list")
    report.test("no program", unbuilt.status != 0 and unbuilt.out == b"", unbuilt)


# ---- inputs


def inputs(report: Report, room: Room) -> None:
    """Files by name and on standard input, at the program's limit and above it; nothing is left behind."""
    temporary = room.path("temporary")
    os.mkdir(temporary)
    large = Plan(2, [Record(b"large/%05d" % k) for k in range(2000)]).made("large").data
    files = {"small": room.load(VECTOR), "empty": b"", "with a space and 'quotes'": large}
    files.update((f"{size} bytes", bytes(size)) for size in (LISTING_LIMIT, LISTING_LIMIT + 1, 1 << 20))
    for name, data in files.items():
        path = room.store(name, data)
        listing = index_reader.listing(data)

        def same(how: str, index: str, *command: str, **options) -> None:
            done = room.run(*command, temporary=temporary, **options)
            over = [line for line in done.err if line.startswith("run: over 65,536 bytes; ")]
            report.same(f"{name}, {how}: status and listing", (0, listing), (done.status, done.out))
            report.same(f"{name}, {how}: standard error", QUIET + over, done.err)
            report.same(f"{name}, {how}: the other program", len(data) > LISTING_LIMIT, len(over) == 1)
            if over:
                words = shlex.split(over[0].partition("In this repository: ")[2])
                report.same(f"{name}, {how}: its command", [*EXAMPLE.split(), index], words)
                files_named = re.findall(r"\b(?:rust|c)/[\w/.]+\w", over[0].partition(" -- ")[0])
                report.same(f"{name}, {how}: files named", NAMED, sorted(files_named))

        same("by name", path, "./run", path)
        same("by name, in its folder", path, "./run", name)
        same("by name, from another folder", path, room.path("run"), f"../{name}", cwd=room.path("tools"))
        with open(path, "rb") as stream:
            same("on standard input", "INDEX", "./run", stdin=stream)
        same("on a pipe", "INDEX", "sh", "-c", 'cat "$1" | ./run', "sh", path)
    report.same("temporary files that are left", [], os.listdir(temporary))
    report.test("the files named are there", all(os.path.isfile(os.path.join(ROOT, name)) for name in NAMED))


def wrong_use(report: Report, room: Room) -> None:
    def same(name: str, expected: list, *command: str, **options) -> None:
        report.same(name, Done(2, b"", expected), room.run(*command, **options))

    same("two files", ["usage: run [FILE]"], "./run", VECTOR, VECTOR)
    same("no such file", ["run: cannot read none"], "./run", "none")
    same("a folder", ["run: cannot read tools"], "./run", "tools")
    folder = os.open(room.folder, os.O_RDONLY)
    done = room.run("./run", stdin=folder)
    os.close(folder)
    good = done.status == 2 and done.out == b"" and done.err[-1] == "run: cannot read standard input"
    report.test("a folder on standard input", good, done)


# ---- the program


def main() -> int:
    parser = argparse.ArgumentParser(description="Test ./run and what it shows of the proofs.")
    parser.add_argument("program", help="the listing program")
    options = parser.parse_args()

    report = Report()
    program = Program(options.program)
    if not program.usable(report):
        return report.finish()
    for group in (progress, failures, inputs, wrong_use):
        with tempfile.TemporaryDirectory() as folder:
            group(report, Room(folder, program))
    return report.finish()


if __name__ == "__main__":
    sys.exit(main())
