"""Ends a save at every byte and call, lets its calls fail, and looks at what a disk may hold after a loss of power.

    run_save.py PROGRAM...

A PROGRAM is used as c/examples/put.c: PROGRAM INDEX MODE OBJECT NAME [STAGE]. The calls are counted, cut and logged by
cut_writes.c. For each program:

    whole      without harm the new index has the record, the lock was taken before the index was read
    kill       ended before and after each call and at each byte: the index is the old or the new one, whole; the lock
               that is left keeps the next program out, and once it is removed, the record can be put
    fail       a call fails, the disk is full after each byte, reads and writes are short, signals come: the index is
               the old or the new one, as the exit status says, and no lock is left
    power      whatever is lost that was not synced (disk_model), the disk has the old or the new index, and the new one
               after the end
    refuse     a record that the library refuses: nothing is written, and the index stays, also where it is ended

Then wrong saves (wrong_saves.py) are tried, each of which must be noticed. The last line is 'N passed, M failed', and
the exit status is 0 only where M is 0.
"""

import errno
import os
import shutil
import subprocess
import sys
import tempfile
import time
from typing import NamedTuple, Optional

import build_c
import disk_model
import index_reader
from kinds import SHA1
from layout import *
from report import SECONDS, Report
from wrong_saves import EDITS

HERE = os.path.dirname(os.path.abspath(__file__))
OBJECT = "ce013625030ba8dba906f756967f9e9ca394464a"
KILLED = -9
RETRIED = ("read", "write", "sync")  # calls that are to be tried again after a signal


class Scene(NamedTuple):
    """An index, and a record to put."""

    name: str
    old: bytes
    record: str
    step: int = 1  # every how many bytes the save is cut
    short: bool = True  # whether all that a disk may hold can be looked at


def scenes():
    """Short indexes, whose lists without their last entries would be sound too, and one that takes longer to write."""
    names = [b"a", b"ab", b"b/c"]
    tree = whole_tree(names)
    yield Scene("replaced", Plan(2, [Record(name) for name in names], tree).made("").data, "ab")
    yield Scene("added", Plan(4, [Record(name) for name in names], tree).made("").data, "b/d")
    names = [b"folder/%04d" % k for k in range(400)]
    yield Scene("long", Plan(2, [Record(name) for name in names]).made("").data, "folder/0399x", step=2999, short=False)


def refused_scene() -> Scene:
    """A record that would be at stage 0 beside a conflict of its name."""
    records = [Record(b"a"), Record(b"ab", stage=1), Record(b"ab", stage=3), Record(b"b/c")]
    return Scene("refused", Plan(2, records).made("").data, "ab")


class Done(NamedTuple):
    status: int
    out: bytes
    err: bytes
    files: dict  # the folder afterwards: name, bytes


# ---- one program in one scene


class Save:
    """A program that puts the scene's record into the scene's index, in a folder of its own."""

    def __init__(self, program: str, shim: str, folder: str, scene: Scene):
        self.program, self.shim, self.scene = os.path.abspath(program), shim, scene
        self.folder = os.path.realpath(tempfile.mkdtemp(dir=folder))
        self.path = os.path.join(self.folder, "index")
        self.log = self.folder + ".log"
        self.calls, self.new = [], b""  # known after a run without harm
        self.tried = {}

    def __call__(self, files: Optional[dict] = None, **cut) -> Done:
        """Runs the program on the old index, or on these files, with what is to be cut."""
        self.fill({"index": self.scene.old} if files is None else files)
        environment = {f"CUT_{name.upper()}": str(value) for name, value in cut.items()}
        environment.update(os.environ, LD_PRELOAD=self.shim, CUT_FOLDER=self.folder, LC_ALL="C")
        command = [self.program, self.path, "100755", OBJECT, self.scene.record]
        done = subprocess.run(command, capture_output=True, timeout=SECONDS, check=False, env=environment)
        return Done(done.returncode, done.stdout, done.stderr, self.contents())

    def fill(self, files: dict) -> None:
        for name in os.listdir(self.folder):
            os.remove(os.path.join(self.folder, name))
        for name, data in files.items():
            with open(os.path.join(self.folder, name), "wb") as stream:
                stream.write(data)

    def contents(self) -> dict:
        found = {}
        for name in os.listdir(self.folder):
            with open(os.path.join(self.folder, name), "rb") as stream:
                found[name] = stream.read()
        return found

    def whole(self) -> Done:
        """A run without harm, whose calls and result the other tests stand on."""
        done = self(log=self.log)
        if os.path.exists(self.log):
            with open(self.log, encoding="ascii") as stream:
                self.calls = disk_model.parse(stream.read())
        self.new = done.files.get("index", b"")
        return done

    def before(self, number: int) -> dict:
        """The files that the calls before this one leave."""
        made = [call for call in self.calls if call.number < number]
        *_, (_, disk) = disk_model.states({"index": self.scene.old}, made)
        return disk.files()

    def goes_on(self, index: bytes) -> bool:
        """Whether the record can be put into this index. Each is tried once."""
        if index not in self.tried:
            done = self({"index": index})
            self.tried[index] = done.status == 0 and done.files == {"index": self.new}
        return self.tried[index]

    def told(self, done: Done, *words: bytes) -> bool:
        """Whether the program failed with a message that has these words."""
        return done.status == 1 and done.out == b"" and len(done.err) > 20 and all(word in done.err for word in words)


# ---- without harm


def whole(report: Report, save: Save) -> bool:
    """Whether the program can be tested further."""
    done = save.whole()
    report.same("without harm: status and output", (0, b"", b""), done[:3])
    report.same("without harm: files", ["index"], sorted(done.files))
    calls = [(call.name, call.file) for call in save.calls]
    for call in (("create", "index.lock"), ("rename", "index.lock"), ("open", "index")):
        if not report.test(f"without harm: {call[0]} {call[1]} is among the calls", call in calls, calls):
            return False
    taken = calls.index(("create", "index.lock"))
    report.test("the lock is created and not opened if it is there", save.calls[taken].value != "0", save.calls[taken])
    report.test("the lock is taken before the index is read", taken < calls.index(("open", "index")), calls)
    seen = save.before(len(save.calls) + 1)
    report.same("the calls that are logged make the files that are there", done.files, seen)
    return report.test("the new index has the record", has_record(save), index_reader.check(save.new))


def has_record(save: Save) -> bool:
    """Whether the new index is the old one with the record, whatever else the record says: the other entries and
    resolve undo are as they were, the nodes are so or invalid."""
    try:
        new = index_reader.read(save.new)
    except index_reader.Refused:
        return False
    old, name = index_reader.read(save.scene.old), save.scene.record.encode()
    found = [entry for entry in new.entries if entry.name == name]
    if [(entry.mode, entry.object.hex(), entry.stage) for entry in found] != [(0o100755, OBJECT, 0)]:
        return False
    others = [entry for entry in new.entries if entry.name != name]
    invalid = {"count": None, "object": bytes(SHA1.width)}
    pairs = list(zip(old.nodes or (), new.nodes or ()))
    return (
        others == [entry for entry in old.entries if entry.name != name]
        and (old.version, old.undo) == (new.version, new.undo)
        and len(old.nodes or ()) == len(pairs) == len(new.nodes or ())
        and all(after in (before, before._replace(**invalid)) for before, after in pairs)
    )


# ---- ended


def kills(report: Report, save: Save) -> None:
    for call in save.calls:
        label = f"before call {call.number}, {call.name} {call.file}"
        killed(report, save, label, save(before=call.number), save.before(call.number))
        label = f"after call {call.number}, {call.name} {call.file}"
        killed(report, save, label, save(after=call.number), save.before(call.number + 1))


def kill_bytes(report: Report, save: Save) -> None:
    total = sum(len(call.data) for call in save.calls)
    for count in sorted({*range(0, total, save.scene.step), total}):
        done = save(byte=count)
        expected = {"index": save.scene.old, "index.lock": save.new[:count]}
        killed(report, save, f"after byte {count}", done, expected)


def killed(report: Report, save: Save, label: str, done: Done, expected: dict) -> None:
    """The files are those that the calls so far have made; the index is whole; and the next save is not in the way."""
    report.same(f"ended {label}: status", KILLED, done.status)
    report.test(f"ended {label}: the old or the new index", done.files.get("index") in (save.scene.old, save.new))
    report.same(f"ended {label}: files", expected, done.files)
    if "index.lock" in done.files:
        again = save(done.files)
        told = save.told(again, b"index.lock") and again.files == done.files
        report.test(f"ended {label}: the lock that is left is told and stays", told, again)
    report.test(f"ended {label}: a later save", save.goes_on(done.files.get("index", b"")))


# ---- failures


def failures(report: Report, save: Save) -> None:
    for call in save.calls:
        for error in (errno.EIO, errno.ENOSPC, errno.EINTR):
            label = f"call {call.number}, {call.name} {call.file}, fails with {errno.errorcode[error]}"
            failed(report, save, label, call, save(fail=call.number, error=error), error)
        done = save(fail=call.number, error=errno.EIO, all=1)
        failed(report, save, f"all from call {call.number}, {call.name} {call.file}, fail", call, done, None)


def failed(report: Report, save: Save, label: str, call, done: Done, error: Optional[int]) -> None:
    """A call has failed with this error, or it and all later ones where that is None. Only a failed close may go
    unnoticed, and a signal must, where the call can be tried again."""
    if error == errno.EINTR and call.name in RETRIED:
        report.test(f"{label}: tried again", done.status == 0, done)
    elif call.name != "close" and error != errno.EINTR:
        report.test(f"{label}: told", save.told(done), done)
    replaced = done.status == 0 or save.before(call.number).get("index") == save.new
    report.same(f"{label}: the index", save.new if replaced else save.scene.old, done.files.get("index"))
    left = set(done.files) - {"index"}
    if error is None and left == {"index.lock"}:
        report.test(f"{label}: the lock that is left is told", b"index.lock" in done.err, done)
    else:
        report.same(f"{label}: no other file", set(), left)


def full_disks(report: Report, save: Save) -> None:
    for count in range(0, sum(len(call.data) for call in save.calls), save.scene.step):
        done = save(full=count)
        good = save.told(done, b"space") and done.files == {"index": save.scene.old}
        report.test(f"the disk is full after byte {count}", good, done)


def short_calls(report: Report, save: Save) -> None:
    for count in (1, 7, 64):
        done = save(short=count)
        good = done[:3] == (0, b"", b"") and done.files == {"index": save.new}
        report.test(f"reads and writes of at most {count} bytes", good, done[:3])


# ---- a loss of power


def power(report: Report, save: Save) -> None:
    for made, wrong in bad_states(save, save.calls):
        report.test(f"a loss of power after {made} calls: the old or the new index", not wrong, *wrong)
    report.test("a loss of power at the end: the new index", lasting(save, save.calls))


def bad_states(save: Save, calls: list):
    """For each number of calls made, some of the wrong contents that the index may then have on the disk."""
    for made, disk in disk_model.states({"index": save.scene.old}, calls):
        wrong = disk.possible("index") - {save.scene.old, save.new}
        yield made, ["missing" if data is None else f"{len(data)} bytes" for data in list(wrong)[:3]]


def lasting(save: Save, calls: list) -> bool:
    """Whether nothing but the new index can be on the disk after all calls."""
    *_, (_, disk) = disk_model.states({"index": save.scene.old}, calls)
    return disk.possible("index") == {save.new}


def power_is_noticed(report: Report, save: Save) -> None:
    """Without a sync, the log of the same program shows states that are wrong."""
    bare = [call for call in save.calls if call.name != "sync" or call.file == "."]
    report.test("power: that the file is not synced is noticed", any(wrong for _, wrong in bad_states(save, bare)))
    bare = [call for call in save.calls if (call.name, call.file) != ("sync", ".")]
    report.test("power: that the folder is not synced is noticed", not lasting(save, bare))


# ---- a record that is refused


def refused(report: Report, save: Save) -> None:
    done = save.whole()
    report.test("refused: told", save.told(done, b"refused 11 at 0: ", b"in conflict"), done)
    report.same("refused: files", {"index": save.scene.old}, done.files)
    calls = {call.name for call in save.calls}
    report.test("refused: nothing is written or renamed", "create" in calls and not calls & {"write", "rename"}, calls)
    for call in save.calls:
        for when in ("before", "after"):
            done = save(**{when: call.number})
            good = done.status == KILLED and done.files.get("index") == save.scene.old
            report.test(f"refused, ended {when} call {call.number}, {call.name} {call.file}", good, done)


# ---- wrong saves


class Noticed(Exception):
    """A test has failed, as it should."""


class First(Report):
    """Ends at the first test that fails."""

    def test(self, name: str, good: bool, *detail) -> bool:
        if not good:
            raise Noticed(name)
        return True


def notices(save: Save) -> bool:
    try:
        run_scene(First(), save)
    except Noticed:
        return True
    return False


def wrong_saves(report: Report, shim: str, folder: str) -> None:
    with open(os.path.join(build_c.EXAMPLES, "save.c"), encoding="utf-8") as stream:
        source = stream.read()
    scene = next(scenes())._replace(step=50)
    for label, edits in EDITS:
        program = build_wrong(source, edits)
        if report.test(f"wrong save, {label}: can be built", program is not None):
            report.test(f"wrong save, {label}: noticed", notices(Save(program, shim, folder, scene)))


def build_wrong(source: str, edits: tuple) -> Optional[str]:
    """The example with an edited save; None where an edit does not fit or the result does not compile."""
    for old, new in edits:
        if source.count(old) != 1:
            return None
        source = source.replace(old, new)
    try:
        path = build_c.write("wrong_save.c", source)
        parts = [part for part in build_c.example_sources("put") if not part.endswith("save.c")]
        return build_c.build("wrong_put", [path, *parts], warnings=False)
    except build_c.BuildFailed:
        return None


# ---- the program


def run_scene(report: Report, save: Save) -> None:
    if not whole(report, save):
        return
    for tests in (kills, kill_bytes, failures, full_disks, short_calls):
        tests(report, save)
    if save.scene.short:
        power(report, save)
        power_is_noticed(report, save)


def timed(report: Report, name: str, tests) -> None:
    before, start = report.passed + report.failed, time.monotonic()
    tests()
    count, seconds = report.passed + report.failed - before, time.monotonic() - start
    print(f"{name}: {count} tests in {seconds:.1f} s", flush=True)


def main() -> int:
    programs = sys.argv[1:]
    if not programs or programs[0].startswith("-"):
        print("usage: run_save.py PROGRAM...", file=sys.stderr)
        return 2
    report = Report()
    shim = build_c.build_shim("cut_writes.so", os.path.join(HERE, "cut_writes.c"))
    with tempfile.TemporaryDirectory() as folder:
        for program in programs:
            if report.test(f"{program} is an executable program", shutil.which(os.path.abspath(program)) is not None):
                for scene in scenes():
                    save = Save(program, shim, folder, scene)
                    timed(report, f"{program}, {scene.name}", lambda: run_scene(report, save))
                save = Save(program, shim, folder, refused_scene())
                timed(report, f"{program}, {save.scene.name}", lambda: refused(report, save))
        timed(report, "wrong saves", lambda: wrong_saves(report, shim, folder))
    return report.finish()


if __name__ == "__main__":
    sys.exit(main())
