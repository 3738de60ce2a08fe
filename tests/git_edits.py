"""Has index files of the installed Git listed, rewritten and edited by a program, and lets Git go on from the results.

    git_edits.py PROGRAM [--kind 1|2] [--only SCENE]

PROGRAM answers the requests of edit_requests. The files are those of git_files, of a kind of object names, or of each.
Each file is listed and held against Git as git_files does it. Then, with a copy of its repository:

    each request is made with every version that can be asked for: 0 gives version 4, 1 the lowest that the result can
    have, and the bytes are those of that version by its own number; one above 4 is refused;

    rewritten in its own version, or in one that Git is told to write ('git update-index --index-version'), and without
    other extensions, the file has Git's bytes; rewritten in each version, Git sees the same entries, resolve undo and
    status, fsck complains of nothing new, and write-tree gives the same tree; when Git writes the file again, its records
    and, where it has no other extension, its bytes are the same;

    after a put the entries, valid nodes and bytes are those that 'git update-index --cacheinfo' leaves, after a remove
    those of '--force-remove', asked 0 and asked 1, and Git goes on: it adds, refreshes, removes and writes the same tree;

    a put that would bring stage 0 together with another stage of a name is refused. Git takes the stages of a conflict out
    where it puts stage 0; a stage above 0 it puts beside stage 0 ('update-index --index-info'), which its fsck then refuses
    to read, as the library does;

    with zeros in place of its checksum, as Git 2.40 and later write it with index.skipHash, the file is listed, rewritten
    and edited as with its checksum, and Git sees the same in both.

Not compared, since Git does more than document 01 asks: the nodes at and below the path of a put entry, which Git
drops; resolve undo after a remove of stages 1 to 3, where Git adds a record; extensions that the library passes over.

The stored files of vectors/versions are rewritten too: the answers are the stored ones, and Git lists their entries. The
last line is 'N passed, M failed', and the exit status is 0 only where M is 0.
"""

import argparse
import contextlib
import io
import os
import random
import shutil
import sys
import tempfile
from typing import Optional

import git_files
import index_reader
import rewriting
import run_listing
from edit_requests import Request, Session
from git_files import Repository, Row, Snapshot
from index_reader import Entry, Index
from kinds import ALL, Kind, by_number
from layout import Plan, Record
from report import Program, ProgramFailed, Report

ROOM = 1 << 20  # more than any of these files takes
MODES = (0o100644, 0o100755, 0o120000)
ASKED = (0, 1, 2, 3, 4)  # the versions that can be asked for
ABOVE = (5, 2**32 - 1)  # and ones that cannot

# What a program would do wrong that takes one version that is asked for as another.
WRONG = (
    ("asked 0 written as the lowest", {0: 1}),
    ("asked 1 written as 4", {1: 4}),
    ("asked 1 refused", {1: 5}),
    ("asked 1 refused for the extended word", {1: 2}),
    ("asked 5 taken", {5: 4}),
    ("the largest number taken", {2**32 - 1: 0}),
)

# What is looked at. The last one writes to the index.
LOOKS = (
    ("entries", ("ls-files", "--stage", "--debug", "-z")),
    ("resolve undo", ("ls-files", "--resolve-undo", "-z")),
    ("status", ("--no-optional-locks", "status", "--porcelain=v2", "-z")),
    ("fsck", ("fsck", "--no-dangling", "--no-progress")),
    ("tree", ("write-tree", "--missing-ok")),
)


# ---- what Git sees and writes


def look(repository: Repository, index: bytes, names: tuple = tuple(name for name, _ in LOOKS)) -> dict:
    """What Git says of an index: exit status, output and error output of each command."""
    repository.install(index)
    seen = {}
    for name, command in LOOKS:
        if name in names:
            done = repository.run(*command)
            seen[name] = (done.returncode, done.stdout, done.stderr)
    return seen


def written_by_git(repository: Repository, index: bytes, *options: str) -> bytes:
    """The index as Git writes it again."""
    repository.install(index)
    repository.git(*options, "update-index", "--force-write-index")
    return repository.index()


def in_version(repository: Repository, index: bytes, version: int) -> bytes:
    """The index as Git writes it in a version that it is told."""
    repository.install(index)
    repository.git("update-index", "--index-version", str(version))
    return repository.index()


def read(repository: Repository, index: bytes) -> Index:
    """An index of a repository, read by index_reader."""
    return index_reader.read(index, kind=repository.kind)


def node_table(index: Index) -> Optional[dict]:
    """Count and object name of each node, by its path."""
    if index.nodes is None:
        return None
    table, path = {}, []
    for node in index.nodes:
        path[node.level - 1 :] = [node.name]
        table[b"/".join(path[1:])] = (node.count, node.object)
    return table


def without(table: Optional[dict], name: bytes) -> Optional[dict]:
    """The nodes but for those at a path and below it."""
    if table is None:
        return None
    return {path: node for path, node in table.items() if path != name and not path.startswith(name + b"/")}


# ---- versions


def in_every_version(name: str, request: Request, entries: list, call, report: Report) -> dict:
    """Makes a request, whose result has these entries, with each version that can be asked for, and with others. Answers
    what was written, by its version."""
    written = {}
    lowest = rewriting.lowest(entries)
    for asked, version in zip(ASKED, (4, lowest, 2, 3, 4)):
        answer = call(request._replace(asked=asked))
        about = f"{name}, asked {asked}"
        if version < lowest:
            report.same(about, ("refused", 21, 0), answer)
        elif report.test(about, answer[0] == "done", answer[:3]):
            report.same(f"{about}, version", version, int.from_bytes(answer[1][4:8], "big"))
            report.same(f"{about}, bytes of that version", written.setdefault(version, answer[1]), answer[1])
    for asked in ABOVE:
        report.same(f"{name}, asked {asked}", ("refused", 4, 0), call(request._replace(asked=asked)))
    return written


def misled(call, taken: dict):
    """A program that takes versions that are asked for as others."""
    return lambda request: call(request._replace(asked=taken.get(request.asked, request.asked)))


def wrong_versions(kind: Kind, call, report: Report) -> None:
    """Sees that such a program is noticed."""
    records = [Record(b"a"), Record(b"b", skip_worktree=True)]
    data = Plan(4, records, kind=kind).made("an entry needs the word").data
    request = Request("rewrite", data, room=ROOM)
    for what, taken in WRONG:
        counted = Report()
        with contextlib.redirect_stdout(io.StringIO()):
            in_every_version(what, request, records, misled(call, taken), counted)
        report.test(f"{what}: noticed", counted.failed > 0)


def stored(root: str, kind: Kind, call, report: Report) -> None:
    """Rewrites the stored files: their answers, and what Git lists of those that are written."""
    rows = [row for row in run_listing.rewritings() if row.kind == kind]
    repository = Repository(root, "stored", 2, kind)
    for row in rows:
        name = f"versions/{row.name}: asked {row.asked}"
        answer = call(Request("rewrite", row.data, row.asked, ROOM))
        report.same(name, row.answer, rewriting.words(answer))
        if answer[0] == "done":
            entries = [
                Row(b"%o" % entry.mode, entry.object.hex().encode(), b"%d" % entry.stage, entry.name)
                for entry in read(repository, row.data).entries
            ]
            status, listed = repository.staged_in(answer[1])
            report.same(f"{name}, for Git", (0, entries), (status, git_files.rows_of_git(listed)))


# ---- rewriting


def rewritten(snapshot: Snapshot, repository: Repository, call, report: Report) -> dict:
    """Rewrites the index in each version. Answers what Git sees of the index as it is."""
    expected = look(repository, snapshot.data)
    index = read(repository, snapshot.data)
    title = f"{snapshot.name}: rewritten"
    written = in_every_version(title, Request("rewrite", snapshot.data, room=ROOM), index.entries, call, report)
    for version, data in written.items():
        name = f"{title}, version {version}"
        own = own_bytes(repository, snapshot.data, index.entries, version)
        if own is not None:
            report.same(f"{name}, Git's own bytes", own, data)
        seen = look(repository, data)
        for what, output in expected.items():
            report.same(f"{name}, {what}", output, seen[what])
        again = written_by_git(repository, data)
        theirs = read(repository, again)
        report.same(f"{name}, entries as Git writes them", index.entries, theirs.entries)
        report.same(f"{name}, nodes as Git writes them", index.nodes, theirs.nodes)
        report.same(f"{name}, resolve undo as Git writes it", index.undo or None, theirs.undo or None)
        if not theirs.others and written_by_both(version, index.entries):
            report.same(f"{name}, bytes as Git writes them", again, data)
    return expected


def written_by_both(version: int, entries: list) -> bool:
    """Whether Git writes this version: without need of the extended word it writes 2 in place of 3."""
    return version in (rewriting.lowest(entries), 4)


def own_bytes(repository: Repository, index: bytes, entries: list, version: int) -> Optional[bytes]:
    """An index of Git, with these entries, as Git has it in a version. None where Git would not write that version, or
    the index has an extension that the library drops."""
    if not written_by_both(version, entries):
        return None
    own = index if index[7] == version else in_version(repository, index, version)
    return None if read(repository, own).others else own


# ---- putting and removing


def below(names: list, path: bytes) -> bool:
    """Whether one of the names is below this path."""
    return any(name.startswith(path + b"/") for name in names)


def new_entry(rng: random.Random, name: bytes, stage: int, object_name: bytes) -> Entry:
    return Entry(*(0,) * 6, rng.choice(MODES), 0, 0, 0, object_name, False, stage, False, False, name)


def settled(index: Index) -> list:
    """The names at stage 0."""
    return [entry.name for entry in index.entries if entry.stage == 0]


def in_conflict(index: Index) -> list:
    """The names at other stages."""
    return sorted({entry.name for entry in index.entries if entry.stage})


def draw_put(rng: random.Random, index: Index, object_name: bytes) -> Entry:
    """An entry that Git would put without a conflict of file and directory, and that has no other stage than it may."""
    names = [entry.name for entry in index.entries]
    taken = {0: in_conflict(index), 1: settled(index)}
    emptied = [path for path in node_table(index) or () if path and not below(names, path)]
    while True:
        base = rng.choice(names + [b"new/file"])
        folder = base[: base.rfind(b"/") + 1]
        new = b"put-%d" % rng.randrange(100)
        name = rng.choice([base, base, folder + new, folder + new + b"/file", new, new + b"/file"] + emptied)
        stage = rng.choice((0, 0, 0, 1, 2, 3))
        if name in taken[min(stage, 1)]:
            continue
        folders = {name[:at] for at in range(len(name)) if name[at] == ord("/")}
        if not folders & set(names) and not below(names, name):
            return new_entry(rng, name, stage, object_name)


def put(snapshot: Snapshot, repository: Repository, entry: Entry, call, report: Report) -> None:
    name = f"{snapshot.name}: put {entry.name[:40]!r} {entry.stage}"
    request = Request("put", snapshot.data, room=ROOM, entry=entry)
    theirs = put_by_git(repository, snapshot.data, entry)
    written = in_every_version(name, request, read(repository, theirs).entries, call, report)
    against_git(name, repository, written, theirs, entry.name, report)


def put_by_git(repository: Repository, index: bytes, entry: Entry) -> bytes:
    """The index with an entry that Git puts."""
    repository.install(index)
    object_name = entry.object.hex().encode()
    if entry.stage:
        row = b"%o %s %d\t%s\0" % (entry.mode, object_name, entry.stage, entry.name)
        repository.git("update-index", "-z", "--index-info", given=row)
    else:
        repository.git("update-index", "--add", "--cacheinfo", b"%o,%s,%s" % (entry.mode, object_name, entry.name))
    return repository.index()


def mixing(snapshot: Snapshot, repository: Repository, rng: random.Random, call, report: Report) -> None:
    """Puts stage 0 beside the stages of a conflict, and another stage beside stage 0: both are refused."""
    index = read(repository, snapshot.data)
    object_name = bytes.fromhex(repository.blob().decode())
    for names, stage in ((in_conflict(index), 0), (settled(index), rng.randint(1, 3))):
        if not names:
            continue
        entry = new_entry(rng, rng.choice(names), stage, object_name)
        name = f"{snapshot.name}: mixing put {entry.name[:40]!r} {stage}"
        for asked in ASKED + ABOVE:
            number = 11 if asked in ASKED else 4
            answer = call(Request("put", snapshot.data, asked, ROOM, entry))
            report.same(f"{name}, asked {asked}", ("refused", number, 0), answer)
        theirs = put_by_git(repository, snapshot.data, entry)
        if stage == 0:
            stages = [other.stage for other in read(repository, theirs).entries if other.name == entry.name]
            report.same(f"{name}, stages that Git leaves", [0], stages)
            continue
        answer = index_reader.check(theirs, kind=repository.kind)
        report.same(f"{name}, what Git writes", ("refused", 11), answer[:2])
        done = repository.run("fsck")
        report.test(f"{name}, fsck", done.returncode == 128 and git_files.MIXED in done.stderr, done.stderr)


def remove(snapshot: Snapshot, repository: Repository, path: bytes, call, report: Report) -> None:
    """Removes every stage of a path, as Git does."""
    name = f"{snapshot.name}: remove {path[:40]!r}"
    written, data = {}, snapshot.data
    entries = read(repository, data).entries
    for entry in [entry for entry in entries if entry.name == path]:
        entries.remove(entry)
        request = Request("remove", data, room=ROOM, name=path, stage=entry.stage)
        written = in_every_version(f"{name} {entry.stage}", request, entries, call, report)
        if 4 not in written:
            return
        data = written[4]
    repository.install(snapshot.data)
    repository.git("update-index", "-z", "--force-remove", "--stdin", given=path + b"\0")
    against_git(name, repository, written, repository.index(), None, report)


def against_git(
    name: str, repository: Repository, written: dict, theirs: bytes, path: Optional[bytes], report: Report
) -> None:
    """Holds an edited index in each version against Git's own. `path` is that of a put entry."""
    their_index = read(repository, theirs)
    their_nodes = node_table(their_index)
    looks = ("entries", "status", "tree")
    expected = look(repository, theirs, looks)
    for version, ours in written.items():
        about = f"{name}, version {version}"
        our_index = read(repository, ours)
        report.same(f"{about}, entries", their_index.entries, our_index.entries)
        our_nodes = node_table(our_index)
        if path is not None:
            our_nodes = without(our_nodes, path)
        report.same(f"{about}, nodes", their_nodes, our_nodes)
        if not written_by_both(version, their_index.entries):
            continue
        own = None
        if our_index.nodes == their_index.nodes and our_index.undo == their_index.undo and not their_index.others:
            own = own_bytes(repository, theirs, their_index.entries, version)
            report.same(f"{about}, bytes", own, ours)
        # Of bytes that are its own, in the version that it was told, Git is asked for the entries alone.
        some = looks[:1] if own == ours != theirs else looks
        for what, output in look(repository, ours, some).items():
            report.same(f"{about}, {what} for Git", expected[what], output)


def goes_on(snapshot: Snapshot, repository: Repository, expected: dict, call, report: Report) -> None:
    """Git adds a file to a rewritten index, refreshes it, removes the file and writes the same tree."""
    name = f"{snapshot.name}: Git goes on"
    answer = call(Request("rewrite", snapshot.data, 0, ROOM))
    if not report.test(name, answer[0] == "done", answer[:3]):
        return
    repository.install(answer[1])
    repository.write("added-later/file", "later\n")
    repository.git("update-index", "--add", "added-later/file")
    repository.git("update-index", "-q", "--refresh", may_fail=True)
    names = repository.git("ls-files", "-z", "added-later")
    report.same(f"{name}, added", b"added-later/file\0", names)
    repository.git("update-index", "--force-remove", "added-later/file")
    done = repository.run("write-tree", "--missing-ok")
    report.same(f"{name}, tree", expected["tree"], (done.returncode, done.stdout, done.stderr))
    os.remove(os.path.join(repository.path, "added-later", "file"))


# ---- without a checksum


def left_out(snapshot: Snapshot, repository: Repository, expected: dict, requests: list, call, report: Report) -> None:
    """Makes these requests, and lets Git look, with zeros in place of the checksum: all is as with the checksum."""
    name = f"{snapshot.name}: without a checksum"
    data = repository.kind.zeroed(snapshot.data)
    for request in requests:
        with_checksum, without = call(request), call(request._replace(data=data))
        report.same(f"{name}, {request.call}, asked {request.asked}", with_checksum, without)
    seen = look(repository, data)
    # Git 2.39 looks at the checksum in fsck alone, and takes zeros for a wrong one.
    if b"bad index file sha1 signature" in seen["fsck"][2]:
        seen["fsck"] = expected["fsck"]
    report.same(f"{name}, what Git sees", expected, seen)
    report.same(f"{name}, as Git writes it", *(written_by_git(repository, index) for index in (snapshot.data, data)))
    skipped = written_by_git(repository, snapshot.data, "-c", "index.skipHash=true")
    # Git 2.39 does not know the setting.
    if not any(skipped[-repository.kind.width :]):
        again = written_by_git(repository, snapshot.data)
        report.same(f"{name}, as Git leaves it out", repository.kind.zeroed(again), skipped)


# ---- the run


def listing(data: bytes, call) -> bytes:
    answer = call(Request("list", data))
    if answer[0] != "done":
        raise ProgramFailed(f"no listing: {answer}")
    return answer[1]


def compare(snapshot: Snapshot, root: str, call, report: Report) -> None:
    git_files.compare(snapshot, lambda data: listing(data, call), report)
    if snapshot.refusal is not None:
        for asked in (0, 1, *ABOVE):
            answer = call(Request("rewrite", snapshot.data, asked, ROOM))
            report.same(f"{snapshot.name}: refusal, asked {asked}", ("refused", snapshot.refusal), answer[:2])
        return
    repository = snapshot.repository.copy(os.path.join(root, "copy"))
    # Whenever Git writes an index here, it looks whether valid nodes have the tree of their entries.
    repository.environment["GIT_TEST_CHECK_CACHE_TREE"] = "1"
    try:
        # Git's caches belong to the place of the working tree.
        repository.git("config", "core.untrackedCache", "false")
        repository.git("config", "core.fsmonitor", "false")
        rng = random.Random(snapshot.name)
        index = read(repository, snapshot.data)
        object_name = bytes.fromhex(repository.blob().decode())
        expected = rewritten(snapshot, repository, call, report)
        requests = [Request("rewrite", snapshot.data, asked, ROOM) for asked in ASKED + ABOVE]
        for asked in (0, 1):
            entry = draw_put(rng, index, object_name)
            put(snapshot, repository, entry, call, report)
            requests.append(Request("put", snapshot.data, asked, ROOM, entry))
        mixing(snapshot, repository, rng, call, report)
        if index.entries:
            entry = rng.choice(index.entries)
            remove(snapshot, repository, entry.name, call, report)
            for asked in (0, 1):
                requests.append(Request("remove", snapshot.data, asked, ROOM, name=entry.name, stage=entry.stage))
        goes_on(snapshot, repository, expected, call, report)
        left_out(snapshot, repository, expected, requests, call, report)
    finally:
        shutil.rmtree(repository.path)


def run(session: Session, kind: Kind, report: Report, scenes: tuple) -> None:
    """Makes the files of a kind and compares them, in a temporary folder that is removed. Version 3 is 2 to Git, where it
    may."""

    def call(request: Request) -> tuple:
        return session(request._replace(kind=kind))

    root = os.path.realpath(tempfile.mkdtemp(prefix="git-edits-"))
    try:
        wrong_versions(kind, call, report)
        stored(root, kind, call, report)
        for snapshot in git_files.snapshots(root, (2, 4), scenes, kind):
            compare(snapshot, root, call, report)
    except (RuntimeError, ProgramFailed, index_reader.Refused) as failure:
        report.test("Git and the program go through all files", False, failure)
    finally:
        shutil.rmtree(root)


def main() -> int:
    scenes = {scene.__name__: scene for scene in git_files.GIT_SCENES}
    parser = argparse.ArgumentParser(description="Let Git go on from index files that a program rewrote and edited.")
    parser.add_argument("program", help="the program, which answers the requests of edit_requests")
    parser.add_argument("--kind", type=by_number, help="the kind of object names: 1 or 2; each where it is not told")
    parser.add_argument("--only", choices=scenes, help="make the files of one scene")
    options = parser.parse_args()

    report = Report()
    program = Program(options.program)
    if not program.usable(report):
        return report.finish()
    for kind in (options.kind,) if options.kind else ALL:
        session = Session(program.path)
        run(session, kind, report, (scenes[options.only],) if options.only else git_files.GIT_SCENES)
        session.finish(report)
    return report.finish()


if __name__ == "__main__":
    sys.exit(main())
