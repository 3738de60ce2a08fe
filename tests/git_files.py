"""Makes index files with the installed Git, runs the listing program on each and holds its output against Git.

    git_files.py PROGRAM

For a file that is accepted, the entry lines must be those of 'git ls-files --stage', byte for byte after the
escapes are undone, and the counts those of index_reader; index_reader in turn is held against what Git tells
of the other fields. For a file that is refused, the refusal is the one named here. Each file is also listed without its
checksum: zeros are in its place, as Git writes them with index.skipHash. The files have SHA-1 names, as the
program takes them; git_edits holds those of other kinds against Git. The last line is 'N passed, M failed', and the exit
status is 0 only where M is 0.

Git runs with a HOME of its own, no user configuration and fixed dates, in a folder below TMPDIR that is removed.
"""

import copy
import os
import random
import re
import shutil
import subprocess
import sys
import tempfile
from typing import NamedTuple, Optional

import index_reader
from kinds import SHA1, Kind
from layout import Maker, Record
from report import WIDTH, Program, ProgramFailed, Report, difference


class Snapshot(NamedTuple):
    """An index file, and what Git says of it."""

    name: str
    data: bytes
    refusal: Optional[int] = None  # the number, where the file is to be refused
    stage: bytes = b""  # git ls-files --stage -z
    debug: bytes = b""  # git ls-files --debug -z
    undo: bytes = b""  # git ls-files --resolve-undo -z
    extensions: tuple = ()  # signatures that the file must have
    repository: Optional["Repository"] = None


# ---- Git


class Repository:
    """A repository in a folder of its own."""

    def __init__(self, root: str, name: str, version: int, kind: Kind):
        # A file of SHA-1 names has the name of its scene alone.
        self.name = name if kind == SHA1 else f"{kind.name}-{name}"
        self.path = os.path.join(root, self.name)
        self.kind = kind
        os.makedirs(self.path)
        home = os.path.join(root, "home")
        os.makedirs(home, exist_ok=True)
        self.environment = {key: value for key, value in os.environ.items() if not key.startswith("GIT_")}
        self.environment.update(
            HOME=home,
            XDG_CONFIG_HOME=home,
            GIT_CONFIG_NOSYSTEM="1",
            GIT_CONFIG_GLOBAL=os.devnull,
            GIT_CEILING_DIRECTORIES=root,
            GIT_AUTHOR_NAME="Tests",
            GIT_AUTHOR_EMAIL="tests@example.org",
            GIT_AUTHOR_DATE="2001-02-03T04:05:06+0000",
            GIT_COMMITTER_NAME="Tests",
            GIT_COMMITTER_EMAIL="tests@example.org",
            GIT_COMMITTER_DATE="2001-02-03T04:05:06+0000",
            LC_ALL="C",
            TZ="UTC",
        )
        self.git("init", "-q", "-b", "main", f"--object-format={kind.name}")
        self.git("config", "index.version", str(version))
        # One thread: else Git adds extensions by the number of processors.
        self.git("config", "index.threads", "1")

    def copy(self, path: str) -> "Repository":
        """A copy in another folder, the working tree included."""
        shutil.copytree(self.path, path, symlinks=True)
        other = copy.copy(self)
        other.path = path
        other.environment = dict(self.environment)
        return other

    def run(self, *arguments, given: bytes = b"", **variables) -> subprocess.CompletedProcess:
        environment = {**self.environment, **variables}
        return subprocess.run(
            ["git", *arguments], cwd=self.path, env=environment, input=given, capture_output=True, check=False
        )

    def git(self, *arguments, given: bytes = b"", may_fail: bool = False) -> bytes:
        done = self.run(*arguments, given=given)
        if done.returncode != 0 and not may_fail:
            raise RuntimeError(f"git {arguments} in {self.name}: {done.stderr.decode(errors='replace')}")
        return done.stdout

    def write(self, name: str, content: str, mode: int = 0o644) -> None:
        """Writes a file of the working tree."""
        path = os.path.join(self.path, name)
        os.makedirs(os.path.dirname(path), exist_ok=True)
        with open(path, "w", encoding="ascii") as stream:
            stream.write(content)
        os.chmod(path, mode)
        self.set_times(path)

    def link(self, name: str, target: str) -> None:
        path = os.path.join(self.path, name)
        os.symlink(target, path)
        self.set_times(path)

    @staticmethod
    def set_times(path: str) -> None:
        """Gives a file a fixed time before that of any index: Git treats newer ones in a special way."""
        os.utime(path, (981_173_106, 981_173_106), follow_symlinks=False)

    def put(self, rows) -> None:
        """Puts entries (mode, stage, name) straight into the index, all with the object of one text."""
        blob = self.blob()
        text = b"".join(b"%o %s %d\t%s\0" % (mode, blob, stage, name) for mode, stage, name in rows)
        self.git("update-index", "-z", "--index-info", given=text)

    def blob(self) -> bytes:
        return self.git("hash-object", "-w", "--stdin", given=b"text\n").strip()

    def index(self) -> bytes:
        with open(os.path.join(self.path, ".git", "index"), "rb") as stream:
            return stream.read()

    def install(self, index: bytes) -> None:
        with open(os.path.join(self.path, ".git", "index"), "wb") as stream:
            stream.write(index)

    def staged_in(self, index: bytes) -> tuple:
        """What 'git ls-files --stage -z' says of another index: status and output."""
        path = os.path.join(self.path, ".git", "other-index")
        with open(path, "wb") as stream:
            stream.write(index)
        done = self.run("ls-files", "--stage", "-z", GIT_INDEX_FILE=path)
        os.remove(path)
        return done.returncode, done.stdout

    def snapshot(self, name: str, refusal: Optional[int] = None, extensions: tuple = ()) -> Snapshot:
        data = self.index()
        title = f"{self.name}/{name}"
        if refusal is not None:
            return Snapshot(title, data, refusal, extensions=extensions, repository=self)
        stage = self.git("ls-files", "--stage", "-z")
        debug = self.git("ls-files", "--cached", "--debug", "-z")
        undo = self.git("ls-files", "--resolve-undo", "-z")
        if self.index() != data:
            raise RuntimeError(f"{title}: looking at the index changed it")
        return Snapshot(title, data, None, stage, debug, undo, extensions, self)


# ---- the scenes

NAMES = (
    "a-b", "a/b", "a0", "deep/er/and/deeper", "deep/er/file", "deep/x", "dir/one", "dir/two", "long-directory-name/f",
    "z/z/z",
)


def start(root: str, name: str, version: int, kind: Kind) -> Repository:
    """A repository with files of several kinds in its working tree, nothing added."""
    repository = Repository(root, name, version, kind)
    for file in NAMES:
        repository.write(file, f"content of {file}\n")
    repository.write("run", "#!/bin/sh\n", 0o755)
    repository.link("link", "dir/one")
    return repository


def everyday(root: str, version: int, kind: Kind):
    """From an empty index over a commit to edits, removals and flags."""
    repository = start(root, f"everyday-{version}", version, kind)
    repository.git("read-tree", "--empty")
    yield repository.snapshot("empty")
    repository.git("add", ".")
    yield repository.snapshot("added")
    repository.git("commit", "-q", "-m", "first")
    yield repository.snapshot("committed", extensions=(b"TREE",))
    repository.write("deep/er/new", "new\n")
    repository.git("add", "deep/er/new")
    yield repository.snapshot("part-invalid", extensions=(b"TREE",))
    repository.git("write-tree")
    yield repository.snapshot("whole-again", extensions=(b"TREE",))
    repository.git("rm", "-q", "--cached", "dir/one", "dir/two")
    yield repository.snapshot("directory-emptied", extensions=(b"TREE",))
    repository.git("update-index", "--assume-unchanged", "run", "deep/x")
    yield repository.snapshot("assume-valid")
    repository.write("planned", "planned\n")
    repository.write("deep/planned", "planned\n")
    repository.git("add", "-N", "planned", "deep/planned")
    yield repository.snapshot("intent-to-add")
    repository.git("write-tree")
    yield repository.snapshot("intent-to-add-tree", extensions=(b"TREE",))
    repository.git("update-index", "--skip-worktree", "a-b", "z/z/z")
    yield repository.snapshot("skip-worktree")
    repository.git("update-index", "--assume-unchanged", "z/z/z")
    yield repository.snapshot("two-flags")
    repository.git("read-tree", "--prefix=imported/", "HEAD")
    yield repository.snapshot("prefix")
    repository.git("rm", "-q", "-r", "-f", "--cached", ".")
    yield repository.snapshot("all-removed-but-skipped")
    repository.git("update-index", "--force-remove", "a-b", "z/z/z")
    yield repository.snapshot("all-removed", extensions=(b"TREE",))
    repository.git("read-tree", "HEAD")
    yield repository.snapshot("read-tree", extensions=(b"TREE",))
    repository.git("read-tree", "--empty")
    repository.git("write-tree")
    yield repository.snapshot("empty-tree", extensions=(b"TREE",))


def conflicts(root: str, version: int, kind: Kind):
    """A merge with conflicts of several kinds, their resolution, and back."""
    repository = start(root, f"conflicts-{version}", version, kind)
    repository.git("add", ".")
    repository.git("commit", "-q", "-m", "base")
    repository.git("checkout", "-q", "-b", "side")
    for name in ("a-b", "deep/er/file", "dir/one"):
        repository.write(name, f"side {name}\n")
    repository.write("both/added", "side\n")
    repository.git("rm", "-q", "dir/two")
    repository.git("add", ".")
    repository.git("commit", "-q", "-m", "side")
    repository.git("checkout", "-q", "main")
    for name in ("a-b", "deep/er/file", "dir/two"):
        repository.write(name, f"main {name}\n")
    repository.write("both/added", "main\n")
    repository.git("rm", "-q", "dir/one")
    repository.git("add", ".")
    repository.git("commit", "-q", "-m", "main")
    repository.git("merge", "-q", "side", may_fail=True)
    yield repository.snapshot("unmerged")
    repository.write("a-b", "resolved\n")
    repository.git("add", "a-b")
    yield repository.snapshot("one-resolved", extensions=(b"REUC",))
    repository.git("checkout", "-q", "-m", "--", "a-b")
    yield repository.snapshot("one-taken-back", extensions=(b"REUC",))
    repository.git("add", "a-b")
    repository.git("add", "deep/er/file", "both/added", "dir/one")
    repository.git("rm", "-q", "--cached", "dir/two")
    yield repository.snapshot("all-resolved", extensions=(b"REUC",))
    repository.git("write-tree")
    yield repository.snapshot("resolved-tree", extensions=(b"TREE", b"REUC"))
    repository.git("update-index", "--unresolve", "deep/er/file")
    yield repository.snapshot("one-unresolved", extensions=(b"TREE", b"REUC"))
    repository.git("checkout", "-q", "-m", "--", "a-b", "both/added")
    yield repository.snapshot("three-unresolved", extensions=(b"TREE", b"REUC"))


LONG = "".join(f"line {k}\n" for k in range(20))  # enough for Git to know a file by its contents

# Paths on the common base and on two branches, main and side, whose merge has a conflict of every kind. None is no file, a
# text is a file; other modes are given with the text, and that of a submodule with a digit of its commit.
CONFLICTS = (
    ("modified", "base\n", "main\n", "side\n"),
    ("deleted-on-main", "base\n", None, "side\n"),
    ("deleted-on-side", "base\n", "main\n", None),
    ("added", None, "main\n", "side\n"),
    # renamed on both to different names
    ("one", "one\n" + LONG, None, None),
    ("one-main", None, "one\n" + LONG, None),
    ("one-side", None, None, "one\n" + LONG),
    # two files renamed to one name
    ("two-a", "two\n" + LONG, None, "two\n" + LONG),
    ("two-b", LONG + "two\n", LONG + "two\n", None),
    ("two", None, "two\n" + LONG, LONG + "two\n"),
    # renamed and deleted; renamed to a name that is added
    ("three", "three\n" + LONG, None, None),
    ("three-main", None, "three\n" + LONG, None),
    ("four", "four\n" + LONG, None, "four\n" + LONG),
    ("four-main", None, "four\n" + LONG, "side\n"),
    # a file and a directory
    ("five", None, "main\n", None),
    ("five/in", None, None, "side\n"),
    # modes and submodules
    ("mode", "base\n", (0o100755, "main\n"), "side\n"),
    ("type", "base\n", "main\n", (0o120000, "side")),
    ("module", (0o160000, "1"), (0o160000, "2"), (0o160000, "3")),
    ("module-or-file", None, (0o160000, "2"), "side\n"),
)


def branches(repository: Repository) -> None:
    """Commits the three columns of CONFLICTS: tags the base and makes the branches. The branch main is checked out."""

    def row(path: str, content) -> bytes:
        mode, text = content if isinstance(content, tuple) else (0o100644, content)
        name = text.encode() * 2 * repository.kind.width
        if mode != 0o160000:
            name = repository.git("hash-object", "-w", "--stdin", given=text.encode()).strip()
        return b"%o %s 0\t%s\0" % (mode, name, path.encode())

    base = ()
    for column, reference in enumerate(("refs/tags/base", "refs/heads/main", "refs/heads/side"), 1):
        rows = (row(line[0], line[column]) for line in CONFLICTS if line[column] is not None)
        repository.git("read-tree", "--empty")
        repository.git("update-index", "-z", "--index-info", given=b"".join(rows))
        tree = repository.git("write-tree", "--missing-ok").strip()
        commit = repository.git("commit-tree", *base, "-m", reference, tree).strip()
        repository.git("update-ref", reference, commit)
        base = base or ("-p", commit)
    repository.git("reset", "-q", "--hard")


# Commands that leave conflicts, on a branch or tag; the last ones with a change of the worktree.
MERGING = (
    ("merge", "main", ("merge", "-q", "side")),
    ("merge-recursive", "main", ("merge", "-q", "-s", "recursive", "side")),
    ("merge-resolve", "main", ("merge", "-q", "-s", "resolve", "side")),
    ("merge-other-way", "side", ("merge", "-q", "main")),
    ("read-tree", "main", ("read-tree", "-m", "base", "main", "side")),
    ("cherry-pick", "main", ("cherry-pick", "side")),
    ("revert", "side", ("revert", "--no-edit", "main")),
    ("rebase", "main", ("rebase", "-q", "side")),
    ("checkout", "base", ("checkout", "-q", "-m", "side")),
    ("stash", "base", ("stash", "apply", "-q")),
)


def merges(root: str, version: int, kind: Kind):
    """Conflicts of every kind, as each command leaves them, then with resolutions that are recorded and used again."""
    repository = Repository(root, f"merges-{version}", version, kind)
    branches(repository)
    for name, start, command in MERGING:
        go_to(repository, start)
        if start == "base":
            repository.write("modified", "worktree\n")
        if name == "stash":
            repository.git("stash", "-q")
            go_to(repository, "side")
        yield unmerged(repository, name, *command)
        repository.git("rebase", "--abort", may_fail=True)
    go_to(repository, "side")
    patch = repository.git("diff", "--full-index", "base", "main", "--", "modified", "added")
    yield unmerged(repository, "apply", "apply", "--3way", given=patch)
    repository.git("config", "rerere.enabled", "true")
    repository.git("config", "rerere.autoUpdate", "true")
    for name in ("recorded", "recorded-and-used"):
        go_to(repository, "main")
        yield unmerged(repository, name, "merge", "-q", "side")
        repository.write("modified", "resolved\n")
        repository.git("rerere")


def go_to(repository: Repository, name: str) -> None:
    """Checks out a branch or tag without what was left by a conflict."""
    repository.git("reset", "-q", "--hard")
    repository.git("clean", "-q", "-f", "-f", "-d", "-x")
    repository.git("checkout", "-q", "--detach", name)


def unmerged(repository: Repository, name: str, *command: str, given: bytes = b"") -> Snapshot:
    """The index after a command that leaves conflicts."""
    done = repository.run(*command, given=given)
    if not repository.git("ls-files", "--unmerged"):
        raise RuntimeError(f"{repository.name}: git {command} leaves no conflict: {done.returncode} {done.stderr}")
    return repository.snapshot(name)


def stages(root: str, version: int, kind: Kind):
    """Every set of the stages 1 to 3, put straight into the index, then resolved."""
    repository = Repository(root, f"stages-{version}", version, kind)
    rows = []
    for bits in range(1, 8):
        for stage in (1, 2, 3):
            if bits >> (stage - 1) & 1:
                mode = (0o100644, 0o100755, 0o120000)[stage - 1]
                rows += [(mode, stage, b"set-%d" % bits), (mode, stage, b"dir/set-%d" % bits)]
    repository.put(rows)
    yield repository.snapshot("every-set")
    for bits in range(1, 8):
        repository.write(f"set-{bits}", "resolved\n")
        repository.write(f"dir/set-{bits}", "resolved\n")
        if bits % 2:
            repository.git("add", f"set-{bits}", f"dir/set-{bits}")
            yield repository.snapshot(f"resolved-{bits}", extensions=(b"REUC",))
    repository.git("add", ".")
    yield repository.snapshot("all-resolved", extensions=(b"REUC",))


def names(root: str, version: int, kind: Kind):
    """Names with bytes that are escaped, near the forbidden ones, and long ones."""
    repository = Repository(root, f"names-{version}", version, kind)
    single = [bytes([byte]) for byte in range(1, 256) if byte not in b"./"]
    odd = [b"back\\slash", b"new\nline", b"tab\t", b'quote"', b"caf\xc3\xa9/x", b"\xff\xfe", b" ", b" lead"]
    odd += [b"...", b"..a", b".gitx", b"a\\303b", b"-dash", b"~", b"\x7f/\x80", b"x/.gitignore", b"\x01\x02/\x1f"]
    repository.put([(0o100644, 0, name) for name in odd])
    yield repository.snapshot("odd")
    repository.git("write-tree")
    yield repository.snapshot("odd-tree", extensions=(b"TREE",))
    repository.git("read-tree", "--empty")
    repository.put([(0o100644, 0, name) for name in single])
    yield repository.snapshot("each-byte")
    repository.git("read-tree", "--empty")
    lengths = (1, 127, 128, 255, 256, 4094, 4095, 4096, 8191, 8192)
    repository.put([(0o100755, 0, bytes([ord("a") + k]) * length) for k, length in enumerate(lengths)])
    yield repository.snapshot("long")
    repository.put([(0o100644, 0, b"/".join([b"d"] * 4096))])
    yield repository.snapshot("many-components")
    repository.put([(0o100644, 0, b"x" * 8193)])
    yield repository.snapshot("8193", refusal=9)


def links(root: str, version: int, kind: Kind):
    """Symbolic links and submodules."""
    repository = start(root, f"links-{version}", version, kind)
    inner = Repository(repository.path, "sub", version, kind)
    inner.write("inside", "inside\n")
    inner.git("add", ".")
    inner.git("commit", "-q", "-m", "inner")
    repository.git("-c", "advice.addEmbeddedRepo=false", "add", ".")
    commit = ("1234567890" * 7)[: 2 * kind.width]
    repository.git("update-index", "--add", "--cacheinfo", f"160000,{commit},other/module")
    repository.git("update-index", "--add", "--cacheinfo", f"120000,{repository.blob().decode()},other/link")
    yield repository.snapshot("added")
    repository.git("write-tree", "--missing-ok")
    yield repository.snapshot("tree", extensions=(b"TREE",))


def trees(root: str, version: int, kind: Kind):
    """Cache trees: wide ones, nested ones up to the limit of levels, a directory that became a file."""
    repository = Repository(root, f"trees-{version}", version, kind)
    wide = [b"d%s%d/f%d" % (b"x" * (k % 5), k, j) for k in range(60) for j in range(k % 3 + 1)]
    repository.put([(0o100644, 0, name) for name in wide])
    repository.git("write-tree")
    yield repository.snapshot("wide", extensions=(b"TREE",))
    repository.put([(0o100755, 0, name) for name in wide[::7]])
    yield repository.snapshot("wide-part-invalid", extensions=(b"TREE",))
    repository.git("rm", "-q", "--cached", "-r", "dx1", "dxx2")
    yield repository.snapshot("wide-removed", extensions=(b"TREE",))
    repository.git("update-index", "--add", "--replace", "--cacheinfo", f"100644,{repository.blob().decode()},dxxx3")
    yield repository.snapshot("became-file", extensions=(b"TREE",))
    repository.git("write-tree")
    yield repository.snapshot("became-file-tree", extensions=(b"TREE",))
    for depth, refusal in ((126, None), (127, None), (128, 15), (200, 15)):
        repository.git("read-tree", "--empty")
        deep = b"/".join([b"n"] * depth)
        repository.put([(0o100644, 0, deep + b"/file"), (0o100644, 0, b"beside"), (0o100644, 0, b"n/beside")])
        repository.git("write-tree")
        yield repository.snapshot(f"deep-{depth}", refusal, extensions=(b"TREE",) if refusal is None else ())
    repository.put([(0o100644, 0, b"n/n/n/new")])
    yield repository.snapshot("deep-part-invalid", refusal=15)


def extensions(root: str, version: int, kind: Kind):
    """Extensions that are passed over."""
    repository = start(root, f"extensions-{version}", version, kind)
    repository.git("add", ".")
    repository.git("commit", "-q", "-m", "first")
    repository.git("config", "index.threads", "4")
    repository.git("config", "index.recordEndOfIndexEntries", "true")
    repository.git("config", "index.recordOffsetTable", "true")
    repository.write("more", "more\n")
    repository.git("add", "more")
    yield repository.snapshot("offset-table", extensions=(b"IEOT", b"EOIE", b"TREE"))
    repository.git("config", "index.threads", "1")
    repository.git("config", "index.recordEndOfIndexEntries", "false")
    repository.git("config", "index.recordOffsetTable", "false")
    repository.write("untracked/file", "untracked\n")
    repository.git("update-index", "--force-untracked-cache")
    repository.git("status")
    yield repository.snapshot("untracked-cache", extensions=(b"UNTR", b"TREE"))
    hook = os.path.join(repository.path, ".git", "monitor")
    with open(hook, "w", encoding="ascii") as stream:
        stream.write("#!/bin/sh\nprintf 'token\\0'\n")
    os.chmod(hook, 0o755)
    repository.git("config", "core.fsmonitor", hook)
    repository.git("update-index", "--fsmonitor")
    repository.git("status")
    yield repository.snapshot("monitor", extensions=(b"FSMN", b"UNTR"))


def refused_kinds(root: str, version: int, kind: Kind):
    """Split and sparse indexes, which the library refuses."""
    repository = start(root, f"split-{version}", version, kind)
    repository.git("add", ".")
    repository.git("commit", "-q", "-m", "first")
    repository.git("update-index", "--split-index")
    yield repository.snapshot("split", refusal=13)
    repository.write("added-later", "later\n")
    repository.git("add", "added-later")
    yield repository.snapshot("split-and-added", refusal=13)
    # A replaced entry of a split index has an empty name.
    repository.write("dir/one", "changed\n")
    repository.git("add", "dir/one")
    yield repository.snapshot("split-and-replaced", refusal=9)

    repository = start(root, f"sparse-{version}", version, kind)
    repository.git("add", ".")
    repository.git("commit", "-q", "-m", "first")
    repository.git("sparse-checkout", "set", "--cone", "--sparse-index", "dir")
    yield repository.snapshot("sparse", refusal=7)
    repository.git("sparse-checkout", "set", "--cone", "--no-sparse-index", "dir")
    yield repository.snapshot("sparse-checkout", extensions=(b"TREE",))


MIXED = b"fatal: multiple stage entries for merged file"  # what fsck of Git 2.39 says, with the name


def mixed_stages(root: str, version: int, kind: Kind):
    """A name at stage 0 and at others: the library refuses it. Git writes it without a word where 'update-index --index-info'
    puts a stage above 0 beside stage 0, and lists it. Of its commands only fsck refuses to read it; to the others it is a
    conflict, and write-tree finds it unmerged."""
    repository = Repository(root, f"mixed-stages-{version}", version, kind)
    for others in ((1,), (2,), (3,), (1, 2, 3)):
        repository.git("read-tree", "--empty")
        for stage in (0, *others):
            repository.put([(0o100644, stage, b"a")])
        name = "-".join(map(str, (0, *others)))
        yield repository.snapshot(name, refusal=11)
        listed = [int(row.stage) for row in rows_of_git(repository.git("ls-files", "--stage", "-z"))]
        if listed != [0, *others]:
            raise RuntimeError(f"{name}: git ls-files shows stages {listed}")
        expect(repository, 128, b"a: unmerged", "write-tree")
        expect(repository, 128, MIXED + b" 'a'\n", "fsck")


def objections(root: str, version: int, kind: Kind):
    """Files that Git lists, and then objects to. The library accepts a file beside a directory of its name, which the
    format's documents do not rule out; of a name twice at stage 0 even write-tree of Git makes a tree."""
    repository = Repository(root, f"objections-{version}", version, kind)
    make = Maker(kind)
    blob = bytes.fromhex(repository.blob().decode())
    first = Record(b"a", object=blob)
    repository.install(make.with_checksum(make.compose(version, [first, Record(b"a/b", object=blob)]).body))
    yield repository.snapshot("file-and-directory")
    expect(repository, 128, b"both a and a/b", "write-tree")
    repository.install(make.with_checksum(make.compose(version, [first, first]).body))
    yield repository.snapshot("stage-0-twice", refusal=11)
    expect(repository, 128, MIXED + b" 'a'\n", "fsck")
    expect(repository, 0, b"", "write-tree")


def expect(repository: Repository, status: int, words: bytes, *command: str) -> None:
    """Sees that Git ends a command with this status and has these words in its error output."""
    done = repository.run(*command)
    if done.returncode != status or words not in done.stderr:
        raise RuntimeError(f"{repository.name}: git {command} answers {done.returncode} {done.stderr}")


def walks(root: str, version: int, kind: Kind):
    """A walk of random edits with trees written between them, by a fixed seed."""
    rng = random.Random(f"walk {version}")
    repository = Repository(root, f"walk-{version}", version, kind)
    components = (b"a", b"b", b"bb", b"c-", b"c")
    pool = [b"/".join(rng.choices(components, k=rng.randint(1, 5))) + b".f" for _ in range(80)]
    repository.put([(0o100644, 0, name) for name in pool[:30]])
    for step in range(30):
        how = rng.randrange(5)
        some = rng.sample(pool, rng.randint(1, 4))
        if how < 2:
            repository.git("write-tree")
        elif how == 2:
            removed = b"".join(name + b"\0" for name in some)
            repository.git("update-index", "-z", "--force-remove", "--stdin", given=removed)
        else:
            mode = rng.choice((0o100644, 0o100755, 0o120000))
            repository.put([(mode, 0, name) for name in some])
        yield repository.snapshot(f"step-{step}")


# Git makes the files of all but the last.
GIT_SCENES = (
    everyday, conflicts, merges, stages, mixed_stages, names, links, trees, extensions, refused_kinds, walks,
)
SCENES = GIT_SCENES + (objections,)


def snapshots(root: str, versions: tuple = (2, 3, 4), scenes: tuple = SCENES, kind: Kind = SHA1):
    for version in versions:
        for scene in scenes:
            yield from scene(root, version, kind)


# ---- the comparison


class Row(NamedTuple):
    """An entry as a line shows it."""

    mode: bytes
    object: bytes
    stage: bytes
    name: bytes


def rows_of_git(text: bytes) -> list:
    """The lines of 'git ls-files --stage -z', or of '--resolve-undo -z'."""
    rows = []
    for line in text.split(b"\0")[:-1]:
        fields, name = line.split(b"\t", 1)
        rows.append(Row(*fields.split(b" "), name))
    return rows


def unescape(name: bytes) -> bytes:
    return re.sub(rb"\\([0-7]{3})", lambda match: bytes([int(match[1], 8)]), name)


def rows_of_listing(lines: list) -> list:
    rows = []
    for line in lines:
        fields, _, name = line.partition(b"\t")
        parts = fields.split(b" ")
        if len(parts) != 3 or any(byte < 32 or byte > 126 for byte in name):
            return [line]
        rows.append(Row(*parts, unescape(name)))
    return rows


def debug_of_git(text: bytes) -> list:
    """What 'git ls-files --debug -z' tells of each entry: its name, the nine numbers other than mode, and flags."""
    pattern = re.compile(
        rb"([^\0]*)\0  ctime: (\d+):(\d+)\n  mtime: (\d+):(\d+)\n  dev: (\d+)\tino: (\d+)\n"
        rb"  uid: (\d+)\tgid: (\d+)\n  size: (\d+)\tflags: ([0-9a-f]+)\n"
    )
    found, at = [], 0
    while at < len(text):
        match = pattern.match(text, at)
        if match is None:
            return [text[at : at + WIDTH]]
        flags = int(match[11], 16)
        numbers = tuple(int(match[k]) for k in range(2, 11))
        # Git keeps skip-worktree and intent-to-add in bits 30 and 29 of its own flags.
        bits = (bool(flags & 0x8000), flags >> 12 & 3, bool(flags >> 30 & 1), bool(flags >> 29 & 1))
        found.append((match[1], numbers, bits))
        at = match.end()
    return found


def debug_of_reader(entries: list) -> list:
    return [
        (e.name, tuple(e[:6]) + tuple(e[7:10]), (e.assume_valid, e.stage, e.skip_worktree, e.intent_to_add))
        for e in entries
    ]


def undo_of_reader(records: Optional[list]) -> list:
    return [
        Row(b"%06o" % mode, name.hex().encode(), b"%d" % stage, record.path)
        for record in records or ()
        for stage, (mode, name) in enumerate(zip(record.modes, record.objects), 1)
        if mode
    ]


def compare_left_out(snapshot: Snapshot, listing: bytes, listing_of, report: Report) -> None:
    """Holds the listing of the file without a checksum against that with one, and sees that Git reads both. Git 2.40 and
    later write such files with index.skipHash. Git 2.39 reads them: only its fsck looks at the checksum of an index."""
    data = snapshot.repository.kind.zeroed(snapshot.data)
    if snapshot.refusal is None:
        listing = listing.replace(b"\n", b" checksum left out\n", 1)
        staged = snapshot.repository.staged_in(data)
        report.same(f"{snapshot.name}: without a checksum, for Git", (0, snapshot.stage), staged)
    report.same(f"{snapshot.name}: without a checksum, listing", listing, listing_of(data))


def compare(snapshot: Snapshot, listing_of, report: Report) -> None:
    """Holds a listing against Git, and index_reader against Git."""
    name, data, kind = snapshot.name, snapshot.data, snapshot.repository.kind
    try:
        listing = listing_of(data)
        compare_left_out(snapshot, listing, listing_of, report)
    except ProgramFailed as failure:
        report.test(f"{name}: listing", False, failure)
        return
    answer = index_reader.check(data, kind=kind)
    if snapshot.refusal is not None:
        report.same(f"{name}: refusal", ("refused", snapshot.refusal), answer[:2])
        report.same(f"{name}: listing", b"refused %d at %d\n" % (snapshot.refusal, answer[2]), listing)
        return
    if not report.test(f"{name}: accepted", answer[0] == "accepted", answer):
        return
    index = index_reader.read(data, kind=kind)
    signatures = [signature for signature, _ in index.others]
    signatures += [b"TREE"] * (index.nodes is not None) + [b"REUC"] * (index.undo is not None)
    report.test(f"{name}: extensions", set(snapshot.extensions) <= set(signatures), snapshot.extensions, signatures)

    expected = rows_of_git(snapshot.stage)
    lines = listing.split(b"\n")
    report.same(f"{name}: entry lines", expected, rows_of_listing(lines[1:-3]))
    first = b"version %d entries %d" % (int.from_bytes(data[4:8], "big"), len(expected))
    tree = b"cache tree none" if answer[4] is None else b"cache tree %d nodes" % answer[4]
    undo = b"resolve-undo none" if answer[5] is None else b"resolve-undo %d paths" % answer[5]
    report.same(f"{name}: other lines", [first, tree, undo, b""], lines[:1] + lines[-3:])
    whole = index_reader.listing(data, kind=kind)
    report.test(f"{name}: listing", listing == whole, *difference(whole, listing))

    report.same(f"{name}: numbers and flags", debug_of_git(snapshot.debug), debug_of_reader(index.entries))
    report.same(f"{name}: resolve undo", rows_of_git(snapshot.undo), undo_of_reader(index.undo))


def run(listing_of, report: Report, kind: Kind = SHA1) -> None:
    """Makes all files of a kind and compares them, in a temporary folder that is removed."""
    root = tempfile.mkdtemp(prefix="git-files-")
    try:
        for snapshot in snapshots(os.path.realpath(root), kind=kind):
            compare(snapshot, listing_of, report)
    except RuntimeError as failure:
        report.test("Git makes the files", False, failure)
    finally:
        shutil.rmtree(root)


def main() -> int:
    if len(sys.argv) != 2:
        print("usage: git_files.py PROGRAM", file=sys.stderr)
        return 2
    report = Report()
    program = Program(sys.argv[1])
    if program.usable(report):
        run(program, report)
    return report.finish()


if __name__ == "__main__":
    sys.exit(main())
