"""Makes index files of real source trees with the installed Git, for ./bench versions.

    real_indexes.py FOLDER

The trees are those that packages of Debian 12 carry, and this repository at its last commit. Each file of a tree is put
into an empty repository with its mode and with the object name of its contents ('git update-index --index-info'), and
'git write-tree' gives the index a cache tree, as a commit does. No contents are stored, and the numbers that Git takes
from a file system are 0: the length of an index does not depend on them.

FOLDER/files.tsv has a line for each tree: what it is called, where it is from, the index in version 2, and the same as
Git writes it in version 4. Nothing is installed: where packages are missing, the command for it is told, and the exit
status is 2.
"""

import os
import subprocess
import sys
import tarfile
import tempfile
from typing import Iterator, NamedTuple

from git_files import Repository
from kinds import SHA1

ROOT = os.path.dirname(os.path.dirname(os.path.abspath(__file__)))
VERSIONS = (2, 4)
INSTALL = "apt-get install --no-install-recommends"
LINK = 0o120000


class Tree(NamedTuple):
    """A source tree in a package of Debian: a folder, or an archive whose names are all below one folder."""

    name: str
    package: str
    place: str


TREES = (
    Tree("X server 21.1", "xorg-server-source", "/usr/src/xorg-server.tar.xz"),
    Tree("Bazel 4.2", "bazel-bootstrap-source", "/usr/src/bazel-bootstrap"),
    Tree("Go 1.19", "golang-1.19-src", "/usr/share/go-1.19"),
    Tree("Rust 1.63", "rust-src", "/usr/src/rustc-1.63.0"),
    Tree("Linux 6.1", "linux-source-6.1", "/usr/src/linux-source-6.1.tar.xz"),
)


class Made(NamedTuple):
    """An index as Git wrote it in each version: what it is called, and where it is from."""

    name: str
    source: str
    files: list


class Missing(Exception):
    """What has to be installed."""


# ---- the files of a tree, each a line for 'git update-index -z --index-info'


def line(mode: int, name: str, contents: bytes) -> bytes:
    """A file's line, with the mode that Git keeps and the object name of its contents."""
    if mode != LINK:
        mode = 0o100755 if mode & 0o100 else 0o100644
    blob = SHA1.hash(b"blob %d\0" % len(contents) + contents)
    return b"%o %s\t%s\0" % (mode, blob.hex().encode(), os.fsencode(name))


def in_archive(path: str) -> Iterator[bytes]:
    """The files of an archive, without the folder that all are in."""
    with tarfile.open(path, "r|*") as archive:
        for member in archive:
            name = member.name.partition("/")[2]
            if member.issym():
                yield line(LINK, name, os.fsencode(member.linkname))
            elif member.isreg():
                yield line(member.mode, name, archive.extractfile(member).read())
            elif not member.isdir():
                raise RuntimeError(f"{path}: {member.name} is neither a file nor a link")


def in_folder(root: str, folder: str = "") -> Iterator[bytes]:
    """The files in a folder below the root of a tree, and below it."""
    for one in os.scandir(os.path.join(root, folder)):
        name = os.path.join(folder, one.name)
        if one.is_symlink():
            yield line(LINK, name, os.fsencode(os.readlink(one.path)))
        elif one.is_dir():
            yield from in_folder(root, name)
        else:
            with open(one.path, "rb") as stream:
                yield line(one.stat().st_mode, name, stream.read())


def in_this_repository() -> bytes:
    command = ["git", "-C", ROOT, "ls-tree", "-r", "-z", "HEAD"]
    done = subprocess.run(command, capture_output=True, check=False)
    if done.returncode != 0:
        raise RuntimeError(f"the files of this repository: {done.stderr.decode(errors='replace').strip()}")
    return done.stdout


# ---- packages


def installed(package: str) -> str:
    """The version of a package, and nothing where it is not installed."""
    command = ["dpkg-query", "--show", "--showformat=${db:Status-Status} ${Version}", package]
    try:
        done = subprocess.run(command, capture_output=True, text=True, check=False)
    except OSError:
        raise Missing("the command dpkg-query is missing: the source trees are from Debian's packages") from None
    status, _, version = done.stdout.partition(" ")
    return version if status == "installed" else ""


def installed_trees() -> list:
    """The trees with the versions of their packages."""
    versions = [(tree, installed(tree.package)) for tree in TREES]
    missing = [tree.package for tree, version in versions if not version]
    if missing:
        raise Missing(f"source trees of Debian 12 are missing: {INSTALL} {' '.join(missing)}")
    return versions


# ---- index files


def indexes(root: str, name: str, lines: bytes) -> list:
    """The index of these files as Git writes it in each version."""
    repository = Repository(root, name, VERSIONS[0], SHA1)
    repository.git("update-index", "-z", "--index-info", given=lines)
    repository.git("write-tree", "--missing-ok")
    files = []
    for version in VERSIONS:
        repository.git("update-index", "--index-version", str(version))
        files.append(repository.index())
        if files[-1][4:12] != version.to_bytes(4, "big") + lines.count(b"\0").to_bytes(4, "big"):
            raise RuntimeError(f"{name}: Git's index has another version or number of entries than was asked for")
    return files


def make(trees: list) -> Iterator[Made]:
    """The indexes of this repository and of some trees with the versions of their packages."""
    with tempfile.TemporaryDirectory() as root:
        yield Made("this repository", "its last commit", indexes(root, "this-repository", in_this_repository()))
        for tree, version in trees:
            print(f"bench: versions: making the index of {tree.name}", file=sys.stderr)
            lines = in_folder(tree.place) if os.path.isdir(tree.place) else in_archive(tree.place)
            source = f"Debian's {tree.package}, {version}"
            yield Made(tree.name, source, indexes(root, tree.package, b"".join(lines)))


def store(made: Made, folder: str, number: int) -> str:
    """Writes the files of an index. Answers its line for files.tsv."""
    names = [f"{number}-version-{version}.index" for version in VERSIONS]
    for name, data in zip(names, made.files):
        with open(os.path.join(folder, name), "wb") as stream:
            stream.write(data)
    return "\t".join([made.name, made.source, *names]) + "\n"


def store_all(folder: str) -> None:
    trees = installed_trees()
    os.makedirs(folder, exist_ok=True)
    rows = [store(made, folder, number) for number, made in enumerate(make(trees))]
    with open(os.path.join(folder, "files.tsv"), "w", encoding="utf-8") as stream:
        stream.writelines(rows)


def main() -> int:
    if len(sys.argv) != 2:
        print("usage: real_indexes.py FOLDER", file=sys.stderr)
        return 2
    try:
        store_all(sys.argv[1])
    except (Missing, RuntimeError, OSError, tarfile.TarError) as failure:
        print(f"bench: {failure}", file=sys.stderr)
        return 2 if isinstance(failure, Missing) else 1
    return 0


if __name__ == "__main__":
    sys.exit(main())
