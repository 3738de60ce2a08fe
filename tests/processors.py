"""Programs in C for two processors: built by build_c, run here or, for AArch64, under the emulator qemu-aarch64.

Each program has the processor in its name, so that a test beside this one does not build the same file.
"""

import os
import resource
import struct
import subprocess
from typing import NamedTuple

import build_c
import kinds
from kinds import Kind

HERE = os.path.dirname(os.path.abspath(__file__))
OURS, OTHER = PROCESSORS = ("x86_64", "aarch64")
EMULATOR = "qemu-aarch64"
SECONDS = 600  # for one run of a program


class Done(NamedTuple):
    status: int
    out: bytes
    err: bytes


class File(NamedTuple):
    """A file with a name for people, and the kind of its object names."""

    name: str
    kind: Kind
    data: bytes


class StackFile(NamedTuple):
    """A file that takes much stack, and how many levels its cache tree has at most."""

    levels: int
    name: str
    kind: Kind
    data: bytes


def source(name: str) -> list:
    return [os.path.join(HERE, name)]


def build(name: str, sources: list) -> dict:
    """Builds a program for each processor. Answers the commands that run them."""
    ours = build_c.build(f"{name}-{OURS}", sources)
    other = build_c.build(name, sources, target=OTHER)
    return {OURS: [ours], OTHER: [EMULATOR, other]}


def leave_no_core() -> None:
    """No program that is run from here on leaves a file with its memory where a signal ends it."""
    resource.setrlimit(resource.RLIMIT_CORE, (0, 0))


def run(command: list, *arguments: str, data: bytes = b"", folder=None) -> Done:
    """Runs a program on a standard input."""
    command = [*command, *arguments]
    done = subprocess.run(command, input=data, capture_output=True, timeout=SECONDS, check=False, cwd=folder)
    return Done(done.returncode, done.stdout, done.stderr)


def stream(files) -> bytes:
    """Files as answers.c and stack.c read them (stream.h)."""
    return b"".join(struct.pack("<BI", file.kind.number, len(file.data)) + file.data for file in files)


def stack_files(program: str, folder: str) -> list:
    """The files that the harness's program stack_files writes."""
    subprocess.run([program, folder], check=True)
    with open(os.path.join(folder, "files.tsv"), encoding="utf-8") as rows:
        fields = [line.rstrip("\n").split("\t") for line in rows]
    files = []
    for levels, path, kind, name in fields:
        with open(os.path.join(folder, path), "rb") as data:
            files.append(StackFile(int(levels), name, kinds.by_number(kind), data.read()))
    return files
