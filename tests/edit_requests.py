"""Requests to a program that lists, rewrites and edits index files, and its answers: one process, many requests.

A request is a line of words, then the bytes of the file, then those of the name:

    list KIND FILE NAME ASKED ROOM
    rewrite KIND FILE NAME ASKED ROOM
    put KIND FILE NAME ASKED ROOM STAGE NUMBERS OBJECT ASSUME SKIP INTENT
    remove KIND FILE NAME ASKED ROOM STAGE

KIND is the number of the kind of object names, FILE and NAME are numbers of bytes, ASKED is the version asked for, ROOM
the length of the output. NUMBERS are the entry's ten numbers in the file's order, OBJECT is in hex, the last three words
are 0 or 1. Numbers are decimal and below 2^32. A listing has no name, and takes no version and no output. An answer is a
line, after 'done' with N bytes behind it, which are the new file or the listing:

    done N
    refused NUMBER PLACE

The program ends with status 0 where its input ends. It ends in another way, and tells why on standard error, where the
call did more than it may.
"""

import signal
import subprocess
import tempfile
from typing import BinaryIO, NamedTuple, Optional

from index_reader import Entry
from kinds import SHA1, Kind
from report import SECONDS, ProgramFailed, Report


class Request(NamedTuple):
    call: str  # list, rewrite, put or remove
    data: bytes
    asked: int = 0
    room: int = 0
    entry: Optional[Entry] = None  # of a put
    name: bytes = b""  # of a remove, as is the stage
    stage: int = 0
    kind: Kind = SHA1


def encode(request: Request) -> bytes:
    call, data, asked, room, entry, name, stage, kind = request
    if call == "put":
        name = entry.name
        bits = (int(entry.assume_valid), int(entry.skip_worktree), int(entry.intent_to_add))
        more = (entry.stage, *entry[:10], entry.object.hex(), *bits)
    else:
        more = (stage,) if call == "remove" else ()
    words = (call, kind.number, len(data), len(name), asked, room, *more)
    return " ".join(map(str, words)).encode() + b"\n" + data + name


def decode_answer(stream: BinaryIO) -> tuple:
    """('done', bytes) or ('refused', number, place)."""
    line = stream.readline()
    kind, *words = line.decode(errors="replace").split()[:3] or [""]
    numbers = tuple(int(word) for word in words if word.isdecimal())
    if kind == "done" and len(numbers) == len(words) == 1:
        data = stream.read(numbers[0])
        if len(data) == numbers[0]:
            return ("done", data)
    elif kind == "refused" and len(numbers) == len(words) == 2:
        return (kind, *numbers)
    raise ProgramFailed(f"no whole answer: {line!r}")


# ---- the program under test


class Session:
    """The program under test, which gets one request after the other. Once it has failed, it is not asked again."""

    def __init__(self, path: str):
        self.errors = tempfile.TemporaryFile()
        pipe = subprocess.PIPE
        self.child = subprocess.Popen([path], stdin=pipe, stdout=pipe, stderr=self.errors)
        self.failed = False

    def __call__(self, request: Request) -> tuple:
        if self.failed:
            raise ProgramFailed("not asked: it has failed before")
        signal.signal(signal.SIGALRM, too_long)
        signal.alarm(SECONDS)
        try:
            self.child.stdin.write(encode(request))
            self.child.stdin.flush()
            return decode_answer(self.child.stdout)
        except (ProgramFailed, OSError) as failure:
            self.failed = True
            raise ProgramFailed(f"{failure}; {self.end()}") from None
        finally:
            signal.alarm(0)

    def end(self) -> str:
        """Ends the program. Answers what it told on standard error."""
        self.child.kill()
        self.child.wait()
        try:
            self.child.stdin.close()
        except OSError:
            pass  # what was not written is of no use
        return f"standard error {self.told()!r}"

    def told(self) -> bytes:
        self.errors.seek(0)
        return self.errors.read()

    def finish(self, report: Report) -> None:
        """Ends the input: the program is to end well, with no further answer and nothing on standard error."""
        if self.failed:
            return
        try:
            rest, _ = self.child.communicate(timeout=SECONDS)
        except (subprocess.TimeoutExpired, OSError):
            self.end()
            rest = b""
        ended = (self.child.returncode, rest, self.told())
        report.same("the program's end: status, further output, standard error", (0, b"", b""), ended)


def too_long(*_) -> None:
    raise ProgramFailed(f"not finished after {SECONDS} s")
