"""What the test programs share: counting, showing differences, and running the program under test."""

import os
import subprocess

SHOWN = 20  # differences that are printed
WIDTH = 120  # bytes of an output that are printed
SECONDS = 60  # for one run of the program under test


class Report:
    """Counts tests. The last line of a test program is `finish()`."""

    def __init__(self):
        self.passed = 0
        self.failed = 0

    def test(self, name: str, good: bool, *detail) -> bool:
        """Counts one test; where it failed, prints its name and the details, for the first few."""
        if good:
            self.passed += 1
            return True
        self.failed += 1
        if self.failed <= SHOWN:
            print(f"FAILED {name}")
            for line in detail:
                print(f"    {line}")
        elif self.failed == SHOWN + 1:
            print("further failures are counted and not shown")
        return False

    def same(self, name: str, expected, got) -> bool:
        """Counts one test that two values are equal."""
        if isinstance(expected, bytes) and isinstance(got, bytes):
            return self.test(name, expected == got, *difference(expected, got))
        return self.test(name, expected == got, f"expected {expected!r}"[:WIDTH], f"got      {got!r}"[:WIDTH])

    def finish(self) -> int:
        """Prints the last line and answers the exit status. A run without a test has failed."""
        print(f"{self.passed} passed, {self.failed} failed", flush=True)
        return 0 if self.failed == 0 and self.passed > 0 else 1


def difference(expected: bytes, got: bytes) -> tuple:
    """The first line in which two outputs differ."""
    left, right = expected.splitlines(keepends=True), got.splitlines(keepends=True)
    k = next((k for k, (a, b) in enumerate(zip(left, right)) if a != b), min(len(left), len(right)))
    a = left[k][:WIDTH] if k < len(left) else "nothing"
    b = right[k][:WIDTH] if k < len(right) else "nothing"
    return (f"line {k + 1} expected {a!r}", f"line {k + 1} got      {b!r}")


class ProgramFailed(Exception):
    """The program under test did not end in the usual way."""


class Program:
    """The program under test. It reads standard input and writes standard output."""

    def __init__(self, path: str):
        self.path = os.path.abspath(path)

    def usable(self, report: "Report") -> bool:
        """Whether it can be run at all; where it can't, that is a failure."""
        good = os.path.isfile(self.path) and os.access(self.path, os.X_OK)
        if not good:
            report.test(f"{self.path} is an executable program", False)
        return good

    def __call__(self, data: bytes) -> bytes:
        """What the program prints for this input."""
        try:
            done = subprocess.run([self.path], input=data, capture_output=True, timeout=SECONDS, check=False)
        except subprocess.TimeoutExpired:
            raise ProgramFailed(f"not finished after {SECONDS} s") from None
        except OSError as error:
            raise ProgramFailed(f"cannot be run: {error}") from None
        return self.output(done.returncode, done.stdout, done.stderr)

    @staticmethod
    def output(status: int, out: bytes, err: bytes) -> bytes:
        """A program has no exit status of its own, so it is 0 also after a refusal; nothing goes to standard error."""
        if status != 0:
            raise ProgramFailed(f"exit status {status}, standard error {err[:WIDTH]!r}")
        if err:
            raise ProgramFailed(f"standard error {err[:WIDTH]!r}")
        return out
