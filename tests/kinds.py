"""The kinds of object names: the hash function that gives them, and how many bytes they have."""

import hashlib
from typing import Callable, NamedTuple


class Kind(NamedTuple):
    number: int  # by which the library is asked
    name: str  # Git's name for it
    width: int  # bytes of an object name, and of a checksum
    function: Callable

    def hash(self, message: bytes) -> bytes:
        return self.function(message).digest()

    def zeroed(self, data: bytes) -> bytes:
        """A file with zeros in place of its checksum, as Git's index.skipHash writes it."""
        return data[: -self.width] + bytes(self.width)


SHA1 = Kind(1, "sha1", 20, hashlib.sha1)
SHA256 = Kind(2, "sha256", 32, hashlib.sha256)
ALL = (SHA1, SHA256)


def by_number(text: str) -> Kind:
    """The kind of a number that is given as an argument."""
    for kind in ALL:
        if kind.number == int(text):
            return kind
    raise ValueError(f"{text} is no kind")
