"""Names that are one file: which of all names, without all of them in memory."""
from __future__ import annotations

from array import array
from itertools import compress
from typing import IO, Dict, Iterator, List, NamedTuple, Tuple

from .runs import SEVERAL, Row

MARKS = 16  # For each file, which has one of all these marks; several files can have the same one.
CHUNK = 1 << 20


class LinkedNames(NamedTuple):
    """The names that are one file, and the plain files whose other names are not in the snapshot."""

    sets: List[List[bytes]]  # In the order of devices and inodes.
    first: bytes  # The first name of all that are in a set.
    outside: int
    first_outside: bytes


class Linker:
    """Sees the files of a snapshot as they are written, and in the end reads their names."""

    def __init__(self) -> None:
        self.keys = array("q")
        self.several = bytearray()  # Whether it is a plain file that has other names somewhere.

    def add(self, rows: List[Row]) -> None:
        self.keys.extend([key for _, _, _, key, _, _ in rows])
        self.several.extend([bits & SEVERAL > 0 for _, _, _, _, bits, _ in rows])

    def wanted(self) -> bytearray:
        """Of each file whether it may have several names: all that have some, and a few others."""
        number, repeated = MARKS * len(self.keys), set()
        marks = bytearray(number)
        for key in self.keys:
            if marks[key % number]:
                repeated.add(key)
            marks[key % number] = 1
        return bytearray(several or key in repeated for several, key in zip(self.several, self.keys))

    def names(self, inodes: IO[bytes]) -> LinkedNames:
        """Reads the names in the file inodes of the snapshot that may be of one file."""
        wanted = self.wanted()
        found: Dict[Tuple[int, int], List[bytes]] = {}
        alone: List[Tuple[int, int]] = []
        for record, several in zip(compress(records_in(inodes), wanted), compress(self.several, wanted)):
            device, inode, _, name = record.split(b" ", 3)
            file = int(device), int(inode)
            found.setdefault(file, []).append(name)
            alone += [file] * several
        sets = {file: names for file, names in found.items() if len(names) > 1}
        outside = [found[file][0] for file in alone if file not in sets]
        return LinkedNames([sets[file] for file in sorted(sets)], next(iter(sets.values()), [b""])[0], len(outside),
                           outside[0] if outside else b"")


def records_in(inodes: IO[bytes]) -> Iterator[bytes]:
    """The records after the first one, which is of the boot."""
    inodes.seek(0)
    rest = inodes.read(CHUNK).partition(b"\0")[2]
    while rest:
        *records, rest = rest.split(b"\0")
        yield from records
        chunk = inodes.read(CHUNK)
        rest = rest + chunk if chunk else b""
