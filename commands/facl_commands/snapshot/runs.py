"""What is found of files that follow each other in the order of paths, as processes send it to each other, and its sums."""
from __future__ import annotations

from collections import Counter
from typing import Dict, List, Sequence, Set, Tuple

from ..base import beside
from .list_texts import Whom

MOST_IDS = 262_144  # Of users, and of groups, whose names are read: the program takes a quarter of them.
# What is counted of recorded files: bits, of which those of KINDS are the first ones.
BITS = {kind: 1 << place for place, kind in enumerate(beside.KINDS)}
SEVERAL, REPEATED, IS_FOLDER = (1 << place for place in range(len(beside.KINDS), len(beside.KINDS) + 3))
# Why a name is left out: a symbolic link, by --exclude, another file system, too long; and why it could not be read.
LINK, EXCLUDED, OTHER_SYSTEM, LONG, UNREAD = range(5)
Warned = Tuple[bytes, int, bytes]  # What is warned of, how many names there are of it, and the first one.


# A recorded file: its record of the dump, and that of the file inodes, its lines of the file marks, which most do not have, a hash,
# which is the same for names of one file, and seldom else, its bits, and whom it names.
Row = Tuple[bytes, bytes, bytes, int, int, Whom]


def name_in(record: bytes) -> bytes:
    """The name in a record of the file inodes, which ends in a NUL byte."""
    return record[:-1].split(b" ", 3)[3]


class LeftOut:
    """Names that are not recorded: how many there are by the reason, and the first of them; and how many are recorded."""

    def __init__(self, numbers: Sequence[int] = (0,) * 5, first: Sequence[bytes] = (b"",) * 5, mounts: Sequence[bytes] = ()) -> None:
        self.numbers, self.first, self.mounts = [*numbers], [*first], [*mounts]  # The last are all of other file systems.
        self.recorded = 0

    def add(self, why: int, name: bytes) -> None:
        self.numbers[why] += 1
        self.first[why] = self.first[why] or name
        if why == OTHER_SYSTEM:
            self.mounts.append(name)

    def join(self, other: LeftOut) -> None:
        """Adds what comes after it."""
        self.numbers = [one + more for one, more in zip(self.numbers, other.numbers)]
        self.first = [one or following for one, following in zip(self.first, other.first)]
        self.mounts += other.mounts

    def total(self) -> int:
        return sum(self.numbers)


class Sums:
    """What is counted of the files of a snapshot, by bit, with the first file of each, and whom they name."""

    def __init__(self) -> None:
        self.numbers: Dict[int, int] = Counter()
        self.first: Dict[int, bytes] = {}
        self.files = self.lines = 0  # The lines are those of marks.
        self.owners: Set[int] = set()
        self.owning_groups: Set[int] = set()
        self.users: Set[int] = set()  # Owners too.
        self.groups: Set[int] = set()
        self.has_too_many_ids = False  # So that some are not in these.

    def add(self, rows: List[Row]) -> None:
        _, inodes, marks, _, bits, whom = zip(*rows)
        self.files += len(rows)
        self.lines += b"".join(marks).count(b"\n")
        for value, number in Counter(bits).items():
            for bit in (*BITS.values(), REPEATED):
                if value & bit:
                    self.numbers[bit] += number
                    self.first.setdefault(bit, name_in(inodes[bits.index(value)]))
        for owner, group, users, groups in {*whom}:
            for ids, more in ((self.owners, {owner}), (self.owning_groups, {group}), (self.users, users | {owner}),
                              (self.groups, groups | {group})):
                if len(ids) < MOST_IDS:
                    ids |= more
                else:
                    self.has_too_many_ids |= not more <= ids
