"""The files of two snapshots by what decides on them.

What a user may do with a file depends on its owner, group and access list alone, and along a path on those of the
recorded directories above it too. So files with the same record and directories with the same records above them, before
and after, are counted together; where directories above changed, those below the same ones.
"""
from __future__ import annotations

from typing import Dict, Iterable, Iterator, List, Mapping, NamedTuple, Optional, Sequence, Set, Tuple, Union

from ...base.names import is_at_or_below, is_below, shown_path
from ...base.numbered import Numbered
from ...model.records import path_of
from ...program.protocol import FILE_HEAD
from .states import Pair, RecordReader

GONE = -1  # In the place of a record that is not there.
NONE = 0  # The number of no directories above, of none that changed, and of no move.
ROOT = FILE_HEAD + b"."
Bodies = Tuple[Optional[bytes], Optional[bytes]]  # Of a file before and after.


class Shape(NamedTuple):
    """What decides on files: their record before and after, and the directories above, by numbers; and what tells apart why
    they are as they are."""

    old: int
    new: int
    old_above: int
    new_above: int
    changed: int  # The directories above with other records.
    move: int = NONE  # Of a file that is new or gone.

    def is_kept(self) -> bool:
        return GONE not in (self.old, self.new)

    def is_touched(self) -> bool:
        return self.old != self.new or self.changed != NONE


class ChangedDirectory(NamedTuple):
    """A directory with another record than before, or that one snapshot does not have; numbered with those above it."""

    above: int
    path: bytes
    old: int
    new: int


class Counted:
    """Files: how many, and the first of them, with its place in path order."""

    __slots__ = ("files", "place", "first")

    def __init__(self, place: int, first: bytes, files: int = 0) -> None:
        self.files, self.place, self.first = files, place, first

    def add(self, other: Counted) -> None:
        """Counts other files too."""
        self.files += other.files
        if other.place < self.place:
            self.place, self.first = other.place, other.first


class DirectoryAbove:
    """A recorded directory that the next files are in, by its name in a record."""

    def __init__(self, name: Optional[bytes], above: Tuple[int, int] = (NONE, NONE), changed: int = NONE) -> None:
        self.name, self.above, self.changed = name, above, changed
        self.same: Dict[bytes, Counted] = {}  # Files in it whose record is the same before and after, by its body.

    def has(self, folder: bytes) -> bool:
        """Whether a folder is this one or below it."""
        return self.name is None or folder == self.name or self.name == b"" or is_below(folder, self.name)


class PlacedPair(NamedTuple):
    """Files that differ, with their shape but for the move."""

    pair: Pair
    shape: Shape
    place: int


class Shapes:
    """The files of two snapshots by their shapes; those are counted that are in some folders. Where the users and groups are the
    same before and after, files are passed over whose records and directories above are the same too: nobody may do anything else
    with them."""

    def __init__(self, folders: Sequence[bytes], has_same_people: bool = False) -> None:
        self.folders, self.has_same_people = folders, has_same_people
        self.bodies: Numbered[bytes] = Numbered()
        # Directories from the root on: the number of those above the last one, and that of its record.
        self.ways: Numbered[Tuple[int, int]] = Numbered()
        self.ways.number((NONE, GONE))
        self.changed: Numbered[ChangedDirectory] = Numbered()
        self.changed.number(ChangedDirectory(NONE, b"", GONE, GONE))
        self.counted: Dict[Shape, Counted] = {}
        self.placed: List[PlacedPair] = []
        self.levels = [DirectoryAbove(None)]
        self.last: Tuple[bytes, Bodies] = (b"", (None, None))  # The last file, which may be a directory.
        self.place = 0

    def read(self, paths: Iterable[Union[Pair, List[bytes]]]) -> List[Pair]:
        """Counts all paths of both snapshots but those that differ, and returns these."""
        for it in paths:
            if isinstance(it, Pair):
                self.add_pair(it)
            else:
                self.add_same(it)
        while self.levels:
            self.leave()
        return [it.pair for it in self.placed]

    def count_pairs(self, moves: Mapping[bytes, int]) -> None:
        """Counts those that differ: of files that are new or gone some moved, by their paths."""
        for pair, shape, place in self.placed:
            if is_at_or_below(pair.path, self.folders):
                found = pair.new or pair.old
                assert found is not None
                move = NONE if shape.is_kept() else moves.get(pair.path, NONE)
                self.count(shape._replace(move=move), Counted(place, found.name(), 1))

    def count(self, shape: Shape, files: Counted) -> None:
        known = self.counted.get(shape)
        if known is None:
            self.counted[shape] = files
        else:
            known.add(files)

    def add_pair(self, pair: Pair) -> None:
        found = pair.new or pair.old
        assert found is not None
        name = name_in(found.record.partition(b"\n")[0])
        level = self.enter(name.rpartition(b"/")[0])
        bodies = tuple(None if it is None else it.body() for it in (pair.old, pair.new))
        old, new = (GONE if it is None else self.bodies.number(it) for it in bodies)
        self.placed.append(PlacedPair(pair, Shape(old, new, *level.above, level.changed), self.place))
        self.last = name, (bodies[0], bodies[1])
        self.place += 1

    def pass_over(self, records: List[bytes]) -> None:
        """Keeps the directories of some files alone, since files that differ may follow in them."""
        for record in records:
            first = record[: record.index(b"\n")]
            if first[-1:] == b"/" or first == ROOT:
                name, body = name_in(first), record[len(first) + 1 :]
                self.enter(name.rpartition(b"/")[0])
                self.last = name, (body, body)
        self.place += len(records)

    def add_same(self, records: List[bytes]) -> None:
        """Counts files in the order of their paths. There may be a million: of each little is looked at."""
        if self.has_same_people and records:
            changed = self.enter(name_in(records[0].partition(b"\n")[0]).rpartition(b"/")[0]).changed
            self.last = b"", (None, None)  # It was entered, or nothing is in it.
            if changed == NONE:
                self.pass_over(records)
                return
        is_all, here, level = self.folders == [b""], None, self.levels[-1]
        name, body = b"", b""
        for place, record in enumerate(records, self.place):
            last_name, last_body = name, body
            name, _, body = record.partition(b"\n")
            if name[-1:] == b"/" or name == ROOT:
                name = name_in(name)
            above = name.rpartition(b"/")[0]
            if above != here:
                if place != self.place:
                    self.last = last_name, (last_body, last_body)
                here, level = above if name else None, self.enter(above)
            if is_all or is_at_or_below(path_of(name[len(FILE_HEAD) :]), self.folders):
                files = level.same.get(body)
                if files is None:
                    level.same[body] = Counted(place, name[len(FILE_HEAD) :] or b".", 1)
                else:
                    files.files += 1
        if records:
            self.last, self.place = (name, (body, body)), self.place + len(records)

    def enter(self, folder: bytes) -> DirectoryAbove:
        """The level of what is in a folder: a directory comes right before what is in it."""
        name, bodies = self.last
        if bodies != (None, None) and (folder == name or is_below(folder, name)):
            self.push(name, bodies)
        while not self.levels[-1].has(folder):
            self.leave()
        return self.levels[-1]

    def push(self, name: bytes, bodies: Bodies) -> None:
        level = self.levels[-1]
        path = path_of(name[len(FILE_HEAD) :])
        if None in bodies and not is_at_or_below(path, self.folders):  # Above what both have: taken to be the same in both.
            bodies = bodies[0] or bodies[1], bodies[0] or bodies[1]
        old, new = (GONE if it is None else self.bodies.number(it) for it in bodies)
        ways = [way if body == GONE else self.ways.number((way, body)) for way, body in zip(level.above, (old, new))]
        changed = level.changed
        if old != new:
            changed = self.changed.number(ChangedDirectory(changed, path, old, new))
        self.levels.append(DirectoryAbove(name, (ways[0], ways[1]), changed))

    def leave(self) -> None:
        """Counts the files of the last level, which is left."""
        level = self.levels.pop()
        for body, files in level.same.items():
            number = self.bodies.number(body)
            self.count(Shape(number, number, *level.above, level.changed), files)

    def records(self, shapes: Iterable[Shape]) -> List[int]:
        """The numbers of all records that decide on files of these shapes."""
        found: Set[int] = set()
        seen = {NONE}
        for shape in shapes:
            found |= {shape.old, shape.new}
            for way in (shape.old_above, shape.new_above):
                while way not in seen:
                    seen.add(way)
                    way, body = self.ways.values[way]
                    found.add(body)
        return sorted(found - {GONE})


def name_in(first: bytes) -> bytes:
    """The name in the first line of a record, with what is before it, so that names have one form; nothing of the root."""
    return b"" if first == ROOT else first.rstrip(b"/")


# --- the records of some folders


def wanted_heads(folders: Sequence[bytes]) -> Tuple[bytes, ...]:
    """How the records of folders begin, and those of the files in them and of the directories above."""
    heads: Set[bytes] = set()
    for folder in folders:
        name = FILE_HEAD + shown_path(folder)
        heads |= {name + b"\n", name + b"/"} if folder else {FILE_HEAD}
        while folder:
            folder = folder.rpartition(b"/")[0]
            name = FILE_HEAD + shown_path(folder)
            heads |= {name + b"\n", name + b"/\n"}
    return tuple(heads)


def records_of_folders(blocks: Iterator[List[bytes]], folders: Sequence[bytes]) -> RecordReader:
    """The records that decide on the files in some folders."""
    heads = wanted_heads(folders)
    return RecordReader(blocks if FILE_HEAD in heads else (
        [record for record in block if record.startswith(heads)] for block in blocks))
