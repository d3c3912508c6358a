"""The files of snapshots that are written as the walk goes on: dump, inodes, marks and links of one, or of several parts."""
from __future__ import annotations

import os
from typing import IO, Dict, Iterable, Iterator, List, Optional, Tuple

from ..base import beside, linux
from ..base.messages import Failure, failing
from ..base.new_file import create, make_directory
from ..base.progress import AT
from . import scope as scopes
from .linked import LinkedNames, Linker
from .list_texts import shown_name
from .marking import SAID, numbers_of
from .runs import BITS, IS_FOLDER, REPEATED, UNREAD, LeftOut, Row, Sums, Warned, name_in
from .scope import MOST_BYTES
from .walking import Walked

CANNOT_WRITE = b"cannot write "


def write_file(folder: int, name: bytes, text: bytes) -> None:
    """Makes a file of the caller alone in an open folder."""
    with failing(CANNOT_WRITE + name, True), open(create(name, folder), "wb") as file:
        file.write(text)


class Recording:
    """A snapshot, or a part with this name, which is written in a folder; and what is recorded of its files."""

    linked: LinkedNames

    def __init__(self, folder: int, name: bytes = b"") -> None:
        self.folder, self.name = folder, name
        self.files: Dict[bytes, IO[bytes]] = {}
        for file in (b"dump", b"inodes", beside.NAME):
            with failing(CANNOT_WRITE + file, True):
                self.files[file] = open(create(file, folder), "w+b")
        self.sizes = dict.fromkeys(self.files, 0)
        self.write(b"inodes", b"boot " + linux.boot().encode() + b"\0")
        self.sums, self.linker = Sums(), Linker()
        self.unread, self.first_unread = 0, b""

    def write(self, name: bytes, text: bytes) -> None:
        self.sizes[name] += len(text)
        with failing(CANNOT_WRITE + name, True):
            self.files[name].write(text)

    def add(self, rows: List[Row]) -> None:
        if not rows:
            return
        for name, texts in zip(self.files, zip(*rows)):
            self.write(name, b"".join(texts))
        self.sums.add(rows)
        self.linker.add(rows)
        AT.at("recording")
        AT.done = self.sums.files

    def complain(self, left_out: LeftOut) -> None:
        """Counts what could not be read."""
        self.first_unread = self.first_unread or left_out.first[UNREAD]
        self.unread += left_out.numbers[UNREAD]

    def finish(self) -> None:
        """Writes links, which needs all names, and closes its files."""
        if not self.sums.files:
            raise Failure(b"no file could be read: " + self.first_unread)
        with failing(CANNOT_WRITE + b"inodes", True):
            self.files[b"inodes"].flush()
        self.linked = self.linker.names(self.files[b"inodes"])
        del self.linker
        for name, file in self.files.items():
            with failing(CANNOT_WRITE + name, True):
                file.close()
        write_file(self.folder, b"links", b"\n".join(b"".join(shown_name(name) + b"\n" for name in its) for its in self.linked.sets))

    def said(self) -> List[Warned]:
        """What is warned of."""
        linked, sums = self.linked, self.sums
        found = [
            (b"names of files that have another name in the snapshot too (see links)", sum(map(len, linked.sets)), linked.first),
            (b"files with more than one link whose other names are not in the snapshot", linked.outside, linked.first_outside),
            *((text, sums.numbers[bit], sums.first.get(bit, b"")) for bit, text in (
                (REPEATED, b"ACLs with several entries of one user or group, which are recorded as one, or with entries of ids that "
                           b"this system does not know, which are left out, as Linux judges by them"),
                *((BITS[kind], text) for kind, text in SAID.items())))]
        return [(text, number, shown_name(first)) for text, number, first in found]

    def numbers(self) -> bytes:
        """The lines of meta."""
        return b"files %d\nlinked-names %d\n" % (self.sums.files, sum(map(len, self.linked.sets))) + numbers_of(self.sums)


class Parts:
    """Snapshots of at most `count` files each: as many as fit, in the order of paths, and the directories above them. A directory
    at the end is left to the next one, where the following name is in it."""

    def __init__(self, made: int, count: int) -> None:
        self.made, self.count = made, count
        self.above: List[Tuple[bytes, Row]] = []  # The directories above the last file, with their names,
        self.held: List[Tuple[bytes, Row]] = []  # and the last ones of them, of which it is not known yet of which part they are.
        self.parts: List[Recording] = []
        self.begin()

    def begin(self) -> None:
        """Begins a part with the directories above its first file."""
        name = b"%03d" % (len(self.parts) + 1)
        self.parts.append(Recording(make_directory(name, self.made), name))
        self.rows = [row for _, row in self.above]  # Those that are not written yet.
        self.files = self.files_above = len(self.rows)
        self.size = sum(len(row[0]) for row in self.rows)

    def add(self, rows: List[Row]) -> None:
        for row in rows:
            name, size = name_in(row[1]), len(row[0])
            while (self.held or self.above) and not name.startswith((self.held or self.above)[-1][0]):
                self.take_held()
                self.above.pop()
            if not self.has_room_for(size):
                self.begin_next(name, size)
            self.held.append((name, row))
            if not row[4] & IS_FOLDER:
                self.take_held()
                self.above.pop()
        self.write()

    def has_room_for(self, size: int) -> bool:
        """Whether what is held and a file with a record of this size fit."""
        return (self.files + len(self.held) < self.count
                and self.size + sum(len(row[0]) for _, row in self.held) + size <= MOST_BYTES)

    def take_held(self) -> None:
        """Takes the directories at the end: they are of this part."""
        self.above += self.held
        self.rows += [row for _, row in self.held]
        self.files += len(self.held)
        self.size += sum(len(row[0]) for _, row in self.held)
        self.held = []

    def begin_next(self, following: bytes, size: int) -> None:
        """Begins another part, where this one has more than directories above others."""
        if self.files > self.files_above:
            self.end()
            self.begin()
        if not self.has_room_for(size):
            raise Failure(b"--split %d: is too few for the directories above %s" % (self.count, shown_name(following)))

    def write(self) -> None:
        self.parts[-1].add(self.rows)
        self.rows = []

    def end(self) -> None:
        """Ends the last part."""
        self.write()
        self.parts[-1].finish()
        os.close(self.parts[-1].folder)


def limited(found: Iterable[Walked], left_out: LeftOut, most: int) -> Iterator[Walked]:
    """What is found, as long as it is not more files than this, and not too many names; what is left out is counted."""
    for walked in found:
        left_out.join(walked.left_out)
        left_out.recorded += len(walked.rows)
        for number, limit in ((left_out.recorded, most), (left_out.recorded + left_out.total(), scopes.MOST_NAMES)):
            if number > limit:
                raise scopes.too_many(limit)
        yield walked


def record(found: Iterable[Walked], made: int, count: Optional[int], left_out: LeftOut) -> List[Recording]:
    """Writes one snapshot, or several of `count` files each; counts what is left out of all."""
    if count is None:
        whole = Recording(made)
        for walked in limited(found, left_out, scopes.MOST_FILES):
            whole.complain(walked.left_out)
            whole.add(walked.rows)
            if whole.sizes[b"dump"] > MOST_BYTES:
                raise Failure(b"the dump has more than %s bytes, which facl does not take: name fewer FOLDERs, or take several "
                              b"snapshots with --split COUNT" % format(MOST_BYTES, ",").encode())
        whole.finish()
        return [whole]
    parts = Parts(made, count)
    for walked in limited(found, left_out, scopes.MOST_NAMES):
        parts.parts[-1].complain(walked.left_out)
        parts.add(walked.rows)
    parts.take_held()
    parts.end()
    return parts.parts
