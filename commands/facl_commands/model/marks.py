"""The marks of a snapshot: what Linux looks at beside the lists of a file, as facl-snapshot keeps it (base/beside.py)."""
from __future__ import annotations

import contextlib
import re
from collections import Counter
from typing import Callable, Dict, Iterable, Iterator, List, NamedTuple, Optional

from ..base import beside
from ..base.folders import folder_of
from ..base.messages import counted
from ..base.names import at_or_below, directories_above, highest, live_name, parent_of, read_path
from ..program.protocol import LIST_ALL, LIST_NUMBERS
from ..program.session import Session
from . import meta, sources, split_tree
from .records import ChangedPaths, list_slices, list_words, restore

# What is said of a file.
TEXTS = {
    beside.IMMUTABLE: b"immutable: nobody can write it",
    beside.APPEND_ONLY: b"append-only: nobody can change what it has",
    beside.READ_ONLY: b"read-only file system: nobody can write it",
    beside.NOEXEC: b"noexec file system: x of a file grants no execution",
}
NO_WRITING = (beside.IMMUTABLE, beside.READ_ONLY)  # Nobody can write such a file, or make, remove or rename what is in it.
NO_CHANGE = (*NO_WRITING, beside.APPEND_ONLY)  # Nobody can change the owner, mode and lists of such a file, or remove it.
COUNTED = {beside.IMMUTABLE: "immutable file", beside.APPEND_ONLY: "append-only file",
           beside.READ_ONLY: "read-only file system", beside.NOEXEC: "noexec file system"}
OTHERS = {beside.NFS4_LIST: b"NFSv4", beside.RICH_LIST: b"rich lists", beside.SAMBA_LIST: b"Samba"}  # Lists by kinds.

WRITES = re.compile(rb"^((?:user|group|mask|other):[0-9]*:[r-])w", re.MULTILINE)  # In a record with ids as numbers.
NOUNS = {beside.IMMUTABLE: ("immutable file", ""),
         beside.READ_ONLY: ("file on a read-only file system", "files on read-only file systems")}


class Marks:
    """The marks of some files, by their paths."""

    def __init__(self, lines: Iterable[bytes] = ()) -> None:
        self.own: Dict[bytes, List[bytes]] = {}  # The attributes of files.
        self.mounts: Dict[bytes, bytes] = {}  # How files are mounted that are so otherwise than what they are in.
        for line in lines:
            kind, _, name = line.partition(b" ")
            path = read_path(name)
            if kind in beside.MOUNTS:
                self.mounts[path] = kind
            elif kind in beside.OF_FILES and kind not in self.own.setdefault(path, []):
                self.own[path].append(kind)

    def mount(self, path: bytes) -> bytes:
        """How a file is mounted."""
        if not self.mounts:
            return beside.PLAIN
        return next((self.mounts[it] for it in (path, *directories_above(path)) if it in self.mounts), beside.PLAIN)

    def of(self, path: bytes) -> List[bytes]:
        """The kinds of a file."""
        return [*self.own.get(path, ()), *beside.of_mount(self.mount(path))]

    def keeps(self, path: bytes, kinds: Iterable[bytes] = NO_CHANGE) -> Optional[bytes]:
        """By which of these kinds nobody can do something with a file; None where that is not so."""
        its = self.of(path)
        return next((kind for kind in kinds if kind in its), None)

    def keeps_name(self, path: bytes) -> Optional[bytes]:
        """The text of why nobody can remove or rename a file: its own mark, or that of the directory above."""
        above, own = self.keeps(parent_of(path)), self.keeps(path)
        if above is None:
            return None if own is None else b"it is " + about(own)
        return b"the folder above is " + about(above)

    def keeps_out(self, folder: bytes) -> Optional[bytes]:
        """The text of what a folder is, in which nobody can make a file."""
        kind = self.keeps(folder, NO_WRITING)
        return None if kind is None else about(kind)

    def immutable(self, folders: List[bytes]) -> List[bytes]:
        """The immutable files at or below some folders."""
        return at_or_below([path for path, its in self.own.items() if beside.IMMUTABLE in its], folders)

    def mounted(self, kind: bytes, folders: List[bytes]) -> List[bytes]:
        """Of some folders, and of what is mounted below them, that which is on file systems of this kind."""
        found = [*folders, *at_or_below(self.mounts, folders)]
        return [path for path in dict.fromkeys(found) if kind in beside.of_mount(self.mount(path))]

    def texts(self, path: bytes) -> List[bytes]:
        """What is said of a file."""
        return [TEXTS[kind] for kind in self.of(path) if kind in TEXTS]


NO_MARKS = Marks()


def about(kind: bytes) -> bytes:
    """The kind of a file after `is`."""
    return {beside.READ_ONLY: b"on a read-only file system", beside.NOEXEC: b"on a noexec file system"}.get(kind, kind)


def text_of(folder: bytes) -> bytes:
    """The file of a snapshot; empty where it has none."""
    return folder_of(folder).optional(beside.NAME)


def marks_of(folder: bytes) -> Marks:
    """Those of a snapshot, or of its parts."""
    return Marks(line for it in split_tree.snapshots_in(folder) for line in text_of(it).splitlines())


# --- what is said of a whole snapshot


def alone(marks: Marks) -> Iterator[bytes]:
    """What answers by lists alone leave out of account."""
    kinds = Counter(kind for its in marks.own.values() for kind in its)
    kinds.update(kind for word in marks.mounts.values() for kind in beside.of_mount(word))
    parts = [counted(kinds[kind], noun) for kind, noun in COUNTED.items() if kinds[kind]]
    if parts:
        yield b", ".join(parts) + b": judged by ACLs alone, which grant there what nobody can do"


def differing(old: Marks, new: Marks) -> Iterator[bytes]:
    """What Linux looks at beside the lists, which is otherwise in the second snapshot, each kind with the first files."""
    both = {*old.own, *old.mounts, *new.own, *new.mounts}
    for kind, noun in COUNTED.items():
        for one, other, text in ((old, new, b"new"), (new, old, b"no longer")):
            found = sorted(it for it in both if kind in other.of(it) and kind not in one.of(it))
            if found:
                yield counted(len(found), noun) + b" " + text + b", first: " + live_name(found[0])


def not_judged(folder: bytes) -> Iterator[bytes]:
    """What is not known of files of a snapshot, and the lists of other kinds that files have."""
    recorded = meta.meta_of(folder).numbers
    if recorded.get(beside.ATTRIBUTES_UNKNOWN, b"0") != b"0":
        yield b"files whose file systems do not say whether they are immutable: " + recorded[beside.ATTRIBUTES_UNKNOWN]
    parts = [b"%s: %s" % (text, recorded[kind]) for kind, text in OTHERS.items() if recorded.get(kind, b"0") != b"0"]
    if parts:
        yield b"files with ACLs that facl does not judge: " + b", ".join(parts)


# --- edits


def obstacles(marks: Marks, changes: ChangedPaths) -> Dict[bytes, bytes]:
    """The files that nobody can change, make or remove as edits want it, by path, each with why."""
    kept = [(path, kind) for path in changes.changed for kind in [marks.keeps(path)] if kind is not None]
    found = [*((path, b"it is ", about(kind)) for path, kind in kept),
             *((path, b"the folder above is ", marks.keeps_out(parent_of(path))) for path in changes.made),
             *((path, b"", marks.keeps_name(path)) for path in changes.removed)]
    return {path: begin + text for path, begin, text in found if text is not None}


# --- files that nobody can write, whatever their lists say, in the answers of a session. The program knows nothing of marks. So
# while it is asked who can write, it is given lists of these files in which no entry has w, and then their lists again.


class Unwritable(NamedTuple):
    """The files at or below some others that nobody can write: by path what their records have after the name."""

    bodies: Dict[bytes, bytes]
    numbers: Dict[bytes, int]  # Of each kind.

    def text(self) -> bytes:
        """How many of which kind."""
        return b", ".join(counted(number, *NOUNS[kind]) for kind, number in self.numbers.items() if number)


def find_unwritable(session: Session, marks: Marks, folders: List[bytes]) -> Unwritable:
    """Those at or below some paths."""
    found = Unwritable({}, dict.fromkeys(NO_WRITING, 0))
    read_only = highest(marks.mounted(beside.READ_ONLY, folders))
    for line, paths in ((LIST_NUMBERS, marks.immutable(folders)), (LIST_ALL, read_only)):
        for words in sources.operands_of(paths):
            for path, file in list_slices(list_words(session, words, line)).files.items():
                kind = marks.keeps(path, NO_WRITING)
                if kind is not None and path not in found.bodies:
                    found.bodies[path] = file.body
                    found.numbers[kind] += 1
    return found


def give(session: Session, found: Unwritable, body_of: Callable[[bytes], bytes] = bytes) -> None:
    """Has the files be as their records say, or as these are changed."""
    restore(session, ((path, body_of(body)) for path, body in found.bodies.items()))


@contextlib.contextmanager
def without_write(session: Session, found: Unwritable) -> Iterator[None]:
    """While it goes on, no list of these files grants w to anybody."""
    give(session, found, lambda body: WRITES.sub(rb"\1-", body))
    yield
    give(session, found)
