"""Folders of snapshots. Each is opened once, with the files that are in it then: what a command reads of it later, and what the
program gets, is of these, whoever puts another snapshot in its place meanwhile.

A snapshot that facl-snapshot replaces is removed, so its files are opened at once. Of many parts of a tree some are closed again;
one that is opened once more has to be the same.
"""
from __future__ import annotations

import contextlib
import errno
import os
import re
import stat
from typing import Dict, Iterator, List, NamedTuple, Optional, Tuple

from . import beside, scratch, trusted
from .messages import Failure, failing, held
from .new_file import DIRECTORY

TEXTS = (b"passwd", b"group", b"dump")  # Which the program loads.
FILES = (*TEXTS, b"links", b"inodes", beside.NAME, b"meta")
PART = re.compile(rb"[0-9]{3,7}")  # The folder of a part of a snapshot (--split).
FIRST = b"001"  # Of several snapshots of a tree, which are in one folder.
FILE_LIMIT = 268_435_456  # Bytes of a dump that the program loads.
TRIES = 20  # To open a folder that others replace.
MOST_OPEN = 16  # Folders.
EXCHANGED = b": another snapshot is in its place now: run the command again"
State = Tuple[int, ...]


def state_of(descriptor: int) -> State:
    """Which folder an open one is, and when a name in it was last changed."""
    look = os.fstat(descriptor)
    return look.st_dev, look.st_ino, look.st_nlink, look.st_mtime_ns


def content_of(descriptor: int) -> State:
    """The size of an open file, and when it was last written."""
    look = os.fstat(descriptor)
    return look.st_size, look.st_mtime_ns


class OpenText(NamedTuple):
    """A file of a snapshot."""

    descriptor: int
    path: bytes  # As messages name it.
    content: State  # When it was opened.

    def check(self) -> None:
        """Fails where somebody wrote it since it was opened."""
        if content_of(self.descriptor) != self.content:
            raise Failure(self.path + b": was changed while it was read: run the command again")

    def read(self) -> bytes:
        """What is in it, which may be much, without a copy."""
        size, _ = self.content
        if size > trusted.MOST:
            raise trusted.too_large(self.path, trusted.MOST)
        with failing(self.path, True):  # As it is a folder, or the disk is at fault.
            found = more = os.pread(self.descriptor, size, 0)
            while more and len(found) < size:
                more = os.pread(self.descriptor, size - len(found), len(found))
                found += more
        self.check()
        return found


class Folder:
    """A folder with the files that it had when it was opened, or with files that are given."""

    def __init__(self, name: bytes) -> None:
        self.name = name
        self.files: Dict[bytes, OpenText] = {}
        self.faults: Dict[bytes, bytes] = {}  # Why a file that is there is not trusted, or cannot be opened.
        self.parts: List[bytes] = []  # The names of folders that are snapshots of a tree.
        self.way: Optional[trusted.Way] = None  # To the folder, where it has parts.
        self.state: State = ()

    def __del__(self) -> None:
        for file in self.files.values():
            os.close(file.descriptor)
        if self.way is not None:
            self.way.close()

    def path(self, file: bytes) -> bytes:
        return os.path.join(self.name, file)

    def add(self, file: bytes, descriptor: int, path: bytes) -> None:
        """Takes an open file."""
        self.files[file] = OpenText(descriptor, path, content_of(descriptor))

    def put(self, file: bytes, text: bytes) -> None:
        """Takes a text, which is in a file without a name then."""
        with scratch.new_file("facl-texts.") as made:
            made.write(text)
            made.flush()
            self.add(file, os.dup(made.fileno()), self.path(file))

    def share(self, file: bytes, other: Folder) -> None:
        """Takes a file that another folder has open."""
        shared = other.open_text(file)
        self.files[file] = shared._replace(descriptor=os.dup(shared.descriptor))

    def has(self, file: bytes) -> bool:
        return file in self.files or file in self.faults

    def open_text(self, file: bytes) -> OpenText:
        """Fails where it has no such file, or the file is not trusted."""
        if file not in self.files:
            raise Failure(self.faults.get(file) or self.path(file) + b": " + os.strerror(errno.ENOENT).encode())
        return self.files[file]

    def read(self, file: bytes) -> bytes:
        """What is in a file."""
        return self.open_text(file).read()

    def optional(self, file: bytes) -> bytes:
        """The same; empty where it has none."""
        return self.read(file) if self.has(file) else b""

    def command(self, program: str) -> Tuple[List[bytes], List[int]]:
        """The program's command line over its texts, and the descriptors that the program has to have for that."""
        words, texts = [os.fsencode(program)], [self.open_text(name) for name in TEXTS]
        for name, text in zip(TEXTS, texts):
            text.check()
            words += [b"--" + name, b"/proc/self/fd/%d" % text.descriptor]
        size, _ = texts[-1].content
        if size > FILE_LIMIT:
            raise Failure(self.name + b": its dump has more than 268,435,456 bytes, the most that the program reads: take several "
                          b"snapshots with facl snapshot --split")
        return words, [text.descriptor for text in texts]


def parts_in(folder: int) -> List[bytes]:
    """The names of the parts that an open folder has, by their numbers."""
    names = sorted((name for name in map(os.fsencode, os.listdir(folder)) if name.isdigit()), key=int)
    with contextlib.suppress(FileNotFoundError):  # A link to nothing, or it was removed.
        return names if FIRST in names and stat.S_ISDIR(os.stat(FIRST, dir_fd=folder).st_mode) else []
    return []


def remove_snapshot(name: bytes, above: int, may_have_parts: bool = True) -> bool:
    """Removes the files in the folder of a snapshot and of its parts, which have none themselves, and the folders in which nothing
    else is; whether it is gone."""
    with held(os.open(name, DIRECTORY, dir_fd=above)) as folder:
        for known in FILES:
            with contextlib.suppress(FileNotFoundError, IsADirectoryError):
                os.unlink(known, dir_fd=folder)
        for part in sorted(filter(PART.fullmatch, map(os.fsencode, os.listdir(folder)))) if may_have_parts else ():
            if stat.S_ISDIR(os.stat(part, dir_fd=folder, follow_symlinks=False).st_mode):
                remove_snapshot(part, folder, may_have_parts=False)
    with contextlib.suppress(OSError):
        os.rmdir(name, dir_fd=above)
        return True
    return False


def open_files(way: trusted.Way, name: bytes) -> Folder:
    """Opens the files that the folder at the end of a way has."""
    folder = way.opened(os.O_RDONLY | os.O_DIRECTORY)
    try:
        state, made = state_of(folder), Folder(name)
        for file in FILES:
            try:
                with contextlib.suppress(FileNotFoundError):
                    made.add(file, trusted.open_beside(way, file, made.path(file)), made.path(file))
            except Failure as failure:
                made.faults[file] = failure.text
        made.parts = [] if made.has(TEXTS[0]) else parts_in(folder)
        made.way = way.copied() if made.parts else None
        made.state = state if state_of(folder) == state else ()
        return made
    finally:
        os.close(folder)


def open_folder(name: bytes, above: Optional[Folder] = None) -> Folder:
    """Opens a folder by its name, or in an open one that has it as a part; once more where it is replaced meanwhile."""
    for _ in range(TRIES):
        with failing(name, True), contextlib.closing(trusted.way_to(name) if above is None or above.way is None else
                                               above.way.copied().gone_in(os.path.basename(name), name)) as way:
            made = open_files(way, name)
        if made.state:
            return made
    raise Failure(name + b": is replaced again and again")


class Kept:
    """The folders that a command has open."""

    def __init__(self) -> None:
        self.folders: Dict[bytes, Folder] = {}  # The one that was used last is the last one.
        self.states: Dict[bytes, State] = {}

    def folder(self, name: bytes) -> Folder:
        found = self.folders.pop(name, None) or self.opened(name)
        self.folders[name] = found
        closed = [it for it, folder in self.folders.items() if folder.state and not folder.parts]
        for it in closed[: max(0, len(closed) - MOST_OPEN)]:
            del self.folders[it]
        return found

    def opened(self, name: bytes) -> Folder:
        part = os.path.basename(name)
        above = next((it for it in self.folders.values() if part in it.parts and it.path(part) == name), None)
        found = open_folder(name, above)
        if self.states.setdefault(name, found.state) != found.state:
            raise Failure(name + EXCHANGED)
        return found


KEPT: List[Kept] = []  # At most one.


@contextlib.contextmanager
def kept() -> Iterator[None]:
    """Has each folder opened once, as long as this goes on."""
    before, KEPT[:] = KEPT[:], KEPT or [Kept()]
    try:
        yield
    finally:
        KEPT[:] = before


def keep(folder: Folder) -> None:
    """Has a folder found by its name, as long as `kept` goes on."""
    KEPT[0].folders[folder.name] = folder


def folder_of(name: bytes) -> Folder:
    """A folder by its name, which is opened where it is not."""
    return KEPT[0].folder(name) if KEPT else open_folder(name)


def is_folder(name: bytes) -> bool:
    """Whether there is a folder, or it cannot be seen what is there."""
    try:
        return bool(KEPT) and name in KEPT[0].folders or stat.S_ISDIR(os.stat(name).st_mode)
    except OSError as error:
        return isinstance(error, PermissionError)
