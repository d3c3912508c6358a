"""Files by their descriptors, directory by directory: each is opened in the directory that it is in, through no symbolic link,
and all that is recorded of it is read by that descriptor.

A process walks for some time, and gives back what it found and where others can go on.
"""
from __future__ import annotations

import os
import stat
from typing import List, NamedTuple, Tuple

from ..base import acl_bytes, linux, live
from ..base.beside import PLAIN
from ..base.live import PLACES, NotFound, Opener
from ..base.messages import Failure, reason
from . import scope as scopes
from .list_texts import LABEL_TEXTS, NoList, shown_name
from .long_names import EXCHANGED, START, LongNames
from .marking import KnownMount, KnownMounts, attributes_of, marked, other_lists
from .runs import EXCLUDED, IS_FOLDER, LINK, LONG, OTHER_SYSTEM, REPEATED, SEVERAL, UNREAD, LeftOut, Row
from .scope import LONGEST_NAME, MOST_BYTES, Scope, of_folder

MANY = 1000  # Names that a process takes before it gives back the rest: one of a long record counts more than once,
MOST_TEXT = 512  # by these bytes.
DEEPEST = 100  # Directories in one another that it has open.
ACCESS, DEFAULT = acl_bytes.ACCESS.decode(), acl_bytes.DEFAULT.decode()


class Rest(NamedTuple):
    """Names of a directory that are still to be looked at, which one process gives back and another one takes."""

    path: bytes  # Of the directory, with a slash at its end; empty where the name is that of the root.
    device: int
    inode: int
    mount: bytes  # How it is mounted.
    is_inside: bool  # Whether all in it is recorded, or only what leads to a FOLDER.
    names: bytes  # With a NUL byte between each two.
    number: int  # Of the names.
    weight: int = 1  # How many files were below each name so far.
    start: int = 0  # Where the names begin that no process has.

    def cut(self, number: int) -> Tuple[Rest, Rest]:
        """The first names, and the others, which are in the same text."""
        end = self.start
        for _ in range(number):
            end = self.names.find(b"\0", end) + 1 or len(self.names) + 1
        return (self._replace(names=self.names[self.start : end - 1], number=number, start=0),
                self._replace(number=self.number - number, start=end))


START_OF_ALL = Rest(b"", 0, 0, PLAIN, False, b"/", 1)


class Walked(NamedTuple):
    """What was found, and where to go on, in the order of paths."""

    rows: List[Row]
    left_out: LeftOut
    rests: List[Rest]


def sorted_names(folder: bytes) -> List[bytes]:
    """The names in a directory; Failure where they are too many, and where they do not end."""
    names: List[bytes] = []
    size = 0
    with os.scandir(folder) as entries:
        for entry in entries:
            names.append(entry.name)
            size += len(names[-1]) + 1
            if len(names) > scopes.MOST_NAMES or size > MOST_BYTES:
                raise Failure(os.readlink(folder) + b": more names are in it than can be recorded: leave it out with --exclude")
    return sorted(names)


def raw_status(descriptor: int, device: int) -> linux.Raw:
    """The status of an open file, without asking a server or a user's process. Where these keep root out, and it is not of the
    device of its directory, it has the device alone, as that of a directory."""
    try:
        return linux.statx(descriptor, b"", linux.AS_KNOWN)
    except PermissionError:
        raw = linux.statx(descriptor, b"", linux.AS_KNOWN, 0)
        if linux.read_status(raw)[0][4] == device:
            raise
        return (*raw[:3], linux.LABEL.pack(0, 0, stat.S_IFDIR), *raw[4:])


class Walker:
    """Walks through what a scope has."""

    def __init__(self, scope: Scope) -> None:
        self.scope, self.opener, self.mounts = scope, Opener(), KnownMounts()

    def walk(self, rest: Rest) -> Walked:
        """Looks at names of a directory, which has to be the one that was recorded, and at what is below them, until there are many."""
        self.left_out, self.room = LeftOut(), MANY
        self.rows: List[Row] = []
        self.rests: List[Rest] = []
        try:
            folder = self.opener.folder(rest.path.strip(b"/"))
            if rest.path and linux.status_of(folder)[4:6] != (rest.device, rest.inode):
                raise NotFound(EXCHANGED)
        except (OSError, NotFound) as error:
            self.complain(rest.path, error, b"cannot be opened: ")
        else:
            self.go_through(rest, rest.names.split(b"\0"), folder, 1)
        return Walked(self.rows, self.left_out, self.rests)

    def go_through(self, rest: Rest, names: List[bytes], folder: int, depth: int) -> None:
        """Looks at the names of an open directory and at what is below them, one after another, as long as there is room."""
        before = len(self.rows)
        for place, name in enumerate(names):
            if self.room <= 0 or depth == DEEPEST:
                weight = (len(self.rows) - before) // place if place else rest.weight
                left = b"\0".join(names[place:])
                self.rests.append(rest._replace(names=left, number=len(names) - place, weight=max(1, weight)))
                self.room = 0  # All that follows is a rest.
                return
            self.room -= 1
            self.look(rest, folder, name, depth)

    def complain(self, path: bytes, error: Exception, what: bytes = b"cannot be looked at: ") -> None:
        """Counts a name that could not be read; `what` failed."""
        text = error.text if isinstance(error, NoList) else EXCHANGED
        if isinstance(error, OSError) and not isinstance(error, (FileNotFoundError, NotADirectoryError)):
            text = what + reason(error)
        self.left_out.add(UNREAD, shown_name(path) + b": " + text)

    def look(self, rest: Rest, folder: int, name: bytes, depth: int) -> None:
        """Looks at a name of an open directory, and at what is below it."""
        path = rest.path + name
        is_top = path in self.scope.tops
        is_inside = rest.is_inside or is_top
        if is_inside and self.scope.globs and self.scope.leaves_out(path):
            if not self.scope.leading(of_folder(path)):
                self.left_out.add(EXCLUDED, shown_name(path))
                return
            is_inside = is_top = False
        try:
            descriptor = os.open(name, live.PATH, dir_fd=folder)
        except OSError as error:
            self.complain(path, error, b"cannot be opened: ")
            return
        try:
            self.take(rest, path, descriptor, is_inside, is_top, depth)
        except (OSError, NotFound, NoList) as error:
            self.complain(path, error)
        finally:
            os.close(descriptor)

    def take(self, rest: Rest, path: bytes, descriptor: int, is_inside: bool, is_top: bool, depth: int) -> None:
        """Records an open file, where it is not left out, and goes through it where it is a directory."""
        raw = raw_status(descriptor, rest.device)
        status, (attributes, mount) = linux.read_status(raw)
        if stat.S_ISLNK(status[0]):
            if not rest.is_inside or is_top:
                raise NotFound(EXCHANGED)
            self.left_out.add(LINK, shown_name(path))
            return
        is_folder = stat.S_ISDIR(status[0])
        whole = of_folder(path) if is_folder else path
        if status[4:6] == self.scope.work:
            return
        if is_inside and not is_top and (
                self.mounts.of(mount, descriptor).is_of_kernel if self.scope.crosses else status[4] != rest.device):
            if not self.scope.leading(whole):
                self.left_out.add(OTHER_SYSTEM, shown_name(whole))
                return
            is_inside = False
        known = self.mounts.of(mount, descriptor)
        if not known.lists_all:
            raw = linux.statx(descriptor)
            status, (attributes, _) = linux.read_status(raw)
        if len(whole) > LONGEST_NAME:
            self.left_out.add(LONG, shown_name(path[:START]))
            if is_folder:
                LongNames(self.scope, self.mounts, self.left_out, path).count(descriptor)
            return
        word, kinds, bits = marked(stat.S_IFMT(status[0]), attributes, known, rest.mount)
        if not self.record(whole, descriptor, raw, status, known, kinds, bits):
            word = rest.mount
        if is_folder:
            below = Rest(whole, *status[4:6], word, is_inside, b"", 0)
            self.go_through(below, self.names_in(below, descriptor), descriptor, depth + 1)

    def record(self, name: bytes, descriptor: int, raw: linux.Raw, status: linux.Status, known: KnownMount, kinds: List[bytes],
               bits: int) -> bool:
        """Records an open file of these marks, unless it has a list that cannot be recorded; whether it is."""
        mode, _, _, links, device, inode, birth = status
        place, is_folder = PLACES[descriptor], stat.S_ISDIR(mode)
        names = attributes_of(place)
        listed = names if known.lists_all and names is not None else (ACCESS, DEFAULT)
        access = default = None
        try:
            if ACCESS in listed:
                access = live.attribute(place, acl_bytes.ACCESS)
            if is_folder and DEFAULT in listed:
                default = live.attribute(place, acl_bytes.DEFAULT)
            text = LABEL_TEXTS[raw[3], access, default]
        except (OSError, NoList) as error:
            self.complain(name, error)
            return False
        bits |= (other_lists(place, names) if names != [] else 0) | REPEATED * text.is_repeated
        bits |= IS_FOLDER if is_folder else SEVERAL if links > 1 else 0
        shown, (seconds, nanoseconds) = shown_name(name), raw[6:8] if birth else (0, 0)
        self.rows.append((
            b"# file: %s%s" % (shown, text.lines), b"%d %d %d.%09d %s\0" % (device, inode, seconds, nanoseconds, name),
            b"".join([b"%s %s\n" % (kind, shown) for kind in kinds]) if kinds else b"", hash((device, inode)), bits, text.whom))
        self.room -= len(text.lines) // MOST_TEXT
        return True

    def names_in(self, rest: Rest, descriptor: int) -> List[bytes]:
        """The names in an open directory that are to be looked at."""
        names: List[bytes] = []
        if rest.is_inside:
            try:
                names = sorted_names(PLACES[descriptor])
            except OSError as error:
                self.complain(rest.path, error, b"cannot be read: ")
        leading = self.scope.leading(rest.path)
        return sorted({*names, *leading}) if leading else names
