"""Files of the live system: each is opened once by its path, and then known by its descriptor alone.

A path is followed component by component from the root, and never through a symbolic link. What is asked and changed of
a file goes by /proc/self/fd, so it is of the very file that was opened, whatever becomes of its name.
"""
from __future__ import annotations

import errno
import os
import stat
from functools import lru_cache
from typing import Dict, List, NamedTuple, Optional, Tuple

from . import acl_bytes, linux
from .acl_bytes import Record
from .linux import Beside, Identity
from .messages import failing, held, reason

PROC = b"/proc/self/fd/"
OPEN_LIMIT = 200  # Directories of one path that are open at once.
CAPABILITY = b"security.capability"
FLAGS = stat.S_ISUID | stat.S_ISGID | stat.S_ISVTX
PATH = os.O_PATH | os.O_NOFOLLOW | os.O_CLOEXEC


class NotFound(Exception):
    """A path no longer leads to a file of its own; the text says why."""

    def __init__(self, text: bytes) -> None:
        super().__init__(text)
        self.text = text


class Seen(NamedTuple):
    """A file as it is: which file, its mode, how many names it has, its record, and what counts beside that."""

    identity: Identity
    mode: int
    names: int
    record: Record
    beside: Beside

    @property
    def is_directory(self) -> bool:
        return stat.S_ISDIR(self.mode)


class Places(Dict[int, bytes]):
    """The names of the open files of this process, by their descriptors."""

    start = PROC

    def __missing__(self, descriptor: int) -> bytes:
        self[descriptor] = self.start + b"%d" % descriptor
        return self[descriptor]

    def begin_in_own_process(self) -> None:
        """Has a process that was forked for its work find its open files by shorter names, from the folder of them."""
        os.chdir(PROC)
        self.clear()
        self.start = b""


PLACES = Places()


@lru_cache(maxsize=None)
def known_record(mode: int, owner: int, group: int, access: Optional[bytes], default: Optional[bytes]) -> Record:
    """The record of a mode, owner, group and the two lists, as the system has them; each is one value."""
    lists = acl_bytes.minimal(mode & 0o777) if access is None else acl_bytes.canonical(access), acl_bytes.canonical(default or b"")
    return Record(owner, group, mode & FLAGS, *lists)


@lru_cache(maxsize=None)
def common_of(known: int, attributes: int, label: bytes, says: int, mount: bytes) -> Tuple[int, int, int, int, bool, Beside]:
    """What files with an owner, a group and a mode on one mount have in common, by these parts of a raw status: mode, owner, group,
    device, whether their birth is known, and what counts beside their lists."""
    raw = known, attributes, 0, label, 0, says, 0, 0, mount
    (mode, owner, group, _, device, _, _), beside = linux.read_status(raw)
    return mode, owner, group, device, bool(known & linux.STATX_BTIME) and linux.keeps_birth(raw), beside


def attribute(name: bytes, attribute_name: bytes, follow: bool = True) -> Optional[bytes]:
    """An extended attribute; None where the file or its file system has none."""
    try:
        return os.getxattr(name, attribute_name, follow_symlinks=follow)
    except OSError as error:
        if error.errno not in (errno.ENODATA, errno.ENOTSUP):
            raise
        return None


def record_of(mode: int, owner: int, group: int, name: bytes, follow: bool = True) -> Record:
    """The record of a file with a mode, whose lists a name leads to; NotFound where it is a link."""
    if stat.S_ISLNK(mode):
        raise NotFound(b"is a symbolic link now")
    access = attribute(name, acl_bytes.ACCESS, follow)
    default = attribute(name, acl_bytes.DEFAULT, follow) if stat.S_ISDIR(mode) else None
    return known_record(mode & (FLAGS | 0o777), owner, group, access, default)


def look_by(descriptor: int, name: bytes, place: bytes, follow: bool = True) -> Seen:
    """An open file, or what has a name in an open directory; a place leads to its lists."""
    known, its, names, label, inode, says, seconds, nanoseconds, mount = linux.statx(descriptor, name)
    mode, owner, group, device, has_birth, beside = common_of(known, its, label, says, mount)
    identity = Identity(device, inode, seconds * 1_000_000_000 + nanoseconds if has_birth else 0)
    return Seen(identity, mode, names, record_of(mode, owner, group, place, follow), beside)


def fixed(seen: Seen) -> Optional[bytes]:
    """By which attribute nobody can change the owner, mode and lists of a file; None where it has none."""
    if seen.beside[0] & linux.IMMUTABLE:
        return b"is immutable, so nobody can change it; run chattr -i first"
    if seen.beside[0] & linux.APPEND_ONLY:
        return b"is append-only, so nobody can change its owner, mode and ACL; run chattr -a first"
    return None


class OpenFile:
    """A file by its descriptor: the calls of the system that look at it and change it."""

    def __init__(self, descriptor: int) -> None:
        self.descriptor = descriptor
        self.name = PLACES[descriptor]

    def close(self) -> None:
        os.close(self.descriptor)

    def look(self) -> Seen:
        return look_by(self.descriptor, b"", self.name)

    def record(self) -> Record:
        status = os.fstat(self.descriptor)
        return record_of(status.st_mode, status.st_uid, status.st_gid, self.name)

    def mode(self) -> int:
        return os.fstat(self.descriptor).st_mode

    def takes_lists(self) -> bool:
        """Whether its file system has lists."""
        try:
            os.getxattr(self.name, acl_bytes.ACCESS)
        except OSError as error:
            return error.errno != errno.ENOTSUP
        return True

    def set_access(self, data: bytes) -> None:
        try:
            self.set_attribute(acl_bytes.ACCESS, data)
        except OSError as error:
            if error.errno != errno.ENOTSUP or not acl_bytes.is_minimal(data):
                raise
            self.set_mode(self.mode() & FLAGS | acl_bytes.permissions_of(data))

    def set_attribute(self, attribute_name: bytes, data: bytes) -> None:
        os.setxattr(self.name, attribute_name, data)

    def set_default(self, data: bytes) -> None:
        if data:
            self.set_attribute(acl_bytes.DEFAULT, data)
        else:
            os.removexattr(self.name, acl_bytes.DEFAULT)

    def set_owner(self, owner: int, group: int) -> None:
        os.chown(self.name, owner, group)

    def set_mode(self, mode: int) -> None:
        os.chmod(self.name, mode)


class Opener:
    """Opens files by their paths. The directories of the last path are kept open, so in path order each is opened once;
    of a long path the last ones alone."""

    def __init__(self, top: Optional[int] = None) -> None:
        """Opens paths from the root on, or from an open directory."""
        self.root = os.open(b"/" if top is None else b".", PATH | os.O_DIRECTORY, dir_fd=top)
        self.parts: List[bytes] = []  # The directories from the root on,
        self.open_ones: List[int] = []  # and the descriptors of the last of them.
        self.above: Optional[bytes] = None  # The path of the last of them.

    def __enter__(self) -> Opener:
        return self

    def __exit__(self, *_error: object) -> None:
        self.close_to(0)
        os.close(self.root)

    def close_to(self, depth: int) -> None:
        """Closes the directories below this depth."""
        while len(self.parts) > depth:
            self.parts.pop()
            if self.open_ones:
                os.close(self.open_ones.pop())

    def folder(self, path: bytes) -> int:
        """Opens a directory."""
        if path != self.above:
            self.above, parts = None, path.split(b"/") if path else []
            self.close_to(len(os.path.commonprefix([self.parts, parts])))
            if self.parts and not self.open_ones:  # It is too far from the directories that are open.
                self.parts = []
            for part in parts[len(self.parts) :]:
                self.open_ones.append(open_part(self.open_ones[-1] if self.open_ones else self.root, part))
                self.parts.append(part)
                if len(self.open_ones) > OPEN_LIMIT:
                    os.close(self.open_ones.pop(0))
            self.above = path
        return self.open_ones[-1] if self.open_ones else self.root

    def open(self, path: bytes) -> OpenFile:
        """Opens a file, or the link that is there; NotFound where the path leads to none, or through a link."""
        above, _, name = path.rpartition(b"/")
        try:
            return OpenFile(os.open(name or b"/", PATH, dir_fd=self.folder(above)))
        except OSError as error:
            raise not_found(error) from error

    def look(self, path: bytes) -> Seen:
        """A file as it is now, without opening it."""
        above, _, name = path.rpartition(b"/")
        try:
            folder = self.folder(above)
            return look_by(folder, name, PLACES[folder] + b"/" + name, not name)
        except OSError as error:
            raise not_found(error) from error


def not_found(error: OSError) -> NotFound:
    """Why a path does not lead to a file."""
    return NotFound(b"is gone" if isinstance(error, (FileNotFoundError, NotADirectoryError)) else b"cannot be opened: "
                    + reason(error))


def open_part(folder: int, part: bytes) -> int:
    """Opens a directory in another one."""
    try:
        return os.open(part, PATH | os.O_DIRECTORY, dir_fd=folder)
    except NotADirectoryError:
        if stat.S_ISLNK(os.stat(part, dir_fd=folder, follow_symlinks=False).st_mode):
            raise NotFound(b"is reached by a symbolic link now") from None
        raise


def check_proc() -> None:
    """Fails where files cannot be reached by their descriptors."""
    with failing(b"/proc is not mounted, by which files are reached"), held(os.open(b"/", PATH)) as descriptor:
        if os.stat(PROC + b"%d" % descriptor).st_ino != os.fstat(descriptor).st_ino:
            raise FileNotFoundError
