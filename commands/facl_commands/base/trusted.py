"""Files and folders that nobody else than root and the caller can have written.

Each component on the way to a file, links and what they lead to included, belongs to root or to the caller, and no
other user can write there; a sticky directory may be written by all, since what is in it belongs to its owner.
"""
from __future__ import annotations

import contextlib
import errno
import grp
import os
import pwd
import re
import stat
from copy import copy
from functools import partial
from typing import IO, Callable, List, Optional

from . import acl_bytes, linux
from .messages import Failure, failing, reason

PRIVATE = 0o600
MOST = 1 << 30  # Bytes of a text of a snapshot, or of a file of a plan: a dump that the program loads has a quarter.
MOST_WRITTEN = 64 << 20  # Bytes of what a person writes: rules, accepted findings, a script, as many as the program takes.
PIECE = 1 << 20
DESCRIPTOR = re.compile(rb"/(?:dev|proc/self)/fd/([0-9]{1,9})")
LINKS_LIMIT = 40  # Symbolic links on one way, as in the kernel.
# Why somebody else can have written a file: its owner, all users, some users, whoever serves its file system.
OF_OTHER, BY_ALL, BY_OTHERS, BY_SERVER = range(4)


def owner_name(uid: int) -> bytes:
    try:
        return os.fsencode(pwd.getpwuid(uid).pw_name)
    except KeyError:
        return b"user %d" % uid


def is_own_group(gid: int, uid: int) -> bool:
    """Whether a group has one member, the user of this id, whose name it has, and is nobody else's first group."""
    try:
        user, group = pwd.getpwuid(uid), grp.getgrgid(gid)
    except KeyError:
        return False
    if user.pw_gid != gid or user.pw_name != group.gr_name or not set(group.gr_mem) <= {user.pw_name}:
        return False
    return all(it.pw_name == user.pw_name for it in pwd.getpwall() if it.pw_gid == gid)


def has_list(descriptor: int) -> bool:
    try:
        return bool(os.getxattr(b"/proc/self/fd/%d" % descriptor, acl_bytes.ACCESS))
    except OSError as error:
        return error.errno not in (errno.ENODATA, errno.ENOTSUP)


def doubt_of(descriptor: int, look: os.stat_result, may_be_sticky: bool = True) -> Optional[int]:
    """Why somebody else can have written a file; None where nobody can. A sticky directory will do where it may be one."""
    if look.st_uid not in (0, os.geteuid()):
        return OF_OTHER
    if linux.server_of(descriptor, look.st_dev) not in (None, 0, os.geteuid()):
        return BY_SERVER
    if stat.S_ISLNK(look.st_mode) or may_be_sticky and stat.S_ISDIR(look.st_mode) and look.st_mode & stat.S_ISVTX:
        return None
    return doubt_by(look.st_mode, look.st_uid, look.st_gid, lambda: has_list(descriptor))


def doubt_by(mode: int, owner: int, group: int, is_listed: Callable[[], bool]) -> Optional[int]:
    """The same by a mode, the owner's id, and whether there is a list."""
    if owner not in (0, os.geteuid()):
        return OF_OTHER
    if mode & stat.S_IWOTH:
        return BY_ALL
    return BY_OTHERS if mode & stat.S_IWGRP and (is_listed() or not is_own_group(group, owner)) else None


def fault_of(descriptor: int, look: os.stat_result) -> Optional[bytes]:
    """The same, as messages have it."""
    doubt = doubt_of(descriptor, look)
    return None if doubt is None else {
        OF_OTHER: b"belongs to " + owner_name(look.st_uid), BY_ALL: b"can be written by everybody",
        BY_OTHERS: b"can be written by others (its group, or users and groups of its ACL)",
        BY_SERVER: b"is on a file system of another user (FUSE)"}[doubt]


class Way:
    """The way to a file, component by component."""

    def __init__(self, name: bytes) -> None:
        self.name = name
        self.links = 0  # That were followed.
        self.open: List[int] = []  # The directories from the root on.
        self.shown: List[bytes] = []  # Their names.
        self.step(b"/")

    def __del__(self) -> None:
        self.close()

    def step(self, part: bytes) -> None:
        """Opens the next component, and looks at it; it may be a link."""
        above = self.open[-1] if self.open else None
        descriptor = os.open(part, os.O_PATH | os.O_NOFOLLOW | os.O_CLOEXEC, dir_fd=above)
        self.open.append(descriptor)
        self.shown.append(part.strip(b"/"))
        self.judge(descriptor, os.fstat(descriptor))

    def judge(self, descriptor: int, look: os.stat_result) -> None:
        """Fails where somebody else can have written the last component."""
        fault = fault_of(descriptor, look)
        if fault is not None:
            beside = b"" if self.place() == os.path.abspath(self.name) else self.name + b": "
            raise Failure(beside + self.place() + b": " + fault + b", so it is not trusted")

    def place(self) -> bytes:
        """The name of the last component, from the root."""
        return b"/" + b"/".join(self.shown[1:])

    def back(self) -> None:
        os.close(self.open.pop())
        self.shown.pop()

    def go(self, name: bytes) -> None:
        """Goes on by a name. Where a component is a link, it is taken off the way, which goes on by what it leads to."""
        rest = name.split(b"/")[::-1]
        while rest:
            part = rest.pop()
            if part == b".." and len(self.open) > 1:
                self.back()
            elif part not in (b"", b".", b".."):
                if not any(rest) and self.ends_before(part):
                    return
                self.step(part)
                if stat.S_ISLNK(os.fstat(self.open[-1]).st_mode):
                    self.links += 1
                    if self.links > LINKS_LIMIT:
                        raise OSError(errno.ELOOP, os.strerror(errno.ELOOP))
                    target = os.readlink(b"", dir_fd=self.open[-1])
                    rest += target.split(b"/")[::-1]
                    self.back()
                    while target.startswith(b"/") and len(self.open) > 1:
                        self.back()

    def ends_before(self, part: bytes) -> bool:
        """Whether the way ends before its last component: that of a file which has to be there does not."""
        return False

    def close(self) -> None:
        while self.open:
            os.close(self.open.pop())

    def opened(self, flags: int) -> int:
        """Opens the last component."""
        return os.open(b"/proc/self/fd/%d" % self.open[-1], flags | os.O_CLOEXEC | os.O_NONBLOCK)

    def copied(self) -> Way:
        """The same way, which can go on to something else."""
        other = copy(self)
        other.open, other.shown = [], [*self.shown]
        other.open += map(os.dup, self.open)
        return other

    def gone_in(self, name: bytes, whole: bytes) -> Way:
        """Goes on by a name in the last component, which messages name as a whole."""
        self.name = whole
        self.go(name)
        return self


def way_to(name: bytes) -> Way:
    """The way to a file by its name; fails where somebody else can have written a component."""
    start = b"" if name.startswith(b"/") else os.getcwdb()
    return Way(name).gone_in(start, name).gone_in(name, name)


def open_trusted(name: bytes, flags: int) -> int:
    """Opens a file or a folder by a name; fails where somebody else can have written it or the way to it."""
    with failing(name, True), contextlib.closing(way_to(name)) as way:
        return way.opened(flags)


def open_beside(way: Way, name: bytes, whole: bytes) -> int:
    """Opens a file in the folder to which a way leads, which may be a link; FileNotFoundError where there is none. `whole` is its
    name in messages."""
    try:
        with contextlib.closing(way.copied()) as other:
            return plain_file(other.gone_in(name, whole).opened(os.O_RDONLY), whole)
    except FileNotFoundError:
        raise
    except OSError as error:
        raise Failure(whole + b": " + reason(error)) from error


def open_folder(name: bytes) -> int:
    return open_trusted(name, os.O_RDONLY | os.O_DIRECTORY)


def open_file(name: bytes) -> int:
    """Opens a file that nobody else can have written, which is no pipe or device; a folder cannot be read."""
    return plain_file(open_trusted(name, os.O_RDONLY), name)


def plain_file(descriptor: int, name: bytes) -> int:
    """An open file, which has to be a plain one, or a folder."""
    mode = os.fstat(descriptor).st_mode
    if stat.S_ISREG(mode) or stat.S_ISDIR(mode):
        return descriptor
    os.close(descriptor)
    raise Failure(name + b": is not a regular file")


def read_all(file: IO[bytes], shown: bytes, most: int) -> bytes:
    """What is in a file, which has a limit: its size may be any number, and it may grow."""
    pieces, size = [b""], os.fstat(file.fileno()).st_size
    while size <= most:
        piece = file.read(PIECE)
        if piece is None:
            raise Failure(shown + b": has nothing to read yet: give a descriptor that waits")
        if not piece:
            return b"".join(pieces)
        pieces.append(piece)
        size = sum(map(len, pieces))
    raise too_large(shown, most)


def too_large(shown: bytes, most: int) -> Failure:
    return Failure(shown + b": has more than %d MiB, which is too large" % (most >> 20))


def read_given(name: bytes) -> bytes:
    """What is in a file that nobody else can have written; a word of the caller may be a descriptor that came with the command, as
    `<(COMMAND)` of a shell: that is trusted as standard input is. The command's own descriptors are none of these."""
    match = DESCRIPTOR.fullmatch(name)
    with failing(name, True):  # Of a folder, or of a disk, an error has no name.
        if match is None:
            with open(open_file(name), "rb") as file:
                return read_all(file, name, MOST_WRITTEN)
        if not os.get_inheritable(int(match[1])):
            raise OSError(errno.EBADF, os.strerror(errno.EBADF))
        with open(int(match[1]), "rb", closefd=False) as file:
            return read_all(file, name, MOST_WRITTEN)


def fault_of_mark(look: os.stat_result) -> Optional[bytes]:
    """Why a plain file is none that a command of the caller made for itself, to believe it later; None if it can be one."""
    mode = stat.S_IMODE(look.st_mode)
    if look.st_uid != os.geteuid():
        return b"belongs to " + owner_name(look.st_uid)
    if look.st_nlink != 1:
        return b"has another name too"
    return None if mode == PRIVATE else b"has the mode %04o in place of %04o" % (mode, PRIVATE)


def mark_failure(shown: bytes, name: bytes, fault: bytes) -> Failure:
    return Failure(shown + b"/" + name + b": " + fault + b", so it is not trusted: look at it, and mend or remove it")


def open_in(folder: int, shown: bytes, name: bytes, is_mark: bool = False) -> int:
    """Opens a file of an open folder, whose name in messages is `shown`. A mark is a file that a command made for itself: a pipe
    or device in its place is not opened."""
    with failing(shown + b"/" + name, True):
        is_read = not is_mark or stat.S_ISREG(os.stat(name, dir_fd=folder, follow_symlinks=False).st_mode)
        flags = (os.O_RDONLY if is_read else os.O_PATH) | os.O_NOFOLLOW | os.O_NONBLOCK | os.O_CLOEXEC
        descriptor = os.open(name, flags, dir_fd=folder)
    look = os.fstat(descriptor)
    fault = (b"is not a regular file" if not stat.S_ISREG(look.st_mode) else
             fault_of_mark(look) if is_mark else fault_of(descriptor, look))
    if fault is not None:
        os.close(descriptor)
        failure = Failure(shown + b"/" + name + b": " + fault + b", so it is not trusted")
        raise mark_failure(shown, name, fault) if is_mark else failure
    return descriptor


def read_in(folder: int, shown: bytes, name: bytes, is_mark: bool = False) -> bytes:
    """What is in a file of an open folder."""
    with open(open_in(folder, shown, name, is_mark), "rb") as file:
        return read_all(file, shown + b"/" + name, MOST)


open_mark = partial(open_in, is_mark=True)
