"""DIR of facl-snapshot: who can write there, what may be replaced, and how the new snapshot takes its place.

The folder above DIR is opened once, and all else is reached from there by descriptors. The snapshot is made in a new folder
beside DIR.
"""
from __future__ import annotations

import errno
import os
import secrets
import signal
import stat
import string
from contextlib import closing, suppress
from typing import Callable, Dict, NamedTuple, Optional

from ..base import acl_bytes, linux, live, new_file, trusted
from ..base.folders import FILES, remove_snapshot
from ..base.messages import SIGNALS, Failure, failing, held, signals_wait
from ..base.new_file import DIRECTORY

LETTERS = string.ascii_letters + string.digits
READ = os.O_RDONLY | os.O_NOFOLLOW | os.O_CLOEXEC
MADE, OLD = b"made", b"old"  # In the folder beside DIR: the new snapshot, and what was replaced.
Looks = Dict[bytes, os.stat_result]


class TargetWay(trusted.Way):
    """The way to DIR, whose last component need not be there."""

    missing: Optional[bytes] = None

    def judge(self, descriptor: int, look: os.stat_result) -> None:
        check_doubt(self.place(), look, trusted.doubt_of(descriptor, look))

    def ends_before(self, part: bytes) -> bool:
        self.missing = None if new_file.is_there(part, self.open[-1]) else part
        return self.missing is not None


def check_doubt(place: bytes, look: os.stat_result, doubt: Optional[int]) -> None:
    """Fails where somebody else can write."""
    if doubt is not None:
        raise Failure(place + b": " + {
            trusted.OF_OTHER: b"belongs to " + trusted.owner_name(look.st_uid) + b", who could write there or exchange it",
            trusted.BY_ALL: b"everybody can write there",
            trusted.BY_OTHERS: b"others than its owner can write there, by its group or its ACL",
            trusted.BY_SERVER: b"is on a file system of another user (FUSE)"}[doubt])


class SnapshotPlace(NamedTuple):
    """Where the snapshot is put."""

    given: bytes  # As the caller named it.
    path: bytes  # From the root, without symbolic links.
    above: int  # The open folder that it is in.
    name: bytes  # Its name there.
    old: Optional[int]  # The open folder that is replaced.


def opened(descriptor: int) -> int:
    """Opens a folder to be read, by a descriptor of it."""
    return os.open(b"/proc/self/fd/%d" % descriptor, os.O_RDONLY | os.O_DIRECTORY | os.O_CLOEXEC)


def place_of(given: bytes) -> SnapshotPlace:
    """Looks at DIR; fails where somebody else can write there, or where it is anything but what may be replaced."""
    with closing(TargetWay(given)) as way:
        try:
            if not given.startswith(b"/"):
                trusted.Way.go(way, os.getcwdb())
            way.go(given)
            if way.missing is not None:
                return SnapshotPlace(given, os.path.join(way.place(), way.missing), opened(way.open[-1]), way.missing, None)
            if not stat.S_ISDIR(os.fstat(way.open[-1]).st_mode):
                raise Failure(given + b" exists and is not a folder")
            old = opened(way.open[-1])
            check_replaced(given, way.place(), old)
            return SnapshotPlace(given, way.place(), opened(way.open[max(0, len(way.open) - 2)]), way.shown[-1], old)
        except (FileNotFoundError, NotADirectoryError) as error:
            raise Failure(given + b": its parent directory does not exist") from error
        except OSError as error:
            text = b"has too many symbolic links" if error.errno == errno.ELOOP else b"cannot be looked at"
            raise Failure(given + b": " + text) from error


def check_replaced(given: bytes, path: bytes, old: int) -> None:
    """Fails where a folder that is there is anything but a snapshot of the caller, or empty."""
    look = os.fstat(old)
    check_doubt(path, look, trusted.doubt_of(old, look, may_be_sticky=False))
    looks = looks_in(old)
    other = other_file(looks)
    if other is not None:
        raise Failure(given + b" exists and is not a snapshot of yours, or has other files: " + other)
    if len(looks) > 1 and b"001/dump" not in looks and not {*looks} >= {b"passwd", b"group", b"dump"}:
        raise Failure(given + b" exists and is not a snapshot")


def looks_in(folder: int, part: bytes = b"") -> Looks:
    """The folder of a snapshot, by an empty name, and what is in it and in the folders of its parts, sorted; names there begin with
    the one of the part."""
    looks = {part: os.fstat(folder)}
    for name in sorted(map(os.fsencode, os.listdir(folder))):
        whole = os.path.join(part, name)
        looks[whole] = os.stat(name, dir_fd=folder, follow_symlinks=False)
        if not part and name.isdigit() and stat.S_ISDIR(looks[whole].st_mode):
            with held(os.open(name, DIRECTORY, dir_fd=folder)) as inner:
                looks.update(looks_in(inner, name))
    return looks


def other_file(looks: Looks) -> Optional[bytes]:
    """The first file that is none of a snapshot, or is another user's."""
    has_parts = b"001" in looks and stat.S_ISDIR(looks[b"001"].st_mode)
    for name, look in looks.items():
        above, _, last = name.rpartition(b"/")
        is_part = has_parts and name.isdigit() and stat.S_ISDIR(look.st_mode)
        is_known = last in FILES and stat.S_ISREG(look.st_mode) and bool(above) == has_parts
        if name and (not (is_part or is_known) or look.st_uid not in (0, os.geteuid())):
            return name
    return None


class NewSnapshot:
    """The folder beside DIR, in which the snapshot is made; it goes at the end."""

    def __init__(self, place: SnapshotPlace, say: Callable[[bytes], None]) -> None:
        self.place, self.say, self.is_in_place = place, say, False
        self.name = place.name + b"." + "".join(secrets.choice(LETTERS) for _ in range(6)).encode()
        self.was_there = {} if place.old is None else looks_in(place.old)
        self.work = self.made = -1

    def __enter__(self) -> NewSnapshot:
        try:
            with failing(self.place.given + b": cannot make a folder beside it"), signals_wait():
                self.work = new_file.make_directory(self.name, self.place.above)
                self.made = new_file.make_directory(MADE, self.work)
            return self
        except BaseException:  # Also a signal that has waited: without an end of this call nothing calls `__exit__`.
            with signals_wait():
                self.remove()
            raise

    def __exit__(self, *_error: object) -> None:
        with signals_wait():
            self.remove()

    def remove(self) -> None:
        """Removes what this command made; of what was replaced the files of a snapshot alone."""
        if self.work < 0:
            return
        name, is_gone = OLD if self.is_in_place and self.place.old is not None else MADE, False
        with suppress(OSError):
            is_gone = remove_snapshot(name, self.work)
        if name == OLD and not is_gone:
            self.say(b"warning: files that came into the replaced snapshot meanwhile are in " + self.path(OLD))
        with suppress(OSError):
            os.rmdir(self.name, dir_fd=self.place.above)

    def path(self, name: bytes) -> bytes:
        return os.path.join(os.path.dirname(self.place.path), self.name, name)

    def put_in_place(self, group: Optional[int]) -> None:
        """By one rename, and one before it where a snapshot is replaced; no signal comes between them, nor after them."""
        with failing(b"cannot give the new snapshot its owner, group and ACL"):
            self.share(group)
        for number in SIGNALS:
            signal.signal(number, signal.SIG_IGN)
        if self.place.old is not None:
            with failing(b"cannot replace the snapshot that is there"):
                os.rename(self.place.name, OLD, src_dir_fd=self.place.above, dst_dir_fd=self.work)
            self.look_again()
        try:
            linux.rename_new(MADE, self.place.name, self.place.above, self.work)
        except OSError as error:
            text = b"cannot put the snapshot in place"
            raise self.put_back(text) if self.place.old is not None else Failure(text) from error
        self.is_in_place = True

    def look_again(self) -> None:
        """Puts back what was there where somebody else put something into it, or in its place."""
        try:
            with held(os.open(OLD, DIRECTORY, dir_fd=self.work)) as old:
                looks = looks_in(old)
        except OSError as error:
            raise self.put_back(b"cannot look at what was there") from error
        came = min((name for name, look in looks.items() if name not in self.was_there or not os.path.samestat(
            look, self.was_there[name])), default=other_file(looks))
        if came is not None:
            raise self.put_back(self.place.path + b"/" + came + b" came there meanwhile")

    def put_back(self, text: bytes) -> Failure:
        """Has what was there take its place again, and returns why."""
        try:
            linux.rename_new(OLD, self.place.name, self.place.above, self.work)
        except OSError:
            return Failure(text + b", and the one that was there is " + self.path(OLD) + b" now")
        return Failure(text + b"; " + self.place.path + b" stays as it was")

    def share(self, group: Optional[int]) -> None:
        """Gives its folders the owner, group and list of what is replaced, and its files those of its dump; and then all to the
        group that reads it."""
        old = self.place.old
        dump = None if old is None else dump_of(old)
        for name, look in reversed(looks_in(self.made).items()):
            is_folder = stat.S_ISDIR(look.st_mode)
            like = old if is_folder else dump
            with held(os.open(name or b".", READ, dir_fd=self.made)) as descriptor:
                if like is not None:
                    take_look(descriptor, like)
                if not is_folder:
                    os.fchmod(descriptor, os.fstat(descriptor).st_mode & 0o7777 & ~0o022)
                if group is not None:
                    new_file.share(descriptor, group, 0o750 if is_folder else 0o640)
        if dump is not None:
            os.close(dump)


def dump_of(folder: int) -> Optional[int]:
    """The open dump of a snapshot, or of its first part; None where it has none."""
    for name in (b"dump", b"001/dump"):
        with suppress(FileNotFoundError):
            return os.open(name, READ, dir_fd=folder)
    return None


def take_look(descriptor: int, like: int) -> None:
    """Gives a file the owner, the group and the access list of another one."""
    look = os.fstat(like)
    os.fchown(descriptor, look.st_uid, look.st_gid)
    access = live.attribute(b"/proc/self/fd/%d" % like, acl_bytes.ACCESS)
    if access is None:
        os.fchmod(descriptor, look.st_mode & 0o777)
    else:
        os.setxattr(descriptor, acl_bytes.ACCESS, access)
