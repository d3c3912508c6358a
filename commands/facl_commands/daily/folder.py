"""The folder of facl-daily: its lock, its list of the snapshots that were kept, and what a killed run left.

The way to it is looked at from the root on; all that follows goes by its descriptor. A run changes it in these steps, and
may be killed between any two of them:

    done so far                                the next run finds, and does
    1 a work folder is there                   no `made` in it: removes it, and says that a run was killed
    2 the snapshot is in it, as `new`          the same: what changed was not said, and is said now
    3 the text was given                       the same: what changed is said again
    4 `made`, the next list, is beside `new`   the same; it has that name only when it is complete
    5 `new` has its name in DIR                `made` without `new`: makes it the list; nothing is said twice
    6 `made` is the list                       removes the work folder; findings that were said now are said again
    6a the findings are in place               an empty work folder: removes it
    7 some older snapshots are removed         names in the list that are not there, or a part of a snapshot: removes these
    8 the list has only what is there          as 6
"""
from __future__ import annotations

import contextlib
import fcntl
import os
import re
import secrets
import shutil
import stat
from itertools import count
from typing import List, Optional

from ..base import new_file, trusted
from ..base.folders import PART, remove_snapshot
from ..base.messages import Failure, failing, held
from ..base.new_file import DIRECTORY, create, give_mode, is_there, make_directory
from ..base.trusted import PRIVATE

LOCK, MADE = b"lock.of-facl-daily", b"made.by-facl-daily"
FOUND = b"found.by-facl-daily"  # What was said of findings; in the work folder what is said now.
NEW, NEXT, BEGUN = b"new", b"made", b"begun"  # In the work folder.
WORK = re.compile(rb"\.work\.[0-9A-Za-z]{10}")
NAME = re.compile(rb"[0-9]{4,}-[0-9]{2}-[0-9]{2}(?:\.([0-9]{1,9}))?")
READ = os.O_RDONLY | os.O_NOFOLLOW | os.O_NONBLOCK | os.O_CLOEXEC
LIST_LIMIT = 1 << 20  # Bytes of the list.


def open_folder(name: bytes) -> int:
    """Opens DIR, which is made where it is not there; fails where somebody else could write there or exchange it."""
    if not os.path.lexists(name):
        above, _, last = name.rstrip(b"/").rpartition(b"/")
        with held(trusted.open_folder(above or b"/")) as parent:
            os.close(make_directory(last, parent))
    descriptor = trusted.open_folder(name)
    look = os.fstat(descriptor)
    if look.st_uid != os.geteuid() or look.st_mode & 0o022:
        raise Failure(name + b": has to belong to the caller, and nobody else may write there: chmod 700 it, or take another store")
    return descriptor


class DailyFolder:
    """DIR by its descriptor; the process works in it."""

    def __init__(self, name: bytes) -> None:
        self.descriptor = open_folder(name)
        os.fchdir(self.descriptor)
        self.name = os.getcwdb()
        self.work = b""
        self.inside = -1  # The work folder.
        self.lock_file = self.lock()

    def lock(self) -> int:
        """Takes the lock, which nobody else can open, until the descriptor is closed here and in all commands that have it."""
        try:
            descriptor = create(LOCK, self.descriptor)
        except FileExistsError:
            descriptor = trusted.open_mark(self.descriptor, self.name, LOCK)
            give_mode(descriptor, PRIVATE)  # The run that made it may have been killed before it did this.
        try:
            fcntl.flock(descriptor, fcntl.LOCK_EX | fcntl.LOCK_NB)
        except BlockingIOError as error:
            raise Failure(self.name + b": another facl daily is at work there, or a command of one that was killed") from error
        return descriptor

    def own_folder(self, name: bytes) -> Optional[os.stat_result]:
        """The look of a folder of the caller; None where the name is that of something else, or of nothing."""
        with contextlib.suppress(FileNotFoundError):
            look = os.stat(name, dir_fd=self.descriptor, follow_symlinks=False)
            return look if stat.S_ISDIR(look.st_mode) and look.st_uid == os.geteuid() else None
        return None

    def made(self) -> List[bytes]:
        """The snapshots that were kept and are there, the oldest first."""
        if not is_there(MADE, self.descriptor):
            return []
        with open(trusted.open_mark(self.descriptor, self.name, MADE), "rb") as file:
            has_list, text = trusted.has_list(file.fileno()), file.read(LIST_LIMIT + 1)
        *lines, last = text.split(b"\n")
        wrong = next((number for number, line in enumerate(lines, 1) if not NAME.fullmatch(line)), 0)
        for is_fault, fault in ((has_list, b"has an ACL"), (len(text) > LIST_LIMIT, b"is too large"),
                                (wrong, b"line %d is not the name of a snapshot" % wrong), (last, b"its last line has no end")):
            if is_fault:
                raise trusted.mark_failure(self.name, MADE, fault)
        return [it for it in dict.fromkeys(lines) if self.own_folder(it) is not None]

    def new_name(self, day: bytes, names: List[bytes]) -> bytes:
        """The day, with a number from its second snapshot on."""
        last = NAME.fullmatch(names[-1]) if names and names[-1].partition(b".")[0] == day else None
        new = (day if number == 1 else day + b".%d" % number for number in count(1 if last is None else int(last[1] or 1) + 1))
        return next(it for it in new if not is_there(it, self.descriptor))

    def remove_remains(self) -> bool:
        """Removes the work folders of runs that were killed; whether there was one."""
        looks = {name: self.own_folder(name) for name in sorted(filter(WORK.fullmatch, os.listdir(b".")))}
        remains = [name for name, look in looks.items() if look is not None and stat.S_IMODE(look.st_mode) == 0o700]
        for name in remains:
            with held(os.open(name, DIRECTORY)) as inside:
                self.settle(inside)
            shutil.rmtree(name)
        return remains != []

    def settle(self, inside: int) -> None:
        """Puts the next list of a work folder in place where its snapshot has its name already; else drops it, before the
        snapshot goes."""
        if is_there(NEXT, inside):
            if is_there(NEW, inside):
                os.unlink(NEXT, dir_fd=inside)
            else:
                os.close(trusted.open_mark(inside, self.name, NEXT))
                self.put_list(inside)

    def begin(self) -> None:
        """Makes the work folder."""
        work = b".work." + secrets.token_hex(5).encode()
        with failing(self.name + b": cannot be written", True):
            self.inside = make_directory(work, self.descriptor)
        self.work = work

    def keep(self, name: bytes, names: List[bytes]) -> None:
        """Gives the new snapshot its name, and adds it to the list; on the disk each step comes after the one before."""
        with held(os.open(NEW, DIRECTORY, dir_fd=self.inside)) as new:
            sync_all(new)
        self.write_next([*names, name])
        os.rename(NEW, name, src_dir_fd=self.inside, dst_dir_fd=self.descriptor)
        os.fsync(self.descriptor)
        self.put_list(self.inside)
        if is_there(FOUND, self.inside):
            os.rename(FOUND, FOUND, src_dir_fd=self.inside, dst_dir_fd=self.descriptor)

    def open_found(self) -> List[int]:
        """Opens what the last run said of findings; none where no file is there that the caller made, so that all is said."""
        with contextlib.suppress(Failure):
            return [trusted.open_mark(self.descriptor, self.name, FOUND)]
        return []

    def write_next(self, names: List[bytes]) -> None:
        """Writes the next list beside the snapshot."""
        new_file.write(BEGUN, self.inside, b"".join(it + b"\n" for it in names))
        os.rename(BEGUN, NEXT, src_dir_fd=self.inside, dst_dir_fd=self.inside)  # Never a part of it.
        os.fsync(self.inside)

    def put_list(self, inside: int) -> None:
        """Makes the next list of a work folder the list."""
        os.rename(NEXT, MADE, src_dir_fd=inside, dst_dir_fd=self.descriptor)
        os.fsync(self.descriptor)

    def keep_last(self, most: int) -> List[bytes]:
        """Removes the older snapshots of those that were kept; returns those that stay, since other files are in them."""
        names = self.made()
        old = names[:-most]
        left = [it for it in old if not remove_snapshot(it, self.descriptor)]
        if old:
            self.write_next(names[-most:])
            self.put_list(self.inside)
        return left

    def end(self) -> None:
        """Removes the work folder."""
        if self.work:
            self.settle(self.inside)
            shutil.rmtree(self.work)
            self.work = b""


def sync_all(folder: int) -> None:
    """Waits until what is in the folder of a snapshot is on the disk, and in the folders of its parts."""
    for name in map(os.fsencode, os.listdir(folder)):
        with held(os.open(name, READ, dir_fd=folder)) as inner:
            if PART.fullmatch(name):
                sync_all(inner)
            else:
                os.fsync(inner)
    os.fsync(folder)
