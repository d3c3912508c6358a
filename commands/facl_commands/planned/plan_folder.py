"""A plan: the folder that facl-plan writes, and facl-apply reads.

It is locked from the first look at it to the last change, and reached by its descriptor. A plan that facl-apply or its
by_hand has used is never removed.
"""
from __future__ import annotations

import errno
import fcntl
import itertools
import os
import secrets
import stat
from typing import Dict, NamedTuple, Optional, Tuple

from ..base import linux, new_file, trusted
from ..base.messages import Failure, reason, signals_wait
from ..base.new_file import DIRECTORY, is_there, make_directory

VERSION = b"facl-plan 3\n"
LOCK = b"lock"  # Nobody but the owner can open it, also where a group reads the plan.
NAMES = (LOCK, b"plan", b"edits", b"old", b"new", b"files", b"steps", b"by_hand", b"by_hand_undo", b"by_hand_done",
         b"meta", b"journal", b"state")
DONE_BY_HAND = b"by_hand_done"
MARKS = (LOCK, DONE_BY_HAND, b"journal", b"state")  # What is believed later; of the owner alone, also for --readers.
NEW = b".new"  # At the end of a name while the file is written.
KNOWN = {*NAMES, *(name + NEW for name in NAMES)}
# What facl-apply has done, in the file `state`; without it nothing was done.
APPLYING, APPLIED, UNDOING, UNDONE = b"applying\n", b"applied\n", b"undoing\n", b"undone\n"
UNDONE_IN_PART = b"undone in part\n"  # Files that somebody had changed were left out.


class Place(NamedTuple):
    """Where a plan is or is to be: a name in a folder that is open; shown is what messages call it."""

    above: int
    name: bytes
    shown: bytes


def look_at(name: bytes, folder: int) -> Optional[os.stat_result]:
    """What has a name in an open folder; None if nothing has."""
    try:
        return os.stat(name, dir_fd=folder, follow_symlinks=False)
    except FileNotFoundError:
        return None


class PlanFolder(NamedTuple):
    """A folder by its descriptor, with its name in messages."""

    descriptor: int
    name: bytes

    def has(self, name: bytes) -> bool:
        return is_there(name, self.descriptor)

    def read(self, name: bytes) -> bytes:
        return trusted.read_in(self.descriptor, self.name, name, is_mark=name in MARKS)

    def is_used(self) -> bool:
        """Whether facl-apply has used it, or by_hand has noted something: without that its notes are empty."""
        notes = look_at(DONE_BY_HAND, self.descriptor)
        return self.has(b"state") or notes is not None and notes.st_size > 0

    def state(self) -> bytes:
        """What facl-apply has done; empty where it did nothing."""
        if not self.has(b"state"):
            return b""
        found = self.read(b"state")
        if found not in (APPLYING, APPLIED, UNDOING, UNDONE, UNDONE_IN_PART):
            raise Failure(self.name + b"/state: is not what facl apply wrote, so it is not known what was done: compare the files "
                          b"with old and new of the plan, and make another plan")
        return found

    def replace(self, name: bytes, text: bytes) -> None:
        """Writes a file of a plan by one rename; on the disk it is the old one or the new one."""
        self.drop(name + NEW)  # Of a run that was killed.
        try:
            new_file.write(name + NEW, self.descriptor, text)
            os.rename(name + NEW, name, src_dir_fd=self.descriptor, dst_dir_fd=self.descriptor)
        finally:
            self.drop(name + NEW)
        os.fsync(self.descriptor)

    def drop(self, name: bytes) -> None:
        if self.has(name):
            os.unlink(name, dir_fd=self.descriptor)

    def has_others(self) -> bool:
        """Whether a file in it is none of a plan."""
        return not KNOWN.issuperset(map(os.fsencode, os.listdir(self.descriptor)))

    def lock(self) -> None:
        """Locks it until the command ends."""
        has_lock = self.has(LOCK)
        descriptor = trusted.open_mark(self.descriptor, self.name, LOCK) if has_lock else self.descriptor
        try:
            fcntl.flock(descriptor, fcntl.LOCK_EX | fcntl.LOCK_NB)
        except BlockingIOError as error:
            raise Failure(self.name + b": another facl plan, apply, undo or by_hand is at work on it") from error

    def is_at(self, place: Place) -> bool:
        """Whether a name leads to this folder."""
        status = look_at(place.name, place.above)
        return status is not None and os.path.samestat(status, os.fstat(self.descriptor))


Target = Tuple[Place, Optional[PlanFolder]]  # Where a plan is to be, with the one that is there, which is locked.


def place_of(name: bytes) -> Place:
    """The place of a name; the folder that it is in has to be there, and to be trusted."""
    above, last = os.path.split(os.path.abspath(name))
    if not last or not name:
        raise Failure(name + b": cannot be the name of a plan")
    if not os.path.isdir(above):
        raise Failure(name + b": its parent directory does not exist")
    return Place(trusted.open_folder(above), last, name)


def open_at(place: Place) -> PlanFolder:
    """Opens and locks the plan that is at a place."""
    try:
        descriptor = os.open(place.name, DIRECTORY, dir_fd=place.above)
    except OSError as error:
        raise Failure(place.shown + b": " + reason(error)) from error
    fault = trusted.fault_of(descriptor, os.fstat(descriptor))
    if fault is not None:
        raise Failure(place.shown + b": " + fault + b", so it is not trusted")
    folder = PlanFolder(descriptor, place.shown)
    folder.lock()
    if not folder.is_at(place):
        raise Failure(place.shown + b": somebody replaced it at this moment; run the command again")
    return folder


def open_plan(name: bytes) -> PlanFolder:
    """Opens and locks a plan, for facl-apply."""
    if not os.path.isdir(name):
        raise Failure(os.path.abspath(name) + b": is not a plan; make one with facl plan")
    os.close(trusted.open_folder(name))
    folder = open_at(place_of(os.path.realpath(name)))._replace(name=os.path.abspath(name))
    if not folder.has(b"plan"):
        raise Failure(folder.name + b": is not a plan; make one with facl plan")
    if folder.read(b"plan") != VERSION:
        raise Failure(folder.name + b": is a plan of another version of facl; make it again with facl plan")
    return folder


# --- for facl-plan


def open_target(name: bytes) -> Target:
    """Locks the plan that is there; fails where the place cannot be written or has something else."""
    place = place_of(name)
    status = look_at(place.name, place.above)
    if status is None:
        return place, None
    if not stat.S_ISDIR(status.st_mode):
        raise Failure(name + b" exists and is not a plan; choose another name with -o")
    old = open_at(place)
    if old.has_others():
        raise Failure(name + b" exists and is not a plan alone (it has other files); choose another name with -o")
    if not old.has(b"plan") and os.listdir(old.descriptor):  # Files of somebody, which have such names.
        raise Failure(name + b" exists and is not a plan; choose another name with -o")
    return place, old


def write_plan(target: Target, files: Dict[bytes, bytes], group: Optional[int]) -> Optional[bytes]:
    """Writes a plan whole beside its place, in a folder which nobody else can enter, and puts it there; with a group, its
    members can read it. Returns the name of the one that was there where that is kept."""
    place, name = target[0], target[0].name + b"." + secrets.token_hex(4).encode()
    made: Optional[PlanFolder] = None
    try:
        with signals_wait():
            made = PlanFolder(make_directory(name, place.above), place.shown)
        for mark in (LOCK, DONE_BY_HAND):
            new_file.write(mark, made.descriptor, b"")
        made.lock()
        for file, text in {b"plan": VERSION, **files}.items():
            new_file.write(file, made.descriptor, text)
        if group is not None:
            share(made, group)
        os.fsync(made.descriptor)
        with signals_wait():
            put_in_place(target, name)
            made = None
            kept = put_away(target, name)
        os.fsync(place.above)
        return kept
    except OSError as error:
        raise Failure(place.shown + b": cannot be written: " + reason(error)) from error
    finally:
        if made is not None:
            remove(place, name, made)


def share(folder: PlanFolder, group: int) -> None:
    """Lets the members of a group read it, but for what a command believes later."""
    for name in set(os.listdir(folder.descriptor)) - set(map(os.fsdecode, MARKS)):
        descriptor = os.open(name, os.O_RDONLY | os.O_NOFOLLOW | os.O_CLOEXEC, dir_fd=folder.descriptor)
        new_file.share(descriptor, group, 0o640)
        os.close(descriptor)
    new_file.share(folder.descriptor, group, 0o750)


def remove(place: Place, name: bytes, folder: PlanFolder) -> bool:
    """Removes the files of a plan, and its folder where nothing else is in it; whether that is so."""
    for known in KNOWN.intersection(map(os.fsencode, os.listdir(folder.descriptor))):
        os.unlink(known, dir_fd=folder.descriptor)
    try:
        os.rmdir(name, dir_fd=place.above)
    except OSError as error:
        if error.errno not in (errno.ENOTEMPTY, errno.EEXIST):
            raise
        return False
    return True


def put_in_place(target: Target, made: bytes) -> None:
    """By one rename; where a plan is there, the two change places, so that at no moment the name is free."""
    place, old = target
    if old is None:
        linux.rename_new(made, place.name, place.above)
    elif not old.is_at(place):
        raise Failure(place.shown + b": somebody replaced it meanwhile; nothing was written; run facl plan again")
    else:
        linux.exchange(made, place.name, place.above)


def put_away(target: Target, name: bytes) -> Optional[bytes]:
    """Removes the plan that was there, which has this name now; where it is kept, it gets the first name of the place with a
    number that is free, which is returned."""
    place, old = target
    if old is None:
        return None
    is_kept = old.is_used() or old.has_others()
    if not is_kept and remove(place, name, old):
        return None
    for number in itertools.count(1):
        end = b".%d" % number
        try:
            linux.rename_new(name, place.name + end, place.above)
            return place.shown + end
        except FileExistsError:
            continue
    raise AssertionError
