"""A plan on its way to the live system or back: its files are looked at, and what keeps one from its new record is found."""
from __future__ import annotations

import contextlib
import os
import stat
from typing import Dict, Iterable, List, NamedTuple, Optional, Set, Tuple

from ..base import linux, live, trusted
from ..base.acl_bytes import Record, is_minimal, permissions_of
from ..base.linux import Identity, Mount
from ..base.live import NotFound, Opener, OpenFile, Seen
from ..base.names import directories_above, is_below
from ..planned import differences, plan_files, plan_folder
from ..planned.plan_files import Devices, Journal, Work
from ..planned.plan_folder import PlanFolder
from . import survey
from .changing import is_between

REPLACED = b"was replaced by another file"


class Direction(NamedTuple):
    """A plan to be applied or taken back: the files, with the record of each before and after."""

    folder: PlanFolder
    state: bytes
    work: Work
    journal: Optional[Journal]
    is_undo: bool

    def start(self, path: bytes) -> Record:
        file = self.work.files[path]
        return file.new if self.is_undo else file.old

    def end(self, path: bytes) -> Record:
        file = self.work.files[path]
        return file.old if self.is_undo else file.new

    def identity(self, path: bytes) -> Identity:
        """Which file a path has to be of: that of the journal, else that of the snapshot."""
        known = self.work.files[path].identity
        return known if self.journal is None else self.journal.files.get(path, known)

    def was_cut_off(self) -> bool:
        return self.state in (plan_folder.APPLYING, plan_folder.UNDOING)

    def is_in_part(self) -> bool:
        """Whether each file may be as it was, as planned, or between the two."""
        return self.was_cut_off() or self.state == plan_folder.UNDONE_IN_PART

    def boot(self) -> str:
        return self.work.boot if self.journal is None else self.journal.boot

    def file(self, name: bytes) -> bytes:
        return os.path.join(self.folder.name, name)


class Look(NamedTuple):
    """The files of a plan as they are; why others cannot be compared; and those that can only be looked at later."""

    files: Dict[bytes, Seen]
    faults: Dict[bytes, bytes]
    later: List[bytes]

    def without(self, left: Dict[bytes, bytes]) -> Look:
        return Look({path: seen for path, seen in self.files.items() if path not in left}, {}, self.later)


def read_way(folder: PlanFolder, is_undo: bool) -> Direction:
    state, journal = folder.state(), None
    work = plan_files.read_work(os.path.join(folder.name, b"files"), folder.read(b"files"))
    if state and folder.has(b"journal"):
        journal = plan_files.read_journal(os.path.join(folder.name, b"journal"), folder.read(b"journal"))
    return Direction(folder, state, work, journal, is_undo)


def search_of(way: Direction, path: bytes) -> Tuple[bool, bool]:
    """Whether the caller, who owns a directory, has search on it before and after; root always has."""
    if os.geteuid() == 0 or not way.work.files[path].is_directory:
        return True, True
    start, end = (permissions_of(record.access) & 0o100 for record in (way.start(path), way.end(path)))
    return bool(start), bool(end)


def opens(way: Direction, path: bytes) -> bool:
    """Whether the caller gets search on a directory by the plan."""
    return search_of(way, path) == (False, True)


def closes(way: Direction, path: bytes) -> bool:
    """Whether the caller loses search on a directory by the plan."""
    return search_of(way, path) == (True, False)


def was_closed(way: Direction, path: bytes, now: Record) -> bool:
    """Whether a run that was cut off has left a directory closed to the caller which is only to be closed at the end."""
    return way.is_in_part() and closes(way, path) and not permissions_of(now.access) & 0o100


def look_at(way: Direction, paths: Iterable[bytes]) -> Look:
    """The files of a plan as they are on the live system; those below a directory that the plan opens to the caller are
    left for later, until it is open."""
    look = Look({}, {}, [])
    devices = Devices(way.boot(), linux.boot())
    if os.geteuid() == 0:
        names = list(paths)
        for path, found in zip(names, survey.look_at_all(names)):
            take(way, devices, look, path, found)
        return look
    opened: List[bytes] = []  # The directories that the plan opens to the caller.
    with Opener() as opener:
        for path in paths:
            if any(is_below(path, it) for it in opened):
                look.later.append(path)
            elif (take(way, devices, look, path, survey.look_at_one(opener, path))
                  and is_closed(way, path, look.files[path].record)):
                opened.append(path)
    return look


def take(way: Direction, devices: Devices, look: Look, path: bytes, found: survey.Found) -> bool:
    """Takes what was found of a path; whether it is the file that the plan is about."""
    file = way.work.files[path]
    if isinstance(found, bytes):
        look.faults[path] = found
    elif found.is_directory != file.is_directory:
        look.faults[path] = b"is not a directory now" if file.is_directory else b"is a directory now"
    elif not devices.is_same(way.identity(path), found.identity):
        look.faults[path] = REPLACED
    else:
        look.files[path] = found
        return True
    return False


def is_closed(way: Direction, path: bytes, now: Record) -> bool:
    """Whether a directory is closed to the caller until the plan opens it, or is closed too early."""
    return opens(way, path) and now != way.end(path) or was_closed(way, path, now)


def is_expected(way: Direction, path: bytes, now: Record) -> bool:
    """Whether a file is as it was; after a run that was cut off it may be as planned too, or between the two."""
    start, end = way.start(path), way.end(path)
    return now == start or way.is_in_part() and (now == end or is_between(now, start, end))


def unexpected(way: Direction, look: Look) -> Dict[bytes, bytes]:
    """The files that are not as they were, each with what is another; also names that were those of one file, and are
    not now."""
    first: Dict[int, Identity] = {}
    found = dict(look.faults)
    for path, seen in look.files.items():
        same = way.work.files[path].same
        if same and first.setdefault(same, seen.identity) != seen.identity:
            found[path] = b"is another file than the other name that it had in the snapshot"
        elif not is_expected(way, path, seen.record):
            found[path] = b"was changed: " + differences.parts(seen.record, way.start(path))
    return found


def opens_way_to_plan(way: Direction) -> Dict[bytes, bytes]:
    """The directories above a plan, or the plan, that others could write by their new records, so that nobody would trust it."""
    place = os.path.realpath(way.folder.name).lstrip(b"/")
    ends = {path: way.end(path) for path in (place, *directories_above(place)) if path in way.work.files}
    return {path: b"leads to the plan, and others could write there, so that it could not be taken back: move the plan first"
            for path, end in ends.items() if not end.flags & stat.S_ISVTX or end.owner not in (0, os.geteuid())
            if trusted.doubt_by(permissions_of(end.access), *end.ids(), lambda: not is_minimal(end.access)) is not None}


class Obstacles:
    """Looks for what is known before, with each mount looked at once."""

    def __init__(self, way: Direction, drops_capabilities: bool) -> None:
        self.way, self.drops_capabilities = way, drops_capabilities
        self.read_only: Dict[Mount, bool] = {}
        self.has_lists: Dict[int, bool] = {}
        self.overlays: Dict[int, int] = {}  # As system.overlay_of says.
        self.free: Set[Mount] = set()  # Without an obstacle for any file.

    def of_right(self, path: bytes, seen: Seen) -> Optional[bytes]:
        """Of a caller who is not root, or who lacks a capability of root."""
        if os.geteuid() != 0:
            if seen.record.owner != os.geteuid():
                return b"is not yours: run it as root"
            if seen.record.ids() != self.way.end(path).ids():
                return b"would get another owner or group: run it as root"
        # The system takes set-group-ID away, on this way or back, by a new list or mode.
        start, end = self.way.start(path), self.way.end(path)
        if ((start.flags | end.flags) & stat.S_ISGID and (start.access, start.flags) != (end.access, end.flags)
                and end.group not in {os.getegid(), *os.getgroups()}):
            return b"would lose set-group-ID, since you are not in its group: run it as root, with all capabilities"
        return None

    def of_file(self, file: OpenFile, path: bytes, seen: Seen) -> Optional[bytes]:
        device, (_, mount), end = seen.identity.device, seen.beside, self.way.end(path)
        if mount not in self.read_only:
            self.read_only[mount] = linux.is_read_only(file.descriptor)
            self.has_lists[device] = file.takes_lists()
            self.overlays[device] = linux.overlay_of(file.descriptor, device)
            if not self.read_only[mount] and self.has_lists[device] and self.overlays[device] == linux.NO_OVERLAY:
                self.free.add(mount)
        if self.read_only[mount]:
            return b"is on a file system that is mounted read-only"
        has_names = seen.names > 1 and not seen.is_directory
        if self.overlays[device] == linux.OF_SEVERAL or has_names and self.overlays[device] == linux.OF_ONE:
            why = b"one of several names" if has_names else b"on another file system"
            return (b"would become another file, since it is " + why + b" in a lower layer of an overlay: chmod it to "
                    b"the mode that it has, and make a new snapshot and a new plan")
        if not self.has_lists[device] and (end.default or not is_minimal(end.access)):
            return b"is on a file system without ACLs"
        if self.drops_capabilities or seen.is_directory or seen.record.ids() == end.ids():
            return None
        if live.attribute(file.name, live.CAPABILITY) is not None:
            return b"has capabilities, which it would lose by its new owner or group: --drop-capabilities allows that"
        return None

    def of_system(self, opener: Opener, path: bytes, seen: Seen) -> Optional[bytes]:
        """What keeps the file that was looked at; where another one is there now, that is for the next look at it."""
        try:
            with contextlib.closing(opener.open(path)) as file:
                return self.of_file(file, path, seen) if file.look().identity == seen.identity else REPLACED
        except NotFound as error:
            return error.text

    def all(self, look: Look) -> Dict[bytes, bytes]:
        """The obstacles of all files. One itself has to be opened if its mount is not known yet or may hinder it, or if its owner
        changes."""
        found = {} if self.way.is_undo else opens_way_to_plan(self.way)
        may_all = os.geteuid() == 0 and linux.has_capability(linux.CAP_FSETID)
        with Opener() as opener:
            for path, seen in look.files.items():
                fault = found.get(path) or (None if may_all else self.of_right(path, seen))
                if not self.way.is_undo:  # Which takes back the other files.
                    fault = fault or live.fixed(seen)
                if fault is None and (seen.beside[1] not in self.free or seen.record.ids() != self.way.end(path).ids()):
                    fault = self.of_system(opener, path, seen)
                if fault is not None:
                    found[path] = fault
        return found
