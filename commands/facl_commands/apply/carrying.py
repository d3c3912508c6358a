"""Carries a plan out: each file gets its new record, or all that were changed get their old ones back."""
from __future__ import annotations

import contextlib
import os
import signal
from functools import partial
from typing import Callable, Dict, Iterable, List, Optional, Set, Tuple

from ..base import linux, live, workers
from ..base.acl_bytes import Record
from ..base.linux import Identity
from ..base.live import PLACES, NotFound, Opener, OpenFile, Seen
from ..base.messages import SIGNALS, Failure, reason
from ..base.names import parent_of, path_order
from ..base.progress import AT
from ..base.workers import Helper, Stop
from ..planned import differences, plan_files, plan_folder
from . import changing
from .direction import REPLACED, Direction, Look, closes, is_expected, look_at, opens, unexpected, was_closed

OFTEN = 64  # Files between two looks at the signals that wait.


class Mismatch(Failure):
    """A file is not as it has to be; the text says how."""


def waiting_signals() -> Set[int]:
    return {*signal.sigpending()} & {*SIGNALS}


class Carrier:
    """A plan that is carried out, with what was found of its files."""

    def __init__(self, way: Direction, look: Look) -> None:
        self.way = way
        self.later = look.later
        self.seen = dict(look.files)
        # What has to be given back; after a run that was cut off, what that run has changed too.
        self.changed: List[bytes] = []
        self.add_changed(look.files)
        self.finished: Set[Identity] = set()  # Files of several names.
        self.stop = Stop()  # Set where no process is to change a further file.

    def add_changed(self, seen: Dict[bytes, Seen]) -> None:
        if self.way.is_in_part():
            self.changed += [path for path, it in seen.items() if it.record != self.way.start(path)]

    def begin(self) -> None:
        """Keeps in the plan what is about to be done, before anything is touched."""
        self.write_journal()
        self.way.folder.replace(b"state", plan_folder.UNDOING if self.way.is_undo else plan_folder.APPLYING)

    def write_journal(self) -> None:
        files = {} if self.way.journal is None else dict(self.way.journal.files)
        files.update((path, seen.identity) for path, seen in self.seen.items())
        self.way.folder.replace(b"journal", plan_files.journal_text(linux.boot(), files))

    def run(self) -> Dict[bytes, bytes]:
        """Gives the files their new records; returns those that did not get them, with the reason. A plan that is taken
        back goes on after the first of these; one that is applied ends there, or at a signal, which is no reason."""
        left = self.open_all(self.seen) if os.geteuid() != 0 else {}
        while self.later and (self.way.is_undo or not left):
            left.update(self.open_later())
        if left and not self.way.is_undo:
            return left
        if os.geteuid() == 0:
            return {**left, **self.give(self.seen)}
        paths = sorted(self.seen, key=path_order)
        last = [path for path in reversed(paths) if closes(self.way, path)]
        apart = set(last)
        left.update(self.give([path for path in paths if path not in apart]))
        if self.way.is_undo or not left:
            left.update(self.give(last))
        return left

    def open_later(self) -> Dict[bytes, bytes]:
        """Looks at the files that nobody could look at before, and opens the next directories; returns the files that
        cannot be changed."""
        look = look_at(self.way, self.later)
        self.later = look.later
        left = unexpected(self.way, look)
        seen_ones = look.without(left).files
        self.seen.update(seen_ones)
        self.add_changed(seen_ones)
        try:
            self.write_journal()
        except OSError as error:
            left.update(dict.fromkeys(seen_ones, b"is not in the journal, which cannot be written: " + reason(error)))
        if self.way.is_undo or not left:
            left.update(self.open_all(seen_ones))
        return left

    def open_all(self, seen: Dict[bytes, Seen]) -> Dict[bytes, bytes]:
        """Opens directories to the caller, for the files below: those that the plan opens, and those that a run which
        was cut off has closed, which get the record of the start again."""
        left = self.give([path for path in seen if opens(self.way, path)])
        if self.later:
            closed = (path for path, it in seen.items() if was_closed(self.way, path, it.record))
            left.update(self.walk(self.put_one_back, closed, is_whole=True))
        return left

    def give(self, paths: Iterable[bytes]) -> Dict[bytes, bytes]:
        """Gives the files their new records, by several processes where there are many."""
        first, *others = self.parts(list(paths))
        AT.begin("changing", len(first) * (1 + len(others)), 1 + len(others))
        helpers: List[Tuple[Helper, List[bytes]]] = []
        try:
            for part in others:
                try:
                    helpers.append((Helper(partial(self.give_apart, part), keeps_signals=True), part))
                except OSError:  # There can be no further process.
                    first = first + part
            left = self.walk(self.give_one, first, is_whole=self.way.is_undo)
            for helper, part in helpers:
                left.update(self.given_by(helper, part))
        finally:
            for helper, _ in helpers:
                helper.end()
        return left

    def parts(self, paths: List[bytes]) -> List[List[bytes]]:
        """The parts of the processes. Only root changes files in any order, and the names of one file are in one part."""
        parts = workers.parts_of(paths) if os.geteuid() == 0 else []
        if len(parts) < 2:
            return [paths]
        several = {path for path in paths if self.is_of_several(path)}
        return [parts[0] + sorted(several.difference(parts[0]), key=path_order),
                *([path for path in part if path not in several] for part in parts[1:])]

    def is_of_several(self, path: bytes) -> bool:
        """Whether a file has other names: hard links, or by the plan the same below another mount, which Linux does not count."""
        return self.seen[path].names > 1 and not self.seen[path].is_directory or self.way.work.files[path].same > 0

    def walk(self, step: Callable[[Opener, bytes], None], paths: Iterable[bytes], is_whole: bool) -> Dict[bytes, bytes]:
        """Does something with each file; returns those with which it could not be done, with the reason. A walk that is
        not to be whole ends after the first of these, or at a signal, and so do those of other processes."""
        left: Dict[bytes, bytes] = {}
        with Opener() as opener:
            for number, path in enumerate(paths):
                AT.done = number
                if not is_whole and (self.is_stopped() if number % OFTEN == 0 else self.stop.is_set()):
                    break
                fault = fault_of(step, opener, path)
                if fault is not None:
                    left[path] = fault
                    if not is_whole:
                        self.stop.set()
        return left

    def give_apart(self, paths: List[bytes]) -> Tuple[List[bytes], Dict[bytes, bytes]]:
        """What another process changed, and what it could not."""
        PLACES.begin_in_own_process()
        self.changed = []
        left = self.walk(self.give_one, paths, is_whole=self.way.is_undo)
        return self.changed, left

    def given_by(self, helper: Helper, part: List[bytes]) -> Dict[bytes, bytes]:
        """What a process could not change; it is stopped where a signal waits."""
        while not helper.has_result():
            self.stop_at_signal()
        result = helper.result()
        if not isinstance(result, tuple):
            self.stop.set()
            self.changed += part
            return {part[0]: b"may be changed, and so may files after it: the process that was at work on them has ended"}
        changed, left = result
        self.changed += changed
        return dict(left)

    def look_again(self, file: OpenFile, path: bytes) -> Seen:
        """A file as it is now; fails where it is another one than before."""
        seen = file.look()
        if seen.identity != self.seen[path].identity:
            raise Mismatch(REPLACED)
        return seen

    def give_one(self, opener: Opener, path: bytes) -> None:
        with contextlib.closing(opener.open(path)) as file:
            seen, end = self.look_again(file, path), self.way.end(path)
            is_done = bool(self.finished) and seen.identity in self.finished and seen.record == end  # By another name.
            if seen != self.seen[path] and not is_done and not is_expected(self.way, path, seen.record):
                raise Mismatch(b"was changed: " + differences.parts(seen.record, self.way.start(path)))
            if is_done:
                return
            self.changed.append(path)
            change(file, seen.record, end, seen.is_directory)
            if seen.names > 1 or self.is_of_several(path):
                self.finished.add(seen.identity)

    def stop_at_signal(self) -> None:
        """Where a signal waits, no process changes a further file."""
        if waiting_signals():
            self.stop.set()

    def is_stopped(self) -> bool:
        """Whether no process changes a further file: one could not be changed, or a signal waits."""
        self.stop_at_signal()
        return self.stop.is_set()

    def put_back(self) -> Dict[bytes, bytes]:
        """Gives back the old records, the last first; returns the files that did not get them."""
        AT.begin("putting back", len(set(self.changed)))
        return self.walk(self.put_one_back, reversed(list(dict.fromkeys(self.changed))), is_whole=True)

    def put_one_back(self, opener: Opener, path: bytes) -> None:
        """Gives a file the record of the start."""
        with contextlib.closing(opener.open(path)) as file:
            seen = self.look_again(file, path)
            change(file, seen.record, self.way.start(path), seen.is_directory)

    def end(self, state: bytes) -> None:
        """Keeps in the plan what was done, when that is on the disk."""
        folders = {seen.identity.device: path if seen.is_directory else parent_of(path) for path, seen in self.seen.items()}
        with Opener() as opener:
            for device, folder in folders.items():
                write_out(opener, device, folder)
        self.way.folder.replace(b"state", state)


def write_out(opener: Opener, device: int, folder: bytes) -> None:
    """Writes out what a file system has in memory, of which a folder is; all of them where it is of another one, or the
    caller cannot read it."""
    descriptor = linux.NO_DESCRIPTOR
    with contextlib.suppress(NotFound, OSError):
        descriptor = os.open(b"/proc/self/fd/%d" % opener.folder(folder), os.O_RDONLY | os.O_CLOEXEC)
    is_it = descriptor != linux.NO_DESCRIPTOR and os.fstat(descriptor).st_dev == device
    try:
        linux.write_out(descriptor if is_it else linux.NO_DESCRIPTOR)
    finally:
        if descriptor != linux.NO_DESCRIPTOR:
            os.close(descriptor)


def fault_of(step: Callable[[Opener, bytes], None], opener: Opener, path: bytes) -> Optional[bytes]:
    """Does something with a file; returns why it could not be done."""
    try:
        step(opener, path)
    except (NotFound, Mismatch) as error:
        return error.text
    except PermissionError as error:
        return fixed_now(opener, path) or reason(error)
    except OSError as error:
        return reason(error)
    except MemoryError:
        return b"memory ran out"
    return None


def fixed_now(opener: Opener, path: bytes) -> Optional[bytes]:
    """By which attribute nobody can change a file, where it has one."""
    try:
        return live.fixed(opener.look(path))
    except (NotFound, OSError):
        return None


def change(file: OpenFile, now: Record, end: Record, is_directory: bool) -> None:
    """Gives a file its new record, and compares."""
    changing.change(file, now, end, is_directory)
    record = file.record()
    if record != end:
        raise Mismatch(b"is not as it should be: " + differences.parts(record, end))
