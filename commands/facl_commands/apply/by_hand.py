"""What a person starts by PLAN/by_hand and PLAN/by_hand_undo: the steps of a plan that facl-apply does not do, and the way
back. Nothing else runs it. Files are removed and made in the very folders of the plan, whatever others do there."""
from __future__ import annotations

import os
import stat
from functools import partial
from typing import Callable, Iterator, List, Set

from ..base import linux, live, new_file
from ..base.linux import Identity
from ..base.live import Opener
from ..base.messages import Command, Failure, Interrupted
from ..base.names import live_name, parent_of
from ..planned import by_hand, plan_folder
from ..planned.by_hand import FileStep, PeopleStep, Steps, line_of
from ..planned.hand_notes import BEGUN, FINISHED, UNDONE, Doing, Note
from ..planned.plan_files import NOWHERE, Devices
from . import hand_users
from .carrying import OFTEN, Mismatch, change, fault_of, waiting_signals
from .closed_folder import ClosedFolder, closed_in, entries_of, left_in
from .name_service import tool_of

NOT_DONE = 1
LEFT = b"; a folder %s is left there by a run that was killed: move back what is in it, and remove it"


def identity_of(folder: int, name: bytes = b"") -> Identity:
    """Which file is open, or has a name in an open folder."""
    return Identity(*linux.status_of(folder, name)[4:])


class HandFiles:
    """Files by the folders that they are in, each of which is opened as facl-apply opens files, and compared."""

    def __init__(self, steps: Steps, doing: Doing, is_undo: bool) -> None:
        self.steps, self.doing, self.is_undo = steps, doing, is_undo
        self.devices = Devices(steps.boot, linux.boot())
        self.made = {it.path: it.number for it in steps.of(True)} if is_undo else {}

    def do(self, it: FileStep, tree: List[FileStep]) -> None:
        """Removes a file, or makes it with the others of its tree, once its folder is that of the plan, or that was made."""
        step: Callable[[Opener, bytes], None] = partial(self.remove, it) if it.record is None else partial(self.make, tree)
        with Opener() as opener:
            for each, path in ((self.check_folder, parent_of(it.path)), (step, it.path)):
                fault = fault_of(each, opener, path)
                if fault is not None:
                    raise Mismatch(live_name(path) + b": " + fault)

    def is_it(self, path: bytes, seen: Identity) -> bool:
        """Whether it is the file that was made, or that of the snapshot."""
        if path in self.made:
            return seen == self.doing[self.made[path]].identity
        return self.devices.is_same(self.steps.identities.get(path, NOWHERE), seen)

    def check_folder(self, opener: Opener, path: bytes) -> None:
        try:
            status, (attributes, _) = linux.look_at(opener.folder(path))
        except OSError as error:
            raise live.not_found(error) from error
        if not self.is_it(path, Identity(*status[4:])):
            raise Mismatch(b"is another folder than that of the plan")
        if attributes & linux.APPEND_ONLY:  # Else a folder would be made in it that nobody can remove.
            raise Mismatch(b"is append-only, so nothing in it can be moved or removed; run chattr -a first")

    def check_file(self, it: FileStep, folder: int, name: bytes) -> None:
        """Fails where what has a name in a folder is not the file that goes, or has something in it."""
        look, is_it = os.stat(name, dir_fd=folder, follow_symlinks=False), self.is_it(it.path, identity_of(folder, name))
        if not is_it or stat.S_ISDIR(look.st_mode) != it.is_directory or stat.S_ISLNK(look.st_mode):
            raise Mismatch(b"is another file than " + (b"the one that was made" if self.is_undo else b"in the snapshot"))
        if it.is_directory and any(True for _ in entries_of(folder, name)):
            raise Mismatch(b"is not empty")
        if self.is_undo and not it.is_directory and look.st_size:
            raise Mismatch(b"has contents")

    def remove(self, it: FileStep, opener: Opener, path: bytes) -> None:
        """Takes a file to a closed folder, looks at it again, and removes it there. If it is another one, or that fails, it is in
        its place again."""
        folder, name, end = opener.folder(parent_of(path)), path.rpartition(b"/")[2], UNDONE if self.is_undo else FINISHED
        if not new_file.is_there(name, folder):
            left = left_in(folder)
            if not self.is_undo or left:
                raise Mismatch(b"is not there any more" + (LEFT % left if left else b""))
            self.doing.add(end, it.number)
            return
        self.check_file(it, folder, name)
        self.doing.tell(line_of(it))
        with closed_in(folder, self.doing.command, path) as closed:
            closed.take(name)
            try:
                self.check_file(it, closed.descriptor, name)
                self.doing.add(BEGUN, it.number)
                (os.rmdir if it.is_directory else os.unlink)(name, dir_fd=closed.descriptor)
            finally:
                closed.give_back(name)
            self.doing.add(end, it.number)

    def make(self, tree: List[FileStep], opener: Opener, path: bytes) -> None:
        """Makes a file, or a directory with what is made in it, in a closed folder, and puts it in place by one rename. If that
        fails, or a signal comes, nothing of it is left."""
        folder, name, numbers = opener.folder(parent_of(path)), path.rpartition(b"/")[2], [it.number for it in tree]
        if new_file.is_there(name, folder):
            if self.doing[numbers[0]] != (BEGUN, identity_of(folder, name)):
                raise Mismatch(b"is there already")
        else:
            for it in tree:
                self.doing.tell(line_of(it))
            with closed_in(folder, self.doing.command, path) as closed:
                try:
                    self.fill(closed, tree, len(path) - len(name))
                    self.doing.add(BEGUN, *numbers)
                    closed.put(name)
                except BaseException:
                    closed.clear(name)
                    if self.doing[numbers[0]].state == BEGUN:
                        self.doing.add(UNDONE, *numbers)
                    raise
        self.doing.add(FINISHED, numbers[0])

    def fill(self, closed: ClosedFolder, tree: List[FileStep], start: int) -> None:
        """Makes a tree, and then gives each its record, the last first."""
        with Opener(closed.descriptor) as opener:
            for it in tree:
                above, _, name = it.path[start:].rpartition(b"/")
                os.close((new_file.make_directory if it.is_directory else new_file.create)(name, opener.folder(above)))
            for number, it in enumerate(reversed(tree)):
                if number % OFTEN == 0:
                    stop_at_signal()
                assert it.record is not None
                file = opener.open(it.path[start:])
                change(file, file.record(), it.record, it.is_directory)
                self.doing[it.number] = Note(b"", identity_of(file.descriptor))
                file.close()


def stop_at_signal() -> None:
    waiting = waiting_signals()
    if waiting:
        raise Interrupted(min(waiting))


def run(found: Steps, doing: Doing, wanted: Set[int], is_undo: bool) -> Iterator[bytes]:
    """Does the steps of these numbers: of by_hand up to the first that cannot be done, of by_hand_undo the others too. Says
    what is left as it is, is to be done in a directory service, or does not come back."""
    files, trees = HandFiles(found, doing, is_undo), found.trees(wanted)
    for it in found.way(is_undo):
        if it.number not in wanted or (not doing[it.number].is_ours() if is_undo else doing[it.number].state == FINISHED):
            continue
        why = it.not_done()
        try:
            if why is not None:
                raise Mismatch(it.command() + b": " + why + b"; do it in another way, and put a # before this line")
            if isinstance(it, PeopleStep):
                hand_users.do(doing, it, is_undo)
            elif it.record is None or it.number in trees:
                files.do(it, trees.get(it.number, []))
        except Mismatch as fault:
            if not is_undo and not isinstance(fault, hand_users.OfService):
                raise
            yield fault.text + b"; it stays as it is" * is_undo
    if is_undo:
        lost = sum(doing[it.number].is_ours() for it in found.of(False))
        if lost:
            yield b"files and directories that by_hand removed, and that do not come back: %d" % lost
        for gone in reversed(found.people):
            if gone.change.back() is None and doing[gone.number].is_ours():
                yield from hand_users.losses(doing, gone)


def body(command: Command, words: List[str]) -> int:
    is_undo = words[:1] == ["--undo"]
    name = by_hand.SCRIPTS[is_undo]
    folder, given = os.path.split(os.fsencode(words[-1] if words else ""))
    if given != name or not os.path.isfile(os.path.join(folder, given)):
        raise Failure(b"run it by its name: sh PLAN/" + name, NOT_DONE)
    os.umask(0o077)
    live.check_proc()
    plan = plan_folder.open_plan(folder or b".")
    found = by_hand.steps_of(plan)
    wanted, left = by_hand.chosen(plan, found, is_undo), 0
    doing = Doing(command, plan)
    for it in found.people if not is_undo else []:
        if it.number in wanted:
            tool_of(it.change.tool())
    try:
        for text in run(found, doing, wanted, is_undo):
            command.say(text)
            left += 1
    except Mismatch as fault:
        raise Failure(fault.text, NOT_DONE) from fault
    if left and not is_undo:
        raise Failure(b"left to be done in a directory service: %d" % left, NOT_DONE)
    return NOT_DONE if left else 0
