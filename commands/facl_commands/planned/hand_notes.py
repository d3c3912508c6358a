"""What by_hand notes of the steps of a plan in by_hand_done, by which nothing is done twice, and by_hand_undo knows what to take
back. A note is a line `NUMBER STATE`; of what is made `DEVICE:INODE:BIRTH` may follow."""
from __future__ import annotations

import os
import re
from typing import Dict, NamedTuple, Optional

from ..base import new_file, trusted
from ..base.linux import Identity
from ..base.messages import Command, Failure, reason
from .plan_folder import DONE_BY_HAND, PlanFolder

FINISHED, FOUND, BEGUN, UNDONE = b"finished", b"found", b"begun", b"undone"
NOTE = re.compile(rb"^(\d{1,18}) (finished|found|begun|undone)(?: (-?\d{1,20}):(-?\d{1,20}):(-?\d{1,20}))?\n", re.MULTILINE)
CUT_OFF = b" is cut off\n"  # What ends a note that was cut off, so that it is none.


class Note(NamedTuple):
    state: bytes = b""
    identity: Optional[Identity] = None

    def is_ours(self) -> bool:
        """Whether by_hand has done it, and did not find it done already."""
        return self.state in (BEGUN, FINISHED)


class Notes(Dict[int, Note]):
    """The last note of each step, by its number."""

    def __init__(self, text: bytes) -> None:
        super().__init__({int(number): Note(state, Identity(*map(int, its)) if its[0] else None)
                          for number, state, *its in NOTE.findall(text)})

    def __missing__(self, _number: int) -> Note:
        return Note()


class Doing(Notes):
    """The notes of a plan, to which a command adds what it does."""

    def __init__(self, command: Command, folder: PlanFolder) -> None:
        self.command = command
        if not folder.has(DONE_BY_HAND):
            os.close(new_file.create(DONE_BY_HAND, folder.descriptor))
        mark = trusted.open_mark(folder.descriptor, folder.name, DONE_BY_HAND)
        if trusted.has_list(mark):
            raise trusted.mark_failure(folder.name, DONE_BY_HAND, b"has an ACL")
        text = folder.read(DONE_BY_HAND)
        super().__init__(text)
        self.file = os.open(b"/proc/self/fd/%d" % mark, os.O_WRONLY | os.O_APPEND | os.O_CLOEXEC)
        self.start = b"" if text[-1:] in (b"", b"\n") else CUT_OFF
        os.close(mark)

    def tell(self, line: bytes) -> None:
        """Says a step before it is done."""
        self.command.tell(line)
        self.command.flush()

    def add(self, state: bytes, *numbers: int) -> None:
        """Notes a state of some steps, with their identities as far as these are known; what is begun is on the disk before it
        is done."""
        notes = {number: self[number]._replace(state=state) for number in numbers}
        text = self.start + b"".join(b"%d %s" % (number, state) + (b" %d:%d:%d" % it.identity if it.identity else b"") + b"\n"
                                     for number, it in notes.items())
        try:
            if os.write(self.file, text) < len(text):
                raise OSError(0, "is cut off")
            if state == BEGUN:
                os.fdatasync(self.file)
        except OSError as error:
            raise Failure(DONE_BY_HAND + b": cannot be written: " + reason(error), 1) from error
        self.start = b""
        self.update(notes)


def notes_of(folder: PlanFolder) -> Notes:
    return Notes(folder.read(DONE_BY_HAND) if folder.has(DONE_BY_HAND) else b"")
