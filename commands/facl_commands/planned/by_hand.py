"""What facl-apply does not do of a plan: the file `steps`, as facl-plan writes it; and the lines of by_hand and by_hand_undo, which
a person reads.

A step has a number, from 1 in the order in which they are done: changes of users and groups, files that go, files that are
made. A line is the number and a command; a person puts a # before one that is not to be done. """
from __future__ import annotations

import json
from typing import Any, Dict, List, NamedTuple, Optional, Set, Union

from ..base.acl_bytes import NO_ID, Record
from ..base.linux import Identity
from ..base.messages import Failure
from ..base.names import live_name, parent_of, path_order, shell_word, shown
from ..base.user_tools import KINDS, REMOVE_USER, PeopleChange, User, shown_change
from .hand_notes import FINISHED, FOUND, notes_of
from .plan_files import as_written, fields_of, identities_of, is_path, number_of, read_record
from .plan_folder import PlanFolder

STEPS, SCRIPTS = b"steps", (b"by_hand", b"by_hand_undo")


class PeopleStep(NamedTuple):
    """A change of users and groups; where it removes a user, with the numbers of files of the ids."""

    number: int
    change: PeopleChange
    owned: int
    grouped: int

    def command(self) -> bytes:
        return shown_change(self.change)

    def not_done(self) -> Optional[bytes]:
        return self.change.not_done()


class FileStep(NamedTuple):
    """A file or directory that goes, which is empty by then; or one that is made, which has its record as soon as it has its
    place."""

    number: int
    path: bytes
    is_directory: bool
    record: Optional[Record]  # None where it goes.

    def command(self) -> bytes:
        starts = (b"rm -- ", b"rmdir -- ") if self.record is None else (b": >", b"mkdir -m 700 -- ")
        return starts[self.is_directory] + shell_word(live_name(self.path))

    def not_done(self) -> Optional[bytes]:
        return None if self.path else b"it is the root of the system, which nothing removes"


Step = Union[PeopleStep, FileStep]


def line_of(it: Step) -> bytes:
    return b"%d " % it.number + shown(it.command())


class Steps(NamedTuple):
    boot: str  # The start of the system in which devices had their numbers.
    identities: Dict[bytes, Identity]  # By path: folders in which something is done, and files that go.
    people: List[PeopleStep]
    files: List[FileStep]  # Those that go, what is below a directory first; then those that are made, in path order.

    def of(self, is_made: bool) -> List[FileStep]:
        """The files that are made, or those that go."""
        return [it for it in self.files if (it.record is not None) == is_made]

    def way(self, is_undo: bool = False) -> List[Step]:
        """The steps of by_hand, or those of by_hand_undo, with the same numbers: no user comes back, nor the changes of one who
        is removed later."""
        if not is_undo:
            return [*self.people, *self.files]
        back: List[Step] = [it._replace(record=None) for it in reversed(self.of(True))]
        removed = set()
        for it in reversed(self.people):
            change, user = it.change.back(), it.change.user.name
            if change is None:
                removed.add(user)
            elif user not in removed and it.not_done() is None:
                back.append(it._replace(change=change))
        return back

    def trees(self, wanted: Set[int]) -> Dict[int, List[FileStep]]:
        """What is made of these numbers, by the greatest subtrees: by the number of the first of each, which is in a folder
        that is not made. What is below one that is not wanted is not made either."""
        made = {it.path for it in self.of(True)}
        tops: Dict[bytes, int] = {}
        found: Dict[int, List[FileStep]] = {}
        for it in self.of(True):
            above = parent_of(it.path)
            if it.number in wanted and (above in tops or above not in made):
                tops[it.path] = tops.get(above, it.number)
                found.setdefault(tops[it.path], []).append(it)
        return found


NO_STEPS = Steps("-", {}, [], [])


# --- the file


def latin(name: bytes) -> str:
    return name.decode("latin-1")


def text_of(steps: Steps) -> bytes:
    people = [[*map(latin, (kind, user.name, group)), user.uid, user.gid, gid, *files]
              for _, (kind, user, group, gid), *files in steps.people]
    files = [[latin(it.path), int(it.is_directory), *(fields_of(it.record) if it.record else ())] for it in steps.files]
    identities = [[latin(path), *its] for path, its in steps.identities.items()]
    fields = {"boot": steps.boot, "identities": identities, "people": people, "files": files}
    return json.dumps(fields, separators=(",", ":")).encode() + b"\n"


def read_people_step(number: int, row: List[Any]) -> PeopleStep:
    kind, name, group = (it.encode("latin-1") for it in row[:3])
    uid, user_gid, gid, *files = map(number_of, row[3:])
    if kind not in KINDS or max(uid, user_gid, gid) >= NO_ID or b"\0" in name + group or not name:
        raise ValueError
    return PeopleStep(number, PeopleChange(kind, User(name, uid, user_gid), group, gid), *files)


def read_file_step(number: int, row: List[Any]) -> FileStep:
    path, record = row[0].encode("latin-1"), read_record(row[2:]) if row[2:] else None
    is_directory = bool(number_of(row[1]))
    if not is_path(path) or record is not None and (not path or record.default and not is_directory):
        raise ValueError
    return FileStep(number, path, is_directory, record)


def steps_of(folder: PlanFolder) -> Steps:
    return read_steps(folder.name + b"/" + STEPS, folder.read(STEPS) if folder.has(STEPS) else b"")


def read_steps(name: bytes, text: bytes) -> Steps:
    """What text_of made; none of an empty text."""
    if not text:
        return NO_STEPS
    with as_written(name, b"facl plan wrote; make the plan again"):
        fields = json.loads(text)
        people = [read_people_step(number, row) for number, row in enumerate(fields["people"], 1)]
        files = [read_file_step(number, row) for number, row in enumerate(fields["files"], len(people) + 1)]
        found = Steps(fields["boot"], identities_of(fields["identities"]), people, files)
        made = [it.path for it in found.of(True)]
        is_sorted = files == found.of(False) + found.of(True) and made == sorted({*made}, key=path_order)
        if not isinstance(found.boot, str) or not is_sorted:
            raise ValueError
        return found


def chosen(folder: PlanFolder, steps: Steps, is_undo: bool) -> Set[int]:
    """The numbers of the lines of by_hand or by_hand_undo without a # before them. Each has to be one that facl-plan wrote."""
    name, lines = SCRIPTS[is_undo], {line_of(it): it.number for it in steps.way(is_undo)}
    text = folder.read(name) if folder.has(name) else b""
    found = {line for line in text.split(b"\n") if line and not line.startswith((b"#", b"exec "))}
    others = sorted(found - lines.keys())
    if others:
        raise Failure(folder.name + b"/" + name + b": has a line that facl plan did not write; put a # before it: "
                      + others[0])
    return {lines[line] for line in found}


# --- what is done


def removed_users(folder: PlanFolder) -> List[User]:
    """The users whom by_hand has removed."""
    notes = notes_of(folder)
    return [it.change.user for it in steps_of(folder).people if it.change.kind == REMOVE_USER and notes[it.number].is_ours()]


def is_left(folder: PlanFolder, is_undo: bool) -> bool:
    """Whether by_hand has something that is not done yet, where what is made in a tree is done with the tree; or by_hand_undo
    something that by_hand has done and that is not taken back."""
    found = steps_of(folder)
    notes, wanted = notes_of(folder), chosen(folder, found, is_undo)
    if is_undo:
        return any(notes[number].is_ours() for number in wanted)
    inner = {it.number for it in found.of(True)} - found.trees(wanted).keys()
    return any(notes[number].state not in (FINISHED, FOUND) for number in wanted - inner)
