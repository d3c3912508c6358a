"""What brought a change of a user's rights about: one thing for each user and file.

Of several the first of these: the file is new, gone or moved; the user is new or gone; the file's own owner, group or ACL
is another one, and grants the user otherwise; so is that of a directory above, and lets the user search it otherwise; the
user is in other groups. Files of one shape are looked at once.
"""
from __future__ import annotations

from typing import Callable, Dict, FrozenSet, Iterator, NamedTuple, Optional, Tuple

from ...base.names import read_name
from ...model.entries import GROUP, MASK, OTHER_KEY, OWNER_KEY, OWNING_GROUP_KEY, USER, Key, ReadRecord
from .labels import Change, JudgedUsers
from .moved import Moves
from .reasons import Question, RecordReasons, words_of_groups
from .shapes import GONE, NONE, ChangedDirectory, Shape, Shapes

MOVED, MADE, REMOVED = "moved", "new", "removed"  # Of files,
USER_GONE, USER_MADE = "leaver", "new-user"  # of users,
MEMBERSHIP = "membership"
MOVED_FROM, MOVED_TO = b"moved from ", b"moved to "
RECORD = "record"  # and of an owner, a group or an ACL.
MOST_APART = 3  # Users who came, users who went and moves of which each is an event.
W = ord("w")


class Lead(NamedTuple):
    """What leads of all that differs between two records: gains before losses, others before named users and groups. Records with
    one lead were changed alike."""

    is_loss: bool
    rank: int
    lacks_w: bool  # Of others.
    key: Key


NOT_RECORDED = Lead(False, 0, False, (b"", b""))  # Of a directory that one snapshot does not have.
RANKS = {OTHER_KEY: 0, OWNING_GROUP_KEY: 5, (MASK, b""): 6, OWNER_KEY: 7}
NEW_OWNER, USER_ENTRY, NEW_GROUP, GROUP_ENTRY = 1, 2, 3, 4  # Between these.


def rank_of(key: Key) -> int:
    return RANKS.get(key, USER_ENTRY if key[0] == USER else GROUP_ENTRY)


def lead_of(old: ReadRecord, new: ReadRecord) -> Optional[Lead]:
    """None where nothing differs."""
    before, after = ({it.key: set(it.permissions) - {ord("-")} for it in record.access} for record in (old, new))
    found = []
    for key in {**before, **after}:
        gained = after.get(key, set()) - before.get(key, set())
        if gained or before.get(key) != after.get(key):
            found.append(Lead(not gained, rank_of(key), key == OTHER_KEY and W not in gained, key))
    if old.owner != new.owner:
        found.append(Lead(False, NEW_OWNER, False, (USER, new.owner)))
    if old.group != new.group:
        found.append(Lead(False, NEW_GROUP, False, (GROUP, new.group)))
    return min(found, default=None)


class Cause(NamedTuple):
    """What happened, which makes an event of all that it brought about, and the reason in words."""

    kind: str
    what: object  # Of one kind it tells events apart.
    why: bytes


class Causes:
    """What brought about what users may do otherwise with files of some shapes."""

    def __init__(self, shapes: Shapes, reasons: RecordReasons, moves: Moves, is_alone: bool, name_of: Callable[[bytes], bytes]) -> None:
        self.shapes, self.reasons, self.moves, self.is_alone, self.name_of = shapes, reasons, moves, is_alone, name_of
        self.before, self.after = (time.members for time in reasons.times)
        self.people_apart = {
            USER_GONE: sum(name not in self.after for name in self.before) <= MOST_APART,
            USER_MADE: sum(name not in self.before for name in self.after) <= MOST_APART}
        self.leads: Dict[Tuple[int, int], Optional[Lead]] = {}
        self.groups_in: Dict[int, FrozenSet[int]] = {}  # By the number of a record.

    def lead(self, old: int, new: int) -> Optional[Lead]:
        """What leads between two records, by their numbers; a directory may have one once."""
        if old == new:
            return None
        if (old, new) not in self.leads:
            self.leads[old, new] = NOT_RECORDED if GONE in (old, new) else lead_of(*self.reasons.labels(old, new))
        return self.leads[old, new]

    def questions(self, users: JudgedUsers) -> Iterator[Question]:
        """What is to be asked of files whose own record is another one, of those of most files first."""
        shapes = [it for it in users.shapes if it.is_kept() and self.lead(it.old, it.new)]
        for shape in sorted(shapes, key=lambda it: -self.shapes.counted[it].files):
            for change in users.changes(shape):
                if change.is_kept() and self.is_own(users, shape, change.place):
                    yield Question(users.users[change.place], shape.old, shape.new)

    def of(self, users: JudgedUsers, shape: Shape, change: Change) -> Cause:
        """What brought one change about."""
        user = users.users[change.place]
        if not shape.is_kept():
            return self.of_file(shape)
        if not change.is_kept():
            kind = USER_MADE if read_name(user) not in self.before else USER_GONE
            return Cause(kind, user if self.people_apart[kind] else None, b"new user" if kind == USER_MADE else b"user removed")
        if self.is_own(users, shape, change.place):
            return Cause(RECORD, self.lead(shape.old, shape.new), self.reasons.of(Question(user, shape.old, shape.new)))
        directory = None if self.is_alone else self.directory(users, shape.changed, change.place)
        if directory is not None:
            verb = b" opened" if users.sides[1].searches(directory.new, change.place) else b" closed"
            return Cause(RECORD, self.lead(directory.old, directory.new), self.name_of(directory.path) + verb)
        return self.of_groups(users, shape, change.place)

    def of_file(self, shape: Shape) -> Cause:
        if shape.move != NONE:
            top = self.moves.tops[shape.move]
            what = shape.move if len(self.moves.tops) <= MOST_APART + 1 else None
            return Cause(MOVED, what, MOVED_FROM + self.name_of(top.old) if shape.old == GONE else MOVED_TO + self.name_of(top.new))
        return Cause(MADE, None, b"new file") if shape.old == GONE else Cause(REMOVED, None, b"removed")

    def is_own(self, users: JudgedUsers, shape: Shape, place: int) -> bool:
        """Whether the file's own owner, group or ACL is another one, and grants a user otherwise."""
        return self.lead(shape.old, shape.new) is not None and self.differs(users, shape, place)

    def differs(self, users: JudgedUsers, shape: Shape, place: int) -> bool:
        return users.sides[0].vectors[shape.old][place] != users.sides[1].vectors[shape.new][place]

    def directory(self, users: JudgedUsers, changed: int, place: int) -> Optional[ChangedDirectory]:
        """The highest directory whose other record lets a user search it otherwise; None where there is none."""
        found = None
        while changed != NONE:
            it = self.shapes.changed.values[changed]
            searches = [side.searches(body, place) for side, body in zip(users.sides, (it.old, it.new))]
            if searches[0] != searches[1] and self.lead(it.old, it.new) is not None:
                found = it
            changed = it.above
        return found

    def of_groups(self, users: JudgedUsers, shape: Shape, place: int) -> Cause:
        """What a user joined and left: of that what the file mentions, or the directories above where these decide."""
        name = read_name(users.users[place])
        before, after = self.before[name], self.after[name]
        joined, left = after.groups - before.groups, before.groups - after.groups
        bodies = {shape.old, shape.new} if self.differs(users, shape, place) else self.bodies_above(users, shape, place)
        mentioned = frozenset(gid for body in bodies for gid in self.mentioned(body))
        why = words_of_groups(self.reasons.times, joined & mentioned, left & mentioned)
        return Cause(MEMBERSHIP, (joined, left, before.uid != after.uid), why)

    def mentioned(self, body: int) -> FrozenSet[int]:
        if body not in self.groups_in:
            self.groups_in[body] = self.reasons.labels(body, body)[0].mentioned_groups()
        return self.groups_in[body]

    def bodies_above(self, users: JudgedUsers, shape: Shape, place: int) -> Iterator[int]:
        """The records of directories above that let a user search them otherwise."""
        for way in {shape.old_above, shape.new_above}:
            while way != NONE:
                way, body = self.shapes.ways.values[way]
                if users.sides[0].searches(body, place) != users.sides[1].searches(body, place):
                    yield body
