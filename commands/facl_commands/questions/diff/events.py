"""What happened between two snapshots: events, each with all that it gave to somebody or took away, the worst first."""
from __future__ import annotations

from functools import lru_cache
from typing import Dict, FrozenSet, Iterable, List, NamedTuple, Set, Tuple

from ...base.names import sorting_key
from ...model.records import path_of
from ...model.rights import REQUESTS, Gain
from .causes import MADE, MEMBERSHIP, MOVED, RECORD, REMOVED, USER_GONE, USER_MADE, Causes
from .labels import JudgedUsers
from .shapes import Counted

OTHERS, WRITE, READ, LOSS = "others", "write", "read", "loss"  # What another owner, group or ACL brought about.
ORDER = (OTHERS, WRITE, READ, MEMBERSHIP, USER_GONE, USER_MADE, MOVED, MADE, REMOVED, LOSS)
RANKS = {kind: rank - (kind == USER_MADE) for rank, kind in enumerate(ORDER)}  # Users who came and went are together.
R, W, X = 4, 2, 1
FAR = 1 << 62  # A place after all files.


class Effect(NamedTuple):
    """What is between two rights: requests that are granted by now, and that are no longer."""

    gained: FrozenSet[int]
    lost: FrozenSet[int]
    is_write: bool  # Whether something with w is granted by now, and nothing with it was.


def requests_in(text: str) -> Set[int]:
    """All requests that a right grants, of which its text has the greatest; none where the user or the file is not there."""
    greatest = [REQUESTS.index(it) for it in text.split(" ") if it in REQUESTS]
    return {request for request in range(1, len(REQUESTS)) for it in greatest if request & it == request}


@lru_cache(maxsize=None)
def effect_of(old: str, new: str) -> Effect:
    before, after = requests_in(old), requests_in(new)
    is_write = any(it & W for it in after) and not any(it & W for it in before)
    return Effect(frozenset(after - before), frozenset(before - after), is_write)


class Reason(NamedTuple):
    """Why it is so, on how many files, and on which first."""

    why: bytes
    files: int
    first: bytes


class Event(NamedTuple):
    """What happened, to whom, and with which files."""

    kind: str
    users: List[bytes]
    files: int
    more: int  # The files with which somebody may do something more than before,
    less: int  # and something less.
    pairs: int  # Of a user and a file.
    gained: int  # The letters of rwx that somebody gained on a file, as bits,
    lost: int
    first: bytes
    reasons: List[Reason]
    opened: Counted  # Files that everybody else may write by now.


class Tally:
    """What is counted of one event, shape by shape."""

    def __init__(self) -> None:
        self.files, self.more, self.less = (Counted(FAR, b"") for _ in range(3))
        self.opened = Counted(FAR, b"")
        self.pairs = self.gained = self.lost = 0
        self.users: Dict[bytes, None] = {}
        self.reasons: Dict[bytes, Counted] = {}
        self.of_else: Set[bytes] = set()  # The reasons of everybody else,
        self.else_gains = self.is_write = False  # and whether they gain; whether somebody gains w.

    def add(self, files: Counted, changes: List[Tuple[bytes, Effect, bytes]], everybody: bytes) -> None:
        """Counts files of one shape, with the users, what each gained and lost, and why."""
        self.files.add(files)
        for counted, is_so in ((self.more, any(it.gained for _, it, _ in changes)), (self.less, any(it.lost for _, it, _ in changes)),
                               (self.opened, any(user == everybody and it.is_write for user, it, _ in changes))):
            if is_so:
                counted.add(files)
        for why in {why for _, _, why in changes}:
            self.reasons.setdefault(why, Counted(FAR, b"")).add(files)
        self.pairs += files.files * len(changes)
        for user, effect, why in changes:
            self.users[user] = None
            self.gained |= sum(it for it in (R, W, X) if it in effect.gained)
            self.lost |= sum(it for it in (R, W, X) if it in effect.lost)
            self.is_write = self.is_write or effect.is_write
            if user == everybody:
                self.of_else.add(why)
                self.else_gains = self.else_gains or bool(effect.gained)

    def kind(self, cause: str) -> str:
        if cause != RECORD:
            return cause
        return OTHERS if self.else_gains else WRITE if self.is_write else READ if self.more.files else LOSS

    def event(self, cause: str, order: Dict[bytes, int]) -> Event:
        """The event, with its users in an order, and the reasons of everybody else and of most files first."""
        reasons = sorted(self.reasons.items(), key=lambda it: (it[0] not in self.of_else, -it[1].files, it[1].place, it[0]))
        return Event(self.kind(cause), sorted(self.users, key=order.__getitem__), self.files.files, self.more.files, self.less.files,
                     self.pairs, self.gained, self.lost, self.files.first,
                     [Reason(why, files.files, files.first) for why, files in reasons], self.opened)


class Explained:
    """Events, and the reasons of what each user may do otherwise."""

    def __init__(self, events: List[Event], reasons: Dict[Tuple[bytes, str, str], Dict[bytes, Counted]]) -> None:
        self.events, self.reasons = events, reasons

    def of(self, gain: Gain) -> Tuple[Reason, ...]:
        """Why a user may do otherwise, those of most files first."""
        found = sorted(self.reasons.get(gain[:3], {}).items(), key=lambda it: (-it[1].files, it[1].place))
        return tuple(Reason(why, files.files, files.first) for why, files in found)


def explain(parts: List[JudgedUsers], causes: Causes, order: Dict[bytes, int], everybody: bytes) -> Explained:
    """The events of those users who are in an order."""
    for users in parts:
        causes.reasons.ask(it for it in causes.questions(users) if it.user in order)
    tallies: Dict[Tuple[str, object], Tally] = {}
    reasons: Dict[Tuple[bytes, str, str], Dict[bytes, Counted]] = {}
    for shape, files in causes.shapes.counted.items():
        changes: Dict[Tuple[str, object], List[Tuple[bytes, Effect, bytes]]] = {}
        for users in parts:
            for change in users.changes(shape):
                user = users.users[change.place]
                if user in order:
                    kind, what, why = causes.of(users, shape, change)
                    changes.setdefault((kind, what), []).append((user, effect_of(change.old, change.new), why))
                    its = reasons.setdefault((user, change.old, change.new), {})
                    its.setdefault(why, Counted(FAR, b"")).add(files)
        for key, found in changes.items():
            tallies.setdefault(key, Tally()).add(files, found, everybody)
    return Explained(in_order([it.event(kind, order) for (kind, _), it in tallies.items()]), reasons)


def unexplained(gains: Iterable[Gain], everybody: bytes) -> Explained:
    """The same where it would take too long to find out what happened: each change of rights is an event."""
    alike: Dict[Tuple[str, str, int, bytes], List[bytes]] = {}
    for gain in gains:
        alike.setdefault(gain[1:], []).append(gain.user)
    found = []
    for (old, new, count, first), users in alike.items():
        tally = Tally()
        tally.add(Counted(0, first, count), [(user, effect_of(old, new), b"") for user in users], everybody)
        found.append(tally.event(RECORD, {user: place for place, user in enumerate(users)})._replace(reasons=[]))
    return Explained(in_order(found), {})


def in_order(events: List[Event]) -> List[Event]:
    """The worst first; of one kind those that let everybody else write, then those of most files and people."""
    return sorted(events, key=lambda it: (RANKS[it.kind], it.kind == OTHERS and not it.opened.files, -it.pairs,
                                          sorting_key(path_of(it.first)), it.users))
