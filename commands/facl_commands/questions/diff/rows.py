"""Changes of several people as one, in the order of what a person is to see first."""
from __future__ import annotations

from typing import Callable, Dict, Iterable, Iterator, List, NamedTuple, Set, Tuple, Union

from ...base.names import write_user
from ...model.everybody import Everybody
from ...model.rights import ABSENT, Gain, order_of
from .events import Event, Reason, effect_of
from .states import State

FEWEST = 2  # Users of the snapshots who are called everybody, with everybody else.


class ChangeRow(NamedTuple):
    """People of one change, with why it is so."""

    old: str
    new: str
    users: List[bytes]
    files: int
    first: bytes
    reasons: Tuple[Reason, ...]


class AllUsers:
    """All whom a row can be about: of those who are chosen the users who are there before and after, or at the time at which
    the file is; and everybody else."""

    def __init__(self, states: Tuple[State, State], chosen: Set[bytes], everybody: Everybody) -> None:
        self.everybody = everybody
        sides = [{write_user(user.name) for user in state.people().users} for state in states]
        self.before, self.after = (chosen & side for side in sides)

    def known(self, row: ChangeRow) -> Set[bytes]:
        """The users."""
        if ABSENT in (row.old, row.new):
            return self.after if row.old == ABSENT else self.before
        return self.before & self.after

    def are_known(self, row: ChangeRow) -> bool:
        """Whether a row has all of them, with everybody else or without."""
        users = set(row.users) - {self.everybody.name}
        return len(users) >= FEWEST and users == self.known(row)

    def has_else(self, row: Union[ChangeRow, Event]) -> bool:
        return self.everybody.name in row.users

    def are_all(self, event: Event) -> bool:
        """Whether an event is about all who are there before and after."""
        users = set(event.users) - {self.everybody.name}
        return len(users) >= FEWEST and users >= self.before & self.after


def rows_of(gains: Iterable[Gain], reasons: Callable[[Gain], Tuple[Reason, ...]], everybody: AllUsers) -> List[ChangeRow]:
    """The changes; people with one change for the same reasons are together, but for everybody else: that row has all users, or
    nobody beside."""
    found: Dict[Tuple[str, str, int, bytes, Tuple[Reason, ...]], ChangeRow] = {}
    for gain in gains:
        key = (*gain[1:], reasons(gain))
        found.setdefault(key, ChangeRow(gain.old, gain.new, [], gain.files, gain.first, key[-1])).users.append(gain.user)
    rows = [it for row in found.values() for it in parted(row, everybody)]
    return sorted(rows, key=lambda row: (rank(row, everybody), -row.files, order_of(row.first), -len(row.users)))


def parted(row: ChangeRow, everybody: AllUsers) -> Iterator[ChangeRow]:
    """A row, or two where everybody else is to be apart."""
    if not everybody.has_else(row) or len(row.users) == 1 or everybody.are_known(row):
        yield row
    else:
        name = everybody.everybody.name
        yield row._replace(users=[name])
        yield row._replace(users=[user for user in row.users if user != name])


# --- the order


def rank(row: ChangeRow, everybody: AllUsers) -> Tuple[int, int]:
    """First what everybody else gained or lost, then what everybody did, and of each gains of write, other gains, and losses."""
    who = 2 if not everybody.has_else(row) else 0 if len(row.users) == 1 else 1
    effect = effect_of(row.old, row.new)
    return who, 0 if effect.is_write else 1 if effect.gained else 2
