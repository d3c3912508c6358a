"""Whose account the id of a user is: the superuser's, a person's, or one of the system's; and rows of users and groups."""
from __future__ import annotations

import itertools
from typing import Dict, Iterator, List, NamedTuple, Tuple

LONGEST_ROW = 65_000  # Bytes, with room for another name: the program takes 65,536.
COLONS = {2: 6, 1: 3}  # In a row of passwd, which has two ids, and of group.
SUPERUSER = 0  # The kernel grants its users nearly everything, whatever a list says.
LAST_ID = 4_294_967_294
# login.defs(5) has the ids of people from 1000 to 60000, and systemd (UIDS-GIDS) from 60001 to 60513 those of its own home
# directories. Up to 65535 follow service users, nobody and no user. A directory service gives people ids above.
FIRST_PERSON, LAST_PERSON = 1000, 60_513
LAST_OF_SYSTEM = 65_535
PEOPLE = f"ids from {FIRST_PERSON} to {LAST_PERSON}, and above {LAST_OF_SYSTEM}"


def is_person(uid: int) -> bool:
    return FIRST_PERSON <= uid <= LAST_PERSON or uid > LAST_OF_SYSTEM


class Account(NamedTuple):
    """A user or a group."""

    start: bytes  # Its row, without the members of a group.
    name: bytes
    ids: Tuple[int, ...]  # Its own, and the first group of a user.
    members: Tuple[bytes, ...]

    def row(self) -> bytes:
        return self.start + b",".join(self.members)

    def renamed(self, name: bytes) -> Account:
        return self._replace(start=name + self.start[len(self.name):], name=name)

    def is_taken(self) -> bool:
        """Whether the program takes the row, which is a comment where it begins with #. Entries of NIS, as +user, have no ids."""
        row = self.row()
        return (self.name != b"" and self.name[:1] not in (b"+", b"-", b"#") and max(self.ids) <= LAST_ID
                and b"\n" not in row and row.count(b":") == COLONS[len(self.ids)])

    def numbers(self) -> Iterator[bytes]:
        """Names that it can have in the place of its own: each means this id in any case."""
        return (b"0" * zeros + b"%d" % self.ids[0] for zeros in itertools.count())

    def pieces(self) -> Iterator[Account]:
        """Rows that are not too long, with all members of a group."""
        piece: List[bytes] = []
        room = LONGEST_ROW - len(self.start)
        for name in self.members:
            room -= len(name) + 1
            if room < 0 and piece:
                yield self._replace(members=(*piece,))
                piece, room = [], LONGEST_ROW - len(self.start) - len(name) - 1
            piece.append(name)
        yield self._replace(members=(*piece,))


def with_own_names(accounts: List[Account]) -> List[Account]:
    """One row for each name, since the program counts the first row of a name alone, and the system lets in the members of all
    (initgroups(3)): a further row of the same id gives its members to the first one, and one of another id has that for its name.
    So have those after the first one of a group whose row would be too long."""
    if len({it.name for it in accounts}) == len(accounts) and all(len(it.row()) <= LONGEST_ROW for it in accounts):
        return accounts
    found: Dict[bytes, Account] = {}
    for it in accounts:
        name = next(name for name in itertools.chain([it.name], it.numbers()) if found.get(name, it).ids[0] == it.ids[0])
        first = found.setdefault(name, it.renamed(name))
        if not {*it.members} <= {*first.members}:
            found[name] = first._replace(members=(*dict.fromkeys(first.members + it.members),))
    for it in [it for it in found.values() if len(it.row()) > LONGEST_ROW]:
        found[it.name], *more = it.pieces()
        for piece in more:
            name = next(name for name in it.numbers() if name not in found)
            found[name] = piece.renamed(name)
    return [*found.values()]
