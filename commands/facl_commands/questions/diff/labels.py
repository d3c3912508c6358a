"""What differs between two snapshots by what the program answers of each different record.

It is asked by `index` of each record once, for files of all shapes that have it. Users who have the same id and groups in
both snapshots are asked about only where records differ.
"""
from __future__ import annotations

from operator import itemgetter
from typing import Dict, FrozenSet, Iterable, List, NamedTuple, Optional, Tuple

from ...base.messages import Failure
from ...base.names import write_user
from ...model.label_answers import dump_of, vectors_of
from ...model.people import rows_of
from ...model.rights import ABSENT, GRANTED, Gain, is_change, places_in, users_of
from ...model.rules_of_lists import HAS_SEARCH, along_path, inside, lanes
from ...program.protocol import INDEX
from ...program.session import session_over
from .shapes import GONE, NONE, Counted, Shape, Shapes
from .states import State, members_of

CELLS_AT_ONCE = 4_000_000  # The most bytes of `index` of one session,
MOST_CELLS = 200_000_000  # and all of them: some minutes.
TEXTS = [ABSENT, *GRANTED[1:]]  # By a byte of `index`; 0 is where the user or the file is not there.


class TooMany(Failure):
    """That more is to be asked than takes some minutes."""


# --- what the program answers of records


def rows_with(passwd: bytes, names: FrozenSet[bytes]) -> bytes:
    """The rows of some users, as lines."""
    return b"".join(b":".join(row) + b"\n" for row in rows_of(passwd) if row[0] in names)


def ask_part(program: str, passwd: bytes, group: bytes, bodies: List[bytes]) -> Tuple[List[bytes], List[bytes]]:
    """The users, and a byte of `index` for each of them on a file of each of some bodies."""
    with session_over(program, passwd, group, dump_of(bodies)) as session:
        table = session.ask_accepted(INDEX)
        users = users_of(table)
        return users, vectors_of(table, users, len(bodies))


def ask_vectors(program: str, state: State, names: FrozenSet[bytes], users: List[bytes],
                bodies: List[bytes]) -> List[bytes]:
    """For each body a byte for each user, 0 for one who is not there."""
    passwd = rows_with(state.passwd, names)
    count = passwd.count(b"\n")
    if not count:
        return [bytes(len(users)) for _ in bodies]
    step = max(1, CELLS_AT_ONCE // count)
    found: List[bytes] = []
    for start in range(0, len(bodies), step):
        there, vectors = ask_part(program, passwd, state.group, bodies[start : start + step])
        place = {user: number for number, user in enumerate(there)}
        if there == users:
            found += vectors
        else:
            places = [place.get(user, len(there)) for user in users]
            picked = itemgetter(*places, 0)  # The last one makes a tuple of them where there is one user.
            found += [bytes(picked(vector + b"\0")[:-1]) for vector in vectors]
    return found


# --- what differs


class Change(NamedTuple):
    """What a user, by a place among some, may do otherwise than before with files."""

    place: int
    old: str
    new: str

    def is_kept(self) -> bool:
        """Whether the files and the user are there before and after."""
        return ABSENT not in (self.old, self.new)


class SideRights:
    """What some users may do at one time."""

    def __init__(self, shapes: Shapes, vectors: Dict[int, bytes], users: int, is_alone: bool) -> None:
        self.shapes, self.vectors, self.is_alone = shapes, vectors, is_alone
        self.nobody = bytes(users)
        self.reached: Dict[int, bytes] = {NONE: b"\1" * users}

    def reach(self, way: int) -> bytes:
        """For each user 1 who can search all directories of a way, else 0."""
        coming = []
        while way not in self.reached:
            coming.append(way)
            way = self.shapes.ways.values[way][0]
        for number in reversed(coming):
            above, body = self.shapes.ways.values[number]
            self.reached[number] = inside(self.reached[above], self.vectors[body])
        return self.reached[coming[0] if coming else way]

    def granted(self, body: int, way: int) -> bytes:
        """A byte for each user."""
        if body == GONE:
            return self.nobody
        vector = self.vectors[body]
        return vector if self.is_alone else along_path(vector, self.reach(way))

    def searches(self, body: int, place: int) -> bool:
        """Whether a user may search a directory; one that is not recorded keeps nobody out."""
        return body == GONE or bool(HAS_SEARCH[self.vectors[body][place]])


class JudgedUsers:
    """Some users, and the shapes of files with which they may do otherwise than before."""

    def __init__(self, users: List[bytes], shapes: List[Shape], sides: Tuple[SideRights, SideRights]) -> None:
        self.users, self.shapes, self.sides = users, dict.fromkeys(shapes), sides
        self.known: Dict[Tuple[bytes, bytes], List[Change]] = {}

    def changes(self, shape: Shape) -> List[Change]:
        """What these users may do otherwise with a file of a shape."""
        if shape not in self.shapes:
            return []
        old = self.sides[0].granted(shape.old, shape.old_above)
        new = self.sides[1].granted(shape.new, shape.new_above)
        if old == new:
            return []
        if (old, new) not in self.known:
            differing = (lanes(old) ^ lanes(new)).to_bytes(len(new), "little")
            its = (Change(place, TEXTS[old[place]], TEXTS[new[place]]) for place in places_in(differing))
            self.known[old, new] = [it for it in its if is_change(it.old, it.new)]
        return self.known[old, new]


class LabelDifferences:
    """What differs between two snapshots, by the records of their files: for all users, or for some."""

    def __init__(self, program: str, states: Tuple[State, State], shapes: Shapes, is_alone: bool,
                 wanted: Optional[FrozenSet[bytes]] = None) -> None:
        self.program, self.states, self.shapes, self.is_alone = program, states, shapes, is_alone
        before, after = self.members = (members_of(states[0].people()), members_of(states[1].people()))
        self.names = [name for name in {**before, **after} if wanted is None or write_user(name) in wanted]

    def parts(self) -> List[JudgedUsers]:
        before, after = self.members
        others = [name for name in self.names if before.get(name) != after.get(name)]
        same = [name for name in self.names if before.get(name) == after.get(name)]
        shapes = list(self.shapes.counted)
        asked = ((others, shapes), (same, [shape for shape in shapes if shape.is_touched()]))
        self.check_size(asked)
        return [self.part(*it) for it in asked if all(it)]

    def check_size(self, asked: Iterable[Tuple[List[bytes], List[Shape]]]) -> None:
        cells = sum(2 * len(names) * len(self.shapes.records(shapes)) for names, shapes in asked)
        if cells > MOST_CELLS:
            raise TooMany(b"too many different records for so many users: compare FOLDERs one by one")

    def part(self, names: List[bytes], shapes: List[Shape]) -> JudgedUsers:
        users = [write_user(name) for name in names]
        numbers = self.shapes.records(shapes)
        bodies = [self.shapes.bodies.values[number] + b"\n" for number in numbers]
        sides = [SideRights(self.shapes, dict(zip(numbers, ask_vectors(self.program, state, frozenset(names), users, bodies))),
                            len(users), self.is_alone) for state in self.states]
        return JudgedUsers(users, shapes, (sides[0], sides[1]))

    def gains(self, parts: Iterable[JudgedUsers]) -> List[Gain]:
        found: Dict[Tuple[bytes, str, str], Counted] = {}
        for part in parts:
            for shape in part.shapes:
                for place, old, new in part.changes(shape):
                    files = self.shapes.counted[shape]
                    found.setdefault((part.users[place], old, new), Counted(files.place, files.first)).add(files)
        order = {write_user(name): number for number, name in enumerate(self.names)}
        gains = [Gain(*key, files.files, files.first) for key, files in found.items()]
        return sorted(gains, key=lambda gain: order[gain.user])
