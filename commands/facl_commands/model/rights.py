"""Who may do what: what the program answers before the edits and after them, and what differs.

What differs by users and kinds of change is what `gains` prints. Where the files are listed too, all that is granted is read
of `index`: what a user may do with a file depends on its owner, group and list alone, which are lines of its record, so that of
the files with one record one block is read.
"""
from __future__ import annotations

import itertools
import re
import struct
from typing import Collection, Dict, Iterable, Iterator, List, NamedTuple, Optional, Tuple

from ..base.messages import Failure
from ..base.names import parent_of, sorting_key, way_to
from ..program.protocol import GAINS, GAINS_ALONG_PATHS, INDEX, NOT_THERE
from ..program.session import OutputSlice, Session
from .records import Listing, path_of
from .rules_of_lists import Vector, along_path, inside

ABSENT, NONE = "absent", "none"  # Of a file or a user that is not there; where nothing is granted.
REQUESTS = ["---", "--x", "-w-", "-wx", "r--", "r-x", "rw-", "rwx"]
NOT_ZERO = re.compile(rb"[^\0]")


def granted(byte: int) -> str:
    """A byte of `index`: the greatest of the requests that it grants."""
    requests = [request for request in range(1, 8) if byte >> request & 1]
    greatest = [it for it in requests if not any(it & other == it != other for other in requests)]
    return " ".join(REQUESTS[it] for it in greatest) or NONE


GRANTED = [granted(byte) for byte in range(256)]


def is_change(old: str, new: str) -> bool:
    """Whether somebody gained or lost something. One who is absent, or to whom the file is, has none."""
    return old != new and {old, new} != {ABSENT, NONE}


def places_in(numbers: bytes) -> Iterator[int]:
    """The places of bytes that are not 0."""
    return (found.start() for found in NOT_ZERO.finditer(numbers))


# --- by users: from what to what, on how many files, as `gains` has it


class Gain(NamedTuple):
    """What one user may do otherwise than before: from what to what, on how many files, and on which first."""

    user: bytes  # As the program prints it.
    old: str
    new: str
    files: int
    first: bytes  # By the name that the program prints.

    def is_kept(self) -> bool:
        """Whether the files and the user are there before and after."""
        return ABSENT not in (self.old, self.new)


def order_of(name: bytes) -> bytes:
    """What names of files are sorted by."""
    return sorting_key(path_of(name))


def gains_of(lines: Iterable[bytes]) -> List[Gain]:
    """What lines of `gains` say. Who is granted the request for nothing alone, or not even that, may do nothing: lines that differ in
    this are one gain."""
    found: Dict[Tuple[bytes, str, str], Gain] = {}
    for line in lines:
        *sides, files, user, first = line.split(b" ", 4)
        old, new = (ABSENT if side == NOT_THERE else GRANTED[int(side, 16)] for side in sides)
        if is_change(old, new):
            known = found.get((user, old, new), Gain(user, old, new, 0, first))
            found[user, old, new] = known._replace(files=known.files + int(files), first=min(known.first, first, key=order_of))
    return list(found.values())


def ask_gains(session: Session, is_alone: bool) -> List[Gain]:
    """Asks a session what its lines changed in who may do what."""
    return gains_of(session.ask_accepted(GAINS if is_alone else GAINS_ALONG_PATHS).lines())


# --- by files


class FileAnswers(NamedTuple):
    """What was asked of the program at one time, of all files."""

    names: Dict[bytes, bytes]  # By path: the name as the program prints it.
    users: List[bytes]
    alone: Dict[bytes, Vector]  # By path, in path order: on each file alone.


class Difference(NamedTuple):
    """A user has another right than before."""

    user: bytes
    old: str
    new: str


class FileGroup:
    """Files, by the names that the program prints, on which the same users have the same other rights."""

    def __init__(self, differences: List[Difference]) -> None:
        self.differences = differences
        self.files: List[bytes] = []


class RightsChanges(NamedTuple):
    """The groups, in the order of their first files; each file with its group, in path order."""

    groups: List[FileGroup]
    files: List[Tuple[bytes, FileGroup]]


def users_of(table: OutputSlice) -> List[bytes]:
    """The users of an index, in their order: those of its first file."""
    words = (line.split(b" ", 2) for line in table.lines())
    _, its = next(itertools.groupby(words, lambda it: it[2]), (b"", ()))
    return [user for _, user, _ in its]


def read_table(table: OutputSlice, users: List[bytes], listing: Listing) -> Dict[bytes, Vector]:
    """For each record what `index` has of the first file that has it. All lines of a file have one length but for the
    user; without the name, the digits have the same places in each file's lines."""
    found: Dict[bytes, Vector] = {}
    ends = [b" " + user + b"\n" for user in users]
    digits, rest = (struct.Struct("".join(form % len(end) for end in ends)) for form in ("2s%dx", "2x%ds"))
    fixed = digits.size + len(users)  # With the blank before each name.
    place = table.start
    for name, file in zip(listing.names, listing.files.values()):
        end = place + fixed + len(users) * len(name)
        if file.body not in found:
            text = OutputSlice(table.file, place, end).read().replace(b" " + name + b"\n", b"\n")
            if len(text) != digits.size or list(rest.unpack(text)) != ends:
                raise Failure(b"the program does not list the users and files of `index` in their order: " + name)
            found[file.body] = bytes.fromhex(b"".join(digits.unpack(text)).decode())
        place = end
    if place != table.end:
        raise Failure(b"the program does not list the files of `index` as getfacl does")
    return found


def ask_rights(session: Session, listing: Listing) -> FileAnswers:
    """Asks what all users may do with all files that are listed."""
    table = session.ask_accepted(INDEX)
    users = users_of(table)
    of_record = read_table(table, users, listing)
    return FileAnswers(dict(zip(listing.files, listing.names)), users,
                       {path: of_record[file.body] for path, file in listing.files.items()})


def along_paths_of(answers: FileAnswers) -> Dict[bytes, Vector]:
    """What is granted along paths: the request for nothing alone to those who cannot get there."""
    alone, everybody = answers.alone, b"\1" * len(answers.users)
    reached: Dict[bytes, bytes] = {}  # By directory: for each user 1 who can get to what is in it, else 0.
    for directory in dict.fromkeys(map(parent_of, alone)):
        for it in way_to(directory, reached):
            above = reached[parent_of(it)] if it else everybody
            reached[it] = inside(above, alone[it]) if it in alone else above  # One that is not recorded asks for nothing.
    pairs = {path: (vector, reached[parent_of(path)] if path else everybody) for path, vector in alone.items()}
    known = {pair: along_path(*pair) for pair in set(pairs.values())}
    return {path: known[pair] for path, pair in pairs.items()}


def differences(old: FileAnswers, new: FileAnswers, before: Optional[Vector], after: Optional[Vector]) -> List[Difference]:
    """What differs between the bytes of all users; without a file there are none."""
    if old.users == new.users and before == after:
        return []
    sides = [dict(zip(its.users, map(GRANTED.__getitem__, vector or b""))) for its, vector in ((old, before), (new, after))]
    found = [Difference(user, *(side.get(user, ABSENT) for side in sides)) for user in dict.fromkeys([*sides[0], *sides[1]])]
    return [it for it in found if is_change(it.old, it.new)]


def changes(old: FileAnswers, new: FileAnswers, along_paths: bool, left_out: Collection[bytes] = ()) -> RightsChanges:
    """What differs on each file, for all users but those who are left out. Two files with the same rights before and
    after are alike."""
    found = RightsChanges([], [])
    known: Dict[Tuple[Optional[Vector], Optional[Vector]], FileGroup] = {}
    before_of, after_of = ((along_paths_of(it) if along_paths else it.alone).get for it in (old, new))
    # The program has the paths of each in path order.
    for path in old.names if [*old.names] == [*new.names] else sorted({**old.names, **new.names}, key=sorting_key):
        pair = before_of(path), after_of(path)
        group = known.get(pair)
        if group is None:
            group = known[pair] = FileGroup([it for it in differences(old, new, *pair) if it.user not in left_out])
            found.groups.append(group)
        if group.differences:
            name = new.names.get(path) or old.names[path]
            group.files.append(name)
            found.files.append((name, group))
    return found
