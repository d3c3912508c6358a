"""Two snapshots for facl-diff: their files record by record, their users and groups, and what differs between them."""
from __future__ import annotations

import itertools
from typing import ContextManager, Dict, FrozenSet, Iterable, Iterator, List, NamedTuple, Optional, Tuple, Union

from ...base import scratch
from ...base.folders import folder_of
from ...base.messages import Failure
from ...base.names import highest, sorting_key
from ...model import meta, sources, split_tree
from ...model.everybody import Everybody, everybody_in, session_with, texts_in
from ...model.people import People, groups_by_user
from ...model.records import body_of, is_of_directory, name_of, path_of, records_in
from ...model.snapshot import NEEDED
from ...program.protocol import FILE_HEAD
from ...program.session import OutputSlice, Session

LINKS = b"links"  # A text that facl-snapshot makes.


class State(NamedTuple):
    """A snapshot: what the program loads of it, and of which system it is."""

    folder: bytes
    passwd: bytes
    group: bytes
    about: meta.Meta
    folders: List[bytes]  # Those of its parts; of a snapshot that has none its own.

    def is_split(self) -> bool:
        return self.folders != [self.folder]

    def is_import(self) -> bool:
        """Whether it is made of a dump, of which facl-snapshot knows nothing."""
        return self.about is meta.UNKNOWN and not self.is_split() and not folder_of(self.folder).has(LINKS)

    def named(self) -> bytes:
        return meta.named(self.folder, self.about)

    def has_people_of(self, other: State) -> bool:
        return (self.passwd, self.group) == (other.passwd, other.group)

    def with_everybody(self, everybody: Everybody) -> State:
        """With everybody else among the users."""
        return self._replace(passwd=everybody.with_user(self.passwd), group=everybody.with_group(self.group))

    def people(self) -> People:
        """Its users and groups."""
        try:
            return People(self.passwd, self.group)
        except (IndexError, ValueError) as error:
            raise Failure(self.folder + b": passwd or group has a row that the program does not load: facl ask -s "
                          + self.folder + b" says which") from error


class ListedFile(NamedTuple):
    """A file as the program lists it: its record without the empty line at the end."""

    record: bytes
    is_directory: bool

    def name(self) -> bytes:
        return name_of(self.record)

    def body(self) -> bytes:
        return body_of(self.record)


class Pair(NamedTuple):
    """A path, with its file before and after; one of them is None where it is not there."""

    path: bytes
    old: Optional[ListedFile]
    new: Optional[ListedFile]

    def is_of_other_kind(self) -> bool:
        """Whether a file is in the place of a directory, or a directory in that of a file."""
        return self.old is not None and self.new is not None and self.old.is_directory != self.new.is_directory


class Member(NamedTuple):
    """A user, with all groups."""

    uid: int
    primary: int
    groups: FrozenSet[int]


Members = Dict[bytes, Member]  # By name.


def read_state(folder: bytes) -> State:
    folders = split_tree.check_all(folder)
    passwd, group = map(folder_of(folders[0]).read, NEEDED[:2])
    about = split_tree.meta_of_all(folders) if folders != [folder] else meta.meta_of(folder)
    return State(folder, passwd, group, about, folders)


def everybody_of(old: State, new: State) -> Everybody:
    """Everybody else in both snapshots."""
    return everybody_in(lambda: texts_in([*old.folders, *new.folders]))


def members_of(people: People) -> Members:
    groups = groups_by_user(people)
    return {user.name: Member(user.uid, user.gid, frozenset(groups[user.name])) for user in people.users}


# --- a session over a snapshot


def session_of(program: str, state: State, group: Optional[bytes] = None) -> ContextManager[Session]:
    """A session over a snapshot; with other groups in the place of its own."""
    return session_with(program, state.folder, state.passwd, state.group if group is None else group)


def tops_of(*sides: Tuple[Session, State]) -> List[bytes]:
    """The paths of both snapshots that no recorded directory is above."""
    return highest(path for session, state in sides for path in sources.find_tops(session, state.folder))


def listing_of_all(program: str, state: State) -> OutputSlice:
    """The files of all parts of a snapshot, each once, in path order."""
    file, once = scratch.new_file("facl-parts."), split_tree.Once()
    last = b""
    for folder in state.folders:
        with Session(program, folder) as session:
            for record in records_in(sources.list_below(session, sources.find_tops(session, folder))):
                if once.is_new(path_of(name_of(record))):
                    file.write(as_listed(last, record))
                    last = record
    file.write(as_listed(last, b""))
    file.flush()
    return OutputSlice(file, 0, file.tell())


def as_listed(record: bytes, following: bytes) -> bytes:
    """A record as it is in the listing of a whole tree, where the name of a directory ends in a slash only if nothing is in it."""
    name = name_of(record)
    if name[-1:] == b"/" and following.startswith(FILE_HEAD + name):
        record = FILE_HEAD + name[:-1] + record[len(FILE_HEAD + name) :]
    return record + b"\n\n" if record else b""


# --- records


def is_directory(record: bytes, following: Optional[bytes]) -> bool:
    """Whether a record is that of a directory: by its name, its default entries, or the next file, which is in it."""
    name = name_of(record)
    if is_of_directory(name, record):
        return True
    return following is not None and following.startswith(FILE_HEAD + name + b"/")


def found_of(record: Optional[bytes], following: Optional[bytes]) -> Optional[ListedFile]:
    return None if record is None else ListedFile(record, is_directory(record, following))


def is_first(record: bytes, other: Optional[bytes]) -> bool:
    """Whether a record comes before another one in path order, or has its path."""
    return other is None or sorting_key(path_of(name_of(record))) <= sorting_key(path_of(name_of(other)))


class RecordReader:
    """The records of a listing, that come many at once, one by one."""

    def __init__(self, blocks: Iterator[List[bytes]]) -> None:
        self.blocks = blocks
        self.block: List[bytes] = []
        self.place = 0

    def peek(self) -> Optional[bytes]:
        """The next one; None at the end."""
        while self.place == len(self.block):
            block = next(self.blocks, None)
            if block is None:
                return None
            self.block, self.place = block, 0
        return self.block[self.place]

    def part(self, size: int) -> List[bytes]:
        """The next ones of those that came with it."""
        return self.block[self.place : self.place + size]


def take_same(old: RecordReader, new: RecordReader) -> List[bytes]:
    """Takes the next records as far as they are the same in both, and came at once."""
    found: List[bytes] = []
    size, is_growing = 1, old.peek() is not None and new.peek() is not None
    while size:
        part = old.part(size)
        if part and part == new.part(size):
            found += part
            for reader in (old, new):
                reader.place += len(part)
        else:
            is_growing = False
        size = 2 * size if is_growing else size // 2
    return found


def walk(old: RecordReader, new: RecordReader) -> Iterator[Union[Pair, List[bytes]]]:
    """All paths of two listings in path order: pairs of files that differ, and between them the records that are the same in both."""
    held: List[bytes] = []  # The last of these: whether it is that of a directory both times, what follows says.
    while True:
        same = take_same(old, new)
        if same:
            yield held + same[:-1]
            held = same[-1:]
            continue
        before, after = old.peek(), new.peek()
        for record in held:
            pair = pair_of(found_of(record, before), found_of(record, after))
            yield pair if pair.is_of_other_kind() else held
        held = []
        if before is None and after is None:
            return
        has_old = before is not None and is_first(before, after)
        has_new = after is not None and is_first(after, before)
        old.place, new.place = old.place + has_old, new.place + has_new
        yield pair_of(found_of(before, old.peek()) if has_old else None, found_of(after, new.peek()) if has_new else None)


def pair_of(old: Optional[ListedFile], new: Optional[ListedFile]) -> Pair:
    found = old or new
    assert found is not None
    return Pair(path_of(found.name()), old, new)


def is_same_text(one: List[OutputSlice], other: List[OutputSlice]) -> bool:
    """Whether two listings are the same, to the byte."""
    if [it.end - it.start for it in one] != [it.end - it.start for it in other]:
        return False
    both = zip(one, other)
    return all(here == there for it, that in both for here, there in itertools.zip_longest(it.pieces(), that.pieces()))


# --- what differs


class FileCounts(NamedTuple):
    """How many files differ, and how."""

    changed: int
    made: int
    removed: int


class PeopleCounts(NamedTuple):
    """The names of users who came and went, and of those with another id; and how many memberships came and went, of
    users who are in both snapshots."""

    made: List[bytes]
    removed: List[bytes]
    renumbered: List[bytes]
    joined: int
    left: int


def counts_of(pairs: Iterable[Pair]) -> FileCounts:
    changed = made = removed = 0
    for pair in pairs:
        is_kept = pair.old is not None and pair.new is not None and not pair.is_of_other_kind()
        changed += pair.old is not None and pair.new is not None and is_kept and pair.old.body() != pair.new.body()
        made += not is_kept and pair.new is not None
        removed += not is_kept and pair.old is not None
    return FileCounts(changed, made, removed)


def people_counts(old: Members, new: Members) -> PeopleCounts:
    both = [name for name in old if name in new]
    return PeopleCounts(
        [name for name in new if name not in old], [name for name in old if name not in new],
        [name for name in both if old[name].uid != new[name].uid],
        sum(len(new[name].groups - old[name].groups) for name in both),
        sum(len(old[name].groups - new[name].groups) for name in both),
    )
