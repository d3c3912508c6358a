"""What the jobs about a user have in common: the plan of one, its lines of edits, the files that name somebody, and who else gains
or loses by them."""
from __future__ import annotations

from typing import Callable, Collection, Dict, Iterable, Iterator, List, NamedTuple

from ..base.accounts import LAST_ID, SUPERUSER
from ..base.messages import Failure, counted
from ..base.names import file_word, number_of, write_user
from ..base.user_tools import User
from ..model.entries import PLAIN_NAME, USER, Key, ReadRecord, read_record
from ..model.everybody import SHOWN, World
from ..model.file_columns import FileColumns, columns_of
from ..model.marks import Marks, about
from ..model.people import People, check_word, ids_in, needed_word, no_user, plain_id, superusers_among, user_by
from ..model.records import path_of
from ..model.rights import ask_gains
from ..model.sources import find_tops, operands_of
from ..program.protocol import LIST_EFFECTIVE
from ..program.session import Session, parts_of

NO_GROUP = -1  # The primary group of an id without a row.
NOT_WRITTEN = b"nothing was written: "


class JobPlan(NamedTuple):
    """What a job makes of a snapshot."""

    about: bytes  # Whom the plan is named by.
    edits: bytes
    said: List[bytes]  # What a person may know,
    left: List[bytes]  # and what the plan leaves to be done.


# --- files


class RecordedFiles(NamedTuple):
    """All files of a session, in path order, with what their records say."""

    columns: FileColumns
    records: List[ReadRecord]  # By the number of a label.

    def numbers(self, has: Callable[[ReadRecord], bool]) -> List[int]:
        """The labels of which something is so."""
        return [number for number, record in enumerate(self.records) if has(record)]

    def paths(self, numbers: Collection[int]) -> List[bytes]:
        """The files that have one of some labels."""
        wanted = {*numbers}
        return [path for path, number in zip(self.columns.paths, self.columns.labels) if number in wanted] if wanted else []

    def that(self, has: Callable[[ReadRecord], bool]) -> List[bytes]:
        """The files of which something is so."""
        return self.paths(self.numbers(has))


def files_of(session: Session) -> RecordedFiles:
    """The files as they are now, with what masks cut."""
    lines = [b" ".join([LIST_EFFECTIVE, *words]) for words in operands_of(find_tops(session, session.folder))]
    columns = columns_of(map(session.ask_accepted, lines))
    return RecordedFiles(columns, [*map(read_record, columns.numbers.bodies())])


def counted_files(world: World, paths: List[bytes]) -> bytes:
    """How many files, and the first one."""
    return counted(len(paths), "file") + b", first: " + world.name_of(paths[0])


class FilesThatStay(NamedTuple):
    """Files that nobody can change."""

    by_kind: Dict[bytes, List[bytes]]  # Each with why.

    def texts(self, world: World, what: bytes) -> Iterator[bytes]:
        for kind, paths in self.by_kind.items():
            yield what + b", which nobody can change, as it is " + about(kind) + b": " + counted_files(world, paths)


def without_stuck(marks: Marks, paths: List[bytes], stay: FilesThatStay) -> List[bytes]:
    """The files that can be changed; adds the others to those that stay."""
    if not marks.own and not marks.mounts:
        return paths
    found: List[bytes] = []
    for path in paths:
        kind = marks.keeps(path)
        (found if kind is None else stay.by_kind.setdefault(kind, [])).append(path)
    return found


# --- lines


def lines_of(world: World, edit: bytes, paths: List[bytes]) -> Iterator[bytes]:
    """The lines of an edit of some files, as many files in each as it has room for."""
    for words in parts_of(file_word(path, world.is_whole) for path in paths):
        yield b" ".join([edit, *words])


def entry_of(user: User) -> bytes:
    """The user of an entry in a line."""
    return b"u:" + (user.name if PLAIN_NAME.match(user.name) else b"%d" % user.uid)


def word_of(users: Iterable[User], user: User) -> bytes:
    """The word of a user in a line of a tool of users."""
    return user.name if PLAIN_NAME.match(user.name) else needed_word(users, user.name, write_user(user.name))


def group_word(people: People, name: bytes) -> bytes:
    """The word of a group."""
    as_users = [User(it.name, it.gid, it.gid) for it in people.groups]
    return name if PLAIN_NAME.match(name) else needed_word(as_users, name, write_user(name))


def key_of(user: User) -> Key:
    """The user of an entry of a record."""
    return USER, b"%d" % user.uid


# --- people


def user_of(world: World, word: bytes, needs_row: bool = True, may_be_root: bool = False) -> User:
    """The user whom a word means, who has a row, unless an id will do."""
    if word == SHOWN and user_by(world.users, word) is None:
        raise Failure(SHOWN + b": is no single user")
    check_word(world.users, word)
    found = user_by(world.users, word)
    if found is None and (needs_row or not word.isdigit()):
        raise no_user(world.users, word)
    found = found or User(plain_id(word), number_of(word), NO_GROUP)
    if found.uid > LAST_ID:
        raise no_user(world.users, word)
    if found.uid == SUPERUSER and not may_be_root:
        raise Failure(word + b": has the id 0, to whom Linux grants nearly everything")
    return found


def check_others(world: World, users: Iterable[User], who: bytes) -> None:
    """Fails where the lines that a session has answered change what others may do than these users."""
    known = {write_user(user.name) for user in users} | {*map(write_user, superusers_among(ids_in(world.texts.passwd).items()))}
    other = next((it for it in ask_gains(world.session, is_alone=True) if it.user not in known), None)
    if other is not None:
        raise Failure(NOT_WRITTEN + b"%s may do something else then, too: %s -> %s on %s, first: %s; has it the id of %s?" % (
            world.everybody.shown(other.user), other.old.encode(), other.new.encode(), counted(other.files, "file"),
            world.name_of(path_of(other.first)), who))
