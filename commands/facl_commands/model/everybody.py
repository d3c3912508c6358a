"""Everybody else: a user whom no entry of any list names, who owns no file, and who is in none of the groups that files have
or entries name. So is whoever a snapshot does not have, as an account that is made tomorrow, or somebody of a directory
service, unless the service has the user in such a group.

The program judges everybody else as any other user, by a row after those of the snapshot, in texts of its own: no text that
a person reads has this row, and nobody counts it. Questions of the commands have the name in it, and answers SHOWN.
"""
from __future__ import annotations

import contextlib
import itertools
import re
import secrets
from typing import Callable, Iterable, Iterator, List, NamedTuple, Optional, Set

from ..base.accounts import LAST_ID
from ..base.folders import Folder, folder_of
from ..base.messages import Failure
from ..base.names import file_name, script_word, write_user
from ..base.user_tools import User
from ..program.protocol import ALL_OF, FREE_FILE_LINE, LIST, LIST_EFFECTIVE
from ..program.scripts import Unit
from ..program.session import Session
from ..program.tools import ABOUT_ONE, ABOUT_USERS, BY_FILES, QUESTIONS, USER, options_with, path_in, split, user_in
from .file_columns import FileTree, tree_of
from .meta import Meta, users_asked_for
from .people import ids_of, needed_word, users_in
from .records import path_of, paths_in
from .snapshot import NEEDED
from .sources import DUMP, Source, dump_pieces, find_tops, operands_of

SHOWN = b"everybody else"  # The program prints no name of a user with a blank.
START = b"facl-everybody-else-"  # Of the name in questions.
WORD = re.compile(b"(" + START + b"[0-9a-f]{8}):([0-9]{10})\\Z")
FIRST_ID = 1_000_000_000  # Of those that it may have.
DIRECTORY = re.compile(FREE_FILE_LINE + b"/")


class SnapshotTexts(NamedTuple):
    """The users and groups of a snapshot."""

    passwd: bytes
    group: bytes


class Everybody(NamedTuple):
    """That user, and the group that has nobody else."""

    name: bytes  # Of both, as it is printed too.
    number: int  # The id of both.

    def with_user(self, passwd: bytes) -> bytes:
        """Rows with that of the user at the end, so that the others keep their places."""
        return passwd + b"\n" * (passwd[-1:] not in (b"", b"\n")) + b"%s:x:%d:%d::/:\n" % (*self, self.number)

    def with_group(self, group: bytes) -> bytes:
        return group + b"\n" * (group[-1:] not in (b"", b"\n")) + b"%s:x:%d:\n" % self

    def with_both(self, texts: SnapshotTexts) -> SnapshotTexts:
        return SnapshotTexts(self.with_user(texts.passwd), self.with_group(texts.group))

    def shown(self, user: bytes) -> bytes:
        """What answers have for a user, by the name that the program prints."""
        return SHOWN if user == self.name else user

    def is_in(self, texts: Iterable[bytes]) -> bool:
        return any(self.name in text or b"%d" % self.number in text for text in texts)

    def word(self) -> bytes:
        """What another command is given, and read_everybody reads."""
        return b"%s:%d" % self


def everybody_in(texts: Callable[[], Iterable[bytes]]) -> Everybody:
    """With a name and an id that are in none of some texts: users, groups, dumps, and lines that change them. They are made at
    random, since whoever names files could use all that can be known before."""
    while True:
        found = Everybody(START + secrets.token_hex(4).encode(), FIRST_ID + secrets.randbelow(LAST_ID - FIRST_ID))
        if not found.is_in(texts()):
            return found


def read_everybody(word: bytes, folder: bytes) -> Everybody:
    """The one of another command, which does not know the texts of a snapshot."""
    match = WORD.match(word)
    if match is None:
        raise Failure(word + b": is no name and id of everybody else")
    found = Everybody(match[1], int(match[2]))
    if found.is_in(texts_in([folder])):
        raise Failure(folder + b": has the name or the id that was made for everybody else: ask again")
    return found


def texts_in(folders: Iterable[bytes]) -> Iterator[bytes]:
    """The texts of snapshots, one after another, dumps in pieces."""
    for folder in folders:
        yield from map(folder_of(folder).read, NEEDED[:2])
        yield from dump_pieces(folder)


def beside(about: Meta) -> List[bytes]:
    """The line that stands beside everybody else, where the snapshot has users of a directory service and knows how many."""
    return beside_of(users_asked_for(about))


def beside_of(number: Optional[int]) -> List[bytes]:
    return [SHOWN + b": users whom the snapshot does not have; it has %d of a directory service" % number] if number else []


def free_ids(rows: bytes, used: Set[bytes]) -> Iterator[int]:
    """The ids that no row has, and that are not among those that are used, from the greatest one down."""
    known = used.union(number for number, _ in ids_of(rows))
    return (it for it in range(LAST_ID, 0, -1) if b"%d" % it not in known)


# --- questions and answers of a session with everybody else


def place_of_user(words: List[bytes]) -> int:
    """Where a question about one user has everybody else; 0 if it does not."""
    tool, line = words[0] if words else b"", split(words)
    names = options_with(tool, USER) if tool in QUESTIONS else frozenset()
    if line.value(*names) == SHOWN:
        joined = [name + b"=" + SHOWN for name in names]
        return next(at for at, word in enumerate(words) if word in joined or word == SHOWN and words[at - 1] in names)
    return words.index(SHOWN) if tool in ABOUT_ONE and line.operands[:1] == [SHOWN] else 0


class ElseAnswers:
    """Questions about one user, and answers about users, as a person writes and reads them."""

    def __init__(self, everybody: Everybody, passwd: bytes = b"") -> None:
        self.everybody = everybody
        self.is_word = b"\n" + SHOWN + b":" not in b"\n" + passwd  # Whether SHOWN is no user of the snapshot.
        self.was_shown = False  # Whether an answer had everybody else.

    def asked(self, unit: Unit) -> Unit:
        """A line for the program, which knows everybody else by another name."""
        at = place_of_user(unit.words) if self.is_word else 0
        if not at:
            return unit
        words = [*unit.words[:at], unit.words[at].replace(SHOWN, self.everybody.name), *unit.words[at + 1 :]]
        return unit._replace(words=words, lines=[b" ".join(map(script_word, words))])

    def first(self, tool: bytes, lines: Iterable[bytes]) -> Iterator[bytes]:
        """The lines of an answer; those of everybody else before those of users, of each file where they go by files."""
        if tool not in ABOUT_USERS:
            yield from lines
            return
        for _, its in itertools.groupby(lines, lambda line: path_in(tool, line) if tool in BY_FILES else b""):
            known: List[bytes] = []
            for line in its:
                if user_in(tool, line) == self.everybody.name:
                    self.was_shown = True
                    yield line.replace(self.everybody.name, SHOWN, 1)
                else:
                    known.append(line)
            yield from known

    def text(self, tool: bytes, output: bytes) -> bytes:
        """The same of a whole answer."""
        return b"".join(line + b"\n" for line in self.first(tool, output.split(b"\n")[:-1])) if tool in ABOUT_USERS else output


def answers_over(folder: bytes, passwd: bytes, units: List[Unit]) -> ElseAnswers:
    """Those of a snapshot with these users, of which lines of scripts are asked."""
    return ElseAnswers(everybody_in(lambda: itertools.chain(texts_in([folder]), (unit.text() for unit in units))), passwd)


# --- a session with everybody else


class World(NamedTuple):
    """A snapshot, and a session over it that has everybody else as a user."""

    session: Session
    texts: SnapshotTexts
    everybody: Everybody
    users: List[User]  # The others.
    is_whole: bool  # Whether paths start at the root of the file system.

    def name_of(self, path: bytes) -> bytes:
        """A path as a person reads it."""
        return file_name(path, self.is_whole)

    def reach(self, is_alone: bool) -> bytes:
        return b"" if is_alone else b"--reach "

    def word_of(self, user: bytes) -> bytes:
        """The word of a question that names a user."""
        return needed_word(self.users, user, write_user(user))


def texts_with(folder: bytes, passwd: bytes, group: bytes) -> Folder:
    """The dump of a snapshot, and other users and groups; messages name the snapshot."""
    texts = Folder(folder)
    texts.put(NEEDED[0], passwd)
    texts.put(NEEDED[1], group)
    texts.share(DUMP, folder_of(folder))
    return texts


def session_with(program: str, folder: bytes, passwd: bytes, group: bytes) -> Session:
    """A session over the dump of a snapshot, with other users and groups."""
    return Session(program, folder, texts_with(folder, passwd, group))


def people_in(folder: bytes) -> SnapshotTexts:
    return SnapshotTexts(*map(folder_of(folder).read, NEEDED[:2]))


@contextlib.contextmanager
def world_of(program: str, source: Source) -> Iterator[World]:
    texts = people_in(source.folder)
    everybody = everybody_in(lambda: texts_in([source.folder]))
    with session_with(program, source.folder, *everybody.with_both(texts)) as session:
        # Where the program does not load the texts, it says so before they are looked at.
        has_root = not session.ask(LIST + b" .\n").messages
        yield World(session, texts, everybody, users_in(texts.passwd), has_root)


def directories_of(dump: bytes) -> Iterator[bytes]:
    """The paths of the files of a dump, or of whole lines of one, whose names end in a slash."""
    end = dump.find(b"/\n")
    while end >= 0:
        match = DIRECTORY.fullmatch(dump, dump.rfind(b"\n", 0, end) + 1, end + 1)
        if match is not None:
            yield path_of(match[1])
        end = dump.find(b"/\n", end + 1)


def paths_of(world: World) -> List[bytes]:
    """The paths of all files, in path order."""
    return paths_in(world.session.ask_accepted(ALL_OF % world.everybody.name))


def files_of(world: World) -> FileTree:
    """All files, with what the masks cut; a directory is one by the dump too."""
    session, folder = world.session, world.session.folder
    lines = [b" ".join([LIST_EFFECTIVE, *words]) for words in operands_of(find_tops(session, folder))]
    return tree_of(map(session.ask_accepted, lines), itertools.chain.from_iterable(map(directories_of, dump_pieces(folder))))
