"""What facl-who asks the program: rights as words, the users whom words mean, and by which entries users have rights; and
what an answer of it is: a table, the same for JSON, and what is said where it is empty."""
from __future__ import annotations

import argparse
import contextlib
import re
from typing import Dict, Iterable, Iterator, List, NamedTuple, Optional, Sequence, Tuple

from ...base.folders import folder_of
from ...base.messages import Failure
from ...base.names import number_of, path_word, read_name, write_user
from ...base.tables import Table
from ...model import meta
from ...model.choice import few
from ...model.entries import OTHER_KEY, OWNER_KEY, OWNING_GROUP_KEY, Entry, entries_of, read_record
from ...model.everybody import SHOWN, World, beside
from ...model.label_answers import ask_records
from ...model.marks import NO_MARKS, Unwritable, find_unwritable, marks_of, without_write
from ...model.people import check_word, needed_word, no_user, user_by, user_word
from ...model.snapshot import read_links
from ...program.protocol import EFFECTIVE, ENTRIES_OF, LIST_NAMES
from ...program.tools import REACH

WORDS = {"read": b"r", "write": b"w", "enter": b"x"}
LETTERS = re.compile(r"[rwx-]*[rwx][rwx-]*\Z")
AT_ONCE = 1_000  # Questions that the program is asked at once.
Pair = Tuple[bytes, bytes]  # A user, as the program prints the name, and a path.


class Right(NamedTuple):
    """What is asked of a file: a request of one letter or of several at once."""

    word: str
    letters: bytes


def read_right(text: str) -> Right:
    """A right as a person writes it: a word, or letters."""
    if text not in WORDS and not LETTERS.match(text):
        raise Failure(b"%s: is not a right; give read, write, enter, or letters of rwx, with commas between several"
                      % text.encode("utf-8", "surrogateescape"))
    letters = WORDS.get(text) or "".join(it for it in "rwx" if it in text).encode()
    word = "".join(it if it in letters.decode() else "-" for it in "rwx")
    return Right({its: known for known, its in WORDS.items()}.get(letters, word), letters)


def read_rights(text: str) -> List[Right]:
    return list(dict.fromkeys(map(read_right, text.split(","))))


class WhoAnswer(NamedTuple):
    question: str  # Its name in JSON.
    table: Table
    fields: Dict[str, object]  # Those of JSON beside the ones that all answers have.
    empty: bytes  # The line in the place of an empty table.
    left_out: List[bytes] = []  # Users who would have a row, as the program prints their names.
    after: Tuple[bytes, ...] = ()  # Lines after the table, for a person.


class NamedUser(NamedTuple):
    """A user whom a person names."""

    shown: bytes  # As the program prints the name; the id where there is no row.
    uid: int


class Asker:
    """A session with what its answers need: along paths or not, the users, and how files are named."""

    def __init__(self, world: World, given: argparse.Namespace) -> None:
        self.world, self.session, self.given = world, world.session, given
        self.users = world.users
        # The rows of all whom an answer can have, in its order: everybody else comes first.
        self.passwd = world.everybody.with_user(b"") + world.texts.passwd
        self.marks = marks_of(self.session.folder)
        self.judged_by = NO_MARKS if given.lists_alone else self.marks
        self.unwritable: Optional[Unwritable] = None  # Files that were left out last.
        self.folders: List[bytes] = []  # At or below which files are looked at,
        self.named: List[bytes] = []  # and the paths that a person names.

    def shown(self, user: bytes) -> bytes:
        """What an answer has for a user, by the name that the program prints."""
        return self.world.everybody.shown(user)

    def beside(self, shown_users: Iterable[bytes]) -> List[bytes]:
        """What stands below an answer where everybody else is one of its users."""
        return beside(meta.meta_of(self.session.folder)) if SHOWN in shown_users else []

    def name_of(self, path: bytes) -> bytes:
        """The name of a file on the live system, where the snapshot starts at the root; with the program's escapes."""
        return self.world.name_of(path)

    def other_names(self, path: bytes) -> List[bytes]:
        """What is said of a file that has other names in the snapshot: the directories above these may be open."""
        links = read_links(folder_of(self.session.folder).optional(b"links"))
        names = [self.name_of(it) for its in links if path in its for it in its if it != path]
        return [b"is the same file as " + few(names) + b": look at that name too"] if names else []

    def spoken(self, folders: List[bytes]) -> bytes:
        """Some folders in a message."""
        names = list(map(self.name_of, folders[:3]))
        return b"at or below " + b", ".join(names) + (b" and %d more" % (len(folders) - 3) if len(folders) > 3 else b"")

    def line(self, tool: bytes, *words: bytes) -> bytes:
        """A question along paths, unless each file is to be judged alone."""
        return b" ".join([tool, *([] if self.given.file_alone else [REACH]), b"--", *words])

    @contextlib.contextmanager
    def without_unwritable(self, letters: bytes, folders: Iterable[bytes]) -> Iterator[None]:
        """Leaves files at or below some paths that nobody can write out of what is asked meanwhile of these permissions."""
        found = find_unwritable(self.session, self.judged_by, list(folders)) if b"w" in letters else None
        if found is None or not found.bodies:
            yield
            return
        self.unwritable = found
        with without_write(self.session, found):
            yield

    def lines_of(self, tool: bytes, *words: bytes) -> Iterable[bytes]:
        """The lines of its answer."""
        return self.session.ask_accepted(self.line(tool, *words)).lines()

    def records(self, lines: Sequence[bytes]) -> List[bytes]:
        """The record that each of some lines prints, without the name of its file."""
        return [record for start in range(0, len(lines), AT_ONCE)
                for record in ask_records(self.session, lines[start : start + AT_ONCE])]

    # --- users

    def word_of(self, user: bytes) -> bytes:
        """The word of a user, by the name that the program prints."""
        return needed_word(self.users, read_name(user), user)

    def user_of(self, word: bytes, has_row: bool = False) -> NamedUser:
        """The user whom the program takes a word for: digits alone are an id, which is that of the first user who has it.
        Where a row is needed, the program can be asked about the user."""
        check_word(self.users, word)
        user = user_by(self.users, word)
        if user is not None:
            if has_row:
                needed_word(self.users, user.name, word)
            return NamedUser(write_user(user.name), user.uid)
        if word.isdigit() and not has_row:
            return NamedUser(word, number_of(word))
        raise no_user(self.users, word)

    def anybody(self, word: bytes) -> NamedUser:
        """A user whom the program can be asked about, or everybody else."""
        if word == SHOWN and all(user.name != SHOWN for user in self.users):
            return NamedUser(self.world.everybody.name, self.world.everybody.number)
        return self.user_of(word, has_row=True)


class Reasons:
    """By which entries users are judged on files: of some pairs of both."""

    def __init__(self, asker: Asker, pairs: Iterable[Pair]) -> None:
        words = {pair: user_word(asker.users, read_name(pair[0])) for pair in pairs}
        lines = {pair: b" ".join([ENTRIES_OF, word, path_word(pair[1])])
                 for pair, word in words.items() if word is not None}  # A user whom no word names has no entries here.
        self.entries = dict(zip(lines, map(entries_of, asker.records(list(lines.values())))))
        # By path: the file's group, as the program prints its name.
        paths = list(dict.fromkeys(path for (_, path), entries in self.entries.items()
                                   if any(it.key == OWNING_GROUP_KEY for it in entries)))
        records = asker.records([LIST_NAMES + b" " + path_word(path) for path in paths])
        self.groups = {path: read_record(record).group for path, record in zip(paths, records)}

    def granting(self, pair: Pair, right: Right) -> List[Entry]:
        """The entries that grant a right."""
        return [it for it in self.entries.get(pair, ()) if it.grants(right.letters)]

    def text(self, pair: Pair, right: Right) -> bytes:
        """The same for a table: the entry of the owner, the owning group or others by its name."""
        names = {OWNER_KEY: b"owner", OTHER_KEY: b"other", OWNING_GROUP_KEY: b"group " + self.groups.get(pair[1], b"")}
        return b", ".join(names.get(it.key) or plain_entry(it) for it in self.granting(pair, right))


def plain_entry(entry: Entry) -> bytes:
    """An entry with one blank before its effective permissions."""
    return entry.text(b" " + EFFECTIVE + b"%s")
