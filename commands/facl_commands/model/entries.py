"""The entries in the record of a file, as a listing of the program has them, and words of scripts for them."""
from __future__ import annotations

import re
from functools import lru_cache
from typing import Dict, FrozenSet, Iterable, NamedTuple, Tuple

from ..base.names import PLAIN_SHELL_WORD, write_user
from ..program.protocol import EFFECTIVE, FLAGS_HEAD, GROUP_HEAD, OWNER_ENTRY, OWNER_HEAD
from .people import ids_of

LINE = re.compile(rb"^(default:)?(user|group|mask|other):([^:\n]*):([r-][w-][x-])(?:[\t ]+%s(...))?$" % EFFECTIVE, re.MULTILINE)
HEAD = re.compile(rb"# owner: (.*)\n# group: (.*)\n(?:# flags: ([s-][s-][t-])\n)?")
USER, GROUP, MASK, OTHER = b"user", b"group", b"mask", b"other"
PLAIN_NAME = re.compile(rb"[A-Za-z_][A-Za-z0-9_.-]*\Z")
LETTERS = (b"r", b"w", b"x")
NOTHING = b"---"  # Of permissions, and of flags.
CUT = b" (the mask leaves %s)"  # What a person reads after an entry.
MOST_KEPT = 1 << 16  # Records that were read: most snapshots have fewer, and some a million, for which there is no memory.
Key = Tuple[bytes, bytes]  # The tag, and the id where it names one, or the name as the program prints it.
OWNER_KEY, OWNING_GROUP_KEY, OTHER_KEY, MASK_KEY = (USER, b""), (GROUP, b""), (OTHER, b""), (MASK, b"")


class Entry(NamedTuple):
    key: Key
    permissions: bytes
    effective: bytes  # As the mask leaves them.

    def is_named(self) -> bool:
        return self.key[1] != b""

    def grants(self, letters: bytes) -> bool:
        """Whether it has all of some permissions, under the mask."""
        return set(letters) <= set(self.effective)

    def text(self, cut: bytes = b"") -> bytes:
        """It as the program prints it; where the mask cuts it, with what that leaves in the form that is given."""
        text = b":".join([*self.key, self.permissions])
        return text + cut % self.effective if cut and self.effective != self.permissions else text


Entries = Tuple[Entry, ...]


class ReadRecord(NamedTuple):
    """What a record says, read and not judged."""

    owner: bytes
    group: bytes
    flags: bytes  # As `s-t`.
    access: Entries
    default: Entries

    def permissions(self, *tags: bytes) -> bytes:
        """Those of the entry of the access list that names nobody, of the first of some tags that has one; empty without one."""
        return next((it.permissions for tag in tags for it in self.access if it.key == (tag, b"")), b"")

    def group_class(self) -> bytes:
        """The permissions in the second digit of the mode."""
        return self.permissions(MASK, GROUP)

    def has_empty_mask(self) -> bool:
        """Whether Linux looks at no entry of a user or a group."""
        return self.permissions(MASK) == NOTHING

    def has_open_empty_mask(self) -> bool:
        """Whether Linux grants what others have to whom entries name, as the mask is empty."""
        return self.has_empty_mask() and self.permissions(OTHER) != NOTHING and named(self.access) != {}

    def mentioned_groups(self) -> FrozenSet[int]:
        """The ids of the groups that decide on a user: the owning one, and those of entries of the access list."""
        return frozenset(map(int, [self.group, *(number for tag, number in named(self.access) if tag == GROUP)]))


def entries_of(text: bytes, is_default: bool = False) -> Entries:
    """The entries in the lines of one of the two lists, by default the access list; other lines are passed over."""
    return tuple(Entry((tag, name), permissions, effective or permissions)
                 for default, tag, name, permissions, effective in LINE.findall(text) if bool(default) == is_default)


@lru_cache(maxsize=MOST_KEPT)
def read_record(body: bytes) -> ReadRecord:
    """The lines of a record after the first one; ValueError where one of them has no place in a record."""
    head, lists = HEAD.match(body), lists_of(body)
    if head is None or LINE.sub(b"", lists).strip(b"\n") or head[0] + lists != body:
        raise ValueError(body)
    return ReadRecord(head[1], head[2], head[3] or NOTHING, entries_of(lists), entries_of(lists, is_default=True))


def head_lines(owner: bytes, group: bytes, flags: bytes) -> bytes:
    """The lines of a record before its lists."""
    return OWNER_HEAD + owner + b"\n" + GROUP_HEAD + group + b"\n" + (b"" if flags == NOTHING else FLAGS_HEAD + flags + b"\n")


def lists_of(body: bytes) -> bytes:
    """The lines after these."""
    return body[body.find(OWNER_ENTRY) + 1 :]


def named(entries: Iterable[Entry]) -> Dict[Key, Entry]:
    return {it.key: it for it in entries if it.is_named()}


class NamesOfIds:
    """Names of ids, by the rows of a snapshot; the first row of an id counts."""

    def __init__(self, passwd: bytes, group: bytes) -> None:
        self.names: Dict[Key, bytes] = {}
        for tag, text in ((USER, passwd), (GROUP, group)):
            self.names.update(((tag, number), name) for number, name in ids_of(text)[::-1])

    def has(self, key: Key) -> bool:
        return key in self.names

    def shown(self, key: Key) -> bytes:
        """An id as a person reads it."""
        return key[0] + b" " + write_user(self.names.get(key, key[1]))

    def word(self, key: Key) -> bytes:
        """The tag and the name of an entry, for a script; the id where a name has to be quoted."""
        name = self.names.get(key, key[1])
        return key[0][:1] + b":" + (name if PLAIN_NAME.match(name) else key[1])

    def entry(self, entry: Entry, begin: bytes = b"") -> bytes:
        """A whole entry, for a script."""
        return begin + self.word(entry.key) + b":" + entry.permissions


def perms(letters: bytes) -> bytes:
    """Permissions as a word of an entry."""
    return bytes(letter for letter in b"rwx" if letter in letters)


def granted_by(entries: Entries) -> bytes:
    """What some entries grant together."""
    return perms(b"".join(it.effective for it in entries))


def id_word(name: bytes, number: int) -> bytes:
    """What names a user or a group in an entry: the id where the name is not plain."""
    is_plain = PLAIN_SHELL_WORD.match(name) and not name.isdigit() and not set(name) & set(b":,")
    return name if is_plain else b"%d" % number


def without(permissions: bytes, letter: bytes) -> bytes:
    return permissions.replace(letter, b"-")


def cut_letters(entry: Entry) -> bytes:
    """The permissions of an entry that the mask takes away."""
    if entry.permissions == entry.effective:
        return b""
    return b"".join(it for it in LETTERS if it in entry.permissions and it not in entry.effective)


def digits(record: ReadRecord, flags: int) -> bytes:
    """The mode of a record, with other flags, as chmod takes it."""
    values = (record.permissions(USER), record.group_class(), record.permissions(OTHER))
    return b"%d%d%d%d" % (flags, *map(flag_digit, values))


def flag_digit(flags: bytes) -> int:
    """Flags, or permissions, as a digit of a mode."""
    return sum((it != 0x2D) << place for it, place in zip(flags, (2, 1, 0)))
