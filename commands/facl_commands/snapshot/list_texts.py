"""Records of files as `getfacl -n -p` of Debian 12 prints them, of the bytes of their lists.

The kernel takes lists with several entries of one user or group, and lists with more entries than the program takes. Where a mount
or a container has other ids (mount_setattr(2), user_namespaces(7)), it gives NO_ID for whom it has none. getfacl prints all of them,
and the program loads no dump with one. So a list of the first and of the last kind is recorded as the kernel judges by it, which is
without entries of NO_ID, and a file with one of the second kind is not recorded.
"""
from __future__ import annotations

import stat
from functools import partial
from typing import Callable, Dict, FrozenSet, NamedTuple, Optional, Tuple, TypeVar

from ..base import acl_bytes, linux
from ..base.acl_bytes import ALONE, ENTRY, GROUP, GROUP_CLASS, GROUP_OBJ, HEAD, MASK, NAMED, NO_ID, OTHER, USER, USER_OBJ, minimal
from ..base.messages import Failure

MOST_ENTRIES = 4096  # Of a list, which the program takes.
MOST_KEPT = 1 << 19  # Bytes of the texts that are kept.
PERMISSIONS = [b"".join(letter if bits >> place & 1 else b"-" for letter, place in ((b"r", 2), (b"w", 1), (b"x", 0)))
               for bits in range(8)]
TAGS = {USER_OBJ: b"user:", USER: b"user:", GROUP_OBJ: b"group:", GROUP: b"group:", MASK: b"mask:", OTHER: b"other:"}
FLAGS = ((stat.S_ISUID, b"s"), (stat.S_ISGID, b"s"), (stat.S_ISVTX, b"t"))
# The bytes of the owner, group and mode of a file, as a status has them, and those of its lists.
Label = Tuple[bytes, Optional[bytes], Optional[bytes]]
Whom = Tuple[int, int, FrozenSet[int], FrozenSet[int]]  # Owner and group of a file, and whom its lists name.


class NoList(Failure):
    """A file has bytes that cannot be recorded as its list; the text says why."""


class ListText(NamedTuple):
    """The lines of a list, and whom its entries name."""

    lines: bytes
    users: FrozenSet[int]
    groups: FrozenSet[int]
    is_repeated: bool  # Whether it has several entries of one user or group, or of one without an id.


class LabelText(NamedTuple):
    """The record of a file after its name, and whom it names."""

    lines: bytes
    whom: Whom
    is_repeated: bool  # Of one of its lists.


Key = TypeVar("Key")
Text = TypeVar("Text", ListText, LabelText)


class Known(Dict[Key, Text]):
    """Texts that came last, by what they are made of: not many of long ones, which anybody can write."""

    def __init__(self, make: Callable[[Key], Text]) -> None:
        super().__init__()
        self.make: Callable[[Key], Text] = make
        self.size = 0

    def __missing__(self, key: Key) -> Text:
        text: Text = self.make(key)
        self.size += len(text.lines)
        if self.size > MOST_KEPT:
            self.clear()
            self.size = len(text.lines)
        self[key] = text
        return text


def shown_name(name: bytes) -> bytes:
    """A name as getfacl prints it."""
    return name.replace(b"\\", b"\\\\").replace(b"\n", b"\\012").replace(b"\r", b"\\015")


def entries_of(data: bytes) -> Tuple[acl_bytes.Entries, bool]:
    """The entries of a list as the kernel judges by them, and whether it has others: of several of a user the first one counts, each
    one of a group grants what it has, and nobody is meant by one of a user or group without an id."""
    number_of_entries, rest = divmod(len(data) - len(HEAD), ENTRY.size)
    if data[:4] != HEAD or rest:
        raise NoList(b"has an ACL that is not valid")
    found: acl_bytes.Entries = {}
    for tag, bits, number in ENTRY.iter_unpack(data[4:]):
        key = tag, number if tag in NAMED else NO_ID
        found[key] = found.get(key, 0) | bits if tag == GROUP else found.get(key, bits)
    of_nobody = [found.pop((tag, NO_ID), 0) for tag in NAMED]
    tags = {tag for tag, _ in found}
    if not {*ALONE} <= tags <= {*TAGS} or {*NAMED} & tags and MASK not in tags or max(*found.values(), *of_nobody) > 7:
        raise NoList(b"has an ACL that is not valid")
    if len(found) > MOST_ENTRIES:
        raise NoList(b"has an ACL of more than %d entries, which facl does not take" % MOST_ENTRIES)
    return found, len(found) != number_of_entries


def text_of(prefix: bytes, data: bytes) -> ListText:
    """The text of a list; NoList where there can be none."""
    entries, is_repeated = entries_of(data)
    mask = entries.get((MASK, NO_ID), 7)
    lines = []
    for (tag, number), bits in sorted(entries.items()):
        line = prefix + TAGS[tag] + (b"%d" % number if tag in NAMED else b"") + b":" + PERMISSIONS[bits]
        lines.append(line + (b"\t#effective:" + PERMISSIONS[bits & mask] if tag in GROUP_CLASS and bits & ~mask else b""))
    users, groups = (frozenset(number for tag, number in entries if tag == kind) for kind in (USER, GROUP))
    return ListText(b"\n".join(lines) + b"\n", users, groups, is_repeated)


def label_text(label: Label) -> LabelText:
    """The text of a label; without an access list its mode has the entries."""
    its, access, default = label
    owner, group, mode = linux.LABEL.unpack(its)
    flags = b"# flags: " + b"".join(letter if mode & bit else b"-" for bit, letter in FLAGS) + b"\n" if mode & 0o7000 else b""
    first = ACCESS_TEXTS[minimal(mode & 0o777) if access is None else access]
    second = DEFAULT_TEXTS[default] if default else NO_LIST
    text = b"".join((b"\n# owner: %d\n# group: %d\n" % (owner, group), flags, first.lines, second.lines, b"\n"))
    return LabelText(text, (owner, group, first.users | second.users, first.groups | second.groups),
                     first.is_repeated or second.is_repeated)


ACCESS_TEXTS, DEFAULT_TEXTS = Known(partial(text_of, b"")), Known(partial(text_of, b"default:"))
LABEL_TEXTS = Known(label_text)
NO_LIST = ListText(b"", frozenset(), frozenset(), False)
