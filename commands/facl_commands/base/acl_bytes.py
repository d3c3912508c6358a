"""Access control lists as the bytes of their extended attributes (acl(5), xattr(7)); all numbers are little-endian.

The program makes the bytes of new lists. Here they are read and compared, and a list is made that grants no more than two others.
"""
from __future__ import annotations

import struct
from functools import lru_cache
from typing import Dict, Iterator, NamedTuple, Set, Tuple

ACCESS, DEFAULT = b"system.posix_acl_access", b"system.posix_acl_default"
HEAD = struct.pack("<I", 2)  # The version.
ENTRY = struct.Struct("<HHI")
USER_OBJ, USER, GROUP_OBJ, GROUP, MASK, OTHER = 0x01, 0x02, 0x04, 0x08, 0x10, 0x20
NO_ID = 0xFFFFFFFF  # Of an entry that names nobody.
MOST_KEPT = 1 << 14  # Lists of which it is known whether they are valid.
NAMED = (USER, GROUP)
ALONE = (USER_OBJ, GROUP_OBJ, OTHER)  # Each list has one entry of each of these.
GROUP_CLASS = (USER, GROUP_OBJ, GROUP)
Key = Tuple[int, int]  # The tag of an entry, and its id.
Entries = Dict[Key, int]  # Permissions by key.


class Record(NamedTuple):
    """What a plan changes of a file."""

    owner: int
    group: int
    flags: int  # set-user-ID, set-group-ID and sticky, as in a mode.
    access: bytes  # As the attribute has it; the three entries of the mode where there is none.
    default: bytes  # Empty where there is no default list.

    def ids(self) -> Tuple[int, int]:
        return self.owner, self.group


def entries_of(data: bytes) -> Entries:
    """The entries of a list; struct.error where the bytes are none."""
    if data[:4] != HEAD:
        raise struct.error("not the version 2")
    return {(tag, number if tag in NAMED else NO_ID): permissions for tag, permissions, number in ENTRY.iter_unpack(data[4:])}


def users_of(record: Record) -> Set[int]:
    """The ids of the users whom a record names."""
    lists = [entries_of(data) for data in (record.access, record.default) if data]
    return {record.owner, *(number for entries in lists for tag, number in entries if tag == USER)}


def bytes_of(entries: Entries) -> bytes:
    """A list in the order of its keys, as the program and libacl write it."""
    return HEAD + b"".join(ENTRY.pack(tag, permissions, number) for (tag, number), permissions in sorted(entries.items()))


@lru_cache(maxsize=MOST_KEPT)
def is_valid(data: bytes) -> bool:
    """Whether bytes are a valid list (acl_valid(3)), in the order in which the program writes it."""
    try:
        entries = entries_of(data)
    except struct.error:
        return False
    tags = [tag for tag, _ in entries]
    return (bytes_of(entries) == data and all(tags.count(tag) == 1 for tag in ALONE) and {*tags} <= {*ALONE, *NAMED, MASK}
            and (MASK in tags or not {*NAMED} & {*tags}) and max(entries.values()) <= 7
            and all((number == NO_ID) == (tag not in NAMED) for tag, number in entries))


@lru_cache(maxsize=MOST_KEPT)
def canonical(data: bytes) -> bytes:
    """A list of the system as the program would write it."""
    try:
        return bytes_of(entries_of(data))
    except struct.error:
        return data


@lru_cache(maxsize=None)
def minimal(mode: int) -> bytes:
    """The list of a mode."""
    return bytes_of({(USER_OBJ, NO_ID): mode >> 6 & 7, (GROUP_OBJ, NO_ID): mode >> 3 & 7, (OTHER, NO_ID): mode & 7})


def permissions_of(data: bytes) -> int:
    """The permissions of the mode of a file with this list: those of the group are the mask's where there is one."""
    entries = entries_of(data)
    middle = entries.get((MASK, NO_ID), entries[GROUP_OBJ, NO_ID])
    return entries[USER_OBJ, NO_ID] << 6 | middle << 3 | entries[OTHER, NO_ID]


def is_minimal(data: bytes) -> bool:
    return len(data) == len(HEAD) + 3 * ENTRY.size


def effective(entries: Entries) -> Entries:
    """The entries without the mask, each as the mask lets it through."""
    mask = entries.get((MASK, NO_ID), 7)
    return {key: it & mask if key[0] in GROUP_CLASS else it for key, it in entries.items() if key[0] != MASK}


def common(one: bytes, other: bytes) -> bytes:
    """A list that grants nobody more than either of two, whoever owns the file: it has the keys of both, each with the
    permissions that both let through, and none where one of them lacks it."""
    if one == other:
        return one
    first, second = effective(entries_of(one)), effective(entries_of(other))
    found = {key: first.get(key, 0) & second.get(key, 0) for key in {**first, **second}}
    if any(tag in NAMED for tag, _ in found):
        found[MASK, NO_ID] = 7
    return bytes_of(found)


def changed(one: bytes, other: bytes) -> Iterator[Tuple[Key, Tuple[int, int]]]:
    """The keys of two lists that differ, each with its permissions in both, -1 if a list lacks it."""
    first, second = entries_of(one) if one else {}, entries_of(other) if other else {}
    both = ((key, (first.get(key, -1), second.get(key, -1))) for key in sorted({**first, **second}))
    return ((key, (before, after)) for key, (before, after) in both if before != after)
