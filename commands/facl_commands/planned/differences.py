"""What two records of a file do not have in common, in words, as facl-apply prints it."""
from __future__ import annotations

import grp
import os
import pwd
from functools import partial
from typing import Any, Callable, Iterator, List, Sequence

from ..base import acl_bytes
from ..base.acl_bytes import Key, Record

PARTS = (b"owner", b"group", b"flags", b"access ACL", b"default ACL")
TAGS = {acl_bytes.USER_OBJ: b"user", acl_bytes.USER: b"user", acl_bytes.GROUP_OBJ: b"group", acl_bytes.GROUP: b"group",
        acl_bytes.MASK: b"mask", acl_bytes.OTHER: b"other"}
ABSENT = -1  # As acl_bytes.changed has it.


def parts(one: Record, other: Record) -> bytes:
    """The parts that differ."""
    return b", ".join(name for name, first, second in zip(PARTS, one, other) if first != second)


def name_of(look_up: Callable[[int], Sequence[Any]], number: int) -> bytes:
    """The name in the row of a user or a group; the id if there is none."""
    try:
        return os.fsencode(look_up(number)[0])
    except KeyError:
        return b"%d" % number


user_name, group_name = partial(name_of, pwd.getpwuid), partial(name_of, grp.getgrgid)


def letters(bits: int, names: bytes = b"rwx") -> bytes:
    """Letters, or a - for a bit that is not set; the last one is that of the lowest bit."""
    return bytes(name if bits >> place & 1 else ord("-") for name, place in zip(names, (2, 1, 0)))


def flags_text(flags: int) -> bytes:
    """Flags as getfacl(1) writes them."""
    return letters(flags >> 9, b"sst")


def permissions_text(permissions: int) -> bytes:
    return b"none" if permissions == ABSENT else letters(permissions)


def key_text(key: Key) -> bytes:
    """An entry without its permissions."""
    tag, number = key
    name = {acl_bytes.USER: user_name, acl_bytes.GROUP: group_name}.get(tag)
    return TAGS[tag] + b":" + (b"" if name is None else name(number)) + b":"


def entry_lines(data: bytes) -> List[bytes]:
    """The entries of a list as getfacl(1) prints them with ids; none where there is no list."""
    entries = sorted(acl_bytes.entries_of(data).items()) if data else []
    return [TAGS[tag] + (b":%d:" % number if tag in acl_bytes.NAMED else b"::") + letters(permissions)
            for (tag, number), permissions in entries]


def lines(expected: Record, now: Record, when: bytes) -> Iterator[bytes]:
    """What was expected and what is, a line each; when says of which time the first is."""
    form = b"%s %s " + when + b", %s now"
    simple: List[Callable[[int], bytes]] = [user_name, group_name, flags_text]
    for name, text, first, second in zip(PARTS, simple, expected[:3], now[:3]):
        if first != second:
            yield form % (name + b":", text(first), text(second))
    for head, one, other in ((b"", expected.access, now.access), (b"default:", expected.default, now.default)):
        for key, (first, second) in acl_bytes.changed(one, other):
            yield form % (head + key_text(key), permissions_text(first), permissions_text(second))
