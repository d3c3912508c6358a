"""The rules of lists that Python states, each once, with the page of the manual that has it; all else is asked of the program.

commands/tests/test_rules_of_lists.py compares each with the program, or with the kernel where the program has no such question.
docs/ARCHITECTURE.md lists them, with those that are stated elsewhere since facl-apply needs them without the program.
"""
from __future__ import annotations

from typing import Iterable, Optional

from ..base.user_tools import User
from .entries import OWNER_KEY, USER, Entries, Entry, ReadRecord, granted_by, id_word, named, perms

Vector = bytes  # A byte of `index` for each user, on one file: its bit R says whether the request R is granted.
NOTHING = 1  # The byte that grants no more than the request for nothing.
HAS_SEARCH = bytes([byte >> 1 & 1 for byte in range(256)])  # By a byte of `index`.
ALL_OR_NOTHING = bytes([NOTHING]) + bytes([255]) * 255
IN_DIRECTORY = b"wx"
OWNER_OF_FILE, OWNER_OF_FOLDER, ANYBODY = b"owner of the file", b"owner of the folder", b""


def lanes(numbers: bytes) -> int:
    """Bytes as one number, to reckon with all of them at once."""
    return int.from_bytes(numbers, "little")


def both(one: bytes, other: bytes) -> bytes:
    return (lanes(one) & lanes(other)).to_bytes(len(one), "little")


# --- along a path


def inside(above: bytes, vector: Vector) -> bytes:
    """Returns for each user 1 who gets to what is in a directory, else 0: path_resolution(7) asks for search on each directory
    of a path. `above` has the same of the directory itself, `vector` what it grants."""
    return both(above, vector.translate(HAS_SEARCH))


def along_path(vector: Vector, above: bytes) -> Vector:
    """Returns what a file grants along its path: nothing to those who do not get to it (path_resolution(7))."""
    return both(vector, above.translate(ALL_OR_NOTHING))


def grants_search(entries: Iterable[Entry]) -> bool:
    """Returns whether one of the entries that decide on a user has x as the mask leaves it, which is search on a directory:
    acl(5), ACCESS CHECK ALGORITHM."""
    return any(it.grants(b"x") for it in entries)


def entry_that_grants(record: ReadRecord, entries: Entries, user: User, letters: bytes) -> bytes:
    """Returns the entry of a user that grants more letters and takes none, as far as a mask leaves them: the owner's of the owner,
    else one that names the user. That one comes before those of groups and others, so it has what these grant, by the entries
    that decide so far: acl(5), ACCESS CHECK ALGORITHM."""
    granted = granted_by(entries) + letters
    if entries[0].key == OWNER_KEY:
        return b"u::" + perms(granted)
    own = named(record.access).get((USER, b"%d" % user.uid))
    return b"u:" + id_word(user.name, user.uid) + b":" + perms(granted + (b"" if own is None else own.permissions))


# --- in a directory


def writing(is_directory: bool) -> bytes:
    """Returns the permissions that changing something takes: of a file w, open(2); of a directory, where names are made and
    removed, w and x, unlink(2)."""
    return IN_DIRECTORY if is_directory else b"w"


def is_sticky(flags: bytes) -> bool:
    """Returns whether `flags`, as `s-t`, have the sticky bit, which keeps names in a directory from others: inode(7)."""
    return flags.endswith(b"t")


def remover(uid: int, owner: int, folder_owner: int, is_kept: bool) -> Optional[bytes]:
    """Returns as whom a user who may change a directory removes a file in it; None where the sticky bit keeps the user from it:
    unlink(2), EPERM."""
    if not is_kept:
        return ANYBODY
    return {folder_owner: OWNER_OF_FOLDER, owner: OWNER_OF_FILE}.get(uid)


# --- flags


def flags_after_chown(flags: bytes, group_class: bytes) -> bytes:
    """Returns the flags of a plain file with a new owner or group: set-user-ID goes; set-group-ID stays where the group class may
    not execute, as it marks mandatory locking then: chown(2)."""
    return b"-" + (b"-" if group_class.endswith(b"x") else flags[1:2]) + flags[2:]
