"""A stand-in for the kernel's part in facl-apply: a file, and what the calls of root and of its owner make of it.

test_gaps_kernel.py compares each call with the kernel.
"""
from __future__ import annotations

import sys
from functools import lru_cache
from typing import NamedTuple, Optional, Set, Tuple

from common import COMMANDS

sys.path.insert(0, COMMANDS)

from facl_commands.base import acl_bytes  # noqa: E402
from facl_commands.base.acl_bytes import Record  # noqa: E402

# The entries that the mode does not have: those of named users and groups and of the owning group. None without a mask.
Extended = Optional[Tuple[Tuple[acl_bytes.Key, int], ...]]


class State(NamedTuple):
    """A file as the kernel keeps it."""

    is_directory: bool
    owner: int
    group: int
    mode: int  # Permissions and flags, 0 to 0o7777.
    extended: Extended
    default: bytes  # As the attribute has it; empty where there is none.

    def access(self) -> bytes:
        return access_of(self.mode & 0o777, self.extended)

    def record(self) -> Record:
        return Record(self.owner, self.group, self.mode & 0o7000, self.access(), self.default)


@lru_cache(maxsize=None)
def access_of(permissions: int, extended: Extended) -> bytes:
    if extended is None:
        return acl_bytes.minimal(permissions)
    of_mode = {(acl_bytes.USER_OBJ, acl_bytes.NO_ID): permissions >> 6, (acl_bytes.MASK, acl_bytes.NO_ID): permissions >> 3 & 7,
               (acl_bytes.OTHER, acl_bytes.NO_ID): permissions & 7}
    return acl_bytes.bytes_of({**of_mode, **dict(extended)})


@lru_cache(maxsize=None)
def parts_of(data: bytes) -> Tuple[int, Extended]:
    """The permissions of the mode of a file with this list, and the other entries."""
    entries = acl_bytes.entries_of(data)
    if (acl_bytes.MASK, acl_bytes.NO_ID) not in entries:
        return acl_bytes.permissions_of(data), None
    return acl_bytes.permissions_of(data), tuple(sorted((key, it) for key, it in entries.items() if key[0] in acl_bytes.GROUP_CLASS))


def state_of(record: Record, is_directory: bool) -> State:
    permissions, extended = parts_of(record.access)
    return State(is_directory, record.owner, record.group, record.flags | permissions, extended, record.default)


# --- root: chmod(2), chown(2), setxattr(2), and removexattr(2) where the default list is empty


def set_mode(state: State, mode: int) -> State:
    return state._replace(mode=mode)


def set_owner(state: State, owner: int, group: int) -> State:
    """An id of -1 stays."""
    mode = state.mode
    if not state.is_directory:
        mode &= ~0o4000
        mode &= ~0o2000 if mode & 0o2010 == 0o2010 else ~0
    return state._replace(owner=state.owner if owner < 0 else owner, group=state.group if group < 0 else group, mode=mode)


def set_access(state: State, data: bytes) -> State:
    permissions, extended = parts_of(data)
    return state._replace(mode=state.mode & 0o7000 | permissions, extended=extended)


def set_default(state: State, data: bytes) -> State:
    return state._replace(default=data)


def remove_access(state: State) -> State:
    """The mode stays, so the owning group gets what the mask let through."""
    return state._replace(extended=None)


# --- an owner who is in these groups; default lists and a list that is removed are as those of root


def own(state: State, groups: Set[int]) -> State:
    """What is left of a mode or list that an owner sets."""
    return state if state.group in groups else state._replace(mode=state.mode & ~0o2000)


def own_mode(state: State, mode: int, groups: Set[int]) -> State:
    return own(set_mode(state, mode), groups)


def own_access(state: State, data: bytes, groups: Set[int]) -> State:
    return own(set_access(state, data), groups)


def own_group(state: State, group: int, groups: Set[int]) -> State:
    """The group that the file has, or one of the owner's; others are refused."""
    return set_owner(state if state.is_directory else own(state, groups), -1, group)
