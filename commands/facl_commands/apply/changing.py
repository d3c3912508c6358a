"""The order of the calls by which a file gets its new record.

One call changes a list, and one owner and group. Before each call the owner of the file may set any mode and list, and a
group of its own. Who is not in the file's group cannot set set-group-ID, and loses it by each mode and list. A call that
sets flags sets the permissions of a list of facl-apply's too, so it keeps none that an owner set.

  before the call        what the owner set then, and what the calls that follow make of it
  first flags            a mode, a list, a group: as those before the owner
  list in common         the list is replaced; the others as those before the owner
  owner                  of a plain file set-user-ID goes by this call; set-group-ID too where the mode's group has
                         execution, else it means nothing, and goes before the new list gives execution;
                         of a directory set-group-ID goes, and sticky comes back, by the next call;
                         a list holds until the new list, a default list until the new default list
  flags                  set-user-ID is the new owner's own; set-group-ID it can only set for a group that it is in
  new list               a mode and a list are replaced
  default list           a default list is replaced
  last flags             the mode is replaced by that of the new record; entries that are added hold
"""
from __future__ import annotations

import stat

from ..base import acl_bytes
from ..base.acl_bytes import Record
from ..base.live import FLAGS, OpenFile

SET_ID = stat.S_ISUID | stat.S_ISGID


def flags_meanwhile(now: int, end: int, is_directory: bool) -> int:
    """The flags while owner and list change: a plain file runs as nobody else, names in a directory stay protected, and
    new ones there get its group only where they do before and after."""
    if is_directory:
        return now & ~stat.S_ISGID | (now | end) & stat.S_ISVTX | now & end & stat.S_ISGID
    return now & ~SET_ID if (now | end) & SET_ID else now


def change(file: OpenFile, now: Record, end: Record, is_directory: bool) -> None:
    """Gives a file its new record; at no moment is anybody granted by it what neither the present nor the new record
    grants, whatever its owner does meanwhile."""
    found, is_moved = now, now.ids() != end.ids()
    if is_moved or now.flags != end.flags:
        meanwhile = flags_meanwhile(now.flags, end.flags, is_directory)
        if meanwhile != now.flags and (is_moved or now.access != end.access or now.default != end.default):
            file.set_mode(meanwhile | acl_bytes.permissions_of(now.access))
        found = move(file, now, end, meanwhile) if is_moved else now
    if found.access != end.access:
        file.set_access(end.access)
    if found.default != end.default:
        file.set_default(end.default)
    if now.flags | found.flags | end.flags and file.mode() & FLAGS != end.flags:
        file.set_mode(end.flags | acl_bytes.permissions_of(end.access))


def move(file: OpenFile, now: Record, end: Record, flags: int) -> Record:
    """Gives a file its new owner and group, with the list in common, and then these flags; returns what it has."""
    access = acl_bytes.common(now.access, end.access)
    if access != now.access:
        file.set_access(access)
    file.set_owner(end.owner, end.group)
    found = file.record()
    if found.flags != flags:
        file.set_mode(flags | acl_bytes.permissions_of(end.access if found.access == end.access else access))
    return found


def is_between(now: Record, old: Record, new: Record) -> bool:
    """Whether a change that was cut off can have left this: each part is of one of the two, or what it is meanwhile."""
    return (
        now.ids() in (old.ids(), new.ids())
        and now.access in (old.access, new.access, acl_bytes.common(old.access, new.access))
        and now.default in (old.default, new.default)
        and now.flags & ~(old.flags | new.flags) == 0
    )
