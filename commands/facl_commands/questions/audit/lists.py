"""Findings of facl-audit that the records of files show: owners, flags, entries without rows, masks and default lists.

Nothing is judged here: what a mask takes away is as the program prints it.
"""
from __future__ import annotations

import argparse
from functools import partial
from itertools import compress
from typing import Callable, Dict, List, NamedTuple, Optional, Tuple

from ...base import accounts
from ...base.names import parent_of
from ...model.entries import (
    GROUP, MASK_KEY, NOTHING, OTHER, OWNER_KEY, OWNING_GROUP_KEY, USER, Entry, NamesOfIds, ReadRecord, cut_letters, digits,
    flag_digit, named, read_record,
)
from ...model.everybody import World
from ...model.file_columns import FileTree
from ...model.records import File
from .findings import FoundFiles, Mend

SET_USER, SET_GROUP = 4, 2  # In the first digit of a mode.
SUPERUSER = b"%d" % accounts.SUPERUSER
A_PROGRAM = b"a program that others run so"
OfFile = Optional[Mend]
Look = Callable[[File, ReadRecord, NamesOfIds], OfFile]


class Audited(NamedTuple):
    """What is audited: the files, and whose rights."""

    world: World
    given: argparse.Namespace
    program: str
    tree: FileTree  # At or below the folders.
    kinds: Dict[int, File]  # What its files are, each different one once.
    ids: NamesOfIds

    def found(self, mends: Dict[int, Mend]) -> FoundFiles:
        """What is found of all files of some kinds."""
        found, its = FoundFiles(), [*map(mends.get, self.tree.kinds)] if mends else []
        found.add(compress(self.tree.paths, its), filter(None, its))
        return found


def without_flag(flag: int, file: File, record: ReadRecord, _ids: NamesOfIds) -> OfFile:
    """By execve(2) the flag of the group counts where the group class may execute; else it marked locking, as chown(2) has it."""
    flags = flag_digit(record.flags)
    if file.is_directory or not flags & flag or flag == SET_GROUP and not record.group_class().endswith(b"x"):
        return None
    is_run = any(it.grants(b"x") for it in record.access if it.key not in (OWNER_KEY, MASK_KEY))
    return Mend(b"", b"chmod " + digits(record, flags & ~flag), A_PROGRAM * is_run)


def named_entries(record: ReadRecord) -> List[Tuple[Entry, bytes]]:
    """Those of both lists, with what is before each in a script."""
    lists = (b"", record.access), (b"d:", record.default)
    return [(it, begin) for begin, entries in lists for it in entries if it.is_named()]


def mask_cuts_entry(_file: File, record: ReadRecord, ids: NamesOfIds) -> OfFile:
    """Entries of users and groups of which r or w is cut; the edit says what they grant, and grants nobody more."""
    is_open = record.has_open_empty_mask()  # Then empty_mask says what the entries of the access list do.
    cut = [(it, begin) for it, begin in named_entries(record) if (begin or not is_open) and cut_letters(it).strip(b"x")]
    if not cut:
        return None
    text = b", ".join(b"default " * (begin != b"") + b"%s: %s is %s" % (
        ids.shown(it.key), it.permissions, it.effective) for it, begin in cut)
    words = b",".join(ids.entry(it._replace(permissions=it.effective), begin) for it, begin in cut)
    return Mend(text, b"setfacl -n -m " + words)


def empty_mask(_file: File, record: ReadRecord, ids: NamesOfIds) -> OfFile:
    """Entries of users and groups in the place of which Linux grants what others have. The edit has them count, with what the mask
    leaves of them, which is nothing, and grants nobody more."""
    done = record.permissions(OTHER)
    if not record.has_open_empty_mask() or all(it.permissions == done for it in record.access if it.is_named()):
        return None
    text = b", ".join(b"%s: %s is %s" % (ids.shown(it.key), it.permissions, done) for it in record.access
                      if it.is_named() and it.permissions != done)
    words = [ids.entry(it._replace(permissions=NOTHING)) for it in record.access if it.is_named() or it.key == OWNING_GROUP_KEY]
    return Mend(text, b"setfacl -n -m " + b",".join([*words, b"m::" + done]))


def owner_without_row(_file: File, record: ReadRecord, ids: NamesOfIds) -> OfFile:
    """The edit gives it to the superuser: who shall have it is for a person to say."""
    lacks_user, lacks_group = not ids.has((USER, record.owner)), not ids.has((GROUP, record.group))
    if not lacks_user and not lacks_group:
        return None
    text = b", ".join([b"user " + record.owner] * lacks_user + [b"group " + record.group] * lacks_group)
    if not lacks_user:
        return Mend(text, b"chgrp " + SUPERUSER)
    return Mend(text, b"chown " + SUPERUSER + (b":" + SUPERUSER) * lacks_group)


def entry_without_row(_file: File, record: ReadRecord, ids: NamesOfIds) -> OfFile:
    lacking = [(it.key, begin) for it, begin in named_entries(record) if not ids.has(it.key)]
    if not lacking:
        return None
    text = b", ".join(b"default " * (begin != b"") + ids.shown(key) for key, begin in lacking)
    return Mend(text, b"setfacl -n -x " + b",".join(begin + ids.word(key) for key, begin in lacking))


def default_differs(_file: File, record: ReadRecord, ids: NamesOfIds) -> OfFile:
    """The edit gives the default list the names of the access list, which changes nobody's present rights."""
    access, default = named(record.access), named(record.default)
    lacking, more = [key for key in access if key not in default], [key for key in default if key not in access]
    if not record.default or not lacking and not more:
        return None
    text = b"; ".join(begin + b", ".join(map(ids.shown, keys)) for begin, keys in
                      ((b"new files get no entry of ", lacking), (b"new files alone get one of ", more)) if keys)
    words = [b"-m " + b",".join(ids.entry(access[key], b"d:") for key in lacking)] * bool(lacking)
    words += [b"-x " + b",".join(b"d:" + ids.word(key) for key in more)] * bool(more)
    return Mend(text, b"setfacl -n " + b" ".join(words))


LOOKS: Dict[str, Look] = {
    "set-user-id": partial(without_flag, SET_USER), "set-group-id": partial(without_flag, SET_GROUP),
    "mask-cuts-entry": mask_cuts_entry, "empty-mask": empty_mask, "owner-without-row": owner_without_row,
    "entry-without-row": entry_without_row, "default-differs": default_differs,
}


def of_records(audited: Audited) -> Dict[str, Dict[int, Mend]]:
    """What is found of kinds of files by their records, each of which is looked at once."""
    found: Dict[str, Dict[int, Mend]] = {name: {} for name in LOOKS}
    for kind, file in audited.kinds.items():
        for name, look in LOOKS.items():
            mend = look(file, read_record(file.body), audited.ids)
            if mend is not None:
                found[name][kind] = mend
    return found


def default_not_inherited(audited: Audited) -> FoundFiles:
    """Directories that lack default entries which the directory above has."""
    tree, ids, found = audited.tree, audited.ids, FoundFiles()
    known: Dict[Tuple[bytes, bytes], List[Entry]] = {}
    is_directory = [file.is_directory for file in tree.files]
    for path in compress(tree.paths, map(is_directory.__getitem__, tree.kinds)):
        above = tree.above.get(parent_of(path)) if path else None
        if above is not None:
            pair = above.body, tree.above[path].body
            if pair not in known:
                known[pair] = lacking_defaults(*map(read_record, pair))
            if known[pair]:
                keys = b", ".join(ids.shown(it.key) for it in known[pair] if it.is_named())
                text = b"lacks %s of %s" % (keys or b"the default ACL", audited.world.name_of(parent_of(path)))
                words = b",".join(ids.entry(it, b"d:") for it in known[pair])
                found.add([path], [Mend(text, b"setfacl -n -m " + words)])
    return found


def lacking_defaults(above: ReadRecord, record: ReadRecord) -> List[Entry]:
    """The named default entries of a directory that one in it lacks; where that has no default list, all."""
    if not record.default:
        return list(above.default)
    present = named(record.default)
    return [it for it in above.default if it.is_named() and it.key not in present]
