"""facl restore: the owners, groups, flags and lists of an older snapshot, as the records that setfacl --restore takes over a
newer one.

A number is given back only where it means whom it meant: an id has the same name in both snapshots, or none in either. What names
another id stays as it is. So does set-user-ID of a file that keeps its owner so, and set-group-ID with the group. A file that is
another one by now gets neither, and loses what it has with its owner or group: it would run what somebody else put there.
"""
from __future__ import annotations

import re
from typing import Callable, Dict, FrozenSet, Iterable, Iterator, List, Match, NamedTuple, Set, Tuple

from ..base.folders import folder_of
from ..base.messages import Failure, counted
from ..base.names import file_name, sorting_key
from ..model import choice, meta
from ..model.entries import GROUP, NOTHING, USER, Key, NamesOfIds, head_lines, lists_of, read_record
from ..model.records import File, Files, compare, list_all, write_records
from ..model.snapshot import NEEDED, NO_BOOT, read_links, read_some
from ..program.protocol import LIST, RESTORE
from ..program.session import Session
from .notes import JobNote

TEXT_LIMIT = 60 << 20  # Bytes; a script has 64 MiB.
NAMED_ENTRY = re.compile(rb"^((?:default:)?(user|group):([0-9]+):)(...)\n", re.MULTILINE)


class RestoreJob(NamedTuple):
    """The lines of edits, none where nothing differs; and what a person has to know."""

    edits: bytes
    notes: List[JobNote]


class Moment(NamedTuple):
    """A snapshot, with its files at or below a folder."""

    folder: bytes
    files: Files
    names: NamesOfIds
    is_whole: bool  # Whether names start at the root of the file system.


class GivenBack(NamedTuple):
    """A record as it is to be, and what of the older one is not given back."""

    body: bytes
    lost: FrozenSet[Tuple[Key, bool]]  # The ids; whether one of them is in an entry, or else as the owner or the owning group.
    lacks_flags: bool  # Whether set-user-ID or set-group-ID is not given back, since the file is another one.


def moment_of(program: str, folder: bytes, word: bytes) -> Moment:
    """Reads a snapshot; fails where it does not have the folder that a word names."""
    names = NamesOfIds(*map(folder_of(folder).read, NEEDED[:2]))
    with Session(program, folder) as session:
        files = list_all(session, choice.folder_of(session, word)).files
        return Moment(folder, files, names, not session.ask(LIST + b" .\n").messages)


def given_back(old: bytes, now: bytes, is_same: Callable[[Key], bool], is_other_file: bool) -> GivenBack:
    """The older record over the present one."""
    before, present = read_record(old), read_record(now)
    lost: Set[Tuple[Key, bool]] = set()
    entries = {found[1]: found[0] for found in NAMED_ENTRY.finditer(now)}

    def entry(found: Match[bytes]) -> bytes:
        its = entries.get(found[1], b"")
        if its == found[0] or is_same((found[2], found[3])):
            return found[0]
        lost.add(((found[2], found[3]), True))
        return its

    ids, flags, lacks_flags = [before.owner, before.group], bytearray(before.flags), False
    for place, (tag, its, other) in enumerate(((USER, before.owner, present.owner), (GROUP, before.group, present.group))):
        is_lost = its != other and not is_same((tag, its))
        lost.update([((tag, its), False)] * is_lost)
        ids[place] = other if is_lost else its
        if is_lost:
            flags[place] = present.flags[place]
        elif is_other_file and flags[place] != NOTHING[0] and not (its == other and flags[place] == present.flags[place]):
            flags[place], lacks_flags = NOTHING[0], True
    return GivenBack(head_lines(ids[0], ids[1], bytes(flags)) + NAMED_ENTRY.sub(entry, lists_of(old)), frozenset(lost), lacks_flags)


# --- which files


def of_one_kind(old: Moment, now: Moment) -> Moment:
    """The older snapshot with the directories of the newer one where it does not say which files are directories, as a dump."""
    if meta.meta_of(old.folder) is not meta.UNKNOWN:
        return old
    return old._replace(files={path: File(now.files[path].is_directory, file.body) if path in now.files else file
                               for path, file in old.files.items()})


def replaced(old: Moment, now: Moment, paths: Set[bytes]) -> Set[bytes]:
    """Those of some paths at which another file is now, as far as both snapshots have inodes."""
    before, after = (read_some(it.folder, paths) for it in (old, now))
    with_device = before.boot == after.boot != NO_BOOT
    both = paths & set(before.files) & set(after.files)
    start = 0 if with_device else 1
    return {path for path in both if before.files[path][start:] != after.files[path][start:]}


def of_links(now: Moment, old: Moment, wanted: Dict[bytes, GivenBack]) -> List[bytes]:
    """The names of files that are one by now, and would get different lists by their names."""
    found: List[bytes] = []
    for names in read_links(folder_of(now.folder).optional(b"links")):
        its = [path for path in names if path in now.files and path in old.files]
        if len({wanted[path].body if path in wanted else now.files[path].body for path in its}) > 1:
            found += its
    return found


# --- what is said


def notes_of(old: Moment, now: Moment, wanted: Dict[bytes, GivenBack], others: Set[bytes], is_alike: List[bytes]) -> Iterator[JobNote]:
    changes = compare(old.files, now.files)
    both = [path for path in changes.made if path in old.files]

    def note(noun: str, more: str, rest: bytes, paths: Iterable[bytes]) -> Iterator[JobNote]:
        its = sorted(paths, key=sorting_key)
        if its:
            yield JobNote(counted(len(its), noun, more) + rest, [file_name(path, now.is_whole) for path in its])

    yield from note("file is", "files are", b" new since then, left alone", set(changes.made) - {*both})
    yield from note("file is", "files are", b" gone since then", set(changes.removed) - {*both})
    yield from note("path is", "paths are", b" of a directory in one snapshot and of a file in the other, left alone", both)
    yield from note("path has", "paths have", b" another file since then, which gets the older ACL", others & set(wanted))
    yield from note("of these gets", "of these get", b" no set-user-ID or set-group-ID",
                    [path for path, it in wanted.items() if it.lacks_flags])
    yield from note("name is", "names are", b" of files that had several ACLs and are one file now, left alone", is_alike)
    yield from notes_of_lost(old, now, wanted)


def notes_of_lost(old: Moment, now: Moment, wanted: Dict[bytes, GivenBack]) -> Iterator[JobNote]:
    """The ids that are not given back, with the files that lack them."""
    found: Dict[Tuple[Key, bool], List[bytes]] = {}
    for path in sorted(wanted, key=sorting_key):
        for it in wanted[path].lost:
            found.setdefault(it, []).append(path)
    for (key, is_entry), paths in sorted(found.items()):
        its = now.names.names.get(key)
        who = old.names.shown(key) + b" (id %s)" % key[1] if old.names.has(key) else old.names.shown(key)
        why = b" is not in the newer snapshot" if its is None else b" is " + now.names.shown(key) + b" in the newer snapshot"
        what = (b"entries are not given back" if is_entry else b"the owner stays" if key[0] == USER else b"the owning group stays")
        yield JobNote(who + why + b": " + what + b", " + counted(len(paths), "file"), [file_name(it, now.is_whole) for it in paths])


def restoring(program: str, older: bytes, newer: bytes, word: bytes) -> RestoreJob:
    """The edits over the newer snapshot that give a folder what it has in the older one."""
    now = moment_of(program, newer, word)
    old = of_one_kind(moment_of(program, older, word), now)
    changed = compare(old.files, now.files).changed
    others = replaced(old, now, set(changed))

    def is_same(key: Key) -> bool:
        return old.names.names.get(key) == now.names.names.get(key)

    known: Dict[Tuple[bytes, bytes, bool], GivenBack] = {}
    wanted: Dict[bytes, GivenBack] = {}
    for path in changed:
        pair = old.files[path].body, now.files[path].body, path in others and not now.files[path].is_directory
        known[pair] = wanted[path] = known.get(pair) or given_back(*pair[:2], is_same, pair[2])
    alike = of_links(now, old, wanted)
    for path in alike:
        wanted.pop(path, None)
    files = {path: File(now.files[path].is_directory, it.body) for path, it in wanted.items() if it.body != now.files[path].body}
    text = write_records(files, files)
    if len(text) > TEXT_LIMIT:
        raise Failure(b"%s: the records of %d files are more than one plan has room for: restore the folders in it one by one"
                      % (word, len(files)))
    edits = RESTORE + b"\n" + text + b".\n" if files else b""
    return RestoreJob(edits, [*notes_of(old, now, wanted, others, alike)])
