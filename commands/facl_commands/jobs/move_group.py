"""facl move-group: what one group has in a folder, as owning group and by entries, for another group."""
from __future__ import annotations

import re
from collections import Counter
from typing import Dict, Iterable, Iterator, List, Match, NamedTuple, Set

from ..base.folders import folder_of
from ..base.messages import Failure, counted
from ..base.names import at_or_below, file_name, file_word, number_of, plain_word, read_name, sorting_key, write_user
from ..model import choice
from ..model.entries import NOTHING, flag_digit, head_lines, id_word, lists_of, perms, read_record
from ..model.people import Group, People, is_named, users_by_group
from ..model.records import File, Files, list_all, write_records
from ..model.snapshot import NEEDED, read_links
from ..program.protocol import LIST, RESTORE
from ..program.session import Session, parts_of
from .notes import JobNote

ENTRY = rb"^(default:)?group:%d:(...)\n"
ACCESS, DEFAULT, OWNING = "access entry", "default entry", "owning group"


class MoveJob(NamedTuple):
    """The lines of edits, none where the group does not occur; what they do in all; and what a person has to know."""

    edits: bytes
    summary: bytes
    notes: List[JobNote]


class GroupChange(NamedTuple):
    """What becomes of a record: its new group, if it gets one, and its entries of the new group, by the lists that have the old
    one."""

    is_owning: bool
    entries: Dict[bytes, bytes]  # By the word before an entry in a line: nothing of the access list, `d:` of the default list.
    merged: int  # Of them those that the new group had before.
    body: bytes


def group_of(people: People, word: bytes, has_row: bool = True) -> Group:
    """The group that a word means; digits are an id, which may have no row where none is needed."""
    for name in (word, read_name(word)):
        for group in people.groups:
            if is_named(group.name, group.gid, name):
                return group
    if not has_row and word.isdigit():
        return Group(word, number_of(word), [])
    raise Failure(word + b": no such group in the snapshot")


def change_of(body: bytes, old: int, new: int) -> GroupChange:
    """A record with a group in the place of another one; what an entry of it had before is added."""
    record, lists = read_record(body), lists_of(body)
    present = {found[1] or b"": found[2] for found in re.finditer(ENTRY % new, lists, re.MULTILINE)}
    gone = {found[1] or b"": found[2] for found in re.finditer(ENTRY % old, lists, re.MULTILINE)}
    entries = {begin: perms(its + present.get(begin, b"")) for begin, its in gone.items()}

    def moved(found: Match[bytes]) -> bytes:
        begin = found[1] or b""
        if begin not in entries:
            return found[0]
        full = bytes(it if it in entries[begin] else NOTHING[0] for it in b"rwx")
        return b"%sgroup:%d:%s\n" % (begin, new, full)

    kept = re.sub(ENTRY % old, lambda found: b"" if (found[1] or b"") in present else moved(found), lists, flags=re.MULTILINE)
    is_owning = record.group == b"%d" % old
    head = head_lines(record.owner, b"%d" % new if is_owning else record.group, record.flags)
    lists = re.sub(ENTRY % new, moved, kept, flags=re.MULTILINE)
    return GroupChange(is_owning, {b"d:" * bool(begin): its for begin, its in entries.items()}, len(gone.keys() & present), head + lists)


def needs_record(file: File, change: GroupChange) -> bool:
    """Whether chgrp would take flags of a plain file, which stay."""
    return change.is_owning and not file.is_directory and b"s" in read_record(file.body).flags


class GroupMoves(NamedTuple):
    """The files that change, with what becomes of each."""

    files: Files
    changes: Dict[bytes, GroupChange]  # By path.
    old: Group
    new: Group
    is_whole: bool

    def named(self, paths: Iterable[bytes]) -> List[bytes]:
        return [file_name(path, self.is_whole) for path in paths]

    def word(self, group: Group) -> bytes:
        """What names a group, also where a word that begins with - is an option."""
        word = id_word(group.name, group.gid)
        return b"%d" % group.gid if word.startswith(b"-") else word


def lines_of(moves: GroupMoves, other_names: Set[bytes]) -> Iterator[bytes]:
    """A line for all files of which the same becomes, or several where one has no room; names of one file but the first, which have
    what it gets, are in none."""
    lines: Dict[bytes, List[bytes]] = {}
    with_flags = [path for path, it in moves.changes.items() if needs_record(moves.files[path], it)]
    known = {*with_flags, *other_names}
    for path, change in moves.changes.items():
        if path in known:
            continue
        if change.is_owning:
            lines.setdefault(b"chgrp " + plain_word(moves.word(moves.new)), []).append(path)
        if change.entries:
            gone = b",".join(begin + b"g:" + moves.word(moves.old) for begin in change.entries)
            made = b",".join(b"%sg:%s:%s" % (begin, moves.word(moves.new), its or NOTHING) for begin, its in change.entries.items())
            lines.setdefault(b"setfacl -n -x %s -m %s" % (plain_word(gone), plain_word(made)), []).append(path)
    for begin, paths in lines.items():
        for words in parts_of(file_word(path, moves.is_whole) for path in paths):
            yield b" ".join([begin, *words]) + b"\n"
    text = {path: File(False, moves.changes[path].body) for path in with_flags}
    if text:
        yield RESTORE + b"\n" + write_records(text, text) + b".\n"


def summary_of(moves: GroupMoves) -> bytes:
    """How much is moved."""
    counts = Counter(kind for it in moves.changes.values()
                     for kind in [*[OWNING] * it.is_owning, *(DEFAULT if begin else ACCESS for begin in it.entries)])
    parts = [counted(counts[kind], kind, more) for kind, more in (
        (OWNING, "owning groups"), (ACCESS, "access entries"), (DEFAULT, "default entries")) if counts[kind]]
    return b"%s from %s to %s" % (b", ".join(parts), write_user(moves.old.name), write_user(moves.new.name))


def notes_of(moves: GroupMoves, people: People) -> Iterator[JobNote]:
    """Entries that become one; who is in the old group alone; programs that run for another group."""
    old, new = write_user(moves.old.name), write_user(moves.new.name)
    merged = [path for path, it in moves.changes.items() if it.merged]
    if merged:
        number = sum(moves.changes[path].merged for path in merged)
        yield JobNote(counted(number, "entry of ", "entries of ") + new + b" had others: now the permissions of both",
                      moves.named(merged))
    members = users_by_group(people)
    alone = members.get(moves.old.gid, set()) - members.get(moves.new.gid, set())
    if alone:
        yield JobNote(counted(len(alone), "member") + b" of %s not in %s" % (old, new), [*map(write_user, sorted(alone))])
    programs = [path for path, it in moves.changes.items() if it.is_owning and not moves.files[path].is_directory
                and flag_digit(read_record(it.body).flags) & 2]
    if programs:
        yield JobNote(counted(len(programs), "file") + b" with set-group-ID: executed with the group " + new, moves.named(programs))


def moving(program: str, folder: bytes, words: List[bytes]) -> MoveJob:
    """The edits of a snapshot: at or below the folder that the first word names, of the groups that the others name."""
    with Session(program, folder) as session:
        top = choice.folder_of(session, words[0])
        files = list_all(session, top).files
        is_whole = not session.ask(LIST + b" .\n").messages
    people = People(*map(folder_of(folder).read, NEEDED[:2]))  # Which the program has loaded.
    old, new = group_of(people, words[1], has_row=False), group_of(people, words[2])
    if old.gid == new.gid:
        raise Failure(b"%s and %s: are one group, with the id %d" % (words[1], words[2], old.gid))
    known: Dict[bytes, GroupChange] = {}
    found: Dict[bytes, GroupChange] = {}
    for path in sorted(files, key=sorting_key):
        body = files[path].body
        change = known.get(body)
        if change is None:
            change = known[body] = change_of(body, old.gid, new.gid)
        if change.body != body:
            found[path] = change
    if not found:
        return MoveJob(b"", write_user(old.name) + b": owns nothing and is in no ACL at or below " + file_name(top, is_whole), [])
    moves = GroupMoves(files, found, old, new, is_whole)
    other_names = {path for names in read_links(folder_of(folder).optional(b"links")) for path in at_or_below(names, [top])[1:]}
    return MoveJob(b"".join(lines_of(moves, other_names)), summary_of(moves), [*notes_of(moves, people)])
