"""What is in a snapshot: the numbers of its rows and files, and what makes answers differ from what a reader expects.

The warnings are those of facl-snapshot, as far as the files of the snapshot show them.
"""
from __future__ import annotations

import itertools
import os
import re
from collections import Counter
from typing import Dict, Iterator, List, NamedTuple, Set

from ..base import beside
from ..base.folders import folder_of
from ..base.messages import Command, counted
from ..base.names import live_name
from ..program.protocol import EMPTY_MASK, FILE_HEAD, GROUP_ID_LINE, NAMED_LINE, OPEN_OTHERS_LINE, USER_ID_LINE
from . import marks, meta, split_tree
from . import sources as source_texts
from .people import ids_of, rows_of
from .snapshot import NEEDED, read_links
from .sources import Source

IDS = {b"user": re.compile(USER_ID_LINE), b"group": re.compile(GROUP_ID_LINE)}
OTHERS_WITH_SOMETHING, NAMED_ENTRY = (re.compile(line, re.MULTILINE) for line in (OPEN_OTHERS_LINE, NAMED_LINE))
BY_ACL5 = b"judged by the check of acl(5) (--acl5); ACLs by which Linux grants otherwise, as their mask is empty: %d"


class LoadedTexts(NamedTuple):
    """The texts that the program loads, and the names that are one file."""

    folder: bytes
    passwd: bytes
    group: bytes
    dump: bytes
    links: bytes


def read_texts(folder: bytes, has_dump: bool = True) -> LoadedTexts:
    found = folder_of(folder)
    passwd, group = map(found.read, NEEDED[:2])
    return LoadedTexts(folder, passwd, group, found.read(NEEDED[2]) if has_dump else b"", found.optional(b"links"))


def files_in(dump: bytes) -> int:
    """How many records a dump has, or whole lines of one. Two searches of bytes say so if each `file:` begins one as facl-snapshot
    writes it."""
    found = dump.count(b"\n" + FILE_HEAD) + dump.startswith(FILE_HEAD)
    return found if dump.count(b"file:") == found else sum(1 for _ in source_texts.names_of(dump))


def summary(texts: LoadedTexts, name: bytes) -> bytes:
    users, groups, files = len(rows_of(texts.passwd)), len(rows_of(texts.group)), files_in(texts.dump)
    return b"%s: %s, %s, %s" % (name, counted(users, "user"), counted(groups, "group"), counted(files, "file"))


def judged_otherwise(dump: bytes) -> Iterator[bytes]:
    """The files by whose lists Linux grants otherwise than acl(5): their mask is empty, others have something, and an entry names
    somebody."""
    place = dump.find(EMPTY_MASK)
    while place >= 0:
        start, end = dump.rfind(FILE_HEAD, 0, place), dump.find(b"\n\n", place)
        record = dump[max(start, 0) : end if end >= 0 else len(dump)]
        if start >= 0 and OTHERS_WITH_SOMETHING.search(record) and NAMED_ENTRY.search(record):
            yield dump[start + len(FILE_HEAD) : dump.index(b"\n", start)]
        place = dump.find(EMPTY_MASK, place + 1)


def ids_without_row(texts: LoadedTexts) -> Iterator[bytes]:
    lines = source_texts.distinct_lines(texts.dump)
    for kind, rows in ((b"user", texts.passwd), (b"group", texts.group)):
        ids = {match[1] for match in map(IDS[kind].match, lines) if match is not None}
        yield from (kind + b" " + it for it in sorted(ids.difference(uid for uid, _ in ids_of(rows)), key=int))


def warning_of(text: bytes, names: List[bytes]) -> bytes:
    """A warning with a number and the first name."""
    return b"warning: %s: %d, first: %s" % (text, len(names), names[0])


def by_acl5(names: List[bytes]) -> bytes:
    """What is said where acl(5)'s check judges, with the files by whose lists Linux grants otherwise."""
    return BY_ACL5 % len(names) + b"".join(b", first: " + name for name in names[:1])


def warnings(texts: LoadedTexts) -> Iterator[bytes]:
    """Each with a number and the first name."""
    ids = ids_of(texts.passwd)
    counts = Counter(uid for uid, _ in ids)
    members = {name for row in rows_of(texts.group) if len(row) > 3 for name in row[3].split(b",") if name}
    found = {
        b"names of files that have another name in the snapshot too (see links)":
            [live_name(path) for names in read_links(texts.links) for path in names],
        b"ids in the dump without a row in passwd or group": [*ids_without_row(texts)],
        b"members of groups without a row in passwd": sorted(members - {row[0] for row in rows_of(texts.passwd)}),
        b"users with an id that another user has too, as ID NAME":
            sorted(uid + b" " + name for uid, name in ids if counts[uid] > 1),
    }
    return (warning_of(text, names) for text, names in found.items() if names)


def unknown(folder: bytes, dump: bytes) -> Iterator[bytes]:
    """What a snapshot that facl-snapshot did not make cannot tell, and the names in it that have no row."""
    found = source_texts.notice(folder, dump)
    return iter(()) if found is None else itertools.chain([found], names_without_row(folder, dump))


def names_without_row(folder: bytes, dump: bytes) -> Iterator[bytes]:
    """A warning where a dump names users and groups that have no row, which ids need not, with the first line that
    does. The file may be any: no name is given back."""
    number, lines = 0, source_texts.distinct_lines(dump)
    of_them: Set[bytes] = set()
    for database in source_texts.DATABASES:
        known = {row[0] for row in rows_of(folder_of(folder).read(database.encode()))}
        lacking = {name for name in source_texts.names_in(database, lines) - known if not name.isdigit()}
        number += len(lacking)
        of_them |= {line for line in lines if source_texts.names_in(database, {line}) & lacking} if lacking else set()
    if number:
        all_lines = (line for piece in source_texts.pieces_of(dump) for line in piece.split(b"\n"))
        first = next((place for place, line in enumerate(all_lines, 1) if line in of_them), 0)
        yield (b"warning: users and groups in the dump without a row, with which the program does not load it: %d, first: line %d"
               % (number, first))


def torn(texts: LoadedTexts) -> Iterator[bytes]:
    """What is said of each text that has no users or files, another number of rows, files or names than facl-snapshot counted,
    or carriage returns; and of meta where that is cut. It starts with the name in the folder."""
    about = meta.meta_of(texts.folder)
    recorded = about.numbers
    if folder_of(texts.folder).has(b"inodes") and (about is meta.UNKNOWN or meta.FILES not in recorded):
        yield b"meta: is not what facl snapshot wrote, so numbers, hosts and FOLDERs are not compared"
    for name, key, number, noun in (
        (b"dump", meta.FILES, sum(map(files_in, source_texts.dump_pieces(texts.folder))), "file"),
        (b"passwd", meta.USERS, texts.passwd.count(b"\n"), "row"),
        (b"group", meta.GROUPS, texts.group.count(b"\n"), "row"),
        (b"links", meta.LINKED, sum(map(len, read_links(texts.links))), "name"),
        (beside.NAME, meta.MARKED, marks.text_of(texts.folder).count(b"\n"), "line"),
    ):
        if recorded.get(key, b"%d" % number) != b"%d" % number:
            yield name + b": has " + counted(number, noun) + b", but facl snapshot recorded " + recorded[key]
        elif key == meta.FILES and number == 0:
            yield name + b": has no files"
        elif key == meta.USERS and not rows_of(texts.passwd):
            yield name + b": has no users, so nobody is named"
    for name, text in ((b"passwd", texts.passwd), (b"group", texts.group)):
        rows = [number for number, row in enumerate(text.split(b"\n"), 1) if b"\r" in row]
        if rows:
            yield (name + b": " + counted(len(rows), "row has", "rows have") + b" a carriage return, which is taken for a part of "
                   b"the last name, first: line %d" % rows[0])


def torn_warnings(texts: LoadedTexts, source: Source) -> Iterator[bytes]:
    """The same as warnings; files that are given in place of a snapshot are named by what they are."""
    for text in torn(texts):
        yield b"warning: " + (text if source.is_made else os.path.join(source.shown, text))


def say_notices(command: Command, source: Source, is_acl5: bool, is_alone: bool = True) -> None:
    """What answers over this snapshot cannot tell; where they are by acl(5), that they are, and on how many lists those of Linux
    are others. Answers by lists alone do not tell what Linux looks at beside them."""
    names: Dict[bytes, None] = {}  # A directory can be in several parts of a snapshot.
    for folder in split_tree.snapshots_in(source.folder):
        part = source if folder == source.folder else Source(folder, folder, False)
        # Of a dump by facl-snapshot the first lines show that it is one.
        is_plain = source_texts.notice(folder, next(source_texts.dump_pieces(folder))) is None
        found = read_texts(folder, is_acl5 or not is_plain)
        for text in unknown(folder, found.dump) if not is_plain else ():
            command.say(part.shown + b": " + text if not text.startswith(b"warning: ") else text)
        for text in (*torn_warnings(found, part), *(part.shown + b": " + it for it in marks.not_judged(folder))):
            command.say(text)
        names.update(dict.fromkeys(judged_otherwise(found.dump) if is_acl5 else ()))
    if is_acl5:
        command.say(by_acl5([*names]))
    for text in marks.alone(marks.marks_of(source.folder)) if is_alone else ():
        command.say(source.shown + b": " + text)
