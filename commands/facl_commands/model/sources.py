"""Any dump: a folder with passwd, group and dump alone, or three files by name, also without the directories above its files.

A command calls add_source for its words and opens what is given by opened; then notice has what such a snapshot cannot tell,
find_tops the files that no recorded directory is above, and list_below listings from these on.
"""
from __future__ import annotations

import argparse
import contextlib
import os
import re
import subprocess
from typing import Iterator, List, NamedTuple, Optional, Set

from ..base import beside, folders
from ..base.accounts import Account, with_own_names
from ..base.folders import Folder, folder_of
from ..base.messages import Failure, failing
from ..base.names import highest, path_word, read_name
from ..base.programs import add_program, environment_of_called, program_words
from ..base.trusted import MOST, open_file, too_large
from ..program.protocol import FILE_HEAD, FREE_FILE_LINE, LIST
from ..program.session import OutputSlice, Session, parts_of
from .people import rows_of
from .records import list_words, path_of

DUMP = b"dump"
DATABASES = ("passwd", "group")
NAMED = {"passwd": re.compile(rb"[ \t]*(?:#[ \t]*owner:[ ]?|(?:d(?:efault)?:)?u(?:ser)?:)([^:#]+)"),
         "group": re.compile(rb"[ \t]*(?:#[ \t]*group:[ ]?|(?:d(?:efault)?:)?g(?:roup)?:)([^:#]+)")}
KEYS_AT_ONCE = 500  # Of getent.
LIVE_ROOT = FILE_HEAD + b"/\n"  # As facl-snapshot writes it.
FILE_NAME = re.compile(FREE_FILE_LINE, re.DOTALL)
HAS_FILE = re.compile(rb"^[ \t]*#[ \t]*file:", re.MULTILINE)
PIECE, SMALL_PIECE = 1 << 20, 1 << 18


class Source(NamedTuple):
    """What is asked of."""

    folder: bytes  # Which has passwd, group and dump.
    shown: bytes  # What a person gave.
    is_made: bool  # Whether there is no such folder, but given files.


def add_source(parser: argparse.ArgumentParser, words: List[str]) -> None:
    """Takes SNAPSHOT, or --dump FILE in its place; and which program is to answer."""
    add_program(parser)
    parser.add_argument("--dump", metavar="FILE", help="a file of getfacl -R, in place of SNAPSHOT")
    parser.add_argument("--passwd", metavar="FILE", help="with --dump: the users; without it those of the system")
    parser.add_argument("--group", metavar="FILE", dest="group_file",
                        help="with --dump: the groups; without it those of the system")
    options = words[: words.index("--")] if "--" in words else words
    if any(word == "--dump" or word.startswith("--dump=") for word in options):
        parser.set_defaults(snapshot=None)
    else:
        parser.add_argument("snapshot", metavar="SNAPSHOT")


def source_words(given: argparse.Namespace) -> List[str]:
    """The words that gave it, for another command over the same."""
    options = (("--dump", given.dump), ("--passwd", given.passwd), ("--group", given.group_file))
    words = [*program_words(given), *(word for option, value in options if value is not None for word in (option, value))]
    return words if given.dump is not None else [*words, given.snapshot]


@contextlib.contextmanager
def opened(given: argparse.Namespace) -> Iterator[Source]:
    """A folder with the texts that are given, opened once; where they are files, one that has these, of a name that no folder has."""
    if given.dump is None:
        if given.passwd is not None or given.group_file is not None:
            raise Failure(b"--passwd and --group go with --dump: a SNAPSHOT has its own")
        with folders.kept():
            yield Source(os.fsencode(given.snapshot), os.fsencode(given.snapshot), False)
        return
    with folders.kept():
        source = Source(b"/" + os.fsencode(given.dump) + b"/", os.fsencode(given.dump), True)
        folders.keep(folder_of_files(given, source.folder))
        try:
            yield source
        except Failure as failure:
            start = source.folder + b": "
            if not failure.text.startswith(start):
                raise
            raise Failure(source.shown + b": " + failure.text[len(start) :], failure.status) from failure


def folder_of_files(given: argparse.Namespace, name: bytes) -> Folder:
    """A folder that has the files that are given, with rows of the system in the place of others. A FILE that is no dump is
    refused at once, since names in a dump become words of getent, which all users can see."""
    found, file = Folder(name), os.fsencode(given.dump)
    found.add(DUMP, open_file(file), file)
    dump = found.read(DUMP)
    if dump and HAS_FILE.search(dump) is None:
        raise Failure(file + b": is not a dump: it has no line `# file: NAME`")
    lines: Set[bytes] = set()
    for database, rows in zip(DATABASES, (given.passwd, given.group_file)):
        if rows is not None:
            found.add(database.encode(), open_file(os.fsencode(rows)), os.fsencode(rows))
        else:
            lines = lines or distinct_lines(dump)
            found.put(database.encode(), rows_of_system(database, lines))
    return found


def getent(words: List[bytes]) -> bytes:
    """Rows of the system; keys that nobody has give none."""
    with failing(b"getent", True):
        return subprocess.run([b"getent", *words], stdin=subprocess.DEVNULL, stdout=subprocess.PIPE, check=False,
                              env=environment_of_called()).stdout


def pieces_of(dump: bytes) -> Iterator[bytes]:
    """Whole lines of a dump, some at once, without the end of the last one."""
    place = 0
    while place < len(dump):
        end = dump.find(b"\n", place + PIECE)
        end = end if end >= 0 else len(dump)
        yield dump[place:end]
        place = end + 1


def dump_pieces(folder: bytes) -> Iterator[bytes]:
    """The dump of a snapshot, whole lines at once, which have room in the caches of a processor."""
    opened, place = folder_of(folder), 0  # Which is open as long as it is known here.
    rest: List[bytes] = []  # The begin of a line.
    text = opened.open_text(DUMP)
    if text.content[0] > MOST:
        raise too_large(text.path, MOST)
    with failing(text.path, True):
        piece = os.pread(text.descriptor, SMALL_PIECE, place)
        while piece:
            end, place = piece.rfind(b"\n") + 1, place + len(piece)
            if end:
                yield b"".join([*rest, memoryview(piece)[:end]])
                rest.clear()
            rest.append(piece[end:])
            piece = os.pread(text.descriptor, SMALL_PIECE, place)
    text.check()
    yield b"".join(rest)


def distinct_lines(dump: bytes) -> Set[bytes]:
    """The lines of a dump without those of files' names; most of the others are there often."""
    lines: Set[bytes] = set()
    for piece in pieces_of(dump):
        lines.update(line for line in set(piece.split(b"\n")) if line[:7] != FILE_HEAD[:7])
    return lines


def names_in(database: str, lines: Set[bytes]) -> Set[bytes]:
    """The users or groups that lines of a dump name, of which some are ids."""
    return {read_name(match[1].strip()) for match in map(NAMED[database].match, lines) if match is not None}


def rows_of_system(database: str, lines: Set[bytes]) -> bytes:
    """passwd or group of the system, also the rows that it gives only by a name or id, which lines of a dump have."""
    word = database.encode()
    text = getent([word])
    known = {field for row in rows_of(text) for field in (row[0], row[2])}
    lacking = sorted(names_in(database, lines) - known)
    for start in range(0, len(lacking), KEYS_AT_ONCE):
        text += getent([word, b"--", *lacking[start : start + KEYS_AT_ONCE]])
    return text if database == "passwd" else b"".join(it.row() + b"\n" for it in with_own_names([*groups_in(text)]))


def groups_in(text: bytes) -> Iterator[Account]:
    """The groups whose rows the system prints, also those of one name."""
    for fields in (row.split(b":") for row in text.split(b"\n")):
        if len(fields) == 4 and fields[2].isdigit():
            yield Account(b":".join([*fields[:3], b""]), fields[0], (int(fields[2]),), tuple(filter(None, fields[3].split(b","))))


def notice(folder: bytes, dump: bytes) -> Optional[bytes]:
    """What a snapshot cannot tell; None where facl-snapshot made it."""
    has, found = folder_of(folder).has, []
    if not dump.startswith(LIVE_ROOT) and b"\n" + LIVE_ROOT not in dump:
        found.append(b"the directories above are not recorded, so they are taken as open")
    unknown = [b"hard links"] * (not has(b"links"))
    unknown += [b"immutable files", b"read-only file systems"] * (not has(beside.NAME))
    if unknown:
        found.append(b" and ".join(filter(None, [b", ".join(unknown[:-1]), unknown[-1]])) + b" are not known")
    return b"; ".join(found) or None


def names_of(dump: bytes) -> Iterator[bytes]:
    """The names of its files, as they are written there. No other line is looked at if each `file:` begins a record as
    facl-snapshot writes it."""
    for piece in pieces_of(dump):
        records = (b"\n" + piece).split(b"\n" + FILE_HEAD)[1:]
        if piece.count(b"file:") == len(records):
            yield from (record.partition(b"\n")[0] for record in records)
        else:
            yield from (match[1] for match in map(FILE_NAME.match, piece.split(b"\n")) if match is not None)


def tops_of(dump: bytes) -> List[bytes]:
    """The paths that no recorded directory is above, in path order; the root alone where it is recorded."""
    return highest(map(path_of, names_of(dump)))


def find_tops(session: Session, folder: bytes) -> List[bytes]:
    """The tops of the files that a session starts with."""
    if not session.ask(LIST + b" .\n").messages:
        return [b""]
    return tops_of(folder_of(folder).read(DUMP))


def operands_of(paths: List[bytes]) -> List[List[bytes]]:
    """The words of paths, in groups that a line has room for."""
    return list(parts_of(map(path_word, paths)))


def list_below(session: Session, tops: List[bytes]) -> List[OutputSlice]:
    """Listings of the files as they are now, in path order, with ids as numbers; a top that is gone has none."""
    return [output for words in operands_of(tops) for output in list_words(session, words)]
