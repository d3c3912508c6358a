"""The answers of one snapshot of several: what `facl-ask --part` writes for `--each` and `--hosts` of `facl ask`; on another
machine `facl answer-part` runs it.

First comes a line of JSON about the snapshot; with --records what it records, a line for each directory, with the name
and a checksum of the record of each file in it. For each line of the script that does something there is a header,
which is a line of JSON, and the bytes that the program printed, with a line feed. Names in JSON are bytes, a letter each.
"""
from __future__ import annotations

import argparse
import itertools
import json
import os
import re
from hashlib import blake2b
from typing import Any, Dict, Iterable, Iterator, List, NamedTuple, Optional, Tuple, Type, TypeVar, get_type_hints

from ...base.folders import folder_of
from ...base.messages import Command
from ...base.names import is_at_or_below, number_of, path_word, read_name, read_path, script_word
from ...model import meta, overview, sources
from ...model.everybody import ElseAnswers, people_in, read_everybody, session_with
from ...model.marks import alone, marks_of, not_judged
from ...model.people import rows_of
from ...model.records import path_of, records_in, split_record
from ...program.answering import answer_unit
from ...program.protocol import FREE_FILE_LINE, LIST, NOT_THERE, WHO, is_refused, lacks_file
from ...program.scripts import Script, Unit
from ...program.session import OutputSlice, Session
from ...program.tools import COUNTING, EDITS, FILE, MAKERS, OF_RECORDS, REACH, RESTORING, VALUES, WITH_FILES, operand_kinds, split

COUNTING_SOME = tuple(tool for tool in COUNTING if tool in WITH_FILES)
OF_FILES = (*EDITS, *OF_RECORDS, *COUNTING_SOME)  # Tools that take several FILEs, or edit one.
SIZE = 16  # Letters of a checksum.
RECORD = re.compile(b"^" + FREE_FILE_LINE + b"$", re.MULTILINE)


class Head(NamedTuple):
    """The first line: the snapshot, and the ids of its users and groups by their names."""

    part: bytes  # Its folder.
    users: Dict[str, int]
    groups: Dict[str, int]
    unknown: List[bytes]  # What it cannot tell.
    otherwise: List[bytes]  # With --acl5 the files by whose lists Linux grants otherwise.
    asked: int  # How many users of a directory service it has, where that is known.
    state: List[bytes]  # Which folder it is, and since when.
    size: int  # Of what it records, which comes next.


class Header(NamedTuple):
    line: int
    size: int  # Of the output after it.
    messages: List[bytes]
    lacks: List[bytes]  # Which FILEs are not recorded here,
    has: List[bytes]  # and which are.
    shared: List[bytes]  # Of a line that counts: files that others may have, with what it counts them for (join.py).


Row = TypeVar("Row", Head, Header)
FIELDS = {kind: get_type_hints(kind) for kind in (Head, Header)}


def line_of(value: NamedTuple) -> bytes:
    return json.dumps(value._asdict(), default=lambda it: it.decode("latin-1")).encode() + b"\n"


# --- what is read here was perhaps written by another machine


def short_number(text: str) -> int:
    """A number of JSON; the digits of one that is longer than any of ours are not read."""
    if len(text) > 20:
        raise ValueError
    return int(text)


def value_of(kind: object, value: object) -> Any:
    """A value of JSON as a field of this type has it; ValueError where it is none."""
    if kind is int and isinstance(value, int) and not isinstance(value, bool) and value >= 0:
        return value
    if kind is bytes and isinstance(value, str):
        return value.encode("latin-1")
    if kind == List[bytes] and isinstance(value, list):
        return [value_of(bytes, it) for it in value]
    if kind == Dict[str, int] and isinstance(value, dict):
        return {value_of(bytes, name).decode("latin-1"): value_of(int, number) for name, number in value.items()}
    raise ValueError


def read_row(kind: Type[Row], line: bytes) -> Row:
    """An object of JSON; ValueError where it is none, or has other fields."""
    try:
        found = json.loads(line.decode("ascii"), parse_int=short_number)
        return kind(*(value_of(it, found[name]) for name, it in FIELDS[kind].items()))
    except (LookupError, TypeError, RecursionError) as error:
        raise ValueError from error


# --- files that several snapshots have, and what this one counts of them


def is_counting(unit: Unit) -> bool:
    """Whether its answer has sums."""
    return unit.form() in COUNTING


def is_along(unit: Unit) -> bool:
    return split(unit.words).has(REACH)


def of_files(unit: Unit, words: List[bytes]) -> bytes:
    """The line with other FILEs."""
    line, values = split(unit.words), VALUES[unit.tool()]
    options = [option.name + (b"=" + option.value) * (option.name in values) for option in line.given]
    return b" ".join([unit.tool(), *map(script_word, options), b"--", script_word(line.operands[0]), *words])


def of_some_files(unit: Unit, names: List[bytes]) -> bytes:
    """The line with those of its FILEs that have these names."""
    return of_files(unit, [script_word(word) for word in split(unit.words).operands[1:] if read_name(word) in names])


def side_text(granted: Optional[int]) -> bytes:
    return NOT_THERE if granted is None else b"%02x" % granted


class SharedFiles:
    """What is counted of some files in one snapshot."""

    def __init__(self, session: Session, names: List[bytes], units: List[Unit]) -> None:
        self.session = session
        self.paths = [read_path(name) for name in names]
        views = {is_along(unit) for unit in units if unit.is_of(*COUNTING) and not unit.is_of(*WITH_FILES)}
        self.before = {(path, view): self.granted(path, view) for path in self.paths for view in views}

    def follow(self, unit: Unit) -> None:
        """An accepted line may make a file."""
        if unit.is_of(*MAKERS):
            self.paths += [read_path(word) for word in split(unit.words).operands if read_path(word) not in self.paths]

    def who(self, request: int, path: bytes, *options: bytes) -> Optional[List[bytes]]:
        answer = self.session.ask(b" ".join([WHO, *options, b"--", b"%d" % request, path_word(path)]) + b"\n")
        return None if answer.messages else list(answer.output.lines())

    def granted(self, path: bytes, view: bool) -> Optional[Dict[bytes, int]]:
        """By user the requests on a file, alone or along its path; None where the file is not there."""
        users = self.who(0, path)
        if users is None:
            return None
        found = dict.fromkeys(users, 0)
        for request in range(8):
            for user in self.who(request, path, *[REACH] * view) or []:
                found[user] |= 1 << request
        return found

    def keys(self, unit: Unit, path: bytes) -> List[Tuple[bytes, ...]]:
        """For what a line counts a file: what its answer has before COUNT, and the user. One on FILEs counts it for the users
        whose first file below it is itself."""
        if unit.is_of(*WITH_FILES):
            if not is_at_or_below(path, [read_path(word) for word in split(unit.words).operands[1:]]):
                return []
            answer = self.session.ask(of_files(unit, [path_word(path)]) + b"\n")
            lines = [] if answer.messages else [line.split(b" ", 2) for line in answer.output.lines()]
            return [(user,) for _, user, name in lines if path_of(name) == path]
        sides = [self.before.get((path, is_along(unit))), self.granted(path, is_along(unit))]
        users = dict.fromkeys(itertools.chain.from_iterable(side or () for side in sides))
        of_users = [(user, [(side or {}).get(user) for side in sides]) for user in users]
        return [(*map(side_text, its), user) for user, its in of_users
                if None in sides or len({(it or 0) >> 1 for it in its}) > 1]

    def counted(self, unit: Unit) -> List[bytes]:
        """Each file with what it is counted for."""
        return [b"\0".join([path, *(b" ".join(key) for key in self.keys(unit, path))]) for path in self.paths]


# --- the answers of this snapshot


def files_of(unit: Unit) -> List[bytes]:
    """The FILEs of a line, as names; of a file that it makes the directory that this is to be in."""
    if not unit.is_of(*OF_FILES):
        return []
    if any(word.startswith(RESTORING) for word in unit.words):
        return [read_name(name) for name in RECORD.findall(b"\n".join(unit.lines[1:-1]))]
    line = split(unit.words)
    operands = [read_name(word) for word in line.operands]
    if unit.is_of(*MAKERS):
        return [name.rstrip(b"/").rpartition(b"/")[0] or b"." for name in operands]
    return operands[operand_kinds(unit.tool(), line).index(FILE) :]


def is_recorded(session: Session, name: bytes) -> Optional[bool]:
    """Whether a file is recorded; None where the word is no path."""
    messages = session.ask(LIST + b" " + script_word(name.replace(b"\\", b"\\\\")) + b"\n").messages
    return True if not messages else False if lacks_file(messages) else None


def answer(command: Command, session: Session, unit: Unit, shared: SharedFiles) -> None:
    """Answers a line, after a look at its files; one that counts or lists below some FILEs by those that are recorded here."""
    found = [(name, is_recorded(session, name)) for name in files_of(unit)]
    lacks, has = ([name for name, is_there in found if is_there is wanted] for wanted in (False, True))
    output, messages = answer_unit(session, unit)
    if unit.is_of(*COUNTING_SOME) and lacks_file(messages) and has:
        output, messages = session.ask(of_some_files(unit, has) + b"\n")
    counted: List[bytes] = []
    if not is_refused(messages):
        counted = shared.counted(unit) if is_counting(unit) else []
        shared.follow(unit)
    command.write(line_of(Header(unit.number, output.end - output.start, messages, lacks, has, counted)))
    for piece in itertools.chain(output.pieces(), [b"\n"]):
        command.write(piece)


def head_of(folder: bytes, size: int, is_acl5: bool) -> Head:
    found = overview.read_texts(folder)
    users, groups = ({row[0].decode("latin-1"): number_of(row[2]) for row in rows_of(rows)} for rows in (found.passwd, found.group))
    unknown = [*overview.unknown(folder, found.dump), *overview.torn(found), *not_judged(folder), *alone(marks_of(folder))]
    otherwise = list(overview.judged_otherwise(found.dump)) if is_acl5 else []
    asked = meta.users_asked_for(meta.meta_of(folder)) or 0
    return Head(folder, users, groups, unknown, otherwise, asked, [b"%d" % it for it in folder_of(folder).state], size)


def blocks_of(listings: Iterable[OutputSlice]) -> Iterator[bytes]:
    """What a snapshot records: the line of each directory, with names as the program prints them."""
    inside: Dict[bytes, List[bytes]] = {}
    for file, body in map(split_record, records_in(listings)):
        above, _, name = file.rstrip(b"/").rpartition(b"/")
        inside.setdefault(above, []).append(blake2b(body, digest_size=SIZE // 2).hexdigest().encode() + name)
    for above, files in inside.items():
        yield above + b"\0" + b"\0".join(files) + b"\n"


def write_part(command: Command, program: str, folder: bytes, script: Script, given: argparse.Namespace) -> int:
    """Answers a script over one snapshot, between a first and a last line of our own; with the names of files that
    others have too. The command that joins answers has given a name and an id for everybody else."""
    texts, answers = people_in(folder), None
    if given.everybody is not None:
        answers = ElseAnswers(read_everybody(os.fsencode(given.everybody), folder), texts.passwd)
        texts = answers.everybody.with_both(texts)
    with session_with(program, folder, *texts) as session:
        session.ask(b"")
        listings = sources.list_below(session, sources.find_tops(session, folder)) if given.records else []
        files = b"".join(blocks_of(listings))
        command.write(line_of(head_of(folder, len(files), given.acl5)) + files)
        *names, text = script.text.split(b"\n", given.shared_lines)
        units = script._replace(text=text).units()
        shared = SharedFiles(session, names, units)
        for unit in units:
            answer(command, session, unit if answers is None else answers.asked(unit), shared)
        command.write(b"end\n")
    return 0
