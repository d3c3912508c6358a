"""The file `files` of a plan, as facl-plan writes it: the lists of records are bytes that the program prints."""
from __future__ import annotations

import re
from typing import Dict, Iterable, List, Tuple

from ..base.acl_bytes import Record
from ..base.messages import Failure
from ..model.entries import NOTHING, flag_digit, head_lines, lists_of, read_record
from ..model.records import Files, write_records
from ..model.snapshot import Snapshot
from ..planned import differences
from ..planned.plan_files import NOWHERE, are_valid, fields_of, text_of
from ..program.protocol import ATTRIBUTE_LINES, ATTRIBUTES_OF, FILE_HEAD
from ..program.session import session_over

PORTION = 10_000  # Questions that are sent at once.
OTHER_BYTES = (b"nothing was written: the bytes of an ACL are not those of its entries: somebody else can have changed what "
               b"the program was given, or the program is of another version")


def ask_records(program: str, bodies: Iterable[bytes]) -> Dict[bytes, Record]:
    """The records that bodies of listings are; the program prints the bytes of their lists, once of equal ones."""
    known = dict.fromkeys(bodies)
    lists = list(dict.fromkeys(map(lists_of, known)))
    # Directories that have these lists; their names are their numbers.
    head = head_lines(b"0", b"0", NOTHING)
    dump = b"".join(FILE_HEAD + b"%d/\n" % number + head + text + b"\n" for number, text in enumerate(lists))
    found: List[Tuple[bytes, bytes]] = []
    with session_over(program, b"", b"", dump) as session:
        for place in range(0, len(lists), PORTION):
            lines = b"\n".join(ATTRIBUTES_OF % number for number in range(len(lists))[place : place + PORTION])
            found += re.findall(ATTRIBUTE_LINES, session.ask_accepted(lines).read())
    if len(found) != len(lists):
        raise Failure(OTHER_BYTES)
    both = dict(zip(lists, found))
    return {body: record_of(body, *both[lists_of(body)]) for body in known}


def record_of(body: bytes, access: bytes, default: bytes) -> Record:
    """The record that the body of a listing is, with the bytes of both lists, which have to be valid, and of the entries that a
    person reads."""
    try:
        read = read_record(body)
        lists = (bytes.fromhex(text.decode()) for text in (access, default))
        record = Record(int(read.owner), int(read.group), flag_digit(read.flags) << 9, *lists)
    except ValueError as error:
        raise Failure(OTHER_BYTES) from error
    if not are_valid(record) or any([it.text() for it in entries] != differences.entry_lines(data)
                                    for entries, data in zip((read.access, read.default), (record.access, record.default))):
        raise Failure(OTHER_BYTES)
    return record


def file_texts(program: str, snapshot: Snapshot, paths: List[bytes], old: Files, new: Files) -> Dict[bytes, bytes]:
    """The files of a plan that have the files that change: their records before and after; and `files`, an object with the
    records, each once, and the files, by the numbers of theirs."""
    records = ask_records(program, [files[path].body for path in paths for files in (old, new)])
    numbers = {body: number for number, body in enumerate(records)}
    same = {path: number for number, names in enumerate(snapshot.links, 1) for path in names}
    rows = [(int(old[path].is_directory), *snapshot.inodes.get(path, NOWHERE), same.get(path, 0), numbers[old[path].body],
             numbers[new[path].body]) for path in paths]
    text = text_of(paths, rows, boot=snapshot.boot, records=list(map(fields_of, records.values())))
    return {b"files": text, b"old": write_records(old, paths), b"new": write_records(new, paths)}
