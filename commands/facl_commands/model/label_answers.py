"""What the program answers about owner, group, flags and lists alone.

The check looks at nothing else of a file, and many files share these. So each is asked of once, by a file of its own
with a short name, in a session over these files: neither names nor depths of the snapshot's tree come into it.
"""
from __future__ import annotations

import struct
from typing import Dict, Iterable, List, NamedTuple

from ..base.messages import Failure
from ..program.protocol import DEFAULT_ENTRY, FILE_HEAD, INDEX
from ..program.session import OutputSlice, Session, parts_of, session_over
from .records import body_of
from .rights import users_of
from .rules_of_lists import Vector

SCRIPT_ROOM = 32 << 20  # Bytes of the lines that one session is asked, which may have twice as many.
WORD = b"%07d"
WORD_SIZE = 8  # With its blank.
FILES_ROOM = 50_000  # Files of one session, so that its answers have room in memory.
READ_AT_ONCE = 1 << 20  # Bytes of `index`.


class PeopleTexts(NamedTuple):
    """Users and groups: their rows, and lines that change them."""

    passwd: bytes
    group: bytes
    lines: bytes


def dump_of(bodies: List[bytes]) -> bytes:
    """A dump of a file for each body; one that has a default list is a directory."""
    slash = {True: b"/", False: b""}
    return b"".join(FILE_HEAD + b"/" + WORD % k + slash[DEFAULT_ENTRY in body] + b"\n" + body + b"\n" for k,
                    body in enumerate(bodies))


def operands_of(count: int) -> List[bytes]:
    """The names of `count` files in their order, as the operands of lines that have room for them."""
    return list(map(b" ".join, parts_of(WORD % k for k in range(count))))


def ask_records(session: Session, lines: Iterable[bytes]) -> List[bytes]:
    """The bodies of the records that lines of our own print."""
    return list(map(body_of, session.ask_accepted(b"\n".join(lines)).records()))


def vectors_of(table: OutputSlice, users: List[bytes], count: int) -> List[Vector]:
    """What an index has of each of `count` files. The lines of a file follow each other, and those of a user have one length."""
    form = struct.Struct("".join("2s%dx" % len(b" " + user + b" " + WORD % 0 + b"\n") for user in users))
    if table.end - table.start != form.size * count:
        raise Failure(b"the program does not list the users and files of `index` in their order")
    found: List[Vector] = [] if users else [b""] * count
    step = form.size * max(1, READ_AT_ONCE // max(1, form.size)) or 1  # Without users there are no lines.
    for start in range(table.start, table.end, step):
        text = table._replace(start=start, end=min(start + step, table.end)).read()
        found += [bytes.fromhex(b"".join(it).decode()) for it in form.iter_unpack(text)]
    return found


class Vectors(NamedTuple):
    """What the program answers of each record, by its lines after the first."""

    users: List[bytes]
    of_body: Dict[bytes, Vector]


def ask_vectors(program: str, people: PeopleTexts, bodies: List[bytes]) -> List[Vectors]:
    """Asks what all users may do with files that have these bodies, before the lines of people and after them."""
    found = []
    with session_over(program, people.passwd, people.group, dump_of(bodies)) as session:
        for lines in [b"", people.lines] if people.lines else [b""]:
            if lines:
                session.ask_accepted(lines.rstrip(b"\n"))
            table = session.ask_accepted(INDEX)
            users = users_of(table)
            found.append(Vectors(users, dict(zip(bodies, vectors_of(table, users, len(bodies))))))
    return [found[0], found[-1]]
