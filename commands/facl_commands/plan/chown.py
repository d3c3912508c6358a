"""chown and chgrp in a script of facl-plan: what they do, as the records that setfacl --restore takes. And what a user
who is removed leaves behind."""
from __future__ import annotations

import re
from collections import Counter
from functools import lru_cache
from itertools import takewhile
from typing import Callable, Iterable, List, NamedTuple, Optional, Tuple, Union

from ..base.messages import Failure, counted
from ..base.names import SAFE, live_path, number_of, read_name, shell_word, shown, sorting_key, write_user
from ..model.entries import USER, head_lines, lists_of, named, read_record
from ..model.people import People
from ..model.records import File, Files, asks_as_directory, read_listing, write_records
from ..model.rules_of_lists import flags_after_chown
from ..program.protocol import LIST_ALL, LIST_NUMBERS, NO_GROUP, NO_USER, PROGRAM, RESTORE, TOO_MANY_FILES, USAGE, message_of
from ..program.scripts import WORD, Unit, takes_text
from ..program.session import Session, parts_of
from ..program.tools import ALL, OPTIONS

TEXT_LIMIT = 60 << 20  # A run of the program takes 64 MiB, of which others have a part.
NO_ID = 0xFFFFFFFF  # chown(2) takes it for "stays".


class Refused(Failure):
    """Why a line is refused, as a message of the program without the tool's name."""


class ChownLine(NamedTuple):
    """What a line asks for."""

    is_recursive: bool
    uid: Optional[int]  # None: the owner stays.
    gid: Optional[int]  # None: the group stays.
    files: List[bytes]  # As they are written, with their quotes.


def restoring(session: Session, people: People, unit: Unit) -> Union[Unit, bytes]:
    """The line of setfacl, with its text, that does what a line of chown or chgrp asks for; or the message of its refusal."""
    try:
        unit.lines[0].decode("utf-8")
        line = read_line(unit, people)
        changed = changed_files(session, line, ask_files(session, line))
    except UnicodeDecodeError:
        return unit  # The program says so.
    except Refused as refused:
        is_of_line = refused.text.startswith(message_of(PROGRAM, b""))
        return refused.text if is_of_line else message_of(unit.words[0], refused.text)
    text = write_records(changed, changed)
    if len(text) > TEXT_LIMIT:
        return message_of(unit.words[0], TOO_MANY_FILES)
    return Unit(unit.script, unit.number, RESTORE.split(b" "), [RESTORE, *text.split(b"\n")[:-1], b"."], True)


def read_line(unit: Unit, people: People) -> ChownLine:
    """The words of a line; an option may be anywhere before --, and once."""
    words = list(zip(unit.words, WORD.findall(unit.lines[0])))[1:]
    end = unit.words.index(b"--") - 1 if b"--" in unit.words else len(words)
    options = [word for word, _ in words[:end] if word[:1] == b"-"]
    operands = [it for it in words[:end] if it[0][:1] != b"-"] + words[end + 1 :]
    if takes_text(unit.words) or len(options) > 1 or not OPTIONS[unit.tool()].issuperset(options) or len(operands) < 2:
        raise Refused(USAGE)
    ids = read_ids(unit.words[0], operands[0][0], people)
    return ChownLine(bool(options), *ids, [written for _, written in operands[1:]])


def read_ids(tool: bytes, word: bytes, people: People) -> Tuple[Optional[int], Optional[int]]:
    """The new owner and group of USER, USER:GROUP, USER: or :GROUP; of chgrp GROUP. USER: has the user's primary group."""
    user, colon, group = (b"", b":", word) if ALL[tool].operands.startswith("GROUP") else word.partition(b":")
    of_login = bool(colon) and not group
    if not user and not group or of_login and read_name(user.strip(b" \t")).isdigit():
        raise Refused(USAGE)
    uid = read_id(user, ((it.name, it.uid) for it in people.users), NO_USER) if user else None
    if of_login:
        return uid, read_id(user, ((it.name, it.gid) for it in people.users), NO_USER)
    return uid, read_id(group, ((it.name, it.gid) for it in people.groups), NO_GROUP) if group else None


def read_id(word: bytes, rows: Iterable[Tuple[bytes, int]], fault: bytes) -> int:
    """The id of a USER or a GROUP; digits alone are an id, also one without a row."""
    name = read_name(word.strip(b" \t"))
    found = number_of(name) if name.isdigit() else dict(reversed(list(rows))).get(name, NO_ID)
    if found >= NO_ID:
        raise Refused(write_user(name) + b": " + fault)
    return found


def ask_files(session: Session, line: ChownLine) -> Files:
    """The files of a line as they are now."""
    found: Files = {}
    place = 0
    for words in parts_of(line.files):
        answer = session.ask(b" ".join([LIST_ALL if line.is_recursive else LIST_NUMBERS, *words]) + b"\n")
        if answer.messages:
            raise Refused(fault_of(answer.messages[0], place))
        found.update(read_listing(answer.output.read()))
        place += len(words)
    return found


def fault_of(message: bytes, place: int) -> bytes:
    """The fault of a listing as that of a line whose operands begin that much earlier."""
    listing = message_of(LIST_ALL.split()[0], b"")
    if not message.startswith(listing):
        return message
    fault = message[len(listing) :]
    operand = re.match(rb"operand ([0-9]+)(: .*)", fault, re.DOTALL)
    return fault if operand is None else b"operand %d" % (int(operand[1]) + place) + operand[2]


def changed_files(session: Session, line: ChownLine, files: Files) -> Files:
    """The files whose records change, with the new ones."""
    @lru_cache(maxsize=None)
    def changed(body: bytes, keeps_flags: bool) -> File:
        record = read_record(body)
        owner, group = (now if new is None else b"%d" % new
                        for now, new in ((record.owner, line.uid), (record.group, line.gid)))
        flags = record.flags if keeps_flags else flags_after_chown(record.flags, record.group_class())
        return File(False, head_lines(owner, group, flags) + lists_of(body))

    found: Files = {}
    for path, file in files.items():
        is_unknown = not file.is_directory and not line.is_recursive and b"s" in read_record(file.body).flags
        new = changed(file.body, file.is_directory or is_unknown and asks_as_directory(session, path))
        if new.body != file.body:
            found[path] = new
    return found


# --- what a user who is removed leaves


def files_of(uid: int, gid: int, files: Iterable[File]) -> Tuple[int, int]:
    """Counts the files that belong to the owner `uid`, and to the group `gid`."""
    owned = grouped = 0
    for body, count in Counter(file.body for file in files).items():
        record = read_record(body)
        owned += count * (int(record.owner) == uid)
        grouped += count * (int(record.group) == gid)
    return owned, grouped


class Left(NamedTuple):
    """A removed user, with the files that keep the id."""

    name: bytes
    uid: int
    owned: List[bytes]  # In path order,
    named: List[bytes]  # as those whose lists name the id.


def left_behind(before: People, after: People, files: Files) -> List[Left]:
    """The users who are removed and own files afterwards, or are named in lists; files are those after the edits."""
    present = {user.uid for user in after.users}
    gone = {user.uid: Left(user.name, user.uid, [], []) for user in reversed(before.users) if user.uid not in present}
    if gone:
        for path in sorted(files, key=sorting_key):
            record = read_record(files[path].body)
            if int(record.owner) in gone:
                gone[int(record.owner)].owned.append(path)
            for uid in {int(key[1]) for key in named((*record.access, *record.default)) if key[0] == USER} & set(gone):
                gone[uid].named.append(path)
    return [left for left in gone.values() if left.owned or left.named][::-1]


def notes(left: Left, name_of: Callable[[bytes], bytes]) -> List[bytes]:
    """The lines of a report."""
    return [b"%s is removed and still %s %s, first: %s" % (shown(left.name), how, counted(len(paths), "file"),
                                                           name_of(paths[0]))
            for how, paths in ((b"owns", left.owned), (b"named in the ACLs of", left.named)) if paths]


def comments(left: Left) -> List[bytes]:
    """The lines of by_hand, all of them comments: who owns the files next is for a person to decide."""
    if not left.owned:
        return []
    names = (path.split(b"/") for path in (left.owned[0], left.owned[-1]))
    # The directory that all of them are in, or the one path; its name has no character that ends or hides a line.
    top = [name for name, _ in takewhile(lambda it: it[0] == it[1] and SAFE.match(it[0]), zip(*names))]
    return [b"# %s (uid %d) still owns %s. Put the new owner for NEWOWNER:" % (
                shown(left.name), left.uid, counted(len(left.owned), "file")),
            b"# chown -R -h --from=%d NEWOWNER -- %s" % (left.uid, shell_word(live_path(b"/".join(top))))]
