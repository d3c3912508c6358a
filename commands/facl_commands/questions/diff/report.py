"""What facl-diff prints: a table for a person, rows for a script, or one object."""
from __future__ import annotations

import argparse
from typing import Callable, Dict, Iterator, List, NamedTuple, Sequence, Tuple, Union

from ...base.names import file_name, is_at_or_below, json_text, write_user
from ...base.tables import Column, Table
from ...model.choice import head_of
from ...model.everybody import SHOWN, beside
from ...model.meta import EXCLUDED, PART, UNREAD, Meta, fields_of
from ...model.records import path_of
from ...model.rights import REQUESTS
from .causes import MOVED, MOVED_TO
from .events import Event, Reason
from .moved import Moved
from .reasons import and_more
from .rows import AllUsers, ChangeRow
from .states import FileCounts, PeopleCounts, State

SCHEMA = "facl-diff/2"
COLUMNS = [Column("BEFORE"), Column("AFTER"), Column("WHO"), Column("FILES", True), Column("FIRST"), Column("WHY")]
EVENT_COLUMNS = [Column("WHO"), Column("WHAT"), Column("MORE", True), Column("GAINED"), Column("LESS", True), Column("LOST"),
                 Column("FIRST")]
MOST_NAMES = 8  # In a row for a person,
FEW_NAMES = 2  # beside everybody else,
MOST_FOLDERS = 3  # and in a warning.
MOST_REASONS = 2  # In a row.
LONGEST, ROOM_OF_WHAT = 100, 40  # Columns of a line for a person, and of what happened.


class Compared(NamedTuple):
    """What differs between two snapshots."""

    old: State
    new: State
    folders: List[bytes]  # Those that are looked at; none where all files are.
    is_whole: bool  # Whether paths start at the root of the file system.
    by: str  # What the changes are from: `gains` of a session, or `index`.
    events: List[Event]
    rows: List[ChangeRow]
    everybody: AllUsers  # Whom rows can be about.
    left_out: List[bytes]  # Other users who have changes.
    files: FileCounts
    people: PeopleCounts
    moved: List[Moved]
    has_other_marks: bool = False  # Whether Linux looks at something else beside the lists.

    def name_of(self, path: bytes) -> bytes:
        """The name of a file on the live system, where the snapshots start at the root; else as the program has it."""
        return file_name(path, self.is_whole)

    def first_of(self, row: Union[ChangeRow, Event, Reason]) -> bytes:
        return self.name_of(path_of(row.first))


# --- for a person


def who_of(row: ChangeRow, everybody: AllUsers) -> bytes:
    """The users of a row: everybody are those of the snapshots, whose number is said, and everybody else."""
    if everybody.has_else(row):
        return SHOWN if len(row.users) == 1 else b"everybody (%d)" % (len(row.users) - 1)
    if everybody.are_known(row):
        return b"all known users (%d)" % len(row.users)
    rest = len(row.users) - MOST_NAMES
    return b" ".join(row.users[:MOST_NAMES]) + (b" and %d more" % rest if rest > 0 else b"")


def who_of_event(event: Event, everybody: AllUsers) -> bytes:
    """The same of an event, which everybody else is in beside others."""
    users = [user for user in event.users if user != everybody.everybody.name]
    has_else = everybody.has_else(event)
    if has_else and users and not everybody.are_all(event):
        return SHOWN + b" and " + (b", ".join(users) if len(users) <= FEW_NAMES else b"%d users" % len(users))
    if not users or everybody.are_all(event):
        return SHOWN if not users else (b"everybody (%d)" if has_else else b"all known users (%d)") % len(users)
    return and_more(users)


def reasons_text(reasons: Sequence[Reason], files: int, room: int = LONGEST) -> bytes:
    """The first reasons, as far as there is room, each with the number of its files where others are beside."""
    parts = [it.why if it.files == files else b"%d %s" % (it.files, it.why) for it in reasons]
    both = b", ".join(parts[:MOST_REASONS])
    most = MOST_REASONS if len(both) <= room else 1
    rest = len(parts) - most
    return b", ".join(parts[:most]) + (b" and %d more" % rest if rest > 0 else b"")


def shown_reasons(event: Event) -> List[Reason]:
    """Those for a person: of what moved by the old name, if it was anything to somebody."""
    its = [it for it in event.reasons if event.kind == MOVED and it.why.startswith(MOVED_TO)]
    return its or event.reasons


def letters_of(bits: int) -> bytes:
    """What was gained or lost; empty where nothing was."""
    return REQUESTS[bits].encode() if bits else b""


def fields_of_event(event: Event, who: bytes, what: bytes, first: bytes) -> List[bytes]:
    return [who, what, b"%d" % event.more, letters_of(event.gained), b"%d" % event.less, letters_of(event.lost), first]


def row_of_event(compared: Compared, event: Event) -> List[bytes]:
    """The row for a person."""
    reasons = shown_reasons(event)
    what = reasons_text(reasons, event.files if reasons == event.reasons else sum(it.files for it in reasons), ROOM_OF_WHAT)
    first = compared.first_of(event if reasons == event.reasons else reasons[0])
    return fields_of_event(event, who_of_event(event, compared.everybody), what, first)


def fields_of_row(compared: Compared, row: ChangeRow, who: bytes) -> List[bytes]:
    return [row.old.encode(), row.new.encode(), who, b"%d" % row.files, compared.first_of(row),
            reasons_text(row.reasons, row.files)]


def table_of(compared: Compared, is_full: bool) -> Table:
    if is_full:
        return Table(COLUMNS, [fields_of_row(compared, row, who_of(row, compared.everybody)) for row in compared.rows])
    return Table(EVENT_COLUMNS, [row_of_event(compared, it) for it in compared.events])


def line_beside(compared: Compared) -> List[bytes]:
    """What stands beside everybody else, where a row has them."""
    return beside(compared.new.about) if any(map(compared.everybody.has_else, compared.rows)) else []


def numbers(kind: bytes, *parts: Tuple[int, bytes, Sequence[bytes]]) -> List[bytes]:
    """Numbers of one kind, each with its word and the first names; nothing where all are 0."""
    found = []
    for number, word, names in parts:
        shown = b", ".join(names[:MOST_NAMES]) + b" .." * (len(names) > MOST_NAMES)
        if number:
            found.append(b"%d %s" % (number, word) + (b" (" + shown + b")" if names else b""))
    return [kind + b": " + b", ".join(found)] if found else []


def summary(compared: Compared) -> List[bytes]:
    """What differs in the files and users, whether somebody may do otherwise or not; each on a line where one is too long."""
    files, people = compared.files, compared.people
    users = [list(map(write_user, names)) for names in people[:3]]
    parts = [*numbers(b"files", (files.changed, b"with another owner, group, flags or ACL", []),
                      (files.made, b"new", []), (files.removed, b"gone", []),
                      (len(compared.moved), b"of these moved", [])),
             *numbers(b"users", (len(users[0]), b"new", users[0]), (len(users[1]), b"gone", users[1]),
                      (len(users[2]), b"with another id", users[2])),
             *numbers(b"memberships", (people.joined, b"new", []), (people.left, b"gone", []))]
    if not parts:
        return [b"nothing %sdiffers: the same users, groups of users, files and ACLs" % (b"else " * compared.has_other_marks)]
    parts = [b"nobody gained or lost anything"] * (not compared.rows) + parts
    line = b"; ".join(parts)
    return [line] if len(line) <= LONGEST else parts


# --- for a script


def fields_table(compared: Compared, is_full: bool) -> Table:
    """A row for each event, with all its users and reasons; or for each user of a change."""
    if is_full:
        return Table(COLUMNS, [fields_of_row(compared, row, user) for row in compared.rows for user in shown_users(compared, row)])
    rows = [[it.kind.encode(), *fields_of_event(it, b",".join(shown_users(compared, it)),
                                                b",".join(b"%d %s" % (why.files, why.why) for why in it.reasons),
                                                compared.first_of(it))]
            for it in compared.events]
    return Table([Column("KIND"), *EVENT_COLUMNS], rows)


def shown_users(compared: Compared, row: Union[ChangeRow, Event]) -> List[bytes]:
    """The users of a row, as an answer has their names."""
    return list(map(compared.everybody.everybody.shown, row.users))


def texts(names: Sequence[bytes], write: Callable[[bytes], bytes] = bytes) -> List[str]:
    return [json_text(write(name)) for name in names]


def reasons_json(compared: Compared, reasons: Sequence[Reason]) -> List[Dict[str, object]]:
    return [{"why": json_text(it.why), "count": it.files, "path": json_text(compared.first_of(it))} for it in reasons]


def event_json(compared: Compared, event: Event) -> Dict[str, object]:
    return {"kind": event.kind, "users": texts(shown_users(compared, event)), "more": event.more, "less": event.less,
            "count": event.files, "pairs": event.pairs, "gained": REQUESTS[event.gained], "lost": REQUESTS[event.lost],
            "path": json_text(compared.first_of(event)), "reasons": reasons_json(compared, event.reasons)}


def row_json(compared: Compared, row: ChangeRow) -> Dict[str, object]:
    return {"before": row.old, "after": row.new, "users": texts(shown_users(compared, row)), "count": row.files,
            "path": json_text(compared.first_of(row)), "reasons": reasons_json(compared, row.reasons)}


def object_of(given: argparse.Namespace, compared: Compared) -> Dict[str, object]:
    """The object of --json: its snapshot is the later one."""
    people = compared.people
    return {
        **head_of(given, compared.new.folder, compared.new.about), "before": fields_of(compared.old.folder, compared.old.about),
        "folders": texts(compared.folders, compared.name_of),
        "answered_by": compared.by,
        "events": [event_json(compared, it) for it in compared.events],
        "changes": [row_json(compared, row) for row in compared.rows],
        "left_out": texts(compared.left_out),
        "files": {"changed": compared.files.changed, "new": compared.files.made, "removed": compared.files.removed,
                  "moved": [{"from": json_text(compared.name_of(it.old)), "to": json_text(compared.name_of(it.new))}
                            for it in compared.moved]},
        "users": {"new": texts(people.made, write_user), "removed": texts(people.removed, write_user),
                  "other_id": texts(people.renumbered, write_user)},
        "memberships": {"new": people.joined, "removed": people.left},
    }


# --- warnings

MAY = b", so what is there may be new or gone for that alone: "
SCOPES: List[Tuple[bytes, Callable[[Meta], List[bytes]]]] = [
    (b"recorded in %s alone" + MAY, lambda about: about.folders),
    (b"left out of %s alone by --exclude" + MAY, lambda about: about.excludes),
    (b"left out of %s alone as another file system" + MAY, lambda about: about.mounts),
]
NOT_READ = b"warning: %s lacks what could not be read (unread %s in its meta)" + MAY[:-2]


def scope_warnings(text: bytes, states: Tuple[State, State], names: Callable[[Meta], List[bytes]]) -> Iterator[bytes]:
    """The names that one of two snapshots has alone, in its meta; of globs where they left something out."""
    for state, other in (states, states[::-1]):
        if names(state.about) == state.about.excludes and state.about.numbers.get(EXCLUDED) == b"0":
            continue
        tops = [it.rstrip(b"/") for it in names(other.about)]
        only = sorted(name for name in set(names(state.about)) if not is_at_or_below(name, tops))
        if only:
            shown = b", ".join(only[:MOST_FOLDERS]) + b" .." * (len(only) > MOST_FOLDERS)
            yield b"warning: " + text % state.folder + shown


def unread_warnings(states: Tuple[State, State]) -> Iterator[bytes]:
    """What only one of two snapshots could read."""
    unread = [state.about.numbers.get(UNREAD, b"0") for state in states]
    for state, count in zip(states, unread):
        if count != b"0" and unread[0] != unread[1]:
            yield NOT_READ % (state.folder, count)


def part_warnings(states: Tuple[State, State]) -> Iterator[bytes]:
    """What is a part of several snapshots."""
    for state in states:
        if PART in state.about.numbers:
            yield (b"warning: " + state.folder + b": is part " + state.about.numbers[PART]
                   + b", so files of the other parts are not looked at")


def warnings(old: State, new: State) -> List[bytes]:
    """What is likely not meant: snapshots in the wrong order, of other folders, or parts of several ones."""
    found = []
    if old.about.date and new.about.date and new.about.date < old.about.date:
        found.append(b"warning: the second snapshot is older than the first one: " + new.named())
    if old.about.folders and new.about.folders:
        for text, names in SCOPES:
            found += scope_warnings(text, (old, new), names)
    found += [*unread_warnings((old, new)), *part_warnings((old, new))]
    return found
