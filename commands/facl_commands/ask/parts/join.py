"""How the answers of several snapshots to a line are joined, those of files in path order.

A line is taken where the snapshots agree on it. One that is not taken, since its files lie in several snapshots, may have
been done by some of them: then all answer the script again, without it.
"""
from __future__ import annotations

import heapq
import itertools
from typing import Dict, Iterable, Iterator, List, NamedTuple, Optional, Set, Tuple

from ...base.names import path_order, read_name, read_path, shown_path, sorting_key, write_name
from ...base.user_tools import ADD_USER, REMOVE_USER
from ...model.people import People
from ...model.records import name_of, path_of
from ...program.protocol import FILE_HEAD, NO_FILE, PROGRAM, is_refused, lacking_file, lacks_file, message_of
from ...program.scripts import Unit
from ...program.session import OutputSlice
from ...program.tools import (
    ALL, BY_FOLDER, CHANGES_OF_PEOPLE, COUNTING, DEEP, EDITS, FIRST_FILES, LOOK, OF_RECORDS, TEST, options_that, path_in, split,
)
from .runs import Answered, Part
from .worker import is_counting

SEVERAL = b"its files lie in several snapshots; name those of one in a line of its own"
Item = Tuple[bytes, int, bytes]  # A path, the number of its snapshot, and what is printed for it.
Key = Tuple[bytes, ...]  # The fields of a line that counts but for COUNT and PATH; the user is the last.
Sums = Dict[Key, Tuple[int, bytes]]  # How many files, and the name of the first.


class Joined(NamedTuple):
    """What a line prints, and its messages."""

    output: Iterator[bytes]
    messages: List[bytes]
    is_dropped: bool = False  # Whether the script is answered again without it.


def refused(unit: Unit, text: bytes, is_dropped: bool = False) -> Joined:
    return Joined(iter(()), [message_of(unit.tool() or PROGRAM, text)], is_dropped)


def join_accepted(unit: Unit, accepted: List[Answered]) -> Joined:
    """What the snapshots that accepted a line printed."""
    outputs = [it.output for it in accepted]
    streams = [items_of(unit, place, output) for place, output in enumerate(outputs)]
    messages = accepted[0].header.messages
    if None not in streams:
        return Joined(merged(filter(None, streams)), messages)
    if unit.is_of(*OF_RECORDS) and len(outputs) > 1 and is_recursive(unit):
        return refused(unit, b"a listing of several snapshots is joined by its headers; omit -c")
    return Joined(outputs[0].pieces(), messages)


def first_files(unit: Unit, joined: Joined) -> Joined:
    """The first of the files that several snapshots list, as many as the line says."""
    return joined._replace(output=itertools.islice(joined.output, int(split(unit.words).value(FIRST_FILES))))


def refusal_of(unit: Unit, messages: List[List[bytes]], lacks: List[List[bytes]]) -> List[bytes]:
    """The message of a refused line: one that is not about a missing file, or one about the first file that no snapshot has."""
    for its in messages:
        if is_refused(its) and not lacks_file(its):
            return its
    missing = (name for name in lacks[0] if all(name in names for names in lacks))
    return [message_of(unit.tool(), shown_path(read_path(write_name(name))) + b": " + NO_FILE) for name in missing][:1]


def join_counts(unit: Unit, answers: List[Answered], users: Users, fault: bytes) -> Joined:
    """The sums of the snapshots that have some files of a line, none where there is a fault; or the first of these files."""
    headers = [it.header for it in answers]
    refusal = refusal_of(unit, [it.messages for it in headers], [it.lacks for it in headers])
    accepted = [it for it in answers if not it.is_refused()]
    if refusal or not accepted:
        return Joined(iter(()), refusal or headers[0].messages)
    if split(unit.words).has(BY_FOLDER) and len(accepted) > 1:
        return refused(unit, b"the folders of one snapshot are counted; ask it alone, or omit --depth")
    if not is_counting(unit):
        return first_files(unit, join_accepted(unit, accepted))
    if fault and len(accepted) > 1:
        return refused(unit, fault)
    sums = sums_of(unit, [(it.output.lines(), it.header.shared) for it in accepted])
    return Joined(iter(lines_of_sums(unit, sums, users)), [])


def join_all(units: List[Unit], parts: List[Part], dropped: Dict[int, Joined], fault: bytes) -> Dict[int, Joined]:
    """The answers to all lines, of which some are dropped."""
    users = Users(dict(it for part in parts for it in part.head.users.items()),
                  dict(it for part in parts for it in part.head.groups.items()))
    joined: Dict[int, Joined] = {}
    for unit in units:
        if unit.number in dropped:  # Nobody has answered it.
            joined[unit.number] = dropped[unit.number]
        else:
            answers = [part.answers[unit.number] for part in parts]
            joined[unit.number] = join_counts(unit, answers, users, fault) if unit.is_of(*COUNTING) else join(unit, answers)
        if not is_refused(joined[unit.number].messages):
            users.follow(unit)
    return joined


def join(unit: Unit, answers: List[Answered]) -> Joined:
    """A line's answer by all snapshots."""
    accepted = [it for it in answers if not it.is_refused()]
    others = [it.header.messages for it in answers if it.is_refused() and not lacks_file(it.header.messages)]
    if not accepted:
        return join_refusals(unit, answers)
    if is_edit(unit):
        # Each snapshot that has a file of an edit has to have all, and to take it too; and what goes to all files below
        # has to be in one snapshot.
        concerned = [it for it in answers if it.header.has]
        is_several = len(concerned) > 1 and is_recursive(unit)
        if is_several or any(it.header.lacks or it.is_refused() for it in concerned):
            return refused(unit, SEVERAL, is_dropped=True)
    elif unit.is_of(*CHANGES_OF_PEOPLE) and len(accepted) < len(answers):
        return refused(unit, b"the snapshots have other users or groups", is_dropped=True)
    elif others:
        return Joined(iter(()), others[0])
    return join_accepted(unit, accepted)


def is_edit(unit: Unit) -> bool:
    """Whether a line changes files. A word --test is taken for the option anywhere in it."""
    is_look = TEST in unit.words or split(unit.words).has(*options_that(unit.tool(), LOOK))
    return unit.is_of(*EDITS) and not is_look


def is_recursive(unit: Unit) -> bool:
    """Whether a line goes to all files below."""
    return split(unit.words).has(*options_that(unit.tool(), DEEP))


def join_refusals(unit: Unit, answers: List[Answered]) -> Joined:
    """The message of a line that no snapshot accepts: that of another fault, else one about a file that no snapshot has."""
    messages = [it.header.messages for it in answers]
    others = [it for it in messages if not lacks_file(it)]
    known = {read_path(write_name(name)) for it in answers for name in it.header.has}
    missing = {read_path(lacking_file(it[0])): it for it in reversed(messages) if lacks_file(it)}
    found = others or [missing[path] for path in sorted(set(missing) - known, key=path_order)]
    return Joined(iter(()), found[0]) if found else refused(unit, SEVERAL)


def without(script: bytes, units: List[Unit], dropped: Set[int]) -> bytes:
    """The script with comments in the place of some of its lines."""
    lines = script.split(b"\n")
    for unit in units:
        if unit.number in dropped:
            lines[unit.number - 1 : unit.number - 1 + len(unit.lines)] = [b"#"] * len(unit.lines)
    return b"\n".join(lines)


# --- what several snapshots print of files


def items_of(unit: Unit, place: int, output: OutputSlice) -> Optional[Iterator[Item]]:
    """What a line printed, file by file; None where it names no files."""
    tool = unit.form()
    if tool in OF_RECORDS:
        start = output._replace(end=min(output.end, output.start + len(FILE_HEAD))).read()
        if start in (b"", FILE_HEAD):
            return ((sorting_key(path_of(name_of(it))), place, it + b"\n\n") for it in output.records())
    elif tool in ALL and "PATH" in ALL[tool].prints:
        return ((sorting_key(path_of(path_in(tool, line))), place, line + b"\n") for line in output.lines())
    return None


def merged(streams: Iterable[Iterator[Item]]) -> Iterator[bytes]:
    """The files in path order; of one that several snapshots have, what the first of them printed."""
    last: Optional[Tuple[bytes, int]] = None
    for key, place, text in heapq.merge(*streams, key=lambda item: item[:2]):
        if last is not None and last[0] == key and last[1] != place:
            continue
        last = (key, place)
        yield text


# --- sums of what several snapshots count


def fields_of(unit: Unit) -> List[str]:
    """The fields of the lines of an answer, of which PATH is the last."""
    return ALL[unit.tool()].prints.split()


def sums_of(unit: Unit, answers: List[Tuple[Iterable[bytes], List[bytes]]]) -> Sums:
    """The sums of what snapshots answer: of each its lines, and the files that others may have, with their keys. For a
    user a file is counted by the first snapshot that counts it."""
    fields = fields_of(unit)
    place = fields.index("COUNT")
    found: Sums = {}
    seen: Set[Tuple[bytes, bytes]] = set()
    for lines, shared in answers:
        for line in lines:
            *words, name = line.split(b" ", len(fields) - 1)
            key = (*words[:place], *words[place + 1 :])
            count, first = found.get(key, (0, name))
            found[key] = count + int(words[place]), min(first, name, key=lambda it: sorting_key(path_of(it)))
        for path, *keys in (it.split(b"\0") for it in shared):
            for key in (tuple(it.split(b" ")) for it in keys):
                found[key] = found[key][0] - ((path, key[-1]) in seen), found[key][1]
                seen.add((path, key[-1]))
    return {key: it for key, it in found.items() if it[0]}


class Users(People):
    """The users in their order: those who are there, and then those who went."""

    def __init__(self, users: Dict[str, int], groups: Dict[str, int]) -> None:
        super().__init__(*(b"".join(b"%s:x:%d:%s\n" % (name.encode("latin-1"), number, rest) for name, number in ids.items())
                           for ids, rest in ((users, b"0:::"), (groups, b""))))
        self.loaded = [user.name for user in self.users]

    def follow(self, unit: Unit) -> None:
        """An accepted line may add or remove one."""
        if unit.is_of(ADD_USER, REMOVE_USER):
            self.change(unit.words)

    def places(self) -> Dict[bytes, int]:
        names = dict.fromkeys([*(user.name for user in self.users), *self.loaded])
        return {name: place for place, name in enumerate(names)}


def lines_of_sums(unit: Unit, sums: Sums, users: Users) -> List[bytes]:
    """The lines in their order: by users, and then by what is before COUNT."""
    place, places = fields_of(unit).index("COUNT"), users.places()
    keys = sorted(sums, key=lambda key: (places.get(read_name(key[-1]), len(places)), key))
    return [b" ".join([*key[:place], b"%d" % sums[key][0], *key[place:], sums[key][1]]) + b"\n" for key in keys]
