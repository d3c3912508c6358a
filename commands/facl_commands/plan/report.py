"""What facl-plan prints of the edits: who may do what otherwise than before, for a person and as JSON."""
from __future__ import annotations

import argparse
import itertools
import json
import os
from functools import lru_cache
from typing import Dict, Iterable, Iterator, List, NamedTuple, Optional, Set

from .. import VERSION
from ..base.messages import counted
from ..base.names import file_name, json_name, json_text, shell_word, shown
from ..base.programs import judge_word
from ..base.user_tools import PeopleChange
from ..model import choice, meta, rights
from ..model.everybody import SHOWN, beside
from ..model.records import ChangedPaths, Files
from ..model.rights import Gain
from ..model.sources import Source
from ..program.answering import below_heading
from . import chown, no_gain
from .replay import Asked, Message

AT_ONCE = 100_000  # Parts of JSON that are written at once.


class Outcome(NamedTuple):
    """What the program made of the scripts."""

    old: Files
    new: Files
    kinds: List[Gain]  # The kinds of change, by users in their order.
    left_out: Set[bytes]  # Users of whom there would be more, but that they are left out.
    rights: rights.RightsChanges  # Of each file, with --full.
    no_gain: List[no_gain.NoGain]
    users: List[bytes]
    asked: List[Asked]
    messages: List[Message]
    commands: List[PeopleChange]  # Of users and memberships.
    left: List[chown.Left]  # Users who are removed, with what they leave.
    is_whole: bool  # Whether names start at the root of the file system.
    about: meta.Meta  # What the snapshot is of.

    def name_of(self, path: bytes) -> bytes:
        """The name of a file as a person reads it: a backslash is an escape too, so two files have two names."""
        return file_name(path, self.is_whole)

    def name_of_shown(self, path: bytes) -> bytes:
        """The same of a path as the program prints it."""
        return b"/" + (b"" if path == b"." else path) if self.is_whole else path

    def refusals(self) -> List[Message]:
        return [message for message in self.messages if not message.is_warning]


# --- for a person


def answers_text(asked: List[Asked]) -> bytes:
    """Each answer below its line."""
    return b"".join(piece for unit, output in asked for piece in below_heading(unit, output.split(b"\n")[:-1], []))


@lru_cache(maxsize=None)
def head_of(it: rights.Difference) -> bytes:
    """What a line of --full has before the name of the file."""
    return b"%s\t%s\t->\t%s\t" % (it.user, it.old.encode(), it.new.encode())


def full_lines(outcome: Outcome) -> Iterator[bytes]:
    """The changes of each file, for scripts; as a person reads them where they go to a terminal."""
    is_terminal = os.isatty(1)
    for file, group in outcome.rights.files:
        name = outcome.name_of_shown(file)
        lines = [head_of(it) + name for it in group.differences]
        yield b"".join([line + b"\n" for line in (map(shown, lines) if is_terminal else lines)])


def short_lines(outcome: Outcome, changes: List[Gain]) -> Iterator[bytes]:
    """A line for each kind of change, and those of no gain after the user's changes."""
    rows: Dict[bytes, List[bytes]] = {user: [] for user in outcome.users}
    lines = [(user, b"%s -> %s" % (old.encode(), new.encode()), count, b"first: " + outcome.name_of_shown(first))
             for user, old, new, count, first in changes]
    lines += [(it.user, b"no gain", it.files, it.text()) for it in outcome.no_gain]
    width = max((len(user) for user, *_ in lines), default=0)
    for user, what, count, rest in lines:
        rows[user].append(b"  ".join([user.ljust(width), what.ljust(13), counted(count, "file").ljust(8), rest]))
    return itertools.chain.from_iterable(rows.values())


def summary(changes: ChangedPaths, commands: List[bytes], outcome: Outcome) -> bytes:
    parts = [counted(len(changes.changed), "file changes", "files change") + b" owner, group, flags or ACL"]
    if not outcome.is_whole and (changes.made or changes.removed):
        parts.append(counted(len(changes.made), "file is", "files are") + b" made, %d removed" % len(changes.removed))
    if commands:
        parts.append(counted(len(commands), "command has to be run", "commands have to be run") + b" by hand")
    if not outcome.kinds:
        parts.append(b"nobody may do anything else than before")
    if outcome.left_out:
        names = b" and ".join(sorted(outcome.left_out))
        parts.append(names + b" not shown, to whom Linux grants nearly everything; --with-root shows " + names)
    return b"; ".join(parts)


def text_report(given: argparse.Namespace, source: Source, outcome: Outcome, changes: ChangedPaths, commands: List[bytes],
                plan: Optional[bytes], _stuck: Dict[bytes, bytes]) -> Iterator[bytes]:
    if outcome.about is not meta.UNKNOWN:
        yield shown(meta.named(source.shown, outcome.about)) + b"\n"
    if given.full:
        yield from full_lines(outcome)
    lines = [*short_lines(outcome, [] if given.full else outcome.kinds)]
    if any(it.user == SHOWN for it in outcome.kinds):
        lines += beside(outcome.about)
    lines.append(summary(changes, commands, outcome))
    if plan is not None:  # What is still to be done by hand facl-apply says.
        name = b"./" * plan.startswith(b"-") + plan
        step = b"facl apply " + shell_word(name) if changes.changed else b"sh " + shell_word(name + b"/by_hand")
        lines.append(b"wrote " + plan + b"; next: " + step)
    lines += [b"by hand: " + command for command in commands]
    lines += [note for left in outcome.left for note in chown.notes(left, outcome.name_of)]
    yield from (shown(line) + b"\n" for line in lines)


# --- as JSON


def texts(found: Iterable[bytes]) -> List[str]:
    return list(map(json_text, found))


def rights_json(outcome: Outcome, is_full: bool) -> List[Dict[str, object]]:
    """The changes by user and kind, or those of each file."""
    name_of = outcome.name_of_shown
    if is_full:
        users = {it.user: json_text(it.user) for group in outcome.rights.groups for it in group.differences}
        return [{"user": users[it.user], "from": it.old, "to": it.new, "path": name}
                for file, group in outcome.rights.files for name in [json_text(name_of(file))]
                for it in group.differences]
    return [{"user": json_text(user), "from": old, "to": new, "count": count, "path": json_text(name_of(first))}
            for user, old, new, count, first in outcome.kinds]


def message_json(it: Message) -> Dict[str, object]:
    found: Dict[str, object] = {"script": json_text(it.unit.script), "line": it.unit.number, "message": json_text(it.text)}
    return found if it.is_warning else {**found, "cause": texts(it.cause())}


def json_report(given: argparse.Namespace, source: Source, outcome: Outcome, changes: ChangedPaths, commands: List[bytes],
                plan: Optional[bytes], stuck: Dict[bytes, bytes]) -> Iterator[bytes]:
    name_of = outcome.name_of
    report: Dict[str, object] = {
        "schema": "facl-plan/1", "version": VERSION, "judge": judge_word(given),
        **choice.head_of(given, source.shown, outcome.about),
        "plan": None if plan is None else json_name(plan),
        "changes": rights_json(outcome, given.full),
        "no_gain": [{"user": json_text(it.user), "count": it.files, "path": json_text(it.directory),
                     "entries": texts(map(no_gain.shown_entry, it.entries)), "edit": json_text(it.edit),
                     "closed_below": it.closed} for it in outcome.no_gain],
        "left_out": texts(sorted(outcome.left_out)),
        "changed": texts(map(name_of, changes.changed)),
        "made": texts(map(name_of, changes.made)),
        "removed": texts(map(name_of, changes.removed)),
        "stuck": [{"path": json_text(name_of(path)), "why": json_text(why)} for path, why in stuck.items()],
        "by_hand": texts(commands),
        "left_behind": [{"user": json_text(left.name), "uid": left.uid, "owned": len(left.owned), "named": len(left.named),
                         "path": json_text(name_of((left.owned or left.named)[0]))} for left in outcome.left],
        "answers": [{"script": json_text(unit.script), "line": unit.number, "question": json_text(unit.lines[0]),
                     "answer": json_text(output)} for unit, output in outcome.asked],
        "refused": [message_json(it) for it in outcome.refusals()],
        "warnings": [message_json(it) for it in outcome.messages if it.is_warning],
    }
    parts = json.JSONEncoder(indent=2).iterencode(report)
    for first in parts:
        yield (first + "".join(itertools.islice(parts, AT_ONCE))).encode()
    yield b"\n"
