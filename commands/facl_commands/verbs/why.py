"""facl why: the entries that decide what a user may do with a file, along its path, and the answer in one sentence."""
from __future__ import annotations

import argparse
import os
from typing import Dict, Iterator, List, NamedTuple, Optional, Set

from ..base import beside
from ..base.accounts import SUPERUSER
from ..base.messages import Command
from ..base.names import json_text, path_word, shown
from ..base.programs import find_program
from ..base.tables import Column, Table, paged, write_json, write_table
from ..model import choice, overview, split_tree
from ..model.entries import CUT, OWNER_KEY, Entries, entries_of
from ..model.everybody import world_of
from ..model.marks import NO_CHANGE, NO_WRITING, about
from ..model.records import asks_as_directory, body_of, name_of, path_of
from ..model.rules_of_lists import grants_search
from ..model.sources import Source
from ..program.protocol import CAN
from ..questions.who.asking import Asker

SCHEMA = "facl-why/1"
SOMETHING, NOTHING = 0, 1
CLOSED = b"no search permission here: nothing below is reached"
COLUMNS = (Column("FILE"), Column("ENTRY"), Column("NOTE"))
WORDS = {"r": b"read", "w": b"write", "x": b"execute"}
IN_FOLDER = {"r": b"list", "w": b"write in", "x": b"enter"}


class Step(NamedTuple):
    """A file on the path, with the entries that decide there."""

    name: bytes
    entries: Entries
    is_closed: bool  # Whether it is the first directory without search permission for the user.
    kinds: List[bytes]  # Of its marks.
    marks: List[bytes]  # What Linux looks at beside its ACL, and other names of FILE.

    def texts(self) -> List[bytes]:
        return [it.text(CUT) for it in self.entries]

    def owned(self, user: bytes) -> bytes:
        """What an owner can do besides: chmod(2) asks for no permission on the file."""
        is_owned = [it.key for it in self.entries[:1]] == [OWNER_KEY] and not {*self.kinds} & {*NO_CHANGE}
        return b"; as the owner of %s %s can change its ACL" % (self.name, user) if is_owned else b""

    def rows(self) -> Iterator[List[bytes]]:
        note = b"; ".join([*[CLOSED] * self.is_closed, *self.marks])
        for place, text in enumerate(self.texts() or [b"none"]):
            yield [self.name, text, note if place == 0 else b""]


class WhyAnswer(NamedTuple):
    """Why a user may do something with a file, or may not."""

    user: bytes
    steps: List[Step]  # From the root down; the file is the last one.
    granted: List[Set[str]]  # The greatest sets of letters that are granted together.
    is_directory: bool
    is_root: bool  # Whether the user has the id 0.

    def closed(self) -> Optional[Step]:
        return next((it for it in self.steps if it.is_closed), None)

    def letters(self) -> str:
        return "".join(letter for letter in "rwx" if any(letter in its for its in self.granted))

    def barred(self) -> Dict[str, bytes]:
        """The letters that grant nobody anything on such a file, each with the kind of mark by which that is so."""
        kinds = self.steps[-1].kinds
        found = {"w": kind for kind in kinds if kind in NO_WRITING}
        return {**found, "x": beside.NOEXEC} if beside.NOEXEC in kinds and not self.is_directory else found

    def of_use(self) -> str:
        """The letters without those that are barred, and without w of a directory that is not granted with x: nothing can be made or
        removed there."""
        can_write = not self.is_directory or any({"w", "x"} <= its for its in self.granted)
        barred = {*self.barred(), *("w" * (not can_write))}
        return "".join(it for it in self.letters() if it not in barred)

    def ends(self) -> Iterator[bytes]:
        """What follows the rights and their entries."""
        words = IN_FOLDER if self.is_directory else WORDS
        for letter, kind in self.barred().items():
            if letter in self.letters():
                yield b"; nobody can %s %s, since it is %s" % (words[letter], self.steps[-1].name, about(kind))
        if not {*("rwx" if self.is_directory else "rw")} <= {*self.letters()}:
            yield self.steps[-1].owned(self.user)

    def sentence(self) -> bytes:
        file, closed = self.steps[-1], self.closed()
        if closed is not None:
            return b"%s can do nothing with %s: %s gives no search permission (%s)" % (
                self.user, file.name, closed.name, b", ".join(closed.texts()) or b"no entry") + closed.owned(self.user)
        return self.what() + b"".join(self.ends())

    def what(self) -> bytes:
        """What the user can do with the file, and by which entries."""
        file, letters = self.steps[-1], self.of_use()
        by = b", ".join(file.texts()) or b"no entry"
        if not letters:
            is_void = {*self.letters()} - {*self.barred()}
            return b"%s can do nothing with %s, by %s" % (self.user, file.name, by) + b" (w is of no use without x)" * bool(is_void)
        words = [(IN_FOLDER if self.is_directory else WORDS)[letter] for letter in letters]
        together = any(set(letters) <= its for its in self.granted)
        joined = b", ".join(words[:-1]) + (b" and " if together else b" or ") * (len(words) > 1) + words[-1]
        return b"%s can %s %s%s, by %s" % (self.user, joined, file.name, b"" if together else b", but not at once", by)


def part_with(source: Source, word: bytes) -> Source:
    """The part that has a file; the snapshot itself where it has no parts."""
    parts = split_tree.parts_in(source.folder)
    found = [part for part in parts if split_tree.recorded_in([part], choice.paths_of(word))] or parts
    return source._replace(folder=found[0]) if found else source


def steps_of(asker: Asker, user: bytes, path: bytes) -> Iterator[Step]:
    line = asker.line(b"why", user, path_word(path))
    is_open = True
    for record in asker.session.ask_accepted(line).records():
        if record:
            its, entries = path_of(name_of(record)), entries_of(body_of(record) + b"\n")
            closes = its != path and not grants_search(entries)
            other_names = asker.other_names(its) if its == path else []
            yield Step(asker.name_of(its), entries, closes and is_open, asker.marks.of(its), [*asker.marks.texts(its), *other_names])
            is_open = is_open and not closes


def reasons_of(asker: Asker, user: bytes, word: bytes) -> WhyAnswer:
    found = asker.anybody(user)
    path = choice.folder_of(asker.session, word)
    program_word = asker.word_of(found.shown)
    answer = b"".join(asker.lines_of(CAN, program_word, path_word(path))).decode()
    granted = [set(it) - {"-"} for it in answer.split(" ") if it not in ("", "none")]
    steps = [*steps_of(asker, program_word, path)]
    return WhyAnswer(asker.shown(found.shown), steps, granted, asks_as_directory(asker.session, path), found.uid == SUPERUSER)


def fields_of(reasons: WhyAnswer) -> Dict[str, object]:
    closed = reasons.closed()
    return {
        "user": json_text(reasons.user), "path": json_text(reasons.steps[-1].name), "rights": reasons.letters(),
        "closed": None if closed is None else json_text(closed.name), "sentence": json_text(reasons.sentence()),
        "steps": [{"path": json_text(it.name), "entries": [*map(json_text, it.texts())],
                   "marks": [*map(json_text, it.marks)]} for it in reasons.steps]}


def write(command: Command, given: argparse.Namespace, reasons: WhyAnswer) -> None:
    if given.json:
        head = choice.head_of(given, given.stored.folder, given.stored.about)
        write_json(command, given, SCHEMA, {**head, **fields_of(reasons)})
        return
    with paged(command, not given.no_pager):
        write_table(command, given, Table(COLUMNS, [row for step in reasons.steps for row in step.rows()]))
        if not given.tsv:
            command.write(shown(reasons.sentence()) + b"\n")


def body(command: Command, given: argparse.Namespace) -> int:
    given.file_alone, given.lists_alone = given.alone, True
    word = os.fsencode(given.file)
    source = part_with(Source(given.stored.folder, given.stored.name, False), word)
    overview.say_notices(command, source, given.acl5, is_alone=False)
    with world_of(find_program(given), source) as world:
        reasons = reasons_of(Asker(world, given), os.fsencode(given.user), word)
    write(command, given, reasons)
    if reasons.is_root:
        command.say(reasons.user + b": has the uid 0, to which the kernel grants nearly everything; this is what ACLs grant it")
    return SOMETHING if reasons.of_use() else NOTHING
