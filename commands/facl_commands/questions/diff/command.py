"""facl-diff: who gained and lost what between two snapshots."""
from __future__ import annotations

import argparse
import os
from typing import Dict, Iterable, List, NamedTuple, Optional, Set, Tuple

from ...base import folders, tables
from ...base.messages import Command, Failure, parser_of
from ...base.names import at_or_below, file_name, highest, is_at_or_below, write_user
from ...base.new_file import NewFile
from ...base.programs import add_program, find_program
from ...model import choice, overview, sources
from ...model.everybody import Everybody
from ...model.marks import alone, differing, marks_of
from ...model.people import rows_of as rows_of_text
from ...model.records import blocks_in, name_of, path_of, records_in
from ...model.rights import Gain, ask_gains
from ...program.session import OutputSlice, Session
from . import report
from .causes import Causes
from .edits import CannotLead, Edits, group_text
from .events import Explained, explain, unexplained
from .labels import JudgedUsers, LabelDifferences, TooMany
from .moved import NO_MOVES, Moved, find_moved, moves_of
from .reasons import RecordReasons, Time
from .report import Compared
from .rows import AllUsers, rows_of
from .shapes import Shapes, records_of_folders
from .states import (
    Pair, State, counts_of, everybody_of, is_same_text, listing_of_all, members_of, people_counts, read_state, session_of, tops_of,
    walk,
)

SAME, DIFFERS = 0, 1
BY_GAINS, BY_INDEX = "gains", "index"
HELP = """\
Says who gained and lost what between two snapshots by facl-snapshot, event by event, the worst first: what everybody gained
by another owner, group or ACL; gains of write; other gains; who joined and left groups; users who came and went; files
that moved, that are new, and that are gone; and losses. Of each of these what is about most files and people is first:

  WHO            the users; `everybody (N)` are all N who are looked at, and `everybody else`, whom no list names
  WHAT           what happened; of several things on how many files each
  MORE, GAINED   on how many files somebody may do more than before, and what
  LESS, LOST     and less
  FIRST          the first of these files

With --full it has a row for each change of rights in their place, as `r-- rw-`. A right counts where the user can get to
the file: with search on each directory above. Without FOLDER all files are looked at. Users who are no people are left
out, and root. A folder of the parts that facl-snapshot --split makes is compared as one snapshot, also with one that has
no parts.
"""
STATUS = """\
The exit status is 0 if nobody of those who are looked at gained or lost anything, 1 if somebody did or another file is
immutable, append-only or mounted read-only, and 2 if the words or the snapshots cannot be used.
"""


class Differences(NamedTuple):
    """What differs between two snapshots, as far as it is looked at."""

    by: str
    gains: List[Gain]
    pairs: List[Pair]
    people: List[bytes]  # The lines of the edits that change users and groups.
    listing: List[OutputSlice]  # The files after the edits; none where there are no edits.
    parts: Optional[List[JudgedUsers]] = None  # What the program said of each record, where it was asked.


def parse(words: List[str]) -> argparse.Namespace:
    parser = parser_of("facl-diff", HELP, STATUS)
    add_program(parser)
    parser.add_argument("--any-host", action="store_true", help="also snapshots of two servers")
    parser.add_argument("--full", action="store_true", help="each change of rights, with those before and after")
    parser.add_argument("--page", metavar="FILE",
                        help="also write a page to look at, as facl-report does, to a new file")
    parser.add_argument("before", metavar="BEFORE", help="a snapshot, or the folder of the parts of one")
    parser.add_argument("after", metavar="AFTER", help="a later one")
    choice.add_choice(parser)
    tables.add_output(parser)
    given = parser.parse_args(words)
    if given.page is not None and given.folders:
        parser.error("--page shows all files: leave out the FOLDERs")
    return given


def check_hosts(old: State, new: State, given: argparse.Namespace) -> None:
    hosts = old.about.host, new.about.host
    if all(hosts) and hosts[0] != hosts[1] and not given.any_host:
        raise Failure(b"%s is of %s, and %s of %s: --any-host compares them" % (old.folder, hosts[0], new.folder,
                                                                             hosts[1]))


def folders_of(sessions: Tuple[Session, Session], words: Iterable[str]) -> List[bytes]:
    """The paths of words; each is recorded before or after."""
    found = []
    for word in map(os.fsencode, words):
        choice.refuse_empty(word)
        paths = [path for path in choice.paths_of(word) if any(choice.is_recorded(it, path) for it in sessions)]
        found.append(paths[0] if paths else choice.folder_of(sessions[1], word))
    return found


def folders_of_both(sessions: Tuple[Session, Session], states: Tuple[State, State]) -> List[bytes]:
    """Of two snapshots of which one is an import the folders that both have; none where these are all, or there are none."""
    if not any(state.is_import() for state in states):
        return []
    old, new = (sources.find_tops(session, state.folder) for session, state in zip(sessions, states))
    both = highest([*at_or_below(old, new), *at_or_below(new, old)])
    return both if set(both) != {*old, *new} else []


class Comparison:
    """Two snapshots by their listings, with everybody else among the users of both."""

    def __init__(self, program: str, states: Tuple[State, State], everybody: Everybody, listings: List[List[OutputSlice]],
                 given: argparse.Namespace) -> None:
        self.program, self.plain, self.everybody, self.listings, self.given = program, states, everybody, listings, given
        self.states = states[0].with_everybody(everybody), states[1].with_everybody(everybody)
        self.is_alone: bool = given.file_alone
        self.folders: List[bytes] = []  # Those that are looked at; none where all files are.
        self.is_whole = False  # Whether paths start at the root of the file system.
        self.shapes = Shapes([])
        self.moved: List[Moved] = []
        self.moves = NO_MOVES

    def read(self) -> List[Pair]:
        """What differs in the files that are looked at, and the directories above them; all others are counted."""
        folders = self.folders or [b""]
        self.shapes = Shapes(folders, self.states[0].has_people_of(self.states[1]))
        old, new = (records_of_folders(blocks_in(it), folders) for it in self.listings)
        pairs = self.shapes.read(walk(old, new))
        counted = self.counted(pairs)
        self.moved = find_moved(*self.plain, counted)
        self.moves = moves_of(self.moved, counted)
        self.shapes.count_pairs(self.moves.numbers)
        return pairs

    def counted(self, pairs: List[Pair]) -> List[Pair]:
        return [pair for pair in pairs if is_at_or_below(pair.path, self.folders)] if self.folders else pairs

    def answer(self) -> Differences:
        return self.by_labels(self.read())

    def by_labels(self, pairs: List[Pair]) -> Differences:
        labels = LabelDifferences(self.program, self.states, self.shapes, self.is_alone)
        parts = labels.parts()
        return Differences(BY_INDEX, labels.gains(parts), pairs, [], [], parts)

    def compared(self, answered: Differences) -> Compared:
        old, new = self.plain
        chosen = chosen_users(old, new, self.given)
        place = {user: number for number, user in enumerate([self.everybody.name, *chosen])}
        gains = sorted((it for it in answered.gains if it.user in place), key=lambda it: place[it.user])
        explained = self.explained(answered.parts, gains, place)
        left_out = list(dict.fromkeys(it.user for it in answered.gains if it.user not in place))
        everybody = AllUsers((old, new), set(chosen), self.everybody)
        return Compared(old, new, self.folders, self.is_whole, answered.by, explained.events,
                        rows_of(gains, explained.of, everybody), everybody, left_out, counts_of(self.counted(answered.pairs)),
                        people_counts(members_of(old.people()), members_of(new.people())), self.moved)

    def explained(self, parts: Optional[List[JudgedUsers]], gains: List[Gain], order: Dict[bytes, int]) -> Explained:
        """What happened, to which these gains are due."""
        wanted = frozenset(it.user for it in gains)
        if not wanted:
            return Explained([], {})
        try:
            parts = parts or LabelDifferences(self.program, self.states, self.shapes, self.is_alone, wanted).parts()
        except TooMany:
            return unexplained(gains, self.everybody.name)
        reasons = RecordReasons((Time(self.program, self.states[0]), Time(self.program, self.states[1])), self.shapes)
        causes = Causes(self.shapes, reasons, self.moves, self.is_alone, lambda path: file_name(path, self.is_whole))
        return explain(parts, causes, order, self.everybody.name)


class OfSessions(Comparison):
    """Two snapshots, each with a session."""

    def __init__(self, program: str, states: Tuple[State, State], everybody: Everybody, sessions: Tuple[Session, Session],
                 given: argparse.Namespace) -> None:
        super().__init__(program, states, everybody, [sources.list_below(session, sources.find_tops(session, state.folder))
                                                      for session, state in zip(sessions, states)], given)
        self.sessions = sessions
        self.tops = tops_of((sessions[0], states[0]), (sessions[1], states[1]))
        self.folders = folders_of(sessions, given.folders) or folders_of_both(sessions, states)
        self.is_whole = self.tops == [b""]

    def answer(self) -> Differences:
        pairs = self.read()
        if self.folders and self.given.page is None:
            return self.by_labels(pairs)
        try:
            edited = self.by_edits(pairs)
            return self.by_labels(pairs)._replace(people=edited.people, listing=edited.listing) if self.folders else edited
        except CannotLead as error:
            if self.given.page is not None:
                raise Failure(b"no page is made, as no edits lead from one snapshot to the other: "
                              + error.text) from error
            return self.by_labels(pairs)

    def by_edits(self, pairs: List[Pair]) -> Differences:
        edits = Edits(self.states[0], self.states[1], pairs)
        edits.answer(self.sessions[0])
        listing = sources.list_below(self.sessions[0], self.tops)
        if not is_same_text(listing, self.listings[1]):
            raise CannotLead(b"the files are others then")
        return Differences(BY_GAINS, ask_gains(self.sessions[0], self.is_alone), pairs, edits.people, listing)

    def page(self, answered: Differences, compared: Compared) -> Optional[bytes]:
        if self.given.page is None:
            return None
        from .page import page_of  # Few runs need it.

        listings = [self.listings[0], answered.listing]
        return page_of(self.program, compared, group_text(*self.plain), answered.people, listings, self.given)


class OfParts(Comparison):
    """Two snapshots of which at least one has parts. One session has no room for the files of all of them."""

    def __init__(self, program: str, states: Tuple[State, State], everybody: Everybody, given: argparse.Namespace) -> None:
        if given.page is not None:
            raise Failure(b"--page: a snapshot in parts has none")
        super().__init__(program, states, everybody, [[listing_of_all(program, state)] for state in states], given)
        firsts = [next(records_in(it), b"") for it in self.listings]
        self.is_whole = b"" in [path_of(name_of(record)) for record in firsts if record]
        self.folders = choice.folders_in(given.folders, self.recorded_of)

    def close(self) -> None:
        for listing in self.listings:
            listing[0].file.close()

    def recorded_of(self, paths: Set[bytes]) -> Set[bytes]:
        """Those of some paths that are there before or after."""
        return {path for it in self.listings for path in (path_of(name_of(record)) for record in records_in(it)) if path in paths}


def chosen_users(old: State, new: State, given: argparse.Namespace) -> List[bytes]:
    """Those who are looked at, as the program prints their names, by their id before or after."""
    found = [*choice.kept(names_of(old), given, old.passwd), *choice.kept(names_of(new), given, new.passwd)]
    return list(dict.fromkeys(found))


def names_of(state: State) -> List[bytes]:
    return [write_user(row[0]) for row in rows_of_text(state.passwd)]


def compare(command: Command, given: argparse.Namespace) -> Tuple[Compared, Optional[bytes]]:
    """What differs, and the page if `--page` is given."""
    program = find_program(given)
    old, new = read_state(os.fsencode(given.before)), read_state(os.fsencode(given.after))
    check_hosts(old, new, given)
    for text in report.warnings(old, new):
        command.say(text)
    marks = [marks_of(state.folder) for state in (old, new)]
    beside = [list(alone(it)) for it in marks]
    others = [*differing(*marks)]
    for text in others:
        command.say(b"warning: not in the rows of who gained and lost what: " + text)
    # What an import cannot tell is about the files of both.
    for state in [it for it in (old, new) if not it.is_import() or it is new and (old.is_import() or given.acl5)]:
        overview.say_notices(command, sources.Source(state.folder, state.folder, False), given.acl5 and state is new,
                             is_alone=state is new or beside[0] != beside[1])
    everybody = everybody_of(old, new)
    if old.is_split() or new.is_split():
        parts = OfParts(program, (old, new), everybody, given)
        try:
            return parts.compared(parts.answer())._replace(has_other_marks=bool(others)), None
        finally:
            parts.close()
    states = old.with_everybody(everybody), new.with_everybody(everybody)
    with session_of(program, states[0], group_text(*states)) as before, session_of(program, states[1]) as after:
        comparison = OfSessions(program, (old, new), everybody, (before, after), given)
        answered = comparison.answer()
        compared = comparison.compared(answered)._replace(has_other_marks=bool(others))
        return compared, comparison.page(answered, compared)


def write(command: Command, given: argparse.Namespace, compared: Compared) -> None:
    if given.json:
        tables.write_json(command, given, report.SCHEMA, report.object_of(given, compared))
        return
    if given.tsv:
        tables.write_table(command, given, report.fields_table(compared, given.full))
    else:
        with tables.paged(command, not given.no_pager):
            if compared.rows:
                tables.write_table(command, given, report.table_of(compared, given.full))
            for line in [*report.line_beside(compared), *report.summary(compared)]:
                command.tell(line)
    for note in choice.notes(compared.left_out, compared.new.passwd + b"\n" + compared.old.passwd):
        command.say(note)


def body(command: Command, words: List[str]) -> int:
    given = parse(words)
    target = NewFile(os.fsencode(given.page)) if given.page is not None else None
    with folders.kept():
        compared, page = compare(command, given)
        write(command, given, compared)
    if target is not None and page is not None:
        command.flush()
        target.write(page)
        command.goes_on = True  # It is there, whatever can be said.
        command.say(b"wrote " + target.name)
    return DIFFERS if compared.rows or compared.has_other_marks else SAME
