"""facl-report --for-review: the page of one folder for its owner, with what people may do there, and a box at each
entry of its lists that can go.

Who may do what along paths is found by what the program answers of each list: a person gets to a file where all
recorded directories above it grant search.
"""
from __future__ import annotations

import argparse
import os
from collections import Counter
from typing import Counter as Counts
from typing import Dict, List, NamedTuple, Optional, Sequence, Set, Tuple

from ..base.accounts import PEOPLE
from ..base.folders import folder_of
from ..base.messages import Command
from ..base.names import directories_above, path_word, shell_word, write_name
from ..base.numbered import Numbered
from ..base.programs import find_program, judge_text
from ..model import choice, meta, overview, sources
from ..model.entries import GROUP, MASK, NOTHING, OTHER, USER, Entry, NamesOfIds, entries_of, read_record
from ..model.everybody import SHOWN, everybody_in
from ..model.file_columns import ABOVE, FileColumns, FolderFiles, Labels, by_folder, columns_of
from ..model.label_answers import PeopleTexts
from ..model.marks import alone, marks_of, not_judged
from ..model.rights import places_in
from ..model.rules_of_lists import Vector, along_path, inside
from ..model.snapshot import NEEDED, check_texts
from ..model.sources import Source
from ..program.protocol import LIST_CUT, LIST_EFFECTIVE
from ..program.session import Session
from .answers import ask_lists
from .columns import shown
from .frame import page_of

READ, WRITE, SEARCH = 4, 2, 1  # Requests, which are bits of a byte of `index`.
STYLE, SCRIPT = "review.css", "review.js"
MOST = b"at most (mask)"


class Reviewed(NamedTuple):
    """The files at or below a folder, and the directories above it."""

    above: FileColumns  # Those that are recorded, from the highest one down.
    files: FileColumns
    labels: Labels  # Of both.
    parts: List[FolderFiles]


def read_reviewed(session: Session, word: bytes) -> Reviewed:
    path, labels = choice.folder_of(session, word), Labels()
    above = [it for it in directories_above(path)[::-1] if choice.is_recorded(session, it)]
    lines = [LIST_CUT + b" " + path_word(it) for it in above]
    recorded = columns_of(map(session.ask_accepted, lines), labels)
    files = columns_of([session.ask_accepted(LIST_EFFECTIVE + b" " + path_word(path))], labels)
    return Reviewed(recorded, files, labels, [*by_folder(files.paths)])


class PeopleAnswers(NamedTuple):
    """What the program answers of lists, of the people who are looked at."""

    names: List[str]  # As the page has them.
    granted: List[Vector]  # By list: what it grants each of them,
    reasons: List[List[int]]  # and by which entries, as numbers in these.
    entries: List[List[bytes]]  # Those that grant something, without what the mask leaves.
    texts: List[bytes]  # The lines of each list, with names.


# --- who gets where


class RightsByList(NamedTuple):
    """On how many files the people have rights, by the number of the person."""

    reads: Counts[int]
    changes: Counts[int]
    enters: Counts[int]
    using: Dict[int, Set[int]]  # By list: those who get to one of its files at least.


def rights_of(reviewed: Reviewed, folders: Set[int], granted: List[Vector], is_alone: bool) -> RightsByList:
    """Counts the files of each list to which the same people get, from the highest directory down."""
    everybody = b"\1" * len(granted[0])
    reach = everybody
    for label in reviewed.above.labels if not is_alone else ():
        reach = inside(reach, granted[label])
    insides = {ABOVE: reach}  # Who gets to what is in a directory,
    reaches: Dict[int, bytes] = {}  # and to what is one perhaps, as the next file is in it.
    labels, place = reviewed.files.labels, 0
    classes: Counts[Tuple[int, bool, bytes]] = Counter()
    for _, _, parent, _, names in reviewed.parts:
        if parent not in insides:
            insides[parent] = everybody if is_alone else inside(reaches[parent], granted[labels[parent]])
        reach, end = insides[parent], place + len(names)
        classes.update((labels[it], it in folders, reach) for it in range(place, end))
        place, reaches[end - 1] = end, reach
    found = RightsByList(Counter(), Counter(), Counter(), {})
    for (label, is_directory, reach), files in classes.items():
        vector = along_path(granted[label], reach)
        for request, counts in ((READ, found.reads), (WRITE, found.changes), (SEARCH, found.enters)):
            if request != SEARCH or is_directory:
                counts.update({place: files for place, byte in enumerate(vector) if byte >> request & 1})
        found.using.setdefault(label, set()).update(places_in(reach))
    return found


# --- the lists


def who_of(entry: Entry, names: Sequence[bytes], ids: NamesOfIds, is_default: bool) -> str:
    """Of whom an entry is, in words; names has the owner and the group. A new file has an owner and a group of its own."""
    if entry.is_named():
        return shown(ids.shown(entry.key))
    mine, its = (b"its owner", b"its group") if is_default else (b"owner " + names[0], b"owning group " + names[1])
    return shown({USER: mine, GROUP: its, MASK: MOST, OTHER: SHOWN}[entry.key[0]])


class Lists:
    """The different lists of the files."""

    def __init__(self, answers: PeopleAnswers, using: Dict[int, Set[int]], ids: NamesOfIds) -> None:
        self.answers, self.using, self.ids = answers, using, ids
        self.sets: Numbered[Tuple[int, ...]] = Numbered()  # Of people.
        self.by: Dict[int, Set[str]] = {}  # By person: the entries that grant something.

    def fields(self, label: int, body: bytes, is_directory: bool) -> Dict[str, object]:
        record = read_record(body)
        names = [self.ids.shown(key).partition(b" ")[2] for key in ((USER, record.owner), (GROUP, record.group))]
        known = self.people(label)
        lines = [line for line in self.answers.texts[label].splitlines() if not line.startswith(b"#")]
        entries = [self.entry(entry, who_of(entry, names, self.ids, False), b"", known.get(line, []))
                   for entry, line in zip(record.access, lines)]
        entries += [self.entry(entry, who_of(entry, names, self.ids, True), b"d:", []) for entry in record.default]
        flags = "" if record.flags == NOTHING else record.flags.decode()
        return {"folder": is_directory, "owner": shown(names[0]), "group": shown(names[1]), "flags": flags, "entries": entries}

    def entry(self, entry: Entry, who: str, begin: bytes, people: List[int]) -> Dict[str, object]:
        """An entry, with what setfacl takes it away by; nothing where it cannot go."""
        for person in people:
            self.by.setdefault(person, set()).add(who)
        key = shown(begin + self.ids.word(entry.key)) if entry.is_named() else ""
        return {"who": who, "permissions": entry.permissions.decode(), "effective": entry.effective.decode(),
                "key": key, "isDefault": begin != b"", "people": self.sets.number(tuple(people))}

    def people(self, label: int) -> Dict[bytes, List[int]]:
        """By the entries of a list: the people who get to a file of it, and to whom the entry grants something."""
        found: Dict[bytes, List[int]] = {}
        for person in sorted(self.using[label]):
            for line in self.answers.entries[self.answers.reasons[label][person]]:
                found.setdefault(line, []).append(person)
        return found


# --- the page


def facts_of(path: str, source: Source, files: int, folders: int, judge: str) -> List[List[str]]:
    """What the page is of: names with their texts."""
    about = meta.meta_of(source.folder)
    beside = b"; ".join([*alone(marks_of(source.folder)), *not_judged(source.folder)])
    facts = [["host", shown(about.host)], ["date", shown(about.date)], ["folder", path],
             ["version", shown(about.version)], ["files", str(files - folders)], ["folders", str(folders)],
             ["users of a directory service", str(meta.users_asked_for(about) or "")], ["judge", judge],
             ["beside lists", shown(beside)]]
    return [[title, text] for title, text in facts if text]


def ask_people(program: str, source: Source, given: argparse.Namespace, passwd: bytes, group: bytes,
               bodies: List[bytes]) -> PeopleAnswers:
    """Asks of everybody else, and of those users who are kept."""
    everybody = everybody_in(lambda: (passwd, group, *bodies))
    texts = PeopleTexts(everybody.with_user(passwd), everybody.with_group(group), b"")
    answers = ask_lists(program, texts, everybody.name, bodies)
    users = [everybody.name, *choice.kept(answers.users, given, passwd)]
    places = [*map({user: place for place, user in enumerate(answers.users)}.__getitem__, users)]
    entries = [[it.text() for it in entries_of(text) if it.effective != NOTHING] for text in answers.entries.values]
    return PeopleAnswers([shown(everybody.shown(user)) for user in users],
                         [bytes([vector[place] for place in places]) for vector in answers.vectors],
                         [list(map(its.of, places)) for its in answers.reasons], entries, answers.lists)


def data_of(program: str, reviewed: Reviewed, source: Source, given: argparse.Namespace, is_whole: bool) -> Dict[str, object]:
    passwd, group = map(folder_of(source.folder).read, NEEDED[:2])
    bodies, (_, files, _, parts) = reviewed.labels.bodies(), reviewed
    parents = [its.parent for its in parts for _ in its.names]
    folders = {*files.folders, *parents} - {ABOVE}
    answers = ask_people(program, source, given, passwd, group, bodies)
    rights = rights_of(reviewed, folders, answers.granted, given.file_alone)
    kinds: Numbered[Tuple[int, bool]] = Numbered()  # A list, and whether its file is a directory.
    columns = {"parents": parents, "names": [shown(write_name(name)) for its in parts for name in its.names],
               "lists": [kinds.number((label, place in folders)) for place, label in enumerate(files.labels)]}
    lists = Lists(answers, rights.using, NamesOfIds(passwd, group))
    fields = [lists.fields(label, bodies[label], is_directory) for label, is_directory in kinds.values]
    people = [{"name": name, "reads": rights.reads[k], "changes": rights.changes[k], "enters": rights.enters[k],
               "by": sorted(lists.by.get(k, ()))} for k, name in enumerate(answers.names)]
    prefix = "/" if is_whole else ""
    path = prefix + shown(write_name(files.paths[0]))
    return {
        "facts": facts_of(path, source, len(parents), len(folders), judge_text(given)), "alone": given.file_alone,
        "prefix": prefix, "snapshot": "SNAPSHOT" if source.is_made else shown(shell_word(source.shown)),
        "people": people, "files": columns, "lists": fields, "sets": lists.sets.values,
    }


def add_options(parser: argparse.ArgumentParser) -> None:
    """Takes --for-review with its folder."""
    parser.add_argument("--for-review", action="store_true",
                        help="the page of one folder for its owner: what people may do there, and a box at each entry, "
                        "of which it makes the lines that take the ticked ones away; needs --folder")
    parser.add_argument("--folder", metavar="FOLDER",
                        help="with --for-review: as on the live system, or from the root of the snapshot")
    parser.add_argument("--all-users", action="store_true", help=f"with --for-review: all users, and not people alone ({PEOPLE})")


def check_options(parser: argparse.ArgumentParser, given: argparse.Namespace) -> None:
    if given.for_review and given.folder is None:
        parser.error("--for-review needs the folder: --folder FOLDER")
    if not given.for_review and (given.folder is not None or given.all_users):
        parser.error("--folder and --all-users go with --for-review")
    if given.for_review and given.scripts:
        parser.error("--for-review shows what is, and not what edits change: leave out the SCRIPTs")


def page_over(command: Command, given: argparse.Namespace, source: Source) -> Optional[bytes]:
    check_texts(source.folder)
    program = find_program(given)
    overview.say_notices(command, source, given.acl5)
    with Session(program, source.folder) as session:
        reviewed = read_reviewed(session, os.fsencode(given.folder))
        is_whole = sources.find_tops(session, source.folder) == [b""]
    return page_of(data_of(program, reviewed, source, given, is_whole), STYLE, [SCRIPT])
