"""Hard links: an edit by one name of a file is an edit by each of its names.

Of the names of links a line can touch, or look at, those that are one of its words and, where it goes to whole
subtrees, those below one; any word is taken for a path, and so is the name in each record of its text. After a line
that edits, the program lists these names. What one name got the others get before a line can touch them or look at them, and
at the end."""
from __future__ import annotations

import re
from itertools import takewhile
from typing import Dict, List, Optional, Set

from ..base.names import path_word, places_below, read_path, sorting_key
from ..model.entries import lists_of, read_record
from ..model.records import File, Files, list_all, read_listing, write_records
from ..program.protocol import LIST_NUMBERS, RESTORE, SET_LIST
from ..program.scripts import Unit
from ..program.session import Session, parts_of
from ..program.tools import CHANGES_OF_PEOPLE, DEEP, VALUES, WITH_FILES, letters_of, options_that

DEEP_NAMES = {name for tool in WITH_FILES for name in options_that(tool, DEEP)}
# A word that sends a line to whole subtrees: the option alone, or among letters before one that has a value.
RECURSIVE = re.compile(rb"(?:%s)\Z|-[^-%s]*[%s]" % (
    b"|".join(sorted(name for name in DEEP_NAMES if len(name) > 2)),
    letters_of({name for tool in WITH_FILES for name in VALUES[tool]}), letters_of(DEEP_NAMES)))
RECORD = re.compile(rb"\s*#\s*file: ?(.*)", re.DOTALL)  # The first line of a record of a restore.
FEW_NAMES = 8  # That are looked up one by one if a line of them is refused.
LONGEST_LIST = 4_000  # Bytes of a list in a line, before its names.
ROOM_FOR_NAMES = 1 << 24  # Bytes of questions by names in a session; after them a directory is listed, by a short line.


class Links:
    """The sets of names that are one file."""

    def __init__(self, sets: List[List[bytes]], files: Files) -> None:
        self.sets = [list(dict.fromkeys(path for path in names if path in files)) for names in sets]
        self.places: Dict[bytes, List[int]] = {}  # By path: the places of its sets.
        for place, names in enumerate(self.sets):
            for path in names:
                self.places.setdefault(path, []).append(place)
        self.known = {path: files[path].body for path in self.places}  # The lines of each record, as they were alike.
        self.present = dict(self.known)  # The same as they are now, of names that are there.
        self.late: Dict[bytes, bytes] = {}  # Names whose present record the program does not have yet, with what it has.
        self.open: Set[int] = set()  # The places of sets of which a line can have changed a name.
        self.paths = sorted(self.places, key=sorting_key)
        self.asked = 0  # Bytes of questions by names so far.

    def touched(self, unit: Unit) -> Set[bytes]:
        """The names that a line can touch or look at."""
        if not unit.is_of(*WITH_FILES):
            return set() if unit.is_of(*CHANGES_OF_PEOPLE) else set(self.places)
        named = paths_in(unit)
        found = {path for path in named if path in self.places}
        if any(map(RECURSIVE.match, unit.words[1:])):
            found.update(*(self.paths[slice(*places_below(self.paths, path))] for path in named))
        return found

    def before(self, session: Session, unit: Unit) -> None:
        """Gives the program the records of those names that a line can touch or look at."""
        if self.late:
            self.restore(session, [path for path in self.touched(unit) if path in self.late])

    def end(self, session: Session) -> None:
        """Gives the program the records of all names."""
        self.restore(session, list(self.late))

    def restore(self, session: Session, paths: List[bytes]) -> None:
        """Gives the program the present records of names: by a line for many that get one list, as it is shorter."""
        by_list: Dict[bytes, List[bytes]] = {}
        for path in sorted(paths, key=sorting_key):
            by_list.setdefault(list_to_set(self.late.pop(path), self.known[path]), []).append(path)
        alone = [path for entries, names in by_list.items() if not entries or len(names) < FEW_NAMES for path in names]
        for entries, names in by_list.items():
            for part in parts_of(names, word_of=path_word) if entries and len(names) >= FEW_NAMES else ():
                session.ask_accepted(b" ".join([SET_LIST % entries, *map(path_word, part)]))
        if alone:
            records = write_records({path: File(False, self.known[path]) for path in alone}, alone)
            session.ask_accepted(RESTORE + b"\n" + records + b".")

    def follow(self, session: Session, unit: Unit) -> Optional[List[bytes]]:
        """After an edit: each name of a file has what one of them got. Where two names of a file got different lists,
        nothing more is done, and the names are returned."""
        touched = sorted(self.touched(unit), key=sorting_key)
        for path in touched:
            self.open.update(self.places[path])
            self.present.pop(path, None)
        self.present.update(self.ask(session, touched))
        for place in sorted(self.open):
            self.sets[place] = names = [path for path in self.sets[place] if path in self.present]
            changed = [path for path in names if self.present[path] != self.known[path]]
            if len({self.present[path] for path in changed}) > 1:
                return changed
            self.open.discard(place)
            for path in names if changed else ():
                if self.present[path] != self.present[changed[0]]:
                    self.late.setdefault(path, self.present[path])
                self.present[path] = self.known[path] = self.present[changed[0]]
        return None

    def ask(self, session: Session, paths: List[bytes]) -> Dict[bytes, bytes]:
        """The lines of the records of these names, without those that are not there any more."""
        found: Dict[bytes, bytes] = {}
        for part in parts_of(paths, word_of=path_word):
            line = question(part)
            self.asked += len(line)
            answer = None if self.asked > ROOM_FOR_NAMES else session.ask(line)
            if answer is not None and not answer.messages:
                found.update((path, file.body) for path, file in read_listing(answer.output.read()).items())
            elif answer is None or len(part) > FEW_NAMES:
                files = list_all(session, directory_above(paths)).files or list_all(session).files
                return {path: files[path].body for path in paths if path in files}
            elif len(part) > 1:
                for path in part:
                    found.update(self.ask(session, [path]))
        return found


def paths_in(unit: Unit) -> Set[bytes]:
    """The words of a line, and the names in the records of its text, as paths."""
    records = filter(None, map(RECORD.match, unit.lines[1:]))
    return {read_path(text) for text in [*unit.words[1:], *(record[1] for record in records)]}


def directory_above(paths: List[bytes]) -> bytes:
    """The lowest directory that all these paths are below; they are in path order."""
    pairs = zip(paths[0].split(b"/")[:-1], paths[-1].split(b"/")[:-1])
    return b"/".join(first for first, _ in takewhile(lambda pair: pair[0] == pair[1], pairs))


def question(paths: List[bytes]) -> bytes:
    return b" ".join([LIST_NUMBERS, *map(path_word, paths)]) + b"\n"


def list_to_set(old: bytes, new: bytes) -> bytes:
    """The list, as a word, that makes one record of another: of a file with the same owner, group and flags. Nothing
    where these are others, or the list is long."""
    is_of_same = read_record(old)[:3] == read_record(new)[:3]
    entries = lists_of(new).rstrip(b"\n").replace(b"\n", b",")
    return entries if is_of_same and len(entries) < LONGEST_LIST else b""
