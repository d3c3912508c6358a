"""Whether rules hold in a snapshot, by the program's answers; and those that hold, as a start for a file of them."""
from __future__ import annotations

from typing import Dict, Iterable, Iterator, List, NamedTuple, Optional, Set, Tuple

from ...base.names import at_or_below, path_word, places_below, read_name, shown_path, write_user
from ...model.choice import is_recorded
from ...model.entries import Entries, entries_of
from ...model.everybody import SHOWN, World, files_of
from ...model.people import Group
from ...model.records import name_of, path_of, paths_in, paths_of, records_in
from ...model.rules_of_lists import grants_search, writing
from ...model.sources import find_tops
from ...program.session import OutputSlice
from .rules import (
    ALWAYS, BELOW, ENTER, NEVER, ONLY, PEOPLE, READ, WRITE, Rule, RuleReader, group_word, rule_path, user_word,
)

REQUESTS = {READ: b"r", WRITE: b"w", ENTER: b"x"}
FEWEST = 2  # Users for whom a group is written.
NONE = b"# none: others may read some of these files, and write some, and no user may read all or write all"


class Block(NamedTuple):
    """The entries of a file that decide on a user, as `why` prints them."""

    path: bytes
    entries: Entries


class Violation(NamedTuple):
    """A user for whom a rule does not hold."""

    place: int  # Of the user among those on whom the rule says something.
    user: bytes  # As an answer has the name.
    paths: List[bytes]  # The files on which the user may, or, of `always`, may not.
    blocks: List[Block]  # Of the first of them, and of the directories above it.
    others: List[bytes]  # Who else may, on the first of them, in the same form.


class RuleOutcome(NamedTuple):
    rule: Rule
    files: int  # That it is about.
    violations: List[Violation]

    def joined(self, other: RuleOutcome) -> RuleOutcome:
        """That of two parts of a snapshot, of which the other one is later."""
        found = {it.place: it for it in self.violations}
        for it in other.violations:
            found[it.place] = found[it.place]._replace(paths=found[it.place].paths + it.paths) if it.place in found else it
        return RuleOutcome(self.rule, self.files + other.files, [found[place] for place in sorted(found)])


class Rights:
    """What users may do, as the program answers."""

    def __init__(self, world: World, is_alone: bool, paths: List[bytes], is_all: bool, chosen: List[bytes]) -> None:
        self.world, self.chosen = world, chosen
        self.paths, self.is_all = paths, is_all  # The files that are looked at, in path order; whether there are no others.
        self.directories: Optional[Set[bytes]] = None  # Most rules need not know them.
        self.users = [world.everybody.name, *chosen]  # Everybody else, and those whom the check is about.
        self.reach = world.reach(is_alone)
        self.left_out: Set[bytes] = set()  # Users who are not chosen, and may what a rule gives to others only.
        self.answers: Dict[bytes, OutputSlice] = {}
        self.known: Dict[Tuple[bytes, bytes, bytes, bool], List[bytes]] = {}

    def ask(self, tool: bytes, *words: bytes) -> OutputSlice:
        line = b"%s %s-- %s" % (tool, self.reach, b" ".join(words))
        if line not in self.answers:
            self.answers[line] = self.world.session.ask_accepted(line)
        return self.answers[line]

    def is_directory(self, path: bytes) -> bool:
        if self.directories is None:
            self.directories = {it for it, file in files_of(self.world).above.items() if file.is_directory}
        return path in self.directories

    def asked(self, right: bytes, top: bytes, is_below: bool = False) -> List[bytes]:
        """The files at or below a path, or below it, that a right is about, in path order: only directories are entered, and
        a file that is given itself."""
        start, end = places_below(self.paths, top)
        paths = self.paths[start + (is_below and self.paths[start : start + 1] == [top]) : end]
        return [it for it in paths if self.is_directory(it) or it == top] if right == ENTER else paths

    def some(self, right: bytes, top: bytes, is_below: bool) -> Dict[bytes, int]:
        """The users who may at least ask for a right on some file at or below a path, or below it, and on how many; of the
        root, where it is not recorded, below the tops of the snapshot."""
        session = self.world.session
        tops = [top] if top or is_recorded(session, top) else find_tops(session, session.folder)
        lines = [line.split(b" ", 2) for line in self.ask(b"below", REQUESTS[right], *map(path_word, tops)).lines()]
        found = {read_name(user): int(count) for count, user, _ in lines}
        if is_below and is_recorded(session, top):
            for name in map(read_name, self.ask(b"who", REQUESTS[right], path_word(top)).lines()):
                found[name] -= 1
        return {name: count for name, count in found.items() if count}

    def may(self, user: bytes, request: bytes, top: bytes) -> Set[bytes]:
        """The files at or below a path on which a user is granted a request. They follow each other in the answer, in
        which no other line begins as theirs."""
        answer = self.ask(b"may", self.world.word_of(user), request)
        if not top:
            return set(paths_in(answer))
        text = b"\n" + answer.read()
        starts = (b"\n" + shown_path(top) + b"\n", b"\n" + shown_path(top) + b"/")
        places = [find(start) for find in (text.find, text.rfind) for start in starts]
        found = [place for place in places if place >= 0]
        names = text[min(found) : text.index(b"\n", max(found) + 1)].split(b"\n") if found else []
        return set(paths_of(list(filter(None, names))))

    def granted(self, user: bytes, right: bytes, top: bytes, is_below: bool = False) -> List[bytes]:
        """The files at or below a path, or below it, on which a user has a right."""
        key = user, right, top, is_below
        if key not in self.known:
            may = self.may(user, REQUESTS[right], top)
            inside = self.may(user, writing(is_directory=True), top) if right == WRITE and may else may
            self.known[key] = [path for path in self.asked(right, top, is_below) if path in may
                               and (path in inside or not self.is_directory(path))]
        return self.known[key]

    def who(self, right: bytes, path: bytes) -> List[bytes]:
        """Those of the users who have a right on a file."""
        request = writing(self.is_directory(path)) if right == WRITE else REQUESTS[right]
        found = set(map(read_name, self.ask(b"who", request, path_word(path)).lines()))
        return [name for name in self.users if name in found]

    def shown(self, user: bytes) -> bytes:
        """What an answer has for a name."""
        return self.world.everybody.shown(write_user(user))

    def why(self, user: bytes, path: bytes) -> List[Block]:
        """The entries that decide on a user, of the directories above a file and of the file."""
        answer = self.ask(b"why", self.world.word_of(user), path_word(path))
        return [Block(path_of(name_of(it)), entries_of(it)) for it in records_in([answer])]


def violation(rights: Rights, rule: Rule, place: int, user: bytes, paths: List[bytes]) -> Violation:
    """It has the entries that a person needs to see: where a right is missing, those of the first file that is in the
    way alone."""
    blocks = rights.why(user, paths[0])
    if rule.kind == ALWAYS:
        blocks = [block for block in blocks[:-1] if not grants_search(block.entries)][:1] or blocks[-1:]
    others = [rights.shown(name) for name in rights.who(rule.right, paths[0]) if name != user]
    return Violation(place, rights.shown(user), paths, blocks, others)


def subjects(rights: Rights, rule: Rule) -> List[bytes]:
    """The users on whom a rule says something, in the order of their rows; everybody else is the first."""
    everybody = rights.world.everybody.name
    if rule.kind in (NEVER, ALWAYS):
        return [*[everybody] * rule.has_others, *sorted(rule.users)]
    return [*[everybody] * (not rule.has_others), *(name for name in rights.chosen if name not in rule.users)]


def outcome(rights: Rights, rule: Rule) -> RuleOutcome:
    """Whether a rule holds, and for whom it does not."""
    asked, some = rights.asked(rule.right, rule.path, rule.is_below), rights.some(rule.right, rule.path, rule.is_below)
    if rule.kind == ONLY:
        rights.left_out |= some.keys() - rule.users - {*rights.users}
    violations: List[Violation] = []
    for place, user in enumerate(subjects(rights, rule)):
        if rule.kind == ALWAYS and rule.right == READ and rights.is_all and some.get(user) == len(asked):
            continue  # It is so on all files, and `below` counts no others.
        paths = rights.granted(user, rule.right, rule.path, rule.is_below) if user in some else []
        if rule.kind == ALWAYS:  # Those that are missing.
            known = set(paths)
            paths = [path for path in asked if path not in known]
        violations += [violation(rights, rule, place, user, paths)] if paths else []
    return RuleOutcome(rule, len(asked), violations)


def names_beside(rule: Rule, links: Iterable[List[bytes]]) -> List[Tuple[bytes, bytes]]:
    """The files that a rule keeps from users by one name and not by another one, by which they may have them: both names."""
    found = []
    for names in links if rule.kind != ALWAYS else ():
        meant = [it for it in at_or_below(names, [rule.path]) if it != rule.path or not rule.is_below]
        found += [(meant[0], it) for it in names if meant and it not in meant][:1]
    return found


# --- the rules that hold


def words_of(names: Set[bytes], reader: RuleReader) -> List[bytes]:
    """Users as words of a rule: first groups all of whose members are among them, the largest first."""
    rest, found = set(names), []
    groups: Dict[bytes, Group] = {}
    for group in reader.people.groups:
        groups.setdefault(group.name, group)
    members = {name: reader.members(group) for name, group in groups.items()}
    for name in sorted(groups, key=lambda it: (-len(members[it]), it)):
        if len(members[name] & rest) >= FEWEST and members[name] <= names:
            found.append(group_word(groups[name]))
            rest -= members[name]
    return [*found, *map(user_word, sorted(rest))]


def rules_of(rights: Rights, reader: RuleReader, right: bytes, top: bytes, is_below: bool) -> Iterator[List[bytes]]:
    """The rules on one right at or below a path, or below it, each as its words without right and path."""
    number, some = len(rights.asked(right, top, is_below)), rights.some(right, top, is_below)
    if not number:
        return
    counts = {name: len(rights.granted(name, right, top, is_below)) for name in rights.users if name in some}
    of_others = counts.pop(rights.world.everybody.name, 0)
    able = {name for name, count in counts.items() if count}
    full = {name for name, count in counts.items() if count == number}
    if not of_others:
        yield [NEVER, SHOWN]
        yield [ONLY, *words_of(able, reader)] if able else [NEVER, PEOPLE]
    elif of_others == number:
        yield [ALWAYS, SHOWN]
    if full:
        yield [ALWAYS, *words_of(full, reader)]


def rules_at(rights: Rights, reader: RuleReader, right: bytes, top: bytes, is_directory: bool) -> Iterator[bytes]:
    """The rules on one right at or below a path; and of a directory those of a kind that holds only below it."""
    kinds: Set[bytes] = set()
    for is_below in (False, *[True] * is_directory):
        word = rule_path(top, is_directory and not is_below, rights.world.is_whole)
        for words in [it for it in rules_of(rights, reader, right, top, is_below) if it[0] not in kinds]:
            yield b" ".join([*words, right, *[BELOW] * is_below, word])
            kinds.update(words[:1] * (not is_below))


def rules_that_hold(rights: Rights, reader: RuleReader, tops: List[bytes]) -> Iterator[bytes]:
    """The lines of the file, with a comment for each path."""
    for top in tops:
        is_directory = rights.is_directory(top) or not is_recorded(rights.world.session, top)
        yield b"\n# " + rule_path(top, is_directory, rights.world.is_whole)
        rules = [rule for right in (READ, WRITE) for rule in rules_at(rights, reader, right, top, is_directory)]
        yield from rules or [NONE]
