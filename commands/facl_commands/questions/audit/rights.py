"""Findings of facl-audit that are answers of the program: what everybody else may do, and who of the users may write. Many files
have few different records, so records are asked about, and not files."""
from __future__ import annotations

from typing import Dict, Iterator, List, NamedTuple, Optional, Tuple

from ...base.names import parent_of, path_word, way_to, write_user
from ...model.choice import is_chosen
from ...model.entries import GROUP, OTHER, USER, Entry, digits, flag_digit, named, read_record, without
from ...model.file_columns import AlikeFiles, AlikeKey
from ...model.label_answers import PeopleTexts, ask_vectors
from ...model.people import People, groups_by_user, users_by_group
from ...model.records import File
from ...model.rules_of_lists import inside, is_sticky, writing
from ...program.protocol import FILE_HEAD, LIST, WHO
from .findings import OF_EVERYBODY, Findings, FoundFiles, Mend
from .lists import Audited

READ, WRITE, EXECUTE = b"r", b"w", b"x"
AT_ONCE = 500  # Questions.


def without_writing(audited: Audited, entries: List[Entry]) -> Mend:
    """Entries that lose w alone, as a person reads them, and the edit that does it: without its entry a user may have more."""
    words = (audited.ids.entry(it._replace(permissions=without(it.permissions, WRITE))) for it in entries)
    return Mend(b", ".join(audited.ids.shown(it.key) for it in entries), b"setfacl -n -m " + b",".join(words))


# --- everybody else


class OpenRight(NamedTuple):
    """What everybody else may do with a file, if the directories above it let everybody pass."""

    open: str  # The finding where they do,
    behind: str  # and where they do not; none where it is empty.
    detail: bytes
    edit: bytes

    def finding(self, closed: Optional[bytes]) -> Tuple[str, Mend]:
        """The finding, and what is found; below a directory, by its name, that everybody else cannot search, or where there is
        none."""
        if closed is None:
            return self.open, Mend(self.detail, self.edit)
        return self.behind, Mend(b"closed by " + closed, self.edit)


class EverybodyRights:
    """What everybody else may do, by the records of files and of the directories above them."""

    def __init__(self, audited: Audited) -> None:
        self.above, everybody = audited.tree.above, audited.world.everybody
        people = PeopleTexts(everybody.with_user(b""), everybody.with_group(audited.world.texts.group), b"")
        bodies = list(dict.fromkeys(file.body for file in audited.tree.files))
        self.vectors = ask_vectors(audited.program, people, bodies)[0].of_body
        self.closed: Dict[bytes, Optional[bytes]] = {}

    def may(self, file: File, letters: bytes) -> bool:
        request = sum(1 << b"xwr".index(it) for it in letters)
        return bool(self.vectors[file.body][0] >> request & 1)

    def closed_at(self, directory: bytes) -> Optional[bytes]:
        """The highest of a directory and those above it that everybody else cannot search."""
        for it in way_to(directory, self.closed):
            above = self.closed[parent_of(it)] if it else None
            is_open = it not in self.above or inside(b"\1", self.vectors[self.above[it].body]) != b"\0"
            self.closed[it] = it if above is None and not is_open else above
        return self.closed[directory]

    def of(self, file: File) -> List[OpenRight]:
        record = read_record(file.body)
        kept = b"sticky" * (file.is_directory and is_sticky(record.flags))
        rows = ((WRITE, writing(file.is_directory), "writable-by-everybody", "writable-behind-closed", kept),
                (READ, READ, "readable-by-everybody", "readable-behind-closed", b""),
                (EXECUTE, EXECUTE * (not file.is_directory), "execute-for-everybody", "", b""))
        return [OpenRight(is_open, behind, detail, b"setfacl -n -m o::" + without(record.permissions(OTHER), letter))
                for letter, request, is_open, behind, detail in rows if request and self.may(file, request)]


def of_everybody(audited: Audited) -> Findings:
    everybody, tree = EverybodyRights(audited), audited.tree
    found: Findings = {name: FoundFiles() for name in OF_EVERYBODY}
    rights = {kind: its for kind, file in audited.kinds.items() for its in [everybody.of(file)] if its}
    known: Dict[Tuple[int, Optional[bytes]], List[Tuple[str, Mend]]] = {}
    kinds = tree.kinds
    for run in tree.runs if rights else []:
        places = [place for place in range(run.start, run.end) if kinds[place] in rights]
        is_judged = bool(places) and not audited.given.file_alone
        closed = everybody.closed_at(run.folder) if is_judged and run.folder is not None else None
        for place in places:
            key = kinds[place], closed
            if key not in known:
                shown = None if closed is None else audited.world.name_of(closed)
                known[key] = [it for it in (right.finding(shown) for right in rights[key[0]]) if it[0]]
            for name, mend in known[key]:
                found[name].paths.append(tree.paths[place])
                found[name].mends.append(mend)
    return found


# --- who writes: users are bits of numbers


class Teams:
    """The users whom the audit is about, each a bit, and the users of groups."""

    def __init__(self, audited: Audited) -> None:
        people = People(audited.world.texts.passwd, audited.world.texts.group)
        chosen = dict.fromkeys(user.name for user in people.users if is_chosen(user.uid, audited.given))
        self.bits = {name: 1 << place for place, name in enumerate(chosen)}
        self.names, self.groups = users_by_group(people), groups_by_user(people)
        self.known: Dict[int, int] = {}

    def members(self, gid: int) -> int:
        """The users of a group."""
        if gid not in self.known:
            self.known[gid] = sum(self.bits.get(name, 0) for name in self.names.get(gid, ()))
        return self.known[gid]

    def fellows(self, name: bytes) -> int:
        """The other users of all groups of a user."""
        found = 0
        for gid in self.groups[name]:
            found |= self.members(gid)
        return found & ~self.bits[name]


class Writers:
    """The users who may write files that are judged alike: who may by the record, and by those of the directories above
    can search all of these, as path_resolution(7) asks."""

    def __init__(self, audited: Audited, teams: Teams, groups: Dict[AlikeKey, bytes]) -> None:
        self.audited, self.files = audited, audited.tree.above
        self.bits = {write_user(name): bit for name, bit in teams.bits.items()}
        first = {audited.kinds[kind]: path for (_, kind), path in reversed(groups.items())}
        self.alone = self.ask({file: (writing(file.is_directory), path) for file, path in first.items()})
        above: Dict[bytes, None] = {}
        for path in groups.values() if not audited.given.file_alone else []:
            above.update(dict.fromkeys(way_to(parent_of(path), above) if path else []))
        self.search = self.ask({self.files[path]: (EXECUTE, path) for path in above if path in self.files})
        self.inside: Dict[bytes, int] = {}  # By directory: who gets to what is in it.

    def ask(self, questions: Dict[File, Tuple[bytes, bytes]]) -> Dict[File, int]:
        """Who has a right on each of some files alone, by record. A listing ends each answer: no name of a user is its
        first line."""
        return {file: sum(self.bits.get(user, 0) for user in answer.partition(FILE_HEAD)[0].split(b"\n"))
                for file, answer in zip(questions, self.answers([*questions.values()]))}

    def answers(self, questions: List[Tuple[bytes, bytes]]) -> Iterator[bytes]:
        """The answer of each question, with the listing."""
        for start in range(0, len(questions), AT_ONCE):
            lines = [b"%s -- %s %s\n%s %s" % (WHO, letters, word, LIST, word)
                     for letters, path in questions[start : start + AT_ONCE] for word in [path_word(path)]]
            yield from self.audited.world.session.ask_accepted(b"\n".join(lines)).records()

    def inside_of(self, directory: bytes) -> int:
        for it in way_to(directory, self.inside):
            above = self.inside[parent_of(it)] if it else -1
            self.inside[it] = above & self.search[self.files[it]] if it in self.files else above
        return self.inside[directory]

    def of(self, file: File, path: bytes) -> int:
        """Those who may write files that are judged as the one at a path."""
        is_alone = self.audited.given.file_alone or not path
        return self.alone[file] & (-1 if is_alone else self.inside_of(parent_of(path)))


class WritingEntries(NamedTuple):
    """The entries of a record that have w."""

    users: List[Tuple[Entry, int, int]]  # Of users who are no owners, each with the user, and the others of the user's groups.
    teams: Dict[int, bytes]  # Groups by their members, where these can remove each other's files; one of those with the same.


def writing_entries(audited: Audited, teams: Teams, file: File) -> WritingEntries:
    record, found = read_record(file.body), WritingEntries([], {})
    for (tag, number), entry in ((it.key, it) for it in record.access if it.grants(WRITE)):
        name = audited.ids.names.get((tag, number), b"")
        if tag == USER and number not in (b"", record.owner) and name in teams.bits:
            found.users.append((entry, teams.bits[name], teams.fellows(name)))
        elif tag == GROUP and file.is_directory and not is_sticky(record.flags):
            found.teams.setdefault(teams.members(int(number or record.group)), number or record.group)
    return found


def of_writers(audited: Audited) -> Findings:
    """Of files whose records name a user or a group: users who may write where nobody else of their groups may, and several groups
    that may write in a directory."""
    teams = Teams(audited)
    entries = {kind: its for kind, file in audited.kinds.items() if named(read_record(file.body).access)
               for its in [writing_entries(audited, teams, file)] if its.users or len(its.teams) > 1}
    alike = AlikeFiles(audited.tree, set(entries), audited.given.file_alone)
    writers = Writers(audited, teams, alike.first)
    mends: Dict[str, Dict[AlikeKey, Mend]] = {"writable-by-teams": {}, "writer-outside-groups": {}}
    for key, path in alike.first.items():
        file, its = audited.kinds[key[1]], entries[key[1]]
        may, record = writers.of(file, path), read_record(file.body)
        gids = [gid for members, gid in its.teams.items() if members & may]
        if len(gids) > 1:
            mends["writable-by-teams"][key] = Mend(b", ".join(audited.ids.shown((GROUP, it)) for it in gids),
                                                   b"chmod " + digits(record, flag_digit(record.flags) | 1))
        outside = [entry for entry, user, fellows in its.users if user & may and not fellows & may]
        if outside:
            mends["writer-outside-groups"][key] = without_writing(audited, outside)
    paths = alike.paths(key for of_key in mends.values() for key in of_key)
    found: Findings = {name: FoundFiles() for name in mends}
    for name, of_key in mends.items():
        for key, mend in of_key.items():
            found[name].add(paths[key], [mend] * len(paths[key]))
    return found
