"""Users who are named by edits and gain nothing by them along paths, since a directory above is closed to them; and the line
of a script that opens it, which is one of some that the program tries."""
from __future__ import annotations

from collections import Counter
from dataclasses import dataclass, field
from heapq import nsmallest
from typing import Dict, Iterator, List, NamedTuple, Optional, Set, Tuple

from ..base.messages import counted
from ..base.names import (
    file_name, file_word, parent_of, path_word, plain_word, script_word, sorting_key, way_to, write_user,
)
from ..base.user_tools import User
from ..model.entries import GROUP, OWNER_KEY, USER, Entries, Entry, entries_of, granted_by, id_word, named, perms, read_record
from ..model.label_answers import PeopleTexts, Vectors, ask_vectors
from ..model.people import Group, People, groups_by_user, user_word
from ..model.records import Files, write_records
from ..model.rules_of_lists import HAS_SEARCH, NOTHING, entry_that_grants, grants_search
from ..program.protocol import ENTRIES_OF, RESTORE
from ..program.session import LINE_ROOM, Session

MOST_DIRECTORIES = 8  # That one line opens.
AT_ONCE = 1_000  # Lines that are asked.
Naming = Dict[bytes, Optional[int]]  # Users who are named; the group where it is by its entry alone.
# Numbers of files: by their record before, or nothing, and after, and their directory.
Counts = Dict[Tuple[bytes, bytes, bytes], int]


class NoGain(NamedTuple):
    """A user, with the number of files that would grant more, all of them behind one directory that is closed."""

    user: bytes  # As in the index.
    row: User
    group: Optional[Group]  # If the entry of a group alone names the user.
    files: int
    directory: bytes  # As a person reads it: the highest that is closed.
    paths: List[bytes]  # Directories that the line opens, of which it is the first.
    closed: int  # Directories below that stay closed then.
    entries: Entries = ()  # Of that directory: those that decide on the user.
    edit: bytes = b""  # The line; empty if nothing that was tried opens it.

    def text(self) -> bytes:
        opened = len(self.paths)
        which = self.directory + (b" and " + below(opened - 1) + b" grant" if opened > 1 else b" grants")
        entries = b" no search permission (" + b", ".join(map(shown_entry, self.entries)) + b")"
        rest = b", and " + below(self.closed) + (b" grants none" if self.closed == 1 else b" grant none") if self.closed else b""
        return which + entries + rest + (b"; add to the edits: " + self.edit if self.edit else b"")

    def question(self, path: bytes) -> bytes:
        """What decides on the user on a directory."""
        asked = user_word([self.row], self.row.name)
        assert asked is not None
        return b" ".join([ENTRIES_OF, asked, path_word(path)])


def below(number: int) -> bytes:
    return counted(number, "directory below it", "directories below it")


def shown_entry(entry: Entry) -> bytes:
    return entry.text(b", effective %s")


# --- who is named


def names_in(body: bytes) -> Set[Tuple[bytes, int, bytes]]:
    """The ids that a record names: as the owner and the owning group, and by entries with these permissions."""
    if not body:
        return set()
    record = read_record(body)
    entries = {(tag, int(number), entry.permissions) for (tag, number), entry in named(record.access).items()}
    return {(USER, int(record.owner), b""), (GROUP, int(record.group), b""), *entries}


class Named:
    """The users whom records name otherwise than before, and those who are in a group in which they were not."""

    def __init__(self, old: People, new: People, left_out: Set[bytes]) -> None:
        before, groups = groups_by_user(old), groups_by_user(new)
        self.users = {write_user(user.name): user for user in new.users if write_user(user.name) not in left_out}
        self.joined: Naming = {name: None for name, user in self.users.items()
                               if user.name in before and groups[user.name] - before[user.name]}
        self.of_id: Dict[Tuple[bytes, int], Naming] = {}
        for name, user in self.users.items():
            self.of_id.setdefault((USER, user.uid), {})[name] = None
            for gid in groups[user.name]:
                self.of_id.setdefault((GROUP, gid), {})[name] = gid
        self.known: Dict[Tuple[bytes, bytes], Naming] = {}

    def by(self, old: bytes, new: bytes) -> Naming:
        """Those of a record; of several groups the first."""
        if (old, new) not in self.known:
            found: Naming = {}
            for tag, number, _ in sorted(names_in(new) - names_in(old), key=lambda it: (it[0] == USER, -it[1])):
                found.update(self.of_id.get((tag, number), {}))
            self.known[old, new] = {**found, **self.joined}
        return self.known[old, new]

    def counts(self, old: Files, new: Files) -> Counts:
        """The files whose records name somebody."""
        counts = Counter((before, file.body, parent_of(path)) for path, file in new.items() if path
                         for before in [old[path].body if path in old else b""] if before != file.body or self.joined)
        return {it: number for it, number in counts.items() if self.by(*it[:2])}


# --- what is closed to them


class Granted:
    """What records grant to users at one time, as bytes of `index`."""

    def __init__(self, found: Vectors) -> None:
        self.places = {user: place for place, user in enumerate(found.users)}
        self.of_body = found.of_body

    def to(self, user: bytes, body: bytes) -> int:
        return self.of_body[body][self.places[user]] if body and user in self.places else NOTHING


@dataclass
class Behind:
    """Files that would grant a user more, behind closed directories, of which the highest is the first."""

    files: int = 0
    gid: Optional[int] = None
    closed: List[bytes] = field(default_factory=list)


class Ways:
    """The directories that are closed to users, on the way to each directory. Each is looked at once, and once for each user to
    whom something is closed."""

    def __init__(self, files: Files, granted: Granted, users: Set[bytes]) -> None:
        self.files, self.granted, self.users = files, granted, users
        self.closed_to: Dict[bytes, Set[bytes]] = {b"": set()}  # By record; one that is not recorded asks for nothing.
        self.lowest: Dict[bytes, Optional[bytes]] = {}
        self.behind: Dict[bytes, Dict[bytes, Optional[Behind]]] = {user: {} for user in users}

    def closes(self, path: bytes) -> Set[bytes]:
        """Those of the users to whom a directory is closed."""
        body = self.files[path].body if path in self.files else b""
        if body not in self.closed_to:
            self.closed_to[body] = {user for user in self.users if not HAS_SEARCH[self.granted.to(user, body)]}
        return self.closed_to[body]

    def lowest_to(self, directory: bytes) -> Optional[bytes]:
        """The lowest directory on the way that is closed to some of the users; None if none is."""
        for it in way_to(directory, self.lowest):
            self.lowest[it] = it if self.closes(it) else self.lowest[parent_of(it)] if it else None
        return self.lowest[directory]

    def behind_to(self, user: bytes, directory: bytes) -> Optional[Behind]:
        """What is behind the directories on the way that are closed to a user; None if none is."""
        known, it = self.behind[user], self.lowest_to(directory)
        way: List[bytes] = []
        while it is not None and it not in known:
            way.append(it)
            it = self.lowest_to(parent_of(it)) if it else None
        found = None if it is None else known[it]
        for it in reversed(way):
            if user in self.closes(it):
                found = found or Behind()
                found.closed.append(it)
            known[it] = found
        return found


def find_behind(counts: Counts, named_by: Named, files: Files, before: Granted,
                after: Granted) -> Dict[Tuple[bytes, bytes], Behind]:
    """By user and highest directory that is closed."""
    gaining = {(old, new): {user: gid for user, gid in named_by.by(old, new).items()
                            if after.to(user, new) & ~before.to(user, old)} for old, new, _ in counts}
    ways = Ways(files, after, {user for users in gaining.values() for user in users})
    found: Dict[Tuple[bytes, bytes], Behind] = {}
    for (old, new, directory), number in counts.items():
        for user, gid in gaining[old, new].items() if ways.lowest_to(directory) is not None else ():
            behind = ways.behind_to(user, directory)
            if behind is not None:
                found[user, behind.closed[0]] = behind
                behind.gid = gid if not behind.files or gid is None else behind.gid
                behind.files += number
    return found


def shown_directories(paths: List[bytes]) -> List[bytes]:
    """The directories that one line can open, of the first ones: all of them, or the first, or none whose name a line has no
    room for."""
    sizes = list(map(len, map(path_word, paths)))
    if len(paths) <= MOST_DIRECTORIES and sum(sizes) < LINE_ROOM:
        return paths
    return paths[:1] if sizes[0] < LINE_ROOM else []


def find(session: Session, program: str, texts: PeopleTexts, files: Tuple[Files, Files], people: Tuple[People, People],
         left_out: Set[bytes], is_whole: bool) -> List[NoGain]:
    """By users in their order, and by closed directories in path order; of files and people before the edits and after them, as
    the session is. Where it is whole, paths are those from the root of the file system."""
    named_by, new = Named(*people, left_out), files[1]
    counts = named_by.counts(*files)
    if not counts:
        return []
    above: Dict[bytes, None] = {}
    for _, _, directory in counts:
        above.update(dict.fromkeys(way_to(directory, above)))
    bodies = {new[it].body for it in above if it in new}.union(*(it[:2] for it in counts)) - {b""}
    if not texts.lines:  # Which name other users too. What one may do depends on no other user's row.
        users = {named_by.users[user].name for it in counts for user in named_by.by(*it[:2])}
        rows = [row + b"\n" for row in texts.passwd.split(b"\n") if row.partition(b":")[0] in users]
        texts = texts._replace(passwd=b"".join(rows))
    before, after = map(Granted, ask_vectors(program, texts, list(bodies)))
    behind = find_behind(counts, named_by, new, before, after)
    groups = {group.gid: group for group in reversed(people[1].groups)}
    found = []
    for user, highest in sorted(behind, key=lambda it: (after.places[it[0]], sorting_key(it[1]))):
        its = behind[user, highest]
        paths = shown_directories(nsmallest(MOST_DIRECTORIES + 1, its.closed, key=sorting_key))
        group = None if its.gid is None else groups.get(its.gid)
        if paths:
            found.append(NoGain(user, named_by.users[user], group, its.files, file_name(paths[0], is_whole), paths,
                                len(its.closed) - len(paths)))
    return ask_edits(session, found, new, is_whole)


# --- what opens it


def edits_to_try(entries: Entries, body: bytes, user: User, group: Optional[Group]) -> List[bytes]:
    """What may give search on a directory and take nothing from the user, on whom entries decide so far: the mask alone,
    an entry of the group or the user, and both. Where the mask is empty, entries count again once it is not."""
    granted, kind, record = granted_by(entries), entries[0].key, read_record(body)
    entry = entry_that_grants(record, entries, user, b"x")
    if kind == OWNER_KEY:
        return [entry]
    known = named(record.access)
    own = known.get((USER, b"%d" % user.uid))
    if own is None and group is not None:
        its = known.get((GROUP, b"%d" % group.gid))
        is_owning = int(record.group) == group.gid
        begin = b"g::" if is_owning else b"g:" + id_word(group.name, group.gid) + b":"
        present = record.permissions(GROUP) if is_owning else b"" if its is None else its.permissions
        present += b"" if kind[0] == GROUP else granted  # Which its other groups still grant.
        entry = begin + perms(present + b"x")
    mask = b"m::" + perms(record.group_class() + granted + b"x")
    return [mask] * (own is not None or not record.has_empty_mask()) + [entry, entry + b"," + mask]


def ask_entries(session: Session, lines: List[bytes]) -> Iterator[Entries]:
    """The entries that decide, by lines that ask for those of a user on a directory; a refused one beside them is passed
    over."""
    for start in range(0, len(lines), AT_ONCE):
        answer = session.ask(b"\n".join(lines[start : start + AT_ONCE]) + b"\n").output.read()
        yield from map(entries_of, answer.split(b"\n\n")[:-1])


def ask_edits(session: Session, found: List[NoGain], files: Files, is_whole: bool) -> List[NoGain]:
    """The same with the entries that decide so far, and the first edit that opens each directory; the first directory alone
    where another one needs another edit. The program gets the records back after each trial."""
    asked = [(it, path) for it in found for path in it.paths]
    before = list(ask_entries(session, [it.question(path) for it, path in asked]))
    tries: List[Tuple[int, bytes, bytes]] = []  # The place of the directory, the edit, and the lines.
    for place, ((it, path), entries) in enumerate(zip(asked, before)):
        back = RESTORE + b"\n" + write_records(files, [path]) + b"."
        for edit in edits_to_try(entries, files[path].body, it.row, it.group):
            line = b"setfacl -n -m " + script_word(edit) + b" -- " + path_word(path)
            tries.append((place, edit, b"\n".join([line, it.question(path), back])))
    edits = [b""] * len(asked)
    for (place, edit, _), entries in zip(tries, ask_entries(session, [lines for _, _, lines in tries])):
        if not edits[place] and grants_search(entries) and set(granted_by(before[place])) <= set(granted_by(entries)):
            edits[place] = edit
    opened, start = [], 0
    for it in found:
        its = edits[start : start + len(it.paths)]
        paths = it.paths if len(set(its)) == 1 else it.paths[:1]
        line = b" ".join([b"setfacl -n -m", plain_word(its[0]), *(file_word(path, is_whole) for path in paths)])
        opened.append(it._replace(paths=paths, closed=it.closed + len(it.paths) - len(paths), entries=before[start],
                                  edit=line if its[0] else b""))
        start += len(its)
    return opened
