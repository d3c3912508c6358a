"""Answers of facl-who about the files of some folders: who has rights on them, on how many, on which first, and by which
entries; with --owner and --names, those that somebody owns, or that an entry of a list names somebody on; with --user,
what one user may do, by folder to a depth."""
from __future__ import annotations

import itertools
import operator
import re
from collections import Counter
from typing import Dict, Iterator, List, Optional, Set, Tuple

from ...base.names import highest, json_text, parent_of, path_word, read_path, sorting_key, way_to
from ...base.tables import Column, Table
from ...model import choice, sources
from ...model.entries import OWNER_KEY, USER, ReadRecord, read_record
from ...model.everybody import directories_of, paths_of
from ...model.records import list_slices, path_of, paths_in, split_record
from ...model.rights import GRANTED, REQUESTS
from ...program.protocol import BELOW, CAN, DEFAULT_ENTRY, LIST_EFFECTIVE, MAY
from ...program.session import LINES_ROOM, parts_of
from .asking import WORDS, Asker, NamedUser, Reasons, Right, WhoAnswer, plain_entry

# By user, as the program prints the name: how many, and the path of the first.
FoundFiles = Dict[bytes, Tuple[int, bytes]]
HIGHEST_FIRST = ["write", "read", "enter"]
COLUMNS = [Column("FOLDER"), Column("HERE"), Column("HIGHEST"),
           *(Column(word.upper(), True) for word in WORDS), Column("FILES", True)]
DEFAULT_LINE = re.compile(rb"^[ \t]*d(?:efault)?:", re.MULTILINE)


def ask_below(asker: Asker, right: Right, folders: List[bytes]) -> FoundFiles:
    """Those who have a right on a file at or below some paths."""
    found: FoundFiles = {}
    with asker.without_unwritable(right.letters, folders):
        for words in sources.operands_of(highest(folders)):
            for line in asker.lines_of(BELOW, right.letters, *words):
                count, user, name = line.split(b" ", 2)
                before, first = found.get(user) or (0, read_path(name))
                found[user] = before + int(count), first
    return found


def of_rights(asker: Asker, rights: List[Right], folders: List[bytes]) -> WhoAnswer:
    found = [ask_below(asker, right, folders) for right in rights]
    users = choice.in_order((user for its in found for user in its), asker.passwd)
    kept = choice.kept(users, asker.given, asker.passwd)
    reasons = Reasons(asker, {(user, its[user][1]): None for its in found for user in kept if user in its})
    columns, rows, objects = [Column("USER")], [], []
    for right in rights:
        title = right.word.upper() if right.word.isalpha() else right.word
        columns += [Column(title, True), Column("FIRST " + title), Column(title + " BY")]
    for user in kept:
        row, its = [asker.shown(user)], []
        for right, known in zip(rights, found):
            files, first = known.get(user, (0, b""))
            pair = user, first
            row += [b"%d" % files, asker.name_of(first) if files else b"", reasons.text(pair, right) if files else b""]
            its += [{"right": right.word, "count": files, "path": json_text(asker.name_of(first)),
                     "by": [json_text(plain_entry(entry)) for entry in reasons.granting(pair, right)]}] if files else []
        rows.append(row)
        objects.append({"user": json_text(row[0]), "rights": its})
    what = " or ".join(right.word for right in rights).encode()
    names = [json_text(asker.name_of(path)) for path in folders]
    return WhoAnswer(
        "rights", Table(columns, rows), {"folders": names, "users": objects},
        b"nobody may " + what + b" anything " + asker.spoken(folders), [it for it in users if it not in set(kept)],
        tuple(asker.beside(row[0] for row in rows)))


# --- whose files


def naming(record: ReadRecord, user: NamedUser) -> Iterator[bytes]:
    """The entries that name a user, with the user's name in the place of the id."""
    for begin, entries in ((b"", record.access), (b"default:", record.default)):
        for it in entries:
            if it.key == (USER, b"%d" % user.uid):
                yield begin + plain_entry(it._replace(key=(USER, user.shown)))


def owning(record: ReadRecord, user: NamedUser) -> Iterator[bytes]:
    """The owner's entry, where the user is the owner."""
    return (it.text() for it in record.access if record.owner == b"%d" % user.uid and it.key == OWNER_KEY)


def files_of_user(asker: Asker, question: str, user: NamedUser, folders: List[bytes]) -> WhoAnswer:
    verb, entries_of = (b" owns nothing ", owning) if question == "owner" else (b" is named by no entry ", naming)
    rows: List[List[bytes]] = []
    files: List[Dict[str, object]] = []
    for words in sources.operands_of(highest(folders)):
        for record in asker.session.ask_accepted(b" ".join([LIST_EFFECTIVE, *words])).records():
            name, body = split_record(record)
            entries = list(entries_of(read_record(body), user))
            if entries:
                file = asker.name_of(path_of(name))
                rows += [[file, entry] for entry in entries]
                files.append({"path": json_text(file), "entries": list(map(json_text, entries))})
    return WhoAnswer(question, Table([Column("FILE"), Column("ENTRY")], rows),
                     {"user": json_text(user.shown), "uid": user.uid, "files": files},
                     user.shown + verb + asker.spoken(folders))


# --- what one user may do


class Folders:
    """The folders from some tops down to a depth, with the numbers of files at or below each. A folder has a file below it, or
    is one of the directories."""

    def __init__(self, tops: Set[bytes], depth: int, recorded: List[bytes], directories: Set[bytes]) -> None:
        self.levels: Dict[bytes, Optional[int]] = {}  # Of all folders: how far below a top each is; None where it is not.
        inside = files_by_folder(recorded)
        for folder in (*tops, *inside, *directories):
            for it in way_to(folder, self.levels):
                above = self.levels[parent_of(it)] if it else None
                self.levels[it] = 0 if it in tops else None if above is None else above + 1
        self.deepest = sorted(self.levels, key=sorting_key, reverse=True)  # The deepest ones first.
        known = {path for path, level in self.levels.items() if level is not None and level <= depth}.intersection(recorded)
        self.paths = [path for path in self.deepest[::-1] if path in known]
        self.files = self.count(recorded, inside)

    def count(self, paths: List[bytes], inside: Counter[bytes]) -> Dict[bytes, int]:
        """By folder: how many of some files are at or below it, by how many are in each."""
        themselves = set(self.paths).intersection(paths)
        for folder in filter(None, self.deepest):
            inside[parent_of(folder)] += inside[folder]
        return {path: inside[path] + (path in themselves) for path in self.paths}


def files_by_folder(paths: List[bytes]) -> Counter[bytes]:
    """How many of some paths in path order are in each folder; the root is in none."""
    rest = itertools.islice(paths, int(paths[:1] == [b""]), None)
    return Counter(map(operator.itemgetter(0), map(bytes.rpartition, rest, itertools.repeat(b"/"))))


def greatest(requests: bytes) -> str:
    """The greatest of the requests that `can` prints."""
    return GRANTED[sum(1 << REQUESTS.index(it) for it in requests.decode().split() if it in REQUESTS)]


def ask_here(asker: Asker, word: bytes, paths: List[bytes]) -> Iterator[str]:
    """What the user may do with each of some files."""
    lines = [asker.line(CAN, word, path_word(path)) for path in paths]
    for part in parts_of(lines, LINES_ROOM):
        yield from map(greatest, asker.session.ask_accepted(b"\n".join(part)).lines())


def directories_in(asker: Asker) -> Set[bytes]:
    """The files whose names end in a slash, and those with default entries; all folders of a dump by facl-snapshot are among
    the first ones."""
    folder, is_live = asker.session.folder, False
    found: Set[bytes] = set()
    for piece in sources.dump_pieces(folder):
        found.update(directories_of(piece))
        is_live = is_live or sources.LIVE_ROOT in piece
    if is_live or not any(map(DEFAULT_LINE.search, sources.dump_pieces(folder))):
        return found
    tops = sources.find_tops(asker.session, folder)
    listing = list_slices(sources.list_below(asker.session, tops))
    return found.union(path for path, file in listing.files.items() if DEFAULT_ENTRY in file.body)


def of_user(asker: Asker, user: NamedUser, folders: List[bytes]) -> WhoAnswer:
    found = Folders({*highest(folders)}, asker.given.depth, paths_of(asker.world), directories_in(asker))
    word, name = asker.word_of(user.shown), asker.shown(user.shown)
    rows: List[List[bytes]] = []
    objects: List[Dict[str, object]] = []
    with asker.without_unwritable(b"w", folders):
        answers = {right: asker.session.ask_accepted(asker.line(MAY, word, letters)) for right, letters in WORDS.items()}
        counts = {right: found.count(paths, files_by_folder(paths)) for right, its in answers.items() for paths in [paths_in(its)]}
        paths = [path for path in found.paths if any(its[path] for its in counts.values())]
        for path, here in zip(paths, ask_here(asker, word, paths)):
            numbers = {right: its[path] for right, its in counts.items()}
            most = next(it for it in HIGHEST_FIRST if numbers[it])  # On a file at or below the folder.
            numbers["count"] = found.files[path]
            rows.append([asker.name_of(path), here.encode(), most.encode(), *(b"%d" % it for it in numbers.values())])
            objects.append({"path": json_text(rows[-1][0]), "here": here, "highest": most, **numbers})
    return WhoAnswer(
        "user", Table(COLUMNS, rows), {"user": json_text(name), "depth": asker.given.depth, "folders": objects},
        name + b" may read, write and enter nothing " + asker.spoken(folders), after=tuple(asker.beside([name])))
