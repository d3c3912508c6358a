"""facl open: the fewest entries by which a user may do something with a file along its path: on the file, and for search on each
directory above that is closed to the user. No mask is widened, and nobody else gains or loses anything: the program tries the lines,
and the path without each of them, before they are planned."""
from __future__ import annotations

from typing import Dict, Iterator, List, NamedTuple

from ..base.folders import folder_of
from ..base.messages import Failure, counted
from ..base.names import directories_above, file_word, path_word, plain_word, write_user
from ..base.user_tools import User
from ..model.entries import MASK, OWNER_KEY, Entries, entries_of, granted_by, perms, read_record
from ..model.everybody import World
from ..model.label_answers import ask_records
from ..model.marks import NO_WRITING, about, marks_of
from ..model.records import File, Files, asks_as_directory, list_slices, list_words, write_records
from ..model.rights import gains_of
from ..model.rules_of_lists import entry_that_grants, grants_search
from ..model.snapshot import read_links
from ..program.protocol import CAN, ENTRIES_OF, GAINS, GAINS_ALONG_PATHS, LIST_NUMBERS, RESTORE
from ..program.session import parts_of
from .notes import JobNote

CANNOT, NOTHING_TO_DO = 1, 3
NOT_JUST_THAT = b"nothing was planned: the lines were tried, and %s"


class OpenJob(NamedTuple):
    """The lines of edits, and what a person has to know."""

    edits: bytes
    notes: List[JobNote]


class Wanted(NamedTuple):
    """What a user is to be able to do."""

    world: World
    user: User
    path: bytes
    letters: bytes
    is_alone: bool  # Whether the directories above are not looked at.

    def name(self) -> bytes:
        return write_user(self.user.name)

    def word(self) -> bytes:
        return self.world.word_of(self.user.name)

    def way(self) -> List[bytes]:
        """The file, and the directories above it, the highest first."""
        return [self.path] if self.is_alone else [*directories_above(self.path)[::-1], self.path]

    def is_granted(self, reach: bytes) -> bool:
        """Whether the program grants it, all at once."""
        line = b" ".join([CAN, reach + b"--", self.word(), path_word(self.path)])
        answer = self.world.session.ask_accepted(line).read()
        return any(set(self.letters) <= set(its) for its in answer.split())

    def is_granted_there(self) -> bool:
        return self.is_granted(self.world.reach(self.is_alone))


def records_of(wanted: Wanted, paths: List[bytes]) -> Files:
    """The files at some paths, as far as they are recorded."""
    words = (it for part in parts_of(map(path_word, paths)) for it in list_words(wanted.world.session, part, LIST_NUMBERS))
    return list_slices(words).files


def edits_of(wanted: Wanted, files: Files) -> Dict[bytes, bytes]:
    """By path what the entries of a file become; fails where a mask does not let them."""
    paths = [path for path in wanted.way() if path in files]
    bodies = ask_records(wanted.world.session, [b" ".join([ENTRIES_OF, wanted.word(), path_word(path)]) for path in paths])
    found: Dict[bytes, bytes] = {}
    for path, body in zip(paths, bodies):
        entries = entries_of(body)
        if path == wanted.path:
            if not wanted.is_granted(b""):
                found[path] = edit_of(wanted, path, files[path].body, entries, wanted.letters)
        elif not grants_search(entries):
            found[path] = edit_of(wanted, path, files[path].body, entries, b"x")
    return found


def edit_of(wanted: Wanted, path: bytes, body: bytes, entries: Entries, letters: bytes) -> bytes:
    """An entry, and a mask where there is none and the entry takes more than the owning group has: then it limits nobody else."""
    record = read_record(body)
    edit = entry_that_grants(record, entries, wanted.user, letters)
    needed, mask = perms(granted_by(entries) + letters), record.group_class()
    if entries[0].key == OWNER_KEY or set(needed) <= set(mask):
        return edit
    with_mask = edit + b",m::" + perms(mask + needed)
    if not record.permissions(MASK):
        return with_mask
    line = line_of(with_mask, [file_word(path, wanted.world.is_whole)])
    raise Failure(b"%s: its mask is %s, and %s needs %s there; nothing within the mask grants that. This widens it, for all whom the "
                  b"ACL names: %s" % (wanted.world.name_of(path), mask, wanted.name(), needed, line), CANNOT)


def line_of(edit: bytes, words: List[bytes]) -> bytes:
    return b" ".join([b"setfacl -n -m", plain_word(edit), *words])


def lines_of(wanted: Wanted, edits: Dict[bytes, bytes]) -> Iterator[bytes]:
    """A line for the paths that get the same entry, or several where it has no room for them."""
    words_of: Dict[bytes, List[bytes]] = {}
    for path, edit in edits.items():
        words_of.setdefault(edit, []).append(file_word(path, wanted.world.is_whole))
    for edit, words in words_of.items():
        yield from (line_of(edit, part) for part in parts_of(words))


# --- the lines are tried


def give(wanted: Wanted, files: Files) -> None:
    wanted.world.session.ask_accepted(RESTORE + b"\n" + write_records(files, files) + b".")


def expect(is_so: bool, text: bytes) -> None:
    if not is_so:
        raise Failure(NOT_JUST_THAT % text)


def other_names(wanted: Wanted) -> List[bytes]:
    """Those of the file, which get what it gets."""
    links = read_links(folder_of(wanted.world.session.folder).optional(b"links"))
    return [name for names in links if wanted.path in names for name in names if name != wanted.path]


def try_lines(wanted: Wanted, files: Files, edits: Dict[bytes, bytes], lines: List[bytes]) -> List[JobNote]:
    """Fails unless the lines grant it, each path is needed, no mask changes, and nobody else gains or loses; what else the user
    gains by them."""
    session = wanted.world.session
    answer = session.ask(b"\n".join(lines) + b"\n")
    expect(not answer.messages, b"; ".join(answer.messages))
    expect(wanted.is_granted_there(), b"do not grant it")
    new = records_of(wanted, [*edits])
    for path in edits:
        masks = [read_record(it.body).permissions(MASK) for it in (files[path], new[path])]
        expect(masks[0] in (b"", masks[1]), b"change the mask of " + wanted.world.name_of(path))
        give(wanted, {path: files[path]})
        expect(not wanted.is_granted_there(), b"are not needed on " + wanted.world.name_of(path))
        give(wanted, {path: new[path]})
    names = other_names(wanted) if wanted.path in edits else []
    if names:
        give(wanted, {name: File(False, new[wanted.path].body) for name in names})
    return gained(wanted, edits)


def gained(wanted: Wanted, edits: Dict[bytes, bytes]) -> List[JobNote]:
    """What the user gains; whoever has the same id is that user."""
    world = wanted.world
    same = [write_user(it.name) for it in world.users if it.uid == wanted.user.uid]
    rows = [*world.session.ask_accepted(GAINS if wanted.is_alone else GAINS_ALONG_PATHS).lines()]
    for old, new, _, user, first in (row.split(b" ", 4) for row in rows):
        expect(user in same, b"change what others may do: %s, first: %s" % (world.everybody.shown(user), first))
        expect(int(old, 16) & ~int(new, 16) == 0, b"take something from %s: first: %s" % (user, first))
    more = sum(it.files for it in gains_of(rows) if it.user == wanted.name()) - len(edits)
    opened = len(edits) - (wanted.path in edits)
    parts = [b"opens " + counted(opened, "parent directory", "parent directories")] * bool(opened)
    parts += [b"by that %s gets to %s" % (wanted.name(), counted(more, "more file"))] * bool(more)
    notes = [JobNote(b"; ".join(parts))] * bool(parts)
    return notes + [JobNote(it + b" has the same id, and gets the same") for it in same if it != wanted.name()]


def opening(wanted: Wanted) -> OpenJob:
    """The lines; fails where there are none."""
    world = wanted.world
    if wanted.user.uid == 0:
        raise Failure(b"nothing to do: %s has the id 0, to whom Linux grants nearly everything" % wanted.name(), NOTHING_TO_DO)
    kind = marks_of(world.session.folder).keeps(wanted.path, NO_WRITING) if b"w" in wanted.letters else None
    if kind is not None:
        raise Failure(b"%s: is %s: nobody can write it, whatever its ACL" % (world.name_of(wanted.path), about(kind)), CANNOT)
    if wanted.is_granted_there():
        raise Failure(b"nothing to do: %s has %s on %s" % (wanted.name(), wanted.letters, world.name_of(wanted.path)), NOTHING_TO_DO)
    files = records_of(wanted, wanted.way())
    edits = edits_of(wanted, files)
    lines = [*lines_of(wanted, edits)]
    notes = try_lines(wanted, files, edits, lines)
    if b"x" in wanted.letters and b"s" in read_record(files[wanted.path].body).flags and not asks_as_directory(world.session, wanted.path):
        notes.append(JobNote(world.name_of(wanted.path) + b" has set-user-ID or set-group-ID: it runs with the rights of its owner or group"))
    return OpenJob(b"\n".join(lines) + b"\n", notes)
