"""A user joins: the lines of edits that give one user the entries and memberships of another one; what each grants, and what the
user may not use then all the same."""
from __future__ import annotations

from typing import Dict, Iterator, List, NamedTuple, Tuple

from ..base.messages import Failure, counted
from ..base.names import at_or_below, directories_above, path_word, write_user
from ..base.user_tools import User
from ..model import choice
from ..model.entries import CUT, GROUP, LETTERS, MASK, NOTHING, USER, Entry, ReadRecord, named
from ..model.everybody import World, world_of
from ..model.marks import marks_of
from ..model.meta import meta_of
from ..model.people import Group, People, listed_by_group
from ..model.records import path_of, paths_in
from ..model.rights import Gain, ask_gains
from ..model.sources import Source
from ..program.protocol import CAN, CHANGES, MAY
from ..program.tools import REACH, path_in
from .of_user import (
    FilesThatStay, JobPlan, RecordedFiles, check_others, counted_files, entry_of, files_of, group_word, key_of, lines_of,
    user_of, without_stuck, word_of,
)
from .origin import GROUPS, Origins

ADDS = b"gpasswd -a %s %s"
GIVES, GIVES_DEFAULT = b"setfacl -n -m ", b"setfacl -n -m d:"
Permissions = Dict[int, bytes]  # By label: those of an entry that is to be there.


class Joining(NamedTuple):
    """Who joins, and like whom, in a snapshot that a session is over."""

    world: World
    new: User
    like: User
    people: People
    origins: Origins
    folders: List[bytes]  # At or below which files are given; all without one.

    def shown(self) -> bytes:
        return write_user(self.new.name)

    def within(self, paths: List[bytes]) -> List[bytes]:
        return at_or_below(paths, self.folders) if self.folders else paths


class Membership(NamedTuple):
    """A group in which the other user is, and what its membership grants."""

    group: Group
    gains: List[Gain]
    why_not: bytes  # Why it is not given; empty where it is.

    def line(self, joining: Joining) -> bytes:
        return ADDS % (word_of(joining.world.users, joining.new), group_word(joining.people, self.group.name))

    def texts(self, joining: Joining) -> Iterator[bytes]:
        """A line for each kind of change."""
        line = self.line(joining)
        start = b"not planned, as " + self.why_not + b": " + line if self.why_not else line
        for it in sorted(self.gains, key=lambda it: (it.old, it.new)):
            yield start + b": %s -> %s on %s, first: %s" % (it.old.encode(), it.new.encode(), counted(it.files, "file"),
                                                           joining.world.name_of(path_of(it.first)))
        if not self.gains:
            yield start + b": grants nothing by itself"


# --- memberships


def lacking_groups(joining: Joining) -> List[Group]:
    """Those of the other user, also the primary one, in which the user is not."""
    listed = listed_by_group(joining.people)

    def has(user: User, gid: int) -> bool:
        return user.gid == gid or user.name in listed[gid]

    found = [it for it in joining.people.groups if has(joining.like, it.gid) and not has(joining.new, it.gid)]
    return [*{it.gid: it for it in reversed(found)}.values()][::-1]


def why_not(joining: Joining, group: Group) -> bytes:
    """Why a membership is not given, whatever it grants; empty where it is."""
    users = {*listed_by_group(joining.people)[group.gid], *(it.name for it in joining.people.users if it.gid == group.gid)}
    if group.gid == joining.like.gid and users == {joining.like.name}:
        return b"it is that of %s alone" % write_user(joining.like.name)
    if joining.origins.is_local(GROUPS, group.name, group.gid) is False:
        return b"it is not in /etc/group, so add the user in the directory service"
    return b""


class Reached(NamedTuple):
    """On how many files, each alone, the lines so far change something: at or below the folders, and elsewhere."""

    within: int
    elsewhere: int


def reached_of(joining: Joining) -> Reached:
    paths = [path_of(path_in(CHANGES, line)) for line in joining.world.session.ask_accepted(CHANGES).lines()]
    within = len(joining.within(paths))
    return Reached(within, len(paths) - within)


def memberships_of(joining: Joining) -> List[Membership]:
    """Asks of each what it grants, and gives the user those that are given. One that grants nothing in the folders is left out."""
    session, found = joining.world.session, []
    for group in lacking_groups(joining):
        it = Membership(group, [], why_not(joining, group))
        session.ask_accepted(it.line(joining))
        reached = reached_of(joining) if joining.folders else Reached(1, 0)
        elsewhere = b"it grants something on %s elsewhere" % counted(reached.elsewhere, "file") if reached.elsewhere else b""
        if reached.within:
            found.append(it._replace(gains=ask_gains(session, is_alone=False), why_not=it.why_not or elsewhere))
        session.ask_accepted(it.line(joining).replace(b" -a ", b" -d ", 1))
    for it in found:
        if not it.why_not:
            session.ask_accepted(it.line(joining))
    return found


# --- entries


def joined(*permissions: bytes) -> bytes:
    """All that is in some permissions."""
    return b"".join(letter if any(letter in its for its in permissions) else b"-" for letter in LETTERS)


def both(permissions: bytes, mask: bytes) -> bytes:
    """What a mask leaves of some permissions."""
    return b"".join(letter if letter in permissions and letter in mask else b"-" for letter in LETTERS)


def lacks(entries: Tuple[Entry, ...], joining: Joining) -> bytes:
    """What the entries of both users have together, where the user lacks some of it; else nothing."""
    its = named(entries)
    wanted, present = (its[key].permissions if key in its else NOTHING for key in (key_of(joining.like), key_of(joining.new)))
    return joined(wanted, present) if joined(wanted, present) != present else b""


def entries_for(joining: Joining, found: RecordedFiles, numbers: List[int]) -> Permissions:
    """The entry for the user in records that name the other one: with what the user may do there now, which an entry of its own
    replaces; none where a mask would take some of that."""
    owner = b"%d" % joining.new.uid
    wanted = {number: lacks(found.records[number].access, joining) for number in numbers if found.records[number].owner != owner}
    wanted = {number: its for number, its in wanted.items() if its}
    first = dict(zip(reversed(found.columns.labels), reversed(found.columns.paths)))
    word = joining.world.word_of(joining.new.name)
    lines = [b" ".join([CAN, b"--", word, path_word(first[number])]) for number in wanted]
    granted = joining.world.session.ask_accepted(b"\n".join(lines)).lines() if lines else ()
    done: Permissions = {}
    for (number, its), now in zip(wanted.items(), granted):
        present = joined(*now.split(b" "))
        if both(present, found.records[number].permissions(MASK)) == present:
            done[number] = joined(its, present)
    return done


class GivenEntries(NamedTuple):
    """The entries that are given."""

    lines: List[bytes]
    texts: List[bytes]  # Of each kind of entry: on how many files.


def give(joining: Joining, found: RecordedFiles, wanted: Permissions, is_default: bool) -> GivenEntries:
    """Has the session give the user these entries, and returns the lines."""
    world, marks, given = joining.world, marks_of(joining.world.session.folder), GivenEntries([], [])
    kinds: Dict[Tuple[bytes, bytes], List[int]] = {}
    for number, permissions in wanted.items():
        record = found.records[number]
        mask = next(it.permissions for it in (record.default if is_default else record.access) if it.key == (MASK, b""))
        kinds.setdefault((permissions, both(permissions, mask)), []).append(number)
    for (permissions, kept), numbers in kinds.items():
        paths = without_stuck(marks, joining.within(found.paths(numbers)), FilesThatStay({}))
        begin = (GIVES_DEFAULT if is_default else GIVES) + entry_of(joining.new) + b":" + permissions
        given.lines.extend(lines_of(world, begin, paths))
        if paths:
            text = Entry((USER, joining.shown()), permissions, kept).text(CUT)
            given.texts.append(b"default " * is_default + text + b" on " + counted_files(world, paths))
    for line in given.lines:
        world.session.ask_accepted(line)
    return given


# --- what the user may not use all the same


def lacking_files(joining: Joining) -> Dict[bytes, str]:
    """The files that the other user may use and the user not, along their paths, each with what is lacking."""
    found: Dict[bytes, str] = {}
    for letter in "rwx":
        one, other = (joining.world.session.ask_accepted(b" ".join([MAY, REACH, b"--", joining.world.word_of(it.name), letter.encode()]))
                      for it in (joining.like, joining.new))
        known = {*paths_in(other)}
        for path in joining.within([it for it in paths_in(one) if it not in known]):
            found[path] = found.get(path, "") + letter
    return found


class WhyLacking:
    """Why the user may not use a file."""

    def __init__(self, joining: Joining, memberships: List[Membership]) -> None:
        self.joining, self.files = joining, files_of(joining.world.session)
        self.marks = marks_of(joining.world.session.folder)
        self.left_out = {b"%d" % it.group.gid: write_user(it.group.name) for it in memberships if it.why_not}
        word = joining.world.word_of(joining.new.name)
        reached = joining.world.session.ask_accepted(b" ".join([MAY, REACH, b"--", word, b"0"]))
        self.reached = {*paths_in(reached)}

    def closed(self, path: bytes) -> bytes:
        """The highest directory above a file that does not let the user in."""
        above = [it for it in directories_above(path) if it in self.reached]
        return above[0] if above else b""

    def of(self, path: bytes, record: ReadRecord) -> bytes:
        new, like = self.joining.new, self.joining.like
        if path not in self.reached:
            return b"a directory above is closed"
        if record.owner == b"%d" % like.uid:
            return b"owned by " + write_user(like.name)
        if record.owner == b"%d" % new.uid:
            return b"owned by " + write_user(new.name)
        if self.marks.keeps(path) is not None:
            return b"nobody can change its entries"
        keys = {record.group, *(number for tag, number in named(record.access) if tag == GROUP)}
        names = [name for gid, name in self.left_out.items() if gid in keys]
        if names:
            return b"by the group " + b", ".join(names)
        return b"by an entry of %s, or of a group of %s" % ((write_user(new.name),) * 2)

    def texts(self, lacking: Dict[bytes, str]) -> Iterator[bytes]:
        """By reason: how many files, and the first one."""
        by_reason: Dict[bytes, List[bytes]] = {}
        for path, number in zip(self.files.columns.paths, self.files.columns.labels):
            if path in lacking:
                by_reason.setdefault(self.of(path, self.files.records[number]), []).append(path)
        world, new = self.joining.world, self.joining
        for reason, paths in by_reason.items():
            rest = b" (by %s)" % world.name_of(self.closed(paths[0])) if paths[0] not in self.reached else b""
            yield b"%s may still not do all that %s may (%s): " % (new.shown(), write_user(new.like.name), reason) + counted_files(
                world, paths) + rest


# --- the job


def open_joining(world: World, word: bytes, like_word: bytes, folders: List[str]) -> Joining:
    new, like = user_of(world, word), user_of(world, like_word)
    if new.uid == like.uid:
        raise Failure(write_user(new.name) + b": has the id of " + write_user(like.name) + b", so both have the same")
    paths = choice.folders_of(world.session, folders) if folders else []
    origins = Origins(meta_of(world.session.folder), world.texts.passwd)
    return Joining(world, new, like, People(*world.texts), origins, paths)


def text_of(joining: Joining, memberships: List[bytes], entries: List[bytes]) -> bytes:
    heads = (b"# Memberships of %s, as %s", b"# Entries of %s, as %s")
    names = joining.shown(), write_user(joining.like.name)
    return b"".join(b"\n".join([head % names, *lines, b""]) for head, lines in zip(heads, (memberships, entries)) if lines)


def plan_of(program: str, source: Source, word: bytes, like_word: bytes, folders: List[str]) -> JobPlan:
    """The lines that give a user what another one has."""
    with world_of(program, source) as world:
        joining = open_joining(world, word, like_word, folders)
        memberships = memberships_of(joining)
        lines = [it.line(joining) for it in memberships if not it.why_not]
        found = files_of(world.session)
        numbers = found.numbers(lambda it: key_of(joining.like) in named((*it.access, *it.default)))
        defaults = {number: its for number in numbers for its in [lacks(found.records[number].default, joining)] if its}
        given = [give(joining, found, entries_for(joining, found, numbers), False), give(joining, found, defaults, True)]
        check_others(world, [joining.new], joining.shown())
        texts = [*(text for it in memberships for text in it.texts(joining)), *(text for it in given for text in it.texts)]
        rest = WhyLacking(joining, memberships).texts(lacking_files(joining))
        edits = text_of(joining, lines, [line for it in given for line in it.lines])
        return JobPlan(entry_of(joining.new)[2:], edits, [*texts, b"no right of anybody else changes"], [*rest])
