"""A user leaves: the lines of edits that take the entries and memberships of the user away, hand the files on, and remove the user;
and what they leave to be done."""
from __future__ import annotations

import os
from typing import Iterator, List, NamedTuple, Optional

from ..base.messages import Failure, counted
from ..base.names import is_at_or_below, live_name, read_path, write_user
from ..base.user_tools import User
from ..model.choice import is_recorded
from ..model.entries import GROUP, ReadRecord, named
from ..model.everybody import World, world_of
from ..model.marks import marks_of
from ..model.meta import meta_of
from ..model.people import Group, People, rows_of
from ..model.records import path_of, restore
from ..model.rights import ask_gains
from ..model.sources import Source
from ..program.protocol import OWNER_HEAD
from .of_user import (
    FilesThatStay, JobPlan, RecordedFiles, check_others, counted_files, entry_of, files_of, group_word, key_of, lines_of, user_of,
    without_stuck, word_of,
)
from .origin import GROUPS, USERS, Origins

MAIL, CRONTAB = b"/var/mail/", b"/var/spool/cron/crontabs/"
TAKES, TAKES_DEFAULT = b"setfacl -n -x ", b"setfacl -n -x d:"
HOME = 5  # Its place in a row of passwd(5).


class Leaving(NamedTuple):
    """Who leaves, of a snapshot that a session is over."""

    world: World
    user: User
    heir: Optional[User]
    has_row: bool
    people: People  # As they were.
    origins: Origins

    def shown(self) -> bytes:
        return write_user(self.user.name)

    def owns(self, record: ReadRecord) -> bool:
        return record.owner == b"%d" % self.user.uid

    def is_named(self, record: ReadRecord) -> bool:
        return key_of(self.user) in named(record.access)

    def is_named_by_default(self, record: ReadRecord) -> bool:
        return key_of(self.user) in named(record.default)

    def groups(self) -> List[Group]:
        """Those whose rows name the user."""
        return [it for it in self.people.groups if self.user.name in it.members] if self.has_row else []

    def of_service(self, group: Group) -> bool:
        return self.origins.is_local(GROUPS, group.name, group.gid) is False


class LeaverLines(NamedTuple):
    """The lines of edits by what they do, which a session has answered."""

    owners: List[bytes]
    entries: List[bytes]
    people: List[bytes]
    taken: int  # Files of which entries go,
    handed: int  # and files that go to the heir.
    is_removed: bool  # Whether the user is.

    def text(self, leaving: Leaving) -> bytes:
        heads = (b"# Files of %s", b"# Entries of %s", b"# Memberships of %s, and the user")
        return b"".join(b"\n".join([head % leaving.shown(), *lines, b""])
                        for head, lines in zip(heads, (self.owners, self.entries, self.people)) if lines)


# --- the lines


def ask_lines(leaving: Leaving) -> LeaverLines:
    """Has the session answer the lines, and returns them."""
    world, user, found = leaving.world, leaving.user, files_of(leaving.world.session)
    marks = marks_of(world.session.folder)
    owned, named_in, by_default = (without_stuck(marks, found.that(has), FilesThatStay({}))
                                   for has in (leaving.owns, leaving.is_named, leaving.is_named_by_default))
    handed = owned if leaving.heir is not None else []
    owners = [*hand_on(leaving, found, handed)]
    entries = [*lines_of(world, TAKES + entry_of(user), named_in), *lines_of(world, TAKES_DEFAULT + entry_of(user), by_default)]
    people = [b"gpasswd -d %s %s" % (word_of(world.users, user), group_word(leaving.people, it.name))
              for it in leaving.groups() if not leaving.of_service(it)]
    is_removed = leaving.has_row and len(handed) == len(found.that(leaving.owns)) and is_removable(leaving)
    if is_removed:
        people.append(b"userdel " + word_of(world.users, user))
    for line in entries + people:
        world.session.ask_accepted(line)
    return LeaverLines(owners, entries, people, len({*named_in, *by_default}), len(handed), is_removed)


def hand_on(leaving: Leaving, found: RecordedFiles, paths: List[bytes]) -> Iterator[bytes]:
    """Gives files to the heir. The program has no chown, whose lines facl-plan answers by records too."""
    world, heir, mine = leaving.world, leaving.heir, {*paths}
    if heir is None:
        return
    old, new = (OWNER_HEAD + b"%d\n" % it.uid for it in (leaving.user, heir))
    bodies = [body.replace(old, new, 1) for body in found.columns.numbers.bodies()]
    restore(world.session, ((path, bodies[number]) for path, number in zip(found.columns.paths, found.columns.labels)
                            if path in mine))
    yield from lines_of(world, b"chown " + entry_of(heir)[2:], paths)


def is_removable(leaving: Leaving) -> bool:
    """Whether userdel may remove the user, who is of no directory service as far as that is known."""
    return leaving.origins.is_local(USERS, leaving.user.name, leaving.user.uid) is not False


# --- what is left, by the files, users and groups as they are after the lines


def left_of(leaving: Leaving, lines: LeaverLines) -> Iterator[bytes]:
    found = files_of(leaving.world.session)
    yield from files_left(leaving, found)
    yield from account_left(leaving, lines)
    yield from group_left(leaving, found, lines)
    yield from left_outside(leaving)


def files_left(leaving: Leaving, found: RecordedFiles) -> Iterator[bytes]:
    """Entries that stay, and files that keep their owner."""
    world, marks, shown = leaving.world, marks_of(leaving.world.session.folder), leaving.shown()
    stay = FilesThatStay({})
    without_stuck(marks, found.that(lambda it: leaving.is_named(it) or leaving.is_named_by_default(it)), stay)
    yield from stay.texts(world, b"entries stay that name " + shown)
    stay, owned = FilesThatStay({}), found.that(leaving.owns)
    rest = without_stuck(marks, owned, stay)
    yield from stay.texts(world, b"files stay those of " + shown)
    if rest:
        yield shown + b" still owns " + counted_files(world, rest) + b"; name who gets them with --to"
    if owned and leaving.has_row and is_removable(leaving):
        yield shown + b" is not removed: whoever gets the id %d next would own these files" % leaving.user.uid


def account_left(leaving: Leaving, lines: LeaverLines) -> Iterator[bytes]:
    """The user, and memberships, of a directory service; and what the user gains until then."""
    shown = leaving.shown()
    for group in filter(leaving.of_service, leaving.groups()):
        yield b"group %s is not in /etc/group: end the membership of %s in the directory service" % (write_user(group.name), shown)
    if leaving.has_row and not is_removable(leaving):
        yield shown + b" is not in /etc/passwd: remove the user in the directory service"
    for it in ask_gains(leaving.world.session, is_alone=False) if not lines.is_removed else ():
        if it.user == shown and {*"rwx"}.intersection(it.new) - {*it.old}:
            yield b"%s gains by this, as an entry took rights: %s -> %s on %s, first: %s" % (
                shown, it.old.encode(), it.new.encode(), counted(it.files, "file"), leaving.world.name_of(path_of(it.first)))


def group_left(leaving: Leaving, found: RecordedFiles, lines: LeaverLines) -> Iterator[bytes]:
    """The primary group, where nobody else is in it."""
    gid, rows = leaving.user.gid, [it for it in leaving.people.groups if it.gid == leaving.user.gid]
    others = [it for it in leaving.world.users if it.gid == gid and it.name != leaving.user.name]
    if not leaving.has_row or others or not rows or any({*it.members} - {leaving.user.name} for it in rows):
        return
    number, name = b"%d" % gid, write_user(rows[0].name)
    paths = found.that(lambda it: it.group == number or (GROUP, number) in named((*it.access, *it.default)))
    is_gone = lines.is_removed and any(it.name == leaving.user.name for it in rows)
    if paths:
        what = b"userdel removes the group %s too" if is_gone else b"nobody else is in the group %s"
        yield what % name + b", to which files belong or which entries name: " + counted_files(leaving.world, paths)
    elif lines.is_removed and not is_gone:
        yield b"nobody is in the group %s then, and userdel does not remove it" % name


def left_outside(leaving: Leaving) -> Iterator[bytes]:
    """Files of the user on this host that the snapshot does not have."""
    rows = [it for it in rows_of(leaving.world.texts.passwd) if it[0] == leaving.user.name and leaving.has_row]
    home = b"".join(field for row in rows for field in row[HOME:HOME + 1])
    is_here, tops = leaving.origins.is_of_this_host(), [*map(read_path, leaving.origins.about.folders)]
    for what, name in ((b"home directory", home), (b"mail", MAIL + leaving.user.name), (b"crontab", CRONTAB + leaving.user.name)):
        path = read_path(name.replace(b"\\", b"\\\\"))
        is_inside = is_at_or_below(path, tops) and is_recorded(leaving.world.session, path)
        if rows and path and name.startswith(b"/") and not is_inside and is_here and os.path.lexists(name):
            yield b"the %s of %s is not in the snapshot: " % (what, leaving.shown()) + live_name(path)


# --- the job


def open_leaving(world: World, word: bytes, heir_word: Optional[bytes]) -> Leaving:
    user, people = user_of(world, word, needs_row=False), People(*world.texts)
    heir = None if heir_word is None else user_of(world, heir_word, may_be_root=True)
    if heir is not None and heir.uid == user.uid:
        raise Failure(write_user(heir.name) + b": is the user who leaves, so the files need another owner")
    has_row = any(it.name == user.name and it.uid == user.uid for it in people.users)
    origins = Origins(meta_of(world.session.folder), world.texts.passwd)
    return Leaving(world, user, heir, has_row, people, origins)


def said_of(leaving: Leaving, lines: LeaverLines) -> Iterator[bytes]:
    parts = [counted(lines.taken, "file loses", "files lose") + b" entries of " + leaving.shown()] * bool(lines.taken)
    if lines.handed and leaving.heir is not None:
        parts.append(counted(lines.handed, "file goes", "files go") + b" to " + write_user(leaving.heir.name))
    if parts:
        yield b", ".join(parts)
    yield b"nobody else gains or loses anything"
    if leaving.has_row and leaving.origins.is_local(USERS, leaving.user.name, leaving.user.uid) is None:
        yield b"whether %s is a row of /etc/passwd is not known of another host; by_hand finds out there" % leaving.shown()


def plan_of(program: str, source: Source, word: bytes, heir: Optional[bytes]) -> JobPlan:
    """The lines for a user who leaves, and what they leave."""
    with world_of(program, source) as world:
        leaving = open_leaving(world, word, heir)
        lines = ask_lines(leaving)
        check_others(world, filter(None, (leaving.user, leaving.heir)), leaving.shown())
        about = entry_of(leaving.user)[2:]
        return JobPlan(about, lines.text(leaving), [*said_of(leaving, lines)], [*left_of(leaving, lines)])
