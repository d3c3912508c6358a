"""The edits that lead from one snapshot to another: the lines of people and files, answered by one session over the
first snapshot. What it lists then has to be what a session over the second one lists, to the byte, and each user has to
have the id and the groups of the second one: so `gains` compares two states that were recorded.
"""
from __future__ import annotations

import re
from typing import Iterable, Iterator, List

from ...base.names import is_below, number_of, path_word, script_word, write_user
from ...model.people import People, groups_by_user, rows_of, user_word
from ...program.protocol import IN_LINE, RESTORE
from ...program.scripts import words_of
from ...program.session import Session, parts_of
from .states import Members, Pair, State, members_of

SCRIPT_LIMIT = 60 << 20  # A run of the program takes 64 MiB, of which questions have a part.
AT_ONCE = 500  # Lines that are sent at once: their messages have room in a pipe.
GROUP_ROW = b"%s:x:%d:\n"
NUMBER = re.compile(IN_LINE.replace(b"%d", b"[0-9]+"))  # Of a line, in a message.


class CannotLead(Exception):
    """Why no edits lead from one snapshot to the other."""

    def __init__(self, text: bytes) -> None:
        super().__init__(text)
        self.text = text


# --- users and groups


def group_text(old: State, new: State) -> bytes:
    """The groups before, with a row without members for each other id that a user has afterwards. A bad row stays, and
    the program names it."""
    rows = [row for row in rows_of(old.group) if len(row) > 2 and row[2].isdigit()]
    names, ids = {row[0] for row in rows}, {number_of(row[2]) for row in rows}
    lacking = {gid for member in members_of(new.people()).values() for gid in member.groups} - ids
    text = old.group + b"\n" * (old.group[-1:] not in (b"", b"\n"))
    for gid in sorted(lacking):
        name = b"group-%d" % gid
        while name in names:
            name += b"-"
        text += GROUP_ROW % (name, gid)
    return text


def word_of_user(people: People, name: bytes) -> bytes:
    found = user_word(people.users, name)
    if found is None:
        raise CannotLead(b"no word means the user " + name)
    return found


def row_word(people: People, gid: int, name: bytes) -> bytes:
    """The word that means a row of a group; an id means its first row."""
    if next(it for it in people.groups if it.gid == gid).name == name:
        return b"%d" % gid
    if name.isdigit():
        raise CannotLead(b"no word means the group " + name)
    return script_word(write_user(name))


class PeopleEdits:
    """Lines that make the users and groups of one snapshot those of another; each is done as it is made."""

    def __init__(self, people: People, wanted: Members) -> None:
        self.people, self.wanted = people, wanted
        self.lines: List[bytes] = []

    def add(self, line: bytes) -> None:
        self.people.change(words_of(line) or [])
        self.lines.append(line)

    def make(self) -> List[bytes]:
        for name in [user.name for user in self.people.users if not self.stays(user.name, user.uid)]:
            self.add(b"userdel -- " + word_of_user(self.people, name))
        known = {user.name for user in self.people.users}
        for name, member in self.wanted.items():
            if name not in known:
                self.add(self.line_of_new(name))
        for user in list(self.people.users):
            if user.gid != self.wanted[user.name].primary:
                self.add(b"usermod -g %d -- %s" % (self.wanted[user.name].primary, word_of_user(self.people, user.name)))
        for name, groups in groups_by_user(self.people).items():
            self.add_memberships(name, sorted(self.wanted[name].groups - groups))
            self.remove_memberships(name, groups - self.wanted[name].groups)
        return self.lines

    def stays(self, name: bytes, uid: int) -> bool:
        return name in self.wanted and self.wanted[name].uid == uid

    def line_of_new(self, name: bytes) -> bytes:
        uid = self.wanted[name].uid
        if any(user.uid == uid for user in self.people.users):
            raise CannotLead(b"two users have the id %d" % uid)
        if name.isdigit() or b"," in name:
            raise CannotLead(b"no line adds the user " + name)
        return b"useradd -u %d -g %d -- %s" % (uid, self.wanted[name].primary, script_word(write_user(name)))

    def add_memberships(self, name: bytes, groups: List[int]) -> None:
        for gid in groups:
            self.add(b"gpasswd -a=%s -- %d" % (word_of_user(self.people, name), gid))

    def remove_memberships(self, name: bytes, groups: Iterable[int]) -> None:
        rows = [row for row in self.people.groups if row.gid in groups and name in row.members]
        for row in rows:
            word = word_of_user(self.people, name)
            self.add(b"gpasswd -d=%s -- %s" % (word, row_word(self.people, row.gid, row.name)))


# --- files


def removing_lines(pairs: Iterable[Pair]) -> Iterator[bytes]:
    """Lines that remove what is gone, and what is of another kind; what is below a directory goes with it."""
    tops: List[bytes] = []
    for pair in pairs:
        if pair.old is not None and (pair.new is None or pair.is_of_other_kind()):
            if not tops or not is_below(pair.path, tops[-1]):
                tops.append(pair.path)
    for words in parts_of(map(path_word, tops)):
        yield b"rm -r -- " + b" ".join(words)


def making_lines(pairs: Iterable[Pair], user: int) -> Iterator[bytes]:
    """Lines that make what is new; whose it is, and its lists, come afterwards."""
    for pair in pairs:
        if pair.new is not None and (pair.old is None or pair.is_of_other_kind()):
            kind = b"-d " if pair.new.is_directory else b""
            yield b"creat %s--user=%d --mode=0 -- %s" % (kind, user, path_word(pair.path))


def restoring_text(pairs: Iterable[Pair]) -> bytes:
    """The records of what is new or differs."""
    return b"".join(pair.new.record + b"\n\n" for pair in pairs if pair.new is not None)


# --- the session


class Edits:
    """The edits between two snapshots, as one session is asked them."""

    def __init__(self, old: State, new: State, pairs: List[Pair]) -> None:
        people = People(old.passwd, group_text(old, new))
        wanted = members_of(new.people())
        self.people = PeopleEdits(people, wanted).make()
        if members_of(people) != wanted:
            raise CannotLead(b"no lines lead to its users and groups")
        self.files = list(removing_lines(pairs))
        if any(pair.old is None or pair.is_of_other_kind() for pair in pairs):
            if not people.users:
                raise CannotLead(b"nobody is there to make its new files")
            self.files += making_lines(pairs, people.users[0].uid)
        self.records = restoring_text(pairs)
        if sum(map(len, self.people)) + sum(map(len, self.files)) + len(self.records) > SCRIPT_LIMIT:
            raise CannotLead(b"more differs than a run of the program takes")

    def answer(self, session: Session) -> None:
        """Has a session do them."""
        lines = self.people + self.files
        for start in range(0, len(lines), AT_ONCE):
            ask_all(session, b"".join(line + b"\n" for line in lines[start : start + AT_ONCE]))
        if self.records:
            ask_all(session, RESTORE + b"\n" + self.records + b".\n")


def ask_all(session: Session, lines: bytes) -> None:
    """Has a session do lines, of which the first that is refused says why there are no edits."""
    messages = session.ask(lines).messages
    if messages:
        raise CannotLead(NUMBER.sub(b"", messages[0]))
