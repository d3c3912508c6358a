"""The rules of facl-check: a line says who never, only or always has a right on all files at or below a path, or below it.

The file may be one that the caller cannot read, as by sudo: what is said of a line that is no rule has no word of it.
"""
from __future__ import annotations

import itertools
import os
import re
from typing import Callable, Iterable, List, NamedTuple, Optional, Set, Tuple

from ...base.messages import Failure
from ...base.names import file_name, path_word, plain_word, read_name, read_path, write_name
from ...base.trusted import read_given
from ...model.choice import is_recorded
from ...model.everybody import SHOWN, World
from ...model.people import Group, People, Row, ids_in, is_named, superusers_among, two_meanings, users_by_group
from ...model.records import path_of
from ...program.scripts import WORD, lines_with_numbers, read_text, words_of

NEVER, ONLY, ALWAYS = b"never", b"only", b"always"
READ, WRITE, ENTER = b"read", b"write", b"enter"
OTHERS, PEOPLE = b"others", b"people"  # Everybody else; all users whom the check is about,
EVERYBODY = b"everybody"  # and both.
ELSE, GROUP, BELOW = b"else", b"group", b"below"  # `everybody else`, `group NAME`, and what is below a path alone.
IN_GROUP = b"@"
KINDS, RIGHTS = (NEVER, ONLY, ALWAYS), (READ, WRITE, ENTER)
COMMENT = re.compile(rb"(?:^|(?<=[ \t]))#")
FORM = b"a rule is never|only|always WHO.. read|write|enter [below] PATH"
NO_KIND = b"word 1: write never, only or always; " + FORM
NO_RIGHT = b"no right: write read, write or enter before the PATH; " + FORM
NO_WHO = b"nobody is named: write users, group NAME, people, everybody else or everybody after the first word; " + FORM
NO_USER = b"no such user in the snapshot: write a name or an id of its passwd"
NO_GROUP = b"no such group in the snapshot: write a name or an id of its group"
NO_FILE = b"no such file in the snapshot: write the whole name of one that is recorded"
NO_FOLDER = b"is no folder, so nothing is below it: leave out below"
ONLY_ELSE = b"only everybody else: there is nobody beside whom a rule could keep out; write never people, or never with who shall not"
IS_ROOT = (b"a user of the uid 0, to whom the kernel grants nearly everything: leave it out, or give --with-root to judge it "
           b"as any other user")
NO_NAME = b"write the name of a group after group"
TWO_MEANINGS = b"an id, and also the name of another id: write the name of the id, or the name of digits in quotes"
IS_GROUP = b"no such user in the snapshot, but a group: write group before it"
NO_MEMBERS = b"a group that has no members in the snapshot"
INPUT = "-"  # The name of standard input.


class Rule(NamedTuple):
    """A line, with its words looked up."""

    number: int
    words: List[bytes]  # As they are written.
    kind: bytes
    users: Set[bytes]  # Names; without those of uid 0 whom a group brings.
    has_others: bool
    right: bytes
    path: bytes
    is_below: bool  # Whether it is about what is below the path alone.

    def text(self) -> bytes:
        return b" ".join(self.words)


class Faults(Exception):
    """What is wrong with lines of a file of rules, a list of texts."""


class BadRule(Exception):
    """What is wrong with a line, or with one of its words: a text."""


def raw_words(line: bytes) -> List[bytes]:
    """The words of a line with their quotes, up to a comment."""
    ends = [len(line), *(match.start() for match in COMMENT.finditer(line))]  # A quote in a comment is no quote.
    end = next((it for it in ends if words_of(line[:it]) is not None), None)
    if end is None:
        raise BadRule(b"a single quote is open: in a name write it as \\047")
    return list(itertools.takewhile(lambda word: not word.startswith(b"#"), WORD.findall(line[:end])))


def joined(raw: List[bytes]) -> List[Tuple[int, bytes]]:
    """The words for users, each with its number: `everybody else` and `group NAME` are one, in the short forms."""
    found: List[Tuple[int, bytes]] = []
    for place, word in enumerate(raw, 2):
        last = found[-1][1] if found else b""
        if (last, word) == (EVERYBODY, ELSE):
            found[-1] = place - 1, SHOWN
        elif last == GROUP:
            found[-1] = place, IN_GROUP + word
        else:
            found.append((place, word))
    return found


class RuleReader:
    """Reads rules, and looks up their names."""

    def __init__(self, world: World, chosen: Set[bytes], with_root: bool,
                 is_in_part: Optional[Callable[[bytes], bool]] = None) -> None:
        self.world, self.chosen, self.with_root = world, chosen, with_root
        self.is_in_part = is_in_part  # Of a snapshot in parts: whether one of them records a path.
        self.people = People(world.texts.passwd, world.texts.group)
        self.members_of = users_by_group(self.people)
        self.notes: List[bytes] = []  # On groups of whom nobody is checked.
        self.roots = superusers_among(ids_in(world.texts.passwd).items()) if not with_root else set()

    def members(self, group: Group) -> Set[bytes]:
        """The users of a group, without those of uid 0."""
        return self.members_of.get(group.gid, set()) - self.roots

    def who(self, place: int, raw: bytes) -> Tuple[Set[bytes], bool]:
        """The users that a word means, and whether it means everybody else too."""
        word, is_quoted = raw.replace(b"'", b""), b"'" in raw
        if raw in (OTHERS, PEOPLE, EVERYBODY) or self.is_else(raw):
            return set() if word in (OTHERS, SHOWN) else set(self.chosen), raw != PEOPLE
        if not raw.startswith(IN_GROUP):
            return {self.user(place, word, is_quoted)}, False
        name = read_name(word[1:])
        check_meaning(place, self.people.groups, name, is_quoted)
        group = next((it for it in self.people.groups if is_named(it.name, it.gid, name, is_quoted)), None)
        if group is None:
            raise BadRule(of_word(place, NO_GROUP))
        found = self.members(group)
        if not found:
            self.notes.append(of_word(place, NO_MEMBERS + b" but users of the uid 0" * (group.gid in self.members_of)))
        return found, False

    def is_else(self, raw: bytes) -> bool:
        """Whether a word is `everybody else`; in quotes it is a user of that name, where the snapshot has one."""
        return raw == SHOWN or raw.replace(b"'", b"") == SHOWN and all(it.name != SHOWN for it in self.people.users)

    def user(self, place: int, word: bytes, is_quoted: bool) -> bytes:
        name = read_name(word)
        check_meaning(place, self.people.users, name, is_quoted)
        found = next((it for it in self.people.users if is_named(it.name, it.uid, name, is_quoted)), None)
        if found is None:
            is_group = any(it.name == name for it in self.people.groups)
            raise BadRule(of_word(place, IS_GROUP if is_group else NO_NAME if word == GROUP else NO_USER))
        if found.name in self.roots:
            raise BadRule(of_word(place, IS_ROOT))
        return found.name

    def path(self, place: int, word: bytes) -> bytes:
        if b".." in word.split(b"/"):
            raise BadRule(of_word(place, b"write the path from the root, without .."))
        if not word:
            raise BadRule(b"an empty word is not a PATH; / means all files")
        path = read_path(word)
        if path and not (self.is_in_part(path) if self.is_in_part else is_recorded(self.world.session, path)):
            raise BadRule(of_word(place, NO_FILE))
        return path

    def is_folder(self, path: bytes) -> bool:
        """Whether a directory is recorded at a path; everybody has the request for nothing."""
        everybody = self.world.everybody.name
        line = b"below --directories --user=%s --list=1 -- 0 %s" % (everybody, path_word(path))
        return not path or [*map(path_of, self.world.session.ask_accepted(line).lines())] == [path]

    def rule(self, number: int, raw: List[bytes]) -> Rule:
        """A line that has words."""
        is_below = len(raw) > 2 and raw[-2] == BELOW and raw[-3] in RIGHTS
        end = len(raw) - 2 - is_below
        for is_wrong, fault in ((raw[0] not in KINDS, NO_KIND), (end < 1 or raw[end] not in RIGHTS, NO_RIGHT), (end == 1, NO_WHO)):
            if is_wrong:
                raise BadRule(fault)
        words = joined(raw[1:end])
        if raw[0] == ONLY and any(self.is_else(word) for _, word in words):
            raise BadRule(ONLY_ELSE)
        users, others = zip(*(self.who(place, word) for place, word in words))
        path = self.path(len(raw), raw[-1].replace(b"'", b""))
        if is_below and not self.is_in_part and not self.is_folder(path):
            raise BadRule(of_word(len(raw), NO_FOLDER))
        return Rule(number, raw, raw[0], set().union(*users), any(others), raw[end], path, is_below)

    def read(self, name: str) -> List[Rule]:
        """The rules of a file; fails with what is wrong in all of its lines."""
        shown = b"standard input" if name == INPUT else os.fsencode(name)
        text = read_text(name).text if name == INPUT else read_given(shown)
        found: List[Rule] = []
        faults: List[bytes] = []
        for number, line in lines_with_numbers(text):
            try:
                words = raw_words(line)
                known = len(self.notes)
                found += [self.rule(number, words)] if words else []
                self.notes[known:] = [b"%s, line %d: %s" % (shown, number, it) for it in self.notes[known:]]
            except BadRule as error:
                faults.append(b"%s, line %d: %s" % (shown, number, error.args[0]))
        if faults:
            raise Faults(faults)
        if not found:
            raise Failure(shown + b": has no rules; facl rules FOLDER prints those that hold now")
        return found


def check_meaning(place: int, rows: Iterable[Row], name: bytes, is_quoted: bool) -> None:
    """Refuses a word of digits that is an id and, of another row, the name; in quotes it can only be the name."""
    if not is_quoted and two_meanings(rows, name):
        raise BadRule(of_word(place, TWO_MEANINGS))


def of_word(place: int, text: bytes) -> bytes:
    """What is said of a word of a line, by its number from 1 on."""
    return b"word %d: %s" % (place, text)


# --- words of a rule that mean a user, a group or a path


def user_word(name: bytes) -> bytes:
    is_special = name in (OTHERS, PEOPLE, EVERYBODY, ELSE, GROUP) or name.isdigit() or name[:1] in (IN_GROUP, b"#")
    word = plain_word(write_name(name))
    return b"'" + word + b"'" if is_special and not word.startswith(b"'") else word


def group_word(group: Group) -> bytes:
    name = b"%d" % group.gid if group.name.isdigit() else group.name
    return GROUP + b" " + plain_word(write_name(name))


def rule_path(path: bytes, is_directory: bool, is_whole: bool) -> bytes:
    return plain_word(file_name(path, is_whole) + b"/" * is_directory if path else b"/")
