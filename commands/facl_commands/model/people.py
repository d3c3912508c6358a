"""Users and groups, as far as commands that change them have to be written for the live system; and answers about people without
the superuser, to whom the kernel grants nearly everything whatever a list says."""
from __future__ import annotations

import difflib
from typing import Dict, Iterable, Iterator, List, NamedTuple, Optional, Set, Tuple, TypeVar

from ..base.accounts import SUPERUSER
from ..base.messages import Failure
from ..base.names import number_of, read_name, script_word, write_user
from ..base.user_tools import ADD_MEMBER, ADD_USER, CHANGE_GROUP, REMOVE_MEMBER, REMOVE_USER, PeopleChange, User
from ..program.scripts import Unit
from ..program.tools import ABOUT_USERS, split, user_in

NOTE = (b"left out of who, below, changes, gains and index: %s, to whom the kernel grants nearly everything; "
        b"--with-root for all")


class Group(NamedTuple):
    name: bytes
    gid: int
    members: List[bytes]


Row = TypeVar("Row", User, Group)


def rows_of(text: bytes) -> List[List[bytes]]:
    """The fields of the rows of passwd(5) or group(5); the first row of a name counts."""
    found: Dict[bytes, List[bytes]] = {}
    for row in text.split(b"\n"):
        if row and not row.startswith(b"#"):
            fields = row.split(b":")
            found.setdefault(fields[0], fields)
    return list(found.values())


def plain_id(field: bytes) -> bytes:
    """An id of a row without the zeros before it, as listings have it."""
    return field.lstrip(b"0") or b"0"


def ids_of(text: bytes) -> List[Tuple[bytes, bytes]]:
    """The ids of the rows that have one, as listings have them, each with the name."""
    return [(plain_id(row[2]), row[0]) for row in rows_of(text) if len(row) > 2]


def users_in(passwd: bytes) -> List[User]:
    return [User(row[0], number_of(row[2]), number_of(row[3])) for row in rows_of(passwd)]


def first_like(users: Iterable[User], name: bytes) -> Optional[User]:
    """The first user with the id of the one of this name."""
    known = list(users)
    uid = next((user.uid for user in known if user.name == name), None)
    return next((user for user in known if user.uid == uid), None)


def user_word(users: Iterable[User], name: bytes) -> Optional[bytes]:
    """The word of a user in a line that a command asks: the name, or in the place of digits alone the id, which means the
    first user who has it; None where that is another one, or there is no such user."""
    if not name.isdigit():
        return script_word(write_user(name))
    first = first_like(users, name)
    return script_word(b"%d" % first.uid) if first is not None and first.name == name else None


def needed_word(users: Iterable[User], name: bytes, said: bytes) -> bytes:
    """The same; fails where there is none, with what a message calls the user."""
    known = list(users)
    word, first = user_word(known, name), first_like(known, name)
    if word is None:
        its = b", and the id of this user is also that of " + write_user(first.name) if first is not None else b""
        raise Failure(b"user \"%s\" cannot be named in a question: digits alone mean an id" % said + its)
    return word


def is_named(name: bytes, number: int, word: bytes, is_name: bool = False) -> bool:
    """Whether a row is meant by a word; digits alone are an id, unless the word can only be a name."""
    return number == number_of(word) if word.isdigit() and not is_name else name == word


def user_by(users: Iterable[User], word: bytes) -> Optional[User]:
    """The user whom a word of a person means: digits alone are an id, which is that of the first user who has it."""
    known = list(users)
    return next((user for name in (word, read_name(word)) for user in known
                 if is_named(user.name, user.uid, name, is_name=not word.isdigit())), None)


def two_meanings(rows: Iterable[Row], word: bytes) -> bytes:
    """Why a word can be misread: digits alone are an id, and a user or group of another id has them for a name; empty where
    none has."""
    known = list(rows)
    number = next((it[1] for it in known if it[0] == word and it[1] != number_of(word)), None) if word.isdigit() else None
    if number is None:
        return b""
    holder = next((write_user(it[0]) for it in known if it[1] == number_of(word)), None)
    its = b"an id that nobody has" if holder is None else b"the id of " + holder
    return its + b", and the name of the id %d: write %s%d" % (number, b"" if holder is None else holder + b" or ", number)


def check_word(users: Iterable[User], word: bytes) -> None:
    """Fails where a word of a person means one user, and may be meant as another one."""
    text = two_meanings(users, word)
    if text:
        raise Failure(word + b": " + text)


def no_user(users: Iterable[User], word: bytes) -> Failure:
    """Says that a word means no user, and who may be meant."""
    if word.isdigit():
        return Failure(word + b": no user of the snapshot has this id")
    near = difflib.get_close_matches(word.decode("latin-1"), [user.name.decode("latin-1") for user in users])
    names = b", ".join(write_user(name.encode("latin-1")) for name in near)
    return Failure(word + b": no such user in the snapshot" + (b"; did you mean " + names + b"?" if near else b""))


def meant(rows: Iterable[Row], word: bytes) -> Row:
    """The user or the group whom a word of an accepted line means."""
    name = read_name(word.strip(b" \t"))
    return next(it for it in rows if is_named(it[0], it[1], name))


class People:
    """The users and groups of a snapshot, and what accepted lines make of them."""

    def __init__(self, passwd: bytes, group: bytes) -> None:
        self.users = users_in(passwd)
        self.groups = [Group(row[0], number_of(row[2]), [it for it in row[3].split(b",") if it]) for row in rows_of(group)]

    def change(self, words: List[bytes]) -> Optional[PeopleChange]:
        """Does what an accepted line does, and returns it; None where nothing changes."""
        tool, line = words[0], split(words)
        if tool == b"gpasswd":
            user, group = meant(self.users, line.value(b"-a", b"-d")), meant(self.groups, line.operands[0])
            return self.change_member(user, group, line.has(b"-a"))
        if tool == b"userdel":
            user = meant(self.users, line.operands[0])
            self.users.remove(user)
            for group in self.groups:
                group.members[:] = [it for it in group.members if it != user.name]
            return PeopleChange(REMOVE_USER, user, b"", user.gid)
        group = meant(self.groups, line.value(b"-g"))
        if tool == b"useradd":
            user = User(read_name(line.operands[0]), int(line.value(b"-u")), group.gid)
            self.users.append(user)
            return PeopleChange(ADD_USER, user, group.name, group.gid)
        user = meant(self.users, line.operands[0])
        self.users[self.users.index(user)] = user._replace(gid=group.gid)
        return PeopleChange(CHANGE_GROUP, user, group.name, group.gid) if user.gid != group.gid else None

    def change_member(self, user: User, group: Group, is_added: bool) -> Optional[PeopleChange]:
        if (user.name in group.members) == is_added:
            return None
        group.members[:] = [it for it in group.members if it != user.name] + [user.name] * is_added
        return PeopleChange(ADD_MEMBER if is_added else REMOVE_MEMBER, user, group.name, group.gid)


# --- who is in a group: by its id, of which several rows may be


def groups_by_user(people: People) -> Dict[bytes, Set[int]]:
    """By name: the primary group and those that list the user."""
    found = {user.name: {user.gid} for user in people.users}
    for gid, names in listed_by_group(people).items():
        for name in found.keys() & names:
            found[name].add(gid)
    return found


def users_by_group(people: People) -> Dict[int, Set[bytes]]:
    """The same by group; one without users is not there."""
    found: Dict[int, Set[bytes]] = {}
    for name, groups in groups_by_user(people).items():
        for gid in groups:
            found.setdefault(gid, set()).add(name)
    return found


def listed_by_group(people: People) -> Dict[int, List[bytes]]:
    """The names that the rows of each group list, each once."""
    found: Dict[int, List[bytes]] = {}
    for group in people.groups:
        found.setdefault(group.gid, []).extend(group.members)
    return {gid: [*dict.fromkeys(names)] for gid, names in found.items()}


# --- the superuser


def superusers_among(users: Iterable[Tuple[bytes, int]]) -> Set[bytes]:
    """The names of those of some users, each with an id, who are the superuser."""
    return {name for name, uid in users if uid == SUPERUSER}


def ids_in(passwd: bytes) -> Dict[bytes, int]:
    return {row[0]: number_of(row[2]) for row in rows_of(passwd) if len(row) > 2 and row[2].isdigit()}


class Superusers:
    """The users of uid 0, who are left out; none of them where nobody is to be."""

    def __init__(self, ids: Dict[bytes, int]) -> None:
        self.names = superusers_among(ids.items())
        self.has_left_out = False

    def follow(self, unit: Unit) -> None:
        """A user whom an accepted line makes may be one too."""
        if unit.is_of(ADD_USER):
            line = split(unit.words)
            if line.has(b"-u") and not line.value(b"-u").strip(b"0") and self.names:
                self.names.update(map(read_name, line.operands[:1]))

    def rest(self, unit: Unit, lines: Iterable[bytes]) -> Iterator[bytes]:
        """The lines of an answer without those about them; a question of one user is answered as it is."""
        form, is_about_people = unit.form(), self.is_about_people(unit)
        for line in lines:
            if self.names and is_about_people and read_name(user_in(form, line)) in self.names:
                self.has_left_out = True
            else:
                yield line

    def is_about_people(self, unit: Unit) -> bool:
        """Whether its answer has names of users."""
        return unit.form() in ABOUT_USERS

    def note(self) -> bytes:
        """What is said once, where somebody was left out."""
        return NOTE % b", ".join(sorted(self.names))
