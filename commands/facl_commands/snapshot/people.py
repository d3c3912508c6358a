"""The users and groups of a snapshot: those of the lists, and those whom files, groups and --users name and the lists lack."""
from __future__ import annotations

from typing import AbstractSet, Callable, Dict, Iterable, List, Set, Tuple

from ..base import trusted
from ..base.accounts import Account, is_person, with_own_names
from ..base.messages import Failure, failing
from . import asking
from .asking import Key, Service
from .runs import Sums, Warned

LONGEST_USER = 256  # Bytes of a name in the file of --users.


class Accounts:
    """All users, or all groups, that are known."""

    def __init__(self, service: Service, look_up: Callable[[Key], Account], listed: List[Account]) -> None:
        self.service, self.look_up, self.found = service, look_up, 0
        self.odd = {it.row() for it in listed if not it.is_taken()}
        self.all = [it for it in listed if it.is_taken()]
        self.rows: List[Account] = []  # One for each name, as the program needs them, once all are known.
        self.asked: Set[Key] = set()

    def names(self) -> Set[bytes]:
        return {it.name for it in self.all}

    def lacking(self, ids: AbstractSet[int]) -> Set[Key]:
        """Those of some ids that nobody has."""
        return {*(ids - {it.ids[0] for it in self.all})}

    def give_names(self) -> None:
        self.rows = with_own_names(self.all)

    def renamed(self) -> List[bytes]:
        """The names and ids of those who have another name in their rows."""
        known = {(it.name, it.ids[0]) for it in self.rows}
        return sorted(b"%s %d" % it for it in {(it.name, it.ids[0]) for it in self.all} - known)

    def text(self) -> bytes:
        return b"".join(it.row() + b"\n" for it in self.rows)

    def ask(self, keys: AbstractSet[Key]) -> bool:
        """Looks up those that were not looked up yet, and adds them at the end; whether there is one that was not known."""
        new = sorted(keys - self.asked, key=lambda key: (isinstance(key, bytes), key))
        self.asked.update(new)
        rows = [Account(*it) for it in self.service.ask(self.look_up, new)]
        self.odd.update(it.row() for it in rows if not it.is_taken())
        known = {it.row() for it in self.all} if rows else set()
        more = {it.row(): it for it in rows if it.is_taken() and it.row() not in known}
        self.all += [more[row] for row in sorted(more)]
        self.found += len(more)
        return bool(more)


class PeopleOfSystem:
    """The users and groups, which are completed by those that are named."""

    def __init__(self) -> None:
        self.service = Service()
        self.users = Accounts(self.service, asking.user_by, self.service.listed(asking.all_users, "users"))
        self.groups = Accounts(self.service, asking.group_by, self.service.listed(asking.all_groups, "groups"))
        self.memberships: Set[Tuple[int, bytes]] = set()  # Of users that were looked up: group and name.
        self.listed = len(self.users.all)  # Users that are listed, or whose groups were looked up.

    def add_named(self, name: bytes) -> None:
        """Looks up the users whom a file names, a name a line; fails where one is not known. The file may be a secret one: no
        message has its lines."""
        with failing(name + b": cannot be read"), open(name, "rb") as file:
            lines = trusted.read_all(file, name, trusted.MOST_WRITTEN).split(b"\n")
        fail_of_line(name, lines, lambda line: len(line) > LONGEST_USER or b":" in line, b"cannot be the name of a user")
        self.users.ask({*lines} - {b""})
        if self.service.unasked:
            raise Failure(name + b": asking for its users took more than %d seconds" % asking.MOST_SECONDS)
        self.service.until = None
        known = self.users.names() | {b""}
        fail_of_line(name, lines, lambda line: line not in known, b"no such user")

    def complete(self, sums: Sums) -> None:
        """Looks up all that files and groups name, until nobody new is found: owners first, since anybody can write ids into a
        list."""
        is_new = True
        while is_new:
            is_new = False
            for ids in (sums.owners, sums.users):
                is_new |= self.users.ask(self.users.lacking(ids))
            is_new |= self.users.ask({it for it in self.members() - self.users.names() if not it.isdigit()})
            for name, groups in self.service.ask(asking.groups_of, self.users.all[self.listed :]):
                self.memberships.update((group, name) for group in groups)
            self.listed = len(self.users.all)
            named = {it.ids[1] for it in self.users.all} | {group for group, _ in self.memberships}
            for ids in (sums.owning_groups, sums.groups | named):
                is_new |= self.groups.ask(self.groups.lacking(ids))
        self.add_members()
        for accounts in (self.users, self.groups):
            accounts.give_names()

    def members(self) -> Set[bytes]:
        return {name for it in self.groups.all for name in it.members if name}

    def add_members(self) -> None:
        """Adds users that were looked up to the rows of their groups that lack them."""
        known = {(it.ids[0], name) for it in self.groups.all for name in it.members}
        known |= {(it.ids[1], it.name) for it in self.users.all}
        more: Dict[int, List[bytes]] = {}
        for group, name in sorted(self.memberships - known, key=lambda it: b"%d:%s" % it):
            more.setdefault(group, []).append(name)
        self.groups.all = [it._replace(members=(*it.members, *more.get(it.ids[0], ()))) for it in self.groups.all]

    def numbers(self) -> bytes:
        """The lines of meta."""
        kinds = ((b"users", self.users), (b"groups", self.groups))
        return b"".join(
            [b"%s %d\n%s-asked-for %d\n" % (kind, len(accounts.rows), kind, accounts.found) for kind, accounts in kinds]
            + [b"%s-left-out %d\n" % (kind, len(accounts.odd)) for kind, accounts in kinds])

    def said(self) -> bytes:
        """In the last line."""
        text = b"%d users, " % len(self.users.rows)
        if self.users.found:
            text += b"of whom %d are not in the list of getent: asked for by id or name, " % self.users.found
        return text + b"%d groups" % len(self.groups.rows)


def fail_of_line(name: bytes, lines: Iterable[bytes], is_wrong: Callable[[bytes], bool], text: bytes) -> None:
    number = next((number for number, line in enumerate(lines, 1) if is_wrong(line)), None)
    if number is not None:
        raise Failure(name + b": line %d: " % number + text)


# --- what is said of them


def why_incomplete(people: PeopleOfSystem, sums: Sums) -> bytes:
    """Why users of a directory service seem to be missing; empty where they do not."""
    if not any(is_person(it.ids[0]) for it in people.users.all):
        return b"there are no users but those of the system"
    if 2 * len(people.users.lacking(sums.users)) > len(sums.users):
        return b"most users that the dump names have no row in passwd"
    return b""


def warned(text: bytes, names: List[bytes]) -> Warned:
    return text, len(names), names[0] if names else b""


def strangers(people: PeopleOfSystem, sums: Sums) -> Warned:
    pairs = ((b"user %d", sums.users, people.users), (b"group %d", sums.groups, people.groups))
    return warned(b"ids in the dump without a row in passwd or group",
                  [form % number for form, ids, accounts in pairs for number in sorted(accounts.lacking(ids))])


def warned_of(people: PeopleOfSystem) -> List[Warned]:
    """What makes answers differ from what a reader expects."""
    by_id: Dict[int, List[bytes]] = {}
    for it in people.users.all:
        by_id.setdefault(it.ids[0], []).append(it.name)
    kinds = ((b"passwd", people.users), (b"group", people.groups))
    return [
        warned(b"members of groups without a row in passwd", sorted(people.members() - people.users.names())),
        warned(b"users with an id that another user has too, as ID NAME",
               sorted(b"%d %s" % (number, name) for number, its in by_id.items() if len(its) > 1 for name in its)),
        *(warned(b"rows of " + kind + b" with the name of another id, which have their ids for names, as NAME ID", accounts.renamed())
          for kind, accounts in kinds),
        *(warned(b"rows of " + kind + b" with a carriage return, which facl takes for a part of a name",
                 [it.name for it in accounts.all if b"\r" in it.row()]) for kind, accounts in kinds),
        *(warned(b"rows of " + kind + b" without a name, an id or a field, which are left out",
                 [row.partition(b":")[0] for row in sorted(accounts.odd)]) for kind, accounts in kinds)]
