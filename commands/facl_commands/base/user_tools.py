"""Changes of users and groups, and the tools of the system that make them."""
from __future__ import annotations

from typing import Dict, List, NamedTuple, Optional

from .names import shell_word

ADD_MEMBER, REMOVE_MEMBER, CHANGE_GROUP = b"gpasswd -a", b"gpasswd -d", b"usermod -g"
ADD_USER, REMOVE_USER = b"useradd", b"userdel"
MEMBERSHIPS = {ADD_MEMBER: REMOVE_MEMBER, REMOVE_MEMBER: ADD_MEMBER}  # Each with the one that takes it back.
KINDS = (*MEMBERSHIPS, CHANGE_GROUP, ADD_USER, REMOVE_USER)


class User(NamedTuple):
    name: bytes
    uid: int
    gid: int


class PeopleChange(NamedTuple):
    """What an accepted line changes of users and groups: one of the kinds above."""

    kind: bytes
    user: User  # As before; one that is added, as afterwards.
    group: bytes  # The group of the membership, or the primary group afterwards; empty for a user that is removed, and where it is taken back.
    gid: int

    def tool(self) -> bytes:
        return self.kind.split(b" ")[0]

    def words(self, is_shown: bool = False) -> List[bytes]:
        """The tool with its words. It gets numbers of groups where it takes a name of digits for an id, and makes no home, as some
        systems have it do. A person reads names, and -- before what looks like an option alone."""
        name = is_shown and self.group and not self.group.isdigit()
        ids = [b"-g", self.group if name else b"%d" % self.gid]
        options: Dict[bytes, List[bytes]] = {CHANGE_GROUP: ids, ADD_USER: [*[b"-M"] * (not is_shown), b"-u", b"%d" % self.user.uid, *ids], REMOVE_USER: []}
        chosen = options.get(self.kind, [self.kind[-2:], self.user.name])
        operand = self.group if self.kind in MEMBERSHIPS else self.user.name
        return [self.tool(), *chosen, *[b"--"] * (not is_shown or operand.startswith(b"-")), operand]

    def back(self) -> Optional[PeopleChange]:
        """What takes it back; None for a user that is removed, who does not come back."""
        if self.kind in MEMBERSHIPS:
            return self._replace(kind=MEMBERSHIPS[self.kind])
        changed = {ADD_USER: (REMOVE_USER, self.user), CHANGE_GROUP: (CHANGE_GROUP, self.user._replace(gid=self.gid))}
        return PeopleChange(*changed[self.kind], b"", self.user.gid) if self.kind in changed else None

    def not_done(self) -> Optional[bytes]:
        """Why no tool makes this change; None where one does."""
        dashed = [name for name in (self.user.name, self.group) if name.startswith(b"-")]
        return dashed[0] + b" is an option for the tools of the system" if dashed else None


def shown_change(change: PeopleChange) -> bytes:
    """A change as the command that a person would write."""
    return b" ".join(map(shell_word, change.words(is_shown=True)))
