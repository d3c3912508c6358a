"""What the system says of users and groups, by its lists and by look-ups, as /etc/nsswitch.conf has it.

A directory service may be slow, or not answer: another process asks it, some at a time, and is ended when the time is over.
"""
from __future__ import annotations

import grp
import os
import pwd
import time
from contextlib import suppress
from functools import partial
from typing import Any, Callable, Iterable, List, Optional, Sequence, Tuple, Union

from ..base.accounts import Account
from ..base.messages import Failure
from ..base.workers import Helper

MOST_SECONDS = 300.0  # For all look-ups.
MANY = 500  # Look-ups of one process.
Key = Union[int, bytes]  # An id or a name.


def account_of(fields: Sequence[Optional[str]], numbers: Tuple[int, ...], members: Iterable[str] = ()) -> Account:
    """An account of the texts of its row but the numbers, which follow the first two. Python makes -1 of the last id."""
    texts = [os.fsencode(it or "") for it in fields]
    ids = tuple(it & 0xFFFFFFFF for it in numbers)
    start = b":".join([*texts[:2], *(b"%d" % it for it in ids), *texts[2:]])
    return Account(start, texts[0], ids, tuple(map(os.fsencode, members)))


def user_of(it: pwd.struct_passwd) -> Account:
    about = (it.pw_gecos or "").replace(":", " ").replace("\n", " ")
    return account_of((it.pw_name, it.pw_passwd, about, it.pw_dir, it.pw_shell), (it.pw_uid, it.pw_gid))


def group_of(it: grp.struct_group) -> Account:
    return account_of((it.gr_name, it.gr_passwd, ""), (it.gr_gid,), it.gr_mem)


def all_users() -> List[Account]:
    return [*map(user_of, pwd.getpwall())]


def all_groups() -> List[Account]:
    return [*map(group_of, grp.getgrall())]


def user_by(key: Key) -> Account:
    return user_of(pwd.getpwuid(key) if isinstance(key, int) else pwd.getpwnam(os.fsdecode(key)))


def group_by(key: Key) -> Account:
    return group_of(grp.getgrgid(key) if isinstance(key, int) else grp.getgrnam(os.fsdecode(key)))


def groups_of(user: Account) -> Tuple[bytes, List[int]]:
    """A user's name, and the ids of all groups of that user."""
    return user.name, os.getgrouplist(os.fsdecode(user.name), user.ids[1])


def found(look_up: Callable[[Any], Tuple[Any, ...]], keys: Iterable[Any]) -> List[Tuple[Any, ...]]:
    """What there is of some keys."""
    rows = []
    for key in keys:
        with suppress(KeyError, ValueError, OverflowError):  # There is none, or none can have this key.
            rows.append(tuple(look_up(key)))
    return rows


def in_time(work: Callable[[], Any], until: float) -> Any:
    """What a process finds; None where it does not end in time."""
    helper = Helper(work, keeps_signals=False)
    try:
        while not helper.has_result():
            if time.monotonic() > until:
                return None
        return helper.result()
    finally:
        helper.end()


class Service:
    """Look-ups in the time that there is for them, which begins with the first one."""

    def __init__(self) -> None:
        self.until: Optional[float] = None
        self.unasked = 0  # Keys that were not looked up, or not answered.

    def listed(self, what: Callable[[], List[Account]], kind: str) -> List[Account]:
        rows = in_time(lambda: [tuple(it) for it in what()], float("inf"))
        if rows is None:
            raise Failure(b"the list of " + kind.encode() + b" cannot be read")
        return [Account(*it) for it in rows]

    def ask(self, look_up: Callable[[Any], Tuple[Any, ...]], keys: Sequence[Any]) -> List[Tuple[Any, ...]]:
        """What there is of some keys."""
        if keys:
            self.until = self.until or time.monotonic() + MOST_SECONDS
        until = self.until or 0
        rows: List[Tuple[Any, ...]] = []
        for start in range(0, len(keys), MANY):
            some = keys[start : start + MANY]
            answer = in_time(partial(found, look_up, some), until) if time.monotonic() < until else None
            self.unasked += len(some) if answer is None else 0
            rows += answer or []
        return rows
