"""The steps of by_hand that change users and groups: by the tools of the system, which change rows of /etc/passwd and
/etc/group alone."""
from __future__ import annotations

import signal
import subprocess
from typing import Iterator

from ..base.messages import SIGNALS, Failure, signals_wait
from ..base.names import write_name
from ..base.user_tools import ADD_MEMBER, ADD_USER, MEMBERSHIPS, REMOVE_USER, PeopleChange
from ..planned.by_hand import PeopleStep, line_of
from ..planned.hand_notes import BEGUN, FINISHED, FOUND, UNDONE, Doing
from .carrying import Mismatch
from .name_service import NOT_FOUND, Row, environment, getent, look_up, row_with, tool_of

GONE = (b"user %s: is not there, or a directory service does not answer, so userdel is not run: see that the user is removed, and "
        b"put a # before this line")


class OfService(Mismatch):
    """What has to be done in a directory service."""


def is_member_made(change: PeopleChange, group: Row) -> bool:
    """Whether a membership is as it is to be; fails with OfService if the tools do not make it so."""
    user, name = write_name(change.user.name), write_name(change.group)
    listed, local = (row is not None and change.user.name in row[1].split(b",") for row in group)
    if listed == (change.kind == ADD_MEMBER):
        return True
    if not group.is_local():
        raise OfService(b"group %s: is of a directory service, and not of /etc/group, so %s %s is not run: change its members "
                        b"there" % (name, change.kind, user))
    if listed and not local:
        raise OfService(b"group %s: user %s is a member by a directory service, and not by /etc/group: end the membership there"
                        % (name, user))
    return False


def is_made(change: PeopleChange) -> bool:
    """Whether a change is made already; fails if the system is another one than it has to be, and with OfService if the tools
    do not make the change."""
    user, group, number = change.user, change.group, b"%d" % change.user.uid
    if change.kind in MEMBERSHIPS:
        row_with(b"passwd", user.name, user.uid)
        return is_member_made(change, row_with(b"group", group, change.gid))
    if group:
        row_with(b"group", group, change.gid)
    before = None if change.kind == ADD_USER else (number, b"%d" % user.gid)
    after = None if change.kind == REMOVE_USER else (number, b"%d" % change.gid)
    row, name = look_up(b"passwd", user.name, user.uid), b"user " + write_name(user.name)
    if row.found == after:
        return True
    if row.found is not None and not row.is_local() and row.found == (before or row.found):
        raise OfService(name + b": is of a directory service, and not of /etc/passwd, so %s is not run: %s the user there"
                        % (change.tool(), b"remove" if after is None else b"change"))
    if row.found != before:
        shown = tuple(b":".join(it or (b"(none)",)) for it in (row.found, before))
        raise Mismatch(name + b": has the ids %s, and not %s" % shown)
    return False


def run_tool(change: PeopleChange) -> int:
    """Runs the tool that makes a change, to its end, also if a signal comes; returns its status."""
    out = subprocess.DEVNULL if change.kind in MEMBERSHIPS else None
    with signals_wait():
        return subprocess.run([tool_of(change.tool()), *change.words()[1:]], stdout=out, env=environment(), check=False,
                              preexec_fn=lambda: signal.pthread_sigmask(signal.SIG_UNBLOCK, SIGNALS)).returncode


def do(doing: Doing, it: PeopleStep, is_undo: bool) -> None:
    """Makes a change. What is made already, and was not begun, somebody else did: by_hand_undo leaves it."""
    state, is_done = doing[it.number].state, is_made(it.change)
    if is_done and it.change.kind == REMOVE_USER and not state:
        raise OfService(GONE % write_name(it.change.user.name))
    if not is_done:
        doing.tell(line_of(it))
        doing.add(BEGUN, it.number)
        status = run_tool(it.change)
        if status != 0 and is_undo:
            raise Mismatch(it.command() + b": fails")
        if status != 0:
            raise Failure(it.command() + b": fails with the status %d" % status, abs(status))
    end = UNDONE if is_undo else FOUND if is_done and state != BEGUN else FINISHED
    if end != state:
        doing.add(end, it.number)


def losses(doing: Doing, it: PeopleStep) -> Iterator[bytes]:
    """What does not come back of a user who was removed: the row, and whose the files of the ids are. userdel removes a group
    of the user's name."""
    user = it.change.user
    row = look_up(b"passwd", user.name, user.uid).found
    if row is not None and row[0] == b"%d" % user.uid:
        doing.add(UNDONE, it.number)
        return
    yield b"user " + write_name(user.name) + b": was removed by by_hand, and does not come back"
    for kind, database, number, files in ((b"user", b"passwd", user.uid, it.owned), (b"group", b"group", user.gid, it.grouped)):
        status = getent(database, b"--", b"%d" % number)[0] if files else 0
        held = {0: b"which another %s has now" % kind, NOT_FOUND: b"which has no %s now" % kind}
        if files and (status or kind == b"user"):
            by_whom = held.get(status, b"and getent %s fails" % database)
            yield b"files of the snapshot that belong to the %s id %d, %s: %d" % (kind, number, by_whom, files)
