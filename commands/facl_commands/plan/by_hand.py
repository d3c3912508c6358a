"""What facl-apply does not do of a plan, as facl-plan writes it: the steps as data, and by_hand and by_hand_undo, which a
person reads and runs."""
from __future__ import annotations

import itertools
import os
from typing import Dict, Iterator, List, Set

from ..base.acl_bytes import Record
from ..base.messages import counted
from ..base.names import parent_of, path_order, shell_word, shown
from ..base.programs import HOME
from ..base.user_tools import CHANGE_GROUP, REMOVE_USER, PeopleChange
from ..model.records import ChangedPaths, Files
from ..model.snapshot import Snapshot
from ..planned.by_hand import FileStep, PeopleStep, Step, Steps, line_of
from .chown import files_of

HEAD = b"""\
#!/bin/sh
# What facl apply does not do of this plan: %(what)s.
#
# Read it, and run it as root after facl apply: sh PLAN/by_hand. Each line with a number is one thing, which can only be put
# after a #, where it is done already in another way, or is not wanted; a directory that is made is one with all in it.
#
# Each is said before it is done, once the users, groups, folders and files are those of the snapshot (ids; device, inode and
# birth); a folder is opened by its path without following a symbolic link, and no file is replaced. What is made, and what
# goes, is for a moment in a folder .facl.* beside its place, which nobody else may enter.
%(blind)s#
# Where something is another, it stops with the status 1: mend that, and run it again. What is done is in by_hand_done, and is
# not done twice. After a kill a folder .facl.* may be left: move back what was taken there, and remove it. The status is 2
# where somebody else may have written the plan, that of the tool where one fails, and 1 if something has to be done in a
# directory service, which is named: the tools change rows of /etc/passwd and /etc/group alone.
"""
BLIND = b"""\
# The snapshot lacks devices and inodes (all, or some), so only the paths are compared there: let nobody else work in these
# folders meanwhile.
"""
UNDO_HEAD = b"""\
#!/bin/sh
# Takes back what by_hand of this plan has done, the last thing first.
#
# Read it, and run it as root, before facl undo or after it: sh PLAN/by_hand_undo. Put a # before a line that is to stay.
# What by_hand_done does not have is left as it is. What was made is removed where it is still that file, and empty; it is
# looked up as by_hand does it.
%(blind)s#
# Where something is not as by_hand left it, it is left so and said, the others are taken back, and the status is 1. So it is if
# by_hand removed users or files: they do not come back. The status is 2 if somebody else may have written the plan.
#
# userdel removes the user's row, memberships and mail, and a group of the user's name that nobody else has; the home
# directory and the files stay, with the number of the user as their owner.
"""
START = b"exec %s %s\"$0\"\n\n"  # What follows is no line of sh, which ends here.


def steps_of(snapshot: Snapshot, people: List[PeopleChange], changes: ChangedPaths, old: Files, new: Files,
             records: Dict[bytes, Record]) -> Steps:
    """The steps, in their order; `records` has the record of each body of a file that is made. A directory that goes has to be
    empty by then: what was put there meanwhile stays."""
    gone, number = set(changes.removed), itertools.count(1)
    kept = [file for path, file in old.items() if path not in gone]
    users = [PeopleStep(next(number), it, *(files_of(it.user.uid, it.user.gid, kept) if it.kind == REMOVE_USER else (0, 0)))
             for it in people]
    files = [FileStep(next(number), path, old[path].is_directory, None) for path in sorted(gone, key=path_order, reverse=True)]
    files += [FileStep(next(number), path, new[path].is_directory, records[new[path].body])
              for path in sorted(changes.made, key=path_order)]
    known = {path: snapshot.inodes[path] for path in sorted(looked_at(files)) if path in snapshot.inodes}
    return Steps(snapshot.boot, known, users, files)


def looked_at(files: List[FileStep]) -> Set[bytes]:
    """The files of the snapshot that are compared: those that go, and the folders of these and of what is made."""
    removed, made = ({it.path for it in files if (it.record is not None) == is_made} for is_made in (False, True))
    return removed | {parent_of(path) for path in removed | made} - made


# --- what a person reads


def what(steps: Steps) -> bytes:
    """What by_hand is about."""
    nouns = ((len(steps.people), "change of users and groups", "changes of users and groups"),
             (len(steps.of(False)), "file or directory goes", "files and directories go"),
             (len(steps.of(True)), "file or directory is made", "files and directories are made"))
    return b", ".join(counted(*it) for it in nouns if it[0])


def details(it: Step, new: Files) -> List[bytes]:
    """What a person has to know beside the command: ids, and the record of a file that is made."""
    why = it.not_done()
    if why is not None:
        return [b"is not done: " + why]
    if isinstance(it, FileStep):
        return [] if it.record is None else new[it.path].body.splitlines()
    before = b"%d before, " % it.change.user.gid if it.change.kind == CHANGE_GROUP else b""
    return [b"user id %d, group id %s%d" % (it.change.user.uid, before, it.change.gid)]


def scripts_of(steps: Steps, new: Files) -> Iterator[bytes]:
    """by_hand and by_hand_undo; each is empty where it has nothing to do."""
    lines = [line for it in steps.way() for line in (line_of(it), *(b"#       " + shown(text) for text in details(it, new)))]
    known = {it.number: line_of(it) for it in steps.way(is_undo=True)}
    back = [known.get(it.number, b"# is not taken back: " + shown(it.command()))
            for it in reversed(steps.way()) if it.not_done() is None]
    is_blind = len(steps.identities) < len(looked_at(steps.files))
    command = shell_word(os.path.join(os.fsencode(HOME), b"facl-by-hand"))
    for head, option, found in ((HEAD, b"", lines), (UNDO_HEAD, b"--undo ", back)):
        start = head % {b"what": what(steps), b"blind": BLIND * is_blind} + START % (command, option)
        yield start + b"\n".join(found) + b"\n" if found else b""
