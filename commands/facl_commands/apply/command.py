"""facl-apply: takes a plan to the live system, or takes it back."""
from __future__ import annotations

import argparse
import grp
import os
import pwd
import signal
from collections import Counter
from typing import Callable, Dict, List, Mapping, Optional, Tuple

from ..base import acl_bytes, live
from ..base.acl_bytes import Record
from ..base.live import Seen
from ..base.messages import SIGNALS, Command, Failure, counted, parser_of, reason, signals_wait
from ..base.names import live_name, path_order, shell_word, write_name
from ..base.user_tools import User
from ..model import meta
from ..planned import by_hand as planned_by_hand
from ..planned import differences, plan_files, plan_folder
from .carrying import Carrier
from .direction import Direction, Look, Obstacles, look_at, read_way, unexpected

DONE, NOT_DONE, NOTHING, IN_PART = 0, 1, 3, 4
HELP = """\
Gives the files of a PLAN, which facl-plan wrote, their new owners, groups, flags and access control lists. Run it as
root, or as the owner of all of them.

First the files are compared with what they were when the plan was made: where somebody changed or replaced one
meanwhile, they are named, and nothing was changed. Then each gets its new record, and is compared with the plan: where
one differs, it is named, and all get their old records back. So they do where the command is interrupted. Where it is
killed, run it again, to go on or with --undo: PLAN has what it was about.

A file is opened without following a symbolic link, compared once more, and changed by that descriptor: whatever others
do to its name, no other file is changed. What it does not do is in PLAN/by_hand, which is not run.
"""
STATUS = """\
The exit status is 0 if it is done, and 3 if there is nothing to do; 1 if it is not done, and the files are
as they were, or if --undo cannot bring a user back; 2 if the words, the plan or the system do not allow it, and nothing was changed; 4 if files are
neither as they were nor as they should be: they are named; 5 if it is done, and that could not be written.
"""


def parse(words: List[str]) -> argparse.Namespace:
    parser = parser_of("facl-apply", HELP, STATUS)
    parser.add_argument("--dry-run", action="store_true", help="compare, say which files would be changed, and stop")
    parser.add_argument("--undo", action="store_true", help="give the files their old records, with the same comparisons")
    parser.add_argument("--leave-changed", action="store_true",
                        help="with --undo: leave out files that somebody changed or removed since")
    parser.add_argument("--drop-capabilities", action="store_true",
                        help="change owners and groups of files with capabilities too, which they lose by that")
    parser.add_argument("plan", metavar="PLAN")
    given = parser.parse_args(words)
    if given.leave_changed and not given.undo:
        parser.error("--leave-changed is for --undo")
    return given


def say_cut_off(command: Command, way: Direction, look: Look) -> None:
    if way.was_cut_off():
        files = way.work.files
        old = sum(seen.record == files[path].old for path, seen in look.files.items())
        new = sum(seen.record == files[path].new for path, seen in look.files.items())
        command.say(b"an earlier run was interrupted: %s unchanged, %d changed, %d half-changed" %
                    (counted(old, "file"), new, len(look.files) - old - new))


def say_list(command: Command, way: Direction, found: Dict[bytes, bytes], files: Mapping[bytes, Seen] = {}) -> None:
    """Each file; where it is one of those that were looked at, with what was and what is."""
    when = b"by the plan" if way.is_undo else b"in the snapshot"
    for path in sorted(found, key=path_order):
        command.say(live_name(path) + b": " + found[path])
        for line in differences.lines(way.start(path), files[path].record, when) if path in files else ():
            command.say(b"    " + line)


def say_changed(command: Command, way: Direction, look: Look, found: Dict[bytes, bytes]) -> None:
    say_list(command, way, found, look.files)
    count = counted(len(found), "file is", "files are")
    if way.is_undo:
        command.say(b"nothing was changed: " + count + b" not as the plan left " + (b"it" if len(found) == 1 else b"them")
                    + b"; --leave-changed restores the others")
    else:
        command.say(b"nothing was changed: " + count + b" not as in the snapshot; make a new snapshot and a new plan")


def nothing_to_do(command: Command, way: Direction) -> bool:
    """Whether the state of the plan leaves nothing to do."""
    name = way.folder.name
    if not way.work.files:
        command.say(name + b": changes no file")
    elif way.is_undo and way.state in (b"", plan_folder.UNDONE):
        why = b"was taken back already" if way.state else b"was not applied"
        command.say(name + b": " + why + b"; there is nothing to undo")
    elif not way.is_undo and way.state == plan_folder.APPLIED:
        command.say(name + b": was applied already; facl undo takes it back")
    else:
        return False
    return True


def warn(command: Command, way: Direction, look: Look) -> None:
    """Of files with names beside those of the plan, and of a snapshot that does not tell one file from another."""
    plain = {path: seen for path, seen in look.files.items() if seen.names > 1 and not seen.is_directory}
    names = Counter(seen.identity for seen in plain.values())
    found = [path for path, seen in plain.items() if seen.names > names[seen.identity]]
    if found:
        command.say(b"warning: files with other hard links that are not in the plan, and change too: %d, first: %s" %
                    (len(found), live_name(found[0])))
    if way.journal is None and plan_files.NOWHERE in (file.identity for file in way.work.files.values()):
        command.say(b"warning: the snapshot has no inodes, so nobody notices a file that was replaced by another of the "
                    b"same owner, group, flags and ACL")


def end(command: Command, way: Direction, carrier: Carrier, state: bytes) -> None:
    """A plan whose state cannot be written looks like one that was cut off, and --undo goes all the same."""
    try:
        carrier.end(state)
    except OSError as error:
        command.say(way.folder.name + b": cannot be written: " + reason(error)
                    + b"; the next run will say that this one was interrupted")


def say_in_part(command: Command, way: Direction, left: Dict[bytes, bytes]) -> int:
    say_list(command, way, left)
    command.say(counted(len(left), "file is", "files are")
                + b" not as before: remove the cause, then run facl undo " + shell_word(way.folder.name))
    return IN_PART


def carry_out(command: Command, way: Direction, carrier: Carrier, is_whole: bool) -> int:
    """Gives the files their new records, or the old ones back. A signal waits until one of these is done; it is the
    status only where the files are as they were, since else 0 or 4 says more."""
    with signals_wait():
        try:
            carrier.begin()
        except OSError as error:
            raise Failure(way.folder.name + b": cannot be written: " + reason(error) + b"; nothing was changed") from error
        try:
            status = give_all(command, way, carrier, is_whole)
        except MemoryError:
            command.say(b"memory ran out, so files may be half-changed: run facl undo " + shell_word(way.folder.name))
            status = IN_PART
        if status != NOT_DONE:
            for number in SIGNALS:  # None ends the command from now on, nor does one that waits.
                signal.signal(number, signal.SIG_IGN)
    return status


def give_all(command: Command, way: Direction, carrier: Carrier, is_whole: bool) -> int:
    """Gives back what was there before this run if a file of a plan that is applied does not get its record."""
    left = carrier.run()
    if way.is_undo and left:
        return say_in_part(command, way, left)
    if left or carrier.is_stopped() and not way.is_undo:
        still_left = carrier.put_back()
        say_list(command, way, left)  # Then nothing is half-changed while a terminal or pipe waits for its reader.
        if still_left:
            return say_in_part(command, way, still_left)
        end(command, way, carrier, plan_folder.UNDONE)
        command.say(b"restored the old owners, groups, flags and ACLs")
        return NOT_DONE
    whole = plan_folder.UNDONE if way.is_undo else plan_folder.APPLIED
    end(command, way, carrier, whole if is_whole else plan_folder.UNDONE_IN_PART)
    command.tell((b"restored " if way.is_undo else b"changed ") + counted(len(carrier.seen), "file"))
    return DONE


def say_without_row(command: Command, records: List[Record]) -> None:
    """Names the ids in the `records` of files that no user or group has now: the next one who gets such an id has the files."""
    sides: List[Tuple[bytes, Counter[int], Callable[[int], object]]] = [
        (b"user", Counter(record.owner for record in records), pwd.getpwuid),
        (b"group", Counter(record.group for record in records), grp.getgrgid),
    ]
    for kind, counts, look_up in sides:
        for number, count in sorted(counts.items()):
            try:
                look_up(number)
            except KeyError:
                command.say(counted(count, "file belongs", "files belong")
                            + b" to the %s id %d, which has no %s now" % (kind, number, kind))


def say_removed(command: Command, removed: List[User]) -> int:
    """Names the users whom by_hand has removed, and who are not there again. Returns how many."""
    gone = [it for it in removed if not is_there(it)]
    for it in gone:
        command.say(b"user " + write_name(it.name) + b": was removed by by_hand, and does not come back")
    return len(gone)


def is_there(user: User) -> bool:
    try:
        return pwd.getpwnam(os.fsdecode(user.name)).pw_uid == user.uid
    except KeyError:
        return False


def name_now(uid: int) -> Optional[bytes]:
    """The user who has an id."""
    try:
        return os.fsencode(pwd.getpwuid(uid).pw_name)
    except KeyError:
        return None


def given_to_others(way: Direction, look: Look, removed: List[User]) -> Dict[bytes, bytes]:
    """The files that would be given back to the id of a user whom by_hand has removed, where another user has it now."""
    holders = {it.uid: (it.name, name_now(it.uid)) for it in removed}
    texts = {uid: b"would be given back to user %s, who has the id of %s now" % (write_name(holder), write_name(name))
             for uid, (name, holder) in holders.items() if holder is not None and holder != name}
    found: Dict[bytes, bytes] = {}
    for path in look.files if texts else ():
        ids = acl_bytes.users_of(way.end(path)) & texts.keys()
        if ids:
            found[path] = texts[min(ids)]
    return found


def by_hand(way: Direction) -> Tuple[List[bytes], List[User]]:
    """The line that names what is to be done by hand, where there is something, and of a way back whom by_hand has removed. It is
    read before anything is touched: what cannot be read has no part in what is said of the files."""
    try:
        is_left = planned_by_hand.is_left(way.folder, way.is_undo)
        removed = planned_by_hand.removed_users(way.folder) if way.is_undo else []
    except Failure as failure:
        if not way.is_undo:  # The way back of files does not depend on it.
            raise
        return [failure.text], []
    what, name = (b"to take back what by_hand did", b"by_hand_undo") if way.is_undo else (b"still to be done by hand", b"by_hand")
    return [what + b": sh " + shell_word(way.file(name))] if is_left else [], removed


def body(command: Command, words: List[str]) -> int:
    given = parse(words)
    live.check_proc()
    way = read_way(plan_folder.open_plan(os.fsencode(given.plan)), given.undo)
    rest, removed = by_hand(way)
    if nothing_to_do(command, way):
        for line in rest:
            command.tell(line)
        return NOTHING
    about = meta.read_meta(way.folder.read(meta.NAME)) if way.folder.has(meta.NAME) else meta.UNKNOWN
    if meta.is_of_another_host(about):
        command.say(b"warning: the snapshot is " + about.text() + b", not of this host")
    look = look_at(way, way.work.files)
    changed = {**given_to_others(way, look, removed), **unexpected(way, look)}
    say_cut_off(command, way, look)
    if changed and not given.leave_changed:
        say_changed(command, way, look, changed)
        return NOT_DONE
    if changed:
        left = {path: text + b"; it stays as it is" for path, text in changed.items()}
        say_list(command, way, left, look.files)
        look = look.without(changed)
    obstacles = Obstacles(way, given.drop_capabilities).all(look)
    if obstacles:
        say_list(command, way, obstacles)
        raise Failure(b"nothing was changed")
    warn(command, way, look)
    if given.dry_run:
        for path in [*look.files, *look.later]:
            command.tell(b"would change " + live_name(path) + b": " + differences.parts(way.start(path), way.end(path)))
        return DONE
    carrier = Carrier(way, look)
    status = carry_out(command, way, carrier, not changed)
    for line in rest if status == DONE else []:
        command.tell(line)
    if status == DONE and way.is_undo:
        say_without_row(command, [way.end(path) for path in carrier.seen])
        return NOT_DONE if say_removed(command, removed) else DONE
    return status
