"""facl-plan: what edits would change in who may do what, and a plan for facl-apply."""
from __future__ import annotations

import argparse
import grp
import os
import re
from typing import Dict, List

from ..base.messages import Command, Failure, counted, parser_of
from ..base.names import live_path, number_of, write_user
from ..base.programs import find_program
from ..model import label_answers, meta, overview, people, rights, sources
from ..model.entries import read_record
from ..model.everybody import SHOWN, SnapshotTexts, answers_over, session_with
from ..model.marks import alone, marks_of, not_judged, obstacles
from ..model.people import superusers_among
from ..model.records import ChangedPaths, Listing, compare, list_slices
from ..model.rights import ask_gains
from ..model.snapshot import Snapshot, read_snapshot
from ..planned import plan_folder
from ..planned.by_hand import NO_STEPS, SCRIPTS, STEPS, Steps, text_of
from ..program.scripts import Script, Unit, read_text
from ..program.session import Session
from . import by_hand, chown, no_gain
from .records_file import ask_records, file_texts
from .replay import Replay
from .report import Outcome, answers_text, json_report, text_report

SOMETHING, REFUSED, NOTHING = 0, 1, 3
# In a dump: a name that does not start at the root.
RELATIVE_NAME = re.compile(rb"^[ \t]*#[ \t]*file:(?! ?/)", re.MULTILINE)
HELP = """\
Answers the lines of each SCRIPT over a snapshot, as facl does, and prints what would change in who may do what: one
line for each user and kind of change, with the number of files and the first of them; first those of `everybody
else`, a user whom no list names. A right counts where the user can get to the file: with search on each directory
above. A user who is named by an edit and gains nothing, since a directory above is closed, has a line with the edit
that opens it. It reads the snapshot alone, and changes nothing on the live system. The SCRIPT - is standard input.

What facl-apply needs is written to a folder, SNAPSHOT.plan:

  edits      the lines, as they were given
  files      the files whose owner, group, flags or ACL change, with their inodes and the bytes of both lists
  old, new   their records, as they are and as they would be, for a person and for setfacl --restore
  by_hand    what facl-apply does not do: users and memberships, files that go, files that are made; the file steps
             has it as data

Questions in a SCRIPT are answered, and are no part of the plan. An edit of a file that has other names in the
snapshot is planned for all of them.
"""
STATUS = """\
The exit status is 0 if there is something to do, and 3 if there is nothing; 1 if lines were refused: then no
plan is written, but with --keep-going; 2 if the words, the snapshot or a script cannot be used; 5 if the plan is
written, and what is printed of it could not be.
"""


def parse(words: List[str]) -> argparse.Namespace:
    parser = parser_of("facl-plan", HELP, STATUS)
    parser.add_argument("-o", "--plan", metavar="DIR", help="the folder of the plan, in place of SNAPSHOT.plan")
    parser.add_argument("--full", action="store_true", help="print each user and file")
    view = parser.add_mutually_exclusive_group()
    view.add_argument("--file-alone", action="store_true",
                      help="judge each file alone, without search permission on its parent directories")
    view.add_argument("--reach", action="store_true", help="count search permission on parent directories (default)")
    parser.add_argument("--with-root", action="store_true", help="judge users of the id 0 by the ACLs too")
    parser.add_argument("--json", action="store_true", help="print one JSON object; bytes that are no UTF-8 are escapes")
    parser.add_argument("--keep-going", action="store_true", help="plan the other lines where some were refused")
    parser.add_argument("--readers", metavar="GROUP", help="let the members of a group read the plan")
    sources.add_source(parser, words)
    parser.add_argument("scripts", metavar="SCRIPT", nargs="+")
    return parser.parse_args(words)


def list_below(session: Session, tops: List[bytes]) -> Listing:
    """The files as they are now, from those on that no recorded directory is above."""
    return list_slices(sources.list_below(session, tops))


def answer_scripts(given: argparse.Namespace, snapshot: Snapshot, units: List[Unit], is_whole: bool = True,
                   is_full: bool = False) -> Outcome:
    """Answers the lines over the snapshot, with everybody else as one more user, who is the first in answers."""
    program, texts = find_program(given), SnapshotTexts(snapshot.passwd, snapshot.group)
    changes, along_paths = rights.RightsChanges([], []), not given.file_alone
    answers = answers_over(snapshot.folder, snapshot.passwd, units)
    shown = answers.everybody.shown
    with session_with(program, snapshot.folder, *answers.everybody.with_both(texts)) as session:
        tops = sources.find_tops(session, snapshot.folder)
        old = list_below(session, tops)
        before = rights.ask_rights(session, old) if is_full else None
        people_before, run = people.People(*texts), Replay(session, snapshot, old.files, answers)
        run.answer_all(units)
        new = list_below(session, tops)
        rows = [user for side in (people_before, run.people) for user in side.users]
        superusers = superusers_among((user.name, user.uid) for user in rows if not given.with_root)
        left_out = set(map(write_user, superusers))
        users = list(dict.fromkeys([SHOWN, *(write_user(user.name) for user in rows)]))
        place = {user: number for number, user in enumerate(users)}
        gains = [it._replace(user=shown(it.user)) for it in ask_gains(session, not along_paths)]
        if before is not None:
            changes = rights.changes(before, rights.ask_rights(session, new), along_paths, left_out)
            for group in changes.groups:
                its = [it._replace(user=shown(it.user)) for it in group.differences]
                group.differences = sorted(its, key=lambda it: it.user != SHOWN)
        closed = no_gain.find(
            session, program, label_answers.PeopleTexts(*texts, run.changes_of_people), (old.files, new.files),
            (people_before, run.people), left_out, is_whole) if along_paths else []
    kinds = sorted((it for it in gains if it.user not in left_out),
                   key=lambda it: (place.get(it.user, len(place)), it.old, it.new))
    left = chown.left_behind(people_before, run.people, new.files)
    return Outcome(old.files, new.files, kinds, {it.user for it in gains} & left_out, changes, closed, users, run.asked,
                   run.messages, run.commands, left, is_whole, meta.meta_of(snapshot.folder))


def say_messages(command: Command, outcome: Outcome, scripts: List[Script]) -> None:
    """Refused lines, warnings, and what is likely to surprise."""
    for message in outcome.messages:
        command.say(message.unit.place() + b": " + message.text)
        command.explain(message.cause())
    for name, text in scripts:
        if b"\r" in text:
            command.say(b"warning: " + name + b": has carriage returns, each of which is a part of its word")


def warn_of_stuck(command: Command, stuck: Dict[bytes, bytes], changes: ChangedPaths, outcome: Outcome) -> None:
    """Of files that nobody can change, make or remove, each with why."""
    known = set(changes.changed)
    for is_changed, text in ((True, b"files that nobody can change, so facl apply will change none"),
                             (False, b"files that nobody can make or remove, so by_hand will not")):
        paths = [path for path in stuck if (path in known) is is_changed]
        if paths:
            command.say(overview.warning_of(text, list(map(outcome.name_of, paths))) + b", since " + stuck[paths[0]])


def group_of(word: str) -> int:
    """The id of a group; digits are an id."""
    try:
        found = number_of(word.encode()) if re.fullmatch("[0-9]+", word) else grp.getgrnam(word).gr_gid
    except KeyError:
        found = chown.NO_ID
    if found >= chown.NO_ID:
        raise Failure(os.fsencode(word) + b": no such group")
    return found


def say_refused(command: Command, outcome: Outcome, keep_going: bool) -> bool:
    """Whether lines were refused, so that there is no plan."""
    count = len(outcome.refusals())
    if any(message.is_final for message in outcome.messages):
        command.say(b"nothing was written: edit one of those names alone, since the others are the same file")
        return True
    if count and not keep_going:
        command.say(b"nothing was written: " + counted(count, "line was", "lines were") + b" refused; mend "
                    + (b"it" if count == 1 else b"them") + b", or plan the other lines with --keep-going")
    return count > 0 and not keep_going


def say_unknown(command: Command, source: sources.Source) -> bool:
    """Says what a snapshot cannot tell, and what lists alone do not; whether there can be a plan, which has names from the root
    of the file system."""
    read = overview.read_texts(source.folder)
    for warning in overview.torn_warnings(read, source):
        command.say(warning)
    for text in (*not_judged(source.folder), *alone(marks_of(source.folder))):
        command.say(source.shown + b": " + text)
    found = sources.notice(source.folder, read.dump)
    is_whole = found is None or RELATIVE_NAME.search(read.dump) is None
    if found is not None:
        rest = b"; names do not start at the root of the file system, so no plan is written"
        command.say(source.shown + b": " + found + rest * (not is_whole))
        for warning in overview.names_without_row(source.folder, read.dump):
            command.say(warning)
    return is_whole


def steps_by_hand(program: str, snapshot: Snapshot, outcome: Outcome, changes: ChangedPaths) -> Steps:
    """What facl-apply does not do."""
    if not outcome.commands and not changes.made and not changes.removed:
        return NO_STEPS
    bodies = [outcome.new[path].body for path in changes.made]
    records = ask_records(program, bodies) if bodies else {}
    return by_hand.steps_of(snapshot, outcome.commands, changes, outcome.old, outcome.new, records)


def plan_files(program: str, snapshot: Snapshot, scripts: List[Script], outcome: Outcome, changes: ChangedPaths,
               steps: Steps) -> Dict[bytes, bytes]:
    """The files of a plan; fails where a snapshot has the inodes of other files, and not of each one that changes."""
    lacking = [path for path in changes.changed if path not in snapshot.inodes] if snapshot.inodes else []
    if lacking:
        raise Failure(snapshot.folder + b"/inodes: has no " + live_path(lacking[0])
                      + b", so it is not what facl snapshot wrote: make the snapshot again")
    script, undo = by_hand.scripts_of(steps, outcome.new)
    comments = [line + b"\n" for left in outcome.left for line in chown.comments(left)]
    return {
        b"edits": b"".join(text + b"\n" * (text[-1:] not in (b"", b"\n")) for _, text in scripts),
        **file_texts(program, snapshot, changes.changed, outcome.old, outcome.new),
        STEPS: b"" if steps is NO_STEPS else text_of(steps),
        **dict(zip(SCRIPTS, (script + b"".join(comments), undo))),
        meta.NAME: meta.text_of(snapshot.folder),
    }


def body(command: Command, words: List[str]) -> int:
    given = parse(words)
    with sources.opened(given) as source:
        return plan_over(command, given, source)


def name_of_plan(given: argparse.Namespace, folder: bytes) -> bytes:
    """The folder of the plan, where none is given beside that of the snapshot."""
    if given.plan is not None:
        return os.fsencode(given.plan)
    name = folder.rstrip(b"/")
    return (os.path.abspath(folder) if os.path.basename(name) in (b"", b".", b"..") else name) + b".plan"


def plan_over(command: Command, given: argparse.Namespace, source: sources.Source) -> int:
    snapshot = read_snapshot(source.folder, needs_links=False)
    name = name_of_plan(given, source.shown)
    group = None if given.readers is None else group_of(given.readers)
    scripts = list(map(read_text, given.scripts))
    target = plan_folder.open_target(name)
    units = [unit for script in scripts for unit in script.units()]
    is_whole = say_unknown(command, source)
    outcome = answer_scripts(given, snapshot, units, is_whole, given.full)
    changes = compare(outcome.old, outcome.new)
    program = find_program(given)
    steps = steps_by_hand(program, snapshot, outcome, changes if is_whole else ChangedPaths([], [], []))
    commands = [it.command() for it in steps.way()]
    say_messages(command, outcome, scripts)
    if not given.json:
        command.write(answers_text(outcome.asked))
    has_work = bool(changes.changed or changes.made or changes.removed or commands)
    is_shown = not say_refused(command, outcome, given.keep_going) and has_work
    written = name if is_shown and is_whole else None
    marks = marks_of(snapshot.folder)
    stuck = obstacles(marks, changes) if marks.own or marks.mounts else {}
    if given.acl5:  # The files by whose lists Linux grants otherwise than acl(5).
        otherwise = [path for path, file in outcome.new.items() if read_record(file.body).has_open_empty_mask()]
        command.say(overview.by_acl5(list(map(outcome.name_of, otherwise))))
    if is_shown:
        warn_of_stuck(command, stuck, changes, outcome)
    if written is not None:
        kept = plan_folder.write_plan(target, plan_files(program, snapshot, scripts, outcome, changes, steps), group)
        if kept is not None:
            command.say(b"kept the earlier plan as " + kept)
    if given.json or is_shown:
        report = json_report if given.json else text_report
        for part in report(given, source, outcome, changes, commands, written, stuck):
            command.write(part)
    if not has_work and not outcome.refusals():
        command.say(b"nothing to do: no line changes an ACL, an owner, a flag, a file or a user")
    return REFUSED if outcome.refusals() else SOMETHING if has_work else NOTHING
