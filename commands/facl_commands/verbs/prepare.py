"""What a verb does with its words before it runs: it chooses the snapshot, or where something is written."""
from __future__ import annotations

import argparse
import os
from typing import TYPE_CHECKING, Iterable

from ..base import scratch
from ..base.messages import Command, Failure
from ..base.names import write_user
from ..base.programs import find_program
from ..jobs.notes import JobNote
from ..model import choice, meta, sources
from ..model.entries import perms
from ..model.snapshot import check_texts
from ..model.sources import Source
from . import store

if TYPE_CHECKING:
    from ..jobs.of_user import JobPlan

REMAINS = 1  # The status where a job leaves something to be done.
EDITS = "edits"  # What a plan is named by, where its lines are in no file.
NOTHING_TO_DO = 3  # As facl-plan ends.
LONGEST_NAME = 200  # Characters in the name of a plan.


def nothing(_command: Command, _given: argparse.Namespace) -> None:
    """Leaves the words as they are."""


def choose(command: Command, given: argparse.Namespace) -> None:
    """Chooses the snapshot, says how old it is, and looks whether it has the paths of the line."""
    given.stored = store.chosen(given.snapshot)
    if not given.takes_parts:
        check_undivided(command, given.stored)
    store.check_paths(given.stored, [*map(os.fsencode, given.paths)])
    given.folder = os.fsdecode(given.stored.folder)
    for note in () if given.quiet else store.notes(given.stored):
        command.say(note)


def check_undivided(command: Command, stored: store.Stored, option: bytes = b"-s") -> None:
    if stored.parts:
        raise Failure(stored.name + b": has several parts; %s takes one: %s " % (command.name, option) + stored.parts[0])


def new_snapshot(_command: Command, given: argparse.Namespace) -> None:
    """Names the new snapshot of the store, unless a folder is given."""
    given.in_store = given.output is None
    if given.in_store:
        place = store.made_place()
        given.output = os.fsdecode(os.path.join(place, store.new_name(place)))


def two(command: Command, given: argparse.Namespace) -> None:
    """Chooses the two snapshots that are compared."""
    if given.output is not None and given.below:
        raise Failure(b"the page of -o shows all files: leave out --below")
    words = [it for it in (given.old, given.new) if it is not None]
    found = [store.named(os.fsencode(it)) for it in words]
    if len(found) < 2:
        known = store.whole_of_this_host(store.snapshots_in(store.place()))[len(found) - 2:]
        if len(known) + len(found) < 2:
            raise Failure(store.place() + b": has no two snapshots of this host to compare: facl snapshots")
        found += known
    if found[0].folder == found[1].folder:
        raise Failure(found[0].name + b": is compared with itself; facl snapshots lists the others")
    for it in () if given.quiet or words else found:
        command.say(b"compares " + it.name + b" of " + it.about.date)
    given.before, given.after = (os.fsdecode(it.folder) for it in found)


def take_edits(given: argparse.Namespace, edits: bytes) -> None:
    """Has facl-plan read lines of edits from its standard input."""
    with scratch.new_file("facl-edits.") as file:
        file.write(edits)
        file.seek(0)
        os.dup2(file.fileno(), 0)
    given.scripts = ["-"]


def plan(command: Command, given: argparse.Namespace) -> None:
    """Takes lines of edits in the place of a file, and names the plan by the edits."""
    if bool(given.edit) == bool(given.scripts):
        raise Failure(b"give a file of edits, or lines with -e LINE")
    choose(command, given)
    if given.edit:
        take_edits(given, b"".join(os.fsencode(line) + b"\n" for line in given.edit))
    if given.output is None:
        name = os.path.basename(given.scripts[0])
        given.output = (EDITS if name in ("", "-", ".", "..") else name) + ".plan"


# --- the edits of a job


def take_job(command: Command, given: argparse.Namespace, edits: bytes, said: Iterable[JobNote]) -> None:
    """Says what a person has to know of some edits, and plans them."""
    for note in said:
        note.say(command, given.full)
    if not edits:
        raise Failure(b"nothing to do", NOTHING_TO_DO)
    take_edits(given, edits)


def name_plan(given: argparse.Namespace, verb: str, word: str) -> None:
    """Names the plan of a job by a path, unless it has a name."""
    if given.output is None:
        name = os.path.basename(word.rstrip("/")) or "root"
        given.output = "%s-%s.plan" % (verb, name[:LONGEST_NAME])


def restore(command: Command, given: argparse.Namespace) -> None:
    """Chooses the older snapshot, and the one that it is planned over."""
    from ..jobs.restore import restoring  # Few lines need it.

    now = store.newest() if given.now is None else store.named(os.fsencode(given.now))
    old = store.before(now) if store.is_none_named(given.snapshot) else store.chosen(given.snapshot)
    for it, option in ((now, b"--now"), (old, b"-s")):
        check_undivided(command, it, option)
        check_texts(it.folder)
        store.check_paths(it, [os.fsencode(given.within)], option)
    store.check_older(old, now)
    given.folder = os.fsdecode(now.folder)
    for note in () if given.quiet else store.notes(now):
        command.say(note)
    if not given.quiet:
        command.say(b"restores from " + meta.named(old.name, old.about))
    job = restoring(find_program(given), old.folder, now.folder, os.fsencode(given.within))
    name_plan(given, "restore", given.within)
    take_job(command, given, job.edits, job.notes)


def move_group(command: Command, given: argparse.Namespace) -> None:
    """Chooses the snapshot, and what one group has there for another one."""
    from ..jobs.move_group import moving  # Few lines need it.

    choose(command, given)
    words = [*map(os.fsencode, (given.within, given.oldgroup, given.newgroup))]
    job = moving(find_program(given), given.stored.folder, words)
    name_plan(given, "move-group", given.within)
    if not (given.quiet and job.edits):
        command.say(job.summary)
    take_job(command, given, job.edits, job.notes)


def open_file(command: Command, given: argparse.Namespace) -> None:
    """Chooses the snapshot, and the entries that a user lacks on the way to a file."""
    from ..jobs.open_file import Wanted, opening  # Few lines need it.
    from ..model.everybody import SHOWN, world_of
    from ..questions.who.asking import Asker, read_rights

    choose(command, given)
    letters = b"".join(right.letters for right in read_rights(given.perms))
    word = os.fsencode(given.user)
    if word == SHOWN:
        raise Failure(SHOWN + b": no entry names whom the snapshot does not have; name a user")
    with world_of(find_program(given), sources.Source(given.stored.folder, given.stored.name, False)) as world:
        asker = Asker(world, argparse.Namespace(file_alone=given.alone, lists_alone=True))
        shown = asker.user_of(word, has_row=True).shown
        user = next(it for it in world.users if write_user(it.name) == shown)
        path = choice.folder_of(world.session, os.fsencode(given.file))
        job = opening(Wanted(world, user, path, perms(letters), given.alone))
    name_plan(given, "open", given.file)
    take_job(command, given, job.edits, job.notes)


def leaver(command: Command, given: argparse.Namespace) -> None:
    """Takes the lines for a user who leaves."""
    from ..jobs import leaver as job  # As few verbs need it, and a program.

    choose(command, given)
    heir = None if given.to is None else os.fsencode(given.to)
    take_user_job(command, given, "leaver", job.plan_of(find_program(given), source_of(given), os.fsencode(given.user), heir))


def joiner(command: Command, given: argparse.Namespace) -> None:
    """Takes the lines that give a user what another one has."""
    from ..jobs import joiner as job

    choose(command, given)
    new, like = map(os.fsencode, (given.newuser, given.like))
    take_user_job(command, given, "joiner", job.plan_of(find_program(given), source_of(given), new, like, given.folders))


def source_of(given: argparse.Namespace) -> Source:
    return Source(given.stored.folder, given.stored.name, False)


def take_user_job(command: Command, given: argparse.Namespace, name: str, found: JobPlan) -> None:
    """Has facl-plan make a plan of a job; what it leaves to be done is said after the plan, and the status is 1 then."""
    def conclude(status: int) -> int:
        for text in [*([] if given.quiet else found.said), *found.left]:
            command.say(text)
        return REMAINS if found.left else status

    take_edits(given, found.edits)
    given.output = given.output or "%s-%s.plan" % (name, os.fsdecode(found.about))
    given.conclude = conclude


def ask(command: Command, given: argparse.Namespace) -> None:
    """Chooses the snapshot, unless all words are snapshots."""
    given.snapshots = []
    if not (given.each or given.hosts):
        choose(command, given)
        given.snapshots = [given.folder]


def daily(_command: Command, given: argparse.Namespace) -> None:
    """Puts the options of recording into one word, which facl-daily cuts at blanks; the timer gets the words as they are. The file
    of --users has its name from the root on, since facl-daily works in the store."""
    given.store = os.fsdecode(store.place())
    if given.install:
        return
    given.users = os.path.abspath(given.users) if given.users else None
    words = ["--exclude=" + it for it in given.exclude] + ["--users=" + it for it in (given.users,) if it] + [
        "--readers=" + it for it in (given.readers,) if it] + ["--cross-file-systems"] * given.cross_file_systems
    for word in words:
        if len(word.split()) != 1:
            raise Failure(os.fsencode(word) + b": may have no blank here")
    given.exclude, given.users, given.readers, given.cross_file_systems = [], None, None, False
    given.recording = " ".join(words) or None
