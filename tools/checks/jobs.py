"""Does 22 jobs of a week on a real tree with local users and users of sssd, and compares their ends with the kernel.

usage: tools/check.py jobs PROGRAM [JOB..] [--seed N] [--files N] [--record]      PROGRAM: facl_linux

As root, with sssd and acl, in a mount namespace of its own: /etc, /srv and the folders of sssd are copies there. sssd answers names
that no list has (enumerate = false). Each job is a function of lib/jobs_that_ask.py, lib/jobs_that_change.py or
lib/jobs_of_users.py, and gets a tree of N files (200) of its own, with lists, masks and closed directories; JOBs choose. One that
asks compares its answer with access(2) as each user on each file, or with real renames; one that changes says who may have other
rights then, and nobody else may have other rights than before. After each, access(2) has to be what `facl ask` answers of a
snapshot that is made then. The exit status is 1 if something differs.
"""
from __future__ import annotations

import argparse
import os
import shutil
import tempfile
import time
from typing import Callable, Dict, List, NamedTuple

from lib import jobs_of_users as users
from lib import jobs_that_ask as asks
from lib import jobs_that_change as changes
from lib.job_tree import LETTERS, JobResult, JobTree, system, unlike, write
from lib.script import Failed, say
from lib.session import conclude, options_of

JOBS: Dict[str, Callable[[JobTree], JobResult]] = {it.__name__: it for it in (
    asks.who_and_why, asks.what_a_guest_may_do, changes.open_for_guest, users.leaver_local, users.leaver_of_directory, changes.move_group,
    asks.daily, changes.audit_and_fix, asks.rules, asks.pages, asks.monday_and_friday, asks.two_servers, asks.old_backup,
    changes.large_tree, changes.full_disk, changes.killed_in_the_middle, changes.package, changes.restored_folder, asks.who_removes,
    users.joiner_local, users.joiner_of_directory, users.service_account)}


class JobDone(NamedTuple):
    name: str
    answers: int  # That were compared after it.
    faults: List[str]
    is_skipped: bool


def try_job(name: str, work: str, given: argparse.Namespace) -> JobDone:
    """Does a job on a tree of its own."""
    start, place = time.monotonic(), os.path.join(work, name)
    os.mkdir(place, 0o700)
    tree = JobTree(place, given, given.seed)
    tree.snapshot()
    before = tree.granted()
    done = JOBS[name](tree)
    after, faults = tree.granted(), list(done.faults)
    if not done.skipped:
        faults += unlike("kernel and facl differ", after, tree.answered(after))
        faults += unlike("has other rights than before", {user: its for user, its in after.items() if user not in done.may_change}, before)
    for path, text in tree.people.items():
        write(path, text)
    say(f"{name}: {time.monotonic() - start:.1f} s" + f"; not done: {done.skipped}" * bool(done.skipped))
    return JobDone(name, len(after) * len(tree.paths()) * len(LETTERS), [f"{name}: {fault}" for fault in faults], bool(done.skipped))


def main() -> int:
    options = options_of(__doc__, seed=1, files=200)
    options.add_argument("jobs", nargs="*", metavar="JOB", choices=[[], *JOBS], default=[])
    given = options.parse_intermixed_args()
    if os.geteuid() != 0 or not all(map(shutil.which, ("sssd", "setfacl", "mkfs.ext4"))):
        raise Failed("it takes root, sssd, acl and mkfs.ext4")
    with tempfile.TemporaryDirectory(prefix="facl-jobs.") as work, system(work):
        found = [try_job(name, work, given) for name in given.jobs or JOBS]
    done = [it for it in found if not it.is_skipped]
    skipped = ", ".join(it.name for it in found if it.is_skipped)
    amount = f"--files {given.files}: {len(done)} functions of jobs, {sum(it.answers for it in done)} answers"
    return conclude(given, amount + f"; not done: {skipped}" * bool(skipped), [fault for it in found for fault in it.faults])
