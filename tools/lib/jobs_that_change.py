"""Jobs of checks/jobs.py that change files: by a plan that is applied, and taken back."""
from __future__ import annotations

import contextlib
import os
import signal
import subprocess
import time
from typing import Set

from .job_tree import FACL, GROUPS, SHARE, JobResult, JobTree, apply_plan, kernel_grants, run, unlike, write
from .script import say

KILLS = 8
DISK = "/srv/disk"
FILES_ON_DISK = 60
LARGE = 10_000  # Files, from which a tree is large.


def open_for_guest(tree: JobTree) -> JobResult:
    before, rights = tree.listing(), tree.granted()
    path = next(path for path in sorted(tree.paths(), reverse=True) if (path, "r") not in rights["dora"])
    made = tree.plan("open", path, "dora", "read")
    apply_plan(tree, made.folder, (0,))
    faults = [f"dora cannot read {path}: {made.said}"] * ((path, "r") not in kernel_grants("dora", tree.paths()))
    faults += tree.differences()
    changed = {user for user, its in tree.granted().items() if its != rights[user]}
    faults += [f"open: {sorted(changed ^ made.users)} are said to change, or not: {made.said}"] * (changed != made.users)
    tree.facl("undo", made.folder)
    return JobResult(set(), faults + ["undo of open: not all is back"] * (tree.listing() != before))


def move_group(tree: JobTree) -> JobResult:
    made = tree.plan("move-group", SHARE, "hr", "team")
    apply_plan(tree, made.folder, (0,))
    gid = GROUPS["hr"][0]
    return JobResult(made.users, [f"the tree still has {it}" for it in (f"group:{gid}:", f"# group: {gid}\n") if it in tree.listing()])


def apply_edits(tree: JobTree, edits: str) -> Set[str]:
    """Plans and applies edits, which may be none; returns whose rights the plan says that it changes."""
    if not any(line[:1].isalpha() for line in edits.splitlines()):
        return set()
    write(tree.name("edits"), edits)
    made = tree.plan("plan", tree.name("edits"))
    apply_plan(tree, made.folder, (0,))
    return made.users


def audit_and_fix(tree: JobTree) -> JobResult:
    """A finding with one file accepted: the edits mend all others, and nobody gains or loses what is not said."""
    finding, accepted = "mask-cuts-entry", tree.name("accepted")
    paths = [row[0] for row in tree.rows("audit", "--list", finding)]
    write(accepted, f"{finding} '{paths[0]}' as it should be\n")
    edits = tree.facl("audit", "fix", finding, "--accepted", accepted, statuses=(0, 1)).stdout
    apply_edits(tree, edits)
    tree.snapshot()
    left = [row[0] for row in tree.rows("audit", "--list", finding)]
    faults = [f"{finding}: {left} are left in place of the accepted one, {paths[0]}"] * ({*left} != {paths[0]} or len({*paths}) < 2)
    before, may_change = tree.granted(), apply_edits(tree, tree.facl("audit", "fix", "writer-outside-groups", statuses=(0, 1)).stdout)
    gained = [user for user, its in tree.granted().items() if its - before[user]]
    return JobResult(may_change, faults + [f"audit fix: {gained} gained something"] * bool(gained))


def full_disk(tree: JobTree) -> JobResult:
    """A file system that is full before each file has its list: all is back."""
    image, small = tree.name("image"), [f"{DISK}/f{number}" for number in range(FILES_ON_DISK)]
    run("truncate", "-s", "1M", image)
    run("mkfs.ext4", "-q", "-b", "1024", "-m", "0", "-I", "128", "-N", "128", "-O", "^has_journal", "-F", image)
    os.mkdir(DISK)
    run("mount", "-o", "loop", image, DISK)
    try:
        for path in small:
            write(path, "")
        before = tree.listing(DISK)
        edits = [word for number, path in enumerate(small) for word in ("-e", f"setfacl -m u:{72000 + number}:r {path}")]
        tree.snapshot("--cross-file-systems")
        tree.facl("plan", "-q", "-o", tree.name("disk.plan"), *edits)
        free = os.statvfs(DISK).f_bavail * 1024
        write(f"{DISK}/large", " " * (free - FILES_ON_DISK // 2 * 1024))
        done = tree.facl("apply", tree.name("disk.plan"), statuses=(1,))
        os.unlink(f"{DISK}/large")
        is_said = "No space left on device" in done.stderr and "restored the old owners, groups, flags and ACLs" in done.stderr
        faults = [f"full disk: {done.stderr}"] * (not is_said or tree.listing(DISK) != before)
        tree.facl("apply", tree.name("disk.plan"))
        faults += ["full disk: the plan does not go with space"] * (tree.listing(DISK).count("\nuser:72") != FILES_ON_DISK)
    finally:
        run("umount", DISK)
        os.rmdir(DISK)
    return JobResult(set(), faults)


def state_of(plan: str) -> str:
    try:
        return JobTree.read(f"{plan}/state").strip()
    except FileNotFoundError:
        return ""


def killed_in_the_middle(tree: JobTree) -> JobResult:
    before, made = tree.listing(), tree.plan("plan", "-e", f"setfacl -R -m u:dora:rwx,d:u:dora:rwx {SHARE}")
    faults, cut = [], 0
    for number in range(KILLS):
        process = subprocess.Popen([FACL, "apply", made.folder], env={**os.environ, **tree.variables}, stdout=subprocess.DEVNULL,
                                   stderr=subprocess.DEVNULL, start_new_session=True)
        while process.poll() is None and state_of(made.folder) != "applying":
            pass
        time.sleep(number * 0.002)
        with contextlib.suppress(ProcessLookupError):
            os.killpg(process.pid, signal.SIGKILL)
        process.wait()
        is_between = tree.listing() != before
        done = tree.facl("undo", made.folder)
        cut += is_between and "was interrupted" in done.stderr
        faults += [f"kill {number}: undo does not give all back: {done.stderr}"] * (tree.listing() != before)
    return JobResult(set(), faults + ["no kill was in the middle"] * (not cut))


def restored_folder(tree: JobTree) -> JobResult:
    """One folder from last week; what changed elsewhere stays."""
    monday, folder = tree.last(), max((path for path in tree.paths() if os.path.isdir(path) and path not in ("/srv", SHARE)),
                                      key=lambda path: sum(it.startswith(f"{path}/") for it in tree.paths()))
    before, elsewhere = tree.listing(folder), f"{SHARE}/elsewhere"
    run("setfacl", "-R", "-b", "-k", folder)
    run("chmod", "-R", "g+rwX,o=", folder)
    run("chown", "-R", "carl:hr", folder)
    write(elsewhere, "", 0o600)
    made = tree.plan("restore", folder, "-s", monday)
    apply_plan(tree, made.folder, (0,))
    faults = [f"restore: {folder} is not as it was"] * (tree.listing(folder) != before)
    faults += ["restore: a new file is gone"] * (not os.path.exists(elsewhere))
    os.unlink(elsewhere)
    return JobResult(set(), faults)


def large_tree(tree: JobTree) -> JobResult:
    if tree.count < LARGE:
        return JobResult(set(), [], f"--files {LARGE} or more has it")
    before, rights, times = tree.listing(), tree.granted(), []
    for words in (["snapshot", "-q", "/srv"], ["who", "read", SHARE], ["audit"],
                  ["plan", "-q", "-o", tree.name("large.plan"), "-e", f"setfacl -R -m u:dora:rwx {SHARE}"],
                  ["apply", tree.name("large.plan")], ["undo", tree.name("large.plan")]):
        start = time.monotonic()
        tree.facl(*words, statuses=(0, 1))
        times.append(f"{words[0]} {time.monotonic() - start:.1f} s")
    say(f"{tree.count} files: " + ", ".join(times))
    return JobResult(set(), ["large: not all is back"] * (tree.listing() != before) + unlike("large", rights, tree.granted()))


def package(_: JobTree) -> JobResult:
    """Upgrade, removal and purge."""
    return JobResult(set(), [], "tools/check.py package has it")
