"""Jobs of checks/jobs.py that are about one user: who leaves, who joins, a service account."""
from __future__ import annotations

import os
import re

from .job_tree import GROUPS, IDS, LOCAL, JobResult, JobTree, apply_plan, has_row, kernel_grants, run

def leaver_of(tree: JobTree, user: str, heir: str) -> JobResult:
    plan = os.path.join(tree.work, f"{user}.plan")
    done = tree.facl("leaver", user, "--to", heir, "-q", "-o", plan, statuses=(0, 1))
    apply_plan(tree, plan, (0,))
    uid, listed = IDS[user][0], run("getfacl", "-R", "-n", "-p", "/srv").stdout
    faults = [f"{user}: the tree still has {it}" for it in (f"user:{uid}:", f"# owner: {uid}\n") if it in listed]
    faults += [f"{user}: /etc/group still has the user"] * bool(re.search(rf"(?m)^[^:]*:[^:]*:[^:]*:.*\b{user}\b", tree.read("/etc/group")))
    if user in LOCAL:
        faults += [f"{user}: is still there"] * has_row(user)
    else:
        is_said = f"{user} is not in /etc/passwd" in done.stderr and done.returncode == 1
        faults += [f"{user}: {done}"] * (not is_said or "userdel" in done.stdout or not has_row(user))
    undo_status = (1,) if user in LOCAL else (0,)
    said = tree.facl("undo", plan, statuses=undo_status).stderr
    faults += [f"{user}: undo says {said!r}"] * (user in LOCAL and f"user {user}: was removed by by_hand, and does not come back" not in said)
    tree.facl("apply", plan)
    return JobResult({user, heir}, faults)


def leaver_local(tree: JobTree) -> JobResult:
    return leaver_of(tree, "anna", "bert")


def leaver_of_directory(tree: JobTree) -> JobResult:
    return leaver_of(tree, "stefan", "tina")


def joiner_of(tree: JobTree, user: str, like: str) -> JobResult:
    plan = os.path.join(tree.work, f"{user}.plan")
    done = tree.facl("joiner", user, "--like", like, "-q", "-o", plan, statuses=(0, 1))
    before = kernel_grants(user, tree.paths())
    apply_plan(tree, plan, (0,))
    mine, its = kernel_grants(user, tree.paths()), kernel_grants(like, tree.paths())
    lacking = {path for path, _ in its - mine}
    said = sum(int(it) for it in re.findall(r"\): (\d+) files?, first: ", done.stderr))
    faults = [f"{user}: {len(lacking)} files are not as of {like}, {said} are said"] * (said != len(lacking))
    is_said = any(set("rwx") & set(old) - set(new) for old, new in re.findall(rf"(?m)^{user} +(\S+) -> (\S+) ", done.stdout))
    return JobResult({user}, faults + [f"{user}: lost rights, which is not said"] * (bool(before - mine) and not is_said))


def joiner_local(tree: JobTree) -> JobResult:
    return joiner_of(tree, "dora", "bert")


def joiner_of_directory(tree: JobTree) -> JobResult:
    return joiner_of(tree, "uwe", "anna")


def service_account(tree: JobTree) -> JobResult:
    """A group that a service has beside those of its row, as by SupplementaryGroups=, is answered as a membership."""
    edit = "gpasswd -a svc hr"
    granted = kernel_grants("svc", tree.paths(), [GROUPS["hr"][0]])
    faults = [f"svc: a group more: kernel and facl differ: {sorted(granted ^ its)[:1]}" for its in tree.answered(["svc"], [edit]).values()
              if its != granted]
    before, made = kernel_grants("svc", tree.paths()), tree.plan("plan", "-e", edit)
    faults += [f"svc: {made.said}"] * (made.users != ({"svc"} if before != granted else set()))
    apply_plan(tree, made.folder, (0,))
    return JobResult({"svc"}, faults + ["svc: the membership does else than the group"] * (kernel_grants("svc", tree.paths()) != granted))
