"""Jobs of checks/jobs.py that ask, look and compare: the answer is beside what the kernel does."""
from __future__ import annotations

import json
import os
from typing import List

from .job_tree import FACL, LETTERS, SHARE, USERS, JobResult, JobTree, Rights, as_user, run, write

QUESTIONS = (("read", "r"), ("write", "w"), ("enter", "x"))
SOME = 6  # Files of which each user is asked.
SENDMAIL = '#!/bin/sh\ncat >>"$(dirname "$0")/mails"\n'
SSH = '#!/bin/sh\n# Plays ssh: the words are --, a machine, and a command, which is done here.\nshift 2\nexec sh -c "$*"\n'


def count_of(rights: Rights, user: str, letter: str, folder: str) -> int:
    return sum(it == letter and f"{path}/".startswith(f"{folder}/") for path, it in rights[user])


def who_and_why(tree: JobTree) -> JobResult:
    rights, faults = tree.granted(), []
    for word, letter in QUESTIONS:
        said = {row[0]: int(row[1]) for row in tree.rows("who", word, SHARE)}
        wanted = {user: count_of(rights, user, letter, SHARE) for user in USERS}
        faults += [f"who {word}: {user}: {said.get(user, 0)}, and {count} by the kernel" for user, count in wanted.items()
                   if said.get(user, 0) != count]
    for path in tree.some(SOME):
        for user in USERS:
            answer = json.loads(tree.facl("why", user, path, "--json", statuses=(0, 1)).stdout)
            granted = {letter for it, letter in rights[user] if it == path}
            faults += [f"why: {answer['sentence']}; by the kernel {granted}"] * ({*answer["rights"]} != granted)
    return JobResult(set(), faults)


def what_a_guest_may_do(tree: JobTree) -> JobResult:
    rights, faults = tree.granted(), []
    folders = {path for path in tree.paths() if os.path.isdir(path)}
    for user in USERS:
        rows = {row[0]: row[3:6] for row in tree.rows("user", user, "--depth", "99")}
        for folder in folders:
            wanted = [str(count_of(rights, user, letter, folder)) for _, letter in QUESTIONS]
            said = rows.get(folder, ["0"] * len(QUESTIONS))
            faults += [f"user {user}: {folder}: {said}, and {wanted} by the kernel"] * (said != wanted)
    return JobResult(set(), faults)


def who_removes(tree: JobTree) -> JobResult:
    """By real renames, in directories of which some are sticky."""
    for folder in [path for path in tree.paths() if os.path.isdir(path)][2::3]:
        run("chmod", "+t", folder)
    tree.snapshot()
    faults, files = [], [path for path in tree.some(3 * SOME) if not os.path.isdir(path)]
    able = {user: {*as_user(user, lambda: filter(can_rename, files))} for user in USERS}
    for path in files:
        said = {row[0] for row in tree.rows("who-removes", path)} & {*USERS}
        wanted = {user for user in USERS if path in able[user]}
        faults += [f"who-removes {path}: {sorted(said)}, and {sorted(wanted)} by renames"] * (said != wanted)
    return JobResult(set(), faults)


def can_rename(path: str) -> bool:
    try:
        os.rename(path, path + ".gone")
    except PermissionError:
        return False
    os.rename(path + ".gone", path)
    return True


def daily(tree: JobTree) -> JobResult:
    """Mail where something is new; none where nothing is."""
    write(tree.name("sendmail"), SENDMAIL, 0o755)
    tree.variables["PATH"] = f"{tree.work}:{os.environ['PATH']}"
    write(tree.name("mails"), "")
    words = ("daily", "/srv", "--mail", "root", "--users", tree.name("names"), "--fail-on")
    first = tree.facl(*words, "high", statuses=(0, 1))
    faults = [f"daily: {first}"] * (bool(first.returncode) != bool(tree.read(tree.name("mails"))) or bool(first.stdout))
    write(tree.name("mails"), "")
    tree.facl(*words, "none")
    tree.facl(*words, "none")
    faults += ["daily: a mail where nothing changed"] * bool(tree.read(tree.name("mails")))
    os.chmod(SHARE, 0o777)
    tree.facl(*words, "none", statuses=(1,))
    mail = tree.read(tree.name("mails"))
    return JobResult({*USERS}, faults + [f"daily: {mail!r}"] * (f"others' entry changed     1  -w-        0        {SHARE}" not in mail))


def rules(tree: JobTree) -> JobResult:
    rights, faults, lines, wanted = tree.granted(), [], [], {}
    may_write_there = {user: frozenset(it for it in its if not os.path.isdir(it[0]) or (it[0], "x") in its) for user, its in rights.items()}
    folders = [SHARE, *filter(os.path.isdir, tree.some(tree.count))]
    for folder in folders[:SOME]:
        for user in USERS:
            for word, letter in QUESTIONS[:2]:
                lines.append(f"never {user} {word} '{folder}'")
                wanted[str(len(lines))] = count_of(may_write_there if letter == "w" else rights, user, letter, folder)
    write(tree.name("rules"), "".join(f"{line}\n" for line in lines))
    broken = {row[0]: int(row[3]) for row in tree.rows("check", tree.name("rules"))}
    for line, count in wanted.items():
        faults += [f"{lines[int(line) - 1]}: {broken.get(line, 0)}, and {count} by the kernel"] * (broken.get(line, 0) != count)
    write(tree.name("rules"), tree.facl("rules", *folders).stdout)
    holding = tree.facl("check", tree.name("rules"), statuses=(0, 1))
    faults += [f"facl rules: do not hold: {holding.stdout}"] * bool(holding.returncode)
    return JobResult(set(), faults + ["no rule holds, or none is broken"] * (not 0 < len(broken) < len(lines)))


def pages(tree: JobTree) -> JobResult:
    """The page of the tree, and that of a folder for its owner, with a box at entries."""
    faults: List[str] = []
    for words, part in ((["page"], "<script"), (["review", SHARE], 'type: "checkbox"')):
        page = tree.name(f"{words[0]}.html")
        tree.facl(*words, "-o", page)
        with open(page, encoding="utf-8") as file:
            text = file.read()
        faults += [f"{words[0]}: the page has no {it}" for it in ("<!DOCTYPE html>", part, "</html>") if it not in text]
        again = tree.facl(*words, "-o", page, statuses=(2,))
        faults += [f"{words[0]}: {again.stderr}"] * ("exists and is not replaced" not in again.stderr)
    return JobResult(set(), faults)


def monday_and_friday(tree: JobTree) -> JobResult:
    """The worst event is in the first row; what each user gained and lost is as by the kernel."""
    before, *changed = tree.granted(), *tree.some(4)
    for path in changed:
        run("setfacl", "-m", "u:dora:rwx", path)
    os.unlink(next(path for path in tree.paths() if os.path.isfile(path) and path not in changed))
    os.chmod(SHARE, 0o777)
    tree.snapshot()
    first = tree.rows("diff")[0]
    faults = [f"diff: the first row is {first}"] * (first[0] != "others" or "w" not in first[4] or first[-1] != SHARE)
    after, said = tree.granted(), {user: 0 for user in USERS}
    for _, _, user, count, *_ in tree.rows("diff", "--full"):
        said[user] = said.get(user, 0) + int(count)
    for user in USERS:
        wanted = len({path for path, _ in before[user] ^ after[user]})
        faults += [f"diff: {user}: {said[user]} files, and {wanted} by the kernel"] * (said[user] != wanted)
    return JobResult({*USERS}, faults)


def two_servers(tree: JobTree) -> JobResult:
    """By a stand-in for ssh, beside a server that is down."""
    write(tree.name("ssh"), SSH, 0o755)
    os.symlink(FACL, tree.name("facl"))
    tree.variables["PATH"] = f"{tree.work}:{os.environ['PATH']}"
    folder = os.path.join(tree.variables["FACL_STORE"], tree.last())
    write(tree.name("script"), "".join(f"may --reach dora {letter}\n" for letter in LETTERS))
    done = tree.facl("ask", "--hosts", f"one:{folder}", f"two:{folder}", "down:/nowhere", statuses=(2,), given=tree.read(tree.name("script")))
    wanted, faults = tree.facl("ask", "-q", "-s", folder, tree.name("script")).stdout.splitlines(), []
    for name in ("one", "two"):
        lines = [line[5:] for line in done.stdout.splitlines() if line.startswith(f"{name}: ")]
        faults += [f"{name}: {len(lines)} lines, and {len(wanted)} here"] * (lines != wanted)
    return JobResult(set(), faults + [f"down: {done.stderr}"] * ("down: " not in done.stderr))


def old_backup(tree: JobTree) -> JobResult:
    """What getfacl -R printed is compared as a snapshot of that day is."""
    monday = tree.last()
    write(tree.name("dump"), run("getfacl", "-R", "-p", "/srv").stdout)
    tree.facl("import", tree.name("dump"), "-o", tree.name("old"))
    for path in tree.some(tree.count // 4):
        run("setfacl", "-b", path)
    tree.snapshot()
    friday = tree.last()
    imported, recorded = (tree.rows("diff", it, friday, "--full") for it in (tree.name("old"), monday))
    lines = [sorted(row for row in rows if row[2] in USERS) for rows in (imported, recorded)]
    differ = [row for row in lines[0] + lines[1] if row not in lines[0] or row not in lines[1]]
    faults = [f"import: rows differ from those of the snapshot, first: {differ[:1]}"] * bool(differ)
    return JobResult({*USERS}, faults + ["import: nothing changed"] * (not lines[1]))
