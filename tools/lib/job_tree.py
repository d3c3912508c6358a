"""The tree of checks/jobs.py, in a mount namespace: local users and users of sssd, what the kernel grants each, and what facl answers."""
from __future__ import annotations

import argparse
import contextlib
import ctypes
import os
import pwd
import random
import re
import shutil
import subprocess
import time
from typing import Callable, Dict, FrozenSet, Iterable, Iterator, List, NamedTuple, Sequence, Set, Tuple

from .script import TOP, Failed

NEW_NAMESPACE = 0x00020000  # CLONE_NEWNS of unshare(2).
LOCAL = {"anna": (71001, 71001), "bert": (71002, 71100), "carl": (71003, 71100), "dora": (71004, 71004), "svc": (71050, 71050)}
OF_SERVICE = {"stefan": (200005, 210000), "tina": (200006, 210000), "uwe": (200007, 71100)}
GROUPS = {"anna": (71001, ""), "dora": (71004, ""), "svc": (71050, ""), "team": (71100, "anna,stefan"), "hr": (71200, "anna,bert,tina")}
SERVICE_GROUPS = {"dirstaff": (210000, ""), "dirlaw": (210001, "stefan,tina")}  # sssd's files provider asks for members of its own.
USERS = (*LOCAL, *OF_SERVICE)
IDS = {**LOCAL, **OF_SERVICE}
PERMISSIONS = ("r--", "rw-", "r-x", "rwx", "---", "-wx")
SHARE, FACL = "/srv/top", os.path.join(TOP, "commands", "facl")
LETTERS = {"r": os.R_OK, "w": os.W_OK, "x": os.X_OK}
CONFIGURATION = """\
[sssd]
services = nss
domains = dir
enable_files_domain = false
[nss]
[domain/dir]
id_provider = files
passwd_files = /etc/dir.passwd
group_files = /etc/dir.group
enumerate = false
"""
END, ENDED = "getfacl -c .", "user::rwx\ngroup::r-x\nother::r-x\n"  # A line between two questions, and its answer.
Rights = Dict[str, FrozenSet[Tuple[str, str]]]  # By user: files, each with a letter.


def run(*words: str, statuses: Tuple[int, ...] = (0,), variables: Dict[str, str] = {},
        given: str = "") -> subprocess.CompletedProcess[str]:
    done = subprocess.run(words, env={**os.environ, **variables}, input=given, capture_output=True, text=True, check=False)
    if done.returncode not in statuses:
        raise Failed(f"{' '.join(words)}: status {done.returncode}: {done.stdout[-300:]} {done.stderr[-600:]}")
    return done


def write(path: str, text: str, mode: int = 0o644) -> None:
    with open(path, "w", encoding="ascii") as file:
        file.write(text)
    os.chmod(path, mode)


def copied(place: str, work: str) -> None:
    """Has a copy of a folder in its place."""
    copy = os.path.join(work, place.strip("/").replace("/", "."))
    os.makedirs(place, exist_ok=True)
    run("cp", "-a", place, copy)
    run("mount", "--bind", copy, place)


@contextlib.contextmanager
def system(work: str) -> Iterator[None]:
    """The namespace, with users and groups of the system and of sssd."""
    if ctypes.CDLL(None, use_errno=True).unshare(NEW_NAMESPACE):
        raise Failed("unshare: " + os.strerror(ctypes.get_errno()))
    run("mount", "--make-rprivate", "/")
    for place in ("/etc", "/var/lib/sss", "/var/log/sssd"):
        copied(place, work)
    for place in ("/srv", "/run"):  # sssd has its number in /run.
        run("mount", "-t", "tmpfs", "-o", "mode=755", "tmpfs", place)
    for database, *sides in (("passwd", LOCAL.items(), OF_SERVICE.items()), ("group", GROUPS.items(), SERVICE_GROUPS.items())):
        ends = ":/nonexistent:/bin/sh" if database == "passwd" else ""
        rows = [[f"{name}:x:{one}:{other}{':' * bool(ends)}{ends}\n" for name, (one, other) in its] for its in sides]
        with open(f"/etc/{database}", "a", encoding="ascii") as file:
            file.writelines(rows[0])
        write(f"/etc/dir.{database}", "".join(rows[1]))
    write("/etc/nsswitch.conf", "passwd: files sss\ngroup: files sss\ninitgroups: files [SUCCESS=continue] sss\n")
    os.makedirs("/etc/sssd", exist_ok=True)
    write("/etc/sssd/sssd.conf", CONFIGURATION, 0o600)
    for folder in ("db", "mc"):
        shutil.rmtree(f"/var/lib/sss/{folder}", ignore_errors=True)
        os.mkdir(f"/var/lib/sss/{folder}")
    service = subprocess.Popen(["sssd", "-i"], stdout=subprocess.DEVNULL, stderr=subprocess.DEVNULL)
    try:
        wait_for_service()
        yield
    finally:
        service.terminate()
        service.wait()


def wait_for_service() -> None:
    for words in (("passwd", "stefan"), ("group", "dirlaw")):
        for _ in range(240):
            if not run("getent", *words, statuses=(0, 2)).returncode:
                break
            time.sleep(0.5)
    listed = run("getent", "passwd").stdout
    if "stefan:" in listed or "\nanna:" not in listed:
        raise Failed("sssd does not answer, or lists its users")


class PlanMade(NamedTuple):
    folder: str
    users: Set[str]  # Whose rights it says that it changes.
    said: str


class JobTree:
    """A tree in /srv, a store, and the folder of plans."""

    def __init__(self, work: str, given: argparse.Namespace, seed: int) -> None:
        self.work, self.chance, self.count = work, random.Random(seed), given.files
        self.variables = {"FACL": given.program, "FACL_LINUX": given.program, "FACL_STORE": self.name("store"), "FACL_SNAPSHOT": ""}
        os.makedirs(self.variables["FACL_STORE"], 0o700, exist_ok=True)
        self.people = {name: self.read(name) for name in ("/etc/passwd", "/etc/group")}
        self.make()

    def name(self, name: str) -> str:
        return os.path.join(self.work, name)

    @staticmethod
    def read(name: str) -> str:
        with open(name, encoding="ascii") as file:
            return file.read()

    def entries(self, count: int) -> str:
        users, groups = self.chance.sample(USERS, count), self.chance.sample([*GROUPS, *SERVICE_GROUPS], 2)
        return ",".join([*(f"u:{user}:{self.chance.choice(PERMISSIONS)}" for user in users),
                         *(f"g:{group}:{self.chance.choice(PERMISSIONS)}" for group in groups)])

    def make(self) -> None:
        for name in os.listdir("/srv"):
            shutil.rmtree(os.path.join("/srv", name))
        folders, ids = ["/srv/top"], [uid for uid, _ in IDS.values()]
        os.mkdir("/srv/top", 0o755)
        for number in range(self.count):
            path = os.path.join(self.chance.choice(folders), f"f {number}")
            if self.chance.random() < 0.2:
                os.mkdir(path)
                folders.append(path)
            else:
                write(path, "")
            os.chown(path, self.chance.choice(ids), self.chance.choice([71100, 71200, 210000, 71001]))
            os.chmod(path, self.chance.choice((0o755, 0o775, 0o750, 0o640, 0o606)))
            if self.chance.random() < 0.7:
                run("setfacl", "-m", self.entries(3), path)
            if path in folders and self.chance.random() < 0.5:
                run("setfacl", "-d", "-m", self.entries(2), path)
            if self.chance.random() < 0.4:
                run("setfacl", "-n", "-m", "m::" + self.chance.choice(("r--", "r-x", "rw-", "---")), path)

    def facl(self, *words: str, statuses: Tuple[int, ...] = (0,), given: str = "") -> subprocess.CompletedProcess[str]:
        return run(FACL, *words, statuses=statuses, variables=self.variables, given=given)

    def rows(self, *words: str) -> List[List[str]]:
        """The fields of an answer, without its titles."""
        return [line.split("\t") for line in self.facl(*words, "--tsv", statuses=(0, 1)).stdout.splitlines()[1:]]

    def snapshot(self, *words: str) -> None:
        write(self.name("names"), "".join(f"{name}\n" for name in OF_SERVICE))
        self.facl("snapshot", "-q", "--users", self.name("names"), *words, "/srv")

    def last(self) -> str:
        """The name of the newest snapshot."""
        return self.facl("snapshots").stdout.splitlines()[1].split()[0]

    def plan(self, verb: str, *words: str, statuses: Tuple[int, ...] = (0,)) -> PlanMade:
        self.snapshot()
        plan = self.name(f"{verb}.plan")
        done = self.facl(verb, *words, "-q", "-o", plan, statuses=statuses)
        said = re.findall(r"(?m)^(\S.*?)  +\S.* -> ", done.stdout)
        return PlanMade(plan, {*USERS} if "everybody else" in said else {*said}, done.stdout + done.stderr)

    def paths(self) -> List[str]:
        return ["/srv", *(os.path.join(place, name) for place, *names in os.walk("/srv") for its in names for name in its)]

    def some(self, count: int) -> List[str]:
        return self.chance.sample(sorted({*self.paths()} - {"/srv", SHARE}), count)

    @staticmethod
    def listing(folder: str = "/srv") -> str:
        """Owners, groups, flags and lists, by number."""
        return run("getfacl", "-R", "-n", "-p", folder).stdout

    def granted(self) -> Rights:
        """What the kernel grants each user who is there."""
        return {user: kernel_grants(user, self.paths()) for user in USERS if has_row(user)}

    def answered(self, users: Iterable[str], edits: Sequence[str] = ()) -> Rights:
        """What facl answers of a new snapshot, after edits."""
        self.snapshot()
        pairs, paths = [(user, letter) for user in users for letter in LETTERS], {*self.paths()}
        write(self.name("script"), "".join(f"{line}\n" for line in edits)
              + "".join(f"may --reach {user} {letter}\n{END}\n" for user, letter in pairs))
        answers = self.facl("ask", "-q", self.name("script")).stdout.split(ENDED)
        found: Dict[str, Set[Tuple[str, str]]] = {user: set() for user, _ in pairs}
        for (user, letter), text in zip(pairs, answers):
            found[user].update(("/" + line.rstrip("/"), letter) for line in text.split("\n"))
        return {user: frozenset(it for it in its if it[0] in paths) for user, its in found.items()}

    def differences(self) -> List[str]:
        """Where the kernel and the answers of a new snapshot differ."""
        granted = self.granted()
        return unlike("kernel and facl differ", granted, self.answered(granted))


def unlike(what: str, one: Rights, other: Rights) -> List[str]:
    """The users who have not the same rights in both."""
    return [f"{user}: {what}, first: {sorted(its ^ other[user])[0]}" for user, its in one.items() if its != other[user]]


def has_row(user: str) -> bool:
    return not run("getent", "passwd", user, statuses=(0, 2)).returncode


def as_user(user: str, ask: Callable[[], Iterable[str]], groups: Sequence[int] = ()) -> List[str]:
    """The lines that a function gives as a user, with more groups, in a process of its own."""
    uid, gid = pwd.getpwnam(user)[2:4]
    its_groups = [*groups, *(int(it) for it in run("id", "-G", user).stdout.split())]
    side, other = os.pipe()
    child = os.fork()
    if child == 0:
        try:
            os.setgroups(its_groups)
            os.setresgid(gid, gid, gid)
            os.setresuid(uid, uid, uid)
            with open(other, "w", encoding="ascii") as file:
                file.writelines(f"{line}\n" for line in ask())
            os._exit(0)
        finally:
            os._exit(1)
    os.close(other)
    with open(side, encoding="ascii") as file:
        found = file.read().splitlines()
    if os.waitpid(child, 0)[1]:
        raise Failed(f"as {user}: a process failed")
    return found


def kernel_grants(user: str, paths: List[str], groups: Sequence[int] = ()) -> FrozenSet[Tuple[str, str]]:
    """Asks access(2) as a user."""
    lines = as_user(user, lambda: (f"{path}\t{letter}" for path in paths for letter, mode in LETTERS.items() if os.access(path, mode)), groups)
    return frozenset((path, letter) for path, _, letter in (line.partition("\t") for line in lines))


class JobResult(NamedTuple):
    """What a job has to have done, and whom it may change."""

    may_change: Set[str]
    faults: List[str]
    skipped: str = ""  # Why it was not done.


def apply_plan(tree: JobTree, plan: str, statuses: Tuple[int, ...]) -> None:
    tree.facl("apply", plan, statuses=(0, 3))
    script = os.path.join(plan, "by_hand")
    if os.path.exists(script):
        run("sh", script, statuses=statuses)
