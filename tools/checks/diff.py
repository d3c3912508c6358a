"""Compares facl-diff with the difference of two full answers of `index`, over random pairs of states of a real tree.

usage: tools/check.py diff PROGRAM [--pairs N] [--files N] [--users N] [--edits N] [--seed N] [--record]

As root, on a file system with access control lists: of each pair (300) facl-snapshot records a tree of N files (40)
and N users (8), which the real tools then change: setfacl, chmod, chown, mv, rm, mkdir and others, and edits of passwd
and group (up to 12). Names have what is odd in names. facl-diff compares the two snapshots along paths and with each
file alone, by edits, by records, and below a folder. What it says of each user is compared with what `index` says of
both snapshots; along paths a user has what is granted where `index` has search for the user on all directories above. The
user whom it calls everybody else is one more there, of whom neither snapshot has the name or the ids.

The exit status is 1 if an answer differs, 2 if the words are others.
"""
from __future__ import annotations

import argparse
import json
import os
import shutil
import subprocess
import sys
import tempfile
from collections import Counter
from typing import Any, Callable, Dict, List, Set, Tuple

from lib.answers import components
from lib.random_world import FIRST_GID, FIRST_UID, PERMS, World, printed
from lib.script import Failed, TOP
from lib.session import conclude, options_of

REQUESTS = ["---", "--x", "-w-", "-wx", "r--", "r-x", "rw-", "rwx"]
ABSENT, NONE = "absent", "none"
OPTIONS = ["--json", "--all-users", "--with-root"]
MOST_FAULTS = 20
NAMES = ["a", "b c", "d\ne", "f\\g", "h'i", "-j", "=k", "#l", os.fsdecode(b"\xff"), "ü", "m.txt", "n\to", ":p,"]
USERS = ["anna", "bert carla", "=dora", "emil#", os.fsdecode(b"\xfffritz"), "gül", "-hans", "1007", "ida\\", "jan"]
ELSE = b"everybody\\040else"  # As `index` has the name.
Change = Tuple[bytes, str, str]  # A user, with the right before and after.
Path = Tuple[bytes, ...]
Rights = Dict[Path, Dict[bytes, int]]  # A byte of `index` for each user.
VIEWS: Tuple[List[str], ...] = ([], ["--file-alone"])
FORMS: Dict[str, List[str]] = {"edits": [], "records": ["/"], "folder": []}  # The last one gets a folder.


class States(World):
    """A tree whose names have what is odd in names, and which changes, as do its users and groups."""

    perms = (*PERMS, "-wx")

    def __init__(self, work: str, given: argparse.Namespace, seed: int) -> None:
        self.passwd: List[List[str]] = []
        self.group: List[List[str]] = [["all", "x", str(FIRST_GID), ""]]
        super().__init__(work, given, seed)
        for change in (self.add_user, self.add_group, self.change_members):
            for _ in range(self.users):
                change()

    # --- people

    def any_uid(self) -> str:
        return str(FIRST_UID + self.chance.randrange(2 * self.users))

    def any_gid(self) -> str:
        return str(FIRST_GID + self.chance.randrange(self.users))

    def add_user(self) -> None:
        name = self.chance.choice(USERS) + self.chance.choice(["", "", "2"])
        if all(name != row[0] for row in self.passwd):
            taken = {row[2] for row in self.passwd}
            free = [it for it in map(str, range(FIRST_UID, FIRST_UID + 3 * self.users)) if it not in taken]
            uid = self.chance.choice(free) if self.chance.random() < 0.95 else self.any_uid()
            self.passwd.append([name, "x", uid, self.any_gid(), "", "/", "/bin/sh"])

    def remove_user(self) -> None:
        if len(self.passwd) > 2:
            self.passwd.remove(self.chance.choice(self.passwd))

    def change_user(self) -> None:
        row = self.chance.choice(self.passwd)
        field = self.chance.choice([2, 3, 3, 3])
        row[field] = self.any_gid() if field == 3 else self.any_uid() if self.chance.random() < 0.5 else str(int(row[2]) + 100)

    def add_group(self) -> None:
        name = f"g{self.chance.randrange(3 * self.users)}"
        if all(name != row[0] for row in self.group):
            self.group.append([name, "x", self.any_gid(), ""])

    def change_group(self) -> None:
        row = self.chance.choice(self.group)
        how = self.chance.randrange(4)
        if how == 0 and len(self.group) > 2:
            self.group.remove(row)
        elif how == 1:
            row[2] = self.any_gid()
        elif how == 2:
            row[0] += "-"
        else:
            self.chance.shuffle(self.group)

    def change_members(self) -> None:
        row = self.chance.choice(self.group)
        names = [it for it in row[3].split(",") if it]
        name = self.chance.choice([it[0] for it in self.passwd] + ["nobody-there"])
        if "," not in name:
            names = [it for it in names if it != name] if name in names else [*names, name]
        row[3] = ",".join(names)

    def write_people(self) -> None:
        self.write_rows(self.passwd, self.group)

    # --- files

    def paths(self, folders: bool = False) -> List[str]:
        found = [self.top]
        for folder, names, files in os.walk(self.top):
            found += [os.path.join(folder, it) for it in sorted(names + ([] if folders else files))]
        return found

    def new_place(self) -> str:
        return os.path.join(self.chance.choice(self.paths(folders=True)), self.chance.choice(NAMES) + self.chance.choice(["", "1", "2", " "]))

    def make(self, place: str) -> None:
        if not os.path.lexists(place):
            printed(["mkdir" if self.chance.random() < 0.35 else "touch", "--", place])
            self.files.append(place)
            self.dress(place)

    def make_new(self) -> None:
        self.make(self.new_place())

    def entry(self) -> str:
        who = self.chance.choice([f"u:{self.any_uid()}", f"g:{self.any_gid()}", f"u:{self.any_uid()}", "u:", "g:", "o:", "m:"])
        return f"{who}:{self.chance.choice(self.perms)}"

    def dress(self, place: str) -> None:
        how = self.chance.randrange(7)
        if how == 0:
            modes = ["755", "750", "711", "700", "644", "640", "2775", "1777", "4711"]
            printed(["chmod", self.chance.choice(modes), "--", place])
        elif how == 1:
            printed(["chown", f"{self.any_uid()}:{self.any_gid()}", "--", place])
        elif how == 2 and os.path.isdir(place):
            printed(["setfacl", "-d", "-m", self.entry(), "--", place])
        elif how == 3:
            printed(["setfacl", "-b", "--", place])
        elif how == 4:
            printed(["setfacl", "-R", "-m", self.entry().replace("m:", "o:"), "--", place])
        else:
            entries = {it.rpartition(":")[0]: it for it in (self.entry(), f"u:{self.any_uid()}:rwx", "m::rwx")}
            mask = ["-n"] if self.chance.random() < 0.5 else []
            printed(["setfacl", *mask, "-m", ",".join(entries.values()), "--", place])

    def change_list(self) -> None:
        self.dress(self.chance.choice(self.paths()))

    def remove(self) -> None:
        paths = self.paths()[1:]
        if paths:
            printed(["rm", "-r", "--", self.chance.choice(paths)])

    def move(self) -> None:
        paths, target = self.paths()[1:], self.new_place()
        source = self.chance.choice(paths) if paths else target
        if not os.path.lexists(target) and not (target + "/").startswith(source + "/"):
            printed(["mv", "--", source, target])

    def become_other(self) -> None:
        """A file in the place of a directory, or the other way round."""
        path = self.chance.choice(self.paths())
        if path != self.top:
            is_directory = os.path.isdir(path)
            printed(["rm", "-r", "--", path])
            printed(["touch" if is_directory else "mkdir", "--", path])
            if not is_directory and self.chance.random() < 0.5:
                printed(["touch", "--", os.path.join(path, "new")])

    def edit(self) -> None:
        changes: List[Callable[[], None]] = [
            self.change_list, self.change_list, self.change_list, self.make_new, self.remove, self.move, self.become_other,
            self.add_user, self.remove_user, self.change_user, self.add_group, self.change_group, self.change_members,
            self.change_members]
        self.chance.choice(changes)()

    def record(self, name: str) -> str:
        self.write_people()
        return self.take_snapshot(name)


# --- what is expected


def rights_of(program: str, snapshot: str) -> Tuple[Rights, Dict[Path, bytes]]:
    """What `index` says, and the names of the files there."""
    with open(os.path.join(snapshot, "passwd"), "rb") as file:
        rows = file.read() + b"everybody else:x:4200000000:4200000000::/:\n"
    with open(snapshot + ".passwd", "wb") as file:
        file.write(rows)
    words = ["--passwd", snapshot + ".passwd",
             *(word for name in ("group", "dump") for word in ("--" + name, os.path.join(snapshot, name)))]
    found: Rights = {}
    names: Dict[Path, bytes] = {}
    for line in os.fsencode(printed([program, *words], "index\n")).split(b"\n")[:-1]:
        byte, user, name = line.split(b" ", 2)
        path = components(name)
        found.setdefault(path, {})[user] = int(byte, 16)
        names[path] = name
    return found, names


def text_of(byte: int) -> str:
    """The greatest requests."""
    its = [it for it in range(1, 8) if byte >> it & 1]
    return " ".join(REQUESTS[it] for it in its if not any(it != other and it & other == it for other in its)) or NONE


def right(rights: Rights, path: Path, user: bytes, along: bool) -> str:
    if user not in rights.get(path, {}):
        return ABSENT
    above = [path[:k] for k in range(len(path))] if along else []
    is_open = all(rights[it][user] & 2 for it in above if it in rights)
    return text_of(rights[path][user]) if is_open else NONE


def expected(old: Tuple[Rights, Dict[Path, bytes]], new: Tuple[Rights, Dict[Path, bytes]], along: bool,
             below: Path) -> Dict[Change, Tuple[int, bytes]]:
    """The changes of each user, with the number of files and the first one."""
    users: Set[bytes] = {user for rights, _ in (old, new) for row in rights.values() for user in row}
    found: Dict[Change, Tuple[int, bytes]] = {}
    for path in sorted({*old[1], *new[1]}):
        for user in users if path[: len(below)] == below else ():
            before, after = right(old[0], path, user, along), right(new[0], path, user, along)
            if before != after and {before, after} != {ABSENT, NONE}:
                name = (new[1].get(path) or old[1][path]).strip(b"/")
                count, first = found.get((user, before, after), (0, b"/" if name == b"." else b"/" + name))
                found[user, before, after] = count + 1, first
    return found


def answered(report: Dict[str, object]) -> Dict[Change, Tuple[int, bytes]]:
    """What facl-diff says, as bytes: those that are no UTF-8 are escapes in its texts."""
    found: Dict[Change, Tuple[int, bytes]] = {}
    changes = report["changes"]
    assert isinstance(changes, list)
    for row in changes:
        for user in row["users"]:
            found[user.encode(), row["before"], row["after"]] = row["count"], row["path"].encode()
    return found


def plain(name: bytes) -> bytes:
    return name.decode("utf-8", "backslashreplace").replace("\\xff", "\\377").encode()


def shown(user: bytes) -> bytes:
    return plain(user) if user != ELSE else b"everybody else"


def check(given: argparse.Namespace, seed: int, seen: Counter[str]) -> List[str]:
    """What differs for one pair of states."""
    with tempfile.TemporaryDirectory(prefix="facl-diff-check.") as work:
        world = States(work, given, seed)
        before = world.record("before")
        for _ in range(world.chance.randrange(given.edits + 1)):
            world.edit()
        after = world.record("after")
        sides = rights_of(given.program, before), rights_of(given.program, after)
        folder = world.chance.choice(world.paths())
        faults = []
        for form, folders in FORMS.items():
            asked = [folder] if form == "folder" else folders
            below = components(os.fsencode(folder).replace(b"\\", b"\\\\")) if form == "folder" else ()
            for view in VIEWS:
                wanted = {(shown(user), old, new): (count, plain(first)) for (user, old, new), (count, first) in
                          expected(sides[0], sides[1], not view, below).items()}
                words = [*view, *OPTIONS, "--program", given.program, "--", before, after, *asked]
                faults += compare(wanted, words, f"seed {seed}, {form} {view}", seen)
        return faults


def compare(wanted: Dict[Change, Tuple[int, bytes]], words: List[str], name: str, seen: Counter[str]) -> List[str]:
    """What differs in an answer of facl-diff."""
    done = subprocess.run([os.path.join(TOP, "commands", "facl-diff"), *words], capture_output=True, check=False)
    if done.returncode != (1 if wanted else 0):
        return [f"{name}: status {done.returncode}: {done.stderr[-300:]!r}"]
    report = json.loads(done.stdout)
    seen[str(report["answered_by"])] += 1
    seen["changes"] += len(wanted)
    seen["events"] += len(report["events"])
    found = answered(report)
    others = [key for key in {**wanted, **found} if wanted.get(key) != found.get(key)]
    return [f"{name}: {fault}" for fault in events_beside_changes(report)] + [
        f"{name}: {key}: wanted {wanted.get(key)}, found {found.get(key)}" for key in others[:3]]


def events_beside_changes(report: Dict[str, Any]) -> List[str]:
    """What is wrong where the events are not all that the changes are, each pair of a user and a file once."""
    events, changes = report["events"], report["changes"]
    pairs = [sum(it["pairs"] for it in events), sum(it["count"] * len(it["users"]) for it in changes)]
    users = [{user for it in its for user in it["users"]} for its in (events, changes)]
    faults = [f"the events have {pairs[0]} pairs, the changes {pairs[1]}"] * (pairs[0] != pairs[1])
    faults += ["the events are about other users"] * (users[0] != users[1])
    for it in changes:
        if sum(why["count"] for why in it["reasons"]) != it["count"]:
            faults.append(f"{it}: the reasons are not of all its files")
    for it in events:
        most = max(it["more"], it["less"], *(why["count"] for why in it["reasons"]))
        if not most <= it["count"] <= min(it["more"] + it["less"], it["pairs"]) or it["pairs"] > it["count"] * len(it["users"]):
            faults.append(f"{it}: counts that cannot be")
    return faults


def main() -> int:
    given = options_of(__doc__, pairs=300, files=40, users=8, edits=12, seed=1).parse_args()
    if os.geteuid() != 0 or not shutil.which("setfacl"):
        raise Failed("it takes root and the package acl")
    faults: List[str] = []
    seen: Counter[str] = Counter()
    done = 0
    try:
        while done < given.pairs and len(faults) < MOST_FAULTS:
            its = check(given, given.seed + done, seen)
            for fault in its:
                print(fault, file=sys.stderr)
            faults += its
            done += 1
    finally:
        print(f"{done} of {given.pairs} pairs", file=sys.stderr)  # Also where it is interrupted.
    amount = ", ".join(f"{count} {name}" for name, count in sorted(seen.items()))
    return conclude(given, f"{done} pairs of states ({amount})", faults)
