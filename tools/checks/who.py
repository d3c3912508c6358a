"""Compares each answer of facl-who with what the kernel lets each user do on a real tree.

usage: tools/check.py who PROGRAM [--users N] [--files N] [--seed N] [--record]      PROGRAM: facl_linux

As root: it makes a tree of N files (300) with lists, default lists, masks, sticky and set-group-ID directories, of N
users (12), and facl-snapshot records it. For each user a process with the user's ids asks access(2) of each file, along
its path and by its descriptor alone, renames files and back, as who can remove them may, and makes new files and
folders, whose lists getfacl prints. One user more is asked of, whom the snapshot does not have and no list names: everybody
else. facl-who has to give the same counts, first files, rows of --user, users of --remove and lists of --new-file; owners
and named entries are compared with those that stat(2) and getfacl print.
The mask of every other list that names somebody is empty. --record writes what was found into docs/CHECKS.md.

The exit status is 1 if an answer differs, 2 if the words are others.
"""
from __future__ import annotations

import json
import os
import re
import subprocess
import tempfile
from typing import Callable, Dict, Iterable, List, NamedTuple, Tuple

from lib.random_world import FIRST_GID, FIRST_UID, World, asked, opened, printed
from lib.script import Failed, TOP
from lib.session import conclude, options_of

TEXTS = ["---", "--x", "-w-", "-wx", "r--", "r-x", "rw-", "rwx"]
RIGHTS = {"read": 4, "write": 2, "enter": 1, "rw": 6, "rwx": 7}
SAMPLE = 60  # Files that are renamed, and new files.
DEPTH = 3
Rows = List[List[str]]


class Rights(NamedTuple):
    """For each user and file the requests that the kernel grants, one bit each: along paths, or on the file alone."""

    along: List[List[int]]
    alone: List[List[int]]


class Tree(World):
    """A tree whose directories have default lists and flags too."""

    def dress(self, place: str) -> None:
        super().dress(place)
        if place in self.folders:
            self.flag(place)

    def names(self) -> Dict[int, str]:
        """What answers have for users, in their order."""
        return {user: self.name(user) for user in (self.users, *range(self.users))}

    def list_of(self, place: str) -> str:
        """What getfacl prints, by the names that the snapshot has."""
        text = printed(["getfacl", "-n", "-p", place])
        text = re.sub(r"\b(%d\d\d)\b" % (FIRST_UID // 100), lambda found: "k%d" % (int(found[1]) - FIRST_UID), text)
        return re.sub(r"\b(%d\d\d)\b" % (FIRST_GID // 100), lambda found: "g%d" % (int(found[1]) - FIRST_GID), text)

    def as_user(self, user: int, call: Callable[[], object]) -> List[int]:
        """What a call returns in a process with the ids of a user, who has no capability."""
        reader, writer = os.pipe()
        child = os.fork()
        if child == 0:
            try:
                os.setgroups(self.groups_of(user))
                os.setresgid(*[self.primary_group(user)] * 3)
                os.setresuid(*[self.uid(user)] * 3)
                os.umask(0o022)
                os.write(writer, b" ")
                with open(writer, "w", encoding="utf-8") as out:
                    json.dump(call(), out)
            finally:
                os._exit(0)
        os.close(writer)
        with open(reader, encoding="utf-8") as answer:
            text = answer.read()
        os.waitpid(child, 0)
        found: List[int] = json.loads(text)
        return found

    def who(self, *words: str) -> Tuple[int, str]:
        """The status of facl-who, and what it prints."""
        command = [os.path.join(TOP, "commands", "facl-who"), "--program", self.program, *words]
        done = subprocess.run(command, capture_output=True, text=True, check=False)
        if done.returncode > 1 or done.stderr:
            raise Failed(f"facl-who {' '.join(words)}: status {done.returncode}: {done.stderr[-300:]}")
        return done.returncode, done.stdout

    def rows(self, *words: str) -> Rows:
        status, text = self.who("--tsv", *words)
        rows = [line.split("\t") for line in text.splitlines()[1:]]
        if status != (0 if rows else 1):
            raise Failed(f"facl-who {' '.join(words)}: status {status} with {len(rows)} rows")
        return rows


def ordered(paths: Iterable[str]) -> List[str]:
    return sorted(paths, key=lambda path: path.split("/"))


def ask_kernel(tree: Tree) -> Rights:
    users = range(tree.users + 1)
    along = [tree.as_user(user, lambda: [sum(1 << it for it in range(1, 8) if os.access(path, it)) for path in tree.files])
             for user in users]
    with opened(tree.files) as descriptors:
        alone = [tree.as_user(user, lambda: [sum(1 << it for it in range(1, 8) if asked(descriptor, b"", it))
                                             for descriptor in descriptors.values()]) for user in users]
    return Rights(along, alone)


class Compared:
    """How many answers were compared, and which differ."""

    def __init__(self) -> None:
        self.counts: Dict[str, int] = {}
        self.faults: List[str] = []

    def expect(self, kind: str, words: object, found: object, wanted: object) -> None:
        self.counts[kind] = self.counts.get(kind, 0) + 1
        if found != wanted:
            self.faults.append(f"{kind} {words}")
            print("  differs:", kind, words, "\n    facl-who:", found, "\n    the kernel:", wanted)


def wanted_rights(tree: Tree, granted: List[List[int]], folder: str) -> Rows:
    """The rows without entries: for each user who has one of the rights, numbers and first files."""
    rows, places = [], {path: place for place, path in enumerate(tree.files)}
    for user, name in tree.names().items():
        row, bits = [name], granted[user]
        for request in RIGHTS.values():
            files = ordered(path for path in tree.below(folder) if bits[places[path]] >> request & 1)
            row += [str(len(files)), files[0] if files else ""]
        if any(row[2::2]):
            rows.append(row)
    return rows


def compare_rights(tree: Tree, rights: Rights, compared: Compared) -> None:
    folders = [tree.top, *tree.chance.sample(tree.files[1:], 20)]
    for folder in folders:
        for granted, option in ((rights.along, "--tsv"), (rights.alone, "--file-alone")):
            rows = tree.rows(option, ",".join(RIGHTS), tree.snapshot, folder)
            found = [[row[0], *(cell for place, cell in enumerate(row[1:]) if place % 3 < 2)] for row in rows]
            compared.expect("rights", [folder, option], found, wanted_rights(tree, granted, folder))
            unexplained = [row for row in rows if any(bool(row[k]) != bool(row[k + 1]) for k in range(2, len(row), 3))]
            compared.expect("entries", [folder, option], unexplained, [])


def greatest(bits: int) -> str:
    requests = [it for it in range(1, 8) if bits >> it & 1]
    return " ".join(TEXTS[it] for it in requests if not any(it & other == it != other for other in requests)) or "none"


def compare_users(tree: Tree, rights: Rights, compared: Compared) -> None:
    bits_of = [dict(zip(tree.files, bits)) for bits in rights.along]
    for user, name in tree.names().items():
        wanted, bits = [], bits_of[user]
        for folder in ordered(path for path in tree.files if os.path.isdir(path)):
            files = tree.below(folder)
            counts = [sum(bits[path] >> request & 1 for path in files) for request in (4, 2, 1)]
            if any(counts) and folder.count("/") - tree.top.count("/") <= DEPTH:
                highest = "write" if counts[1] else "read" if counts[0] else "enter"
                wanted.append([folder, greatest(bits[folder]), highest, *map(str, counts), str(len(files))])
        rows = tree.rows("--user", name, "--depth", str(DEPTH), tree.snapshot, tree.top)
        compared.expect("users", user, rows, wanted)


def try_rename(path: str) -> bool:
    """Whether the caller can rename a file in its folder, which takes what removing it takes."""
    try:
        os.rename(path, path + ".gone")
    except PermissionError:
        return False
    os.rename(path + ".gone", path)
    return True


def compare_removal(tree: Tree, compared: Compared) -> None:
    files = tree.chance.sample(tree.files[1:], min(SAMPLE, len(tree.files) - 1))
    able = {user: tree.as_user(user, lambda: list(map(try_rename, files))) for user in tree.names()}
    for place, path in enumerate(files):
        wanted = [name for user, name in tree.names().items() if able[user][place]]
        compared.expect("removal", path, [row[0] for row in tree.rows("--remove", path, tree.snapshot)], wanted)


def try_making(folder: str) -> bool:
    try:
        os.close(os.open(folder + "/made", os.O_WRONLY | os.O_CREAT | os.O_EXCL, 0o666))
        os.mkdir(folder + "/made.d", 0o777)
    except PermissionError:
        return False
    return True


def lines_of(text: str) -> List[str]:
    """The lines of a record that facl-who has, of those that getfacl prints."""
    return [re.sub(r"\t+", " ", line) for line in text.splitlines() if line and not line.startswith("# file: ")]


def compare_new_files(tree: Tree, compared: Compared) -> None:
    folders = [path for path in tree.files if os.path.isdir(path)]
    for number in range(SAMPLE):
        folder, user = tree.chance.choice(folders), number % tree.users
        rows = tree.rows("--new-file", folder, f"k{user}", tree.snapshot)
        wanted: Rows = []
        if tree.as_user(user, lambda: [try_making(folder)])[0]:
            for kind, path in (("file", folder + "/made"), ("folder", folder + "/made.d")):
                wanted += [[kind, line] for line in lines_of(tree.list_of(path))]
            os.unlink(folder + "/made")
            os.rmdir(folder + "/made.d")
        compared.expect("new files", [folder, user], rows, wanted)


def compare_owners(tree: Tree, compared: Compared) -> None:
    lists = {path: lines_of(tree.list_of(path)) for path in ordered(tree.files)}
    for user in range(tree.users):
        owned = [[path, line] for path, lines in lists.items() if os.stat(path).st_uid == FIRST_UID + user
                 for line in lines if line.startswith("user::")]
        compared.expect("owners", user, tree.rows("--owner", f"k{user}", tree.snapshot), owned)
        named = [[path, line] for path, lines in lists.items() for line in lines if re.match(rf"(default:)?user:k{user}:", line)]
        compared.expect("named", user, tree.rows("--names", f"k{user}", tree.snapshot), named)


def main() -> int:
    given = options_of(__doc__, files=300, users=12, seed=1).parse_args()
    if os.geteuid() != 0:
        raise Failed("run it as root")
    if given.users > 98:
        raise Failed("at most 98 users")
    compared = Compared()
    with tempfile.TemporaryDirectory(prefix="facl-who.") as work:
        tree = Tree(work, given, given.seed)
        tree.take_snapshot()
        rights = ask_kernel(tree)
        compare_rights(tree, rights, compared)
        compare_users(tree, rights, compared)
        compare_removal(tree, compared)
        compare_new_files(tree, compared)
        compare_owners(tree, compared)
    counts = ", ".join(f"{kind} {count}" for kind, count in compared.counts.items())
    faults = [f"{len(compared.faults)} differ"] if compared.faults else []
    return conclude(given, f"{given.users} users, {given.files} files: {counts}", faults)
