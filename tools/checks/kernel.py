"""Compares the answers of the commands with the kernel's: all users, all files, seven requests, alone and along paths.

usage: tools/check.py kernel PROGRAM [--users N] [--files N] [--seed N] [--answers N] [--record]      PROGRAM: facl_linux

As root: it makes a tree of N files (500) in a folder of its own, with lists, masks and closed directories, of N users
(20) who need no account; the mask of every other list that names somebody is empty. facl-snapshot records it; facl-ask answers
`may` and `may --reach`; facl-plan, as it judges by default, says who gains what by a script that grants at random, also of
everybody else, as whom the kernel is asked with ids that nothing has. The kernel is asked by faccessat(2) as each user: of a file
alone by its descriptor, along a path by its name; after facl-apply again. Then some files are immutable, some append-only, and a
directory is mounted read-only and noexec: the kernel has to grant what facl-ask answers, but for w and x there, and facl-who has to
count so. With --answers it makes trees, of one seed after another, until that number of answers is compared: --answers 3000000 takes
some ten minutes. --record writes what was found into docs/CHECKS.md.

The exit status is 1 if an answer differs, 2 if the words are others.
"""
from __future__ import annotations

import argparse
import contextlib
import os
import shutil
import tempfile
from typing import Dict, Iterable, Iterator, List, NamedTuple, Set, Tuple

from lib.random_world import AT_FDCWD, ELSE, PERMS, World, asked, opened, printed, show_odd
from lib.script import Failed
from lib.session import conclude, options_of

LETTERS = {1: "x", 2: "w", 4: "r"}
VIEWS = ("alone", "along")
EDITS = ("setfacl -m %s", "setfacl -m %s", "setfacl -m %s,m::---", "setfacl -m %s,m::r-x")
Answer = Tuple[int, str, int]  # The number of a user, a file, and a request that is granted.
Granted = Set[Answer]


def empty_masks(world: World) -> int:
    """How many lists there are whose mask is empty, and whose others have something."""
    records = printed(["getfacl", "-R", "-n", "-p", "-E", world.top]).split("\n\n")
    return sum("\nmask::---" in it and "\nother::---" not in it for it in records)


def kernel(world: World, has_else: bool = False) -> Dict[str, Granted]:
    """What the kernel grants all users, and after them everybody else."""
    found: Dict[str, Granted] = {view: set() for view in VIEWS}
    with opened(world.files) as descriptors:
        for user in range(world.users + has_else):
            with world.acting_as(user):
                for path, descriptor in descriptors.items():
                    found["alone"] |= {(user, path, it) for it in range(1, 8) if asked(descriptor, b"", it)}
                    found["along"] |= {(user, path, it) for it in range(1, 8) if asked(AT_FDCWD, path.encode(), it)}
    return found


def commands(world: World) -> Dict[str, Granted]:
    """The same by facl-ask over the snapshot."""
    questions = [(view, user, request) for view in VIEWS for user in range(world.users) for request in range(1, 8)]
    text = ""
    for view, user, request in questions:
        letters = "".join(letter for bit, letter in LETTERS.items() if request & bit)
        text += f"may {'--reach ' if view == 'along' else ''}k{user} {letters}\nchacl -l /\n"  # This ends the answer.
    answers = world.command("facl-ask", world.snapshot, text=text)
    end = next(line for line in answers.split("\n") if " [" in line)
    found: Dict[str, Granted] = {view: set() for view in VIEWS}
    for (view, user, request), answer in zip(questions, answers.split(end)):
        files = [line for line in answer.split("\n") if line.startswith(world.top[1:])]
        found[view] |= {(user, "/" + line.rstrip("/"), request) for line in files}
    return found


def compare(world: World, when: str) -> Tuple[int, int]:
    """How many answers there are, and how many differ, which are printed."""
    shutil.rmtree(world.snapshot, ignore_errors=True)
    world.take_snapshot()
    one, other = kernel(world), commands(world)
    count, differ = world.users * len(world.files) * 7, 0
    for view in VIEWS:
        odd = one[view] ^ other[view]
        print(f"{when}, {view}: {count} answers, {len(one[view])} granted, {len(odd)} differ")
        show_odd((*it, "granted by", "the kernel" if it in one[view] else "facl") for it in odd)
        differ += len(odd)
    return 2 * count, differ


def compare_plan(world: World) -> Tuple[int, int]:
    """The same of the rights that facl-plan names, beside those that the kernel grants before and after facl-apply."""
    before = kernel(world, has_else=True)["along"]
    edits = "".join(f"{world.chance.choice(EDITS) % world.entry()} {world.chance.choice(world.files[1:])}\n" for _ in range(400))
    edits += "".join(f"setfacl -n -m o::{world.chance.choice(PERMS)} {world.chance.choice(world.files[1:])}\n" for _ in range(40))
    rows = world.command("facl-plan", "--full", world.snapshot, "-", text=edits).splitlines()
    world.command("facl-apply", world.snapshot + ".plan")
    changed = {(user, path) for user, path, _ in before ^ kernel(world, has_else=True)["along"]}
    cells = [row.split("\t") for row in rows if "\t->\t" in row]
    named = {(world.users if row[0] == ELSE else int(row[0][1:]), row[4].rstrip("/")) for row in cells}
    odd = changed ^ named
    print(f"facl-plan: {len(changed)} pairs of a user and a file have other rights along paths, {len(odd)} differ")
    show_odd(odd)
    return len(changed), len(odd)


@contextlib.contextmanager
def marked(world: World, attributes: Dict[str, List[str]], place: str) -> Iterator[None]:
    """While it goes on, files have attributes of chattr, and a directory is mounted read-only and noexec."""
    printed(["mount", "--bind", place, place])
    try:
        for attribute, files in attributes.items():
            printed(["chattr", "+" + attribute, *files])
        printed(["mount", "-o", "remount,bind,ro,noexec", place])
        yield
    finally:
        printed(["umount", "-l", place])
        for attribute, files in attributes.items():
            printed(["chattr", "-" + attribute, *files])


def counted(world: World, granted: Iterable[Answer]) -> Dict[str, Tuple[str, str]]:
    """How many files each user and everybody else may write along paths, and the first of them in path order."""
    files: Dict[int, List[str]] = {}
    for user, path, request in granted:
        if request == 2:
            files.setdefault(user, []).append(path)
    return {world.name(user): (str(len(its)), min(its, key=lambda path: path.split("/")))
            for user, its in files.items()}


def compare_marks(world: World) -> Tuple[int, int]:
    """What the kernel grants beside what lists grant, where nobody can write or execute some files; and what facl-who counts."""
    plain = world.files[1:]
    chosen = world.chance.sample(plain, len(plain) // 8)
    attributes = {"i": chosen[: len(chosen) * 2 // 3], "a": chosen[len(chosen) * 2 // 3 :]}
    place = max((it for it in plain if os.path.isdir(it)), key=lambda it: len(world.below(it)))
    mounted = set(world.below(place))
    unwritable, noexec = {*attributes["i"], *mounted}, {path for path in mounted if not os.path.isdir(path)}
    with marked(world, attributes, place):
        shutil.rmtree(world.snapshot)
        world.take_snapshot()
        one, other = kernel(world, has_else=True), commands(world)
        rows = world.command("facl-who", "--tsv", "write", world.snapshot, world.top).splitlines()[1:]
    differ = 0
    for view in VIEWS:
        granted = {it for it in other[view] if not (it[2] & 2 and it[1] in unwritable or it[2] & 1 and it[1] in noexec)}
        odd = {it for it in one[view] if it[0] < world.users} ^ granted
        print(f"nobody can write {len(unwritable)} files, {view}: {len(odd)} differ")
        show_odd((*it, "granted by", "the kernel" if it in one[view] else "facl") for it in odd)
        differ += len(odd)
    named = {row.split("\t")[0]: tuple(row.split("\t")[1:3]) for row in rows}
    others = {it for it in one["along"] if it[0] == world.users}
    wanted = counted(world, others | {it for it in other["along"] if it[1] not in unwritable})
    wrong = {user for user in {*named, *wanted} if named.get(user) != wanted.get(user)}
    show_odd((user, "is", named.get(user), "and not", wanted.get(user)) for user in wrong)
    return 2 * world.users * len(world.files) * 7, differ + len(wrong)


class Compared(NamedTuple):
    """Of some trees: how many answers, those where nobody can write some files, changed pairs, lists with an empty mask whose
    others have something, and how much differs."""

    answers: int
    marked: int
    pairs: int
    masks: int
    differ: int

    def all_answers(self) -> int:
        return self.answers + self.marked


def compare_tree(given: argparse.Namespace, seed: int) -> Compared:
    with tempfile.TemporaryDirectory(prefix="facl-kernel.") as work:
        world = World(work, given, seed)
        masks = empty_masks(world)
        before, rows, after = compare(world, "before"), compare_plan(world), compare(world, "after facl-apply")
        marks = compare_marks(world)
    return Compared(before[0] + after[0], marks[0], rows[0], masks, before[1] + rows[1] + after[1] + marks[1])


def main() -> int:
    given = options_of(__doc__, files=500, users=20, seed=1, answers=1).parse_args()
    if os.geteuid() != 0:
        raise Failed("run it as root")
    found, trees = Compared(0, 0, 0, 0, 0), 0
    while found.all_answers() < given.answers and not found.differ:
        found = Compared(*(one + more for one, more in zip(found, compare_tree(given, given.seed + trees))))
        trees += 1
    amount = (f"{found.answers:,} answers, {trees} trees of {given.users} users and {given.files} files, {found.masks} lists with an "
              f"empty mask whose others have something, {found.pairs} changed pairs; {found.marked:,} answers where nobody can write "
              "some files")
    return conclude(given, amount, [f"{found.differ} differ"] if found.differ else [])
