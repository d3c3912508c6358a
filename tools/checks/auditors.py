"""Compares what facl-check and facl-audit say of rights with the kernel's, asked as each user.

usage: tools/check.py auditors PROGRAM [--users N] [--groups N] [--files N] [--rules N] [--seed N] [--record]
                                                                                               PROGRAM: facl_linux

As root: it makes a tree of N files (5,000) in a folder of its own, with lists, masks and closed directories, of N users
(20) in N groups (10), who need no account, and facl-snapshot records it. The kernel is asked by faccessat(2) as each
user, and as one without groups and entries, what may be read, written and entered: along each path by its name, and of
each file alone by its descriptor. Of that are made, by sets alone, what each of N rules (1,500) at random has to say, for
whom it does not hold, on how many files and on which first; and all files of the findings of facl-audit that are about
rights.

The exit status is 1 if one of them differs, 2 if the words are others.
"""
from __future__ import annotations

import argparse
import json
import os
import resource
import tempfile
from typing import Dict, Iterator, List, NamedTuple, Set, Tuple

from lib.random_world import AT_FDCWD, ELSE, FIRST_UID, MODES, PERMS, World, asked, opened, printed, show_odd
from lib.script import Failed
from lib.session import conclude, options_of

READ, WRITE, ENTER = "read", "write", "enter"
RIGHTS = (READ, WRITE, ENTER)
REQUESTS = {"r": 4, "w": 2, "x": 1, "wx": 3}
OTHERS, EVERYBODY = "others", "everybody"  # Words of rules; all whom the check is about are people.
FIRST = 3  # Files that facl-check names.
Paths = Dict[Tuple[str, str], Set[str]]  # By user and request.
Broken = Set[Tuple[str, int, Tuple[str, ...]]]  # A user, the number of files, and the first of them.


class Rule(NamedTuple):
    words: str
    broken: Broken


class Audited(World):
    """A tree of which most directories are open, with users who have a group each of their own, by their names."""

    perms = (*PERMS, "-w-")
    modes = (*MODES, 0o773, 0o772, 0o775)
    masks = ("rwx", "rwx", "r-x", "rw-", "--x", "---", "---")

    def __init__(self, work: str, given: argparse.Namespace) -> None:
        super().__init__(work, given, given.seed, given.groups, has_own_groups=True)
        self.files.sort(key=lambda place: place.split("/"))
        self.records = self.read_records()
        self.people = [self.name(it) for it in range(self.users)]
        self.numbers = {name: number for number, name in enumerate([*self.people, OTHERS])}
        self.members = {f"g{number}": [*map(self.name, its)] for number, its in enumerate(self.groups)}

    def dress(self, place: str) -> None:
        super().dress(place)
        if place in self.folders and self.chance.random() < 0.6:
            os.chmod(place, 0o775)

    def read_records(self) -> Dict[str, str]:
        text = printed(["getfacl", "-R", "-n", "-p", self.top])
        records = (record.partition("\n") for record in text.split("\n\n") if record)
        return {first[len("# file: "):]: body for first, _, body in records}


def ask_kernel(world: Audited) -> Tuple[Paths, Paths]:
    """What the kernel grants, along paths and alone."""
    along: Paths = {}
    alone: Paths = {}
    with opened(world.files) as descriptors:
        for user, number in world.numbers.items():
            with world.acting_as(number):
                for letters, request in REQUESTS.items():
                    along[user, letters] = {path for path in world.files if asked(AT_FDCWD, path.encode(), request)}
                    alone[user, letters] = {path for path, it in descriptors.items() if asked(it, b"", request)}
    return along, alone


class Rights:
    """What users may do, by the kernel."""

    def __init__(self, world: Audited, granted: Paths) -> None:
        self.granted, self.folders = granted, set(world.folders)

    def has(self, user: str, right: str) -> Set[str]:
        if right == READ:
            return self.granted[user, "r"]
        if right == ENTER:
            return self.granted[user, "x"] & self.folders
        return self.granted[user, "w"] - self.folders | self.granted[user, "wx"] & self.folders

    def asked(self, paths: List[str], right: str, top: str) -> List[str]:
        return [it for it in paths if it in self.folders or it == top] if right == ENTER else paths

    def of(self, user: str, right: str, paths: List[str], top: str) -> List[str]:
        found = self.granted[user, "x"] if right == ENTER else self.has(user, right)
        return [it for it in self.asked(paths, right, top) if it in found]


# --- rules


def who_of(world: Audited) -> Tuple[List[str], Set[str]]:
    """Words of a rule, and the users that they mean."""
    words = world.chance.sample([*world.people, *("@" + it for it in world.members), OTHERS, EVERYBODY], world.chance.choice((1, 1, 2, 4)))
    of_word = {EVERYBODY: [*world.numbers], **{"@" + name: users for name, users in world.members.items()}}
    return words, {it for word in words for it in of_word.get(word, [word])}


def spelled(world: Audited, word: str, kind: str) -> str:
    """A word in one of its forms; `only` takes no everybody else."""
    forms = {OTHERS: (OTHERS, ELSE, f"'{ELSE}'")} if kind != "only" else {}
    return world.chance.choice(forms.get(word, (word, "group " + word[1:]) if word.startswith("@") else (word,)))


def rule_at_random(world: Audited, rights: Rights) -> Rule:
    kind, right = world.chance.choice(("never", "only", "always")), world.chance.choice(RIGHTS)
    top = world.chance.choice(world.folders if world.chance.random() < 0.8 else world.files)
    words, users = who_of(world)
    is_below = top in rights.folders and world.chance.random() < 0.4
    paths = world.below(top)[is_below:]
    if kind == "only":
        users = set(world.numbers) - users
    found = {user: rights.of(user, right, paths, top) for user in users}
    if kind == "always":
        asked_of = rights.asked(paths, right, top)
        found = {user: [it for it in asked_of if it not in set(its)] for user, its in found.items()}
    broken = {(user, len(its), tuple(its[:FIRST])) for user, its in found.items() if its}
    forms = [spelled(world, word, kind) for word in words]
    return Rule(" ".join([kind, *forms, right, *["below"] * is_below, top + world.chance.choice(("", "/"))]), broken)


def compare_rules(world: Audited, rights: Rights, number: int, *options: str) -> Tuple[int, int]:
    """How many users rules do not hold for, and how many rules differ."""
    rules = [rule_at_random(world, rights) for _ in range(number)]
    name = os.path.join(world.work, "rules")
    with open(name, "w", encoding="ascii") as file:
        file.write("".join(rule.words + "\n" for rule in rules))
    os.chmod(name, 0o600)
    found = json.loads(world.command("facl-check", "--json", *options, world.snapshot, name, wanted=(0, 1)))["rules"]
    said = [{(OTHERS if it["user"] == ELSE else it["user"], it["count"], tuple(it["paths"]))
             for it in rule["violations"]} for rule in found]
    odd = [(rule.words, *sorted(rule.broken ^ its)) for rule, its in zip(rules, said) if rule.broken != its]
    broken = sum(len(rule.broken) for rule in rules)
    print(f"facl-check {' '.join(options)}: {number} rules, {sum(not it.broken for it in rules)} hold, {broken} users for whom one "
          f"does not, {len(odd)} differ")
    show_odd(odd)
    return broken, len(odd) + abs(len(rules) - len(said))


# --- findings


def named_users(world: Audited, path: str) -> Iterator[str]:
    for line in world.records[path].split("\n"):
        if line.startswith("user:") and not line.startswith("user::"):
            yield f"k{int(line.split(':')[1]) - FIRST_UID}"


def outsiders(world: Audited, rights: Rights) -> Set[Tuple[str, str]]:
    """Who writes by an entry where nobody else of the user's groups may."""
    writers = {user: rights.has(user, WRITE) for user in world.people}
    fellows = {user: {it for its in world.members.values() if user in its for it in its} - {user} for user in world.people}
    return {(path, user) for path in world.files for user in named_users(world, path)
            if path in writers[user] and f"# owner: {world.uid(world.numbers[user])}\n" not in world.records[path]
            and "\nmask::---" not in world.records[path]
            and not any(path in writers[it] for it in fellows[user])}


def findings_of(world: Audited, along: Rights, alone: Rights) -> Dict[str, Set[Tuple[str, str]]]:
    plain = set(world.files) - along.folders
    sets = {
        "readable-by-everybody": along.has(OTHERS, READ), "writable-by-everybody": along.has(OTHERS, WRITE),
        "execute-for-everybody": along.granted[OTHERS, "x"] & plain,
        "readable-behind-closed": alone.has(OTHERS, READ) - along.granted[OTHERS, "r"],
        "writable-behind-closed": alone.has(OTHERS, WRITE) - along.granted[OTHERS, "w"],
    }
    return {**{name: {(path, "") for path in paths} for name, paths in sets.items()},
            "writer-outside-groups": outsiders(world, along)}


def compare_findings(world: Audited, along: Rights, alone: Rights) -> Tuple[int, int]:
    count = differ = 0
    for name, wanted in findings_of(world, along, alone).items():
        found = json.loads(world.command("facl-audit", "--json", "--list", name, world.snapshot, wanted=(0, 1)))["findings"]
        files = [it for kind in found for it in kind["files"]]
        is_of_users = name == "writer-outside-groups"
        said = {(it["path"], user) for it in files for user in (
            (word.split(" ")[1] for word in it["what"].split(", ")) if is_of_users else ("",))}
        print(f"facl-audit: {name}: {len(wanted)}, {len(wanted ^ said)} differ")
        show_odd(wanted ^ said)
        count, differ = count + len(wanted), differ + len(wanted ^ said)
    return count, differ


def main() -> int:
    given = options_of(__doc__, users=20, groups=10, files=5000, rules=1500, seed=1).parse_args()
    if os.geteuid() != 0:
        raise Failed("run it as root")
    hard = resource.getrlimit(resource.RLIMIT_NOFILE)[1]
    resource.setrlimit(resource.RLIMIT_NOFILE, (min(hard, given.files + 200), hard))
    with tempfile.TemporaryDirectory(prefix="facl-auditors.") as work:
        world = Audited(work, given)
        world.take_snapshot()
        along, alone = (Rights(world, granted) for granted in ask_kernel(world))
        rules = compare_rules(world, along, given.rules)
        rules_alone = compare_rules(world, alone, given.rules // 3, "--file-alone")
        findings = compare_findings(world, along, alone)
    differ = rules[1] + rules_alone[1] + findings[1]
    amount = (f"{given.rules + given.rules // 3:,} rules that do not hold for {rules[0] + rules_alone[0]:,} users, {findings[0]:,} "
              f"findings, {given.users} users, {given.groups} groups, {given.files:,} files")
    return conclude(given, amount, [f"{differ} differ"] if differ else [])
