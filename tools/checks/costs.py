"""Compares what lines cost the index with what differs between the states before and after them.

usage: tools/check.py costs [PROGRAM] [--count N] [--batch N] [--seed N] [--verbose] [--record]

PROGRAM is one that is built of costs.rt.txt, over the crates. Where none is given, that is compiled with run-time
checks in a temporary folder, over copies of the crates, before any proof (`rt try`). It prints three costs of each
line: the verdicts that the judge computed, the labels that were fetched as a user joined or left groups, and the verdicts
along paths that were found again. A session has 3 to 30 files, of which some lack directories above, 2 to 8 users, and
6 to 24 lines. There are --count (1,000) sessions, --batch (20) in one run. After each line that makes a new state its
costs are compared with bounds that are computed here, from the files and the users before and after it, by the check of
tools/lib/answers.py:

- judged: where files change, at least all users on each label that no file had, at most all users on each file that
  changed, and on each label that these have, and never a part of the users; as a user joins or leaves groups, one for
  each label that is fetched; of a new user, at least one for each label and at most one for each file; else none.
- fetched: as a user joins or leaves groups, at least each label that mentions one of them, at most each file that does,
  and those that mention several as often; else none.
- found again, where files change: all users on each file that is new, whose row differs, or above which others are let
  through. One directory alone that gets another label may count too, and a line on all files may count each. The root, where
  it was there and no file went, comes after the others that change: the counts of both steps are added, up to that of all
  files. At most all users on the files at or below those that changed.
- found again, as a user joins or leaves groups: the user on as many files as above; at most on those with another row,
  and those below a directory whose row lets others search; and on the files at or below those that mention one of the
  groups. Of a new user each file, else none.

It is never less than the verdicts that are new, or others alone or along the path. The verdicts of the index, and those
along paths, are compared too. A session in which something differs is printed as the program reads it; where PROGRAM is
given, it is cut down before to as few lines and files as differ. --verbose counts the lines by their kinds. The same
seed gives the same lines. The exit status is 1 if something is not so, 2 if the words are others.
"""
from __future__ import annotations

import argparse
import collections
import copy
import functools
import os
import random
import re
import subprocess
import tempfile
import time
from pathlib import Path
from typing import Callable, Counter, Dict, FrozenSet, Iterable, Iterator, List, NamedTuple, Optional, Set, Tuple

from lib.answers import EXECUTE, File, People, components, Path as Components
from lib.kit import make_room, rt
from lib.random_lines import OF_PEOPLE, Unit, is_of_tools
from lib.script import Failed
from lib.session import conclude, program_at

HERE = os.path.dirname(os.path.realpath(__file__))
NAME = "costs"
USES = "acl_entry acl_names acl_rights acl_text acl_tree facl facl_output facl_script facl_tools".split()
# rt prints the first to standard output before what a case printed there, the other to standard error.
CASE = re.compile(rb"^== case_([0-9]+)\n", re.MULTILINE)
ENDED = re.compile(rb"^case=case_[0-9]+ run=ended status=0 ", re.MULTILINE)
Label = Tuple[int, int, FrozenSet[Tuple[Tuple[bytes, Optional[int]], int]]]
Row = Tuple[int, ...]
Person = Tuple[bytes, int, FrozenSet[int]]


# --- what is played


class Sessions:
    """Random sessions, each a list of units of which the first three load the texts."""

    def __init__(self, seed: str) -> None:
        self.random = random.Random(seed)
        self.users: List[str] = []
        self.groups: List[str] = []
        self.paths: List[str] = []

    def one(self, *things: str) -> str:
        return self.random.choice(things)

    def chance(self, part: float) -> bool:
        return self.random.random() < part

    def user(self) -> str:
        return self.random.choice(self.users)

    def group(self) -> str:
        return self.random.choice(self.groups)

    def path(self) -> str:
        return self.random.choice(self.paths)

    def some_paths(self) -> str:
        return " ".join(self.path() for _ in range(self.random.choice([1, 1, 1, 2, 3])))

    def mode(self) -> str:
        return self.one("700", "750", "755", "711", "640", "644", "000", "777", "1777", "2750", "705", "5")

    def perms(self) -> str:
        return self.one("r", "rw", "rx", "rwx", "x", "0", "---")

    def entry(self) -> str:
        user, group = "u:" + self.user(), "g:" + self.group()
        return f"{self.one(user, user, group, group, 'g:', 'o:', 'u:')}:{self.perms()}"

    def whole(self) -> str:
        """A list that is valid."""
        named = [f"u:{self.user()}:{self.perms()}"] * self.chance(0.3)
        named += [f"g:{self.group()}:{self.perms()}"] * self.chance(0.5)
        mask = [f"m::{self.one('rwx', 'rx', 'r', '0')}"] * bool(named)
        base = [f"u::{self.one('rwx', 'rw', 'x')}", f"g::{self.perms()}", f"o::{self.one('0', 'x', 'rx')}"]
        return ",".join(base + named + mask)

    def record(self, path: str, with_owner: bool) -> List[str]:
        head = [f"# owner: {self.user()}", f"# group: {self.group()}"] if with_owner else []
        flags = ["# flags: " + self.one("s--", "-s-", "--t")] * self.chance(0.1)
        return [f"# file: {path}", *head, *flags, *self.whole().split(","), ""]

    # The texts.

    def tree(self) -> List[str]:
        """Some paths, in no order; a directory above may be missing. A final `/` makes a directory."""
        names = "a", "b", "c"
        paths: Set[str] = {"."} if self.chance(0.75) else set()
        wanted = self.random.choice([3, 6, 10, 20, 30])
        for _ in range(wanted * 3):
            parts = [self.random.choice(names) for _ in range(self.random.choice([1, 2, 2, 3, 3, 4, 6]))]
            first = 1 if self.chance(0.8) else len(parts)
            for length in range(first, len(parts) + 1):
                if len(paths) < wanted:
                    paths.add("/".join(parts[:length]))
        return sorted(paths)

    def dump(self) -> List[str]:
        lines: List[str] = []
        shared = [self.whole().split(",") for _ in range(self.random.choice([1, 2, 4]))]
        for path in self.paths:
            has_below = path == "." or any(other.startswith(path + "/") for other in self.paths)
            record = self.record(path + "/" * (not has_below and self.chance(0.2)), True)
            if self.chance(0.7):
                owner, group = self.users[0], self.groups[0]
                record = [record[0], f"# owner: {owner}", f"# group: {group}", *self.random.choice(shared), ""]
            lines += record
        return lines

    def texts(self) -> List[Unit]:
        count = self.random.randint(2, 8)
        self.users = [f"u{k}" for k in range(count)]
        self.groups = [f"g{k}" for k in range(self.random.randint(2, 6))]
        self.paths = self.tree()
        numbers = {group: 50 + k for k, group in enumerate(self.groups)}
        passwd = [f"{user}:x:{1000 + k}:{numbers[self.group()]}:::" for k, user in enumerate(self.users)]
        if self.chance(0.2):
            passwd.append(f"twin:x:1000:{numbers[self.group()]}:::")
            self.users.append("twin")
        members = [",".join(it for it in self.users if self.chance(0.3)) for _ in self.groups]
        group = [f"{name}:x:{numbers[name]}:{names}" for name, names in zip(self.groups, members)]
        if self.chance(0.2):
            group.append(f"same:x:50:{self.user()}")
            self.groups.append("same")
        loads = (("passwd", passwd), ("group", group), ("dump", self.dump()))
        return [Unit(b"load " + name.encode(), [it.encode() for it in text]) for name, text in loads]

    # The lines.

    def chmod(self) -> str:
        return f"chmod {'-R ' * self.chance(0.25)}{self.mode()} {self.some_paths()}"

    def rm(self) -> str:
        return f"rm {'-r ' * self.chance(0.3)}{self.path()}"

    def setfacl(self) -> str:
        recursive = "-R " * self.chance(0.25)
        edit = self.one(f"-m {self.entry()}", f"-m {self.entry()}", f"-m {self.entry()},{self.entry()}",
                        f"-x u:{self.user()}", f"-x g:{self.group()}", "-b", "-k", f"--set {self.whole()}",
                        f"-d -m {self.entry()}", f"-n -m {self.entry()}", f"--test -m {self.entry()}")
        return f"setfacl {recursive}{edit} {self.some_paths()}"

    def chacl(self) -> str:
        access, default = self.whole(), self.whole()
        edit = self.one(access, access, "-R", "-D", "-B", f"-d {default}", f"-b {access} {default}")
        return f"chacl {'-r ' * self.chance(0.2)}{edit} {self.some_paths()}"

    def creat(self) -> str:
        new = ("" if (parent := self.path()) == "." else parent + "/") + self.one("a", "b", "c", "new", "n2")
        self.paths.append(new)
        mode = self.one("700", "755", "640", "664")
        return f"creat {'-d ' * self.chance(0.6)}--user={self.user()} --mode={mode} {new}"

    def of_people(self) -> str:
        kind = self.one("-a", "-a", "-d", "-d", "usermod", "useradd", "userdel")
        if kind == "useradd":
            self.users.append(f"n{self.random.randrange(100)}")
            return f"useradd -u {self.random.randrange(2000, 2100)} -g {self.group()} {self.users[-1]}"
        if kind == "userdel":
            return f"userdel {self.user()}"
        if kind == "usermod":
            return f"usermod -g {self.group()} {self.user()}"
        return f"gpasswd {kind} {self.user()} {self.group()}"

    def restore(self) -> Unit:
        lines: List[str] = []
        for path in sorted({self.path() for _ in range(self.random.randint(1, 4))}):
            lines += self.record(path, self.chance(0.7))
        return Unit(b"setfacl --restore=-", [it.encode() for it in lines])

    def unit(self) -> Unit:
        kind = self.one("chmod", "chmod", "setfacl", "setfacl", "chacl", "restore", "creat", "rm", *["people"] * 3)
        if kind == "restore":
            return self.restore()
        makers: Dict[str, Callable[[], str]] = {"chmod": self.chmod, "setfacl": self.setfacl, "chacl": self.chacl,
                                                "creat": self.creat, "rm": self.rm, "people": self.of_people}
        return Unit(makers[kind]().encode(), None)

    def session(self) -> List[Unit]:
        return self.texts() + [self.unit() for _ in range(self.random.randint(6, 24))]


def records_of(dump: Unit) -> List[List[bytes]]:
    """The lines of each record of a dump."""
    lines = dump.text or []
    starts = [at for at, line in enumerate(lines) if line.startswith(b"# file: ")]
    return [lines[start:end] for start, end in zip(starts, [*starts[1:], len(lines)])]


def script_of(session: List[Unit]) -> bytes:
    """A session as PROGRAM reads it."""
    lines = [b"session"]
    for unit in session:
        text = unit.text or []
        lines += [b"%d %s" % (len(text), unit.line), *text]
    return b"".join(line + b"\n" for line in lines)


# --- what is printed


class Costs(NamedTuple):
    """What a line cost, and how many numbers the kinds of the tree have after it."""

    asked: int
    looked: int
    refreshed: int
    numbers: int


class Answer(NamedTuple):
    """What is printed of a line that makes a new state: its costs, the records of the files, and their verdicts."""

    costs: Costs
    records: List[bytes]
    verdicts: List[bytes]


def answers_of(printed: bytes) -> Iterator[Optional[Answer]]:
    """The answers to the lines, None where there is no new state."""
    at = 0
    while at < len(printed):
        if printed.startswith(b"-\n", at):
            at += 2
            yield None
            continue
        end = printed.index(b"\n.\n", at)
        head, _, rest = printed[at:end].partition(b"\n")
        records, _, verdicts = rest.rpartition(b"\n\n")
        at = end + 3
        yield Answer(Costs(*map(int, head.split())), records.split(b"\n\n") if records else [], verdicts.split(b"\n"))


@functools.lru_cache(maxsize=100_000)
def label_of(record: bytes) -> Tuple[File, Label]:
    """The file of a record without its path, and its label."""
    file = File(record)
    return file, (file.owner, file.group, frozenset(file.entries.items()))


@functools.lru_cache(maxsize=100_000)
def verdict(record: bytes, uid: int, groups: FrozenSet[int]) -> int:
    """The requests that a user is granted, a bit for each."""
    return sum(1 << request for request in label_of(record)[0].requests(uid, set(groups)))


def searchers(row: Row) -> int:
    """The users who are granted search, a bit for each."""
    return sum(1 << at for at, bits in enumerate(row) if bits >> EXECUTE & 1)


# --- the states


class State:
    """The files with their labels and rows, and who can search the directories above each: a bit for each user."""

    def __init__(self, people: People, records: List[bytes]) -> None:
        self.users: List[Person] = [(it.name, it.uid, frozenset(people.groups_of(it))) for it in people.users]
        self.labels: Dict[Components, Label] = {}
        self.rows: Dict[Components, Row] = {}
        self.above: Dict[Components, Optional[int]] = {}
        for record in records:
            head, _, rest = record.partition(b"\n")
            path = components(head[len(b"# file: "):])
            self.labels[path] = label_of(rest)[1]
            self.rows[path] = tuple(verdict(rest, uid, groups) for _, uid, groups in self.users)
        self.find_searchers()

    def find_searchers(self) -> None:
        """Says of each file who can search the directories above, from the nearest one that is recorded."""
        through: Dict[Components, int] = {}
        for path in sorted(self.rows):
            nearest = next((path[:k] for k in range(len(path) - 1, -1, -1) if path[:k] in through), None)
            self.above[path] = above = None if nearest is None else through[nearest]
            here = searchers(self.rows[path])
            through[path] = here if above is None else here & above

    def reach(self, path: Components, at: int) -> int:
        """What the user at a place may do with a file along its path."""
        above = self.above[path]
        return self.rows[path][at] if above is None or above >> at & 1 else 0

    def verdicts(self) -> List[bytes]:
        """The verdicts as they are printed."""
        lines = []
        for path in sorted(self.rows):
            along = bytes(self.reach(path, at) for at in range(len(self.users)))
            lines.append(f"{bytes(self.rows[path]).hex()} {along.hex()}".encode())
        return lines

    def with_root_of(self, other: State) -> State:
        """The same files, but the root as it is in another state."""
        new = copy.copy(self)
        new.labels, new.rows, new.above = dict(self.labels), dict(self.rows), {}
        new.labels[()], new.rows[()] = other.labels[()], other.rows[()]
        new.find_searchers()
        return new

    def all_labels(self) -> Set[Label]:
        return set(self.labels.values())

    def at_or_below(self, tops: Set[Components]) -> int:
        """How many files are at or below some paths."""
        return sum(any(path[:k] in tops for k in range(len(path) + 1)) for path in self.labels)

    def has_below(self, path: Components) -> bool:
        return any(len(other) > len(path) and other[: len(path)] == path for other in self.labels)


def mentions(label: Label, groups: FrozenSet[int]) -> Set[int]:
    """Those of some groups that a label mentions."""
    named = {who for (tag, who), _ in label[2] if tag == b"group" and who is not None}
    return set(groups) & {label[1], *named}


class Bounds(NamedTuple):
    """What a cost may be: from the least to the most, or one of some values."""

    least: int
    most: int
    values: Optional[FrozenSet[int]] = None

    def fault(self, what: str, cost: int) -> Optional[str]:
        if not self.least <= cost <= self.most:
            return f"{what} {cost}, which is not from {self.least} to {self.most}"
        if self.values is not None and cost not in self.values:
            return f"{what} {cost}, which is none of {sorted(self.values)}"
        return None


NONE = Bounds(0, 0)


class Step:
    """A line between two states."""

    def __init__(self, before: State, after: State, numbers: int) -> None:
        self.before, self.after, self.numbers = before, after, numbers
        self.changed = {path for path, label in after.labels.items() if before.labels.get(path) != label}
        self.gone = set(before.labels) - set(after.labels)

    def found_again(self) -> Set[Components]:
        """The files that are new, whose row differs, or above which other users are let through."""
        old, new = self.before, self.after
        return {path for path in new.rows if path not in old.rows or old.rows[path] != new.rows[path]
                or old.above[path] != new.above[path]}

    def touched(self) -> int:
        """How many files have another row, or a directory above whose row lets others search."""
        old, new = self.before.rows, self.after.rows
        others = {path for path in new if old[path] != new[path]}
        tops = {path for path in others if searchers(old[path]) != searchers(new[path])}
        return sum(path in others or any(path[:k] in tops for k in range(len(path))) for path in new)

    def differing(self) -> int:
        """The verdicts that are new, or others alone or along the path, where the users are the same."""
        old, new = self.before, self.after
        places = range(len(new.users))
        return sum(path not in old.rows or old.rows[path][at] != new.rows[path][at]
                   or old.reach(path, at) != new.reach(path, at) for path in new.rows for at in places)

    def bounds(self) -> Tuple[str, Bounds, Bounds, Bounds]:
        """The kind of the line, and what it may ask for, fetch and find again."""
        old, new = self.before.users, self.after.users
        if len(new) > len(old):
            files = len(self.after.labels)
            return "a new user", Bounds(len(self.after.all_labels()), files), NONE, Bounds(files, files)
        if len(new) < len(old):
            return "a user fewer", NONE, NONE, NONE
        moved = [at for at, (was, now) in enumerate(zip(old, new)) if was != now]
        if moved:
            return "groups", *self.of_move(moved)
        return self.of_files()

    def of_move(self, moved: List[int]) -> Tuple[Bounds, Bounds, Bounds]:
        """The bounds of a user who joined or left groups."""
        (at,) = moved
        groups = self.before.users[at][2] ^ self.after.users[at][2]
        found = {path: mentions(label, groups) for path, label in self.after.labels.items()}
        mentioning = {path for path, them in found.items() if them}
        labels = {self.after.labels[path] for path in mentioning}
        looked = Bounds(len(labels), min(len(mentioning), sum(map(len, found.values()))))
        least, most = max(self.differing(), len(self.found_again())), self.after.at_or_below(mentioning)
        return looked, looked, Bounds(least, min(most, self.touched()))

    def of_files(self) -> Tuple[str, Bounds, Bounds, Bounds]:
        """The kind and the bounds of a line on files."""
        users, labels = len(self.after.users), {self.after.labels[path] for path in self.changed}
        others = len(labels - self.before.all_labels()) * users
        most = self.after.at_or_below(self.changed) * users
        if () in self.changed and len(self.changed) >= max(self.numbers, len(self.after.labels) // 8):
            files = len(self.after.labels) * users
            either = frozenset({len(self.found_again()) * users, files})
            return "all files", Bounds(others, others), NONE, Bounds(self.differing(), most, either)
        asked = Bounds(others, len(labels) * users)
        values = {count * users for count in self.counts_of_all()}
        return "files", asked, NONE, Bounds(self.differing(), most, frozenset(values))

    def counts(self) -> Set[int]:
        """How many files may count where all that changed are put at once."""
        again = self.found_again()
        if len(self.changed) != 1 or self.gone:
            return {len(again)}
        (path,) = self.changed
        is_counted = path in self.before.labels and self.after.has_below(path) and path not in again
        return {len(again), len(again) + is_counted}

    def counts_of_all(self) -> Set[int]:
        """How many files may count, where the root comes after the others."""
        if len(self.changed) < 2 or self.gone or () not in self.changed or () not in self.before.labels:
            return self.counts()
        between = self.after.with_root_of(self.before)
        others, root = Step(self.before, between, 0).counts(), Step(between, self.after, 0).counts()
        return {min(one + other, len(self.after.labels)) for one in others for other in root}


def fault_of(step: Step, costs: Costs, bounds: Tuple[str, Bounds, Bounds, Bounds]) -> Optional[str]:
    """What is wrong with the costs of a line."""
    kind, asked, looked, refreshed = bounds
    fault = (asked.fault("judged", costs.asked) or looked.fault("fetched", costs.looked)
             or refreshed.fault("found again", costs.refreshed))
    if not fault and kind == "groups" and costs.asked != costs.looked:
        fault = f"judged {costs.asked}, and fetched {costs.looked}"
    if not fault and kind in ("files", "all files") and costs.asked % max(1, len(step.after.users)):
        fault = f"judged {costs.asked}, which is no multiple of the number of users"
    return fault


def tried(scripts: List[bytes]) -> List[bytes]:
    """What the program prints of each script, before its proof."""
    with tempfile.TemporaryDirectory(prefix="facl-costs.") as room:
        folder = make_room(room, NAME, USES, os.path.join(HERE, NAME + ".rt.txt"), proved=False)
        os.mkdir(cases := os.path.join(room, "cases"))
        for number, text in enumerate(scripts):
            Path(cases, f"case_{number}").write_bytes(text)
        # The work of rt's interpreter ends at once: it is slow.
        words = [rt(), "try", "--seconds", "60", "--steps", "1", "--cases", cases]
        done = subprocess.run(words, cwd=folder, stdin=subprocess.DEVNULL, capture_output=True, check=False)
    pieces = CASE.split(done.stdout)
    printed = dict(zip(pieces[1::2], pieces[2::2]))
    if len(ENDED.findall(done.stderr)) != len(scripts) or len(printed) != len(scripts):
        raise Failed("no answer: " + (done.stdout[:1000] + done.stderr[-2000:]).decode(errors="replace"))
    return [printed[b"%d" % number] for number in range(len(scripts))]


class Player:
    """The program, if it is built, and how much was compared."""

    def __init__(self, program: Optional[str]) -> None:
        self.program = program
        self.kinds: Counter[str] = collections.Counter()
        self.more_than_differ = 0

    def printed(self, scripts: Iterable[bytes]) -> Iterable[bytes]:
        """What the program prints of each script."""
        return map(functools.partial(self.run, self.program), scripts) if self.program else tried(list(scripts))

    @staticmethod
    def run(program: str, text: bytes) -> bytes:
        """What a program that is built prints of a script."""
        done = subprocess.run([program], input=text, capture_output=True, check=False)
        if done.returncode:
            raise Failed(f"the program ended with status {done.returncode}: {done.stderr[-300:]!r}")
        return done.stdout

    def fault(self, session: List[Unit], answers: List[Optional[Answer]]) -> Optional[str]:
        """The first line of a session at which something is wrong, with what it is."""
        texts = [b"".join(line + b"\n" for line in unit.text or []) for unit in session[:2]]
        if None in answers[:3]:
            return "a text is not loaded"
        people, state = People(*texts), State(People(*texts), [])
        for number, (unit, answer) in enumerate(zip(session[2:], answers[2:]), 3):
            if answer is None:
                continue
            if is_of_tools(unit, OF_PEOPLE):
                people.do(unit.line)
            after = State(people, answer.records)
            fault = self.fault_of_line(Step(state, after, answer.costs.numbers), answer)
            if fault:
                return f"line {number}, {unit.line.decode()}: {fault}"
            state = after
        return None

    def fault_of_line(self, step: Step, answer: Answer) -> Optional[str]:
        bounds = step.bounds()
        self.kinds[bounds[0]] += 1
        if bounds[0] == "groups":
            self.more_than_differ += answer.costs.refreshed > len(step.found_again())
        if [it for it in answer.verdicts if it] != step.after.verdicts():
            return "the verdicts are others"
        return fault_of(step, answer.costs, bounds)

    def fault_alone(self, session: List[Unit]) -> Optional[str]:
        """What is wrong with a session, played alone."""
        (printed,) = self.printed([script_of(session)])
        return self.fault(session, list(answers_of(printed)))

    def smallest(self, session: List[Unit]) -> List[Unit]:
        """As few of the lines, and of the files, as something is wrong with."""
        for at in range(len(session) - 1, 2, -1):
            fewer = session[:at] + session[at + 1:]
            session = fewer if self.fault_alone(fewer) else session
        for record in records_of(session[2]):
            records = [it for it in records_of(session[2]) if it != record]
            fewer = [*session[:2], Unit(session[2].line, [line for it in records for line in it]), *session[3:]]
            session = fewer if self.fault_alone(fewer) else session
        return session


def made(numbers: range, seed: int) -> List[List[Unit]]:
    """The sessions of these numbers."""
    return [Sessions(f"{seed} {number}").session() for number in numbers]


def show(player: Player, name: str, session: List[Unit], fault: str) -> None:
    """Prints a session in which something is wrong."""
    if player.program:
        session = player.smallest(session)
        fault = player.fault_alone(session) or fault
    print(f"\n{name}: {fault}")
    print(script_of(session).decode(), flush=True)


def check(player: Player, given: argparse.Namespace) -> Tuple[int, int]:
    """Plays all sessions; returns the number of lines, and of sessions in which something is wrong."""
    batches = [range(first, min(first + given.batch, given.count)) for first in range(0, given.count, given.batch)]
    scripts = (b"".join(map(script_of, made(numbers, given.seed))) for numbers in batches)
    lines = faults = 0
    for numbers, printed in zip(batches, player.printed(scripts)):
        answers = answers_of(printed)
        for number, session in zip(numbers, made(numbers, given.seed)):
            lines += len(session)
            fault = player.fault(session, [next(answers) for _ in session])
            if fault:
                faults += 1
                show(player, f"session {number} of seed {given.seed}", session, fault)
    return lines, faults


def read_words() -> argparse.Namespace:
    options = argparse.ArgumentParser(description=__doc__, formatter_class=argparse.RawDescriptionHelpFormatter)
    options.add_argument("program", metavar="PROGRAM", type=program_at, nargs="?")
    for name, value in ("count", 1000), ("batch", 20), ("seed", 1):
        options.add_argument("--" + name, type=int, default=value, metavar="N")
    options.add_argument("--verbose", action="store_true")
    options.add_argument("--record", action="store_true")
    return options.parse_args()


def main() -> int:
    given = read_words()
    started = time.monotonic()
    player = Player(given.program)
    lines, faults = check(player, given)
    if given.verbose:
        for kind, times in player.kinds.most_common():
            print(f"{times:8} {kind}")
        print(f"{player.more_than_differ:8} of those of groups find more again than differs")
    amount = f"{given.count} sessions of {lines} lines, {sum(player.kinds.values())} of them with a new state"
    found = [f"costs or verdicts of {faults} sessions differ"] * (faults > 0)
    return conclude(given, f"{amount}, seed {given.seed}, {time.monotonic() - started:.0f} s", found)
