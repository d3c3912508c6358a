"""Answers random lines over trees, and looks for crashes, wrong statuses and broken promises.

usage: tools/check.py random_sessions PROGRAM [--restart | --memory] [--count N] [--lines N] [--seed N] [--record] ..

A session is a small tree of its own and some ten lines over it, more than a third of them faulty
(tools/lib/random_lines.py). There are --count (1,000), those of a --batch (100) in one run: the dump has a folder for
each, and the script their lines in turn. Of each batch, with no second implementation but of the check:

- the run ends with 0 or 1, and with 1 exactly where there is a message that is no warning; each message names a line
  that has a tool, and no line has two;
- the accepted lines alone print the same, with the same warnings and no message;
- the listing of all files (`getfacl -R .`), loaded by the same users or restored, gives the same listing;
- `index`, which the lines kept current, is the same where it is rebuilt, of that listing and of texts of the users and
  groups after the lines (not where a user was added whose name starts with `#`, as no row of a text does);
- `index`, `changes`, `gains` and random questions of can, who, may, below and why, half of them with `--reach`, are
  answered as the check of acl(5) has it, from that listing and the users (tools/lib/answers.py).

A batch that breaks one is cut down to as few lines as do, which are printed. --verbose counts the refusals by texts.

With --restart a small tree goes through --lines (50), --count (200) times. After each --every (10) a new session on the
same state has to answer the same, as far as the root is not removed: `index`, which has every verdict, `may --reach` of
each user and request, `can --reach` and `who --reach` of each file.

With --memory the tree of tools/lib/texts.py, --files (100,000) and --users (1,000), gets --lines (20,000) that are all
accepted; or, with --tree FOLDER, the files of a real folder, as getfacl(1) prints them, with such users: most change one file or one user or ask something, one of 50 a directory with its hundred files, one of 1,000
all files. After each --report (2,000) it prints the memory that the program has and the most that it had. A session
keeps two states: the one after the load, of which `changes` and `gains` tell what differs, and the present one. So at
the end it has to have at most a tenth more than it had after the load and a new session on the present state has,
together; and to answer the same.

The same seed gives the same lines. The exit status is 1 if something is not so, 2 if the words are others.
"""
from __future__ import annotations

import argparse
import collections
import os
import random
import re
import subprocess
import tempfile
import time
from pathlib import Path
from typing import Counter, Dict, List, NamedTuple, Optional, Sequence, Tuple

from lib.answers import People, Table
from lib.random_lines import GROUP, OF_PEOPLE, PASSWD, ROOT, TOOLS, Grammar, Unit, is_of_tools, numbers_of, script_of
from lib.script import Failed
from lib.session import TEXTS, KeptSession, conclude, options_of, words_of, write_text
from lib.texts import PER_DIRECTORY, write_people, write_tree

MESSAGE = re.compile(rb"line ([0-9]+): ([^ ]+): (.+)")
# The message of a unit, and whether it is a warning.
Messages = Dict[int, Tuple[bytes, bool]]
LAST = Unit(b"getfacl -R .", None)
MARK = Unit(b"# the listing of all files", None)
NUMBERS = Unit(b"getfacl -R -n .", None)
INDEX = Unit(b"index", None)


class Run(NamedTuple):
    """What a run prints, and its status."""

    out: bytes
    err: bytes
    status: int


class Program:
    """The program, with a folder for its texts, and how much was compared after restarts."""

    def __init__(self, program: str, folder: str, restarts: bool) -> None:
        self.program, self.folder, self.restarts = program, folder, restarts
        self.runs = self.comparisons = self.answers = 0

    def run(self, units: List[Unit], dump: Optional[bytes], passwd: bytes = PASSWD, group: bytes = GROUP) -> Run:
        """What the program prints and ends with, where these texts are loaded; None is a dump that is not."""
        self.runs += 1
        for name, text in zip(TEXTS, (passwd, group, dump)):
            Path(self.folder, name).unlink(missing_ok=True)
            if text is not None:
                write_text(self.folder, name, [text])
        words = words_of(self.program, self.folder)
        done = subprocess.run(words, input=script_of(units), capture_output=True, check=False)
        return Run(done.stdout, done.stderr, done.returncode)


class State:
    """The state after accepted lines: what they print, the listing of all files, and the users and groups."""

    def __init__(self, program: Program, kept: List[Unit], dump: bytes, listed: Run) -> None:
        self.program, self.kept, self.dump = program, kept, dump
        self.before = program.run(kept, dump)
        self.listing = listed.out[len(self.before.out) :]
        self.changes_of_people = [unit for unit in kept if is_of_tools(unit, OF_PEOPLE)]
        self.people = People(PASSWD, GROUP)
        for unit in self.changes_of_people:
            self.people.do(unit.line)

    def answers(self, questions: List[Unit]) -> Tuple[bytes, bytes]:
        """What questions after the lines print, and their messages."""
        after = self.program.run(self.kept + questions, self.dump)
        return after.out[len(self.before.out) :], after.err[len(self.before.err) :]


def messages_of(units: List[Unit], result: Run) -> Tuple[Messages, Optional[str]]:
    """The messages by their units, and what is wrong with them, if anything is."""
    starts = {number: k for k, number in enumerate(numbers_of(units))}
    found: Messages = {}
    last = 0
    for line in result.err.splitlines():
        parts = MESSAGE.fullmatch(line)
        if not parts or int(parts[1]) not in starts or int(parts[1]) <= last:
            return {}, f"the message {line!r} is out of place"
        last = int(parts[1])
        found[starts[last]] = (line.split(b" ", 2)[2], parts[3].startswith(b"warning: "))
    return found, None


def status_fault(units: List[Unit], result: Run, refused: Sequence[int], found: Messages) -> Optional[str]:
    """What is wrong with the status of a run, or with the lines that it refuses."""
    if result.status != (1 if refused else 0):
        return f"status {result.status} with {len(refused)} refused lines"
    for k in refused:
        if units[k].line.strip(b" \t")[:1] in (b"", b"#") and len(units[k].line) <= 65536:
            return f"a line that has no tool is refused: {found[k]!r}"
    return None


def accepted_fault(units: List[Unit], kept: List[int], alone: Run, result: Run, found: Messages) -> Optional[str]:
    """What is wrong where the accepted lines are run alone."""
    warnings, wrong = messages_of([units[k] for k in kept], alone)
    if (alone.out, alone.status) != (result.out, 0):
        return f"the accepted lines alone do not print the same: {alone.err[-300:]!r}"
    if wrong or {kept[k]: it for k, it in warnings.items()} != {k: it for k, it in found.items() if k in kept}:
        return "the accepted lines alone do not warn the same"
    return None


def fault_of(program: Program, units: List[Unit], dump: bytes) -> Optional[str]:
    """What is wrong with a run of these units; None where all is as it has to be."""
    units = units + [MARK, LAST]
    result = program.run(units, dump)
    found, wrong = messages_of(units, result)
    if wrong:
        return wrong
    refused = [k for k, (_, is_warning) in found.items() if not is_warning]
    kept = sorted(set(range(len(units))) - set(refused))
    alone = program.run([units[k] for k in kept], dump)
    fault = status_fault(units, result, refused, found) or accepted_fault(units, kept, alone, result, found)
    if fault or len(units) - 1 in refused:
        return fault  # Without one the root was removed, so there is no listing of all files.
    state = State(program, [units[k] for k in kept[:-1]], dump, result)
    if program.restarts:
        return rebuilt_fault(state, every_question(state))
    return reload_fault(state) or rebuilt_fault(state, [INDEX]) or answers_fault(state)


def rebuilt_fault(state: State, questions: List[Unit]) -> Optional[str]:
    """What is wrong with the kept index: rebuilt of the listing and the users it has to answer the same."""
    people = state.people
    if any(user.name.startswith(b"#") for user in people.users):
        return None
    kept, messages = state.answers(questions)
    rebuilt = state.program.run(questions, state.listing, people.passwd_text(), people.group_text())
    state.program.comparisons += 1
    state.program.answers += kept.count(b"\n")
    if messages or rebuilt[1:] != (b"", 0):
        return f"messages {messages[:200]!r} and, rebuilt, status {rebuilt.status}, {rebuilt.err[:200]!r}"
    if kept != rebuilt.out:
        lines = zip(kept.split(b"\n"), rebuilt.out.split(b"\n"))
        pair = next(((a, b) for a, b in lines if a != b), (kept[-80:], rebuilt.out[-80:]))
        return f"the index that is rebuilt is not the one that was kept: {pair[1][:300]!r} for {pair[0][:300]!r}"
    return None


def every_question(state: State) -> List[Unit]:
    """Lines whose answers have each verdict, and each along the path."""
    uids = sorted({user.uid for user in state.people.users})
    files = [line[len(b"# file: ") :] for line in state.listing.splitlines() if line.startswith(b"# file: ")]
    lines = [b"may --reach %d %d" % (uid, request) for uid in uids for request in range(8)]
    lines += [b"who --reach %d '%s'" % (request, file) for file in files for request in range(8)]
    lines += [b"can --reach %d '%s'" % (uid, file) for uid in uids for file in files]
    lines += [b"below --reach %d '%s'" % (request, file) for file in files for request in range(8)]
    return [INDEX, *(Unit(line, None) for line in lines)]


def changes_fault(state: State, table: Table) -> Optional[str]:
    """What is wrong with what `changes` and `gains` print, beside the state after the setup; a `load` makes that
    another one."""
    if any(is_of_tools(unit, (b"load",)) for unit in state.kept):
        return None
    before = Table(People(PASSWD, GROUP), state.program.run([NUMBERS], state.dump).out)
    for tool, answer_of in (b"changes", table.changes), (b"gains", table.gains):
        for reach, line in (False, tool), (True, tool + b" --reach"):
            out, _ = state.answers([Unit(line, None)])
            answer = answer_of(before, reach)
            if out != answer:
                return f"{line!r} is not answered {answer[:300]!r} but {out[:300]!r}"
    return None


def answers_fault(state: State) -> Optional[str]:
    """What is wrong with the answers to random questions after the accepted lines."""
    listed, _ = state.answers([NUMBERS])
    table = Table(state.people, listed)
    choice = random.Random(len(state.before.out) + len(listed))
    questions = [table.question(choice) for _ in range(40)] if state.people.users else []
    out, messages = state.answers([Unit(line, None) for line, _ in questions] + [INDEX])
    at = 0
    for line, answer in questions + [(b"index", table.index())]:
        if out[at : at + len(answer)] != answer:
            return f"{line!r} is not answered {answer[:300]!r} but {out[at : at + len(answer) + 100][:300]!r}"
        at += len(answer)
    if out[at:] or messages:
        return f"the questions print more than their answers: {out[at:][:300]!r} {messages[-300:]!r}"
    return changes_fault(state, table)


def reload_fault(state: State) -> Optional[str]:
    """What is wrong where the listing of all files is loaded and restored."""
    program, text = state.program, state.listing.split(b"\n")[:-1]
    loads = state.changes_of_people + [Unit(b"load dump", text)]
    restore = [Unit(b"setfacl --restore=-", text)]
    for what, more in (("loaded", restore[:0]), ("restored", restore)):
        result = program.run(loads + more + [LAST], None)
        if result != Run(state.listing, b"", 0):
            return f"the listing of all files, {what}, is not the same: {result.err[-300:]!r}"
    return None


def smallest(program: Program, units: List[Unit], dump: bytes) -> List[Unit]:
    """As few of the units as still break a promise."""
    size = max(1, len(units) // 2)
    while size >= 1:
        at = 0
        while at < len(units):
            fewer = units[:at] + units[at + size :]
            if fault_of(program, fewer, dump):
                units = fewer
            else:
                at += size
        size //= 2
    return units


def is_broken(program: Program, name: str, units: List[Unit], dump: bytes) -> bool:
    """Whether lines break a promise; then prints as few of them as do."""
    if not fault_of(program, units, dump):
        return False
    few = smallest(program, units, dump)
    print(f"\n{name}: {fault_of(program, few, dump)}")
    print(script_of(few).decode(errors="backslashreplace"), flush=True)
    return True


def sessions(program: Program, given: argparse.Namespace) -> Tuple[str, int]:
    """Batches of sessions; returns how much was looked at, and how many break a promise."""
    lines = faults = 0
    texts: Counter[bytes] = collections.Counter()
    for first in range(0, given.count, given.batch):
        tops = [f"s{k}" for k in range(min(given.batch, given.count - first))]
        grammar = Grammar(f"{given.seed} {first}", TOOLS)
        dump = ROOT + b"".join(grammar.dump(top) for top in tops)
        units = [unit for top in tops for unit in grammar.session(top)]
        lines += len(units)
        name = f"sessions {first} to {first + len(tops) - 1} of seed {given.seed}"
        if is_broken(program, name, units, dump):
            faults += 1
        elif given.verbose:
            texts.update(line.split(b": ")[-1] for line in program.run(units, dump).err.splitlines())
    for text, times in texts.most_common():
        print(f"{times:8} {text.decode(errors='replace')}")
    return f"{given.count} sessions of {lines} lines", faults


def states(program: Program, given: argparse.Namespace) -> Tuple[str, int]:
    """States compared after some of their lines, each until it breaks a promise; returns the same."""
    faults = 0
    for number in range(given.count):
        grammar = Grammar(f"{given.seed} {number}", TOOLS)
        dump = ROOT + grammar.dump("s")
        units = [grammar.unit("s") for _ in range(given.lines)]
        ends = range(given.every, given.lines + 1, given.every)
        faults += any(is_broken(program, f"seed {given.seed} {number}", units[:end], dump) for end in ends)
    compared = f"{program.comparisons} comparisons of {program.answers} lines of answers"
    return f"{given.count} states of {given.lines} lines, {compared}", faults


class Paths(NamedTuple):
    """The words that lines have for directories and plain files."""

    directories: List[str]
    files: List[str]


def made_tree(folder: str, files: int, users: int) -> Paths:
    """Writes the texts of the tree of texts.py."""
    write_tree(folder, files, users)
    directories = [f"d{n:05}" for n in range(max(1, (files - 1) // (PER_DIRECTORY + 1)))]
    return Paths(directories, [f"{name}/f{k:03}" for name in directories for k in range(PER_DIRECTORY)])


def real_tree(folder: str, top: str, users: int) -> Paths:
    """Writes the texts of a real folder, with the users of texts.py; lines have the names that need no quotes."""
    write_people(folder, users)
    head = ROOT.replace(b"owner: root", b"owner: u0").replace(b"group: root", b"group: g0")
    done = subprocess.run(["getfacl", "-R", "-n", "--", os.path.relpath(top, "/")], cwd="/", capture_output=True, check=False)
    write_text(folder, "dump", [head, done.stdout])
    names = [name.decode() for name in re.findall(rb"(?m)^# file: ([\w./+-]+)$", done.stdout)]
    above = {os.path.dirname(name) for name in names}  # A folder that has nothing recorded is a plain file for the program.
    return Paths([name for name in names if name in above], [name for name in names if not os.path.isdir("/" + name)])


class Lines:
    """Random lines that are accepted on a tree, with the users and groups after them."""

    def __init__(self, seed: int, paths: Paths, folder: str) -> None:
        self.random, self.paths = random.Random(seed), paths
        self.people = People(*(Path(folder, name).read_bytes() for name in TEXTS[:2]))
        self.added: List[str] = []
        self.made: List[str] = []
        self.count = 0

    def user(self) -> str:
        return self.random.choice(self.people.users).name.decode()

    def group(self) -> str:
        return self.random.choice(self.people.rows).name.decode()

    def directory(self) -> str:
        return self.random.choice(self.paths.directories)

    def file(self) -> str:
        return self.random.choice(self.paths.files)

    def mode(self) -> str:
        return f"{self.random.randrange(0o1000):o}"

    def perms(self) -> str:
        return self.random.choice(["r", "rw", "rx", "rwx", "x", "0"])

    def entry(self) -> str:
        who = self.random.choice(["u:" + self.user(), "u:" + self.user(), "g:" + self.group(), "g:", "o:"])
        return f"{who}:{self.perms()}"

    def whole(self) -> str:
        named = f"u:{self.user()}:rw,g:{self.group()}:rx,m::rwx," if self.random.random() < 0.7 else ""
        return f"u::rwx,{named}g::r,o::{self.perms()}"

    def change_of_file(self) -> str:
        kind = self.random.choice("chmod modify modify set chacl setattr strip restore creat rm".split())
        if kind == "creat" or kind == "rm" and not self.made:
            self.count += 1
            self.made.append(f"{self.directory()}/new{self.count}")
            return f"creat --user={self.user()} --mode={self.mode()} {self.made[-1]}"
        if kind == "rm":
            return "rm " + self.made.pop(self.random.randrange(len(self.made)))
        file = self.file()
        if kind == "restore":
            owner = f"# owner: {self.user()}\n" * (self.random.random() < 0.5)
            return f"setfacl --restore=-\n# file: {file}\n{owner}" + self.whole().replace(",", "\n") + "\n."
        attribute = "0x0200000001000600ffffffff0400%02d00ffffffff20000000ffffffff" % self.random.randrange(8)
        line = {"chmod": f"chmod {self.mode()} ", "modify": f"setfacl -m {self.entry()} ",
                "set": f"setfacl --set {self.whole()} ", "chacl": f"chacl {self.whole()} ", "strip": "setfacl -b ",
                "setattr": f"setattr system.posix_acl_access={attribute} "}
        return line[kind] + file

    def change_of_people(self) -> str:
        kind = self.random.choice(["gpasswd -a", "gpasswd -a", "gpasswd -d", "usermod", "useradd", "userdel"])
        if kind == "useradd" or kind == "userdel" and not self.added:
            self.count += 1
            self.added.append(f"n{self.count}")
            line = f"useradd -u {500_000 + self.count} -g {self.group()} {self.added[-1]}"
        elif kind == "userdel":
            line = "userdel " + self.added.pop(0)
        elif kind == "usermod":
            line = f"usermod -g {self.group()} {self.user()}"
        else:
            row = self.random.choice([row for row in self.people.rows if kind == "gpasswd -a" or row.names])
            name = self.user() if kind == "gpasswd -a" else row.names[0].decode()
            line = f"{kind} {name} {row.name.decode()}"
        self.people.do(line.encode())
        return line

    def question(self) -> str:
        user, file = self.user(), self.file()
        asked = ["can %s %s", "can --reach %s %s", "why %s %s"]
        return (self.random.choice(asked) % (user, file) if self.random.random() < 0.5
                else self.random.choice(["who r ", "who --reach w ", "getfacl ", "attr "]) + file)

    def next(self) -> str:
        """A line, with its text."""
        chance = self.random.random()
        if chance < 0.021:
            path = "." if chance < 0.001 else self.directory()
            return self.random.choice([f"chmod -R {self.mode()} ", f"setfacl -R -m {self.entry()} "]) + path
        if chance < 0.1:
            return self.change_of_people()
        return self.question() if chance < 0.3 else self.change_of_file()

    def questions(self) -> List[str]:
        asked = [f"may --reach {self.user()} {request}" for request in (0, 1, 4) for _ in range(5)]
        asked += [f"who --reach {request} {self.file()}" for request in range(8) for _ in range(50)]
        return asked + [f"may {self.user()} w" for _ in range(5)]


def answer(session: KeptSession, lines: List[str]) -> bytes:
    """What lines print; one that is refused ends the check."""
    printed, messages = session.answer(f"{line}\n".encode() for line in lines)
    if refusals := [message for message in messages if b": warning: " not in message]:
        raise Failed(refusals[0].decode(errors="replace").strip())
    return printed


def memory(given: argparse.Namespace, folder: str) -> Tuple[str, List[str]]:
    """A long session and a new one on its state; returns how much was looked at, and what differs."""

    def show(what: str, session: KeptSession) -> int:
        present, most = session.present_memory(), session.most_memory()
        each = f"{present / files:.0f} bytes a file"
        print(f"{what}: {present / 1e6:.1f} MB ({each}), at most {most / 1e6:.1f} MB", flush=True)
        return present

    os.mkdir(first := os.path.join(folder, "first"))
    paths = (real_tree(first, given.tree, given.users) if given.tree else made_tree(first, given.files, given.users))
    files = sum(map(len, paths))
    lines = Lines(given.seed, paths, first)
    with KeptSession(given.program, first) as old:
        answer(old, [])
        present = loaded = show(f"{files} files, {given.users} users, loaded", old)
        for done in range(0, given.lines, given.report):
            count = min(given.report, given.lines - done)
            answer(old, [lines.next() for _ in range(count)])
            present = show(f"after {done + count} lines", old)
        texts = lines.people.passwd_text(), lines.people.group_text(), answer(old, ["getfacl -R ."])
        for name, text in zip(TEXTS, texts):
            write_text(folder, name, [text])
        with KeptSession(given.program, folder) as new:
            answer(new, [])
            part = present / (loaded + show("the same state, loaded by a new session", new))
            asked = lines.questions()
            is_same = answer(old, asked) == answer(new, asked)
    faults = ["more than a tenth more memory"] * (part > 1.1) + ["answers differ"] * (not is_same)
    amount = f"{files} {'real ' * bool(given.tree)}files, {given.users} users, {given.lines} lines"
    return f"{amount}, {part:.2f} times the memory of both states", faults


def read_words() -> argparse.Namespace:
    memory_numbers = {"files": 100_000, "users": 1_000, "report": 2_000}
    options = options_of(__doc__, count=None, lines=None, every=10, seed=1, batch=100, **memory_numbers)
    kinds = options.add_mutually_exclusive_group()
    kinds.add_argument("--restart", action="store_true")
    kinds.add_argument("--memory", action="store_true")
    options.add_argument("--tree", metavar="FOLDER")
    options.add_argument("--verbose", action="store_true")
    given = options.parse_args()
    given.count = given.count or (200 if given.restart else 1000)
    given.lines = given.lines or (20_000 if given.memory else 50)
    return given


def main() -> int:
    given = read_words()
    started = time.monotonic()
    with tempfile.TemporaryDirectory(prefix="facl-random.") as folder:
        if given.memory:
            amount, faults = memory(given, folder)
        else:
            program = Program(given.program, folder, given.restart)
            amount, broken = (states if given.restart else sessions)(program, given)
            what = "states differ after a restart" if given.restart else "batches break a promise"
            amount, faults = f"{amount}, {program.runs} runs", [f"{broken} {what}"] * (broken > 0)
    return conclude(given, f"{amount}, seed {given.seed}, {time.monotonic() - started:.0f} s", faults)
