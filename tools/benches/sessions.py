"""Sessions that are measured: the trees that they are on, the lines of a kind, and how figures are printed."""
from __future__ import annotations

import os
import subprocess
from typing import Callable, Dict, Iterable, List, Mapping, NamedTuple, Tuple, Union

from lib.session import MeasuredSession, first_records
from lib.texts import PER_DIRECTORY, record, text_file, write_people

# The most records of a dump that are restored, since the bytes of a script are limited.
MAX_RESTORED = 100_000
Figures = Dict[str, float]
NumberOf = Callable[[int], int]  # The number of a file's label, by the file's own number.
LOAD, LOAD_BYTES = "load, a file", "most bytes a file of the load"


# What is printed.

def shown(name: str, value: float) -> str:
    """A figure in the unit that suits it."""
    if "bytes" in name:
        return f"{value:,.0f}"
    if "memory" in name:
        return f"{value / 1e9:.2f} GB"
    for unit, size in (("s", 1), ("ms", 1e-3), ("us", 1e-6)):
        if value >= size:
            return f"{value / size:.2f} {unit}"
    return f"{value / 1e-9:.1f} ns"


def print_table(head: str, columns: Mapping[str, Mapping[str, Union[str, float]]]) -> None:
    """Columns of figures and texts by the names of their rows."""
    print("| " + " | ".join([head, *columns]) + " |\n|---" + "|---" * len(columns) + "|")
    for name in dict.fromkeys(name for column in columns.values() for name in column):
        cells = (column.get(name, "") for column in columns.values())
        texts = (cell if isinstance(cell, str) else shown(name, cell) for cell in cells)
        print("| " + " | ".join([name, *texts]) + " |", flush=True)


# The program on trees that are made.

class Tree(NamedTuple):
    """The texts in a folder, their sizes, how many files lines name, and how many lines look at much or change it; and the files
    that are named, where they are not those of `write_tree`."""

    folder: str
    files: int
    users: int
    named: int
    few: int
    paths: Tuple[str, ...] = ()

    def some(self) -> List[str]:
        """Plain files all over the tree."""
        if self.paths:
            return [self.paths[k % len(self.paths)] for k in range(self.named)]
        directories = max(1, (self.files - 1) // (PER_DIRECTORY + 1))
        return [f"d{k * 37 % directories:05}/f{k % PER_DIRECTORY:03}" for k in range(self.named)]


class Step(NamedTuple):
    """Lines of a kind: one with `{file}` for each of the named files, another with a brace a few times, where `{files}` is all
    of them, and one without a brace once. Then what is aimed at for files of few labels, and of different ones."""

    name: str
    line: str
    few: str = ""
    different: str = ""

    def count(self, tree: Tree) -> int:
        return tree.named if "{file}" in self.line else tree.few if "{" in self.line else 1

    def lines(self, tree: Tree) -> List[str]:
        if "--restore" in self.line:
            return [self.line, *first_records(tree.folder, MAX_RESTORED), "."]
        some, groups = tree.some(), max(1, tree.users // 10)
        return [self.line.format(k=k, file=some[k % len(some)], files=" ".join(some), directory=some[k % len(some)].split("/")[0],
                                 group=k % groups, id=999_900 + k, user=k % tree.users, seventh=k * 7 % tree.users)
                for k in range(self.count(tree))]

    def parts(self, tree: Tree) -> int:
        """What the time of the lines is divided by."""
        if "--restore" in self.line:
            return min(tree.files, MAX_RESTORED)
        each = tree.files if self.name.endswith("a file") else tree.named if "{files}" in self.line else 1
        return self.count(tree) * each


OF_LOAD = (Step(LOAD, "", "2.5 us", "4 us"), Step(LOAD_BYTES, "", "1,000", "2,500"))
WHO = Step("`who`", "who r {file}")
QUESTIONS = (
    WHO, Step("`who --reach`", "who --reach r {file}"), Step("`may`, a file", "may u{k} w", "30 ns", "30 ns"),
    Step("`may --reach`, a file", "may --reach u{k} w", "30 ns", "30 ns"))
CHMOD = Step("`chmod` of one file", "chmod 640 {file}", "40 us", "40 us")
SETFACL = Step("`setfacl -m` of one file", "setfacl -m u:u{user}:rwx {file}", "40 us", "40 us")
DIRECTORY = Step("`chmod` of a directory", "chmod 751 {directory}")
FIRST = Step("`chmod` of the first file", "chmod 000 d00000/f000")
CHANGES = Step("`changes` of one file", "changes", "50 ms", "50 ms")
BELOW = (Step("`below` of all files", "below r ."), Step("`below --reach` of all files", "below --reach r ."),
         Step("`below` of a folder", "below r {directory}"), Step("`below --reach` of a folder", "below --reach r {directory}"))
GAINS = (Step("`gains` of one file", "gains"), Step("`gains --reach` of one file", "gains --reach"))
NEW = (Step("`creat`", "creat --user=u1 --mode=640 {file}.{k}", "40 us", "40 us"),
       Step("`rm` of one file", "rm {file}.{k}", "40 us", "40 us"))
MEMBERS = (Step("`gpasswd -a` of `few`", "gpasswd -a u{k} few", "20 ms", "60 ms"),
           Step("`gpasswd -a` of `half`", "gpasswd -a u{k} half", "20 ms", "60 ms"))
USERS = (Step("`useradd`", "useradd -u {id} -g g0 new{k}", "100 ms", "1.5 s"),
         Step("`userdel`", "userdel new{k}", "100 ms", "1.5 s"))
NO_SEARCH = Step("`chmod 700 .`", "chmod 700 .")
OF_ALL = (Step("`chmod -R .`, a file", "chmod -R 750 .", "1.2 us", "2.5 us"),
          Step("`setfacl -R -m .`, a file", "setfacl -R -m u:u1:rX .", "1.5 us", "1.5 us"),
          Step("`setfacl --restore`, a record", "setfacl --restore=-", "3 us", "3 us"))
# The steps of the sessions, in their order.
OF_TOOLS = (
    Step("`getfacl -R .`, a file", "getfacl -R ."), Step("`getfacl` of one file", "getfacl {file}"),
    Step("`can`", "can u{user} {file}"), Step("`can --reach`", "can --reach u{user} {file}"), *QUESTIONS,
    CHMOD, SETFACL, DIRECTORY, Step("`gpasswd -a`", "gpasswd -a u{seventh} g{group}"), *OF_ALL, *NEW, *USERS)
OF_INDEX = (
    *QUESTIONS, *BELOW, FIRST, CHANGES, Step("`changes --reach` of one file", "changes --reach"), *GAINS, CHMOD,
    SETFACL, *NEW, DIRECTORY, *MEMBERS, *USERS, NO_SEARCH, Step("`chmod 755 .`", "chmod 755 ."), *OF_ALL)
OF_LIMITS = (
    WHO, Step("`can`", "can u1 {file}"), Step("`why --reach`", "why --reach u1 {file}"), Step("`may`", "may u1 w"),
    Step("`getfacl`", "getfacl {file}"), CHMOD, CHANGES, SETFACL, *NEW, Step("`usermod -g`", "usermod -g g1 u2"),
    *MEMBERS, NO_SEARCH, BELOW[0], GAINS[0])  # Along paths these take a row for each class: 16 s and 7 GB.


def session_times(program: str, tree: Tree, steps: Iterable[Step]) -> Figures:
    """What a load takes, and each step of the session after it: seconds, or bytes."""
    with MeasuredSession(program, tree.folder) as session:
        found = {LOAD: session.load / tree.files, "load, a file and user": session.load / tree.files / tree.users}
        found[LOAD_BYTES] = session.memory / tree.files
        found["bytes a file after it"] = session.present_memory() / tree.files
        for step in steps:
            found[step.name] = session.answer(step.lines(tree)) / step.parts(tree)
        found["most bytes a file of the session"] = session.most_memory() / tree.files
        found["bytes a file at its end"] = session.present_memory() / tree.files
        session.end()
    return found


def steps_of(program: str, steps: Iterable[Step]) -> List[Step]:
    """The steps whose tools a program has: of others it says so itself, and not as the tool."""
    lines = {step: step.line.split(" ")[0] for step in steps}
    script = "".join(f"{tool}\n" for tool in lines.values()).encode()
    done = subprocess.run([program], input=script, capture_output=True, check=False)
    return [step for number, step in enumerate(lines, 1) if b"line %d: facl: " % number not in done.stderr]


# Texts whose files have the labels of some numbers.

TEXTS = ("---", "--x", "-w-", "-wx", "r--", "r-x", "rw-", "rwx")

def entries(number: int, users: int, groups: int, named: str) -> List[str]:
    """A list that no other number has, but for the numbers of other owners or groups."""
    owner, turn = number % users, number // (users * groups)
    user, group = TEXTS[(6 + turn) % 8], TEXTS[(4 + turn // 8) % 8]
    more = [f"group:{named}:r-x"] if named else []
    return ["user::rwx", f"user:u{owner}:{user}", "group::r-x", f"group:g{owner % groups}:{group}", *more,
            "mask::rwx", "other::r-x"]


def write_labels(folder: str, files: int, users: int, number_of: NumberOf) -> None:
    """Files with the labels of some numbers: half of them mention the group `half`, and one of a hundred `few`."""
    groups = write_people(folder, users)
    with open(os.path.join(folder, "group"), "a", encoding="utf-8") as out:
        out.write("half:x:900000:\nfew:x:900001:\n")
    with text_file(folder, "dump") as out:
        out.write(record(".", 0, 0, ["user::rwx", "group::r-x", "other::r-x"]))
        for n in range(1, files):
            directory, place = divmod(n - 1, PER_DIRECTORY + 1)
            path = f"d{directory:05}/f{place - 1:03}" if place else f"d{directory:05}/"
            number = number_of(n)
            named = "few" if n % 100 == 1 else "half" if n % 2 else ""
            out.write(record(path, number % users, number // users % groups, entries(number, users, groups, named)))
