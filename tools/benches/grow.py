"""How the time of lines grows: by files, labels, users, operands, depth and the entries of a list, one of them at a time.

Each range has five sizes. An exponent is the slope of a line through all of them where both axes are logarithms: 0 if the time
stays, 1 if it grows as the size does. The steepest is that between two neighbouring sizes, so a bend in the middle shows."""
from __future__ import annotations

import math
import tempfile
from typing import Callable, Dict, List, NamedTuple, Tuple, Union

from lib.script import say
from lib.session import best_of
from lib.texts import record, text_file, write_people, write_tree
from .sessions import (
    BELOW, CHANGES, CHMOD, DIRECTORY, FIRST, GAINS, MEMBERS, NEW, NO_SEARCH, OF_ALL, QUESTIONS, SETFACL, USERS, WHO,
    Figures, Step, Tree, entries, print_table, session_times, shown, write_labels,
)

# What a line that names one thing may have as its exponent.
AIM = 0.2
FILES, LABELS, MEMBERS_OF_ALL = 100_000, 1_000, 1_000
CAN = Step("`can`", "can u{user} {file}")
CAN_REACH = Step("`can --reach`", "can --reach u{user} {file}")
WHO_REACH = Step("`who --reach`", "who --reach r {file}")
WHY_REACH = Step("`why --reach`", "why --reach u{user} {file}")
GETFACL = Step("`getfacl` of one file", "getfacl {file}")
OF_ONE = (CAN, CAN_REACH, WHO, WHO_REACH, WHY_REACH, GETFACL)
CHANGED = (FIRST, CHANGES, Step("`changes --reach` of one file", "changes --reach"), *GAINS)
EDITS = (CHMOD, SETFACL, *NEW, DIRECTORY)
NAMED = "a named file"
OF_OPERANDS = (
    Step(f"`getfacl`, {NAMED}", "getfacl {files}"), Step(f"`below`, {NAMED}", "below r {files}"),
    Step(f"`chmod`, {NAMED}", "chmod 640 {files}"), Step(f"`setfacl -m`, {NAMED}", "setfacl -m u:u1:rwx {files}"))


class Range(NamedTuple):
    """What grows, its sizes, what makes a tree of a size in a folder, and the lines: those that name one thing, and others."""

    name: str
    sizes: Tuple[int, ...]
    make: Callable[[str, int], Tree]
    of_one: Tuple[Step, ...]
    others: Tuple[Step, ...] = ()


def make_files(folder: str, size: int) -> Tree:
    write_tree(folder, size, MEMBERS_OF_ALL)
    return Tree(folder, size, MEMBERS_OF_ALL, 200, 4)


def make_labels(folder: str, size: int) -> Tree:
    write_labels(folder, FILES, MEMBERS_OF_ALL, lambda n: n % size)
    return Tree(folder, FILES, MEMBERS_OF_ALL, 200, 4)


def make_users(folder: str, size: int) -> Tree:
    write_labels(folder, FILES, size, lambda n: n % LABELS)
    return Tree(folder, FILES, size, 200, 4)


def make_operands(folder: str, size: int) -> Tree:
    write_tree(folder, FILES, MEMBERS_OF_ALL)
    return Tree(folder, FILES, MEMBERS_OF_ALL, size, 1)


def make_depth(folder: str, size: int) -> Tree:
    """Directories in one another, each of another label, and a file in the last one."""
    groups = write_people(folder, MEMBERS_OF_ALL)
    with text_file(folder, "dump") as out:
        for depth in range(size):
            path = "/".join(["d"] * depth) or "."
            out.write(record(path, depth % MEMBERS_OF_ALL, 0, entries(depth, MEMBERS_OF_ALL, groups, "")))
        out.write(record("/".join(["d"] * (size - 1) + ["f"]), 0, 0, entries(0, MEMBERS_OF_ALL, groups, "")))
    return Tree(folder, size + 1, MEMBERS_OF_ALL, 50, 4, ("/".join(["d"] * (size - 1) + ["f"]),))


def make_entries(folder: str, size: int) -> Tree:
    """A hundred files in a folder, each with a list of `size` entries; there are more users than entries."""
    users = 5_000
    write_people(folder, users)
    with text_file(folder, "dump") as out:
        out.write(record(".", 0, 0, ["user::rwx", "group::r-x", "other::r-x"]))
        out.write(record("d/", 0, 0, ["user::rwx", "group::r-x", "other::r-x"]))
        for n in range(100):
            named = [f"user:u{(n + k) % users}:r--" for k in range(size - 4)]
            out.write(record(f"d/f{n:02}", n, 0, ["user::rw-", *sorted(named, key=id_of), "group::r--", "mask::rw-", "other::---"]))
    return Tree(folder, 102, users, 200, 4, tuple(f"d/f{n:02}" for n in range(100)))


def id_of(entry: str) -> int:
    """The number of the user whom an entry names: lists are in this order."""
    return int(entry.split(":")[1][1:])


RANGES = (
    Range("files", (10_000, 30_000, 100_000, 300_000, 1_000_000), make_files, (*OF_ONE, *CHANGED, *BELOW[2:], *EDITS),
          (*QUESTIONS[2:], *BELOW[:2], *USERS, NO_SEARCH, *OF_ALL)),
    Range("labels", (10, 100, 1_000, 10_000, 100_000), make_labels, (*OF_ONE, *CHANGED, *EDITS),
          (*QUESTIONS[2:], *BELOW[:2], *MEMBERS, *USERS, NO_SEARCH, *OF_ALL)),
    Range("users", (10, 100, 1_000, 10_000, 60_000), make_users, (CAN, CAN_REACH, WHY_REACH, GETFACL),
          (WHO, WHO_REACH, *CHANGED, *EDITS, *MEMBERS, *USERS, NO_SEARCH)),
    Range("operands", (1, 10, 100, 1_000, 5_000), make_operands, OF_OPERANDS),
    Range("depth", (10, 30, 100, 300, 1_000), make_depth, (), (*OF_ONE, CHMOD, SETFACL, NO_SEARCH)),
    Range("entries", (4, 30, 250, 1_000, 4_000), make_entries, (), (CAN, WHO, GETFACL, CHMOD, SETFACL)),
)


def slope(sizes: List[int], times: List[float]) -> float:
    """The exponent by which times grow with sizes, by least squares of logarithms."""
    across, up = [math.log(size) for size in sizes], [math.log(max(time, 1e-9)) for time in times]
    middle, height = sum(across) / len(across), sum(up) / len(up)
    return sum((x - middle) * (y - height) for x, y in zip(across, up)) / sum((x - middle) ** 2 for x in across)


def row_of(sizes: List[int], times: List[float], aim: str) -> Dict[str, str]:
    """The cells of a line's row: its time at each size, its exponents, and what is aimed at."""
    steepest = max(slope(list(sizes[at : at + 2]), list(times[at : at + 2])) for at in range(len(sizes) - 1))
    cells = {f"{size:,}": shown("", time) for size, time in zip(sizes, times)}
    return {**cells, "exponent": f"{slope(sizes, times):.2f}", "steepest": f"{steepest:.2f}", "aim": aim}


def measure_range(program: str, runs: int, grown: Range) -> List[Figures]:
    """The best of the runs at each size."""
    found = []
    for size in grown.sizes:
        with tempfile.TemporaryDirectory(prefix="facl-bench.") as folder:
            tree = grown.make(folder, size)
            found.append(best_of([session_times(program, tree, (*grown.of_one, *grown.others)) for _ in range(runs)]))
        say(f"{size:,} {grown.name} are measured")
    return found


def print_range(grown: Range, found: List[Figures]) -> None:
    rows = {step.name: row_of(list(grown.sizes), [figures[step.name] for figures in found], f"{AIM}" if step in grown.of_one else "")
            for step in (*grown.of_one, *grown.others)}
    columns: Dict[str, Dict[str, Union[str, float]]] = {}
    for name, row in rows.items():
        for column, cell in row.items():
            columns.setdefault(column, {})[name] = cell
    print_table(grown.name, columns)
    print(flush=True)


def measure(program: str, runs: int, wanted: List[str]) -> int:
    """Prints a table for each range, or for those that are wanted."""
    for grown in RANGES:
        if not wanted or grown.name in wanted:
            print_range(grown, measure_range(program, runs, grown))
    return 0
