#!/usr/bin/env -S python3 -B
"""Measures the program and the commands, and prints tables in Markdown.

usage: tools/bench.py MEASUREMENT PROGRAM [FOLDER] [--files N,..] [--users N] [--runs N]
                      [--beside OTHER]... [--only RANGE,..] [--clone OTHER]...
       tools/bench.py tree [--files N] [--users N]

  tools    each tool on the trees of tools/lib/texts.py (10000,100000,1000000 files, 1000 users, 3 runs)
  index    the index of who may do what on files of few labels, of 2000 and of different ones (100000 files, 1000 users, 2 runs)
  limits   a line of each kind on as many files and users as can be, but for those that it makes: 1048570 and 65536, of
           1000 labels (1 run)
  grow     exponents: how the time of lines grows by files, labels, users, operands, depth and the entries of a list, by
           grow.py; with --only RANGE,.. by some of them (2 runs)
  commands the commands of auditors, facl-report and facl-ask over a snapshot of 2000 lists (1000000 files, 1000 users,
           one run); with --clone OTHER also those of another clone, in turn; it may be given several times
  real     the program beside getfacl(1), setfacl(1), chmod(1), touch(1) and rm(1) on one tree, whose real files are
           made in FOLDER, which has to take lists (100000 files, 100 users, 3 runs)
  live     as root, facl-snapshot, facl-plan and facl-apply beside getfacl and setfacl on a tree that is made in FOLDER
           (100000 files, 30 users, 3 runs); with --clone OTHER also those of another clone, in turn
  snapshot as root, facl-snapshot beside getfacl on trees of several sizes (300000,1000000 files, 30 users, 3 runs), of which
           one of 1,000,000 files takes some 1.5 GB where FOLDER is of tmpfs
  tree     commands at the tree and the people alone, below the index and the tools, by a program of its own
           (tree_bench.rt.txt): it is proved and built in a temporary folder, over copies of the crates below acl_tree
           (100000 files, 1000 users, one run; the median of four hundred `creat`, `rm` and `gpasswd`)

With --beside, which may be given several times, tools, index and limits measure other programs in turn with the first, on the
same lines but those of tools that one does not have, and have columns of its figures and of the ratios: how many times as much
the first one takes.

FOLDER is that of temporary files if it is left out; what is made in it is removed. Times are processor time, the best
of the runs, as the most memory is the least; those of `live` and `snapshot` are the medians of the runs, with the time by the
clock beside them. Standard error has how busy the machine is. What is aimed at is for 1,000,000 files and 1,000 users.
FILES are from 102 on, USERS from 10 on. The exit status is 1 if the program refuses a line or another command fails, 2 if
the words are others, a tool is not installed, or `live` or `snapshot` is not run as root.
"""
from __future__ import annotations

import argparse
import os
import re
import shutil
import statistics
import subprocess
import tempfile
from pathlib import Path
from typing import Callable, Dict, Iterable, List, Mapping, NamedTuple, Optional, Tuple, Union

from benches import commands, grow, live, real
from benches.sessions import (
    LOAD, LOAD_BYTES, OF_INDEX, OF_LIMITS, OF_LOAD, OF_TOOLS, WHO, Figures, NumberOf, Step, Tree, print_table, session_times,
    steps_of, write_labels,
)
from benches.spending import spent
from lib.kit import make_room
from lib.script import TOP, Failed, run, say
from lib.session import best_of, program_at
from lib.texts import PER_DIRECTORY, write_tree

Words = argparse.Namespace
BESIDE = ("tools", "index", "limits")  # What measures another program too.


def best_times(given: Words, tree: Tree, steps: Iterable[Step], number_of: Optional[NumberOf] = None) -> List[Figures]:
    """The best of the runs of each program, on a tree whose files have the labels of some numbers, or on that of texts.py."""
    taken = {program: steps_of(program, steps) for program in [given.program, *given.beside]}
    runs: Dict[str, List[Figures]] = {program: [] for program in taken}
    with tempfile.TemporaryDirectory(prefix="facl-bench.") as folder:
        if number_of:
            write_labels(folder, tree.files, tree.users, number_of)
        else:
            write_tree(folder, tree.files, tree.users)
        for program in list(taken) * given.runs:
            runs[program].append(session_times(program, tree._replace(folder=folder), taken[program]))
    say(f"{tree.files:,} files are measured")
    return [best_of(found) for found in runs.values()]


def columns_of(name: str, found: List[Figures]) -> Dict[str, Mapping[str, Union[str, float]]]:
    """A column of figures; and for each other program one of its figures and one of ratios."""
    columns: Dict[str, Mapping[str, Union[str, float]]] = {name: found[0]}
    for place, other in enumerate(found[1:], 1):
        number = f" {place}" * (len(found) > 2)
        columns[f"{name}: beside{number}"] = other
        columns[f"{name}: ratio{number}"] = {row: f"{found[0][row] / other[row]:.2g}" for row in other if other[row] > 0}
    return columns


def measure_tools(given: Words) -> int:
    columns: Dict[str, Mapping[str, Union[str, float]]] = {}
    for files in given.files:
        columns.update(columns_of(f"{files:,} files", best_times(given, Tree("", files, given.users, 1_000, 10), OF_TOOLS)))
    print_table(f"{given.users:,} users", columns)
    return 0


# The index.

SOME = 2_000  # Labels in the middle of the range, of directories too.
NUMBER_OF: Dict[str, NumberOf] = {"few": lambda n: 1, "some": lambda n: n % SOME, "different": lambda n: n}
LABELS = 1_000  # Of the tree of all limits.


def measure_index(given: Words) -> int:
    tree = Tree("", given.files[-1], given.users, 200, 4)
    columns: Dict[str, Mapping[str, Union[str, float]]] = {}
    for kind, number_of in NUMBER_OF.items():
        columns.update(columns_of(f"{kind} labels", best_times(given, tree, OF_INDEX, number_of)))
        if hasattr(Step, kind):
            columns[f"aimed at: {kind}"] = {step.name: getattr(step, kind) for step in (*OF_LOAD, *OF_INDEX)}
    print_table(f"{tree.files:,} files, {tree.users:,} users", columns)
    return 0


def of_limits(best: Figures, files: int) -> Figures:
    """The figures of a session at the limits: of the load as a whole, and of each line."""
    return {"load, and one `who`": best[LOAD] * files + best[WHO.name], "memory of the load": best[LOAD_BYTES] * files,
            **{step.name: best[step.name] for step in OF_LIMITS if step.name in best},
            "memory of the session": best["most bytes a file of the session"] * files}


def measure_limits(given: Words) -> int:
    files, users = given.files[-1], given.users
    found = best_times(given, Tree("", files, users, 1, 1), OF_LIMITS, lambda n: n % LABELS)
    aims = {"load, and one `who`": "10 s", "memory of the load": "1.5 GB"}
    columns = columns_of("seconds", [of_limits(best, files) for best in found])
    print_table(f"{files:,} files of {LABELS:,} labels, {users:,} users", {**columns, "aimed at": aims})
    return 0


# The tree and the people alone.

TREE_BENCH = "tree_bench"
TREE_USES = ["acl_edit", "acl_names", "acl_people", "acl_text", "acl_tree"]


def build_tree_bench(room: str) -> str:
    """Copies the crates that the program is made of, with what is proved of them, proves and builds it; its path."""
    text = os.path.join(TOP, "tools", "benches", TREE_BENCH + ".rt.txt")
    folder = make_room(room, TREE_BENCH, TREE_USES, text, proved=True)
    done = subprocess.run(["rt", "run"], cwd=folder, stdin=subprocess.DEVNULL, capture_output=True, check=False)
    program = os.path.join(folder, "out", TREE_BENCH)
    if not os.path.exists(program):
        raise Failed("the program is not built: " + (done.stdout + done.stderr).decode(errors="replace")[-2000:])
    return program


def measure_tree(given: Words) -> int:
    """Restores the dump that was loaded, and one with another permission in each list; then edits."""
    files = given.files[-1]
    with tempfile.TemporaryDirectory(prefix="facl-bench.") as room:
        program = build_tree_bench(room)
        write_tree(room, files, given.users)
        text = Path(room, "dump").read_text(encoding="utf-8")
        Path(room, "changed").write_text(re.sub(r"^(user:u\d+:)rw-$", r"\1--x", text, flags=re.M), encoding="utf-8")
        spent([program, "passwd", "group", "dump", "dump", "changed"], room, f"{room}/times")
        printed = re.findall(r"^(.+): (\d+) ns", Path(room, "times").read_text(encoding="utf-8"), re.M)
    times = {name: [int(time) / 1e9 for its, time in printed if its == name] for name in dict(printed)}
    rows = {"load, a file": times["load"][0] / files, "`setfacl -R -m`, a file": times["edit"][0] / files}
    for at, what in enumerate(("that changes nothing", "of changed lists")):
        rows[f"restore {what}, a record"] = times["restore"][at] / files
        rows[f"the text of a restore {what}, a record"] = times["read"][at] / files
    rows.update({f"`{name}`": statistics.median(times[name]) for name in ("creat", "rm", "gpasswd -a", "gpasswd -d")})
    print_table(f"{files:,} files, {given.users:,} users", {"": rows})
    return 0


def measure_commands(given: Words) -> int:
    def taken(words: List[str], folder: str) -> commands.Taken:
        found = spent(words, folder, most_status=1, FACL=given.program, FACL_LINUX=given.program)
        return commands.Taken(found.processor, found.memory)

    return commands.measure(taken, given.files[-1], given.users, given.runs, given.clone)


def measure_grow(given: Words) -> int:
    return grow.measure(given.program, given.runs, given.only)


def measure_real(given: Words) -> int:
    return real.measure(given.program, given.folder, given.files[-1], given.users, given.runs)


def measure_live(given: Words) -> int:
    return live.measure(given.program, given.folder, given.files[-1], given.users, given.runs, given.clone)


def measure_snapshot(given: Words) -> int:
    return live.measure_snapshot(given.program, given.folder, given.files, given.users, given.runs)


class Measurement(NamedTuple):
    """The sizes of a tree and the runs where none are given, and the tools that are needed."""

    measure: Callable[[Words], int]
    files: List[int]
    users: int
    runs: int
    needs: Tuple[str, ...] = ()


MEASUREMENTS = {
    "tools": Measurement(measure_tools, [10_000, 100_000, 1_000_000], 1_000, 3),
    "index": Measurement(measure_index, [100_000], 1_000, 2),
    "limits": Measurement(measure_limits, [1_048_570], 65_536, 1),
    "grow": Measurement(measure_grow, [grow.FILES], grow.MEMBERS_OF_ALL, 2),
    "commands": Measurement(measure_commands, [1_000_000], 1_000, 1),
    "real": Measurement(measure_real, [100_000], 100, 3, ("getfacl", "setfacl")),
    "live": Measurement(measure_live, [100_000], 30, 3, ("getfacl", "setfacl")),
    "snapshot": Measurement(measure_snapshot, [300_000, 1_000_000], 30, 3, ("getfacl",)),
    "tree": Measurement(measure_tree, [100_000], 1_000, 1, ("rt",)),
}


def words() -> Words:
    """The words of the call."""
    options = argparse.ArgumentParser(description=__doc__, formatter_class=argparse.RawDescriptionHelpFormatter)
    options.add_argument("measurement", choices=MEASUREMENTS)
    options.add_argument("program", type=program_at, nargs="?")
    options.add_argument("folder", nargs="?")
    options.add_argument("--files", type=lambda text: [int(number) for number in text.split(",")])
    options.add_argument("--users", type=int)
    options.add_argument("--runs", type=int)
    options.add_argument("--beside", action="append", type=program_at, default=[], metavar="OTHER")
    options.add_argument("--only", type=lambda text: text.split(","), default=[], metavar="RANGE,..")
    options.add_argument("--clone", action="append", default=[], metavar="OTHER")
    given = options.parse_args()
    kind, chosen = given.measurement, MEASUREMENTS[given.measurement]
    given.files = given.files or chosen.files
    given.users, given.runs = given.users or chosen.users, given.runs or chosen.runs
    missing = [tool for tool in chosen.needs if not shutil.which(tool)]
    for is_so, text in (
            (missing, f"not installed: {', '.join(missing)}"),
            ((kind == "tree") == bool(given.program), "a PROGRAM, but for tree"),
            (kind in ("live", "snapshot") and os.geteuid() != 0, "run it as root"),
            (min(given.files) < PER_DIRECTORY + 2 or given.users < 10 or given.runs < 1,
             "FILES from 102 on, USERS from 10 on, RUNS from 1 on"),
            (len(given.files) > 1 and kind not in ("tools", "snapshot"), "several FILES are of `tools` and `snapshot` alone"),
            (given.beside and kind not in BESIDE, "--beside is of tools, index and limits"),
            (kind != "grow" and given.only, "--only is of `grow`"),
            (kind not in ("commands", "live") and given.clone, "--clone is of `commands` and `live`"),
            (not {*given.only} <= {grown.name for grown in grow.RANGES},
             f"RANGE is one of {', '.join(grown.name for grown in grow.RANGES)}")):
        if is_so:
            options.error(f"{kind}: {text}")
    return given


def main() -> int:
    given = words()
    say("load of the machine: %.1f, %.1f and %.1f in the last 1, 5 and 15 minutes" % os.getloadavg())
    return MEASUREMENTS[given.measurement].measure(given)


if __name__ == "__main__":
    run(main)
