"""The commands for live systems beside getfacl and setfacl, on a tree that is made."""
from __future__ import annotations

import os
import statistics
import tempfile
from typing import Dict, List, Optional, Sequence

from lib.script import TOP, WITH_PEOPLE, say
from lib.texts import attribute
from .sessions import print_table
from .spending import Spent, spent

FIRST_ID = 70_000  # Of the users, each of whom has a group of the same id, and of guest, who is the first.
MODES = (0o600, 0o640, 0o644, 0o755)
SYSTEM_TOOLS = ("getfacl -R -n", "setfacl --restore")
OF_SNAPSHOT = ("getfacl -R -n", "facl-snapshot")


def write_people(folder: str, users: int) -> None:
    """Users and groups, of whom no account is made."""
    names, ids = ["guest", *(f"u{k}" for k in range(1, users))], [f"{FIRST_ID + k}" for k in range(users)]
    texts = {"passwd": "".join(f"{name}:x:{it}:{it}::/:/bin/sh\n" for name, it in zip(names, ids)),
             "group": "".join(f"g{k}:x:{it}:{names[k // 2]}\n" for k, it in enumerate(ids)),
             "edits": f"setfacl -R -m u:guest:rX {folder}/srv\n"}
    for name, text in texts.items():
        with open(f"{folder}/{name}", "w", encoding="utf-8") as out:
            out.write(text)


def make_tree(folder: str, files: int, users: int) -> None:
    """Directories of a thousand files, which are of all users but guest; every tenth file has a named user."""
    os.mkdir(f"{folder}/srv", 0o755)
    for number in range(files):
        directory, place = divmod(number, 1_000)
        if place == 0:
            os.mkdir(f"{folder}/srv/d{directory:04}", 0o755)
        name = f"{folder}/srv/d{directory:04}/file{place:03}"
        os.close(os.open(name, os.O_CREAT | os.O_EXCL | os.O_WRONLY, 0o600))
        owner = FIRST_ID + 1 + number % (users - 1)
        os.chown(name, owner, owner)
        os.chmod(name, MODES[number % len(MODES)])
        if number % 10 == 0:
            named = attribute(5, FIRST_ID + 1 + number // 10 % (users - 1))
            os.setxattr(name, "system.posix_acl_access", bytes.fromhex(named))


def steps_of(folder: str, plan: str, snapshot: str) -> Dict[str, List[str]]:
    """The steps of a run, in their order."""
    return {
        "getfacl -R -n": ["getfacl", "-R", "-n", "-p", f"{folder}/srv"],
        "setfacl --restore": ["setfacl", "--restore=records"],
        "facl-snapshot": [WITH_PEOPLE, folder, "facl-snapshot", snapshot, f"{folder}/srv"],
        "facl-plan": ["facl-plan", "--plan", plan, snapshot, "edits"],
        "facl-plan --file-alone": ["facl-plan", "--file-alone", "--plan", plan + ".alone", snapshot, "edits"],
        "facl-apply": ["facl-apply", plan],
        "facl-apply --undo": ["facl-apply", "--undo", plan],
    }


def run_steps(program: str, folder: str, number: int, names: Sequence[str], clones: Sequence[str]) -> Dict[str, Spent]:
    """Runs the steps of these names, or all of them; those of facl also by the commands of other clones."""
    found = {}
    for place, clone in enumerate(("", *clones)):
        path = f"{folder}:{os.path.join(os.path.abspath(clone or TOP), 'commands')}:{os.environ['PATH']}"
        for name, words in steps_of(folder, f"plan{number}.{place}", f"before.{place}").items():
            if names and name not in names or place and name in SYSTEM_TOOLS:
                continue
            output, row = f"{folder}/records" if name == SYSTEM_TOOLS[0] else os.devnull, f"{clone}: {name}" if clone else name
            its = found[row] = spent(words, folder, output, PATH=path, FACL=program, FACL_LINUX=program)
            say(f"run {number}: {row}: {its.seconds:.2f} s, {its.processor:.2f} of processor; load {os.getloadavg()[0]:.1f}")
    return found


def runs_of(program: str, place: Optional[str], files: int, users: int, runs: int, names: Sequence[str] = (),
            clones: Sequence[str] = ()) -> Dict[str, List[Spent]]:
    """Makes a tree, and runs the steps on it; what each took."""
    with tempfile.TemporaryDirectory(prefix="facl-bench.", dir=place) as folder:
        os.chmod(folder, 0o755)
        write_people(folder, users)
        make_tree(folder, files, users)
        say(f"{files:,} files are made")
        found = [run_steps(program, folder, number, names, clones) for number in range(runs)]
    return {name: [run[name] for run in found] for name in found[0]}


def columns_of(found: Dict[str, List[Spent]], title: str = "") -> Dict[str, Dict[str, str]]:
    """The medians of times, and the most memory."""
    return {
        title + "seconds": {name: f"{statistics.median(it.seconds for it in its):.2f}" for name, its in found.items()},
        title + "processor": {name: f"{statistics.median(it.processor for it in its):.2f}" for name, its in found.items()},
        title + "MiB": {name: f"{max(it.memory for it in its) / (1 << 20):,.0f}" for name, its in found.items()}}


def measure(program: str, place: Optional[str], files: int, users: int, runs: int, clones: Sequence[str]) -> int:
    """Measures the way to the live system and back."""
    found = runs_of(program, place, files, users, runs, clones=clones)
    spent_of = {name: statistics.median(it.processor for it in its) for name, its in found.items()}
    both = sum(spent_of[name] for name in SYSTEM_TOOLS)
    times = {name: f"{it / both:.1f}" for name, it in spent_of.items()}
    print_table(f"{files:,} files, {users} users", {**columns_of(found), "processor, times the system's tools": times})
    return 0


def measure_snapshot(program: str, place: Optional[str], sizes: Sequence[int], users: int, runs: int) -> int:
    """Measures facl-snapshot on trees of several sizes."""
    columns: Dict[str, Dict[str, str]] = {}
    for files in sizes:
        columns.update(columns_of(runs_of(program, place, files, users, runs, OF_SNAPSHOT), f"{files:,} files: "))
    print_table(f"{users} users", columns)
    return 0
