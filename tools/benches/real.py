"""The program beside the real tools, by the same lines but one: a call over all files, or a call a file."""
from __future__ import annotations

import os
import re
import tempfile
from typing import List, Optional

from lib.session import MeasuredSession, best_of, first_records
from lib.texts import write_tree
from .sessions import MAX_RESTORED, Figures, Tree, print_table
from .spending import spent

OVER_ALL = ("getfacl -R -n", "chmod -R 750", "setfacl -R -m u:1001:rX")
# `touch` is beside `creat`.
EACH = {"setfacl -m u:1001:rwx": "", "chmod 640": "", "touch": "creat --user=u1 --mode=640", "rm": ""}
RESTORE = "setfacl --restore"
AIMS_OF_REAL = {"setfacl -R -m u:1001:rX": "6 times", RESTORE: "8 times", "load": "2.5 us"}


def make_files(folder: str) -> None:
    """The real files of a dump, and the dump with ids, since the system knows no such users, and without owners, whom
    only root may set."""
    os.mkdir(f"{folder}/tree")
    with open(f"{folder}/dump", encoding="utf-8") as dump, open(f"{folder}/restored", "w", encoding="utf-8") as out:
        for line in dump:
            path = line[len("# file: ") : -1] if line.startswith("# file: ") else ""
            if path.endswith("/"):
                os.mkdir(f"{folder}/tree/{path}")
            elif path not in ("", "."):
                open(f"{folder}/tree/{path}", "wb").close()
            if not line.startswith(("# owner: ", "# group: ")):
                out.write(re.sub(r"(user|group):[ug](\d+):", lambda it: f"{it[1]}:{1000 + int(it[2])}:", line))


def operands(tree: Tree, line: str) -> List[str]:
    """The files that the calls of a line name, in path order; `touch` and `rm` name new ones."""
    return [f"{it}.{k}" if line in ("touch", "rm") else it for k, it in enumerate(sorted(tree.some()))]


def real_times(tree: Tree) -> Figures:
    """What the real tools take, a file."""
    top = f"{tree.folder}/tree"
    found = {line: spent([*line.split(), "."], top).processor / tree.files for line in OVER_ALL}
    found[RESTORE] = spent(["setfacl", "--restore=../restored"], top).processor / tree.files
    for line in EACH:
        found[line] = sum(spent([*line.split(), it], top).processor for it in operands(tree, line)) / tree.named
    return found


def our_times(program: str, tree: Tree) -> Figures:
    """The same of the program, and what a load takes, a file."""
    records = min(tree.files, MAX_RESTORED)
    with MeasuredSession(program, tree.folder) as session:
        found = {"load": session.load / tree.files}
        found.update({line: session.answer([line + " ."]) / tree.files for line in OVER_ALL})
        found[RESTORE] = session.answer(["setfacl --restore=-", *first_records(tree.folder, records), "."]) / records
        for line, ours in EACH.items():
            found[line] = session.answer([f"{ours or line} {it}" for it in operands(tree, line)]) / tree.named
        session.end()
    return found


def measure(program: str, place: Optional[str], files: int, users: int, runs: int) -> int:
    with tempfile.TemporaryDirectory(prefix="facl-bench.", dir=place) as folder:
        tree = Tree(folder, files, users, 1_000, 0)
        write_tree(folder, tree.files, tree.users)
        make_files(folder)
        ours = best_of([our_times(program, tree) for _ in range(runs)])
        real = best_of([real_times(tree) for _ in range(runs)])
    quicker = {line: f"{seconds / ours[line]:.1f}" for line, seconds in real.items()}
    print_table(f"{tree.files:,} files, {tree.users:,} users, a file", {
        "real tool": real, "the program": ours, "times quicker": quicker, "aimed at": AIMS_OF_REAL})
    return 0
