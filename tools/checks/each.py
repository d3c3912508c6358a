"""Answers of facl-ask --each over several snapshots beside those of one session over the whole tree.

usage: tools/check.py each PROGRAM [--files N] [--users N] [--parts N] [--index] [--split] [--folder FOLDER] [--record]

The tree is that of tools/lib/texts.py, 50,000 files and 20 users in five snapshots where nothing is given. It prints
the seconds of each answer and the most memory, and compares each answer with that of one session where one takes the
tree. --index asks for the index too, whose lines are files times users. With --split the tree is a real one with lists,
and facl-snapshot --split makes the snapshots; that needs the package acl, and a file system with lists.
It makes a folder of its own in FOLDER (/tmp), and removes it. The exit status is 1 if an answer is another one, a
snapshot has too many files or a command fails, 2 if the words are others.
"""
from __future__ import annotations

import argparse
import contextlib
import filecmp
import itertools
import os
import resource
import shutil
import subprocess
import tempfile
import time
from typing import List

from lib.script import TOP, Failed
from lib.session import conclude, options_of
from lib.texts import write_tree

QUESTIONS = (b"may u3 w\n", b"may --reach u5 r\n", b"who r d00001/f001\n", b"can u1 d00000/f000\n",
             b"getfacl -R d00002\n", b"why --reach u1 d00000/f000\n", b"gpasswd -a u9 g0\nmay u9 r\nchanges --reach\n",
             b"setfacl -m u:u7:rwx d00003/f001\nwho w d00003/f001\nchanges\n", b"below r .\n",
             b"below --reach w d00000 d00001/f001 d00002\n", b"chmod -R 750 d00001\ngains\ngains --reach\n")
ELSE = b"everybody else"  # No file or user is named so.
OF_REAL_TREE = b"""index\ngetfacl -R .\nmay --reach nobody r\nmay --reach nobody 0\nwho x .\nbelow --reach r .
getfacl -R -n -s .\ngpasswd -a nobody root\nindex\n"""


def cut(whole: str, parts: int, files: int) -> List[str]:
    """Cuts a made snapshot at its directories; the root is in each part."""
    folders: List[str] = []
    with contextlib.ExitStack() as opened, open(os.path.join(whole, "dump"), "rb") as dump:
        root = b"".join(itertools.takewhile(lambda line: line != b"\n", dump)) + b"\n"
        written = 0
        for line in dump:
            if line.startswith(b"# file: "):
                if line.endswith(b"/\n") and written * parts >= files * len(folders):
                    folders.append(os.path.join(os.path.dirname(whole), "part%d" % len(folders)))
                    shutil.copytree(whole, folders[-1], ignore=shutil.ignore_patterns("dump"))
                    out = opened.enter_context(open(os.path.join(folders[-1], "dump"), "wb"))
                    out.write(root)
                written += 1
            out.write(line)
    return folders


def command(words: List[str], script: bytes = b"", out: str = os.devnull) -> float:
    """Runs one of the commands with its output in a file; returns the seconds."""
    start = time.monotonic()
    with open(out, "wb") as file:
        path = os.path.join(TOP, "commands", words[0])
        done = subprocess.run([path, *words[1:]], input=script, stdout=file, stderr=subprocess.PIPE, check=False)
    if done.returncode != 0:
        raise Failed(f"{words[0]}: status {done.returncode}: {done.stderr!r}")
    return time.monotonic() - start


def leave_else_out(name: str) -> None:
    """Takes the lines about everybody else, whom the program alone does not have, out of answers."""
    with open(name, "rb") as file, open(name + ".users", "wb") as kept:
        kept.writelines(line for line in file if ELSE not in line)
    os.replace(name + ".users", name)


def measure(given: argparse.Namespace, work: str) -> List[bool]:
    """Asks over snapshots of a made tree; returns for each answer whether it is that of one session."""
    whole, joined, one = (os.path.join(work, name) for name in ("whole", "joined", "one"))
    os.mkdir(whole)
    write_tree(whole, given.files, given.users)
    folders = cut(whole, given.parts, given.files)
    print(f"{given.files} files, {given.users} users, {len(folders)} snapshots", flush=True)
    same = []
    for script in QUESTIONS + (b"index\n",) * given.index:
        seconds = command(["facl-ask", "--each", *folders], script, joined)
        text = f"{script.decode()!r:55} {seconds:7.1f} s, {os.path.getsize(joined)} bytes"
        if given.files <= 1_048_576:
            alone = command(["facl-ask", whole], script, one)
            leave_else_out(joined)
            same.append(filecmp.cmp(joined, one, shallow=False))
            text += f", {'' if same[-1] else 'NOT '}equal to one session's, which took {alone:.1f} s"
        print(text, flush=True)
    print(f"the greatest process had {resource.getrusage(resource.RUSAGE_CHILDREN).ru_maxrss >> 10} MB")
    return same


def make_real_tree(top: str) -> None:
    """Folders of files whose lists differ, with names that have to be quoted."""
    listed = ["a", "a/b/c", "a b", "d/e", 'f "g']
    for folder in [*listed, "a-b"]:
        os.makedirs(os.path.join(top, folder), exist_ok=True)
    for folder, number in itertools.product(listed, range(1, 10)):
        os.mknod(path := os.path.join(top, folder, str(number)))
        os.chmod(path, 0o600 + 8 * (number % 8) + number % 5)
    os.mknod(os.path.join(top, "d/x\ny\\z"), 0o644)
    named = [folder + name for folder in listed for name in ("/1", "/2")]
    subprocess.run(["setfacl", "-m", "u:nobody:r,g:%d:x" % os.getgid(), *named], cwd=top, check=True)
    subprocess.run(["setfacl", "-m", "d:u:nobody:rx,u:nobody:rx", "a", "d"], cwd=top, check=True)
    os.chmod(os.path.join(top, "d/e"), 0o710)


def split(_: argparse.Namespace, work: str) -> List[bool]:
    """The same of a real tree, by OF_REAL_TREE."""
    if missing := [tool for tool in ("setfacl", "getfacl") if not shutil.which(tool)]:
        raise Failed(f"{missing[0]} is not installed")
    tree, one, parts, whole, joined = (os.path.join(work, name) for name in ("tree", "one", "parts", "whole", "joined"))
    make_real_tree(tree)
    command(["facl-snapshot", one, tree])
    command(["facl-ask", one], OF_REAL_TREE, whole)
    above, same = os.path.realpath(work).count("/"), []
    for count in (above + 10, above + 25, 1000):
        command(["facl-snapshot", "--split", str(count), parts, tree])
        folders = sorted(entry.path for entry in os.scandir(parts))
        command(["facl-ask", "--with-root", "--each", *folders], OF_REAL_TREE, joined)
        leave_else_out(joined)
        same.append(filecmp.cmp(joined, whole, shallow=False))
        for folder in folders:
            with open(os.path.join(folder, "dump"), "rb") as dump:
                if sum(line.startswith(b"# file: ") for line in dump) > count:
                    raise Failed(f"{folder}: more than {count} files")
        print(f"at most {count} files: {len(folders)} snapshots")
    return same


def main() -> int:
    options = options_of(__doc__, files=50_000, users=20, parts=5)
    options.add_argument("--index", action="store_true")
    options.add_argument("--split", action="store_true")
    options.add_argument("--folder", default="/tmp")
    given = options.parse_args()
    os.environ.update(FACL=given.program, FACL_LINUX=given.program)
    with tempfile.TemporaryDirectory(prefix="facl-each.", dir=given.folder) as work:
        same = (split if given.split else measure)(given, work)
    amount = f"{len(same)} answers over {'a real tree' if given.split else f'{given.files} files'}"
    return conclude(given, amount, [f"{same.count(False)} are not those of one session"] * (not all(same)))
