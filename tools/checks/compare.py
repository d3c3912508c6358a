"""Runs random lines with the real tools over real files, and with the program over a dump of them, and compares.

usage: tools/check.py compare PROGRAM [--folder FOLDER] [--sessions N] [--lines N] [--seed N] [--verbose] [--record]

Compared after each of the --lines (40) of each of the --sessions (10), byte for byte: the listing of all files
(`getfacl -R -n .`), and what getfacl, `chacl -l` and attr print; and whether the line was accepted. What `can` prints
is compared with what the kernel grants to that user. The real tools are given the files of a line in path order, each
once, as the program treats them; a directory that nothing else shows to be one is given with a final `/`. It needs the
Debian package acl, for attr and setattr the package attr, the users root, daemon, bin and games, and root: else files
are made for one user alone, and owners are not restored. The trees are made in FOLDER ($TMPDIR, or /tmp), whose file
system has to take lists. --verbose prints each line with what became of it.

What is not compared, since the program does otherwise (NOTES of docs/facl.1 has the lines):
- which of several faults is reported, and in which words;
- what a refused line changed: the real tools go file by file, and the program acts on all files or on none. The real
  tree is then rebuilt from the program's listing, which tests the way back;
- the order of options: lines give them in the program's (-d -n --mask first, then -b -k, then -x, then -m);
- what `setfacl --test` prints (its layout is the program's own); that it changes nothing is compared;
- the superuser's rights, who is a user as any other for the program;
- names with a backslash, symbolic links, -L and -P, an option given twice;
- lists of chacl with permissions as a digit or a bare user name, and -r beside a flag, which chacl(1) does not take;
- a record for --restore that lacks a mask or base entries of a default list, or has a key twice, which the real tool
  mends; --test with --restore, where the real tool sets flags;
- white space before a comment in a text of -X, where the real tool takes it for a part of the name.

Other lines that the real tools treat in another way are left out and counted, with the reason. The exit status is 1
if something differs, 2 if the words are others.
"""
from __future__ import annotations

import argparse
import os
import pty
import shutil
import subprocess
import tempfile
import tty
from typing import Counter, Dict, List, NamedTuple, Optional, Sequence, Tuple

from lib.compare_lines import START, TOOLS, Line, Lines, Records, Word, components
from lib.script import Failed
from lib.session import KeptSession, conclude, has_tool, options_of, write_system_people, write_text

# What the program always refuses, and the real tool takes where it can.
REFUSED_BY_THE_PROGRAM = {
    b"both removed and modified\n": "a key that is both removed and modified, which the real tool does in turn",
    b"base entry cannot be removed\n": "a base entry removed, which the real tool takes where a list goes or is mended",
}
LISTING = b"getfacl -R -n .\n"


class Outcome(NamedTuple):
    """What a real tool ends with and prints."""

    status: int
    out: bytes
    faults: bytes


class Tree:
    """A real tree."""

    def __init__(self, folder: str, listing: bytes) -> None:
        self.top = os.path.join(folder.encode(), b"tree")
        self.rebuild(listing)

    def rebuild(self, listing: bytes) -> None:
        """Makes the tree of a listing."""
        shutil.rmtree(self.top, ignore_errors=True)
        os.mkdir(self.top)
        records = Records(listing)
        for path in records.paths():
            if not records.is_directory(path):
                os.mknod(os.path.join(self.top, path), 0o644)
            elif path != b".":
                os.mkdir(os.path.join(self.top, path))
        done = self.run(["setfacl", "--restore=-"], listing)
        if done.status != 0:
            raise Failed(f"setfacl --restore: {done.faults.decode()}")
        # Where a list grants nothing at all and a flag is set, setfacl(1) restores the permissions that the file had.
        for path in records.paths():
            if records.grants_nothing(path) and b"\n# flags: " in records.of[path][0]:
                os.chmod(os.path.join(self.top, path), records.flags(path))

    def run(self, words: Sequence[Word], text: Optional[bytes] = None) -> Outcome:
        if words[0] == "getfacl":
            return self.run_at_terminal(words)
        done = subprocess.run(words, input=text or b"", cwd=self.top, capture_output=True, check=False)
        return Outcome(done.returncode, done.stdout, done.stderr)

    def run_at_terminal(self, words: Sequence[Word]) -> Outcome:
        """Runs a tool at a terminal: only there getfacl(1) puts tabs before `#effective:` as columns ask."""
        master, slave = pty.openpty()
        tty.setraw(slave)
        with subprocess.Popen(words, stdin=subprocess.DEVNULL, stdout=slave, stderr=-1, cwd=self.top) as tool:
            os.close(slave)
            printed = []
            while True:
                try:
                    printed.append(os.read(master, 65536))
                except OSError:  # The other side is closed.
                    os.close(master)
                    assert tool.stderr
                    return Outcome(tool.wait(), b"".join(printed), tool.stderr.read())

    def paths(self) -> List[bytes]:
        found = [b"."]
        for place, folders, files in os.walk(self.top):
            found += [os.path.relpath(os.path.join(place, name), self.top) for name in folders + files]
        return sorted(found, key=components)

    def listing(self) -> bytes:
        """What `getfacl -R -n .` prints, in path order, with a final `/` where the program writes it."""
        paths = self.paths()
        printed = self.run(["getfacl", "-n", "--", *paths]).out
        written = []
        for path, record in zip(paths, printed.split(b"\n\n")):
            below = any(other.startswith(path + b"/") for other in paths)
            is_directory = os.path.isdir(os.path.join(self.top, path))
            slash = is_directory and path != b"." and not below and b"\ndefault:" not in record
            written.append(record.replace(b"\n", b"/\n" if slash else b"\n", 1) + b"\n\n")
        return b"".join(written)


def changed(old: bytes, new: bytes) -> str:
    """The records that differ."""
    was, became = Records(old).of, Records(new).of
    found = [record for path, (record, _) in became.items() if path not in was or was[path][0] != record]
    found += [b"no " + path for path in was if path not in became]
    return b"; ".join(it.replace(b"\n", b" | ") for it in found).decode()


class Comparison:
    """Sessions beside the real tools, and what came of their lines."""

    def __init__(self, program: str, is_verbose: bool) -> None:
        self.program, self.is_verbose = program, is_verbose
        self.counts: Counter[str] = Counter()
        self.skipped: Counter[str] = Counter()

    def report(self, line: Line, before: bytes, what: str, real: str, mine: str) -> None:
        self.counts["differ"] += 1
        print(f"\nDIFFERS, {what}: {line.written().decode()}")
        if line.text is not None:
            print("  text: " + line.text.decode().replace("\n", "\n        "))
        for path, (record, _) in Records(before).of.items():
            if path in b" ".join(line.words) or b"-R" in line.words or b"-r" in line.words:
                print("  before: " + record.decode().replace("\n", " | "))
        print(f"  real tool: {real}\n  program:   {mine}", flush=True)

    def step(self, facl: KeptSession, tree: Tree, line: Line, before: bytes) -> bytes:
        """Runs a line; returns the listing after it."""
        printed, messages = facl.answer([line.written() + b"\n" + (b"" if line.text is None else line.text + b".\n")])
        done = tree.run(line.real, line.text)
        (mine, _), real = facl.answer([LISTING]), tree.listing()
        is_refused = any(b": warning: " not in it for it in messages)
        real_refuses = done.status != 0 or line.words[0] == b"setfacl" and done.faults != b""
        by_intent = [why for text, why in REFUSED_BY_THE_PROGRAM.items() if b"".join(messages[:1]).endswith(text)]
        kind, difference = "refused" if is_refused else "accepted", None
        if by_intent and not real_refuses:
            self.skipped[by_intent[0]] += 1
        elif is_refused != real_refuses and b"--test" not in line.words:
            real_said = f"status {done.status}, {done.faults.decode(errors='replace')!r}"
            difference = "accepted by one alone", real_said, b"".join(messages).decode().strip() or "accepted"
        elif line.compared and not is_refused and done.out != printed:
            difference = "output", repr(done.out.decode()), repr(printed.decode())
        elif not is_refused and real != mine:
            difference = "listing", changed(mine, real), changed(real, mine)
        elif is_refused and mine != before:
            difference = "a refused line changed files", changed(mine, before), changed(before, mine)
        else:
            self.counts[kind] += 1
            self.counts["in part"] += is_refused and real != before
        if difference:
            kind = difference[0]
            self.report(line, before, *difference)
        if self.is_verbose:
            print(f"{line.written().decode()}: {kind}")
        if real != mine:
            tree.rebuild(mine)
            if tree.listing() != mine:
                self.report(line, before, "the listing restored", changed(mine, tree.listing()), "")
        return mine

    def session(self, lines: Lines, folder: str, tools: List[str], count: int) -> None:
        tree = Tree(folder, START)
        with KeptSession(self.program, folder) as facl:
            listing, _ = facl.answer([LISTING])
            if tree.listing() != listing:
                self.report(Line(["load"], []), listing, "the first tree", tree.listing().decode(), listing.decode())
            for _ in range(count):
                line = lines.line(Records(listing), tools)
                if line.skip:
                    self.skipped[line.skip] += 1
                else:
                    listing = self.step(facl, tree, line, listing)


def served(program: str) -> Tuple[List[str], Dict[str, str]]:
    """The tools that are compared, and of the others why they are left out."""
    missing = {}
    for tool in TOOLS:
        real = {"attr": "getfattr", "setattr": "setfattr", "creat": "sh", "can": "sh"}.get(tool, tool)
        if not has_tool(program, tool):
            missing[tool] = "not served by the program"
        elif not shutil.which(real):
            missing[tool] = f"{real} is not installed"
        elif tool == "can" and os.geteuid() != 0:
            missing[tool] = "only root may ask the kernel as other users"
    return [tool for tool in TOOLS if tool not in missing], missing


def compare(given: argparse.Namespace, folder: str) -> int:
    os.umask(0o22)
    if subprocess.run(["setfacl", "-m", "u:1:r", folder], capture_output=True, check=False).returncode != 0:
        raise Failed(f"{folder} takes no lists: give another --folder")
    write_system_people(folder)
    write_text(folder, "dump", [START])
    tools, missing = served(given.program)
    comparison = Comparison(given.program, given.verbose)
    for k in range(given.sessions):
        comparison.session(Lines(given.seed * 1000 + k, os.geteuid() == 0), folder, tools, given.lines)
    for why, times in comparison.skipped.items():
        print(f"left out {times} times: {why}")
    for tool, why in missing.items():
        print(f"left out: {tool}, {why}")
    counts = comparison.counts
    amount = f"{given.sessions} sessions of {given.lines} lines, seed {given.seed}, tools {' '.join(tools)}: "
    amount += f"{counts['accepted']} lines accepted by both with the same listing of all files after each, "
    amount += f"{counts['refused']} refused by both ({counts['in part']} of them done in part by the real tool)"
    return conclude(given, amount, [f"{counts['differ']} differ"] * (counts["differ"] > 0))


def main() -> int:
    options = options_of(__doc__, sessions=10, lines=40, seed=1)
    options.add_argument("--folder")
    options.add_argument("--verbose", action="store_true")
    given = options.parse_args()
    if not (shutil.which("getfacl") and shutil.which("setfacl")):
        raise Failed("getfacl and setfacl are not installed (Debian package acl)")
    with tempfile.TemporaryDirectory(prefix="facl-compare.", dir=given.folder) as folder:
        return compare(given, folder)
