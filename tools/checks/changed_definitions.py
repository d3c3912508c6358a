"""Changes the code in the way that a wrong reading of a manual page would, and shows whether a test notices.

usage: tools/check.py changed_definitions [--list] [--jobs N] [--count N] [--record] [WORD]..

A definition that contracts name and the code that equals it, changed alike, pass every proof: only a test notices. So
each change of changed_definitions.txt is made in a copy of the repository, of the code alone, and the tests of the
crates that TESTS names for its crate are run without a proof (`rt try --test`), then the scripts of commands/tests/rows
(tools/try_rows.py) and the tests of facl_tests, until one fails. For each change it prints `seen`, `not seen`, or
`no answer` where a test was not over in time or the code was not compiled. Only the changes whose crate or description
contains one of the words are made, or all; of these, with --count, N that are spread evenly; N at a time (--jobs), in a
copy each. A change takes a minute of processor time or more, since all crates are compiled for it. --list prints the
changes, with those that are not to be made any more: their old text has to be once in their file. The exit status is 1
if one was not seen, or is not to be made any more, 2 if the words are others.
"""
from __future__ import annotations

import argparse
import os
import queue
import shutil
import subprocess
import sys
import tempfile
import threading
from concurrent.futures import ThreadPoolExecutor
from pathlib import Path
from typing import Counter, Dict, List

from lib.script import TOP, Failed
from lib.session import conclude

SECONDS = "300"
# The crates whose tests are run first for a change in a crate; then come the rows of scripts, and the tests of the whole.
TESTS: Dict[str, List[str]] = {
    "acl_entry": ["lists_tests"], "acl_edit": ["lists_tests"],
    "acl_names": ["path_map_tests", "acl_text_tests", "acl_tree_tests"],
    "path_map": ["path_map_tests", "acl_tree_tests"], "kinds": ["path_map_tests"],
    "acl_text": ["acl_text_tests"],
    "acl_people": ["acl_people_tests", "acl_tree_tests"],
    "acl_tree": ["acl_tree_tests"],
    "path_classes": ["acl_rights_tests"], "acl_rights": ["acl_rights_tests"],
    "facl_script": ["facl_script_tests"], "facl_output": ["facl_output_tests"],
    "facl_answers": ["acl_rights_tests"], "facl_counts": ["acl_rights_tests"],
}
ROWS = "rows"
OF_ALL = [ROWS, "facl_tests"]


class Change:
    """One change of one file."""

    def __init__(self, crate: str, file: str, name: str) -> None:
        self.crate, self.name = crate, f"{crate}: {name}"
        self.file = os.path.join("crates", crate, "src", file)
        self.old: List[str] = []
        self.new: List[str] = []

    def fault(self) -> str:
        """Why the change cannot be made, if it cannot."""
        if not os.path.exists(os.path.join(TOP, self.file)):
            return f"no {self.file}"
        times = Path(TOP, self.file).read_text("utf-8").count("\n".join(self.old))
        return "" if times == 1 else f"its old text is {times} times in {self.file}"

    def make(self, top: str) -> None:
        """Makes the change in a copy of the repository."""
        text = Path(TOP, self.file).read_text("utf-8").replace("\n".join(self.old), "\n".join(self.new))
        Path(top, self.file).write_text(text, "utf-8")


def read_changes() -> List[Change]:
    """The changes of changed_definitions.txt.

    A line `= CRATE FILE` begins the changes of a file. A change has a line `# DESCRIPTION`, the lines of its old text,
    which is once in the file, each after a `-`, and those of the new text, each after a `+`.
    """
    found: List[Change] = []
    crate = file = ""
    for line in Path(TOP, "tools", "checks", "changed_definitions.txt").read_text("utf-8").splitlines():
        sign, rest = line[:1], line[1:]
        if sign == "=":
            crate, file = rest.split()
        elif sign == "#":
            found.append(Change(crate, file, rest.strip()))
        elif sign in ("-", "+"):
            (found[-1].old if sign == "-" else found[-1].new).append(rest)
    return found


def has_failed(tests: str) -> bool:
    """Whether a test failed, and not only since its time was over."""
    parts = ("\n" + tests).split("\ntest ")
    return any(part.partition("\n")[0].endswith("FAILED") and "no-answer" not in part for part in parts)


class Trial:
    """Changes that are tried side by side, in a copy of the repository each."""

    def __init__(self, folder: str, jobs: int) -> None:
        self.copies: queue.Queue[str] = queue.Queue()
        for number in range(jobs):
            self.copies.put(os.path.join(folder, str(number)))
            shutil.copytree(TOP, os.path.join(folder, str(number)), ignore=shutil.ignore_patterns("out", ".git"))
        self.lock = threading.Lock()
        self.running: List[subprocess.Popen[str]] = []
        self.is_over = False

    def tests_of(self, crate: str, top: str) -> str:
        """What the tests of a crate show, or the rows; no answer where the trial was interrupted."""
        words, folder = ["rt", "try", "--test", "--seconds", SECONDS], os.path.join(top, "crates", crate)
        if crate == ROWS:
            words, folder = [sys.executable, "-B", os.path.join(top, "tools", "try_rows.py"), "--seconds", SECONDS], top
        with self.lock:
            if self.is_over:
                return "no answer"
            tests = subprocess.Popen(words, cwd=folder, stdin=subprocess.DEVNULL, stdout=subprocess.PIPE,
                                     stderr=subprocess.STDOUT, text=True)
            self.running.append(tests)
        printed, _ = tests.communicate()
        with self.lock:
            self.running.remove(tests)
        if has_failed(printed):
            return "seen"
        return "not seen" if "test result: ok" in printed else "no answer"

    def answer(self, change: Change) -> str:
        """What the tests show of the change: `seen` where one failed, else `no answer` where one was not over."""
        top, found = self.copies.get(), set()
        change.make(top)
        for crate in TESTS.get(change.crate, []) + OF_ALL:
            found.add(self.tests_of(crate, top))
            if "seen" in found:
                break
        shutil.copy(os.path.join(TOP, change.file), os.path.join(top, change.file))
        self.copies.put(top)
        return next(answer for answer in ("seen", "no answer", "not seen") if answer in found)

    def stop(self) -> None:
        """Ends the tests that run."""
        with self.lock:
            self.is_over = True
            for tests in self.running:
                tests.terminate()


def tried(changes: List[Change], jobs: int) -> Counter[str]:
    """Tries changes; returns how many have each answer."""
    counts: Counter[str] = Counter()
    with tempfile.TemporaryDirectory(prefix="facl-changed.") as folder, ThreadPoolExecutor(jobs) as pool:
        trial = Trial(folder, jobs)
        try:
            for change, found in zip(changes, pool.map(trial.answer, changes)):
                counts[found] += 1
                print(f"{found}: {change.name}", flush=True)
        finally:
            trial.stop()
            pool.shutdown(cancel_futures=True)
    return counts


def read_words() -> argparse.Namespace:
    options = argparse.ArgumentParser(description=__doc__, formatter_class=argparse.RawDescriptionHelpFormatter)
    for name in ("--list", "--record"):
        options.add_argument(name, action="store_true")
    options.add_argument("--jobs", type=int, default=1)
    options.add_argument("--count", type=int)
    options.add_argument("words", nargs="*", metavar="WORD")
    return options.parse_args()


def main() -> int:
    given = read_words()
    changes = [it for it in read_changes() if not given.words or any(word in it.name for word in given.words)]
    if given.count:
        changes = changes[:: max(1, len(changes) // given.count)][: given.count]
    faults = [f"{it.name}: {it.fault()}" for it in changes if it.fault()]
    if given.list:
        for change in changes:
            print(change.name + (f" ({change.fault()})" if change.fault() else ""))
        return 1 if faults else 0
    if faults:
        raise Failed("; ".join(faults))
    counts = tried(changes, given.jobs)
    unseen = [f"{number} {found}" for found, number in sorted(counts.items()) if found != "seen"]
    return conclude(given, f"{len(changes)} changes", unseen)
