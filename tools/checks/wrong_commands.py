"""Has a test of the commands fail for each edit of commands/tests/wrong/.

usage: tools/check.py wrong_commands [WORD]..

An edit (tools/lib/command_edits.py) is made in a copy of commands/. The tests that are named have to pass there before, and to
fail with their edit, since something is found and not since the file is no Python any more. Those whose names contain one of the
words are tried, or all; as root, since some tests need other users, by the programs of $FACL and $FACL_LINUX.

Prints a line for each; the last one is `N passed, M failed`. An edit whose test is left out here, as where a package that it needs is
not installed, is left out too. The exit status is 1 if one failed, or the tests do not pass without an edit.
"""
from __future__ import annotations

import argparse
import glob
import os
import re
import shutil
import subprocess
import sys
import tempfile
from typing import Iterator, List, NamedTuple

from lib import command_edits, script
from lib.command_edits import WrongEdit
from lib.wrong_bodies import Fault

COMMANDS = os.path.join(script.TOP, "commands")
BESIDE = ("docs", "demo")  # What tests of the commands read beside them.
SECONDS = 300
NO_PYTHON = re.compile(r"\b(?:Syntax|Indentation|Import|ModuleNotFound|Name)Error\b")


def read_edits(words: List[str]) -> List[WrongEdit]:
    """The edits whose names contain one of the words, or all."""
    found = []
    for path in sorted(glob.glob(os.path.join(COMMANDS, "tests", "wrong", "*.edit"))):
        try:
            found.append(command_edits.read(path))
        except Fault as fault:
            raise script.Failed(f"{os.path.basename(path)}: {fault}") from fault
    return [it for it in found if not words or any(word in it.name for word in words)]


class Outcome(NamedTuple):
    """Whether tests failed, whether one of them was left out, and what was said of them."""

    is_failure: bool
    is_partial: bool
    said: str


def outcome_of(commands: str, tests: List[str]) -> Outcome:
    """Runs tests of a copy of commands/."""
    words = [sys.executable, "-B", "-m", "unittest", *tests]
    try:
        done = subprocess.run(words, cwd=os.path.join(commands, "tests"), stdout=subprocess.DEVNULL, stderr=subprocess.PIPE,
                              timeout=SECONDS, check=False)
    except subprocess.TimeoutExpired:
        return Outcome(True, False, f"not over in {SECONDS} seconds")
    said = done.stderr.decode("utf-8", "replace")
    return Outcome(done.returncode != 0, "skipped=" in said, said)


def put(path: str, text: str) -> None:
    with open(path, "w", encoding="utf-8") as file:
        file.write(text)


def verdict(commands: str, edit: WrongEdit) -> str:
    """Makes an edit, runs its test, and takes the edit back."""
    path = os.path.join(commands, edit.file)
    put(path, edit.after)
    found = outcome_of(commands, [edit.test])
    put(path, edit.before)
    return "PASSES" if not found.is_failure else "NO PYTHON" if NO_PYTHON.search(found.said) else "fails"


def to_try(commands: str, edits: List[WrongEdit]) -> Iterator[WrongEdit]:
    """The edits whose tests are run here, all of which pass without an edit."""
    tests = sorted({it.test for it in edits})
    found = outcome_of(commands, tests)
    if found.is_failure:
        raise script.Failed(f"the tests that are named do not pass without an edit:\n{found.said}")
    left_out = {test for test in tests if found.is_partial and outcome_of(commands, [test]).is_partial}
    for edit in edits:
        if edit.test in left_out:
            print(f"left out  {edit.name}: {edit.test}", flush=True)
        else:
            yield edit


def main() -> int:
    options = argparse.ArgumentParser(description=__doc__, formatter_class=argparse.RawDescriptionHelpFormatter)
    options.add_argument("words", nargs="*", metavar="WORD")
    edits = read_edits(options.parse_args().words)
    passed = failed = 0
    with tempfile.TemporaryDirectory() as work:
        commands = os.path.join(work, "commands")
        shutil.copytree(COMMANDS, commands, ignore=shutil.ignore_patterns("__pycache__"))
        for name in BESIDE:
            os.symlink(os.path.join(script.TOP, name), os.path.join(work, name))
        for edit in to_try(commands, edits):
            found = verdict(commands, edit)
            passed, failed = passed + (found == "fails"), failed + (found != "fails")
            print(f"{found}  {edit.name}: {edit.test}", flush=True)
    print(f"{passed} passed, {failed} failed")
    return 1 if failed else 0
