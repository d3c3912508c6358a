"""Runs the parts of tools/quick.sh side by side."""
from __future__ import annotations

import os
import re
import sys
import time
from typing import List, NamedTuple, Tuple

from ways import Crates

from . import lanes, script
from .kit import rt
from .script import TOP
from .side_by_side import LOGS, Run, files_of, folder_of, log_of

# The seconds that each test of a crate may take, beside others.
LIMIT = 240
# The tests of the commands of which none asks the program.
OF_COMMANDS = ("test_completion", "test_layers", "test_snapshot")
PYTHON = [sys.executable, "-B", "-m", "unittest"]
OF_CRATE = re.compile(r"^test result: .*?(\d+) passed; (\d+) failed;", re.MULTILINE)
OF_PYTHON = re.compile(r"^Ran (\d+) tests? in .*\n+(?:OK|FAILED) *(?:\((.*)\))?", re.MULTILINE)


class Part(NamedTuple):
    name: str
    words: List[str]
    folder: str
    size: int


def parts() -> List[Part]:
    """All that is run, what takes longest first: crates of tests by their bytes, after the rows and the tests of Python."""
    found = [Part(name, [*PYTHON, name], os.path.join(TOP, "commands", "tests"), 1 << 30) for name in OF_COMMANDS]
    found.append(Part("scripts", [*PYTHON, "discover", "-s", "tools/checks/tests", "-t", "tools"], TOP, 1 << 30))
    rows = [os.path.join(TOP, "tools", "try_rows.py"), "--seconds", str(LIMIT)]
    found.append(Part("rows", rows, TOP, 1 << 30))
    for crate in Crates().uses:
        if crate.endswith("_tests"):
            size = sum(os.path.getsize(path) for path in files_of(crate))
            found.append(Part(crate, [rt(), "try", "--test", "--seconds", str(LIMIT)], folder_of(crate), size))
    return sorted(found, key=lambda part: -part.size)


def numbers(status: int, said: str) -> Tuple[int, int]:
    """How many tests passed and failed by what a part printed. One has failed where it does not say, or has a status."""
    of_crate, of_python = OF_CRATE.search(said), OF_PYTHON.search(said)
    passed, failed = 0, 1
    if of_crate:
        passed, failed = int(of_crate[1]), int(of_crate[2])
    elif of_python:
        others = {word: int(number) for word, number in re.findall(r"(\w+)=(\d+)", of_python[2] or "")}
        failed = others.get("failures", 0) + others.get("errors", 0)
        passed = int(of_python[1]) - failed - others.get("skipped", 0)
    return passed, failed or int(status != 0)


class Quick:
    """The parts that are to be run, and how many tests passed and failed."""

    def __init__(self, jobs: int) -> None:
        self.jobs, self.todo = jobs, parts()
        self.running: List[Run] = []
        self.passed = self.failed = 0

    def step(self) -> bool:
        """Takes what ended, and starts what there is a lane for. Returns whether something is left."""
        for run in [run for run in self.running if run.program.poll() is not None]:
            self.running.remove(run)
            run.end()
            self.take(run)
        while self.todo and len(self.running) < self.jobs:
            part = self.todo.pop(0)
            self.running.append(Run(part.name, 0, part.words, part.folder))
        return bool(self.running)

    def take(self, run: Run) -> None:
        with open(log_of(run.crate), encoding="utf-8", errors="replace") as log:
            said = log.read()
        passed, failed = numbers(run.program.returncode, said)
        self.passed, self.failed = self.passed + passed, self.failed + failed
        print(f"{run.crate}: {passed} passed, {failed} failed", flush=True)
        if failed:
            print("".join(f"{run.crate}: {line}\n" for line in said.splitlines()), end="", flush=True)

    def run(self) -> int:
        os.makedirs(LOGS, exist_ok=True)
        try:
            while self.step():
                time.sleep(0.1)
        finally:
            for run in self.running:
                run.end()
        print(f"{self.passed} passed, {self.failed} failed; nothing was proved", flush=True)
        return 1 if self.failed else 0


def main() -> int:
    return Quick(lanes.room().processors).run()


if __name__ == "__main__":
    script.run(main)
