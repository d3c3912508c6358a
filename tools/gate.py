#!/usr/bin/env -S python3 -B
"""The merge gate: linters and documents, then `rt ci`, and beside it wrong bodies and the commands' tests.

usage: tools/gate.py

First the ways through crates.txt (tools/ways.py) and tools/check_commands.sh --lint, which ends the gate where it finds
something. Then `rt ci` proves every crate, but what it proved on this machine before, and runs its tests, in as many lanes as
tools/lib/lanes.py finds: with two or more they are given by RT_JOBS, and then `rt ci` reserves no memory, but a check waits while
memory is short (tools/lib/memory_watch.py); with one, or if RT_JOBS is set already, nothing changes. Beside it, tools/edits.py
tries the wrong bodies of crates/NAME/wrong/ on lanes that are idle, and once `rt ci` says that the programs are proved, now or by
an earlier run, which it does after it has built them, tools/check_commands.sh tests the commands by them.

What `rt ci` prints is printed as it comes; what the others print, once it has ended. The last line is `N passed, M failed`, of
all. The exit status is 0 if none failed, 1 if something did, and 128 and the signal's number if it is interrupted.
"""
from __future__ import annotations

import os
import re
import shutil
import subprocess
import sys
import tempfile
import time
from pathlib import Path
from typing import Dict, List, Optional, Tuple

from lib import lanes, script
from lib.kit import proved
from lib.memory_watch import MemoryWatch
from lib.processes import programs_below
from lib.script import TOP
from ways import PROGRAM, PROGRAMS

BUILT = os.path.join("crates", PROGRAM, "out", PROGRAM)
PAUSE = 0.5  # Seconds between two looks at what ended, and at memory.
NUMBERS = re.compile(r"(\d+) passed, (\d+) failed")


def numbers(status: int, said: str) -> Tuple[int, int]:
    """How many passed and failed by the last line of a command. Without such a line, or with a status but no failure in it, it
    has failed once."""
    lines = said.rstrip("\n").split("\n")
    found = NUMBERS.match(lines[-1])
    passed, failed = (int(found[1]), int(found[2])) if found else (0, 1)
    return passed, failed or int(status != 0)


class Stage:
    """A command of the gate, whose output goes to a file."""

    def __init__(self, log: str, words: List[str], environment: Optional[Dict[str, str]] = None,
                 keeps_messages: bool = True) -> None:
        self.log, self.shown = log, 0
        with open(log, "wb") as out:
            self.program = subprocess.Popen(words, cwd=TOP, env=environment, stdin=subprocess.DEVNULL, stdout=out,
                                            stderr=subprocess.STDOUT if keeps_messages else None)

    def text(self) -> str:
        return Path(self.log).read_text(encoding="utf-8", errors="replace")

    def show(self) -> None:
        """Prints what came since it was last shown."""
        text = Path(self.log).read_bytes()
        sys.stdout.buffer.write(text[self.shown:])
        sys.stdout.buffer.flush()
        self.shown = len(text)

    def ended(self) -> bool:
        return self.program.poll() is not None

    def numbers(self) -> Tuple[int, int]:
        return numbers(self.program.wait(), self.text())

    def end(self) -> None:
        if not self.ended():
            self.program.terminate()
            self.program.wait()


class Gate:
    """The stages that were started, in the order in which they are shown."""

    def __init__(self, work: str) -> None:
        self.work = work
        self.stages: Dict[str, Stage] = {}
        self.watch = MemoryWatch()

    def start(self, name: str, words: List[str], environment: Optional[Dict[str, str]] = None,
              keeps_messages: bool = True) -> Stage:
        self.stages[name] = Stage(os.path.join(self.work, name), words, environment, keeps_messages)
        return self.stages[name]

    def update(self) -> None:
        """Has a check wait where memory is short."""
        self.watch.update(programs_below(os.getpid(), "rattle"), lanes.room().free)

    def end(self) -> None:
        self.watch.end()
        for stage in self.stages.values():
            stage.end()

    def sum(self) -> int:
        """Waits for all, prints their output and the last line. Returns the exit status."""
        while not all(stage.ended() for stage in self.stages.values()):
            self.update()
            time.sleep(PAUSE)
        found = []
        for stage in self.stages.values():
            found.append(stage.numbers())
            stage.show()
        script.say(self.watch.report())
        failed = sum(each[1] for each in found)
        print(f"{sum(each[0] for each in found)} passed, {failed} failed", flush=True)
        return 1 if failed else 0


def lint() -> bool:
    """Whether linters and documents find nothing. What they find is printed as it comes."""
    return all(subprocess.run(words, cwd=TOP, stdin=subprocess.DEVNULL, check=False).returncode == 0
               for words in (["tools/ways.py"], ["tools/check_commands.sh", "--lint"]))


def chosen_lanes() -> Tuple[int, Dict[str, str]]:
    """How many checks run side by side, and the environment of `rt ci`."""
    environment, found = dict(os.environ), lanes.room()
    if environment.get("RT_JOBS", "").isdigit():
        number, why = max(1, int(environment["RT_JOBS"])), f"RT_JOBS is {environment['RT_JOBS']} already"
    else:
        number, why = lanes.lanes(found), lanes.reason(found)
        if number > 1:
            environment["RT_JOBS"], why = str(number), f"RT_JOBS={number}: {why}"
        else:
            why = f"RT_JOBS is not set, so that rt ci reserves memory for each check: {why}"
    script.say(why)
    return number, environment


def run(gate: Gate) -> int:
    if not shutil.which("rt"):
        raise script.Failed("rt is not installed: README names the kit")
    if not lint():
        print("0 passed, 1 failed", flush=True)
        return 1
    number, environment = chosen_lanes()
    rt = gate.start("rt", ["rt", "ci"], environment, keeps_messages=False)
    gate.start("edits", ["tools/edits.py", "--jobs", str(number), "--beside", str(rt.program.pid), "--log", rt.log])
    while not rt.ended():
        rt.show()
        if "commands" not in gate.stages and set(PROGRAMS) <= proved(rt.text()):
            gate.start("commands", ["tools/check_commands.sh", "--no-lint", BUILT])
        gate.update()
        time.sleep(PAUSE)
    rt.show()
    if "commands" not in gate.stages:
        gate.start("commands", ["tools/check_commands.sh", "--no-lint", BUILT])
    return gate.sum()


def main() -> int:
    with tempfile.TemporaryDirectory(prefix="facl-gate.") as work:
        gate = Gate(work)
        try:
            return run(gate)
        finally:
            gate.end()


if __name__ == "__main__":
    script.run(main)
