"""Crates of this repository proved side by side, each once those that it depends on are."""
from __future__ import annotations

import contextlib
import fcntl
import functools
import os
import subprocess
import sys
import time
from pathlib import Path
from types import FrameType
from typing import Callable, Dict, Iterable, Iterator, List, Optional, Set

from ways import Crates
from . import script
from .processes import end_session
from .script import TOP, say

OUT = os.path.join(TOP, "out")
LOGS = os.path.join(OUT, "logs")
PARTS = ("src", "specs", "proofs")


def folder_of(crate: str, *inner: str) -> str:
    return os.path.join(TOP, "crates", crate, *inner)


def lock(folders: Iterable[str]) -> None:
    """Waits until no other run works in these folders, and keeps others out until the process ends."""
    for folder in sorted(os.path.realpath(folder) for folder in folders):
        opened = os.open(folder, os.O_RDONLY)
        try:
            fcntl.flock(opened, fcntl.LOCK_EX | fcntl.LOCK_NB)
        except BlockingIOError:
            say(f"waiting for another run to end in {folder}")
            fcntl.flock(opened, fcntl.LOCK_EX)


def log_of(crate: str) -> str:
    return os.path.join(LOGS, crate + ".log")


def files_of(crate: str) -> Iterator[str]:
    """The files of a crate that its check reads, in order."""
    for part in PARTS:
        for at, folders, names in os.walk(folder_of(crate, part)):
            folders.sort()
            yield from (os.path.join(at, name) for name in sorted(names))


def ways_up(uses: Dict[str, List[str]], wanted: Set[str]) -> Dict[str, int]:
    """For each crate the most lines that one way from it to the top has, which its time is guessed by."""

    @functools.cache
    def way_up(crate: str) -> int:
        above = (way_up(other) for other in wanted if crate in uses[other])
        return sum(Path(path).read_bytes().count(b"\n") for path in files_of(crate)) + max(above, default=0)

    return {crate: way_up(crate) for crate in wanted}


class Run:
    """The proof of one crate: a program in a session of its own, whose output goes to the crate's log."""

    def __init__(self, crate: str, nice: int, words: List[str], folder: str) -> None:
        self.crate = crate
        with open(log_of(crate), "wb") as out:
            self.program = subprocess.Popen(
                ["nice", "-n", str(nice), *words], cwd=folder, stdin=subprocess.DEVNULL, stdout=out,
                stderr=subprocess.STDOUT, start_new_session=True)
        # A kernel that shares processors between sessions counts nice within each.
        group = Path(f"/proc/{self.program.pid}/autogroup")
        with contextlib.suppress(OSError):
            group.write_text(str(nice), encoding="ascii")

    def end(self) -> None:
        """Ends the program if it runs, with all that it started."""
        end_session(self.program.pid)
        self.program.wait()


class SideBySide:
    """The crates that are to be proved, and how far they are."""

    def __init__(self, crates: Crates, wanted: Set[str], jobs: int, checks_of_others: int,
                 start: Callable[[str, int, int], Run]) -> None:
        self.crates, self.wanted, self.start = crates, wanted, start
        self.jobs, self.checks_of_others = jobs, checks_of_others
        self.ways = ways_up(crates.uses, wanted)
        self.began = time.monotonic()
        self.done: Set[str] = set()
        self.running: List[Run] = []
        self.signal, self.said = 0, ""
        say(f"{len(wanted)} crates, at most {jobs} at a time")

    def note(self, number: int, _: Optional[FrameType]) -> None:
        """Notes an interruption, so that it never comes between two steps that belong together."""
        self.signal = number

    def start_ready(self) -> None:
        """Starts as many of the crates that wait for no other as there is room for, the longest way first: with all
        checks where no crate that runs has a longer one, else those of others, and a lower priority for each."""
        busy = {run.crate for run in self.running} | self.done
        ready = [crate for crate in self.wanted - busy if self.done.issuperset(self.crates.uses[crate])]
        ready.sort(key=lambda crate: self.ways[crate], reverse=True)
        for crate in ready[:self.jobs - len(self.running)]:
            longer = sum(self.ways[run.crate] > self.ways[crate] for run in self.running)
            checks = min(self.jobs, self.checks_of_others) if longer else self.jobs
            self.running.append(self.start(crate, checks, 5 * longer))

    def take_finished(self) -> Optional[str]:
        """Takes the crates whose checks ended. Returns the first that is not proved, if there is one."""
        for run in [run for run in self.running if run.program.poll() is not None]:
            self.running.remove(run)
            run.end()
            if run.program.returncode != 0:
                return run.crate
            self.done.add(run.crate)
        return None

    def end_all(self) -> None:
        """Ends the checks that run; a fault of one does not leave the others."""
        with contextlib.ExitStack() as stack:
            for run in self.running:
                stack.callback(run.end)

    def report(self) -> None:
        """Says how far the crates are, where that is another than it was."""
        at = ", ".join(run.crate for run in self.running) or "end"
        if at != self.said:
            minutes = (time.monotonic() - self.began) / 60
            say(f"{len(self.done)} of {len(self.wanted)} crates proved, {minutes:.1f} min; at {at}")
        self.said = at

    def all_proved(self) -> bool:
        """Proves all crates. Returns whether they are; else the end of what was printed of one that is not is shown."""
        os.makedirs(LOGS, exist_ok=True)
        script.at_signals(self.note)
        try:
            while len(self.done) < len(self.wanted):
                self.start_ready()
                self.report()
                time.sleep(0.2)
                faulty = self.take_finished()
                if faulty:
                    self.show_end(faulty)
                    return False
                if self.signal:
                    sys.exit(128 + self.signal)
            self.report()
            return True
        finally:
            self.end_all()
            script.at_signals(script.end)

    def show_end(self, crate: str) -> None:
        say(f"{crate} is not proved; the end of {log_of(crate)}:")
        with open(log_of(crate), encoding="utf-8", errors="replace") as text:
            sys.stderr.writelines(text.readlines()[-20:])
