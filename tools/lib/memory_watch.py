"""Checks of crates that wait while memory is short.

`rt ci` with RT_JOBS does not look at memory, and the checks of the largest crates take more than their lane. So a check is
stopped while what is free does not hold what those that run may still take, and goes on once it does, or once no other runs.
That check is stopped for which fewest crates wait: none for tests and edits. Of two the one that holds less is stopped, since a
check that is stopped keeps what it holds.
"""
from __future__ import annotations

import contextlib
import os
import signal
from pathlib import Path
from typing import Dict, List, NamedTuple, Optional, Set, Tuple

from ways import Crates
from .processes import Process

# The most that a check takes, in bytes: what the gate saw on 2026-11-30 on four processors with 16 GB, rounded up.
MOST = 3_400_000_000
MOST_OF = {"acl_rights": 4_000_000_000, "acl_rights_tests": 3_900_000_000, "facl_tests": 3_700_000_000, "facl": 3_600_000_000}
SPARE = 300_000_000  # What rt and its scripts take.
FORMATTER = b"fmt"  # A command of the prover that takes little memory, and which `rt ci` waits for before it checks a crate.


class Check(NamedTuple):
    """A check: its process and crate, how many crates wait for it, the bytes that it holds, how many more it may take, and whether
    it is stopped."""

    number: int
    crate: str
    waiting: int
    held: int
    more: int
    is_stopped: bool


def words_of(process: Process) -> List[bytes]:
    """The words of a process; none once it has ended."""
    with contextlib.suppress(OSError):
        return Path(f"/proc/{process.number}/cmdline").read_bytes().split(b"\0")
    return []


def check_of(process: Process, crates: Crates) -> Check:
    """The check of a process of the prover, by the crate that its words name. It is the crate's proof where it works in the
    crate's folder."""
    words, folder = words_of(process), ""
    with contextlib.suppress(OSError):
        folder = os.path.basename(os.readlink(f"/proc/{process.number}/cwd"))
    crate = next((word for option, word in zip(words, words[1:]) if option == b"--crate-name"), b"").decode()
    waiting = crates.above(crate) if folder == crate and b"--test" not in words else 0
    more = max(MOST_OF.get(crate, MOST) - process.held, 0)
    return Check(process.number, crate, waiting, process.held, more, process.is_stopped)


def rank(check: Check) -> Tuple[int, int]:
    """The check of the least rank is stopped first, and that of the greatest goes on first."""
    return check.waiting, check.held


def wanted_signal(checks: List[Check], free: int) -> Optional[Tuple[Check, int]]:
    """The check to stop or to continue, with the signal for it, if there is one. `free` is in bytes."""
    running = [check for check in checks if not check.is_stopped]
    stopped = [check for check in checks if check.is_stopped]
    left = free - SPARE - sum(check.more for check in running)
    if len(running) > 1 and left < 0:
        return min(running, key=rank), signal.SIGSTOP
    if stopped:
        first = max(stopped, key=rank)
        if not running or left >= first.more:
            return first, signal.SIGCONT
    return None


class MemoryWatch:
    """The checks that were stopped, how often one was, and the most bytes that a check of each crate was seen to hold."""

    def __init__(self) -> None:
        self.stopped: Set[int] = set()
        self.stops = 0
        self.most: Dict[str, int] = {}
        self.crates = Crates()

    def update(self, processes: List[Process], free: int) -> None:
        """Stops or continues at most one of the checks that run now. `free` is the free memory, in bytes."""
        checks = [check_of(it, self.crates) for it in processes if words_of(it)[1:2] != [FORMATTER]]
        for check in checks:
            if check.crate in self.crates.uses:  # Tests of the gate have others.
                self.most[check.crate] = max(self.most.get(check.crate, 0), check.held)
        found = wanted_signal(checks, free)
        if found:
            check, number = found
            self.send(check.number, number)

    def send(self, check: int, number: int) -> None:
        with contextlib.suppress(ProcessLookupError):
            os.kill(check, number)
        if number == signal.SIGSTOP:
            self.stopped.add(check)
            self.stops += 1
        else:
            self.stopped.discard(check)

    def report(self) -> str:
        """How often a check waited, and the most that checks held, the largest first."""
        largest = sorted(self.most.items(), key=lambda each: -each[1])
        held = ", ".join(f"{crate} {most / 1e9:.1f} GB" for crate, most in largest)
        return f"checks waited for memory {self.stops} times; the most that checks of a crate held: {held or 'nothing'}"

    def end(self) -> None:
        """Continues all checks that it stopped, so that a signal can end them."""
        for check in [*self.stopped]:
            self.send(check, signal.SIGCONT)
