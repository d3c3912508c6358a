"""The processes of this machine, and those that a script started."""
from __future__ import annotations

import contextlib
import os
import resource
import signal
import time
from typing import Iterator, List, NamedTuple, Optional


class Process(NamedTuple):
    """A process that has not ended: its number and its parent's, its session, the bytes that it holds in memory, and whether
    a signal stopped it."""
    number: int
    name: str
    parent: int
    session: int
    held: int
    is_stopped: bool


def process(number: str) -> Optional[Process]:
    """The process of a number, if it runs."""
    try:
        with open(f"/proc/{number}/stat", encoding="utf-8", errors="replace") as stat:
            head, _, rest = stat.read().rpartition(")")
    except (FileNotFoundError, ProcessLookupError):
        return None
    fields = rest.split()
    state, parent, session, pages = fields[0], int(fields[1]), int(fields[3]), int(fields[21])
    held = pages * resource.getpagesize()
    return None if state == "Z" else Process(int(number), head.partition("(")[2], parent, session, held, state == "T")


def processes() -> Iterator[Process]:
    return filter(None, map(process, filter(str.isdigit, os.listdir("/proc"))))


def is_running(number: int) -> bool:
    return process(str(number)) is not None


def programs_below(number: int, name: str) -> List[Process]:
    """The processes of this name that were started by a process, or by those that it started."""
    found = list(processes())
    below, more = {number}, True
    while more:
        new = {it.number for it in found if it.parent in below} - below
        below, more = below | new, bool(new)
    return [it for it in found if it.name == name and it.number in below]


def members(session: int) -> Iterator[int]:
    """The processes of this session that are left."""
    return (it.number for it in processes() if it.session == session)


def end_session(session: int) -> None:
    """Ends all processes of this session, and waits until they are gone."""
    while left := list(members(session)):
        for number in left:
            with contextlib.suppress(ProcessLookupError):
                os.kill(number, signal.SIGKILL)
        time.sleep(0.05)
