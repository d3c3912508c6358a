"""How many checks of crates run side by side: as many as there are processors, and free memory holds.

Both are bounded by the control groups of the process too, of both versions: a container has fewer processors and less
memory than the machine that it runs on.
"""
from __future__ import annotations

import os
import re
from typing import Iterator, List, NamedTuple, Optional, Tuple

# Most checks take less; where more is taken, memory_watch.py has one wait.
GIGABYTES_A_LANE = 3.5

# Of each version of control groups: the folder, the controller in /proc/self/cgroup, and files with a pattern each.
MEMORY = (
    ("", "", "memory.max", r"anon (\d+)"),
    ("memory", "memory", "memory.limit_in_bytes", r"total_rss (\d+)"),
)
QUOTAS = (
    ("", "", ("cpu.max", r"(\d+) \d+"), ("cpu.max", r"\d+ (\d+)")),
    ("cpu", "cpu", ("cpu.cfs_quota_us", r"(\d+)$"), ("cpu.cfs_period_us", r"(\d+)$")),
)


class Room(NamedTuple):
    """The processors, the free memory in bytes, and what bounds each."""
    processors: int
    free: int
    processors_by: str
    free_by: str


def number_in(path: str, pattern: str) -> Optional[int]:
    """The number that the pattern finds at the start of a line of a file, if it does."""
    try:
        with open(path, encoding="ascii", errors="replace") as file:
            found = re.search("^" + pattern, file.read(), re.MULTILINE)
    except OSError:
        return None
    return int(found[1]) if found else None


def folders(root: str, mount: str, controller: str) -> Iterator[str]:
    """The folders of this process's control group and of those above it, the own one first. A container may have its group
    at the top, whatever path /proc has."""
    top = os.path.join(root, "sys/fs/cgroup", mount)
    try:
        with open(os.path.join(root, "proc/self/cgroup"), encoding="utf-8", errors="replace") as rows:
            groups = [row.rstrip("\n").split(":", 2) for row in rows]
    except OSError:
        groups = []
    path = next((group[2] for group in groups if len(group) == 3 and controller in group[1].split(",")), "/")
    while path.strip("/"):
        yield os.path.join(top, path.strip("/"))
        path = os.path.dirname(path)
    yield top


def memory_bounds(root: str) -> Iterator[Tuple[int, str]]:
    kilobytes = number_in(os.path.join(root, "proc/meminfo"), r"MemAvailable:\s+(\d+)")
    if kilobytes is not None:
        yield 1024 * kilobytes, "MemAvailable"
    for mount, controller, limit_file, held_pattern in MEMORY:
        for folder in folders(root, mount, controller):
            limit = number_in(os.path.join(folder, limit_file), r"(\d+)$")
            held = number_in(os.path.join(folder, "memory.stat"), held_pattern)
            if limit is not None and held is not None:
                yield max(limit - held, 0), limit_file


def processor_bounds(root: str, allowed: int) -> Iterator[Tuple[int, str]]:
    yield allowed, "this process may run on"
    for mount, controller, (quota_file, quota), (period_file, period) in QUOTAS:
        for folder in folders(root, mount, controller):
            times = number_in(os.path.join(folder, quota_file), quota)
            each = number_in(os.path.join(folder, period_file), period)
            if times and each:
                yield max(times // each, 1), quota_file


def room(root: str = "/", allowed: Optional[int] = None) -> Room:
    """What there is now. `root` and `allowed` are others in tests: where /proc and /sys are, and how many processors the
    process may run on."""
    processors = min(processor_bounds(root, allowed or len(os.sched_getaffinity(0))))
    free = min([*memory_bounds(root)], default=(0, "unknown"))
    return Room(processors[0], free[0], processors[1], free[1])


def lanes(found: Room) -> int:
    """The lesser of the processors and of what free memory holds, at least one."""
    return max(1, min(found.processors, int(found.free / (GIGABYTES_A_LANE * 1e9))))


def reason(found: Room) -> str:
    """How many lanes there are, and why."""
    number = lanes(found)
    parts: List[str] = [
        f"{found.processors} processors ({found.processors_by})",
        f"{found.free / 1e9:.1f} GB of free memory ({found.free_by}), {GIGABYTES_A_LANE} a lane",
    ]
    return f"{number} lane{'s' * (number != 1)}: {' and '.join(parts)}"
