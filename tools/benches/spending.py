"""What other commands take of the processor, of time and of memory."""
from __future__ import annotations

import os
import subprocess
import tempfile
import time
from typing import List, NamedTuple

from lib.script import Failed


class Spent(NamedTuple):
    """What a command took: seconds of the processor and by the clock, and bytes of the largest of its processes."""

    processor: float
    seconds: float
    memory: int


def spent(words: List[str], folder: str, output: str = os.devnull, most_status: int = 0, **variables: str) -> Spent:
    """Runs a command in a folder; it has to end with the status 0, or with one up to another."""
    started = time.perf_counter()
    with open(output, "wb") as out, tempfile.TemporaryFile() as messages:
        child = subprocess.Popen(words, cwd=folder, env={**os.environ, **variables}, stdout=out, stderr=messages)
        try:
            _, status, usage = os.wait4(child.pid, 0)
        except BaseException:
            child.kill()
            child.wait()
            raise
        seconds = time.perf_counter() - started
        child.returncode = os.waitstatus_to_exitcode(status)
        messages.seek(0)
        text = messages.read(2_000).decode(errors="replace").strip()
    if not 0 <= child.returncode <= most_status:
        raise Failed(f"{' '.join(words[:4])}: status {child.returncode}: {text}")
    return Spent(usage.ru_utime + usage.ru_stime, seconds, usage.ru_maxrss * 1024)
