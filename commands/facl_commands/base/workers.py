"""Work on many paths that several processes share: each has a part of them, and sends the first one what came of it."""
from __future__ import annotations

import marshal
import mmap
import os
import select
import signal
import struct
from typing import IO, Any, Callable, List, Optional

from . import linux
from .messages import SIGNALS

MANY = 20_000  # Paths for which one process takes half a second.
MOST = 4  # Processes.
OFTEN = 0.1  # Seconds between two looks at the signals that wait.
SIZE = struct.Struct("<Q")  # Of what is sent.
Work = Callable[[], Any]  # Returns what marshal takes: numbers, bytes, and lists, tuples and dictionaries of them.


def send(file: IO[bytes], what: Any) -> None:
    """Sends another process what marshal takes."""
    text = marshal.dumps(what)
    file.write(SIZE.pack(len(text)) + text)
    file.flush()


def receive(file: IO[bytes]) -> Optional[object]:
    """What the other process sent; None where it ended."""
    head = file.read(SIZE.size)
    size = SIZE.unpack(head)[0] if len(head) == SIZE.size else 0
    text = file.read(size)
    return marshal.loads(text) if size and len(text) == size else None


class Stop:
    """A mark that all processes see."""

    def __init__(self) -> None:
        self.memory = mmap.mmap(-1, 1)

    def set(self) -> None:
        self.memory[0] = 1

    def is_set(self) -> bool:
        return self.memory[0] == 1


class Helper:
    """A process that does a part of the work; it ends where the first one ends."""

    def __init__(self, work: Work, keeps_signals: bool) -> None:
        self.work = work
        reader, writer = os.pipe()
        parent = os.getpid()
        self.process = os.fork()
        if self.process == 0:
            self.run(writer, parent, keeps_signals)
        os.close(writer)
        self.reader = open(reader, "rb")

    def run(self, writer: int, parent: int, keeps_signals: bool) -> None:
        """Ends this process, which sends what came of the work."""
        try:
            linux.end_with(parent)
            for number in SIGNALS if not keeps_signals else ():
                signal.signal(number, signal.SIG_DFL)
            with open(writer, "wb") as file:
                self.answer(file)
        finally:
            os._exit(1)

    def answer(self, file: IO[bytes]) -> None:
        send(file, self.work())

    def has_result(self) -> bool:
        return bool(select.select([self.reader], [], [], OFTEN)[0])

    def result(self) -> Optional[object]:
        """What came of the work; None where the process ended before."""
        return receive(self.reader)

    def end(self) -> None:
        self.reader.close()
        os.kill(self.process, signal.SIGKILL)
        os.waitpid(self.process, 0)


def parts_of(paths: List[bytes]) -> List[List[bytes]]:
    """Parts that follow each other, for a process each: one where there are few paths."""
    count = 1 if len(paths) < MANY else min(MOST, os.cpu_count() or 1)
    size = max(1, -(-len(paths) // count))
    return [paths[place : place + size] for place in range(0, len(paths), size)]
