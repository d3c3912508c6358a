"""The commands that facl-daily runs one after another, and the signals that end it."""
from __future__ import annotations

import os
import re
import signal
import subprocess
from types import FrameType
from typing import IO, Dict, List, NamedTuple, Optional, Sequence

from ..base.messages import SIGNALS, Interrupted
from ..base.programs import HOME

SAID_LIMIT = 16 << 20  # Bytes that are kept of what a command prints.
NAME = re.compile(rb"^facl-([a-z]+): ", re.MULTILINE)  # Of a command, before its messages.


class Done(NamedTuple):
    status: int
    said: bytes


def environment() -> Dict[str, str]:
    """That of the commands: the programs beside them come first."""
    return {**os.environ, "PATH": HOME + os.pathsep + os.environ.get("PATH", os.defpath), "LC_ALL": "C.UTF-8"}


def read_some(stream: IO[bytes]) -> bytes:
    """What a command prints, up to a limit."""
    kept = stream.read(SAID_LIMIT)
    more = sum(map(len, iter(lambda: stream.read(1 << 16), b"")))
    return kept + (b"\n.. and %d bytes more\n" % more if more else b"")


class Children:
    """Runs commands; a signal is noted, ends the command that is at work, and then this one, at no other moment."""

    def __init__(self) -> None:
        self.number = 0  # Of the signal that came.
        self.is_waiting = False
        self.interrupted: List["subprocess.Popen[bytes]"] = []
        for number in SIGNALS:
            if signal.getsignal(number) != signal.SIG_IGN:
                signal.signal(number, self.note)

    def note(self, number: int, _frame: Optional[FrameType]) -> None:
        self.number = self.number or number
        if self.is_waiting:
            self.is_waiting = False
            raise Interrupted(self.number)

    def ignore_signals(self) -> None:
        """From here on nothing interrupts: the text was given, or the end has begun."""
        self.number = 0
        for number in SIGNALS:
            signal.signal(number, signal.SIG_IGN)

    def check(self) -> None:
        if self.number:
            raise Interrupted(self.number)

    def run(self, words: Sequence[str], passed: Sequence[int] = ()) -> Done:
        """Runs a command of those beside this one; the messages that it prints name its verb. It has the descriptors that are
        passed; a lock is held as long as one of its processes is there."""
        self.check()
        words = [os.path.join(HOME, words[0]), *words[1:]]
        done = self.ended(subprocess.Popen(words, stdin=subprocess.DEVNULL, stdout=subprocess.PIPE, stderr=subprocess.STDOUT,
                                           pass_fds=passed, env=environment()))
        return Done(done.status, NAME.sub(rb"facl \1: ", done.said))

    def send(self, words: List[str], text: bytes) -> int:
        """Gives a command a text as its standard input, which is complete before the command starts; returns its status."""
        self.check()
        with os.fdopen(os.memfd_create("mail"), "w+b") as file:
            file.write(text)
            file.seek(0)
            child = subprocess.Popen(words, stdin=file)
        return self.ended(child).status

    def ended(self, child: "subprocess.Popen[bytes]") -> Done:
        """Waits for a command, and for the end of what it prints."""
        said = b""
        try:
            self.is_waiting = True
            self.check()
            if child.stdout is not None:
                with child.stdout:
                    said = read_some(child.stdout)
            return Done(child.wait(), said)
        except Interrupted:
            child.terminate()
            self.interrupted.append(child)
            raise
        finally:
            self.is_waiting = False
