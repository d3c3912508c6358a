"""How a verb runs: it shows at a terminal what it is at, and says at once what a signal does to it."""
from __future__ import annotations

import io
import os
import signal
from types import FrameType
from typing import IO, Optional, cast

from ..base.messages import SIGNALS, Command, Interrupted
from ..base.names import shown
from ..base.progress import AT
from .table import Verb

BACK = "changing"  # The step of facl-apply after which files are put back.


class Cleared(io.RawIOBase):
    """A stream of a command, before whose texts the line of progress goes."""

    def __init__(self, stream: IO[bytes]) -> None:
        super().__init__()
        self.stream = stream

    def write(self, text: bytes) -> int:  # type: ignore[override]
        return self.stream.write(text)

    def flush(self) -> None:
        AT.clear()
        self.stream.flush()

    def fileno(self) -> int:
        return self.stream.fileno()


class Runs:
    """A verb that is running."""

    def __init__(self, command: Command, verb: Verb) -> None:
        self.command, self.verb, self.is_said = command, verb, False

    def text(self) -> str:
        if AT.step == BACK and AT.done:
            return "putting %s files back" % format(AT.done * AT.shares, ",")
        return self.verb.stopped

    def say(self) -> None:
        """Says what a signal does, once."""
        if not self.is_said:
            self.is_said = True
            AT.clear()
            try:
                os.write(2, b"%s: interrupted; %s\n" % (shown(self.command.name), self.text().encode()))
            except OSError:
                pass  # What is done does not depend on what can be said.

    def heed(self) -> None:
        """Says it where a signal waits, as facl-apply has it do while it changes files."""
        if not signal.sigpending().isdisjoint(SIGNALS):
            self.say()

    def interrupt(self, number: int, _frame: Optional[FrameType]) -> None:
        AT.is_over.set()
        self.say()
        raise Interrupted(number)

    def start(self, is_shown: bool) -> None:
        """Watches the verb until it ends."""
        for number in SIGNALS:
            if signal.getsignal(number) != signal.SIG_IGN:
                signal.signal(number, self.interrupt)
        if is_shown:
            self.command.out = cast(IO[bytes], Cleared(self.command.out))
            self.command.messages = cast(IO[bytes], Cleared(self.command.messages))
        AT.start(self.command.name.decode(), is_shown, self.heed)
