"""What a person has to know before a plan is read: a line each, with the files that it is about."""
from __future__ import annotations

from typing import List, NamedTuple

from ..base.messages import Command
from ..base.names import shown

MOST_NAMES = 3  # In a line.


class JobNote(NamedTuple):
    text: bytes
    names: List[bytes] = []

    def say(self, command: Command, is_full: bool) -> None:
        """Says it with the first names, or with all of them, each on a line of its own."""
        if is_full:
            command.say(self.text + b":" * bool(self.names))
            command.explain(map(shown, self.names))
            return
        first = b", ".join(self.names[:MOST_NAMES])
        command.say(self.text + (b": " + first if first else b"") + b" .." * (len(self.names) > MOST_NAMES))
