"""Answers of the program to the lines of a script, and how these and messages are printed."""
from __future__ import annotations

import os
from typing import Iterable, Iterator, List, Optional

from ..base.messages import Command
from ..base.names import shown
from .protocol import PROGRAM, TEXT_WITHOUT_END, is_refused, message_of
from .scripts import Unit
from .session import Answer, OutputSlice, Session
from .tools import EMPTY_ANSWERS

NOTHING = b"(nothing)"


def answer_unit(session: Session, unit: Unit) -> Answer:
    if not unit.is_ended:
        return Answer(OutputSlice(session.output, 0, 0), [message_of(PROGRAM, TEXT_WITHOUT_END)])
    return session.ask(unit.text())


def write_messages(command: Command, place: bytes, unit: Unit, messages: List[bytes], begin: Optional[bytes] = b"") -> None:
    """The messages of a line after what was printed so far, each with its place; below, after a beginning, what was meant."""
    command.flush()
    is_terminal = os.isatty(2)
    for message in messages:
        line = place + b": " + message
        command.put(command.messages, (shown(line) if is_terminal else line) + b"\n")
        if begin is not None:
            from .hints.hint import explained  # Few runs need it.

            command.explain(explained(unit, message), begin)
    command.put(command.messages)


# --- answers with the question above each, as facl-plan prints them


def heading(unit: Unit) -> bytes:
    """The line of a script, with its place."""
    return b"# " + shown(unit.place() + b": " + unit.lines[0]) + b"\n"


def lines_to_show(unit: Unit, lines: Iterable[bytes], messages: List[bytes]) -> Iterator[bytes]:
    """The lines of an answer as a person reads them; one that says so where a question has an empty answer."""
    first = None
    for first in map(shown, lines):
        yield first
    if first is None and unit.is_of(*EMPTY_ANSWERS) and not is_refused(messages):
        yield NOTHING


def below_heading(unit: Unit, lines: Iterable[bytes], messages: List[bytes]) -> Iterator[bytes]:
    """An answer below its line, and an empty line; nothing of a line that prints nothing."""
    last = None
    for line in lines_to_show(unit, lines, messages):
        if last is None:
            yield heading(unit)
        yield line + b"\n"
        last = line
    if last:
        yield b"\n"
