"""Scripts of edits over a snapshot, answered line by line: what they printed, and what they mean for other names of files
and for users."""
from __future__ import annotations

from typing import List, NamedTuple, Optional, Union

from ..base.names import live_path
from ..base.user_tools import PeopleChange
from ..model.everybody import ElseAnswers
from ..model.people import People
from ..model.records import Files
from ..model.snapshot import Snapshot
from ..program.answering import answer_unit
from ..program.protocol import WARNING, is_refused
from ..program.scripts import Unit
from ..program.session import Session
from ..program.tools import CHANGES_OF_PEOPLE, EDITS, EMPTY_ANSWERS, OF_RECORDS, TOOLS_OF_PLANS
from . import chown
from .hard_links import Links

QUESTIONS_WITH_EMPTY_ANSWERS = set(EMPTY_ANSWERS).difference(OF_RECORDS)


class Asked(NamedTuple):
    """A line that printed something, or whose answer is empty."""

    unit: Unit
    output: bytes


class Message(NamedTuple):
    """Why a line is refused; or a warning of an accepted line."""

    unit: Unit
    text: bytes
    is_warning: bool = False
    is_final: bool = False  # Nothing is planned then, even with --keep-going.

    def cause(self) -> List[bytes]:
        """What is known of the cause of a refused line."""
        if self.is_warning or self.is_final:
            return []
        from ..program.hints.hint import explained  # Few runs need it.

        return explained(self.unit, self.text)


class Replay:
    """The scripts, answered line by line; where the session has everybody else, with what answers have of that user."""

    def __init__(self, session: Session, snapshot: Snapshot, old: Files, answers: Optional[ElseAnswers] = None) -> None:
        self.session, self.answers = session, answers
        self.links, self.people = Links(snapshot.links, old), People(snapshot.passwd, snapshot.group)
        self.asked: List[Asked] = []
        self.messages: List[Message] = []
        self.commands: List[PeopleChange] = []
        self.changes_of_people = b""  # The lines that were accepted.

    def answer_all(self, units: List[Unit]) -> None:
        """Answers lines, and keeps what they printed."""
        for unit in units:
            self.answer_before_end(unit)
        self.links.end(self.session)

    def answer_before_end(self, unit: Unit) -> None:
        """Answers a line by the one that does what it asks for, mostly itself; other names of its files may get later
        what it changes."""
        done: Union[Unit, bytes] = unit
        if unit.is_ended:
            self.links.before(self.session, unit)
            done = chown.restoring(self.session, self.people, unit) if unit.is_of(*TOOLS_OF_PLANS) else unit
        if isinstance(done, bytes):
            self.messages.append(Message(unit, done))
            return
        answer = answer_unit(self.session, done if self.answers is None else self.answers.asked(done))
        self.messages += [Message(unit, message, message == WARNING) for message in answer.messages]
        output, is_taken = answer.output.read(), not is_refused(answer.messages)
        output = output if self.answers is None else self.answers.text(unit.form(), output)
        if output or unit.is_of(*QUESTIONS_WITH_EMPTY_ANSWERS) and is_taken:
            self.asked.append(Asked(unit, output))
        if is_taken and done.is_of(*CHANGES_OF_PEOPLE):
            self.changes_of_people += done.text()
            self.commands += filter(None, [self.people.change(done.words)])
        elif is_taken and done.is_of(*EDITS):
            names = self.links.follow(self.session, done)
            if names:
                text = b"names of one file get different ACLs: " + b", ".join(map(live_path, names))
                self.messages.append(Message(done, text, is_final=True))
