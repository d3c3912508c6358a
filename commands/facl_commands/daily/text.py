"""What facl-daily says of a run, printed or as a mail."""
from __future__ import annotations

import binascii
import datetime
import os
import re
import shutil
from typing import List

from ..base.messages import Command, Failure
from ..base.names import shown
from .children import Children, environment

SUBJECT_LIMIT = 150  # Bytes.
LINE_LIMIT = 998  # The same, of a line of a mail (RFC 5322). Servers refuse one with a longer line, as the name of a file can make it.


def find_sendmail() -> str:
    """The name of sendmail, also where /usr/sbin is not on the path."""
    found = shutil.which("sendmail", path=environment()["PATH"] + ":/usr/sbin:/usr/lib")
    if found is None:
        raise Failure(b"--mail: there is no sendmail: install a mailer, or leave --mail out, so that cron sends what is printed")
    return found


def in_subject(text: bytes) -> bytes:
    """A text for the subject of a mail: one line of printable ASCII, cut where it is long."""
    text = re.sub(rb"[^\x20-\x7e]", lambda found: b"\\%03o" % found[0][0], text.replace(b"\n", b" "))
    return text if len(text) <= SUBJECT_LIMIT else text[:SUBJECT_LIMIT] + b".."


class Text:
    """The text of a run: its parts, and the reasons that the subject of a mail has."""

    def __init__(self, folders: List[str], is_acl5: bool = False) -> None:
        self.judge = b"judged by the check of acl(5) (--acl5)\n" * is_acl5
        self.host = os.fsencode(os.uname().nodename)
        self.day = datetime.date.today().isoformat().encode()
        self.folders = b" ".join(map(os.fsencode, folders))
        self.parts: List[bytes] = []
        self.reasons: List[bytes] = []
        self.has_something = False  # Something to look at.
        self.has_fault = False

    def add(self, title: bytes, said: bytes) -> None:
        self.parts.append(b"\n== %s\n%s" % (title, said))

    def note(self, reason: bytes, line: bytes) -> None:
        """Adds a line of facl-daily itself, and a reason."""
        self.reasons.append(reason)
        self.has_something = True
        self.add(b"facl daily", shown(line) + b"\n")

    def fail(self, title: bytes, status: int, said: bytes) -> None:
        """Adds what a command said that failed; the last line of the first such command is a reason."""
        said = said or b"(nothing was said)\n"
        self.add(b"%s: status %d" % (title, status), said)
        self.reasons += [] if self.has_fault else [said.splitlines()[-1]]
        self.has_fault = True

    def body(self) -> bytes:
        head = b"facl on %s, %s" % (self.host, self.day)
        return shown(head + b": " * bool(self.folders) + self.folders) + b"\n" + self.judge + b"".join(self.parts)

    def mail(self, address: str) -> bytes:
        subject = in_subject(b"facl on %s: %s" % (self.host, b"; ".join(self.reasons) or b"something to look at"))
        body, encoding = self.body(), b"8bit"
        if max(map(len, body.split(b"\n"))) > LINE_LIMIT:
            body, encoding = binascii.b2a_qp(body), b"quoted-printable"
        return (b"To: %s\nSubject: %s\nMIME-Version: 1.0\nContent-Type: text/plain; charset=UTF-8\n"
                b"Content-Transfer-Encoding: %s\n\n%s" % (address.encode(), subject, encoding, body))

    def give(self, command: Command, children: Children, address: str) -> bool:
        """Prints or mails it; whether that was done."""
        if not address:
            command.fault = None
            command.write(self.body())
            command.flush()
            if command.fault is not None:
                command.say(b"standard output cannot be written")
            return command.fault is None
        text = self.mail(address)
        status = children.send([find_sendmail(), "-i", "-t"], text)
        if status != 0:
            command.say(b"sendmail: status %d; this was to be sent:" % status)
            command.put(command.messages, text)
            command.put(command.messages)
        return status == 0
