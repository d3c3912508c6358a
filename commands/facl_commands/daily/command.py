"""facl-daily: a snapshot each day, and what changed since the one before, findings, and rules that do not hold."""
from __future__ import annotations

import os
import signal
from typing import List, Optional, Sequence

from .. import VERSION
from ..base.messages import UNUSABLE, Command, Failure, Interrupted, named
from .children import Children
from .folder import FOUND, NEW, DailyFolder
from .text import Text, find_sendmail
from .words import HELP, Words, address_of, read_words

ANSWERED = (0, 1)  # Statuses of a command that could be asked.


class Asking:
    """What the commands say of the new snapshot of a run."""

    def __init__(self, given: Words, folder: DailyFolder, children: Children, text: Text) -> None:
        self.given, self.folder, self.children, self.text = given, folder, children, text
        self.names = folder.made()
        self.new_name = folder.new_name(text.day, self.names)
        self.place = os.fsdecode(os.path.join(folder.name, folder.work, NEW))

    def ask(self, title: bytes, *words: str, passed: Sequence[int] = ()) -> int:
        """Runs a command, and adds what it printed where there is something to look at, with the name that the snapshot gets."""
        done = self.children.run(words, [self.folder.lock_file, *passed])
        said = done.said.replace(self.folder.work + b"/" + NEW, self.new_name)
        if done.status not in ANSWERED:
            self.text.fail(title, done.status, said)
        elif done.status == 1 or words[0] == "facl-snapshot" and said:
            self.text.add(title, said)
            self.text.has_something = self.text.has_something or done.status == 1
        return done.status

    def take_snapshot(self) -> bool:
        self.ask(b"facl snapshot", "facl-snapshot", "--quiet", *self.given.options, self.place, *self.given.folders)
        is_there = os.path.isdir(self.place)
        if not is_there:
            self.text.reasons.insert(0, b"no snapshot")
            self.text.has_fault = True
        return is_there

    def ask_all(self) -> bool:
        """Asks what there is to look at; whether the snapshot can be the one that the next run compares with: what changed
        could be said, or, of the first one, its findings."""
        new, given, old = self.place, self.given, self.names[-1] if self.names else b""
        if old:
            before = os.fsdecode(os.path.join(self.folder.name, old))
            compared = self.ask(b"changes since %s (facl diff)" % old, "facl-diff", *given.judge, before, new)
        accepted = ["--accepted", given.accepted] if given.accepted else []
        said = self.folder.open_found()
        known = ["--known=/dev/fd/%d" % it for it in said] + ["--now-known", os.path.join(os.path.dirname(new), os.fsdecode(FOUND))]
        audited = self.ask(b"findings (facl audit)", "facl-audit", *given.judge, "--weight", given.weight, "--fail-on", given.fail_on,
                           *known, *accepted, new, passed=said)
        if given.rules:
            self.ask(b"rules that do not hold (facl check)", "facl-check", *given.judge, "--quiet", new, given.rules)
        is_usable = (compared if old else audited) in ANSWERED
        if not is_usable:
            self.text.add(b"facl daily", b"the new snapshot is not kept, since what changed cannot be said; the next run "
                          b"compares with %s\n" % (old + b" again" if old else b"none"))
        return is_usable


class DailyRun:
    """A run, and how it ends."""

    def __init__(self, command: Command, address: str) -> None:
        self.command, self.address, self.children, self.text = command, address, Children(), Text([])
        self.folder: Optional[DailyFolder] = None

    def work(self, given: Words) -> int:
        """Does the run, and returns its status."""
        self.text = Text(given.folders, bool(given.judge))
        if self.address:
            find_sendmail()
        folder = self.folder = DailyFolder(os.fsencode(given.folder))
        folder.made()  # Nothing is removed where it cannot be read.
        has_remains = folder.remove_remains()
        folder.begin()
        asking = Asking(given, folder, self.children, self.text)
        if has_remains:
            self.text.note(b"an earlier run was killed", folder.name + b": an earlier run was killed, and what it left is removed" + (
                b"; what changed since %s is said now" % asking.names[-1] if asking.names else b""))
        is_usable = asking.take_snapshot() and asking.ask_all()
        is_given = not self.text.parts or self.text.give(self.command, self.children, self.address)
        self.children.ignore_signals()
        if is_usable and is_given:
            folder.keep(asking.new_name, asking.names)
            for name in folder.keep_last(given.keep):
                self.command.say(folder.name + b"/" + name + b": has files that are no snapshot's, so it stays")
        return UNUSABLE if self.text.has_fault or not is_given else int(self.text.has_something)

    def status_of(self, words: List[str]) -> int:
        """Does the run, and says why it fails where it does."""
        try:
            return self.work(read_words(words))
        except Interrupted as ended:
            self.fail(b"ended by " + signal.Signals(ended.number).name.encode())
            return 128 + ended.number
        except (Failure, OSError, MemoryError) as error:
            self.fail(fault_of(error))
        except Exception as error:  # A fault of the command itself is not silent either.
            self.fail(b"a fault of facl daily: " + repr(error).encode(errors="backslashreplace"))
        return UNUSABLE

    def fail(self, reason: bytes) -> None:
        """Says why the run ends without its text, by mail too."""
        self.children.ignore_signals()
        self.command.say(reason)
        if not self.address and not self.text.parts:
            return
        self.text.note(reason, reason)
        self.text.reasons.insert(0, self.text.reasons.pop())
        try:
            self.text.give(self.command, self.children, self.address)
        except (Failure, OSError) as error:
            if fault_of(error) != reason:
                self.command.say(fault_of(error))

    def clean(self) -> None:
        """Removes what the run made and did not keep; a command that a signal ended removes what it made first."""
        self.children.ignore_signals()
        for child in self.children.interrupted:
            child.wait()
        if self.folder is not None:
            self.folder.end()


def fault_of(error: Exception) -> bytes:
    if isinstance(error, Failure):
        return error.text
    return named(error) if isinstance(error, OSError) else b"memory ran out"


def body(command: Command, words: List[str]) -> int:
    asked = next((it for it in words if it in ("--help", "--version")), None)
    if asked is not None:
        command.write((HELP if asked == "--help" else "facl-daily " + VERSION + "\n").encode())
        return 0
    os.umask(0o077)
    run = DailyRun(command, address_of(words))
    try:
        return run.status_of(words)
    finally:
        run.clean()
