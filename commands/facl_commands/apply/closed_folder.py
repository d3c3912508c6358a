"""A folder .facl.* in one in which others may be at work, which nobody else can enter: what is made or taken there nobody can
exchange."""
from __future__ import annotations

import contextlib
import os
import secrets
import shutil
import stat
from typing import Iterator, Optional

from ..base import linux, new_file
from ..base.messages import Command, reason, signals_wait
from ..base.names import live_name
from ..base.new_file import DIRECTORY
from .carrying import Mismatch

START = b".facl."


class ClosedFolder:
    """One in an open folder. It is the one that was made, or one as good: it is the caller's, closed to all others, empty, and
    in this folder. What it inherits is cleared."""

    def __init__(self, folder: int) -> None:
        self.folder, self.name = folder, START + secrets.token_hex(8).encode()
        os.mkdir(self.name, 0o700, dir_fd=folder)
        exchanged = Mismatch(b"somebody exchanges files there; an empty folder .facl.* may be left")
        try:
            self.descriptor = os.open(self.name, DIRECTORY, dir_fd=folder)
        except OSError as error:
            raise exchanged from error
        if not is_closed(os.fstat(self.descriptor)) or os.listdir(self.descriptor):
            os.close(self.descriptor)
            raise exchanged
        new_file.give_mode(self.descriptor, 0o700)

    def take(self, name: bytes) -> None:
        moved(name, self.folder, self.descriptor, b"cannot be taken from its place")

    def put(self, name: bytes) -> None:
        """Puts what was made in its place."""
        moved(name, self.descriptor, self.folder, b"cannot be put in place")

    def give_back(self, name: bytes) -> None:
        """Puts what was taken to its place again, where it is not removed."""
        if new_file.is_there(name, self.descriptor):
            moved(name, self.descriptor, self.folder, b"was taken to a folder " + self.name + b" beside its place, and cannot be put back")

    def clear(self, name: bytes) -> None:
        """Removes what was made."""
        shutil.rmtree("/proc/self/fd/%d/%s" % (self.descriptor, os.fsdecode(name)), ignore_errors=True)  # Where it is a directory.
        with contextlib.suppress(OSError):
            os.unlink(name, dir_fd=self.descriptor)

    def end(self) -> bool:
        """Removes it; whether it is gone. No call of the system removes exactly that one: who puts another one there after the
        look, an empty one, can remove that too."""
        try:
            is_it = os.path.samestat(os.fstat(self.descriptor), os.stat(self.name, dir_fd=self.folder, follow_symlinks=False))
            if is_it:
                os.rmdir(self.name, dir_fd=self.folder)
            return is_it
        except OSError:
            return False
        finally:
            os.close(self.descriptor)


@contextlib.contextmanager
def closed_in(folder: int, command: Command, path: bytes) -> Iterator[ClosedFolder]:
    """A closed folder in a folder, for a step on a file, while signals wait."""
    with signals_wait():
        made = ClosedFolder(folder)
        try:
            yield made
        finally:
            if not made.end():
                command.say(live_name(path) + b": somebody moves files there; a folder .facl.* is left beside it")


def moved(name: bytes, source: int, target: int, fault: bytes) -> None:
    try:
        linux.move(name, source, target)
    except OSError as error:
        raise Mismatch(fault + b": " + reason(error)) from error


def is_closed(look: os.stat_result) -> bool:
    """Whether a file is a directory of the caller, which nobody else can enter."""
    return stat.S_ISDIR(look.st_mode) and look.st_uid == os.geteuid() and not stat.S_IMODE(look.st_mode) & 0o5077


def entries_of(folder: int, name: bytes = b".") -> Iterator[os.DirEntry[str]]:
    """What is in a folder, or in one that has a name there."""
    descriptor = os.open(name, DIRECTORY, dir_fd=folder)
    try:
        with os.scandir(descriptor) as found:
            yield from found
    finally:
        os.close(descriptor)


def left_in(folder: int) -> Optional[bytes]:
    """The name of a closed folder in a folder."""
    return next((os.fsencode(it.name) for it in entries_of(folder)
                 if os.fsencode(it.name).startswith(START) and is_closed(it.stat(follow_symlinks=False))), None)
