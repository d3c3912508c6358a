"""Files and directories that a command makes: in a folder that nobody else can write, under a name that nothing had, with
exactly the lists that the command gives them; and a file that is made whole or not at all."""
from __future__ import annotations

import contextlib
import errno
import os
import signal

from . import acl_bytes, linux, trusted
from .messages import SIGNALS, Failure, failing, reason
from .trusted import PRIVATE

DIRECTORY = os.O_RDONLY | os.O_DIRECTORY | os.O_NOFOLLOW | os.O_CLOEXEC
CREATE = os.O_RDWR | os.O_CREAT | os.O_EXCL | os.O_NOFOLLOW | os.O_CLOEXEC


def give_mode(descriptor: int, mode: int) -> None:
    """Gives a new file or folder this mode, without the lists that it has by the default ACL of the folder above."""
    for name in (acl_bytes.ACCESS, acl_bytes.DEFAULT):
        try:
            os.removexattr(descriptor, name)
        except OSError as error:
            if error.errno not in (errno.ENODATA, errno.ENOTSUP):
                raise
    os.fchmod(descriptor, mode)


def share(descriptor: int, group: int, mode: int) -> None:
    """Gives a file or folder that the command made to a group, with this mode."""
    os.fchown(descriptor, -1, group)
    give_mode(descriptor, mode)


def is_there(name: bytes, folder: int) -> bool:
    """Whether an open folder has a name."""
    try:
        os.stat(name, dir_fd=folder, follow_symlinks=False)
    except FileNotFoundError:
        return False
    return True


def create(name: bytes, folder: int) -> int:
    """Makes an empty file of the caller alone in an open folder, and opens it."""
    descriptor = os.open(name, CREATE, PRIVATE, dir_fd=folder)
    try:
        give_mode(descriptor, PRIVATE)
    except BaseException:
        os.close(descriptor)
        os.unlink(name, dir_fd=folder)
        raise
    return descriptor


def write(name: bytes, folder: int, text: bytes) -> None:
    """Makes a file of the caller alone with this text in an open folder; it is on the disk then."""
    with open(create(name, folder), "wb") as file:
        file.write(text)
        file.flush()
        os.fsync(file.fileno())


def make_directory(name: bytes, folder: int) -> int:
    """Makes a directory of the caller alone in an open folder, and opens it."""
    os.mkdir(name, 0o700, dir_fd=folder)
    try:
        descriptor = os.open(name, DIRECTORY, dir_fd=folder)
        give_mode(descriptor, 0o700)
        return descriptor
    except BaseException:
        os.rmdir(name, dir_fd=folder)
        raise


class NewFile:
    """A name under which nothing is yet, in an open folder."""

    def __init__(self, name: bytes) -> None:
        self.name = name
        above, self.last = os.path.split(name)
        if self.last in (b"", b".", b".."):
            raise Failure(name + b": cannot be the name of a file")
        self.folder = trusted.open_folder(above or b".")
        with failing(name, True):
            was_there = is_there(self.last, self.folder)
        if was_there:
            raise Failure(name + b" exists and is not replaced; choose another name")

    def write(self, text: bytes) -> None:
        """Makes the file with this text. Where that fails, or is interrupted, nothing is left behind; once the file has
        its name, signals wait for the end of the command."""
        made = b".facl-" + os.urandom(16).hex().encode()
        try:
            write(made, self.folder, text)
            signal.pthread_sigmask(signal.SIG_BLOCK, SIGNALS)
            self.give_name(made)
        except BaseException as error:
            signal.pthread_sigmask(signal.SIG_BLOCK, SIGNALS)
            with contextlib.suppress(FileNotFoundError):
                os.unlink(made, dir_fd=self.folder)
            if isinstance(error, OSError):
                raise Failure(self.name + b": " + reason(error)) from error
            raise

    def give_name(self, made: bytes) -> None:
        linux.rename_new(made, self.last, self.folder)
