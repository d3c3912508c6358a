"""facl-snapshot: takes a snapshot of a live system for the program facl: its users, its groups, and the access control lists of
the files in some folders."""
from __future__ import annotations

import grp
import locale
import os
import resource
import shutil
from typing import List, Optional

from .. import VERSION
from ..base import linux, live
from ..base.messages import NOT_SAID, Command, Failure, failing, held
from ..base.names import number_of
from .taking import Program, Taking
from .target import NewSnapshot, place_of
from .words import HELP, read_words

NEVER = (b"/proc", b"/sys")  # What the kernel makes is never recorded.
OPEN_FILES = 512  # At once in a process: those of walking.DEEPEST and live.OPEN_LIMIT, and others.


def program_of(given: Optional[str]) -> Optional[Program]:
    """The program that has to load the snapshot: the given one, $FACL, or facl on the path; None where there is none."""
    wanted = given or os.environ.get("FACL", "")
    found = shutil.which(wanted or "facl")
    if wanted and found is None:
        raise Failure(os.fsencode(wanted) + b": no such program")
    return (os.fsencode(wanted or "facl"), os.path.abspath(found)) if found else None


def group_of(word: str) -> int:
    """The id of a group that is given by its name or its id."""
    try:
        is_id = word.isascii() and word.isdigit()
        return (grp.getgrgid(number_of(word.encode())) if is_id else grp.getgrnam(word)).gr_gid
    except (KeyError, ValueError, OverflowError):
        raise Failure(os.fsencode(word) + b": no such group") from None


def folder_of(name: bytes) -> bytes:
    """The name of a FOLDER, from the root and without symbolic links."""
    with failing(name + b": no such file"), held(os.open(name, os.O_PATH | os.O_CLOEXEC)) as descriptor:
        system = linux.file_system_of(descriptor)
    path = os.path.realpath(name)
    if path in NEVER or path.startswith(tuple(it + b"/" for it in NEVER)):
        raise Failure(name + b": is never recorded")
    if system in linux.OF_KERNEL:
        raise Failure(name + b": is never recorded, as /proc and /sys")
    return path


def check_limits() -> None:
    """Has as many files open as directories in one another need."""
    soft, hard = resource.getrlimit(resource.RLIMIT_NOFILE)
    if soft != resource.RLIM_INFINITY and soft < OPEN_FILES:
        if hard != resource.RLIM_INFINITY and hard < OPEN_FILES:
            raise Failure(b"%d files may be open at once (ulimit -n), and directories in one another need %d" % (hard, OPEN_FILES))
        resource.setrlimit(resource.RLIMIT_NOFILE, (OPEN_FILES, hard))


def body(command: Command, words: List[str]) -> int:
    if words[:1] in (["--help"], ["--version"]):
        command.write((HELP if words[0] == "--help" else f"facl-snapshot {VERSION}\n").encode())
        return 0
    read = read_words(command, words)
    locale.setlocale(locale.LC_ALL, "C")  # A pattern is one of bytes.
    live.check_proc()
    check_limits()
    program = program_of(read.program)
    readers = None if read.readers is None else group_of(read.readers)
    place = place_of(read.target)
    taking = Taking(command, read, program, [*map(folder_of, read.folders)])
    with NewSnapshot(place, command.say) as new:
        taking.take(new)
        new.put_in_place(readers)
    status = 1 if taking.lacks else 0
    if not read.is_quiet and not taking.tell():
        command.say(read.target + b": was made, but the line that says so could not be written")
        status = status or NOT_SAID
    command.fault = None  # Of messages.
    return status
