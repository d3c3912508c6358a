"""The words of facl-snapshot."""
from __future__ import annotations

import os
import re
from typing import List, NamedTuple, Optional

from ..base.messages import Command, Failure
from ..base.option_words import TAKES_A_WORD, read_options

USAGE = """\
usage: facl-snapshot [--quiet] [--cross-file-systems] [--exclude GLOB].. [--split COUNT] [--readers GROUP]
                     [--program FILE] [--users FILE] DIR FOLDER..
"""
HELP = USAGE + """
Records the users, the groups and the files of each FOLDER, for the program facl. Run it as root, so that every file
can be read.

  DIR/passwd    the users, as getent passwd lists them, and those that it does not list: the system is asked for each id in
                dump without a row, and for each member of a group, as a directory service with many users has it
  DIR/group     the groups, as getent group lists them, and those of the users that were asked for, as id -G has them
  DIR/dump      as getfacl -n -p prints it: each FOLDER, each file below it, and the directories above it up to the root
  DIR/links, inodes, marks, meta
                which names are one file, which file each name is, what Linux looks at beside lists, and what the snapshot is
                of: facl-snapshot(5)

  --exclude GLOB    leaves out each file and folder that matches, and all below it: by its whole name where GLOB has a slash
                    (-path of find, in which * goes over slashes too), else by its last part (-name). It may come several times
  --cross-file-systems
                    records what is mounted below a FOLDER too, but for /proc, /sys and other mounts of these two file systems
  --quiet           prints nothing on standard output, and of the warnings those of files that could not be read alone
  --users FILE      more users, a name a line, where the directory service does not list them
  --split COUNT     several snapshots, DIR/001, DIR/002 and so on, of at most COUNT files each: as many as fit, in the order
                    of their paths, and the directories above them; fewer where their records are long
  --readers GROUP   lets this group read the snapshot: folders have the mode 0750, files 0640, in place of 0700 and 0600
  --program FILE    the program that has to load the snapshot; without it $FACL, or facl on the path
  --help            prints this
  --version         prints the version of facl; it is 0 if facl is not installed

Each name comes once, in the order of paths. Symbolic links are counted and left out: none is followed, but a FOLDER that is
one is taken as what it leads to. A name of more than 4,095 bytes counts as a file that could not be read, and below it a GLOB
matches the last part of a name alone; so does a file that is removed or exchanged meanwhile: what is recorded is always of the
file that was found under its name.

A snapshot has at most 1,048,576 files, and a dump of 268,435,456 bytes; of several at most 4,194,304 names are found in all, with
those that are left out, and a directory may not have more. Else none is made, nor where fewer than 512 files may be open.

DIR is a new folder, or an empty one, or a snapshot with no other file in it, which is replaced: it keeps its owner and its
access list, and its files those of its dump. DIR, what is in it, the directories above it and symbolic links on the way have
to belong to root or to the caller, and nobody else may be able to write there, but for directories above it that are sticky.
All is made in a new folder beside DIR, DIR.XXXXXX, and put in place when it is complete. Only SIGKILL leaves that folder, and a
replaced snapshot may then be in it, as `old`.

The exit status is 0 if the snapshot is made; 1 if it is made, but lacks files, or users and groups (asking for them takes
five minutes at most, for 262,144 ids at most), has no people, or is not loaded by the program, and then it replaces none; 2
if none is made, and DIR is as it was; 5 if it is made, and that could not be printed.
"""
TAKING = ("--exclude", "--users", "--program", "--readers", "--split")  # A word after them, or after a sign.
MOST_IN_PART = re.compile("[1-9][0-9]{0,6}")


class SnapshotWords(NamedTuple):
    is_quiet: bool
    crosses: bool  # Whether other file systems below a FOLDER are recorded.
    globs: List[bytes]
    users: Optional[bytes]  # The file that names more users.
    program: Optional[str]
    readers: Optional[str]
    most: Optional[int]  # Files of each of several snapshots.
    target: bytes
    folders: List[bytes]


def fault_of(option: str, value: str) -> str:
    """What is wrong with the word after an option; empty where it is right."""
    if option in TAKING and option != "--program" and not value:
        return TAKES_A_WORD
    if option == "--exclude" and value == "/":
        return " /: leaves out all"
    if option == "--split" and not MOST_IN_PART.fullmatch(value):
        return f" {value}: is not a number from 1 to 9999999"
    return ""


def read_words(command: Command, words: List[str]) -> SnapshotWords:
    """Fails below the usage where they are wrong; without it for a verb, which has other words."""
    def fail(word: str, fault: str) -> Failure:
        if USAGE.encode().startswith(b"usage: %s " % command.name):
            command.put(command.messages, USAGE.encode())
        return Failure(os.fsencode(word + fault))

    options, rest = read_options(words, TAKING, ("--quiet", "--cross-file-systems"), fail, fault_of)
    if len(rest) < 2:
        raise fail("a FOLDER is missing", ", as in: facl-snapshot before /srv/project")
    target, *folders = map(os.fsencode, rest)
    last = {option: values[-1] if values else None for option, values in options.items()}
    globs = [os.fsencode(it[:-1] if it.endswith("/") else it) for it in options["--exclude"]]
    users, most = last["--users"], last["--split"]
    return SnapshotWords(
        bool(options["--quiet"]), bool(options["--cross-file-systems"]), globs, None if users is None else os.fsencode(users),
        last["--program"], last["--readers"], None if most is None else int(most), target, folders)
