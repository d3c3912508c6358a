"""What facl-snapshot records: which files below which FOLDERs, and the directories above these.

A name is whole, from the root; that of a directory ends in a slash where names in it follow.
"""
from __future__ import annotations

import os
from typing import AbstractSet, Dict, FrozenSet, Iterable, List, Set, Tuple

from ..base import linux
from ..base.messages import Failure

MOST_FILES = 1_048_576  # The program takes them.
MOST_NAMES = 4 * MOST_FILES  # Of several snapshots, and of all that is found.
MOST_BYTES = 268_435_456  # Of a dump, which the program reads, and of the names in a directory.
LONGEST_NAME = 4095
NONE: FrozenSet[bytes] = frozenset()


class Scope:
    """The FOLDERs, from the root and without symbolic links; the globs of what is left out; whether other file systems are
    recorded; `work` is the device and inode of the folder in which the snapshot is made, which is left out."""

    def __init__(self, folders: Iterable[bytes], globs: List[bytes], crosses: bool, work: Tuple[int, int]) -> None:
        self.tops, self.globs, self.crosses, self.work = {*folders}, globs, crosses, work
        self.on_the_way: Dict[bytes, Set[bytes]] = {b"": {b"/"}}  # By directory: its names that lead to FOLDERs, or are some.
        for folder in self.tops - {b"/"}:
            parts = folder.split(b"/")
            for depth in range(1, len(parts)):
                self.on_the_way.setdefault(b"/".join(parts[:depth]) + b"/", set()).add(parts[depth])

    def leading(self, folder: bytes) -> AbstractSet[bytes]:
        return self.on_the_way.get(folder, NONE)

    def leaves_out(self, path: bytes) -> bool:
        """Whether a glob matches: the whole name where the glob has a slash, else the last part."""
        return any(linux.matches(glob, path if b"/" in glob else os.path.basename(path) or path) for glob in self.globs)


def of_folder(path: bytes) -> bytes:
    """The name of a directory, with its slash."""
    return path if path == b"/" else path + b"/"


def too_many(most: int) -> Failure:
    hint = b"name fewer FOLDERs" + b", or take several snapshots with --split COUNT" * (most == MOST_FILES)
    return Failure(b"more than " + format(most, ",").encode() + b" names were found: " + hint
                   + b"; somebody who renames folders meanwhile can be the cause")
