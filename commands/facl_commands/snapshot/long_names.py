"""Names that are too long to be recorded, which are counted, at any depth: of the directories in one another one alone is open."""
from __future__ import annotations

import os
import stat
from typing import List, Optional, Tuple

from ..base import linux, live
from ..base.live import NotFound
from . import scope as scopes
from .marking import KnownMounts
from .runs import EXCLUDED, LINK, LONG, OTHER_SYSTEM, LeftOut
from .scope import Scope

EXCHANGED = b"was exchanged for another file, or removed, meanwhile"
START = 200  # Bytes of a name that is too long, which are said.


class LongNames:
    """Counts the names below the directory of a path. Of --exclude only what goes by the last part of a name counts: the whole name
    of each of many directories in one another would take a lot of memory."""

    def __init__(self, scope: Scope, mounts: KnownMounts, left_out: LeftOut, path: bytes) -> None:
        self.scope, self.mounts, self.left_out, self.path = scope, mounts, left_out, path
        self.levels: List[Tuple[Tuple[int, ...], List[bytes]]] = []  # Which directories, with names that are to be looked at.
        self.waiting = 0  # The number of these.

    def count(self, descriptor: int) -> None:
        """Goes down, and up again where no names are left."""
        here = os.dup(descriptor)
        try:
            self.enter(here)
            while self.levels[-1][1] or len(self.levels) > 1:
                (device, _), names = self.levels[-1]
                below = self.look(here, device, names.pop()) if names else None
                if below is not None:
                    here = replaced(here, below)
                    self.enter(here)
                elif not names and len(self.levels) > 1:
                    here = replaced(here, self.up(here))
        finally:
            os.close(here)

    def enter(self, folder: int) -> None:
        """Reads the names in an open directory."""
        names: List[bytes] = []
        self.levels.append((linux.status_of(folder)[4:6], names))
        with os.scandir(b"/proc/self/fd/%d" % folder) as entries:
            for it in entries:
                names.append(it.name)
                self.waiting += 1
                if self.left_out.total() + self.waiting > scopes.MOST_NAMES:
                    raise scopes.too_many(scopes.MOST_NAMES)

    def up(self, here: int) -> int:
        """Opens the directory above, which has to be the one from which it came down."""
        self.levels.pop()
        above = os.open(b"..", live.PATH | os.O_DIRECTORY, dir_fd=here)
        if linux.status_of(above)[4:6] != self.levels[-1][0]:
            os.close(above)
            raise NotFound(EXCHANGED)
        return above

    def look(self, folder: int, device: int, name: bytes) -> Optional[int]:
        """Counts a name; returns a directory, open, in which names are to be counted."""
        self.waiting -= 1
        if self.scope.leaves_out(name):
            self.left_out.add(EXCLUDED, self.path)
            return None
        descriptor = os.open(name, live.PATH, dir_fd=folder)
        status, (_, mount) = linux.read_status(linux.statx(descriptor, b"", linux.AS_KNOWN))
        if stat.S_ISLNK(status[0]):
            self.left_out.add(LINK, self.path)
        elif self.scope.crosses and self.mounts.of(mount, descriptor).is_of_kernel:
            self.left_out.add(OTHER_SYSTEM, self.path + b"/")
        else:
            self.left_out.add(LONG, self.path[:START])
            if stat.S_ISDIR(status[0]) and (self.scope.crosses or status[4] == device):
                return descriptor
        os.close(descriptor)
        return None


def replaced(old: int, new: int) -> int:
    os.close(old)
    return new
