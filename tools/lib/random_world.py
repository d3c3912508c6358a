"""A random tree of real files with ACLs, and its users and groups, who need no account: they are in texts of their own."""
from __future__ import annotations

import argparse
import contextlib
import ctypes
import os
import random
import stat
import subprocess
from typing import Dict, Iterable, Iterator, List, Optional, Sequence, Tuple

from .script import TOP, WITH_PEOPLE, Failed

LIBRARY = ctypes.CDLL(None, use_errno=True)
AT_FDCWD, AT_EMPTY_PATH, AT_EACCESS = -100, 0x1000, 0x200
FIRST_UID, FIRST_GID = 71000, 72000
NOBODYS = 73000  # An id of no user and no group.
ELSE = "everybody else"
PERMS = ("---", "r--", "rw-", "r-x", "rwx", "--x")
MODES = (0o755, 0o750, 0o711, 0o700, 0o644, 0o640, 0o664, 0o604, 0o770)


def printed(words: Sequence[str], text: Optional[str] = None, wanted: Sequence[int] = (0,), **variables: str) -> str:
    """What a command prints, which has to end with one of the statuses; bytes that are no UTF-8 are surrogates."""
    done = subprocess.run(words, env=os.environ | variables, input=None if text is None else os.fsencode(text),
                          capture_output=True, check=False)
    if done.returncode not in wanted:
        raise Failed(f"{words[0]} ended with status {done.returncode}: {done.stderr[-300:]!r}")
    return os.fsdecode(done.stdout)


def asked(descriptor: int, name: bytes, request: int) -> bool:
    """Whether the kernel grants the caller a request."""
    return bool(LIBRARY.faccessat(descriptor, name, request, AT_EACCESS | (AT_EMPTY_PATH if not name else 0)) == 0)


def show_odd(odd: Iterable[Tuple[object, ...]]) -> None:
    for it in sorted(odd, key=str)[:5]:
        print("  differs:", *it)


@contextlib.contextmanager
def opened(paths: Iterable[str]) -> Iterator[Dict[str, int]]:
    """Descriptors of files, by which the kernel is asked of each file alone."""
    found = {path: os.open(path, os.O_PATH) for path in paths}
    try:
        yield found
    finally:
        for descriptor in found.values():
            os.close(descriptor)


class World:
    """A tree, and its users `k0`, `k1` and so on, each of whom has a row and a primary group. All users have the last group as
    their primary one, or each has one of the user's own. A user of the next number is everybody else, whom no list names."""

    perms: Sequence[str] = PERMS
    modes: Sequence[int] = MODES
    masks: Sequence[str] = ("---", "---", "---", "---", "---", "r--", "r-x", "--x", "", "")  # Of lists that name somebody.

    def __init__(self, work: str, given: argparse.Namespace, seed: int, groups: int = 6, has_own_groups: bool = False) -> None:
        self.work, self.program, self.users, self.chance = work, given.program, given.users, random.Random(seed)
        self.top, self.snapshot = os.path.join(work, "tree"), os.path.join(work, "s")
        self.has_own_groups = has_own_groups
        self.groups = [[user for user in range(self.users) if self.chance.random() < 0.2] for _ in range(groups)]
        os.chmod(work, 0o755)
        os.mkdir(self.top, 0o755)
        self.files, self.folders = [self.top], [self.top]
        while len(self.files) < given.files:
            self.make(self.new_place())
        for place in self.files[1:]:
            self.dress(place)
        self.write_people()

    # --- people

    def primary_group(self, user: int) -> int:
        return NOBODYS if user >= self.users else FIRST_UID + user if self.has_own_groups else FIRST_GID + len(self.groups)

    def uid(self, user: int) -> int:
        return FIRST_UID + user if user < self.users else NOBODYS

    def name(self, user: int) -> str:
        """What answers have for a user."""
        return f"k{user}" if user < self.users else ELSE

    def groups_of(self, user: int) -> List[int]:
        return [FIRST_GID + number for number, members in enumerate(self.groups) if user in members]

    def write_people(self) -> None:
        """Writes the rows of all users and groups."""
        passwd = [[self.name(it), "x", f"{self.uid(it)}", f"{self.primary_group(it)}", "", "/", "/bin/sh"] for it in range(self.users)]
        group = [[f"k{it}", "x", f"{self.primary_group(it)}", ""] for it in range(self.users)] if self.has_own_groups else []
        members: List[List[int]] = [*self.groups, []]
        group += [[f"g{it}", "x", f"{FIRST_GID + it}", ",".join(map(self.name, users))] for it, users in enumerate(members)]
        self.write_rows(passwd, group)

    def write_rows(self, passwd: List[List[str]], group: List[List[str]]) -> None:
        for name, rows in (("passwd", passwd), ("group", group)):
            with open(os.path.join(self.work, name), "wb") as file:
                file.writelines(os.fsencode(":".join(row) + "\n") for row in rows)

    @contextlib.contextmanager
    def acting_as(self, user: int) -> Iterator[None]:
        """This process has the ids of a user, as whom it is not the superuser."""
        groups = os.getgroups()
        os.setgroups(self.groups_of(user))
        os.setegid(self.primary_group(user))
        os.seteuid(self.uid(user))
        try:
            yield
        finally:
            os.seteuid(0)
            os.setegid(0)
            os.setgroups(groups)

    # --- files

    def new_place(self) -> str:
        return os.path.join(self.chance.choice(self.folders), f"n{len(self.files)}")

    def make(self, place: str) -> None:
        if self.chance.random() < 0.15:
            os.mkdir(place)
            self.folders.append(place)
        else:
            open(place, "wb").close()
        self.files.append(place)

    def entry(self) -> str:
        user, group = self.chance.randrange(self.users), self.chance.randrange(len(self.groups))
        who = f"u:{FIRST_UID + user}" if self.chance.random() < 0.6 else f"g:{FIRST_GID + group}"
        return who + ":" + self.chance.choice(self.perms)

    def entries(self) -> List[str]:
        """Up to two entries for different users or groups."""
        return sorted({it.rpartition(":")[0]: it for it in (self.entry(), self.entry())}.values())

    def dress(self, place: str) -> None:
        """Gives a file an owner, a group, a mode and perhaps entries, often with an empty mask."""
        os.chown(place, FIRST_UID + self.chance.randrange(self.users), FIRST_GID + self.chance.randrange(len(self.groups)))
        os.chmod(place, self.chance.choice(self.modes))
        entries = self.entries() if self.chance.random() < 0.4 else []
        mask = self.chance.choice(self.masks) if entries else ""
        if not entries and self.chance.random() < 0.2:
            mask = self.chance.choice(("r--", "r-x", "--x"))
        if entries or mask:
            printed(["setfacl", *["-n"] * bool(entries and mask), "-m", ",".join([*entries, *["m::" + mask] * bool(mask)]), place])

    def below(self, top: str) -> List[str]:
        return [it for it in self.files if it == top or it.startswith(top + "/")]

    def flag(self, place: str) -> None:
        """Gives a directory flags, and perhaps a default list."""
        flags = (stat.S_ISVTX if self.chance.random() < 0.3 else 0) | (stat.S_ISGID if self.chance.random() < 0.3 else 0)
        os.chmod(place, stat.S_IMODE(os.stat(place).st_mode) | flags)
        if self.chance.random() < 0.4:
            printed(["setfacl", "-d", "-m", ",".join(self.entries()), place])

    # --- commands

    def command(self, name: str, *words: str, text: str = "", wanted: Sequence[int] = (0,)) -> str:
        """What a command prints; facl-snapshot finds the users and groups of the world."""
        start = [WITH_PEOPLE, self.work] if name == "facl-snapshot" else []
        return printed([*start, os.path.join(TOP, "commands", name), *words], text, wanted, FACL_LINUX=self.program)

    def take_snapshot(self, name: str = "s") -> str:
        """Records the tree, and returns the new snapshot."""
        target = os.path.join(self.work, name)
        self.command("facl-snapshot", "--quiet", "--program", self.program, target, self.top, wanted=(0, 1))
        return target
