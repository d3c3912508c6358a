"""Texts for checks and measurements: records written in a line each, a list as an attribute, and a tree of any size.

The tree has `files` records: the root, and directories of about a hundred plain files each. Each file has two named
users, a named group and a mask; each directory a default list. There are a tenth as many groups as users.
"""
from __future__ import annotations

import os
from typing import IO, Iterable, List

PER_DIRECTORY = 100


def lines(them: Iterable[str]) -> str:
    return "".join(f"{line}\n" for line in them)


def attribute(count: int, first: int = 100_000) -> str:
    """The hex digits of a list of `count` entries, its users from `first` on."""
    users = "".join(f"02000400{(first + k).to_bytes(4, 'little').hex()}" for k in range(count - 4))
    return f"0200000001000700ffffffff{users}04000400ffffffff10000400ffffffff20000000ffffffff"


def dump_of(*rows: str) -> bytes:
    """A dump of records that are each written as `PATH|OWNER|GROUP|FLAGS|ENTRY ENTRY..`; the flags may be empty."""
    records = []
    for row in rows:
        path, owner, group, flags, entries = row.split("|")
        head = f"# file: {path}\n# owner: {owner}\n# group: {group}\n" + f"# flags: {flags}\n" * bool(flags)
        records.append(head + entries.replace(" ", "\n") + "\n")
    return "\n".join(records).encode()


ROOT_AND_FILE = dump_of(
    ".|lisa|staff||user::rwx group::r-x other::r-x", "f|lisa|staff||user::rw- group::r-- other::---")


def text_file(folder: str, name: str) -> IO[str]:
    return open(os.path.join(folder, name), "w", encoding="utf-8")


def write_people(folder: str, users: int) -> int:
    """Writes passwd and group; returns the number of groups."""
    groups = max(1, users // 10)
    with text_file(folder, "passwd") as out:
        for u in range(users):
            out.write(f"u{u}:x:{1000 + u}:{5000 + u % groups}:User {u}:/home/u{u}:/bin/sh\n")
    with text_file(folder, "group") as out:
        for g in range(groups):
            names = ",".join(f"u{u}" for u in range(g, min(users, g + 4)))
            out.write(f"g{g}:x:{5000 + g}:{names}\n")
    return groups


def record(path: str, owner: int, group: int, entries: List[str]) -> str:
    return f"# file: {path}\n# owner: u{owner}\n# group: g{group}\n" + "\n".join(entries) + "\n\n"


def file_entries(n: int, users: int, groups: int) -> List[str]:
    first, second = sorted((n * 7 % users, (n * 13 + 1) % users))
    named = [f"user:u{first}:rw-"]
    if second != first:
        named.append(f"user:u{second}:r--")
    return ["user::rw-", *named, "group::r--", f"group:g{n % groups}:rw-", "mask::rw-", "other::---"]


def directory_entries(n: int, users: int, groups: int) -> List[str]:
    lists = ["user::rwx", f"user:u{n % users}:rwx", "group::r-x", f"group:g{n % groups}:r-x", "mask::rwx", "other::---"]
    return lists + [f"default:{entry}" for entry in lists]


def write_directory(out: IO[str], n: int, files: int, users: int, groups: int) -> None:
    """The records of a directory and its files."""
    out.write(record(f"d{n:05}/", n % users, n % groups, directory_entries(n, users, groups)))
    for i in range(files):
        at = n * PER_DIRECTORY + i
        out.write(record(f"d{n:05}/f{i:03}", at % users, at % groups, file_entries(at, users, groups)))


def write_dump(folder: str, files: int, users: int, groups: int) -> None:
    with text_file(folder, "dump") as out:
        out.write(record(".", 0, 0, ["user::rwx", "group::r-x", "other::r-x"]))
        for n, at in enumerate(range(1, files, PER_DIRECTORY + 1)):
            write_directory(out, n, min(PER_DIRECTORY, files - at - 1), users, groups)


def write_tree(folder: str, files: int, users: int) -> None:
    """Writes the three texts."""
    write_dump(folder, files, users, write_people(folder, users))
