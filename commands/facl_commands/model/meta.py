"""What a snapshot is of: the host, the time and the folders, as facl-snapshot keeps them in the file `meta`."""
from __future__ import annotations

import os
from typing import Dict, List, NamedTuple, Optional

from ..base import beside
from ..base.folders import folder_of, is_folder
from ..base.names import json_name, json_text, number_of

NAME = b"meta"
FILES, USERS, GROUPS, LINKED = b"files", b"users", b"groups", b"linked-names"  # How many are recorded.
EXCLUDED, UNREAD = b"excluded", b"unread"  # How many names are left out, and how many could not be read.
ASKED = b"users-asked-for"  # Of the users those whom the list of getent lacks.
PART = b"part"  # Of several snapshots, `001 of 003`.
MARKED = beside.NAME  # How many lines the file marks has.
NUMBERS = (FILES, USERS, GROUPS, LINKED, EXCLUDED, UNREAD, ASKED, PART, MARKED, *beside.KINDS)


class Meta(NamedTuple):
    host: bytes
    date: bytes  # In UTC.
    folders: List[bytes]
    version: bytes = b""  # Of the facl that made it.
    excludes: List[bytes] = []  # The globs of --exclude.
    mounts: List[bytes] = []  # Mount points of other file systems, which are left out.
    numbers: Dict[bytes, bytes] = {}  # Those of NUMBERS that it has.

    def text(self) -> bytes:
        """In a line of a command: of which host, and when."""
        return b"of " + self.host + b", " + self.date


UNKNOWN = Meta(b"", b"", [])


def read_meta(text: bytes) -> Meta:
    """Lines of a key and a value; UNKNOWN where host or date are not there."""
    found: Dict[bytes, List[bytes]] = {}
    for line in text.splitlines():
        key, _, value = line.partition(b" ")
        found.setdefault(key, []).append(value)
    if b"host" not in found or b"date" not in found:
        return UNKNOWN
    return Meta(found[b"host"][0], found[b"date"][0], found.get(b"folder", []), found.get(b"version", [b""])[0],
                found.get(b"exclude", []), found.get(b"other-file-system", []),
                {key: found[key][0] for key in NUMBERS if key in found})


def text_of(folder: bytes) -> bytes:
    """The file of a snapshot; empty where it has none."""
    return folder_of(folder).optional(NAME) if is_folder(folder) else b""


def meta_of(folder: bytes) -> Meta:
    return read_meta(text_of(folder))


def users_asked_for(meta: Meta) -> Optional[int]:
    """How many of its users the list of getent lacks: those of a directory service whom facl-snapshot asked for, also by
    --users. None where that is not known."""
    number = meta.numbers.get(ASKED, b"")
    return number_of(number) if number.isdigit() else None


def fields_of(folder: bytes, meta: Meta) -> Dict[str, object]:
    """What JSON has of the snapshot in a folder."""
    host, date = (None if meta is UNKNOWN else json_text(text) for text in (meta.host, meta.date))
    return {"name": json_name(os.path.basename(folder.rstrip(b"/"))), "path": json_name(folder), "host": host, "date": date,
            "folders": [*map(json_text, meta.folders)], "excludes": [*map(json_text, meta.excludes)],
            "users_asked_for": users_asked_for(meta)}


def is_of_another_host(meta: Meta) -> bool:
    return meta is not UNKNOWN and meta.host != os.fsencode(os.uname().nodename)


def named(name: bytes, meta: Meta) -> bytes:
    """The name of a snapshot, with what it is of."""
    return name if meta is UNKNOWN else name + b" (" + meta.text() + b")"
