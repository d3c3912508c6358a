"""facl snapshots: what is in the store."""
from __future__ import annotations

import argparse
import json
from typing import Dict, List, Mapping, Optional

from .. import VERSION
from ..base.messages import Command
from ..base.names import json_name, json_text, write_name
from ..base.tables import Column, Table, paged, write_table
from ..model import meta
from .store import Stored, age_text, none_there, place, snapshots_in

SCHEMA = "facl-snapshots/1"
COLUMNS = tuple(Column(name, name in ("FILES", "USERS")) for name in (
    "NAME", "HOST", "FOLDERS", "FILES", "USERS", "AGE", "WARNINGS"))
SOME, NONE = 0, 1


def write_object(command: Command, schema: str, fields: Mapping[str, object]) -> None:
    """Prints one object of JSON, which names its schema first."""
    command.write(json.dumps({"schema": schema, "version": VERSION, **fields}, indent=2).encode() + b"\n")


def numbers_of(stored: Stored) -> List[Optional[int]]:
    """Of files and of users."""
    return [None if stored.fault else stored.number(key) for key in (meta.FILES, meta.USERS)]


def row_of(stored: Stored, unknown: bytes) -> List[bytes]:
    about, age = stored.about, stored.age()
    numbers = (unknown if it is None else b"%d" % it for it in numbers_of(stored))
    return [write_name(stored.name), about.host or unknown, b" ".join(about.folders) or unknown, *numbers,
            unknown if age is None else age_text(age), b"; ".join(stored.warnings())]


def fields_of(stored: Stored) -> Dict[str, object]:
    files, users = numbers_of(stored)
    return {**meta.fields_of(stored.folder, stored.about), "files": files, "users": users,
            "age": stored.age(), "is_whole": not stored.fault, "warnings": [json_text(it) for it in stored.warnings()]}


def body(command: Command, given: argparse.Namespace) -> int:
    found = snapshots_in(place())[::-1]
    if given.json:
        write_object(command, SCHEMA, {"store": json_name(place()), "snapshots": [*map(fields_of, found)]})
    elif found or given.tsv:
        with paged(command, not given.no_pager):
            write_table(command, given, Table(COLUMNS, [row_of(it, b"" if given.tsv else b"-") for it in found]))
    else:
        command.tell(none_there())
    return SOME if found else NONE
