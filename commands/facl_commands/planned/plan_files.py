"""What facl-apply does, as facl-plan writes it: the files of a plan, each with the file that it has to be, its old
record and its new one. And what it found when it began, the journal."""
from __future__ import annotations

import contextlib
import json
import operator
from typing import Any, Dict, Iterable, Iterator, List, NamedTuple, Sequence, Tuple

from ..base import acl_bytes
from ..base.acl_bytes import Record
from ..base.linux import Identity
from ..base.messages import Failure
from ..base.names import sorting_key

NOWHERE = Identity(0, 0, 0)  # Of a file of a snapshot without inodes.


class PlannedFile(NamedTuple):
    is_directory: bool
    identity: Identity
    same: int  # Files with one number are names of one file; 0 is of a file without other names.
    old: Record
    new: Record


class Work(NamedTuple):
    boot: str  # The start of the system in which devices had their numbers.
    files: Dict[bytes, PlannedFile]  # By path, in path order.


class Journal(NamedTuple):
    boot: str
    files: Dict[bytes, Identity]


def are_valid(record: Record) -> bool:
    """Whether the lists of a record are lists; it may have no default list."""
    return acl_bytes.is_valid(record.access) and (record.default == b"" or acl_bytes.is_valid(record.default))


def fields_of(record: Record) -> List[object]:
    """A record as a plan has it."""
    return [*record[:3], record.access.hex(), record.default.hex()]


def number_of(field: object) -> int:
    if not isinstance(field, int) or field < 0:
        raise ValueError
    return field


def read_record(fields: List[object]) -> Record:
    """A record of a plan; ValueError or TypeError where it is none."""
    owner, group, flags, access, default = fields
    if not (isinstance(access, str) and isinstance(default, str)):
        raise TypeError
    record = Record(number_of(owner), number_of(group), number_of(flags), bytes.fromhex(access), bytes.fromhex(default))
    if max(record.ids()) >= acl_bytes.NO_ID or record.flags & ~0o7000 or not are_valid(record):
        raise ValueError
    return record


def text_of(paths: Iterable[bytes], numbers: Iterable[Sequence[int]], **fields: object) -> bytes:
    """An object of JSON that has some fields, and rows of a path and numbers."""
    rows = [(path.decode("latin-1"), *row) for path, row in zip(paths, numbers)]
    return json.dumps({**fields, "files": rows}, separators=(",", ":")).encode() + b"\n"


def columns_of(rows: object, count: int) -> Tuple[List[bytes], List[Sequence[int]]]:
    """The paths of rows, and their `count` columns of numbers; ValueError or TypeError if `rows` is something else."""
    if not isinstance(rows, list) or not set(map(len, rows)) <= {count + 1}:
        raise TypeError
    columns: List[Sequence[Any]] = list(zip(*rows)) if rows else [[] for _ in range(count + 1)]
    if not set().union(*(map(type, column) for column in columns[1:])) <= {int, bool}:
        raise TypeError
    return [name.encode("latin-1") for name in columns[0]], columns[1:]


def identities_of(rows: object) -> Dict[bytes, Identity]:
    """Which file each path has to be of: a birth before 1970 is negative."""
    paths, (devices, inodes, births) = columns_of(rows, 3)
    return dict(zip(paths, map(Identity, devices, inodes, births)))


@contextlib.contextmanager
def as_written(name: bytes, by_whom: bytes) -> Iterator[None]:
    """Has a file of a plan read, which fails where it is another one than was written."""
    try:
        yield
    except (ValueError, KeyError, TypeError, IndexError, AttributeError, RecursionError, OverflowError, MemoryError) as error:
        raise Failure(name + b": is not what " + by_whom) from error


def read_work(name: bytes, text: bytes) -> Work:
    """What facl-plan wrote; each path once, in path order."""
    with as_written(name, b"facl plan wrote; make the plan again"):
        fields = json.loads(text)
        records = [read_record(row) for row in fields["records"]]
        paths, (kinds, devices, inodes, births, sames, olds, news) = columns_of(fields["files"], 7)
        least = min(min(column, default=0) for column in (kinds, sames, olds, news))
        changes = [(kind, records[old], records[new]) for kind, old, new in set(zip(kinds, olds, news))]
        # Each file changes, and none but a directory has a default list.
        are_changes = all(old != new and (kind or not old.default + new.default) for kind, old, new in changes)
        if not isinstance(fields["boot"], str) or not are_in_order(paths) or least < 0 or not are_changes:
            raise ValueError
        files = map(PlannedFile, map(bool, kinds), map(Identity, devices, inodes, births), sames,
                    map(records.__getitem__, olds), map(records.__getitem__, news))
        return Work(fields["boot"], dict(zip(paths, files)))


def are_in_order(paths: List[bytes]) -> bool:
    """Whether paths are in path order, each once, and none has a component that is empty or leads elsewhere."""
    keys = list(map(sorting_key, paths))
    named = paths[1:] if paths[:1] == [b""] else paths  # The root has no component.
    text = b"/" + b"/\0/".join(named) + b"/" * bool(named)
    return (all(map(operator.lt, keys, keys[1:])) and text.count(b"\0") == max(0, len(named) - 1)
            and not any(part in text for part in (b"//", b"/./", b"/../")))


def is_path(path: bytes) -> bool:
    """Whether no component is empty or leads elsewhere."""
    return are_in_order([path])


def journal_text(boot: str, files: Dict[bytes, Identity]) -> bytes:
    return text_of(files, files.values(), boot=boot)


def read_journal(name: bytes, text: bytes) -> Journal:
    with as_written(name, b"facl apply wrote"):
        fields = json.loads(text)
        return Journal(str(fields["boot"]), identities_of(fields["files"]))


class Devices:
    """Whether files are those that were recorded. After another start of the system a device can have another number:
    then each recorded one is one of the present ones."""

    def __init__(self, boot: str, present_boot: str) -> None:
        self.is_same_start = boot == present_boot and boot != "-"
        self.present: Dict[int, int] = {}

    def is_same(self, recorded: Identity, seen: Identity) -> bool:
        if recorded == seen and self.is_same_start or recorded == NOWHERE:
            return True
        births = {recorded.birth, seen.birth} - {0}
        return self.is_same_device(recorded.device, seen.device) and recorded.inode == seen.inode and len(births) < 2

    def is_same_device(self, recorded: int, seen: int) -> bool:
        if self.is_same_start:
            return recorded == seen
        if recorded not in self.present and seen in self.present.values():
            return False
        return self.present.setdefault(recorded, seen) == seen
