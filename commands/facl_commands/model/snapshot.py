"""A snapshot: the folder that facl-snapshot makes."""
from __future__ import annotations

import itertools
import operator
import re
from typing import Dict, Iterator, List, Mapping, NamedTuple, Set, Tuple

from ..base.folders import TEXTS, Folder, folder_of, is_folder
from ..base.linux import Identity
from ..base.messages import Failure
from ..base.names import number_of, read_path
from ..program.session import cut
from . import meta

NEEDED = TEXTS
FIELDS = 4  # Of a record of inodes.
NO_BOOT = b"-"  # Of a system that does not say since when it runs.
PLAIN_BIRTHS = re.compile(rb"(?:[0-9]+\.[0-9]+ )*")
PIECE = 1 << 18  # Bytes.


class Snapshot(NamedTuple):
    folder: bytes
    passwd: bytes
    group: bytes
    links: List[List[bytes]]  # Sets of paths that are one file.
    boot: str  # The start of the system in which devices had their numbers.
    inodes: Dict[bytes, Identity]  # By path; none where the snapshot does not have them.


def read_links(text: bytes) -> List[List[bytes]]:
    return [[read_path(name) for name in names.splitlines()] for names in text.split(b"\n\n") if names]


class InodeCounts(NamedTuple):
    """What the file inodes has."""

    names: int  # How many names,
    files: int  # and of how many files.
    found: Mapping[bytes, Tuple[int, ...]]  # By path: device and inode first, at least of names that are in links.


def read_inodes(text: bytes) -> Dict[bytes, Identity]:
    """The records after the first one, `DEVICE INODE BIRTH NAME`, each of which ends in a NUL byte."""
    found = {}
    if text and not text.endswith(b"\0"):
        raise ValueError
    for record in text.split(b"\0")[1:-1]:
        device, inode, birth, name = record.split(b" ", 3)
        found[name.strip(b"/")] = Identity(int(device), int(inode), nanoseconds(birth))
    return found


class Inodes(NamedTuple):
    """Which files some paths are, by the file `inodes` of a snapshot."""

    boot: bytes
    files: Dict[bytes, Identity]


def read_some(folder: bytes, paths: Set[bytes]) -> Inodes:
    """What is known of some paths; nothing where the snapshot has no inodes."""
    records = folder_of(folder).optional(b"inodes").split(b"\0")
    found: Dict[bytes, Identity] = {}
    for record in records[1:-1]:
        fields = record.split(b" ", 3)
        path = fields[-1].strip(b"/")
        if path in paths and len(fields) == 4 and fields[0].isdigit() and fields[1].isdigit():
            found[path] = Identity(int(fields[0]), int(fields[1]), nanoseconds(fields[2]))
    return Inodes(records[0].partition(b" ")[2] or NO_BOOT, found)


def counts_of(inodes: Dict[bytes, Identity]) -> InodeCounts:
    return InodeCounts(len(inodes), len({it[:2] for it in inodes.values()}), inodes)


def columns_of_inodes(text: bytes) -> Iterator[List[List[bytes]]]:
    """The devices, inodes, births and names of many records at once, with a byte in the place of a slash that is less than all in
    names; ValueError where they are not as facl-snapshot writes them, for which they may be others."""
    if not text.endswith(b"\0") or b"\1" in text:
        raise ValueError
    pieces = (text[place : place + PIECE] for place in range(text.index(b"\0") + 1, len(text), PIECE))
    for records in filter(None, cut(pieces, b"\0")):
        fields = b" ".join(records).replace(b"/", b"\1").split(b" ")
        if len(fields) != FIELDS * len(records):  # A name has a blank.
            fields = [it.replace(b"/", b"\1") for record in records for it in record.split(b" ", FIELDS - 1)]
        columns = [fields[place::FIELDS] for place in range(FIELDS)]
        if len(fields) != FIELDS * len(records) or not PLAIN_BIRTHS.fullmatch(b" ".join([*columns[2], b""])):
            raise ValueError
        yield columns


def count_inodes(text: bytes, wanted: Set[bytes]) -> InodeCounts:
    """The counts of names in path order, which are different ones then, and what records of some of them say."""
    files: Dict[int, Set[int]] = {}  # By device.
    found: Dict[bytes, Tuple[int, ...]] = {}
    last: List[bytes] = []
    number = 0
    for devices, inodes, _, names in columns_of_inodes(text):
        paths = [*last, *map(bytes.strip, names, itertools.repeat(b"\1"))]
        if not all(map(operator.lt, paths, paths[1:])):
            raise ValueError
        for device in set(devices):
            its = inodes if devices.count(device) == len(devices) else itertools.compress(inodes, map(device.__eq__, devices))
            files.setdefault(int(device), set()).update(map(int, its))
        if wanted:
            both = zip((path.replace(b"\1", b"/") for path in paths[len(last) :]), devices, inodes)
            found.update((path, (int(device), int(inode))) for path, device, inode in both if path in wanted)
        last, number = paths[-1:], number + len(names)
    return InodeCounts(number, sum(map(len, files.values())), found)


def look_at_inodes(text: bytes, wanted: Set[bytes]) -> InodeCounts:
    """The same of all that facl reads."""
    try:
        return count_inodes(text, wanted)
    except ValueError:
        return counts_of(read_inodes(text))


def fault_of_inodes(folder: bytes, text: bytes, names: int) -> bool:
    """Whether the file inodes is cut: it has fewer names than facl snapshot recorded, or not even its first record."""
    recorded = meta.meta_of(folder).numbers.get(meta.FILES, b"0")
    return not text.startswith(b"boot ") or not recorded.isdigit() or number_of(recorded) > names


def fault_of_links(links: List[List[bytes]], inodes: InodeCounts) -> bool:
    """Whether links are not the sets of names that are one file by inodes."""
    names = [name for its in links for name in its]
    files = [{inodes.found[name][:2] if name in inodes.found else None for name in its} for its in links]
    more = inodes.names - inodes.files  # Names beside the first one of each file.
    is_same = all(len(its) == 1 and None not in its for its in files) and len(set(names)) == len(names)
    return not is_same or len(names) - len(links) != more


def nanoseconds(text: bytes) -> int:
    """A number of seconds with nine digits after its point, or 0."""
    seconds, _, rest = text.partition(b".")
    return int(seconds) * 1_000_000_000 + int(rest.ljust(9, b"0")) if seconds.isdigit() else 0


def check_texts(folder: bytes) -> Folder:
    """Opens the folder; fails where the program would not find its texts, or somebody else can have written them."""
    if not is_folder(folder):
        raise Failure(folder + b": no such folder; make a snapshot with facl snapshot")
    found = folder_of(folder)
    for name in NEEDED:
        if not found.has(name):
            raise Failure(folder + b": is not a snapshot: it has no " + name)
        found.open_text(name)  # Which fails where it is not trusted.
    return found


def read_snapshot(folder: bytes, needs_links: bool = True, needs_inodes: bool = True) -> Snapshot:
    """A snapshot; one without links, which facl-snapshot did not make, only where these are not needed. Inodes that are not needed
    are looked through, and not kept."""
    found = check_texts(folder)
    if needs_links and not found.has(b"links"):
        raise Failure(folder + b": is not a snapshot: it has no links; make one with facl snapshot")
    passwd, group = map(found.read, NEEDED[:2])
    links = read_links(found.optional(b"links"))
    text = found.optional(b"inodes")
    boot = text.partition(b"\0")[0].partition(b" ")[2].decode("ascii", "replace") or "-"  # In the first record.
    again = b": make the snapshot again"
    try:
        inodes = read_inodes(text) if needs_inodes else {}
        counts = counts_of(inodes) if needs_inodes else look_at_inodes(text, {name for its in links for name in its})
    except ValueError as error:
        raise Failure(folder + b"/inodes: is not what facl snapshot wrote" + again) from error
    if found.has(b"inodes") and fault_of_inodes(folder, text, counts.names):
        raise Failure(folder + b"/inodes: has fewer names than facl snapshot recorded" + again)
    if found.has(b"inodes") and fault_of_links(links, counts):
        raise Failure(folder + b"/links: has other names of files than inodes, so it is not what facl snapshot wrote" + again)
    return Snapshot(folder, passwd, group, links, boot, inodes)
