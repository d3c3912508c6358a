"""The parts of a tree, which facl-snapshot --split makes in one folder, read as one snapshot.

The parts have the files in path order. Each part also has the directories above its first file, which the parts before it have
too: a file is taken from the first part that has it.
"""
from __future__ import annotations

import os
from bisect import bisect_right
from collections import Counter
from typing import Dict, Iterable, Iterator, List, Optional, Set, Tuple

from ..base.folders import folder_of, is_folder
from ..base.messages import Failure
from ..base.names import sorting_key, write_name
from ..program.protocol import FILE_HEAD
from . import meta
from .snapshot import NEEDED, check_texts, read_links

DEVICE = 1 << 64  # An inode is less.


def parts_in(folder: bytes) -> List[bytes]:
    """The folders of the parts, in path order; none where the folder is a snapshot itself. Fails where a part is missing."""
    names = folder_of(folder).parts if is_folder(folder) else []
    for number, name in enumerate(names, 1):
        about = meta.meta_of(os.path.join(folder, name))
        if int(name) != number or about.numbers.get(meta.PART) != b"%s of %03d" % (name, len(names)):
            raise Failure(folder + b": lacks parts of its tree, or has parts of another one: make it again with facl snapshot --split")
    return [os.path.join(folder, name) for name in names]


def snapshots_in(folder: bytes) -> List[bytes]:
    """The folders of the parts; the folder alone where it is a snapshot."""
    return parts_in(folder) or [folder]


def check_all(folder: bytes) -> List[bytes]:
    """The same, each of which has its texts; fails as check_texts does."""
    found = snapshots_in(folder)
    for it in found:
        check_texts(it)
    return found


def meta_of_all(parts: List[bytes]) -> meta.Meta:
    """What some parts are of, with the numbers that are those of all."""
    found = meta.meta_of(parts[0])
    unread = [meta.meta_of(it).numbers.get(meta.UNREAD, b"0") for it in parts]
    numbers = {key: found.numbers[key] for key in (meta.EXCLUDED, meta.ASKED) if key in found.numbers}
    return found._replace(numbers={**numbers, meta.UNREAD: b"%d" % sum(int(it) for it in unread if it.isdigit())})


class Once:
    """Lets the paths of parts through, a part after the other, those alone that come after all before."""

    def __init__(self) -> None:
        self.last: Optional[bytes] = None

    def is_new(self, path: bytes) -> bool:
        return self.of_part([path]) != []

    def of_part(self, paths: Iterable[bytes]) -> List[bytes]:
        """Those of the paths of the next part, which are in path order."""
        found = list(paths)
        if self.last is not None:
            found = found[bisect_right(list(map(sorting_key, found)), self.last) :]
        self.last = sorting_key(found[-1]) if found else self.last
        return found


def recorded_in(parts: Iterable[bytes], paths: Iterable[bytes]) -> Set[bytes]:
    """Those of some paths that snapshots by facl-snapshot record."""
    wanted, found = set(paths), {b""}
    for folder in parts:
        dump = b"\n" + folder_of(folder).read(NEEDED[2])
        for path in wanted - found:
            start = b"\n" + FILE_HEAD + b"/" + write_name(path)
            if start + b"\n" in dump or start + b"/\n" in dump:
                found.add(path)
    return found & wanted


# --- names of one file


def files_in(folder: bytes) -> Iterator[Tuple[int, bytes]]:
    """The names of a snapshot by the file `inodes`, each with a number that is its file's."""
    for record in folder_of(folder).optional(b"inodes").split(b"\0")[1:-1]:
        device, inode, _, path = record.split(b" ", 3)
        yield int(device) * DEVICE + int(inode), path


def links_in(parts: List[bytes]) -> List[List[bytes]]:
    """The sets of paths that are one file, in parts also those of several parts."""
    if len(parts) == 1:
        return read_links(folder_of(parts[0]).optional(b"links"))
    counts = Counter(file for folder in parts for file, _ in files_in(folder))
    names: Dict[int, Set[bytes]] = {file: set() for file in sorted(file for file, count in counts.items() if count > 1)}
    for folder in parts:
        for file, name in files_in(folder):
            if file in names:
                names[file].add(name)  # A directory above the first file of a part is in several parts by one name.
    return [[it.strip(b"/") for it in sorted(its)] for its in names.values() if len(its) > 1]
