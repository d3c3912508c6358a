"""What a found file may be meant to be, and which lines that mend are left out, so that a person decides: a line that closes a
drop box, one on a top folder, and one that grants something to somebody.
"""
from __future__ import annotations

import itertools
from typing import Dict, FrozenSet, Iterable, List, Set

from ...base.names import directories_above
from ...model.entries import MASK_KEY, OWNER_KEY, ReadRecord, flag_digit, read_record
from ...model.file_columns import FileTree
from ...model.rules_of_lists import is_sticky, writing
from .findings import Findings, FoundFiles, Mend

SET_GROUP = 2  # In the digit of flags.
# The findings whose lines take w; those whose lines may take search too.
TAKES_WRITE = {"writable-by-everybody", "writable-behind-closed", "writer-outside-groups"}
TAKES_SEARCH = {"empty-mask", "owner-without-row", "entry-without-row", "entry-without-effect"}
OF_WRITERS = {*TAKES_WRITE, "writable-by-teams"}
OF_ALL = {"writable-by-everybody", "writable-behind-closed"}
BOX, TEAM = b"a drop box, which people write in and do not read", b"a set-group-ID folder, in which a team shares its files"
FOR_ALL = b"a sticky folder for all, as /tmp is, where nobody removes files of others"
OPEN_BOX = b"who drops files here; each line would keep somebody out"
BOX_BELOW = b"who passes here to a drop box below; each line would keep somebody out"
TOP = b"who needs what is below; a change of a top folder is about all of it"


def is_drop_box(record: ReadRecord) -> bool:
    """Whether an entry of others, of a user or of a group lets somebody write in a directory, and not read it."""
    entries = (it for it in record.access if it.key not in (OWNER_KEY, MASK_KEY))
    return any(it.grants(writing(is_directory=True)) and not it.grants(b"r") for it in entries)


class SpecialFolders:
    """The directories of a snapshot, or of all of its parts, of which findings have something to say."""

    def __init__(self) -> None:
        self.tops: Set[bytes] = set()
        self.paths: Dict[bytes, Set[bytes]] = {BOX: set(), TEAM: set(), FOR_ALL: set()}  # By what they may be meant to be.

    def add(self, tree: FileTree, tops: Iterable[bytes]) -> None:
        self.tops.update(itertools.chain.from_iterable([top, *directories_above(top)] for top in tops))
        of_file: Dict[bytes, FrozenSet[bytes]] = {}
        for path, file in tree.above.items():
            if file.body not in of_file:
                record = read_record(file.body)
                signs = (BOX, is_drop_box(record)), (TEAM, flag_digit(record.flags) & SET_GROUP), (FOR_ALL, is_sticky(record.flags))
                of_file[file.body] = frozenset(text for text, is_so in signs if is_so)
            for text in of_file[file.body]:
                self.paths[text].add(path)

    def checked(self, findings: Findings) -> Findings:
        """Findings with what may be meant, and with the lines alone that are safe."""
        above_boxes = {it for box in self.paths[BOX] for it in directories_above(box)}
        special = self.tops.union(above_boxes, *self.paths.values())
        found = {}
        for name, files in findings.items():
            mends = [self.mend(name, path, mend, above_boxes) if path in special or b"/" not in path else mend
                     for path, mend in zip(files.paths, files.mends)]
            found[name] = FoundFiles()
            found[name].add(files.paths, mends)
        return found

    def mend(self, name: str, path: bytes, mend: Mend, above_boxes: Set[bytes]) -> Mend:
        reasons: List[bytes] = [mend.decide]
        if path in self.paths[BOX] and name in TAKES_WRITE | TAKES_SEARCH:
            reasons.append(OPEN_BOX)
        elif path in above_boxes and name in TAKES_SEARCH:
            reasons.append(BOX_BELOW)
        elif path in self.tops or b"/" not in path:
            reasons.append(TOP)
        decide = next(filter(None, reasons), b"")
        kinds = ((BOX, OF_WRITERS), (FOR_ALL, OF_ALL), (TEAM, OF_WRITERS))
        mend = mend._replace(meant=next((it for it, names in kinds if name in names and path in self.paths[it]), mend.meant))
        return mend.for_a_person(decide) if decide else mend
