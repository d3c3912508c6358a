"""Files of a finding that are counted by a pattern of entries and a folder; and which files an earlier run had."""
from __future__ import annotations

from typing import Dict, FrozenSet, List, NamedTuple, Optional, Tuple

from ...base.names import parent_of, path_order, script_word
from .findings import FoundFiles, Mend


class PatternGroup(NamedTuple):
    """Files of which one pattern of entries is found."""

    folder: bytes  # The directory whose default ACL gives the entries, or the nearest one at or below which all files are.
    is_given: bool  # Whether it is the former.
    pattern: bytes
    files: FoundFiles

    def where(self, name: bytes) -> bytes:
        """In words, with the name of the folder."""
        return (b"by the default ACL of " if self.is_given else b"at or below ") + name


def common_folder(paths: List[bytes]) -> bytes:
    """The nearest directory at or below which all of some paths in path order are; of one file, what it is in."""
    first, last = path_order(paths[0]), path_order(paths[-1])
    number = next((place for place, (one, other) in enumerate(zip(first, last)) if one != other), min(len(first), len(last)))
    return b"/".join(first[:number]) if len(paths) > 1 else parent_of(paths[0])


def groups_of(found: FoundFiles) -> List[PatternGroup]:
    """The files that have a pattern, the largest group first."""
    groups: Dict[Tuple[bytes, Optional[bytes]], FoundFiles] = {}
    for path, mend in zip(found.paths, found.mends):
        if mend.pattern:
            groups.setdefault((mend.pattern, mend.giver), FoundFiles()).add([path], [mend])
    made = (PatternGroup(common_folder(files.paths) if giver is None else giver, giver is not None, pattern, files)
            for (pattern, giver), files in groups.items())
    return sorted(made, key=lambda it: -len(it.files))


# --- what an earlier run said


def line_of(name: str, path: bytes, mend: Mend) -> bytes:
    """What is kept of a file of a finding, to be known again: the finding, the path, and what is found."""
    return b" ".join([name.encode(), script_word(path), script_word(mend.pattern or mend.detail)])


def not_known(name: str, found: FoundFiles, known: FrozenSet[bytes]) -> FoundFiles:
    """The files that an earlier run did not say."""
    return found.without({path for path, mend in zip(found.paths, found.mends) if line_of(name, path, mend) in known}) if known else found
