"""The files of a listing of the program in columns: their paths, and numbers of what their records have after the name. A million
files have few different ones, so what is said of records is said of these, and what is said of directories by folders."""
from __future__ import annotations

import itertools
import operator
from array import array
from typing import Dict, Iterable, Iterator, List, NamedTuple, Optional, Set, Tuple

from ..base.names import is_below, parent_of, read_name, way_to
from ..base.numbered import Numbers
from ..program.protocol import DEFAULT_ENTRY, FILE_HEAD
from ..program.session import OutputSlice
from .records import File, Files, blocks_in

ABOVE = -1  # What no recorded directory is above.
TOP = 0  # The number of what is above the root.
AlikeKey = Tuple[int, int]  # Of files that are alike: the number of the directories above, and that of what they are in a tree.


class Labels(Numbers[bytes]):
    """What records have after the name: owner, group, flags and lists."""

    def bodies(self) -> List[bytes]:
        """By number."""
        return [body + b"\n" for body in self]


class FileColumns(NamedTuple):
    """What is there at one time, in path order."""

    paths: List[bytes]
    labels: "array[int]"  # Of each file
    numbers: Labels  # one of these.
    folders: List[int]  # The places of those whose records say that they are directories.


def columns_of(listing: Iterable[OutputSlice], known: Optional[Labels] = None) -> FileColumns:
    """The files of listings that follow each other; `known` has labels of others."""
    labels = Labels() if known is None else known
    found, start = FileColumns([], array("i"), labels, []), len(FILE_HEAD)
    for records in blocks_in(listing):
        parts = [record.partition(b"\n") for record in records]
        names = [head[start:] for head, _, _ in parts]
        found.labels.extend(map(labels.__getitem__, [body for _, _, body in parts]))
        text = b"\n".join([*names, b""])
        if b"\\" in text or b"/\n" in text:  # A name with an escape, or of a directory with nothing in it.
            found.folders.extend(place for place, name in enumerate(names, len(found.paths)) if name[-1:] == b"/")
            names = [(read_name(name) if b"\\" in name else name).rstrip(b"/") for name in names]
        found.paths.extend(names)
    if found.paths[:1] == [b"."]:
        found.paths[0] = b""
        found.folders.append(0)
    with_default = {number for body, number in labels.items() if DEFAULT_ENTRY in body}
    if with_default:
        found.folders.extend(itertools.compress(itertools.count(), map(with_default.__contains__, found.labels)))
    return found


class FolderFiles(NamedTuple):
    """Files that follow each other in path order, and are in one directory."""

    folder: Optional[bytes]  # None of the root, which is in none.
    place: int  # Of the first of them.
    parent: int  # The place of the nearest recorded directory.
    depth: int  # How many files they are in.
    names: List[bytes]  # From that directory on.


def by_folder(paths: List[bytes]) -> Iterator[FolderFiles]:
    """All files, in path order: what the next ones are in is the last one, or one of those that this is in."""
    above: List[Tuple[bytes, int]] = []  # The last file, and those that it is in, each with its place.
    place = 0
    if paths[:1] == [b""]:
        yield FolderFiles(None, 0, ABOVE, 0, [b""])
        above, place = [(b"", 0)], 1
    parts = map(bytes.rpartition, itertools.islice(paths, place, None), itertools.repeat(b"/"))
    for folder, its in itertools.groupby(parts, operator.itemgetter(0)):
        names = [name for _, _, name in its]
        last = folder + b"/" * (folder != b"") + names[-1]
        while above and folder != above[-1][0] and not is_below(folder, above[-1][0]):
            above.pop()
        nearest, parent = above[-1] if above else (b"", ABOVE)
        if folder != nearest:  # Which is not recorded.
            begin = folder[len(nearest) + (nearest != b"") :] + b"/"
            names = [begin + name for name in names]
        yield FolderFiles(folder, place, parent, len(above), names)
        place += len(names)
        above.append((last, place - 1))


class FolderPlaces(NamedTuple):
    """The places of files that follow each other, and are in one directory."""

    folder: Optional[bytes]
    start: int
    end: int


class FileTree(NamedTuple):
    """Files in path order, each with the number of what it is."""

    paths: List[bytes]
    kinds: "array[int]"
    files: List[File]  # By number.
    runs: List[FolderPlaces]
    above: Files  # By path, in path order: all directories, and what other files are in.

    def part(self, places: Iterable[Tuple[int, int]]) -> FileTree:
        """The files from one place to another, of each pair; above are those of the whole tree."""
        found = self._replace(paths=[], kinds=array("i"), runs=[])
        for start, end in places:
            shift = len(found.paths) - start
            found.runs.extend(FolderPlaces(it.folder, max(it.start, start) + shift, min(it.end, end) + shift)
                              for it in self.runs if it.start < end and it.end > start)
            found.paths.extend(self.paths[start:end])
            found.kinds.extend(self.kinds[start:end])
        return found


def tree_of(listing: Iterable[OutputSlice], directories: Iterable[bytes]) -> FileTree:
    """The files of listings. A file is a directory by its record, by another file in it, or as one of `directories`."""
    paths, kinds, labels, folders = columns_of(listing)
    runs: List[FolderPlaces] = []
    places: Set[int] = set(folders)
    above: Set[int] = set()
    for its in by_folder(paths):
        runs.append(FolderPlaces(its.folder, its.place, its.place + len(its.names)))
        (places if its.parent != ABOVE and paths[its.parent] == its.folder else above).add(its.parent)
    lacking = {*directories}.difference(paths[place] for place in places)
    if lacking:
        places.update(place for place, path in enumerate(paths) if path in lacking)
    files = [File(False, body) for body in labels.bodies()]
    numbers: Dict[int, int] = {}  # Of directories, by labels.
    for place in places:
        number = numbers.setdefault(kinds[place], len(files))
        if number == len(files):
            files.append(File(True, files[kinds[place]].body))
        kinds[place] = number
    return FileTree(paths, kinds, files, runs, {paths[place]: files[kinds[place]] for place in sorted(places | above - {ABOVE})})


# --- files that are judged alike: those with one record, in directories with one record each, up to the root. What a user may do
# with a file depends on its owner, group and list, and along its path on search on each directory above.


class Chains:
    """Numbers of directories: two have one number where they, and all above them, have the same records."""

    def __init__(self, files: Files) -> None:
        self.files = files
        self.numbers: Dict[bytes, int] = {}  # By path.
        self.known: Dict[Tuple[int, Optional[bytes]], int] = {}

    def number(self, path: bytes) -> int:
        """Of a directory; of one that is not recorded, as of one without a record."""
        for it in way_to(path, self.numbers):
            above = self.numbers[parent_of(it)] if it else TOP
            file = self.files.get(it)
            pair = above, file.body if file else None
            self.numbers[it] = self.known.setdefault(pair, len(self.known) + 1)
        return self.numbers[path]


class AlikeFiles:
    """The files of some kinds in a tree by what they have in common; each file alone, or along its path."""

    def __init__(self, tree: FileTree, kinds: Set[int], is_alone: bool) -> None:
        self.tree, chains = tree, Chains(tree.above)
        self.above: List[int] = []  # By run.
        self.first: Dict[AlikeKey, bytes] = {}  # The path of the first file of each group, in path order.
        seen: Dict[int, Set[int]] = {}
        for run in tree.runs if kinds else []:
            above = TOP if is_alone or run.folder is None else chains.number(run.folder)
            new = kinds.intersection(tree.kinds[run.start : run.end]).difference(seen.setdefault(above, set()))
            if new:
                for kind, path in zip(tree.kinds[run.start : run.end], tree.paths[run.start : run.end]):
                    if kind in new:
                        self.first.setdefault((above, kind), path)
                seen[above] |= new
            self.above.append(above)

    def paths(self, keys: Iterable[AlikeKey]) -> Dict[AlikeKey, List[bytes]]:
        """The files of some groups, in path order."""
        tree = self.tree
        found: Dict[AlikeKey, List[bytes]] = {key: [] for key in keys}
        hot = {above for above, _ in found}
        for above, run in zip(self.above, tree.runs):
            for place in range(run.start, run.end) if above in hot else ():
                key = above, tree.kinds[place]
                if key in found:
                    found[key].append(tree.paths[place])
        return found
