"""The files of a page: those of the listings before and after the edits, with their names, and what each is in."""
from __future__ import annotations

from array import array
from typing import Dict, Iterable, List, Optional, Sequence, Set

from ..base.names import sorting_key
from ..base.numbered import Numbers
from ..model.file_columns import ABOVE, FileColumns, by_folder, columns_of
from ..program.session import OutputSlice
from .columns import GONE, Tables, View, packed, shown_name


def list_files(listing: Iterable[OutputSlice], before: Optional[FileColumns] = None) -> FileColumns:
    """The files of a listing; where there are the same as before, their paths are kept once."""
    found = columns_of(listing)
    return found if before is None or found.paths != before.paths else found._replace(paths=before.paths)


class Names(Numbers[bytes]):
    """The names of files."""

    def column(self, names: List[bytes]) -> List[int]:
        """The next ones: of each how many names before the next new one it is."""
        known = len(self)
        numbers = list(map(self.__getitem__, names))
        if len(self) == known:
            return [known - number for number in numbers]
        found = []
        for number in numbers:
            found.append(known - number)
            known = max(known, number + 1)
        return found


class Columns:
    """The files in path order, so that a file is in an earlier one, and nothing is nested."""

    def __init__(self, listings: List[FileColumns]) -> None:
        self.listings = listings
        first = listings[0].paths
        is_same = listings[-1].paths is first
        # In the order of their kinds: those of the first listing, and then new ones.
        self.known = first if is_same else [*dict.fromkeys([*first, *listings[-1].paths])]
        self.paths = first if is_same else sorted(self.known, key=sorting_key)
        self.names = Names()
        self.columns = array("i"), array("i"), array("i")
        name_of, depths, self.parents = self.columns
        self.above: Set[int] = set()  # All parents.
        for its in by_folder(self.paths):
            self.above.add(its.parent)
            name_of.extend(self.names.column(its.names))
            depths.extend([its.depth] * len(its.names))
            self.parents.extend([its.parent] * len(its.names))

    def labels(self, listing: FileColumns, paths: List[bytes]) -> Sequence[int]:
        """The labels of some files."""
        if paths is listing.paths:
            return listing.labels
        known = dict(zip(listing.paths, listing.labels))
        return [known.get(path, GONE) for path in paths]

    def folders(self, listing: FileColumns, labels: Sequence[int]) -> Set[int]:
        """The places of what is a directory in a listing: by its record, or since another file is in it."""
        if labels is listing.labels:
            return {*listing.folders, *self.above} - {ABOVE}
        known = {listing.paths[place] for place in listing.folders}
        found = {place for place, path in enumerate(self.paths) if path in known}
        return found.union(parent for parent, label in zip(self.parents, labels) if label != GONE) - {ABOVE}

    def data(self, tables: Tables, views: List[View]) -> Dict[str, object]:
        """The columns: names, depths and kinds; and by places the kind before, where the file was another one."""
        labels = [self.labels(listing, self.paths) for listing in self.listings]
        folders = [self.folders(*its) for its in zip(self.listings, labels)]
        places = sorted(folders[0] | folders[-1])
        kinds = []
        for view, listing, its in zip(views[::-1], self.listings[::-1], labels[::-1]):
            kinds.append(tables.kinds_of(view, its, self.labels(listing, self.known), places))
            tables.find_insides(kinds[-1], places, self.parents)
        others = folders[0] ^ folders[-1]
        if len(kinds) > 1:
            others.update(place for place, (old, new) in enumerate(zip(kinds[-1], kinds[0])) if old != new)
        return {"count": len(self.paths), "names": "\n".join(shown_name(name) or "/" for name in self.names),
                "name": packed(self.columns[0]), "depth": packed(self.columns[1]), "kind": packed(kinds[0]),
                "changed": {place: kinds[-1][place] for place in sorted(others)}}
