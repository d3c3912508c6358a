"""Files that have another path than before: by device, inode and time of birth, as the snapshots have them."""
from __future__ import annotations

from typing import Dict, Iterable, List, NamedTuple, Set, Tuple

from ...base.names import parent_of, sorting_key
from ...model import split_tree
from ...model.snapshot import NO_BOOT, Inodes, read_some
from .states import Pair, State


class Moved(NamedTuple):
    old: bytes  # The paths.
    new: bytes


def read_all(state: State, paths: Set[bytes]) -> Inodes:
    """The same of all parts of a snapshot."""
    found = [read_some(folder, paths) for folder in state.folders]
    return Inodes(found[0].boot, {path: it for part in reversed(found) for path, it in part.files.items()})


def names_of_one_file(state: State) -> Set[bytes]:
    """The paths of files that have several."""
    return {path for names in split_tree.links_in(state.folders) for path in names}


def by_file(inodes: Inodes, with_device: bool) -> Dict[Tuple[int, ...], List[bytes]]:
    """The paths of each file. One whose time of birth is not known can have the inode of another one that is gone, and
    is left out."""
    found: Dict[Tuple[int, ...], List[bytes]] = {}
    for path, it in inodes.files.items():
        if it.birth:
            found.setdefault(tuple(it) if with_device else (it.inode, it.birth), []).append(path)
    return found


def find_moved(old: State, new: State, pairs: Iterable[Pair]) -> List[Moved]:
    """The files of one name that are gone from a path, and are there by a new one."""
    both = list(pairs)
    gone = {pair.path: pair.old.is_directory for pair in both if pair.old is not None and pair.new is None}
    made = {pair.path: pair.new.is_directory for pair in both if pair.new is not None and pair.old is None}
    if not gone or not made:
        return []
    before, after = read_all(old, set(gone)), read_all(new, set(made))
    with_device = before.boot == after.boot != NO_BOOT
    several = names_of_one_file(old) | names_of_one_file(new)
    places = by_file(after, with_device)
    found = []
    for identity, names in by_file(before, with_device).items():
        there = places.get(identity, [])
        if len(names) == len(there) == 1 and several.isdisjoint((names[0], there[0])):
            if gone[names[0]] == made[there[0]]:
                found.append(Moved(names[0], there[0]))
    return sorted(found, key=lambda it: sorting_key(it.old))


class Moves(NamedTuple):
    """Moves, each of a file or a folder with all that went with it, by numbers from 1 on; and the number of each path, old and
    new."""

    tops: List[Moved]
    numbers: Dict[bytes, int]


NO_MOVES = Moves([Moved(b"", b"")], {})


def moves_of(moved: Iterable[Moved], pairs: Iterable[Pair]) -> Moves:
    """What is gone from a folder that moved, and is there by the same name in it, moved with it."""
    to = {it.old: it.new for it in moved}
    gone, made = [], set()
    for pair in pairs if to else ():
        if pair.new is None:
            gone.append(pair.path)
        elif pair.old is None:
            made.add(pair.path)
    tops, numbers = [*NO_MOVES.tops], {**NO_MOVES.numbers}
    for path in sorted(gone, key=sorting_key):
        above = parent_of(path)
        there = to[above] + path[len(above) :] if above in to else None
        new = to.setdefault(path, there) if there is not None and there in made else to.get(path)
        if new is not None:
            if new != there:
                tops.append(Moved(path, new))
            numbers[path] = numbers[new] = numbers[above] if new == there else len(tops) - 1
    return Moves(tops, numbers)
