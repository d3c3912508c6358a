"""A user who exchanges and moves files and folders while facl-snapshot records them, and what a snapshot may have of them."""
from __future__ import annotations

import os
import time
from typing import Callable, Dict, List, NamedTuple, NoReturn, Tuple

from .live_tree import LIBRARY, MALLORY, exchange, expect, make, must, records_of, remove, run

FILES = 240
USER_ENTRY = 100000  # The first id of the entries, each of one file.
OWN, ROOT = (MALLORY, 0)
MOVED_FILES, LEVELS = 50_000, 60  # More files in all than a snapshot can have.
OPENED = 0x20  # Of inotify.


class Way(NamedTuple):
    """What changes places: files of the folder d with those of e, or d with e; e has links or files of this owner, or is a
    link, where they lead outside."""

    title: str
    is_of_folders: bool
    owner: int
    leads_outside: bool
    pause: float = 0.0


WAYS = (
    Way("two files of one owner", False, OWN, False), Way("files of two owners", False, ROOT, False),
    Way("a file and a link of the user", False, OWN, True), Way("a file and a link of root", False, ROOT, True),
    Way("a folder and a link, quickly", True, OWN, True), Way("a folder and a link, a tenth of a second", True, OWN, True, 0.1),
    Way("two folders", True, OWN, False),
)


def make_files(folder: bytes, owner: int) -> None:
    make(folder + b"/", 0o755, MALLORY, MALLORY)
    for number in range(FILES):
        make(b"%s/%03d" % (folder, number), 0o640, owner, owner)


def make_race(top: bytes, way: Way) -> None:
    """A folder of MALLORY with what is to be exchanged, and a closed folder of root; each file has a list of its own."""
    remove(top)
    make(top + b"/", 0o755)
    make(top + b"/tree/", 0o755, MALLORY, MALLORY)
    make_files(top + b"/tree/d", MALLORY)
    make_files(top + b"/outside", ROOT)
    os.chmod(top + b"/outside", 0o700)
    os.chown(top + b"/outside", 0, 0)
    other = top + b"/tree/e"
    if way.leads_outside and way.is_of_folders:
        os.symlink(top + b"/outside", other)
        os.lchown(other, way.owner, way.owner)
    elif way.leads_outside:
        make(other + b"/", 0o755, MALLORY, MALLORY)
        for number in range(FILES):
            name = b"%s/%03d" % (other, number)
            os.symlink(b"%s/outside/%03d" % (top, number), name)
            os.lchown(name, way.owner, way.owner)
    else:
        make_files(other, way.owner)
    names = [b"%s/%03d" % (folder, number) for folder in (top + b"/tree/d", top + b"/outside", other) for number in range(FILES)]
    plain = [name for name in names if os.path.realpath(name) == name]
    lists = b"".join(b"# file: %s\nu::rw-\nu:%d:r--\ng::r--\nm::r--\no::---\n\n" % it for it in zip(plain, range(USER_ENTRY, 1 << 20)))
    must(run([b"setfacl", b"--restore=-"], lists), 0)


def meddling(top: bytes, way: Way) -> Callable[[], NoReturn]:
    """What MALLORY does until it is ended; it ends by itself where names do not change places."""
    one, other = top + b"/tree/d", top + b"/tree/e"
    pairs = [(b"%s/%03d" % (one, number), b"%s/%03d" % (other, number)) for number in range(FILES)]

    def meddle() -> NoReturn:
        while True:
            for pair in [(one, other)] if way.is_of_folders else pairs:
                expect(exchange(*pair), f"{pair} do not change places")
                time.sleep(way.pause) if way.pause else None

    return meddle


def make_chain(top: bytes) -> List[bytes]:
    """A chain of directories of MALLORY, and a large one in the first of them, which is looked at before the next of the chain;
    the places of the large one in all of them."""
    make(top + b"/", 0o755, MALLORY, MALLORY)
    name = b"next"
    places = [top + b"/large"]
    for _ in range(LEVELS):
        above = os.path.dirname(places[-1])
        make(os.path.join(above, name) + b"/", 0o755, MALLORY, MALLORY)
        places.append(os.path.join(above, name, b"large"))
    make(places[0] + b"/", 0o755, MALLORY, MALLORY)
    for number in range(MOVED_FILES):
        os.mknod(b"%s/%d" % (places[0], number))
    return places


def moving(places: List[bytes]) -> Callable[[], None]:
    """Has MALLORY move a directory to its next place each time that somebody opens it."""

    def move() -> None:
        events = LIBRARY.inotify_init()
        expect(LIBRARY.inotify_add_watch(events, places[0], OPENED) > 0, "inotify does not watch")
        for place, following in zip(places, places[1:]):
            os.read(events, 4096)
            os.rename(place, following)

    return move


Known = Dict[Tuple[int, int], List[bytes]]


def known_records(top: bytes) -> Known:
    """The records of the files of the tree by device and inode."""
    listing = must(run([b"getfacl", b"-R", b"-P", b"-n", b"-p", b"--", top + b"/tree"]), 0)
    found = {}
    for name, record in records_of(listing).items():
        look = os.lstat(name)
        found[look.st_dev, look.st_ino] = record
    return found


def wrong_records(top: bytes, known: Known, dump: bytes, inodes: bytes) -> List[str]:
    """The records of the tree that are of no file of it, or of another file than inodes has."""
    files = {}
    for record in inodes.split(b"\0")[1:-1]:
        device, inode, _, name = record.split(b" ", 3)
        files[name.rstrip(b"/")] = int(device), int(inode)
    found = []
    for name, lines in records_of(dump).items():
        if name.startswith(top + b"/tree"):
            if files.get(name) not in known:
                found.append(f"{name!r} is {files.get(name)}, a link or a file outside")
            elif known[files[name]] != lines:
                found.append(f"{name!r} has the record of another file")
    return found
