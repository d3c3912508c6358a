"""The store of snapshots: /var/lib/facl, of another user than root a folder of the user's own. A snapshot is named by
its time, and the newest one of this host is meant where a person names none.

Nobody else than root and the caller may be able to write there. An incomplete snapshot is never chosen.
"""
from __future__ import annotations

import datetime
import os
import re
import stat
import time
from typing import Iterator, List, NamedTuple, Optional, Tuple

from ..base import folders, new_file, trusted
from ..base.messages import Failure, counted, held, reason
from ..base.names import is_at_or_below, live_name, read_path
from ..model import choice, meta, split_tree

OF_ROOT = b"/var/lib/facl"
STORE, SNAPSHOT = b"FACL_STORE", b"FACL_SNAPSHOT"  # In the environment: another store, and the snapshot that is meant.
DATE = "%Y-%m-%dT%H:%M:%SZ"  # As meta has it.
NAME = "%Y-%m-%dT%H%M%S"  # Of a snapshot, in the time of the system.
ONE_DAY = re.compile(rb"[0-9]{4}-[0-9]{2}-[0-9]{2}")
UNFINISHED = re.compile(rb".+\.[A-Za-z0-9]{6}")  # The work folder of a facl-snapshot.
MINUTE, HOUR, DAY = 60, 3600, 86400
YEARS = range(1970, 9999)  # Of times that are the same in every zone; others nobody took.
TO_COME = b"of a time that is still to come, so a clock was wrong"
MOST_NAMES = 5  # In a message.


class Stored(NamedTuple):
    """A snapshot, in the store or in another folder."""

    name: bytes
    folder: bytes
    about: meta.Meta
    parts: List[bytes]  # The folders of its parts; none where it has none.
    fault: bytes  # Why it is incomplete; empty where it is whole.

    def is_of_this_host(self) -> bool:
        return self.about is not meta.UNKNOWN and not meta.is_of_another_host(self.about)

    def taken(self) -> Optional[float]:
        """The time of the snapshot, in seconds; None where that is not known."""
        try:
            found = datetime.datetime.strptime(self.about.date.decode("ascii", "replace"), DATE)
        except ValueError:
            return None
        return found.replace(tzinfo=datetime.timezone.utc).timestamp() if found.year in YEARS else None

    def is_to_come(self) -> bool:
        """Whether the clock was ahead when it was made, or was set back since."""
        age = self.age()
        return age is not None and age < -MINUTE

    def order(self) -> Tuple[float, bytes]:
        """By what the snapshots of a store are sorted; one of a time to come is not the newest for ever."""
        return 0.0 if self.is_to_come() else self.taken() or 0.0, self.name

    def age(self) -> Optional[int]:
        taken = self.taken()
        return None if taken is None else int(time.time() - taken)

    def number(self, key: bytes) -> Optional[int]:
        """A number of meta. How many files parts have together is not known: some directories are in several."""
        about = self.about if not self.parts or key == meta.UNREAD else meta.meta_of(self.parts[0])
        found = about.numbers.get(key, b"")
        return int(found) if found.isdigit() and not (self.parts and key == meta.FILES) else None

    def warnings(self) -> List[bytes]:
        """What a reader of a list of snapshots has to know."""
        if self.fault:
            return [self.fault]
        unread = self.number(meta.UNREAD)
        found = ((meta.is_of_another_host(self.about), b"of another host"), (self.about is meta.UNKNOWN, b"imported"),
                 (bool(self.parts), b"in %d parts" % len(self.parts)), (self.is_to_come(), TO_COME),
                 (bool(unread), counted(unread or 0, "file") + b" could not be read"))
        return [text for is_so, text in found if is_so]

    def has(self, word: bytes) -> Optional[bool]:
        """Whether it records the path of a word: one of its folders, what is below, or a directory above; None where it
        does not say which folders it has."""
        tops, paths = [*map(read_path, self.about.folders)], choice.paths_of(word)
        if not tops:
            return None
        return any(is_at_or_below(path, tops) or any(is_at_or_below(top, [path]) for top in tops) for path in paths)


def age_text(seconds: int) -> bytes:
    """How old something is, as a person says it."""
    for size, noun in ((DAY, "day"), (HOUR, "hour"), (MINUTE, "minute")):
        if seconds >= size:
            return counted(seconds // size, noun)
    return counted(max(seconds, 0), "second")


def place() -> bytes:
    """The folder of the store."""
    given = os.environb.get(STORE)
    if given:
        return os.path.abspath(given)
    if os.geteuid() == 0:
        return OF_ROOT
    state, home = os.environb.get(b"XDG_STATE_HOME", b""), os.path.expanduser(b"~/.local/state")
    found = state if state.startswith(b"/") else home
    if not found.startswith(b"/"):
        raise Failure(b"you have no home directory: name a store with $" + STORE)
    return os.path.join(found, b"facl")


def made_place() -> bytes:
    """The same, which is made where it is not there; fails where somebody else could write there."""
    name = place()
    with held(opened(name)) as descriptor:
        look = os.fstat(descriptor)
    if look.st_uid != os.geteuid() or look.st_mode & 0o022:
        raise Failure(name + b": has to belong to you, and nobody else may write there: chmod 700 it, or name another "
                      b"store with $" + STORE)
    return name


def opened(name: bytes) -> int:
    """Opens a folder. It is made for the caller alone where it is not there, and so are those above it; nothing is made where
    somebody else could exchange it."""
    if os.path.lexists(name):
        return trusted.open_folder(name)
    above, last = os.path.split(name)
    with held(opened(above)) as parent:
        return new_file.make_directory(last, parent)


def new_name(store: bytes) -> bytes:
    """The name of a snapshot that is made now."""
    name = time.strftime(NAME).encode()
    found, number = name, 1
    while os.path.lexists(os.path.join(store, found)):
        number += 1
        found = name + b".%d" % number
    return found


# --- what is in the store


def read_snapshot_folder(name: bytes, path: bytes) -> Optional[Stored]:
    """The snapshot in a folder; None where it is anything else."""
    unknown = Stored(name, path, meta.UNKNOWN, [], b"")
    try:
        folder = folders.folder_of(path)
        if not folder.parts and not any(map(folder.has, folders.FILES)):
            is_left = UNFINISHED.fullmatch(name) is not None and os.path.lexists(os.path.join(path, b"made"))
            return unknown._replace(fault=b"left by a run that was killed; it can be removed") if is_left else None
        parts = split_tree.parts_in(path)
        fault = b"" if parts else fault_of(folder)
        return Stored(name, path, split_tree.meta_of_all(parts) if parts else meta.meta_of(path), parts, fault)
    except Failure as failure:
        return unknown._replace(fault=failure.text)


def fault_of(folder: folders.Folder) -> bytes:
    """Why a snapshot is incomplete; empty where it is not."""
    lacking = [it for it in folders.TEXTS if not folder.has(it)]
    if lacking:
        return b"incomplete snapshot: it lacks " + b", ".join(lacking)
    odd = [name for name, file in folder.files.items() if not stat.S_ISREG(os.fstat(file.descriptor).st_mode)]
    if odd:
        return b"incomplete snapshot: not a regular file: " + b", ".join(odd)
    return next(iter(folder.faults.values()), b"")


def snapshots_in(store: bytes) -> List[Stored]:
    """The snapshots of a store, the oldest first; none where there is no store."""
    if not os.path.lexists(store):
        return []
    descriptor = trusted.open_folder(store)
    try:
        names = [name for name in map(os.fsencode, os.listdir(descriptor)) if not name.startswith(b".")
                 and stat.S_ISDIR(os.stat(name, dir_fd=descriptor, follow_symlinks=False).st_mode)]
    except OSError as error:
        raise Failure(store + b": " + reason(error)) from error
    finally:
        os.close(descriptor)
    found = [read_snapshot_folder(name, os.path.join(store, name)) for name in names]
    return sorted(filter(None, found), key=Stored.order)


def whole_of_this_host(stored: List[Stored]) -> List[Stored]:
    return [it for it in stored if not it.fault and it.is_of_this_host()]


# --- which one is meant


def few(stored: List[Stored]) -> bytes:
    """The names of some snapshots, the newest first."""
    names = [it.name for it in reversed(stored)]
    return b", ".join(names[:MOST_NAMES]) + (b" .." if len(names) > MOST_NAMES else b"")


def of_day(word: bytes, stored: List[Stored]) -> List[Stored]:
    """The snapshot of a day, by its date; fails where there are several."""
    found = [it for it in stored if it.name.startswith(word + b"T")] if ONE_DAY.fullmatch(word) else []
    if len(found) > 1:
        raise Failure(word + b": has several snapshots; name one: " + few(found))
    return found


def named(word: bytes) -> Stored:
    """The snapshot that a word names: one of the store, also by its day, or any folder."""
    is_path = b"/" in word or word in (b".", b"..")
    stored = snapshots_in(place()) if not is_path else []
    found = [it for it in stored if it.name == word] or of_day(word, stored)
    if found and found[0].fault:
        raise Failure(found[0].folder + b": " + found[0].fault)
    if not found and not is_path and not os.path.isdir(word):
        raise Failure(word + b": no such snapshot; facl snapshots lists those of " + place())
    return found[0] if found else read_snapshot_folder(word, word) or Stored(word, word, meta.UNKNOWN, [], b"")


def none_there() -> bytes:
    """Says that the store has no snapshot, and how to make one."""
    return place() + b": has no snapshot; make one%s: facl snapshot FOLDER" % (b", as root" * (place() == OF_ROOT))


def newest() -> Stored:
    """The newest whole snapshot of this host."""
    stored = snapshots_in(place())
    found = whole_of_this_host(stored)
    if found:
        return found[-1]
    others = [it for it in stored if not it.fault]
    if others:
        raise Failure(place() + b": has no snapshot of this host; name one with -s: " + few(others))
    raise Failure(none_there())


def chosen(given: Optional[str]) -> Stored:
    """The snapshot that is meant: by -s, by the environment, or the newest."""
    if given is not None:
        return named(os.fsencode(given))
    word = os.environb.get(SNAPSHOT, b"")
    return named(word) if word else newest()


def is_none_named(given: Optional[str]) -> bool:
    """Whether neither -s nor the environment names a snapshot."""
    return given is None and not os.environb.get(SNAPSHOT, b"")


def before(stored: Stored) -> Stored:
    """The whole snapshot of this host before another one."""
    taken = stored.taken()
    found = [it for it in whole_of_this_host(snapshots_in(place()))
             if it.folder != stored.folder and (taken is None or (it.taken() or 0) <= taken)]
    if not found:
        raise Failure(place() + b": has no older snapshot of this host than %s; name one with -s" % stored.name)
    return found[-1]


def check_older(old: Stored, new: Stored) -> None:
    """Fails unless one snapshot is older than another one, of the same host where both say so."""
    if os.path.samefile(old.folder, new.folder):
        others = [it for it in whole_of_this_host(snapshots_in(place())) if not os.path.samefile(it.folder, new.folder)]
        instead = b"; older ones, for -s: " + few(others) if others else b"; the store has no other one"
        raise Failure(old.name + b": is the newest snapshot, and the older one too" + instead)
    if (old.taken() or 0) > (new.taken() or old.taken() or 0):
        raise Failure(old.name + b": is newer than " + new.name)
    if meta.UNKNOWN not in (old.about, new.about) and old.about.host != new.about.host:
        raise Failure(old.name + b": is of the host %s, and %s of %s" % (old.about.host, new.name, new.about.host))


def notes(stored: Stored) -> Iterator[bytes]:
    """What is said of a snapshot before it is used."""
    age = stored.age()
    if age is not None and age >= DAY:
        yield b"the snapshot %s is %s old" % (stored.name, age_text(age))
    if stored.is_to_come():
        yield b"the snapshot %s is " % stored.name + TO_COME
    if meta.is_of_another_host(stored.about):
        yield b"the snapshot %s is of the host %s, not of this one" % (stored.name, stored.about.host)


def whole_name(word: bytes) -> bytes:
    """The name from the root on of a file that a person names from where the command runs; the word itself where that is gone."""
    try:
        return os.path.abspath(word) if word[:1] != b"/" else word
    except OSError:
        return word


def check_paths(stored: Stored, words: List[bytes], option: bytes = b"-s") -> None:
    """Fails for a path that the snapshot does not have; says what it has, and which snapshots, for an option, have the path."""
    for word in words:
        if not word or stored.has(word) is not False:
            continue
        others = [it for it in snapshots_in(place()) if not it.fault and it.has(word)]
        whole = whole_name(word)
        if whole != word and stored.has(whole):
            instead = b"; give the whole name: " + whole
        else:
            instead = b"; these have it, for %s: " % option + few(others) if others else b"; to record it: facl snapshot " + whole
        tops = b", ".join(map(live_name, map(read_path, stored.about.folders)))
        raise Failure(word + b": is not in the snapshot %s, which has " % stored.name + tops + instead)
