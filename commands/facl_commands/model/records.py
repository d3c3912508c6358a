"""The records of a listing: what getfacl prints of files, by the program or by the system, with ids as numbers."""
from __future__ import annotations

import itertools
from typing import Dict, Iterable, Iterator, List, NamedTuple, Tuple

from ..base.messages import Failure
from ..base.names import parent_of, path_word, read_path, sorting_key, write_name
from ..program.protocol import (
    DEFAULT_ENTRY, FILE_HEAD, LIST_ALL, ONLY_DIRECTORIES, RESTORE, SET_DEFAULT, has_text, lacks_file,
)
from ..program.session import OutputSlice, Session, cut, parts_of

RECORDS_ROOM = 1 << 24  # Bytes of records that a session is given at once.


class File(NamedTuple):
    """A file: its kind, and the lines of its record after the first one."""

    is_directory: bool
    body: bytes


Files = Dict[bytes, File]  # By path.


class Listing(NamedTuple):
    """The files of a listing, in its order, with their names as they are printed there."""

    files: Files
    names: List[bytes]


class ChangedPaths(NamedTuple):
    """The paths of files with another record, of new files, and of files that are gone; each in path order."""

    changed: List[bytes]
    made: List[bytes]
    removed: List[bytes]


def write_record(path: bytes, file: File) -> bytes:
    """The record of a file for the live system; the name of a directory ends in a slash."""
    return b"".join((FILE_HEAD, b"/", write_name(path), b"/" * (file.is_directory and path != b""), b"\n", file.body, b"\n"))


def write_records(files: Files, paths: Iterable[bytes]) -> bytes:
    return b"".join(write_record(path, files[path]) for path in paths)


# --- a record: its first line has the name of the file, and the others are its body


def blocks_in(listing: Iterable[OutputSlice]) -> Iterator[List[bytes]]:
    """The records of a listing, in its order, without the end of the last line, many at once."""
    return cut((piece for output in listing for piece in output.pieces()), b"\n\n")


def records_in(listing: Iterable[OutputSlice]) -> Iterator[bytes]:
    """The same one by one."""
    return itertools.chain.from_iterable(blocks_in(listing))


def split_record(record: bytes) -> Tuple[bytes, bytes]:
    """The name, and the body without the end of its last line."""
    return name_of(record), body_of(record)


def name_of(record: bytes) -> bytes:
    return record.partition(b"\n")[0][len(FILE_HEAD) :]


def body_of(record: bytes) -> bytes:
    return record.partition(b"\n")[2]


def is_of_directory(name: bytes, body: bytes) -> bool:
    """Whether a record says that its file is a directory, by its name or by default entries; one with a file below it is one too."""
    return name[-1:] == b"/" or name == b"." or DEFAULT_ENTRY in body


def path_of(name: bytes) -> bytes:
    """The path that a name in a listing is; only one with an escape, or with a component that is none, has to be read."""
    if b"\\" in name or b"//" in name or b"/." in name or name[:1] == b".":
        return read_path(name)
    return name.strip(b"/")


def paths_of(names: List[bytes]) -> List[bytes]:
    """The paths that the names in a listing are, of which the first may be the root."""
    text = b"/" + b"\n/".join(names[1:]) + b"\n"
    if any(odd in text for odd in (b"\\", b"//", b"/./", b"/.\n")):
        return [path_of(name) for name in names]
    return [*map(path_of, names[:1]), *[name.strip(b"/") for name in names[1:]]]


def paths_in(answer: OutputSlice) -> List[bytes]:
    """The paths of an answer of the program that has one in each line, the root as the first. Only one with an escape, or of a
    directory that nothing else shows to be one, has to be read."""
    found: List[bytes] = []
    for names in cut(answer.pieces()):
        text = b"\n".join([*names, b""])
        found += map(path_of, names) if b"\\" in text or b"/\n" in text else names
    if found[:1] == [b"."]:
        found[0] = b""
    return found


def list_pieces(pieces: Iterable[bytes]) -> Listing:
    """The files of a listing that comes in pieces. A file is a directory by its name, its default entries, or another
    file below it. Files of one kind with the same lines are one value."""
    names: List[bytes] = []
    paths: List[bytes] = []
    bodies: List[bytes] = []
    known: Dict[bytes, bytes] = {}  # Each different body once.
    for records in cut(pieces, b"\n\n"):
        parts = [record.partition(b"\n") for record in records if record]
        some = [name[len(FILE_HEAD) :] for name, _, _ in parts]
        names += some
        paths += paths_of(some)
        bodies += [known.setdefault(body, body) for _, _, body in parts]
    plain = {body: File(DEFAULT_ENTRY in body, body + b"\n") for body in known}
    found = dict(zip(paths, map(plain.__getitem__, bodies)))
    folders = {body + b"\n": File(True, body + b"\n") for body in known}
    slashed = (path for path, name in zip(paths, names) if name[-1:] == b"/")
    for path in found.keys() & {b"", *map(parent_of, paths), *slashed}:
        found[path] = folders[found[path].body]
    return Listing(found, names)


def read_listing(text: bytes) -> Files:
    """The files of a listing that is a text."""
    return list_pieces([text, b"\n\n"]).files


def list_slices(listing: Iterable[OutputSlice]) -> Listing:
    """The files of what a session printed."""
    return list_pieces(piece for output in listing for piece in output.pieces())


def list_words(session: Session, words: List[bytes], line: bytes = LIST_ALL) -> List[OutputSlice]:
    """The listings of some files, by this line, one by one where not all of them are there."""
    answer = session.ask(b" ".join([line, *words]) + b"\n")
    if not answer.messages:
        return [answer.output]
    if not lacks_file(answer.messages):
        raise Failure(b"the program refused to list the files: " + answer.messages[0])
    return [output for word in words for output in list_words(session, [word], line)] if len(words) > 1 else []


def list_all(session: Session, top: bytes = b"") -> Listing:
    """The files as they are now, a directory and those below it; none where it is not there, and so where the root was
    removed, which removes all."""
    return list_slices(list_words(session, [path_word(top)]))


def restore(session: Session, bodies: Iterable[Tuple[bytes, bytes]]) -> None:
    """Has files, each by its path, be as the lines of these records say."""
    records = (write_record(path, File(False, body)) for path, body in bodies)
    for part in parts_of(records, RECORDS_ROOM):
        session.ask_accepted(RESTORE + b"\n" + b"".join(part) + b".")


def compare(old: Files, new: Files) -> ChangedPaths:
    """What differs. A file in the place of a directory, or a directory in the place of a file, is a new one."""
    both = {path for path, file in old.items() if path in new and file.is_directory == new[path].is_directory}
    sides = (path for path in both if old[path] != new[path]), new.keys() - both, old.keys() - both
    return ChangedPaths(*(sorted(its, key=sorting_key) for its in sides))


def asks_as_directory(session: Session, path: bytes) -> bool:
    """Whether the program takes a file for a directory, which a listing of it alone does not show."""
    question = SET_DEFAULT + b" " + path_word(path) + b"\n"
    return not any(has_text(message, ONLY_DIRECTORIES) for message in session.ask(question).messages)
