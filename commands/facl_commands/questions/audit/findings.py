"""The findings of facl-audit, a record each; a file with what is found of it, and the line that mends it or what a person has to
decide; and findings that are accepted, each with a reason: the lines of the file of --accepted.

That file may be one that the caller cannot read, as by sudo: messages have no word of a line but the name of a finding.
"""
from __future__ import annotations

import itertools
import os
from typing import Dict, Iterable, Iterator, List, NamedTuple, Optional, Set

from ...base.messages import Failure
from ...base.names import file_name, file_word, is_below, read_path
from ...base.trusted import read_given
from ...program.scripts import lines_with_numbers, words_of
from ...program.session import parts_of

HIGH, MIDDLE, LOW = "high", "middle", "low"
WEIGHTS = (HIGH, MIDDLE, LOW)
# A comment of a script. In a shell, chmod and setfacl follow the links that somebody puts in the place of a file.
FOR_PLAN = b"# for facl plan, not for a shell"
FIELDS = 3  # Of a line that accepts: the finding, the path, and the first word of the reason.
MAY_BE_MEANT, DECIDE = b"may be meant: ", b"# decide: "
FORM = b"a line is FINDING PATH REASON; words with spaces are in single quotes"


class KindOfFinding(NamedTuple):
    name: str
    weight: str
    meaning: str  # What it is, and why it matters.


KINDS = (
    KindOfFinding("writable-by-everybody", HIGH, "everybody else, whom no ACL names, can write it along its path"),
    KindOfFinding("set-user-id", HIGH, "a plain file that is run with the rights of its owner"),
    KindOfFinding("readable-by-everybody", MIDDLE, "everybody else, whom no ACL names, can read it along its path"),
    KindOfFinding("writable-behind-closed", MIDDLE, "everybody else can write it as soon as a directory above is opened"),
    KindOfFinding("writable-by-teams", MIDDLE, "several groups can remove each other's files: the directory is not sticky"),
    KindOfFinding("writer-outside-groups", MIDDLE, "a user can write where nobody else of the user's groups may"),
    KindOfFinding("mask-cuts-entry", MIDDLE, "an entry of a user or a group says more than the mask lets through"),
    KindOfFinding("empty-mask", MIDDLE, "an entry says more than it does, or less: the mask is empty, so what others have counts"),
    KindOfFinding("owner-without-row", MIDDLE, "whoever gets this id next owns it"),
    KindOfFinding("entry-without-row", MIDDLE, "whoever gets this id next has the entry's rights"),
    KindOfFinding("set-group-id", MIDDLE, "a plain file that is run with the rights of its group"),
    KindOfFinding("links-across-folders", MIDDLE, "one file has names in several folders: closing one leaves the others"),
    KindOfFinding("readable-behind-closed", LOW, "everybody else can read it as soon as a directory above is opened"),
    KindOfFinding("execute-for-everybody", LOW, "a plain file that everybody else can run along its path"),
    KindOfFinding("entry-without-effect", LOW, "an entry that can go: without it all users of the snapshot have the same rights"),
    KindOfFinding("default-not-inherited", LOW, "the directory lacks default entries that the directory above has"),
    KindOfFinding("default-differs", LOW, "new files here get entries for other users or groups than the directory has"),
)
# Those of everybody else.
OF_EVERYBODY = {"writable-by-everybody", "readable-by-everybody", "execute-for-everybody", "writable-behind-closed",
                "readable-behind-closed"}
BY_NAME: Dict[str, KindOfFinding] = {kind.name: kind for kind in KINDS}


class Mend(NamedTuple):
    """What is found of a file, and what mends it."""

    detail: bytes  # In words; may be empty.
    edit: bytes  # The line of a script that mends it, without the file; empty where no line is safe.
    meant: bytes = b""  # What the file may be, so that nothing is wrong with it; empty where that is not known.
    decide: bytes = b""  # What a person has to look at in the place of a line.
    pattern: bytes = b""  # The entries that it is about, of a finding that counts by these.
    giver: Optional[bytes] = None  # The directory whose default ACL gives them to new files.

    def for_a_person(self, decide: bytes) -> Mend:
        """Without the line."""
        return self._replace(edit=b"", decide=decide)


class FoundFile(NamedTuple):
    """A file of a finding."""

    path: bytes
    mend: Mend

    def line(self, is_whole: bool) -> bytes:
        """The whole line, which may be none; of a snapshot that is whole, paths start at the root of the file system."""
        return self.mend.edit + b" " + file_word(self.path, is_whole) if self.mend.edit else b""

    def what(self) -> bytes:
        """What is found of it, as a person reads it."""
        return b"; ".join(filter(None, [self.mend.detail, self.meant()]))

    def meant(self) -> bytes:
        return MAY_BE_MEANT + self.mend.meant if self.mend.meant else b""

    def action(self, is_whole: bool) -> bytes:
        """The line; in its place what is to be decided, which is a comment of a script."""
        return self.line(is_whole) or DECIDE + self.mend.decide

    def fields(self, is_whole: bool) -> List[bytes]:
        """The file as a person reads it, what is found of it, and the line."""
        return [file_name(self.path, is_whole), self.what(), self.action(is_whole)]


class FoundFiles:
    """The files of a finding. Many have one text, which is there once."""

    def __init__(self) -> None:
        self.paths: List[bytes] = []
        self.mends: List[Mend] = []

    def __len__(self) -> int:
        return len(self.paths)

    def add(self, paths: Iterable[bytes], mends: Iterable[Mend]) -> None:
        self.paths += paths
        self.mends += mends

    def first(self, number: Optional[int] = None) -> Iterator[FoundFile]:
        """As many of them; all without a number."""
        return (FoundFile(path, mend) for path, mend in itertools.islice(zip(self.paths, self.mends), number))

    def without(self, paths: Set[bytes]) -> FoundFiles:
        """The others."""
        rest, kept = FoundFiles(), [path not in paths for path in self.paths]
        rest.add(itertools.compress(self.paths, kept), itertools.compress(self.mends, kept))
        return rest


Findings = Dict[str, FoundFiles]  # By the names of kinds.


def edits_of(found: FoundFiles, is_whole: bool) -> Iterator[bytes]:
    """The lines of a script that mend all of these, below one that says so: files with one edit are in one line where it has
    room."""
    files: Dict[bytes, List[bytes]] = {}
    for path, mend in zip(found.paths, found.mends):
        if mend.edit:
            files.setdefault(mend.edit, []).append(file_word(path, is_whole))
    if files:
        yield FOR_PLAN
    for edit, words in files.items():
        for part in parts_of(words):
            yield b" ".join([edit, *part])


# --- what is accepted


class Accepted(NamedTuple):
    """A line of a file."""

    file: bytes
    number: int
    kind: str
    path: bytes
    is_folder: bool  # Whether all below is meant too.

    def has(self, path: bytes) -> bool:
        return path == self.path or self.is_folder and is_below(path, self.path)


def read_line(name: bytes, number: int, line: bytes) -> Accepted:
    words = words_of(line)
    if words is None or len(words) < FIELDS:
        raise Failure(b"%s, line %d: %s" % (name, number, b"a quote is open" if words is None else FORM))
    kind = words[0].decode("utf-8", "replace")
    if kind not in BY_NAME:
        raise Failure(b"%s, line %d: word 1: no such finding; facl help audit lists them" % (name, number))
    return Accepted(name, number, kind, read_path(words[1]), words[1].endswith(b"/"))


def read_accepted(name: str) -> List[Accepted]:
    """The lines of a file that nobody else than root and the caller can have written."""
    shown = os.fsencode(name)
    return [read_line(shown, number, line) for number, line in lines_with_numbers(read_given(shown))]


class Sorted(NamedTuple):
    """Findings without what is accepted."""

    rest: Findings
    used: Set[Accepted]  # The lines that some file has.


def sort_out(findings: Findings, lines: List[Accepted]) -> Sorted:
    found = Sorted({}, set())
    for kind, files in findings.items():
        its = [line for line in lines if line.kind == kind]
        accepted = {path: by for path in files.paths for by in [[line for line in its if line.has(path)]] if by} if its else {}
        found.rest[kind] = files.without({*accepted}) if accepted else files
        found.used.update(*accepted.values())
    return found


def why_unused(line: Accepted, findings: Findings) -> bytes:
    """What is said of a line that accepts nothing."""
    text = b"%s, line %d: %s is not found" % (line.file, line.number, line.kind.encode())
    if not line.is_folder and any(is_below(path, line.path) for path in findings[line.kind].paths):
        return text + b" at the path, but below it: end the path with a slash"
    return text + b" at the path: remove the line"
