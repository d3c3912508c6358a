"""Marks in answers that a person reads: in that of `why --reach` where a user is stopped on the way to a file, and in that of
`why` what Linux looks at beside the lists of a file."""
from __future__ import annotations

from typing import Iterable, Iterator, List, Set

from ..base.names import directories_above, read_path
from ..model.entries import entries_of
from ..model.marks import NO_MARKS, Marks
from ..model.records import name_of, path_of
from ..model.rules_of_lists import grants_search
from ..program.scripts import Unit
from ..program.tools import OF_RECORDS, OPTIONS, REACH, split

MARK = b"    <-- no search permission here: nothing below is reached"
BESIDE = b"    <-- "  # Before what is said of a file beside its list.
# Those that print the entries which decide, also of the directories above.
BY_ENTRIES = tuple(tool for tool in OF_RECORDS if REACH in OPTIONS[tool])


def marked(unit: Unit, lines: Iterable[bytes], marks: Marks = NO_MARKS) -> Iterator[bytes]:
    """The lines of an answer; of a line that asks why with the marks of each file; and along paths, with one on the first
    directory above each FILE whose entries do not grant its user search. A directory comes after those above it."""
    if not unit.is_of(*BY_ENTRIES):
        yield from lines
        return
    files = [read_path(name) for name in split(unit.words).operands[1:]] if REACH in unit.words else []
    closed: Set[bytes] = set()
    block: List[bytes] = []
    for line in lines:
        block.append(line)
        if not line:
            path = path_of(name_of(block[0]))
            if not grants_search(entries_of(b"\n".join(block))):
                # The files below that nothing above has stopped.
                stopped = [file for file in files if path in directories_above(file)]
                block[0] += MARK * any(closed.isdisjoint(directories_above(file)) for file in stopped)
                closed.add(path)
            block[0] += b"".join(BESIDE + text for text in marks.texts(path))
            yield from block
            block = []
    yield from block
