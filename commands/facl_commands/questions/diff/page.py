"""The page of facl-report over two snapshots: what it has of one snapshot and scripts, of the edits that lead to the
other one; and what got worse, in one sentence."""
from __future__ import annotations

import argparse
import html
from typing import Iterator, List

from ...base.messages import counted
from ...base.names import shown
from ...model.marks import marks_of
from ...model.snapshot import Snapshot
from ...page import columns
from ...page import data as page_data
from ...page.frame import page_of as html_of
from ...page.tree import list_files
from ...program.scripts import read_script
from ...program.session import OutputSlice
from .causes import MADE, MEMBERSHIP, MOVED, USER_MADE
from .events import LOSS, R, W, Event
from .report import Compared, reasons_text, who_of_event

EDITS = b"edits"
MOST_PARTS = 3  # Of the sentence.
OF_FILES = {MOVED: "moved file", MADE: "new file"}


def page_of(program: str, compared: Compared, group: bytes, people: List[bytes], listings: List[List[OutputSlice]],
            given: argparse.Namespace) -> bytes:
    """The page; the lines of people are those of the edits, the groups those of their session, and the marks those of the later
    snapshot."""
    old, new = compared.old, compared.new
    before = list_files(listings[0])
    found = [before, list_files(listings[1], before)]
    units = read_script(EDITS, b"".join(line + b"\n" for line in people))
    snapshot = Snapshot(old.folder, old.passwd, group, [], "-", {})
    data = page_data.data_of(program, snapshot, marks_of(new.folder), found, units, given)
    data["title"] = columns.shown(old.named() + b" -> " + new.named())
    data["unknown"] = page_data.unknown_of(new.folder)
    data["heads"] = [page_data.head_of(state.folder, state.folder) for state in (old, new)]
    return html_of(data, first='<p id="worse">%s</p>\n' % html.escape(shown(worse(compared)).decode()))


# --- what got worse


def worse(compared: Compared) -> bytes:
    """The first events that gave somebody more, in one sentence."""
    parts = [it for event in compared.events for it in part_of(compared, event)]
    if not parts:
        return b"Nothing got worse."
    rest = len(parts) - MOST_PARTS
    since = compared.old.about.date.partition(b"T")[0] or compared.old.folder
    return b"Worse since %s: %s." % (since, b"; ".join(parts[:MOST_PARTS] + [counted(rest, "more change")] * (rest > 0)))


def part_of(compared: Compared, event: Event) -> Iterator[bytes]:
    """What an event made worse. Files that are new, or have another name, are so where everybody may write them."""
    who, place = who_of_event(event, compared.everybody), b" (" + compared.first_of(event) + b")"
    verb = b" may write " if event.gained & W else b" may read " if event.gained & R else b" may enter "
    if event.kind in OF_FILES:
        if event.opened.files:
            first = compared.name_of(event.opened.first)
            yield b"everybody may write %s (%s)" % (counted(event.opened.files, OF_FILES[event.kind]), first)
    elif event.more and event.kind == MEMBERSHIP:
        yield b"%s %s and%s%s more" % (who, reasons_text(event.reasons, event.files), verb, counted(event.more, "file"))
    elif event.more and event.kind == USER_MADE:
        yield b"%s: new, and%s%s" % (who, verb, counted(event.more, "file"))
    elif event.more and event.kind != LOSS:
        yield who + verb + counted(event.more, "file") + place
