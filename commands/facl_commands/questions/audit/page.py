"""The page of facl-report over a snapshot with the findings of facl-audit in it."""
from __future__ import annotations

import argparse
from typing import Dict

from ...base.names import live_name, shown
from ...model import sources
from ...model.marks import marks_of
from ...model.snapshot import read_snapshot
from ...model.sources import Source
from ...page.data import data_of
from ...page.frame import page_of
from ...page.tree import list_files
from ...program.session import Session
from .findings import FoundFiles, KindOfFinding
from .report import AuditReport

MOST = 1_000  # Files of a finding that the page has.


def fields_of(kind: KindOfFinding, found: FoundFiles, is_whole: bool) -> Dict[str, object]:
    """A finding as the page has it, where each path has a slash at its start."""
    rows = [(live_name(it.path), it.what(), it.action(is_whole)) for it in found.first(MOST)]
    files = [[shown(text).decode() for text in row] for row in rows]
    return {"name": kind.name, "weight": kind.weight, "meaning": kind.meaning, "count": len(found), "files": files}


def page_with(found: AuditReport, source: Source, program: str, given: argparse.Namespace) -> bytes:
    snapshot = read_snapshot(source.folder, needs_links=False, needs_inodes=False)
    with Session(program, snapshot.folder) as session:
        listing = list_files(sources.list_below(session, sources.find_tops(session, snapshot.folder)))
    data = data_of(program, snapshot._replace(folder=source.shown), marks_of(snapshot.folder), [listing], [], given)
    return page_of({**data, "findings": [fields_of(kind, found.findings[kind.name], found.is_whole) for kind in found.shown()]})
