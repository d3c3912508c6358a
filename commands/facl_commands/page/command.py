"""facl-report: one page of HTML about who may do what, which needs no network and no other file."""
from __future__ import annotations

import argparse
import os
from typing import TYPE_CHECKING, List, Optional

from ..base.messages import Command, Failure, counted, parser_of
from ..base.new_file import NewFile
from ..base.programs import find_program
from ..model import overview, sources
from ..model.file_columns import FileColumns
from ..model.marks import marks_of
from ..model.records import File, Files
from ..model.snapshot import read_snapshot
from ..model.sources import Source
from ..program.scripts import Unit, read_text
from ..program.session import Session
from . import review
from .data import data_of
from .frame import page_of
from .tree import list_files

if TYPE_CHECKING:
    from ..plan.replay import Replay

WRITTEN, REFUSED = 0, 1
HELP = """\
Writes one page of HTML, to standard output or to a new FILE: a tree of the files of a snapshot, in which the rights
of a user or a group are shown by colour, along the path of each file or on the file alone; the list of a file, and
who may do what with it, by which entries; with SCRIPTs, what their edits change. The page needs no network. The
SCRIPT - is standard input. With --for-review it is the page of one folder for its owner: what people may do there, and
a box at each entry that can go.
"""
STATUS = """\
The exit status is 0 if the page is written; 1 if lines were refused: then none is; 2 if the words, the
snapshot or a script cannot be used, or FILE cannot be made; 5 if FILE is written, and a message was not.
"""


def parse(words: List[str]) -> argparse.Namespace:
    parser = parser_of("facl-report", HELP, STATUS)
    view = parser.add_mutually_exclusive_group()
    view.add_argument("--file-alone", action="store_true",
                      help="open the page with each file judged alone, and not along its path")
    view.add_argument("--reach", action="store_true", help="count search permission on parent directories (default)")
    parser.add_argument("--with-root", action="store_true",
                        help="also the users of uid 0, to whom the kernel grants nearly everything")
    parser.add_argument("--output", metavar="FILE", help="write the page to a new file that its owner alone may read")
    sources.add_source(parser, words)
    parser.add_argument("scripts", metavar="SCRIPT", nargs="*", default=[])
    review.add_options(parser)
    given = parser.parse_args(words)
    review.check_options(parser, given)
    return given


def linked_files(listing: FileColumns, names: List[List[bytes]]) -> Files:
    """The files that have several names, by each that is listed."""
    wanted, bodies, folders = {path for its in names for path in its}, listing.numbers.bodies(), set(listing.folders)
    return {path: File(place in folders, bodies[listing.labels[place]])
            for place, path in enumerate(listing.paths) if path in wanted}


def answer_scripts(command: Command, run: Replay, units: List[Unit]) -> int:
    """Answers the scripts, and returns how many lines were refused."""
    run.answer_all(units)
    for message in run.messages:
        command.say(message.unit.place() + b": " + message.text)
    return sum(not message.is_warning for message in run.messages)


def page_over(command: Command, given: argparse.Namespace, source: Source) -> Optional[bytes]:
    """The page; None where lines were refused."""
    snapshot = read_snapshot(source.folder, needs_links=False, needs_inodes=False)
    program = find_program(given)
    units = [unit for name in given.scripts for unit in read_text(name).units()]
    overview.say_notices(command, source, given.acl5, is_alone=False)
    with Session(program, snapshot.folder) as session:
        tops = sources.find_tops(session, snapshot.folder)
        listings = [list_files(sources.list_below(session, tops))]
        if not listings[0].paths:
            raise Failure(source.shown + b": has no files; make a snapshot with facl snapshot")
        if given.scripts:
            from ..plan.replay import Replay  # A page of one state needs none.

            linked = linked_files(listings[0], snapshot.links)
            refusals = answer_scripts(command, Replay(session, snapshot, linked), units)
            if refusals:
                command.say(b"no page was written: " + counted(refusals, "line was", "lines were") + b" refused")
                return None
            listings.append(list_files(sources.list_below(session, tops), listings[0]))
    marks = marks_of(snapshot.folder)
    return page_of(data_of(program, snapshot._replace(folder=source.shown), marks, listings, units, given))


def body(command: Command, words: List[str]) -> int:
    given = parse(words)
    target = NewFile(os.fsencode(given.output)) if given.output is not None else None
    command.goes_on = target is not None
    with sources.opened(given) as source:
        page = review.page_over(command, given, source) if given.for_review else page_over(command, given, source)
    if page is None:
        return REFUSED
    if target is None:
        command.write(page)
    else:
        target.write(page)
        command.tell(b"wrote " + target.name)
    return WRITTEN
