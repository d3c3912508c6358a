"""facl-audit: what is wrong with the lists of a tree, by weight, and the lines that mend it."""
from __future__ import annotations

import argparse
import os
from typing import Callable, FrozenSet, List, Set

from ...base.messages import Command, Failure, counted, parser_of
from ...base.names import highest, parent_of, places_below, read_path
from ...base.new_file import NewFile
from ...base.programs import find_program
from ...base.tables import add_output, paged, write_json, write_table
from ...base.trusted import read_given
from ...model import choice, overview, sources, split_tree
from ...model.entries import NamesOfIds
from ...model.everybody import World, files_of, world_of
from ...model.file_columns import FileTree
from ...model.sources import Source
from .findings import KINDS, WEIGHTS, Findings, FoundFiles, Mend, edits_of
from .lists import Audited, default_not_inherited, of_records
from .removals import without_effect, without_gains
from .report import SCHEMA, AuditReport, json_of, lines_of, table_of, table_of_files
from .rights import of_everybody, of_writers
from .safe import SpecialFolders

NONE = "none"
A_LINK = b"a hard link, by which folders share a file"
WHICH_NAME = b"which names shall stay; all are one file with one owner, group and ACL"
HELP = """\
Looks for what is wrong with the access lists of a snapshot, or of FOLDERs in it: findings by weight, each with the
number of files, the first of them, what may be meant, and a line for facl-plan that mends it, or what is to be decided
where none is safe. Those of weight low are shown with --weight low. Rights are those along paths, as the program answers:
`everybody else` is a user whom no list names and who is in no group of the tree, as one whom the snapshot does not have.

It changes nothing. A finding that is as it should be is accepted by a line of the FILE of --accepted,

    FINDING PATH REASON

where a PATH with a slash at its end is a folder and all below it, any other one that file alone. A line that accepts
nothing is said.

The findings:
"""
STATUS = """\
The exit status is 1 if something of the weight of --fail-on, or of a greater one, is found and not accepted; 0 if
not; 2 if the words, the snapshot or FILE cannot be used.

    facl-snapshot before /srv/project                       first, as root
    facl-audit before                                       what is wrong
    facl-audit --list mask-cuts-entry before                all files of one finding
    facl-audit --edits mask-cuts-entry before >edits        and the lines that mend them
    facl-plan before edits
"""


def parse(words: List[str]) -> argparse.Namespace:
    names = [kind.name for kind in KINDS]
    rows = ("    %-6s  %-*s  %s\n" % (kind.weight, max(map(len, names)), kind.name, kind.meaning) for kind in KINDS)
    parser = parser_of("facl-audit", HELP + "".join(rows), STATUS)
    one = parser.add_mutually_exclusive_group()
    one.add_argument("--list", metavar="FINDING", choices=names, help="print all files of one finding")
    one.add_argument("--edits", metavar="FINDING", choices=names,
                     help="print the lines of a script that mend all files of one finding, and nothing else")
    parser.add_argument("--accepted", metavar="FILE", help="what is accepted, and why")
    parser.add_argument("--page", metavar="FILE",
                        help="also write a page to look at, as facl-report does, with the findings, to a new file")
    parser.add_argument("--fail-on", metavar="WEIGHT", choices=[*WEIGHTS, NONE], default=WEIGHTS[0],
                        help="high (as without it), middle, low or none: see the exit status")
    parser.add_argument("--weight", metavar="WEIGHT", choices=WEIGHTS, default=WEIGHTS[-2],
                        help="the least weight of the findings that are printed: high, middle (as without it) or low")
    parser.add_argument("--known", metavar="FILE", help="what --now-known of an earlier run wrote: of findings in it the number alone")
    parser.add_argument("--now-known", metavar="FILE", help="write what is printed of findings to a new file, for --known")
    add_output(parser)
    sources.add_source(parser, words)
    choice.add_choice(parser, default="those that the snapshot was made of")
    return parser.parse_args(words)


def folders_in_parts(report: AuditReport) -> List[bytes]:
    """The FOLDERs; without one those that the snapshot was made of, without the directories above them. Any of its parts may
    record them."""
    if report.given.folders:
        return choice.folders_in(report.given.folders, lambda paths: split_tree.recorded_in(report.parts, paths))
    found = [*map(read_path, report.meta.folders)]
    return found if found and split_tree.recorded_in(report.parts, found) == {*found} else [b""]


def folders_in(world: World, words: List[str]) -> List[bytes]:
    """The same of a snapshot without parts."""
    return (not words and choice.folders_made_of(world.session)) or choice.folders_of(world.session, words)


def across_folders(sets: List[List[bytes]], paths: Set[bytes], name_of: Callable[[bytes], bytes]) -> FoundFiles:
    """Those of some plain files that are in another folder than the first name; a folder that is mounted at two places
    is one folder."""
    first_of, found = {name: names[0] for names in sets for name in names}, FoundFiles()
    for names in sets:
        folders = [first_of.get(parent_of(name), parent_of(name)) for name in names]
        its = [name for name, folder in zip(names, folders) if folder != folders[0] and name in paths]
        found.add(its, [Mend(b"is one file with " + name_of(names[0]), b"", A_LINK, WHICH_NAME)] * len(its))
    return found


def findings_of(audited: Audited, links: List[List[bytes]]) -> Findings:
    tree = audited.tree
    plain = {path for path, kind in zip(tree.paths, tree.kinds) if not tree.files[kind].is_directory} if links else set()
    mends = without_gains(audited, of_records(audited))
    return {**of_everybody(audited), **of_writers(audited), **{name: audited.found(its) for name, its in mends.items()},
            "entry-without-effect": without_effect(audited), "default-not-inherited": default_not_inherited(audited),
            "links-across-folders": across_folders(links, plain, audited.world.name_of)}


def part_of(tree: FileTree, folders: List[bytes], first: int) -> FileTree:
    """The files at or below some folders, from a place on."""
    places = [places_below(tree.paths, it) for it in highest(folders)]
    return tree.part((max(first, start), end) for start, end in places if max(first, start) < end)


def report_of(given: argparse.Namespace, source: Source, program: str) -> AuditReport:
    report, once, special = AuditReport(given, source), split_tree.Once(), SpecialFolders()
    parts = report.parts or [source.folder]
    report.folders = folders_in_parts(report) if report.parts else []
    links = split_tree.links_in(parts)
    for folder in parts:
        with world_of(program, source._replace(folder=folder)) as world:
            report.folders = report.folders or folders_in(world, given.folders)
            whole = files_of(world)
            special.add(whole, [*map(read_path, report.meta.folders), *sources.find_tops(world.session, folder)])
            tree = part_of(whole, report.folders, len(whole.paths) - len(once.of_part(whole.paths)) if report.parts else 0)
            kinds = {kind: tree.files[kind] for kind in dict.fromkeys(tree.kinds)}
            ids = NamesOfIds(world.texts.passwd, world.texts.group)
            for name, found in findings_of(Audited(world, given, program, tree, kinds, ids), links).items():
                report.findings[name].add(found.paths, found.mends)
            report.files += len(tree.paths)
            report.recorded.update({line.path for line in report.lines}.intersection(whole.paths))
            report.is_whole = world.is_whole
    report.findings = special.checked(report.findings)
    report.accept()
    return report


def write(command: Command, given: argparse.Namespace, report: AuditReport) -> None:
    if given.json:
        write_json(command, given, SCHEMA, json_of(report))
    elif given.edits:
        found = report.findings[given.edits]
        for line in edits_of(found, report.is_whole):
            command.write(line + b"\n")
        rest = sum(not mend.edit for mend in found.mends)
        if rest:
            command.say(b"%s no line; facl audit --list %s says what to decide" % (
                counted(rest, "file has", "files have"), given.edits.encode()))
    elif given.list:
        write_table(command, given, table_of_files(report.findings[given.list], report.is_whole))
    elif given.tsv:
        write_table(command, given, table_of(report))
    else:
        for line in lines_of(report):
            command.write(line + b"\n")


def known_before(command: Command, given: argparse.Namespace) -> FrozenSet[bytes]:
    """The lines of the file of --known; none where it cannot be read or believed, so that all is said."""
    try:
        return frozenset(read_given(os.fsencode(given.known)).split(b"\n")) if given.known is not None else frozenset()
    except Failure as failure:
        command.say(failure.text + b"; all findings are said")
        return frozenset()


def body(command: Command, words: List[str]) -> int:
    given = parse(words)
    target, now_known = (NewFile(os.fsencode(name)) if name is not None else None for name in (given.page, given.now_known))
    with sources.opened(given) as source:
        split_tree.check_all(source.folder)
        overview.say_notices(command, source, given.acl5)
        program = find_program(given)
        report = report_of(given, source, program)
        page = None
        if given.page is not None:
            if report.parts:
                raise Failure(b"--page: a snapshot in parts has none")
            from .page import page_with  # Few runs need it.

            page = page_with(report, source, program, given)
    report.known = known_before(command, given)
    for text in report.unused.values():
        command.say(text)
    with paged(command, not given.no_pager):
        write(command, given, report)
    if target is not None and page is not None:
        command.flush()
        target.write(page)
        command.goes_on = True  # It is there, whatever can be said.
        command.say(b"wrote " + target.name)
    failing = [] if given.fail_on == NONE else WEIGHTS[: WEIGHTS.index(given.fail_on) + 1]
    has_failed = any(kind.weight in failing for kind in report.kinds())
    if now_known is not None:
        now_known.write(report.said(has_failed))
    return int(has_failed)
