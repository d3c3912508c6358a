"""facl-check: whether the rules of a file hold in a snapshot, for whom they do not, and by which entries."""
from __future__ import annotations

import argparse
import os
from typing import Dict, Iterable, Iterator, List, Optional, Set

from ...base.folders import folder_of
from ...base.messages import UNUSABLE, Command, Failure, counted, parser_of
from ...base.names import file_name, shown, write_user
from ...base.programs import find_program
from ...base.tables import add_output, paged, write_json, write_table
from ...model import choice, overview, sources, split_tree
from ...model.everybody import World, paths_of, world_of
from ...model.meta import meta_of, named
from ...model.people import ids_in, rows_of
from ...model.snapshot import read_links
from ...model.sources import Source
from .answers import Rights, RuleOutcome, names_beside, outcome, rules_that_hold
from .report import SCHEMA, CheckReport, json_of, lines_of, table_of
from .rules import INPUT, Faults, Rule, RuleReader

HELP = """\
Checks that rules hold in a snapshot. RULES is a file of lines

    never   xaver               read   below /srv/teams     # a contractor
    only    anna bert group hr  read   /srv/hr/payroll
    always  mara                write  /srv/legal/cases
    never   everybody else      write  /

never: none of these may, on any file at or below the path. only: no other user may, and nobody else. always: each of
these may, on every file at or below it. With `below` a rule is about what is below the path, and not about the folder
itself. A user is a name or an id, `group NAME` its members, `people` all users whom the check is about, `everybody
else` whoever no ACL names, as a user whom the snapshot does not have, and `everybody` both. Rights are those along
paths.

A rule that does not hold is printed with the users for whom it does not, the first files, the entries that decide
there, and who else may. With --write the rules that hold are printed, of FOLDERs in place of RULES, as a start.
"""
STATUS = """\
The exit status is 0 if all rules hold, 1 if one does not, 2 if the words, the snapshot or a rule cannot be
used: a rule with a name or a path that the snapshot does not have is never passed over.

    facl-snapshot before /srv/project                       first, as root
    facl-check --write before >rules                        the rules that hold: read them, and leave those that shall
    facl-check before rules
"""


def parse(words: List[str]) -> argparse.Namespace:
    parser = parser_of("facl-check", HELP, STATUS)
    parser.add_argument("--write", action="store_true", help="print the rules that hold on FOLDERs, and check nothing")
    parser.add_argument("--quiet", action="store_true", help="print nothing where all rules hold")
    add_output(parser)
    sources.add_source(parser, words)
    choice.add_choice(parser, "")
    is_writing = "--write" in words
    parser.add_argument("rules", metavar="FOLDER" if is_writing else "RULES", nargs="*" if is_writing else "?",
                        help="a file of rules, or - for standard input; with --write folders, without one those that the "
                             "snapshot was made of")
    return parser.parse_args(words)


def chosen_users(world: World, given: argparse.Namespace) -> List[bytes]:
    """The users whom the check is about, in the order of their rows."""
    ids = ids_in(world.texts.passwd)
    return [row[0] for row in rows_of(world.texts.passwd) if row[0] in ids and choice.is_chosen(ids[row[0]], given)]


def write_rules(command: Command, world: World, given: argparse.Namespace, source: Source) -> int:
    chosen = chosen_users(world, given)
    rights = Rights(world, given.file_alone, paths_of(world), True, chosen)
    tops = choice.folders_of(world.session, given.rules)
    if not given.rules:
        tops = choice.folders_made_of(world.session) or tops
    command.write(b"# These rules hold in %s; see man 5 facl-rules.\n" % shown(
        named(source.shown, meta_of(source.folder))))
    for line in rules_that_hold(rights, RuleReader(world, set(chosen), given.with_root), tops):
        command.write(line + b"\n")
    return 0


def report_of(given: argparse.Namespace, source: Source, program: str) -> CheckReport:
    """Whether the rules hold in all parts of a snapshot, or in one that has none."""
    parts, once = split_tree.parts_in(source.folder), split_tree.Once()
    reader: Optional[RuleReader] = None
    outcomes: Dict[int, RuleOutcome] = {}  # By the number of the line.
    left_out: Set[bytes] = set()
    for folder in parts or [source.folder]:
        with world_of(program, source._replace(folder=folder)) as world:
            chosen = chosen_users(world, given)
            if reader is None:
                reader = RuleReader(world, set(chosen), given.with_root,
                                    (lambda path: bool(split_tree.recorded_in(parts, [path]))) if parts else None)
                rules = reader.read(given.rules)
            known = paths_of(world)
            paths = once.of_part(known) if parts else known
            rights = Rights(world, given.file_alone, paths, len(paths) == len(known), chosen)
            here = {b"", *{rule.path for rule in rules}.intersection(known)}
            for rule in rules:
                if not parts or rule.path in here:  # Else the rule is not about files of the part.
                    found = outcome(rights, rule)
                    outcomes[rule.number] = outcomes[rule.number].joined(found) if rule.number in outcomes else found
            left_out |= rights.left_out
    assert reader is not None
    passwd, is_whole = reader.world.texts.passwd, reader.world.is_whole
    name = b"standard input" if given.rules == INPUT else os.fsencode(given.rules)
    about = split_tree.meta_of_all(parts) if parts else meta_of(source.folder)
    return CheckReport(source.shown, about, name, [outcomes[rule.number] for rule in rules],
                       choice.in_order(map(write_user, left_out), passwd),
                       [*reader.notes, *notes_on_names(given, source, rules, is_whole)], passwd, is_whole)


def notes_on_names(given: argparse.Namespace, source: Source, rules: Iterable[Rule], is_whole: bool) -> Iterator[bytes]:
    """What is said of each rule on files that have names which it is not about."""
    folders = split_tree.snapshots_in(source.folder)
    links = [its for folder in folders for its in read_links(folder_of(folder).optional(b"links"))]
    for rule in () if given.quiet else rules:
        found = [(file_name(one, is_whole), file_name(other, is_whole)) for one, other in names_beside(rule, links)]
        if found:
            yield b"line %d: the rule is not about all names of %s, first: %s, which is %s too" % (
                rule.number, counted(len(found), "file"), *found[0])


def write(command: Command, given: argparse.Namespace, report: CheckReport) -> None:
    if given.json:
        write_json(command, given, SCHEMA, json_of(given, report))
    elif given.tsv:
        write_table(command, given, table_of(report))
    elif report.broken() or not given.quiet:
        for line in lines_of(report):
            command.write(line + b"\n")


def body(command: Command, words: List[str]) -> int:
    given = parse(words)
    if not given.write and given.rules is None:
        raise Failure(b"RULES is missing; facl rules FOLDER >rules writes those that hold now")
    if given.write and (given.json or given.tsv):
        raise Failure(b"--write prints rules: leave out --json and --tsv")
    with sources.opened(given) as source:
        folders = split_tree.check_all(source.folder)
        overview.say_notices(command, source, given.acl5 and not given.quiet, is_alone=not given.quiet)
        program = find_program(given)
        if given.write:
            if folders != [source.folder]:
                raise Failure(b"--write: takes one part of a snapshot, as " + folders[0])
            with world_of(program, source) as world:
                return write_rules(command, world, given, source)
        try:
            report = report_of(given, source, program)
        except Faults as faults:
            for text in faults.args[0]:
                command.say(text)
            return UNUSABLE
    for note in report.notes:
        command.say(b"warning: " + note)
    for note in () if given.json or given.quiet else choice.notes(report.left_out, report.passwd):
        command.say(note)
    with paged(command, not given.no_pager):
        write(command, given, report)
    return int(bool(report.broken()))
