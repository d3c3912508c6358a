"""What facl-check prints: the rules that do not hold, for whom, on which files and by which entries."""
from __future__ import annotations

import argparse
from typing import Dict, Iterator, List, NamedTuple

from ...base.messages import counted
from ...base.names import file_name, json_text
from ...base.tables import Column, Paint, Table, fitting_line
from ...model.choice import head_of
from ...model.entries import Entry
from ...model.everybody import SHOWN, beside
from ...model.meta import Meta, named
from .answers import Block, RuleOutcome, Violation
from .rules import ALWAYS

SCHEMA = "facl-check/1"
FIRST = 3  # Files of a user.
NAMES = 8  # Users who may else.


class CheckReport(NamedTuple):
    snapshot: bytes  # As it was given.
    meta: Meta
    rules: bytes  # The name of the file.
    outcomes: List[RuleOutcome]
    left_out: List[bytes]  # Users who are no people, and may what rules give to others only; as printed.
    notes: List[bytes]  # On groups of whom nobody is checked.
    passwd: bytes  # The users of the snapshot.
    is_whole: bool  # Whether paths start at the root of the file system.

    def broken(self) -> List[RuleOutcome]:
        """The rules that do not hold."""
        return [it for it in self.outcomes if it.violations]

    def name_of(self, path: bytes) -> bytes:
        return file_name(path, self.is_whole)

    def block_text(self, block: Block) -> bytes:
        return self.name_of(block.path) + b": " + b", ".join(map(entry_text, block.entries))


def first_of(names: List[bytes], number: int) -> bytes:
    """The first ones of a number of names."""
    return b", ".join(names) + (b" and %d more" % (number - len(names)) if number > len(names) else b"")


def entry_text(entry: Entry) -> bytes:
    return entry.text(b" (effective %s)")


def lines_of_violation(report: CheckReport, outcome: RuleOutcome, found: Violation) -> Iterator[bytes]:
    """Who may, or may not, and on how many files; by which entries; and who else may."""
    verb, of_all = (b"may not", b" of %d" % outcome.files) if outcome.rule.kind == ALWAYS else (b"may", b"")
    files = counted(len(found.paths), "file")
    yield b"    %s %s %s %s%s, first: %s" % (found.user, verb, outcome.rule.right, files, of_all,
                                             first_of(list(map(report.name_of, found.paths[:FIRST])), len(found.paths)))
    for place, block in enumerate(found.blocks):
        yield (b"        by  " if place == 0 else b"            ") + report.block_text(block)
    others = first_of(found.others[:NAMES], len(found.others))
    if outcome.rule.kind == ALWAYS:
        yield b"        who may: " + (others or b"(nobody)")
    elif others:
        yield b"        who else may: " + others


def summary(report: CheckReport) -> bytes:
    broken, number = len(report.broken()), len(report.outcomes)
    name = named(report.snapshot, report.meta)
    if not broken:
        return b"%s: %s %s" % (name, counted(number, "rule"), b"holds" if number == 1 else b"hold")
    return b"%s: %d of %s %s not hold" % (name, broken, counted(number, "rule"), b"does" if broken == 1 else b"do")


def lines_of(report: CheckReport) -> Iterator[bytes]:
    paint = Paint()
    for outcome in report.broken():
        rule = outcome.rule
        yield paint.red(fitting_line(b"%s, line %d: %s" % (report.rules, rule.number, rule.text())))
        for found in outcome.violations:
            for line in lines_of_violation(report, outcome, found):
                yield fitting_line(line)
    if any(SHOWN in (found.user, *found.others) for outcome in report.broken() for found in outcome.violations):
        yield from map(fitting_line, beside(report.meta))
    text = fitting_line(summary(report))
    yield paint.bold(text) if report.broken() else paint.green(text)


def table_of(report: CheckReport) -> Table:
    """A row for each user for whom a rule does not hold."""
    rows = [[b"%d" % outcome.rule.number, outcome.rule.text(), found.user, b"%d" % len(found.paths),
             report.name_of(found.paths[0]), report.block_text(found.blocks[-1]) if found.blocks else b""]
            for outcome in report.broken() for found in outcome.violations]
    columns = [Column("LINE", True), Column("RULE"), Column("USER"), Column("FILES", True), Column("FIRST"),
               Column("BY")]
    return Table(columns, rows)


def json_of_violation(report: CheckReport, found: Violation) -> Dict[str, object]:
    blocks = [{"path": json_text(report.name_of(it.path)), "entries": [json_text(entry_text(entry)) for entry in it.entries]}
              for it in found.blocks]
    return {"user": json_text(found.user), "count": len(found.paths),
            "paths": [json_text(report.name_of(path)) for path in found.paths[:FIRST]], "entries": blocks,
            "who_else": list(map(json_text, found.others))}


def json_of(given: argparse.Namespace, report: CheckReport) -> Dict[str, object]:
    rules = [{"line": it.rule.number, "rule": json_text(it.rule.text()), "count": it.files,
              "holds": not it.violations, "violations": [json_of_violation(report, found) for found in it.violations]}
             for it in report.outcomes]
    return {**head_of(given, report.snapshot, report.meta), "rules": rules, "broken": len(report.broken()),
            "left_out": [json_text(name) for name in report.left_out]}
