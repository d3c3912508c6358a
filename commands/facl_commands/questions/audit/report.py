"""What facl-audit prints: the findings by weight, or all files of one."""
from __future__ import annotations

import argparse
import os
from collections import Counter
from typing import Dict, FrozenSet, Iterator, List, Set

from ...base.messages import counted
from ...base.names import at_or_below, file_name, is_at_or_below, json_text, shell_word, shown
from ...base.programs import program_words
from ...base.tables import Column, Paint, Table, fitting_line
from ...model import sources, split_tree
from ...model.choice import head_of
from ...model.everybody import beside
from ...model.meta import meta_of, named
from ...model.sources import Source
from .findings import (
    HIGH, KINDS, LOW, MAY_BE_MEANT, MIDDLE, OF_EVERYBODY, WEIGHTS, Accepted, Findings, FoundFiles, KindOfFinding, read_accepted,
    sort_out, why_unused,
)
from .groups import PatternGroup, groups_of, line_of, not_known

SCHEMA = "facl-audit/1"
FIRST, GROUPS = 3, 10  # Names and groups of a finding.
INDENT = 8
NAME_WIDTH = max(len(kind.name) for kind in KINDS)


class AuditReport:
    """What is found in a snapshot or in all of its parts, without what is accepted."""

    def __init__(self, given: argparse.Namespace, source: Source) -> None:
        self.given, self.source, self.parts = given, source, split_tree.parts_in(source.folder)
        self.meta = split_tree.meta_of_all(self.parts) if self.parts else meta_of(source.folder)
        self.folders: List[bytes] = []
        self.files = 0  # At or below these.
        self.findings: Findings = {kind.name: FoundFiles() for kind in KINDS}
        self.accepted = 0  # Files.
        self.lines = read_accepted(given.accepted) if given.accepted is not None else []
        self.recorded: Set[bytes] = set()  # The paths of lines that are in the snapshot.
        self.unused: Dict[Accepted, bytes] = {}  # The lines that accept nothing, with what is said of them.
        self.is_whole = False  # Whether paths start at the root of the file system.
        self.known: FrozenSet[bytes] = frozenset()  # What an earlier run said.

    def accept(self) -> None:
        """Takes out what lines accept. A line that accepts nothing is said where it is about what is audited, or its path is
        not in the snapshot."""
        rest, used = sort_out(self.findings, self.lines)
        for line in [line for line in self.lines if line not in used]:
            if (line.path != b"" and line.path not in self.recorded or is_at_or_below(line.path, self.folders)
                    or line.is_folder and at_or_below(self.folders, [line.path])):
                self.unused[line] = why_unused(line, self.findings)
        self.accepted = sum(map(len, self.findings.values())) - sum(map(len, rest.values()))
        self.findings = rest

    def name_of(self, path: bytes) -> bytes:
        return file_name(path, self.is_whole)

    def json_name(self, path: bytes) -> str:
        return json_text(self.name_of(path))

    def kinds(self) -> List[KindOfFinding]:
        """Those of which something is found, by weight."""
        return [kind for weight in WEIGHTS for kind in KINDS if kind.weight == weight and self.findings.get(kind.name)]

    def shown(self) -> List[KindOfFinding]:
        """Those of the weight of --weight and above; one that is named in any case."""
        asked, weights = self.given.list or self.given.edits, WEIGHTS[: WEIGHTS.index(self.given.weight) + 1]
        return [kind for kind in self.kinds() if (kind.weight in weights if asked is None else kind.name == asked)]

    def hidden(self) -> List[KindOfFinding]:
        return [kind for kind in self.kinds() if kind not in self.shown()]

    def files_of(self, kinds: List[KindOfFinding]) -> int:
        """The number of different files of some findings."""
        return len({path for kind in kinds for path in self.findings[kind.name].paths})

    def said(self, is_all: bool) -> bytes:
        """What a later run reads to know what was said: all that is shown, or what was known before and is found again."""
        lines = (line_of(kind.name, *it) for kind in self.shown() for found in [self.findings[kind.name]]
                 for it in zip(found.paths, found.mends))
        return b"".join(line + b"\n" for line in lines if is_all or line in self.known)


def lines_of_groups(groups: List[PatternGroup], is_whole: bool) -> Iterator[bytes]:
    """The first groups of a finding that counts by these, a line each."""
    for it in groups[:GROUPS]:
        yield fitting_line(b"%s, %s: %s, first: %s" % (it.pattern, it.where(file_name(it.folder, is_whole)), counted(
            len(it.files), "file"), file_name(it.files.paths[0], is_whole)), INDENT)
    if len(groups) > GROUPS:
        yield fitting_line(b"and %d more of these; --json has all" % (len(groups) - GROUPS), INDENT)


def lines_of_kind(report: AuditReport, kind: KindOfFinding, paint: Paint) -> Iterator[bytes]:
    """A finding: its number of files, what it is, the first names and the line that mends the first one; of what an earlier run
    said the number alone."""
    painter = {HIGH: paint.red, MIDDLE: paint.yellow, LOW: paint.dim}[kind.weight]
    head = painter(("%-7s %-*s  " % (kind.weight, NAME_WIDTH, kind.name)).encode())
    of_all, is_whole = report.findings[kind.name], report.is_whole
    found = not_known(kind.name, of_all, report.known)
    if not len(found):
        yield head + counted(len(of_all), "file") + b", as in the last run"
        return
    yield head + paint.bold(counted(len(found), "file") if len(found) == len(of_all) else b"%s, %d in all" % (
        counted(len(found), "more file"), len(of_all)))
    yield fitting_line(kind.meaning.encode(), INDENT)
    groups = groups_of(found)
    yield from lines_of_groups(groups, is_whole) if groups else lines_of_names(found, is_whole)
    yield from lines_of_action(groups[0].files if groups else found, is_whole)


def lines_of_names(found: FoundFiles, is_whole: bool) -> Iterator[bytes]:
    """The first files of a finding."""
    first = next(found.first())
    detail = b" (" + first.mend.detail + b")" if first.mend.detail else b""
    yield fitting_line(b"first: " + file_name(first.path, is_whole) + detail, INDENT)
    if len(found) > 1:
        names = b", ".join(file_name(path, is_whole) for path in found.paths[1 : FIRST + 1])
        yield fitting_line(b"then:  " + names + b", .." * (len(found) > FIRST + 1), INDENT)


def lines_of_action(found: FoundFiles, is_whole: bool) -> Iterator[bytes]:
    """What may be meant, and the line that mends the first file, or what is to be decided of it."""
    first = next(found.first())
    for text, count in Counter(mend.meant for mend in found.mends if mend.meant).items():
        of_all = b" (%d of %d files)" % (count, len(found)) if count < len(found) else b""
        yield fitting_line(MAY_BE_MEANT + text + of_all, INDENT)
    line = first.line(is_whole)  # Whole, to be copied.
    yield b" " * INDENT + b"for facl plan: " + shown(line) if line else fitting_line(first.action(is_whole)[2:], INDENT)


def summary(report: AuditReport) -> bytes:
    counts = {weight: sum(kind.weight == weight for kind in report.kinds()) for weight in WEIGHTS}
    found = b", ".join(b"%d %s" % (count, weight.encode()) for weight, count in counts.items() if count)
    text = b"findings: " + found if found else b"no findings"
    return text + (b"; accepted: " + counted(report.accepted, "file")) * bool(report.accepted)


def lines_of(report: AuditReport) -> Iterator[bytes]:
    folders = b", ".join(map(report.name_of, report.folders))
    head = b"%s: %s at or below %s" % (named(report.source.shown, report.meta), counted(report.files, "file"), folders)
    yield fitting_line(head)
    paint = Paint()
    for kind in report.shown():
        yield from lines_of_kind(report, kind, paint)
    if any(kind.name in OF_EVERYBODY for kind in report.shown()):
        yield from map(fitting_line, beside(report.meta))
    yield summary(report)
    yield from not_shown(report)
    if report.shown():
        yield from lines_again(report, report.shown()[0].name.encode())


def not_shown(report: AuditReport) -> Iterator[bytes]:
    """The line on findings of less weight than is shown."""
    hidden = report.hidden()
    if hidden:
        number, weights = report.files_of(hidden), Counter(kind.weight for kind in hidden)
        kinds = b" and ".join(b"%d %s" % (count, weight.encode()) for weight, count in weights.items())
        yield b"%s in %s %s not shown; --weight %s shows %s" % (
            counted(number, "file"), kinds, b"finding" if len(hidden) == 1 else b"findings", hidden[-1].weight.encode(),
            b"it" if number == 1 else b"them")


def lines_again(report: AuditReport, name: bytes) -> Iterator[bytes]:
    """What prints all of a finding: verbs, or the commands of a dump, which no verb takes."""
    given, of_edits = report.given, report.given
    if report.parts:
        of_edits = argparse.Namespace(**{**vars(given), "snapshot": os.fsdecode(report.parts[0])})
    verbs = (b"facl audit --list", b"facl audit fix", b"facl plan")
    files, edits, plan = verbs if given.dump is None else (b"facl-audit --list", b"facl-audit --edits", b"facl-plan")
    yield b"all files of one: %s %s %s" % (files, name, written(words_again(given)))
    yield b"all lines of one%s: %s %s %s >edits; %s %s edits" % (
        b", of the first part" * bool(report.parts), edits, name, written(words_again(of_edits)), plan,
        written(words_of_source(of_edits)))


def words_of_source(given: argparse.Namespace) -> List[str]:
    """The words of a verb that name the snapshot, or those of a command that name a dump."""
    return sources.source_words(given) if given.dump is not None else [*program_words(given), "-s", given.snapshot]


def words_again(given: argparse.Namespace) -> List[str]:
    """The words that say what the findings are of, for another run."""
    alone = "--alone" if given.dump is None else "--file-alone"
    flags = ["--all-users"] * given.all_users + ["--with-root"] * given.with_root + [alone] * given.file_alone
    accepted = [] if given.accepted is None else ["--accepted", given.accepted]
    return [*flags, *accepted, *words_of_source(given), *given.folders]


def written(words: List[str]) -> bytes:
    """Words for a shell."""
    return shown(b" ".join(shell_word(os.fsencode(word)) for word in words))


def rows_of_kind(report: AuditReport, kind: KindOfFinding) -> Iterator[List[bytes]]:
    """A row for a finding, or for each of its groups."""
    found = report.findings[kind.name]
    groups = [(it.files, it.pattern + b", " + it.where(report.name_of(it.folder))) for it in groups_of(found)]
    for files, what in groups or [(found, b"")]:
        path, of_first, action = next(files.first()).fields(report.is_whole)
        yield [kind.weight.encode(), kind.name.encode(), b"%d" % len(files), path, what or of_first, action]


def table_of(report: AuditReport) -> Table:
    rows = [row for kind in report.shown() for row in rows_of_kind(report, kind)]
    columns = [Column("WEIGHT"), Column("FINDING"), Column("FILES", True), Column("FIRST"), Column("WHAT"),
               Column("FOR FACL PLAN")]
    return Table(columns, rows)


def table_of_files(found: FoundFiles, is_whole: bool) -> Table:
    """A row for each file of a finding."""
    rows = [it.fields(is_whole) for it in found.first()]
    return Table([Column("FILE"), Column("WHAT"), Column("FOR FACL PLAN")], rows)


def json_of_kind(report: AuditReport, kind: KindOfFinding) -> Dict[str, object]:
    """A finding with its first files; with all of them if only that finding is printed."""
    found, has_all = report.findings[kind.name], report.given.list is not None or report.given.edits is not None
    files = [{"path": report.json_name(it.path), "what": json_text(it.mend.detail), "edit": json_text(it.line(report.is_whole)),
              "may_be_meant": json_text(it.mend.meant), "decide": json_text(it.mend.decide)}
             for it in found.first(None if has_all else FIRST)]
    groups = [{"folder": report.json_name(it.folder), "by_default_acl": it.is_given, "pattern": json_text(it.pattern),
               "count": len(it.files), "path": report.json_name(it.files.paths[0])} for it in groups_of(found)]
    return {"finding": kind.name, "weight": kind.weight, "meaning": kind.meaning, "count": len(found), "files": files, "groups": groups}


def json_of(report: AuditReport) -> Dict[str, object]:
    hidden = report.hidden() if report.given.list is None else []
    return {
        **head_of(report.given, report.source.shown, report.meta),
        "folders": list(map(report.json_name, report.folders)),
        "count": report.files,
        "weight": report.given.weight,
        "findings": [json_of_kind(report, kind) for kind in report.shown()],
        "not_shown": {"findings": [kind.name for kind in hidden], "count": report.files_of(hidden)},
        "accepted": report.accepted,
        "unused": [{"line": it.number, "finding": it.kind,
                    "path": report.json_name(it.path) if it.path in report.recorded else None} for it in report.unused],
    }
