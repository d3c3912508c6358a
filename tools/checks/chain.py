"""Prints the definitions that a clause rests on, for somebody who reads them.

usage: tools/check.py chain [--names | --text | --count] [--clause NAME].. [--stop DEFINITION].. [START]..

START is what one reads from; several are read as one:
  headline                 all clauses of facl::run, the default
  frame                    the same, where FRAME's definitions are words: tools, loading, messages, the check, costs
  page                     of the frame, clause ok alone: what a run writes
  check                    acl(5)'s check
  setfacl, chmod, can ..   a tool: its syntax, its reader, and what its line does
  CRATE::FUNCTION          the clauses of a function, as acl_entry::granted, or of one of a type, a trait or a module, as
                           acl_entry::Acl::get; with --clause only those of these names
  CRATE.specs.FILE.NAME    a definition

A definition comes before those that it names, and these follow in the order of how much each leads to, the least first: so
each line of thought goes on to its end, and small words are explained at once. A lemma is its statement, without the proof.
Types, traits and constants of Rust that definitions name are shown by their text, and not followed: what the value of a type
is, its `Model`, is beside it in the source, and so is that of a type in a function's signature. Names of the kit (std, clap and
others) are listed at the end. What --stop names is listed, but neither shown nor followed.

Prints each definition with its place and how many lines it has, and then the counts; with --names the names alone, with
--text the definitions with their comments, with --count the counts alone. Lines are without comments, imports and blank
ones. A name that nothing declares, imports or binds, and a form that is not read, is an error with its file and line. The
exit status is then 1, also if a START or a DEFINITION is not there; it is 2 if the options are others. documents.py makes
the numbers of docs/READING.md by the function `rows`.
"""
from __future__ import annotations

import argparse
import os
import re
from typing import Dict, Iterable, Iterator, List, NamedTuple, Sequence, Set, Tuple, Union

from lib.script import TOP, Failed
from .definitions import (
    Definition, Item, KitName, Piece, Repository, SpecFile, SpecScope, Statement, Target, statement_of, tokens_of,
)
from .memory_faults import Source

HEADLINE = "facl::run"
WRITES = "ok"
CHECK = ("acl_entry.specs.Check.rights",)
TOOLS = ("facl", "Tools")
# What the frame of the headline takes as words: what a tool does and which tools load a text, what loading one does, the bytes of
# messages, the check, and what lines cost.
FRAME = ("facl.specs.Tools.tool_line", "facl.specs.Tools.tool_named", "facl.specs.Tools.loads",
         "facl_output.specs.Messages.message", "facl_output.specs.Messages.warning", "acl_rights.specs.Deciders.posix",
         "acl_tree.specs.Loads.load", "acl_rights.specs.Costs.all_pairs", "facl.specs.Counted.answered")


class Counts(NamedTuple):
    """How many definitions, how many lines these have, and in how many files; of types of Rust the first two."""

    definitions: int
    lines: int
    files: int
    types: int
    type_lines: int


class Start(NamedTuple):
    """What one reads from: what it names first, the function whose clauses these are, if there is one, and the words that one takes."""

    targets: List[Target]
    statements: List[Statement]
    stops: Set[Definition]


# --- what one reads from


class Starts:
    """The words of START in a repository."""

    def __init__(self, repository: Repository) -> None:
        self.repository = repository

    def start(self, word: str, clauses: List[str]) -> Start:
        if word == "headline":
            return self.function(HEADLINE, clauses)
        if word in ("frame", "page"):
            return self.function(HEADLINE, clauses if word == "frame" else [WRITES])._replace(stops={*map(self.definition, FRAME)})
        if "::" in word:
            return self.function(word, clauses)
        if "." in word or word == "check":
            return Start([self.definition(name) for name in (CHECK if word == "check" else [word])], [], set())
        return Start(self.tool(word), [], set())

    def definition(self, word: str) -> Definition:
        """The definition of a path as `facl.specs.Runs.RunsTo`."""
        crate, *parts, name = word.split(".")
        file = self.repository.spec_file(crate, parts[1:])
        if not file or name not in file.definitions:
            raise Failed(f"there is no definition {word}")
        return file.definitions[name]

    def function(self, word: str, clauses: List[str]) -> Start:
        """The function of a path as `acl_entry::Acl::get`, with its type or its module: of public ones alone, where some are."""
        crate, *owners, name = word.split("::")
        found = [(source, function) for source in self.repository.sources_of(crate) for function in source.functions
                 if function.name == name and (not owners or owners[-1] in (function.scope.type, module_of(source)))]
        found = [each for each in found if each[1].is_public] or found
        if len(found) != 1:
            places = ", ".join(f"{function.label} ({source.file}:{function.line})" for source, function in found)
            raise Failed(f"{word} is one of {places}" if found else f"there is no function {word}")
        statement = statement_of(self.repository, *found[0], clauses)
        if not statement.clauses:
            trait = found[0][1].scope.trait
            raise Failed(" ".join([word, "has no clause", *clauses]) + f"; its trait is {trait}" * bool(trait))
        return Start(statement.targets, [statement], set())

    def tool(self, name: str) -> List[Target]:
        """The definitions of a tool that the lines of the table name, and the clauses of its variant."""
        file = self.repository.spec_file(TOOLS[0], [TOOLS[1]])
        if not file:
            raise Failed(f"there is no {'.'.join(TOOLS)}, which has the tools")
        lines = [line for definition in file.definitions.values() for part in parts_of(definition) for line in part]
        rows = [line for line in lines if f'codes "{name}"' in line.text]
        variants = {variant for row in rows for variant in self.named(file, row)[0]}
        if len(variants) != 1:
            known = sorted({word for line in lines for word in re.findall(r'codes "(\w+)"', line.text)})
            raise Failed(f"there is no tool {name}: there are {', '.join(known)}")
        found: Dict[Target, None] = {}
        for definition in file.definitions.values():
            for part in parts_of(definition):
                named = [self.named(file, line) for line in part]
                if {variant for each, _ in named for variant in each} == variants:
                    found.update(dict.fromkeys(target for _, targets in named for target in targets))
        return list(found)

    def named(self, file: SpecFile, line: Piece) -> Tuple[Set[str], List[Target]]:
        """The variants and the definitions that a line of the tools' file names by their modules, as `tools.Chmod` and `chmod.read`."""
        scope = SpecScope(self.repository, file)
        variants: Set[str] = set()
        found: List[Target] = []
        for token in tokens_of(line):
            module, _, name = token.text.partition(".")
            target = scope.target(token) if name and module in file.imports.modules else None
            if isinstance(target, Item) and ".TheVariants" in file.imports.modules[module].path:
                variants.add(name)
            elif isinstance(target, Definition):
                found.append(target)
        return variants, found


def module_of(source: Source) -> str:
    return os.path.splitext(os.path.basename(source.file))[0]


def parts_of(definition: Definition) -> List[List[Piece]]:
    """The clauses of a definition, each with its lines; where a clause has several items, as a table, each line alone."""
    parts: List[List[Piece]] = []
    for piece in definition.pieces:
        lines = [Piece(piece.line + at, line) for at, line in enumerate(piece.text.split("\n"))]
        parts += [[line] for line in lines] if "∷" in piece.text else [lines]
    return parts


# --- what it leads to


class Chain:
    """All that targets lead to, in reading order."""

    def __init__(self, repository: Repository, targets: Iterable[Target], stops: Set[Definition]) -> None:
        self.repository, self.stops = repository, stops
        self.numbers: Dict[Definition, int] = {}
        self.reached: Dict[Definition, int] = {}
        self.order: Dict[Target, None] = {}
        for target in targets:
            self.visit(target)

    @property
    def definitions(self) -> List[Definition]:
        return [target for target in self.order if isinstance(target, Definition) and target not in self.stops]

    @property
    def items(self) -> List[Item]:
        return [target for target in self.order if isinstance(target, Item)]

    @property
    def kit(self) -> List[KitName]:
        return [target for target in self.order if isinstance(target, KitName)]

    @property
    def words(self) -> List[Definition]:
        """The definitions that are taken as words."""
        return [target for target in self.order if isinstance(target, Definition) and target in self.stops]

    def visit(self, target: Target) -> None:
        """Puts a target, and all that it leads to, behind what is there."""
        if target not in self.order:
            self.order[target] = None
            for used in sorted(self.uses(target), key=self.size):
                self.visit(used)

    def uses(self, target: Target) -> List[Target]:
        return self.repository.uses(target) if isinstance(target, Definition) and target not in self.stops else []

    def size(self, target: Target) -> int:
        """How many definitions a target leads to, itself counted."""
        return bin(self.reach(target)).count("1") if isinstance(target, Definition) else 0

    def reach(self, definition: Definition) -> int:
        """The definitions that a definition leads to, as the bits of a number."""
        if definition not in self.reached:
            bits = 1 << self.numbers.setdefault(definition, len(self.numbers))
            self.reached[definition] = bits
            for used in self.uses(definition):
                bits |= self.reach(used) if isinstance(used, Definition) else 0
            self.reached[definition] = bits
        return self.reached[definition]

    def counts(self, crate: str = "") -> Counts:
        """The counts of a crate, or of all. The head of a `module _` is one more line, once for all definitions in it."""
        ours = [each for each in self.definitions if crate in ("", each.crate)]
        items = [each for each in self.items if crate in ("", each.crate)]
        heads = {(each.path, head.line): head for each in ours for head in each.context}
        lines = sum(len(each.code) for each in ours) + sum(len(head.text.split("\n")) for head in heads.values())
        return Counts(len(ours), lines, len({each.path for each in ours}), len(items), sum(len(each.code) for each in items))


def chain_of(repository: Repository, starts: Sequence[Start]) -> Chain:
    """What some starts lead to. A word that one takes is followed where another start begins at it."""
    targets = [target for start in starts for target in start.targets]
    begins = {target for start in starts if not start.stops for target in start.targets}
    return Chain(repository, targets, {stop for start in starts for stop in start.stops if stop not in begins})


def rows(top: str, words: Iterable[str]) -> Iterator[Tuple[str, Counts]]:
    """The counts of some words of START, joined by blanks where several are read as one."""
    repository = Repository(top)
    starts = Starts(repository)
    for word in words:
        yield word, chain_of(repository, [starts.start(part, []) for part in word.split()]).counts()


# --- what is printed


def place_of(target: Union[Definition, Item]) -> str:
    return f"{target.path}:{target.line}"


def names_of(chain: Chain) -> Iterator[Tuple[str, str, int]]:
    """The name of each definition and of each type of Rust, its place, and how many lines it has."""
    for target in chain.order:
        if not isinstance(target, KitName) and target not in chain.stops:
            yield target.label, place_of(target), len(target.code)


def statement_text(statement: Statement) -> Iterator[str]:
    function = statement.function
    yield f"// {statement.source.file}:{function.line}: {function.label}"
    yield statement.signature
    for clause in statement.clauses:
        yield f"{clause.kind}{' ' + clause.name if clause.name else ''} {{{clause.text}}}"


def texts_of(chain: Chain) -> Iterator[str]:
    """The text of each definition, with the heads of the modules that it is in, and of each type of Rust."""
    for target in chain.order:
        if isinstance(target, Definition) and target not in chain.stops:
            yield "\n".join([f"-- {place_of(target)}", *(head.text for head in target.context), *target.comment, *target.lines, ""])
        elif isinstance(target, Item):
            yield "\n".join([f"// {place_of(target)}", *target.lines, ""])


def leaves_of(chain: Chain) -> Iterator[str]:
    """The words that are taken, and the names of the kit by their crates."""
    if chain.words:
        yield "taken as words: " + ", ".join(each.label for each in chain.words)
    for crate in sorted({each.crate for each in chain.kit}):
        names = sorted({each.name for each in chain.kit if each.crate == crate})
        yield f"names of {crate} ({len(names)}): {' '.join(names)}"


def counts_of(chain: Chain) -> Iterator[str]:
    counts = chain.counts()
    yield f"{counts.definitions:,} definitions with {counts.lines:,} lines in {counts.files:,} files"
    yield f"{counts.types:,} types, traits and constants of Rust with {counts.type_lines:,} lines"
    yield f"{len({each.label for each in chain.kit}):,} names of the kit"
    yield f"{'crate':16} {'definitions':>11} {'lines':>6} {'files':>6} {'of Rust':>8} {'lines':>6}"
    for crate in sorted({each.crate for each in chain.definitions} | {each.crate for each in chain.items}):
        ours = chain.counts(crate)
        yield f"{crate:16} {ours.definitions:11,} {ours.lines:6,} {ours.files:6,} {ours.types:8,} {ours.type_lines:6,}"


def lines_of(chain: Chain, starts: Sequence[Start], given: argparse.Namespace) -> Iterator[str]:
    """What is printed of a chain."""
    if given.text:
        for statement in (statement for start in starts for statement in start.statements):
            yield from (*statement_text(statement), "")
        yield from texts_of(chain)
    elif not given.count:
        yield from (name if given.names else f"{name}  {place}  {lines}" for name, place, lines in names_of(chain))
    if not given.names:
        yield from () if given.count else leaves_of(chain)
        yield from counts_of(chain)


def read_words() -> argparse.Namespace:
    options = argparse.ArgumentParser(description=__doc__, formatter_class=argparse.RawDescriptionHelpFormatter)
    kinds = options.add_mutually_exclusive_group()
    for name in ("--names", "--text", "--count"):
        kinds.add_argument(name, action="store_true")
    options.add_argument("--clause", action="append", default=[], metavar="NAME")
    options.add_argument("--stop", action="append", default=[], metavar="DEFINITION")
    options.add_argument("starts", nargs="*", default=["headline"], metavar="START")
    return options.parse_args()


def main() -> int:
    given = read_words()
    repository = Repository(TOP)
    words = Starts(repository)
    starts = [words.start(word, given.clause) for word in given.starts]
    starts.append(Start([], [], {words.definition(word) for word in given.stop}))
    print("".join(f"{line}\n" for line in lines_of(chain_of(repository, starts), starts, given)), end="")
    return 0
