"""Checks what the documents say of the sources.

usage: tools/check.py documents [--write | --files [CRATE].. | --index [CRATE]..]

- docs/PROOFS.md: the functions, types and clauses that these name are in the sources (Checks.name_faults): the column
  "Carried by", tables that start with "Calls", lists of its section LEFT, and what is in parentheses of the points, the
  numbered lines of its section POINTS.
- Tables: limits have the values of their constants; the map of crates and the table of tests have each crate of
  crates.txt; the line of docs/PROOFS.md that starts with "Trusted" has the kit's crates that crates.txt lists.
- docs/SPECIFICATION.md, docs/facl.1: a number in thousands, with commas, is a limit, or one from a limit.
- Each tool and option that the program reads is in docs/facl.1, in the records of commands/facl_commands/program/tools.py, of
  which completion is made, and in docs/SPECIFICATION.md; each tool in the README's table. The
  first two and the README have no others. The words that name a text are those of the options that read one (tool_rows.py).
- docs/READING.md: each line of its examples is one of the sources or definitions.
- tools/README.md names each script of tools/, a check as `check.py NAME`, and none that is not there.
- The blocks `<!-- graph -->` of docs/ARCHITECTURE.md and `<!-- chain -->` of docs/READING.md, which chain.py counts, are as
  the sources have them; --write makes them so, and does nothing else.
- Each file of src/ and specs/ of a crate, and each script of commands/, debian/ and tools/, has a sentence at its head; --files
  prints these sentences, of some crates or of all and the scripts, and does nothing else.
- --index prints, of some crates of the program or of all, the public calls whose `ensures` have names, with these; the laws,
  which are functions that have a theorem as their contract; and the wrong bodies of each folder, each with the function that
  it changes. It does nothing else.
- All documents: each link within the repository, each path that starts with a folder of it or of a crate, and each
  `tools/check.py NAME` leads to something; each name with `_` or `::` is a word of the sources, or of the tests of the commands.

Prints `FILE:LINE: what is wrong`. The exit status is 1 if something is.
"""
from __future__ import annotations

import os
import re
import sys
from pathlib import Path
from typing import Dict, Iterable, Iterator, List, NamedTuple, Set, Tuple

from lib.script import TOP, Failed
from ways import Crates
from . import chain
from .memory_faults import Function, Library, found_in, is_of_tests, text_of
from .tool_rows import ToolRows

PROOFS, ARCHITECTURE, READING, PAGE = "docs/PROOFS.md", "docs/ARCHITECTURE.md", "docs/READING.md", "docs/facl.1"
CONTRIBUTING, TOOLS, SPECIFICATION = "CONTRIBUTING.md", "tools/README.md", "docs/SPECIFICATION.md"
POINTS, LEFT = "The points", "What an error leaves as it was"
LINK = re.compile(r"\[[^\]]*\]\(([^)\s]+)\)")
PATH = re.compile(r"(?<![\w/.-])((?:tools|commands|docs|demo|debian|crates|\.ci)/[\w./-]*[\w/])")
IN_CRATE = re.compile(r"(?<![\w/])((?:\w+/)?(?:src|specs|proofs)/(?:\w+/)*\w+\.(?:rt|antt))\b")
CHECK = re.compile(r"\bcheck\.py ([a-z]\w*)")
SCRIPT = re.compile(r"(?<![\w/.])(?:\w+/)*\w+\.(?:py|sh|c)\b")
NAME = re.compile(r"(?:[A-Za-z]\w*::)*[A-Za-z]\w*")
PLACEHOLDER = re.compile(r"X_\w+|\w+_")
IN_PARENTHESES = re.compile(r"\(((?:[^()]|\([^()]*\))*)\)")
PIECE = re.compile(r"`([^`]*)`|(\w+|[();])")
BLOCK = re.compile(r"^<!-- (graph|chain) -->\n(.*?)^<!-- end -->$", re.M | re.S)
LAW = re.compile(r"^ */// Proof only.*\n(?: *(?:///|#\[).*\n)* *(?:pub )?fn ", re.M)
SOURCES = ("crates/*/src/**/*.rt", "crates/*/specs/*.antt")
# The documents with a block that is made of the sources.
BLOCKS = {ARCHITECTURE: "graph", READING: "chain"}
# What one may read, by words of chain.py.
READ = {
    "headline": "all clauses of `run`",
    "frame": "its frame: the same, without what tools, loading, messages, the check and costs are",
    "page": "of the frame, clause `ok` alone: what a run writes, without what it costs",
    "check": "acl(5)'s check",
    "page check chmod": "what a run writes, the check and `chmod`",
    "chmod": "`chmod`", "rm": "`rm`", "userdel": "`userdel`", "gpasswd": "`gpasswd`", "creat": "`creat`", "can": "`can`",
    "setfacl": "`setfacl`",
}
# The folders of edits that must be refused: by rt ci, which checks the whole crate, and by tools/edits.py, one function.
EDITS = {"must-fail": "Wrong bodies", "wrong": "Wrong bodies, each tried by its function alone"}
SCRIPTS = ("commands/facl-*", "commands/facl_commands/**/*.py", "debian/*.sh",
           *(f"tools/{file}" for file in ("*.py", "*.sh", "*/*.py", "*/*.sh", "*/*.c")))
Fault = Tuple[str, int, str]


class Line(NamedTuple):
    """A line of a document, counted from 1, with the last heading of the second level, and a row's heads and cells."""

    number: int
    section: str
    text: str
    is_code: bool
    heads: List[str]
    cells: List[str]


def lines_of(text: str) -> Iterator[Line]:
    section, in_code = "", False
    heads: List[str] = []
    for number, line in enumerate(text.split("\n"), 1):
        if line.startswith("```"):
            in_code = not in_code
            continue
        section = line[3:] if line.startswith("## ") and not in_code else section
        is_row = line.startswith("|") and not in_code
        cells = [cell.strip() for cell in re.split(r"(?<!\\)\|", line.strip())[1:-1]] if is_row else []
        is_head = not heads or not re.search(r"[^|\s:-]", line)
        yield Line(number, section, line, in_code, heads, [] if is_head else cells)
        heads = (heads or list(cells)) if is_row else []


def with_modules(text: str) -> str:
    """The text with the path of its module in the place of each call of a check."""
    return CHECK.sub(r"checks/\1.py", text)


def codes_of(text: str) -> List[str]:
    """What is in backticks."""
    return re.findall(r"`([^`]+)`", text)


def numbers_of(text: str) -> Set[int]:
    return {int(number.replace(",", "")) for number in re.findall(r"\d[\d,]*", text)}


def anchors_of(lines: Iterable[Line]) -> List[str]:
    """The names by which links lead to headings."""
    heads = (line.text.lstrip("#").strip() for line in lines if line.text.startswith("#") and not line.is_code)
    return [re.sub(r"[^\w\- ]", "", head).replace(" ", "-").lower() for head in heads]


def head_of(top: str, path: str) -> str:
    """The first paragraph of the docstring or the comment that a file starts with."""
    text = re.sub(r"\A#!.*\n", "", text_of(top, path))
    match = re.match(r'"""((?s:.+?))(?:"""|\n\n)|(?:/\* |(//!|--|#) )(.+\n(?:\2 .+\n)*)', text)
    return " ".join(re.sub(r"^(?://!|--|#) |\*/", "", match[1] or match[3], flags=re.M).split()) if match else ""


class Checks:
    """All checks of a repository; each gives documents, lines and what is wrong there."""

    def __init__(self, top: str) -> None:
        self.top, self.library = top, Library(top)
        self.crates = Crates(os.path.join(top, "crates.txt"))
        self.listed = self.crates.listed
        self.program = [crate for crate in self.listed if not is_of_tests(crate)]
        paths = found_in(top, "*.md", "docs/*.md", "docs/*.1", "demo/*.md", "tools/*.md")
        self.texts = {path: text_of(top, path) for path in paths}
        self.lines = {path: list(lines_of(text)) for path, text in self.texts.items()}
        self.words = self.all_words()
        files = [path[len("crates/"):] for path in found_in(top, *SOURCES, "crates/*/proofs/**/*.antt")]
        self.files = {*files, *(path.split("/", 1)[1] for path in files)}

    def all_words(self) -> Set[str]:
        """The words of sources, definitions, scripts and commands, with the names of crates and edits."""
        paths = found_in(self.top, *SOURCES, *SCRIPTS, "commands/tests/*.py", "tools/*/*.txt")
        names = found_in(self.top, *(f"crates/*/{folder}/*.edit" for folder in EDITS))
        words = {os.path.splitext(os.path.basename(path))[0] for path in (*paths, *names)} | set(self.listed)
        return words.union(*(re.findall(r"\w+", text_of(self.top, path)) for path in paths))

    def rows(self, path: str, *heads: str) -> List[Line]:
        """The rows of a document's tables whose first columns have these heads."""
        return [line for line in self.lines[path] if line.cells and line.heads[:len(heads)] == list(heads)]

    # --- names in docs/PROOFS.md

    def names(self) -> Iterator[Fault]:
        lines, rows = self.lines[PROOFS], self.rows(PROOFS)
        texts: Dict[str, List[Tuple[int, str, str]]] = {
            "Carried by": [(row.number, row.cells[1], "") for row in rows if "Carried by" in row.heads[1:2]],
            "Calls": [(row.number, row.cells[0], row.cells[-1]) for row in self.rows(PROOFS, "Calls")],
            LEFT: [(line.number, line.text, "") for line in lines if (line.section, line.text[:2]) == (LEFT, "- ")],
            POINTS: [(line.number, part, "") for line in lines if line.section == POINTS and line.text[:1].isdigit()
                     for part in IN_PARENTHESES.findall(line.text)]}
        for kind, found in texts.items():
            faults = [(PROOFS, number, fault) for number, *text in found for fault in self.name_faults(*text)]
            yield from faults if found else [(PROOFS, 1, f"there is no table, list or point of: {kind}")]

    def name_faults(self, text: str, clauses: str) -> Iterator[str]:
        """What is wrong with the names in a text, which is read from left to right.

        `crate::Type::function`, or less of it: the crate and the type that were named last count on, a crate also where
        it is named without backticks. After the word `clause` or `clauses`, up to a `;`, and in `clauses`, are names of
        clauses: each is one of some function of the text, and each function has one of them. A name in parentheses is
        any word of the sources.
        """
        named = [code for code in codes_of(clauses) if NAME.fullmatch(code)]
        functions: List[List[Function]] = []
        crate, owner, depth, in_clauses = "", "", 0, False
        for code, word in PIECE.findall(text):
            depth += (word == "(") - (word == ")")
            in_clauses = word != ";" and (in_clauses or word in ("clause", "clauses"))
            *path, name = code.split("::")
            if (code or word) in self.listed and not depth:
                crate, owner = code or word, ""
            elif NAME.fullmatch(code) and in_clauses:
                named.append(code)
            elif NAME.fullmatch(code):
                crate = path.pop(0) if path and path[0] in self.listed else crate
                owner = path[-1] if path else name if name[0].isupper() else owner
                found = [each for each in self.library.functions if each.name == name and crate in ("", each.crate)]
                meant = [each for each in found if each.scope.type == owner] or ([] if path else found)
                functions += [meant] if meant and not depth else []
                if not meant and not ((depth or name[0].isupper()) and {name, *path} <= self.words):
                    yield f"no `{code}` in {crate or 'the sources'}"
        yield from self.clause_faults(functions, named)

    def clause_faults(self, functions: List[List[Function]], named: List[str]) -> Iterator[str]:
        known: Set[str] = set()
        for meant in functions:
            names = {name for function in meant for name in self.library.clauses(function)}
            known |= names
            if named and not names & set(named):
                yield f"{meant[0].label} has none of the clauses named; it has {', '.join(sorted(names)) or 'none'}"
        yield from (f"no function here has a clause `{name}`" for name in named if name not in known)

    # --- tables, examples and scripts

    def limits(self) -> Iterator[Fault]:
        """Values in the table of limits; and numbers in thousands in the rules, which are limits, or one from them."""
        rows = self.rows(ARCHITECTURE, "Limit", "Value", "Constant")
        for row in rows:
            crate, name = re.findall(r"\w+", row.cells[2])[:2]
            constant = re.compile(rf"\bconst {name}: \w+ = ([\d_]+);")
            values = {int(value) for source in self.library.of_crate(crate) for value in constant.findall(source.text)}
            if not values & numbers_of(row.cells[1]):
                yield ARCHITECTURE, row.number, f"{name} of {crate} is {' '.join(map(str, values)) or 'not there'}"
        there = {number + more for row in rows for number in numbers_of(row.cells[1]) for more in (-1, 0, 1)}
        for path, line in ((path, line) for path in (SPECIFICATION, PAGE) for line in self.lines[path]):
            others = {number for text in re.findall(r"\d+(?:,\d+)+", line.text) for number in numbers_of(text)} - there
            yield from ((path, line.number, f"{number} is no limit of {ARCHITECTURE}") for number in others)

    def maps(self) -> Iterator[Fault]:
        """The map of crates, the table of tests, and the crates of the kit that are trusted, beside crates.txt."""
        rows = {row.cells[0].strip("`"): row.number for row in self.rows(ARCHITECTURE, "Crate")}
        unknown = set(rows) - set(self.listed)
        yield from ((ARCHITECTURE, rows[crate], f"no crate {crate} in crates.txt") for crate in unknown)
        yield from ((ARCHITECTURE, 1, f"{crate} is not in the map") for crate in set(self.program) - set(rows))
        left = set(self.listed)
        for row in self.rows(CONTRIBUTING, "Crates", "Tests"):
            crates, tests = (set(re.findall(r"\w+", cell)) & set(self.listed) for cell in row.cells[:2])
            left -= crates | tests
            for test in tests:
                others = crates - self.crates.needed(test)
                yield from ((CONTRIBUTING, row.number, f"{test} does not use {other}: crates.txt") for other in others)
        yield from ((CONTRIBUTING, 1, f"{crate} is not in the table of tests") for crate in left)
        kit = {name for names in self.listed.values() for name in names} - set(self.listed)
        trusted = [line for line in self.lines[PROOFS] if line.text.startswith("Trusted")]
        if not trusted or set(codes_of(trusted[0].text)) != kit:
            number = trusted[0].number if trusted else 1
            yield PROOFS, number, f"no line that starts with Trusted has the kit's crates, {' '.join(sorted(kit))}"

    def examples(self) -> Iterator[Fault]:
        """Lines of examples that are in no source and no definition."""
        there = {line.strip() for path in found_in(self.top, *SOURCES) for line in text_of(self.top, path).split("\n")}
        for line in self.lines[READING]:
            if line.is_code and line.text.strip() not in there | {""}:
                yield READING, line.number, "is in no source"

    def scripts(self) -> Iterator[Fault]:
        """Scripts that tools/README.md does not name, by their paths in tools/, and those that are not there."""
        there = {path[len("tools/"):] for path in found_in(self.top, *SCRIPTS)
                 if path.startswith("tools/") and not path.endswith("/__init__.py")}
        named = {name: line.number for line in self.lines[TOOLS] for name in SCRIPT.findall(with_modules(line.text))}
        yield from ((TOOLS, named[name], f"no {name} in tools/") for name in set(named) - there)
        yield from ((TOOLS, 1, f"{name} is not named") for name in there - set(named))

    def heads(self, crates: List[str]) -> List[Tuple[str, str]]:
        """The files of some crates, or of all, commands and scripts, each with the sentence at its head."""
        folders = [f"crates/{crate}/{folder}" for crate in crates or ["*"] for folder in ("src", "specs")]
        files = found_in(self.top, *(f"{folder}/**/*.*t*" for folder in folders), *(() if crates else SCRIPTS))
        return [(path, head_of(self.top, path)) for path in files
                if not path.endswith(("/lib.rt", "/Lib.antt", "/__init__.py"))]

    # --- what is made of the sources

    def blocks(self) -> Iterator[Fault]:
        for path, kind in BLOCKS.items():
            try:
                if f"<!-- {kind} -->" not in self.texts[path] or self.written(self.texts[path]) != self.texts[path]:
                    yield path, 1, f"the block {kind} is not as the sources have it: tools/check.py documents --write"
            except Failed as fault:
                yield path, 1, str(fault)

    def written(self, text: str) -> str:
        """A document with all of its blocks made of the sources."""
        made = {"graph": self.graph, "chain": self.amounts}

        def block(match: "re.Match[str]") -> str:
            return f"<!-- {match[1]} -->\n" + "".join(line + "\n" for line in made[match[1]]()) + "<!-- end -->"

        return BLOCK.sub(block, text)

    def amounts(self) -> Iterator[str]:
        """How much one reads, by what one reads from."""
        yield from ("| What one reads | By `check.py chain` | Definitions | Lines | Files |", "|---|---|---|---|---|")
        for words, counts in chain.rows(self.top, READ):
            yield f"| {READ[words]} | `{words}` | {counts.definitions:,} | {counts.lines:,} | {counts.files:,} |"

    def graph(self) -> Iterator[str]:
        """The crates of the program, each with an arrow to those that it lists and that no other one on the way has."""
        yield from ("```mermaid", "graph TD")
        for crate in self.program:
            uses = self.listed[crate] & set(self.program)
            implied = {other for used in uses for other in self.crates.needed(used) - {used}}
            yield from (f"    {crate} --> {used}" for used in sorted(uses - implied))
        yield "```"

    def index(self, crates: List[str]) -> Iterator[str]:
        """Crates of the program, or all, each with the calls whose clauses have names, the laws, the edits of each folder."""
        for crate in (crate for crate in self.program if crate in (crates or self.program)):
            shown: Dict[str, List[str]] = {}
            for function in (function for function, is_law in self.exported(crate) if not is_law):
                clauses = ", ".join(f"`{clause}`" for clause in self.library.clauses(function, ("ensures",)))
                owner = f"`{function.scope.type}`: " if function.scope.type else ""
                shown.setdefault(owner, []).extend([f"`{function.name}` ({clauses})"] if clauses else [])
            calls = "; ".join(owner + ", ".join(each) for owner, each in sorted(shown.items()) if each)
            laws = ", ".join(f"`{function.label}`" for function, is_law in self.exported(crate) if is_law)
            edits = ((head, ", ".join(self.edits(crate, folder))) for folder, head in EDITS.items())
            parts = (("Clauses", calls), ("Laws", laws), *edits)
            found = [f"  - {head}: {text}" for head, text in parts if text]
            yield from [f"- **{crate}**", *found] if found else []

    def exported(self, crate: str) -> Iterator[Tuple[Function, bool]]:
        """The functions that others may call, and whether each is a law: those of a crate's public items and of its
        public modules; of a program all that are public."""
        sources = {source.file.split("/", 2)[2]: source for source in self.library.of_crate(crate)}
        texts = [token.text for token in sources["src/lib.rt"].tokens] if "src/lib.rt" in sources else []
        modules = {f"src/{name}.rt" for *pub_mod, name in zip(texts, texts[1:], texts[2:]) if pub_mod == ["pub", "mod"]}
        for file, source in sources.items():
            laws = {source.text.count("\n", 0, match.end()) + 1 for match in LAW.finditer(source.text)}
            for function in source.functions:
                name = function.scope.type or function.name
                if function.is_public and (not texts or file in modules or name in texts):
                    yield function, function.line in laws

    def edits(self, crate: str, folder: str) -> Iterator[str]:
        """The edits of a crate's folder, each with the function that it changes, or the file where it is in none."""
        for path in found_in(self.top, f"crates/{crate}/{folder}/*.edit"):
            pairs = [line.partition(": ")[::2] for line in text_of(self.top, path).split("\n")]
            file, old = dict(pairs)["file"], [text for key, text in pairs if key == "old"]
            source = self.library.sources[f"crates/{crate}/{file}"]
            places = [at for at, line in enumerate(source.text.split("\n"), 1) if any(text in line for text in old)]
            changed = [each.label for at in places for each in source.functions[::-1] if each.line <= at <= each.end]
            yield f"`{os.path.basename(path)[:-len('.edit')]}` (`{[*changed, os.path.basename(file)][0]}`)"

    # --- all documents

    def links(self) -> Iterator[Fault]:
        """Links, paths and names in all documents."""
        for path, lines in self.lines.items():
            for line in lines:
                faults = self.path_faults(line.text)
                if not line.is_code:
                    faults += [*self.link_faults(path, line.text), *self.word_faults(line.text)]
                yield from ((path, line.number, fault) for fault in faults)

    def path_faults(self, text: str) -> List[str]:
        faults = [f"no {path} in crates/" for path in IN_CRATE.findall(text) if path not in self.files]
        paths = [path for path in PATH.findall(with_modules(text.replace("\\-", "-"))) if "/out/" not in path + "/"]
        return faults + [f"no {path}" for path in paths if not os.path.exists(os.path.join(self.top, path))]

    def link_faults(self, document: str, text: str) -> Iterator[str]:
        for target in LINK.findall(re.sub(r"`[^`]*`", "", text)):
            path, _, anchor = target.partition("#")
            whole = os.path.normpath(os.path.join(os.path.dirname(document), path)) if path else document
            if "://" not in target and not os.path.exists(os.path.join(self.top, whole)):
                yield f"no {target}"
            elif anchor and whole in self.lines and anchor not in anchors_of(self.lines[whole]):
                yield f"no heading {target}"

    def word_faults(self, text: str) -> Iterator[str]:
        for code in codes_of(text):
            parts = code.split("::")
            is_of_ours = "_" in code or (len(parts) > 1 and parts[0] in self.words)
            if NAME.fullmatch(code) and is_of_ours and not PLACEHOLDER.fullmatch(code) and not set(parts) <= self.words:
                yield f"no `{code}` in the sources"

    def all_faults(self) -> List[str]:
        """What is wrong in all documents, one line each."""
        found = {*self.names(), *self.limits(), *self.maps(), *self.examples(), *self.scripts(),
                 *self.blocks(), *self.links(), *ToolRows(self.top).all_faults()}
        found |= {(path, 1, "has no sentence at its head") for path, head in self.heads([]) if not head}
        return [f"{path}:{number}: {fault}" for path, number, fault in sorted(found)]


def main() -> int:
    checks = Checks(TOP)
    lines: List[str] = []
    if sys.argv[1:2] == ["--files"] and set(sys.argv[2:]) <= set(checks.listed):
        print("".join(f"{path}: {head}\n" for path, head in checks.heads(sys.argv[2:])), end="")
    elif sys.argv[1:2] == ["--index"] and set(sys.argv[2:]) <= set(checks.program):
        print("".join(line + "\n" for line in checks.index(sys.argv[2:])), end="")
    elif sys.argv[1:] == ["--write"]:
        for path in BLOCKS:
            Path(TOP, path).write_text(checks.written(checks.texts[path]), encoding="utf-8")
    elif sys.argv[1:]:
        sys.exit(__doc__)
    else:
        lines = checks.all_faults()
        print("".join(line + "\n" for line in lines), end="")
    return 1 if lines else 0
