"""Tests of tools/: check.py, documents.py over a small repository, tool_rows.py over parts of this one, what memory_faults.py
reads and finds, growth.py on machine code of its own, and lib/ with a program of its own in the place of the real one."""
from __future__ import annotations

import argparse
import contextlib
import importlib
import io
import os
import re
import shutil
import signal
import subprocess
import sys
import tempfile
import time
import unittest
import unittest.mock
from typing import Dict, List, Set, Tuple

import check
from benches import grow
from benches.sessions import Step, Tree
from checks import documents, growth
from checks.documents import Checks
from checks.memory_faults import Source, faults_of
from checks.syntaxes import of_tools
from checks.tool_rows import TEXT_WORDS, ToolRows
from lib import answers, random_lines, script
from lib.random_lines import Unit, is_of_tools, numbers_of, script_of
from lib.script import TOP, Failed, with_row
from lib.session import Expect, MeasuredSession, Session, TimedRun, has_tool, program_at, timed
from ways import Crates
from facl_commands.program import tools


class Case(unittest.TestCase):
    """A test with a folder of its own."""

    def setUp(self) -> None:
        folder = tempfile.TemporaryDirectory(prefix="facl-tools-test.")
        self.addCleanup(folder.cleanup)
        self.top = folder.name

    def write(self, name: str, text: str) -> str:
        path = os.path.join(self.top, name)
        os.makedirs(os.path.dirname(path), exist_ok=True)
        with open(path, "w", encoding="utf-8") as file:
            file.write(text)
        return path


# --- check.py

class Launcher(unittest.TestCase):
    def run_check(self, *words: str) -> Tuple[int, str, str]:
        done = subprocess.run([os.path.join(TOP, "tools", "check.py"), *words], capture_output=True, text=True, check=False)
        return done.returncode, done.stdout, done.stderr

    def test_list(self) -> None:
        """Without a name, or with one that no check has, all checks are listed."""
        wanted = "\nmemory_faults        Checks where the sources of the crates say that memory ran out: only where an allocation failed\n"
        for words in ((), ("frob",), ("tool_rows",)):
            status, printed, said = self.run_check(*words)
            self.assertEqual((status, printed, wanted in said, "\ntool_rows" in said), (2, "", True, False))
        self.assertEqual(self.run_check("--help"), (0, said, ""))

    def test_each_can_be_run(self) -> None:
        for name in check.checks():
            self.assertTrue(callable(importlib.import_module(f"checks.{name}").main))

    def test_words_and_name(self) -> None:
        """A check gets the other words, and says by which words it is run."""
        self.assertTrue(self.run_check("growth", "--help")[1].startswith("usage: check.py growth [-h] "))
        status, _, said = self.run_check("growth")
        self.assertEqual((status, said.splitlines()[-1]),
                         (2, "check.py growth: error: the following arguments are required: PROGRAM"))
        seen: List[Tuple[str, List[str]]] = []

        def main() -> int:
            seen.append((script.name(), sys.argv[1:]))
            return 3

        with unittest.mock.patch.object(sys, "argv", [os.path.join(TOP, "tools", "check.py"), "growth", "--quick", "p"]), \
                unittest.mock.patch.object(growth, "main", main):
            self.assertEqual(check.main(), 3)
        self.assertEqual(seen, [("tools/check.py growth", ["--quick", "p"])])


# --- growth.py

class MachineCode(unittest.TestCase):
    def faults(self, functions: growth.Functions) -> List[str]:
        """What growth.py finds in a program of these functions."""
        with unittest.mock.patch.object(growth, "read_code", return_value=functions), contextlib.redirect_stdout(io.StringIO()):
            return growth.growths_in_code("")[1]

    def test_functions(self) -> None:
        """Each function of the table has to be there, and none may lead to the allocator."""
        answer = growth.ANSWER + "answer"
        all_there: growth.Functions = {name: [(0, "ret", "")] for name in growth.CALLS}
        all_there[answer] = [(16, "call", f"20 <{growth.COMMIT}>"), (21, "ret", "")]
        self.assertEqual(self.faults(all_there), [])
        gone, other = growth.CALLS[0], growth.CALLS[1]
        self.assertEqual(self.faults({name: code for name, code in all_there.items() if name != gone}),
                         [f"no {gone} is in the program"])
        self.assertEqual(self.faults({**all_there, answer: []}), [f"no answer with {growth.COMMIT} is in the program"])
        self.assertEqual(self.faults({**all_there, other: [(0, "jmp", "30 <malloc@plt>")]}), [f"{other} leads to malloc"])


# --- benches/

class Growth(Case):
    def test_exponent(self) -> None:
        """A power is found; a bend in the middle shows in the steepest."""
        sizes = [10, 100, 1_000, 10_000]
        for power in (0.0, 0.5, 1.0, 2.0):
            self.assertAlmostEqual(grow.slope(sizes, [3e-6 * size**power for size in sizes]), power)
        row = grow.row_of(sizes, [1e-6, 1e-6, 1e-4, 1e-4], "0.2")
        self.assertEqual((row["10"], row["10,000"], row["steepest"], row["aim"]), ("1.00 us", "100.00 us", "2.00", "0.2"))

    def test_lines(self) -> None:
        """A line may name all files at once, and then its time is that of one; a tree may have files of its own."""
        tree = Tree("", 1_000, 10, 3, 1)
        step = Step("`chmod`, a named file", "chmod 640 {files}")
        self.assertEqual(step.lines(tree), ["chmod 640 " + " ".join(tree.some())])
        self.assertEqual((step.parts(tree), Step("`can`", "can u{user} {file}").parts(tree)), (3, 3))
        self.assertEqual(Step("", "can u{user} {file}").lines(tree._replace(paths=("a/b", "c"))), ["can u0 a/b", "can u1 c", "can u2 a/b"])

    def test_trees(self) -> None:
        """The texts of each range have what it says, of a small size."""
        def records() -> List[List[str]]:
            with open(os.path.join(self.top, "dump"), encoding="utf-8") as dump:
                return [record.splitlines() for record in dump.read().split("\n\n") if record]

        tree = grow.make_depth(self.top, 4)
        self.assertEqual([record[0] for record in records()], ["# file: .", "# file: d", "# file: d/d", "# file: d/d/d", "# file: d/d/d/f"])
        self.assertEqual(tree.some()[:2], ["d/d/d/f", "d/d/d/f"])
        tree = grow.make_entries(self.top, 30)
        self.assertEqual(({len(record) - 3 for record in records()[2:]}, len(records())), ({30}, tree.files))
        self.assertEqual(len({tuple(record[1:]) for record in records()[2:]}), 100)


# --- checks/documents.py

A = r"""//! Maps, by
//! `a|b`.
//!
//! More, with fn text() and { a brace.
ghost use Rattle.std.specs.Prelude.{◌≡◌};
ghost use Rattle.low.specs.Maps.{look_up};
pub const MOST: usize = 4_096;
pub struct Map { ghost sorted: { x } }
pub trait Judge<'a> { /* one
    { */ ghost local: { x }; fn ask(&self, of: [u8; 4]) requires { x } ensures asked { f x' } ensures row { x }; }
impl<R: Read> Judge<R> for low::Map<Vec<R>> { fn ask(&self) {} }
impl Map {
    pub fn get(&self) -> u8 ensures { result ≡ look_up self } { 1 }
    pub fn put(&mut self) requires room { x } ensures ok { x } ensures err { x } { self.grow() }
    fn grow(&mut self) ensures grown { x } { 2 }
}
pub fn read() -> u8 ensures one { result ≡ 1 } { 1 }
pub(crate) fn hidden<T>(x: &'static str) -> Vec<T> where T: Copy, ensures no { x } {
    match x { "}\"" => '{', 'x' => b'\x7d', _ => r#"pub fn no() ensures no {" "# }
}
/// Proof only. Maps are maps.
#[inline]
pub fn maps_are_maps() ensures one { x } ensures two { x } {}
"""
INDEX = """- **low**
  - Clauses: `read` (`one`), `cut` (`pieces`); `Judge`: `ask` (`asked`, `row`); `Map`: `put` (`ok`, `err`)
  - Laws: `maps_are_maps`
  - Wrong bodies: `grows_by_one` (`Map::grow`), `one_too_many` (`a.rt`)
"""
PROOFS = """# Proofs
## The points
1. It holds (`low::Map::put`, as in acl(5); `Judge::ask` (`look_up`)); this too (`Map::put`, clauses `ok`, `err`).
2. So does the next.

Trusted is `clap`.
## The whole
| Property | Carried by |
|---|---|
| It holds | `low::Map::get`, `Map`, low `Judge` |
| So does this | low `read`, clause `one` |
## What an error leaves as it was
| Calls | What they change | Clause |
|---|---|---|
| low `Map::put`; `ask` | a map | `ok`; `row` |
- low `Map::get`, `put`, all of `Judge`.
"""
ARCHITECTURE = """# Crates
<!-- graph -->
```mermaid
graph TD
    facl_script --> low
    facl --> facl_script
```
<!-- end -->
| Crate | What it is for |
|---|---|
| `low` | maps |
| `facl_script` | words |
| `facl` | all |

| Limit | Value | Constant | Message |
|---|---|---|---|
| maps | below 4,096 | low `MOST` | none |
"""
PAGE = r"""
.SH OPTIONS
.TP
.BI \-\-dump " FILE"
.SH TOOLS
.SS can [\-\-reach] USER
.SS chmod [\-Rv] MODE
.TP
.BR \-R ", " \-\-recursive " \fIX\fR"
Not \-\-other.
.SH LIMITS
maps  4,095
.SH EXAMPLES
"""
MAPS = """-- What a map is.
use Rattle.std.specs.Prelude.{ℕ}
use Rattle.low.specs.declared.a.Map.{Map}

abbrev pub look_up : Map → ℕ
look_up m = 1
"""
READING = """# To `read`: short
```
abbrev pub look_up : Map → ℕ

pub const MOST: usize = 4_096;
```
<!-- chain -->
| What one reads | By `check.py chain` | Definitions | Lines | Files |
|---|---|---|---|---|
| a map | `low::Map::get` | 1 | 2 | 1 |
<!-- end -->
"""
README = """[a](tools/README.md), tools/lib/a.py, tools/check.py b, [b](docs/READING.md#to-read-short), [here](https://example.org/a).
`low/src/a.rt`, `src/b.rt`, specs/Maps.antt, crates/low/out/facl, `[a](b)`.
`look_up`, `Map::get`, `anyhow::Error`, `X_tests`, `of_`.
## The tools of a script
| Tools | For |
|---|---|
| `can`, `chmod` | all |
"""
TOOLS = """-- Tools.
use Rattle.facl.specs.Can as can
use Rattle.facl.specs.Chmod as chmod

abbrev pub table : List ToolRow
table = row tools.Can (codes "can") can.syntax ∷ row tools.Chmod (codes "chmod") chmod.syntax ∷ []
"""
# The records of the commands, with two tools alone.
with open(os.path.join(TOP, "commands", "facl_commands", "program", "tools.py"), encoding="utf-8") as tools_file:
    RECORDS = re.sub(r"(?ms)^ROWS = \(.*?^\)$", """ROWS = (
    Tool(b"can", QUESTION, "USER FILE", BY_REACH),
    Tool(b"chmod", EDIT, "MODE FILE..", (RECURSIVE, option("-v"))),
)""", tools_file.read())
FILES: Dict[str, str] = {
    "crates.txt": "# crates\nlow: clap\nlow_tests: low\nfacl_script: low  # words\nfacl: clap facl_script low\n",
    "crates/low/src/lib.rt": "mod a;\npub mod open;\nmod b;\npub use a::{Judge, Map, maps_are_maps, read};\n",
    "crates/low/src/a.rt": A,
    "crates/low/src/open.rt": "//! Cut.\npub fn cut() ensures pieces { x } {}",
    "crates/low/src/b.rt": "//! Closed.\npub fn closed() ensures no { x } {}",
    "crates/low/specs/Maps.antt": MAPS,
    "crates/low/must-fail/grows_by_one.edit": "file: src/a.rt\nold: ensures grown { x } { 2 }\nnew: 3\n",
    "crates/low/must-fail/one_too_many.edit": "file: src/a.rt\nold: MOST: usize = 4\nnew: 5\n",
    "crates/facl/src/tools.rt": "//! Tools.\n",
    "crates/facl/specs/Tools.antt": TOOLS,
    "crates/facl/specs/Can.antt": '-- One.\nabbrev pub syntax : Syntax\nsyntax = record { flags = by_name (codes "reach") ∷ []; options = []; '
                                  'operands = one (codes "user") ∷ one (codes "file") ∷ [] }\n',
    "crates/facl/specs/Chmod.antt": '-- One.\nabbrev pub syntax : Syntax\nsyntax = record { flags = both (codes "R") (codes "recursive") '
                                    '∷ by_letter (codes "v") ∷ []; options = []; operands = one (codes "mode") ∷ some (codes "file") ∷ [] }\n',
    "crates/facl_script/src/args.rt": "//! Words.\n",
    "crates/facl_script/specs/Args.antt": '-- Words.\nabbrev pub program_syntax : Syntax\nprogram_syntax = record { flags = []; '
                                          'options = by_name (codes "dump") ∷ []; operands = [] }\n',
    "crates/facl_tools/specs/TextWords.antt": '-- Texts.\nabbrev pub text_words : List Text\ntext_words = codes "-" ∷ []\n\n'
                                              'abbrev pub word_asks : Text → Bool\nword_asks word = false\n',
    "commands/facl-ask": "#!/bin/sh\n# Asks\n# all.\nexit\n",
    "commands/facl_commands/program/tools.py": RECORDS,
    "tools/lib/a.py": '#!/usr/bin/env python3\n"""Checks\nall.\n\nMore.\n"""\n',
    "tools/checks/b.py": '"""Checks b."""\n',
    "tools/README.md": "lib/a.py, check.py b, and facl_script.md is no script.\n",
    "docs/PROOFS.md": PROOFS,
    "docs/ARCHITECTURE.md": ARCHITECTURE,
    "docs/facl.1": PAGE,
    "docs/SPECIFICATION.md": "4,096 maps of 1000; `can --reach`, `chmod -Rv`, `-R`, `-v`.\n",
    "docs/READING.md": READING,
    "CONTRIBUTING.md": "| Crates | Tests |\n|---|---|\n| low | low_tests |\n| facl, facl_script | none |\n",
    "README.md": README,
}
MADE = "is not as the sources have it: tools/check.py documents --write"
# Of each file texts, what stands there instead, and what is found then, without the names of documents.
FAULTS: Dict[str, List[Tuple[str, ...]]] = {
    "docs/PROOFS.md": [
        ("::put`, as", "::take`, as", "3: no `low::Map::take` in low", "3: no `low::Map::take` in the sources"),
        ("(`look_up`)", "(`gaze`)", "3: no `gaze` in low"),
        ("(`Map::put`, clauses `ok`, `err`", "(`Map::get`, clause `ok`", "3: no function here has a clause `ok`",
         "3: Map::get has none of the clauses named; it has none"),
        ("`low::Map::get`", "`facl::Map::get`", "10: no `facl::Map::get` in facl"),
        ("Carried by", "Where", "1: there is no table, list or point of: Carried by"),
        ("`ok`; `row`", "`ok`", "15: Map::ask has none of the clauses named; it has asked, row"),
        ("`put`, all", "`gone`, all", "16: no `gone` in low"),
        ("is `clap`", "is `hex`", "6: no line that starts with Trusted has the kit's crates, clap")],
    "docs/ARCHITECTURE.md": [
        ("facl --> facl_script", "facl --> low", f"1: the block graph {MADE}"),
        ("below 4,096", "4,097", "17: MOST of low is 4096", "12: 4095 is no limit of docs/ARCHITECTURE.md"),
        ("low `MOST`", "low `LEAST`", "17: LEAST of low is not there"),
        ("| `facl` |", "| `gone` |", "13: no crate gone in crates.txt", "1: facl is not in the map")],
    "docs/facl.1": [
        ("4,095", "4,094", "12: 4094 is no limit of docs/ARCHITECTURE.md"),
        (r"[\-Rv]", r"[\-Rw]", "1: chmod does not read -w", "1: chmod has no -v here"),
        ("SS can", "SS may", "1: the program has no tool may", "1: the tool can is not in it"),
        (r"\-\-dump", r"\-\-dumps", "1: facl does not read --dumps", "1: facl has no --dump here")],
    "docs/READING.md": [("4_096", "4_097", "5: is in no source"), ("| 2 |", "| 3 |", f"1: the block chain {MADE}"),
                        ("<!-- chain", "<!-- no chain", f"1: the block chain {MADE}")],
    "crates/low/specs/Maps.antt": [
        ("{ℕ}", "{ℤ}", "1: crates/low/specs/Maps.antt:5: nothing declares, imports or binds `ℕ`")],
    "CONTRIBUTING.md": [
        ("| low |", "| facl |", "3: low_tests does not use facl: crates.txt", "1: low is not in the table of tests")],
    "tools/README.md": [("lib/a.py", "gone.sh", "1: lib/a.py is not named", "1: no gone.sh in tools/"),
                        ("check.py b", "check.py c", "1: checks/b.py is not named", "1: no checks/c.py in tools/")],
    "crates/low/src/b.rt": [("//! Closed.", "", "1: has no sentence at its head")],
    "commands/facl-ask": [("# Asks\n# all.\n", "", "1: has no sentence at its head")],
    "README.md": [
        ("(tools/README.md)", "(tools/gone.md)", "1: no tools/gone.md"),
        ("-short", "-long", "1: no heading docs/READING.md#to-read-long"),
        ("tools/lib/a.py", "tools/lib/gone", "1: no tools/lib/gone"),
        ("tools/check.py b", "tools/check.py gone", "1: no tools/checks/gone.py"),
        ("`low/src/a.rt`", "`low/src/gone.rt`", "2: no low/src/gone.rt in crates/"),
        ("`look_up`", "`look_down`", "3: no `look_down` in the sources"),
        ("`Map::get`", "`Map::gone`", "3: no `Map::gone` in the sources")],
}


# What the check of tools and options reads.
OF_TOOLS = ("crates/facl/specs", "crates/facl_tools/specs", "crates/facl_script/specs", "README.md", "commands/facl_commands",
            "docs/SPECIFICATION.md", "docs/facl.1", "docs/facl-commands.1")
RECORDS_PATH = "commands/facl_commands/program/tools.py"
RULES, PAGE_PATH = "docs/SPECIFICATION.md", "docs/facl.1"


class Documents(Case):
    def setUp(self) -> None:
        super().setUp()
        read = unittest.mock.patch.object(documents, "READ", {"low::Map::get": "a map"})
        read.start()
        self.addCleanup(read.stop)
        for name, text in FILES.items():
            self.write(name, text)

    def test_what_is_there(self) -> None:
        self.assertEqual(Checks(self.top).all_faults(), [])

    def test_what_is_not_there(self) -> None:
        for name, old, new, *faults in ((name, *each) for name, changes in FAULTS.items() for each in changes):
            self.write(name, FILES[name].replace(old, new))
            self.assertEqual(sorted(line.split(":", 1)[1] for line in Checks(self.top).all_faults()), sorted(faults))
            self.write(name, FILES[name])

    def test_parts_that_are_made(self) -> None:
        checks = Checks(self.top)
        self.assertEqual(checks.written(READING.replace("| 2 |", "| 3 |")), READING)
        self.assertEqual("".join(line + "\n" for line in checks.index([])), INDEX)
        self.assertEqual((list(checks.index(["low"])), list(checks.index(["facl"]))), (INDEX.splitlines(), []))
        heads = [head for _, head in checks.heads(["low"])]
        self.assertEqual(heads, ["What a map is.", "Maps, by `a|b`.", "Closed.", "Cut."])
        self.assertEqual(dict(checks.heads([]))["tools/lib/a.py"], "Checks all.")


class Tools(Case):
    """A tool and an option that the program gets, in a copy of this repository, and that others lose."""

    def setUp(self) -> None:
        super().setUp()
        for path in OF_TOOLS:
            here, there = os.path.join(TOP, path), os.path.join(self.top, path)
            os.makedirs(os.path.dirname(there), exist_ok=True)
            shutil.copytree(here, there) if os.path.isdir(here) else shutil.copy(here, there)

    def change(self, path: str, old: str, new: str) -> None:
        with open(os.path.join(self.top, path), encoding="utf-8") as file:
            text = file.read()
        self.assertIn(old, text)
        self.write(path, text.replace(old, new))

    def expect(self, *faults: Tuple[str, str]) -> None:
        self.assertEqual(sorted((path, fault) for path, _, fault in ToolRows(self.top).all_faults()), sorted(faults))

    def test_all_is_there(self) -> None:
        self.expect()

    def test_a_tool_that_the_program_gets(self) -> None:
        self.change("crates/facl/specs/Tools.antt", 'row tools.Can (codes "can") can.syntax',
                    'row tools.Can (codes "can") can.syntax ∷ row tools.Frob (codes "frob") index.syntax')
        self.expect(*((path, "the tool frob is not in it")
                      for path in (RECORDS_PATH, "README.md", RULES, PAGE_PATH)))

    def test_an_option_that_the_program_gets(self) -> None:
        self.change("crates/facl_tools/specs/Chmod.antt", "options = []", 'options = both (codes "z") (codes "zap") ∷ []')
        self.expect((RECORDS_PATH, "chmod has no -z --zap here"), (RULES, "chmod has no -z --zap here"),
                    (PAGE_PATH, "chmod has no -z here"), (PAGE_PATH, "chmod has no --zap here"))

    def test_a_text_that_the_program_gets(self) -> None:
        self.change("crates/facl_tools/specs/SetfaclLine.antt", 'of_text (by_name (codes "restore"))', 'by_name (codes "restore")')
        self.change("crates/facl/specs/Tools.antt", 'row tools.Userdel', 'loading tools.Userdel')
        self.expect((RECORDS_PATH, "--restore takes a value"), (RECORDS_PATH, "userdel takes a text"),
                    (TEXT_WORDS, "no option or tool reads a text by --restore=-"), (TEXT_WORDS, "userdel is not in it"))

    def test_what_others_lose(self) -> None:
        self.change("README.md", "`getfacl`, ", "`getfatcl`, ")
        self.change(RECORDS_PATH, 'option("-x --remove", ENTRIES),', 'option("-x --remove"),')
        self.change(RECORDS_PATH, 'option("-X --remove-file", TEXT)', 'option("-X --remove-file", OTHER)')
        self.change(RECORDS_PATH, 'Tool(b"userdel"', 'Tool(b"deluser"')
        self.change(RECORDS_PATH, '"USER FILE..", BY_REACH', '"USER FILE", BY_REACH')
        self.change(RECORDS_PATH, "takes_text=True", "takes_text=False")
        self.change(RULES, "`--mode`, ", "")
        self.change("docs/facl-commands.1", "chgrp", "group")
        self.expect(
            ("README.md", "the tool getfacl is not in it"), ("README.md", "the program has no tool getfatcl"),
            (RECORDS_PATH, "-x --remove takes a value"), (RECORDS_PATH, "-X --remove-file takes a text"),
            (RECORDS_PATH, "the tool userdel is not in it"), (RECORDS_PATH, "the program has no tool deluser"),
            (RECORDS_PATH, "why takes other operands"), (RECORDS_PATH, "load takes a text"),
            (RULES, "creat has no --mode here"),
            ("docs/facl-commands.1", "the tool chgrp is not in it"))


class Tables(unittest.TestCase):
    """The lines that are made up for checks, and the tools and options of the definitions."""

    def setUp(self) -> None:
        self.tools = of_tools(TOP)

    def expect_all(self, units: List[Unit]) -> None:
        """These have each tool of the definitions, with each of its options."""
        given: Dict[str, Set[str]] = {}
        for unit in units:
            tool, *words = answers.words_of(unit.line) or [b""]
            options = tools.split([tool, *words]).given
            given.setdefault(tool.decode("utf-8", "replace"), set()).update(option.name.decode() for option in options)
        for name, syntax in self.tools.items():
            self.assertIn(name, given)
            for row in syntax.switches:
                self.assertFalse(given[name].isdisjoint(row.names), f"{name} {row.names}")

    def test_random_lines(self) -> None:
        grammar = random_lines.Grammar("tables", random_lines.TOOLS)
        self.expect_all([grammar.unit("t") for _ in range(4_000)])
        self.assertEqual(set(random_lines.TOOLS), set(self.tools))

    def test_the_session_of_each_option(self) -> None:
        units = growth.units_of(growth.LOADS + growth.EVERY)
        self.expect_all(units)
        known = {name: {it for row in syntax.switches for it in row.names} for name, syntax in self.tools.items()}
        for unit in units:
            tool, *words = answers.words_of(unit.line)
            self.assertLessEqual({option.name.decode() for option in tools.split([tool, *words]).given}, known[tool.decode()])

    def test_each_question_has_an_answer(self) -> None:
        questions = [name for name, syntax in self.tools.items() if syntax.crate == "facl"]
        self.assertEqual([name for name in questions if not hasattr(answers.Table, name)], [])


# --- checks/memory_faults.py


def memory_faults_of(text: str) -> List[str]:
    """What is found in a source, without the file's name and the line."""
    return [line.split(": ", 1)[1] for line in faults_of(Source("crates/low/a.rt", text), {}, set())]


# Bodies by the name that is found to be made in them.
BODIES = {
    "": (
        "let x: Result<u8, AllocError> = g();", "let f = |n: u8| -> Result<u8, AllocError> { g(n) };",
        "let v = Vec::<AllocError>::new();", "match g() { Err(AllocError) => 1, Ok(n) => n }",
        "if let Err(ListFault::NoMemory) = g() { h() }", "match f { X::NoMemory => Y::NoMemory, _ => h() }",
        '// AllocError\nsay("AllocError", b"NoMemory", r#"NoMemory"#)', "matches!(f, X::NoMemory) && h()",
        "match f { A(X::NoMemory) | B::NoMemory => { Err(Fault { kind: C::NoMemory }) } other => other }",
        "if f.kind == X::NoMemory { Y::NoMemory } else { Y::Text(f) }",
        "let Some(x) = a.b.checked_add(1) else { return Err(AllocError); };",
        "match a.checked_add(b) { Some(n) => Ok(n), None => Err(AllocError) }",
        "match a.checked_mul(b.count(*n)) { Some(n) => Ok(n), None => Err(AllocError) }",
        "let Ok(x) = u32::try_from(n) else { return Err(AllocError); };",
        "let (Ok(x), Ok(y)) = (u32::try_from(n), u32::try_from(m)) else { return Err(AllocError); };",
        "match e.kind() { K::OutOfMemory => X::NoMemory, _ => X::Usage }",
        "let v = Vec::with_capacity(alloc, *a + b.len())?;", "let v = Vec::with_capacity(alloc, a.len().saturating_add(1))?;"),
    "room for a product": (
        "let v = Vec::with_capacity(alloc, a.len() * 2)?;", "let v = Vec::with_capacity(alloc, a.len().saturating_mul(n))?;"),
    "AllocError": (
        "return Err(AllocError);", "let f: fn(u8) -> Result<u8, X> = g; Err(AllocError)",
        "match g() { Ok(n) => Ok(n), Err(_) => Err(AllocError) }", "match f { X::NoMemory => Err(AllocError), _ => 1 }",
        "let Some(x) = g() else { return Err(AllocError) };", "let Some(x) = a.checked_sub(1) else { return Err(AllocError) };",
        "match a.checked_add(b) { Some(n) => Err(AllocError), None => g() }",
        "let Some(x) = a.checked_add(1) else { return 1 }; Err(AllocError)",
        "let Some(x) = a.checked_add(usize::MAX - 9) else { return Err(AllocError) };",
        "let Some(x) = a.checked_add(MOST) else { return Err(AllocError) };",
        "match a.checked_mul(b + 9) { Some(n) => Ok(n), None => Err(AllocError) }"),
    "AllocFailed": ("Err(AllocFailed { value: x })",),
    "NoMemory": (
        "Err(X::NoMemory)", "g().map_err(|_| LineFault::NoMemory)", "match f { X::Other => X::NoMemory, x => x }",
        "match f { X::Other | X::NoMemory => X::NoMemory, x => x }", "if f == X::NoMemory { g() } else { X::NoMemory }",
        "match f { x if x == X::NoMemory => X::NoMemory, x => x }", "if kind == X::Other { X::NoMemory } else { g() }",
        "if kind != X::NoMemory { X::NoMemory } else { g() }",
        "if h() || kind == X::NoMemory { X::NoMemory } else { g() }",
        "match e.kind() { K::OutOfMemory => X::Usage, _ => X::NoMemory }")}
FROM = "{ fn from(_: X) -> X { X::NoMemory } }"
ITEMS = {
    "use std::alloc::{AllocError, AllocFailed};\npub type NoMemory = std::alloc::AllocError;": [],
    "impl<T> From<AllocFailed<T>> for X " + FROM: [],
    "impl From<a::AllocError> for X " + FROM: ["NoMemory is made in From<a::AllocError> for X"],
    "use std::alloc::AllocError as Late;": ["AllocError gets another name"],
    "use crate::fault::X::NoMemory as Late;": ["NoMemory gets another name"],
    "type Late = std::alloc::AllocError;": ["AllocError gets another name"],
    "const LATE: X =\n    X::NoMemory;": ["NoMemory is named in a const"],
    "macro_rules! late { () => { Err(AllocError) } }": ["AllocError is named in a macro_rules"]}


class MemoryFaults(unittest.TestCase):
    def test_bodies_and_items(self) -> None:
        head = "fn f() -> Result<u8, AllocError> ensures err { e ≡ NoMemory } "
        for name, body in ((name, body) for name, bodies in BODIES.items() for body in bodies):
            self.assertEqual(memory_faults_of(f"{head}{{{body}\n}}"), [f"{name} is made in f"] if name else [], body)
        for text, found in ITEMS.items():
            self.assertEqual(memory_faults_of(text), found)

    def test_an_exception_is_one_arm(self) -> None:
        for body, found in (("match g() { Ok(n) => n, Err(_) => X::NoMemory }", 0), ("match g() { Ok(n) => X::NoMemory, x => x }", 1),
                            ("match g() { Ok(n) => n, Err(_) => h(X::NoMemory, X::NoMemory) }", 1), ("X::NoMemory", 1)):
            source = Source("crates/low/a.rt", f"fn f() -> X {{{body}}}")
            self.assertEqual(len(list(faults_of(source, {("crates/low/a.rt", "f"): ("Err ( _ )", "")}, set()))), found, body)


# --- lib/

# Refuses `frob` and `mark`, warns of `warn`, ends at `end`, and prints all other lines.
PROGRAM = r"""#!/bin/sh
number=0
while read -r line; do
    number=$((number + 1))
    case $line in
    frob | mark) echo "line $number: facl: unknown tool" >&2 ;;
    warn) echo "line $number: chmod: warning: odd" >&2 ;;
    end) exit 3 ;;
    *) echo "$line" ;;
    esac
done
exit 1
"""
# Scripts that make a folder, print its path and a process, and wait.
PYTHON = """import os, tempfile, time
from lib import script
def main():
    with tempfile.TemporaryDirectory(prefix="facl-test.") as folder:
        print(folder, os.getpid(), flush=True)
        time.sleep(60)
script.run(main)
"""
SHELL = f"""top={TOP}; . "$top/tools/lib/program.sh"; make_work
sleep 60 & echo "$work $!"; wait_for_child
"""


class Lib(Case):
    def setUp(self) -> None:
        super().setUp()
        self.program = self.write("program", PROGRAM)
        os.chmod(self.program, 0o755)

    def test_sessions(self) -> None:
        with Session(self.program, self.top) as session:
            self.assertEqual(list(session.messages([b"a\n", b"frob\nb\n", b"warn\n"])), [
                b"line 2: facl: unknown tool\n", b"line 4: chmod: warning: odd\n"])
            self.assertEqual(list(session.messages([b"frob\n"])), [b"line 6: facl: unknown tool\n"])
            self.assertGreater(session.most_memory(), 0)
            self.assertEqual(session.end(), 1)
        with Session(self.program, self.top) as session, self.assertRaisesRegex(Failed, "ended with status 3"):
            list(session.messages([b"end\n"]))
        with self.assertRaises(KeyError), Session(self.program, self.top) as session:
            raise KeyError
        self.assertEqual(session.run.poll(), -signal.SIGKILL)

        self.assertEqual(program_at(self.program), os.path.realpath(self.program))
        for word in (self.top, self.write("dump", ""), self.top + "/absent"):
            self.assertRaises(argparse.ArgumentTypeError, program_at, word)
        self.assertEqual([has_tool(self.program, tool) for tool in ("chmod", "frob")], [True, False])

    def test_measures(self) -> None:
        steps = [Expect("one", [b"a\nfrob\n"], [(2, b"facl: unknown tool")]), Expect("two", [b"a\n"])]
        times, memory = timed(self.program, self.top, steps)
        self.assertEqual(([name for name, _, _ in times], memory > 0), (["load", "one", "two"], True))
        for step, fault in ((Expect("x", [b"frob\n"]), "x: it printed b'line 1: facl: unknown tool"),
                            (Expect("x", [b"a\n"], [(1, b"text")]), "x: it did not print b'text'"),
                            (Expect("x", [b"frob\n"], [(1, b"text")]), "in place of b'text'")):
            with self.assertRaisesRegex(Failed, fault), TimedRun(self.program, self.top) as run:
                run.answer(step)
        with MeasuredSession(self.program, self.top) as session:
            self.assertGreaterEqual(min(session.load, session.answer(["a", "b"])), 0)
            self.assertRaisesRegex(Failed, "^line 5: facl: unknown tool$", session.answer, ["frob"])

    def test_units_crates_and_rows(self) -> None:
        units = [Unit(b"load dump", [b"x", b"y"]), Unit(b"", None), Unit(b" chmod 7 f", []), Unit(b"rm f", None)]
        self.assertEqual(script_of(units), b"load dump\nx\ny\n.\n\n chmod 7 f\n.\nrm f\n")
        self.assertEqual(numbers_of(units), [1, 5, 6, 8])
        self.assertEqual([is_of_tools(unit, (b"chmod", b"rm")) for unit in units], [False, False, True, True])
        self.assertEqual(Crates(self.write("rows", "# a\na: x\nb: a  # c\nc: b y\n")).needed("b"), {"a", "b"})
        page = ["| A | B |", "|---|---|", "| a | 1 |", "", "end"]
        self.assertEqual(with_row(page, ["a", "2|3"]), [*page[:2], "| a | 2\\|3 |", *page[3:]])
        self.assertEqual(with_row(page, ["a --b", "2"]), [*page[:3], "| a --b | 2 |", *page[3:]])

    def test_interrupted_scripts(self) -> None:
        for words in ([sys.executable, "-B", "-c", PYTHON], ["sh", "-c", SHELL]):
            with subprocess.Popen(words, cwd=os.path.join(TOP, "tools"), stdout=subprocess.PIPE, stderr=subprocess.DEVNULL,
                                  text=True) as run:
                folder, process = next(iter(run.stdout or ())).split()
                self.assertTrue(os.path.isdir(folder))
                time.sleep(0.1)  # until it waits
                run.terminate()
                self.assertEqual(run.wait(), 128 + signal.SIGTERM)
            self.assertFalse(os.path.exists(folder))
            self.assertRaises(ProcessLookupError, os.kill, int(process), 0)


if __name__ == "__main__":
    unittest.main()
