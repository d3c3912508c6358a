"""The words that each tool takes, read from its syntax among the definitions, which the code is proved to have."""
from __future__ import annotations

import re
from typing import Dict, List, NamedTuple, Set, Tuple

from lib.script import Failed
from .definitions import Repository, SpecFile

TABLE = ("facl", "Tools", "table")
OF_PROGRAM = ("facl_script", "Args", "program_syntax")
OF_TEXTS, ASKING = ("facl_tools", "TextWords", "text_words"), ("facl_tools", "TextWords", "word_asks")
ROW = re.compile(r'\b(row|loading) \S+ \(codes "(\w+)"\) (\w+)\.syntax\b')
PART = re.compile(r"\b(flags|options|operands) = ([^;}]*)")
WORD = re.compile(r'(?P<text>of_text \()?\b(?P<form>both|by_letter|by_name|by_name_or|one|some|any)'
                  r' \(codes "(?P<first>[^"]*)"\)(?: \(codes "(?P<second>[^"]*)"\))?')
NOTHING, VALUE, TEXT = "no value", "a value", "a text"


class Switch(NamedTuple):
    """A flag or an option: its names, the short one first, and what it takes."""

    names: Tuple[str, ...]
    takes: str


class Syntax(NamedTuple):
    """What a tool takes: its flags and options; for each operand whether there may be more of it; and whether its lines take a
    text. The crate is the one that defines it."""

    switches: List[Switch]
    operands: List[bool]
    loads: bool
    crate: str


def file_of(repository: Repository, crate: str, module: str) -> SpecFile:
    file = repository.spec_file(crate, [module])
    if not file:
        raise Failed(f"{crate} has no specs/{module}.antt")
    return file


def code_of(file: SpecFile, name: str) -> str:
    """The code of a definition, as one line."""
    if name not in file.definitions:
        raise Failed(f"{file.path} does not define {name}")
    return " ".join(" ".join(file.definitions[name].code).split())


def switch_of(part: str, word: re.Match[str]) -> Switch:
    names = {"both": (f"-{word['first']}", f"--{word['second']}"), "by_letter": (f"-{word['first']}",)}
    takes = NOTHING if part == "flags" else TEXT if word["text"] else VALUE
    return Switch(names.get(word["form"], (f"--{word['first']}",)), takes)


def read_syntax(file: SpecFile, name: str, loads: bool = False) -> Syntax:
    """A definition of a syntax. A form that is not read is a fault."""
    syntax = Syntax([], [], loads, file.crate)
    for part, text in PART.findall(code_of(file, name)):
        words = list(WORD.finditer(text))
        if WORD.sub("", text).strip(" ∷[])"):
            raise Failed(f"{file.path}: these {part} of {name} are not read: {text}")
        if part == "operands":
            syntax.operands.extend(word["form"] != "one" for word in words)
        else:
            syntax.switches.extend(switch_of(part, word) for word in words)
    return syntax


def of_tools(top: str) -> Dict[str, Syntax]:
    """The syntax of each tool of the table."""
    repository = Repository(top)
    crate, module, name = TABLE
    table = file_of(repository, crate, module)
    found: Dict[str, Syntax] = {}
    for kind, tool, its_module in ROW.findall(code_of(table, name)):
        crate, _, module = table.imports.modules[its_module].path.split(".")
        found[tool] = read_syntax(file_of(repository, crate, module), "syntax", kind == "loading")
    return found


def words_of_texts(top: str) -> Tuple[Set[str], Set[str]]:
    """The words that name a text, and the tools whose lines take one, as they are spelled where lines are cut."""
    repository = Repository(top)
    named, asking = (set(re.findall(r'codes "([^"]*)"', code_of(file_of(repository, crate, module), name)))
                     for crate, module, name in (OF_TEXTS, ASKING))
    return named, asking


def of_program(top: str) -> Syntax:
    """The syntax of the program's own words."""
    crate, module, name = OF_PROGRAM
    return read_syntax(file_of(Repository(top), crate, module), name)
