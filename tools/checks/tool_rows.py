"""The tools and options that the program has by its definitions, and which of them the commands and the documents lack.
documents.py calls it."""
from __future__ import annotations

import importlib.util
import os
import re
from typing import Dict, Iterator, List, Set, Tuple

from .memory_faults import text_of
from .syntaxes import NOTHING, TEXT, VALUE, Switch, Syntax, of_program, of_tools, words_of_texts

PAGE, README, SPECIFICATION = "docs/facl.1", "README.md", "docs/SPECIFICATION.md"
COMMANDS_PAGE, RECORDS = "docs/facl-commands.1", "commands/facl_commands/program/tools.py"
TEXT_WORDS = "crates/facl_tools/specs/TextWords.antt"
Fault = Tuple[str, int, str]


def options_shown(text: str) -> Set[str]:
    """The options that heads and tags of a part of the page have."""
    tags = re.sub(r"\\f[BIRP]", "", "\n".join(re.findall(r"^(?:\.SS|\.T[PQ]\n)(.*)", text, re.M))).replace("\\-", "-")
    letters = {f"-{letter}" for word in re.findall(r"(?<![\w-])-([A-Za-z]+)", tags) for letter in word}
    return letters | set(re.findall(r"(?<![\w-])--[A-Za-z][A-Za-z-]*", tags))


def records_of(path: str) -> Tuple[Dict[str, Syntax], List[str]]:
    """The tools that the commands know, with their options, of which completion and hints are made; and those of
    facl-plan alone."""
    spec = importlib.util.spec_from_file_location("tools", path)
    assert spec is not None and spec.loader is not None
    module = importlib.util.module_from_spec(spec)
    spec.loader.exec_module(module)
    takes = {"": NOTHING, module.TEXT: TEXT}
    found = {tool.name.decode(): Syntax(
        [Switch(tuple(map(bytes.decode, row.names)), takes.get(row.value, VALUE)) for row in tool.options],
        [word.endswith("..") for word in tool.operands.split()], tool.takes_text, path) for tool in module.ROWS}
    of_plans = [name.decode() for name in module.TOOLS_OF_PLANS]
    return {name: syntax for name, syntax in found.items() if name not in of_plans}, of_plans


class ToolRows:
    """The checks of a repository."""

    def __init__(self, top: str) -> None:
        self.top = top
        self.tools = of_tools(top)
        self.program = {name for row in of_program(top).switches for name in row.names}

    def all_faults(self) -> Iterator[Fault]:
        yield from self.of_page()
        yield from self.of_records()
        yield from self.of_readme()
        yield from self.of_specification()
        yield from self.of_texts()

    def unlike(self, path: str, named: Set[str], tools: Set[str]) -> Iterator[Fault]:
        yield from ((path, 1, f"the tool {name} is not in it") for name in tools - named)
        yield from ((path, 1, f"the program has no tool {name}") for name in named - tools)

    def of_page(self) -> Iterator[Fault]:
        """Tools and options that the program has and the manual page has not, or the other way round."""
        sections = dict(re.findall(r"^\.SH (.*)\n((?:(?!\.SH ).*\n)*)", text_of(self.top, PAGE), re.M))
        shown = {"facl": sections.get("OPTIONS", "")}
        for name, part in re.findall(r"^\.SS (\w+)(.*\n(?:(?!\.SS ).*\n)*)", sections.get("TOOLS", ""), re.M):
            shown[name] = shown.get(name, "") + ".SS" + part
        options = {name: {it for row in syntax.switches for it in row.names} for name, syntax in self.tools.items()}
        options["facl"] = self.program
        yield from self.unlike(PAGE, set(shown), set(options))
        for name in set(options) & set(shown):
            tags, read = options_shown(shown[name]), options[name]
            yield from ((PAGE, 1, f"{name} does not read {option}") for option in tags - read)
            yield from ((PAGE, 1, f"{name} has no {option} here") for option in read - tags)

    def of_records(self) -> Iterator[Fault]:
        """The same of the records of the commands; and whether each option takes the same, each line has a text or none, and the
        operands are as many. Those of a tool of one repeated operand may be told apart. The manual page of the commands has the
        tools of facl-plan."""
        known, of_plans = records_of(os.path.join(self.top, RECORDS))
        yield from self.unlike(RECORDS, set(known), set(self.tools))
        for name in set(known) & set(self.tools):
            record, syntax = known[name], self.tools[name]
            if record.loads != syntax.loads:
                yield RECORDS, 1, f"{name} takes {'a' if syntax.loads else 'no'} text"
            if record.operands != syntax.operands and not (syntax.operands == [True] == record.operands[-1:]):
                yield RECORDS, 1, f"{name} takes other operands"
            ours, read = ({row.names: row.takes for row in its.switches} for its in (record, syntax))
            for names in set(ours) | set(read):
                option, takes = " ".join(names), read.get(names, "")
                if names not in read:
                    yield RECORDS, 1, f"{name} does not read {option}"
                elif ours.get(names) != takes:
                    yield RECORDS, 1, f"{name} has no {option} here" if names not in ours else f"{option} takes {takes}"
        page = text_of(self.top, COMMANDS_PAGE) if of_plans else ""
        yield from ((COMMANDS_PAGE, 1, f"the tool {name} is not in it") for name in of_plans
                    if not re.search(rf"\b{name}\b", page))

    def of_readme(self) -> Iterator[Fault]:
        """The table of tools."""
        part = re.search(r"^## The tools of a script\n(?:(?!## ).*\n)*", text_of(self.top, README), re.M)
        cells = [line.split("|")[1] for line in part[0].split("\n") if line.startswith("| `")] if part else []
        named = {name for cell in cells for name in re.findall(r"`(\w+)`", cell)}
        yield from self.unlike(README, named, set(self.tools))

    def of_specification(self) -> Iterator[Fault]:
        """Each tool, and each option by one of its names, is in code of the rules."""
        codes = [code.split() for code in re.findall(r"`([^`]+)`", text_of(self.top, SPECIFICATION))]
        tools = {words[0] for words in codes if words}
        yield from ((SPECIFICATION, 1, f"the tool {name} is not in it") for name in set(self.tools) - tools)
        named = {word.partition("=")[0] for words in codes for word in words}
        for name, row in ((name, row) for name, syntax in self.tools.items() for row in syntax.switches):
            if named.isdisjoint(row.names):
                yield SPECIFICATION, 1, f"{name} has no {' '.join(row.names)} here"

    def of_texts(self) -> Iterator[Fault]:
        """The words by which a line takes a text are those of the options that read one, and of the tools that load one."""
        named, asking = words_of_texts(self.top)
        options = {name for syntax in self.tools.values() for row in syntax.switches if row.takes == TEXT for name in row.names}
        spelled = {"-"} | {name + ("-" if len(name) == 2 else "=-") for name in options}
        loaders = {name for name, syntax in self.tools.items() if syntax.loads}
        yield from ((TEXT_WORDS, 1, f"{word} is not in it") for word in (spelled - named) | (loaders - asking))
        yield from ((TEXT_WORDS, 1, f"no option or tool reads a text by {word}") for word in (named - spelled) | (asking - loaders))
