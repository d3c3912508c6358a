"""Examples of documents: reads commands with their answers, compares these with what is printed, and writes that.

In Markdown they are the blocks ```console: a line `$ COMMAND`, or `# COMMAND` in a block that begins so, which root
runs; lines `> ..` that go on with it; and the lines that it prints. A line `...` stands for any lines. In a manual page
they are the blocks of .nf or .EX that begin with `$`.
"""
from __future__ import annotations

import difflib
import os
import re
from typing import Iterator, List, NamedTuple, Optional, Tuple

from common import COMMANDS

from help_text import line_text

REPOSITORY = os.path.dirname(COMMANDS)
# What getfacl and `why` print begins as a command of root does.
HEADER = re.compile(r"# (file|owner|group|flags): ")
ANY_LINES = "..."


class Block(NamedTuple):
    name: str  # Of the document.
    first: int  # The number of its first line there.
    is_examples: bool
    lines: List[str]


class Example(NamedTuple):
    name: str
    number: int  # Of the line of its command.
    command: str
    answer: List[str]

    def place(self) -> str:
        return "%s:%d" % (self.name, self.number)


def read_lines(name: str) -> List[str]:
    with open(os.path.join(REPOSITORY, name), encoding="utf-8") as file:
        return file.read().split("\n")


def markdown_blocks(name: str) -> Iterator[Block]:
    """The fenced blocks of a document."""
    found: Optional[Block] = None
    for number, line in enumerate(read_lines(name), 1):
        if not line.startswith("```"):
            if found is not None:
                found.lines.append(line)
        elif found is None:
            found = Block(name, number + 1, line == "```console", [])
        else:
            yield found
            found = None


def page_blocks(name: str) -> Iterator[Block]:
    """The blocks of a manual page that are printed as they are."""
    found: Optional[Block] = None
    for number, line in enumerate(read_lines(name), 1):
        if line in (".nf", ".EX"):
            found = Block(name, number + 1, False, [])
        elif found is None:
            continue
        elif line in (".fi", ".EE"):
            yield found._replace(is_examples=found.lines[0].startswith("$ "))
            found = None
        elif line == ".RS":
            found = found._replace(first=number + 1)
        elif line != ".RE":
            found.lines.append(line_text(line))


def blocks_of(name: str) -> List[Block]:
    return list(page_blocks(name) if name.endswith(".1") else markdown_blocks(name))


def examples_of(block: Block) -> List[Example]:
    """The commands of a block, each with its answer."""
    prompts = ("$ ", "# ") if block.lines[0].startswith("# ") else ("$ ",)
    found: List[Example] = []
    for number, line in enumerate(block.lines, block.first):
        if line.startswith(prompts) and not HEADER.match(line):
            found.append(Example(block.name, number, line[2:] + "\n", []))
        elif not found:
            raise ValueError("%s:%d: an answer without a command" % (block.name, number))
        elif line.startswith(">") and not found[-1].answer:
            found[-1] = found[-1]._replace(command=found[-1].command + line[2:] + "\n")
        else:
            found[-1].answer.append(line)
    return found


def is_as_printed(answer: List[str], printed: List[str]) -> bool:
    """Whether the lines are those of the answer, in which `...` stands for any."""
    pattern = "".join("(?:.*\n)*" if line == ANY_LINES else re.escape(line) + "\n" for line in map(anywhere, answer))
    return re.fullmatch(pattern, "".join(anywhere(line) + "\n" for line in printed)) is not None


def anywhere(line: str) -> str:
    """A line with one host and date of a snapshot, and one tab where getfacl prints more at a terminal."""
    return re.sub("\t+#effective:", "\t#effective:", of_one_day(line))


# What differs from run to run, and what documents have in its place.
OF_ONE_DAY = (
    (re.compile(r"\(of [\w.-]+, [\dT:-]+Z\)"), "(of srva, 2026-11-27T03:10:00Z)"),
    (re.compile(r"\b(?!2026-11-2[67]T031000\b)20\d\d-\d\d-\d\dT\d{6}\b"), "2026-11-27T031000"),
    (re.compile(r'"host": "[\w.-]+"'), '"host": "srva"'),
    (re.compile(r'"date": "[\dT:-]+Z"'), '"date": "2026-11-27T03:10:00Z"'),
    (re.compile(r"^(20\d\d-\d\d-\d\dT\d{6})  [\w.-]+ +(?=/)"), r"\1  srva  "),
    (re.compile(r"^NAME +HOST +"), "NAME               HOST  "),
)


def of_one_day(line: str) -> str:
    for pattern, text in OF_ONE_DAY:
        line = pattern.sub(text, line)
    return line


def difference(example: Example, printed: List[str]) -> List[str]:
    """Nothing, or where the document and the shell differ."""
    if is_as_printed(example.answer, printed):
        return []
    compared = list(difflib.unified_diff(example.answer, printed, lineterm="", n=1))[2:]
    return ["%s: $ %s%s\n" % (example.place(), example.command, "\n".join(compared))]


def write_answers(name: str, answers: List[Tuple[Example, List[str]]]) -> None:
    """Puts what was printed in the place of the answers of a document."""
    lines = read_lines(name)
    for example, printed in reversed(answers):
        start = example.number + example.command.count("\n") - 1
        shown = map(of_one_day, printed)
        lines[start : start + len(example.answer)] = map(roff, shown) if name.endswith(".1") else shown
    with open(os.path.join(REPOSITORY, name), "w", encoding="utf-8") as file:
        file.write("\n".join(lines))


def roff(line: str) -> str:
    """A line as a manual page has it."""
    for letter, written in (("\\", "\\e"), ("-", "\\-"), ("'", "\\(aq")):
        line = line.replace(letter, written)
    return "\\&" + line if line.startswith(".") else line
