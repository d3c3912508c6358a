"""What a word of a line can be completed to: tools, options, users, groups, entries and paths; and the manual page."""
from __future__ import annotations

import bisect
import itertools
import json
import os
import re
from typing import Callable, Dict, Iterator, List, NamedTuple, Optional, Tuple

from ..base.names import file_name, read_path, shown, sorting_key
from ..model.people import rows_of
from ..program.protocol import FILE_LINE
from ..program.scripts import words_of
from ..program.tools import ENTRIES, FILE, GROUP, OTHER, TOOLS, USER, VALUES, operand_kinds, options_of_tool, split

CANDIDATES = 200  # The most that one word is offered.
HELP = os.path.join(os.path.dirname(os.path.realpath(__file__)), "help.json")
TOOL_WORDS = [tool.decode() for tool in TOOLS]
NAMED_ENTRY = re.compile(r"((?:d(?:efault)?:)?(u(?:ser)?|g(?:roup)?):)([^:]*)\Z")
PLAIN_WORD = re.compile(r"[A-Za-z0-9_./:=@%+,~^-]*\Z")


class ToolPage(NamedTuple):
    """A tool as the manual page has it."""

    synopses: List[str]
    text: str


class Page(NamedTuple):
    """The manual page of the program as plain text: help.json, which commands/tests/help_text.py makes of docs/facl.1."""

    sections: Dict[str, str]  # By their names in small letters.
    tools: Dict[str, ToolPage]


def read_page() -> Page:
    with open(HELP, encoding="utf-8") as file:
        found = json.load(file)
    return Page({name: text_of(lines) for name, lines in found["sections"].items()},
                {name: ToolPage(its["synopses"], text_of(its["text"])) for name, its in found["tools"].items()})


def text_of(lines: List[str]) -> str:
    return "".join(line + "\n" for line in lines)


def start_of_word(line: str) -> int:
    """Where the last word of a line starts, which may have an open quote."""
    start, is_open = 0, False
    for place, letter in enumerate(line):
        if letter == "'":
            is_open = not is_open
        elif letter in " \t" and not is_open:
            start = place + 1
    return start


class CompletedPaths:
    """The recorded paths, in an order in which those below a directory follow it."""

    def __init__(self, dump: bytes) -> None:
        names = re.findall(FILE_LINE, dump, re.MULTILINE)
        self.keys = sorted({sorting_key(read_path(name)) for name in names})

    def add(self, path: bytes) -> None:
        key = sorting_key(path)
        place = bisect.bisect_left(self.keys, key)
        if self.keys[place : place + 1] != [key]:
            self.keys.insert(place, key)

    def remove(self, path: bytes) -> None:
        """Without the path, and without those below it."""
        key = sorting_key(path)
        del self.keys[bisect.bisect_left(self.keys, key) : bisect.bisect_left(self.keys, key + b"\1")]

    def below(self, directory: bytes, start: bytes) -> Iterator[Tuple[bytes, bool]]:
        """The names in a directory that have this start, and whether other paths are below them."""
        prefix = sorting_key(directory) + b"\0" if directory else b""
        place = bisect.bisect_left(self.keys, prefix + start)
        while place < len(self.keys) and self.keys[place].startswith(prefix + start):
            name = self.keys[place][len(prefix) :].partition(b"\0")[0]
            below, place = (bisect.bisect_left(self.keys, prefix + name + end) for end in (b"\0", b"\1"))
            if name:
                yield name, below < place


def written(name: bytes) -> str:
    """A name as a person writes it in a script, but for quotes."""
    text = shown(name.replace(b"\\", b"\\\\")).decode()
    return re.sub(r"[\t']", lambda found: "\\%03o" % ord(found[0]), text)


def quoted(word: str, is_whole: bool) -> str:
    """A word with its quotes where it needs them; without the last one where the word goes on."""
    if PLAIN_WORD.match(word):
        return word
    return "'" + word + "'" * is_whole


class Completer:
    """Completes words over a snapshot."""

    def __init__(self, page: Page, passwd: bytes, group: bytes, dump: Callable[[], bytes], more: List[str]) -> None:
        self.page, self.dump, self.more = page, dump, more  # The last are words of the prompt itself.
        self.users, self.groups = ([written(row[0]) for row in rows_of(rows)] for rows in (passwd, group))
        self.known: Optional[CompletedPaths] = None

    def paths(self) -> CompletedPaths:
        """Read at the first call."""
        if self.known is None:
            self.known = CompletedPaths(self.dump())
        return self.known

    def complete(self, line: str) -> Tuple[int, List[str]]:
        """Where the last word of a line starts, and what it can be."""
        if line.lstrip(" \t").startswith("#"):  # A comment.
            return len(line), []
        start = start_of_word(line)
        before = words_of(line[:start].encode("utf-8", "surrogateescape")) or []
        return start, list(itertools.islice(self.words(before, line[start:].replace("'", "")), CANDIDATES))

    def words(self, before: List[bytes], word: str) -> Iterator[str]:
        """What a word can be after others; it has no quotes."""
        if not before:
            return (it + " " for it in [*TOOL_WORDS, *self.more] if it.startswith(word))
        if before[0] == b"help":
            return (topic for topic in [*self.page.tools, *self.page.sections] if topic.startswith(word))
        if word.startswith("-") and b"--" not in before:
            return self.options(before[0], word)
        return self.values(kind_of(before), word)

    def options(self, tool: bytes, word: str) -> Iterator[str]:
        name, is_value, value = word.partition("=")
        if is_value:
            kind = VALUES.get(tool, {}).get(name.encode("utf-8", "surrogateescape"), OTHER)
            return (name + "=" + found for found in self.values(kind, value))
        return (option for option in map(bytes.decode, options_of_tool(tool)) if option.startswith(word))

    def values(self, kind: str, word: str) -> Iterator[str]:
        if kind in (USER, GROUP):
            names = self.users if kind == USER else self.groups
            return (quoted(name, True) + " " for name in names if name.startswith(word))
        if kind == ENTRIES:
            return self.entries(word)
        return self.files(word) if kind == FILE else iter(())

    def entries(self, word: str) -> Iterator[str]:
        """Names of the last entry of a word."""
        before, comma, last = word.rpartition(",")
        found = NAMED_ENTRY.match(last)
        if found is None:
            return iter(())
        names = self.users if found[2].startswith("u") else self.groups
        return (quoted(before + comma + found[1] + name + ":", False) for name in names if name.startswith(found[3]))

    def files(self, word: str) -> Iterator[str]:
        """The paths that go on from a word, up to the next slash."""
        head, slash, last = word.rpartition("/")
        directory = read_path(head.encode("utf-8", "surrogateescape"))
        for name, is_directory in self.paths().below(directory, read_path(last.encode("utf-8", "surrogateescape"))):
            yield quoted(head + slash + written(name) + "/" * is_directory, not is_directory) + " " * (not is_directory)

    def ending(self, name: bytes) -> List[bytes]:
        """The names of recorded files whose last components are these, at most three."""
        keys = self.paths().keys
        end, is_whole = b"\0" + sorting_key(name), keys[:1] == [b""]
        found = (file_name(key.replace(b"\0", b"/"), is_whole) for key in keys if key.endswith(end))
        return list(itertools.islice(found, 3))


def kind_of(words: List[bytes]) -> str:
    """What the next word of a line is."""
    values = VALUES.get(words[0], {})
    if len(words) > 1 and words[-1] in values:
        return values[words[-1]]
    line = split(words)
    kinds = operand_kinds(words[0], line) or [OTHER]
    return kinds[min(len(line.operands), len(kinds) - 1)]
