"""Scripts, cut into lines with their texts, as the section SCRIPTS of the manual page has it."""
from __future__ import annotations

import os
import re
import stat
from typing import IO, Iterable, Iterator, List, NamedTuple, Optional, Tuple

from ..base.messages import Failure, failing
from ..base.trusted import MOST_WRITTEN, read_all, too_large
from .tools import LOADERS, TEXT_WORDS, form_of

LINE_LIMIT = 65536
DESCRIPTOR = re.compile(r"/dev/(?:stdin|fd/\d+)\Z|/proc/self/fd/\d+\Z")
WORD = re.compile(rb"(?:[^ \t']|'[^']*')+")


class Unit(NamedTuple):
    """A line of a script that does something, with the lines of its text."""

    script: bytes
    number: int
    words: List[bytes]
    lines: List[bytes]
    is_ended: bool  # Whether its text, if it takes one, has its last line.

    def place(self) -> bytes:
        return b"%s, line %d" % (self.script, self.number)

    def text(self) -> bytes:
        return b"".join([line + b"\n" for line in self.lines])

    def tool(self) -> bytes:
        return self.words[0] if self.words else b""

    def form(self) -> bytes:
        """The tool that has answers of the form of its answer."""
        return form_of(self.words)

    def is_of(self, *tools: bytes) -> bool:
        """Whether its tool is one of these."""
        return self.tool() in tools


def words_of(line: bytes) -> Optional[List[bytes]]:
    """The words of a line, without their quotes; None where a quote is open."""
    if line.count(b"'") % 2 == 1:
        return None
    return [word.replace(b"'", b"") for word in WORD.findall(line)]


def is_empty(line: bytes) -> bool:
    """Whether a line is blank or a comment."""
    return line.strip(b" \t")[:1] in (b"", b"#")


def takes_text(words: List[bytes]) -> bool:
    return words[:1] != [] and words[0] in LOADERS or not TEXT_WORDS.isdisjoint(words[1:])


def read_units(name: bytes, lines: Iterable[bytes]) -> Iterator[Unit]:
    """The units of lines, one by one, without blank lines and comments."""
    rest = iter(lines)
    number = 0
    for line in rest:
        number += 1
        if len(line) > LINE_LIMIT or not is_empty(line):
            words, text = words_within(line), []
            for taken in rest if takes_text(words) else ():
                text.append(taken)
                if taken == b".":
                    break
            yield Unit(name, number, words, [line, *text], not takes_text(words) or text[-1:] == [b"."])
            number += len(text)


def words_within(line: bytes) -> List[bytes]:
    """The words of a line; none where it is too long, or a quote is open."""
    return words_of(line) or [] if len(line) <= LINE_LIMIT else []


def lines_with_numbers(content: bytes) -> Iterator[Tuple[int, bytes]]:
    """The lines of a text that are neither blank nor comments, each with its number, from 1 on."""
    return ((number, line) for number, line in enumerate(content.split(b"\n"), 1) if not is_empty(line))


def read_script(name: bytes, content: bytes) -> List[Unit]:
    """The units of a script."""
    return list(read_units(name, content.removesuffix(b"\n").split(b"\n")))


class Script(NamedTuple):
    name: bytes  # As messages have it.
    text: bytes

    def units(self) -> List[Unit]:
        return read_script(self.name, self.text)


def read_text(name: str) -> Script:
    """What is in a script; the name - is standard input."""
    shown = b"standard input" if name == "-" else os.fsencode(name)
    with failing(shown, True), open(0 if name == "-" else open_script(name), "rb", closefd=name != "-") as file:
        return Script(shown, read_all(file, shown, MOST_WRITTEN))


def lines_of_file(file: IO[bytes], shown: bytes) -> Iterator[bytes]:
    """The lines of a script, each when it is read, without their ends; it has a limit."""
    left = MOST_WRITTEN
    while True:
        line = file.readline(left + 1)
        left -= len(line)
        if left < 0:
            raise too_large(shown, MOST_WRITTEN)
        if not line:
            return
        yield line[:-1] if line.endswith(b"\n") else line


def open_script(name: str) -> int:
    """Opens a script, which may be anybody's; but nobody waits for what another user may write to a pipe by its name."""
    waiting = os.open(name, os.O_PATH | os.O_CLOEXEC)
    try:
        look = os.fstat(waiting)
        if stat.S_ISFIFO(look.st_mode) and look.st_uid not in (0, os.geteuid()) and not DESCRIPTOR.match(name):
            raise Failure(os.fsencode(name) + b": is a pipe of another user")
        return os.open("/proc/self/fd/%d" % waiting, os.O_RDONLY | os.O_CLOEXEC)
    finally:
        os.close(waiting)
