"""What is said below the message of a refused line: the hint of the first row that fits, the nearest name, or the synopsis
of the tool; and the lines that would do."""
from __future__ import annotations

import re
from typing import Dict, List, NamedTuple, Optional

from ...base.names import shown
from ..protocol import PROGRAM, UNKNOWN_TOOL, USAGE, has_text, message_of
from ..scripts import Unit, words_of
from ..tools import ALL, HARMLESS, LOADERS, OPTIONS, TEXT, TEXT_WORDS, Option, options_with, split
from .rows import ROWS, HintRow

MARK = b"  in the script: "  # No command of a shell has the name `in`.
BLANKS = re.compile(rb"('[^']*')|[ \t]+")
# Of tools whose options are needed.
SYNOPSES = {b"below": b"[--reach] [--plain | --directories] [--user=USER --list=N | [--user=USER] --depth=N] PERMS FILE..",
            b"creat": b"[-d] --user=USER --mode=MODE [--umask=MASK] FILE", b"gpasswd": b"-a USER GROUP | gpasswd -d USER GROUP",
            b"setattr": b"NAME=0xHEX FILE", b"usermod": b"-g GROUP USER", b"useradd": b"-u UID -g GROUP NAME"}
# What a shell takes as it is; an escape of the script language is three digits there.
PLAIN_CHARACTER = rb"[A-Za-z0-9_./:=@%+,\x80-\xff-]|\\[0-3][0-7][0-7]"
PLAIN = re.compile(rb"(?:" + PLAIN_CHARACTER + rb")+")
HARMLESS_LINE = re.compile(rb"(?:" + PLAIN_CHARACTER + rb"|'[^']*'|[ \t])+")
IN_DOUBLE_QUOTES = re.compile(rb"('[^']*')|(?<![^ \t])\"([^\"']*)\"(?![^ \t])")  # A word; what is in single quotes is none.


class Hint(NamedTuple):
    text: bytes
    lines: List[bytes]  # That would do. A word in capital letters is for the person to fill in.


def spaced(line: bytes) -> bytes:
    """Returns the line with one blank between its words, and none around them but one after a backslash."""
    return re.sub(rb"^ |(?<!\\) $", b"", BLANKS.sub(lambda found: found[1] or b" ", line))


def row_of(line: bytes, message: bytes) -> Optional[HintRow]:
    """Returns the first row that fits a refused line and its message, which comes without the number of the line."""
    text = spaced(line)
    return next((row for row in ROWS if row.messages.fullmatch(message) and row.typed.search(text)), None)


def hint_of(line: bytes, message: bytes) -> Optional[Hint]:
    row = row_of(line, message)
    if row is not None:
        return Hint(row.hint, [] if row.instead is None else row.typed.sub(row.instead, spaced(line)).split(b"\n"))
    words = words_of(line) or line.split()
    if message == message_of(PROGRAM, UNKNOWN_TOOL):
        import difflib  # Few lines need it.

        names = [tool.decode() for tool in sorted(OPTIONS)]
        found = difflib.get_close_matches(words[0].decode("utf-8", "replace").lower(), names, 1, 0.75)
        near = [spaced(line).replace(words[0], name.encode(), 1) for name in found]
        return Hint(b"There is no tool of this name. Nearly so:", near) if near else None
    return of_usage(words) if has_text(message, USAGE) and words[0] in OPTIONS and words[0] not in LOADERS else None


def synopsis(tool: bytes) -> bytes:
    """Returns how lines of a tool are written, by its record."""
    if tool in SYNOPSES:
        return tool + b" " + SYNOPSES[tool]
    flags = [row.names[0] for row in ALL[tool].options if not row.value]
    words = [b"[-%s]" % letters for letters in [b"".join(it[1:] for it in flags if len(it) == 2)] if letters]
    words += [b"[%s]" % it for it in flags if len(it) > 2]
    words += [b"[%s %s]" % (row.names[0], b"-" if row.value == TEXT else row.value.upper().encode())
              for row in ALL[tool].options if row.value]
    return b" ".join([tool, *words, *ALL[tool].operands.encode().split()])


def of_usage(words: List[bytes]) -> Hint:
    """Returns the synopsis, with options that the tool does not have; and the line without them where they say nothing here."""
    tool, line = words[0], split(words)
    unknown = dict.fromkeys(it.name for it in line.given if it.name not in OPTIONS[tool])
    if not unknown:
        return Hint(synopsis(tool), [])
    known = [written(it) for it in line.given if it.name in OPTIONS[tool]]
    lines = [b" ".join([tool, *known, *map(quoted, line.operands)])] if HARMLESS[tool].issuperset(unknown) else []
    return Hint(b"%s has no %s here: %s" % (tool, b", ".join(unknown), synopsis(tool)), lines)


def written(option: Option) -> bytes:
    """Returns an option as it is given again."""
    between = b"=" if len(option.name) > 2 else b" "
    return option.name + between + quoted(option.value) if option.value else option.name


def explained(unit: Unit, message: bytes) -> List[bytes]:
    """What is said below the message of a refused line: the hint, the lines of a script that would do, each with a mark, and
    which lines were taken as its text. A script may be anybody's, and a person may paste what is printed of it, so only lines
    of tools are shown, and these do nothing in a shell."""
    hint = hint_of(unit.lines[0], message)
    if hint is None:
        return [shown(it) for it in swallowed(unit)]
    instead = [MARK + it for it in map(harmless, hint.lines) if it is not None and it != unit.lines[0]]
    text = hint.text if instead or hint.text[-1:] != b":" else hint.text[:-1] + b"."
    return [shown(it) for it in [text, *instead, *swallowed(unit)]]


def explained_by_number(units: Dict[int, Unit], message: bytes) -> List[bytes]:
    """The same of a message as the program prints it, with the number of its line; units by these numbers."""
    found = re.match(rb"line ([0-9]+): (.*)\Z", message, re.DOTALL)
    unit = units.get(int(found[1])) if found else None
    return [] if found is None or unit is None else explained(unit, found[2])


def swallowed(unit: Unit) -> List[bytes]:
    """Says of lines that a refused line took, where nobody meant them as its text."""
    taken = len(unit.lines) - 1
    names = options_with(unit.tool(), TEXT)
    is_option = any(it.name in names and it.value == b"-" for it in split(unit.words).given)
    if taken == 0 or unit.is_ended and (is_option or unit.is_of(*LOADERS)):
        return []
    why = [b", since it has a word " + word for word in unit.words[1:] if word in TEXT_WORDS][:1]
    first, last = unit.number + 1, unit.number + taken
    which = b"line %d was" % first if taken == 1 else b"lines %d to %d were" % (first, last)
    return [b"".join([which, b" taken as the text of line %d" % unit.number, *why])]


# --- lines that a person may paste into a shell, where they run nothing but their first word


def quoted(word: bytes) -> bytes:
    """Writes a word for a line of a script: in quotes if a shell would not take it as it is."""
    return word if PLAIN.fullmatch(word) else b"'" + word.replace(b"'", b"\\047") + b"'"


def harmless(text: bytes) -> Optional[bytes]:
    """Writes a line so that it does nothing in a shell but call its first word: each word is plain or in quotes, also one in
    double quotes, which do not quote here. Returns None if `text` is no line of a tool."""
    text = IN_DOUBLE_QUOTES.sub(lambda found: found[1] or b"'" + found[2] + b"'", text)
    words = words_of(text)
    if not words or words[0] not in OPTIONS:
        return None
    return text if HARMLESS_LINE.fullmatch(text) else b" ".join(map(quoted, words))
