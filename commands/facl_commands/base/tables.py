"""What a command prints for a person or a script: tables, rows of fields with tabs, JSON; and the pager that a long text
goes through at a terminal."""
from __future__ import annotations

import argparse
import contextlib
import io
import json
import os
import re
import shutil
import signal
import subprocess
import unicodedata
from functools import partial
from typing import Dict, Iterator, List, Mapping, NamedTuple, Optional, Sequence

from .. import VERSION
from .messages import Command, Failure
from .names import shown
from .programs import environment_of_called, judge_word
from .progress import AT

GAP = "  "  # Between two columns.
MIDDLE = ".."  # In the place of what is cut out.
NARROWEST = 6  # Columns of a terminal that a cut column keeps.
NOT_FOUND = 127  # The status of a shell that does not find what it is to run.
LESS = "-FRX"
# The start of what a spreadsheet computes, or takes for the quote of a field; letters of rights, as -w- r-x, are none. The
# page of facl-report has the same in `field` of report.js.
COMPUTED = re.compile(rb"""[=+@'"\r]|-(?![w-][x-](?: [r-][w-][x-])*\Z)""")
LENT_BY = ("SUDO_UID", "DOAS_USER", "PKEXEC_UID")  # Set by what lends a command the rights of another user.


class Column(NamedTuple):
    title: str
    is_number: bool = False  # It is aligned to the right then, and never cut.


class Table(NamedTuple):
    columns: Sequence[Column]
    rows: List[List[bytes]]  # With names as the program prints them.


def add_output(parser: argparse.ArgumentParser) -> None:
    """Takes --json, --tsv and --no-pager."""
    form = parser.add_mutually_exclusive_group()
    form.add_argument("--json", action="store_true", help="print one object; the manual page has its schema")
    form.add_argument("--tsv", action="store_true", help="print rows of fields with tabs between them, with the titles first")
    parser.add_argument("--no-pager", action="store_true", help="print a long text as it is, also at a terminal")


# --- a terminal


def is_terminal() -> bool:
    return os.isatty(1)


class Paint:
    """Marks texts for a person at a terminal; elsewhere, and where NO_COLOR is set, it leaves them as they are."""

    def __init__(self) -> None:
        is_plain = os.environ.get("NO_COLOR") or os.environ.get("TERM", "dumb") == "dumb"
        is_on = is_terminal() and not is_plain
        marks = (b"\x1b[%dm%%s\x1b[0m" % code if is_on else b"%s" for code in (1, 2, 31, 32, 33))
        self.bold, self.dim, self.red, self.green, self.yellow = (partial(marked, mark) for mark in marks)


def marked(mark: bytes, text: bytes) -> bytes:
    return mark % text if text else text


def fitting_line(line: bytes, indent: int = 0) -> bytes:
    """A line that a person reads after some blanks, cut in its middle where a terminal has no room for it."""
    text, room = shown(line), shutil.get_terminal_size().columns - indent
    return b" " * indent + (cut(text.decode(), room).encode() if is_terminal() else text)


# --- tables


def width_of_letter(letter: str) -> int:
    """The columns that a terminal has for it."""
    if unicodedata.combining(letter) or unicodedata.category(letter) in ("Mn", "Me", "Cf"):
        return 0
    return 2 if unicodedata.east_asian_width(letter) in ("W", "F") else 1


def width_of(text: str) -> int:
    return len(text) if text.isascii() else sum(map(width_of_letter, text))


def start_of(letters: Sequence[str], width: int) -> int:
    """How many letters from the first on fit a width."""
    for place, letter in enumerate(letters):
        width -= width_of_letter(letter)
        if width < 0:
            return place
    return len(letters)


def cut(text: str, width: int) -> str:
    """A text that fits a width, cut in its middle where it is longer."""
    if width_of(text) <= width:
        return text
    room = max(width - len(MIDDLE), 0)
    first = start_of(text, room // 2)
    last = start_of(text[::-1], room - width_of(text[:first]))
    return (text[:first] + MIDDLE + text[len(text) - last :])[: max(width, 0)]


def fitting(widths: List[int], columns: Sequence[Column], room: int) -> List[int]:
    """The widths of columns in so much room: the widest texts are cut to one width."""
    room -= len(GAP) * (len(widths) - 1) + sum(it for it, column in zip(widths, columns) if column.is_number)
    found = list(widths)
    places = sorted((place for place, column in enumerate(columns) if not column.is_number), key=widths.__getitem__)
    for left, place in zip(range(len(places), 0, -1), places):
        found[place] = min(widths[place], max(room // left, NARROWEST))
        room -= found[place]
    return found


def aligned(cells: Sequence[str], columns: Sequence[Column], widths: Sequence[int]) -> str:
    """A row with its cells below each other; no blanks come after the last one."""
    found = []
    for text, column, width in zip(map(cut, cells, widths), columns, widths):
        blanks = " " * (width - width_of(text))
        found.append(blanks + text if column.is_number else text + blanks)
    return GAP.join(found).rstrip(" ")


def write_rows(command: Command, table: Table) -> None:
    """Prints titles and rows below each other; at a terminal each is one line, of which a narrow one has the beginning."""
    rows = [[column.title for column in table.columns],
            *([shown(field).decode().replace("\t", "\\011") for field in row] for row in table.rows)]
    widths = [max(map(width_of, cells)) for cells in zip(*rows)]
    room = shutil.get_terminal_size().columns if is_terminal() else None
    widths = widths if room is None else fitting(widths, table.columns, room)
    titles, *lines = (line if room is None else line[: start_of(line, room)]
                      for line in (aligned(row, table.columns, widths) for row in rows))
    command.write(Paint().bold(titles.encode()) + b"\n")
    for line in lines:
        command.write(line.encode() + b"\n")


def field_of(text: bytes) -> bytes:
    """A field for a script: a tab is an escape, and an apostrophe is before what a spreadsheet would compute."""
    return b"'" * bool(COMPUTED.match(text)) + text.replace(b"\t", b"\\011")


def write_table(command: Command, given: argparse.Namespace, table: Table) -> None:
    """Prints a table in the form that was chosen; rows for a script at a terminal with escapes of what this obeys."""
    if not given.tsv:
        write_rows(command, table)
        return
    command.write("\t".join(column.title for column in table.columns).encode() + b"\n")
    for row in table.rows:
        fields = list(map(field_of, row))
        command.write(b"\t".join(map(shown, fields) if is_terminal() else fields) + b"\n")


def write_json(command: Command, given: argparse.Namespace, schema: str, fields: Mapping[str, object]) -> None:
    """Prints one object, which names its schema first, and then which judge answered; names in it are texts by json_text."""
    report: Dict[str, object] = {"schema": schema, "version": VERSION, "judge": judge_word(given), **fields}
    command.write(json.dumps(report, indent=2).encode() + b"\n")


# --- the pager


def lines_at_terminal(text: bytes, width: int) -> int:
    """The lines of a screen that a text takes."""
    return sum(max(1, -(-len(line) // max(width, 1))) for line in text.split(b"\n")[:-1])


def pager_words() -> Optional[List[str]]:
    """The command line of the pager; None where there is none, or none is wanted."""
    wanted = os.environ.get("PAGER")
    if wanted is not None:
        return ["sh", "-c", wanted] if wanted.strip() else None
    less = shutil.which("less")
    return [less, LESS] if less else None


def environment_of_pager() -> Dict[str, str]:
    """A pager from which a caller with lent rights, those of another user for this command alone, cannot run or read else with
    them."""
    is_lent = os.getuid() != os.geteuid() or os.getgid() != os.getegid() or any(name in os.environ for name in LENT_BY)
    return {"LESS": LESS[1:], **environment_of_called(), **({"LESSSECURE": "1"} if is_lent else {})}


def is_shown_by_pager(text: bytes) -> bool:
    """Shows a text by the pager, until its reader ends it; false where it cannot be run."""
    words = pager_words()
    if words is None or os.environ.get("TERM", "dumb") == "dumb":
        return False
    try:
        run = subprocess.Popen(words, stdin=subprocess.PIPE, env=environment_of_pager())
    except OSError:
        return False
    kept = {number: signal.signal(number, signal.SIG_IGN) for number in (signal.SIGINT, signal.SIGQUIT)}
    try:
        run.communicate(text)  # The keys of these signals are the pager's until it ends.
    except BaseException:
        run.terminate()
        raise
    finally:
        for number, handler in kept.items():
            signal.signal(number, handler)
    return run.returncode != NOT_FOUND


@contextlib.contextmanager
def paged(command: Command, is_wanted: bool = True) -> Iterator[None]:
    """What a command writes in it comes at its end, through a pager where it is long; at a terminal alone."""
    if not (is_wanted and is_terminal()):
        yield
        return
    stream, kept = command.out, io.BytesIO()
    command.out = kept
    try:
        yield
    except Failure:
        stream.write(kept.getvalue())
        raise
    finally:
        command.out = stream
    AT.stop()
    text, size = kept.getvalue(), shutil.get_terminal_size()
    if lines_at_terminal(text, size.columns) < size.lines or not is_shown_by_pager(text):
        command.write(text)
        command.flush()
