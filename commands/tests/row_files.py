"""The rows of rows/: scripts, what is loaded before them, and what the program prints. The folder's README has their form."""
from __future__ import annotations

import os
import re
from typing import Dict, Iterator, List, NamedTuple, Optional, Tuple

FOLDER = os.path.join(os.path.dirname(os.path.realpath(__file__)), "rows")
KINDS = ("passwd", "group", "dump")
VISIBLE = re.compile(r"[ -~]*(?<! )")
TEXT = r"(?:\|.*\n)"
ROW = re.compile(
    r"= (?P<name>.+)\nsetup (?P<setup>\S+)\n"
    rf"script\n(?P<script>{TEXT}*)(?:out\n(?P<out>{TEXT}+))?(?:linux\n(?P<linux>{TEXT}+))?"
    rf"(?:err\n(?P<err>{TEXT}+))?status (?P<status>[0-9])\n"
)
ESCAPE = re.compile(r"\{([0-9a-f]{2})\}")
UNENDED = "{}\n"


class Malformed(ValueError):
    """A file that has not the form of README: its path, the line, and what is wrong."""


class Row(NamedTuple):
    """A script, and what it prints. `file` is the name of the row's file without its ending. `linux` is what facl_linux prints
    to standard output, where that is something else."""

    file: str
    name: str
    setup: str
    script: bytes
    out: bytes
    err: bytes
    status: int
    linux: Optional[bytes] = None


def by_linux(row: Row) -> Row:
    """The row of facl_linux: the same, but for what it prints instead."""
    return row if row.linux is None else row._replace(out=row.linux)


def lines_of(path: str) -> Iterator[Tuple[int, str]]:
    """The lines of a file but for comments and empty ones, with their numbers."""
    with open(path, encoding="latin-1", newline="\n") as file:
        for number, line in enumerate(file.read().split("\n"), 1):
            if not VISIBLE.fullmatch(line):
                raise Malformed(f"{path}:{number}: a byte that is not printed, or a blank at the end: write it as {{XX}}")
            if line and not line.startswith("#"):
                yield number, line


def bytes_of(text: str) -> bytes:
    """The bytes of a text of a row, whose lines are after `|`. Malformed where a `{` begins no escape."""
    whole = "".join(line[1:] for line in text.splitlines(keepends=True))
    whole = whole[:-len(UNENDED)] if whole.endswith(UNENDED) else whole
    if "{" in ESCAPE.sub("", whole):
        raise Malformed("a `{` that begins no escape, or a `{}` before the end: a `{` is written as {7b}")
    return ESCAPE.sub(lambda found: chr(int(found[1], 16)), whole).encode("latin-1")


def shown(text: bytes) -> str:
    """A text of a row as its file has it, each line after a `|`."""
    if not text:
        return ""
    signs = ("\n" if byte == 10 else chr(byte) if 32 <= byte < 127 and byte != 123 else "{%02x}" % byte for byte in text)
    whole = re.sub(r" $", "{20}", "".join(signs), flags=re.MULTILINE)
    whole = whole if text.endswith(b"\n") else whole + UNENDED
    return re.sub(r"^", "|", whole[:-1], flags=re.MULTILINE) + "\n"


def texts_shown(out: bytes, err: bytes) -> str:
    """What a script printed on both streams, as a file of rows has it."""
    return "".join(f"{name}\n{shown(text)}" for name, text in (("out", out), ("err", err)) if text)


def printed(status: int, out: bytes, err: bytes) -> str:
    """What a script printed, and its status, as a file of rows has it."""
    return f"{texts_shown(out, err)}status {status}\n"


def read_rows(path: str) -> List[Row]:
    """The rows of a file. Malformed where it has another form, or two rows of one name."""
    lines = list(lines_of(path))
    whole = "".join(line + "\n" for _, line in lines)
    file, at = os.path.basename(path)[:-len(".rows")], 0
    rows: Dict[str, Row] = {}
    while at < len(whole):
        place = f"{path}:{lines[whole.count(chr(10), 0, at)][0]}"
        found = ROW.match(whole, at)
        if not found or found["name"] in rows:
            raise Malformed(f"{place}: " + ("its name is that of another row" if found else "no row as README has them"))
        try:
            script, out, err, linux = (bytes_of(found[part] or "") for part in ("script", "out", "err", "linux"))
        except Malformed as fault:
            raise Malformed(f"{place}: {fault}") from None
        rows[found["name"]] = Row(file, found["name"], found["setup"], script, out, err, int(found["status"]), linux or None)
        at = found.end()
    return list(rows.values())


def all_rows() -> List[Row]:
    """The rows of all files, in the order of their names."""
    names = sorted(name for name in os.listdir(FOLDER) if name.endswith(".rows"))
    return [row for name in names for row in read_rows(os.path.join(FOLDER, name))]


def setups() -> Dict[str, List[str]]:
    """For each setup of the file `setups` the names of its texts, in the folder `texts`, each of another kind."""
    return {words[0]: words[1:] for words in (line.split() for _, line in lines_of(os.path.join(FOLDER, "setups")))}


def text_path(text: str) -> str:
    return os.path.join(FOLDER, "texts", text)


def options(texts: List[str]) -> List[Tuple[str, str]]:
    """The program's options for texts of a setup, with these as their values."""
    kinds = [(text.rpartition(".")[2], text) for text in texts]
    if any(kind not in KINDS for kind, _ in kinds):
        raise Malformed(f"a text of a setup whose name ends in none of {', '.join(KINDS)}: {' '.join(texts)}")
    return [("--" + kind, text) for kind, text in kinds]
