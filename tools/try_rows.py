#!/usr/bin/env -S python3 -B
"""Has a program as it is, before its proof, answer the rows of commands/tests/rows: it is compiled with run-time checks.

usage: tools/try_rows.py [--linux] [--seconds N]      --linux: facl_linux in place of facl; N: that a row may take, 60

Prints a line for each row, and of one that fails what it printed and what it has to; then, as `rt try --test` does, how many
passed and failed. The exit status is 0 if none failed, 1 if one did or the program gave no answer, 2 if the words are
others, and 128 and the signal's number if it is interrupted.
"""
from __future__ import annotations

import argparse
import os
import re
import subprocess
import sys
import tempfile
from pathlib import Path
from typing import Dict, List, NamedTuple, Tuple

from lib import script
from lib.kit import rt
from lib.script import TOP
import row_files
from row_files import Row

# Ends the work of rt's interpreter at once: it cannot run a program that reads files.
STEPS = "1"
PROGRAMS = ("facl_cli", "facl_linux_cli")
# rt prints this to standard output before what a case printed there, and to standard error after what it printed there.
OUT = re.compile(rb"^== (\w+)\n", re.MULTILINE)
CASE = re.compile(rb"^case=(\w+) (.*)\n", re.MULTILINE)
ENDED = re.compile(rb"run=ended status=(\d+) ")


class Answer(NamedTuple):
    """What the program printed of a row, and how it ended, in rt's words."""

    out: bytes
    err: bytes
    end: bytes

    def is_of(self, row: Row) -> bool:
        ended = ENDED.match(self.end)
        return ended is not None and (int(ended[1]), self.out, self.err) == (row.status, row.out, row.err)


def write_cases(folder: str, rows: List[Row]) -> List[str]:
    """Writes a case of each row, named `row_` and its number, and returns the words that give rt their texts."""
    setups = row_files.setups()
    for number, row in enumerate(rows):
        words = [word for option in row_files.options(setups[row.setup]) for word in option]
        Path(folder, f"row_{number}").write_bytes(row.script)
        Path(folder, f"row_{number}.args").write_text("".join(word + "\n" for word in words), "ascii")
    texts = sorted({text for used in setups.values() for text in used})
    return [word for text in texts for word in ("--data", f"{text}={row_files.text_path(text)}")]


def run_rt(program: str, words: List[str]) -> Tuple[bytes, bytes]:
    """What `rt try` of a program prints to both streams. It ends in order where this script is interrupted."""
    with subprocess.Popen([rt(), "try", *words], cwd=os.path.join(TOP, "crates", program), stdin=subprocess.DEVNULL,
                          stdout=subprocess.PIPE, stderr=subprocess.PIPE) as tried:
        try:
            return tried.communicate()
        finally:
            tried.terminate()


def answers(out: bytes, err: bytes) -> Dict[str, Answer]:
    """The answers by the names of the cases."""
    pieces = OUT.split(out)
    outs, found, at = dict(zip(pieces[1::2], pieces[2::2])), {}, 0
    for case in CASE.finditer(err):
        found[case[1].decode()] = Answer(outs.get(case[1], b""), err[at:case.start()], case[2])
        at = case.end()
    return found


def show(row: Row, answer: Answer) -> bool:
    """Prints whether a row passed, which is returned."""
    passed = answer.is_of(row)
    print(f"test {row.file}: {row.name} ... {'ok' if passed else 'FAILED'}")
    if not passed:
        got = row_files.texts_shown(answer.out, answer.err) + answer.end.decode(errors="replace")
        print(f"-- got\n{got}\n-- wanted\n{row_files.printed(row.status, row.out, row.err)}", end="", flush=True)
    return passed


def main() -> int:
    options = argparse.ArgumentParser(description=__doc__, formatter_class=argparse.RawDescriptionHelpFormatter)
    options.add_argument("--seconds", type=int, default=60)
    options.add_argument("--linux", action="store_true")
    given = options.parse_args()
    rows = [row_files.by_linux(row) if given.linux else row for row in row_files.all_rows()]
    with tempfile.TemporaryDirectory(prefix="facl-rows.") as folder:
        words = ["--seconds", str(given.seconds), "--steps", STEPS, "--cases", folder, *write_cases(folder, rows)]
        out, err = run_rt(PROGRAMS[given.linux], words)
    found = answers(out, err)
    if len(found) != len(rows):
        sys.stderr.buffer.write(err)
        raise script.Failed(f"no answer to {len(rows) - len(found)} of {len(rows)} rows")
    passed = sum(show(row, found[f"row_{number}"]) for number, row in enumerate(rows))
    failed = len(rows) - passed
    print(f"test result: {'FAILED' if failed else 'ok'}. {passed} passed; {failed} failed; nothing was proved", flush=True)
    return 1 if failed else 0


if __name__ == "__main__":
    script.run(main)
