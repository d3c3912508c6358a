"""Checks that each edit of must-fail/ and wrong/ applies, those of the commands too, and that a function which one names is
there.

usage: tools/check.py edits_apply

It tries no edit: `rt ci` does, tools/edits.py and tools/check.py wrong_commands. It prints `FILE: FAULT` for each edit with a fault. The exit
status is 1 if there is one.
"""
from __future__ import annotations

import glob
import os
from typing import Callable, Dict, Iterator

from lib import command_edits, script, wrong_bodies


def read_without_function(path: str) -> Dict[str, str]:
    """The texts of the files that an edit of must-fail/ changes."""
    return wrong_bodies.edited(wrong_bodies.lines_of(path), wrong_bodies.crate_of(path))


READERS: Dict[str, Callable[[str], object]] = {"crates/*/must-fail": read_without_function, "crates/*/wrong": wrong_bodies.read,
                                               "commands/tests/wrong": command_edits.read}


def faults(top: str) -> Iterator[str]:
    for folder, read in READERS.items():
        for path in sorted(glob.glob(os.path.join(top, folder, "*.edit"))):
            try:
                read(path)
            except wrong_bodies.Fault as fault:
                yield f"{os.path.relpath(path, top)}: {fault}"


def main() -> int:
    found = [*faults(script.TOP)]
    print("".join(f"{line}\n" for line in found), end="")
    return 1 if found else 0
