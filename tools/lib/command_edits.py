"""Edits of commands/tests/wrong/, which are bugs of the commands.

An edit is a line `test: MODULE.CLASS.METHOD` with a test of commands/tests, a line `file:` with a file of facl_commands, and lines
`old: TEXT` and `new: TEXT`, of which the old TEXT is in that file once.
"""
from __future__ import annotations

import os
from typing import NamedTuple

from .wrong_bodies import Fault, lines_of, read_text

WORDS = ["test", "file", "old", "new"]
PACKAGE = "facl_commands"


class WrongEdit(NamedTuple):
    """An edit, with the text of its file before and after it."""

    name: str
    test: str  # Which has to fail.
    file: str  # Its path in commands/.
    before: str
    after: str


def read(path: str) -> WrongEdit:
    """The edit of a file commands/tests/wrong/EDIT.edit."""
    lines = lines_of(path)
    if [word for word, _ in lines] != WORDS:
        raise Fault(f"its lines are not {', '.join(WORDS)}, one each")
    test, file, old, new = (text for _, text in lines)
    if test.count(".") != 2:
        raise Fault(f"{test} is no test MODULE.CLASS.METHOD")
    if os.path.normpath(file) != file or not file.startswith(PACKAGE + "/"):
        raise Fault(f"{file} is no file of {PACKAGE}")
    commands = os.path.dirname(os.path.dirname(os.path.dirname(path)))
    before = read_text(os.path.join(commands, file))
    found = before.count(old) if old else 0
    if found != 1:
        raise Fault(f"it does not apply: {file} has `{old}` {found} times, and not once")
    return WrongEdit(os.path.basename(path)[:-len(".edit")], test, file, before, before.replace(old, new))
