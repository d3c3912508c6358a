"""facl help: the verbs with what each does, or the manual page of one."""
from __future__ import annotations

import argparse
import os
import shutil
import subprocess
import textwrap
from typing import Iterator, List, Optional

from ..base import tables
from ..base.messages import Command
from ..base.programs import HOME, environment_of_called
from .table import ASKING, BY_VERB, CHANGING, RECORDING, SHOWING, VERBS, Verb, no_verb, parser_of

GROUPS = (RECORDING, ASKING, CHANGING, SHOWING)
HEAD = """\
facl records owners, groups and ACLs of a tree, says who may do what there, and plans, applies and undoes changes. It never \
reads what is in a file. Each verb takes -h; facl help VERB opens its page; man facl has the whole."""
LEFT, NARROWEST, WIDEST = 32, 72, 100  # Columns of the usage of a verb, and of a line.
# Where pages are: installed, and in a clone.
PLACES = (os.path.join(HOME, "..", "..", "share", "man", "man1"), os.path.join(HOME, "..", "docs", "man"))


def lines() -> Iterator[str]:
    """The verbs by groups, as wide as the terminal, within limits."""
    width = min(max(shutil.get_terminal_size((WIDEST, 24)).columns, NARROWEST), WIDEST)
    yield from textwrap.wrap(HEAD, width)
    for group in GROUPS:
        yield from ("", group)
        for verb in VERBS:
            yield from row(verb, width) if verb.group == group else ()


def row(verb: Verb, width: int) -> Iterator[str]:
    """The usage of a verb, and beside it what it does."""
    usage, text = "  facl " + verb.usage(), textwrap.wrap(verb.does, width - LEFT)
    if len(usage) < LEFT:
        usage = usage.ljust(LEFT) + text.pop(0)
    yield from (usage, *(" " * LEFT + line for line in text))


def page_of(verb: Verb) -> Optional[str]:
    """The file of its manual page; None where there is none."""
    name = "facl-%s.1" % verb.name.replace(" ", "-")
    names = (os.path.join(place, name + end) for place in PLACES for end in ("", ".gz"))
    return next((it for it in names if os.path.exists(it)), None)


def show_page(command: Command, verb: Verb) -> int:
    """Shows the page by man; where there is no page or no man, what -h prints."""
    page, man = page_of(verb), shutil.which("man")
    if page is None or man is None:
        command.write(parser_of(verb).format_help().encode())
        return 0
    command.flush()
    return subprocess.run([man, "-l", page], env=environment_of_called(), check=False).returncode


def body(command: Command, given: argparse.Namespace) -> int:
    words: List[str] = given.verbs
    if not words:
        with tables.paged(command):
            command.write("".join(line + "\n" for line in lines()).encode())
        return 0
    name = " ".join(words)
    if name not in BY_VERB:
        raise no_verb(name)
    return show_page(command, BY_VERB[name])
