"""facl VERB: finds the verb among the words, reads them by its parser, and runs what its row says."""
from __future__ import annotations

import argparse
import contextlib
import importlib
import os
from typing import Callable, List, NamedTuple

from .. import VERSION
from ..base.folders import kept
from ..base.messages import Command, Failure
from ..base.programs import HOME, PART
from ..base.progress import AT
from .options import BY_FIELD, BY_NAME, PATH
from .running import Runs
from .table import BY_VERB, CHANGING, Verb, no_verb, parser_of, values_of, words_of

PACKAGE = __package__.rpartition(".")[0]
ORIGIN = os.path.join(HOME, "origin")  # What is known of the installed programs.
# Tools that change something, each with words after it.
EDITORS = frozenset("chacl chgrp chmod chown creat gpasswd rm setattr setfacl useradd userdel usermod".split())
NOT_INSTALLED = "It runs from a clone, which does not say whether its programs were proved.\n"


class VerbLine(NamedTuple):
    """The words of a line: the verb, and all others."""

    verb: Verb
    words: List[str]


def takes_next(word: str) -> bool:
    """Whether the next word is the value of this option, or of the last letter of several."""
    names = [word] if word.startswith("--") else ["-" + letter for letter in word[1:]]
    with_value = [name in BY_NAME and bool(BY_NAME[name].value) for name in names]
    return with_value.index(True) == len(names) - 1 if any(with_value) else False


def place_of_verb(words: List[str]) -> int:
    """Where the verb is: the first word that is no option and no value of one; else behind the last word."""
    place = 0
    while place < len(words) and words[place].startswith("-") and len(words[place]) > 1:
        place += 2 if takes_next(words[place]) else 1
    return min(place, len(words))


def read_line(words: List[str]) -> VerbLine:
    """Fails where there is no such verb. Options may be between the words of one that has two."""
    place = place_of_verb(words)
    before, rest = words[:place], words[place:]
    if not rest:
        raise Failure(b"a verb is missing; facl help lists them")
    first, *after = rest
    second = place_of_verb(after)
    between, last = after[:second], after[second:]
    if last and " ".join((first, last[0])) in BY_VERB and "--" not in between:
        return VerbLine(BY_VERB[" ".join((first, last[0]))], [*before, *between, *last[1:]])
    if first in BY_VERB:
        return VerbLine(BY_VERB[first], before + after)
    raise no_verb(first)


def check_quoted(words: List[str]) -> None:
    """Fails for a line of edits that is no value of -e, or that the shell cut into words."""
    for before, word, after in zip(["", *words], words, [*words[1:], ""]):
        tool, blank, _ = word.partition(" ")
        is_value = before.startswith("-") and takes_next(before)
        is_edit = is_value and (before == "--edit" or before[:2] != "--" and before.endswith("e"))
        is_cut = not blank and bool(after) and (is_edit or not is_value)
        if tool in EDITORS and (is_cut or blank and not is_value) and (is_edit or not os.path.lexists(word)):
            raise Failure(b"a line of edits is one word, the value of -e: facl plan -e '%s ...'" % tool.encode())


def paths_in(verb: Verb, given: argparse.Namespace) -> List[str]:
    """The words of a line that are paths of the snapshot."""
    fields = [it.field() for it in verb.operands if it.kind == PATH]
    fields += [it for it in verb.options if BY_FIELD[it].kind == PATH]
    return [word for field in fields for word in values_of(getattr(given, field))]


def version() -> bytes:
    """What is installed, and whether its programs were proved."""
    try:
        with open(ORIGIN, encoding="utf-8") as file:
            origin = file.read()
    except FileNotFoundError:
        origin = NOT_INSTALLED
    return ("facl %s\n%s" % (VERSION, origin)).encode()


def start(command: Command, verb: Verb, given: argparse.Namespace) -> int:
    """Runs what the row of a verb says. What the edits of a plan are made of is what they are planned over: it is opened once."""
    given.paths, given.takes_parts, given.conclude = paths_in(verb, given), verb.takes_parts(), int
    with kept() if verb.group == CHANGING else contextlib.nullcontext():
        verb.prepare(command, given)
        option, other = verb.instead
        is_other = bool(option) and bool(getattr(given, option))
        module = importlib.import_module("%s.%s" % (PACKAGE, other if is_other else verb.module))
        run: Callable[..., int] = module.body
        conclude: Callable[[int], int] = given.conclude  # What is said after it, and the status then.
        return conclude(run(command, words_of(verb, given) if verb.words and not is_other else given))


def answer_part(command: Command, words: List[str]) -> int:
    """Answers for the facl of another machine, which gives the words of facl-ask, and reads its messages."""
    command.name = b"facl-ask"
    run: Callable[..., int] = importlib.import_module(PACKAGE + ".ask.command").body
    return run(command, ["--part", *words])


def body(command: Command, words: List[str]) -> int:
    if words[:1] == [PART]:
        return answer_part(command, words[1:])
    if words[:1] == ["--version"]:
        command.write(version())
        return 0
    is_help = place_of_verb(words) == len(words) and (not words or bool({"-h", "--help"} & set(words)))
    verb, rest = read_line(["help"] if is_help else words)
    command.name = b"facl " + verb.name.encode()
    command.goes_on = verb.goes_on
    if verb.name == "plan":
        check_quoted(rest)
    given = parser_of(verb).parse_intermixed_args(rest)
    if verb.is_watched:
        Runs(command, verb).start(os.isatty(2) and not getattr(given, "quiet", False))
    try:
        return start(command, verb, given)
    finally:
        AT.stop()
