"""Lines of verbs that do what lines of the commands do, and what a verb said as its command says it."""
from __future__ import annotations

import argparse
import contextlib
import importlib
import io
import os
import re
from typing import Callable, Dict, List, NamedTuple, Optional, Tuple

from common import Done

from facl_commands.verbs.options import BY_FIELD
from facl_commands.verbs.table import BY_VERB

MODULES = {"facl-who": "questions.who", "facl-audit": "questions.audit", "facl-check": "questions.check",
           "facl-diff": "questions.diff", "facl-report": "page", "facl-plan": "plan", "facl-apply": "apply"}
# Options of commands that verbs call otherwise, and those without which a command does the same.
RENAMED = {"file_alone": "alone", "page": "output", "plan": "output", "names": "naming"}
DEFAULTS = {"depth": 2, "umask": "022", "fail_on": "high", "weight": "middle", "reach": True, "dump": None, "passwd": None,
            "group_file": None}
# What is said of the snapshot before a verb uses it.
NOTE = re.compile(rb"facl [a-z -]+: the snapshot .* is (?:\d+ [a-z]+ old|of the host .*, not of this one)\n")
Words = Tuple[str, List[str]]  # A verb, and its operands.


def of_who(given: argparse.Namespace) -> Words:
    for field, verb in (("user", "user"), ("remove", "who-removes")):
        if getattr(given, field) is not None:
            return verb, [getattr(given, field), *getattr(given, "folders", [])]
    if given.new_file is not None:
        return "new-file", given.new_file
    return ("files", given.folders) if given.owner or given.names else ("who", [given.perms, *given.folders])


def of_audit(given: argparse.Namespace) -> Words:
    return ("audit fix", [given.edits, *given.folders]) if given.edits else ("audit", given.folders)


def of_check(given: argparse.Namespace) -> Words:
    return ("rules", given.rules) if given.write else ("check", [] if given.rules is None else [given.rules])


def of_page(given: argparse.Namespace) -> Words:
    return ("review", [given.folder]) if given.for_review else ("page", given.scripts)


WORDS_OF: Dict[str, Callable[[argparse.Namespace], Words]] = {
    "facl-who": of_who, "facl-audit": of_audit, "facl-check": of_check, "facl-report": of_page,
    "facl-diff": lambda given: ("diff", [given.before, given.after, *("--below=" + it for it in given.folders)]),
    "facl-plan": lambda given: ("plan", given.scripts),
    "facl-apply": lambda given: ("undo" if given.undo else "apply", [given.plan]),
}
# What the functions above take.
TAKEN = {"snapshot", "folders", "scripts", "perms", "question", "user", "remove", "new_file", "edits", "undo", "write", "rules",
         "before", "after", "for_review", "folder"}


class VerbWords(NamedTuple):
    """A line of a verb, in the place of one of a command."""

    verb: str
    words: List[str]


def parsed(name: str, words: List[str]) -> Optional[argparse.Namespace]:
    """What a command reads of its words; None where they are wrong, or ask for help."""
    module = importlib.import_module("facl_commands.%s.command" % MODULES[name])
    said = io.StringIO()
    with contextlib.redirect_stderr(said), contextlib.redirect_stdout(said), contextlib.suppress(SystemExit):
        given: argparse.Namespace = module.parse(words)
        return given
    return None


def line_of(name: str, words: List[str]) -> Optional[VerbWords]:
    """None where no verb does that."""
    given = parsed(name, words) if name in MODULES else None
    if given is None or getattr(given, "dump", None) is not None:
        return None
    verb, operands = WORDS_OF[name](given)
    if name == "facl-plan" and given.plan is None:
        given.plan = given.snapshot.rstrip("/") + ".plan"
    if name == "facl-apply":
        del given.plan
    options = ["-s", given.snapshot] if "snapshot" in BY_VERB[verb].options else []
    for field, value in vars(given).items():
        if field in TAKEN or value is None or value is False or value == [] or DEFAULTS.get(field) == value:
            continue
        option = BY_FIELD.get(RENAMED.get(field, field))
        if option is None or option.field() not in BY_VERB[verb].options:
            return None
        options += [option.names[-1]] if value is True else ["%s=%s" % (option.names[-1], value)]
    is_odd = any(it.startswith("-") and it != "-" and not it.startswith("--below=") for it in operands)
    return None if is_odd else VerbWords(verb, [*verb.split(), *options, *operands])


def as_command(name: str, verb: str, done: Done) -> Done:
    """What a verb did, with messages that name the command, and without notes on the snapshot."""
    begin = os.fsencode("facl %s: " % verb)
    lines = [it for it in done.messages.splitlines(True) if not NOTE.fullmatch(it)]
    named = [os.fsencode(name) + it[len(begin) - 2 :] if it.startswith(begin) else it for it in lines]
    return Done(done.status, done.out, b"".join(named))
