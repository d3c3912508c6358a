"""Where the commands are, and which program they ask: facl_linux, by what Linux grants, or facl, by the check of acl(5)."""
from __future__ import annotations

import argparse
import os
import shutil
from typing import Dict, List, NamedTuple, Optional

from .messages import Failure


# What would have a called program take other words, or read other files, than it is given.
LEFT_OUT = ("POSIXLY_CORRECT", "PYTHONPATH", "PYTHONHOME", "PERL5LIB", "PERL5OPT")
PART = "answer-part"  # The word by which another machine's facl answers a script: ask/parts/runs.py; nobody types it.
HOME = os.path.dirname(os.path.dirname(os.path.dirname(os.path.realpath(__file__))))  # commands/, or PREFIX/libexec/facl.


def environment_of_called() -> Dict[str, str]:
    return {name: value for name, value in os.environ.items() if name not in LEFT_OUT}


class KnownProgram(NamedTuple):
    name: str
    variable: str  # Of the environment, which names the program where --program does not.
    instead: bytes  # What can be done where there is none.

    def find(self, given: Optional[str] = None) -> str:
        """The given one, the one of the variable, the one on the path, or the one that is installed or built beside the
        commands."""
        wanted = given or os.environ.get(self.variable, "")
        installed = os.path.join(HOME, "..", "..", "bin", self.name)
        built = os.path.join(HOME, "..", "crates", self.name + "_cli", "out", self.name + "_cli")
        found = [shutil.which(it) or "" for it in ([wanted] if wanted else [self.name, installed, built])]
        if not any(found):
            raise Failure(os.fsencode(wanted) + b": no such program" if wanted else
                          b"the program %s is not on the path: give it with --program FILE" % self.name.encode() + self.instead)
        return os.path.abspath(next(filter(None, found)))


LINUX = KnownProgram("facl_linux", "FACL_LINUX", b", or ask facl with --acl5")
ACL5 = KnownProgram("facl", "FACL", b"")


def add_program(parser: argparse.ArgumentParser) -> None:
    """Takes which program is to answer."""
    parser.add_argument("--program", metavar="FILE", help="the program to ask; without it $FACL_LINUX, or facl_linux on the path; "
                        "with --acl5 $FACL, or facl on the path")
    parser.add_argument("--acl5", action="store_true", help="ask facl, which judges by acl(5)'s check, and not by what Linux grants")


def judge_word(given: argparse.Namespace) -> str:
    """The judge of answers, for JSON."""
    return "acl5" if given.acl5 else "linux"


def judge_text(given: argparse.Namespace) -> str:
    """The same for a page."""
    return "the check of acl(5), by which Linux does not go where a mask is empty" if given.acl5 else "what Linux grants"


def program_words(given: argparse.Namespace) -> List[str]:
    """The words that said which, for another command."""
    return [*([] if given.program is None else ["--program", given.program]), *["--acl5"] * given.acl5]


def find_program(given: argparse.Namespace) -> str:
    """The program that is to answer."""
    return (ACL5 if given.acl5 else LINUX).find(given.program)
