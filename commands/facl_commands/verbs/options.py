"""The options of the verbs: each has one name, one meaning and one sentence of help, whatever verb takes it."""
from __future__ import annotations

import argparse
from typing import Callable, Dict, NamedTuple, Tuple

from ..questions.audit.findings import KINDS, WEIGHTS

# What a word is, of which completion knows more.
FILE, PATH, USER, GROUP = "file", "path", "user", "group"
SNAPSHOT, FINDING, VERB, WORD = "snapshot", "finding", "verb", "word"
FINDINGS = tuple(kind.name for kind in KINDS)
Check = Callable[[str], str]


class VerbOption(NamedTuple):
    """An option of some verbs."""

    names: Tuple[str, ...]
    help: str
    value: str = ""  # What --help has in the place of its value; empty of a flag.
    kind: str = WORD  # What its value is.
    choices: Tuple[str, ...] = ()
    check: Check = str
    is_repeated: bool = False
    command: str = ""  # The same option of the command that a verb runs; empty where the row of the verb has it.

    def field(self) -> str:
        """Where the parser puts its value."""
        return self.names[-1].lstrip("-").replace("-", "_")

    def add_to(self, parser: argparse._ActionsContainer) -> None:
        if not self.value:
            parser.add_argument(*self.names, action="store_true", help=self.help)
        else:
            parser.add_argument(*self.names, metavar=self.value, help=self.help, choices=self.choices or None,
                                type=self.check,
                                action="append" if self.is_repeated else "store",
                                default=[] if self.is_repeated else None)


def number_up_to(most: int, least: int = 0) -> Check:
    """Reads a decimal number within limits."""
    def read(word: str) -> str:
        if not (word.isascii() and word.isdigit() and least <= int(word[:20]) <= most):
            raise argparse.ArgumentTypeError("%r is not a number from %d to %d" % (word, least, most))
        return word
    return read


def umask(word: str) -> str:
    """Reads a mask of octal digits."""
    if not 1 <= len(word) <= 4 or set(word) - set("01234567") or int(word, 8) > 0o777:
        raise argparse.ArgumentTypeError("%r is not a mask of octal digits up to 0777" % word)
    return word


MOST = 9_999_999
ALL: Tuple[VerbOption, ...] = (
    # which snapshot, and who answers
    VerbOption(("-s", "--snapshot"),
               "a snapshot of the store by its name or day, or any folder of one; the newest without it (restore: the one before)",
               "NAME", SNAPSHOT),
    VerbOption(("--now",), "the snapshot of what is there now; the newest of the store without it", "NAME", SNAPSHOT),
    VerbOption(("--program",), "the program to ask, in the place of the one that is installed", "FILE", FILE,
               command="--program"),
    VerbOption(("--acl5",), "judge by the check of acl(5), and not by what Linux grants", command="--acl5"),
    # whom and what an answer is about
    VerbOption(("--all-users",), "show accounts of the system too, and not people alone", command="--all-users"),
    VerbOption(("--with-root",), "show users of the id 0 too, to whom Linux grants nearly everything",
               command="--with-root"),
    VerbOption(("--alone",), "judge each file alone, without search permission on its parent directories",
               command="--file-alone"),
    VerbOption(("--below",), "look only at or below FOLDER; it may come several times", "FOLDER", PATH,
               is_repeated=True),
    # how it is printed
    VerbOption(("--json",), "print one JSON object: man facl-json", command="--json"),
    VerbOption(("--tsv",), "print rows of fields with a tab between two, titles first", command="--tsv"),
    VerbOption(("--no-pager",), "print a long answer as it is, also at a terminal", command="--no-pager"),
    VerbOption(("-q", "--quiet"), "say less: not how old the snapshot is, and nothing where all is well"),
    VerbOption(("-o", "--output"), "where to write; only a snapshot or a plan replaces another", "NAME", FILE),
    VerbOption(("-n", "--dry-run"), "say what would be done, and change nothing"),
    # of some verbs
    VerbOption(("--depth",), "folders down to N levels below each FOLDER (default: 2)", "N", check=number_up_to(1000),
               command="--depth"),
    VerbOption(("--owner",), "the files that USER owns", "USER", USER),
    VerbOption(("--naming",), "the files with an entry that names USER", "USER", USER),
    VerbOption(("--umask",), "umask where the folder has no default ACL (default: 022)", "MASK", check=umask,
               command="--umask"),
    VerbOption(("--lists-alone",), "also show what nobody can write, as it is immutable or on a read-only file system",
           command="--lists-alone"),
    VerbOption(("--any-host",), "compare snapshots of two hosts too", command="--any-host"),
    VerbOption(("--list",), "print all files of one finding", "FINDING", FINDING, FINDINGS, command="--list"),
    VerbOption(("--accepted",), "a file of findings that are as they should be: man facl-audit", "FILE", FILE,
               command="--accepted"),
    VerbOption(("--fail-on",), "the least weight that makes the exit status 1 (default: high)", "WEIGHT", WORD,
               (*WEIGHTS, "none"),
           command="--fail-on"),
    VerbOption(("--weight",), "the least weight of the findings that are shown (default: middle)", "WEIGHT", WORD, WEIGHTS,
               command="--weight"),
    VerbOption(("-e", "--edit"), "a line of edits, in the place of EDITS; it may come several times", "LINE",
               is_repeated=True),
    VerbOption(("--to",), "who gets the files of the user who leaves", "HEIR", USER),
    VerbOption(("--like",), "the user whose entries and memberships are given", "USER", USER),
    VerbOption(("--full",), "print each change of each user's rights, and not a summary", command="--full"),
    VerbOption(("--keep-going",), "plan the other lines where some were refused", command="--keep-going"),
    VerbOption(("--readers",), "let the members of GROUP read what is written", "GROUP", GROUP, command="--readers"),
    VerbOption(("--leave-changed",), "leave out files that somebody changed or removed since",
               command="--leave-changed"),
    VerbOption(("--drop-capabilities",), "change owners of files with capabilities too, which lose these",
               command="--drop-capabilities"),
    VerbOption(("--headings",), "print each question of a script above its answer", command="--headings"),
    VerbOption(("--each",), "the words are folders of snapshots, which are parts of one tree", command="--each"),
    VerbOption(("--hosts",), "the words are servers, NAME:FOLDER, each with a snapshot", command="--hosts"),
    VerbOption(("--timeout",), "with --each and --hosts: how long another machine may take", "SECONDS",
               check=number_up_to(MOST, 1),
           command="--timeout"),
    # of what records
    VerbOption(("--exclude",), "leave out what matches GLOB, and all below; it may come several times", "GLOB",
               is_repeated=True,
           command="--exclude"),
    VerbOption(("--cross-file-systems",), "record what is mounted below a FOLDER too", command="--cross-file-systems"),
    VerbOption(("--split",), "make parts of at most COUNT files each, for a tree of more than 1,048,576", "COUNT",
           check=number_up_to(MOST, 1), command="--split"),
    VerbOption(("--users",), "a file of more users, a name a line, whom the directory service does not list", "FILE",
               FILE,
           command="--users"),
    VerbOption(("--passwd",), "the users, in the place of those of this system", "FILE", FILE),
    VerbOption(("--group",), "the groups, in the place of those of this system", "FILE", FILE),
    VerbOption(("--keep-daily",), "keep the last snapshot of each of the last N days that have one", "N",
               check=number_up_to(MOST)),
    VerbOption(("--keep-weekly",), "the same of weeks", "N", check=number_up_to(MOST)),
    VerbOption(("--keep-monthly",), "the same of months", "N", check=number_up_to(MOST)),
    VerbOption(("--keep",), "how many daily snapshots stay (default: 30)", "COUNT", check=number_up_to(999_999_999, 1),
               command="--keep"),
    VerbOption(("--rules",), "a file of rules to check: man 5 facl-rules", "FILE", FILE, command="--rules"),
    VerbOption(("--install",), "have the timer of systemd run it each day, with the words of this line"),
    VerbOption(("--mail",), "mail what there is to look at, in the place of printing it", "ADDRESS", command="--mail"),
)
BY_FIELD: Dict[str, VerbOption] = {option.field(): option for option in ALL}
BY_NAME: Dict[str, VerbOption] = {name: option for option in ALL for name in option.names}
