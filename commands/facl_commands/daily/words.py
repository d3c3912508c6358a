"""The words of facl-daily."""
from __future__ import annotations

import os
import re
from typing import List, NamedTuple

from ..base.messages import Failure
from ..base.option_words import NO_OPTION, read_options

USAGE = """\
usage: facl-daily [--folder DIR] [--keep COUNT] [--rules FILE] [--accepted FILE] [--weight WEIGHT] [--fail-on WEIGHT]
                  [--mail ADDRESS] [--split COUNT] [--snapshot OPTIONS] [--acl5] FOLDER..
"""
HELP = USAGE + """
Takes a snapshot of the FOLDERs by facl-snapshot, as DIR/YYYY-MM-DD, and says what there is to look at: what differs from
the snapshot before (facl diff), findings (facl audit), and rules that do not hold (facl check). Where there is nothing it
prints nothing, so that cron sends no mail. Run it as root, once a day.

  --folder DIR      where the snapshots are; without it /var/lib/facl. It is made, for root alone, where it is not there
  --keep COUNT      how many snapshots stay; without it 30. Older ones go, of those that it made: the file
                    made.by-facl-daily of DIR names them. Whatever else is in DIR stays
  --rules FILE      the rules of facl-check; without it none are checked
  --accepted FILE   the findings that are accepted, for facl-audit
  --weight WEIGHT   the least weight of the findings that are said: high, middle, which is so without it, or low. One that the
                    last run said is a line: the file found.by-facl-daily of DIR has these
  --fail-on WEIGHT  says the findings where one has this weight or a greater one: high, which is so without it, middle,
                    low, or none: no finding counts
  --mail ADDRESS    sends the text by sendmail in place of printing it, and a mail also where the command fails or is ended
                    by a signal
  --split COUNT     for a tree above the limit of one snapshot, 1,048,576 files: DIR/YYYY-MM-DD has parts of at most COUNT files,
                    by facl-snapshot --split. It may come and go from day to day
  --snapshot OPTIONS
                    options of facl-snapshot, with blanks between them: --snapshot '--exclude *.tmp --cross-file-systems'.
                    A file in them has its name from the root on
  --acl5            what is said is by acl(5)'s check, and not by what Linux grants
  --help            prints this
  --version         prints the version of facl

DIR has to belong to the caller, and nobody else may be able to write there or above it, but for directories above it that are
sticky. Of two runs at once the later one ends with status 2. A snapshot is kept, and the next one compared with it, only once
what changed was printed or mailed. What a run leaves that SIGKILL or a power failure ended, the next run removes, and says so.

The exit status is 0 if there is nothing to look at, 1 if there is, and 2 if the snapshot is not made, or
something could not be asked or sent; that is said too. A signal gives 128 and its number.
"""
OPTIONS = ("--folder", "--keep", "--rules", "--accepted", "--weight", "--fail-on", "--mail", "--split", "--snapshot")
ACL5 = "--acl5"
DEFAULTS = {"--folder": "/var/lib/facl", "--keep": "30", "--weight": "middle", "--fail-on": "high"}
WEIGHTS = ("high", "middle", "low", "none")
ADDRESS = re.compile(r"[A-Za-z0-9@._+][A-Za-z0-9@._+-]*")
HINT = "; facl daily --help prints the options"


class Words(NamedTuple):
    folder: str
    keep: int
    rules: str  # Empty without the option, as is the next one.
    accepted: str
    weight: str  # Of the findings that are said.
    fail_on: str
    address: str
    options: List[str]  # Of facl-snapshot.
    folders: List[str]
    judge: List[str]  # The option that says by which judge; empty without it.


def address_of(words: List[str]) -> str:
    """The address of a mail, also where other words are wrong; empty where there is none."""
    pairs = [*zip(words, words[1:]), *(tuple(it.split("=", 1)) for it in words if it.startswith("--mail="))]
    return next((it for option, it in reversed(pairs) if option == "--mail" and ADDRESS.fullmatch(it)), "")


def whole(name: str) -> str:
    """A name of a file from the root on, as the commands that read it are not in the caller's folder."""
    return os.path.join(os.getcwd(), name) if name else ""


def fault_of(last: "dict[str, str]", is_split: bool, folders: List[str]) -> str:
    """What is wrong with the values of options or with the FOLDERs; empty where they are right."""
    for is_wrong, text in (
            (not folders, "a FOLDER is missing, as in: facl daily /srv/project"),
            (not last["--folder"], "--folder: takes a word"),
            (not re.fullmatch("[1-9][0-9]{0,8}", last["--keep"]), f"--keep {last['--keep']}: is not a number of snapshots"),
            (last["--weight"] not in WEIGHTS[:-1], f"--weight {last['--weight']}: give high, middle or low"),
            (last["--fail-on"] not in WEIGHTS, f"--fail-on {last['--fail-on']}: give high, middle, low or none"),
            (is_split and not re.fullmatch("[1-9][0-9]{0,6}", last["--split"]),
             f"--split {last['--split']}: is not a number from 1 to 9999999"),
            (last["--mail"] and not ADDRESS.fullmatch(last["--mail"]), f"--mail {last['--mail']}: is not an address"),
            *((not it.startswith("/"), it + ": give a FOLDER from the root on") for it in folders)):
        if is_wrong:
            return text
    return ""


def fail(word: str, fault: str) -> Failure:
    return Failure(os.fsencode(word.partition("=")[0] + fault + HINT))


def read_words(words: List[str]) -> Words:
    values, folders = read_options(words, OPTIONS, (ACL5,), fail)
    if folders[:1] == ["-"] and words[: -len(folders)][-1:] != ["--"]:
        raise fail("-", NO_OPTION)
    last = {**dict.fromkeys(OPTIONS, ""), **DEFAULTS, **{option: its[-1] for option, its in values.items() if its}}
    fault = fault_of(last, bool(values["--split"]), folders)
    if fault:
        raise Failure(os.fsencode(fault))
    options = [*last["--snapshot"].split(), *["--split", last["--split"]] * bool(values["--split"])]
    return Words(whole(last["--folder"]), int(last["--keep"]), whole(last["--rules"]), whole(last["--accepted"]), last["--weight"],
                 last["--fail-on"], last["--mail"], options, folders, [ACL5] * bool(values[ACL5]))
