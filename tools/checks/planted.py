"""Has the prover try bugs that were planted by hand, each in the body of one function: which of them do the contracts let through?

usage: tools/check.py planted [--jobs N] [--record] [CRATE | CRATE/BUG]..

planted.txt has the bugs: the function, the lines as in an edit of crates/NAME/wrong/ (tools/lib/wrong_bodies.py), what a caller
would see, and a guess by somebody who read the clauses: refused or accepted. Bugs of different functions are made in one copy of
their crate, over the libraries that tools/prove.py proved, and these functions alone are checked, after the functions as they are
(tools/edits.py).

Prints a line for each bug: refused, or accepted with what a caller would see, or not tried and why. The exit status is 1 if one
is accepted that was guessed to be refused, or is not tried, 2 if the words are others.
"""
from __future__ import annotations

import argparse
import collections
import tempfile
from pathlib import Path
from typing import Counter, Dict, List, NamedTuple, Tuple

from edits import Gate, Proved, Trial, chosen
from lib import lanes
from lib.kit import Kit
from lib.script import Failed
from lib.session import conclude
from lib.side_by_side import folder_of
from lib.wrong_bodies import Fault, WrongBody, edited
from ways import Crates

BUGS = Path(__file__).with_suffix(".txt")
REFUSED, ACCEPTED, NOT_TRIED = "refused", "accepted", "not tried"


class Bug(NamedTuple):
    """A bug, and what the file says of it."""

    body: WrongBody
    what: str
    guess: str


def read_bug(block: str) -> Bug:
    """The bug of a block of lines, each a word, a colon and a text. Fails where it does not apply any more."""
    lines: List[Tuple[str, str]] = [(word, text[1:]) for word, _, text in (it.partition(":") for it in block.split("\n"))]
    said: Dict[str, str] = dict(lines)
    crate, _, name = said["bug"].partition("/")
    texts = edited(lines, folder_of(crate))
    return Bug(WrongBody(crate, name, said["function"], lines, texts), said["what"], said["guess"])


def read_bugs(words: List[str]) -> List[Bug]:
    """The bugs of these crates or of these labels, or all."""
    wanted, found = chosen(words), []
    for block in BUGS.read_text(encoding="utf-8").strip("\n").split("\n\n"):
        label = block.partition("\n")[0].partition(": ")[2]
        try:
            found += [read_bug(block)] if wanted(label) else []
        except Fault as fault:
            raise Failed(f"{label}: {fault}") from fault
    if not found:
        raise Failed(f"no bug is called {' or '.join(words)}")
    return found


class Planting(Gate):
    """The trials of the bugs, and what became of each."""

    def __init__(self, crates: Crates, bugs: List[Bug]) -> None:
        super().__init__(crates)
        self.bugs = {bug.body.label: bug for bug in bugs}
        self.counts: Counter[str] = collections.Counter()
        self.faults: List[str] = []
        for crate in crates.rows:
            bodies = [bug.body for bug in bugs if bug.body.crate == crate]
            if bodies:
                self.trials.append(Trial(crate, crates.needed(crate) - {crate}, bodies))

    def say(self, label: str, is_refused: bool, text: str) -> None:
        bug = self.bugs[label]
        is_proved = text == f"NOT REFUSED: {bug.body.function} is proved with this edit"
        kind = REFUSED if is_refused else ACCEPTED if is_proved else NOT_TRIED
        self.counts[kind] += 1
        if kind == NOT_TRIED or kind == ACCEPTED and bug.guess == REFUSED:
            self.faults.append(f"{label} is {kind}")
        print(f"{kind}  {label}: {bug.what if is_proved else text}", flush=True)


def main() -> int:
    options = argparse.ArgumentParser(description=__doc__, formatter_class=argparse.RawDescriptionHelpFormatter)
    options.add_argument("--jobs", type=int, default=lanes.lanes(lanes.room()), metavar="N")
    options.add_argument("--record", action="store_true")
    options.add_argument("names", nargs="*", metavar="CRATE | CRATE/BUG")
    given = options.parse_args()
    if given.jobs < 1:
        options.error("--jobs takes a number from 1 on")
    crates, kit = Crates(), Kit()
    planting = Planting(crates, read_bugs(given.names))
    with tempfile.TemporaryDirectory(prefix="facl-planted.") as work:
        planting.run(Proved(crates, kit), kit, given.jobs, work)
    amount = ", ".join(f"{planting.counts[kind]} {kind}" for kind in (REFUSED, ACCEPTED, NOT_TRIED))
    return conclude(given, f"{sum(planting.counts.values())} bugs: {amount}", planting.faults)
