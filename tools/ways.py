#!/usr/bin/env -S python3 -B
"""Counts the ways through crates.txt, which each command of rt pays for, and fails where they are too many.

usage: tools/ways.py [CRATES.TXT]

Before and after its work, rt asks for each crate below whether it is built. For that it goes to all crates below that
crate, once for each way of edges that leads there. It reads the files of a crate once, so what a command with nothing to
do takes is below a second while there are at most MAX_WAYS ways from one crate; a kit that reads them once for each way
takes minutes. A crate of tests, which nothing waits for, may have twice as many. A chain is the most crates that one way
has, which are proved one after another.

Prints for each crate how many crates it lists, how many are below it, its longest chain, and the ways from it. The exit
status is 1 if a crate has more ways than that, or a longer chain than MAX_CHAIN, and 2 if the words are others.
Other scripts read crates.txt by the class Crates.
"""
from __future__ import annotations

import argparse
import functools
import os
from typing import Dict, Set, Tuple

from lib import script

PROGRAM = "facl_cli"
PROGRAMS = (PROGRAM, "facl_linux_cli")
ROWS = os.path.join(script.TOP, "crates.txt")
MAX_WAYS = 700
MAX_CHAIN = 10


class Crates:
    """The rows of crates.txt. `listed` has for each crate all that its row lists, `uses` those of this repository."""

    def __init__(self, path: str = ROWS) -> None:
        self.rows: Dict[str, str] = {}
        self.listed: Dict[str, Set[str]] = {}
        with open(path, encoding="utf-8") as lines:
            for line in lines:
                row = line.split("#")[0].strip()
                if row:
                    head, _, tail = row.partition(":")
                    name = head.split()[0]
                    self.rows[name], self.listed[name] = row, set(tail.split())
        self.uses = {crate: sorted(used & set(self.listed)) for crate, used in self.listed.items()}

    def above(self, crate: str) -> int:
        """How many crates depend on it."""
        return sum(crate in self.needed(other) for other in self.uses if other != crate)

    def needed(self, crate: str) -> Set[str]:
        """The crate and all that it depends on."""
        found: Set[str] = set()
        left = [crate]
        while left:
            crate = left.pop()
            if crate not in found:
                found.add(crate)
                left += self.uses[crate]
        return found


def counts(crates: Crates) -> Dict[str, Tuple[int, int]]:
    """For each crate the ways from it, itself counted, and the crates of its longest chain."""

    @functools.cache
    def ways(crate: str) -> int:
        return 1 + sum(map(ways, crates.uses[crate]))

    @functools.cache
    def chain(crate: str) -> int:
        return 1 + max(map(chain, crates.uses[crate]), default=0)

    return {crate: (ways(crate), chain(crate)) for crate in crates.uses}


def main() -> int:
    options = argparse.ArgumentParser(description=__doc__, formatter_class=argparse.RawDescriptionHelpFormatter)
    options.add_argument("rows", nargs="?", default=ROWS, metavar="CRATES.TXT")
    crates = Crates(options.parse_args().rows)
    programs: Set[str] = set().union(*map(crates.needed, PROGRAMS))
    too_many = []
    print(f"{'crate':20} lists below chain  ways")
    for crate, (ways, chain) in counts(crates).items():
        print(f"{crate:20} {len(crates.uses[crate]):5} {len(crates.needed(crate)) - 1:5} {chain:5} {ways:5}")
        most = MAX_WAYS if crate in programs else 2 * MAX_WAYS
        if ways > most or chain > MAX_CHAIN:
            too_many.append(crate)
    if too_many:
        raise script.Failed(f"too many ways, or a chain of more than {MAX_CHAIN}: {' '.join(too_many)}")
    return 0


if __name__ == "__main__":
    script.run(main)
