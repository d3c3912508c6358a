"""The kit whose rt is installed, what its prover is told of a crate, what `rt ci` says of one, and rooms for programs that are
kept as text."""
from __future__ import annotations

import os
import re
import shutil
import subprocess
from pathlib import Path
from typing import List, Set

from ways import PROGRAMS, Crates
from . import script

# What `rt ci` says of a crate whose library, or program, then stands in its out/: proved by this run or by an earlier one.
PROVED = re.compile(r"^rt: (\w+) (?:proved$|is kept: )", re.MULTILINE)


def proved(said: str) -> Set[str]:
    """The crates that are proved by what `rt ci` has said so far."""
    return {*PROVED.findall(said)}


def rt() -> str:
    path = shutil.which("rt")
    if not path:
        raise script.Failed("rt is not installed: README names the kit")
    return path


class Kit:
    """The kit whose rt is installed."""

    def __init__(self) -> None:
        self.folder = os.path.dirname(os.path.dirname(os.path.realpath(rt())))
        self.version = subprocess.run([rt(), "version"], check=True, capture_output=True).stdout

    def __call__(self, *inner: str) -> str:
        return os.path.join(self.folder, *inner)

    def words(self, command: str, crates: Crates, crate: str, libraries: str) -> List[str]:
        """The words that have the prover do `command` with a crate, in the crate's folder, over what stands in the folder
        `libraries` of those crates that it uses."""
        words = [self("bin", "rattle"), command, "--crate-name", crate, f"src/{'main' if crate in PROGRAMS else 'lib'}.rt",
                 "-L", f"dependency={self('rlibs')}", "-L", f"dependency={libraries}"]
        for used in sorted(crates.listed[crate] | {"std"}):
            library = os.path.join(libraries, used + ".rlib") if used in crates.uses else self("rlibs", used + ".rlib")
            words += ["--extern", f"{used}={library}"]
        return [*words, "--antt-project", self("rattle", "logic", "antt-project.json"), "--logic-built", self("logic_built")]


def make_room(room: str, name: str, uses: List[str], text: str, proved: bool) -> str:
    """Copies the crates that a program is made of into a folder, with what is `proved` of them or without it, and beside
    them the program's main.rt from the path `text`. Returns the program's folder, where rt may run."""
    crates = Crates()
    needed: Set[str] = set().union(*map(crates.needed, uses))
    for crate in needed:
        left_out = None if proved else shutil.ignore_patterns("out")
        shutil.copytree(os.path.join(script.TOP, "crates", crate), os.path.join(room, "crates", crate), ignore=left_out)
    folder = os.path.join(room, "crates", name)
    os.makedirs(os.path.join(folder, "src"))
    shutil.copy(text, os.path.join(folder, "src", "main.rt"))
    rows = [row for crate, row in crates.rows.items() if crate in needed] + [f"{name}: {' '.join(uses)}"]
    Path(room, "crates.txt").write_text("\n".join(rows) + "\n", encoding="utf-8")
    return folder
