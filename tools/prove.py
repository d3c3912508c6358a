#!/usr/bin/env -S python3 -B
"""Proves the two programs of this repository, with every crate below them, and builds them; or the libraries for rt check.

usage: tools/prove.py [--jobs N]
       tools/prove.py [--jobs N] --libraries [CRATE]

A crate is started once those that it depends on are proved, the one with the longest way to the top first, and at most
N crates run at a time: as many as there are processors, and as memory has room for, unless N is given. What was proved,
and has not changed since, is not proved again.

Without --libraries each crate is one check from nothing, as in `rt ci`, whose copies share its functions; the crates
above read what it states. What is proved is kept in out/proved. The programs are crates/facl_cli/out/facl_cli and
crates/facl_linux_cli/out/facl_linux_cli.

With --libraries rt proves and builds CRATE (facl_cli) and all that it uses, so that rt check can begin there at once;
rt keeps it in the folder out of each crate. rt locks the folder of a crate and of every crate below it, so two crates
that depend on one could not be proved side by side. Each is therefore proved in a lane: a folder below out/ with hard
links to the files of the crate and of those below it. Its kept work is moved there and back. The crates are locked
meanwhile.

It prints to standard error how many crates are done, the minutes so far, and what it starts. What is printed of a crate
goes to out/logs/. The exit status is 0 if all is built, 1 if a crate is not proved, 2 if the words are others,
and 128 and the signal's number if it is interrupted; then no check runs on, and no lane is left.
"""
from __future__ import annotations

import argparse
import contextlib
import functools
import hashlib
import os
import shutil
import subprocess
import tempfile
from typing import Dict, Iterable, List, Set

from lib import lanes, script
from lib.kit import Kit, rt
from lib.script import TOP
from lib.side_by_side import OUT, Run, SideBySide, files_of, folder_of, lock
from ways import PROGRAM, PROGRAMS, Crates

TARGET = "x86_64-unknown-linux-gnu"
KEPT = os.path.join(OUT, "proved")


# --- the programs


def sums_of(crates: Crates, kit: Kit, wanted: Iterable[str]) -> Dict[str, str]:
    """For each of some crates a sum of the kit, of its files as they are now, and of those of all crates below it."""

    @functools.cache
    def sum_of(crate: str) -> str:
        found = hashlib.sha256(kit.version + crates.rows[crate].encode())
        for path in files_of(crate):
            with open(path, "rb") as file:
                found.update(repr((os.path.relpath(path, TOP), file.read())).encode())
        for used in crates.uses[crate]:
            found.update(sum_of(used).encode())
        return found.hexdigest()

    return {crate: sum_of(crate) for crate in wanted}


def sum_of_file(path: str) -> str:
    with open(path, "rb") as file:
        return hashlib.sha256(file.read()).hexdigest()


def sum_below(folder: str) -> str:
    """A sum of all files below a folder, with their names."""
    found = hashlib.sha256()
    for at, folders, names in os.walk(folder):
        folders.sort()
        for name in sorted(names):
            path = os.path.join(at, name)
            found.update(f"{os.path.relpath(path, folder)}\0{sum_of_file(path)}\0".encode())
    return found.hexdigest()


def built(program: str) -> str:
    """Where a program is built."""
    return os.path.join(TOP, "crates", program, "out", program)


def needed_by_programs(crates: Crates) -> Set[str]:
    return set().union(*map(crates.needed, PROGRAMS))


class Kept:
    """What was proved, each crate beside a sum of all that its check read, and one of what the check wrote."""

    def __init__(self, crates: Crates, kit: Kit) -> None:
        self.crates, self.kit = crates, kit
        self.sums = self.sums_now()

    def sums_now(self) -> Dict[str, str]:
        return sums_of(self.crates, self.kit, needed_by_programs(self.crates))

    def library(self, crate: str) -> str:
        return os.path.join(KEPT, crate + ".rlib")

    def text(self, crate: str) -> str:
        """What stands beside a crate that is proved: the sum of what its check read, and that of its library or program."""
        made = sum_of_file(built(crate)) if crate in PROGRAMS else sum_below(self.library(crate))
        return f"{self.sums[crate]} {made}"

    def has(self, crate: str) -> bool:
        """Whether a crate is proved as it is now."""
        if crate not in PROGRAMS and not os.path.isdir(self.library(crate)):
            return False
        try:
            with open(os.path.join(KEPT, crate + ".sum"), encoding="ascii") as text:
                return text.read() == self.text(crate)
        except FileNotFoundError:
            return False

    def all_of(self, wanted: Set[str]) -> Set[str]:
        """Those crates that are proved with all that they rest on: a library fits only those that it was built over."""
        proved = {crate for crate in wanted if self.has(crate)}
        return {crate for crate in proved if self.crates.needed(crate) <= proved}

    def note(self, crate: str) -> None:
        """Notes that a crate is proved, unless files that its check may have read changed since the script began."""
        if self.sums_now()[crate] != self.sums[crate]:
            raise script.Failed(f"files of {crate} or below it were changed while it was proved: run this again")
        with open(os.path.join(KEPT, crate + ".sum"), "w", encoding="ascii") as text:
            text.write(self.text(crate))

    def forget(self, crate: str) -> None:
        with contextlib.suppress(FileNotFoundError):
            os.remove(os.path.join(KEPT, crate + ".sum"))


class Build(Run):
    """The proof of one crate by the kit's prover, which then writes a library of what it states, or compiles."""

    def __init__(self, kept: Kept, crate: str, checks: int, nice: int) -> None:
        self.kept = kept
        kept.forget(crate)
        super().__init__(crate, nice, self.words(crate, checks), folder_of(crate))

    def words(self, crate: str, checks: int) -> List[str]:
        kit = self.kept.kit
        made = ["--toolchain", kit("toolchain"), "-o", built(crate) + ".o"]
        return [*kit.words("build", self.kept.crates, crate, KEPT), "--jobs", str(checks),
                *(made if crate in PROGRAMS else ["--statements", "-o", self.kept.library(crate)])]

    def end(self) -> None:
        super().end()
        if self.program.returncode == 0 and self.crate not in PROGRAMS:
            self.kept.note(self.crate)


def link(kit: Kit, program: str) -> None:
    """Links what was compiled of a program."""
    words = [kit("bin", "rattle-link"), "--target", TARGET, "--toolchain", kit("toolchain"),
             "-o", built(program), built(program) + ".o", kit("c", "libos_c.a"), kit("c", "liblibc_c.a")]
    ran = subprocess.run(words, stdin=subprocess.DEVNULL, capture_output=True, text=True, errors="replace")
    if ran.returncode:
        raise script.Failed(f"{program} is not linked: {ran.stdout}{ran.stderr}")


def build_programs(crates: Crates, jobs: int) -> int:
    for folder in (KEPT, *(os.path.dirname(built(program)) for program in PROGRAMS)):
        os.makedirs(folder, exist_ok=True)
    lock([KEPT])
    kept = Kept(crates, Kit())
    left = [program for program in PROGRAMS if not kept.has(program)]
    if not left:
        return 0
    wanted = needed_by_programs(crates)
    # A check that is shared takes more processor time: one where a crate with a longer way runs.
    proof = SideBySide(crates, wanted, jobs, 1, functools.partial(Build, kept))
    proof.done = kept.all_of(wanted)
    if not proof.all_proved():
        return 1
    for program in left:
        link(kept.kit, program)
        kept.note(program)
    return 0


# --- the libraries


class Lane(Run):
    """The proof of one crate by rt, in a folder of its own."""

    def __init__(self, crates: Crates, lanes: str, crate: str, checks: int, nice: int) -> None:
        self.top = os.path.join(lanes, crate)
        self.folder = os.path.join(self.top, "crates", crate)
        self.link(crates, crate)
        if os.path.isdir(folder_of(crate, "out")):
            os.rename(folder_of(crate, "out"), os.path.join(self.folder, "out"))
        command = "run" if os.path.exists(folder_of(crate, "src", "main.rt")) else "lib"
        try:
            super().__init__(crate, nice, ["rt", command, "--jobs", str(checks)], self.folder)
        except BaseException:
            self.move_back(crate)
            raise

    def link(self, crates: Crates, crate: str) -> None:
        """Links the files of the crates that are needed, but not the crate's own kept work, which is moved."""
        needed = crates.needed(crate)
        for name in needed:
            skipped = [folder_of(name)] if name == crate else []
            shutil.copytree(folder_of(name), os.path.join(self.top, "crates", name), copy_function=os.link,
                            ignore=lambda at, names, skipped=skipped: {"out"} if at in skipped else set())
        with open(os.path.join(self.top, "crates.txt"), "w", encoding="utf-8") as rows:
            rows.writelines(row + "\n" for name, row in crates.rows.items() if name in needed)

    def move_back(self, crate: str) -> None:
        """Moves the kept work back."""
        out = os.path.join(self.folder, "out")
        if os.path.isdir(out):
            os.rename(out, folder_of(crate, "out"))

    def end(self) -> None:
        """Ends the check if it runs, moves the kept work back, and removes the lane."""
        super().end()
        self.move_back(self.crate)
        shutil.rmtree(self.top)


def build_libraries(crates: Crates, jobs: int, crate: str) -> int:
    rt()
    wanted = crates.needed(crate)
    lock(map(folder_of, wanted))
    os.makedirs(OUT, exist_ok=True)
    with tempfile.TemporaryDirectory(prefix="lanes-", dir=OUT) as folder:
        return 0 if SideBySide(crates, wanted, jobs, 2, functools.partial(Lane, crates, folder)).all_proved() else 1


def main() -> int:
    crates = Crates()
    options = argparse.ArgumentParser(description=__doc__, formatter_class=argparse.RawDescriptionHelpFormatter)
    options.add_argument("--jobs", type=int, default=lanes.lanes(lanes.room()), metavar="N")
    options.add_argument("--libraries", nargs="?", const=PROGRAM, choices=crates.uses, metavar="CRATE")
    given = options.parse_args()
    if given.jobs < 1:
        options.error("--jobs: takes a number from 1 on")
    if given.libraries:
        return build_libraries(crates, given.jobs, given.libraries)
    return build_programs(crates, given.jobs)


if __name__ == "__main__":
    script.run(main)
