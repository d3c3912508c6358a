"""Compares a program that the gate has built with the one that tools/prove.py builds of these files, byte for byte.

usage: tools/check.py same_program PROGRAM [--record]

PROGRAM is crates/facl_cli/out/facl_cli of a clone in which .ci/run has passed, at the commit that this one is at. The exit
status is 1 if the two differ or a crate is not proved, 2 if the words are others.
"""
from __future__ import annotations

import argparse
import hashlib
import os
import subprocess
from pathlib import Path

from lib.script import TOP, Failed, record, say
from ways import PROGRAM

BUILT = os.path.join(TOP, "crates", PROGRAM, "out", PROGRAM)


def read(path: str) -> bytes:
    try:
        return Path(path).read_bytes()
    except OSError as fault:
        raise Failed(f"{path}: {fault.strerror}") from None


def prove() -> bytes:
    """The program as tools/prove.py builds it."""
    if subprocess.run([os.path.join(TOP, "tools", "prove.py")], stdin=subprocess.DEVNULL, check=False).returncode:
        raise Failed("tools/prove.py has built no program")
    return read(BUILT)


def main() -> int:
    options = argparse.ArgumentParser(description=__doc__, formatter_class=argparse.RawDescriptionHelpFormatter)
    options.add_argument("program", metavar="PROGRAM")
    options.add_argument("--record", action="store_true")
    given = options.parse_args()
    if os.path.realpath(given.program) == os.path.realpath(BUILT):
        options.error("PROGRAM: is where tools/prove.py builds its own: give the one of another clone")
    gate, own = read(given.program), prove()
    found = "the same bytes" if gate == own else "they differ"
    say(f"{len(gate)} and {len(own)} bytes, {hashlib.sha256(own).hexdigest()[:16]}: {found}")
    if given.record:
        record(f"two programs of {len(own)} bytes", found)
    return 0 if gate == own else 1
