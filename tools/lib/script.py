"""What all scripts do: they end in order when they are interrupted, report a fault in one line, and write what they
found into their row of docs/CHECKS.md."""
from __future__ import annotations

import datetime
import os
import signal
import subprocess
import sys
from types import FrameType
from typing import Callable, List, NoReturn, Optional

TOP = os.path.dirname(os.path.dirname(os.path.dirname(os.path.realpath(__file__))))
WITH_PEOPLE = os.path.join(TOP, "tools", "lib", "with_people.sh")  # Before a folder of people and a command.
PAGE = os.path.join(TOP, "docs", "CHECKS.md")
SIGNALS = (signal.SIGHUP, signal.SIGINT, signal.SIGTERM)


class Failed(Exception):
    """A fault that ends a script; its text is reported."""


def end(number: int, _: Optional[FrameType]) -> NoReturn:
    """Ends the script: what is open is closed, and no further signal interrupts that."""
    for each in SIGNALS:
        signal.signal(each, signal.SIG_IGN)
    sys.exit(128 + number)


def at_signals(handler: Callable[[int, Optional[FrameType]], object]) -> None:
    """Has a function called at signals that interrupt a script; but not at those that are ignored."""
    for each in SIGNALS:
        if signal.getsignal(each) is not signal.SIG_IGN:
            signal.signal(each, handler)


def name() -> str:
    """The path of the script in the repository; of a check with its name, as tools/check.py gives it."""
    return os.path.relpath(os.path.realpath(sys.argv[0]), TOP)


def say(text: str) -> None:
    """Prints a line about the script's work to standard error."""
    print(f"{name()}: {text}", file=sys.stderr, flush=True)


def commit() -> str:
    """The commit that the clone is at, with a `+` where files differ from it; `-` outside of a clone."""
    done = subprocess.run(["git", "-C", TOP, "describe", "--always", "--dirty=+", "--abbrev=8"],
                          capture_output=True, text=True, check=False)
    return done.stdout.strip() or "-"


def with_row(lines: List[str], cells: List[str]) -> List[str]:
    """The page's lines with this row in the place of the one of its first cell, or after the last row of the table."""
    row = "| " + " | ".join(cell.replace("|", "\\|").replace("\n", " ") for cell in cells) + " |"
    firsts = [line.split(" | ")[0] for line in lines]
    if row.split(" | ")[0] in firsts:
        at = firsts.index(row.split(" | ")[0])
        return [*lines[:at], row, *lines[at + 1:]]
    end = max((at for at, line in enumerate(lines) if line.startswith("|")), default=len(lines) - 1) + 1
    return [*lines[:end], row, *lines[end:]]


def record(amount: str, found: str, part: str = "") -> None:
    """Writes what the script that runs looked at, and what it found, into its row of the page. `part` is the option
    that chooses what it does, where it has a row for each."""
    today = datetime.datetime.now(datetime.timezone.utc).date().isoformat()
    with open(PAGE, encoding="utf-8") as page:
        lines = page.read().splitlines()
    with open(PAGE + ".new", "w", encoding="utf-8") as page:
        cells = [f"{name()} {part}".rstrip(), today, commit(), amount, found]
        page.write("\n".join(with_row(lines, cells)) + "\n")
    os.replace(PAGE + ".new", PAGE)


def run(main: Callable[[], int]) -> NoReturn:
    """Runs a script, which ends with the status that `main` returns, or with 1 and a line where it fails. A signal
    raises SystemExit in it, so that folders are removed and programs are ended."""
    at_signals(end)
    try:
        status = main()
    except Failed as fault:
        say(str(fault))
        status = 1
    sys.exit(status)
