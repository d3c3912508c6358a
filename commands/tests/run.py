#!/usr/bin/env python3
"""Runs all tests of the commands, by the programs that $FACL and $FACL_LINUX name, in as many processes as there are processors,
at most four; the last line is `N passed, M failed`. Where $ALL_TESTS is set, those that the gate leaves out too.

usage: run.py [FAULTS]      FAULTS: what was found before, counted with those that failed
"""
from __future__ import annotations

import io
import itertools
import multiprocessing
import os
import signal
import sys
import tempfile
import unittest
from typing import Iterator, List, NamedTuple

sys.dont_write_bytecode = True
HERE = os.path.dirname(os.path.realpath(__file__))
sys.path.insert(0, HERE)
TOOLS = os.path.join(HERE, "..", "..", "tools")
MOST_PROCESSES = 4
INTERRUPTED = 130
CLASSES: List[unittest.TestSuite] = []  # each with the tests of a class; processes have it from the one that loaded them


class Outcome(NamedTuple):
    """What the tests of a class did, and what was printed of them."""

    run: int
    skipped: int
    wrong: int
    text: str


def interrupt(_signal: int, _frame: object) -> None:
    """Ends as Ctrl-C does."""
    raise KeyboardInterrupt


def tests_of(suite: unittest.TestSuite) -> Iterator[unittest.TestCase]:
    """The tests in order."""
    for each in suite:
        if isinstance(each, unittest.TestSuite):
            yield from tests_of(each)
        else:
            yield each


def load_classes() -> None:
    """Fills CLASSES."""
    for folder, top in ((HERE, HERE), (os.path.join(TOOLS, "checks", "tests"), TOOLS)):
        tests = tests_of(unittest.TestLoader().discover(folder, top_level_dir=top))
        CLASSES.extend(unittest.TestSuite(of_class) for _class, of_class in itertools.groupby(tests, type))


def run_class(at: int) -> Outcome:
    """Runs the tests of a class, in a process of several. It ends at once where it is interrupted."""
    text = io.StringIO()
    try:
        result = unittest.TextTestRunner(text, verbosity=0).run(CLASSES[at])
    except KeyboardInterrupt:
        os._exit(INTERRUPTED)
    wrong = len(result.failures) + len(result.errors) + len(result.unexpectedSuccesses)
    return Outcome(result.testsRun, len(result.skipped), wrong, text.getvalue())


def run_all(faults: int) -> int:
    """The exit status."""
    load_classes()
    processes = min(MOST_PROCESSES, len(os.sched_getaffinity(0)))
    run = skipped = wrong = 0
    with multiprocessing.get_context("fork").Pool(processes) as pool:
        for outcome in pool.imap_unordered(run_class, range(len(CLASSES))):
            run, skipped, wrong = run + outcome.run, skipped + outcome.skipped, wrong + outcome.wrong
            if outcome.wrong:
                print(outcome.text, file=sys.stderr)
        pool.close()
        pool.join()
    print("ran %d tests of %d classes in %d processes, skipped %d" % (run, len(CLASSES), processes, skipped))
    failed = wrong + faults
    print("%d passed, %d failed" % (run - wrong - skipped, failed))
    return 1 if failed or not run else 0


def main() -> int:
    """Runs all with a folder for what tests make, of which nothing is left, also where it is interrupted."""
    for name in (signal.SIGTERM, signal.SIGHUP):
        signal.signal(name, interrupt)
    try:
        with tempfile.TemporaryDirectory(prefix="facl-commands-test.") as folder:
            os.chmod(folder, 0o755)
            tempfile.tempdir = folder
            return run_all(int(sys.argv[1]) if len(sys.argv) > 1 else 0)
    except KeyboardInterrupt:
        return INTERRUPTED


sys.exit(main())
