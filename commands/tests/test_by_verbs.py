"""The tests of the commands that answer and plan, with a verb in the place of each line that one does."""
from __future__ import annotations

import importlib
import unittest
from typing import Dict, List, Optional

import by_verbs
from common import Case, Done, outside_the_gate

MODULES = ("test_who", "test_audit", "test_check", "test_diff", "test_report", "test_review", "test_no_gain", "test_owners")
# What verbs say otherwise, and why.
OTHERWISE: Dict[str, str] = {
    "test_who.Words.test_files_and_users": "a verb says which snapshot of the store has a path",
    "test_audit.Words.test_folders": "a verb says which snapshot of the store has a path",
    "test_who.Words.test_snapshots": "a verb names the store where there is no such snapshot",
    "test_audit.Words.test_words_that_are_wrong": "a verb names the store where there is no such snapshot",
    "test_diff.Snapshots.test_what_cannot_be_used": "a verb names the store where there is no such snapshot",
    "test_report.Report.test_other_snapshots": "a verb names the store where there is no such snapshot",
    "test_diff.Snapshots.test_the_same": "a verb compares no snapshot with itself",
    "test_check.WrongRules.test_no_rules": "without RULES a verb prints its usage",
}


class ByVerbs(Case):
    """Runs verbs in the place of commands."""

    def run_command(self, name: str, words: List[str], text: bytes = b"", environment: Optional[Dict[str, str]] = None) -> Done:
        line = by_verbs.line_of(name, words)
        if line is None:
            return super().run_command(name, words, text, environment)
        variables = {"FACL_STORE": self.path("no-store"), "FACL_SNAPSHOT": "", **(environment or {})}
        return by_verbs.as_command(name, line.verb, super().run_command("facl-verbs", line.words, text, variables))


def classes() -> Dict[str, type]:
    """A class for each of theirs."""
    found: Dict[str, type] = {}
    for module in MODULES:
        for name, its in vars(importlib.import_module(module)).items():
            if isinstance(its, type) and issubclass(its, Case) and its.__module__ == module:
                made = type("%s_%s" % (module, name), (ByVerbs, its), {"__module__": __name__})
                for test in unittest.TestLoader().getTestCaseNames(its):
                    why = OTHERWISE.get("%s.%s.%s" % (module, name, test))
                    if why is not None:
                        setattr(made, test, unittest.skip(why)(getattr(its, test)))
                found[made.__name__] = outside_the_gate(made)
    return found


def load_tests(loader: unittest.TestLoader, _tests: unittest.TestSuite, _pattern: Optional[str]) -> unittest.TestSuite:
    return unittest.TestSuite(loader.loadTestsFromTestCase(it) for it in classes().values())


if __name__ == "__main__":
    unittest.main()
