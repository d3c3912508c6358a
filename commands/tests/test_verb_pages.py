"""The manual pages that are made of docs/pages: each verb has one, with all its options; troff warns of none."""
from __future__ import annotations

import os
import re
import shutil
import subprocess
import sys
import unittest

from common import COMMANDS

TOOLS = os.path.join(COMMANDS, "..", "tools")
sys.path[:0] = [COMMANDS, TOOLS]

import pages
from facl_commands.verbs.options import BY_FIELD
from facl_commands.verbs.table import VERBS

OTHERS = {"man1/facl.1", "man5/facl-script.5", "man5/facl-snapshot.5", "man5/facl-rules.5", "man5/facl-json.5",
          "man7/facl-security.7",
          "man7/facl-recipes.7", "man1/facl-commands.1"}
LEAST, MOST = 200, 1_200  # Words of a page of a verb.
MAN = ["groff", "-man", "-t", "-ww", "-z", "-Tutf8", "-rLL=100n"]


class Pages(unittest.TestCase):
    def setUp(self) -> None:
        self.pages = pages.pages("9.8")

    def test_each_verb_has_one(self) -> None:
        names = {verb.name: "man1/facl-%s.1" % verb.name.replace(" ", "-") for verb in VERBS}
        self.assertEqual(set(self.pages), {*names.values(), *OTHERS})
        for verb in VERBS:
            page = self.pages[names[verb.name]]
            text = page.replace("\\-", "-")
            for field in verb.options:
                self.assertIn("\\fB%s\\fR" % BY_FIELD[field].names[-1], text, verb.name)
            self.assertIn(LEAST <= pages.words_in(page) <= MOST, (True,), (verb.name, pages.words_in(page)))
            sections = re.findall(r"(?m)^\.SH (.*)", page)
            self.assertEqual(sections[:5], ["NAME", "SYNOPSIS", "EXAMPLE", "DESCRIPTION", "OPTIONS"], verb.name)
            self.assertEqual(sections[-2:], ["EXIT STATUS", "SEE ALSO"], verb.name)

    def test_the_entry_has_each_page(self) -> None:
        entry = self.pages["man1/facl.1"].replace("\\-", "-").replace("\\fB", "").replace("\\fR", "")
        for name in set(self.pages) - {"man1/facl.1", "man1/facl-commands.1"}:
            self.assertIn("%s(%s)" % (os.path.basename(name)[:-2], name[-1]), entry)

    def test_pages_that_are_named_are_there(self) -> None:
        known = {"%s(%s)" % (os.path.basename(name)[:-2], name[-1]) for name in self.pages} 
        for name, page in self.pages.items():
            if name not in ("man5/facl-script.5", "man1/facl-commands.1"):
                found = set(re.findall(r"\bfacl[a-z-]*\([157]\)",
                                       page.replace("\\-", "-").replace("\\fR", "").replace("\\fB", "")))
                self.assertEqual(found - known, set(), name)

    def test_examples_have_answers(self) -> None:
        for it in pages.texts():
            text = "\n".join(it.lines)
            for block in re.findall(r"(?ms)^```console\n(.*?)^```", text):
                self.assertTrue(re.search(r"(?m)^(?![$#>] )", block.rstrip("\n")) or "-q" in block, (it.name, block))

    @unittest.skipIf(shutil.which("groff") is None, "it takes groff")
    def test_troff_takes_them(self) -> None:
        for name in set(self.pages) - {"man1/facl-commands.1"}:  # Which has a table that is longer than a sheet.
            page = self.pages[name]
            done = subprocess.run(MAN, input=page.encode(), stdout=subprocess.DEVNULL, stderr=subprocess.PIPE,
                                  check=False)
            self.assertEqual((name, done.returncode, done.stderr), (name, 0, b""))


if __name__ == "__main__":
    unittest.main()
