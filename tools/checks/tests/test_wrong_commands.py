"""Tests of tools/check.py wrong_commands, over commands of its own."""
from __future__ import annotations

import os
import shutil
import subprocess
import sys
import tempfile
import unittest
from typing import Dict, List, Tuple

TOP = os.path.realpath(os.path.join(os.path.dirname(os.path.realpath(__file__)), "..", "..", ".."))
COPIED = ("tools/check.py", *(f"tools/checks/{name}.py" for name in ("__init__", "wrong_commands")),
          *(f"tools/lib/{name}.py" for name in ("__init__", "command_edits", "script", "wrong_bodies")))
TESTS = """\
import sys
import unittest
sys.path.insert(0, "..")
from facl_commands.a import x
class A(unittest.TestCase):
    def test_x(self): self.assertEqual(x, 1)
    def test_nothing(self): pass
    @unittest.skip("why")
    def test_left_out(self): pass
"""
EDIT = "test: test_a.A.%s\nfile: facl_commands/a.py\nold: x = 1\nnew: %s\n"


class WrongCommands(unittest.TestCase):
    def setUp(self) -> None:
        folder = tempfile.TemporaryDirectory(prefix="facl-tools-test.")
        self.addCleanup(folder.cleanup)
        self.top = folder.name
        for name in COPIED:
            os.makedirs(os.path.dirname(os.path.join(self.top, name)), exist_ok=True)
            shutil.copy(os.path.join(TOP, name), os.path.join(self.top, name))
        self.write({"commands/facl_commands/__init__.py": "", "commands/facl_commands/a.py": "x = 1\n", "commands/tests/test_a.py": TESTS})

    def write(self, texts: Dict[str, str]) -> None:
        for name, text in texts.items():
            os.makedirs(os.path.dirname(os.path.join(self.top, name)), exist_ok=True)
            with open(os.path.join(self.top, name), "w", encoding="utf-8") as file:
                file.write(text)

    def edits(self, **tests: Tuple[str, str]) -> None:
        self.write({f"commands/tests/wrong/{name}.edit": EDIT % it for name, it in tests.items()})

    def run_all(self, *words: str) -> Tuple[int, List[str]]:
        done = subprocess.run([sys.executable, "-B", os.path.join(self.top, COPIED[0]), "wrong_commands", *words], capture_output=True, text=True, check=False)
        return done.returncode, done.stdout.splitlines()

    def test_each_is_tried_alone(self) -> None:
        self.edits(broken=("test_x", "x = "), seen=("test_x", "x = 2"), unseen=("test_nothing", "x = 2"))
        self.assertEqual(self.run_all(), (1, [
            "NO PYTHON  broken: test_a.A.test_x", "fails  seen: test_a.A.test_x", "PASSES  unseen: test_a.A.test_nothing", "1 passed, 2 failed"]))
        self.assertEqual(self.run_all("see"), (1, ["fails  seen: test_a.A.test_x", "PASSES  unseen: test_a.A.test_nothing", "1 passed, 1 failed"]))
        with open(os.path.join(self.top, "commands/facl_commands/a.py"), encoding="utf-8") as file:
            self.assertEqual(file.read(), "x = 1\n")

    def test_a_test_that_is_left_out(self) -> None:
        self.edits(it=("test_left_out", "x = 2"), seen=("test_x", "x = 2"))
        self.assertEqual(self.run_all(), (0, ["left out  it: test_a.A.test_left_out", "fails  seen: test_a.A.test_x", "1 passed, 0 failed"]))

    def test_a_test_that_does_not_pass(self) -> None:
        self.edits(it=("test_absent", "x = 2"))
        self.assertEqual(self.run_all(), (1, []))


if __name__ == "__main__":
    unittest.main()
