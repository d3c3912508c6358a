"""Tests of tools/quick.sh with an rt of its own, and of how it reads what tests print."""
from __future__ import annotations

import os
import shutil
import subprocess
import tempfile
import unittest
from pathlib import Path

from lib.script import TOP
from lib.quick import numbers

RT = """#!/bin/sh
case " $* " in *" --cases "*) echo "case=row_0 run=ended status=0 runners=1" >&2; exit;; esac
echo "test result: ${FOUND:-ok. 5 passed; 0 failed}; 0 ignored; 0 filtered out"
"""
ROW = "= an empty script\nsetup nothing\nscript\nstatus 0\n"
ROW_FILES = Path(TOP, "commands", "tests", "row_files.py").read_text("utf-8")
OK = "import unittest\nclass A(unittest.TestCase):\n    def test_a(self):\n        pass\n"


class Quick(unittest.TestCase):
    def test_numbers(self) -> None:
        self.assertEqual(numbers(0, "x\ntest result: ok. 31 passed; 0 failed; 0 ignored\nrun=ended\n"), (31, 0))
        self.assertEqual(numbers(1, "test result: FAILED. 30 passed; 1 failed; 0 ignored\n"), (30, 1))
        self.assertEqual(numbers(6, "test result: ok. 30 passed; 0 failed; 0 ignored\n"), (30, 1))
        self.assertEqual(numbers(0, "..\nRan 4 tests in 2s\n\nOK\n"), (4, 0))
        self.assertEqual(numbers(0, "..\nRan 4 tests in 2s\n\nOK (skipped=1)\n"), (3, 0))
        self.assertEqual(numbers(1, "..\nRan 9 tests in 2s\n\nFAILED (failures=2, errors=1, skipped=1)\n"), (5, 3))
        self.assertEqual(numbers(0, "nothing\n"), (0, 1))

    def test_all_parts(self) -> None:
        with tempfile.TemporaryDirectory(prefix="facl-quick-test.") as top:
            shutil.copytree(os.path.join(TOP, "tools"), os.path.join(top, "tools"),
                            ignore=lambda at, names: {"checks"} & {*names})
            for name, text in {"crates.txt": "low:\nlow_tests: low\n", "bin/rt": RT, "crates/low_tests/src/lib.rt": "x",
                               "crates/facl_cli/src/main.rt": "x", "commands/tests/rows/some.rows": ROW,
                               "commands/tests/rows/setups": "nothing\n", "commands/tests/row_files.py": ROW_FILES,
                               **{f"commands/tests/{name}.py": OK for name in ("test_completion", "test_layers", "test_snapshot")},
                               "tools/checks/__init__.py": "", "tools/checks/tests/__init__.py": "",
                               "tools/checks/tests/test_a.py": OK}.items():
                os.makedirs(os.path.join(top, os.path.dirname(name)), exist_ok=True)
                with open(os.path.join(top, name), "w", encoding="utf-8") as file:
                    file.write(text)
            os.chmod(os.path.join(top, "bin", "rt"), 0o755)
            environment = {**os.environ, "PATH": os.path.join(top, "bin") + ":" + os.environ["PATH"]}
            for found, status, last in (("ok. 5 passed; 0 failed", 0, "10 passed, 0 failed; nothing was proved"),
                                        ("FAILED. 3 passed; 2 failed", 1, "8 passed, 2 failed; nothing was proved")):
                ran = subprocess.run([os.path.join(top, "tools", "quick.sh")], env={**environment, "FOUND": found},
                                     capture_output=True, text=True, check=False)
                self.assertEqual((ran.returncode, ran.stdout.splitlines()[-1]), (status, last), ran.stdout + ran.stderr)


if __name__ == "__main__":
    unittest.main()
