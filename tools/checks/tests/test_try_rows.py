"""Tests of tools/try_rows.py with an rt of its own, which answers by what stands in the script of each case."""
from __future__ import annotations

import os
import shutil
import subprocess
import tempfile
import unittest

from lib.script import TOP

# It says of a case what rt says. A script has in its first line how it ends, and then what is printed on both streams.
RT = """#!/bin/sh
while [ "$1" != --cases ]; do shift; done
cd "$2" || exit
shift 2
echo "$*" >"$NOTES"
for script in row_?; do
    echo "== $script"
    sed -n "s/^out //p" "$script"
    sed -n "s/^err //p" "$script" >&2
    echo "case=$script run=$(head -n 1 "$script") runners=1 proved=no" >&2
    cat "$script.args" >>"$NOTES"
done
"""
ROW = "= %s\nsetup %s\nscript\n|%s\nout\n|a\n|b\nerr\n|line 1: x\nstatus 1\n"
SAID = "ended status=1\n|out a\n|out b\n|err line 1: x"


class TryRows(unittest.TestCase):
    def setUp(self) -> None:
        folder = tempfile.TemporaryDirectory(prefix="facl-try-rows-test.")
        self.addCleanup(folder.cleanup)
        self.top = folder.name
        shutil.copytree(os.path.join(TOP, "tools"), self.path("tools"), ignore=lambda at, names: {"checks"} & {*names})
        self.write("commands/tests/rows/setups", "nothing\nfew a.passwd b.dump\n")
        self.write("crates/facl_cli/src/main.rt", "")
        self.write("bin/rt", RT)
        os.chmod(self.path("bin/rt"), 0o755)
        shutil.copy(os.path.join(TOP, "commands", "tests", "row_files.py"), self.path("commands/tests"))

    def path(self, name: str) -> str:
        return os.path.join(self.top, name)

    def write(self, name: str, text: str) -> None:
        os.makedirs(os.path.dirname(self.path(name)), exist_ok=True)
        with open(self.path(name), "w", encoding="utf-8") as file:
            file.write(text)

    def run_rows(self) -> subprocess.CompletedProcess[str]:
        environment = {**os.environ, "PATH": self.path("bin") + ":" + os.environ["PATH"], "NOTES": self.path("notes")}
        return subprocess.run([self.path("tools/try_rows.py")], env=environment, capture_output=True, text=True, check=False)

    def test_answers(self) -> None:
        for old, new in (("a", "a"), ("=1", "=0"), ("ended status=1", "fault"), ("ended status=1", "no-answer"), ("out a", "out c"),
                         ("out b", "out b\n|out d"), ("|out a\n", ""), ("err", "out"), ("err", ""), ("1: x", "2: x")):
            said, is_right = SAID.replace(old, new, 1), old == new
            self.write("commands/tests/rows/some.rows", ROW % ("a b", "nothing", SAID) + ROW % ("c", "nothing", said))
            ran = self.run_rows()
            ends = [line for line in ran.stdout.splitlines() if line.startswith("test ")]
            self.assertEqual((ran.returncode, ends), (int(not is_right), [
                "test some: a b ... ok", f"test some: c ... {'ok' if is_right else 'FAILED'}",
                f"test result: {'ok. 2 passed; 0' if is_right else 'FAILED. 1 passed; 1'} failed; nothing was proved"]), said)
            self.assertEqual("-- wanted\nout\n|a\n|b\nerr\n|line 1: x\nstatus 1\n" in ran.stdout, not is_right)

    def test_texts(self) -> None:
        self.write("commands/tests/rows/some.rows", ROW % ("a", "few", SAID))
        self.assertEqual(self.run_rows().returncode, 0)
        with open(self.path("notes"), encoding="utf-8") as file:
            texts = self.path("commands/tests/rows/texts")
            self.assertEqual(file.read(), f"--data a.passwd={texts}/a.passwd --data b.dump={texts}/b.dump\n"
                                          "--passwd\na.passwd\n--dump\nb.dump\n")

    def test_no_answer(self) -> None:
        self.write("commands/tests/rows/some.rows", ROW % ("a", "nothing", SAID))
        self.write("bin/rt", "#!/bin/sh\necho 'run=none proved=no' >&2\nexit 2\n")
        ran = self.run_rows()
        self.assertEqual((ran.returncode, ran.stdout), (1, ""))
        self.assertEqual(ran.stderr, "run=none proved=no\ntools/try_rows.py: no answer to 1 of 1 rows\n")


if __name__ == "__main__":
    unittest.main()
