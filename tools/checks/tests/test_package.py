"""Tests of debian/prepare.sh and tools/package.sh in a small repository, with stand-ins of what proves and packages: what a
package says of itself, by git and without it, what is printed, and what is refused."""
from __future__ import annotations

import os
import shutil
import subprocess
import tempfile
import unittest
from pathlib import Path
from typing import Tuple

TOP = Path(os.path.realpath(__file__)).parents[3]
COPIED = ("debian/.gitignore", "debian/changelog", "debian/prepare.sh", "tools/lib/program.sh", "tools/package.sh")
# In the place of dpkg-buildpackage: it makes a package, or fails where its folder is named so.
BUILD = """\
#!/bin/sh
echo "$FACL_PROGRAM, $FACL_LINUX_PROGRAM, $*"
case $0 in */fails/*) exit 3 ;; esac
echo package >"$FACL_TO/facl_1_amd64.deb"
"""


class Package(unittest.TestCase):
    def setUp(self) -> None:
        folder = tempfile.TemporaryDirectory(prefix="facl-package-test.")
        self.addCleanup(folder.cleanup)
        self.work = Path(folder.name)
        self.top = self.work / "facl"
        for name in COPIED:
            (self.top / name).parent.mkdir(parents=True, exist_ok=True)
            shutil.copy(TOP / name, self.top / name)
        self.program("facl/tools/prove.py", '#!/bin/sh\necho proved >>"$0.done"\n')
        (self.top / ".gitignore").write_text("*.done\n")
        self.facl, self.linux = self.program("facl.elf", ""), self.program("facl_linux.elf", "")
        self.environment = {"PATH": os.environ["PATH"], "HOME": str(self.work), "GIT_CONFIG_NOSYSTEM": "1"}
        self.given = {"FACL_PROGRAM": self.facl, "FACL_LINUX_PROGRAM": self.linux}

    def program(self, name: str, text: str) -> str:
        path = self.work / name
        path.parent.mkdir(parents=True, exist_ok=True)
        path.write_text(text)
        path.chmod(0o755)
        return str(path)

    def commit(self, *days: str) -> None:
        """Makes a clone of commits on these days."""
        self.run_in_top("git", "init", "-q", ".")
        self.run_in_top("git", "add", ".")
        for number, day in enumerate(days):
            date = {"GIT_COMMITTER_DATE": f"{day}T12:00:00+0000", "GIT_AUTHOR_DATE": f"{day}T12:00:00+0000"}
            self.run_in_top("git", "-c", "user.name=Ines", "-c", "user.email=ines@example.org", "commit", "-q", "--allow-empty",
                            "-m", f"Change {number}", **date)

    def run_in_top(self, *words: str, **environment: str) -> Tuple[int, str, str]:
        done = subprocess.run(words, cwd=self.top, env={**self.environment, **environment}, stdin=subprocess.DEVNULL,
                              capture_output=True, text=True, check=False)
        return done.returncode, done.stdout, done.stderr

    def written(self, name: str) -> str:
        return (self.top / "debian" / name).read_text()

    def test_by_git(self) -> None:
        self.commit("2026-01-01", "2026-01-02", "2026-01-02")
        head = self.run_in_top("git", "rev-parse", "HEAD")[1].strip()
        self.assertEqual(self.run_in_top("debian/prepare.sh", **self.given), (0, "", ""))
        self.assertEqual(self.written("facl.changelog"), "facl (0.20260102.2) unstable; urgency=low\n\n  * Change 2\n  * Change 1\n"
                         "  * Change 0\n\n -- Ines <ines@example.org>  Fri, 2 Jan 2026 12:00:00 +0000\n")
        self.assertEqual(self.written("commit"), "The programs were given as they are, and are not known to be those that are "
                         f"proved at commit {head}.\n")
        self.assertFalse((self.top / "tools/prove.py.done").exists())
        self.assertEqual(self.run_in_top("debian/prepare.sh"), (0, "", ""))
        self.assertEqual(self.written("commit"), f"The programs were proved and built at commit {head}.\n")
        self.assertTrue((self.top / "tools/prove.py.done").exists())

    def test_without_git(self) -> None:
        self.assertEqual(self.run_in_top("debian/prepare.sh"), (0, "", ""))
        self.assertEqual(self.written("facl.changelog"), self.written("changelog"))
        version = self.written("changelog").split("(")[1].split(")")[0]
        self.assertEqual(self.written("commit"), f"The programs were proved and built at version {version}.\n")

    def test_refused(self) -> None:
        self.commit("2026-01-01")
        for names in ({"FACL_PROGRAM": "/nix"}, {"FACL_PROGRAM": self.facl}, {**self.given, "FACL_LINUX_PROGRAM": "/nix"}):
            status, _, said = self.run_in_top("debian/prepare.sh", **names)
            self.assertEqual((status, "no such program: give one that is built" in said), (2, True), said)
        (self.top / "new").write_text("")
        self.assertEqual(self.run_in_top("debian/prepare.sh"),
                         (2, "", "debian/prepare.sh: files are not as in the commit: commit them first\n"))
        (self.top / "new").unlink()
        self.program("facl/tools/prove.py", "#!/bin/sh\nexit 1\n")
        self.commit("2026-01-01")
        self.assertEqual(self.run_in_top("debian/prepare.sh"), (2, "", "debian/prepare.sh: facl is not built\n"))

    def make(self, *words: str, folder: str = "bin") -> Tuple[int, str, str]:
        """Runs tools/package.sh with stand-ins."""
        for name in ("dh", "dh_python3"):
            self.program(f"{folder}/{name}", "#!/bin/sh\n")
        self.program(f"{folder}/dpkg-buildpackage", BUILD)
        return self.run_in_top("tools/package.sh", *words, PATH=f"{self.work / folder}:{os.environ['PATH']}")

    def test_package(self) -> None:
        self.commit("2026-01-01")
        self.assertEqual(self.make("--program", self.facl, self.linux, ".."), (0, f"{self.work}/facl_1_amd64.deb\n", ""))
        self.assertEqual((self.work / "facl_1_amd64.deb").read_text(), "package\n")
        status, printed, said = self.make("--program", self.facl, self.linux, folder="fails")
        self.assertEqual((status, printed), (2, ""))
        self.assertEqual(said, f"{self.facl}, {self.linux}, -us -uc -b --rules-target=clean,binary,clean\n"
                         "tools/package.sh: dpkg-buildpackage fails\n")
        self.assertEqual(self.make()[:2], (0, f"{self.top}/facl_1_amd64.deb\n"))
        self.assertTrue((self.top / "tools/prove.py.done").exists())
        self.assertEqual(self.make(), (2, "", "tools/package.sh: files are not as in the commit: commit them first\n"))

    def test_words(self) -> None:
        for words, said in ((["--program", "one"], "--program: a FILE is missing"), (["a", "b"], "one DIR at most"),
                            (["nix"], f"{self.top}/nix: no such folder")):
            self.assertEqual(self.make(*words), (2, "", f"tools/package.sh: {said}\n"))
        self.assertEqual(self.make("--nix")[0], 2)
        tools = self.work / "tools"
        tools.mkdir()
        for name in ("sh", "realpath", "dirname"):
            (tools / name).symlink_to(str(shutil.which(name)))
        self.assertEqual(self.run_in_top("tools/package.sh", PATH=str(tools)),
                         (2, "", "tools/package.sh: dpkg-buildpackage is not installed\n"))


if __name__ == "__main__":
    unittest.main()
