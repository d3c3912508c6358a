"""What is decided never depends on what can be said: streams that are full, closed or broken."""
from __future__ import annotations

import os
import subprocess
import sys
import unittest
from typing import List, Tuple

from common import COMMANDS
from real import RealCase

FULL, CLOSED, BROKEN, FINE = ">/dev/full", ">&-", "|:", ""


class Streams(RealCase):
    def setUp(self) -> None:
        super().setUp()
        for name in ("a", "b", "c"):
            self.make(name)

    def run_with(self, words: List[str], out: str, err: str, text: bytes = b"") -> Tuple[int, bytes]:
        """Runs a command with other streams; returns its status, and what it said where that can be read."""
        quoted = " ".join("'%s'" % word for word in [sys.executable, "-I", *words])
        streams = (out if out != BROKEN else "") + " " + ("2" + err if err not in (FINE, BROKEN) else "")
        script = "%s %s; echo $? >status" % (quoted, streams)
        if BROKEN in (out, err):
            # Nobody reads: what is said goes to a pipe that ends at once.
            script = "{ sleep 0.2; %s %s%s; echo $? >status; } | :" % (quoted, "2>&1 " if err == BROKEN else "", streams)
        done = subprocess.run(["sh", "-c", script], cwd=self.folder, input=text, capture_output=True, check=False)
        return int(self.read("status")), done.stderr

    def apply_with(self, out: str, err: str, *options: str) -> int:
        status, said = self.run_with([os.path.join(COMMANDS, "facl-apply"), *options, "before.plan"], out, err)
        self.assertNotIn(b"Traceback", said)
        return status

    def test_done_and_not_said(self) -> None:
        for out, err in ((FULL, FINE), (CLOSED, FINE), (BROKEN, FINE), (FULL, FULL), (CLOSED, CLOSED), (BROKEN, BROKEN)):
            self.planned(b"chmod 600 " + self.word("a"))
            self.assertEqual((self.apply_with(out, err), self.mode("a")), (5, 0o600))
            self.assertEqual(self.read("before.plan/state"), b"applied\n")
            self.assertEqual((self.apply_with(out, err, "--undo"), self.mode("a")), (5, 0o640))

    def test_messages_alone(self) -> None:
        for err in (FULL, CLOSED, BROKEN):
            self.planned(b"chmod 600 " + self.word("a"))
            self.assertEqual((self.apply_with(FINE, err), self.mode("a")), (0 if err != BROKEN else 5, 0o600))
            self.assertEqual(self.apply_with(FINE, err), 3)
            self.assertEqual((self.apply_with(FINE, err, "--undo"), self.mode("a")), (0 if err != BROKEN else 5, 0o640))

    def test_not_done_and_not_said(self) -> None:
        for out, err in ((FINE, FULL), (FINE, CLOSED), (BROKEN, BROKEN), (FULL, FULL), (CLOSED, CLOSED)):
            self.planned(b"chmod 600 " + self.word("a") + b" " + self.word("b"))
            os.chmod(os.path.join(self.tree, "b"), 0o444)
            self.assertEqual((self.apply_with(out, err), self.mode("a"), self.mode("b")), (1, 0o640, 0o444))
            os.chmod(os.path.join(self.tree, "b"), 0o640)

    def test_a_plan(self) -> None:
        self.take_snapshot()
        self.write("edits", b"chmod 600 " + self.word("a") + b"\n")
        for out, err in ((FULL, FINE), (CLOSED, FINE), (BROKEN, FINE), (FULL, FULL), (CLOSED, CLOSED), (BROKEN, BROKEN)):
            status, said = self.run_with([os.path.join(COMMANDS, "facl-plan"), "before", "edits"], out, err)
            self.assertEqual((status, os.path.exists(self.path("before.plan/files")), said), (5, True, b""))
            self.write("refused", b"chmod 600 nowhere\n")
            status, _ = self.run_with([os.path.join(COMMANDS, "facl-plan"), "--plan", "other", "before", "refused"], out, err)
            self.assertEqual((status, os.path.exists(self.path("other"))), (1, False))

    def test_help_and_wrong_words(self) -> None:
        for name in ("facl-plan", "facl-apply", "facl-report", "facl-ask", "facl-who", "facl-diff"):
            for out, err in ((FULL, FULL), (CLOSED, CLOSED), (BROKEN, BROKEN)):
                status, said = self.run_with([os.path.join(COMMANDS, name), "--nothing"], out, err)
                self.assertIn(status, (2,) if name in ("facl-plan", "facl-apply") else (2, 141))
                self.assertEqual(said, b"")
                status, said = self.run_with([os.path.join(COMMANDS, name), "--help"], out, err)
                self.assertIn(status, (2, 5, 141))
                self.assertEqual(said, b"")


class Environment(RealCase):
    def test_modules_of_others_are_not_run(self) -> None:
        self.make("a")
        self.planned(b"chmod 600 " + self.word("a"))
        os.mkdir(self.path("modules"))
        for name in ("argparse", "json", "sitecustomize", "usercustomize"):
            self.write("modules/%s.py" % name, b"open('%s', 'w').close()\nraise SystemExit(77)\n" % os.fsencode(self.path("called")))
        environment = {**os.environ, "PYTHONPATH": self.path("modules"), "POSIXLY_CORRECT": "1", "PYTHONUSERBASE": self.path("modules")}
        done = subprocess.run([os.path.join(COMMANDS, "facl-apply"), "before.plan"], cwd=self.folder, env=environment,
                              capture_output=True, check=False)
        self.assertEqual((done.returncode, done.stdout), (0, b"changed 1 file\n"), done.stderr)
        self.assertFalse(os.path.exists(self.path("called")))


if __name__ == "__main__":
    unittest.main()
