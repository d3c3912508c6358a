"""What a verb says while it runs: at a terminal the step that it is at, and at a signal what this does."""
from __future__ import annotations

import os
import pty
import signal
import subprocess
import sys
import threading
import time
import unittest
from concurrent.futures import ThreadPoolExecutor
from typing import List
from unittest import mock

from common import COMMANDS, Done, read_all, restore_signals
from verb_case import VerbCase

from facl_commands.base.messages import Command
from facl_commands.base.programs import LINUX
from facl_commands.base.progress import AT, CLEAR, Progress
from facl_commands.verbs.running import Runs
from facl_commands.verbs.table import BY_VERB

SLOW = """\
#!/bin/sh
: >'%s'
sleep 2.6
exec %s "$@"
"""


class Text(unittest.TestCase):
    def shown(self, done: int, of: int, seconds: float, shares: int = 1) -> str:
        progress = Progress()
        progress.begin("changing", of, shares)
        progress.done = done
        with mock.patch("time.monotonic", return_value=progress.begun + seconds):
            return progress.text()

    def test_texts(self) -> None:
        self.assertEqual(self.shown(0, 0, 3.5), "changing, 3 s")
        self.assertEqual(self.shown(412_000, 1_000_000, 6), "changing: 412,000 of 1,000,000 files, 8 s left")
        self.assertEqual(self.shown(103_000, 1_000_000, 6, 4), "changing: 412,000 of 1,000,000 files, 8 s left")
        self.assertEqual(self.shown(300_000, 1_000_000, 6, 4), "changing: 1,000,000 of 1,000,000 files, 0 s left")
        self.assertEqual(self.shown(5_000, 0, 2), "changing: 5,000 files, 2,500 a second")

    def test_a_step_begins_once(self) -> None:
        progress = Progress()
        progress.at("loading")
        begun, progress.done = progress.begun, 3
        progress.at("loading")
        self.assertEqual((progress.begun, progress.done), (begun, 3))
        progress.at("answering")
        self.assertEqual(progress.done, 0)


class Running(VerbCase):
    def setUp(self) -> None:
        super().setUp()
        self.stored("new")
        self.write("slow", (SLOW % (self.path("begun"), LINUX.find())).encode())
        os.chmod(self.path("slow"), 0o755)
        self.words = ["who", "read", "--program", self.path("slow"), "--no-pager"]

    def started(self, words: List[str], messages: int) -> "subprocess.Popen[bytes]":
        return subprocess.Popen([sys.executable, "-I", os.path.join(COMMANDS, "facl-verbs"), *words],
                                stdin=subprocess.DEVNULL,
                                stdout=subprocess.PIPE, stderr=messages, cwd=self.folder, preexec_fn=restore_signals,
                                env={**os.environ, "FACL_STORE": self.store, "FACL_SNAPSHOT": "", "TERM": "xterm"})

    def with_messages_at_terminal(self, words: List[str]) -> Done:
        side, other = pty.openpty()
        reader = ThreadPoolExecutor(1).submit(read_all, side)
        run = self.started(words, other)
        os.close(other)
        out, _ = run.communicate()
        said = reader.result()
        os.close(side)
        return Done(run.returncode, out, said)

    def test_a_line_at_a_terminal(self) -> None:
        done = self.with_messages_at_terminal(self.words)
        self.assertEqual((done.status, done.out), (0, self.verb("who", "read").out))
        self.assertIn(CLEAR + b"facl who: loading, 2 s", done.messages)
        self.assertTrue(done.messages.endswith(CLEAR), done.messages)  # It is gone.

    def test_no_line(self) -> None:
        self.assertEqual(self.with_messages_at_terminal([*self.words, "-q"]).messages, b"")
        self.assertEqual(self.with_messages_at_terminal(["who", "read", "--no-pager"]).messages, b"")
        self.expect(self.verb(*self.words), 0, self.verb("who", "read").out)

    def test_a_signal(self) -> None:
        for number in (signal.SIGINT, signal.SIGTERM):
            run = self.started(self.words, subprocess.PIPE)
            while run.poll() is None and not os.path.exists(self.path("begun")):
                time.sleep(0.01)
            os.unlink(self.path("begun"))
            run.send_signal(number)
            out, said = run.communicate()
            self.assertEqual((run.returncode, out, said),
                             (128 + number, b"", b"facl who: interrupted; nothing was changed\n"))

    def test_putting_back(self) -> None:
        """A signal that waits while files are changed is answered at once."""
        runs = Runs(Command("facl apply"), BY_VERB["apply"])
        said: List[bytes] = []
        with mock.patch("os.write", side_effect=lambda _stream, text: said.append(text)):
            AT.begin("changing", 10_000, 4)
            AT.done = 802
            before = signal.pthread_sigmask(signal.SIG_BLOCK, {signal.SIGUSR1})
            try:
                runs.heed()
                self.assertEqual(said, [])
                os.kill(os.getpid(), signal.SIGUSR1)
                looks = threading.Thread(target=runs.heed)
                looks.start()
                looks.join()
                runs.heed()
            finally:
                signal.sigwait({signal.SIGUSR1})
                signal.pthread_sigmask(signal.SIG_SETMASK, before)
        self.assertEqual(said, [b"facl apply: interrupted; putting 3,208 files back\n"])


if __name__ == "__main__":
    unittest.main()
