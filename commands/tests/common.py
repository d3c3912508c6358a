"""What the tests have in common: a snapshot of their own, and runs of the commands over it."""
from __future__ import annotations

import fcntl
import os
import pty
import shutil
import signal
import subprocess
import sys
import tempfile
import termios
import unittest
from concurrent.futures import ThreadPoolExecutor
from typing import Dict, List, NamedTuple, Optional

HERE = os.path.dirname(os.path.realpath(__file__))
COMMANDS = os.path.dirname(HERE)
sys.path.insert(0, COMMANDS)  # Modules of the commands can be imported once this one is.

# A test of what takes time, or of when other processes of the system do something: tools/check_commands.sh --all has it too.
outside_the_gate = unittest.skipUnless("ALL_TESTS" in os.environ, "only with --all")


def restore_signals() -> None:
    """In a child: signals end it, also where the tests run in the background, with SIGINT and SIGQUIT ignored."""
    for number in (signal.SIGHUP, signal.SIGINT, signal.SIGQUIT, signal.SIGTERM):
        signal.signal(number, signal.SIG_DFL)


def take_terminal() -> None:
    """In a child whose standard input is a terminal: makes that the one whose keys send it signals."""
    restore_signals()
    os.setsid()
    fcntl.ioctl(0, termios.TIOCSCTTY, 0)


class Done(NamedTuple):
    status: int
    out: bytes
    messages: bytes


def read_all(side: int) -> bytes:
    """What comes to a terminal until its other side is closed, of which Linux makes an error."""
    found = b""
    try:
        while True:
            piece = os.read(side, 65536)
            if not piece:
                return found
            found += piece
    except OSError:
        return found


class Case(unittest.TestCase):
    """A test in a folder of its own, with a copy of the stored snapshot as `before`."""

    def setUp(self) -> None:
        self.folder = tempfile.mkdtemp(prefix="facl-commands-test.")
        self.addCleanup(shutil.rmtree, self.folder)
        shutil.copytree(os.path.join(HERE, "snapshots", "share"), self.path("before"))

    def path(self, name: str) -> str:
        return os.path.join(self.folder, name)

    def write(self, name: str, text: bytes) -> None:
        with open(self.path(name), "wb") as file:
            file.write(text)

    def read(self, name: str) -> bytes:
        with open(self.path(name), "rb") as file:
            return file.read()

    def run_command(self, name: str, words: List[str], text: bytes = b"", environment: Optional[Dict[str, str]] = None) -> Done:
        words = [sys.executable, "-I", os.path.join(COMMANDS, name), *words]
        done = subprocess.run(
            words, input=text, capture_output=True, cwd=self.folder, env={**os.environ, **(environment or {})}, check=False
        )
        return Done(done.returncode, done.stdout, done.stderr)

    def at_terminal(self, name: str, words: List[str], environment: Optional[Dict[str, str]] = None, text: bytes = b"") -> Done:
        """Runs a command whose standard output is a terminal."""
        side, other = pty.openpty()
        attributes = termios.tcgetattr(other)
        attributes[1] &= ~termios.OPOST
        termios.tcsetattr(other, termios.TCSANOW, attributes)
        reader = ThreadPoolExecutor(1).submit(read_all, side)
        words = [sys.executable, "-I", os.path.join(COMMANDS, name), *words]
        done = subprocess.run(words, input=text, stdout=other, stderr=subprocess.PIPE, cwd=self.folder, check=False,
                              env={**os.environ, "TERM": "xterm", **(environment or {})})
        os.close(other)
        out = reader.result()
        os.close(side)
        return Done(done.returncode, out, done.stderr)

    def plan(self, script: bytes, *options: str) -> Done:
        """Runs facl-plan over the snapshot and a script of this text."""
        self.write("edits", script)
        return self.run_command("facl-plan", [*options, "before", "edits"])

    def expect(self, done: Done, status: int, out: bytes, messages: bytes = b"") -> None:
        self.assertEqual((done.status, done.out, done.messages), (status, out, messages))
