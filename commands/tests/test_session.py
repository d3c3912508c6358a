"""A session with programs that refuse many lines, stop reading, end, close a stream or never answer, played by
stand-ins."""
from __future__ import annotations

import contextlib
import os
import signal
import subprocess
import sys
import time
import unittest
from types import FrameType
from typing import Iterator, Optional
from unittest import mock

from common import COMMANDS, Case, restore_signals

from facl_commands.base.messages import Failure
from facl_commands.program import session as sessions
from facl_commands.program.session import Session

HEAD = b"""\
#!%s -IS
import os, sys, time
def answer(lines):
    for number, line in enumerate(lines, 1):
        tool, _, word = line.rstrip(b"\\n").partition(b" ")
        os.write(2, b"line %%d: %%s: %%s: %%s\\n" %% (number, tool, word, b"no such file" if tool == b"getfacl" else b"usage"))
def refuse():
    answer(sys.stdin.buffer)
def play_for(seconds):
    place = os.path.dirname(sys.argv[0])
    with open(place + "/at_work", "w") as file:
        file.write(str(os.getpid()))
    os.rename(place + "/at_work", place + "/process")
    time.sleep(seconds)
    os._exit(0)
"""
REFUSES = b"refuse()\n"


@contextlib.contextmanager
def within(seconds: int) -> Iterator[None]:
    """Fails where what it has takes longer."""

    def late(_number: int, _frame: Optional[FrameType]) -> None:
        raise AssertionError("it hangs")

    before = signal.signal(signal.SIGALRM, late)
    signal.alarm(seconds)
    try:
        yield
    finally:
        signal.alarm(0)
        signal.signal(signal.SIGALRM, before)


class StandIns(Case):
    def stand_in(self, body: bytes) -> str:
        self.write("program", HEAD % os.fsencode(sys.executable) + body)
        os.chmod(self.path("program"), 0o755)
        return self.path("program")

    def session(self, body: bytes) -> Session:
        return Session(self.stand_in(body), os.fsencode(self.path("before")))

    def expect_gone(self, process: int) -> None:
        last = time.monotonic() + 30
        while os.path.exists("/proc/%d" % process):
            self.assertLess(time.monotonic(), last)
            time.sleep(0.02)


class ManyLines(StandIns):
    def test_refused_lines_that_are_sent_at_once(self) -> None:
        with within(60), self.session(REFUSES) as session:
            for count in (1, 6_000, 100_000):
                messages = session.ask(b"frob %d\n" % count * count).messages
                self.assertEqual(messages, [b"frob: %d: usage" % count] * count)
            self.assertEqual(session.ask(b"").messages, [])

    def test_a_program_that_reads_late(self) -> None:
        with within(60), self.session(b"time.sleep(0.5)\n" + REFUSES) as session:
            self.assertEqual(len(session.ask(b"frob x\n" * 200_000).messages), 200_000)

    def test_a_program_that_answers_late(self) -> None:
        slow = b"lines = [sys.stdin.buffer.readline() for _ in range(2)]\ntime.sleep(1)\nanswer(lines)\n"
        with within(60), mock.patch.object(sessions, "SILENCE", 0.1), self.session(slow) as session:
            self.assertEqual(session.ask(b"frob x\n").messages, [b"frob: x: usage"])

    def test_a_long_message(self) -> None:
        with within(60), self.session(b"os.write(2, b'x' * 2_000_000 + b'\\n')\n" + REFUSES) as session:
            self.assertEqual(list(map(len, session.ask(b"").messages)), [2_000_000])


class FalsePrograms(StandIns):
    """Each fault ends the session with a message, and the program with it."""

    def expect_failure(self, body: bytes, text: bytes, lines: bytes = b"frob x\n" * 100_000, silence: float = 0.2) -> None:
        with within(60), self.assertRaises(Failure) as raised, mock.patch.object(sessions, "SILENCE", silence):
            with self.session(body) as session:
                session.ask(lines)
        self.assertEqual(raised.exception.text, text)
        self.assertIsNotNone(session.process.returncode)

    def test_ends(self) -> None:
        self.expect_failure(b"", b"the program ended early: status 0")
        self.expect_failure(b"sys.exit(7)\n", b"the program ended early: status 7", b"")
        self.expect_failure(b"os.read(0, 10)\nos.write(2, b'facl: write fault\\n')\nsys.exit(2)\n", b"the program ended early: facl: write fault")
        self.expect_failure(b"for _ in range(10): sys.stdin.buffer.readline()\nos.kill(os.getpid(), 9)\n", b"the program ended early: status -9")
        self.expect_failure(b"os.write(2, b'a line without end')\n", b"the program ended early: a line without end")

    def test_closes_a_stream_and_goes_on(self) -> None:
        went_on = b"the program ended early: it closed its standard input or error, and went on"
        self.expect_failure(b"os.close(2)\ntime.sleep(1000)\n", went_on)
        self.expect_failure(b"os.close(2)\nsys.exit(4)\n", b"the program ended early: status 4", silence=30)
        self.expect_failure(b"os.read(0, 10)\nos.close(0)\ntime.sleep(1000)\n", went_on)

    def test_a_child_keeps_standard_error(self) -> None:
        child = b"if os.fork() == 0:\n    os.close(0)\n    play_for(100)\n"
        self.expect_failure(child + b"sys.exit(3)\n", b"the program ended early: status 3")
        self.expect_failure(child + b"time.sleep(0.2)\nos.close(0)\ntime.sleep(100)\n",
                            b"the program ended early: it closed its standard input or error, and went on")
        self.expect_gone(int(self.read("process")))

    def test_messages_without_end(self) -> None:
        with mock.patch.object(sessions, "MOST", 1_000_000):
            for piece in (b"x" * 1000, b"line 1: frob: x: usage\n" * 50):
                self.expect_failure(b"while True: os.write(2, %r)\n" % piece, b"the program wrote more than 67,108,864 bytes of messages at once")

    def test_messages_after_the_last_one(self) -> None:
        with within(60), self.session(b"while True: answer([sys.stdin.buffer.readline()] * 2)\n") as session:
            self.assertEqual(session.ask(b"").messages, [])


class Signals(StandIns):
    """A program that never answers, or never reads, is ended with the command; there is no limit of time."""

    def test_signals_end_the_program(self) -> None:
        for body in (b"play_for(1000)\n", b"os.read(0, 10)\nif os.fork() == 0: play_for(1000)\ntime.sleep(1000)\n"):
            program = self.stand_in(body)
            self.write("script", b"setfacl -M - x\n" + b"u:ines:r\n" * 200_000 + b".\n")
            for number, status in ((signal.SIGTERM, 143), (signal.SIGINT, 130)):
                words = [sys.executable, "-I", os.path.join(COMMANDS, "facl-ask"), "--headings", "--program", program, "before", "script"]
                with subprocess.Popen(words, cwd=self.folder, stdout=subprocess.PIPE, stderr=subprocess.PIPE, preexec_fn=restore_signals) as run:
                    last = time.monotonic() + 30
                    while not os.path.exists(self.path("process")):
                        self.assertLess(time.monotonic(), last)
                        time.sleep(0.02)
                    time.sleep(0.2)  # It writes now, and cannot go on.
                    run.send_signal(number)
                    out, messages = run.communicate(timeout=30)
                self.assertEqual((run.returncode, out, messages), (status, b"", b""))
                self.expect_gone(int(self.read("process")))
                os.unlink(self.path("process"))


if __name__ == "__main__":
    unittest.main()
