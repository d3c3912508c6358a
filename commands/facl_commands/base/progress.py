"""What a command is at: at a terminal a line on standard error after two seconds, gone before anything else is written."""
from __future__ import annotations

import os
import signal
import threading
import time
from typing import Callable

AFTER, EVERY = 2.0, 0.25  # Seconds.
CLEAR = b"\r\x1b[K"


class Progress:
    """The step of a command, and how many files of how many it has done. A thread shows it, which takes no signal."""

    def __init__(self) -> None:
        self.step, self.done, self.of, self.shares = "at work", 0, 0, 1
        self.begun, self.is_shown, self.is_over = time.monotonic(), False, threading.Event()
        self.lock = threading.RLock()  # A signal may come while it is held.

    def begin(self, step: str, of: int = 0, shares: int = 1) -> None:
        """The next step; `shares` is the number of processes that do as much each."""
        self.step, self.done, self.of, self.shares, self.begun = step, 0, of, shares, time.monotonic()

    def at(self, step: str) -> None:
        """The same, where the step is not the one before."""
        if step != self.step:
            self.begin(step)

    def text(self) -> str:
        passed, done = time.monotonic() - self.begun, min(self.done * self.shares, self.of or self.done * self.shares)
        rate = done / max(passed, 0.01)
        if not done:
            return f"{self.step}, {int(passed)} s"
        if not self.of:
            return f"{self.step}: {done:,} files, {int(rate):,} a second"
        return f"{self.step}: {done:,} of {self.of:,} files, {int((self.of - done) / rate)} s left"

    def clear(self) -> None:
        """Takes the line away, before something else is written."""
        with self.lock:
            if self.is_shown:
                self.is_shown = not os.write(2, CLEAR)

    def stop(self) -> None:
        self.is_over.set()
        self.clear()

    def watch(self, name: str, is_shown: bool, heeds: Callable[[], None]) -> None:
        """Shows the line, and looks whether a signal waits, until the command is over."""
        start = time.monotonic()
        while not self.is_over.wait(EVERY):
            heeds()
            with self.lock:
                if is_shown and not self.is_over.is_set() and time.monotonic() - start >= AFTER:
                    self.is_shown = os.write(2, CLEAR + ("%s: %s" % (name, self.text())).encode()) > 0

    def start(self, name: str, is_shown: bool, heeds: Callable[[], None]) -> None:
        before = signal.pthread_sigmask(signal.SIG_BLOCK, signal.valid_signals())
        threading.Thread(target=self.watch, args=(name, is_shown, heeds), daemon=True).start()
        signal.pthread_sigmask(signal.SIG_SETMASK, before)


AT = Progress()  # That of the command.
