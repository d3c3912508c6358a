"""Ends commands/facl-daily at any moment, fills its disk, and has another user lock, open and own what it uses, as root. It runs
over a small tree, with a sendmail of its own: what changed is said once or again, each run that ends without its text, but by
SIGKILL, sends a mail, and the next one leaves nothing of it.

usage: tools/check.py daily [--PART N].. [--seed N] [--folder DIR] [--record] PROGRAM

--help prints its parts. commands/tests/test_daily_ends.py has each moment with stand-ins. The exit status is 1 if
something is not as it has to be, 2 if the words are others, a tool is not installed or it is not run as root.
"""
from __future__ import annotations

import fcntl
import os
import random
import signal
import subprocess
import time
from typing import Dict, List, Optional

from lib.live_tree import MALLORY, Check, Done, become, copy, expect, make, mounted, must, remove, run, run_parts

LOCK, MADE, FOUND = "lock.of-facl-daily", "made.by-facl-daily", "found.by-facl-daily"
SIGNALS = [signal.SIGKILL] * 6 + [signal.SIGHUP, signal.SIGINT, signal.SIGQUIT, signal.SIGTERM]
SENDMAIL = b'#!/bin/sh\ncat >"$0.new" && cat "$0.new" >>"$0.mails"\n'
CHANGED = b"== changes since "
STUBS = {  # The mode of the file is the snapshot.
    b"facl-snapshot": b'#!/bin/sh\nmkdir -- "$2" && stat -c %a -- "$3/file" >"$2/dump"\n',
    b"facl-diff": b'#!/bin/sh\n! cmp -- "$1/dump" "$2/dump" || exit 0; exit 1\n',
    b"facl-audit": b"#!/bin/sh\n",
}
SIZES = (16, 32, 48, 64, 96, 128, 192, 256, 384, 512)  # KiB of a disk.


KILLER = '{ sleep "$1"; kill "-$2" "$3$$"; } 2>/dev/null & shift 3; exec "$@"'


def default_signals() -> None:
    for each in SIGNALS:  # Ignored in the background.
        if each != signal.SIGKILL:
            signal.signal(each, signal.SIG_DFL)


class Daily(Check):
    """Each try has a tree, and a DIR with two snapshots of it; the tree is another one then."""

    tools = ["getfacl", "setfacl", "mount"]
    parts = {"kills": 200, "kills_alone": 500, "full_disk": 1, "locks": 1, "lists": 1, "ways": 1}

    def begin(self) -> None:
        remove(self.name("kept"))
        if not os.path.exists(self.name("tree")):
            make(self.name("bin/sendmail"), 0o755, text=SENDMAIL)
            make(self.name("tree/"), 0o755)
            make(self.name("tree/file"), 0o640)
            self.take_commands(self.commands)
        os.chmod(self.name("tree/file"), 0o640)
        self.mails()

    def take_commands(self, folder: bytes) -> None:
        """Has the commands of a folder run, by which a DIR with two snapshots is made."""
        self.commands = folder
        self.took: List[float] = []
        remove(self.name("first"))
        for _ in range(2):
            self.daily(0)
        os.rename(self.name("kept"), self.name("first"))

    def take_first(self) -> None:
        """Puts a DIR with two snapshots in place, and changes the tree."""
        must(run([b"cp", b"-a", self.name("first"), self.name("kept")]), 0)
        os.chmod(self.name("tree/file"), 0o646)

    def daily_words(self, folder: str) -> List[bytes]:
        options = b"--mail root --keep 2 --fail-on none --folder".split()
        return [os.path.join(self.commands, b"facl-daily"), *options, self.name(folder), self.name("tree")]

    def daily(self, status: Optional[int] = None, folder: str = "kept") -> bytes:
        """Runs it; returns its mails. Where its status is 2 there is exactly one."""
        started = time.monotonic()
        done = run(self.daily_words(folder), variables=self.variables())
        self.took.append(time.monotonic() - started)
        self.count("runs")
        mails = self.mails()
        expect(status is None or done.returncode == status, f"status {done.returncode} in place of {status}: {done} {mails!r}")
        expect(done.returncode != 2 or mails.count(b"Subject: ") == 1, f"status 2 without a mail: {done}")
        return mails

    def mails(self) -> bytes:
        """What was sent since the last time."""
        name = self.name("bin/sendmail.mails")
        if not os.path.exists(name):
            return b""
        text = self.read(name)
        os.unlink(name)
        return text

    def snapshots(self) -> List[str]:
        """The names in the list; DIR has these, the list, the lock, and what was said of findings."""
        names = self.read("kept/" + MADE).decode().splitlines() if os.path.exists(self.name("kept/" + MADE)) else []
        there = {os.fsdecode(it) for it in os.listdir(self.name("kept"))} - {LOCK, MADE, FOUND}
        expect(there == set(names), f"in DIR: {there}, in the list: {names}")
        return names

    def killed_after(self, wait: float, number: int, to_all: bool) -> Done:
        """A run that gets a signal after a wait, or with it all that it runs. A process of its own session sends it, since a
        system that shares time by sessions may let the run go on for long before this process has its turn."""
        start = ["sh", "-c", KILLER, "sh", f"{wait:.3f}", str(int(number)), "-" if to_all else ""]
        return self.in_session([*map(os.fsencode, start), *self.daily_words("kept")], default_signals, lambda _: None)

    def check_kills(self, seed: int) -> None:
        """A run that a signal ends at a random moment, at times the next one too: what changed is said then."""
        choose = random.Random(seed)
        self.take_first()
        said = 0
        for _ in range(choose.choice((1, 1, 1, 2))):
            number, to_all = choose.choice(SIGNALS), choose.random() < 0.7
            wait = 0.02 * (sorted(self.took)[len(self.took) // 2] / 0.02) ** choose.random()
            done = self.killed_after(wait, number, to_all)
            is_over, is_killed = done.returncode in (0, 1), done.returncode == -signal.SIGKILL
            self.count("over before" if is_over else "ended by SIGKILL" if is_killed else "ended by others")
            mails = self.mails()
            said += mails.count(CHANGED)
            # Less than 0: by SIGKILL, or before it began; 0: it came too late in the run before. Python itself ends with 1.
            has_begun = b"Fatal Python error: init_" not in done.stderr
            expect(done.returncode <= 0 or b"Subject: " in mails or not has_begun, f"no mail: {done}")
        mails = self.daily()
        said += mails.count(CHANGED)
        expect(said >= 1, f"what changed was never said: {mails!r}")
        self.count("said once" if said == 1 else "said again")
        expect(len(self.snapshots()) == 2, "not two snapshots")
        if choose.random() < 0.2:
            self.daily(0)

    def check_kills_alone(self, seed: int) -> None:
        """The same with stand-ins for the commands that it runs, so that most moments are its own."""
        alone = self.name("alone")
        if self.commands != alone:
            copy(self.commands, alone)
            for name, text in STUBS.items():
                os.unlink(os.path.join(alone, name))
                make(os.path.join(alone, name), 0o755, text=text)
            self.take_commands(alone)
        self.check_kills(seed)

    def check_full_disk(self, _seed: int) -> None:
        """Disks of several sizes: a mail with the reason, and the next run with room says what changed."""
        for size in SIZES:
            make(self.name("kept/"), 0o700)
            with mounted(self.name("kept"), b"-t", b"tmpfs", b"-o", b"size=1m,mode=700", b"none"):
                must(run([b"cp", b"-a", os.path.join(self.name("first"), b"."), self.name("kept")]), 0)
                os.chmod(self.name("tree/file"), 0o646)
                used = int(must(run([b"df", b"-k", b"--output=used", self.name("kept")]), 0).split()[-1])
                must(run([b"mount", b"-o", b"remount,size=%dk" % (used + size), self.name("kept")]), 0)
                mails = self.daily()
                expect(len(self.snapshots()) == 2, "left by a full disk")
                must(run([b"mount", b"-o", b"remount,size=9m", self.name("kept")]), 0)
                if CHANGED not in mails:
                    self.count("full disks")
                    expect(b": something to look at\n" not in mails, f"no reason: {mails!r}")
                    expect(CHANGED in self.daily(1), "what changed was not said on the next day")
                self.daily(0)
            remove(self.name("kept"))

    def by_other(self, code: str, *words: bytes) -> "subprocess.Popen[bytes]":
        """Another user, who runs Python."""
        return subprocess.Popen([b"/usr/bin/python3", b"-c", code.encode(), *words], preexec_fn=lambda: become(MALLORY),
                                stdout=subprocess.PIPE, stdin=subprocess.PIPE, stderr=subprocess.DEVNULL)

    def make_lock(self, lock: bytes, kind: str) -> None:
        """Makes a lock that is not facl-daily's."""
        if kind == "pipe":
            os.mkfifo(lock, 0o600)
        elif kind == "link":
            os.symlink(self.name("tree/file"), lock)
        elif kind == "name":
            os.link(self.name("tree/file"), lock)
        else:
            os.chown(make(lock, 0o666 if kind == "open" else 0o600), MALLORY if kind == "other" else 0, 0)

    def check_locks(self, _seed: int) -> None:
        """Another user who locks DIR, and cannot open the lock; locks that are pipes, links or others'."""
        make(self.name("kept/"), 0o755)
        code = "import fcntl,os,sys; fcntl.flock(os.open(sys.argv[1],0),2); print(1,flush=True); sys.stdin.read()"
        with self.by_other(code, self.name("kept")) as other:
            expect(other.stdout is not None and other.stdout.readline() == b"1\n", "the folder is not locked")
            self.daily(0)
            other.communicate()
        lock = self.name("kept/" + LOCK)
        with self.by_other("import os,sys; os.open(sys.argv[1], 0)", lock) as other:
            expect(other.wait() == 1, "another user opened the lock")
        with open(lock, "rb") as file:
            fcntl.flock(file, fcntl.LOCK_EX)
            expect(b"another facl daily" in self.daily(2), "no reason")
        for kind in ("pipe", "link", "name", "other", "open"):
            os.unlink(lock)
            self.make_lock(lock, kind)
            expect(b"so it is not trusted" in self.daily(2), "no reason")
            self.count("locks")
        os.unlink(lock)
        self.daily(0)

    def check_lists(self, _seed: int) -> None:
        """A DIR with a default list: nobody else can open what is made in it."""
        make(self.name("kept/"), 0o755)
        must(run([b"setfacl", b"-d", b"-m", b"u:%d:rwx,g::rwx,o::rwx" % MALLORY, self.name("kept")]), 0)
        for mode in (0o646, 0o640, 0o646):
            self.daily()
            os.chmod(self.name("tree/file"), mode)
        expect(not must(run([b"getfacl", b"-a", b"-s", b"-p", b"-R", self.name("kept")]), 0), "a file got a list")
        found: Dict[str, int] = {os.path.join(top, it): os.lstat(os.path.join(top, it)).st_mode & 0o777
                                 for top, folders, files in os.walk(os.fsdecode(self.name("kept"))) for it in folders + files}
        expect(set(found.values()) == {0o600, 0o700}, f"modes: {found}")
        self.count("files", len(found))

    def check_ways(self, _seed: int) -> None:
        """A folder or a link of another user on the way to DIR."""
        make(self.name("roots/"), 0o700)
        make(self.name("way/"), 0o755)
        os.symlink(self.name("roots"), self.name("way/link"))
        for name in ("way", "way/link"):
            os.chown(self.name(name), MALLORY, MALLORY, follow_symlinks=False)
            for folder in ("way/link", "way/link/new"):
                expect(b"belongs to" in self.daily(2, folder), "no reason")
                expect(not os.listdir(self.name("roots")), "something was made")
                self.count("ways")
            os.chown(self.name(name), 0, 0, follow_symlinks=False)
        self.daily(0, "way/link/new")
        remove(self.name("way"))
        remove(self.name("roots"))


def main() -> int:
    return run_parts(Daily, __doc__)
