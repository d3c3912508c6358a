"""How facl-daily ends, with stand-ins for the commands that it runs: killed before each call that changes a file, ended by
signals, in a folder that it cannot use, without a text; the mail that says so, and what the next run says and removes."""
from __future__ import annotations

import email
import fcntl
import os
import shutil
import signal
import subprocess
import sys
import unittest
from typing import Callable, Dict, List

from common import Case

from facl_commands.base import messages
from facl_commands.daily import children as daily_children
from facl_commands.daily import command as daily
from facl_commands.daily import words as daily_words

LOCK, MADE = "lock.of-facl-daily", "made.by-facl-daily"
STUBS = {
    "facl-snapshot": '#!/bin/sh\n[ ! -e "$STUBS/in-snapshot" ] || . "$STUBS/in-snapshot"\n'
                     'mkdir -- "$2" && cp -- "$STUBS/state" "$2/dump"\n',
    "facl-diff": '#!/bin/sh\n[ ! -e "$STUBS/in-diff" ] || . "$STUBS/in-diff"\n'
                 'cmp -s "$1/dump" "$2/dump" || { echo "$(cat "$1/dump") to $(cat "$2/dump"), in $2"; exit 1; }\n',
    "facl-audit": '#!/bin/sh\n[ ! -e "$STUBS/in-audit" ] || . "$STUBS/in-audit"\n',
    "sendmail": '#!/bin/sh\n[ ! -e "$STUBS/broken" ] || exit 75\ncat >>"$STUBS/mails"\n',
    "state": "A",
}
SPLIT = ('#!/bin/sh\n[ ! -e "$STUBS/in-snapshot" ] || . "$STUBS/in-snapshot"\n'
         'for part in 001 002; do mkdir -p -- "$2/$part" && cp -- "$STUBS/state" "$2/$part/dump"; done\n')
DIFF_OF_PARTS = ('#!/bin/sh\n[ ! -e "$STUBS/in-diff" ] || . "$STUBS/in-diff"\n'
                 'cmp -s "$1/001/dump" "$2/001/dump" || { echo "$(cat "$1/001/dump") to $(cat "$2/001/dump"), in $2"; exit 1; }\n')
SAID = b"A to B"


def count_calls(number: int) -> None:
    """Has this process killed before the call of this number that changes a file, or starts a command, or after that start."""
    left = [number]

    def count() -> None:
        left[0] -= 1
        if left[0] == 0:
            os.kill(os.getpid(), signal.SIGKILL)

    def counted(name: str, call: Callable[..., object]) -> Callable[..., object]:
        def counting(*words: object, **more: object) -> object:
            if name != "open" or isinstance(words[1], int) and words[1] & os.O_CREAT:
                count()
            found = call(*words, **more) if name != "fsync" else None  # Slow, and nothing is told by it here.
            if name == "Popen":
                count()
            return found

        return counting

    for module, name in ((fcntl, "flock"), (subprocess, "Popen"),
                         *((os, it) for it in "mkdir open rename unlink rmdir fsync fchmod fchdir".split())):
        setattr(module, name, counted(name, getattr(module, name)))


class Stubbed(Case):
    def setUp(self) -> None:
        super().setUp()
        self.folder = os.path.realpath(self.folder)
        os.mkdir(self.path("stubs"))
        for name, text in STUBS.items():
            self.write("stubs/" + name, text.encode())
            os.chmod(self.path("stubs/" + name), 0o700)
        self.kept = self.path("kept")

    def become(self, words: List[str], number: int) -> None:
        """Is facl-daily from here on."""
        for stream in (1, 2):
            os.dup2(os.open(self.path("out"), os.O_WRONLY | os.O_CREAT | os.O_APPEND, 0o600), stream)
        os.environ.update(STUBS=self.path("stubs"), PATH=self.path("stubs") + ":" + os.environ["PATH"])
        setattr(daily_children, "HOME", self.path("stubs"))
        for each in messages.SIGNALS:
            signal.signal(each, signal.SIG_DFL)
        count_calls(number)
        sys.argv = ["facl-daily", *words]
        messages.run("facl-daily", daily.body, goes_on=True)

    def daily(self, *words: str, kill: int = 0) -> int:
        """Runs facl-daily in a process of its own; returns its status, or less than 0 where a signal ended it."""
        words = ("--folder", self.kept, "--keep", "2", "--mail", "root", *words, "/srv")
        process = os.fork()
        if process == 0:
            try:
                self.become(list(words), kill)
            finally:
                os._exit(99)
        status = os.waitpid(process, 0)[1]
        return -os.WTERMSIG(status) if os.WIFSIGNALED(status) else os.WEXITSTATUS(status)

    def take(self, name: str) -> bytes:
        """What was written to a file since the last time."""
        if not os.path.exists(self.path(name)):
            return b""
        text = self.read(name)
        os.unlink(self.path(name))
        return text

    def subjects(self) -> List[bytes]:
        head = b"Subject: facl on %s: " % os.uname().nodename.encode()
        return [it[len(head):] for it in self.take("stubs/mails").splitlines() if it.startswith(head)]

    def states(self) -> Dict[str, bytes]:
        """The snapshots in the list with their states; nothing else may be there."""
        names = self.read("kept/" + MADE).decode().splitlines() if os.path.exists(self.path("kept/" + MADE)) else []
        self.assertEqual(sorted(it for it in os.listdir(self.kept) if it not in (LOCK, MADE)), sorted(names))
        return {name: self.read(f"kept/{name}/dump") for name in names}

    def wait_for_commands(self) -> None:
        """Waits until the commands that a killed run had started are gone, which hold its lock."""
        if os.path.exists(self.path("kept/" + LOCK)):
            with open(self.path("kept/" + LOCK), "rb") as file:
                fcntl.flock(file, fcntl.LOCK_EX)

    def set_state(self, text: bytes) -> None:
        self.write("stubs/state", text)

    def stub(self, name: str, text: str) -> None:
        self.write("stubs/" + name, text.encode())


class Kills(Stubbed):
    def test_before_each_call(self) -> None:
        for _ in range(2):
            self.assertEqual(self.daily(), 0)
        shutil.move(self.kept, self.path("first"))
        self.set_state(b"B")
        number, said = 0, []
        while True:
            number += 1
            shutil.rmtree(self.kept, ignore_errors=True)
            shutil.copytree(self.path("first"), self.kept)
            self.take("stubs/mails")
            if self.daily(kill=number) == 1:
                break
            self.wait_for_commands()
            status = self.daily()
            text = self.take("stubs/mails")
            with self.subTest(number):
                self.assertIn(status, (0, 1))
                self.assertGreaterEqual(text.count(SAID), 1)
                self.assertEqual(list(self.states().values())[-1:], [b"B"])
                self.assertEqual((len(self.states()), self.daily(), self.take("stubs/mails")), (2, 0, b""))
                said.append(text.count(SAID))
        self.assertGreater(number, 30)
        self.assertGreater(said.count(1), 20)

    def test_a_command_that_goes_on(self) -> None:
        self.stub("in-snapshot", "kill -KILL $PPID\nsleep 1\n")
        self.assertEqual(self.daily(), -signal.SIGKILL)
        self.assertEqual(self.daily(), 2)
        self.assertIn(b"another facl daily is at work there, or a command", self.take("stubs/mails"))
        self.wait_for_commands()
        os.unlink(self.path("stubs/in-snapshot"))
        self.assertEqual(self.daily(), 1)
        self.assertEqual(self.subjects(), [b"an earlier run was killed"])

    def test_by_signals(self) -> None:
        self.assertEqual(self.daily(), 0)
        self.set_state(b"B")
        for name in ("snapshot", "diff", "audit"):
            for number in messages.SIGNALS:
                self.stub("in-" + name, "kill -%d $PPID\nexec sleep 9\n" % number)
                self.assertEqual(self.daily(), 128 + number)
                self.assertEqual(self.subjects(), [b"ended by " + number.name.encode()])
                self.assertEqual(list(self.states().values()), [b"A"])
            os.unlink(self.path("stubs/in-" + name))
        self.assertEqual((self.daily(), SAID in self.take("stubs/mails")), (1, True))

    def test_what_is_no_work_folder(self) -> None:
        self.assertEqual(self.daily(), 0)
        os.mkdir(self.path("mine"))
        self.write("mine/file", b"")
        os.symlink(self.path("mine"), self.path("kept/.work.0123456789"))
        os.mkdir(self.path("kept/.work.mine"))
        self.write("kept/.work.abcdefghij", b"")
        self.assertEqual((self.daily(), os.listdir(self.path("mine"))), (0, ["file"]))
        self.assertEqual(len([it for it in os.listdir(self.kept) if it.startswith(".work.")]), 3)


class KillsOfParts(Kills):
    """The same of a snapshot in parts, which comes after one without parts and goes for one with others."""

    def setUp(self) -> None:
        super().setUp()
        self.stub("facl-snapshot", SPLIT)
        self.stub("facl-diff", DIFF_OF_PARTS)

    def states(self) -> Dict[str, bytes]:
        for name in os.listdir(self.kept) if os.path.exists(self.kept) else []:
            for part in sorted(os.listdir(os.path.join(self.kept, name))) if os.path.isdir(os.path.join(self.kept, name)) else []:
                self.assertIn(part, ("001", "002", "003"))
        names = self.read("kept/" + MADE).decode().splitlines() if os.path.exists(self.path("kept/" + MADE)) else []
        self.assertEqual(sorted(it for it in os.listdir(self.kept) if it not in (LOCK, MADE)), sorted(names))
        return {name: self.read(f"kept/{name}/001/dump") for name in names}


class Unsaid(Stubbed):
    """A snapshot whose text was not given is not the one that the next run compares with."""

    def setUp(self) -> None:
        super().setUp()
        self.assertEqual(self.daily(), 0)
        self.set_state(b"B")

    def is_said(self) -> None:
        self.assertEqual(list(self.states().values()), [b"A"])
        self.assertEqual((self.daily(), self.take("stubs/mails").count(SAID), len(self.states())), (1, 1, 2))

    def test_no_mail(self) -> None:
        self.write("stubs/broken", b"")
        self.assertEqual(self.daily(), 2)
        self.assertIn(b"sendmail: status 75; this was to be sent:\nTo: root\n", self.take("out"))
        os.unlink(self.path("stubs/broken"))
        self.is_said()

    def test_no_difference(self) -> None:
        self.stub("in-diff", "echo facl-diff: it is broken >&2; exit 2\n")
        self.assertEqual(self.daily(), 2)
        text = self.take("stubs/mails")
        self.assertIn(b": facl diff: it is broken\n", text)
        self.assertIn(b"the new snapshot is not kept, since what changed cannot be said", text)
        os.unlink(self.path("stubs/in-diff"))
        self.is_said()

    def test_no_snapshot(self) -> None:
        self.stub("in-snapshot", "echo facl-snapshot: /srv: has more than 1,048,576 files >&2; exit 2\n")
        self.assertEqual(self.daily(), 2)
        self.assertEqual(self.subjects(), [b"no snapshot; facl snapshot: /srv: has more than 1,048,576 files"])
        os.unlink(self.path("stubs/in-snapshot"))
        self.is_said()

    def test_names_in_the_text(self) -> None:
        self.assertEqual(self.daily(), 1)
        last = list(self.states())[-1]
        self.assertIn(f"A to B, in {self.kept}/{last}\n".encode(), self.take("stubs/mails"))

    def test_a_long_line(self) -> None:
        """No server refuses the mail for it."""
        name = b"/srv/" + b"long/" * 200 + "\u00e9 =41".encode()
        self.set_state(name)
        self.assertEqual(self.daily(), 1)
        text = self.take("stubs/mails")
        self.assertLessEqual(max(map(len, text.split(b"\n"))), 998)
        mail = email.message_from_bytes(text)
        self.assertEqual(mail.get_content_type(), "text/plain")
        body = mail.get_payload(decode=True)
        assert isinstance(body, bytes)
        self.assertIn(b"\nA to " + name + b", in ", body)


class Places(Stubbed):
    """A folder, a lock or a list that is not trusted: a mail, and nothing is changed."""

    def refused(self, text: bytes) -> None:
        before = sorted(os.listdir(self.kept))
        self.assertEqual(self.daily(), 2)
        subjects = self.subjects()
        self.assertEqual((len(subjects), text in b"".join(subjects), sorted(os.listdir(self.kept))), (1, True, before), subjects)

    def test_the_lock(self) -> None:
        self.assertEqual(self.daily(), 0)
        lock = self.path("kept/" + LOCK)
        self.assertEqual(os.stat(lock).st_mode & 0o7777, 0o600)
        with open(lock, "rb") as file:
            fcntl.flock(file, fcntl.LOCK_EX)
            self.refused(b"another facl daily is at work there")
        os.chmod(lock, 0o644)
        self.refused(b"has the mode 0644 in place of 0600")
        os.unlink(lock)
        for make, text in ((os.mkfifo, b"is not a regular file"), (os.mkdir, b"is not a regular file")):
            make(lock)
            self.refused(text)
            (os.unlink if make is os.mkfifo else os.rmdir)(lock)
        os.symlink(self.path("elsewhere"), lock)
        self.refused(b"is not a regular file")
        self.assertFalse(os.path.exists(self.path("elsewhere")))

    def test_a_lock_on_the_folder(self) -> None:
        os.mkdir(self.kept, 0o755)
        folder = os.open(self.kept, os.O_RDONLY)
        self.addCleanup(os.close, folder)
        fcntl.flock(folder, fcntl.LOCK_EX)
        self.assertEqual(self.daily(), 0)

    def test_the_list(self) -> None:
        for _ in range(2):
            self.assertEqual(self.daily(), 0)
        name = self.path("kept/" + MADE)
        good = self.read("kept/" + MADE)
        os.link(name, self.path("other"))
        self.refused(b"has another name too")
        os.unlink(self.path("other"))
        os.chmod(name, 0o660)
        self.refused(b"has the mode 0660 in place of 0600")
        os.chmod(name, 0o600)
        for text, reason in ((b"../x\n", b"line 1 is not the name of a snapshot"), (good[:-1], b"its last line has no end"),
                             (good + b"\xff\n", b"line 3 is not the name"), (b"2026-01-01\n" * 100_000, b"is too large")):
            self.write("kept/" + MADE, text)
            self.refused(reason)
        os.unlink(name)
        os.mkfifo(name)
        self.refused(b"is not a regular file")

    @unittest.skipIf(shutil.which("setfacl") is None, "it takes setfacl")
    def test_default_lists(self) -> None:
        os.mkdir(self.kept, 0o755)
        subprocess.run(["setfacl", "-d", "-m", "u:65534:rwx,g::rwx,o::rwx", self.kept], check=True)
        for _ in range(3):
            self.assertEqual(self.daily(), 0)
        found = subprocess.run(["getfacl", "-a", "-s", "-p", "-R", self.kept], capture_output=True, check=True).stdout
        self.assertEqual(found, b"")
        self.assertEqual({os.stat(self.path("kept/" + it)).st_mode & 0o7777 for it in (LOCK, MADE)}, {0o600})

    @unittest.skipIf(os.geteuid() != 0, "it takes root")
    def test_the_way(self) -> None:
        os.mkdir(self.path("real"))
        os.mkdir(self.path("theirs"))
        os.symlink(self.path("real"), self.path("theirs/link"))
        os.chmod(self.folder, 0o755)
        self.kept = self.path("theirs/link")
        for name in ("theirs", "theirs/link"):
            os.chown(self.path(name), 65534, 65534, follow_symlinks=False)
            self.assertEqual((self.daily(), os.listdir(self.path("real"))), (2, []))
            self.assertIn(b"%s: belongs to " % os.fsencode(self.path(name)), self.take("stubs/mails"))
            os.chown(self.path(name), 0, 0, follow_symlinks=False)

    def test_words(self) -> None:
        self.assertEqual((self.daily("--keep", "0"), self.subjects()), (2, [b"--keep 0: is not a number of snapshots"]))
        self.assertEqual((self.daily("--nix"), self.subjects()), (2, [b"--nix: is not an option" + os.fsencode(daily_words.HINT)]))
        self.assertFalse(os.path.exists(self.kept))


if __name__ == "__main__":
    unittest.main()
