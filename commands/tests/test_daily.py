"""facl-daily on a real tree: snapshots that are made and kept, the text that is printed or mailed, and what is left."""
from __future__ import annotations

import fcntl
import os
import re
import shutil
import signal
import subprocess
import tempfile
import time
import unittest
from typing import Callable, List, Optional

from common import COMMANDS, Case, Done, restore_signals
from snapshot_stand_ins import all_commands_with

from facl_commands.verbs.options import BY_FIELD
from facl_commands.verbs.table import BY_VERB

NEEDED = ("getfacl", "setfacl")
LOCK, FOUND = "lock.of-facl-daily", "found.by-facl-daily"
# What the system lists, at the end of command.py of facl-snapshot.
PEOPLE = """
import pwd
from . import asking
users = ("root", "x", 0, 0, "", "/", "/bin/sh"), ("anna", "x", 71001, 71001, "", "/", "/bin/sh")
groups = ("root", "x", 0, []), ("anna", "x", 71001, [])
asking.all_users = lambda: [asking.user_of(pwd.struct_passwd(it)) for it in users]
asking.all_groups = lambda: [asking.group_of(grp.struct_group(it)) for it in groups]
"""
STUBS = {
    "sendmail": "#!/bin/sh\n[ ! -e \"$STUBS/broken\" ] || exit 75\ncat >\"$STUBS/mail\"\n",
    # On the path, and not run.
    **dict.fromkeys(("facl-snapshot", "facl-diff", "facl-audit", "facl-check"), "#!/bin/sh\nexit 9\n"),
}
MAIL = """\
To: root@srva
Subject: facl on HOST: something to look at
MIME-Version: 1.0
Content-Type: text/plain; charset=UTF-8
Content-Transfer-Encoding: 8bit

facl on HOST, DAY: TOP/tree

== changes since DAY (facl diff)
..

== findings (facl audit)
TOP/kept/DAY.2 (of HOST, TIME): 2 files at or below TOP/tree
high    writable-by-everybody   1 file
        everybody else, whom no ACL names, can write it along its path
        first: TOP/tree/file
        for facl plan: setfacl -n -m o::r-- TOP/tree/file
middle  readable-by-everybody   2 files
        everybody else, whom no ACL names, can read it along its path
        first: TOP/tree
        then:  TOP/tree/file
        decide: who needs what is below; a change of a top folder is about all of it
findings: 1 high, 1 middle
all files of one: facl audit --list writable-by-everybody -s TOP/kept/DAY.2
all lines of one: facl audit fix writable-by-everybody -s TOP/kept/DAY.2 >edits; facl plan -s TOP/kept/DAY.2 edits

== rules that do not hold (facl check)
TOP/rules, line 1: never others write TOP/tree/
    everybody else may write 1 file, first: TOP/tree/file
        by  /: other::r-x
            BLOCKS
        who else may: anna
TOP/kept/DAY.2 (of HOST, TIME): 1 of 1 rule does not hold
"""


def wait_for_handlers(run: "subprocess.Popen[bytes]") -> None:
    """Waits until a command has its handlers of signals, of which that of SIGTERM is the last. Before, SIGINT finds a handler of
    Python's own, which ends with status 1 where it is still to import its first modules."""
    while run.poll() is None:
        with open("/proc/%d/status" % run.pid, encoding="ascii", errors="replace") as file:
            caught = next((int(line.split()[1], 16) for line in file if line.startswith("SigCgt:")), 0)
        if caught >> signal.SIGTERM - 1 & 1:
            return
        time.sleep(0.001)


@unittest.skipIf(any(shutil.which(tool) is None for tool in NEEDED), "it takes " + ", ".join(NEEDED))
class Daily(Case):
    def setUp(self) -> None:
        super().setUp()
        os.chmod(self.folder, 0o755)
        self.folder = os.path.realpath(self.folder)
        self.tree = self.path("tree")
        os.mkdir(self.tree)
        os.chmod(self.tree, 0o755)
        self.make("file", 0o644)
        os.mkdir(self.path("stubs"), 0o755)
        for name, text in STUBS.items():
            self.write("stubs/" + name, text.encode())
            os.chmod(self.path("stubs/" + name), 0o755)
        all_commands_with(PEOPLE, self.path("commands"))
        self.command = self.path("commands/facl-daily")
        self.write("rules", b"never others write " + os.fsencode(self.tree) + b"/\n")
        os.chmod(self.path("rules"), 0o600)

    def make(self, name: str, mode: int) -> None:
        with open(os.path.join(self.tree, name), "wb") as file:
            file.write(b"something")
        os.chmod(os.path.join(self.tree, name), mode)

    def environment(self, **more: str) -> "dict[str, str]":
        return {**os.environ, "PATH": self.path("stubs") + ":" + os.environ["PATH"], "STUBS": self.path("stubs"), **more}

    def daily(self, *words: str, folders: Optional[List[str]] = None) -> Done:
        words = ("--folder", self.path("kept"), "--rules", "rules", *words, *([self.tree] if folders is None else folders))
        done = subprocess.run([self.command, *words], cwd=self.folder, env=self.environment(),
                              stdin=subprocess.DEVNULL, capture_output=True, check=False)
        return Done(done.returncode, done.stdout, done.stderr)

    def kept(self) -> List[str]:
        """The names in its folder, without the day and the lock."""
        day = time.strftime("%Y-%m-%d")
        return [name.replace(day, "DAY") for name in sorted(os.listdir(self.path("kept"))) if name not in (LOCK, FOUND)]

    def plain(self, text: bytes) -> str:
        """A text with its parts that are others each day."""
        for word, name in ((self.folder, "TOP"), (os.uname().nodename, "HOST"),
                           (time.strftime("%Y-%m-%d") + "T", "DAYT"), (time.strftime("%Y-%m-%d"), "DAY")):
            text = text.replace(word.encode(), name.encode())
        found = re.sub(r"DAYT[\d:]+Z", "TIME", text.decode())
        found = re.sub(r"(?<=other::r-x\n)(?:            .*\n)+", "            BLOCKS\n", found)
        return re.sub(r"(?<=\(facl diff\)\n)(?:.*\n)*?(?=\n== )", "..\n", found)


class Week(Daily):
    def test_three_snapshots(self) -> None:
        words = ("--keep", "2", "--mail", "root@srva")
        self.expect(self.daily(*words), 0, b"")
        os.mkdir(self.path("kept/2026-01-01"))
        self.assertFalse(os.path.exists(self.path("stubs/mail")))
        os.chmod(os.path.join(self.tree, "file"), 0o646)
        self.expect(self.daily(*words), 1, b"")
        self.assertEqual(self.plain(self.read("stubs/mail")), MAIL)
        os.chmod(os.path.join(self.tree, "file"), 0o644)
        self.expect(self.daily(*words), 1, b"")
        text = self.read("stubs/mail")
        self.assertEqual([line.split(b" ")[1] for line in text.splitlines() if line.startswith(b"== ")], [b"changes"])
        self.assertEqual(self.kept(), ["2026-01-01", "DAY.2", "DAY.3", "made.by-facl-daily"])
        self.expect(self.daily(*words), 0, b"")
        self.assertEqual(self.kept(), ["2026-01-01", "DAY.3", "DAY.4", "made.by-facl-daily"])

    def test_what_everybody_else_gained_comes_first(self) -> None:
        """anna is the only user who is a person, and has what others have."""
        self.expect(self.daily(), 0, b"")
        os.chmod(os.path.join(self.tree, "file"), 0o646)
        lines = self.daily().out.decode().splitlines()
        first = next(place for place, line in enumerate(lines) if line.startswith("== changes since ")) + 1
        for place, pattern in enumerate(("WHO +WHAT +MORE +GAINED ", "everybody else and anna +others' entry changed +1 +-w- +0 ")):
            self.assertRegex(lines[first + place], "^" + pattern)
        os.chmod(os.path.join(self.tree, "file"), 0o640)
        text = self.daily("--fail-on", "none").out.decode()
        self.assertRegex(text, "\neverybody else and anna +others' entry changed +0 +1 +rw- ")
        os.chmod(os.path.join(self.tree, "file"), 0o600)
        self.assertNotIn(b"everybody else", self.daily("--fail-on", "none").out)

    def test_printed(self) -> None:
        os.chmod(os.path.join(self.tree, "file"), 0o646)
        done = self.daily()
        wanted = MAIL.partition("\n\n")[2].replace("DAY.2", "DAY").replace("== changes since DAY (facl diff)\n..\n\n", "")
        self.assertEqual((done.status, self.plain(done.out), done.messages), (1, wanted, b""))
        self.assertEqual(os.stat(self.path("kept")).st_mode & 0o777, 0o700)

    def test_a_finding_that_stands_is_a_line(self) -> None:
        os.chmod(os.path.join(self.tree, "file"), 0o646)
        full = self.findings(self.daily())
        self.assertIn("first: TOP/tree/file", full)
        stands = ("high    writable-by-everybody   1 file, as in the last run\n"
                  "middle  readable-by-everybody   2 files, as in the last run\nfindings: 1 high, 1 middle\n")
        self.assertIn(stands, self.findings(self.daily()))
        self.make("more", 0o602)
        self.assertIn("high    writable-by-everybody   1 more file, 2 in all\n        everybody else, whom no ACL names, can write "
                      "it along its path\n        first: TOP/tree/more\n", self.findings(self.daily()))
        os.unlink(os.path.join(self.tree, "more"))
        self.assertIn(stands, self.findings(self.daily()))
        damages: List[Callable[[str], None]] = [lambda name: os.chmod(name, 0o644), os.unlink, lambda name: os.truncate(name, 0)]
        for damage in damages:
            damage(self.path("kept/" + FOUND))
            self.assertEqual(re.sub(r"DAY[.\d]*", "DAY", self.findings(self.daily())), re.sub(r"DAY[.\d]*", "DAY", full))

    def findings(self, done: Done) -> str:
        """What a run says of findings."""
        self.assertEqual((done.status, done.messages), (1, b""))
        return self.plain(done.out).partition("== findings (facl audit)\n")[2].partition("\n== ")[0]

    def test_what_was_not_sent_is_not_known(self) -> None:
        os.chmod(os.path.join(self.tree, "file"), 0o646)
        self.write("stubs/broken", b"")
        self.assertEqual(self.daily("--mail", "root").status, 2)
        os.unlink(self.path("stubs/broken"))
        self.assertIn("first: TOP/tree/file", self.findings(self.daily()))

    def test_no_finding_counts(self) -> None:
        os.chmod(os.path.join(self.tree, "file"), 0o646)
        self.write("rules", b"never 71001 write %s/file\n" % os.fsencode(self.tree))
        for words in (("--fail-on", "none"), ("--fail-on=none",)):
            done = self.daily(*words)
            self.assertEqual((done.status, [line for line in done.out.splitlines() if line.startswith(b"== ")]),
                             (1, [b"== rules that do not hold (facl check)"]))

    def test_accepted_and_options_of_the_snapshot(self) -> None:
        self.make("x.tmp", 0o666)
        self.make("y.tmp", 0o666)
        self.write("accepted", b"writable-by-everybody %s/y.tmp needed\n" % os.fsencode(self.tree))
        os.chmod(self.path("accepted"), 0o600)
        self.write("rules", b"never 71001 write %s/file\n" % os.fsencode(self.tree))
        self.expect(self.daily("--accepted", "accepted", "--snapshot", "--exclude x.*"), 0, b"")


    def test_a_text_that_cannot_be_printed(self) -> None:
        os.chmod(os.path.join(self.tree, "file"), 0o646)
        words = ["--folder", self.path("kept"), self.tree]
        reader, writer = os.pipe()
        os.close(reader)
        for output in (os.open("/dev/full", os.O_WRONLY), writer):
            done = subprocess.run([self.command, *words], env=self.environment(), stdin=subprocess.DEVNULL,
                                  stdout=output, stderr=subprocess.PIPE, check=False)
            os.close(output)
            self.assertEqual((done.returncode, done.stderr), (2, b"facl-daily: standard output cannot be written\n"))
            self.assertEqual(self.kept(), [])


class InParts(Daily):
    def test_days_with_and_without_parts(self) -> None:
        above = self.tree.count("/") + 1  # Directories, with the root and the tree.
        os.chmod(self.tree, 0o700)
        for number in range(6):
            self.make("f%d" % number, 0o600)
        parts = ("--split", str(above + 3), "--keep", "1", "--fail-on", "none")
        for words in (parts, parts, parts[2:], parts, ("--split", str(above + 4), *parts[2:])):
            self.expect(self.daily(*words), 0, b"")
        self.assertEqual(self.kept(), ["DAY.5", "made.by-facl-daily"])
        self.assertEqual(sorted(os.listdir(self.path("kept/%s.5" % time.strftime("%Y-%m-%d")))), ["001", "002"])
        self.make("e", 0o666)  # Before the cut.
        os.chmod(self.tree, 0o755)
        done = self.daily(*parts)
        self.assertEqual((done.status, done.messages), (1, b""))
        self.assertEqual(done.out.count(b"== "), 2, done.out)
        self.assertIn(b"files: 1 with another owner, group, flags or ACL, 1 new\n", done.out)
        self.assertIn(b"    everybody else may write 1 file, first: %s/e\n" % self.tree.encode(), done.out)


class Units(Daily):
    """The files that the package has for systemd and cron."""

    def words_in(self, name: str, pattern: str) -> List[str]:
        with open(os.path.join(COMMANDS, "daily", name), encoding="utf-8") as file:
            found: str = re.findall(pattern, file.read(), re.MULTILINE)[0]
        return found.split()

    def test_their_words(self) -> None:
        options = {name for field in BY_VERB["daily"].options for name in BY_FIELD[field].names}
        with open(os.path.join(COMMANDS, "..", "docs", "facl-commands.1"), encoding="utf-8") as file:
            page = re.findall(r'^FACL_DAILY="(.*)"$', file.read().replace("\\-", "-"), re.MULTILINE)[0].split()
        for words in (self.words_in("facl-daily.default", '^FACL_DAILY="(.*)"$'), page,
                      self.words_in("facl-daily.cron", "root facl daily (.*)")):
            self.assertLessEqual({word for word in words if word.startswith("--")}, options)
            self.assertEqual(words[-1], "/srv")

    def test_the_service(self) -> None:
        self.assertEqual(self.words_in("facl-daily.service", "^ExecStart=(.*)"), ["/usr/bin/facl", "daily", "$FACL_DAILY"])
        self.assertEqual(self.words_in("facl-daily.timer", "^OnCalendar=(.*)"), ["*-*-*", "03:10:00"])

    def test_the_service_has_no_mounts_of_its_own(self) -> None:
        """Else it records another /tmp than users have, and files as read-only that they can write."""
        with open(os.path.join(COMMANDS, "daily", "facl-daily.service"), encoding="utf-8") as file:
            options = re.findall(r"(?m)^(\w+)=", file.read())
        mounts = re.compile("Private|Protect|Bind|Root|Mount|Inaccessible|TemporaryFileSystem|DynamicUser|ProcSubset|.*Paths")
        self.assertIn("ExecStart", options)
        self.assertEqual([it for it in options if mounts.match(it)], [])


class Faults(Daily):
    def test_a_snapshot_with_another_file_stays(self) -> None:
        self.assertEqual(self.daily("--keep", "1").status, 0)
        day = time.strftime("%Y-%m-%d")
        self.write("kept/%s/notes" % day, b"mine")
        done = self.daily("--keep", "1")
        self.assertEqual((done.status, self.kept()), (0, ["DAY", "DAY.2", "made.by-facl-daily"]))
        self.assertIn(b"has files that are no snapshot's, so it stays", done.messages)

    def test_a_folder_in_a_part_stays(self) -> None:
        """A part has no parts: what is in such a folder somebody else put there."""
        self.assertEqual(self.daily("--keep", "1").status, 0)
        place = "kept/%s/002/003" % time.strftime("%Y-%m-%d")
        os.makedirs(self.path(place))
        self.write(place + "/dump", b"mine")
        done = self.daily("--keep", "1")
        self.assertEqual((done.status, self.kept(), self.read(place + "/dump")), (0, ["DAY", "DAY.2", "made.by-facl-daily"], b"mine"))
        self.assertIn(b"has files that are no snapshot's, so it stays", done.messages)

    def test_words(self) -> None:
        for words, text in ((["--keep", "0"], b"--keep 0: is not a number of snapshots"), (["--keep"], b"--keep: takes a word"),
                            (["--mail", "a b"], b"--mail a b: is not an address"), (["--fail-on", "x"], b"give high, middle, low or none"),
                            (["--weight", "none"], b"--weight none: give high, middle or low"),
                            (["--split", "0"], b"--split 0: is not a number from 1 to 9999999"), (["--nix"], b"--nix: is not an option")):
            done = self.daily(*words, folders=[] if words == ["--keep"] else None)
            self.assertEqual((done.status, done.out, text in done.messages), (2, b"", True), done)
        self.assertIn(b"give a FOLDER from the root on", self.daily(folders=["tree"]).messages)
        self.assertFalse(os.path.exists(self.path("kept")))

    def test_a_folder_that_others_can_write(self) -> None:
        os.mkdir(self.path("kept"))
        os.chmod(self.path("kept"), 0o770)
        done = self.daily()
        self.assertEqual((done.status, os.listdir(self.path("kept"))), (2, []))
        self.assertIn(b"nobody else may write there", done.messages)

    def test_two_at_once(self) -> None:
        os.mkdir(self.path("kept"), 0o700)
        descriptor = os.open(self.path("kept/" + LOCK), os.O_CREAT | os.O_RDONLY, 0o600)
        self.addCleanup(os.close, descriptor)
        fcntl.flock(descriptor, fcntl.LOCK_EX)
        done = self.daily()
        self.assertEqual((done.status, self.kept()), (2, []))
        self.assertIn(b"another facl daily is at work there", done.messages)

    def test_no_snapshot(self) -> None:
        done = self.daily(folders=[self.path("nix")])
        self.assertEqual((done.status, self.kept()), (2, []))
        self.assertIn(b"== facl snapshot: status 2\n", done.out)

    def test_a_rule_that_cannot_be_used(self) -> None:
        self.write("rules", b"never nobody read /\n")
        done = self.daily()
        self.assertEqual((done.status, self.kept()), (2, ["DAY", "made.by-facl-daily"]))
        self.assertIn(b"rules, line 1: word 2: no such user in the snapshot: write a name or an id of its passwd\n", done.out)

    def test_mail_that_cannot_be_sent(self) -> None:
        self.write("stubs/broken", b"")
        os.chmod(os.path.join(self.tree, "file"), 0o646)
        done = self.daily("--mail", "root")
        self.assertEqual((done.status, self.kept()), (2, []))
        self.assertIn(b"sendmail: status 75; this was to be sent:\nTo: root\n", done.messages)

    def test_an_interrupted_run_leaves_nothing(self) -> None:
        words = [self.command, "--folder", self.path("kept"), self.tree]
        for number in (signal.SIGHUP, signal.SIGINT, signal.SIGTERM):
            for wait in (0, 0.25, 0.55, 0.95):
                with tempfile.TemporaryDirectory() as folder:
                    run = subprocess.Popen(words, env=self.environment(TMPDIR=folder), preexec_fn=restore_signals,
                                           stdout=subprocess.DEVNULL, stderr=subprocess.DEVNULL)
                    wait_for_handlers(run)
                    time.sleep(wait)
                    run.send_signal(number)
                    if run.wait() == 0:
                        return
                    self.assertEqual(run.wait(), 128 + number)
                    self.assertEqual((os.listdir(folder), self.kept() if os.path.exists(self.path("kept")) else []), ([], []))


if __name__ == "__main__":
    unittest.main()
