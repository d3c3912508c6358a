"""The store of snapshots where others can write there, where it is full, and where what is in it is half, odd or not the caller's."""
from __future__ import annotations

import json
import os
import subprocess
import unittest
from typing import Dict
from unittest import mock

from common import COMMANDS, Done
from example_runs import why_no_tree
from verb_case import HOST, VerbCase

from facl_commands.verbs import store

NOBODY = 65534
IMPORT = ("import", "before/dump", "--passwd", "before/passwd", "--group", "before/group")
AS_ROOT = unittest.skipIf(os.geteuid() != 0, "it takes root")
HOSTILE = "a\033[31m\nx"


def give(folder: str, user: int) -> None:
    """Gives a folder with its files to a user."""
    for place, _, files in os.walk(folder):
        for name in [place, *(os.path.join(place, it) for it in files)]:
            os.chown(name, user, user)


class Attacks(VerbCase):
    def setUp(self) -> None:
        super().setUp()
        os.mkdir(self.path("tree"))

    def listed(self) -> Dict[str, str]:
        """The warnings of the snapshots that are listed."""
        found = json.loads(self.verb("snapshots", "--json").out)["snapshots"]
        return {it["name"]: "; ".join(it["warnings"]) for it in found}

    def expect_chosen(self, name: str) -> None:
        self.assertEqual(json.loads(self.verb("files", "--owner", "mara", "--json", "-q").out)["snapshot"]["name"], name)

    def test_nothing_is_written_where_others_can(self) -> None:
        for name, seconds in (("new", 60), ("old", 300_000)):
            self.stored(name, seconds=seconds)
        for mode, text in ((0o777, b"can be written by everybody"), (0o1777, b"nobody else may write there"),
                           (0o772, b"can be written by everybody")):
            os.chmod(self.store, mode)
            for words in (("snapshot", "-q", "tree"), IMPORT, ("daily", self.path("tree")), ("prune", "--keep-daily", "1")):
                done = self.verb(*words)
                self.assertEqual((done.status, done.out), (2, b""), (oct(mode), words, done))
                self.assertIn(text, done.messages)
                self.assertEqual(sorted(os.listdir(self.store)), ["new", "old"])

    @AS_ROOT
    def test_a_snapshot_of_somebody_else(self) -> None:
        """In a folder as /tmp anybody can make one that is newer."""
        for name, seconds in (("mine", 300), ("theirs", 60), ("touched", 30)):
            self.stored(name, seconds=seconds)
        os.chmod(self.store, 0o1777)
        give(os.path.join(self.store, "theirs"), NOBODY)
        os.chown(os.path.join(self.store, "touched", "passwd"), NOBODY, NOBODY)
        self.expect_chosen("mine")
        warnings = self.listed()
        self.assertEqual(warnings["mine"], "")
        for name in ("theirs", "touched"):
            self.assertRegex(warnings[name], r"belongs to .*, so it is not trusted\Z")
            done = self.verb("who", "read", "-s", name)
            self.assertEqual((done.status, done.out), (2, b""))
            self.assertIn(b"so it is not trusted", done.messages)

    def test_what_is_no_text(self) -> None:
        """A pipe, a folder or a link to nothing in the place of a text is not waited for, and no snapshot is whole with it."""
        self.stored("whole", seconds=300)
        for name, text in (("pipe", "dump"), ("folder", "passwd"), ("link", "group"), ("many", "meta")):
            path = os.path.join(self.stored(name), text)
            os.unlink(path)
            if name == "link":
                os.symlink("nowhere", path)
            elif name == "many":
                self.write("store/many/meta", b"host %s\ndate 9999-99-99T00:00:00Z\n" % (b"x" * 70_000))
            else:
                (os.mkfifo if name == "pipe" else os.mkdir)(path)
        self.expect_chosen("whole")
        warnings = self.listed()
        self.assertEqual(warnings["whole"], "")
        self.assertEqual([name for name in ("pipe", "folder", "link", "many") if not warnings[name]], [])

    def test_names_that_a_terminal_would_obey(self) -> None:
        self.stored(HOSTILE, "h\033[2J")
        self.stored("new")
        for words in (["snapshots"], ["who", "read", "/nowhere"], ["prune", "--keep-daily", "1", "-n"],
                      ["who", "read", "/srv", "-s", HOSTILE], ["why", "nobody-is-this", "/srv", "-s", HOSTILE]):
            done = self.verb(*words)
            self.assertNotIn(b"\033", done.out + done.messages, words)
        self.assertIn(b"a\\033[31m\\012x  h\\033[2J  ", self.verb("snapshots").out)
        rows = self.verb("snapshots", "--tsv").out.decode().splitlines()  # For scripts, with the escapes of the program.
        self.assertEqual(sorted(row.split("\t")[0] for row in rows), ["NAME", "a\033[31m\\012x", "new"])
        listed = json.loads(self.verb("snapshots", "--json").out)["snapshots"]
        self.assertEqual(sorted(it["name"] for it in listed), ["a\033[31m\\012x", "new"])

    def test_a_run_that_is_killed(self) -> None:
        """It leaves a folder that no verb takes, and is in nobody's way."""
        self.stored("whole", seconds=300)
        self.write("killer", b"#!/bin/sh\nkill -9 $PPID\n")
        os.chmod(self.path("killer"), 0o755)
        self.assertEqual(self.verb("snapshot", "--program", self.path("killer"), "tree").status, -9)
        left, = set(os.listdir(self.store)) - {"whole"}
        self.assertEqual(self.listed(), {"whole": "", left: "left by a run that was killed; it can be removed"})
        self.expect_chosen("whole")
        self.assertEqual(self.verb("snapshot", "-q", "tree").status, 0)
        self.assertEqual(len(self.listed()), 3)
        self.assertEqual(self.verb("prune", "--keep-daily", "9", "--keep-weekly", "9").status, 3)

    @unittest.skipIf(why_no_tree(), why_no_tree())
    def test_an_import_into_a_full_store(self) -> None:
        script = 'mount -t tmpfs -o size=8k,mode=700 tmpfs "$1" && shift && "$@"; echo $?; ls -A "$FACL_STORE"'
        done = subprocess.run(["unshare", "-m", "sh", "-c", script, "sh", self.store, os.path.join(COMMANDS, "facl"), *IMPORT],
                              env={**os.environ, "FACL_STORE": self.store}, cwd=self.folder, capture_output=True, check=False)
        self.assertEqual(done.stdout, b"2\n", done.stderr)
        self.assertIn(b"No space left on device", done.stderr)

    def test_of_another_host(self) -> None:
        """It is taken where it is named alone, and the last two are those of this host."""
        for name, host, seconds in (("theirs", "elsewhere", 10), ("new", HOST, 60), ("old", HOST, 90_000)):
            self.stored(name, host, seconds)
        self.expect_chosen("new")
        done = self.verb("files", "--owner", "mara", "-s", "theirs")
        self.assertEqual(done.messages, b"facl files: the snapshot theirs is of the host elsewhere, not of this one\n")
        self.assertEqual(self.verb("diff", "-q").out, self.verb("diff", "old", "new").out)
        done = self.verb("diff", "old", "theirs")
        self.assertEqual((done.status, done.out), (2, b""))
        self.assertIn(b"--any-host compares them", done.messages)
        self.assertIn(self.verb("diff", "old", "theirs", "--any-host").status, (0, 1))

    def test_two_at_once(self) -> None:
        """A name that is there is not taken again."""
        with mock.patch("time.strftime", return_value="t"):
            for name in ("t", "t.2"):
                os.mkdir(os.path.join(self.store, name))
            os.symlink("nowhere", os.path.join(self.store, "t.3"))
            self.assertEqual(store.new_name(os.fsencode(self.store)), b"t.4")

    def other(self, *words: str) -> Done:
        """Runs a verb as another user, over the store of this one."""
        done = subprocess.run([os.path.join(COMMANDS, "facl"), *words], cwd=self.folder, user=NOBODY, group=NOBODY,
                              extra_groups=[], capture_output=True, check=False,
                              env={**os.environ, "FACL_STORE": self.store, "FACL_SNAPSHOT": "", "HOME": "/nonexistent"})
        return Done(done.returncode, done.stdout, done.stderr)

    @AS_ROOT
    def test_two_users_of_one_store(self) -> None:
        """Root lets a group read a snapshot; its members ask, and can change nothing."""
        os.chmod(self.folder, 0o755)
        os.chmod(self.store, 0o755)
        self.assertEqual(self.verb("snapshot", "-q", "--readers", str(NOBODY), "tree").status, 0)
        shared, = os.listdir(self.store)
        self.stored("older", seconds=90_000, folders=[os.path.realpath(self.path("tree"))])
        os.chmod(self.stored("secret", seconds=-60), 0o700)
        done = self.other("who", "read", self.path("tree"), "--with-root", "--json")
        self.assertIn(done.status, (0, 1), done)
        self.assertEqual(json.loads(done.out)["snapshot"]["name"], shared)
        for words in (("snapshot", "tree"), IMPORT, ("prune", "--keep-daily", "1"), ("daily", self.path("tree"))):
            done = self.other(*words)
            self.assertEqual((done.status, done.out), (2, b""), (words, done))
        self.assertEqual(self.other("who", "read", "-s", "secret").status, 2)
        self.assertEqual(sorted(os.listdir(self.store)), sorted([shared, "older", "secret"]))

    @AS_ROOT
    def test_a_state_folder_of_somebody_else(self) -> None:
        """Nothing is made in a folder that another user could exchange."""
        theirs = self.path("theirs")
        os.mkdir(theirs)
        os.chown(theirs, NOBODY, NOBODY)
        for place in (theirs, os.path.join(theirs, "deep/er")):
            done = self.verb("snapshot", "-q", "tree", environment={"FACL_STORE": place})
            self.assertEqual((done.status, done.out), (2, b""), done)
        self.assertEqual(os.listdir(theirs), [])


if __name__ == "__main__":
    unittest.main()
