"""Snapshots that are opened once: what is read of one, and what the program gets, is of the files that were there, though somebody puts
another snapshot in its place meanwhile, or writes one of its files."""
from __future__ import annotations

import os
import shutil
import subprocess
import unittest
from typing import List, Tuple
from unittest.mock import patch

from common import Case

from facl_commands.ask.parts.several import check_same
from facl_commands.ask.parts.runs import Part
from facl_commands.ask.parts.worker import head_of
from facl_commands.base import folders, trusted
from facl_commands.base.folders import folder_of
from facl_commands.base.messages import Failure
from facl_commands.base.programs import LINUX
from facl_commands.model.everybody import people_in, texts_with
from facl_commands.program.session import OutputSlice, Session

OTHER = b"# file: other\n# owner: 0\n# group: 0\nuser::rwx\ngroup::---\nother::---\n\n"
STRANGER = 54321
COMMANDS_WITH_WORDS: List[Tuple[str, List[str]]] = [
    ("facl-who", ["read", "before"]), ("facl-who", ["--user", "ines", "before"]), ("facl-audit", ["--json", "before"]),
    ("facl-check", ["before", "rules"]), ("facl-report", ["before"]), ("facl-report", ["--for-review", "--folder", "/srv/share", "before"]),
    ("facl-plan", ["before", "edits"]), ("facl-diff", ["--json", "before", "after"]), ("facl-ask", ["before", "edits"]),
    ("facl-ask", ["--headings", "before", "edits"]),
]


class Folders(Case):
    def setUp(self) -> None:
        super().setUp()
        self.name = os.fsencode(self.path("before"))
        self.old = {name: self.read("before/" + name) for name in os.listdir(self.path("before"))}

    def make_other(self, name: str) -> None:
        os.mkdir(self.path(name))
        for file, text in (("passwd", b"new:x:1:1::/:\n"), ("group", b""), ("dump", OTHER), ("inodes", b"boot -\0")):
            self.write(name + "/" + file, text)

    def exchange(self) -> None:
        """As facl-snapshot replaces a snapshot: the old one is moved, and removed."""
        os.rename(self.path("before"), self.path("old"))
        shutil.rmtree(self.path("old"))
        self.make_other("before")

    def expect_failure(self, text: bytes, name: bytes, file: bytes = b"dump") -> None:
        with self.assertRaises(Failure) as raised:
            folder_of(name).read(file)
        self.assertEqual(raised.exception.text, text)


class Exchanged(Folders):
    def test_after_it_was_opened(self) -> None:
        with folders.kept():
            self.assertTrue(folder_of(self.name).has(b"links"))
            self.exchange()
            for name, text in self.old.items():
                self.assertEqual((name, folder_of(self.name).read(name.encode())), (name, text))
            self.assertFalse(folder_of(self.name).has(b"inodes"))
            with Session(LINUX.find(), self.name) as session:
                self.assertEqual(session.ask(b"getfacl other\n").messages, [b"getfacl: other: no such file"])
        with folders.kept(), Session(LINUX.find(), self.name) as session:
            self.assertIn(b"# file: other", session.ask(b"getfacl other\n").output.read())

    def test_while_it_is_opened(self) -> None:
        """It is opened once more, so that no file is lacking which only was removed."""
        real = trusted.open_beside
        seen: List[bytes] = []

        def open_beside(way: trusted.Way, name: bytes, whole: bytes) -> int:
            if name == b"dump" and not seen:
                seen.append(name)
                self.exchange()
            return real(way, name, whole)

        with patch("facl_commands.base.trusted.open_beside", open_beside), folders.kept():
            self.assertEqual(folder_of(self.name).read(b"dump"), OTHER)
            self.assertEqual(folder_of(self.name).read(b"passwd"), b"new:x:1:1::/:\n")
            self.assertFalse(folder_of(self.name).has(b"links"))

    def test_again_and_again(self) -> None:
        real = trusted.open_beside

        def open_beside(way: trusted.Way, name: bytes, whole: bytes) -> int:
            os.mkdir(self.path("before/%d" % len(os.listdir(self.path("before")))))
            return real(way, name, whole)

        with patch("facl_commands.base.trusted.open_beside", open_beside):
            self.expect_failure(self.name + b": is replaced again and again", self.name)

    def test_a_file_that_is_written(self) -> None:
        text = self.name + b"/dump: was changed while it was read: run the command again"
        with folders.kept():
            folder_of(self.name)
            with open(self.path("before/dump"), "ab") as file:
                file.write(OTHER)
            self.expect_failure(text, self.name)
            with self.assertRaises(Failure) as raised:  # Nor does the program get it.
                Session(LINUX.find(), self.name)
        self.assertEqual(raised.exception.text, text)

    def test_while_each_command_is_at_work(self) -> None:
        """The program that it starts puts another snapshot in its place before it reads: the command answers by the old one alone."""
        shutil.copytree(self.path("before"), self.path("after"))
        shutil.copytree(self.path("before"), self.path("stored"))
        self.write("after/dump", self.old["dump"].replace(b"other::---", b"other::r--", 3))
        self.write("edits", b"may ines r\nchmod 600 srv/share/one\n")
        self.write("rules", b"never ben write srv/share/one\n")
        # facl-diff starts two side by side, one of which gets the next.
        self.write("program", b"#!/bin/sh\nmv next mine.$$ 2>/dev/null && mv before gone.$$ && mv mine.$$ before && rm -r gone.$$\n"
                   b"exec '%s' \"$@\"\n" % os.fsencode(LINUX.find()))
        os.chmod(self.path("program"), 0o755)
        for command, words in COMMANDS_WITH_WORDS:
            with self.subTest(command=command, words=words):
                wanted = self.run_command(command, ["--program", "./program", *words])
                self.assertIn(wanted.status, (0, 1), wanted.messages)
                self.make_other("next")
                self.assertEqual(self.run_command(command, ["--program", "./program", *words]), wanted)
                self.assertEqual(self.read("before/dump"), OTHER)
                shutil.rmtree(self.path("before"))
                shutil.copytree(self.path("stored"), self.path("before"))

    def test_everybody_else_in_a_program_that_is_started_again(self) -> None:
        """As at the prompt, where an answer is given up."""
        with folders.kept():
            texts = texts_with(self.name, *people_in(self.name))
            self.exchange()
            for _ in range(2):
                with Session(LINUX.find(), self.name, texts) as session:
                    self.assertEqual(session.ask(b"getfacl other\n").messages, [b"getfacl: other: no such file"])

    def test_between_two_answers_of_parts(self) -> None:
        """facl-ask --each has a script answered twice where it counts: by the same snapshots."""
        with open(os.devnull, "rb") as file:
            part = Part(b"part", head_of(self.name, 0, False), OutputSlice(file, 0, 0), {})
        check_same([part], [part._replace(head=head_of(self.name, 0, False))])
        self.exchange()
        with self.assertRaises(Failure) as raised:
            check_same([part], [part._replace(head=head_of(self.name, 0, False))])
        self.assertEqual(raised.exception.text, b"part: another snapshot is in its place now: run the command again")


class Parts(Folders):
    def setUp(self) -> None:
        super().setUp()
        for part in ("001", "002"):
            shutil.copytree(self.path("before"), self.path("parts/" + part))

    def test_parts_are_those_of_the_folder_that_was_opened(self) -> None:
        for name in (os.fsencode(self.path("parts")), os.fsencode(self.path("parts/"))):
            with folders.kept():
                self.assertEqual(folder_of(name).parts, [b"001", b"002"])
                os.rename(self.path("parts"), self.path("moved"))
                self.make_other("other")
                os.mkdir(self.path("parts"))
                os.rename(self.path("other"), self.path("parts/002"))
                self.assertEqual(folder_of(os.path.join(name, b"002")).read(b"dump"), self.old["dump"])
            shutil.rmtree(self.path("parts"))
            os.rename(self.path("moved"), self.path("parts"))

    def test_a_part_that_is_opened_once_more_is_the_same(self) -> None:
        name = os.fsencode(self.path("parts"))
        with folders.kept(), patch("facl_commands.base.folders.MOST_OPEN", 1):
            for _ in range(2):
                for part in folder_of(name).parts:
                    self.assertEqual(folder_of(name + b"/" + part).read(b"dump"), self.old["dump"])
            self.write("parts/001/more", b"")
            self.expect_failure(name + b"/001: another snapshot is in its place now: run the command again", name + b"/001")

    def test_a_link_to_nothing_is_no_part(self) -> None:
        os.mkdir(self.path("empty"))
        os.symlink("nothing", self.path("empty/001"))
        self.assertEqual(folder_of(os.fsencode(self.path("empty"))).parts, [])


class OfOthers(Folders):
    """Texts that somebody else can have put there."""

    def put_link(self, target: str) -> None:
        os.unlink(self.path("before/dump"))
        os.symlink(target, self.path("before/dump"))

    def test_a_link_that_comes_later_is_not_followed(self) -> None:
        with folders.kept():
            folder_of(self.name)
            self.put_link("/etc/passwd")
            self.assertEqual(folder_of(self.name).read(b"dump"), self.old["dump"])
            with Session(LINUX.find(), self.name) as session:
                self.assertEqual(session.ask(b"getfacl srv/share/one\n").messages, [])

    def test_links(self) -> None:
        os.mkdir(self.path("open"))
        for name, mode in (("open/dump", 0o644), ("mine", 0o644), ("theirs", 0o666)):
            self.write(name, OTHER)
            os.chmod(self.path(name), mode)
        os.chmod(self.path("open"), 0o777)
        whole = os.fsencode(os.path.realpath(self.folder))
        fault = b": can be written by everybody, so it is not trusted"
        self.put_link("../mine")
        self.assertEqual(folder_of(self.name).read(b"dump"), OTHER)
        for target, place in (("../theirs", b"/theirs"), ("../open/dump", b"/open")):
            self.put_link(target)
            self.expect_failure(self.name + b"/dump: " + whole + place + fault, self.name)
        self.put_link("../nothing")
        self.assertFalse(folder_of(self.name).has(b"dump"))
        self.put_link("dump")
        self.expect_failure(self.name + b"/dump: Too many levels of symbolic links", self.name)

    def test_each_file_is_looked_at(self) -> None:
        for name in ("passwd", "group", "dump", "links", "marks"):
            os.chmod(self.path("before/" + name), 0o622)
            self.expect_failure(os.path.realpath(self.name) + b"/" + name.encode() + b": can be written by everybody, so it is not trusted",
                                self.name, name.encode())
            os.chmod(self.path("before/" + name), 0o600)

    def test_a_pipe(self) -> None:
        os.unlink(self.path("before/marks"))
        os.mkfifo(self.path("before/marks"), 0o600)
        self.expect_failure(self.name + b"/marks: is not a regular file", self.name, b"marks")

    @unittest.skipUnless(os.geteuid() == 0, "only for root, who can give files away")
    def test_what_another_user_owns(self) -> None:
        """Also a link, and a file in a sticky folder that all can write; and a part of a tree."""
        shutil.copytree(self.path("before"), self.path("parts/001"))
        os.chown(self.path("parts/001"), STRANGER, -1)
        name = os.path.realpath(self.name)
        fault = b": belongs to user 54321, so it is not trusted"
        self.put_link("links")
        os.chown(self.path("before/dump"), STRANGER, -1, follow_symlinks=False)
        self.expect_failure(name + b"/dump" + fault, self.name)
        os.chmod(self.path("before"), 0o1777)
        self.write("before/meta", b"host other\ndate today\n")
        os.chown(self.path("before/meta"), STRANGER, -1)
        self.expect_failure(name + b"/meta" + fault, self.name, b"meta")
        parts = os.path.join(os.path.dirname(name), b"parts")
        with folders.kept():
            self.assertEqual(folder_of(parts).parts, [b"001"])
            self.expect_failure(parts + b"/001" + fault, parts + b"/001")


class Descriptors(Folders):
    def opened(self) -> List[str]:
        """What this process has open in the folder of the test."""
        numbers = [number for number in os.listdir("/proc/self/fd") if os.path.lexists("/proc/self/fd/" + number)]
        names = [os.readlink("/proc/self/fd/" + number) for number in numbers]
        return [name for name in names if name.startswith(os.path.realpath(self.folder))]

    def test_are_closed_again(self) -> None:
        shutil.copytree(self.path("before"), self.path("parts/001"))
        os.chmod(self.path("before/links"), 0o666)
        with folders.kept():
            folder_of(self.name)
            folder_of(os.fsencode(self.path("parts")))
            folder_of(os.fsencode(self.path("parts/001")))
            self.assertNotEqual(self.opened(), [])
            done = subprocess.run(["sh", "-c", "readlink /proc/$$/fd/*"], close_fds=False, stdout=subprocess.PIPE, check=False)
            self.assertNotIn(os.fsencode(os.path.realpath(self.folder)), done.stdout)
        self.assertEqual(self.opened(), [])
        folder_of(self.name).read(b"dump")
        with Session(LINUX.find(), self.name):
            self.assertEqual(self.opened(), [])

    def test_of_the_program(self) -> None:
        """It has the three texts alone, however it is started; where it has everybody else, whose row is in other texts, the dump."""
        self.write("program", b"#!/bin/sh\nreadlink /proc/$$/fd/* >>has\nexec '%s' \"$@\"\n" % os.fsencode(LINUX.find()))
        os.chmod(self.path("program"), 0o755)
        self.write("edits", b"may ines r\nchmod 600 srv/share/one\n")
        wanted = [os.path.realpath(self.path("before/" + name)).encode() for name in ("dump", "group", "passwd")]
        for command, words, names in (
            ("facl-who", ["read", "before"], wanted[:1]), ("facl-plan", ["before", "edits"], wanted[:1]),
            ("facl-ask", ["--headings", "before", "edits"], wanted[:1]),
            ("facl-ask", ["--part", "--everybody=facl-everybody-else-01234567:2000000000", "before"], wanted[:1]),
            ("facl-ask", ["before", "edits"], wanted), ("facl-ask", ["before"], wanted),
        ):
            with self.subTest(command=command, words=words):
                done = self.run_command(command, ["--program", "./program", *words])
                self.assertEqual(done.status, 0, done.messages)
                self.assertEqual(sorted(line for line in self.read("has").splitlines() if b"/before" in line), names)
                os.unlink(self.path("has"))


if __name__ == "__main__":
    unittest.main()
