"""What the commands trust: folders and files that nobody else can have written."""
from __future__ import annotations

import os
import pwd
import unittest
from unittest import mock

from common import Case
from real import RealCase

from facl_commands.base import linux, trusted
from facl_commands.base.messages import Failure

as_root = unittest.skipUnless(os.geteuid() == 0, "only for root, who can give files away")
EVERYBODY = b": can be written by everybody, so it is not trusted\n"
STRANGER = 54321


class Folders(Case):
    def setUp(self) -> None:
        super().setUp()
        self.whole = os.fsencode(os.path.realpath(self.folder))
        self.assertEqual(self.plan(b"chmod 600 srv/share/one\n").status, 0)

    def expect_refused(self, message: bytes, command: str, *words: str) -> None:
        done = self.run_command(command, list(words))
        self.expect(done, 2, b"", command.encode() + b": " + message)

    def expect_all_refuse(self, message: bytes, snapshot: str = "before") -> None:
        self.expect_refused(message, "facl-plan", "--plan", "other", snapshot, "edits")
        self.expect_refused(message, "facl-ask", snapshot, "edits")
        self.expect_refused(message, "facl-report", snapshot)
        self.expect_refused(message, "facl-who", "read", snapshot)
        self.expect_refused(message, "facl-diff", snapshot, snapshot)
        self.assertFalse(os.path.exists(self.path("other")))

    def test_a_snapshot_that_everybody_can_write(self) -> None:
        os.chmod(self.path("before"), 0o777)
        self.expect_all_refuse(self.whole + b"/before" + EVERYBODY)
        os.chmod(self.path("before"), 0o1777)  # But what is in it belongs to the caller.
        self.assertEqual(self.run_command("facl-ask", ["before", "edits"]).status, 0)

    def test_a_file_of_it_that_everybody_can_write(self) -> None:
        for name in ("dump", "passwd", "group"):
            os.chmod(self.path("before/" + name), 0o666)
            self.expect_all_refuse(self.whole + b"/before/" + name.encode() + EVERYBODY)
            os.chmod(self.path("before/" + name), 0o600)

    def test_a_folder_above(self) -> None:
        os.makedirs(self.path("open/inner"))
        os.rename(self.path("before"), self.path("open/inner/before"))
        os.chmod(self.path("open"), 0o777)
        self.expect_all_refuse(b"open/inner/before: " + self.whole + b"/open" + EVERYBODY, "open/inner/before")

    def test_a_link_to_it(self) -> None:
        os.symlink("before", self.path("link"))
        self.assertEqual(self.run_command("facl-ask", ["link", "edits"]).status, 0)
        os.mkdir(self.path("open"))
        os.chmod(self.path("open"), 0o777)
        os.symlink("../before", self.path("open/link"))
        self.expect_all_refuse(b"open/link: " + self.whole + b"/open" + EVERYBODY, "open/link")
        os.symlink("loop", self.path("loop"))
        with self.assertRaises(Failure):
            trusted.open_folder(os.fsencode(self.path("loop")))

    def test_a_folder_in_the_place_of_a_file(self) -> None:
        for name in ("passwd", "group", "dump", "links"):
            os.rename(self.path("before/" + name), self.path("kept"))
            os.mkdir(self.path("before/" + name), 0o700)
            for done in (self.run_command(*it) for it in (("facl-who", ["read", "before"]), ("facl-report", ["before"]))):
                self.assertEqual((done.status, done.out), (2, b""))
                self.assertTrue(done.messages.endswith(b"before/" + name.encode() + b": Is a directory\n"), done.messages)
            os.rmdir(self.path("before/" + name))
            os.rename(self.path("kept"), self.path("before/" + name))

    def test_descriptors_of_the_caller(self) -> None:
        reader, writer = os.pipe()
        os.write(writer, b"text")
        os.close(writer)
        with self.assertRaises(Failure):  # One of the command's own.
            trusted.read_given(b"/dev/fd/%d" % reader)
        os.set_inheritable(reader, True)
        for name in (b"/dev/fd/%d", b"/proc/self/fd/%d"):
            self.assertEqual(trusted.read_given(name % reader), b"text" if name.startswith(b"/dev") else b"")
        os.close(reader)
        with self.assertRaises(Failure):
            trusted.read_given(b"/dev/fd/%d" % reader)

    def test_a_plan(self) -> None:
        for name in ("before.plan", "before.plan/files", "before.plan/plan"):
            mode = os.stat(self.path(name)).st_mode & 0o777
            os.chmod(self.path(name), 0o777)
            done = self.run_command("facl-apply", ["before.plan"])
            self.assertEqual((done.status, done.out), (2, b""))
            self.assertTrue(done.messages.endswith(name.encode() + EVERYBODY), done.messages)
            os.chmod(self.path(name), mode)

    def test_a_link_in_a_plan_is_not_followed(self) -> None:
        os.rename(self.path("before.plan/files"), self.path("files"))
        os.symlink(self.path("files"), self.path("before.plan/files"))
        self.assertEqual(self.run_command("facl-apply", ["before.plan"]).status, 2)

    @as_root
    def test_what_belongs_to_others(self) -> None:
        for name in ("dump", ""):
            os.chown(self.path("before/" + name), STRANGER, -1)
            place = b"/before" + (b"/" + name.encode() if name else b"")
            self.expect_all_refuse(self.whole + place + b": belongs to user 54321, so it is not trusted\n")
            os.chown(self.path("before/" + name), 0, -1)
        os.chown(self.path("before.plan"), STRANGER, -1)
        done = self.run_command("facl-apply", ["before.plan"])
        self.assertEqual(done.status, 2)
        self.assertIn(b"belongs to user 54321", done.messages)

    def test_a_file_system_of_another_user(self) -> None:
        """Its owner says whose the files on it are."""
        self.write("mounts", b"36 35 0:50 / /mnt rw,nosuid - fuse.sshfs a:/b rw,user_id=54321,group_id=7\n"
                             b"37 35 0:51 / /shared rw - virtiofs shared rw\n")
        with mock.patch.object(linux, "MOUNTS_FILE", self.path("mounts")), mock.patch.object(linux, "file_system_of", lambda _: linux.FUSE):
            self.assertEqual([linux.server_of(0, os.makedev(0, minor)) for minor in (50, 51, 52)], [STRANGER, None, None])
        os.close(trusted.open_folder(self.whole))
        for server in (STRANGER, None, 0, os.geteuid()):
            with mock.patch.object(linux, "server_of", lambda *_, server=server: server):
                if server == STRANGER:
                    with self.assertRaisesRegex(Failure, "is on a file system of another user"):
                        trusted.open_folder(self.whole)
                else:
                    os.close(trusted.open_folder(self.whole))

    @as_root
    def test_a_group_of_others(self) -> None:
        os.chown(self.path("before"), 0, STRANGER)
        os.chmod(self.path("before"), 0o770)
        self.expect_all_refuse(self.whole + b"/before: can be written by others (its group, or users and groups of its "
                                                         b"ACL), so it is not trusted\n")
        os.chmod(self.path("before"), 0o750)
        self.assertEqual(self.run_command("facl-ask", ["before", "edits"]).status, 0)


class Owners(unittest.TestCase):
    def test_the_name_of_an_owner(self) -> None:
        """It may be any bytes, as those of another encoding."""
        row = pwd.struct_passwd(("b\udce9b", "x", STRANGER, STRANGER, "", "/", "/bin/sh"))
        with mock.patch.object(pwd, "getpwuid", lambda _: row):
            self.assertEqual(trusted.owner_name(STRANGER), b"b\351b")


class Mounts(Case):
    """What is mounted is a word of whoever did it, as any user by fusermount -o fsname=WORD."""

    def test_odd_words(self) -> None:
        self.write("mounts", b"36 35 0:50 / /mnt rw - fuse.a  rw,user_id=54321,group_id=7\n"
                             b"37 35 0:51 / /own rw - fuse - rw,user_id=54321\n"
                             b"38 35 0:52 / /odd rw - fuse user_id=0 rw,user_id=54321\n"
                             b"39 35 0:53 / /over rw shared:1 - overlay - rw,lowerdir=/a\n")
        with mock.patch.object(linux, "MOUNTS_FILE", self.path("mounts")), mock.patch.object(linux, "file_system_of", lambda _: linux.FUSE):
            found = [linux.server_of(0, os.makedev(0, minor)) for minor in (50, 51, 52, 53)]
            self.assertEqual((found, linux.overlays()), ([STRANGER, STRANGER, STRANGER, None], {b"0:53"}))


class PlansInTheirPlace(RealCase):
    """A plan that was used is the way back, and is never removed; nor is what others have put there."""

    def setUp(self) -> None:
        super().setUp()
        self.make("a")
        self.planned(b"chmod 600 " + self.word("a"))

    def again(self, mode: bytes = b"644") -> bytes:
        self.take_snapshot()
        done = self.plan(b"chmod " + mode + b" " + self.word("a") + b"\n")
        self.assertEqual(done.status, 0, done.messages)
        return done.messages

    def test_a_used_plan_gets_a_number(self) -> None:
        self.assertEqual(self.apply().status, 0)
        self.assertEqual(self.again(), b"facl-plan: kept the earlier plan as before.plan.1\n")
        self.assertEqual((self.read("before.plan.1/state"), os.path.exists(self.path("before.plan/state"))), (b"applied\n", False))
        self.assertEqual(self.apply().status, 0)
        self.assertEqual(self.again(b"604"), b"facl-plan: kept the earlier plan as before.plan.2\n")
        for name, mode in (("before.plan.2", 0o600), ("before.plan.1", 0o640)):
            self.assertEqual(self.run_command("facl-apply", ["--undo", name]).status, 0)
            self.assertEqual(self.mode("a"), mode)

    def test_one_that_was_not_used_is_replaced(self) -> None:
        self.assertEqual(self.again(), b"")
        self.assertEqual([name for name in os.listdir(self.folder) if "plan" in name], ["before.plan"])

    def test_files_of_others(self) -> None:
        self.write("before.plan/notes", b"mine")
        done = self.plan(b"chmod 644 " + self.word("a") + b"\n")
        self.expect(done, 2, b"", b"facl-plan: before.plan exists and is not a plan alone (it has other files); choose another name with -o\n")
        self.assertEqual(self.read("before.plan/notes"), b"mine")

    def test_one_lock(self) -> None:
        from facl_commands.planned import plan_folder

        folder = plan_folder.open_plan(os.fsencode(self.path("before.plan")))
        self.addCleanup(os.close, folder.descriptor)
        message = b"before.plan: another facl plan, apply, undo or by_hand is at work on it\n"
        for done in (self.plan(b"chmod 644 " + self.word("a") + b"\n"), self.apply()):
            self.assertEqual((done.status, done.out), (2, b""))
            self.assertTrue(done.messages.endswith(message), done.messages)


if __name__ == "__main__":
    unittest.main()
