"""The files that a command makes for itself."""
from __future__ import annotations

import os
import signal
import unittest
from unittest import mock

from common import Case

from facl_commands.base import new_file, scratch
from facl_commands.base.messages import Failure, Interrupted, interrupt


class Scratch(Case):
    def setUp(self) -> None:
        super().setUp()
        self.place = os.path.realpath(self.path("place"))
        os.mkdir(self.place, 0o755)
        before = os.getcwd()
        self.addCleanup(os.chdir, before)
        os.chdir(self.place)

    def given(self, name: str) -> "mock._patch_dict":
        return mock.patch.dict(os.environ, {"TMPDIR": name})

    def folder_of_new_file(self) -> str:
        """In which folder a new file is made."""
        with scratch.new_file("facl-x.") as file:
            return os.path.dirname(os.readlink("/proc/self/fd/%d" % file.fileno()))

    def test_a_file_has_no_name(self) -> None:
        with self.given(self.place), scratch.new_file("facl-x.") as file:
            self.assertEqual(file.read(), b"")
            file.write(b"abc")
            file.seek(0)
            look = os.fstat(file.fileno())
            self.assertEqual((file.read(), look.st_nlink, look.st_size, os.listdir(self.place)), (b"abc", 0, 3, []))

    def test_a_place_that_others_can_write_or_that_is_relative_is_not_taken(self) -> None:
        open_to_all = self.path("open")
        os.mkdir(open_to_all)
        os.chmod(open_to_all, 0o777)
        for name in (".", "", open_to_all, self.path("none"), os.path.join(self.place, "..", "open")):
            with self.given(name):
                self.assertEqual(self.folder_of_new_file(), os.path.realpath("/tmp"))
            self.assertEqual(os.listdir(self.place) + os.listdir(open_to_all), [])
        with self.given(self.place):
            self.assertEqual(self.folder_of_new_file(), self.place)

    def test_no_place_is_a_failure_and_never_the_current_folder(self) -> None:
        with self.given(self.path("none")), mock.patch.object(scratch, "USUAL", (b"/nowhere",)):
            with self.assertRaises(Failure) as found:
                scratch.new_file("facl-x.")
        self.assertRegex(found.exception.text, rb"^no place for files of the command's own: .*/none: No such file or "
                         rb"directory; /nowhere: No such file or directory$")
        self.assertEqual((found.exception.status, os.listdir(self.place)), (2, []))

    def test_a_place_without_room_is_left_out(self) -> None:
        other = os.path.realpath(self.path("other"))
        os.mkdir(other)
        write = os.pwrite

        def full_at_first(descriptor: int, text: bytes, place: int) -> int:
            if os.readlink("/proc/self/fd/%d" % descriptor).startswith(self.place):
                raise OSError(28, "No space left on device")
            return write(descriptor, text, place)

        with self.given(self.place), mock.patch.object(scratch, "USUAL", (os.fsencode(other),)), \
                mock.patch.object(os, "pwrite", full_at_first):
            self.assertEqual(self.folder_of_new_file(), other)
        with self.given(self.place), mock.patch.object(scratch, "USUAL", (os.fsencode(other),)), \
                mock.patch.object(os, "pwrite", lambda *_: 1), self.assertRaises(Failure):
            scratch.new_file("facl-x.")

    def test_a_signal_leaves_nothing(self) -> None:
        self.addCleanup(signal.signal, signal.SIGTERM, signal.signal(signal.SIGTERM, interrupt))
        def create_and_signal(name: bytes, folder: int) -> int:
            os.kill(os.getpid(), signal.SIGTERM)
            return new_file.create(name, folder)

        with self.given(self.place), self.assertRaises(Interrupted), mock.patch.object(scratch, "create", create_and_signal):
            scratch.new_file("facl-x.")
        self.assertEqual(os.listdir(self.place), [])


if __name__ == "__main__":
    unittest.main()
