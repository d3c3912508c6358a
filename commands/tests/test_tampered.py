"""facl-plan where somebody changes what the program is given or what it answers, played by stand-ins: the bytes of lists that
facl-apply would set have to be those of the entries that a person reads. Else nothing is written."""
from __future__ import annotations

import os
import sys
import unittest

from common import Case

from facl_commands.base.programs import LINUX

# Runs the program as it is, but where it is asked for the bytes of lists: there `bodies` changes the records that it is given,
# and `answers` what it prints. Else `listings` changes the records.
STAND_IN = """\
#!%(python)s -IS
import os, re, subprocess, sys, tempfile
bodies = answers = listings = lambda text: text
%(changes)s
words = [%(program)r, *sys.argv[1:]]
with open(words[-1], "rb") as file:
    dump = file.read()
is_asked_for_bytes = dump.startswith(b"# file: 0/\\n")
with tempfile.NamedTemporaryFile(dir=%(folder)r, delete=False) as file:
    file.write(bodies(dump) if is_asked_for_bytes else listings(dump))
words[-1] = file.name
if not is_asked_for_bytes:
    os.execv(words[0], words)
lines = b""
while not lines.endswith(b"\\n") or not lines.splitlines()[-1].startswith(b"getfacl "):
    lines += sys.stdin.buffer.readline()
done = subprocess.run(words, input=lines, capture_output=True, close_fds=False)
os.write(1, answers(done.stdout))
os.write(2, done.stderr)
sys.stdin.buffer.read()
"""
ACCESS = 'rb"(?m)^system.posix_acl_access=0x(.*)$"'
EDIT = b"setfacl -m u:guest:r srv/share/one\n"
CHANGED = (b"facl-plan: nothing was written: the bytes of an ACL are not those of its entries: somebody else can have changed "
           b"what the program was given, or the program is of another version\n")


class Tampered(Case):
    def setUp(self) -> None:
        super().setUp()
        os.mkdir(self.path("work"))

    def planned_by(self, changes: str, edit: bytes = EDIT) -> int:
        """Plans with a stand-in; the status, where nothing else is said than that the bytes are others."""
        text = STAND_IN % {"python": sys.executable, "changes": changes, "program": LINUX.find(), "folder": self.path("work")}
        self.write("stand_in", text.encode())
        os.chmod(self.path("stand_in"), 0o755)
        done = self.plan(edit, "--program", "./stand_in")
        self.assertEqual(done.messages, b"" if done.status == 0 else CHANGED, changes)
        return done.status

    def expect_refused(self, changes: str, edit: bytes = EDIT) -> None:
        self.assertEqual(self.planned_by(changes, edit), 2, changes)
        self.assertEqual(sorted(os.listdir(self.folder)), ["before", "edits", "stand_in", "work"], changes)

    def test_the_stand_in_itself_changes_nothing(self) -> None:
        self.assertEqual(self.planned_by(""), 0)
        with_stand_in = self.read("before.plan/files")
        self.assertEqual(self.plan(EDIT, "--plan", "other").status, 0)
        self.assertEqual(with_stand_in, self.read("other/files"))

    def test_a_right_listing_and_bytes_of_other_lists(self) -> None:
        for change in (
            'bodies = lambda text: text.replace(b"other::---", b"other::rw-")',
            'bodies = lambda text: text.replace(b"user:1009:r--", b"user:1004:r--")',
            'bodies = lambda text: re.sub(rb"(?m)^user:1009:.*\\n", b"", text)',
        ):
            self.expect_refused(change)
        self.expect_refused('bodies = lambda text: text.replace(b"default:other::---", b"default:other::rwx")',
                            b"setfacl -d --set u::rwx,g::r-x,o::- srv/share\n")

    def test_right_bytes_and_another_listing(self) -> None:
        """What a person reads has another entry than what facl-apply would set."""
        self.expect_refused('listings = lambda text: text.replace(b"other::r--", b"other::rwx").replace(b"other::---", b"other::rwx")\n'
                            'bodies = lambda text: text.replace(b"other::rwx", b"other::---")')

    def test_answers_that_are_no_lists(self) -> None:
        for text in ("", "0", "02000000", "0200000001000600ffffffff", "01000000" + "00" * 24, "02000000" + "40" * 24, "02000000" + "00" * 23):
            self.expect_refused('answers = lambda text: re.sub(%s, b"system.posix_acl_access=0x%s", text)' % (ACCESS, text))
        # Permissions of eight and more, of which the entries show none.
        self.expect_refused('answers = lambda text: text.replace(b"20000000ffffffff", b"20000800ffffffff")')

    def test_answers_too_few_and_too_many(self) -> None:
        for change in ('b""', "text + text", "text[:-2]", "text[: len(text) // 2]", 'text.replace(b"0x", b"0s")',
                       r'b"\n\n".join(reversed(text.split(b"\n\n")))'):
            self.expect_refused("answers = lambda text: " + change)


if __name__ == "__main__":
    unittest.main()
