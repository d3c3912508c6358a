"""Which program the commands ask, and what differs: a list with an empty mask, by Linux and by acl(5)."""
from __future__ import annotations

import argparse
import json
import os
import shutil
import unittest
from typing import Dict, List, Optional, Sequence, Tuple
from unittest import mock

from page_data import data_in
from small_tree import PASSWD, SmallTree

from facl_commands.base.messages import Failure
from facl_commands.base.programs import ACL5, LINUX, KnownProgram, find_program, program_words
from facl_commands.daily import command as daily
from facl_commands.daily.children import Children, Done
from facl_commands.daily.folder import DailyFolder
from facl_commands.daily.text import Text
from facl_commands.daily.words import read_words

NOTE = b"/srv/hr/note"
# Linux grants anna, the owner, rw-; bert, of the file's group, nothing; and carl, xaver and everybody else r--. By acl(5) the
# entries of bert, carl and xaver count, and have nothing under the mask.
LIST = b"""\
# owner: 1001
# group: 2001
user::rw-
user:1002:rw-
user:1003:rwx
user:1009:---
group::rw-
mask::---
other::r--
"""
OPEN = b"# owner: 0\n# group: 2001\nuser::rwx\ngroup::rwx\nother::r-x\n"
WARNING = b"%s: judged by the check of acl(5) (--acl5); ACLs by which Linux grants otherwise, as their mask is empty: 1, first: /srv/hr/note\n"
EVERYBODY = b"everybody else"


class Finding(unittest.TestCase):
    def given(self, program: Optional[str] = None, acl5: bool = False) -> argparse.Namespace:
        return argparse.Namespace(program=program, acl5=acl5)

    def test_the_program_of_each_judge(self) -> None:
        cases: List[Tuple[Optional[str], bool]] = [(None, False), (None, True), ("cat", False), ("cat", True)]
        with mock.patch.dict(os.environ, {"FACL": "true", "FACL_LINUX": "false"}):
            self.assertEqual([os.path.basename(find_program(self.given(*it))) for it in cases], ["false", "true", "cat", "cat"])

    def test_what_is_not_there(self) -> None:
        with mock.patch.dict(os.environ, {"FACL": "./absent"}):
            self.assertRaisesRegex(Failure, r"\./absent: no such program", find_program, self.given(acl5=True))
        lacking = "the program no-such-program is not on the path: give it with --program FILE"
        for known in (LINUX, ACL5):
            with self.assertRaises(Failure) as caught:
                KnownProgram("no-such-program", "NO_SUCH_PROGRAM", known.instead).find()
            self.assertEqual(caught.exception.text.decode(), lacking + ", or ask facl with --acl5" * (known == LINUX))

    def test_the_words_of_another_run(self) -> None:
        self.assertEqual(program_words(self.given()), [])
        self.assertEqual(program_words(self.given("x", True)), ["--program", "x", "--acl5"])


class EmptyMask(SmallTree):
    def setUp(self) -> None:
        super().setUp()
        self.take_list(LIST)

    def take_list(self, text: bytes) -> None:
        """Writes the snapshot with this list of the note, and people alone."""
        self.take({b"/srv/hr/": OPEN, NOTE: text}, passwd=PASSWD.replace(b"daemon:x:1:1::/:/bin/false\n", b""))

    def rows(self, name: str, *words: str, is_acl5: bool = False) -> List[List[bytes]]:
        """The fields of a table, with the one line about such lists where the answer is by acl(5)."""
        done = self.run_command(name, [*["--acl5"] * is_acl5, "--tsv", *words])
        self.assertEqual(done.messages, WARNING % name.encode() if is_acl5 else b"")
        return [line.split(b"\t") for line in done.out.splitlines()[1:]]

    def test_who(self) -> None:
        words = "facl-who", "read", "small", "/srv/hr/note"
        found = {row[0]: row[3] for row in self.rows(*words)}
        self.assertEqual(found, {EVERYBODY: b"other", b"anna": b"owner", b"carl": b"other", b"xaver": b"other"})
        self.assertEqual([row[0] for row in self.rows(*words, is_acl5=True)], [EVERYBODY, b"anna"])

    def test_ask(self) -> None:
        script = b"can carl srv/hr/note\ncan bert srv/hr/note\nwhy -- carl srv/hr/note\n"
        self.expect(self.run_command("facl-ask", ["small"], script), 0, b"r--\nnone\n# file: srv/hr/note\nother::r--\n\n")
        self.expect(self.run_command("facl-ask", ["--acl5", "small"], script), 0,
                    b"none\nnone\n# file: srv/hr/note\nuser:carl:rwx\t\t\t#effective:---\n\n", WARNING % b"facl-ask")
        self.expect(self.run_command("facl-ask", ["--program", ACL5.find(), "small"], script[:21]), 0, b"none\n")

    def test_check(self) -> None:
        self.write("rules", b"never xaver read srv/hr/note\nalways bert read srv/hr/note\n")
        os.chmod(self.path("rules"), 0o600)
        self.assertEqual([row[2] for row in self.rows("facl-check", "small", "rules")], [b"xaver", b"bert"])
        self.assertEqual([row[2] for row in self.rows("facl-check", "small", "rules", is_acl5=True)], [b"bert"])
        self.assertEqual(self.run_command("facl-check", ["--acl5", "--quiet", "small", "rules"]).messages, b"")

    def test_audit(self) -> None:
        edit = b"setfacl -n -m u:bert:---,u:carl:---,u:xaver:---,g::---,m::r-- /srv/hr/note"
        wanted = [b"user bert: rw- is r--, user carl: rwx is r--, user xaver: --- is r--", edit]
        for is_acl5 in (False, True):
            found = {row[1]: row[4:] for row in self.rows("facl-audit", "--fail-on", "none", "small", is_acl5=is_acl5)}
            self.assertEqual(found[b"empty-mask"], wanted)
            self.assertNotIn(b"mask-cuts-entry", found)
        self.write("edits", edit)
        self.assertEqual(self.run_command("facl-plan", ["small", "edits"]).out.splitlines()[1:3], [
            b"carl   r-- -> none    1 file    first: /srv/hr/note", b"xaver  r-- -> none    1 file    first: /srv/hr/note"])
        self.assertIn(b"; nobody may do anything else than before", self.run_command("facl-plan", ["--acl5", "small", "edits"]).out)
        # An entry that says what others have does what it says; where others have nothing, the mask cuts the others.
        self.take_list(LIST.replace(b"user:1002:rw-\nuser:1003:rwx\nuser:1009:---", b"user:1003:r--"))
        self.assertNotIn(b"empty-mask", {row[1] for row in self.rows("facl-audit", "--fail-on", "none", "small")})
        self.take_list(LIST.replace(b"other::r--", b"other::---"))
        cut = {row[1]: row[4] for row in self.rows("facl-audit", "--fail-on", "none", "small")}
        self.assertEqual(cut[b"mask-cuts-entry"], b"user bert: rw- is ---, user carl: rwx is ---")
        self.assertNotIn(b"empty-mask", cut)

    def test_a_writer_by_what_others_have(self) -> None:
        self.take_list(LIST.replace(b"other::r--", b"other::rw-"))
        self.assertNotIn(b"writer-outside-groups", {row[1] for row in self.rows("facl-audit", "--fail-on", "none", "small")})

    def test_a_mask_that_got_empty_for_a_group(self) -> None:
        # carl is of law, and bert of the file's group.
        text = LIST.replace(b"user:1002:rw-\nuser:1003:rwx\nuser:1009:---\n", b"").replace(b"group::rw-\n", b"group::rw-\ngroup:2002:rw-\n")
        self.take_list(text)
        os.rename(self.path("small"), self.path("later"))
        self.take_list(text.replace(b"mask::---", b"mask::rw-"))
        rows = self.rows("facl-diff", "--full", "small", "later")
        self.assertEqual(sorted((*row[:3], row[5]) for row in rows), [
            (b"rw-", b"none", b"bert", b"mask changed"), (b"rw-", b"r--", b"carl", b"mask changed")])

    def test_diff(self) -> None:
        os.rename(self.path("small"), self.path("later"))
        self.take_list(LIST.replace(b"mask::---", b"mask::rwx"))
        changes: Dict[bool, List[Sequence[bytes]]] = {
            False: [(b"none", b"r--", b"xaver"), (b"rw-", b"none", b"bert"), (b"rwx", b"r--", b"carl")],
            True: [(b"rw-", b"none", b"bert"), (b"rwx", b"none", b"carl")]}
        for is_acl5, wanted in changes.items():
            rows = self.rows("facl-diff", "--full", "small", "later", is_acl5=is_acl5)
            self.assertEqual(sorted(tuple(row[:3]) for row in rows), wanted)
            self.assertEqual({row[5] for row in rows}, {b"mask changed"})


    def test_each_json_has_the_judge(self) -> None:
        shutil.copytree(self.path("small"), self.path("later"))
        self.write("edits", b"chmod 600 /srv/hr/note\n")
        self.write("rules", b"never xaver read srv/hr/note\n")
        os.chmod(self.path("rules"), 0o600)
        cases: List[Tuple[str, List[str]]] = [("facl-who", ["read", "small"]), ("facl-diff", ["small", "later"]), ("facl-audit", ["small"]),
                                              ("facl-check", ["small", "rules"]), ("facl-plan", ["small", "edits"])]
        judges: List[Tuple[List[str], str]] = [([], "linux"), (["--acl5"], "acl5")]
        for name, words in cases:
            for option, judge in judges:
                found = json.loads(self.run_command(name, ["--json", *option, *words]).out)
                self.assertEqual((found["judge"], list(found).index("judge")), (judge, 2), name)

    def test_each_page_has_the_judge(self) -> None:
        shutil.copytree(self.path("small"), self.path("later"))
        cases: List[Tuple[str, List[str]]] = [
            ("facl-report", ["--output", "PAGE", "small"]), ("facl-report", ["--for-review", "--folder", "/srv/hr", "--output", "PAGE", "small"]),
            ("facl-diff", ["--page", "PAGE", "small", "later"]), ("facl-audit", ["--page", "PAGE", "small"])]
        judges: List[Tuple[List[str], str]] = [([], "what Linux grants"),
                                               (["--acl5"], "the check of acl(5), by which Linux does not go where a mask is empty")]
        for number, (name, words) in enumerate(cases):
            for option, judge in judges:
                page = "page%d%d.html" % (number, bool(option))
                self.run_command(name, [*option, *(page if it == "PAGE" else it for it in words)])
                data = data_in(self.read(page))
                self.assertEqual(dict(data["facts"])["judge"] if "facts" in data else data["judge"], judge, (name, words))

    def test_lists_that_both_take_alike(self) -> None:
        self.take_list(LIST.replace(b"mask::---", b"mask::r--"))
        self.assertEqual(self.run_command("facl-who", ["--acl5", "read", "small"]).messages, (WARNING % b"facl-who").replace(
            b": 1, first: /srv/hr/note", b": 0"))


class Asked(Children):
    """Commands that are not run."""

    def __init__(self) -> None:
        self.commands: List[List[str]] = []

    def run(self, words: Sequence[str], passed: Sequence[int] = ()) -> Done:
        self.commands.append([*words])
        return Done(0, b"")


class Kept(DailyFolder):
    def __init__(self) -> None:
        self.name, self.work, self.lock_file = b"/kept", b".work", 0
        self.descriptor = -1

    def made(self) -> List[bytes]:
        return [b"2026-01-01"]

    def new_name(self, day: bytes, names: List[bytes]) -> bytes:
        return day


class DailyWords(unittest.TestCase):
    def test_the_head_of_a_mail(self) -> None:
        plain, by_acl5 = (Text(["/srv"], is_acl5).body() for is_acl5 in (False, True))
        self.assertTrue(plain.endswith(b": /srv\n"), plain)
        self.assertEqual(by_acl5, plain + b"judged by the check of acl(5) (--acl5)\n")

    def test_each_command_is_asked_by_the_judge(self) -> None:
        cases: List[List[str]] = [[], ["--acl5"]]
        for words in cases:
            asked = Asked()
            given = read_words([*words, "--rules", "rules", "/srv"])
            self.assertTrue(daily.Asking(given, Kept(), asked, Text([])).ask_all())
            self.assertEqual([it[0] for it in asked.commands], ["facl-diff", "facl-audit", "facl-check"])
            self.assertEqual(["--acl5" in it for it in asked.commands], [bool(words)] * 3)


if __name__ == "__main__":
    unittest.main()
