"""Tables, JSON, colours and the pager; which users and folders a report is about."""
from __future__ import annotations

import argparse
import json
import os
import shutil
import subprocess
import sys
import unicodedata
import unittest
from typing import List
from unittest import mock

from common import COMMANDS, HERE, Case

from facl_commands.base import names, tables
from facl_commands.base.accounts import is_person
from facl_commands.base.messages import Failure
from facl_commands.base.programs import LINUX
from facl_commands.base.tables import Column
from facl_commands.model import choice
from facl_commands.model.people import ids_in
from facl_commands.program.session import Session

PASSWD = b"".join(b"%s:x:%d:100::/:\n" % row for row in (
    (b"root", 0), (b"toor", 0), (b"daemon", 1), (b"svc", 999), (b"ann", 1000), (b"bob", 59999), (b"home", 60513), (b"dyn", 60514), (b"old", 65533),
    (b"nobody", 65534), (b"edge", 65535), (b"dom", 65536), (b"AD\\eve", 1_234_500_123), (b"a b", 2000)))


def given(*words: str) -> argparse.Namespace:
    parser = argparse.ArgumentParser()
    choice.add_choice(parser)
    return parser.parse_args(words)


class Tables(unittest.TestCase):
    def test_texts_are_cut_in_their_middle(self) -> None:
        for text, width, wanted in (("/srv/project/a", 14, "/srv/project/a"), ("/srv/project/a", 10, "/srv..ct/a"), ("abcdef", 3, "..f"),
                                    ("abcdef", 2, ".."), ("abcdef", 1, "."), ("漢字漢字漢", 8, "漢..字漢"), ("e\u0301" * 9, 9, "e\u0301" * 9)):
            self.assertEqual(tables.cut(text, width), wanted)
            self.assertLessEqual(tables.width_of(wanted), width)

    def test_the_widest_columns_are_cut(self) -> None:
        columns = [Column("a"), Column("b", True), Column("c"), Column("d")]
        self.assertEqual(tables.fitting([5, 7, 9, 9], columns, 36), [5, 7, 9, 9])
        self.assertEqual(tables.fitting([5, 7, 99, 50], columns, 60), [5, 7, 21, 21])
        self.assertEqual(tables.fitting([5, 7, 10, 50], columns, 60), [5, 7, 10, 32])
        self.assertEqual(tables.fitting([50, 7, 50, 50], columns, 10), [6, 7, 6, 6])

    def test_lines_of_a_screen(self) -> None:
        self.assertEqual([tables.lines_at_terminal(text, 4) for text in (b"", b"\n", b"abcd\n", b"abcde\nx\n")], [0, 1, 1, 3])


class Names(unittest.TestCase):
    # Each has a form of its own in a font, though its category is Cf: signs of numbers and abbreviations, and the joiners of hieroglyphs.
    SEEN = {*range(0x600, 0x606), 0x6DD, 0x70F, 0x890, 0x891, 0x8E2, 0x110BD, 0x110CD, *range(0x13430, 0x13440)}

    def test_letters_that_cannot_be_seen(self) -> None:
        for code in filter(lambda code: not 0xD800 <= code < 0xE000, range(sys.maxunicode + 1)):
            is_unseen = unicodedata.category(chr(code)) in ("Cc", "Cf", "Zl", "Zp") and code not in self.SEEN | {9}
            if is_unseen or names.UNSEEN.match(chr(code)):
                text = chr(code).encode()
                self.assertEqual(names.shown(b"a" + text), b"a" + b"".join(b"\\%03o" % byte for byte in text))
                self.assertEqual(names.read_name(names.shown(b"a" + text)), b"a" + text)

    def test_letters_without_a_category(self) -> None:
        """Those that Unicode calls ignorable by default, and others that are blank."""
        for first, last in ((0x34F, 0x34F), (0x115F, 0x1160), (0x17B4, 0x17B5), (0x180B, 0x180F), (0x2065, 0x2065), (0x2800, 0x2800),
                            (0x3164, 0x3164), (0xFE00, 0xFE0F), (0xFFA0, 0xFFA0), (0xFFF0, 0xFFFB), (0xE0000, 0xE0FFF)):
            for code in range(first, last + 1):
                self.assertRegex(names.shown(chr(code).encode()), rb"\A(\\[0-7]{3}){2,4}\Z")
        for text in ("m\u00fcller", "\u6f22", "e\u0301", "\u0627\u0644", "\U0001f600", "a\tb", "\u115e", "\u2801", "\ufffd"):
            self.assertEqual(names.shown(text.encode()), text.encode())


class Fields(unittest.TestCase):
    def test_what_a_spreadsheet_would_compute(self) -> None:
        marked = (b"=1+1", b"+1", b"-1", b"-x", b"-x1+cmd|' /C calc'!A0", b"-rand()", b"-w-1", b"-w- =1", b"@sum(1)", b"'=1", b"\"=1\"", b"\r=1", b"-", b"--", b"'")
        plain = (b"", b"---", b"--x", b"-w-", b"-w- r-x", b"-wx", b"r--", b"rwx", b"12", b"srv/-x", b"/srv/=x", b"user:mara:rwx", b"a=b")
        for text in marked:
            self.assertEqual(tables.field_of(text), b"'" + text)
        for text in plain:
            self.assertEqual(tables.field_of(text), text)

    def test_a_script_can_take_the_mark_off(self) -> None:
        rows = [[b"=a", b"'b", b"-w-"], [b"c", b"-d", b"+e"], [b"''=f", b"", b"@g"]]
        text = b"".join(b"\t".join(map(tables.field_of, row)) + b"\n" for row in rows)
        done = subprocess.run(["sed", "s/\\(^\\|\\t\\)'/\\1/g"], input=text, capture_output=True, check=True)
        self.assertEqual(done.stdout, b"".join(b"\t".join(row) + b"\n" for row in rows))

    @unittest.skipIf(shutil.which("node") is None, "it takes node")
    def test_the_page_has_the_same_marks(self) -> None:
        with open(os.path.join(COMMANDS, "facl_commands", "page", "report.js"), encoding="utf-8") as file:
            function = next(line for line in file if line.startswith("function field("))
        texts = [start + end for start in ("", "-", "--", "-w", "-x", "r", "=", "+", "@", "'", '"', "\r", "a", "-\t") for end in ("", "x", "-", "1", "xx", "w-x", "w- r-x", "w- =1")]
        done = subprocess.run(["node", "-e", function + "console.log(JSON.stringify(%s.map(field)))" % json.dumps(texts)], capture_output=True, check=True)
        self.assertEqual(json.loads(done.stdout), [tables.field_of(text.encode()).decode() for text in texts])


class Users(unittest.TestCase):
    def test_people(self) -> None:
        people = {name for name, uid in ids_in(PASSWD).items() if is_person(uid)}
        self.assertEqual(people, {b"ann", b"bob", b"home", b"dom", b"AD\\eve", b"a b"})

    def test_who_is_kept(self) -> None:
        users = [b"root", b"daemon", b"ann", b"AD\\134eve", b"a\\040b", b"nobody", b"gone"]
        for words, places in (("", [2, 3, 4]), ("--all-users", [1, 2, 3, 4, 5]), ("--with-root", [0, 2, 3, 4]),
                              ("--all-users --with-root", [0, 1, 2, 3, 4, 5])):
            self.assertEqual(choice.kept(users, given(*words.split()), PASSWD), [users[place] for place in places])

    def test_who_is_left_out_is_said(self) -> None:
        for users, wanted in (([b"root"], []), ([b"toor", b"root"], [b"users with the uid 0 not shown (toor, root); --with-root shows them"]),
                              ([b"daemon"], [b"1 system account not shown (daemon); --all-users shows it"]),
                              ([b"root", b"nobody", b"svc"], [b"2 system accounts not shown (nobody, svc); --all-users shows them"])):
            self.assertEqual(list(choice.notes(users, PASSWD)), wanted)

    def test_order(self) -> None:
        self.assertEqual(choice.in_order([b"a\\040b", b"ann", b"AD\\134eve", b"ann"], PASSWD), [b"ann", b"AD\\134eve", b"a\\040b"])


class Folders(Case):
    def folders(self, snapshot: str, *words: bytes) -> List[bytes]:
        with Session(LINUX.find(), os.fsencode(os.path.join(HERE, "snapshots", snapshot))) as session:
            return choice.folders_of(session, map(os.fsdecode, words))

    def test_folders_as_a_person_writes_them(self) -> None:
        for word, path in ((b"/srv/share", b"srv/share"), (b"srv//share/.", b"srv/share"), (b"/", b""), (b".", b""),
                           (b"/srv/share/a\nb", b"srv/share/a\nb"), (b"/srv/share/a\\012b", b"srv/share/a\nb"),
                           (b"/srv/share/back\\slash", b"srv/share/back\\slash"), (b"/srv/share/back\\\\slash", b"srv/share/back\\slash"),
                           (b"/srv/share/p\xe9q", b"srv/share/p\xe9q"), (b"/srv/share/plan 2 ", b"srv/share/plan 2 "), (b"srv/share/-x", b"srv/share/-x")):
            self.assertEqual(self.folders("share", word), [path])
        self.assertEqual(self.folders("share"), [b""])

    def test_folders_that_are_not_recorded(self) -> None:
        for snapshot, word, made_of in (("share", b"/tmp", b"/"), ("share", b"/srv/..", b"/"), ("project", b"x" * 70_000, b"/srv/project")):
            with self.assertRaises(Failure) as raised:
                self.folders(snapshot, b"/srv", word)
            self.assertEqual(raised.exception.text, word + b": is not recorded: the snapshot is of " + made_of)

    def test_folders_that_a_snapshot_was_made_of(self) -> None:
        for snapshot, wanted in (("project", [b"srv/project"]), ("recipes", [b"srv"]), ("share", [b""])):
            with Session(LINUX.find(), os.fsencode(os.path.join(HERE, "snapshots", snapshot))) as session:
                self.assertEqual(choice.folders_made_of(session), wanted)


class Unseen(Case):
    """Each command over names that have letters nobody sees."""

    UNSEEN = "\u200b\u00ad\u3164\u2028\U000e0041\u202e\ufe0f\u2800"
    FOLDER = "/srv/fo" + UNSEEN + "lder"
    USER = "us" + UNSEEN + "er"
    COMMANDS = (  # Each with its status.
        ("facl-who read before FOLDER", 0), ("facl-who --user USER before", 0), ("facl-who --names USER before", 0),
        ("facl-who --new-file FOLDER USER before", 0), ("facl-who read FOLDER", 2), ("facl-who read before FOLDER/nix", 2), ("facl-diff before after", 1),
        ("facl-audit before", 1), ("facl-audit --edits set-user-id before", 1), ("facl-audit --list mask-cuts-entry before", 1),
        ("facl-check before rules", 1), ("facl-check --write before", 0), ("facl-plan before edits", 0), ("facl-plan before bad", 1),
        ("facl-report --output FOLDER/x before", 2), ("facl-apply --dry-run before.plan", 1))
    PAGES = (("facl-audit --page page.html before", 1), ("facl-report --output edits.html before edits", 0),
             ("facl-report --for-review --folder FOLDER --output review.html before", 0))

    def setUp(self) -> None:
        super().setUp()
        folder, user = self.FOLDER.encode(), self.USER.encode()
        body = b"# owner: 1500\n# group: 1600\nuser::rwx\nuser:1500:rwx\nuser:1502:rw-\ngroup::r-x\nmask::r--\nother::r-x\n\n"
        self.write("before/passwd", user + b":x:1500:1600:::\nanna:x:1501:1600:::\ncarl:x:1502:1602:::\n")
        self.write("before/group", b"gr" + user + b":x:1600:anna\nthird:x:1602:\n")
        self.write("before/dump", b"".join(b"# file: %s\n%s" % (name, text) for name, text in (
            (b"/", body.replace(b"mask::r--", b"mask::rwx")), (b"/srv/", body.replace(b"mask::r--", b"mask::rwx")), (folder + b"/", body),
            (folder + b"/" + user, body.replace(b"user::rwx", b"# flags: s--\nuser::rwx", 1)))))
        self.write("before/links", b"")
        for name in {"inodes", "meta"} & set(os.listdir(self.path("before"))):
            os.remove(self.path("before/" + name))
        shutil.copytree(self.path("before"), self.path("after"))
        self.write("after/dump", self.read("before/dump").replace(b"user:1502:rw-", b"user:1502:---"))
        self.write("rules", b"never anna read '%s/'\n" % folder)
        os.chmod(self.path("rules"), 0o600)
        self.write("edits", b"setfacl -m 'u:%s:---',u:anna:rwx '%s'\n" % (user, folder))
        self.write("bad", b"setfacl -m 'u:x%s:---' '%s'\nwho r '%s/nix'\n" % (user, folder, folder))

    def words(self, line: str) -> List[str]:
        return [word.replace("FOLDER", self.FOLDER).replace("USER", self.USER) for word in line.split(" ")]

    def test_no_command_prints_one(self) -> None:
        for line, status in self.COMMANDS:
            name, *words = self.words(line)
            for done in (self.run_command(name, words), self.at_terminal(name, words, {"PAGER": "", "NO_COLOR": "1"})):
                self.assertEqual((line, done.status), (line, status), done)
                for text in (done.out, done.messages):
                    self.assertIsNone(names.UNSEEN.search(text.decode().replace("\n", "")), (line, text))

    def test_no_page_has_one(self) -> None:
        for line, status in self.PAGES:
            name, *words = self.words(line)
            self.assertEqual(self.run_command(name, words).status, status)
            page = self.read(next(word for word in words if word.endswith(".html"))).decode()
            self.assertIsNone(names.UNSEEN.search(page.replace("\n", "")))
            self.assertIn(names.shown(self.FOLDER.encode()).decode().replace("\\", "\\\\").rpartition("/")[2], page)


class Computed(Case):
    """Names that a spreadsheet would compute, in each command that has --tsv."""

    def test_each_command(self) -> None:
        body = b"# owner: 1500\n# group: 1600\nuser::rwx\nuser:1501:r--\ngroup::r--\nmask::r--\nother::---\n\n"
        self.write("before/passwd", b"=cmd|calc:x:1500:1600:::\n+1:x:1501:1601:::\n")
        self.write("before/group", b"@sum:x:1600:\nother:x:1601:\n")
        self.write("before/dump", b"# file: =1+1/\n" + body.replace(b"user:1501:r--", b"user:1501:rwx") + b"# file: =1+1/-x\n" + body)
        shutil.copytree(self.path("before"), self.path("after"))
        self.write("after/dump", self.read("before/dump").replace(b"user:1501:rwx", b"user:1501:---").replace(b"user:1501:r--", b"user:1501:---"))
        self.write("rules", b"never '=cmd|calc' read '=1+1'\n")
        os.chmod(self.path("rules"), 0o600)
        for line, wanted in (("facl-who --tsv read before", (b"'=cmd|calc", b"'=1+1")), ("facl-who --tsv --owner =cmd|calc before", (b"'=1+1",)),
                             ("facl-diff --tsv before after", (b"'+1", b"'=1+1")), ("facl-audit --tsv before", (b"'=1+1",)),
                             ("facl-audit --tsv --list mask-cuts-entry before", (b"'=1+1",)), ("facl-check --tsv before rules", (b"'=cmd|calc", b"'=1+1"))):
            name, *words = line.split(" ")
            done = self.run_command(name, words)
            fields = [field for row in done.out.splitlines()[1:] for field in row.split(b"\t")]
            self.assertLessEqual(set(wanted), set(fields), (line, done))
            self.assertEqual([it for it in fields if it[:1] in (b"=", b"+", b"@", b'"')], [], line)


class Terminals(Case):
    """By facl-who, whose table is short."""

    def rows(self, *words: str, **environment: str) -> List[bytes]:
        done = self.at_terminal("facl-who", ["read,write", *words, "before"], environment)
        self.assertEqual((done.status, done.messages), (0, b""))
        return done.out.splitlines()

    def test_width_and_titles(self) -> None:
        for width in (40, 80, 200):
            rows = self.rows(COLUMNS=str(width), LINES="50")
            self.assertTrue(rows[0].startswith(b"\x1b[1mUSER ") and rows[0].endswith(b"\x1b[0m"))
            self.assertNotIn(b"\x1b", b"".join(rows[1:]))
            self.assertLessEqual(max(len(row) for row in [rows[0][4:-4], *rows[1:]]), width)

    def test_without_colour(self) -> None:
        for environment in ({"NO_COLOR": "1"}, {"TERM": "dumb"}):
            self.assertNotIn(b"\x1b", b"".join(self.rows(LINES="50", **environment)))

    def test_a_pager_where_the_text_is_long(self) -> None:
        environment = {"PAGER": "sed s/^/paged:/", "LINES": "4", "COLUMNS": "80"}
        self.assertEqual({row[:6] for row in self.rows(**environment)}, {b"paged:"})
        for other in ({"LINES": "50"}, {"PAGER": ""}, {"PAGER": "no-such-pager 2>/dev/null"}, {"TERM": "dumb"}):
            self.assertNotIn(b"paged:", b"".join(self.rows(**dict(environment, **other))))
        self.assertNotIn(b"paged:", b"".join(self.rows("--no-pager", **environment)))
        self.assertNotIn(b"paged:", self.run_command("facl-who", ["read", "before"], environment=environment).out)
        self.assertEqual(len(self.rows(**{**environment, "PAGER": "head -n 2"})), 2)

    def test_a_pager_that_ends_early(self) -> None:
        self.assertEqual(self.rows(PAGER="true", LINES="3"), [])

    def test_lent_rights(self) -> None:
        """The pager runs nothing for a caller who may run this command alone."""
        environment = {"PAGER": "echo secure:$LESSSECURE", "LINES": "4"}
        self.assertEqual(self.rows(**environment), [b"secure:"])
        for name in ("SUDO_UID", "DOAS_USER", "PKEXEC_UID"):
            self.assertEqual(self.rows(**{name: "1000", "LESSSECURE": "0"}, **environment), [b"secure:1"])
        for call in ("os.geteuid", "os.getegid"):
            with mock.patch(call, return_value=4711):
                self.assertEqual(tables.environment_of_pager()["LESSSECURE"], "1")

    def test_no_pager_is_installed(self) -> None:
        with mock.patch.dict(os.environ, {"TERM": "xterm"}), mock.patch("shutil.which", return_value=None):
            os.environ.pop("PAGER", None)
            self.assertFalse(tables.is_shown_by_pager(b"x\n"))


if __name__ == "__main__":
    unittest.main()
