"""facl-diff over pairs of the stored snapshot, whose rows are worked by hand by the rules of acl(5)."""
from __future__ import annotations

import json
import os
import random
import re
import shutil
import signal
import subprocess
import sys
import time
import unittest
from typing import Any, Dict, List, Tuple

from common import COMMANDS, Case, Done, restore_signals

from facl_commands.base.names import path_order
from facl_commands.questions.diff.reasons import decided_by, words_of_list
from facl_commands.questions.diff.states import Pair, RecordReader, walk

PAIR = ("before", "after")
NOTHING = b"nothing differs: the same users, groups of users, files and ACLs\n"
NEW_FILE = b"# owner: 1001\n# group: 100\nuser::rw-\ngroup::r--\nother::---\n\n"
ONE, NOTES = b"# file: /srv/share/one\n", b"# file: /srv/share/notes\n"
META = b"host %s\ndate 2026-11-%dT03:10:00Z\nfolder %s\n"
EVENT_TITLES = "KIND\tWHO\tWHAT\tMORE\tGAINED\tLESS\tLOST\tFIRST"
SLOW = "#!/bin/sh\necho >>'%s'\nexec sleep 60\n"


class DiffCase(Case):
    def setUp(self) -> None:
        super().setUp()
        shutil.copytree(self.path("before"), self.path("after"))

    def edit(self, name: str, *changes: Tuple[bytes, bytes]) -> None:
        """Changes the text of a file, each part of which is there once."""
        text = self.read(name)
        for old, new in changes:
            self.assertEqual(text.count(old), 1, old)
            text = text.replace(old, new)
        self.write(name, text)

    def diff(self, *words: str) -> Done:
        return self.run_command("facl-diff", [*words, *PAIR])

    def below(self, *folders: str) -> Done:
        return self.run_command("facl-diff", [*PAIR, *folders])

    def rows(self, *options: str) -> List[Tuple[str, ...]]:
        """The rows for a script of --full, without the titles: before, after, user, files, first, why."""
        done = self.diff("--tsv", "--full", *options)
        self.assertEqual(done.status, 1, done.messages)
        lines = done.out.decode("utf-8", "backslashreplace").splitlines()
        self.assertEqual(lines[0], "BEFORE\tAFTER\tWHO\tFILES\tFIRST\tWHY")
        return [tuple(line.split("\t")) for line in lines[1:]]

    def events(self, *options: str) -> List[Tuple[str, ...]]:
        """The rows of events for a script, without the titles: kind, users, what, more, gained, less, lost, first."""
        lines = self.diff("--tsv", *options).out.decode("utf-8", "backslashreplace").splitlines()
        self.assertEqual(lines[0], EVENT_TITLES)
        return [tuple(line.split("\t")) for line in lines[1:]]

    def report(self, *words: str) -> Dict[str, Any]:
        done = self.run_command("facl-diff", ["--json", *PAIR, *words])
        self.assertEqual(done.messages, b"")
        found: Dict[str, Any] = json.loads(done.out)
        return found


class People(DiffCase):
    def test_a_membership(self) -> None:
        # staff has r-x on srv/share, and r-- on nine files there.
        self.edit("after/group", (b"staff:x:100:", b"staff:x:100:guest"))
        self.expect(self.diff(), 1, b"""\
WHO    WHAT          MORE  GAINED  LESS  LOST  FIRST
guest  joined staff    10  r-x        0        /srv/share
memberships: 1 new
""")
        self.expect(self.diff("--full"), 1, b"""\
BEFORE  AFTER  WHO    FILES  FIRST          WHY
none    r--    guest      9  /srv/share/-x  joined staff
none    r-x    guest      1  /srv/share     joined staff
memberships: 1 new
""")

    def test_a_user_who_left_a_group(self) -> None:
        self.edit("before/group", (b"staff:x:100:", b"staff:x:100:guest"))
        self.assertEqual(self.rows(), [
            ("r--", "none", "guest", "9", "/srv/share/-x", "left staff"),
            ("r-x", "none", "guest", "1", "/srv/share", "left staff"),
        ])

    def test_another_primary_group(self) -> None:
        # mara owns drafts, which the path hides until she is of staff; the row of notes is her own entry under the mask.
        self.edit("after/passwd", (b"1003:200:", b"1003:100:"))
        self.assertEqual(self.rows(), [
            ("none", "rwx", "mara", "1", "/srv/share/drafts", "joined staff"),
            ("none", "rw-", "mara", "1", "/srv/share/drafts/logo.svg", "joined staff"),
            ("none", "r--", "mara", "9", "/srv/share/-x", "joined staff"),
            ("none", "r-x", "mara", "1", "/srv/share", "joined staff"),
        ])
        self.assertEqual(self.rows("--file-alone"), [("none", "r--", "mara", "8", "/srv/share/-x", "joined staff"),
                                                     ("none", "r-x", "mara", "1", "/srv/share", "joined staff")])

    def test_users_who_come_and_go(self) -> None:
        self.edit("after/passwd", (b"ben:x:1002:100:Ben Kaya:/home/ben:/bin/sh\n", b"yves:x:1050:100:::\n"))
        self.expect(self.diff(), 1, b"""\
WHO   WHAT          MORE  GAINED  LESS  LOST  FIRST
ben   user removed     0            12  r-x   /
yves  new user        12  r-x        0        /
users: 1 new (yves), 1 gone (ben)
""")

    def test_another_id(self) -> None:
        # Files keep the ids: the list of notes names 1003, who owns drafts; the group of that is design, of which she is.
        self.edit("after/passwd", (b"mara:x:1003:200:", b"mara:x:1005:200:"))
        self.assertEqual(self.rows("--file-alone"), [("r--", "none", "mara", "1", "/srv/share/notes", "other user id")])

    def test_a_user_with_the_id_of_another(self) -> None:
        # No line of useradd makes the second one; it is of no group of files, and others may do nothing in srv/share.
        self.edit("after/passwd", (b"guest:x:1009", b"twin:x:1002:300:::\nguest:x:1009"))
        report = self.report()
        self.assertEqual(report["answered_by"], "index")
        self.assertEqual(report["changes"], [{"before": "absent", "after": "r-x", "users": ["twin"], "count": 2, "path": "/",
                                              "reasons": [{"why": "new user", "count": 2, "path": "/"}]}])
        self.assertEqual(report["users"], {"new": ["twin"], "removed": [], "other_id": []})

    def test_two_users_of_one_id_who_were_there(self) -> None:
        for name in PAIR:
            self.write(name + "/passwd", self.read(name + "/passwd") + b"twin:x:1002:300:::\n")
        self.edit("after/group", (b"guests:x:300:", b"guests:x:300:ben"))
        self.assertEqual(self.report()["answered_by"], "gains")

    def test_groups_that_are_new_or_renamed(self) -> None:
        self.edit("after/group", (b"audit:x:400:ben", b"auditors:x:400:ben\nnew:x:401:guest,ben\n"))
        self.expect(self.diff(), 0, b"nobody gained or lost anything; memberships: 2 new\n")
        self.edit("after/dump", (ONE + NEW_FILE, ONE + NEW_FILE.replace(b"group: 100", b"group: 401")))
        report = self.report("--file-alone")
        self.assertEqual(report["answered_by"], "gains")
        self.assertEqual([(row["users"], row["reasons"]) for row in report["changes"]],
                         [(["guest"], [{"why": "group changed", "count": 1, "path": "/srv/share/one"}])])

    def test_people_of_one_change_are_on_one_line(self) -> None:
        self.edit("after/dump", (ONE + NEW_FILE, ONE + NEW_FILE.replace(b"other::---", b"other::r--")))
        self.edit("after/dump", (b"# file: /srv/share/\n# owner: 1001\n# group: 100\nuser::rwx\ngroup::r-x\nother::---",
                                 b"# file: /srv/share/\n# owner: 1001\n# group: 100\nuser::rwx\ngroup::r-x\nother::--x"))
        self.expect(self.diff(), 1, b"""\
WHO                             WHAT                                MORE  GAINED  LESS  LOST  FIRST
everybody else and mara, guest  2 others' entry changed and 1 more     5  rwx        0        /srv/share
files: 2 with another owner, group, flags or ACL
""")
        self.expect(self.diff("--full"), 1, b"""\
BEFORE  AFTER  WHO             FILES  FIRST                       WHY
none    --x    everybody else      1  /srv/share                  others' entry changed
none    r--    everybody else      1  /srv/share/one              others' entry changed
none    rwx    mara                1  /srv/share/drafts           /srv/share opened
none    rw-    mara                1  /srv/share/drafts/logo.svg  /srv/share opened
none    r--    mara                2  /srv/share/notes            1 /srv/share opened, 1 others' entry changed
none    --x    mara guest          1  /srv/share                  others' entry changed
none    r--    guest               1  /srv/share/one              others' entry changed
files: 2 with another owner, group, flags or ACL
""")

    def test_who_is_looked_at(self) -> None:
        self.write("after/passwd", self.read("after/passwd").replace(b"root:x:0:0:", b"root:x:0:100:") + b"www:x:33:100:::\n")
        done = self.diff()
        self.expect(done, 0, b"nobody gained or lost anything; users: 1 new (www); memberships: 1 new, 1 gone\n",
                    b"facl-diff: 1 system account not shown (www); --all-users shows it\n")
        self.assertEqual({row[2] for row in self.rows("--all-users")}, {"www"})
        self.assertEqual({row[2] for row in self.rows("--with-root", "--all-users")}, {"www", "root"})


class EverybodyElse(DiffCase):
    """Others have r-x on / and srv, of which the superuser is the owner; all else is closed to them."""

    SRV = b"# file: /srv/\n# owner: 0\n# group: 0\nuser::rwx\ngroup::r-x\nother::%s\n"
    SHARE = b"# file: /srv/share/\n# owner: 1001\n# group: 100\nuser::rwx\ngroup::r-x\nother::%s\n"
    NAMED = b"# file: /srv/\n# owner: 0\n# group: 0\nuser::rwx\n%sgroup::r-x\nmask::rwx\nother::%s\n"

    def named(self, permissions: bytes, others: bytes) -> bytes:
        """srv with an entry for each user of the snapshot, and one for others."""
        users = b"".join(b"user:%d:%s\n" % (uid, permissions) for uid in (1001, 1002, 1003, 1009))
        return self.NAMED % (users, others)

    def test_everybody(self) -> None:
        """All users of the snapshots, and everybody else."""
        self.edit("after/dump", (self.SRV % b"r-x", self.SRV % b"rwx"))
        self.expect(self.diff(), 1, b"""\
WHO            WHAT                   MORE  GAINED  LESS  LOST  FIRST
everybody (4)  others' entry changed     1  -w-        0        /srv
files: 1 with another owner, group, flags or ACL
""")
        row = ("r-x", "rwx", "1", "/srv", "others' entry changed")
        self.assertEqual(self.rows(), [(*row[:2], user, *row[2:]) for user in ("everybody else", "ines", "ben", "mara", "guest")])
        changes = [{"before": "r-x", "after": "rwx", "users": ["everybody else", "ines", "ben", "mara", "guest"], "count": 1,
                    "path": "/srv", "reasons": [{"why": "others' entry changed", "count": 1, "path": "/srv"}]}]
        self.assertEqual(self.report()["changes"], changes)
        self.assertEqual((self.report("/srv")["changes"], self.report("/srv")["answered_by"]), (changes, "index"))

    def test_all_users_of_the_snapshots_alone(self) -> None:
        self.edit("after/dump", (self.SRV % b"r-x", self.named(b"rwx", b"r-x")))
        self.assertIn(b"\nall known users (4)  user entry added     1  -w-        0        /srv\n", self.diff().out)
        self.assertIn(b"\nr-x     rwx    all known users (4)      1  /srv   user entry added\n", self.diff("--full").out)
        self.assertEqual([row[2] for row in self.rows()], ["ines", "ben", "mara", "guest"])

    def test_everybody_else_alone(self) -> None:
        for name, others in (("before", b"r-x"), ("after", b"rwx")):
            self.edit(name + "/dump", (self.SRV % b"r-x", self.named(b"r-x", others)))
        self.expect(self.diff(), 1, b"""\
WHO             WHAT                   MORE  GAINED  LESS  LOST  FIRST
everybody else  others' entry changed     1  -w-        0        /srv
files: 1 with another owner, group, flags or ACL
""")
        self.expect(self.run_command("facl-diff", ["--tsv", "--full", "after", "before"]), 1,
                    b"BEFORE\tAFTER\tWHO\tFILES\tFIRST\tWHY\nrwx\tr-x\teverybody else\t1\t/srv\tothers' entry changed\n")

    def test_nothing_of_everybody_else(self) -> None:
        self.edit("after/group", (b"staff:x:100:", b"staff:x:100:guest"))
        self.assertNotIn(b"everybody", self.diff().out)

    def test_the_order(self) -> None:
        """Everybody else, everybody, gains of write, other gains, losses; of each those of most files first."""
        self.edit("after/dump", (self.SRV % b"r-x", self.SRV % b"rwx"), (self.SHARE % b"---", self.SHARE % b"--x"))
        self.edit("after/group", (b"staff:x:100:", b"staff:x:100:guest"), (b"design:x:200:", b"design:x:200:guest"))
        self.edit("after/passwd", (b"ben:x:1002:100:", b"ben:x:1002:300:"))
        self.assertEqual([row[:4] for row in self.rows()], [
            ("none", "--x", "everybody else", "1"),
            *(("r-x", "rwx", user, "1") for user in ("everybody else", "ines", "ben", "mara", "guest")),
            ("none", "rwx", "mara", "1"), ("none", "rwx", "guest", "1"), ("none", "rw-", "mara", "1"), ("none", "rw-", "guest", "1"),
            ("none", "r--", "guest", "9"), ("none", "--x", "mara", "1"), ("none", "r-x", "guest", "1"), ("none", "r--", "mara", "1"),
            ("r--", "none", "ben", "9"), ("r-x", "--x", "ben", "1")])

    def test_new_and_removed_files(self) -> None:
        made = b"# file: /srv/new\n" + NEW_FILE.replace(b"other::---", b"other::r--")
        self.write("after/dump", self.read("after/dump").replace(b"# file: /srv/share/\n", made + b"# file: /srv/share/\n"))
        new, gone = (self.run_command("facl-diff", ["--tsv", "--full", *pair]).out.decode().splitlines() for pair in (PAIR, PAIR[::-1]))
        self.assertEqual(new[1:], ["absent\tr--\teverybody else\t1\t/srv/new\tnew file", "absent\trw-\tines\t1\t/srv/new\tnew file",
                                   *("absent\tr--\t%s\t1\t/srv/new\tnew file" % user for user in ("ben", "mara", "guest"))])
        self.assertEqual([line.split("\t")[2] for line in gone[1:]], ["everybody else", "ben", "mara", "guest", "ines"])

    def test_the_number_of_a_directory_service(self) -> None:
        beside = b"everybody else: users whom the snapshot does not have; it has 13 of a directory service\nfiles: "
        self.write("after/meta", META % (b"srva", 27, b"/srv/share") + b"users-asked-for 13\n")
        self.edit("after/dump", (ONE + NEW_FILE, ONE + NEW_FILE.replace(b"group::r--", b"group::rw-")))
        self.assertNotIn(beside, self.diff().out)
        self.edit("after/dump", (self.SRV % b"r-x", self.SRV % b"rwx"))
        self.assertIn(beside, self.diff().out)
        self.assertEqual(self.report()["snapshot"]["users_asked_for"], 13)

    def test_no_answer_has_the_name_in_questions(self) -> None:
        self.edit("after/dump", (self.SRV % b"r-x", self.SRV % b"rwx"), (self.SHARE % b"---", self.SHARE % b"--x"))
        before = {name: self.read("before/" + name) for name in os.listdir(self.path("before"))}
        for words in ("", "--json", "--tsv --all-users --with-root", "--page page.html"):
            done = self.diff(*words.split())
            self.assertNotIn(b"facl-everybody", done.out + done.messages)
        self.assertNotIn(b"facl-everybody", self.read("page.html"))
        self.assertEqual({name: self.read("before/" + name) for name in os.listdir(self.path("before"))}, before)


class Files(DiffCase):
    def test_new_and_removed_files(self) -> None:
        self.edit("after/dump", (b"# file: /srv/share/it's\n", b"# file: /srv/share/neu.xlsx\n"))
        self.expect(self.diff(), 1, b"""\
WHO        WHAT      MORE  GAINED  LESS  LOST  FIRST
ines, ben  new file     1  rw-        0        /srv/share/neu.xlsx
ines, ben  removed      0             1  rw-   /srv/share/it's
files: 1 new, 1 gone
""")

    def test_moved_files(self) -> None:
        self.edit("after/dump", (b"# file: /srv/share/it's\n", b"# file: /srv/share/its\n"),
                  (b"# file: /srv/share/one\n", b"# file: /srv/share/uno\n"))
        row = b"5 %d 1700000000.000000001 /srv/share/%s\0"
        for name, day in (("before", 26), ("after", 27)):
            self.write(name + "/meta", META % (b"srva", day, b"/srv/share") + b"files 14\n")
        self.write("before/inodes", b"boot 1\0" + row % (7, b"it's") + row % (8, b"one"))
        self.write("after/inodes", b"boot 1\0" + row % (7, b"its") + row % (8, b"uno"))
        rows = self.rows()
        self.assertIn(("r--", "absent", "ben", "2", "/srv/share/it's", "1 moved to /srv/share/its, 1 removed"), rows)
        self.assertIn(("absent", "rw-", "ines", "2", "/srv/share/its", "1 moved from /srv/share/it's, 1 new file"), rows)
        self.assertEqual(self.events(), [
            ("moved", "ines,ben", "1 moved to /srv/share/its,1 moved from /srv/share/it's", "1", "rw-", "1", "rw-", "/srv/share/it's"),
            ("new", "ines,ben", "1 new file", "1", "rw-", "0", "", "/srv/share/uno"),
            ("removed", "ines,ben", "1 removed", "0", "", "1", "rw-", "/srv/share/one")])
        self.assertIn(b"\nines, ben  moved to /srv/share/its     1  rw-        1  rw-   /srv/share/it's\n", self.diff().out)
        # one is one of two names of a file.
        report = self.report()
        self.assertEqual(report["files"], {"changed": 0, "new": 2, "removed": 2,
                                           "moved": [{"from": "/srv/share/it's", "to": "/srv/share/its"}]})
        # Another inode, or a time of birth that is not known, is another file.
        for text in (b"5 9 1700000000.000000001 ", b"5 7 0.000000000 "):
            self.write("after/inodes", b"boot 1\0" + text + b"/srv/share/its\0")
            self.assertEqual(self.report()["files"]["moved"], [])

    def test_a_file_that_became_a_directory(self) -> None:
        self.edit("after/dump", (ONE + NEW_FILE, b"# file: /srv/share/one/\n" + NEW_FILE.replace(b"rw-", b"rwx")
                                 + b"# file: /srv/share/one/in\n" + NEW_FILE))
        rows = [("absent", "rw-", "ines", "1", "/srv/share/one/in", "new file"),
                ("rw-", "rwx", "ines", "1", "/srv/share/one", "owner's entry changed")]
        self.assertEqual(self.rows(), rows)
        self.assertEqual(self.report()["answered_by"], "gains")
        shutil.copytree(self.path("before"), self.path("third"))
        shutil.rmtree(self.path("before"))
        os.rename(self.path("after"), self.path("before"))
        os.rename(self.path("third"), self.path("after"))
        self.assertEqual([row[:2] for row in self.rows()], [("rwx", "rw-"), ("rw-", "absent")])

    def test_flags_and_default_lists_alone(self) -> None:
        self.edit("after/dump", (b"default:user::rwx\n", b"default:user::r-x\n"), (b"# flags: -s-", b"# flags: -st"))
        self.expect(self.diff(), 0, b"nobody gained or lost anything; files: 1 with another owner, group, flags or ACL\n")

    def test_hostile_names(self) -> None:
        for name in PAIR:
            self.write(name + "/passwd", self.read(name + "/passwd") + b"1003:x:1100:300:::\n-a b\\:x:1101:300:::\n"
                       b"=c\xff:x:1102:300:::\n#no row\n")
        self.edit("after/group", (b"staff:x:100:", b"staff:x:100:1003,-a b\\,=c\xff"))
        self.edit("after/dump", (b"# file: /srv/share/it's\n", b"# file: /srv/share/\\033[1m\t\n"))
        self.assertEqual(self.report()["answered_by"], "gains")
        done = self.diff("--no-pager", "--full")
        self.assertIn(b"none    r--     1003 -a\\040b\\134 =c\\377          8  /srv/share/-x ", done.out)
        self.assertNotIn(b"\x1b", done.out)
        for words in (["--tsv"], ["--tsv", "--full"]):
            self.assertEqual(len({line.count(b"\t") for line in self.diff(*words).out.split(b"\n")[:-1]}), 1)

    def test_folders(self) -> None:
        self.edit("after/group", (b"staff:x:100:", b"staff:x:100:guest"))
        self.edit("after/dump", (b"# file: /srv/share/drafts/logo.svg\n", b"# file: /srv/share/drafts/new.svg\n"))
        self.expect(self.below("/srv/share/drafts"), 0,
                    b"nobody gained or lost anything; files: 1 new, 1 gone; memberships: 1 new\n")
        self.expect(self.below("srv/share/notes", "/srv/share/two/"), 1, b"""\
WHO    WHAT          MORE  GAINED  LESS  LOST  FIRST
guest  joined staff     2  r--        0        /srv/share/notes
memberships: 1 new
""")
        # What is recorded at one of the times.
        for name in ("logo.svg", "new.svg"):
            self.assertEqual(self.below("/srv/share/drafts/" + name).status, 0)
        done = self.below("/srv/nowhere")
        self.assertEqual(done.status, 2)
        self.assertTrue(done.messages.startswith(b"facl-diff: /srv/nowhere: is not recorded"), done.messages)

    def test_both_ways_agree(self) -> None:
        self.edit("after/group", (b"staff:x:100:", b"staff:x:100:guest"))
        self.edit("after/passwd", (b"mara:x:1003:200:", b"mara:x:1003:100:"))
        self.edit("after/dump", (b"# file: /srv/share/it's\n", b"# file: /srv/share/its\n"), (
            b"user:1003:rw-\t\t\t#effective:r--\ngroup::r--\nmask::r--", b"user:1003:rw-\ngroup::r--\nmask::rw-"))
        views: List[List[str]] = [[], ["--file-alone"]]
        for options in views:
            edits, records = self.report(*options), self.report("/", *options)
            self.assertEqual((edits.pop("answered_by"), records.pop("answered_by")), ("gains", "index"))
            self.assertEqual((edits.pop("folders"), records.pop("folders")), ([], ["/"]))
            self.assertEqual(edits, records)


class Words(DiffCase):
    def why(self, *changes: Tuple[bytes, bytes]) -> List[Tuple[str, ...]]:
        """The user, both rights and the reason of each row, each file judged alone."""
        self.edit("after/dump", *changes)
        found: List[Tuple[str, ...]] = [(row[2], row[0], row[1], row[5]) for row in self.rows("--file-alone")]
        shutil.copy(self.path("before/dump"), self.path("after/dump"))
        return found

    def test_lists(self) -> None:
        plain = ONE + NEW_FILE
        self.assertEqual(self.why((plain, plain.replace(b"group::r--", b"user:1009:r--\ngroup::r--\nmask::r--"))),
                         [("guest", "none", "r--", "user entry added")])
        self.assertEqual(self.why((plain, plain.replace(b"other", b"group:300:rw-\nmask::r--\nother"))),
                         [("guest", "none", "r--", "group entry added")])
        self.assertEqual(self.why((plain, plain.replace(b"group::r--", b"group::---"))),
                         [("ben", "r--", "none", "group entry changed")])
        self.assertEqual(self.why((plain, plain.replace(b"owner: 1001", b"owner: 1009"))),
                         [("guest", "none", "rw-", "is the owner now"), ("ines", "rw-", "r--", "no longer the owner")])
        self.assertEqual(self.why((plain, plain.replace(b"group: 100", b"group: 300"))),
                         [("guest", "none", "r--", "other group of the file"),
                          ("ben", "r--", "none", "other group of the file")])
        self.assertEqual(self.why((b"user:1003:rw-\t\t\t#effective:r--\ngroup::r--\nmask::r--",
                                   b"user:1003:rw-\ngroup::r--\nmask::rw-")), [("mara", "r--", "rw-", "mask changed")])
        self.assertEqual(self.why((b"user:1003:rw-\t\t\t#effective:r--\ngroup::r--\nmask::r--\n", b"group::r--\n")),
                         [("mara", "r--", "none", "user entry gone")])

    def test_two_things_that_changed(self) -> None:
        self.edit("after/group", (b"guests:x:300:", b"guests:x:300:ben"))
        plain = ONE + NEW_FILE
        self.assertEqual(self.why((plain, plain.replace(b"group: 100", b"group: 300").replace(b"group::r--", b"group::rw-"))),
                         [("ben", "r--", "rw-", "group, ACL changed"), ("guest", "none", "rw-", "other group of the file")])

    def test_a_directory_that_closed(self) -> None:
        self.edit("after/dump", (b"# file: /srv/share/\n# owner: 1001\n# group: 100\nuser::rwx\ngroup::r-x\n",
                                 b"# file: /srv/share/\n# owner: 1001\n# group: 100\nuser::rwx\ngroup::r--\n"))
        self.assertEqual(self.rows(), [("r--", "none", "ben", "9", "/srv/share/-x", "/srv/share closed"),
                                       ("r-x", "r--", "ben", "1", "/srv/share", "group entry changed")])
        self.assertEqual(self.run_command("facl-diff", ["--tsv", *PAIR, "/"]), self.diff("--tsv"))  # By records, and not by edits.

    def test_entries(self) -> None:
        old = decided_by(b"# file: f\ngroup::rwx\t\t\t#effective:r--\ngroup:7:r--")
        self.assertEqual([(it.key, it.permissions, it.effective) for it in old.values()],
                         [((b"group", b""), b"rwx", b"r--"), ((b"group", b"7"), b"r--", b"r--")])
        self.assertEqual(words_of_list(old, decided_by(b"group::rwx\ngroup:7:r--"), False), b"mask changed")
        # An entry is gone, and another one changed.
        self.assertEqual(words_of_list(old, decided_by(b"group:7:---"), False), b"")


class Snapshots(DiffCase):
    def test_the_same(self) -> None:
        self.expect(self.diff(), 0, NOTHING)
        self.expect(self.run_command("facl-diff", ["before", "before"]), 0, NOTHING)
        self.expect(self.diff("--tsv", "--full"), 0, b"BEFORE\tAFTER\tWHO\tFILES\tFIRST\tWHY\n")
        self.expect(self.diff("--tsv"), 0, EVENT_TITLES.encode() + b"\n")

    def test_marks(self) -> None:
        # All who are granted w can write since the file system is not read-only, and nothing said so.
        said = b"facl-diff: warning: not in the rows of who gained and lost what: 1 %s, first: /srv/share\n"
        for before, after, text in ((b"ro /srv/share/\n", b"", b"read-only file system no longer"),
                                    (b"", b"immutable /srv/share\n", b"immutable file new")):
            self.write("before/marks", before)
            self.write("after/marks", after)
            done = self.diff()
            self.assertEqual((done.status, done.out), (1, NOTHING.replace(b" differs", b" else differs")), done.messages)
            self.assertIn(said % text, done.messages)

    def test_a_dump_with_names(self) -> None:
        text = re.sub(rb"^# owner: 1001$", b"# owner: ines", self.read("after/dump"), flags=re.MULTILINE)
        self.write("after/dump", text)
        self.expect(self.diff(), 0, NOTHING)

    def test_what_cannot_be_used(self) -> None:
        for words, text in (
            (["before", "nowhere"], b"nowhere: no such folder; make a snapshot with facl snapshot"),
            (["before", "after/dump"], b"after/dump: no such folder; make a snapshot with facl snapshot"),
        ):
            self.expect(self.run_command("facl-diff", words), 2, b"", b"facl-diff: " + text + b"\n")
        self.assertEqual(self.run_command("facl-diff", ["before"]).status, 2)
        self.assertEqual(self.diff("--json", "--tsv").status, 2)
        os.mkdir(self.path("parts"))
        shutil.copytree(self.path("before"), self.path("parts/001"))
        done = self.run_command("facl-diff", ["before", "parts"])
        self.assertEqual((done.status, b"parts: lacks parts of its tree, or has parts of another one" in done.messages), (2, True))
        self.write("after/passwd", b"ines:x:one:100:::\n")
        self.assertEqual(self.diff().status, 2)
        self.write("after/passwd", self.read("before/passwd"))
        self.write("after/dump", b"# file: x\nuser::rw-\n")
        done = self.diff()
        self.assertEqual((done.status, done.out), (2, b""))
        self.assertIn(b"facl-diff: after: the program does not load it: facl: setup: dump: ", done.messages)

    def test_an_empty_folder(self) -> None:
        self.expect(self.below(""), 2, b"", b"facl-diff: an empty word is not a FILE or FOLDER; / means all files\n")

    def test_servers(self) -> None:
        self.write("before/meta", META % (b"srva", 26, b"/srv/share"))
        self.write("after/meta", META % (b"srvb", 27, b"/srv/share"))
        self.expect(self.diff(), 2, b"",
                    b"facl-diff: before is of srva, and after of srvb: --any-host compares them\n")
        self.expect(self.diff("--any-host"), 0, NOTHING)

    def test_warnings(self) -> None:
        self.write("before/meta", META % (b"srva", 27, b"/srv/share"))
        self.write("after/meta", META % (b"srva", 26, b"/srv/other"))
        self.expect(self.diff(), 0, NOTHING, b"""\
facl-diff: warning: the second snapshot is older than the first one: after (of srva, 2026-11-26T03:10:00Z)
facl-diff: warning: recorded in before alone, so what is there may be new or gone for that alone: /srv/share
facl-diff: warning: recorded in after alone, so what is there may be new or gone for that alone: /srv/other
""")

    def test_bad_rows(self) -> None:
        for row in (b"torn", b"short:x", b"word:x:staff:", b"sign:x:-1:", b"many:x:" + b"9" * 5000 + b":"):
            self.edit("before/group", (b"staff:x:100:", row + b"\nstaff:x:100:"))
            done = self.diff()
            self.assertEqual((done.status, done.out), (2, b""))
            self.assertIn(b"before: the program does not load it: facl: setup: group: text line ", done.messages)
            self.edit("before/group", (row + b"\n", b""))

    def test_ids_with_many_zeros(self) -> None:
        zeros = b"0" * 5000
        self.edit("before/group", (b"staff:x:100:", b"staff:x:" + zeros + b"100:"))
        self.edit("before/passwd", (b"guest:x:1009:300:", b"guest:x:" + zeros + b"1009:" + zeros + b"300:"))
        self.expect(self.diff(), 0, NOTHING)

    def test_other_files_left_out(self) -> None:
        self.write("before/meta", META % (b"srva", 26, b"/srv/share") + b"exclude *.bak\nother-file-system /srv/share/mnt\n")
        self.write("after/meta", META % (b"srva", 27, b"/srv/share") + b"exclude *.bak\nexclude *.old\n")
        self.expect(self.diff(), 0, NOTHING, b"""\
facl-diff: warning: left out of after alone by --exclude, so what is there may be new or gone for that alone: *.old
facl-diff: warning: left out of before alone as another file system, so what is there may be new or gone for that alone: /srv/share/mnt
""")

    def test_parts_and_globs_that_match_nothing(self) -> None:
        self.write("before/meta", META % (b"srva", 26, b"/srv/share") + b"exclude *.bak\nexcluded 0\n")
        self.write("after/meta", META % (b"srva", 27, b"/srv/share") + b"exclude *.bak\nexcluded 3\n")
        self.expect(self.diff(), 0, NOTHING)
        self.write("after/meta", META % (b"srva", 27, b"/srv/share") + b"excluded 0\npart 001 of 002\n")
        self.expect(self.diff(), 0, NOTHING, b"facl-diff: warning: after: is part 001 of 002, so files of the other parts are not looked at\n")

    def test_what_could_not_be_read(self) -> None:
        self.write("before/meta", META % (b"srva", 26, b"/srv/share") + b"unread 0\n")
        self.write("after/meta", META % (b"srva", 27, b"/srv/share") + b"folder /srv/share/drafts\nunread 2\n")
        self.expect(self.diff(), 0, NOTHING, b"facl-diff: warning: after lacks what could not be read (unread 2 in its meta),"
                                             b" so what is there may be new or gone for that alone\n")

    def test_a_top_that_one_snapshot_lacks(self) -> None:
        dump = self.read("after/dump")
        self.write("after/dump", dump[dump.index(b"# file: /srv/"):])
        done = self.diff()
        self.assertIn(b"files: ", done.out)
        self.assertIn(b"1 gone", done.out)

    def test_json(self) -> None:
        self.write("before/meta", META % (b"srva", 26, b"/srv/share"))
        self.edit("after/group", (b"staff:x:100:", b"staff:x:100:guest"))
        self.assertEqual(self.report(), {
            "schema": "facl-diff/2", "version": "0", "judge": "linux",
            "snapshot": {"name": "after", "path": "after", "host": None, "date": None, "folders": [], "excludes": [], "users_asked_for": None},
            "options": {"along_paths": True, "all_users": False, "with_root": False},
            "before": {"name": "before", "path": "before", "host": "srva", "date": "2026-11-26T03:10:00Z", "folders": ["/srv/share"],
                       "excludes": [], "users_asked_for": None},
            "folders": [], "answered_by": "gains",
            "events": [{"kind": "membership", "users": ["guest"], "more": 10, "less": 0, "count": 10, "pairs": 10, "gained": "r-x",
                        "lost": "---", "path": "/srv/share",
                        "reasons": [{"why": "joined staff", "count": 10, "path": "/srv/share"}]}],
            "changes": [{"before": "none", "after": "r--", "users": ["guest"], "count": 9, "path": "/srv/share/-x",
                         "reasons": [{"why": "joined staff", "count": 9, "path": "/srv/share/-x"}]},
                        {"before": "none", "after": "r-x", "users": ["guest"], "count": 1, "path": "/srv/share",
                         "reasons": [{"why": "joined staff", "count": 1, "path": "/srv/share"}]}],
            "left_out": [],
            "files": {"changed": 0, "new": 0, "removed": 0, "moved": []},
            "users": {"new": [], "removed": [], "other_id": []},
            "memberships": {"new": 1, "removed": 0},
        })

    def test_a_page(self) -> None:
        self.edit("after/group", (b"staff:x:100:", b"staff:x:100:guest"))
        done = self.diff("--page", "page.html")
        self.assertEqual((done.status, done.messages), (1, b"facl-diff: wrote page.html\n"))
        data = re.search(r'id="data">(.*?)</script>', self.read("page.html").decode(), re.DOTALL)
        assert data is not None
        page = json.loads(data[1])
        self.assertEqual((page["title"], page["script"]), ("before -> after", True))
        self.assertIn(b'<p id="worse">Worse since before: guest joined staff and may read 10 files more.</p>\n', self.read("page.html"))
        done = self.diff("--page", "page.html")
        self.assertEqual((done.status, done.out), (2, b""))
        self.assertEqual(self.run_command("facl-diff", ["--page", "new.html", *PAIR, "/srv"]).status, 2)
        self.edit("after/passwd", (b"guest:x:1009", b"twin:x:1002:300:::\nguest:x:1009"))
        done = self.diff("--page", "new.html")
        self.assertEqual((done.status, done.messages), (
            2, b"facl-diff: no page is made, as no edits lead from one snapshot to the other: two users have the id 1002\n"))
        self.assertFalse(os.path.exists(self.path("new.html")))

    def test_an_interrupted_run(self) -> None:
        os.mkdir(self.path("tmp"))
        for number in (signal.SIGINT, signal.SIGTERM):
            started = self.path("started%d" % number)
            self.write("slow", (SLOW % started).encode())
            os.chmod(self.path("slow"), 0o755)
            environment = {**os.environ, "TMPDIR": self.path("tmp"), "FACL_LINUX": self.path("slow")}
            words = [sys.executable, "-I", os.path.join(COMMANDS, "facl-diff"), *PAIR]
            with subprocess.Popen(words, cwd=self.folder, env=environment, preexec_fn=restore_signals,
                                  stdout=subprocess.PIPE, stderr=subprocess.PIPE) as run:
                while run.poll() is None and not os.path.exists(started):
                    time.sleep(0.01)
                run.send_signal(number)
                out, messages = run.communicate()
            self.assertEqual((run.returncode, out, messages), (128 + number, b"", b""))
            self.assertEqual(os.listdir(self.path("tmp")), [])


class Records(unittest.TestCase):
    """Listings are compared record by record."""

    def test_pairs(self) -> None:
        def listing(*names: bytes) -> List[bytes]:
            return [b"# file: " + name for name in names]

        old, new = listing(b".", b"a", b"a/b", b"a b", b"c"), listing(b".", b"a/", b"a b", b"c", b"c/d")
        pairs = {pair.path: pair for pair in self.walked(old, new)[0]}
        self.assertEqual(sorted(pairs), [b"a", b"a/b", b"c", b"c/d"])
        self.assertFalse(pairs[b"a"].is_of_other_kind())
        self.assertTrue(pairs[b"c"].is_of_other_kind())
        self.assertEqual(self.walked(old, old), ([], old))

    def walked(self, old: List[bytes], new: List[bytes], size: int = 1000) -> Tuple[List[Pair], List[bytes]]:
        """The pairs of listings that come `size` records at once, and the records that are the same."""
        readers = [RecordReader(iter([it[place : place + size] for place in range(0, len(it), size)])) for it in (old, new)]
        found = list(walk(readers[0], readers[1]))
        return [it for it in found if isinstance(it, Pair)], [record for it in found if not isinstance(it, Pair) for record in it]

    def test_what_is_the_same_is_passed_over(self) -> None:
        """The pairs are those among all paths that differ, also where much is the same between them; all others are told too."""
        for seed in range(60):
            chance = random.Random(seed)
            paths = sorted({b"/".join(chance.choice([b"a", b"b", b"a b", b"c-d"]) + b"%d" % chance.randrange(9)
                                      for _ in range(chance.randrange(1, 4))) for _ in range(chance.choice([5, 400]))}, key=path_order)
            sides: List[Dict[bytes, bytes]] = []
            for _ in range(2):
                there = [path for path in paths if chance.random() > 0.01]
                sides.append({path: b"# file: %s%s\n# owner: %d" % (path, b"/" * (chance.random() < 0.005), chance.random() < 0.01)
                              for path in there})
            pairs, same = self.walked(list(sides[0].values()), list(sides[1].values()), chance.choice([1, 7, 50, 1000]))
            above = [{b"/".join(path.split(b"/")[:deep]) for path in side for deep in range(1, path.count(b"/") + 1)} for side in sides]
            differ = [path for path in paths if sides[0].get(path) != sides[1].get(path) or
                      path in sides[0] and len({path in it or side[path].split(b"\n")[0][-1:] == b"/" for it, side in zip(above, sides)}) > 1]
            self.assertEqual([it.path for it in pairs], [path for path in differ if any(path in side for side in sides)], seed)
            self.assertEqual(same, [record for path, record in sides[0].items() if path not in differ], seed)


if __name__ == "__main__":
    unittest.main()
