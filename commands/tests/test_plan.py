"""facl-plan over the stored snapshot. What is expected follows from the rules of acl(5) and of the manual pages."""
from __future__ import annotations

import json
import os
import re
import shutil
import signal
import subprocess
import sys
import time
import unittest
from typing import Dict, List, Set, Tuple

from common import COMMANDS, Case, Done, restore_signals

from facl_commands.base.names import path_word
from facl_commands.base.programs import LINUX
from facl_commands.model.records import File, write_record
from facl_commands.plan.hard_links import Links, directory_above, question
from facl_commands.program.scripts import LINE_LIMIT, read_script
from facl_commands.program.session import Session, parts_of

WRITTEN = b"wrote before.plan; next: facl apply before.plan\n"
REQUESTS = [b"--x", b"-w-", b"-wx", b"r--", b"r-x", b"rw-", b"rwx"]
ONE_FILE = b"1 file changes owner, group, flags or ACL"
NOTES = b"# file: /srv/share/notes\n# owner: 1001\n# group: 100\nuser::rw-\nuser:1003:rw-\n"
OLD_NOTES = NOTES + b"group::r--\nmask::r--\nother::---\n\n"
NEW_NOTES = NOTES + b"user:1009:r--\ngroup::r--\nmask::rw-\nother::---\n\n"


def requests_of(right: bytes) -> Set[bytes]:
    """The requests that are granted where these are the greatest."""
    return {it for it in REQUESTS for one in right.split() if len(one) == 3 and all(letter in b"-" + one[k : k + 1] for k, letter in enumerate(it))}


class Reports(Case):
    def test_file_alone(self) -> None:
        # The mask is recalculated, so that mara gets what her entry has.
        done = self.plan(b"setfacl -m u:guest:r srv/share/notes\n", "--file-alone")
        self.expect(done, 0, b"mara   r-- -> rw-     1 file    first: /srv/share/notes\n"
                             b"guest  none -> r--    1 file    first: /srv/share/notes\n" + ONE_FILE + b"\n" + WRITTEN)
        self.assertEqual(self.read("before.plan/old"), OLD_NOTES)
        self.assertEqual(self.read("before.plan/new"), NEW_NOTES)
        self.assertEqual(self.read("before.plan/edits"), b"setfacl -m u:guest:r srv/share/notes\n")
        self.assertEqual(self.read("before.plan/by_hand"), b"")
        self.assertEqual(self.read("before.plan/plan"), b"facl-plan 3\n")
        self.assertEqual(sorted(os.listdir(self.folder)), ["before", "before.plan", "edits"])

    def test_full(self) -> None:
        done = self.plan(b"setfacl -m u:guest:r srv/share/notes", "--full", "--file-alone")
        self.expect(done, 0, b"mara\tr--\t->\trw-\t/srv/share/notes\nguest\tnone\t->\tr--\t/srv/share/notes\n"
                    + ONE_FILE + b"\n" + WRITTEN)

    def test_kinds_are_counted(self) -> None:
        script = b"chmod 644 srv/share/it\\047s srv/share/-x\nchmod 666 '/srv/share/plan 2 '\n"
        done = self.plan(script, "--file-alone", "--with-root")
        out = b"".join(
            b"%-14s  none -> %s    %s  first: /srv/share/%s\n" % row
            for user in (b"everybody else", b"root", b"mara", b"guest")
            for row in ((user, b"r--", b"2 files ", b"-x"), (user, b"rw-", b"1 file  ", b"plan 2 "))
        )
        # ben is of the group.
        ben = b"%-14s  r-- -> rw-     1 file    first: /srv/share/plan 2 \n" % b"ben"
        at = out.index(b"mara")
        self.expect(done, 0, out[:at] + ben + out[at:] + b"3 files change owner, group, flags or ACL\n" + WRITTEN)

    def test_torn_texts(self) -> None:
        self.write("before/links", b"")
        self.write("before/inodes", b"boot b\0001 2 0.000000000 /srv\0")
        done = self.plan(b"chmod 600 srv/share/one\n")
        self.assertEqual((done.status, done.out), (2, b""))
        self.assertIn(b"before/inodes: has no /srv/share/one, so it is not what facl snapshot wrote: make the snapshot again\n", done.messages)
        self.write("before/inodes", b"boot b\0001 2 0.000000000 /srv")
        self.assertIn(b"before/inodes: is not what facl snapshot wrote", self.plan(b"chmod 600 srv/share/one\n").messages)
        self.write("before/meta", b"host srva\ndate 2026-11-26T03:10:00Z\nfolder /srv\nfiles 99\n")
        for torn in (b"", b"boot b\0", b"boot b\0001 2 0.000000000 /srv\0"):
            self.write("before/inodes", torn)
            self.assertIn(b"before/inodes: has fewer names than facl snapshot recorded: make the snapshot again\n",
                          self.plan(b"chmod 600 srv/share/one\n").messages)
        os.unlink(self.path("before/inodes"))
        self.assertEqual(self.plan(b"chmod 600 srv/share/one\n").status, 0)
        self.assertIn(b"warning: before/dump: has 14 files, but facl snapshot recorded 99\n", self.plan(b"chmod 600 srv/share/one\n").messages)

    def test_links_that_are_not_those_of_inodes(self) -> None:
        files = {b"/srv/share/one": 7, b"/srv/share/two": 7, b"/srv/share/notes": 8}
        self.write("before/inodes", b"boot b\0" + b"".join(b"1 %d 0.000000000 %s\0" % (inode, name) for name, inode in files.items()))
        links = self.read("before/links")
        self.assertEqual(links, b"/srv/share/one\n/srv/share/two\n")
        script = b"chmod 600 srv/share/one\n"
        self.assertEqual(self.plan(script).status, 0)
        for other in (b"", b"/srv/share/one\n", links + b"/srv/share/notes\n", links + b"\n" + links, b"/srv/share/one\n/srv/share/notes\n",
                      links + b"/srv/share/absent\n"):
            self.write("before/links", other)
            done = self.plan(script)
            self.assertEqual((done.status, done.out), (2, b""), other)
            self.assertIn(b"before/links: has other names of files than inodes, so it is not what facl snapshot wrote", done.messages)

    def test_a_plan_whose_name_starts_with_a_hyphen(self) -> None:
        self.assertIn(b"wrote -p; next: facl apply ./-p\n", self.plan(b"chmod 600 srv/share/one\n", "--plan=-p").out)

    def test_by_hand_alone(self) -> None:
        done = self.plan(b"gpasswd -a guest design\n")
        self.assertEqual(done.status, 0)
        self.assertIn(b"\nwrote before.plan; next: sh before.plan/by_hand\nby hand: gpasswd -a guest design\n", done.out)

    def test_along_paths(self) -> None:
        # Neither may search srv/share; mara is not named by the line.
        done = self.plan(b"setfacl -m u:guest:r srv/share/notes\n")
        self.expect(done, 0, b"guest  no gain        1 file    /srv/share grants no search permission (other::---); add to the edits: setfacl -n -m u:guest:x /srv/share\n"
                    + ONE_FILE + b"; nobody may do anything else than before\n" + WRITTEN)
        done = self.plan(b"setfacl -m u:guest:r srv/share/notes\nsetfacl -m u:guest:x srv/share\n")
        self.expect(done, 0, b"guest  none -> --x    1 file    first: /srv/share\n"
                             b"guest  none -> r--    1 file    first: /srv/share/notes\n"
                             b"2 files change owner, group, flags or ACL\n" + WRITTEN)

    def test_superusers(self) -> None:
        self.write("before/passwd", self.read("before/passwd") + b"toor:x:0:0::/:/bin/sh\n")
        script = b"chmod 604 srv/share/one\nchmod 751 srv/share\n"
        others = [b"%-14s  none -> %s\n" % (user, what) for user in (b"everybody else", b"guest")
                  for what in (b"--x    1 file    first: /srv/share", b"r--    2 files   first: /srv/share/one")]
        done = self.plan(script)
        self.assertEqual([line for line in done.out.splitlines(True) if line[:5] in (b"root ", b"toor ", b"guest", b"every")], others)
        self.assertIn(b"3 files change owner, group, flags or ACL; root and toor not shown, to whom Linux grants nearly "
                      b"everything; --with-root shows root and toor\n", done.out)
        self.assertEqual(json.loads(self.plan(script, "--json").out)["left_out"], ["root", "toor"])
        done = self.plan(script, "--with-root")
        self.assertIn(b"%-14s  none -> r--    2 files   first: /srv/share/one\n" % b"root", done.out)
        self.assertNotIn(b"left out", done.out)
        # Where nothing changes for root there is no word on it.
        self.assertNotIn(b"left out", self.plan(b"setfacl -m u:guest:r srv/share/notes\n").out)

    def test_full_is_what_changes_prints(self) -> None:
        """Of everybody else what it prints of a user whom nothing names."""
        shutil.copytree(self.path("before"), self.path("more"))
        self.write("more/passwd", self.read("before/passwd") + b"nemo:x:4200000000:4200000000::/:/bin/sh\n")
        numbers = []
        for script in (b"setfacl -m u:guest:r srv/share/notes\nsetfacl -m u:guest:x srv/share\n",
                       b"chmod -R 755 srv/share\ngpasswd -a guest design\nuserdel ben\nrm srv/share/-x\n",
                       b"useradd -u 2000 -g design nell\ncreat --user=mara --mode=0664 srv/share/drafts/new\nusermod -g staff guest\n"
                       b"chmod 070 srv/share/drafts\n"):
            for option in ("", "--reach"):
                done = self.plan(script, "--full", "--with-root", option or "--file-alone")
                rows = [line.split(b"\t") for line in done.out.splitlines() if b"\t->\t" in line]
                with Session(LINUX.find(), os.fsencode(self.path("more"))) as session:
                    session.ask(script)
                    lines = session.ask_accepted(b"changes " + option.encode()).lines()
                    printed = [re.sub(b"^nemo ", b"everybody else ", line) for line in lines]
                found = [b" ".join([user, word, b",".join(it for it in REQUESTS if it in more - less), file[1:] or b"."])
                         for user, old, _, new, file in rows
                         for word, more, less in ((b"gains", requests_of(new), requests_of(old)), (b"loses", requests_of(old), requests_of(new)))
                         if more - less]
                self.assertEqual(sorted(found), sorted(printed))
                self.assertGreater(len(found), 1)
                of_else = [place for place, row in enumerate(rows) if row[0] == b"everybody else"]
                self.assertTrue(all(place == 0 or rows[place - 1][4] != rows[place][4] for place in of_else), rows)
                numbers.append(len(of_else))
        self.assertEqual([number > 0 for number in numbers], [False, False, True, True, False, False])

    def test_two_requests_that_are_not_granted_together(self) -> None:
        done = self.plan(b"chmod 660 srv/share/one\nsetfacl -m g::r,g:audit:w srv/share/one\n", "--full")
        self.assertIn(b"ben\tr--\t->\t-w- r--\t/srv/share/one\n", done.out)

    def test_questions_are_answered(self) -> None:
        done = self.plan(b"who r srv/share/notes\n# why\nsetfacl -m u:guest:r srv/share/notes\nmay guest r\nwho x srv/share/one\n"
                         b"getfacl -n srv/share/one\n", "--file-alone")
        self.assertEqual(done.status, 0)
        answers = (b"# edits, line 1: who r srv/share/notes\nines\nben\nmara\n\n"
                   b"# edits, line 4: may guest r\n.\nsrv\nsrv/share/notes\n\n"
                   b"# edits, line 5: who x srv/share/one\n(nothing)\n\n"
                   b"# edits, line 6: getfacl -n srv/share/one\n# file: srv/share/one\n# owner: 1001\n# group: 100\n"
                   b"user::rw-\ngroup::r--\nother::---\n\n")
        self.assertTrue(done.out.startswith(answers + b"mara "), done.out)
        self.assertEqual(self.read("before.plan/new"), NEW_NOTES)

    def test_json(self) -> None:
        done = self.plan(b"setfacl -m u:guest:r srv/share/notes 'srv/share/p\\351q'\ncan guest srv/share/notes\n", "--json", "--file-alone")
        report = json.loads(done.out)
        self.assertEqual(done.status, 0)
        self.assertEqual(report["plan"], "before.plan")
        self.assertEqual(report["changed"], ["/srv/share/notes", "/srv/share/p\\351q"])
        self.assertEqual(report["changes"], [
            {"user": "mara", "from": "r--", "to": "rw-", "count": 1, "path": "/srv/share/notes"},
            {"user": "guest", "from": "none", "to": "r--", "count": 2, "path": "/srv/share/notes"},
        ])
        self.assertEqual(report["answers"], [
            {"script": "edits", "line": 2, "question": "can guest srv/share/notes", "answer": "r--\n"}
        ])
        self.assertEqual((report["refused"], report["by_hand"]), ([], []))
        done = self.plan(b"setfacl -m u:guest:r srv/share/notes srv/none\n", "--json")
        report = json.loads(done.out)
        self.assertEqual((done.status, report["plan"]), (1, None))
        refused, = report["refused"]
        self.assertTrue(refused.pop("cause")[0].startswith("Paths start at the root of the file system."))
        self.assertEqual(refused, {"script": "edits", "line": 1, "message": "setfacl: srv/none: no such file"})

    def test_json_of_each_file(self) -> None:
        script = b"setfacl -R -m u:guest:r,g:audit:w srv/share\nuserdel mara\nuseradd -u 2000 -g staff 'n\"l'\n"
        rows = [line.decode().split("\t") for line in self.plan(script, "--full").out.replace(b"\351", b"\\351").splitlines() if b"\t" in line]
        done = self.plan(script, "--full", "--json")
        report = json.loads(done.out)
        self.assertEqual(done.out.decode(), json.dumps(report, indent=2) + "\n")
        self.assertEqual([[it["user"], it["from"], "->", it["to"], it["path"]] for it in report["changes"]],
                         rows)
        self.assertGreater(len(rows), 20)

    def test_the_root_in_json(self) -> None:
        report = json.loads(self.plan(b"chmod 700 /\n", "--json", "--file-alone").out)
        self.assertEqual(({it["path"] for it in report["changes"]}, report["changed"]), ({"/"}, ["/"]))

    def test_nothing_to_do(self) -> None:
        message = b"facl-plan: nothing to do: no line changes an ACL, an owner, a flag, a file or a user\n"
        self.expect(self.plan(b"chmod 640 srv/share/one\ngpasswd -a ben audit\n"), 3, b"", message)
        self.expect(self.plan(b""), 3, b"", message)
        self.assertFalse(os.path.exists(self.path("before.plan")))


class EverybodyElse(Case):
    """Whom no entry names, and who is in none of the groups: by a folder that others may search, and files that they may read."""

    SCRIPT = b"chmod 604 srv/share/one\nchmod 751 srv/share\n"
    # ben is of the group, which loses r; mara is the owner of drafts and its file, and named in the list of notes.
    CHANGES = (("everybody else", "none", "--x", 1, "/srv/share"), ("everybody else", "none", "r--", 2, "/srv/share/one"),
               ("ben", "r--", "none", 2, "/srv/share/one"), ("mara", "none", "--x", 1, "/srv/share"), ("mara", "none", "r--", 3, "/srv/share/notes"),
               ("mara", "none", "rw-", 1, "/srv/share/drafts/logo.svg"), ("mara", "none", "rwx", 1, "/srv/share/drafts"),
               ("guest", "none", "--x", 1, "/srv/share"), ("guest", "none", "r--", 2, "/srv/share/one"))
    SUMMARY = b"3 files change owner, group, flags or ACL; root not shown, to whom Linux grants nearly everything; --with-root shows root\n"

    def test_the_report(self) -> None:
        self.expect(self.plan(self.SCRIPT), 0, b"""\
everybody else  none -> --x    1 file    first: /srv/share
everybody else  none -> r--    2 files   first: /srv/share/one
ben             r-- -> none    2 files   first: /srv/share/one
mara            none -> --x    1 file    first: /srv/share
mara            none -> r--    3 files   first: /srv/share/notes
mara            none -> rw-    1 file    first: /srv/share/drafts/logo.svg
mara            none -> rwx    1 file    first: /srv/share/drafts
guest           none -> --x    1 file    first: /srv/share
guest           none -> r--    2 files   first: /srv/share/one
""" + self.SUMMARY + WRITTEN)
        for name in os.listdir(self.path("before.plan")):
            self.assertNotIn(b"facl-everybody", self.read("before.plan/" + name), name)

    def test_json(self) -> None:
        report = json.loads(self.plan(self.SCRIPT, "--json").out)
        self.assertEqual([tuple(it.values()) for it in report["changes"]], [*self.CHANGES])
        self.assertEqual((list(report)[:3], report["judge"], report["left_out"]), (["schema", "version", "judge"], "linux", ["root"]))
        self.assertEqual(json.loads(self.plan(self.SCRIPT, "--acl5", "--json").out)["judge"], "acl5")

    def test_each_file(self) -> None:
        of_one = b"".join(row + b"\t/srv/share/%s\n" for row in (
            b"everybody else\tnone\t->\tr--", b"ben\tr--\t->\tnone", b"mara\tnone\t->\tr--", b"guest\tnone\t->\tr--"))
        self.expect(self.plan(self.SCRIPT, "--full"), 0, (
            b"everybody else\tnone\t->\t--x\t/srv/share\nmara\tnone\t->\t--x\t/srv/share\nguest\tnone\t->\t--x\t/srv/share\n"
            b"mara\tnone\t->\trwx\t/srv/share/drafts\nmara\tnone\t->\trw-\t/srv/share/drafts/logo.svg\n"
            b"mara\tnone\t->\tr--\t/srv/share/notes\n") + of_one.replace(b"%s", b"one") + of_one.replace(b"%s", b"two") + self.SUMMARY + WRITTEN)

    def test_losses(self) -> None:
        done = self.plan(b"chmod 750 srv/share srv\n")
        self.assertTrue(done.out.startswith(b"everybody else  r-x -> none    1 file    first: /srv\nines            r-x -> none"), done.out)

    def test_questions(self) -> None:
        script = b"who r srv\nchmod 751 srv/share\ncan --reach 'everybody else' srv/share\ngains\nwhy 'everybody else' srv/share\n"
        answers = (b"# edits, line 1: who r srv\neverybody else\nroot\nines\nben\nmara\nguest\n\n"
                   b"# edits, line 3: can --reach 'everybody else' srv/share\n--x\n\n"
                   b"# edits, line 4: gains\n01 03 1 everybody else srv/share\n01 03 1 root srv/share\n01 03 1 mara srv/share\n"
                   b"01 03 1 guest srv/share\n\n# edits, line 5: why 'everybody else' srv/share\n# file: srv/share\nother::--x\n\n")
        self.assertTrue(self.plan(script).out.startswith(answers + b"everybody else  none -> --x"))
        self.assertEqual(json.loads(self.plan(script, "--json").out)["answers"][2]["answer"].splitlines()[0], "01 03 1 everybody else srv/share")

    def test_a_user_of_that_name(self) -> None:
        self.write("before/passwd", self.read("before/passwd") + b"everybody else:x:2001:100::/:\n")
        done = self.plan(b"can 'everybody else' srv/share/one\n" + self.SCRIPT)
        self.assertTrue(done.out.startswith(b"# edits, line 1: can 'everybody else' srv/share/one\nr--\n\neverybody else     none -> --x    1 file "))
        self.assertIn(b"everybody\\040else  r-- -> none    2 files   first: /srv/share/one\n", done.out)

    def test_the_number_of_a_directory_service(self) -> None:
        beside = b"everybody else: users whom the snapshot does not have; it has 13 of a directory service\n"
        self.write("before/meta", b"host srva\ndate 2026-11-26T03:10:00Z\nfolder /srv\nusers-asked-for 13\n")
        self.assertIn(beside + self.SUMMARY, self.plan(self.SCRIPT).out)
        self.assertNotIn(beside, self.plan(b"chmod 600 srv/share/one\n").out)
        self.assertEqual(json.loads(self.plan(self.SCRIPT, "--json").out)["snapshot"]["users_asked_for"], 13)


class RefusedLines(Case):
    CAUSE = b"    No row of the snapshot has this name. An entry may have an id without a row.\n"
    REFUSED = b"facl-plan: edits, line 2: setfacl: entry 1: unknown user\n" + CAUSE

    def test_nothing_is_written(self) -> None:
        done = self.plan(b"setfacl -m u:guest:r srv/share/notes\nsetfacl -m u:gast:r srv/share/one\n")
        self.expect(done, 1, b"", self.REFUSED + b"facl-plan: nothing was written: 1 line was refused; mend it, or plan the "
                                                 b"other lines with --keep-going\n")
        self.assertEqual(sorted(os.listdir(self.folder)), ["before", "edits"])

    def test_the_line_that_would_do(self) -> None:
        done = self.plan(b"setfacl -m u:guest:r srv/share/one\ntouch srv/share/made\nsu - guest\nchmod 600 srv/share/one\n")
        self.assertTrue(done.messages.startswith(
            b"facl-plan: edits, line 2: facl: unknown tool\n"
            b"    Files are made by creat, directories by creat -d:\n"
            b"      in the script: creat --user=USER --mode=MODE NEWFILE\n"
            b"facl-plan: edits, line 3: facl: text without end\n"), done.messages)
        self.assertIn(b"\n    line 4 was taken as the text of line 3, since it has a word -\n", done.messages)
        report = json.loads(self.plan(self.read("edits"), "--json").out)
        self.assertEqual(report["refused"][0], {
            "script": "edits", "line": 2, "message": "facl: unknown tool",
            "cause": ["Files are made by creat, directories by creat -d:", "  in the script: creat --user=USER --mode=MODE NEWFILE"],
        })

    def test_keep_going(self) -> None:
        done = self.plan(b"setfacl -m u:guest:r srv/share/notes\nsetfacl -m u:gast:r srv/share/one\n", "--keep-going")
        self.assertEqual((done.status, done.messages), (1, self.REFUSED))
        self.assertTrue(done.out.endswith(WRITTEN))
        self.assertEqual(self.read("before.plan/new"), NEW_NOTES)

    def test_text_without_end(self) -> None:
        done = self.plan(b"chmod 600 srv/share/one\nsetfacl -M - srv/share/two\nu:guest:r\n")
        self.assertEqual(done.status, 1)
        self.assertTrue(done.messages.startswith(b"facl-plan: edits, line 2: facl: text without end\n"), done.messages)
        # A second script does not end the text of the first.
        self.write("more", b".\n")
        done = self.run_command("facl-plan", ["before", "edits", "more"])
        self.assertEqual(done.status, 1)
        self.assertIn(b"facl-plan: edits, line 2: facl: text without end\n", done.messages)
        self.assertIn(b"facl-plan: more, line 1: facl: unknown tool\n", done.messages)

    def test_line_numbers_count_texts(self) -> None:
        self.write("first", b"\nsetfacl -M - srv/share/one\nu:guest:r\n.\nfrob")
        self.write("second", b"# a comment\nfrob 'open\n\xff\n")
        done = self.run_command("facl-plan", ["before", "first", "second"])
        self.assertEqual([line for line in done.messages.split(b"\n") if line[:1] == b"f"][:3], [
            b"facl-plan: first, line 5: facl: unknown tool",
            b"facl-plan: second, line 2: facl: open quote",
            b"facl-plan: second, line 3: facl: not UTF-8",
        ])

    def test_warnings(self) -> None:
        done = self.plan(b"setfacl -d -m d:u:guest:r,u:guest:x srv/share/drafts\n")
        self.assertEqual((done.status, done.messages),
                         (0, b"facl-plan: edits, line 1: setfacl: warning: default entries dropped\n"))
        self.assertEqual(self.plan(b"chmod 604 srv/share/notes\n", "--plan", "other").messages, b"")
        done = self.plan(b"chmod 604 srv/share/notes\n", "--acl5", "--plan", "third")
        self.assertEqual((done.status, done.messages), (0,
            b"facl-plan: judged by the check of acl(5) (--acl5); ACLs by which Linux grants otherwise, as their mask is empty: 1, first: "
            b"/srv/share/notes\n"))
        self.assertEqual(self.plan(b"chmod 600 srv/share/notes\n", "--acl5", "--plan", "fourth").messages,
            b"facl-plan: judged by the check of acl(5) (--acl5); ACLs by which Linux grants otherwise, as their mask is empty: 0\n")
        done = self.plan(b"who r srv/share/notes\r\n")
        self.assertIn(b"facl-plan: warning: edits: has carriage returns, each of which is a part of its word\n", done.messages)


class HardLinks(Case):
    RECORD = b"# file: /srv/share/%s\n# owner: 1001\n# group: 100\nuser::rw-\n%sgroup::r--\nmask::r--\nother::---\n\n"

    def expect_both(self, named: bytes) -> None:
        self.assertEqual(self.read("before.plan/new"), b"".join(self.RECORD % (name, named) for name in (b"one", b"two")))

    def test_an_edit_is_of_all_names(self) -> None:
        done = self.plan(b"setfacl -m u:guest:r srv/share/two\n", "--file-alone")
        self.expect(done, 0, b"guest  none -> r--    2 files   first: /srv/share/one\n"
                             b"2 files change owner, group, flags or ACL\n" + WRITTEN)
        self.expect_both(b"user:1009:r--\n")

    def test_edits_of_both_names_follow_each_other(self) -> None:
        done = self.plan(b"setfacl -m u:guest:r srv/share/two\nsetfacl -x u:guest srv/share/one\n")
        self.expect(done, 0, b"2 files change owner, group, flags or ACL; nobody may do anything else than before\n" + WRITTEN)
        self.expect_both(b"")

    def test_one_line_for_both_names(self) -> None:
        self.plan(b"setfacl -R -m u:guest:r srv/share\n")
        new = self.read("before.plan/new")
        for name in (b"one", b"two"):
            self.assertIn(self.RECORD % (name, b"user:1009:r--\n"), new)

    def test_different_lists_are_refused(self) -> None:
        restored = b"".join(b"# file: srv/share/%s\nuser::rw-\ngroup::%s\nother::---\n\n" % it for it in ((b"one", b"rw-"), (b"two", b"---")))
        done = self.plan(b"setfacl --restore=-\n" + restored + b".\n", "--keep-going")
        self.expect(done, 1, b"",
                    b"facl-plan: edits, line 1: names of one file get different ACLs: /srv/share/one, /srv/share/two\n"
                    b"facl-plan: nothing was written: edit one of those names alone, since the others are the same file\n")
        self.assertFalse(os.path.exists(self.path("before.plan")))

    def test_a_name_that_is_removed(self) -> None:
        done = self.plan(b"rm srv/share/one\nchmod 600 srv/share/two\n")
        self.assertEqual(done.status, 0)
        self.assertIn(b"by hand: rm -- /srv/share/one\n", done.out)
        self.assertTrue(self.read("before.plan/new").startswith(b"# file: /srv/share/two\n"))


    def test_a_directory_above_that_is_removed(self) -> None:
        self.write("before/links", b"/srv/share/drafts/logo.svg\n/srv/share/one\n/srv/share/two\n")
        done = self.plan(b"rm -r srv/share/drafts\nchmod 600 srv/share/two\n")
        self.assertEqual(done.status, 0)
        names = [line for line in self.read("before.plan/new").split(b"\n") if line.startswith(b"# f")]
        self.assertEqual(names, [b"# file: /srv/share/one", b"# file: /srv/share/two"])

    def test_names_that_were_different_stay_so_until_a_line_touches_them(self) -> None:
        # The file is one; its record is that of the name which the line has.
        self.write("before/links", b"/srv/share/notes\n/srv/share/one\n")
        self.assertEqual(self.plan(b"chmod 600 srv/share/two\n").status, 0)
        self.assertEqual(self.read("before.plan/new").count(b"# file"), 1)
        self.plan(b"chmod 660 srv/share/one\n")
        body = b"# owner: 1001\n# group: 100\nuser::rw-\ngroup::rw-\nother::---\n\n"
        self.assertEqual(self.read("before.plan/new"), b"# file: /srv/share/notes\n" + body + b"# file: /srv/share/one\n" + body)


class ManyHardLinks(Case):
    """A snapshot with many hard links, and a program that keeps what it is sent."""

    SETS = 1_500

    def setUp(self) -> None:
        super().setUp()
        self.sets = [[b"srv/share/many/a%d" % k, b"srv/share/more/b%d" % k] for k in range(self.SETS)]
        body = b"# owner: 1001\n# group: 100\nuser::rw-\ngroup::r--\nother::---\n"
        names = sorted(it for names in self.sets for it in names)
        records = b"".join(write_record(b"srv/share/" + it, File(True, body)) for it in (b"many", b"more"))
        records += b"".join(write_record(it, File(False, body)) for it in names)
        self.write("before/dump", self.read("before/dump") + records)
        self.write("before/links", b"\n".join(b"".join(b"/%s\n" % it for it in names) for names in self.sets))
        program = os.fsencode(LINUX.find())  # Which gets other texts where records are asked of.
        self.write("keeps", b'#!/bin/sh\n[ "$(readlink "$6")" = "$(realpath before/dump)" ] || exec "%s" "$@"\ntee sent | "%s" "$@"\n'
                   % (program, program))
        os.chmod(self.path("keeps"), 0o755)

    def planned(self, script: bytes) -> bytes:
        """What the program is sent for a script, of which nothing is refused."""
        done = self.plan(script, "--program", "./keeps")
        self.assertEqual((done.status, done.messages), (0, b""))
        return self.read("sent")

    def test_only_names_that_a_line_can_touch_are_asked_for(self) -> None:
        lines = b"".join(b"setfacl -m u:guest:r srv/share/many/a%d\n" % k for k in range(100))
        sent = self.planned(lines)
        self.assertEqual(sent.count(b"getfacl -n -E --"), 100)
        self.assertLess(len(sent), 60_000)
        self.assertEqual(self.read("before.plan/new").count(b"user:1009:r--"), 200)

    def test_other_names_get_their_records_once(self) -> None:
        sent = self.planned(b"chmod -R 600 srv/share/many\nsetfacl -R -m u:guest:r srv/share/many\n" * 3)
        self.assertEqual(sent.count(b"getfacl -n -E --"), 6)  # 1,500 names of about 25 bytes are in one line.
        self.assertEqual(sent.count(b"setfacl -n --set="), 1)
        self.assertEqual(self.read("before.plan/new").count(b"user:1009:r--"), 2 * self.SETS + 1)  # With the directory.

    def test_questions_see_all_names(self) -> None:
        edit = b"setfacl -m u:guest:r srv/share/many/a%d\n"
        self.plan(edit % 7 + b"can guest srv/share/more/b7\n" + edit % 8 + b"may guest r\ngetfacl -R -n -c srv/share/more\n")
        answers = self.plan(self.read("edits"), "--json").out
        found = [it["answer"] for it in json.loads(answers)["answers"]]
        self.assertEqual(found[0], "r--\n")
        self.assertEqual([name for name in found[1].splitlines() if "/m" in name],
                         ["srv/share/many/a7", "srv/share/many/a8", "srv/share/more/b7", "srv/share/more/b8"])
        self.assertEqual(found[2].count("user:1009:r--"), 2)

    def test_many_names_that_are_removed(self) -> None:
        lines = b"rm srv/share/many/a7\nrm -r srv/share/many\nsetfacl -R -m u:guest:r srv/share/more\n"
        sent = self.planned(lines)
        # After the second line the question for its names is refused, and so is that for their directory: all files are listed.
        self.assertEqual((sent.count(b"getfacl -n -E --"), sent.count(b"getfacl -n -E -R --")), (3, 4))
        self.assertEqual(len(re.findall(rb"^\d+ rm -- ", self.read("before.plan/by_hand"), re.MULTILINE)), self.SETS)
        self.assertEqual(self.read("before.plan/new").count(b"# file: /srv/share/more/b"), self.SETS)


class TouchedLinks(unittest.TestCase):
    FILES: Dict[bytes, File] = {it: File(False, b"") for it in (b"srv/a", b"srv/d/b", b"srv/d/e f", b"srv/d-e/c", b"-x", b"g")}

    def expect(self, script: bytes, *names: bytes) -> None:
        links = Links([[b"srv/a", b"srv/d/b"], [b"srv/d/e f", b"srv/d-e/c"], [b"-x", b"g"]], self.FILES)
        for unit in read_script(b"edits", script):
            self.assertEqual(links.touched(unit), set(names), script)

    def test_files(self) -> None:
        self.expect(b"chmod 600 srv/a", b"srv/a")
        self.expect(b"chmod 600 /srv//./a/", b"srv/a")
        self.expect(b"setfacl -m u:guest:r 'srv/d/e f' srv/a", b"srv/d/e f", b"srv/a")
        self.expect(b"setfacl -m u:guest:r srv/d/e\\040f 'srv\\057a'", b"srv/d/e f", b"srv/a")
        self.expect(b"chmod 600 srv/x")
        self.expect(b"rm -- -x", b"-x")
        self.expect(b"who --reach r srv/a", b"srv/a")

    def test_whole_subtrees(self) -> None:
        self.expect(b"chmod -R 600 srv/d", b"srv/d/b", b"srv/d/e f")
        self.expect(b"setfacl -R -m u:guest:r srv/d-e", b"srv/d-e/c")
        self.expect(b"setfacl --recursive -m u:guest:r srv/d-e", b"srv/d-e/c")
        self.expect(b"setfacl -nRmu:guest:r /", *self.FILES)
        self.expect(b"chacl -r u::rwx,g::---,o::--- .", *self.FILES)
        self.expect(b"getfacl -Rn srv/d-e", b"srv/d-e/c")
        self.expect(b"rm -r srv/d-e", b"srv/d-e/c")
        # These change the directory alone.
        self.expect(b"setfacl -m u:guest:r srv")
        self.expect(b"setfacl -mu:guest:r srv")

    def test_other_tools(self) -> None:
        for line in (b"index", b"changes", b"may guest r", b"frob"):
            self.expect(line, *self.FILES)
        self.expect(b"gpasswd -a guest staff")

    def test_records(self) -> None:
        self.expect(b"setfacl --restore=-\n# file: srv/a\nuser::rw-\n\n \t#file:/g/\n.\n", b"srv/a", b"g")
        self.expect(b"setfacl --restore=-\n# file: srv\nuser::rw-\n.\n")

    def test_lines_have_room(self) -> None:
        paths = [b"\xff" * 4_900 + b"%d" % k for k in range(7)]
        parts = list(parts_of(paths, word_of=path_word))
        self.assertEqual([path for part in parts for path in part], paths)
        self.assertEqual([len(part) for part in parts], [3, 3, 1])
        self.assertTrue(all(len(question(part)) <= LINE_LIMIT + 1 for part in parts))

    def test_the_directory_above_names(self) -> None:
        for paths, above in (([b"a/b/c", b"a/b/d/e"], b"a/b"), ([b"a/b/c"], b"a/b"), ([b"a/b", b"a-c/b"], b""), ([b"a", b"a-/b"], b"")):
            self.assertEqual(directory_above(paths), above)


class Names(Case):
    def plan_with(self, name: bytes, script: bytes, *options: str) -> Done:
        """Plans edits over a snapshot that has a further file, which is the last one."""
        body = b"# owner: 1001\n# group: 100\nuser::rw-\ngroup::r--\nother::---\n"
        self.write("before/dump", self.read("before/dump") + write_record(b"srv/share/" + name, File(False, body)))
        return self.plan(script, *options)

    def test_each_file_has_a_name_of_its_own_in_json(self) -> None:
        """Of two files one has a byte that is no UTF-8, the other one the four characters of its escape."""
        names = (rb"'srv/share/p\351q'", rb"'srv/share/p\134351q'")
        wanted = ["/srv/share/p\\134351q", "/srv/share/p\\351q"]
        self.assertEqual(self.plan_with(rb"p\351q", b"setfacl -m u:guest:r %s %s\n" % names).status, 0)
        for script in (b"setfacl -m u:guest:r %s %s\n" % names, b"rm %s %s\n" % names):
            for view, number in (("--json", 1), ("--full", 2)):
                report = json.loads(self.plan(script, "--json", "--file-alone", *{view} - {"--json"}).out)
                self.assertEqual(sorted(report["changed"] + report["removed"]), wanted)
                found = {it["path"] for it in report["changes"]}
                self.assertLessEqual(found, set(wanted))
                self.assertEqual(len(found), number)

    def test_what_a_terminal_would_obey(self) -> None:
        name, word, seen = b"z\033[2J\xc2\x9b", b"'srv/share/z\\033[2J\\302\\233'", b"srv/share/z\\033[2J\\302\\233"
        row = b"guest  none -> r--    1 file    first: /%s\n" % seen
        done = self.plan_with(name, b"who r %s\nsetfacl -m u:guest:r %s\n" % (word, word), "--file-alone")
        self.assertTrue(done.out.startswith(b"# edits, line 1: who r " + word + b"\nines\nben\n\n" + row), done.out)
        done = self.plan(b"getfacl -c %s\nmay ines w\nrm %s\n" % (word, word))
        self.assertIn(b"\nsrv/share/two\n" + seen + b"\n", done.out)
        self.assertIn(b"by hand: rm -- '/" + seen + b"'\n", done.out)
        self.assertNotIn(b"\033", done.out)

    def test_words_that_a_terminal_would_obey(self) -> None:
        """Words of a line may be names of files, which a shell has put in the place of a star."""
        for name, words in (("facl-plan", ["before", "edits"]), ("facl-verbs", ["plan", "-s", "before"])):
            done = self.run_command(name, [*words, "--\033[2J\udcff"])
            self.assertEqual(done.status, 2)
            self.assertTrue(done.messages.endswith(b"unrecognized arguments: --\\033[2J\\377\n"), done.messages)

    def test_scripts_get_names_as_they_are(self) -> None:
        done = self.plan_with(b"z\033", b"setfacl -m u:guest:r 'srv/share/z\\033'\n", "--full", "--file-alone")
        self.assertTrue(done.out.startswith(b"guest\tnone\t->\tr--\t/srv/share/z\033\n"), done.out)
        report = json.loads(self.plan(self.read("edits"), "--json", "--file-alone").out)
        self.assertEqual(report["changes"][0]["path"], "/srv/share/z\033")

    def test_full_at_a_terminal(self) -> None:
        self.plan_with(b"z\033", b"setfacl -m u:guest:r 'srv/share/z\\033'\n")
        own, its = os.openpty()
        words = [os.path.join(COMMANDS, "facl-plan"), "--full", "--file-alone", "before", "edits"]
        self.assertEqual(subprocess.run(words, cwd=self.folder, stdout=its, check=False).returncode, 0)
        os.close(its)
        with open(own, "rb", buffering=0) as terminal:
            self.assertTrue(terminal.read(1_000).startswith(b"guest\tnone\t->\tr--\t/srv/share/z\\033\r\n"))

    def test_odd_names(self) -> None:
        done = self.plan(b"chmod 600 'srv/share/a\\012b' 'srv/share/back\\\\slash' srv/share/-x 'srv/share/it\\047s' "
                         b"'srv/share/p\\351q' '/srv/share/plan 2 '\n")
        self.assertEqual(done.status, 0)
        body = b"\n# owner: 1001\n# group: 100\nuser::rw-\ngroup::---\nother::---\n\n"
        names = [b"-x", b"a\\012b", b"back\\134slash", b"it's", b"plan 2 ", b"p\351q"]
        self.assertEqual(self.read("before.plan/new"), b"".join(b"# file: /srv/share/" + name + body for name in names))
        self.assertEqual(self.read("before.plan/old"),
                         b"".join(b"# file: /srv/share/" + name + body.replace(b"group::---", b"group::r--") for name in names))

    def test_a_chain_of_directories(self) -> None:
        chain = [b"srv/share" + b"/d" * depth for depth in range(1, 1_500)]
        body = b"# owner: 1001\n# group: 100\nuser::rwx\ngroup::r-x\nother::---\n"
        self.write("before/dump", self.read("before/dump") + b"".join(write_record(path, File(True, body)) for path in chain))
        for options in ("", "--reach", "--json"):
            done = self.plan(b"setfacl -R -m u:guest:rX srv\n", *options.split())
            self.assertEqual((done.status, done.messages), (0, b""))
            self.assertEqual(self.read("before.plan/new").count(b"# file: "), 1_499 + 13)

    def test_directories_end_in_a_slash(self) -> None:
        self.plan(b"chmod 700 srv/share/drafts srv/share\n")
        self.assertEqual([line for line in self.read("before.plan/new").split(b"\n") if line.startswith(b"# f")], [
            b"# file: /srv/share/", b"# file: /srv/share/drafts/", b"# flags: -s-"
        ])

    def test_folders_with_odd_names(self) -> None:
        name = os.fsdecode(b"a\351 b\n")
        os.rename(self.path("before"), self.path(name))
        self.write("-edits '", b"chmod 600 srv/share/one\n")
        done = self.run_command("facl-plan", ["--", name + "/", "-edits '"])
        self.assertEqual(done.status, 0)
        self.assertIn(b"wrote a\\351 b\\012.plan; next: facl apply 'a\\351 b\\012.plan'\n", done.out)
        self.assertTrue(os.path.exists(self.path(name + ".plan")))

    def test_the_folder_itself(self) -> None:
        self.write("before/edits", b"chmod 600 srv/share/one\n")
        words = [os.path.join(COMMANDS, "facl-plan"), ".", "edits"]
        self.assertEqual(subprocess.run(words, cwd=self.path("before"), capture_output=True, check=False).returncode, 0)
        self.assertTrue(os.path.exists(self.path("before.plan/new")))

    def test_a_script_twice(self) -> None:
        self.write("edits", b"gpasswd -a guest audit\nfrob\n")
        done = self.run_command("facl-plan", ["before", "edits", "edits"])
        self.assertEqual(done.messages.count(b"facl-plan: edits, line 2: facl: unknown tool\n"), 2)

    def test_standard_input(self) -> None:
        done = self.run_command("facl-plan", ["before", "-"], b"frob")
        self.assertTrue(done.messages.startswith(b"facl-plan: standard input, line 1: facl: unknown tool\n"), done.messages)


class Owners(Case):
    BODY = b"user::rw-\ngroup::r--\nother::---\n\n"

    def test_other_names_get_the_owner_too(self) -> None:
        # The first line gives two a list, which one gets before the second is answered.
        done = self.plan(b"setfacl -m g::- srv/share/two\nchown guest:audit srv/share/one\nchgrp 300 srv/share/-x\n", "--file-alone")
        self.assertEqual((done.status, done.messages), (0, b""))
        body = b"# owner: 1009\n# group: 400\n" + self.BODY.replace(b"r--", b"---")
        self.assertEqual(self.read("before.plan/new"), b"# file: /srv/share/-x\n# owner: 1001\n# group: 300\n" + self.BODY
                         + b"# file: /srv/share/one\n" + body + b"# file: /srv/share/two\n" + body)
        self.assertIn(b"guest  none -> rw-    2 files   first: /srv/share/one\n", done.out)
        self.assertIn(b"guest  none -> r--    1 file    first: /srv/share/-x\n", done.out)

    def test_along_paths(self) -> None:
        done = self.plan(b"chown -R guest srv/share/drafts\n")
        self.assertIn(b"guest  no gain        2 files   /srv/share grants no search permission (other::---); add to the edits: setfacl -n -m u:guest:x /srv/share\n",
                      done.out)

    def test_refused(self) -> None:
        done = self.plan(b"chown gast srv/share/one\nchgrp staff srv/none\nchown guest srv/share/two\n", "--keep-going")
        self.assertEqual(done.status, 1)
        self.assertTrue(done.messages.startswith(b"facl-plan: edits, line 1: chown: gast: no such user\n    "), done.messages)
        self.assertIn(b"\nfacl-plan: edits, line 2: chgrp: srv/none: no such file\n    ", done.messages)
        self.assertEqual(self.read("before.plan/new").count(b"# owner: 1009\n"), 2)

    def test_nothing_changes(self) -> None:
        self.assertEqual(self.plan(b"chown ines srv/share/one\nchgrp staff srv/share/one\n").status, 3)

    def test_a_user_who_leaves_files(self) -> None:
        done = self.plan(b"userdel mara\n")
        self.assertEqual(done.out.splitlines()[-3:], [
            b"by hand: userdel mara", b"mara is removed and still owns 2 files, first: /srv/share/drafts",
            b"mara is removed and still named in the ACLs of 1 file, first: /srv/share/notes"])
        self.assertTrue(self.read("before.plan/by_hand").endswith(b"\n# chown -R -h --from=1003 NEWOWNER -- /srv/share/drafts\n"))
        done = self.plan(b"userdel mara\nchown -R ines srv/share/drafts\nsetfacl -x u:1003 srv/share/notes\n", "--json")
        self.assertEqual(json.loads(done.out)["left_behind"], [])
        done = self.plan(b"userdel mara\nchown -R ines srv/share/drafts\n", "--json")
        self.assertEqual(json.loads(done.out)["left_behind"],
                         [{"user": "mara", "uid": 1003, "owned": 0, "named": 1, "path": "/srv/share/notes"}])


class AnyDump(Case):
    """A folder with the texts of `getfacl -R`, as administrators keep them."""

    OPEN = (b"facl-plan: old: the directories above are not recorded, so they are taken as open; hard links, immutable files and "
            b"read-only file systems are not known")
    RELATIVE = OPEN + b"; names do not start at the root of the file system, so no plan is written\n"
    RECORDS = (b"# file: %snotes\n# owner: ines\n# group: staff\nuser::rw-\nuser:mara:rw-\t\t\t#effective:r--\ngroup::r--\nmask::r--\nother::---\n\n"
               b"# file: %sdrafts\n# owner: mara\n# group: design\n# flags: -s-\nuser::rwx\ngroup::rwx\nother::---\n\n"
               b"# file: %sdrafts/logo\n# owner: mara\n# group: design\nuser::rw-\ngroup::rw-\nother::---\n\n")

    def plan_of(self, begin: bytes, script: bytes, *options: str) -> Done:
        if not os.path.exists(self.path("old")):
            os.mkdir(self.path("old"))
        for name in ("passwd", "group"):
            self.write("old/" + name, self.read("before/" + name))
        self.write("old/dump", self.RECORDS.replace(b"%s", begin))
        self.write("edits", script)
        return self.run_command("facl-plan", [*options, "old", "edits"])

    def test_relative_names(self) -> None:
        done = self.plan_of(b"", b"setfacl -m u:guest:r notes drafts/logo\n")
        self.expect(done, 0, b"mara   r-- -> rw-     1 file    first: notes\n"
                             b"guest  none -> r--    1 file    first: notes\n"
                             b"guest  no gain        1 file    drafts grants no search permission (other::---); add to the edits: setfacl -n -m u:guest:x drafts\n"
                             b"2 files change owner, group, flags or ACL\n", self.RELATIVE)
        self.assertEqual(sorted(os.listdir(self.folder)), ["before", "edits", "old"])

    def test_files_and_users_of_relative_names(self) -> None:
        done = self.plan_of(b"", b"rm notes\nuserdel mara\n")
        self.assertEqual(done.out.splitlines()[-3:], [
            b"0 files change owner, group, flags or ACL; 0 files are made, 1 removed; 1 command has to be run by hand",
            b"by hand: userdel mara", b"mara is removed and still owns 2 files, first: drafts"])
        report = json.loads(self.plan_of(b"", b"rm -r drafts\nchown ines:audit notes\n", "--json").out)
        self.assertEqual((report["plan"], report["changed"], report["removed"], report["by_hand"]),
                         (None, ["notes"], ["drafts", "drafts/logo"], []))
        self.assertEqual(self.plan_of(b"", b"chown ines notes\n").status, 3)
        self.assertEqual(self.plan_of(b"", b"rm -r drafts notes\n").status, 0)

    def test_the_folder_itself_is_recorded(self) -> None:
        self.RECORDS = b"# file: .\n# owner: root\n# group: root\nuser::rwx\ngroup::---\nother::---\n\n" + AnyDump.RECORDS
        done = self.plan_of(b"", b"setfacl -n -m u:guest:r notes\n")
        self.assertEqual((done.status, done.messages), (0, self.RELATIVE))
        self.assertIn(b"guest  no gain        1 file    . grants no search permission (other::---); add to the edits: setfacl -n -m u:guest:x,m::x .\n", done.out)

    def test_whole_names(self) -> None:
        done = self.plan_of(b"/srv/", b"setfacl -n -m u:guest:r srv/notes\n")
        self.expect(done, 0, b"guest  none -> r--    1 file    first: /srv/notes\n" + ONE_FILE + b"\n"
                             b"wrote old.plan; next: facl apply old.plan\n", self.OPEN + b"\n")
        self.assertEqual(self.read("old.plan/new").count(b"# file: /srv/notes\n"), 1)


class ADumpByName(Case):
    def test_the_same_plan(self) -> None:
        self.write("edits", b"setfacl -m u:guest:r srv/share/notes\n")
        for name in ("dump", "passwd", "group"):
            self.write("its_" + name, self.read("before/" + name))
        words = ["--dump", "its_dump", "--passwd", "its_passwd", "--group", "its_group", "edits"]
        by_name, by_folder = self.run_command("facl-plan", words), self.run_command("facl-plan", ["before", "edits"])
        self.assertEqual(by_name.status, 0, by_name.messages)
        self.assertEqual(by_name.out.replace(b"its_dump.plan", b"before.plan"), by_folder.out)
        self.assertEqual(self.read("its_dump.plan/new"), self.read("before.plan/new"))
        self.assertEqual(self.run_command("facl-plan", ["--passwd", "its_passwd", "before", "edits"]).status, 2)

    def test_names_without_a_row(self) -> None:
        self.write("edits", b"setfacl -m u:guest:r srv/share/notes\n")
        self.write("acls", b"# file: srv\n# owner: gone\n# group: 7\nuser::rwx\ngroup::r-x\nother::--x\n")
        words = ["--dump", "acls", "--passwd", "before/passwd", "--group", "before/group"]
        warning = b"users and groups in the dump without a row, with which the program does not load it: 1, first: line 2\n"
        fault = b": acls: the program does not load it: facl: setup: dump: text line 2: unknown user\n"
        cases: List[Tuple[str, List[str]]] = [("facl-plan", ["edits"]), ("facl-audit", [])]
        for name, more in cases:
            done = self.run_command(name, [*words, *more])
            self.assertEqual((done.status, done.out), (2, b""))
            self.assertTrue(done.messages.endswith(name.encode() + b": warning: " + warning + name.encode() + fault), done.messages)


class BadInput(Case):
    def expect_unusable(self, message: bytes, *words: str) -> None:
        self.expect(self.run_command("facl-plan", list(words)), 2, b"", b"facl-plan: " + message + b"\n")
        self.assertFalse(os.path.exists(self.path("before.plan")))

    def test_words(self) -> None:
        for command in ("facl-plan", "facl-apply"):
            wrong: List[List[str]] = [[], ["--frob", "before", "edits"], ["before", "edits", "--pla", "x"]]
            for words in wrong:
                done = self.run_command(command, words)
                self.assertEqual((done.status, done.out), (2, b""))
                self.assertTrue(done.messages.startswith(b"usage: " + command.encode()), done.messages)
            done = self.run_command(command, ["--help"])
            self.assertEqual((done.status, done.messages), (0, b""))
            self.assertTrue(done.out.startswith(b"usage: " + command.encode()))

    def test_snapshots(self) -> None:
        self.write("edits", b"chmod 600 srv/share/one\n")
        self.expect_unusable(b"absent: no such folder; make a snapshot with facl snapshot", "absent", "edits")
        self.expect_unusable(b"edits: no such folder; make a snapshot with facl snapshot", "edits", "edits")
        dump = self.read("before/dump")
        self.write("before/dump", dump[:-23])
        line = dump[: dump.index(b"# file: /srv/share/two")].count(b"\n") + 1
        self.expect_unusable(b"before: the program does not load it: facl: setup: dump: text line %d: access list: group:: missing" % line,
                             "before", "edits")
        os.unlink(self.path("before/dump"))
        self.expect_unusable(b"before: is not a snapshot: it has no dump", "before", "edits")

    def test_a_dump_above_the_limit(self) -> None:
        self.write("edits", b"chmod 600 srv/share/one\n")
        os.truncate(self.path("before/dump"), 268_435_457)
        self.expect_unusable(b"before: its dump has more than 268,435,456 bytes, the most that the program reads: take several snapshots "
                             b"with facl snapshot --split", "before", "edits")

    def test_scripts(self) -> None:
        self.expect_unusable(b"absent: No such file or directory", "before", "absent")
        self.expect_unusable(b"before: Is a directory", "before", "before")
        with open(self.path("huge"), "wb") as file:
            file.truncate(9 << 30)
        too_large = b" has more than 64 MiB, which is too large"
        self.expect_unusable(b"huge:" + too_large, "before", "huge")
        with open(self.path("huge"), "rb") as file:
            words = [sys.executable, "-I", os.path.join(COMMANDS, "facl-plan"), "before", "-"]
            done = subprocess.run(words, cwd=self.folder, stdin=file, capture_output=True, check=False)
        self.assertEqual((done.returncode, done.stderr), (2, b"facl-plan: standard input:" + too_large + b"\n"))

    def test_programs(self) -> None:
        self.write("edits", b"chmod 600 srv/share/one\n")
        self.expect_unusable(b"absent: no such program", "--program", "absent", "before", "edits")
        self.write("ends", b"#!/bin/sh\necho 'facl: no memory' >&2\nexit 2\n")
        os.chmod(self.path("ends"), 0o755)
        self.expect_unusable(b"the program ended early: facl: no memory", "--program", "./ends", "before", "edits")

    def test_targets(self) -> None:
        self.write("edits", b"chmod 600 srv/share/one\n")
        self.expect_unusable(b"absent/plan: its parent directory does not exist", "--plan", "absent/plan", "before", "edits")
        self.expect_unusable(b"edits exists and is not a plan; choose another name with -o",
                             "--plan", "edits", "before", "edits")
        self.expect_unusable(b"before exists and is not a plan alone (it has other files); choose another name with -o",
                             "--plan", "before", "before", "edits")

    def test_files_of_a_person_by_the_names_of_those_of_a_plan(self) -> None:
        os.mkdir(self.path("mine"))
        self.write("mine/edits", b"chmod 600 srv/share/one\n")
        self.expect_unusable(b"mine exists and is not a plan; choose another name with -o", "--plan", "mine", "before", "mine/edits")
        os.rename(self.path("mine/edits"), self.path("edits"))
        self.assertEqual(self.run_command("facl-plan", ["--plan", "mine", "before", "edits"]).status, 0)  # An empty folder will do.

    def test_a_plan_is_replaced_unless_it_was_applied(self) -> None:
        self.plan(b"chmod 600 srv/share/one\n")
        self.assertEqual(self.plan(b"chmod 600 srv/share/-x\n").status, 0)
        self.assertTrue(self.read("before.plan/new").startswith(b"# file: /srv/share/-x\n"))
        for number, state in enumerate((b"applied\n", b"undone\n"), 1):
            self.write("before.plan/state", state)
            os.chmod(self.path("before.plan/state"), 0o600)
            done = self.plan(b"chmod 600 srv/share/one\n")
            self.assertEqual((done.status, done.messages), (0, b"facl-plan: kept the earlier plan as before.plan.%d\n" % number))
            self.assertEqual(self.read("before.plan.%d/state" % number), state)
        self.assertEqual(sorted(os.listdir(self.folder)), ["before", "before.plan", "before.plan.1", "before.plan.2", "edits"])

    def test_the_program_has_a_small_environment(self) -> None:
        self.write("shows", b'#!/bin/sh\nenv >variables\nexec "%s" "$@"\n' % os.fsencode(LINUX.find()))
        os.chmod(self.path("shows"), 0o755)
        self.write("edits", b"chmod 600 srv/share/one\n")
        done = self.run_command("facl-plan", ["--program", "./shows", "before", "edits"],
                                environment={"POSIXLY_CORRECT": "1", "LC_ALL": "C.UTF-8", "LD_PRELOAD": ""})
        self.assertEqual(done.status, 0)
        found = self.read("variables").splitlines()
        self.assertIn(b"LC_ALL=C", found)
        self.assertLessEqual({line.split(b"=")[0] for line in found}, {b"LC_ALL", b"PATH", b"PWD", b"OLDPWD", b"SHLVL", b"_"})


class Interruptions(Case):
    def test_signals_leave_nothing(self) -> None:
        self.write("edits", b"chmod 600 srv/share/one\n")
        self.write("slow", b"#!/bin/sh\n: >at_work\nexec sleep 100\n")
        os.chmod(self.path("slow"), 0o755)
        for number, status in ((signal.SIGINT, 130), (signal.SIGTERM, 143), (signal.SIGHUP, 129)):
            words = [os.path.join(COMMANDS, "facl-plan"), "--program", "./slow", "before", "edits"]
            with subprocess.Popen(words, cwd=self.folder, stdout=subprocess.PIPE, stderr=subprocess.PIPE, preexec_fn=restore_signals) as run:
                while not os.path.exists(self.path("at_work")):
                    time.sleep(0.01)
                run.send_signal(number)
                out, messages = run.communicate()
            self.assertEqual((run.returncode, out, messages), (status, b"", b""))
            os.unlink(self.path("at_work"))
            self.assertEqual(sorted(os.listdir(self.folder)), ["before", "edits", "slow"])

    def test_a_reader_that_ends(self) -> None:
        self.write("edits", b"index\n" * 2000)
        command = "%s before edits | head -n 1; echo ${PIPESTATUS[0]}" % os.path.join(COMMANDS, "facl-plan")
        done = subprocess.run(["bash", "-c", command], cwd=self.folder, capture_output=True, check=False)
        # It goes on: what is decided does not depend on what can be said.
        message = b"facl-plan: nothing to do: no line changes an ACL, an owner, a flag, a file or a user\n"
        self.assertEqual((done.stdout, done.stderr), (b"# edits, line 1: index\n3\n", message))


if __name__ == "__main__":
    unittest.main()
