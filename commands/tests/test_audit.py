"""facl-audit: each finding is made once, in a tree in which nothing else is found."""
from __future__ import annotations

import json
import os
import re
import signal
import subprocess
import sys
import tempfile
import time
import unittest
from typing import Any, Dict, List, NamedTuple

from common import COMMANDS, Done, restore_signals
from page_data import read_data
from small_tree import CLEAN, GROUP, PASSWD, SmallTree

from facl_commands.base.programs import LINUX
from facl_commands.model.entries import NamesOfIds, read_record
from facl_commands.model.records import File
from facl_commands.questions.audit import findings
from facl_commands.questions.audit.lists import SET_GROUP, without_flag

PLAIN = b"# owner: 1001\n# group: 2001\nuser::rw-\ngroup::rw-\nother::---\n"
FOLDER = b"# owner: 0\n# group: 2001\nuser::rwx\ngroup::rwx\nother::---\n"
OPEN = b"# owner: 0\n# group: 2001\nuser::rwx\ngroup::rwx\nother::--x\n"


class Made(NamedTuple):
    """What makes a finding, and the row that it gives."""

    records: Dict[bytes, bytes]
    first: bytes
    what: bytes
    mend: bytes
    links: bytes = b""
    beside: str = ""  # Another finding that cannot be left out, or several.


def with_entries(body: bytes, *entries: bytes) -> bytes:
    """A record with entries of users and groups, and a mask that cuts nothing."""
    before, after = body.split(b"group::", 1)
    users = b"".join(it + b"\n" for it in entries if it.startswith(b"user"))
    groups = b"".join(it + b"\n" for it in entries if it.startswith(b"group"))
    group, others = after.split(b"\n", 1)
    return before + users + b"group::" + group + b"\n" + groups + b"mask::rwx\n" + others


FILE = b"/srv/hr/new"
PROGRAM = b"may be meant: a program that others run so"
MADE: Dict[str, Made] = {
    "writable-by-everybody": Made(
        {b"/srv/hr/": OPEN, FILE: PLAIN.replace(b"other::---", b"other::-w-")}, b"/srv/hr/new", b"",
        b"setfacl -n -m o::--- /srv/hr/new"),
    "readable-by-everybody": Made(
        {b"/srv/hr/": OPEN, FILE: PLAIN.replace(b"other::---", b"other::r--")}, b"/srv/hr/new", b"",
        b"setfacl -n -m o::--- /srv/hr/new"),
    "execute-for-everybody": Made(
        {b"/srv/hr/": OPEN, FILE: PLAIN.replace(b"other::---", b"other::--x")}, b"/srv/hr/new", b"",
        b"setfacl -n -m o::--- /srv/hr/new"),
    "writable-behind-closed": Made(
        {FILE: PLAIN.replace(b"other::---", b"other::-w-")}, b"/srv/hr/new", b"closed by /srv/hr",
        b"setfacl -n -m o::--- /srv/hr/new"),
    "readable-behind-closed": Made(
        {FILE: PLAIN.replace(b"other::---", b"other::r--")}, b"/srv/hr/new", b"closed by /srv/hr",
        b"setfacl -n -m o::--- /srv/hr/new"),
    "set-user-id": Made(
        {FILE: b"# owner: 1001\n# group: 2001\n# flags: ss-\nuser::rwx\ngroup::r-x\nother::---\n"}, b"/srv/hr/new", PROGRAM,
        b"chmod 2750 /srv/hr/new", beside="set-group-id"),
    "set-group-id": Made(
        {FILE: b"# owner: 1001\n# group: 2001\n# flags: -s-\nuser::rwx\ngroup::r-x\nother::---\n"}, b"/srv/hr/new", PROGRAM,
        b"chmod 0750 /srv/hr/new"),
    "writable-by-teams": Made(
        {b"/srv/hr/both/": with_entries(FOLDER, b"group:2002:rwx"), b"/srv/hr/": with_entries(FOLDER, b"group:2002:--x")},
        b"/srv/hr/both", b"group hr, group law", b"chmod 1770 /srv/hr/both"),
    "writer-outside-groups": Made(
        {FILE: with_entries(PLAIN, b"user:1009:rw-"), b"/srv/hr/": with_entries(FOLDER, b"user:1009:--x")},
        b"/srv/hr/new", b"user xaver", b"setfacl -n -m u:xaver:r-- /srv/hr/new"),
    "mask-cuts-entry": Made(
        {FILE: with_entries(PLAIN, b"user:1009:rwx").replace(b"mask::rwx", b"mask::r--"),
         b"/srv/hr/": with_entries(FOLDER, b"user:1009:--x")},
        b"/srv/hr/new", b"user xaver: rwx is r--", b"setfacl -n -m u:xaver:r-- /srv/hr/new"),
    "empty-mask": Made(
        {FILE: with_entries(PLAIN, b"user:1003:---").replace(b"mask::rwx", b"mask::---").replace(b"other::---", b"other::--x"),
         b"/srv/hr/": with_entries(OPEN, b"user:1003:--x")},
        b"/srv/hr/new", b"user carl: --- is --x", b"setfacl -n -m u:carl:---,g::---,m::--x /srv/hr/new",
        beside="execute-for-everybody entry-without-effect"),
    "owner-without-row": Made(
        {FILE: PLAIN.replace(b"owner: 1001", b"owner: 4711").replace(b"group: 2001", b"group: 4712")}, b"/srv/hr/new",
        b"user 4711, group 4712", b"chown 0:0 /srv/hr/new"),
    "entry-without-row": Made(
        {b"/srv/hr/sub/": with_entries(FOLDER, b"user:4711:r--") + b"default:user::rwx\ndefault:user:4711:r--\n"
         b"default:group::rwx\ndefault:group:4712:r--\ndefault:mask::rwx\ndefault:other::---\n"},
        b"/srv/hr/sub", b"user 4711, default user 4711, default group 4712",
        b"setfacl -n -x u:4711,d:u:4711,d:g:4712 /srv/hr/sub", beside="default-differs"),
    "links-across-folders": Made(
        {b"/srv/hr/sub/": FOLDER, b"/srv/hr/sub/pay": CLEAN[b"/srv/hr/pay"]}, b"/srv/hr/sub/pay",
        b"is one file with /srv/hr/pay; may be meant: a hard link, by which folders share a file",
        b"# decide: which names shall stay; all are one file with one owner, group and ACL", links=b"/srv/hr/pay\n/srv/hr/sub/pay\n"),
    "entry-without-effect": Made(
        {FILE: with_entries(PLAIN, b"user:1001:r--", b"group:2002:---")}, b"/srv/hr/new",
        b"user:anna:r--,group:law:---, at or below /srv/hr", b"setfacl -n -x u:anna,g:law /srv/hr/new"),
    "default-not-inherited": Made(
        {b"/srv/hr/sub/": FOLDER + b"default:user::rwx\ndefault:group::rwx\ndefault:other::---\n",
         b"/srv/hr/sub/deep/": FOLDER}, b"/srv/hr/sub/deep", b"lacks the default ACL of /srv/hr/sub",
        b"setfacl -n -m d:u::rwx,d:g::rwx,d:o::--- /srv/hr/sub/deep"),
    "default-differs": Made(
        {b"/srv/hr/sub/": with_entries(FOLDER, b"user:1009:--x") + b"default:user::rwx\ndefault:group::rwx\n"
         b"default:group:2002:r-x\ndefault:mask::rwx\ndefault:other::---\n"}, b"/srv/hr/sub",
        b"new files get no entry of user xaver; new files alone get one of group law",
        b"setfacl -n -m d:u:xaver:--x -x d:g:law /srv/hr/sub"),
}


class Audits(SmallTree):
    """Runs of facl-audit over the small snapshot."""

    def audit(self, *words: str) -> Done:
        return self.run_command("facl-audit", [*words, "small"])

    def rows(self, *words: str) -> List[List[bytes]]:
        """The fields of its table."""
        done = self.audit("--tsv", "--fail-on", "none", "--weight", "low", *words)
        self.assertEqual((done.status, done.messages), (0, b""))
        return [line.split(b"\t") for line in done.out.splitlines()[1:]]


class EachFinding(Audits):
    def test_a_clean_tree(self) -> None:
        self.take({})
        done = self.audit("--fail-on", "low")
        wanted = b"small (of srva, 2026-11-27T03:10:00Z): 2 files at or below /srv/hr\nno findings\n"
        self.expect(done, 0, wanted)

    def test_each_kind_is_made(self) -> None:
        self.assertEqual({kind.name for kind in findings.KINDS}, set(MADE))

    def test_each_finding(self) -> None:
        for name, made in MADE.items():
            self.take(made.records, made.links)
            rows = {row[1].decode(): row for row in self.rows()}
            self.assertEqual({name, *made.beside.split()}, set(rows), rows)
            self.assertEqual((name, rows[name][2:]), (name, [b"1", made.first, made.what, made.mend]))

    def test_each_edit_mends(self) -> None:
        """After the lines nothing of it is found, and nobody has more than before."""
        for name, made in MADE.items():
            self.take(made.records, made.links)
            lines = self.audit("--edits", name, "--fail-on", "none").out
            if name == "links-across-folders":  # A person decides.
                self.assertEqual(lines, b"")
                continue
            self.write("edits", lines)
            done = self.run_command("facl-plan", ["--full", "--plan", "plan", "small", "edits"])
            self.assertEqual((name, done.status), (name, 0), done)
            for user, old, _, new, *_ in (line.split(b"\t") for line in done.out.splitlines() if b"\t" in line):
                self.assertLessEqual(set(b"" if new in (b"none", b"absent") else new) - set(b"-"), set(old), (name, user, old, new))
            self.take({**made.records, **self.planned_records()})
            self.assertNotIn(name.encode(), [row[1] for row in self.rows()])

    def planned_records(self) -> Dict[bytes, bytes]:
        """The records of the plan, by names."""
        records = [record.partition(b"\n") for record in self.read("plan/new").split(b"\n\n") if record]
        return {first[len(b"# file: ") :]: body + b"\n" for first, _, body in records}

    def test_sticky_and_directories_without_search(self) -> None:
        self.take({b"/srv/hr/": OPEN, b"/srv/hr/drop/": b"# owner: 0\n# group: 0\n# flags: --t\nuser::rwx\ngroup::rwx\nother::-wx\n",
                   b"/srv/hr/no/": b"# owner: 0\n# group: 0\nuser::rwx\ngroup::rwx\nother::-w-\n"})
        rows = self.rows()
        self.assertEqual(rows, [[b"high", b"writable-by-everybody", b"1", b"/srv/hr/drop",
                                 b"sticky; may be meant: a drop box, which people write in and do not read",
                                 b"# decide: who drops files here; each line would keep somebody out"]])

    def test_one_folder_at_two_places(self) -> None:
        """A folder that is mounted twice has no hard links across folders."""
        self.take({b"/srv/hr/a/": FOLDER, b"/srv/hr/a/f": PLAIN, b"/srv/hr/b/": FOLDER, b"/srv/hr/b/f": PLAIN},
                  b"/srv/hr/a/\n/srv/hr/b/\n\n/srv/hr/a/f\n/srv/hr/b/f\n")
        self.assertEqual(self.rows(), [])
        self.take({b"/srv/hr/a/": FOLDER, b"/srv/hr/a/d/": FOLDER}, b"/mnt/d/\n/srv/hr/a/d/\n")
        self.assertEqual(self.rows(), [])

    def test_entries_that_only_one_of_can_go(self) -> None:
        """Both groups have the same member: each entry can go, and not both."""
        group = GROUP + b"more:x:2003:carl\n"
        self.take({FILE: with_entries(PLAIN, b"group:2002:rw-", b"group:2003:rw-")}, group=group)
        found = [row for row in self.rows() if row[1] == b"entry-without-effect"]
        self.assertEqual([row[4:] for row in found], [[b"group:law:rw-, at or below /srv/hr", b"setfacl -n -x g:law /srv/hr/new"]])

    def test_files_of_one_line_are_asked_at_once(self) -> None:
        """The program gets one line for different records that the same entry can go out of."""
        self.take({b"/srv/hr/%d" % owner: with_entries(PLAIN.replace(b"owner: 1001", b"owner: %d" % owner), b"user:1001:rw-")
                   for owner in (1001, 1002, 1003)})
        words = os.fsencode(self.path("asked")), os.fsencode(LINUX.find())
        self.write("program", b"#!/bin/sh\ntee -a '%s' | '%s' \"$@\"\n" % words)
        os.chmod(self.path("program"), 0o755)
        self.assertEqual([row[1:3] for row in self.rows("--program", self.path("program"))], [[b"entry-without-effect", b"3"]])
        lines = [line for line in self.read("asked").splitlines() if b" -x " in line]
        self.assertEqual(lines, [b"setfacl -n -x u:anna 0 1 2"])

    def test_one_record_in_several_directories(self) -> None:
        """Files of one record are found where the directories above let the user or everybody through."""
        named, reaching = with_entries(PLAIN, b"user:1009:rw-"), with_entries(FOLDER, b"user:1009:--x")
        self.take({b"/srv/hr/": reaching, b"/srv/hr/a/": FOLDER, b"/srv/hr/a/in/": reaching, b"/srv/hr/a/in/f": named,
                   b"/srv/hr/b/": reaching, b"/srv/hr/b/f": named, b"/srv/hr/b/in/": reaching, b"/srv/hr/b/in/f": named, FILE: named})
        lines = self.audit("--list", "writer-outside-groups", "--tsv").out.splitlines()[1:]
        self.assertEqual(sorted(line.split(b"\t")[0] for line in lines), [b"/srv/hr/b/f", b"/srv/hr/b/in/f", b"/srv/hr/new"])
        open_file = PLAIN.replace(b"other::---", b"other::r--")
        self.take({b"/srv/hr/": OPEN, b"/srv/hr/a/": FOLDER, b"/srv/hr/a/in/": OPEN, b"/srv/hr/a/in/f": open_file, b"/srv/hr/b": open_file})
        self.assertEqual([row[1:5] for row in self.rows()], [
            [b"readable-by-everybody", b"1", b"/srv/hr/b", b""],
            [b"readable-behind-closed", b"1", b"/srv/hr/a/in/f", b"closed by /srv/hr/a"]])


class MayBeMeant(Audits):
    """What may be meant, and where a person decides in the place of a line."""

    OF_BOX = b"# decide: who drops files here; each line would keep somebody out"
    OF_TOP = b"# decide: who needs what is below; a change of a top folder is about all of it"
    BELOW = b"# decide: who passes here to a drop box below; each line would keep somebody out"
    BOX = FOLDER.replace(b"other::---", b"other::-wx")

    def found(self, records: Dict[bytes, bytes], name: bytes, **more: bytes) -> List[List[bytes]]:
        """The files of a finding, with what is found of each and its line."""
        self.take(records, **more)
        return self.rows("--list", name.decode())

    def test_a_drop_box(self) -> None:
        meant = b"may be meant: a drop box, which people write in and do not read"
        for rest, name in ((b"", b"writable-behind-closed"), (OPEN, b"writable-by-everybody")):
            rows = self.found({b"/srv/hr/": rest or FOLDER, b"/srv/hr/in/": self.BOX, b"/srv/hr/in/f": PLAIN}, name)
            self.assertEqual(rows, [[b"/srv/hr/in", b"closed by /srv/hr; " * (not rest) + meant, self.OF_BOX]])
        rows = self.found({b"/srv/hr/": with_entries(FOLDER, b"user:1009:--x"), b"/srv/hr/in/": with_entries(FOLDER, b"user:1009:-wx")},
                          b"writer-outside-groups")
        self.assertEqual(rows, [[b"/srv/hr/in", b"user xaver; " + meant, self.OF_BOX]])
        for body, name, what in ((b"owner: 4711", b"owner-without-row", b"user 4711"), (b"user:4711:r--", b"entry-without-row", b"user 4711")):
            record = self.BOX.replace(b"owner: 0", body) if name[:1] == b"o" else with_entries(self.BOX, body)
            self.assertEqual(self.found({b"/srv/hr/in/": record}, name), [[b"/srv/hr/in", what, self.OF_BOX]])

    def test_above_a_drop_box(self) -> None:
        """A line that may take search from somebody keeps people from a drop box below; one that takes w does not."""
        closed = with_entries(OPEN, b"user:1003:---").replace(b"mask::rwx", b"mask::---")
        rows = self.found({b"/srv/hr/a/": closed, b"/srv/hr/a/in/": self.BOX}, b"empty-mask")
        self.assertEqual(rows, [[b"/srv/hr/a", b"user carl: --- is --x", self.BELOW]])
        rows = self.found({b"/srv/hr/a/": FOLDER.replace(b"other::---", b"other::rwx"), b"/srv/hr/a/in/": self.BOX}, b"writable-behind-closed")
        self.assertEqual([row[2] for row in rows], [b"setfacl -n -m o::r-x /srv/hr/a", self.OF_BOX])

    def test_a_reader_makes_no_drop_box(self) -> None:
        rows = self.found({b"/srv/hr/": OPEN, b"/srv/hr/in/": FOLDER.replace(b"other::---", b"other::rwx")}, b"writable-by-everybody")
        self.assertEqual(rows, [[b"/srv/hr/in", b"", b"setfacl -n -m o::r-x /srv/hr/in"]])

    def test_folders_of_a_team_and_of_all(self) -> None:
        team = FOLDER.replace(b"# group: 2001\n", b"# group: 2001\n# flags: %s\n")
        rows = self.found({b"/srv/hr/": OPEN, b"/srv/hr/in/": team.replace(b"other::---", b"other::rwx") % b"-s-",
                           b"/srv/hr/tmp/": team.replace(b"other::---", b"other::rwx") % b"-st"}, b"writable-by-everybody")
        self.assertEqual([row[1] for row in rows], [
            b"may be meant: a set-group-ID folder, in which a team shares its files",
            b"sticky; may be meant: a sticky folder for all, as /tmp is, where nobody removes files of others"])
        rows = self.found({b"/srv/hr/both/": with_entries(team % b"-s-", b"group:2002:rwx"),
                           b"/srv/hr/": with_entries(FOLDER, b"group:2002:--x")}, b"writable-by-teams")
        self.assertEqual(rows, [[b"/srv/hr/both", b"group hr, group law; may be meant: a set-group-ID folder, in which a team shares its files",
                                 b"chmod 3770 /srv/hr/both"]])

    def test_a_program_that_nobody_else_runs(self) -> None:
        rows = self.found({FILE: b"# owner: 1001\n# group: 2001\n# flags: s--\nuser::rwx\ngroup::r--\nother::---\n"}, b"set-user-id")
        self.assertEqual(rows, [[b"/srv/hr/new", b"", b"chmod 0740 /srv/hr/new"]])

    def test_a_top_folder(self) -> None:
        """A FOLDER of the snapshot, and what is above one or right below the root, has no line; what is in it has one."""
        readable = FOLDER.replace(b"other::---", b"other::r-x")
        rows = self.found({b"/srv/hr/": readable, b"/srv/hr/in/": readable}, b"readable-by-everybody")
        self.assertEqual(rows, [[b"/srv/hr", b"", self.OF_TOP], [b"/srv/hr/in", b"", b"setfacl -n -m o::--x /srv/hr/in"]])
        done = self.run_command("facl-audit", ["--edits", "readable-by-everybody", "small", "/"])
        self.expect(done, 0, b"# for facl plan, not for a shell\nsetfacl -n -m o::--x /srv/hr/in\n",
                    b"facl-audit: 3 files have no line; facl audit --list readable-by-everybody says what to decide\n")

    def test_a_hard_link(self) -> None:
        """No name of a file is removed."""
        made = MADE["links-across-folders"]
        self.assertEqual(self.found(made.records, b"links-across-folders", links=made.links), [[made.first, made.what, made.mend]])
        self.expect(self.audit("--edits", "links-across-folders"), 0, b"",
                    b"facl-audit: 1 file has no line; facl audit --list links-across-folders says what to decide\n")

    def test_counts_of_what_may_be_meant(self) -> None:
        self.take({b"/srv/hr/": OPEN, b"/srv/hr/in/": self.BOX, b"/srv/hr/in/a": PLAIN.replace(b"other::---", b"other::-w-")})
        self.assertIn(b"        may be meant: a drop box, which people write in and do not read (1 of 2 files)\n"
                      b"        decide: who drops files here; each line would keep somebody out\n", self.audit().out)

    def test_a_group_without_a_row_that_has_members(self) -> None:
        """Without the entry carl would have what others have."""
        passwd = PASSWD.replace(b"1003:1003", b"1003:4712")
        found = self.found({b"/srv/hr/": OPEN, FILE: with_entries(PLAIN.replace(b"other::---", b"other::r--"), b"group:4712:---")},
                           b"entry-without-row", passwd=passwd)
        whose = b"# decide: whose it is; the line that takes the id out would grant something to users"
        self.assertEqual(found, [[b"/srv/hr/new", b"group 4712", whose]])
        found = self.found({FILE: PLAIN.replace(b"group: 2001", b"group: 4712")}, b"owner-without-row", group=GROUP.replace(b"root:x:0:", b"root:x:0:anna"))
        self.assertEqual(found, [[b"/srv/hr/new", b"group 4712", whose]])


class Weights(Audits):
    """Findings of weight low are counted, and not shown without --weight; entries without effect by folder and pattern."""

    DEFAULT = b"default:user::rwx\ndefault:user:1001:r--\ndefault:group::rwx\ndefault:mask::rwx\ndefault:other::---\n"
    NAMED = with_entries(PLAIN, b"user:1001:r--")
    HEAD = b"small (of srva, 2026-11-27T03:10:00Z): 8 files at or below /srv/hr\n"

    def setUp(self) -> None:
        super().setUp()
        self.take({b"/srv/hr/team/": FOLDER + self.DEFAULT, b"/srv/hr/team/deep/": FOLDER + self.DEFAULT,
                   **dict.fromkeys((b"/srv/hr/team/a", b"/srv/hr/team/b", b"/srv/hr/team/deep/c", b"/srv/hr/other"), self.NAMED)})

    def test_what_is_not_shown_is_counted(self) -> None:
        wanted = self.HEAD + b"findings: 2 low\n6 files in 2 low findings not shown; --weight low shows them\n"
        self.expect(self.audit(), 0, wanted)
        self.expect(self.audit("--fail-on", "low"), 1, wanted)
        self.expect(self.audit("--tsv"), 0, b"WEIGHT\tFINDING\tFILES\tFIRST\tWHAT\tFOR FACL PLAN\n")
        self.take(MADE["set-group-id"].records)
        self.assertTrue(self.audit("--weight", "high").out.endswith(
            b"\nfindings: 1 middle\n1 file in 1 middle finding not shown; --weight middle shows it\n"))

    def test_groups(self) -> None:
        wanted = self.HEAD + b"""\
low     entry-without-effect    4 files
        an entry that can go: without it all users of the snapshot have the same rights
        user:anna:r--, by the default ACL of /srv/hr/team: 3 files, first: /srv/hr/team/a
        user:anna:r--, at or below /srv/hr: 1 file, first: /srv/hr/other
        for facl plan: setfacl -n -x u:anna /srv/hr/team/a
low     default-differs         2 files
        new files here get entries for other users or groups than the directory has
        first: /srv/hr/team (new files alone get one of user anna)
        then:  /srv/hr/team/deep
        for facl plan: setfacl -n -x d:u:anna /srv/hr/team
findings: 2 low
all files of one: facl audit --list entry-without-effect -s small
all lines of one: facl audit fix entry-without-effect -s small >edits; facl plan -s small edits
"""
        self.expect(self.audit("--weight", "low"), 0, wanted)
        rows = [row for row in self.rows() if row[1] == b"entry-without-effect"]
        self.assertEqual([row[2:5] for row in rows], [
            [b"3", b"/srv/hr/team/a", b"user:anna:r--, by the default ACL of /srv/hr/team"],
            [b"1", b"/srv/hr/other", b"user:anna:r--, at or below /srv/hr"]])

    def test_groups_in_json(self) -> None:
        found = json.loads(self.audit("--json", "--weight", "low").out)
        self.assertEqual((found["weight"], found["not_shown"]), ("low", {"findings": [], "count": 0}))
        self.assertEqual(found["findings"][0]["groups"], [
            {"folder": "/srv/hr/team", "by_default_acl": True, "pattern": "user:anna:r--", "count": 3, "path": "/srv/hr/team/a"},
            {"folder": "/srv/hr", "by_default_acl": False, "pattern": "user:anna:r--", "count": 1, "path": "/srv/hr/other"}])
        self.assertEqual(found["findings"][1]["groups"], [])
        found = json.loads(self.audit("--json").out)
        self.assertEqual((found["findings"], found["not_shown"]),
                         ([], {"findings": ["entry-without-effect", "default-differs"], "count": 6}))

    def test_the_nearest_folder(self) -> None:
        """Of files that no default ACL gives the entries to: what all of them are at or below."""
        self.take(dict.fromkeys((b"/srv/hr/a/b/1", b"/srv/hr/a/b/2", b"/srv/hr/a/c/3"), self.NAMED))
        self.assertEqual([row[4] for row in self.rows()], [b"user:anna:r--, at or below /srv/hr/a"])
        self.take({b"/srv/hr/a/1": self.NAMED, b"/srv/hr/a/2": with_entries(PLAIN, b"user:1001:rw-")})
        self.assertEqual([row[4] for row in self.rows()], [b"user:anna:r--, at or below /srv/hr/a", b"user:anna:rw-, at or below /srv/hr/a"])

    def test_one_finding_is_shown_by_its_name(self) -> None:
        rows = self.audit("--tsv", "--list", "entry-without-effect").out.splitlines()
        self.assertEqual(rows[1:3], [b"/srv/hr/other\tuser anna\tsetfacl -n -x u:anna /srv/hr/other",
                                     b"/srv/hr/team/a\tuser anna\tsetfacl -n -x u:anna /srv/hr/team/a"])
        self.assertEqual(self.audit("--edits", "default-differs").out.splitlines()[1:], [b"setfacl -n -x d:u:anna /srv/hr/team /srv/hr/team/deep"])


class EverybodyElse(Audits):
    BESIDE = b"everybody else: users whom the snapshot does not have; it has 13 of a directory service\n"

    def test_granted(self) -> None:
        self.take(MADE["readable-by-everybody"].records)
        wanted = b"""\
small (of srva, 2026-11-27T03:10:00Z): 3 files at or below /srv/hr
middle  readable-by-everybody   1 file
        everybody else, whom no ACL names, can read it along its path
        first: /srv/hr/new
        for facl plan: setfacl -n -m o::--- /srv/hr/new
findings: 1 middle
all files of one: facl audit --list readable-by-everybody -s small
all lines of one: facl audit fix readable-by-everybody -s small >edits; facl plan -s small edits
"""
        self.expect(self.audit(), 0, wanted)
        self.write("small/meta", self.read("small/meta") + b"users-asked-for 13\n")
        self.expect(self.audit(), 0, wanted.replace(b"findings: 1", self.BESIDE + b"findings: 1"))
        self.assertEqual(json.loads(self.audit("--json").out)["snapshot"]["users_asked_for"], 13)

    def test_not_granted(self) -> None:
        """The entry of others has nothing to say of whom an entry names."""
        self.take({**MADE["set-group-id"].records, b"/srv/hr/": with_entries(FOLDER, b"user:1009:r-x")})
        self.write("small/meta", self.read("small/meta") + b"users-asked-for 13\n")
        self.assertNotIn(b"everybody else", self.audit().out)

    def test_a_group_that_lists_a_name_of_nobody(self) -> None:
        """No row of the snapshot makes everybody else a member, or the owner of a file."""
        ids = b"".join(b"m%d:x:%d:\n" % (number, number) for number in (1_000_000_000, 4_294_967_294))
        self.take({FILE: PLAIN.replace(b"owner: 1001", b"owner: 4294967294")}, group=GROUP + ids + b"hall:x:2009:facl-everybody-else\n")
        self.assertEqual([row[1] for row in self.rows()], [b"owner-without-row"])


class SetGroup(Audits):
    def test_where_the_group_class_may_not_execute(self) -> None:
        """Linux does not run such a file with the rights of its group (execve(2)); the second digit of the mode, which is the mask
        where there is one, says it."""
        record = b"# owner: 1001\n# group: 2001\n# flags: -s-\nuser::rwx\n%sother::r-x\n"
        for entries, is_found in ((b"group::r-x\n", True), (b"group::r--\n", False), (b"user:1009:rwx\ngroup::r-x\nmask::rw-\n", False),
                                  (b"user:1009:rwx\ngroup::r--\nmask::r-x\n", True)):
            file = File(False, record % entries)
            mend = without_flag(SET_GROUP, file, read_record(file.body), NamesOfIds(b"", b""))
            self.assertEqual(mend is not None, is_found, entries)


class TwoKinds(Audits):
    """A tree with two findings."""

    def setUp(self) -> None:
        super().setUp()
        self.take({**MADE["set-user-id"].records, b"/srv/hr/sub/": FOLDER,
                   b"/srv/hr/sub/x": MADE["set-group-id"].records[FILE]})


class Words(TwoKinds):
    def test_fail_on(self) -> None:
        self.assertEqual([self.audit("--fail-on", it).status for it in ("high", "middle", "low", "none")], [1, 1, 1, 0])
        self.take(MADE["set-group-id"].records)
        self.assertEqual([self.audit("--fail-on", it).status for it in ("high", "middle", "low", "none")], [0, 1, 1, 0])

    def test_report(self) -> None:
        wanted = b"""\
small (of srva, 2026-11-27T03:10:00Z): 5 files at or below /srv/hr
high    set-user-id             1 file
        a plain file that is run with the rights of its owner
        first: /srv/hr/new
        may be meant: a program that others run so
        for facl plan: chmod 2750 /srv/hr/new
middle  set-group-id            2 files
        a plain file that is run with the rights of its group
        first: /srv/hr/new
        then:  /srv/hr/sub/x
        may be meant: a program that others run so
        for facl plan: chmod 4750 /srv/hr/new
findings: 1 high, 1 middle
all files of one: facl audit --list set-user-id -s small
all lines of one: facl audit fix set-user-id -s small >edits; facl plan -s small edits
"""
        self.expect(self.audit(), 1, wanted)

    def test_the_words_of_another_run(self) -> None:
        self.write("accepted", b"set-group-id srv/hr/new needed\n")
        os.chmod(self.path("accepted"), 0o600)
        os.rename(self.path("small"), self.path("a b"))
        done = self.run_command("facl-audit", ["--fail-on", "none", "--accepted", "accepted", "--file-alone", "a b", "/srv/hr"])
        words = b"--alone --accepted accepted -s 'a b' /srv/hr"
        self.assertTrue(done.out.endswith(b"all files of one: facl audit --list set-user-id %s\n"
                                          b"all lines of one: facl audit fix set-user-id %s >edits; facl plan -s 'a b' edits\n" % (words, words)), done)
        done = self.run_command("facl-audit", ["--dump", "a b/dump", "--passwd", "a b/passwd", "--group", "a b/group"])
        self.assertTrue(done.out.endswith(b"facl-plan --dump 'a b/dump' --passwd 'a b/passwd' --group 'a b/group' edits\n"), done)

    def test_a_relative_dump(self) -> None:
        self.write("small/dump", self.read("small/dump").replace(b"# file: /\n", b"# file: x\n").replace(b"# file: /", b"# file: "))
        self.write("small/meta", b"")
        out = self.audit().out
        self.assertTrue(out.startswith(b"small: 7 files at or below srv, x\n"), out)
        self.assertIn(b"        first: srv/hr/new\n        then:  srv/hr/sub/x\n        %s\n"
                      b"        for facl plan: chmod 4750 srv/hr/new\n" % PROGRAM, out)
        self.assertIn(b"        first: srv\n        then:  x\n        decide: who needs what is below; a change of a top folder is "
                      b"about all of it\n", out)
        self.assertEqual(json.loads(self.audit("--json").out)["folders"], ["srv", "x"])

    def test_a_page_without_a_name(self) -> None:
        self.expect(self.audit("--page", ""), 2, b"", b"facl-audit: : cannot be the name of a file\n")

    def test_at_a_terminal(self) -> None:
        done = self.at_terminal("facl-audit", ["small"], {"COLUMNS": "44", "LINES": "90"})
        plain = re.sub(rb"\x1b\[\d*m", b"", done.out)
        lines = [line for line in plain.splitlines() if not line.startswith((b"        for facl plan:", b"all "))]
        self.assertEqual((done.status, max(map(len, lines))), (1, 44))
        self.assertIn(b"\x1b[31mhigh ", done.out)
        done = self.at_terminal("facl-audit", ["small"], {"COLUMNS": "44", "LINES": "90", "NO_COLOR": "yes"})
        self.assertEqual(done.out, plain)
        done = self.at_terminal("facl-audit", ["small"], {"COLUMNS": "44", "LINES": "5", "PAGER": "echo paged"})
        self.assertEqual((done.status, done.out), (1, b"paged\n"))
        done = self.at_terminal("facl-audit", ["--edits", "set-user-id", "small"], {"COLUMNS": "10", "LINES": "90"})
        self.assertEqual(done.out, b"# for facl plan, not for a shell\nchmod 2750 /srv/hr/new\n")

    def test_list_and_edits(self) -> None:
        self.expect(self.audit("--list", "set-group-id", "--tsv"), 1, b"FILE\tWHAT\tFOR FACL PLAN\n"
                    b"/srv/hr/new\t%s\tchmod 4750 /srv/hr/new\n/srv/hr/sub/x\t%s\tchmod 0750 /srv/hr/sub/x\n" % (PROGRAM, PROGRAM))
        self.expect(self.audit("--edits", "set-group-id"), 1, b"# for facl plan, not for a shell\n"
                    b"chmod 4750 /srv/hr/new\nchmod 0750 /srv/hr/sub/x\n")

    def test_folders(self) -> None:
        done = self.run_command("facl-audit", ["--tsv", "small", "/srv/hr/sub"])
        self.assertEqual((done.status, done.out.count(b"\n"), done.messages), (0, 2, b""))
        done = self.run_command("facl-audit", ["small", "/srv/nix"])
        self.expect(done, 2, b"", b"facl-audit: /srv/nix: is not recorded: the snapshot is of /srv/hr\n")

    def test_json(self) -> None:
        found = json.loads(self.audit("--json").out)
        self.assertEqual(found["schema"], "facl-audit/1")
        self.assertEqual([(it["finding"], it["weight"], it["count"]) for it in found["findings"]],
                         [("set-user-id", "high", 1), ("set-group-id", "middle", 2)])
        self.assertEqual(found["findings"][0]["files"], [{
            "path": "/srv/hr/new", "what": "", "edit": "chmod 2750 /srv/hr/new", "may_be_meant": "a program that others run so",
            "decide": ""}])
        one = json.loads(self.audit("--json", "--list", "set-group-id").out)
        self.assertEqual([len(it["files"]) for it in one["findings"]], [2])

    def test_words_that_are_wrong(self) -> None:
        self.assertEqual(self.audit("--list", "nothing").status, 2)
        self.expect(self.run_command("facl-audit", ["nix"]), 2, b"",
                    b"facl-audit: nix: no such folder; make a snapshot with facl snapshot\n")


class KnownFindings(TwoKinds):
    """What an earlier run said of a finding is one line; new files are in full."""

    STANDS = b"""\
small (of srva, 2026-11-27T03:10:00Z): 5 files at or below /srv/hr
high    set-user-id             1 file, as in the last run
middle  set-group-id            2 files, as in the last run
findings: 1 high, 1 middle
all files of one: facl audit --list set-user-id -s small
all lines of one: facl audit fix set-user-id -s small >edits; facl plan -s small edits
"""

    def test_what_stands_is_a_line(self) -> None:
        first = self.audit("--now-known", "one").out
        self.assertEqual((first, b"as in the last run" in first), (self.audit().out, False))
        self.expect(self.audit("--known", "one", "--now-known", "two"), 1, self.STANDS)
        self.assertEqual((self.read("one"), os.stat(self.path("two")).st_mode & 0o777), (self.read("two"), 0o600))
        self.take({**MADE["set-user-id"].records, b"/srv/hr/sub/": FOLDER, b"/srv/hr/sub/x": MADE["set-group-id"].records[FILE],
                   b"/srv/hr/sub/y": MADE["set-group-id"].records[FILE]})
        self.assertIn(b"1 file, as in the last run\nmiddle  set-group-id            1 more file, 3 in all\n"
                      b"        a plain file that is run with the rights of its group\n        first: /srv/hr/sub/y\n",
                      self.audit("--known", "two").out)

    def test_a_finding_that_is_another_one(self) -> None:
        self.take(MADE["mask-cuts-entry"].records)
        self.audit("--fail-on", "middle", "--now-known", "one")
        self.assertIn(b"1 file, as in the last run\n", self.audit("--known", "one").out)
        self.take({**MADE["mask-cuts-entry"].records, FILE: MADE["mask-cuts-entry"].records[FILE].replace(b"mask::r--", b"mask::-w-")})
        self.assertIn(b"user xaver: rwx is -w-", self.audit("--known", "one").out)

    def test_what_was_not_said_is_not_known(self) -> None:
        """A run that says nothing, as nothing fails, leaves what is new to be said, and what stands as it was."""
        self.audit("--fail-on", "none", "--now-known", "one")
        self.assertEqual(self.read("one"), b"")
        self.audit("--now-known", "two")
        self.audit("--fail-on", "none", "--known", "two", "--now-known", "three")
        self.assertEqual(self.read("three"), self.read("two"))
        self.take({FILE: Weights.NAMED})
        self.audit("--fail-on", "low", "--known", "two", "--now-known", "four")
        self.assertEqual(self.read("four"), b"")

    def test_a_damaged_file(self) -> None:
        self.audit("--now-known", "one")
        self.write("one", self.read("one")[:-5])
        os.chmod(self.path("one"), 0o600)
        out = self.audit("--known", "one").out
        self.assertIn(b"1 file, as in the last run\nmiddle  set-group-id            1 more file, 2 in all\n", out)
        for text, mode in ((b"\xff\0", 0o600), (b"", 0o600), (self.read("one"), 0o666)):
            self.write("one", text)
            os.chmod(self.path("one"), mode)
            self.assertEqual(self.audit("--known", "one").out, self.audit().out)
        done = self.audit("--known", "nix")
        self.assertEqual((done.status, done.messages, done.out), (
            1, b"facl-audit: nix: No such file or directory; all findings are said\n", self.audit().out))


class AcceptedFindings(TwoKinds):
    def accept(self, text: bytes, *words: str) -> Done:
        self.write("accepted", text)
        os.chmod(self.path("accepted"), 0o600)
        return self.audit("--accepted", "accepted", *words)

    def test_accepted(self) -> None:
        done = self.accept(b"# by the board\nset-user-id /srv/hr/new needed by payroll\nset-group-id srv/hr/ all of them\n")
        self.expect(done, 0, b"small (of srva, 2026-11-27T03:10:00Z): 5 files at or below /srv/hr\n"
                    b"no findings; accepted: 3 files\n")

    def test_lines_that_accept_nothing(self) -> None:
        done = self.accept(b"set-user-id srv/hr/old gone\nset-group-id srv/hr/sub they are old\n", "--tsv")
        self.assertEqual((done.status, done.out.count(b"\n")), (1, 3))
        self.assertEqual(done.messages, b"facl-audit: accepted, line 1: set-user-id is not found at the path: remove the line\n"
                         b"facl-audit: accepted, line 2: set-group-id is not found at the path, but below it: end the "
                         b"path with a slash\n")

    def test_a_line_of_another_folder_is_not_said(self) -> None:
        self.write("accepted", b"set-user-id srv/hr/new needed\n")
        os.chmod(self.path("accepted"), 0o600)
        done = self.run_command("facl-audit", ["--tsv", "--accepted", "accepted", "small", "srv/hr/sub"])
        self.assertEqual((done.status, done.messages), (0, b""))

    def test_a_path_that_is_not_in_the_snapshot_is_said(self) -> None:
        self.write("accepted", b"set-user-id srv/hr/newer needed\n")
        os.chmod(self.path("accepted"), 0o600)
        done = self.run_command("facl-audit", ["--tsv", "--accepted", "accepted", "small", "srv/hr/sub"])
        self.assertEqual(done.messages, b"facl-audit: accepted, line 1: set-user-id is not found at the path: remove the line\n")

    def test_lines_that_are_wrong(self) -> None:
        for text, message in ((b"set-user-id srv/hr/new\n", b"a line is FINDING PATH REASON; words with spaces are in single "
                               b"quotes"), (b"setuid srv why\n", b"word 1: no such finding; facl help audit lists them"),
                              (b"set-user-id 'srv why\n", b"a quote is open")):
            self.expect(self.accept(text), 2, b"", b"facl-audit: accepted, line 1: " + message + b"\n")

    def test_a_file_that_others_can_write(self) -> None:
        self.write("accepted", b"set-user-id srv/hr/new needed\n")
        os.chmod(self.path("accepted"), 0o666)
        done = self.audit("--accepted", "accepted")
        self.assertEqual((done.status, b"not trusted" in done.messages), (2, True))


class Hostile(Audits):
    NAMES = (b"new\\012line", b"a b", b"it's", b"\x1b[31mred", b"\xff", b"-rf", b"#x", b"tab\there", b"\xe2\x80\xaegnp.exe")

    def test_names(self) -> None:
        self.take({b"/srv/hr/" + name: MADE["set-user-id"].records[FILE] for name in self.NAMES})
        done = self.audit()
        self.assertEqual(done.status, 1)
        self.assertNotRegex(done.out, b"[\x00-\x09\x0b-\x1f\x7f\xff]|\xe2\x80\xae")
        rows = self.rows("--list", "set-user-id")
        self.assertEqual(len(rows), len(self.NAMES))
        self.write("edits", self.audit("--edits", "set-user-id").out)
        done = self.run_command("facl-plan", ["small", "edits"])
        self.assertEqual((done.status, done.messages), (0, b""), done)
        self.assertIn(b"%d files change" % len(self.NAMES), done.out)
        json.loads(self.audit("--json").out)

    def test_names_of_users(self) -> None:
        passwd = PASSWD.replace(b"xaver:", b"o'x \x1b[1m,y:")
        self.take(MADE["writer-outside-groups"].records, passwd=passwd)
        row = self.rows()[0]
        self.assertEqual(row[5], b"setfacl -n -m u:1009:r-- /srv/hr/new")
        self.assertNotIn(b"\x1b", self.audit().out)


class Page(TwoKinds):
    def findings(self, name: str) -> List[Dict[str, Any]]:
        found: List[Dict[str, Any]] = read_data(self.read(name))["findings"]
        return found

    def test_the_page_has_them(self) -> None:
        done = self.audit("--page", "page.html", "--fail-on", "none")
        self.assertEqual((done.status, done.messages), (0, b"facl-audit: wrote page.html\n"))
        rows = [[it["weight"], it["name"], "%d" % it["count"], it["files"][0][0]] for it in self.findings("page.html")]
        self.assertEqual(rows, [[field.decode() for field in row[:4]] for row in self.rows()])
        self.expect(self.audit("--page", "page.html"), 2, b"", b"facl-audit: page.html exists and is not replaced; choose another name\n")

    def test_what_is_accepted_is_not_there(self) -> None:
        kinds = [it[1].decode() for it in self.rows()]
        self.write("accepted", b"".join(b"%s /srv/ for now\n" % kind.encode() for kind in kinds))
        os.chmod(self.path("accepted"), 0o600)
        self.assertEqual(self.audit("--page", "page.html", "--accepted", "accepted").status, 0)
        self.assertEqual(self.findings("page.html"), [])


class Streams(Audits):
    def test_an_interrupted_run_leaves_nothing(self) -> None:
        self.take({})
        for wait in (0.05, 0.15, 0.3):
            with tempfile.TemporaryDirectory() as folder:
                words = [sys.executable, "-I", os.path.join(COMMANDS, "facl-audit"), "small"]
                run = subprocess.Popen(words, cwd=self.folder, env={**os.environ, "TMPDIR": folder}, preexec_fn=restore_signals,
                                       stdout=subprocess.DEVNULL, stderr=subprocess.DEVNULL)
                time.sleep(wait)
                run.send_signal(signal.SIGTERM)
                self.assertIn(run.wait(), (0, 128 + signal.SIGTERM, -signal.SIGTERM))
                self.assertEqual(os.listdir(folder), [])


if __name__ == "__main__":
    unittest.main()
