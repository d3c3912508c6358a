"""Users who gain nothing by an edit, since a directory above is closed: what facl-plan says of them, and that its advice opens."""
from __future__ import annotations

import argparse
import json
import os
import random
import shutil
import unittest
from typing import List, Set, Tuple
from unittest import mock

from common import HERE, Case

from facl_commands.model.snapshot import Snapshot, read_snapshot
from facl_commands.plan import command as plan, no_gain, report
from facl_commands.program.scripts import read_script

WRITTEN = b"wrote before.plan; next: facl apply before.plan\n"
NOBODY = b"; nobody may do anything else than before\n"
PASSWD = b"root:x:0:0::/:/bin/sh\n" + b"".join(b"u%d:x:%d:%d::/:/bin/sh\n" % (k, k, 100 + k % 3) for k in range(1, 6))
GROUP = b"g0:x:100:\ng1:x:101:u1,u3\ng2:x:102:u1,u4\n"
DIRECTORIES = (b"", b"a", b"a/b c", b"a/b c/-d", b"e")
FILES = (b"a/f", b"a/b c/f", b"a/b c/-d/f", b"e/f")
GIVEN = argparse.Namespace(program=None, acl5=False, file_alone=False, with_root=True)


class Lines(Case):
    def dump_with(self, old: bytes, new: bytes) -> None:
        text = self.read("before/dump")
        self.assertEqual(text.count(old), 1)
        self.write("before/dump", text.replace(old, new))

    def test_a_named_user(self) -> None:
        done = self.plan(b"setfacl -n -m u:guest:r srv/share/notes srv/share/one\n")
        line = b"guest  no gain        3 files   /srv/share grants no search permission (other::---); add to the edits: setfacl -n -m u:guest:x /srv/share\n"
        self.expect(done, 0, line + b"3 files change owner, group, flags or ACL" + NOBODY + WRITTEN)

    def test_lines_of_a_user_are_together(self) -> None:
        done = self.plan(b"setfacl -n -m u:ben:r,u:guest:r,u:mara:r srv/share/drafts/logo.svg\nchmod 750 srv\nsetfacl -m u:mara:x srv\n")
        self.expect(done, 0,
                    b"everybody else  r-x -> none    1 file    first: /srv\n"
                    b"ines            r-x -> none    1 file    first: /srv\n"
                    b"ines            rw- -> none    9 files   first: /srv/share/-x\n"
                    b"ines            rwx -> none    1 file    first: /srv/share\n"
                    b"ben             r-- -> none    9 files   first: /srv/share/-x\n"
                    b"ben             r-x -> none    2 files   first: /srv\n"
                    b"ben             no gain        1 file    /srv and 1 directory below it grant no search permission (other::---); "
                    b"add to the edits: setfacl -n -m u:ben:x /srv /srv/share/drafts\n"
                    b"mara            r-x -> --x     1 file    first: /srv\n"
                    b"guest           r-x -> none    1 file    first: /srv\n"
                    b"guest           no gain        1 file    /srv and 2 directories below it grant no search permission (other::---); "
                    b"add to the edits: setfacl -n -m u:guest:x /srv /srv/share /srv/share/drafts\n"
                    b"2 files change owner, group, flags or ACL\n" + WRITTEN)

    def test_a_mask_that_cuts(self) -> None:
        # The mask gets search alone, and the entry stays.
        self.dump_with(b"# file: /srv/share/\n# owner: 1001\n# group: 100\nuser::rwx\n",
                       b"# file: /srv/share/\n# owner: 1001\n# group: 100\nuser::rwx\nuser:1009:rwx\nmask::r--\n")
        done = self.plan(b"setfacl -m u:guest:r srv/share/one\n")
        self.assertIn(b"/srv/share grants no search permission (user:guest:rwx, effective r--); add to the edits: setfacl -n -m m::rx /srv/share\n", done.out)

    def test_an_empty_mask(self) -> None:
        # Others decide by now, and the user's own entry once the mask has search.
        head, script = b"# file: /srv/share/\n# owner: 1001\n# group: 100\nuser::rwx\n", b"setfacl -m u:guest:r srv/share/one\n"
        for perms, edit in ((b"r--", b"u:guest:rx,m::x"), (b"rwx", b"m::x")):
            shutil.copy(os.path.join(HERE, "snapshots", "share", "dump"), self.path("before/dump"))
            self.dump_with(head, head + b"user:1009:%s\nmask::---\n" % perms)
            line = b"setfacl -n -m %s /srv/share\n" % edit
            self.assertIn(b"guest  no gain        2 files   /srv/share grants no search permission (other::---); add to the edits: " + line, self.plan(script).out)
            self.assertIn(b"(user:guest:%s, effective ---); add to the edits: %s" % (perms, line), self.plan(script, "--acl5").out)
            self.assertIn(b"guest  none -> r--    2 files   first: /srv/share/one\n", self.plan(script + line).out)

    def test_a_group(self) -> None:
        # The entry of the group, for each of its users; ben is of the owning group too, which has search.
        self.write("before/group", self.read("before/group").replace(b"audit:x:400:ben", b"audit:x:400:ben,guest,mara"))
        done = self.plan(b"setfacl -n -m g:audit:rw srv/share/one\n")
        rest = b"  no gain        2 files   /srv/share grants no search permission (other::---); add to the edits: setfacl -n -m g:audit:x /srv/share\n"
        self.assertEqual(done.out.splitlines(True)[:-2], [b"mara " + rest, b"guest" + rest])

    def test_rights_that_the_user_has_stay(self) -> None:
        self.dump_with(b"# file: /srv/share/\n# owner: 1001\n# group: 100\nuser::rwx\ngroup::r-x\nother::---\n",
                       b"# file: /srv/share/\n# owner: 1001\n# group: 100\nuser::rw-\ngroup::--x\nother::r--\n")
        done = self.plan(b"setfacl -n -m u:guest:r srv/share/-x\nsetfacl -n -m u:ines:r srv/share/drafts/logo.svg\n")
        self.assertEqual(done.out.splitlines(True)[:-2], [
            b"ines   no gain        1 file    /srv/share grants no search permission (user::rw-), and 1 directory below it grants none; "
            b"add to the edits: setfacl -n -m u::rwx /srv/share\n",
            b"guest  no gain        1 file    /srv/share grants no search permission (other::r--); add to the edits: setfacl -n -m u:guest:rx,m::rx /srv/share\n",
        ])

    def test_a_membership(self) -> None:
        self.dump_with(b"user:1003:rw-\t\t\t#effective:r--\n", b"user:1003:rw-\t\t\t#effective:r--\ngroup:400:r--\n")
        done = self.plan(b"gpasswd -a guest audit\n")
        self.assertIn(b"guest  no gain        1 file    /srv/share grants no search permission (other::---); add to the edits: setfacl -n -m u:guest:x /srv/share\n",
                      done.out)

    def test_json_and_other_views(self) -> None:
        script = b"setfacl -n -m u:guest:r srv/share/notes\n"
        report = json.loads(self.plan(script, "--json").out)
        self.assertEqual(report["no_gain"], [{
            "user": "guest", "count": 1, "path": "/srv/share", "entries": ["other::---"],
            "edit": "setfacl -n -m u:guest:x /srv/share", "closed_below": 0,
        }])
        self.assertIn(b"guest  no gain  ", self.plan(script, "--full").out)
        self.assertEqual(self.plan(script, "--reach").out, self.plan(script).out)
        done = self.plan(script, "--file-alone")
        self.assertTrue(done.out.startswith(b"guest  none -> r--    1 file    first: /srv/share/notes\n1 file changes"), done.out)
        self.assertEqual(json.loads(self.plan(script, "--file-alone", "--json").out)["no_gain"], [])

    def test_names_are_words_of_a_script(self) -> None:
        body = b"# owner: 1001\n# group: 100\nuser::rwx\ngroup::---\nother::---\n\n"
        self.write("before/passwd", self.read("before/passwd") + b"a, b:x:1010:300::/:/bin/sh\n")
        self.write("before/dump", self.read("before/dump") + b"# file: /it's \\303\\251/\n" + body + b"# file: /it's \\303\\251/f\n" + body)
        done = self.plan(b"setfacl -m u:1010:r 'it\\047s \\303\\251/f'\n")
        edit = b"add to the edits: setfacl -n -m u:1010:x,m::x '/it\\047s \\303\\251'\n"
        self.assertIn(edit, done.out)
        self.assertIn(b"a\\054\\040b  none -> r--", self.plan(b"setfacl -m u:1010:r 'it\\047s \\303\\251/f'\n" + edit[len(b"add to the edits: ") :]).out)


    def test_a_line_that_opens_nothing(self) -> None:
        """It is tried before it is printed, and the program has its records back."""
        snapshot = read_snapshot(os.fsencode(self.path("before")))
        script = read_script(b"edits", b"setfacl -n -m u:guest:r srv/share/one\n")
        for edits, edit in (([b"m::rwx", b"u:guest:r"], b""),
                            ([b"m::rwx", b"u:guest:x", b"u:guest:rx"], b"setfacl -n -m u:guest:x /srv/share")):
            with mock.patch.object(no_gain, "edits_to_try", lambda *_, its=edits: its):
                found = plan.answer_scripts(GIVEN, snapshot, script)
            self.assertEqual([(it.user, it.edit) for it in found.no_gain], [(b"guest", edit)])
            end = b"; add to the edits: " + edit if edit else b" (other::---)"
            self.assertTrue(found.no_gain[0].text().endswith(end))

    def test_deep_directories(self) -> None:
        # The names of all of them have no room in a line, so the line opens the first.
        chain = [b"srv/share" + b"/" + b"/".join([b"d" * 200] * depth) for depth in range(1, 100)]
        body = b"# owner: 1001\n# group: 100\nuser::rwx\ngroup::r-x\nother::---\n\n"
        self.write("before/dump", self.read("before/dump") + b"".join(b"# file: /" + path + b"/\n" + body for path in chain))
        done = self.plan(b"setfacl -n -m u:guest:r " + chain[-1] + b"\n")
        self.assertTrue(done.out.startswith(b"guest  no gain        1 file    /srv/share grants no search permission (other::---), and 98 directories "
                                            b"below it grant none; add to the edits: setfacl -n -m u:guest:x /srv/share\n"), done.out)


class Chain(Case):
    """Directories in one another, each closed to a user whom an edit of all of them names."""

    def test_each_directory_is_looked_at_once(self) -> None:
        depth, body = 300, b"# owner: 1001\n# group: 100\nuser::rwx\ngroup::r-x\nother::---\n\n"
        chain = [b"srv/share" + b"/d" * number for number in range(1, depth + 1)]
        self.write("before/dump", self.read("before/dump") + b"".join(b"# file: /" + path + b"/\n" + body for path in chain))
        snapshot, looks, closes = read_snapshot(os.fsencode(self.path("before"))), [0], no_gain.Ways.closes

        def counted(ways: no_gain.Ways, path: bytes) -> Set[bytes]:
            looks[0] += 1
            return closes(ways, path)

        with mock.patch.object(no_gain.Ways, "closes", counted):
            found = plan.answer_scripts(GIVEN, snapshot, read_script(b"edits", b"setfacl -R -n -m u:guest:r,u:mara:r srv/share/d\n"))
        self.assertEqual([(it.user, it.files, len(it.paths) + it.closed) for it in found.no_gain],
                         [(b"mara", depth, depth), (b"guest", depth, depth)])
        self.assertLess(looks[0], 4 * depth)


class Random(Case):
    """The advice opens what it says, and takes nothing from the user on the directories."""

    def record(self, path: bytes) -> bytes:
        perms = [random.choice((b"---", b"--x", b"r--", b"r-x", b"rw-", b"rwx")) for _ in range(6)]
        lines = [b"# file: /" + path + b"/" * (path in DIRECTORIES), b"# owner: %d" % random.randrange(6), b"# group: %d" % random.randrange(100, 103),
                 b"user::" + perms[0]]
        named = [b"user:%d:" % random.randrange(1, 6) + perms[4]] * random.randrange(2) + [b"group:%d:" % random.randrange(100, 103) + perms[5]] * random.randrange(2)
        named = [*(it for it in named if it[:1] == b"u"), b"group::" + perms[1], *(it for it in named if it[:1] == b"g")]
        return b"\n".join([*lines, *named, *([b"mask::" + perms[2]] if len(named) > 1 else []), b"other::" + perms[3], b"\n"])

    def snapshot(self) -> Snapshot:
        self.write("before/passwd", PASSWD)
        self.write("before/group", GROUP)
        self.write("before/links", b"")
        self.write("before/dump", b"".join(self.record(path) for path in sorted(DIRECTORIES + FILES)))
        return read_snapshot(os.fsencode(self.path("before")))

    def outcome(self, snapshot: Snapshot, script: bytes) -> Tuple[report.Outcome, Set[Tuple[bytes, ...]], List[bytes]]:
        """With users and files of whom the program says that they gain along paths, and the lines of its index."""
        found = plan.answer_scripts(GIVEN, snapshot, read_script(b"edits", script + b"changes --reach\nindex\n"))
        self.assertEqual(found.messages, [])
        gains = {tuple(line.split(b" ", 3)[::3]) for line in found.asked[-2].output.splitlines() if b" gains " in line}
        return found, gains, found.asked[-1].output.splitlines()

    def expect_opened(self, snapshot: Snapshot, script: bytes) -> int:
        first, gains, index = self.outcome(snapshot, script)
        for line in first.no_gain:
            second, more, after = self.outcome(snapshot, script + line.edit + b"\n")
            self.assertNotIn((line.user, line.directory), [(it.user, it.directory) for it in second.no_gain], (script, line))
            if line.closed == 0:
                self.assertGreaterEqual(len([it for it in more - gains if it[0] == line.user]), line.files, (script, line))
            for old, new in zip(index, after):
                if old.split(b" ")[1] == line.user:
                    self.assertEqual(int(old[:2], 16) & ~int(new[:2], 16), 0, (script, line, old, new))
        return len(first.no_gain)

    def test_advice_opens(self) -> None:
        random.seed(61)
        tried = 0
        while tried < 50:
            snapshot = self.snapshot()
            who = random.choice((b"u:u%d" % random.randrange(1, 6), b"g:g%d" % random.randrange(3)))
            line = b"setfacl%s%s -m %s:%s '%s'\n" % (random.choice((b"", b" -n")), random.choice((b"", b" -R")), who,
                                                random.choice((b"r", b"rX", b"rwX")), random.choice(DIRECTORIES[1:] + FILES))
            tried += self.expect_opened(snapshot, line)


if __name__ == "__main__":
    unittest.main()
