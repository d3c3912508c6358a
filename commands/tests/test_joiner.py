"""facl joiner: which entries and memberships its plan gives, that nobody else gains or loses, and what it says that is left. What
is expected follows from acl(5), setfacl(1) and path_resolution(7)."""
from __future__ import annotations

import os
import unittest
from unittest import mock

from common import outside_the_gate
from user_job_case import GROUP, HERE, ODD, PASSWD, UserJobCase, record

from facl_commands.jobs import joiner, origin

NONE = b"no right of anybody else changes\n"
NAMED = record(1002, 2001, "u::rw-", "u:1001:rw-", "u:1003:r--", "g::r--", "m::r--", "o::---")
FOLDER = record(1002, 2001, "u::rwx", "u:1001:rwx", "g::r-x", "m::rwx", "o::---",
                "d:u::rwx", "d:u:1001:rwx", "d:u:1003:r-x", "d:g::r-x", "d:m::r-x", "d:o::---")
OPEN = record(0, 0, "u::rwx", "g::r-x", "o::r-x")


class Joiner(UserJobCase):
    def test_masks_stay(self) -> None:
        """An entry that is there gets what it lacks, others are new, each beside that of the other user."""
        self.take({b"/srv/named": NAMED, b"/srv/folder/": FOLDER})
        done = self.job("joiner", "xaver", "--like", "anna")
        self.assertEqual((done.status, self.edits("joiner-xaver")), (0, [
            "gpasswd -a xaver hr", "setfacl -n -m u:xaver:rwx /srv/folder", "setfacl -n -m u:xaver:rw- /srv/named",
            "setfacl -n -m d:u:xaver:rwx /srv/folder"]), done)
        self.assertEqual(self.changed("joiner-xaver"), {
            "/srv/folder/": ["+default:user:1009:rwx", "+user:1009:rwx"],
            "/srv/named": ["+user:1009:rw-"]})
        self.assertEqual(done.messages, (
            b"not planned, as it is that of anna alone: gpasswd -a xaver anna: grants nothing by itself\n"
            b"gpasswd -a xaver hr: none -> r-- on 1 file, first: /srv/named\n"
            b"gpasswd -a xaver hr: none -> r-x on 1 file, first: /srv/folder\n"
            b"gpasswd -a xaver hr: none -> rw- on 1 file, first: /srv/hr/pay\n"
            b"gpasswd -a xaver hr: none -> rwx on 1 file, first: /srv/hr\n"
            b"user:xaver:rwx on 1 file, first: /srv/folder\n"
            b"user:xaver:rw- (the mask leaves r--) on 1 file, first: /srv/named\n"
            b"default user:xaver:rwx (the mask leaves r-x) on 1 file, first: /srv/folder\n") + NONE)
        self.assertEqual(self.users_of_changes("joiner", "xaver", "--like", "anna"), {"xaver"})

    def test_an_entry_that_is_there(self) -> None:
        self.take({b"/srv/named": NAMED, b"/srv/folder/": FOLDER})
        self.job("joiner", "carl", "--like", "anna", "-q")
        self.assertEqual(self.changed("joiner-carl"), {
            "/srv/folder/": ["+default:user:1003:rwx", "+user:1003:rwx", "-default:user:1003:r-x"],
            "/srv/named": ["+user:1003:rw-", "-user:1003:r--"]})
        done = self.job("joiner", "anna", "--like", "carl", "-q")  # Who has all that.
        self.assertEqual(self.edits("joiner-anna"), ["gpasswd -a anna law"], done)

    def test_what_the_user_may_do_already_stays(self) -> None:
        """An entry stands in the place of those of groups and others."""
        self.take({b"/srv/a": record(1002, 2002, "u::rw-", "u:1001:r--", "g::rw-", "m::rwx", "o::---"),
                   b"/srv/b": record(1002, 0, "u::rw-", "u:1001:r--", "g::---", "m::rwx", "o::-wx"),
                   b"/srv/c": record(1002, 0, "u::rw-", "u:1001:rw-", "g::---", "m::r--", "o::-w-"),
                   b"/srv/d": record(1002, 0, "u::rw-", "u:1001:---", "g::---", "m::r--", "o::r--"),
                   b"/srv/e": record(1003, 0, "u::---", "u:1001:rw-", "g::---", "m::rw-", "o::---")})
        done = self.job("joiner", "carl", "--like", "anna", "/srv", "-q")
        self.assertEqual(self.edits("joiner-carl"), ["gpasswd -a carl hr", "setfacl -n -m u:carl:rw- /srv/a",
                                                     "setfacl -n -m u:carl:rwx /srv/b"])
        self.assertNotRegex(done.out, b"(?m)^carl  +(-w- -> |rw- -> r--)")
        self.assertEqual((done.status, sorted(done.messages.split(b"\n"))[1:]), (1, [
            b"carl may still not do all that anna may (by an entry of carl, or of a group of carl): 1 file, first: /srv/c",
            b"carl may still not do all that anna may (owned by carl): 1 file, first: /srv/e"]))

    def test_folders(self) -> None:
        self.take({b"/srv/a/": FOLDER, b"/srv/a/named": NAMED, b"/srv/named": NAMED,
                   b"/srv/a/law": record(0, 2002, "u::rw-", "g::rw-", "o::---")},
                  group=GROUP.replace(b"carl", b"carl,anna"))
        done = self.job("joiner", "xaver", "--like", "anna", "/srv/a")
        self.assertEqual(self.edits("joiner-xaver"), ["gpasswd -a xaver law", "setfacl -n -m u:xaver:rwx /srv/a",
                                                      "setfacl -n -m u:xaver:rw- /srv/a/named",
                                                      "setfacl -n -m d:u:xaver:rwx /srv/a"])
        self.assertIn(b"not planned, as it grants something on 3 files elsewhere: gpasswd -a xaver hr: ", done.messages)
        self.assertNotIn(b"/srv/hr/pay (", done.messages)
        done = self.job("joiner", "xaver", "--like", "anna", "/srv/a/law", "-q")
        self.assertEqual((done.status, self.job("joiner", "xaver", "--like", "anna", "/srv/none").status), (1, 2))

    def test_what_is_left(self) -> None:
        mine = record(1001, 0, "u::rwx", "g::---", "o::---")
        self.take({b"/srv/mine/": mine, b"/srv/mine/a": OPEN.replace(b"x", b"-"), b"/srv/mine/b": OPEN.replace(b"x", b"-"),
                   b"/srv/own": mine, b"/srv/fixed": NAMED.replace(b"user:1003:r--\n", b"").replace(b"group::r--", b"group::---"),
                   b"/srv/of_anna": record(1002, 1001, "u::rw-", "g::rw-", "o::---")})
        self.write("small/marks", b"immutable /srv/fixed\n")
        done = self.job("joiner", "xaver", "--like", "anna", "-q")
        start = b"xaver may still not do all that anna may "
        self.assertEqual((done.status, [line for line in done.messages.split(b"\n") if line.startswith(start)]), (1, [start + it for it in (
            b"(nobody can change its entries): 1 file, first: /srv/fixed",
            b"(owned by anna): 2 files, first: /srv/mine",
            b"(a directory above is closed): 2 files, first: /srv/mine/a (by /srv/mine)",
            b"(by the group anna): 1 file, first: /srv/of_anna")]))
        self.assertEqual(self.edits("joiner-xaver"), ["gpasswd -a xaver hr"])

    def test_names(self) -> None:
        self.take_odd()
        for number, (name, shown) in enumerate(ODD.items(), 1100):
            word = "1100" if name.isdigit() else os.fsdecode(name)
            with self.subTest(word):
                done = self.job("joiner", "xaver", "--like", word, "-o", "odd.plan")
                self.assertEqual([*self.changed("odd")], ["/srv/hr/named%d/" % number])
                self.assertIn(b"(owned by " + shown + b"): 1 file, first: /srv/hr/own%d\n" % number, done.messages)
                done = self.job("joiner", word, "--like", "carl", "-q", "-o", "odd.plan")
                self.assertEqual((done.status, len(self.by_hand("odd"))), (0, 1), done)

    @outside_the_gate
    def test_many_files(self) -> None:
        self.take({b"/srv/%04d with a blank" % number: NAMED for number in range(4000)})
        self.job("joiner", "xaver", "--like", "anna", "-q")
        lines = self.edits("joiner-xaver")
        self.assertLessEqual(len(lines), 6)
        self.assertLessEqual(max(map(len, lines)), 65_536)
        self.assertEqual(len(self.changed("joiner-xaver")), 4000)

    def test_hard_links(self) -> None:
        self.take({b"/srv/a": NAMED, b"/srv/b": NAMED}, links=b"srv/a\nsrv/b\n")
        done = self.job("joiner", "xaver", "--like", "anna", "-q")
        self.assertEqual((done.status, [*self.changed("joiner-xaver")]), (0, ["/srv/a", "/srv/b"]), done)

    def test_whom_it_refuses(self) -> None:
        self.take({b"/srv/named": NAMED}, passwd=PASSWD + b"emma:x:1009:1009::/:/bin/sh\n")
        root = b"root: has the id 0, to whom Linux grants nearly everything\n"
        both = b": has the id of %s, so both have the same\n"
        for new, like, message in (
                ("ana", "bert", b"ana: no such user in the snapshot; did you mean anna?\n"),
                ("bert", "zz", b"zz: no such user in the snapshot\n"), ("4711", "bert", b"4711: no user of the snapshot has this id\n"),
                ("everybody else", "bert", b"everybody else: is no single user\n"), ("root", "bert", root), ("bert", "root", root),
                ("bert", "everybody else", b"everybody else: is no single user\n"),
                ("anna", "anna", b"anna" + both % b"anna"), ("emma", "xaver", b"emma" + both % b"xaver")):
            self.assertEqual(self.job("joiner", new, "--like", like), (2, b"", message), (new, like))
        self.assertEqual(self.job("joiner", "anna").status, 2)
        done = self.job("joiner", "emma", "--like", "anna")
        self.assertEqual((done.status, done.out), (2, b""))
        self.assertRegex(done.messages, b"^nothing was written: xaver may do something else then, too: .* has it the id of emma\\?\n")

    def test_a_dump_without_rows(self) -> None:
        self.take({b"/srv/named": NAMED}, passwd=b"", group=b"")
        self.assertEqual(self.job("joiner", "1003", "--like", "1001")[:2], (2, b""))

    def test_groups_of_a_directory(self) -> None:
        self.take({})
        self.set_meta(HERE)
        os.makedirs(self.path("etc"))
        for group, lines in ((GROUP, [b"gpasswd -a xaver hr"]), (b"", [])):
            self.write("etc/group", group)
            with mock.patch.object(origin, "ETC", os.fsencode(self.path("etc"))):
                found = joiner.plan_of(self.program(), self.source(), b"xaver", b"bert", [])
            self.assertEqual([it for it in found.edits.split(b"\n") if it[:7] == b"gpasswd"], lines)
        self.assertTrue(any(b"it is not in /etc/group" in it for it in found.said))


if __name__ == "__main__":
    unittest.main()
