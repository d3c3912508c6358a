"""facl leaver: what its plan takes away and hands on, that nobody else gains or loses, and what it says that remains. What is
expected follows from acl(5), setfacl(1), chown(2), userdel(8)."""
from __future__ import annotations

import os
import unittest
from typing import List
from unittest import mock

from common import outside_the_gate
from user_job_case import GROUP, HERE, META, ODD, PASSWD, UserJobCase, record
from verb_case import VerbCase

from facl_commands.jobs import leaver, origin
from facl_commands.jobs.of_user import JobPlan

ELSE = b"nobody else gains or loses anything\n"
OF_ANOTHER_HOST = b"whether %s is a row of /etc/passwd is not known of another host; by_hand finds out there\n"
NAMED = record(1002, 2001, "u::rw-", "u:1001:rw-", "u:1003:r--", "g::r--", "m::r--", "o::---")
FOLDER = record(1002, 2001, "u::rwx", "u:1001:rwx", "g::r-x", "m::rwx", "o::---",
                "d:u::rwx", "d:u:1001:rwx", "d:u:1003:r-x", "d:g::r-x", "d:m::r-x", "d:o::---")


class Project(VerbCase):
    """Over the stored snapshot."""

    def test_of_another_host(self) -> None:
        self.stored("one", host="srva")
        done = self.verb("leaver", "mara", "--to", "ines", "-s", "one")
        self.assertEqual((done.status, done.out.partition(b"\n")[2]), (0, b"""\
ines  r-- -> rw-     1 file    first: /srv/project/drafts/old/logo 1.svg
ines  r-x -> rwx     1 file    first: /srv/project/drafts/old
mara  r-- -> absent  2 files   first: /srv/project/README
mara  r-x -> absent  2 files   first: /
mara  rw- -> absent  2 files   first: /srv/project/drafts/logo.svg
mara  rwx -> absent  3 files   first: /srv/project
6 files change owner, group, flags or ACL; 2 commands have to be run by hand
wrote leaver-mara.plan; next: facl apply leaver-mara.plan
by hand: gpasswd -d mara design
by hand: userdel mara
"""))
        self.assertEqual(done.messages, b"facl leaver: the snapshot one is of the host srva, not of this one\n"
                         b"facl leaver: 2 files lose entries of mara, 4 files go to ines\nfacl leaver: " + ELSE
                         + b"facl leaver: " + OF_ANOTHER_HOST % b"mara")
        self.assertEqual(self.read("leaver-mara.plan/edits"), b"""\
# Files of mara
chown ines /srv/project/drafts /srv/project/drafts/logo.svg /srv/project/drafts/old '/srv/project/drafts/old/logo 1.svg'
# Entries of mara
setfacl -n -x u:mara /srv/project /srv/project/notes.txt
# Memberships of mara, and the user
gpasswd -d mara design
userdel mara
""")

    def test_a_user_of_no_passwd_of_this_host(self) -> None:
        """Neither the user nor the group is one that tools of the system change."""
        self.stored("one")
        done = self.verb("leaver", "mara", "--to", "ines", "-q")
        self.assertEqual((done.status, done.messages), (
            1, b"facl leaver: group design is not in /etc/group: end the membership of mara in the directory service\n"
               b"facl leaver: mara is not in /etc/passwd: remove the user in the directory service\n"))
        self.assertNotIn(b"userdel", done.out + self.read("leaver-mara.plan/edits"))
        self.assertEqual(self.read("leaver-mara.plan/by_hand"), b"")


class Leaver(UserJobCase):
    def test_masks_and_default_entries(self) -> None:
        self.take({b"/srv/hr/named": NAMED, b"/srv/hr/folder/": FOLDER,
                   b"/srv/hr/default/": FOLDER.replace(b"\nuser:1001:rwx", b"", 1)})
        done = self.job("leaver", "anna", "--to", "bert")
        self.assertEqual(done.status, 0, done)
        self.assertEqual(done.messages, b"3 files lose entries of anna, 1 file goes to bert\n" + ELSE + OF_ANOTHER_HOST % b"anna")
        self.assertEqual(self.changed("leaver-anna"), {
            "/srv/hr/default/": ["-default:user:1001:rwx"],
            "/srv/hr/folder/": ["-default:user:1001:rwx", "-user:1001:rwx"],
            "/srv/hr/named": ["-user:1001:rw-"],
            "/srv/hr/pay": ["+# owner: 1002", "-# owner: 1001"]})
        self.assertEqual(self.by_hand("leaver-anna"), [b"gpasswd -d anna hr", b"userdel anna"])
        self.assertLessEqual(self.users_of_changes("leaver", "anna", "--to", "bert"), {"anna", "bert"})

    def test_without_an_heir(self) -> None:
        self.take({b"/srv/hr/named": NAMED})
        done = self.job("leaver", "anna")
        self.assertEqual((done.status, done.messages), (1, b"1 file loses entries of anna\n" + ELSE + OF_ANOTHER_HOST % b"anna" + (
            b"anna still owns 1 file, first: /srv/hr/pay; name who gets them with --to\n"
            b"anna is not removed: whoever gets the id 1001 next would own these files\n")))
        self.assertEqual(self.edits("leaver-anna"), ["setfacl -n -x u:anna /srv/hr/named", "gpasswd -d anna hr"])
        done = self.job("leaver", "carl", "-q")  # Who owns nothing.
        self.assertEqual((done.status, done.messages, self.by_hand("leaver-carl")),
                         (0, b"", [b"gpasswd -d carl law", b"userdel carl"]))

    def test_names(self) -> None:
        self.take_odd()
        for number, (name, shown) in enumerate(ODD.items(), 1100):
            for word in {"1100", "1101"} & {"%d" % number} or {os.fsdecode(name)}:
                with self.subTest(word):
                    done = self.job("leaver", word, "--to", "anna", "-q", "-o", "odd.plan")
                    self.assertEqual((done.status, done.messages), (0, b""), done)
                    self.assertEqual(self.changed("odd"), {
                        "/srv/hr/named%d/" % number: ["-default:user:%d:rwx" % number, "-user:%d:rwx" % number],
                        "/srv/hr/own%d" % number: ["+# owner: 1001", "-# owner: %d" % number]})
                    self.assertIn(b"\n" + shown + b" ", b"\n" + done.out)
                    self.assertEqual(len(self.by_hand("odd")), 2)

    def test_heirs_of_odd_names(self) -> None:
        self.take_odd()
        for number, name in enumerate(ODD, 1100):
            if not name.isdigit():
                done = self.job("leaver", "anna", "--to", os.fsdecode(name), "-q", "-o", "odd.plan")
                self.assertEqual((done.status, done.messages), (0, b""), name)
                self.assertEqual(self.changed("odd")["/srv/hr/pay"], ["+# owner: %d" % number, "-# owner: 1001"])

    @outside_the_gate
    def test_many_files(self) -> None:
        self.take({b"/srv/hr/%04d with a blank" % number: NAMED for number in range(4000)})
        done = self.job("leaver", "anna", "-q")
        lines = self.edits("leaver-anna")
        self.assertLessEqual(len(lines), 6)
        self.assertLessEqual(max(map(len, lines)), 65_536)
        self.assertEqual(len(self.changed("leaver-anna")), 4000)
        self.assertEqual(done.status, 1)

    def test_whom_it_refuses(self) -> None:
        self.take({})
        root = b"root: has the id 0, to whom Linux grants nearly everything\n"
        for words, message in (
                (("ana",), b"ana: no such user in the snapshot; did you mean anna?\n"),
                (("everybody else",), b"everybody else: is no single user\n"), (("root",), root), (("0",), root.replace(b"root", b"0", 1)),
                (("anna", "--to", "anna"), b"anna: is the user who leaves, so the files need another owner\n"),
                (("anna", "--to", "1001"), b"anna: is the user who leaves, so the files need another owner\n"),
                (("anna", "--to", "zz"), b"zz: no such user in the snapshot\n"),
                (("anna", "--to", "4711"), b"4711: no user of the snapshot has this id\n"),
                (("anna", "--to", "everybody else"), b"everybody else: is no single user\n"),
                (("99999999999",), b"99999999999: no user of the snapshot has this id\n")):
            self.assertEqual(self.job("leaver", *words), (2, b"", message), words)
        self.assertEqual(self.job("leaver", "anna", "--to", "root", "-q").status, 0)

    def test_an_id_without_a_row(self) -> None:
        """The user was removed, and entries and files are left."""
        self.take({b"/srv/hr/named": NAMED, b"/srv/hr/folder/": FOLDER},
                  passwd=PASSWD.replace(b"anna:x:1001:1001::/:/bin/sh\n", b""))
        done = self.job("leaver", "1001", "--to", "bert")
        self.assertEqual((done.status, done.messages), (0, b"2 files lose entries of 1001, 1 file goes to bert\n" + ELSE))
        self.assertEqual(self.edits("leaver-1001"), ["chown bert /srv/hr/pay", "setfacl -n -x u:1001 /srv/hr/folder /srv/hr/named",
                                                     "setfacl -n -x d:u:1001 /srv/hr/folder"])

    def test_a_dump_without_rows(self) -> None:
        self.take({b"/srv/hr/named": NAMED}, passwd=b"", group=b"")
        self.assertEqual(self.job("leaver", "anna").status, 2)
        done = self.job("leaver", "1001", "-q")
        self.assertEqual((done.status, self.edits("leaver-1001")), (1, ["setfacl -n -x u:1001 /srv/hr/named"]))

    def test_an_id_of_two_users(self) -> None:
        """The entry of one is that of the other."""
        self.take({b"/srv/hr/named": NAMED.replace(b"group::r--", b"group::---")}, passwd=PASSWD + b"emma:x:1001:2002::/:/bin/sh\n")
        done = self.job("leaver", "anna", "--to", "bert")
        self.assertEqual((done.status, done.out), (2, b""))
        self.assertRegex(done.messages, b"^nothing was written: emma may do something else then, too: .* has it the id of anna\\?\n")
        self.assertFalse(os.path.exists(self.path("leaver-anna.plan")))

    def test_hard_links(self) -> None:
        self.take({b"/srv/hr/a": NAMED, b"/srv/hr/b": NAMED, b"/srv/hr/c": record(1001, 2001, "u::rw-", "g::r--", "o::---"),
                   b"/srv/hr/d": record(1001, 2001, "u::rw-", "g::r--", "o::---")},
                  links=b"srv/hr/a\nsrv/hr/b\n\nsrv/hr/c\nsrv/hr/d\n")
        done = self.job("leaver", "anna", "--to", "bert", "-q")
        self.assertEqual((done.status, done.messages), (0, b""))
        self.assertEqual([*self.changed("leaver-anna")], ["/srv/hr/a", "/srv/hr/b", "/srv/hr/c", "/srv/hr/d", "/srv/hr/pay"])

    def test_files_that_nobody_can_change(self) -> None:
        self.take({b"/srv/hr/named": NAMED, b"/srv/hr/log": NAMED})
        self.write("small/marks", b"immutable /srv/hr/named\nimmutable /srv/hr/pay\nappend-only /srv/hr/log\n")
        done = self.job("leaver", "anna", "--to", "bert", "-q")
        self.assertEqual((done.status, done.messages.split(b"\n")[1:-1]), (1, [
            b"entries stay that name anna, which nobody can change, as it is append-only: 1 file, first: /srv/hr/log",
            b"entries stay that name anna, which nobody can change, as it is immutable: 1 file, first: /srv/hr/named",
            b"files stay those of anna, which nobody can change, as it is immutable: 1 file, first: /srv/hr/pay",
            b"anna is not removed: whoever gets the id 1001 next would own these files"]))
        self.assertEqual(self.edits("leaver-anna"), ["gpasswd -d anna hr"])

    def test_a_group_of_the_user_alone(self) -> None:
        self.take({b"/srv/hr/own": record(1002, 1001, "u::rw-", "g::r--", "o::---"),
                   b"/srv/hr/named": record(1002, 2001, "u::rw-", "g::r--", "g:1001:rw-", "m::rw-", "o::---")})
        said = self.job("leaver", "anna", "--to", "bert", "-q").messages
        self.assertEqual(said, b"userdel removes the group anna too, to which files belong or which entries name: "
                               b"2 files, first: /srv/hr/named\n")
        self.take({}, group=GROUP.replace(b"anna:x:1001:", b"annas:x:1001:"))
        said = self.job("leaver", "anna", "--to", "bert", "-q").messages
        self.assertEqual(said, b"nobody is in the group annas then, and userdel does not remove it\n")
        self.take({}, group=GROUP.replace(b"anna:x:1001:", b"annas:x:1001:carl"))
        self.assertEqual(self.job("leaver", "anna", "--to", "bert", "-q").messages, b"")

    def test_an_entry_that_takes_rights(self) -> None:
        """A user who stays for now gains by the end of the entry, as others do."""
        self.take({b"/srv/list": record(1002, 2001, "u::rw-", "u:1001:---", "g::r--", "m::r--", "o::r--")}, group=GROUP)
        said = self.job("leaver", "anna", "-q").messages
        self.assertIn(b"anna gains by this, as an entry took rights: none -> r-- on 1 file, first: /srv/list\n", said)
        self.assertNotIn(b"gains", self.job("leaver", "anna", "--to", "bert", "-q").messages)

    def test_files_elsewhere_on_this_host(self) -> None:
        home = self.path("home")
        os.mkdir(home)
        self.take({}, passwd=PASSWD.replace(b"anna:x:1001:1001::/:", b"anna:x:1001:1001::%s:" % os.fsencode(home)))
        self.assertNotIn(b"home", self.job("leaver", "anna", "--to", "bert", "-q").messages)
        self.set_meta(HERE)
        self.assertIn(b"the home directory of anna is not in the snapshot: %s\n" % os.fsencode(home),
                      self.job("leaver", "anna", "--to", "bert", "-q").messages)
        os.rmdir(home)
        self.assertNotIn(b"home", self.job("leaver", "anna", "--to", "bert", "-q").messages)


class Origins(UserJobCase):
    """What is a row of /etc/passwd and /etc/group, and what is of a directory service."""

    def job_plan(self, word: bytes, passwd: bytes, group: bytes) -> JobPlan:
        os.makedirs(self.path("etc"), exist_ok=True)
        self.write("etc/passwd", passwd)
        self.write("etc/group", group)
        with mock.patch.object(origin, "ETC", os.fsencode(self.path("etc"))):
            return leaver.plan_of(self.program(), self.source(), word, b"bert")

    def lines(self, found: JobPlan) -> List[bytes]:
        return [line for line in found.edits.split(b"\n") if line.startswith((b"gpasswd", b"userdel"))]

    def test_rows_of_etc(self) -> None:
        self.take({})
        self.set_meta(HERE)
        all_of_it = [b"gpasswd -d anna hr", b"userdel anna"]
        remove = b"anna is not in /etc/passwd: remove the user in the directory service"
        end = b"group hr is not in /etc/group: end the membership of anna in the directory service"
        for passwd, group, lines, left in (
                (PASSWD, GROUP, all_of_it, []), (b"", GROUP, all_of_it[:1], [remove]), (PASSWD, b"", all_of_it[1:], [end]),
                (PASSWD.replace(b"anna:x:1001", b"anna:x:1007"), GROUP, all_of_it[:1], [remove]),
                (PASSWD, GROUP.replace(b"hr:x:2001", b"hr:x:2003"), all_of_it[1:], [end])):
            found = self.job_plan(b"anna", passwd, group)
            self.assertEqual((self.lines(found), found.left), (lines, left))

    def test_users_whom_facl_snapshot_asked_for(self) -> None:
        """The last rows of a snapshot are those of users whom no list has, on whatever host."""
        self.take({})
        self.set_meta(META + b"users-asked-for 2\n")
        self.assertEqual(self.lines(self.job_plan(b"carl", b"", b"")), [b"gpasswd -d carl law"])
        self.assertEqual(self.lines(self.job_plan(b"anna", b"", b"")), [b"gpasswd -d anna hr", b"userdel anna"])


if __name__ == "__main__":
    unittest.main()
