"""facl restore: what a folder has in an older snapshot, and what is not given back."""
from __future__ import annotations

import os
import random
import subprocess
import sys
import unittest
from typing import List, Tuple

from common import COMMANDS
from job_case import JobCase, Records, inodes_of, record
from small_tree import GROUP, PASSWD
from verb_case import DAY

from facl_commands.base.programs import LINUX
from facl_commands.jobs.restore import restoring
from facl_commands.model.records import read_listing

TOP: Records = {b"/": record(0, 0, "rwxr-xr-x"), b"/srv/": record(0, 0, "rwxr-xr-x")}
LETTERS = ("---", "--x", "r--", "r-x", "rw-", "rwx")
NAMED = "user:1002:%s mask::%s"
DEFAULTS = " d:user::rwx d:group::r-x d:group:2001:%s d:mask::rwx d:other::---"


def random_record(chance: random.Random, is_directory: bool) -> bytes:
    entries = NAMED % (chance.choice(LETTERS), chance.choice(LETTERS)) if chance.random() < 0.5 else ""
    if is_directory and chance.random() < 0.5:
        entries += DEFAULTS % chance.choice(LETTERS)
    flags = chance.choice(["", "", "-s-", "--t", "s--"])
    return record(chance.choice([0, 1001, 1002, 7777]), chance.choice([0, 2001, 2002]), "rw-%s%s" % (
        chance.choice(LETTERS), chance.choice(LETTERS)), entries, flags)


def random_states(chance: random.Random) -> Tuple[Records, Records]:
    """A tree before and after: files come, go, and have other records."""
    folders, names = [b"/srv/"], [b"/srv/"]
    for number in range(40):
        is_directory = chance.random() < 0.4
        name = chance.choice(folders) + chance.choice([b"f%d", b"it's %d", b"-n %d", b"\\303\\251\\012%d", b" #%d"]) % number + b"/" * is_directory
        folders += [name] * is_directory
        names.append(name)
    states: List[Records] = []
    for _ in range(2):
        gone = {name for name in names[1:] if chance.random() < 0.1}
        kept = [name for name in names if not any(name.startswith(it) for it in gone)]
        states.append({b"/": TOP[b"/"], **{name: random_record(chance, name.endswith(b"/")) for name in kept}})
    same = [name for name in states[0] if name in states[1] and chance.random() < 0.3]
    states[1].update({name: states[0][name] for name in same})
    return states[0], states[1]


# Has another snapshot be in the place of the newest one once the edits are made.
EXCHANGED = """\
import os, sys
sys.path.insert(0, sys.argv[1])
from facl_commands.base.messages import Command
from facl_commands.verbs import command, prepare
take = prepare.take_edits
def exchange(*given):
    os.rename("store/now", "was")
    os.rename("other/now", "store/now")
    take(*given)
prepare.take_edits = exchange
sys.exit(Command("facl").status_of(command.body, ["restore", "/srv", "-q"]))
"""


class States(JobCase):
    """Random states: the older one is back on each path that is in both, and nothing else changes."""

    def test_random_states(self) -> None:
        for seed in range(6):
            chance = random.Random(seed)
            old, now = random_states(chance)
            folders = sorted({name for name in old if name in now and name.endswith(b"/")})
            folder = chance.choice(folders)
            older, newer = (self.put("%s%d" % (it, seed), its) for it, its in (("old", old), ("now", now)))
            job = restoring(LINUX.find(), os.fsencode(older), os.fsencode(newer), folder)
            wanted = {name: old[name] if name in old and name.startswith(folder) else its for name, its in now.items()}
            files = read_listing(b"".join(b"# file: " + name + b"\n" + body + b"\n" for name, body in wanted.items()))
            found = self.after(newer, job.edits)
            self.assertEqual({path: it.body for path, it in found.items()}, {path: it.body for path, it in files.items()}, seed)


class Lines(JobCase):
    def states(self, old: Records, now: Records, links: bytes = b"", marks: bytes = b"") -> None:
        self.put("old", {**TOP, **old}, seconds=3 * DAY)
        self.put("now", {**TOP, **now}, links=links, marks=marks)

    def test_the_default_is_the_one_before(self) -> None:
        self.states({b"/srv/f": record(1001, 2001)}, {b"/srv/f": record(1002, 2001)})
        self.put("oldest", {**TOP, b"/srv/f": record(0, 0)}, seconds=9 * DAY)
        done = self.verb("restore", "/srv", "-q")
        self.assertEqual((done.status, done.messages), (0, b""))
        self.assertEqual(self.planned("restore-srv.plan")[b"srv/f"].body, record(1001, 2001))
        done = self.verb("restore", "/srv/f", "-qs", "oldest", "-o", "one")
        self.assertEqual((done.status, self.planned("one")[b"srv/f"].body), (0, record(0, 0)))
        done = self.verb("restore", "/srv/f", "--now", "old", "-s", "oldest", "-o", "two", "-q")
        self.assertEqual(done.status, 0, done.messages)
        self.assertIn(b"1001", self.read("two/old"))
        done = self.verb("restore", "/srv/f", "-o", "three", environment={"FACL_SNAPSHOT": "oldest"})
        self.assertIn(b"restores from oldest (of ", done.messages)

    def test_which_snapshots(self) -> None:
        self.states({b"/srv/f": record(1001, 2001)}, {b"/srv/f": record(1002, 2001)})
        self.put("2026-11-20T031000", {**TOP, b"/srv/f": record(0, 0)}, seconds=5 * DAY)
        for words, text in (
                (["-s", "now"], b"now: is the newest snapshot, and the older one too; older ones, for -s: old, 2026-11-20T031000"),
                (["-s", "store/now"], b"store/now: is the newest snapshot, and the older one too; older ones, for -s: old, 2026-11-20T031000"),
                (["-s", "now", "--now", "old"], b"now: is newer than old"),
                (["-s", "absent"], b"absent: no such snapshot; facl snapshots lists those of " + os.fsencode(self.store)),
                (["-s", "2026-11-21"], b"2026-11-21: no such snapshot; facl snapshots lists those of " + os.fsencode(self.store)),
                (["--now", "2026-11-20"], os.fsencode(self.store) + b": has no older snapshot of this host than 2026-11-20T031000; name one with -s")):
            self.expect_done(self.verb("restore", "/srv", *words), 2, [], [b"facl restore: " + text])
        self.assertEqual(self.verb("restore", "/srv", "-q", "-s", "2026-11-20").status, 0)
        self.assertEqual(self.planned("restore-srv.plan")[b"srv/f"].body, record(0, 0))
        self.put("2026-11-20T041000", TOP, seconds=4 * DAY)
        self.expect_done(self.verb("restore", "/srv", "-s", "2026-11-20"), 2, [], [
            b"facl restore: 2026-11-20: has several snapshots; name one: 2026-11-20T041000, 2026-11-20T031000"])

    def test_another_host(self) -> None:
        self.states({b"/srv/f": record(1001, 2001)}, {b"/srv/f": record(1002, 2001)})
        self.write("store/old/meta", self.read("store/old/meta").replace(os.uname().nodename.encode(), b"other"))
        done = self.verb("restore", "/srv", "-s", "old")
        self.assertEqual((done.status, done.messages.partition(b"old: ")[2]),
                         (2, b"is of the host other, and now of %s\n" % os.uname().nodename.encode()))

    def test_a_folder_that_one_lacks(self) -> None:
        self.states({b"/srv/a/": record(0, 0), b"/srv/a/f": record(0, 0)}, {b"/srv/b": record(0, 0)})
        for word, name in (("/srv/a", b"/srv/a"), ("/srv/b", b"/srv/b"), ("/none", b"/none")):
            done = self.verb("restore", word)
            self.assertEqual(done.status, 2)
            self.assertIn(name + b": is not ", done.messages)

    def test_a_store_of_several_folders(self) -> None:
        self.states({b"/srv/f": record(1001, 0)}, {b"/srv/f": record(0, 0)})
        self.put("home", {b"/": TOP[b"/"], b"/home/": record(0, 0)}, seconds=5)
        self.write("store/home/meta", self.read("store/home/meta").replace(b"folder /srv", b"folder /home"))
        self.expect_done(self.verb("restore", "/srv", "-q"), 2, [], [
            b"facl restore: /srv: is not in the snapshot home, which has /home; these have it, for --now: now, old"])
        self.assertEqual(self.verb("restore", "/srv", "-q", "--now", "now").status, 0)

    def test_nothing_to_do(self) -> None:
        self.states({b"/srv/f": record(0, 0)}, {b"/srv/f": record(0, 0), b"/srv/g": record(0, 0)})
        self.expect_done(self.verb("restore", "/", "-q"), 3, [], [
            b"facl restore: 1 file is new since then, left alone: /srv/g", b"facl restore: nothing to do"])

    def test_new_and_gone_files(self) -> None:
        new = {b"/srv/n%d" % number: record(0, 0) for number in range(5)}
        self.states({b"/srv/f": record(1001, 0), b"/srv/gone": record(0, 0), b"/srv/kind/": record(0, 0)},
                    {b"/srv/f": record(0, 0), b"/srv/kind": record(1001, 0), **new})
        done = self.verb("restore", "/srv", "-q")
        self.expect_done(done, 0, [], [
            b"facl restore: 5 files are new since then, left alone: /srv/n0, /srv/n1, /srv/n2 ..",
            b"facl restore: 1 file is gone since then: /srv/gone",
            b"facl restore: 1 path is of a directory in one snapshot and of a file in the other, left alone: /srv/kind"])
        self.assertEqual([*self.planned("restore-srv.plan")], [b"srv/f"])
        self.assertIn(b":\n    /srv/n0\n    /srv/n1\n    /srv/n2\n    /srv/n3\n    /srv/n4\n",
                      self.verb("restore", "/srv", "--full", "-o", "full").messages)

    def test_another_file(self) -> None:
        """Set-user-ID is not given to what somebody else put there, also if that has set-user-ID of its own."""
        files = {b"/srv/t": record(0, 0, "rwxr-xr-x", flags="s--"), b"/srv/u": record(0, 0, "rwxr-xr-x", flags="s--"),
                 b"/srv/d/": record(0, 2001, "rwxrwx---", flags="-s-"), b"/srv/v": record(0, 0, "rwxr-xr-x", flags="s--"),
                 b"/srv/w": record(0, 2001, "rwxr-xr-x", flags="ss-"), b"/srv/x": record(0, 2002, "rwxr-xr-x", flags="-s-")}
        present = {name: record(1001, 1001, "rwxr-xr-x") for name in files}
        present.update({b"/srv/%c" % it: record(1001, 2001, "rwxrwxr-x", flags="ss-") for it in b"vwx"})
        numbers = {b"/": (1, 1, 1), b"/srv": (1, 2, 1), b"/srv/d": (1, 3, 1), b"/srv/t": (1, 4, 1), b"/srv/u": (1, 5, 1),
                   b"/srv/v": (1, 8, 1), b"/srv/w": (1, 9, 1), b"/srv/x": (1, 10, 1)}
        other = {**numbers, b"/srv/d": (1, 7, 2), b"/srv/t": (1, 4, 2), **{b"/srv/%c" % it: (1, it, 2) for it in b"vwx"}}
        self.put("old", {**TOP, **files}, seconds=DAY, inodes=inodes_of(numbers))
        self.put("now", {**TOP, **present}, inodes=inodes_of(other))
        done = self.verb("restore", "/srv", "-q", "--full")
        self.expect_done(done._replace(messages=b"".join(done.messages.splitlines(True)[:11])), 0, [], [
            b"facl restore: 5 paths have another file since then, which gets the older ACL:",
            *(b"    /srv/%c" % it for it in b"dtvwx"),
            b"facl restore: 4 of these get no set-user-ID or set-group-ID:", *(b"    /srv/%c" % it for it in b"tvwx")])
        planned = self.planned("restore-srv.plan")
        self.assertEqual({path: it.body for path, it in planned.items()}, {
            b"srv/d": files[b"/srv/d/"], b"srv/t": record(0, 0, "rwxr-xr-x"), b"srv/u": files[b"/srv/u"],
            b"srv/v": record(0, 0, "rwxr-xr-x"), b"srv/w": record(0, 2001, "rwxr-xr-x", flags="-s-"),
            b"srv/x": record(0, 2002, "rwxr-xr-x")})

    def test_who_is_not_there_any_more(self) -> None:
        """No number is given to somebody else, and no set-user-ID to another owner."""
        old = {b"/srv/o": record(1002, 2002, "rwxr-xr-x", flags="ss-"), b"/srv/n": record(1002, 0, "rw-r-----"),
               b"/srv/e": record(0, 0, "rw-r-----", "user:1002:rw- group:2002:r-- mask::rw-"),
               b"/srv/d/": record(0, 0, "rwxr-x---", "d:user::rwx d:user:1002:rwx d:group::--- d:mask::rwx d:other::---")}
        now = {b"/srv/o": record(1001, 0, "rwxr-xr-x"), b"/srv/n": record(1001, 0, "rw-r-----"),
               b"/srv/e": record(0, 0, "rw-r-----", "user:1001:r-- group:2002:rwx mask::r--"), b"/srv/d/": record(0, 0)}
        passwd = PASSWD.replace(b"bert:x:1002", b"bert:x:1042")
        group = GROUP.replace(b"law:x:2002", b"staff:x:2002")
        self.put("old", {**TOP, **old}, seconds=DAY)
        self.put("now", {**TOP, **now}, passwd, group)
        done = self.verb("restore", "/srv", "-q")
        self.expect_done(done, 0, [], [
            b"facl restore: group law (id 2002) is group staff in the newer snapshot: the owning group stays, 1 file: /srv/o",
            b"facl restore: group law (id 2002) is group staff in the newer snapshot: entries are not given back, 1 file: /srv/e",
            b"facl restore: user bert (id 1002) is not in the newer snapshot: the owner stays, 2 files: /srv/n, /srv/o",
            b"facl restore: user bert (id 1002) is not in the newer snapshot: entries are not given back, 2 files: /srv/d, /srv/e"])
        self.assertEqual({path: it.body for path, it in self.planned("restore-srv.plan").items()}, {
            b"srv/d": record(0, 0, "rwxr-x---", "d:user::rwx d:group::--- d:mask::rwx d:other::---"),
            b"srv/e": record(0, 0, "rw-r-----", "group:2002:rwx mask::rw-")})

    def test_the_snapshot_is_opened_once(self) -> None:
        """The edits are planned over what they were made of."""
        self.states({b"/srv/f": record(1001, 2001)}, {b"/srv/f": record(1002, 2001)})
        self.put("../other/now", {**TOP, b"/srv/f": record(1003, 2002)})
        done = subprocess.run([sys.executable, "-Ic", EXCHANGED, COMMANDS], cwd=self.folder, capture_output=True, check=False,
                              env={**os.environ, "FACL_STORE": self.store})
        self.assertEqual((done.returncode, done.stderr), (0, b""))
        self.assertIn(record(1002, 2001), self.read("restore-srv.plan/old"))

    def test_names_of_one_file(self) -> None:
        now = {b"/srv/a": record(0, 0), b"/srv/b": record(0, 0), b"/srv/c": record(0, 0), b"/srv/d": record(0, 0)}
        links = b"/srv/a\n/srv/b\n\n/srv/c\n/srv/d\n\n"
        self.states({b"/srv/a": record(1001, 0), b"/srv/b": record(0, 0), b"/srv/c": record(1002, 0), b"/srv/d": record(1002, 0)},
                    now, links=links)
        done = self.verb("restore", "/srv", "-q")
        self.expect_done(done, 0, [], [
            b"facl restore: 2 names are of files that had several ACLs and are one file now, left alone: /srv/a, /srv/b"])
        self.assertEqual([*self.planned("restore-srv.plan")], [b"srv/c", b"srv/d"])

    def test_odd_names_and_many_files(self) -> None:
        names = [b"/srv/ a", b"/srv/#b", b"/srv/it's", b"/srv/-n", b"/srv/\\134\\012", b"/srv/\xff\xfe", b"/srv/.", b"/srv/x "]
        names = [it for it in names if it != b"/srv/."] + [b"/srv/f%d" % number for number in range(200)]
        self.states({it: record(1001, 2001) for it in names}, {it: record(1001, 2002) for it in names})
        done = self.verb("restore", "/", "-q")
        self.assertEqual((done.status, done.messages), (0, b""))
        self.assertIn(b"%d files change owner" % len(names), done.out)
        self.assertEqual({it.body for it in self.planned("restore-root.plan").values()}, {record(1001, 2001)})

    def test_an_old_dump(self) -> None:
        """Of which an empty directory looks like a file."""
        self.put("now", {**TOP, b"/srv/d/": record(1001, 0)})
        self.write("dump", b"# file: srv/d\n# owner: anna\n# group: hr\nuser::rwx\ngroup::rwx\nother::---\n\n")
        self.write("passwd", PASSWD)
        self.write("group", GROUP)
        done = self.verb("import", "dump", "--passwd", "passwd", "--group", "group", "-o", "was")
        self.assertEqual(done.status, 0, done.messages)
        done = self.verb("restore", "/srv/d", "-q", "-s", "./was")
        self.assertEqual((done.status, done.messages), (0, b""))
        self.assertEqual(self.planned("restore-d.plan")[b"srv/d"].body, record(1001, 2001, "rwxrwx---"))

    def test_immutable_files(self) -> None:
        self.states({b"/srv/f": record(1001, 0)}, {b"/srv/f": record(0, 0)}, marks=b"immutable /srv/f\n")
        self.assertIn(b"files that nobody can change, so facl apply will change none", self.verb("restore", "/srv").messages)

    def test_parts(self) -> None:
        self.states({b"/srv/f": record(1001, 0)}, {b"/srv/f": record(0, 0)})
        os.mkdir(self.path("split"), 0o700)
        os.rename(self.path("store/old"), self.path("split/001"))
        self.write("split/001/meta", self.read("split/001/meta") + b"part 001 of 001\n")
        self.assertIn(b"has several parts; facl restore takes one: -s ", self.verb("restore", "/srv", "-s", "./split").messages)


if __name__ == "__main__":
    unittest.main()
