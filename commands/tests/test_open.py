"""facl open: the fewest entries by which a user may do something with a file along its path, and nobody else anything."""
from __future__ import annotations

import os
import random
import re
import unittest
from typing import Dict, List, Set, Tuple
from unittest import mock

from job_case import JobCase, Records, record
from small_tree import GROUP, PASSWD

from facl_commands.base.messages import Failure
from facl_commands.base.programs import ACL5, LINUX
from facl_commands.base.user_tools import User
from facl_commands.jobs import open_file
from facl_commands.jobs.open_file import CANNOT, NOTHING_TO_DO, OpenJob, Wanted, opening
from facl_commands.model.everybody import world_of
from facl_commands.model.people import users_in
from facl_commands.model.sources import Source
from facl_commands.program.session import Session

TREES = 200
USERS, GROUPS = range(1, 6), range(11, 14)
PEOPLE = b"".join(b"u%d:x:%d:%d::/:/bin/sh\n" % (it, it, 11 + it % 2) for it in USERS)
PEOPLES_GROUPS = b"g11:x:11:\ng12:x:12:\ng13:x:13:u1,u3,u4\n"
LETTERS = ("---", "--x", "-w-", "r--", "r-x", "rw-", "rwx")
DIRECTORIES = (b"/", b"/a/", b"/a/b/", b"/a/b/c/", b"/d/")
FILES = (b"/f", b"/a/f", b"/a/b/f", b"/a/b/c/f", b"/d/f")
CUT = re.compile(rb"(\S+): its mask is ([r-][w-][x-]), and (u\d) needs ([rwx]+) there; nothing within the mask grants that\.")
TOP: Records = {b"/": record(0, 0, "rwxr-xr-x"), b"/srv/": record(0, 0, "rwxr-xr-x")}


def random_record(chance: random.Random) -> bytes:
    """Every third has no entries that name somebody; some have an empty mask."""
    entries = ""
    if chance.random() < 0.66:
        named = [("user", it) for it in USERS] + [("group", it) for it in GROUPS]
        its = sorted(chance.sample(named, chance.choice([0, 1, 3])), reverse=True)
        entries = " ".join(["%s:%d:%s" % (*it, chance.choice(LETTERS)) for it in its] + ["mask::" + chance.choice([*LETTERS, "rwx", "rwx", "r-x"])])
    mode = "".join(chance.choice([*LETTERS, more, more]) for more in ("rwx", "r-x", "--x"))
    return record(chance.choice(USERS), chance.choice(GROUPS), mode, entries)


class Trees(JobCase):
    """Random trees, users, files and permissions, beside the program."""

    def index(self, session: Session) -> Set[bytes]:
        return set(session.ask_accepted(b"index").lines())

    def check(self, program: str, folder: str, wanted: Wanted, job: OpenJob) -> None:
        """In a session of its own: the lines grant it, and nobody else's row is another one."""
        with Session(program, os.fsencode(folder)) as session:
            before = self.index(session)
            session.ask_accepted(job.edits.rstrip(b"\n"))
            answer = session.ask_accepted(b"can --reach %s %s" % (wanted.user.name, wanted.path)).read()
            self.assertTrue(any(set(wanted.letters) <= set(it) for it in answer.split()), (answer, wanted.letters, job.edits))
            others = {line for line in before ^ self.index(session) if line.split(b" ")[1] != wanted.user.name}
            self.assertEqual(others, set(), job.edits)

    def check_cut(self, program: str, folder: str, text: bytes) -> None:
        """Not even an entry with all permissions has what is needed, under the mask as it is."""
        found = CUT.match(text)
        assert found is not None, text
        with Session(program, os.fsencode(folder)) as session:
            session.ask_accepted(b"setfacl -n -m u:%s:rwx %s" % (found[3], found[1]))
            answer = session.ask_accepted(b"can %s %s" % (found[3], found[1])).read()
            self.assertFalse(any(set(found[4]) <= set(it) for it in answer.split()), (text, answer))

    def test_random_trees(self) -> None:
        ends: Dict[int, int] = {}
        for seed in range(TREES):
            chance = random.Random(seed)
            program = chance.choice([LINUX, LINUX, ACL5]).find()
            records = {name: random_record(chance) for name in (*DIRECTORIES, *FILES)}
            if chance.random() < 0.5:
                records[b"/"] = record(0, 11, "rwxr-xr-x")
            folder = self.put("t%d" % seed, records, PEOPLE, PEOPLES_GROUPS)
            path = chance.choice([*DIRECTORIES[1:], *FILES, *FILES]).strip(b"/")
            letters = chance.choice([b"r", b"w", b"x", b"rw", b"rx", b"rwx"])
            with world_of(program, Source(os.fsencode(folder), b"", False)) as world:
                wanted = Wanted(world, chance.choice(users_in(PEOPLE)), path, letters, False)
                try:
                    job = opening(wanted)
                except Failure as failure:
                    ends[failure.status] = ends.get(failure.status, 0) + 1
                    if failure.status == CANNOT:
                        self.check_cut(program, folder, failure.text)
                    else:
                        self.assertEqual(failure.status, NOTHING_TO_DO, (seed, failure.text))
                        self.assertTrue(wanted.is_granted_there())
                    continue
            ends[0] = ends.get(0, 0) + 1
            self.check(program, folder, wanted, job)
        self.assertGreater(min(ends.get(it, 0) for it in (0, CANNOT, NOTHING_TO_DO)), TREES // 10, ends)


class Lines(JobCase):
    def take(self, records: Records, passwd: bytes = PASSWD, group: bytes = GROUP, **others: bytes) -> None:
        self.put("now", {**TOP, **records}, passwd, group, links=others.get("links", b""), marks=others.get("marks", b""))

    def edits(self, *words: str) -> List[bytes]:
        """The lines of a plan."""
        number = len([name for name in os.listdir(self.folder) if name.startswith("p")])
        done = self.verb("open", *words, "-q", "-o", "p%d" % number)
        self.assertEqual(done.status, 0, done.messages)
        return self.read("p%d/edits" % number).splitlines()

    def refused(self, *words: str) -> Tuple[int, bytes]:
        done = self.verb("open", *words, "-q")
        self.assertEqual(done.out, b"")
        return done.status, done.messages.rstrip(b"\n").rpartition(b"facl open: ")[2]

    def test_parents_are_opened_for_search_alone(self) -> None:
        self.take({b"/srv/a/": record(0, 2001), b"/srv/a/b/": record(0, 2001, "rwxrwx---"), b"/srv/a/b/f": record(0, 2001, "rw-------"),
                   b"/srv/a/b/g": record(0, 2001, "rw-r--r--"), b"/srv/a/h": record(0, 2001, "rw-r--r--")})
        done = self.verb("open", "/srv/a/b/f", "carl", "read,write", "-q")
        self.assertEqual((done.status, done.messages), (0, b"facl open: opens 2 parent directories; by that carl gets to 2 more files\n"))
        self.assertEqual(self.read("open-f.plan/edits"), b"setfacl -n -m u:carl:x /srv/a /srv/a/b\nsetfacl -n -m u:carl:rw,m::rw /srv/a/b/f\n")
        self.assertIn(b"carl  none -> rw-    1 file    first: /srv/a/b/f\n", done.out)
        self.assertEqual(self.edits("/srv/a/b/f", "1003", "rw", "--alone"), [b"setfacl -n -m u:carl:rw,m::rw /srv/a/b/f"])

    def test_nothing_to_do(self) -> None:
        self.take({b"/srv/f": record(1001, 2001, "rw-r--r--")})
        self.assertEqual(self.refused("/srv/f", "anna", "rw"), (3, b"nothing to do: anna has rw on /srv/f"))
        self.assertEqual(self.refused("/srv/f", "bert", "r"), (3, b"nothing to do: bert has r on /srv/f"))
        self.assertEqual(self.refused("/srv/f", "carl", "read"), (3, b"nothing to do: carl has r on /srv/f"))
        self.assertEqual(self.refused("/srv/f", "root", "w"),
                         (3, b"nothing to do: root has the id 0, to whom Linux grants nearly everything"))

    def test_what_the_user_has_stays(self) -> None:
        self.take({b"/srv/own": record(1001, 0, "r--rwxrwx"), b"/srv/group": record(0, 2001, "rwxrw-r--"),
                   b"/srv/other": record(0, 0, "rwxrwxr--"), b"/srv/named": record(0, 0, "rwx------", "user:1001:-w- mask::rwx"),
                   b"/srv/two": record(0, 2001, "rwxr--r--", "group:2002:-w- mask::rwx")},
                  group=GROUP.replace(b"law:x:2002:carl", b"law:x:2002:carl,anna"))
        for name, edit in ((b"own", b"u::rx"), (b"group", b"u:anna:rwx,m::rwx"), (b"other", b"u:anna:rx"), (b"named", b"u:anna:wx"),
                           (b"two", b"u:anna:rwx")):
            self.assertEqual(self.edits(os.fsdecode(b"/srv/" + name), "anna", "x"), [b"setfacl -n -m %s /srv/%s" % (edit, name)])

    def test_a_mask_that_cuts(self) -> None:
        self.take({b"/srv/f": record(0, 0, "rw-rw----", "user:1001:rw- user:1002:rwx mask::r--"),
                   b"/srv/d/": record(0, 0, "rwxr-x---", "user:1002:rwx mask::r--"), b"/srv/d/f": record(0, 0, "rw-r--r--")})
        text = b"%s: its mask is r--, and anna needs %s there; nothing within the mask grants that. This widens it, for all whom the ACL names: %s"
        self.assertEqual(self.refused("/srv/f", "anna", "w"), (1, text % (b"/srv/f", b"rw", b"setfacl -n -m u:anna:rw,m::rw /srv/f")))
        self.assertEqual(self.refused("/srv/d/f", "anna", "r"), (1, text % (b"/srv/d", b"x", b"setfacl -n -m u:anna:x,m::rx /srv/d")))
        self.assertEqual([name for name in os.listdir(self.folder) if "plan" in name], [])

    def test_who_and_what(self) -> None:
        self.take({b"/srv/f": record(0, 0), b"/srv/i": record(0, 0), b"/srv/r": record(0, 0)},
                  marks=b"immutable /srv/i\nro /srv/r\n", passwd=PASSWD + b"carlo:x:1003:1003::/:/bin/sh\na b:x:1010:1010::/:/bin/sh\n")
        for words, status, text in (
                (("/srv/f", "nobody-is-this", "r"), 2, b"nobody-is-this: no such user in the snapshot"),
                (("/srv/f", "4242", "r"), 2, b"4242: no user of the snapshot has this id"),
                (("/srv/f", "everybody else", "r"), 2, b"everybody else: no entry names whom the snapshot does not have; name a user"),
                (("/srv/f", "anna", "q"), 2, b"q: is not a right; give read, write, enter, or letters of rwx, with commas between several"),
                (("/srv/none", "anna", "r"), 2, b"/srv/none: is not recorded: the snapshot is of /srv"),
                (("/srv/i", "anna", "rw"), 1, b"/srv/i: is immutable: nobody can write it, whatever its ACL")):
            self.assertEqual(self.refused(*words), (status, text))
        done = self.verb("open", "/srv/f", "carl", "r", "-q")
        self.assertEqual((done.status, done.messages.splitlines()[0]), (0, b"facl open: carlo has the same id, and gets the same"))
        self.assertEqual(self.edits("/srv/f", "a b", "r"), [b"setfacl -n -m u:1010:r /srv/f"])

    def test_a_program_that_runs_for_another_user(self) -> None:
        self.take({b"/srv/t": record(0, 0, "rwxr-x---", flags="s--"), b"/srv/d/": record(0, 0, "rwxrwx---", flags="-s-")})
        done = self.verb("open", "/srv/t", "carl", "x", "-q")
        self.assertEqual((done.status, done.messages), (
            0, b"facl open: /srv/t has set-user-ID or set-group-ID: it runs with the rights of its owner or group\n"))
        self.assertEqual(self.verb("open", "/srv/d", "carl", "x", "-q").messages, b"")

    def test_odd_names(self) -> None:
        self.take({b"/srv/it's \\303\\251/": record(0, 0, "rwx------"), b"/srv/it's \\303\\251/-n": record(0, 0, "rw-r--r--")})
        self.assertEqual(self.edits(os.fsdecode(b"/srv/it's \xc3\xa9/-n"), "carl", "r"),
                         [b"setfacl -n -m u:carl:x,m::x '/srv/it\\047s \\303\\251'"])

    def test_other_names_of_the_file(self) -> None:
        self.take({b"/srv/f": record(0, 0, "rw-r-----"), b"/srv/g": record(0, 0, "rw-r-----")}, links=b"/srv/f\n/srv/g\n\n")
        done = self.verb("open", "/srv/f", "carl", "r", "-q")
        self.assertEqual((done.status, done.messages), (0, b"facl open: by that carl gets to 1 more file\n"))
        self.assertEqual([*self.planned("open-f.plan")], [b"srv/f", b"srv/g"])

    def test_the_root_and_a_dump(self) -> None:
        self.put("now", {b"/": record(0, 0, "rwx------"), b"/f": record(0, 0, "rw-r--r--")})
        self.assertEqual(self.edits("/", "anna", "enter"), [b"setfacl -n -m u:anna:x,m::x /"])
        for name, text in (("dump", b"# file: d/\n# owner: root\n# group: root\nuser::rwx\ngroup::---\nother::---\n\n"),
                           ("passwd", PASSWD), ("group", GROUP)):
            self.write(name, text)
        self.assertEqual(self.verb("import", "dump", "--passwd", "passwd", "--group", "group", "-o", "was").status, 0)
        done = self.verb("open", "d", "anna", "rx", "-q", "-s", "./was")
        self.assertEqual(done.status, 0, done.messages)
        self.assertIn(b"anna  none -> r-x    1 file    first: d/\n", done.out)
        self.assertFalse(os.path.exists(self.path("open-d.plan")))  # Names do not start at the root.


class Tried(JobCase):
    """Lines that do not do just that are not planned."""

    def failure(self, folder: str, edits: Dict[bytes, bytes]) -> bytes:
        with world_of(LINUX.find(), Source(os.fsencode(folder), b"", False)) as world:
            wanted = Wanted(world, User(b"anna", 1001, 1001), b"srv/d/f", b"r", False)
            with mock.patch.object(open_file, "edits_of", lambda *_: edits), self.assertRaises(Failure) as raised:
                opening(wanted)
        return raised.exception.text

    def test_lines_are_tried(self) -> None:
        folder = self.put("now", {**TOP, b"/srv/d/": record(0, 0, "rwxr-x---", "user:1002:rwx mask::r-x"),
                                  b"/srv/d/f": record(0, 0, "rw-r--r--")})
        for edits, text in (
                ({b"srv/d": b"u:anna:r"}, b"do not grant it"),
                ({b"srv": b"u:anna:rx", b"srv/d": b"u:anna:x"}, b"are not needed on /srv"),
                ({b"srv/d": b"u:anna:x,m::rwx"}, b"change the mask of /srv/d"),
                ({b"srv/d": b"u:anna:x,u:carl:x"}, b"change what others may do: carl, first: srv/d"),
                ({b"srv/d": b"u:anna:q"}, b"setfacl: entry 1: bad permissions")):
            self.assertTrue(self.failure(folder, edits).startswith(b"nothing was planned: the lines were tried, and " + text), text)


if __name__ == "__main__":
    unittest.main()
