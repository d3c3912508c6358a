"""facl move-group: what a group has in a folder, for another group."""
from __future__ import annotations

import os
import random
import re
import unittest
from typing import Dict, FrozenSet, List, Tuple

from job_case import JobCase, Records, record
from small_tree import GROUP

from facl_commands.base.programs import LINUX
from facl_commands.jobs.move_group import moving

TOP: Records = {b"/": record(0, 0, "rwxr-xr-x"), b"/srv/": record(0, 0, "rwxr-xr-x")}
LETTERS = ("---", "--x", "-w-", "r--", "r-x", "rw-", "rwx")
OLD, NEW = 2001, 2002
GROUP_ENTRY = re.compile(r"((?:default:)?)group:(\d+):(...)")
NAMES = (b"d%d/", b"f%d", b"it's %d", b"-n %d", b"\\303\\251\\012%d")


def random_record(chance: random.Random, is_directory: bool) -> bytes:
    """With entries of the groups in one list or both, or in none."""
    parts: List[str] = []
    for begin in ("", "d:") if is_directory else ("",):
        its = [group for group in (OLD, NEW, 2003) if chance.random() < 0.4]
        entries = ["group:%d:%s" % (group, chance.choice(LETTERS)) for group in its]
        base = ["user::rwx", "group::" + chance.choice(LETTERS), "other::---"] if begin and its else []
        parts += [begin + it for it in [*base[:1], *base[1:2], *entries, *["mask::" + chance.choice(LETTERS)] * bool(its), *base[2:]]]
    return record(chance.choice([0, 1001]), chance.choice([OLD, NEW, 0]), "rwx%s---" % chance.choice(LETTERS), " ".join(parts),
                  chance.choice(["", "", "-s-", "ss-", "--t"]))


def lines_after(body: bytes) -> FrozenSet[str]:
    """The lines of a record with NEW in the place of OLD, and permissions of both."""
    lines: List[str] = []
    both: Dict[str, str] = {}
    for line in body.decode().splitlines():
        found = GROUP_ENTRY.fullmatch(line)
        if line == "# group: %d" % OLD:
            lines.append("# group: %d" % NEW)
        elif found and int(found[2]) in (OLD, NEW):
            before = both.get(found[1], "---")
            both[found[1]] = "".join(max(pair) for pair in zip(before, found[3]))
        else:
            lines.append(line)
    return frozenset([*lines, *("%sgroup:%d:%s" % (begin, NEW, perms) for begin, perms in both.items())])


class Trees(JobCase):
    def test_random_trees(self) -> None:
        """OLD is nowhere below, and nothing else changes: masks and flags stay."""
        for seed in range(6):
            chance = random.Random(seed)
            records: Records = {b"/": random_record(chance, True), b"/srv/": random_record(chance, True), b"/srv/x/": random_record(chance, True)}
            for number in range(40):
                name = chance.choice([b"/srv/", b"/srv/x/"]) + chance.choice(NAMES) % number
                records[name] = random_record(chance, name.endswith(b"/"))
            folder = self.put("t%d" % seed, records)
            top = chance.choice([b"/", b"/srv", b"/srv/x"])
            job = moving(LINUX.find(), os.fsencode(folder), [top, b"hr", chance.choice([b"law", b"2002"])])
            found = self.after(folder, job.edits)
            before = self.after(folder, b"")
            for path, file in found.items():
                was = before[path].body
                is_in = (b"/" + path + b"/").startswith(top.rstrip(b"/") + b"/")
                wanted = lines_after(was) if is_in else frozenset(was.decode().splitlines())
                self.assertEqual(frozenset(file.body.decode().splitlines()), wanted, (seed, path))


class Lines(JobCase):
    def move(self, *words: str) -> Tuple[int, List[bytes]]:
        done = self.verb("move-group", *words, "-q")
        return done.status, [line.partition(b"facl move-group: ")[2] for line in done.messages.splitlines()]

    def test_what_is_said(self) -> None:
        self.put("now", {
            **TOP, b"/srv/team/": record(0, OLD, "rwxrwx---", "group:2001:r-x group:2002:-w- mask::rwx d:user::rwx d:group::rwx d:group:2001:rwx d:mask::rwx d:other::---", "-s-"),
            b"/srv/team/f": record(1001, OLD, "rw-r-----"), b"/srv/team/tool": record(0, OLD, "rwxr-x---", flags="ss-"),
            b"/srv/other": record(0, OLD)})
        done = self.verb("move-group", "/srv/team", "hr", "law")
        self.assertEqual((done.status, done.messages.splitlines()), (0, [
            b"facl move-group: 3 owning groups, 1 access entry, 1 default entry from hr to law",
            b"facl move-group: 1 entry of law had others: now the permissions of both: /srv/team",
            b"facl move-group: 2 members of hr not in law: anna, bert",
            b"facl move-group: 1 file with set-group-ID: executed with the group law: /srv/team/tool"]))
        self.assertEqual(self.read("move-group-team.plan/edits").splitlines()[:5], [
            b"chgrp law /srv/team /srv/team/f", b"setfacl -n -x g:hr,d:g:hr -m g:law:rwx,d:g:law:rwx /srv/team",
            b"setfacl --restore=-", b"# file: /srv/team/tool", b"# owner: 0"])
        self.assertIn(b"# flags: ss-\n", self.read("move-group-team.plan/new").partition(b"tool\n")[2])
        self.assertNotIn(b"other", self.read("move-group-team.plan/edits").replace(b"other::", b""))
        self.assertRegex(done.out, rb"(?m)^carl  -w- -> rwx     1 file    first: /srv/team$")

    def test_nothing_to_do_and_words(self) -> None:
        self.put("now", {**TOP, b"/srv/f": record(0, OLD), b"/srv/g": record(0, 0)}, group=GROUP + b"same:x:2001:\n")
        for words, status, text in (
                (("/srv/g", "hr", "law"), 3, b"hr: owns nothing and is in no ACL at or below /srv/g"),
                (("/srv", "4711", "law"), 3, b"4711: owns nothing and is in no ACL at or below /srv"),
                (("/srv", "hr", "hr"), 2, b"hr and hr: are one group, with the id 2001"),
                (("/srv", "same", "2001"), 2, b"same and 2001: are one group, with the id 2001"),
                (("/srv", "none", "law"), 2, b"none: no such group in the snapshot"),
                (("/srv", "hr", "4711"), 2, b"4711: no such group in the snapshot"),
                (("/srv/none", "hr", "law"), 2, b"/srv/none: is not recorded: the snapshot is of /srv")):
            self.assertEqual(self.move(*words), (status, [text] + [b"nothing to do"] * (status == 3)), words)
        self.assertEqual(self.move("/srv/f", "hr", "law", "-o", "one")[0], 0)
        self.assertEqual([*self.planned("one")], [b"srv/f"])

    def test_many_files(self) -> None:
        names = [b"/a %d" % number for number in range(1_000, 8_000)]  # Short ones, whose quotes count.
        folder = self.put("now", {**TOP, **{name: record(0, OLD, "rwxr-x---", "group:2001:r-x mask::rwx") for name in names}})
        lines = moving(LINUX.find(), os.fsencode(folder), [b"/", b"2001", b"2002"]).edits.splitlines()
        self.assertLess(len(lines), 6)
        self.assertLess(max(map(len, lines)), 65_536)
        for begin in (b"chgrp law ", b"setfacl -n -x g:hr -m g:law:rx "):
            its = b" ".join(line[len(begin):] for line in lines if line.startswith(begin))
            self.assertEqual(sorted(re.findall(b"'([^']+)'", its)), sorted(names))

    def test_names_of_one_file(self) -> None:
        """The others have what the first one gets, also those outside."""
        body = record(0, OLD, "rwxr-x---", "group:2001:r-x group:2002:--x mask::rwx")
        self.put("now", {**TOP, b"/srv/a": body, b"/srv/d/": record(0, 0, "rwxr-xr-x"), b"/srv/d/b": body, b"/srv/d/c": body},
                 links=b"/srv/a\n/srv/d/b\n/srv/d/c\n\n", marks=b"immutable /srv/a\n")
        done = self.verb("move-group", "/srv/d", "hr", "law", "-q")
        self.assertEqual(done.status, 0, done.messages)
        self.assertIn(b"files that nobody can change, so facl apply will change none", done.messages)
        self.assertEqual(self.read("move-group-d.plan/edits"), b"chgrp law /srv/d/b\nsetfacl -n -x g:hr -m g:law:rx /srv/d/b\n")
        self.assertEqual({path: it.body for path, it in self.planned("move-group-d.plan").items()}, dict.fromkeys(
            (b"srv/a", b"srv/d/b", b"srv/d/c"), record(0, NEW, "rwxr-x---", "group:2002:r-x mask::rwx")))

    def test_a_group_without_a_plain_name(self) -> None:
        self.put("now", {**TOP, b"/srv/f": record(0, 3001, "rw-r-----", "group:3001:r-- mask::r--")},
                 group=GROUP + b"a b:x:3001:\n-x:x:3002:\n")
        self.assertEqual(self.move("/srv", "a b", "3002")[0], 0)
        self.assertEqual(self.read("move-group-srv.plan/edits"), b"chgrp 3002 /srv/f\nsetfacl -n -x g:3001 -m g:3002:r /srv/f\n")


if __name__ == "__main__":
    unittest.main()
