"""facl-diff by events: each is worked by hand on a small tree, and all together are the changes of rights, each once."""
from __future__ import annotations

import os
import random
import shutil
import unittest
from typing import Any, Callable, Dict, List, Tuple

from common import Case, Done
from test_split import CUT, OPEN, OWN, Days, World, small

from facl_commands.base.messages import Command
from facl_commands.questions.diff import command as diff
from facl_commands.questions.diff import report
from facl_commands.questions.diff.page import worse

SHUT = OPEN.replace(b"other::r-x", b"other::---")
OF_LAW = OWN.replace(b"2001", b"2002")
FREE_FOR_ALL = OPEN.replace(b"other::r-x", b"other::rwx")
ALL = ["everybody else", "anna", "bert", "carl", "dora"]
Change = Callable[[World], object]


def join(world: World, user: str, group: str) -> None:
    world.groups[group][1].append(user)


def leave(world: World, user: str) -> None:
    del world.users[user]


def give(world: World, path: bytes, body: bytes) -> None:
    world.files[path] = world.files[path]._replace(body=body)


class EventCase(Case):
    def compared(self, old: World, new: World, *options: str) -> report.Compared:
        """Two worlds, compared; their snapshots have a number after their names."""
        self.number = getattr(self, "number", 0) + 1
        names = ["old%d" % self.number, "new%d" % self.number]
        for world, name in zip((old, new), names):
            world.write(self.path(name))
        given = diff.parse([*options, *map(self.path, names)])
        found, _ = diff.compare(Command("facl-diff"), given)
        self.report: Dict[str, Any] = report.object_of(given, found)
        return found

    def events(self, *changes: Change) -> List[Dict[str, Any]]:
        """What some changes of the small tree make."""
        world = small()
        for change in changes:
            change(world)
        self.compared(small(), world)
        self.assert_all_once()
        found: List[Dict[str, Any]] = self.report["events"]
        return found

    def assert_all_once(self) -> None:
        """The events have each pair of a user and a file that the changes have, and these the reasons of all their files."""
        events, changes = self.report["events"], self.report["changes"]
        self.assertEqual(sum(it["pairs"] for it in events), sum(it["count"] * len(it["users"]) for it in changes), self.report)
        self.assertEqual(*({user for it in its for user in it["users"]} for its in (events, changes)))
        for it in changes:
            self.assertEqual(sum(why["count"] for why in it["reasons"]), it["count"], it)
        for it in events:
            self.assertLessEqual(max(it["more"], it["less"]), it["count"])
            self.assertLessEqual(it["count"], min(it["more"] + it["less"], it["pairs"]))
            self.assertLessEqual(it["pairs"], it["count"] * len(it["users"]))
            self.assertLessEqual(max(why["count"] for why in it["reasons"]), it["count"])

    def one(self, *changes: Change) -> Tuple[object, ...]:
        """The one event of some changes."""
        events = self.events(*changes)
        self.assertEqual(len(events), 1, events)
        it = events[0]
        return (it["kind"], it["users"], it["more"], it["less"], it["count"], it["pairs"], it["gained"], it["lost"], it["path"],
                [(why["why"], why["count"], why["path"]) for why in it["reasons"]])


class OneChange(EventCase):
    """In each of four folders, which all may enter, are five files of anna, which the group hr may read: anna and bert."""

    def test_a_membership(self) -> None:
        self.assertEqual(self.one(lambda it: join(it, "carl", "hr")), (
            "membership", ["carl"], 20, 0, 20, 20, "r--", "---", "/srv/a/1", [("joined hr", 20, "/srv/a/1")]))

    def test_several_who_joined_one_group(self) -> None:
        self.assertEqual(self.one(lambda it: join(it, "carl", "hr"), lambda it: join(it, "dora", "hr"))[:6], (
            "membership", ["carl", "dora"], 20, 0, 20, 40))

    def test_a_leaver(self) -> None:
        self.assertEqual(self.one(lambda it: leave(it, "dora")), (
            "leaver", ["dora"], 0, 6, 6, 6, "---", "r-x", "/", [("user removed", 6, "/")]))

    def test_an_open_folder(self) -> None:
        self.assertEqual(self.one(lambda it: give(it, b"srv/a", FREE_FOR_ALL)), (
            "others", ALL, 1, 0, 1, 5, "-w-", "---", "/srv/a", [("others' entry changed", 1, "/srv/a")]))

    def test_a_closed_folder(self) -> None:
        # All lose r-x on it, anna rw- and bert r-- on five files below.
        self.assertEqual(self.one(lambda it: give(it, b"srv/a", SHUT)), (
            "loss", ALL, 0, 6, 6, 15, "---", "rwx", "/srv/a", [("others' entry changed", 1, "/srv/a"), ("/srv/a closed", 5, "/srv/a/1")]))

    def test_another_owner(self) -> None:
        self.assertEqual(self.one(lambda it: give(it, b"srv/a/1", OWN.replace(b"owner: 1001", b"owner: 1003"))), (
            "write", ["anna", "carl"], 1, 1, 1, 2, "rw-", "-w-", "/srv/a/1",
            [("is the owner now", 1, "/srv/a/1"), ("no longer the owner", 1, "/srv/a/1")]))

    def test_a_moved_folder(self) -> None:
        found = self.one(lambda it: it.move(b"srv/a", b"srv/z"))
        self.assertEqual(found, ("moved", ALL, 6, 6, 12, 30, "rwx", "rwx", "/srv/a", [
            ("moved to /srv/z", 6, "/srv/a"), ("moved from /srv/a", 6, "/srv/z")]))

    def test_a_moved_folder_with_a_file_of_two_names(self) -> None:
        old, new = small(), small()
        for world in (old, new):
            world.files[b"srv/b/9"] = world.files[b"srv/a/1"]
        new.move(b"srv/a", b"srv/z")
        self.compared(old, new)
        self.assertEqual([(it["kind"], it["count"]) for it in self.report["events"]], [("moved", 12)])

    def test_removed_files(self) -> None:
        self.assertEqual(self.one(lambda it: it.remove(b"srv/b")), (
            "removed", ALL, 0, 6, 6, 15, "---", "rwx", "/srv/b", [("removed", 6, "/srv/b")]))


class SeveralChanges(EventCase):
    def kinds(self, *changes: Change) -> List[Tuple[str, int]]:
        """The kind of each event, with the number of its pairs."""
        return [(it["kind"], it["pairs"]) for it in self.events(*changes)]

    def test_the_first_cause_counts(self) -> None:
        """A user who joined a group, and on one file another cause that comes first."""
        joined: Change = lambda it: join(it, "carl", "hr")
        self.assertEqual(self.kinds(joined, lambda it: it.make(b"srv/a/new")), [("membership", 20), ("new", 3)])
        written = OWN.replace(b"group::r--", b"group::rw-")
        self.assertEqual(self.kinds(joined, lambda it: give(it, b"srv/a/1", written)), [("write", 2), ("membership", 19)])
        # The closed folder takes nothing from carl that he had but r-x on it.
        self.assertEqual(self.kinds(joined, lambda it: give(it, b"srv/a", SHUT)), [("membership", 15), ("loss", 15)])
        self.assertEqual(self.kinds(lambda it: leave(it, "dora"), lambda it: give(it, b"srv/a", SHUT)), [("leaver", 6), ("loss", 14)])
        self.assertEqual(self.kinds(lambda it: leave(it, "dora"), lambda it: it.remove(b"srv/a")), [("leaver", 5), ("removed", 15)])

    def test_a_folder_that_lets_all_search_it_as_before_is_no_cause(self) -> None:
        changed = OPEN.replace(b"group::r-x", b"group::rwx")
        self.assertEqual(self.kinds(lambda it: join(it, "carl", "hr"), lambda it: give(it, b"srv", changed)), [("membership", 20)])

    def test_the_order(self) -> None:
        written, read = OWN.replace(b"group::r--", b"group::rw-"), OWN.replace(b"other::---", b"user:1004:r--\nmask::r--\nother::---")
        found = self.kinds(
            lambda it: give(it, b"srv/d", FREE_FOR_ALL), lambda it: give(it, b"srv/a/1", written), lambda it: give(it, b"srv/a/2", read),
            lambda it: join(it, "carl", "law"), lambda it: join(it, "carl", "hr"), lambda it: leave(it, "dora"),
            lambda it: it.move(b"srv/b/1", b"srv/a/9"), lambda it: it.make(b"srv/a/new"), lambda it: it.remove(b"srv/b/2"),
            lambda it: give(it, b"srv/c", SHUT))
        self.assertEqual([kind for kind, _ in found], ["others", "write", "read", "membership", "leaver", "moved", "new", "removed",
                                                     "loss"])
        self.assertEqual(self.kinds(lambda it: give(it, b"srv/a/2", read), lambda it: join(it, "carl", "hr")), [("read", 2), ("membership", 19)])

    def test_more_moves_than_are_told_apart(self) -> None:
        moves: List[Change] = [lambda it, n=n: it.move(b"srv/a/%d" % n, b"srv/z%d" % n) for n in (1, 2, 3, 4)]  # type: ignore[misc]
        self.assertEqual(self.kinds(*moves[:3]), [("moved", 4)] * 3)
        self.assertEqual(self.kinds(*moves), [("moved", 16)])
        self.assertEqual(self.report["changes"][-1]["reasons"][0], {"why": "moved to /srv/z1", "count": 1, "path": "/srv/a/1"})

    def test_both_ways_and_all_worlds(self) -> None:
        """Random changes, by edits and by records, along paths and each file alone."""
        for seed in range(int(os.environ.get("EVENT_SEEDS", "4"))):
            chance, old, new = random.Random(seed), small(), small()
            for _ in range(4):
                Days.change(Days(), new, chance)
            view = ["--file-alone"] * (seed % 2)
            with self.subTest(seed):
                self.compared(old, new, *view)
                self.assert_all_once()
                whole, by = self.report, self.report["answered_by"]
                self.number -= 1
                given = diff.parse([*view, self.path("old%d" % (self.number + 1)), self.path("new%d" % (self.number + 1)), "/"])
                self.number += 1
                records = report.object_of(given, diff.compare(Command("facl-diff"), given)[0])
                self.assertEqual((by, records["answered_by"]), ("gains", "index"))
                self.assertEqual([whole[name] for name in ("events", "changes")], [records[name] for name in ("events", "changes")])


class Week(EventCase):
    def week(self) -> Tuple[World, World]:
        """A tree of 5,000 files, and what became of it: a membership, a leaver, a folder of 60 files that moved, new and removed
        files, a folder that is open to all by now, and one that is closed."""
        worlds = []
        for is_later in (False, True):
            world = World()
            world.users = {"u%02d" % number: 1001 + number for number in range(26)}
            world.groups = {"finance": (2001, ["u00", "u01"]), "law": (2002, ["u02"])}
            for folder, files, body in ((b"finance", 618, OWN), (b"public", 40, OPEN), (b"legal", 40, CUT), (b"projects", 0, OWN),
                                        (b"projects/P05", 59, OF_LAW), (b"projects/P06", 10, OF_LAW), (b"rest", 4222, CUT)):
                world.make(b"srv/" + folder, OPEN, True)
                for number in range(files):
                    world.make(b"srv/%s/%04d" % (folder, number), body)
            if is_later:
                give(world, b"srv/public", FREE_FOR_ALL)
                give(world, b"srv/legal", SHUT)
                join(world, "u07", "finance")
                leave(world, "u25")
                world.move(b"srv/projects/P05", b"srv/archive")
                world.remove(b"srv/projects/P06/0003")
                for number in range(5):
                    world.make(b"srv/public/new%d" % number)
            worlds.append(world)
        self.assertEqual(len(worlds[0].files), 5000 - 2)
        return worlds[0], worlds[1]

    def test_a_week_is_one_screen(self) -> None:
        old, new = self.week()
        old.write(self.path("monday"))
        new.write(self.path("friday"))
        done: Done = self.run_command("facl-diff", ["monday", "friday"])
        lines = done.out.decode().splitlines()
        self.assertEqual((done.status, done.messages), (1, b""))
        self.assertLessEqual(len(lines), 24)
        self.assertLessEqual(max(map(len, lines)), 100, done.out)
        self.assertEqual(lines[1].split(), "everybody (25) others' entry changed 1 -w- 0 /srv/public".split())
        self.assertEqual([line.split("  ")[0] for line in lines[1:]], [
            "everybody (25)", "u07", "u25", "everybody (26)", "u00, u01, u07", "u00, u02", "everybody (25)",
            "files: 2 with another owner, group, flags or ACL, 65 new, 61 gone, 60 of these moved", "users: 1 gone (u25)",
            "memberships: 1 new"])
        self.assertEqual(lines[2].split()[:4], ["u07", "joined", "finance", "618"])
        self.assertIn("  moved to /srv/archive  ", lines[4])
        self.assertIn("  40 /srv/legal closed and 1 more  ", lines[7])
        done = self.run_command("facl-diff", ["--page", "page.html", "monday", "friday"])
        self.assertIn(b'<p id="worse">Worse since 2026-11-27: everybody (25) may write 1 file (/srv/public); '
                      b"u07 joined finance and may read 618 files more.</p>", self.read("page.html"))


class Imports(EventCase):
    """A text of `getfacl -R srv/a srv/b` of the small tree, as `facl import` keeps it, beside a snapshot of /srv."""

    def imported(self, name: str, begin: bytes, world: World) -> None:
        """Writes the import; its names begin so."""
        world.write(self.path("whole"))
        os.mkdir(self.path(name), 0o700)
        for text in ("passwd", "group"):
            self.write(name + "/" + text, self.read("whole/" + text))
        records = [it for it in self.read("whole/dump").split(b"\n\n") if it.startswith((b"# file: /srv/a", b"# file: /srv/b"))]
        self.write(name + "/dump", b"".join(it.replace(b"# file: /", b"# file: " + begin) + b"\n\n" for it in records))
        shutil.rmtree(self.path("whole"))

    def test_beside_a_snapshot(self) -> None:
        world = small()
        give(world, b"srv/a/1", OWN.replace(b"group::r--", b"group::rw-"))
        world.make(b"srv/c/new")
        world.write(self.path("new"))
        self.imported("relative", b"", small())
        self.imported("rooted", b"/", small())
        for name in ("relative", "rooted"):
            self.expect(self.run_command("facl-diff", [name, "new"]), 1, b"""\
WHO   WHAT                 MORE  GAINED  LESS  LOST  FIRST
bert  group entry changed     1  -w-        0        /srv/a/1
files: 1 with another owner, group, flags or ACL
""")

    def test_directories_above_are_the_same(self) -> None:
        world = small()
        give(world, b"srv", SHUT)
        world.write(self.path("new"))
        self.imported("relative", b"", small())
        self.expect(self.run_command("facl-diff", ["relative", "new"]), 0, b"nothing differs: the same users, groups of users, files and ACLs\n")

    def test_two_imports(self) -> None:
        later = small()
        join(later, "carl", "hr")
        self.imported("relative", b"", small())
        self.imported("rooted", b"/", later)
        done = self.run_command("facl-diff", ["relative", "rooted"])
        self.assertEqual((done.status, done.out), (1, b"""\
WHO   WHAT       MORE  GAINED  LESS  LOST  FIRST
carl  joined hr    10  r--        0        srv/a/1
memberships: 1 new
"""))
        self.assertEqual(done.messages.count(b"\n"), 1)


class Worse(EventCase):
    def sentence(self, *changes: Change) -> bytes:
        world = small()
        for change in changes:
            change(world)
        return worse(self.compared(small(), world))

    def test_nothing(self) -> None:
        self.assertEqual(self.sentence(lambda it: give(it, b"srv/a", SHUT), lambda it: leave(it, "dora")), b"Nothing got worse.")
        self.assertEqual(self.sentence(lambda it: it.make(b"srv/a/new")), b"Nothing got worse.")

    def test_a_new_file_that_everybody_may_write(self) -> None:
        body = OWN.replace(b"other::---", b"other::rw-")
        self.assertEqual(self.sentence(lambda it: it.make(b"srv/a/new", body)),
                         b"Worse since 2026-11-27: everybody may write 1 new file (/srv/a/new).")

    def test_more_than_fits(self) -> None:
        changes: List[Change] = [lambda it, n=n: give(  # type: ignore[misc]
            it, b"srv/a/%d" % n, OWN.replace(b"group::r--", b"user:%d:rw-\ngroup::r--\nmask::rw-" % (1000 + n))) for n in (2, 3, 4)]
        found = self.sentence(lambda it: give(it, b"srv/b", FREE_FOR_ALL), *changes)
        self.assertEqual(found, b"Worse since 2026-11-27: everybody (4) may write 1 file (/srv/b); bert may write 1 file (/srv/a/2); "
                                b"carl may write 1 file (/srv/a/3); 1 more change.")

    def test_names_are_no_markup(self) -> None:
        name = b"srv/<script>alert(1)<" + b"\\" + b"script>\xe2\x80\xae"
        old, new = small(), small()
        for world in (old, new):
            world.make(name, OPEN, True)
        give(new, name, FREE_FOR_ALL)
        old.write(self.path("old"))
        new.write(self.path("new"))
        self.run_command("facl-diff", ["--page", "page.html", "old", "new"])
        self.assertIn(b"(/srv/&lt;script&gt;alert(1)&lt;\\134script&gt;\\342\\200\\256).</p>", self.read("page.html"))


if __name__ == "__main__":
    unittest.main()
