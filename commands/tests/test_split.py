"""Snapshots in parts, as facl-snapshot --split cuts them, are compared, audited and checked as one snapshot: each answer is that
of a snapshot of the same tree without parts."""
from __future__ import annotations

import os
import random
import shutil
import unittest
from typing import Dict, Iterable, List, NamedTuple, Optional, Tuple

from common import Case

from facl_commands.base.messages import Command, Failure
from facl_commands.base.names import sorting_key
from facl_commands.base.programs import LINUX
from facl_commands.model import sources, split_tree
from facl_commands.questions.audit import command as audit
from facl_commands.questions.check import command as check
from facl_commands.questions.check.report import json_of as json_of_rules
from facl_commands.questions.diff import command as diff
from facl_commands.questions.diff import report as diff_report
from facl_commands.snapshot.list_texts import shown_name
from facl_commands.snapshot.recording import record
from facl_commands.snapshot.runs import IS_FOLDER, LeftOut, Row
from facl_commands.snapshot.walking import Walked

COUNT = 7  # Files of a part.
USERS = {"anna": 1001, "bert": 1002, "carl": 1003, "dora": 1004}
OPEN = b"# owner: 0\n# group: 0\nuser::rwx\ngroup::r-x\nother::r-x\n"
CLOSED = b"# owner: 0\n# group: 2001\nuser::rwx\ngroup::r-x\nother::---\n"
NAMED = b"# owner: 1001\n# group: 2001\nuser::rw-\nuser:1002:rw-\ngroup::r--\nmask::rw-\nother::---\n"
OWN = b"# owner: 1001\n# group: 2001\nuser::rw-\ngroup::r--\nother::---\n"
FREE = b"# owner: 1003\n# group: 2002\nuser::rwx\ngroup::rwx\ngroup:2001:rwx\nmask::rwx\nother::rwx\n"
CUT = b"# owner: 1003\n# group: 2002\nuser::rw-\nuser:1004:rwx\ngroup::r--\nmask::r--\nother::r--\n"
RULES = b"never others write /\nonly anna bert read /srv/b/\nalways carl read /srv/\nnever @hr write /srv/d/\n"


class Name(NamedTuple):
    """A file of a tree: its record without the name, and which file it is."""

    body: bytes
    is_folder: bool
    inode: int


class World:
    """A tree with its people, of which snapshots are written."""

    def __init__(self) -> None:
        self.files: Dict[bytes, Name] = {}
        self.inode = 10
        self.users = dict(USERS)
        self.groups: Dict[str, Tuple[int, List[str]]] = {"hr": (2001, ["anna", "bert"]), "law": (2002, ["carl"])}
        for name in (b"", b"srv"):
            self.make(name, OPEN, True)

    def make(self, path: bytes, body: bytes = OWN, is_folder: bool = False) -> None:
        self.inode += 1
        self.files[path] = Name(body, is_folder, self.inode)

    def remove(self, path: bytes) -> None:
        for it in [it for it in self.files if it == path or it.startswith(path + b"/")]:
            del self.files[it]

    def move(self, old: bytes, new: bytes) -> None:
        for it in [it for it in self.files if it == old or it.startswith(old + b"/")]:
            self.files[new + it[len(old):]] = self.files.pop(it)

    def rows(self) -> List[Row]:
        """All files, as facl-snapshot finds them."""
        files = [(b"/" + path + b"/" * (it.is_folder and path != b""), it)
                 for path, it in sorted(self.files.items(), key=lambda its: sorting_key(its[0]))]
        return [(b"# file: %s\n%s\n" % (shown_name(name), it.body), b"1 %d %d.000000001 %s\0" % (it.inode, it.inode, name), b"",
                 it.inode, IS_FOLDER * it.is_folder, (0, 0, frozenset(), frozenset())) for name, it in files]

    def write(self, folder: str, count: Optional[int] = None) -> None:
        """Writes a snapshot, or its parts."""
        os.makedirs(folder, 0o700)
        opened = os.open(folder, os.O_RDONLY)
        parts = record([Walked(self.rows(), LeftOut(), [])], opened, count, LeftOut())
        os.close(opened)
        for part in parts:
            more = b"part %s of %03d\n" % (part.name, len(parts)) if count else b""
            self.write_rest(os.path.join(folder, os.fsdecode(part.name)), part.sums.files, more)

    def write_rest(self, folder: str, files: int, more: bytes) -> None:
        groups = "".join("%s:x:%d:%s\n" % (name, gid, ",".join(members)) for name, (gid, members) in self.groups.items())
        written: Dict[str, bytes] = {
            "passwd": ("root:x:0:0::/:/bin/sh\n" + "".join(
                "%s:x:%d:%d::/:\n" % (name, uid, uid) for name, uid in self.users.items())).encode(),
            "group": ("root:x:0:\n" + "".join("%s:x:%d:\n" % (name, uid) for name, uid in self.users.items()) + groups).encode(),
            "meta": b"host srva\ndate 2026-11-27T03:10:00Z\nversion 0\nfolder /srv\nexcluded 0\nunread 0\nfiles %d\n" % files + more,
        }
        for name, text in written.items():
            with open(os.path.join(folder, name), "wb") as file:
                file.write(text)


def small() -> World:
    """With COUNT 7: 001 has /, srv, srv/a and srv/a/1 to 4, 002 /, srv, srv/a, srv/a/5, srv/b and srv/b/1 and 2, and so on."""
    world = World()
    for folder in (b"srv/a", b"srv/b", b"srv/c", b"srv/d"):
        world.make(folder, OPEN, True)
        for number in range(1, 6):
            world.make(folder + b"/%d" % number)
    return world


class SplitCase(Case):
    def compared(self, *names: str) -> Dict[str, object]:
        """What facl-diff prints of two snapshots, but their names and how it was found."""
        given = diff.parse(["--json", *(self.path(name) for name in names)])
        found = diff_report.object_of(given, diff.compare(Command("facl-diff"), given)[0])
        return {key: value for key, value in found.items() if key not in ("snapshot", "before", "answered_by")}

    def audited(self, name: str) -> Tuple[object, ...]:
        given = audit.parse(["--json", self.path(name)])
        folder = os.fsencode(self.path(name))
        found = audit.report_of(given, sources.Source(folder, folder, False), LINUX.find())
        return (found.files, found.folders, found.is_whole, {kind: sorted(its.first()) for kind, its in found.findings.items()},
                [kind.name for kind in found.kinds()])

    def checked(self, name: str) -> object:
        self.write("rules", RULES)
        os.chmod(self.path("rules"), 0o600)
        given = check.parse(["--json", self.path(name), self.path("rules")])
        folder = os.fsencode(self.path(name))
        found = check.report_of(given, sources.Source(folder, folder, False), LINUX.find())
        return {key: value for key, value in json_of_rules(given, found).items() if key != "snapshot"}


class Changes(SplitCase):
    """One change of a small tree, worked by hand, in parts that are cut at other files then."""

    def expect_files(self, world: World, changed: int, made: int, removed: int, moved: Iterable[Tuple[str, str]] = (),
                     count: int = COUNT) -> Dict[str, object]:
        small().write(self.path("old"), COUNT)
        world.write(self.path("new"), count)
        found = self.compared("old", "new")
        wanted = {"changed": changed, "new": made, "removed": removed,
                  "moved": [{"from": old, "to": new} for old, new in moved]}
        self.assertEqual(found["files"], wanted)
        shutil.rmtree(self.path("old"))
        shutil.rmtree(self.path("new"))
        return found

    def test_nothing(self) -> None:
        small().write(self.path("old"), COUNT)
        self.assertEqual(sorted(os.listdir(self.path("old"))), ["%03d" % number for number in range(1, 7)])
        self.assertEqual(self.expect_files_of("old"), [])
        for count in (COUNT, COUNT + 1, 100):
            shutil.rmtree(self.path("new"), ignore_errors=True)
            small().write(self.path("new"), count)
            self.assertEqual(self.compared("old", "new")["changes"], [])

    def expect_files_of(self, name: str) -> object:
        return self.compared(name, name)["changes"]

    def test_a_file_before_at_and_after_a_cut(self) -> None:
        for name in (b"srv/a/0", b"srv/a/40", b"srv/a/5 0", b"srv/a/6", b"srv/zz"):
            with self.subTest(name):
                world = small()
                world.make(name, NAMED)
                found = self.expect_files(world, 0, 1, 0)
                rights = [(it["before"], it["after"], it["users"], it["count"], it["path"])
                          for it in found["changes"]]  # type: ignore[attr-defined]
                self.assertEqual(rights, [("absent", "rw-", ["anna", "bert"], 1, "/" + name.decode())])

    def test_a_part_that_outgrows_and_one_that_goes(self) -> None:
        world = small()
        for number in range(20):
            world.make(b"srv/a/1%d" % number)
        self.expect_files(world, 0, 20, 0)
        world = small()
        for name in (b"srv/a/5", b"srv/b/1", b"srv/b/2", b"srv/b/3"):
            world.remove(name)
        self.expect_files(world, 0, 0, 4)
        world = small()
        world.remove(b"srv/b")
        self.expect_files(world, 0, 0, 6)
        world = small()
        for name in (b"srv/a", b"srv/b", b"srv/c", b"srv/d"):
            world.remove(name)
        self.expect_files(world, 0, 0, 24)

    def test_a_directory_above_several_parts(self) -> None:
        # srv/a is in two parts: its change counts once, and closes what is below it to all but root.
        world = small()
        world.files[b"srv/a"] = world.files[b"srv/a"]._replace(body=OPEN.replace(b"other::r-x", b"other::---"))
        found = self.expect_files(world, 1, 0, 0)
        rights = [(it["before"], it["after"], it["users"], it["count"], it["path"], [why["why"] for why in it["reasons"]])
                  for it in found["changes"]]  # type: ignore[attr-defined]
        self.assertEqual(rights, [
            ("r-x", "none", ["everybody else", "anna", "bert", "carl", "dora"], 1, "/srv/a", ["others' entry changed"]),
            ("rw-", "none", ["anna"], 5, "/srv/a/1", ["/srv/a closed"]), ("r--", "none", ["bert"], 5, "/srv/a/1", ["/srv/a closed"])])

    def test_a_directory_that_became_empty(self) -> None:
        # Its list is as before, in parts and without.
        world = small()
        for number in range(1, 6):
            world.remove(b"srv/d/%d" % number)
        self.expect_files(world, 0, 0, 5)
        small().write(self.path("old"))
        world.write(self.path("new"))
        self.assertEqual(self.compared("old", "new")["files"], {"changed": 0, "new": 0, "removed": 5, "moved": []})

    def test_a_file_that_goes_to_another_part(self) -> None:
        world = small()
        world.move(b"srv/a/1", b"srv/d/9")
        self.expect_files(world, 0, 1, 1, [("/srv/a/1", "/srv/d/9")])
        # Of two names in two parts one goes elsewhere: which one is not known.
        old, new = small(), small()
        for it in (old, new):
            it.files[b"srv/c/9"] = it.files[b"srv/a/1"]
        new.move(b"srv/a/1", b"srv/d/9")
        old.write(self.path("old"), COUNT)
        new.write(self.path("new"), COUNT)
        self.assertEqual(self.compared("old", "new")["files"], {"changed": 0, "new": 1, "removed": 1, "moved": []})

    def test_folders(self) -> None:
        small().write(self.path("old"), COUNT)
        world = small()
        for name in (b"srv/a/0", b"srv/b/0", b"srv/b/6"):
            world.make(name)
        world.write(self.path("new"), COUNT)
        given = diff.parse([self.path("old"), self.path("new"), "/srv/b"])
        self.assertEqual(diff.compare(Command("facl-diff"), given)[0].files, (0, 2, 0))
        with self.assertRaisesRegex(Failure, "/srv/x: is not recorded"):
            diff.compare(Command("facl-diff"), diff.parse([self.path("old"), self.path("new"), "/srv/x"]))

    def test_links_of_several_parts(self) -> None:
        world = small()
        world.files[b"srv/d/9"] = world.files[b"srv/a/1"]
        world.write(self.path("parts"), COUNT)
        found = split_tree.links_in(split_tree.parts_in(os.fsencode(self.path("parts"))))
        self.assertEqual(found, [[b"srv/a/1", b"srv/d/9"]])

    def test_what_cannot_be_used(self) -> None:
        small().write(self.path("parts"), COUNT)
        shutil.copytree(self.path("parts"), self.path("torn"))
        shutil.rmtree(self.path("torn/003"))
        for command, words in (("facl-diff", ["parts", "torn"]), ("facl-audit", ["torn"]), ("facl-check", ["torn", "rules"])):
            done = self.run_command(command, words)
            self.assertEqual((done.status, b"torn: lacks parts of its tree" in done.messages), (2, True), done)
        for command, words in (("facl-diff", ["--page", "page", "parts", "parts"]), ("facl-audit", ["--page", "page", "parts"])):
            done = self.run_command(command, words)
            self.assertEqual((done.status, b"--page: a snapshot in parts has none" in done.messages), (2, True), done)
        self.assertIn(b"--write: takes one part of a snapshot, as parts/001", self.run_command("facl-check", ["--write", "parts"]).messages)


class Days(SplitCase):
    def change(self, world: World, chance: random.Random) -> None:
        """Changes some files and people."""
        for _ in range(chance.randrange(5)):
            path = chance.choice([it for it in world.files if it.count(b"/") > 0])
            folder = chance.choice([it for it in world.files if world.files[it].is_folder and it])
            new = folder + b"/" + chance.choice(b"0 00 1 5 50 9 a x".split(b" ")) + chance.choice((b"", b" ", b"!", b"\n", b"\xe9"))
            act = chance.randrange(9)
            body = chance.choice((NAMED, OWN, CUT, FREE, CLOSED, OPEN))
            if act < 3 and new not in world.files:
                world.make(new, chance.choice((OPEN, CLOSED, FREE)) if act == 0 else body, act == 0)
            elif act == 3:
                world.remove(path)
            elif act == 4 and new not in world.files and not new.startswith(path + b"/"):
                world.move(path, new)
            elif act == 5 and new not in world.files and not world.files[path].is_folder:
                world.files[new] = world.files[path]
            elif act == 6:
                members = chance.choice([*world.groups.values()])[1]
                user = chance.choice([*USERS])
                (members.remove if user in members else members.append)(user)
            elif act == 7:
                if world.users.pop("dora", None) is None:
                    world.users["dora"] = 1004
            else:
                for it in [it for it in world.files if world.files[it].inode == world.files[path].inode]:
                    world.files[it] = world.files[it]._replace(body=body)

    def test_ten_days(self) -> None:
        chance = random.Random(int(os.environ.get("SPLIT_SEED", "1")))
        world = small()
        for day in range(1 + int(os.environ.get("SPLIT_DAYS", "10"))):
            if day:
                self.change(world, chance)
            world.write(self.path("whole%d" % day))
            world.write(self.path("parts%d" % day), chance.choice((COUNT, COUNT, 9, 30)))
            if day:
                last = day - 1
                wanted = self.compared("whole%d" % last, "whole%d" % day)
                for names in (("parts%d", "parts%d"), ("whole%d", "parts%d"), ("parts%d", "whole%d")):
                    with self.subTest(day=day, names=names):
                        self.assertEqual(self.compared(names[0] % last, names[1] % day), wanted)
            if day % 3 == 1 and b"srv/b" in world.files and b"srv/d" in world.files:
                with self.subTest(day=day):
                    self.assertEqual(self.audited("parts%d" % day), self.audited("whole%d" % day))
                    self.assertEqual(self.checked("parts%d" % day), self.checked("whole%d" % day))


if __name__ == "__main__":
    unittest.main()
