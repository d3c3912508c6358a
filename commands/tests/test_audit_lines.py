"""The lines of facl-audit over random trees: none of any finding removes a file, closes a drop box, names a top folder, or grants
anybody anything, by the program's answers before and after."""
from __future__ import annotations

import os
import random
import unittest
from typing import Dict, List, NamedTuple, Set

from small_tree import CLEAN, GROUP, PASSWD, SmallTree

from facl_commands.base.programs import LINUX
from facl_commands.model import sources
from facl_commands.program.session import session_over
from facl_commands.questions.audit import command as audit
from facl_commands.questions.audit.findings import KINDS, edits_of

TREES = 10
FILES = 16
TOPS = {b"/", b"/srv", b"/srv/hr"}  # The last one is the FOLDER of the snapshot.
PERMISSIONS = ("rwx", "r-x", "rw-", "r--", "-wx", "-w-", "--x", "---")
USERS, GROUPS = ("1001", "1003", "1009", "4711"), ("0", "2001", "2002", "4712")
# zoe's first group has no row; the other one is whom no list names.
PEOPLE = PASSWD + b"zoe:x:1010:4712::/:/bin/sh\nstranger:x:60000:60000::/:\n"
BOTH = b"# owner: 0\n# group: 2001\nuser::rwx\ngroup::rwx\ngroup:2002:rwx\nmask::rwx\nother::---\n"
SUPERUSER = b"root"


class Tree(NamedTuple):
    """A random tree."""

    records: Dict[bytes, bytes]
    boxes: List[bytes]  # Its drop boxes.
    links: bytes
    group: bytes


class Maker:
    """Makes random trees."""

    def __init__(self, seed: int) -> None:
        self.chance = random.Random(seed)

    def entries(self) -> Dict[str, str]:
        """A list: permissions by the tag and the id."""
        is_named = self.chance.random() < 0.7
        names = [tag + ":" + it for tag, ids in (("user", USERS), ("group", GROUPS))
                 for it in ("", *(its for its in ids if is_named and self.chance.random() < 0.4))]
        names += ["mask:"] * (len(names) > 2) + ["other:"]
        return {name: self.chance.choice(PERMISSIONS) for name in names}

    def record(self, is_directory: bool, entries: Dict[str, str]) -> bytes:
        flags = self.chance.choice(("---", "-s-", "--t", "-st") if is_directory else ("---", "---", "s--", "-s-"))
        default = self.entries() if is_directory and self.chance.random() < 0.3 else {}
        lines = ["# owner: " + self.chance.choice(("0", "1001", "1002", "4711")), "# group: " + self.chance.choice(GROUPS),
                 *["# flags: " + flags] * (flags != "---"), *map(":".join, entries.items()),
                 *("default:" + name + ":" + its for name, its in default.items())]
        return "\n".join([*lines, ""]).encode()

    def is_drop_box(self, entries: Dict[str, str]) -> bool:
        """Whether an entry but the owner's lets somebody write in a directory, and not read it."""
        mask = entries.get("mask:", "rwx")
        granted = ({*its} & {*mask} if name != "other:" else {*its} for name, its in entries.items() if name not in ("user:", "mask:"))
        return any({"w", "x"} <= its and "r" not in its for its in granted)

    def tree(self) -> Tree:
        records = {name: body for name, body in CLEAN.items() if name != b"/srv/hr/pay"}
        folders, boxes = [b"/srv/hr/"], []
        for number in range(FILES):
            is_directory = number < FILES // 2
            name, entries = self.chance.choice(folders) + b"n%d" % number + b"/" * is_directory, self.entries()
            records[name] = self.record(is_directory, entries)
            folders += [name] * is_directory
            boxes += [name.rstrip(b"/")] * (is_directory and self.is_drop_box(entries))
        records[b"/srv/hr/"] = self.record(True, {**self.entries(), "other:": self.chance.choice(("r-x", "--x", "---"))})
        records[b"/srv/hr/both/"] = BOTH
        links = [name for name in records if name[-1:] != b"/"][:2] if self.chance.random() < 0.5 else []
        records.update({name: records[links[0]] for name in links})
        group = GROUP.replace(b"root:x:0:", b"root:x:0:bert") if self.chance.random() < 0.3 else GROUP
        return Tree(records, boxes, b"".join(name + b"\n" for name in links), group)


def copied(name: bytes, number: int) -> bytes:
    """A path, or the paths of a line, in one of several copies of a tree."""
    return name.replace(b" /", b" /k%d/" % number)


class RandomTrees(SmallTree):
    def audited(self) -> List[List[bytes]]:
        """The lines of each finding."""
        folder = os.fsencode(self.path("small"))
        given = audit.parse([self.path("small"), "/"])
        found = audit.report_of(given, sources.Source(folder, folder, False), LINUX.find())
        self.kinds.update(kind.name for kind in found.kinds())
        return [lines for its in found.findings.values() for lines in [[*edits_of(its, found.is_whole)][1:]] if lines]

    def expect_safe(self, findings: List[List[bytes]], tree: Tree) -> None:
        """Each finding's lines are done in a copy of the tree, in one session. No owner is changed there."""
        words = [word for lines in findings for line in lines for word in line.split()]
        self.assertEqual({b"rm", *TOPS}.intersection(words), set())
        dump = self.read("small/dump")
        root, rest = dump[: dump.index(b"# file: /srv/\n")], dump[dump.index(b"# file: /srv/\n"):]
        copies = (root.replace(b"file: /", b"file: /k%d/" % number) + copied(rest, number) for number in range(len(findings)))
        edits = [copied(line, number) for number, lines in enumerate(findings) for line in lines if line[:3] not in (b"cho", b"chg")]
        asked = [copied(b"who %s-- wx %s" % (reach, box), number) for number in range(len(findings))
                 for box in tree.boxes for reach in (b"", b"--reach ")]
        with session_over(LINUX.find(), PEOPLE, tree.group, root + b"".join(copies)) as session:
            before = session.ask_accepted(b"\n".join([*asked, b"getfacl /k0"])).read()
            self.assertEqual(session.ask(b"".join(line + b"\n" for line in edits)).messages, [])
            gains = [line for line in session.ask_accepted(b"changes").lines() if line.split()[1] == b"gains"]
            self.assertEqual([line for line in gains if line.split()[0] != SUPERUSER], [], findings)
            self.assertEqual(session.ask_accepted(b"\n".join([*asked, b"getfacl /k0"])).read(), before, (findings, tree.boxes))

    def test_each_line_is_safe(self) -> None:
        self.kinds: Set[str] = set()
        seed = int(os.environ.get("SEED", "1"))
        for number in range(seed, seed + int(os.environ.get("TREES", TREES))):
            tree = Maker(number).tree()
            self.take(tree.records, tree.links, passwd=PEOPLE, group=tree.group)
            with self.subTest(number):
                self.expect_safe(self.audited(), tree)
        self.assertEqual(self.kinds, {kind.name for kind in KINDS})


if __name__ == "__main__":
    unittest.main()
