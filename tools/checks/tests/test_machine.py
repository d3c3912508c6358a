"""Tests of what checks/machine.py does without a machine: a disk after a cut, the rows of a mail, README's tree and lines."""
from __future__ import annotations

import random
import re
import tempfile
import unittest
from pathlib import Path
from typing import List, Tuple

from lib import machine_package, machine_project, machine_week
from lib.machine_disk import ENTRY, FLUSH, MAGIC, SECTOR, SUPER, LoggedDisk, entries
from lib.machine_power import states_of
from lib.script import TOP

MAIL = """\
facl on server, 2026-12-08: /srv/project

== changes since 2026-12-07 (facl diff)
WHO   WHAT              MORE  GAINED  LESS  LOST  FIRST
ben   user entry added     1  -wx        0        /srv/project/README
ines  mask changed         0             1  rw-   /srv/project/drafts/logo 1.svg
files: 2 with another owner, group, flags or ACL

== findings (facl audit)
WHO   WHAT
"""


def entry(sector: int, content: bytes, flags: int = 0) -> bytes:
    return ENTRY.pack(sector, len(content) // SECTOR, flags, 0).ljust(SECTOR, b"\0") + content


class Disk(unittest.TestCase):
    """A log of a write, a flush and two writes of the same place, of which one or both may be lost."""

    def setUp(self) -> None:
        folder = tempfile.TemporaryDirectory(prefix="facl-machine-test.")
        self.addCleanup(folder.cleanup)
        self.disk = LoggedDisk(folder.name, 4 * SECTOR)
        self.a, self.b, self.c = (letter * SECTOR for letter in (b"a", b"b", b"c"))
        head = SUPER.pack(MAGIC, 1, 0, SECTOR).ljust(SECTOR, b"\0")
        self.log = head + entry(0, self.a) + entry(0, b"", FLUSH) + entry(1, self.b) + entry(1, self.c)
        Path(self.disk.log).write_bytes(self.log)

    def after(self, way: str, seed: int = 1) -> Tuple[str, bytes]:
        said = self.disk.cut(way, random.Random(seed))
        return said, Path(self.disk.before).read_bytes()

    def test_ways(self) -> None:
        zero = b"\0" * SECTOR
        self.assertEqual(self.after("none"), ("none of 2 writes since the last flush, 2 lost", self.a + 3 * zero))
        self.assertEqual(self.after("all"), ("all of 2 writes since the last flush, 0 lost", self.a + self.c + 2 * zero))

    def test_some(self) -> None:
        found = set()
        for seed in range(20):
            Path(self.disk.before).write_bytes(b"\0" * 4 * SECTOR)
            found.add(self.after("some", seed)[1][SECTOR:SECTOR + 1])
        self.assertEqual(found, {b"\0", b"b", b"c"})

    def test_a_write_that_was_cut_off_ends_the_log(self) -> None:
        self.assertEqual(len(list(entries(self.log))), 4)
        self.assertEqual(len(list(entries(self.log[:-1]))), 3)
        self.assertEqual(len(list(entries(self.log + b"\0" * SECTOR + entry(2, self.a)))), 4)


class Texts(unittest.TestCase):
    def test_the_rows_of_a_mail(self) -> None:
        wanted: List[machine_week.Event] = [
            ("ben", "user entry added", "-wx", "", "/srv/project/README"),
            ("ines", "mask changed", "", "rw-", "/srv/project/drafts/logo 1.svg")]
        self.assertEqual(machine_week.events_in(MAIL), wanted)
        self.assertEqual(machine_week.events_in("facl on server, 2026-12-08: /srv\n\n== findings (facl audit)\nWHO\nx\n"), [])

    def test_lines_of_getfacl_by_name(self) -> None:
        users, groups = {"1001": "ines"}, {"1001": "design"}
        for line, wanted in (("# owner: 1001", "# owner: ines"), ("# group: 1001", "# group: design"),
                             ("user:1001:r--", "user:ines:r--"),
                             ("default:group:1001:r-x\t#effective:r--", "default:group:design:r-x\t#effective:r--"),
                             ("group::r-x", "group::r-x"), ("# file: /srv/1001", "# file: /srv/1001")):
            self.assertEqual(machine_project.named(line, users, groups), wanted)

    def test_blocks(self) -> None:
        listing = "# file: a\nuser::r--\n\n# file: b\nuser::rw-\n\n"
        self.assertEqual(states_of(listing), {"# file: a": "user::r--", "# file: b": "user::rw-"})


class Readme(unittest.TestCase):
    def test_each_line_of_the_table_of_verbs_is_typed(self) -> None:
        rows = [line for line in Path(TOP, "README.md").read_text(encoding="utf-8").splitlines() if line.startswith("| `facl ")]
        lines = {word for row in rows for word in re.findall("`(facl [^`]+)`", row)}
        self.assertEqual(lines - {row.line for row in machine_package.ROWS}, set())

    def test_each_status_is_one_of_its_page(self) -> None:
        for row in machine_package.ROWS:
            self.assertIn(row.status, machine_package.statuses_of(row.line), row.line)


if __name__ == "__main__":
    unittest.main()
