"""The order in which a file gets its new record, by a stand-in for the calls of the system; and the files that are opened.

At each moment both programs are asked who may do what: nobody more than before or after, request by request; and by the list
that two lists have in common nobody more than by each of them.
"""
from __future__ import annotations

import os
import random
import resource
import struct
import unittest
from typing import Dict, List, NamedTuple, Tuple
from unittest import mock

from common import Case
from real import RealCase

from facl_commands.apply import changing
from facl_commands.base import acl_bytes, linux, live
from facl_commands.base.acl_bytes import Record
from facl_commands.base.programs import ACL5, LINUX, KnownProgram
from facl_commands.program.session import Session

UIDS, GIDS = range(1, 7), range(11, 16)
MANY_UIDS, MANY_GIDS = range(1, 22), range(31, 46)  # 36 names: lists of up to 40 entries.
NOBODY = 22  # Whom no list names.
PROGRAMS = (ACL5, LINUX)
NAMES = {1: b"user:", 2: b"user:", 4: b"group:", 8: b"group:", 16: b"mask:", 32: b"other:"}


class Moment(NamedTuple):
    record: Record
    is_directory: bool


def lines_of(data: bytes, head: bytes = b"") -> bytes:
    """The entries of attribute bytes as getfacl prints them (acl(5)); a reader of its own."""
    found = b""
    for tag, permissions, number in struct.iter_unpack("<HHI", data[4:]):
        name = b"%d" % number if tag in (2, 8) else b""
        letters = b"".join(letter if permissions & bit else b"-" for letter, bit in ((b"r", 4), (b"w", 2), (b"x", 1)))
        found += head + NAMES[tag] + name + b":" + letters + b"\n"
    return found


def record_text(name: bytes, moment: Moment) -> bytes:
    record = moment.record
    text = b"# file: %s%s\n# owner: %d\n# group: %d\n" % (name, b"/" if moment.is_directory else b"", record.owner, record.group)
    return text + lines_of(record.access) + lines_of(record.default, b"default:") + b"\n"


class StandIn(live.OpenFile):
    """A file that is a record; the kernel's changes of its own are those of chown(2)."""

    def __init__(self, record: Record, is_directory: bool) -> None:
        self.present = record
        self.is_directory = is_directory
        self.moments = [Moment(record, is_directory)]

    def become(self, record: Record) -> None:
        self.present = record
        self.moments.append(Moment(record, self.is_directory))

    def mode(self) -> int:
        return self.present.flags

    def record(self) -> Record:
        return self.present

    def set_access(self, data: bytes) -> None:
        self.become(self.present._replace(access=data))

    def set_default(self, data: bytes) -> None:
        self.become(self.present._replace(default=data))

    def set_owner(self, owner: int, group: int) -> None:
        flags = self.present.flags if self.is_directory else self.present.flags & 0o1000
        self.become(self.present._replace(owner=owner, group=group, flags=flags))

    def set_mode(self, mode: int) -> None:
        assert mode & 0o777 == acl_bytes.permissions_of(self.present.access)
        self.become(self.present._replace(flags=mode & 0o7000))


class Pairs:
    """Random pairs of records."""

    uids, gids, counts = UIDS, GIDS, [0, 0, 1, 2, 3]  # How many entries with names a list may have.

    def __init__(self, seed: int) -> None:
        self.chance = random.Random(seed)

    def permissions(self) -> int:
        return self.chance.choice((0, 1, 4, 5, 6, 7, 7))

    def list(self) -> bytes:
        entries: Dict[Tuple[int, int], int] = {(tag, acl_bytes.NO_ID): self.permissions() for tag in (1, 4, 32)}
        for _ in range(self.chance.choice(self.counts)):
            tag = self.chance.choice((2, 8))
            entries[tag, self.chance.choice(self.uids if tag == 2 else self.gids)] = self.permissions()
        if len(entries) > 3:
            entries[16, acl_bytes.NO_ID] = self.permissions()
        return acl_bytes.bytes_of(entries)

    def record(self, is_directory: bool) -> Record:
        flags = self.chance.choice((0, 0, 0o1000, 0o2000, 0o4000, 0o6000, 0o7000))
        default = self.list() if is_directory and self.chance.random() < 0.5 else b""
        return Record(self.chance.choice(self.uids), self.chance.choice(self.gids), flags, self.list(), default)

    def pair(self) -> Tuple[bool, Record, Record]:
        """Two records, which have some parts in common."""
        is_directory = self.chance.random() < 0.4
        old, new = self.record(is_directory), self.record(is_directory)
        kept = {name: getattr(old, name) for name in Record._fields if self.chance.random() < 0.4}
        return is_directory, old, new._replace(**kept)


class ManyPairs(Pairs):
    """Those whose lists have up to 40 entries: many names, few, or none."""

    uids, gids, counts = MANY_UIDS, MANY_GIDS, [0, 1, 2, 4, 8, 16, 40, 160]


class Moments(Case):
    def setUp(self) -> None:
        super().setUp()
        chance = random.Random(3)
        users = [*MANY_UIDS, NOBODY]
        os.mkdir(self.path("asked"))
        self.write("asked/passwd", b"".join(b"u%d:x:%d:%d::/:\n" % (uid, uid, chance.choice(MANY_GIDS)) for uid in users))
        self.write("asked/group", b"".join(b"g%d:x:%d:%s\n" % (gid, gid, b",".join(b"u%d" % it for it in chance.sample(users, 4)))
                                           for gid in MANY_GIDS))

    def granted(self, program: KnownProgram, moments: List[Moment]) -> List[List[int]]:
        """For each moment the requests of each user, as bits, by one of the programs."""
        self.write("asked/dump", b"".join(record_text(b"%05d" % number, it) for number, it in enumerate(moments)))
        with Session(program.find(), os.fsencode(self.path("asked"))) as session:
            rows = [int(line[:2], 16) for line in session.ask_accepted(b"index").lines()]
        users = len(rows) // len(moments)
        self.assertEqual((users, len(rows)), (22, 22 * len(moments)))
        return [rows[k : k + users] for k in range(0, len(rows), users)]

    def changed(self, pairs: Pairs, number: int) -> List[List[Moment]]:
        """The moments of random changes, there and back, and from moments of a change that was cut off; the first and the last
        of each are what it is between."""
        found = []
        for _ in range(number):
            is_directory, old, new = pairs.pair()
            file = StandIn(old, is_directory)
            changing.change(file, old, new, is_directory)
            self.assertEqual(file.present, new)
            found.append(file.moments)
            cut = pairs.chance.choice(file.moments).record
            for end in (old, new):
                again = StandIn(cut, is_directory)
                changing.change(again, cut, end, is_directory)
                self.assertEqual(again.present, end)
                self.assertTrue(all(changing.is_between(it.record, old, new) for it in [*file.moments, *again.moments]))
                found.append([Moment(old, is_directory), *again.moments, Moment(new, is_directory)])
        return found

    def test_nobody_is_granted_more_than_before_or_after(self) -> None:
        changes = self.changed(ManyPairs(200), 1000)
        longest = max(len(acl_bytes.entries_of(it.record.access)) for moments in changes for it in moments)
        between = sum(len(moments) - 2 for moments in changes)
        self.assertEqual((longest, between > 5000), (40, True))
        for program in PROGRAMS:
            rows = iter(self.granted(program, [moment for moments in changes for moment in moments]))
            for moments in changes:
                granted = [next(rows) for _ in moments]
                both = [old | new for old, new in zip(granted[0], granted[-1])]
                for row in granted[1:-1]:
                    self.assertFalse(any(now & ~it for now, it in zip(row, both)), (program.name, moments))

    def test_the_list_in_common_grants_nobody_more_than_each(self) -> None:
        """With the owner and group of the old record, and with those of the new one."""
        pairs = ManyPairs(300)
        lists = [pairs.pair() for _ in range(1000)]
        moments = [Moment(ids._replace(access=access), is_directory) for is_directory, old, new in lists for ids in (old, new)
                   for access in (old.access, acl_bytes.common(old.access, new.access), new.access)]
        for program in PROGRAMS:
            rows = self.granted(program, moments)
            for place in range(0, len(rows), 3):
                for old, now, new in zip(*rows[place : place + 3]):
                    self.assertEqual(now & ~(old & new), 0, (program.name, moments[place : place + 3]))

    def test_a_program_runs_as_nobody_else_and_names_stay_protected(self) -> None:
        for moments in self.changed(Pairs(200), 200):
            old, new = moments[0].record, moments[-1].record
            for moment in moments[1:-1]:
                record = moment.record
                if moment.is_directory:
                    self.assertFalse(old.flags & new.flags & 0o1000 & ~record.flags)
                    self.assertTrue(record.flags & 0o1000 or not new.flags & 0o1000 or record._replace(flags=0) == old._replace(flags=0))
                elif record.flags & 0o6000:
                    self.assertTrue(any(record.ids() == it.ids() and record.access == it.access and not record.flags & 0o6000 & ~it.flags
                                        for it in (old, new)), moments)

    def test_a_list_alone_is_one_call(self) -> None:
        pairs = Pairs(5)
        for _ in range(50):
            is_directory, old, new = pairs.pair()
            file = StandIn(old, is_directory)
            end = old._replace(access=new.access)
            changing.change(file, old, end, is_directory)
            self.assertEqual([it.record for it in file.moments], [old, end] if old != end else [old])


class Opening(RealCase):
    def test_deep_directories_need_few_descriptors(self) -> None:
        before = os.getcwd()
        self.addCleanup(os.chdir, before)
        os.chdir(self.tree)
        paths, path = [], os.fsencode(self.tree).strip(b"/")
        for depth in range(700):
            os.mkdir("d")
            open("z", "w", encoding="ascii").close()
            os.chdir("d")
            paths += [path + b"/d" * depth + b"/z"]
            paths.insert(depth, path + b"/d" * (depth + 1))
        os.chdir(before)
        soft, hard = resource.getrlimit(resource.RLIMIT_NOFILE)
        self.addCleanup(resource.setrlimit, resource.RLIMIT_NOFILE, (soft, hard))
        resource.setrlimit(resource.RLIMIT_NOFILE, (min(soft, 300), hard))
        with live.Opener() as opener:
            for it in [*paths[:700], *reversed(paths[700:])]:
                file = opener.open(it)
                self.assertEqual(file.look().is_directory, it.endswith(b"d"))
                file.close()
            with self.assertRaises(live.NotFound):
                opener.open(path + b"/d/y")
            self.assertTrue(opener.open(b"").look().is_directory)


class Renames(Case):
    """Where a file system has no rename that replaces nothing, or that exchanges two names."""

    def setUp(self) -> None:
        super().setUp()
        without = mock.patch.object(linux, "is_renamed", lambda *_: False)
        without.start()
        self.addCleanup(without.stop)
        self.above = os.open(self.folder, os.O_RDONLY | os.O_DIRECTORY)
        self.addCleanup(os.close, self.above)
        for name in ("one", "two"):
            os.mkdir(self.path(name))
            self.write(name + "/file", name.encode())

    def files(self) -> Dict[str, bytes]:
        return {name: self.read(name + "/file") for name in os.listdir(self.folder) if os.path.exists(self.path(name + "/file"))}

    def test_a_new_name(self) -> None:
        os.symlink("nowhere", self.path("link"))
        for new in (b"two", b"link"):
            with self.assertRaises(FileExistsError):
                linux.rename_new(b"one", new, self.above)
        linux.rename_new(b"one", b"new", self.above)
        self.assertEqual(self.files(), {"new": b"one", "two": b"two"})
        self.assertTrue(os.path.islink(self.path("link")))

    def test_two_names(self) -> None:
        linux.exchange(b"one", b"two", self.above)
        self.assertEqual(self.files(), {"one": b"two", "two": b"one"})
        with self.assertRaises(FileNotFoundError):
            linux.exchange(b"gone", b"two", self.above)
        self.assertEqual(self.files(), {"one": b"two", "two": b"one"})


class Lists(unittest.TestCase):
    def test_a_list_of_the_system_in_another_order(self) -> None:
        # acl(5): entries are known by their keys; the id of one that names nobody means nothing
        rows = [(1, 7, 0), (2, 4, 9), (2, 5, 3), (4, 4, 0), (16, 5, 0), (32, 0, 0)]
        given = struct.pack("<I", 2) + b"".join(struct.pack("<HHI", *row) for row in rows)
        wanted = [(1, 7, 2**32 - 1), (2, 5, 3), (2, 4, 9), (4, 4, 2**32 - 1), (16, 5, 2**32 - 1), (32, 0, 2**32 - 1)]
        self.assertEqual(acl_bytes.canonical(given), struct.pack("<I", 2) + b"".join(struct.pack("<HHI", *row) for row in wanted))

    def test_the_list_of_a_mode(self) -> None:
        self.assertEqual(lines_of(acl_bytes.minimal(0o751)), b"user::rwx\ngroup::r-x\nother::--x\n")
        self.assertEqual([acl_bytes.permissions_of(acl_bytes.minimal(mode)) for mode in range(0o1000)], list(range(0o1000)))


if __name__ == "__main__":
    unittest.main()
