"""facl-snapshot: what it writes, whom it trusts, and what it says. Lists, people and what somebody does meanwhile are played by code
that is added to a copy of the commands; the rest is in tools/check.py snapshot."""
from __future__ import annotations

import calendar
import grp
import io
import os
import pwd
import re
import shutil
import signal
import stat
import subprocess
import sys
import time
from functools import partial
from typing import List, Optional, Set, Tuple

from common import Case, Done, restore_signals
from snapshot_stand_ins import AFTER_NAMES, DIRECTORY, LISTS, MEANWHILE, PERSON, UNREADABLE, command_with, names_of

from facl_commands.base import acl_bytes, beside, names, workers
from facl_commands.base.accounts import is_person
from facl_commands.base.names import path_order
from facl_commands.page import columns as page_columns
from facl_commands.snapshot import asking, in_order, list_texts, runs, scope, walking
from facl_commands.base.accounts import Account
from facl_commands.snapshot.asking import Service
from facl_commands.snapshot.people import Accounts

FILES = ["dump", "group", "inodes", "links", "marks", "meta", "passwd"]
# The first folder that is made has a signal wait.
SIGNALLED = """
from ..base import new_file
def signalled(name, folder, make=new_file.make_directory):
    os.kill(os.getpid(), 15)
    return make(name, folder)
new_file.make_directory = signalled
"""


def without_marks(meta: List[List[bytes]]) -> List[List[bytes]]:
    """The keys and values of meta without those of what counts beside lists, which depends on the file systems; test_marks.py has
    these."""
    return [it for it in meta if it[0] not in (beside.NAME, *beside.KINDS)]


class SnapshotCase(Case):
    """A test with a small tree, and with a copy of the commands for which a person is listed."""

    people = PERSON

    def setUp(self) -> None:
        super().setUp()
        os.chmod(self.folder, 0o755)
        self.add_code("")
        os.makedirs(self.path("tree/a"))
        for name in ("tree/a/1", "tree/a/2", "tree/b"):
            self.write(name, b"")

    def add_code(self, code: str) -> None:
        """Has a copy of the commands, with this at the end of command.py of facl-snapshot."""
        self.command = command_with(self.people + code, self.path("commands"))

    def meanwhile(self, text: str, more: str = "") -> None:
        """Has sh do this in the folder of the test, before any file is looked at."""
        self.add_code(MEANWHILE % (text, self.folder) + more)

    def snapshot(self, *words: str, **more: str) -> Done:
        done = subprocess.run([self.command, *words], cwd=self.folder, env={**os.environ, "FACL": "true", **more}, capture_output=True,
                              check=False)
        return Done(done.returncode, done.stdout, done.stderr)

    def expect_status(self, done: Done, status: int, message: bytes = b"") -> None:
        self.assertEqual(done.status, status, done)
        self.assertIn(message, done.messages)

    def expect_nothing_left(self) -> None:
        self.assertEqual([name for name in os.listdir(self.folder) if re.fullmatch(r".*\.\w{6}", name)], [])

    def inodes(self, name: str) -> List[bytes]:
        """The records of the file inodes."""
        text = self.read(name)
        self.assertTrue(text.endswith(b"\0"))
        return text[:-1].split(b"\0")


class Written(SnapshotCase):
    def expect_inodes(self, folder: str) -> None:
        """Each name of the dump has its record, with what lstat has of it."""
        boot, *records = self.inodes(folder + "/inodes")
        with open("/proc/sys/kernel/random/boot_id", "rb") as file:
            self.assertEqual(boot, b"boot " + file.read().strip())
        names = []
        for record in records:
            device, inode, birth, name = record.split(b" ", 3)
            look = os.lstat(name)
            self.assertEqual((int(device), int(inode)), (look.st_dev, look.st_ino))
            self.assertRegex(birth, rb"^[0-9]+\.[0-9]{9}$")
            self.assertLess(float(birth), time.time() + 1)
            self.assertEqual(name.endswith(b"/"), stat.S_ISDIR(look.st_mode))
            names.append(name)
        self.assertEqual(names, sorted(names, key=lambda name: path_order(name.strip(b"/"))))
        shown = [name.replace(b"\\", b"\\\\").replace(b"\n", b"\\012") for name in names]
        self.assertEqual(shown, names_of(self.read(folder + "/dump")))

    def test_inodes(self) -> None:
        for name in (b"x\ny", b"back\\slash", b"sp ace ", b"\351", b"\033[31m"):
            with open(os.fsencode(self.path("tree/a/")) + name, "wb"):
                pass
        os.symlink("a", self.path("tree/to_a"))
        self.expect_status(self.snapshot("new", "tree"), 0)
        self.expect_inodes("new")
        self.assertEqual(sorted(os.listdir(self.path("new"))), FILES)
        above = os.path.realpath(self.folder).count("/") + 1
        self.expect_status(self.snapshot("--split", str(above + 3), "parts", "tree"), 0)
        parts = os.listdir(self.path("parts"))
        self.assertGreater(len(parts), 1)
        for part in parts:
            self.expect_inodes("parts/" + part)

    def meta(self, name: str) -> List[List[bytes]]:
        """The keys and values of a file meta."""
        text = self.read(name)
        self.assertTrue(text.endswith(b"\n"))
        return [line.split(b" ", 1) for line in text[:-1].split(b"\n")]

    def numbers(self, links: int, unread: int, files: int, linked: int = 0) -> List[List[bytes]]:
        users, groups = len(pwd.getpwall()) + 1, len(grp.getgrall()) + 1
        keys = (b"symbolic-links", b"unread", b"files", b"linked-names", b"users", b"users-asked-for", b"groups", b"groups-asked-for",
                b"users-left-out", b"groups-left-out")
        return [[key, b"%d" % number] for key, number in zip(keys, (links, unread, files, linked, users, 0, groups, 0, 0, 0))]

    def test_meta(self) -> None:
        odd = b"tree/x\ny\\z\r"
        os.mkdir(os.fsencode(self.folder) + b"/" + odd)
        os.symlink("a", self.path("tree/to_a"))
        before = time.time()
        self.expect_status(self.snapshot("new", "tree", os.fsdecode(odd)), 0)
        host, date, *rest = self.meta("new/meta")
        self.assertEqual(host, [b"host", os.uname().nodename.encode()])
        self.assertEqual(date[0], b"date")
        taken = calendar.timegm(time.strptime(date[1].decode(), "%Y-%m-%dT%H:%M:%SZ"))
        self.assertTrue(int(before) <= taken <= time.time(), date)
        place = os.path.realpath(self.path("tree")).encode()
        above = place.count(b"/")
        self.assertEqual(without_marks(rest), [[b"version", b"0"], [b"folder", place], [b"folder", place + b"/x\\012y\\\\z\\015"],
                                [b"excluded", b"0"], *self.numbers(1, 0, above + 6)])
        self.expect_status(self.snapshot("--version"), 0)
        self.assertEqual(self.snapshot("--version").out, b"facl-snapshot 0\n")

    def test_meta_of_parts(self) -> None:
        above = os.path.realpath(self.folder).count("/") + 1
        self.expect_status(self.snapshot("--split", str(above + 3), "parts", "tree"), 0)
        parts = sorted(os.listdir(self.path("parts")))
        for part in parts:
            meta = self.meta("parts/%s/meta" % part)
            files = len(names_of(self.read("parts/%s/dump" % part)))
            number = [b"part", b"%s of %03d" % (part.encode(), len(parts))]
            self.assertEqual(without_marks(meta[4:]), [[b"excluded", b"0"], *self.numbers(0, 0, files), number])

    def below_tree(self) -> List[bytes]:
        """The recorded names below tree."""
        start = os.path.realpath(self.path("tree")).encode() + b"/"
        return [name[len(start):] for name in names_of(self.read("new/dump")) if name.startswith(start)]

    def test_files_that_are_exchanged_or_gone(self) -> None:
        """After the look at the names, another file, a link, a directory or nothing has the name: what is recorded is what has the
        name then, and no link."""
        for name in ("kept", "link", "folder", "gone", "back\\s", "l\nf", "d1/same", "d2/other", "d3/same", "outside/same"):
            os.makedirs(os.path.dirname(self.path("tree/" + name)), exist_ok=True)
            self.write("tree/" + name, b"")
        self.add_code(AFTER_NAMES % (os.path.realpath(os.fsencode(self.path("tree"))), """: >new && mv -f new 'back\\s' && ln -sf kept link
ln -sf kept 'l\nf'; rm folder gone; mkdir folder; mv d1 d && mv d2 d1 && mv d d2; mv d3 elsewhere && ln -s outside d3"""))
        gone = os.path.realpath(self.path("tree/gone")).encode()
        self.expect_status(self.snapshot("new", "tree"), 1, b"1 file could not be read and is missing from the snapshot, first: %s: was exchanged for another "
                           b"file, or removed, meanwhile\n" % gone)
        self.assertEqual(self.below_tree(), [b"", b"a/", b"a/1", b"a/2", b"b", b"back\\\\s", b"d1/", b"d1/other", b"d2/", b"d2/same", b"folder/",
                                             b"kept", b"outside/", b"outside/same"])
        self.assertIn([b"unread", b"1"], self.meta("new/meta"))
        self.assertIn([b"symbolic-links", b"3"], self.meta("new/meta"))
        self.assertIn([b"files", b"%d" % len(names_of(self.read("new/dump")))], self.meta("new/meta"))
        self.expect_inodes("new")

    def test_another_process_goes_on_in_the_same_directory_alone(self) -> None:
        """Where another one has its name, nothing in it is looked at."""
        top = os.path.realpath(os.fsencode(self.path("tree")))
        rest = walking.Rest(top + b"/a/", os.stat(top).st_dev, os.stat(top + b"/a").st_ino, b"rw", True, b"1\x002", 2)
        walker = walking.Walker(scope.Scope([top], [], False, (0, 0)))
        self.assertEqual([runs.name_in(row[1]) for row in walker.walk(rest).rows], [top + b"/a/1", top + b"/a/2"])
        found = walker.walk(rest._replace(inode=rest.inode + 1))
        self.assertEqual((found.rows, found.left_out.first[runs.UNREAD]), ([], top + b"/a/: was exchanged for another file, or removed, meanwhile"))

    def test_a_link_above_the_folder(self) -> None:
        """A user who owns a directory above the FOLDER puts a link in its place."""
        os.makedirs(self.path("user/mine/folder"))
        os.makedirs(self.path("secret/folder/names"))
        self.meanwhile("mv user/mine user/kept; ln -s ../secret user/mine")
        self.expect_status(self.snapshot("new", "user/mine/folder"), 1, b"/user/mine: was exchanged for another file, or removed, meanwhile")
        for name in ("dump", "inodes", "links"):
            self.assertNotIn(b"names", self.read("new/" + name))

    def test_names_that_never_end(self) -> None:
        """Whoever makes names without end, or directories in one another, does not keep it from ending."""
        self.add_code("from . import scope\nscope.MOST_FILES, scope.MOST_NAMES = 16, 64\n")
        for number in range(35):
            os.symlink("a", self.path(f"tree/link{number}"))
            os.symlink("a", self.path(f"tree/a/link{number}"))
        for words, most in (((), b"64"), (("--exclude", "link*"), b"64"), (("--split", "20"), b"64")):
            done = self.snapshot(*words, "new", "tree")
            self.expect_status(done, 2, b"facl-snapshot: more than %s names were found: name fewer FOLDERs; " % most)
            self.expect_nothing_left()
        for code in ("scope.MOST_NAMES = 30", "walking.MOST_BYTES = 150"):  # Its names are not even read to their end.
            self.add_code("from . import scope, walking\n" + code)
            self.expect_status(self.snapshot("new", "tree"), 2, b"tree: more names are in it than can be recorded: leave it out with --exclude\n")
        for number in range(20):
            self.write(f"tree/a/file{number}", b"")
        self.add_code("from . import scope\nscope.MOST_FILES = 16\n")
        self.expect_status(self.snapshot("new", "tree"), 2, b"facl-snapshot: more than 16 names were found: name fewer FOLDERs")
        self.assertFalse(os.path.exists(self.path("new")))

    def test_processes_that_share_a_tree(self) -> None:
        """The same is written, whoever has which part; also where a process ends early."""
        for number in range(40):
            os.makedirs(self.path(f"tree/{number}/deep/er"))
            for name in range(number):
                self.write(f"tree/{number}/deep/{name}", b"")
                self.write(f"tree/flat{number}-{name}", b"")
        os.link(self.path("tree/5/deep/1"), self.path("tree/39/deep/hard"))
        few = "from . import walking\nwalking.MANY, walking.DEEPEST = 7, 4\n"
        several = few + "from ..base import workers\nfrom . import in_order\nin_order.MANY, workers.MANY = 7, 10\nos.geteuid = lambda: 0\nos.cpu_count = lambda: 3\n"
        ended = several + "real = walking.Walker.walk\ndef walk(self, rest):\n    if os.getppid() == FIRST and b'20' in rest.names:\n" \
            "        os._exit(1)\n    return real(self, rest)\nwalking.Walker.walk, FIRST = walk, os.getpid()\n"
        short = "from . import walking\nwalking.MOST_TEXT = 1\n"
        for target, code in (("one", ""), ("two", few), ("three", several), ("four", ended), ("five", short)):
            self.add_code(code)
            self.expect_status(self.snapshot(target, "tree"), 0)
            for file in ("dump", "inodes", "links", "marks"):
                self.assertEqual((target, file, self.read(f"{target}/{file}")), (target, file, self.read(f"one/{file}")))

    def test_a_process_that_ends_while_it_sends(self) -> None:
        """Nothing came of its errand."""
        file = io.BytesIO()
        workers.send(file, [1, b"text"])
        text = file.getvalue()
        self.assertEqual([workers.receive(io.BytesIO(text[:end])) for end in range(len(text))], [None] * len(text))
        self.assertEqual(workers.receive(io.BytesIO(text)), [1, b"text"])

    def test_errands_are_cut_of_rests(self) -> None:
        """Each name once, in order."""
        names = [b"%d" % number for number in range(3000)]
        for weight in (1, 30, 5000):
            whole = walking.START_OF_ALL._replace(names=b"\0".join(names), number=len(names), weight=weight)
            found: List[bytes] = []
            while whole.number:
                piece, whole = whole.cut(in_order.cut_size(whole, 4))
                self.assertEqual(piece.number, piece.names.count(b"\0") + 1)
                self.assertLessEqual(piece.number * weight, max(weight, walking.MANY))
                found += piece.names.split(b"\0")
            self.assertEqual(found, names)

    def test_a_dump_that_facl_does_not_take(self) -> None:
        self.add_code("from . import recording\nrecording.MOST_BYTES = 100\n")
        self.expect_status(self.snapshot("new", "tree"), 2, b"facl-snapshot: the dump has more than 100 bytes, which facl does not take: ")
        self.expect_nothing_left()

    def test_parts_of_fewer_bytes(self) -> None:
        """A user with long names makes more parts, and keeps none from being made."""
        self.expect_status(self.snapshot("whole", "tree"), 0)
        for number in range(30):
            self.write("tree/" + 200 * "x" + str(number), b"")
        self.add_code("from . import recording\nrecording.MOST_BYTES = 3000\n")
        self.expect_status(self.snapshot("whole", "tree"), 2, b"the dump has more than 3,000 bytes")
        self.expect_status(self.snapshot("--split", "1000", "parts", "tree"), 0)
        found: Set[bytes] = set()
        for part in sorted(os.listdir(self.path("parts"))):
            dump = self.read("parts/%s/dump" % part)
            self.assertLessEqual(len(dump), 3000)
            found.update(names_of(dump))
        expected = {os.path.realpath(os.fsencode(self.path("tree/" + 200 * "x" + str(number)))) for number in range(30)}
        self.assertEqual(found, {*names_of(self.read("whole/dump")), *expected})
        self.assertGreater(len(os.listdir(self.path("parts"))), 2)

    def test_lists_that_facl_does_not_take(self) -> None:
        """The kernel takes several entries of one user, of which the first counts, and of one group, and 8,191 entries."""
        def pack(*entries: Tuple[int, int, int]) -> bytes:
            return acl_bytes.HEAD + b"".join(acl_bytes.ENTRY.pack(*entry) for entry in entries)
        first, last = (acl_bytes.USER_OBJ, 6, acl_bytes.NO_ID), [(acl_bytes.MASK, 7, acl_bytes.NO_ID), (acl_bytes.OTHER, 4, acl_bytes.NO_ID)]
        own = (acl_bytes.GROUP_OBJ, 4, acl_bytes.NO_ID)
        self.add_code(LISTS % (pack(first, (acl_bytes.USER, 1, 9), (acl_bytes.USER, 7, 9), (acl_bytes.USER, 2, 8), own, (acl_bytes.GROUP, 4, 7),
                                    (acl_bytes.GROUP, 2, 7), *last), b""))
        said = (b"ACLs with several entries of one user or group, which are recorded as one, or with entries of ids that this system "
                b"does not know, which are left out, as Linux judges by them: ")
        self.expect_status(self.snapshot("new", "tree/b"), 0, said)
        self.assertTrue(self.read("new/dump").endswith(
            b"\nuser::rw-\nuser:8:-w-\nuser:9:--x\ngroup::r--\ngroup:7:rw-\nmask::rwx\nother::r--\n\n"))
        code = LISTS % (pack(first, *((acl_bytes.USER, 4, number) for number in range(4092)), own, *last), b"")
        self.add_code(code)
        self.expect_status(self.snapshot("new", "tree/b"), 1, b"most users that the dump names have no row in passwd")
        self.assertIn(b"\nuser:4091:r--\n", self.read("new/dump"))
        self.add_code(LISTS % (pack(first, *((acl_bytes.USER, 4, number) for number in range(4093)), own, *last), b"")
                      + "of_all = attribute\nwalking.live.attribute = lambda name, key: of_all(name, key) if not os.path.isdir(name) else None\n")
        self.expect_status(self.snapshot("new", "tree"), 1, b"/a/1: has an ACL of more than 4096 entries, which facl does not take\n")
        self.assertEqual(self.below_tree(), [b"", b"a/"])

    def test_entries_of_ids_that_a_mount_does_not_have(self) -> None:
        """On an idmapped mount, and in a container, the kernel gives 4294967295 for them, which means nobody, and is no id for the
        program."""
        none, rest = acl_bytes.NO_ID, [(acl_bytes.MASK, 6, acl_bytes.NO_ID), (acl_bytes.OTHER, 0, acl_bytes.NO_ID)]
        entries = [(acl_bytes.USER_OBJ, 6, none), (acl_bytes.USER, 4, 9), (acl_bytes.USER, 6, none), (acl_bytes.GROUP_OBJ, 4, none),
                   (acl_bytes.GROUP, 6, none), *rest]
        for its, lines in ((entries, b"user::rw-\nuser:9:r--\ngroup::r--\nmask::rw-\nother::---\n"),
                           ([*entries[:1], *entries[2:]], b"user::rw-\ngroup::r--\nmask::rw-\nother::---\n")):
            found = list_texts.text_of(b"", acl_bytes.HEAD + b"".join(acl_bytes.ENTRY.pack(*it) for it in its))
            self.assertEqual((found.lines, found.is_repeated, none in {*found.users, *found.groups}), (lines, True, False))
        without_mask = b"".join(acl_bytes.ENTRY.pack(*it) for it in entries if it[0] != acl_bytes.MASK)
        with self.assertRaises(list_texts.NoList):
            list_texts.text_of(b"", acl_bytes.HEAD + without_mask)

    def test_lists_that_are_not_valid(self) -> None:
        """A file system of a user's process, or of a disk that somebody wrote, may give any bytes: the file is left out."""
        user, own, other, mask = ((tag, 4, acl_bytes.NO_ID) for tag in (
            acl_bytes.USER_OBJ, acl_bytes.GROUP_OBJ, acl_bytes.OTHER, acl_bytes.MASK))
        named = acl_bytes.USER, 4, 9
        for entries in ((), (user, own), (user, other), (own, other), (user, own, (acl_bytes.OTHER, 8, acl_bytes.NO_ID)),
                        (user, own, other, (0x40, 4, 7)), (user, named, own, other), (user, named, own, mask, other, (0, 0, 0))):
            data = acl_bytes.HEAD + b"".join(acl_bytes.ENTRY.pack(*entry) for entry in entries)
            for wrong in (data, data + b"\0", data[1:]):
                with self.assertRaises(list_texts.NoList, msg=entries) as raised:
                    list_texts.text_of(b"", wrong)
                self.assertEqual(raised.exception.text, b"has an ACL that is not valid")
        self.add_code(LISTS % (acl_bytes.HEAD + acl_bytes.ENTRY.pack(0x40, 8, 0), b"")
                      + "of_all = attribute\nwalking.live.attribute = lambda name, key: of_all(name, key) if not os.path.isdir(name) else None\n")
        self.expect_status(self.snapshot("new", "tree"), 1, b"/a/1: has an ACL that is not valid\n")
        self.assertEqual(self.below_tree(), [b"", b"a/"])

    def recorded(self, *words: str) -> List[bytes]:
        """The names below tree of a snapshot by these words."""
        self.expect_status(self.snapshot(*words, "new", "tree"), 0)
        start = os.path.realpath(self.path("tree")).encode() + b"/"
        return [name[len(start):] for name in names_of(self.read("new/dump")) if name.startswith(start) and name != start]

    def test_excluded_names(self) -> None:
        """By the whole name where the GLOB has a slash, as find -path, and else by the last part, as find -name."""
        for name in (b"*", b"[x]", b"x", b"-n", b"'q ", b"l\nf", b"\351", b"back\\s"):
            with open(os.fsencode(self.path("tree/a/")) + name, "wb"):
                pass
        everything = [b"a/", b"a/'q ", b"a/*", b"a/-n", b"a/1", b"a/2", b"a/[x]", b"a/back\\\\s", b"a/l\\012f", b"a/x", b"a/\351", b"b"]
        self.assertEqual(sorted(self.recorded()), sorted(everything))
        cases: List[Tuple[List[str], List[bytes]]] = [
            (["\\*"], [b"a/*"]), (["[x]"], [b"a/x"]), (["\\[x]"], [b"a/[x]"]), (["-n"], [b"a/-n"]), (["'q "], [b"a/'q "]),
            (["l\n*"], [b"a/l\\012f"]), ([os.fsdecode(b"\351")], [b"a/\351"]), (["back\\\\s"], [b"a/back\\\\s"]),
            (["1", "b"], [b"a/1", b"b"]), (["*/tree/a/[12]"], [b"a/1", b"a/2"]), (["tree/a"], []), (["*/tree*/1"], [b"a/1"]),
            (["a/"], everything[:-1]), (["*/tree/a/"], everything[:-1]), (["$(touch made)", "`touch made`", "\";touch made;\""], []),
        ]
        for globs, gone in cases:
            words = [word for glob in globs for word in ("--exclude", glob)]
            self.assertEqual((globs, sorted(self.recorded(*words))), (globs, sorted(name for name in everything if name not in gone)))
            meta = self.meta("new/meta")
            self.assertEqual(len([line for line in meta if line[0] == b"exclude"]), len(globs))
            self.assertIn([b"excluded", b"%d" % (1 if gone == everything[:-1] else len(gone))], meta)
        self.assertFalse(os.path.exists(self.path("made")))
        done = self.snapshot("--exclude", "l\nf", "new", "tree")
        self.assertIn(b"new: left out by --exclude: 1, first: %s/a/l\\012f\n" % os.path.realpath(self.path("tree")).encode(), done.out)
        self.assertIn([b"exclude", b"l\\012f"], self.meta("new/meta"))

    def test_meta_counts_what_is_unread(self) -> None:
        self.add_code(UNREADABLE % b"tree/a")
        text = b"1 file could not be read and is missing from the snapshot, first: %s/: cannot be read: no\n" % os.path.realpath(self.path("tree/a")).encode()
        self.expect_status(self.snapshot("new", "tree"), 1, text)
        self.assertIn([b"unread", b"1"], self.meta("new/meta"))
        self.assertEqual(self.below_tree(), [b"", b"a/", b"b"])

    def test_hard_links_have_one_inode(self) -> None:
        os.link(self.path("tree/a/1"), self.path("tree/c"))
        self.expect_status(self.snapshot("new", "tree"), 0, b"another name in the snapshot too (see links): 2, first: ")
        one, two = (os.path.realpath(self.path(name)).encode() for name in ("tree/a/1", "tree/c"))
        self.assertEqual(self.read("new/links"), one + b"\n" + two + b"\n")
        same = [record.split(b" ")[:3] for record in self.inodes("new/inodes") if record.endswith((b" " + one, b" " + two))]
        self.assertEqual(same, [same[0], same[0]])

    def modes(self, folder: str) -> List[int]:
        return [stat.S_IMODE(os.stat(self.path(name)).st_mode) for name in (folder, *(folder + "/" + name for name in FILES))]

    def test_modes(self) -> None:
        before = os.umask(0)
        self.addCleanup(os.umask, before)
        self.expect_status(self.snapshot("new", "tree"), 0)
        self.assertEqual(self.modes("new"), [0o700] + [0o600] * len(FILES))
        for group in {str(os.getgid()), *(it.gr_name for it in grp.getgrall() if it.gr_gid == os.getgid())}:
            self.expect_status(self.snapshot("--readers", group, "shared", "tree"), 0)
            self.assertEqual(self.modes("shared"), [0o750] + [0o640] * len(FILES))
            self.assertEqual({os.stat(self.path("shared/" + name)).st_gid for name in FILES}, {os.getgid()})
        self.expect_status(self.snapshot("--readers=no such group", "other", "tree"), 2, b"no such group: no such group")
        self.assertFalse(os.path.exists(self.path("other")))

    def test_long_names(self) -> None:
        """A name that is too long hides no other one."""
        os.mkdir(self.path("tree/z"))
        self.write("tree/z/last", b"")
        here = os.open(self.path("tree/a"), os.O_RDONLY)
        for _ in range(40):
            os.mkdir("d" * 250, dir_fd=here)
            below = os.open("d" * 250, os.O_RDONLY, dir_fd=here)
            os.close(here)
            here = below
        os.close(here)
        start = os.path.realpath(self.path("tree/a"))
        short = (4094 - len(start)) // 251
        done = self.snapshot("new", "tree")
        shown = b"not recorded: %d, first: %s.." % (40 - short, (start + "/" + "d" * 250)[:200].encode())
        self.expect_status(done, 1, b"names of more than 4,095 bytes, which are " + shown)
        names = names_of(self.read("new/dump"))
        self.assertIn(os.path.realpath(self.path("tree/z/last")).encode(), names)
        self.assertEqual(sum(b"d" * 250 in name for name in names), short)

    def test_long_names_that_match(self) -> None:
        """Below a name that is too long only the last part of a name matches --exclude, so that no whole name is kept."""
        here = os.open(self.path("tree/a"), os.O_RDONLY)
        for _ in range(30):
            os.mkdir("d" * 250, dir_fd=here)
            os.mkdir("no", dir_fd=here)
            below = os.open("d" * 250, os.O_RDONLY, dir_fd=here)
            os.close(here)
            here = below
        os.close(here)
        short = (4094 - len(os.path.realpath(self.path("tree/a")))) // 251
        for glob, number in (("*/no", 59 - 2 * short), ("no", 30 - short)):
            self.expect_status(self.snapshot("--exclude", glob, "new", "tree"), 1, b"which are not recorded: %d, first: " % number)
        self.add_code("from . import scope\nscope.MOST_NAMES = 40\n")
        self.expect_status(self.snapshot("new", "tree"), 2, b"more than 40 names were found")

    def test_few_open_files(self) -> None:
        """It has as many open as it needs, or says that it may not."""
        for soft, hard, status in ((64, 512, 0), (64, 64, 2)):
            done = subprocess.run(["prlimit", f"--nofile={soft}:{hard}", self.command, "new", "tree"], cwd=self.folder, env={**os.environ, "FACL": "true"},
                                  capture_output=True, check=False)
            self.expect_status(Done(done.returncode, done.stdout, done.stderr), status,
                               b"64 files may be open at once (ulimit -n), and directories in one another need 512\n" if status else b"")

    def test_texts_that_are_kept(self) -> None:
        """Whoever writes long lists does not fill the memory with them."""
        texts = list_texts.Known(partial(list_texts.text_of, b""))
        others = {(tag, acl_bytes.NO_ID): 4 for tag in (*acl_bytes.ALONE, acl_bytes.MASK)}
        for number in range(40):
            entries: acl_bytes.Entries = {**others, **{(acl_bytes.USER, 100_000 * number + it): 4 for it in range(4000)}}
            self.assertEqual(len(texts[acl_bytes.bytes_of(entries)].users), 4000)
            self.assertLessEqual(sum(len(it.lines) for it in texts.values()), list_texts.MOST_KEPT)
        self.assertGreater(len(texts), 1)

    def test_ids_that_are_kept(self) -> None:
        """Nor with ids; that of an owner is there all the same, and it says that some may be missing."""
        sums = runs.Sums()
        for number in range(3):
            ids = frozenset(range(10 ** 6 * number, 10 ** 6 * number + 200_000))
            sums.add([(b"", b"1 1 0.0 /%d\0" % number, b"", 0, 0, (number, number, ids, ids))])
        self.assertEqual((sums.owners, sums.owning_groups, len(sums.users), len(sums.groups), sums.has_too_many_ids),
                         ({0, 1, 2}, {0, 1, 2}, 400_000, 400_000, True))

    def test_nothing_can_be_read(self) -> None:
        self.expect_status(self.snapshot("new", "tree"), 0)
        old = self.read("new/dump")
        self.add_code("""
from . import walking
def look(self, rest, folder, name, depth):
    self.complain(rest.path + name, PermissionError(13, "no"))
walking.Walker.look = look
""")
        for name in ("new", "third"):
            self.expect_status(self.snapshot(name, "tree"), 2, b"facl-snapshot: no file could be read: /: cannot be looked at: no\n")
        self.assertEqual(self.read("new/dump"), old)
        self.assertFalse(os.path.exists(self.path("third")))
        self.expect_nothing_left()

    def test_a_caller_that_ignores_the_ends_of_programs(self) -> None:
        """The system would not keep their statuses then: one that refuses the snapshot would look like one that takes it."""
        done = subprocess.run([self.command, "new", "tree"], cwd=self.folder, env={**os.environ, "FACL": "false"}, capture_output=True,
                              check=False, preexec_fn=lambda: signal.signal(signal.SIGCHLD, signal.SIG_IGN))
        self.assertEqual(done.returncode, 1, done)
        self.assertIn(b"false does not load it", done.stderr)

    def test_the_environment_changes_nothing(self) -> None:
        self.expect_status(self.snapshot("new", "tree", POSIXLY_CORRECT="1", CDPATH="/", QUOTING_STYLE="c", LC_ALL="C.UTF-8", PATH="/none",
                                         FACL="/bin/true", TMPDIR="/none", PYTHONPATH="/none"), 0)


class People(SnapshotCase):
    """A directory service that lists few of its users and groups."""

    def setUp(self) -> None:
        super().setUp()
        self.people = DIRECTORY % self.folder
        self.listed = b"root:x:0:0::/:/bin/sh\nann:x:70001:70001::/:/bin/sh\n"
        if os.getuid():
            self.listed += b"me:x:%d:0::/:/bin/sh\n" % os.getuid()
        self.number = self.listed.count(b"\n") + 3
        self.users = {name: b"%s:x:%d:%d::/:/bin/sh\n" % (name, number, group) for name, number, group in (
            (b"bea", 70010, 70100), (b"carl", 70011, 70101), (b"dora", 70012, 70001), (b"eve", 70013, 70104), (b"finn", 70014, 70001))}
        self.groups = b"root:x:0:\nann:x:70001:finn\n"
        self.write("passwd.list", self.listed)
        self.write("passwd.all", self.listed + b"".join(self.users.values()))
        self.write("group.list", self.groups)
        self.write("group.all", self.groups + b"prim:x:70100:\nlab:x:70101:carl,4711\nstaff:x:70102:\nmore:x:70103:ann\n"
                   b"other:x:70104:eve\n")
        self.write("groups.all", b"bea 70100 70102 70103 70001\ncarl 70101\ndora 70001 70102\nfinn 70001\neve 70104\n")
        self.lists({(acl_bytes.USER, 70010): 4, (acl_bytes.GROUP, 70101): 4})

    def lists(self, entries: acl_bytes.Entries, more_code: str = "") -> None:
        """Has each list these entries too."""
        more = {(acl_bytes.MASK, acl_bytes.NO_ID): 7} if entries else {}
        self.add_code(LISTS % (acl_bytes.bytes_of({**acl_bytes.entries_of(acl_bytes.minimal(0o644)), **entries, **more}), b"") + more_code)

    def test_those_that_are_named(self) -> None:
        """Users and groups by their ids, members by their names, and the groups of these users."""
        done = self.snapshot("new", "tree")
        self.expect_status(done, 0)
        found = [self.users[name] for name in (b"bea", b"carl", b"finn")]
        self.assertEqual(self.read("new/passwd")[:len(self.listed)], self.listed)
        self.assertEqual(sorted(self.read("new/passwd")[len(self.listed):].splitlines(True)), sorted(found))
        self.assertEqual(sorted(self.read("new/group").splitlines()), sorted([
            b"root:x:0:", b"ann:x:70001:finn,bea", b"prim:x:70100:", b"lab:x:70101:carl,4711", b"staff:x:70102:bea",
            b"more:x:70103:ann,bea"]))
        text = b"new: %d users, of whom 3 are not in the list of getent: asked for by id or name, 6 groups, "
        self.assertIn(text % self.number, done.out)
        self.assertIn(b"\nusers %d\nusers-asked-for 3\ngroups 6\ngroups-asked-for 4\n" % self.number, self.read("new/meta"))
        asked = self.read("asked").splitlines()
        self.assertEqual(len(asked), len(set(asked)), "each is asked for once")

    def test_several_snapshots(self) -> None:
        above = os.path.realpath(self.folder).count("/") + 1
        self.expect_status(self.snapshot("--split", str(above + 3), "parts", "tree"), 0)
        parts = os.listdir(self.path("parts"))
        self.assertGreater(len(parts), 1)
        for part in parts:
            self.assertEqual(self.read("parts/%s/passwd" % part).count(b"\n"), self.number)
            self.assertIn(b"\nusers %d\n" % self.number, self.read("parts/%s/meta" % part))

    def test_users_of_a_file(self) -> None:
        self.write("more", b"\ndora\n\nann\n")
        self.expect_status(self.snapshot("--users", "more", "new", "tree"), 0)
        self.assertIn(self.users[b"dora"], self.read("new/passwd"))
        self.assertEqual(self.read("new/passwd").count(b"ann:"), 1)
        self.assertRegex(self.read("new/group"), rb"(?m)^staff:x:70102:(bea,dora|dora,bea)$")
        self.assertNotIn(b"eve", self.read("new/passwd") + self.read("new/group"))
        for text, message in ((b"\ndora\nzoe", b"line 3: no such user"), (b"zoe\n", b"line 1: no such user"),
                              (b"dora\nroot:$6$secret:1::\n", b"line 2: cannot be the name of a user"),
                              (b"s" * 257, b"line 1: cannot be the name of a user"), (b"\0x\n", b"line 1: no such user")):
            self.write("more", text)
            self.assertEqual(self.snapshot("--users", "more", "other", "tree").messages, b"facl-snapshot: more: " + message + b"\n")
        self.assertNotIn(b"secret", self.read("asked"))
        self.expect_status(self.snapshot("--users", "absent", "other", "tree"), 2, b"absent: cannot be read\n")
        self.assertFalse(os.path.exists(self.path("other")))
        self.expect_nothing_left()

    def test_a_slow_service(self) -> None:
        """Whoever writes ids that nobody has into a list cannot keep the snapshot from ending: asking has a limit of time, and
        owners and members come first."""
        ids: acl_bytes.Entries = {(acl_bytes.USER, number): 4 for number in range(2_000_000_000, 2_000_001_200)}
        self.lists(ids, """
from . import asking
asking.MOST_SECONDS = 4
find_before = find
def find(kind, make, place, key):
    if str(key).startswith(("200000", "u71")):
        os.read(os.pipe()[0], 1)
    return find_before(kind, make, place, key)
""")
        begin = time.monotonic()
        done = self.snapshot("new", "tree")
        self.assertLess(time.monotonic() - begin, 120)
        self.assertEqual(done.status, 1, done.messages)
        found = re.search(rb"facl-snapshot: asking for users and groups took more than 4 seconds, so the snapshot lacks some: names and ids "
                          rb"that were not asked for or not answered: ([0-9]+)\n", done.messages)
        assert found is not None, done.messages
        self.assertGreaterEqual(int(found[1]), 1200)
        self.assertEqual(sorted(os.listdir(self.path("new"))), ["dump", "group", "inodes", "links", "marks", "meta", "passwd"])
        self.write("more", b"".join(b"u%d\n" % number for number in range(71000, 71200)))
        self.expect_status(self.snapshot("--users", "more", "other", "tree"), 2, b"more: asking for its users took more than 4 seconds\n")
        self.expect_nothing_left()

    def test_many(self) -> None:
        """More keys than one call has."""
        rows = [b"u%d:x:%d:70001::/:/bin/sh\n" % (number, number) for number in range(71000, 72200)]
        self.write("passwd.all", self.listed + b"".join(rows))
        self.write("more", b"".join(b"u%d\n" % number for number in range(71000, 72200)))
        self.expect_status(self.snapshot("--users", "more", "new", "tree"), 0)
        self.assertEqual(self.read("new/passwd"), self.listed + b"".join(rows))

    def test_rows_that_facl_does_not_take(self) -> None:
        """Entries of NIS have no ids; Python makes 0 of them."""
        rows = [b"-x:x:0:0:::", b"+@net:x:0:0:::", b":x:5:5:::", b"o:x:4294967295:5:::", b"p:x:5:4294967295:::"]
        good = b"zero:x:4294967294:4294967294::/:/bin/sh\n"
        self.write("passwd.list", b"\n".join(rows) + b"\n" + good + self.listed)
        self.write("group.list", b"-x:x:0:\n+:x:0:\n" + self.groups + b"q:x:4294967295:\n")
        done = self.snapshot("new", "tree")
        for word, number, first in ((b"passwd", 5, b"+@net"), (b"group", 3, b"+")):
            self.expect_status(done, 0, b"rows of %s without a name, an id or a field, which are left out: %d, first: %s\n" % (word, number, first))
        self.assertTrue(self.read("new/passwd").startswith(good + self.listed))
        self.assertIn(b"\nusers-left-out 5\ngroups-left-out 3\n", self.read("new/meta"))

    def test_who_is_a_person(self) -> None:
        """As all commands say it."""
        self.lists({})
        for uid in (999, 1000, 59999, 60000, 60513, 60514, 61184, 65534, 65535, 65536, 1_000_000_000):
            rows = b"root:x:0:0::/:/bin/sh\nsomebody:x:%d:0::/:/bin/sh\n" % uid
            self.write("passwd.list", rows)
            self.write("passwd.all", rows)
            done = self.snapshot("new", "tree")
            self.assertEqual((uid, b"there are no users but those of the system" in done.messages), (uid, not is_person(uid)))

    def test_two_users_with_one_id(self) -> None:
        self.write("passwd.list", self.listed + b"anna:x:70001:70001::/:/bin/sh\n")
        done = self.snapshot("new", "tree")
        self.expect_status(done, 0, b"users with an id that another user has too, as ID NAME: 2, first: 70001 ann\n")
        self.assertEqual([row[:5] for row in self.read("new/passwd").splitlines() if b":70001:70001:" in row], [b"ann:x", b"anna:"])

    def test_rows_of_one_name(self) -> None:
        """Whoever is a member by one of them gets in."""
        self.write("group.list", self.groups + b"lab:x:70201:dora\nann:x:70001:eve,finn\n70101:x:70301:\n")
        self.write("passwd.list", self.listed + b"ann:x:70002:70001::/:/bin/sh\n#bob:x:70003:70001::/:/bin/sh\n")
        done = self.snapshot("new", "tree")
        self.expect_status(done, 0, b"rows of group with the name of another id, which have their ids for names, as NAME ID: 1, first: lab 70101\n")
        self.expect_status(done, 0, b"rows of passwd with the name of another id, which have their ids for names, as NAME ID: 1, first: ann 70002\n")
        rows = self.read("new/group").splitlines()
        self.assertEqual(rows[:4], [b"root:x:0:", b"ann:x:70001:finn,bea,eve", b"lab:x:70201:dora", b"70101:x:70301:"])
        self.assertIn(b"070101:x:70101:carl,4711", rows)
        self.assertTrue(self.read("new/passwd").startswith(self.listed + b"70002:x:70002:70001::/:/bin/sh\n"))
        self.assertIn(b"\ngroups %d\n" % len(rows), self.read("new/meta"))
        self.assertIn(b"which are left out: 1, first: #bob\n", done.messages)

    def test_a_group_of_many(self) -> None:
        """No row is longer than the program takes, and nobody is left out."""
        names = [b"member%05d" % number for number in range(12_000)]
        accounts = Accounts(Service(), asking.group_by, [Account(b"all:x:70500:", b"all", (70500,), (*names,)),
                                                         Account(b"70500:x:7:", b"70500", (7,), (b"ann",))])
        accounts.give_names()
        rows = accounts.text().splitlines()
        self.assertLess(max(map(len, rows)), 65_536)
        self.assertEqual([row.split(b":")[:3] for row in rows], [it.split() for it in (
            b"all x 70500", b"70500 x 7", b"070500 x 70500", b"0070500 x 70500")])
        self.assertEqual([name for row in rows if b":x:70500:" in row for name in row.split(b":")[3].split(b",")], names)

    def test_where_they_are_missing(self) -> None:
        """It says what to do, with --quiet too."""
        text = b"name those of a directory service by --users FILE, or have it list them"
        self.write("passwd.list", b"root:x:0:0::/:/bin/sh\na:x:999:1::/:/bin/sh\nnobody:x:65534:1::/:/bin/sh\n")
        self.write("group.list", b"root:x:0:\n")
        self.write("passwd.all", b"")
        self.write("group.all", b"")
        self.lists({})
        for words in (["new", "tree"], ["--quiet", "new", "tree"]):
            self.expect_status(self.snapshot(*words), 1, b"facl-snapshot: there are no users but those of the system: " + text)
        self.write("passwd.list", self.listed)
        self.lists({(acl_bytes.USER, 80001): 4, (acl_bytes.USER, 80002): 4})
        self.expect_status(self.snapshot("new", "tree"), 1, b"facl-snapshot: most users that the dump names have no row in passwd: " + text)


class Trusted(SnapshotCase):
    """Folders that others can write; those that belong to others need root."""

    def expect_refused(self, words: List[str], message: bytes) -> None:
        done = self.snapshot(*words)
        self.assertEqual((done.status, done.out, done.messages), (2, b"", b"facl-snapshot: " + message + b"\n"))
        self.expect_nothing_left()

    def test_folders_that_others_can_write(self) -> None:
        os.makedirs(self.path("open/inner"))
        os.symlink("open", self.path("leads"))
        os.symlink("leads/inner/new", self.path("far"))
        os.chmod(self.path("open"), 0o777)
        place = os.path.realpath(self.path("open")).encode()
        for name in ("open/new", "open/inner", "open/inner/new", "leads/new", "far", "leads/../new", self.path("open//inner/./new")):
            self.expect_refused([name, "tree"], place + b": everybody can write there")
        os.chmod(self.path("open"), 0o1777)
        self.expect_refused(["open", "tree"], place + b": everybody can write there")
        for name in ("open/new", "open/inner", "far"):
            self.expect_status(self.snapshot(name, "tree"), 0)
        self.assertEqual(sorted(os.listdir(self.path("open/inner/new"))), FILES)

    def test_a_link_in_a_circle(self) -> None:
        os.symlink("circle", self.path("circle"))
        self.expect_refused(["circle/new", "tree"], b"circle/new: has too many symbolic links")

    def test_files_that_are_no_snapshot(self) -> None:
        os.mkdir(self.path("mine"))
        self.write("mine/\033[1m\n", b"")
        self.expect_refused(["mine", "tree"], b"mine exists and is not a snapshot of yours, or has other files: \\033[1m\\012")

    def test_files_that_come_meanwhile(self) -> None:
        self.expect_status(self.snapshot("new", "tree"), 0)
        os.mkdir(self.path("empty"))
        old = {name: self.read("new/" + name) for name in FILES}
        for folder, name in (("new", b"notes"), ("empty", b"notes"), ("empty", b"dump")):
            self.meanwhile("echo mine >%s/%s" % (folder, name.decode()))
            place = os.path.realpath(self.path(folder)).encode()
            self.expect_refused([folder, "tree"], b"%s/%s came there meanwhile; %s stays as it was" % (place, name, place))
            self.assertEqual(self.read("%s/%s" % (folder, name.decode())), b"mine\n")
            os.remove(self.path("%s/%s" % (folder, name.decode())))
        self.assertEqual({name: self.read("new/" + name) for name in os.listdir(self.path("new"))}, old)
        self.meanwhile("mv new first && mkdir new")
        self.expect_refused(["new", "tree"], os.path.realpath(self.path("new")).encode() + b"/ came there meanwhile; %s stays as it was"
                            % os.path.realpath(self.path("new")).encode())

    def test_a_folder_that_comes_in_its_place(self) -> None:
        """It may be somebody's: it is not replaced, empty as it is."""
        self.meanwhile("mkdir new")
        self.expect_refused(["new", "tree"], b"cannot put the snapshot in place")
        self.assertEqual(os.listdir(self.path("new")), [])

    def test_files_that_come_too_late_to_be_seen(self) -> None:
        self.expect_status(self.snapshot("new", "tree"), 0)
        self.add_code("""
from . import target
look_before = target.NewSnapshot.look_again
def look_again(self):
    look_before(self)
    os.close(os.open("old/notes", os.O_CREAT | os.O_WRONLY, dir_fd=self.work))
target.NewSnapshot.look_again = look_again
""")
        done = self.snapshot("new", "tree")
        self.expect_status(done, 0, b"warning: files that came into the replaced snapshot meanwhile are in ")
        place = done.messages.split(b"meanwhile are in ")[1].strip().decode()
        self.assertEqual((os.listdir(os.path.dirname(place)), os.listdir(place)), (["old"], ["notes"]))


class Said(SnapshotCase):
    def test_names_on_the_terminal(self) -> None:
        """Control characters, bytes that are no UTF-8, and characters that cannot be seen or change the direction of text are
        escaped."""
        hidden = ["\a", "\x1b", "\x7f", "\x80", "\x9b", "\u061c", "\u200e", "\u200f", "\u202a", "\u202e", "\u2066", "\u2069"]
        escaped = [(character.encode(), b"".join(b"\\%03o" % byte for byte in character.encode())) for character in hidden]
        # an overlong form, a surrogate, a number above the last one, and characters that are cut off
        for no_text in (b"\xc0\xaf", b"\xed\xa0\x80", b"\xf4\x90\x80\x80", b"\xe2\x80", b"\xff", b"\xc3"):
            escaped.append((no_text, b"".join(b"\\%03o" % byte for byte in no_text)))
        plain = "ä\u00a0\u0410\u061b\u2010\u202f\u2070\ud7ff\ue000\uffff\U00010000\U0010ffff~ '".encode()
        name = b"|".join(raw for raw, _ in escaped) + b"\n" + plain
        shown = b"|".join(text for _, text in escaped) + b"\\012" + plain
        self.assertLess(len(name), 256)
        for words, status, out, message in (
            ([name, b"tree"], 0, b"recorded " + shown + b": ", b""),
            ([b"new", name + b"x"], 2, b"", b"facl-snapshot: " + shown + b"x: no such file\n"),
        ):
            done = subprocess.run([self.command.encode(), *words], cwd=self.folder, env={**os.environ, "FACL": "true"}, capture_output=True,
                                  check=False)
            self.assertEqual((done.returncode, done.stdout[: len(out)], done.stderr), (status, out, message))

    def test_names_are_escaped_alike_everywhere(self) -> None:
        """All that is escaped, and the neighbours of its first and last ones: in messages of the commands, which by_hand has too, and on a page."""
        unseen = {code for code in range(1, sys.maxunicode + 1) if names.UNSEEN.match(chr(code))}
        edges = {code + step for code in unseen for step in (-1, 1)} - unseen
        near = {code + step for code in edges for step in range(-17, 18)}
        codes = sorted(code for code in unseen | near if 0 < code <= sys.maxunicode and not 0xD800 <= code < 0xE000)
        for code in codes:
            text = chr(code).encode()
            self.assertEqual(page_columns.shown_name(text).encode(), names.shown(names.write_name(text)))

    def test_quiet(self) -> None:
        """Only what could not be read, and errors; the status is that without --quiet."""
        os.link(self.path("tree/a/1"), self.path("tree/c"))
        words = ("--quiet", "--exclude", "b", "new", "tree")
        self.assertIn(b"warning: names of files that have another name", self.snapshot(*words[1:]).messages)
        self.assertEqual(self.snapshot(*words), Done(0, b"", b""))
        self.assertEqual(self.snapshot(*words, FACL="", PATH="/usr/bin:/bin"), Done(0, b"", b""))
        done = self.snapshot(*words, FACL="false")
        self.assertEqual((done.status, done.out, done.messages[:35]), (2, b"", b"facl-snapshot: false does not load "))
        self.assertEqual(self.snapshot("--quiet", "new", "absent"), Done(2, b"", b"facl-snapshot: absent: no such file\n"))
        self.add_code(UNREADABLE % b"tree/a")
        text = b"1 file could not be read and is missing from the snapshot, first: %s/: cannot be read: no\n" \
            % os.path.realpath(self.path("tree/a")).encode()
        self.assertEqual(self.snapshot("--quiet", "other", "tree"), Done(1, b"", b"facl-snapshot: warning: " + text))

    def test_wrong_words(self) -> None:
        for words, message in (((), b"a FOLDER is missing, as in: facl-snapshot before /srv/project"), (("new",), b"a FOLDER is missing, "),
                               (("--frob", "new", "tree"), b"--frob: is not an option"), (("--users",), b"--users: takes a word"),
                               (("--exclude=", "new", "tree"), b"--exclude: takes a word"),
                               (("--exclude", "/", "new", "tree"), b"--exclude /: leaves out all"),
                               (("--split", "0", "new", "tree"), b"--split 0: is not a number from 1 to 9999999")):
            done = self.snapshot(*words)
            self.expect_status(done, 2, b"\nfacl-snapshot: " + message)
            self.assertEqual((done.out, done.messages[:21]), (b"", b"usage: facl-snapshot "))

    def test_streams(self) -> None:
        """What is made does not depend on what can be said."""
        for words, status, program in ((">&-", 5, "true"), ("2>&-", 0, "true"), (">/dev/full 2>/dev/full", 5, "true"),
                                       (">/dev/full 2>/dev/full", 1, "false"), ("2>&1 | true", 5, "true")):
            script = '(status=0; "$0" new tree || status=$?; echo $status >status) ' + words
            subprocess.run(["sh", "-c", script, self.command], cwd=self.folder, env={**os.environ, "FACL": program},
                           capture_output=True, check=False)
            self.assertEqual((words, self.read("status")), (words, b"%d\n" % status))
            self.assertEqual(sorted(os.listdir(self.path("new"))), FILES)
            shutil.rmtree(self.path("new"))

    def end_by(self, number: Optional[signal.Signals]) -> int:
        """The status of a snapshot that gets this signal while users are asked for."""
        running = subprocess.Popen([self.command, "new", "tree"], cwd=self.folder, env={**os.environ, "FACL": "true"},
                                   stdout=subprocess.DEVNULL, stderr=subprocess.DEVNULL, preexec_fn=restore_signals)
        while not os.path.exists(self.path("at_work")):
            time.sleep(0.01)
        if number:
            running.send_signal(number)
        status = running.wait()
        os.remove(self.path("at_work"))
        return status

    def test_a_signal_while_the_folder_is_made(self) -> None:
        """It waits, and what was made goes, although the snapshot has not begun."""
        before = os.listdir(self.folder)
        self.add_code(SIGNALLED)
        done = self.snapshot("before", "tree")
        self.assertEqual((done.status, os.listdir(self.folder)), (128 + signal.SIGTERM, before))

    def test_signals(self) -> None:
        self.expect_status(self.snapshot("new", "tree"), 0)
        old = os.stat(self.path("new")).st_ino
        self.meanwhile(": >at_work; sleep 0.3")
        for number in (signal.SIGHUP, signal.SIGINT, signal.SIGQUIT, signal.SIGUSR1, signal.SIGUSR2, signal.SIGALRM, signal.SIGTERM,
                       signal.SIGXCPU, signal.SIGVTALRM, signal.SIGPROF, signal.SIGPOLL, signal.SIGPWR):
            self.assertEqual((number, self.end_by(number)), (number, 128 + number))
            self.expect_nothing_left()
        self.assertEqual(os.stat(self.path("new")).st_ino, old)
        self.assertEqual(self.end_by(signal.SIGPIPE), 0)
