"""What Linux looks at beside lists: immutable and append-only files, read-only and noexec file systems, and lists of other kinds, in
snapshots, answers, pages, plans and facl-apply. File systems are played by code that is added to a copy of the commands; real ones
are in tools/check.py snapshot, kernel and live."""
from __future__ import annotations

import ctypes
import errno
import json
import os
import shutil
import subprocess
import sys
import types
import unittest
from typing import Any, Dict, List
from unittest import mock

from common import COMMANDS, HERE, Case, Done
from page_data import data_in, read_data
from real import RealCase
from test_snapshot import SnapshotCase

from facl_commands.base import beside, linux
from facl_commands.model.marks import Marks, obstacles
from facl_commands.model.records import ChangedPaths

# Code that is added: what a file has is by the end of its name, and each part of the tree may be a mount.
FILE_SYSTEMS = """
from ..base import beside, linux
from . import marking
FOUND = %r
of_system, path_of = linux.statx, lambda descriptor: os.readlink(b"/proc/self/fd/%%d" %% descriptor)
def mount_of(path: bytes) -> bytes:
    return max((it for it in FOUND if it[:1] == b"/" and (path + b"/").find(it + b"/") >= 0), key=len, default=b"")
def statx(descriptor: int, *words: object) -> object:
    known, _, *others, place = of_system(descriptor, *words)
    path = path_of(descriptor)
    has = FOUND.get(path.rpartition(b"/")[2], 0)
    others[3] = 0 if has == linux.UNKNOWN else linux.ATTRIBUTES
    return (known, has, *others, place[:8] + (hash(mount_of(path)) & 0xFFFFFFFF).to_bytes(8, "little"))
linux.statx = statx
marking.file_system_of = lambda descriptor: 0
beside.word_of = lambda descriptor: FOUND.get(mount_of(path_of(descriptor)), b"rw")
os.listxattr = lambda name: FOUND.get(os.readlink(name).rpartition(b"/")[2] + b"?", [])
"""
SRV = "/srv/project"
README = SRV + "/README"
LEFT_OUT = b"facl-who: not shown, as nobody can write them: "


class Recorded(SnapshotCase):
    """A snapshot of file systems that are played."""

    def setUp(self) -> None:
        super().setUp()
        self.place = os.path.realpath(os.fsencode(self.path("tree"))) + b"/"

    def take(self, found: Dict[bytes, object], *words: str) -> Done:
        self.add_code(FILE_SYSTEMS % found)
        done = self.snapshot(*words, "new", "tree")
        self.expect_status(done, 0)
        return done

    def marks(self, name: str = "new/marks") -> List[bytes]:
        """The lines of the file, without the folder of the test."""
        return self.read(name).replace(self.place, b"").splitlines()

    def counted(self) -> List[bytes]:
        """The lines of meta about it."""
        return [line for line in self.read("new/meta").splitlines() if line.split(b" ")[0] in (b"marks", *beside.KINDS)]

    def test_nothing(self) -> None:
        self.assertNotIn(b"see marks", self.take({}).messages)
        self.assertEqual(self.read("new/marks"), b"")
        self.assertEqual(self.counted(), [b"marks 0", b"immutable 0", b"append-only 0", b"on-read-only 0", b"on-noexec 0",
                                          b"attributes-unknown 0", b"nfs4-list 0", b"rich-list 0", b"samba-list 0"])

    def test_files(self) -> None:
        """The names are in the order of the dump, and written as there."""
        for name in (b"l\nf", b"back\\s"):
            with open(self.place + name, "wb"):
                pass
        done = self.take({b"1": linux.IMMUTABLE, b"b": linux.ATTRIBUTES, b"l\nf": linux.APPEND_ONLY, b"back\\s": linux.IMMUTABLE, b"2": linux.UNKNOWN})
        self.assertEqual(self.marks(), [b"immutable a/1", b"immutable b", b"append-only b", b"immutable back\\\\s", b"append-only l\\012f"])
        self.assertEqual(self.counted()[:6], [b"marks 5", b"immutable 3", b"append-only 2", b"on-read-only 0", b"on-noexec 0",
                                              b"attributes-unknown 1"])
        self.assertIn(b"warning: immutable files, which nobody can write whatever their ACLs say (see marks): 3, first: " + self.place + b"a/1\n",
                      done.messages)
        self.assertIn(b"warning: append-only files, of which nobody can change what they have (see marks): 2, first: " + self.place + b"b\n",
                      done.messages)
        self.assertIn(b"warning: files whose file systems do not say whether they are immutable: 1, first: " + self.place + b"a/2\n", done.messages)
        self.assertNotIn(b"see marks", self.snapshot("--quiet", "new", "tree").messages)

    def test_mounts(self) -> None:
        """A line is where a file is mounted otherwise than what it is in; a FIFO can be written on a read-only file system too."""
        os.mkdir(self.path("tree/a/deep"))
        os.mkfifo(self.path("tree/a/fifo"))
        self.write("tree/a/deep/3", b"")
        done = self.take({b"/tree/a": b"ro,noexec", b"/tree/a/deep": b"rw", b"/tree/b": b"unknown"})
        self.assertEqual(self.marks(), [b"ro,noexec a/", b"rw a/deep/", b"rw a/fifo", b"unknown b"])
        self.assertEqual(self.counted()[:5], [b"marks 4", b"immutable 0", b"append-only 0", b"on-read-only 3", b"on-noexec 3"])
        self.assertIn(b"files on read-only file systems, which nobody can write whatever their ACLs say (see marks): 3, first: " + self.place
                      + b"a/\n", done.messages)
        self.assertIn(b"files on noexec file systems, which nobody can run (see marks): 3, first: " + self.place + b"a/\n", done.messages)
        self.take({b"/tree": b"ro", b"/tree/a": b"ro"})
        self.assertEqual(self.marks(), [b"ro ", b"rw a/fifo"])

    def test_parts(self) -> None:
        """Each part has what is above its files."""
        above = self.place.count(b"/") - 1
        self.take({b"/tree": b"ro", b"2": linux.IMMUTABLE}, "--split", str(above + 3))
        parts = sorted(os.listdir(self.path("new")))
        self.assertEqual([self.marks("new/%s/marks" % part)[0] for part in parts], [b"ro "] * len(parts))
        self.assertEqual([line for part in parts for line in self.marks("new/%s/marks" % part)[1:]], [b"immutable a/2"])

    def test_other_lists(self) -> None:
        done = self.take({b"1?": ["security.NTACL", "user.x"], b"2?": ["system.nfs4_acl"], b"b?": ["system.nfs4_acl_xdr", "system.nfs4_acl"]})
        self.assertEqual(self.counted()[6:], [b"nfs4-list 2", b"rich-list 0", b"samba-list 1"])
        self.assertIn(b"files with an NFSv4 ACL (system.nfs4_acl), which facl does not judge: 2, first: " + self.place + b"a/2\n", done.messages)
        self.assertIn(b"files with an ACL of Samba (security.NTACL), which Samba checks too, and facl does not: 1, first: ", done.messages)


class ReadOnly(unittest.TestCase):
    def word(self, system: int, number: int) -> bytes:
        """The word of a mount of this kind of file system, where access(2) fails with this number."""
        def access(_name: bytes, _request: int) -> int:
            ctypes.set_errno(number)
            return -1 if number else 0
        with mock.patch.object(linux, "LIBRARY", types.SimpleNamespace(access=access)), \
                mock.patch.object(linux, "file_system_of", lambda descriptor: system), open(os.devnull, "rb") as file:
            return beside.word_of(file.fileno()).partition(b",")[0]

    def test_subvolumes(self) -> None:
        """A subvolume of btrfs can be read-only on a mount that is not; others are not asked."""
        for system, number, word in ((linux.BTRFS, errno.EROFS, b"ro"), (linux.BTRFS, errno.EACCES, b"rw"), (linux.BTRFS, 0, b"rw"),
                                     (linux.FUSE, errno.EROFS, b"rw")):
            self.assertEqual(self.word(system, number), word, (system, number))


class ReadMarks(unittest.TestCase):
    def test_mounts_and_attributes(self) -> None:
        marks = Marks([b"ro /", b"rw,noexec /srv/", b"ro,noexec /srv/a\\012b/c/", b"immutable /srv/a\\012b/c/d", b"append-only /srv/a\\012b/c/d",
                       b"immutable /srv/a\\012b/c/d", b"sealed /srv/x", b"unknown /net/"])
        found = {path: marks.of(path) for path in (b"", b"etc/x", b"srv", b"srv/a\nb", b"srv/a\nb/c", b"srv/a\nb/c/d", b"srv/x", b"net/y")}
        self.assertEqual(found, {
            b"": [beside.READ_ONLY], b"etc/x": [beside.READ_ONLY], b"srv": [beside.NOEXEC], b"srv/a\nb": [beside.NOEXEC],
            b"srv/a\nb/c": [beside.READ_ONLY, beside.NOEXEC], b"srv/x": [beside.NOEXEC], b"net/y": [],
            b"srv/a\nb/c/d": [beside.IMMUTABLE, beside.APPEND_ONLY, beside.READ_ONLY, beside.NOEXEC]})
        self.assertEqual(marks.mounted(beside.READ_ONLY, [b"srv"]), [b"srv/a\nb/c"])
        self.assertEqual(marks.mounted(beside.READ_ONLY, [b"etc", b"srv/x"]), [b"etc"])
        self.assertEqual(Marks().of(b"srv"), [])

    def test_what_keeps_files(self) -> None:
        """chattr(1), and unlink(2): a name goes where neither the file nor the folder is immutable or append-only."""
        marks = Marks([b"immutable /i/", b"append-only /a/", b"immutable /p/i", b"append-only /p/a", b"ro /r/"])
        why = {path: marks.keeps_name(path) for path in (b"i", b"i/x", b"a/x", b"p/i", b"p/a", b"p/x", b"r/x")}
        self.assertEqual(why, {
            b"i": b"it is immutable", b"i/x": b"the folder above is immutable", b"a/x": b"the folder above is append-only",
            b"p/i": b"it is immutable", b"p/a": b"it is append-only", b"p/x": None, b"r/x": b"the folder above is on a read-only file system"})
        self.assertEqual([marks.keeps_out(path) for path in (b"i", b"a", b"p", b"r")],
                         [b"immutable", None, None, b"on a read-only file system"])
        changes = ChangedPaths([b"i/x", b"p/a", b"p/i", b"r/x"], [b"a/new", b"i/new"], [b"a/x", b"p/x"])
        self.assertEqual(obstacles(marks, changes), {
            b"p/a": b"it is append-only", b"p/i": b"it is immutable", b"r/x": b"it is on a read-only file system",
            b"i/new": b"the folder above is immutable", b"a/x": b"the folder above is append-only"})


class MarkedCase(Case):
    """Over the snapshot `project`, of which test_who.py has the answers without marks: ines may write project, README, drafts,
    logo.svg and notes.txt, ben audit, mara project, drafts, and all in it."""

    def setUp(self) -> None:
        super().setUp()
        shutil.copytree(os.path.join(HERE, "snapshots", "project"), self.path("project"))

    def mark(self, *lines: str) -> None:
        self.write("project/marks", "".join(line + "\n" for line in lines).encode())

    def mark_some(self) -> None:
        self.mark(f"immutable {SRV}/", f"immutable {README}", f"ro {SRV}/drafts/old/", f"append-only {SRV}/drafts/logo.svg")

    def who(self, *words: str) -> Done:
        return self.run_command("facl-who", list(words))

    def read_json(self, command: str, *words: str, status: int = 0) -> Dict[str, Any]:
        done = self.run_command(command, ["--json", *words])
        self.assertEqual((done.status, done.messages), (status, b""))
        found: Dict[str, Any] = json.loads(done.out)
        return found


class Who(MarkedCase):
    def test_who_can_write(self) -> None:
        self.mark_some()
        self.expect(self.who("write", "project"), 0, (
            b"USER  WRITE  FIRST WRITE          WRITE BY\n"
            b"ines      3  /srv/project/drafts  group design\n"  # And logo.svg and notes.txt.
            b"ben       1  /srv/project/audit   group audit\n"
            b"mara      2  /srv/project/drafts  owner\n"), LEFT_OUT + b"2 immutable files, 2 files on read-only file systems; --lists-alone shows them\n")
        alone = self.who("--lists-alone", "write", "project")
        self.mark()
        self.assertEqual(self.who("write", "project"), alone)
        self.assertEqual(alone.messages, b"")

    def test_reading_is_as_before(self) -> None:
        before, rows = self.who("--tsv", "read,enter", "project"), self.who("--tsv", "read,write", "project").out.split(b"\n")
        self.mark_some()
        self.assertEqual(self.who("--tsv", "read,enter", "project"), before)
        marked = self.who("--tsv", "write,read,rw", "project").out.split(b"\n")
        self.assertEqual([row.split(b"\t")[4:7] for row in marked], [row.split(b"\t")[1:4] for row in rows])

    def test_one_file(self) -> None:
        self.mark_some()
        self.expect(self.who("write", "project", README), 1, (
            b"nobody may write anything at or below /srv/project/README\n/srv/project/README: immutable: nobody can write it\n"),
            LEFT_OUT + b"1 immutable file; --lists-alone shows them\n")
        self.assertEqual(self.who("--tsv", "read,write", "project", README).out.splitlines()[1:], [
            b"ines\t1\t/srv/project/README\towner\t0\t\t", b"ben\t1\t/srv/project/README\tgroup staff\t0\t\t",
            b"mara\t1\t/srv/project/README\tgroup staff\t0\t\t"])
        done = self.who("write", "project", SRV + "/drafts/logo.svg", SRV + "/drafts/old")
        self.expect(done, 0, (
            b"USER  WRITE  FIRST WRITE                   WRITE BY\n"
            b"ines      1  /srv/project/drafts/logo.svg  group design\n"
            b"mara      1  /srv/project/drafts/logo.svg  owner\n"
            b"/srv/project/drafts/logo.svg: append-only: nobody can change what it has\n"
            b"/srv/project/drafts/old: read-only file system: nobody can write it\n"),
            LEFT_OUT + b"2 files on read-only file systems; --lists-alone shows them\n")

    def test_a_part_of_a_read_only_tree(self) -> None:
        """Read-only are project, README, audit, notes.txt and report."""
        self.mark(f"ro {SRV}/", f"rw {SRV}/drafts/")
        done = self.who("--tsv", "write", "project")
        self.assertEqual((done.out.splitlines()[1:], done.messages), ([
            b"ines\t2\t/srv/project/drafts\tgroup design", b"mara\t4\t/srv/project/drafts\towner"],
            LEFT_OUT + b"5 files on read-only file systems; --lists-alone shows them\n"))
        self.assertEqual(self.who("write", "project", SRV + "/audit").messages, LEFT_OUT + b"1 file on a read-only file system; --lists-alone shows them\n")
        self.assertEqual(self.who("write", "project", SRV + "/drafts").messages, b"")

    def test_one_user(self) -> None:
        self.mark_some()
        self.expect(self.who("--user", "mara", "project"), 0, (
            b"FOLDER                   HERE  HIGHEST  READ  WRITE  ENTER  FILES\n"
            b"/srv/project             r-x   write       7      2      3      9\n"
            b"/srv/project/drafts      rwx   write       4      2      2      4\n"
            b"/srv/project/drafts/old  r-x   read        2      0      1      2\n"),
            LEFT_OUT + b"2 immutable files, 2 files on read-only file systems; --lists-alone shows them\n")

    def test_removing(self) -> None:
        self.mark_some()
        old = b"/srv/project/drafts/old"
        for name, out in ((SRV + "/notes.txt", b"nobody may remove /srv/project/notes.txt, since the folder above is immutable\n"),
                          (SRV + "/drafts/logo.svg", b"nobody may remove /srv/project/drafts/logo.svg, since it is append-only\n"
                           b"/srv/project/drafts/logo.svg: append-only: nobody can change what it has\n"),
                          (SRV + "/drafts/old/logo 1.svg", b"nobody may remove " + old + b"/logo 1.svg, since the folder above is on a read-only "
                           b"file system\n" + old + b"/logo 1.svg: read-only file system: nobody can write it\n")):
            self.expect(self.who("--remove", name, "project"), 1, out)
        self.expect(self.who("--lists-alone", "--remove", SRV + "/notes.txt", "project"), 0, b"USER  BY\nines  owner\nmara  user:mara:rwx\n")

    def test_new_files(self) -> None:
        self.mark_some()
        self.expect(self.who("--new-file", SRV, "mara", "project"), 1, (
            b"mara may make no file in /srv/project, since it is immutable\n/srv/project: immutable: nobody can write it\n"))
        self.assertEqual(self.who("--new-file", SRV + "/drafts", "mara", "project").status, 0)
        self.mark(f"append-only {SRV}/")
        self.assertEqual(self.who("--new-file", SRV, "mara", "project").status, 0)

    def test_execution(self) -> None:
        self.mark(f"rw,noexec {SRV}/drafts/")
        note = b"facl-who: on a noexec file system, where x of a file grants no execution: /srv/project/drafts\n"
        self.assertEqual([self.who(*words).messages for words in (["enter", "project"], ["read", "project"], ["--user", "mara", "project"],
                                                                  ["rwx", "project", SRV + "/audit"], ["--lists-alone", "enter", "project"])],
                         [note, b"", note, b"", b""])
        self.assertTrue(self.who("enter", "project", SRV + "/drafts/old").out.endswith(
            b"/srv/project/drafts/old: noexec file system: x of a file grants no execution\n"))

    def test_json(self) -> None:
        self.mark_some()
        found = self.read_json("facl-who", "write", "project", SRV, README, SRV + "/audit")
        self.assertEqual(found["marked"], [{"path": SRV, "marks": ["immutable"]}, {"path": README, "marks": ["immutable"]}])
        self.assertEqual(found["unwritable"], {"immutable": 2, "on-read-only": 2})
        self.assertEqual(self.read_json("facl-who", "read", "project")["unwritable"], {})
        self.assertEqual(self.read_json("facl-who", "--remove", SRV + "/notes.txt", "project", status=1)["since"], "the folder above is immutable")
        self.assertEqual(self.read_json("facl-who", "--new-file", SRV, "mara", "project", status=1)["since"], "it is immutable")

    def test_what_is_not_known(self) -> None:
        """By a snapshot of an earlier facl."""
        before = self.who("write", "project").out
        os.unlink(self.path("project/marks"))
        self.expect(self.who("write", "project"), 0, before, b"facl-who: project: immutable files and read-only file systems are not known\n")
        self.mark_some()
        self.write("project/meta", self.read("project/meta") + b"marks 5\nattributes-unknown 2\nnfs4-list 3\nsamba-list 1\nrich-list 0\n")
        self.assertEqual(self.who("read", "project").messages, (
            b"facl-who: warning: project/marks: has 4 lines, but facl snapshot recorded 5\n"
            b"facl-who: project: files whose file systems do not say whether they are immutable: 2\n"
            b"facl-who: project: files with ACLs that facl does not judge: NFSv4: 3, Samba: 1\n"))


class ByListsAlone(MarkedCase):
    """What the other commands say, whose answers are those of the program."""

    SAID = b"project: 2 immutable files, 1 append-only file, 1 read-only file system: judged by ACLs alone, which grant there what nobody can do\n"

    def test_answers(self) -> None:
        script = b"who w srv/project/README\nwhy mara srv/project/README\n"
        before = self.run_command("facl-ask", ["project"], script)
        self.mark_some()
        self.expect(self.run_command("facl-ask", ["project"], script), 0, before.out, b"facl-ask: " + self.SAID)
        self.write("rules", b"only ines mara write srv/project/README\n")
        for command, words in (("facl-audit", ["--fail-on", "none", "project"]), ("facl-check", ["project", "rules"])):
            self.assertIn(command.encode() + b": " + self.SAID, self.run_command(command, words).messages)
        self.assertNotIn(self.SAID, self.run_command("facl-check", ["--quiet", "project", "rules"]).messages)

    def test_a_person_sees_marks(self) -> None:
        self.mark_some()
        self.write("edits", b"why --reach mara srv/project/README\n")
        lines = self.at_terminal("facl-ask", ["project", "edits"]).out.splitlines()
        heads = [line for line in lines if line.startswith(b"# file: ")]
        self.assertEqual(heads[-2:], [b"# file: srv/project    <-- immutable: nobody can write it",
                                      b"# file: srv/project/README    <-- immutable: nobody can write it"])
        self.write("edits", b"why mara 'srv/project/drafts/logo.svg'\n")
        self.assertEqual(self.at_terminal("facl-ask", ["project", "edits"]).out.splitlines()[0],
                         b"# file: srv/project/drafts/logo.svg    <-- append-only: nobody can change what it has")

    def test_two_snapshots(self) -> None:
        """Of the earlier one it is said where that has other marks."""
        shutil.copytree(self.path("project"), self.path("later"))
        self.mark_some()
        old, new = b"facl-diff: " + self.SAID, b"facl-diff: " + self.SAID.replace(b"project: ", b"later: ")
        for text, said in ((self.read("project/marks"), new), (b"immutable /srv\n", old + b"facl-diff: later: 1 immutable file: judged by ACLs "
                                                               b"alone, which grant there what nobody can do\n")):
            self.write("later/marks", text)
            found = self.run_command("facl-diff", ["project", "later"]).messages.splitlines(True)
            self.assertEqual(b"".join(line for line in found if b": not in the rows of who gained " not in line), said)
            self.assertEqual(len(found) - said.count(b"\n"), 0 if said is new else 4)

    def test_several_snapshots(self) -> None:
        self.mark_some()
        for words in (["--each", "project"], ["--hosts", "localhost:project"]):
            said = self.SAID.partition(b": ")[2]
            self.assertIn(said, self.run_command("facl-ask", words, b"who w srv/project/README\n").messages)


class OnPages(MarkedCase):
    def page(self, *words: str, command: str = "facl-report") -> Dict[str, Any]:
        done = self.run_command(command, ["project", *words])
        self.assertEqual((done.status, done.messages), (0, b""))
        self.write("page.html", done.out)
        return read_data(done.out)

    def named(self, data: Dict[str, Any], key: str) -> Dict[str, List[str]]:
        return {data["files"]["names"][int(place)]: texts for place, texts in data[key].items()}

    def test_data(self) -> None:
        self.assertEqual([self.page()[key] for key in ("marks", "mounts", "beside", "unknown")], [{}, {}, [], []])
        self.mark_some()
        self.write("edits", b"creat --user=mara --mode=0600 srv/project/drafts/about\n")
        for script in ("", "edits"):  # A new file has another place.
            data = self.page(*filter(None, [script]))
            self.assertEqual(self.named(data, "marks"), {
                "project": ["immutable: nobody can write it"], "README": ["immutable: nobody can write it"],
                "logo.svg": ["append-only: nobody can change what it has"]})
            self.assertEqual(self.named(data, "mounts"), {"old": ["read-only file system: nobody can write it"]})
            self.assertEqual(data["beside"], ["2 immutable files, 1 append-only file, 1 read-only file system: judged by ACLs alone, which grant "
                                              "there what nobody can do"])

    def test_other_pages(self) -> None:
        """That of two snapshots has the marks of the later one, and that of a folder says how many there are."""
        self.mark_some()
        shutil.copytree(self.path("project"), self.path("later"))
        self.write("later/meta", self.read("later/meta") + b"nfs4-list 3\n")
        self.mark(f"immutable {SRV}/drafts/")
        self.run_command("facl-diff", ["--page", "two.html", "project", "later"])
        data = read_data(self.read("two.html"))
        self.assertEqual(sorted(self.named(data, "marks")), ["README", "logo.svg", "project"])
        beside = ("2 immutable files, 1 append-only file, 1 read-only file system: judged by ACLs alone, which grant there what nobody can do",
                  "files with ACLs that facl does not judge: NFSv4: 3")
        self.assertEqual((*data["beside"], *data["unknown"]), beside)
        data = data_in(self.run_command("facl-report", ["--for-review", "--folder", SRV, "later"]).out)
        self.assertEqual(dict(data["facts"])["beside lists"], "; ".join(beside))

    @unittest.skipUnless(shutil.which("node"), "without node, which is not installed")
    def test_what_is_shown(self) -> None:
        self.mark_some()
        self.page()
        shown = {}
        for name in ("README", "logo 1.svg", "notes"):
            words = ["node", os.path.join(HERE, "page.js"), self.path("page.html"), name]
            shown[name] = json.loads(subprocess.run(words, capture_output=True, check=True, timeout=60).stdout)["marks"]
        self.assertEqual(shown, {"README": ["immutable", "immutable: nobody can write it"],
                                 "logo 1.svg": ["", "read-only file system: nobody can write it"], "notes": [""]})


class Planned(MarkedCase):
    def test_what_cannot_be_changed(self) -> None:
        self.mark_some()
        self.write("edits", b"setfacl -m u:guest:r srv/project/README srv/project/notes.txt\nrm 'srv/project/drafts/old/logo 1.svg'\n")
        done = self.run_command("facl-plan", ["--plan", "plan", "project", "edits"])
        self.assertEqual((done.status, done.messages), (0, b"facl-plan: " + ByListsAlone.SAID + (
            b"facl-plan: warning: files that nobody can change, so facl apply will change none: 1, first: /srv/project/README, since it is "
            b"immutable\nfacl-plan: warning: files that nobody can make or remove, so by_hand will not: 1, first: /srv/project/drafts/old/logo "
            b"1.svg, since the folder above is on a read-only file system\n")))
        self.assertTrue(os.path.exists(self.path("plan/files")))
        done = self.run_command("facl-plan", ["--json", "--plan", "other", "project", "edits"])
        self.assertEqual(json.loads(done.out)["stuck"], [
            {"path": README, "why": "it is immutable"},
            {"path": SRV + "/drafts/old/logo 1.svg", "why": "the folder above is on a read-only file system"}])
        self.mark()
        self.assertEqual(self.run_command("facl-plan", ["--plan", "third", "project", "edits"]).messages, b"")
        self.write("project/meta", self.read("project/meta") + b"nfs4-list 3\n")
        self.assertEqual(self.run_command("facl-plan", ["--plan", "fourth", "project", "edits"]).messages,
                         b"facl-plan: project: files with ACLs that facl does not judge: NFSv4: 3\n")


# Code that is added to live.py: one name is that of a file with an attribute.
ATTRIBUTE = """
of_system, given = linux.statx, %d
def statx(descriptor: int, name: bytes = b"", *words: int) -> object:
    known, attributes, *others = of_system(descriptor, name, *words)
    if name == b"fixed":
        attributes, others[3] = given, 0 if given == linux.UNKNOWN else linux.ATTRIBUTES
    return (known, attributes, *others)
linux.statx = statx
"""


class Applied(RealCase):
    def with_attribute(self, attribute: int, *options: str) -> Done:
        """Runs a copy of facl-apply in which the file `fixed` has an attribute."""
        place = self.path("commands")
        shutil.rmtree(place, ignore_errors=True)
        shutil.copytree(os.path.join(COMMANDS, "facl_commands"), os.path.join(place, "facl_commands"))
        shutil.copy(os.path.join(COMMANDS, "facl-apply"), place)
        with open(os.path.join(place, "facl_commands", "base", "live.py"), "a", encoding="utf-8") as file:
            file.write(ATTRIBUTE % attribute)
        done = subprocess.run([sys.executable, "-I", os.path.join(place, "facl-apply"), *options, "before.plan"], cwd=self.folder,
                              capture_output=True, check=False)
        return Done(done.returncode, done.stdout, done.stderr)

    def test_what_nobody_can_change(self) -> None:
        """It is named before anything is touched; a plan is taken back all the same, as far as it goes."""
        for name in ("fixed", "other"):
            self.make(name)
        self.planned(b"chmod 600 " + self.word("fixed") + b" " + self.word("other"))
        for attribute, said in ((linux.IMMUTABLE, b"is immutable, so nobody can change it; run chattr -i first"),
                                (linux.APPEND_ONLY, b"is append-only, so nobody can change its owner, mode and ACL; run chattr -a first")):
            self.expect(self.with_attribute(attribute), 2, b"",
                        b"facl-apply: " + self.live("fixed") + b": " + said + b"\nfacl-apply: nothing was changed\n")
            self.assertEqual((self.mode("fixed"), self.mode("other")), (0o640, 0o640))
        self.expect(self.with_attribute(linux.UNKNOWN), 0, b"changed 2 files\n")
        self.expect(self.with_attribute(linux.IMMUTABLE, "--undo"), 0, b"restored 2 files\n")


if __name__ == "__main__":
    unittest.main()
