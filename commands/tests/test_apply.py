"""facl-apply over real files whose lists are those of their modes, which needs neither root nor a file system with lists."""
from __future__ import annotations

import contextlib
import itertools
import json
import os
import resource
import shutil
import signal
import socket
import stat
import subprocess
import sys
import unittest
import unittest.mock
from functools import partial
from typing import Any, Callable, Dict, List, Set

from common import COMMANDS, Case, Done
from real import RealCase

from facl_commands.apply import carrying, changing, direction, survey
from facl_commands.apply import command as apply
from facl_commands.base import acl_bytes, live, names
from facl_commands.base.linux import Identity
from facl_commands.base.messages import SIGNALS, Command, Failure
from facl_commands.planned import by_hand, differences, plan_files, plan_folder
from facl_commands.planned.plan_folder import PlanFolder


VERSION, USER, GROUP, OTHER = "02000000", "01000600ffffffff", "04000400ffffffff", "20000400ffffffff"
NAMED, MASK = "0200040069040000", "10000400ffffffff"
LIST = VERSION + USER + GROUP + OTHER
NO_LISTS = {
    "no others": USER + GROUP, "an owner's entry twice": USER + USER + GROUP + OTHER, "another order": GROUP + USER + OTHER,
    "a named user without a mask": USER + NAMED + GROUP + OTHER, "no such tag": USER + GROUP + "40000400ffffffff" + OTHER,
    "permissions of eight": "01000800ffffffff" + GROUP + OTHER, "half an entry": USER + GROUP + OTHER[:-8],
    "an entry of nobody": USER + "02000400ffffffff" + GROUP + MASK + OTHER,
}


class Plans(Case):
    """Plans that are not taken."""

    def setUp(self) -> None:
        super().setUp()
        self.assertEqual(self.plan(b"chmod 600 srv/share/one\n").status, 0)

    def apply(self, *words: str) -> Done:
        return self.run_command("facl-apply", list(words))

    def refused(self, text: str) -> None:
        """A plan that is not taken, at once and with a message."""
        done = self.apply("before.plan")
        self.assertEqual(done.status, 2, done)
        self.assertRegex(done.messages.decode(), text)
        self.assertNotIn(b"Traceback", done.messages)

    def test_a_state_that_facl_apply_did_not_write(self) -> None:
        """What is done is not known, so nothing was changed."""
        for text in (b"", b"applying", b"undone in part", b"done\n", b"applied\napplied\n"):
            self.write("before.plan/state", text)
            os.chmod(self.path("before.plan/state"), 0o600)
            self.refused("/state: is not what facl apply wrote, so it is not known what was done: compare the files with old and new of "
                         "the plan, and make another plan")
        os.unlink(self.path("before.plan/state"))

    def test_a_file_that_is_too_large(self) -> None:
        for name in ("files", "plan", "state", "journal", "meta", "by_hand", "by_hand_done"):
            place = self.path("before.plan/" + name)
            kept = self.path("kept")
            was_there = os.path.exists(place)
            if was_there:
                os.rename(place, kept)
            with open(place, "wb") as file:
                os.fchmod(file.fileno(), 0o600)
                file.truncate(9 << 30)
            if name != "journal":  # Which is read where there is a state.
                self.refused("/%s: has more than 1024 MiB, which is too large" % name)
            os.unlink(place)
            if was_there:
                os.rename(kept, place)

    def test_marks_that_others_can_open_or_that_have_another_name(self) -> None:
        for name in ("lock", "by_hand_done", "state"):
            place = self.path("before.plan/" + name)
            if not os.path.exists(place):
                self.write("before.plan/" + name, b"undone\n")
            os.chmod(place, 0o640)
            self.refused("/%s: has the mode 0640 in place of 0600, so it is not trusted" % name)
            os.chmod(place, 0o600)
            os.link(place, self.path("other name"))
            self.refused("/%s: has another name too, so it is not trusted" % name)
            os.unlink(self.path("other name"))
            os.rename(place, self.path("kept"))
            os.mkfifo(place, 0o600)
            self.refused("/%s: is not a regular file, so it is not trusted" % name)
            os.unlink(place)
            os.rename(self.path("kept"), place)

    def test_a_plan_has_empty_notes_of_its_owner_alone(self) -> None:
        look = os.stat(self.path("before.plan/by_hand_done"))
        self.assertEqual((look.st_size, look.st_mode & 0o7777), (0, 0o600))
        self.assertEqual(self.plan(b"chmod 644 srv/share/one\n").status, 0)
        self.assertFalse(os.path.exists(self.path("before.plan.1")))  # Empty notes keep no plan.
        self.write("before.plan/by_hand_done", b"1 begun\n")
        self.assertEqual(self.plan(b"chmod 600 srv/share/one\n").status, 0)
        self.assertTrue(os.path.exists(self.path("before.plan.1")))

    def test_lists_of_the_folder_above_are_not_in_a_plan(self) -> None:
        entries = {(1, acl_bytes.NO_ID): 7, (2, 70001): 7, (4, acl_bytes.NO_ID): 5, (16, acl_bytes.NO_ID): 7, (32, acl_bytes.NO_ID): 5}
        try:
            os.setxattr(self.folder, acl_bytes.DEFAULT, acl_bytes.bytes_of(entries))
        except OSError:
            self.skipTest("no lists here")
        no_options: List[str] = []
        for options in (no_options, ["--readers", str(os.getegid())]):
            self.assertEqual(self.plan(b"chmod 600 srv/share/one\n", *options, "--plan", "new.plan").status, 0)
            for name in [".", *os.listdir(self.path("new.plan"))]:
                place = os.path.join(self.path("new.plan"), name)
                found = [it for it in os.listxattr(place) if "acl" in it]
                is_mark = name in ("lock", "by_hand_done") or not options
                wanted = (0o700 if not options else 0o750) if name == "." else 0o600 if is_mark else 0o640
                self.assertEqual((found, os.stat(place).st_mode & 0o777), ([], wanted), name)
            shutil.rmtree(self.path("new.plan"))

    def expect_unusable(self, message: bytes, *words: str) -> None:
        self.expect(self.apply(*words), 2, b"", b"facl-apply: " + message + b"\n")

    def whole(self, name: str) -> bytes:
        return os.fsencode(os.path.join(os.path.realpath(self.folder), name))

    def test_no_plan(self) -> None:
        self.expect_unusable(self.whole("before") + b": is not a plan; make one with facl plan", "before")
        self.expect_unusable(self.whole("absent") + b": is not a plan; make one with facl plan", "absent")

    def test_another_version(self) -> None:
        self.write("before.plan/plan", b"facl-plan 1\n")
        self.expect_unusable(self.whole("before.plan") + b": is a plan of another version of facl; make it again with facl plan", "before.plan")

    def test_damaged_files(self) -> None:
        text = self.read("before.plan/files")
        fields = json.loads(text)
        changes: Dict[str, Callable[[], object]] = {
            "a path twice": lambda: fields["files"].append(fields["files"][0]),
            "a way out": lambda: fields["files"][0].__setitem__(0, "srv/../etc/shadow"),
            "no such record": lambda: fields["files"][0].__setitem__(6, 77),
            "too few fields": lambda: fields["files"][0].pop(),
            "a record from the end": lambda: fields["files"][0].__setitem__(6, -1),
            "a default list of a file": lambda: fields["records"][1].__setitem__(4, LIST),
            "no owner": lambda: fields["records"][1].__setitem__(0, acl_bytes.NO_ID),
            "a negative group": lambda: fields["records"][1].__setitem__(1, -1),
            "other bits than flags": lambda: fields["records"][1].__setitem__(2, 0o7),
            "a file that does not change": lambda: fields["files"][0].__setitem__(7, fields["files"][0][6]),
            "files that are no list": lambda: fields.__setitem__("files", {}),
            "no start of the system": lambda: fields.__setitem__("boot", None),
        }

        def put_list(entries: str) -> None:
            fields["records"][1][3] = VERSION + entries

        changes.update({what: partial(put_list, entries) for what, entries in NO_LISTS.items()})
        damaged = [text[:-10], b"", b"[]\n"]
        for change in changes.values():
            fields = json.loads(text)
            change()
            damaged.append(json.dumps(fields).encode())
        for it in damaged:
            self.write("before.plan/files", it)
            self.expect_unusable(self.whole("before.plan/files") + b": is not what facl plan wrote; make the plan again", "before.plan")
        os.unlink(self.path("before.plan/files"))
        os.mkdir(self.path("before.plan/files"), 0o700)
        self.expect_unusable(self.whole("before.plan/files") + b": is not a regular file, so it is not trusted", "before.plan")
        os.rmdir(self.path("before.plan/files"))
        self.expect_unusable(self.whole("before.plan/files") + b": No such file or directory", "before.plan")

    def test_values_that_no_plan_has(self) -> None:
        """Deep nesting, long numbers and other types, for each reader of JSON."""
        deep, row = 100_000, '["a",1,2,3,0,0,1]'
        values = ["[" * deep + "]" * deep, '{"a":' * deep + "1" + "}" * deep, "1" + "0" * 100_000, "1e999", "NaN", "-Infinity", "null",
                  "true", '"\\ud800"', '"a\\u0000b"', "[]", "{}", "[[]]", '[{"a":1}]', "[%s,%s]" % (row, row), "9" * 400, '"\u2603"']
        text = self.read("before.plan/files").decode()
        fields = json.loads(text)
        journal = json.dumps({"boot": "-", "files": [["a", 1, 2, 3]]})
        for value in values:
            work = [value, '{"boot":"","files":[],"records":%s}' % value, '{"boot":"","files":%s,"records":[]}' % value]
            for name in ("0", "1", "2", "6", "7"):
                other = json.loads(text)
                other["files"][0][int(name)] = "@"
                work.append(json.dumps(other).replace('"@"', value))
            for it in work:
                self.read_or_fail(plan_files.read_work, it)
            for it in (value, '{"boot":"","files":%s}' % value, journal.replace('"a"', value), journal.replace("1", value)):
                self.read_or_fail(plan_files.read_journal, it)
        self.assertEqual(list(plan_files.read_work(b"files", text.encode()).files), [it[0].encode() for it in fields["files"]])

    def test_the_journal_is_json(self) -> None:
        several: List[Dict[bytes, Identity]] = [{}, {
            b"": Identity(1, 2, 3), b"a": Identity(0, 1 << 63, -7), b'a/\xe9 "x\\\n\x00,': Identity(9, 8, 7)}]
        for files in several:
            text = plan_files.journal_text("boot", files)
            rows = [[path.decode("latin-1"), *its] for path, its in files.items()]
            self.assertEqual(text, json.dumps({"boot": "boot", "files": rows}, separators=(",", ":")).encode() + b"\n")
            self.assertEqual(plan_files.read_journal(b"journal", text), plan_files.Journal("boot", files))

    def test_paths_of_a_plan(self) -> None:
        """In path order, each once, and without components that are empty or lead elsewhere."""
        several: List[List[bytes]] = [[], [b""], [b"a"], [b"", b"a", b"a/b", b"a-b"], [b"\n", b"..a/.b/c."]]
        self.assertTrue(all(map(plan_files.are_in_order, several)))
        for path in (b"/a", b"a/", b"a//b", b".", b"..", b"a/./b", b"a/..", b"\0", b"a\0b"):
            self.assertFalse(plan_files.is_path(path) or plan_files.are_in_order([b"", path]), path)
        self.assertFalse(plan_files.are_in_order([b"a", b"a"]) or plan_files.are_in_order([b"a", b""]))

    def read_or_fail(self, read: Callable[[bytes, bytes], object], text: str) -> None:
        """Reads a text; a fault in it has a message."""
        with contextlib.suppress(Failure):
            read(b"the file", text.encode())

    def test_other_kinds_of_files(self) -> None:
        place, kept = self.path("before.plan/files"), self.path("kept")
        os.rename(place, kept)

        def bind() -> None:
            with socket.socket(socket.AF_UNIX) as made:
                made.bind(place)

        makers: Dict[str, Callable[[], object]] = {
            "is not a regular file, so it is not trusted": lambda: os.mkfifo(place, 0o600),
            "Too many levels of symbolic links": lambda: os.symlink(kept, place),
            "No such device or address": bind,
        }
        if os.geteuid() == 0:
            makers["is not a regular file"] = lambda: os.mknod(place, stat.S_IFCHR | 0o600, os.makedev(1, 5))
        for text, make in makers.items():
            make()
            self.refused("/files: " + text)
            os.unlink(place)

    def test_memory_runs_out(self) -> None:
        with open(self.path("before.plan/files"), "wb") as file:
            file.truncate(400 << 20)
        words = [sys.executable, "-I", os.path.join(COMMANDS, "facl-apply"), "before.plan"]
        limit = partial(resource.setrlimit, resource.RLIMIT_AS, (300 << 20, 300 << 20))
        done = subprocess.run(words, cwd=self.folder, capture_output=True, check=False, preexec_fn=limit)
        self.assertEqual((done.returncode, done.stderr), (2, b"facl-apply: memory ran out\n"))

    def test_nothing_to_do(self) -> None:
        folder = self.whole("before.plan")
        self.expect(self.apply("--undo", "before.plan"), 3, b"", b"facl-apply: " + folder + b": was not applied; there is nothing to undo\n")
        self.write("before.plan/state", b"undone\n")
        os.chmod(self.path("before.plan/state"), 0o600)
        self.expect(self.apply("--undo", "before.plan"), 3, b"",
                    b"facl-apply: " + folder + b": was taken back already; there is nothing to undo\n")
        self.write("before.plan/state", b"applied\n")
        os.chmod(self.path("before.plan/state"), 0o600)
        self.expect(self.apply("before.plan"), 3, b"", b"facl-apply: " + folder + b": was applied already; facl undo takes it back\n")
        self.assertEqual(self.plan(b"gpasswd -a guest audit\n", "--plan", "other").status, 0)
        self.expect(self.apply("other"), 3, b"still to be done by hand: sh " + self.whole("other/by_hand") + b"\n",
                    b"facl-apply: " + self.whole("other") + b": changes no file\n")

    def test_by_hand(self) -> None:
        """It is named until all of it is done, and by_hand_undo as long as something of that is not taken back."""
        self.assertEqual(self.plan(b"gpasswd -a guest audit\nuserdel mara\n", "--plan", "other").status, 0)
        folder = PlanFolder(os.open(self.path("other"), os.O_RDONLY | os.O_DIRECTORY), b"other")
        for notes, is_left, is_to_take_back in (
            ("", True, False), ("1 begun\n", True, True), ("1 begun\n1 finished\n", True, True), ("1 found\n2 begun\n", True, False),
            ("1 found\n2 begun\n2 finished\n", False, False), ("1 begun\n1 finished\n2 finished\n", False, True),
            ("1 begun\n1 finished\n2 finished\n1 undone\n", True, False),
        ):
            self.write("other/by_hand_done", notes.encode())
            os.chmod(self.path("other/by_hand_done"), 0o600)
            self.assertEqual((by_hand.is_left(folder, False), by_hand.is_left(folder, True)), (is_left, is_to_take_back), notes)
        os.close(folder.descriptor)

    def test_by_hand_undo_does_not_hinder_the_way_back(self) -> None:
        os.unlink(self.path("before.plan/by_hand_undo"))
        os.mkdir(self.path("before.plan/by_hand_undo"), 0o700)
        done = self.apply("--undo", "before.plan")
        self.assertEqual((done.status, done.out), (3, self.whole("before.plan/by_hand_undo") + b": is not a regular file, so it is not trusted\n"))

    def test_files_that_are_not_there(self) -> None:
        done = self.apply("before.plan")
        folder = b"facl-apply: nothing was changed: 2 files are not as in the snapshot; make a new snapshot and a new plan\n"
        self.expect(done, 1, b"", b"facl-apply: /srv/share/one: is gone\nfacl-apply: /srv/share/two: is gone\n" + folder)
        self.assertFalse(os.path.exists(self.path("before.plan/state")))

    def test_words(self) -> None:
        done = self.apply("--leave-changed", "before.plan")
        self.assertEqual(done.status, 2)
        self.assertTrue(done.messages.endswith(b"facl-apply: error: --leave-changed is for --undo\n"), done.messages)


class Tree(RealCase):
    def setUp(self) -> None:
        super().setUp()
        for name in ("a", "b", "c"):
            self.make(name)
        self.make("d/", 0o755)
        self.make("d/e")

    def modes(self) -> Dict[str, int]:
        return {name: self.mode(name) for name in ("a", "b", "c", "d", "d/e")}


class ThereAndBack(Tree):
    def test_applied_and_undone(self) -> None:
        before = self.modes()
        self.planned(b"chmod 4711 " + self.word("a"), b"chmod 1777 " + self.word("d"), b"chmod 604 " + self.word("d/e"))
        done = self.apply("--dry-run")
        out = b"".join(b"would change %s: %s\n" % (self.live(name), what) for name, what in (
            ("a", b"flags, access ACL"), ("d", b"flags, access ACL"), ("d/e", b"access ACL")))
        self.expect(done, 0, out)
        self.assertEqual(self.modes(), before)
        self.expect(self.apply(), 0, b"changed 3 files\n")
        self.assertEqual(self.modes(), {**before, "a": 0o4711, "d": 0o1777, "d/e": 0o604})
        self.assertEqual(self.read("before.plan/state"), b"applied\n")
        self.expect(self.apply("--undo"), 0, b"restored 3 files\n")
        self.assertEqual(self.modes(), before)
        self.assertEqual(self.read("before.plan/state"), b"undone\n")

    @unittest.skipIf(os.geteuid() != 0, "takes root")
    def test_root_without_a_capability(self) -> None:
        """Linux would take set-group-ID away with a new mode (chmod(2)), and not give it back."""
        os.chown(os.path.join(self.tree, "d"), 0, 4711)
        os.chmod(os.path.join(self.tree, "d"), 0o2755)
        self.planned(b"chmod 2775 " + self.word("d"))
        command = os.path.join(COMMANDS, "facl-apply")
        done = subprocess.run(["setpriv", "--bounding-set=-fsetid", sys.executable, "-I", command, self.path("before.plan")],
                              capture_output=True, check=False)
        self.assertEqual((done.returncode, self.mode("d")), (2, 0o2755), done)
        self.assertIn(b"would lose set-group-ID, since you are not in its group: run it as root, with all capabilities", done.stderr)
        self.expect(self.apply(), 0, b"changed 1 file\n")

    def test_notes_that_cannot_be_read_do_not_hinder_the_way_back(self) -> None:
        """Whom by_hand removed is read before files get their old records, and said with what cannot be read after that."""
        before = self.modes()
        self.planned(b"chmod 600 " + self.word("a"))
        self.expect(self.apply(), 0, b"changed 1 file\n")
        os.chmod(self.path("before.plan/by_hand_done"), 0o640)
        self.expect(self.apply("--undo"), 0, b"restored 1 file\n" + os.fsencode(os.path.realpath(self.path("before.plan/by_hand_done"))) + (
            b": has the mode 0640 in place of 0600, so it is not trusted: look at it, and mend or remove it\n"))
        self.assertEqual(self.modes(), before)

    def test_a_changed_file(self) -> None:
        self.planned(b"chmod 600 " + self.word("a") + b" " + self.word("b"))
        os.chmod(os.path.join(self.tree, "b"), 0o644)
        before = self.modes()
        lines = [self.live("b") + b": was changed: access ACL", b"    other:: --- in the snapshot, r-- now",
                 b"nothing was changed: 1 file is not as in the snapshot; make a new snapshot and a new plan"]
        self.expect(self.apply(), 1, b"", b"".join(b"facl-apply: " + line + b"\n" for line in lines))
        self.assertEqual(self.modes(), before)

    def test_what_was_and_what_is(self) -> None:
        # getfacl(1) has the form of flags, acl(5) that of entries
        old = acl_bytes.Record(70001, 4, 0o1000, acl_bytes.minimal(0o640), b"")
        entries = {**acl_bytes.entries_of(acl_bytes.minimal(0o604)), (acl_bytes.USER, 70009): 6, (acl_bytes.MASK, acl_bytes.NO_ID): 7}
        new = acl_bytes.Record(0, 4, 0o6000, acl_bytes.bytes_of(entries), acl_bytes.minimal(0o700))
        self.assertEqual(differences.parts(old, new), b"owner, flags, access ACL, default ACL")
        self.assertEqual(list(differences.lines(old, new, b"before")), [
            b"owner: 70001 before, root now", b"flags: --t before, ss- now", b"user:70009: none before, rw- now",
            b"group:: r-- before, --- now", b"mask:: none before, rwx now", b"other:: --- before, r-- now",
            b"default:user:: none before, rwx now", b"default:group:: none before, --- now", b"default:other:: none before, --- now"])

    def expect_not_taken(self, what: bytes) -> None:
        done = self.apply()
        self.assertEqual((done.status, done.messages.splitlines()[0]), (1, b"facl-apply: " + self.live("a") + what))
        self.assertFalse(os.path.exists(self.path("before.plan/state")))

    def test_a_file_that_was_replaced_by_one_of_the_same_record(self) -> None:
        self.planned(b"chmod 600 " + self.word("a"))
        os.rename(self.make("other"), os.path.join(self.tree, "a"))
        self.expect_not_taken(b": was replaced by another file")

    def test_what_was_left_out_can_be_taken_back_later(self) -> None:
        self.planned(b"chmod 600 " + self.word("a") + b" " + self.word("b"))
        self.assertEqual(self.apply().status, 0)
        os.chmod(os.path.join(self.tree, "b"), 0o444)
        done = self.apply("--undo", "--leave-changed")
        self.assertEqual((done.status, done.out, self.mode("a"), self.mode("b")), (0, b"restored 1 file\n", 0o640, 0o444))
        self.assertEqual(self.read("before.plan/state"), b"undone in part\n")
        os.chmod(os.path.join(self.tree, "b"), 0o600)
        self.expect(self.apply("--undo"), 0, b"restored 2 files\n")
        self.assertEqual((self.mode("b"), self.read("before.plan/state")), (0o640, b"undone\n"))

    def test_links_on_the_way(self) -> None:
        self.planned(b"chmod 600 " + self.word("a"))
        os.rename(os.path.join(self.tree, "a"), os.path.join(self.tree, "away"))
        os.symlink("away", os.path.join(self.tree, "a"))
        self.expect_not_taken(b": is a symbolic link now")
        os.rename(self.tree, self.tree + ".away")
        os.symlink(self.tree + ".away", self.tree)
        self.expect_not_taken(b": is reached by a symbolic link now")

    def test_a_plan_that_nobody_would_trust(self) -> None:
        """Where it opens a folder above it to others, nobody could take it back."""
        plan, top = os.path.join(self.tree, "p.plan"), names.script_word(names.write_name(os.fsencode(self.tree)))
        for mode, message in ((b"777", b"leads to the plan, and others could write there, so that it could not be taken back: move "
                                       b"the plan first"), (b"1777", b"")):
            self.take_snapshot()
            self.assertEqual(self.plan(b"chmod " + mode + b" " + top + b"\n", "--plan", plan).status, 0)
            done = self.run_command("facl-apply", [plan])
            if message:
                self.expect(done, 2, b"", b"facl-apply: %s: %s\nfacl-apply: nothing was changed\n" % (os.fsencode(self.tree), message))
                os.rename(plan, self.path("moved"))
                plan = self.path("moved")
                done = self.run_command("facl-apply", [plan])
            self.expect(done, 0, b"changed 1 file\n")
            self.expect(self.run_command("facl-apply", ["--undo", plan]), 0, b"restored 1 file\n")
            plan = os.path.join(self.tree, "q.plan")

    def test_other_kinds(self) -> None:
        self.planned(b"chmod 600 " + self.word("a"))
        os.unlink(os.path.join(self.tree, "a"))
        self.expect_not_taken(b": is gone")
        self.make("a/", 0o640)
        self.expect_not_taken(b": is a directory now")

    def test_after_an_owner_closed_a_directory(self) -> None:
        # as the owner, who is not root; for root it is the same
        self.planned(b"chmod 600 " + self.word("d") + b" " + self.word("d/e"))
        self.expect(self.apply(), 0, b"changed 2 files\n")
        self.assertEqual(self.mode("d"), 0o600)
        self.expect(self.apply("--undo"), 0, b"restored 2 files\n")
        self.assertEqual((self.mode("d"), self.mode("d/e")), (0o755, 0o640))

    def test_names_that_a_terminal_would_obey(self) -> None:
        self.make("x\n\x1b[31mfacl-apply: all is well\u202e")
        self.planned(b"chmod 600 " + self.word("x\n\x1b[31mfacl-apply: all is well\u202e"))
        os.chmod(os.path.join(self.tree, "x\n\x1b[31mfacl-apply: all is well\u202e"), 0o777)
        done = self.apply()
        self.assertIn(b"/x\\012\\033[31mfacl-apply: all is well\\342\\200\\256: was changed: access ACL\n", done.messages)
        self.assertNotIn(b"\x1b", done.messages)


class Meanwhile(Tree):
    """What others do between the comparison and the change."""

    def carrier(self, *lines: bytes) -> carrying.Carrier:
        self.planned(*lines)
        folder = plan_folder.open_plan(os.fsencode(self.path("before.plan")))
        self.addCleanup(os.close, folder.descriptor)
        taken = direction.read_way(folder, False)
        look = direction.look_at(taken, taken.work.files)
        self.assertEqual(direction.unexpected(taken, look), {})
        carrier = carrying.Carrier(taken, look)
        carrier.begin()
        return carrier

    def exchange(self, one: str, other: str) -> None:
        for old, new in ((one, "third"), (other, one), ("third", other)):
            os.rename(os.path.join(self.tree, old), os.path.join(self.tree, new))

    def test_an_exchanged_file_is_not_changed(self) -> None:
        secret = self.make("secret", 0o640)
        carrier = self.carrier(b"chmod 604 " + self.word("a") + b" " + self.word("b"))
        self.exchange("b", "secret")
        self.assertEqual(carrier.run(), {os.fsencode(os.path.join(self.tree, "b")).strip(b"/"): b"was replaced by another file"})
        self.assertEqual(carrier.put_back(), {})
        self.assertEqual([self.mode(name) for name in ("a", "b", "secret")], [0o640, 0o640, 0o640])
        self.assertEqual(os.path.basename(secret), "secret")

    def test_a_link_in_its_place_is_not_followed(self) -> None:
        self.make("secret", 0o640)
        carrier = self.carrier(b"chmod 604 " + self.word("b"))
        os.unlink(os.path.join(self.tree, "b"))
        os.symlink("secret", os.path.join(self.tree, "b"))
        self.assertEqual(list(carrier.run().values()), [b"is a symbolic link now"])
        self.assertEqual(self.mode("secret"), 0o640)

    def test_an_exchange_while_it_is_open_changes_the_file_that_was_compared(self) -> None:
        secret = self.make("secret", 0o640)
        carrier = self.carrier(b"chmod 604 " + self.word("b"))
        look = live.OpenFile.look

        def look_and_exchange(file: live.OpenFile) -> live.Seen:
            found = look(file)
            if not os.path.exists(self.path("exchanged")):
                self.write("exchanged", b"")
                self.exchange("b", "secret")
            return found

        with unittest.mock.patch.object(live.OpenFile, "look", look_and_exchange):
            self.assertEqual(carrier.run(), {})
        self.assertEqual((self.mode("b"), self.mode("secret")), (0o640, 0o604))
        self.assertTrue(os.path.exists(secret))

    def test_put_back_finds_the_files_that_were_changed(self) -> None:
        self.make("secret", 0o604)
        carrier = self.carrier(b"chmod 604 " + self.word("a") + b" " + self.word("b"))
        self.assertEqual(carrier.run(), {})
        self.exchange("b", "secret")
        self.assertEqual(list(carrier.put_back().values()), [b"was replaced by another file"])
        self.assertEqual([self.mode(name) for name in ("a", "b", "secret")], [0o640, 0o604, 0o604])

    def test_files_are_put_back_before_that_is_said(self) -> None:
        """A terminal that is stopped, or a pipe, may wait for its reader for ever."""
        self.make("secret")
        modes: List[int] = []
        carrier = self.carrier(b"chmod 604 " + self.word("a") + b" " + self.word("b"))
        self.exchange("b", "secret")
        with unittest.mock.patch.object(apply, "say_list", lambda *_: modes.append(self.mode("a"))):
            self.assertEqual(apply.give_all(Command("facl-apply", True), carrier.way, carrier, True), 1)
        self.assertEqual(modes, [0o640])

    def test_a_waiting_signal_ends_it(self) -> None:
        carrier = self.carrier(b"chmod 604 " + self.word("a"))
        before = signal.pthread_sigmask(signal.SIG_BLOCK, {signal.SIGQUIT})
        os.kill(os.getpid(), signal.SIGQUIT)
        try:
            self.assertEqual(carrier.run(), {})
            self.assertTrue(carrier.is_stopped())
            self.assertEqual(self.mode("a"), 0o640)
        finally:
            signal.sigwait({signal.SIGQUIT})
            signal.pthread_sigmask(signal.SIG_SETMASK, before)

    def keep_signals(self) -> None:
        """Has the signals do at the end what they do now: a command ignores them once its work is done."""
        for number in SIGNALS:
            self.addCleanup(signal.signal, number, signal.getsignal(number))

    def test_memory_runs_out_in_the_middle(self) -> None:
        self.keep_signals()
        carrier = self.carrier(b"chmod 604 " + self.word("a") + b" " + self.word("b"))
        real = carrying.change

        def change_once(file: live.OpenFile, *words: Any) -> None:
            if os.readlink(file.name).endswith(b"/b"):
                raise MemoryError
            real(file, *words)

        command = unittest.mock.Mock()
        with unittest.mock.patch.object(carrying, "change", change_once):
            self.assertEqual(apply.carry_out(command, carrier.way, carrier, True), 4)  # Nor can it be given back.
        self.assertEqual([self.mode(name) for name in ("a", "b")], [0o640, 0o640])
        with unittest.mock.patch.object(carrying.Carrier, "run", unittest.mock.Mock(side_effect=MemoryError)):
            self.assertEqual(apply.carry_out(command, carrier.way, carrier, True), 4)
        self.assertRegex(command.say.call_args.args[0], b"^memory ran out, .*: run facl undo ")
        self.assertEqual(self.read("before.plan/state"), b"applying\n")

    def test_no_signal_is_the_status_of_what_is_done(self) -> None:
        carrier = self.carrier(b"chmod 604 " + self.word("a"))
        self.keep_signals()
        command = unittest.mock.Mock()
        self.assertEqual(apply.carry_out(command, carrier.way, carrier, True), 0)
        command.tell.assert_called_once_with(b"changed 1 file")
        for number in SIGNALS:
            os.kill(os.getpid(), number)
        self.assertEqual(self.mode("a"), 0o604)


class SideBySide(Meanwhile):
    """The same by several processes, as root has it for many files; and what becomes of them."""

    def setUp(self) -> None:
        super().setUp()
        for name, value in (("facl_commands.base.workers.MANY", 2), ("os.geteuid", lambda: 0), ("os.cpu_count", lambda: 4)):
            patch = unittest.mock.patch(name, value)
            patch.start()
            self.addCleanup(patch.stop)

    def carrier_of_many(self) -> carrying.Carrier:
        self.names = ["f%02d" % k for k in range(24)]
        for name in self.names:
            self.make(name)
        return self.carrier(b"chmod 604 " + b" ".join(self.word(name) for name in self.names))

    def all_modes(self) -> Set[int]:
        return {self.mode(name) for name in self.names}

    def test_no_further_process_can_be_started(self) -> None:
        """Those that are there do all: nothing else would know what was changed so far."""
        carrier, fork, calls = self.carrier_of_many(), os.fork, itertools.count(1)

        def fork_twice() -> int:
            if next(calls) > 2:
                raise BlockingIOError
            return fork()

        with unittest.mock.patch("os.fork", fork_twice):
            self.assertEqual(carrier.run(), {})
        self.assertEqual((self.all_modes(), len(carrier.changed), next(calls)), ({0o604}, 24, 4))

    def test_all_are_changed_and_given_back(self) -> None:
        carrier = self.carrier_of_many()
        self.assertEqual(len(carrier.parts(list(carrier.seen))), 4)
        self.assertEqual(carrier.run(), {})
        self.assertEqual(self.all_modes(), {0o604})
        self.assertEqual(sorted(carrier.changed), sorted(carrier.seen))
        self.assertEqual(carrier.put_back(), {})
        self.assertEqual(self.all_modes(), {0o640})

    def test_what_is_found_is_what_one_process_finds(self) -> None:
        """Files as the plan has them, one with another list, one that is gone, and one that is a link now."""
        carrier = self.carrier_of_many()
        os.chmod(os.path.join(self.tree, "f09"), 0o4751)
        os.unlink(os.path.join(self.tree, "f15"))
        os.rename(os.path.join(self.tree, "f22"), os.path.join(self.tree, "away"))
        os.symlink("away", os.path.join(self.tree, "f22"))
        paths = list(carrier.seen)
        found = survey.look_at_all(paths)
        self.assertEqual(found, survey.look(paths))
        self.assertEqual([it for it in found if isinstance(it, bytes)], [b"is gone", b"is a symbolic link now"])
        self.assertEqual(len({it.record for it in found if isinstance(it, live.Seen)}), 2)

    def test_one_that_is_exchanged_stops_all(self) -> None:
        carrier = self.carrier_of_many()
        self.make("secret")
        self.exchange("f20", "secret")
        self.assertEqual(list(carrier.run().values()), [b"was replaced by another file"])
        self.assertTrue(carrier.is_stopped())
        self.assertEqual(carrier.put_back(), {})
        self.assertEqual(self.all_modes() | {self.mode("secret")}, {0o640})

    def test_a_process_that_is_killed(self) -> None:
        carrier = self.carrier_of_many()
        change = changing.change

        def change_and_end(file: live.OpenFile, *words: Any) -> None:
            change(file, *words)
            if os.getpid() != first:
                os.kill(os.getpid(), signal.SIGKILL)

        first = os.getpid()
        with unittest.mock.patch.object(changing, "change", change_and_end):
            left = carrier.run()
        self.assertTrue(left)  # The first that is killed stops the others.
        self.assertEqual({text.endswith(b" has ended") for text in left.values()}, {True})
        self.assertIn(0o604, self.all_modes())
        self.assertEqual(carrier.put_back(), {})
        self.assertEqual(self.all_modes(), {0o640})

    def test_a_waiting_signal_of_one_process_stops_all(self) -> None:
        carrier = self.carrier_of_many()
        carrier.stop.set()
        self.assertEqual(carrier.run(), {})
        self.assertEqual(self.all_modes(), {0o640})

    def test_names_of_one_file_are_in_one_part(self) -> None:
        self.make("f00")
        os.link(os.path.join(self.tree, "f00"), os.path.join(self.tree, "z"))
        carrier = self.carrier(b"chmod 604 " + b" ".join(self.word(name) for name in ("a", "b", "f00", "z")))
        first = carrier.parts(list(carrier.seen))[0]
        self.assertEqual({os.path.basename(name) for name in first} & {b"f00", b"z"}, {b"f00", b"z"})
        self.assertEqual(sorted(sum(carrier.parts(list(carrier.seen)), [])), sorted(carrier.seen))
        self.assertEqual(carrier.run(), {})
        self.assertEqual((self.mode("f00"), self.mode("z")), (0o604, 0o604))

    def test_a_file_below_two_mounts(self) -> None:
        """Linux counts one name of it; the snapshot has both."""
        self.make("f00")
        os.link(os.path.join(self.tree, "f00"), os.path.join(self.tree, "z"))
        look_by = live.look_by
        with unittest.mock.patch.object(live, "look_by", lambda *words: look_by(*words)._replace(names=1)):
            carrier = self.carrier(b"chmod 604 " + b" ".join(self.word(name) for name in ("a", "b", "f00", "z")))
            first = carrier.parts(list(carrier.seen))[0]
            self.assertEqual({os.path.basename(name) for name in first} & {b"f00", b"z"}, {b"f00", b"z"})
            self.assertEqual(carrier.run(), {})
            self.assertEqual((self.mode("f00"), self.mode("z")), (0o604, 0o604))
            self.assertEqual(carrier.put_back(), {})
        self.assertEqual((self.mode("f00"), self.mode("z")), (0o640, 0o640))


if __name__ == "__main__":
    unittest.main()
