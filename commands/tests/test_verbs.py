"""The verbs: their parsers, what they run, and that each says what its command says; and why."""
from __future__ import annotations

import argparse
import json
import os
import subprocess
import unittest
from typing import Dict, Iterator, List, Sequence, Set, Tuple
from unittest import mock

from verb_case import DAY, VerbCase, restoring, with_entry_of_nobody

from facl_commands.base import beside
from facl_commands.base.messages import Command, Failure
from facl_commands.model.entries import entries_of
from facl_commands.program.tools import ROWS
from facl_commands.verbs import options, prepare, timer
from facl_commands.verbs.command import EDITORS, check_quoted
from facl_commands.verbs.table import ASKING, BY_VERB, MEANT, VERBS, parser_of, words_of
from facl_commands.verbs.why import Step, WhyAnswer

NOTES = "/srv/project/notes.txt"
# The words of a verb, and those of the command that says the same; SNAP is the snapshot.
SAME: Tuple[Tuple[str, str], ...] = (
    ("who write /srv/project", "facl-who write SNAP /srv/project"), ("who read,write", "facl-who read,write SNAP"),
    ("who x / --alone --all-users --with-root --tsv", "facl-who x --file-alone --all-users --with-root --tsv SNAP /"),
    ("who w / --lists-alone --json", "facl-who w --lists-alone --json SNAP /"),
    ("who r / --acl5", "facl-who r --acl5 SNAP /"),
    ("user mara", "facl-who --user mara SNAP"),
    ("user mara / --depth 1 --json", "facl-who --user mara --depth 1 --json SNAP /"),
    ("user --depth=0 mara", "facl-who --user mara --depth 0 SNAP"),
    ("user nobody-is-this", "facl-who --user nobody-is-this SNAP"),
    ("files --owner mara", "facl-who --owner mara SNAP"),
    ("files --naming mara / --tsv", "facl-who --names mara --tsv SNAP /"),
    ("who-removes " + NOTES, "facl-who --remove %s SNAP" % NOTES),
    ("new-file /srv/project mara --umask 077", "facl-who --new-file /srv/project mara --umask 077 SNAP"),
    ("diff OLD SNAP", "facl-diff OLD SNAP"), ("diff OLD SNAP --below /srv/project/drafts --json",
                                              "facl-diff --json OLD SNAP /srv/project/drafts"),
    ("diff SNAP OLD --alone", "facl-diff --file-alone SNAP OLD"),
    ("audit", "facl-audit SNAP"), ("audit --list mask-cuts-entry --tsv /srv",
                                   "facl-audit --list mask-cuts-entry --tsv SNAP /srv"),
    ("audit --fail-on none --json", "facl-audit --fail-on none --json SNAP"),
    ("audit --accepted fine", "facl-audit --accepted fine SNAP"), ("audit --weight low", "facl-audit --weight low SNAP"),
    ("audit fix mask-cuts-entry", "facl-audit --edits mask-cuts-entry SNAP"),
    ("check rules", "facl-check --quiet SNAP rules"), ("check broken --json", "facl-check --json SNAP broken"),
    ("check broken", "facl-check SNAP broken"), ("rules", "facl-check --write SNAP"),
    ("rules /srv", "facl-check --write SNAP /srv"),
    ("plan edits --full --json -o one", "facl-plan --full --json --plan one SNAP edits"),
    ("plan edits bad --keep-going -o two", "facl-plan --keep-going --plan two SNAP edits bad"),
    ("plan bad -o a", "facl-plan --plan a SNAP bad"),
    ("open %s guest r --alone -o four" % NOTES, "facl-plan --file-alone --plan four SNAP edits"),
    ("move-group /srv/project/drafts/old design staff -o five", "facl-plan --plan five SNAP moved"),
    ("restore /srv/project -s OLD -o three", "facl-plan --plan three SNAP back"),
    ("leaver 4711 -o gone", "facl-plan --plan gone SNAP leaver"), ("joiner ben --like guest -o came", "facl-plan --plan came SNAP joiner"),
    ("page", "facl-report SNAP"), ("page edits --alone --with-root", "facl-report --file-alone --with-root SNAP edits"),
    ("review /srv/project/drafts", "facl-report --for-review --folder /srv/project/drafts SNAP"),
    ("ask script", "facl-ask SNAP script"), ("ask script script --headings", "facl-ask --headings SNAP script script"),
    ("ask --each --timeout 9 script", "facl-ask --each --timeout 9 script"), ("ask --hosts script", "facl-ask --hosts script"),
    ("ask --frob", ""), ("apply absent", "facl-apply absent"),
    ("undo absent --leave-changed", "facl-apply --undo --leave-changed absent"),
)


class WhySentences(unittest.TestCase):
    """What the last line of why says beside what ACLs grant."""

    def sentence(self, *entries: bytes, kinds: Sequence[bytes] = (), is_directory: bool = False, above: bytes = b"other::r-x") -> bytes:
        """Of the file /a/f, by the entries that decide on ines there and above."""
        its, over = entries_of(b"\n".join(entries)), entries_of(above)
        granted = [set(it.effective.decode()) - {"-"} for it in its]
        steps = [Step(b"/a", over, not over[0].grants(b"x"), [], []), Step(b"/a/f", its, False, [*kinds], [])]
        answer = WhyAnswer(b"ines", steps, [it for it in granted if it], is_directory, False)
        self.assertEqual(answer.of_use() != "" and answer.closed() is None, b"nothing" not in answer.sentence(), entries)
        return answer.sentence()

    def test_owners(self) -> None:
        """Who owns a file may change its mode and ACL, whatever these grant (chmod(2), EPERM); not one that is immutable."""
        changes = b"; as the owner of /a/f ines can change its ACL"
        for entry, text in ((b"user::---", b"do nothing with /a/f, by user::---" + changes), (b"user::r--", b"read /a/f, by user::r--" + changes),
                            (b"user::rw-", b"read and write /a/f, by user::rw-"), (b"other::r--", b"read /a/f, by other::r--")):
            self.assertEqual(self.sentence(entry), b"ines can " + text)
        self.assertEqual(self.sentence(b"user::rw-", is_directory=True), b"ines can list /a/f, by user::rw-" + changes)
        self.assertEqual(self.sentence(b"user::---", kinds=[beside.IMMUTABLE]), b"ines can do nothing with /a/f, by user::---")
        self.assertEqual(self.sentence(b"user::rw-", above=b"user::rw-"), b"ines can do nothing with /a/f: /a gives no search permission "
                         b"(user::rw-); as the owner of /a ines can change its ACL")

    def test_what_nobody_can_do(self) -> None:
        """On an immutable file, and on read-only and noexec file systems."""
        fixed, run = (b"; nobody can write /a/f, since it is immutable", b"; nobody can execute /a/f, since it is on a noexec file system")
        for entry, kind, text in (
                (b"other::rw-", beside.IMMUTABLE, b"read /a/f, by other::rw-" + fixed),
                (b"other::-w-", beside.IMMUTABLE, b"do nothing with /a/f, by other::-w-" + fixed),
                (b"other::r--", beside.IMMUTABLE, b"read /a/f, by other::r--"),
                (b"other::rw-", beside.APPEND_ONLY, b"read and write /a/f, by other::rw-"),
                (b"other::rwx", beside.NOEXEC, b"read and write /a/f, by other::rwx" + run)):
            self.assertEqual(self.sentence(entry, kinds=[kind]), b"ines can " + text)
        self.assertEqual(self.sentence(b"other::rwx", kinds=[beside.READ_ONLY, beside.NOEXEC], is_directory=True),
                         b"ines can list and enter /a/f, by other::rwx; nobody can write in /a/f, since it is on a read-only file system")


class Parsers(unittest.TestCase):
    def actions(self) -> Iterator[Tuple[str, argparse.Action]]:
        return ((verb.name, action) for verb in VERBS for action in parser_of(verb)._actions)

    def test_one_option_has_one_meaning(self) -> None:
        """No name has two helps, forms or places, and no help has two names."""
        by_name: Dict[str, Set[Tuple[object, ...]]] = {}
        by_help: Dict[str, Set[Tuple[str, ...]]] = {}
        for _, action in self.actions():
            for name in action.option_strings:
                what = (tuple(action.option_strings), action.dest, action.help, action.metavar, type(action),
                        action.nargs)
                by_name.setdefault(name, set()).add(what)
                by_help.setdefault(str(action.help), set()).add(tuple(action.option_strings))
        self.assertGreater(len(by_name), 40)
        self.assertEqual({name: its for name, its in by_name.items() if len(its) > 1}, {})
        self.assertEqual({text: its for text, its in by_help.items() if len(its) > 1}, {})

    def test_a_word_has_one_meaning(self) -> None:
        found: Dict[str, Set[str]] = {}
        for verb in VERBS:
            for operand in verb.operands:
                found.setdefault(operand.name, set()).add(operand.kind)
        several = {name: kinds for name, kinds in found.items() if len(kinds) > 1}
        self.assertEqual(several, {"FOLDER": {"path", "file"}})  # What is recorded is no path of a snapshot yet.

    def test_each_option_is_of_a_verb(self) -> None:
        used = {field for verb in VERBS for field in verb.options}
        self.assertEqual(used, set(options.BY_FIELD))
        for verb in VERBS:
            self.assertEqual(len(set(verb.options)), len(verb.options), verb.name)

    def test_common_options(self) -> None:
        """A verb that uses a snapshot takes the options by which one is chosen."""
        for verb in VERBS:
            if "@folder" in verb.words.split() or verb.module == "verbs.why":
                self.assertLessEqual({"snapshot", "program", "acl5", "quiet"}, set(verb.options), verb.name)

    def test_sentences(self) -> None:
        for verb in VERBS:
            self.assertRegex(verb.does, r"\A[A-Z][a-z]+s .*[^.]\.\Z")
            self.assertLess(len(verb.does), 112, verb.name)
            self.assertIn(verb.name, BY_VERB)
        for option in options.ALL:
            self.assertRegex(option.help, r"\A[a-z].*[^.]\Z")
        self.assertEqual({it.partition(" ")[0] for it in MEANT} & set(BY_VERB), set())
        self.assertLessEqual(set(MEANT.values()), set(BY_VERB))

    def test_words_of_commands(self) -> None:
        verb = BY_VERB["files"]
        given = parser_of(verb).parse_intermixed_args(["--naming=-x y", "/a", "--json"])
        given.folder = "S"
        self.assertEqual(words_of(verb, given), ["--json", "--names=-x y", "--", "S", "/a"])


class Verbs(VerbCase):
    def setUp(self) -> None:
        super().setUp()
        self.snap = self.stored("new")
        self.old = self.stored("old", seconds=3 * DAY)
        dump = self.read("store/new/dump")
        new = with_entry_of_nobody(dump.replace(b"mask::r--", b"mask::rw-"))
        self.write("store/new/dump", new)
        self.write("edits", b"setfacl -n -m u:guest:r /srv/project/notes.txt\n")
        self.write("back", restoring(dump, new))
        self.write("moved", b"chgrp staff /srv/project/drafts/old '/srv/project/drafts/old/logo 1.svg'\n")
        self.write("bad", b"frob\nchmod 600 /srv/project/notes.txt\n")
        self.write("rules", b"never guest read /srv/project/\n")
        self.write("broken", b"never mara read /srv/project/\n")
        self.write("fine", b"set-user-id /srv/project/ it is meant\n")
        self.write("leaver", b"setfacl -n -x u:4711 /srv/project/README\n")
        self.write("joiner", b"setfacl -n -m u:ben:r-x /srv/project/drafts\nsetfacl -n -m u:ben:r-- /srv/project/drafts/logo.svg\n"
                   b"setfacl -n -m d:u:ben:rw- /srv/project/drafts\n")
        self.write("script", b"who --reach w /srv/project/notes.txt\nfrob\n")

    def test_each_says_what_its_command_says(self) -> None:
        for words, command in SAME:
            with self.subTest(words):
                named = [{"SNAP": "new", "OLD": "old"}.get(it, it) for it in words.split()]
                done = self.verb(*named, "-q") if "-q" in self.verb(*named[:1],
                                                                    "-h").out.decode() else self.verb(*named)
                if not command:
                    self.assertEqual((done.status, done.out), (2, b""))
                    continue
                name, *rest = [{"SNAP": self.snap, "OLD": self.old}.get(it, it) for it in command.split()]
                self.assert_same(words, done, self.run_command(name, rest))

    def test_the_newest_and_its_age(self) -> None:
        self.expect(self.verb("files", "--owner", "guest"), 1, b"guest owns nothing at or below /srv/project\n")
        note = b"facl files: the snapshot old is 3 days old\n"
        for words, snapshot in ((["-s", "old", "files"], ""), (["files"], "old"), (["files", "--snapshot=old"], "")):
            done = self.verb(*words, "--owner", "mara", environment={"FACL_SNAPSHOT": snapshot})
            self.assertEqual((done.status, done.messages), (0, note))
            self.assertEqual(self.verb(*words, "--owner", "mara", "-q",
                                       environment={"FACL_SNAPSHOT": snapshot}).messages, b"")

    def test_a_path_outside(self) -> None:
        text = b"/etc/x: is not in the snapshot new, which has /srv/project; to record it: facl snapshot /etc/x\n"
        for words in (["who", "read", "/etc/x"], ["why", "mara", "/etc/x"], ["who-removes", "/etc/x"],
                      ["new-file", "/etc/x", "mara"],
                      ["user", "mara", "/etc/x"], ["audit", "/etc/x"], ["review", "/etc/x"], ["rules", "/etc/x"]):
            done = self.verb(*words)
            self.assertEqual((done.status, done.out, done.messages), (2, b"", b"facl %s: " % words[0].encode() + text))

    def test_the_last_two(self) -> None:
        done = self.verb("diff")
        self.assertEqual((done.status, done.out), (1, self.verb("diff", "old", "new").out))
        self.assertRegex(done.messages, b"\\Afacl diff: compares old of .*\nfacl diff: compares new of .*\n\\Z")
        self.assertEqual(self.verb("diff", "old").out, done.out)
        for words, text in ((["new"], b"new: is compared with itself"),
                            (["new", "new"], b"new: is compared with itself"),
                            (["absent"], b"absent: no such snapshot")):
            self.assertIn(text, self.verb("diff", *words).messages)
        os.rename(self.old, self.path("old"))
        self.assertIn(b"has no two snapshots of this host to compare", self.verb("diff").messages)

    def test_what_excludes_each_other(self) -> None:
        """It is said in words of the verb, not of the command that it runs."""
        self.expect(self.verb("diff", "-o", "page", "--below", "/srv"), 2, b"",
                    b"facl diff: the page of -o shows all files: leave out --below\n")
        for verb in ("who", "why", "snapshots"):
            done = self.verb(verb, "--json", "--tsv")
            self.assertEqual((done.status, done.out, done.messages.startswith(b"usage: facl %s " % verb.encode())), (2, b"", True))

    def test_lines_of_edits(self) -> None:
        done = self.verb("plan", "-e", "setfacl -n -m u:guest:r " + NOTES, "-e", "chmod 700 /srv/project")
        self.assertEqual((done.status, done.messages), (0, b""), done)
        self.assertIn(b"wrote edits.plan", done.out)
        self.assertEqual(self.read("edits.plan/edits"),
                         b"setfacl -n -m u:guest:r /srv/project/notes.txt\nchmod 700 /srv/project\n")
        self.assertEqual(self.verb("plan", "edits").messages, b"")  # Nobody has used the one that was there.
        self.assertEqual(self.verb("plan", "-", "-o", "p", text=self.read("edits")).status, 0)
        for words in (["plan"], ["plan", "edits", "-e", "rm x"]):
            self.expect(self.verb(*words), 2, b"", b"facl plan: give a file of edits, or lines with -e LINE\n")
        done = self.verb("plan", "-e", "frob")
        self.assertEqual((done.status, done.messages[:52]),
                         (1, b"facl plan: standard input, line 1: facl: unknown tool"[:52]))

    def test_a_line_of_edits_that_is_not_quoted(self) -> None:
        line = "setfacl -m u:guest:r " + NOTES
        text = b"a line of edits is one word, the value of -e: facl plan -e 'setfacl ...'"
        for words in (line.split(), ["-e", *line.split()], [line], ["-q", "--edit", *line.split()], ["-qe", "setfacl", "-m"],
                      ["-s", "new", line]):
            with self.assertRaises(Failure) as caught:
                check_quoted(words)
            self.assertEqual(caught.exception.text, text)
        self.expect(self.verb("plan", *line.split()), 2, b"", b"facl plan: " + text + b"\n")
        with mock.patch.object(os.path, "lexists", return_value=True):
            check_quoted(["rm", "-q"])  # A file of edits with the name of a tool.
        for words in (["edits", "-o", "chmod"], ["-o", "rm", "edits"], ["-qe", line], ["-e", line, "--edit", line]):
            check_quoted(words)
        self.assertLessEqual(EDITORS, {*(it.name.decode() for it in ROWS), "chown", "chgrp"})

    def test_pages(self) -> None:
        for words in (["page"], ["review", "/srv/project"], ["audit", "-s", "old"], ["diff", "old", "new"]):
            done = self.verb(*words, "-q", "-o", "page.html")
            self.assertIn(done.status, (0, 1))
            self.assertTrue(self.read("page.html").startswith(b"<!DOCTYPE html>"))
            os.unlink(self.path("page.html"))

    def test_pages_that_could_not_be_said(self) -> None:
        """None is written where the answer could not be; where it alone could not be said, the status says so."""
        facl = os.path.join(os.path.dirname(os.path.dirname(os.path.realpath(__file__))), "facl")
        for words, said in ((["audit", "--fail-on", "none"], 5), (["diff", "old", "new"], 1)):
            for streams, status, is_there in ((">/dev/full", 2, False), ("2>/dev/full", said, True)):
                done = subprocess.run(["sh", "-c", '"$@" ' + streams, "sh", facl, *words, "-q", "-o", "page"], cwd=self.folder,
                                      env={**os.environ, "FACL_STORE": self.store}, stdout=subprocess.DEVNULL,
                                      stderr=subprocess.DEVNULL, check=False)
                self.assertEqual((words, done.returncode, os.path.exists(self.path("page"))), (words, status, is_there))
            os.unlink(self.path("page"))

    def test_why(self) -> None:
        done = self.verb("why", "guest", NOTES)
        self.expect(done, 1, b"""\
FILE                    ENTRY       NOTE
/                       other::r-x
/srv                    other::r-x
/srv/project            other::---  no search permission here: nothing below is reached
/srv/project/notes.txt  other::---
guest can do nothing with /srv/project/notes.txt: /srv/project gives no search permission (other::---)
""")
        for snapshot, words, status, sentence in (
                ("new", ("mara", NOTES), 0, "mara can read and write /srv/project/notes.txt, by user:mara:rw-"),
                ("old", ("mara", NOTES), 0, "mara can read %s, by user:mara:rw- (the mask leaves r--)" % NOTES),
                ("old", ("guest", NOTES, "--alone"), 1,
                 "guest can do nothing with /srv/project/notes.txt, by other::---"),
                ("old", ("guest", "/srv"), 0, "guest can list and enter /srv, by other::r-x"),
                ("old", ("everybody else", "/srv"), 0, "everybody else can list and enter /srv, by other::r-x"),
                ("old", ("1003", "srv/project/notes.txt"), 0,
                 "mara can read /srv/project/notes.txt, by user:mara:rw- (the mask leaves r--)"),
                ("old", ("ines", "/srv/project"), 0, "ines can list, write in and enter /srv/project, by user::rwx")):
            done = self.verb("why", *words, "-q", "-s", snapshot)
            self.assertEqual((done.status, done.out.decode().split("\n")[-2]), (status, sentence))
        found = json.loads(self.verb("why", "mara", NOTES, "--json").out)
        self.assertEqual((found["schema"], found["user"], found["path"], found["rights"], found["closed"]),
                         ("facl-why/1", "mara", NOTES, "rw", None))
        self.assertEqual([it["path"] for it in found["steps"]], ["/", "/srv", "/srv/project", NOTES])
        self.assertEqual(self.verb("why", "mara", NOTES, "--tsv").out.decode().split("\n")[4],
                         NOTES + "\tuser:mara:rw-\t")
        for words, text in ((("mora", NOTES), b"facl why: mora: no such user in the snapshot; did you mean mara?\n"),
                            (("mara", "/srv/project/absent"),
                             b"facl why: /srv/project/absent: is not recorded: the snapshot is of /srv/project\n")):
            self.expect(self.verb("why", *words), 2, b"", text)

    def test_not_at_once(self) -> None:
        """What two groups grant is not granted together."""
        group = self.read("store/new/group")
        self.write("store/new/group", group + b"readers:x:3001:guest\nwriters:x:3002:guest\n")
        record = b"# file: /both\n# owner: 0\n# group: 0\nuser::rw-\ngroup::---\n" + (
            b"group:3001:r--\ngroup:3002:-w-\nmask::rw-\nother::---\n\n")
        self.write("store/new/dump", self.read("store/new/dump") + record)
        done = self.verb("why", "guest", "/both", "--tsv", "-q", "-s", "new", "--alone")
        self.assertEqual(done.status, 2)  # It is not one of the folders of the snapshot.
        about = self.read("store/new/meta")
        self.write("store/new/meta", about.replace(b"folder /srv/project", b"folder /"))
        done = self.verb("why", "guest", "/both", "-q")
        text = b"guest can read or write /both, but not at once, by group:readers:r--, group:writers:-w-\n"
        self.assertEqual((done.status, done.out.split(b"\n", 4)[-1]), (0, text), done)

    def test_a_folder_without_search(self) -> None:
        """Nothing is made or removed in a directory by w alone."""
        dump = self.read("store/new/dump")
        for granted, status, sentence in ((b"-w-", 1, b"do nothing with /srv/project/audit, by user:ines:-w- (w is of no use without x)"),
                                          (b"rw-", 0, b"list /srv/project/audit, by user:ines:rw-"),
                                          (b"-wx", 0, b"write in and enter /srv/project/audit, by user:ines:-wx")):
            self.write("store/new/dump", dump.replace(b"user:1001:r-x", b"user:1001:" + granted))
            done = self.verb("why", "ines", "/srv/project/audit", "-q")
            self.assertEqual((done.status, done.out.split(b"\n")[-2]), (status, b"ines can " + sentence), done)
        done = self.verb("why", "root", NOTES, "-q")
        self.assertEqual((done.status, done.messages), (
            1, b"facl why: root: has the uid 0, to which the kernel grants nearly everything; this is what ACLs grant it\n"))

    def test_a_snapshot_that_is_no_one(self) -> None:
        for verb in VERBS:
            if verb.group == ASKING and "snapshot" in verb.options:
                words = [{"USER": "mara", "PERMS": "read", "FILE": "/srv", "RULES": "rules",
                          "FINDING": "set-user-id"}.get(it.name, "/srv")
                         for it in verb.operands if it.nargs is None]
                done = self.verb(*verb.name.split(), *words, *(["--owner", "mara"] if verb.one_of else []), "-s",
                                 "nothing")
                self.assertEqual((done.status, done.out), (2, b""), verb.name)
                text = b"nothing: no such snapshot; facl snapshots lists those of %s\n" % os.fsencode(self.store)
                self.assertTrue(done.messages.endswith(text), done.messages)

    def test_a_word_that_is_an_id_and_a_name(self) -> None:
        # `facl who` printed the name, and `facl user` with it answered about the one whose id it is.
        passwd = self.read("store/new/passwd")
        row = next(it for it in passwd.splitlines() if it.startswith(b"mara:")).split(b":")
        self.write("store/new/passwd", passwd + row[2] + b":x:3000:100::/:\n5000:x:3001:100::/:\n")
        for word, text in ((row[2], b"the id of mara, and the name of the id 3000: write mara or 3000"),
                           (b"5000", b"an id that nobody has, and the name of the id 3001: write 3001")):
            for words in (["user"], ["files", "--owner"], ["joiner", "--like", "guest"]):
                done = self.verb(*words, word.decode())
                self.assertEqual((done.status, done.out), (2, b""), words)
                self.assertTrue(done.messages.endswith(b": " + word + b": " + text + b"\n"), done.messages)
        self.assertEqual(self.verb("user", "3000").status, 0)

    def test_parts(self) -> None:
        """Of a snapshot in parts some verbs take all, and the others say which one they take."""
        for name in ("a", "b", "c"):
            os.makedirs(self.path("tree/%s" % name))
            self.write("tree/%s/f" % name, b"")
        depth = self.folder.count("/") + 3
        self.assertEqual(self.verb("snapshot", "-q", "--split", "%d" % (depth + 1), self.path("tree")).status, 0)
        rows = self.verb("snapshots", "--tsv").out.decode().split("\n")
        name, _, _, files, users, _, warnings = rows[1].split("\t")
        self.assertRegex(warnings, r"\Ain [3-6] parts\Z")
        self.assertEqual((files, users.isdigit()), ("", True))
        for words in (["why", "nobody", self.path("tree/c/f"), "--alone"], ["audit", "--fail-on", "none"]):
            self.assertEqual(self.verb(*words).status, 0)
        part = os.fsencode(os.path.join(self.store, name, "001"))
        for words in (["who", "read"], ["page"], ["plan", "edits"], ["ask", "script"]):
            text = b"facl %s: %s: has several parts; facl %s takes one: -s %s\n" % (
                words[0].encode(), name.encode(), words[0].encode(), part)
            self.expect(self.verb(*words), 2, b"", text)
        self.assertIn(self.verb("who", "read", "-s", os.fsdecode(part)).status, (0, 1))

    def test_daily(self) -> None:
        os.mkdir(self.path("tree"))
        done = self.verb("daily", "--exclude", "*.x", "--cross-file-systems", "--fail-on", "none", self.path("tree"))
        self.assertEqual((done.status, done.messages), (0, b""), done)
        name, = (it for it in os.listdir(self.store) if it.startswith("20"))
        self.assertIn(b"\nexclude *.x\n", self.read("store/%s/meta" % name))
        self.write("names", b"root\n")  # Which is beside the caller, and not in the store.
        done = self.verb("daily", "--users", "names", "--fail-on", "none", self.path("tree"))
        self.assertEqual((done.status, done.messages), (0, b""), done)

    def test_the_timer(self) -> None:
        for name in ("bin", "units", "etc"):
            os.mkdir(self.path(name))
        for name in ("bin/systemctl", "bin/sendmail"):
            self.write(name, b'#!/bin/sh\necho "$@" >>called\n')
            os.chmod(self.path(name), 0o755)
        self.write("units/facl-daily.timer", b"")
        settings = os.fsencode(self.path("etc/facl-daily"))
        with mock.patch.dict(os.environ, {"PATH": self.path("bin") + ":/usr/bin:/bin", "FACL_STORE": "/var/lib/facl"}):
            self.assertRaises(Failure, timer.settings_of, self.prepared("*.x"))
            self.assertRaises(Failure, timer.settings_of, self.prepared("a b"))
            self.assertRaises(Failure, timer.settings_of, self.prepared("tmp", "srv"))
            rules = b" --rules=%s/rules " % os.fsencode(os.getcwd())  # The timer starts in /.
            self.assertIn(rules, timer.settings_of(self.prepared("tmp", "--rules=rules", "/srv")))
            given = self.prepared("tmp")
            text = b'FACL_STORE=/var/lib/facl\nFACL_DAILY="--mail=root --exclude=tmp --cross-file-systems -- /srv"\n'
            self.assertEqual(timer.settings_of(given), timer.HEAD + text)
            with mock.patch.multiple(timer, UNITS=(self.path("units"),), SETTINGS=settings):
                with mock.patch.object(timer, "find_sendmail", side_effect=Failure(b"no mailer")):
                    self.assertRaises(Failure, timer.body, Command("facl daily"), given)
                self.assertEqual((os.listdir(self.path("etc")), os.path.exists(self.path("called"))), ([], False))
                said = [self.installed(it) for it in (given, given, self.prepared("one"), self.prepared("two"), given)]
        kept = [b"kept the earlier settings as " + settings + b".before" + it for it in (b"", b"2", b"3")]
        self.assertEqual(said, [b"", b"", *kept])
        self.assertEqual([self.read("etc/facl-daily" + it) for it in ("", ".before")], [timer.HEAD + text] * 2)
        self.assertEqual([it in self.read("etc/facl-daily.before" + end) for it, end in ((b"one", "2"), (b"two", "3"))], [True, True])
        self.assertEqual(len(os.listdir(self.path("etc"))), 4)
        self.assertEqual(self.read("called"), b"enable --now facl-daily.timer\n" * 5)

    def prepared(self, glob: str, *more: str) -> argparse.Namespace:
        words = ["--install", "--mail", "root", "--exclude=" + glob, "--cross-file-systems", *(more or ["/srv"])]
        given = parser_of(BY_VERB["daily"]).parse_intermixed_args(words)
        prepare.daily(Command("facl daily"), given)
        return given

    def installed(self, given: argparse.Namespace) -> bytes:
        """What is said where the timer is installed."""
        command = Command("facl daily")
        said: List[bytes] = []
        before = os.getcwd()
        os.chdir(self.folder)
        with mock.patch.object(command, "say", said.append), mock.patch.object(command, "tell"):
            self.assertEqual(timer.body(command, given), 0)
        os.chdir(before)
        return b"".join(said)


if __name__ == "__main__":
    unittest.main()
