"""facl-check: rules of each form that hold and that do not, and those that hold written."""
from __future__ import annotations

import json
import os
import re
import signal
import subprocess
import sys
import tempfile
import time
import unittest
from typing import List

from common import COMMANDS, Done, restore_signals
from small_tree import GROUP, PASSWD, SmallTree

from facl_commands.model.snapshot import read_links
from facl_commands.questions.check.answers import names_beside
from facl_commands.questions.check.rules import ALWAYS, NEVER, ONLY, READ, Rule

FOLDER = b"# owner: 0\n# group: 2001\nuser::rwx\nuser:1009:%s\ngroup::rwx\nmask::rwx\nother::--x\n"
FILE = b"# owner: 1001\n# group: 2001\nuser::rw-\nuser:1009:r--\ngroup::rw-\nmask::%s\nother::---\n"
TREE = {
    b"/srv/hr/": FOLDER % b"r-x",
    b"/srv/hr/cases/": FOLDER % b"--x",
    b"/srv/hr/cases/one": FILE % b"rw-",
    b"/srv/hr/cases/two": FILE % b"r--",  # Where the mask closes out nobody but cuts the group.
    b"/srv/hr/cases/full/": FOLDER % b"---",
    b"/srv/hr/cases/full/three": FILE % b"rw-",
    b"/srv/hr/tools/": FOLDER % b"-w-",
}


FORM = b"a rule is never|only|always WHO.. read|write|enter [below] PATH"
TWO_MEANINGS = b"an id, and also the name of another id: write the name of the id, or the name of digits in quotes"
NO_USER = b"word 2: no such user in the snapshot: write a name or an id of its passwd"
NO_KIND, NO_RIGHT = b"word 1: write never, only or always; " + FORM, b"no right: write read, write or enter before the PATH; " + FORM
ONLY_ELSE = (b"only everybody else: there is nobody beside whom a rule could keep out; write never people, or never with who shall not")


class Checks(SmallTree):
    """Runs of facl-check over a small snapshot."""

    def setUp(self) -> None:
        super().setUp()
        self.take(TREE)

    def check(self, rules: bytes, *options: str) -> Done:
        self.write("rules", rules)
        os.chmod(self.path("rules"), 0o600)
        return self.run_command("facl-check", [*options, "small", "rules"])

    def rows(self, rules: bytes, *options: str) -> List[List[bytes]]:
        done = self.check(rules, "--tsv", *options)
        self.assertEqual(done.messages, b"")
        found = [line.split(b"\t") for line in done.out.splitlines()[1:]]
        self.assertEqual(done.status, int(bool(found)))
        return found

    def broken(self, rule: bytes, *options: str) -> List[bytes]:
        """For whom a rule does not hold, each with the number of files and the first."""
        return [b" ".join(row[2:5]) for row in self.rows(rule + b"\n", *options)]


class OtherNames(Checks):
    LINKS = b"/srv/a/one\n/srv/b/one\n\n/srv/a/x\n/srv/a/y\n\n/srv/a/dir/\n/srv/c/\n"

    def test_names_that_a_rule_is_not_about(self) -> None:
        """A file is read by any of its names: `always` asks for each name that is meant alone."""
        links = read_links(self.LINKS)
        pairs = [(b"srv/a/one", b"srv/b/one"), (b"srv/a/dir", b"srv/c")]
        for kind, path, is_below, found in (
                (NEVER, b"srv/a", False, pairs), (ONLY, b"srv/a", True, pairs), (ALWAYS, b"srv/a", False, []), (NEVER, b"", False, []),
                (NEVER, b"srv/a/one", False, pairs[:1]), (NEVER, b"srv/a/x", False, [(b"srv/a/x", b"srv/a/y")]),
                (NEVER, b"srv/c", True, []), (NEVER, b"srv/c", False, [(b"srv/c", b"srv/a/dir")])):
            rule = Rule(1, [], kind, set(), False, READ, path, is_below)
            self.assertEqual(names_beside(rule, links), found, (kind, path, is_below))

    def test_they_are_said(self) -> None:
        self.write("small/links", b"/srv/hr/cases/full/three\n/srv/hr/cases/one\n")
        done = self.check(b"never carl read srv/hr\nnever carl read srv/hr/cases/full\n")
        self.assertEqual((done.status, done.messages), (0, b"facl-check: warning: line 2: the rule is not about all names of 1 file, "
                                                        b"first: /srv/hr/cases/full/three, which is /srv/hr/cases/one too\n"), done)
        self.assertEqual(self.check(b"never carl read srv/hr/cases/full\n", "--quiet").messages, b"")


class Forms(Checks):
    def test_never(self) -> None:
        self.assertEqual(self.broken(b"never carl read srv/hr/"), [])
        self.assertEqual(self.broken(b"never carl xaver read srv/hr/"), [b"xaver 3 /srv/hr"])
        self.assertEqual(self.broken(b"never xaver read srv/hr/cases/full/"), [])
        self.assertEqual(self.broken(b"never @hr write srv/hr/cases/one"), [b"anna 1 /srv/hr/cases/one", b"bert 1 /srv/hr/cases/one"])
        self.assertEqual(self.broken(b"never @law people read srv/hr/cases/full/three"),
                         [b"anna 1 /srv/hr/cases/full/three", b"bert 1 /srv/hr/cases/full/three"])

    def test_only(self) -> None:
        self.assertEqual(self.broken(b"only @hr xaver read /srv/hr/"), [])
        self.assertEqual(self.broken(b"only bert read srv/hr/cases/"), [b"anna 5 /srv/hr/cases", b"xaver 2 /srv/hr/cases/one"])
        self.assertEqual(self.broken(b"only anna bert write srv/hr/"), [])
        self.assertEqual(self.broken(b"only @hr enter srv/hr/", "--quiet"), [b"everybody else 4 /srv/hr", b"carl 4 /srv/hr", b"xaver 2 /srv/hr"])

    def test_always(self) -> None:
        self.assertEqual(self.broken(b"always anna write srv/hr/"), [])
        self.assertEqual(self.broken(b"always @hr write srv/hr/"), [b"bert 1 /srv/hr/cases/two"])
        self.assertEqual(self.broken(b"always others enter srv/hr/"), [])
        self.assertEqual(self.broken(b"always others read srv/hr/"), [b"everybody else 8 /srv/hr"])

    def test_others(self) -> None:
        self.assertEqual(self.broken(b"never others write /"), [])
        self.assertEqual(self.broken(b"never others read /"), [b"everybody else 2 /"])

    def test_below(self) -> None:
        """What is below a folder, and not the folder itself, with or without a final slash."""
        for path in (b"srv/hr/cases", b"/srv/hr/cases/"):
            self.assertEqual(self.broken(b"never xaver enter below " + path), [])
            self.assertEqual(self.broken(b"never xaver enter " + path), [b"xaver 1 /srv/hr/cases"])
        self.assertEqual(self.broken(b"never xaver read below /srv"), [b"xaver 3 /srv/hr"])
        self.assertEqual(self.broken(b"only @hr write below srv/hr/tools"), [])
        self.assertEqual(self.broken(b"only bert read below srv/hr/cases/"), [b"anna 4 /srv/hr/cases/full", b"xaver 2 /srv/hr/cases/one"])
        self.assertEqual(self.broken(b"always anna read below srv/hr/cases"), [])
        self.assertEqual(self.broken(b"always xaver read below srv/hr/cases"), [b"xaver 2 /srv/hr/cases/full"])
        self.assertEqual(self.broken(b"always everybody else read below /"), [b"everybody else 8 /srv/hr"])
        found = json.loads(self.check(b"never anna read below srv/hr/cases/\n", "--json").out)["rules"][0]
        self.assertEqual((found["rule"], found["count"]), ("never anna read below srv/hr/cases/", 4))

    def test_words_that_look_like_below(self) -> None:
        self.take({**TREE, b"/srv/below": FILE % b"rw-"}, passwd=PASSWD.replace(b"bert:", b"below:").replace(b"carl:", b"read:"))
        self.assertEqual(self.broken(b"never below anna read srv/below"), [b"anna 1 /srv/below"])
        self.assertEqual(self.broken(b"never read read below srv"), [])

    def test_groups_by_name(self) -> None:
        for words in (b"group hr", b"@hr", b"group 2001", b"group 'hr'"):
            self.assertEqual(self.broken(b"never %s write below srv/hr/cases/full" % words), [
                b"anna 1 /srv/hr/cases/full/three", b"bert 1 /srv/hr/cases/full/three"], words)
        self.assertEqual(self.broken(b"only group hr xaver read srv/hr"), [])
        self.assertEqual(self.broken(b"never carl group law group hr write srv/hr/cases/two"), [b"anna 1 /srv/hr/cases/two"])

    def test_a_user_named_group(self) -> None:
        self.take(TREE, passwd=PASSWD.replace(b"xaver:", b"group:"))
        for words in (b"group", b"'group'", b"carl group", b"'group' carl"):
            self.assertEqual(self.broken(b"never %s read srv/hr/cases/one" % words), [b"group 1 /srv/hr/cases/one"], words)

    def test_everybody_else(self) -> None:
        for words in (b"everybody else", b"'everybody else'", b"others"):
            self.assertEqual(self.broken(b"never %s write /" % words), [])
            self.assertEqual(self.broken(b"never %s read /" % words), [b"everybody else 2 /"])
            self.assertEqual(self.broken(b"never carl %s anna read /srv" % words), [
                b"everybody else 1 /srv", b"anna 9 /srv", b"carl 1 /srv"], words)
            self.assertEqual(self.broken(b"always %s enter below srv/hr" % words), [])
        self.assertEqual(self.broken(b"never everybody read srv/hr/cases/one"), [
            b"anna 1 /srv/hr/cases/one", b"bert 1 /srv/hr/cases/one", b"xaver 1 /srv/hr/cases/one"])
        self.take(TREE, passwd=PASSWD.replace(b"xaver:", b"everybody else:"))
        self.assertEqual(self.broken(b"never 'everybody else' read srv/hr/cases/one"), [b"everybody\\040else 1 /srv/hr/cases/one"])
        self.assertEqual(self.broken(b"never everybody else read srv/hr/cases/one"), [])

    def test_names_that_begin_alike(self) -> None:
        """What is at or below a path, and nothing beside it that comes before or after in the order of bytes."""
        beside = dict.fromkeys((b"/srv/hr/a!", b"/srv/hr/a b", b"/srv/hr/a-/", b"/srv/hr/a0", b"/srv/hr/A"), FILE % b"rw-")
        self.take({**TREE, **beside, b"/srv/hr/a/": FOLDER % b"r-x", b"/srv/hr/a/in": FILE % b"rw-", b"/srv/hr/a/a/": FOLDER % b"r-x"})
        self.assertEqual(self.broken(b"never xaver read srv/hr/a/"), [b"xaver 3 /srv/hr/a"])
        self.assertEqual(self.broken(b"always xaver read srv/hr/a/"), [])
        for name in (b"a!", b"a b", b"a-", b"a0", b"A"):
            self.assertEqual(self.broken(b"never xaver read 'srv/hr/%s'" % name), [b"xaver 1 /srv/hr/" + name])

    def test_everybody_are_people_and_others(self) -> None:
        self.take({})  # What is in srv/hr is closed to all but hr.
        self.assertEqual(self.broken(b"never everybody read /")[:1], [b"everybody else 2 /"])
        self.assertEqual(self.broken(b"never everybody enter srv/"), [
            b"everybody else 1 /srv", b"anna 2 /srv", b"bert 2 /srv", b"carl 1 /srv", b"xaver 1 /srv"])
        self.assertEqual(self.broken(b"never people read /"), [b"anna 4 /", b"bert 4 /", b"carl 2 /", b"xaver 2 /"])
        self.assertEqual(self.broken(b"never others read srv/hr/"), [])
        self.assertEqual(self.broken(b"never everybody read srv/hr/"), [b"anna 2 /srv/hr", b"bert 2 /srv/hr"])
        self.assertEqual(self.broken(b"only everybody read /", "--quiet"), [])
        self.assertEqual(self.broken(b"only people read /", "--quiet"), [b"everybody else 2 /"])
        self.take(TREE)
        self.assertEqual(self.broken(b"always everybody enter srv/hr/"), [b"xaver 2 /srv/hr/cases/full"])

    def test_who_else_may(self) -> None:
        self.assertIn(b"        who else may: everybody else, anna, bert, xaver\n", self.check(b"never carl enter srv/hr/\n").out)
        self.assertIn(b"        who else may: anna, bert, carl, xaver\n", self.check(b"never others enter srv/hr/\n").out)
        self.assertIn(b"        who may: everybody else, anna, bert, carl\n", self.check(b"always xaver enter srv/hr/cases/full/\n").out)
        self.assertIn(b"        who else may: anna, bert\n", self.check(b"never xaver read srv/hr/\n").out)
        found = json.loads(self.check(b"never others carl enter srv/hr/\n", "--json").out)["rules"][0]["violations"]
        self.assertEqual([(it["user"], it["who_else"][0]) for it in found], [("everybody else", "anna"), ("carl", "everybody else")])

    def test_the_number_of_a_directory_service(self) -> None:
        self.write("small/meta", self.read("small/meta") + b"users-asked-for 13\n")
        beside = b"everybody else: users whom the snapshot does not have; it has 13 of a directory service\nsmall (of srva, "
        for rule, is_said in ((b"never others enter srv/hr/\n", True), (b"never carl enter srv/hr/\n", True),
                              (b"never xaver read srv/hr/\n", False), (b"never others write /\n", False)):
            self.assertEqual((rule, beside in self.check(rule).out), (rule, is_said))

    def test_write_in_a_directory_takes_search(self) -> None:
        self.assertEqual(self.broken(b"never xaver write srv/hr/tools/"), [])
        self.assertEqual(self.broken(b"always xaver write srv/hr/tools/"), [b"xaver 1 /srv/hr/tools"])

    def test_enter_is_of_directories(self) -> None:
        self.assertEqual(self.broken(b"always anna enter srv/hr/"), [])
        self.assertEqual(self.broken(b"always anna enter srv/hr/cases/one"), [b"anna 1 /srv/hr/cases/one"])

    def test_file_alone(self) -> None:
        self.assertEqual(self.broken(b"never xaver read srv/hr/cases/full/", "--file-alone"), [b"xaver 1 /srv/hr/cases/full/three"])

    def test_who_counts(self) -> None:
        self.take({b"/srv/hr/": FOLDER % b"r-x", b"/srv/hr/x": FILE.replace(b"1009", b"1") % b"rw-"})
        done = self.check(b"only @hr xaver read srv/hr/\n")
        self.expect(done, 0, b"small (of srva, 2026-11-27T03:10:00Z): 1 rule holds\n",
                    b"facl-check: 1 system account not shown (daemon); --all-users shows it\n")
        self.expect(self.check(b"only @hr xaver read srv/hr/\n", "--quiet"), 0, b"")
        self.assertEqual(self.broken(b"only @hr xaver read srv/hr/", "--all-users"), [b"daemon 1 /srv/hr/x"])
        self.assertEqual(self.broken(b"never daemon read srv/hr/"), [b"daemon 1 /srv/hr/x"])
        self.assertEqual(self.broken(b"never root write srv/hr/", "--with-root"), [b"root 1 /srv/hr"])
        self.expect(self.check(b"never root write srv/hr/\n"), 2, b"", b"facl-check: rules, line 1: word 2: a user of the uid 0, to "
                    b"whom the kernel grants nearly everything: leave it out, or give --with-root to judge it as any other user\n")


class Page(Checks):
    """The forms that facl-rules(5) has, in a tree where finance writes in /srv/fin, and /srv/teams can be listed by all."""

    TREE = {b"/srv/teams/": b"# owner: 0\n# group: 0\nuser::rwx\ngroup::r-x\nother::r-x\n",
            b"/srv/teams/plan": b"# owner: 0\n# group: 0\nuser::rw-\ngroup::r--\nother::---\n",
            b"/srv/fin/": b"# owner: 0\n# group: 2003\nuser::rwx\ngroup::rwx\nother::---\n",
            b"/srv/fin/book": b"# owner: 0\n# group: 2003\nuser::rw-\ngroup::rw-\nother::---\n"}
    OF_HR = [b"anna 2 /srv/hr", b"bert 2 /srv/hr"]
    FORMS = {"never guest read below /srv/teams": [], "never guest read /srv/teams": [b"guest 1 /srv/teams"],
             "only group finance write below /srv/fin": [], "only ines mara write /srv/fin": [],
             "always group finance read /srv/fin": [], "never everybody else write /srv": [],
             "never people read /srv/hr": OF_HR, "never everybody read /srv/hr": OF_HR}

    def test_its_forms(self) -> None:
        users = b"".join(b"%s:x:%d:%d::/:/bin/sh\n" % (name, uid, uid) for uid, name in ((1010, b"guest"), (1011, b"ines"), (1012, b"mara")))
        self.take(self.TREE, passwd=PASSWD + users, group=GROUP + b"finance:x:2003:ines,mara\n")
        with open(os.path.join(COMMANDS, "..", "docs", "pages", "facl-rules.5.md"), encoding="utf-8") as file:
            forms = re.findall(r"^\| `((?:never|only|always) [^`]*)` \|", file.read(), re.MULTILINE)
        self.assertEqual(forms, [*self.FORMS])
        for form, wanted in self.FORMS.items():
            self.assertEqual((form, self.broken(form.encode())), (form, wanted))


class Report(Checks):
    RULES = b"never xaver read srv/hr/cases/   # a contractor, that's why\nalways @hr write srv/hr/cases/\n\nnever others write /\n"

    def test_report(self) -> None:
        wanted = b"""\
rules, line 1: never xaver read srv/hr/cases/
    xaver may read 2 files, first: /srv/hr/cases/one, /srv/hr/cases/two
        by  /: other::r-x
            /srv: other::r-x
            /srv/hr: user:xaver:r-x
            /srv/hr/cases: user:xaver:--x
            /srv/hr/cases/one: user:xaver:r--
        who else may: anna, bert
rules, line 2: always @hr write srv/hr/cases/
    bert may not write 1 file of 5, first: /srv/hr/cases/two
        by  /srv/hr/cases/two: group::rw- (effective r--)
        who may: anna
small (of srva, 2026-11-27T03:10:00Z): 2 of 3 rules do not hold
"""
        self.expect(self.check(self.RULES), 1, wanted)

    def test_at_a_terminal(self) -> None:
        self.write("rules", self.RULES)
        os.chmod(self.path("rules"), 0o600)
        done = self.at_terminal("facl-check", ["small", "rules"], {"COLUMNS": "50", "LINES": "90"})
        plain = re.sub(rb"\x1b\[\d*m", b"", done.out)
        self.assertEqual((done.status, max(map(len, plain.splitlines())), plain.count(b"\n")), (1, 50, 13))
        self.assertIn(b"\x1b[31mrules, line 1: never xaver read srv/hr/cases/\x1b[0m\n", done.out)
        done = self.at_terminal("facl-check", ["small", "rules"], {"COLUMNS": "50", "LINES": "90", "NO_COLOR": "yes"})
        self.assertEqual(done.out, plain)
        done = self.at_terminal("facl-check", ["small", "rules"], {"COLUMNS": "50", "LINES": "5", "PAGER": "echo paged"})
        self.assertEqual(done.out, b"paged\n")

    def test_all_hold(self) -> None:
        self.expect(self.check(b"never others write /\n"), 0, b"small (of srva, 2026-11-27T03:10:00Z): 1 rule holds\n")
        self.expect(self.check(b"never others write /\n", "--quiet"), 0, b"")

    def test_json(self) -> None:
        found = json.loads(self.check(self.RULES, "--json").out)
        self.assertEqual((found["schema"], found["broken"]), ("facl-check/1", 2))
        self.assertEqual([it["holds"] for it in found["rules"]], [False, False, True])
        self.assertEqual(found["rules"][1]["violations"], [{
            "user": "bert", "count": 1, "paths": ["/srv/hr/cases/two"],
            "entries": [{"path": "/srv/hr/cases/two", "entries": ["group::rw- (effective r--)"]}], "who_else": ["anna"]}])


class Digits(Checks):
    """Names that are digits alone, which in a question are ids."""

    def setUp(self) -> None:
        super().setUp()
        self.take({**TREE, b"/srv/hr/cases/one": FILE.replace(b"user:1009", b"user:3000") % b"rw-",
                   b"/srv/hr/": FOLDER.replace(b"user:1009", b"user:3000") % b"r-x",
                   b"/srv/hr/cases/": FOLDER.replace(b"user:1009", b"user:3000") % b"--x"},
                  passwd=PASSWD + b"2024:x:3000:3000::/:\nmara:x:2024:2024::/:\n",
                  group=GROUP + b"staff:x:2003:anna\n2003:x:500:carl\nnone:x:2004:\n")

    def test_users(self) -> None:
        self.assertEqual(self.broken(b"never '2024' read srv/hr/cases/one"), [b"2024 1 /srv/hr/cases/one"])
        self.assertEqual(self.broken(b"never mara 3000 read srv/hr/cases/one"), [b"2024 1 /srv/hr/cases/one"])
        self.assertEqual(self.broken(b"only anna bert mara read srv/hr/cases/one"), [b"2024 1 /srv/hr/cases/one"])
        self.assertIn(b"by  /: other::r-x", self.check(b"never '2024' read srv/hr/cases/one\n").out)

    def test_a_word_that_is_an_id_and_a_name(self) -> None:
        # A rule about mara, whose id it is, held while the user of that name read the file.
        for who in (b"2024", b"@2003"):
            self.expect(self.check(b"never %s read srv/hr/cases/one\n" % who), 2, b"",
                        b"facl-check: rules, line 1: word 2: " + TWO_MEANINGS + b"\n")

    def test_a_user_whom_no_question_names(self) -> None:
        self.take(TREE, passwd=PASSWD + b"2024:x:1009:1009::/:\n")
        self.expect(self.check(b"never '2024' read srv/hr/\n"), 2, b"", b"facl-check: user \"2024\" cannot be named in a "
                    b"question: digits alone mean an id, and the id of this user is also that of xaver\n")

    def test_rows_of_one_id(self) -> None:
        self.take(TREE, group=GROUP + b"more:x:2001:carl\n")
        for name in (b"hr", b"more", b"2001"):
            self.assertEqual(self.broken(b"never @%s read srv/hr/cases/one" % name), [b"%s 1 /srv/hr/cases/one" % it for it in (b"anna", b"bert", b"carl")])

    def test_groups(self) -> None:
        self.assertEqual(self.broken(b"never @staff read srv/hr/cases/two"), [b"anna 1 /srv/hr/cases/two"])
        self.assertEqual(self.broken(b"never @'2003' read srv/hr/cases/two"), [])
        self.expect(self.check(b"never @none read srv/hr/\n", "--quiet"), 0, b"",
                    b"facl-check: warning: rules, line 1: word 2: a group that has no members in the snapshot\n")
        self.expect(self.check(b"# one\nnever @root read srv/hr/\n", "--quiet"), 0, b"",
                    b"facl-check: warning: rules, line 2: word 2: a group that has no members in the snapshot but users of the uid 0\n")

    def test_more_digits_than_a_number_may_have(self) -> None:
        self.expect(self.check(b"never %s read srv/hr/\n" % (b"9" * 5000)), 2, b"",
                    b"facl-check: rules, line 1: " + NO_USER + b"\n")


class Comments(Checks):
    def test_a_hash_in_a_name(self) -> None:
        self.take({**TREE, b"/srv/hr/C#": FILE % b"rw-", b"/srv/hr/C": FILE % b"---"})
        for rule in (b"never anna read srv/hr/C# # it's", b"never anna read 'srv/hr/C#' # it's", b"never anna read srv/hr/C# # it's # so"):
            self.assertEqual(self.broken(rule), [b"anna 1 /srv/hr/C#"], rule)
        self.assertIn(b"a single quote is open", self.check(b"never anna read srv/hr/C#it's\n").messages)

    def test_a_file_that_begins_with_a_hyphen(self) -> None:
        dump = b"# file: -x\n# owner: 1001\n# group: 2001\nuser::rw-\ngroup::rw-\nother::---\n\n"
        self.write("small/dump", dump)
        self.assertEqual([row[2:5] for row in (line.split(b"\t") for line in self.check(b"never anna write -x\n", "--tsv").out.splitlines()[1:])],
                         [[b"anna", b"1", b"'-x"]])


class WrongRules(Checks):
    def test_each_fault_is_said(self) -> None:
        done = self.check(b"never anna read srv/hr/\nnever nobody read srv/hr/\nonly @nix read srv/hr/\nalways anna read srv/nix\n"
                          b"never hr read srv/hr/\nnever anna see srv/hr/\nnever 4711 read srv/hr/\nnever 'anna read srv\n"
                          b"never anna read srv/../srv\nnever read srv/hr/\nnever anna read ''\nonly everybody else read /\n"
                          b"only anna 'everybody else' read /\nnever group read /\nnever group law group nix read /\nmaybe anna read /\n"
                          b"never anna read below srv/hr/cases/one\nbelow /\nnever anna read\nnever everybody else else read /\n")
        texts = [NO_USER, b"word 2: no such group in the snapshot: write a name or an id of its group", b"word 4: no such file in the "
                 b"snapshot: write the whole name of one that is recorded", b"word 2: no such user in the snapshot, but a group: write "
                 b"group before it", NO_RIGHT, NO_USER, b"a single quote is open: in a name write it as \\047",
                 b"word 4: write the path from the root, without ..", b"nobody is named: write users, group NAME, people, everybody else "
                 b"or everybody after the first word; " + FORM, b"an empty word is not a PATH; / means all files", ONLY_ELSE, ONLY_ELSE,
                 b"word 2: write the name of a group after group", b"word 5: no such group in the snapshot: write a name or an id of its group",
                 NO_KIND, b"word 5: is no folder, so nothing is below it: leave out below", NO_KIND, NO_RIGHT, NO_USER.replace(b"2", b"4")]
        wanted = b"".join(b"facl-check: rules, line %d: %s\n" % (place, text) for place, text in enumerate(texts, 2))
        self.expect(done, 2, b"", wanted)

    def test_no_rules(self) -> None:
        self.expect(self.check(b"# none\n"), 2, b"", b"facl-check: rules: has no rules; facl rules FOLDER prints those "
                    b"that hold now\n")
        self.expect(self.run_command("facl-check", ["small"]), 2, b"", b"facl-check: RULES is missing; facl rules FOLDER >rules "
                    b"writes those that hold now\n")
        self.expect(self.run_command("facl-check", ["small", "-"], b"never anna see srv\n"), 2, b"", b"facl-check: standard input, "
                    b"line 1: " + NO_RIGHT + b"\n")
        rows = self.read("small/passwd")
        for row in (b"+", b"zoe:x:one:100::/:/bin/sh"):
            self.write("small/passwd", row + b"\n" + rows)
            self.expect(self.check(b"never anna read srv\n"), 2, b"",
                        b"facl-check: small: the program does not load it: facl: setup: passwd: text line 1: bad row\n")
        self.write("small/passwd", rows)
        self.expect(self.run_command("facl-check", ["small", "nix"]), 2, b"", b"facl-check: nix: No such file or directory\n")

    def test_a_file_that_others_can_write(self) -> None:
        self.write("rules", b"never anna read srv/hr/\n")
        os.chmod(self.path("rules"), 0o666)
        done = self.run_command("facl-check", ["small", "rules"])
        self.assertEqual((done.status, b"not trusted" in done.messages), (2, True))


class Written(Checks):
    def test_what_is_written_holds(self) -> None:
        done = self.run_command("facl-check", ["--write", "small", "srv/hr", "srv/hr/cases/full", "srv/hr/cases/one"])
        self.assertEqual((done.status, done.messages), (0, b""))
        lines = [line for line in done.out.splitlines() if line and not line.startswith(b"#")]
        self.assertEqual(lines[:6], [
            b"never everybody else read /srv/hr/", b"only group hr xaver read /srv/hr/", b"always group hr read /srv/hr/",
            b"never everybody else write /srv/hr/", b"only group hr write /srv/hr/", b"always anna write /srv/hr/"])
        self.assertIn(b"always group hr write /srv/hr/cases/one", lines)
        self.assertEqual(self.rows(done.out), [])

    def test_rules_below(self) -> None:
        """Where everybody else may read the folder itself, the rules on what is below it are written."""
        base = b"# owner: 0\n# group: 2001\nuser::rwx\ngroup::r-x\nother::"
        self.take({b"/srv/hr/": base + b"r-x\n", b"/srv/hr/pay": base + b"---\n"})
        done = self.run_command("facl-check", ["--write", "small"])
        self.assertEqual([line for line in done.out.splitlines() if b" read " in line], [
            b"always group hr read /srv/hr/", b"never everybody else read below /srv/hr", b"only group hr read below /srv/hr"])
        self.assertEqual(self.rows(done.out), [])

    def test_a_user_named_as_a_word(self) -> None:
        for word in (b"others", b"people", b"everybody", b"else", b"group"):
            self.take(TREE, passwd=PASSWD.replace(b"xaver:", word + b":"))
            done = self.run_command("facl-check", ["--write", "small", "srv/hr"])
            self.assertIn(b"only group hr '%s' read /srv/hr/\n" % word, done.out)
            self.assertEqual(self.rows(done.out), [])
            self.assertEqual(self.broken(b"never '%s' read srv/hr/" % word), [word + b" 3 /srv/hr"])

    def test_odd_names(self) -> None:
        passwd = PASSWD.replace(b"xaver:", b"others:").replace(b"bert:", b"@hr:").replace(b"carl:", b"o'x \x1b[1m:")
        group = GROUP.replace(b"bert", b"@hr").replace(b"carl", b"o'x \x1b[1m").replace(b"law:", b"the law:")
        group += b"more:x:1003:\n"
        name = b"/srv/hr/it's \xff\\012#1"
        self.take({b"/srv/hr/": FOLDER % b"r-x", name: FILE.replace(b"1009", b"1003") % b"rw-"}, passwd=passwd, group=group)
        done = self.run_command("facl-check", ["--write", "small", "srv/hr", os.fsdecode(name.replace(b"\\012", b"\n"))])
        self.assertEqual((done.status, done.messages), (0, b""))
        self.assertIn(b"'others'", done.out)
        self.assertNotRegex(done.out, b"[\x00-\x09\x0b-\x1f\x7f\xff]")
        self.assertEqual(self.rows(done.out), [])
        rules = done.out.replace(b"only", b"never").replace(b"always", b"never")
        again = self.check(rules)
        self.assertEqual((again.status, again.messages), (1, b""))
        self.assertNotRegex(again.out, b"[\x00-\x09\x0b-\x1f\x7f\xff]")

    def test_by_default_the_folders_of_the_snapshot(self) -> None:
        done = self.run_command("facl-check", ["--write", "small"])
        self.assertIn(b"\n# /srv/hr/\n", done.out)
        self.assertEqual(self.run_command("facl-check", ["--write", "--json", "small"]).status, 2)

    def test_where_no_rule_holds(self) -> None:
        base = b"# owner: 0\n# group: 0\nuser::rwx\ngroup::rwx\nother::"
        self.take({b"/srv/hr/": base + b"rwx\n", b"/srv/hr/pay": base + b"---\n", b"/srv/hr/open": base + b"rwx\n"})
        done = self.run_command("facl-check", ["--write", "small"])
        self.assertEqual((done.status, done.messages), (0, b""))
        self.assertTrue(done.out.endswith(b"\n\n# /srv/hr/\n# none: others may read some of these files, and write some, and no user "
                                          b"may read all or write all\n"), done.out)

    def test_a_relative_dump(self) -> None:
        """Its paths are as they are there, in rules and in what is said of them."""
        self.write("small/dump", self.read("small/dump").replace(b"# file: /\n", b"# file: x\n").replace(b"# file: /", b"# file: "))
        self.write("small/meta", b"")
        self.assertIn(b"\n# srv/hr/cases/\n", self.run_command("facl-check", ["--write", "small", "srv/hr/cases"]).out)
        self.assertIn(b"    xaver may read 2 files, first: srv/hr/cases/one, srv/hr/cases/two\n        by  srv: other::r-x\n",
                      self.check(Report.RULES).out)

    def test_a_name_that_a_shell_would_run_is_quoted(self) -> None:
        for name, word in ((b"$(id)", b"'/srv/hr/$(id)'"), (b"`id`", b"'/srv/hr/`id`'"), (b"a;b", b"'/srv/hr/a;b'"), (b"a-b.c", b"/srv/hr/a-b.c")):
            self.take({b"/srv/hr/" + name: FILE % b"rw-"})
            done = self.run_command("facl-check", ["--write", "small", os.fsdecode(b"srv/hr/" + name)])
            self.assertIn(b"\nnever everybody else read " + word + b"\n", done.out)
            self.assertEqual(self.rows(done.out), [])


class Streams(Checks):
    def test_an_interrupted_run_leaves_nothing(self) -> None:
        self.write("rules", Report.RULES)
        os.chmod(self.path("rules"), 0o600)
        for wait in (0.05, 0.15, 0.3):
            with tempfile.TemporaryDirectory() as folder:
                words = [sys.executable, "-I", os.path.join(COMMANDS, "facl-check"), "small", "rules"]
                run = subprocess.Popen(words, cwd=self.folder, env={**os.environ, "TMPDIR": folder}, preexec_fn=restore_signals,
                                       stdout=subprocess.DEVNULL, stderr=subprocess.DEVNULL)
                time.sleep(wait)
                run.send_signal(signal.SIGTERM)
                self.assertIn(run.wait(), (1, 128 + signal.SIGTERM, -signal.SIGTERM))
                self.assertEqual(os.listdir(folder), [])


if __name__ == "__main__":
    unittest.main()
