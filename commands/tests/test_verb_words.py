"""The words of verbs: an option means the same before and after its verb, and reaches the command that the verb runs."""
from __future__ import annotations

import os
import shutil
import unittest
from typing import Dict, List, Tuple

from verb_case import DAY, VerbCase, restoring, with_entry_of_nobody

from facl_commands.base.programs import LINUX
from facl_commands.verbs.command import read_line
from facl_commands.verbs.options import BY_FIELD, VerbOption
from facl_commands.verbs.table import BY_VERB, VERBS, Verb, parser_of

# By each verb that runs a command: its words, and those of the command, of which OPTIONS is the place of its options.
BASES: Dict[str, Tuple[str, str]] = {
    "snapshot": ("tree -o made", "facl-snapshot OPTIONS made tree"),
    "who": ("w /", "facl-who OPTIONS w SNAP /"),
    "user": ("mara /", "facl-who OPTIONS --user mara SNAP /"),
    "files": ("--owner mara", "facl-who OPTIONS --owner mara SNAP"),
    "who-removes": ("/srv/project/notes.txt", "facl-who OPTIONS --remove /srv/project/notes.txt SNAP"),
    "new-file": ("/srv/project mara", "facl-who OPTIONS --new-file /srv/project mara SNAP"),
    "diff": ("old new", "facl-diff OPTIONS OLD SNAP"),
    "audit": ("/srv", "facl-audit OPTIONS SNAP /srv"),
    "audit fix": ("set-user-id", "facl-audit OPTIONS --edits set-user-id SNAP"),
    "check": ("rules", "facl-check OPTIONS SNAP rules"),
    "rules": ("/srv", "facl-check --write OPTIONS SNAP /srv"),
    "plan": ("edits -o made", "facl-plan OPTIONS --plan made SNAP edits"),
    "leaver": ("4711 -o made", "facl-plan OPTIONS --plan made SNAP leaver"),
    "joiner": ("ben --like guest -o made", "facl-plan OPTIONS --plan made SNAP joiner"),
    "apply": ("absent", "facl-apply OPTIONS absent"),
    "undo": ("absent", "facl-apply --undo OPTIONS absent"),
    "open": ("/srv/project/notes.txt guest r -o made", "facl-plan OPTIONS --plan made SNAP edits"),
    "move-group": ("/srv/project/drafts/old design staff -o made", "facl-plan OPTIONS --plan made SNAP moved"),
    "restore": ("/srv/project -s old -o made", "facl-plan OPTIONS --plan made SNAP back"),
    "page": ("", "facl-report OPTIONS SNAP"),
    "review": ("/srv/project", "facl-report OPTIONS --for-review --folder /srv/project SNAP"),
    "ask": ("script", "facl-ask OPTIONS SNAP script"),
}
VALUES = {"exclude": "*.x", "split": "300", "readers": "root", "users": "names", "depth": "1", "umask": "077",
          "list": "mask-cuts-entry", "accepted": "fine", "fail_on": "none", "weight": "low"}
# Options that exclude each other; those of the first run, of the second one, and what is tried with other words.
ONE, OTHER, APART = {"tsv", "program", "split"}, {"json", "acl5", "users", "list"}, {"each", "hosts", "timeout"}


def words_of_option(option: VerbOption, name: str) -> List[str]:
    return [name, *([option.choices[0] if option.choices else "7"] if option.value else [])]


class Places(unittest.TestCase):
    def read(self, words: List[str]) -> Tuple[str, Dict[str, object]]:
        verb, rest = read_line(words)
        return verb.name, vars(parser_of(verb).parse_intermixed_args(rest))

    def lines(self, verb: Verb, option: VerbOption, name: str) -> List[List[str]]:
        """Lines with the option at each place."""
        operands = [it.choices[0] if it.choices else "x" for it in verb.operands if it.nargs in (None, "+")]
        needed = ["--%s=y" % it for it in verb.one_of[:1] if option.field() not in verb.one_of]
        words, verb_words = words_of_option(option, name), verb.name.split()
        found = [[*verb_words, *needed, *operands, *words], [*verb_words, *needed, *words, *operands],
                 [*words, *verb_words, *needed, *operands], [*needed, *words, *verb_words, *operands]]
        if option.value:
            found.append([("%s=%s" if name.startswith("--") else "%s%s") % (*words,), *verb_words, *needed, *operands])
        return found

    def test_before_and_after(self) -> None:
        count = 0
        for verb in VERBS:
            for option in map(BY_FIELD.__getitem__, verb.options):
                for name in option.names:
                    first, *others = map(self.read, self.lines(verb, option, name))
                    self.assertEqual(first[0], verb.name)
                    self.assertTrue(first[1][option.field()], (verb.name, name))
                    self.assertEqual(others, [first] * len(others), (verb.name, name))
                    count += 1
        self.assertGreater(count, 150)

    def test_letters_together(self) -> None:
        for words in (["-qs", "old", "who", "r"], ["-qsold", "who", "r"], ["-s", "old", "-q", "who", "r"],
                      ["who", "r", "-qs", "old"]):
            name, its = self.read(words)
            self.assertEqual((name, its["perms"], its["snapshot"], its["quiet"]), ("who", "r", "old", True), words)

    def test_options_within_a_verb(self) -> None:
        """They may be between its two words, but for --, after which all words are FOLDERs."""
        expected = self.read(["audit", "fix", "set-user-id", "-q", "--accepted", "fix"])
        for words in (["audit", "-q", "--accepted", "fix", "fix", "set-user-id"],
                      ["-q", "audit", "--accepted=fix", "fix", "set-user-id"]):
            self.assertEqual(self.read(words), expected)
        others: List[List[str]] = [["--", "fix"], ["--accepted", "fix"], ["-q"], []]
        self.assertEqual([self.read(["audit", *words])[0] for words in others], ["audit"] * 4)

    def test_common_options_have_one_name(self) -> None:
        names = {"snapshot": ("-s", "--snapshot"), "output": ("-o", "--output"), "quiet": ("-q", "--quiet"),
                 "dry_run": ("-n", "--dry-run"), "json": ("--json",), "tsv": ("--tsv",), "alone": ("--alone",),
                 "all_users": ("--all-users",), "with_root": ("--with-root",), "no_pager": ("--no-pager",),
                 "program": ("--program",)}
        self.assertEqual({field: BY_FIELD[field].names for field in names}, names)
        for verb in VERBS:
            for action in parser_of(verb)._actions:
                for name in set(action.option_strings) - {"-h", "--help"}:
                    known = next(it for it in BY_FIELD.values() if name in it.names)
                    self.assertEqual(action.help, known.help, (verb.name, name))


class Commands(VerbCase):
    """Each option that a command takes too means there what it means to the command."""

    def setUp(self) -> None:
        super().setUp()
        self.snap, self.old = self.stored("new"), self.stored("old", seconds=3 * DAY)
        dump = self.read("store/new/dump")
        new = with_entry_of_nobody(dump.replace(b"mask::r--", b"mask::rw-"))
        self.write("store/new/dump", new)
        self.write("back", restoring(dump, new))
        self.write("moved", b"chgrp staff /srv/project/drafts/old '/srv/project/drafts/old/logo 1.svg'\n")
        self.write("leaver", b"setfacl -n -x u:4711 /srv/project/README\n")
        self.write("joiner", b"setfacl -n -m u:ben:r-x /srv/project/drafts\nsetfacl -n -m u:ben:r-- /srv/project/drafts/logo.svg\n"
                   b"setfacl -n -m d:u:ben:rw- /srv/project/drafts\n")
        os.mkdir(self.path("tree"))
        for name, text in (("edits", b"setfacl -n -m u:guest:r /srv/project/notes.txt\n"), ("script", b"who r srv\n"),
                           ("rules", b"never guest read /srv/project/\n"), ("names", b"root\n"),
                           ("fine", b"set-user-id /srv/project/ it is meant\n"), ("tree/a.x", b"")):
            self.write(name, text)

    def options(self, verb: Verb, left_out: "set[str]") -> List[VerbOption]:
        return [BY_FIELD[it] for it in verb.options if BY_FIELD[it].command and it not in {*left_out, *APART}]

    def compare(self, verb: Verb, left_out: "set[str]") -> None:
        words, command = BASES[verb.name]
        values = {**VALUES, "program": LINUX.find()}
        mine: List[str] = []
        its: List[str] = []
        for option in self.options(verb, left_out):
            value = values.get(option.field(), "")
            mine += [option.names[-1], *[value] * bool(value)]
            its += [option.command, *[value] * bool(value)]
        quiet = ["-q"] * ("quiet" in verb.options and verb.name != "snapshot")
        done = self.verb(*verb.name.split(), *words.split(), *mine, *quiet)
        shutil.rmtree(self.path("made"), ignore_errors=True)
        name, *rest = command.split()
        places = {"OPTIONS": its, "SNAP": [self.snap], "OLD": [self.old]}
        quiet = ["--quiet"] * (verb.name == "check")  # Of the others it is about the verb's own messages.
        other = self.run_command(name, [*quiet, *(word for it in rest for word in places.get(it, [it]))])
        shutil.rmtree(self.path("made"), ignore_errors=True)
        self.assert_same(verb.name, done, other)
        self.assertEqual(done.status == 2, "absent" in words, (verb.name, done))

    def test_each_option(self) -> None:
        known = {verb.name for verb in VERBS if verb.words and verb.name != "daily"}  # Which test_verbs.py runs.
        self.assertEqual(set(BASES), known)
        for name in BASES:
            for left_out in (ONE, OTHER):
                with self.subTest(name, left_out=left_out):
                    self.compare(BY_VERB[name], left_out)

    def test_all_are_tried(self) -> None:
        """Each option of each verb is in one of the two runs, in APART, or has a place of its own in the row of the verb."""
        for name in BASES:
            verb = BY_VERB[name]
            tried = {it.field() for left_out in (ONE, OTHER) for it in self.options(verb, left_out)}
            rest = {it for it in verb.options if BY_FIELD[it].command} - tried - APART
            self.assertEqual(rest, set(), name)


if __name__ == "__main__":
    unittest.main()
