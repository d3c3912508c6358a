"""What bash, zsh and fish complete in lines of facl, which is made of the parsers of the verbs."""
from __future__ import annotations

import os
import shlex
import shutil
import subprocess
import unittest
from typing import List

from common import COMMANDS
from test_completion import FILES, SCRIPT, Shell, made
from verb_case import VerbCase

from facl_commands.verbs.options import FINDINGS
from facl_commands.verbs.table import VERBS, parser_of

HOSTILE_NAMES = ('$(touch$IFS"made")', "`touch${IFS}made`", "${x[$(touch made)]}", "x;touch made", "a b", "it's",
                 'd"q', "-x", "*", "!!")
VERB_NAMES = sorted(verb.name for verb in VERBS if " " not in verb.name)


@unittest.skipIf(shutil.which("bash") is None, "it takes bash")
class Bash(VerbCase):
    def setUp(self) -> None:
        super().setUp()
        self.stored("new")
        self.stored("old", seconds=300)
        self.write("made.bash", made("bash").encode())
        self.environment = {**os.environ, "PATH": COMMANDS + ":" + os.environ["PATH"], "LC_ALL": "C.UTF-8",
                            "FACL_STORE": self.store,
                            "FACL_SNAPSHOT": ""}

    def complete(self, *words: str, before: str = "") -> List[str]:
        done = subprocess.run(["bash", "-c", SCRIPT, "bash", "made.bash", before, "facl", *words], cwd=self.folder,
                              capture_output=True,
                              text=True, env=self.environment, check=True)
        self.assertEqual(done.stderr, "")
        return done.stdout.splitlines()

    def test_verbs(self) -> None:
        self.assertEqual(self.complete(""), VERB_NAMES)
        self.assertEqual(self.complete("wh"), ["who", "who-removes", "why"])
        self.assertEqual(self.complete("-s", "new", "pl"), ["plan"])
        self.assertEqual(self.complete("--json", "aud"), ["audit"])
        self.assertEqual(self.complete("help", "und"), ["undo"])
        self.assertEqual(self.complete("--"), ["--help", "--version"])

    def test_options(self) -> None:
        self.assertEqual(self.complete("who", "read", "--al"), ["--all-users", "--alone"])
        self.assertEqual(self.complete("apply", "-"), ["--drop-capabilities", "--dry-run", "--help", "-n"])
        self.assertEqual(self.complete("audit", "fix", "--fail"), [""])
        self.assertEqual(self.complete("audit", "--fail-on", "m"), ["middle"])
        self.assertEqual(self.complete("audit", "--weight", ""), ["high", "low", "middle"])

    def test_words_of_the_snapshot(self) -> None:
        self.assertEqual(self.complete("user", "m"), ["mara"])
        self.assertEqual(self.complete("files", "--owner", "in"), ["ines"])
        self.assertEqual(self.complete("why", "mara", "/srv/project/d"), ["compopt -o nospace", "/srv/project/drafts/"])
        self.assertEqual(self.complete("who", "read", "/srv", "/srv/project/n"), ["/srv/project/notes.txt"])
        self.assertEqual(self.complete("-s", ""), ["new", "old"])
        self.assertEqual(self.complete("diff", "old", "n"), ["new"])
        self.assertEqual(self.complete("audit", "fix", "set-"), ["set-group-id", "set-user-id"])
        self.assertIn("fix", self.complete("audit", "f"))
        self.assertEqual(self.complete("snapshot", "--readers", "desi"), ["design"])

    def test_files(self) -> None:
        for words in (["apply", ""], ["check", "r"], ["snapshot", "/"], ["plan", "-o", "x"]):
            self.assertEqual(self.complete(*words)[:1], ["compopt -o default"])

    def test_without_a_snapshot(self) -> None:
        shutil.rmtree(self.store)
        self.assertIn("root", self.complete("user", "ro"))
        self.assertEqual(self.complete("who", "read", "/")[:1], ["compopt -o default"])

    def test_no_name_is_evaluated(self) -> None:
        """Users and files of a snapshot are data of others."""
        rows = "".join("%s:x:%d:100::/:\n" % (name, 3000 + number) for number, name in enumerate(HOSTILE_NAMES))
        names = [name for name in FILES if not set(name) & set("\n\\/")]
        records = "".join("# file: /srv/%s\nuser::rw-\ngroup::r--\nother::r--\n\n" % name for name in names)
        self.write("store/new/passwd", self.read("store/new/passwd") + rows.encode())
        self.write("store/new/dump", self.read("store/new/dump") + records.encode())
        rc = "PS1='READY> '\nsource %s\nfacl() { printf '%%s\\0' \"$@\" >args; }\n" % shlex.quote(self.path("made.bash"))
        self.write("rc", rc.encode())
        os.environ.update(FACL_STORE=self.store, FACL_SNAPSHOT="")
        self.addCleanup(os.environ.pop, "FACL_STORE")
        shell = Shell(self.folder)
        self.addCleanup(shell.end)
        for line, words in (("user \\$\\(", ["user", '$(touch$IFS"made")']), ("user '`", ["user", "`touch${IFS}made`"]),
                            ("why \\$\\{x", ["why", "${x[$(touch made)]}"]), ("user x\\;", ["user", "x;touch made"]),
                            ("why mara /srv/\\`", ["why", "mara", "/srv/`touch made`"]),
                            ("why mara '/srv/$(", ["why", "mara", "/srv/$(touch made)"]),
                            ("user a\\ ", ["user", "a b"]), ("user it", ["user", "it's"]), ("user '!", ["user", "!!"]),
                            ("why mara /srv/a\\ ", ["why", "mara", "/srv/a file"])):
            os.write(shell.side, b"facl " + os.fsencode(line) + b"\t\n")
            shell.wait()
            self.assertEqual((line, self.read("args").decode().split("\0")[:-1]), (line, words))
        self.assertFalse({"made"} & set(os.listdir(self.folder)))


class Scripts(unittest.TestCase):
    def test_each_has_each_word(self) -> None:
        for shell in ("bash", "zsh", "fish"):
            text = made(shell)
            for verb in VERBS:
                self.assertRegex(text, r"(?m)\b%s\b" % verb.name.split()[-1], shell)
                for action in parser_of(verb)._actions if " " not in verb.name else ():
                    for name in set(action.option_strings) - {"-h", "--help"}:
                        self.assertIn(self.spelled(shell, name), text, (shell, verb.name))
            self.assertIn(FINDINGS[0], text if shell != "bash" else text + FINDINGS[0])

    def spelled(self, shell: str, name: str) -> str:
        """An option as the completion of a shell has it."""
        return name if shell != "fish" else "-l " + name[2:] if name.startswith("--") else "-s " + name[1:]

    def test_shells_take_them(self) -> None:
        for shell, words in (("bash", ["bash", "-n"]), ("zsh", ["zsh", "-n"]), ("fish", ["fish", "-n"])):
            if shutil.which(shell):
                done = subprocess.run([*words, "/dev/stdin"], input=made(shell), capture_output=True, text=True,
                                      check=False)
                self.assertEqual((shell, done.returncode, done.stderr), (shell, 0, ""))


if __name__ == "__main__":
    unittest.main()
