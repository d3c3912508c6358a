"""The launcher `facl`: it is the program, to the byte, where no verb is given, and else runs the verbs."""
from __future__ import annotations

import os
import pty
import shutil
import stat
import subprocess
import unittest
from functools import partial
from typing import List, Tuple

from common import COMMANDS, Case, Done

from facl_commands.base.programs import ACL5

FACL = os.path.join(COMMANDS, "facl")
TEXTS = ["--passwd", "before/passwd", "--group", "before/group", "--dump", "before/dump"]
SCRIPT = b"who r srv/share/one\nfrob\ngetfacl -c srv\nsetfacl -m u:ines:rwx srv\nindex\n"
# Words after which there is no verb, each with what is on standard input.
RUNS: Tuple[Tuple[List[str], bytes], ...] = (
    (TEXTS, SCRIPT), (["--passwd=before/passwd", *TEXTS[2:]], SCRIPT), (TEXTS[2:] + TEXTS[:2], SCRIPT),
    ([], b"index\n"), ([], b""),
    (["--passwd", "absent"], b""), (["--passwd"], b""), (["--passwd", "before/group", "who"], b"index\n"),
    (["--groups"], b""),
    (["--dump", "before/dump"], b"index\n"), (["--dump=before/dump\n"], b""), ([*TEXTS, "--frob"], b""),
    (TEXTS, b"\xff\0\r\n'" * 20),
)
# Streams of a shell's command.
STREAMS = ("<&-", ">&-", "2>&-", "<&- >&-", ">&- 2>&-", "<&- >&- 2>&-", ">/dev/full", "2>/dev/full", "</",
           "<before/dump")


class Launcher(Case):
    def run_file(self, file: str, words: List[str], text: bytes) -> Done:
        done = subprocess.run([file, *words], input=text, capture_output=True, cwd=self.folder, check=False)
        return Done(done.returncode, done.stdout, done.stderr)

    def test_it_is_the_program(self) -> None:
        for words, text in RUNS:
            with self.subTest(words):
                self.assertEqual(self.run_file(FACL, words, text), self.run_file(ACL5.find(), words, text))

    def test_its_streams(self) -> None:
        for streams in STREAMS:
            for words in RUNS[0][0], RUNS[3][0]:
                line = '"$@" ' + streams
                runs = [self.run_file("/bin/sh", ["-c", line, "sh", file, *words], b"index\n")
                        for file in (FACL, ACL5.find())]
                self.assertEqual(runs[0], runs[1], (streams, words))

    def test_by_other_names(self) -> None:
        os.symlink(FACL, self.path("facl link"))
        os.symlink("facl link", self.path("-facl"))
        for name in ("facl link", "-facl"):
            done = subprocess.run(["sh", "-c", './"$1" help; ./"$1" --passwd absent', "sh", name], cwd=self.folder,
                                  capture_output=True,
                                  check=False)
            self.assertIn(b"facl undo PLAN", done.stdout)
            self.assertEqual((done.returncode, done.stderr), (2, b"facl: absent: cannot read\n"))

    def test_what_is_installed(self) -> None:
        """The program that is installed beside it answers, whatever the environment names."""
        shutil.copytree(os.path.join(COMMANDS, "facl_commands"), self.path("facl_commands"))
        for name in ("facl", "facl-verbs"):
            shutil.copy(os.path.join(COMMANDS, name), self.path(name))
        shutil.copy(ACL5.find(), self.path("facl-program"))
        self.write("origin", b"They were proved.\n")
        done = subprocess.run([self.path("facl")], input=b"frob\n", capture_output=True, env={"FACL": "/bin/false"},
                              check=False)
        self.assertEqual((done.returncode, done.stderr), (1, b"line 1: facl: unknown tool\n"))
        self.assertEqual(self.run_file(self.path("facl"), ["--version"], b"").out, b"facl 0\nThey were proved.\n")

    def test_a_terminal(self) -> None:
        """Without words at a terminal it prints the verbs; a text on standard output alone makes no difference."""
        side, other = pty.openpty()
        done = subprocess.run([FACL], stdin=other, capture_output=True, cwd=self.folder, check=False)
        os.close(other)
        os.close(side)
        self.assertEqual((done.returncode, done.stderr), (0, b""))
        self.assertEqual(done.stdout, self.run_file(FACL, ["help"], b"").out)
        self.assertIn(b"facl apply PLAN", done.stdout)


class Words(Case):
    def verb(self, *words: str) -> Done:
        return self.run_command("facl-verbs", [*words])

    def test_no_verb(self) -> None:
        for words, text in (
                (["frob"], b"frob: no such verb; facl help lists them"),
                (["-n"], b"a verb is missing; facl help lists them"),
                (["aply", "x"], b"aply: no such verb; did you mean apply?"),
                (["--json", "snapshop"], b"snapshop: no such verb; did you mean snapshot or snapshots?"),
                (["revert"], b"revert: no such verb; did you mean undo?"),
                (["compare"], b"compare: no such verb; did you mean diff?"),
                ([""], b": no such verb; facl help lists them"),
                (["-s"], b"a verb is missing; facl help lists them"),
                (["-s", "apply"], b"a verb is missing; facl help lists them"),
                (["a\033b"], b"a\\033b: no such verb; facl help lists them")):
            done = self.verb(*words)
            self.assertEqual((done.status, done.out), (2, b""), words)
            if text:
                self.assertEqual(done.messages, b"facl: " + text + b"\n")

    def test_wrong_words(self) -> None:
        for words in (["apply"], ["apply", "--frob", "x"], ["apply", "a", "b"], ["--json", "apply", "x"],
                      ["apply", "--dry", "x"]):
            done = self.verb(*words)
            self.assertEqual((done.status, done.out), (2, b""), words)
            self.assertTrue(done.messages.startswith(b"usage: facl apply PLAN [OPTION]"), done.messages)

    def test_options_before_and_after(self) -> None:
        for words in (["apply", "-n", "x"], ["-n", "apply", "x"], ["apply", "x", "-n"],
                      ["--dry-run", "apply", "--", "x"]):
            text = b"/x: is not a plan; make one with facl plan\n"
            self.expect(self.verb(*words), 2, b"", b"facl apply: " + os.fsencode(self.folder) + text)

    def test_help(self) -> None:
        for words in (["help"], ["--help"], ["-h"], ["-q", "-h"]):
            self.assertEqual(self.verb(*words), self.verb())
        for columns, most in (("200", 100), ("80", 80), ("10", 72)):
            done = self.run_command("facl-verbs", ["help"], environment={"COLUMNS": columns})
            self.assertLessEqual(max(map(len, done.out.splitlines())), most)
        for words in (["undo", "-h"], ["-h", "undo"], ["--help", "undo"]):
            self.assertIn(b"usage: facl undo PLAN [OPTION]", self.verb(*words).out)
        for word, hint in (("frob", b"facl help lists them"), ("udno", b"did you mean undo?")):
            text = b"facl help: %s: no such verb; %s\n" % (word.encode(), hint)
            self.expect(self.verb("help", word), 2, b"", text)

    def test_version(self) -> None:
        self.assertEqual(self.verb("--version").out.split(b"\n")[0], b"facl 0")


class Installed(Case):
    def test_whatever_the_umask(self) -> None:
        """Nobody else can write what root runs, as a module that is compiled, and everybody can read it."""
        install = os.path.join(COMMANDS, "..", "tools", "install.sh")
        subprocess.run([install, "--program", "/bin/true", "--linux-program", "/bin/true", self.path("usr")], check=True,
                       capture_output=True, preexec_fn=partial(os.umask, 0o005))
        places = [os.path.join(folder, name) for folder, _, names in os.walk(self.path("usr")) for name in (".", *names)]
        modes = {stat.S_IMODE(os.lstat(it).st_mode) for it in places if not os.path.islink(it)}
        self.assertEqual(modes, {0o755, 0o644})


if __name__ == "__main__":
    unittest.main()
