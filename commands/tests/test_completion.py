"""What bash completes where names are odd: those of users and groups of the system, and those of files."""
from __future__ import annotations

import os
import pty
import select
import shlex
import shutil
import subprocess
import sys
import unittest
from typing import List

from common import COMMANDS, Case, take_terminal

FUNCTIONS = os.path.join(COMMANDS, "completion", "facl.bash")
# Calls the function as bash does for the last of some words, which is not quoted. The first word is a text that is run before.
SCRIPT = """\
source "$1"
eval "$2"
shift 2
compopt() { echo "compopt $*"; }
COMP_LINE="$*"
COMP_POINT=${#COMP_LINE}
_facl "$1" "${!#}"
printf '%s\\n' "${COMPREPLY[@]}"
"""
# Stands in for a directory service: bash prints these rows as it prints those of /etc/passwd and /etc/group.
HOSTILE = """\
rows=('$(touch$IFS"made")' '`touch${IFS}made`' '${x[$(touch made)]}' 'a b' "it's" 'd"q' 'eve@dom' 'x;touch made' '<(touch made)' '~root'
    'back\\\\slash' 'm\u00fcller' $'z\\e[1m' '-x' '!!' '*' '#c' 'u:v' 'w=v' '{l,m}' $'tab\\tx' 'n&touch made' 'sp\u200bace' ann anna)
compgen() { printf '%s\\n' "${rows[@]}"; }
"""
# What is typed of a name before the key TAB, with the word that bash makes of what stands there then.
TYPED = (
    ("\\$\\(", '$(touch$IFS"made")'), ("'$(", '$(touch$IFS"made")'), ('"\\$(', '$(touch$IFS"made")'),
    ("'`", "`touch${IFS}made`"), ("\\`", "`touch${IFS}made`"), ("\\$\\{", "${x[$(touch made)]}"),
    ('"\\${', "${x[$(touch made)]}"), ("a\\ ", "a b"), ("'a ", "a b"), ('"a ', "a b"), ("it", "it's"), ("'it", "it's"),
    ('"it', "it's"), ("d", 'd"q'), ('"d', 'd"q'), ("eve", "eve@dom"), ("eve@d", "eve@dom"), ("x\\;", "x;touch made"),
    ("\\<", "<(touch made)"), ("\\~", "~root"), ("back", "back\\\\slash"), ('"back', "back\\\\slash"), ("m", "m\u00fcller"),
    ("m\u00fc", "m\u00fcller"), ("'m\u00fc", "m\u00fcller"), ("z", "z\x1b[1m"), ("-", "-x"), ("\\!", "!!"), ('"!', "!!"),
    ("\\*", "*"), ("\\#", "#c"), ("u:", "u:v"), ("w=", "w=v"), ("{", "{l,m}"), ("t", "tab\tx"), ("n\\&", "n&touch made"),
    ("sp", "sp\u200bace"), ("ann", "ann"),
)
FILES = ("$(touch made)", "`touch made`", "a file", "it's", 'd"q', "l\nf", "${x[$(touch made)]}", "x;touch made", "-y", "m\u00fcller", "sp\u200bace")
LIMIT = 60.0  # Seconds that an answer may take, where others have the processors.


def made(shell: str) -> str:
    """The completion of a shell, as it is installed."""
    words = [sys.executable, "-I", os.path.join(COMMANDS, "facl-verbs"), "complete", shell]
    text = subprocess.run(words, stdout=subprocess.PIPE, text=True, check=True).stdout
    if shell != "bash":
        return text
    with open(FUNCTIONS, encoding="utf-8") as file:
        return file.read() + text


class Shell:
    """A bash at a terminal of its own, whose command facl writes its words to the file `args`. The facl on the path is that of
    the folder `bin`, or of the commands."""

    def __init__(self, folder: str) -> None:
        self.folder = folder
        self.side, other = pty.openpty()
        self.text = b""
        words = ["bash", "--noprofile", "--rcfile", os.path.join(folder, "rc"), "-i"]
        environment = {**os.environ, "PATH": "%s/bin:%s:%s" % (folder, COMMANDS, os.environ["PATH"]), "TERM": "dumb",
                       "INPUTRC": "/dev/null", "HISTFILE": "", "LC_ALL": "C.UTF-8"}
        self.run = subprocess.Popen(words, stdin=other, stdout=other, stderr=other, cwd=folder, env=environment, preexec_fn=take_terminal)
        os.close(other)
        self.wait()

    def wait(self) -> None:
        """Waits for the next prompt."""
        while b"READY> " not in self.text:
            if not select.select([self.side], [], [], LIMIT)[0]:
                raise AssertionError(self.text)
            self.text += os.read(self.side, 65536)
        self.text = b""

    def words(self, line: str) -> List[str]:
        """Types a line and TAB; the words that the command gets."""
        os.write(self.side, b"facl " + os.fsencode(line) + b"\t\n")
        self.wait()
        with open(os.path.join(self.folder, "args"), encoding="utf-8", newline="") as file:
            return file.read().split("\0")[:-1]

    def end(self) -> None:
        os.close(self.side)
        self.run.wait(LIMIT)


@unittest.skipIf(shutil.which("bash") is None, "it takes bash")
class Completion(Case):
    """Where there is no snapshot, users and groups are those of the system."""

    def setUp(self) -> None:
        super().setUp()
        self.write("made.bash", made("bash").encode())
        os.mkdir(self.path("bin"))
        self.write("bin/facl", b"#!/bin/sh\nexit 2\n")
        os.chmod(self.path("bin/facl"), 0o755)
        self.there = sorted(os.listdir(self.folder))

    def complete(self, *words: str) -> List[str]:
        done = subprocess.run(["bash", "-c", SCRIPT, "bash", "made.bash", HOSTILE, "facl", *words], cwd=self.folder, capture_output=True,
                              text=True, env={**os.environ, "PATH": self.path("bin") + ":" + os.environ["PATH"], "LC_ALL": "C.UTF-8"},
                              check=True)
        self.assertEqual(done.stderr, "")
        return done.stdout.splitlines()

    def test_no_name_is_evaluated(self) -> None:
        for words in ("user", "files --owner", "files --naming", "snapshot --readers"):
            found = self.complete(*words.split(), "")
            self.assertIn("\\$\\(touch\\$IFS\\\"made\\\"\\)", found)
            self.assertEqual(len(found), 25)
        self.assertEqual(sorted(os.listdir(self.folder)), self.there)

    def test_letters_that_cannot_be_seen(self) -> None:
        self.assertEqual(self.complete("user", "sp"), ["$'sp\\342\\200\\213ace'"])

    def shell(self, more: str) -> Shell:
        text = "PS1='READY> '\nsource %s\nfacl() { printf '%%s\\0' \"$@\" >args; }\n%s" % (shlex.quote(self.path("made.bash")), more)
        self.write("rc", text.encode())
        shell = Shell(self.folder)
        self.addCleanup(shell.end)
        return shell

    def test_names_at_a_terminal(self) -> None:
        shell = self.shell(HOSTILE)
        for typed, name in TYPED:
            self.assertEqual((typed, shell.words("files --owner " + typed)), (typed, ["files", "--owner", name]))
        self.assertEqual(sorted(os.listdir(self.folder)), sorted([*self.there, "args", "rc"]))

    def test_files_at_a_terminal(self) -> None:
        for number, name in enumerate(FILES):
            os.mkdir(self.path("%d" % number))
            with open(os.path.join(self.folder, "%d" % number, name), "wb"):
                pass
        shell = self.shell("")
        for number, name in enumerate(FILES):
            for before in ("apply ", "audit --accepted "):
                self.assertEqual(shell.words("%s%d/" % (before, number))[-1:], ["%d/%s" % (number, name)])
        self.assertNotIn("made", os.listdir(self.folder))


if __name__ == "__main__":
    unittest.main()
