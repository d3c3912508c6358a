"""Runs examples of documents one after another in a shell, over a stored snapshot or a real tree that is made of it.

The real tree is below /srv, in a mount namespace with the users and groups of the snapshot. It takes root and the
package acl.
"""
from __future__ import annotations

import functools
import os
import re
import shutil
import subprocess
import threading
from typing import Dict, List, Tuple

from common import COMMANDS
from examples import Example, difference

from facl_commands.base.programs import ACL5, LINUX

SECONDS = 120  # that a command may take, however busy the machine is
HOME = "/root"  # Where the examples of documents are run.
STORE = "/var/lib/facl"  # Where documents have snapshots.
LIVE_VERB = re.compile(r"\bfacl (?:-\S+ )*(?:snapshot|apply|undo|daily)\b")
# Commands that are not run here, by their first word.
COMMANDS_APART: Dict[str, str] = {
    "tools/try.sh": "compiles the program; by hand",
    "tools/demo.sh": "proves the program; by hand",
    "tools/prove.py": "proves the program; by hand",
    "tools/install.sh": "installs; by hand",
    "tools/package.sh": "makes a package; by hand",
    ".ci/run": "has these tests in it",
    "tools/quick.sh": "has tests in it that need no program",
    "rt": "the kit; by hand",
    "git": "by hand",
    "man": "by hand",
}
LIVE = ("facl-snapshot", "facl-apply", "getfacl", "setfacl", "ls")
OF_SEVERAL = re.compile(r"facl[ -]ask .*--(each|hosts)\b")
PROGRAM = re.compile(r"(?:^|[|;&] *)([\w./-]+)")
MADE = re.compile(r"(?:([\w.-]+) /|>([\w.-]+))")  # What facl-snapshot or a shell makes.
REAL_TREE = """\
mount -t tmpfs -o mode=755 tmpfs /srv
mount --bind "$SNAPSHOT/passwd" /etc/passwd
mount --bind "$SNAPSHOT/group" /etc/group
printf '%s: files\\n' passwd group initgroups >nsswitch.conf
[ ! -e /etc/nsswitch.conf ] || mount --bind nsswitch.conf /etc/nsswitch.conf
sed -n 's:^# file\\: /srv/::p' "$SNAPSHOT/dump" | grep . | while read -r name; do
    case $name in */) mkdir "/srv/$name" ;; *) echo text >"/srv/$name" ;; esac
done
sed -n '\\:^# file\\: /srv/:,$p' "$SNAPSHOT/dump" | setfacl --restore=-
exec sh
"""
# In the place of ssh: a server is a folder of this name here; and what it runs there, in the place of /var/lib/facl.
SERVERS = {
    "bin/ssh": """\
#!/bin/sh
while [ ! -d "$HOME/$1" ]; do shift; done
cd "$HOME/$1"
shift
[ "$1" != -- ] || shift
PATH=$HOME/server:$PATH exec sh -c "$*"
""",
    "server/facl": """\
#!/bin/sh
for word; do
    shift
    set -- "$@" "${word#/var/lib/facl/}"
done
exec "$HOME/commands/facl" "$@"
""",
}


@functools.lru_cache(maxsize=None)
def why_no_tree() -> str:
    """Nothing, or why no real tree can be made."""
    for tool in ("getfacl", "setfacl", "unshare"):
        if not shutil.which(tool):
            return tool + " is not installed"
    if os.geteuid() != 0 or not os.path.isdir("/srv"):
        return "it takes root and /srv"
    done = subprocess.run(["unshare", "-m", "mount", "-t", "tmpfs", "tmpfs", "/srv"], capture_output=True, check=False)
    return "no file system can be mounted" if done.returncode else ""


class Shell:
    """A shell that runs commands one after another in a folder, as at a terminal; START are its words."""

    def __init__(self, folder: str, environment: Dict[str, str], start: Tuple[str, ...] = ("sh",)) -> None:
        self.answer = folder + ".answer"
        open(self.answer, "wb").close()
        self.process = subprocess.Popen(
            start, cwd=folder, env=environment, stdin=subprocess.PIPE, stdout=subprocess.PIPE)

    def run(self, command: str) -> List[str]:
        """The lines that a command prints, on standard output and standard error."""
        open(self.answer, "wb").close()
        timer = threading.Timer(SECONDS, self.process.kill)
        timer.start()
        is_alive = self.send("{\n%s} </dev/null >>'%s' 2>&1\necho\n" % (command, self.answer))
        timer.cancel()
        with open(self.answer, "rb") as file:
            lines = file.read().decode("utf-8", "backslashreplace").split("\n")
        return (lines if lines[-1] else lines[:-1]) + ([] if is_alive else ["(the shell has ended)"])

    def send(self, lines: str) -> bool:
        """Whether the shell has done them."""
        assert self.process.stdin is not None and self.process.stdout is not None
        try:
            self.process.stdin.write(lines.encode())
            self.process.stdin.flush()
        except BrokenPipeError:
            return False
        return self.process.stdout.readline() != b""

    def close(self) -> None:
        self.process.communicate()
        os.unlink(self.answer)


class Runner:
    """The examples of a document over its snapshot, stored or as a real tree."""

    def __init__(self, folder: str, snapshot: str, is_real: bool) -> None:
        self.folder, self.is_real = folder, is_real
        self.faults: List[str] = []
        self.not_run: List[str] = []
        self.others: List[Tuple[Example, List[str]]] = []
        self.run_count = 0
        self.missing: List[str] = []  # What a command that was not run would have made.
        path = "%s:%s/bin:%s" % (COMMANDS, folder, os.environ["PATH"])
        programs = {it.variable: it.find() for it in (ACL5, LINUX)}
        environment = {"PATH": path, "LC_ALL": "C", "HOME": folder, "SNAPSHOT": snapshot,
                       "FACL_STORE": folder + "/store", **programs}
        self.shell = Shell(folder, environment, ("unshare", "-m", "sh", "-ec", REAL_TREE) if is_real else ("sh",))

    def run(self, example: Example) -> None:
        reason = self.why_not(example.command)
        if reason:
            self.not_run.append("%s: %s" % (example.place(), reason))
        else:
            self.run_count += 1
            lines = self.shell.run(example.command)
            printed = [line.replace(self.folder + "/store", STORE).replace(self.folder, HOME) for line in lines]
            found = difference(example, printed)
            self.faults += found
            self.others += [(example, printed)] if found else []

    def why_not(self, command: str) -> str:
        """Nothing, or why a command is not run."""
        first = command.partition("\n")[0]
        if first.split(" ")[0] in COMMANDS_APART:
            return COMMANDS_APART[first.split(" ")[0]]
        if OF_SEVERAL.search(first) and not self.is_real and not why_no_tree():
            return "takes long, and is run over the real tree"
        live = set(PROGRAM.findall(first)) & set(LIVE) or set(LIVE_VERB.findall(first))
        if live and not self.is_real:
            made = [word for found in MADE.findall(first) for word in found if word]
            self.missing += [name for name in made if not os.path.exists(os.path.join(self.folder, name))]
            return "%s needs a real tree" % live.pop()
        words = re.findall(r"[\w.-]+", first)
        return next(("needs " + name for name in self.missing if name in words), "")
