"""What tests of the jobs about a user have in common: small trees of a test's own, and what a plan has."""
from __future__ import annotations

import json
import os
import re
from typing import Dict, List, Set

from common import Done
import small_tree
from small_tree import CLEAN, GROUP, PASSWD, SmallTree

from facl_commands.base import folders
from facl_commands.base.programs import LINUX
from facl_commands.model.sources import Source

META = small_tree.META.replace(b"folder /srv/hr\n", b"folder /srv\n")
HERE = META.replace(b"srva", os.fsencode(os.uname().nodename))  # What a snapshot of this host has, whose users are of no /etc/passwd.
HEAD = b"# owner: %d\n# group: %d\n"
# Users whose names are odd words, each as the program prints it.
ODD: Dict[bytes, bytes] = {b"0777": b"0777", b"new one": b"new\\040one", b"j\xc3\xbcrgen": b"j\xc3\xbcrgen", b"a\\b": b"a\\134b",
                           b"it's": b"it's", b"$(id)": b"$(id)", b"gpasswd": b"gpasswd"}


def record(owner: int, group: int, *entries: str, flags: str = "") -> bytes:
    """A record with these entries, in short: `u::rw- u:1001:rw-`."""
    names = {"u": "user", "g": "group", "m": "mask", "o": "other", "d": "default"}
    lines = [":".join(names.get(word, word) for word in entry.split(":")) for entry in " ".join(entries).split()]
    return HEAD % (owner, group) + b"# flags: %s\n" % flags.encode() * bool(flags) + "".join(it + "\n" for it in lines).encode()


class UserJobCase(SmallTree):
    """A test that runs jobs over the snapshot `small`."""

    def job(self, *words: str) -> Done:
        os.makedirs(self.path("store"), 0o700, exist_ok=True)
        words = (*words, "-s", self.path("small"))
        done = self.run_command("facl-verbs", [*words], environment={"FACL_STORE": self.path("store"), "FACL_SNAPSHOT": ""})
        return done._replace(messages=re.sub(b"(?m)^facl [a-z]+: the snapshot .* is .* (?:old|of this one|not of this one)\n|"
                                             b"^facl [a-z]+: the snapshot .* is of the host .*\n|^facl [a-z]+: ", b"", done.messages))

    def take(self, more: Dict[bytes, bytes], links: bytes = b"", passwd: bytes = PASSWD, group: bytes = GROUP) -> None:
        """The tree of a snapshot of /srv."""
        super().take(more, links, passwd, group)
        self.set_meta(META)

    def edits(self, name: str) -> List[str]:
        """The lines of a plan, without comments."""
        return [line for line in self.read(name + ".plan/edits").decode().split("\n") if line and not line.startswith("#")]

    def by_hand(self, name: str) -> List[bytes]:
        """What by_hand of a plan does."""
        lines = self.read(name + ".plan/by_hand").partition(b"\nexec ")[2].split(b"\n")
        return [line.partition(b" ")[2] for line in lines if line[:1].isdigit()]

    def changed(self, name: str) -> Dict[str, List[str]]:
        """By file of a plan: what of its record differs, with a sign."""
        sides = []
        for side in ("old", "new"):
            records = self.read("%s.plan/%s" % (name, side)).decode("utf-8", "backslashreplace").split("\n\n")
            sides.append({it.split("\n")[0][8:]: {*it.split("\n")[1:]} for it in records if it})
        return {path: sorted(["-" + it for it in sides[0][path] - sides[1][path]] + ["+" + it for it in sides[1][path] - sides[0][path]])
                for path in sides[0]}

    def users_of_changes(self, *words: str) -> Set[str]:
        """Who may do something else by the plan of a job."""
        done = self.job(*words, "--json", "-o", "json.plan")
        return {it["user"] for it in json.loads(done.out)["changes"]}

    def set_meta(self, text: bytes) -> None:
        self.write("small/meta", text)

    def source(self) -> Source:
        self.enterContext(folders.kept()) if hasattr(self, "enterContext") else None
        return Source(os.fsencode(self.path("small")), b"small", False)

    def program(self) -> str:
        return LINUX.find()

    def take_odd(self) -> None:
        """The tree with users of odd names, each of whom owns a file, is named in another one and by a directory, and is in hr."""
        more, passwd = {}, PASSWD
        for number, name in enumerate(ODD, 1100):
            passwd += name + b":x:%d:%d::/:/bin/sh\n" % (number, number)
            own = b"/srv/hr/own%d" % number
            more[own] = record(number, 2001, "u::rw-", "g::r--", "o::---")
            more[b"/srv/hr/named%d/" % number] = record(
                1001, 2001, "u::rwx", "u:%d:rwx" % number, "g::r-x", "m::r-x", "o::---",
                "d:u::rwx", "d:u:%d:rwx" % number, "d:g::r-x", "d:m::rwx", "d:o::---")
        members = b",".join([b"anna", b"bert", *ODD])
        self.take(more, passwd=passwd, group=GROUP.replace(b"anna,bert", members))


__all__ = ["CLEAN", "GROUP", "HERE", "UserJobCase", "META", "ODD", "PASSWD", "record"]
