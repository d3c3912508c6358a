"""facl-report: by which entries users are judged, of each user and each file of random trees, beside the program's `why`."""
from __future__ import annotations

import json
import os
import random
import re
import shutil
import subprocess
import unittest
from typing import Dict, List, Tuple

from common import HERE, Case
from page_data import Node, nodes_of, read_data

from facl_commands.base.names import script_word
from facl_commands.base.programs import LINUX
from facl_commands.program.session import Session

# Rows of passwd: two of one id, a name of digits alone, one with a blank, and one that is no UTF-8.
USERS = [b"root:x:0:0:::", b"ines:x:1001:100:::", b"ben:x:1002:100:::", b"twin:x:1002:200:::", b"77:x:1005:300:::", b"jo x:x:1006:400:::",
         b"m\351:x:1007:200:::"]
GROUPS = [b"root:x:0:", b"staff:x:100:", b"design:x:200:ines,twin", b"guests:x:300:ben", b"audit:x:400:ben,77,ines"]
IDS = {"user": [0, 1001, 1002, 1005, 1006, 1007, 4000], "group": [0, 100, 200, 300, 400, 5000]}
EDITS = [b"setfacl -m u:ben:rw,g:audit:r %s", b"setfacl -n -m g:design:rwx %s", b"chmod 640 %s", b"setfacl -b %s", b"setfacl -m m:- %s",
         b"gpasswd -a ines guests", b"gpasswd -d ben audit", b"usermod -g audit ines", b"useradd -u 2000 -g staff nell", b"userdel root",
         b"rm -r %s", b"creat --user=ben --mode=0664 srv/made"]
Key = Tuple[str, str]  # A user as the page names it, and a path.


def entries_of(record: str) -> List[str]:
    """The entries of a record of `why`, as the page has them."""
    return [re.sub("\t+", "  ", line) for line in record.split("\n")[1:]]


def perms(chance: random.Random) -> str:
    return "".join(letter if chance.random() < 0.5 else "-" for letter in "rwx")


def entries(chance: random.Random, prefix: str) -> List[str]:
    """A valid list; with a mask where it has named entries, and else sometimes."""
    found = ["user::" + perms(chance), "group::" + perms(chance), "other::" + perms(chance)]
    for kind, ids in IDS.items():
        found += ["%s:%d:%s" % (kind, it, perms(chance)) for it in chance.sample(ids, chance.choice([0, 0, 1, 2, 3]))]
    if len(found) > 3 or chance.random() < 0.2:
        found.append("mask::" + perms(chance))
    return [prefix + it for it in found]


def record(chance: random.Random, path: str) -> str:
    """A record of a file as facl-snapshot writes it."""
    lines = ["# file: " + path, "# owner: %d" % chance.choice(IDS["user"]), "# group: %d" % chance.choice(IDS["group"]), *entries(chance, "")]
    if path.endswith("/") and chance.random() < 0.3:
        lines += entries(chance, "default:")
    return "\n".join(lines) + "\n\n"


def tree(chance: random.Random) -> List[str]:
    """Paths, in their order; the directories above are recorded."""
    found = ["/", "/srv/"]
    for name in ("a", "b", "it's", "x y"):
        if chance.random() < 0.7:
            found.append("/srv/%s/" % name)
            found += ["/srv/%s/%d" % (name, k) for k in range(chance.randrange(5))]
    return found


class Random(Case):
    def snapshot(self, chance: random.Random) -> List[str]:
        """Writes a random snapshot, and returns the paths."""
        paths = tree(chance)
        self.write("before/passwd", b"\n".join(chance.sample(USERS, len(USERS))) + b"\n")
        self.write("before/group", b"\n".join(GROUPS) + b"\n")
        self.write("before/dump", "".join(record(chance, path) for path in paths).encode())
        self.write("before/links", b"")
        return paths

    def page(self, *scripts: str) -> Node:
        done = self.run_command("facl-report", ["--with-root", "before", *scripts])
        self.assertEqual((done.status, done.messages), (0, b""))
        self.write("page.html", done.out)
        return read_data(done.out)

    def shown(self, data: Node, is_old: bool) -> Dict[Key, str]:
        """By user and path the entries that the page has."""
        found: Dict[Key, str] = {}
        for path, node in nodes_of(data).items():
            path = "/" if path == "." else "/" + path
            number = node.get("m", node["l"]) if is_old else node["l"]
            decision = data["before"].get(str(number)) if is_old else None
            decision = decision or (data["decisions"][number] if number >= 0 else None)
            row = data["rows"][node.get("q", node["r"]) if is_old else node["r"]]
            for place, (kind, name) in enumerate(data["whos"]):
                if kind == "user" and decision and row[2 * place : 2 * place + 2] not in ("", "00"):
                    found[name, path] = data["entries"][decision[1].get(str(place), decision[0])]
        return found

    def asked(self, session: Session) -> Dict[Key, str]:
        """By user and path what the program's `why` prints now, each user and file asked of alone."""
        pairs = [line.split(b" ", 2)[1:] for line in session.ask_accepted(b"index").lines()]
        lines = [b"why -- %s %s" % (script_word(b"1005" if user == b"77" else user), script_word(path)) for user, path in pairs]
        records = session.ask_accepted(b"\n".join(lines)).read().replace(b"m\351", b"m\\351").decode().split("\n\n")
        found: Dict[Key, str] = {}
        for (user, path), record in zip(pairs, records):
            name = user.replace(b"m\351", b"m\\351").decode()
            found[name, "/" + path.decode().rstrip("/") if path != b"." else "/"] = "\n".join(entries_of(record))
        return found

    def edits(self, chance: random.Random, paths: List[str]) -> None:
        """Writes a script of random edits that are all accepted."""
        lines: List[bytes] = []
        with Session(LINUX.find(), os.fsencode(self.path("before"))) as session:
            for edit in chance.sample(EDITS, 6):
                line = edit % script_word(chance.choice(paths).replace("'", "\\047").encode()) if b"%s" in edit else edit
                if line.split() != [b"rm", b"-r", b"'/'"] and not session.ask(line + b"\n").messages:
                    lines.append(line + b"\n")
        self.write("edits", b"".join(lines))

    def test_the_page_has_what_why_prints(self) -> None:
        for seed in range(4):
            chance = random.Random(seed)
            paths = self.snapshot(chance)
            self.edits(chance, paths)
            data = self.page("edits")
            with self.subTest(seed), Session(LINUX.find(), os.fsencode(self.path("before"))) as session:
                self.assertEqual(self.shown(data, True), self.asked(session))
                session.ask(self.read("edits"))
                self.assertEqual(self.shown(data, False), self.asked(session))

    def test_a_user_whom_no_word_names(self) -> None:
        # Digits alone are an id, which means the first row that has it.
        self.write("before/passwd", self.read("before/passwd") + b"88:x:1002:100:::\n1002:x:4000:300:::\n")
        found = self.shown(self.page(), False)
        self.assertEqual(found["ben", "/srv/share/one"], "group::r--")
        self.assertEqual(found["88", "/srv/share/one"], "")
        self.assertEqual(found["1002", "/srv/share/one"], "other::---")

    @unittest.skipUnless(shutil.which("node"), "without node, which is not installed")
    def test_the_side_says_by_which_entries(self) -> None:
        for seed in range(4):
            paths = self.snapshot(random.Random(seed))
            self.page()
            words = ["node", os.path.join(HERE, "page.js"), self.path("page.html")]
            alone, along = json.loads(subprocess.run(words, capture_output=True, check=True).stdout)
            with self.subTest(seed), Session(LINUX.find(), os.fsencode(self.path("before"))) as session:
                self.assertEqual(sorted(alone), sorted(path.rstrip("/") or "/" for path in paths))
                rights: Dict[Key, str] = {}
                for path in alone:
                    for word in (b"root", b"ines", b"ben", b"twin", b"1005", b"jo\\040x", b"m\\351"):
                        name = word.decode().replace("1005", "77")
                        self.assertEqual(line_of(alone[path], name)[:2], self.answers(session, b"", word, path), (path, name))
                        found = self.answers(session, b"--reach ", word, path)
                        self.assertEqual(line_of(along[path], name)[:2], found, (path, name))
                        rights[name, path] = found[0]
                for name, path in rights:
                    self.assertEqual(line_of(along[path], name)[2], below(rights, name, path), (path, name))

    def answers(self, session: Session, option: bytes, word: bytes, path: str) -> Tuple[str, str]:
        """What the side has to say of a user: the greatest requests that `can` prints, and the entries that `why` prints, along
        the path those of the first directory without search in any."""
        words = option + script_word(word) + b" " + script_word(path.replace("'", "\\047").encode())
        can, _, text = session.ask_accepted(b"can " + words + b"\nwhy " + words).read().replace(b"m\351", b"m\\351").decode().partition("\n")
        records = text.split("\n\n")[:-1]
        closed = next((it for it in records[:-1] if not any("x" in line[-3:] for line in it.split("\n")[1:])), None)
        reason = "by " + ", ".join(entries_of(closed or records[-1]))
        if closed:
            directory = closed.split("\n")[0][len("# file: ") :].rstrip("/")
            reason += " of /" + (directory if directory != "." else "")
        requests = can.split()
        return " ".join(it for it in requests if not any(is_within(it, other) for other in requests)), reason


def is_within(request: str, other: str) -> bool:
    return request != other and all(letter in (wanted, "-") for letter, wanted in zip(request, other))


def line_of(side: List[List[str]], name: str) -> Tuple[str, str, str]:
    """The right and the reason of a user in the side of a file, and what is below."""
    return next((right, reason, below) for kind, right, names, reason, below in side if kind == "Users" and name in names.split(", "))


def below(rights: Dict[Key, str], name: str, path: str) -> str:
    """What the side has to say of the files below, by the rights of a user on all files."""
    counts = {"nothing": 0, "enters": 0, "reads": 0, "changes": 0}
    for (user, other), right in rights.items():
        if user == name and other != path and other.startswith(path.rstrip("/") + "/"):
            level = "changes" if "w" in right else "reads" if "r" in right else "enters" if "x" in right else "nothing"
            counts[level] += 1
    texts = ["%d %s" % (count, level) for level, count in counts.items() if count]
    return "below: " + ", ".join(texts) if texts else ""


if __name__ == "__main__":
    unittest.main()
