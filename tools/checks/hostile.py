"""Runs each verb on files, folders, users and groups with hostile names: in a pipe, at a terminal and in a mail, and gives
what it says is next to bash and dash, as if it were pasted.

usage: tools/check.py hostile [--PART N].. [--seed N] [--folder DIR] [--record] PROGRAM      PROGRAM: facl_linux

As root, over a tree in a folder of its own, where users and groups with such names own files and are in their lists; they are
in files of its own, so no account is made. A try is about one name (tools/lib/hostile_names.py). A verb has to end with a status of
its page and without a traceback; what a person reads has no character that a terminal obeys or that cannot be seen, but for
colours; JSON and rows have the name as it is, with its escapes; a plan changes this very file, and the undo of it gives its old
list back; and no name is run. --help prints the parts.

The exit status is 1 if something is not as it has to be, 2 if the words are others, a tool is not installed or it is not
run as root.
"""
from __future__ import annotations

import json
import os
import pty
import re
import subprocess
import termios
import threading
from typing import Dict, List, NamedTuple, Sequence

from lib import script
from lib.hostile_names import CANARY, OF_FILES, OF_USERS
from lib.live_tree import Check, Done, expect, make, must, remove, run, run_parts, word

from facl_commands.base.names import UNSEEN, json_name, write_user  # After lib, which adds its folder.

FIRST = 80000  # The id of the first user and the first group.
STRIDE = 37  # Between the names of two tries: few tries have names of each kind, and a hundred all of them.
COLOUR = re.compile(rb"\x1b\[[0-9;]*m")
PROGRESS = re.compile(rb"\r\x1b\[K")
SENDMAIL = b'#!/bin/sh\ncat >>"$0.mails"\n'
PASTED = b'facl() { printf "%%s\\0" "$@" >"$GOT"; }\n%s\n'
ENDS = (0, 1, 2, 3)
SHELLS = ("bash", "dash")


class Named(NamedTuple):
    """What has a name, in one try."""

    file: bytes
    folder: bytes
    user: bytes
    group: bytes


def is_seen(text: bytes) -> bool:
    """Whether a person sees all of a text: it is UTF-8, and has no letter that is escaped."""
    try:
        return UNSEEN.search(text.replace(b"\n", b"").decode()) is None
    except UnicodeDecodeError:
        return False


def read_all(side: int, into: List[bytes]) -> None:
    try:
        while True:
            piece = os.read(side, 1 << 16)
            if not piece:
                return
            into.append(piece)
    except OSError:  # Nobody has the other side any more.
        return


def list_of(path: bytes) -> bytes:
    """The entries of a file, by number."""
    return must(run([b"getfacl", b"-n", b"-c", b"-p", b"--", path]), 0)


class Hostile(Check):
    """A tree with a file and a folder of each name, owned and named by users and groups of such names."""

    tools = ["getfacl", "setfacl", *SHELLS]
    parts = {"pipes": 12, "terminals": 12, "plans": 30, "by_hand": 20, "pasted": 40, "mails": 1}

    def begin(self) -> None:
        if not os.path.exists(self.name("tree")):
            self.make_people()
            self.make_tree()
            make(self.name("bin/sendmail"), 0o755, text=SENDMAIL)
            make(self.name("here/"), 0o755)
            for _ in range(2):
                must(self.facl(b"snapshot", b"-q", self.name("tree")), 0)
        for name in (b"here/" + CANARY, b"page.html", b"one.plan", b"script"):
            remove(self.name(name))

    def make_people(self) -> None:
        rows = [(name, FIRST + at) for at, name in enumerate(OF_USERS)]
        with open(self.name("people/passwd"), "ab") as passwd, open(self.name("people/group"), "ab") as group:
            passwd.writelines(b"%s:x:%d:%d::/:/bin/sh\n" % (name, number, number) for name, number in rows)
            group.writelines(b"%s:x:%d:ines\n" % row for row in rows)

    def make_tree(self) -> None:
        make(self.name("tree/"), 0o755)
        for at, name in enumerate(OF_FILES):
            number = FIRST + at % len(OF_USERS)
            folder = make(self.name(b"tree/" + name + b"/"), 0o755, number, number)
            file = make(os.path.join(folder, name), 0o640, number, number)
            for place, entries in ((folder, b"u:%d:r-x,g:%d:rwx"), (file, b"u:%d:rw,g:%d:r")):
                must(run([b"setfacl", b"-m", entries % (number, number), b"--", place]), 0)

    def named(self, seed: int) -> Named:
        at = seed * STRIDE % len(OF_FILES)
        name, place = OF_FILES[at], at % len(OF_USERS)
        user = OF_USERS[place] if not OF_USERS[place].isdigit() else b"%d" % (FIRST + place)  # Digits alone are an id.
        folder = self.name(b"tree/" + name)
        return Named(os.path.join(folder, name), folder, user, user)

    def variables(self) -> Dict[str, str]:
        return {**super().variables(), "FACL_STORE": os.fsdecode(self.name("store")), "TERM": "xterm", "PAGER": "cat"}

    def facl_words(self, *words: bytes) -> List[bytes]:
        return [os.fsencode(script.WITH_PEOPLE), self.people, os.path.join(self.commands, b"facl"), *words]

    def facl(self, *words: bytes) -> Done:
        """Runs a verb in a folder of its own, in which a name that is run leaves a file."""
        done = run(self.facl_words(*words), variables=self.variables(), folder=self.name("here") if os.path.exists(self.name("here")) else None)
        self.expect_harmless(words, done.returncode, done.stderr)
        return done

    def at_terminal(self, *words: bytes) -> bytes:
        """What a verb writes to a terminal that is all three of its streams, without what the terminal itself makes of it."""
        side, other = pty.openpty()
        attributes = termios.tcgetattr(other)
        attributes[1] &= ~termios.OPOST
        termios.tcsetattr(other, termios.TCSANOW, attributes)
        pieces: List[bytes] = []
        reader = threading.Thread(target=read_all, args=(side, pieces), daemon=True)
        reader.start()
        done = subprocess.run(self.facl_words(*words), stdin=subprocess.DEVNULL, stdout=other, stderr=other, cwd=self.name("here"), check=False,
                              env={**os.environ, **self.variables()})
        os.close(other)
        reader.join()
        os.close(side)
        out = b"".join(pieces)
        self.expect_harmless(words, done.returncode, out)
        return COLOUR.sub(b"", PROGRESS.sub(b"", out))

    def expect_harmless(self, words: Sequence[bytes], status: int, said: bytes) -> None:
        expect(status in ENDS and b"Traceback" not in said, f"{words}: status {status}: {said[-500:]!r}")
        expect(not os.path.exists(self.name(b"here/" + CANARY)), f"{words}: a name was run")
        self.count(f"runs of facl {words[0].decode()}, status {status}")

    def questions(self, its: Named) -> List[List[bytes]]:
        """Lines of each verb that asks, with the name in each place."""
        user, folder, file = its.user, its.folder, its.file
        ends: List[List[bytes]] = [
            [b"who", b"rwx", b"--all-users", b"--", folder], [b"why", b"--", user, file], [b"user", b"--", user, folder],
            [b"files", b"--owner=" + user, b"--", folder], [b"files", b"--naming=" + user, b"--", folder], [b"who-removes", b"--", file],
            [b"new-file", b"--", folder, user], [b"audit", b"--weight=low", b"--all-users", b"--", folder], [b"rules", b"--", folder],
            [b"audit", b"--list=mask-cuts-entry", b"--", folder], [b"audit", b"fix", b"mask-cuts-entry", b"--", folder],
            [b"review", b"-o", self.name("page.html"), b"--", folder], [b"diff", b"--below", folder], [b"snapshots"],
            [b"who", b"read", b"--", folder + b"/none"], [b"why", b"--", user + b"?", file], [b"who", file], [user], [b"help", user]]
        return ends

    def changes(self, its: Named) -> List[List[bytes]]:
        """The same of each verb that plans."""
        plan = [b"-q", b"-o", self.name("one.plan")]
        return [
            [b"open", *plan, b"--", its.file, its.user, b"rw"], [b"leaver", *plan, b"--", its.user], [b"leaver", *plan, b"--to=ines", b"--", its.user],
            [b"joiner", *plan, b"--like=" + its.user, b"--", b"guest", its.folder], [b"joiner", *plan, b"--like=ines", b"--", its.user],
            [b"move-group", *plan, b"--", its.folder, its.group, b"staff"], [b"restore", *plan, b"--", its.folder],
            [b"plan", *plan, b"-e", b"setfacl -m u:guest:rwx " + word(its.file)], [b"plan", *plan, b"-e", b"chmod 600 " + its.file],
            [b"plan", *plan, b"-e", b"gpasswd -a " + word(its.user) + b" staff"], [b"plan", *plan, b"-e", b"rm " + word(its.file)]]

    def check_pipes(self, seed: int) -> None:
        """Each verb with a name in each of its places, in pipes: what it says, and what of it is for programs."""
        its = self.named(seed)
        for words in self.questions(its) + self.changes(its):
            done = self.facl(*words)
            expect(is_seen(done.stderr), f"{words}: {done.stderr!r}")
            expect(is_seen(done.stdout), f"{words}: {done.stdout!r}")
            remove(self.name("one.plan"))
            remove(self.name("page.html"))
        self.check_rows(its)

    def check_rows(self, its: Named) -> None:
        """JSON and rows have the file's name whole, and no more rows than files."""
        names = {json_name(its.file + b"/" * os.path.isdir(its.file)), json_name(its.file)}
        for words in ([b"why", b"--json", b"--", its.user, its.file], [b"files", b"--json", b"--owner=" + its.user, b"--", its.folder]):
            done = self.facl(*words)
            if done.returncode in (0, 1):
                text = done.stdout.decode()
                found = json.loads(text)
                expect(bool(names & set(texts_of(found))), f"{words}: {sorted(names)} is not in {text[:2000]}")
        done = self.facl(b"files", b"--tsv", b"--owner=" + its.user, b"--", its.folder)
        rows = [row.split(b"\t") for row in done.stdout.rstrip(b"\n").split(b"\n")]
        expect(len({len(row) for row in rows}) == 1 and len(rows) <= 3, f"{its}: {rows}")

    def check_terminals(self, seed: int) -> None:
        """The same at a terminal, with rows and JSON there too."""
        its = self.named(seed)
        more = [[b"files", b"--tsv", b"--owner=" + its.user, b"--", its.folder], [b"why", b"--json", b"--", its.user, its.file]]
        for words in self.questions(its) + self.changes(its) + more:
            out = self.at_terminal(*words)
            expect(is_seen(out), f"{words}: {out!r}")
            remove(self.name("one.plan"))
            remove(self.name("page.html"))

    def check_plans(self, seed: int) -> None:
        """A plan of the file in the file's own words is applied and undone: it changes this file alone."""
        its = self.named(seed)
        before = must(run([b"getfacl", b"-R", b"-n", b"-p", b"--", self.name("tree")]), 0)
        must(self.facl(b"open", b"-q", b"-o", self.name("one.plan"), b"--", its.file, b"guest", b"rw"), 0, 1)
        old = list_of(its.file)
        must(self.facl(b"apply", self.name("one.plan")), 0)
        new = list_of(its.file)
        expect(b"user:70009:rw-" in new and b"user:70009" not in old, f"{its.file!r}: {old!r}, {new!r}")
        must(self.facl(b"undo", self.name("one.plan")), 0)
        expect(must(run([b"getfacl", b"-R", b"-n", b"-p", b"--", self.name("tree")]), 0) == before, f"{its.file!r}: not as before")

    def check_by_hand(self, seed: int) -> None:
        """What is to be done by hand for a user of the name is run by both shells, where no account of it is on the system: it
        ends, runs no name, and says only what can be seen."""
        user = OF_USERS[seed * STRIDE % len(OF_USERS)]
        for shell in SHELLS:
            remove(self.name("one.plan"))
            line = b"gpasswd -d ines " + word(write_user(user))
            done = self.facl(b"plan", b"-q", b"-o", self.name("one.plan"), b"-e", line)
            expect(done.returncode != 2 or not os.path.exists(self.name("one.plan")), f"{line!r}: {done}")
            if os.path.exists(self.name("one.plan/by_hand")):
                ended = run([os.fsencode(script.WITH_PEOPLE), self.people, shell.encode(), self.name("one.plan/by_hand")], variables=self.variables(),
                            folder=self.name("here"))
                self.expect_harmless([b"by_hand"], min(ended.returncode, 2), ended.stderr)
                expect(is_seen(ended.stdout + ended.stderr), f"{line!r}: {ended}")

    def check_pasted(self, seed: int) -> None:
        """A plan in a folder of the name: the command that is said to be next names this folder, or one that is not there."""
        name = OF_FILES[seed * STRIDE % len(OF_FILES)]
        folder = self.name("plans")
        remove(folder)
        plan = os.path.join(make(folder + b"/", 0o700), name)
        its = self.named(seed)
        said = must(self.facl(b"plan", b"-q", b"-o", plan, b"-e", b"chmod 600 " + word(its.file)), 0, 1)
        expect(os.path.isdir(plan), f"{plan!r} is not made: {said!r}")
        pasted = re.search(rb"; next: (.*)\n", said)
        expect(pasted is not None, f"{plan!r}: {said!r}")
        assert pasted
        for shell in SHELLS:
            got = self.name("got")
            remove(got)
            subprocess.run([shell, "-c", PASTED % pasted[1]], cwd=self.name("here"), env={**os.environ, "GOT": os.fsdecode(got)}, check=False)
            words = self.read("got").split(b"\0")[:-1]
            expect(words[:1] == [b"apply"] and len(words) == 2, f"{pasted[1]!r}: {words}")
            expect(words[1] == plan or not os.path.exists(words[1]), f"{pasted[1]!r} is another folder: {words}")
            expect(words[1] == plan or not is_seen(plan) or b"\\" in words[1], f"{pasted[1]!r} is not {plan!r}")
            self.expect_harmless([b"pasted"], 0, b"")
        remove(folder)

    def check_mails(self, seed: int) -> None:
        """A mail about the tree, before and after all lists changed: its subject is one line, and nothing in it is obeyed."""
        words = [b"daily", b"--mail=root", b"--fail-on=low", b"--weight=low", b"--", self.name("tree")]
        for change in (b"u:guest:rwx", b"u:guest:r"):
            self.facl(*words)
            must(run([b"setfacl", b"-R", b"-m", change.replace(b"guest", b"70009"), b"--", self.name("tree")]), 0)
        self.facl(*words)
        mails = self.read("bin/sendmail.mails")
        expect(is_seen(mails), f"a mail has a hidden letter: {UNSEEN.search(mails.decode(errors='replace'))}")
        heads = [mail.partition(b"\n\n")[0] for mail in re.split(rb"(?m)^(?=To: )", mails)[1:]]
        expect(all(re.fullmatch(rb"[!-9;-~]+: [ -~]*", line) for head in heads for line in head.split(b"\n")), f"heads of mails: {heads}")
        self.count("mails", len(heads))


def texts_of(value: object) -> List[str]:
    """All texts in a value of JSON."""
    if isinstance(value, str):
        return [value]
    inner = value.values() if isinstance(value, dict) else value if isinstance(value, list) else ()
    return [text for it in inner for text in texts_of(it)]


def main() -> int:
    return run_parts(Hostile, __doc__)
