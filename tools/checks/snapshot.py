"""Takes snapshots by commands/facl-snapshot as root, also while a user exchanges and moves files. What it writes, warns of and
leaves, and what the program answers of them, is compared with what has to be.

usage: tools/check.py snapshot [--PART N].. [--seed N] [--folder DIR] [--record] PROGRAM

It makes its files in a folder of its own, and asks about the user nobody. --help prints its parts; commands/tests/test_snapshot.py
tries what needs no root and no lists. The exit status is 1 if something is not as it has to be, 2 if the words are
others, a tool is not installed or it is not run as root.
"""
from __future__ import annotations

import contextlib
import os
import random
import signal
import time
from typing import Dict, List, Sequence, Union

from lib import script
from lib.live_tree import (
    COMMANDS, LIBRARY, MALLORY, Check, State, child, expect, make, mounted, must, records_of, remove, run, run_parts,
    state_of,
)
from lib.snapshot_races import WAYS, known_records, make_chain, make_race, meddling, moving, wrong_records

NAMES = ("words targets replacing names links warnings rows kills chain streams packages trust private_groups "
         "unreadable without_lists file_systems hangs marks full_disk endless races").split()
SNAPSHOT = os.fsdecode(os.path.join(COMMANDS, b"facl-snapshot"))
PERSON = "ina:x:70001:0::/:/bin/sh\n"  # Who is there in any case.
NOBODY = 65534
SIGNALS = [getattr(signal, "SIG" + name) for name in "HUP INT QUIT USR1 USR2 ALRM TERM KILL".split()]
ODD = ["a\nb", "c\rd", "e\\f", "g\\012h", "i'j", 'k"l', "-x", " m ", "n\to", "p\udce9q", "*", "# file: x", "$x", "s\n",
       "t\n/u", "-d/", "sub /", "t\n/"]
STREAMS = {">&- 2>&-": 5, "<&- >&- 2>&-": 5, ">/dev/full": 5, "| true": 5, "<&-": 0, "2>/dev/full": 0,
           "2>&1 >/dev/null | true": 0}
SIZES = (8, 24, 48, 100, 200, 350, 500, 700, 900, 1100, 1300, 1500, 1700, 1900, 2200, 2500)


class Snapshots(Check):
    """Each part has a clean folder, in which it runs, with the folders closed, masks and odd in it."""

    tools = ["getfacl", "setfacl", "setpriv", "unshare", "chattr", "mkfs.ext4"]
    parts = {**dict.fromkeys(NAMES, 1), "kills": 15, "races": 40}

    def variables(self) -> Dict[str, str]:
        return {"PATH": ":".join([*self.ahead, os.environ["PATH"]]), "FACL": self.given.program}

    def begin(self) -> None:
        for left in os.listdir(self.work):
            remove(self.name(left))
        self.ahead: List[str] = []  # What comes first on the path.
        self.make("people/")
        with open("/etc/passwd", encoding="utf-8") as passwd, open("/etc/group", encoding="utf-8") as group:
            self.people_are(PERSON + passwd.read(), group.read())
        self.make("closed/share/team/empty/", "closed/share/note", *["odd/" + name for name in ODD])
        self.make(*["masks/" + name for name in ("open", "shut", "cut", "plain")])
        self.shell("""chmod 700 closed; chmod 604 masks/plain
            setfacl -m u:nobody:rw,m::---,o::r masks/open; setfacl -m u:nobody:rw,m::---,o::- masks/shut
            setfacl -m u:nobody:rw,m::r,o::r masks/cut""")

    def text(self, name: str = "") -> str:
        """A name in the work folder."""
        return os.fsdecode(self.name(name))

    def make(self, *names: str) -> None:
        """Makes files and, of names that end in a slash, folders, with those above them."""
        for name in map(self.name, names):
            os.makedirs(os.path.dirname(name), exist_ok=True)
            if not name.endswith(b"/"):
                make(name)

    def shell(self, text: str) -> None:
        """Runs commands of sh in the work folder."""
        must(run([b"sh", b"-euc", os.fsencode(text)], folder=self.work), 0)

    def tool(self, name: str, text: str) -> None:
        """A program of sh; its folder comes first on the path."""
        self.make(name)
        make(self.name(name), 0o755, text=f"#!/bin/sh\n{text}\n".encode())
        self.ahead.insert(0, os.path.dirname(self.text(name)))

    def took(self, status: int, words: Union[str, List[str]], *said: str, out: Sequence[str] = (),
             has: Sequence[str] = (), lacks: Sequence[str] = (), user: int = 0, start: Sequence[str] = (),
             folder: str = "", **variables: str) -> None:
        """Takes a snapshot with these words. It ends with this status; messages have what is said, standard output has
        out, and the dump of `before` records the names of has, but not those of lacks."""
        words = words if isinstance(words, list) else words.split()
        with_people = [] if user else [script.WITH_PEOPLE, self.text("people")]
        self.done = done = run([os.fsencode(it) for it in [*with_people, *start, SNAPSHOT, *words]], user=user,
                               variables={**self.variables(), **variables}, folder=self.name(folder))
        self.count("snapshots")
        expect(done.returncode == status, f"status {done.returncode} in place of {status}: {done}")
        wrong = [it for it in said if os.fsencode(it) not in done.stderr]
        wrong += [it for it in out if os.fsencode(it) not in done.stdout]
        there = set(self.lines("dump")) if has or lacks else set()
        wrong += [it for it in has if self.shown(it) not in there] + [it for it in lacks if self.shown(it) in there]
        expect(not wrong, f"lacking, or there though they should not be: {wrong}: {done}")

    def shown(self, name: str) -> bytes:
        for one, other in (("\\", "\\\\"), ("\n", "\\012"), ("\r", "\\015")):
            name = name.replace(one, other)
        return b"# file: " + self.name(name)

    def lines(self, name: str) -> List[bytes]:
        return self.read("before/" + name).split(b"\n")

    def nothing_left(self) -> None:
        left = must(run([b"find", self.work, b"-name", b"*.??????"]), 0)
        expect(not left, f"left behind: {left!r}")

    def ask(self, text: str) -> bytes:
        """What the program answers over the snapshot."""
        words = [it for name in ("passwd", "group", "dump") for it in ("--" + name, self.text("before/" + name))]
        return must(run([self.program, *map(os.fsencode, words)], os.fsencode(text)), 0)

    def contents(self, folder: str) -> Dict[str, State]:
        return {name: state_of(self.name(f"{folder}/{name}")) for name in sorted(os.listdir(self.text(folder)))}

    def check_words(self, _seed: int) -> None:
        """Words that are none of its own."""
        self.took(0, "--help", out=["usage: facl-snapshot "])
        usage = b"".join(self.done.stdout.splitlines(True)[:2])
        for words in ("", "other", "--readers", "--exclude", "--exclude / odd other", "--frob odd other", "--program",
                      "--program odd"):
            self.took(2, words)
            *before, reason = self.done.stderr.splitlines(True)
            is_so = b"".join(before) == usage and reason.startswith(b"facl-snapshot: ")
            expect(is_so, f"usage: {words}: {self.done}")
        self.took(2, "--program ./absent other closed", "./absent: no such program")

    def check_targets(self, _seed: int) -> None:
        """Where no snapshot is made, what was there is as it was."""
        self.took(2, "other closed absent", "absent: no such file")
        self.took(2, "absent/other closed")
        expect(not any(map(os.path.lexists, (self.name("other"), self.name("absent")))), "written, though it failed")
        self.shell("mkdir empty full; echo mine >mine; echo mine >full/mine; ln -s empty leads")
        os.symlink(self.program, self.name("program"))
        self.took(2, "mine closed")
        self.took(2, "full closed", "full exists and is not a snapshot")
        expect(self.read("mine") + self.read("full/mine") == b"mine\nmine\n", "a file of mine is gone")
        for words in ("empty closed", "leads closed", "--program ./program -- -dash closed/share"):
            self.took(0, words)
        self.took(0, ["--", "a\udce9 b\n", "closed/share"])
        expect(os.path.islink(self.name("leads")), "a link to a snapshot is replaced")
        made = [os.path.isfile(self.name(name + "/links")) for name in ("empty", "-dash", "a\udce9 b\n")]
        expect(all(made), f"no snapshot: {made}")
        self.nothing_left()

    def check_replacing(self, _seed: int) -> None:
        """By another folder, with the same owner and list; not where the program, by an option or on the path, does not
        load the new one."""
        self.took(0, "before closed")
        self.shell("""chgrp daemon before before/*; chmod 750 before
            setfacl -m u:nobody:rx before; setfacl -m u:nobody:r before/*""")
        looks = [state_of(self.name(it))[:4] for it in ("before", "before/dump")]
        old = os.stat(self.name("before")).st_ino
        self.took(0, "before closed/share/team", lacks=["closed/share/note"])
        expect(os.stat(self.name("before")).st_ino != old, "the folder was written, and not replaced")
        for name in ("before/dump", "before/inodes"):
            now = [state_of(self.name(it))[:4] for it in ("before", name)]
            expect(now == looks, f"another owner or list: {now} and not {looks}")
        self.shell("rm before/links before/inodes before/meta")
        self.took(0, "before closed/share/team")
        self.took(0, "before closed", "whether facl loads it was not checked", FACL="")
        before = self.contents("before")
        self.tool("refuses/facl", 'echo "facl: setup: dump: text line 1: bad row" >&2\nexit 2')
        for words, program in (("--program refuses/facl ", self.given.program), ("", "")):
            self.took(2, words + "before closed", "not load it: facl: setup: dump: text line 1: bad row", FACL=program)
            expect(self.contents("before") == before, "a snapshot that does not load replaced one")
        self.took(1, "--program refuses/facl refused closed")
        expect(os.path.isfile(self.name("refused/dump")), "one that does not load is not there, where there was none")
        self.nothing_left()

    def check_names(self, _seed: int) -> None:
        """Odd names, FOLDERs that look like options or are in others, and the directories above."""
        self.took(0, ["before", "odd", "odd/-d", "odd/t\n"], has=["odd/" + it for it in ODD] + ["/"])
        inside = [it for it in self.lines("dump") if it.startswith(self.shown("odd/")) and it != self.shown("odd/")]
        expect(len(inside) == 18, f"{len(inside)} names in place of 18")
        listed = records_of(self.ask("getfacl -R .\n"))
        expect(len(listed) == len(records_of(self.read("before/dump"))), "the program lists other files")
        self.took(0, [self.text("before"), "-d", "-x", " m "], folder="odd", has=["odd/-d/", "odd/-x", "odd/ m "])

    def check_links(self, _seed: int) -> None:
        """Sets of names, with escapes; files with links outside; symbolic links."""
        odd = self.text("odd")
        self.shell("""cd odd; ln 'e\\f' 'a\nc'; ln 'e\\f' v; ln ./-x ./-d/x; ln "i'j" ../outside""")
        self.took(0, "before odd odd/-d", f"another name in the snapshot too (see links): 5, first: {odd}/-d/x",
                  f"other names are not in the snapshot: 1, first: {odd}/i'j")
        sets = ["".join(f"{odd}/{it}\n" for it in names) for names in (["a\\012c", "e\\\\f", "v"], ["-d/x", "-x"])]
        expect(os.fsdecode(self.read("before/links")) in ("\n".join(sets), "\n".join(sets[::-1])), "links")
        self.make("pointed/file")
        self.shell('ln -s "$PWD/pointed" odd/to_folder; ln -s nowhere odd/to_nothing; ln -s .. odd/-d/loop')
        self.took(0, "before odd odd/-d", out=["symbolic links left out: 3"], lacks=["pointed/", "odd/to_folder"])
        self.took(0, "before odd/to_folder", out=["symbolic links left out: 0"], has=["pointed/file"])
        self.took(2, "other odd/to_nothing")
        self.took(0, "odd/snapshot odd")
        expect(b"snapshot" not in self.read("odd/snapshot/dump"), "the snapshot has what the command makes meanwhile")

    def check_warnings(self, _seed: int) -> None:
        """Words in the environment."""
        self.took(0, "before odd", has=["odd/-x"], POSIXLY_CORRECT="1", TMPDIR="/nowhere", CDPATH="/",
                  QUOTING_STYLE="c", BLOCK_SIZE="1", _POSIX2_VERSION="199209")

    def people_are(self, passwd: str, group: str) -> None:
        """Has these users and groups, and no others."""
        make(self.name("people/passwd"), text=passwd.encode())
        make(self.name("people/group"), text=group.encode())

    def check_rows(self, _seed: int) -> None:
        """Users, groups and members without a row, and rows that are none."""
        returns = "with a carriage return, which facl takes for a part of a name: 1, first: "
        self.people_are("root:x:0:0::/:/bin/sh\nmara:x:1:0::/:/bin/sh\r\nina:x:70001:0::/:/bin/sh\nnobody:x:65534:65534::/:/bin/sh\n",
                        "root:x:0:\nstaff:x:5:ines,dora,dora\nlab:x:6:emil\n")
        self.shell("cd masks; : >ids; setfacl -m u:4711:r,u:4714:r,u:4715:r,g:4712:r,u:1:r,g:5:r ids; setfacl -m d:u:4713:r .")
        self.took(1, "before masks", "ids in the dump without a row in passwd or group: 5, first: user 4711",
                  "members of groups without a row in passwd: 3, first: dora", f"rows of passwd {returns}mara")
        wrong = [it for it in (b"rows of group", b"passwd is empty") if it in self.done.stderr]
        expect(not wrong, f"said, though it is not so: {wrong}: {self.done}")
        self.people_are("", "staff:x:0:ines\r\nlab:x:6:\n")
        self.took(1, "before masks", "passwd is empty", f"rows of group {returns}staff", out=["0 users, 2 groups"])
        self.people_are("bad row\n-x:x:1:1:::\n", "")
        self.took(1, "bad masks", "rows of passwd without a name, an id or a field, which are left out: 1, first: -x")
        self.nothing_left()

    def check_kills(self, seed: int) -> None:
        """Eight signals at random moments, to the command or to all that it runs: the old snapshot or the new one is
        there, and nothing else."""
        self.took(0, "before closed masks")
        chance = random.Random(seed)
        words = [os.fsencode(script.WITH_PEOPLE), self.name("people"), os.fsencode(SNAPSHOT), *map(self.name, ("before", "closed", "masks"))]
        for number in SIGNALS:
            done = self.ended_by(words, number, lambda: time.sleep(chance.uniform(0.01, 0.45)), chance.random() < 0.5)
            for left in [self.name(it) for it in os.listdir(self.work) if it.startswith(b"before.")]:
                expect(number == signal.SIGKILL, f"left behind after {number}: {left!r}: {done}")
                if not os.path.exists(self.name("before")):
                    os.rename(left + b"/old", self.name("before"))
                remove(left)
            self.ask("")
            expect(self.read("before/inodes") != b"", f"a snapshot without inodes after {number}")
            self.count("snapshots that get a signal at a random moment" + ", before their end" * (done.returncode != 0))

    def check_chain(self, _seed: int) -> None:
        """A long chain of directories, which sorts before a folder: that is recorded."""
        self.make(*[f"chain/z_payroll/{number}" for number in range(21)], "chain/a/", "chain/b/")
        self.shell("""here=$PWD; cd chain; name=$(printf %250s | tr ' ' d)
            down() { for i in $(seq $1); do mkdir $name && cd -P ./$name || exit 1; done; }
            (cd b && down 300); (cd a && down 299 && mv "$here/chain/b" ./$name)""")
        self.took(1, "before chain", has=[f"chain/z_payroll/{number}" for number in range(21)])
        long = len([it for it in self.lines("dump") if it.startswith(self.shown("chain/a/d"))])
        said = f"more than 4,095 bytes, which are not recorded: {600 - long}, first: {self.text('chain')}/a/ddd"
        expect(said.encode() in self.done.stderr, f"{long} names of a chain: {self.done}")

    def check_streams(self, _seed: int) -> None:
        """With its streams as the words have it, a snapshot is in place, and ends with this status."""
        for words, wanted in STREAMS.items():
            remove(self.name("before"))
            inner = '{ status=0; "$@" || status=$?; echo $status >status; } ' + words
            start = [script.WITH_PEOPLE, self.text("people"), "sh", "-c", inner, "sh", SNAPSHOT, "before", "masks"]
            run([*map(os.fsencode, start)], variables=self.variables(), folder=self.work)
            status = int(self.read("status"))
            expect(status == wanted, f"status {status}: {words}")
            expect(self.read("before/inodes") != b"", f"no snapshot: {words}")

    def check_packages(self, _seed: int) -> None:
        """No program is called but the one that has to load the snapshot."""
        self.make("empty/")
        self.took(0, "before odd masks", start=["env", "PATH=" + self.text("empty")])

    def check_unreadable(self, _seed: int) -> None:
        """As nobody: files that cannot be read are counted; a directory that cannot be looked into is a directory."""
        self.make("shut/none/file", "shut/names/sub/")
        make(self.name("theirs/"), 0o755, NOBODY, NOBODY)
        self.shell("chmod 0 shut/none; chmod 744 shut/names")
        self.took(1, "theirs/before shut", "2 files could not be read and are missing from the snapshot, first: "
                  f"{self.text('shut/names/sub')}: cannot be opened: Permission denied", user=NOBODY)
        os.symlink(self.name("theirs/before"), self.name("before"))
        there = self.lines("dump")
        expect(all(self.shown(it) in there for it in ("shut/none/", "shut/names/")), f"no directory: {there}")

    def check_without_lists(self, _seed: int) -> None:
        """A file system without lists: records from the modes. DIR may be there too."""
        with mounted(self.name("mount"), b"-t", b"ramfs", b"-o", b"mode=755", b"none"):
            make(self.name("mount/file"), 0o640)
            must(run([b"setfacl", b"-m", b"u:nobody:r", self.name("mount/file")]), 1)
            self.took(0, "before mount")
            found = records_of(self.read("before/dump")).get(self.name("mount/file"), [])
            expect(b"group::r--" in found, f"not the mode of a file: {found}")
            self.took(0, "mount/before mount")
            self.took(0, "mount/before mount")

    def check_full_disk(self, _seed: int) -> None:
        """A disk that is full at one of several places, in the dump too: the snapshot is in place, or all is as
        before."""
        self.make(*[f"many/a file with a long name {number}" for number in range(2000)])
        self.shell("setfacl -m $(seq -f u:%g:r -s , 30) many/*")
        for size in SIZES:
            with mounted(self.name("mount"), b"-t", b"tmpfs", b"-o", b"size=%dk,mode=755" % size, b"none"):
                self.make("mount/before/passwd", "mount/before/group", "mount/before/dump")
                words = map(self.name, ("mount/before", "many"))
                done = run([*map(os.fsencode, (script.WITH_PEOPLE, self.text("people"), SNAPSHOT)), *words], variables=self.variables())
                expect(os.listdir(self.name("mount")) == [b"before"], f"left behind on a full disk: {done}")
                records = records_of(self.read("mount/before/dump"))
                is_so = {1: len(records) >= 2000, 2: not records and b"facl-snapshot: " in done.stderr}
                expect(is_so.get(done.returncode, False), f"a disk of {size} KiB: {done}")
                self.count("disks that were full" if done.returncode == 2 else "disks that took a snapshot")
                self.count("disks without room for the dump", done.stderr.count(b"facl-snapshot: cannot write dump"))
        expect(self.counts["disks without room for the dump"] >= 2, "few disks were full")

    def left_out(self, *names: str) -> List[str]:
        """What is said of other file systems that are left out."""
        return [f"left out as other file systems: {len(names)}, first: {self.text('systems/' + names[0])}"]

    def check_file_systems(self, _seed: int) -> None:
        """Other file systems below a FOLDER, those that the kernel makes, and two names of one directory."""
        self.make("systems/proc/", "systems/file")
        below = self.name("systems/")
        with contextlib.ExitStack() as mounts:
            for name, words in ((b"mount", [b"-t", b"tmpfs", b"none"]), (b"kernel", [b"-t", b"sysfs", b"none"]),
                                (b"file", [b"--bind", b"/etc/hostname"]), (b"in", [b"--bind", below + b"mount"])):
                mounts.enter_context(mounted(below + name, *words))
            self.make("systems/mount/below/")
            all_three = ("in/", "kernel/", "mount/")
            self.took(0, "before systems", out=self.left_out(*all_three), has=["systems/proc/"],
                      lacks=["systems/" + it for it in all_three])
            known = [it for it in self.lines("meta") if it.startswith(b"other-file-system ")]
            expect(known == [b"other-file-system %s%s" % (below, it.encode()) for it in all_three], f"meta has {known}")
            self.took(0, "before systems systems/mount/below", out=self.left_out("in/", "kernel/"),
                      has=["systems/mount/below/"])
            self.took(0, "--cross-file-systems before systems", out=self.left_out("kernel/"),
                      has=["systems/in/below/", "systems/mount/below/"],
                      lacks=["systems/kernel/", "systems/kernel/kernel/"])
            for place in ("/proc", "/proc/sys", "/sys/fs", "systems/kernel/kernel"):
                self.took(2, "other " + place, f"facl-snapshot: {place}: is never recorded")
        with mounted(self.name("mount"), b"--bind", self.name("odd/-d")):
            self.took(0, "before mount odd/-d")
        expect(self.name("mount/") in self.lines("links"), "links lacks a folder that is mounted twice")

    def check_hangs(self, _seed: int) -> None:
        """A FIFO, and file systems of a user whose process never answers, or which keep root out: it ends, and leaves them out."""
        self.make("users/file", "users/mount/")
        os.mkfifo(self.name("users/fifo"))
        place = self.name("users/mount")
        for options in (b"allow_other,user_id=0,group_id=0", b"user_id=65534,group_id=65534"):
            device = os.open("/dev/fuse", os.O_RDWR)
            try:
                made = LIBRARY.mount(b"none", place, b"fuse", 0, b"fd=%d,rootmode=40755,%s" % (device, options))
                expect(made == 0, "FUSE cannot be mounted")
                self.took(0, "before users", out=[f"left out as other file systems: 1, first: {self.text('users/mount/')}"],
                          has=["users/file", "users/fifo"], lacks=["users/mount/"], start=["timeout", "-s", "KILL", "60"])
            finally:
                os.close(device)
                LIBRARY.umount2(place, 2)  # Also where it is in use.

    def check_marks(self, _seed: int) -> None:
        """On ext4: immutable and append-only files, also where nothing of a file may be read or it is none to be opened; places
        that are mounted read-only and noexec; and lists of Samba."""
        self.make("marks/")
        make(self.name("disk"))
        self.shell("truncate -s 8M disk; mkfs.ext4 -q disk")
        top = self.text("marks/")
        with contextlib.ExitStack() as mounts:
            mounts.enter_context(mounted(self.name("marks"), b"-o", b"loop", self.name("disk")))
            self.make("marks/sealed/in", "marks/log", "marks/both", "marks/l\nf", "marks/ro/rw/file", "marks/ro/file", "marks/no/file", "marks/plain")
            for name in ("plain", "sealed"):
                os.setxattr(self.name("marks/" + name), b"security.NTACL", b"\4")
            self.shell("""cd marks; rmdir lost+found; mkfifo ro/fifo; mknod ro/device c 1 3; chmod 0 both
                chattr +a log both; chattr +i "$(printf 'l\nf')" sealed both""")
            for below, how in (("ro", b"ro"), ("ro/rw", b"rw"), ("no", b"noexec")):
                place = self.name("marks/" + below)
                mounts.enter_context(mounted(place, b"--bind", place))
                must(run([b"mount", b"-o", b"remount,bind," + how, place]), 0)
            self.took(0, "--cross-file-systems before marks", f"immutable files, which nobody can write whatever their ACLs say (see marks): 3, first: {top}both",
                      f"append-only files, of which nobody can change what they have (see marks): 2, first: {top}both",
                      f"files on read-only file systems, which nobody can write whatever their ACLs say (see marks): 2, first: {top}ro/",
                      f"files with an ACL of Samba (security.NTACL), which Samba checks too, and facl does not: 2, first: {top}plain")
            self.shell("""cd marks; chattr -i sealed both "$(printf 'l\nf')"; chattr -a log both""")
        known = ["immutable both", "append-only both", "immutable l\\012f", "append-only log", "rw,noexec no/", "ro ro/", "rw ro/device", "rw ro/fifo",
                 "rw ro/rw/", "immutable sealed/"]
        found = [os.fsdecode(line).replace(top, "") for line in self.lines("marks")[:-1] if os.fsencode(top) in line]
        expect(found == known, f"marks: {found}")
        expect(b"samba-list 2" in self.lines("meta"), "meta does not count lists of Samba")

    def untrusted(self, name: str, text: str) -> None:
        """No snapshot is made there, and the message says why."""
        self.took(2, f"trust/{name} masks", f"trust/{text}")
        self.nothing_left()

    def check_trust(self, _seed: int) -> None:
        """Folders and files of another user, or that another one can write by a list or a group."""
        self.make("trust/empty/", "trust/theirs/mine/", "trust/sticky/")
        self.took(0, "trust/theirs/mine/snapshot masks")
        self.shell("""cd trust; chown 65534 empty theirs; chmod 1777 sticky; ln -s "$PWD" sticky/leads
            chown -h 65534 sticky/leads""")
        self.untrusted("empty", "empty: belongs to nobody")
        for last in ("new", "mine/new", "mine/snapshot"):
            self.untrusted("theirs/" + last, "theirs: belongs to")
        self.untrusted("sticky/leads/new", "sticky/leads: belongs to nobody")
        self.shell("cd trust/theirs; chown 0 .; chown 65534 mine/snapshot/links")
        has_other = "exists and is not a snapshot of yours, or has other files: links"
        self.untrusted("theirs/mine/snapshot", f"theirs/mine/snapshot {has_other}")
        self.shell("cd trust/theirs; chown 0:65534 mine; chmod 770 mine")
        self.untrusted("theirs/mine/new", "theirs/mine: others than its owner can write there")
        self.shell("cd trust/theirs; chmod 750 mine; setfacl -m u:nobody:rx mine")
        self.took(0, "trust/theirs/mine/new masks")
        self.shell("setfacl -m u:nobody:rwx trust/theirs/mine")
        self.untrusted("theirs/mine/other", "theirs/mine: others than its owner can write there")
        self.shell("cd trust/theirs; setfacl -b mine; setfacl -d -m u:nobody:rwx,o::rwx mine")
        self.took(0, "trust/theirs/mine/third masks")
        third = self.text("trust/theirs/mine/third")
        modes = {os.stat(place).st_mode & 0o7777 for place in (third, *(it.path for it in os.scandir(third)))}
        expect(modes == {0o700, 0o600}, f"modes by a default list: {modes}")

    def check_private_groups(self, _seed: int) -> None:
        """A folder of the group of one user alone, which its owner may use, until somebody else is in the group."""
        make(self.name("own/"), 0o775, NOBODY, 7)
        user, other, mara = "own:x:65534:7:::\n", "own:x:65534:8:::\n", "mara:x:3:7:::\n"
        for status, group, rows in (
                (1, "own:x:7:", user), (1, "own:x:7:own", user), (2, "own:x:7:mara", user), (2, "staff:x:7:", user),
                (2, "own:x:7:", other), (2, "own:x:7:", user + mara)):
            self.people_are(rows, group + "\n")
            remove(self.name("own/new"))
            self.took(status, "own/new masks", start=["setpriv", "--reuid=65534", "--regid=7", "--clear-groups"])

    def check_endless(self, _seed: int) -> None:
        """A user who moves a large directory ahead of the command whenever that opens it: it ends, with a snapshot that lacks names or
        without one, and nothing is left."""
        places = make_chain(self.name("chain"))
        user = child(MALLORY, moving(places))
        try:
            done = run([*map(os.fsencode, (script.WITH_PEOPLE, self.text("people"), SNAPSHOT, "before", "chain"))],
                       variables=self.variables(), folder=self.work)
        finally:
            os.kill(user, signal.SIGKILL)
            os.waitpid(user, 0)
        expect(done.returncode in (1, 2) and os.path.lexists(self.name("before")) == (done.returncode == 1), f"{done}")
        self.nothing_left()
        self.count("moves ahead of the command", next(number for number, it in enumerate(places) if os.path.exists(it)))

    def check_races(self, _seed: int) -> None:
        """A user who exchanges files, folders and links all the while, in seven ways: each record of the FOLDER is that of the
        very file that inodes has, and none is of a link or of a file outside."""
        top = self.name("race")
        for way in WAYS:
            make_race(top, way)
            known = known_records(top)
            user = child(MALLORY, meddling(top, way))
            try:
                words = [script.WITH_PEOPLE, self.text("people"), SNAPSHOT, "--quiet", "before", "race/tree"]
                done = run([*map(os.fsencode, words)], variables=self.variables(), folder=self.work)
            finally:
                os.kill(user, signal.SIGKILL)
                ended = os.waitpid(user, 0)[1]
            expect(ended == signal.SIGKILL, f"{way.title}: the user could not exchange them")
            expect(done.returncode in (0, 1), f"{way.title}: {done}")
            dump = self.read("before/dump")
            wrong = wrong_records(top, known, dump, self.read("before/inodes"))
            expect(not wrong, f"{way.title}: {len(wrong)} records, first: {wrong[:1]}")
            self.count("records of files that change places", dump.count(b"# file: " + top + b"/tree/"))
            self.count(f"snapshots while a user exchanges {way.title}")
            self.count(f"of these snapshots lack what was exchanged ({way.title})", done.returncode)


def main() -> int:
    return run_parts(Snapshots, __doc__)
