"""The part `cuts` of checks/machine.py: power cuts in the middle of `facl apply` and `facl undo` at any moment of a disk's log.

It takes no machine: the disk of lib/machine_disk.py is one of this system, which qemu-storage-daemon gives by FUSE, on a loop
device. Each verb runs once to its end. Each beginning of the log is what a power cut at that moment may have left, less writes
since its last flush that the disk need not keep: of such a disk Linux mounts the file system, and the verbs go on.
"""
from __future__ import annotations

import contextlib
import ctypes
import fcntl
import os
import random
import shutil
import signal
import subprocess
import time
from pathlib import Path
from typing import Dict, Iterator, List, Tuple

from .job_tree import FACL, NEW_NAMESPACE, run
from .machine_disk import WAYS, LoggedDisk, entries, lose
from .machine_power import CONTENTS, EDITS, LISTING, MAKE, PLAN, STORE, TREE, states_of
from .script import Failed, say

SIZE = 96 << 20
ADD_DEVICE, REMOVE_DEVICE = 0x4C80, 0x4C81  # LOOP_CTL_ADD and LOOP_CTL_REMOVE of loop(4).
PEOPLE = {
    "passwd": "root:x:0:0::/root:/bin/sh\n" + "".join(f"user{n}:x:7000{n}:7000{n}::/:/bin/sh\n" for n in (1, 2, 3)),
    "group": "root:x:0:\n" + "".join(f"team{n}:x:7000{n}:\n" for n in (1, 2, 3)),
    "nsswitch.conf": "passwd: files\ngroup: files\n"}
MKFS = ("mkfs.ext4", "-q", "-F", "-b", "4096", "-E", "lazy_itable_init=0,lazy_journal_init=0")


def shell(text: str, given: str = "") -> str:
    return run("sh", "-euc", text, given=given).stdout


@contextlib.contextmanager
def beside(text: str) -> Iterator[None]:
    """Another program at work: one that has the file system written out all the time, so that the log has many moments."""
    process = subprocess.Popen(["sh", "-c", text], start_new_session=True)
    try:
        yield
    finally:
        os.killpg(process.pid, signal.SIGKILL)
        process.wait()


class CutsPart:
    """The disk, and the tree on it in both states."""

    def __init__(self, work: str, programs: List[str], files: int, cuts: int, seed: int) -> None:
        self.work, self.files, self.cuts, self.chance = work, files, cuts, random.Random(seed)
        self.disk, self.image = LoggedDisk(work, SIZE), os.path.join(work, "disk.cut")
        self.variables = {"FACL": programs[0], "FACL_LINUX": programs[1], "FACL_STORE": STORE}
        self.loop = 1000 + os.getpid() % 100_000  # A device that no other program takes meanwhile.
        self.faults: List[str] = []
        self.listings: Dict[str, str] = {}
        self.contents = ""
        self.between = 0

    def facl(self, *words: str, statuses: Tuple[int, ...] = (0,)) -> "subprocess.CompletedProcess[str]":
        return run(FACL, *words, statuses=statuses, variables=self.variables)

    @contextlib.contextmanager
    def mounted(self, file: str) -> Iterator[None]:
        """A disk at /srv, always by the same device, as files are known by it until the next boot."""
        device = f"/dev/loop{self.loop}"
        run("losetup", device, file)
        try:
            run("mount", device, "/srv")
            try:
                yield
            finally:
                run("umount", "/srv")
        finally:
            run("losetup", "-d", device)

    @contextlib.contextmanager
    def logged(self) -> Iterator[None]:
        """The same of the disk whose writes are logged."""
        place = os.path.join(self.work, "device")
        Path(place).touch()
        export = f"type=fuse,id=device,node-name=logged,mountpoint={place},writable=on"
        daemon = subprocess.Popen(["qemu-storage-daemon", *self.disk.nodes("--blockdev"), "--export", export])
        try:
            while os.path.getsize(place) != SIZE and daemon.poll() is None:
                time.sleep(0.1)
            with self.mounted(place):
                yield
        finally:
            daemon.terminate()
            daemon.wait()

    def make(self) -> None:
        """Makes the tree and the plan."""
        run(*MKFS, self.disk.before)
        for name, text in PEOPLE.items():
            Path(self.work, name).write_text(text, encoding="ascii")
            run("mount", "--bind", os.path.join(self.work, name), f"/etc/{name}")
        with self.mounted(self.disk.before):
            shell(f"python3 - {self.files}", MAKE)
            shell(f"setfacl -R -m u:user2:rw {TREE}/0*; mkdir -m 700 {STORE}; cat >/srv/edits", EDITS)
            self.facl("snapshot", "-q", TREE)
            self.facl("plan", "-q", "-o", PLAN, "/srv/edits")
            self.listings["undo"], self.contents = shell(LISTING), shell(CONTENTS)

    def check(self, what: str, then: str) -> str:
        """Goes on after a cut: the tree has exactly the state of the verb then, and nothing is left to do. What it said."""
        ends = {verb: states_of(its) for verb, its in self.listings.items()}
        found = states_of(shell(LISTING))
        counts = {verb: sum(found.get(path) == text for path, text in its.items()) for verb, its in ends.items()}
        self.between += 0 < counts["apply"] < len(found)
        if found.keys() != ends["apply"].keys() or shell(CONTENTS) != self.contents:
            self.faults.append(f"{what}: files or their contents are others")
        done = self.facl(then, PLAN, statuses=tuple(range(6)))
        if done.returncode not in (0, 3) or shell(LISTING) != self.listings[then]:
            self.faults.append(f"{what}: {then}: status {done.returncode}: {done.stdout}{done.stderr}"[:900])
        again = self.facl(then, PLAN, statuses=tuple(range(6)))
        if again.returncode != 3:
            self.faults.append(f"{what}: {then} once more: status {again.returncode}: {again.stdout}{again.stderr}"[:500])
        said = (done.stderr + done.stdout).strip().replace("\n", " | ")
        return f"{counts['undo']} files as before, {counts['apply']} as planned, of {len(found)}; {then}: {said}"

    def cut(self, verb: str) -> None:
        """Runs a verb to its end, and cuts the power at moments of the log."""
        with self.logged():
            with beside("while :; do sync -f /srv; sleep 0.01; done"):
                self.facl(verb, PLAN)
            if self.listings.setdefault(verb, shell(LISTING)) != shell(LISTING):
                self.faults.append(f"{verb}: another state than before")
        writes = list(entries(Path(self.disk.log).read_bytes()))
        for number in range(self.cuts):
            moment, then = self.chance.randrange(len(writes)), self.chance.choice(("apply", "undo"))
            way = WAYS[number % len(WAYS)]
            shutil.copyfile(self.disk.before, self.image)
            lost = lose(self.image, writes[:moment], way, self.chance)
            what = f"{verb}, cut after {moment} of {len(writes)} writes and flushes: {lost}"
            with self.mounted(self.image):
                say(f"{what}; {self.check(what, then)}")
        self.disk.keep()

    def run(self) -> str:
        """Does all cuts, in a mount namespace of its own; what was done."""
        if ctypes.CDLL(None, use_errno=True).unshare(NEW_NAMESPACE):
            raise Failed("unshare: " + os.strerror(ctypes.get_errno()))
        run("mount", "--make-rprivate", "/")
        with open("/dev/loop-control", "rb") as control:
            fcntl.ioctl(control, ADD_DEVICE, self.loop)
            try:
                self.make()
                for verb in ("apply", "undo"):
                    self.cut(verb)
            finally:
                fcntl.ioctl(control, REMOVE_DEVICE, self.loop)
        return f"cuts: {self.files} files, {self.cuts} cuts in each of apply and undo, {self.between} with files of both states"
