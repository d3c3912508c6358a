"""The part `power` of checks/machine.py: power cuts in the middle of `facl apply` and `facl undo`, on a disk that loses writes.

The tree, the store and the plan are on a disk of lib/machine_disk.py. After each cut the machine starts, its boot repairs the
file system, and `facl undo` or `facl apply` brings the tree to exactly the state before or after the plan.
"""
from __future__ import annotations

import random
import re
import time
from typing import Dict, List, NamedTuple

from .machine import Machine
from .machine_disk import WAYS, LoggedDisk
from .script import say

SIZE = 256 << 20  # Bytes of the disk.
# What a boot does without here, as there are many: no part of how the file system comes back.
MASKED = ("modprobe@configfs.service modprobe@dm_mod.service modprobe@drm.service modprobe@efi_pstore.service "
          "modprobe@fuse.service modprobe@loop.service kmod-static-nodes.service systemd-random-seed.service "
          "systemd-sysusers.service systemd-sysctl.service dev-hugepages.mount dev-mqueue.mount sys-kernel-debug.mount "
          "sys-kernel-tracing.mount sys-fs-fuse-connections.mount sys-kernel-config.mount e2scrub_reap.service getty.target "
          "systemd-logind.service systemd-update-utmp.service systemd-update-utmp-runlevel.service "
          "systemd-journal-flush.service").split()
TREE, PLAN, STORE = "/srv/tree", "/srv/edits.plan", "/srv/store"
FACL = f"cd /srv; FACL_STORE={STORE} facl "
# Makes directories of twenty files each, with lists of two kinds.
MAKE = r"""
import os, sys
for number in range(int(sys.argv[1])):
    folder = "/srv/tree/%03d" % (number // 20)
    if number % 20 == 0:
        os.makedirs(folder)
        os.chown(folder, 70001, 70001)
    name = "%s/%d" % (folder, number)
    with open(name, "w") as file:
        file.write("text %d\n" % number)
    os.chmod(name, 0o640 if number % 3 else 0o604)
    os.chown(name, 70001 + number % 2, 70001)
"""
USERS = "for n in 1 2 3; do groupadd -g 7000$n team$n; useradd -M -u 7000$n -g team$n user$n; done"
EDITS = f"chown -R user3:team2 {TREE}\nsetfacl -R -m u:user1:rX,g:team3:rwX {TREE}\n"
BOOT = "findmnt -n -o SOURCE,FSTYPE,OPTIONS /srv; systemctl --failed --no-legend; journalctl -b -p 3 -o cat -u 'systemd-fsck*'"
LISTING = f"getfacl -R -n -p {TREE}"
CONTENTS = f"find {TREE} -type f | sort | xargs cat | md5sum; find {TREE} | wc -l"


class Cut(NamedTuple):
    """A power cut: in which verb, after which part of its time, what the disk keeps, and by which verb it goes on."""

    verb: str
    moment: float
    way: str
    then: str


def states_of(listing: str) -> Dict[str, str]:
    """The blocks of getfacl by their file."""
    return dict(block.split("\n", 1) for block in listing.strip().split("\n\n"))


class PowerPart:
    """The tree in both states, and the cuts."""

    def __init__(self, machine: Machine, disk: LoggedDisk, files: int, cuts: int, seed: int) -> None:
        self.machine, self.disk, self.files, self.cuts = machine, disk, files, cuts
        self.chance = random.Random(seed)
        self.faults: List[str] = []
        self.listings: Dict[str, str] = {}  # By the verb that leads there.
        self.seconds: Dict[str, float] = {}  # What each verb takes.
        self.contents = ""
        self.between = 0  # Cuts that found files of both states.

    def start(self) -> None:
        self.machine.more, self.machine.masked = self.disk.words(), MASKED
        self.machine.start()

    def make(self) -> None:
        """Makes the disk, the tree and the plan, and does it once there and back."""
        self.start()
        run = self.machine.run
        run("mkfs.ext4 -q -F /dev/vdb && echo '/dev/vdb /srv ext4 defaults 0 2' >>/etc/fstab && mount /srv; " + USERS)
        run(f"python3 - {self.files}", MAKE)
        run(f"setfacl -R -m u:user2:rw {TREE}/0*; mkdir -m 700 {STORE}; cat >/srv/edits", EDITS)
        run(FACL + f"snapshot -q {TREE}")
        run(FACL + f"plan -q -o {PLAN} edits")
        self.contents = self.machine.out(CONTENTS)
        self.listings["undo"] = self.machine.out(LISTING)
        for verb in ("apply", "undo"):
            before = time.monotonic()
            run(FACL + f"{verb} {PLAN}")
            self.seconds[verb] = time.monotonic() - before
            found = self.machine.out(LISTING)
            if self.listings.setdefault(verb, found) != found:
                self.faults.append("without a cut: undo leaves another state than before")
        self.machine.stop()
        self.disk.keep()
        self.start()

    def after(self, cut: Cut) -> str:
        """Starts the machine after a cut; says what the tree has then."""
        self.start()
        problems = self.machine.ask(BOOT)
        if not re.match(r"/dev/vdb +ext4 +rw", problems.out) or problems.out.count("\n") > 1:
            self.faults.append(f"{cut}: after the boot: {problems.both()}")
        found, ends = states_of(self.machine.out(LISTING)), {verb: states_of(its) for verb, its in self.listings.items()}
        counts = {verb: sum(found.get(path) == text for path, text in its.items()) for verb, its in ends.items()}
        self.between += 0 < counts["apply"] < len(found)
        if found.keys() != ends["apply"].keys() or self.machine.out(CONTENTS) != self.contents:
            self.faults.append(f"{cut}: files or their contents are others")
        return f"{counts['undo']} files as before, {counts['apply']} as planned, {len(found) - sum(counts.values())} between"

    def check(self, cut: Cut) -> str:
        """Goes on after a cut: the tree has exactly the state of the verb then, and nothing is left to do. What it said."""
        done = self.machine.ask(FACL + f"{cut.then} {PLAN}")
        if done.status not in (0, 3) or self.machine.out(LISTING) != self.listings[cut.then]:
            self.faults.append(f"{cut}: {cut.then}: status {done.status}: {done.both()[-600:]}")
        again = self.machine.ask(FACL + f"{cut.then} {PLAN}")
        if again.status != 3:
            self.faults.append(f"{cut}: {cut.then} once more: status {again.status}: {again.both()[-300:]}")
        return done.both().strip().replace("\n", " | ")

    def try_cut(self, cut: Cut) -> None:
        """From the state before the verb to the state after the next one."""
        other = "undo" if cut.verb == "apply" else "apply"
        self.machine.run(FACL + f"{other} {PLAN}; sync", statuses=(0, 3))
        at_work = self.machine.begin(FACL + f"{cut.verb} {PLAN}")
        time.sleep(cut.moment * self.seconds[cut.verb])
        is_early = at_work.poll() is None
        self.machine.cut()
        at_work.wait()
        lost = self.disk.cut(cut.way, self.chance)
        found, said = self.after(cut), self.check(cut)
        say(f"{cut.verb} at {cut.moment:.2f}{'' if is_early else ', which had ended'}: {lost}; {found}; {cut.then}: {said}")

    def run(self) -> str:
        """Does all cuts; what was done."""
        self.make()
        for number in range(2 * self.cuts):
            moment, then = self.chance.uniform(0.02, 1.05), self.chance.choice(("apply", "undo"))
            self.try_cut(Cut(("apply", "undo")[number % 2], moment, WAYS[number // 2 % len(WAYS)], then))
        return f"power: {self.files} files, {self.cuts} cuts in each of apply and undo, {self.between} with files of both states"
