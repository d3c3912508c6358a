"""Does with the package, in machines of its own, what a server does: Debian 12 in qemu, with systemd, mail, a directory and ssh.

usage: tools/check.py machine PROGRAM LINUX_PROGRAM [PART..] [--package FILE] [--before FILE] [--folder DIR]
                              [--files N] [--cuts N] [--seed N] [--record]

As root, with debootstrap, qemu-system-x86 and qemu-utils; the disk is made of the mirror of Debian. PROGRAM and LINUX_PROGRAM are
programs that are built, of which tools/package.sh makes the package, unless FILE is one. DIR keeps the disks for later runs, some
2 GB, and may be empty. PARTs choose:

  package   installed by apt from nothing, README's session and table of verbs word by word, an upgrade (from --before FILE, else
            from the same package by an older version), removed, purged: what is left is what is documented
  week      nights by the timer of the package, with the clock moved from day to day, a folder that is gone, and a machine that is
            off: each mail that postfix delivers has what was changed that day, and nothing else
  power     --cuts N (10) power cuts in each of `facl apply` and `facl undo` on N files (3,000), in which the disk loses writes
            that it need not keep (lib/machine_disk.py): after the boot each ends in exactly the state before or after
  ldap      users of slapd by sssd, who are listed or not: snapshot, who, why, user, plan and ask beside access(2) as each user
  ssh       `facl ask --hosts` over two machines: both, another key, no facl there, a connection and a machine that end meanwhile
  cuts      as power, without a machine: --cuts N moments in the log of a disk of this system, on which each verb runs once

The exit status is 1 if something is not as it has to be, 2 if the words are others. At its end, also by a signal, no
machine, no disk beside those of DIR and no mount is left.
"""
from __future__ import annotations

import argparse
import os
import shutil
import subprocess
import tempfile
import time
from typing import Callable, Dict, List, NamedTuple, Tuple

from lib.machine import machines
from lib.machine_cuts import CutsPart
from lib.machine_directory import DirectoryPart
from lib.machine_disk import LoggedDisk
from lib.machine_image import TOOLS, Image, image_in, with_facl
from lib.machine_package import PackagePart, version_of, with_version
from lib.machine_power import SIZE, PowerPart
from lib.machine_servers import ServersPart
from lib.machine_week import WeekPart
from lib.script import TOP, Failed, say
from lib.session import conclude, program_at


class Setup(NamedTuple):
    """What the parts need."""

    plain: Image  # Without facl,
    image: Image  # and with it.
    package: str
    older: str
    work: str
    given: argparse.Namespace


Result = Tuple[str, List[str]]  # What was done, and what was found.


def do_package(setup: Setup) -> Result:
    with machines(setup.plain, setup.work, "package") as (machine,):
        part = PackagePart(machine, (setup.package, setup.older), setup.work)
        return part.run(), part.faults


def do_week(setup: Setup) -> Result:
    with machines(setup.image, setup.work, "week") as (machine,):
        part = WeekPart(machine)
        return part.run(), part.faults


def do_power(setup: Setup) -> Result:
    with machines(setup.image, setup.work, "power") as (machine,):
        part = PowerPart(machine, LoggedDisk(setup.work, SIZE), setup.given.files, setup.given.cuts, setup.given.seed)
        return part.run(), part.faults


def do_ldap(setup: Setup) -> Result:
    with machines(setup.image, setup.work, "ldap") as (machine,):
        part = DirectoryPart(machine, setup.given.seed)
        return part.run(), part.faults


def do_ssh(setup: Setup) -> Result:
    with machines(setup.image, setup.work, "one", "two") as (here, there):
        part = ServersPart(here, there)
        return part.run(), part.faults


def do_cuts(given: argparse.Namespace, work: str) -> Result:
    """Last, since it makes a mount namespace of this process."""
    part = CutsPart(work, given.programs, given.files, given.cuts, given.seed)
    return part.run(), part.faults


PARTS: Dict[str, Callable[[Setup], Result]] = {
    "package": do_package, "week": do_week, "power": do_power, "ldap": do_ldap, "ssh": do_ssh}
CUTS = "cuts"


def make_package(given: argparse.Namespace, work: str) -> str:
    """A package of the programs, in a clone of the commit."""
    clone = os.path.join(work, "clone")
    script = os.path.join(clone, "tools", "package.sh")
    for line in (["git", "clone", "-q", TOP, clone], [script, "--program", *given.programs, work]):
        done = subprocess.run(line, capture_output=True, text=True, check=False)
        if done.returncode:
            raise Failed(f"{line[0]}: status {done.returncode}: {done.stderr[-1000:]}")
    return done.stdout.strip()


def prepare(given: argparse.Namespace, work: str) -> Setup:
    """The disks and the packages."""
    plain = image_in(given.folder or os.path.join(work, "disks"))
    package = os.path.realpath(given.package) if given.package else make_package(given, work)
    older = os.path.realpath(given.before) if given.before else with_version(package, "0.1", work)
    image = with_facl(plain, package, work) if {*given.parts} - {"package"} else plain
    return Setup(plain, image, package, older, work, given)


def words() -> argparse.Namespace:
    options = argparse.ArgumentParser(description=__doc__, formatter_class=argparse.RawDescriptionHelpFormatter)
    options.add_argument("programs", nargs=2, metavar="PROGRAM", type=program_at)
    options.add_argument("parts", nargs="*", metavar="PART", choices=[[], *PARTS, CUTS], default=[])
    for name in ("package", "before", "folder"):
        options.add_argument("--" + name, metavar="DIR" if name == "folder" else "FILE")
    for name, number in (("files", 3000), ("cuts", 10), ("seed", 1)):
        options.add_argument("--" + name, type=int, default=number, metavar="N")
    options.add_argument("--record", action="store_true")
    given = options.parse_intermixed_args()
    given.parts = given.parts or [*PARTS, CUTS]
    return given


def do_parts(given: argparse.Namespace, work: str) -> List[Result]:
    """What each part did, in their order."""
    found: List[Result] = []
    named = [name for name in PARTS if name in given.parts]
    setup = prepare(given, work) if named else None
    for name in [*named, *[CUTS] * (CUTS in given.parts)]:
        start = time.monotonic()
        found.append(PARTS[name](setup) if name in PARTS and setup else do_cuts(given, work))
        say(f"{name}: {time.monotonic() - start:.0f} s: {len(found[-1][1])} faults")
    return [*found, (f"package {version_of(setup.package)}", [])] if setup else found


def main() -> int:
    given = words()
    missing = [tool for tool in TOOLS if not shutil.which(tool)]
    if os.geteuid() != 0 or missing:
        raise Failed(f"it takes root, and {' '.join(missing or TOOLS)}")
    with tempfile.TemporaryDirectory(prefix="facl-machine.", dir="/var/tmp") as work:
        os.makedirs(given.folder or os.path.join(work, "disks"), exist_ok=True)
        found = do_parts(given, work)
    return conclude(given, "; ".join(amount for amount, _ in found), [fault for _, faults in found for fault in faults])
