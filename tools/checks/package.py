"""Makes the Debian package in two clones, by tools/package.sh and by dpkg-buildpackage, and in a copy without git. It is then
installed, upgraded, removed and purged: the same bytes, no warning of lintian, and nothing left but what is said.

usage: tools/check.py package [--before PACKAGE] [--record] FILE LINUX_FILE

FILE and LINUX_FILE are programs that are built, and PACKAGE one that was made before, which is upgraded. It takes root, and
the Debian packages debhelper, dh-python, dpkg-dev and lintian. What is installed goes into an overlay over this system,
in a mount namespace, and is gone with it. The exit status is 1 if something is not as it has to be, 2 if the words
are others.
"""
from __future__ import annotations

import argparse
import os
import re
import shutil
import subprocess
import tempfile
from pathlib import Path
from typing import Dict, List, Optional

from lib import script
from lib.script import TOP, Failed

# Installs packages into an overlay; after each step a line with its name, and what is there then and was not before.
LIFE = r"""
mount -t tmpfs tmpfs "$1"
cd "$1"; shift
mkdir up work root
mount -t overlay overlay -o lowerdir=/,upperdir=up,workdir=work root
mount -t tmpfs tmpfs root/tmp; mount -t tmpfs tmpfs root/run; mount --rbind /dev root/dev; mount -t proc proc root/proc
cp -- "$@" root/tmp
inside() { DEBIAN_FRONTEND=noninteractive chroot root "$@" </dev/null 2>&1; }
step() {
    echo "== $1"
    (cd up && find . \( ! -type d -o -empty -name "*facl*" \) ! -path "./var/lib/dpkg/*" ! -path "./var/cache/*" ! -path "./var/log/*" \
        ! -path "./var/lib/apt/*" ! -path "./var/lib/man-db/*")
}
rm -f root/var/lib/man-db/auto-update # Else pages are indexed after each step, for minutes.
mkdir -p root/etc/systemd/system/timers.target.wants
enabled=
for package; do
    inside dpkg -i "/tmp/${package##*/}"
    [ "$enabled" ] || ln -s /lib/systemd/system/facl-daily.timer root/etc/systemd/system/timers.target.wants
    enabled=yes
    inside facl --version
    step installed
done
mkdir -p root/var/lib/facl/day root/var/lib/systemd/timers; echo text >root/var/lib/facl/day/dump
echo text >root/etc/default/facl-daily.before; echo >root/var/lib/systemd/timers/stamp-facl-daily.timer
inside dpkg --remove facl; step removed
inside dpkg --purge facl; step purged
"""
LINK, KEPT = "./etc/systemd/system/timers.target.wants/facl-daily.timer", "./var/lib/facl/day/dump"
# Settings; those that facl daily --install kept; and when the timer ran last.
SETTINGS, BEFORE = "./etc/default/facl-daily", "./etc/default/facl-daily.before"
STAMP = "./var/lib/systemd/timers/stamp-facl-daily.timer"


def run(words: List[str], folder: Optional[str] = None, **environment: str) -> str:
    """What a command prints, which ends with 0."""
    done = subprocess.run(words, cwd=folder, env={**os.environ, **environment}, stdin=subprocess.DEVNULL, text=True,
                          stdout=subprocess.PIPE, stderr=subprocess.STDOUT, check=False)
    if done.returncode:
        raise Failed(f"{words[0]}: status {done.returncode}\n{done.stdout[-4000:]}")
    return done.stdout


def expect(holds: bool, fault: str) -> None:
    if not holds:
        raise Failed(fault)


def copy(folder: str, name: str, is_clone: bool) -> str:
    """A copy of the repository as it was committed."""
    made = os.path.join(folder, name, "facl")
    os.makedirs(made)
    if is_clone:
        run(["git", "clone", "-q", TOP, made])
    else:
        run(["sh", "-c", 'git -C "$0" archive HEAD | tar -x -C "$1"', TOP, made])
    return made


def package_in(folder: str) -> str:
    """The package that was made in a folder, the only one."""
    found = [str(path) for path in Path(folder).glob("facl_*.deb")]
    expect(len(found) == 1, f"packages: {found}")
    return found[0]


def field(package: str, name: str) -> str:
    return run(["dpkg-deb", "-f", package, name]).strip()


def build(folder: str, programs: List[str]) -> str:
    """The package, of which two ways give the same bytes, and the one of a copy without git its version."""
    one, two, bare = copy(folder, "one", True), copy(folder, "another", True), copy(folder, "bare", False)
    variables = dict(zip(("FACL_PROGRAM", "FACL_LINUX_PROGRAM"), programs))
    printed = run([os.path.join(one, "tools/package.sh"), "--program", *programs, os.path.dirname(one)])
    made = package_in(os.path.dirname(one))
    expect(printed == made + "\n", f"printed: {printed}")
    expect(not run(["git", "status", "--porcelain", "--ignored"], one), "the clone has other files")
    run(["dpkg-buildpackage", "-us", "-uc", "-b"], two, **variables)
    same = Path(package_in(os.path.dirname(two))).read_bytes() == Path(made).read_bytes()
    expect(same, f"{package_in(os.path.dirname(two))} has other bytes")
    run([os.path.join(bare, "tools/package.sh"), "--program", *programs, os.path.dirname(bare)])
    head = Path(TOP, "debian/changelog").read_text(encoding="utf-8").split("(", 1)[1].split(")", 1)[0]
    expect(field(package_in(os.path.dirname(bare)), "Version") == head, "the version without git is another one")
    return made


def check_files(package: str, programs: List[str], folder: str) -> None:
    """The programs are those that were given, to the byte, and lintian warns of nothing."""
    there = os.path.join(folder, "there")
    run(["dpkg-deb", "-x", package, there])
    for program, name in zip(programs, ("facl-program", "facl_linux")):
        expect(Path(there, "usr/libexec/facl", name).read_bytes() == Path(program).read_bytes(), f"{name} has other bytes")
    script.say(run(["lintian", "--allow-root", "--pedantic", "--display-info", "--fail-on", "error,warning", package]).strip())


def life(packages: List[str], folder: str) -> Dict[str, List[str]]:
    """What is there after each step, by its name, and under the name `` what was printed."""
    root = os.path.join(folder, "life")
    os.mkdir(root)
    printed = run(["unshare", "-m", "sh", "-eu", "-c", LIFE, "sh", root, *packages])
    steps = re.findall(r"^== (\w+)\n((?:\./.*\n)*)", printed, re.M)
    return {"": [printed], **{name: sorted(text.split()) for name, text in steps}}


def check_life(packages: List[str], folder: str) -> None:
    found = life(packages, folder)
    modules = [path for path in found["installed"] if path.startswith("./usr/libexec/facl/facl_commands/")]
    compiled = sum(path.endswith(".pyc") for path in modules)
    expect(compiled == sum(path.endswith(".py") for path in modules) > 0, f"{compiled} modules are compiled")
    expect(f"facl {field(packages[-1], 'Version')}\n" in found[""][0], "facl has another version")
    on_path = [path for path in found["installed"] if re.match(r"\./usr/s?bin/", path)]
    expect(on_path == ["./usr/bin/facl", "./usr/bin/facl_linux"], f"on the path: {on_path}")
    expect(LINK in found["installed"] and LINK in found["removed"], "the timer is no longer enabled")
    left = [path for path in found["removed"] if "deb-systemd-helper" not in path]
    expect(left == sorted([SETTINGS, BEFORE, STAMP, LINK, KEPT]), f"left after it was removed: {left}")
    expect(found["purged"] == [KEPT], f"left after it was purged: {found['purged']}")
    expect("rm -r /var/lib/facl\n" in found[""][0], "nothing is said of what is kept")


def main() -> int:
    options = argparse.ArgumentParser(description=__doc__, formatter_class=argparse.RawDescriptionHelpFormatter)
    options.add_argument("programs", nargs=2, metavar="FILE")
    options.add_argument("--before", metavar="PACKAGE")
    options.add_argument("--record", action="store_true")
    given = options.parse_args()
    missing = [tool for tool in ("dh", "dh_python3", "dpkg-buildpackage", "lintian", "unshare") if not shutil.which(tool)]
    expect(not missing, f"not installed: {' '.join(missing)}")
    expect(os.geteuid() == 0, "it takes root")
    programs = [os.path.realpath(program) for program in given.programs]
    with tempfile.TemporaryDirectory(prefix="facl-package.") as folder:
        package = build(folder, programs)
        check_files(package, programs, folder)
        check_life([*([os.path.realpath(given.before)] if given.before else []), package], folder)
        amount = f"{len(Path(package).read_bytes())} bytes, version {field(package, 'Version')}"
    script.say(f"{amount}: nothing")
    if given.record:
        script.record(f"{amount}; {'upgraded, ' if given.before else ''}installed, removed, purged", "nothing")
    return 0
