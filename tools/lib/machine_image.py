"""The disks of machines: Debian 12 by debootstrap, without and with facl, and packages for later.

A disk is one file system without partitions, which mkfs.ext4 makes of a folder, so nothing is mounted but in a namespace that is
gone with its process. A machine has no network but to this script: what is installed in it later was downloaded before, and apt
takes it from its folder of archives.
"""
from __future__ import annotations

import os
import shutil
import subprocess
from pathlib import Path
from typing import List, NamedTuple

from .script import Failed, say

RELEASE, MIRROR = "bookworm", "http://deb.debian.org/debian"
SIZE = "4G"  # Of a disk, of which what was never written takes no room.
# What a server has before facl is installed, which is no Python, and what is installed later.
INSTALLED = "systemd-sysv udev dbus openssh-server linux-image-cloud-amd64 e2fsprogs man-db less bash-completion ca-certificates"
LATER = "python3 acl python3-prompt-toolkit postfix slapd ldap-utils sssd-ldap libnss-sss"
TOOLS = (
    "debootstrap", "mkfs.ext4", "unshare", "qemu-system-x86_64", "qemu-img", "qemu-storage-daemon", "ssh", "ssh-keygen",
    "dpkg-deb")
START = r"""
root=$1; shift
mount -t proc proc "$root/proc"; mount -t tmpfs tmpfs "$root/tmp"
inside() { DEBIAN_FRONTEND=noninteractive LC_ALL=C.UTF-8 chroot "$root" "$@"; }
printf '#!/bin/sh\nexit 101\n' >"$root/usr/sbin/policy-rc.d"; chmod 755 "$root/usr/sbin/policy-rc.d"
echo force-unsafe-io >"$root/etc/dpkg/dpkg.cfg.d/quick"
"""
END = r"""
rm "$root/usr/sbin/policy-rc.d" "$root/etc/dpkg/dpkg.cfg.d/quick"
rm -f "$root/var/lib/man-db/auto-update" # Else pages are indexed after each installation.
umount "$root/proc" "$root/tmp"
"""
# The words are the folder, the key that may log in, and packages of both kinds.
PLAIN = START + r"""
echo server >"$root/etc/hostname"
printf '127.0.0.1 localhost server\n' >"$root/etc/hosts"
inside apt-get update
inside apt-get install -y --no-install-recommends $2
inside apt-get install -y --download-only $3
install -D -m 600 "$1" "$root/root/.ssh/authorized_keys"
printf '/dev/vda / ext4 defaults 0 1\n' >"$root/etc/fstab"
printf '[Match]\nName=eth0\n[Network]\nAddress=10.0.2.15/24\n' >"$root/etc/systemd/network/1.network"
inside systemctl enable -q systemd-networkd
inside systemctl disable -q apt-daily.timer apt-daily-upgrade.timer e2scrub_reap.service
""" + END
# The words are the folder, and packages. Their services are off.
FULL = START + r"""
inside debconf-set-selections <<'ANSWERS'
postfix postfix/main_mailer_type select Local only
postfix postfix/mailname string server
slapd slapd/domain string example.org
ANSWERS
inside apt-get install -y $1
for name in postfix slapd sssd; do inside systemctl disable -q $name; done
inside apt-get clean
""" + END
FACL = START + 'cp "$1" "$root/root/facl.deb"; inside dpkg -i /root/facl.deb\n' + END


class Image(NamedTuple):
    """A disk, and the folder with the kernel that starts it and the key that may log in."""

    folder: str
    disk: str

    def file(self, name: str) -> str:
        return os.path.join(self.folder, name)


def run_logged(words: List[str], log: str) -> None:
    """Runs a command whose lines go into a file, the last of which are said where it fails."""
    with open(log, "ab") as file:
        done = subprocess.run(words, stdin=subprocess.DEVNULL, stdout=file, stderr=subprocess.STDOUT, check=False)
    if done.returncode:
        lines = Path(log).read_text(encoding="utf-8", errors="replace").splitlines()[-15:]
        raise Failed(f"{words[0]}: status {done.returncode}\n" + "\n".join(lines))


def fill(script: str, root: str, *words: str, log: str) -> None:
    """Runs a script over the folder of a disk; what it started ends with it, and so do its mounts."""
    run_logged(["unshare", "-m", "-p", "--fork", "--kill-child", "sh", "-euc", script, "sh", root, *words], log)


def make_disk(root: str, disk: str, log: str) -> None:
    """A disk that appears when it is complete."""
    run_logged(["mkfs.ext4", "-q", "-F", "-d", root, disk + ".new", SIZE], log)
    os.rename(disk + ".new", disk)


def image_in(folder: str) -> Image:
    """The disk without facl that a folder has; it is made where it is not there, with the folder `full`."""
    place = Path(os.path.realpath(folder))
    image, plain, full, log = Image(str(place), str(place / "plain.img")), place / "plain", place / "full", str(place / "log")
    if os.path.exists(image.disk):
        return image
    say(f"makes {image.disk}, which takes some minutes: {log}")
    for old in (plain, full):
        shutil.rmtree(old, ignore_errors=True)
    (place / "key").unlink(missing_ok=True)
    run_logged(["ssh-keygen", "-q", "-t", "ed25519", "-N", "", "-f", str(place / "key")], log)
    run_logged(["debootstrap", "--variant=minbase", RELEASE, str(plain), MIRROR], log)
    fill(PLAIN, str(plain), str(place / "key.pub"), INSTALLED, LATER, log=log)
    for name, start in (("kernel", "vmlinuz"), ("initrd", "initrd.img")):
        shutil.copy(next((plain / "boot").glob(start + "-*")), place / name)
    hosts = ["machine " + path.read_text(encoding="ascii") for path in (plain / "etc/ssh").glob("*.pub")]
    (place / "hosts").write_text("".join(hosts), encoding="ascii")
    run_logged(["cp", "-a", str(plain), str(full)], log)
    fill(FULL, str(full), LATER, log=log)
    make_disk(str(plain), image.disk, log)
    shutil.rmtree(plain)
    return image


def with_facl(image: Image, package: str, folder: str) -> Image:
    """A disk on which a package of facl and the later ones are installed."""
    root, log = os.path.join(folder, "root"), os.path.join(folder, "log")
    run_logged(["cp", "-a", image.file("full"), root], log)
    fill(FACL, root, package, log=log)
    made = Image(image.folder, os.path.join(folder, "facl.img"))
    make_disk(root, made.disk, log)
    shutil.rmtree(root)
    return made
