"""Copies of the commands with code of tests at the end of facl-snapshot's: users, groups and lists that the system does not have,
and what somebody does meanwhile."""
from __future__ import annotations

import os
import shutil
from typing import List

from common import COMMANDS

SNAPSHOT = os.path.join(COMMANDS, "facl-snapshot")
# A person is listed in any case.
PERSON = """
import pwd
from . import asking
listed_users, listed_groups = asking.all_users, asking.all_groups
ann = pwd.struct_passwd(("ann", "x", 70001, 70001, "", "/", "/bin/sh"))
asking.all_users = lambda: [asking.user_of(ann), *listed_users()]
asking.all_groups = lambda: [asking.group_of(grp.struct_group(("ann", "x", 70001, []))), *listed_groups()]
"""
# A directory service that lists few users and groups: what it knows is in files of a folder.
DIRECTORY = """
import pwd
FOLDER = %r
def rows(name):
    with open(os.path.join(FOLDER, name), "rb") as file:
        return [line.split(":") for line in os.fsdecode(file.read()).split("\\n") if line]
def user(row):
    return pwd.struct_passwd((row[0], row[1], int(row[2]), int(row[3]), *row[4:7]))
def group(row):
    return grp.struct_group((row[0], row[1], int(row[2]), row[3].split(",") if row[3] else []))
def find(kind, make, place, key):
    with open(os.path.join(FOLDER, "asked"), "ab") as file:
        file.write(os.fsencode(f"{kind} {key}\\n"))
    for row in rows(kind + ".all"):
        if row[place] == str(key):
            return make(row)
    raise KeyError(key)
pwd.getpwall = lambda: [user(it) for it in rows("passwd.list")]
grp.getgrall = lambda: [group(it) for it in rows("group.list")]
pwd.getpwnam, pwd.getpwuid = lambda name: find("passwd", user, 0, name), lambda uid: find("passwd", user, 2, uid)
grp.getgrnam, grp.getgrgid = lambda name: find("group", group, 0, name), lambda gid: find("group", group, 2, gid)
os.getgrouplist = lambda name, gid: [int(it) for row in rows("groups.all") if row[0].split()[0] == name for it in row[0].split()[1:]]
"""
# What somebody does by sh in a folder while users are asked for, before any file is looked at.
MEANWHILE = """
import subprocess
from . import asking
users_before = asking.all_users
def all_users():
    subprocess.run(["sh", "-c", %r], cwd=%r, check=False)
    return users_before()
asking.all_users = all_users
"""
# What somebody does by sh in a folder between the look at the names in a directory and the look at its files.
AFTER_NAMES = """
import subprocess
from . import walking
names_before = walking.sorted_names
def sorted_names(folder):
    found, place = names_before(folder), os.readlink(folder)
    if place == %r:
        subprocess.run(["sh", "-c", %r], cwd=place, check=False)
    return found
walking.sorted_names = sorted_names
"""
# A directory that cannot be read.
UNREADABLE = """
from . import walking
names_before = walking.sorted_names
def sorted_names(folder):
    if os.readlink(folder).endswith(%r):
        raise PermissionError(13, "no")
    return names_before(folder)
walking.sorted_names = sorted_names
"""
# Lists of all files.
LISTS = """
import types
from . import marking, walking
marking.LISTING = ()
def attribute(name: bytes, attribute_name: bytes, follow: bool = True) -> Optional[bytes]:
    return {b"system.posix_acl_access": %r, b"system.posix_acl_default": %r}[attribute_name]
walking.live = types.SimpleNamespace(**{**vars(live), "attribute": attribute})
"""


def add_to_snapshot(code: str, place: str) -> None:
    """Adds code at the end of facl-snapshot's in a copy of the commands."""
    with open(os.path.join(place, "facl_commands", "snapshot", "command.py"), "a", encoding="utf-8") as file:
        file.write(code)


def command_with(code: str, place: str) -> str:
    """Makes a copy of the modules at a place, with this code, and returns its facl-snapshot."""
    shutil.rmtree(place, ignore_errors=True)
    shutil.copytree(os.path.join(COMMANDS, "facl_commands"), os.path.join(place, "facl_commands"),
                    ignore=shutil.ignore_patterns("__pycache__"))
    add_to_snapshot(code, place)
    return str(shutil.copy(SNAPSHOT, place))


def all_commands_with(code: str, place: str) -> None:
    """Makes a copy of all commands at a place, with this code."""
    shutil.copytree(COMMANDS, place, ignore=shutil.ignore_patterns("__pycache__", "tests"))
    add_to_snapshot(code, place)


def names_of(dump: bytes) -> List[bytes]:
    return [line[len(b"# file: ") :] for line in dump.split(b"\n") if line.startswith(b"# file: ")]
