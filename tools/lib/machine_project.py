"""The users and the tree of README's session, in a machine, by real useradd and setfacl; and what the tree has."""
from __future__ import annotations

import os
import re
from typing import Dict, List

from .machine import Machine
from .script import TOP

SNAPSHOT = os.path.join(TOP, "commands", "tests", "snapshots", "project")
FOLDER = "/srv/project"


def stored(name: str) -> List[str]:
    with open(os.path.join(SNAPSHOT, name), encoding="ascii") as file:
        return file.read().splitlines()


def names_of(name: str) -> Dict[str, str]:
    """The names of users or groups by their ids, which are others in a machine."""
    return {row.split(":")[2]: row.split(":")[0] for row in stored(name)}


def named(line: str, users: Dict[str, str], groups: Dict[str, str]) -> str:
    """A line of getfacl with names in the place of ids."""
    found = re.match(r"(# owner: |# group: |(?:default:)?(?:user|group):)(\d+)(.*)", line)
    if not found:
        return line
    return found[1] + (groups if "group" in found[1] else users)[found[2]] + found[3]


def people_script() -> List[str]:
    """Makes the groups, and the users with their memberships."""
    groups = names_of("group")
    lines = [f"groupadd -f {name}" for number, name in groups.items() if number != "0"]
    lines += [f"useradd -M -s /bin/sh -g {groups[row.split(':')[3]]} {row.split(':')[0]}" for row in stored("passwd")[1:]]
    members = [(row.split(":")[0], it) for row in stored("group") for it in row.split(":")[3].split(",") if it]
    return lines + [f"gpasswd -a {user} {group}" for group, user in members]


def make_project(machine: Machine) -> None:
    """Makes the users and the tree."""
    dump = stored("dump")
    files = [line[len("# file: "):] for line in dump if line.startswith("# file: " + FOLDER)]
    lines = [f"mkdir '{name}'" if name.endswith("/") else f"echo text >'{name}'" for name in files]
    users, groups = names_of("passwd"), names_of("group")
    text = "\n".join(named(line, users, groups) for line in dump[dump.index(f"# file: {FOLDER}/"):])
    machine.run("set -e; " + "; ".join([*people_script(), *lines]) + "; setfacl --restore=-", text + "\n")


def listing(machine: Machine, folder: str = FOLDER) -> str:
    """Owners, groups, flags and lists, by number."""
    return machine.out(f"getfacl -R -n -p '{folder}'")
