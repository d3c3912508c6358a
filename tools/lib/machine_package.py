"""The part `package` of checks/machine.py: the package in a machine without Python, by apt, as README says, up to its purge."""
from __future__ import annotations

import os
import re
import subprocess
from typing import List, NamedTuple, Tuple

from examples import blocks_of, difference, examples_of, read_lines

from .machine import Done, Machine
from .machine_project import listing, make_project
from .script import TOP, Failed

WORK = "/root/work"
STORE = "/var/lib/facl"
# The files of the package acl have other names, and the history of the prompt is root's.
NEW_FILES = (f"find / -xdev -path '*facl*' ! -name '[gs]etfacl*' ! -path '{WORK}*' ! -path '{STORE}/*' ! -path '/var/cache/*' "
             "! -path '/var/log/*' ! -path /root/.facl_history")
SETTINGS = "/etc/default/facl-daily"
# A question and then the end of the input. What comes before the prompt is there is lost as it takes the terminal.
TYPED_AT_PROMPT = f"""cd /; rm -f {WORK}/shown; touch {WORK}/shown
shows() {{ timeout 600 sh -c 'until grep -q -e "$0" {WORK}/shown; do sleep 1; done' "$1"; }}
{{ shows 'paths>'; echo 'can mara /srv/project/notes.txt'; shows 'r--'; sleep 5; printf '\\004'; }} |
    script -qefc 'facl ask' {WORK}/shown 2>&1"""


class Row(NamedTuple):
    """A line of README's table of verbs, what is typed for it, and how that ends; BEFORE is done by root before."""

    line: str
    status: int
    answer: str  # A pattern.
    typed: str = ""  # The line itself without it.
    before: str = ""


ROWS: Tuple[Row, ...] = (
    Row("facl snapshot /srv/project", 0, r"^recorded /var/lib/facl/\S+: \d+ users, \d+ groups, 11 files"),
    Row("facl snapshots", 0, r"(?m)^20\S+ +server +/srv/project +11 "),
    Row("facl prune --keep-daily 30", 0, r"removed \d+ snapshots?"),
    Row("facl import DUMP", 0, r"imported DUMP; to use it: -s", before="getfacl -R -p /srv/project >DUMP"),
    Row("facl who write /srv/project", 0, r"(?m)^ines +5 +/srv/project +owner$"),
    Row("facl why guest /srv/project/notes.txt", 1, "guest can do nothing with /srv/project/notes.txt: /srv/project gives no"),
    Row("facl user mara", 0, r"(?m)^/srv/project +rwx +write +7 +5 +3 +9$"),
    Row("facl files --owner mara", 0, r"(?m)^/srv/project/drafts +user::rwx$"),
    Row("facl files --naming guest", 0, r"(?m)^/srv/project/drafts +user:guest:r-x$"),
    Row("facl who-removes /srv/project/notes.txt", 0, r"(?m)^mara +user:mara:rwx$"),
    Row("facl new-file /srv/project mara", 0, "group:design:"),
    Row("facl diff", 2, "has no two snapshots of this host to compare"),
    Row("facl diff", 1, r"(?m)^ben .* /srv/project", before="gpasswd -a ben design; sleep 1; facl snapshot -q /srv/project"),
    Row("facl audit", 1, r"(?m)^high +set-user-id +1 file"),
    Row("facl audit fix mask-cuts-entry", 1, r"(?m)^setfacl -n -m u:mara:r-- /srv/project/notes.txt$"),
    Row("facl rules /srv/project", 0, r"(?m)^never everybody else write /srv/project/$"),
    Row("facl check RULES", 0, r"rules hold", before="facl rules /srv/project >RULES"),
    Row("facl daily --mail root FOLDER", 2, "there is no sendmail: install a mailer", "facl daily --mail root /srv/project"),
    Row("facl plan EDITS", 0, "next: facl apply EDITS.plan", before="echo setfacl -n -m u:guest:x /srv/project >EDITS"),
    Row("facl apply PLAN", 0, "^changed 1 file$", "facl apply EDITS.plan"),
    Row("facl undo PLAN", 0, "^restored 1 file$", "facl undo EDITS.plan"),
    Row("facl leaver USER", 0, r"by hand: userdel ben", "facl leaver ben"),
    Row("facl joiner NEWUSER --like USER", 1, r"by hand: gpasswd -a guest design", "facl joiner guest --like mara"),
    Row("facl open FILE", 0, "next: facl apply open-notes.txt.plan", "facl open /srv/project/notes.txt guest read"),
    Row("facl open FILE", 2, "usage: facl open .*FILE USER PERMS", "facl open /srv/project/notes.txt"),
    Row("facl move-group FOLDER", 0, "next: facl apply move-group-drafts.plan",
        "facl move-group /srv/project/drafts design audit"),
    Row("facl restore FOLDER", 0, "next: facl apply restore-project.plan", "facl restore /srv/project",
        "chmod o+r /srv/project/notes.txt; sleep 1; facl snapshot -q /srv/project"),
    Row("facl page -o FILE", 0, "^wrote FILE$", before="rm -f FILE"),
    Row("facl review FOLDER -o FILE", 0, "^wrote FILE$", "facl review /srv/project -o FILE", "rm -f FILE"),
    Row("facl ask SCRIPT", 0, "^r--$", before="echo can --reach mara /srv/project/notes.txt >SCRIPT"),
    Row("facl help who", 0, "says who may read, write or enter"),
    Row("facl help who", 0, "says who may read, write or enter", "script -qec 'facl help who | cat' /dev/null"),
)


def with_version(package: str, version: str, folder: str) -> str:
    """The same package by another version, as an upgrade needs two."""
    there, made = os.path.join(folder, "there"), os.path.join(folder, f"facl_{version}_other.deb")
    changed = f"sed -i 's/^Version: .*/Version: {version}/' '{there}/DEBIAN/control'"
    script = f"dpkg-deb -R '{package}' '{there}' && {changed} && dpkg-deb -b '{there}' '{made}' && rm -r '{there}'"
    if subprocess.run(["sh", "-c", script], stdout=subprocess.DEVNULL, check=False).returncode:
        raise Failed(f"{package}: cannot be made again")
    return made


def version_of(package: str) -> str:
    return subprocess.run(["dpkg-deb", "-f", package, "Version"], capture_output=True, text=True, check=True).stdout.strip()


def put_package(machine: Machine, package: str) -> None:
    with open(package, "rb") as file:
        machine.put(f"{WORK}/{os.path.basename(package)}", file.read())


def typed(machine: Machine, text: str) -> Done:
    """A line as root types it, whose output and messages come in their order."""
    return machine.ask(f"cd {WORK}; {{ {text}\n}} 2>&1 </dev/null")


class PackagePart:
    """The steps, which find faults."""

    def __init__(self, machine: Machine, packages: Tuple[str, str], folder: str) -> None:
        self.machine, self.folder, self.lines = machine, folder, 0
        self.package, self.older = packages
        self.faults: List[str] = []

    def expect(self, holds: bool, fault: str) -> None:
        self.faults += [] if holds else [fault[:600]]

    def install(self) -> None:
        """The line of README, where neither Python nor acl is installed."""
        done = self.machine.ask("dpkg -l python3 acl | grep ^ii")
        self.expect(not done.out, f"there before: {done.out}")
        line = next(it for block in blocks_of("README.md") for it in block.lines if it.startswith("apt install "))
        done = self.machine.ask(f"cd {WORK}; {line} 2>&1", "Y\n")
        self.expect(done.status == 0 and "Setting up facl" in done.out, f"{line}: status {done.status}: {done.out[-400:]}")
        said = typed(self.machine, "facl --version").out
        self.expect(said.startswith(f"facl {version_of(self.package)}\n"), f"facl --version: {said}")
        said = typed(self.machine, "systemctl is-enabled facl-daily.timer; dpkg -l python3-prompt-toolkit | grep -c ^ii").out
        self.expect(said == "disabled\n1\n", f"the timer, and what is recommended: {said}")

    def session(self) -> None:
        """README's session, word by word; the tree is as before it then."""
        make_project(self.machine)
        before = listing(self.machine)
        for block in blocks_of("README.md"):
            for example in examples_of(block) if block.is_examples else []:
                self.lines += 1
                self.faults += difference(example, typed(self.machine, example.command).out.splitlines())
        self.expect(listing(self.machine) == before, "the tree is another one after README's session")

    def table(self) -> None:
        """Each line of README's table of verbs ends by a status that its page has, with an answer that makes sense."""
        rows = [line for line in read_lines("README.md") if line.startswith("| `facl ")]
        lines = [word for row in rows for word in re.findall("`(facl [^`]+)`", row)]
        self.faults += [f"README: no check of `{line}`" for line in lines if line not in {row.line for row in ROWS}]
        for row in ROWS:
            self.lines += 1
            if row.before:
                self.machine.run(f"cd {WORK}; {row.before}", statuses=(0, 1))
            line = row.typed or row.line
            done = typed(self.machine, line)
            holds = done.status == row.status and re.search(row.answer, done.out)
            fault = f"`{line}`: status {done.status}, and not {row.status}; or without `{row.answer}`"
            self.expect(bool(holds), f"{fault}: {done.out}")
            self.expect(row.status in statuses_of(row.line), f"`{line}`: its page has no status {done.status}")

    def prompt(self) -> None:
        """The prompt at a terminal, at which each word is typed when the one before is answered, and completion by bash."""
        done = self.machine.ask(TYPED_AT_PROMPT)
        self.expect("r--" in done.out and done.status == 0, f"the prompt: status {done.status}: {done.out!r}")
        words = "COMP_LINE='facl who-' COMP_POINT=9; . /usr/share/bash-completion/completions/facl; compopt() { :; }"
        done = self.machine.ask(f"bash -c \"{words}; _facl facl who- facl; echo \\${{COMPREPLY[@]}}\"")
        self.expect(done.out == "who-removes\n", f"completion: {done.both()}")

    def upgrade(self) -> None:
        """From another version, with the timer enabled, other settings and snapshots, which stay."""
        self.machine.run(f"rm {WORK}/*.deb; apt-get purge -y facl </dev/null")
        put_package(self.machine, self.older)
        self.machine.run(f"apt-get install -y {WORK}/facl_*.deb </dev/null")
        line = "facl daily --install --mail root --keep 7 /srv/project"
        done = self.machine.ask(f"{line}; systemctl is-enabled facl-daily.timer")
        self.expect("there is no sendmail" in done.err and done.out == "disabled\n", f"`{line}` without a mailer: {done.both()}")
        self.machine.put("/usr/sbin/sendmail", "#!/bin/sh\ncat >/root/mail\n", "755")
        self.machine.run(f"{line}; rm {WORK}/*.deb")
        store = f"ls -A {STORE}; cat {SETTINGS}; systemctl is-enabled facl-daily.timer; systemctl is-active facl-daily.timer"
        before = self.machine.out(store)
        self.expect("--keep=7" in before and before.endswith("\nenabled\nactive\n"), f"the timer: {before}")
        put_package(self.machine, self.package)
        done = typed(self.machine, f"DEBIAN_FRONTEND=noninteractive apt-get install -y {WORK}/facl_*.deb")
        self.expect(done.status == 0, f"upgrade: status {done.status}: {done.out[-400:]}")
        after = self.machine.out(store)
        self.expect(after == before, f"after the upgrade: {after}, and before {before}")
        done = typed(self.machine, "facl --version; facl who write /srv/project")
        self.expect(f"facl {version_of(self.package)}\n" in done.out and "\nines " in done.out, f"after the upgrade: {done.out}")

    def remove(self) -> None:
        """What is left of it, and of its timer, after it is removed, and after it is purged."""
        snapshots = self.machine.out(f"find {STORE} | sort")
        done = typed(self.machine, "apt-get remove -y facl")
        left = self.machine.out(NEW_FILES).splitlines()
        of_others = [it for it in left if it.startswith(("/var/lib/systemd/", "/etc/systemd/", "/var/lib/dpkg/"))]
        is_left = {SETTINGS, SETTINGS + ".before", STORE}
        self.expect(done.status == 0 and {*left} - {*of_others} == is_left, f"left after it was removed: {left}")
        # Of a timer that was enabled and may be installed again, Debian keeps the link, but nothing runs.
        said = self.machine.ask("systemctl list-timers --no-legend | grep facl; systemctl --failed --no-legend | grep facl").out
        self.expect(not said, f"systemd after it was removed: {said}")
        done = typed(self.machine, "apt-get purge -y facl")
        left = self.machine.out(NEW_FILES).splitlines()
        self.expect(done.status == 0 and left == [STORE], f"left after it was purged: {left}")
        # dpkg has a terminal of apt's, whose lines end so.
        is_said = re.search(rf"(?m)rm -r {STORE}\r?$", done.out)
        self.expect(bool(is_said), f"nothing is said of what is kept: {done.out[-400:]}")
        said = self.machine.ask("systemctl list-timers --all --no-legend | grep facl").out
        self.expect(not said, f"systemd after it was purged: {said}")
        self.expect(self.machine.out(f"find {STORE} | sort") == snapshots and "/dump" in snapshots, "snapshots are not kept")

    def run(self) -> str:
        """Does all steps; what it did."""
        self.machine.start()
        self.machine.run(f"mkdir {WORK}")
        put_package(self.machine, self.package)
        for step in (self.install, self.session, self.table, self.prompt, self.upgrade, self.remove):
            step()
        return f"package: installed from nothing, {self.lines} lines of README, upgraded, removed, purged"


def statuses_of(line: str) -> List[int]:
    """The statuses that the page of a verb has, of one or two words."""
    words = line.split(" ")
    for name in ("-".join(words[1:3]), words[1]):
        page = os.path.join(TOP, "docs", "pages", f"facl-{name}.1.md")
        if os.path.exists(page):
            with open(page, encoding="utf-8") as file:
                section = file.read().partition("## Exit status\n")[2].partition("\n## ")[0]
            return [int(it) for it in re.findall(r"\b\d+\b", section)]
    raise Failed(f"{line}: has no page")
