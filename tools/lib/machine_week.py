"""The part `week` of checks/machine.py: days by the timer of the package, whose mails a real mailer delivers and root reads.

The clock of the machine goes from day to day, and the timer starts `facl daily` itself. Each mail has the rows of facl-diff for
what was changed that day, and no others: what these have to be is written here, by what the changed entry grants.
"""
from __future__ import annotations

import datetime
import email
import email.message
import re
import time
from typing import Iterator, List, NamedTuple, Tuple

from .machine import Machine
from .machine_project import FOLDER, make_project

MAILBOX = "/var/mail/root"
FIRST_DAY = datetime.datetime(2026, 12, 7, 12)
AT_NIGHT = datetime.timedelta(hours=15, minutes=21)  # From noon to after the latest moment of the timer.
DAY = datetime.timedelta(days=1)
DELAY = datetime.timedelta(minutes=11)  # After a boot the timer waits a random time of up to ten minutes.
SECONDS = 180  # That a run may take, with virtualization.
# When the timer started the service last, and when its process ended last, which is 0 before that.
LAST = ("systemctl show -P LastTriggerUSec facl-daily.timer; "
        "systemctl show -P ExecMainExitTimestampMonotonic facl-daily.service")
NO_SNAPSHOT, NO_MAIL, BY_BOOT = "no snapshot", "no mail", "by the next boot"
Event = Tuple[str, str, str, str, str]  # Who, what happened, what was gained and lost, and the first file.


class Day(NamedTuple):
    """What root does by day, and the events of the mail of the next night."""

    changes: str
    events: Tuple[Event, ...]
    files: str = ""  # The line of sums.
    how: str = ""  # What else this day is about.


README, NOTES, DRAFTS = f"{FOLDER}/README", f"{FOLDER}/notes.txt", f"{FOLDER}/drafts"
CHANGED = "files: %d with another owner, group, flags or ACL"
DAYS = (
    Day(f"setfacl -m u:ben:rwx {README}; chmod g= {DRAFTS}/logo.svg", (
        ("ben", "user entry added", "-wx", "", README), ("ines", "mask changed", "", "rw-", f"{DRAFTS}/logo.svg")), CHANGED % 2),
    Day("gpasswd -a guest design", (("guest", "joined design", "rwx", "", FOLDER),), "memberships: 1 new"),
    Day(f"chown ben '{DRAFTS}/old/logo 1.svg'", (
        ("mara", "no longer the owner", "", "-w-", f"{DRAFTS}/old/logo 1.svg"),), CHANGED % 1),
    Day("true", (), how=NO_MAIL),
    Day(f"mv {FOLDER} /root/away", (), how=NO_SNAPSHOT),
    Day(f"mv /root/away {FOLDER}; setfacl -m u:guest:rw {NOTES}", (
        ("mara, guest", "mask changed, user entry added", "rw-", "", NOTES),), CHANGED % 1),
    Day(f"setfacl -x u:ben {README}", (("ben", "user entry gone", "", "-wx", README),), CHANGED % 1, BY_BOOT),
    Day(f"useradd -M zoe; chown zoe {README}", (
        ("zoe", "new user", "r-x", "", "/"), ("ines", "no longer the owner", "", "-w-", README)),
        CHANGED % 1 + "; users: 1 new (zoe)"),
)


def events_in(text: str) -> List[Event]:
    """The rows of facl-diff below its heading, by the columns of the heading."""
    lines = text.partition("== changes since ")[2].partition("\n== ")[0].rstrip().splitlines()[1:]
    heading = next((line for line in lines if line.startswith("WHO ")), "")
    starts = [match.start() for match in re.finditer(r"\S+", heading)]
    found = []
    for line in lines[lines.index(heading) + 1:] if heading else []:
        if not re.match(r"\w+: |nobody ", line):
            cells = [line[one:other].strip() for one, other in zip(starts, [*starts[1:], None])]
            found.append((cells[0], cells[1], cells[3], cells[5], cells[6]))
    return found


class WeekPart:
    """The days, one after another."""

    def __init__(self, machine: Machine) -> None:
        self.machine, self.noon = machine, FIRST_DAY
        self.read, self.runs = 0, 0
        self.faults: List[str] = []

    def expect(self, holds: bool, fault: str) -> None:
        self.faults += [] if holds else [f"{self.noon.date()}: {fault}"[:900]]

    def last_run(self) -> Tuple[str, str]:
        trigger, _, end = self.machine.out(LAST).strip().partition("\n")
        return trigger, end

    def wait(self, before: Tuple[str, str]) -> None:
        """Waits until the timer has started a run, and this one has ended."""
        last = time.monotonic() + SECONDS * self.machine.scale
        while time.monotonic() < last:
            trigger, end = self.last_run()
            if trigger != before[0] and end not in ("0", before[1]):
                self.expect(self.noon.strftime("%Y-%m-%d") in trigger, f"the timer started a run on {trigger}")
                self.runs += 1
                return
            time.sleep(1)
        self.expect(False, f"the timer starts nothing: {self.machine.ask('systemctl list-timers facl-daily.timer').out}")

    def night(self, how: str) -> None:
        """Goes to the next night, over the moment of the timer, or with the machine off then; and to the noon after it."""
        before = self.last_run()
        night, self.noon = self.noon + AT_NIGHT, self.noon + DAY
        if how == BY_BOOT:
            self.machine.stop()
            self.machine.start(self.noon)
            self.machine.run(f"date -s '{self.noon + DELAY:%Y-%m-%d %H:%M:%S}'")
        else:
            self.machine.run(f"date -s '{night:%Y-%m-%d %H:%M:%S}'")
        self.wait(before)
        self.machine.run(f"date -s '{self.noon:%Y-%m-%d %H:%M:%S}'")

    def mails(self) -> Iterator[email.message.Message]:
        """The mails that came since they were read last."""
        last = time.monotonic() + SECONDS * self.machine.scale
        while "is empty" not in self.machine.ask("mailq").out and time.monotonic() < last:
            time.sleep(1)
        box = self.machine.ask(f"cat {MAILBOX}").out
        all_mails = re.split(r"(?m)^(?=From \S+ +\w{3} \w{3} )", box)[1:]
        new, self.read = all_mails[self.read:], len(all_mails)
        return (email.message_from_string(text.partition("\n")[2]) for text in new)

    def check(self, day: Day) -> None:
        """The mail of a night has the events of the day before it, and no others."""
        mails = list(self.mails())
        self.expect(len(mails) == (day.how != NO_MAIL), f"{len(mails)} mails: {[str(it.get_payload()) for it in mails]}")
        for mail in mails:
            text, subject = str(mail.get_payload()), str(mail["Subject"])
            is_headed = mail["To"] in ("root", "root@server") and subject.startswith("facl on server: ")
            self.expect(is_headed, f"the head of the mail: {mail.items()}")
            self.expect(text.startswith(f"facl on server, {self.noon:%Y-%m-%d}: {FOLDER}\n"), f"begins so: {text[:100]}")
            if day.how == NO_SNAPSHOT:
                self.expect("no snapshot" in subject and FOLDER in text, f"a mail without its reason: {subject}: {text}")
            else:
                events = events_in(text)
                self.expect(sorted(events) == sorted(day.events), f"events {events}, and not {day.events}: {text}")
                self.expect(day.files in text.splitlines() or not day.files, f"no line `{day.files}`: {text}")

    def mounts(self) -> None:
        """The service records what root does at a shell, also of folders that systemd can give a service otherwise."""
        self.machine.run("touch /tmp/of-root; sed -i 's|-- |-- /etc /tmp |' /etc/default/facl-daily; systemctl start facl-daily")
        self.machine.run(f"facl snapshot -q -o /root/by-hand /etc /tmp {FOLDER}")
        done = self.machine.ask("diff -rq -x meta /root/by-hand $(ls -d /var/lib/facl/2026-* | tail -n 1)")
        self.expect(done.status == 0, f"the service has another snapshot than root: {done.both()}")
        self.runs += 1

    def run(self) -> str:
        """Does all days; what was done."""
        self.machine.start(FIRST_DAY)
        make_project(self.machine)
        self.machine.run(f"chmod u-s {FOLDER}/report; systemctl start postfix; facl daily --install --mail root {FOLDER}")
        self.machine.run("systemctl enable postfix")
        self.night("")
        first = [str(it.get_payload()) for it in self.mails()]
        self.expect(not any("== changes" in it for it in first), f"changes before the first snapshot: {first}")
        for day in DAYS:
            self.machine.run(day.changes)
            self.night(day.how)
            self.check(day)
        self.mounts()
        kept = self.machine.out("ls /var/lib/facl | grep -c ^2026-").strip()
        self.expect(kept == str(self.runs - 1), f"{kept} snapshots of {self.runs} runs, one of which made none")
        return f"week: {self.runs - 1} nights by the timer, {self.read} mails by postfix"
