"""A snapshot, or several, as they are made in their folder: the files and the people, what is warned of, and what the program says
of them."""
from __future__ import annotations

import contextlib
import os
import subprocess
import time
from typing import List, Optional, Tuple

from .. import VERSION
from ..base.messages import Command, Failure, counted, failing, held
from ..base.new_file import DIRECTORY
from ..base.programs import environment_of_called
from . import asking
from .in_order import found_by
from .list_texts import shown_name
from .people import PeopleOfSystem, strangers, warned_of, why_incomplete
from .recording import Recording, record, write_file
from .runs import EXCLUDED, LINK, LONG, MOST_IDS, OTHER_SYSTEM, UNREAD, LeftOut
from .scope import Scope
from .target import NewSnapshot
from .walking import Walker
from .words import SnapshotWords

SERVICES = (b": name those of a directory service by --users FILE, or have it list them (enumerate = true of sssd, winbind enum "
            b"users = yes of Samba)")
Program = Tuple[bytes, str]  # What has to load the snapshot: its name in messages, and its path.


class Taking:
    """A snapshot, or several parts, as they are made, of folders from the root on, without symbolic links."""

    def __init__(self, command: Command, words: SnapshotWords, program: Optional[Program], folders: List[bytes]) -> None:
        self.command, self.words, self.program, self.folders = command, words, program, folders
        self.date = time.strftime("%Y-%m-%dT%H:%M:%SZ", time.gmtime())
        self.left_out = LeftOut()
        self.lacks = False  # Whether something is missing, or the program does not load it.
        self.has_said_why = False

    def take(self, new: NewSnapshot) -> None:
        self.people = PeopleOfSystem()
        if self.words.users is not None:
            self.people.add_named(self.words.users)
        look = os.fstat(new.work)
        scope = Scope(self.folders, self.words.globs, self.words.crosses, (look.st_dev, look.st_ino))
        with contextlib.closing(found_by(Walker(scope))) as found:
            self.parts = record(found, new.made, self.words.most, self.left_out)
        for part in self.parts:
            self.people.complete(part.sums)
        for part in self.parts:
            with held(os.open(part.name or b".", DIRECTORY, dir_fd=new.made)) as folder:
                write_file(folder, b"passwd", self.people.users.text())
                write_file(folder, b"group", self.people.groups.text())
                write_file(folder, b"meta", self.meta_of(part))
                self.warn_of_part(part)
                self.check_load(folder, new)
        if self.left_out.numbers[UNREAD] + self.left_out.numbers[LONG]:
            self.lacks = True
        if self.people.service.unasked:
            self.complain(b"asking for users and groups took more than %d seconds, so the snapshot lacks some: names and ids that were "
                          b"not asked for or not answered: %d" % (asking.MOST_SECONDS, self.people.service.unasked))

    # --- what is said

    def complain(self, text: bytes) -> None:
        """Says what is missing."""
        self.lacks = True
        self.command.say(text)

    def warn(self, text: bytes, number: int = 1, first: Optional[bytes] = None, is_of_files: bool = False) -> None:
        """Warns where there is something; of files that could not be read also with --quiet."""
        if number and (is_of_files or not self.words.is_quiet):
            self.command.say(b"warning: " + text + (b"" if first is None else b": %d, first: %s" % (number, first)))

    def warn_of_part(self, part: Recording) -> None:
        """Of a part; of users and groups with the first one."""
        if part.unread:
            self.warn(b"%s could not be read and %s missing from the snapshot, first: %s" % (
                counted(part.unread, "file"), b"is" if part.unread == 1 else b"are", part.first_unread), is_of_files=True)
        for warned in [*part.said(), strangers(self.people, part.sums)]:
            self.warn(*warned)
        if part.sums.has_too_many_ids:
            self.complain(b"files and ACLs have more than %d ids of users, or of groups, so the snapshot may lack some" % MOST_IDS)
        why = why_incomplete(self.people, part.sums)
        if why and not self.has_said_why:
            self.has_said_why = True
            self.complain(why + SERVICES)
        if part is self.parts[0]:
            self.warn(b"names of more than 4,095 bytes, which are not recorded", self.left_out.numbers[LONG],
                      self.left_out.first[LONG] + b"..", True)
            for warned in warned_of(self.people):
                self.warn(*warned)
            if not self.people.users.all:
                self.warn(b"passwd is empty: who, may and index will name nobody")

    def check_load(self, folder: int, new: NewSnapshot) -> None:
        """Has the program load a snapshot. It takes no words that are not UTF-8, and DIR may be such a name."""
        if self.program is None:
            if not self.words.is_quiet:
                self.command.say(b"whether facl loads it was not checked: facl is not on the path (--program)")
            return
        shown, path = self.program
        with failing(shown, True):
            done = subprocess.run([path, "--passwd", "passwd", "--group", "group", "--dump", "dump"], cwd=b"/proc/self/fd/%d" % folder,
                                  env=environment_of_called(), stdin=subprocess.DEVNULL, stdout=subprocess.DEVNULL,
                                  stderr=subprocess.PIPE, check=False)
        if done.returncode != 0:
            self.complain(shown + b" does not load it: " + (done.stderr.splitlines() or [b""])[-1])
            if new.place.old is not None:
                raise Failure(new.place.path + b" stays as it was")

    # --- what it is of

    def meta_of(self, part: Recording) -> bytes:
        left_out = self.left_out
        lines = [b"host " + os.fsencode(os.uname().nodename), b"date " + self.date.encode(), b"version " + VERSION.encode(),
                 *(b"folder " + it for it in self.folders), *(b"exclude " + it for it in self.words.globs)]
        shown = [shown_name(it) for it in lines] + [b"other-file-system " + it for it in left_out.mounts]
        shown += [b"excluded %d" % left_out.numbers[EXCLUDED], b"symbolic-links %d" % left_out.numbers[LINK],
                  b"unread %d" % (part.unread + left_out.numbers[LONG])]
        last = b"part %s of %03d\n" % (part.name, len(self.parts)) if part.name else b""
        return b"\n".join(shown) + b"\n" + part.numbers() + self.people.numbers() + last

    def tell(self) -> bool:
        """Says what is made; whether that could be written, whatever became of the messages before."""
        command, given, left_out = self.command, self.words.target, self.left_out
        command.fault = None
        number = b" in " + counted(len(self.parts), "snapshot") if self.words.most is not None else b""
        command.tell(b"recorded %s: %s, %d files%s; symbolic links left out: %d"
                     % (given, self.people.said(), left_out.recorded, number, left_out.numbers[LINK]))
        for why, text in ((OTHER_SYSTEM, b"as other file systems"), (EXCLUDED, b"by --exclude")):
            if left_out.numbers[why]:
                command.tell(b"%s: left out %s: %d, first: %s" % (given, text, left_out.numbers[why], left_out.first[why]))
        command.flush()
        return command.fault is None
