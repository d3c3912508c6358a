"""What tests of verbs have in common: a store of their own, and snapshots in it."""
from __future__ import annotations

import os
import re
import shutil
import time
from typing import Dict, List, Optional

from common import HERE, Case, Done

from facl_commands.verbs.table import BY_VERB

HOST = os.uname().nodename
DATE = "%Y-%m-%dT%H:%M:%SZ"
DAY = 86400


def ago(seconds: float) -> str:
    """A date, as meta has it."""
    return time.strftime(DATE, time.gmtime(time.time() - seconds))


def with_entry_of_nobody(dump: bytes) -> bytes:
    """The dump of the snapshot, with an entry of an id that has no user."""
    plain = b"# file: /srv/project/README\n# owner: 1001\n# group: 100\nuser::rw-\ngroup::r--\n"
    assert plain in dump
    return dump.replace(plain, plain.replace(b"group::r--\n", b"user:4711:r--\ngroup::r--\nmask::r--\n"))


def restoring(old: bytes, new: bytes) -> bytes:
    """A line, with its text, that gives the files of a dump the records that they have in another one."""
    records = (one + b"\n\n" for one, other in zip(old.split(b"\n\n"), new.split(b"\n\n")) if one != other)
    return b"setfacl --restore=-\n" + b"".join(records) + b".\n"


class VerbCase(Case):
    """A test with a store in its folder."""

    def setUp(self) -> None:
        super().setUp()
        self.store = self.path("store")
        os.mkdir(self.store, 0o700)

    def stored(self, name: str, host: str = HOST, seconds: float = 60, folders: Optional[List[str]] = None,
               like: str = "project") -> str:
        """Puts a snapshot into the store, and returns its folder."""
        folder = os.path.join(self.store, name)
        shutil.copytree(os.path.join(HERE, "snapshots", like), folder)
        with open(os.path.join(folder, "meta"), encoding="ascii") as file:
            text = re.sub("(?m)^host .*", "host " + host, re.sub("(?m)^date .*", "date " + ago(seconds), file.read()))
        if folders is not None:
            text = re.sub("(?m)^folder .*", "\n".join("folder " + it for it in folders), text)
        with open(os.path.join(folder, "meta"), "w", encoding="ascii") as file:
            file.write(text)
        return folder

    def assert_same(self, words: str, one: Done, other: Done) -> None:
        """A verb, with which some words begin, did what a command did."""
        name = b"facl " + next(it for it in sorted(BY_VERB, key=len, reverse=True) if words.startswith(it)).encode()
        texts = [self.without_name(it.messages, prefix) for it,
                 prefix in ((one, name), (other, b"facl-" + other.messages[5:].split(b":")[0]))]
        self.assertEqual((one.status, one.out), (other.status, other.out))
        self.assertEqual(*texts)

    def without_name(self, text: bytes, name: bytes) -> List[bytes]:
        """The messages, but for the name before each, and for a plan that is replaced by the second run."""
        lines = (line[len(name):] if line.startswith(name) else line for line in text.split(b"\n"))
        return [line for line in lines if b"kept the earlier plan" not in line]

    def verb(self, *words: str, environment: Optional[Dict[str, str]] = None, text: bytes = b"") -> Done:
        return self.run_command("facl-verbs", [*words], text,
                                {"FACL_STORE": self.store, "FACL_SNAPSHOT": "", **(environment or {})})
