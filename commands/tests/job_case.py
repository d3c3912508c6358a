"""What tests of the edits of jobs have in common: small trees as snapshots of a store, and what a plan makes of them."""
from __future__ import annotations

import argparse
import os
from typing import Dict, List, Tuple

from common import Done
from small_tree import GROUP, PASSWD
from verb_case import HOST, VerbCase, ago

from facl_commands.model.records import Files, read_listing
from facl_commands.model.snapshot import read_snapshot
from facl_commands.plan import command as plan
from facl_commands.program.scripts import read_script

Records = Dict[bytes, bytes]  # By name, that of a directory with a slash at its end: owner, group, flags and lists.
Identities = Dict[bytes, Tuple[int, int, int]]
GIVEN = argparse.Namespace(program=None, acl5=False, file_alone=False, with_root=True)


def record(owner: int, group: int, mode: str = "rwxr-x---", entries: str = "", flags: str = "") -> bytes:
    """A record with a mode of nine letters; `entries` has those after the owner's that name somebody, and a mask."""
    named = [it for it in entries.split() if not it.startswith("d:")]
    lines = ["# owner: %d" % owner, "# group: %d" % group, *["# flags: " + flags] * bool(flags), "user::" + mode[:3],
             *(it for it in named if it.startswith("user")), "group::" + mode[3:6],
             *(it for it in named if not it.startswith("user")), "other::" + mode[6:],
             *("default:" + it[2:] for it in entries.split() if it.startswith("d:"))]
    return "".join(line + "\n" for line in lines).encode()


def dump_of(records: Records) -> bytes:
    names = sorted(records, key=lambda name: name.strip(b"/").split(b"/") if name != b"/" else [])
    return b"".join(b"# file: " + name + b"\n" + records[name] + b"\n" for name in names)


def inodes_of(identities: Identities) -> bytes:
    rows = (b"%d %d %d.%09d %s\0" % (*its[:2], *divmod(its[2], 10**9), name) for name, its in identities.items())
    return b"boot 1\0" + b"".join(rows)


class JobCase(VerbCase):
    """A test of a verb that makes a plan."""

    def put(self, name: str, records: Records, passwd: bytes = PASSWD, group: bytes = GROUP, seconds: float = 60, **others: bytes) -> str:
        """Puts a snapshot of some records into the store."""
        folder = os.path.join(self.store, name)
        os.makedirs(folder, 0o700)
        meta = "host %s\ndate %s\nversion 0\nfolder /srv\n" % (HOST, ago(seconds))
        texts = {"passwd": passwd, "group": group, "dump": dump_of(records), "links": b"", "marks": b"", "meta": meta.encode(), **others}
        for file, text in texts.items():
            self.write("store/%s/%s" % (name, file), text)
            os.chmod(self.path("store/%s/%s" % (name, file)), 0o600)
        return folder

    def planned(self, name: str) -> Files:
        """The records of the files that a plan changes, as they are to be."""
        return read_listing(self.read(name + "/new"))

    def after(self, folder: str, edits: bytes) -> Files:
        """All files of a snapshot as a plan of these edits leaves them."""
        outcome = plan.answer_scripts(GIVEN, read_snapshot(os.fsencode(folder)), read_script(b"edits", edits))
        self.assertEqual([it.text for it in outcome.messages], [])
        return outcome.new

    def expect_done(self, done: Done, status: int, out: List[bytes], messages: List[bytes]) -> None:
        """Compares lines; those of the report that say who gained what are not looked at where `out` is empty."""
        self.assertEqual((done.status, done.messages.splitlines()), (status, messages))
        if out:
            self.assertEqual(done.out.splitlines(), out)
