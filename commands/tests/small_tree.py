"""A small snapshot of a test's own, of which each line is written there."""
from __future__ import annotations

import os
from typing import Dict

from common import Case

PASSWD = b"""\
root:x:0:0::/root:/bin/sh
daemon:x:1:1::/:/bin/false
anna:x:1001:1001::/:/bin/sh
bert:x:1002:1002::/:/bin/sh
carl:x:1003:1003::/:/bin/sh
xaver:x:1009:1009::/:/bin/sh
"""
GROUP = b"""\
root:x:0:
daemon:x:1:
anna:x:1001:
bert:x:1002:
carl:x:1003:
xaver:x:1009:
hr:x:2001:anna,bert
law:x:2002:carl
"""
# Nothing is found in it: people of hr read and write, others are closed out.
CLEAN: Dict[bytes, bytes] = {
    b"/": b"# owner: 0\n# group: 0\nuser::rwx\ngroup::r-x\nother::r-x\n",
    b"/srv/": b"# owner: 0\n# group: 0\nuser::rwx\ngroup::r-x\nother::r-x\n",
    b"/srv/hr/": b"# owner: 0\n# group: 2001\n# flags: -s-\nuser::rwx\ngroup::rwx\nother::---\n",
    b"/srv/hr/pay": b"# owner: 1001\n# group: 2001\nuser::rw-\ngroup::rw-\nother::---\n",
}
META = b"host srva\ndate 2026-11-27T03:10:00Z\nversion 0\nfolder /srv/hr\n"


class SmallTree(Case):
    """A test with the snapshot `small`."""

    def take(self, more: Dict[bytes, bytes], links: bytes = b"", passwd: bytes = PASSWD, group: bytes = GROUP) -> None:
        """Writes the snapshot: the clean tree, with some other records."""
        records = {**CLEAN, **more}
        names = sorted(records, key=lambda name: name.strip(b"/").split(b"/") if name != b"/" else [])
        dump = b"".join(b"# file: " + name + b"\n" + records[name] + b"\n" for name in names)
        os.makedirs(self.path("small"), 0o700, exist_ok=True)
        for name, text in {"passwd": passwd, "group": group, "dump": dump, "links": links, "marks": b"", "meta": META}.items():
            self.write("small/" + name, text)
            os.chmod(self.path("small/" + name), 0o600)
