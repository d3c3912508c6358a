"""A small firm for tests of pages: its snapshot, with people, groups, a closed folder and entries of a guest; and one of
hostile names."""
from __future__ import annotations

import os
from typing import Dict, List

from common import Case

PASSWD = """\
root:x:0:0::/root:/bin/sh
daemon:x:1:1::/:/bin/false
anna:x:1001:1001::/:/bin/sh
bert:x:1002:1002::/:/bin/sh
carla:x:1003:1003::/:/bin/sh
dirk:x:1004:1004::/:/bin/sh
xaver:x:1009:1009::/:/bin/sh
"""
GROUP = """\
root:x:0:
daemon:x:1:
anna:x:1001:
bert:x:1002:
carla:x:1003:
dirk:x:1004:
xaver:x:1009:
finance:x:2001:anna,bert
audit:x:2002:carla
"""
META = "host srva\ndate 2026-11-27T03:10:00Z\nversion 0.20261127\nfolder /srv\n"
OPEN = "0 0 - user::rwx group::r-x other::r-x"
SHARED = "1001 2001 - user::rw- user:1009:rw- group::rw- group:2002:r-- mask::rw- other::---"
FILES = {
    "/": OPEN, "/srv/": OPEN,
    "/srv/finance/": "1001 2001 -s- user::rwx user:1009:r-x group::rwx group:2002:r-x mask::rwx other::--- "
    "default:user::rwx default:user:1009:rwx default:group::rwx default:group:2002:r-x default:mask::rwx default:other::---",
    "/srv/finance/payroll/": "1001 2001 -s- user::rwx user:1009:--x group::r-x mask::r-x other::---",
    "/srv/finance/payroll/03.csv": "1001 2001 - user::rw- user:1009:rwx group::r-- mask::r-- other::---",
    "/srv/finance/payroll/04.csv": "1001 2001 - user::rw- group::r-- other::r--",
    "/srv/public/": OPEN, "/srv/public/hall.odt": "1002 2001 - user::rw- group::rw- other::r--",
    **{"/srv/finance/" + name: SHARED for name in (
        "Grüße", "a b.txt", "budget.ods", "it's", "-x", "#1", "tab\\011ulator", "line\\012feed", "back\\134slash", "byte\\351")},
}
# Each would set a value of the page, open something or end something, where a page took it for anything but text.
RUN = "window.ran=1"
HOSTILE = (
    "<script>%s</script>", "</script><script>%s</script>", "<!--<script>", "-->", "]]>", "<img src=x onerror=%s>", "<svg onload=%s>",
    "<b>bold</b>", "<iframe src=javascript:%s>", "\"><img src=x onerror=%s>", "' onmouseover='%s", "\" onfocus=\"%s\" autofocus=\"",
    "`${%s}`", "${%s}", "{{%s}}", "javascript:%s", "data:text/html,<script>%s</script>", "\\u003cscript\\u003e%s", "&lt;script&gt;%s",
    "&#60;img src=x onerror=%s&#62;", "%%3Cscript%%3E%s", "%%", "%%n%%s", "');%s;('", "\u202egnp.exe", "\u2028%s", "__proto__", "constructor")


def named(text: str) -> str:
    """A hostile text, whole."""
    return text % RUN if "%s" in text.replace("%%s", "") else text.replace("%%", "%")


def file_named(text: str) -> str:
    """The same as a name of a file, which has no slash."""
    return named(text).replace("/", "\u2215")


def record(name: str, fields: str) -> str:
    owner, group, flags, *entries = fields.split()
    head = "# file: %s\n# owner: %s\n# group: %s\n" % (name, owner, group)
    return head + ("# flags: %s\n" % flags if flags != "-" else "") + "".join(it + "\n" for it in entries) + "\n"


def in_order(names: List[str]) -> List[str]:
    return sorted(names, key=lambda name: [it.encode() for it in name.strip("/").split("/")] if name != "/" else [])


class FirmCase(Case):
    """A test with snapshots of a firm."""

    def take_snapshot(self, folder: str = "firm", files: Dict[str, str] = FILES, passwd: str = PASSWD, group: str = GROUP) -> str:
        """Writes a snapshot, and returns its folder."""
        os.makedirs(self.path(folder), 0o700, exist_ok=True)
        dump = "".join(record(name, files[name]) for name in in_order(list(files)))
        for name, text in (("passwd", passwd), ("group", group), ("dump", dump), ("meta", META), ("links", ""), ("marks", "")):
            self.write(os.path.join(folder, name), text.encode())
            os.chmod(self.path(os.path.join(folder, name)), 0o600)
        return self.path(folder)

    def take_hostile(self) -> str:
        """A snapshot in which users, groups and files have hostile names."""
        names = [named(it) for it in HOSTILE]
        safe = [it.replace(":", "\uff1a").replace(",", "\uff0c") for it in names]
        passwd = PASSWD + "".join("%s:x:%d:3000::/:\n" % (it, 4000 + k) for k, it in enumerate(safe))
        group = GROUP + "".join("%s:x:%d:anna\n" % (it, 4000 + k) for k, it in enumerate(safe))
        files = {"/": OPEN, "/srv/": OPEN}
        for k, name in enumerate(map(file_named, HOSTILE)):
            entries = "user::rw- user:%d:rw- group::r-- group:%d:r-- mask::rw- other::r--" % (4000 + k, 4000 + k)
            files["/srv/" + name.replace("\\", "\\134")] = "%d %d - %s" % (4000 + k, 4000 + k, entries)
        return self.take_snapshot("hostile", files, passwd, group)
