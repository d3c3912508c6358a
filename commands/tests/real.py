"""A real tree in the test's folder, with a snapshot of it that needs neither root nor getfacl: its lists are those of modes."""
from __future__ import annotations

import os
import stat
from typing import Dict, List, Tuple

from common import Case, Done

from facl_commands.base import linux, names


def record(path: bytes, status: os.stat_result) -> bytes:
    """A record of getfacl -n -p, of a file without a list."""
    flags = "".join(letter if status.st_mode & bit else "-" for letter, bit in zip("sst", (0o4000, 0o2000, 0o1000)))
    entries = b"".join(b"%s::%s\n" % (kind, stat.filemode(status.st_mode)[k : k + 3].lower().replace("s", "x").replace("t", "x").encode())
                       for kind, k in ((b"user", 1), (b"group", 4), (b"other", 7)))
    head = b"# file: /%s%s\n# owner: %d\n# group: %d\n" % (
        names.write_name(path), b"/" if stat.S_ISDIR(status.st_mode) and path else b"", status.st_uid, status.st_gid)
    return head + (b"# flags: " + flags.encode() + b"\n" if flags != "---" else b"") + entries + b"\n"


class RealCase(Case):
    """A test with a tree, and the snapshot `before` of it."""

    def setUp(self) -> None:
        super().setUp()
        self.tree = os.path.realpath(self.path("tree"))
        os.mkdir(self.tree, 0o755)

    def make(self, name: str, mode: int = 0o640) -> str:
        """Makes a file or, where the name ends in a slash, a directory of the tree."""
        whole = os.path.join(self.tree, name)
        if name.endswith("/"):
            os.mkdir(whole)
        else:
            with open(whole, "xb") as file:
                file.write(b"something")
        os.chmod(whole, mode)
        return whole.rstrip("/")

    def mode(self, name: str) -> int:
        return stat.S_IMODE(os.lstat(os.path.join(self.tree, name)).st_mode)

    def take_snapshot(self, folder: str = "before") -> None:
        """Records the tree, and the directories above it."""
        top = os.fsencode(self.tree)
        found: List[bytes] = [top[:k] or b"/" for k in range(len(top)) if top[k : k + 1] == b"/"]
        for place, _, files in os.walk(top):
            found += [place, *(os.path.join(place, name) for name in files)]
        found = sorted(set(found), key=lambda name: name.strip(b"/").split(b"/"))
        dump, inodes = b"", [b"boot " + linux.boot().encode()]
        by_file: Dict[Tuple[int, int], List[bytes]] = {}
        for name in found:
            descriptor = os.open(name, os.O_PATH)
            status = os.fstat(descriptor)
            birth = linux.status_of(descriptor)[6]
            os.close(descriptor)
            path = name.strip(b"/")
            dump += record(path, status)
            by_file.setdefault((status.st_dev, status.st_ino), []).append(b"/" + names.write_name(path))
            end = b"/" if stat.S_ISDIR(status.st_mode) and path else b""
            inodes.append(b"%d %d %d.%09d /%s%s" % (status.st_dev, status.st_ino, *divmod(birth, 10**9), path, end))
        os.makedirs(self.path(folder), 0o700, exist_ok=True)
        links = b"\n".join(b"".join(name + b"\n" for name in its) for its in by_file.values() if len(its) > 1)
        meta = b"host %s\ndate 2026-11-27T03:10:00Z\nfolder %s\nfiles %d\n" % (os.uname().nodename.encode(), top, len(found))
        texts = {"dump": dump, "inodes": b"\0".join(inodes) + b"\0", "links": links, "marks": b"", "meta": meta,
                 "passwd": b"ann:x:70001:70001::/:\n", "group": b"ann:x:70001:\n"}
        for text, content in texts.items():
            self.write(os.path.join(folder, text), content)

    def word(self, name: str) -> bytes:
        """A word of a script for a file of the tree."""
        return names.script_word(names.write_name(os.fsencode(os.path.join(self.tree, name))))

    def planned(self, *lines: bytes) -> None:
        """Takes a snapshot, and plans lines."""
        self.take_snapshot()
        self.assertEqual(self.plan(b"".join(line + b"\n" for line in lines)).status, 0)

    def apply(self, *options: str) -> Done:
        return self.run_command("facl-apply", [*options, "before.plan"])

    def live(self, name: str) -> bytes:
        return names.live_name(os.fsencode(os.path.join(self.tree, name)).strip(b"/"))
