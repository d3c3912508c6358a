"""Lines that the manual page of the program shows outside its blocks: those that are refused with `usage`, with what it
has in their place; and those of which the real tools make something else."""
from __future__ import annotations

import functools
import os
import re
import shutil
import subprocess
import unittest
from typing import Dict, List, Tuple

from common import Case
from examples import read_lines
from help_text import plain

from facl_commands.base.programs import ACL5
from facl_commands.program.session import Session

PASSWD = b"lisa:x:1001:100::/:\njoe:x:1002:200::/:\ndaemon:x:1:1::/:\n"
GROUP = b"staff:x:100:\nusers:x:200:\ndaemon:x:1:\n"
FILES = {"d/": "", "dir/": "", "dir/file": "", "f": "", "file": "", "m": "user:daemon:r--\nmask::r--\n", "my file": ""}
RECORD = "# file: %s\n# owner: 1001\n# group: 100\nuser::rw-\ngroup::r--\n%sother::r--\n\n"
TOOLS = ("getfacl", "setfacl", "chacl", "chmod", "gpasswd", "usermod", "who", "can", "may", "index", "changes", "rm")


def tagged(start: str, end: str) -> List[Tuple[str, str]]:
    """The paragraphs of a part of the page that have a line in bold at their head, with their text."""
    text = "\n".join(read_lines("docs/facl.1"))
    part = text[text.index(start) : text.index(end, text.index(start))]
    found = re.findall(r"^\.TP\n\\fB(.*)\\fR\n((?:(?!\.TP|\.RE).*\n)+)", part + "\n", re.MULTILINE)
    return [(plain(line), body) for line, body in found]


def bold(text: str) -> List[str]:
    return [plain(found.replace("\n", " ")) for found in re.findall(r"\\fB(.*?)\\fR", text, re.DOTALL)]


def is_line(text: str) -> bool:
    return text.split(" ")[0] in TOOLS


@functools.lru_cache(maxsize=None)
def why_no_real_tools() -> str:
    """Nothing, or why the real tools cannot be run as the page has them."""
    missing = [tool for tool in ("setfacl", "chacl", "setfattr", "setpriv") if not shutil.which(tool)]
    if missing or os.geteuid() != 0:
        return "%s is not installed" % missing[0] if missing else "it takes root"
    text = 'setfacl --version; id -u daemon; file=$(mktemp); setfacl -m u:1:r "$file"; echo $?; rm "$file"'
    done = subprocess.run(["sh", "-c", text], capture_output=True, check=False)
    wanted = b"setfacl 2.3.1\n1\n0\n"
    return "" if done.stdout == wanted else "it takes version 2.3.1, the user daemon, and a file system with lists"


class Lines(Case):
    def setUp(self) -> None:
        super().setUp()
        os.mkdir(self.path("small"))
        dump = "".join(RECORD % row for row in FILES.items()).encode()
        for name, text in (("passwd", PASSWD), ("group", GROUP), ("dump", dump)):
            self.write("small/" + name, text)

    def messages(self, line: str) -> List[bytes]:
        """Those of a line in a session of its own; a text gives a user something."""
        text = "\nu:lisa:r\n.\n" if re.search(r" -( |$)", line) else "\n"
        with Session(ACL5.find(), os.fsencode(self.path("small"))) as session:
            return session.ask((line + text).encode()).messages

    def test_usage(self) -> None:
        rows = [(line, bold(text)) for line, text in tagged("Usual causes, and", ".SS Entries\n") if is_line(line)]
        self.assertGreater(len(rows), 13)
        for line, instead in rows:
            self.assertEqual((line, self.messages(line)), (line, [line.split(" ")[0].encode() + b": usage"]))
            for other in instead:
                self.assertEqual((other, self.messages(other) if is_line(other) else []), (other, []))

    def test_differences(self) -> None:
        """Each row of the page has lines here, and they give what it says of `Here`."""
        rows = [line for line, _ in tagged(".SS Where the real tools", ".SS Left out")]
        self.assertEqual(rows, list(DIFFERENCES))
        for row, (lines, answer) in DIFFERENCES.items():
            with Session(ACL5.find(), os.fsencode(self.path("small"))) as session:
                found = session.ask(lines.replace("|", "\n").encode() + b"\n")
                messages = [re.sub(rb"^line \d+: ", b"", it) + b"\n" for it in found.messages]
                printed = (found.output.read() + b"".join(messages)).decode().replace("\n", "|")
                self.assertEqual((row, printed), (row, answer + "|"))

    @unittest.skipIf(why_no_real_tools(), why_no_real_tools())
    def test_differences_there(self) -> None:
        """What the real tools do, as the page says of `There`."""
        self.assertEqual(list(THERE), list(DIFFERENCES))
        os.mkdir(self.path("real"))
        for row, (lines, answer) in THERE.items():
            with self.subTest(row):
                text = "umask 022; rm -rf *; mkdir d; touch f m; setfacl -m u:1:r m\n" + lines
                done = subprocess.run(["sh", "-c", text], cwd=self.path("real"), env={**os.environ, "LC_ALL": "C"},
                                      stdout=subprocess.PIPE, stderr=subprocess.STDOUT, check=False)
                self.assertEqual(done.stdout.decode().replace("\n", "|"), answer)


RESTORE = "setfacl --restore=-|# file: "
BASE = "user::rw-|group::r--|other::r--|"
LIST = "u::rw-,g::r--,o::r--"
# The rows of the page on what the real tools do otherwise: lines for each, and what is printed. A | ends a line.
DIFFERENCES: Dict[str, Tuple[str, str]] = {
    "setfacl -m u:daemon: f": ("setfacl -m u:daemon: f|chacl -l f", "f [u::rw-,u:daemon:---,g::r--,m::r--,o::r--]"),
    "setfacl -d -m d:u:1:r,u:2:r d, with -x too": (
        "setfacl -d -m d:u:1:r,u:2:r d|chacl -l d|setfacl -d -x d:u:1,u:2 d|chacl -l d",
        f"d [{LIST}/u::rw-,u:2:r--,g::r--,m::r--,o::r--]|d [{LIST}/u::rw-,g::r--,m::r--,o::r--]|"
        "setfacl: warning: default entries dropped|setfacl: warning: default entries dropped"),
    "setfacl -m u:1:x,u:2:X f": (
        "setfacl -m u:1:x,u:2:X f|chacl -l f", "f [u::rw-,u:daemon:--x,u:2:---,g::r--,m::r-x,o::r--]"),
    "setfacl -m u:2:X m, where only the mask has x": (
        "setfacl -m m::rx m|setfacl -m u:2:X m|chacl -l m", "m [u::rw-,u:daemon:r--,u:2:---,g::r--,m::r--,o::r--]"),
    "setfacl -x u:1 -m u:1:r f": ("setfacl -x u:1 -m u:1:r f", "setfacl: entry 1: both removed and modified"),
    "setfacl -x d:u: d, without a default list": (
        "setfacl -x d:u: d", "setfacl: entry 1: base entry cannot be removed"),
    "setfacl -x m -m u:1:r f": ("setfacl -x m -m u:1:r f|chacl -l f", "f [u::rw-,u:daemon:r--,g::r--,m::r--,o::r--]"),
    "setfacl --mask -x m m": ("setfacl --mask -x m m", "setfacl: m: access list: entry 2 needs a mask"),
    "setfacl --restore=- with a record whose list lacks the mask or, in a default list, base entries, or has a key "
    "twice": (
        f"{RESTORE}d|{BASE}u:1:r|.|{RESTORE}d|{BASE}d:u::r|.|{RESTORE}d|{BASE}o::r|.",
        "setfacl: text line 1: access list: entry 4 needs a mask|setfacl: text line 1: default list: group:: missing|"
        "setfacl: text line 1: access list: entry 4 is repeated"),
    "setfacl --test --restore=-": (
        f"setfacl --test --restore=-|# file: f|# flags: s--|{BASE}.|getfacl f",
        f"f: {LIST}|# file: f|# owner: lisa|# group: staff|{BASE}"),
    "setfacl -m d:u:1:r f": ("setfacl -m d:u:1:r f", "setfacl: f: only directories have default lists"),
    "setfacl -X - with u:daemon # why": (
        "setfacl -X - m|u:daemon # why|.|chacl -l m", "m [u::rw-,g::r--,m::r--,o::r--]"),
    "setfacl --restore=- of a list that grants nothing at all, where the flags change": (
        f"{RESTORE}f|# flags: s--|u::-|g::-|o::-|.|chacl -l f", "f [u::---,g::---,o::---]"),
    "chacl -R, chacl -B of a file with a mask": (
        "setfacl -n -m g::rwx m|chacl -R m|chacl -l m|setfacl -n -m g::rwx,u:1:r,m:r m|chacl -B m|chacl -l m",
        f"m [{LIST}]|m [{LIST}]"),
    "chacl u::6,g::4,o::0 f; chacl u::rw-,daemon:r--,g::r--,m::r--,o::- f": (
        "chacl u::6,g::4,o::0 f|chacl -l f|chacl u::rw-,daemon:r--,g::r--,m::r--,o::- f|chacl -l f",
        "f [u::rw-,g::r--,o::---]|f [u::rw-,u:daemon:r--,g::r--,m::r--,o::---]"),
    "chacl -r beside -b, -d, -R, -D, -B or -l": (
        "|".join(f"chacl -r {it} dir" for it in (f"-b {LIST} {LIST}", f"-d {LIST}", "-R", "-D", "-B", "-l")),
        f"dir [{LIST}]|dir/file [{LIST}]"),
    "getfacl -a -s d, with base entries and a default list": ("setfacl -d -m u:1:r d|getfacl -a -s -c d", BASE),
    "getfacl f with #effective:": (
        "setfacl -n -m u:1:rwx m|getfacl -c m",
        "user::rw-|user:daemon:rwx\t\t\t#effective:r--|group::r--|mask::r--|other::r--|"),
    "setattr system.posix_acl_access=0x02000000 f (setfattr -n .. -v ..)": (
        "setattr system.posix_acl_access=0x02000000 f", "setattr: attribute entry 1: bad attribute"),
    "attr f, a minimal list (getfattr)": (
        "attr f", "# file: f|system.posix_acl_access=0x0200000001000600ffffffff04000400ffffffff20000400ffffffff|"),
    "a name with a backslash": (
        "creat --user=lisa --mode=600 d/a\\\\b|chacl -l d/a\\134b", "d/a\\134b [u::rw-,g::---,o::---]"),
    "can daemon f, f with user:daemon:rw-, mask::---, other::-w-": (
        "setfacl -m u:daemon:rw,m::-,o::w f|can daemon f", "none"),
}

INVALID = "setfacl: Option %s: Invalid argument near character 1|"
RECORDED = "printf '# file: %s\\n%suser::rw-\\ngroup::r--\\nother::r--\\n%s' | setfacl %s--restore=-; "
SEEN = "getfacl -cn %s | paste -sd,"
THERE: Dict[str, Tuple[str, str]] = dict(zip(DIFFERENCES, (
    ("setfacl -m u:daemon: f", "setfacl: Option -m incomplete|"),
    ("setfacl -d -m d:u:1:r,u:2:r d; setfacl -d -x d:u:1,u:2 d", INVALID % "-m" + INVALID % "-x"),
    ("setfacl -m u:1:x,u:2:X f;" + SEEN % "f", "user::rw-,user:1:--x,user:2:--x,group::r--,mask::r-x,other::r--,|"),
    ("setfacl -m m::rx m; setfacl -m u:2:X m;" + SEEN % "m",
     "user::rw-,user:1:r--,user:2:--x,group::r--,mask::r-x,other::r--,|"),
    ("setfacl -x u:1 -m u:1:r f;" + SEEN % "f", "user::rw-,user:1:r--,group::r--,mask::r--,other::r--,|"),
    ("setfacl -x d:u: d;" + SEEN % "d", "user::rwx,group::r-x,other::r-x,|"),
    ("setfacl -x m -m u:1:r f", "setfacl: f: Malformed access ACL `user::rw-,user:daemon:r--,group::r--,other::r--': "
     "Missing or wrong entry at entry 4|"),
    ("setfacl --mask -x m m;" + SEEN % "m", "user::rw-,user:1:r--,group::r--,mask::r--,other::r--,|"),
    ("".join(RECORDED % ("d", "", it, "") + SEEN % "d" + "; setfacl -b d; "
             for it in ("user:1:r--\\n", "default:user::rwx\\n", "other::r-x\\n")),
     "user::rw-,user:1:r--,group::r--,mask::r--,other::r--,|user::rw-,group::r--,other::r--,default:user::rwx,"
     "default:group::r--,default:other::r--,|user::rw-,group::r--,other::r-x,|"),
    (RECORDED % ("f", "# owner: daemon\\n# flags: s--\\n", "", "--test ") + "stat -c '%U %A' f",
     "f: *,*|root -rwSr--r--|"),
    ("setfacl -m d:u:1:r f d; echo $?; setfacl --test -m d:u:1:r f",
     "setfacl: f: Only directories can have default ACLs|0|f: *,d:u::rw-,d:u:daemon:r--,d:g::r--,d:m::r--,d:o::r--|"),
    ("echo 'u:daemon # why' | setfacl -X - m", "setfacl: Invalid argument in line 1 of standard input|"),
    ("printf '# file: f\\n# flags: s--\\nuser::---\\ngroup::---\\nother::---\\n' | setfacl --restore=-; stat -c %A f",
     "-rwSr--r--|"),
    ("setfacl -n -m g::rwx m; chacl -R m;" + SEEN % "m" +
     "\nsetfacl -n -m g::rwx,u:1:r,m:r m; chacl -B m;" + SEEN % "m",
     "user::rw-,group::rwx,other::r--,|user::rw-,group::rwx,other::r--,|"),
    ("chacl u::6,g::4,o::0 f; chacl u::rw-,daemon:r--,g::r--,m::r--,o::- f",
     "chacl: u::6,g::4,o::0 - Invalid argument|chacl: u::rw-,daemon:r--,g::r--,m::r--,o::- - Invalid argument|"),
    ("for it in '-b u::r,g::r,o::r u::r,g::r,o::r' '-d u::r,g::r,o::r' -R -D -B -l; do\n"
     "chacl -r $it d 2>/dev/null || echo no; done", "no|no|no|no|no|no|"),
    ("setfacl -d -m u:1:r d; getfacl -a -s d", ""),
    ("setfacl -n -m u:1:rwx m; getfacl -c m | grep daemon", "user:daemon:rwx\t#effective:r--|"),
    ("setfacl -m u:1:r f; setfattr -n system.posix_acl_access -v 0x02000000 f;" + SEEN % "f",
     "user::rw-,group::r--,other::r--,|"),
    ("getfattr -n system.posix_acl_access f", "f: system.posix_acl_access: No such attribute|"),
    ("touch 'a\\b'; getfacl 'a\\b' | head -1", "# file: a\\\\b|"),
    ("setfacl -m u:daemon:rw,m::-,o::w f; chmod 755 .. .\n"
     "setpriv --reuid 1 --regid 1 --clear-groups sh -c 'echo y >>f && echo written; cat f'",
     "written|cat: f: Permission denied|"),
)))


if __name__ == "__main__":
    unittest.main()
