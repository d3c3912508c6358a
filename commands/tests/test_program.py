"""What the program prints of FILEs, on both streams and with its status: the worked sessions of demo/, FILEs that cannot
be read, closed streams, when it answers, and trees of many files that are alike."""
from __future__ import annotations

import os
import select
import subprocess
import unittest

from common import COMMANDS, Case, Done

DEMO = os.path.join(COMMANDS, "..", "demo")
LONGEST = 268435456
LISTED = "# file: {}\n# owner: {}\n# group: staff\n{}user::rw-\nuser:joe:{}\ngroup::r--\nmask::rw-\nother::{}\n{}\n"
RECORD = b"# file: %s\n# owner: lisa\n# group: staff\nuser::rw-\ngroup::r--\nother::---\n\n"


def demo(name: str) -> bytes:
    with open(os.path.join(DEMO, name), "rb") as file:
        return file.read()


class Program(Case):
    def answer(self, script: bytes, *words: str) -> Done:
        words = (os.environ["FACL"], *words)
        done = subprocess.run(words, input=script, capture_output=True, cwd=self.folder, timeout=100, check=False)
        return Done(done.returncode, done.stdout, done.stderr)

    def test_worked_sessions(self) -> None:
        for order in (("passwd", "group", "dump"), ("dump", "passwd", "group")):
            words = [word for name in order for word in ("--" + name, os.path.join(DEMO, name))]
            self.expect(self.answer(demo("script"), *words), 1, demo("stdout"), demo("stderr"))
            self.expect(self.answer(demo("plan"), *words), 0, demo("plan.stdout"))

    def test_files_that_cannot_be_read(self) -> None:
        for name, length in (("empty", 0), ("longest", LONGEST), ("too_long", LONGEST + 1)):
            self.write(name, b"")
            os.truncate(self.path(name), length)
        # Nobody writes into this one: who opens it waits without end. No file is opened after one that is too long.
        os.mkfifo(self.path("waits"))
        for words, fault in (
            ("--passwd absent", "absent: cannot read"),
            ("--dump third --group second --passwd first", "first: cannot read"),
            ("--dump third --group second --passwd empty", "second: cannot read"),
            ("--group .", ".: cannot read"),
            ("--passwd too_long --group waits", "too_long: cannot read"),
            ("--passwd longest", "setup: passwd: text line 1: bad row"),
            ("--passwd", "usage"),
        ):
            self.expect(self.answer(b"frob\n", *words.split()), 2, b"", b"facl: %s\n" % fault.encode())

    def with_streams(self, streams: str, script: bytes, files: int) -> Done:
        """The answer over the first FILEs of demo/, with streams of the shell."""
        words = [word for name in ("passwd", "group", "dump")[:files] for word in ("--" + name, os.path.join(DEMO, name))]
        shell = ["sh", "-c", 'exec "$@" ' + streams, "sh", os.environ["FACL"], *words]
        done = subprocess.run(shell, input=script, capture_output=True, cwd=self.folder, timeout=100, check=False)
        return Done(done.returncode, done.stdout, done.stderr)

    def test_closed_streams(self) -> None:
        for files in range(4):
            self.expect(self.with_streams("<&-", b"", files), 2, b"", b"facl: read fault\n")
            self.expect(self.with_streams("<&- >&-", b"", files), 2, b"", b"facl: read fault\n")
            self.expect(self.with_streams("<&- 2>&-", b"", files), 2, b"", b"")
            self.expect(self.with_streams("2>&-", b"frob\n", files), 2, b"", b"")
        self.expect(self.with_streams(">&-", b"can mara project\n", 3), 2, b"", b"facl: write fault\n")

    def test_a_line_is_answered_before_the_next_is_read(self) -> None:
        words = [word for name in ("passwd", "group", "dump") for word in ("--" + name, os.path.join(DEMO, name))]
        with subprocess.Popen([os.environ["FACL"], *words], stdin=-1, stdout=-1, bufsize=0) as program:
            assert program.stdin and program.stdout
            for line, answer in ((b"can mara project\n", b"--x -w- -wx r-- r-x rw- rwx\n"), (b"who w project\n", b"ines\nmara\n")):
                program.stdin.write(line)
                printed = b""
                while printed != answer and select.select([program.stdout], [], [], 30)[0]:
                    printed += program.stdout.read(1000)
                self.assertEqual(printed, answer)
            program.stdin.close()
            self.assertEqual(program.wait(), 0)

    def test_many_files_of_one_kind(self) -> None:
        self.write("passwd", b"lisa:x:1001:50:::\njoe:x:1000:60:::\n")
        self.write("group", b"staff:x:50:\n")
        script = b"below r .\nsetfacl -R -m o::r .\nbelow r .\nchmod 640 f0\nbelow r .\nrm -r .\nindex\n"
        for files in (65_537, 131_073):
            self.write("dump", RECORD % b"./" + b"".join(RECORD % (b"f%d" % number) for number in range(files)))
            answer = b"%d lisa .\n%d lisa .\n%d joe .\n%d lisa .\n%d joe .\n" % (*[files + 1] * 4, files)
            self.expect(self.answer(script, *"--passwd passwd --group group --dump dump".split()), 0, answer, b"")

    def test_a_listing_of_many_files_is_that_of_each(self) -> None:
        """First 1,500 files with nodes of their own, after which only one file in 32 is compared with those that are kept; then files
        that share nodes, and nodes that differ by one part alone, in turn."""
        self.write("passwd", b"lisa:x:1001:50:::\njoe:x:1000:60:::\n")
        self.write("group", b"staff:x:50:\n")
        default = "default:user::rwx\ndefault:group::r-x\ndefault:other::{}\n"
        nodes = [("lisa", "", "rw-", "---", ""), ("joe", "", "rw-", "---", ""), ("lisa", "# flags: s--\n", "rw-", "---", ""),
                 ("lisa", "", "r--", "---", ""), ("lisa", "", "rw-", "r--", "")]
        folders = [("lisa", "", "rw-", "---", ""), ("lisa", "", "rw-", "---", default.format("---")),
                   ("lisa", "", "rw-", "---", default.format("r--")), ("lisa", "# flags: --t\n", "rw-", "---", "")]
        own = [(f"a{n:04}", (f"{70_000 + n}", "", "rw-", "---", "")) for n in range(1_500)]
        shared = [(f"b{n:04}", nodes[n % 5]) for n in range(500)] + [(f"c{n:04}/", folders[n % 4]) for n in range(200)]
        files = [("./", folders[0]), *own, *shared, *((f"d{name[1:]}", node) for name, node in own[:40]), ("e", nodes[0])]
        self.write("dump", "".join(LISTED.format(name, *node) for name, node in files).encode())
        words = "--passwd passwd --group group --dump dump".split()
        lines = [(f"getfacl {option}", f"getfacl -R {option}") for option in ("", "-n ", "-c ", "-e ", "-a ", "-s ")]
        for one, all_of in (*lines, ("chacl -l ", "chacl -lr "), ("setfacl --test -m u:joe:rX ", "setfacl --test -R -m u:joe:rX ")):
            alone = "".join(f"{one}{name.rstrip('/')}\n" for name, _ in files).encode()
            each, whole = self.answer(alone, *words), self.answer(f"{all_of}.\n".encode(), *words)
            self.assertEqual((each.status, each.messages, whole.status, whole.messages), (0, b"", 0, b""), one)
            self.assertTrue(each.out == whole.out and each.out, one)


if __name__ == "__main__":
    unittest.main()
