"""What a sudoers rule may leave free: a file that the caller cannot read, as a word of each command. Neither what is printed
nor a message has a word of it."""
from __future__ import annotations

import os
import unittest
from typing import List, Tuple

from common import Case

SECRET = b"SECRET"
# As /etc/shadow has them, lines of other secret files, and such as look partly like a rule, a finding, a dump or a row.
LINES = [
    b"root:$6$SECRET$SECRET:19000:0:99999:7:::", b"SECRET", b"key = SECRET", b"'SECRET", b"SECRET\r", b"# SECRET",
    b"user:SECRET:rwx", b"u:SECRET:rwx", b"group:SECRET:r--", b"# owner: SECRET", b"never SECRET read srv/share",
    b"never @SECRET read srv/share", b"only ines SECRET write srv", b"never ines SECRET srv/share",
    b"never ines read SECRET", b"never ines read srv/../SECRET", b"always ines read 'SECRET",
    b"SECRET ines read srv/share", b"never 1001 SECRET@ read srv/share", b"set-user-id SECRET why",
    b"set-user-id srv/share SECRET", b"SECRET srv/share why", b"set-user-id 'SECRET why", b"set-user-id SECRET",
    b"SECRET:x:1001:100::/:", b"SECRET:x:one:100::/:/bin/sh", b"SECRET:x:100:ines", b"staff:x:SECRET:\r",
    b"SECRET:x:7:7::/:/bin/sh\r:", b"mask::---\nother::r--", b"load SECRETS", b"frob SECRET",
]
# No line begins nearly as a tool, which SECURITY leaves to a SCRIPT. Each command is given with the words that name a file;
# none of the answers of a line that is right is a secret.
WORDS: List[Tuple[str, List[str]]] = [
    ("facl-check", ["before", "FILE"]),
    ("facl-check", ["--json", "before", "FILE"]),
    ("facl-audit", ["--accepted", "FILE", "before"]),
    ("facl-audit", ["--json", "--accepted", "FILE", "before"]),
    ("facl-ask", ["before", "FILE"]),
    ("facl-ask", ["before", "FILE", "FILE"]),
    ("facl-ask", ["--headings", "before", "FILE"]),
    ("facl-plan", ["before", "FILE"]),
    ("facl-plan", ["--json", "before", "FILE"]),
    ("facl-report", ["--output", "page.html", "before", "FILE"]),
    ("facl-ask", ["--dump", "FILE"]),
    ("facl-audit", ["--dump", "FILE"]),
    ("facl-plan", ["--dump", "FILE", "FILE"]),
    ("facl-report", ["--dump", "FILE"]),
    ("facl-check", ["--dump", "FILE", "--write"]),
    ("facl-ask", ["--dump", "acls", "--passwd", "FILE"]),
    ("facl-ask", ["--dump", "acls", "--group", "FILE"]),
    ("facl-who", ["--user", "ines", "--dump", "acls", "--group", "FILE"]),
    ("facl-apply", ["FILE"]),
    ("facl-diff", ["FILE", "before"]),
]


class Secrets(Case):
    def test_each_line(self) -> None:
        """All lines in one file, and each of some alone, which may be the first fault."""
        os.link(self.path("before/dump"), self.path("acls"))
        alone = LINES if "ALL_TESTS" in os.environ else LINES[:1]
        for text in [b"\n".join(LINES) + b"\n"] + [it + b"\n" for it in alone]:
            self.write("secret", text)
            os.chmod(self.path("secret"), 0o600)
            for name, words in WORDS:
                done = self.run_command(name, [it.replace("FILE", "secret") for it in words])
                self.assertNotIn(SECRET, done.out + done.messages, (name, words, text))
                self.assertNotIn(b"Traceback", done.messages, (name, words, text))

    def test_a_dump_with_names_of_its_own(self) -> None:
        """Names without a row are counted, and have the number of the first line."""
        self.write("secret", b"# file: srv\n# owner: SECRET\n# group: 0\nuser::rwx\nuser:SECRETS:r--\ngroup::---\nmask::r--\nother::---\n")
        done = self.run_command("facl-ask", ["--dump", "secret"], b"who r srv\n")
        self.assertIn(b"does not load it: 2, first: line 2\n", done.messages)
        self.assertEqual((done.status, SECRET in done.out + done.messages), (2, False))

    def test_what_is_no_file_of_a_person(self) -> None:
        """A device, a pipe and a file of many GB end with a message."""
        os.mkfifo(self.path("pipe"))
        with open(self.path("huge"), "wb") as file:
            file.truncate(9 << 30)
        os.chmod(self.path("huge"), 0o600)
        for name, words in (("facl-check", ["before", "FILE"]), ("facl-audit", ["--accepted", "FILE", "before"])):
            for file_name, message in (("/dev/zero", b"/dev/zero: can be written by everybody, so it is not trusted"),
                                       ("pipe", b"pipe: is not a regular file"),
                                       ("huge", b"huge: has more than 64 MiB, which is too large")):
                self.expect(self.run_command(name, [it.replace("FILE", file_name) for it in words]), 2, b"",
                            b"%s: %s\n" % (name.encode(), message))
        too_large = b"%s: %s: has more than 64 MiB, which is too large\n"
        for name in ("facl-plan", "facl-ask"):
            self.expect(self.run_command(name, ["before", "huge"]), 2, b"", too_large % (name.encode(), b"huge"))
        self.expect(self.run_command("facl-plan", ["before", "/dev/zero"]), 2, b"", too_large % (b"facl-plan", b"/dev/zero"))
        self.expect(self.run_command("facl-ask", ["before", "/dev/zero"]), 2, b"", b"facl: script too long\n")


if __name__ == "__main__":
    unittest.main()
