"""Names that would run, hide, forge or break something, if a command took them for anything but names."""
from __future__ import annotations

from typing import List

CANARY = b"ran"  # What a name makes, that is run by a shell.

OF_TERMINALS = [
    b"clear\x1b[2J\x1b[H", b"title\x1b]0;owned\x07", b"link\x1b]8;;x\x1b\\", b"device\x1bP$q\x1b\\", b"back\x08\x08\x08\x08x", b"bell\x07", b"del\x7f",
    b"return\rreturn", b"c1\xc2\x9b31m", b"raw c1\x9b31m", b"bidi\xe2\x80\xaegnp.exe", b"isolate\xe2\x81\xa6x", b"line\xe2\x80\xa8x",
    b"zero\xe2\x80\x8bwidth", b"tag\xf3\xa0\x81\x81", b"bom\xef\xbb\xbfx", b"blank\xe2\xa0\x80", b"wide\xef\xbc\xa1", b"joined e\xcc\x81",
]
OF_BYTES = [
    b"bad\xff\xfe", b"half\xc3", b"surrogate\xed\xa0\x80", b"overlong\xc0\xaf", b"above\xf4\x90\x80\x80", b"tab\there", b" leading", b"trailing ", b"  ",
    b"\\", b"\\012", b"\\\\", b"\\x1b[2J", b"'", b'"', b"x" * 200, b"%s%n%1000000d", b"\xc3\xa9t\xc3\xa9",
]
OF_SHELLS = [
    b"$(touch ran)", b"`touch ran`", b";touch ran;", b"&touch ran&", b"|touch ran|", b"'; touch ran; '", b'"; touch ran; "', b"\\'; touch ran; '",
    b"$'\\n'touch ran", b">ran", b"${IFS}touch${IFS}ran", b"$HOME", b"!!", b"!touch ran", b"~root", b"*", b"?", b"[a-z]", b"{a,b}", b"#comment", b"x #y", b"-rf", b"-",
    b"--", b"--output=ran", b"@ran", b"=x", b"a=b", b"CDPATH=.",
]
OF_TEXTS = [
    b"user", b"default", b"u", b"everybody else", b"everybody", b"others", b"(nothing)", b"none", b"2024", b"0", b"4294967295", b"# owner root",
    b"<script>alert(1)<", b"-->", b"&amp;", b"__proto__", b"constructor", b"a.b", b".x", b"...",
]
# A colon and a line feed cannot be in the name of a user, nor a comma in that of a member of a group.
OF_USERS: List[bytes] = OF_TERMINALS + OF_BYTES + OF_SHELLS + OF_TEXTS
OF_FILES: List[bytes] = OF_USERS + [
    b"line\nfeed", b"\n", b"ends\n", b".\n.", b"\n.\n", b"\n# file: etc\n# owner: root\n", b"touch\ntouch ran\n", b"\nline 1: facl: all is well",
    b"# owner: root", b"user:root:rwx", b"u:x:1:1:::", b"a,b", b"default:user::rwx", b"x: rwx",
]
