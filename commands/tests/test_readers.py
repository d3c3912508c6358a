"""The program and second readers on texts that are cut, and changed, at each of their bytes: what is read, and the first
fault with its place."""
from __future__ import annotations

import os
import re
import subprocess
import tempfile
import unittest
from concurrent.futures import ThreadPoolExecutor
from typing import Callable, Dict, Iterable, Iterator, List, NamedTuple, Optional, Set, Tuple

import second_readers
from common import Done
from second_readers import BASE, MASK, MODIFY, REMOVE, WHOLE, Fault, FileRecord, Key, Names, Use

PASSWD = b"""lisa:x:1001:50:Lisa:/home/lisa:/bin/sh
joe:x:1000:100:Joe:/home/joe:/bin/sh
ann:x:1002:100:Ann:/home/ann:/bin/sh
"""
GROUP = b"""staff:x:50:
users:x:100:
cool:x:60:lisa,ann
adm:x:70:
"""
NAMES = Names({b"lisa": 1001, b"joe": 1000, b"ann": 1002}, {b"staff": 50, b"users": 100, b"cool": 60, b"adm": 70})
DIRECTORIES: List[Tuple[bytes, ...]] = [(), (b"a",), (b"a", b"b"), (b"b",), (b"c",), (b"d",), (b"e",)]
# What each byte of a text is changed to.
CHANGES = b"\0#:\\/\xff"
LETTERS = "rwx"
List_ = Dict[Key, Set[str]]


def cuts_and_changes(text: bytes) -> Iterator[bytes]:
    """A text whole, cut before each of its bytes, and with each of them changed."""
    yield text
    for at in range(len(text)):
        yield text[:at]
        yield from (text[:at] + bytes([byte]) + text[at + 1:] for byte in CHANGES if byte != text[at])


def in_list_order(key: Key) -> Tuple[int, int]:
    """The order of entries (acl(5))."""
    tags = [("user", False), ("user", True), ("group", False), ("group", True), ("mask", False), ("other", False)]
    return tags.index((key[0], key[1] is not None)), key[1] or 0


def list_text(entries: List_, head: str = "") -> bytes:
    """A list as `getfacl -nE` prints it."""
    rows = ((tag, "" if number is None else number, "".join(letter if letter in perms else "-" for letter in LETTERS))
            for (tag, number), perms in sorted(entries.items(), key=lambda it: in_list_order(it[0])))
    return "".join(f"{head}{tag}:{number}:{perms}\n" for tag, number, perms in rows).encode()


def shown_path(path: Tuple[bytes, ...]) -> bytes:
    text = b"/".join(path) or b"."
    return re.sub(rb"[\\\n\r]", lambda it: b"\\%03o" % it[0][0], text)


def record_text(record: FileRecord, is_above: bool) -> bytes:
    """A record of a dump as `getfacl -nE` prints it: with a slash where only that shows that it is a directory."""
    has_slash = record.has_slash and record.path and not is_above and not record.list_of(True)
    flags = record.flags if record.flags not in (None, "---") else None
    head = b"# file: %s%s\n" % (shown_path(record.path), b"/" if has_slash else b"")
    head += b"# owner: %d\n# group: %d\n" % (record.ids["owner"], record.ids["group"])
    head += b"# flags: %s\n" % flags.encode() if flags else b""
    return head + list_text(record.list_of(False)) + list_text(record.list_of(True), "default:") + b"\n"


def listing_of(files: Dict[Tuple[bytes, ...], FileRecord]) -> bytes:
    above = {path[:length] for path in files for length in range(len(path))}
    return b"".join(record_text(files[path], path in above) for path in sorted(files))


def dump_of(directories: Iterable[Tuple[bytes, ...]]) -> bytes:
    """Directories of lisa with a minimal list."""
    return b"".join(b"# file: %s/\n# owner: lisa\n# group: staff\nuser::rwx\ngroup::r-x\nother::---\n\n" % shown_path(path)
                    for path in directories)


START = dump_of(DIRECTORIES)


def program(script: bytes, passwd: bytes = PASSWD, group: bytes = GROUP, dump: bytes = START) -> Done:
    """What the program prints after it loaded three texts."""
    with tempfile.TemporaryDirectory() as folder:
        words = [os.environ["FACL"]]
        for name, text in (("passwd", passwd), ("group", group), ("dump", dump)):
            path = os.path.join(folder, name)
            with open(path, "wb") as file:
                file.write(text)
            words += ["--" + name, path]
        done = subprocess.run(words, input=script, capture_output=True, timeout=100, check=False)
    return Done(done.returncode, done.stdout, done.stderr)


# A line that prints the same whatever the lists are, since everybody is granted nothing; and what it prints.
END, ENDED = b"who 0 .\n", b"lisa\njoe\nann\n"


class Trial(NamedTuple):
    """The lines of a script that have a text read, and what the program has to answer: a listing, and the message of a line
    that is refused, without its number."""
    lines: bytes
    listing: bytes
    message: Optional[bytes]


def in_one_session(trials: List[Trial]) -> Iterator[Tuple[Trial, bytes, Optional[bytes]]]:
    """Each trial with what the program answers."""
    done = program(b"".join(trial.lines + END for trial in trials))
    listings = iter(done.out.split(ENDED))
    messages = dict(re.findall(rb"(?m)^line (\d+): (.*)$", done.messages))
    line = 0
    for trial in trials:
        numbers = range(line + 1, line + 2 + trial.lines.count(b"\n"))
        found = [messages[b"%d" % number] for number in numbers if b"%d" % number in messages]
        line = numbers[-1]
        yield trial, next(listings), b"; ".join(found) if found else None


def is_word(text: bytes) -> bool:
    """Whether a text can be a word between quotes."""
    try:
        return text.decode() is not None and not any(byte in text for byte in b"'\n")
    except UnicodeDecodeError:
        return False


def words_of(entries: List_) -> bytes:
    """The entries of both lists, as a word of setfacl."""
    rows = [row.encode() for row in list_text(entries).decode().split()]
    return b",".join([*rows, *(b"d:" + row for row in rows)])


def listed(lists: Tuple[List_, List_]) -> bytes:
    """The access list and the default list of a directory, as `getfacl -cnE` prints them."""
    return list_text(lists[0]) + list_text(lists[1], "default:") + b"\n"


def edited(start: List_, text: bytes, by_lines: bool, use: Use) -> Tuple[Tuple[List_, List_], Optional[bytes]]:
    """Both lists of the directory d after a text removes or modifies their entries, or the message."""
    lists = dict(start), dict(start)
    try:
        for entry in second_readers.read_entries(text, by_lines, use, NAMES):
            if entry.perms is None:
                lists[entry.is_default].pop(entry.key, None)
            else:
                lists[entry.is_default][entry.key] = {letter.lower() for letter in entry.perms}
    except Fault as fault:
        return (start, start), f"entry {fault.at}: {fault.text}".encode()
    for which, entries in zip(("access", "default"), lists):
        found = second_readers.list_fault(sorted(entries, key=in_list_order))
        if found:
            return (start, start), f"d: {which} list: {found}".encode()
    return lists, None


def shown_name(name: bytes) -> bytes:
    return re.sub(rb"[\\\n\r \t:,#]", lambda it: b"\\%03o" % it[0][0], name)


def readable_by(keys: Iterable[Tuple[str, int]]) -> bytes:
    """Files of nobody here that one user or one group may read, of its name."""
    head = b"# file: %s%d\n# owner: 4294967293\n# group: 4294967293\nuser::---\n%s:%d:r--\ngroup::---\nmask::r--\nother::---\n\n"
    return b"".join(head % (tag.encode(), number, tag.encode(), number) for tag, number in keys)


def in_turn(first: bytes, second: bytes) -> bytes:
    """Records of two bodies, each of which comes again."""
    heads = b"# file: a\n", b"# file: b/\n", b"#file:c\n", b"\t# file: d\n", b"# file: e\n"
    return b"".join(head + body for head, body in zip(heads, (first, second, first, second, second)))


# Lists of base entries and a mask; and one that names all users and groups that are removed.
KEPT: List_ = {**{key: set() for key in BASE}, MASK: {*LETTERS}}
REMOVED: List_ = {**KEPT, **{("user", number): {"r"} for number in (7, 1000, 1001, 1002)},
                  **{("group", number): {"w"} for number in (50, 60, 70)}}
MODIFIED_BY_COMMAS = [b"u::rw,joe:7,d:g:cool:rX,, m : wx ,other::-,default:o:,u:7:", b"\\152oe:wX,g:c\\157ol:,u:4294967294:r"]
MODIFIED_BY_LINES = [b"u:joe:rw # reader\n\ng:adm:r\n d : user : ann : X\nm::7\n#x\no:\ngroup::-\n"]
REMOVED_BY_COMMAS = [b"u:joe,d:g:cool:,m, ann ,,mask::,default:user:7:,d:joe"]
REMOVED_BY_LINES = [b"u:joe #x\n\ngroup:adm:\nd:m::\n ann\n#\nd:lisa:"]
WHOLE_LISTS = [b"u::rwx,user:joe:r-x,g::5,group:adm:-,mask:rw,,o::,7:x"]
ATTRIBUTES = [bytes.fromhex(it) for it in (
    "0200000001000600ffffffff02000700e803000004000400ffffffff10000700ffffffff20000000ffffffff",
    "02000000010006000102030404000400000000002000000009000000",
)]
RESTORED = [
    b"# a comment\n# file: a/b\n# owner:  joe \n# group:\tstaff\t\nu::rw\ngroup::r--\nother:-\n\n#file:c/\n #flags: s-t\n"
    b" u : : x # x\ng::\nm:rw\nlisa:r\no::\nd:u::\nd:g::w\nd:o:\n",
]
LOADED = [
    b"# file: somedir\n# owner: lisa\n# group: staff\n# flags: -s-\nuser::rwx\nuser:joe:rwx\t\t\t#effective:r-x\n"
    b"group::rwx\t\t\t#effective:r-x\ngroup:cool:r-x\nmask::r-x\nother::r-x\n\n",
    b"# file: somedir\n# owner: lisa\n# group: staff\n# flags: -s-\nuser::rwx\nuser:joe:rwx\ngroup::rwx\ngroup:cool:r-x\n"
    b"mask::r-x\nother::r-x\ndefault:user::rwx\ndefault:user:joe:rwx\ndefault:group::r-x\ndefault:mask::r-x\ndefault:other::---\n",
    b"#file:a\\040b\n#owner:joe\n#group:50\nu::7\ng::5\no::1\n#file:a\\\\b/c\n#owner:1000\n#group:cool\nu::7\ng::5\no::1",
]
# Bodies that are nearly one another, some with a fault.
FIRST = b"# owner: joe\n# group: staff\nuser::rwx\ngroup::r-x\n"
BODIES = [
    FIRST + b"other::r--\n\n",
    FIRST + b"other::r-x\n\n",
    FIRST + b"other::r--\n",
    FIRST,
    FIRST + b"other::r--\n\ndefault:user::rwx\ndefault:group::r-x\ndefault:other::---\n",
    FIRST + b"other::r--\n\n\n",
    b"#owner:joe\n # group:\tstaff\nuser : : rwx\ngroup::r-x # x\nother::r--\n\n",
    b"# owner: joe\n\n# a comment\n# group: staff\n#\nuser::rwx\n\ngroup::r-x\n  \nother::r--\n",
    b"# files: joe\n# file\n" + FIRST + b"other::r--\n",
    b"# owner: joe\n" + FIRST + b"other::r--\n",
    FIRST + b"user:nosuch:r-x\nother::r--\n",
    b"\n",
    b"",
]
PAIRS = [(first, second) for first in BODIES for second in BODIES]
# A record begins among the lines of what was a body before; lines before the first record.
BEGIN_EARLY = [
    b"#file:a\nu::7\ng::7\no::7\n#file:b\nu::7\ng::7\n#file:c\nu::7\ng::7\no::7\n",
    b"#file:a\nu::7\ng::7\no::7\n#file:b\nu::7\ng::7\no::7\n \t# \tfile:c\nu::7\ng::7\no::7\n",
    b"#file:a\nu::7\ng::7\no::7\n#file:b\nu::7\ng::7\no::7\nm::7\n#file:c\nu::7\ng::7\no::7\n",
    b"\n# a comment\n\n#file:a\nu::7\ng::7\no::7\n#file:b\nu::7\ng::7\no::7\n",
    b"\nu::7\n#file:a\nu::7\ng::7\no::7\n#file:b\nu::7\ng::7\no::7\n",
]


def many_lists() -> bytes:
    """Records of each list of three digits, and then of a few of them again."""
    numbers = [*range(512), *(500 + at % 3 for at in range(512, 900))]
    return b"".join(b"# file: f%d\n# owner: joe\n# group: staff\nu::%d\ng::%d\no::%d\n" % (at, it >> 6, it >> 3 & 7, it & 7)
                    for at, it in enumerate(numbers))


class Readers(unittest.TestCase):
    def expect(self, trials: List[Trial]) -> None:
        for trial, listing, message in in_one_session(trials):
            self.assertEqual((listing, message), (trial.listing, trial.message), trial.lines)

    def expect_each(self, texts: Iterable[bytes], check: Callable[[bytes], None]) -> None:
        """Checks texts that each need a program of their own, several side by side."""
        with ThreadPoolExecutor(len(os.sched_getaffinity(0))) as pool:
            for _ in pool.map(check, texts):
                pass

    # --- entries

    def entries_trial(self, text: bytes, by_lines: bool, use: Use) -> Trial:
        """An edit of the directory d by a text."""
        start, option = (REMOVED, b"-x") if use.removes else (KEPT, b"-m")
        lists, message = edited(start, text, by_lines, use)
        given = b"%s - d\n%s\n.\n" % (option.upper(), text) if by_lines else b"%s '%s' d\n" % (option, text)
        lines = b"setfacl --set %s d\nsetfacl -n %sgetfacl -cnE d\n" % (words_of(start), given)
        return Trial(lines, listed(lists), b"setfacl: " + message if message else None)

    def expect_entries(self, texts: Iterable[bytes], by_lines: bool, use: Use) -> None:
        for text in texts:
            second_readers.read_entries(text, by_lines, use, NAMES)
            changed = [it for it in cuts_and_changes(text) if by_lines or is_word(it)]
            self.expect([self.entries_trial(it, by_lines, use) for it in changed])

    def test_entries_between_commas(self) -> None:
        self.expect_entries(MODIFIED_BY_COMMAS, False, MODIFY)
        self.expect_entries(REMOVED_BY_COMMAS, False, REMOVE)

    def test_entries_in_lines(self) -> None:
        self.expect_entries(MODIFIED_BY_LINES, True, MODIFY)
        self.expect_entries(REMOVED_BY_LINES, True, REMOVE)

    def whole_trial(self, text: bytes) -> Trial:
        """A list of chacl for the directory d."""
        access, message = dict(KEPT), None
        try:
            entries = second_readers.read_entries(text, False, WHOLE, NAMES)
            fault = second_readers.list_fault([entry.key for entry in entries])
            message = f"access list: {fault}" if fault else None
            access = access if fault else {entry.key: entry.perms or set() for entry in entries}
        except Fault as fault:
            message = f"entry {fault.at}: {fault.text}"
        lines = b"setfacl --set %s d\nchacl '%s' d\ngetfacl -cnE d\n" % (words_of(KEPT), text)
        return Trial(lines, listed((access, KEPT)), f"chacl: {message}".encode() if message else None)

    def test_whole_lists(self) -> None:
        for text in WHOLE_LISTS:
            self.expect([self.whole_trial(it) for it in cuts_and_changes(text) if is_word(it)])

    # --- attributes

    def attribute_trial(self, text: bytes) -> Trial:
        access, message = dict(KEPT), None
        try:
            access = second_readers.read_attribute(text)
        except Fault as fault:
            message = f"setattr: attribute entry {fault.at}: {fault.text}".encode()
        lines = b"setfacl --set %s d\nsetattr system.posix_acl_access=0x%s d\ngetfacl -cnE d\n"
        return Trial(lines % (words_of(KEPT), text.hex().encode()), listed((access, KEPT)), message)

    def test_attributes(self) -> None:
        for text in ATTRIBUTES:
            self.expect([self.attribute_trial(it) for it in cuts_and_changes(text)])

    # --- dumps

    def restore_trial(self, text: bytes) -> Trial:
        files = {it.path: it for it in second_readers.read_dump(START, True, NAMES)}
        message: Optional[bytes] = None
        try:
            records = second_readers.read_dump(text, False, NAMES)
            missing = next((it.path for it in records if it.path not in files), None)
            message = shown_path(missing) + b": no such file" if missing is not None else None
            for record in [] if message else records:
                record.ids = {**files[record.path].ids, **record.ids}
                record.has_slash = files[record.path].has_slash
                files[record.path] = record
        except Fault as fault:
            message = f"text line {fault.at}: {fault.text}".encode()
        lines = b"setfacl --restore -\n%s.\nsetfacl --restore -\n%s\n.\ngetfacl -nER .\n" % (START, text)
        return Trial(lines, listing_of(files), b"setfacl: " + message if message else None)

    def test_restored_records(self) -> None:
        for text in RESTORED:
            self.expect([self.restore_trial(it) for it in cuts_and_changes(text)])
        self.expect([self.restore_trial(it) for it in (*BEGIN_EARLY, *(in_turn(*bodies) for bodies in PAIRS))])

    def check_load(self, text: bytes) -> None:
        try:
            records = {record.path: record for record in second_readers.read_dump(text, True, NAMES)}
        except Fault as fault:
            message = f"facl: setup: dump: text line {fault.at}: {fault.text}\n".encode()
            self.assertEqual(program(b"", dump=text), Done(2, b"", message), text)
            return
        if all(is_word(shown_path(path)) for path in records):
            asked = b" ".join(b"'%s'" % shown_path(path) for path in sorted(records))
            found = program(b"getfacl -nE -- %s\n" % asked if asked else b"", dump=text)
            self.assertEqual(found, Done(0, listing_of(records), b""), text)

    def test_loaded_dumps(self) -> None:
        self.expect_each((it for text in LOADED for it in cuts_and_changes(text)), self.check_load)
        self.expect_each((many_lists(), *(in_turn(*bodies) for bodies in PAIRS)), self.check_load)

    # --- users and groups

    def check_people(self, passwd: bytes, group: bytes) -> None:
        """Compares who has which user id, and who is in which group, as files show it that one of them may read."""
        users = groups = []
        which = "passwd"
        try:
            users = second_readers.read_rows(passwd, 7)
            which = "group"
            groups = second_readers.read_rows(group, 4)
        except Fault as fault:
            message = f"facl: setup: {which}: text line {fault.at}: {fault.text}\n".encode()
            self.assertEqual(program(b"", passwd, group), Done(2, b"", message), (passwd, group))
            return
        wanted: Dict[Tuple[str, int], List[bytes]] = {}
        for user in users:
            own = {user.group} | {row.number for row in groups if user.name in row.members}
            for key in (("user", user.number), *(("group", number) for number in own)):
                wanted.setdefault(key, []).append(shown_name(user.name))
        keys = sorted({*wanted, *(("group", row.number) for row in groups), ("user", 0)})
        script = b"".join(b"who r %s%d\n" % (tag.encode(), number) for tag, number in keys)
        out = b"".join(name + b"\n" for key in keys for name in wanted.get(key, []))
        self.assertEqual(program(script, passwd, group, readable_by(keys)), Done(0, out, b""), (passwd, group))

    def test_users(self) -> None:
        self.expect_each(cuts_and_changes(PASSWD), lambda text: self.check_people(text, GROUP))

    def test_groups(self) -> None:
        self.expect_each(cuts_and_changes(GROUP), lambda text: self.check_people(PASSWD, text))


if __name__ == "__main__":
    unittest.main()
