"""Runs the program at its limits, where everything is large, and on hostile shapes at two sizes.

usage: tools/check.py sizes PROGRAM [--limits] [--large] [--shapes [--full] [--runs N]] [--record] [WORD..]

All three tables, or those that are given; with words, only what has one of them in its name. What is expected is
composed from the rules of docs/SPECIFICATION.md. The exit status is 1 if something differs, 2 if the words are
others.

--limits: each limit at its last value, and one above; all that the program prints is compared. It takes 700 MB of
memory and as much in the temporary folder.

--large: 20,000 files with lists of up to 4,096 entries and few users, or 30,000 users and few files; 30,000 groups,
names of 200 bytes, paths of 4,000 components, lines of 65,536 bytes and thousands of words, texts of 10 MB. The
messages are compared, so `no memory` is a failure. It takes 13 seconds and 500 MB.

--shapes: texts that the program loads, and steps of lines, over a number of files, users, lines or bytes,
whose messages are compared. The time of a step is to be at most 6 times that at a quarter of the size: as long as it grows by the
size, or by that and a logarithm, with room for noise and for memory that is out of the caches. Time is processor time
of the program, the best of N runs (2), and of as many again where it grows by more; a step of less than 50 ms is not
compared. Where each line of a step looks at everything, as a userdel, the number of lines stays, so the time of a line
is compared. Where the paths of a shape contain one another, the texts grow by the square, and the size is compared with
its half. --full takes the sizes of the limits, some 3 GB and a quarter of an hour; without it all take two minutes.
"""
from __future__ import annotations

import argparse
import contextlib
import itertools
import os
import random
import string
import subprocess
import tempfile
import time
from functools import partial
from typing import Callable, Counter, Dict, Iterable, Iterator, List, Mapping, NamedTuple, Optional, Sequence, Tuple
from typing import Union

from lib.script import Failed
from lib.session import Expect, conclude, options_of, shown, timed, words_of, write_text
from lib.texts import ROOT_AND_FILE, attribute, lines

ENTRIES, TEXT_ENTRIES, ROWS, FILES = 4096, 16_384, 65_536, 1_048_576
LINE, SCRIPT, FILE, ID = 65_536, 67_108_864, 268_435_456, 4_294_967_294
FOLDER, PLAIN = "user::rwx\ngroup::r-x\nother::r-x\n", "user::rw-\ngroup::r--\nother::---\n"
# A line with its text, perhaps with the message that it has to have.
Unit = Union[str, Tuple[str, str]]
# Texts by the words for them; a number is the length of a comment in bytes.
Files = Dict[str, Union[str, int]]


def write(folder: str, name: str, texts: Iterable[str]) -> None:
    write_text(folder, name, (text.encode("latin-1") for text in texts))


def record(path: str, entries: str = PLAIN, owner: str = "u1", group: str = "g1") -> str:
    return f"# file: {path}\n# owner: {owner}\n# group: {group}\n{entries}"


def padded(line: str, length: int = LINE, words: str = " ") -> str:
    """A line of at most `length` bytes, ended by as many of `words` as fit."""
    return line + words * ((length - len(line)) // len(words))


def step(name: str, units: Iterable[Unit]) -> Expect:
    """Lines with their texts one after another, some of which are refused, with a message."""
    texts, messages, number = [], [], 1
    for unit in units:
        text, message = (unit, None) if isinstance(unit, str) else unit
        messages += [(number, message.encode())] if message is not None else []
        texts.append(text + "\n")
        number += texts[-1].count("\n")
    return Expect(name, ["".join(texts).encode("latin-1")], messages)


def write_people(folder: str, users: int = 10, groups: int = 10, name: Callable[[str, int], str] = "{}{}".format,
                 members: Callable[[int], Iterable[int]] = lambda k: (k % 10, (k + 1) % 10)) -> None:
    """Users, and groups with their members by number."""
    write(folder, "passwd", (f"{name('u', k)}:x:{100_000 + k}:{200_000 + k % groups}:::\n" for k in range(users)))
    rows = ((k, ",".join(name("u", it) for it in members(k))) for k in range(groups))
    write(folder, "group", (f"{name('g', k)}:x:{200_000 + k}:{names}\n" for k, names in rows))


class Shape(NamedTuple):
    """Texts that the program loads, and what it answers, over a number of files, users, lines or bytes, or with --full. Its
    times are compared with those at a part of the size, unless that is 1."""

    name: str
    about: str
    dump: Optional[Callable[[int], Iterable[str]]]
    steps: Callable[[int], List[Expect]]
    sizes: Tuple[int, int] = (100_000, 1_000_000)
    people: Callable[[str, int], None] = lambda folder, size: write_people(folder)
    growth: int = 4


# Limits.

PEOPLE: Files = {"passwd": "lisa:x:1001:50:Lisa:/home/lisa:/bin/sh\njoe:x:1000:100:Joe:/home/joe:/bin/sh\n",
                 "group": "staff:x:50:\nadm:x:70:\n"}
DUMP = ROOT_AND_FILE.decode()
WORLD: Files = {**PEOPLE, "dump": DUMP}
LISTED, READ = "f [u::rw-,g::r--,o::---]\n", "f [u::rw-,g::r--,o::r--]\n"
# Users from here on have no row.
FIRST = 10_000


class Run(Expect):
    """A run of its own, with its texts, whose output is compared too. The message of line 0 is that of an early end; in
    it FOLDER is that of the texts."""

    def __init__(self, script: str, out: str = "", messages: Mapping[int, str] = {}, files: Files = WORLD) -> None:
        pairs = [(number, text.encode()) for number, text in messages.items()]
        super().__init__(script.partition("\n")[0][:60], [script.encode("latin-1")], pairs)
        self.out, self.files = out.encode(), files

    def words(self, program: str, folder: str) -> List[str]:
        """The program with the texts, which are written into a folder."""
        for name, text in self.files.items():
            write(folder, name, ["#" if isinstance(text, int) else text])
            if isinstance(text, int):
                os.truncate(os.path.join(folder, name), text)
        return words_of(program, folder)

    def fault(self, program: str, folder: str) -> Optional[str]:
        """What differs; None where nothing does."""
        words, script = self.words(program, folder), b"".join(self.lines)
        printed = subprocess.run(words, input=script, capture_output=True, check=False)
        told = b"".join(b"line %d: %s\n" % it if it[0] else b"facl: %s\n" % it[1] for it in self.messages)
        told, status = told.replace(b"FOLDER", folder.encode()), 2 if 0 in dict(self.messages) else 1 if told else 0
        pair = (printed.stdout, printed.stderr, printed.returncode), (self.out, told, status)
        found, due = (f"{shown(out)!r}, {shown(err)!r}, {end}" for out, err, end in pair)
        return None if pair[0] == pair[1] else f"{self.name}: {found} in place of {due}"


class EndlessRun(Run):
    """A run whose input has no end: it has to end by itself, whatever it reports."""

    def fault(self, program: str, folder: str) -> Optional[str]:
        chunk, given, words = b"".join(self.lines), 0, self.words(program, folder)
        with subprocess.Popen(words, stdin=-1, stdout=-1, stderr=subprocess.DEVNULL, bufsize=0) as reader:
            assert reader.stdin and reader.stdout
            with contextlib.suppress(BrokenPipeError):
                while given < 2 * SCRIPT:
                    given += reader.stdin.write(chunk)
            reader.stdin.close()
            found = (reader.stdout.read(), reader.wait(), given < 2 * SCRIPT)
        return None if found == (b"", 2, True) else f"{self.name}: found {found}"


def fails(script: str, fault: str, files: Files = WORLD) -> Run:
    """A run whose first line is refused, or which ends early."""
    return Run(script, "", {1 if script else 0: fault}, files)


def base(count: int, prefix: str = "") -> List[str]:
    """A list of `count` entries: the base entries, a mask, and users by number."""
    named = (f"user:{FIRST + user}:r--" for user in range(count - 4))
    return [prefix + it for it in ["user::rwx", *named, "group::r--", "mask::r--", "other::---"]]


def lists_of_dumps() -> Iterator[Run]:
    for which, before, prefix in (("access", base(4)[:0], ""), ("default", base(4), "default:")):
        lists = (lines([*before, *base(count, prefix)]) for count in (ENTRIES, ENTRIES + 1))
        last, above = (record("a/", entries, "lisa", "staff") for entries in lists)
        out, fault = lines([*before, *base(ENTRIES, prefix), ""]), f"text line 1: {which} list: too many entries"
        yield Run("getfacl -c a\n", out, files={**PEOPLE, "dump": last})
        yield fails("", f"setup: dump: {fault}", {**PEOPLE, "dump": above})
        yield Run(f"load dump\n{last}.\ngetfacl -c a\n", out, files=PEOPLE)
        yield fails(f"load dump\n{above}.\n", f"load: {fault}", PEOPLE)
    lists = (record("f", lines(base(count)), "lisa", "staff") for count in (ENTRIES, ENTRIES + 1))
    last, above = (f"setfacl --restore=-\n{text}.\n" for text in lists)
    yield Run(last + "getfacl -c f\n", lines([*base(ENTRIES), ""]))
    yield Run(above + "chacl -l f\n", LISTED, {1: "setfacl: text line 1: access list: too many entries"})
    yield Run(last + "attr f\n", f"# file: f\nsystem.posix_acl_access=0x{attribute(ENTRIES, FIRST)}\n\n")


def lists_of_lines() -> Iterator[Run]:
    users, more_users = (",".join(f"{FIRST + user}:4" for user in range(count)) for count in (ENTRIES - 4, ENTRIES - 3))
    most, more = (f"u::7,g::4,m:4,o:0,{them}" for them in (users, more_users))
    out, grown = (lines([owner, *base(ENTRIES)[1:], ""]) for owner in ("user::rwx", "user::rw-"))
    access, default = (f"{which} list: too many entries" for which in ("access", "default"))
    yield Run(f"chacl {most} f\ngetfacl -c f\n", out)
    yield fails(f"chacl {more} f\n", f"chacl: {access}")
    yield Run(f"chacl -d {most} .\ngetfacl -c .\n", FOLDER + lines([*base(ENTRIES, "default:"), ""]))
    yield fails(f"chacl -d {more} .\n", f"chacl: {default}")
    yield fails(f"chacl -b u::7,g::4,o:0 {more} .\n", f"chacl: {default}")
    yield Run(f"setfacl --set {most} f\ngetfacl -c f\n", out)
    yield fails(f"setfacl --set {more} f\n", f"setfacl: f: {access}")
    yield Run(f"setfacl -m {users} f\ngetfacl -c f\n", grown)
    yield Run(f"setfacl -m {more_users} f\nchacl -l f\n", LISTED, {1: f"setfacl: f: {access}"})
    yield Run(f"setfacl -m {users} f\nsetfacl -m 9999:4 f\ngetfacl -c f\n", grown, {2: f"setfacl: f: {access}"})
    yield fails(f"setfacl -d -m {more_users} .\n", f"setfacl: .: {default}")


def entries_of_texts() -> Iterator[Run]:
    empty, fault = "\n \t\n# x\n", "setfacl: entry 16385: too many"
    for word, entry, out in (("-M", "o:r", READ), ("-X", "u:joe", LISTED)):
        line, most = f"setfacl {word} - f\n", f"{entry}\n" * TEXT_ENTRIES
        yield Run(f"{line}{most}.\nchacl -l f\n", out)
        yield Run(f"{line}{most}{entry}\n.\nchacl -l f\n", LISTED, {1: fault})
        yield Run(f"{line}{empty}{most}{empty}.\nchacl -l f\n", out)
        yield fails(f"{line}{empty}{most}{entry}\n.\n", "setfacl: entry 16388: too many")
        yield fails(f"{line}{most}u:joe:q:\n.\n", "setfacl: entry 16385: bad tag")
    line, more = "setfacl --set-file=- f\nu::rw\ng::r\no:r\n", "o:r\n" * (TEXT_ENTRIES - 3)
    yield Run(f"{line}{more}.\nchacl -l f\n", READ)
    yield fails(f"{line}{more}o:r\n.\n", fault)
    word, longer = (",".join(["o:"] * count) for count in (TEXT_ENTRIES, TEXT_ENTRIES + 1))
    yield Run(f"setfacl -m {word} f\nchacl -l f\n", LISTED)
    yield fails(f"setfacl -m {longer} f\n", fault)
    yield fails(f"chacl {word} f\n", "chacl: access list: too many entries")
    yield fails(f"chacl {longer} f\n", "chacl: entry 16385: too many")
    yield fails(f"chacl -b u::,g::,o: {longer} .\n", "chacl: default entry 16385: too many")


def files_of_the_tree() -> Iterator[Run]:
    names, full = [f"{k:x}" for k in range(FILES)], "too many files"
    more = "#file:.\n#owner:0\n#group:0\nu::7\ng::5\no:5\n"
    more += "".join(f"#file:{name}\n#owner:0\n#group:0\nu::6\ng::4\no:\n" for name in names)
    most, order = more[: more.rindex("#file:")], [".", *sorted(names[:-1])]
    files: Files = {**PEOPLE, "dump": most}
    yield Run("creat --user=lisa --mode=600 new\nchacl -l 0 ffffe\ncreat -d --user=lisa --mode=700 new\nrm ffffe\n"
              "creat --user=lisa --mode=600 new\nchacl -l new\ncreat --user=lisa --mode=600 newer\n",
              "0 [u::rw-,g::r--,o::---]\nffffe [u::rw-,g::r--,o::---]\nnew [u::rw-,g::---,o::---]\n",
              {number: f"creat: {full}" for number in (1, 3, 7)}, files)
    yield fails("", f"setup: dump: {full}", {**PEOPLE, "dump": more})
    allowed = lines([*order, ".\nlisa\njoe\nnone"])
    yield Run("may joe 0\nmay --reach joe r\nwho x .\ncan joe ffffe\n", allowed, files=files)
    sums = lines(f"{count} {user} ." for count in (len(order), 1) for user in ("lisa", "joe"))
    yield Run("below 0 .\nbelow --reach r ffffe .\n", sums, files=files)
    changed = "".join(f"{user} gains --x,-w-,-wx,r--,r-x,rw-,rwx ffffe\n" for user in ("lisa", "joe"))
    changed += "01 ff 1 lisa ffffe\n01 ff 1 joe ffffe\n# file: ffffe\nother::rwx\n\n"
    yield Run("changes\ngains\nchmod 777 ffffe\nchanges\ngains --reach\nwhy joe ffffe\n", changed, files=files)
    index = (f"{33 if path == '.' else '01'} {user} {path}" for path in order for user in ("lisa", "joe"))
    yield Run("index\n", lines(index), files=files)
    yield Run(f"load dump\n{most}.\nchacl -l ffffe\n", "ffffe [u::rw-,g::r--,o::---]\n", files=PEOPLE)
    faults = {1: f"load: {full}", more.count("\n") + 3: "getfacl: .: no such file"}
    yield Run(f"load dump\n{more}.\ngetfacl .\n", messages=faults, files=PEOPLE)


def rows_of_people() -> Iterator[Run]:
    users, groups = ("".join(form % (k, k) for k in range(ROWS)) for form in ("u%d:x:%d:50:::\n", "g%d:x:%d:\n"))
    fault = "text line 65537: "
    for which, rows, again, new in (("passwd", users, "u0:x:70000:50:::\n", "z:x:1:1:::\n"),
                                    ("group", groups, "g0:x:70000:\n", "z:x:1:\n")):
        yield Run("", files={which: rows})
        yield Run("", files={which: rows + again})
        yield fails("", f"setup: {which}: {fault}too many", {which: rows + new})
        yield fails("", f"setup: {which}: {fault}bad row", {which: rows + "z\n"})
        yield Run(f"load {which}\n{rows}{again}.\n", files={})
        yield fails(f"load {which}\n{rows}{new}.\n", f"load: {fault}too many", {})
    files: Files = {**PEOPLE, "passwd": users[: users.rindex("u")], "dump": DUMP.replace("lisa", "1")}
    yield Run("useradd -u 70000 -g staff one\nuseradd -u 70001 -g staff two\ncan 70001 f\ncan one f\nuserdel u7\n"
              "useradd -u 7 -g staff two\nuseradd -u 70002 -g staff three\ncan two f\n", "r--\nr--\n",
              {2: "useradd: too many users", 3: "can: 70001: no such user", 7: "useradd: too many users"}, files)
    names, last, files = [f"u{k}" for k in range(ROWS)], f"u{ROWS - 1}", {**files, "passwd": users}
    yield Run(f"who r f\nwho w f\nwho --reach 0 f\ncan {last} f\nmay {last} r\n",
              lines([*names, "u1", *names, "r--", ".", "f"]), files=files)
    others = [name for name in names if name != "u1"]
    lost = lines([*(f"{name} loses r-- f" for name in others), *(f"11 01 1 {name} f" for name in others)])
    yield Run(f"chmod 600 f\nchanges\ngains\nwhy {last} f\n", lost + "# file: f\ngroup::---\n\n", files=files)
    yield Run("below r f .\nbelow --reach w .\n", lines([*(f"2 {name} ." for name in names), "2 u1 ."]), files=files)
    # `r-x` grants the requests 0, 1, 4 and 5; `r--` 0 and 4.
    granted = itertools.product(((".", "33", "ff"), ("f", "11", "55")), names)
    index = (f"{own if name == 'u1' else usual} {name} {path}" for (path, usual, own), name in granted)
    yield Run("index\n", lines(index), files=files)


def lengths_of_lines() -> Iterator[Run]:
    for (line, out), end in itertools.product((("# x", ""), ("", ""), ("chacl -l f", LISTED)), ("\n", "")):
        yield Run(padded(line) + end, out)
        yield fails(padded(line, LINE + 1) + end, "facl: line too long")
    faults = {1: "facl: line too long", 3: "facl: unknown tool"}
    yield Run(padded("load dump", LINE + 1) + "\nchacl -l f\n.\n", LISTED, faults)
    line, comment, too_long = "setfacl -M - f\n", padded("#"), {1: "facl: text line too long"}
    yield Run(f"{line}{comment}\no:r\n.\nchacl -l f\n", READ)
    yield Run(f"{line}{comment} \no:r\n.\nchacl -l f\n", LISTED, too_long)
    yield Run(f"{line}{comment * 100}\n.\nchacl -l f\n", LISTED, too_long)
    yield fails(f"{line}{comment} ", "facl: text without end")
    yield fails(f"{line}. \n.\n", "setfacl: entry 1: permissions missing")


def lengths_of_scripts() -> Iterator[Run]:
    last, line, too_long = "chacl -l f\n", "setfacl -M - f\n", {0: "script too long"}
    whole = ("#" * 63 + "\n") * (SCRIPT // 64)
    script, text = whole[: SCRIPT - len(last) - 1] + "\n" + last, line + whole[: SCRIPT - len(line) - 3] + "\n.\n"
    assert len(script) == len(text) == SCRIPT
    yield Run(script, LISTED)
    yield Run(script[:-1] + " ", LISTED)
    yield Run(script + "\n", LISTED, too_long)
    yield Run("#" + script, messages=too_long)
    yield Run(text)
    yield fails(text[:-2], "facl: text without end")
    yield Run("\n" + text, messages=too_long)
    yield from map(EndlessRun, ("#\n" * LINE, "x" * LINE, "x" * LINE + "x\n"))


def lengths_of_files() -> Iterator[Run]:
    for name in WORLD:
        yield Run("", files={name: FILE})
        yield Run("frob\n", messages={0: f"FOLDER/{name}: cannot read"}, files={name: FILE + 1})


ABOVE = [ID + 1, ID + 2, ID + 2 + 1000, 2**64 - 1, 2**64, 2**64 + 1000, 10**40]


def ids(form: str, fault: str, out: str = "", files: Files = WORLD) -> Iterator[Run]:
    """A line with the greatest id, and with numbers above."""
    yield Run(form % ID, out, files=files)
    yield from (fails(form % number, fault.replace("%d", str(number)), files) for number in ABOVE)


def ids_of_texts() -> Iterator[Run]:
    for which, form in (("passwd", "z:x:%s:1:::\n"), ("passwd", "z:x:1:%s:::\n"), ("group", "z:x:%s:\n")):
        yield from (Run("", files={which: form % good}) for good in (ID, f"000{ID}"))
        yield from (fails("", f"setup: {which}: text line 1: bad row", {which: form % number}) for number in ABOVE)
    head = record("f", "user::rw-\nuser:%s:r--\ngroup::r--\ngroup:%s:r--\nmask::r--\nother::---\n", "%s", "%s")
    whole = head % ((ID,) * 4)
    yield Run("getfacl f\n", whole + "\n", files={**PEOPLE, "dump": whole})
    yield Run(f"setfacl --restore=-\n{whole}.\ngetfacl f\n", whole + "\n")
    faults = ("2: unknown user", "3: unknown group", "5: unknown user", "7: unknown group")
    for (at, fault), number in itertools.product(enumerate(faults), ABOVE):
        above = head % tuple(number if k == at else 7 for k in range(4))
        yield fails("", f"setup: dump: text line {fault}", {**PEOPLE, "dump": above})
        yield fails(f"setfacl --restore=-\n{above}.\n", f"setfacl: text line {fault}")


def ids_of_lines() -> Iterator[Run]:
    for form, fault in (
        ("setfacl -m u:%d:r f\n", "entry 1: unknown user"), ("setfacl -m g:%d:r f\n", "entry 1: unknown group"),
        ("setfacl -m %d:r f\n", "entry 1: unknown user"), ("setfacl -m d:user:%d:r .\n", "entry 1: unknown user"),
        ("setfacl -x u:%d f\n", "entry 1: unknown user"), ("setfacl -x g:%d: f\n", "entry 1: unknown group"),
        ("setfacl -x %d f\n", "entry 1: unknown user"), ("setfacl -M - f\nu:%d:r\n.\n", "entry 1: unknown user"),
        ("setfacl --set u::7,g::5,m:5,o:0,u:%d:r f\n", "entry 5: unknown user"),
        ("chacl -d u::7,g::5,m:5,o:0,%d:r .\n", "default entry 5: unknown user"),
        ("chacl u::7,g::5,m:5,o:0,g:%d:r f\n", "entry 5: unknown group"),
        ("setfacl -X - f\n\ng:%d\n.\n", "entry 2: unknown group"),
    ):
        yield from ids(form, f"{form.split()[0]}: {fault}")
    for at, value in ((2, "02000400%sffffff04000400ffffffff"), (3, "04000400ffffffff08000400%sffffff")):
        line = f"setattr system.posix_acl_access=0x0200000001000600ffffffff{value}10000400ffffffff20000000ffffffff f\n"
        yield Run(line % "fe")
        yield fails(line % "ff", f"setattr: attribute entry {at}: bad attribute")
    rows = {"passwd": f"most:x:{ID}:{ID}:::\n", "group": f"most:x:{ID}:\n", "dump": ""}
    files: Files = {name: f"{text}{rows[name]}" for name, text in WORLD.items()}
    for form, out, kind in (
        ("can %d f\n", "none\n", "user"), ("creat --user=%d --mode=600 n\n", "", "user"),
        ("gpasswd -a %d adm\n", "", "user"), ("gpasswd -a joe %d\n", "", "group"), ("usermod -g %d joe\n", "", "group"),
        ("usermod -g adm %d\n", "", "user"), ("useradd -u 5 -g %d new\n", "", "group"), ("userdel %d\n", "", "user"),
    ):
        yield from ids(form, f"{form.split()[0]}: %d: no such {kind}", out, files)
    yield fails(f"useradd -u {ID} -g staff new\n", f"useradd: {ID}: user id in use", files)
    yield Run(f"useradd -u {ID} -g staff new\ncan new f\n", "r--\n")
    yield from (fails(f"useradd -u {number} -g staff new\n", "useradd: usage") for number in ABOVE)


LIMITS = (lists_of_dumps, lists_of_lines, entries_of_texts, rows_of_people, lengths_of_lines, ids_of_texts,
          ids_of_lines, lengths_of_files, lengths_of_scripts, files_of_the_tree)


# Everything large.

MANY_PEOPLE, MANY_BYTES = 30_000, 10_000_000
DEEP, JUNK = "/".join(["c"] * 4_000), ("x" * 999 + "\n") * (MANY_BYTES // 1000)


def long_name(letter: str, k: int) -> str:
    """A name of 200 bytes with spaces and `#`, which are written as escapes."""
    return f"{letter}{k}{' #' * 20}".ljust(199 + len(letter), "x")


def user(k: int, letter: str = "u") -> str:
    return long_name(letter, k).replace(" ", "\\040").replace("#", "\\043")


def long_path(k: int) -> str:
    """A file's path: a hundred files in each directory, with names of 200 bytes."""
    return f"d{k // 100:03}{'-' * 196}/" + f"f{k}".ljust(200, ".")


def long_record(k: int, named: int) -> str:
    """A record whose list has `named` users, by number, and a group."""
    users = lines(f"user:{100_000 + 7 * k % 13 + it}:rw-" for it in range(named))
    entries = f"user::rw-\n{users}group::r--\ngroup:{user(k, 'g')}:r--\nmask::rw-\nother::---\n"
    return record(long_path(k), entries, "100001", "200001")


def large_dump(files: int) -> Iterator[str]:
    owner, defaults = ("100001", "200001"), lines(f"default:{entry}" for entry in FOLDER.split())
    yield record(".", FOLDER, *owner)
    for k in range(files):
        if k % 100 == 0:
            yield record(long_path(k).split("/")[0] + "/", FOLDER + defaults, *owner)
        yield long_record(k, 4_091 if k % 200 == 7 else 300 if k % 20 == 0 else 3)
    yield record(f"{DEEP}/", FOLDER, *owner) + "\n" + record(f"{DEEP}/f", PLAIN, *owner)


def restored(last: int) -> str:
    """The text of a restore of some 10 MB."""
    records = [long_record(k, 3) + "\n" for k in range(last - 100)]
    before = itertools.accumulate(map(len, records), initial=0)
    return "".join(record for record, size in zip(records, before) if size <= MANY_BYTES)


def edits(last: int) -> List[Unit]:
    """Each tool on many files and large lists; the last one is the number of the files."""
    some, known, paths = " ".join(long_path(k) for k in range(150)), user(19), [long_path(k) for k in range(6)]
    many, short = ",".join(f"{300_000 + k}:r" for k in range(3_000)), ",".join(f"{500_000 + k}:4" for k in range(4_092))
    word = ",".join(f"u:{100_000 + k}:{k % 8}" for k in range(4_092))
    keys = [f"u:{400_000 + k % 4_000}" for k in range(16_384)]
    return [
        "getfacl -R .", "chmod -R 750 .", f"setfacl -R -m u:{known}:rwX,d:g:{user(3, 'g')}:rx .",
        f"setfacl -R -x u:{user(2)},g:{user(5, 'g')} .", f"setfacl --test -R -k -m u:{known}:r .",
        f"chmod 640 {some}", f"getfacl -e {some}", f"setfacl --set u::rw,g::r,o:,m:rw,{word} {paths[1]}",
        f"setfacl --test -m {many} {paths[2]}", f"setfacl -M - {paths[3]}\n{lines(f'{key}:r' for key in keys)}.",
        f"setfacl -X - {paths[3]}\n{lines(keys)}.", f"chacl u::7,g::5,o:,m:7,{short} {paths[4]}", "chacl -r -l .",
        f"attr {paths[4]}", f"setattr system.posix_acl_access=0x{attribute(4_000)} {paths[5]}",
        f"setfacl --restore=-\n{restored(last)}.",
        (f"creat -d --user=0 --mode=750 {DEEP}/new", "creat: 0: no such user"),
        f"rm -r {long_path(last - 1).split('/')[0]}",
    ]


def faults_of_lines() -> List[Unit]:
    return [
        (padded("getfacl ", words="f") + "f", "facl: line too long"),
        (f"getfacl {'f' * 65_000}\xff", "facl: not UTF-8"),
        (padded("getfacl ", words="f ")[:-1] + "'", "facl: open quote"),
        (padded("frob", words=" a"), "facl: unknown tool"), (padded("frob", words="b"), "facl: unknown tool"),
        (f"frob -\n{JUNK}.", "facl: unknown tool"),
        (f"setfacl -M - f\n{JUNK}{'x' * LINE}x\n.", "facl: text line too long"),
        (f"getfacl{' f' * 32_000} -a -a", "getfacl: usage"), (f"getfacl --{'x' * 65_000} f", "getfacl: usage"),
        (f"setfacl -m u:1:r -m u:1:r{' f' * 30_000}", "setfacl: usage"), (f"can{' f' * 30_000}", "can: usage"),
        (f"useradd -u 1 -g 1 {'1' * 65_000}", "useradd: usage"),
    ]


def faults_of_entries() -> List[Unit]:
    """The fault of the last of 16,384 entries; of a text the file is not looked at."""
    modified, removed = (lines(f"u:{k}{perms}" for k in range(16_383)) for perms in (":r", ""))
    last = [
        ("-M", "q" * 60_000 + ":r:r:r", "bad tag"), ("-M", f"u:{user(7)}", "permissions missing"),
        ("-X", f"u:{user(7)}:r", "permissions not wanted"), ("-M", f"u:1:{'r' * 60_000}q", "bad permissions"),
        ("-M", f"u:{'q' * 60_000}:r", "unknown user"), ("-M", f"g:{'q' * 60_000}:r", "unknown group"),
        ("-X", "o", "base entry cannot be removed"),
    ]
    found: List[Unit] = [(f"setfacl {option} - f\n{modified if option == '-M' else removed}{entry}\n.",
                          f"setfacl: entry 16384: {fault}") for option, entry, fault in last]
    short, some = (",".join(f"{k}:4" for k in range(count)) for count in (6_000, 4_000))
    most = ",".join(f"{100_000 + k}:4" for k in range(4_093))
    return found + [
        (f"setfacl -M - f\n{modified}u:0:r\nu:1:r\n.", "setfacl: entry 16385: too many"),
        (f"setfacl -x u:5 -M - f\n{modified}.", "setfacl: entry 6: both removed and modified"),
        (f"chacl u::7,g::5,o:,m:7,{short} f", "chacl: access list: too many entries"),
        (f"chacl u::7,g::5,m:7,{most} f", "chacl: access list: other:: missing"),
        (f"chacl u::7,g::5,o:,{most} f", "chacl: access list: entry 4 needs a mask"),
        (f"chacl {some},3:4,u::7,g::5,o:,m: f", "chacl: access list: entry 4001 is repeated"),
        (f"setattr system.posix_acl_access=0x{attribute(4_000)}01 f", "setattr: attribute entry 4001: bad attribute"),
        (f"setattr system.posix_acl_access=0x{attribute(4_000)}x f", "setattr: attribute entry 0: bad attribute"),
    ]


def faults_of_restores(files: int) -> List[Unit]:
    """Texts of 10 MB whose last record is faulty, with the kind, and one whose first line is."""
    before, new, named = restored(files), "# file: new\n", [f"user:{k}:r--" for k in range(4_096)]
    last = [
        (f"{new}# owner: {'q' * 60_000}\n", 2, "unknown user"), (f"{new}# group: {'q' * 60_000}\n", 2, "unknown group"),
        (f"{new}# flags: {'q' * 60_000}\n", 2, "bad header"), ("# file: \n", 1, "bad header"),
        (f"# file: {'../' * 20_000}\n", 1, "bad path"), (f"# file: {long_path(0)}\n", 1, "file repeated"),
        (f"{new}u::7\ng::5\no::\nm::7\n{lines(named)}", 1, "access list: too many entries"),
        (f"{new}u::7\ng::5\n{lines(named[:4_000])}", 1, "access list: other:: missing"),
        (f"{new}user::7\nq\n", 3, "permissions missing"),
    ]
    found = [(before + text, f"text line {before.count(chr(10)) + line}: {fault}") for text, line, fault in last]
    found += [(f"{before}{new}user::7\ngroup::5\nother::5\n", "new: no such file"),
              (f"# owner: 5\n{before}", "text line 1: header missing")]
    return [(f"setfacl --restore=-\n{text}.", f"setfacl: {fault}") for text, fault in found]


def faults_of_commands() -> List[Unit]:
    nosuch, name, creat = f"{DEEP}/{'/'.join(['n'] * 4_000)}", "n" * 20_000, "creat --user=100001 --mode=640"
    some, most = " ".join(long_path(k) for k in range(100)), ",".join(f"{600_000 + k}:4" for k in range(4_094))
    return [
        (f"getfacl {nosuch}", f"getfacl: {nosuch}: no such file"),
        (f"getfacl {some} {name}", f"getfacl: {name}: no such file"),
        (f"chmod -R 750 . {nosuch}", f"chmod: {nosuch}: no such file"),
        (f"getfacl {'f ' * 30_000}..", "getfacl: operand 30001: bad path"),
        (f"{creat} {nosuch}/x/f", f"creat: {nosuch}/x: no such file"),
        (f"{creat} {DEEP}/f/g", f"creat: {DEEP}/f: not a directory"),
        (f"{creat} {DEEP}", f"creat: {DEEP}: exists"), (f"rm {some} {DEEP}", f"rm: {DEEP}: is a directory"),
        (f"can {name} f", f"can: {name}: no such user"),
        (f"gpasswd -a 100001 {name}", f"gpasswd: {name}: no such group"),
        (f"gpasswd -d {user(1)} {user(3, 'g')}", "gpasswd: not a member"),
        (f"setfacl -m d:u:{user(1)}:r {DEEP} {DEEP}/f", f"setfacl: {DEEP}/f: only directories have default lists"),
        (f"setfacl -R -m {most} .", "setfacl: .: access list: too many entries"),
        (f"setfacl -d -m {most} {DEEP}", f"setfacl: {DEEP}: default list: too many entries"),
        (f"setfacl -x m {some}", f"setfacl: {long_path(0)}: access list: entry 2 needs a mask"),
        (f"useradd -u 1 -g 200001 {user(1)}", f"useradd: {user(1)}: user exists"),
        ("useradd -u 100001 -g 200001 new", "useradd: 100001: user id in use"),
        (f"load dump\n{JUNK}.", "load: already loaded"), (f"load passwd\n{JUNK}.", "load: already loaded"),
    ]


def of_few_files(_: int) -> List[Expect]:
    people = [f"gpasswd -{how} {user(k)} {user(k + 1, 'g')}" for k in range(10) for how in "ad"]
    people += [f"usermod -g {user(k + 5, 'g')} {user(k)}" for k in range(10)]
    people += [f"useradd -u {k} -g {user(k, 'g')} {user(k, 'new')}" for k in range(5)]
    people += [f"userdel {user(7 * k + 100)}" for k in range(5)]
    questions = [f"who --reach r {long_path(k)}" for k in range(50)]
    questions += [f"{tool} --reach {user(k)} {long_path(k)}" for tool in ("can", "why") for k in range(50)]
    questions += [f"below {flag}r {long_path(k)}" for k in range(50) for flag in ("", "--reach ")]
    of_all = ["changes", "changes --reach", "gains", "gains --reach"]
    return [step("people", people), step("questions", [*questions, *of_all]),
            step("faults of commands", faults_of_commands())]


def of_loads(size: int) -> List[Expect]:
    passwd = "load passwd\n" + lines(f"{long_name('u', k)}:x:{k}:5:::" for k in range(size))
    group = "load group\n" + lines(f"{long_name('g', k)}:x:{k}:{long_name('u', k)}" for k in range(size))
    files, tail, bad = "load dump\n" + lines(large_dump(200)), "# file: last\n# owner: 5\n", f"{'x' * 60_000}\n."
    row, again = f"load: text line {size + 1}: bad row", (passwd + ".", "load: already loaded")
    last = [
        (tail, 0, "header missing"), (f"{tail}# group: 5\nu::7\n", 0, "access list: group:: missing"),
        (f"{tail}# group: 5\nu::7\ng::5\no:5\nd:u::7\n", 0, "default list: group:: missing"),
        (f"{tail}# group: {'q' * 60_000}\n", 2, "unknown group"), (f"# file: {long_path(0)}\n", 0, "file repeated"),
    ]
    number = files.count("\n")
    dumps: List[Unit] = [(f"{files}{text}.", f"load: text line {number + line}: {fault}") for text, line, fault in last]
    return [step("loads", [(passwd + bad, row), passwd + ".", again, (group + bad, row), group + "."]),
            step("dumps", [*dumps, f"load dump\n{lines(large_dump(20))}."])]


def large(users: int) -> Callable[[str, int], None]:
    """All groups, and `users` users."""
    return lambda folder, size: write_people(
        folder, users, MANY_PEOPLE, long_name, lambda k: (k % users, (7 * k + 1) % users))


LARGE = [
    Shape("few users", "all files and groups, and some users: every tool, faults, and every tool again", large_dump,
          lambda n: [step("tools", edits(n)), step("faults of entries", faults_of_entries()),
                     step("faults of commands", faults_of_commands()), step("tools again", edits(n - 100)),
                     step("after them", [f"may --reach {user(1)} r", "index", "changes", "changes --reach", "gains",
                                          "gains --reach"])],
          (20_000, 20_000), large(20), 1),
    Shape("long lines", "the same files: faults of lines, and of restores of 10 MB", large_dump,
          lambda n: [step("lines", faults_of_lines()), step("restores", faults_of_restores(n)[:3])],
          (20_000, 20_000), large(20), 1),
    Shape("restores", "the same files: the other faults of restores, of 5 MB, since a script has at most 67 MB",
          large_dump, lambda n: [step("restores", faults_of_restores(n // 3)[3:])], (20_000, 20_000), large(20), 1),
    Shape("few files", "all users and groups, and some files", large_dump, of_few_files,
          (200, 200), large(MANY_PEOPLE), 1),
    Shape("loads", "texts that are loaded by lines, and the faults of their last lines", None, of_loads,
          (MANY_PEOPLE, MANY_PEOPLE), lambda folder, n: None, 1),
]


# Shapes.

ROOT_LINES = ("chmod 700 .", "chmod 755 .")
REFUSED: List[Unit] = [
    ("frob a b", "facl: unknown tool"), ("getfacl nosuch", "getfacl: nosuch: no such file"),
    ("getfacl 'a", "facl: open quote"), ("chmod 9 .", "chmod: usage"),
    ("setfacl -m u:q:r,g::w .", "setfacl: entry 1: unknown user"),
    ("creat --user=u1 --mode=640 d00000/f00", "creat: d00000/f00: exists"), ("rm .", "rm: .: is a directory"),
    ("can nobody .", "can: nobody: no such user"),
]


def named(k: int) -> str:
    """A list that names a user and a group."""
    return f"user::rw-\nuser:u{k % 7}:rw-\ngroup::r--\ngroup:g{k % 9}:r-x\nmask::rwx\nother::---\n"


def below(records: Iterable[str], *owner: str) -> Iterator[str]:
    """The root, and records."""
    return itertools.chain([record(".", FOLDER, *owner)], records)


def tree_path(k: int) -> str:
    return f"d{k // 99:05}/f{k % 99:02}"


def tree(files: int) -> Iterator[str]:
    """The records of a tree: directories of 99 files each."""
    tops = ([record(f"d{k // 99:05}/", FOLDER)] * (k % 99 == 0) for k in range(files))
    return below(it for k, top in enumerate(tops) for it in (*top, record(tree_path(k), named(k))))


def each_of(count: int, entries: str = "") -> Iterator[str]:
    """`count` files below the root, perhaps with one list."""
    return below(record(f"f{k}", entries or named(k)) for k in range(count))


def masked(ids: Iterable[int], form: str = "u:%d:6") -> str:
    """A list with entries of these users or groups."""
    return "u::7\ng::5\nm::7\no::0\n" + lines(form % it for it in ids)


def some(files: int, count: int, path: Callable[[int], str] = tree_path) -> List[str]:
    """Paths from all over a tree."""
    return [path(k * 7919 % files) for k in range(count)]


def asked(paths: Sequence[str], users: int = 10, tables: bool = True) -> List[Expect]:
    """Questions of some files, and of all."""
    kinds = (("can", "u%d", users), ("who", "%d", 8), ("below", "%d", 8), ("why", "u%d", users))
    one = [f"{tool} {'--reach ' * (k % 2)}{form % (k % count)} {path}"
           for tool, form, count in kinds for k, path in enumerate(paths)]
    every = step("may, index", ["may u1 r", "may --reach u2 w", "may u3 0", "may --reach u1 x", "index"])
    changes = ["changes", "changes --reach", "gains", "gains --reach"] * 2
    return [step("can, who, below, why", one), *[every, step("changes, gains", changes)] * tables]


# All files listed and changed.
WALKED = [step("getfacl -R", ["getfacl -R ."]), step("chmod -R", ["chmod -R 750 ."])]


def reverse_text(files: int) -> str:
    return "setfacl --restore=-\n" + lines(f"# file: {tree_path(k)}\nu::7\ng::5\no::1" for k in reversed(range(files)))


def word(k: int, letters: Sequence[str] = string.ascii_lowercase, count: int = 3) -> str:
    """A number in these digits, the lowest first."""
    return "".join(letters[k // len(letters) ** at % len(letters)] for at in range(count))


escaped_path = partial(word, letters=("\\134", "\\012"), count=20)


def operand_lines(operands: Sequence[str], flag: str = "") -> List[Expect]:
    """Lines of each kind with these operands, perhaps with a flag."""
    tools = ("getfacl", "chmod 750", "chmod 640", "setfacl --test -m u:u1:7", *["why u1"] * (not flag))
    return [step(tool, [f"{tool} {flag} {' '.join(operands)}"] * 40) for tool in tools]


def of_one_directory(files: int) -> List[Expect]:
    paths = some(files, 1_000, "d/f{}".format)
    one = [f"setfacl -m u:u{k % 9}:7 {path}" for k, path in enumerate(paths[:30])]
    new = [line % path for path in paths[:30] for line in ("creat --user=u1 --mode=640 %s.new", "rm %s.new")]
    changes = [step("setfacl -m", one), step("creat, rm", new), step("chmod d", ["chmod 700 d"] * 2)]
    return [*WALKED, *asked(paths), *changes]


def of_escaped_names(files: int) -> List[Expect]:
    user, paths = word(1, ("\\040", "\\011"), 100), some(files, 1_000, escaped_path)
    return [*WALKED, step("can", [f"can {reach}{user} {path}" for path in paths for reach in ("", "--reach ")]),
            step("may, index", [f"may {user} r", "index"])]


def of_deep_path(deep: str) -> List[Expect]:
    return [
        step("getfacl, can, who, below", [f"{words} {deep}" for words in ("getfacl", "can --reach u2", "who --reach r",
                                                                          "below --reach r")] * 30),
        step("why --reach", [f"why --reach u2 {deep}"] * 30), step("chmod", [f"chmod 700 {deep}"]),
        step("creat, rm", [f"creat --user=u1 --mode=640 {deep}/f", f"rm {deep}/f"] * 10), step("chmod .", ROOT_LINES)]


def of_everybody(groups: int) -> List[Expect]:
    more = [line for k in range(10) for line in (f"useradd -u {k} -g g1 n{k}", f"userdel u{100 + k}")]
    return [step("chmod -R", [f"chmod -R 7{k}5 ." for k in range(8)]), *asked([f"f{k}" for k in range(50)]),
            step("gpasswd", [f"gpasswd -{how} u{k} g{groups // 2 + k}" for k in range(10) for how in "da"]),
            step("usermod", [f"usermod -g g{k} u{k}" for k in range(10)]), step("useradd, userdel", more)]


def repeated_rows(folder: str, rows: int) -> None:
    write(folder, "passwd", (f"u{k % 10}:x:{k}:{k}:::\n" for k in range(rows)))
    write(folder, "group", [*(f"g{k % 9}:x:{k}:u1\n" for k in range(rows)), "g9:x:9:" + "u2," * rows])


def of_lists(ids: Sequence[int]) -> List[Expect]:
    """Lines that set as many entries at each of 100 files."""
    word, keys = ",".join(f"{it}:5" for it in ids), lines(f"u:{it}" for it in ids)
    text = lines(f"u:{it}:{k % 8}" for k, it in enumerate(ids))
    edits = [f"setfacl {option} - f{k}\n{them}." for k in range(50) for option, them in (("-M", text), ("-X", keys))]
    return [step("setfacl --set", [f"setfacl --set u::7,g::5,o::0,m::7,{word} f{k}" for k in range(100)]),
            step("setfacl -M, -X", edits), *WALKED]


def of_operands(count: int) -> List[Expect]:
    """Different ones in no order."""
    paths = [word(k)[::-1] for k in range(count)]
    random.Random(1).shuffle(paths)
    return [*operand_lines(paths), step("rm", ["rm " + " ".join(paths)])]


def of_filled_lines(size: int) -> List[Expect]:
    slashes = padded("getfacl ", size - 1, "\\\\")
    fault = slashes.replace("getfacl", "getfacl:").replace("\\\\", "\\134") + ": no such file"
    return [step("quotes", [padded("getfacl ", size - 1, "''")] * 100),
            step("empty words", [padded("getfacl", size - 1, " ''")] * 100),
            step("blanks", [padded("getfacl", size - 1, " \t") + "."] * 100),
            step("backslashes", [(slashes, fault)] * 100)]


SHAPES = [
    Shape("reverse order", "a dump in reverse path order", lambda n: reversed([*tree(n)]),
          lambda n: [*WALKED, *asked(some(n, 1_000))]),
    Shape("reverse restore", "a restore of all files, its text in reverse path order", tree,
          lambda n: [step("setfacl --restore", [reverse_text(n) + "."])]),
    Shape("faulty restore", "such a restore with a fault in its last line", tree,
          lambda n: [step("setfacl --restore", [
              (reverse_text(n) + "# file:\n.", f"setfacl: text line {4 * n + 1}: bad header")])]),
    Shape("one directory", "one directory with all files; 30 lines that change one, 30 that make one and remove it",
          lambda n: below([record("d/", FOLDER), *(record(f"d/f{k}", named(k)) for k in range(n))]), of_one_directory),
    Shape("root changed", "the root's mode changed, and questions along paths after it; 4 times", tree,
          lambda n: [step("chmod ., --reach", [line for mode in ROOT_LINES * 2 for line in (
              mode, f"who --reach r {tree_path(n - 1)}", f"can --reach u2 {tree_path(n - 1)}", "may --reach u3 r")])]),
    Shape("all removed", "all directories removed by operands, some 50,000 bytes of them in a line", tree,
          lambda n: [step("rm -r", ["rm -r " + " ".join(f"d{k:05}" for k in range(at, max(at - 7_000, -1), -1))
                                    for at in range((n + 98) // 99 - 1, -1, -7_000)])]),
    Shape("escaped names", "names of users, groups and files that are escaped at every byte",
          lambda n: below((record(escaped_path(k), PLAIN, f"10000{k % 3}", f"20000{k % 3}") for k in range(n)),
                          "100000", "200000"), of_escaped_names,
          people=lambda folder, n: write_people(folder, 3, 3, lambda _, k: word(k, " \t", 100), lambda k: (k + 1,))),
    Shape("deep path", "one path of N names, nothing recorded above it but the root",
          lambda n: below([record("c/" * n, FOLDER)]), lambda n: of_deep_path("c/" * (n - 1) + "c"), (4_000, 32_000)),
    Shape("chain", "a chain of directories, each inside the last",
          lambda n: below(record("c/" * k, named(k - 1)) for k in range(1, n + 1)),
          lambda n: [*WALKED, *asked(["c/" * k for k in range(1, n + 1, max(1, n // 20))]), step("setfacl -m", [
              f"setfacl -m u:u{k}:7 {'c/' * min(n, 32_000)}" for k in range(10)]), step("chmod .", ROOT_LINES)],
          (2_000, 12_000), growth=2),
    Shape("in the way", "one path of N names, no directory of it recorded, and a file `!` beside each of them",
          lambda n: below([*(record("a/" * k + "!") for k in range(1, n)), record("a/" * (n - 1) + "a")]),
          lambda n: [step("chmod", [f"chmod {mode} {'a/' * (n - 1)}a" for mode in (600, 644) * 5]),
                     step("why --reach", [f"why --reach u2 {'a/' * (n - 1)}a"] * 10)], (2_000, 8_000), growth=2),
    Shape("everybody everywhere", "200 users, all of them in all groups; 10 lines of each kind that changes users",
          lambda n: below(record(f"f{k}", named(k), group=f"g{n - 1 - k}") for k in range(50)), of_everybody,
          (16_384, 65_536), lambda folder, n: write_people(folder, 200, n, members=lambda k: range(200))),
    Shape("repeated rows", "N rows, all but ten of them repeated, and a row that names one user as often",
          lambda n: tree(10), lambda n: [step("gpasswd", [
              "gpasswd -d u2 g9", "gpasswd -a u2 g9", "gpasswd -a u3 g9"]), *asked(["."] * 10)],
          (200_000, 4_000_000), repeated_rows),
    Shape("groups mentioned", "as many files, each of a group of its own; 20 lines that change one of them",
          lambda n: below(record(tree_path(k), named(k), group=f"g{k}") for k in range(n)),
          lambda n: [step("chmod", [f"chmod 777 {path}" for path in some(n, 20)]),
                     step("gpasswd", [f"gpasswd -a u{k + 2} g{k}" for k in range(5)]), *WALKED],
          (32_768, 65_536), lambda folder, n: write_people(folder, 10, n, members=lambda k: (k % 10,))),
    Shape("users removed", "50 of the users removed one by one, and as many added", lambda n: each_of(20),
          lambda n: [step("userdel", [f"userdel u{n // 2 + k}" for k in range(50)]), step("useradd", [
              f"useradd -u {k} -g g1 n{k}" for k in range(50)]), *asked([f"f{k}" for k in range(20)], n)[1:]],
          (32_768, 65_536), lambda folder, n: write_people(
              folder, n, 100, members=lambda k: (it % n for it in range(k, k + 2_000)))),
    Shape("longest lists", "lists of 4,095 entries on as many files",
          lambda n: each_of(n, masked(range(14_090, 9_999, -1))),
          lambda n: [step("setfacl -R -m", ["setfacl -R -m u:9:rX ."]), step("setfacl -R -x", ["setfacl -R -x u:9 ."]),
                     *WALKED, *asked([f"f{k}" for k in range(min(n, 500))])], (200, 4_000)),
    Shape("group lists", "lists of 1,000 named groups on as many files; 20 lines that change one of them",
          lambda n: each_of(n, masked(range(10_000, 11_000), "g:%d:5")),
          lambda n: [step("setfacl -m", [f"setfacl -m u:u{k % 9}:7 f{k}" for k in range(20)]),
                     step("gpasswd", [f"gpasswd -a u{k} g{k - 1}" for k in range(2, 8)]), *WALKED], (1_000, 10_000)),
    Shape("entries of a list", "lists of N entries in falling order, in dumps and lines",
          lambda n: each_of(100, masked(range(n + 9_995, 9_999, -1))),
          lambda n: of_lists([90_000 - k for k in range(n - 4)]), (4_096, 4_096)),
    Shape("same operands", "a line of N operands, all the same: a file, and a directory of 100 files with -R",
          lambda n: below([record("d1/", FOLDER), *(record(f"d1/f{k}") for k in range(100))]),
          lambda n: [*operand_lines(["."] * n), *operand_lines(["d1"] * n, "-R")], (10_000, 10_000)),
    Shape("nested operands", "a line of N operands with -R, each inside the last one",
          lambda n: below([record("d/", FOLDER), *(record("d/" + word(k)[::-1]) for k in range(n))]),
          lambda n: operand_lines([*("d/" + word(k)[::-1] for k in reversed(range(n))), "d"], "-R"), (8_000, 8_000)),
    Shape("different operands", "a line of N operands, in no order",
          lambda n: below(record(word(k)[::-1]) for k in range(n)), of_operands, (10_000, 10_000)),
    Shape("filled lines", "lines of N quotes, blanks and backslashes; 100 of each", lambda n: tree(10),
          of_filled_lines, (LINE, LINE)),
    Shape("refused lines", "N lines that are refused, each in one of eight ways", lambda n: tree(10),
          lambda n: [step("refused", REFUSED * (n // 8))], (200_000, 1_000_000)),
    Shape("empty and endless", "N bytes of empty lines, of one line, and of a text of one line",
          lambda n: tree(10), lambda n: [
              step("empty lines", ["\n" * (n - 1)]), step("one line", [("x" * n, "facl: line too long")]),
              step("a text line", [(f"setfacl -M - .\n{'x' * n}\n.", "facl: text line too long")])],
          (4_000_000, 20_000_000)),
    Shape("many questions", "N questions over 5,000 files", lambda n: tree(5_000),
          lambda n: asked(some(5_000, n // 2), tables=False)),
]


# Running.

done: Counter[str] = Counter()


def of_limits(given: argparse.Namespace, runs: Callable[[], Iterator[Run]]) -> List[str]:
    """Runs each alone, and prints how many there are; returns what differs."""
    started, found = time.perf_counter(), []
    for one in runs():
        with tempfile.TemporaryDirectory(prefix="facl-sizes.") as folder:
            found.append(one.fault(given.program, folder))
    done["runs at limits"] += len(found)
    print(f"{runs.__name__}: {len(found)} runs, {time.perf_counter() - started:.1f} s", flush=True)
    return [fault for fault in found if fault]


def least(given: argparse.Namespace, shape: Shape, size: int) -> Tuple[List[str], List[float], int]:
    """The steps with the least time of each, and the most memory in MB."""
    with tempfile.TemporaryDirectory(prefix="facl-sizes.") as folder:
        shape.people(folder, size)
        if shape.dump:
            write(folder, "dump", (f"{it}\n" for it in shape.dump(size)))
        steps = shape.steps(size)
        found = [timed(given.program, folder, steps) for _ in range(given.runs if shape.growth > 1 else 1)]
    spent = [[time for _, time, _ in times] for times, _ in found]
    names = ["load", *(it.name for it in steps)]
    return names, [min(each) for each in zip(*spent)], max(memory for _, memory in found) >> 20


def of_shape(given: argparse.Namespace, shape: Shape) -> List[str]:
    """Runs a shape at its sizes, twice where a step grows by too much, and prints a row; returns the steps that do."""
    if not done["shapes"]:
        print("| Shape | Sizes | Most memory | Steps, seconds at the one and the other (ratio) |\n|---|---|---|---|")
    done["shapes"] += 1
    sizes = sorted({shape.sizes[given.full] // shape.growth, shape.sizes[given.full]})
    best: List[List[float]] = [[] for _ in sizes]
    for _ in sizes:
        memory = []
        for at, size in enumerate(sizes):
            names, times, most = least(given, shape, size)
            best[at] = [min(pair) for pair in zip(times, best[at] or times)]
            memory.append(str(most))
        ratios = [after / before if after > max(0.05, before) else 0 for before, after in zip(best[0], best[-1])]
        if max(ratios) <= 6:
            break
    cells = [f"{name} {', '.join(f'{time:.3f}' for time in times)}" + f" ({ratio:.1f})" * (ratio > 0)
             for name, ratio, *times in zip(names, ratios, *best)]
    shown_sizes = ", ".join(f"{size:,}" for size in sizes)
    print(f"| {shape.about} | {shown_sizes} | {', '.join(memory)} MB | {'; '.join(cells)} |", flush=True)
    return [f"{name} {ratio:.1f} times as long" for name, ratio in zip(names, ratios) if ratio > 6]


def main() -> int:
    options = options_of(__doc__, runs=2)
    for name in ("limits", "large", "shapes", "full"):
        options.add_argument("--" + name, action="store_true")
    options.add_argument("words", nargs="*", metavar="WORD")
    given = options.parse_intermixed_args()
    every = not (given.limits or given.large or given.shapes)
    checks = [(it.__name__, partial(of_limits, given, it)) for it in LIMITS if every or given.limits]
    checks += [(it.name, partial(of_shape, given, it)) for it in LARGE if every or given.large]
    checks += [(it.name, partial(of_shape, given, it)) for it in SHAPES if every or given.shapes]
    checks = [(name, check) for name, check in checks if not given.words or any(it in name for it in given.words)]
    if not checks:
        raise Failed("no name has one of these words")
    faults: List[str] = []
    for name, check in checks:
        try:
            faults += [f"{name}: {fault}" for fault in check()]
        except Failed as fault:
            faults.append(f"{name}: {fault}")
    return conclude(given, ", ".join(f"{number} {what}" for what, number in done.items()), faults)
