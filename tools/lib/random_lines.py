"""Random lines over small trees, more than a third of them faulty, with the users and groups that they are about."""
from __future__ import annotations

import random
import re
from typing import Iterable, List, NamedTuple, Optional, Sequence, Tuple, TypeVar

from facl_commands.program import tools

PASSWD = b"""root:x:0:0:root:/root:/bin/sh
lisa:x:1001:50:Lisa:/home/lisa:/bin/sh
joe:x:1000:100:Joe:/home/joe:/bin/sh
ann:x:1002:100:Ann:/home/ann:/bin/sh
al b:x:1003:60:A name with a space:/:/bin/sh
7:x:1004:60:A name of digits alone:/:/bin/sh
two:x:1000:60:A second name of an id:/:/bin/sh
"""
GROUP = b"""root:x:0:
staff:x:50:
users:x:100:ann,ann
cool:x:60:lisa,nobody
adm:x:70:
a#b,c:x:71:joe
"""
ROOT = b"# file: .\n# owner: root\n# group: root\nuser::rwx\ngroup::r-x\nother::r-x\n\n"
USERS = ["lisa", "joe", "ann", "root", "'al b'", "al\\040b", "1000", "1004", "4294967294", "two"]
GROUPS = ["staff", "users", "cool", "adm", "50", "70", "a\\043b\\054c", "4294967294"]
NOBODY = ["nosuch", "7", "4294967295", "99999999999999999999", "''", "LISA", "\\400"]
FILES = ["", "/a", "/a/b", "/a/b/c", "/f", "/g", "/d", "/d/e", "/d/e/f", "/x y"]
TOOLS = [name.decode() for name in tools.TOOLS]
TEXT_WORDS = {word.decode() for word in tools.TEXT_WORDS}
LOADERS = {name.decode() for name in tools.LOADERS}
OF_PEOPLE = tools.CHANGES_OF_PEOPLE
# The names of each flag of each tool.
FLAGS = {tool.name.decode(): [[name.decode() for name in row.names] for row in tool.options if not row.value]
         for tool in tools.ROWS}
Thing = TypeVar("Thing")
Words = Tuple[List[str], List[str]]


class Unit(NamedTuple):
    """A line, with its text if it takes one."""

    line: bytes
    text: Optional[List[bytes]]


def script_of(units: Iterable[Unit]) -> bytes:
    """The units as a script."""
    lines: List[bytes] = []
    for unit in units:
        lines += [unit.line] + ([] if unit.text is None else unit.text + [b"."])
    return b"".join(line + b"\n" for line in lines)


def numbers_of(units: Iterable[Unit]) -> List[int]:
    """The number of the line that each unit begins with."""
    numbers: List[int] = []
    at = 1
    for unit in units:
        numbers.append(at)
        at += 1 if unit.text is None else len(unit.text) + 2
    return numbers


def is_of_tools(unit: Unit, tools: Sequence[bytes]) -> bool:
    """Whether the line's first word names one of these tools."""
    words = unit.line.split(maxsplit=1)
    return bool(words) and words[0] in tools


class Grammar:
    """Random lines over the tree of a folder."""

    def __init__(self, seed: str, served: List[str]) -> None:
        self.random = random.Random(seed)
        self.served = served

    def chance(self, part: float) -> bool:
        return self.random.random() < part

    def one(self, *things: Thing) -> Thing:
        return self.random.choice(things)

    def some(self, part: float, *things: Thing) -> List[Thing]:
        return [it for it in things if self.chance(part)]

    # Words.

    def user(self) -> str:
        return self.random.choice(NOBODY if self.chance(0.07) else USERS)

    def group(self) -> str:
        return self.random.choice(NOBODY if self.chance(0.07) else GROUPS)

    def perms(self) -> str:
        if self.chance(0.04):
            return self.one("8", "-1", "rwz", "R", "07", "r w", "77")
        return self.one("r", "rw", "rwx", "-", "", "x", "X", "rX", "7", "0", "r--", "-w-", "rrr", "5")

    def asked_perms(self) -> str:
        perms = self.perms()
        return perms if perms and " " not in perms else "''"

    def key(self) -> str:
        if self.chance(0.03):
            return self.one("z:", ":", "u:joe:r", "mask:x", "o:joe", "user", "d", "::::")
        return self.one(
            "u:" + self.user(), "g:" + self.group(), "user:" + self.user(), "group:" + self.group(),
            "m:", "mask:", "u:", "g:", "o:", self.user(), "m", "other:", " u : " + self.user() + " ",
        )  # fmt: skip

    def entry(self, perms: bool = True) -> str:
        key = self.key()
        default = self.one("d:", "default:", "d :") if self.chance(0.2) else ""
        if not perms and self.chance(0.97):
            return default + key
        return default + key + (":" if key[-1:] != ":" or key in ("u:", "g:") else "") + self.perms()

    def entries(self, perms: bool) -> List[str]:
        return [self.entry(perms) for _ in range(self.one(1, 1, 2, 3, 5))]

    def whole(self) -> List[str]:
        """A list that is mostly valid."""
        entries = ["u::" + self.one("rwx", "rw-", "7"), "g::" + self.one("r-x", "r", "0"), "o::" + self.one("---", "r")]
        named = self.some(0.3, "u:" + self.user() + ":rw", "g:" + self.group() + ":rx", "u:1002:r", "g:70:rwx")
        entries += named + ["m::" + self.one("rwx", "r", "0")] * (bool(named) and self.chance(0.9))
        if self.chance(0.07):
            entries.remove(self.random.choice(entries))
        if self.chance(0.03):
            entries.append(self.random.choice(entries or ["o::r"]))
        self.random.shuffle(entries)
        return entries

    def path(self, top: str) -> str:
        if self.chance(0.05):
            names = "nosuch", top + "/..", ".", "-", "''", top + "/a/b/c/d", top + "\\000", "./-", "/", top + "/\\057"
            return self.one(*names)
        path = top + self.random.choice(FILES)
        if self.chance(0.1):
            path = self.one("/" + path, "./" + path, path + "/", path.replace("/", "//", 1), path + "/.")
        return self.quoted(path)

    def paths(self, top: str) -> List[str]:
        return [self.path(top) for _ in range(self.one(1, 1, 1, 2, 3))]

    def quoted(self, word: str) -> str:
        return f"'{word}'" if (" " in word or "#" in word or self.chance(0.03)) and "'" not in word else word

    def joined(self, entries: List[str]) -> str:
        """Entries in one word: what is quoted inside loses its quotes."""
        return "'" + ",".join(entries).replace("'", "") + "'"

    def option(self, names: List[str], value: str) -> List[str]:
        name = self.random.choice(names)
        return self.one([name, value], [name + "=" + value], [name + value] if len(name) == 2 else [name, value])

    def flags(self, tool: str, part: float) -> List[str]:
        """Some flags of a tool."""
        return [self.random.choice(names) for names in FLAGS[tool] if self.chance(part)]

    # Tools: the words after the tool, and the text's lines.

    def getfacl(self, top: str) -> Words:
        return self.flags("getfacl", 0.2) + self.some(0.2, "-Rn") + self.paths(top), []

    def chmod(self, top: str) -> Words:
        is_bad = self.chance(0.05)
        mode = self.one("8", "00000", "-1", "''", "u+x", "") if is_bad else "%o" % self.random.randrange(0o10000)
        return self.flags("chmod", 0.3) + [mode] + self.paths(top), []

    def question(self, tool: str, *words: str) -> Words:
        """The words of a question, with some of its flags anywhere."""
        asked = list(words)
        for flag in self.flags(tool, 0.5):
            asked.insert(self.random.randrange(len(asked) + 1), flag)
        return asked, []

    def can(self, top: str) -> Words:
        return self.question("can", self.user(), self.path(top))

    def who(self, top: str) -> Words:
        return self.question("who", self.asked_perms(), self.path(top))

    def may(self, top: str) -> Words:
        return self.question("may", self.user(), self.asked_perms())

    def below(self, top: str) -> Words:
        paths = self.paths(top)
        if self.chance(0.4):  # One above another.
            paths.append(self.quoted(self.random.choice(paths).strip("'").rpartition("/")[0] or top))
        words = [self.asked_perms(), *paths]
        kind = self.one("", "", "--list", "--depth", "--depth")
        if kind:
            number = self.one("0", "1", "2", "5", "007", "x", "''") if self.chance(0.3) else "3"
            words = [*self.option([kind], number), *words]
        if self.chance({"": 0.05, "--list": 0.95}.get(kind, 0.5)):
            words = [*self.option(["--user"], self.user()), *words]
        return self.question("below", *words)

    def why(self, top: str) -> Words:
        return self.question("why", self.user(), *self.paths(top))

    def index(self, top: str) -> Words:
        return self.question("index")

    def changes(self, top: str) -> Words:
        return self.question("changes")

    def gains(self, top: str) -> Words:
        return self.question("gains")

    def attr(self, top: str) -> Words:
        return [self.path(top)], []

    def setattr(self, top: str) -> Words:
        name = self.one("system.posix_acl_access", "system.posix_acl_default", "system.posix_acl_access", "user.x")
        nobody = 2**32 - 1
        tags = [(1, nobody), *self.some(0.3, (2, 1000), (2, 1002)), (4, nobody), *self.some(0.3, (8, 60), (8, 70))]
        tags += [(16, nobody)] * (len(tags) > 2) + [(32, nobody)]
        if self.chance(0.1):
            self.random.shuffle(tags)
        value = (2).to_bytes(4, "little")
        for tag, who in tags:
            perms = self.random.randrange(9 if self.chance(0.1) else 8)
            value += tag.to_bytes(2, "little") + perms.to_bytes(2, "little") + who.to_bytes(4, "little")
        if self.chance(0.1):
            value = value[: self.random.randrange(len(value))]
        return [f"{name}={self.one('0x', '0x', '0X', '')}{value.hex()}", self.path(top)], []

    def creat(self, top: str) -> Words:
        words = self.flags("creat", 0.4) + self.option(["--user"], self.user())
        is_bad = self.chance(0.05)
        mode = self.one("1000", "9", "''") if is_bad else "%o" % self.random.randrange(0o1000)
        words += self.option(["--mode"], mode)
        words += self.option(["--umask"], "%o" % self.random.randrange(0o1000)) if self.chance(0.5) else []
        parent = self.path(top) if self.chance(0.2) else top + self.one("", "/a", "/d", "/a/b", "/n1")
        return words + [self.quoted(parent.strip("'") + "/" + self.one("n1", "n2", "x y", "n\\012", "f"))], []

    def rm(self, top: str) -> Words:
        paths = [it for it in self.paths(top) if it not in (".", "./-", "/") or self.chance(0.02)]
        return self.flags("rm", 0.3) + paths, []

    def gpasswd(self, top: str) -> Words:
        return [self.one("-a", "-d"), self.user(), self.group()], []

    def usermod(self, top: str) -> Words:
        return ["-g", self.group(), self.user()], []

    def useradd(self, top: str) -> Words:
        if self.chance(0.2):
            return ["-u", self.one("1000", "1001", "1002"), "-g", self.group(), self.one("lisa", "joe", "ann")], []
        name = self.one("lisa", "8", "a:b", "''") if self.chance(0.1) else "n%d" % self.random.randrange(40)
        is_bad = self.chance(0.1)
        number = self.one("1000", "-1", "4294967295") if is_bad else str(self.random.randrange(2000, 2040))
        return ["-u", number, "-g", self.group(), name], []

    def userdel(self, top: str) -> Words:
        # The users are those of all sessions of a run: some have to stay.
        return ["n%d" % self.random.randrange(40) if self.chance(0.9) else self.user()], []

    def load(self, top: str) -> Words:
        return [self.one("passwd", "group", "dump", "dumps")], self.one([], ["# file: a"], ["x:x:1:"], ["..", " ."])

    def chacl(self, top: str) -> Words:
        kind = self.one("", "", "-d", "-b", "-R", "-D", "-B", "-l", "-l")
        lists = [self.joined(self.whole()) for _ in range({"": 1, "-d": 1, "-b": 2}.get(kind, 0))]
        return [kind] * bool(kind) + self.some(0.2, "-r") + lists + self.paths(top), []

    def setfacl(self, top: str) -> Words:
        if self.chance(0.15):
            return self.restore(top)
        words = self.flags("setfacl", 0.15)
        text: List[str] = []
        kind = self.one("-m", "-m", "-x", "-mx", "--set", "-M", "-X", "--set-file", "none")
        if "x" in kind:
            words += self.option(["-x", "--remove"], self.joined(self.entries(False)))
        if "m" in kind:
            words += self.option(["-m", "--modify"], self.joined(self.entries(True)))
        if kind == "--set":
            access, default = self.whole(), ["d:" + it for it in self.whole()]
            words += self.option(["--set"], self.joined(access + default * self.chance(0.3)))
        if kind in ("-M", "-X", "--set-file"):
            words += self.one([kind, "-"], [kind + "-"] if len(kind) == 2 else [kind + "=-"], [kind + "=-"])
            text = self.whole() if kind == "--set-file" else self.entries(kind == "-M")
            text = [it.replace("'", "") + self.one("", " # why", "\t") for it in text]
            text += self.some(0.2, "", "# more", "  ")
        return words + self.paths(top), text

    def restore(self, top: str) -> Words:
        text: List[str] = []
        for path in self.paths(top):
            text += ["# file: " + path.replace("'", "")]
            head = "# owner: " + self.user(), "# group: " + self.group()
            text += self.some(0.5, *head, "# flags: " + self.one("s--", "-st", "---", "sst", "x--"))
            text += self.whole() + (["default:" + it for it in self.whole()] if self.chance(0.2) else [])
            text += self.some(0.7, "") + self.some(0.05, "# owner: joe", "junk")
        return self.some(0.2, "--test") + [self.one("--restore=-", "--restore -")], [it.replace("'", "") for it in text]

    # Lines.

    def unit(self, top: str) -> Unit:
        """A line with its text."""
        if self.chance(0.06):
            return Unit(self.broken(top), None)
        tool = self.random.choice(TOOLS if self.chance(0.1) else self.served)
        if tool == "load" and self.chance(0.8):
            tool = "getfacl"
        if tool in ("index", "may", "changes", "gains") and self.chance(0.9):
            tool = "can"  # Those look at each file of all sessions.
        words, text = getattr(self, tool)(top)
        words = [tool] + words
        if self.chance(0.1):
            words = self.with_fault(words, top)
        line = self.one(" ", " ", "  ", "\t").join(words) + (" #" if self.chance(0.04) else self.one("", "", "", " "))
        seen = [word.replace("'", "") for word in self.split(line)]
        takes = seen and (seen[0] in LOADERS or TEXT_WORDS & set(seen[1:]))
        text = [it.encode().replace(b"\n", b"") for it in text] if takes else None
        return Unit(line.encode(), [b" ." if it == b"." else it for it in text] if takes else None)

    @staticmethod
    def split(line: str) -> List[str]:
        """The words of a line whose quotes are closed, with their quotes."""
        return re.findall(r"(?:[^ \t']|'[^']*')+", line)

    def with_fault(self, words: List[str], top: str) -> List[str]:
        """Words with a fault."""
        at = self.random.randrange(1, len(words) + 1)
        kind = self.one("more", "less", "twice", "option", "end", "tool")
        if kind == "less":
            return words[:-1] or words
        if kind == "twice" and at < len(words):
            return words[:at] + [words[at]] + words[at:]
        if kind == "tool":
            return [self.one("frob", "Getfacl", "''", "getfacl's'", "--help")] + words[1:]
        path, option = self.path(top), self.one("--help", "-z", "-V", "--", "-", "-M-", "--restore=-", "-nM-")
        return words[:at] + [{"more": path, "option": option, "end": "--"}.get(kind, "''")] + words[at:]

    def broken(self, top: str) -> bytes:
        """A line that is at fault as a line, or does nothing."""
        if self.chance(0.004):
            return b"getfacl " + b"a" * self.one(65527, 65528, 65529)
        return self.one(b"", b" \t ", b"# a comment -", b"can 'joe " + top.encode(), b"getfacl \xff", b"getfacl \r",
                        b"'", b"getfacl \xff '", b"\0")

    def session(self, top: str) -> List[Unit]:
        return [self.unit(top) for _ in range(self.random.randint(4, 16))]

    def dump(self, top: str) -> bytes:
        text = []
        for path in FILES:
            if path and self.chance(0.15):
                continue
            is_directory = path in ("", "/a", "/a/b", "/d", "/d/e")
            text += [f"# file: {top}{path}" + ("/" if is_directory else "")]
            owner, group = self.one("lisa", "joe", "ann", "0", "77"), self.one("staff", "users", "60")
            text += ["# owner: " + owner, "# group: " + group]
            text += ["# flags: " + self.one("s--", "-s-", "--t", "sst", "---")] * self.chance(0.2)
            for front in ["", "default:"] if is_directory and self.chance(0.3) else [""]:
                named = self.some(0.3, "user:joe:rw-", "user:1002:r--", "group:adm:rwx")
                mask = ["mask::r-x"] * bool(named)
                text += [front + it for it in ["user::rwx", *named, "group::r-x", *mask, "other::--x"]]
            text += [""]
        return "\n".join(text).encode() + b"\n"
