"""Random lines for the program and the same for the real tools, over the records of a listing (compare.py)."""
from __future__ import annotations

import random
import sys
from typing import Dict, List, Optional, Sequence, Tuple, TypeVar, Union

from .texts import dump_of

Word = Union[str, bytes]
Thing = TypeVar("Thing")

START = dump_of(
    ".|0|0||user::rwx group::r-x other::r-x",
    "a b|1|1||user::rw- group::r-- other::r--",
    "deep|1|2|-s-|user::rwx user:2:rwx user:30001:r-x group::r-x group:60:rwx mask::rwx other::--- "
    "default:user::rwx default:group::r-x default:group:60:rwx default:mask::r-x default:other::---",
    "deep/down|2|60||user::rwx group::rwx other::r-x",
    "deep/down/f|2|60||user::rw- user:1:rw- group::r-- mask::r-- other::---",
    "deep/down/g|30001|30002|ss-|user::rwx group::r-x mask::rwx other::--x",
    "deep/x,y:z|1|1||user::r-- group::--- other::---",
    "empty/|0|2|--t|user::rwx group::rwx other::rwx",
    "f|1|2||user::rw- user:2:rwx user:30001:-w- group::r-x group:2:rw- group:60:r-- mask::rw- other::---",
    "plain|2|1||user::rw- group::r-- other::---") + b"\n"
USERS = ["root", "daemon", "bin", "1", "2", "30001", "30002"]
GROUPS = ["root", "daemon", "bin", "60", "1", "30001", "30002"]
MAKERS = ["root", "daemon", "bin"]
TOOLS = ["getfacl", "setfacl", "chacl", "chmod", "creat", "rm", "attr", "setattr", "can"]
ASKERS = ["daemon", "bin", "games"]
# Asks the kernel, as a user, for each request on a file, however the directories above it may be searched.
ASK = """
import ctypes, os, pwd, sys
user = pwd.getpwnam(sys.argv[1])
file = os.open(sys.argv[2], os.O_PATH)
os.initgroups(user.pw_name, user.pw_gid)
os.setgid(user.pw_gid)
os.setuid(user.pw_uid)
ctypes.CDLL(None).prctl(4, 1, 0, 0, 0)
granted = [it for it in range(1, 8) if os.access(f"/proc/self/fd/{file}", it)]
print(" ".join("".join(c if it & b else "-" for c, b in zip("rwx", (4, 2, 1))) for it in granted) or "none")
"""
EMPTY_PERMS = "an empty permissions field: the real tools refuse it, for the program it is no permissions"


def components(path: bytes) -> List[bytes]:
    return [] if path == b"." else path.split(b"/")


class Records:
    """The records of a listing, by their paths."""

    def __init__(self, listing: bytes) -> None:
        self.of: Dict[bytes, Tuple[bytes, bool]] = {}
        for record in listing.split(b"\n\n"):
            if record:
                head = record.split(b"\n", 1)[0]
                path = head[len(b"# file: ") :]
                self.of[path.rstrip(b"/") or b"."] = (record, path.endswith(b"/"))

    def is_directory(self, path: bytes) -> bool:
        record, slash = self.of[path]
        return slash or path == b"." or b"\ndefault:" in record or len(self.below(path)) > 1

    def written(self, path: bytes) -> bytes:
        """A path as the program writes it."""
        return path + b"/" if path in self.of and self.of[path][1] else path

    def entries(self, path: bytes) -> List[bytes]:
        """Those of the access list."""
        lines = self.of[path][0].split(b"\n") if path in self.of else []
        return [it for it in lines if not it.startswith((b"#", b"default:"))]

    def has_mask(self, path: bytes) -> bool:
        return path in self.of and b"\nmask:" in self.of[path][0]

    def grants_nothing(self, path: bytes) -> bool:
        lines = self.of[path][0].split(b"\n")
        mode = [it for it in lines if it.startswith((b"user::", b"mask::", b"other::"))]
        if len(mode) < 3:
            mode += [it for it in lines if it.startswith(b"group::")]
        return all(it.split(b"\t")[0].endswith(b"---") for it in mode)

    def flags(self, path: bytes) -> int:
        flags = self.of[path][0].split(b"\n# flags: ")[1][:3]
        return sum(bit for bit, letter in zip((0o4000, 0o2000, 0o1000), flags) if letter != b"-"[0])

    def paths(self) -> List[bytes]:
        return sorted(self.of, key=components)

    def below(self, path: bytes) -> List[bytes]:
        """A file and those below it; none where it is not there."""
        start = b"" if path == b"." else path + b"/"
        return [other for other in self.paths() if path in self.of and (other == path or other.startswith(start))]


class Line:
    """A line for the program, and the same for the real tools."""

    def __init__(self, words: Sequence[Word], real: Sequence[Word], text: Optional[bytes] = None,
                 compared: bool = False, skip: Optional[str] = None) -> None:
        self.words = [word if isinstance(word, bytes) else word.encode() for word in words]
        self.real, self.text, self.compared, self.skip = real, text, compared, skip

    def written(self) -> bytes:
        quoted = (word if word and not set(word) & set(b" \t#'") else b"'" + word + b"'" for word in self.words)
        return b" ".join(quoted)


class Lines:
    """Random lines."""

    def __init__(self, seed: int, as_root: bool) -> None:
        self.random, self.as_root = random.Random(seed), as_root

    def maybe(self, chance: float) -> bool:
        return self.random.random() < chance

    def pick(self, *things: Thing) -> Thing:
        return self.random.choice(things)

    # Words.

    def perms(self, with_x: bool, digits: bool = True) -> str:
        if self.maybe(0.02):
            return self.pick("q", "8", "77", "rwxs")
        if digits and self.maybe(0.1):
            return str(self.random.randrange(8))
        letters = "".join(it for it in "rwx" if self.maybe(0.5))
        if self.maybe(0.3):
            letters = "".join(it if it in letters else "-" for it in "rwx")
        if with_x and self.maybe(0.1):
            letters = letters.replace("x", "") + "X"
        return letters or ("" if self.maybe(0.1) else "-")

    def key(self, bases: bool = True, bare: bool = True) -> str:
        kinds = ["u", "g", "m"] + (["u:", "g:", "o"] if bases else [])
        kind = self.random.choice(kinds)
        long = self.maybe(0.3)
        name = {"u": "user", "g": "group", "m": "mask", "o": "other"}[kind[0]] if long else kind[0]
        if kind == "u":
            who = "nosuchuser" if self.maybe(0.02) else self.random.choice(USERS)
            return who if bare and self.maybe(0.3) and not who.isdigit() else name + ":" + who
        if kind == "g":
            return name + ":" + ("nosuchgroup" if self.maybe(0.02) else self.random.choice(GROUPS))
        return name + ":"

    def entry(self, perms: bool = True, bases: bool = True) -> str:
        text = self.pick("d:", "default:") if self.maybe(0.2) else ""
        key = self.key(bases)
        if not perms:
            return text + (key.rstrip(":") if self.maybe(0.3) and key in ("m:", "mask:") else key)
        if key[-1] != ":" or key[0] in "ug":
            key += ":"
        return text + key + self.perms(True)

    def entries(self, perms: bool = True, bases: bool = True) -> List[str]:
        return [self.entry(perms, bases) for _ in range(self.random.randint(1, 4))]

    def whole_list(self, with_mask: float = 0.8, for_chacl: bool = False, faulty: float = 0.06) -> List[str]:
        """The entries of a list that is mostly valid, each key once."""
        found, meant = {"u:": 1, "g:": 1, "o:": 1}, set()
        for _ in range(self.pick(0, 0, 1, 2, 3)):
            key = self.key(bases=False, bare=not for_chacl)
            who = ("" if key[0] + key[-1] == "m:" else key.split(":")[-1], key[0] == "g" and ":" in key)
            who = ({"daemon": "1", "bin": "2", "root": "0"}.get(who[0], who[0]), who[1])
            if who not in meant:
                meant.add(who)
                found[key] = 1
        named = [it for it in found if it not in ("u:", "g:", "o:", "user:", "group:", "other:", "m:", "mask:")]
        if named and self.maybe(with_mask) and "mask:" not in found:
            found["m:"] = 1
        if "mask:" in found and "m:" in found:
            del found["mask:"]
        if self.maybe(faulty):
            del found[self.pick("u:", "g:", "o:")]
        keys = list(found)
        self.random.shuffle(keys)
        ends = ("" if key[-1] == ":" and key[0] in "mo" else ":" for key in keys)
        return [key + end + self.perms(False, digits=not for_chacl) for key, end in zip(keys, ends)]

    def paths(self, records: Records, most: int = 3, root: bool = True) -> List[bytes]:
        known = [it for it in records.paths() if root or it != b"."]
        found = [self.random.choice(known) for _ in range(self.random.randint(1, most))] if known else [b"nosuch"]
        return [b"nosuch" if self.maybe(0.02) else path for path in found]

    @staticmethod
    def meant(records: Records, paths: Sequence[bytes], recursive: bool) -> List[bytes]:
        """The files that operands mean, as the program takes them: each once, in path order."""
        found = {it for path in paths for it in (recursive and records.below(path)) or [path]}
        return [records.written(it) for it in sorted(found, key=components)]

    # Tools.

    def getfacl(self, records: Records) -> Line:
        recursive = self.maybe(0.4)
        paths = self.paths(records)
        flags = [self.pick("-a", "--access")] * self.maybe(0.3) + [self.pick("-c", "--omit-header")] * self.maybe(0.3)
        flags += [self.pick("-e", "--all-effective", "-E", "--no-effective")] * self.maybe(0.4)
        flags += [self.pick("-s", "--skip-base")] * self.maybe(0.3) + [self.pick("-n", "--numeric")] * self.maybe(0.5)
        meant = self.meant(records, paths, recursive)
        real: List[Word] = ["getfacl", *flags, "--", *meant]
        skip = None
        if {"-a", "--access"} & set(flags) and {"-s", "--skip-base"} & set(flags):
            files = [it for it in (path.rstrip(b"/") for path in meant) if it in records.of]
            if any(len(records.entries(it)) == 3 and b"\ndefault:" in records.of[it][0] for it in files):
                skip = "getfacl -a -s of a minimal access list with a default list"
        words = flags + [self.pick("-R", "--recursive")] * recursive
        self.random.shuffle(words)
        return Line(["getfacl", *words, *paths], real, compared=True, skip=skip)

    def chmod(self, records: Records) -> Line:
        digits = self.pick(1, 2, 3, 3, 3, 3, 4, 4)
        mode = "".join(str(self.random.randrange(8)) for _ in range(digits))
        recursive = ["-R"] * self.maybe(0.25)
        paths = self.paths(records)
        return Line(["chmod", *recursive, mode, *paths], ["chmod", *recursive, mode, "--", *paths])

    def creat(self, records: Records) -> Line:
        directories = [it for it in records.paths() if records.is_directory(it)]
        parent = self.random.choice(directories if self.maybe(0.95) else records.paths())
        name = b"new%d" % self.random.randrange(100) if self.maybe(0.95) else self.random.choice(records.paths())
        path = name if parent == b"." else parent + b"/" + name
        is_directory = self.maybe(0.4)
        mode = self.pick(0o777 if is_directory else 0o666, self.random.randrange(0o1000))
        umask = self.pick(None, 0, 0o22, 0o77, self.random.randrange(0o1000))
        maker = self.random.choice(MAKERS) if self.as_root else MAKERS[0]
        words = ["creat"] + ["-d"] * is_directory + ["--user=" + maker, "--mode=%03o" % mode]
        words += [] if umask is None else ["--umask=%o" % umask]
        make = "os.mkdir(path, mode)" if is_directory else "os.close(os.open(path, os.O_CREAT | os.O_EXCL, mode))"
        mask = 0o22 if umask is None else umask
        script = f"import os, sys; path, mode = sys.argv[1], {mode}; os.umask({mask}); {make}"
        real: List[Word] = [sys.executable, "-S", "-E", "-c", script, path]
        if self.as_root and maker != "root":
            may = "+dac_override,+fsetid"
            ids, capabilities = ["--reuid", maker, "--regid", maker], ["--inh-caps", may, "--ambient-caps", may]
            real = ["setpriv", *ids, "--clear-groups", *capabilities, "--", *real]
        return Line(words + [path], real)

    def rm(self, records: Records) -> Line:
        recursive = ["-r"] * self.maybe(0.3)
        paths = self.paths(records, most=2, root=False)
        if not recursive and self.maybe(0.8):
            plain = [it for it in records.paths() if not records.is_directory(it)]
            paths = [self.random.choice(plain)] if plain else paths
        skip = None
        if any(a != b and a.startswith(b + b"/") for a in paths for b in paths) or len(set(paths)) < len(paths):
            skip = "rm of a file that another operand removes already"
        return Line(["rm", *recursive, *paths], ["rm", *recursive, "--", *paths], skip=skip)

    def setfacl(self, records: Records) -> Line:
        kind = self.pick("modify", "modify", "modify", "modify", "set", "strip", "remove", "both", "text", "restore")
        return self.restore(records) if kind == "restore" else self.edit(records, kind)

    def edit(self, records: Records, kind: str) -> Line:
        flags = [self.pick("-d", "--default")] * self.maybe(0.1)
        flags += [self.pick("-n", "--no-mask", "--mask")] * self.maybe(0.25)
        recursive = self.maybe(0.25)
        flags += [self.pick("-R", "--recursive")] * recursive + ["--test"] * self.maybe(0.05)
        if kind == "strip" or (kind != "set" and self.maybe(0.1)):
            flags += self.random.choice([["-b"], ["-k"], ["-b", "-k"], ["--remove-all"], ["--remove-default"]])
        edits, text, removed, given = [], None, [], []
        if kind in ("remove", "both"):
            removed = self.entries(perms=False, bases=self.maybe(0.1))
            edits += self.option("-x", "--remove", ",".join(removed))
        if kind in ("modify", "both"):
            given = self.entries()
            edits += self.option("-m", "--modify", ",".join(given))
        if kind == "set":
            given = self.sets()
            edits += self.option(None, "--set", ",".join(given))
        if kind == "text":
            option, long, entries = self.pick(
                ("-M", "--modify-file", self.entries()),
                ("-X", "--remove-file", self.entries(perms=False, bases=self.maybe(0.1))),
                (None, "--set-file", self.sets()),
            )
            if long == "--set-file":
                flags = [it for it in flags if it not in ("-b", "-k", "--remove-all", "--remove-default")]
            removed, given = (entries, []) if option == "-X" else ([], entries)
            edits += self.option(option, long, "-")
            comments = "", "", " # a comment" if given else "", "\n# a line\n", "\n\n"
            text = "".join(it + self.pick(*comments) + "\n" for it in entries).encode()
        paths = self.paths(records)
        real: List[Word] = ["setfacl", *flags, *edits, "--", *self.meant_once(records, paths, recursive)]
        skip = self.edit_skip(flags, removed, given)
        touched = (it for path in paths for it in (records.below(path) if recursive else [path]))
        if any("X" in it.rsplit(":", 1)[-1] for it in given) and any(map(records.has_mask, touched)):
            skip = skip or "X at a file with a mask: the real tool counts what the mask has, the program does not"
        return Line(["setfacl", *flags, *edits, *paths], real, text, skip=skip)

    @staticmethod
    def meant_once(records: Records, paths: Sequence[bytes], recursive: bool) -> List[bytes]:
        """Operands without those that others mean too: the program treats a file once."""
        once = sorted(set(paths), key=components)
        also = {it for other in once for it in records.below(other)[1:] if recursive}
        return [it for it in once if it not in also]

    def sets(self) -> List[str]:
        entries = self.whole_list()
        return entries + (["d:" + it for it in self.whole_list()] if self.maybe(0.3) else [])

    def option(self, short: Optional[str], long: str, value: str) -> List[str]:
        if short is None or self.maybe(0.3):
            return self.random.choice([[long, value], [long + "=" + value]])
        return [short, value]

    @staticmethod
    def edit_skip(flags: List[str], removed: List[str], given: List[str]) -> Optional[str]:
        """Why a line is left out; None where it is not."""
        if any(it.endswith(":") for it in given):
            return EMPTY_PERMS
        if {"-d", "--default"} & set(flags) and any(it.startswith("d") for it in removed + given if it[:6] != "daemon"):
            return "setfacl -d beside default entries: the real tool refuses them, its manual and the program drop them"
        no_mask = any(it.split(":")[-2 if it[-1] == ":" else -1][:1] == "m" for it in removed)
        if no_mask and (given or {"-n", "--no-mask", "--mask"} & set(flags)):
            return "a mask removed beside -m, -n or --mask: the program refuses only where one was there and is needed"
        perms = [it.rsplit(":", 1)[-1] for it in given]
        if any("X" in it for it in perms) and (removed or len(given) > 1 or {"-b", "--remove-all"} & set(flags)):
            return "X beside other edits: the program looks at the file as it was before the line, the tool in between"
        return None

    def restore(self, records: Records) -> Line:
        """Some records of the tree, with other lists."""
        text = b""
        for path in sorted(set(self.paths(records)), key=components):
            if path == b"nosuch":
                text += b"# file: nosuch\nuser::rwx\ngroup::r-x\nother::---\n\n"
                continue
            text += b"# file: " + path + b"\n"
            if self.as_root and self.maybe(0.7):
                text += b"# owner: " + self.random.choice(USERS).encode() + b"\n"
            if self.as_root and self.maybe(0.7):
                text += b"# group: " + self.random.choice(GROUPS).encode() + b"\n"
            if self.maybe(0.5):
                text += b"# flags: " + self.pick(b"s--", b"-s-", b"--t", b"---", b"sst") + b"\n"
            entries = self.whole_list(with_mask=1)
            if records.is_directory(path) and self.maybe(0.6):
                entries += ["default:" + it for it in self.whole_list(with_mask=1, faulty=0)]
            own = [it for it in entries if it.startswith(("u::", "m", "o"))]
            if not any(set(it.split(":")[-1]) & set("rwx1234567") for it in own):
                entries = ["u::rw", "g::r", "o::r"]  # Of one that grants nothing the real tool may keep the old mode.
            text += "".join(it + "\n" for it in entries).encode() + b"\n"
        words = ["setfacl", "--restore=-"]
        return Line(words, words, text, skip=EMPTY_PERMS if b":\n" in text else None)

    def chacl(self, records: Records) -> Line:
        kind = self.pick("-l", "-l", "", "", "-d", "-b", "-R", "-D", "-B")
        recursive = ["-r"] * (kind == "" and self.maybe(0.2))
        paths = self.paths(records)
        lists = {"": 1, "-d": 1, "-b": 2}.get(kind, 0)
        words = [kind] * bool(kind) + recursive + [",".join(self.whole_list(for_chacl=True)) for _ in range(lists)]
        meant = self.meant(records, paths, bool(recursive))
        if kind == "-l":
            return Line(["chacl", *words, *paths], ["chacl", "-l", *meant], compared=True)
        skip = EMPTY_PERMS if any((word + ",").find(":,") >= 0 for word in words[len(words) - lists :]) else None
        if kind in ("-R", "-B") and any(map(records.has_mask, paths)):
            skip = "chacl -R and -B of a file with a mask: the tool leaves the group its entry, the program the mode"
        real: List[Word] = ["chacl", *words, *self.meant_once(records, paths, bool(recursive))]
        return Line(["chacl", *words, *paths], real, skip=skip)

    def attr(self, records: Records) -> Line:
        path = self.paths(records, most=1)[0]
        is_minimal = len(records.entries(path)) == 3
        skip = "attr of a minimal list, which the system keeps in the mode" if is_minimal else None
        real: List[Word] = ["getfattr", "-d", "-m", "^system.posix_acl_", "-e", "hex", "--", records.written(path)]
        return Line(["attr", path], real, compared=True, skip=skip)

    def can(self, records: Records) -> Line:
        user, path = self.random.choice(ASKERS), self.paths(records, most=1)[0]
        lines = records.of[path][0].split(b"\n") if path in records.of else []
        skip = None
        if b"mask::---" in lines and b"other::---" not in lines:
            skip = "can at a file whose mask is empty: Linux then looks at no named entry, and grants what others have"
        return Line(["can", user, path], [sys.executable, "-S", "-E", "-c", ASK, user, path], compared=True, skip=skip)

    def setattr(self, records: Records) -> Line:
        path = self.paths(records, most=1)[0]
        name = self.pick("system.posix_acl_access", "system.posix_acl_default")
        keys = sorted({(tag, self.pick(1, 2, 30001)) for tag in (2, 8) for _ in range(self.pick(0, 1, 2))})
        whole = sorted(keys + [(1, 2**32 - 1), (4, 2**32 - 1), (32, 2**32 - 1)] + [(16, 2**32 - 1)] * bool(keys))
        value = (2).to_bytes(4, "little")
        for tag, who in whole:
            perms = self.random.randrange(8)
            value += tag.to_bytes(2, "little") + perms.to_bytes(2, "little") + who.to_bytes(4, "little")
        if self.maybe(0.2):
            value = value[: self.random.randrange(5, len(value))]
        word = f"0x{value.hex()}"
        return Line(["setattr", f"{name}={word}", path], ["setfattr", "-n", name, "-v", word, "--", path])

    def line(self, records: Records, tools: List[str]) -> Line:
        tool = self.random.choices(tools, [{"setfacl": 6, "getfacl": 3}.get(it, 1.5) for it in tools])[0]
        made: Line = getattr(self, tool)(records)
        return made
