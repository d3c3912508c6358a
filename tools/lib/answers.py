"""Answers of can, who, may, below, why, index, changes and gains by acl(5)'s check, from a listing of all files and the
users.

It is written from acl(5), getfacl(1), passwd(5) and group(5), and shares nothing with the program.
"""
from __future__ import annotations

import re
from random import Random
from typing import Callable, Dict, List, Optional, Sequence, Set, Tuple, TypeVar, Union

TEXTS = [b"---", b"--x", b"-w-", b"-wx", b"r--", b"r-x", b"rw-", b"rwx"]
EXECUTE = 1
Path = Tuple[bytes, ...]
Key = Tuple[bytes, Optional[int]]


def words_of(line: bytes) -> List[bytes]:
    """The words of a line whose quotes are closed."""
    return [word.replace(b"'", b"") for word in re.findall(rb"(?:[^ \t']|'[^']*')+", line)]


def decoded(word: bytes) -> bytes:
    return re.sub(rb"\\([0-3][0-7][0-7]|\\)", lambda it: b"\\" if it[1] == b"\\" else bytes([int(it[1], 8)]), word)


def shown_name(name: bytes) -> bytes:
    return b"".join(b"\\%03o" % byte if byte in b"\\\n\r \t:,#" else bytes([byte]) for byte in name)


def components(path: bytes) -> Path:
    return tuple(part for part in decoded(path).split(b"/") if part not in (b"", b"."))


class User:
    """A row of passwd(5)."""

    def __init__(self, name: bytes, uid: int, gid: int) -> None:
        self.name, self.uid, self.gid = name, uid, gid


class Group:
    """A row of group(5)."""

    def __init__(self, name: bytes, gid: int, names: List[bytes]) -> None:
        self.name, self.gid, self.names = name, gid, names


Thing = TypeVar("Thing", bound=Union[User, Group])


def rows_of(text: bytes) -> List[List[bytes]]:
    """The fields of the rows whose name comes for the first time."""
    seen: Dict[bytes, List[bytes]] = {}
    for line in text.splitlines():
        if line and not line.startswith(b"#"):
            fields = line.split(b":")
            seen.setdefault(fields[0], fields)
    return list(seen.values())


class People:
    """Users and groups, and what lines make of them."""

    def __init__(self, passwd: bytes, group: bytes) -> None:
        self.users = [User(it[0], int(it[2]), int(it[3])) for it in rows_of(passwd)]
        self.rows = [Group(it[0], int(it[2]), [name for name in it[3].split(b",") if name]) for it in rows_of(group)]

    @staticmethod
    def find(things: Sequence[Thing], word: bytes, number: Callable[[Thing], int]) -> Optional[Thing]:
        """The first of this name; digits alone are a number."""
        word = decoded(word.strip(b" \t"))
        if word.isdigit():
            return next((it for it in things if number(it) == int(word)), None)
        return next((it for it in things if it.name == word), None)

    def user(self, word: bytes) -> User:
        """A user who is there."""
        found = self.find(self.users, word, lambda it: it.uid)
        assert found, word
        return found

    def group(self, word: bytes) -> Group:
        """A group that is there."""
        found = self.find(self.rows, word, lambda it: it.gid)
        assert found, word
        return found

    def passwd_text(self) -> bytes:
        """The users as a text of passwd(5)."""
        return b"".join(b"%s:x:%d:%d:::\n" % (it.name, it.uid, it.gid) for it in self.users)

    def group_text(self) -> bytes:
        """The groups as a text of group(5)."""
        return b"".join(b"%s:x:%d:%s\n" % (it.name, it.gid, b",".join(it.names)) for it in self.rows)

    @staticmethod
    def shown(things: Sequence[Thing], number: Callable[[Thing], int], wanted: int) -> bytes:
        """An id as a listing prints it: by its first name that is not digits alone."""
        names = (it.name for it in things if number(it) == wanted and not it.name.isdigit())
        return next((shown_name(name) for name in names), b"%d" % wanted)

    def shown_user(self, uid: int) -> bytes:
        return self.shown(self.users, lambda it: it.uid, uid)

    def shown_group(self, gid: int) -> bytes:
        return self.shown(self.rows, lambda it: it.gid, gid)

    def groups_of(self, user: User) -> Set[int]:
        return {user.gid} | {row.gid for row in self.rows if user.name in row.names}

    def do(self, line: bytes) -> None:
        """What an accepted line of gpasswd, usermod, useradd or userdel does."""
        tool, *words = words_of(line)
        given: Dict[bytes, bytes] = {}
        operands: List[bytes] = []
        while words:
            word = words.pop(0)
            if word == b"--":
                operands, words = operands + words, []
            elif word[:1] == b"-":
                given[word[1:2]] = word[2:] or words.pop(0)
            else:
                operands.append(word)
        if tool == b"gpasswd":
            row = self.group(operands[0])
            name = self.user(given[b"a"] if b"a" in given else given[b"d"]).name
            row.names = [it for it in row.names if it != name] + [name] * (b"a" in given)
        elif tool == b"usermod":
            self.user(operands[0]).gid = self.group(given[b"g"]).gid
        elif tool == b"useradd":
            self.users.append(User(decoded(operands[0]), int(given[b"u"]), self.group(given[b"g"]).gid))
        elif tool == b"userdel":
            gone = self.user(operands[0])
            self.users.remove(gone)
            for row in self.rows:
                row.names = [it for it in row.names if it != gone.name]


class File:
    """A record of `getfacl -n`."""

    def __init__(self, record: bytes) -> None:
        self.entries: Dict[Key, int] = {}
        self.has_default = b"\ndefault:" in record
        for line in record.split(b"\n"):
            if line.startswith(b"# file: "):
                self.shown = line[8:]
            elif line.startswith(b"# owner: "):
                self.owner = int(line[9:])
            elif line.startswith(b"# group: "):
                self.group = int(line[9:])
            elif line and not line.startswith((b"#", b"default:")):
                tag, qualifier, perms = line.split(b"\t")[0].split(b":")
                self.entries[tag, int(qualifier) if qualifier else None] = TEXTS.index(perms)

    def deciding(self, uid: int, groups: Set[int]) -> List[Key]:
        """The keys of the entries that acl(5)'s check looks at: those of its first case that applies."""
        if uid == self.owner:
            return [(b"user", None)]
        if (b"user", uid) in self.entries:
            return [(b"user", uid)]
        keys = [key for key in self.entries if key[0] == b"group"]
        matching = [key for key in keys if (self.group if key[1] is None else key[1]) in groups]
        return matching or [(b"other", None)]

    def effective(self, key: Key) -> int:
        """The permissions of an entry under the mask, from which the owner and others are free."""
        free = key in [(b"user", None), (b"other", None)]
        return self.entries[key] & (7 if free else self.entries.get((b"mask", None), 7))

    def requests(self, uid: int, groups: Set[int]) -> Set[int]:
        """The requests that acl(5)'s check grants."""
        sets = [self.effective(key) for key in self.deciding(uid, groups)]
        return {request for request in range(8) if any(perms & request == request for perms in sets)}

    def why(self, people: People, uid: int, groups: Set[int]) -> bytes:
        """The record of the entries that decide on a user."""
        lines = [b"# file: " + self.shown]
        for key in self.deciding(uid, groups):
            tag, it = key
            name = b"" if it is None else people.shown_user(it) if tag == b"user" else people.shown_group(it)
            line = b"%s:%s:%s" % (tag, name, TEXTS[self.entries[key]])
            if self.effective(key) != self.entries[key]:
                line += b"\t" * max(1, 4 - len(line) // 8) + b"#effective:" + TEXTS[self.effective(key)]
            lines.append(line)
        return b"\n".join(lines) + b"\n\n"


class Table:
    """The requests of all users on all files."""

    def __init__(self, people: People, listing: bytes) -> None:
        self.people = people
        files = [File(record) for record in listing.split(b"\n\n") if record]
        self.files = {components(it.shown): it for it in files}
        self.order = sorted(self.files)
        # A name without a final slash is that of a directory where default entries or a file below show it, or at the root.
        self.directories = {path[:k] for path in self.files for k in range(len(path))} | {()} | {
            path for path, it in self.files.items() if it.has_default or it.shown.endswith(b"/")}
        self.granted: Dict[bytes, Dict[Path, Set[int]]] = {}
        for user in people.users:
            groups = people.groups_of(user)
            self.granted[user.name] = {path: it.requests(user.uid, groups) for path, it in self.files.items()}

    def is_granted(self, name: bytes, path: Path, request: int, reach: bool) -> bool:
        mine = self.granted[name]
        above = (path[:k] for k in range(len(path))) if reach else ()
        return request in mine[path] and all(EXECUTE in mine[it] for it in above if it in mine)

    def can(self, user: User, path: Path, reach: bool) -> bytes:
        texts = [TEXTS[request] for request in range(1, 8) if self.is_granted(user.name, path, request, reach)]
        return (b" ".join(texts) or b"none") + b"\n"

    def who(self, request: int, path: Path, reach: bool) -> bytes:
        users = [user for user in self.people.users if self.is_granted(user.name, path, request, reach)]
        return b"".join(shown_name(user.name) + b"\n" for user in users)

    def may(self, user: User, request: int, reach: bool) -> bytes:
        paths = [path for path in self.order if self.is_granted(user.name, path, request, reach)]
        return b"".join(self.files[path].shown + b"\n" for path in paths)

    def below(self, request: int, paths: List[Path], reach: bool, kind: bytes) -> bytes:
        """For each user the number of files at or below some on which a request is granted, and the first of them. Files are
        all, or those of one kind."""
        asked = [path for path in self.order if any(path[: len(top)] == top for top in paths)
                 and kind in (b"", b"--directories " if path in self.directories else b"--plain ")]
        lines = []
        for user in self.people.users:
            found = [path for path in asked if self.is_granted(user.name, path, request, reach)]
            if found:
                lines.append(b"%d %s %s\n" % (len(found), shown_name(user.name), self.files[found[0]].shown))
        return b"".join(lines)

    def listed(self, user: User, most: int, request: int, paths: List[Path], reach: bool, kind: bytes) -> bytes:
        """The first files of a user at or below some, all or those of one kind."""
        found = [path for path in self.order if any(path[: len(top)] == top for top in paths)
                 and kind in (b"", b"--directories " if path in self.directories else b"--plain ")
                 and self.is_granted(user.name, path, request, reach)]
        return b"".join(self.files[path].shown + b"\n" for path in found[:most])

    def folders(self, only: Optional[User], depth: int, request: int, paths: List[Path], reach: bool, kind: bytes) -> bytes:
        """For each path, and each folder at most so deep below it, what `below` counts of users there, with the folder."""
        lines = []
        for top in paths:
            for folder in self.order:
                is_folder = folder == top or (folder in self.directories and len(folder) <= len(top) + depth)
                if folder[: len(top)] == top and is_folder:
                    for line in self.below(request, [folder], reach, kind).splitlines():
                        count, user, _ = line.split(b" ", 2)
                        if only is None or user == shown_name(only.name):
                            lines.append(b"%s %s %s\n" % (count, user, self.files[folder].shown))
        return b"".join(lines)

    def why(self, user: User, paths: List[Path], reach: bool) -> bytes:
        asked = {path[:k] for path in paths for k in range(len(path))} | set(paths) if reach else set(paths)
        groups = self.people.groups_of(user)
        return b"".join(self.files[path].why(self.people, user.uid, groups) for path in self.order if path in asked)

    def index(self) -> bytes:
        lines = []
        for path in self.order:
            for user in self.people.users:
                byte = sum(1 << request for request in self.granted[user.name][path])
                lines.append(b"%02x %s %s\n" % (byte, shown_name(user.name), self.files[path].shown))
        return b"".join(lines)

    def requests(self, name: bytes, path: Path, reach: bool) -> Set[int]:
        """The requests of a user on a file; none where one of them is not there."""
        if name not in self.granted or path not in self.files:
            return set()
        return {request for request in range(1, 8) if self.is_granted(name, path, request, reach)}

    def changes(self, before: Table, reach: bool) -> bytes:
        """What differs from an earlier table."""
        names = [it.name for it in self.people.users]
        names += [name for name in before.granted if name not in self.granted]
        lines = []
        for path in sorted({*self.files, *before.files}):
            shown = (self.files.get(path) or before.files[path]).shown
            for name in names:
                had, has = before.requests(name, path, reach), self.requests(name, path, reach)
                for word, requests in (b"gains", has - had), (b"loses", had - has):
                    if requests:
                        texts = b",".join(TEXTS[request] for request in sorted(requests))
                        lines.append(b"%s %s %s %s\n" % (shown_name(name), word, texts, shown))
        return b"".join(lines)

    def side(self, name: bytes, path: Path, reach: bool) -> bytes:
        """All requests of a user on a file, as two digits."""
        if name not in self.granted or path not in self.files:
            return b"--"
        return b"%02x" % sum(1 << request for request in range(8) if self.is_granted(name, path, request, reach))

    def gains(self, before: Table, reach: bool) -> bytes:
        """How often each user has which change, and where first: one in `changes`, or a file that is new or gone."""
        names = [it.name for it in self.people.users]
        names += [name for name in before.granted if name not in self.granted]
        paths = sorted({*self.files, *before.files})
        lines = []
        for name in names:
            found: Dict[Tuple[bytes, bytes], List[Path]] = {}
            for path in paths:
                sides = before.side(name, path, reach), self.side(name, path, reach)
                is_kept = path in self.files and path in before.files
                differs = before.requests(name, path, reach) != self.requests(name, path, reach)
                if differs if is_kept else sides != (b"--", b"--"):
                    found.setdefault(sides, []).append(path)
            for sides in sorted(found):  # A hyphen is below each digit.
                its = found[sides]
                shown = (self.files.get(its[0]) or before.files[its[0]]).shown
                lines.append(b"%s %s %d %s %s\n" % (*sides, len(its), shown_name(name), shown))
        return b"".join(lines)

    def question(self, random: Random) -> Tuple[bytes, bytes]:
        """A random question with its answer."""
        reach = random.random() < 0.5
        option = b"--reach " if reach else b""
        user = random.choice(self.people.users)
        word = b"%d" % user.uid if user.name.isdigit() or random.random() < 0.2 else b"'" + shown_name(user.name) + b"'"
        user = self.people.user(word.strip(b"'"))
        path = random.choice(self.order)
        file = b"'" + self.files[path].shown + b"'"
        request = random.randrange(8)
        perms = random.choice([b"%d" % request, TEXTS[request].replace(b"-", b"") or b"''"])
        kind = random.choice(["can", "can", "who", "who", "may", "below", "why"])
        if kind == "can":
            return b"can %s%s %s" % (option, word, file), self.can(user, path, reach)
        if kind == "who":
            return b"who %s%s %s" % (option, perms, file), self.who(request, path, reach)
        if kind == "may":
            return b"may %s%s %s" % (option, word, perms), self.may(user, request, reach)
        paths = [path] + random.choices(self.order, k=random.randrange(3))
        if random.random() < 0.3:
            paths.append(random.choice(paths)[: random.randrange(1, 4)])  # Mostly one above or below another.
            paths = [it for it in paths if it in self.files]
        files = b" ".join(b"'" + self.files[it].shown + b"'" for it in paths)
        if kind == "below":
            only = random.choice([b"", b"--plain ", b"--directories "])
            if random.random() < 0.5:
                return b"below %s%s%s %s" % (option, only, perms, files), self.below(request, paths, reach, only)
            if random.random() < 0.5:
                depth, one = random.randrange(4), random.random() < 0.5
                of_user = b"--user=%s " % word if one else b""
                return (b"below --depth %d %s%s%s%s %s" % (depth, of_user, option, only, perms, files),
                        self.folders(user if one else None, depth, request, paths, reach, only))
            most = random.randrange(6)
            return (b"below --user %s %s--list=%d %s%s %s" % (word, option, most, only, perms, files),
                    self.listed(user, most, request, paths, reach, only))
        return b"why %s%s %s" % (option, word, files), self.why(user, paths, reach)
