"""Each rule of lists that Python states, beside the answers of both programs, and beside the kernel where these have no such
question. Those on lists as bytes are in test_live.py, and the lines that open a directory in test_no_gain.py."""
from __future__ import annotations

import os
import random
import stat
import unittest
from typing import Callable, Dict, Iterator, List, Tuple

from common import Case

from facl_commands.base.names import parent_of
from facl_commands.base.programs import ACL5, LINUX
from facl_commands.base.user_tools import User
from facl_commands.model import rules_of_lists as rules
from facl_commands.model.entries import entries_of, read_record
from facl_commands.model.records import body_of, path_of
from facl_commands.program.session import Session

USERS, GROUPS = range(1, 9), range(11, 16)
LETTERS = [b"---", b"--x", b"-w-", b"-wx", b"r--", b"r-x", b"rw-", b"rwx"]
PROGRAMS = (ACL5, LINUX)
Vectors = Dict[bytes, bytes]  # By path, in path order.


def list_text(chance: random.Random, head: bytes = b"") -> bytes:
    """A random list, of which every third has no name, and some an empty mask."""
    names = [(b"user", it) for it in USERS] + [(b"group", it) for it in GROUPS]
    entries = [b"user::", b"group::", b"other::"]
    entries += [b"%s:%d:" % it for it in chance.sample(names, chance.choice([0, 1, 4]))]
    entries += [b"mask::"] * (len(entries) > 3)
    return b"".join(head + it + chance.choice([*LETTERS, b"r-x", b"rwx"]) + b"\n" for it in entries)


def record_text(chance: random.Random, path: bytes, is_directory: bool) -> bytes:
    return b"# file: %s%s\n# owner: %d\n# group: %d\n%s\n" % (
        path or b".", b"/" * (is_directory and path != b""), chance.choice(USERS), chance.choice(GROUPS), list_text(chance))


def tree(chance: random.Random, count: int) -> List[Tuple[bytes, bool]]:
    """The root, and paths at random depths, each after the directory that it is in."""
    found = [(b"", True)]
    for number in range(count):
        above = chance.choice([path for path, is_directory in found if is_directory])
        found.append(((above + b"/" if above else b"") + b"f%d" % number, chance.random() < 0.6))
    return found


class ByTheProgram(Case):
    def setUp(self) -> None:
        super().setUp()
        self.chance = random.Random(19)
        os.mkdir(self.path("asked"))
        self.write("asked/passwd", b"".join(b"u%d:x:%d:%d::/:\n" % (it, it, self.chance.choice(GROUPS)) for it in USERS))
        self.write("asked/group", b"".join(
            b"g%d:x:%d:%s\n" % (it, it, b",".join(b"u%d" % user for user in self.chance.sample(USERS, 3))) for it in GROUPS))

    def sessions(self, dump: bytes) -> Iterator[Session]:
        """A session of each program over a dump."""
        self.write("asked/dump", dump)
        for program in PROGRAMS:
            with Session(program.find(), os.fsencode(self.path("asked"))) as session:
                yield session

    def vectors(self, session: Session) -> Vectors:
        found: Dict[bytes, List[int]] = {}
        for line in session.ask_accepted(b"index").lines():
            byte, _, name = line.split(b" ", 2)
            found.setdefault(path_of(name), []).append(int(byte, 16))
        return {path: bytes(row) for path, row in found.items()}

    def test_along_paths(self) -> None:
        files = tree(self.chance, 400)
        for session in self.sessions(b"".join(record_text(self.chance, *it) for it in sorted(files))):
            alone = self.vectors(session)
            within: Dict[bytes, bytes] = {}  # Who gets to what is in a directory.
            reached: Vectors = {}
            for path in alone:
                above = within[parent_of(path)] if path else b"\1" * len(USERS)
                within[path], reached[path] = rules.inside(above, alone[path]), rules.along_path(alone[path], above)
            self.assertEqual((len(alone), reached != alone), (401, True))
            for place, user in enumerate(USERS):
                for request in range(1, 8):
                    lines = session.ask_accepted(b"may --reach u%d %d" % (user, request)).lines()
                    self.assertEqual([path for path, row in reached.items() if row[place] >> request & 1], [*map(path_of, lines)])

    def test_search(self) -> None:
        """By the entries that `why` prints, beside `can`, of which the request x is one."""
        names = [b"d%03d" % number for number in range(300)]
        for session in self.sessions(b"".join(record_text(self.chance, name, True) for name in names)):
            seen = set()
            for place, user in enumerate(USERS):
                answer = session.ask_accepted(b"why u%d %s" % (user, b" ".join(names))).records()
                granted = [rules.grants_search(entries_of(record)) for record in answer]
                searched = [bool(rules.HAS_SEARCH[row[place]]) for row in self.vectors(session).values()]
                self.assertEqual(granted, searched)
                seen |= set(granted)
            self.assertEqual(seen, {False, True})

    def test_the_entry_that_grants(self) -> None:
        """It grants what it is to grant, and each permission that the user had, where the mask leaves all."""
        names = [b"f%03d" % number for number in range(200)]
        for session in self.sessions(b"".join(record_text(self.chance, name, False) for name in names)):
            before, wanted = self.vectors(session), {}
            for name in names:
                place, letters = self.chance.randrange(len(USERS)), self.chance.choice([b"r", b"w", b"x", b"rw"])
                user = User(b"u%d" % USERS[place], USERS[place], 0)
                why, listed = (session.ask_accepted(line + name).read() for line in (b"why %s " % user.name, b"getfacl -n -E "))
                entry = rules.entry_that_grants(read_record(body_of(listed)[:-1]), entries_of(why), user, letters)
                session.ask_accepted(b"setfacl -n -m %s%s %s" % (entry, b",m::rwx" * (entry[:3] != b"u::"), name))
                wanted[name] = place, sum(1 << b"xwr".index(letter) for letter in letters)
            after = self.vectors(session)
            for name, (place, request) in wanted.items():
                row = after[name][place]
                self.assertTrue(row >> request & 1, name)
                self.assertEqual([it for it in (1, 2, 4) if before[name][place] >> it & 1 and not row >> it & 1], [], name)

    def test_flags_and_default_lists_decide_on_nothing(self) -> None:
        """So files with one owner, group and access list are asked of once."""
        dump = b""
        for number in range(200):
            head, lists = record_text(self.chance, b"", True).split(b"user::", 1)
            body, flags = b"user::" + lists, b"# flags: %s\n" % self.chance.choice([b"s--", b"-st", b"--t"])
            dump += b"# file: a%03d\n" % number + head.split(b"\n", 1)[1] + body
            dump += b"# file: b%03d/\n" % number + head.split(b"\n", 1)[1] + flags + body[:-1] + list_text(self.chance, b"default:") + b"\n"
        for session in self.sessions(dump):
            rows = self.vectors(session)
            self.assertEqual([rows[b"a%03d" % it] for it in range(200)], [rows[b"b%03d" % it] for it in range(200)])


@unittest.skipUnless(os.geteuid() == 0, "it takes root")
class ByTheKernel(Case):
    def setUp(self) -> None:
        super().setUp()
        os.chmod(self.folder, 0o755)

    def may(self, uid: int, action: Callable[[], object]) -> bool:
        """Whether a user who is in no other group can do something."""
        child = os.fork()
        if child == 0:
            status = 2
            try:
                os.setgroups([])
                os.setresgid(uid, uid, uid)
                os.setresuid(uid, uid, uid)
                action()
                status = 0
            except PermissionError:
                status = 1
            finally:
                os._exit(status)
        status = os.waitstatus_to_exitcode(os.waitpid(child, 0)[1])
        self.assertIn(status, (0, 1))
        return status == 0

    def make(self, path: str, mode: int, owner: int) -> None:
        with open(path, "xb"):
            pass
        os.chown(path, owner, 0)
        os.chmod(path, mode)

    def test_what_changing_takes(self) -> None:
        for bits, letters in enumerate(LETTERS):
            folder, file = self.path("d%d" % bits), self.path("f%d" % bits)
            os.mkdir(folder)
            os.chmod(folder, bits)
            self.make(file, bits, 0)
            for is_directory, action in ((True, lambda: os.mkdir(folder + "/x")), (False, lambda: os.open(file, os.O_WRONLY))):
                self.assertEqual(self.may(70001, action), set(rules.writing(is_directory)) <= set(letters), (letters, is_directory))

    def test_who_removes(self) -> None:
        for number, (sticky, owner, folder_owner) in enumerate(
                (sticky, owner, above) for sticky in (0, stat.S_ISVTX) for owner in (0, 70001, 70002) for above in (0, 70001, 70002)):
            folder = self.path("s%d" % number)
            os.mkdir(folder)
            os.chown(folder, folder_owner, 0)
            os.chmod(folder, 0o777 | sticky)
            flags = stat.filemode(os.stat(folder).st_mode)[9].encode()
            self.assertEqual(rules.is_sticky(b"--" + flags), bool(sticky))
            for user in (70001, 70002, 70003):
                file = "%s/f%d" % (folder, user)
                self.make(file, 0o600, owner)
                role = rules.remover(user, owner, folder_owner, bool(sticky))
                self.assertEqual(self.may(user, lambda: os.unlink(file)), role is not None, (sticky, owner, folder_owner, user))
                self.assertEqual(role in (rules.OWNER_OF_FILE, rules.OWNER_OF_FOLDER), bool(sticky) and user in (owner, folder_owner))

    def test_flags_after_chown(self) -> None:
        for mode in (bits << 9 | permissions for bits in range(8) for permissions in (0o644, 0o754, 0o610, 0o670)):
            self.make(self.path("x"), 0, 0)
            os.chmod(self.path("x"), mode)
            os.chown(self.path("x"), 70001, 70002)
            now = stat.S_IMODE(os.stat(self.path("x")).st_mode)
            flags = [b"".join(letter if it & bit else b"-" for letter, bit in ((b"s", 0o4000), (b"s", 0o2000), (b"t", 0o1000)))
                     for it in (mode, now)]
            self.assertEqual(rules.flags_after_chown(flags[0], LETTERS[mode >> 3 & 7]), flags[1], oct(mode))
            os.unlink(self.path("x"))


if __name__ == "__main__":
    unittest.main()
