"""What the stand-in of test_gaps.py takes for the kernel's part is that of the kernel; needs root, and lists where tests are."""
from __future__ import annotations

import os
import stat
import tempfile
import traceback
import unittest
from typing import Callable, Dict, List, NamedTuple, Set

import gap_moves
from gap_moves import Call, step
from kernel_stand_in import (
    State, own_access, own_group, own_mode, remove_access, set_access, set_default, set_mode, set_owner, state_of,
)
from test_gaps import pairs_of_records
from test_live import Pairs

from facl_commands.apply import changing
from facl_commands.base import acl_bytes, live
from facl_commands.base.acl_bytes import Record

OWNER, MAIN, MORE, FOREIGN = 70001, 70001, 70004, 70002  # A user, its groups, and one that it is not in.
GROUPS = {MAIN, MORE}
NOT_OF_ROOT = 70009  # The group of a process that is to have no other than those that are set.


class Step(NamedTuple):
    """A call on a real file, and what the stand-in makes of its state."""

    run: Callable[[bytes], None]
    expected: State


def remove(name: bytes, attribute_name: bytes) -> None:
    os.removexattr(name, attribute_name)


def put_default(name: bytes, data: bytes) -> None:
    if data:
        os.setxattr(name, acl_bytes.DEFAULT, data)
    else:
        remove(name, acl_bytes.DEFAULT)


def look(name: bytes) -> State:
    status = os.lstat(name)
    record = live.record_of(status.st_mode, status.st_uid, status.st_gid, name)
    return state_of(record, stat.S_ISDIR(status.st_mode))


def put(name: bytes, state: State) -> None:
    """By root: makes a file a state."""
    os.chown(name, state.owner, state.group)
    os.setxattr(name, acl_bytes.ACCESS, state.access())
    if state.is_directory:
        put_default(name, state.default)
    os.chmod(name, state.mode)


def refused(name: bytes, group: int) -> None:
    """A group that the owner is not in."""
    try:
        os.chown(name, -1, group)
    except PermissionError:
        return
    raise AssertionError("a group of others is allowed")


def steps_of_root(state: State, mode: int, pairs: Pairs) -> Dict[str, Step]:
    data, default = pairs.list(), pairs.chance.choice((b"", pairs.list()))
    found = {
        "chmod": Step(lambda name: os.chmod(name, mode), set_mode(state, mode)),
        "chown": Step(lambda name: os.chown(name, 70003, 70003), set_owner(state, 70003, 70003)),
        "owner": Step(lambda name: os.chown(name, 70003, -1), set_owner(state, 70003, -1)),
        "group": Step(lambda name: os.chown(name, -1, 70003), set_owner(state, -1, 70003)),
        "list": Step(lambda name: os.setxattr(name, acl_bytes.ACCESS, data), set_access(state, data)),
        "no list": Step(lambda name: remove(name, acl_bytes.ACCESS), remove_access(state)),
    }
    if state.is_directory:
        found["default"] = Step(lambda name: put_default(name, default), set_default(state, default))
    return found


def steps_of_owner(state: State, mode: int, pairs: Pairs) -> Dict[str, Step]:
    data, default = pairs.list(), pairs.chance.choice((b"", pairs.list()))
    found = {
        "chmod": Step(lambda name: os.chmod(name, mode), own_mode(state, mode, GROUPS)),
        "main": Step(lambda name: os.chown(name, -1, MAIN), own_group(state, MAIN, GROUPS)),
        "more": Step(lambda name: os.chown(name, -1, MORE), own_group(state, MORE, GROUPS)),
        "same": Step(lambda name: os.chown(name, -1, state.group), own_group(state, state.group, GROUPS)),
        "foreign": Step(lambda name: refused(name, 70003), state),
        "list": Step(lambda name: os.setxattr(name, acl_bytes.ACCESS, data), own_access(state, data, GROUPS)),
        "no list": Step(lambda name: remove(name, acl_bytes.ACCESS), remove_access(state)),
    }
    if state.is_directory:
        found["default"] = Step(lambda name: put_default(name, default), set_default(state, default))
    return found


class Meddled(live.OpenFile):
    """A real file by its name. Before each call and look its owner does something; it is as the stand-in after each."""

    def __init__(self, name: bytes, case: gap_moves.Case, pairs: Pairs, differs: Callable[[State, State, str], None]) -> None:
        self.name, self.case, self.pairs, self.differs = name, case, pairs, differs
        self.state = state_of(case.now, case.is_directory)
        self.count = 0

    def meddle(self) -> None:
        chance, state = self.pairs.chance, self.state
        groups, mode, data = self.case.groups[state.owner], chance.randrange(0o10000), self.pairs.list()
        group = chance.choice(sorted({*groups, state.group}))
        steps: List[Step] = [
            Step(lambda name: None, state),
            Step(lambda name: os.chmod(name, mode), own_mode(state, mode, groups)),
            Step(lambda name: os.chmod(name, 0o2740), own_mode(state, 0o2740, groups)),
            Step(lambda name: os.chown(name, -1, group), own_group(state, group, groups)),
            Step(lambda name: os.setxattr(name, acl_bytes.ACCESS, data), own_access(state, data, groups)),
            Step(lambda name: remove(name, acl_bytes.ACCESS), remove_access(state)),
        ] + [Step(lambda name: put_default(name, data), set_default(state, data))] * self.case.is_directory
        it = chance.choice(steps)
        as_user(state.owner, groups, lambda: it.run(self.name))
        self.state = it.expected
        self.compare("of the owner")

    def compare(self, what: str) -> None:
        self.count += 1
        self.differs(look(self.name), self.state, what)

    def after(self, call: Call, run: Callable[[], None]) -> None:
        self.meddle()
        run()
        self.state = step(call, self.state)
        self.compare(call.name)

    def mode(self) -> int:
        self.meddle()
        return os.lstat(self.name).st_mode

    def record(self) -> Record:
        self.meddle()
        return look(self.name).record()

    def set_attribute(self, attribute_name: bytes, data: bytes) -> None:
        name = "access" if attribute_name == acl_bytes.ACCESS else "default"
        self.after(Call(name, (), data), lambda: os.setxattr(self.name, attribute_name, data))

    def set_default(self, data: bytes) -> None:
        self.after(Call("default", (), data), lambda: put_default(self.name, data))

    def set_owner(self, owner: int, group: int) -> None:
        self.after(Call("owner", (owner, group)), lambda: os.chown(self.name, owner, group))

    def set_mode(self, mode: int) -> None:
        self.after(Call("mode", (mode,)), lambda: os.chmod(self.name, mode))


def as_user(user: int, groups: Set[int], run: Callable[[], None]) -> None:
    """Only in a process of its own."""
    os.setgroups(sorted(groups))
    os.seteuid(user)
    try:
        run()
    finally:
        os.seteuid(0)


@unittest.skipUnless(os.geteuid() == 0, "needs root")
class Kernel(unittest.TestCase):
    def setUp(self) -> None:
        place = tempfile.TemporaryDirectory(prefix="facl-gaps.")
        self.addCleanup(place.cleanup)
        self.place = os.fsencode(place.name)
        os.chmod(self.place, 0o755)
        os.close(os.open(self.real("f"), os.O_CREAT | os.O_WRONLY))
        os.mkdir(self.real("d"))
        try:
            os.setxattr(self.real("f"), acl_bytes.ACCESS, Pairs(11).list())
        except OSError:
            self.skipTest("no lists here")

    def real(self, name: str) -> bytes:
        return os.path.join(self.place, name.encode())

    def in_a_process(self, run: Callable[[], None]) -> None:
        """In one of its own, whose groups and users are changed."""
        number = os.fork()
        if number == 0:
            status = 1
            try:
                os.setegid(NOT_OF_ROOT)
                run()
                status = 0
            except BaseException:
                traceback.print_exc()
            finally:
                os._exit(status)
        self.assertEqual(os.waitpid(number, 0)[1], 0)

    def compare(self, user: int, steps_of: Callable[[State, int, Pairs], Dict[str, Step]]) -> None:
        """From a state of each mode: chmod to each mode, once, and another call."""
        pairs = Pairs(11)
        counts: Dict[str, int] = {}
        for name in (self.real("f"), self.real("d")):
            is_directory = name == self.real("d")
            for mode in range(0o10000):
                default = pairs.chance.choice((b"", pairs.list())) if is_directory else b""
                record = Record(OWNER, pairs.chance.choice((MAIN, MORE, FOREIGN)), 0, pairs.list(), default)
                start = set_mode(state_of(record, is_directory), mode)
                steps = steps_of(start, mode * 1237 % 0o10000, pairs)
                for kind in ("chmod", pairs.chance.choice(sorted(steps))):
                    counts[kind] = counts.get(kind, 0) + 1
                    put(name, start)
                    as_user(user, {MORE}, lambda: steps[kind].run(name))
                    self.assertEqual(look(name), steps[kind].expected, (start, kind))
        self.assertGreater(min(counts.values()), 400, counts)

    def test_root(self) -> None:
        self.in_a_process(lambda: self.compare(0, steps_of_root))

    def test_an_owner(self) -> None:
        def run() -> None:
            os.setegid(MAIN)
            self.compare(OWNER, steps_of_owner)

        self.in_a_process(run)

    def test_runs_with_an_owner_who_meddles(self) -> None:
        def run() -> None:
            pairs, count = Pairs(17), 0
            for pair in pairs_of_records(300):
                case = pair.case
                if case.has_lists:
                    name = self.real("d" if case.is_directory else "f")
                    put(name, state_of(case.now, case.is_directory))
                    file = Meddled(name, case, pairs, lambda found, wanted, what: self.assertEqual(found, wanted, (case, what)))
                    changing.change(file, case.now, case.end, case.is_directory)
                    count += file.count
            self.assertGreater(count, 1000)

        self.in_a_process(run)


if __name__ == "__main__":
    unittest.main()
