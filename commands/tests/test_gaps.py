"""What the owner of a file gets who changes it between two calls of facl-apply: nothing that is not its own.

All that owners can make in all gaps is played (gaps.py), for pairs of records of each kind, there, back, and back or on after
a run that was cut off.
"""
from __future__ import annotations

import itertools
import unittest
from typing import Iterator, List, NamedTuple, Set, Tuple
from unittest import mock

import gap_moves
import gaps
from gap_moves import Call, Case, Change, step
from gaps import Judge, Play
from kernel_stand_in import State, access_of, own_access, own_group, own_mode, parts_of, remove_access, set_default, state_of
from test_live import GIDS, Pairs

from facl_commands.apply import changing
from facl_commands.base import acl_bytes, live
from facl_commands.base.acl_bytes import Record

PAIRS = 300
# What differs in a pair; x is a list that only gains execution.
KINDS = [
    ("access",), ("x",), ("owner",), ("group",), ("flags",), ("default",), ("owner", "group"), ("owner", "access"),
    ("group", "access"), ("group", "x"), ("flags", "x"), ("group", "flags"), ("owner", "group", "flags", "x"),
    ("owner", "group", "flags", "access", "default"),
]
WAYS = ["there", "back", "after a cut"]


class Pair(NamedTuple):
    kind: Tuple[str, ...]
    way: str
    case: Case


def with_x(data: bytes, has_x: bool) -> bytes:
    """A list whose entries, but for those of the owner and of others, have execution or have not."""
    entries = acl_bytes.entries_of(data)
    its = (*acl_bytes.GROUP_CLASS, acl_bytes.MASK)
    return acl_bytes.bytes_of({key: (it & 6 | has_x) if key[0] in its else it for key, it in entries.items()})


def other_part(pairs: Pairs, name: str, old: Record, is_directory: bool) -> Record:
    """A record in which this part alone is another one."""
    while True:
        new = old._replace(**{name: getattr(pairs.record(is_directory), name)})
        if new != old:
            return new


def two_records(pairs: Pairs, kind: Tuple[str, ...], is_directory: bool, has_lists: bool) -> Tuple[Record, Record]:
    old = pairs.record(is_directory)
    if not has_lists:
        old = old._replace(access=acl_bytes.minimal(pairs.chance.randrange(0o1000)), default=b"")
    if "x" in kind:
        old = old._replace(access=with_x(old.access, False))
    new = old
    for name in kind:
        if name == "x":
            new = new._replace(access=with_x(old.access, True))
        elif name == "access" and not has_lists:
            new = new._replace(access=acl_bytes.minimal(acl_bytes.permissions_of(old.access) ^ pairs.chance.randrange(1, 0o1000)))
        elif name != "default" or has_lists and is_directory:
            new = other_part(pairs, name, new, is_directory)
    return old, new


def pairs_of_records(count: int) -> Iterator[Pair]:
    """Each kind, of plain files and directories, in each way; one of 15 on a file system without lists."""
    pairs = Pairs(7)
    of_all = itertools.cycle(itertools.product(WAYS, (False, True), KINDS))
    for number, (way, is_directory, kind) in zip(range(count), of_all):
        has_lists = number % 15 != 14 or kind == ("default",)
        is_directory = is_directory or kind == ("default",)
        old, new = two_records(pairs, kind, is_directory, has_lists)
        groups = {user: set(pairs.chance.sample(GIDS, pairs.chance.randrange(3))) for user in gaps.USERS}
        for user in (old.owner, new.owner):
            if pairs.chance.random() < 0.6:
                groups[user] -= {old.group, new.group}
        case = Case(is_directory, has_lists, old, new, old, new, groups)
        if way == "back":
            case = case._replace(now=new, end=old)
        elif way == "after a cut":
            between = Played(case)
            between.play(changing.change)
            case = case._replace(now=pairs.chance.choice(between.states).record(), end=pairs.chance.choice((old, new)))
        yield Pair(kind, way, case)


class Played(live.OpenFile):
    """A file that is a state, without classes. Before the call or look number `at` the owner makes it `forced`."""

    def __init__(self, case: Case, at: int = -1, forced: Tuple[State, int] = (State(False, 0, 0, 0, None, b""), 0)) -> None:
        self.case, self.at, self.forced = case, at, forced
        self.state, self.marks = state_of(case.now, case.is_directory), 0
        self.states: List[State] = []  # Before each call and look, with the marks.
        self.marked: List[int] = []

    def play(self, change: Change) -> None:
        change(self, self.case.now, self.case.end, self.case.is_directory)

    def call(self, call: Call) -> None:
        if len(self.states) == self.at:
            self.state, self.marks = self.forced
        self.states.append(self.state)
        self.marked.append(self.marks)
        self.marks = gap_moves.marks_after(call, self.marks, self.case.has_lists)
        self.state = self.state if gap_moves.is_look(call) else step(call, self.state)

    def mode(self) -> int:
        self.call(Call("look at the mode"))
        return self.state.mode

    def record(self) -> Record:
        self.call(Call("look at the record"))
        return self.state.record()

    def set_attribute(self, attribute_name: bytes, data: bytes) -> None:
        gap_moves.refuse_without_lists(self.case)
        self.call(Call("access", (), data))

    def set_default(self, data: bytes) -> None:
        self.call(Call("default", (), data))

    def set_owner(self, owner: int, group: int) -> None:
        self.call(Call("owner", (owner, group)))

    def set_mode(self, mode: int) -> None:
        self.call(Call("mode", (mode,)))


def attacks(case: Case, state: State, pairs: Pairs) -> Iterator[Tuple[State, int]]:
    """All modes and groups, and lists with all permissions, with their marks."""
    groups = case.groups[state.owner]
    for mode in range(0o10000):
        yield own_mode(state, mode, groups), gap_moves.LISTED
    for group in {*groups, state.group}:
        yield own_group(state, group, groups), gap_moves.GROUPED if group != state.group else 0
    if not case.has_lists:
        return
    end, extended = parts_of(case.end.access)
    others = [extended, None, *(parts_of(pairs.list())[1] for _ in range(4))]
    for data in [access_of(each, pairs.chance.choice(others)) for each in range(0o1000)] + [access_of(end, it) for it in others]:
        yield own_access(state, data, groups), gap_moves.LISTED
    yield remove_access(state), gap_moves.LISTED
    for data in [b"", case.end.default, *(pairs.list() for _ in range(4))] if case.is_directory else []:
        yield set_default(state, data), 0


def play_each(case: Case, change: Change) -> Tuple[Set[str], Set[Tuple[State, int]]]:
    """The faults, and the states at the end by their classes, where the owner meddles once: each state is played alone."""
    pairs, judge, classes = Pairs(13), Judge(case), gap_moves.Classes(case)
    faults: Set[str] = set()
    ends: Set[Tuple[State, int]] = set()

    def play(at: int, forced: Tuple[State, int]) -> Played:
        file = Played(case, at, forced)
        file.play(change)
        for state, marks in zip(file.states[at:], file.marked[at:]):
            faults.add(judge.fault(state, marks))
        faults.update((judge.fault(file.state, file.marks), judge.fault_of_end(file.state, file.marks)))
        ends.add((classes.class_of(file.state, bool(file.marks & gap_moves.LISTED)), file.marks))
        return file

    calm = play(0, (state_of(case.now, case.is_directory), 0))
    for at, state in enumerate(calm.states):
        for forced, marks in {*attacks(case, state, pairs)}:
            play(at, (forced, calm.marked[at] | marks | judge.actor(state.owner)))
    return faults - {""}, ends


def former_move(file: live.OpenFile, now: Record, end: Record, _flags: int) -> Record:
    """With no look at what the last owner set, before the new list gives execution."""
    access = acl_bytes.common(now.access, end.access)
    if access != now.access:
        file.set_access(access)
    file.set_owner(end.owner, end.group)
    return now._replace(access=access)


FORMER = mock.patch.object(changing, "move", former_move)
ANOTHER, UNPROTECTED, NEITHER, LEFT = (
    "it runs as, or gives names to, another one", "names are not protected", "somebody has a right by neither record",
    "something of the last owner is left")


class Gaps(unittest.TestCase):
    def test_an_owner_who_meddles_gets_nothing(self) -> None:
        for pair in pairs_of_records(PAIRS):
            play = Play(pair.case)
            for fault, moment in play.faults.items():
                self.fail("%s\n%s\n%s" % (fault, pair, play.told(moment)))

    def test_the_pairs_are_of_each_kind(self) -> None:
        pairs = [*pairs_of_records(PAIRS)]
        self.assertEqual(len(pairs), PAIRS)
        wanted = {(kind, way, it or kind == ("default",)) for kind in KINDS for way in WAYS for it in (False, True)}
        self.assertEqual({(it.kind, it.way, it.case.is_directory) for it in pairs}, wanted)
        for pair in pairs:
            differing = {name for name in Record._fields if getattr(pair.case.old, name) != getattr(pair.case.new, name)}
            self.assertLessEqual(differing, {"access" if name == "x" else name for name in pair.kind})
            self.assertTrue(pair.case.now == pair.case.end or changing.is_between(pair.case.now, pair.case.old, pair.case.new))
        cases = [it.case for it in pairs]
        for count in (
            sum(bool(it.old.default and it.new.default) for it in cases), sum(not it.has_lists for it in cases),
            sum(it.now.owner != it.end.owner and it.end.group not in it.groups[it.now.owner] for it in cases),
            sum(it.end.group in it.groups[it.now.owner] for it in cases), sum(bool(it.old.flags & it.new.flags & 0o1000) for it in cases),
            sum(bool(it.new.flags & ~it.old.flags & 0o6000) for it in cases), sum(bool(it.old.flags & ~it.new.flags & 0o6000) for it in cases),
        ):
            self.assertGreaterEqual(count, 12)

    def test_classes_give_what_each_mode_alone_gives(self) -> None:
        cases = [it.case for it in pairs_of_records(PAIRS) if it.case.now != it.case.end]
        plain, folder = ([it for it in cases if it.is_directory == kind and it.has_lists and it.now.ids() != it.end.ids()
                          and it.now.access != it.end.access] for kind in (False, True))
        for case in (plain[0], folder[1], next(it for it in cases if not it.has_lists and not it.is_directory)):
            play = Play(case, left=1)
            self.assertEqual(play_each(case, changing.change), (set(play.faults), play.ends), case)

    def test_a_wrong_order_is_found(self) -> None:
        cases = [it.case for it in pairs_of_records(PAIRS)]
        with FORMER:
            played = (Play(it, left=1) for it in cases if not it.is_directory)
            play = next(it for it in played if ANOTHER in it.faults)
            self.assertEqual(play_each(play.case, changing.change), (set(play.faults), play.ends))
            self.assertTrue(any(it.is_directory and ANOTHER in Play(it).faults for it in cases))
        for name, instead, fault in (
            ("flags_meanwhile", lambda now, end, is_directory: now, ANOTHER),
            ("flags_meanwhile", lambda now, end, is_directory: now & ~0o7000, UNPROTECTED),
        ):
            with mock.patch.object(changing, name, instead):
                self.assertTrue(any(fault in Play(it).faults for it in cases), fault)
        with mock.patch.object(acl_bytes, "common", lambda one, other: other):
            self.assertTrue(any(NEITHER in Play(it).faults for it in cases))
        with mock.patch.object(changing, "move", lambda file, now, end, flags: file.set_owner(*end.ids()) or now):
            self.assertTrue(any(LEFT in Play(it).faults for it in cases))

    def test_more_of_a_look_than_classes_tell_is_refused(self) -> None:
        case = next(it.case for it in pairs_of_records(PAIRS) if it.case.now.ids() != it.case.end.ids())
        for change in (
            lambda file, now, end, is_directory: file.set_mode(file.mode() & 0o777),
            lambda file, now, end, is_directory: file.set_access(acl_bytes.common(file.record().access, end.access)),
        ):
            self.assertRaises(AssertionError, Play, case, change)


if __name__ == "__main__":
    unittest.main()
