"""What facl-apply does with a file, call by call, and what the owner of the file can do between two calls.

Few states differ in what follows: facl-apply compares a list with the new one alone, and asks for no more of a mode than its
flags (Compared and OnlyFlags see to it), so a mode or list that an owner set is known by its class (class_of).
"""
from __future__ import annotations

import errno
from functools import lru_cache
from typing import Any, Callable, Dict, Iterator, List, NamedTuple, Set, Tuple
from unittest import mock

from kernel_stand_in import (
    Extended, State, access_of, own_access, own_group, own_mode, parts_of, remove_access, set_access, set_default, set_mode,
    set_owner,
)

from facl_commands.base import acl_bytes, live
from facl_commands.base.acl_bytes import Record

Change = Callable[[live.OpenFile, Record, Record, bool], None]
Answer = Tuple[int, bool, bool]  # Of a look: flags, and whether the lists are the new ones.

# Marks of a moment: who meddled, the last owner or the new one; whether mode or list are an owner's; whether it gave the file
# another group; whether owner and group were set by the last call.
LAST, NEXT, LISTED, GROUPED, MOVED = 1, 2, 4, 8, 16


class Case(NamedTuple):
    """What is changed, and the groups of each user."""

    is_directory: bool
    has_lists: bool  # Its file system.
    old: Record  # What may be granted is by this one
    new: Record  # or by this one.
    now: Record  # The file gets from here
    end: Record  # to there: to one of the two.
    groups: Dict[int, Set[int]]


class Call(NamedTuple):
    """A call of facl-apply: mode, owner, access or default; or a look, at the mode or at the record."""

    name: str
    numbers: Tuple[int, ...] = ()
    data: bytes = b""


def is_look(call: Call) -> bool:
    return call.name.startswith("look")


def step(call: Call, state: State) -> State:
    """What a call of root makes of a file."""
    if call.name == "mode":
        return set_mode(state, *call.numbers)
    if call.name == "owner":
        return set_owner(state, *call.numbers)
    return set_access(state, call.data) if call.name == "access" else set_default(state, call.data)


def marks_after(call: Call, marks: int, has_lists: bool) -> int:
    if is_look(call):
        return marks
    if call.name == "owner":
        return marks & ~GROUPED | MOVED
    is_list = call.name == ("access" if has_lists else "mode")
    return marks & ~MOVED & ~(LISTED if is_list else 0)


def refuse_without_lists(case: Case) -> None:
    if not case.has_lists:
        raise OSError(errno.ENOTSUP, "no lists")


# --- what facl-apply does, by the answers to its looks


class Wanted(Exception):
    """It looks, and there is no answer yet."""


class OnlyFlags(int):
    """A mode of which nothing but flags may be asked."""

    def __and__(self, mask: int) -> int:
        if mask & ~live.FLAGS:
            raise AssertionError("permissions of a mode are asked for")
        return int(self) & mask


class Compared(bytes):
    """A list of which nothing may be asked but whether it is the new one."""

    new = b""
    is_new = False

    def __eq__(self, other: object) -> bool:
        if other != self.new:
            raise AssertionError("a list is compared with another one than the new one")
        return self.is_new

    def __ne__(self, other: object) -> bool:
        return not self == other

    def __getitem__(self, place: object) -> bytes:  # type: ignore[override]
        raise AssertionError("the entries of a list are asked for")

    __hash__ = bytes.__hash__


def compared(new: bytes, is_new: bool) -> Compared:
    found = Compared()
    found.new, found.is_new = new, is_new
    return found


class Script(live.OpenFile):
    """A file whose looks have these answers. It has the calls since the last one."""

    def __init__(self, case: Case, answers: Tuple[Answer, ...]) -> None:
        self.case = case
        self.answers = list(answers)
        self.calls: List[Call] = []

    def answer(self, name: str) -> Answer:
        if not self.answers:
            self.calls.append(Call(name))
            raise Wanted
        self.calls = []
        return self.answers.pop(0)

    def mode(self) -> int:
        return OnlyFlags(self.answer("look at the mode")[0])

    def record(self) -> Record:
        flags, is_access, is_default = self.answer("look at the record")
        end = self.case.end
        return Record(-1, -1, flags, compared(end.access, is_access), compared(end.default, is_default))

    def set_attribute(self, attribute_name: bytes, data: bytes) -> None:
        refuse_without_lists(self.case)
        self.calls.append(Call("access", (), data))

    def set_default(self, data: bytes) -> None:
        self.calls.append(Call("default", (), data))

    def set_owner(self, owner: int, group: int) -> None:
        self.calls.append(Call("owner", (owner, group)))

    def set_mode(self, mode: int) -> None:
        self.calls.append(Call("mode", (mode,)))


class Node(NamedTuple):
    """A call, and the nodes that follow, by the answer to a look; any other call has one, by NO_ANSWER."""

    call: Call
    following: Tuple[Tuple[Answer, int], ...]


NO_ANSWER: Answer = (0, False, False)
END = 0  # The node where all is done.
SAME = ("common", "permissions_of")  # Functions of lists alone.


class Program:
    """What follows each call of facl-apply; where the same follows, it is one node."""

    def __init__(self, case: Case, change: Change) -> None:
        self.case, self.change = case, change
        self.nodes: List[Node] = [Node(Call("end"), ())]
        self.numbers: Dict[Node, int] = {}
        both = (False, True)
        flags = range(0, 0o10000, 0o1000)
        self.modes = [(it, False, False) for it in flags]
        self.records = [(it, access, default) for it in flags for access in both for default in (both if case.is_directory else (True,))]
        # It runs once for each answer, with the same lists.
        cached: Dict[str, Any] = {name: lru_cache(maxsize=None)(getattr(acl_bytes, name)) for name in SAME}
        with mock.patch.multiple(acl_bytes, **cached):
            self.start = self.grow(())
        self.branches = [dict(node.following) for node in self.nodes]

    def grow(self, answers: Tuple[Answer, ...]) -> int:
        """The node after these answers."""
        script = Script(self.case, answers)
        number = END
        try:
            self.change(script, self.case.now, self.case.end, self.case.is_directory)
        except Wanted:
            look = script.calls.pop()
            its = self.modes if look.name == "look at the mode" else self.records
            number = self.number(Node(look, tuple((answer, self.grow((*answers, answer))) for answer in its)))
        for call in reversed(script.calls):
            number = self.number(Node(call, ((NO_ANSWER, number),)))
        return number

    def number(self, node: Node) -> int:
        if node not in self.numbers:
            self.numbers[node] = len(self.nodes)
            self.nodes.append(node)
        return self.numbers[node]

    def answer(self, call: Call, state: State) -> Answer:
        flags, end = state.mode & 0o7000, self.case.end
        if not is_look(call):
            return NO_ANSWER
        if call.name == "look at the mode":
            return flags, False, False
        return flags, state.access() == end.access, state.default == end.default


# --- classes of what an owner may set


@lru_cache(maxsize=None)
def permissions_by_class(end: int, is_directory: bool) -> List[int]:
    """For all 512 permissions those that stand for their class: it is that of the new mode, or is known by execution, by
    anybody and by the group, which a directory need not have."""
    found: Dict[Tuple[bool, bool], int] = {}
    row = []
    for each in range(0o1000):
        key = (False, False) if is_directory else (bool(each & 0o111), bool(each & 0o010))
        row.append(each if each == end else found.setdefault(key, each))
    return row


class Classes:
    """The states that stand for others from which the same follows."""

    def __init__(self, case: Case) -> None:
        end = case.end
        permissions, self.end_extended = parts_of(end.access)
        self.end_default = end.default
        self.permissions = permissions_by_class(permissions, case.is_directory)
        entries = ((acl_bytes.USER, 99), 7), ((acl_bytes.GROUP_OBJ, acl_bytes.NO_ID), 7)
        self.other_extended: Extended = tuple(entries) if self.end_extended is None and case.has_lists else None
        self.other_default = acl_bytes.minimal(0o751) if end.default != acl_bytes.minimal(0o751) else b""

    def class_of(self, state: State, is_listed: bool) -> State:
        """With a mode or list of an owner's, or with those that facl-apply has set, which stay as they are."""
        default = state.default if state.default == self.end_default else self.other_default
        if not is_listed:
            return state._replace(default=default)
        extended = state.extended if state.extended == self.end_extended else self.other_extended
        mode = state.mode & 0o7000 | self.permissions[state.mode & 0o777]
        return state._replace(mode=mode, extended=extended, default=default)


class Move(NamedTuple):
    """What an owner makes of a file by one call: all states of one kind, with the marks that they get."""

    kind: str
    marks: int
    states: Tuple[State, ...]


class Moves:
    """All that the owner of a file can make of it by one call."""

    def __init__(self, case: Case, classes: Classes) -> None:
        self.case, self.classes = case, classes
        self.kept = [*dict.fromkeys(classes.permissions)]
        its = [*dict.fromkeys((classes.end_extended, classes.other_extended))]
        self.lists = [access_of(each, extended) for each in self.kept for extended in its]
        self.known: Dict[Tuple[str, State], Move] = {}

    def listed(self, kind: str, state: State, steps: Callable[[State], Iterator[State]]) -> Move:
        """By calls that set mode or list, of a state that stands for those from which they make the same."""
        if (kind, state) not in self.known:
            made = (self.classes.class_of(each, True) for each in steps(state))
            self.known[kind, state] = Move(kind, LISTED, tuple(dict.fromkeys(made)))
        return self.known[kind, state]

    def keeps(self, move: Move) -> bool:
        return move.marks == LISTED and len(move.states) > 1

    def chmods(self, state: State) -> Iterator[State]:
        groups = self.case.groups[state.owner]
        return (own_mode(state, flags | each, groups) for flags in range(0, 0o10000, 0o1000) for each in self.kept)

    def set_lists(self, state: State) -> Iterator[State]:
        groups = self.case.groups[state.owner]
        return (own_access(state, data, groups) for data in self.lists)

    def of(self, state: State, is_listed: bool) -> Iterator[Move]:
        groups, class_of = self.case.groups[state.owner], self.classes.class_of
        its = class_of(state, True)
        yield self.listed("chmod", its._replace(mode=0), self.chmods)
        for group in sorted({*groups, state.group}):
            found = class_of(own_group(state, group, groups), is_listed)
            yield Move("chgrp", GROUPED if group != state.group else 0, (found,))
        if self.case.has_lists:
            yield self.listed("list", its._replace(mode=its.mode & 0o7000, extended=None), self.set_lists)
            yield Move("no list", LISTED, (class_of(remove_access(state), True),))
        if self.case.has_lists and state.is_directory:
            for data in (self.classes.end_default, self.classes.other_default):
                yield Move("default list", 0, (class_of(set_default(state, data), is_listed),))
