"""Plays facl-apply's calls on a file whose owner may do anything between two of them, and judges what the file grants.

Each gap has all states that its owner can make there, by any number of calls, after any in the gaps before (gap_moves.py).

  rule                                           of
  it runs as nobody but by the old record, the   a plain file with set-user-ID or set-group-ID and execution
  new one, or as an owner who meddled
  new names get no other group, and names stay   a directory, but for between the call that sets owner and group and
  protected                                      the next one
  lists grant what either record does            all, but for what an owner who meddled has set since the last list
  nothing is left of the last owner              all, at the end
"""
from __future__ import annotations

from typing import Dict, List, NamedTuple, Optional, Set, Tuple

from gap_moves import (
    END, GROUPED, LAST, LISTED, MOVED, NEXT, NO_ANSWER, Call, Case, Change, Classes, Moves, Program, is_look, marks_after, step,
)
from kernel_stand_in import State, state_of

from facl_commands.apply import changing
from facl_commands.base import acl_bytes
from facl_commands.base.acl_bytes import Record

USERS = [*range(1, 7), 99]
Right = Tuple[str, int]


# --- what a file grants


def runs_as(record: Record, is_directory: bool) -> Set[Right]:
    """As whom a plain file runs; which group names get in a directory."""
    mode = record.flags | acl_bytes.permissions_of(record.access)
    if is_directory:
        return {("group", record.group)} if mode & 0o2000 else set()
    found = {("user", record.owner)} if mode & 0o4000 and mode & 0o111 else set()
    return found | ({("group", record.group)} if mode & 0o2010 == 0o2010 else set())


def rights_of(record: Record, entries: acl_bytes.Entries, user: int, groups: Set[int]) -> int:
    """acl(5), and for each request alone."""
    if user == record.owner:
        return entries[acl_bytes.USER_OBJ, acl_bytes.NO_ID]
    if (acl_bytes.USER, user) in entries:
        return entries[acl_bytes.USER, user]
    its = [(acl_bytes.GROUP_OBJ, acl_bytes.NO_ID)] * (record.group in groups) + [(acl_bytes.GROUP, group) for group in sorted(groups)]
    found = [entries[key] for key in its if key in entries]
    granted = 0
    for each in found:
        granted |= each
    return granted if found else entries[acl_bytes.OTHER, acl_bytes.NO_ID]


class Judge:
    """What is granted at a moment, and is not to be."""

    def __init__(self, case: Case) -> None:
        self.case = case
        granted = runs_as(case.old, case.is_directory) | runs_as(case.new, case.is_directory)
        self.allowed = [granted | self.its(marks) for marks in range(4)]
        self.both = [one | other for one, other in zip(self.rights(case.old), self.rights(case.new))]

    def its(self, marks: int) -> Set[Right]:
        """As whom a file may run by those who meddled."""
        found: Set[Right] = set()
        for mark, user in ((LAST, self.case.now.owner), (NEXT, self.case.end.owner)):
            if marks & mark:
                found |= {("user", user)} | {("group", group) for group in self.case.groups[user]}
        return found

    def rights(self, record: Record) -> List[int]:
        entries = acl_bytes.effective(acl_bytes.entries_of(record.access))
        return [rights_of(record, entries, user, self.case.groups[user]) for user in USERS]

    def actor(self, owner: int) -> int:
        """The marks of an owner who meddles."""
        return LAST * (owner == self.case.now.owner) | NEXT * (owner == self.case.end.owner)

    def fault(self, state: State, marks: int) -> str:
        """An empty word where there is none."""
        case, record = self.case, state.record()
        is_settled = not case.is_directory or not marks & MOVED
        if is_settled and not runs_as(record, case.is_directory) <= self.allowed[marks & (LAST | NEXT)]:
            return "it runs as, or gives names to, another one"
        is_sticky = case.old.flags & case.new.flags & 0o1000
        if case.is_directory and is_settled and is_sticky & ~record.flags and not marks & self.actor(record.owner):
            return "names are not protected"
        if marks & (LISTED | GROUPED):
            return ""
        if any(now & ~both for user, now, both in zip(USERS, self.rights(record), self.both) if user != record.owner):
            return "somebody has a right by neither record"
        return ""

    def fault_of_end(self, state: State, marks: int) -> str:
        """Without anything of the new owner's it is as it has to be."""
        return "something of the last owner is left" if not marks & NEXT and state.record() != self.case.end else ""


# --- the play


class Moment(NamedTuple):
    node: int  # What follows.
    state: int  # The number of a state.
    marks: int
    left: int  # How often an owner may still meddle; below zero, as often as it wants.


class Play:
    """All moments that there can be, each once, with the one before it; and the faults, and the states at the end."""

    def __init__(self, case: Case, change: Change = changing.change, left: int = -1) -> None:
        self.case = case
        self.program = Program(case, change)
        self.judge, self.classes = Judge(case), Classes(case)
        self.moves = Moves(case, self.classes)
        self.states: List[State] = []
        self.numbers: Dict[State, int] = {}
        self.judged: Dict[Tuple[int, int], str] = {}
        self.stepped: Dict[Tuple[Call, int, int], int] = {}
        self.moved: Dict[Tuple[int, int], List[Tuple[int, int, Tuple[int, ...]]]] = {}
        self.kinds: Dict[Tuple[int, ...], int] = {}  # The number of each set of states that moves make.
        self.made: Dict[int, Tuple[int, ...]] = {}  # The numbers of the states of moves that are kept.
        self.opened: Dict[Tuple[int, int, int], Set[Tuple[int, int]]] = {}  # The sets that were entered, by node and marks.
        self.before: Dict[Moment, Optional[Moment]] = {}
        self.work: List[Moment] = []
        self.faults: Dict[str, Moment] = {}
        self.ends: Set[Tuple[State, int]] = set()
        start = self.number(self.classes.class_of(state_of(case.now, case.is_directory), False))
        self.reach(Moment(self.program.start, start, 0, left), None)
        while self.work:
            self.go_on(self.work.pop())

    def number(self, state: State) -> int:
        if state not in self.numbers:
            self.numbers[state] = len(self.states)
            self.states.append(state)
        return self.numbers[state]

    def reach(self, moment: Moment, before: Optional[Moment]) -> None:
        if moment not in self.before:
            self.before[moment] = before
            self.work.append(moment)

    def go_on(self, moment: Moment) -> None:
        """Judges a moment; then its owner meddles, or the next call follows."""
        node, number, marks, left = moment
        if (number, marks) not in self.judged:
            self.judged[number, marks] = self.judge.fault(self.states[number], marks)
        fault = self.judged[number, marks]
        if node == END:
            fault = fault or self.judge.fault_of_end(self.states[number], marks)
            self.ends.add((self.states[number], marks))
        else:
            if left:
                self.meddle(moment)
            self.call(moment)
        if fault:
            self.faults.setdefault(fault, moment)

    def call(self, moment: Moment) -> None:
        node, number, marks, left = moment
        call = self.program.nodes[node].call
        after = marks_after(call, marks, self.case.has_lists)
        following = self.program.branches[node]
        if is_look(call):
            then = following[self.program.answer(call, self.states[number])]
            self.reach(Moment(then, number, after, left), moment)
            return
        key = call, number, after & LISTED
        if key not in self.stepped:
            self.stepped[key] = self.number(self.classes.class_of(step(call, self.states[number]), bool(after & LISTED)))
        self.reach(Moment(following[NO_ANSWER], self.stepped[key], after, left), moment)

    def meddle(self, moment: Moment) -> None:
        """Each set of states that a move makes is entered once."""
        node, number, marks, left = moment
        key = number, marks & LISTED
        opened = self.opened.setdefault((node, marks, left), set())
        for kind, added, made in self.moved[key] if key in self.moved else self.moves_of(*key):
            if (kind, added) not in opened:
                opened.add((kind, added))
                for each in made:
                    self.reach(Moment(node, each, marks | added, left - (left > 0)), moment)

    def moves_of(self, number: int, listed: int) -> List[Tuple[int, int, Tuple[int, ...]]]:
        """The number of each set of states, the marks that it adds, and the states."""
        actor = self.judge.actor(self.states[number].owner)
        row = self.moved[number, listed] = []
        for move in self.moves.of(self.states[number], bool(listed)):
            made = self.made.get(id(move))
            if made is None:
                made = tuple(self.number(state) for state in move.states)
                if self.moves.keeps(move):
                    self.made[id(move)] = made
            row.append((self.kinds.setdefault(made, len(self.kinds)), move.marks | actor, made))
        return row

    def told(self, moment: Moment) -> str:
        """How it came to a moment."""
        rows: List[str] = []
        at: Optional[Moment] = moment
        while at is not None:
            rows.append("%s, marks %d, before %s" % (self.states[at.state], at.marks, self.program.nodes[at.node].call))
            at = self.before[at]
        return "\n".join(reversed(rows))
