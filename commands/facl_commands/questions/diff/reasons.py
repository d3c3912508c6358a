"""Why somebody may do otherwise with a file than before, where its own owner, group or ACL is another one: in a few words.

The program is asked by `why` for the entries that decide on the user, before and after. Where these are other ones by one
thing alone, the words say which; else they say what differs in the record.
"""
from __future__ import annotations

from typing import Dict, FrozenSet, Iterable, List, NamedTuple, Sequence, Tuple

from ...base.names import path_word, read_name, write_user
from ...model.entries import OTHER_KEY, OWNER_KEY, OWNING_GROUP_KEY, USER, Entry, Key, ReadRecord, entries_of, named, read_record
from ...model.label_answers import WORD, dump_of
from ...model.people import People, listed_by_group, user_word
from ...program.protocol import ENTRIES_OF
from ...program.session import session_over
from .edits import word_of_user
from .shapes import Shapes
from .states import Members, State, members_of

AT_ONCE = 1_000  # Questions.
MOST = 20_000  # Users and pairs of records that are asked about.
MOST_NAMES = 3  # Groups that are named.
Decided = Dict[Key, Entry]  # The entries that decide on a user.


class Question(NamedTuple):
    """Why a user, by the name that the program prints, may do otherwise with files of one record before and of another one after."""

    user: bytes
    old: int
    new: int


class Point(NamedTuple):
    """How was decided before and after."""

    old: Decided
    new: Decided


def label_of(body: bytes) -> ReadRecord:
    """What decides on a file: owner, group and access list; flags and the default list do not."""
    return read_record(body)._replace(flags=b"", default=())


def numbered_groups(people: People) -> bytes:
    """Groups whose names are their ids, so that entries have these: a row for each id, with all its members."""
    return b"".join(b"%d:x:%d:%s\n" % (gid, gid, b",".join(names)) for gid, names in listed_by_group(people).items())


class Time:
    """One snapshot's users, and how is decided on them."""

    def __init__(self, program: str, state: State) -> None:
        self.program, self.passwd, self.people = program, state.passwd, state.people()
        self.members: Members = members_of(self.people)

    def has_word(self, name: bytes) -> bool:
        return user_word(self.people.users, name) is not None

    def ask(self, bodies: List[bytes], questions: Sequence[Tuple[bytes, int]]) -> List[Decided]:
        """The entries that decide on users, by their names, on files of some bodies, by their places."""
        found: List[Decided] = []
        lines = [b"%s %s %s" % (ENTRIES_OF, word_of_user(self.people, name), path_word(WORD % place)) for name, place in questions]
        with session_over(self.program, self.passwd, numbered_groups(self.people), dump_of(bodies)) as session:
            for start in range(0, len(lines), AT_ONCE):
                part = lines[start : start + AT_ONCE]
                answers = session.ask_accepted(b"\n".join(part)).read().split(b"\n\n")
                found += map(decided_by, answers[: len(part)])
        return found


def decided_by(answer: bytes) -> Decided:
    return {it.key: it for it in entries_of(answer)}


# --- the words


def and_more(names: List[bytes]) -> bytes:
    rest = len(names) - MOST_NAMES
    return b", ".join(names[:MOST_NAMES]) + (b" and %d more" % rest if rest > 0 else b"")


def is_by_mask(labels: Tuple[ReadRecord, ReadRecord], point: Point, uid: int) -> bool:
    """Whether the mask is empty before or after alone, and an entry of the user or of a group that is there both times decides
    once."""
    keys = point.old.keys() ^ point.new.keys()
    changed = {(tag, b"%d" % uid if tag == USER else name) for tag, name in keys if name}
    kept = named(labels[0].access).keys() & named(labels[1].access).keys()
    is_once = labels[0].has_empty_mask() != labels[1].has_empty_mask() and OWNER_KEY not in keys
    return is_once and bool(changed & kept) and all(key in kept for key in changed if key[0] == USER)


def words_of_list(old: Decided, new: Decided, is_of_other_group: bool) -> bytes:
    """What changed in the list of a file, for a user who is judged by the same id and groups."""
    if (OWNER_KEY in old) != (OWNER_KEY in new):
        return b"is the owner now" if OWNER_KEY in new else b"no longer the owner"
    if old.keys() == new.keys():
        return words_of_same_entries(old, new, is_of_other_group)
    added, gone = new.keys() - old.keys() - {OTHER_KEY}, old.keys() - new.keys() - {OTHER_KEY}
    if any(tag == b"user" for tag, _ in (*added, *gone)):
        return b"user entry added" if any(tag == b"user" for tag, _ in added) else b"user entry gone"
    if any(old[key] != new[key] for key in old.keys() & new.keys()):
        return b""
    if is_of_other_group:
        return b"other group of the file" if added | gone == {OWNING_GROUP_KEY} else b""
    return b"group entries changed" if added and gone else b"group entry added" if added else b"group entry gone"


def words_of_same_entries(old: Decided, new: Decided, is_of_other_group: bool) -> bytes:
    """The same, where entries of the same users and groups decide."""
    own = [key for key in old if old[key].permissions != new[key].permissions]
    if not own:
        return b"mask changed"
    if is_of_other_group and OWNING_GROUP_KEY in own:
        return b""
    kinds = {OWNER_KEY: b"owner's entry changed", OTHER_KEY: b"others' entry changed"}
    return kinds.get(own[0], b"user entry changed" if own[0][0] == b"user" else b"group entry changed")


def words_of_records(labels: Tuple[ReadRecord, ReadRecord]) -> bytes:
    """What differs in the record, whomever it is about."""
    old, new = labels
    parts = [(b"owner", old.owner != new.owner), (b"group", old.group != new.group), (b"ACL", old.access != new.access)]
    return b", ".join(word for word, is_other in parts if is_other) + b" changed"


class RecordReasons:
    """The words for files whose own record is another one."""

    def __init__(self, times: Tuple[Time, Time], shapes: Shapes) -> None:
        self.times, self.shapes = times, shapes
        self.words: Dict[Question, bytes] = {}

    def labels(self, old: int, new: int) -> Tuple[ReadRecord, ReadRecord]:
        return label_of(self.shapes.bodies.values[old]), label_of(self.shapes.bodies.values[new])

    def ask(self, questions: Iterable[Question]) -> None:
        """Asks about users and files that are there before and after."""
        wanted = [it for it in questions if all(time.has_word(read_name(it.user)) for time in self.times)][:MOST]
        sides: List[List[Decided]] = []
        for time, numbers in zip(self.times, ([it.old for it in wanted], [it.new for it in wanted])):
            place = {number: at for at, number in enumerate(dict.fromkeys(numbers))}
            bodies = [self.shapes.bodies.values[number] + b"\n" for number in place]
            asked = [(read_name(it.user), place[number]) for it, number in zip(wanted, numbers)]
            sides.append(time.ask(bodies, asked) if asked else [])
        for question, *decided in zip(wanted, *sides):
            self.words[question] = self.of_point(question, Point(*decided))

    def of(self, question: Question) -> bytes:
        return self.words.get(question) or words_of_records(self.labels(question.old, question.new))

    def of_point(self, question: Question, point: Point) -> bytes:
        """The words where one thing decides; empty where the user has another id or other groups of those that count here."""
        name, labels = read_name(question.user), self.labels(question.old, question.new)
        before, after = (time.members[name] for time in self.times)
        mentioned = labels[0].mentioned_groups() | labels[1].mentioned_groups()
        if before.uid != after.uid or before.groups & mentioned != after.groups & mentioned:
            return b""
        is_of_other_group = labels[0].group != labels[1].group
        if is_by_mask(labels, point, before.uid):
            return b"mask changed" * (not is_of_other_group)
        return words_of_list(point.old, point.new, is_of_other_group)


# --- the words of what a user joined and left


def group_name(people: People, gid: int) -> bytes:
    return next((write_user(it.name) for it in people.groups if it.gid == gid), b"group %d" % gid)


def words_of_groups(times: Tuple[Time, Time], joined: FrozenSet[int], left: FrozenSet[int]) -> bytes:
    parts = ((b"joined ", joined, times[1].people), (b"left ", left, times[0].people))
    words = [text + and_more([group_name(people, gid) for gid in sorted(groups)]) for text, groups, people in parts if groups]
    return b" and ".join(words) or b"other user id"
