"""The data of a page: the files by columns, and the texts and rights that many of them share.

A file is a number in each column, in path order. A column is bytes in base64: numbers of seven bits a byte, the lowest
first, of which all but the last byte have the eighth bit too. What most of the shown users have is written once, and
then those who have something else.
"""
from __future__ import annotations

import base64
import itertools
import re
from collections import Counter
from operator import itemgetter
from typing import Dict, Iterable, List, NamedTuple, Sequence, Tuple

from ..base.names import shown as shown_bytes
from ..base.names import write_name
from ..base.numbered import Numbered
from ..model.file_columns import ABOVE
from ..model.rules_of_lists import inside
from .answers import ListAnswers, ListReasons

GONE = -1  # The label of a file that is not there.
ABSENT = b"\0"  # In the place of a byte of `index`, which always grants the request for nothing.
Row = Tuple[int, Dict[int, int]]  # What most have, and by places what others have.


class Who(NamedTuple):
    """Of whom rights are shown: a user, a group alone, everybody, or an account, which is a user who is no person."""

    kind: str
    name: bytes
    user: bytes  # As `index` prints the user that is asked of.


def shown(text: bytes) -> str:
    """What is shown of a text."""
    return shown_bytes(text).decode()


def shown_name(name: bytes) -> str:
    """What is shown of the name of a file; of most of them all letters are plain."""
    if name.isascii() and b"\\" not in name:
        text = name.decode()
        if text.isprintable():
            return text
    return shown(write_name(name))


def shown_lines(text: bytes) -> str:
    return "\n".join(map(shown, text.split(b"\n")))


class Sevens(Dict[int, bytes]):
    """Numbers that are not negative, in seven bits a byte."""

    def __missing__(self, number: int) -> bytes:
        self[number] = bytes([number]) if number < 128 else bytes([number & 127 | 128]) + self[number >> 7]
        return self[number]


def packed(numbers: Iterable[int]) -> str:
    """A column of numbers."""
    return base64.b64encode(b"".join(map(Sevens().__getitem__, numbers))).decode()


def row_of(values: bytes) -> Row:
    """The values of all places, with that of most of them once."""
    most = max(dict.fromkeys(values), key=values.count, default=0)
    return most, {place: value for place, value in enumerate(values) if value != most} if values.count(most) < len(values) else {}


class View(NamedTuple):
    """What is shown of the labels of one state, by number in the tables of the page; of a file that is not there at the
    end, where GONE finds it."""

    rows: List[int]
    lists: List[int]
    decisions: Dict[int, Row]  # By list.


class Tables:
    """Texts and numbers that many files share."""

    def __init__(self, whos: List[Who]) -> None:
        self.whos = whos
        self.rows: Numbered[bytes] = Numbered()  # What each of them is granted; empty of a file that is not there.
        self.lists: Numbered[Tuple[str, bytes]] = Numbered()  # A text with the record that it shows.
        self.reaches: Numbered[bytes] = Numbered()  # Who gets to what is in a directory, at the start everybody.
        self.start = self.reaches.number(b"\1" * len(whos))
        self.kinds: Numbered[Tuple[int, int, int]] = Numbered()  # Whether it is a directory; row and list.
        self.entries: Numbered[str] = Numbered()
        self.insides: Dict[Tuple[int, int], int] = {}

    def view(self, answers: ListAnswers, bodies: List[bytes]) -> View:
        """Takes what the program answers of the lists of one state."""
        known = {user: place for place, user in enumerate(answers.users)}
        places = [known.get(who.user, -1) for who in self.whos]  # Of one who is not there -1, which is the last one.
        picked = itemgetter(*places, -1)  # The last one makes a tuple of them where there is one.
        rows = [self.rows.number(bytes(picked(vector + ABSENT)[:-1])) for vector in answers.vectors]
        lists = [self.lists.number((shown_lines(text), body)) for text, body in zip(answers.lists, bodies)]
        there = {it: place for place, it in enumerate(places) if it >= 0}
        numbers: Dict[int, int] = {}
        decisions = {number: self.decided(answers, its, there, numbers) for number, its in zip(lists, answers.reasons)}
        return View([*rows, self.rows.number(b"")], [*lists, GONE], decisions)

    def decided(self, answers: ListAnswers, reasons: ListReasons, there: Dict[int, int], numbers: Dict[int, int]) -> Row:
        """By which entries of a list the shown users are judged, whose places are those of users of the answers; `numbers` has those
        of the page by these."""
        others = dict(sorted((there[it], number) for it, number in reasons.others.items() if it in there))
        rest = (place for place in there.values() if place not in others)  # Judged by the entries of most users.
        firsts = [*others.items(), *((place, reasons.most) for place in itertools.islice(rest, 1))]
        for _, it in sorted(firsts):
            if it not in numbers:  # Two blanks are before what the mask leaves.
                numbers[it] = self.entries.number(shown_lines(re.sub(rb"\t+", b"  ", answers.entries.values[it])))
        counts = Counter({numbers[it]: 0 for _, it in sorted(firsts)})
        counts.update(numbers[it] for it in others.values())
        if len(others) < len(there):
            counts[numbers[reasons.most]] += len(there) - len(others)
        most = max(counts, key=counts.__getitem__, default=0)  # Of as many the first one.
        is_usual = len(others) < len(there) and most == numbers[reasons.most]
        found = {place: numbers[others.get(place, reasons.most)] for place in (others if is_usual else there.values())}
        return most, {place: value for place, value in found.items() if value != most}

    def kinds_of(self, view: View, labels: Sequence[int], first: Iterable[int], folders: List[int]) -> List[int]:
        """The kind of each file, of which some are directories; `first` has the labels in the order of the kinds."""
        its = {label: self.kinds.number((0, view.rows[label], view.lists[label])) for label in dict.fromkeys(first)}
        found = list(map(its.__getitem__, labels))
        for place in folders:
            found[place] = self.kinds.number((1, view.rows[labels[place]], view.lists[labels[place]]))
        return found

    def find_insides(self, kinds: List[int], folders: List[int], parents: Sequence[int]) -> None:
        """Finds who gets to what is in each directory, by who gets to it and its row."""
        found: Dict[int, int] = {ABOVE: self.start}
        for place in folders:
            pair = found[parents[place]], self.kinds.values[kinds[place]][1]
            if pair not in self.insides:
                above, row = self.reaches.values[pair[0]], self.rows.values[pair[1]]
                self.insides[pair] = self.reaches.number(inside(above, row)) if row else pair[0]
            found[place] = self.insides[pair]

    def data(self, views: List[View]) -> Dict[str, object]:
        """All of them; the decisions of each list now, and of each that had others before, or is no more there."""
        old, new = views[0].decisions, views[-1].decisions
        lists = [new.get(number) for number in range(len(self.lists.values))]
        return {
            "rows": [*map(row_of, self.rows.values)], "reaches": [*map(row_of, self.reaches.values)],
            "lists": [text for text, _ in self.lists.values],
            "kinds": self.kinds.values, "entries": self.entries.values,
            "insides": [[*pair, found] for pair, found in self.insides.items()],
            "decisions": lists, "before": {number: it for number, it in old.items() if it != lists[number]},
        }
