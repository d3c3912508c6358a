"""What the program answers of the different lists of a page: each is asked of once, by a file of its own, as
model/label_answers.py has it."""
from __future__ import annotations

from typing import Dict, Iterable, Iterator, List, NamedTuple, Sequence, Tuple

from ..base.names import read_name, script_word
from ..base.numbered import Numbered
from ..model.entries import GROUP, USER, read_record
from ..model.label_answers import (
    FILES_ROOM, SCRIPT_ROOM, WORD, WORD_SIZE, PeopleTexts, ask_records, dump_of, operands_of, vectors_of,
)
from ..model.people import People, groups_by_user, rows_of, user_word, users_in
from ..model.rights import users_of
from ..model.rules_of_lists import Vector
from ..program.protocol import ENTRIES_OF, INDEX, LIST_NAMES
from ..program.scripts import read_script
from ..program.session import LINES_ROOM, Session, parts_of, session_over


class ListReasons(NamedTuple):
    """By which entries of a list users are judged, as numbers of these: those of most users, and those of others, by their places."""

    most: int
    others: Dict[int, int]

    def of(self, place: int) -> int:
        return self.others.get(place, self.most)


class ListAnswers(NamedTuple):
    """The answers of each list, by its number."""

    users: List[bytes]
    vectors: List[Vector]
    lists: List[bytes]  # The lines of its record, with names.
    reasons: List[ListReasons]  # The entries that decide,
    entries: Numbered[bytes]  # which are these lines.


def mentioning(people: People, users: List[bytes], bodies: List[bytes]) -> List[Sequence[int]]:
    """By user the lists that mention the user or one of the user's groups. By the others everybody else is judged too: the
    check looks at nothing but the ids of owner, owning group and entries (acl(5), ACCESS CHECK ALGORITHM)."""
    found: Dict[Tuple[bytes, int], List[int]] = {}
    for number, body in enumerate(bodies):
        record = read_record(body)
        uids = {int(record.owner), *(int(it.key[1]) for it in record.access if it.key[0] == USER and it.is_named())}
        for key in [*((USER, uid) for uid in uids), *((GROUP, gid) for gid in record.mentioned_groups())]:
            found.setdefault(key, []).append(number)
    groups = groups_by_user(people)
    keys = {user.name: [(USER, user.uid), *((GROUP, gid) for gid in groups[user.name])] for user in people.users}
    return [sorted({number for key in keys[read_name(user)] for number in found.get(key, ())}) for user in users]


def ask_reasons(session: Session, texts: PeopleTexts, everybody: bytes, users: List[bytes], bodies: List[bytes],
                entries: Numbered[bytes]) -> List[ListReasons]:
    """By which entries each user is judged, by list; one whom no word names has no entries here."""
    def ask(some_lines: Iterable[bytes]) -> Iterator[int]:
        return (entries.number(it) for some in parts_of(some_lines, LINES_ROOM) for it in ask_records(session, some))

    people, known = People(texts.passwd, texts.group), users_in(texts.passwd)
    for unit in read_script(b"", texts.lines):
        people.change(unit.words)
    words = [user_word(known, read_name(user)) for user in users]
    asked = [(place, word, lists) for place, (word, lists) in enumerate(zip(words, mentioning(people, users, bodies))) if word]
    lines = (b" ".join([ENTRIES_OF, word, *part]) for _, word, lists in asked for part in parts_of(WORD % it for it in lists))
    alike = [ENTRIES_OF + b" " + script_word(everybody) + b" " + part for part in operands_of(len(bodies))]
    without = dict.fromkeys([place for place, word in enumerate(words) if word is None], entries.number(b""))
    found = [ListReasons(number, dict(without)) for number in ask(alike)]
    places = ((place, number) for place, _, lists in asked for number in lists)
    for (place, number), entry in zip(places, ask(lines)):
        found[number].others[place] = entry
    return found


def ask_lists(program: str, people: PeopleTexts, everybody: bytes, bodies: List[bytes]) -> ListAnswers:
    """Asks of all lists, as many at once as lines of one session have room for; one of the users is everybody else."""
    users = len(rows_of(people.passwd)) + people.lines.count(b"\n")
    step = max(1, min(FILES_ROOM, SCRIPT_ROOM // (WORD_SIZE * (users + 1))))
    found = ListAnswers([], [], [], [], Numbered())
    for some in (bodies[start : start + step] for start in range(0, len(bodies), step)):
        with session_over(program, people.passwd, people.group, dump_of(some)) as session:
            if people.lines:
                session.ask_accepted(people.lines.rstrip(b"\n"))
            table = session.ask_accepted(INDEX)
            found.users[:] = users_of(table)
            found.vectors.extend(vectors_of(table, found.users, len(some)))
            found.reasons.extend(ask_reasons(session, people, everybody, found.users, some, found.entries))
            found.lists.extend(ask_records(session, [LIST_NAMES + b" " + part for part in operands_of(len(some))]))
    return found
