"""The data of the page, of one listing, or of two with scripts between them."""
from __future__ import annotations

import argparse
import os
import re
from typing import Dict, Iterable, List, Set

from ..base.accounts import SUPERUSER, is_person
from ..base.beside import of_mount
from ..base.names import number_of, read_name
from ..base.programs import judge_text
from ..model import meta
from ..model.entries import read_record
from ..model.everybody import everybody_in, free_ids
from ..model.file_columns import FileColumns
from ..model.label_answers import PeopleTexts
from ..model.marks import TEXTS, Marks, alone, not_judged
from ..model.people import Superusers, ids_in, plain_id, rows_of
from ..model.snapshot import Snapshot
from ..program.protocol import ADD_USER_WITH
from ..program.scripts import Unit
from ..program.tools import CHANGES_OF_PEOPLE
from .answers import ask_lists
from .columns import Tables, Who, shown
from .tree import Columns


class Probes:
    """A user for each group that lists name, with that group alone, and everybody else; with the users and groups."""

    def __init__(self, snapshot: Snapshot, bodies: List[bytes], changes: bytes) -> None:
        used = {plain_id(it) for text in (*bodies, changes) for it in re.findall(rb"[0-9]+", text)}
        everybody = everybody_in(lambda: (snapshot.passwd, snapshot.group, changes, *bodies))
        self.passwd, self.group = everybody.with_user(snapshot.passwd), everybody.with_group(snapshot.group)
        mentioned = {gid for body in bodies for gid in read_record(body).mentioned_groups()}
        groups = [row for row in rows_of(snapshot.group) if number_of(row[2]) in mentioned]
        token = os.urandom(8).hex().encode()
        self.whos = [Who("group", row[0], b"probe-%s-%d" % (token, place)) for place, row in enumerate(groups)]
        self.lines = b"".join(ADD_USER_WITH % (uid, row[2], who.user) + b"\n"
                              for uid, who, row in zip(free_ids(self.passwd, used), self.whos, groups))
        self.whos.append(Who("everybody", b"everybody", everybody.name))


def users_shown(old: List[bytes], new: List[bytes], probes: List[Who], left_out: Set[bytes], ids: Dict[bytes, int]) -> List[Who]:
    """Users first, then groups, then everybody; one whom the snapshot has by an id of no person is an account."""
    others = {who.user for who in probes} | left_out
    accounts = {name for name, uid in ids.items() if uid != SUPERUSER and not is_person(uid)}
    return [Who("account" if read_name(user) in accounts else "user", user, user)
            for user in dict.fromkeys([*old, *new]) if user not in others] + probes


def texts_of(kinds: Iterable[bytes]) -> List[str]:
    """What is said of files of these kinds."""
    return [shown(TEXTS[kind]) for kind in kinds if kind in TEXTS]


def marks_on(paths: List[bytes], marks: Marks) -> Dict[str, object]:
    """What is said of files beside their lists, by places: of some alone, and of some with all below, up to others of these."""
    own, mounts = marks.own, marks.mounts
    known = {*own, *mounts}
    marked = [(place, path) for place, path in enumerate(paths) if path in known] if known else []
    return {"marks": {place: texts_of(own[path]) for place, path in marked if path in own},
            "mounts": {place: texts_of(of_mount(mounts[path])) for place, path in marked if path in mounts},
            "beside": list(map(shown, alone(marks)))}


def data_of(program: str, snapshot: Snapshot, marks: Marks, listings: List[FileColumns], units: List[Unit],
            given: argparse.Namespace) -> Dict[str, object]:
    """The data of the page, of one listing, or of two with scripts between them."""
    bodies = [listing.numbers.bodies() for listing in listings]
    changes = b"".join(unit.lines[0] + b"\n" for unit in units if unit.is_of(*CHANGES_OF_PEOPLE))
    probes = Probes(snapshot, [body for its in bodies for body in its], changes)
    texts = [PeopleTexts(probes.passwd, probes.group, lines + probes.lines) for lines in (b"", changes)]
    answers = [ask_lists(program, people, probes.whos[-1].user, its) for people, its in zip(texts, bodies)]
    ids = ids_in(snapshot.passwd)
    superusers = Superusers({} if given.with_root else ids)
    for unit in units:
        superusers.follow(unit)
    tables = Tables(users_shown(answers[0].users, answers[-1].users, probes.whos, superusers.names, ids))
    views = [tables.view(*its) for its in zip(answers, bodies)]
    columns = Columns(listings)
    files = columns.data(tables, views)
    return {
        "title": shown(meta.named(snapshot.folder, meta.meta_of(snapshot.folder))), "script": len(listings) > 1,
        "alone": given.file_alone, "without": sorted(map(shown, superusers.names)),
        "whos": [[who.kind, shown(who.name)] for who in tables.whos], "start": tables.start, "files": files,
        **tables.data(views), "heads": [head_of(snapshot.folder, snapshot.folder)], "judge": judge_text(given),
        "unknown": unknown_of(snapshot.folder), **marks_on(columns.paths, marks),
    }


def unknown_of(folder: bytes) -> List[str]:
    """What the page says of a snapshot that nobody knows by it."""
    return list(map(shown, not_judged(folder)))


def head_of(folder: bytes, name: bytes) -> Dict[str, object]:
    """What the page says of a snapshot above the tree; texts are empty where they are not known."""
    found = meta.meta_of(folder)
    date = re.sub(rb"T([0-9]+:[0-9]+):[0-9]+Z", rb" \1 UTC", found.date)
    return {"name": shown(name), "host": shown(found.host), "date": shown(date), "version": shown(found.version),
            "folders": [shown(it) for it in found.folders], "asked": meta.users_asked_for(found) or 0}
