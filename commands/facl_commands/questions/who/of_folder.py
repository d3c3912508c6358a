"""facl-who --remove: who can remove a file; and --new-file: the lists that a new file and a new folder of a user would get."""
from __future__ import annotations

import itertools
import os
from typing import Dict, List, NamedTuple, Optional

from ...base.messages import Failure
from ...base.names import json_text, parent_of, path_word, read_name
from ...base.tables import Column, Table
from ...model import choice
from ...model.entries import NOTHING, head_lines, read_record
from ...model.people import ids_in
from ...model.records import asks_as_directory
from ...model.rules_of_lists import is_sticky, remover, writing
from ...program.protocol import CAN, LIST_BELOW, LIST_NAMED, LIST_NUMBERS, MAKE_DIRECTORY, MAKE_FILE, WHO
from .asking import Asker, NamedUser, Reasons, WhoAnswer, plain_entry, read_right

CHANGE = read_right(writing(is_directory=True).decode())  # Of the folder above, to make or remove a file.
KINDS = {"file": (MAKE_FILE, b"0666"), "folder": (MAKE_DIRECTORY, b"0777")}


# --- who can remove a file


def removed_path(asker: Asker, word: str) -> bytes:
    """The path of FILE, above which a folder is recorded."""
    path = choice.folder_of(asker.session, os.fsencode(word))
    if not path:
        raise Failure(b"/: cannot be removed")
    if not choice.is_recorded(asker.session, parent_of(path)):
        raise Failure(asker.name_of(path) + b": its parent directory is not recorded, so nobody knows who may change it; "
                      b"make a snapshot with facl snapshot")
    return path


def answer_remove(asker: Asker, path: bytes) -> WhoAnswer:
    above, ids, why = parent_of(path), ids_in(asker.passwd), asker.judged_by.keeps_name(path)
    file, folder = map(read_record, asker.records([LIST_NUMBERS + b" " + path_word(it) for it in (path, above)]))
    below = asker.session.ask_accepted(LIST_BELOW + b" " + path_word(path)).records()
    is_full = len(list(itertools.islice(below, 2))) > 1  # Something is recorded below the file.
    is_kept = is_sticky(folder.flags)
    may = asker.lines_of(WHO, CHANGE.letters, path_word(above)) if why is None else ()
    roles = {user: remover(ids[read_name(user)], int(file.owner), int(folder.owner), is_kept)
             for user in choice.in_order(may, asker.passwd)}
    users = {user: role for user, role in roles.items() if role is not None}
    kept = choice.kept(users, asker.given, asker.passwd)
    reasons = Reasons(asker, [(user, above) for user in kept])
    rows = [[asker.shown(user), reasons.text((user, above), CHANGE), *filter(None, [users[user]])] for user in kept]
    name = asker.name_of(path)
    notes = [name + b": is not empty, so what is in it has to be removed before"] * is_full
    notes += [asker.name_of(above) + b": is sticky, so only the owners of the file and of the folder may"] * is_kept
    notes += asker.beside(row[0] for row in rows)
    return WhoAnswer(
        "remove", Table([Column("USER"), Column("BY"), *[Column("AS")] * is_kept], rows),
        {"path": json_text(name), "sticky": is_kept, "empty": not is_full, "since": json_text(why or b"") or None,
         "users": [{"user": json_text(asker.shown(user)), "as": json_text(users[user]) or None,
                    "by": [json_text(plain_entry(it)) for it in reasons.granting((user, above), CHANGE)]} for user in kept]},
        b"nobody may remove " + name + since(why), [it for it in users if it not in kept], tuple(notes))


def since(why: Optional[bytes]) -> bytes:
    """The end of a line, where nobody can do something whatever lists say."""
    return b"" if why is None else b", since " + why


# --- what a new file gets


class Made(NamedTuple):
    """A file that a user would make."""

    kind: bytes
    lines: List[bytes]  # Its record, for a person,
    fields: Dict[str, object]  # and for JSON.
    summary: bytes
    users: List[bytes]  # Who may read or write it, as an answer has them.
    left_out: List[bytes]  # Others who may.


def make(asker: Asker, folder: bytes, user: bytes, kind: str) -> Made:
    """Makes a file in the session, which goes with it."""
    line, mode = KINDS[kind]
    path = b"/".join([*filter(None, [folder]), b"new-" + os.urandom(8).hex().encode()])
    word = path_word(path)
    asker.session.ask_accepted(line % (user, mode, asker.given.umask.encode()) + b" " + word)
    record = read_record(asker.records([LIST_NAMED + b" " + word])[0])
    entries = [*map(plain_entry, record.access), *(b"default:" + plain_entry(it) for it in record.default)]
    who = [choice.in_order(asker.lines_of(WHO, letter, word), asker.passwd) for letter in (b"r", b"w")]
    kept = [choice.kept(users, asker.given, asker.passwd) for users in who]
    readers, writers = (list(map(asker.shown, users)) for users in kept)
    owner, group, flags = record[:3]
    fields: Dict[str, object] = {
        "kind": kind, "owner": json_text(owner), "group": json_text(group),
        "flags": json_text(flags) if flags != NOTHING else None, "entries": list(map(json_text, entries)),
        "readers": list(map(json_text, readers)), "writers": list(map(json_text, writers))}
    summary = b"the new %s may be read by %s, and written by %s" % (
        kind.encode(), b", ".join(readers) or b"nobody", b", ".join(writers) or b"nobody")
    return Made(kind.encode(), [*head_lines(owner, group, flags).splitlines(), *entries], fields, summary, readers + writers,
                [user for user in who[0] + who[1] if user not in kept[0] + kept[1]])


def answer_new_file(asker: Asker, folder: bytes, user: NamedUser) -> WhoAnswer:
    word, name = asker.word_of(user.shown), asker.name_of(folder)
    if not asks_as_directory(asker.session, folder):
        raise Failure(name + b": is not a folder")
    granted = b"".join(asker.lines_of(CAN, word, path_word(folder))).split(b" ")
    kept_out = asker.judged_by.keeps_out(folder)
    why = None if kept_out is None else b"it is " + kept_out
    is_allowed = CHANGE.word.encode() in granted and why is None
    made = [make(asker, folder, word, kind) for kind in KINDS] if is_allowed else []
    default = read_record(asker.records([LIST_NUMBERS + b" " + path_word(folder)])[0]).default
    origin = (b"by the default ACL of " + name if default
              else name + b" has no default ACL, so the umask counts, taken as " + asker.given.umask.encode())
    rows = [[it.kind, line] for it in made for line in it.lines]
    left_out = list(dict.fromkeys(user for it in made for user in it.left_out))
    notes = [it.summary for it in made] + asker.beside(user for it in made for user in it.users)
    return WhoAnswer(
        "new-file", Table([Column("NEW"), Column("LIST")], rows),
        {"path": json_text(name), "user": json_text(user.shown), "since": json_text(why or b"") or None,
         "new": [it.fields for it in made]},
        user.shown + b" may make no file in " + name + since(why), left_out, (origin, *notes))
