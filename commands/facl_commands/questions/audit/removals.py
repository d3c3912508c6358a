"""Lines of findings that the program is asked about in sessions of single files: entries without effect, which can go, by the
directories whose default ACLs give them; and lines that would grant something.
"""
from __future__ import annotations

from typing import Dict, FrozenSet, Iterable, Iterator, List, NamedTuple, Optional, Tuple

from ...base.accounts import SUPERUSER
from ...base.messages import Failure
from ...base.names import parent_of, read_name, way_to
from ...model.entries import Entry, Key, named, read_record
from ...model.people import People, ids_in, superusers_among, users_by_group
from ...model.records import Files
from ...program.protocol import FILE_HEAD
from ...program.session import LINE_ROOM, LINES_ROOM, parts_of, session_over
from ...program.tools import path_in, user_in
from .findings import FoundFiles, Mend
from .lists import Audited

CHANGES, GAINED = b"changes", b"gains"  # A question, and a word of its answers.
WHOSE = b"whose it is; the line that takes the id out would grant something to users"
Line = Tuple[bytes, bytes]  # A record, and a line without the file.


def for_all(lines: List[Line]) -> Iterator[bytes]:
    """The lines with their files, whose names are places: files of one line are named in one where it has room, since each line
    takes the program longer than one more file of it."""
    files: Dict[bytes, List[bytes]] = {}
    for place, (_, edit) in enumerate(lines):
        files.setdefault(edit, []).append(b"%d" % place)
    return (b" ".join([edit, *part]) + b"\n" for edit, names in files.items() for part in parts_of(names, LINE_ROOM - len(edit)))


def changed_by(audited: Audited, lines: List[Line]) -> Iterator[Tuple[int, bytes]]:
    """What lines change in the rights of the snapshot's users, each on a file of its own: its place, and a line of `changes`."""
    if not lines:
        return
    texts = audited.world.texts
    dump = b"".join(FILE_HEAD + b"/%d\n" % place + body + b"\n" for place, (body, _) in enumerate(lines))
    with session_over(audited.program, texts.passwd, texts.group, dump) as session:
        for part in parts_of(for_all(lines), LINES_ROOM):
            messages = session.ask(b"".join(part)).messages
            if messages:
                raise Failure(b"the program refused a line that mends: " + messages[0])
        for line in session.ask_accepted(CHANGES).lines():
            yield int(path_in(CHANGES, line)), line


Given = FrozenSet[Tuple[Key, bytes]]  # Entries, by key and permissions.


def given(entries: Iterable[Entry]) -> Given:
    return frozenset((it.key, it.permissions) for it in entries)


class Removal(NamedTuple):
    """Entries that go out of a record."""

    body: bytes
    entries: Tuple[Entry, ...]

    def edit(self, audited: Audited) -> bytes:
        return b"setfacl -n -x " + b",".join(audited.ids.word(it.key) for it in self.entries)

    def mend(self, audited: Audited, giver: Optional[bytes]) -> Mend:
        """What is found of a file with the record, to which the default ACL of a directory may give the entries."""
        shown = [audited.ids.shown(it.key) for it in self.entries]
        pattern = b",".join(name.replace(b" ", b":", 1) + b":" + it.permissions for name, it in zip(shown, self.entries))
        return Mend(b", ".join(shown), self.edit(audited), pattern=pattern, giver=giver)


def of_no_effect(audited: Audited, removals: List[Removal]) -> List[Removal]:
    """Those that change nobody's rights."""
    changed = {place for place, _ in changed_by(audited, [(it.body, it.edit(audited)) for it in removals])}
    return [removal for place, removal in enumerate(removals) if place not in changed]


def removals(audited: Audited) -> Iterator[Removal]:
    """Of each record the entries that can go together; where each can go and not all of them, the first."""
    bodies = dict.fromkeys(file.body for file in audited.kinds.values())
    single = [Removal(body, (it,)) for body in bodies for key, it in named(read_record(body).access).items() if audited.ids.has(key)]
    of_body: Dict[bytes, Tuple[Entry, ...]] = {}
    for body, entries in of_no_effect(audited, single):
        of_body[body] = of_body.get(body, ()) + entries
    agreed = {it.body for it in of_no_effect(audited, [Removal(*it) for it in of_body.items() if len(it[1]) > 1])}
    return (Removal(body, entries if body in agreed else entries[:1]) for body, entries in of_body.items())


class Givers:
    """The directories whose default ACLs give entries to what is made in them."""

    def __init__(self, above: Files) -> None:
        self.above = above
        self.known: Dict[Given, Dict[bytes, Optional[bytes]]] = {}

    def of(self, directory: bytes, entries: Given) -> Optional[bytes]:
        """The highest directory from which each one down to this gives the entries; None where this does not."""
        known = self.known.setdefault(entries, {})
        for it in way_to(directory, known):
            is_giving = it in self.above and entries <= given(read_record(self.above[it].body).default)
            above = known[parent_of(it)] if it else None
            known[it] = (it if above is None else above) if is_giving else None
        return known[directory]


def without_effect(audited: Audited) -> FoundFiles:
    """The files with entries that can go."""
    by_body, tree = {it.body: it for it in removals(audited)}, audited.tree
    by_kind = {kind: by_body[file.body] for kind, file in audited.kinds.items() if file.body in by_body}
    found, givers = FoundFiles(), Givers(tree.above)
    for run in tree.runs if by_kind else []:
        mends: Dict[int, Mend] = {}
        for kind, path in zip(tree.kinds[run.start : run.end], tree.paths[run.start : run.end]):
            if kind in by_kind:
                if kind not in mends:
                    giver = None if run.folder is None else givers.of(run.folder, given(by_kind[kind].entries))
                    mends[kind] = by_kind[kind].mend(audited, giver)
                found.add([path], [mends[kind]])
    return found


def without_gains(audited: Audited, found: Dict[str, Dict[int, Mend]]) -> Dict[str, Dict[int, Mend]]:
    """What is found of kinds of files, without the lines that grant something to users but the superuser: a group without a row
    may be the first group of some, and that of the id 0, which gets what nobody owns, may have members."""
    roots = superusers_among(ids_in(audited.world.texts.passwd).items())
    members = users_by_group(People(audited.world.texts.passwd, audited.world.texts.group)).get(SUPERUSER, set())
    owned, entries = found["owner-without-row"], found["entry-without-row"]
    kinds = [*entries]
    changes = changed_by(audited, [(audited.kinds[kind].body, entries[kind].edit) for kind in kinds])
    gaining = {kinds[place] for place, line in changes
               if line.split(b" ", 2)[1] == GAINED and read_name(user_in(CHANGES, line)) not in roots}
    return {**found, "owner-without-row": {kind: mend.for_a_person(WHOSE) if members - roots else mend for kind, mend in owned.items()},
            "entry-without-row": {kind: mend.for_a_person(WHOSE) if kind in gaining else mend for kind, mend in entries.items()}}
