"""A script over several snapshots side by side: facl-ask --each, with the answers joined in path order, and --hosts.

With --each the snapshots have to be parts of one tree: they record no path with different records, and no user or group
with different ids. Each answers the whole script (worker.py), again for each line that is dropped (join.py), and where lines
count: a file that several have, such as a directory above all of them, is to be counted once. So each snapshot is told which
files these are (--shared-lines), and says beside its answer for what it counts each of them; those that lines make count too, as a
line may make a file in a directory that several have.

With --hosts each snapshot is that of a server. Each line that a server prints, and each of its messages, begins with the
server's name, so that the lines can be searched and sorted by it.
"""
from __future__ import annotations

import argparse
import os
from collections import Counter
from typing import Dict, Iterator, List, Optional, Sequence, Tuple

from ...base.folders import EXCHANGED
from ...base.messages import UNUSABLE, Command, Failure, counted
from ...base.names import live_name, path_order, path_word, read_path, shown
from ...model import overview
from ...model.everybody import ElseAnswers, Everybody, beside_of, everybody_in
from ...model.people import Superusers
from ...program.answering import heading, lines_to_show, write_messages
from ...program.protocol import ANSWERED, REFUSED, is_refused
from ...program.scripts import Unit, read_text
from ...program.session import lines_of
from . import SECONDS
from .join import Joined, join_all, without
from .runs import NOT_READABLE, Part, Server, part_options, read_servers, run_all, servers_of
from .worker import SIZE, is_counting

MOST_SHARED = 1_000  # Files that several snapshots may have,
ROOM_FOR_SHARED = 60_000  # and bytes of their names.
LONGEST_LINE = 1 << 20  # Bytes; of a server's answer.


# --- what is printed


def say(command: Command, name: bytes, texts: List[bytes]) -> None:
    """Messages about a server, or of the command where it has no name."""
    for text in texts:
        if name:
            command.put(command.messages, name + b": " + shown(text) + b"\n")
        else:
            command.say(text)
    command.put(command.messages)


class Speaker:
    """A server that answers, or all snapshots of one tree together, without a name; and who is left out of answers about
    people. Where an answer is none of facl's, what comes after its fault is left out."""

    def __init__(self, name: bytes, parts: List[Part], joined: Dict[int, Joined], given: argparse.Namespace,
                 everybody: Everybody) -> None:
        self.name, self.begin, self.joined, self.has_headings = name, name and name + b": ", joined, given.headings
        ids = {user.encode("latin-1"): number for part in parts for user, number in part.head.users.items()}
        self.superusers = Superusers({} if given.with_root else ids)
        self.answers = ElseAnswers(everybody)
        self.asked = max(part.head.asked for part in parts)
        self.failure: Optional[Failure] = None

    def pieces(self, unit: Unit) -> Iterator[bytes]:
        """What is printed of an answer: its lines, or pieces as they are where these need no look."""
        output, messages, _ = self.joined[unit.number]
        if not (self.name or self.has_headings or self.superusers.is_about_people(unit) or os.isatty(1)):
            return output
        lines = self.answers.first(unit.form(), self.superusers.rest(unit, lines_of(output, longest=LONGEST_LINE)))
        of_person = lines_to_show(unit, lines, messages) if self.has_headings else map(shown, lines) if os.isatty(1) else lines
        return (self.begin + line + b"\n" for line in of_person)


def print_line(command: Command, unit: Unit, speakers: List[Speaker], has_headings: bool) -> int:
    """Prints what all answer to a line, below its heading where somebody does; returns the status."""
    status, last = ANSWERED, b""
    for speaker in (it for it in speakers if it.failure is None):
        messages = speaker.joined[unit.number].messages
        try:
            for piece in speaker.pieces(unit):
                command.write(heading(unit) + piece if has_headings and not last else piece)
                last = piece
            write_messages(command, speaker.begin + b"line %d" % unit.number, unit, messages, speaker.begin)
        except (LookupError, ValueError):
            if not speaker.name:
                raise
            speaker.failure = Failure(NOT_READABLE)
            continue
        if is_refused(messages):
            status = REFUSED
        else:
            speaker.superusers.follow(unit)
    command.write(b"\n" if has_headings and last.strip(b"\n") else b"")
    return status


def print_answers(command: Command, units: List[Unit], speakers: List[Speaker], has_headings: bool) -> int:
    """Prints answers line by line of the script, and who is left out: one note where it is the same users of all servers,
    else one for each of several names of users, with its servers. Returns the status."""
    status = max([print_line(command, unit, speakers, has_headings) for unit in units], default=ANSWERED)
    servers: Dict[bytes, List[bytes]] = {}
    for speaker in speakers:
        if speaker.superusers.has_left_out:
            servers.setdefault(speaker.superusers.note(), []).append(speaker.name)
    for note, names in servers.items():
        command.say(note if len(servers) == 1 else b", ".join(names) + b": " + note)
    for speaker in speakers:
        say(command, speaker.name, beside_of(speaker.asked) if speaker.answers.was_shown else [])
    command.flush()
    return status


# --- servers


def answer_hosts(command: Command, words: List[str], given: argparse.Namespace) -> int:
    """Answers standard input over all servers; one that does not answer leaves the answers of the others as they are."""
    servers = read_servers([os.fsencode(word) for word in words])
    script = read_text("-")
    everybody = everybody_in(lambda: [script.text])
    failures: Dict[bytes, Failure] = {}
    speakers: List[Speaker] = []
    outcomes = run_all(servers, part_options(given, everybody), script.text, given.timeout or SECONDS)
    for (name, _, _), outcome in zip(servers, outcomes):
        if isinstance(outcome, Failure):
            failures[name] = outcome
            continue
        say(command, name, outcome.head.unknown)
        say(command, name, [overview.by_acl5(outcome.head.otherwise)] if given.acl5 else [])
        joined = {number: Joined(it.output.pieces(), it.header.messages) for number, it in outcome.answers.items()}
        speakers.append(Speaker(name, [outcome], joined, given, everybody))
    status = print_answers(command, script.units(), speakers, given.headings)
    failures.update((it.name, it.failure) for it in speakers if it.failure is not None)
    for name, failure in failures.items():
        say(command, name, [failure.text])
    return UNUSABLE if failures else status


# --- parts of one tree


def shared_files(parts: List[Part]) -> Dict[bytes, List[Tuple[bytes, bytes]]]:
    """The paths that several snapshots record, each with the checksums of its records (blocks_of), and the snapshots."""
    having = Counter(line.partition(b"\0")[0] for part in parts for line in part.files.lines())
    known: Dict[bytes, List[Tuple[bytes, bytes]]] = {}
    for part in parts:
        for above, *files in (line.split(b"\0") for line in part.files.lines()):
            for file in files if having[above] > 1 else ():
                known.setdefault(above + b"/" + file[SIZE:], []).append((file[:SIZE], part.label))
    return {read_path(name): found for name, found in known.items() if len(found) > 1}


def files_of_several(parts: List[Part]) -> List[bytes]:
    """The paths that several of some snapshots of one tree record, in path order."""
    return sorted(shared_files(parts), key=path_order)


def differing_file(parts: List[Part]) -> Optional[bytes]:
    """The first path that two snapshots record differently, and which these are."""
    shared = shared_files(parts)
    found = [(path, its[0][1], label) for path, its in shared.items() for checksum, label in its if checksum != its[0][0]]
    if not found:
        return None
    path, first, second = min(found, key=lambda it: path_order(it[0]))
    return live_name(path) + b": is recorded differently in " + first + b" and in " + second


def differing_id(parts: List[Part]) -> Optional[bytes]:
    """The first name of a user or a group that has two ids, and where."""
    known: Dict[Tuple[str, str], Tuple[int, bytes]] = {}
    for part in parts:
        for kind, ids in (("user", part.head.users), ("group", part.head.groups)):
            for name, number in ids.items():
                first, label = known.setdefault((kind, name), (number, part.label))
                if first != number:
                    whose = (kind + " " + name).encode("latin-1")
                    return whose + b": has the id %d in %s and %d in %s" % (first, label, number, part.label)
    return None


def say_notices(command: Command, parts: List[Part], is_acl5: bool) -> None:
    """What the snapshots cannot tell, each of it once, and by how many lists Linux grants otherwise than acl(5)'s check."""
    for text in dict.fromkeys(text for part in parts for text in part.head.unknown):
        command.say(next(part.label for part in parts if text in part.head.unknown) + b": " + text)
    if is_acl5:
        names = {name for part in parts for name in part.head.otherwise}
        command.say(overview.by_acl5(sorted(names, key=lambda name: path_order(read_path(name)))))


def check_same(known: List[Part], parts: List[Part]) -> None:
    """Fails where a snapshot that answers again is another one."""
    for before, part in zip(known, parts):
        if part.head.state != before.head.state:
            raise Failure(part.label + EXCHANGED)


def shared_names(paths: List[bytes]) -> Optional[List[bytes]]:
    """Names of files that several snapshots have, as words of a script without quotes; None where these are too many."""
    names = [path_word(path)[1:-1] for path in paths]
    return names if len(names) <= MOST_SHARED and sum(map(len, names)) <= ROOM_FOR_SHARED else None


def run_parts(servers: List[Server], options: List[bytes], script: bytes, seconds: int, shared: Sequence[bytes] = ()) -> List[Part]:
    """The answers of all snapshots, of which those of another machine end after `seconds`; of `shared` several have a file."""
    parts: List[Part] = []
    for server, outcome in zip(servers, run_all(servers, options, script, seconds, shared)):
        if isinstance(outcome, Failure):
            raise Failure((server.host + b": " if server.host else b"") + outcome.text)
        parts.append(outcome)
    return parts


def answer_script(command: Command, servers: List[Server], given: argparse.Namespace) -> int:
    """Answers standard input over all snapshots, again where it has lines that count, and for each line that is dropped."""
    script = read_text("-")
    units, everybody = script.units(), everybody_in(lambda: [script.text])
    program, seconds = part_options(given, everybody), given.timeout or SECONDS
    parts = run_parts(servers, [*[b"--records"] * (len(servers) > 1), *program], script.text, seconds)
    fault = differing_file(parts) or differing_id(parts)
    if fault is not None:
        raise Failure(fault + b", so they are no parts of one tree: ask servers by --hosts NAME:DIR..")
    say_notices(command, parts, given.acl5)
    shared = files_of_several(parts) if any(map(is_counting, units)) else []
    names = shared_names(shared)
    too_many = b"" if names is not None else (
        counted(len(shared), "file is", "files are") + b" in several of the snapshots, too many to count each once; "
        b"ask one snapshot alone")
    dropped: Dict[int, Joined] = {}
    while True:
        if names or dropped:  # They answer again, and say what they count of the files that several have.
            known = parts
            parts = run_parts(servers, program, without(script.text, units, set(dropped)), seconds, names or ())
            check_same(known, parts)
        joined = join_all(units, parts, dropped, too_many)
        new = next((number for number, it in joined.items() if it.is_dropped and number not in dropped), None)
        if new is None:
            return print_answers(command, units, [Speaker(b"", parts, joined, given, everybody)], given.headings)
        dropped[new] = joined[new]


def answer_parts(command: Command, folders: List[str], given: argparse.Namespace) -> int:
    try:
        return answer_script(command, servers_of(list(map(os.fsencode, folders))), given)
    except (LookupError, ValueError) as error:
        raise Failure(NOT_READABLE) from error
