"""Which users and which folders a report is about: people alone or all users, and folders as a person writes them."""
from __future__ import annotations

import argparse
import os
from typing import Callable, Dict, Iterable, Iterator, List, Set

from ..base.accounts import PEOPLE, SUPERUSER, is_person
from ..base.messages import Failure, counted
from ..base.names import live_name, path_word, read_name, read_path, write_user
from ..program.protocol import LIST
from ..program.session import Session
from . import meta, sources
from .people import ids_in, rows_of, superusers_among


def add_choice(parser: argparse.ArgumentParser, folders: str = "*", default: str = "all files") -> None:
    """Takes --all-users, --with-root and --file-alone; and FOLDERs, as many as the word for nargs says, or none. The
    default is what is looked at without a FOLDER, in the words of --help."""
    parser.add_argument("--all-users", action="store_true", help=f"all users, and not people alone ({PEOPLE})")
    parser.add_argument("--with-root", action="store_true",
                        help="also the users of uid 0, to whom the kernel grants nearly everything")
    parser.add_argument("--file-alone", action="store_true",
                        help="judge each file alone, without search permission on its parent directories")
    if folders:
        parser.add_argument("folders", metavar="FOLDER", nargs=folders, default=[],
                            help="as on the live system, or from the root of the snapshot; without one, " + default)


# --- the head of JSON


def head_of(given: argparse.Namespace, folder: bytes, about: meta.Meta) -> Dict[str, object]:
    """What each object of JSON has first: the snapshot that it is of, and by which options."""
    options = {name: bool(value) for name, value in sorted(vars(given).items()) if name in ("all_users", "with_root")}
    return {"snapshot": meta.fields_of(folder, about), "options": {"along_paths": not given.file_alone, **options}}


# --- users


def is_chosen(uid: int, given: argparse.Namespace) -> bool:
    return bool(given.with_root) if uid == SUPERUSER else bool(given.all_users) or is_person(uid)


def kept(users: Iterable[bytes], given: argparse.Namespace, passwd: bytes) -> List[bytes]:
    """Those of some users, by their names as the program prints them, whom a report is about."""
    ids = ids_in(passwd)
    return [user for user in users if read_name(user) in ids and is_chosen(ids[read_name(user)], given)]


def notes(left_out: Iterable[bytes], passwd: bytes) -> Iterator[bytes]:
    """What is said of users who have something to be printed, and are left out; root alone needs no word."""
    users, superusers = list(left_out), superusers_among(ids_in(passwd).items())
    accounts, roots = ([user for user in users if (read_name(user) in superusers) is is_root] for is_root in (False, True))
    if accounts:
        yield b"%s not shown (%s); --all-users shows %s" % (
            counted(len(accounts), "system account"), few(accounts), b"it" if len(accounts) == 1 else b"them")
    if roots not in ([], [b"root"]):
        yield b"users with the uid 0 not shown (" + few(roots) + b"); --with-root shows them"


def few(names: List[bytes]) -> bytes:
    """The first of some names, in a message."""
    return b", ".join(names[:5]) + b" .." * (len(names) > 5)


def in_order(users: Iterable[bytes], passwd: bytes) -> List[bytes]:
    """Users, by their names as the program prints them, in the order of their rows."""
    wanted = set(users)
    return [user for user in (write_user(row[0]) for row in rows_of(passwd)) if user in wanted]


# --- folders


def paths_of(word: bytes) -> List[bytes]:
    """What a word can mean: a name as the system has it, or as the program prints it."""
    plain = read_path(word.replace(b"\\", b"\\\\"))
    return list(dict.fromkeys([plain, read_path(word)]))


def refuse_empty(word: bytes) -> None:
    """Fails for a word without characters, as a variable that is not set leaves it: it would mean all files."""
    if not word:
        raise Failure(b"an empty word is not a FILE or FOLDER; / means all files")


def is_recorded(session: Session, path: bytes) -> bool:
    """Whether the program has a file of this path; it has none of one with `..`, or of one that is too long."""
    return not session.ask(LIST + b" " + path_word(path) + b"\n").messages


def folders_made_of(session: Session) -> List[bytes]:
    """The folders that a snapshot was made of, without the directories above them; its tops where that is not known."""
    words = meta.meta_of(session.folder).folders
    found = [path for path in map(read_path, words) if is_recorded(session, path)]  # As in the dump, with escapes.
    return found if len(found) == len(words) and found else sources.find_tops(session, session.folder)


def recorded_path(word: bytes, is_there: Callable[[bytes], bool], about: Callable[[], bytes] = bytes) -> bytes:
    """The path of a word of a person; fails where it is not there, with what is said about the snapshot."""
    refuse_empty(word)
    for path in filter(is_there, paths_of(word)):
        return path
    raise Failure(word + b": is not recorded" + about())


def folder_of(session: Session, word: bytes) -> bytes:
    """The path of a word of a person, in the snapshot of a session."""
    def about() -> bytes:
        folders = folders_made_of(session)
        return b": the snapshot is of " + few(list(map(live_name, folders))) if folders else b": the snapshot has no files"
    return recorded_path(word, lambda path: is_recorded(session, path), about)


def folders_in(words: Iterable[str], recorded_of: Callable[[Set[bytes]], Set[bytes]]) -> List[bytes]:
    """The paths of words of a person, in a snapshot that no session is over: recorded_of has those that it records."""
    named = [*map(os.fsencode, words)]
    recorded = recorded_of({path for word in named for path in paths_of(word)}) if named else set()
    return [recorded_path(word, recorded.__contains__) for word in named]


def folders_of(session: Session, words: Iterable[str]) -> List[bytes]:
    """The paths of some words; without words the tops of the snapshot, at or below which all files are."""
    found = [folder_of(session, os.fsencode(word)) for word in words] or sources.find_tops(session, session.folder)
    if not found:
        raise Failure(b"the snapshot has no files; make one with facl snapshot")
    return found
