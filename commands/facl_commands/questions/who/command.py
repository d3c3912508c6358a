"""facl-who: who may do what with the files of a snapshot, and by which entries; what one user may do, owns or is named on;
who can remove a file; which list a new file gets."""
from __future__ import annotations

import argparse
import os
from typing import Dict, Iterator, List

from ...base import tables
from ...base.accounts import SUPERUSER
from ...base.beside import NOEXEC
from ...base.folders import folder_of, is_folder
from ...base.messages import Command, Failure, parser_of
from ...base.names import json_text, shell_word
from ...base.programs import find_program
from ...model import choice, meta, overview, sources
from ...model.everybody import world_of
from ...model.snapshot import NEEDED, check_texts
from ...model.sources import Source
from . import answers, of_folder
from .asking import Asker, WhoAnswer, read_rights

SCHEMA = "facl-who/1"
SOMEBODY, NOBODY = 0, 1
# The words of each question; all but the first are named by an option.
QUESTIONS: Dict[str, str] = {
    "": "PERMS[,PERMS..] SNAPSHOT [FOLDER..]",
    "--user": "--user USER [--depth N] SNAPSHOT [FOLDER..]",
    "--owner": "--owner USER SNAPSHOT [FOLDER..]",
    "--names": "--names USER SNAPSHOT [FOLDER..]",
    "--remove": "--remove FILE SNAPSHOT",
    "--new-file": "--new-file FOLDER USER [--umask MASK] SNAPSHOT",
}
WITHOUT_FOLDERS = ("--remove", "--new-file")
HELP = """\
Says who may do what with the files of a snapshot: a row for each person, with the number of files at or below the
FOLDERs, the first of them, and the entries of its list by which the person may. PERMS is read, write, enter, or
letters of rwx, granted together. By other options: what one user may do, by folder; which files somebody
owns, or is named on; who can remove a file; which lists a new file and a new folder of a user get.

The row `everybody else` comes first: what a user may do whom no list names, as one whom the snapshot does not have.

A FOLDER is written as on the live system, or from the root of the snapshot, and may be a file; without one those that
the snapshot was made of are looked at. A user needs search on all directories above a file, unless --file-alone is
given. USER is a name or an id. Nothing is changed.
"""
STATUS = """\
The exit status is 0 if there is an answer; 1 if it is empty: nobody, or nothing; 2 if the words or the
snapshot cannot be used.

    facl-snapshot before /srv/project          first, as root
    facl-who write before /srv/project         who can change what is there
    facl-who read,write before /srv/project/notes.txt
    facl-who --user mara before                what mara may do, by folder
"""


def question_of(words: List[str]) -> str:
    """The option that names the question; nothing if the question is PERMS."""
    options = words[: words.index("--")] if "--" in words else words
    return next((name for name in QUESTIONS for word in options
                 if name and (word == name or word.startswith(name + "="))), "")


def usage() -> str:
    return "\n".join("%sfacl-who [OPTION].. %s" % ("       " * bool(name), words) for name, words in QUESTIONS.items())


def add_questions(parser: argparse.ArgumentParser) -> None:
    form = parser.add_mutually_exclusive_group()
    form.add_argument("--user", metavar="USER", help="what a user may do, by folder; also 'everybody else'")
    form.add_argument("--owner", metavar="USER", help="the files that a user owns; an id needs no user")
    form.add_argument("--names", metavar="USER", help="the files of which an entry names a user; an id needs no user")
    form.add_argument("--remove", metavar="FILE", help="who can remove a file")
    form.add_argument("--new-file", metavar=("FOLDER", "USER"), nargs=2,
                      help="which ACLs a new file and a new folder of a user get there")
    parser.add_argument("--depth", metavar="N", type=depth, default=2,
                        help="with --user: folders so far below each FOLDER; 2 without it")
    parser.add_argument("--umask", metavar="MASK", type=mask, default="022",
                        help="with --new-file: the umask where the folder has no default ACL (default: 022)")
    parser.add_argument("--lists-alone", action="store_true",
                        help="also files that nobody can write, though ACLs grant it: immutable ones, and those on read-only file "
                        "systems")


def depth(word: str) -> int:
    if not word.isdecimal() or not word.isascii() or int(word) > 1000:
        raise argparse.ArgumentTypeError("%r is no number up to 1000" % word)
    return int(word)


def mask(word: str) -> str:
    if not 1 <= len(word) <= 4 or set(word) - set("01234567") or int(word, 8) > 0o777:
        raise argparse.ArgumentTypeError("%r is not a mask of octal digits up to 0777" % word)
    return word


def parse(words: List[str]) -> argparse.Namespace:
    parser = parser_of("facl-who", HELP, STATUS)
    parser.usage = usage()
    question = question_of(words)
    add_questions(parser)
    if not question:
        parser.add_argument("perms", metavar="PERMS", help="read, write, enter or letters of rwx; commas between several")
    sources.add_source(parser, words)
    choice.add_choice(parser, "" if question in WITHOUT_FOLDERS else "*", "those that the snapshot was made of")
    tables.add_output(parser)
    given = parser.parse_intermixed_args(words)
    given.question = question
    return given


def check_source(command: Command, source: Source, given: argparse.Namespace) -> None:
    """Fails where there is no snapshot, with the order of the words, which are easily exchanged, but in a verb."""
    words = b"; the words are: facl-who " + QUESTIONS[given.question].encode() if command.name == b"facl-who" else b""
    if os.path.isfile(source.folder):
        raise Failure(source.shown + b": is a file, not a snapshot; if getfacl -R printed it, make one of it: facl import "
                      + shell_word(source.shown) + words)
    if not is_folder(source.folder) or not all(map(folder_of(source.folder).has, NEEDED)):
        raise Failure(source.shown + b": is not a snapshot; make one as root with facl snapshot FOLDER" + words)
    check_texts(source.folder)


def answer_of(asker: Asker) -> WhoAnswer:
    given, session = asker.given, asker.session
    if given.remove is not None:
        asker.named = [of_folder.removed_path(asker, given.remove)]
        return of_folder.answer_remove(asker, asker.named[0])
    if given.new_file is not None:
        folder, user = map(os.fsencode, given.new_file)
        asker.named = [choice.folder_of(session, folder)]
        return of_folder.answer_new_file(asker, asker.named[0], asker.user_of(user, has_row=True))
    folders = choice.folders_of(session, given.folders) if given.folders else choice.folders_made_of(session)
    asker.folders, asker.named = folders, folders if given.folders else []
    if given.user is not None:
        return answers.of_user(asker, asker.anybody(os.fsencode(given.user)), folders)
    for question, word in (("owner", given.owner), ("names", given.names)):
        if word is not None:
            return answers.files_of_user(asker, question, asker.user_of(os.fsencode(word)), folders)
    return answers.of_rights(asker, read_rights(given.perms), folders)


def object_of(asker: Asker, source: Source, answer: WhoAnswer) -> Dict[str, object]:
    """With what Linux looks at beside lists: the marks of files that a person names, and how many were left out."""
    marked = [{"path": json_text(asker.name_of(path)), "marks": list(map(json_text, asker.marks.of(path)))}
              for path in asker.named]
    left_out = {} if asker.unwritable is None else asker.unwritable.numbers
    return {**choice.head_of(asker.given, source.shown, meta.meta_of(asker.session.folder)), "question": answer.question,
            **answer.fields, "left_out": list(map(json_text, answer.left_out)),
            "marked": [it for it in marked if it["marks"]],
            "unwritable": {json_text(kind): number for kind, number in left_out.items() if number}}


def write_answer(command: Command, asker: Asker, source: Source, answer: WhoAnswer) -> None:
    given = asker.given
    if given.json:
        tables.write_json(command, given, SCHEMA, object_of(asker, source, answer))
        return
    if given.tsv or answer.table.rows:
        tables.write_table(command, given, answer.table)
    else:
        command.tell(answer.empty)
    if not given.tsv:
        for line in answer.after if answer.table.rows else ():
            command.tell(line)
        for path in asker.named:
            for text in (*asker.marks.texts(path), *asker.other_names(path)):
                command.tell(asker.name_of(path) + b": " + text)


def notes(asker: Asker, answer: WhoAnswer) -> Iterator[bytes]:
    """What is said of users who are left out, and where lists do not decide alone."""
    given = asker.given
    yield from choice.notes(answer.left_out, asker.passwd)
    if asker.unwritable is not None:
        yield b"not shown, as nobody can write them: " + asker.unwritable.text() + b"; --lists-alone shows them"
    asks_for_x = given.user is not None or not given.question and any(b"x" in it.letters for it in read_rights(given.perms))
    noexec = asker.judged_by.mounted(NOEXEC, asker.folders) if asks_for_x else []
    if noexec:
        yield b"on a noexec file system, where x of a file grants no execution: " + choice.few(list(map(asker.name_of, noexec)))


def body(command: Command, words: List[str]) -> int:
    given = parse(words)
    if not given.question:
        read_rights(given.perms)  # Before anything is loaded.
    with sources.opened(given) as source:
        check_source(command, source, given)
        program = find_program(given)
        overview.say_notices(command, source, given.acl5, is_alone=False)
        with world_of(program, source) as world:
            asker = Asker(world, given)
            answer = answer_of(asker)
            with tables.paged(command, not given.no_pager):
                write_answer(command, asker, source, answer)
        for note in () if given.json else notes(asker, answer):
            command.say(note)
        if given.user is not None and not given.with_root and asker.anybody(os.fsencode(given.user)).uid == SUPERUSER:
            command.say(os.fsencode(given.user) + b": has the uid 0, to which the kernel grants nearly everything; "
                        b"this is what ACLs grant it")
    return SOMEBODY if answer.table.rows else NOBODY
