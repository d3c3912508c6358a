"""facl import: makes a snapshot of any text of getfacl -R, with the users and groups of files or of this system."""
from __future__ import annotations

import argparse
import os

from ..base.folders import TEXTS, folder_of
from ..base.messages import Command
from ..base.names import shell_word
from ..base.programs import find_program
from ..model import sources
from ..program.protocol import LIST
from ..program.session import Session
from ..snapshot.recording import write_file
from ..snapshot.target import NewSnapshot, place_of


def body(command: Command, given: argparse.Namespace) -> int:
    texts = argparse.Namespace(dump=given.dump, passwd=given.passwd, group_file=given.group)
    target = os.fsencode(given.output)
    with sources.opened(texts) as source:
        with Session(find_program(given), source.folder) as session:
            session.ask(LIST + b" .\n")  # Where the program does not load the texts, it says so.
        place = place_of(target)
        with NewSnapshot(place, command.say) as new:
            for name in TEXTS:
                write_file(new.made, name, folder_of(source.folder).read(name))
            new.put_in_place(None)
        notice = sources.notice(source.folder, folder_of(source.folder).read(sources.DUMP))
    if notice is not None:
        command.say(source.shown + b": " + notice)
    name = os.path.basename(target) if given.in_store else target
    command.tell(b"imported " + source.shown + b"; to use it: -s " + shell_word(name))
    return 0
