"""facl daily --install: has the timer of systemd run `facl daily` each day, with the words of the line."""
from __future__ import annotations

import argparse
import itertools
import os
import shutil
import stat
import subprocess
from typing import Iterator, Optional

from ..base import new_file, trusted
from ..base.messages import Command, Failure
from ..base.names import PLAIN_SHELL_WORD
from ..base.programs import environment_of_called
from ..daily.text import find_sendmail
from .options import BY_FIELD, FILE, VerbOption
from .store import STORE
from .table import BY_VERB, of_option

SETTINGS = b"/etc/default/facl-daily"
TIMER = "facl-daily.timer"
UNITS = ("/usr/lib/systemd/system", "/lib/systemd/system", "/etc/systemd/system")
HEAD = b"# The store and the words of `facl daily`, which the timer starts: man facl-daily. `facl daily --install` wrote them.\n"
KEPT = b".before"  # After the name of settings that were there.


def value_of(option: VerbOption, given: argparse.Namespace) -> object:
    """The value of an option; a file has its name from the root on, since the timer starts there."""
    value = getattr(given, option.field())
    return os.path.abspath(value) if option.kind == FILE and value else value


def settings_of(given: argparse.Namespace) -> bytes:
    """The file of settings: the store, and the words of the line but for --install. systemd cuts these at blanks."""
    options = [BY_FIELD[field] for field in BY_VERB["daily"].options if field != "install"]
    line = [word for it in options for word in of_option(it.names[-1], value_of(it, given))]
    words = [os.fsencode(word) for word in [*line, "--", *given.folders]]
    store = os.fsencode(given.store)
    for folder in map(os.fsencode, given.folders):
        if not folder.startswith(b"/"):
            raise Failure(folder + b": give a FOLDER from the root on")
    for word in (store, *words):
        if not PLAIN_SHELL_WORD.match(word):
            raise Failure(word + b": the timer takes words of letters, digits and ./:=@%+,_- alone")
    return HEAD + b'%s=%s\nFACL_DAILY="%s"\n' % (STORE, store, b" ".join(words))


def kept_names(name: bytes) -> Iterator[bytes]:
    """Names for settings that were there, of which the first is taken that nothing has."""
    yield name + KEPT
    yield from (name + KEPT + b"%d" % number for number in itertools.count(2))


def write_settings(text: bytes) -> Optional[bytes]:
    """Puts the settings in place; returns the name under which others are kept that were there."""
    above, name = os.path.split(SETTINGS)
    folder, kept = trusted.open_folder(above), None
    made = b"." + name + b"." + os.urandom(8).hex().encode()
    new_file.write(made, folder, text)
    if new_file.is_there(name, folder) and not has_text(name, folder, text):
        kept = next(it for it in kept_names(name) if not new_file.is_there(it, folder))
        os.rename(name, kept, src_dir_fd=folder, dst_dir_fd=folder)
    os.replace(made, name, src_dir_fd=folder, dst_dir_fd=folder)
    os.close(folder)
    return kept and os.path.join(above, kept)


def has_text(name: bytes, folder: int, text: bytes) -> bool:
    """Whether a name of an open folder is a plain file with this text alone."""
    try:
        descriptor = os.open(name, os.O_RDONLY | os.O_NOFOLLOW | os.O_NONBLOCK | os.O_CLOEXEC, dir_fd=folder)
    except OSError:
        return False
    with open(descriptor, "rb") as file:
        return stat.S_ISREG(os.fstat(descriptor).st_mode) and file.read(len(text) + 1) == text


def body(command: Command, given: argparse.Namespace) -> int:
    systemctl = shutil.which("systemctl")
    if systemctl is None or not any(os.path.exists(os.path.join(folder, TIMER)) for folder in UNITS):
        raise Failure(b"there is no facl-daily.timer, which the Debian package has; let cron run facl daily instead")
    if given.mail:
        find_sendmail()  # Else the first night would fail, and nobody would get a mail of it.
    kept = write_settings(settings_of(given))
    if kept is not None:
        command.say(b"kept the earlier settings as " + kept)
    done = subprocess.run([systemctl, "enable", "--now", TIMER], stdin=subprocess.DEVNULL, stdout=subprocess.DEVNULL,
                          env=environment_of_called(), check=False)
    if done.returncode != 0:
        raise Failure(b"systemctl enable --now facl-daily.timer: status %d" % done.returncode)
    command.tell(b"the timer runs it each day, with the words of " + SETTINGS)
    return 0
