"""Files that a command makes for itself while it works, in $TMPDIR, /tmp or /var/tmp.

The place is opened, and has to be trusted: nobody else than root and the caller can exchange what is in it. The current
folder is never used. A file has no name once it is made, and goes with the command.
"""
from __future__ import annotations

import errno
import os
import secrets
from typing import IO

from .messages import Failure, held, reason, signals_wait
from .new_file import create
from .trusted import open_folder

USUAL = (b"/tmp", b"/var/tmp")
PROBE = bytes(4096)  # What is written to try a place: a file system without room still makes empty files.


def make_file(folder: int, prefix: str) -> IO[bytes]:
    """Makes a file without a name in an open folder; fails if the folder has no room."""
    name = os.fsencode(prefix) + secrets.token_hex(8).encode()
    with signals_wait():
        descriptor = create(name, folder)
        os.unlink(name, dir_fd=folder)
    try:
        if os.pwrite(descriptor, PROBE, 0) < len(PROBE):
            raise OSError(errno.ENOSPC, os.strerror(errno.ENOSPC))
        os.ftruncate(descriptor, 0)
        return open(descriptor, "w+b")
    except OSError:
        os.close(descriptor)
        raise


def new_file(prefix: str) -> IO[bytes]:
    """Makes a file for what the command keeps, in the first place that can be used."""
    given = os.environb.get(b"TMPDIR", b"")
    faults = []
    for name in [given] * given.startswith(b"/") + [*USUAL]:
        try:
            with held(open_folder(name)) as place:
                return make_file(place, prefix)
        except (Failure, OSError) as fault:
            faults.append(fault.text if isinstance(fault, Failure) else name + b": " + reason(fault))
    raise Failure(b"no place for files of the command's own: " + b"; ".join(faults))
