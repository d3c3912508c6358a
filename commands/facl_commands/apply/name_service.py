"""What the name service of the system has of one user or group by name, and what /etc/passwd and /etc/group have; and the tools
that are run for by_hand."""
from __future__ import annotations

import os
import shutil
import subprocess
from typing import Dict, NamedTuple, Optional, Tuple

from ..base.programs import environment_of_called
from ..base.messages import Failure
from ..base.names import write_name
from .carrying import Mismatch

NOT_FOUND = 2  # The status of getent where there is no such row.
Ids = Tuple[bytes, bytes]  # UID and GID of a user, GID and MEMBERS of a group.


class Row(NamedTuple):
    """What the name service has of a name, and what /etc/passwd or /etc/group has."""

    found: Optional[Ids]
    local: Optional[Ids]

    def is_local(self) -> bool:
        return self.local is not None and self.found is not None and self.local[0] == self.found[0]


def environment() -> Dict[str, str]:
    """That of the tools, which are in folders that the path of a user may lack."""
    return {**environment_of_called(), "LC_ALL": "C", "PATH": os.environ.get("PATH", os.defpath) + ":/usr/sbin:/sbin"}


def tool_of(name: bytes) -> bytes:
    found = shutil.which(os.fsdecode(name), path=environment()["PATH"])
    if found is None:
        raise Failure(name + b": is not installed", 1)
    return os.fsencode(found)


def getent(*words: bytes) -> Tuple[int, bytes]:
    done = subprocess.run([tool_of(b"getent"), *words], stdout=subprocess.PIPE, env=environment(), check=False)
    return done.returncode, done.stdout


def row_by(name: bytes, *words: bytes, key: Tuple[bytes, ...] = ()) -> Optional[Ids]:
    """The row of a name in what getent prints; of a key there may be none."""
    status, text = getent(*words, *key)
    if status not in (0, NOT_FOUND if key else 0):
        raise Failure(b"getent " + b" ".join(words) + b" fails", 1)
    rows = [line.split(b":") for line in text.splitlines()]
    return next(((it[2], it[3]) for it in rows if it[0] == name and len(it) > 3), None)


def look_up(database: bytes, name: bytes, number: int) -> Row:
    """Looks up the one name, as a directory service may list nobody. getent takes a name of digits for an id: then it looks up
    the id, and the name is compared."""
    local = row_by(name, b"-s", b"files", database)
    return Row(row_by(name, database, key=(b"--", b"%d" % number if name.isdigit() else name)) or local, local)


def row_with(database: bytes, name: bytes, number: int) -> Row:
    """The row of a name, which has to have this id."""
    row = look_up(database, name, number)
    if row.found is None or row.found[0] != b"%d" % number:
        noun = {b"passwd": b"user ", b"group": b"group "}[database]
        raise Mismatch(noun + write_name(name) + b": is not there with the id %d" % number)
    return row
