"""Whether a user or a group of a snapshot is a row of /etc/passwd or /etc/group, which the tools of the system change, or is of a
directory service."""
from __future__ import annotations

import os
from typing import NamedTuple, Optional

from ..base.messages import failing
from ..base.trusted import MOST, read_all
from ..model.meta import Meta, UNKNOWN, is_of_another_host, users_asked_for
from ..model.people import ids_of, rows_of

ETC = b"/etc"
USERS, GROUPS = b"passwd", b"group"


class Origins(NamedTuple):
    """What is known of the rows of a snapshot."""

    about: Meta
    passwd: bytes

    def is_of_this_host(self) -> bool:
        return self.about is not UNKNOWN and not is_of_another_host(self.about)

    def is_local(self, database: bytes, name: bytes, number: int) -> Optional[bool]:
        """None where that is not known: by a snapshot of another host, unless facl-snapshot found the user by an id or a name
        alone, which are the last rows."""
        asked = users_asked_for(self.about) or 0
        if database == USERS and asked and name in [row[0] for row in rows_of(self.passwd)[-asked:]]:
            return False
        if not self.is_of_this_host():
            return None
        return (b"%d" % number, name) in ids_of(text_of(os.path.join(ETC, database)))


def text_of(name: bytes) -> bytes:
    with failing(name, True), open(name, "rb") as file:
        return read_all(file, name, MOST)
