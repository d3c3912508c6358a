"""Looks at many files by several processes side by side, which change nothing."""
from __future__ import annotations

from functools import partial
from typing import Any, List, Union

from ..base.acl_bytes import Record
from ..base.linux import Identity
from ..base.live import PLACES, NotFound, Opener, Seen
from ..base.messages import reason
from ..base.workers import Helper, parts_of

Found = Union[Seen, bytes]  # A file as it is, or why its path does not lead to one.


def look_at_one(opener: Opener, path: bytes) -> Found:
    try:
        return opener.look(path)
    except NotFound as error:
        return error.text
    except OSError as error:
        return reason(error)


def look(paths: List[bytes]) -> List[Found]:
    """What is found of each path."""
    with Opener() as opener:
        return [look_at_one(opener, path) for path in paths]


def send_look(paths: List[bytes]) -> List[Any]:
    """What a process of its own finds of each path, as it can be sent."""
    PLACES.begin_in_own_process()
    return [it if isinstance(it, bytes) else (tuple(it.identity), it.mode, it.names, tuple(it.record), it.beside)
            for it in look(paths)]


def received(sent: List[Any]) -> List[Found]:
    """What send_look found; equal records are one value."""
    records = {it[3]: Record(*it[3]) for it in sent if not isinstance(it, bytes)}
    return [it if isinstance(it, bytes) else Seen(Identity(*it[0]), it[1], it[2], records[it[3]], it[4]) for it in sent]


def look_at_all(paths: List[bytes]) -> List[Found]:
    """What is found of each path, by several processes where there are many; where one ended early, this process looks."""
    parts = parts_of(paths)
    helpers: List[Helper] = []
    try:
        for part in parts[1:]:
            helpers.append(Helper(partial(send_look, part), keeps_signals=False))
        found = look(parts[0]) if parts else []
        for helper, part in zip(helpers, parts[1:]):
            result = helper.result()
            found += received(result) if isinstance(result, list) else look(part)
    finally:
        for helper in helpers:
            helper.end()
    return found
