"""What Linux looks at beside the lists of a file, in the words of a snapshot.

The file `marks` of a snapshot has a line `KIND NAME` for each file that is IMMUTABLE or APPEND_ONLY, with its name as in the
dump; and one for each that is mounted otherwise than what it is in: its KIND is then the word of a mount, which goes for all
that is below, up to other such lines. Where no line says how a file is mounted, it is PLAIN; a device, a FIFO or a socket is so
anywhere, since that is not opened on the file system itself. `meta` counts files by KINDS.
"""
from __future__ import annotations

import os
from typing import Tuple

from . import linux

NAME = b"marks"
IMMUTABLE, APPEND_ONLY = b"immutable", b"append-only"
OF_FILES = (IMMUTABLE, APPEND_ONLY)
ATTRIBUTES: Tuple[Tuple[int, bytes], ...] = ((linux.IMMUTABLE, IMMUTABLE), (linux.APPEND_ONLY, APPEND_ONLY))
PLAIN, UNKNOWN_MOUNT = b"rw", b"unknown"  # Words of a mount, as mount(8) has them; the others are made by word_of.
MOUNTS = (PLAIN, b"ro", b"rw,noexec", b"ro,noexec", UNKNOWN_MOUNT)
READ_ONLY, NOEXEC = b"on-read-only", b"on-noexec"  # Files that are mounted so.
ATTRIBUTES_UNKNOWN = b"attributes-unknown"  # Files of which the file system does not say whether they have attributes.
NFS4_LIST, RICH_LIST, SAMBA_LIST = b"nfs4-list", b"rich-list", b"samba-list"  # Files with lists that are not those of acl(5).
OTHER_LISTS = (NFS4_LIST, RICH_LIST, SAMBA_LIST)
KINDS = (IMMUTABLE, APPEND_ONLY, READ_ONLY, NOEXEC, ATTRIBUTES_UNKNOWN, *OTHER_LISTS)


def word_of(descriptor: int) -> bytes:
    """How an open file is mounted: what the mount and its file system allow."""
    try:
        flags, is_read_only = os.fstatvfs(descriptor).f_flag, linux.is_read_only(descriptor)
    except OSError:
        return UNKNOWN_MOUNT
    return (b"ro" if is_read_only else PLAIN) + b",noexec" * bool(flags & os.ST_NOEXEC)


def of_mount(word: bytes) -> Tuple[bytes, ...]:
    """The kinds of the files that are mounted so."""
    words = word.split(b",")
    return tuple(kind for kind, it in ((READ_ONLY, b"ro"), (NOEXEC, b"noexec")) if it in words)
