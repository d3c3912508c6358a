"""What facl-snapshot records of files that Linux looks at beside their lists: the file `marks`, and the numbers in `meta`.

Nothing is opened for it. The attributes of a file come with its status, and how it is mounted is asked once of each mount; both by
a descriptor through which nothing can be read.
"""
from __future__ import annotations

import os
import stat
from functools import lru_cache
from typing import Dict, List, NamedTuple, Optional, Tuple

from ..base import beside
from ..base.linux import OF_KERNEL, TMPFS, UNKNOWN, Mount, file_system_of
from .runs import BITS, Sums

# Lists that are not those of acl(5), by the extended attributes that have them; TrueNAS has the second one.
LISTS = {"system.nfs4_acl": BITS[beside.NFS4_LIST], "system.nfs4_acl_xdr": BITS[beside.NFS4_LIST],
         "system.richacl": BITS[beside.RICH_LIST], "security.NTACL": BITS[beside.SAMBA_LIST]}
# What is said of a snapshot that has files of a kind.
SAID = {
    beside.IMMUTABLE: b"immutable files, which nobody can write whatever their ACLs say (see marks)",
    beside.APPEND_ONLY: b"append-only files, of which nobody can change what they have (see marks)",
    beside.READ_ONLY: b"files on read-only file systems, which nobody can write whatever their ACLs say (see marks)",
    beside.NOEXEC: b"files on noexec file systems, which nobody can run (see marks)",
    beside.ATTRIBUTES_UNKNOWN: b"files whose file systems do not say whether they are immutable",
    beside.NFS4_LIST: b"files with an NFSv4 ACL (system.nfs4_acl), which facl does not judge",
    beside.RICH_LIST: b"files with a rich ACL (system.richacl), which facl does not judge",
    beside.SAMBA_LIST: b"files with an ACL of Samba (security.NTACL), which Samba checks too, and facl does not",
}
# File systems that list the attributes of lists, where a file has them: ext4, xfs, btrfs, tmpfs. Others may have lists all the same.
LISTING = (0xEF53, 0x58465342, 0x9123683E, TMPFS)


class KnownMount(NamedTuple):
    """A mount that was met."""

    word: bytes
    bits: int  # Of its files.
    has_no_attributes: bool  # Where it does not say which a file has: a tmpfs that says none cannot have any.
    is_of_kernel: bool
    lists_all: bool  # Whether a file has no list that is not among its attributes.


class KnownMounts(Dict[Mount, KnownMount]):
    """The mounts that were met."""

    def of(self, mount: Mount, descriptor: int) -> KnownMount:
        """That of an open file."""
        if mount not in self:
            word, system = beside.word_of(descriptor), file_system_of(descriptor)
            bits = sum(BITS[kind] for kind in beside.of_mount(word))
            self[mount] = KnownMount(word, bits, system == TMPFS, system in OF_KERNEL, system in LISTING)
        return self[mount]


@lru_cache
def marked(file_type: int, attributes: int, known: KnownMount, above: bytes) -> Tuple[bytes, List[bytes], int]:
    """What counts beside lists of a file with these attributes, where the directory above is mounted by the word `above`: how it
    is mounted, the kinds of its lines of the file marks, and its bits. A device, a FIFO and a socket can be written on a read-only
    file system too."""
    word, bits = known.word, known.bits
    if bits and file_type not in (stat.S_IFREG, stat.S_IFDIR):
        word, bits = beside.PLAIN, 0
    kinds = [kind for bit, kind in beside.ATTRIBUTES if attributes & bit]  # UNKNOWN is none of these bits.
    bits |= sum(BITS[kind] for kind in kinds)
    if attributes == UNKNOWN and not known.has_no_attributes:
        bits |= BITS[beside.ATTRIBUTES_UNKNOWN]
    return word, [*[word] * (word != above), *kinds], bits


def numbers_of(sums: Sums) -> bytes:
    """The lines of meta."""
    numbers = [(beside.NAME, sums.lines), *((kind, sums.numbers[bit]) for kind, bit in BITS.items())]
    return b"".join(b"%s %d\n" % it for it in numbers)


def attributes_of(place: bytes) -> Optional[List[str]]:
    """The names of the attributes of an open file; None where they cannot be listed, as where there are too many."""
    try:
        return os.listxattr(place)
    except OSError:
        return None


def other_lists(place: bytes, names: Optional[List[str]]) -> int:
    """The bits of lists that an open file with these attributes has beside those of acl(5)."""
    bits = 0
    for it in LISTS if names is None else names:
        if it in LISTS and (names is not None or has_attribute(place, it)):
            bits |= LISTS[it]
    return bits


def has_attribute(name: bytes, attribute: str) -> bool:
    try:
        os.getxattr(name, attribute)
    except OSError:
        return False
    return True
