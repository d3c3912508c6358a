"""A disk that loses what it need not keep: its writes are logged, and a power cut leaves some of those since the last flush.

To kill qemu models a loss of the machine's memory alone: what the disk has answered is in a file of this system, which does not
lose power. So the disk goes through the filter blklogwrites of qemu, which notes each write and each flush in a log, in the form
of dm-log-writes. After a cut the disk is made of what it was at the start: with all writes up to the last flush, as a disk has to
keep these, and of the later ones with all, with none, or with those that a coin says, in their order.
"""
from __future__ import annotations

import os
import random
import shutil
import struct
from pathlib import Path
from typing import Iterator, List, NamedTuple, Sequence

from .script import Failed

SECTOR = 512
MAGIC = 0x6A736677736872
SUPER, ENTRY = struct.Struct("<QQQI"), struct.Struct("<QQQQ")
FLUSH, DISCARD = 1, 4
WAYS = ("all", "some", "none")  # What is left of the writes since the last flush.


class Write(NamedTuple):
    start: int  # Bytes.
    content: bytes
    is_flush: bool


class LoggedDisk:
    """A disk, as it was at the last start of the machine, as it is now, and the log of what was written between."""

    def __init__(self, folder: str, size: int) -> None:
        self.before, self.now, self.log = (os.path.join(folder, name) for name in ("disk.before", "disk.now", "disk.log"))
        with open(self.before, "wb") as file:
            file.truncate(size)

    def words(self) -> List[str]:
        """The words of qemu for the disk, at the start of a machine."""
        return [*self.nodes(), "-device", "virtio-blk-pci,drive=logged,serial=data"]

    def nodes(self, option: str = "-blockdev") -> List[str]:
        """The words for what is between the files and the device, with an empty log."""
        shutil.copyfile(self.before, self.now)
        Path(self.log).write_bytes(b"")
        nodes = (f"driver=file,filename={self.now},node-name=file", f"driver=file,filename={self.log},node-name=log",
                 "driver=raw,file=file,node-name=disk", "driver=raw,file=log,node-name=raw_log",
                 f"driver=blklogwrites,file=disk,log=raw_log,log-sector-size={SECTOR},node-name=logged")
        return [word for node in nodes for word in (option, node)]

    def keep(self) -> None:
        """After a machine was switched off in order: all that was written."""
        os.replace(self.now, self.before)

    def cut(self, way: str, chance: random.Random) -> str:
        """After a power cut: what the disk had to keep, and of the rest what the way says. Says how many writes are lost."""
        return lose(self.before, list(entries(Path(self.log).read_bytes())), way, chance)


def lose(disk: str, writes: Sequence[Write], way: str, chance: random.Random) -> str:
    """Does to a disk what is left of writes after a power cut. Says how many are lost."""
    last = max((place for place, it in enumerate(writes) if it.is_flush), default=-1)
    later = [place for place in range(last + 1, len(writes)) if not writes[place].is_flush]
    share = {"all": 0.0, "some": 0.5, "none": 1.0}[way]
    lost = {place for place in later if chance.random() < share}
    with open(disk, "r+b") as file:
        for place, it in enumerate(writes):
            if place not in lost:
                file.seek(it.start)
                file.write(it.content)
    return f"{way} of {len(later)} writes since the last flush, {len(lost)} lost"


def entries(log: bytes) -> Iterator[Write]:
    """The writes and flushes of a log, in their order, up to the first that was not written whole."""
    if len(log) >= SUPER.size and SUPER.unpack_from(log)[0] != MAGIC:
        raise Failed("the log of the disk has another form")
    place = SECTOR
    while place + ENTRY.size <= len(log):
        sector, count, flags, _ = ENTRY.unpack_from(log, place)
        size = 0 if flags & DISCARD else count * SECTOR
        if not (count or flags) or place + SECTOR + size > len(log):
            return
        yield Write(sector * SECTOR, log[place + SECTOR:place + SECTOR + size], bool(flags & FLUSH))
        place += SECTOR + size
