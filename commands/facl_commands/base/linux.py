"""Calls of Linux that Python does not have: a status with the birth and with what Linux looks at beside lists, a rename that
replaces nothing, patterns of names, and an end of writing."""
from __future__ import annotations

import ctypes
import errno
import os
import re
import signal
import stat
import struct
from functools import lru_cache
from typing import Iterator, NamedTuple, NoReturn, Optional, Set, Tuple

LIBRARY = ctypes.CDLL(None, use_errno=True)
AT_EMPTY_PATH, AT_SYMLINK_NOFOLLOW, AT_STATX_DONT_SYNC = 0x1000, 0x100, 0x4000
ITSELF = AT_EMPTY_PATH | AT_SYMLINK_NOFOLLOW
AS_KNOWN = ITSELF | AT_STATX_DONT_SYNC  # What Linux knows, without asking whoever has the files of a network or of a user.
STATX_BASIC_STATS, STATX_BTIME, STATX_MNT_ID = 0x7FF, 0x800, 0x1000
STATX_WANTED = STATX_BASIC_STATS | STATX_BTIME | STATX_MNT_ID
IMMUTABLE, APPEND_ONLY = 0x10, 0x20  # Attributes of statx(2), which are those of chattr(1).
ATTRIBUTES = IMMUTABLE | APPEND_ONLY
UNKNOWN = 1  # No attribute: the file system does not say whether a file has them.
RENAME_NOREPLACE, RENAME_EXCHANGE = 1, 2
NO_OVERLAY, OF_ONE, OF_SEVERAL = range(3)
OVERLAY, TMPFS, FUSE, BTRFS = 0x794C7630, 0x01021994, 0x65735546, 0x9123683E  # Kinds of file systems, as statfs(2) has them.
OF_KERNEL = (0x9FA0, 0x62656572)  # proc and sysfs, whose files the kernel makes.
# struct statx: the mask of what is known, attributes, names, the label (owner, group, mode), inode, which attributes are known,
# birth in seconds and nanoseconds, the mount (device in two parts, number).
STATX = struct.Struct("<I4xQI10s2xQ16xQ16xqI44x16s")
LABEL, MOUNT = struct.Struct("<IIH"), struct.Struct("<IIQ")
BUFFER = ctypes.create_string_buffer(256)
STATX_CALL = getattr(ctypes.PyDLL(None, use_errno=True), "statx", None)  # It is quicker where other threads do not go on.
NO_DESCRIPTOR = -1
PR_SET_PDEATHSIG = 1
CAP_FSETID = 4
MOUNTS_FILE = "/proc/self/mountinfo"
BOOT_FILE = "/proc/sys/kernel/random/boot_id"
SERVER = re.compile(rb"(?:^|,)user_id=([0-9]+)")  # In the options of a mount.
# Of a file: mode, owner, group, names, device, inode, and birth in nanoseconds since 1970, 0 if the file system has none.
Status = Tuple[int, int, int, int, int, int, int]
Mount = Tuple[int, int]  # A device, and the number of the mount, which is 0 if Linux does not say it.
# What Linux looks at beside the lists of a file: ATTRIBUTES that it has, or UNKNOWN; and what it is mounted by.
Beside = Tuple[int, Mount]
Raw = Tuple[int, int, int, bytes, int, int, int, int, bytes]  # A status as STATX has it.


class Identity(NamedTuple):
    """Which file a name is of; birth is when it was made, in nanoseconds since 1970, or 0 if that is not known."""

    device: int
    inode: int
    birth: int


device_number = lru_cache(maxsize=None)(os.makedev)  # By its two parts.


@lru_cache(maxsize=None)
def keeps_births(major: int, minor: int) -> bool:
    """Whether files of a device keep their birth: on an overlay a file is copied when it is first changed, and gets another one."""
    return b"%d:%d" % (major, minor) not in overlays()


def file_system_of(descriptor: int) -> int:
    """The kind of the file system of an open file; 0 if that is not known."""
    statfs = getattr(LIBRARY, "fstatfs", None)
    return 0 if statfs is None or statfs(descriptor, BUFFER) != 0 else int.from_bytes(BUFFER.raw[:4], "little")


def is_read_only(descriptor: int) -> bool:
    """Whether an open file is mounted read-only, or is of a subvolume of btrfs that is so (btrfs-property(8)): its mount does not
    say it, and access(2) has EROFS for everybody."""
    if os.fstatvfs(descriptor).f_flag & os.ST_RDONLY:
        return True
    is_refused = file_system_of(descriptor) == BTRFS and LIBRARY.access(b"/proc/self/fd/%d" % descriptor, os.W_OK) != 0
    return bool(is_refused and ctypes.get_errno() == errno.EROFS)


def overlay_of(descriptor: int, device: int) -> int:
    """Whether an open file is on an overlay: OF_ONE keeps device and inode where a file is copied at its first change,
    but for one of several names; a file of OF_SEVERAL, whose layers are on several file systems, gets others."""
    if file_system_of(descriptor) != OVERLAY:
        return NO_OVERLAY
    return OF_ONE if b"%d:%d" % (os.major(device), os.minor(device)) in overlays() else OF_SEVERAL


def mounts() -> Iterator[Tuple[bytes, bytes, bytes]]:
    """The device, the type and the options of each mount. What is mounted is a word of whoever did it, which may be `-` or empty."""
    with open(MOUNTS_FILE, "rb") as file:
        for line in file:
            first, _, second = line.rstrip(b"\n").partition(b" - ")
            words = second.split(b" ")
            yield first.split()[2], words[0], words[-1]


def overlays() -> Set[bytes]:
    """The devices of the overlays that are mounted."""
    try:
        return {device for device, kind, _ in mounts() if kind == b"overlay"}
    except OSError:
        return set()


def server_of(descriptor: int, device: int) -> Optional[int]:
    """The user whose process says what is on the file system of an open file (FUSE), also whose files are; None where none does."""
    if file_system_of(descriptor) != FUSE:
        return None
    number = b"%d:%d" % (os.major(device), os.minor(device))
    found = [SERVER.search(options) for it, kind, options in mounts() if it == number and kind.startswith(b"fuse")]
    return next((int(match[1]) for match in found if match is not None), None)


def fail(*name: str) -> NoReturn:
    """Fails as the last call of the library did, of a file by its name."""
    number = ctypes.get_errno()
    raise OSError(number, os.strerror(number), *name)


def statx(descriptor: int, name: bytes = b"", flags: int = ITSELF, wanted: int = STATX_WANTED) -> Raw:
    """The status of an open file, or of a name in an open directory, which is not followed where it is a link. Nothing is opened
    for it."""
    if STATX_CALL is None:
        found = os.stat(name, dir_fd=descriptor, follow_symlinks=False) if name else os.fstat(descriptor)
        mount = MOUNT.pack(os.major(found.st_dev), os.minor(found.st_dev), 0)
        return 0, 0, found.st_nlink, LABEL.pack(found.st_uid, found.st_gid, found.st_mode), found.st_ino, 0, 0, 0, mount
    if STATX_CALL(descriptor, name, flags, wanted, BUFFER) != 0:
        fail()
    return STATX.unpack_from(BUFFER)  # type: ignore[return-value]


def keeps_birth(raw: Raw) -> bool:
    """Whether files of the device of a file keep their birth."""
    return keeps_births(*MOUNT.unpack(raw[8])[:2])


def read_status(raw: Raw) -> Tuple[Status, Beside]:
    """A status, and what counts beside lists."""
    known, its, names, label, inode, says, seconds, nanoseconds, place = raw
    owner, group, mode = LABEL.unpack(label)
    major, minor, mount = MOUNT.unpack(place)
    birth = seconds * 1_000_000_000 + nanoseconds if known & STATX_BTIME and keeps_births(major, minor) else 0
    device = device_number(major, minor)
    attributes = its & ATTRIBUTES if says & ATTRIBUTES == ATTRIBUTES else UNKNOWN
    return (mode, owner, group, names, device, inode, birth), (attributes, (device, mount if known & STATX_MNT_ID else 0))


def look_at(descriptor: int, name: bytes = b"") -> Tuple[Status, Beside]:
    """The status of an open file, or of a name in an open directory, and what counts beside lists."""
    return read_status(statx(descriptor, name))


def status_of(descriptor: int, name: bytes = b"") -> Status:
    """The status alone."""
    return look_at(descriptor, name)[0]


def matches(pattern: bytes, name: bytes) -> bool:
    """Whether a name matches a pattern of fnmatch(3), in which `*` goes over slashes too, in the locale of the process."""
    return bool(LIBRARY.fnmatch(pattern, name, 0) == 0)


def is_renamed(old: bytes, source: int, new: bytes, target: int, how: int = RENAME_NOREPLACE) -> bool:
    """Renames from a folder to another one, by their descriptors: fails where there is something of the new name, or has the two
    names change places. False where the file system has no such rename."""
    if not hasattr(LIBRARY, "renameat2"):
        return False
    if LIBRARY.renameat2(source, old, target, new, how) == 0:
        return True
    if ctypes.get_errno() not in (errno.EINVAL, errno.ENOSYS):
        fail(os.fsdecode(new))
    return False


def rename_to(old: bytes, source: int, new: bytes, target: int) -> None:
    """Renames where there is nothing of the new name, as far as it can be seen before."""
    try:
        os.stat(new, dir_fd=target, follow_symlinks=False)
    except FileNotFoundError:
        os.rename(old, new, src_dir_fd=source, dst_dir_fd=target)
        return
    raise FileExistsError(errno.EEXIST, os.strerror(errno.EEXIST), os.fsdecode(new))


def rename_new(old: bytes, new: bytes, folder: int, source: int = NO_DESCRIPTOR) -> None:
    """Renames within a folder, by its descriptor, or to it from another one; fails where there is something of the new name."""
    source = folder if source == NO_DESCRIPTOR else source
    if not is_renamed(old, source, new, folder):
        rename_to(old, source, new, folder)


def move(name: bytes, source: int, target: int) -> None:
    """Moves what has a name in a folder to another one, in which others may be at work; fails where there is something of the
    name. Where the file system has no such rename, a file gets a second name and loses its first; a directory replaces no
    more than an empty one that is made at that moment."""
    if is_renamed(name, source, name, target):
        return
    if stat.S_ISDIR(os.stat(name, dir_fd=source, follow_symlinks=False).st_mode):
        rename_to(name, source, name, target)
    else:
        os.link(name, name, src_dir_fd=source, dst_dir_fd=target, follow_symlinks=False)
        os.unlink(name, dir_fd=source)


def exchange(made: bytes, there: bytes, folder: int) -> None:
    """Has two names of a folder change places; by three renames where its file system cannot."""
    if is_renamed(made, folder, there, folder, RENAME_EXCHANGE):
        return
    aside = made + b".old"
    rename_new(there, aside, folder)
    try:
        rename_new(made, there, folder)
    except OSError:
        rename_new(aside, there, folder)
        raise
    rename_new(aside, made, folder)


def write_out(descriptor: int) -> None:
    """Writes all that the file system of a descriptor has in memory to its disk; without one, all that all have."""
    if descriptor == NO_DESCRIPTOR or not hasattr(LIBRARY, "syncfs"):
        os.sync()
    elif LIBRARY.syncfs(descriptor) != 0:
        fail()


def end_with(parent: int) -> None:
    """Has this process killed when its parent ends; ends it where that has happened already."""
    if hasattr(LIBRARY, "prctl"):
        LIBRARY.prctl(PR_SET_PDEATHSIG, ctypes.c_ulong(signal.SIGKILL))
    if os.getppid() != parent:
        os._exit(1)


def has_capability(number: int) -> bool:
    """Whether this process has a capability (capabilities(7)): root of a container may lack some."""
    with open("/proc/self/status", "rb") as file:
        return any(int(line.split()[1], 16) >> number & 1 for line in file if line.startswith(b"CapEff:"))


def boot() -> str:
    """Since which start of the system devices have their numbers."""
    try:
        with open(BOOT_FILE, encoding="ascii") as file:
            return file.read().strip()
    except OSError:
        return "-"
