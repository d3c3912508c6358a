"""Damages of files, for the checks that run commands on what is damaged: other bytes, other values, another kind of
file."""
from __future__ import annotations

import json
import os
import random
import socket
from typing import Any, Callable, Dict, List, Sequence, Tuple

from .live_tree import GIDS, MALLORY, make, remove

DEEP = 100_000  # Levels of lists or objects in a value.
BESIDE = b".beside"  # At the end of a second name.
SPARSE = 9 << 30  # The size of a file without bytes on the disk.
PIECES = [b"\0", b"\n", b"\t", b" ", b"\\", b"\\012", b"#", b":", b",", b"'", b"\xff", b"0", b"4294967296", b"user:",
          b"# file: ", b"\r", b"-", b"/", b"@", b"=", b"x" * 70000, b"9" * 5000, b"[" * DEEP, b"\0" * 5000]
VALUES: Sequence[object] = (
    None, True, -1, 0, 2, 1 << 31, 1 << 32, 1 << 63, -(1 << 63), 1 << 64, 10 ** 400, 10 ** 4290, 1.5, 1e308, float("nan"),
    float("-inf"), "", "x", "\0", "a\0b", "\ud800", "\u2028", "\u2603", "..", "/", "a/../b", "a//b", "a" * 70000,
    "a/" * 50_000 + "a", "ff" * 40_000, [], {}, [[]], [None] * 9, {"boot": 1}, {"files": []}, "@deep list", "@deep object",
    "@long number",
)
LATE = {b'"@deep list"': b"[" * DEEP + b"]" * DEEP, b'"@deep object"': b'{"a":' * DEEP + b"1" + b"}" * DEEP,
        b'"@long number"': b"1" + b"0" * 100_000}
Damage = Callable[[random.Random, bytes], bytes]
Kind = Callable[[random.Random, bytes], object]


# --- other bytes


def place_in(chance: random.Random, text: bytes) -> int:
    return chance.randrange(len(text) + 1)


def with_lines(chance: random.Random, text: bytes, change: Callable[[List[bytes], int, int], None]) -> bytes:
    lines = text.split(b"\n")
    change(lines, chance.randrange(len(lines)), chance.randrange(len(lines)))
    return b"\n".join(lines)


def other_byte(chance: random.Random, text: bytes) -> bytes:
    at = place_in(chance, text)
    return text[:at] + bytes([chance.randrange(256)]) + text[at + 1:]


def other_bit(chance: random.Random, text: bytes) -> bytes:
    at = place_in(chance, text)
    return text[:at] + bytes(it ^ 1 << chance.randrange(8) for it in text[at:at + 1]) + text[at + 1:]


def shorter(chance: random.Random, text: bytes) -> bytes:
    return text[:place_in(chance, text)]


def without_part(chance: random.Random, text: bytes) -> bytes:
    at = place_in(chance, text)
    return text[:at] + text[at + chance.randrange(1, 30):]


def with_piece(chance: random.Random, text: bytes) -> bytes:
    at = place_in(chance, text)
    return text[:at] + chance.choice(PIECES) + text[at:]


def line_twice(chance: random.Random, text: bytes) -> bytes:
    return with_lines(chance, text, lambda lines, one, other: lines.insert(other, lines[one]))


def line_gone(chance: random.Random, text: bytes) -> bytes:
    return with_lines(chance, text, lambda lines, one, _: lines.__delitem__(one))


def lines_exchanged(chance: random.Random, text: bytes) -> bytes:
    def change(lines: List[bytes], one: int, other: int) -> None:
        lines[one], lines[other] = lines[other], lines[one]

    return with_lines(chance, text, change)


def nothing(_chance: random.Random, _text: bytes) -> bytes:
    return b""


def zeros(chance: random.Random, text: bytes) -> bytes:
    """Makes what a disk that was full or cut off leaves."""
    at = place_in(chance, text)
    return text[:at] + bytes(len(text) - at)


DAMAGES: Sequence[Damage] = (other_byte, other_byte, other_bit, shorter, without_part, with_piece, with_piece,
                             line_twice, line_gone, lines_exchanged, nothing, zeros)


# --- other values of JSON


def places_of(value: Any) -> List[Tuple[Any, Any]]:
    """The lists and objects in a value, each with the index or key of each of its parts."""
    found: List[Tuple[Any, Any]] = []
    if isinstance(value, (list, dict)):
        for key in list(value) if isinstance(value, dict) else range(len(value)):
            found += [(value, key), *places_of(value[key])]
    return found


def other_value(chance: random.Random, text: bytes) -> bytes:
    """Replaces one value, or all; the places near the top have their turn as often as the many below."""
    whole = json.loads(text)
    places = places_of(whole)
    value = chance.choice(VALUES)
    if not places or chance.random() < 0.05:
        whole = value
    else:
        holder, key = chance.choice(places[:6] if chance.random() < 0.3 else places)
        holder[key] = value
    changed = json.dumps(whole, separators=(",", ":")).encode() + b"\n"
    for name, late in LATE.items():
        changed = changed.replace(name, late)
    return changed


def has_values(text: bytes) -> bool:
    return text.startswith(b"{")


# --- another kind of file


def link_to(target: bytes) -> Kind:
    return lambda _chance, path: os.symlink(target, path)


def link_beside(_chance: random.Random, path: bytes) -> None:
    """Leads to the same bytes under another name."""
    os.rename(path + b".kept", path + BESIDE)
    os.symlink(os.path.basename(path) + BESIDE, path)


def socket_at(_chance: random.Random, path: bytes) -> None:
    with socket.socket(socket.AF_UNIX) as made:
        folder = os.open(os.path.dirname(path), os.O_PATH)
        made.bind(b"/proc/self/fd/%d/%s" % (folder, os.path.basename(path)))
        os.close(folder)


def sparse(chance: random.Random, path: bytes) -> None:
    """Has the first bytes of the file or none, and a size that no memory holds."""
    if chance.random() < 0.5:
        os.rename(path + b".kept", path)
    with open(path, "ab") as file:
        file.truncate(SPARSE)


def of_another(_chance: random.Random, path: bytes) -> None:
    os.rename(path + b".kept", path)
    os.chown(path, MALLORY, GIDS[0])


def open_to_all(_chance: random.Random, path: bytes) -> None:
    os.rename(path + b".kept", path)
    os.chmod(path, 0o666)


def with_two_names(_chance: random.Random, path: bytes) -> None:
    os.link(path + b".kept", path)
    os.rename(path + b".kept", path + BESIDE)


KINDS: Dict[str, Kind] = {
    "gone": lambda _chance, _path: None,
    "a folder": lambda _chance, path: make(path + b"/", 0o700),
    "a FIFO": lambda _chance, path: os.mkfifo(path, 0o600),
    "a device without an end": lambda _chance, path: os.mknod(path, 0o020600, os.makedev(1, 5)),
    "a device without bytes": lambda _chance, path: os.mknod(path, 0o020600, os.makedev(1, 3)),
    "a device that is not there": lambda _chance, path: os.mknod(path, 0o060600, os.makedev(240, 77)),
    "a socket": socket_at,
    "a link to itself": lambda _chance, path: os.symlink(os.path.basename(path), path),
    "a link to nowhere": link_to(b"nowhere"),
    "a link to a device": link_to(b"/dev/zero"),
    "a link to the same bytes": link_beside,
    "9 GB": sparse,
    "of another owner": of_another,
    "written by all": open_to_all,
    "with two names": with_two_names,
}


# --- both


def damage_file(chance: random.Random, path: bytes) -> str:
    """Damages a file in one or two ways, or puts another kind of file in its place; what was done."""
    if chance.random() < 0.25:
        name = chance.choice(sorted(KINDS))
        os.rename(path, path + b".kept")
        try:
            KINDS[name](chance, path)
        finally:
            remove(path + b".kept")
        return name
    with open(path, "r+b") as file:
        text = file.read()
        names: List[str] = []
        if has_values(text) and chance.random() < 0.5:
            text, names = other_value(chance, text), ["other_value"]
        else:
            for _ in range(chance.choice([1, 1, 1, 2])):
                one = chance.choice(DAMAGES)
                text, names = one(chance, text), [*names, one.__name__]
        file.seek(0)
        file.truncate()
        file.write(text)
    return " and ".join(names)
