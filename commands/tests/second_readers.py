"""Second readers of entries, dumps, rows of passwd(5) and group(5), and attributes.

They are written from docs/SPECIFICATION.md, acl(5) and getfacl(1), apart from the proved ones, which are tested by them.
A text is refused by its first fault: at the least place, and there the first kind in the order of TEXTS_OF_KINDS.
"""
from __future__ import annotations

import re
from typing import Dict, List, NamedTuple, NoReturn, Optional, Set, Tuple

BLANK = b" \t"
MOST_ID = 4294967294
MOST_ENTRIES = 4096
TAGS = {b"u": "user", b"user": "user", b"g": "group", b"group": "group", b"m": "mask", b"mask": "mask", b"o": "other",
        b"other": "other"}
TAG_NUMBERS = {1: "user", 2: "user", 4: "group", 8: "group", 16: "mask", 32: "other"}

# A tag, and the id that it names: ("user", None) is the owner, ("group", None) the owning group.
Key = Tuple[str, Optional[int]]
BASE: List[Key] = [("user", None), ("group", None), ("other", None)]
MASK: Key = ("mask", None)


class Fault(Exception):
    """The first fault of a text: its message, and its place (an entry or a line, from 1)."""

    def __init__(self, text: str, at: int = 0) -> None:
        super().__init__(text)
        self.text, self.at = text, at


class Names(NamedTuple):
    """The ids of the names of users and groups."""
    users: Dict[bytes, int]
    groups: Dict[bytes, int]


class Entry(NamedTuple):
    """An entry: `perms` has the letters r, w, x and X that are set, and is None where the entry is to be removed."""
    is_default: bool
    key: Key
    perms: Optional[Set[str]]


class Use(NamedTuple):
    """What a text of entries is for."""
    removes: bool = False
    takes_conditional: bool = False
    takes_defaults: bool = False


MODIFY = Use(takes_conditional=True, takes_defaults=True)
REMOVE = Use(removes=True, takes_defaults=True)
WHOLE = Use()
IN_DUMP = Use(takes_defaults=True)


def decoded(word: bytes) -> bytes:
    """A name or path without its escapes: a backslash and three octal digits, or two backslashes."""
    return re.sub(rb"\\([0-3][0-7][0-7]|\\)", lambda it: b"\\" if it[1] == b"\\" else bytes([int(it[1], 8)]), word)


def digits(word: bytes) -> Optional[int]:
    return int(word) if re.fullmatch(rb"[0-9]+", word) else None


def id_of(word: bytes, ids: Dict[bytes, int], fault: str) -> int:
    """The id that a word means, a number or a name."""
    word = decoded(word.strip(BLANK))
    number = digits(word)
    found = ids.get(word) if number is None else number if number <= MOST_ID else None
    if found is None:
        raise Fault(fault)
    return found


def permissions(field: bytes, takes_conditional: bool) -> Set[str]:
    if re.fullmatch(rb"[0-7]", field):
        return {letter for letter, bit in (("r", 4), ("w", 2), ("x", 1)) if int(field) & bit}
    if not re.fullmatch(rb"[rwxX-]*" if takes_conditional else rb"[rwx-]*", field):
        raise Fault("bad permissions")
    return {*field.decode()} - {"-"}


def tag_and_fields(fields: List[bytes]) -> Tuple[str, bytes, Optional[bytes]]:
    """The tag of an entry, its user or group, and its field of permissions, if it has one."""
    tag, others = TAGS.get(fields[0]), fields[1:]
    if tag is None and fields[0] and len(others) < 2:
        return "user", fields[0], others[0] if others else None
    if tag in ("user", "group") and len(others) in (1, 2):
        return tag, others[0], others[1] if len(others) == 2 else None
    if tag in ("mask", "other") and (len(others) < 2 or len(others) == 2 and not others[0]):
        return tag, b"", others[-1] if others else None
    raise Fault("bad tag")


def key_of(tag: str, word: bytes, names: Names) -> Key:
    if not word:
        return tag, None
    return tag, id_of(word, names.users if tag == "user" else names.groups, f"unknown {tag}")


def entry_of(text: bytes, use: Use, names: Names) -> Entry:
    fields = [field.strip(BLANK) for field in text.split(b":")]
    is_default = len(fields) > 1 and fields[0] in (b"d", b"default")
    if is_default and not use.takes_defaults:
        raise Fault("bad tag")
    tag, word, field = tag_and_fields(fields[is_default:])
    if not use.removes:
        if field is None:
            raise Fault("permissions missing")
        perms = permissions(field, use.takes_conditional)
        return Entry(is_default, key_of(tag, word, names), perms)
    if field:
        raise Fault("permissions not wanted")
    key = key_of(tag, word, names)
    if key in BASE:
        raise Fault("base entry cannot be removed")
    return Entry(is_default, key, None)


def read_entries(text: bytes, by_lines: bool, use: Use, names: Names) -> List[Entry]:
    """The entries of a text: those between commas, or those of its lines, in which a `#` begins a comment."""
    entries = []
    for at, piece in enumerate(text.split(b"\n" if by_lines else b","), 1):
        piece = piece.split(b"#")[0] if by_lines else piece
        if piece.strip(BLANK):
            try:
                entries.append(entry_of(piece, use, names))
            except Fault as fault:
                raise Fault(fault.text, at) from None
    return entries


def list_fault(keys: List[Key]) -> Optional[str]:
    """What keeps entries from being a valid list (acl_valid(3)), by their numbers."""
    if len(keys) > MOST_ENTRIES:
        return "too many entries"
    again = next((at for at, key in enumerate(keys) if key in keys[:at]), None)
    if again is not None:
        return f"entry {again + 1} is repeated"
    missing = next((key[0] for key in BASE if key not in keys), None)
    if missing:
        return f"{missing}:: missing"
    named = next((at for at, key in enumerate(keys) if key[1] is not None), None)
    return None if named is None or MASK in keys else f"entry {named + 1} needs a mask"


class FileRecord:
    """A record of a dump, whether its name is written with a final slash, and the line of its name."""

    def __init__(self, path: Tuple[bytes, ...], has_slash: bool, at: int) -> None:
        self.path, self.has_slash, self.at = path, has_slash, at
        self.ids: Dict[str, int] = {}
        self.flags: Optional[str] = None
        self.entries: List[Entry] = []

    def list_of(self, is_default: bool) -> Dict[Key, Set[str]]:
        return {it.key: it.perms or set() for it in self.entries if it.is_default == is_default}

    def hold_whole(self, needs_ids: bool) -> None:
        """Raises what is wrong with the record once all its lines are read."""
        if needs_ids and len(self.ids) < 2:
            raise Fault("header missing", self.at)
        for which in ("access", "default"):
            keys = [it.key for it in self.entries if it.is_default == (which == "default")]
            fault = list_fault(keys) if keys or which == "access" else None
            if fault:
                raise Fault(f"{which} list: {fault}", self.at)


class Dump:
    """The records of a dump; of one that is loaded each has an owner and a group."""

    def __init__(self, needs_ids: bool, names: Names) -> None:
        self.needs_ids, self.names = needs_ids, names
        self.records: List[FileRecord] = []

    def end_record(self) -> None:
        if self.records:
            self.records[-1].hold_whole(self.needs_ids)

    def begin_record(self, value: bytes, at: int) -> None:
        if not value:
            raise Fault("bad header")
        parts = tuple(part for part in decoded(value).split(b"/") if part not in (b"", b"."))
        if b".." in parts or any(b"\0" in part for part in parts):
            raise Fault("bad path")
        if any(record.path == parts for record in self.records):
            raise Fault("file repeated")
        self.records.append(FileRecord(parts, value.endswith(b"/"), at))

    def record(self) -> FileRecord:
        if not self.records:
            raise Fault("header missing")
        return self.records[-1]

    def put_header(self, name: str, value: bytes) -> None:
        value = value.strip(BLANK)
        if not (re.fullmatch(rb"[s-][s-][t-]", value) if name == "flags" else value):
            raise Fault("bad header")
        number = 0
        if name != "flags":
            is_owner = name == "owner"
            number = id_of(value, self.names.users if is_owner else self.names.groups,
                           "unknown user" if is_owner else "unknown group")
        record = self.record()
        if record.entries or (record.flags is not None if name == "flags" else name in record.ids):
            raise Fault("bad header")
        if name == "flags":
            record.flags = value.decode()
        else:
            record.ids[name] = number

    def put_line(self, line: bytes, at: int) -> None:
        text = line.lstrip(BLANK)
        if text.startswith(b"#"):
            header = re.match(rb"(file|owner|group|flags):", text[1:].lstrip(BLANK))
            value = text[1:].lstrip(BLANK)[header.end():] if header else b""
            if header and header[1] == b"file":
                self.end_record()
                self.begin_record(value[value.startswith(b" "):], at)
            elif header:
                self.put_header(header[1].decode(), value)
        elif text.split(b"#")[0].strip(BLANK):
            entry = entry_of(text.split(b"#")[0], IN_DUMP, self.names)
            self.record().entries.append(entry)


def read_dump(text: bytes, needs_ids: bool, names: Names) -> List[FileRecord]:
    """The records of a dump; with `needs_ids` as `load` reads it, else as `setfacl --restore` does."""
    dump = Dump(needs_ids, names)
    for at, line in enumerate(text.split(b"\n"), 1):
        try:
            dump.put_line(line, at)
        except Fault as fault:
            raise Fault(fault.text, fault.at or at) from None
    dump.end_record()
    return dump.records


class Row(NamedTuple):
    """A row that counts: its name, its id, and the first group of a user or the members of a group."""
    name: bytes
    number: int
    group: int
    members: List[bytes]


def bad_row(at: int) -> NoReturn:
    raise Fault("bad row", at)


def read_rows(text: bytes, fields: int) -> List[Row]:
    """The rows of passwd(5), of seven fields, or of group(5), of four. Of those of one name the first counts."""
    rows: Dict[bytes, Row] = {}
    for at, line in enumerate(text.split(b"\n"), 1):
        if not line or line.startswith(b"#"):
            continue
        parts = line.split(b":")
        if len(parts) != fields or not parts[0]:
            bad_row(at)
        number = digits(parts[2])
        group = digits(parts[3]) if fields == 7 else 0
        if number is None or group is None or max(number, group) > MOST_ID:
            bad_row(at)
        members = [] if fields == 7 else [name for name in parts[3].split(b",") if name]
        rows.setdefault(parts[0], Row(parts[0], number, group, members))
    return [*rows.values()]


def attribute_entry(field: bytes) -> Optional[Tuple[Key, int, int]]:
    """The key of 8 bytes of an attribute, its tag's number and its permissions; None where they are no entry."""
    if len(field) < 8:
        return None
    tag, perms, number = (int.from_bytes(field[a:b], "little") for a, b in ((0, 2), (2, 4), (4, 8)))
    if tag not in TAG_NUMBERS or perms > 7 or tag in (2, 8) and number > MOST_ID:
        return None
    return (TAG_NUMBERS[tag], number if tag in (2, 8) else None), tag, perms


def read_attribute(text: bytes) -> Dict[Key, Set[str]]:
    """The list of an attribute's bytes (acl(5); numbers are little-endian)."""
    if text[:4] != b"\2\0\0\0":
        raise Fault("bad attribute", 0)
    found: Dict[Key, Set[str]] = {}
    last = 0
    fields = [text[at:at + 8] for at in range(4, len(text), 8)]
    for at, field in enumerate(fields, 1):
        entry = attribute_entry(field)
        if not entry or entry[1] < last or entry[0] in found or at > MOST_ENTRIES:
            raise Fault("bad attribute", at)
        last = entry[1]
        found[entry[0]] = permissions(b"%d" % entry[2], False)
    if list_fault([*found]):
        raise Fault("bad attribute", len(fields) + 1)
    return found
