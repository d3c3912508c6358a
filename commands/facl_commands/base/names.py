"""Names of files and users in texts: their escapes, as the section SCRIPTS of the manual page has them, and their quotes.

A path is its components with a slash between each two, as bytes; the root is the empty path.
"""
from __future__ import annotations

import codecs
import re
from typing import Container, Iterable, List, Match, Tuple

ESCAPE = re.compile(rb"\\([0-3][0-7][0-7]|\\)")
SAFE = re.compile(rb"[\x20-\x7e\t]*\Z")
# Letters that a terminal obeys, that change the direction of a text, and that nobody sees: Unicode's categories Cc, Zl and Zp
# without the tab, which is between the fields of a row; all with the property Default_Ignorable_Code_Point of its file
# DerivedCoreProperties.txt; the marks of annotations between lines, and the blank of Braille.
UNSEEN = re.compile(
    "[\x00-\x08\x0a-\x1f\x7f-\x9f\xad\u034f\u061c\u115f\u1160\u17b4\u17b5\u180b-\u180f\u200b-\u200f\u2028-\u202e\u2060-\u206f"
    "\u2800\u3164\ufe00-\ufe0f\ufeff\uffa0\ufff0-\ufffb\U0001bca0-\U0001bca3\U0001d173-\U0001d17a\U000e0000-\U000e0fff]")
ESCAPED_IN_NAMES = re.compile(rb"[\\\n\r\t :,#]")  # As the program prints names of users and groups.
ESCAPED_IN_PATHS, ESCAPED_IN_WORDS = re.compile(rb"[\\\n\r]"), re.compile(rb"[^\x20-\x26\x28-\x7e]")
LONGEST_ID, ABOVE_ALL_IDS = 10, 1 << 40  # Digits, and a number.
PLAIN_SHELL_WORD = re.compile(rb"[A-Za-z0-9_./:=@%+,-]+\Z")


def read_name(text: bytes) -> bytes:
    """The name that a text is: a backslash and three octal digits are a byte, two backslashes are one."""
    return ESCAPE.sub(lambda found: b"\\" if found[1] == b"\\" else bytes([int(found[1], 8)]), text)


def octal(found: Match[bytes]) -> bytes:
    return b"\\%03o" % found[0][0]


def write_name(name: bytes) -> bytes:
    """The text of a file's name: a backslash, a line feed and a carriage return are escapes."""
    return ESCAPED_IN_PATHS.sub(octal, name)


def write_user(name: bytes) -> bytes:
    """The name of a user or a group as the program prints it."""
    return ESCAPED_IN_NAMES.sub(octal, name)


def read_path(text: bytes) -> bytes:
    """The path that a text is."""
    return b"/".join(part for part in read_name(text).split(b"/") if part not in (b"", b"."))


def number_of(digits: bytes) -> int:
    """The number of decimal digits; if it has more digits than any id, a number above all ids."""
    plain = digits.lstrip(b"0") or b"0"  # Python takes no more than 4,300 digits, zeros too.
    return int(plain) if len(plain) <= LONGEST_ID else ABOVE_ALL_IDS


def path_order(path: bytes) -> List[bytes]:
    """What paths are sorted by: their components, parents first."""
    return path.split(b"/") if path else []


def sorting_key(path: bytes) -> bytes:
    """The same as bytes: no component has a NUL byte."""
    return path.replace(b"/", b"\0")


def parent_of(path: bytes) -> bytes:
    return path.rpartition(b"/")[0]


def directories_above(path: bytes) -> List[bytes]:
    """The nearest first, and the root last."""
    parts = path.split(b"/") if path else []
    return [b"/".join(parts[:end]) for end in range(len(parts) - 1, -1, -1)]


def way_to(path: bytes, known: Container[bytes]) -> List[bytes]:
    """A path and the directories above it, the highest first, from below the first one that is known on."""
    found: List[bytes] = []
    while path not in known:
        found.append(path)
        if not path:
            break
        path = parent_of(path)
    return found[::-1]


def is_below(path: bytes, above: bytes) -> bool:
    return path != above and (above == b"" or path.startswith(above + b"/"))


def is_at_or_below(path: bytes, tops: Iterable[bytes]) -> bool:
    return at_or_below([path], tops) != []


def at_or_below(paths: Iterable[bytes], tops: Iterable[bytes]) -> List[bytes]:
    """The paths that are one of some tops or below one, in their order. One look at many tops is quicker than `is_below`."""
    known = set(tops)
    if b"" in known:
        return list(paths)
    starts = tuple(top + b"/" for top in known)
    return [path for path in paths if path in known or path.startswith(starts)]


def place_of(paths: List[bytes], key: bytes) -> int:
    """How many of some paths in path order come before a key of their order."""
    first, last = 0, len(paths)
    while first < last:
        middle = (first + last) // 2
        first, last = (middle + 1, last) if sorting_key(paths[middle]) < key else (first, middle)
    return first


def places_below(paths: List[bytes], top: bytes) -> Tuple[int, int]:
    """Where those of some paths in path order begin and end that are at or below another one."""
    key = sorting_key(top)
    return (place_of(paths, key), place_of(paths, key + b"\1")) if top else (0, len(paths))


def highest(paths: Iterable[bytes]) -> List[bytes]:
    """Paths in path order, each once, without those that another one is above."""
    known = set(paths)
    tops = [path for path in known if not path or parent_of(path) not in known]  # Most paths are in another one.
    return sorted((path for path in tops if known.isdisjoint(directories_above(path))), key=sorting_key)


def shown_path(path: bytes) -> bytes:
    """A path as the program prints it."""
    return write_name(path) or b"."


def live_path(path: bytes) -> bytes:
    """A path on the live system."""
    return b"/" + path


def live_name(path: bytes) -> bytes:
    """A path on the live system, as messages name it."""
    return b"/" + write_name(path)


def file_name(path: bytes, is_whole: bool) -> bytes:
    """A path as a person reads it: on the live system, where the snapshot is whole, which starts at the root; else as the
    program prints it."""
    return live_name(path) if is_whole else shown_path(path)


def script_word(text: bytes) -> bytes:
    """The word of a script that has this text; a byte that is not printable ASCII is an escape."""
    return b"'" + ESCAPED_IN_WORDS.sub(octal, text) + b"'"


def shell_word(word: bytes) -> bytes:
    """A word for sh."""
    return word if PLAIN_SHELL_WORD.match(word) else b"'" + word.replace(b"'", b"'\\''") + b"'"


def escaped_bytes(error: UnicodeError) -> Tuple[str, int]:
    """Bytes that are no UTF-8, as escapes."""
    assert isinstance(error, UnicodeDecodeError)
    return "".join("\\%03o" % byte for byte in error.object[error.start : error.end]), error.end


codecs.register_error("facl-escapes", escaped_bytes)


def json_text(text: bytes) -> str:
    """A text that the program prints, for JSON: bytes that are no UTF-8 are escapes there."""
    return text.decode("utf-8", "facl-escapes")


def json_name(name: bytes) -> str:
    """The name of a file on the system, for JSON: a backslash is an escape too, so two names are two texts."""
    return json_text(write_name(name))


def shown(text: bytes) -> bytes:
    """What a person reads of a text: bytes that are no UTF-8, and letters that cannot be seen, control a terminal or change
    the direction of a text, are escapes."""
    def escapes(letter: Match[str]) -> str:
        return "".join("\\%03o" % byte for byte in letter[0].encode())
    return text if SAFE.match(text) else UNSEEN.sub(escapes, json_text(text)).encode()


def path_word(path: bytes) -> bytes:
    """The word of a path in a line that a command asks, which has it after `--`."""
    return script_word(shown_path(path))


def file_word(path: bytes, is_whole: bool = False) -> bytes:
    """The word of a path in a line that a person reads, which is no option."""
    name = file_name(path, is_whole)
    return plain_word(b"./" + name if name.startswith(b"-") else name)


def plain_word(text: bytes) -> bytes:
    """A word of a script, in quotes where it needs them, or where a shell would make something else of it."""
    return text if PLAIN_SHELL_WORD.match(text) and text[:1] != b"-" else script_word(text)
