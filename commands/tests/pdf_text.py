"""The text of a PDF as Chromium writes it: streams are deflated, a text is glyphs of a font, and each font has a table of
what its glyphs say."""
from __future__ import annotations

import re
import zlib
from typing import Dict, Iterator, List

OBJECT = re.compile(rb"(?:\A|\n)(\d+) 0 obj\b(.*?)\nendobj", re.DOTALL)
STREAM = re.compile(rb"stream\r?\n(.*)\r?\nendstream", re.DOTALL)
CONTENT = re.compile(rb"/([A-Za-z0-9]+) [-\d.]+ Tf|<([0-9A-Fa-f\s]*)>|\b(T[jJ]|Td|TD|Tm|ET)\b")
PAGE, TABLE = re.compile(rb"/Type /Page\b"), re.compile(rb"/ToUnicode (\d+) 0 R")
RANGES = re.compile(rb"begin(bfchar|bfrange)(.*?)endbf", re.DOTALL)
HEX = re.compile(rb"<([0-9A-Fa-f]+)>")


def objects_of(pdf: bytes) -> Dict[int, bytes]:
    return {int(number): body for number, body in OBJECT.findall(pdf)}


def stream_of(body: bytes) -> bytes:
    """The content of a stream, inflated where it is deflated."""
    found = STREAM.search(body)
    if found is None:
        return b""
    return zlib.decompress(found[1]) if b"/FlateDecode" in body[: found.start()] else found[1]


def text_of_hex(digits: bytes) -> str:
    return bytes.fromhex(digits.decode()).decode("utf-16-be")


def glyphs_of(table: bytes) -> Dict[int, str]:
    """What the glyphs of a font say."""
    found: Dict[int, str] = {}
    for kind, part in RANGES.findall(table):
        items = HEX.findall(part)
        if kind == b"bfchar":
            found.update({int(glyph, 16): text_of_hex(text) for glyph, text in zip(items[::2], items[1::2])})
            continue
        for first, last, text in zip(items[::3], items[1::3], items[2::3]):
            for number in range(int(first, 16), int(last, 16) + 1):
                found[number] = chr(ord(text_of_hex(text)[-1]) + number - int(first, 16))
    return found


def texts_of(content: bytes, fonts: Dict[bytes, Dict[int, str]]) -> Iterator[str]:
    """The pieces of text in a content, each with a blank where the next one starts elsewhere."""
    glyphs: Dict[int, str] = {}
    for font, digits, verb in CONTENT.findall(content):
        if font:
            glyphs = fonts.get(font, {})
        elif digits:
            digits = b"".join(digits.split())
            yield "".join(glyphs.get(int(digits[k : k + 4], 16), "?") for k in range(0, len(digits), 4))
        elif verb not in (b"Tj", b"TJ"):
            yield " "


def pages_of(pdf: bytes) -> List[str]:
    """The text of each page, with one blank in the place of several."""
    objects = objects_of(pdf)
    fonts: Dict[bytes, Dict[int, str]] = {}
    for number, body in objects.items():
        table = TABLE.search(body)
        if table is not None:
            fonts[b"F%d" % number] = glyphs_of(stream_of(objects[int(table[1])]))
    found = []
    for body in objects.values():
        if PAGE.search(body) is None:
            continue
        contents = [int(it) for it in re.findall(rb"/Contents (\d+) 0 R", body)]
        text = "".join(piece for it in contents for piece in texts_of(stream_of(objects[it]), fonts))
        found.append(" ".join(text.split()))
    return found
