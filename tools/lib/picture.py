"""A small PNG of what a page shows: with a table of few colours, those that occur most, each other one as the nearest of
them."""
from __future__ import annotations

import base64
import struct
import zlib
from typing import TYPE_CHECKING, List

if TYPE_CHECKING:
    from browser import Page

# In the page of the browser: the width, the table as numbers, and the place of each point's colour in it, by base64.
REDUCE = """(async (address, most) => {
  const image = await createImageBitmap(await (await fetch(address)).blob()), canvas = new OffscreenCanvas(image.width, image.height), pen = canvas.getContext('2d');
  pen.drawImage(image, 0, 0);
  const points = pen.getImageData(0, 0, image.width, image.height).data, counts = new Map(), all = new Uint32Array(points.length / 4);
  for (let at = 0; at < all.length; at++) {
    all[at] = points[4 * at] << 16 | points[4 * at + 1] << 8 | points[4 * at + 2];
    counts.set(all[at], (counts.get(all[at]) ?? 0) + 1);
  }
  const table = [...counts].sort((one, other) => other[1] - one[1]).slice(0, most).map(([colour]) => colour), near = new Map();
  const far = (one, other) => [16, 8, 0].reduce((sum, shift) => sum + ((one >> shift & 255) - (other >> shift & 255)) ** 2, 0);
  for (const colour of counts.keys()) near.set(colour, table.reduce((best, it, place) => far(it, colour) < far(table[best], colour) ? place : best, 0));
  let text = '';
  for (let at = 0; at < all.length; at += 30000) text += String.fromCharCode(...Array.from(all.subarray(at, at + 30000), it => near.get(it)));
  return [image.width, table, btoa(text)];
})('data:image/png;base64,%s', %d)"""


def chunk(name: bytes, content: bytes) -> bytes:
    return struct.pack(">I", len(content)) + name + content + struct.pack(">I", zlib.crc32(name + content))


def png_of(width: int, table: List[int], places: bytes) -> bytes:
    """A PNG of eight bits a point, with a table of colours."""
    rows = b"".join(b"\0" + places[start : start + width] for start in range(0, len(places), width))
    head = struct.pack(">IIBBBBB", width, len(places) // width, 8, 3, 0, 0, 0)
    colours = b"".join(it.to_bytes(3, "big") for it in table)
    return (b"\x89PNG\r\n\x1a\n" + chunk(b"IHDR", head) + chunk(b"PLTE", colours) + chunk(b"IDAT", zlib.compress(rows, 9))
            + chunk(b"IEND", b""))


def with_few_colours(page: Page, most: int) -> bytes:
    """What a page shows; the page is another one afterwards."""
    taken = page.call("Page.captureScreenshot", format="png")["data"]
    page.go("about:blank")
    width, table, places = page.evaluate(REDUCE % (taken, most))
    return png_of(width, table, base64.b64decode(places))
