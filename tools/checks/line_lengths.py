"""Checks that no line of a definition or a proof has more than 200 columns.

usage: tools/check.py line_lengths [--write] [CRATE..]

It reads the files of specs/ and proofs/ of these crates, or of all, and prints `FILE:LINE: N columns` for each longer line. The exit
status is 1 if there is one.

With --write the lines are broken: before an arrow, an operator, `then` or `else`, after `=`, a comma or `in`, or before an argument,
where the fewest brackets are open. A later part is indented by four columns more than the declaration, alternative or field that it is
of, and as much as the line where that is a later part itself. An import becomes several of the same file. All else that is not white
space stays as it is; `rt fmt` and the check of the crate say whether it is still read alike.
"""
from __future__ import annotations

import argparse
import glob
import os
import re
from typing import List, NamedTuple, Optional

from lib import script

MOST = 200
AIM = 160
OPENING, CLOSING = "([{⟨", ")]}⟩"
# What a line may be broken before, best first, as it is seen after a space.
BEFORE = [re.compile(pattern) for pattern in
          ("→ ", "(∙|↔|×|⊎|then|else) ", "(≡|≢|<|≤) ", r"(\|\||&&|\+\+) ")]
ARGUMENT, WORD = len(BEFORE), len(BEFORE) + 1
# After one of these comes its operand or its name, and no argument.
NO_ARGUMENT = re.compile(r"(^|[\s(])(λ|≡|∙|→|×|\|\||&&|\+\+|\+|\*|<|≤|∷|==|>>=|-|/|%|↔|⊎|≢|=|↦|as|in|let|where|record|unfolding|elim)$")
DECLARATION = re.compile(r"\||(pub|abbrev|unfoldable|module|record|data) |[^\s(){}\[\],;]+ : |[^\s(){}\[\],;=]+( [^=]*)? =( |$)")
LATER = ("→", "×", "∙", "↔", "≡", "(", "λ", "let ", "then ", "else ")
IMPORT = re.compile(r"(use Rattle\.\S+\.\{)(.*)\}$")


class Break(NamedTuple):
    """Where a line may be broken: how many brackets are open there, how good it is (0 is best), and the column after the break."""

    depth: int
    kind: int
    at: int


def is_binder(text: str) -> bool:
    """Whether the text ends among the names that a λ binds."""
    return re.search(r"λ [^.()]*$", text) is not None


def kind_of(before: str, after: str) -> Optional[int]:
    """How good a break between these is, if there may be one: the first ends where a space was."""
    if before.endswith((" in", " =", ",", ";", "↦")):
        return 0 if before.endswith(" in") else 1
    for kind, pattern in enumerate(BEFORE):
        if pattern.match(after):
            return kind
    if NO_ARGUMENT.search(before) or is_binder(before):
        return None
    if after[:1] in ("(", "λ"):
        return ARGUMENT
    is_word = re.match(r"(?!(as|in|let|where|unfolding)\b)[A-Za-z_]", after) and re.search(r"[A-Za-z0-9_)\]]$", before)
    return WORD if is_word else None


def breaks(line: str) -> List[Break]:
    """Where a line may be broken."""
    found: List[Break] = []
    depth = 0
    for at, char in enumerate(line):
        depth += (char in OPENING) - (char in CLOSING)
        kind = kind_of(line[:at], line[at + 1:]) if char == " " and at > 0 else None
        if kind is not None:
            found.append(Break(depth, kind, at + 1))
    return found


def indented(line: str) -> int:
    return len(line) - len(line.lstrip())


def best(points: List[Break]) -> Break:
    """The break with the fewest open brackets; there the best one that is not near the line's start, as far right as may be."""
    points = [point for point in points if point.kind != WORD] or points
    depth = min(point.depth for point in points)
    points = [point for point in points if point.depth == depth]
    points = [point for point in points if point.at > AIM // 3] or points
    kind = min(point.kind for point in points)
    return max((point for point in points if point.kind == kind), key=lambda point: point.at)


def parts(line: str) -> List[str]:
    """A line of a definition or proof in several lines; the last may still be too long where nothing may be broken."""
    text = line.lstrip()
    later = indented(line) + (4 if DECLARATION.match(text) and not text.startswith(LATER) else 0)
    done: List[str] = []
    while len(line) > MOST:
        points = [point for point in breaks(line) if max(indented(line) + 20, later) < point.at <= AIM]
        if not points:
            break
        at = best(points).at
        done.append(line[:at].rstrip())
        line = " " * later + line[at:]
    return [*done, line]


def filled(front: str, words: List[str], between: str, end: str) -> List[str]:
    """Words in lines that begin with one text and end with another."""
    lines: List[List[str]] = [[]]
    for word in words:
        if lines[-1] and len(front) + len(between.join([*lines[-1], word])) + len(end) > AIM:
            lines.append([])
        lines[-1].append(word)
    return [front + between.join(line) + end for line in lines]


def broken(line: str) -> List[str]:
    """A line that is too long, in several."""
    imported = IMPORT.match(line)
    if imported:
        return filled(imported.group(1), imported.group(2).split(", "), ", ", "}")
    if line.lstrip().startswith("-- "):
        return filled(" " * indented(line) + "-- ", line.split()[1:], " ", "")
    return parts(line)


def long_lines(lines: List[str]) -> List[int]:
    return [at for at, line in enumerate(lines) if len(line) > MOST]


def write(path: str, lines: List[str]) -> List[str]:
    """Breaks the lines of a file that are too long, and returns its lines."""
    new = [part for line in lines for part in (broken(line) if len(line) > MOST else [line])]
    with open(path, "w", encoding="utf-8") as file:
        file.write("\n".join(new))
    return new


def files_of(crate: str) -> List[str]:
    """The files of definitions and proofs of a crate, in order."""
    folder = os.path.join(script.TOP, "crates", crate)
    return [path for kind in ("specs", "proofs")
            for path in sorted(glob.glob(os.path.join(folder, kind, "**", "*.antt"), recursive=True))]


def main() -> int:
    options = argparse.ArgumentParser(description=__doc__, formatter_class=argparse.RawDescriptionHelpFormatter)
    options.add_argument("--write", action="store_true")
    options.add_argument("crates", nargs="*", metavar="CRATE")
    words = options.parse_args()
    found: List[str] = []
    for crate in words.crates or sorted(os.listdir(os.path.join(script.TOP, "crates"))):
        for path in files_of(crate):
            with open(path, encoding="utf-8") as file:
                lines = file.read().split("\n")
            if words.write and long_lines(lines):
                lines = write(path, lines)
            name = os.path.relpath(path, script.TOP)
            found += [f"{name}:{at + 1}: {len(lines[at])} columns" for at in long_lines(lines)]
    print("".join(f"{line}\n" for line in found), end="")
    return 1 if found else 0
