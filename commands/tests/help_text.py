"""The manual page of the program as plain text: commands/facl_commands/ask/help.json, which the prompt of facl-ask shows, is made of
docs/facl.1 here.

usage: commands/tests/help_text.py      writes it; test_manual.py compares
"""
from __future__ import annotations

import json
import os
import re
import shlex
import textwrap
from typing import Dict, List, Tuple

COMMANDS = os.path.dirname(os.path.dirname(os.path.realpath(__file__)))
PAGE = os.path.join(COMMANDS, "..", "docs", "facl.1")
HELP = os.path.join(COMMANDS, "facl_commands", "ask", "help.json")
WIDTH = 78
STEP = 4  # Blanks of one indentation.
ESCAPES = {r"\-": "-", r"\e": "\\", r"\(aq": "'", r"\ ": " "}  # All others print nothing.
ESCAPE = re.compile(r"\\(?:\(aq|f[BIRP]|[-e& ])")
ALTERNATING = ("BR", "RB", "IR", "RI", "BI", "IB")


def plain(text: str) -> str:
    """Text of the page without its escapes."""
    return ESCAPE.sub(lambda found: ESCAPES.get(found[0], ""), text)


def line_text(line: str) -> str:
    """The text of a line, with or without a macro for fonts."""
    if not line.startswith("."):
        return plain(line)
    macro, _, rest = line[1:].partition(" ")
    lexer = shlex.shlex(rest, posix=True)
    lexer.whitespace_split, lexer.commenters, lexer.escape, lexer.quotes = True, "", "", '"'
    return ("" if macro in ALTERNATING else " ").join(map(plain, lexer))


def render(lines: List[str]) -> List[str]:
    """Lines of the page as plain text, with filled paragraphs."""
    found: List[str] = []
    words: List[str] = []
    indent = outer = 0  # Of the paragraph that is being filled, and of the lines outside a list.
    is_literal = is_tag = False
    for line in [*lines, ".fi"]:
        macro = line[1:].split(" ")[0] if line.startswith(".") else ""
        is_text = macro in ("", "B", "I", *ALTERNATING)
        if is_text and is_literal:
            found.append(" " * indent + line_text(line))
            continue
        words += [line_text(line)] * is_text
        if is_text and not is_tag:
            continue
        blanks = " " * indent
        found += textwrap.wrap(" ".join(words), WIDTH, initial_indent=blanks, subsequent_indent=blanks,
                               break_long_words=False, break_on_hyphens=False)
        words = []
        found += [""] * (macro in ("TP", "PP", "IP", "SS") and found[-1:] not in ([], [""]))
        found += [line_text(line)] * (macro == "SS")
        outer += STEP * ((macro == "RS") - (macro == "RE"))
        indent = outer + STEP * is_tag if macro not in ("nf", "fi") else indent
        is_tag = macro in ("TP", "TQ")
        is_literal = macro == "nf" or is_literal and macro != "fi"
    return "\n".join(found).strip("\n").split("\n")


def cut(lines: List[str], macro: str) -> List[Tuple[str, List[str]]]:
    """The parts that start at a macro, with its argument; what is before the first one is left out."""
    parts: List[Tuple[str, List[str]]] = []
    for line in lines:
        if line.startswith("." + macro + " "):
            parts.append((line_text(line).strip('"'), [line]))
        elif parts:
            parts[-1][1].append(line)
    return parts


def tools_of(lines: List[str]) -> Dict[str, Dict[str, List[str]]]:
    """The tools of the section TOOLS; one may have several heads, one after another."""
    found: Dict[str, Tuple[List[str], List[str]]] = {}
    for head, part in cut(lines, "SS"):
        heads, text = found.setdefault(head.split(" ")[0], ([], []))
        heads += head.split(" | ") if head.count(" | ") and head.count(head.split(" ")[0] + " ") > 1 else [head]
        text += part
    return {name: {"synopses": heads, "text": render(text)} for name, (heads, text) in found.items()}


def page_lines() -> List[str]:
    with open(PAGE, encoding="utf-8") as file:
        return file.read().splitlines()


def help_text() -> str:
    """What the file has: the sections by their names in small letters, and the tools with their synopses."""
    sections = {head.lower(): part for head, part in cut(page_lines(), "SH")}
    shown = {name: [name.upper(), *render(part[1:])] for name, part in sections.items()}
    return json.dumps({"sections": shown, "tools": tools_of(sections["tools"])}, indent=1) + "\n"


if __name__ == "__main__":
    with open(HELP, "w", encoding="utf-8") as out:
        out.write(help_text())
