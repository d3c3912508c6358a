#!/usr/bin/env -S python3 -B
"""Runs a check, which is a module of tools/checks/.

usage: tools/check.py NAME WORD..      with --help as WORD: what the check NAME takes

Without NAME, or where no check has it, it prints all checks, each with the first sentence at its head. The exit status is the
check's, or 2 if there is no such check.
"""
from __future__ import annotations

import importlib
import re
import sys
from pathlib import Path
from typing import Dict

from lib import script

HEAD = re.compile(r'"""(.+?)(?:\.\s|\n\n|""")', re.DOTALL)


def checks() -> Dict[str, str]:
    """The modules with a function `main`, each with the first sentence at its head."""
    found = {}
    for path in sorted(Path(script.TOP, "tools", "checks").glob("*.py")):
        text = path.read_text(encoding="utf-8")
        head = HEAD.match(text)
        if head and "\ndef main() -> int:\n" in text:
            found[path.stem] = " ".join(head[1].split())
    return found


def main() -> int:
    known, name = checks(), "".join(sys.argv[1:2])
    if name not in known:
        is_help = name in ("-h", "--help")
        print(__doc__, *(f"{check:20} {head}" for check, head in known.items()), sep="\n", file=sys.stdout if is_help else sys.stderr)
        return 0 if is_help else 2
    # Both words name the check: in its usage and messages, and in its row of docs/CHECKS.md.
    sys.argv[:2] = [" ".join(sys.argv[:2])]
    return int(importlib.import_module(f"checks.{name}").main())


if __name__ == "__main__":
    script.run(main)
