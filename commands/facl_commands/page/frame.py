"""The page as HTML: one file with its own style, script and data.

All names are data of the page, in JSON; its script writes them as text alone. A policy in the page allows this one
script and this one style, by their checksums, and nothing from outside.
"""
from __future__ import annotations

import base64
import hashlib
import json
import os
from typing import Dict, Sequence

HERE = os.path.dirname(os.path.realpath(__file__))
STYLE = "report.css"
COMMON = "page.js"  # Before the others; parts of one function.
SCRIPTS = ("report_data.js", "report_tree.js", "report_side.js", "report_findings.js", "report.js")
FUNCTION = '(() => {\n"use strict";\n%s})();\n'
PAGE = """\
<!DOCTYPE html>
<html lang="en">
<head>
<meta charset="utf-8">
<meta http-equiv="Content-Security-Policy" content="%(policy)s">
<meta name="viewport" content="width=device-width, initial-scale=1">
<meta name="referrer" content="no-referrer">
<title>Who may do what</title>
<style>%(style)s</style>
</head>
<body>
%(first)s<noscript>This page needs JavaScript, which it has in itself.</noscript>
<script type="application/json" id="data">%(data)s</script>
<script>%(script)s</script>
</body>
</html>
"""


def checksum(text: str) -> str:
    return "'sha256-%s'" % base64.b64encode(hashlib.sha256(text.encode()).digest()).decode()


def part_of_page(name: str) -> str:
    with open(os.path.join(HERE, name), encoding="utf-8") as file:
        return file.read()


def page_of(data: Dict[str, object], style_file: str = STYLE, scripts: Sequence[str] = SCRIPTS, first: str = "") -> bytes:
    """The page of these parts; no letter of the data can end its element. What is first on it is HTML."""
    style, script = part_of_page(style_file), FUNCTION % "".join(map(part_of_page, (COMMON, *scripts)))
    sources = checksum(script), checksum(style)
    policy = "default-src 'none'; script-src %s; style-src %s; base-uri 'none'; form-action 'none'" % sources
    text = json.dumps(data, ensure_ascii=False, separators=(",", ":"))
    for letter in "<>&\u2028\u2029":
        text = text.replace(letter, "\\u%04x" % ord(letter))
    return (PAGE % {"policy": policy, "style": style, "data": text, "script": script, "first": first}).encode("utf-8")
