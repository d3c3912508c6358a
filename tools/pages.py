#!/usr/bin/env -S python3 -B
"""Makes the manual pages of facl: of texts in docs/pages, the parsers of the verbs, and sections of two pages in docs.

usage: tools/pages.py [--version VERSION] FOLDER        writes FOLDER/man1, man5 and man7
       tools/pages.py --words                           prints how many words each page has

A text is NAME.SECTION.md, of which the first line is `# NAME(SECTION): what it is`. It has headings, paragraphs, lists,
tables of two columns, and blocks of examples. A page of a verb gets its usage and its options from the verb's parser. A
line `<!-- cut FILE: SECTION / SUBSECTION -->` takes a section of another page as it is. facl-script(5) is docs/facl.1,
and facl-commands(1) is docs/facl-commands.1. The exit status is 2 if the words are others, or a text has a section
that is not there.
"""
from __future__ import annotations

import argparse
import os
import re
from typing import Dict, Iterator, List, NamedTuple, Optional

from lib import script
from lib.script import TOP, Failed
from facl_commands.verbs.options import BY_FIELD, VerbOption
from facl_commands.verbs.table import BY_VERB, Verb

TEXTS = os.path.join(TOP, "docs", "pages")
HEAD = re.compile(r"# ([a-z-]+)\(([157])\): (.+)")
CUT = re.compile(r"<!-- cut (\S+): ([^/>]+?)(?: / (.+?))? -->")
PIECE = re.compile(r"`([^`]+)`|\*([^*]+)\*|\b(facl[a-z-]*|[a-z]+)\(([1578])\)|\[([^\]]+)\]\([^)]*\)")
TITLES = {"1": "User Commands", "5": "File Formats", "7": "Miscellanea"}
SCRIPT_PAGE, COMMANDS_PAGE = "docs/facl.1", "docs/facl-commands.1"
OF_SCRIPTS = re.compile(r"(?m)^\.BR facl \(1\)")  # What these two call the page of the script language.


class PageText(NamedTuple):
    """A text of docs/pages."""

    name: str
    section: str
    about: str
    lines: List[str]

    def verb(self) -> Optional[Verb]:
        return BY_VERB.get(self.name[len("facl-"):]) or BY_VERB.get(self.name[len("facl-"):].replace("-", " ", 1))


def read_page(path: str) -> PageText:
    with open(path, encoding="utf-8") as file:
        first, *lines = file.read().split("\n")
    head = HEAD.fullmatch(first)
    if head is None or "%s.%s.md" % head.groups()[:2] != os.path.basename(path):
        raise Failed("%s: its first line is no head of this page" % path)
    return PageText(head[1], head[2], head[3], lines)


def texts() -> List[PageText]:
    return [read_page(os.path.join(TEXTS, name)) for name in sorted(os.listdir(TEXTS)) if name.endswith(".md")]


# --- lines of troff


def escaped(text: str) -> str:
    return text.replace("\\", "\\e").replace("-", "\\-").replace("'", "\\(aq")


def inline(text: str) -> str:
    """A line of text with its fonts."""
    found, place = "", 0
    for piece in PIECE.finditer(text):
        code, italic, page, number, link = piece.groups()
        found += escaped(text[place:piece.start()])
        found += "\\fB%s\\fR" % escaped(code) if code else "\\fI%s\\fR" % escaped(italic) if italic else (
            "\\fB%s\\fR(%s)" % (escaped(page), number) if page else escaped(link))
        place = piece.end()
    found += escaped(text[place:])
    return "\\&" + found if found.startswith((".", "\\(aq")) else found


def literal(line: str) -> str:
    return "\\&" + escaped(line) if line.startswith((".", "'")) else escaped(line)


def text_of(path: str) -> str:
    """A page of docs, with the name of facl-script(5) as it is installed."""
    with open(os.path.join(TOP, path), encoding="utf-8") as file:
        return OF_SCRIPTS.sub(r".BR facl\\-script (5)", file.read())


def cut_lines(path: str, section: str, subsection: Optional[str]) -> List[str]:
    """A section of a page, or a subsection, without its heading."""
    lines = text_of(path).split("\n")
    names = ((".SH ", section), (".SS ", subsection))
    heads = [mark + name.replace("-", "\\-") for mark, name in names if name is not None]
    start = 0
    for head in heads:
        if head not in lines[start:]:
            raise Failed("%s: has no section %s" % (path, head))
        start = lines.index(head, start) + 1
    ends = (".SH ",) if subsection is None else (".SH ", ".SS ")
    end = next((at for at in range(start, len(lines)) if lines[at].startswith(ends)), len(lines))
    return lines[start:end]


def row_lines(line: str) -> Iterator[str]:
    """A row of a table as an item; none of its head, and of the line below that."""
    cells = [cell.strip() for cell in line.strip("| ").split(" | ")]
    if len(cells) == 2 and cells[0] and not set(cells[0]) <= {"-", "|"}:
        yield from (".TP", inline(cells[0]), inline(cells[1]))


def troff(lines: List[str]) -> Iterator[str]:
    """The text below a page's head."""
    is_literal = False
    for line in lines:
        cut = CUT.fullmatch(line)
        if line.startswith("```"):
            is_literal = not is_literal
            yield from ((".PP", ".RS 4", ".nf") if is_literal else (".fi", ".RE"))
        elif is_literal:
            yield literal(line)
        elif cut is not None:
            yield from cut_lines(*cut.groups())
        elif line.startswith("### "):
            yield ".SS " + inline(line[4:])
        elif line.startswith("## "):
            yield ".SH " + inline(line[3:]).upper().replace("\\FB", "").replace("\\FR", "").replace("\\FI", "")
        elif line.startswith("|"):
            yield from row_lines(line)
        elif line.startswith("- "):
            yield from (".IP \\(bu 2", inline(line[2:]))
        else:
            yield inline(line) if line else ".PP"


def sentence(text: str) -> str:
    return inline(text[0].upper() + text[1:] + ".")


def option_lines(option: VerbOption) -> Iterator[str]:
    names = ", ".join("\\fB%s\\fR" % escaped(name) for name in option.names)
    yield from (".TP", names + (" \\fI%s\\fR" % option.value if option.value else ""))
    yield sentence(option.help)


def synopsis(verb: Verb) -> str:
    """The usage of a verb with its words as a page has them."""
    words = re.sub(r"(--?[a-z-]+)", lambda found: "\\fB%s\\fR" % escaped(found[0]), verb.usage()[len(verb.name):])
    words = re.sub(r"\b([A-Z]+)\b(?!\\)", r"\\fI\1\\fR", words)
    return "\\fBfacl %s\\fR%s [\\fIOPTION\\fR]..." % (escaped(verb.name), words)


def page_of(page: PageText, version: str) -> List[str]:
    """The lines of a page. Its example comes before all else."""
    verb = page.verb()
    title = escaped(page.name).upper()
    found = ['.TH %s %s "" "facl %s" "%s"' % (title, page.section, version, TITLES[page.section]), ".SH NAME",
             "%s \\- %s" % (escaped(page.name), inline(page.about)), *[".SH SYNOPSIS"] * (verb is not None)]
    if verb is None:
        return [*found, *troff(page.lines)]
    first, rest = parts_of(page.lines)
    options = [line for field in verb.options for line in option_lines(BY_FIELD[field])]
    operands = [line for it in verb.operands for line in (".TP", "\\fI%s\\fR" % it.name, sentence(it.help))]
    return [*found, synopsis(verb), *troff(first), ".SH OPTIONS", *operands, *options, *troff(rest)]


def parts_of(lines: List[str]) -> "tuple[List[str], List[str]]":
    """What comes before the options, and the sections after them: from EXIT STATUS on."""
    end = next((at for at, line in enumerate(lines) if line == "## Exit status"), len(lines))
    return lines[:end], lines[end:]


def tidy(lines: List[str]) -> str:
    """The lines without paragraphs that are empty."""
    found: List[str] = []
    for at, line in enumerate(lines):
        after = next((it for it in lines[at + 1:] if it != ".PP"), ".SH")
        is_empty = after.startswith((".SH", ".SS", ".PP", ".TP", ".IP"))
        is_first = bool(found) and found[-1].startswith((".SH", ".SS", ".PP"))
        if line != ".PP" or not is_empty and not is_first:
            found.append(line)
    return "\n".join(found) + "\n"


def script_page(version: str) -> str:
    """facl-script(5): the page of the script language."""
    head = '.TH FACL\\-SCRIPT 5 "" "facl %s" "File Formats"' % version
    text = re.sub(r"(?m)^\.TH FACL 1 .*", head.replace("\\", "\\\\"), text_of(SCRIPT_PAGE), count=1)
    return text.replace(".SH NAME\nfacl ", ".SH NAME\nfacl\\-script ", 1)


def pages(version: str) -> Dict[str, str]:
    """The pages by the names of their files."""
    made = {"man%s/%s.%s" % (it.section, it.name, it.section): tidy(page_of(it, version)) for it in texts()}
    return {**made, "man5/facl-script.5": script_page(version), "man1/facl-commands.1": text_of(COMMANDS_PAGE)}


def words_in(page: str) -> int:
    """How many words a reader finds on a page."""
    text = re.sub(r"(?m)^\.(?:TH|nf|fi|RS|RE|PP|TP|IP|br|sp|in|EX|EE)\b.*|^\.[A-Z]+ ?|\\f[BIRP]|\\&", "", page)
    return len(text.split())


def main() -> int:
    options = argparse.ArgumentParser(description=__doc__, formatter_class=argparse.RawDescriptionHelpFormatter)
    options.add_argument("--version", default="0")
    options.add_argument("--words", action="store_true")
    options.add_argument("folder", metavar="FOLDER", nargs="?")
    given = options.parse_args()
    if given.words == (given.folder is not None):
        options.error("give FOLDER or --words")
    for name, text in sorted(pages(given.version).items()):
        if given.words:
            print("%6d  %s" % (words_in(text), name))
            continue
        path = os.path.join(given.folder, name)
        os.makedirs(os.path.dirname(path), exist_ok=True)
        with open(path, "w", encoding="utf-8") as file:
            file.write(text)
    return 0


if __name__ == "__main__":
    script.run(main)
