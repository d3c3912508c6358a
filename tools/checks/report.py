"""The page of facl-report in headless Chromium (Debian's chromium): how long large pages take, and README's picture.

usage: tools/check.py report PROGRAM [--files N] [--users N] [--levels N] [--record|--picture FILE]

It opens the page of a chain of --levels directories (900), along which a user gets half the way, and measures that of
--files files of few lists and --users users (5,000 and 20): how long it takes to write, to open and to search, and its
size. commands/tests/test_browser.py has what a person does with a page. --picture makes README's picture alone, as
docs/page.png; --record writes a row of docs/CHECKS.md. The exit status is 1 if something is not as it has to be, 2
if Chromium is not installed.
"""
from __future__ import annotations

import os
import subprocess
import sys
import tempfile
import time
from pathlib import Path
from typing import Tuple

from lib.picture import with_few_colours
from lib.script import TOP, Failed
from lib.session import conclude, options_of
from lib.texts import write_tree
from browser import CHROMIUM, Browser, Page

META = "host files.example.org\ndate 2026-11-27T03:31:16Z\nversion 0.20261127\nfolder /srv\n"
# Files of a company with their owner, group and list.
COMPANY = """0 0 rwx r-x r-x|/ /srv/ /srv/projects/ /srv/sales/
anna finance rwx r-x --x|/srv/finance/
anna finance rwx r-x ---|/srv/finance/bills/
anna finance rw- r-- --- user:ben:rw- mask::r--|/srv/finance/budget.ods
anna finance rw- r-- ---|/srv/finance/audit.pdf /srv/finance/tax.pdf
anna finance rw- --- ---|/srv/finance/loans.ods /srv/finance/payroll.ods
dora hr rwx r-x ---|/srv/hr/
dora hr rw- rw- ---|/srv/hr/contracts.odt /srv/hr/holidays.ods /srv/hr/reviews.odt
felix sales rw- rw- r--|/srv/projects/hall.odt /srv/projects/shop.odt /srv/sales/offers.odt /srv/sales/prices.ods
anna finance rw- rw- ---|/srv/finance/plan.ods """ + " ".join(f"/srv/finance/bills/{it}.pdf" for it in range(101, 113))
SEARCH = """(() => { const field = document.getElementById('search'), start = performance.now(); field.value = %r;
    field.dispatchEvent(new Event('input', {bubbles: true})); return (performance.now() - start) / 1000; })()"""
WIDTH, SCALE, COLOURS, MOST_BYTES = 1200, 1.2, 24, 60_000  # Of the picture.


def expect(is_so: object, text: str) -> None:
    if not is_so:
        raise Failed(text)


def write_texts(folder: str, people: str, groups: str, files: str, about: str = "") -> str:
    """Writes the texts of a snapshot into a new folder; the people are two to a group."""
    texts = {"group": "".join(f"{name}:x:{100 + it}:\n" for it, name in enumerate(groups.split())), "dump": "", "meta": about}
    texts["passwd"] = "".join(f"{name}:x:{1000 + it}:{100 + it // 2}::/:\n" for it, name in enumerate(people.split()))
    for head, paths in (line.split("|") for line in files.splitlines()):
        owner, group, mine, its, others, *more = head.split()
        rest = "\n".join([f"# owner: {owner}\n# group: {group}\nuser::{mine}\ngroup::{its}\nother::{others}", *more])
        texts["dump"] += "".join(f"# file: {path}\n{rest}\n\n" for path in paths.split())
    os.mkdir(folder)
    for name, text in texts.items():
        if text or name != "meta":
            Path(folder, name).write_text(text, encoding="ascii")
    return folder


def write_page(program: str, snapshot: str, script: str = "") -> Tuple[str, float]:
    """Writes the page of a snapshot and a script beside it; returns its name, and the seconds that this took."""
    file = snapshot + ".html"
    words = [sys.executable, "-B", f"{TOP}/commands/facl-report", "--program", program, os.path.basename(snapshot)]
    start = time.monotonic()
    with open(file, "wb") as made:
        done = subprocess.run(words + ["-"] * bool(script), cwd=os.path.dirname(snapshot), input=script.encode(), stdout=made,
                              stderr=subprocess.PIPE, check=False)
    expect(done.returncode == 0, f"facl-report: status {done.returncode}: {done.stderr!r}")
    return file, time.monotonic() - start


def check_chain(page: Page, program: str, work: str, levels: int) -> None:
    """A chain of directories with a file in the last one; u1 may not search the one in the middle."""
    paths = ["/" + "d/" * level for level in range(levels + 1)] + ["/" + "d/" * levels + "leaf"]
    rows = [f"u0 all rwx {'r--' if it == levels // 2 else 'r-x'} r-x|{path}\n" for it, path in enumerate(paths)]
    folder = write_texts(os.path.join(work, "chain"), "u0 u1", "all other", "".join(rows))
    file, seconds = write_page(program, folder, f"chmod 600 {paths[-1]}\n")
    start = time.monotonic()
    page.open(file, "u=u1")
    page.evaluate("document.getElementById('search').focus()")
    page.type("leaf").press("ArrowDown", "Enter")
    wanted = [(paths[-1] if len(paths[-1]) <= 2000 else paths[-1][:1000] + " \u2026 " + paths[-1][-1000:])]
    expect(page.texts("#side h2") == wanted, f"the search of a chain: {page.texts('#side h2')}")
    reasons = page.texts("#side .asked .reason")
    expect(any("group::r--" in it and " of /d/d/" in it for it in reasons), f"the reason in a chain: {reasons}")
    print(f"{levels} levels: written in {seconds:.1f} s, looked at in {time.monotonic() - start:.1f} s")


def measured(page: Page, program: str, work: str, files: int, users: int) -> str:
    """What a large page takes."""
    folder = write_texts(os.path.join(work, "made"), "", "", "")
    write_tree(folder, files, users)
    file, written = write_page(program, folder)
    start = time.monotonic()
    page.open(file, seconds=300).settle()
    opened = time.monotonic() - start
    expect(len(page.texts("#tree .row")) > 1, "nothing is shown")
    found = page.evaluate(SEARCH % "d1/f")
    size = os.path.getsize(file) / 1e6
    expect(not page.faults(), f"complaints: {page.faults()}")
    return f"written in {written:.1f} s, {size:.1f} MB, opened in {opened:.1f} s, searched in {found:.2f} s"


def take_picture(page: Page, program: str, work: str, file: str) -> int:
    """What Ben may do, and how the edit for Ines lets him write; nothing is cut off."""
    folder = write_texts(os.path.join(work, "before"), "anna ben dora emil felix ines", "finance hr sales", COMPANY, META)
    page.size(WIDTH, 700, SCALE)
    page.open(write_page(program, folder, "setfacl -m u:ines:r /srv/finance/budget.ods\n")[0], "u=ben&f=srv/finance/budget.ods").settle()
    ends = page.evaluate("[...document.querySelectorAll('#tree .row')].map(it => it.getBoundingClientRect().bottom)")
    ends.append(page.evaluate("(side => side.getBoundingClientRect().top + side.scrollHeight)(document.querySelector('#side'))"))
    height = int(max(ends)) + 10
    page.size(WIDTH, height, SCALE).settle()
    expect(page.evaluate("document.querySelector('#side').scrollHeight <= document.querySelector('#side').clientHeight"), "the answer is cut off")
    page.evaluate("document.activeElement.blur()")
    made = with_few_colours(page, COLOURS)
    expect(len(made) <= MOST_BYTES, f"the picture has {len(made)} bytes")
    Path(file).write_bytes(made)
    print(f"{file}: {len(made):,} bytes")
    return 0


def main() -> int:
    parser = options_of(__doc__, files=5_000, users=20, levels=900)
    parser.add_argument("--picture", metavar="FILE")
    given = parser.parse_args()
    if CHROMIUM is None:
        parser.error("chromium is not installed")
    with tempfile.TemporaryDirectory(prefix="facl-report.") as work, Browser() as browser:
        page = browser.page()
        if given.picture:
            return take_picture(page, given.program, work, given.picture)
        check_chain(page, given.program, work, given.levels)
        found = measured(page, given.program, work, given.files, given.users)
    return conclude(given, f"pages of {given.levels:,} levels, and of {given.files:,} files and {given.users:,} users: {found}", [])
