"""The pages in headless Chromium: by keyboard, search, address, on paper, on screens, for a screen reader, and with hostile
names. With $PICTURES, a folder, pictures of the screens are left there."""
from __future__ import annotations

import json
import os
import re
import time
import unittest
from pathlib import Path
from typing import List

from browser import Page, needs_chromium, shared
from common import HERE
from firm import FILES, HOSTILE, FirmCase, named
from pdf_text import pages_of

CONTROLS = {"button", "checkbox", "combobox", "searchbox", "textbox", "treeitem", "tree", "link", "option", "menuitem", "region", "search",
            "DisclosureTriangle", "navigation"}
SCREENS = ((390, 844, True), (1280, 900, False), (1920, 1080, False))
LOW_CONTRAST = Path(HERE, "contrast.js").read_text(encoding="utf-8")
FOCUS = "(document.activeElement.dataset.key || document.activeElement.id || document.activeElement.tagName)"
IN_SIGHT = """(() => { const box = document.querySelector(%s).getBoundingClientRect(), x = box.x + Math.min(box.width / 2, 40), y = box.y + 4,
    top = document.elementFromPoint(x, y); return box.width > 0 && !!top && document.querySelector(%s).contains(top); })()"""
RAN = "[window.ran ?? null, document.title, document.querySelectorAll('img, b, iframe, svg, a[href^=javascript]').length, document.scripts.length]"
LARGE = os.environ.get("LARGE_PAGE", "")  # The number of files of a large page.


class Pages(FirmCase):
    """Tests with a new page for each."""

    def setUp(self) -> None:
        super().setUp()
        self.sheet = shared().page()
        self.addCleanup(self.sheet.close)

    def report(self, *words: str, command: str = "facl-report") -> str:
        """Writes a page, and returns its name."""
        file = self.path("page-%d.html" % len(os.listdir(self.folder)))
        done = self.run_command(command, [*words[:-1], "--page" if command == "facl-audit" else "--output", file, words[-1]])
        self.assertTrue(os.path.exists(file), done.messages)
        return file

    def open(self, fragment: str = "") -> Page:
        """The page of the firm."""
        return self.sheet.open(self.report(self.take_snapshot()), fragment)

    def row(self, name: str) -> str:
        """The selector of the row of a file in the tree."""
        key = self.sheet.evaluate("""[...document.querySelectorAll('#tree [role=treeitem]')].find(
            it => it.querySelector('.name').textContent === %s)?.dataset.key""" % json.dumps(name))
        self.assertIsNotNone(key, "%s: no row in %s" % (name, self.sheet.texts("#tree .name")))
        return '#tree [data-key="%s"]' % key

    def answer(self) -> List[List[str]]:
        """The rows beside the tree: who, what, and why."""
        found: List[List[str]] = self.sheet.evaluate(
            "[...document.querySelectorAll('#side .whos tbody tr')].map(row => [...row.children].map(it => it.textContent))")
        return found


@needs_chromium
class ByKeyboard(Pages):
    def tab_to(self, wanted: str, most: int = 12) -> None:
        """Presses Tab until something has the focus."""
        seen = []
        for _ in range(most):
            self.sheet.press("Tab")
            seen.append(self.sheet.evaluate(FOCUS))
            if seen[-1] == wanted or seen[-1].startswith(wanted):
                return
        self.fail("Tab leads to %s, and not to %s" % (seen, wanted))

    def test_from_the_top_to_the_reasons(self) -> None:
        page = self.open()
        self.assertEqual(page.texts("#tree .right"), [])  # Nobody is chosen.
        self.tab_to("who")
        page.press("x")  # Letters that come slowly are words of their own.
        self.assertEqual(page.evaluate("document.getElementById('who').selectedOptions[0].textContent"), "xaver")
        self.tab_to("file-")
        while "finance/" not in page.evaluate("document.activeElement.querySelector('.name').textContent"):
            before = page.evaluate(FOCUS)
            page.press("ArrowDown")
            self.assertNotEqual(page.evaluate(FOCUS), before)
        state = "document.activeElement.getAttribute('aria-expanded')"
        if page.evaluate(state) == "true":
            page.press("ArrowLeft")
        self.assertEqual(page.evaluate(state), "false")
        page.press("ArrowRight")
        self.assertEqual(page.evaluate(state), "true")
        page.press("p")
        self.assertEqual(page.evaluate("document.activeElement.querySelector('.name').textContent"), "payroll/")
        page.press("Enter")
        self.assertEqual(page.texts("#side h2"), ["/srv/finance/payroll"])
        self.assertEqual(page.evaluate("document.activeElement.getAttribute('aria-selected')"), "true")
        self.tab_to("side", 3)
        self.assertEqual(page.evaluate("document.activeElement.matches(':focus-visible')"), True)
        page.press("Tab")
        self.assertEqual(page.evaluate("document.getElementById('side').contains(document.activeElement)"), True)

    def test_who_changes_payroll_and_why(self) -> None:
        page = self.open()
        page.evaluate("document.getElementById('search').focus()")
        page.type("payroll")
        keys = ["ArrowDown", "Enter"]  # At most five.
        page.press(*keys)
        self.assertEqual(page.texts("#side h2"), ["/srv/finance/payroll"])
        self.assertIn(["anna", "reads, changes and enters rwx"], [[row[0], row[1].partition(" below")[0].strip()[:29]] for row in self.answer()])
        why = [row[2] for row in self.answer() if row[0] == "anna"]
        self.assertEqual(why, ["by user::rwx"])

    def test_nothing_loses_the_focus(self) -> None:
        page = self.open("u=xaver")
        page.evaluate("document.querySelector('#tree [tabindex=\"0\"]').focus()")
        for key in ("Home", "ArrowDown", "ArrowRight", "ArrowRight", "ArrowLeft", "Enter", "End", "ArrowLeft", "Space", "Home", "*", "ArrowUp"):
            page.press(key)
            self.assertNotEqual(page.evaluate("document.activeElement.tagName"), "BODY", key)
            self.assertEqual(page.evaluate("document.querySelectorAll('#tree [tabindex=\"0\"]').length"), 1)


@needs_chromium
class Choices(Pages):
    def test_search(self) -> None:
        page = self.open()
        for text, count in (("payroll", 1), ("FINANCE/PAY", 1), ("csv", 2), ("grüße", 1), ("nothing of this", 0), ("/srv/finance/budget", 1)):
            page.evaluate("document.getElementById('search').select()")
            page.click("#search").evaluate("document.getElementById('search').select()")
            page.insert(text)
            page.settle()
            self.assertEqual((text, page.texts("#count")), (text, ["%d found" % count]))
        page.click(self.row("/srv/finance/budget.ods"))
        page.click("#search").press("Escape")
        page.settle()
        self.assertEqual(page.evaluate("document.querySelector('#tree [aria-selected=true] .name').textContent"), "budget.ods")

    def test_address(self) -> None:
        page = self.open("u=xaver&f=srv/finance/payroll/03.csv")
        self.assertEqual((page.texts("#side h2"), page.evaluate("document.getElementById('who').selectedOptions[0].textContent")),
                         (["/srv/finance/payroll/03.csv"], "xaver"))
        page.click(self.row("04.csv"))
        self.assertEqual(page.evaluate("location.hash"), "#u=xaver&f=srv/finance/payroll/04.csv")
        page.evaluate("history.back()")
        page.wait_for("document.querySelector('#side h2').textContent === '/srv/finance/payroll/03.csv'")
        page.choose("#who", "anna").click("#along")
        self.assertEqual(page.evaluate("location.hash"), "#u=anna&f=srv/finance/payroll/03.csv&v=alone")
        page.reload()
        self.assertEqual((page.texts("#side h2"), page.evaluate("document.getElementById('along').checked")), (["/srv/finance/payroll/03.csv"], False))
        for odd in ("u=nobody&f=not/there", "f=%", "u=%ff&v=,,", "q=%2Fsrv%2F", "&&==", "f=srv/finance/It's"):
            page.go("about:blank")
            page.open(self.path(next(it for it in os.listdir(self.folder) if it.endswith(".html"))), odd)
        self.assertEqual(page.faults(), [])

    def test_findings(self) -> None:
        page = self.sheet.open(self.report("--fail-on", "none", self.take_snapshot(), command="facl-audit"))
        self.assertIn("middle mask-cuts-entry 1 file", page.texts("#findings summary"))
        place = page.texts("#findings summary").index("middle mask-cuts-entry 1 file") + 1
        page.evaluate("document.querySelectorAll('#findings summary')[%d].focus()" % (place - 1))
        page.press("Enter").settle()
        page.press("Tab").press("Enter").settle()
        self.assertEqual(page.texts("#side h2"), ["/srv/finance/payroll/03.csv"])
        self.assertEqual(page.evaluate("document.querySelector('#tree [aria-selected=true] .name').textContent"), "03.csv")
        self.assertIn("for facl plan: setfacl -n -m u:xaver:r-- /srv/finance/payroll/03.csv", page.texts("#side .found .reason"))
        self.assertEqual(page.faults(), [])


@needs_chromium
class Shown(Pages):
    def keep_picture(self, name: str) -> None:
        if "PICTURES" in os.environ:
            self.sheet.picture(os.path.join(os.environ["PICTURES"], name + ".png"))

    def check_screen(self, name: str) -> None:
        """No text is cut off at the right, and each can be read."""
        self.keep_picture(name)
        wide, low = self.sheet.evaluate("[document.documentElement.scrollWidth - innerWidth, %s]" % LOW_CONTRAST)
        self.assertLessEqual(wide, 0, name)
        self.assertEqual(low, [], name)

    def test_screens(self) -> None:
        files = {"page": self.report(self.take_snapshot()), "audit": self.report("--fail-on", "none", self.path("firm"), command="facl-audit")}
        for (width, height, is_phone), scheme in ((screen, scheme) for screen in SCREENS for scheme in ("light", "dark")):
            self.sheet.size(width, height, 1, is_phone).media(scheme)
            for name, file in files.items():
                name = "%s-%d-%s" % (name, width, scheme)
                self.sheet.go("about:blank")
                self.sheet.open(file, "u=xaver")
                self.check_screen(name)
                self.sheet.click(self.row("finance/") + " .name")
                self.sheet.wait_for(IN_SIGHT % (("'#side h2'",) * 2))
                self.check_screen(name + "-answer")
                if is_phone:
                    self.sheet.click("#back")
                    self.sheet.wait_for(IN_SIGHT % (("'%s'" % self.row("finance/"),) * 2))

    def test_less_movement(self) -> None:
        page = self.sheet.size(390, 844, 1, True).media(motion="reduce")
        self.open()
        moving = """[...document.querySelectorAll('*')].filter(it => getComputedStyle(it).transitionDuration.split(', ').some(time => parseFloat(time) > 0)
            || getComputedStyle(it).animationName !== 'none').length"""
        self.assertEqual(page.evaluate(moving), 0)

    def test_roles_and_names(self) -> None:
        page = self.open("u=xaver&f=srv/finance")
        page.evaluate("document.getElementById('search').focus()")
        nodes = list(page.nodes())
        self.assertEqual([node for node in nodes if node.role in CONTROLS and not node.name.strip()], [])
        self.assertEqual(len([node for node in nodes if node.role == "tree"]), 1)
        items = [node for node in nodes if node.role == "treeitem"]
        self.assertTrue(items)
        self.assertTrue(all(node.states.get("level", 0) > 0 for node in items))
        self.assertTrue(any("expanded" in node.states for node in items))
        headings = [node.name for node in nodes if node.role == "heading"]
        self.assertEqual(headings[0], "Who may do what")
        unfocused = """[...document.querySelectorAll('button, input, select, summary, [tabindex="0"]')].filter(it => it.checkVisibility({visibilityProperty: true})
            && !it.disabled).filter(it => { it.focus(); return document.activeElement !== it; }).length"""
        self.assertEqual(page.evaluate(unfocused), 0)

    def test_paper(self) -> None:
        page = self.open("u=xaver&f=srv/finance")
        sheets = pages_of(page.pdf())
        self.assertGreater(len(sheets), 0)
        text = "".join(sheets).replace(" ", "")
        for part in ("srva", "2026-11-27", "/srv", "0.20261127", "xaver", "alongpaths", "finance/", "03.csv", "10files", "readsandchanges", "user:xaver:r-x"):
            self.assertIn(part, text)
        page.media(kind="print")
        hidden = page.evaluate("['head', 'word', 'tree', 'bar'].map(it => document.getElementById(it).checkVisibility({visibilityProperty: true}))")
        self.assertEqual(hidden, [True, True, True, False])


@needs_chromium
class HostileNames(Pages):
    def look_around(self, file: str, addresses: List[str]) -> None:
        """Opens all, chooses each file and user, searches and takes addresses; nothing may run or be made."""
        page = self.sheet.open(file)
        page.evaluate("""(async () => { const tree = document.getElementById('tree'); for (let it; (it = document.querySelector('#tree [aria-expanded=false]')); ) {
            it.focus(); it.dispatchEvent(new KeyboardEvent('keydown', {key: 'ArrowRight', bubbles: true})); }
            for (const it of document.querySelectorAll('#who option')) { const who = document.getElementById('who'); who.value = it.value; who.dispatchEvent(new Event('change')); }
            for (const key of [...document.querySelectorAll('#tree [data-key]')].map(it => it.dataset.key)) {
              document.querySelector('#tree [data-key="' + key + '"] .name').click(); } })()""")
        page.evaluate("(async all => { for (const it of all) { location.hash = it; await new Promise(done => setTimeout(done, 5)); } })(%s)"
                      % json.dumps(addresses))
        self.assertEqual(page.evaluate(RAN), [None, "Who may do what", 0, 2])
        self.assertEqual(page.faults(), [])

    def test_nothing_runs(self) -> None:
        self.assertEqual(len(HOSTILE), 28)
        addresses = ["&".join(key + "=" + named(it) for key in ("f", "u", "g", "q", "v")) for it in HOSTILE] + [named(it) for it in HOSTILE]
        file = self.report(self.take_hostile())
        self.look_around(file, addresses)
        with open(file, encoding="utf-8") as page:
            text = page.read()
        bare = re.sub(r'<meta http-equiv="Content-Security-Policy"[^>]*>', "", text)
        self.assertNotEqual(bare, text)
        self.write("bare.html", bare.encode())
        self.sheet.go("about:blank")
        self.look_around(self.path("bare.html"), addresses)


@needs_chromium
@unittest.skipUnless(LARGE, "only with LARGE_PAGE=FILES")
class LargePage(Pages):
    """A page of many files and users of few lists: written in 20 s, at most 25 MB, open in 2 s, a search in 0.3 s for 1,000,000
    files and 1,000 users; the times are printed."""

    def test_in_time(self) -> None:
        count = int(LARGE)
        users = "".join("u%d:x:%d:%d::/:\n" % (k, 10_000 + k, 10_000 + k % 50) for k in range(1000))
        groups = "".join("g%d:x:%d:\n" % (k, 10_000 + k) for k in range(50))
        files = {name: FILES[name] for name in ("/", "/srv/")}
        for k in range(max(1, count // 1000)):
            files["/srv/d%d/" % k] = "1001 %d - user::rwx group::r-x other::---" % (10_000 + k % 50)
            for number in range(999):
                files["/srv/d%d/f%d" % (k, number)] = "1001 %d - user::rw- group::r-- other::---" % (10_000 + k % 50)
        start = time.monotonic()
        file = self.report(self.take_snapshot("large", files, users + PASSWD_OF_OWNER, groups))
        written = time.monotonic() - start
        start = time.monotonic()
        page = self.sheet.open(file, seconds=120)
        page.settle()
        opened = time.monotonic() - start
        found = page.evaluate("""(() => { const start = performance.now(), field = document.getElementById('search'); field.value = 'd7/f99';
            field.dispatchEvent(new Event('input', {bubbles: true})); return (performance.now() - start) / 1000; })()""")
        size = os.path.getsize(file) / 1e6
        print("%d files: written in %.1f s, %.1f MB, open in %.1f s, a search in %.2f s" % (len(files), written, size, opened, found))
        self.assertLess((size, opened, found), (25, 2, 0.3))


PASSWD_OF_OWNER = "owner:x:1001:10000::/:\n"

if __name__ == "__main__":
    unittest.main()
