"""facl-report --for-review: what the page of a folder says, beside the program's answers; and in headless Chromium the lines
that its ticks make, which the program takes and which change the ticked entries alone."""
from __future__ import annotations

import json
import os
import re
from pathlib import Path
from typing import Any, Dict, List, Set, Tuple

from browser import needs_chromium, shared
from common import HERE
from firm import FILES, HOSTILE, FirmCase, file_named
from pdf_text import pages_of

from facl_commands.base.names import read_name
from facl_commands.base.programs import LINUX
from facl_commands.program.session import Session

FOLDER = "srv/finance"
LOW_CONTRAST = Path(HERE, "contrast.js").read_text(encoding="utf-8")
Data = Dict[str, Any]
Entries = Dict[str, Set[str]]  # By the name of a file, as the program prints it.


def data_of(page: bytes) -> Data:
    found = re.search(rb'<script type="application/json" id="data">(.*?)</script>', page, re.DOTALL)
    assert found is not None
    data: Data = json.loads(found[1])
    return data


class Review(FirmCase):
    def page(self, *words: str) -> Data:
        """The data of the page of the folder."""
        done = self.run_command("facl-report", ["--for-review", "--folder", FOLDER, *words, self.take_snapshot()])
        self.assertEqual((done.status, done.messages), (0, b""))
        return data_of(done.out)

    def test_what_people_may_do(self) -> None:
        cases: List[Tuple[List[str], bytes]] = [([], b"--reach "), (["--file-alone"], b"")]
        for words, option in cases:
            data = self.page(*words)
            people = {it["name"]: it for it in data["people"]}
            self.assertEqual(list(people), ["everybody else", "anna", "bert", "carla", "dirk", "xaver"])
            with Session(LINUX.find(), os.fsencode(self.path("firm"))) as session:
                for key, request in (("reads", b"r"), ("changes", b"w")):
                    lines = session.ask_accepted(b"below %s%s srv/finance" % (option, request)).read().decode().splitlines()
                    wanted = {line.split(" ")[1]: int(line.split(" ")[0]) for line in lines if line.split(" ")[1] != "root"}
                    self.assertEqual({name: it[key] for name, it in people.items() if it[key] and name != "everybody else"},
                                     {name: count for name, count in wanted.items() if name in people})
            # 04.csv has r for others, and is in closed folders.
            self.assertEqual([people["everybody else"][key] for key in ("reads", "changes", "enters")], [1 if words else 0, 0, 0])
            self.assertEqual(people["everybody else"]["by"], ["everybody else"] if words else [])
        people = {it["name"]: it for it in self.page()["people"]}
        self.assertEqual((people["dirk"]["by"], people["carla"]["by"]), ([], ["group audit"]))
        self.assertEqual((people["xaver"]["enters"], people["carla"]["enters"]), (2, 1))

    def test_lists(self) -> None:
        data = self.page()
        self.assertEqual(dict(data["facts"]), {"host": "srva", "date": "2026-11-27T03:10:00Z", "folder": "/srv/finance", "version": "0.20261127",
                                               "files": "12", "folders": "2", "judge": "what Linux grants"})
        counts = [data["files"]["lists"].count(number) for number in range(len(data["lists"]))]
        self.assertEqual(sorted(counts), [1, 1, 1, 1, 10])
        first = data["lists"][0]
        self.assertEqual([(it["who"], it["key"]) for it in first["entries"]][:5],
                         [("owner anna", ""), ("user xaver", "u:xaver"), ("owning group finance", ""), ("group audit", "g:audit"), ("at most (mask)", "")])
        self.assertEqual([it["key"] for it in first["entries"] if it["isDefault"] and it["key"]], ["d:u:xaver", "d:g:audit"])
        names = [[data["people"][it]["name"] for it in data["sets"][entry["people"]]] for entry in first["entries"][:4]]
        self.assertEqual(names, [["anna"], ["xaver"], ["bert"], ["carla"]])
        self.assertEqual(len(self.page("--all-users")["people"]), 7)
        self.assertEqual(len(self.page("--all-users", "--with-root")["people"]), 8)

    def test_everybody_else(self) -> None:
        files = {**FILES, "/srv/finance/": FILES["/srv/finance/"].replace("mask::rwx other::---", "mask::rwx other::--x", 1),
                 "/srv/finance/budget.ods": FILES["/srv/finance/budget.ods"].replace("other::---", "other::r--")}
        snapshot = self.take_snapshot(files=files)
        self.write(snapshot + "/meta", self.read(snapshot + "/meta") + b"users-asked-for 13\n")
        done = self.run_command("facl-report", ["--for-review", "--folder", FOLDER, snapshot])
        data = data_of(done.out)
        first = data["people"][0]
        self.assertEqual((first["name"], first["reads"], first["changes"], first["enters"], first["by"]),
                         ("everybody else", 1, 0, 1, ["everybody else"]))
        entry = data["lists"][0]["entries"][5]  # That of the folder for others.
        self.assertEqual((entry["who"], entry["key"], [data["people"][it]["name"] for it in data["sets"][entry["people"]]]),
                         ("everybody else", "", ["everybody else", "dirk"]))
        self.assertEqual(dict(data["facts"])["users of a directory service"], "13")
        self.assertNotIn(b"facl-everybody", done.out)

    def test_words(self) -> None:
        snapshot = self.take_snapshot()
        for words, text in ((["--for-review"], b"--for-review needs the folder"), (["--folder", FOLDER], b"go with --for-review"),
                            (["--all-users"], b"go with --for-review")):
            done = self.run_command("facl-report", [*words, snapshot])
            self.assertEqual((done.status, done.out), (2, b""))
            self.assertIn(text, done.messages)
        self.write("edits", b"")
        self.assertIn(b"leave out the SCRIPTs", self.run_command("facl-report", ["--for-review", "--folder", FOLDER, snapshot, "edits"]).messages)
        done = self.run_command("facl-report", ["--for-review", "--folder", "/srv/absent", snapshot])
        self.expect(done, 2, b"", b"facl-report: /srv/absent: is not recorded: the snapshot is of /srv\n")
        self.expect(self.run_command("facl-report", ["--for-review", "--folder", "/srv/finance/", "--output", "page.html", snapshot]), 0,
                    b"wrote page.html\n")
        for folder in ("/", "/srv/finance/budget.ods"):
            self.assertEqual(self.run_command("facl-report", ["--for-review", "--folder", folder, snapshot]).status, 0)


def entries_in(session: Session) -> Entries:
    """The entries of all files, with names."""
    found: Entries = {}
    for record in session.ask_accepted(b"getfacl -R .").read().decode("utf-8", "surrogateescape").split("\n\n")[:-1]:
        name, *lines = record.split("\n")
        found[name] = {re.sub("\t+.*", "", line) for line in lines if not line.startswith("#")}
    return found


@needs_chromium
class InBrowser(FirmCase):
    def setUp(self) -> None:
        super().setUp()
        self.sheet = shared().page()
        self.addCleanup(self.sheet.close)

    def open(self, snapshot: str, folder: str = FOLDER, fragment: str = "") -> Data:
        done = self.run_command("facl-report", ["--for-review", "--folder", folder, snapshot])
        self.assertEqual((done.status, done.messages), (0, b""))
        self.write("review.html", done.out)
        self.sheet.go("about:blank")
        self.sheet.open(self.path("review.html"), fragment)
        return data_of(done.out)

    def lines(self) -> List[bytes]:
        first, *lines = self.sheet.evaluate("document.getElementById('lines').textContent").split("\n")
        self.assertEqual(first, "# for facl plan, not for a shell" if lines else "")
        return [it.encode() for it in lines]

    def changed(self, snapshot: str, lines: List[bytes]) -> Set[Tuple[str, str]]:
        """What the program changes by lines: file and entry of each that is gone; nothing else may differ."""
        with Session(LINUX.find(), os.fsencode(snapshot)) as session:
            before = entries_in(session)
            for line in lines:
                self.assertEqual(session.ask(line + b"\n").messages, [], line)
            after = entries_in(session)
        self.assertEqual({name: found - before[name] for name, found in after.items() if found - before[name]}, {})
        self.assertEqual(list(before), list(after))
        return {(name, entry) for name in before for entry in before[name] - after[name]}

    def wanted(self, data: Data, ticked: List[Tuple[int, int]], snapshot: str) -> Set[Tuple[str, str]]:
        """The entries that have these boxes, with their files as the program prints them."""
        with Session(LINUX.find(), os.fsencode(snapshot)) as session:
            names = list(entries_in(session))
        files = [name for name in names if name.startswith("# file: " + data["files"]["names"][0])]
        self.assertEqual(len(files), len(data["files"]["lists"]))
        found = set()
        for number, place in ticked:
            entry = data["lists"][number]["entries"][place]
            text = "default:" * entry["isDefault"] + entry["who"].replace(" ", ":", 1) + ":" + entry["permissions"]
            found |= {(name, text) for name, its in zip(files, data["files"]["lists"]) if its == number}
        return found

    def test_ticks_are_lines(self) -> None:
        snapshot = self.take_snapshot()
        data = self.open(snapshot)
        boxes = [(number, place) for number, it in enumerate(data["lists"]) for place, entry in enumerate(it["entries"]) if entry["key"]]
        self.assertEqual(len(self.sheet.texts("#entries input[type=checkbox]")), len(boxes))
        for some in (boxes[:1], boxes[2:4], boxes[1::2], boxes):
            for number, place in some:
                self.sheet.click('[id="box-%d.%d"]' % (number, place))
            lines = self.lines()
            self.assertTrue(all(line.startswith(b"setfacl -n -x ") for line in lines))
            self.assertEqual(self.changed(snapshot, lines), self.wanted(data, some, snapshot))
            self.sheet.reload()  # The ticks are in the address.
            self.assertEqual(self.lines(), lines)
            self.sheet.click("#clear")
            self.assertEqual(self.lines(), [])
        self.assertEqual(self.sheet.faults(), [])

    def test_all_of_somebody(self) -> None:
        snapshot = self.take_snapshot()
        self.open(snapshot)
        self.sheet.click('[aria-label="tick 5 entries of user xaver"]')
        gone = self.changed(snapshot, self.lines())
        self.assertEqual({entry.split(":")[-2] for _, entry in gone}, {"xaver"})
        self.assertEqual(len(gone), 14)
        self.assertEqual(self.sheet.texts("#count"), ["5 entries of 4 lists, in 13 files: 2 lines"])
        self.sheet.click('[aria-label="tick 5 entries of user xaver"]')
        self.assertEqual(self.lines(), [])

    def test_names_of_nobody_with_rights(self) -> None:
        snapshot = self.take_snapshot()
        passwd = self.read(snapshot + "/passwd")
        self.write(snapshot + "/passwd", b"".join(line + b"\n" for line in passwd.splitlines() if not line.startswith(b"xaver:")))
        self.open(snapshot)  # The entries of xaver are those of an id now.
        self.assertEqual(self.sheet.texts("#people h3"), ["Groups and other users that entries name"])
        button = "[...document.querySelectorAll('.all')].find(it => it.ariaLabel.startsWith('tick 5 entries of user ')).click()"
        self.sheet.evaluate(button)
        self.assertEqual(len(self.changed(snapshot, self.lines())), 14)

    def test_keyboard(self) -> None:
        self.open(self.take_snapshot())
        for _ in range(40):
            self.sheet.press("Tab")
            if self.sheet.evaluate("document.activeElement.type") == "checkbox":
                break
        self.sheet.press("Space")
        self.assertEqual(self.lines(), [b"setfacl -n -x u:xaver /srv/finance"])
        self.sheet.press("Space")
        self.assertEqual((self.lines(), self.sheet.texts("#count")), ([], ["Nothing is ticked."]))
        unnamed = [node for node in self.sheet.nodes() if node.role in ("button", "checkbox", "DisclosureTriangle") and not node.name.strip()]
        self.assertEqual(unnamed, [])

    def test_screens_and_paper(self) -> None:
        self.open(self.take_snapshot(), fragment="t=0.1")
        for width in (390, 1280, 1920):
            for scheme in ("light", "dark"):
                self.sheet.size(width, 900).media(scheme)
                if "PICTURES" in os.environ:
                    self.sheet.picture(os.path.join(os.environ["PICTURES"], "review-%d-%s.png" % (width, scheme)))
                wide, low = self.sheet.evaluate("[document.documentElement.scrollWidth - innerWidth, %s]" % LOW_CONTRAST)
                self.assertEqual((wide, low), (0, []))
        text = "".join(pages_of(self.sheet.pdf())).replace(" ", "")
        for part in ("/srv/finance", "srva", "2026-11-27", "xaver", "setfacl-n-xu:xaver/srv/finance"):
            self.assertIn(part, text)

    def test_hostile_names(self) -> None:
        snapshot = self.take_hostile()
        data = self.open(snapshot, "srv")
        self.assertEqual(len(data["lists"]), len(HOSTILE) + 1)
        self.sheet.evaluate("for (const it of document.querySelectorAll('input[type=checkbox]')) it.click()")
        gone = self.changed(snapshot, self.lines())
        self.assertEqual(len(gone), 2 * len(HOSTILE))
        self.assertEqual({read_name(name.encode()[len("# file: srv/"):]).decode() for name, _ in gone}, {file_named(it) for it in HOSTILE})
        ran = "[window.ran ?? null, document.title, document.querySelectorAll('img, b, iframe, svg, a').length, document.scripts.length]"
        self.assertEqual(self.sheet.evaluate(ran), [None, "Who may do what", 0, 2])
        self.assertEqual(self.sheet.faults(), [])

    def test_long_lines(self) -> None:
        files = {"/": FILES["/"], "/srv/": FILES["/srv/"], "/srv/finance/": FILES["/srv/finance/"]}
        files.update({"/srv/finance/%s%d" % ("n" * 200, k): FILES["/srv/finance/budget.ods"] for k in range(300)})
        snapshot = self.take_snapshot(files=files)
        self.open(snapshot)
        self.sheet.click('[aria-label="tick 3 entries of user xaver"]')
        lines = self.lines()
        self.assertLess(max(map(len, lines)), 65_536)
        self.assertEqual(len(lines), 3)
        self.assertEqual(len(self.changed(snapshot, lines)), 302)
