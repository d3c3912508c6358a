"""Everybody else in answers of facl-ask: at the prompt, with --headings, and in what --each and --hosts join."""
from __future__ import annotations

import os
import unittest
from typing import List

from common import HERE, Case
from test_ask import completer

from facl_commands.ask.prompt import ALONE, Prompt
from facl_commands.base.messages import Failure
from facl_commands.base.programs import LINUX
from facl_commands.model.everybody import (
    ElseAnswers, Everybody, answers_over, beside_of, people_in, read_everybody, session_with,
)
from facl_commands.model.people import Superusers
from facl_commands.program.scripts import read_script

SHARE = os.fsencode(os.path.join(HERE, "snapshots", "share"))
NEMO = Everybody(b"facl-everybody-else-0123abcd", 3_000_000_000)
BESIDE = b"everybody else: users whom the snapshot does not have; it has 13 of a directory service"


class Answers(unittest.TestCase):
    """In lines that the program prints, each with the user after those of the snapshot."""

    def expect(self, tool: bytes, lines: List[bytes], wanted: List[bytes]) -> None:
        answers = ElseAnswers(NEMO)
        self.assertEqual(list(answers.first(tool, iter([line.replace(b"NEMO", NEMO.name) for line in lines]))), wanted)
        self.assertEqual(answers.was_shown, lines != wanted)
        text = b"".join(line + b"\n" for line in lines).replace(b"NEMO", NEMO.name)
        self.assertEqual(answers.text(tool, text), b"".join(line + b"\n" for line in wanted))

    def test_lines_of_users(self) -> None:
        self.expect(b"who", [b"ines", b"ben", b"NEMO", b"nell"], [b"everybody else", b"ines", b"ben", b"nell"])
        self.expect(b"who", [b"ines"], [b"ines"])
        self.expect(b"who", [], [])
        self.expect(b"below", [b"2 ines a b", b"1 NEMO a b"], [b"1 everybody else a b", b"2 ines a b"])
        self.expect(b"gains", [b"01 03 1 ines b", b"00 11 2 NEMO a", b"01 03 1 NEMO b"],
                    [b"00 11 2 everybody else a", b"01 03 1 everybody else b", b"01 03 1 ines b"])

    def test_lines_of_files(self) -> None:
        self.expect(b"index", [b"01 ines a", b"11 NEMO a", b"01 ines a b", b"11 NEMO a b", b"01 nell a b"],
                    [b"11 everybody else a", b"01 ines a", b"11 everybody else a b", b"01 ines a b", b"01 nell a b"])
        self.expect(b"changes", [b"ines gains r-- a", b"NEMO gains r-- a", b"NEMO loses -w- a", b"nell gains r-- b"],
                    [b"everybody else gains r-- a", b"everybody else loses -w- a", b"ines gains r-- a", b"nell gains r-- b"])

    def test_other_answers(self) -> None:
        self.assertEqual(list(Superusers({b"root": 0}).rest(read_script(b"s", b"below --user root --list 1 r .")[0], [b"a root"])), [b"a root"])
        for tool in (b"may", b"getfacl", b"why", b"can", b""):
            self.expect(tool, [b"a", b"b"], [b"a", b"b"])


class Questions(unittest.TestCase):
    def asked(self, line: bytes, passwd: bytes = b"ines:x:1:1::/:\n") -> bytes:
        unit, = read_script(b"s", line)
        return ElseAnswers(NEMO, passwd).asked(unit).text()

    def test_questions_about_one_user(self) -> None:
        for line, wanted in ((b"can 'everybody else' srv", b"'can' 'NEMO' 'srv'\n"), (b"may --reach 'everybody else' r", b"'may' '--reach' 'NEMO' 'r'\n"),
                             (b"why -- everybody' 'else 'a\\012b' 'p\351q'", b"'why' '--' 'NEMO' 'a\\012b' 'p\\351q'\n"),
                             (b"can 'everybody else' 'everybody else'", b"'can' 'NEMO' 'everybody else'\n"),
                             (b"below --list 2 --user 'everybody else' r 'everybody else'", b"'below' '--list' '2' '--user' 'NEMO' 'r' 'everybody else'\n"),
                             (b"below r srv --user='everybody else' --list=2", b"'below' 'r' 'srv' '--user=NEMO' '--list=2'\n")):
            self.assertEqual(self.asked(line), wanted.replace(b"NEMO", NEMO.name))

    def test_lines_that_stay(self) -> None:
        for line in (b"can ines 'everybody else'\n", b"who r 'everybody else'\n", b"gpasswd -a 'everybody else' staff\n", b"can\n", b"below -- r --user 'everybody else'\n",
                     b"below --user ines --list 1 r 'everybody else'\n", b"creat --user 'everybody else' --mode=0644 srv/a\n", b"getfacl 'everybody else'\n"):
            self.assertEqual(self.asked(line), line)
        line = b"can 'everybody else' srv\n"
        for passwd in (b"everybody else:x:2:1::/:\n", b"ines:x:1:1::/:\neverybody else:x:2:1::/:"):
            self.assertEqual(self.asked(line, passwd), line)
        self.assertNotEqual(self.asked(line, b"not everybody else:x:2:1::/:\n"), line)


class AtThePrompt(unittest.TestCase):
    def ask(self, *lines: bytes) -> bytes:
        printed: List[bytes] = []
        texts = people_in(SHARE)
        answers = answers_over(SHARE, texts.passwd, [])
        with session_with(LINUX.find(), SHARE, *answers.everybody.with_both(texts)) as session:
            prompt = Prompt(lambda: session, completer(), printed.append, superusers=Superusers({b"root": 0}), answers=answers,
                            beside=beside_of(13), is_along=False)
            prompt.noted.add(ALONE)
            for line in lines:
                prompt.number += 1
                prompt.answer_line(line, input)
        out = b"".join(printed)
        self.assertNotIn(b"facl-everybody", out)
        return out

    def test_answers(self) -> None:
        """srv is open to all, and share to ines, the owner, and ben, of its group."""
        note = b"(left out of who, below, changes, gains and index: root, to whom the kernel grants nearly everything; --with-root for all)\n"
        self.assertEqual(self.ask(b"who r srv/share", b"who r srv", b"below --reach r srv", b"can 'everybody else' srv", b"may 'everybody else' r",
                                  b"why --reach 'everybody else' srv/share/one", b"chmod 700 srv", b"changes"),
                         b"ines\nben\neverybody else\nines\nben\nmara\nguest\n(" + BESIDE + b")\n" + note
                         + b"1 everybody else srv\n11 ines srv\n11 ben srv\n1 mara srv\n1 guest srv\n--x r-- r-x\n.\nsrv\n"
                         b"# file: .\nother::r-x\n\n# file: srv\nother::r-x\n\n# file: srv/share    <-- no search permission here: nothing below is reached\n"
                         b"other::---\n\n# file: srv/share/one\nother::---\n\n"
                         + b"".join(user + b" loses --x,r--,r-x srv\n" for user in (b"everybody else", b"ines", b"ben", b"mara", b"guest")))

    def test_a_new_user_is_after_everybody_else(self) -> None:
        self.assertEqual(self.ask(b"useradd -u 2000 -g guests nell", b"who r srv/share/one", b"setfacl -n -m o::r srv/share/one", b"who r srv/share/one"),
                         b"ines\nben\neverybody else\nines\nben\nmara\nguest\nnell\n(" + BESIDE + b")\n(left out of who, below, changes, gains and "
                         b"index: root, to whom the kernel grants nearly everything; --with-root for all)\n")


class WithHeadings(Case):
    SCRIPT = b"who r srv\ncan 'everybody else' srv/share\n"
    ANSWERS = (b"# standard input, line 1: who r srv\neverybody else\nroot\nines\nben\nmara\nguest\n\n"
               b"# standard input, line 2: can 'everybody else' srv/share\nnone\n\n")

    def test_answers(self) -> None:
        self.expect(self.run_command("facl-ask", ["--headings", "before"], self.SCRIPT), 0, self.ANSWERS)
        self.write("before/meta", b"host srva\ndate 2026-11-26T03:10:00Z\nfolder /srv\nusers-asked-for 13\n")
        self.expect(self.run_command("facl-ask", ["--headings", "before"], self.SCRIPT), 0, self.ANSWERS, b"facl-ask: " + BESIDE + b"\n")
        self.expect(self.run_command("facl-ask", ["--headings", "before"], b"who w srv/share/one\n"), 0,
                    b"# standard input, line 1: who w srv/share/one\nines\n\n")

    def test_the_program_has_users_alone(self) -> None:
        users = b"root\nines\nben\nmara\nguest\n"
        self.expect(self.run_command("facl-ask", ["before"], b"who r srv\n"), 0, users)
        self.write("script", b"who r srv\n")
        self.expect(self.run_command("facl-ask", ["before", "script", "script"]), 0, users * 2)
        done = self.run_command("facl-ask", ["before"], self.SCRIPT)
        self.assertEqual((done.status, done.out), (1, users))
        self.assertTrue(done.messages.endswith(b": no such user\n"), done.messages)


class OfParts(Case):
    """What --each and --hosts have each snapshot answer."""

    def part(self, word: str) -> List[bytes]:
        done = self.run_command("facl-ask", ["--part", "--everybody=" + word, "before"], b"who r srv\ncan 'everybody else' srv\n")
        self.assertEqual((done.status, done.messages), (0, b""))
        return done.out.splitlines()

    def test_the_given_name(self) -> None:
        lines = self.part(NEMO.word().decode())
        self.assertEqual(lines[2:], [b"root", b"ines", b"ben", b"mara", b"guest", NEMO.name, b"", lines[9], b"--x r-- r-x", b"", b"end"])
        self.assertNotIn(NEMO.name, lines[0])

    def test_a_name_that_is_there(self) -> None:
        self.assertEqual(read_everybody(NEMO.word(), SHARE), NEMO)
        self.write("before/group", self.read("before/group") + b"more:x:3000000000:\n")
        done = self.run_command("facl-ask", ["--part", "--everybody", NEMO.word().decode(), "before"], b"who r srv\n")
        self.expect(done, 2, b"", b"facl-ask: before: has the name or the id that was made for everybody else: ask again\n")

    def test_words_that_are_none(self) -> None:
        for word in (b"", b"x:1", NEMO.name, NEMO.word() + b"\n", NEMO.word() + b":0::/:\nx:x:0", b"facl-everybody-else-0123abcd:0"):
            with self.assertRaises(Failure):
                read_everybody(word, SHARE)


if __name__ == "__main__":
    unittest.main()
