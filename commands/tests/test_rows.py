"""What each of the two programs prints of each script of rows/, on both streams and with its status."""
from __future__ import annotations

import os
import random
import subprocess
import tempfile
import unittest
from typing import Callable, Dict, List

import row_files
from row_files import Malformed, Row, all_rows, by_linux, bytes_of, printed, read_rows, shown, text_path

HEAD = "= a\nsetup nothing\nscript\n"


class Rows(unittest.TestCase):
    """Has two tests for each row, by facl and by facl_linux, which have the row's file and name in their own: `-k 'test edits'`,
    `-k 'a user is removed'`."""

    setups: Dict[str, List[str]] = row_files.setups()

    def play(self, program: str, row: Row) -> None:
        options = row_files.options(self.setups[row.setup])
        words = [os.environ[program], *(word for option, text in options for word in (option, text_path(text)))]
        done = subprocess.run(words, input=row.script, capture_output=True, timeout=100, check=False)
        got, wanted = (done.returncode, done.stdout, done.stderr), (row.status, row.out, row.err)
        if got != wanted:
            self.fail(f"rows/{row.file}.rows: {row.name}\n-- got\n{printed(*got)}-- wanted\n{printed(*wanted)}")


def player_of(program: str, row: Row) -> Callable[[Rows], None]:
    return lambda case: case.play(program, row)


for each in all_rows():
    setattr(Rows, f"test {each.file}: {each.name}", player_of("FACL", each))
    setattr(Rows, f"test {each.file}, by facl_linux: {each.name}", player_of("FACL_LINUX", by_linux(each)))


class Files(unittest.TestCase):
    """How the files of rows are read."""

    def rows(self, text: str) -> List[Row]:
        with tempfile.TemporaryDirectory(prefix="facl-rows-test.") as folder:
            path = os.path.join(folder, "some.rows")
            with open(path, "w", encoding="latin-1", newline="\n") as file:
                file.write(text)
            return read_rows(path)

    def test_a_row(self) -> None:
        text = "# Of\n\n" + HEAD + "|load\n|# x{09}{7b}\n|\n|.{20}\nout\n|= b\nlinux\n|c\nerr\n|{ff}{}\n\nstatus 1\n# on b\n" \
            + HEAD.replace("a", "b c", 1) + "status 0\n"
        self.assertEqual(self.rows(text), [Row("some", "a", "nothing", b"load\n# x\t{\n\n. \n", b"= b\n", b"\xff", 1, b"c\n"),
                                           Row("some", "b c", "nothing", b"", b"", b"", 0)])

    def test_any_bytes(self) -> None:
        dice = random.Random(1)
        texts = [bytes(dice.choices(b"\0\t\n\n\r {}|.#ab\x7f\x85\xff", k=dice.randrange(12))) for _ in range(1000)]
        self.assertEqual([bytes_of(shown(text)) for text in texts], texts)
        rows = (HEAD.replace("a", str(number), 1) + f"{shown(text)}status 0\n" for number, text in enumerate(texts))
        self.assertEqual([row.script for row in self.rows("".join(rows))], texts)

    def test_other_forms(self) -> None:
        for text in ("status 0\n", HEAD, HEAD + "|x\n", HEAD + "x\nstatus 0\n", HEAD + "|{\nstatus 0\n", HEAD + "|{}a\nstatus 0\n",
                     HEAD + "|a{9}\nstatus 0\n", HEAD + "|a \nstatus 0\n", HEAD + "|a\tb\nstatus 0\n", HEAD + "|\xe9\nstatus 0\n",
                     HEAD + "|a\r\nstatus 0\n", HEAD + "out\nstatus 0\n", HEAD + "err\n|a\nout\n|a\nstatus 0\n",
                     HEAD + "status 0\n" + HEAD + "status 0\n"):
            with self.assertRaises(Malformed, msg=text):
                self.rows(text)

    def test_each_setup_and_text_is_used(self) -> None:
        texts = {text for used in Rows.setups.values() for text in used}
        self.assertEqual(texts, set(os.listdir(text_path(""))))
        self.assertEqual(set(Rows.setups), {row.setup for row in all_rows()})


if __name__ == "__main__":
    unittest.main()
