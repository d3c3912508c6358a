"""The examples of README, CONTRIBUTING and the manual pages are run, and print what stands below them.

Each document has a stored snapshot, which is there as `before`; what needs a real tree is not run then. Where one can
be made of the snapshot, they are also run there. With $WRITE_ANSWERS the documents get what is printed.
"""
from __future__ import annotations

import os
import re
import shutil
import sys
import tempfile
import unittest
from typing import Dict, List

from common import COMMANDS, HERE, Case
from example_runs import SERVERS, Runner, Shell, why_no_tree
from examples import REPOSITORY, blocks_of, difference, examples_of, read_lines, write_answers
from verb_case import ago

from facl_commands.base.programs import ACL5, LINUX
from facl_commands.verbs.table import BY_VERB, VERBS

SNAPSHOTS = os.path.join(HERE, "snapshots")
# With the snapshot that each is about.
DOCUMENTS = {
    "README.md": "project", "CONTRIBUTING.md": "project", "docs/facl.1": "recipes", "docs/facl-commands.1": "project",
}
PAGES = sorted("docs/pages/" + name for name in os.listdir(os.path.join(REPOSITORY, "docs", "pages")))
DOCUMENTS.update(dict.fromkeys(PAGES, "project"))
# Blocks that are not run here, by their first line: why, and what runs them.
BLOCKS: Dict[str, str] = {
    "[d:] [u:]USER [:PERMS]      a named user, or the owner: u::PERMS": "a grammar; crates/acl_text_tests",
    "bytes of a FILE                      268,435,456": "a table; tools/check.py sizes",
    "chown [-R] USER[:GROUP]|:GROUP FILE..": "synopses; test_owners.py",
    "nobody may write anything at or below /srv/project/sealed.txt": "takes a file system with chattr; test_marks.py",
    "PATH=/usr/local/bin:/usr/bin:/bin": "a file of cron; test_lines_of_cron_and_systemd runs its command",
    'FACL_DAILY="--mail root --rules /etc/facl/rules /srv"': "a file of systemd; test_daily.py",
    "[Service]": "files of systemd; test_lines_of_cron_and_systemd runs their commands",
    "tools/package.sh": "makes and installs a package; by hand",
    "git clone URL facl && cd facl": "changes and compiles the program; by hand",
    "tools/try.sh": "compiles the program; by hand",
    "tools/demo.sh": "proves the program; by hand",
    "facl daily --install --mail root --rules /etc/facl/rules /srv": "test_verbs.py",
    "facl import backup.facl": "test_store.py",
    "facl rules /srv >rules": "has an editor in it",
    "facl snapshot /srv": "the other examples run it",
    "FINDING PATH REASON": "a form; test_audit.py",
    "never   xaver               read   below /srv/finance   # a contractor": "a form; test_check.py",
    ".ci/run": "has these tests in it",
    "tools/quick.sh": "has tests in it that need no program",
}
# The lines of README's table of verbs that do not end with 0: something is found, or there is nothing to do.
OTHERWISE = {
    "facl audit": "1", "facl audit fix mask-cuts-entry": "1", "facl audit --list writable-by-everybody": "1", "facl diff": "1",
    "facl prune --keep-daily 30": "3", "facl why guest /srv/project/notes.txt": "1", "facl user guest /": "0",
}


SAMPLE = """\
```sh
cd elsewhere
```

```console
$ cat >kept <<'END'
> # owner: ines
> two
> END
$ cat kept
# owner: ines
two
$ seq 9; echo ends >&2
1
...
9
ends
```

```console
# cat kept
# owner: ines
one
# word=$(cat kept | wc -l)
# echo $word
2
```
"""


class Reader(Case):
    """Examples are read, run one after another in one shell, and compared."""

    def test_sample(self) -> None:
        self.write("sample.md", SAMPLE.encode())
        blocks = blocks_of(self.path("sample.md"))
        self.assertEqual([(block.first, block.is_examples) for block in blocks], [(2, False), (6, True), (21, True)])
        found = [example for block in blocks[1:] for example in examples_of(block)]
        self.assertEqual([example.number for example in found], [6, 10, 13, 21, 24, 25])
        shell = Shell(self.folder, {"PATH": os.environ["PATH"]})
        self.addCleanup(shell.close)
        faults = [fault for example in found for fault in difference(example, shell.run(example.command))]
        wanted = ":21: $ cat kept\n@@ -1,2 +1,2 @@\n # owner: ines\n-one\n+two\n"
        self.assertEqual(faults, [self.path("sample.md") + wanted])

    def test_a_shell_that_ends(self) -> None:
        shell = Shell(self.folder, {"PATH": os.environ["PATH"]})
        self.addCleanup(shell.close)
        self.assertEqual(shell.run("echo one; kill $$\n"), ["one", "(the shell has ended)"])


class Documents(Case):
    """A folder with what a clone has, and two servers."""

    def setUp(self) -> None:
        super().setUp()
        self.fill()

    def new_folder(self) -> str:
        """Another folder of the same kind."""
        self.folder = tempfile.mkdtemp(prefix="facl-commands-test.")
        self.addCleanup(shutil.rmtree, self.folder)
        os.mkdir(self.path("before"))
        self.fill()
        return self.folder

    def fill(self) -> None:
        shutil.rmtree(self.path("before"))
        for name, text in SERVERS.items():
            os.mkdir(os.path.dirname(self.path(name)))
            self.write(name, text.encode())
            os.chmod(self.path(name), 0o755)
        for program in (LINUX, ACL5):
            os.symlink(program.find(), self.path("bin/" + program.name))
        os.symlink(COMMANDS, self.path("commands"))
        shutil.copytree(os.path.join(REPOSITORY, "demo"), self.path("demo"))

    def runner(self, name: str, is_real: bool) -> Runner:
        snapshot = os.path.join(SNAPSHOTS, DOCUMENTS[name])
        for folder in ["srva/today", "srvb/today"] + ([] if is_real else ["before"]):
            shutil.copytree(snapshot, self.path(folder))
        self.write("srvb/today/dump", self.read("srvb/today/dump").replace(b"user:1003:rw-\t", b"user:1003:---\t"))
        os.mkdir(self.path("store"), 0o700)
        for stored, hours, entry in () if is_real else ((b"2026-11-26T031000", 29, b"mask::rw-"), (b"2026-11-27T031000", 5, b"mask::r--")):
            self.store(snapshot, os.fsdecode(stored), hours, entry)
        runner = Runner(self.folder, snapshot, is_real)
        self.addCleanup(runner.shell.close)
        return runner

    def store(self, snapshot: str, name: str, hours: int, entry: bytes) -> None:
        """Puts a snapshot of this host into the store, with another entry in the list of a file."""
        shutil.copytree(snapshot, self.path("store/" + name))
        about = self.read("store/%s/meta" % name)
        about = re.sub(b"(?m)^host .*", b"host " + os.fsencode(os.uname().nodename), about)
        self.write("store/%s/meta" % name, re.sub(b"(?m)^date .*", b"date " + ago(hours * 3600 + 600).encode(), about))
        dump = self.read("store/%s/dump" % name)
        self.write("store/%s/dump" % name, dump.replace(b"mask::r--", entry))

    def run_document(self, name: str, is_real: bool = False) -> int:
        """The number of examples that were run."""
        runner = self.runner(name, is_real)
        for block in blocks_of(name):
            is_of_root = block.lines[:1] != [] and block.lines[0].startswith("# ")
            for example in examples_of(block) if block.is_examples and (name not in PAGES or is_of_root is is_real) else []:
                runner.run(example)
        print("%s: %d examples run, %d not\n%s" % (name, runner.run_count, len(runner.not_run), "".join(
            "  %s\n" % line for line in runner.not_run)), end="", file=sys.stderr)
        if "WRITE_ANSWERS" in os.environ:
            write_answers(name, runner.others)
        if runner.faults:
            self.fail("\n" + "".join(runner.faults))
        return runner.run_count

    def test_readme(self) -> None:
        self.run_document("README.md")

    def test_contributing(self) -> None:
        self.run_document("CONTRIBUTING.md")

    def test_page(self) -> None:
        self.assertGreater(self.run_document("docs/facl.1"), 30)

    def test_page_of_commands(self) -> None:
        self.assertGreater(self.run_document("docs/facl-commands.1"), 5)

    def test_pages_of_verbs(self) -> None:
        """Each has an example, which comes before all else."""
        for name in PAGES:
            with self.subTest(name):
                self.folder = self.new_folder()
                self.run_document(name)
                if not name.endswith(".7.md"):
                    blocks = blocks_of(name)
                    self.assertTrue(blocks and blocks[0].is_examples and blocks[0].lines[-1:], name)

    @unittest.skipIf(why_no_tree(), why_no_tree())
    def test_pages_of_verbs_on_a_real_tree(self) -> None:
        for name in PAGES:
            if any(block.is_examples and block.lines[0].startswith("# ") for block in blocks_of(name)):
                with self.subTest(name):
                    self.folder = self.new_folder()
                    self.assertGreater(self.run_document(name, is_real=True), 0)

    @unittest.skipIf(why_no_tree(), why_no_tree())
    def test_readme_on_a_real_tree(self) -> None:
        """All of its session are run: from the record to the change that is taken back."""
        blocks = [block for block in blocks_of("README.md") if block.is_examples]
        verbs = [example.command.split(" ")[1] for block in blocks for example in examples_of(block)]
        self.assertEqual(verbs, ["snapshot", "who", "why", "plan", "plan", "apply", "undo"])
        self.assertEqual(self.run_document("README.md", is_real=True), len(verbs))

    @unittest.skipIf(why_no_tree(), why_no_tree())
    def test_page_on_a_real_tree(self) -> None:
        self.assertGreater(self.run_document("docs/facl.1", is_real=True), 30)

    @unittest.skipIf(why_no_tree(), why_no_tree())
    def test_page_of_commands_on_a_real_tree(self) -> None:
        self.assertGreater(self.run_document("docs/facl-commands.1", is_real=True), 15)

    @unittest.skipIf(why_no_tree(), why_no_tree())
    def test_lines_of_cron_and_systemd(self) -> None:
        blocks = {block.lines[0]: "\n".join(block.lines) for block in blocks_of("docs/facl-commands.1")}
        cron = blocks["PATH=/usr/local/bin:/usr/bin:/bin"].partition(" root ")[2].replace("\\%", "%")
        service, after = re.findall(r"^ExecStart(?:Post)?=(.*)", blocks["[Service]"], re.MULTILINE)
        runner = self.runner("docs/facl-commands.1", is_real=True)
        for command in (cron, service.replace("$$", "$").replace("%%", "%")):
            lines = ["mkdir -m 700 kept; mkdir kept/old; touch -d '91 days ago' kept/old", command, "ls kept", after,
                     "ls kept; rm -r kept", ""]
            printed = runner.shell.run("\n".join(lines).replace("/var/lib/facl", "kept"))
            self.assertRegex(" ".join(printed), r"^(\d{4}-\d\d-\d\d) old \1$")

    def run_table(self, name: str, start: str) -> List[str]:
        """Runs the lines of facl in the rows of a table that begin so, but for those with a word to be replaced; returns them all."""
        rows = [line for line in read_lines(name) if line.startswith(start)]
        lines = [word for row in rows for word in re.findall("`(facl [^`]+)`", row)]
        runner = self.runner("README.md", is_real=False)
        for line in lines:
            if not re.search(r"[A-Z]{3}", line) and not runner.why_not(line):
                printed = runner.shell.run(line + "; echo $?\n")
                self.assertEqual((line, printed[-1:]), (line, [OTHERWISE.get(line, "0")]), printed)
        return lines

    def test_verbs_in_the_table_of_readme(self) -> None:
        """Each line is accepted, and each verb is there."""
        lines = self.run_table("README.md", "| `facl ")
        self.assertEqual({verb.name for verb in VERBS if verb.name != "help"},
                         {name for name in BY_VERB for line in lines if (line + " ").startswith("facl %s " % name)})

    def test_recipes_by_verbs(self) -> None:
        self.assertGreater(len(self.run_table("docs/pages/facl-recipes.7.md", "| ")), 20)

    def test_readme_is_short(self) -> None:
        words = [word for word in " ".join(read_lines("README.md")).split() if re.search(r"\w", word)]
        self.assertLessEqual(len(words), 1200)

    def test_each_block_is_run_or_named(self) -> None:
        blocks = [block for name in DOCUMENTS for block in blocks_of(name) if not block.is_examples]
        unknown = [block for block in blocks if block.lines[0] not in BLOCKS]
        self.assertEqual([], ["%s:%d: %s" % (block.name, block.first, block.lines[0]) for block in unknown])
        self.assertEqual(set(), set(BLOCKS) - {block.lines[0] for block in blocks}, "rows of no block")


if __name__ == "__main__":
    unittest.main()
