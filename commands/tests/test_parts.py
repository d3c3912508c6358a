"""The parts that the commands share: names, scripts, records and people."""
from __future__ import annotations

import os
import random
import subprocess
import tempfile
import unittest
from typing import Dict, List
from unittest import mock

from common import HERE, Case

from facl_commands.base import folders, names, user_tools
from facl_commands.base.messages import Failure
from facl_commands.base.programs import LINUX
from facl_commands.model import (
    entries, everybody, file_columns, overview, people, records, snapshot, sources, split_tree,
)
from facl_commands.plan import hard_links
from facl_commands.program import scripts, tools
from facl_commands.program.session import OutputSlice, Session


class Names(unittest.TestCase):
    def test_escapes_are_read(self) -> None:
        for text, name in ((rb"a\012b", b"a\nb"), (rb"\\x", rb"\x"), (rb"\134012", rb"\012"), (rb"\400", rb"\400"),
                           (rb"\\012", rb"\012"), (rb"\1", rb"\1"), (rb"\377", b"\xff"), (rb"\x\\", b"\\x\\")):
            self.assertEqual(names.read_name(text), name)

    def test_what_is_written_is_read_again(self) -> None:
        chance = random.Random(1)
        for _ in range(2000):
            name = bytes(chance.choice(b"\\\\01239\n\r ab\xe9'") for _ in range(chance.randrange(8)))
            self.assertEqual(names.read_name(names.write_name(name)), name)
            self.assertEqual(scripts.words_of(names.script_word(name)), [names.script_word(name)[1:-1]])

    def test_paths(self) -> None:
        for text, path in ((b"/", b""), (b".", b""), (b"/srv//./a/", b"srv/a"), (b"./-x", b"-x"), (rb"/srv/\012", b"srv/\n")):
            self.assertEqual(names.read_path(text), path)
        order = [b"", b"a", b"a/b", b"a/b/c", b"a b", b"a!", b"b"]
        self.assertEqual(sorted(order, key=names.path_order), [b"", b"a", b"a/b", b"a/b/c", b"a b", b"a!", b"b"])

    def test_below(self) -> None:
        paths = [b"", b"a", b"a b", b"a/b", b"a/b/c", b"ab", b"b"]
        wanted: Dict[bytes, List[bytes]] = {b"": paths[1:], b"a": [b"a/b", b"a/b/c"], b"a/b": [b"a/b/c"], b"b": []}
        for top, below in wanted.items():
            self.assertEqual([path for path in paths if names.is_below(path, top)], below)
            self.assertEqual(names.at_or_below(paths, [top]), [path for path in paths if path == top or path in below])
        self.assertEqual(names.at_or_below(paths, [b"b", b"a/b"]), [b"a/b", b"a/b/c", b"b"])
        several: List[List[bytes]] = [[b"b", b"a"], [b"ab"], [b""], []]
        self.assertEqual([names.is_at_or_below(b"a/b", tops) for tops in several], [True, False, True, False])
        self.assertEqual(names.highest([b"b/c", b"ab", b"a/b", b"a", b"a b", b"b/c"]), [b"a", b"a b", b"ab", b"b/c"])
        self.assertEqual(names.highest(paths), [b""])

    def test_words_of_paths(self) -> None:
        for path, word, plain, whole in ((b"", b"'.'", b".", b"/"), (b"a/b", b"'a/b'", b"a/b", b"/a/b"), (b"-x", b"'-x'", b"./-x", b"/-x"),
                                         (b"it's", b"'it\\047s'", b"'it\\047s'", b"'/it\\047s'"),
                                         (b"\\ \n", b"'\\134 \\012'", b"'\\134 \\012'", b"'/\\134 \\012'")):
            self.assertEqual((names.path_word(path), names.file_word(path), names.file_word(path, True)), (word, plain, whole))

    def test_shell_words(self) -> None:
        chance = random.Random(2)
        for _ in range(100):
            word = bytes(chance.choice(b"'\"\\ \n$`*-ab\xe9") for _ in range(chance.randrange(1, 8)))
            done = subprocess.run([b"sh", b"-c", b"printf %s " + names.shell_word(b"x" + word)], capture_output=True, check=True)
            self.assertEqual(done.stdout, b"x" + word)

    def test_json(self) -> None:
        self.assertEqual(names.json_text("é\\134".encode() + b"\xe9"), "é\\134\\351")


class SnapshotTexts(unittest.TestCase):
    """The texts of snapshots, looked through in parts."""

    def test_a_dump_in_pieces(self) -> None:
        for seed in range(100):
            chance = random.Random(seed)
            lines = [b"# file: /a\n", b"x\n", b"\n", b"# file: b/\n", b"  #file:c\n", b"a long line of file: x"]
            text = b"".join(chance.choice(lines) for _ in range(chance.randrange(12)))
            with folders.kept(), mock.patch.object(sources, "SMALL_PIECE", chance.choice([1, 3, 7, 50])):
                folder = folders.Folder(b"/texts/")
                folder.put(b"dump", text)
                folders.keep(folder)
                pieces = list(sources.dump_pieces(b"/texts/"))
            self.assertEqual(b"".join(pieces), text)
            self.assertTrue(all(it.endswith(b"\n") for it in pieces[:-1]))
            self.assertEqual(sum(map(overview.files_in, pieces)), len(list(sources.names_of(text))))

    def test_inodes_are_counted_as_they_are_read(self) -> None:
        """Also those that facl-snapshot does not write: names that come twice, in any order, and records with other fields."""
        births, wanted = [b"0", b"12.5", b"1.000000001", b"-"], {b"a", b"b c"}
        for seed in range(1000):
            chance = random.Random(seed)
            files = [chance.choice([b"", b"a", b"b/", b"b", b"b c", b"a\1", b"a/b", b"a-b"]) for _ in range(chance.randrange(5))]
            in_order = sorted(set(files) if chance.random() < 0.8 else files, key=names.sorting_key)
            rows = [b"%d %d %s /%s\0" % (chance.randrange(1, 3), chance.randrange(9), chance.choice(births), name)
                    for name in (in_order if chance.random() < 0.8 else in_order[::-1])]
            rows += [chance.choice([b"1 2 3.x /a\0", b"1 2\0", b"x 2 3.4 /y\0", b"1 2 -.x /q\0", b"1 2 3.4 /z"])] * (chance.random() < 0.2)
            text = b"boot 1\0" + b"".join(rows)
            try:
                known = snapshot.counts_of(snapshot.read_inodes(text))
            except ValueError:
                self.assertRaises(ValueError, snapshot.look_at_inodes, text, wanted)
                continue
            found = snapshot.look_at_inodes(text, wanted)
            self.assertEqual(found[:2], known[:2], text)
            its = [{name: tuple(it.found[name][:2]) for name in wanted if name in it.found} for it in (found, known)]
            self.assertEqual(its[0], its[1], text)


class Scripts(Case):
    def units(self, text: bytes) -> List[object]:
        return [(unit.number, unit.words, len(unit.lines), unit.is_ended) for unit in scripts.read_script(b"s", text)]

    def test_lines(self) -> None:
        self.assertEqual(self.units(b""), [])
        self.assertEqual(self.units(b"\n \t\n # x 'y\nwho  r\ta\n"), [(4, [b"who", b"r", b"a"], 1, True)])
        self.assertEqual(self.units(b"x'a b'y '' 'c"), [(1, [], 1, True)])
        self.assertEqual(self.units(b"x'a b'y ''"), [(1, [b"xa by", b""], 1, True)])

    def test_texts(self) -> None:
        self.assertEqual(self.units(b"load dump\nx\n.\ny"), [(1, [b"load", b"dump"], 3, True), (4, [b"y"], 1, True)])
        self.assertEqual(self.units(b"frob '-'\n.\n- x\n"), [(1, [b"frob", b"-"], 2, True), (3, [b"-", b"x"], 1, True)])
        self.assertEqual(self.units(b"frob --set-file=-\n..\n. \n"), [(1, [b"frob", b"--set-file=-"], 3, False)])
        self.assertEqual(self.units(b"frob - 'x\ny\n"), [(1, [], 1, True), (2, [b"y"], 1, True)])
        self.assertEqual(self.units(b"#" * 65537 + b"\nx - " + b"y" * 65533 + b"\nz -\n."),
                         [(1, [], 1, True), (2, [], 1, True), (3, [b"z", b"-"], 2, True)])

    def test_the_program_cuts_them_alike(self) -> None:
        # The messages of a script that is read at once, and of its units asked one by one, are the same.
        chance = random.Random(3)
        pieces = [b"frob", b"-", b"'", b" ", b"\t", b"\n", b"\n", b".", b"\n.\n", b"load", b"dump", b"setfacl", b"-M", b"-X-", b"#",
                  b"--restore=-", b"\xff", b"srv/share/one", b"u:guest:r", b"chmod 600", b"\r", b"who", b"x" * 65536, b"can"]
        for _ in range(60):
            script = b"".join(chance.choice(pieces) for _ in range(chance.randrange(60)))
            self.check_messages(script)

    def check_messages(self, script: bytes) -> None:
        folder = os.path.join(HERE, "snapshots", "share")
        words = [LINUX.find(), "--passwd", "passwd", "--group", "group", "--dump", "dump"]
        whole = subprocess.run(words, input=script, cwd=folder, capture_output=True, check=False)
        found, printed = b"", b""
        with Session(words[0], os.fsencode(folder)) as session:
            for unit in scripts.read_script(b"s", script):
                messages = [b"facl: text without end"]
                if unit.is_ended:
                    answer = session.ask(b"".join(line + b"\n" for line in unit.lines))
                    messages, printed = answer.messages, printed + answer.output.read()
                found += b"".join(b"line %d: %s\n" % (unit.number, message) for message in messages)
        self.assertEqual((found, printed), (whole.stderr, whole.stdout), script)


class Records(unittest.TestCase):
    def record(self, name: bytes, *entries: bytes, flags: bytes = b"") -> bytes:
        head = b"# file: " + name + b"\n# owner: 0\n# group: 0\n" + (b"# flags: " + flags + b"\n" if flags else b"")
        return head + b"".join(entry + b"\n" for entry in entries) + b"\n"

    def test_kinds(self) -> None:
        base = (b"user::rwx", b"group::r-x", b"other::---")
        listing = (self.record(b".", *base) + self.record(b"a", *base) + self.record(b"a/b", *base) + self.record(b"c/", *base)
                   + self.record(b"d", *base, *(b"default:" + it for it in base)))
        files = records.read_listing(listing)
        self.assertEqual([path for path, file in files.items() if file.is_directory], [b"", b"a", b"c", b"d"])
        self.assertEqual(records.write_record(b"c", files[b"c"]), self.record(b"/c/", *base))
        self.assertEqual(records.write_record(b"", files[b""]), self.record(b"/", *base))

    def test_a_listing_in_pieces(self) -> None:
        """Where a piece ends, and names that have to be read, make no difference."""
        base = (b"user::rwx", b"group::r-x", b"other::---")
        listing = b"".join(self.record(name, *base) for name in (b".", b".a", b".a/b\\012c/", b"d", b"d/.e", b"d/f:", b"g"))
        found = records.read_listing(listing)
        self.assertEqual(list(found), [b"", b".a", b".a/b\nc", b"d", b"d/.e", b"d/f:", b"g"])
        for size in (1, 7, 60, len(listing)):
            pieces = [listing[start : start + size] for start in range(0, len(listing), size)]
            self.assertEqual(records.list_pieces(pieces).files, found)

    def test_a_listing_in_columns(self) -> None:
        """Files, kinds and folders are those of the listing, also of parts of it, where directories above are not recorded too."""
        for seed in range(60):
            chance = random.Random(seed)
            names_of_files = [b"a", b"b", b"a b", b"a-b", *[b"c\nd", b"\\", b".h"] * (seed % 2)]
            found = {b"/".join(chance.choice(names_of_files) for _ in range(chance.randrange(1, 5))) for _ in range(40)}
            found.update([b""] * chance.randrange(2), [above for path in found for above in names.directories_above(path)[:-1]] * (seed % 3 > 0))
            paths = sorted(found, key=names.path_order)
            bodies = [b"# owner: %d\n# group: 1\nuser::rwx\n" % chance.randrange(3) + b"default:user::rwx\n" * (chance.random() < .1)
                      for _ in paths]
            shown = [names.shown_path(path) + b"/" * (path != b"" and chance.random() < .1) for path in paths]
            text = b"".join(b"# file: %s\n%s\n" % it for it in zip(shown, bodies))
            directories = [chance.choice(paths), b"none"]
            files = records.read_listing(text)
            files.update({path: files[path]._replace(is_directory=True) for path in directories if path in files})
            with tempfile.TemporaryFile() as file:
                file.write(text)
                file.flush()
                tree = file_columns.tree_of([OutputSlice(file, 0, len(text))], directories)
            tops = [chance.choice(paths) for _ in range(chance.randrange(1, 4))]
            part = tree.part(names.places_below(paths, top) for top in names.highest(tops))
            for its, wanted in ((tree, paths), (part, names.at_or_below(paths, tops))):
                self.assertEqual(its.paths, wanted, seed)
                self.assertEqual([its.files[kind] for kind in its.kinds], [files[path] for path in wanted], seed)
                folders = [(path, run.folder) for run in its.runs for path in its.paths[run.start : run.end]]
                self.assertEqual(folders, [(path, names.parent_of(path) if path else None) for path in wanted], seed)
            above = {it for path in paths for it in names.directories_above(path) if it in files}
            self.assertEqual(tree.above, {path: file for path, file in files.items() if file.is_directory or path in above}, seed)

    def test_names_in_a_dump(self) -> None:
        """Each line that begins a record counts, and no name with such words in it."""
        plain = self.record(b"/", b"user::rwx") + self.record(b"/a/", b"user::rwx") + self.record(b"/a/b", b"user::rwx")
        cases: Dict[bytes, List[bytes]] = {
            b"": [], self.record(b"/# file: x/", b"user::rwx"): [b"/# file: x/"], b"\t#file:y/\nuser::rwx\n\n": [b"y/"],
            b"# no file: z/\nuser::rwx\n": []}
        for more, more_names in cases.items():
            dump, found = plain + more, [b"/", b"/a/", b"/a/b", *more_names]
            self.assertEqual((list(sources.names_of(dump)), overview.files_in(dump)), (found, len(found)))
            folders = [records.path_of(name) for name in found if name.endswith(b"/")]
            self.assertEqual(list(everybody.directories_of(dump)), folders)
            with mock.patch.object(sources, "PIECE", 5):
                self.assertEqual(list(sources.names_of(dump)), found)

    def test_paths_of_parts(self) -> None:
        once = split_tree.Once()
        parts: List[List[bytes]] = [[b"", b"a", b"a/b"], [b"", b"a", b"a/c", b"a b"], [], [b"", b"a", b"a b"]]
        self.assertEqual([once.of_part(paths) for paths in parts], [parts[0], [b"a/c", b"a b"], [], []])
        self.assertEqual([once.is_new(path) for path in (b"a", b"a!", b"a!")], [False, True, False])

    def test_empty_masks(self) -> None:
        for lines, is_open in (((b"user::rw-", b"user:3:r--", b"group::r--", b"mask::---", b"other::r--"), True),
                               ((b"user::rw-", b"user:3:r--", b"group::r--", b"mask::---", b"other::---"), False),
                               ((b"user::rw-", b"user:3:r--", b"group::r--", b"mask::r--", b"other::r--"), False)):
            body = records.read_listing(self.record(b"a", *lines))[b"a"].body
            self.assertEqual(entries.read_record(body).has_open_empty_mask(), is_open)

    def test_what_a_record_says(self) -> None:
        text = self.record(b"a b", b"user::rwx", b"user:a\\040b:rwx\t#effective:r-x", b"group::r--", b"group:7:rw-\t\t#effective:r--", b"mask::r-x",
                           b"other::---", b"default:user::r--", b"default:group::---", b"default:other::---", flags=b"-st")
        self.assertEqual((records.name_of(text), records.split_record(text)), (b"a b", (b"a b", records.body_of(text))))
        found = entries.read_record(records.body_of(text).rstrip(b"\n") + b"\n")
        self.assertEqual(found[:3], (b"0", b"0", b"-st"))
        self.assertEqual([it.key for it in found.access], [(b"user", b""), (b"user", b"a\\040b"), (b"group", b""), (b"group", b"7"), (b"mask", b""), (b"other", b"")])
        self.assertEqual([it.text() for it in found.default], [b"user::r--", b"group::---", b"other::---"])
        self.assertEqual(found.access[1].text(b" (%s)"), b"user:a\\040b:rwx (r-x)")
        self.assertEqual([it.grants(b"w") for it in found.access], [True, False, False, False, False, False])
        self.assertEqual((found.group_class(), found.mentioned_groups()), (b"r-x", {0, 7}))
        self.assertEqual(entries.head_lines(*found[:3]) + entries.lists_of(records.body_of(text)), records.body_of(text))

    def test_what_is_no_record(self) -> None:
        for body in (b"", b"user::rwx\n", b"# owner: 0\n# group: 0\nuser::rwx\nuser:1:rwz\n", b"# owner: 0\n# group: 0\n# more\nuser::rwx\n"):
            with self.assertRaises(ValueError):
                entries.read_record(body)


class People(unittest.TestCase):
    def test_options(self) -> None:
        for words in ([b"-a", b"x", b"g"], [b"g", b"-a", b"x"], [b"-ax", b"g"], [b"-a=x", b"g"], [b"-a", b"x", b"--", b"g"]):
            self.assertEqual(tools.split([b"gpasswd", *words]), ([(b"-a", b"x")], [b"g"]))
        self.assertEqual(tools.split([b"gpasswd", b"-a==x", b"--", b"-g"]), ([(b"-a", b"=x")], [b"-g"]))

    def test_first_rows_count(self) -> None:
        found = people.People(b"# no row\nx:x:1:1::/:\n\nx:x:2:2::/:\ny:x:1:1::/:\n", b"g:x:5:y,,x\n")
        self.assertEqual([(user.name, user.uid) for user in found.users], [(b"x", 1), (b"y", 1)])
        self.assertEqual(people.meant(found.users, b"1").name, b"x")
        self.assertEqual(found.groups[0].members, [b"y", b"x"])
        self.assertIsNone(found.change([b"gpasswd", b"-a", b"x", b"g"]))
        change = found.change([b"gpasswd", b"-d", b"1", b"5"])
        self.assertEqual(change, user_tools.PeopleChange(user_tools.REMOVE_MEMBER, user_tools.User(b"x", 1, 1), b"g", 5))

    def test_words_of_users(self) -> None:
        users = people.users_in(b"ann:x:1:1::/:\n7:x:8:1::/:\n9:x:1:1::/:\na b:x:010:1::/:\n12:x:011:1::/:\n")
        for name, word in ((b"ann", b"'ann'"), (b"7", b"'8'"), (b"9", None), (b"8", None), (b"a b", b"'a\\040b'"), (b"12", b"'11'"), (b"it's", b"'it\\047s'")):
            self.assertEqual(people.user_word(users, name), word)
        said = 'user "nine" cannot be named in a question: digits alone mean an id, and the id of this user is also that of ann'
        with self.assertRaisesRegex(Failure, said):
            people.needed_word(users, b"9", b"nine")

    def test_who_is_in_a_group(self) -> None:
        """A group has the members of all rows of its id, and those whose primary group it is."""
        found = people.People(b"ann:x:1:5::/:\nbob:x:2:6::/:\n", b"g:x:5:bob,gone,bob\nsame:x:5:ann\nh:x:6:\n")
        self.assertEqual(people.groups_by_user(found), {b"ann": {5}, b"bob": {5, 6}})
        self.assertEqual(people.users_by_group(found), {5: {b"ann", b"bob"}, 6: {b"bob"}})
        self.assertEqual(people.listed_by_group(found), {5: [b"bob", b"gone", b"ann"], 6: []})


class Tools(unittest.TestCase):
    """What other modules make of the records of tools."""

    def test_users_and_files_of_answers(self) -> None:
        for tool, line, path in ((b"may", b"a b", b"a b"), (b"index", b"ff joe a b", b"a b"), (b"chacl", b"a [b [u::r]", b"a [b"),
                                 (b"changes", b"joe gains r--,-w- a b", b"a b"), (b"below", b"12 joe a b", b"a b"),
                                 (b"gains", b"-- 01 1 joe a b", b"a b"), (b"setfacl", b"a: b: u::r", b"a: b")):
            self.assertEqual(tools.path_in(tool, line), path)
        for tool, line in ((b"who", b"joe"), (b"index", b"ff joe a b"), (b"changes", b"joe loses r-- a b"), (b"below", b"12 joe a b"),
                           (b"gains", b"11 -- 30 joe a b")):
            self.assertEqual(tools.user_in(tool, line), b"joe")
        self.assertEqual([name for name in tools.ABOUT_USERS if name not in people.NOTE], [])

    def test_operands_by_options(self) -> None:
        for words, operands in (("-r", ["LIST", "FILE"]), ("-d", ["LIST", "FILE"]), ("-b", ["LIST", "LIST", "FILE"]),
                                ("-rR", ["FILE"]), ("-l", ["FILE"]), ("-b -D", ["FILE"])):
            line = tools.split([b"chacl", *words.encode().split()])
            self.assertEqual(tools.operands_of(b"chacl", line), operands)
        self.assertEqual(tools.operands_of(b"frob", tools.split([b"frob"])), [])

    def test_what_options_mean(self) -> None:
        self.assertEqual(tools.TEXT_WORDS, {b"-", b"-M-", b"-X-", b"--modify-file=-", b"--remove-file=-", b"--set-file=-", b"--restore=-"})
        self.assertEqual({name: tools.options_that(name, tools.DEEP) for name in (b"rm", b"chacl", b"getfacl", b"can")},
                         {b"rm": {b"-r"}, b"chacl": {b"-r"}, b"getfacl": {b"-R", b"--recursive"}, b"can": set()})
        for word, is_deep in ((b"-R", True), (b"-nRm", True), (b"--recursive", True), (b"-mR", False), (b"--recursively", False), (b"R", False)):
            self.assertEqual(hard_links.RECURSIVE.match(word) is not None, is_deep)


if __name__ == "__main__":
    unittest.main()
