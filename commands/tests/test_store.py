"""The store of snapshots: which one is meant, what is said of it, and stores that are not as they should be."""
from __future__ import annotations

import datetime
import fcntl
import json
import os
import re
import subprocess
import unittest
from typing import Dict, List
from unittest import mock

from common import COMMANDS
from example_runs import why_no_tree
from verb_case import DAY, HOST, VerbCase

from facl_commands.base.messages import Failure
from facl_commands.model.meta import Meta
from facl_commands.verbs import prune, store

NOBODY = 65534


class Chosen(VerbCase):
    def setUp(self) -> None:
        super().setUp()
        patched = mock.patch.dict(os.environ, {"FACL_STORE": self.store, "FACL_SNAPSHOT": ""})
        patched.start()
        self.addCleanup(patched.stop)

    def fails(self, *words: str) -> bytes:
        with self.assertRaises(Failure) as caught:
            store.chosen(*(words or (None,)))
        return caught.exception.text

    def test_the_newest_of_this_host(self) -> None:
        for name, host, seconds in (("b", HOST, 300), ("c", HOST, 100), ("d", HOST, 200), ("e", "elsewhere", 10)):
            self.stored(name, host, seconds)
        self.assertEqual(store.chosen(None).name, b"c")
        self.assertEqual([it.name for it in store.snapshots_in(os.fsencode(self.store))], [b"b", b"d", b"c", b"e"])

    def test_by_name_and_by_folder(self) -> None:
        self.stored("old", seconds=9 * DAY)
        self.stored("new")
        self.assertEqual(store.chosen("old").name, b"old")
        with mock.patch.dict(os.environ, {"FACL_SNAPSHOT": "old"}):
            self.assertEqual([store.chosen(it).name for it in (None, "new")], [b"old", b"new"])
        self.assertEqual(store.chosen(self.path("before")).folder, os.fsencode(self.path("before")))
        text = b"absent: no such snapshot; facl snapshots lists those of " + os.fsencode(self.store)
        self.assertEqual(self.fails("absent"), text)
        self.assertEqual(self.fails(""), text[len("absent"):])

    def test_none_is_there(self) -> None:
        where = os.fsencode(self.store)
        self.assertEqual(self.fails(), where + b": has no snapshot; make one: facl snapshot FOLDER")
        os.rmdir(self.store)
        self.assertEqual(self.fails(), where + b": has no snapshot; make one: facl snapshot FOLDER")

    def test_a_user_without_a_home(self) -> None:
        """No folder of where the caller is, as `~`, is taken for it."""
        for home in ("~", "rel"):
            with mock.patch.dict(os.environ, {"FACL_STORE": "", "XDG_STATE_HOME": "rel", "HOME": home}), mock.patch.object(
                    os, "geteuid", lambda: 77777):
                self.assertEqual(self.fails(), b"you have no home directory: name a store with $FACL_STORE")

    def test_of_another_host(self) -> None:
        self.stored("one", "elsewhere")
        text = os.fsencode(self.store) + b": has no snapshot of this host; name one with -s: one"
        self.assertEqual(self.fails(), text)
        found = store.chosen("one")
        self.assertEqual([*store.notes(found)], [b"the snapshot one is of the host elsewhere, not of this one"])
        self.assertEqual(found.warnings(), [b"of another host"])

    def test_half_a_snapshot(self) -> None:
        self.stored("whole", seconds=300)
        for name, removed in (("a", ["dump"]), ("b", ["passwd", "group"])):
            folder = self.stored(name)
            for it in removed:
                os.unlink(os.path.join(folder, it))
        os.makedirs(os.path.join(self.store, "2026-11-30T000000.aZ09bC", "made"))
        os.makedirs(os.path.join(self.store, "lost+found"))
        self.write("store/file", b"")
        self.assertEqual(store.chosen(None).name, b"whole")
        faults = {it.name: it.fault for it in store.snapshots_in(os.fsencode(self.store))}
        self.assertEqual(faults, {
            b"whole": b"", b"a": b"incomplete snapshot: it lacks dump",
            b"b": b"incomplete snapshot: it lacks passwd, group",
            b"2026-11-30T000000.aZ09bC": b"left by a run that was killed; it can be removed"})
        self.assertEqual(self.fails("a"), os.fsencode(self.store) + b"/a: incomplete snapshot: it lacks dump")

    def test_others_can_write(self) -> None:
        folder = self.stored("one")
        os.chmod(os.path.join(folder, "dump"), 0o666)
        self.assertTrue(self.fails("one").endswith(b"/one/dump: can be written by everybody, so it is not trusted"))
        self.stored("older", seconds=300)
        self.assertEqual(store.chosen(None).name, b"older")
        os.chmod(self.store, 0o777)
        self.assertEqual(self.fails(), os.fsencode(self.store) + b": can be written by everybody, so it is not trusted")
        with self.assertRaises(Failure):
            store.made_place()
        os.chmod(self.store, 0o1777)
        with self.assertRaises(Failure) as caught:
            store.made_place()
        self.assertIn(b"chmod 700 it", caught.exception.text)

    def test_a_link_in_the_store(self) -> None:
        os.symlink(self.path("before"), os.path.join(self.store, "link"))
        self.assertEqual(store.snapshots_in(os.fsencode(self.store)), [])

    def test_age(self) -> None:
        for seconds, text in ((0, b"0 seconds"), (1, b"1 second"), (61, b"1 minute"), (7200, b"2 hours"),
                              (DAY, b"1 day"),
                              (400 * DAY, b"400 days"), (-5, b"0 seconds")):
            self.assertEqual(store.age_text(seconds), text)
        self.stored("old", seconds=3 * DAY + 60)
        self.assertEqual([*store.notes(store.chosen(None))], [b"the snapshot old is 3 days old"])
        self.stored("new", seconds=DAY - 60)
        self.assertEqual([*store.notes(store.chosen(None))], [])

    def test_paths(self) -> None:
        self.stored("new")
        self.stored("old", seconds=300, folders=["/srv/other", "/home"])
        found = store.chosen(None)
        store.check_paths(found, [b"/", b"/srv", b"/srv/project/x", b"srv/project", b"/srv/project/../x", b""])
        with self.assertRaises(Failure) as caught:
            store.check_paths(found, [b"/home/ann"])
        text = b"/home/ann: is not in the snapshot new, which has /srv/project; these have it, for -s: old"
        self.assertEqual(caught.exception.text, text)
        with self.assertRaises(Failure) as caught:
            store.check_paths(found, [b"/etc"])
        self.assertTrue(caught.exception.text.endswith(b"which has /srv/project; to record it: facl snapshot /etc"))

    def test_a_path_from_where_the_command_runs(self) -> None:
        """What is recommended is never what was typed: facl snapshot takes such a name, and no question does then."""
        self.stored("new", folders=["/srv/project", self.path("tree")])
        for word, text in ((b"tree", b"give the whole name: " + os.fsencode(self.path("tree"))),
                           (b"./tree/a", b"give the whole name: " + os.fsencode(self.path("tree/a"))),
                           (b"other", b"to record it: facl snapshot " + os.fsencode(self.path("other")))):
            with mock.patch.object(os, "getcwdb", return_value=os.fsencode(self.folder)):
                with self.assertRaises(Failure) as caught:
                    store.check_paths(store.chosen(None), [word])
            self.assertTrue(caught.exception.text.endswith(b"; " + text), caught.exception.text)
        with mock.patch.object(os, "getcwdb", side_effect=FileNotFoundError):
            self.assertEqual(store.whole_name(b"tree"), b"tree")

    def test_places(self) -> None:
        with mock.patch.dict(os.environ, {"FACL_STORE": "", "XDG_STATE_HOME": "/x", "HOME": "/h"}):
            self.assertEqual(store.place(), b"/var/lib/facl" if os.geteuid() == 0 else b"/x/facl")
            with mock.patch("os.geteuid", return_value=1000):
                self.assertEqual(store.place(), b"/x/facl")
                with mock.patch.dict(os.environ, {"XDG_STATE_HOME": "relative"}):
                    self.assertEqual(store.place(), b"/h/.local/state/facl")


class Verbs(VerbCase):
    def test_recorded_and_listed(self) -> None:
        os.mkdir(self.path("tree"))
        done = self.verb("snapshot", self.path("tree"))
        self.assertEqual((done.status, done.messages), (0, b""))
        name, = os.listdir(self.store)
        self.assertRegex(name, r"\A\d{4}-\d\d-\d\dT\d{6}\Z")
        self.assertTrue(done.out.startswith(b"recorded " + os.fsencode(os.path.join(self.store, name)) + b": "), done.out)
        listed = json.loads(self.verb("snapshots", "--json").out)
        self.assertEqual((listed["schema"], listed["store"]), ("facl-snapshots/1", self.store))
        it, = listed["snapshots"]
        self.assertEqual((it["name"], it["host"], it["folders"], it["is_whole"]),
                         (name, HOST, [self.path("tree")], True))
        rows = self.verb("snapshots", "--tsv").out.decode().split("\n")
        self.assertEqual(rows[0], "NAME\tHOST\tFOLDERS\tFILES\tUSERS\tAGE\tWARNINGS")
        self.assertTrue(rows[1].startswith("\t".join([name, HOST, self.path("tree")])))

    def test_none_is_listed(self) -> None:
        self.expect(self.verb("snapshots"), 1, os.fsencode(self.store) + b": has no snapshot; make one: facl snapshot FOLDER\n")

    def test_in_another_folder(self) -> None:
        done = self.verb("snapshot", "-q", "-o", "mine", "before", "--exclude", "*.x")
        self.assertEqual((done.status, done.out, os.listdir(self.store)), (0, b"", []))
        self.assertIn(b"\nexclude *.x\n", self.read("mine/meta"))

    def test_a_store_is_made(self) -> None:
        done = self.verb("snapshot", "-q", "before", environment={"FACL_STORE": self.path("x/y/store")})
        self.assertEqual((done.status, [oct(os.stat(self.path(it)).st_mode & 0o777) for it in ("x", "x/y/store")]),
                         (0, ["0o700"] * 2))

    def test_an_import(self) -> None:
        done = self.verb("import", "before/dump", "--passwd", "before/passwd", "--group", "before/group")
        self.assertEqual(done.status, 0, done)
        name, = os.listdir(self.store)
        self.assertEqual(done.out, b"imported before/dump; to use it: -s " + name.encode() + b"\n")
        self.assertEqual(sorted(os.listdir(os.path.join(self.store, name))), ["dump", "group", "passwd"])
        for text in ("dump", "passwd", "group"):
            self.assertEqual(self.read("store/%s/%s" % (name, text)), self.read("before/" + text))
        row = self.verb("snapshots", "--tsv").out.decode().split("\n")[1]
        self.assertEqual(row, name + "\t\t\t\t\t\timported")
        self.write("dump", b"# file: a\nuser::rwq\n")
        done = self.verb("import", "dump", "--passwd", "before/passwd", "--group", "before/group")
        self.assertEqual((done.status, done.out, os.listdir(self.store)), (2, b"", [name]))
        self.assertIn(b"does not load it", done.messages)

    def test_an_import_that_could_not_be_said(self) -> None:
        """It is made all the same, and the status says so."""
        words = [os.path.join(COMMANDS, "facl"), "import", "before/dump", "--passwd", "before/passwd", "--group", "before/group"]
        for number, streams in enumerate((">/dev/full", ">&-", "2>/dev/full"), 1):
            done = subprocess.run(["sh", "-c", '"$@" ' + streams, "sh", *words], cwd=self.folder, stdout=subprocess.PIPE,
                                  stderr=subprocess.PIPE, env={**os.environ, "FACL_STORE": self.store}, check=False)
            self.assertEqual((done.returncode, len(os.listdir(self.store))), (5, number), done)

    def test_wrong_words(self) -> None:
        """What is said has no words of the command that the verb runs."""
        self.expect(self.verb("snapshot", "before", "--exclude", "/"), 2, b"", b"facl snapshot: --exclude /: leaves out all\n")

    @unittest.skipIf(why_no_tree(), why_no_tree())
    def test_a_full_store(self) -> None:
        """No snapshot is left where the store has no room."""
        script = 'mount -t tmpfs -o size=24k,mode=700 tmpfs "$1" && shift && "$@"; echo $?; ls -A "$FACL_STORE"'
        done = subprocess.run(["unshare", "-m", "sh", "-c", script, "sh", self.store, os.path.join(COMMANDS, "facl"),
                               "snapshot", COMMANDS],
                              env={**os.environ, "FACL_STORE": self.store}, cwd=self.folder, capture_output=True,
                              check=False)
        self.assertEqual(done.stdout, b"2\n", done.stderr)
        self.assertIn(b"No space left on device", done.stderr)

    @unittest.skipIf(os.geteuid() != 0, "it takes root")
    def test_two_users(self) -> None:
        """Another user has a store of the user's own, and gets nothing of root's."""
        self.stored("secret")
        home = self.path("home")
        os.mkdir(home)
        os.chown(home, NOBODY, NOBODY)
        os.chmod(self.folder, 0o755)
        environment = {**os.environ, "HOME": home, "FACL_STORE": "", "XDG_STATE_HOME": "", "FACL_SNAPSHOT": ""}

        def other(*words: str, **more: str) -> "subprocess.CompletedProcess[bytes]":
            return subprocess.run([os.path.join(COMMANDS, "facl"), *words], env={**environment, **more},
                                  cwd=self.folder, user=NOBODY,
                                  group=NOBODY, extra_groups=[], capture_output=True, check=False)

        done = other("snapshot", "-q", home)
        self.assertIn(done.returncode, (0, 1), done)
        name, = os.listdir(os.path.join(home, ".local/state/facl"))
        self.assertEqual(other("snapshots", "--tsv").stdout.count(b"\n"), 2)
        done = other("snapshots", FACL_STORE=self.store)
        self.assertEqual((done.returncode, done.stdout), (2, b""))
        self.assertIn(b"Permission denied", done.stderr)
        of_root = self.verb("snapshots", environment={"FACL_STORE": os.path.join(home, ".local/state/facl")})
        self.assertEqual((of_root.status, of_root.out), (2, b""))
        self.assertIn(b"belongs to", of_root.messages)


def taken(name: bytes, day: int, host: bytes = b"h", hour: int = 12) -> store.Stored:
    """A snapshot of a day of 2026, counted from 0."""
    date = datetime.datetime(2026, 1, 1, hour) + datetime.timedelta(days=day)
    return store.Stored(name, b"/store/" + name, Meta(host, date.strftime("%Y-%m-%dT%H:%M:%SZ").encode(), [b"/srv"]),
                        [], b"")


class Prune(VerbCase):
    def kept(self, snapshots: List[store.Stored], **counts: int) -> List[str]:
        reasons = prune.reasons_of(snapshots, counts)
        return [it.name.decode() for it in snapshots if reasons[it.name]]

    def test_rules(self) -> None:
        with mock.patch.dict(os.environ, {"TZ": "UTC"}):
            days = [taken(b"%03d" % day, day) for day in range(100)]  # 1 January to 10 April.
            self.assertEqual(self.kept(days, daily=3), ["097", "098", "099"])
            self.assertEqual(self.kept(days, monthly=3), ["058", "089", "099"])
            self.assertEqual(self.kept(days, weekly=2), ["094", "099"])
            self.assertEqual(self.kept(days, daily=1, weekly=2, monthly=4), ["030", "058", "089", "094", "099"])
            several = [taken(b"a", 0, hour=1), taken(b"b", 0, hour=2), taken(b"c", 1)]
            self.assertEqual(self.kept(several, daily=2), ["b", "c"])

    def test_groups(self) -> None:
        found = [taken(b"a", 0), taken(b"b", 1, b"other"), taken(b"c", 2)]
        self.assertEqual(self.kept(found, daily=1), ["b", "c"])
        found[0] = found[0]._replace(fault=b"incomplete snapshot")
        self.assertEqual(self.kept(found, daily=1), ["a", "b", "c"])

    def three(self) -> Dict[str, str]:
        return {name: self.stored(name, seconds=days * DAY) for name, days in (("new", 0), ("older", 1), ("oldest", 2))}

    def test_times_of_a_wrong_clock(self) -> None:
        """One that is still to come takes nobody's place; times that no zone has end nothing."""
        self.stored("ahead", seconds=-9 * DAY)
        new, text = self.stored("new"), b"of a time that is still to come, so a clock was wrong"
        for name, date in (("first", "0001-01-01T00:00:00Z"), ("last", "9999-12-31T23:59:59Z")):
            meta = re.sub(b"(?m)^date .*", b"date " + date.encode(), self.read(os.path.join(self.stored(name), "meta")))
            self.write(f"store/{name}/meta", meta)
        for zone in ("UTC", "XXX+12", "XXX-14", "none"):
            done = self.verb("prune", "--keep-daily", "1", environment={"TZ": zone})
            self.assertEqual((done.status, done.messages), (3, b""), done)
            self.assertIn(b"keep    new  daily 1\n", done.out)
            self.assertIn(b"keep    ahead  " + text + b"\n", done.out)
        with mock.patch.dict(os.environ, {"FACL_STORE": self.store, "FACL_SNAPSHOT": ""}):
            self.assertEqual(store.chosen(None).folder, os.fsencode(new))
            self.assertEqual([*store.notes(store.chosen("ahead"))], [b"the snapshot ahead is " + text])

    def test_what_goes(self) -> None:
        folders = self.three()
        self.write("store/oldest/note", b"")
        text = b"remove  oldest\nremove  older\nkeep    new  daily 1\n"
        self.expect(self.verb("prune", "--keep-daily", "1", "-n"), 0, text + b"would remove 2 snapshots\n")
        self.assertTrue(all(map(os.path.exists, folders.values())))
        self.expect(self.verb("prune", "--keep-daily", "1"), 0, text + b"removed 1 snapshot\n",
                    b"facl prune: oldest: has other files too, so these stay\n")
        self.assertEqual([os.path.exists(folders[it]) for it in ("new", "older", "oldest")], [True, False, True])
        self.assertEqual(os.listdir(folders["oldest"]), ["note"])

    def test_words(self) -> None:
        self.three()
        for words in ((), ("--keep-daily", "0")):
            done = self.verb("prune", *words)
            self.assertEqual((done.status, done.out), (2, b""))
        self.assertEqual(self.verb("prune", "--keep-daily", "x").status, 2)
        self.assertEqual(self.verb("prune", "--keep-daily", "9").status, 3)

    def test_beside_facl_daily(self) -> None:
        """While facl-daily is at work nothing goes."""
        folders = self.three()
        self.verb("prune", "--keep-daily", "2")
        with open(os.path.join(self.store, "lock.of-facl-daily"), encoding="ascii") as lock:
            fcntl.flock(lock, fcntl.LOCK_EX)
            done = self.verb("prune", "--keep-daily", "1")
        self.assertEqual(done.status, 2)
        self.assertRegex(done.messages, b"another facl daily is at work there")
        self.assertTrue(os.path.exists(folders["older"]))


if __name__ == "__main__":
    unittest.main()
