"""Tests of the gate: how many lanes there are, wrong bodies by a prover of its own in the place of the real one, and
tools/gate.py with stages of its own."""
from __future__ import annotations

import os
import shutil
import signal
import subprocess
import sys
import tempfile
import time
import unittest
from typing import Dict, List, Optional, Tuple
from unittest import mock

from lib import lanes, memory_watch, processes
from lib.lanes import Room
from lib.memory_watch import Check
from lib.processes import Process
from lib.script import TOP
from ways import Crates

LIMITED = 8_000_000_000
V2 = {
    "proc/self/cgroup": "0::/a/b\n",
    "sys/fs/cgroup/a/memory.max": f"{LIMITED}\n",
    "sys/fs/cgroup/a/memory.stat": "anon 1000000000\nfile 5\n",
    "sys/fs/cgroup/a/b/memory.max": "max\n",
    "sys/fs/cgroup/a/b/memory.stat": "anon 7\n",
    "sys/fs/cgroup/a/cpu.max": "250000 100000\n",
    "sys/fs/cgroup/a/b/cpu.max": "max 100000\n",
}
IN_CONTAINER = {
    "proc/self/cgroup": "0::/not/to/be/seen\n",
    "sys/fs/cgroup/memory.max": f"{LIMITED}\n",
    "sys/fs/cgroup/memory.stat": "anon 0\n",
}
V1 = {
    "proc/self/cgroup": "9:name=systemd:/\n4:memory:/x\n1:cpu,cpuacct:/\n0::/\n",
    "sys/fs/cgroup/memory/x/memory.limit_in_bytes": f"{LIMITED}\n",
    "sys/fs/cgroup/memory/x/memory.stat": "cache 3\ntotal_rss 2000000000\n",
    "sys/fs/cgroup/cpu/cpu.cfs_quota_us": "-1\n",
    "sys/fs/cgroup/cpu/cpu.cfs_period_us": "100000\n",
}


class Case(unittest.TestCase):
    """A test with a folder of its own, which has files."""

    def setUp(self) -> None:
        folder = tempfile.TemporaryDirectory(prefix="facl-gate-test.")
        self.addCleanup(folder.cleanup)
        self.top = folder.name

    def write(self, files: Dict[str, str], mode: int = 0o644) -> None:
        for name, text in files.items():
            path = os.path.join(self.top, name)
            os.makedirs(os.path.dirname(path), exist_ok=True)
            with open(path, "w", encoding="utf-8") as file:
                file.write(text)
            os.chmod(path, mode)

    def copy(self, *names: str) -> None:
        for name in names:
            os.makedirs(os.path.join(self.top, os.path.dirname(name)), exist_ok=True)
            shutil.copy(os.path.join(TOP, name), os.path.join(self.top, name))

    def run_script(self, *words: str, **more: str) -> Tuple[int, List[str], str]:
        """The status, the lines and the messages of a script of this folder, which finds its programs in bin/ first."""
        environment = {**os.environ, "PATH": os.path.join(self.top, "bin") + ":" + os.environ["PATH"], **more}
        ran = subprocess.run(words, cwd=self.top, env=environment, capture_output=True, text=True, check=False)
        return ran.returncode, ran.stdout.splitlines(), ran.stderr


class Lanes(Case):
    def room(self, files: Dict[str, str], kilobytes: int, allowed: int) -> Room:
        shutil.rmtree(self.top)
        self.write({"proc/meminfo": f"MemTotal: 99 kB\nMemAvailable:   {kilobytes} kB\n", **files})
        return lanes.room(self.top, allowed)

    def test_the_lesser_of_both(self) -> None:
        def lanes_of(processors: int, gigabytes: float) -> int:
            return lanes.lanes(Room(processors, int(gigabytes * 1e9), "", ""))

        self.assertEqual([lanes_of(4, each) for each in (0, 3.4, 6.9, 7, 10.4, 10.5, 14, 99)], [1, 1, 1, 2, 2, 3, 4, 4])
        self.assertEqual([lanes_of(each, 24) for each in (1, 2, 3, 6, 64)], [1, 2, 3, 6, 6])

    def test_what_a_machine_has(self) -> None:
        self.assertEqual(self.room({}, 20_000_000, 4), (4, 20_480_000_000, "this process may run on", "MemAvailable"))

    def test_what_a_control_group_leaves(self) -> None:
        self.assertEqual(self.room(V2, 64_000_000, 16), (2, 7_000_000_000, "cpu.max", "memory.max"))
        self.assertEqual(self.room(IN_CONTAINER, 64_000_000, 16)[:2], (16, LIMITED))
        self.assertEqual(self.room(V1, 64_000_000, 16)[:2], (16, 6_000_000_000))

    def test_the_machine_has_less_than_its_group(self) -> None:
        self.assertEqual(self.room(V2, 1_000_000, 1)[:2], (1, 1_024_000_000))

    def test_reason(self) -> None:
        self.assertEqual(lanes.reason(Room(2, LIMITED, "cpu.max", "memory.max")),
                         "2 lanes: 2 processors (cpu.max) and 8.0 GB of free memory (memory.max), 3.5 a lane")


class Memory(unittest.TestCase):
    """Which check waits where memory is short."""

    def check(self, number: int, held: float, more: float, is_stopped: bool = False, waiting: int = 0) -> Check:
        return Check(number, "it", waiting, int(held * 1e9), int(more * 1e9), is_stopped)

    def wanted(self, free: float, *checks: Check) -> Optional[Tuple[int, int]]:
        """The check to stop or continue, where this is free beside what is spared."""
        found = memory_watch.wanted_signal([*checks], int(free * 1e9) + memory_watch.SPARE)
        return (found[0].number, found[1]) if found else None

    def test_the_smallest_waits(self) -> None:
        checks = self.check(1, 4.0, 2.2), self.check(2, 1.5, 1.7), self.check(3, 2.0, 1.2)
        self.assertIsNone(self.wanted(5.2, *checks))
        self.assertEqual(self.wanted(5.0, *checks), (2, signal.SIGSTOP))

    def test_the_one_that_fewest_crates_wait_for(self) -> None:
        """It is stopped though it holds more, and goes on after others."""
        checks = self.check(1, 2.0, 1.2), self.check(2, 0.5, 2.7, waiting=3), self.check(3, 0.1, 3.1, waiting=2)
        self.assertEqual(self.wanted(5.0, *checks), (1, signal.SIGSTOP))
        self.assertEqual(self.wanted(2.0, *checks[1:]), (3, signal.SIGSTOP))
        stopped = self.check(1, 2.0, 1.2, is_stopped=True), self.check(3, 0.1, 3.1, is_stopped=True, waiting=2)
        self.assertEqual(self.wanted(9.0, checks[1], *stopped), (3, signal.SIGCONT))

    def test_the_last_that_runs_does_not_wait(self) -> None:
        self.assertIsNone(self.wanted(0.1, self.check(1, 4.0, 2.2), self.check(2, 1.5, 1.7, is_stopped=True)))
        self.assertIsNone(self.wanted(0.1, self.check(1, 4.0, 2.2)))
        self.assertIsNone(self.wanted(0.1))

    def test_one_goes_on(self) -> None:
        checks = self.check(1, 0.5, 2.0), self.check(2, 1.5, 1.7, is_stopped=True), self.check(3, 2.0, 1.2, is_stopped=True)
        self.assertIsNone(self.wanted(3.1, *checks))
        self.assertEqual(self.wanted(3.3, *checks), (3, signal.SIGCONT))
        self.assertEqual(self.wanted(0.1, *checks[1:]), (3, signal.SIGCONT))

    def test_what_a_crate_may_take(self) -> None:
        held, crates = 100_000_000, Crates(os.path.join(TOP, "crates.txt"))
        for crate, most in (*memory_watch.MOST_OF.items(), ("path_map", memory_watch.MOST), ("", memory_watch.MOST)):
            words = ["sh", "-c", "echo runs; read line", "prover", "--crate-name", crate]
            program = subprocess.Popen(words, stdin=subprocess.PIPE, stdout=subprocess.PIPE)
            try:
                assert program.stdout
                program.stdout.readline()  # Until it runs, the kernel may give no words.
                found = memory_watch.check_of(Process(program.pid, "rattle", 1, 1, held, False), crates)
                self.assertEqual(found, (program.pid, crate, 0, held, most - held, False))
            finally:
                program.communicate()

    def waiting(self, crates: Crates, folder: str, *words: str) -> int:
        """How many crates wait for a check of path_map in a folder."""
        with tempfile.TemporaryDirectory() as top:
            os.mkdir(os.path.join(top, folder))
            program = subprocess.Popen(["sh", "-c", "echo runs; read line", "prover", "--crate-name", "path_map", *words],
                                       cwd=os.path.join(top, folder), stdin=subprocess.PIPE, stdout=subprocess.PIPE)
            try:
                assert program.stdout
                program.stdout.readline()
                return memory_watch.check_of(Process(program.pid, "rattle", 1, 1, 0, False), crates).waiting
            finally:
                program.communicate()

    def test_which_crates_wait(self) -> None:
        """None for tests, and for an edit, which is tried in another folder."""
        crates = Crates(os.path.join(TOP, "crates.txt"))
        self.assertEqual(self.waiting(crates, "path_map"), crates.above("path_map"))
        self.assertEqual(self.waiting(crates, "path_map", "--test"), 0)
        self.assertEqual(self.waiting(crates, "path_map.1"), 0)
        self.assertGreater(crates.above("path_map"), crates.above("acl_rights"))

    def test_the_most_is_kept(self) -> None:
        watch = memory_watch.MemoryWatch()
        check = Process(os.getpid(), "rattle", 1, 1, 5_940_000_000, False)
        watch.update([check], 9_000_000_000)
        self.assertEqual(watch.most, {}, "a check of no crate of this repository")
        watch.crates.uses[""] = []
        for held in (2_000_000_000, 5_940_000_000, 3_000_000_000):
            watch.update([check._replace(held=held)], 9_000_000_000)
        self.assertEqual(watch.most, {"": 5_940_000_000})
        watch.most = {crate: number * 1_000_000_000 for number, crate in enumerate("abcdef")}
        self.assertEqual(watch.report().partition("held: ")[2], "f 5.0 GB, e 4.0 GB, d 3.0 GB, c 2.0 GB, b 1.0 GB, a 0.0 GB")

    def test_the_formatter_never_waits(self) -> None:
        watch = memory_watch.MemoryWatch()
        with mock.patch.object(memory_watch, "words_of", return_value=[b"rattle", b"fmt", b"--check"]):
            watch.update([Process(number, "rattle", 1, 1, 1, False) for number in (-2, -1)], 0)
        self.assertEqual((watch.stops, watch.most), (0, {}))

    def test_processes_stop_and_continue(self) -> None:
        programs = [subprocess.Popen(["sleep", "600"]) for _ in range(2)]
        watch = memory_watch.MemoryWatch()

        def expect_stopped(wanted: List[bool]) -> None:
            """A signal takes effect when its process runs next."""
            found: List[bool] = []
            for _ in range(600):
                found = sorted(it.is_stopped for it in processes.programs_below(os.getpid(), "sleep"))
                if found == wanted:
                    return
                time.sleep(0.1)
            self.assertEqual(found, wanted)

        try:
            watch.update(processes.programs_below(os.getpid(), "sleep"), 0)
            expect_stopped([False, True])
            watch.update(processes.programs_below(os.getpid(), "sleep"), 0)
            expect_stopped([False, True])
            self.assertEqual(watch.stops, 1)
            watch.end()
            expect_stopped([False, False])
            self.assertEqual(watch.stopped, set())
        finally:
            for program in programs:
                program.kill()
                program.wait()


# A prover: a function is proved unless its line `fn NAME is right` in src/lib.rt has another word than `right`, or it calls one
# that is not.
RATTLE = f"#!{sys.executable}\n" + r'''
import os, signal, sys
words = sys.argv[1:]
crate = words[words.index("--crate-name") + 1]
lines = [line[len("fn "):].split() for line in open("src/lib.rt").read().splitlines()]
bodies, calls = {line[0]: line[2] for line in lines}, {line[0]: line[4:] for line in lines}
asked = [word for before, word in zip(words, words[1:]) if before == "--only"]
for function in asked:
    if function not in bodies:
        print(f"error: no function {function}")
        sys.exit(2)
answers = {"right": "proved", "same": "proved", "bad": "not proved", "open": "no proof: x"}
of_called = {function: [called for called in calls[function] if bodies[called] == "bad"] for function in asked}
for function in asked:
    if bodies[function] == "bad":
        print(f"./proofs/{function}/Proof.antt:1:2: error: expected a number")
for function in asked:
    if bodies[function] == "killed":
        os.kill(os.getpid(), signal.SIGKILL)
    if bodies[function] == "vague":
        print(f"fn {crate}::{function}: could not tell\nrattle: no verdict: memory ran out")
        sys.exit(3)
    if bodies[function] == "unread":
        print("error: src/lib.rt:1:1: not read")
        sys.exit(1)
    if bodies[function] == "other":
        print(f"fn {crate}::helper: not proved")
    answer = answers.get(bodies[function], "proved")
    for called in of_called[function]:
        answer = f"no proof: it calls `{crate}::{called}`, which is not proved" if answer == "proved" else answer
    print(f"fn {crate}::{function}: {answer}")
proved = sum(bodies[function] in ("right", "same") and not of_called[function] for function in asked)
print(f"only={len(asked)} proved={proved}")
sys.exit(0 if proved == len(asked) else 1)
'''
RT = "#!/bin/sh\necho kit\n"
EDIT = "function: {0}\nfile: src/lib.rt\nold: {0} is right\nnew: {0} is {1}\n"
OF_EDITS = ("tools/edits.py", "tools/prove.py", "tools/ways.py",
            *(f"tools/lib/{name}.py" for name in ("__init__", "batches", "command_edits", "kit", "lanes", "processes", "script", "side_by_side", "wrong_bodies")))


class Edits(Case):
    def setUp(self) -> None:
        super().setUp()
        self.copy(*OF_EDITS)
        self.write({"crates.txt": "low:\nhigh: low\n", "crates/low/src/lib.rt": "fn one is right\nfn two is right\n",
                    "crates/high/src/lib.rt": "fn top is right\n", "crates/low/out/rlib/low.rlib/format": "",
                    "log": "rt: low: its tests are proved\n"})
        self.write({"bin/rt": RT, "bin/rattle": RATTLE}, 0o755)

    def edits(self, **wrong: str) -> None:
        self.write({f"crates/low/wrong/{name}.edit": text for name, text in wrong.items()})

    def run_edits(self, log: str = "rt: low proved\n") -> Tuple[int, List[str]]:
        """The status and the lines of the script, beside a process that has ended."""
        self.write({"log": log})
        ended = subprocess.Popen(["true"])
        ended.wait()
        return self.run_script("tools/edits.py", "--beside", str(ended.pid), "--log", "log")[:2]

    def faulty(self, text: str, *more: str) -> None:
        """An edit that fails, with these words, beside one that is refused."""
        self.edits(good=EDIT.format("two", "bad"), it=text)
        status, lines = self.run_edits()
        said = next(line for line in lines if line.startswith("wrong body low/it: "))
        for words in more:
            self.assertIn(words, said)
        self.assertEqual((status, lines[-1]), (1, "1 passed, 1 failed"))

    def test_refused(self) -> None:
        self.edits(a=EDIT.format("one", "bad"), b=EDIT.format("two", "open"))
        self.assertEqual(self.run_edits(), (0, [
            "wrong body low/a: refused: ./proofs/one/Proof.antt:1:2: error: expected a number",
            "wrong body low/b: refused: no proof: x", "2 passed, 0 failed"]))
        self.assertEqual(os.listdir(os.path.join(self.top, "crates", "low", "out")), ["rlib"])

    def checks(self) -> List[str]:
        """The names of the checks of low, in order."""
        return sorted(name[len("low."):-len(".log")] for name in os.listdir(os.path.join(self.top, "out", "logs")))

    def test_together(self) -> None:
        """Edits of different functions are tried by one check, and each is told by its own proof."""
        self.edits(a=EDIT.format("one", "bad"), b=EDIT.format("two", "bad"), c=EDIT.format("two", "open"))
        self.assertEqual(self.run_edits(), (0, [
            *(f"wrong body low/{edit}: refused: ./proofs/{function}/Proof.antt:1:2: error: expected a number"
              for edit, function in (("a", "one"), ("b", "two"))), "wrong body low/c: refused: no proof: x", "3 passed, 0 failed"]))
        self.assertEqual(self.checks(), ["a+1", "c", "control"])

    def test_a_function_that_calls_another(self) -> None:
        """An edit whose function is refused since it calls that of another one is tried once more, alone."""
        self.write({"crates/low/src/lib.rt": "fn one is right and two\nfn two is right\n"})
        self.edits(a=EDIT.format("one", "same"), b=EDIT.format("two", "bad"))
        status, lines = self.run_edits()
        self.assertEqual((status, lines[1:]), (1, ["wrong body low/a: NOT REFUSED: one is proved with this edit", "1 passed, 1 failed"]))
        self.assertEqual(self.checks(), ["a", "a+1", "control"])
        self.edits(a=EDIT.format("one", "bad"), b=EDIT.format("two", "bad"))
        self.assertEqual(self.run_edits()[0], 0)

    def test_alone_without_a_verdict(self) -> None:
        """Edits without a verdict are tried once more, each alone."""
        self.edits(a=EDIT.format("one", "vague"), b=EDIT.format("two", "bad"))
        status, lines = self.run_edits()
        self.assertEqual((status, lines[-1]), (1, "1 passed, 1 failed"))
        self.assertIn("low/a: the check has no verdict, status 3", lines[0])
        self.assertEqual(self.checks(), ["a", "a+1", "b", "control"])

    def test_proved(self) -> None:
        self.faulty(EDIT.format("one", "same"), "NOT REFUSED: one is proved with this edit")

    def test_another_function_is_refused(self) -> None:
        self.faulty(EDIT.format("one", "other"), "NOT REFUSED: one is proved with this edit")

    def test_does_not_apply(self) -> None:
        self.faulty(EDIT.format("one", "bad").replace("old: one is", "old: one was"), "BAD EDIT", "0 times")
        self.faulty(EDIT.format("one", "bad").replace("old: one is right", "old: is right"), "BAD EDIT", "2 times")
        self.faulty(EDIT.format("one", "bad").replace("lib.rt", "gone.rt"), "BAD EDIT", "cannot be read")
        self.faulty("function: one\nfile: src/lib.rt\n", "BAD EDIT", "changes nothing")
        self.faulty(EDIT.format("one", "bad").replace("function: one\n", ""), "BAD EDIT", "names no function")

    def test_no_verdict(self) -> None:
        self.faulty(EDIT.format("one", "killed"), "ended by signal 9")
        self.faulty(EDIT.format("one", "vague"), "no verdict, status 3")
        self.faulty(EDIT.format("one", "unread"), "no verdict, status 1")

    def test_function(self) -> None:
        """The function that an edit names is where its path says: the check edits_apply finds a fault before anything is proved."""
        self.copy("tools/check.py", "tools/checks/__init__.py", "tools/checks/edits_apply.py")
        self.write({"crates/low/src/map.rt": "struct Map\nfn new\n", "crates/low/src/map/more.rt": "impl Map\nfn put\n"})
        for path, fault in (("one", ""), ("map::new", ""), ("map::Map::put", ""), ("map::MapTest::put", ""), ("map::more::put", ""),
                            ("gone", "src/lib.rt has no `fn gone`"), ("put", "src/lib.rt has no `fn put`"),
                            ("map::put", "src/map.rt has no `fn put`"), ("Map::put", "src/lib.rt has no type `Map`"),
                            ("map::Map::gone", "the crate has no `fn gone`"), ("map::Pair::put", "src/map.rt has no type `Pair`")):
            self.edits(it=EDIT.format("one", "bad").replace("function: one", f"function: {path}"))
            status, lines, _ = self.run_script("tools/check.py", "edits_apply")
            said = [f"crates/low/wrong/it.edit: it names {path}, and {fault}"] if fault else []
            self.assertEqual((status, lines), (1 if fault else 0, said), path)
        self.write({"crates/low/must-fail/two.edit": "file: src/lib.rt\nold: gone\nnew: two\n"})
        self.edits(it=EDIT.format("one", "bad"))
        self.assertEqual(self.run_script("tools/check.py", "edits_apply")[:2], (1, [
            "crates/low/must-fail/two.edit: it does not apply: src/lib.rt has `gone` 0 times, and not once"]))
        os.remove(os.path.join(self.top, "crates/low/must-fail/two.edit"))
        self.write({"commands/facl_commands/a.py": "x = 1\n", "commands/tests/wrong/one.edit": "test: a.A.x\nfile: facl_commands/a.py\nold: y\nnew: z\n",
                    "commands/tests/wrong/two.edit": "file: facl_commands/a.py\nold: x\nnew: z\n"})
        self.assertEqual(self.run_script("tools/check.py", "edits_apply")[:2], (1, [
            "commands/tests/wrong/one.edit: it does not apply: facl_commands/a.py has `y` 0 times, and not once",
            "commands/tests/wrong/two.edit: its lines are not test, file, old, new, one each"]))

    def test_control(self) -> None:
        self.edits(it=EDIT.format("one", "bad").replace("function: one", "function: gone"))
        self.assertEqual(self.run_edits(), (1, [
            "wrong body low/it: BAD EDIT: it names gone, and src/lib.rt has no `fn gone`", "0 passed, 1 failed"]))
        self.write({"crates/low/src/map.rt": "fn one\n"})
        self.edits(it=EDIT.format("one", "bad").replace("function: one", "function: map::one"))
        self.assertEqual(self.run_edits(), (1, [
            "wrong body low/it: control: the check has no verdict, status 2: error: no function map::one", "0 passed, 1 failed"]))
        self.write({"crates/low/src/lib.rt": "fn one is right\nfn two is bad\n"})
        self.edits(it=EDIT.format("one", "bad").replace("function: one", "function: two"))
        status, lines = self.run_edits()
        self.assertEqual((status, lines[-1]), (1, "0 passed, 1 failed"))
        self.assertIn("control: unchanged, not all is proved", lines[0])

    def test_libraries(self) -> None:
        self.write({"crates/high/wrong/it.edit": EDIT.format("top", "bad")})
        self.assertEqual(self.run_edits()[0], 0)
        self.assertEqual(self.run_edits("rt: low is kept: an earlier run proved the same files\n")[0], 0)
        self.assertEqual(self.run_edits("rt: low: 3 of its 4 edits were tried\n")[0], 1)
        self.assertEqual(self.run_edits("rt: low NOT PROVED\n"),
                         (1, ["wrong body high/it: not tried: low not proved", "0 passed, 1 failed"]))

    def test_no_edits(self) -> None:
        self.assertEqual(self.run_edits(), (1, ["0 passed, 0 failed"]))

    def kept(self) -> str:
        """The folder where rt keeps what passed."""
        folder = os.path.join(os.path.dirname(self.top), "rattle-kept")
        os.mkdir(folder, 0o700)
        self.addCleanup(shutil.rmtree, folder)
        return folder

    def tried(self) -> List[bool]:
        """Whether each edit is tried by a run, in which all are refused."""
        status, lines = self.run_edits()
        self.assertEqual((status, lines[-1]), (0, f"{len(lines) - 1} passed, 0 failed"))
        return ["earlier run" not in line for line in sorted(lines[:-1])]

    def test_kept(self) -> None:
        """An edit that was refused is not tried again until a file that its check reads is another one, or itself."""
        folder = self.kept()
        self.edits(a=EDIT.format("one", "bad"), b=EDIT.format("two", "open"))
        self.assertEqual(self.tried(), [True, True])
        self.assertEqual(self.tried(), [False, False])
        self.edits(b=EDIT.format("two", "bad"))
        self.assertEqual(self.tried(), [False, True])
        self.write({"crates/low/specs/More.antt": "-- more\n"})
        self.assertEqual(self.tried(), [True, True])
        os.chmod(os.path.join(folder, "facl-refused"), 0o777)
        self.assertEqual(self.tried(), [True, True])

    def test_not_refused_is_not_kept(self) -> None:
        self.kept()
        self.edits(it=EDIT.format("one", "same"))
        self.assertEqual(self.run_edits()[0], 1)
        self.assertEqual(self.run_edits()[0], 1)


LINT = "#!/bin/sh\necho \"linted $*\"\nexit ${LINT:-0}\n"
TEST = "[ -e ended ] && echo after >tested || echo beside >tested\n"
STAGE = "#!/bin/sh\necho \"$(basename \"$0\") $1 begins\"\necho \"${NUMBERS:-2 passed, 0 failed}\"\n"
RT_CI = """#!/bin/sh
rm -f ended
echo "lanes ${RT_JOBS:-none}"
echo 'rt: low proved'
[ -n "${BREAKS:-}" ] || printf 'rt: %s %s\n' facl_cli "${VERDICT:-proved}" facl_linux_cli "${VERDICT:-proved}"
sleep 1
touch ended
[ -z "${BREAKS:-}" ] || { echo '1 passed, 3 failed'; exit 1; }
echo '10 passed, 0 failed'
"""


class Stages(Case):
    def setUp(self) -> None:
        super().setUp()
        self.copy(".ci/run", "tools/gate.py", "tools/ways.py",
                  *(f"tools/lib/{name}.py" for name in ("__init__", "kit", "lanes", "memory_watch", "processes", "script")))
        checks = LINT.replace("exit", "[ \"$1\" = --lint ] && exit") + TEST + STAGE
        self.write({"crates.txt": "low:\nfacl_cli: low\nfacl_linux_cli: low\n"})
        self.write({"tools/edits.py": STAGE, "tools/check_commands.sh": checks, "bin/rt": RT_CI}, 0o755)

    def run_gate(self, **environment: str) -> Tuple[int, List[str], str]:
        """As `run_script`, without the table of ways: a line of heads, and one for each crate."""
        status, lines, messages = self.run_script(".ci/run", **environment)
        return status, lines[4:], messages

    def test_all_pass(self) -> None:
        status, lines, messages = self.run_gate(RT_JOBS="3")
        self.assertEqual((status, lines), (0, [
            "linted --lint", "lanes 3", "rt: low proved", "rt: facl_cli proved", "rt: facl_linux_cli proved", "10 passed, 0 failed",
            "edits.py --jobs begins", "2 passed, 0 failed", "linted --no-lint crates/facl_cli/out/facl_cli",
            "check_commands.sh --no-lint begins", "2 passed, 0 failed", "14 passed, 0 failed"]))
        self.assertEqual(messages.splitlines(), [
            "tools/gate.py: RT_JOBS is 3 already",
            "tools/gate.py: checks waited for memory 0 times; the most that checks of a crate held: nothing"])

    def test_the_program_is_kept(self) -> None:
        """The commands are tested beside an `rt ci` that says so: it ends after the commands' tests."""
        for verdict in ("proved", "is kept: an earlier run proved the same files", "NOT PROVED"):
            self.run_gate(VERDICT=verdict)
            with open(os.path.join(self.top, "tested"), encoding="utf-8") as tested:
                self.assertEqual(tested.read(), "after\n" if verdict == "NOT PROVED" else "beside\n", verdict)

    def test_lanes_are_said(self) -> None:
        number, environment = lanes.lanes(lanes.room()), {"RT_JOBS": ""}
        _, lines, messages = self.run_gate(**environment)
        self.assertIn(f"lanes {number if number > 1 else 'none'}", lines)
        self.assertIn("GB of free memory", messages)

    def test_a_linter_ends_it(self) -> None:
        self.assertEqual(self.run_gate(LINT="1"), (1, ["linted --lint", "0 passed, 1 failed"], ""))

    def test_rt_ci_fails(self) -> None:
        status, lines, _ = self.run_gate(BREAKS="1", NUMBERS="0 passed, 1 failed")
        self.assertEqual((status, lines[-1]), (1, "1 passed, 5 failed"))

    def test_a_stage_without_numbers(self) -> None:
        status, lines, _ = self.run_gate(NUMBERS="broken")
        self.assertEqual((status, lines[-1]), (1, "10 passed, 2 failed"))


if __name__ == "__main__":
    unittest.main()
