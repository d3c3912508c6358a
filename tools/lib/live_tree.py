"""What the checks of the live side share: users, random trees and plans on a real file system, mounts, files by their
descriptors, commands under strace or ended early, other users at work; and how such a check runs, with its options."""
from __future__ import annotations

import argparse
import contextlib
import ctypes
import glob
import os
import random
import re
import shutil
import signal
import stat
import subprocess
import sys
import tempfile
import textwrap
import time
import traceback
from collections import Counter
from typing import Callable, Dict, Iterator, List, NamedTuple, Optional, Sequence, Tuple, Type, Union

from . import script
from .session import conclude, options_of

COMMANDS = os.fsencode(os.path.join(script.TOP, "commands"))
USERS = {b"ines": (70001, 70100), b"ben": (70002, 70100), b"mara": (70003, 70200), b"guest": (70009, 70300)}
GROUPS = {b"staff": (70100, b""), b"design": (70200, b"ines"), b"guests": (70300, b""), b"audit": (70400, b"ben,mara")}
UIDS = [uid for uid, _ in USERS.values()]
GIDS = [gid for gid, _ in GROUPS.values()]
MALLORY = UIDS[0]  # The user who meddles.
NAMES = [b"a", b"b c", b"-d", b"e\nf", b"g\\h", b"i\\012j", b"k'l", b'm"n', b"o\xe9p", b" q", b"r ", b"# file: s",
         b"t\ru", b"*", b"$v", b"w\tx", b"y,z"]
# One that each user can run.
PYTHON = b"/usr/bin/python3" if os.path.exists("/usr/bin/python3") else os.fsencode(sys.executable)
CHANGING = ["setxattr", "removexattr", "chmod", "fchmodat", "chown", "lchown", "fchownat"]
LIBRARY = ctypes.CDLL(None, use_errno=True)
HERE, EXCHANGE = -100, 2
UNDO = b"--undo"
Done = subprocess.CompletedProcess[bytes]
State = Tuple[object, ...]
Table = Dict[str, Tuple[int, int]]  # Owners and modes of files, and of directories, whose names end in a slash.
Name = Union[str, bytes]

# --- users and commands


def become(user: int) -> None:
    """Makes this process one of a user without rights, of USERS or with a group of its own number."""
    if user:
        name, gid = next(((name, ids[1]) for name, ids in USERS.items() if ids[0] == user), (b"", user))
        os.setgroups([number for number, members in GROUPS.values() if name in members.split(b",")])
        os.setresgid(gid, gid, gid)
        os.setresuid(user, user, user)


def run(words: Sequence[bytes], text: bytes = b"", user: int = 0, variables: Optional[Dict[str, str]] = None,
        folder: Optional[bytes] = None) -> Done:
    return subprocess.run(words, input=text, capture_output=True, env={**os.environ, **(variables or {})}, check=False,
                          cwd=folder, preexec_fn=lambda: become(user))


def must(done: Done, *statuses: int, said: bytes = b"") -> bytes:
    """The output of a run, which has to have ended with one of these statuses and a message."""
    expect(done.returncode in statuses and said in done.stderr, f"not {statuses}, {said!r}: {done}")
    return done.stdout


def expect(is_so: bool, fault: str) -> None:
    if not is_so:
        raise script.Failed(fault)


def child(user: int, what: Callable[[], object]) -> int:
    """Starts a process of a user, and returns its id."""
    number = os.fork()
    if number == 0:
        try:
            become(user)
            what()
            os._exit(0)
        finally:
            traceback.print_exc()
            os._exit(1)
    return number


def exchange(one: bytes, other: bytes) -> bool:
    """Has two names change places; whether they did."""
    return bool(LIBRARY.renameat2(HERE, one, HERE, other, EXCHANGE) == 0)


# --- files


def make(name: bytes, mode: int = 0o644, owner: int = 0, group: int = 0, text: bytes = b"") -> bytes:
    """A file, or a directory where the name ends in a slash; its name."""
    if name.endswith(b"/"):
        os.mkdir(name)
    else:
        with open(name, "wb") as file:
            file.write(text)
    if owner or group:
        os.chown(name, owner, group)
    os.chmod(name, mode)
    return name.rstrip(b"/")


def make_tree(top: bytes, files: Table, links: Optional[Dict[str, str]] = None) -> None:
    """A tree in the place of what was there; links, of MALLORY, lead to names in it."""
    remove(top)
    for name, (owner, mode) in {"": (0, 0o755), **files}.items():
        make(os.path.join(top, name.encode()), mode, owner, GIDS[0], b"of " + name.encode())
    for name, target in (links or {}).items():
        os.symlink(os.path.join(top, target.encode()), os.path.join(top, name.encode()))
        os.lchown(os.path.join(top, name.encode()), MALLORY, GIDS[0])


def copy(folder: bytes, target: bytes) -> None:
    """Copies a folder with all that is in it, as it is."""
    must(run([b"cp", b"-a", b"-T", b"--", folder, target]), 0)


def compiled_commands(folder: bytes) -> bytes:
    """Makes a folder with the commands and their compiled modules, as an installation has them: else each start compiles
    them again, which is half of its time. Returns the folder."""
    copy(COMMANDS, folder)
    must(run([PYTHON, b"-m", b"compileall", b"-q", os.path.join(folder, b"facl_commands")]), 0)
    return folder


def remove(name: bytes) -> None:
    """Removes what is there, of any kind and depth."""
    must(run([b"rm", b"-rf", b"--", name]), 0)


@contextlib.contextmanager
def mounted(place: bytes, *words: bytes) -> Iterator[None]:
    """A file system at a place, which is made where it is not there."""
    if not os.path.lexists(place):
        os.mkdir(place)
    must(run([b"mount", *words, place]), 0)
    try:
        yield
    finally:
        must(run([b"umount", b"-l", place]), 0)


def state_of(name: bytes, follow: bool = True) -> State:
    """Owner, group, mode, lists and other attributes, and the bytes of a plain file."""
    look = os.stat(name, follow_symlinks=follow)
    lists = [(it, os.getxattr(name, it, follow_symlinks=follow)) for it in os.listxattr(name, follow_symlinks=follow)]
    content = b""
    if stat.S_ISREG(look.st_mode):
        with open(name, "rb") as file:
            content = file.read()
    return look.st_uid, look.st_gid, look.st_mode, sorted(lists), content


def held(names: Sequence[bytes]) -> Dict[bytes, int]:
    """Files that are held open, whatever becomes of their names."""
    return {name: os.open(name, os.O_PATH | os.O_NOFOLLOW | os.O_CLOEXEC) for name in names}


def states_of(files: Dict[bytes, int]) -> Dict[bytes, State]:
    return {name: state_of(b"/proc/self/fd/%d" % descriptor) for name, descriptor in files.items()}


# --- trees and records


def word(path: bytes) -> bytes:
    """A word of a script."""
    return b"'" + b"".join(bytes([it]) if 32 < it < 127 and it not in b"'\\" else b"\\%03o" % it for it in path) + b"'"


def records_of(text: bytes) -> Dict[bytes, List[bytes]]:
    """The records of a listing by name: their lines, sorted, without effective permissions."""
    found = {}
    for one in text.split(b"\n\n"):
        if one.startswith(b"# file: "):
            first, *lines = one.split(b"\n")
            name = re.sub(rb"\\(\d\d\d|\\)", lambda it: b"\\" if it[1] == b"\\" else bytes([int(it[1], 8)]), first[8:])
            found[b"/" + name.strip(b"/")] = sorted(line.split(b"\t")[0] for line in lines)
    return found


class Tree:
    """A random tree, with a chance of its own."""

    first = b""  # Its listing when it was planned.

    def __init__(self, work: bytes, seed: int, more: int = 0) -> None:
        self.chance = random.Random(seed)
        self.top = os.path.join(work, b"tree " + b"\xe9" * self.chance.randrange(2))
        self.folders = [self.top]
        self.files: List[bytes] = []
        for left in glob.glob(os.path.join(work, b"tree *")):
            remove(left)
        os.mkdir(self.top)
        self.look(self.top)
        for _ in range(self.chance.randrange(4, 14) + more):
            self.add()

    @classmethod
    def of(cls, top: bytes, names: Sequence[bytes] = ()) -> Tree:
        """A folder with some plain files."""
        tree = cls.__new__(cls)
        tree.chance, tree.top, tree.folders = random.Random(0), top, [top]
        tree.files = [make(os.path.join(top, name)) for name in names]
        return tree

    def add(self) -> None:
        place = os.path.join(self.chance.choice(self.folders), self.chance.choice(NAMES))
        kind = self.chance.random()
        if os.path.lexists(place):
            return
        if 0.45 <= kind < 0.5:
            os.symlink(b"nowhere", place)
            return
        if kind < 0.3:
            os.mkdir(place)
        elif kind < 0.45 and self.files:
            os.link(self.chance.choice(self.files), place)
        else:
            make(place)
        (self.folders if kind < 0.3 else self.files).append(place)
        self.look(place)

    def all(self) -> List[bytes]:
        return self.folders + self.files

    def permissions(self) -> bytes:
        return self.chance.choice([b"rwx", b"r-x", b"r--", b"rw-", b"--x", b"---", b"-w-"])

    def named(self) -> bytes:
        return b"u:%d" % self.chance.choice(UIDS) if self.chance.random() < 0.6 else b"g:%d" % self.chance.choice(GIDS)

    def entries(self) -> bytes:
        """One to three entries to be modified, each of another key."""
        keys = {self.named() if self.chance.random() < 0.7 else self.chance.choice([b"u:", b"g:", b"o:", b"m:"])
                for _ in range(self.chance.randrange(1, 4))}
        return b",".join(key + b":" + self.permissions() for key in sorted(keys))

    def look(self, place: bytes) -> None:
        """Gives a new file a random look."""
        is_folder = os.path.isdir(place)
        os.chown(place, self.chance.choice(UIDS), self.chance.choice(GIDS))
        modes = [0o755, 0o750, 0o711, 0o777] if is_folder else [0o644, 0o640, 0o600, 0o755, 0o604, 0]
        os.chmod(place, self.chance.choice(modes) | self.chance.choice([0, 0, 0, 0o1000, 0o2000, 0o4000, 0o6000]))
        if self.chance.random() < 0.5:
            must(run([b"setfacl", b"-m", self.entries(), b"--", place]), 0)
        if is_folder and self.chance.random() < 0.4:
            must(run([b"setfacl", b"-d", b"-m", self.entries(), b"--", place]), 0)
        if self.chance.random() < 0.2:
            os.chmod(place, os.stat(place).st_mode & 0o7777 & ~self.chance.choice([0o030, 0o070, 0o020]))

    def whole_list(self) -> bytes:
        any_of_them = self.permissions
        more = b",%s:%s,m::%s" % (self.named(), any_of_them(), any_of_them()) if self.chance.random() < 0.5 else b""
        return b"u::%s,g::%s,o::%s" % (any_of_them(), any_of_them(), any_of_them()) + more

    def record(self, place: bytes) -> bytes:
        """A text for --restore; often of a list that grants nothing, with other flags."""
        nothing = b"u::---,g::---,o::---" + self.chance.choice([b"", b",u:70002:---,m::---"])
        entries = self.whole_list() if self.chance.random() >= 0.5 else nothing
        ids = self.chance.choice(UIDS), self.chance.choice(GIDS)
        flags = self.chance.choice([b"s--", b"-s-", b"--t", b"sst", b"---"])
        name = b"".join(b"\\%03o" % it if it in b"\\\n\r" else bytes([it]) for it in place)
        head = b"# file: %s\n# owner: %d\n# group: %d\n# flags: %s\n" % (name, *ids, flags)
        return b"setfacl --restore=-\n" + head + entries.replace(b",", b"\n") + b"\n.\n"

    def line(self) -> bytes:
        place = self.chance.choice(self.all())
        folder = self.chance.choice(self.folders)
        both = b" ".join(map(word, {place, self.chance.choice(self.all())}))
        modes = [0o750, 0o640, 0o2770, 0o4711, 0o604, 0o1777]
        lines: List[Callable[[], bytes]] = [
            lambda: b"setfacl -m %s %s" % (self.entries(), both),
            lambda: b"setfacl -m %s %s" % (self.entries(), word(place)),
            lambda: b"setfacl -d -m %s %s" % (self.entries(), word(folder)),
            lambda: b"setfacl -x %s %s" % (self.named(), both),
            lambda: b"setfacl -n -m %s %s" % (self.entries(), word(place)),
            lambda: b"setfacl -R -m %s:rX,d:%s:rwX %s" % (self.named(), self.named(), word(folder)),
            lambda: b"setfacl --set %s %s" % (self.whole_list(), both),
            lambda: b"setfacl -b %s" % both,
            lambda: b"setfacl -k %s" % word(folder),
            lambda: b"chmod %s%o %s" % (b"-R " * (self.chance.random() < 0.3), self.chance.choice(modes), both),
            lambda: b"chacl -B %s" % word(place),
            lambda: b"who r %s" % word(place),
            lambda: self.record(place).rstrip(),
        ]
        return self.chance.choice(lines)() + b"\n"

    def listing(self) -> bytes:
        """All of it, with the kinds and modes too; nothing where it is gone."""
        names = sorted(os.path.join(place, name) for place, _, files in os.walk(self.top) for name in [b"", *files])
        listed = [it for it in names if not os.path.islink(it)]
        printed = must(run([b"getfacl", b"-n", b"-p", b"--", *listed]), 0) if listed else b""
        return printed + b"".join(b"%o %s\n" % (os.lstat(it).st_mode, it) for it in names)


# --- commands under strace


class Call(NamedTuple):
    """The Nth time of a call of the system."""

    name: str
    number: int


class Traced(NamedTuple):
    status: int
    said: bytes  # Of both streams.
    lines: List[bytes]  # What strace wrote.

    def calls(self, start: bytes = b"") -> List[Tuple[Call, bytes]]:
        """The calls, each with its line; with a text those from its first line on."""
        found: List[Tuple[Call, bytes]] = []
        counts: Counter[str] = Counter()
        for line in self.lines:
            match = re.match(rb"[0-9]+ +([a-z0-9]+)[(]", line)
            if match is not None:
                name = match[1].decode()
                counts[name] += 1
                if found or start in line:
                    found.append((Call(name, counts[name]), line))
        return found


def become_alone(user: int) -> None:
    """Makes this process one of a user, and the first of a process group."""
    os.setpgid(0, 0)
    become(user)


@contextlib.contextmanager
def ended_at_faults(group: int) -> Iterator[None]:
    """Ends a process group where the check fails, or a signal ends it: it would wait for ever for one that is stopped."""
    try:
        yield
    except BaseException:
        os.killpg(group, signal.SIGKILL)
        raise


def trace(check: Check, words: List[bytes], names: List[str], injected: List[str],
          action: Optional[Callable[[int], None]] = None, user: int = 0) -> Traced:
    """Runs a command under strace. Where a fault that is injected is the signal STOP, the action is called with how
    often that was so far, and the command goes on after it."""
    reader, writer = os.pipe()
    os.fchown(writer, user, -1)
    options = ["strace", "-f", "-qq", "-o", f"/dev/fd/{writer}", "-e", "trace=" + ",".join(names)]
    options += [part for text in injected for part in ("-e", "inject=" + text)]
    lines = []
    stops = 0
    with tempfile.TemporaryFile() as said, open(reader, "rb") as trace_of:
        with subprocess.Popen([*map(os.fsencode, options), *words], stdin=subprocess.DEVNULL, stdout=said, stderr=said,
                              pass_fds=[writer], env={**os.environ, **check.variables()},
                              preexec_fn=lambda: become_alone(user)) as traced:
            os.close(writer)
            with ended_at_faults(traced.pid):
                for line in trace_of:
                    lines.append(line)
                    if b"--- stopped by SIGSTOP ---" in line:
                        assert action is not None
                        action(stops)
                        stops += 1
                        os.kill(int(line.split()[0]), signal.SIGCONT)
        said.seek(0)
        return Traced(traced.returncode, said.read(), lines)


# --- a check


class Check:
    """A check: each part is a method check_PART, which is called with a seed for each try."""

    tools = ["getfacl", "setfacl", "strace"]
    parts: Dict[str, int] = {}  # How often each is tried.

    def __init__(self, given: argparse.Namespace, work: bytes) -> None:
        self.given, self.program, self.work = given, os.fsencode(given.program), work
        self.counts: Counter[str] = Counter()
        self.plan = self.name("before.plan")
        self.commands = compiled_commands(self.name("commands"))
        self.bin = make(self.name("bin/"), 0o755)
        users, groups = {b"root": (0, 0), **USERS}, {b"root": (0, b""), **GROUPS}
        rows = [b"%s:x:%d:%d::/:/bin/sh\n" % (name, *ids) for name, ids in users.items()]
        self.people = make(self.name("people/"), 0o755)  # Who is there for facl-snapshot.
        make(self.name("people/passwd"), text=b"".join(rows))
        make(self.name("people/group"), text=b"".join(b"%s:x:%d:%s\n" % (name, *row) for name, row in groups.items()))

    def begin(self) -> None:
        """Before each try."""

    def count(self, what: str, number: int = 1) -> None:
        self.counts[what] += number

    def name(self, name: Name) -> bytes:
        """The path of a name in the work folder."""
        return os.path.join(self.work, os.fsencode(name))

    def read(self, name: Name) -> bytes:
        with open(self.name(name), "rb") as file:
            return file.read()

    def variables(self) -> Dict[str, str]:
        return {"PATH": os.fsdecode(self.bin) + ":" + os.environ["PATH"], **dict.fromkeys(("FACL", "FACL_LINUX"), self.given.program)}

    def words(self, name: bytes, *words: bytes) -> List[bytes]:
        """The words that start a command."""
        start = [os.fsencode(script.WITH_PEOPLE), self.people] if name == b"facl-snapshot" else []
        return [*start, PYTHON, b"-I", os.path.join(self.commands, name), *words]

    def command(self, name: bytes, *words: bytes, user: int = 0) -> Done:
        """Runs a command, as a user where one is given."""
        return run(self.words(name, *words), user=user, variables=self.variables())

    def apply(self, *words: bytes, user: int = 0) -> Done:
        return self.command(b"facl-apply", *words, self.plan, user=user)

    def in_session(self, words: List[bytes], before: Callable[[], None], meanwhile: Callable[[int], None]) -> Done:
        """A run in a session of its own, which calls a function before it begins; another one is called with its number.
        It is over when no process of it is left."""
        pipe = subprocess.PIPE
        with subprocess.Popen(words, stdin=subprocess.DEVNULL, stdout=pipe, stderr=pipe, start_new_session=True,
                              env={**os.environ, **self.variables()}, preexec_fn=before) as running:
            meanwhile(running.pid)
            out, said = running.communicate()
        with contextlib.suppress(ProcessLookupError):
            while True:
                os.killpg(running.pid, 0)
                time.sleep(0.01)
        return Done(words, running.returncode, out, said)

    def ended_by(self, words: List[bytes], number: int, wait: Callable[[], None], to_all: bool = False,
                 ignored: int = 0) -> Done:
        """A run that gets a signal after a wait, or with it all that it runs."""

        def before() -> None:
            for each in (signal.SIGHUP, signal.SIGINT, signal.SIGQUIT):  # Ignored in the background.
                signal.signal(each, signal.SIG_IGN if each == ignored else signal.SIG_DFL)

        def end(process: int) -> None:
            wait()
            with contextlib.suppress(ProcessLookupError):
                (os.killpg if to_all else os.kill)(process, number)

        return self.in_session(words, before, end)

    def forget(self) -> None:
        """Makes the plan one that was never applied."""
        for name in (b"state", b"journal"):
            with contextlib.suppress(FileNotFoundError):
                os.unlink(os.path.join(self.plan, name))

    def expect_back(self, tree: Tree, when: str = "") -> None:
        """The next attempt starts from the first tree and a plan that was not applied."""
        expect(tree.listing() == tree.first, "not as before" + when)
        self.forget()

    def do(self, tree: Tree, *options: bytes) -> None:
        """Applies the plan."""
        must(self.apply(*options), 0)
        self.check_tree(tree, self.expected(), f"applied, {options}")

    def undo(self, tree: Tree, *statuses: int, user: int = 0) -> None:
        must(self.apply(UNDO, user=user), *(statuses or [0]))
        self.expect_back(tree)

    def remove_plans(self) -> None:
        for left in glob.glob(self.name("before.plan*")):
            remove(left)

    def planned(self, tree: Tree, text: bytes) -> bool:
        """Keeps the tree's listing, and plans."""
        tree.first = tree.listing()
        return self.has_plan(tree.top, text)

    def has_plan(self, top: bytes, text: bytes) -> bool:
        """Takes a snapshot, which facl-plan loads, and makes a plan; whether there is something to restore."""
        self.remove_plans()
        must(self.command(b"facl-snapshot", b"--program", b"true", self.name("before"), top), 0)
        make(self.name("edits"), text=text)
        done = self.command(b"facl-plan", b"--keep-going", self.name("before"), self.name("edits"))
        must(done, 0, 1, 3)
        self.count(f"plans, status {done.returncode} of facl-plan")
        return os.path.exists(self.name("before.plan/new")) and self.read("before.plan/new") != b""

    def expected(self) -> Dict[bytes, List[bytes]]:
        """The records of the snapshot with the planned ones in their places."""
        return {**records_of(self.read("before/dump")), **records_of(self.read("before.plan/new"))}

    def check_tree(self, tree: Tree, wanted: Dict[bytes, List[bytes]], when: str) -> None:
        for name, lines in records_of(tree.listing()).items():
            expect(wanted.get(name) == lines, f"{when}: {name!r} is {lines!r} and not {wanted.get(name)!r}")


# --- how it runs


def given_of(kind: Type[Check], head: Optional[str]) -> argparse.Namespace:
    """The options; where parts have one, the other parts are left out."""
    text = f"{head}\nIts parts, with the usual number of tries:\n"
    for part, usual in kind.parts.items():
        told = " ".join(f"{part} ({usual}): {getattr(kind, 'check_' + part).__doc__}".split())
        text += "\n" + textwrap.fill(told, 100, subsequent_indent="    ")
    options = options_of(text, seed=1, **dict.fromkeys(kind.parts))
    options.add_argument("--folder", default="/tmp", help="where the files are made (/tmp)")
    given = options.parse_args()
    given.tries = {part: vars(given)[part] for part in kind.parts if vars(given)[part]} or kind.parts
    return given


def faults_of(check: Check) -> Iterator[str]:
    """Tries all parts; each minute it prints how far it is."""
    for part, number in check.given.tries.items():
        started = said = time.monotonic()
        for seed in range(check.given.seed * 100000, check.given.seed * 100000 + number):
            try:
                check.begin()
                getattr(check, "check_" + part)(seed)
            except Exception as fault:  # Of the check itself too, which goes on.
                found = f"{part}, seed {seed}: {type(fault).__name__}: {fault}"
                edits = check.read("edits") if os.path.exists(check.name("edits")) else b""
                print(f"{found}\n{edits.decode(errors='backslashreplace')}", flush=True)
                yield found
            check.count(f"tries of {part}")
            if time.monotonic() - said > 60:
                said = time.monotonic()
                print(f"{said - started:7.1f} seconds: {check.counts['tries of ' + part]} of {number} tries of {part}", flush=True)
        print(f"{time.monotonic() - started:7.1f} seconds of {part}", flush=True)


def run_parts(kind: Type[Check], head: Optional[str]) -> int:
    """Runs a check, and returns its exit status; where a signal ends it, what was counted so far is printed."""
    given = given_of(kind, head)
    missing = [tool for tool in kind.tools if shutil.which(tool) is None]
    if missing or os.geteuid():
        script.say(f"{missing[0]} is not installed" if missing else "run it as root")
        return 2
    work = os.fsencode(os.path.realpath(tempfile.mkdtemp(prefix="facl-live.", dir=given.folder)))
    counts: Counter[str] = Counter()
    try:
        os.chmod(work, 0o755)
        check = kind(given, work)
        counts = check.counts
        faults = list(faults_of(check))
    finally:
        remove(work)
        print("\n".join(f"{number:7,d} {name}" for name, number in sorted(counts.items())))
    amount = ", ".join(part if number == 1 else f"{part} {number:,}" for part, number in given.tries.items())
    return conclude(given, amount, [f"{len(faults)} faults, first: {faults[0]:.300}"] if faults else [])
