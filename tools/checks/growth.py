"""Refuses each growth of the program's memory in turn, and looks for growths in its machine code where none are to be.

usage: tools/check.py growth PROGRAM [--quick | --code] [--record]

Growth 1, 2, .. is refused (refuse_growth.c) until a run meets no refusal. A run in whose setup or line buffer memory
ran out prints the units before in full, then `facl: no memory`, and ends with 2. These are all units that meet fewer
growths than were let through, when the script ends after them. Any other run has one message `line N:
facl: no memory` at most; all else is as if the lines of that unit were empty, or, where there is none (a growth that
the program can do without), as in the run that meets no refusal. With all growths after it refused too, a run prints
some units in full; each unit after them has that message, for which nothing is allocated; and it may end with 2 and
`facl: no memory`.

A list of up to eight entries takes no memory of its own: a line that makes a list of eight meets as many growths as one
that makes a list of five, and one that makes a list of nine meets more.

With --quick, which the gate runs, that is all, and growths are refused in one of the five sessions, one at a time: less
than a minute. Otherwise, or alone with --code, two things are looked at in the machine code, where a call through a pointer is a growth:
- calls that are documented as taking no memory (docs/PROOFS.md), or functions in which they are done, each of which has
  to be a function of its own in the program: no call from one of them leads to the system's allocator, on any way;
- the answer of a line from where the prepared state is taken out to be put in place (`Staged::into_parts`): on no way
  from there to its end is the allocator called, so neither the state and its index, nor what `changes` compares with,
  nor the output is put in place with memory.

It needs the kit, whose compiler makes the library of refuse_growth.c, and without --quick objdump of binutils. The exit
status is 1 if one of these is not there, an answer is none that may be, a growth is found, or the program lacks one of
these functions, 2 if the words are others.
"""
from __future__ import annotations

import collections
import os
import re
import shutil
import subprocess
import tempfile
from typing import Dict, Iterable, Iterator, List, NamedTuple, Optional, Set, Tuple

from lib.kit import Kit
from lib.random_lines import FLAGS, LOADERS, TEXT_WORDS, Unit, numbers_of, script_of
from lib.script import Failed
from lib.session import TEXTS, conclude, options_of, words_of, write_text
from lib.texts import ROOT_AND_FILE, dump_of

HERE = os.path.dirname(os.path.realpath(__file__))
PASSWD = b"""lisa:x:1001:50:Lisa:/home/lisa:/bin/sh
joe:x:1000:100:Joe:/home/joe:/bin/sh
ann:x:1002:100:Ann:/home/ann:/bin/sh
"""
GROUP = b"staff:x:50:\nusers:x:100:\ncool:x:60:lisa\nadm:x:70:\n"
# The list of `log` has nine entries, one more than a list holds without memory of its own.
DUMP = ROOT_AND_FILE + b"\n" + dump_of(
    "log|lisa|adm||user::rw- user:lisa:r-- user:joe:r-- user:ann:rw- group::r-- group:cool:r-- group:adm:r-- "
    "mask::rw- other::---",
    "pub/|ann|users||user::rwx user:joe:rwx group::r-x group:adm:rwx mask::rwx other::r-x default:user::rwx "
    "default:user:joe:r-x default:group::r-x default:mask::r-x default:other::---")
# Files whose lists are short.
SHORT_DUMP = ROOT_AND_FILE + b"\n" + dump_of(
    "run|lisa|staff||user::rwx group::r-x other::r-x",
    "pub/|ann|users||user::rwx group::r-x group:adm:rwx mask::rwx other::r-x",
    "log|lisa|adm||user::rw- group::r-- other::---")
QUESTIONS = """getfacl -R .
can joe f
# a comment
chmod 4750 f pub
getfacl -e -n pub f
chmod -R 640 .
can 'lisa' pub
chmod 660 log
getfacl -c nosuch
getfacl a/../b
frob -\na text\n.
load dump\na text\n.
can nobody f
chmod 9 f
getfacl -s -a -E -R ."""
# Each tool that changes files or users, and then what they leave.
CHANGES = """setfacl -R -m u:joe:rX,g:cool:rw .
creat -d --user=ann --mode=0750 pub/s
setfacl -m d:u:joe:rwx pub/s
gpasswd -a joe adm
chmod -R 750 pub
chacl -b u::rwx,g::r-x,o::- u::rwx,g::r-x,o::- pub
setfacl --restore=-\n# file: f\n# owner: ann\nuser::rw-\ngroup::r--\nother::---\n.
usermod -g cool joe
setfacl -x u:joe f log
rm -r pub
useradd -u 7 -g adm kim
userdel ann
getfacl -R .
index\nchanges\nchanges --reach\ngains\ngains --reach\nbelow r ."""
# The tools that these leave out.
SET = "setattr system.posix_acl_access=0x02000000"
ATTRIBUTES = f"""attr f
{SET}01000600ffffffff02000700e803000004000400ffffffff10000700ffffffff20000000ffffffff f
attr f
setattr system.posix_acl_access=0x020000 f
chacl -l f pub
chacl u::rw-,u:joe:r,g::r--,o::- f
chacl -R f
gpasswd -d joe adm"""
# Each option of each tool once, and each question.
EVERY = "".join(f"getfacl {names[0]} pub\n" for names in FLAGS["getfacl"]) + """getfacl -a -c -e -n -s -R .
getfacl -E f pub
setfacl -m u:joe:rw f
setfacl -M - f\ng:adm:r\nu:ann:r\n.
setfacl -x g:adm f
setfacl -X - f\nu:joe\n.
setfacl --set u::rw-,u:joe:r,g::r,m::r,o::- f
setfacl --set-file=- f\nu::rw-\ng::r--\no::---\n.
setfacl -d -m u:joe:rx,d:g:adm:r pub
setfacl -k pub
setfacl -n -m u:ann:r log
setfacl --mask -m u:joe:r,m::r log
setfacl -b log
setfacl -R --test -m u:joe:rX,d:u:ann:r .
setfacl --restore=- --test\n# file: f\nuser::rwx\ngroup::r-x\nother::---\n.
setfacl --restore=-\n# file: f\n# owner: ann\n# flags: s--\nuser::rwx\ngroup::r-x\nother::---\n.
chacl u::rw-,u:joe:r,g::r--,m::r,o::--- f
chacl -r -d u::rwx,u:joe:r,g::r-x,m::rx,o::--- pub
chacl -b u::rwx,g::r-x,o::--- u::rwx,g::r-x,o::--- pub
chacl -D pub\nchacl -R f\nchacl -B pub\nchacl -r -l .
chmod -R 4750 pub run
creat -d --user=ann --mode=750 --umask=027 pub/s
creat --user=joe --mode=640 pub/s/n
rm pub/s/n\nrm -r pub/s
attr f
setattr system.posix_acl_default=0x0200000001000700ffffffff04000500ffffffff20000000ffffffff pub
gpasswd -a joe adm\ngpasswd -d joe adm
usermod -g cool joe
useradd -u 7 -g adm kim\nuserdel kim
can joe run
can --reach joe run
who rx run
who --reach 0 run
may joe rx
may --reach ann 0
below r .
below --reach rx pub f run
below --plain r pub .
below --directories --reach 0 .
below --reach --user joe --list 2 r .
below --reach --user joe --depth 1 r .
below --plain --depth 2 r . f
why joe pub run
why --reach joe pub run
chmod 700 .
may --reach lisa x
who --reach r run
below --reach 0 .
who w nosuch\nmay nosuch w\nbelow w f nosuch\nwhy nosuch f
why --reach joe f nosuch
index\nchanges\nchanges --reach\ngains\ngains --reach"""
LOADS = f"load passwd\n{PASSWD.decode()}.\nload group\n{GROUP.decode()}.\nload dump\n{DUMP.decode()}.\n"
SESSIONS = [
    ("texts as files", DUMP, QUESTIONS),
    ("texts by load", None, LOADS + QUESTIONS),
    ("changes", SHORT_DUMP, CHANGES),
    ("attributes and lists", SHORT_DUMP, ATTRIBUTES),
    ("each tool and option", SHORT_DUMP, EVERY),
]
# The session of --quick.
QUICK = "changes"
# Entries of a list of four, and those that make it longer.
FOUR = "user::rw- group::r-- mask::rw- other::---"
MORE = ["user:ann:r--", "user:lisa:r--", "group:staff:r--", "group:cool:r--"]
OUT_OF_MEMORY = b"facl: no memory\n"
Units = List[Unit]


class Run(NamedTuple):
    """What a run writes, its status, and whether a growth was refused."""

    out: bytes
    err: bytes
    status: int
    was_refused: bool


def units_of(text: str) -> Units:
    """The units of a script: a line that takes a text has the lines up to `.`"""
    units, lines = [], iter(text.encode().split(b"\n"))
    for line in lines:
        words = line.decode().split()
        takes = words[0] in LOADERS or TEXT_WORDS & set(words[1:])
        units.append(Unit(line, list(iter(lines.__next__, b".")) if takes else None))
    return units


class Program:
    """The program, with a library loaded before it that refuses growths, on a session's texts."""

    def __init__(self, words: List[str], library: str, name: str, units: Units) -> None:
        self.words, self.library, self.name, self.units = words, library, name, units
        self.first_lines = numbers_of(units)
        self.whole = self.run(units)
        self.before = [self.run(units[:count]) for count in range(len(units) + 1)]
        self.met = [self.growths(units[:count]) for count in range(len(units) + 1)]

    def growths(self, units: Units) -> int:
        """How many growths a run meets."""
        least, most = 0, 1
        while self.run(units, most).was_refused:
            least, most = most, 2 * most
        while most - least > 1:
            middle = (least + most) // 2
            least, most = (middle, most) if self.run(units, middle).was_refused else (least, middle)
        return least

    def run(self, units: Units, refuse: int = 0, goes_on: bool = False) -> Run:
        reported, report = os.pipe()
        environment = {"LD_PRELOAD": self.library, "REFUSE": str(refuse), "REPORT": str(report)}
        if goes_on:
            environment["REFUSE_ON"] = "1"
        done = subprocess.run(
            self.words, input=script_of(units), capture_output=True, env=environment, pass_fds=[report], check=False)
        os.close(report)
        with open(reported, "rb") as reports:
            return Run(done.stdout, done.stderr, done.returncode, bool(reports.read()))

    def kind_of(self, result: Run, growth: int) -> str:
        """What kind of run this is where one growth was refused; raises where it is none that may be."""
        out, err, status, _ = result
        if result[:3] == self.whole[:3]:
            return "as without"
        if err.endswith(OUT_OF_MEMORY) and status == 2:
            due = max((count for count, met in enumerate(self.met) if met < growth), default=0)
            if any((it.out, it.err + OUT_OF_MEMORY) == (out, err) for it in self.before[due:]):
                return "runs stopped"
            raise Failed(f"what was written is no beginning of the session that has {due} units or more")
        reports = [line for line in err.splitlines(True) if line.endswith(b": " + OUT_OF_MEMORY)]
        if len(reports) != 1:
            raise Failed(f"{len(reports)} lines report that memory ran out")
        number = int(reports[0].split(b" ")[1].rstrip(b":"))
        if number not in self.first_lines:
            raise Failed(f"line {number} begins no unit")
        at = self.first_lines.index(number)
        empty = [Unit(b"", None)] * script_of(self.units[at : at + 1]).count(b"\n")
        other = self.run(self.units[:at] + empty + self.units[at + 1 :])
        numbers = [int(line.split(b" ")[1].rstrip(b":")) for line in err.splitlines()]
        if (out, err.replace(reports[0], b"", 1), status) != (other.out, other.err, 1) or numbers != sorted(numbers):
            raise Failed(f"the other lines are not as without line {number}: {other}")
        return "lines refused"

    def lost(self, at: int) -> bytes:
        """The message of a unit for which memory ran out; a comment has none."""
        return b"" if self.units[at].line.startswith(b"#") else b"line %d: %s" % (self.first_lines[at], OUT_OF_MEMORY)

    def kind_of_all(self, result: Run) -> str:
        """The same of a run where all growths from one on were refused."""
        out, err, status, _ = result
        for at, first in enumerate(self.before):
            if out != first.out or not err.startswith(first.err):
                continue
            rest = err[len(first.err) :]
            while at < len(self.units) and rest.startswith(self.lost(at)):
                rest, at = rest[len(self.lost(at)) :], at + 1
            is_over = at == len(self.units) and (rest, status) == (b"", 1 if err else 0)
            if is_over or (rest, status) == (OUT_OF_MEMORY, 2):
                return "as expected"
        raise Failed("its messages are not those of the units for which memory ran out")

    def sweep(self, goes_on: bool) -> int:
        """Refuses growth 1, 2, .. in turn, perhaps with all after it; returns how many there are."""
        kinds: Dict[str, int] = collections.Counter()
        growth = 1
        while (result := self.run(self.units, growth, goes_on)).was_refused:
            try:
                kinds[self.kind_of_all(result) if goes_on else self.kind_of(result, growth)] += 1
            except Failed as fault:
                those = f"growth {growth}" + " and all after it" * goes_on
                raise Failed(f"{self.name}: {those}: {fault}: {result}") from None
            growth += 1
        if result[:3] != self.whole[:3]:
            raise Failed(f"{self.name}: the run that meets no refusal differs: {result}")
        those = f"{growth - 1} growths refused in turn" + ", with all after them" * goes_on
        print(f"{self.name}: {those}: {', '.join(f'{number} {kind}' for kind, number in kinds.items())}", flush=True)
        return growth - 1


def lists(program: str, library: str, folder: str) -> List[int]:
    """How many growths a line meets that makes a list of five entries, and of six, seven, eight and nine."""
    met = []
    for more in range(5):
        os.mkdir(texts := os.path.join(folder, f"{more + 5} entries"))
        entries = " ".join([FOUR, *MORE[:more]])
        for text, content in zip(TEXTS, (PASSWD, GROUP, dump_of(f"f|lisa|staff||{entries}"))):
            write_text(texts, text, [content])
        one = Program(words_of(program, texts), library, texts, units_of("setfacl -n -m u:joe:rw f"))
        met.append(one.met[1] - one.met[0])
    return met


def compiled(folder: str) -> str:
    """The path of the library of refuse_growth.c, made by the kit's compiler, which has no headers and no C library."""
    kit, library = Kit(), os.path.join(folder, "refuse_growth.so")
    linker = f"--ld-path={kit('toolchain', 'bin', 'ld.lld')}"
    words = [kit("toolchain", "bin", "clang"), "-O1", "-Wall", "-Werror", "-shared", "-fPIC", "-nostdlib", linker]
    subprocess.run([*words, "-o", library, os.path.join(HERE, "refuse_growth.c")], check=True)
    return library


def refused_growths(program: str, is_quick: bool) -> int:
    """Refuses each growth of each session, alone and with all after it; returns how many there are."""
    growths = 0
    with tempfile.TemporaryDirectory(prefix="facl-growth.") as folder:
        library = compiled(folder)
        met = lists(program, library, folder)
        print(f"A line that makes a list of 5, 6, 7, 8 and 9 entries meets {met} growths", flush=True)
        if len(set(met[:-1])) > 1 or met[-1] <= met[0]:
            raise Failed("a list of up to eight entries takes memory, or one of nine takes none")
        for name, dump, script in SESSIONS:
            if is_quick and name != QUICK:
                continue
            os.mkdir(texts := os.path.join(folder, name))
            for text, content in zip(TEXTS, (PASSWD, GROUP, dump) if dump else ()):
                write_text(texts, text, [content])
            one = Program(words_of(program, texts), library, name, units_of(script))
            growths += one.sweep(False) if is_quick else max(one.sweep(False), one.sweep(True))
    return growths


# The machine code.

# Functions of the program. One that the compiler makes a part of its callers, or that has another name, is found no more.
CALLS = [
    "acl_entry::acl::Acl::same", "acl_entry::acl::Acl::set_mode_entries", "acl_entry::draft::Draft::finish",
    "acl_names::path::Path::new", "acl_names::path_ref::PathRef::encloses", "acl_names::path_ref::PathRef::is_within",
    "acl_names::path_ref::PathRef::order", "acl_people::groups::Group::names_user",
    "acl_people::name_table::NameTable::place_of_name", "acl_people::name_table::NameTable::place_of_word",
    "acl_rights::indexed::IndexedStates::begin_again", "acl_rights::judge::PosixJudge::verdict",
    "acl_text::fields::perms_of", "acl_tree::files::FilesFinder::get", "acl_tree::step::Staged::give_up",
    "facl_tools::text_words::is_text_word", "path_map::map::EntriesIterator::next", "path_map::map::PathMap::from",
    "path_map::map::PathMap::get", "path_map::map::PathMap::nearest_above",
]
ANSWER, COMMIT = "facl::session::FaclSession::", "acl_tree::step::Staged::into_parts"
A_POINTER = "a pointer"
GROWTHS = {"malloc", "realloc", "calloc", "aligned_alloc", "posix_memalign", A_POINTER}
HEAD = re.compile(r"([0-9a-f]+) <(.*)>:")
CODE = re.compile(r"\s*([0-9a-f]+):\t(\S+)\s*(.*)")
TARGET = re.compile(r"([0-9a-f]+) <(.*?)(\+0x[0-9a-f]+)?>")
# Instructions: address, operation and operand.
Code = List[Tuple[int, str, str]]
Functions = Dict[str, Code]


def read_code(program: str) -> Functions:
    """The instructions of each function."""
    dump = subprocess.run(["objdump", "-d", "--no-show-raw-insn", program], capture_output=True, text=True, check=True)
    functions: Functions = {}
    name: Optional[Code] = None
    for line in dump.stdout.splitlines():
        if head := HEAD.fullmatch(line):
            name = functions.setdefault(head[2], [])
        elif name is not None and (code := CODE.fullmatch(line)):
            name.append((int(code[1], 16), code[2], code[3]))
    return functions


def leaves_to(name: str, operation: str, operand: str) -> Optional[str]:
    """The function that an instruction of a function leads to, or `a pointer`; None where it stays."""
    target = TARGET.search(operand)
    if operation == "call":
        return target[2] if target else A_POINTER
    return target[2] if operation.startswith("j") and target and target[2] != name else None


def growths_from(functions: Functions, names: Iterable[str]) -> List[str]:
    """What calls from some functions lead to that is a growth, or may be one."""
    seen: Set[str] = set()
    left = list(names)
    while left:
        if (name := left.pop()) not in seen:
            seen.add(name)
            left += filter(None, (leaves_to(name, *instruction[1:]) for instruction in functions.get(name, ())))
    return sorted({name.split("@")[0] for name in seen} & GROWTHS)


def called_after(name: str, code: Code, at: int) -> Set[str]:
    """What is called on any way from an instruction of a function to the function's end."""
    places = {address: place for place, (address, _, _) in enumerate(code)}
    seen: Set[int] = set()
    left, called = [at], set()
    while left:
        place = left.pop()
        if place in seen or place >= len(code):
            continue
        seen.add(place)
        _, operation, operand = code[place]
        target = TARGET.search(operand)
        called.add(A_POINTER if operation.startswith("j") and not target else leaves_to(name, operation, operand))
        if operation.startswith("j") and target and int(target[1], 16) in places:
            left.append(places[int(target[1], 16)])
        if operation not in ("ret", "jmp", "ud2"):
            left.append(place + 1)
    return {it for it in called if it}


def plain(name: str) -> str:
    """A function's name without the types that it is for."""
    return name.split("::<")[0]


def answers(functions: Functions) -> Iterator[Tuple[str, Set[str]]]:
    """Each answer of a line with what it calls from where its state is taken out to be put in place."""
    for name, code in functions.items():
        for place, (_, operation, operand) in enumerate(code if name.startswith(ANSWER) else []):
            if plain(leaves_to(name, operation, operand) or "") == COMMIT:
                yield f"{name} from {COMMIT}", called_after(name, code, place)


def growths_in_code(program: str) -> Tuple[int, List[str]]:
    """How many functions are looked at, and what is wrong."""
    functions = read_code(program)
    calls = [(name, {name}) for name in functions if plain(name) in CALLS]
    after = list(answers(functions))
    found = [(name, growths_from(functions, start)) for name, start in calls + after]
    for name, growths in found:
        print(f"{name}: {'leads to ' + ', '.join(growths) if growths else 'no growth'}")
    absent = [f"no {name} is in the program" for name in sorted(set(CALLS) - set(map(plain, functions)))]
    absent += [] if after else [f"no answer with {COMMIT} is in the program"]
    return len(found), [f"{name} leads to {', '.join(growths)}" for name, growths in found if growths] + absent


def main() -> int:
    options = options_of(__doc__)
    options.add_argument("--code", action="store_true")
    options.add_argument("--quick", action="store_true")
    given = options.parse_args()
    if not given.quick and not shutil.which("objdump"):
        raise Failed("objdump is not installed (Debian package binutils)")
    if given.quick:
        return conclude(given, f"{refused_growths(given.program, True)} growths refused", [])
    amount = "" if given.code else f"{refused_growths(given.program, False)} growths refused, "
    functions, faults = growths_in_code(given.program)
    return conclude(given, f"{amount}{functions} functions in the machine code", faults)
