"""Commands over a snapshot as facl-snapshot writes it: what each takes of the processor, and the memory of its largest
process."""
from __future__ import annotations

import os
import tempfile
from typing import Callable, Dict, Iterator, List, Mapping, NamedTuple, Sequence, Tuple

from lib.script import TOP, say
from lib.texts import PER_DIRECTORY, text_file, write_people

from .sessions import TEXTS, print_table

LABELS, OF_DIRECTORIES = 2_000, 10  # Different lists of plain files, and of directories.
OPEN = 50  # Each 50th list of plain files grants others something.
DIFFERING = 1_000  # Each 1,000th file has another list in the second snapshot.
RULES = 100
META = ("host bench\ndate 2026-01-01T00:00:00Z\nversion 0\nfolder /srv\nexcluded 0\nunread 0\nfiles {}\n"
        "linked-names 0\nmarks 0\nusers {}\ngroups {}\n")


class Taken(NamedTuple):
    """What a command took: seconds of the processor, and bytes of the largest of its processes."""

    processor: float
    memory: int


Run = Callable[[List[str], str], Taken]  # Runs the words of a command in a folder.


# --- the snapshots


def entries(number: int, users: int, is_directory: bool) -> List[str]:
    """The list with this number."""
    groups, others = max(1, users // 10), "r-x" if is_directory else "r--" if number % OPEN == 0 else "---"
    named = [f"user:{1000 + (number * 7 + 1) % users}:{TEXTS[4 + number // users % 4]}", "group::r-x",
             f"group:{5000 + number * 3 % groups}:r-x"]
    return ["user::rwx", *named, "mask::rwx", "other::" + others]


def records(files: int, users: int, is_later: bool) -> Iterator[Tuple[str, str]]:
    """The names of the files, and their records."""
    for n in range(files):
        directory, place = divmod(n - 2, PER_DIRECTORY + 1)
        is_directory = n < 2 or place == 0
        name = ("/", "/srv/")[n] if n < 2 else f"/srv/d{directory:05}/" + f"f{place:03}" * (not is_directory)
        number = directory % OF_DIRECTORIES if is_directory else (n + (is_later and n % DIFFERING == 0)) % LABELS
        ids = (0, 0) if n < 2 else (1000 + number % users, 5000 + number % max(1, users // 10))
        lines = [f"# file: {name}", "# owner: %d" % ids[0], "# group: %d" % ids[1], *entries(number, users, is_directory)]
        yield name, "\n".join([*lines, "\n"])


def write_snapshot(folder: str, files: int, users: int, is_later: bool = False) -> None:
    os.mkdir(folder, 0o700)
    groups = write_people(folder, users)
    with text_file(folder, "dump") as dump, text_file(folder, "inodes") as inodes:
        inodes.write("boot 0\0")
        for number, (name, record) in enumerate(records(files, users, is_later)):
            dump.write(record)
            inodes.write(f"64769 {number + 100} 1700000000.000000001 {name}\0")
    for name, text in (("links", ""), ("marks", ""), ("meta", META.format(files, users, groups))):
        with text_file(folder, name) as out:
            out.write(text)


# --- the commands


STEPS = {
    "facl-who read,write": ["facl-who", "read,write", "before"],
    "facl-who --user": ["facl-who", "--user", "u7", "before"],
    "facl-check, one rule": ["facl-check", "before", "one"],
    "facl-check, a hundred": ["facl-check", "before", "hundred"],
    "facl-audit": ["facl-audit", "--fail-on", "none", "before"],
    "facl-diff, one of a thousand files differs": ["facl-diff", "before", "after"],
    "facl-report": ["facl-report", "before"],
    "facl-ask, one question": ["facl-ask", "before", "question"],
}


def write_words(folder: str, files: int) -> None:
    """Writes the rules, which hold, and the question."""
    last = max(1, (files - 2) // (PER_DIRECTORY + 1))
    rules = [f"never others write /srv/d{k * 37 % last:05}/\n" for k in range(RULES)]
    texts = {"one": "never others write /srv/\n", "hundred": "".join(rules), "question": "who --reach w srv/d00000/f001\n"}
    for name, text in texts.items():
        with text_file(folder, name) as out:
            out.write(text)


def run_all(run: Run, commands: str, folder: str) -> Dict[str, Taken]:
    """Runs the commands of a folder commands/."""
    found = {}
    for name, words in STEPS.items():
        found[name] = run([os.path.join(commands, words[0]), *words[1:]], folder)
        say(f"{commands}: {name}: {found[name].processor:.2f} s, {found[name].memory >> 20} MiB")
    return found


def measure(run: Run, files: int, users: int, runs: int, others: Sequence[str]) -> int:
    """Prints what the commands take, and those of other clones in turn with them."""
    folders = [os.path.join(TOP, "commands"), *(os.path.join(os.path.abspath(it), "commands") for it in others)]
    with tempfile.TemporaryDirectory(prefix="facl-bench.") as room:
        for name in ("before", "after"):
            write_snapshot(os.path.join(room, name), files, users, name == "after")
        write_words(room, files)
        found = [{commands: run_all(run, commands, room) for commands in folders} for _ in range(runs)]
    columns: Dict[str, Mapping[str, str]] = {}
    for commands, head in zip(folders, ("", *(it + ": " for it in others))):
        best = {name: [min(values) for values in zip(*(its[commands][name] for its in found))] for name in STEPS}
        columns[head + "processor"] = {name: f"{seconds:.1f} s" for name, (seconds, _) in best.items()}
        columns[head + "memory"] = {name: f"{int(memory) >> 20:,} MiB" for name, (_, memory) in best.items()}
    print_table(f"{files:,} files of {LABELS:,} lists, {users:,} users", columns)
    return 0
