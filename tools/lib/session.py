"""The program on the texts of a folder: its words, its tools, and sessions that are sent lines, with their output kept,
or their messages compared and their time counted."""
from __future__ import annotations

import argparse
import contextlib
import os
import subprocess
import tempfile
import threading
import time
from typing import IO, Dict, Iterable, Iterator, List, Optional, Sequence, Tuple, TypeVar, Union

from .script import Failed, record

TEXTS = ("passwd", "group", "dump")
UNKNOWN = b"facl: unknown tool\n"
Own = TypeVar("Own", bound="Session")
Wanted = Tuple[int, bytes]
Times = Tuple[str, float, float]


def program_at(word: str) -> str:
    """The path of a program that a script is given, as a type of argparse."""
    path = os.path.realpath(word)
    if not os.path.isfile(path) or not os.access(path, os.X_OK):
        raise argparse.ArgumentTypeError("%s: no such program: give one that is built" % word)
    return path


def options_of(head: Optional[str], **numbers: Optional[int]) -> argparse.ArgumentParser:
    """The words of a check: the program, options that take a number, and whether docs/CHECKS.md is to have its row."""
    options = argparse.ArgumentParser(description=head, formatter_class=argparse.RawDescriptionHelpFormatter)
    options.add_argument("program", metavar="PROGRAM", type=program_at)
    for name, value in numbers.items():
        options.add_argument("--" + name, type=int, default=value, metavar="N")
    options.add_argument("--record", action="store_true")
    return options


def conclude(given: argparse.Namespace, amount: str, faults: Sequence[str]) -> int:
    """Says how much a check looked at and what it found, in its row of docs/CHECKS.md too; returns its exit status."""
    found = "; ".join(faults) or "nothing"
    print(f"{amount}: {found}")
    if given.record:
        record(amount, found, " ".join("--" + name for name, value in vars(given).items()
                                       if value is True and name not in ("record", "verbose")))
    return 1 if faults else 0


def words_of(program: str, folder: str) -> List[str]:
    """The program with its options for those of the texts that the folder has."""
    there = [name for name in TEXTS if os.path.exists(os.path.join(folder, name))]
    return [program] + [word for name in there for word in ("--" + name, os.path.join(folder, name))]


def write_text(folder: str, name: str, chunks: Iterable[bytes]) -> None:
    """Writes one of the texts that the program loads."""
    with open(os.path.join(folder, name), "wb", buffering=1 << 20) as out:
        out.writelines(chunks)


def write_system_people(folder: str) -> None:
    """Writes the users and groups of this system as texts."""
    for name in ("passwd", "group"):
        with open(os.path.join(folder, name), "wb") as out:
            subprocess.run(["getent", name], stdout=out, check=True)


def has_tool(program: str, tool: str) -> bool:
    """Whether the program has a tool; the line is followed by the end of a text, as some tools take one."""
    done = subprocess.run([program], input=tool.encode() + b"\n.\n", capture_output=True, check=False)
    return not done.stderr.startswith(b"line 1: " + UNKNOWN)


class Session:
    """The program, started. After the lines of a call comes one that is refused: its message shows that those before it
    are answered, since each is before the next one is read. It is a context, at whose end the program is ended."""

    def __init__(self, program: str, folder: str, out: Union[int, IO[bytes]] = subprocess.DEVNULL) -> None:
        self.lines_sent = 0
        self.mark: Optional[bytes] = None
        self.started = time.perf_counter()
        words = words_of(program, folder)
        self.run = subprocess.Popen(words, stdin=subprocess.PIPE, stdout=out, stderr=subprocess.PIPE)
        assert self.run.stdin and self.run.stderr
        self.stdin, self.stderr = self.run.stdin, self.run.stderr

    def __enter__(self: Own) -> Own:
        return self

    def __exit__(self, *_: object) -> None:
        self.stop()

    def send(self, lines: Iterable[bytes]) -> None:
        """Sends lines, perhaps several in one piece, and the one after them, whose message is known from then on."""
        try:
            for line in lines:
                self.lines_sent += line.count(b"\n")
                self.stdin.write(line)
            self.lines_sent += 1
            self.mark = b"line %d: %s" % (self.lines_sent, UNKNOWN)
            self.stdin.write(b"mark\n")
            self.stdin.flush()
        except BrokenPipeError:
            pass  # The reader of the messages reports that the program ended.
        except BaseException:
            self.run.kill()  # Else the reader would wait for the mark.
            raise

    def messages(self, lines: Iterable[bytes]) -> Iterator[bytes]:
        """Sends lines, and gives their messages as they come. It is over when all lines are answered."""
        self.mark = None
        writer = threading.Thread(target=self.send, args=(lines,), daemon=True)
        writer.start()
        for message in self.stderr:
            if message == self.mark:
                break
            yield message
        else:
            raise Failed("the program ended with status %d" % self.run.wait())
        writer.join()

    def processor_time(self) -> float:
        """The processor time of the program so far, by its clock in the kernel; else the time that passed."""
        try:
            return time.clock_gettime((~self.run.pid << 3) | 2)
        except OSError:
            return time.perf_counter() - self.started

    def memory_of(self, field: str) -> int:
        """A count of bytes that the system has of the program; 0 if it has none."""
        try:
            with open("/proc/%d/status" % self.run.pid, encoding="utf-8", errors="replace") as file:
                return next((int(line.split()[1]) * 1024 for line in file if line.startswith(field)), 0)
        except OSError:
            return 0

    def most_memory(self) -> int:
        """The most bytes that the program had at once. That of wait4(2) counts what this script had at the start."""
        return self.memory_of("VmHWM:")

    def present_memory(self) -> int:
        """The bytes that the program has now."""
        return self.memory_of("VmRSS:")

    def end(self) -> int:
        """Ends the session in order. Returns its status."""
        self.stdin.close()
        return self.run.wait()

    def stop(self) -> None:
        """Ends the program if it runs."""
        if self.run.poll() is None:
            self.run.kill()
            self.run.wait()
        with contextlib.suppress(BrokenPipeError):
            self.stdin.close()
        self.stderr.close()


class KeptSession(Session):
    """A session whose output is kept in a file without a name."""

    def __init__(self, program: str, folder: str) -> None:
        self.kept, self.place = tempfile.TemporaryFile(), 0
        super().__init__(program, folder, self.kept)

    def answer(self, lines: Iterable[bytes]) -> Tuple[bytes, List[bytes]]:
        """What lines print, and their messages."""
        messages = list(self.messages(lines))
        end = os.fstat(self.kept.fileno()).st_size
        printed, self.place = os.pread(self.kept.fileno(), end - self.place, self.place), end
        return printed, messages

    def stop(self) -> None:
        super().stop()
        self.kept.close()


class Expect:
    """Lines that are sent, as an iterable of bytes, and what has to come of them: the messages as pairs of a line's
    number, counted from 1 in these lines, and what the message has after `line N: `."""

    def __init__(self, name: str, lines: Iterable[bytes], messages: Iterable[Wanted] = ()) -> None:
        self.name, self.lines, self.messages = name, lines, messages


class TimedRun(Session):
    """A session whose messages are compared."""

    def answer(self, step: Expect) -> Tuple[float, float]:
        """The processor time and the time that a step takes."""
        started, before = time.perf_counter(), self.processor_time()
        first, wanted = self.lines_sent, iter(step.messages)
        try:
            for message in self.messages(step.lines):
                compare(message, next(wanted, None), first)
            missing = next(wanted, None)
            if missing:
                raise Failed("it did not print %r" % shown(missing[1]))
        except Failed as fault:
            raise Failed("%s: %s" % (step.name, fault)) from None
        return self.processor_time() - before, time.perf_counter() - started

    def end_with_memory(self) -> int:
        """Ends the session in order. Returns its most memory, in bytes."""
        memory = self.most_memory()
        self.stdin.close()
        rest = self.stderr.read()
        status = self.run.wait()
        if rest or status != 1:
            raise Failed("at the end: status %d, %r" % (status, shown(rest)))
        return memory


def compare(message: bytes, wanted: Optional[Wanted], lines_before: int) -> None:
    """Fails where a message is not the one that is wanted."""
    if wanted is None:
        raise Failed("it printed %r" % shown(message))
    number, text = wanted
    if message != b"line %d: %s\n" % (lines_before + number, text):
        raise Failed("it printed %r in place of %r" % (shown(message), shown(text)))


def shown(text: bytes) -> bytes:
    return text if len(text) <= 300 else text[:200] + b".." + text[-100:]


def timed(program: str, folder: str, steps: Iterable[Expect]) -> Tuple[List[Times], int]:
    """For the load of the texts and for each step its processor time and time, and the most memory."""
    with TimedRun(program, folder) as run:
        _, passed = run.answer(Expect("load", ()))
        # The clock of the first step started after the program did, so all that it has spent counts.
        times = [("load", run.processor_time(), passed)]
        for step in steps:
            times.append((step.name, *run.answer(step)))
        return times, run.end_with_memory()


# --- measurements


class MeasuredSession(Session):
    """The program, loaded, with what that took."""

    def __init__(self, program: str, folder: str, out: Union[int, IO[bytes]] = subprocess.DEVNULL) -> None:
        super().__init__(program, folder, out)
        self.spent = 0.0
        try:
            self.load = self.answer([])
        except BaseException:
            self.stop()
            raise
        self.memory = self.most_memory()

    def answer(self, lines: List[str]) -> float:
        """The seconds of processor time that the lines take, without the load."""
        before = self.spent
        for message in self.messages(["".join(f"{line}\n" for line in lines).encode()]):
            raise Failed(message.decode(errors="replace").strip())
        self.spent = self.processor_time()
        return self.spent - before


def first_records(folder: str, count: int) -> List[str]:
    """The first records of the dump, as the lines of a text."""
    lines: List[str] = []
    records = 0
    with open(os.path.join(folder, "dump"), encoding="utf-8") as dump:
        for line in dump:
            records += line.startswith("# file:")
            if records > count:
                break
            lines.append(line.rstrip("\n"))
    return lines


def best_of(runs: List[Dict[str, float]]) -> Dict[str, float]:
    """The least of each figure."""
    return {name: min(run[name] for run in runs) for name in runs[0]}
