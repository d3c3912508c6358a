"""Snapshots that answer a script side by side, on this machine, and by ssh on others."""
from __future__ import annotations

import argparse
import os
import re
import resource
import shlex
import subprocess
import sys
import time
from typing import IO, Dict, List, NamedTuple, Sequence, Union

from ...base import scratch
from ...base.messages import Failure
from ...base.programs import HOME, PART, environment_of_called, program_words
from ...model.everybody import Everybody
from ...program.protocol import is_refused
from ...program.scripts import read_script
from ...program.session import OutputSlice
from . import SECONDS
from .worker import Head, Header, read_row

NAME_OF_HOST = rb"[A-Za-z0-9_][A-Za-z0-9._-]*"
HOST = re.compile(rb"((?:" + NAME_OF_HOST + rb"@)?" + NAME_OF_HOST + rb"):(.*)\Z", re.DOTALL)
LIKE_HOST = re.compile(rb"[A-Za-z0-9@._-]+:|-[^/]*:")  # What somebody may have meant for a host.
HERE = b""  # The host of a snapshot on this machine.
THIS = b"localhost"  # The name of this machine as a server, which needs no ssh.
MOST_READ = 16_777_216  # Bytes of another machine's answers that are read into memory.
MOST_WRITTEN = 1 << 32  # Bytes that it may write into one file, where there is room.
CUT = b"a snapshot did not answer to the end"
NOT_READABLE = b"an answer cannot be read; facl may be of another version there"
OTHER_VERSION = b"facl there is of another version, which does not take what this one asks"


class Server(NamedTuple):
    """A snapshot, and where it is."""

    name: bytes  # Of the machine, in messages.
    host: bytes  # What ssh connects to, or HERE.
    folder: bytes

    def words(self, options: Sequence[bytes]) -> List[bytes]:
        """The command that answers a script there. ssh gives its last word to the shell of the other machine."""
        words = [*options, b"--", self.folder]
        if self.host == HERE:
            return [os.fsencode(sys.executable), b"-I", os.fsencode(os.path.join(HOME, "facl-ask")), b"--part", *words]
        return [b"ssh", b"--", self.host, os.fsencode(shlex.join(["facl", PART, *map(os.fsdecode, words)]))]


def servers_of(folders: List[bytes]) -> List[Server]:
    """The snapshots of --each, HOST:DIR, or a folder of this machine; those of one machine follow each other."""
    found: List[Server] = []
    for folder in folders:
        match = None if os.path.exists(folder) else HOST.match(folder)
        if match is None and LIKE_HOST.match(folder) and not os.path.exists(folder):
            raise Failure(folder + b": a HOST starts with a letter, a digit or _, so that no program takes it for "
                                   b"something else")
        found.append(Server(match[1], match[1], match[2]) if match else Server(HERE, HERE, folder))
    hosts = [server.host for server in found]
    return sorted(found, key=lambda server: hosts.index(server.host))


def read_servers(words: List[bytes]) -> List[Server]:
    """The servers of --hosts; a name is that of a HOST of --each."""
    found: Dict[bytes, Server] = {}
    for word in words:
        match = HOST.match(word)
        if match is None:
            raise Failure(word + b": a server is NAME:DIR, and NAME starts with a letter, a digit or _")
        name = match[1]
        if name in found:
            raise Failure(word + b": is the second snapshot of " + name + b": ask each of one server in a run of its own")
        found[name] = Server(name, HERE if name == THIS else name, match[2])
    return list(found.values())


class Answered(NamedTuple):
    """A line's answer by one snapshot."""

    header: Header
    output: OutputSlice

    def is_refused(self) -> bool:
        return is_refused(self.header.messages)


class Part(NamedTuple):
    """What one snapshot wrote."""

    label: bytes  # The snapshot, as it was given.
    head: Head
    files: OutputSlice
    answers: Dict[int, Answered]  # By the number of the line.


Outcome = Union[Part, Failure]


def part_options(given: argparse.Namespace, everybody: Everybody) -> List[bytes]:
    """Which program a snapshot is to ask, and by which name everybody else."""
    return [*map(os.fsencode, program_words(given)), b"--everybody=" + everybody.word()]


def run_all(servers: List[Server], options: Sequence[bytes], script: bytes, seconds: int = SECONDS,
            shared: Sequence[bytes] = ()) -> List[Outcome]:
    """Runs facl-ask over all snapshots side by side, and reads what each wrote. Another machine has `seconds` for it, and leaves
    the others room for as much as it writes. Names of shared files are lines before the script: all users see the words of a
    command."""
    options = [*options, *[b"--shared-lines=%d" % len(shared)] * bool(shared)]
    numbers = [unit.number for unit in read_script(b"", script)]
    runs: List[PartRun] = []
    with scratch.new_file("facl-ask.") as file:
        file.write(b"".join(name + b"\n" for name in shared) + script + b"\n")
        file.flush()
        look = os.fstatvfs(file.fileno())
        room = min(MOST_WRITTEN, look.f_bavail * look.f_frsize // (2 * len(servers) + 1))
        try:
            for server in servers:
                runs.append(PartRun(server, options, file, room, seconds))
            return [run.outcome(numbers) for run in runs]
        finally:
            for run in runs:
                run.process.terminate()
            for run in runs:
                run.end()


class PartRun:
    """A run of facl-ask over a snapshot, and what it wrote: each step of reading ends at the next unread byte, or fails."""

    def __init__(self, server: Server, options: Sequence[bytes], script: IO[bytes], room: int, seconds: int) -> None:
        self.server, self.is_here, self.room, self.seconds = server, server.host == HERE, room, seconds
        self.last = time.monotonic() + seconds
        self.out, self.messages = scratch.new_file("facl-ask."), scratch.new_file("facl-ask.")
        with open("/proc/self/fd/%d" % script.fileno(), "rb") as given:  # From its start.
            self.process = subprocess.Popen(server.words(options), stdin=given, stdout=self.out, stderr=self.messages,
                                            env={**environment_of_called(), "LC_ALL": "C"})
        if not self.is_here:
            resource.prlimit(self.process.pid, resource.RLIMIT_FSIZE, (room, room))
            resource.prlimit(self.process.pid, resource.RLIMIT_CORE, (0, 0))

    def end(self) -> None:
        """Waits ten seconds for the end, after SIGTERM."""
        try:
            self.process.wait(10)
        except subprocess.TimeoutExpired:
            self.process.kill()
            self.process.wait()

    def outcome(self, numbers: Sequence[int]) -> Outcome:
        """Waits for the end, and reads the answers to the lines of these numbers."""
        try:
            self.process.wait(None if self.is_here else max(0.0, self.last - time.monotonic()))
            self.check_end()
            return self.part(numbers)
        except subprocess.TimeoutExpired:
            return Failure(b"did not answer in %d seconds (--timeout)" % self.seconds)
        except ValueError:
            return Failure(NOT_READABLE)
        except Failure as failure:
            return failure

    def check_end(self) -> None:
        """Fails where it ended by itself before its answers did."""
        self.size, said = (os.fstat(it.fileno()).st_size for it in (self.out, self.messages))
        if not self.is_here and max(self.size, said) >= self.room:
            raise Failure(b"what it wrote takes more than the %d bytes that there is room for" % self.room)
        if self.process.returncode != 0:
            raise Failure(self.reason(os.pread(self.messages.fileno(), 10_000, 0)))
        if self.size == 0:
            raise Failure(b"did not answer")
        self.room = self.size if self.is_here else MOST_READ  # For what is kept in memory.
        self.out.seek(0)

    def reason(self, said: bytes) -> bytes:
        """Why it ended, by the first of its messages, which may be that of a shell, or of another version."""
        text = next(filter(None, said.splitlines()), b"").removeprefix(b"facl-ask: ")
        status = self.process.returncode
        if text.startswith((b"usage: ", b"facl: " + PART.encode())):
            return OTHER_VERSION
        if status == 127 and not self.is_here:  # Of a shell that finds no such command.
            return b"facl is not on the path there" + (b": " + text if text else b"")
        return text or b"facl ended with status %d" % (status if status > 0 else 128 - status)

    def line(self) -> bytes:
        line = self.out.readline(self.room + 1)
        self.room -= len(line)
        if self.room < 0:
            raise Failure(b"its answer has more than 16,777,216 bytes beside what the program printed")
        if not line.endswith(b"\n"):
            raise Failure(CUT)
        return line

    def piece(self, size: int) -> OutputSlice:
        """The next `size` bytes, which are read later."""
        start = self.out.tell()
        if size > self.size - start:
            raise Failure(CUT)
        self.out.seek(size, os.SEEK_CUR)
        return OutputSlice(self.out, start, start + size)

    def part(self, numbers: Sequence[int]) -> Part:
        """The head, the answers, and the last line."""
        head = read_row(Head, self.line())
        files = self.piece(head.size)
        answers: Dict[int, Answered] = {}
        for number in numbers:
            header = read_row(Header, self.line())
            answers[number] = Answered(header, self.piece(header.size))
            if header.line != number or any(b"\n" in it for it in header.messages) or self.line() != b"\n":
                raise ValueError
        if self.line() != b"end\n" or self.out.tell() != self.size:
            raise ValueError
        label = head.part if self.is_here else self.server.host + b":" + head.part
        return Part(label, head, files, answers)
