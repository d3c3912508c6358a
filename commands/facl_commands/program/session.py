"""Runs the program over a snapshot, and asks it line by line."""
from __future__ import annotations

import contextlib
import itertools
import os
import re
import select
import signal
import subprocess
from typing import IO, Callable, Iterable, Iterator, List, NamedTuple, Optional

from ..base import scratch
from ..base.folders import TEXTS, Folder, folder_of
from ..base.messages import Failure
from ..base.progress import AT
from .protocol import IN_LINE, PROBE, PROBE_REFUSED, SETUP, UNKNOWN_TOOL, has_text

LINE_ROOM = 60_000  # Bytes of words in a line that a command asks; a line may have 65,536, with those before them.
LINES_ROOM = 1 << 20  # Bytes of lines that are asked at once.
PIECE = 1 << 16  # Bytes that are written or read at once.
MOST = 67_108_864  # Bytes of messages to lines that are written at once.
SILENCE = 2.0  # Seconds without a byte, after which a program that cannot answer any more is given up.
NUMBER = re.compile(rb"\Aline [0-9]+: ")  # The beginning of a message.


def cut(pieces: Iterable[bytes], end: bytes = b"\n", longest: Optional[int] = None) -> Iterator[List[bytes]]:
    """The lines of a text in pieces, without ends, at once those that end in a piece; ValueError where one is longer."""
    rest = b""
    for piece in pieces:
        *whole, rest = (rest + piece).split(end)
        yield whole
        if longest is not None and len(rest) > longest:
            raise ValueError


def lines_of(pieces: Iterable[bytes], end: bytes = b"\n", longest: Optional[int] = None) -> Iterator[bytes]:
    """The same, one by one."""
    return itertools.chain.from_iterable(cut(pieces, end, longest))


class OutputSlice(NamedTuple):
    """A part of what the program printed."""

    file: IO[bytes]
    start: int
    end: int

    def read(self) -> bytes:
        return b"".join(self.pieces())

    def pieces(self) -> Iterator[bytes]:
        place = self.start
        while place < self.end:
            piece = os.pread(self.file.fileno(), min(1 << 20, self.end - place), place)
            place += len(piece)
            yield piece

    def lines(self, end: bytes = b"\n") -> Iterator[bytes]:
        """Its lines, without their ends."""
        return lines_of(self.pieces(), end)

    def records(self) -> Iterator[bytes]:
        """The records of a listing, without the empty line after each and the end of the last one."""
        return self.lines(b"\n\n")


class Answer(NamedTuple):
    """What the program printed for lines, and its messages without their line numbers."""

    output: OutputSlice
    messages: List[bytes]


class Session:
    """A run of the program over the texts of a snapshot's folder, which it gets as open files: those that the command has read.

    What it prints goes to a file, so that it never waits for a reader. A line that it has to refuse, with a word that
    nobody can guess, comes after each of ours: when its message is read, all before it is answered.
    """

    def __init__(self, program: str, folder: bytes, texts: Optional[Folder] = None) -> None:
        """Runs the program; `texts` are in the place of those of the folder."""
        texts = texts or folder_of(folder)  # Which is open until the program has its files.
        words, files = texts.command(program)
        AT.at("loading")
        self.folder = folder
        self.number = 0
        self.output = scratch.new_file("facl-session.")
        self.process = subprocess.Popen(
            words, bufsize=0, pass_fds=files, env={"LC_ALL": "C", "PATH": os.environ.get("PATH", os.defpath)},
            stdin=subprocess.PIPE, stdout=self.output, stderr=subprocess.PIPE, start_new_session=True,
        )
        assert self.process.stdin is not None and self.process.stderr is not None
        self.lines, self.messages = self.process.stdin, self.process.stderr
        os.set_blocking(self.lines.fileno(), False)

    def __enter__(self) -> Session:
        return self

    def __exit__(self, *_error: object) -> None:
        """Ends the program with the processes that it has started in its group."""
        if self.process.returncode is None:
            with contextlib.suppress(ProcessLookupError, PermissionError):
                os.killpg(self.process.pid, signal.SIGKILL)
            self.process.wait()
        for stream in (self.lines, self.messages, self.output):
            stream.close()

    def ask(self, lines: bytes) -> Answer:
        """Answers whole lines with their texts."""
        token = os.urandom(16).hex().encode()
        start = os.fstat(self.output.fileno()).st_size
        self.number += lines.count(b"\n") + 1
        end = IN_LINE % self.number + PROBE_REFUSED % token + b"\n"
        messages = self.exchange(lines + PROBE % token + b"\n", end)
        if not messages.endswith(end):
            raise self.early_end(messages)
        AT.at("answering")
        output = OutputSlice(self.output, start, os.fstat(self.output.fileno()).st_size)
        # The numbers are those of our own stream of lines.
        return Answer(output, [NUMBER.sub(b"", it) for it in messages.split(b"\n")[:-2]])

    def ask_accepted(self, line: bytes) -> OutputSlice:
        """Answers a line of our own, which cannot be refused."""
        answer = self.ask(line + b"\n")
        if answer.messages:
            older = b": it is older than this command, so install both anew" * has_text(answer.messages[0], UNKNOWN_TOOL)
            raise Failure(b"the program refused `%s`: %s" % (line.split(b"\n")[0], answer.messages[0]) + older)
        return answer.output

    def exchange(self, text: bytes, end: bytes) -> bytes:
        """Writes `text`, and returns the messages up to `end`, or all where the program ends before; both at once, as it need not
        read a line before its messages are read. It may take any time to answer, but cannot any more once it has ended, has
        closed its standard error, or has closed its standard input before it took all of `text`."""
        left, found, is_closed = memoryview(text), bytearray(), False
        while True:
            readable, writable, _ = select.select([self.messages], [self.lines] if left else [], [], SILENCE)
            if writable:
                try:
                    left = left[os.write(self.lines.fileno(), left[:PIECE]) :]
                except BlockingIOError:
                    pass
                except BrokenPipeError:
                    left, is_closed = left[:0], True
            if readable:
                piece = os.read(self.messages.fileno(), PIECE)
                found += piece
                place = found.find(end, max(0, len(found) - len(piece) - len(end)))
                if not piece or place >= 0:
                    return bytes(found[: place + len(end)] if place >= 0 else found)
                if len(found) > MOST:
                    raise Failure(b"the program wrote more than 67,108,864 bytes of messages at once")
            if not (readable or writable) and (is_closed or self.process.poll() is not None):
                return bytes(found)

    def early_end(self, messages: bytes) -> Failure:
        """Why the program ended before it was asked to."""
        last = messages.rstrip(b"\n").rpartition(b"\n")[2][:1_000]
        if not last:
            try:
                last = b"status %d" % self.process.wait(SILENCE)
            except subprocess.TimeoutExpired:
                last = b"it closed its standard input or error, and went on"
        if last.startswith(SETUP):
            return Failure(b"%s: the program does not load it: %s" % (self.folder, last))
        return Failure(b"the program ended early: %s" % last)


def session_over(program: str, passwd: bytes, group: bytes, dump: bytes) -> Session:
    """A session over texts."""
    texts = Folder(b"texts")
    for name, text in zip(TEXTS, (passwd, group, dump)):
        texts.put(name, text)
    return Session(program, texts.name, texts)


def parts_of(items: Iterable[bytes], room: int = LINE_ROOM, word_of: Callable[[bytes], bytes] = bytes) -> Iterator[List[bytes]]:
    """Items in their order, as many in each part as a line has room for, with a blank for the word of each; one that is
    too long is alone."""
    part: List[bytes] = []
    size = 0
    for item in items:
        length = len(word_of(item)) + 1
        if part and size + length > room:
            yield part
            part, size = [], 0
        part.append(item)
        size += length
    yield from filter(None, [part])
