"""The prompt of facl-ask: what is done with the lines that a person writes, and how they are read."""
from __future__ import annotations

import contextlib
import gc
import importlib
import os
import stat
from typing import Any, Callable, Iterator, List, Optional, Sequence, Set

from ..base.messages import Failure, held
from ..base.names import read_path, shown
from ..base.trusted import PRIVATE, open_folder
from ..model.everybody import ElseAnswers
from ..model.marks import NO_MARKS, Marks
from ..model.people import Superusers
from ..program.hints.hint import explained
from ..program.protocol import IN_LINE, PROGRAM, UNKNOWN_TOOL, is_refused, lacking_file, lacks_file, message_of
from ..program.scripts import LINE_LIMIT, WORD, Unit, is_empty, read_units, words_within
from ..program.session import Answer, Session
from ..program.tools import EMPTY_ANSWERS, MAKERS, OPTIONS, QUESTIONS, REACH, REMOVERS, REQUESTS
from .completion import Completer
from .stops import marked

Read = Callable[[str], str]  # Reads a line, after a prompt; raises EOFError and KeyboardInterrupt.
HELP_WORDS, END_WORDS, ALONG_PATHS = [[b"help"], [b"?"]], [[b"quit"], [b"exit"]], [[b"along"], [b"alone"]]
WORDS_OF_PROMPT = ["along", "alone", "help", "quit"]
HISTORY = ".facl_history"
MARK = " along paths"  # In the prompt, where questions count search permission.
ALONE = b"(each file is judged alone; `along` counts search permission on its parent directories too)\n"
KEYS = """\
A line is a tool and its words: `help TOOL` has its options, and `help TOPIC` another section of the manual page.
Questions count search permission on parent directories while the prompt has `along paths`, as with --reach after the
tool; after `alone` each file is judged alone, until `along`.
Tab completes a word. Control-C ends a line, a text or an answer; control-D or `quit` ends the prompt.
"""


class Prompt:
    """A session with a person."""

    def __init__(
        self, start: Callable[[], Session], completer: Completer, out: Callable[[bytes], None],
        dim: Callable[[bytes], bytes] = bytes, superusers: Optional[Superusers] = None, marks: Marks = NO_MARKS,
        answers: Optional[ElseAnswers] = None, beside: Sequence[bytes] = (), is_along: bool = True,
    ) -> None:
        self.start, self.session, self.completer, self.out, self.marks = start, start(), completer, out, marks
        self.superusers = superusers or Superusers({})
        self.answers, self.beside = answers, beside  # Of a session with everybody else; and what is said beside that user.
        self.is_along = is_along  # Whether questions are judged along paths.
        self.dim = dim  # How a line is written that is beside the answers.
        self.noted: Set[bytes] = set()  # What was said once.
        self.number = 0  # Of the person's last line.
        self.accepted: List[bytes] = []  # Lines that changed something, with their texts.
        self.waiting: List[str] = []  # Lines that were pasted at once.

    def run(self, read: Read) -> None:
        """Answers lines until there are no more, which may be a day later."""
        gc.enable()
        try:
            while True:
                try:
                    line = self.next_line(read, "%d%s> " % (self.number + 1, MARK * self.is_along))
                except KeyboardInterrupt:
                    self.out(b"(a line is given up; control-D ends the prompt)\n")
                    continue
                if not self.answer_line(line, read):
                    return
        except EOFError:
            self.out(b"\n")

    def close(self) -> None:
        """Ends the program."""
        self.session.__exit__(None, None, None)

    def next_line(self, read: Read, prompt: str) -> bytes:
        if not self.waiting:
            self.waiting = read(prompt).split("\n")
        self.number += 1
        return self.waiting.pop(0).encode("utf-8", "surrogateescape")

    def answer_line(self, line: bytes, read: Read) -> bool:
        """Whether the session goes on."""
        words, number = words_within(line), self.number
        if words in END_WORDS:
            return False
        if words[:1] in HELP_WORDS:
            self.help(words[1:])
        elif words in ALONG_PATHS:
            self.is_along = words == ALONG_PATHS[0]
        elif len(line) > LINE_LIMIT or not is_empty(line):
            try:
                unit = next(read_units(b"", self.with_text(line, read)))
            except KeyboardInterrupt:
                self.out(b"(the text is given up, and line %d with it)\n" % number)
            else:
                self.answer(unit._replace(number=number))
        return True

    def with_text(self, line: bytes, read: Read) -> Iterator[bytes]:
        """A line, and what is read after it for its text, if it takes one."""
        yield line
        while True:
            yield self.next_line(read, "%d| " % (self.number + 1))

    def answer(self, unit: Unit) -> None:
        """Answers a line with its text."""
        asked = along_path(unit) if self.is_along else unit
        try:
            answer = self.session.ask((asked if self.answers is None else self.answers.asked(asked)).text())
        except KeyboardInterrupt:
            self.close()  # It is at a long answer; another one is brought to where it was.
            self.session = self.start()
            for lines in self.accepted:
                self.session.ask(lines)
            self.out(IN_LINE % unit.number + b"given up, and changed nothing\n")
            return
        try:
            self.show(unit, asked, answer)
        except KeyboardInterrupt:
            self.out(b"\n(the rest is not shown)\n")
        if not is_refused(answer.messages) and not unit.is_of(*QUESTIONS):
            self.accepted.append(unit.text())
            self.superusers.follow(unit)
            self.follow(unit)

    def show(self, unit: Unit, asked: Unit, answer: Answer) -> None:
        """An answer below its line, which was asked so."""
        count, lines = 0, self.superusers.rest(asked, marked(asked, answer.output.lines(), self.marks))
        for printed in lines if self.answers is None else self.answers.first(unit.form(), lines):
            self.out(shown(printed) + b"\n")
            count += 1
        if not count and not is_refused(answer.messages) and unit.words:
            self.out(EMPTY_ANSWERS.get(unit.form(), b""))
        for message in answer.messages:
            self.out(IN_LINE % unit.number + shown(message) + b"\n")
            for line in self.advice(unit, message):
                self.out(b"    " + line + b"\n")
        if unit.is_of(*REQUESTS) and REACH not in asked.words and not is_refused(answer.messages):
            self.note(ALONE)
        if self.answers is not None and self.answers.was_shown:
            for text in self.beside:
                self.note(b"(" + text + b")\n")
        if self.superusers.has_left_out:
            self.note(b"(" + self.superusers.note() + b")\n")

    def note(self, line: bytes) -> None:
        """Says something once in a session."""
        if line not in self.noted:
            self.noted.add(line)
            self.out(self.dim(line))

    def advice(self, unit: Unit, message: bytes) -> List[bytes]:
        """What was probably meant, and recorded files whose paths end in one that is not there."""
        found = explained(unit, message)
        if message == message_of(PROGRAM, UNKNOWN_TOOL) and not found:
            found = [b"The tools are listed by `help`."]
        path = read_path(lacking_file(message)) if lacks_file([message]) else b""
        return found + ([b"There is " + shown(it) for it in self.completer.ending(path)] if path else [])

    def follow(self, unit: Unit) -> None:
        """Keeps the paths that are completed up to date."""
        if self.completer.known is None or not unit.is_of(*MAKERS, *REMOVERS):
            return
        for word in unit.words[1:]:
            if not word.startswith(b"-"):
                change = self.completer.known.add if unit.is_of(*MAKERS) else self.completer.known.remove
                change(read_path(word))

    def help(self, words: List[bytes]) -> None:
        topic, page = b" ".join(words).decode("utf-8", "replace"), self.completer.page
        if topic in page.tools:
            text = page.tools[topic].text
        elif topic:
            text = page.sections.get(topic.lower(), "There is no tool and no section of this name: `help` lists them.\n")
        else:
            synopses = "".join("    " + it + "\n" for tool in page.tools.values() for it in tool.synopses)
            topics = [it for it in page.sections if it not in ("name", "synopsis", "see also", "options")]
            text = KEYS + "\nTools:\n" + synopses + "\nTopics: " + ", ".join(topics) + "\n"
        self.out(text.encode())


def along_path(unit: Unit) -> Unit:
    """The same line with --reach, where its tool takes that, and the line has room for it."""
    line = unit.lines[0]
    tool = WORD.search(line)
    if tool is None or REACH in unit.words or REACH not in OPTIONS.get(unit.tool(), ()) or len(line) + len(REACH) >= LINE_LIMIT:
        return unit
    longer = line[: tool.end()] + b" " + REACH + line[tool.end() :]
    return unit._replace(words=[unit.words[0], REACH, *unit.words[1:]], lines=[longer, *unit.lines[1:]])


# --- lines of a person at a terminal: by prompt_toolkit where it is installed, else by Python alone


def find_toolkit() -> Any:
    """prompt_toolkit, which Debian has as python3-prompt-toolkit, with what it imports itself; else None."""
    try:
        return importlib.import_module("prompt_toolkit")
    except ImportError:
        return None


def has_history(home: str) -> bool:
    """Whether lines can be kept in a folder: nobody else can write there, and the file, which is made where there is
    none, is the user's own; nobody else may read it then."""
    flags = os.O_RDWR | os.O_CREAT | os.O_NOFOLLOW | os.O_NONBLOCK | os.O_CLOEXEC
    try:
        with held(open_folder(os.fsencode(home))) as folder:
            file = os.open(HISTORY, flags, PRIVATE, dir_fd=folder)
    except (Failure, OSError):
        return False
    with held(file):
        look = os.fstat(file)
        is_own = stat.S_ISREG(look.st_mode) and look.st_uid == os.geteuid()
        if is_own:
            os.fchmod(file, PRIVATE)
        return is_own


def history(toolkit: Any) -> Any:
    """The lines of earlier sessions, in a file of the user's own; in memory where they cannot be kept there."""
    home, kinds = os.path.expanduser("~"), toolkit.history
    return kinds.FileHistory(os.path.join(home, HISTORY)) if has_history(home) else kinds.InMemoryHistory()


def completer_of(toolkit: Any, known: Completer) -> Any:
    """A completer of prompt_toolkit that calls ours."""

    def get_completions(_self: object, document: Any, _event: object) -> Iterator[Any]:
        line = document.text_before_cursor
        start, words = known.complete(line)
        for word in words:
            yield toolkit.completion.Completion(word, start_position=start - len(line))

    return type("FaclCompleter", (toolkit.completion.Completer,), {"get_completions": get_completions})()


def reader(known: Completer) -> Read:
    """Reads lines by prompt_toolkit, else by Python's own readline, without completion."""
    toolkit = find_toolkit()
    if toolkit is None:
        with contextlib.suppress(ImportError):  # Lines are read without a history then.
            importlib.import_module("readline")
        return input
    session = toolkit.PromptSession(history=history(toolkit), completer=completer_of(toolkit, known), complete_while_typing=False)
    return lambda prompt: str(session.prompt(prompt))
