"""facl-ask: the program over a snapshot, with scripts by name, or with a prompt at a terminal."""
from __future__ import annotations

import argparse
import contextlib
import os
import re
import signal
import subprocess
import termios
from types import FrameType
from typing import Callable, Dict, Iterable, Iterator, List, NoReturn, Optional

from ..base.folders import folder_of
from ..base.messages import SIGNALS, Command, Failure, failing, parser_of, reason
from ..base.names import shown
from ..base.programs import environment_of_called, find_program
from ..base.trusted import MOST_WRITTEN, too_large
from ..model import meta, overview, sources
from ..model.everybody import ElseAnswers, SnapshotTexts, answers_over, beside, people_in, session_with, texts_with
from ..model.marks import NO_MARKS, marks_of
from ..model.snapshot import check_texts
from ..model.sources import Source
from ..program.answering import answer_unit, below_heading, write_messages
from ..program.protocol import ANSWERED, REFUSED, is_refused
from ..program.scripts import Unit, lines_of_file, open_script, read_script, read_text, read_units
from ..program.session import Session
from .parts import SECONDS
from .stops import marked

HELP = """\
Answers questions and edits over a snapshot, by the program facl_linux, or, with --acl5, by facl.

With SCRIPTs it answers their lines; the SCRIPT - is standard input. Without one, at a terminal, it is a prompt:
`help` lists the tools, tab completes words, each answer comes below its line, and where a line is refused for its
words, the synopsis and the likely cause. Questions at the prompt count search permission on parent directories, as
with --reach in a SCRIPT, unless --file-alone is given. Else it answers standard input.

Where it has one SCRIPT, or standard input that is no terminal, it is the program itself: it prints the same, and ends
with the same status; below a message about a SCRIPT comes its likely cause. With several SCRIPTs a message names the
SCRIPT, and its line there. With --headings each question comes above its answer. There, at the prompt, with --each and
with --hosts answers about people have `everybody else`, a user whom no list names.

SNAPSHOT may be a folder with passwd, group and dump alone. A dump can be given by --dump FILE too, in place of
SNAPSHOT. What such a dump cannot tell is said on standard error.

With --each all words are SNAPSHOTs, of parts of one tree, as facl-snapshot --split makes them; HOST:DIR is one on
another machine. They answer standard input side by side, and the answers are joined in the order of paths. A line
that edits is taken where all its files lie in one of them.

With --hosts all words are servers, NAME:DIR, each with a snapshot DIR of its own. They answer standard input side by
side, by ssh, and each line of an answer and each message begins with the NAME. localhost is this machine. One that
does not answer in time has a message, and the others' answers are given.
"""
STATUS = """\
The exit status is that of facl: 0 if every line was accepted, 1 if some line was refused, 2 if it ended
early, or if the words, the snapshot or a script cannot be used. A prompt ends with 0.
"""


def parse(words: List[str]) -> argparse.Namespace:
    parser = parser_of("facl-ask", HELP, STATUS)
    parser.add_argument("--headings", action="store_true", help="print each question of a script above its answer")
    parser.add_argument("--with-root", action="store_true",
                        help="at the prompt, with --each and --hosts: answers about people have uid 0 too")
    parser.add_argument("--file-alone", action="store_true",
                        help="at the prompt: judge each file alone, without search permission on its parent directories")
    parser.add_argument("--each", action="store_true", help="answer standard input over several SNAPSHOTs side by side")
    parser.add_argument("--hosts", action="store_true",
                        help="answer standard input over the snapshots of several servers, NAME:DIR")
    parser.add_argument("--timeout", metavar="SECONDS", type=seconds_of,
                        help=f"with --each and --hosts: how long another machine may take ({SECONDS})")
    # What --each and --hosts run for each; with it: what is recorded, too; how many lines before the script name files that others
    # have, too; a user in answers.
    parser.add_argument("--part", action="store_true", help=argparse.SUPPRESS)
    parser.add_argument("--records", action="store_true", help=argparse.SUPPRESS)
    parser.add_argument("--shared-lines", type=int, default=0, help=argparse.SUPPRESS)
    parser.add_argument("--everybody", metavar="NAME:ID", help=argparse.SUPPRESS)
    sources.add_source(parser, words)
    parser.add_argument("scripts", metavar="SCRIPT", nargs="*", default=[])
    return parser.parse_args(words)


def seconds_of(word: str) -> int:
    """A number of seconds that a wait can have."""
    found = int(word) if re.fullmatch("[0-9]{1,7}", word) else 0
    if found == 0:
        raise argparse.ArgumentTypeError(word + ": is not a number from 1 to 9999999")
    return found


def take_script(script: str) -> None:
    """Makes a script by name the standard input."""
    with failing(os.fsencode(script), True):
        descriptor = open_script(script)
        os.read(descriptor, 0)  # A folder cannot be read.
    if os.fstat(descriptor).st_size > MOST_WRITTEN:  # The program ends at as many of a device.
        raise too_large(os.fsencode(script), MOST_WRITTEN)
    os.dup2(descriptor, 0)


def units_of_input() -> Dict[int, Unit]:
    """The lines of a script that is the standard input, by their numbers; none where it can be read once alone."""
    try:
        size = os.fstat(0).st_size
        text = os.pread(0, size, 0) if size <= MOST_WRITTEN else b""
    except OSError:
        return {}
    return {unit.number: unit for unit in read_script(b"", text)}


def run_explained(command: Command, program: str, source: Source, name: Optional[bytes]) -> int:
    """Runs the program over the standard input, and returns its status. Where that is a script by name, what was probably
    meant comes below each message. A terminal gets messages without what it obeys."""
    units: Optional[Dict[int, Unit]] = None if name is not None else {}
    texts, is_terminal = folder_of(source.folder), os.isatty(2)
    words, files = texts.command(program)
    with subprocess.Popen(words, stderr=subprocess.PIPE, pass_fds=files, env=environment_of_called()) as run:
        assert run.stderr is not None
        try:
            for line in run.stderr:
                from ..program.hints.hint import explained_by_number  # Few runs need it.

                units = units_of_input() if units is None else units
                command.put(command.messages, shown(line.rstrip(b"\n")) + b"\n" if is_terminal else line)
                command.explain(explained_by_number(units, line.rstrip(b"\n")))
                command.put(command.messages)
        except BaseException:  # The program is ended: its script may be a pipe of which nothing comes.
            run.kill()
            raise
    return run.returncode if run.returncode >= 0 else 128 - run.returncode


def become_program(program: str, folder: bytes) -> NoReturn:
    """Goes on as the program."""
    texts = folder_of(folder)
    words, files = texts.command(program)
    signal.signal(signal.SIGPIPE, signal.SIG_DFL)  # Which Python ignores, and the program need not.
    for number in (*range(3), *files):
        os.set_inheritable(number, True)  # Also one that was closed: the program is not to find it closed.
    try:
        os.execve(program, words, environment_of_called())
    except OSError as error:
        raise Failure(os.fsencode(program) + b": " + reason(error)) from error


def answer_units(
    command: Command, session: Session, units: Iterable[Unit], answers: Optional[ElseAnswers] = None, is_explained: bool = True,
    place_of: Callable[[Unit], bytes] = lambda unit: unit.place(),
) -> int:
    """Answers lines one by one; those of a session with everybody else below their questions. At a terminal `why` has marks."""
    status, is_terminal = ANSWERED, os.isatty(1)
    marks = marks_of(session.folder) if is_terminal else NO_MARKS
    for unit in units:
        output, messages = answer_unit(session, unit if answers is None else answers.asked(unit))
        lines = marked(unit, output.lines(), marks) if is_terminal else output.lines()
        pieces: Iterator[bytes] = (shown(line) + b"\n" for line in lines) if is_terminal else output.pieces()
        if answers is not None:
            pieces = below_heading(unit, answers.first(unit.form(), lines), messages)
        for piece in pieces:
            command.write(piece)
        write_messages(command, place_of(unit), unit, messages, b"" if is_explained else None)
        status = REFUSED if is_refused(messages) else status
    return status


def answer_scripts(command: Command, program: str, folder: bytes, units: List[Unit], has_headings: bool) -> int:
    """Answers lines; with headings as a person reads them, each below its question, and with everybody else."""
    if not has_headings:
        with Session(program, folder) as session:
            return answer_units(command, session, units)
    texts = people_in(folder)
    answers = answers_over(folder, texts.passwd, units)
    with session_with(program, folder, *answers.everybody.with_both(texts)) as session:
        status = answer_units(command, session, units, answers)
    for line in beside(meta.meta_of(folder)) if answers.was_shown else ():
        command.say(line)
    return status


def answer_input(command: Command, program: str, folder: bytes, name: Optional[bytes]) -> int:
    """Answers the lines of standard input, which can be a script by name, each when it is read."""
    with open(0, "rb", closefd=False) as file, Session(program, folder) as session:
        units = read_units(b"", lines_of_file(file, b"standard input" if name is None else name))
        return answer_units(command, session, units, None, name is not None, lambda unit: b"line %d" % unit.number)


def leave(number: int, _frame: Optional[FrameType]) -> None:
    raise SystemExit(128 + number)


def take_signals() -> None:
    """At a prompt control-C ends a line, and not the command; the other signals end it as the one exception that
    prompt_toolkit's loop of events lets through at any moment."""
    for number in SIGNALS:
        if signal.getsignal(number) != signal.SIG_IGN:
            signal.signal(number, signal.default_int_handler if number == signal.SIGINT else leave)


@contextlib.contextmanager
def kept_terminal() -> Iterator[None]:
    """The terminal is set as before in the end, however the reader of a line ends."""
    before = termios.tcgetattr(0)
    try:
        yield
    finally:
        with contextlib.suppress(termios.error):  # It may be gone.
            termios.tcsetattr(0, termios.TCSADRAIN, before)


def dim(line: bytes) -> bytes:
    """A line at a terminal that is beside the answers."""
    if os.environ.get("NO_COLOR") or os.environ.get("TERM", "dumb") == "dumb":
        return line
    return b"\x1b[2m" + line.rstrip(b"\n") + b"\x1b[0m\n"


def run_prompt(command: Command, program: str, source: Source, given: argparse.Namespace) -> int:
    """Answers a person's lines. Only a prompt needs these parts of the package."""
    from ..model.people import Superusers, ids_in
    from .completion import Completer, read_page
    from .prompt import WORDS_OF_PROMPT, Prompt, find_toolkit, reader

    found, about = overview.read_texts(source.folder), meta.meta_of(source.folder)
    completer = Completer(read_page(), found.passwd, found.group, lambda: found.dump, WORDS_OF_PROMPT)

    def out(text: bytes) -> None:
        command.write(text)
        command.flush()

    take_signals()
    superusers = Superusers({} if given.with_root else ids_in(found.passwd))
    answers = answers_over(source.folder, found.passwd, [])
    texts = texts_with(source.folder, *answers.everybody.with_both(SnapshotTexts(found.passwd, found.group)))
    prompt = Prompt(lambda: Session(program, source.folder, texts), completer, out, dim, superusers,
                    marks_of(source.folder), answers, beside(about), not given.file_alone)
    with kept_terminal(), contextlib.closing(prompt):
        prompt.session.ask(b"")  # Fails where the program does not load the snapshot.
        out(shown(overview.summary(found, meta.named(source.shown, about))) + b"; `help` lists the tools, control-D ends\n")
        overview.say_notices(command, source, given.acl5)
        for warning in overview.warnings(found):
            command.say(warning)
        if find_toolkit() is None:
            command.say(b"without python3-prompt-toolkit, which is not installed: no completion")
        prompt.run(reader(completer))
    return ANSWERED


def answer_one(command: Command, given: argparse.Namespace, source: Source) -> int:
    """Answers over one snapshot."""
    check_texts(source.folder)
    program = find_program(given)
    if given.part:
        from .parts import worker

        return worker.write_part(command, program, source.folder, read_text("-"), given)
    if not given.scripts and os.isatty(0) and os.isatty(1):
        return run_prompt(command, program, source, given)
    if len(given.scripts) > 1 or given.headings:
        overview.say_notices(command, source, given.acl5)
        units = [unit for name in given.scripts or ["-"] for unit in read_text(name).units()]
        return answer_scripts(command, program, source.folder, units, given.headings)
    name = None if given.scripts in ([], ["-"]) else os.fsencode(given.scripts[0])
    if name is not None:
        take_script(given.scripts[0])
    overview.say_notices(command, source, given.acl5)
    if os.isatty(1):
        return answer_input(command, program, source.folder, name)
    if name is not None or os.isatty(2):
        return run_explained(command, program, source, name)
    become_program(program, source.folder)


def body(command: Command, words: List[str]) -> int:
    given = parse(words)
    if given.timeout is not None and not (given.each or given.hosts):
        raise Failure(b"--timeout is for --each and --hosts")
    if given.each and given.hosts:
        raise Failure(b"--each is for parts of one tree, and --hosts for servers: give one of them")
    if given.each or given.hosts:
        from .parts import several

        if given.dump is not None:
            raise Failure(b"--dump is one dump: make a folder of passwd, group and dump for each of several")
        answer = several.answer_parts if given.each else several.answer_hosts
        return answer(command, [given.snapshot, *given.scripts], given)
    with sources.opened(given) as source:
        return answer_one(command, given, source)
