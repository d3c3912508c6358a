"""The verbs: for each a row with what it does in one sentence, its words, and what it runs."""
from __future__ import annotations

import argparse
import difflib
import os
from typing import Callable, Dict, Iterator, List, NamedTuple, Optional, Tuple

from ..base.messages import Command, Failure, Parser
from . import prepare
from .options import BY_FIELD, FILE, FINDING, FINDINGS, GROUP, PATH, SNAPSHOT, USER, VERB, WORD

ANSWERED = ("program", "acl5")
CHOSEN = ("snapshot", *ANSWERED, "quiet")
PEOPLE = ("all_users", "with_root", "alone")
FORMS = ("json", "tsv")  # Of which a line takes one.
PRINTED = (*FORMS, "no_pager")
PLANNED = ("with_root", "alone", "full", "keep_going", "readers", "json", "output")
RECORDED = ("exclude", "cross_file_systems", "users", "readers")
RECORDING, ASKING, CHANGING, SHOWING = "Record", "Ask", "Change", "Show"
OF_PARTS = ("questions.audit.command", "questions.check.command", "verbs.why")  # And facl diff, which chooses two.
UNCHANGED = "nothing was changed"
NO_PLAN = "no plan was written"
NO_SNAPSHOT = "the snapshot that was begun is removed"


class Operand(NamedTuple):
    """A word of a verb, by its place."""

    name: str  # As --help has it.
    help: str
    kind: str = WORD
    nargs: Optional[str] = None  # Of argparse: one word without it.
    choices: Tuple[str, ...] = ()

    def field(self) -> str:
        """Where the parser puts it; `folder` is that of the snapshot."""
        name = {"FOLDER": "within", "EDITS": "script"}.get(self.name, self.name.lower())
        return {"within": "folders"}.get(name, name + "s") if self.nargs in ("*", "+") else name

    def usage(self) -> str:
        return {None: "%s", "?": "[%s]", "*": "[%s..]", "+": "%s.."}[self.nargs] % self.name


FOLDERS = Operand("FOLDER", "a folder or a file, with its whole name; those of the snapshot without it", PATH, "*")

A_USER = Operand("USER", "a user by name or id, or 'everybody else'", USER)
A_FILE = Operand("FILE", "a file or a folder, with its whole name", PATH)


class Verb(NamedTuple):
    """A verb. `words` are those of the command that it runs, by `words_of`; a module of this package has none, and
    takes what the parser read."""

    name: str
    operands: Tuple[Operand, ...]
    does: str
    options: Tuple[str, ...]  # Their fields.
    module: str
    words: str = ""
    group: str = ASKING
    one_of: Tuple[str, ...] = ()  # Options of which one has to be given.
    prepare: Callable[[Command, argparse.Namespace], None] = prepare.choose
    stopped: str = UNCHANGED  # What a signal does to it.
    goes_on: bool = False  # Whether its work is more than what it prints.
    instead: Tuple[str, str] = ("", "")  # An option, and the module that runs where it is given.
    is_watched: bool = True  # Whether what it is at is shown, and a signal answered, while it runs.

    def takes_parts(self) -> bool:
        """Whether it takes a snapshot in parts as one."""
        return self.module in OF_PARTS

    def usage(self) -> str:
        asked = " | ".join("--%s %s" % (it.replace("_", "-"), BY_FIELD[it].value) for it in self.one_of)
        return " ".join([self.name, *[asked] * bool(asked), *(it.usage() for it in self.operands)])


VERBS: Tuple[Verb, ...] = (
    Verb("snapshot", (Operand("FOLDER", "a folder, which is recorded with all below it", FILE, "+"),),
         "Records the users, the groups and the owners and ACLs of folders, as a new snapshot of the store.",
         ("exclude", "cross_file_systems", "split", "readers", "users", "program", "output", "quiet"),
         "snapshot.command",
         "--quiet?quiet -- @output @folders", RECORDING, prepare=prepare.new_snapshot, stopped=NO_SNAPSHOT,
         goes_on=True),
    Verb("snapshots", (), "Lists the snapshots of the store, the newest first.", PRINTED, "verbs.snapshots",
         group=RECORDING,
         prepare=prepare.nothing),
    Verb("prune", (), "Removes snapshots of the store, but the last one of each of some days, weeks and months.",
         ("keep_daily", "keep_weekly", "keep_monthly", "dry_run"), "verbs.prune", group=RECORDING,
         prepare=prepare.nothing,
         stopped="what is removed so far is removed"),
    Verb("import", (Operand("DUMP", "what getfacl -R printed", FILE),),
         "Makes a snapshot of what getfacl -R printed, on whatever host.", ("passwd", "group", *ANSWERED, "output"),
         "verbs.dumps",
         group=RECORDING, prepare=prepare.new_snapshot, stopped=NO_SNAPSHOT, goes_on=True),
    Verb("who", (Operand("PERMS", "read, write, enter, or letters of rwx; commas between several"), FOLDERS),
         "Says who may read, write or enter what is in a folder, and by which entries.",
         (*CHOSEN, *PEOPLE, "lists_alone", *PRINTED), "questions.who.command", "-- @perms @folder @folders"),
    Verb("why", (A_USER, A_FILE), "Says by which entries a user may do what with a file, or what is in the way.",
         (*CHOSEN, "alone", *PRINTED), "verbs.why"),
    Verb("user", (A_USER, FOLDERS), "Says what one user may do, folder by folder.",
         (*CHOSEN, "with_root", "alone", "depth", "lists_alone", *PRINTED), "questions.who.command",
         "--user=@user -- @folder @folders"),
    Verb("files", (FOLDERS,), "Lists the files that a user owns, or of which an entry names a user.",
         (*CHOSEN, *PRINTED, "owner", "naming"), "questions.who.command",
         "--owner=@owner --names=@naming -- @folder @folders",
         one_of=("owner", "naming")),
    Verb("who-removes", (A_FILE,), "Says who may remove a file, by its parent directory.",
         (*CHOSEN, *PEOPLE, "lists_alone", *PRINTED), "questions.who.command", "--remove=@file -- @folder"),
    Verb("new-file", (Operand("FOLDER", "where the file is made", PATH), Operand("USER", "a user by name or id", USER)),
         "Says which ACL a new file gets that a user makes in a folder, and who may then do what with it.",
         (*CHOSEN, *PEOPLE, "umask", "lists_alone", *PRINTED), "questions.who.command",
         "--new-file @within @user @folder"),
    Verb("diff", (Operand("OLD", "a snapshot; the last but one of the store without it", SNAPSHOT, "?"),
                  Operand("NEW", "a later one; the last one of the store without it", SNAPSHOT, "?")),
         "Says who gained and lost what between two snapshots, and why.",
         (*ANSWERED, "quiet", *PEOPLE, "below", "any_host", "full", *PRINTED, "output"), "questions.diff.command",
         "--page=@output -- @before @after @below", prepare=prepare.two),
    Verb("audit", (FOLDERS,), "Says what is wrong with owners and ACLs, by weight, and how many files it is about.",
         (*CHOSEN, *PEOPLE, "list", "weight", "accepted", "fail_on", *PRINTED, "output"), "questions.audit.command",
         "--page=@output -- @folder @folders"),
    Verb("audit fix", (Operand("FINDING", "a finding of `facl audit`", FINDING, None, FINDINGS), FOLDERS),
         "Prints the lines of edits that mend all files of one finding; look at them, and give them to `facl plan`.",
         (*CHOSEN, *PEOPLE, "accepted"), "questions.audit.command", "--edits=@finding -- @folder @folders"),
    Verb("check", (Operand("RULES", "a file of rules, or - for standard input", FILE),),
         "Checks that rules hold, as `never guest read /srv/hr/`.", (*CHOSEN, *PEOPLE, *PRINTED),
         "questions.check.command",
         "--quiet?quiet -- @folder @rules"),
    Verb("rules", (FOLDERS,), "Prints the rules that hold now on folders, as a start.", (*CHOSEN, *PEOPLE),
         "questions.check.command",
         "--write -- @folder @folders"),
    Verb("plan", (Operand("EDITS", "a file of edits, or - for standard input", FILE, "*"),),
         "Says what edits would change, and for whom, and writes a plan of them.",
         (*CHOSEN, "with_root", "alone", "edit", "full", "keep_going", "readers", "json", "output"), "plan.command",
         "--plan=@output -- @folder @scripts", CHANGING, prepare=prepare.plan, goes_on=True, stopped=NO_PLAN),
    Verb("restore", (Operand("FOLDER", "what gets its older owners and ACLs back, with all below it", PATH),),
         "Plans to give a folder the owners, groups, flags and ACLs that it has in an older snapshot.",
         (*CHOSEN, "now", *PLANNED), "plan.command", "--plan=@output -- @folder @scripts", CHANGING, prepare=prepare.restore,
         goes_on=True, stopped=NO_PLAN),
    Verb("move-group", (Operand("FOLDER", "where, with all below it", PATH),
                        Operand("OLDGROUP", "the group that loses what it has there, by name or id", GROUP),
                        Operand("NEWGROUP", "the group that gets it", GROUP)),
         "Plans to give what a group owns in a folder, and its entries in ACLs, to another group.",
         (*CHOSEN, *PLANNED), "plan.command", "--plan=@output -- @folder @scripts", CHANGING, prepare=prepare.move_group,
         goes_on=True, stopped=NO_PLAN),
    Verb("open", (A_FILE, Operand("USER", "a user by name or id", USER),
                  Operand("PERMS", "read, write, enter, or letters of rwx; commas between several")),
         "Plans the fewest entries by which a user may do something with a file, and get to it.",
         (*CHOSEN, *PLANNED), "plan.command", "--plan=@output -- @folder @scripts", CHANGING, prepare=prepare.open_file,
         goes_on=True, stopped=NO_PLAN),
    Verb("apply", (Operand("PLAN", "the folder that `facl plan` wrote", FILE),),
         "Gives the files of a plan their new owners, groups and ACLs; all of them, or none.",
         ("dry_run", "drop_capabilities"), "apply.command", "--dry-run?dry_run -- @plan", CHANGING,
         prepare=prepare.nothing, goes_on=True,
         stopped="the files get their old ACLs back"),
    Verb("undo", (Operand("PLAN", "the folder of a plan that was applied", FILE),),
         "Gives the files of a plan their old owners, groups and ACLs back.",
         ("dry_run", "leave_changed", "drop_capabilities"), "apply.command", "--undo --dry-run?dry_run -- @plan",
         CHANGING,
         prepare=prepare.nothing, goes_on=True, stopped="all files get their old ACLs back before it ends"),
    Verb("leaver", (Operand("USER", "a user by name or id", USER),),
         "Plans what takes a user away: entries, files, memberships and the account; says what remains.",
         (*CHOSEN, *PLANNED, "to"), "plan.command",
         "--plan=@output -- @folder @scripts", CHANGING, prepare=prepare.leaver, goes_on=True, stopped=NO_PLAN),
    Verb("joiner", (Operand("NEWUSER", "a user by name or id", USER), FOLDERS),
         "Plans the entries and memberships that a user needs to have what another one has.",
         (*CHOSEN, *PLANNED, "like"), "plan.command",
         "--plan=@output -- @folder @scripts", CHANGING, ("like",), prepare.joiner, goes_on=True, stopped=NO_PLAN),
    Verb("page", (Operand("EDITS", "a file of edits: the page has what they change, too", FILE, "*"),),
         "Writes one HTML page of the whole tree to look at, which needs no network.",
         (*CHOSEN, "with_root", "alone", "output"), "page.command", "--output=@output -- @folder @scripts", SHOWING,
         stopped="no page was written"),
    Verb("review", (Operand("FOLDER", "the folder that its owner is to review", PATH),),
         "Writes an HTML page for the owner of a folder, with a box at each entry that can go.",
         (*CHOSEN, *PEOPLE, "output"), "page.command", "--for-review --folder=@within --output=@output -- @folder",
         SHOWING,
         stopped="no page was written"),
    Verb("ask", (Operand("SCRIPT", "a file of questions and edits, or - for standard input; a prompt without it", FILE,
                         "*"),),
         "Answers a script of questions and edits, or asks you for them at a prompt.",
         (*CHOSEN, "with_root", "alone", "headings", "each", "hosts", "timeout"), "ask.command", "-- @snapshots @scripts",
         prepare=prepare.ask, is_watched=False),
    Verb("daily", (Operand("FOLDER", "a folder that is recorded each day, with its whole name", FILE, "+"),),
         "Records folders and says, or mails, what there is to look at; a timer or cron runs it.",
         ("install", "mail", "rules", "accepted", "weight", "fail_on", "keep", "split", *RECORDED, "acl5"), "daily.command",
         "--folder=@store --snapshot=@recording -- @folders", RECORDING, prepare=prepare.daily,
         stopped="the snapshot that was begun is removed", goes_on=True, instead=("install", "verbs.timer")),
    Verb("help", (Operand("VERB", "opens the page of this verb", VERB, "*"),),
         "Lists the verbs, or opens the page of one.", (),
         "verbs.help", group=SHOWING, prepare=prepare.nothing, is_watched=False),
)
# What a shell calls, and nobody types.
COMPLETE = Verb("complete", (Operand("KIND", "bash, zsh or fish: the completion of that shell; or a kind of words",
                                     WORD, None,
                                     ("bash", "zsh", "fish", USER, GROUP, SNAPSHOT, FINDING, VERB, PATH)),
                             Operand("WORD", "what is typed so far", WORD, "?")),
                "Prints what a shell completes the words of facl by.", (), "verbs.completion", prepare=prepare.nothing,
                is_watched=False)
BY_VERB: Dict[str, Verb] = {verb.name: verb for verb in (*VERBS, COMPLETE)}
# Words that somebody may try who does not know the verbs.
MEANT: Dict[str, str] = {
    "list": "snapshots", "ls": "snapshots", "forget": "prune", "report": "page", "show": "who", "can": "user",
    "may": "user",
    "explain": "why", "names": "files", "owner": "files", "delete": "who-removes", "remove": "who-removes",
    "rm": "who-removes",
    "compare": "diff", "changes": "diff", "find": "audit", "findings": "audit", "fix": "audit fix", "mend": "audit fix",
    "test": "check", "edit": "plan", "revert": "undo", "rollback": "undo", "prompt": "ask",
    "record": "snapshot",
    "html": "page", "man": "help", "grant": "open", "allow": "open", "chgrp": "move-group",
    "offboard": "leaver", "leave": "leaver", "onboard": "joiner", "join": "joiner",
}


def no_verb(word: str) -> Failure:
    """Says that a word is no verb, and which ones may be meant."""
    near = difflib.get_close_matches(word, [verb.name for verb in VERBS], cutoff=0.7)
    meant = list(dict.fromkeys([*([MEANT[word]] if word in MEANT else []), *near]))
    hint = "did you mean %s?" % " or ".join(meant) if meant else "facl help lists them"
    return Failure(os.fsencode(word) + b": no such verb; " + hint.encode())


def parser_of(verb: Verb) -> argparse.ArgumentParser:
    """What reads the words of a verb."""
    parser = Parser(
        prog="facl " + verb.name, description=verb.does, allow_abbrev=False, add_help=False,
        epilog="facl help %s opens its page, with examples." % verb.name)
    parser.usage = "facl " + verb.usage() + " [OPTION]..."
    for it in verb.operands:
        action = parser.add_argument(it.field(), metavar=it.name, help=it.help, choices=it.choices or None)
        action.nargs, action.required = it.nargs, it.nargs in (None, "+")
    group: argparse._ActionsContainer = parser.add_mutually_exclusive_group(required=True) if verb.one_of else parser
    form = parser.add_mutually_exclusive_group()
    for field in verb.options:
        BY_FIELD[field].add_to(group if field in verb.one_of else form if field in FORMS else parser)
    parser.add_argument("-h", "--help", action="help", help="print this")
    return parser


def words_of(verb: Verb, given: argparse.Namespace) -> List[str]:
    """The words of the command that the verb runs: options that both have, and those of the row. There `@F` is the
    value of the field F, or each of its values, `--x=@F` that of an option, and `--x?F` an option where F is set."""
    carried = [it for it in map(BY_FIELD.__getitem__, verb.options) if it.command]
    return [word for it in carried for word in of_option(it.command, getattr(given, it.field()))] + [
        word for token in verb.words.split() for word in of_token(token, given)]


def values_of(value: object) -> List[str]:
    return [] if value is None else [*map(str, value)] if isinstance(value, list) else [str(value)]


def of_option(name: str, value: object) -> Iterator[str]:
    if isinstance(value, bool):
        yield from [name] * value
    else:
        yield from ("%s=%s" % (name, it) for it in values_of(value))


def of_token(token: str, given: argparse.Namespace) -> List[str]:
    sign = next((it for it in ("?", "=@", "@") if it in token), "")
    if not sign:
        return [token]
    name, _, field = token.partition(sign)
    value = getattr(given, field)
    return [*of_option(name, bool(value) if sign == "?" else value)] if name else values_of(value)
