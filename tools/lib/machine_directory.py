"""The part `ldap` of checks/machine.py: users and groups of slapd, by sssd, beside what the kernel of the machine grants them.

The users, the groups and their ids are those of lib/job_tree.py, and one more user, whom no file and no group names. All is done
once where sssd lists its users (enumerate = true), and once where it answers names alone.
"""
from __future__ import annotations

import json
import random
import time
from typing import Dict, FrozenSet, List, Set, Tuple

from .job_tree import END, ENDED, GROUPS, IDS, LETTERS, LOCAL, OF_SERVICE, PERMISSIONS, SERVICE_GROUPS, SHARE, USERS
from .job_tree import Rights, unlike
from .jobs_that_ask import QUESTIONS, count_of
from .machine import Machine
from .script import Failed

UNNAMED, UNNAMED_ID = "vera", 200009
BASE, PASSWORD = "dc=example,dc=org", "secret"
ROOT_ENTRY = f"dn: olcDatabase={{1}}mdb,cn=config\nchangetype: modify\nreplace: olcRootPW\nolcRootPW: {PASSWORD}\n"
CONFIGURATION = """\
[sssd]
services = nss
domains = dir
[nss]
[domain/dir]
id_provider = ldap
auth_provider = none
access_provider = permit
ldap_uri = ldap://127.0.0.1
ldap_search_base = %s
ldap_id_use_start_tls = false
enumerate = %s
"""
# Asks access(2) as each user of the words, on each file of standard input.
ACCESS = r"""
import os, pwd, sys
paths = sys.stdin.read().splitlines()
for user in sys.argv[1:]:
    row = pwd.getpwnam(user)
    sys.stdout.flush()
    if os.fork() == 0:
        os.initgroups(user, row.pw_gid)
        os.setresgid(row.pw_gid, row.pw_gid, row.pw_gid)
        os.setresuid(row.pw_uid, row.pw_uid, row.pw_uid)
        for path in paths:
            for letter, mode in zip("rwx", (os.R_OK, os.W_OK, os.X_OK)):
                if os.access(path, mode):
                    print(user, letter, path, sep="\t")
        sys.stdout.flush()
        os._exit(0)
    os.wait()
"""
FILES, WHY = 60, 2


def entries() -> str:
    """The directory, as ldapadd takes it."""
    lines = [f"dn: ou={name},{BASE}\nobjectClass: organizationalUnit\nou: {name}\n" for name in ("people", "groups")]
    for user, (uid, gid) in {**OF_SERVICE, UNNAMED: (UNNAMED_ID, 210000)}.items():
        lines.append(f"dn: uid={user},ou=people,{BASE}\nobjectClass: account\nobjectClass: posixAccount\nuid: {user}\n"
                     f"cn: {user}\nuidNumber: {uid}\ngidNumber: {gid}\nhomeDirectory: /nonexistent\nloginShell: /bin/sh\n")
    for group, (gid, members) in SERVICE_GROUPS.items():
        lines.append(f"dn: cn={group},ou=groups,{BASE}\nobjectClass: posixGroup\ncn: {group}\ngidNumber: {gid}\n"
                     + "".join(f"memberUid: {it}\n" for it in filter(None, members.split(","))))
    return "\n".join(lines)


def tree_script(chance: random.Random) -> str:
    """The lines that make a tree of owners, modes and lists, of local users and those of the directory."""
    folders, lines, ids = [SHARE], [f"rm -rf {SHARE}; mkdir {SHARE}"], [uid for uid, _ in IDS.values()]
    for number in range(FILES):
        path = f"{chance.choice(folders)}/f{number}"
        is_folder = chance.random() < 0.2
        folders += [path] * is_folder
        named = [f"u:{it}:{chance.choice(PERMISSIONS)}" for it in chance.sample(USERS, 3)]
        named += [f"g:{it}:{chance.choice(PERMISSIONS)}" for it in chance.sample([*GROUPS, *SERVICE_GROUPS], 2)]
        lines.append(f"mkdir {path}" if is_folder else f"echo >{path}")
        lines.append(f"chown {chance.choice(ids)}:{chance.choice((71100, 71200, 210000, 71001))} {path}")
        lines.append(f"chmod {chance.choice(('755', '775', '750', '640', '606'))} {path}; setfacl -m {','.join(named)} {path}")
        lines.append(f"setfacl -n -m m::{chance.choice(('r--', 'r-x', 'rw-', 'rwx'))} {path}")
    return "\n".join(lines) + "\n"


class DirectoryPart:
    """The directory and the tree, and the answers beside the kernel's."""

    def __init__(self, machine: Machine, seed: int) -> None:
        self.machine, self.chance = machine, random.Random(seed)
        self.faults: List[str] = []
        self.answers = 0

    def start(self) -> None:
        """Starts the machine and its directory, and makes the local users."""
        self.machine.start()
        run = self.machine.run
        people = [f"groupadd -g {gid} {name}" for name, (gid, _) in GROUPS.items()]
        people += [f"useradd -M -u {uid} -g {gid} {name}" for name, (uid, gid) in LOCAL.items()]
        run("set -e; " + "; ".join(people))
        # gpasswd takes local users alone; an administrator edits the line.
        memberships = [(name, members) for name, (_, members) in GROUPS.items() if members]
        run("set -e; " + "; ".join(f"sed -i 's/^{name}:.*/&{members}/' /etc/group" for name, members in memberships))
        run("systemctl start slapd && ldapmodify -Q -Y EXTERNAL -H ldapi:///", ROOT_ENTRY)
        run(f"ldapadd -x -D cn=admin,{BASE} -w {PASSWORD}", entries())

    def serve(self, enumerate_users: bool) -> None:
        """Starts sssd anew, with an empty cache."""
        self.machine.run("systemctl stop sssd; rm -rf /var/lib/sss/db/* /var/lib/sss/mc/*; umask 077; cat >/etc/sssd/sssd.conf; "
                         "systemctl start sssd", CONFIGURATION % (BASE, str(enumerate_users).lower()))
        last = time.monotonic() + 60 * self.machine.scale
        words = "getent passwd stefan >/dev/null && getent group dirlaw | grep -q tina"
        while self.machine.ask(words + " && getent passwd | grep -q ^stefan:" * enumerate_users).status:
            if time.monotonic() > last:
                raise Failed(f"sssd does not answer: {self.machine.ask('journalctl -b -u sssd -n 20').out}")
            time.sleep(1)
        listed = "stefan:" in self.machine.out("getent passwd")
        if listed != enumerate_users:
            raise Failed("sssd lists its users, or does not, against its setting")

    def facl(self, words: str, given: str = "", statuses: Tuple[int, ...] = (0, 1)) -> str:
        return self.machine.run(f"cd /root; facl {words}", given, statuses).out

    def rows(self, words: str) -> List[List[str]]:
        return [line.split("\t") for line in self.facl(f"{words} --tsv").splitlines()[1:]]

    def granted(self, users: Tuple[str, ...] = USERS) -> Rights:
        """What the kernel grants each user on the tree."""
        paths = self.machine.out(f"find {SHARE}")
        found: Dict[str, Set[Tuple[str, str]]] = {user: set() for user in users}
        for line in self.machine.out(f"python3 -c '{ACCESS}' {' '.join(users)}", paths).splitlines():
            user, letter, path = line.split("\t")
            found[user].add((path, letter))
        self.answers += len(users) * paths.count("\n") * len(LETTERS)
        return {user: frozenset(its) for user, its in found.items()}

    def answered(self) -> Rights:
        """What facl answers of the newest snapshot."""
        pairs = [(user, letter) for user in USERS for letter in LETTERS]
        texts = self.facl("ask -q -", "".join(f"may --reach {user} {letter}\n{END}\n" for user, letter in pairs)).split(ENDED)
        found: Dict[str, FrozenSet[Tuple[str, str]]] = {user: frozenset() for user in USERS}
        for (user, letter), text in zip(pairs, texts):
            lines = {"/" + line.rstrip("/") for line in text.splitlines()}
            found[user] |= {(line, letter) for line in lines if f"{line}/".startswith(f"{SHARE}/")}
        return found

    def compare(self, what: str) -> Rights:
        """Takes a snapshot; all its answers are those of the kernel."""
        self.facl(f"snapshot -q {SHARE}", statuses=(0,))
        rights = self.granted()
        self.faults += unlike(f"{what}: kernel and facl differ", rights, self.answered())
        for word, letter in QUESTIONS:
            said = {row[0]: row[1] for row in self.rows(f"who {word} {SHARE}")}
            wanted = {user: str(count_of(rights, user, letter, SHARE)) for user in USERS}
            self.faults += [f"{what}: who {word}: {user}: {said.get(user, '0')}, and {its} by the kernel"
                            for user, its in wanted.items() if said.get(user, "0") != its]
        for user in OF_SERVICE:
            rows = {row[0]: row[3:6] for row in self.rows(f"user {user} {SHARE}")}
            here = rows.get(SHARE, ["0"] * 3)
            wanted_here = [str(count_of(rights, user, letter, SHARE)) for _, letter in QUESTIONS]
            self.faults += [f"{what}: user {user}: {here}, and {wanted_here} by the kernel"] * (here != wanted_here)
            for path in self.chance.sample(sorted({path for its in rights.values() for path, _ in its}), WHY):
                answer = json.loads(self.facl(f"why {user} {path} --json"))
                its = {letter for it, letter in rights[user] if it == path}
                self.faults += [f"{what}: why: {answer['sentence']}; by the kernel {its}"] * ({*answer["rights"]} != its)
        return rights

    def plan(self, what: str, before: Rights) -> None:
        """A plan for users of the directory: those change of whom it says so; and it is taken back."""
        path = self.chance.choice(sorted(path for path, letter in before["anna"] if letter == "r"))
        edits = f"setfacl -m u:tina:rwx,g:dirlaw:rwx {path}\nchown stefan {path}\n"
        said = self.facl("plan -q -o /root/edits.plan --json -", edits)
        self.facl("apply /root/edits.plan", statuses=(0,))
        after = self.compare(f"{what}, after a plan")
        changed = {user for user in USERS if after[user] != before[user]}
        named = {row["user"] for row in json.loads(said)["changes"]} & {*USERS}
        differs = f"{what}: the plan says that {sorted(named)} change, and {sorted(changed)} do by the kernel"
        self.faults += [differs] * (named != changed)
        self.facl("undo /root/edits.plan", statuses=(0,))
        self.faults += unlike(f"{what}: after an undo", self.granted(), before)
        self.machine.run("rm -r /root/edits.plan")

    def unnamed(self, what: str) -> None:
        """A user of the directory whom nothing names is none of the snapshot, which is said, and may do what everybody else."""
        done = self.machine.ask(f"facl why {UNNAMED} {SHARE}")
        known = done.status == 2 and UNNAMED in done.err
        self.faults += [f"{what}: why {UNNAMED}: status {done.status}: {done.both()}"] * (not known)
        answer = json.loads(self.facl(f"why 'everybody else' {SHARE} --json"))
        its = {letter for path, letter in self.granted((UNNAMED,))[UNNAMED] if path == SHARE}
        self.faults += [f"{what}: everybody else: {answer['sentence']}; by the kernel {its}"] * ({*answer["rights"]} != its)

    def run(self) -> str:
        """Does all of it, with both settings of sssd."""
        self.start()
        for is_listing in (False, True):
            what = f"enumerate = {str(is_listing).lower()}"
            self.serve(is_listing)
            self.machine.run("sh -e", tree_script(self.chance))
            self.machine.run("sleep 1")
            before = self.compare(what)
            self.plan(what, before)
            self.unnamed(what) if not is_listing else None
        return (f"ldap: {FILES} files, {len(OF_SERVICE)} users of slapd and {len(LOCAL)} others, by sssd that lists users and "
                f"that does not, {self.answers} answers")
