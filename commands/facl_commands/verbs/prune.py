"""facl prune: removes snapshots of the store but the last one of each of some days, weeks and months."""
from __future__ import annotations

import argparse
import datetime
from typing import Callable, Dict, Iterator, List, Tuple

from ..base.folders import remove_snapshot
from ..base.messages import Command, Failure, counted
from ..daily.folder import DailyFolder
from ..model import meta
from .store import TO_COME, Stored, place, snapshots_in

DONE, NOTHING = 0, 3
# The rules, each with the period of a time.
PERIODS: Dict[str, Callable[[datetime.datetime], Tuple[int, ...]]] = {
    "daily": lambda at: (at.year, at.month, at.day),
    "weekly": lambda at: at.isocalendar()[:2],
    "monthly": lambda at: (at.year, at.month),
}


def kept_by(rule: str, count: int, group: List[Stored]) -> Iterator[Tuple[Stored, bytes]]:
    """The last snapshot of each of the last periods, with why it stays; the newest snapshot comes first."""
    known: List[Tuple[int, ...]] = []
    for stored in group:
        taken = stored.taken()
        period = () if taken is None else tuple(PERIODS[rule](datetime.datetime.fromtimestamp(taken)))
        if period and period not in known and len(known) < count:
            known.append(period)
            yield stored, b"%s %d" % (rule.encode(), len(known))


def reasons_of(stored: List[Stored], counts: Dict[str, int]) -> Dict[bytes, List[bytes]]:
    """Why each snapshot stays; none where it goes. Snapshots of one host and the same folders are one group; what is
    imported, incomplete or of a time to come stays, and does not count."""
    found: Dict[bytes, List[bytes]] = {it.name: [] for it in stored}
    groups: Dict[Tuple[bytes, ...], List[Stored]] = {}
    for it in reversed(stored):
        if it.fault or it.about is meta.UNKNOWN or it.taken() is None:
            found[it.name].append(b"incomplete snapshot" if it.fault else b"imported")
        elif it.is_to_come():
            found[it.name].append(TO_COME)
        else:
            groups.setdefault((it.about.host, *it.about.folders), []).append(it)
    for group in groups.values():
        for rule, count in counts.items():
            for it, why in kept_by(rule, count, group):
                found[it.name].append(why)
    return found


def remove(command: Command, folder: DailyFolder, names: List[bytes]) -> int:
    """Removes snapshots, the oldest first; returns how many are gone."""
    gone = 0
    for name in names:
        if remove_snapshot(name, folder.descriptor):
            gone += 1
        else:
            command.say(name + b": has other files too, so these stay")
    return gone


def body(command: Command, given: argparse.Namespace) -> int:
    asked = {rule: getattr(given, "keep_" + rule) for rule in PERIODS}
    counts = {rule: int(count) for rule, count in asked.items() if count is not None}
    if not any(counts.values()):
        raise Failure(b"say what stays, as: facl prune --keep-daily 7 --keep-weekly 4 --keep-monthly 12")
    stored = snapshots_in(place())
    reasons = reasons_of(stored, counts)
    names = [it.name for it in stored if not reasons[it.name]]
    # While no facl-daily is at work; before anything is said of what goes.
    folder = DailyFolder(place()) if names and not given.dry_run else None
    for it in stored:
        why = reasons[it.name]
        command.tell(b"keep    " + it.name + b"  " + b", ".join(why) if why else b"remove  " + it.name)
    if not names:
        command.tell(b"nothing to remove")
        return NOTHING
    if folder is None:
        command.tell(b"would remove " + counted(len(names), "snapshot"))
        return DONE
    command.flush()
    command.tell(b"removed " + counted(remove(command, folder, names), "snapshot"))
    return DONE
