"""The walk through a scope, shared by processes, with what they find in the order of paths."""
from __future__ import annotations

import os
import select
from functools import partial
from typing import IO, Generator, List, Optional, Union

from ..base import workers
from ..base.live import PLACES
from ..base.workers import Helper, receive, send
from .runs import LeftOut
from .walking import MANY, START_OF_ALL, Rest, Walked, Walker

MOST_WAITING = 32  # Finds that wait for what is before them.


def cut_size(rest: Rest, processes: int) -> int:
    """How many names of a rest a process gets: fewer than all, so that the others have something near, and not so few that they are
    not worth their way."""
    least, most = max(1, MANY // (4 * rest.weight)), max(1, MANY // rest.weight)
    return min(rest.number, max(least, min(most, rest.number // (2 * processes))))


class Follower(Helper):
    """A process that walks what it is given."""

    def __init__(self, walker: Walker) -> None:
        self.walker = walker
        self.rest: Optional[Rest] = None  # What it is at.
        come, go = os.pipe()
        self.come, self.rests = open(come, "rb"), open(go, "wb")
        super().__init__(PLACES.begin_in_own_process, keeps_signals=False)
        self.come.close()

    def answer(self, file: IO[bytes]) -> None:
        """Walks until there is nothing more."""
        self.work()
        for rest in iter(partial(receive, self.come), None):
            rows, left_out, rests = self.walker.walk(Rest(*rest))  # type: ignore[misc]
            send(file, (rows, (left_out.numbers, left_out.first, left_out.mounts), [tuple(it) for it in rests]))

    def give(self, rest: Rest) -> None:
        self.rest = rest
        try:
            send(self.rests, tuple(rest))
        except BrokenPipeError:
            pass  # It ended, which `take` finds.

    def take(self) -> Optional[Walked]:
        """What it found; None where the process ended before."""
        found = self.result()
        if not isinstance(found, tuple):
            return None
        rows, left_out, rests = found
        return Walked(rows, LeftOut(*left_out), [Rest(*it) for it in rests])

    def end(self) -> None:
        super().end()
        try:
            self.rests.close()
        except BrokenPipeError:
            pass


# What was found and waits for what is before it, who walks, and what is still to be looked at, in the order of paths.
Line = List[Union[Walked, Follower, Rest]]


def next_rest(line: Line, place: int, processes: int) -> Rest:
    """Takes the first names out of a rest of the line."""
    rest = line.pop(place)
    assert isinstance(rest, Rest)
    first, left = rest.cut(cut_size(rest, processes))
    if left.number:
        line.insert(place, left)
    return first


def found_by(walker: Walker) -> Generator[Walked, None, None]:
    """What is found, in the order of paths: of a large tree as root by several processes, and else by this one alone."""
    processes = min(workers.MOST, os.cpu_count() or 1) if os.geteuid() == 0 else 1
    line: Line = [START_OF_ALL]
    number, can_share = 0, processes > 1
    followers: List[Follower] = []
    try:
        while line:
            if can_share and number > workers.MANY:
                can_share = False
                followers.extend(Follower(walker) for _ in range(processes))
            if followers:
                share(line, followers)
            else:
                walked = walker.walk(next_rest(line, 0, processes))
                line[:0] = [walked, *walked.rests]
            while line and isinstance(line[0], Walked):
                number += len(line[0].rows) + line[0].left_out.total()
                yield line[0]
                del line[0]
    finally:
        for follower in followers:
            follower.end()


def share(line: Line, followers: List[Follower]) -> None:
    """Gives rests to the processes that have none, and takes what comes first."""
    for follower in followers:
        place = next((place for place, it in enumerate(line) if isinstance(it, Rest)), None)
        waiting = sum(isinstance(it, Walked) for it in line)
        if follower.rest is None and place is not None and (place == 0 or waiting < MOST_WAITING):
            follower.give(next_rest(line, place, len(followers)))
            line.insert(place, follower)
    busy = {it.reader.fileno(): it for it in followers if it.rest is not None}
    for descriptor in select.select([*busy], [], [])[0]:
        follower = busy[descriptor]
        place, walked = line.index(follower), follower.take()
        if walked is not None:
            line[place : place + 1] = [walked, *walked.rests]
            follower.rest = None
        elif follower.rest is not None:  # It ended: another one has its rest.
            line[place] = follower.rest
            followers.remove(follower)
            follower.end()
