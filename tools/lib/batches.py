"""Edits of wrong/ that one check tries together, so that a crate is read once for all of them."""
from __future__ import annotations

import contextlib
from typing import Dict, List, NamedTuple

from .wrong_bodies import Fault, WrongBody, edited


class Batch(NamedTuple):
    """Edits of different functions of a crate that are tried together, and the texts of the files with all of them."""

    bodies: List[WrongBody]
    texts: Dict[str, str]

    @property
    def name(self) -> str:
        """The name of its check: that of the first edit, with how many follow."""
        first = self.bodies[0].name if self.bodies else "control"
        return f"{first}+{len(self.bodies) - 1}" if len(self.bodies) > 1 else first


# The check of the functions as they are.
CONTROL = Batch([], {})


def alone(body: WrongBody) -> Batch:
    return Batch([body], body.texts)


def batches(bodies: List[WrongBody], folder: str) -> List[Batch]:
    """All edits of the crate in a folder, each in the first batch that has no edit of its function, and in which it applies."""
    found: List[Batch] = []
    for body in bodies:
        for at, batch in enumerate(found):
            if all(other.function != body.function for other in batch.bodies):
                with contextlib.suppress(Fault):
                    found[at] = Batch([*batch.bodies, body], edited(body.lines, folder, batch.texts))
                    break
        else:
            found.append(alone(body))
    return found
