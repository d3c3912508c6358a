"""Values that are kept once, each with a number."""
from __future__ import annotations

from typing import Dict, Generic, Hashable, List, TypeVar

Value = TypeVar("Value", bound=Hashable)


class Numbered(Generic[Value]):
    """Values that many files share, each with a number."""

    def __init__(self) -> None:
        self.numbers: Dict[Value, int] = {}
        self.values: List[Value] = []  # By number.

    def number(self, value: Value) -> int:
        found = self.numbers.setdefault(value, len(self.values))
        if found == len(self.values):
            self.values.append(value)
        return found


class Numbers(Dict[Value, int]):
    """The same by values alone, in the order of their numbers; one that is looked up for the first time gets the next."""

    def __missing__(self, value: Value) -> int:
        number = self[value] = len(self)
        return number
