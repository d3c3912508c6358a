"""The words of the commands that read their options themselves."""
from __future__ import annotations

from typing import Callable, Dict, List, Sequence, Tuple

from .messages import Failure

NO_OPTION, TAKES_A_WORD = ": is not an option", ": takes a word"
Values = Dict[str, List[str]]  # By each option, those that it came with, which are empty of one that takes none.


def read_options(words: List[str], taking: Sequence[str], alone: Sequence[str], fail: Callable[[str, str], Failure],
                 fault_of: Callable[[str, str], str] = lambda *_: "") -> Tuple[Values, List[str]]:
    """The values of the options at the begin of some words, and the words after them. An option of `taking` has its value after a
    sign, or as the next word, in which `fault_of` finds what is wrong. `fail` gets a word and what is wrong with it."""
    values: Values = {option: [] for option in (*taking, *alone)}
    rest = list(words)
    while rest and len(rest[0]) > 1 and rest[0].startswith("-"):
        word = rest.pop(0)
        option, sign, value = word.partition("=")
        if word == "--":
            break
        if option not in values or sign and option not in taking:
            raise fail(word, NO_OPTION)
        if option in taking and not sign:
            if not rest:
                raise fail(word, TAKES_A_WORD)
            value = rest.pop(0)
        fault = fault_of(option, value)
        if fault:
            raise fail(option, fault)
        values[option].append(value)
    return values, rest
