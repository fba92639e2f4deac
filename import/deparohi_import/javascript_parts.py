"""The JavaScript in a text, as far as it has to be looked at before a run."""

from typing import List

from .expressions import end_of
from .pattern import Pattern
from .references import REFERENCE

START = Pattern(r"\$[({]")


def parts_of_any(text: str) -> List[str]:
    """Returns the expressions of a text, with backslashes beside them, that are no references."""
    found, at = [], 0
    while True:
        start = START.search(text, at)
        if not start:
            return found
        if REFERENCE.match(text, start.start()):
            at = REFERENCE.match(text, start.start()).end()  # type: ignore
            continue
        end = end_of(text, start.start() + 1)
        if end is None:
            return found
        found.append(text[start.start() + 1 : end])
        at = end
