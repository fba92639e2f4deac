"""What is evaluated apart by `node`, in a tool of its own: texts, each for one output."""

import os
from typing import Any, List, NamedTuple, Optional

from .expressions import Part
from .marked import Fields, list_of, object_of

COMMAND = "node"
# A type that every value fits, and that of what becomes words: a number with a fraction is the text that it is there.
ANYTHING = ("null", "Any")
WORDS = ("null", "boolean", "double", "File", "Directory")


class Task(NamedTuple):
    """One text to evaluate.

    Its value is the output `to`. `self` in it is the input `of`, or null. A task that skips gives null for a null.
    """

    to: str
    parts: List[Part]
    of: Optional[str] = None
    skips: bool = False

    def text(self) -> str:
        return "".join(f"${it.text}" if it.is_code else it.text for it in self.parts)


def is_there() -> bool:
    """Says whether node is in PATH."""
    return any(os.access(os.path.join(it, COMMAND), os.X_OK) and os.path.isfile(os.path.join(it, COMMAND)) for it in os.environ.get("PATH", os.defpath).split(os.pathsep))


def parameter(node: Fields, name: str, kind: Any = ANYTHING, **more: Any) -> Fields:
    """Returns an input or output of a name and a type."""
    return object_of(node, id=name, type=list_of(node, kind) if isinstance(kind, tuple) else kind, **more)


def words(node: Fields, name: str) -> Fields:
    """Returns the output of a text whose value becomes words of a command, or a name."""
    listed = list_of(node, [*WORDS, object_of(node, type="array", items=list_of(node, WORDS))])
    return object_of(node, id=name, type=listed)
