"""What an import found: what it rewrote, what it left that the runner refuses, and what is wrong."""

from typing import Any, List, NamedTuple, Optional, Set

from .visible import visible

REWRITTEN, IGNORED, LEFT, WRONG = "rewritten", "ignored", "left", "wrong"


class Finding(NamedTuple):
    """One line of the report. `feature` is the name under which such findings are counted."""

    kind: str
    file: str
    line: int
    feature: str
    words: str

    def text(self) -> str:
        place = f"{self.file}:{self.line}" if self.line else self.file
        return visible(f"{self.kind}: {place}: {self.feature}: {self.words}")


class Findings:
    """The findings of one import, each once."""

    def __init__(self) -> None:
        self.all: List[Finding] = []
        self.seen: Set[Finding] = set()

    def add(self, kind: str, node: Any, key: Any, feature: str, words: str) -> None:
        """Adds a finding at an entry of a marked object or list, or at the whole where the key is None."""
        file, line = place_of(node, key)
        found = Finding(kind, file, line or 0, feature, words)
        if found not in self.seen:
            self.seen.add(found)
            self.all.append(found)

    def mark(self) -> int:
        """Returns how many findings there are, to come back to."""
        return len(self.all)

    def back_to(self, mark: int) -> List[Finding]:
        """Takes the findings since a mark out, and returns them."""
        taken = self.all[mark:]
        del self.all[mark:]
        self.seen.difference_update(taken)
        return taken

    def put(self, found: Finding) -> None:
        """Adds a finding that was taken out."""
        if found not in self.seen:
            self.seen.add(found)
            self.all.append(found)

    def of(self, kind: str) -> List[Finding]:
        return [it for it in self.all if it.kind == kind]

    def status(self) -> int:
        """Returns 1 where something is wrong, 33 where the runner would refuse something, else 0."""
        return 1 if self.of(WRONG) else 33 if self.of(LEFT) else 0


def place_of(node: Any, key: Any) -> "tuple[str, Optional[int]]":
    if isinstance(key, str) and hasattr(node, "line_of"):
        return node.file, node.line_of(key)
    if isinstance(key, int) and hasattr(node, "line_at"):
        return node.file, node.line_at(key)
    return getattr(node, "file", ""), getattr(node, "line", None)
