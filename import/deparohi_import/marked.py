"""Plain data that knows where it was read: objects and lists with their file and the lines of their entries."""

from typing import Any, Dict, List, Optional, Union


class Fields(dict):
    """An object: its file, its line, and the line of each key."""

    def __init__(self, file: str = "", line: Optional[int] = None) -> None:
        super().__init__()
        self.file, self.line = file, line
        self.lines: Dict[str, Optional[int]] = {}
        # Of an input of the root: whether its files are told with all that stands beside them.
        self.discovers = False
        # Of a process: the types of its inputs and outputs, expanded, once they are known.
        self.kinds: Any = None

    def put(self, key: str, value: Any, line: Optional[int] = None) -> None:
        """Sets an entry with its line, which is the object's where none is given."""
        self[key] = value
        self.lines[key] = self.line if line is None else line

    def line_of(self, key: str) -> Optional[int]:
        return self.lines.get(key, self.line)

    def like(self) -> "Fields":
        """Returns an empty object of the same place."""
        return Fields(self.file, self.line)


class Items(list):
    """A list: its file, its line, and the line of each item."""

    def __init__(self, file: str = "", line: Optional[int] = None) -> None:
        super().__init__()
        self.file, self.line = file, line
        self.lines: List[Optional[int]] = []

    def add(self, value: Any, line: Optional[int] = None) -> None:
        """Appends an item with its line, which is the list's where none is given."""
        self.append(value)
        self.lines.append(self.line if line is None else line)

    def line_at(self, index: int) -> Optional[int]:
        return self.lines[index] if index < len(self.lines) else self.line

    def like(self) -> "Items":
        """Returns an empty list of the same place."""
        return Items(self.file, self.line)


Marked = Union[Fields, Items]


def copied(value: Any) -> Any:
    """Returns a copy of which entries may be changed."""
    if isinstance(value, Fields):
        made: Any = value.like()
        for key, it in value.items():
            made.put(key, copied(it), value.line_of(key))
        return made
    if isinstance(value, Items):
        made = value.like()
        for at, it in enumerate(value):
            made.add(copied(it), value.line_at(at))
        return made
    return value


def object_of(node: Any, key: Any = None, **entries: Any) -> Fields:
    """Returns an object with these entries, of the place of an entry of a node."""
    line = node.line if key is None else node.line_of(key) if isinstance(node, Fields) else node.line_at(key)
    made = Fields(node.file, line)
    for name, it in entries.items():
        made.put({"of_class": "class", "into": "in"}.get(name, name), it)
    return made


def list_of(node: Any, items: Any) -> Items:
    """Returns a list of these items, of the place of a node."""
    made = Items(node.file, node.line)
    for it in items:
        made.add(it, getattr(it, "line", None))
    return made


def marked_of(node: Any, value: Any) -> Any:
    """Returns plain data as marked, of the place of a node."""
    if isinstance(value, (Fields, Items)):
        return value
    made: Any = value
    if isinstance(value, dict):
        made = Fields(node.file, node.line)
        for key, it in value.items():
            made.put(key, marked_of(node, it))
    elif isinstance(value, list):
        made = Items(node.file, node.line)
        for it in value:
            made.add(marked_of(node, it))
    return made
