"""Makes plain data of the events of the YAML library, with lines, and within limits."""

from typing import Any, Dict, Iterator, List, Optional

from .fault import ImportFault
from .marked import Fields, Items
from .scalars import STANDARD, plain_scalar, tagged_scalar
from .yaml_library import FAST, YAMLError, events_of, slow_events_of

MOST_NESTING = 100
MOST_VALUES = 300_000
MOST_CHARACTERS = 16 << 20
MERGE = "<<"
# The parser in C refuses some YAML, as `[int?]`. What it refuses is tried again by the other one, up to this length.
MOST_SLOW = 1 << 19
HALF = "a text has half of a pair of surrogates"


class Frame:
    """An object or a list whose end has not been read yet."""

    def __init__(self, node: Any, anchor: Optional[str]) -> None:
        self.node, self.anchor = node, anchor
        self.key: Optional[str] = None
        self.key_line: Optional[int] = None
        self.merged: List[Fields] = []


class Builder:
    """Takes the events of one text, one after the other."""

    def __init__(self, file: str) -> None:
        self.file = file
        self.open: List[Frame] = []
        self.anchors: Dict[str, Any] = {}
        self.sizes: Dict[str, tuple] = {}
        self.values = self.characters = self.documents = 0
        self.root: Any = None

    def fault(self, words: str, line: Optional[int]) -> ImportFault:
        return ImportFault(words, self.file, line)

    def count(self, values: int, characters: int, line: int) -> None:
        self.values += values
        self.characters += characters
        if self.values > MOST_VALUES or self.characters > MOST_CHARACTERS:
            raise self.fault(f"with its aliases written out the file has more than {MOST_VALUES} values or {MOST_CHARACTERS} characters", line)

    def take(self, event: Any) -> None:
        kind, line = type(event).__name__, event.start_mark.line + 1
        if kind == "DocumentStartEvent":
            self.documents += 1
            if self.documents > 1:
                raise self.fault("a second YAML document begins here, and a file has to have one", line)
        elif kind == "ScalarEvent":
            self.scalar(event, line)
        elif kind == "AliasEvent":
            self.alias(event.anchor, line)
        elif kind in ("MappingStartEvent", "SequenceStartEvent"):
            self.begin(kind, event, line)
        elif kind in ("MappingEndEvent", "SequenceEndEvent"):
            self.end(line)

    def scalar(self, event: Any, line: int) -> None:
        self.count(1, len(event.value), line)
        # (the parser in C gives none)
        if not event.value.isascii() and is_half(event.value):
            raise self.fault(HALF, line)
        value = self.value_of(event, line)
        if event.anchor:
            self.anchors[event.anchor], self.sizes[event.anchor] = value, (1, len(event.value))
        is_merge = event.value == MERGE and event.implicit[0]
        self.give(value, line, event.value, is_merge)

    def value_of(self, event: Any, line: int) -> Any:
        """Returns the value of a scalar, by its tag where it has one."""
        try:
            if event.tag and event.tag != "!":
                return tagged_scalar(event.tag, event.value)
            return plain_scalar(event.value) if event.implicit[0] and not event.tag else event.value
        except ValueError as error:
            words = str(error) if "digits" in str(error) else f"the tag {event.tag} is not one of YAML's own that fits the value"
            raise self.fault(words, line) from None

    def alias(self, anchor: str, line: int) -> None:
        if anchor not in self.anchors:
            inside = any(it.anchor == anchor for it in self.open)
            raise self.fault(f"the alias *{anchor} is inside what it stands for" if inside else f"no anchor &{anchor} comes before this alias", line)
        self.count(*self.sizes[anchor], line)
        value = self.anchors[anchor]
        self.give(value, line, value if isinstance(value, str) else None, False)

    def begin(self, kind: str, event: Any, line: int) -> None:
        if len(self.open) >= MOST_NESTING:
            raise self.fault(f"the values nest more than {MOST_NESTING} deep", line)
        if event.tag and event.tag not in (STANDARD + "map", STANDARD + "seq"):
            raise self.fault(f"the tag {event.tag} is not one of YAML's own that fits the value", line)
        self.count(1, 0, line)
        frame = Frame((Fields if kind == "MappingStartEvent" else Items)(self.file, line), event.anchor)
        frame.start = (self.values, self.characters)  # type: ignore
        self.open.append(frame)

    def end(self, line: int) -> None:
        frame = self.open.pop()
        for source in frame.merged:
            for key, value in source.items():
                if key not in frame.node:
                    frame.node.put(key, value, source.line_of(key))
        if frame.anchor:
            start = frame.start  # type: ignore
            self.anchors[frame.anchor] = frame.node
            self.sizes[frame.anchor] = (self.values - start[0] + 1, self.characters - start[1] + 1)
        self.give(frame.node, frame.node.line, None, False)

    def give(self, value: Any, line: int, text: Optional[str], is_merge: bool) -> None:
        """Hands a whole value to what it is in."""
        if not self.open:
            self.root = value
            return
        frame = self.open[-1]
        if isinstance(frame.node, Items):
            frame.node.add(value, line)
        elif frame.key is None:
            self.key(frame, text, line, is_merge)
        else:
            key, key_line, frame.key = frame.key, frame.key_line, None
            if key == MERGE and frame.merging:  # type: ignore
                self.merge(frame, value, line)
            else:
                frame.node.put(key, value, key_line)

    def key(self, frame: Frame, text: Optional[str], line: int, is_merge: bool) -> None:
        if text is None:
            raise self.fault("a key is a list or an object, and has to be a text", line)
        if text in frame.node:
            raise self.fault(f"the key {text!r} stands twice in one object; it was on line {frame.node.line_of(text)} before", line)
        frame.key, frame.key_line = text, line
        frame.merging = is_merge  # type: ignore

    def merge(self, frame: Frame, value: Any, line: int) -> None:
        for it in value if isinstance(value, Items) else [value]:
            if not isinstance(it, Fields):
                raise self.fault("what << merges has to be an object, or a list of objects", line)
            self.count(len(it), 0, line)
            frame.merged.append(it)


def read_yaml(text: str, file: str) -> Any:
    """Returns the data of a YAML text, or raises an ImportFault that says where it is wrong."""
    try:
        return built(events_of(text), file)
    except YAMLError as error:
        if FAST and len(text) <= MOST_SLOW:
            try:
                return built(slow_events_of(text), file)
            except YAMLError:
                pass
        raise ImportFault(words_of(error, text), file, line_of(error)) from None


def is_half(text: str) -> bool:
    """Says whether a text has half of a pair of surrogates, which no UTF-8 has."""
    try:
        text.encode("utf-8")
    except UnicodeEncodeError:
        return True
    return False


def built(events: Iterator[Any], file: str) -> Any:
    builder = Builder(file)
    for event in events:
        builder.take(event)
    return builder.root


def line_of(error: Any) -> Optional[int]:
    mark = getattr(error, "problem_mark", None) or getattr(error, "context_mark", None)
    return None if mark is None else mark.line + 1


def words_of(error: Any, text: str) -> str:
    """Returns in words why the library refused the text."""
    line = line_of(error)
    lines = text.splitlines()
    if line is not None and line <= len(lines) and "\t" in lines[line - 1]:
        before = lines[line - 1][: error.problem_mark.column + 1] if getattr(error, "problem_mark", None) else ""
        if "\t" in before or "\\t" in str(error):
            return "there is a tab where YAML takes spaces alone"
    problem = getattr(error, "problem", None) or getattr(error, "reason", None) or "it can't be read"
    return f"this is not YAML: {problem}"
