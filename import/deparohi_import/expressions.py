"""JavaScript in texts: where it stands in a text, and whether it gives the same on values without places.

The texts are taken apart as cwltool does. `why_not` looks at the words of an expression alone, so it is careful: what it lets pass
names nothing of a File but its contents, its names and how many of them there are.
"""

import re
from typing import Any, Dict, FrozenSet, Iterable, List, NamedTuple, Optional, Tuple

from .marked import Fields, Items
from .pattern import Pattern
from .references import JAVASCRIPT, NAME, faults

START = Pattern(r"\$[({]")
# The name of `self` among what is loaded; no input has it.
SELF = "#self"
OPENERS = {"(": ")", "{": "}"}
VARIABLE = Pattern(r"(?<![\w$.])(inputs|self|runtime|globalThis|eval|Function|require|process)(?![\w$])")
SEGMENT = Pattern(r"""\s*(?:\.\s*([A-Za-z_]\w*)|\[\s*(?:([0-9]+)|'([^'\\]*)'|"([^"\\]*)")\s*\])""")
# What a File has here and in cwltool alike.
ALIKE = ("contents", "basename", "nameroot", "nameext", "class", "length")
INNER = ("listing",)
PLAIN_TYPES = ("null", "boolean", "int", "long", "string")


class Part(NamedTuple):
    """A part of a text: an expression with its brackets, or what stands between expressions."""

    is_code: bool
    text: str


class Known(NamedTuple):
    """What is known where an expression stands: the inputs that may hold Files, those with contents, and whether listings are there.

    `self` may hold Files unless it is plain, and has their contents where it is among what is `loaded`.
    """

    files: FrozenSet[str]
    loaded: FrozenSet[str]
    has_listings: bool
    self_is_plain: bool = False


def is_javascript(value: Any) -> bool:
    """Says whether a value is a text with JavaScript, or with a name that only JavaScript can know, which the runner refuses."""
    return isinstance(value, str) and any(feature in (JAVASCRIPT, NAME) for feature, _ in faults(value, True, True))


def parts_of(text: str) -> Optional[List[Part]]:
    """Returns the parts of a text, or None where a backslash stands outside of the expressions or one of these has no end."""
    text = text.strip()
    parts, at = [], 0
    while at < len(text):
        found = START.search(text, at)
        start = found.start() if found else len(text)
        if "\\" in text[at:start]:
            return None
        if start > at:
            parts.append(Part(False, text[at:start]))
        if start == len(text):
            break
        end = end_of(text, start + 1)
        if end is None:
            return None
        parts.append(Part(True, text[start + 1 : end]))
        at = end
    return parts


def end_of(text: str, start: int) -> Optional[int]:
    """Returns where the expression ends whose bracket stands at start. Only brackets of its own kind count, and quotes hide them."""
    opener, depth, quote, at = text[start], 0, "", start
    while at < len(text):
        it = text[at]
        if quote:
            if it == "\\":
                at += 1
            elif it == quote:
                quote = ""
        elif it in "'\"":
            quote = it
        elif it == opener:
            depth += 1
        elif it == OPENERS[opener]:
            depth -= 1
            if depth == 0:
                return at + 1
        at += 1
    return None


def why_not(code: str, known: Known) -> Optional[str]:
    """Returns why an expression may give another value here than in cwltool, or None."""
    if re.search(r"\blisting\b", code) and not known.has_listings:
        return "a listing is named, and whether there is one is up to the version and to LoadListingRequirement"
    if "\\u" in code:
        return "a name may be written with \\u"
    for it in VARIABLE.finditer(code):
        name, segments = it[1], segments_of(code, it.end())
        if name == "inputs":
            if not segments and (known.files or not re.match(r"\s*\[", code[it.end() : it.end() + 9])):
                return "inputs are named as a whole: their order is another one, and there may be Files among them"
            if segments and segments[0] in known.files and not is_alike(segments[1:], segments[0] in known.loaded):
                return f"more than the names, or loaded contents, of {segments[0]} is asked for, which may be a File"
        elif name != "self":
            return f"{name} is named"
        elif not known.self_is_plain and not is_alike(segments, SELF in known.loaded):
            return "more than the names, or loaded contents, of self is asked for, which may be a File"
    return None


def names_any(text: str) -> bool:
    """Says whether a text of expressionLib may name something of a tool."""
    return bool(VARIABLE.search(text) or re.search(r"\blisting\b|\\u", text))


def safe_parts(text: Any, known: Known, reasons: Dict[str, str]) -> Optional[List[Part]]:
    """Returns the parts of a text whose expressions give the same here, or None, and then puts the reason under the text."""
    parts = parts_of(text) if isinstance(text, str) else None
    for it in parts or []:
        reason = why_not(it.text, known) if it.is_code else None
        if reason:
            reasons[text] = reason
            return None
    return parts


def segments_of(code: str, at: int) -> List[str]:
    """Returns the names and indexes that follow a variable."""
    segments: List[str] = []
    while True:
        it = SEGMENT.match(code, at)
        if not it:
            return segments
        segments.append(next(part for part in it.groups() if part is not None))
        at = it.end()


def is_alike(segments: List[str], has_contents: bool) -> bool:
    """Says whether these lead to something that a File has here and in cwltool alike."""
    for it in segments:
        if it in ALIKE:
            return it != "contents" or has_contents
        if not it.isdigit() and it not in INNER:
            return False
    return False


def is_plain(kind: Any) -> bool:
    """Says whether a type surely has no Files, Directories and records."""
    if isinstance(kind, str):
        return re.sub(r"(\[\])*\??\Z", "", kind) in PLAIN_TYPES
    if isinstance(kind, Items):
        return all(map(is_plain, kind))
    if not isinstance(kind, Fields):
        return False
    return kind.get("type") == "enum" or is_plain(kind.get("items") if kind.get("type") == "array" else kind.get("type"))


def parameters(section: Any) -> List[Tuple[str, Any]]:
    """Returns parameters or entries by their names, each an object where it is written as one."""
    if isinstance(section, Fields):
        return list(section.items())
    found: Iterable[Any] = section if isinstance(section, Items) else []
    return [(str(it.get("id", "")), it) for it in found if isinstance(it, Fields)]


def types_of(section: Any) -> Dict[str, Any]:
    """Returns the types of parameters by the last parts of their names."""
    return {name.rpartition("#")[2].rpartition("/")[2]: it.get("type") if isinstance(it, Fields) else it for name, it in parameters(section)}


def mentioned(names: Iterable[str], texts: Iterable[str], known: Known) -> List[str]:
    """Returns the names of inputs that expressions may mean: all where there are no Files, which cost most, among them."""
    if not known.files:
        return list(names)
    words = set(re.findall(r"\w+", " ".join(texts)))
    return [it for it in names if words.issuperset(re.findall(r"\w+", it))]
