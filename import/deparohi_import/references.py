"""Parameter references, as far as an import has to tell them from JavaScript. The grammar is that of docs/reference/codes.md, "References"."""

from typing import Iterator, Tuple

from .pattern import Pattern

SEGMENT = r"""(?:\.[A-Za-z0-9_]+|\['[^'\\]*'\]|\["[^"\\]*"\]|\[[0-9]+\])"""
REFERENCE = Pattern(r"\$\(([A-Za-z0-9_]+)((?:" + SEGMENT + r")*)\)")
JAVASCRIPT, BACKSLASH, NAME, RUNTIME, PATH = "JavaScript", "backslash beside a reference", "unknown name in a reference", "runtime.", "path outside a command"
OF_RUNTIME = ("cores", "outdir", "tmpdir")
# What a File has that is a text or a number: only JavaScript finds something in it, as the length of its contents.
INNER = Pattern(r"(?:\.|\[['\"])(?:basename|checksum|class|contents|dirname|location|nameext|nameroot|path|size)(?:['\"]\])?[.\[]")
LENGTH = Pattern(r"(" + SEGMENT + r")?\.length")
PLACE = Pattern(r"(?:\.|\[['\"])(path|dirname|location)(?![A-Za-z0-9_])")


def has_expression(text: object) -> bool:
    """Says whether a text has something that is to be evaluated."""
    return isinstance(text, str) and ("$(" in text or "${" in text)


def references(text: str) -> Iterator[Tuple[str, str]]:
    """Yields the symbol and the segments of each reference of a text that has nothing else to evaluate."""
    for it in REFERENCE.finditer(text):
        yield it[1], it[2]


def faults(text: str, has_folders: bool, has_runtime: bool) -> Iterator[Tuple[str, str]]:
    """Yields what the runner refuses in a text: its feature, and the words."""
    if not has_expression(text):
        return
    plain = REFERENCE.sub("", text)
    if "$(" in plain or "${" in plain:
        yield JAVASCRIPT, f"this runner takes references to parameters and no JavaScript: {shown(text)}"
        return
    if "\\" in text:
        yield BACKSLASH, f"a text with a reference has a backslash: {shown(text)}"
    for symbol, segments in references(text):
        if symbol not in ("inputs", "self", "runtime", "null"):
            yield NAME, f"a reference begins with inputs, self or runtime, and not with {symbol}"
        if symbol == "runtime":
            name = segments.strip(".[]'\"")
            if not has_runtime:
                yield RUNTIME, "there is no runtime in a step of a workflow"
            elif name not in OF_RUNTIME or name != "cores" and not has_folders:
                yield RUNTIME + name, f"this runner has no runtime.{name} here"
        elif symbol in ("inputs", "self") and INNER.search(segments, 1 if symbol == "inputs" else 0):
            yield JAVASCRIPT, f"only JavaScript finds something in a text or a number: {shown(text)}"
        elif not has_folders and PLACE.search(segments):
            yield PATH, f"a path, dirname or location is known in a command alone: {shown(text)}"


def lengths(text: str) -> Iterator[str]:
    """Yields what a text asks the length of as a whole: the name of an input, or `self`, which only a list has for the runner."""
    for symbol, segments in references(text) if has_expression(text) else ():
        whole = LENGTH.fullmatch(segments)
        if whole and (symbol == "inputs" and whole[1] or symbol == "self" and not whole[1]):
            yield whole[1].strip(".[]'\"") if symbol == "inputs" else symbol


def shown(text: str) -> str:
    """Returns a text in one short line."""
    line = " ".join(text.split())
    return line if len(line) <= 80 else line[:77] + "..."
