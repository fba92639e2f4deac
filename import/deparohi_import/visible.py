"""Foreign text as it is shown, on a terminal and in the report."""

from .pattern import Pattern

# What moves, hides or turns others on a terminal, as in crates/program_words/src/shown.rt, and what stands for a byte that is no UTF-8.
HIDDEN = Pattern("[\0-\x1f\x7f-\x9f\u061c\u200e\u200f\u202a-\u202e\u2066-\u2069\ud800-\udfff]")


def visible(text: str) -> str:
    """Returns a text with a code, as `\\u001b`, for each such character."""
    return text if text.isprintable() else HIDDEN.sub(lambda it: f"\\u{ord(it[0]):04x}", text)
