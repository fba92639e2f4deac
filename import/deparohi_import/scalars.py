"""Reads plain scalars by the core schema of YAML 1.2, in which `yes` and `no` are texts."""

from typing import Any, Optional

from .pattern import Pattern

NULL = Pattern(r"(?:~|null|Null|NULL|)\Z")
TRUE = Pattern(r"(?:true|True|TRUE)\Z")
FALSE = Pattern(r"(?:false|False|FALSE)\Z")
INT = Pattern(r"[-+]?[0-9]+\Z")
OCTAL = Pattern(r"0o[0-7]+\Z")
HEX = Pattern(r"0x[0-9a-fA-F]+\Z")
INFINITE = Pattern(r"(?:[-+]?\.(?:inf|Inf|INF)|\.(?:nan|NaN|NAN))\Z")
MOST_DIGITS = 4_000
FLOAT = Pattern(r"[-+]?(?:\.[0-9]+|[0-9]+(?:\.[0-9]*)?)(?:[eE][-+]?[0-9]+)?\Z")
STANDARD = "tag:yaml.org,2002:"


def plain_scalar(text: str) -> Any:
    """Returns the value of a scalar without quotes. Raises ValueError for a number of too many digits."""
    if NULL.match(text):
        return None
    if TRUE.match(text):
        return True
    if FALSE.match(text):
        return False
    if len(text) > MOST_DIGITS and (INT.match(text) or OCTAL.match(text) or HEX.match(text)):
        raise ValueError(f"a number has more than {MOST_DIGITS} digits")
    if INT.match(text):
        return int(text)
    if OCTAL.match(text):
        return int(text[2:], 8)
    if HEX.match(text):
        return int(text[2:], 16)
    if FLOAT.match(text):
        return float(text)
    if INFINITE.match(text):
        return float(text.replace(".", ""))
    return text


def tagged_scalar(tag: str, text: str) -> Optional[Any]:
    """Returns the value under an explicit tag of the core schema. Raises ValueError for another tag, or a text that has no such value."""
    kind = tag[len(STANDARD):] if tag.startswith(STANDARD) else tag
    if kind in ("str", "!"):
        return text
    value = plain_scalar(text)
    wanted = {"null": type(None), "bool": bool, "int": int, "float": (int, float)}.get(kind)
    if wanted is None or not isinstance(value, wanted) or (kind != "bool" and isinstance(value, bool)):
        raise ValueError(tag)
    return float(value) if kind == "float" else value
