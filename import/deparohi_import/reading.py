"""Reads a file, YAML or JSON, to plain data with its lines."""

import json
import os
import stat
from typing import Any, List, Optional, Tuple

from . import yaml_library
from .fault import ImportFault
from .marked import Fields, Items
from .yaml_reader import HALF, MOST_NESTING, is_half, read_yaml

# What is read within 10 seconds, with the library's parser in C and without it.
MOST_BYTES = (4 << 20) if yaml_library.FAST else (1 << 19)


def read_text(path: str) -> str:
    """Returns the text of a regular file within the limit of bytes. Nothing else is opened, as a pipe, on which it would wait."""
    try:
        if not stat.S_ISREG(os.stat(path).st_mode):
            raise ImportFault("this is not a regular file", path)
        with open(path, "rb", opener=lambda name, flags: os.open(name, flags | os.O_NONBLOCK | os.O_NOCTTY)) as it:
            # (another one may stand there since)
            if not stat.S_ISREG(os.fstat(it.fileno()).st_mode):
                raise ImportFault("this is not a regular file", path)
            found = it.read(MOST_BYTES + 1)
    except OSError as error:
        raise ImportFault(f"the file can't be read: {error.strerror}", path) from None
    except ValueError:
        raise ImportFault("the file can't be read: its name has a zero character", path.replace("\0", "?")) from None
    if len(found) > MOST_BYTES:
        raise ImportFault(f"the file has more than {MOST_BYTES} bytes, which is the most that is read", path)
    try:
        return found.decode("utf-8-sig")
    except UnicodeDecodeError as error:
        raise ImportFault("the text is not UTF-8", path, found[: error.start].count(b"\n") + 1) from None


def read_file(path: str) -> Any:
    """Returns the data of a file, or raises an ImportFault."""
    return read_document(read_text(path), path)


def read_document(text: str, path: str) -> Any:
    if text.lstrip()[:1] in ("{", "["):
        try:
            data = json.loads(text, object_pairs_hook=lambda pairs: Pairs(pairs), parse_constant=refuse_constant)
        except (ValueError, RecursionError):
            return read_yaml(text, path)
        return read_json(data, text, path)
    return read_yaml(text, path)


class Pairs(list):
    """The members of a JSON object, as they are written."""

    def __init__(self, pairs: List[Tuple[str, Any]]) -> None:
        super().__init__(pairs)


def refuse_constant(name: str) -> Any:
    raise ValueError(name)


def read_json(data: Any, text: str, path: str) -> Any:
    """Returns the data of a JSON text: with lines where the YAML library reads the same in it, and else without."""
    plain = marked_json(data, path, 0)
    try:
        # JSON has no raw tab but between its tokens, and YAML takes none there.
        marked = read_yaml(text.replace("\t", " "), path)
    except ImportFault:
        return plain
    return marked if marked == plain else plain


def marked_json(data: Any, path: str, depth: int) -> Any:
    if depth > MOST_NESTING:
        raise ImportFault(f"the values nest more than {MOST_NESTING} deep", path)
    if isinstance(data, Pairs):
        fields = Fields(path)
        for key, value in data:
            if key in fields:
                raise ImportFault(f"the key {key!r} stands twice in one object", path, twice_on(path, key))
            fields.put(whole_text(key, path), marked_json(value, path, depth + 1))
        return fields
    if isinstance(data, list):
        items = Items(path)
        for it in data:
            items.add(marked_json(it, path, depth + 1))
        return items
    return whole_text(data, path) if isinstance(data, str) else data


def whole_text(text: str, path: str) -> str:
    """Returns a text of JSON, or raises an ImportFault where it has half of a pair of surrogates, which no UTF-8 has."""
    if is_half(text):
        raise ImportFault(HALF, path)
    return text


def twice_on(path: str, key: str) -> Optional[int]:
    """Returns the line on which the YAML library meets the key again, where it reads the file."""
    try:
        read_yaml(read_text(path).replace("\t", " "), path)
    except ImportFault as fault:
        return fault.line
    return None
