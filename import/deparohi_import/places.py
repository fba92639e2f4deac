"""Paths of files and their URLs. Nothing is fetched: a URL has to be one of a file."""

import os
from typing import Tuple

from .pattern import Pattern

# What stands in a URL as it is: of anything else urllib knows how it is written, which takes a while to load.
BARE = Pattern(r"[A-Za-z0-9/._~-]*\Z")
SCHEME = Pattern(r"([A-Za-z][A-Za-z0-9+.-]+):")
UNESCAPED = "/-._~"


class NotAFile(ValueError):
    """A location that names no file on this machine."""


def is_name(it: object) -> bool:
    """Says whether this can be the name of a file in a folder."""
    return isinstance(it, str) and it not in ("", ".", "..") and "/" not in it and "\0" not in it


def url_of(path: str) -> str:
    """Returns the `file` URL of an absolute path."""
    return "file://" + quoted(path)


def quoted(path: str) -> str:
    """Returns a path as it stands in a URL."""
    if BARE.match(path):
        return path
    from urllib.parse import quote

    return quote(os.fsencode(path), safe=UNESCAPED)


def unquoted(location: str) -> str:
    """Returns the path of what stands in a URL. Raises UnicodeError."""
    if "%" not in location:
        return os.fsdecode(location.encode("utf-8"))
    from urllib.parse import unquote_to_bytes

    return os.fsdecode(unquote_to_bytes(location))


def split_fragment(location: str) -> Tuple[str, str]:
    """Returns what comes before the first `#`, and what follows it."""
    before, _, after = location.partition("#")
    return before, after


def path_of(location: str, file: str) -> str:
    """Returns the absolute path of a location that is written in this file. Raises NotAFile."""
    scheme = SCHEME.match(location)
    if scheme:
        if scheme[1].lower() != "file":
            raise NotAFile(f"{location} is no file on this machine, and nothing is fetched")
        rest = location[len(scheme[0]):]
        if rest.startswith("//"):
            host, slash, tail = rest[2:].partition("/")
            if host not in ("", "localhost"):
                raise NotAFile(f"{location} is on another machine, and nothing is fetched")
            rest = slash + tail
        location = rest
    try:
        path = unquoted(location)
    except UnicodeError:
        raise NotAFile("a location has half of a pair of surrogates") from None
    if "\0" in path:
        raise NotAFile("a location has a zero character")
    return os.path.normpath(os.path.join(os.path.dirname(os.path.abspath(file)), path))
