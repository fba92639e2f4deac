"""The YAML library: PyYAML where it has its parser in C, which loads in half the time, else ruamel.yaml, else PyYAML without.

Only the parser is used, which gives events; both libraries have the same one in C. It keeps less and is ten times as fast as one in Python.
"""

from typing import Any, Iterator, Tuple


def found() -> Tuple[str, Any]:
    """Returns the name of the library and its module, or no name."""
    try:
        import yaml

        if yaml.__with_libyaml__:
            return "PyYAML", yaml
    except ImportError:
        yaml = None  # type: ignore
    try:
        import ruamel.yaml

        return "ruamel.yaml", ruamel.yaml
    except ImportError:
        return ("PyYAML", yaml) if yaml else ("", None)


NAME, library = found()
FAST = bool(library and library.__with_libyaml__)


def events_of(text: str) -> Iterator[Any]:
    if NAME == "ruamel.yaml":
        return library.YAML(typ="safe").parse(text)
    if not NAME:
        raise RuntimeError("no YAML library")
    return library.parse(text, Loader=library.CSafeLoader if FAST else library.SafeLoader)


def slow_events_of(text: str) -> Iterator[Any]:
    return library.YAML(typ="safe", pure=True).parse(text) if NAME == "ruamel.yaml" else library.parse(text, Loader=library.SafeLoader)


YAMLError = library.error.YAMLError if library else ValueError
