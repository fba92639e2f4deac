"""Forms that stand for a process or step whose JavaScript is evaluated apart: its parameters as objects, links, and what is known of it."""

from typing import Any, Dict, Iterator, List, Optional, Tuple

from .expressions import SELF, Known, is_plain, parameters, types_of
from .marked import Fields, list_of, object_of
from .names import short
from .node import Task, parameter
from .requirements import entries


def texts_of(tasks: List[Task]) -> Iterator[str]:
    """Yields the expressions of tasks."""
    return (part.text for task in tasks for part in task.parts if part.is_code)


def self_known(known: Known, of: Optional[str]) -> Known:
    """Returns what is known where `self` is an input, or null."""
    loaded = known.loaded | {SELF} if of in known.loaded else known.loaded
    return known._replace(loaded=loaded, self_is_plain=of not in known.files)


def known_of(raw: Fields, listings: bool) -> Known:
    """Returns what is known in a tool."""
    deep = raw.get("cwlVersion") == "v1.0"
    for it in entries(raw.get("requirements")):
        if it["class"] == "LoadListingRequirement":
            deep = it.get("loadListing") == "deep_listing"
    given = [(short(name), it) for name, it in parameters(raw.get("inputs"))]
    loads = [it.get("loadListing") for _, it in given if isinstance(it, Fields)]
    types = types_of(raw.get("inputs"))
    files = frozenset(name for name, kind in types.items() if not is_plain(kind))
    # cwltool reads no lists of Files.
    loaded = frozenset(name for name, it in given if loads_contents(it) and types[name] == "File")
    return Known(files, loaded, listings and deep and not any(it not in (None, "deep_listing") for it in loads))


def loads_contents(it: Any) -> bool:
    """Says whether an input is read: v1.0 says so in its binding."""
    binding = it.get("inputBinding") if isinstance(it, Fields) else None
    return isinstance(it, Fields) and it.get("loadContents") is True or isinstance(binding, Fields) and binding.get("loadContents") is True


def normal(raw: Fields, name: str, it: Any) -> Fields:
    """Returns a parameter as an object with its id."""
    made = object_of(raw, id=short(name))
    if not isinstance(it, Fields):
        made.put("type", it)
        return made
    made.line = it.line
    for key, value in it.items():
        if key != "id":
            made.put(key, value, it.line_of(key))
    return made


def outer_inputs(raw: Fields) -> List[Fields]:
    """Returns the inputs of the workflow around a tool."""
    found = []
    for name, it in parameters(raw.get("inputs")):
        made = normal(raw, name, it)
        for key in ("inputBinding", "loadContents"):
            made.pop(key, None)
        if made.get("type") == "stdin":
            made["type"] = "File"
        found.append(made)
    return found


def bare_inputs(raw: Fields, with_types: bool, seen: Optional[Dict[str, str]] = None) -> List[Fields]:
    """Returns the inputs of a tool, or those seen, for one that evaluates: with contents where they are asked for, and no words."""
    found = []
    for name, it in parameters(raw.get("inputs")):
        if seen is not None and short(name) not in seen:
            continue
        made = normal(raw, name, it) if with_types else parameter(raw, short(name))
        made.pop("inputBinding", None)
        if loads_contents(it):
            made.put("loadContents", True)
        found.append(made)
    return found


def outer_outputs(raw: Fields, sources: Optional[Dict[str, str]] = None) -> List[Fields]:
    """Returns the outputs by their types alone, with their sources where these are given."""
    found = []
    for name, kind in types_of(raw.get("outputs")).items():
        made = parameter(raw, name, "File" if kind in ("stdout", "stderr") else kind)
        if sources is not None:
            made.put("outputSource", sources[name])
        found.append(made)
    return found


def step(raw: Fields, name: str, links: Dict[str, str], out: List[str], run: Fields) -> Fields:
    entries_of = list_of(raw, [object_of(raw, id=key, source=source) for key, source in links.items()])
    return object_of(raw, id=name, into=entries_of, out=list_of(raw, out), run=run)


def entry_of(name: str, it: Fields, but: Tuple[str, ...] = ()) -> Fields:
    """Returns the entry of a step as an object with its id."""
    made = object_of(it, id=name)
    for key, value in it.items():
        if key != "id" and key not in but:
            made.put(key, value, it.line_of(key))
    return made


def with_id(it: Any, name: str) -> Any:
    """Returns an entry of a map as one of a list."""
    return entry_of(name, it) if isinstance(it, Fields) else it

