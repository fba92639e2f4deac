"""Links of workflows: where a `pickValue` over one link gives another value here than in cwltool.

cwltool lets a value be that is no list, and this runner takes it for a list of one, so that `all_non_null` gives a list.
"""

from typing import Any, Iterator, Set, Tuple

from .expressions import parameters, types_of
from .marked import Fields, Items
from .names import short, source_name


def lone_picks(raw: Fields) -> Iterator[Fields]:
    """Yields the outputs and entries of a workflow that keep what isn't null of one link, where that may be no list."""
    steps = {short(name): it for name, it in parameters(raw.get("steps")) if isinstance(it, Fields)}
    whole = (short(raw["id"]) if isinstance(raw.get("id"), str) else "", set(steps))
    lists = {name for name, kind in types_of(raw.get("inputs")).items() if is_list(kind)}
    # A step that is scattered gives lists, and one with a condition alone may give null.
    maybe = {name for name, it in steps.items() if it.get("when") is not None and not it.get("scatter")}
    sinks = [(it, "outputSource") for _, it in parameters(raw.get("outputs"))]
    sinks += [(it, "source") for step in steps.values() for _, it in parameters(step.get("in"))]
    for it, key in sinks:
        if isinstance(it, Fields) and it.get("pickValue") == "all_non_null" and it.get("linkMerge") is None and is_lone(it.get(key), whole, lists, maybe):
            yield it


def is_lone(value: Any, whole: Tuple[str, Set[str]], lists: Set[str], maybe: Set[str]) -> bool:
    """Says whether a source is one link to what may be no list."""
    source = value[0] if isinstance(value, Items) and len(value) == 1 else value
    if not isinstance(source, str):
        return False
    step, slash, name = source_name(source, *whole).rpartition("/")
    return step in maybe if slash else name not in lists


def is_list(kind: Any) -> bool:
    return isinstance(kind, str) and kind.endswith("[]") or isinstance(kind, Fields) and kind.get("type") == "array"
