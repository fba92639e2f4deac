"""What the processes that steps run see of what is brought to them: contents of files, and numbers of the type Any.

A workflow asks for contents at its inputs, or at entries of its steps.

They are read by what evaluates the texts that name them: the entries of steps ask for them then. An entry without `valueFrom` brings its
file as it is, so there the process has to read the contents itself, or to name none.
"""

from typing import Any, Dict, Iterator, Set, Tuple

from .expressions import parameters
from .flow import Peek, kinds_of
from .forms import entry_of, loads_contents
from .in_job import texts_below
from .kinds import may_be_text, mentions
from .marked import Fields, Items, object_of
from .names import short, source_name
from .references import lengths

MOST_NESTED = 64


def texts_of(step: Fields) -> Iterator[str]:
    """Yields the texts of a step that are evaluated."""
    found = [step.get("when"), *(it.get("valueFrom") for _, it in parameters(step.get("in")) if isinstance(it, Fields))]
    return (it for it in found if isinstance(it, str))


def names_contents(value: Any) -> bool:
    """Says whether a text of a process may name contents."""
    if isinstance(value, Fields):
        return any(names_contents(it) for key, it in value.items() if key not in ("doc", "label", "default"))
    return any(map(names_contents, value)) if isinstance(value, Items) else isinstance(value, str) and "contents" in value


def is_read_there(found: Any, name: str, peek: Peek, depth: int = 0) -> bool:
    """Says whether the process that a step runs shows the same without the contents of its input: it reads them itself, or names none."""
    if found is None or depth > MOST_NESTED:
        return False
    raw, names = found
    if any(short(key) == name and loads_contents(it) for key, it in parameters(raw.get("inputs"))):
        return True
    if raw.get("class") != "Workflow":
        return not names_contents(raw) and not asks_for_library(raw)
    for _, step in parameters(raw.get("steps")):
        for key, source in links_of(step, raw) if isinstance(step, Fields) else []:
            if source == name and (any(map(names_contents, texts_of(step))) or not is_read_there(peek(step, names), key, peek, depth + 1)):
                return False
    return True


def takes_numbers(found: Any, name: str, peek: Peek, depth: int = 0) -> bool:
    """Says whether each process that reads this input, which is of the type Any, tells numbers with a fraction from others: node does its tools."""
    if found is None or depth > MOST_NESTED:
        return False
    if found[0].get("class") != "Workflow":
        return True
    raw, names = found
    for _, step in parameters(raw.get("steps")):
        links = [key for key, source in links_of(step, raw) if source == name] if isinstance(step, Fields) else []
        valued = {short(key) for key, it in parameters(step.get("in")) if isinstance(it, Fields) and "valueFrom" in it} if links else set()
        inner = peek(step, names) if links else None
        for key in links:
            kind = kinds_of(inner[0].get("inputs"), inner[1]).get(key) if inner else None
            if key not in valued and (kind is None or mentions(kind, ("Any",))) and not takes_numbers(inner, key, peek, depth + 1):
                return False
    return True


def asks_for_library(raw: Fields) -> bool:
    """Says whether functions that stand elsewhere may name contents."""
    return "expressionLib" in str(raw.get("requirements"))


def links_of(step: Fields, raw: Fields) -> Iterator[Tuple[str, str]]:
    """Yields the entries of a step with each of their sources."""
    whole: Tuple[str, Set[str]] = (short(raw["id"]) if isinstance(raw.get("id"), str) else "", set())
    for key, it in parameters(step.get("in")):
        source = it.get("source") if isinstance(it, Fields) else it
        for one in source if isinstance(source, Items) else [source]:
            if isinstance(one, str):
                yield short(key), source_name(one, *whole)


def lengths_of_texts(raw: Fields, kinds: Dict[str, Any]) -> Iterator[Tuple[Any, Any]]:
    """Yields the places in a tool, with these types of inputs, where the length of a text is asked for."""
    for name, it in parameters(raw.get("inputs")):
        binding = it.get("inputBinding") if isinstance(it, Fields) else None
        if isinstance(binding, Fields) and isinstance(binding.get("valueFrom"), str) and "self" in lengths(binding["valueFrom"]) and may_be_text(kinds[short(name)]):
            yield binding, "valueFrom"
    for node, key, text in texts_below(raw):
        if any(may_be_text(kinds.get(name)) for name in lengths(text)):
            yield node, key


def pushed_down(raw: Fields) -> Fields:
    """Returns a workflow whose inputs ask for no contents, and in their place the entries of steps that bring them."""
    loading = {short(key) for key, it in parameters(raw.get("inputs")) if loads_contents(it)}
    if not loading or not isinstance(raw.get("steps"), (Fields, Items)):
        return raw
    made = raw.like()
    for key, it in raw.items():
        it = without_loads(it) if key == "inputs" else with_loads(raw, loading) if key == "steps" else it
        made.put(key, it, raw.line_of(key))
    return made


def without_loads(inputs: Any) -> Any:
    made = inputs.like()
    for key, it in parameters(inputs):
        one = entry_of(key, it, ("loadContents", "inputBinding")) if isinstance(it, Fields) else it
        made.put(key, one, inputs.line_of(key)) if isinstance(inputs, Fields) else made.add(one, it.line)
    return made


def with_loads(raw: Fields, loading: Set[str]) -> Any:
    steps = raw["steps"]
    made = steps.like()
    for key, it in parameters(steps):
        one = it
        if isinstance(it, Fields):
            brings: Dict[str, str] = dict(links_of(it, raw))
            one = it.like()
            for name, value in it.items():
                one.put(name, loading_entries(value, brings, loading) if name == "in" else value, it.line_of(name))
        made.put(key, one, steps.line_of(key)) if isinstance(steps, Fields) else made.add(one, getattr(it, "line", None))
    return made


def loading_entries(entries: Any, brings: Dict[str, str], loading: Set[str]) -> Any:
    """Returns the entries of a step, where those ask for contents whose source is among these inputs."""
    if not isinstance(entries, (Fields, Items)):
        return entries
    made = entries.like()
    for key, it in parameters(entries):
        one = it
        if brings.get(short(key)) in loading:
            one = entry_of(key, it) if isinstance(it, Fields) else object_of(entries, id=key, source=it)
            one.put("loadContents", True)
        made.put(key, one, entries.line_of(key)) if isinstance(entries, Fields) else made.add(one, getattr(it, "line", None))
    return made
