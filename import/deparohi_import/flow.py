"""The types of what flows through a workflow: of its inputs, of what its steps give, and of what an entry of a step brings."""

from typing import Any, Callable, Dict, List, Optional, Set, Tuple

from .expressions import parameters
from .findings import Findings
from .kinds import are_alike, item_of, kind_of_value, members_of
from .marked import Fields, Items
from .names import short, source_name
from .types import Types

# The process that a step runs, with the types that have names there, or None where it can't be looked at.
Peek = Callable[[Fields, Dict[str, Any]], Optional[Tuple[Fields, Dict[str, Any]]]]
UNKNOWN = ["null", "Any"]


def kinds_of(section: Any, names: Dict[str, Any]) -> Dict[str, Any]:
    """Returns the types of parameters, expanded, by their names."""
    types, found = Types(Findings(), names), {}
    for name, it in parameters(section):
        is_parameter = isinstance(it, Fields) and ("type" in it or isinstance(section, Items))
        kind = types.kind(it, "type", it.get("type")) if is_parameter else types.kind(section, name, it)
        found[short(name)] = "File" if kind in ("stdin", "stdout", "stderr") else kind
    return found


def with_null(kind: Any) -> Any:
    members = members_of(kind)
    return kind if "null" in members else ["null", *members]


def list_type(kind: Any) -> Dict[str, Any]:
    return {"type": "array", "items": kind}


def kinds_of_process(raw: Fields, names: Dict[str, Any], peek: Peek) -> Tuple[Dict[str, Any], Dict[str, Any]]:
    """Returns the types of a process's inputs and outputs, expanded."""
    if raw.kinds is None:
        # What a workflow says stands for itself while it is looked at, as in one that runs itself.
        raw.kinds = kinds_of(raw.get("inputs"), names), kinds_of(raw.get("outputs"), names)
        if raw.get("class") == "Workflow":
            raw.kinds = raw.kinds[0], Flow(raw, names, peek).outputs()
    return raw.kinds


class Flow:
    """The types of one workflow's links."""

    def __init__(self, raw: Fields, names: Dict[str, Any], peek: Peek) -> None:
        self.raw, self.names, self.peek = raw, names, peek
        self.steps = {short(name): it for name, it in parameters(raw.get("steps")) if isinstance(it, Fields)}
        self.whole: Tuple[str, Set[str]] = (short(raw["id"]) if isinstance(raw.get("id"), str) else "", set(self.steps))
        self.inputs = kinds_of(raw.get("inputs"), names)
        self.known: Dict[str, Tuple[Dict[str, Any], Dict[str, Any]]] = {}

    def process(self, step: str) -> Tuple[Dict[str, Any], Dict[str, Any]]:
        """Returns the types of the inputs and outputs of the process that a step runs."""
        if step not in self.known:
            found = self.peek(self.steps[step], self.names)
            self.known[step] = ({}, {}) if found is None else kinds_of_process(found[0], found[1], self.peek)
        return self.known[step]

    def outputs(self) -> Dict[str, Any]:
        """Returns the types of the workflow's outputs: where numbers come in another form than an output says, those of its sources."""
        kinds = kinds_of(self.raw.get("outputs"), self.names)
        for name, it in parameters(self.raw.get("outputs")):
            if isinstance(it, Fields) and "outputSource" in it:
                brought = self.entry(it)
                if not are_alike(brought, kinds[short(name)]):
                    kinds[short(name)] = brought
        return kinds

    def source(self, name: Any) -> Any:
        """Returns the type of what a source brings."""
        step, slash, output = source_name(str(name), *self.whole).rpartition("/")
        if not slash:
            return self.inputs.get(output, UNKNOWN)
        if step not in self.steps:
            return UNKNOWN
        kind = self.process(step)[1].get(output, UNKNOWN)
        it = self.steps[step]
        if it.get("when") is not None:
            kind = with_null(kind)
        scattered = it.get("scatter")
        many = len(scattered) if isinstance(scattered, Items) else 1 if scattered else 0
        for _ in range(many if it.get("scatterMethod") == "nested_crossproduct" else min(many, 1)):
            kind = list_type(kind)
        return kind

    def entry(self, it: Fields) -> Any:
        """Returns the type of what an entry of a step, or an output, brings, before it is scattered."""
        value = it.get("source", it.get("outputSource"))
        sources = list(value) if isinstance(value, Items) else [] if value is None else [value]
        kinds = [self.source(one) for one in sources]
        if not kinds:
            return with_null(kind_of_value(it["default"])) if it.get("default") is not None else UNKNOWN
        kind = kinds[0]
        if len(kinds) > 1 or it.get("linkMerge"):
            flat = it.get("linkMerge") == "merge_flattened"
            inner = union([self.items(one) if flat else one for one in kinds])
            kind = list_type(inner)
        if it.get("pickValue"):
            inner = without_null(item_of(kind) if item_of(kind) != "Any" or len(kinds) > 1 else kind)
            kind = list_type(inner) if it["pickValue"] == "all_non_null" else inner
        return union([kind, kind_of_value(it["default"])]) if it.get("default") is not None else kind

    def items(self, kind: Any) -> Any:
        """Returns what a list gives flattened: its items, or the value itself."""
        found: List[Any] = []
        for it in members_of(kind):
            found += members_of(it["items"]) if isinstance(it, dict) and it.get("type") == "array" else [it]
        return union(found)

    def target(self, step: str, name: str) -> Any:
        """Returns the type of the input of a step's process that an entry leads to."""
        return self.process(step)[0].get(name, UNKNOWN)


def union(kinds: List[Any]) -> Any:
    found: List[Any] = []
    for kind in kinds:
        found += [it for it in members_of(kind) if it not in found]
    return found[0] if len(found) == 1 else found


def without_null(kind: Any) -> Any:
    found = [it for it in members_of(kind) if it != "null"]
    return found[0] if len(found) == 1 else found or "null"
