"""Secondary files of a workflow's inputs that the runner doesn't find: a step of node checks and chooses them before the other steps."""

from typing import TYPE_CHECKING, Any, Dict, List, Optional, Set

from .expressions import parameters
from .flow import kinds_of
from .forms import entry_of, normal, step
from .kinds import lowered
from .marked import Fields, Items, list_of, marked_of, object_of
from .names import short, source_name
from .plans import Evaluator, tool_of
from .secondary import all_static, fields_ask

if TYPE_CHECKING:
    from .javascript import JavaScript, Library


class Chosen:
    """A workflow whose inputs with such secondary files come through steps. Those of the root are chosen from all that stand beside."""

    def __init__(self, raw: Fields, is_root: bool, library: Optional["Library"], names: Dict[str, Any], version: str, owner: "JavaScript") -> None:
        self.raw, self.is_root, self.library, self.version, self.owner = raw, is_root, library, version, owner
        self.whole = (short(raw["id"]) if isinstance(raw.get("id"), str) else "", {short(name) for name, _ in parameters(raw.get("steps"))})
        told = {short(name): normal(raw, name, it) for name, it in parameters(raw.get("inputs"))}
        self.kinds = kinds_of(raw.get("inputs"), names)
        self.inputs = {name: it for name, it in told.items() if self.is_chosen(it, self.kinds[name])}
        self.steps = {name: unlike(f"{name}-secondary-files", self.whole[1]) for name in self.inputs}

    def is_chosen(self, it: Fields, kind: Any) -> bool:
        """Says whether a step chooses for an input: where expressions tell, and in the root where fields of records ask for files."""
        if all_static(it.get("secondaryFiles")):
            return self.is_root and fields_ask(kind)
        return self.library is not None

    def made(self) -> Fields:
        """Returns the workflow with these steps."""
        raw = self.raw
        if not self.inputs or not isinstance(raw.get("steps"), (Fields, Items)):
            return raw
        made = raw.like()
        for key, it in raw.items():
            if key == "inputs":
                it = list_of(raw, [self.without(name, one) for name, one in parameters(it)])
            elif key == "outputs" and isinstance(it, (Fields, Items)):
                it = self.linked(it, "outputSource")
            elif key == "steps":
                it = list_of(raw, [*(self.choosing(name, self.kinds[name]) for name in self.inputs), *(self.step(name, one) for name, one in parameters(it))])
            made.put(key, it, raw.line_of(key))
        return made

    def without(self, name: str, it: Any) -> Fields:
        if not isinstance(it, Fields) or isinstance(self.raw["inputs"], Fields) and "type" not in it:
            return object_of(self.raw["inputs"], id=name, type=it)
        made = entry_of(name, it, ("secondaryFiles",) if short(name) in self.inputs else ())
        made.discovers = self.is_root and short(name) in self.inputs
        return made

    def choosing(self, name: str, kind: Any) -> Fields:
        """Returns the step that checks and chooses the secondary files of an input."""
        it = self.inputs[name]
        self.owner.tell(it, "secondaryFiles")
        asked = {key: it[key] for key in ("secondaryFiles",) if it.get(key) is not None}
        asked.update({"discovers": True} if self.is_root else {})
        plan: Dict[str, Any] = {
            "version": self.version,
            "javascript": self.library is not None,
            "library": list(self.library.texts) if self.library else [],
            "isStep": True,
            "listing": "no_listing",
            "inputs": [{"name": name, "type": kind, **asked}],
            "outputs": [{"name": name, "type": kind}],
            "values": [{"name": name, "text": "$(self)", "of": name}],
            **{key: [] for key in ("successCodes", "temporaryFailCodes", "permanentFailCodes")},
        }
        tool: Evaluator = tool_of(it, plan, [object_of(it, id=name, type=marked_of(it, lowered(kind)))], self.owner.folder)
        tool.put("requirements", list_of(it, [object_of(it, of_class="EnvVarRequirement", envDef=list_of(it, []))]))
        return step(it, self.steps[name], {name: name}, [name], tool)

    def step(self, name: str, it: Any) -> Any:
        """Returns a step that takes these inputs from the steps that choose."""
        made = entry_of(name, it) if isinstance(it, Fields) else it
        if isinstance(it, Fields) and isinstance(it.get("in"), (Fields, Items)):
            made.put("in", self.linked(it["in"], "source"), it.line_of("in"))
        return made

    def linked(self, entries: Any, field: str) -> Items:
        """Returns entries whose sources are the steps that choose, in place of the inputs."""
        made: List[Fields] = []
        for key, it in parameters(entries):
            one = entry_of(key, it) if isinstance(it, Fields) else object_of(entries, id=key, **({} if it is None else {field: it}))
            if field in one:
                one.put(field, self.source(one[field]), one.line_of(field))
            made.append(one)
        return list_of(entries, made)

    def source(self, value: Any) -> Any:
        if isinstance(value, Items):
            return list_of(value, map(self.source, value))
        name = source_name(value, *self.whole) if isinstance(value, str) else ""
        return f"{self.steps[name]}/{name}" if name in self.steps else value


def unlike(name: str, others: Set[str]) -> str:
    while name in others:
        name += "_"
    return name
