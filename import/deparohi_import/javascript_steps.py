"""Takes JavaScript out of a step: a step that evaluates comes before it, of a scattered step inside of each of its jobs."""

from typing import TYPE_CHECKING, Any, Dict, List, Optional, Tuple

from .contents import takes_numbers, texts_of
from .expressions import is_javascript, parameters
from .findings import LEFT
from .flow import Flow, with_null
from .forms import entry_of, step
from .in_job import guarded_in, why_other, without_files
from .javascript_parts import parts_of_any
from .kinds import FLOATS, are_alike, encoded, item_of, items_of, lowered, may_be_text, mentions
from .marked import Fields, Items, copied, list_of, marked_of, object_of
from .names import short
from .plans import Evaluator, tool_of
from .references import lengths

if TYPE_CHECKING:
    from .javascript import JavaScript

# Where an entry's requirements and scatter stay.
OUTER = ("requirements", "hints", "scatter", "scatterMethod", "label", "doc")


class Step:
    """A step whose own JavaScript is taken out."""

    def __init__(self, raw: Fields, name: str, library: Tuple[str, ...], owner: "JavaScript", flow: Flow, version: str) -> None:
        self.raw, self.name, self.library, self.owner, self.flow, self.version = raw, name, library, owner, flow, version
        self.entries = {short(key): it if isinstance(it, Fields) else object_of(raw, **({} if it is None else {"source": it})) for key, it in parameters(raw.get("in"))}
        scatter = raw.get("scatter")
        self.scattered = [short(it) for it in (scatter if isinstance(scatter, Items) else [scatter] if scatter else []) if isinstance(it, str)]
        self.valued = {key: it["valueFrom"] for key, it in self.entries.items() if isinstance(it.get("valueFrom"), str)}
        self.condition = raw.get("when")
        # Entries that bring numbers in another form than the process reads them in.
        self.converted = [key for key in self.entries if key not in self.valued and self.is_unlike(key)]
        brought = [self.kind(key) for key in self.entries]
        self.is_open, self.is_fractional = mentions(brought, ("Any",)), mentions(brought, FLOATS)
        self.reread = [key for key in self.valued if self.may_be_unlike(key) or self.asks_length(key)]
        self.valued.update({key: "$(self)" for key in self.converted})

    def may_be_unlike(self, name: str) -> bool:
        """Says whether what a text makes of the entries may be a number in another form than the process reads it in."""
        target = self.flow.process(self.name)[0].get(name)
        return self.is_open and mentions(target, FLOATS) or self.is_fractional and mentions(target, ("Any",))

    def is_unlike(self, name: str) -> bool:
        """Says whether an entry brings numbers in another form than the process reads them in. Into Any, which tools may bind as it is, none is led."""
        target, kind = self.flow.process(self.name)[0].get(name), self.kind(name)
        if target is not None and mentions(kind, ("Any",)) and mentions(target, FLOATS):
            return True
        if target is None or are_alike(kind, target):
            return False
        if mentions(target, ("Any",)) and not takes_numbers(self.owner.peek(self.raw, self.flow.names), name, self.owner.peek):
            self.owner.findings.add(LEFT, self.entries[name], None, "float", f"a number with a fraction may come to {name}, which is of the type Any")
            return False
        return True

    def without(self) -> Optional[List[Fields]]:
        """Returns what stands for the step, or None where it has no JavaScript, or has some that stays."""
        if len(self.entries) < len(parameters(self.raw.get("in"))) or not (self.converted or self.reread or self.shows_contents() or any(map(self.loads, self.valued)) or any(map(is_javascript, [*self.valued.values(), self.condition]))):
            return None
        if self.is_left():
            return None
        if not self.owner.has_library and any(map(is_javascript, [*self.valued.values(), self.condition])):
            return None
        for name, text in self.valued.items():
            if is_javascript(text):
                self.owner.tell(self.entries[name], "valueFrom")
        if is_javascript(self.condition):
            self.owner.tell(self.raw, "when")
        return [self.inner()] if self.scattered else [self.evaluation(), self.rest()]

    def asks_length(self, name: str) -> bool:
        """Says whether an entry is made of the length of a text, which only JavaScript knows."""
        return self.owner.has_library and any(may_be_text(self.kind(name if it == "self" else it)) for it in lengths(self.valued[name]) if it == "self" or it in self.entries)

    def shows_contents(self) -> bool:
        """Says whether a text of the step may name contents that an entry asks for."""
        return any(map(self.loads, self.entries)) and any("contents" in text for text in texts_of(self.raw))

    def is_left(self) -> bool:
        """Says whether some JavaScript stays, with the reason of each text."""
        left, plain = False, without_files({name: self.kind(name) for name in self.entries})
        for text in [*self.valued.values(), self.condition]:
            for code in parts_of_any(text) if isinstance(text, str) else []:
                reason = why_other(code, "\n".join(self.library), plain)
                if reason:
                    self.owner.reasons[text] = reason
                    left = True
        return left

    def kind(self, name: str) -> Any:
        """Returns the type of what an entry brings to one job."""
        kind = self.flow.entry(self.entries[name])
        return item_of(kind) if name in self.scattered else kind

    def before(self) -> str:
        name = f"{self.name}-javascript"
        while name in self.flow.whole[1]:
            name += "_"
        return name

    def when(self) -> str:
        when = "when_"
        while when in self.entries:
            when += "_"
        return when

    def has_condition(self) -> bool:
        return is_javascript(self.condition)

    def evaluation(self, by_name: bool = False) -> Fields:
        """Returns the step that evaluates. Inside of a scattered job its entries come from inputs of their own names."""
        seen = self.seen()
        outputs = [{"name": name, "type": with_null(self.flow.target(self.name, name))} for name in self.valued]
        outputs += [{"name": self.when(), "type": ["null", "Any"]}] if self.has_condition() else []
        plan: Dict[str, Any] = {
            "version": self.version,
            "javascript": self.owner.has_library,
            "library": list(self.library),
            "isStep": True,
            "listing": "deep_listing" if self.version == "v1.0" else "no_listing",
            "inputs": [{"name": name, "type": with_null(self.kind(name)), **self.told(name)} for name in seen],
            "outputs": outputs,
            "values": [{"name": name, "text": text, "of": name} for name, text in self.valued.items()],
            **{key: [] for key in ("successCodes", "temporaryFailCodes", "permanentFailCodes")},
            **guarded_in([code for it in [*self.valued.values(), self.condition] if isinstance(it, str) for code in parts_of_any(it)], list(self.library)),
        }
        if self.has_condition():
            plan["when"] = {"name": self.when(), "text": self.condition}
        inputs = [object_of(self.raw, id=it["name"], type=marked_of(self.raw, lowered(it["type"]))) for it in plan["inputs"]]
        tool: Evaluator = tool_of(self.raw, plan, inputs, self.owner.folder)
        tool.put("requirements", list_of(self.raw, [object_of(self.raw, of_class="EnvVarRequirement", envDef=list_of(self.raw, []))]))
        made = step(self.raw, self.before(), {}, [it["name"] for it in outputs], tool)
        for name in seen:
            entry = object_of(self.raw, id=name, source=name) if by_name else self.entry(name)
            made["in"].add(entry, self.entries[name].line)
        return made

    def entry(self, name: str) -> Fields:
        """Returns an entry without what is evaluated, its default as it is kept between jobs."""
        it = self.entries[name]
        made = entry_of(name, it, ("valueFrom", "loadContents", "loadListing"))
        if it.get("default") is not None:
            made.put("default", encoded(it["default"], with_null(self.flow.entry(it))), it.line_of("default"))
        return made

    def told(self, name: str) -> Dict[str, Any]:
        """Returns what the job that evaluates reads of an entry: what valueFrom is about is listed with all that is in it, as cwltool does."""
        return {**self.loads(name), **({"loadListing": "deep_listing"} if name in self.valued else {})}

    def loads(self, name: str) -> Dict[str, Any]:
        return {key: self.entries[name][key] for key in ("loadContents", "loadListing") if self.entries[name].get(key) is not None}

    def seen(self) -> List[str]:
        """Returns the names of the entries that the texts may see: all of them where names are made while it runs."""
        texts = "\n".join([*self.valued.values(), self.condition if isinstance(self.condition, str) else "", *self.library])
        bare = texts.replace("inputs.", "").replace("inputs['", "").replace('inputs["', "")
        if "inputs" in bare:
            return list(self.entries)
        return [name for name in self.entries if name in self.valued or name in texts]

    def rest(self, by_name: bool = False) -> Fields:
        """Returns the step itself, which takes what was evaluated."""
        made = copied(self.raw)
        kept = [object_of(self.raw, id=name, source=name) if by_name else entry_of(name, it) for name, it in self.entries.items() if name not in self.valued]
        taken = [object_of(self.raw, id=name, source=f"{self.before()}/{name}") for name in sorted([*self.valued, *([self.when()] if self.has_condition() else [])])]
        made.put("id", self.name)
        made.put("in", list_of(self.raw, [*kept, *taken]), self.raw.line_of("in"))
        if self.has_condition():
            made.put("when", f"$(inputs.{self.when()})", self.raw.line_of("when"))
        return made

    def inner(self) -> Fields:
        """Returns the scattered step, each job of which is a workflow: what evaluates, and then the step's process."""
        raw = self.raw
        rest = self.rest(by_name=True)
        for key in OUTER:
            rest.pop(key, None)
        out = [short(it if isinstance(it, str) else str(it.get("id"))) for it in items_of(raw.get("out")) if isinstance(it, (str, Fields))]
        given = self.flow.process(self.name)[1]
        may_skip = self.condition is not None
        workflow = object_of(raw, of_class="Workflow")
        kinds = {name: with_null(self.kind(name)) for name in self.entries}
        workflow.put("inputs", list_of(raw, [object_of(raw, id=name, type=marked_of(raw, kind)) for name, kind in kinds.items()]))
        outputs = []
        for name in out:
            kind = given.get(name, ["null", "Any"])
            outputs.append(object_of(raw, id=name, type=marked_of(raw, with_null(kind) if may_skip else kind), outputSource=f"{self.name}/{name}"))
        workflow.put("outputs", list_of(raw, outputs))
        workflow.put("steps", list_of(raw, [self.evaluation(by_name=True), rest]))
        made = raw.like()
        for key, it in raw.items():
            if key not in ("when", "in", "run"):
                made.put(key, it, raw.line_of(key))
        made.put("id", self.name)
        made.put("in", list_of(raw, [self.entry(name) for name in self.entries]), raw.line_of("in"))
        made.put("run", workflow, raw.line_of("run"))
        return made
