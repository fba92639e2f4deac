"""Takes JavaScript out of a tool: it becomes a workflow of itself, and of tools that evaluate before it and after it."""

from typing import TYPE_CHECKING, Any, Dict, Iterator, List, NamedTuple, Optional, Tuple

from .expressions import SELF, Known, is_javascript, is_plain, mentioned, parameters, safe_parts, types_of
from .forms import bare_inputs, normal, outer_inputs, outer_outputs, self_known, step, texts_of
from .marked import Fields, Items, copied, list_of, object_of
from .names import short
from .node import Task, parameter, words
from .requirements import entries

if TYPE_CHECKING:
    from .javascript import JavaScript

BEFORE, COMMAND, AFTER = "javascript-before", "command", "javascript-after"


class Place(NamedTuple):
    """A text of a tool that is evaluated before its command, and the input that is `self` in it."""

    node: Any
    key: Any
    of: Optional[str]


class Tool:
    """A CommandLineTool whose JavaScript is taken out."""

    def __init__(self, raw: Fields, library: Tuple[str, ...], known: Known, owner: "JavaScript") -> None:
        self.raw, self.library, self.known, self.owner = raw, library, known, owner
        self.command, self.taken = copied(raw), {short(name) for section in ("inputs", "outputs") for name, _ in parameters(raw.get(section))}
        self.count = 0
        # The bindings of the outputs whose outputEval has JavaScript.
        self.evaluated: Dict[str, Fields] = {}
        for name, it in parameters(self.command.get("outputs")):
            binding = it.get("outputBinding") if isinstance(it, Fields) else None
            if isinstance(binding, Fields) and is_javascript(binding.get("outputEval")):
                self.evaluated[short(name)] = binding

    def name(self, stem: str) -> str:
        """Returns a new name for an input or output."""
        self.count += 1
        while f"{stem}{self.count}" in self.taken:
            self.count += 1
        return f"{stem}{self.count}"

    def without(self) -> Optional[Fields]:
        """Returns the workflow that stands for the tool, or None where it has no JavaScript, or has some that stays."""
        places = list(self.places())
        if not places and not self.evaluated:
            return None
        before, after = self.tasks_before(places), self.tasks_after()
        if before is None or after is None:
            return None
        made = self.whole(before, after, places)
        for it in places:
            self.owner.tell(it.node, it.key)
        for binding in self.evaluated.values():
            self.owner.tell(binding, "outputEval")
        return made

    def places(self) -> Iterator[Place]:
        """Yields the texts with JavaScript that are evaluated before the command."""
        tool = self.command
        found = [Place(tool, key, None) for key in ("stdin", "stdout", "stderr")]
        arguments = tool.get("arguments")
        for at, it in enumerate(arguments if isinstance(arguments, Items) else []):
            found.append(Place(it, "valueFrom", None) if isinstance(it, Fields) else Place(arguments, at, None))
        for name, it in parameters(tool.get("inputs")):
            if isinstance(it, Fields) and isinstance(it.get("inputBinding"), Fields):
                found.append(Place(it["inputBinding"], "valueFrom", short(name)))
        for _, it in parameters(tool.get("outputs")):
            binding = it.get("outputBinding") if isinstance(it, Fields) else None
            globs = binding.get("glob") if isinstance(binding, Fields) else None
            found += [Place(globs, at, None) for at in range(len(globs))] if isinstance(globs, Items) else [Place(binding, "glob", None)] if globs else []
        for it in found:
            if is_javascript(it.node.get(it.key) if isinstance(it.node, Fields) else it.node[it.key]):
                yield it

    def tasks_before(self, places: List[Place]) -> Optional[List[Task]]:
        tasks = []
        for it in places:
            text = it.node[it.key]
            parts = safe_parts(text, self_known(self.known, it.of), self.owner.reasons)
            if parts is None:
                return None
            tasks.append(Task(self.name("javascript_"), parts, it.of, it.of is not None))
        return tasks

    def tasks_after(self) -> Optional[List[Task]]:
        types, tasks = types_of(self.raw.get("outputs")), []
        for name, binding in self.evaluated.items():
            known = self.known._replace(loaded=self.known.loaded | {SELF}) if binding.get("loadContents") is True else self.known
            parts = safe_parts(binding["outputEval"], known, self.owner.reasons)
            if parts is None or not is_plain(types[name]) or set(binding) - {"glob", "loadContents", "outputEval"}:
                return None
            tasks.append(Task(name, parts, self.name("matched_")))
        return tasks

    def whole(self, before: List[Task], after: List[Task], places: List[Place]) -> Fields:
        raw, steps, given = self.raw, [], [short(name) for name, _ in parameters(self.raw.get("inputs"))]
        links = {name: name for name in given}
        if before:
            seen, outputs = self.seen(before, given), [words(raw, it.to) for it in before]
            tool = self.owner.tasks_tool(raw, bare_inputs(raw, False, seen), outputs, self.known, self.library, before)
            steps.append(step(raw, BEFORE, seen, [str(it.to) for it in before], tool))
        command = self.command_of(before, after, places)
        outs = [str(it["id"]) for it in command["outputs"]]
        steps.append(step(raw, COMMAND, {**links, **{str(it.to): f"{BEFORE}/{it.to}" for it in before}}, outs, command))
        made, sources = self.around(), {short(it): f"{COMMAND}/{short(it)}" for it in outs}
        if after:
            steps.append(self.step_after(after, self.seen(after, given)))
            sources.update({str(it.to): f"{AFTER}/{it.to}" for it in after})
        made.put("outputs", list_of(raw, outer_outputs(raw, sources)))
        made.put("steps", list_of(raw, steps))
        return made

    def seen(self, tasks: List[Task], given: List[str]) -> Dict[str, str]:
        """Returns the links to the inputs that tasks may see."""
        names = {*mentioned(given, texts_of(tasks), self.known), *(it.of for it in tasks)}
        return {name: name for name in given if name in names}

    def step_after(self, after: List[Task], links: Dict[str, str]) -> Fields:
        raw, types, matched, inputs = self.raw, types_of(self.raw.get("outputs")), [], bare_inputs(self.raw, False, links)
        for it in after:
            name, binding = str(it.of), self.evaluated[str(it.to)]
            if binding.get("glob") is None:
                matched.append(parameter(raw, name, default=list_of(raw, [])))
            else:
                links[name] = f"{COMMAND}/{name}"
                files = object_of(raw, type="array", items=list_of(raw, ["File", "Directory"]))
                matched.append(parameter(raw, name, files, loadContents=binding.get("loadContents") is True))
        outputs = [parameter(raw, it.to, types[it.to]) for it in after]
        tool = self.owner.tasks_tool(raw, [*inputs, *matched], outputs, self.known, self.library, after, tuple(str(it.of) for it in after))
        return step(raw, AFTER, links, [str(it.to) for it in after], tool)

    def command_of(self, before: List[Task], after: List[Task], places: List[Place]) -> Fields:
        """Returns the tool itself, with a new input for each text that was evaluated, and what was matched for an output."""
        tool, raw = self.command, self.raw
        for task, it in zip(before, places):
            it.node[it.key] = f"$(inputs.{task.to})"
        outputs = [normal(raw, name, it) for name, it in parameters(tool.get("outputs")) if short(name) not in self.evaluated]
        for task in after:
            globs = self.evaluated[str(task.to)].get("glob")
            if globs is not None:
                found = object_of(raw, type="array", items=list_of(raw, ["File", "Directory"]))
                outputs.append(parameter(raw, str(task.of), found, outputBinding=object_of(raw, glob=globs)))
        inputs = [normal(raw, name, it) for name, it in parameters(tool.get("inputs"))] + [words(raw, it.to) for it in before]
        for key in ("cwlVersion", "id"):
            tool.pop(key, None)
        tool.put("inputs", list_of(raw, inputs), raw.line_of("inputs"))
        tool.put("outputs", list_of(raw, outputs), raw.line_of("outputs"))
        return tool

    def around(self) -> Fields:
        """Returns the workflow around the tool, without its outputs and steps."""
        raw, made = self.raw, self.raw.like()
        made.put("class", "Workflow", raw.line_of("class"))
        for key in ("cwlVersion", "id", "label", "doc"):
            if key in raw:
                made.put(key, raw[key], raw.line_of(key))
        types = [it for it in entries(raw.get("requirements")) if it["class"] == "SchemaDefRequirement"]
        if types:
            made.put("requirements", list_of(raw, types))
        made.put("inputs", list_of(raw, outer_inputs(raw)), raw.line_of("inputs"))
        return made
