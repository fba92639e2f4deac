"""Rewrites processes, with the steps of workflows and what these run."""

import json
from typing import Any, Callable, Dict, NamedTuple, Optional, Set, Tuple

from .checking import Checker
from .choices import Choices
from .chosen import Chosen
from .contents import is_read_there, lengths_of_texts, pushed_down
from .expressions import parameters
from .findings import IGNORED, LEFT, REWRITTEN, WRONG, Findings
from .flow import kinds_of, list_type
from .in_job import InJob
from .javascript import JavaScript, Library
from .kinds import encoded, kind_of_value, mentions
from .links import lone_picks
from .marked import Fields, Items, copied, object_of
from .names import class_name, short, source_name
from .plans import Evaluator
from .references import JAVASCRIPT, faults, has_expression
from .requirements import Asked, Requirements, ToolTexts, entries
from .shell import command_of
from .secondary import patterns_in_place, with_companions
from .types import OF_INPUT, OF_LINK, OF_OUTPUT, Types
from .values import Values

EXPRESSION = "expression in "
OTHER_CLASSES = {"ExpressionTool": "it is JavaScript", "Operation": "it can't be run"}
# What the runner ignores at each object.
DESCRIBING = ("doc", "label", "intent", "format", "streamable")


# What names the software of a tool, and the input that keeps it.
SOFTWARE = (("DockerRequirement", "dockerPull"), ("DockerRequirement", "dockerImageId"), ("SoftwareRequirement", "packages"))
NAMED_SOFTWARE = "deparohi_software"


class Scope(NamedTuple):
    """What a process has from around it: the requirements carried to its tools, the types that have names, and the expressionLib."""

    carried: Dict[str, Asked]
    names: Dict[str, Any]
    library: Optional[Library] = None
    version: str = "v1.2"


class Rewriter:
    """Rewrites the processes of one import. `run_named` gives the name of the written document that a step names."""

    def __init__(self, findings: Findings, requirements: Requirements, values: Values, run_named: Callable[[Fields, str, Scope], str], javascript: JavaScript, choices: Choices = Choices()) -> None:
        self.javascript, self.choices = javascript, choices
        # Whether a tool is rewritten to see what is left of it.
        self.is_trying = self.is_root = False
        self.findings, self.requirements, self.values, self.run_named = findings, requirements, values, run_named
        self.types = Types(findings, {})

    def process(self, raw: Fields, scope: Scope) -> Fields:
        """Returns the process in the forms of v1.2, without its version: for the runner itself, or else as a job of node."""
        if isinstance(raw, Evaluator):
            return raw
        if kind_of(raw) not in ("CommandLineTool", "ExpressionTool") or self.is_trying:
            return self.plainly(raw, scope)
        mark, self.is_trying = self.findings.mark(), True
        made = self.plainly(raw, scope)
        self.is_trying = False
        Checker(self.findings).process(made)
        kinds = {it.kind for it in self.findings.all[mark:]}
        is_open = takes_any(raw, {**scope.names, **named_types(raw)})
        if not (LEFT in kinds or is_open) or WRONG in kinds or not self.javascript.is_on:
            return made
        return self.in_job(raw, scope, mark) or made

    def in_job(self, raw: Fields, scope: Scope, mark: int) -> Optional[Fields]:
        """Returns the tool that does a process in one job of node, or None where that can't be done, which is found."""
        found = self.findings.back_to(mark)
        names = {**scope.names, **named_types(raw)}
        outer, self.types = self.types, Types(self.findings, names)
        own = self.findings.mark()
        below = self.requirements.kept(raw, scope.carried, copied)[2]
        taken = self.findings.back_to(own)
        job = InJob(raw, self, scope._replace(names=names, library=self.javascript.library(raw, scope.library)), below, self.choices)
        made = job.made()
        self.types = outer
        for it in taken:
            if it.kind == LEFT:
                made = None
                self.findings.put(it)
        if made is None:
            for one in job.refusals:
                self.findings.add(LEFT, one.node, one.key, one.feature, one.words)
            return None
        for it in found:
            self.findings.put(it if it.kind != LEFT else it._replace(kind=REWRITTEN, words="node does it, in the job of the tool itself"))
        return made

    def plainly(self, raw: Fields, scope: Scope) -> Fields:
        """Returns the process in the forms of v1.2, without its version, with what the runner refuses found."""
        library = self.javascript.library(raw, scope.library)
        names = {**scope.names, **named_types(raw)}
        if kind_of(raw) == "Workflow":
            raw = pushed_down(raw)
            raw = Chosen(raw, self.is_root, library, names, scope.version, self.javascript).made() if self.javascript.is_on else raw
            self.is_root = False
        raw = self.javascript.without(raw, kind_of(raw), library, "LoadListingRequirement" not in scope.carried, names, scope.version)
        kind = kind_of(raw)
        outer, self.types = self.types, Types(self.findings, names)
        self.types.members = outer.members
        made = raw.like()
        if kind in OTHER_CLASSES:
            reason = self.javascript.reasons.get(raw["expression"]) if isinstance(raw.get("expression"), str) else None
            self.findings.add(LEFT, raw, "class", kind, f"this runner has no {kind}: {OTHER_CLASSES[kind]}" + (f" ({reason})" if reason else ""))
            self.copy_rest(made, raw, ())
        elif kind in ("CommandLineTool", "Workflow"):
            requirements, hints, below = self.requirements.kept(raw, scope.carried, copied)
            self.parameters(made, raw, kind)
            if kind == "CommandLineTool":
                self.tool(made, raw, below, requirements, hints)
            else:
                self.workflow(made, raw, Scope(below, names, library, scope.version))
            self.sections(made, raw, requirements, hints)
            self.copy_rest(made, raw, ("requirements", "hints", "cwlVersion", "$namespaces", "$schemas", "$graph"))
        else:
            self.findings.add(WRONG, raw, "class", "class", "a process has the class CommandLineTool or Workflow")
            self.copy_rest(made, raw, ())
        self.identify(made, kind)
        outer.members, self.types = self.types.members, outer
        return made

    def identify(self, made: Fields, kind: Optional[str]) -> None:
        made.pop("cwlVersion", None)
        if kind is not None:
            made["class"] = kind
        identifier = made.pop("id", None)
        if isinstance(identifier, str) and short(identifier):
            made.put("id", short(identifier))

    def sections(self, made: Fields, raw: Fields, requirements: Items, hints: Items) -> None:
        for it in (*requirements, *hints):
            if it["class"] == "EnvVarRequirement":
                self.variables(it)
        if requirements:
            made.put("requirements", requirements, raw.line_of("requirements"))
        if hints:
            made.put("hints", hints, raw.line_of("hints"))

    def variables(self, it: Fields) -> None:
        definitions = it.get("envDef")
        for node in definitions if isinstance(definitions, Items) else [definitions]:
            if isinstance(node, Fields):
                for key, value in node.items():
                    self.text(node, key, value if not isinstance(value, Fields) else value.get("envValue"))

    def copy_rest(self, made: Fields, raw: Fields, done: Tuple[str, ...]) -> None:
        for key, it in raw.items():
            if key not in made and key not in done and it is not None:
                made.put(key, copied(it), raw.line_of(key))

    def text(self, node: Any, key: Any, value: Any, folders: bool = True, runtime: bool = True) -> None:
        """Finds what the runner refuses in a text that may have references."""
        if isinstance(value, str):
            for feature, words in faults(value, folders, runtime):
                reason = self.javascript.reasons.get(value)
                self.findings.add(LEFT, node, key, feature, f"{words} ({reason})" if reason else words)

    def no_expression(self, node: Any, key: str, where: str) -> None:
        value = node.get(key)
        for at in value if isinstance(value, Items) else [value]:
            if has_expression(at):
                self.findings.add(LEFT, node, key, EXPRESSION + where, f"this runner takes no expression in {where}")

    # ---- parameters

    def parameters(self, made: Fields, raw: Fields, kind: str) -> None:
        for section in ("inputs", "outputs"):
            if section in raw and raw[section] is not None:
                made.put(section, self.section(raw, section, kind), raw.line_of(section))

    def section(self, raw: Fields, section: str, kind: str) -> Any:
        value = raw[section]
        if isinstance(value, Items):
            items = value.like()
            for at, it in enumerate(value):
                if isinstance(it, Fields):
                    it = self.parameter(it, section, kind)
                items.add(it, value.line_at(at))
            return items
        if not isinstance(value, Fields):
            return value
        fields = value.like()
        for key, it in value.items():
            one = self.parameter(it, section, kind) if isinstance(it, Fields) else self.types.rewritten(value, key, it, place(section, kind))
            self.one_name(fields, value, key)
            # An object under a key is the parameter's, and a union stands for its type.
            fields.put(short(key), one if not isinstance(one, Fields) or isinstance(it, Fields) else typed(one), value.line_of(key))
        return fields

    def parameter(self, raw: Fields, section: str, kind: str) -> Fields:
        made = raw.like()
        for key, it in raw.items():
            line = raw.line_of(key)
            if it is None and key != "type":
                continue
            if key == "id" and isinstance(it, str):
                it = short(it)
            elif key == "type":
                it = self.types.rewritten(raw, key, it, place(section, kind))
            elif key == "default":
                whole = self.types.kind(raw, "type", raw.get("type"))
                it = self.values.rewritten(raw, key, it, whole)
                it = encoded(with_companions(it) if raw.discovers else it, whole)
            elif key == "secondaryFiles":
                it = self.secondary(raw, key, it)
            elif key == "loadListing":
                if it in ("no_listing", "deep_listing"):
                    continue
                self.findings.add(LEFT, raw, key, "loadListing", "a listing of one level is asked for")
            elif key == "inputBinding":
                it = self.binding(it) if kind == "CommandLineTool" else self.contents_alone(made, it)
                if it is None:
                    continue
            elif key == "outputBinding":
                it = self.output_binding(it)
            elif key == "format":
                self.findings.add(IGNORED, raw, key, "format", "formats are told in the output object, and not checked")
            if key == "loadContents" and kind == "Workflow" and it is True:
                self.findings.add(LEFT, raw, key, "loadContents of a workflow", "this runner loads contents for tools alone")
            made.put(key, it, line)
        return made

    def one_name(self, made: Fields, raw: Fields, key: str) -> None:
        """Finds a second name with the same last part, as `a/x` beside `b/x`."""
        if short(key) in made:
            self.findings.add(WRONG, raw, key, "repeated name", f"the name {short(key)} stands twice in one object")

    def contents_alone(self, made: Fields, binding: Any) -> None:
        """Of the binding of a workflow's input only loadContents has a meaning."""
        if isinstance(binding, Fields) and binding.get("loadContents") is True:
            self.findings.add(LEFT, binding, "loadContents", "loadContents of a workflow", "this runner loads contents for tools alone")

    def secondary(self, raw: Fields, key: str, value: Any) -> Any:
        value = patterns_in_place(value)
        listed = value if isinstance(value, Items) else [value]
        for it in listed:
            pattern = it.get("pattern") if isinstance(it, Fields) else it
            for part in ("pattern", "required"):
                node, at = (it, part) if isinstance(it, Fields) else (raw, key)
                if has_expression(it.get(part) if isinstance(it, Fields) else it):
                    self.findings.add(LEFT, node, at, EXPRESSION + "secondaryFiles", "this runner takes no expression in secondaryFiles")
            if has_expression(pattern):
                continue
            if isinstance(pattern, str) and "/" in pattern:
                self.findings.add(LEFT, raw, key, "secondaryFiles with /", "this runner looks for secondary files in the folder of the file")
        copy = copied(value)
        for it in copy if isinstance(copy, Items) else [copy]:
            if isinstance(it, Fields) and it.get("required", 0) is None:
                del it["required"]
        return copy

    def binding(self, raw: Any) -> Any:
        if not isinstance(raw, Fields):
            return raw
        made = raw.like()
        for key, it in raw.items():
            if it is not None and (key != "shellQuote" or it is False):
                made.put(key, copied(it), raw.line_of(key))
        self.no_expression(made, "position", "position")
        self.text(made, "valueFrom", made.get("valueFrom"))
        return made

    def output_binding(self, raw: Any) -> Any:
        made = self.binding(raw)
        if isinstance(made, Fields):
            listing = made.pop("loadListing", None)
            if listing == "shallow_listing":
                self.findings.add(LEFT, made, "loadListing", "loadListing", "a listing of one level is asked for")
            patterns = made.get("glob")
            for at in patterns if isinstance(patterns, Items) else [patterns]:
                self.text(made, "glob", at, folders=False)
            self.text(made, "outputEval", made.get("outputEval"), folders=False)
        return made

    # ---- tools

    def tool(self, made: Fields, raw: Fields, asked: Dict[str, Asked], requirements: Items, hints: Items) -> None:
        shell = self.requirements.at_tool(ToolTexts(raw), asked, requirements, hints)
        for key in ("stdin", "stdout", "stderr"):
            self.text(raw, key, raw.get(key))
            if key != "stdin" and isinstance(raw.get(key), str) and "/" in raw[key] and not has_expression(raw[key]):
                self.findings.add(LEFT, raw, key, f"{key} with /", "this runner takes the name of a file alone")
        arguments = raw.get("arguments")
        if isinstance(arguments, Items):
            listed = arguments.like()
            for at, it in enumerate(arguments):
                self.text(arguments, at, it)
                listed.add(self.binding(it), arguments.line_at(at))
            made.put("arguments", listed, raw.line_of("arguments"))
        if shell:
            command_of(made, raw)
        self.software(made, asked)
        for node, key in lengths_of_texts(raw, kinds_of(raw.get("inputs"), self.types.names)):
            self.findings.add(LEFT, node, key, JAVASCRIPT, "only JavaScript knows the length of a text")

    def software(self, made: Fields, asked: Dict[str, Asked]) -> None:
        """Gives a tool whose container and software are left to this machine an input of their names, so that they tell jobs apart."""
        told = {name: asked[name].fields.get(field) for name, field in SOFTWARE if name in asked and asked[name].fields.get(field) is not None}
        inputs = made.get("inputs")
        if not told or not isinstance(inputs, (Fields, Items)) or is_named(inputs, NAMED_SOFTWARE):
            return
        text = json.dumps(told, sort_keys=True, ensure_ascii=False)
        one = object_of(made, "inputs", type="string", default=text)
        if isinstance(inputs, Fields):
            inputs.put(NAMED_SOFTWARE, one)
        else:
            one.put("id", NAMED_SOFTWARE)
            inputs.add(one)

    # ---- workflows

    def workflow(self, made: Fields, raw: Fields, scope: Scope) -> None:
        for it in lone_picks(raw):
            self.findings.add(LEFT, it, "pickValue", "pickValue of one link", "this runner takes a value that is no list for a list of one here, and cwltool lets it be")
        steps = raw.get("steps")
        whole = (short(raw["id"]) if isinstance(raw.get("id"), str) else "", step_names(steps))
        if isinstance(made.get("outputs"), (Fields, Items)):
            self.clean_sources(made["outputs"], whole)
        if isinstance(steps, (Fields, Items)):
            made.put("steps", self.steps(steps, scope, whole), raw.line_of("steps"))

    def steps(self, steps: Any, scope: Scope, whole: Tuple[str, Set[str]]) -> Any:
        listed = steps.like()
        for key, it in enumerate(steps) if isinstance(steps, Items) else steps.items():
            step = self.step(it, scope, whole) if isinstance(it, Fields) else it
            if isinstance(steps, Items):
                listed.add(step, steps.line_at(key))
            else:
                self.one_name(listed, steps, key)
                listed.put(short(key), step, steps.line_of(key))
        return listed

    def step(self, raw: Fields, scope: Scope, whole: Tuple[str, Set[str]]) -> Fields:
        made = raw.like()
        requirements, hints, below = self.requirements.kept(raw, scope.carried, copied)
        for key, it in raw.items():
            line = raw.line_of(key)
            if it is None or key in ("requirements", "hints", "run"):
                continue
            if key == "id" and isinstance(it, str):
                it = short(it)
            elif key == "in":
                it = self.step_inputs(it, whole, self.targets(raw, scope.names), self.read_there(raw, scope.names))
            elif key == "out":
                it = self.short_names(it)
            elif key == "scatter":
                it = self.short_names(it)
            elif key == "when":
                self.text(raw, key, it, folders=False, runtime=False)
            made.put(key, it, line)
        self.sections(made, raw, requirements, hints)
        if "run" in raw:
            made.put("run", self.run(raw, Scope(below, scope.names, self.javascript.library(raw, scope.library), scope.version)), raw.line_of("run"))
        return made

    def run(self, raw: Fields, scope: Scope) -> Any:
        value = raw["run"]
        if isinstance(value, Fields):
            return self.process(value, scope)
        return self.run_named(raw, value, scope) if isinstance(value, str) else value

    def short_names(self, value: Any) -> Any:
        if isinstance(value, str):
            return short(value)
        if not isinstance(value, Items):
            return value
        listed = value.like()
        for at, it in enumerate(value):
            if isinstance(it, Fields):
                it = copied(it)
                if isinstance(it.get("id"), str):
                    it["id"] = short(it["id"])
            listed.add(short(it) if isinstance(it, str) else it, value.line_at(at))
        return listed

    def targets(self, raw: Fields, names: Dict[str, Any]) -> Dict[str, Any]:
        """Returns the types of what entries with a default lead to: of the process's inputs, in lists where they are scattered, or their own."""
        if not any(isinstance(it, Fields) and "default" in it for _, it in parameters(raw.get("in"))):
            return {}
        found = self.javascript.peek(raw, names)
        kinds = kinds_of(found[0].get("inputs"), found[1]) if found else {}
        for key, it in parameters(raw.get("in")):
            if found and isinstance(it, Fields) and it.get("default") is not None:
                # What the process doesn't take, texts of the step may name.
                kinds.setdefault(short(key), kind_of_value(it["default"]))
        scatter = raw.get("scatter")
        for it in scatter if isinstance(scatter, Items) else [scatter]:
            if isinstance(it, str) and short(it) in kinds:
                kinds[short(it)] = list_type(kinds[short(it)])
        return kinds

    def read_there(self, raw: Fields, names: Dict[str, Any]) -> Set[str]:
        """Returns the entries that ask for contents which the process reads itself, or doesn't name."""
        asked = [short(key) for key, it in parameters(raw.get("in")) if isinstance(it, Fields) and it.get("loadContents") is True]
        found = self.javascript.peek(raw, names) if asked else None
        return {name for name in asked if is_read_there(found, name, self.javascript.peek)}

    def step_inputs(self, value: Any, whole: Tuple[str, Set[str]], targets: Dict[str, Any], read: Set[str]) -> Any:
        if not isinstance(value, (Fields, Items)):
            return value
        listed = value.like()
        for key, it in enumerate(value) if isinstance(value, Items) else value.items():
            if isinstance(it, Fields):
                name = short(str(it.get("id") if isinstance(value, Items) else key))
                it = self.step_input(it, whole, targets.get(name), name in read)
            elif isinstance(value, Fields):
                it = value.like() if it is None else self.clean(it, whole)
            if isinstance(value, Items):
                listed.add(it, value.line_at(key))
            else:
                self.one_name(listed, value, key)
                listed.put(short(key), it, value.line_of(key))
        return listed

    def step_input(self, raw: Fields, whole: Tuple[str, Set[str]], kind: Any, is_read: bool) -> Fields:
        made = raw.like()
        for key, it in raw.items():
            line = raw.line_of(key)
            if it is None:
                continue
            if key == "id" and isinstance(it, str):
                it = short(it)
            elif key == "source":
                it = self.clean(it, whole)
            elif key == "default":
                it = self.values.rewritten(raw, key, it, kind)
                it = it if kind is None else encoded(it, kind)
            elif key == "valueFrom":
                self.text(raw, key, it, folders=False, runtime=False)
            elif key == "loadContents" and it is True:
                if is_read and "valueFrom" not in raw:
                    continue
                self.findings.add(LEFT, raw, key, "loadContents of a workflow", "this runner loads contents for tools alone, and the process names them without asking for them: let its input ask")
            elif key == "loadListing" and it in ("no_listing", "deep_listing"):
                continue
            made.put(key, it, line)
        return made

    def clean_sources(self, outputs: Any, whole: Tuple[str, Set[str]]) -> None:
        for it in outputs if isinstance(outputs, Items) else outputs.values():
            if isinstance(it, Fields) and "outputSource" in it:
                it["outputSource"] = self.clean(it["outputSource"], whole)

    def clean(self, value: Any, whole: Tuple[str, Set[str]]) -> Any:
        if isinstance(value, str):
            return source_name(value, *whole)
        if not isinstance(value, Items):
            return value
        listed = value.like()
        for at, it in enumerate(value):
            listed.add(source_name(it, *whole) if isinstance(it, str) else it, value.line_at(at))
        return listed


def takes_any(raw: Fields, names: Dict[str, Any]) -> bool:
    """Says whether an input may be of any type: only node tells a number with a fraction, or what has one in it, from other values there."""
    return any(mentions(it, ("Any",)) for it in kinds_of(raw.get("inputs"), names).values())


def is_named(inputs: Any, name: str) -> bool:
    return any(short(key) == name for key, _ in parameters(inputs))


def place(section: str, kind: str) -> str:
    """Returns where a type stands."""
    return OF_LINK if kind == "Workflow" else OF_INPUT if section == "inputs" else OF_OUTPUT


def kind_of(raw: Fields) -> Optional[str]:
    return class_name(raw["class"]) if isinstance(raw.get("class"), str) else None


def typed(value: Fields) -> Fields:
    """Returns the parameter that has this type alone."""
    made = value.like()
    made.put("type", value)
    return made


def step_names(steps: Any) -> Set[str]:
    if isinstance(steps, Fields):
        return {short(it) for it in steps}
    if isinstance(steps, Items):
        return {short(it["id"]) for it in steps if isinstance(it, Fields) and isinstance(it.get("id"), str)}
    return set()


def named_types(raw: Fields) -> Dict[str, Any]:
    """Returns the types of the process's SchemaDefRequirement by their names."""
    found: Dict[str, Any] = {}
    for section in ("hints", "requirements"):
        for it in entries(raw.get(section)):
            if it["class"] == "SchemaDefRequirement" and isinstance(it.get("types"), Items):
                for one in it["types"]:
                    if isinstance(one, Fields) and isinstance(one.get("name"), str):
                        found[short(one["name"])] = one
    return found
