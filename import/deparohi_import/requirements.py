"""Requirements and hints: which the runner takes, which change nothing in what a tool does, and which are left.

Some requirements say something about the tools below a workflow or a step. They are carried down to each tool, where it shows
whether they change anything; there they are dropped, become hints, or stay requirements, which the runner refuses.
"""

import re
from typing import Any, Callable, Dict, Iterator, List, NamedTuple, Optional, Set, Tuple

from .choices import Choices
from .findings import IGNORED, LEFT, REWRITTEN, WRONG, Findings
from .marked import Fields, Items, list_of, object_of
from .names import class_name
from .references import BACKSLASH, JAVASCRIPT, faults, has_expression
from .shell import why_left

# What the runner meets by being what it is.
PLAIN = (
    "InlineJavascriptRequirement",
    "ScatterFeatureRequirement",
    "SubworkflowFeatureRequirement",
    "MultipleInputFeatureRequirement",
    "StepInputExpressionRequirement",
)
# What the runner takes with its fields.
ACTING = ("EnvVarRequirement", "WorkReuse")
# The option by which a user decides that a requirement is a hint.
FORCED = {
    "DockerRequirement": "--force-docker-as-hint",
    "SoftwareRequirement": "--force-software-as-hint",
    "InitialWorkDirRequirement": "--force-initial-workdir-as-hint",
    "ShellCommandRequirement": "--force-shell-as-hint",
    "ResourceRequirement": "--force-resources-as-hint",
    "InplaceUpdateRequirement": "--force-inplace-update-as-hint",
    "LoadListingRequirement": "--force-load-listing-as-hint",
    "ToolTimeLimit": "--force-time-limit-as-hint",
}
NO_CONTAINERS = "the proved program has no containers; --container docker (or podman, apptainer) runs the tool in one"
CARRIED = (*FORCED, "NetworkAccess")


class Asked(NamedTuple):
    """A requirement or hint that is in force at a tool."""

    fields: Fields
    is_hint: bool


def entries(section: Any) -> Iterator[Fields]:
    """Yields the requirements of a list, or of a map by class, each with its class without prefixes."""
    if isinstance(section, Items):
        for it in section:
            if isinstance(it, Fields) and isinstance(it.get("class"), str):
                yield with_class(it, it["class"], it.line)
    elif isinstance(section, Fields):
        for key, it in section.items():
            fields = it if isinstance(it, Fields) else section.like()
            yield with_class(fields, key, section.line_of(key))


def with_class(fields: Fields, name: str, line: Optional[int]) -> Fields:
    made = Fields(fields.file, line)
    made.put("class", class_name(name), line)
    for key, it in fields.items():
        if key != "class" and it is not None:
            made.put(key, it, fields.line_of(key))
    return made


class Requirements:
    """Sorts the requirements of processes and steps."""

    def __init__(self, findings: Findings, forced: Set[str], choices: Choices = Choices()) -> None:
        self.findings, self.forced, self.choices = findings, forced, choices

    def kept(self, raw: Fields, carried: Dict[str, Asked], copy: Callable[[Fields], Fields]) -> "tuple[Items, Items, Dict[str, Asked]]":
        """Returns the requirements and hints that stay at a process or step, and what is carried to the tools below."""
        requirements, hints, below = Items(raw.file, raw.line), Items(raw.file, raw.line), dict(carried)
        own: Dict[str, Asked] = {}
        for section, kept in (("hints", hints), ("requirements", requirements)):
            self.tell_malformed(raw, section)
            for it in entries(raw.get(section)):
                name = it["class"]
                if name == "EnvVarRequirement":
                    own[name] = Asked(it, section == "hints")
                    if self.choices.environment or is_work(raw) and sets_by_javascript(it):
                        continue
                if name in CARRIED:
                    own[name] = Asked(it, section == "hints")
                elif name in ("SchemaDefRequirement", "InlineJavascriptRequirement"):
                    # Types are written out, and JavaScript was taken out, or is found where it stands.
                    continue
                elif section == "hints":
                    kept.add(copy(it), it.line)
                    self.tell_hint(it)
                else:
                    kept.add(self.requirement(it, copy), it.line)
        for name, it in own.items():
            # A requirement of an outer process comes before a hint of an inner one.
            if not (it.is_hint and name in below and not below[name].is_hint):
                below[name] = it
        return requirements, hints, below

    def tell_malformed(self, raw: Fields, section: str) -> None:
        """Finds what is no requirement, since it is left out of what is written."""
        value = raw.get(section)
        if isinstance(value, Items):
            for at, it in enumerate(value):
                if not (isinstance(it, Fields) and isinstance(it.get("class"), str)):
                    self.findings.add(WRONG, value, at, section, f"an entry of {section} is an object with a class")
        elif isinstance(value, Fields):
            for key, it in value.items():
                if not isinstance(it, Fields) and it is not None:
                    self.findings.add(WRONG, value, key, section, f"an entry of {section} is an object")
        elif value is not None:
            self.findings.add(WRONG, raw, section, section, f"{section} is a list, or a map by class")

    def tell_hint(self, it: Fields) -> None:
        if it["class"] not in (*PLAIN, *ACTING):
            self.findings.add(IGNORED, it, "class", it["class"], "the runner ignores this hint")

    def requirement(self, it: Fields, copy: Callable[[Fields], Fields]) -> Fields:
        name = it["class"]
        if name in PLAIN:
            plain = it.like()
            plain.put("class", name)
            return plain
        if name not in ACTING:
            self.findings.add(LEFT, it, "class", name, "this runner doesn't meet this requirement")
        return copy(it)

    def at_tool(self, tool: "ToolTexts", asked: Dict[str, Asked], requirements: Items, hints: Items) -> bool:
        """Puts what was carried to a tool among its requirements or hints. Returns whether its command is one for the shell."""
        shell = False
        self.variables_at(tool, asked.get("EnvVarRequirement"), requirements)
        for name, it in asked.items():
            if name == "EnvVarRequirement":
                continue
            why_not = self.changes(name, it, tool)
            by_container = name == "DockerRequirement" and self.choices.container
            if name == "ShellCommandRequirement" and why_not is None:
                shell = True
                self.findings.add(REWRITTEN, it.fields, "class", name, "the shell is asked for by baseCommand, with the same words")
            elif why_not is None or name in self.forced and not by_container and not stages_files(it.fields):
                self.tell_moved(name, it, why_not)
                hints.add(it.fields, it.fields.line)
            else:
                words = f"{why_not}; {FORCED[name]} leaves it to you"
                self.findings.add(LEFT, it.fields, "class", name, words if not it.is_hint else f"as a hint: {words}")
                requirements.add(it.fields, it.fields.line)
        return shell

    def variables_at(self, tool: "ToolTexts", asked: Optional[Asked], requirements: Items) -> None:
        """Puts variables that are in force at a tool, and those of the user's choice, into its own requirement."""
        if not self.choices.environment and not (asked and sets_by_javascript(asked.fields)):
            return
        found = {name: it for name, it in self.choices.environment}
        definitions = asked.fields.get("envDef") if asked else None
        found.update(variables_of(definitions))
        node = asked.fields if asked else tool.raw
        listed = [object_of(node, envName=name, envValue=text) for name, text in found.items()]
        for at, it in enumerate(requirements):
            if it["class"] == "EnvVarRequirement":
                requirements[at].put("envDef", list_of(node, listed))
                return
        requirements.add(object_of(node, of_class="EnvVarRequirement", envDef=list_of(node, listed)), node.line)

    def tell_moved(self, name: str, it: Asked, why_not: Optional[str]) -> None:
        if why_not is not None:
            self.findings.add(IGNORED, it.fields, "class", name, f"{FORCED[name]}: {why_not}")
        elif it.is_hint:
            told = "the runner reserves nothing; a launcher is told" if name == "ResourceRequirement" else "the runner ignores this hint"
            self.findings.add(IGNORED, it.fields, "class", name, told)
        else:
            self.findings.add(REWRITTEN, it.fields, "class", name, "it changes nothing in what the tool does here, and becomes a hint")

    def changes(self, name: str, it: Asked, tool: "ToolTexts") -> Optional[str]:
        """Returns how this changes what the tool does, or None where it doesn't."""
        fields = it.fields
        if name == "ShellCommandRequirement":
            return tool.shell
        if name == "ResourceRequirement":
            return "runtime.cores is used, which is 1 in this runner" if tool.mentions(r"runtime\.cores") and {"coresMin", "coresMax"} & set(fields) else None
        if name == "InitialWorkDirRequirement":
            return None if fields.get("listing") == [] else "this runner puts no files into the working folder"
        if name == "LoadListingRequirement":
            # This runner measures a Directory with all that is below it.
            return "a listing of one level is asked for" if fields.get("loadListing") == "shallow_listing" and tool.mentions("listing") else None
        if name == "InplaceUpdateRequirement":
            return None if it.is_hint or fields.get("inplaceUpdate") is False else "this runner changes no input in its place"
        if name == "ToolTimeLimit":
            return None if it.is_hint or fields.get("timelimit") == 0 else "this runner has no time limits"
        if name == "NetworkAccess":
            return None
        if name == "DockerRequirement" and self.choices.container:
            return f"{self.choices.container} runs it"
        words = {"DockerRequirement": NO_CONTAINERS, "SoftwareRequirement": "this runner looks for no software"}
        return None if it.is_hint else words[name]


def stages_files(it: Fields) -> bool:
    """Says whether an InitialWorkDirRequirement may put files into the folder: without them a command may end well, and give something else."""
    if it["class"] != "InitialWorkDirRequirement":
        return False
    listing = it.get("listing")
    return not isinstance(listing, Items) or any(not isinstance(one, Fields) or "class" in one or has_expression(one.get("entry")) for one in listing)


def is_work(raw: Fields) -> bool:
    """Says whether an object is a workflow or a step, whose requirements are for the tools below it."""
    return "run" in raw or "steps" in raw


def sets_by_javascript(it: Fields) -> bool:
    """Says whether a variable's value is more than a reference."""
    definitions = it.get("envDef")
    return any(any(feature in (JAVASCRIPT, BACKSLASH) for feature, _ in faults(str(text), True, True)) for _, text in variables_of(definitions))


def variables_of(definitions: Any) -> Iterator[Tuple[str, Any]]:
    """Yields the variables of envDef with the texts of their values."""
    if isinstance(definitions, Fields):
        for name, it in definitions.items():
            yield name, it.get("envValue") if isinstance(it, Fields) else it
    elif isinstance(definitions, Items):
        for it in definitions:
            if isinstance(it, Fields):
                yield str(it.get("envName")), it.get("envValue")


class ToolTexts:
    """What the texts of a tool mention, its documentation apart."""

    def __init__(self, raw: Fields) -> None:
        self.texts: List[str] = []
        self.raw = raw
        self.shell = why_left(raw)
        self.gather(raw)

    def gather(self, value: Any) -> None:
        if isinstance(value, Fields):
            for key, it in value.items():
                if key not in ("doc", "label", "hints", "requirements", "default"):
                    self.gather(it)
            for section in ("hints", "requirements"):
                for it in entries(value.get(section)):
                    if it["class"] == "EnvVarRequirement":
                        self.gather(it)
        elif isinstance(value, Items):
            for it in value:
                self.gather(it)
        elif has_expression(value):
            self.texts.append(value)

    def mentions(self, pattern: str) -> bool:
        return any(re.search(pattern, it) for it in self.texts)
