"""Makes of a tool with what the runner doesn't take the tool that does the same in one job of node.

The plan has the tool as its author wrote it, its types and defaults resolved; what is around it, as requirements, is put into it. What
can't be done so is found: `refusals` says it, and the tool stays as it is.
"""

import re
from typing import TYPE_CHECKING, Any, Dict, FrozenSet, Iterator, List, NamedTuple, Optional, Tuple

from .choices import Choices
from .expressions import is_javascript, parameters
from .javascript_parts import parts_of_any
from .kinds import encoded, items_of, lowered, mentions
from .marked import Fields, Items, copied, list_of, marked_of, object_of
from .names import short
from .pattern import Pattern
from .plans import tool_of
from .references import has_expression
from .requirements import NO_CONTAINERS, Asked, entries, variables_of
from .secondary import all_static, fields_ask, static_patterns, with_companions

if TYPE_CHECKING:
    from .process import Rewriter, Scope

COPIED = ("successCodes", "temporaryFailCodes", "permanentFailCodes")
DOCUMENTING = ("doc", "label", "intent", "format", "streamable", "$namespaces", "$schemas")
WHOLE_INPUTS = Pattern(r"(?<![\w$.'\"])inputs(?!\w|\s*[.\[:])")
# What sees the order of an object's names, and what is no code.
ENUMERATES = Pattern(r"\bin\b|\bObject\b|\bJSON\b|\.\.\.|\bReflect\b|\bforEach\b")
# Inputs as a whole that a function is called with.
GIVEN_ON = Pattern(r"(?<![\w$.])(?!(?:for|if|in|of|return|switch|typeof|while)\b)[A-Za-z_$][\w$]*\s*\((?:[^()]*,)?\s*inputs\s*(?=[,)])")
# A name of an input in JavaScript, and what is asked of its value.
CHAIN = Pattern(r"\binputs\s*\.\s*(\w+)((?:\s*\.\s*\w+|\s*\[\s*\w*\s*\])*)")
REFERRED = Pattern(r"\$\((?:inputs(?:\.(\w+)|\[['\"](\w+)['\"]\])|self)[^()\s]*\.format\)")
APART = Pattern(r"'(?:[^'\\\n]|\\.)*'|\"(?:[^\"\\\n]|\\.)*\"|//[^\n]*|/\*.*?\*/", re.S)
KNOWN_LISTINGS = ("no_listing", "shallow_listing", "deep_listing")


class Refusal(NamedTuple):
    """What can't be done in a job of node: where it stands, its feature, and why."""

    node: Any
    key: Any
    feature: str
    words: str


class InJob:
    """One tool, or ExpressionTool, that node does as a whole."""

    def __init__(self, raw: Fields, rewriter: "Rewriter", scope: "Scope", below: Dict[str, Asked], choices: Choices) -> None:
        self.raw, self.rewriter, self.scope, self.below, self.choices = raw, rewriter, scope, below, choices
        self.is_root = rewriter.is_root
        self.is_expression = raw.get("class", "").endswith("ExpressionTool")
        self.refusals: List[Refusal] = []
        # Files that a working folder's listing names, by the inputs that bring them.
        self.listed: Dict[str, Fields] = {}
        # What the runner takes as a hint, or ignores.
        self.hints: List[Fields] = []

    def refuse(self, node: Any, key: Any, feature: str, words: str) -> None:
        self.refusals.append(Refusal(node, key, feature, words))

    def made(self) -> Optional[Fields]:
        """Returns the tool, or None where something is refused."""
        plan, inputs = self.plan(), self.inputs()
        self.check_texts()
        plan.update(guarded_in([code for *_, text in texts_below(self.raw) for code in parts_of_any(text)], plan["library"]))
        if self.refusals:
            return None
        made = tool_of(self.raw, plan, inputs, self.rewriter.values.folder)
        for key in ("id", *COPIED):
            if key in self.raw:
                made.put(key, self.raw[key], self.raw.line_of(key))
        made.put("requirements", self.requirements())
        if self.hints:
            made.put("hints", list_of(self.raw, self.hints))
        return made

    # ---- the plan

    def plan(self) -> Dict[str, Any]:
        raw, library = self.raw, self.scope.library
        base = raw.get("baseCommand")
        made: Dict[str, Any] = {
            "version": self.scope.version,
            "javascript": library is not None,
            "library": list(library.texts) if library else [],
            "isExpression": self.is_expression,
            "inputs": [self.discovering(self.parameter("inputs", name, it)) for name, it in parameters(raw.get("inputs"))],
            "outputs": [self.parameter("outputs", name, it) for name, it in parameters(raw.get("outputs"))],
            "baseCommand": list(base) if isinstance(base, Items) else [] if base is None else [base],
            "arguments": items_of(raw.get("arguments")),
            "environment": self.environment(),
        }
        for key in COPIED:
            made[key] = items_of(raw.get(key))
        for key in ("stdin", "stdout", "stderr", "expression"):
            if raw.get(key) is not None:
                made[key] = raw[key]
        self.streams(made)
        self.asked(made)
        made["inputs"] += [{"name": name, "type": it["class"]} for name, it in self.listed.items()]
        return made

    def streams(self, made: Dict[str, Any]) -> None:
        """Names the streams that outputs collect, and the one that an input is."""
        for it in made["outputs"]:
            if it["type"] in ("stdout", "stderr") and it["type"] not in made:
                made[it["type"]] = f"cwl.{it['type']}"
        for it in made["inputs"]:
            if it["type"] == "stdin":
                it["type"] = "File"
                made["stdin"] = f"$(inputs['{it['name']}'].path)"

    def parameter(self, section: str, name: str, it: Any) -> Dict[str, Any]:
        """Returns a parameter of the plan, with its type expanded."""
        types = self.rewriter.types
        if not isinstance(it, Fields) or isinstance(self.raw.get(section), Fields) and "type" not in it:
            return {"name": short(name), "type": types.kind(self.raw[section], name, it)}
        made = {key: value for key, value in it.items() if key not in ("id", "default", *DOCUMENTING) and value is not None}
        return {**made, "name": short(name), "type": types.kind(it, "type", it.get("type"))}

    def discovering(self, made: Dict[str, Any]) -> Dict[str, Any]:
        """Marks an input of the root of which all is told that stands beside its files: the job keeps what is asked for."""
        asks = not all_static(made.get("secondaryFiles")) or fields_ask(made["type"])
        return {**made, "discovers": True} if self.is_root and asks else made

    def environment(self) -> List[Tuple[str, str]]:
        """Returns the variables in force, those of the user's choice behind the document's."""
        found: Dict[str, str] = {}
        asked = self.below.get("EnvVarRequirement")
        definitions = asked.fields.get("envDef") if asked else None
        for name, it in variables_of(definitions):
            found[name] = it
        return [(name, text) for name, text in self.choices.environment if name not in found] + list(found.items())

    def asked(self, made: Dict[str, Any]) -> None:
        """Puts the requirements into the plan."""
        made["listing"] = "deep_listing" if self.scope.version == "v1.0" else "no_listing"
        given = {key: value for key, value in (("cores", self.choices.cores), ("ram", self.choices.ram)) if value is not None}
        if given:
            made["given"] = given
        for name, it in self.below.items():
            if name == "ShellCommandRequirement":
                made["shell"] = True
            elif name == "ResourceRequirement":
                made["resources"] = {key: value for key, value in it.fields.items() if key.endswith(("Min", "Max"))}
                self.hints.append(within_given(it.fields, given))
            elif name == "InitialWorkDirRequirement":
                self.working_folder(made, it)
            elif name == "LoadListingRequirement" and it.fields.get("loadListing") in KNOWN_LISTINGS:
                made["listing"] = it.fields["loadListing"]
            elif name == "ToolTimeLimit":
                made["timelimit"] = it.fields.get("timelimit")
            elif name == "InplaceUpdateRequirement" and not it.is_hint and it.fields.get("inplaceUpdate") is not False:
                self.refuse(it.fields, "class", name, "this runner changes no input in its place; --force-inplace-update-as-hint leaves it to you")
        if given and "ResourceRequirement" not in self.below:
            self.hints.append(within_given(object_of(self.raw, of_class="ResourceRequirement"), given))
        self.software(made)

    def working_folder(self, made: Dict[str, Any], it: Asked) -> None:
        listing = it.fields.get("listing")
        made["workdir"] = listing if isinstance(listing, str) else [self.entry(one) for one in items_of(listing)]
        for one in listing if isinstance(listing, Items) else []:
            if isinstance(one, Fields) and str(one.get("entryname", "")).startswith("/"):
                self.refuse(one, "entryname", "absolute entryname", "the entry is outside of the working folder; a relative one does, where the command takes it from there")

    def entry(self, one: Any) -> Any:
        """Returns an entry of a listing, of a file that it names by its path a reference to the input that brings it."""
        if not isinstance(one, Fields) or one.get("class") not in ("File", "Directory") or isinstance(one.get("contents"), str):
            return one
        name = f"deparohi_listed_{len(self.listed)}"
        self.listed[name] = one
        return f"$(inputs['{name}'])"

    def software(self, made: Dict[str, Any]) -> None:
        """Puts a container, or its name, into the plan."""
        forced = self.rewriter.requirements.forced
        docker, packages = self.below.get("DockerRequirement"), self.below.get("SoftwareRequirement")
        image = image_of(docker.fields) if docker else None
        if docker and self.choices.container and image:
            network = self.below.get("NetworkAccess")
            allowed = network.fields.get("networkAccess") if network else self.scope.version == "v1.0"
            made["container"] = {"engine": self.choices.container, "image": image, "network": allowed is True}
            if isinstance(docker.fields.get("dockerOutputDirectory"), str):
                made["container"]["outdir"] = docker.fields["dockerOutputDirectory"]
            if has_expression(allowed):
                self.refuse(network.fields, "networkAccess", "expression in networkAccess", "whether the network may be used is decided before the run")  # type: ignore
        elif docker and not (docker.is_hint and not self.choices.container) and "DockerRequirement" not in forced:
            words = NO_CONTAINERS if image else "its image has to be built or loaded first"
            self.refuse(docker.fields, "class", "DockerRequirement", f"{words}; --force-docker-as-hint leaves it to you")
        elif docker:
            made["software"] = {"image": image}
            self.hints.append(docker.fields)
        if packages:
            made.setdefault("software", {})["packages"] = packages.fields.get("packages")
            self.hints.append(packages.fields)
            if not packages.is_hint and "SoftwareRequirement" not in forced:
                self.refuse(packages.fields, "class", "SoftwareRequirement", "this runner looks for no software; --force-software-as-hint leaves it to you")

    # ---- the tool around the plan

    def inputs(self) -> List[Fields]:
        made, types, values = [], self.rewriter.types, self.rewriter.values
        for name, it in parameters(self.raw.get("inputs")):
            told = self.parameter("inputs", name, it)
            one = object_of(self.raw, id=short(name), type=marked_of(self.raw, lowered(told["type"])))
            one.line = getattr(it, "line", one.line)
            if isinstance(it, Fields) and it.get("default") is not None:
                default = values.rewritten(it, "default", it["default"], told["type"])
                default = with_companions(default) if "discovers" in self.discovering(told) else default
                one.put("default", encoded(default, told["type"]), it.line_of("default"))
            if told.get("secondaryFiles") is not None:
                self.secondary(one, it)
            made.append(one)
        for name, it in self.listed.items():
            made.append(object_of(it, id=name, type=it["class"], default=values.rewritten(object_of(it, default=it), "default", it, it["class"])))
        return made

    def secondary(self, one: Fields, it: Fields) -> None:
        """Leaves to the runner the patterns that it can look for; the job checks what expressions ask for."""
        found = static_patterns(it["secondaryFiles"])
        if any("/" in str(part.get("pattern")) for part in found):
            self.refuse(it, "secondaryFiles", "secondaryFiles with /", "this runner looks for secondary files in the folder of the file")
        if found:
            one.put("secondaryFiles", marked_of(self.raw, found), it.line_of("secondaryFiles"))

    def requirements(self) -> Items:
        """Returns the requirements of the tool that runs node: whether it may be used again, and no variables but its own."""
        kept = [object_of(self.raw, of_class="EnvVarRequirement", envDef=list_of(self.raw, []))]
        for section in ("hints", "requirements"):
            kept += [copied(it) for it in entries(self.raw.get(section)) if it["class"] == "WorkReuse"]
        return list_of(self.raw, kept)

    # ---- what would give another value

    def check_texts(self) -> None:
        plain = without_files({short(name): self.parameter("inputs", name, it)["type"] for name, it in parameters(self.raw.get("inputs"))})
        for node, key, whole in texts_below(self.raw):
            # A backslash keeps what follows it from being evaluated, and in JavaScript begins no name.
            text = re.sub(r"\\.", "", whole, flags=re.S)
            if self.scope.library is None and is_javascript(text):
                self.refuse(node, key, "JavaScript", "this runner takes references to parameters and no JavaScript, and InlineJavascriptRequirement isn't required")
            if any((it[1] or it[2]) not in plain for it in REFERRED.finditer(text)):
                self.refuse(node, key, "format in a reference", "the format of a file is not kept")
            for code in parts_of_any(text):
                reason = why_other(code, "\n".join(self.scope.library.texts) if self.scope.library else "", plain)
                if reason:
                    self.refuse(node, key, "JavaScript", reason)


def within_given(asked: Fields, given: Dict[str, int]) -> Fields:
    """Returns the hint by which a launcher is told what `runtime` says: what the tool asks for, within what the user gives. An expression stays."""
    made = asked.like()
    for key, value in asked.items():
        made.put(key, value, asked.line_of(key))
    for name, number in given.items():
        least, most = asked.get(f"{name}Min"), asked.get(f"{name}Max")
        if all(it is None or isinstance(it, (int, float)) for it in (least, most)):
            made.put(f"{name}Min", max(least or 0, number if most is None else min(number, most)))
    return made


def without_files(kinds: Dict[str, Any]) -> FrozenSet[str]:
    """Returns the names of those expanded types that surely have no files."""
    return frozenset(name for name, it in kinds.items() if not mentions(it, ("File", "Directory", "Any", "stdin")))


def why_other(code: str, library: str, plain: FrozenSet[str]) -> Optional[str]:
    """Returns why JavaScript may give another value than in cwltool, or None. The plain inputs have no files."""
    bare = APART.sub(" ", code)
    if WHOLE_INPUTS.search(GIVEN_ON.sub(" ", bare)) and bare.strip("() ") != "inputs" and ENUMERATES.search(bare + APART.sub(" ", library)):
        return "inputs are named as a whole: their order is another one"
    if re.search(r"\.\s*format\b(?!\s*\()", CHAIN.sub(lambda it: " " if it[1] in plain else f" {it[2]}", bare)):
        return "the format of a file is not kept"
    if re.search(r"\binputs\b[^;]*\.\s*checksum\b", bare):
        return "the checksum of an input is not known to cwltool"
    return None


def guarded_in(codes: List[str], library: List[str]) -> Dict[str, bool]:
    """Returns what a plan says of JavaScript that may look at the order of inputs where nothing but a run tells: the job fails if it does."""
    bare = [APART.sub(" ", it) for it in [*codes, *library]]
    return {"guarded": True} if any(map(WHOLE_INPUTS.search, bare)) and any(map(ENUMERATES.search, bare)) else {}


def image_of(fields: Fields) -> Optional[str]:
    """Returns the image that an engine can fetch or has, or None where it would have to be built or loaded."""
    for key in ("dockerImageId", "dockerPull"):
        if isinstance(fields.get(key), str) and (key == "dockerPull" or not any(it in fields for it in ("dockerFile", "dockerLoad", "dockerImport"))):
            return fields["dockerPull"] if isinstance(fields.get("dockerPull"), str) else fields[key]
    return None


def texts_below(value: Any) -> Iterator[Tuple[Any, Any, str]]:
    """Yields the texts of a process that may be evaluated, with their places."""
    if isinstance(value, Fields):
        for key, it in value.items():
            if key in ("doc", "label", "default", "format", "hints", "expressionLib", "types"):
                continue
            if isinstance(it, str):
                if has_expression(it):
                    yield value, key, it
            else:
                yield from texts_below(it)
    elif isinstance(value, Items):
        for at, it in enumerate(value):
            if isinstance(it, str):
                if has_expression(it):
                    yield value, at, it
            else:
                yield from texts_below(it)


