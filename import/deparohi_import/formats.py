"""The `format` of the files that a document gives, as cwltool has it: what the output of a tool says, or what the file came with.

It is told in the output object alone: between jobs a file has none. Of what an ExpressionTool gives, and of JavaScript, none is known.
"""

from typing import Any, Dict, Optional, Tuple

from .expressions import parameters
from .flow import Peek
from .marked import Fields, Items
from .names import short, source_name
from .pattern import Pattern

OF_INPUT = Pattern(r"\$\(inputs(?:\.(\w+)|\[['\"]([^'\"]+)['\"]\])\.format\)\Z")
MOST_NESTED = 64
Known = Dict[str, Optional[str]]


class Formats:
    """The formats of one import. `namespaces` has the prefixes of each file."""

    def __init__(self, peek: Peek, namespaces: Dict[str, Any]) -> None:
        self.peek, self.namespaces, self.depth = peek, namespaces, 0
        self.known: Dict[Tuple[int, Any], Known] = {}

    def full(self, name: str, file: str) -> str:
        """Returns a name with its prefix written out."""
        prefix, colon, rest = name.partition(":")
        prefixes = self.namespaces.get(file)
        return str(prefixes[prefix]) + rest if colon and isinstance(prefixes, dict) and prefix in prefixes else name

    def of_value(self, value: Any) -> Optional[str]:
        """Returns the format that a file, or each file of a list, comes with."""
        if isinstance(value, Items):
            found = {self.of_value(it) for it in value}
            return found.pop() if len(found) == 1 else None
        form = value.get("format") if isinstance(value, Fields) and value.get("class") == "File" else None
        return self.full(form, value.file) if isinstance(form, str) else None

    def outputs(self, raw: Fields, names: Dict[str, Any], given: Known) -> Known:
        """Returns the formats of a process's outputs, by those of its inputs."""
        given = {**{short(key): self.of_value(it.get("default")) for key, it in parameters(raw.get("inputs")) if isinstance(it, Fields)}, **given}
        key = id(raw), tuple(sorted((name, str(it)) for name, it in given.items()))
        if key not in self.known:
            # What runs itself has none.
            self.known[key] = {}
            if self.depth < MOST_NESTED:
                self.depth += 1
                self.known[key] = self.of_workflow(raw, names, given) if raw.get("class") == "Workflow" else self.of_tool(raw, given)
                self.depth -= 1
        return self.known[key]

    def of_tool(self, raw: Fields, given: Known) -> Known:
        found: Known = {}
        for key, it in parameters(raw.get("outputs")) if raw.get("class") == "CommandLineTool" else []:
            form = it.get("format") if isinstance(it, Fields) else None
            if isinstance(form, str):
                named = OF_INPUT.match(form.strip())
                found[short(key)] = given.get(named[1] or named[2]) if named else None if "$(" in form or "${" in form else self.full(form, it.file)
        return found

    def of_workflow(self, raw: Fields, names: Dict[str, Any], given: Known) -> Known:
        steps = {short(key): it for key, it in parameters(raw.get("steps")) if isinstance(it, Fields)}
        whole = (short(raw["id"]) if isinstance(raw.get("id"), str) else "", set(steps))
        made: Dict[str, Known] = {}

        def brought(value: Any) -> Optional[str]:
            found = {one(it) for it in (value if isinstance(value, Items) else [value])}
            return found.pop() if len(found) == 1 else None

        def one(source: Any) -> Optional[str]:
            step, slash, name = source_name(str(source), *whole).rpartition("/")
            if not slash:
                return given.get(name)
            if step in steps and step not in made:
                # A circle of links is found elsewhere.
                made[step] = {}
                entries = {short(key): it if isinstance(it, Fields) else None for key, it in parameters(steps[step].get("in"))}
                sources = {short(key): it.get("source") if isinstance(it, Fields) else it for key, it in parameters(steps[step].get("in"))}
                inner = {key: None if entries[key] and "valueFrom" in entries[key] else brought(sources[key]) if sources[key] is not None else None for key in sources}  # type: ignore
                found = self.peek(steps[step], names)
                made[step] = self.outputs(found[0], found[1], {key: it for key, it in inner.items() if it is not None}) if found else {}
            return made.get(step, {}).get(name)

        return {short(key): brought(it["outputSource"]) for key, it in parameters(raw.get("outputs")) if isinstance(it, Fields) and "outputSource" in it}


def with_format(value: Any, form: str) -> Any:
    """Returns an output value whose files, or that itself if it is one, have this format."""
    if isinstance(value, list):
        return [with_format(it, form) for it in value]
    return {**value, "format": form} if isinstance(value, dict) and value.get("class") == "File" and "format" not in value else value
