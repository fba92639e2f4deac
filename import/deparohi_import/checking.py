"""Holds a rewritten document against the runner's table, to say with its line what the runner would refuse."""

from typing import Any, Optional, Set

from .findings import LEFT, WRONG, Findings, place_of
from .marked import Fields, Items
from .standard import is_of_standard
from .table import OBJECTS, REQUIREMENTS, TYPES, form_of, is_ignored
from .kinds import FLOATS

SUBJECTS = {"Variable": "envName"}
MAIN_FIELDS = {"ToolInput": "type", "ToolOutput": "type", "WorkflowInput": "type", "WorkflowOutput": "type", "StepInput": "source", "Variable": "envValue"}
ONE_OF = {
    "ScatterMethod": ("dotproduct", "nested_crossproduct", "flat_crossproduct"),
    "LinkMerge": ("merge_nested", "merge_flattened"),
    "PickValue": ("first_non_null", "the_only_non_null", "all_non_null"),
    "Version": ("v1.2",),
}
LISTS = {"Ints": "Int", "Symbols": "Text", "Arguments": "Argument", "StepOutputs": "StepOutput"}
ONE_OR_LIST = {"Words": "Text", "Names": "Text", "Sources": "Source", "SecondaryFiles": "SecondaryFile"}
OBJECTS_OF = {"Argument": "Argument", "SecondaryFile": "SecondaryFile", "StepOutput": "StepOutput"}
PROCESSES = {"CommandLineTool": "Tool", "Workflow": "Workflow"}


class Checker:
    """Says of a document what breaks the table. What was found already under a name of its own is not said again."""

    def __init__(self, findings: Findings) -> None:
        self.findings = findings
        self.known = {(it.file, it.line) for it in findings.all if it.kind in (LEFT, WRONG)}

    def add(self, kind: str, node: Any, key: Any, feature: str, words: str) -> None:
        file, line = place_of(node, key)
        if (file, line or 0) not in self.known:
            self.findings.add(kind, node, key, feature, words)

    def process(self, value: Fields) -> None:
        kind = PROCESSES.get(str(value.get("class")))
        if kind:
            self.object(value, kind)

    def object(self, value: Fields, kind: str, given: Optional[str] = None) -> None:
        for row in OBJECTS[kind]:
            if row.required and row.name != given and row.name not in value:
                self.add(WRONG, value, None, f"{row.name} missing", f"the field {row.name} of {words_of(kind)} is missing")
        for key, it in value.items():
            form = form_of(kind, key)
            if form is not None:
                self.value(value, key, it, form)
            elif not is_ignored(key):
                of_standard = is_of_standard(kind, key)
                self.add(LEFT if of_standard else WRONG, value, key, f"{key} of {words_of(kind)}" if of_standard else "unknown field", f"{words_of(kind)} has no field {key} in {'this runner' if of_standard else 'the standard'}")

    def wrong(self, node: Any, key: Any, form: str) -> None:
        name = key if isinstance(key, str) else "an item"
        self.add(LEFT, node, key, f"form of {name}", f"{name} has another form than this runner takes here ({form})")

    def value(self, node: Any, key: Any, it: Any, form: str) -> None:
        """Holds the value of an entry against a form."""
        name, _, kind = form.partition(":")
        if name in ("Anything", "Value", "Hint"):
            return
        if name in ONE_OR_LIST:
            return self.one_or_list(node, key, it, ONE_OR_LIST[name])
        if name in LISTS:
            return self.list(node, key, it, LISTS[name])
        if name == "Objects":
            return self.objects(node, key, it, kind)
        if name in ("Requirements", "Hints"):
            return self.requirements(it, name)
        if name == "Run":
            return self.process(it) if isinstance(it, Fields) else self.text(node, key, it, form)
        if name in ("Type", "InputType", "OutputType"):
            return self.type(node, key, it, name)
        if isinstance(it, Fields):
            of = kind if name == "Object" else OBJECTS_OF.get(name)
            return self.object(it, of) if of else self.wrong(node, key, form)
        if not self.leaf(it, name):
            self.wrong(node, key, form)

    def text(self, node: Any, key: Any, it: Any, form: str) -> None:
        if not isinstance(it, str):
            self.wrong(node, key, form)

    def leaf(self, it: Any, name: str) -> bool:
        if name in ONE_OF:
            return it in ONE_OF[name]
        if name == "Bool":
            return isinstance(it, bool)
        if name == "MaybeBool":
            return it is None or isinstance(it, bool)
        if name == "OnlyFalse":
            return it is False
        if name == "Int":
            return isinstance(it, int) and not isinstance(it, bool) and -(2**31) <= it < 2**31
        if name in ("Id", "StepId", "StepOutput"):
            return isinstance(it, str) and it != "" and not set("/#") & set(it) and not (name == "StepId" and "[" in it)
        if name in ("Pattern", "SecondaryFile"):
            return isinstance(it, str) and "/" not in it
        if name == "Source":
            return isinstance(it, str) and 0 < len(it.split("/")) <= 2 and all(it.split("/")) and "#" not in it
        return isinstance(it, str) and name != "Object"

    def one_or_list(self, node: Any, key: Any, it: Any, form: str) -> None:
        if isinstance(it, Items):
            self.list(node, key, it, form)
        else:
            self.value(node, key, it, form)

    def list(self, node: Any, key: Any, it: Any, form: str) -> None:
        if not isinstance(it, Items):
            return self.wrong(node, key, form)
        for at, item in enumerate(it):
            self.value(it, at, item, form)

    def objects(self, node: Any, key: Any, it: Any, kind: str) -> None:
        if isinstance(it, Items):
            names: Set[str] = set()
            for at, item in enumerate(it):
                if not isinstance(item, Fields):
                    self.wrong(it, at, words_of(kind))
                    continue
                self.object(item, kind)
                name = str(item.get(SUBJECTS.get(kind, "id")))
                if name in names:
                    self.add(WRONG, item, None, "repeated name", f"the name {name} stands twice in one list")
                names.add(name)
        elif isinstance(it, Fields):
            for name, item in it.items():
                self.keyed(it, name, item, kind)
        else:
            self.wrong(node, key, words_of(kind))

    def keyed(self, node: Fields, name: str, item: Any, kind: str) -> None:
        if kind != "Variable" and not self.leaf(name, "StepId" if kind == "Step" else "Id"):
            self.wrong(node, name, "Id")
        main = MAIN_FIELDS.get(kind)
        if isinstance(item, Fields):
            self.object(item, kind, SUBJECTS.get(kind, "id"))
        elif main is None:
            self.wrong(node, name, words_of(kind))
        else:
            self.value(node, name, item, form_of(kind, main) or "Text")

    def requirements(self, section: Any, name: str) -> None:
        for it in section if isinstance(section, Items) else []:
            kind = REQUIREMENTS.get(str(it.get("class")))
            if kind is not None and (name == "Requirements" or kind != "PlainRequirement"):
                self.object(it, kind)

    def type(self, node: Any, key: Any, it: Any, form: str) -> None:
        streams = {"InputType": ("stdin",), "OutputType": ("stdout", "stderr")}.get(form, ())
        if isinstance(it, Items):
            for at, member in enumerate(it):
                self.type(it, at, member, "Type")
        elif isinstance(it, Fields):
            kind = {"array": "ArrayType", "enum": "EnumType"}.get(str(it.get("type")))
            if kind:
                self.object(it, kind)
            elif it.get("type") != "record":
                self.wrong(node, key, "a type")
        elif it not in TYPES and it not in streams and not is_float(it):
            self.wrong(node, key, "a type")


def is_float(it: Any) -> bool:
    """Says whether a type is one of floats, which has a name of its own among the findings."""
    return isinstance(it, str) and it.rstrip("[]?") in FLOATS


def words_of(kind: str) -> str:
    """Returns the name of an object in words, as `a workflow output`."""
    words = "".join(f" {it.lower()}" if it.isupper() else it for it in kind).strip()
    return ("an " if words[0] in "aeiou" else "a ") + words
