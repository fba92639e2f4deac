"""Rewrites types to the forms that the runner takes: named types are put in place, nested unions become one, prefixes go."""

import re
from typing import Any, Dict, List, Tuple

from .fault import ImportFault
from .findings import LEFT, REWRITTEN, WRONG, Findings
from .kinds import FLOATS, expanded, is_bare, is_unlike, lowered, mentions
from .marked import Fields, Items, marked_of
from .names import class_name, short
from .pattern import Pattern

PLAIN = ("null", "boolean", "int", "long", "string", "File", "Directory", "Any")
STREAMS = ("stdin", "stdout", "stderr")
# Where a type stands: the runner itself binds words of a tool's inputs, and reads what a tool gave.
OF_INPUT, OF_OUTPUT, OF_LINK = "input", "output", "link"
NAMED = Pattern(r"(.*?)((?:\[\])*)(\??)\Z", re.S)
SALAD = ("https://w3id.org/cwl/salad#", "salad:", "xsd:", "http://www.w3.org/2001/XMLSchema#")
MOST_NAMES = 20
MOST_MEMBERS = 200_000


class Types:
    """The types of one process; `names` has those of its SchemaDefRequirement."""

    def __init__(self, findings: Findings, names: Dict[str, Any]) -> None:
        self.findings, self.names, self.members = findings, names, 0

    def rewritten(self, node: Any, key: Any, value: Any, where: str = OF_LINK) -> Any:
        """Returns the type that an entry has, in a form of the runner's; what that can't be is left as it is."""
        resolved = self.resolved(node, key, value)
        whole = expanded(resolved)
        if not is_unlike(whole):
            return resolved
        has_record = mentions(whole, ("record",))
        if has_record and where != OF_LINK:
            self.findings.add(LEFT, node, key, "record", "this runner has no records")
        elif where == OF_OUTPUT or where == OF_INPUT and (not is_simple(whole) or has_binding(resolved)):
            self.findings.add(LEFT, node, key, "float", "this runner has no numbers with a fraction here")
        return marked_of(node, lowered(whole))

    def kind(self, node: Any, key: Any, value: Any) -> Any:
        """Returns the type that an entry has, expanded. What is wrong with it is found where it is rewritten."""
        findings, self.findings = self.findings, Findings()
        try:
            return expanded(self.resolved(node, key, value))
        finally:
            self.findings = findings

    def resolved(self, node: Any, key: Any, value: Any, through: Tuple[str, ...] = ()) -> Any:
        """Returns the type that an entry has, with the types that it names in their places."""
        symbols = value.get("symbols") if isinstance(value, Fields) else None
        self.members += 1 + (len(symbols) if isinstance(symbols, Items) else 0)
        if self.members > MOST_MEMBERS:
            raise ImportFault(f"with their names written out the types have more than {MOST_MEMBERS} members", getattr(node, "file", None), getattr(node, "line", None))
        if isinstance(value, str):
            return self.text(node, key, value, through)
        if isinstance(value, Items):
            return self.union(value, through)
        if isinstance(value, Fields):
            return self.object(node, key, value, through)
        self.findings.add(WRONG, node, key, "type", "a type is a text, an object or a list of types")
        return value

    def text(self, node: Any, key: Any, value: str, through: Tuple[str, ...]) -> Any:
        base, lists, optional = NAMED.match(value).groups()  # type: ignore
        base = without_prefix(base)
        if base in STREAMS and not lists and not optional:
            return base
        if base in PLAIN or base in FLOATS:
            inner: Any = base
        elif short(base) in self.names and len(through) < MOST_NAMES and short(base) not in through:
            inner = self.named(node, key, short(base), through)
        else:
            known = base in ("record", "enum", "array", "map", "union")
            self.findings.add(LEFT if known else WRONG, node, key, base if known else "type", f"{value} names no type")
            return value
        if isinstance(inner, str) and len(lists) <= 2:
            return inner + lists + optional
        for _ in range(len(lists) // 2):
            inner = array_of(node, inner)
        return union_of(node, ["null", inner]) if optional else inner

    def named(self, node: Any, key: Any, name: str, through: Tuple[str, ...]) -> Any:
        self.findings.add(REWRITTEN, node, key, "SchemaDefRequirement", f"the type {name} is written out where it is named")
        return self.resolved(node, key, self.names[name], (*through, name))

    def union(self, value: Items, through: Tuple[str, ...]) -> Any:
        return union_of(value, [self.resolved(value, at, it, through) for at, it in enumerate(value)])

    def object(self, node: Any, key: Any, value: Fields, through: Tuple[str, ...]) -> Any:
        kind = value.get("type")
        kind = without_prefix(kind) if isinstance(kind, str) else kind
        if kind == "array":
            return self.array(value, through)
        if kind == "enum":
            return self.enum(value)
        if kind == "record":
            return self.record(value, through)
        if kind is None:
            self.findings.add(WRONG, node, key, "type", "an object that is a type has a field type")
            return value
        if set(value) - {"type", "doc", "label", "name"}:
            self.findings.add(WRONG, value, None, "type", "a type that only names another one has no other fields")
        return self.resolved(value, "type", value["type"], through)

    def record(self, value: Fields, through: Tuple[str, ...]) -> Fields:
        """Returns a record with its fields as a list, each with its type."""
        record, fields = value.like(), Items(value.file, value.line_of("fields"))
        for name, it in parameters(value.get("fields")):
            field = it.like() if isinstance(it, Fields) else value.like()
            is_field = isinstance(it, Fields) and (isinstance(value.get("fields"), Items) or it.get("type") not in ("array", "enum", "record"))
            for key, entry in it.items() if is_field else [("type", it)]:
                field.put(key, self.resolved(it if is_field else value, key, entry, through) if key == "type" else entry)
            field.put("name", short(str(field.get("name", name))))
            fields.add(field, field.line)
        for key, it in value.items():
            record.put(key, "record" if key == "type" else fields if key == "fields" else it, value.line_of(key))
        return record

    def array(self, value: Fields, through: Tuple[str, ...]) -> Any:
        array = value.like()
        array.put("type", "array", value.line_of("type"))
        if "items" in value:
            array.put("items", self.resolved(value, "items", value["items"], through), value.line_of("items"))
        for key, it in value.items():
            if key not in ("type", "items", "name") and it is not None:
                array.put(key, self.item_binding(it) if key == "inputBinding" else it, value.line_of(key))
        return array

    def item_binding(self, value: Any) -> Any:
        """Leaves out what says no more than its absence would."""
        if not isinstance(value, Fields):
            return value
        binding = value.like()
        for key, it in value.items():
            if it is not None and (key, it) != ("position", 0) and key != "shellQuote":
                binding.put(key, it, value.line_of(key))
        return binding

    def enum(self, value: Fields) -> Any:
        enum = value.like()
        for key, it in value.items():
            if key == "type":
                it = "enum"
            elif key == "symbols" and isinstance(it, Items):
                symbols = it.like()
                for at, symbol in enumerate(it):
                    symbols.add(short(symbol) if isinstance(symbol, str) and "#" in symbol else symbol, it.line_at(at))
                it = symbols
            elif key == "name" and isinstance(it, str):
                it = short(it)
            elif key == "inputBinding" and isinstance(it, Fields) and not any(v is not None for v in it.values()):
                continue
            elif key == "inputBinding":
                self.findings.add(LEFT, value, key, "inputBinding of an enum", "this runner takes an inputBinding on the parameter alone")
            if it is not None:
                enum.put(key, it, value.line_of(key))
        return enum


def parameters(section: Any) -> List[Tuple[str, Any]]:
    """Returns the fields of a record by their names."""
    if isinstance(section, Fields):
        return list(section.items())
    return [(str(it.get("name", "")), it) for it in section if isinstance(it, Fields)] if isinstance(section, Items) else []


def is_simple(kind: Any) -> bool:
    """Says whether numbers with a fraction are bare texts in a type, wherever they are."""
    members = kind if isinstance(kind, list) else [kind]
    if any(isinstance(it, str) and it in FLOATS for it in members) and not is_bare(kind):
        return False
    return all(is_simple(it["items"]) for it in members if isinstance(it, dict) and it.get("type") == "array")


def has_binding(kind: Any) -> bool:
    if isinstance(kind, Items):
        return any(map(has_binding, kind))
    return isinstance(kind, Fields) and (isinstance(kind.get("inputBinding"), Fields) or has_binding(kind.get("items")))


def without_prefix(name: str) -> str:
    for prefix in SALAD:
        if name.startswith(prefix):
            return name[len(prefix):]
    return class_name(name)


def array_of(node: Any, items: Any) -> Fields:
    array = Fields(node.file, node.line)
    array.put("type", "array")
    array.put("items", items)
    return array


def union_of(node: Any, members: list) -> Any:
    """Returns the union of types, those in a union of their own among the others, each text once."""
    union, texts = Items(node.file, node.line), set()
    for it in members:
        for member in it if isinstance(it, Items) else [it]:
            if isinstance(member, str):
                if member in texts:
                    continue
                texts.add(member)
            union.add(member)
    return union[0] if len(union) == 1 else union
