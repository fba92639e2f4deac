"""Types as they are kept between jobs: the runner has no numbers with a fraction and no records, so other types stand for theirs.

A number with a fraction is the text that Python gives it, where the type admits no other text, and else an object of the one field
`deparohi:number`. A record is an object, of the type Any. `in_job/2-types.js` reads and writes the same.
"""

from typing import Any, Iterator, List, Tuple

from .marked import Fields, Items
from .names import short

NUMBER = "deparohi:number"
# Among the types by which outputs are told: the formats of their files.
FORMATS = "deparohi:formats"
FLOATS = ("float", "double")
TEXTS = ("string", "Any")


def items_of(value: Any) -> List[Any]:
    """Returns the items of what should be a list, and none of anything else."""
    return list(value) if isinstance(value, list) else []


def members_of(kind: Any) -> List[Any]:
    """Returns the members of a union, or the type itself."""
    return list(kind) if isinstance(kind, list) else [kind]


def is_enum(kind: Any) -> bool:
    return isinstance(kind, dict) and kind.get("type") == "enum"


def is_kind(it: Any) -> bool:
    """Says whether a value that was read is an expanded type."""
    if isinstance(it, list):
        return all(map(is_kind, it))
    if not isinstance(it, dict):
        return isinstance(it, str)
    if it.get("type") == "array":
        return is_kind(it.get("items"))
    return is_enum(it) or it.get("type") == "record" and all(is_kind(one.get("type")) for one in fields_of(it))


def is_bare(kind: Any) -> bool:
    """Says whether a number with a fraction is a bare text where a value has this type."""
    members = members_of(kind)
    return any(it in FLOATS for it in members if isinstance(it, str)) and not any(is_enum(it) or isinstance(it, str) and it in TEXTS for it in members)


def may_be_text(kind: Any) -> bool:
    """Says whether a value of a type may be a text."""
    return any(is_enum(it) or isinstance(it, str) and it in TEXTS for it in members_of(kind))


def expanded(kind: Any) -> Any:
    """Returns a type without the short forms `[]` and `?`, of which nothing is named any more."""
    if isinstance(kind, str):
        if kind.endswith("?"):
            return ["null", *members_of(expanded(kind[:-1]))]
        return {"type": "array", "items": expanded(kind[:-2])} if kind.endswith("[]") else kind
    if isinstance(kind, list):
        union: List[Any] = []
        for it in kind:
            union += [one for one in members_of(expanded(it)) if one not in union]
        return union[0] if len(union) == 1 else union
    if not isinstance(kind, dict):
        return kind
    made = dict(kind)
    if kind.get("type") == "array":
        made["items"] = expanded(kind.get("items"))
    elif kind.get("type") == "record":
        made["fields"] = [{**it, "type": expanded(it.get("type"))} for it in fields_of(kind)]
    elif is_enum(kind):
        made["symbols"] = [short(it) if isinstance(it, str) else it for it in items_of(kind.get("symbols"))]
    elif "type" in kind:
        return expanded(kind["type"])
    return made


def fields_of(record: Any) -> Iterator[dict]:
    """Yields the fields of a record as objects with their names."""
    found = record.get("fields")
    if isinstance(found, list):
        for it in found:
            if isinstance(it, dict):
                yield {**it, "name": short(str(it.get("name", "")))}
    elif isinstance(found, dict):
        for name, it in found.items():
            is_field = isinstance(it, dict) and "type" in it and it["type"] not in ("array", "enum", "record")
            yield {**it, "name": name} if is_field else {"name": name, "type": it}


def lowered(kind: Any) -> Any:
    """Returns the runner's type for an expanded one."""
    members: List[Any] = []
    listed = members_of(kind)
    if any(isinstance(it, dict) and it.get("type") == "record" for it in listed) or has_float(listed) and not is_bare(listed):
        return ["null", "Any"] if "null" in listed else "Any"
    for it in listed:
        if isinstance(it, str) and it in FLOATS:
            new: List[Any] = ["long", "string"]
        elif isinstance(it, dict) and it.get("type") == "array":
            new = [{"type": "array", "items": lowered(it["items"])}]
        elif is_enum(it):
            new = [{"type": "enum", "symbols": it["symbols"]}]
        else:
            new = ["File" if it in ("stdin", "stdout", "stderr") else it]
        members += [one for one in new if one not in members]
    return members[0] if len(members) == 1 else members


def has_float(listed: List[Any]) -> bool:
    return any(isinstance(it, str) and it in FLOATS for it in listed)


def mentions(kind: Any, names: Tuple[str, ...]) -> bool:
    """Says whether a type of one of these names, or of one of these classes, is anywhere in an expanded type."""
    if isinstance(kind, list):
        return any(mentions(it, names) for it in kind)
    if isinstance(kind, dict):
        inner = kind.get("items") if kind.get("type") == "array" else [it["type"] for it in fields_of(kind)] if kind.get("type") == "record" else None
        return kind.get("type") in names or mentions(inner, names)
    return kind in names


def is_unlike(kind: Any) -> bool:
    """Says whether values of an expanded type are kept otherwise than they are told: where a number with a fraction or a record may be."""
    return mentions(kind, (*FLOATS, "record"))


def floats_below(kind: Any, at: str = "") -> Iterator[Tuple[str, bool]]:
    """Yields each place in a type where a number with a fraction may be, and whether it is a bare text there."""
    members = members_of(kind)
    if has_float(members):
        yield at, is_bare(kind)
    for it in members:
        if isinstance(it, dict) and it.get("type") == "array":
            yield from floats_below(it["items"], at + "[]")
        elif isinstance(it, dict) and it.get("type") == "record":
            for field in fields_of(it):
                yield from floats_below(field["type"], f"{at}.{field['name']}")


def are_alike(source: Any, target: Any) -> bool:
    """Says whether what comes from one type is read as the same under another one."""
    known = dict(floats_below(target))
    return all(known.get(at, False) == is_bare_there for at, is_bare_there in floats_below(source))


def kind_of_value(value: Any) -> Any:
    """Returns a type that a value which was read is of."""
    if isinstance(value, bool):
        return "boolean"
    names = {int: "long", float: "double", str: "string", type(None): "null"}
    if type(value) in names:
        return names[type(value)]
    if isinstance(value, list):
        found: List[Any] = []
        for it in value:
            found += [one for one in members_of(kind_of_value(it)) if one not in found]
        return {"type": "array", "items": found[0] if len(found) == 1 else found or "Any"}
    return value["class"] if isinstance(value, dict) and value.get("class") in ("File", "Directory") else "Any"


def is_file_list(kind: Any) -> bool:
    """Says whether a value of a type is null or a list of Files and Directories alone."""
    members = [it for it in members_of(kind) if it != "null"]
    return bool(members) and all(isinstance(it, dict) and it.get("type") == "array" and all(one in ("File", "Directory") for one in members_of(it["items"]) if isinstance(one, str)) and all(isinstance(one, str) for one in members_of(it["items"])) for it in members)


def item_of(kind: Any) -> Any:
    """Returns the type of the items of lists of a type, or Any."""
    found: List[Any] = []
    for it in members_of(kind):
        if isinstance(it, dict) and it.get("type") == "array":
            found += [one for one in members_of(it["items"]) if one not in found]
    return "Any" if not found else found[0] if len(found) == 1 else found


def fits(value: Any, kind: Any) -> bool:
    """Says whether a value that was read is of an expanded type."""
    if isinstance(kind, list):
        return any(fits(value, it) for it in kind)
    is_file = isinstance(value, dict) and value.get("class") in ("File", "Directory")
    if isinstance(kind, dict):
        if kind.get("type") == "array":
            return isinstance(value, list) and all(fits(it, kind["items"]) for it in value)
        if is_enum(kind):
            return isinstance(value, str) and value in kind["symbols"]
        return isinstance(value, dict) and not is_file and all(fits(value.get(it["name"], it.get("default")), it["type"]) for it in fields_of(kind))
    if value is None:
        return kind == "null"
    if kind == "boolean" or isinstance(value, bool):
        return kind == "Any" or kind == "boolean" and isinstance(value, bool)
    if kind in FLOATS:
        return isinstance(value, (int, float))
    known = {"int": int, "long": int, "string": str}
    if kind in known:
        return isinstance(value, known[kind])
    return kind == "Any" or is_file and value["class"] == {"stdin": "File"}.get(kind, kind)


def encoded(value: Any, kind: Any) -> Any:
    """Returns a value, of an expanded type, as it is kept between jobs."""
    if isinstance(value, float):
        if is_bare(kind):
            return repr(value)
        made = Fields()
        made.put(NUMBER, repr(value))
        return made
    if isinstance(value, Items):
        items = value.like()
        for at, it in enumerate(value):
            items.add(encoded(it, item_of(kind)), value.line_at(at))
        return items
    if not isinstance(value, Fields) or value.get("class") in ("File", "Directory"):
        return value
    record = next((it for it in members_of(kind) if isinstance(it, dict) and it.get("type") == "record"), None)
    types = {it["name"]: it for it in fields_of(record)} if record else {}
    made = value.like()
    for key, it in value.items():
        made.put(key, encoded(it, types[key]["type"] if key in types else "Any"), value.line_of(key))
    for key, field in types.items():
        if made.get(key) is None:
            made.put(key, encoded(field.get("default"), field["type"]))
    return made


def given_back(value: Any, kind: Any) -> Any:
    """Returns a value of an expanded type as it is told outside, with its numbers."""
    if isinstance(value, str) and is_bare(kind):
        return number_of(value)
    if isinstance(value, list):
        return [given_back(it, item_of(kind)) for it in value]
    if not isinstance(value, dict):
        return value
    if list(value) == [NUMBER]:
        return number_of(value[NUMBER])
    record = next((it for it in members_of(kind) if isinstance(it, dict) and it.get("type") == "record"), None)
    types = {it["name"]: it["type"] for it in fields_of(record)} if record and value.get("class") not in ("File", "Directory") else {}
    return {key: given_back(it, types.get(key, "Any")) for key, it in value.items()}


def number_of(text: Any) -> Any:
    try:
        return int(text) if str(text).lstrip("-").isdigit() else float(text)
    except ValueError:
        return text
