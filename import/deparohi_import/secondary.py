"""Secondary files whose names are given by expressions: where such an expression provably is a pattern, it becomes the pattern."""

import os
import re
from typing import Any, Dict, List, Optional

from .fault import ImportFault
from .kinds import fields_of
from .marked import Fields, Items, copied, list_of, object_of
from .pattern import Pattern
from .places import NotAFile, path_of, url_of
from .references import has_expression

TEXT = r"""(?:'([^'\\$]*)'|"([^"\\$]*)")"""
NAME = r"(?:self\.basename|self\.(?:location|path)\.split\(['\"]/['\"]\)\.(?:slice\(-1\)\[0\]|pop\(\))|self\.(?:location|path)\.replace\(/\^\.\*\\/(?:\\/)?/\s*,\s*['\"]{2}\))"
CODE = Pattern(r"(?:" + NAME + r"|(self\.nameroot))\s*(?:\+\s*" + TEXT + r"\s*)?\Z")
TEXT_AROUND = Pattern(r"\$\(self\.(basename|nameroot)\)([^$\\]*)\Z")
RETURNED = Pattern(r"\$\{\s*return\s+(.*?)\s*;?\s*\}\Z", re.S)


def static_pattern(text: str) -> Optional[str]:
    """Returns the pattern that an expression is, or None."""
    text = text.strip()
    around = TEXT_AROUND.match(text)
    if around:
        return ("^" if around[1] == "nameroot" else "") + around[2]
    returned = RETURNED.match(text)
    code = returned[1] if returned else text[2:-1].strip() if text.startswith("$(") and text.endswith(")") else None
    found = CODE.match(code.strip()) if code else None
    return ("^" if found[1] else "") + (found[2] or found[3] or "") if found else None


def static_patterns(section: Any) -> List[Dict[str, Any]]:
    """Returns the patterns of a section that the runner can look for. One whose need is an expression need not be there for the runner."""
    found = []
    for it in section if isinstance(section, list) else [section]:
        pattern = it.get("pattern") if isinstance(it, dict) else it
        required = it.get("required") if isinstance(it, dict) else None
        if not isinstance(pattern, str):
            continue
        static = static_pattern(pattern) if has_expression(pattern) else pattern
        if static:
            found.append({"pattern": static, **({} if required is None else {"required": False if has_expression(required) else required})})
    return found


def all_static(section: Any) -> bool:
    """Says whether each entry of a section is a pattern, and whether it is required is known."""
    for it in section if isinstance(section, list) else [] if section is None else [section]:
        pattern, required = (it.get("pattern"), it.get("required")) if isinstance(it, dict) else (it, None)
        if has_expression(required) or has_expression(pattern) and not static_pattern(pattern):
            return False
    return True


def fields_ask(kind: Any) -> bool:
    """Says whether a field of a record in an expanded type asks for secondary files."""
    for it in kind if isinstance(kind, list) else [kind]:
        if isinstance(it, dict) and it.get("type") == "array" and fields_ask(it.get("items")):
            return True
        if isinstance(it, dict) and it.get("type") == "record" and any(one.get("secondaryFiles") is not None or fields_ask(one["type"]) for one in fields_of(it)):
            return True
    return False


def with_companions(value: Any) -> Any:
    """Returns a value with each File that says no secondary files of its own having those that stand beside it and begin like its name."""
    for at, it in enumerate(value) if isinstance(value, Items) else list(value.items()) if isinstance(value, Fields) and "class" not in value else []:
        value[at] = with_companions(it)
    if not isinstance(value, Fields) or value.get("class") != "File" or "secondaryFiles" in value or not isinstance(value.get("location"), str):
        return value
    try:
        folder, name = os.path.split(path_of(value["location"], value.file))
        listed = os.listdir(folder) if os.path.isdir(folder) else []
    except NotAFile:
        # (which is found where the value is rewritten)
        return value
    except OSError as error:
        raise ImportFault(f"the folder {folder} can't be listed: {error.strerror}", value.file, value.line) from None
    stem = name.partition(".")[0] or name
    if listed:
        names = sorted(it for it in listed if it.startswith(stem) and it != name and os.path.isfile(os.path.join(folder, it)))
        found = [object_of(value, of_class="File", location=url_of(os.path.join(folder, it))) for it in names]
        if found:
            value.put("secondaryFiles", list_of(value, found))
    return value


def patterns_in_place(value: Any) -> Any:
    """Returns secondaryFiles with patterns in place of the expressions that provably are patterns."""
    made = copied(value) if isinstance(value, Items) else list_of(value, [copied(value)]) if isinstance(value, Fields) else value
    if not isinstance(made, Items):
        return (static_pattern(value) or value) if has_expression(value) else value
    for at, it in enumerate(made):
        text = it.get("pattern") if isinstance(it, Fields) else it
        found = static_pattern(text) if has_expression(text) else None
        if found and isinstance(it, Fields):
            it["pattern"] = found
        elif found:
            made[at] = found
    return made if isinstance(value, Items) else made[0]
