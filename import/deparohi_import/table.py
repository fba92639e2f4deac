"""The runner's own table of fields, as `import/make-table` took it from crates/document_table."""

import json
import os
from typing import Dict, List, NamedTuple, Optional


class Row(NamedTuple):
    name: str
    required: bool
    form: str


with open(os.path.join(os.path.dirname(os.path.abspath(__file__)), "table.json"), encoding="utf-8") as it:
    TABLE = json.load(it)

OBJECTS: Dict[str, List[Row]] = {kind: [Row(*row) for row in rows] for kind, rows in TABLE["objects"].items()}
REQUIREMENTS: Dict[str, str] = TABLE["requirements"]
IGNORED: List[str] = TABLE["ignored"]
TYPES: List[str] = TABLE["types"]


def form_of(kind: str, name: str) -> Optional[str]:
    for row in OBJECTS[kind]:
        if row.name == name:
            return row.form
    return None


def is_ignored(name: str) -> bool:
    return name in IGNORED or ":" in name
