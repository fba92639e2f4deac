"""The fields of the standard, by the objects of the runner's table (CWL v1.2, the tables of each class)."""

import json
import os
from typing import Dict, List

with open(os.path.join(os.path.dirname(os.path.abspath(__file__)), "standard.json"), encoding="utf-8") as it:
    STANDARD: Dict[str, Dict[str, str]] = json.load(it)["objects"]


def is_of_standard(kind: str, name: str) -> bool:
    """Says whether the standard has a field of this name for the object."""
    return name in STANDARD.get(kind, {})


def fields_of(kind: str) -> List[str]:
    return list(STANDARD.get(kind, {}))
