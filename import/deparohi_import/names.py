"""Identifiers: the short names that are left of ids with `#`, `/` or a document's URL."""

from typing import List, Set

STANDARD = ("https://w3id.org/cwl/cwl#", "cwl:")
CWLTOOL = ("http://commonwl.org/cwltool#", "cwltool:")
# Names of extensions that became part of the standard, with what the standard calls them.
PROMOTED = {
    "WorkReuse": "WorkReuse",
    "TimeLimit": "ToolTimeLimit",
    "NetworkAccess": "NetworkAccess",
    "InplaceUpdateRequirement": "InplaceUpdateRequirement",
    "LoadListingRequirement": "LoadListingRequirement",
}


def class_name(name: str) -> str:
    """Returns the name of a class without the standard's own prefix; of cwltool's extensions those that the standard took over."""
    for prefix in STANDARD:
        if name.startswith(prefix):
            return name[len(prefix):]
    for prefix in CWLTOOL:
        if name.startswith(prefix):
            short = name[len(prefix):]
            return PROMOTED.get(short, "cwltool:" + short)
    if name == "http://arvados.org/cwl#ReuseRequirement":
        return "WorkReuse"
    return name


def short(name: str) -> str:
    """Returns the last part of an id, as `out` of `#main/step/out`."""
    return name.rpartition("#")[2].rpartition("/")[2]


def parts(name: str) -> List[str]:
    return [it for it in name.rpartition("#")[2].split("/") if it]


def source_name(name: str, process: str, steps: Set[str]) -> str:
    """Returns `name` or `step/name` for a source of a workflow whose id is given, and whose steps have these names."""
    found = parts(name)
    if len(found) > 1 and found[-2] in steps:
        return "/".join(found[-2:])
    if len(found) > 2 or len(found) == 2 and found[0] == process and "#" in name:
        return found[-1]
    return "/".join(found) if "#" in name else name
