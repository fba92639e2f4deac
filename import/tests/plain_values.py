"""Output objects without paths: each File as its name and text, each Directory as its name and the texts of its files."""

import os
from typing import Any, List
from urllib.parse import unquote

LABORATORY = os.path.join(os.path.dirname(os.path.realpath(__file__)), "laboratory")
# What the stand-in of laboratories' tools is called.
TOOLS = ("samtools", "bwa", "STAR", "gatk", "salmon", "multiqc", "fastp")


def tools(folder: str) -> str:
    """Makes a folder of laboratories' tools, which are all the one that stands for them. Returns it."""
    os.makedirs(folder)
    for name in TOOLS:
        os.symlink(os.path.join(LABORATORY, "fake"), os.path.join(folder, name))
    return folder


def cases() -> List[str]:
    """Returns the names of the documents in `laboratory`: NAME.cwl with NAME.yml, or NAME/main.cwl with NAME/job.yml."""
    found = os.listdir(LABORATORY)
    return sorted([it[:-4] for it in found if it.endswith(".yml") and f"{it[:-4]}.cwl" in found] + [it for it in found if os.path.exists(f"{LABORATORY}/{it}/main.cwl")])


def files_of(name: str) -> List[str]:
    """Returns the paths of a document and of its input object."""
    if os.path.isdir(f"{LABORATORY}/{name}") and os.path.exists(f"{LABORATORY}/{name}/main.cwl"):
        return [f"{LABORATORY}/{name}/main.cwl", f"{LABORATORY}/{name}/job.yml"]
    return [f"{LABORATORY}/{name}.cwl", f"{LABORATORY}/{name}.yml"]


def plain_texts(value: Any) -> Any:
    if isinstance(value, list):
        return [plain_texts(it) for it in value]
    if not isinstance(value, dict):
        return value
    if value.get("class") not in ("File", "Directory"):
        return {key: plain_texts(it) for key, it in value.items()}
    path = unquote(value["location"][len("file://") :])
    if value["class"] == "Directory":
        below = [os.path.join(at, name) for at, _, names in os.walk(path, followlinks=True) for name in names]
        return {"folder": value["basename"], "texts": {os.path.relpath(it, path): text_of(it) for it in below}}
    secondary = sorted((plain_texts(it) for it in value.get("secondaryFiles", [])), key=str)
    return {"file": value["basename"], "text": text_of(path), **({"secondary": secondary} if secondary else {})}


def text_of(path: str) -> str:
    with open(path, encoding="utf-8") as it:
        return it.read()
