"""The plan of a job that node does as a whole, and the tool that starts it.

The program of such jobs is in the folder `in_job`; what it is to do is in a plan, a file of its own. Both are inputs with a default, so
their sums are in the job's key. Their names follow from what they hold, so that a second import gives the same.
"""

import json
import os
from typing import Any, Dict, List, Optional, Tuple

from .folder import Folder, sum_of
from .kinds import is_file_list, items_of, lowered
from .marked import Fields, Items, list_of, marked_of, object_of

PARTS = os.path.join(os.path.dirname(os.path.abspath(__file__)), "in_job")
NODE = ("node", "--disallow-code-generation-from-strings")
# What Linux takes: a word of fewer bytes, and all of them together. A word has an end and a place in a list.
MOST_IN_WORD, MOST_IN_ALL, ENDS = 131072, 2_097_152, 9
PROGRAM, PLAN = "deparohi_program", "deparohi_plan"
# The place of the program in the folder. Another number means that jobs are computed again.
PROGRAM_FILE = "in-job/1/run.js"


class Evaluator(Fields):
    """A tool that runs node. Requirements around it don't reach it: what it has to know of them is in its plan."""

    # The lists of files whose paths are words.
    apart: List[str] = []


def program_text() -> str:
    """Returns the program, of its parts in their order."""
    text = []
    for name in sorted(os.listdir(PARTS)):
        if name.endswith(".js"):
            with open(os.path.join(PARTS, name), encoding="utf-8") as it:
                text.append(it.read())
    return "".join(text)


def write_plan(folder: Folder, plan: Dict[str, Any]) -> str:
    """Writes a plan and the program. Returns the location of the plan."""
    text = json.dumps(plan, sort_keys=True, ensure_ascii=False, indent=1) + "\n"
    name = sum_of(text)[:20]
    folder.extra(PROGRAM_FILE, program_text)
    return folder.extra(f"in-job/{name}/plan.json", lambda: text)


def told_apart(inputs: List[Dict[str, Any]]) -> List[str]:
    """Returns the names of the lists of files whose paths are words, since their JSON could be too long for one; none where JSON has to tell the rest."""
    lists = [it["name"] for it in inputs if is_file_list(it["type"])]
    rest = [it for it in inputs if it["name"] not in lists]
    return lists if lists and not any(is_ambiguous(it["type"]) for it in rest) else []


def too_long(inputs: Dict[str, Any], apart: List[str]) -> Optional[str]:
    """Returns why Linux won't start the job of node that is told these inputs, or None where that isn't sure."""
    told = [it for name, it in inputs.items() if name not in apart]
    longest = max(map(bytes_of, told if apart else [inputs]), default=0)
    if longest >= MOST_IN_WORD:
        return f"the inputs that node is told have {longest} bytes in a word, and Linux takes {MOST_IN_WORD - 1}: a long text does in a file, and many files do in inputs of the type File[]"
    paths = sum(len(os.path.basename(str(it.get("location")))) + ENDS for name in apart for it in items_of(inputs.get(name)) if isinstance(it, dict))
    return f"the paths of the files have more than {paths} bytes in all, and Linux takes fewer: a Directory of them does" if paths > MOST_IN_ALL else None


def bytes_of(value: Any) -> int:
    """Returns how many bytes the JSON of a value has at least."""
    return len(json.dumps(value, ensure_ascii=False, default=str).encode("utf-8", "surrogatepass"))


def is_ambiguous(kind: Any) -> bool:
    """Says whether a text of a value doesn't tell whether the value is a text."""
    members = [it for it in (kind if isinstance(kind, list) else [kind]) if it != "null"]
    texts = [it for it in members if it in ("string", "Any") or isinstance(it, dict) and it.get("type") == "enum"]
    others = [it for it in members if it not in texts]
    return "Any" in members or bool(texts and others) or any(it in ("float", "double") for it in others) and len(others) > 1


def reference(name: str) -> str:
    return f"$(inputs['{name}'])"


def words_of(node: Fields, inputs: List[Dict[str, Any]], lists: List[str]) -> Tuple[Items, Dict[str, Fields]]:
    """Returns the arguments that tell the inputs, and the bindings that tell which of these aren't null."""
    if not lists:
        return list_of(node, [object_of(node, position=2, valueFrom="=$(inputs)")]), {}
    words, bindings = Items(node.file, node.line), {}
    for it in inputs:
        name = it["name"]
        bindings[name] = object_of(node, position=2, prefix=f"+{name}", valueFrom="yes")
        entry = object_of(node, position=3, prefix=f"@{name}", valueFrom=reference(name)) if name in lists else object_of(node, position=3, valueFrom=f"={name}={reference(name)}")
        words.add(entry, node.line)
    return words, bindings


def tool_of(node: Fields, plan: Dict[str, Any], inputs: List[Fields], folder: Folder) -> Evaluator:
    """Returns the tool that does a plan, with these inputs, which have their types and defaults already."""
    plan["lists"] = told_apart(plan["inputs"])
    words, bindings = words_of(node, plan["inputs"], plan["lists"])
    for it in inputs:
        if it["id"] in bindings:
            it.put("inputBinding", bindings[it["id"]])
    made = Evaluator(node.file, node.line)
    made.apart = plan["lists"]
    made.kinds = {it["name"]: it["type"] for it in plan["inputs"]}, {it["name"]: it["type"] for it in plan["outputs"]}
    made.put("class", "CommandLineTool", node.line_of("class"))
    made.put("baseCommand", list_of(node, NODE))
    files = [(PROGRAM, PROGRAM_FILE, 0), (PLAN, write_plan(folder, plan), 1)]
    own = [object_of(node, id=name, type="File", default=object_of(node, of_class="File", location=at), inputBinding=object_of(node, position=position)) for name, at, position in files]
    made.put("inputs", list_of(node, [*own, *inputs]), node.line_of("inputs"))
    outputs = [object_of(node, id=it["name"], type=marked_of(node, lowered(it["type"]))) for it in plan["outputs"]]
    made.put("outputs", list_of(node, outputs), node.line_of("outputs"))
    made.put("arguments", words)
    return made
