"""Takes JavaScript out of processes: tools of their own evaluate it, by `node`, before a command, after it, or before a step.

A tool with JavaScript becomes a workflow of these tools and of itself, and a step gets one before it. What an expression gives is the
same then, or the process is left as it is (`expressions.why_not`), which `in_job` may take up.
"""

from typing import Any, Dict, List, NamedTuple, Optional, Tuple

from . import node
from .expressions import Known, names_any, parameters
from .findings import REWRITTEN, Findings
from .flow import Flow, Peek, kinds_of
from .folder import Folder
from .forms import known_of, with_id
from .kinds import expanded, is_unlike, lowered, mentions
from .javascript_steps import Step
from .javascript_tools import Tool
from .marked import Fields, Items, list_of, marked_of, object_of
from .names import short
from .node import Task
from .plans import Evaluator, tool_of
from .requirements import entries


class Library(NamedTuple):
    """The texts of an expressionLib, which can be evaluated apart where they name nothing of a tool."""

    texts: Tuple[str, ...]
    is_safe: bool


def library_of(it: Fields) -> Library:
    found = it.get("expressionLib")
    texts = tuple(text for text in found if isinstance(text, str)) if isinstance(found, Items) else ()
    is_whole = found is None or isinstance(found, Items) and len(texts) == len(found)
    return Library(texts, is_whole and not any(map(names_any, texts)))


class JavaScript:
    """Takes JavaScript out of the processes of one import, where `node` is there."""

    def __init__(self, findings: Findings, is_on: bool, folder: Folder, peek: Peek) -> None:
        self.findings, self.is_on, self.folder, self.peek = findings, is_on and node.is_there(), folder, peek
        # Whether JavaScript is asked for where a workflow is, and why texts were left.
        self.has_library = False
        self.reasons: Dict[str, str] = {}

    def library(self, raw: Fields, outer: Optional[Library]) -> Optional[Library]:
        """Returns the library in force at a process or step, or None where JavaScript isn't asked for."""
        for it in entries(raw.get("requirements")):
            if it["class"] == "InlineJavascriptRequirement":
                outer = library_of(it)
        return outer

    def without(self, raw: Fields, kind: Optional[str], library: Optional[Library], listings: bool, names: Dict[str, Any], version: str) -> Fields:
        """Returns the process without the JavaScript that can be evaluated by node, which may be the process itself.

        Listings may be minded where no requirement around the process says what they are.
        """
        if not self.is_on:
            return raw
        if kind == "Workflow":
            self.has_library = library is not None
            return self.workflow(raw, library.texts if library else (), names, version)
        if library is None or not library.is_safe or any(map(is_long_or_unlike, kinds_of(raw.get("inputs"), names).values())):
            return raw
        return Tool(raw, library.texts, known_of(raw, listings), self).without() or raw if kind == "CommandLineTool" else raw

    def tasks_tool(self, raw: Fields, inputs: List[Fields], outputs: List[Fields], known: Known, library: Tuple[str, ...], tasks: List[Task], hidden: Tuple[str, ...] = ()) -> Evaluator:
        """Returns the tool that evaluates these tasks. Hidden inputs are `self` alone."""
        plan: Dict[str, Any] = {
            "version": "v1.2",
            "javascript": True,
            "library": list(library),
            "isStep": True,
            "listing": "deep_listing" if known.has_listings else "no_listing",
            "hidden": list(hidden),
            "inputs": [{"name": it["id"], "type": expanded(it["type"]), **({"loadContents": True} if it.pop("loadContents", False) else {})} for it in inputs],
            "outputs": [{"name": it["id"], "type": expanded(it["type"])} for it in outputs],
            "values": [{"name": it.to, "text": it.text(), "of": it.of, "skips": it.skips} for it in tasks],
            **{key: [] for key in ("successCodes", "temporaryFailCodes", "permanentFailCodes")},
        }
        made = tool_of(raw, plan, [self.bare(raw, it) for it in inputs], self.folder)
        # Variables that are set around it may refer to inputs that it hasn't.
        made.put("requirements", list_of(raw, [object_of(raw, of_class="EnvVarRequirement", envDef=list_of(raw, []))]))
        return made

    def bare(self, raw: Fields, it: Fields) -> Fields:
        """Returns an input of a tool that evaluates, without what is told by its plan."""
        made = object_of(raw, id=it["id"], type=marked_of(raw, lowered(expanded(it["type"]))))
        if "default" in it:
            made.put("default", it["default"])
        return made

    def tell(self, at: Any, key: Any) -> None:
        self.findings.add(REWRITTEN, at, key, "JavaScript", "node evaluates it, in a job of its own")

    def workflow(self, raw: Fields, library: Tuple[str, ...], types: Dict[str, Any], version: str) -> Fields:
        """Puts a tool that evaluates before each step with JavaScript of its own."""
        steps = raw.get("steps")
        if not isinstance(steps, (Fields, Items)):
            return raw
        flow, changed = Flow(raw, types, self.peek), False
        listed = Items(raw.file, steps.line)
        for name, it in parameters(steps):
            found = Step(it, short(name), library, self, flow, version).without() if isinstance(it, Fields) else None
            changed = changed or found is not None
            for one in found or [with_id(it, name)]:
                listed.add(one, getattr(it, "line", None))
        made = raw.like()
        for key, it in raw.items():
            made.put(key, listed if key == "steps" else it, raw.line_of(key))
        return made if changed else raw


def is_long_or_unlike(kind: Any) -> bool:
    """Says whether values of a type may be too long for one word, as lists of files are, or are kept otherwise than they are told."""
    return is_unlike(kind) or mentions(kind, ("array",)) and mentions(kind, ("File", "Directory", "Any"))
