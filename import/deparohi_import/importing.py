"""One import: from the name of a document to the folder of JSON."""

import json
import os
from typing import Any, Dict, List, Optional, Set, Tuple

from .checking import Checker
from .choices import Choices
from .expressions import parameters
from .fault import ImportFault
from .findings import LEFT, REWRITTEN, WRONG, Findings
from .flow import kinds_of_process
from .folder import INPUTS, Folder, reference_to
from .formats import Formats
from .kinds import FORMATS, encoded, fits, is_unlike, mentions
from .loading import Library, fault_at, graph_of
from .javascript import JavaScript
from .marked import Fields, Items
from .names import short
from .plans import Evaluator, too_long
from .places import SCHEME, NotAFile, path_of, split_fragment
from .process import Rewriter, Scope, named_types
from .requirements import Requirements
from .secondary import all_static, fields_ask, with_companions
from .values import Values
from .versions import UnknownVersion, current

MOST_NESTED = 64
MOST_VALUES = 600_000


class Packed:
    """The processes of a packed document by their ids, and the types that they name."""

    def __init__(self, processes: Items) -> None:
        self.processes: Dict[str, Fields] = {}
        self.names: Dict[str, Any] = {}
        for it in processes:
            self.names.update(named_types(it))
            if isinstance(it.get("id"), str):
                self.processes.setdefault(short(it["id"]), it)


class Import:
    """The import of one document, with its input object."""

    def __init__(self, folder: Folder, forced: Set[str], choices: Choices = Choices()) -> None:
        self.folder, self.findings, self.library = folder, Findings(), Library(choices.outside)
        self.values = Values(self.findings, folder)
        requirements, javascript = Requirements(self.findings, forced, choices), JavaScript(self.findings, choices.evaluates, folder, self.peek)
        self.rewriter = Rewriter(self.findings, requirements, self.values, self.run_named, javascript, choices)
        # The types of the root's inputs and outputs, expanded.
        self.types: Tuple[Dict[str, Any], Dict[str, Any]] = ({}, {})
        self.is_in_job, self.apart, self.name = False, [], ""
        self.root: Optional[Tuple[Fields, Dict[str, Any]]] = None
        self.discovering: Set[str] = set()
        self.written: Dict[Tuple, str] = {}
        self.open: List[Tuple] = []
        self.upgraded: Dict[str, Fields] = {}
        self.packed: Dict[str, Packed] = {}
        self.size = 0

    def document(self, location: str) -> str:
        """Imports a document, `FILE` or `FILE#id`. Returns the name of what is written of it."""
        path, fragment = location, ""
        if not os.path.exists(path):
            path, fragment = split_fragment(location)
            path = named_file(path)
        self.name = self.process(os.path.abspath(path), fragment, Scope({}, {}), None, None)
        self.tell_back({})
        return self.name

    def whole(self, path: str, node: Any, key: Any) -> Fields:
        """Returns a document with its imports in place, of a version that is read."""
        if path not in self.upgraded:
            whole = self.library.load(path, node, key)
            if isinstance(whole, Items):
                raise ImportFault("the document is a list, and a packed one has its processes in $graph", path, whole.line)
            if not isinstance(whole, Fields):
                raise ImportFault("the document is no object", path)
            self.upgraded[path] = current(whole)
            if whole["cwlVersion"] != "v1.2":
                self.findings.add(REWRITTEN, whole, "cwlVersion", "cwlVersion", f"{whole['cwlVersion']} becomes v1.2")
        return self.upgraded[path]

    def process(self, path: str, fragment: str, scope: Scope, node: Any, key: Any) -> str:
        """Writes a process of a document, once for each set of requirements around it. Returns the name of its file."""
        around = tuple((name, id(it.fields), it.is_hint) for name, it in sorted(scope.carried.items()))
        asked = (path, fragment, around, tuple(sorted(scope.names)), scope.library)
        if (path, fragment) in self.open:
            raise fault_at(f"{os.path.basename(path)}{'#' + fragment if fragment else ''} runs itself", node, key)
        if asked in self.written:
            return self.written[asked]
        if len(self.open) >= MOST_NESTED:
            raise fault_at(f"more than {MOST_NESTED} workflows are inside one another", node, key)
        raw, scope = self.chosen(path, fragment, scope, node, key)
        scope = scope._replace(version=str(self.upgraded[path]["cwlVersion"]))
        if not self.written:
            names = {**scope.names, **named_types(raw)}
            self.types, self.root = kinds_of_process(raw, names, self.peek), (raw, names)
            asking = {short(key) for key, it in parameters(raw.get("inputs")) if isinstance(it, Fields) and not all_static(it.get("secondaryFiles"))}
            self.discovering = asking | {key for key, kind in self.types[0].items() if fields_ask(kind)}
        stem = os.path.splitext(os.path.basename(path))[0]
        name = self.folder.name(f"{stem}-{short(fragment)}" if fragment and self.written else stem)
        self.written[asked] = name
        self.open.append((path, fragment))
        self.rewriter.is_root = len(self.open) == 1
        made = self.rewriter.process(raw, scope)
        self.open.pop()
        self.is_in_job, self.apart = isinstance(made, Evaluator), getattr(made, "apart", [])
        self.size += size_of(made)
        if self.size > MOST_VALUES:
            raise ImportFault(f"with a copy for each set of requirements the documents have more than {MOST_VALUES} values", path)
        self.folder.document(name, {"cwlVersion": "v1.2", **made})
        Checker(self.findings).process(made)
        return name

    def chosen(self, path: str, fragment: str, scope: Scope, node: Any, key: Any) -> Tuple[Fields, Scope]:
        """Returns the process that is meant, of a packed document the one that the fragment or `main` names."""
        whole = self.whole(path, node, key)
        packed, processes = graph_of(whole)
        if not packed:
            return whole, scope
        if not isinstance(processes, Items) or not all(isinstance(it, Fields) for it in processes):
            raise ImportFault("$graph is no list of processes", path, whole.line_of("$graph"))
        if path not in self.packed:
            self.packed[path] = Packed(processes)
        known = self.packed[path]
        names = {**scope.names, **known.names}
        wanted = short(fragment) if fragment else "main"
        if wanted in known.processes:
            return known.processes[wanted], scope._replace(names=names)
        alone = [] if fragment else unnamed(processes)
        if len(alone) == 1:
            if len(processes) > 1:
                self.findings.add(REWRITTEN, alone[0], None, "$graph", "there is no process main, and this is the only one that no other runs")
            return alone[0], scope._replace(names=names)
        ids = ", ".join(list(known.processes)[:20])
        words = f"the packed document has no process {wanted}; it has {ids}"
        raise ImportFault(words, path, whole.line_of("$graph")) if node is None else fault_at(words, node, key)

    def peek(self, step: Fields, names: Dict[str, Any]) -> Any:
        """Returns the process that a step runs, with the types that have names there, or None where it can't be looked at."""
        run = step.get("run")
        if isinstance(run, Fields):
            return run, {**names, **named_types(run)}
        if not isinstance(run, str):
            return None
        try:
            before, fragment = split_fragment(run)
            path = path_of(before, step.file) if before else step.file
            raw, scope = self.chosen(path, fragment, Scope({}, names), step, "run")
        except (NotAFile, ImportFault):
            return None
        return raw, {**scope.names, **named_types(raw)}

    def run_named(self, step: Fields, value: str, scope: Scope) -> str:
        before, fragment = split_fragment(value)
        try:
            path = path_of(before, step.file) if before else step.file
        except NotAFile as error:
            self.findings.add(LEFT, step, "run", "remote document", str(error))
            return value
        packed = not before and "$graph" not in self.upgraded.get(path, {})
        if packed:
            # `run: "#id"` in a document that is not packed names a process by its id.
            raise fault_at(f"{value} names a process of a packed document, and this document is none", step, "run")
        try:
            return reference_to(self.process(path, fragment, scope, step, "run"))
        except UnknownVersion as fault:
            self.findings.add(LEFT, step, "run", "cwlVersion", str(fault))
            return value

    def value(self, raw: Fields, key: str, it: Any) -> Any:
        """Returns the value of an input as it is kept between jobs, held against its type where that is kept otherwise than it is told."""
        kind = self.types[0].get(short(key))
        # Only a job of node tells numbers in Any from others.
        is_open = kind is not None and mentions(kind, ("Any",)) and not self.is_in_job
        made = self.values.rewritten(raw, key, it, None if is_open else kind)
        if short(key) in self.discovering:
            made = with_companions(made)
        if kind is None or it is None:
            return made
        if is_unlike(kind) and not fits(made, kind):
            self.findings.add(WRONG, raw, key, "type", f"the value of {short(key)} isn't of its type")
        return encoded(made, kind)

    def tell_back(self, given: Dict[str, Any]) -> None:
        """Writes beside a document how its outputs are told: the types of those with numbers that have a fraction, and the formats of files."""
        found = {key: kind for key, kind in self.types[1].items() if mentions(kind, ("float", "double", "record", "Any"))}
        namespaces = {path: whole.get("$namespaces") for path, whole in self.upgraded.items()}
        formats = Formats(self.peek, namespaces)
        root = self.root
        told = formats.outputs(root[0], root[1], {short(key): formats.of_value(it) for key, it in given.items()}) if root else {}
        if any(told.values()):
            found[FORMATS] = {key: it for key, it in told.items() if it is not None}
        self.folder.extras.pop(f"{self.name}.numbers", None)
        if found:
            self.folder.extra(f"{self.name}.numbers", lambda: json.dumps(found, indent=1) + "\n")

    def inputs(self, path: str) -> None:
        """Imports an input object."""
        path = path if os.path.exists(path) else named_file(path)
        raw = self.library.load(path)
        if raw is None:
            raw = Fields(os.path.abspath(path), 1)
        if not isinstance(raw, Fields):
            raise ImportFault("the input object is no object", path)
        self.upgraded.setdefault(raw.file, raw) if "$namespaces" in raw else None
        self.tell_back({key: it for key, it in raw.items() if isinstance(it, (Fields, Items))})
        made = raw.like()
        for key, it in raw.items():
            if key in ("cwl:requirements", "cwl:overrides", "cwltool:overrides", "http://commonwl.org/cwltool#overrides"):
                self.findings.add(LEFT, raw, key, key, "this runner takes no requirements from an input object")
            elif key not in ("cwl:tool", "$namespaces", "$schemas"):
                self.rewriter.one_name(made, raw, key)
                made.put(short(key), self.value(raw, key, it), raw.line_of(key))
        reason = too_long(names_for_locations(made), self.apart) if self.is_in_job else None
        if reason:
            self.findings.add(LEFT, raw, None, "long inputs", reason)
        self.folder.document(INPUTS, made)


def names_for_locations(value: Any) -> Any:
    """Returns a value with the names of files in place of their paths, as the job is told."""
    if isinstance(value, list):
        return [names_for_locations(it) for it in value]
    if not isinstance(value, dict):
        return value
    return {key: os.path.basename(it) if key == "location" and isinstance(it, str) else names_for_locations(it) for key, it in value.items()}


def named_file(name: str) -> str:
    """Returns the path of a file that the words of the program name, by a path or a `file` URL."""
    try:
        return path_of(name, os.path.join(os.getcwd(), "words")) if SCHEME.match(name) else name
    except NotAFile as error:
        raise ImportFault(str(error)) from None


def unnamed(processes: List[Fields]) -> List[Fields]:
    """Returns the processes of a packed document that none of the others runs."""
    named: Set[str] = set()

    def gather(value: Any) -> None:
        if isinstance(value, Fields):
            run = value.get("run")
            if isinstance(run, str) and run.startswith("#"):
                named.add(short(run))
            for it in value.values():
                gather(it)
        elif isinstance(value, Items):
            for it in value:
                gather(it)

    for it in processes:
        gather(it)
    return [it for it in processes if not (isinstance(it.get("id"), str) and short(it["id"]) in named)]


def size_of(value: Any) -> int:
    """Returns how many values there are in a value."""
    if isinstance(value, dict):
        return 1 + sum(map(size_of, value.values()))
    return 1 + sum(map(size_of, value)) if isinstance(value, list) else 1
