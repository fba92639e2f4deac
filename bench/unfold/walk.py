"""What a process makes known while its jobs end: the jobs that can run, who made their files, which are needed, and the outputs.

It is written from the standard and from docs/reference/codes.md, apart from the runner, and keeps nothing from one look to the next: `look`
walks the whole process anew for the jobs that have ended.
"""

import itertools
import json
import re


class Waits(Exception):
    """A value that is not known yet."""


class Fails(Exception):
    """A value that there is none of; its argument is the cause."""


class File:
    """A File with the files beside it, or a Directory with its listing. `maker` is the place of the job that made it."""

    def __init__(self, json_object, maker=None):
        self.kind, self.name, self.maker = json_object["class"], json_object["basename"], maker
        inner = json_object.get("secondaryFiles" if self.kind == "File" else "listing")
        self.inner = None if inner is None else [File(it, maker) for it in inner]

    def fields(self):
        root, dot, end = self.name.rpartition(".")
        has_end = bool(dot) and root.strip(".") != ""
        found = {"basename": self.name, "class": self.kind}
        if self.kind == "File":
            found["nameroot"], found["nameext"] = (root, dot + end) if has_end else (self.name, "")
        if self.inner:
            found["secondaryFiles" if self.kind == "File" else "listing"] = self.inner
        return found


def value_of(written, maker=None):
    """Returns the value of JSON, whose Files a job made, or nobody."""
    if isinstance(written, list):
        return [value_of(it, maker) for it in written]
    if not isinstance(written, dict):
        return written
    if written.get("class") in ("File", "Directory"):
        return File(written, maker)
    return {name: value_of(it, maker) for name, it in written.items()}


def makers(value):
    """Returns the places of the jobs that made a File or Directory of the value, at any depth."""
    found, ahead = set(), [value]
    while ahead:
        it = ahead.pop()
        if isinstance(it, File):
            if it.maker is not None:
                found.add(it.maker)
            ahead.extend(it.inner or [])
        elif isinstance(it, (list, dict)):
            ahead.extend(it.values() if isinstance(it, dict) else it)
    return found


def canonical(value):
    """Returns the value's JSON without places, keys in their order."""

    def plain(it):
        if isinstance(it, File):
            return plain(it.fields())
        if isinstance(it, dict):
            return {name: plain(more) for name, more in it.items()}
        return [plain(more) for more in it] if isinstance(it, list) else it

    return json.dumps(plain(value), separators=(",", ":"), sort_keys=True, ensure_ascii=False)


# Documents.


def entries(written, simple):
    """Returns a list of pairs of id and object: a list as it stands, an object by its keys' bytes."""
    if isinstance(written, list):
        return [(it["id"], it) for it in written]
    return [(name, it if isinstance(it, dict) else {simple: it}) for name, it in sorted(written.items(), key=lambda it: it[0].encode())]


def texts(written):
    return [] if written is None else [written] if isinstance(written, str) else list(written)


class Process:
    """A tool or a workflow; `items` has the processes that its steps name."""

    def __init__(self, written, items):
        self.name, self.is_tool = written.get("id"), written["class"] == "CommandLineTool"
        self.inputs = entries(written["inputs"], "type")
        self.outputs = entries(written["outputs"], "type")
        self.steps = [] if self.is_tool else [Step(name, it, items) for name, it in entries(written["steps"], "run")]


class Step:
    def __init__(self, name, written, items):
        self.name, self.entries = name, entries(written["in"], "source")
        self.outputs = [it if isinstance(it, str) else it["id"] for it in written["out"]]
        self.scatter, self.method = texts(written.get("scatter")), written.get("scatterMethod", "dotproduct")
        self.when = written.get("when")
        run = written["run"]
        self.process = Process(items[run] if isinstance(run, str) else run, items)


def process_of(document):
    """Returns the process of a document: of several items the one that is named `#main`."""
    if "$graph" not in document:
        return Process(document, {})
    items = {it["id"]: it for it in document["$graph"]}
    return Process(items["#main"], items)


# Values.


def fits(value, wanted):
    if isinstance(wanted, list):
        return any(fits(value, it) for it in wanted)
    if isinstance(wanted, dict):
        if wanted["type"] == "enum":
            return isinstance(value, str) and value in wanted["symbols"]
        return isinstance(value, list) and all(fits(it, wanted["items"]) for it in value)
    if wanted.endswith("?"):
        return value is None or fits(value, wanted[:-1])
    if wanted.endswith("[]"):
        return isinstance(value, list) and all(fits(it, wanted[:-2]) for it in value)
    if wanted in ("File", "Directory"):
        return isinstance(value, File) and value.kind == wanted
    if wanted in ("int", "long"):
        half = 2 ** (31 if wanted == "int" else 63)
        return isinstance(value, int) and not isinstance(value, bool) and -half <= value < half
    return {
        "null": value is None,
        "boolean": isinstance(value, bool),
        "string": isinstance(value, str),
        "Any": value is not None,
    }[wanted]


def merged(method, values):
    if method == "merge_nested":
        return values
    if method == "merge_flattened":
        return [more for it in values for more in (it if isinstance(it, list) else [it])]
    return values if len(values) > 1 else values[0] if values else None


def picked(method, value):
    if method is None:
        return value
    there = [it for it in (value if isinstance(value, list) else [value]) if it is not None]
    if method == "all_non_null":
        return there
    if not there:
        raise Fails("L1")
    if method == "the_only_non_null" and len(there) > 1:
        raise Fails("L2")
    return there[0]


REFERENCE = re.compile(r"""\$\((\w+)((?:\.\w+|\['[^'\\]*'\]|\["[^"\\]*"\]|\[[0-9]+\])*)\)""", re.ASCII)
SEGMENT = re.compile(r"""\.(\w+)|\['([^'\\]*)'\]|\["([^"\\]*)"\]|\[([0-9]+)\]""", re.ASCII)


def under(value, key, is_last):
    """Returns what stands under a key."""
    if isinstance(value, list) and key == "length" and is_last:
        return len(value)
    if isinstance(value, File):
        value = value.fields()
    if not isinstance(value, dict):
        raise Fails("P5")
    if key not in value:
        raise Fails("P4")
    return value[key]


def at(value, index):
    if not isinstance(value, (list, str)):
        raise Fails("P5")
    if index >= len(value):
        raise Fails("P6")
    return value[index]


def referred(found, inputs, own):
    symbol, rest = found.group(1), [*SEGMENT.finditer(found.group(2))]
    if symbol not in ("inputs", "self", "null"):
        raise Fails("P3")
    value = {"inputs": inputs, "self": own, "null": None}[symbol]
    for number, segment in enumerate(rest):
        key = next((it for it in segment.groups()[:3] if it is not None), None)
        value = at(value, int(segment.group(4))) if key is None else under(value, key, number + 1 == len(rest))
    return value


def evaluated(text, inputs, own):
    """Returns the value of a text with references: that of one alone, or a text."""
    alone = REFERENCE.fullmatch(text.strip(" \t\r\n"))
    if alone:
        return referred(alone, inputs, own)

    def words(found):
        value = referred(found, inputs, own)
        return value if isinstance(value, str) else canonical(value)

    return REFERENCE.sub(words, text)


# The walk. What is met is a list of jobs, (place, name of the tool, inputs), and of faults, (place, cause), in the order of the walk.


class Walk:
    """One walk through a process, where `ended` has the outputs of the jobs that have ended by their places."""

    def __init__(self, ended):
        self.ended = ended

    def process(self, process, place, given):
        """Returns what is met and the outputs that are known, of a process that is handed these values."""
        inputs = {}
        for name, it in process.inputs:
            value = given.get(name)
            inputs[name] = value_of(it["default"]) if value is None and "default" in it else value
        for name, it in process.inputs:
            if not fits(inputs[name], it["type"]):
                return [(place, f"Kind {name}")], {}
        if not process.is_tool:
            return self.workflow(process, place, inputs)
        met = [(place, process.name, inputs)]
        if place not in self.ended:
            return met, {}
        return met, {name: self.ended[place].get(name) for name, _ in process.outputs}

    def workflow(self, workflow, place, inputs):
        walks, steps = {}, {it.name: it for it in workflow.steps}

        def outputs_of(name):
            # (no step waits for itself, so this ends)
            if name not in walks:
                walks[name] = self.step(steps[name], f"{place}/{name}", link)
            return walks[name][1]

        def link(source):
            of, _, output = source.rpartition("/")
            there = outputs_of(of) if of else inputs
            if output not in there:
                raise Waits
            return there[output]

        for name in steps:
            outputs_of(name)
        met = [more for name in steps for more in walks[name][0]]
        outs = {}
        for name, it in workflow.outputs:
            try:
                outs[name] = self.linked(it, "outputSource", link)
            except Waits:
                pass
            except Fails as fault:
                met.append((place, *fault.args))
        return met, outs

    @staticmethod
    def linked(it, source, link):
        """Returns the value of links, merged and picked."""
        return picked(it.get("pickValue"), merged(it.get("linkMerge"), [link(one) for one in texts(it.get(source))]))

    def step(self, step, place, link):
        given, met = {}, []
        for name, it in step.entries:
            try:
                value = self.linked(it, "source", link)
                given[name] = value_of(it["default"]) if value is None and "default" in it else value
            except Waits:
                pass
            except Fails as fault:
                met.append((place, *fault.args))
        return self.handed(step, place, given) if len(given) == len(step.entries) else (met, {})

    def handed(self, step, place, given):
        """Returns the same of a step that is handed these values."""
        if not step.scatter:
            return self.instance(step, place, given)
        try:
            lengths, tuples = self.tuples(step, given)
        except Fails as fault:
            return [(place, *fault.args)], {}
        walks = []
        for numbers in tuples:
            one = {**given, **{name: given[name][number] for name, number in zip(step.scatter, numbers)}}
            walks.append(self.instance(step, f"{place}[{','.join(map(str, numbers))}]", one))
        outs = {}
        for name in step.outputs:
            if all(name in it for _, it in walks):
                outs[name] = gathered(step.method, lengths, iter([it[name] for _, it in walks]))
        return [more for it, _ in walks for more in it], outs

    @staticmethod
    def tuples(step, given):
        """Returns the lengths of the scattered inputs, and the tuples of indexes in their order."""
        for name in step.scatter:
            if not isinstance(given[name], list):
                raise Fails("S2")
        lengths = [len(given[name]) for name in step.scatter]
        if step.method != "dotproduct":
            return lengths, [*itertools.product(*map(range, lengths))]
        if len(set(lengths)) > 1:
            raise Fails("S1")
        return lengths, [(it,) * len(lengths) for it in range(lengths[0])]

    def instance(self, step, place, given):
        """Returns the same of a step that is not scattered, or of one tuple of a step."""
        try:
            inputs = {}
            for name, it in step.entries:
                own = given[name] if "source" in it else None
                inputs[name] = evaluated(it["valueFrom"], given, own) if "valueFrom" in it else given[name]
            goes_on = True if step.when is None else evaluated(step.when, inputs, None)
            if not isinstance(goes_on, bool):
                raise Fails("L3")
        except Fails as fault:
            return [(place, *fault.args)], {}
        if not goes_on:
            return [], {name: None for name in step.outputs}
        met, outs = self.process(step.process, place, inputs)
        return met, {name: outs[name] for name in step.outputs if name in outs}


def gathered(method, lengths, values):
    """Returns the outputs of all tuples in one list, or of a nested product in lists of lists."""
    if method == "nested_crossproduct" and len(lengths) > 1:
        return [gathered(method, lengths[1:], values) for _ in range(lengths[0])]
    return [next(values) for _ in range(lengths[0])] if method == "nested_crossproduct" else [*values]


# What is known, for ends in their order.


class Unfolding:
    """The jobs that are known by their numbers, the outputs of those that have ended, and the first fault."""

    def __init__(self, process, given):
        self.process, self.given = process, {name: given.get(name) for name, _ in process.inputs}
        self.known, self.tools, self.ended, self.fault = [], {}, {}, None
        self.numbers, self.parents = {}, {}
        self.outs = {}

    def walked(self):
        """Returns what is met and the outputs that are known, now."""
        return Walk(self.ended).process(self.process, "main", self.given)

    def look(self):
        """Returns the jobs that are known anew, each with its inputs, or None where there is a fault."""
        met, outs = self.walked()
        new = {}
        for it in met:
            if len(it) == 2:
                self.fault = it
                return None
            place, tool, inputs = it
            if place not in self.numbers and place not in new:
                new[place] = inputs
                self.tools[place] = tool
        for place in new:
            self.numbers[place] = len(self.known)
            self.known.append(place)
        for place, inputs in new.items():
            self.parents[place] = sorted(self.numbers[it] for it in makers(inputs))
        self.outs = outs
        return new

    def learn(self, number, outputs):
        """Takes the outputs of a job. Where it was learned before, its first ones stay."""
        self.ended.setdefault(self.known[number], outputs)
        return self.look()

    def needed(self):
        """Returns for each known job whether it has not ended, or made a File or Directory of an output that is known."""
        shown = makers(self.outs)
        return [it not in self.ended or it in shown for it in self.known]

    def result(self):
        """Returns the outputs once all jobs have ended."""
        has_all = all(it in self.ended for it in self.known) and len(self.outs) == len(self.process.outputs)
        return self.outs if has_all and self.fault is None else None
