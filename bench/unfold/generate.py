"""Workflows of sixty jobs at most, with inputs and ends of their jobs, drawn by a row of numbers."""

import string

ANY = "Any?"
# What the counts of a set of rows are of.
WORDS = ("merge_nested", "merge_flattened", "first_non_null", "the_only_non_null", "all_non_null", "nested_crossproduct", "flat_crossproduct")
WORDS += ("dotproduct", "when", "valueFrom", "default", "Directory", "secondaryFiles")


def tool(name, inputs, outputs="o"):
    return {
        "class": "CommandLineTool",
        "id": f"#{name}",
        "inputs": inputs if isinstance(inputs, dict) else {it: ANY for it in inputs},
        "outputs": {it: ANY for it in outputs},
    }


# `t` makes a File, `j` one of two inputs, `l` a list of Files, `b` a boolean, `u` a File and a list, `n` a number or null, `z` a Directory, or
# a File with one beside it; `d` has defaults, `k` wants other kinds of values.
TOOLS = {
    "t": tool("t", "x"),
    "j": tool("j", "xy"),
    "l": tool("l", "x"),
    "b": tool("b", "x"),
    "u": tool("u", "xy", "op"),
    "n": tool("n", "x"),
    "z": tool("z", "x"),
    "d": tool("d", {"x": {"type": ANY, "default": 3}, "y": {"type": "Any[]?", "default": []}}),
    "k": tool("k", {"x": "Any", "y": ["null", "int", "File", "File[]"]}),
}


def packed(main, names):
    items = [TOOLS[it] for it in sorted(names)]
    return {"cwlVersion": "v1.2", "$graph": [*items, {"class": "Workflow", "id": "#main", **main}]}


# A scattered step on each of three levels, chains beside them, and the level below once more without a scatter.
LOW = {
    "class": "Workflow",
    "id": "#low",
    "inputs": {"v": ANY},
    "steps": {"u": {"in": {"x": "s/o"}, "out": ["o"], "run": "#t"}, "s": {"in": {"x": "v"}, "scatter": "x", "out": ["o"], "run": "#t"}},
    "outputs": {"w": {"type": ANY, "outputSource": "u/o"}, "e": {"type": ANY, "outputSource": "s/o"}},
}
MIDDLE = {
    "class": "Workflow",
    "id": "#middle",
    "inputs": {"v": ANY},
    "steps": {
        "c": {"in": {"x": "m/w"}, "out": ["o"], "run": "#t"},
        "m": {"in": {"v": "v"}, "scatter": "v", "out": ["w", "e"], "run": "#low"},
    },
    "outputs": {"w": {"type": ANY, "outputSource": "c/o"}, "e": {"type": ANY, "outputSource": "m/e"}},
}
ROOT = {
    "inputs": {"v": ANY},
    "steps": {
        "a": {"in": {"x": "k/w", "y": "h/o"}, "out": ["o"], "run": "#j"},
        "g": {"in": {"v": {"source": "v", "valueFrom": "$(inputs.v[1])"}}, "out": ["w", "e"], "run": "#middle"},
        "h": {"in": {"x": "k/e"}, "out": ["o"], "run": "#t"},
        "k": {"in": {"v": "v"}, "scatter": "v", "out": ["w", "e"], "run": "#middle"},
    },
    "outputs": {
        "r": {"type": ANY, "outputSource": "a/o"},
        "s": {"type": ANY, "outputSource": ["g/w", "h/o"], "linkMerge": "merge_flattened"},
        "e": {"type": ANY, "outputSource": "k/e"},
    },
}
THREE_LEVELS = (
    {
        "cwlVersion": "v1.2",
        "$graph": [TOOLS["j"], TOOLS["t"], LOW, MIDDLE, {"class": "Workflow", "id": "#main", **ROOT}],
    },
    {"v": [[[1, 2], [3, 4]], [[5, 6], [7]]]},
)


# Generated workflows. Of a source the shape says what its values are: a letter, or ("list", mark, shape), where lists of one mark have one
# length. Letters: s a value, b a boolean, i a number, q a value or null.


def is_list(shape):
    return isinstance(shape, tuple)


class Flow:
    """A workflow that grows step by step; `sources` has what a step may read, each with its shape."""

    def __init__(self, numbers, level, inputs, palette, tools):
        self.numbers, self.level, self.palette, self.tools = numbers, level, palette, tools
        self.inputs, self.steps, self.unused = dict(inputs), {}, []
        self.sources = [*inputs.items()]
        self.names = numbers.sample(string.ascii_lowercase, 12)

    def chance(self, share):
        return self.numbers.random() < share

    def source(self, wanted=lambda shape: True):
        """Returns a source of such a shape, one that nothing reads yet more often than another, or None."""
        there = [it for it in self.sources if wanted(it[1])]
        if not there:
            return None
        fresh = [it for it in there if it[0] in self.unused]
        found = self.numbers.choice(fresh if fresh and self.chance(0.6) else there)
        if found[0] in self.unused:
            self.unused.remove(found[0])
        return found

    def merged(self):
        """Returns the fields of several links, or of one that is picked, and the shape of their value."""
        links = [self.source() for _ in range(self.numbers.choice([1, 2, 2, 3]))]
        method = self.numbers.choice([None, "merge_nested", "merge_flattened"])
        pick = self.numbers.choice([None, "first_non_null", "first_non_null", "all_non_null", "the_only_non_null"])
        if pick == "the_only_non_null" and self.chance(0.8):
            pick = None
        texts = [it[0] for it in links]
        fields = {"source": texts[0] if len(texts) == 1 and self.chance(0.5) else texts}
        fields.update({name: it for name, it in (("linkMerge", method), ("pickValue", pick)) if it})
        inner = links[0][1] if method != "merge_flattened" or not is_list(links[0][1]) else links[0][1][2]
        if pick in ("first_non_null", "the_only_non_null"):
            return fields, inner
        if method is None and len(links) == 1 and pick is None:
            return fields, inner
        return fields, ("list", object(), inner)

    def entry(self):
        """Returns a step's input that is not scattered, and its shape."""
        if self.chance(0.15):
            fields, shape = self.merged()
        elif self.chance(0.06):
            return {"default": self.numbers.choice([4, [1, 2], "a", {"a": 1}])}, "s"
        else:
            text, shape = self.source()
            fields = {"source": text}
        if shape == "q" and self.chance(0.5) or self.chance(0.05):
            fields["default"] = self.numbers.choice([0, [], "none"])
        if self.chance(0.06):
            fields["valueFrom"] = self.numbers.choice(["$(self)", "$(self)", "v$(self)", "plain"])
            shape = "s"
        return fields if len(fields) > 1 else fields["source"], shape

    def step(self):
        """Adds a step, which is scattered or not, over a tool or a workflow."""
        step, entries, given = {}, {}, {}
        is_flow = self.level < 2 and self.chance(0.4)
        name = self.numbers.choice(self.palette)
        names = self.numbers.choice(["v", "vw"]) if is_flow else [*TOOLS[name]["inputs"]]
        scattered, marks = self.scattered(names)
        for it in names:
            if it in scattered:
                entries[it], given[it] = scattered[it][0], scattered[it][1][2]
            elif not (name == "d" and not is_flow and self.chance(0.5)):
                entries[it], given[it] = self.entry()
        if self.chance(0.03):
            entries[names[-1]] = {"source": self.source()[0], "valueFrom": self.numbers.choice(["$(inputs.no)", "$(self[1])", "$(self.length)"])}
        if scattered:
            self.scatter(step, [*scattered], marks)
        is_skipped = self.skips(step, entries, scattered)
        step["in"] = entries
        run, outputs = self.flow(given) if is_flow else (f"#{name}", self.tool(name))
        step.update(out=[*outputs], run=run)
        self.add(step, outputs, [*scattered], is_skipped)

    def scattered(self, names):
        """Returns the sources of the inputs that are scattered, and whether their lengths are one."""
        found = {}
        if not self.chance(0.55):
            return found, set()
        for it in names[: self.numbers.choice([1, 1, 2])]:
            source = self.source(is_list)
            if source:
                found[it] = source
        if not found and self.chance(0.02):
            found[names[0]] = (self.source()[0], ("list", object(), "s"))
        return found, {id(it[1][1]) for it in found.values()}

    def scatter(self, step, names, marks):
        step["scatter"] = names if len(names) > 1 or self.chance(0.2) else names[0]
        methods = ["nested_crossproduct", "flat_crossproduct", "nested_crossproduct"]
        if len(marks) == 1 and len(names) > 1 or self.chance(0.05):
            methods = ["dotproduct"]
        if len(names) > 1 or self.chance(0.1):
            step["scatterMethod"] = self.numbers.choice(methods)

    def skips(self, step, entries, scattered):
        """Adds a `when`, whose input may be scattered with the others."""
        if not self.chance(0.2):
            return False
        it = self.source(lambda shape: shape == "b") if self.chance(0.95) else self.source()
        if it is None:
            return False
        entries["go"] = it[0]
        step["when"] = "$(inputs.go)"
        return True

    def tool(self, name):
        self.tools.add(name)
        own = {"l": ("list", object(), "s"), "b": "b", "n": "q"}.get(name, "s")
        return {"o": own, "p": ("list", object(), "s")} if name == "u" else {"o": own}

    def flow(self, given):
        below = Flow(self.numbers, self.level + 1, given, self.palette, self.tools)
        for _ in range(self.numbers.choice([1, 2, 2, 3]) if self.level == 0 else self.numbers.choice([1, 2])):
            below.step()
        written, outputs = below.written()
        return {"class": "Workflow", **written}, outputs

    def add(self, step, outputs, scattered, is_skipped):
        """Keeps the step, and what its outputs are."""
        name = self.names.pop()
        self.steps[name] = step
        method = step.get("scatterMethod", "dotproduct")
        for output, shape in outputs.items():
            shape = "q" if is_skipped and not is_list(shape) else shape
            for _ in range(len(scattered) if method == "nested_crossproduct" else min(1, len(scattered))):
                shape = ("list", object(), shape)
            self.sources.append((f"{name}/{output}", shape))
            self.unused.append(f"{name}/{output}")

    def written(self):
        """Returns the fields of the workflow, and the shapes of its outputs: what nothing reads, and some more."""
        outputs, shapes = {}, {}
        names = iter(self.numbers.sample(string.ascii_lowercase, 12))
        for _ in range(self.numbers.choice([1, 1, 2])):
            name = next(names)
            if self.chance(0.25):
                fields, shapes[name] = self.merged()
                outputs[name] = {"type": ANY, **{("outputSource" if it == "source" else it): to for it, to in fields.items()}}
            else:
                text, shapes[name] = self.source()
                outputs[name] = {"type": ANY, "outputSource": text}
        inputs = {name: {"type": ANY, "default": [1]} if self.chance(0.05) else ANY for name in self.inputs}
        steps = self.steps
        if self.chance(0.1):
            steps = [{"id": name, **it} for name, it in self.steps.items()]
            self.numbers.shuffle(steps)
        return {"inputs": inputs, "steps": steps, "outputs": outputs}, shapes


def workflow(numbers):
    """Returns a document and its inputs."""
    inputs, shapes = {}, {}
    length = numbers.choice([1, 2, 2, 3, 3, 4, 5, 6])
    mark = object()
    for name in numbers.sample("abcd", numbers.choice([2, 3])):
        kind = numbers.choice(["value", "list", "list", "lists", "flag", "flags", "null"])
        inputs[name], shapes[name] = {
            "value": (numbers.choice([1, "a", {"a": [1, None]}]), "s"),
            "list": ([*range(length)], ("list", mark, "i")),
            "lists": ([[*range(numbers.choice([0, 1, 2, 3]))] for _ in range(length)], ("list", mark, ("list", object(), "i"))),
            "flag": (numbers.choice([True, False]), "b"),
            "flags": ([numbers.choice([True, True, False]) for _ in range(length)], ("list", mark, "b")),
            "null": (None, "q"),
        }[kind]
    palette = numbers.sample("ttjjllbudnkz", numbers.choice([2, 3]))
    root = Flow(numbers, 0, shapes, palette, set())
    for _ in range(numbers.choice([1, 2, 2, 3, 3, 4, 5])):
        root.step()
    written, _ = root.written()
    return packed(written, root.tools), inputs


def end_of(numbers, number, name):
    """Returns how the job of a number ends, whose tool has this name: what it makes."""
    some = [f"f{number}{letter}" for letter in "abc"[: numbers.choice([0, 1, 2, 2, 3])]]
    if name == "l":
        return [number, some]
    if name == "b":
        return [number, numbers.choice([True, True, False])]
    if name == "u":
        return numbers.choice([[number, f"f{number}", some], [number, None, some], [number, f"f{number}"]])
    if name == "n":
        return [number, numbers.choice([None, None, number])]
    if name == "z":
        return [number, numbers.choice([directory(number), beside(number)])]
    return number if numbers.random() < 0.95 else [number]


def directory(number):
    listing = [{"class": "File", "location": f"e{number}", "basename": f"e{number}"}]
    return {"class": "Directory", "location": f"d{number}", "basename": f"d{number}", "listing": listing}


def beside(number):
    other = {"class": "File", "location": f"h{number}", "basename": f"h{number}"}
    return {"class": "File", "location": f"g{number}", "basename": f"g{number}", "secondaryFiles": [other]}
