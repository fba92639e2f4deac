"""Workflows of hundreds of jobs, drawn by a row of numbers: parts of several shapes, each of which may read what earlier ones make.

How their jobs end is drawn by generate.py, as of the small ones.
"""

import collections

from generate import ANY, TOOLS

# Shapes of parts, each a method of Larger.
SHAPES = ("chain", "scatter", "flows", "nested", "tree", "join", "skipped", "product", "ragged")


class Flow:
    """A workflow inside a step, with an input `v`: a chain of steps, of which one may be scattered over what the one before it gives."""

    def __init__(self, numbers, steps, tools, list_at=None, inner=None):
        self.steps, self.tools = {}, tools
        last, before = "v", ["v"]
        for number in range(steps):
            name = f"c{number}"
            if number == list_at:
                last = self.scattered(name, last, inner)
            elif numbers.random() < 0.3:
                last = self.step(name, "j", {"x": last, "y": numbers.choice(before)})
            else:
                last = self.step(name, numbers.choice("tttz"), {"x": last})
            before.append(last)
        outputs = {"r": last, "q": numbers.choice(before[1:])}
        self.written = {
            "inputs": {"v": ANY},
            "steps": self.steps,
            "outputs": {name: {"type": ANY, "outputSource": it} for name, it in outputs.items()},
        }

    def step(self, name, tool, entries, **more):
        self.tools.add(tool)
        self.steps[name] = {"in": entries, **more, "out": ["o"], "run": f"#{tool}"}
        return f"{name}/o"

    def scattered(self, name, last, inner):
        """Adds a step whose list a further one is scattered over, and returns that one's output."""
        of = self.step(f"{name}l", "l", {"x": last})
        if inner is None:
            return self.step(name, "t", {"x": of}, scatter="x")
        self.steps[name] = {"in": {"v": of}, "scatter": "v", "out": ["r"], "run": f"#{inner}"}
        return f"{name}/r"


class Larger:
    """A workflow that grows part by part. `lists` has what a part may scatter over, with its length, or about that where jobs decide it."""

    def __init__(self, numbers, jobs):
        self.numbers, self.wanted, self.jobs = numbers, jobs, 0
        self.inputs, self.steps, self.inner, self.outputs, self.tools = {}, {}, {}, {}, set()
        self.lists, self.values, self.parts = [], [], collections.Counter()
        for length in (3, numbers.randint(5, 9), numbers.randint(12, 30), numbers.randint(40, 90), max(20, jobs // numbers.randint(5, 9))):
            self.lists.append((self.given([*range(length)]), length))
        self.values.append(self.given("a"))

    def given(self, value):
        """Adds an input of the workflow, and returns its name."""
        name = f"i{len(self.inputs)}"
        self.inputs[name] = value
        return name

    def chance(self, share):
        return self.numbers.random() < share

    def step(self, run, entries, jobs, outputs="o", **more):
        """Adds a step that is about so many jobs, and returns its outputs."""
        name = f"s{len(self.steps)}"
        self.steps[name] = {"in": entries, **more, "out": [*outputs], "run": f"#{run}"}
        if run in TOOLS:
            self.tools.add(run)
        self.jobs += jobs
        return [f"{name}/{it}" for it in outputs]

    def flow(self, steps, *scattered):
        """Adds a workflow of a chain, and returns its name."""
        name = f"f{len(self.inner)}"
        self.inner[name] = Flow(self.numbers, steps, self.tools, *scattered).written
        return name

    def scattering(self):
        """Adds a workflow that is handed a list: a step for each of its items, and one that reads them all and the list."""
        name = f"f{len(self.inner)}"
        self.tools.update("tj")
        each = {"in": {"x": "v"}, "scatter": "x", "out": ["o"], "run": "#t"}
        steps = {"a": each, "b": {"in": {"x": "a/o", "y": "v"}, "out": ["o"], "run": "#j"}}
        outputs = {"r": {"type": ANY, "outputSource": "a/o"}, "q": {"type": ANY, "outputSource": "b/o"}}
        self.inner[name] = {"inputs": {"v": ANY}, "steps": steps, "outputs": outputs}
        return name

    def listed(self, most):
        """Returns a list of at most about so many items, a later one more often than an earlier one, and its length."""
        there = [it for it in self.lists if 0 < it[1] <= most] or [self.lists[0]]
        late = there[-4:]
        return self.numbers.choice(late if self.chance(0.7) else there)

    def value(self):
        """Returns what a step reads as a whole."""
        return self.numbers.choice([self.numbers.choice(self.values), self.listed(200)[0]])

    def grow(self):
        """Adds parts until there are about as many jobs as are wanted."""
        rest = []
        while self.wanted - self.jobs > 2:
            rest = rest or self.numbers.sample(SHAPES, len(SHAPES))
            shape, before = rest.pop(), self.jobs
            getattr(self, shape)(self.wanted - self.jobs)
            self.parts[shape] += self.jobs > before
        self.show()

    # Shapes. Each is told how many jobs there is room for.

    def chain(self, room):
        last, before = self.value(), []
        for _ in range(min(room, self.numbers.randint(15, 90))):
            before.append(last)
            if self.chance(0.25):
                [last] = self.step("j", {"x": last, "y": self.numbers.choice(before)}, 1)
            else:
                [last] = self.step(self.numbers.choice("ttttz"), {"x": last}, 1)
        self.values.append(last)

    def scatter(self, room):
        of, length = self.listed(room)
        run = self.numbers.choice("tttlnzu")
        entries = {"x": of, "y": self.numbers.choice(self.values)} if run == "u" else {"x": of}
        more = {"outputs": "op"} if run == "u" else {}
        self.lists += [(it, length) for it in self.step(run, entries, length, scatter="x", **more)]

    def flows_of(self, room, flow, jobs):
        """Adds a scatter over workflows of about so many jobs each."""
        of, length = self.listed(room // jobs)
        self.lists += [(it, length) for it in self.step(flow, {"v": of}, length * jobs, "rq", scatter="v")]

    def flows(self, room):
        steps = self.numbers.randint(2, 6)
        self.flows_of(room, self.flow(steps), steps)

    def nested(self, room):
        """Workflows in which workflows are scattered over what their jobs give: some 1.6 each."""
        inner = self.numbers.choice([None, self.flow(2)])
        steps = self.numbers.randint(2, 4)
        self.flows_of(room, self.flow(steps, self.numbers.randrange(steps), inner), steps + 2 if inner is None else steps + 3)

    def tree(self, room):
        """Leaves that read one item each, and merges of two or three until one is left."""
        of, length = self.listed(room)
        level = []
        for number in range(min(length, room // 2 + 1, self.numbers.randint(8, 60))):
            entry = {"source": of, "valueFrom": f"$(self[{number}])"}
            # (a list of which jobs decide the length may have no item of this number)
            level += self.step(self.numbers.choice("tl"), {"x": entry if of in self.inputs else of}, 1)
        while len(level) > 1:
            count = self.numbers.choice([2, 2, 3])
            entry = {"source": level[:count], "linkMerge": self.numbers.choice(["merge_nested", "merge_flattened"])}
            level = level[count:] + self.step(self.numbers.choice("tl"), {"x": entry}, 1)
        self.values += level

    def join(self, room):
        several = [self.listed(room * 100)[0] for _ in range(self.numbers.randint(2, 4))]
        entry = {"source": several, "linkMerge": self.numbers.choice(["merge_nested", "merge_flattened"])}
        if self.chance(0.4):
            entry["pickValue"] = "all_non_null"
        self.values += self.step("j", {"x": entry, "y": self.value()}, 1)

    def skipped(self, room):
        """Flags that jobs give, a scatter over those that are set, and one over what is there in the end."""
        of, length = self.listed(room // 4)
        [flags] = self.step("b", {"x": of}, length, scatter="x")
        some, how = length * 2 // 3, {"scatterMethod": "dotproduct", "when": "$(inputs.go)"}
        if self.chance(0.5):
            [made, _] = self.step(self.flow(2), {"v": of, "go": flags}, 2 * some, "rq", scatter=["v", "go"], **how)
        else:
            [made] = self.step("t", {"x": of, "go": flags}, some, scatter=["x", "go"], **how)
        # What is picked is handed whole to a workflow, which is scattered over it.
        there = {"source": [made], "linkMerge": "merge_flattened", "pickValue": "all_non_null"}
        [each, joined] = self.step(self.scattering(), {"v": there}, some + 1, "rq")
        self.lists += [(made, length), (each, some)]
        self.values.append(joined)

    def product(self, room):
        """Each item of a list with each of another, and a step over what that gives."""
        one, count = self.listed(max(3, min(room // 8, 40)))
        other, more = self.listed(max(3, min(room // (2 * count), 40)))
        if 2 * count * more > room + 20:
            return
        entries, scatter = {"x": one, "y": other}, ["x", "y"]
        if self.chance(0.4):
            flags = [self.numbers.choice([True, True, False]) for _ in range(2)]
            how = {"scatterMethod": "flat_crossproduct", "when": "$(inputs.go)"}
            [made] = self.step("j", {**entries, "go": self.given(flags)}, count * more * sum(flags), scatter=[*scatter, "go"], **how)
            self.lists.append((made, 2 * count * more))
        elif self.chance(0.5):
            [made] = self.step("j", entries, count * more, scatter=scatter, scatterMethod="flat_crossproduct")
            self.lists.append((made, count * more))
        else:
            [made] = self.step("j", entries, count * more, scatter=scatter, scatterMethod="nested_crossproduct")
            self.lists += [(it, count) for it in self.step(self.scattering(), {"v": made}, count * (more + 1), "rq", scatter="v")]

    def ragged(self, room):
        """A scatter over lists of several lengths, of which some are empty, on two levels."""
        lengths = [self.numbers.choice([0, 1, 2, 3, 5]) for _ in range(max(1, min(room // 4, self.numbers.randint(10, 80))))]
        of = self.given([[*range(it)] for it in lengths])
        self.lists += [(it, len(lengths)) for it in self.step(self.scattering(), {"v": of}, sum(lengths) + len(lengths), "rq", scatter="v")]

    def show(self):
        """Makes outputs of what was made last, and of some others."""
        made = [it for it, _ in self.lists if it not in self.inputs] or self.values
        links = [{"outputSource": made[-1]}, {"outputSource": self.values[-1]}]
        links += [self.shown(made) for _ in range(self.numbers.randint(3, 9))]
        if self.chance(0.08):
            # A fault, once both are there.
            links.append({"outputSource": [made[-1], self.values[-1]], "pickValue": "the_only_non_null"})
        self.outputs = {f"o{number}": {"type": ANY, **it} for number, it in enumerate(links)}

    def shown(self, made):
        """Returns the fields of an output: of one link, of several, or of what is there of them."""
        several = [self.numbers.choice(made) for _ in range(self.numbers.choice([1, 1, 2, 3]))]
        kind = self.numbers.choice(["plain", "plain", "merge_nested", "merge_flattened", "all_non_null", "first_non_null"])
        if kind == "plain":
            return {"outputSource": several[0]}
        if kind.startswith("merge"):
            return {"outputSource": several, "linkMerge": kind}
        return {"outputSource": several, "pickValue": kind}

    def document(self):
        flows = [{"class": "Workflow", "id": f"#{name}", **it} for name, it in self.inner.items()]
        main = {"class": "Workflow", "id": "#main", "inputs": {it: ANY for it in self.inputs}, "steps": self.steps, "outputs": self.outputs}
        return {"cwlVersion": "v1.2", "$graph": [*(TOOLS[it] for it in sorted(self.tools)), *flows, main]}


def workflow(numbers, jobs):
    """Returns a document of about so many jobs and its inputs, and how many parts it has of each shape."""
    made = Larger(numbers, jobs)
    made.grow()
    return made.document(), made.inputs, made.parts
