"""Asks the program how long it takes to read documents and input objects of growing size, and prints a table.

usage: documents.py PROGRAM [WORD..]

Each kind is made four times, with 0.25, 0.5, 1 and 2 MB, or with the four sizes that MEGABYTES has, as "2 4 8 16". A document is given with an
input object that is not there, so the run ends once the document is read and accepted; an input object with a work folder that is there already, so
the run ends once the object is read. No job is started and no file measured. The times are milliseconds of the processor, so that other work on the
computer counts for little: the median of 3 (or of REPEATS), or the first where that takes three seconds, less that of a tiny document. 'growth' says
how many times longer each size takes than the one before: 2.0 is linear, and a line where the last two are above 2.4, in their mean, ends with '!'.
'memory' is the peak of the process in MB, 'json' how long Python's json takes to read the same file, and 'ratio' how many times longer the program
takes, all three of the largest size that was read. A size that takes over 30 seconds or over 4 GB has '-', as those after it have. WORD picks the
kinds that have it in their names. Needs Python 3.8 or later.
"""

import json
import os
import resource
import statistics
import subprocess
import sys
import tempfile
import time

MEGABYTES = os.environ.get("MEGABYTES", "0.25 0.5 1 2").split()
SIZES = [int(float(it) * 1_000_000) for it in MEGABYTES]
MOST_GROWTH = 2.4
MOST_SECONDS = int(os.environ.get("SECONDS_EACH", 30))
MOST_BYTES = 4 << 30
# A time that is not taken again, in milliseconds.
LONG = 3_000
REPEATS = int(os.environ.get("REPEATS", 3))


def named(count, name="n"):
    """Returns so many names, all of one length."""
    return [f"{name}{number:06}" for number in range(count)]


def tool(inputs=None, outputs=None, **more):
    return {"cwlVersion": "v1.2", "class": "CommandLineTool", "baseCommand": "true", "inputs": inputs or {}, "outputs": outputs or {}, **more}


def workflow(inputs, outputs, steps):
    needs = {"ScatterFeatureRequirement": {}, "MultipleInputFeatureRequirement": {}, "StepInputExpressionRequirement": {}}
    return {"cwlVersion": "v1.2", "class": "Workflow", "requirements": needs, "inputs": inputs, "outputs": outputs, "steps": steps}


def takes(default, kind="Any"):
    """Returns a tool with one input that has this default."""
    return tool({"i": {"type": kind, "default": default}})


def nested(count):
    """Returns so many lists that each nest 90 deep."""
    one = 1
    for _ in range(90):
        one = [one]
    return [one] * count


def files(count):
    return [{"class": "File", "location": name} for name in named(count)]


def folder(count):
    return {"class": "Directory", "location": "d", "listing": files(count)}


def a_file(count):
    return {"class": "File", "location": "f", "secondaryFiles": files(count)}


COPY = {
    "class": "CommandLineTool",
    "baseCommand": ["sort", "-u"],
    "doc": "Sorts the lines of a file into another, without those that are there twice; the order is that of the bytes.",
    "inputs": {
        "f": {"type": "File", "doc": "The lines", "inputBinding": {"position": 2}},
        "n": {"type": "int?", "doc": "How many processors it may use", "default": 1, "inputBinding": {"position": 1, "prefix": "--parallel"}},
    },
    "outputs": {"o": {"type": "File", "outputBinding": {"glob": "o"}}},
    "stdout": "o",
}


def chain(count):
    steps = {}
    before = "f"
    for name in named(count, "s"):
        steps[name] = {"in": {"f": before}, "out": ["o"], "run": COPY}
        before = f"{name}/o"
    return workflow({"f": "File"}, {"o": {"type": "File", "outputSource": before}}, steps)


def beside(count):
    """Returns so many steps that all take the workflow's input, and an output of each."""
    names = named(count, "s")
    steps = {name: {"in": {"f": "f"}, "out": ["o"], "run": COPY} for name in names}
    return workflow({"f": "File"}, {name: {"type": "File", "outputSource": f"{name}/o"} for name in names}, steps)


def gathered(count):
    """Returns so many steps, and one that takes the list of what they make."""
    names = named(count, "s")
    steps = {name: {"in": {"f": "f"}, "out": ["o"], "run": COPY} for name in names}
    last = tool({"fs": {"type": "File[]", "inputBinding": {}}})
    steps["z"] = {"in": {"fs": {"source": [f"{name}/o" for name in names]}}, "out": [], "run": last}
    return workflow({"f": "File"}, {}, steps)


def packed(count):
    """Returns the steps that stand side by side, each with an item of its own to run."""
    main = beside(count)
    del main["cwlVersion"]
    for name, step in main["steps"].items():
        step["run"] = "#" + name
    items = [{"id": "#" + name, **COPY} for name in main["steps"]]
    return {"cwlVersion": "v1.2", "$graph": [{"id": "#main", **main}] + items}


def unused(count):
    """Returns a tool, and beside it so many items that it doesn't need."""
    items = [{"class": "CommandLineTool", "id": "#" + name} for name in named(count)]
    return {"cwlVersion": "v1.2", "$graph": [{"id": "#main", **tool()}] + items}


def listed_steps(count):
    made = chain(count)
    made["steps"] = [{"id": name, **step} for name, step in made["steps"].items()]
    return made


def wide_steps(count):
    """Returns 20 steps that each have so many inputs, each from an input of the workflow."""
    names = named(count)
    run = tool({name: {"type": "string", "inputBinding": {"prefix": "--" + name}} for name in names})
    steps = {f"s{number:02}": {"in": {name: name for name in names}, "out": [], "run": run} for number in range(20)}
    return workflow({name: "string" for name in names}, {}, steps)


def wide_step(count):
    """Returns one step with so many inputs, each from an input of the workflow."""
    names = named(count)
    run = tool({name: {"type": "string", "inputBinding": {"prefix": "--" + name}} for name in names})
    return workflow({name: "string" for name in names}, {}, {"s": {"in": {name: name for name in names}, "out": [], "run": run}})


def many_outputs(count):
    """Returns a step with so many outputs, each an output of the workflow."""
    names = named(count)
    run = tool({}, {name: {"type": "File", "outputBinding": {"glob": name}} for name in names})
    made = {name: {"type": "File", "outputSource": "s/" + name} for name in names}
    return workflow({}, made, {"s": {"in": {}, "out": names, "run": run}})


def many_sources(count):
    names = named(count)
    run = tool({"i": {"type": "string[]", "inputBinding": {}}})
    return workflow({name: "string" for name in names}, {}, {"s": {"in": {"i": {"source": names}}, "out": [], "run": run}})


def scattered(count):
    names = named(count)
    run = tool({name: "string" for name in names})
    step = {"in": {name: name for name in names}, "out": [], "scatter": names, "scatterMethod": "dotproduct", "run": run}
    return workflow({name: "string[]" for name in names}, {}, {"s": step})


def linked_types(of, to):
    """Returns a step whose input is of one type, and what it is linked to of another."""
    return workflow({"i": {"type": of}}, {}, {"s": {"in": {"i": "i"}, "out": [], "run": tool({"i": {"type": to}})}})


def inherited(count):
    """Returns a workflow of so many steps and ten times as many variables, which are in force in each of the steps."""
    made = beside(count)
    made["requirements"]["EnvVarRequirement"] = {"envDef": {name: "abc" for name in named(10 * count)}}
    return made


def enum(names):
    return {"type": "enum", "symbols": names}


def enums(count):
    """Returns a link between two enums of so many symbols, of which only the last is common to both."""
    return linked_types(enum(named(count) + ["z"]), enum(named(count, "m") + ["z"]))


def unions(count):
    """Returns a link between two unions of so many members, of which only the last is common to both."""
    return linked_types([enum([name]) for name in named(count)] + ["File"], [enum([name]) for name in named(count, "m")] + ["File"])


DOCUMENTS = {
    "steps: a chain": chain,
    "steps: a chain, as a list": listed_steps,
    "steps: side by side": beside,
    "steps: gathered by one": gathered,
    "items: a step each": packed,
    "items: not needed": unused,
    "steps: 20 with many inputs": wide_steps,
    "step: inputs": wide_step,
    "step: outputs": many_outputs,
    "step: sources of one input": many_sources,
    "step: scattered inputs": scattered,
    "workflow: inputs": lambda n: workflow({name: {"type": "string", "default": "abc"} for name in named(n)}, {}, {}),
    "workflow: steps and variables": inherited,
    "types: enums that are linked": enums,
    "types: unions that are linked": unions,
    "tool: inputs": lambda n: tool({name: {"type": "string", "inputBinding": {"position": 1}} for name in named(n)}),
    "tool: inputs, as a list": lambda n: tool([{"id": name, "type": "string", "inputBinding": {"position": 1}} for name in named(n)]),
    "tool: outputs": lambda n: tool({}, {name: {"type": "File", "outputBinding": {"glob": "*." + name}} for name in named(n)}),
    "tool: arguments": lambda n: tool(arguments=[f"-{name}" for name in named(n)]),
    "tool: references in one text": lambda n: tool({"i": "string"}, arguments=["".join(f" $(inputs['i']) {it}" for it in range(n))]),
    "tool: plain text, one": lambda n: tool(arguments=["ab cd ef g " * n]),
    "tool: words": lambda n: tool(baseCommand=named(n)),
    "tool: patterns": lambda n: tool({}, {"o": {"type": "File[]", "outputBinding": {"glob": [f"*.{name}" for name in named(n)]}}}),
    "tool: secondary files": lambda n: tool({"i": {"type": "File", "secondaryFiles": [f".{name}" for name in named(n)]}}),
    "tool: variables": lambda n: tool(requirements={"EnvVarRequirement": {"envDef": {name: "abc" for name in named(n)}}}),
    "tool: variables, as a list": lambda n: tool(requirements=[{"class": "EnvVarRequirement", "envDef": [{"envName": name, "envValue": "abc"} for name in named(n)]}]),
    "tool: exit codes": lambda n: tool(successCodes=[it % 256 for it in range(n)]),
    "tool: fields that are ignored": lambda n: tool(hints={f"x:{name}": {"a": 1} for name in named(n)}),
    "tool: an enum": lambda n: tool({"i": {"type": enum(named(n))}}),
    "tool: a union": lambda n: tool({"i": {"type": [enum([name]) for name in named(n)]}}),
    "default: a list": lambda n: takes(list(range(n))),
    "default: nested lists": lambda n: takes(nested(n)),
    "default: texts": lambda n: takes(named(n)),
    "default: fields": lambda n: takes({name: 1 for name in named(n)}),
    "default: objects": lambda n: takes([{"a": 1, "b": "c"}] * n),
    "default: Files": lambda n: takes(files(n), "File[]"),
    "default: a Directory": lambda n: takes(folder(n), "Directory"),
    "default: secondary files": lambda n: takes(a_file(n), "File"),
}

INPUTS = {
    "inputs: a list": lambda n: {"i": list(range(n))},
    "inputs: nested lists": lambda n: {"i": nested(n)},
    "inputs: texts": lambda n: {"i": named(n)},
    "inputs: one text": lambda n: {"i": "ab cd ef g " * n},
    "inputs: fields": lambda n: {name: 1 for name in named(n)},
    "inputs: objects": lambda n: {"i": [{"a": 1, "b": "c"}] * n},
    "inputs: Files": lambda n: {"i": files(n)},
    "inputs: a Directory": lambda n: {"i": folder(n)},
    "inputs: secondary files": lambda n: {"i": a_file(n)},
}


def of_size(kind, size):
    """Returns the JSON of this kind that has about so many bytes."""
    small, large = (len(json.dumps(kind(count))) for count in (100, 200))
    count = max(1, (size - small) * 100 // (large - small) + 100)
    count = count * size // len(json.dumps(kind(count)))
    return json.dumps(kind(count)).encode()


def bounded():
    resource.setrlimit(resource.RLIMIT_CPU, (MOST_SECONDS, MOST_SECONDS))
    resource.setrlimit(resource.RLIMIT_AS, (MOST_BYTES, MOST_BYTES))


def asked(words, ending):
    """Returns the milliseconds of the processor that the program takes, and its peak of memory in MB; None where it takes too much."""
    with tempfile.TemporaryFile() as told:
        child = subprocess.Popen(words, stdin=subprocess.DEVNULL, stdout=subprocess.DEVNULL, stderr=told, preexec_fn=bounded)
        _, status, used = os.wait4(child.pid, 0)
        child.returncode = status
        told.seek(0)
        told = told.read()
    if told == b"fault: OutOfMemory\n" or os.WIFSIGNALED(status) and used.ru_utime + used.ru_stime > MOST_SECONDS - 1:
        return None
    if told != ending:
        sys.exit(f"{words} ends with {told[:300]!r}, status {status}")
    return (used.ru_utime + used.ru_stime) * 1000, used.ru_maxrss / 1024


def times_of(words, ending):
    """Returns the median of 3 times, or the first where that is long, and the greatest peak of memory; None where it takes too much."""
    told = []
    while len(told) < REPEATS and (not told or told[0][0] < LONG):
        one = asked(words, ending)
        if one is None:
            return None
        told.append(one)
    return statistics.median(time for time, _ in told), max(memory for _, memory in told)


def millis_of_json(text):
    told = []
    for _ in range(3):
        begun = time.process_time()
        json.loads(text)
        told.append((time.process_time() - begun) * 1000)
    return statistics.median(told)


def put(text, path):
    with open(path, "wb") as it:
        it.write(text)


def row(name, kind, file, words, ending):
    """Returns the line of a kind, whose JSON is put into this file, and whether it grows too fast."""
    tiny, _ = times_of(words, ending)
    times, rest = [], ""
    for size in SIZES:
        text = of_size(kind, size)
        put(text, file)
        found = times_of(words, ending)
        if found is None:
            break
        times.append(max(found[0] - tiny, 0.1))
        read = millis_of_json(text)
        rest = f"{found[1]:8.0f}{read:7.1f}{times[-1] / read:8.1f}"
    growth = [after / before for before, after in zip(times, times[1:])]
    is_fast = len(times) < len(SIZES) or times[-1] > times[1] * MOST_GROWTH**2
    shown = "".join(f"{it:9.0f}" for it in times) + f"{'-':>9}" * (len(SIZES) - len(times))
    return f"{name:31}{shown}   {' '.join(f'{it:4.1f}' for it in growth):16}{rest}{' !' * is_fast}", is_fast


def main():
    program, wanted = sys.argv[1], sys.argv[2:]
    fast = count = 0
    heads = "".join(f"{it + ' MB':>9}" for it in MEGABYTES)
    print(f"{'the bytes are mostly':31}{heads}   {'growth':16}{'memory':>8}{'json':>7}{'ratio':>8}")
    with tempfile.TemporaryDirectory() as here:
        document, inputs, absent = (os.path.join(here, name) for name in ("document.json", "inputs.json", "absent.json"))
        for kinds, file, given, ending in ((DOCUMENTS, document, absent, b"fault: input\n"), (INPUTS, inputs, inputs, b"fault: work\n")):
            for name, kind in kinds.items():
                if wanted and not any(it in name for it in wanted):
                    continue
                put(json.dumps(tool()).encode(), document)
                put(b"{}", inputs)
                line, is_fast = row(name, kind, file, [program, "run", "--work", here, document, given], ending)
                print(line, flush=True)
                fast, count = fast + is_fast, count + 1
    print(f"{fast} of {count} kinds grow by more than {MOST_GROWTH} for twice the bytes")


if __name__ == "__main__":
    main()
