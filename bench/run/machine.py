"""Asks the program of test_runs how long the machine takes over runs of many jobs, and prints two tables.

usage: machine.py PROGRAM [jobs|growth]      one of the tables

The first: each run is measured in a process of its own, three times where that takes under half a minute; the table has the medians. 'run' and 'unfolding' are microseconds for each job,
'share' says which part of the run the unfolding is, 'memory' the peak of the process in MB, 'json' how long Python's json takes to read
the row, in microseconds for each job.

The second: workflows of six shapes of about 256, 1,024, 4,096 and 16,384 jobs, or 250, 1,000 and 4,000, with four slots. It has the microseconds of the run for each job, how many
times as long the run takes as that with a fourth of the jobs, and the peak of the memory in kB for each job. A run that would take over ten minutes, if it
took sixteen times as long as the one before, is left out. Needs Python 3.8 or later.
"""

import json
import statistics
import subprocess
import sys
import tempfile
import time


def tool(inputs):
    """Returns a tool that leaves one file."""
    return {"class": "CommandLineTool", "baseCommand": "true", "inputs": inputs, "outputs": {"o": {"type": "File", "outputBinding": {"glob": "o"}}}}


def workflow(inputs, outputs, steps):
    return {"cwlVersion": "v1.2", "class": "Workflow", "requirements": {"ScatterFeatureRequirement": {}}, "inputs": inputs, "outputs": outputs, "steps": steps}


def chain(count):
    """Returns a chain of so many steps, each of which takes the file of the one before."""
    steps = {"s0": {"in": {}, "out": ["o"], "run": tool({})}}
    for number in range(1, count):
        steps[f"s{number}"] = {"in": {"f": f"s{number - 1}/o"}, "out": ["o"], "run": tool({"f": "File"})}
    return workflow({}, {"o": {"type": "File", "outputSource": f"s{count - 1}/o"}}, steps), {}


def scatter(count):
    step = {"in": {"n": "n"}, "out": ["o"], "scatter": "n", "run": tool({"n": "int"})}
    return workflow({"n": "int[]"}, {"o": {"type": "File[]", "outputSource": "s/o"}}, {"s": step}), {"n": list(range(count))}


def two_scatters(count):
    """Returns a scatter over so many numbers that feeds one over its files."""
    first = {"in": {"n": "n"}, "out": ["o"], "scatter": "n", "run": tool({"n": "int"})}
    then = {"in": {"f": "s/o"}, "out": ["o"], "scatter": "f", "run": tool({"f": "File"})}
    return workflow({"n": "int[]"}, {"o": {"type": "File[]", "outputSource": "t/o"}}, {"s": first, "t": then}), {"n": list(range(count))}


def of_many_files(count):
    """Returns so many jobs that each take an array of as many files."""
    step = {"in": {"n": "n", "fs": "fs"}, "out": ["o"], "scatter": "n", "run": tool({"n": "int", "fs": "File[]"})}
    files = [{"class": "File", "location": f"f{number}"} for number in range(count)]
    inputs = {"n": list(range(count)), "fs": files}
    return workflow({"n": "int[]", "fs": "File[]"}, {"o": {"type": "File[]", "outputSource": "s/o"}}, {"s": step}), inputs


def of_many_texts(count):
    """Returns so many jobs that each take an array of as many texts."""
    step = {"in": {"n": "n", "texts": "texts"}, "out": ["o"], "scatter": "n", "run": tool({"n": "int", "texts": "string[]"})}
    inputs = {"n": list(range(count)), "texts": [f"t{number}" for number in range(count)]}
    return workflow({"n": "int[]", "texts": "string[]"}, {"o": {"type": "File[]", "outputSource": "s/o"}}, {"s": step}), inputs


RUNS = [
    ("chain of 100", chain(100), 4),
    ("chain of 1,000", chain(1000), 4),
    ("scatter of 1,000", scatter(1000), 4),
    ("scatter of 4,000", scatter(4000), 4),
    ("scatter of 1,000", scatter(1000), 64),
    ("scatter of 4,000", scatter(4000), 64),
    ("scatter of 16,000", scatter(16000), 64),
    ("1,000 that feed 1,000", two_scatters(1000), 4),
    ("200 of 200 files each", of_many_files(200), 4),
    ("800 of 800 texts each", of_many_texts(800), 4),
]


def of_three_steps(count):
    """Returns a scatter over a workflow of three steps."""
    inner, _ = chain(3)
    del inner["cwlVersion"]
    step = {"in": {"n": "n"}, "out": ["o"], "scatter": "n", "run": {**inner, "inputs": {"n": "int"}}}
    document = workflow({"n": "int[]"}, {"o": {"type": "File[]", "outputSource": "s/o"}}, {"s": step})
    document["requirements"]["SubworkflowFeatureRequirement"] = {}
    return document, {"n": list(range(count // 3))}


def merges(count):
    """Returns a tree of steps, each of which merges the files of the four below it."""
    steps, level, depth = {}, [], 0
    for number in range(3 * count // 4):
        steps[f"l{number}"] = {"in": {}, "out": ["o"], "run": tool({})}
        level.append(f"l{number}/o")
    while len(level) > 1:
        groups = [level[at:at + 4] for at in range(0, len(level), 4)]
        level, depth = [], depth + 1
        for number, group in enumerate(groups):
            steps[f"m{depth}x{number}"] = {"in": {"fs": {"source": group, "linkMerge": "merge_flattened"}}, "out": ["o"], "run": tool({"fs": "File[]"})}
            level.append(f"m{depth}x{number}/o")
    document = workflow({}, {"o": {"type": "File", "outputSource": level[0]}}, steps)
    document["requirements"]["MultipleInputFeatureRequirement"] = {}
    return document, {}


def half_when(count):
    """Returns a scatter with `when`, of which every second job is left out: twice as many tuples as jobs."""
    step = {
        "in": {"n": "n", "wanted": "wanted"},
        "out": ["o"],
        "scatter": ["n", "wanted"],
        "scatterMethod": "dotproduct",
        "when": "$(inputs.wanted)",
        "run": tool({"n": "int"}),
    }
    outputs = {"o": {"type": {"type": "array", "items": ["null", "File"]}, "outputSource": "s/o"}}
    return workflow({"n": "int[]", "wanted": "boolean[]"}, outputs, {"s": step}), {"n": list(range(count)), "wanted": [at % 2 == 0 for at in range(count)]}


# The last two have a process for each step, and a document has at most 4,096 of them.
SIZES = (256, 1024, 4096, 16384)
SHAPES = [
    ("scatter", scatter, SIZES),
    ("scatter that feeds one", lambda count: two_scatters(count // 2), SIZES),
    ("scatter of three steps", of_three_steps, SIZES),
    ("`when` over a scatter", half_when, SIZES),
    ("chain", chain, (250, 1000, 4000)),
    ("tree of merges", merges, (250, 1000, 4000)),
]


def peak(child):
    """Returns the peak of a program's memory in kB once it has ended. The system is asked while it runs: what `wait4` tells at its end
    is never below the memory of Python, which started it."""
    most = 0
    while child.poll() is None:
        try:
            with open(f"/proc/{child.pid}/status", encoding="ascii") as status:
                most = max([most, *(int(line.split()[1]) for line in status if line.startswith("VmHWM:"))])
        except (FileNotFoundError, ProcessLookupError):
            pass
        time.sleep(0.002)
    return most


def asked(program, row):
    """Returns what the program answers to a row, and the peak of its memory in MB."""
    with tempfile.TemporaryFile() as given, tempfile.TemporaryFile() as answer:
        given.write(row)
        given.seek(0)
        child = subprocess.Popen([program], stdin=given, stdout=answer)
        most = peak(child)
        answer.seek(0)
        text = answer.read().decode()
        if child.returncode or not text.startswith("r {"):
            sys.exit(f"the program answers {text[:200]!r}, status {child.returncode}")
        return json.loads(text[2:]), most / 1024


def times_of(program, row):
    """Returns what the program answers to a row: three times, or as often as half a minute allows."""
    begun, told = time.monotonic(), []
    while len(told) < 3 and (not told or time.monotonic() - begun < 30):
        told.append(asked(program, row))
    return told


def micros_of_json(row):
    begun = time.perf_counter()
    json.loads(row)
    return (time.perf_counter() - begun) * 1e6


def row_of(document, inputs, slots):
    return json.dumps({"row": "r", "call": "timed", "slots": slots, "document": document, "inputs": inputs}).encode()


def growth(program):
    """Prints how a run's time and memory grow with its jobs."""
    print(f"{'shape':24}{'jobs':>7}{'run':>9}{'times':>8}{'memory':>8}")
    for name, make, sizes in SHAPES:
        last = None
        for count in sizes:
            if last and last * 16 > 600e6:
                print(f"{name:24}{count:7}{'too long':>9}", flush=True)
                break
            told = times_of(program, row_of(*make(count), 4))
            jobs, run = told[0][0]["jobs"], statistics.median(it["run"] for it, _ in told)
            times = f"{run / last:.1f}" if last else "-"
            print(f"{name:24}{jobs:7}{run / jobs:9.1f}{times:>8}{max(it for _, it in told) * 1024 / jobs:8.1f}", flush=True)
            last = run


def by_jobs(program):
    print(f"{'run':24}{'slots':>6}{'jobs':>7}{'run':>9}{'unfolding':>11}{'share':>7}{'memory':>8}{'json':>7}")
    for name, (document, inputs), slots in RUNS:
        row = row_of(document, inputs, slots)
        told = times_of(program, row)
        jobs = told[0][0]["jobs"]
        run, unfolding = (statistics.median(it[key] for it, _ in told) / jobs for key in ("run", "unfolding"))
        memory, read = max(it for _, it in told), statistics.median(micros_of_json(row) for _ in range(3)) / jobs
        print(f"{name:24}{slots:6}{jobs:7}{run:9.1f}{unfolding:11.1f}{unfolding / run:7.0%}{memory:8.0f}{read:7.1f}", flush=True)


def main():
    program, tables = sys.argv[1], sys.argv[2:] or ["jobs", "growth"]
    if "jobs" in tables:
        by_jobs(program)
    if "growth" in tables:
        growth(program)


if __name__ == "__main__":
    main()
