#!/usr/bin/env python3
"""Prints a job graph in the lines of a certificate, the same one each time.

usage: generate.py SHAPE COSTS JOBS

SHAPE   chain: each job reads the one before it
        tree: each job but the first reads one job, drawn from all that come before it
        layers: 32 jobs a layer, each of which reads eight of the layer before
        scatter: no job reads another one, and each is needed
        stairs: a graph made to be hard, with paths that go up and down among half of the jobs (COSTS is not looked at)
COSTS   even: drawn from the whole range, each cost as likely as another
        decades: each number of digits as likely as another
        first: those of a first run: no job can be loaded, and to compute one costs 1000
        third: those of a run for which a third of the rows is absent: a job in three, drawn, is as in a first run; the
        others take a thousandth to a thousand seconds to compute, and their files up to a GB to load
But in stairs, and in runs, a job in eight has no load cost. Needed are the last job, or the last layer, or the leaves of
a tree, or each job of a scatter, and but in runs one job in sixteen besides. No plan is given: each job is marked P, and
each charge is 0.
"""

import sys

HIGHEST = 10**12
WIDTH = 32
RUNS = ("first", "third")


class Numbers:
    """A row of numbers, each a linear function of the one before it, without what is over 64 bits."""

    def __init__(self, seed):
        self.state = seed

    def below(self, limit):
        high = self.step() >> 32
        return (high << 32 | self.step() >> 32) % limit

    def step(self):
        self.state = (self.state * 6364136223846793005 + 1442695040888963407) % 2**64
        return self.state


def parents_of(shape, job, numbers):
    if shape == "chain":
        return [job - 1] if job else []
    if shape == "tree":
        return [numbers.below(job)] if job else []
    start = (job // WIDTH - 1) * WIDTH
    if shape == "scatter" or start < 0:
        return []
    drawn = set()
    while len(drawn) < 8:
        drawn.add(start + numbers.below(WIDTH))
    return sorted(drawn)


def costs_of(costs, numbers):
    """What it costs to load a job, or None, and to compute it."""
    if costs == "first" or costs == "third" and numbers.below(3) == 0:
        return None, 1000
    if costs == "third":
        return 1 + 10 ** numbers.below(10) // 100_000, 10 ** numbers.below(7)
    load = None if numbers.below(8) == 0 else cost_of(costs, 0, numbers)
    return load, cost_of(costs, 1, numbers)


def cost_of(costs, lowest, numbers):
    highest = HIGHEST if costs == "even" else 10 ** (1 + numbers.below(12))
    return lowest + numbers.below(highest - lowest + 1)


def is_needed(shape, job, jobs, read):
    if shape == "tree" or shape == "scatter":
        return job not in read
    return job >= jobs - (WIDTH if shape == "layers" else 1)


def drawn(shape, costs, jobs):
    """The jobs of a graph with drawn costs: (needed, load, compute, parents) each."""
    numbers = Numbers(jobs)
    parents = [parents_of(shape, job, numbers) for job in range(jobs)]
    read = {parent for row in parents for parent in row}
    for job, row in enumerate(parents):
        load, compute = costs_of(costs, numbers)
        also = costs not in RUNS and numbers.below(16) == 0
        yield also or is_needed(shape, job, jobs, read), load, compute, row


def stairs(jobs):
    """A quarter of the jobs are steps, from the top down; the next quarter but one job are landings, each of which
    reads two steps and fills the higher one. What the other jobs send to the topmost step has to go by each landing
    to the last step. The landings' numbers turn at each step."""
    steps = jobs // 4
    first_landing = jobs - steps + 1
    middle = first_landing + (steps - 1) // 2
    reads = {}
    for i in range(steps - 1):
        landing = middle - i // 2 if i % 2 == 0 else middle + 1 + i // 2
        reads[landing] = [steps - 2 - i, steps - 1 - i]
    much = 10**6
    for job in range(jobs):
        if job < steps:
            yield False, None, much if job == 0 else much - 1, []
        elif job < first_landing:
            yield True, 2, 1, [steps - 1]
        else:
            yield True, much, 1, reads[job]


def main(shape, costs, jobs):
    print(f"cwl-plan 1\njobs {jobs}")
    for needed, load, compute, parents in stairs(jobs) if shape == "stairs" else drawn(shape, costs, jobs):
        passes = "".join(f" {parent} 0" for parent in parents)
        print(f"P {int(needed)} {'-' if load is None else load} {compute} 0 0 0 {len(parents)}{passes}")
    print("end")


main(sys.argv[1], sys.argv[2], int(sys.argv[3]))
