#!/usr/bin/env python3
"""Writes rows of the call `unfold_orders`, and what walk.py says of them: a line of either for each row.

usage: orders.py SEED LEVELS WORKFLOWS ROOM STDIN STDOUT

LEVELS is how many orders there are in which the jobs of a workflow of three levels end, each of them scattered, ten orders a row.
WORKFLOWS is how many generated workflows there are, of at most sixty jobs each, whose jobs end in one order; ROOM is how many
bytes their documents have at most, but for a few. Those of `orders.py 1 200 300 820` stand in crates/tests. It prints what the
rows have in them.
"""

import collections
import json
import random
import sys

import generate
import walk

MOST = 60
ORDERS = 10


def compact(written):
    return json.dumps(written, separators=(",", ":"))


def short(value):
    """Returns a value as the rows have it."""
    if isinstance(value, walk.File):
        if value.kind == "Directory":
            return f"{value.name}/" + ("" if value.inner is None else short(value.inner))
        return value.name + (f"+{short(value.inner)}" if value.inner else "")
    if isinstance(value, list):
        return f"[{','.join(map(short, value))}]"
    if isinstance(value, dict):
        return "{" + ",".join(f"{name}:{short(it)}" for name, it in sorted(value.items())) + "}"
    return walk.canonical(value)


def outputs_of(end, place):
    """Returns the outputs that an end of a row stands for."""

    def output(written):
        if isinstance(written, str):
            return walk.value_of({"class": "File", "basename": written}, place)
        return [output(it) for it in written] if isinstance(written, list) else walk.value_of(written, place)

    if isinstance(end, int):
        return {"o": output(f"f{end}")}
    return {name: output(it) for name, it in zip("op", end[1:])}


def fault_told(fault):
    return f'"{fault[0]}","{fault[1]}"'


def word(place, inputs, parents):
    """Returns what is told of a job that has become known."""
    return place[len("main") :] + short(inputs) + "".join(f"<{it}" for it in parents)


class Order:
    """The ends of jobs in one order, and what they make known."""

    def __init__(self, document, inputs, unfolding=walk.Unfolding):
        self.of = unfolding(walk.process_of(document), walk.value_of(inputs))
        self.ends, self.needed, self.told, self.words = [], [], [], {}
        self.put(self.of.look(), "")

    def put(self, new, fault):
        """Adds what a look made known, or what a learn answered before the graph did."""
        if new is None:
            self.told.append((fault and fault + ",") + fault_told(self.of.fault))
            return
        words = [word(place, inputs, self.of.parents[place]) for place, inputs in new.items()]
        self.words.update(zip(new, words))
        now = self.of.needed()
        for number, (was, it) in enumerate(zip(self.needed + [True] * len(new), now)):
            if was != it:
                words.append(f"{'+' if it else '-'}{number}")
        self.needed = now
        if self.of.result() is not None:
            words.append(short(self.of.result()))
        self.told.append(",".join(words))

    def learn(self, end):
        self.ends.append(end)
        if self.of.fault:
            self.put(None, fault_told(self.of.fault))
            return
        number = end if isinstance(end, int) else end[0]
        new = self.of.learn(number, outputs_of(end, self.of.known[number]))
        self.put(new, fault_told(self.of.fault) if new is None else "")

    def open(self):
        return [number for number, place in enumerate(self.of.known) if place not in self.of.ended]

    def text(self):
        return "[" + ",".join(f"[{it}]" for it in self.told) + "]"


def ran(order, choose, end_of, again=lambda: False, most=MOST):
    """Lets jobs end as they are chosen, and returns the order; after a fault one more end is tried, of a job that may have ended.

    Where `again` says so, a job is learned once more with another output, which changes nothing.
    """
    while order.open() and len(order.of.known) <= most:
        if order.ends and again():
            order.learn([order.ends[0] if isinstance(order.ends[0], int) else order.ends[0][0], "other"])
        is_last = order.of.fault is not None
        number = choose([*range(len(order.of.known))] if is_last else order.open())
        order.learn(end_of(number, order.of.tools[order.of.known[number]]))
        if is_last:
            break
    return order


def chooser(numbers, kind):
    """Returns how the next job to end is chosen among the open ones."""
    if kind == "first":
        return lambda there: there[0]
    if kind == "last":
        return lambda there: there[-1]
    if kind == "mixed":
        return lambda there: numbers.choice([there[0], there[-1], numbers.choice(there)])
    return numbers.choice


def row(name, document, inputs, orders):
    told = {"row": name, "call": "unfold_orders", "document": document, "inputs": inputs, "orders": [it.ends for it in orders]}
    return compact(told), f"{name} [{','.join(it.text() for it in orders)}]"


def levels(numbers, count):
    """Yields the rows of the workflow of three levels."""
    document, inputs = generate.THREE_LEVELS
    kinds = ["first", "last"]
    for start in range(0, count, ORDERS):
        orders = []
        for number in range(start, min(start + ORDERS, count)):
            choose = chooser(numbers, kinds[number] if number < 2 else numbers.choice(["any", "any", "mixed"]))
            orders.append(ran(Order(document, inputs), choose, lambda it, _: it))
        yield row(f"three-levels-{start}", document, inputs, orders), orders


def workflows(numbers, count, room):
    """Yields the rows of generated workflows."""
    number = 0
    while number < count:
        document, inputs = generate.workflow(numbers)
        text = compact(document)
        if len(text) > room and numbers.random() < 0.97 or numbers.random() > 0.15 + 0.3 * sum(it in text for it in generate.WORDS):
            continue
        choose = chooser(numbers, numbers.choice(["first", "last", "mixed", "any", "any", "any"]))
        order = ran(Order(document, inputs), choose, lambda it, tool: generate.end_of(numbers, it, tool[1:]), lambda: numbers.random() < 0.01)
        if is_wanted(numbers, order):
            yield row(f"workflow-{number}", document, inputs, [order]), [order]
            number += 1


def is_wanted(numbers, order):
    """Says whether a row tells enough: most that have few jobs, or a fault, don't."""
    count = len(order.of.known)
    share = 0.05 if count < 2 else 0.3 if count < 5 or order.of.fault else 1
    return count <= MOST and numbers.random() < share


def main(seed, level_count, workflow_count, room, stdin, stdout):
    numbers, found = random.Random(int(seed)), collections.Counter()
    with open(stdin, "w") as asked, open(stdout, "w") as answered:
        for rows in (levels(numbers, int(level_count)), workflows(numbers, int(workflow_count), int(room))):
            for (question, answer), orders in rows:
                asked.write(f"{question}\n")
                answered.write(f"{answer}\n")
                found["bytes"] += len(question) + len(answer) + 2
                for order in orders:
                    found["orders"] += 1
                    found["jobs"] += len(order.of.known)
                    found["most jobs"] = max(found["most jobs"], len(order.of.known))
                    found["fault " + order.of.fault[1].split()[0] if order.of.fault else "with a result"] += 1
                for word in generate.WORDS:
                    found[f"rows with {word}"] += word in question
    for name in sorted(found):
        print(f"{name}: {found[name]}")


if __name__ == "__main__":
    if len(sys.argv) != 7:
        sys.exit(__doc__)
    main(*sys.argv[1:])
