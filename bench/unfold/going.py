"""The walk of walk.py for jobs that end one by one: what a walk gave for a step stays until a job inside that step ends.

A step is handed nothing until all that it reads is known, and a known value stays as it is, so only an end inside it changes what it gives.
Whoever uses this looks by walk.py itself now and then, which walks everything anew.
"""

import walk


class Going(walk.Walk):
    """A walk through a process again and again, where `ended` grows meanwhile."""

    def __init__(self, ended):
        super().__init__(ended)
        self.steps, self.instances = {}, {}

    def forget(self, place):
        """Forgets what was given where the job of this place is inside."""
        while place:
            self.instances.pop(place, None)
            self.steps.pop(place.rpartition("[")[0] if place.endswith("]") else place, None)
            place = place.rpartition("/")[0]

    def step(self, step, place, link):
        return self.steps[place] if place in self.steps else super().step(step, place, link)

    def handed(self, step, place, given):
        self.steps[place] = super().handed(step, place, given)
        return self.steps[place]

    def instance(self, step, place, given):
        if place not in self.instances:
            self.instances[place] = super().instance(step, place, given)
        return self.instances[place]


class Unfolding(walk.Unfolding):
    def __init__(self, process, given):
        super().__init__(process, given)
        self.going = Going(self.ended)

    def walked(self):
        return self.going.process(self.process, "main", self.given)

    def learn(self, number, outputs):
        self.going.forget(self.known[number])
        return super().learn(number, outputs)
