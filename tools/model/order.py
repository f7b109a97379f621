"""The order of tasks that wait, made step by step from what is held: of a plan's, or afresh of those that a run has left."""
import math

from .faults import Exceeds
from .words import printed


def used_of(held):
    """How much is held at each place."""
    used = {}
    for (place, _), size in held.items():
        used[place] = used.get(place, 0) + size
    return used


class Ordering:
    """An order as it is made, and what the places hold after it. What is held is so by place and file, with its size."""

    def __init__(self, plan, bounds=None, left=None, held=()):
        self.tasks, self.sizes, self.bounds = plan.tasks, plan.sizes, plan.bounds if bounds is None else bounds
        self.held, self.order = dict(held), []
        self.used, self.peak = used_of(self.held), {}
        left = set(range(len(self.tasks)) if left is None else left)
        self.waits = {number: sum(parent in left for parent in self.tasks[number].after) for number in left}
        self.ready = {number for number, count in self.waits.items() if count == 0}
        self.children = {number: [] for number in left}
        for number in sorted(left):
            for parent in self.tasks[number].after:
                if parent in left:
                    self.children[parent].append(number)

    def needed(self, number):
        """What the place to which a task brings something would hold then."""
        task = self.tasks[number]
        return self.used.get(task.site, 0) + sum(self.sizes[good[1]] - self.held.get(good, 0) for good in task.goods())

    def fits(self, number):
        task = self.tasks[number]
        return not task.goods() or self.needed(number) <= self.bounds.get(task.site, math.inf)

    def score(self, number):
        """What it adds at a site once what it lets go is counted."""
        freed = [self.tasks[child].removes for child in self.children[number] if self.waits[child] == 1]
        added = sum(self.sizes[good[1]] for good in self.tasks[number].writes if good not in self.held)
        return added - sum(self.held.get(pair, self.sizes[pair[1]]) for pair in freed if pair)

    def place(self, number):
        task = self.tasks[number]
        self.used[task.site] = self.needed(number)
        self.held.update((good, self.sizes[good[1]]) for good in task.goods())
        if task.removes:
            self.used[task.site] -= self.held.pop(task.removes, 0)
        self.peak[task.site] = max(self.peak.get(task.site, 0), self.used[task.site])
        self.order.append(number)
        self.ready.remove(number)
        for child in self.children[number]:
            self.waits[child] -= 1
            if self.waits[child] == 0:
                self.ready.add(child)

    def next(self):
        """A ready removal, else of the ready tasks that fit the one that adds the least, if one fits."""
        cleans = [number for number in self.ready if self.tasks[number].removes]
        if cleans:
            return min(cleans)
        fitting = [number for number in self.ready if self.fits(number)]
        return min(fitting, key=lambda number: (self.score(number), number), default=None)

    def is_whole(self):
        """Goes on as far as tasks fit, and tells whether that is to the end."""
        while (number := self.next()) is not None:
            self.place(number)
        return len(self.order) == len(self.waits)


def make_order(plan, bounds=None):
    """The order of a plan's tasks, within its bounds or others."""
    made = Ordering(plan, bounds)
    if not made.is_whole():
        first = min(made.ready)
        place = plan.tasks[first].site
        raise Exceeds(f"{printed(plan.name_of(place))} {first} {made.needed(first)} {made.bounds[place]}", place, first)
    return made
