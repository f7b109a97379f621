"""Whether a plan's tasks can be ordered within the bounds, and within which ones they could, for tools/why."""
from __future__ import annotations

import endings
import look_jobs
import names
from findings import in_the_way
from model.faults import Exceeds
from model.order import make_order
from model.tables import MOST_BOUND
from model.tasks import OUT

plain = names.plain
# What the search for a bound may cost: orders that are made, times tasks.
MOST_STEPS = 60_000


def ordered(plan, bounds):
    """The order within these bounds, or nothing and what passes them."""
    try:
        return make_order(plan, bounds), None
    except Exceeds as fault:
        return None, fault


def exceeded(plan, bounds):
    """What passes these bounds, or nothing where there is an order."""
    return ordered(plan, bounds)[1]


def needed(plan, place):
    """What a place holds at least in any order: all that one task reads and makes there, or all that is delivered."""
    if place == OUT:
        return sum(plan.sizes[file] for task in plan.tasks if task.is_delivery() for file in task.moved)
    pairs = ({pair for pair in task.reads + task.writes if pair[0] == place} for task in plan.tasks)
    return max((sum(plan.sizes[file] for _, file in them) for them in pairs), default=0)


class Search:
    """The least bounds under which there is an order, each searched by halves while the others stay. No order has to be there
    below a bound that has one, nor above it, so what is found is one that is enough."""

    def __init__(self, plan):
        self.plan, self.bounds = plan, dict(plan.bounds)
        self.left = MOST_STEPS // max(1, len(plan.tasks))
        self.whole, self.least = True, True

    def exceeded(self, bounds):
        self.left -= 1
        return exceeded(self.plan, bounds)

    def raised(self):
        """The places whose bounds have to be raised, once each is as great as all files are, if that is enough."""
        most = min(MOST_BOUND, sum(self.plan.sizes[file] for task in self.plan.tasks for file in task.moved))
        found = []
        while (over := self.exceeded(self.bounds)) is not None:
            if over.place in found or self.left <= 0:
                return None
            found.append(over.place)
            self.bounds[over.place] = max(most, self.bounds[over.place])
        return found

    def lower(self, place):
        """Lowers a bound that is enough: to the most that its order holds, and then for as long as its half of what is left is."""
        self.left -= 1
        high = ordered(self.plan, self.bounds)[0].peak[place]
        low = max(self.plan.bounds[place], needed(self.plan, place) - 1)
        self.bounds[place] = high
        while high - low > 1 and self.left > 0:
            middle = (low + high) // 2
            if self.exceeded({**self.bounds, place: middle}) is None:
                high = middle
            else:
                low = middle
        self.whole = self.whole and high - low <= 1
        self.least = self.least and high == needed(self.plan, place)
        self.bounds[place] = high

    def told(self):
        if self.least:
            return "and no lesser one is"
        return "the least that was found by halves" if self.whole else "and it was searched no further"


def found_bounds(plan):
    """The places and bounds that are enough, and how far they were searched; or nothing."""
    search = Search(plan)
    places = search.raised()
    if places is None:
        return None
    for place in places:
        search.lower(place)
    return {place: search.bounds[place] for place in places}, search.told()


def place_named(plan, place):
    return "the output" if place == OUT else plain(plan.sites[place])


def told_bounds(plan, found):
    if found is None:
        return "no bound was found that is enough"
    bounds, how = found
    said = " and ".join(f"{bound} for {place_named(plan, place)}" for place, bound in bounds.items())
    return f"a bound of {said} is enough, {how}"


def files_of(plan, files):
    return names.listed((f"{plain(plan.files[file])} ({plan.sizes[file]})" for file in files), 6)


def told_task(plan, number):
    """A task by its jobs and files, with the declared sizes of these."""
    task = plan.tasks[number]
    if task.jobs:
        jobs = names.listed(look_jobs.titled(plan.workflow.jobs[place]) for place in task.jobs)
        return f"task {number} runs {jobs}: it reads {files_of(plan, [file for _, file in task.reads])} and makes {files_of(plan, task.moved)}"
    where = f"to {plain(plan.sites[task.site])}" if task.writes else "to the output"
    return f"task {number} moves {files_of(plan, task.moved)} {where}"


def of_order(plan):
    """That the tasks can't be ordered within the bounds, and within which ones they could. Else the plan has its order."""
    made, fault = ordered(plan, plan.bounds)
    if fault is None:
        plan.put_order(made)
        return
    line = fault.told()
    _, _, needed, bound = str(fault).split(" ")
    found = found_bounds(plan)
    facts = {"bounds": [{"site": plan.name_of(place), "bound": least} for place, least in found[0].items()]} if found else {}
    yield in_the_way("bound", line, f"{place_named(plan, fault.place)} would hold {needed} bytes with this task, and may hold {bound}",
                     told_task(plan, fault.task), told_bounds(plan, found), endings.advice(line), line=line, task=fault.task,
                     jobs=[plan.workflow.jobs[it].id for it in plan.tasks[fault.task].jobs], **facts)
