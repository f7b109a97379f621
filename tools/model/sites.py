"""Where each kept job runs: in turns over the sites that have its transformation, or by a list schedule."""
from dataclasses import dataclass

from .faults import Refused
from .words import printed, some
from .workflow import declared_sizes


def has_transformation(entry, site):
    places = some(entry.get("sites"), [])
    return any(place["type"] == "stageable" or place["name"] == site for place in places)


def candidates_of(job, entries, names):
    """The sites that have a job's transformation, and of these none but that to which it is pinned."""
    if job.pinned is not None and job.pinned not in names:
        raise Refused(f"site {printed(job.id)} {printed(job.pinned)}")
    entry = entries.get(job.transformation, {})
    candidates = [at for at, name in enumerate(names)
                  if has_transformation(entry, name) and job.pinned in (None, name)]
    if not candidates:
        raise Refused(f"transformation {printed(job.id)}")
    return candidates


def names_of(request):
    return [site["site"] for site in request["execute"]]


def in_turns(said, request, ranked):
    """Kept jobs take turns at the sites that have their transformation."""
    site, names = [None] * len(said.workflow.jobs), names_of(request)
    for turn, number in enumerate(ranked):
        candidates = candidates_of(said.workflow.jobs[number], said.entries, names)
        site[number] = candidates[turn % len(candidates)]
    return site


# The list schedule


@dataclass
class Schedule:
    order: list
    site: list
    start: list
    finish: list

    def lines(self, workflow):
        """The text of `schedule`."""
        return [*(f"job {at} {printed(workflow.jobs[at].id)} site {self.site[at]} {self.start[at]} {self.finish[at]}"
                  for at in self.order), "done"]


class Estimates:
    """What the kept jobs' schedule is made by: where each can run, for how long, and what a move takes, in seconds."""

    def __init__(self, said, request, kept):
        self.workflow, self.rate = said.workflow, some(request.get("rate"), 1)
        self.names, self.runtimes = names_of(request), some(request.get("runtimes"), [])
        self.sizes = declared_sizes(self.workflow, request)
        self.candidates = {number: candidates_of(job, said.entries, self.names)
                           for number, job in enumerate(self.workflow.jobs) if kept[number]}

    def time(self, number, site):
        """Of the entries for a transformation's name and a site the first one holds."""
        wanted = self.workflow.jobs[number].transformation[1], self.names[site]
        found = [it["seconds"] for it in self.runtimes if (it["transformation"], it["site"]) == wanted]
        return found[0] if found else 1

    def cost(self, number):
        candidates = self.candidates[number]
        return sum(self.time(number, site) for site in candidates) // len(candidates)

    def move(self, first, second):
        moved = set(self.workflow.jobs[first].outputs) & set(self.workflow.jobs[second].inputs)
        return -(-sum(some(self.sizes[file], 0) for file in moved) // self.rate)


def upward_ranks(graph, estimates):
    rank = [0] * len(graph.kept)
    for number in reversed(graph.order):
        if graph.kept[number]:
            below = [estimates.move(number, child) + rank[child] for child in graph.children[number] if graph.kept[child]]
            rank[number] = estimates.cost(number) + max(below, default=0)
    return rank


def make_schedule(said, request, graph):
    """The kept jobs by falling rank and then by number, each where it is finished first, of equals at the first site."""
    estimates = Estimates(said, request, graph.kept)
    rank, jobs = upward_ranks(graph, estimates), range(len(graph.kept))
    ordered = sorted((at for at in jobs if graph.kept[at]), key=lambda at: (-rank[at], at))
    made = Schedule(ordered, [None] * len(jobs), [0] * len(jobs), [0] * len(jobs))
    free = [0] * len(estimates.names)
    for number in ordered:
        parents = [at for at in jobs if graph.kept[at] and number in graph.children[at]]
        slots = []
        for site in estimates.candidates[number]:
            come = [made.finish[at] + (made.site[at] != site and estimates.move(at, number)) for at in parents]
            start = max([free[site], *come])
            slots.append((start + estimates.time(number, site), start, site))
        made.finish[number], made.start[number], made.site[number] = min(slots, key=lambda slot: slot[0])
        free[made.site[number]] = made.finish[number]
    return made
