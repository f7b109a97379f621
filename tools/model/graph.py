"""The graph of jobs: which waits for which, in which order they can be done, and which of them are kept."""
from dataclasses import dataclass

from .faults import Refused
from .words import printed


def producers(workflow):
    makers = {}
    for number, job in enumerate(workflow.jobs):
        for file in job.outputs:
            makers.setdefault(file, []).append(number)
    for file in sorted(makers):
        if len(makers[file]) > 1:
            ids = [workflow.jobs[job].id for job in makers[file][:2]]
            raise Refused("producers " + " ".join(map(printed, [workflow.files[file], *ids])))
    return {file: jobs[0] for file, jobs in makers.items()}


def children_of(workflow, producer):
    children = [set() for _ in workflow.jobs]
    for number, job in enumerate(workflow.jobs):
        for file in job.inputs:
            if file in producer:
                children[producer[file]].add(number)
    for first, second in workflow.pairs:
        children[first].add(second)
    return children


def distances(children, goal):
    """The number of edges of the shortest way to the goal, of each from where there is one."""
    parents = [{at for at, below in enumerate(children) if here in below} for here in range(len(children))]
    found, front = {goal: 0}, [goal]
    for here in front:
        for parent in sorted(parents[here]):
            if parent not in found:
                found[parent] = found[here] + 1
                front.append(parent)
    return found


def first_cycle(children):
    """The shortest way back to the least that reaches itself, of equals by the least numbers; or nothing."""
    if len(in_order(children)) == len(children):
        return []
    for start, below in enumerate(children):
        distance = distances(children, start) if below else {}
        back = [child for child in below if child in distance]
        if not back:
            continue
        cycle, here = [start], min(back, key=lambda child: (distance[child], child))
        while here != start:
            cycle.append(here)
            here = min(child for child in children[here] if distance.get(child) == distance[here] - 1)
        return cycle
    return []


def in_order(children):
    """Each after its parents; one of a cycle, or after one, not at all."""
    waits = [0] * len(children)
    for below in children:
        for child in below:
            waits[child] += 1
    order = [at for at, count in enumerate(waits) if count == 0]
    for here in order:
        for child in sorted(children[here]):
            waits[child] -= 1
            if waits[child] == 0:
                order.append(child)
    return order


def kept_jobs(workflow, order, registered, force):
    """A job is kept for an output that isn't registered and is requested, or is an input of a kept job."""
    wanted, kept = set(workflow.requested), [False] * len(workflow.jobs)
    for number in reversed(order):
        job = workflow.jobs[number]
        kept[number] = any(file in wanted and (force or file not in registered) for file in job.outputs)
        if kept[number]:
            wanted.update(job.inputs)
    return kept


@dataclass
class Graph:
    """The children of each job, the jobs in order, and which of them are kept."""

    children: list
    order: list
    kept: list

    def levels(self):
        level = [0] * len(self.children)
        for number in self.order:
            for child in self.children[number]:
                if self.kept[number] and self.kept[child]:
                    level[child] = max(level[child], level[number] + 1)
        return level

    def ranked(self, level):
        """The kept jobs by their levels and then by their places."""
        return sorted((at for at, is_kept in enumerate(self.kept) if is_kept), key=lambda at: (level[at], at))


def graph_of(said, request):
    workflow = said.workflow
    children = children_of(workflow, producers(workflow))
    cycle = first_cycle(children)
    if cycle:
        raise Refused("cycle " + " ".join(printed(workflow.jobs[number].id) for number in cycle))
    order = in_order(children)
    return Graph(children, order, kept_jobs(workflow, order, said.places, request.get("force") is True))
