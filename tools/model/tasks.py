"""The tasks of a plan: runs of clusters, transfers, deliveries and removals, each after those for which it waits."""
from __future__ import annotations

from dataclasses import dataclass, field

from .faults import Refused
from .words import listed, printed

MOST_TASKS = 120_000
# The output as a place.
OUT = "out"


@dataclass
class Task:
    """What is done at a place: the number of a site, or the output. Reads, writes and what is removed are pairs of a site and a
    file."""

    kind: str
    site: int | str
    reads: list = field(default_factory=list)
    writes: list = field(default_factory=list)
    moved: list = field(default_factory=list)
    jobs: list = field(default_factory=list)
    pfn: str | None = None
    removes: tuple | None = None
    after: list = field(default_factory=list)

    def is_delivery(self):
        return self.site == OUT

    def goods(self):
        """What it brings to where it runs, as pairs of a place and a file: the output for a delivery."""
        return [(OUT, file) for file in self.moved] if self.is_delivery() else self.writes

    def words(self):
        """What it does, as the text of a plan has it."""
        if self.kind == "run":
            read, written = (listed(file for _, file in pairs) for pairs in (self.reads, self.writes))
            return f"run {self.site} jobs {listed(self.jobs)} reads {read} writes {written}"
        if self.kind == "clean":
            return f"clean site {self.removes[0]} file {self.removes[1]}"
        source = f"site {self.reads[0][0]}" if self.reads else f"pfn {printed(self.pfn)}"
        return f"transfer {self.moved[0]} from {source} to {OUT if self.is_delivery() else f'site {self.site}'}"


def make_runs(workflow, planned):
    runs = []
    for cluster in planned.clusters:
        site = planned.site[cluster[0]]
        made = {file for number in cluster for file in workflow.jobs[number].outputs}
        read = {file for number in cluster for file in workflow.jobs[number].inputs} - made
        reads, writes = ([(site, file) for file in sorted(files)] for files in (read, made))
        runs.append(Task("run", site, reads, writes, moved=sorted(made), jobs=cluster))
    return runs


def transfer(file, site_of, places, target, name):
    """The transfer of a file to a place, a site of this name or the output: from where it is made, else from a pfn."""
    writes = [] if target == OUT else [(target, file)]
    if file in site_of:
        return Task("transfer", target, [(site_of[file], file)], writes, moved=[file])
    near = [place["pfn"] for place in places[file] if place["site"] == name] or [places[file][0]["pfn"]]
    return Task("transfer", target, writes=writes, moved=[file], pfn=near[0])


def unregistered(workflow, kept, made, places):
    """The files that a kept job reads and that are neither made nor registered."""
    read = {file for job, is_kept in zip(workflow.jobs, kept) if is_kept for file in job.inputs}
    return [file for file in sorted(read) if file not in made and file not in places]


def make_tasks(workflow, planned, places, names):
    runs = make_runs(workflow, planned)
    site_of = {file: site for run in runs for site, file in run.writes}
    for file in unregistered(workflow, planned.kept, site_of, places):
        raise Refused(f"replica {printed(workflow.files[file])}")
    needed = {(file, site) for run in runs for site, file in run.reads if site_of.get(file) != site}
    moves = [transfer(file, site_of, places, site, names[site]) for file, site in sorted(needed)]
    return runs + moves + [transfer(file, site_of, places, OUT, None) for file in sorted(workflow.requested)]


def without_size(tasks, sizes):
    """The files that are moved or made and have no size."""
    return [file for file in sorted({file for task in tasks for file in task.moved}) if sizes[file] is None]


def refuse_tasks(workflow, tasks, sizes, has_cleans):
    for file in without_size(tasks, sizes):
        raise Refused(f"size {printed(workflow.files[file])}")
    count = len(tasks) + (sum(len(task.writes) for task in tasks) if has_cleans else 0)
    if count > MOST_TASKS:
        raise Refused(f"many tasks {count} {MOST_TASKS}")


def add_parents(workflow, tasks):
    writer = {pair: number for number, task in enumerate(tasks) for pair in task.writes}
    run_of = {job: number for number, task in enumerate(tasks) for job in task.jobs}
    for number, task in enumerate(tasks):
        parents = {writer[pair] for pair in task.reads}
        parents |= {run_of[first] for first, second in workflow.pairs if second in task.jobs and first in run_of}
        task.after = sorted(parents - {number})


def add_cleans(tasks):
    users = {}
    for number, task in enumerate(tasks):
        for pair in task.reads + task.writes:
            users.setdefault(pair, set()).add(number)
    for pair in sorted(users):
        tasks.append(Task("clean", pair[0], removes=pair, after=sorted(users[pair])))
