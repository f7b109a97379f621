"""A plan: how it is made of documents, its text, and how that is read."""
from __future__ import annotations

from dataclasses import dataclass, field

from .clusters import Planned, make_clusters
from .faults import OfRecord
from .graph import graph_of
from .order import make_order
from .sites import in_turns, make_schedule, names_of
from .tasks import OUT, Task, add_cleans, add_parents, make_tasks, refuse_tasks, without_size
from .words import listed, name_of, natural, numbers, printed, some
from .workflow import Said, declared_sizes, said


@dataclass
class Policy:
    """How often a task may be tried again, whether orders are made afresh, and the bound of the output if it has one."""

    retries: int = 0
    fresh: bool = False
    output: int | None = None

    def lines(self):
        """What a plan's text says of it: nothing of the plain one."""
        return [] if self == Policy() else [f"policy {self.retries} {int(self.fresh)} {some(self.output, '-')}"]


def policy_of(request):
    return Policy(some(request.get("retries"), 0), some(request.get("fresh"), False), request.get("output_bound"))


@dataclass
class Plan:
    """What the text of a plan says, jobs by their ids, with the bound of each place that has one; and what it doesn't: what the
    documents say, what is known of jobs, the job that makes each file, and the registered checksums."""

    name: str = ""
    jobs: list = field(default_factory=list)
    sites: list = field(default_factory=list)
    files: list = field(default_factory=list)
    sizes: list = field(default_factory=list)
    tasks: list = field(default_factory=list)
    bounds: dict = field(default_factory=dict)
    policy: Policy = field(default_factory=Policy)
    order: list = field(default_factory=list)
    peak: dict = field(default_factory=dict)
    said: Said | None = None
    planned: Planned | None = None
    makers: dict | None = None

    @property
    def workflow(self):
        return self.said.workflow

    @property
    def sums(self):
        return None if self.said is None else self.said.sums

    def name_of(self, place):
        """The name of a place; the output's is empty, which no site has."""
        return "" if place == OUT else self.sites[place]

    def put_order(self, made):
        self.order, self.peak = made.order, made.peak


def jobs_planned(told, request):
    graph = graph_of(told, request)
    level = graph.levels()
    ranked, is_by_schedule = graph.ranked(level), some(request.get("selector"), "roundrobin") == "heft"
    site = make_schedule(told, request, graph).site if is_by_schedule else in_turns(told, request, ranked)
    planned = Planned(graph.kept, ranked, level, site)
    mode = some(request.get("cluster"), "none")
    planned.clusters = make_clusters(told.workflow, planned, graph.children, told.entries, mode)
    return planned


def unordered(request, documents):
    """The plan without its order."""
    told, policy, sites = said(documents), policy_of(request), names_of(request)
    workflow, planned = told.workflow, jobs_planned(told, request)
    sizes, has_cleans = declared_sizes(workflow, request), request.get("cleanup") != "none"
    tasks = make_tasks(workflow, planned, told.places, sites)
    refuse_tasks(workflow, tasks, sizes, has_cleans)
    add_parents(workflow, tasks)
    if has_cleans:
        add_cleans(tasks)
    bounds = dict(enumerate(site["bound"] for site in request["execute"]))
    if policy.output is not None:
        bounds[OUT] = policy.output
    makers = {file: number for number, job in enumerate(workflow.jobs) for file in job.outputs}
    ids = [job.id for job in workflow.jobs]
    return Plan(workflow.name, ids, sites, workflow.files, sizes, tasks, bounds, policy, said=told, planned=planned, makers=makers)


def make_plan(request, documents):
    plan = unordered(request, documents)
    plan.put_order(make_order(plan))
    return plan


def plan_of(survey):
    return make_plan(survey.request, survey.documents)


# The text


def text(plan):
    planned = plan.planned
    lines = ["plan 1", f"workflow {printed(plan.name)}", *plan.policy.lines()]
    lines += [f"site {at} {printed(name)} {plan.bounds[at]}" for at, name in enumerate(plan.sites)]
    lines += [f"file {file} {printed(name)} {some(plan.sizes[file], '-')}" for file, name in enumerate(plan.files)]
    for number, name in enumerate(plan.jobs):
        where = f"site {planned.site[number]}" if planned.kept[number] else "dropped"
        lines.append(f"job {number} {printed(name)} {where}")
    lines += [f"task {at} {task.words()} after {listed(task.after)}" for at, task in enumerate(plan.tasks)]
    lines.append(f"order {listed(plan.order)}")
    return lines + [f"peak {at} {plan.peak.get(at, 0)}" for at in range(len(plan.sites))] + ["closed", "done"]


def read_task(words):
    cut = len(words) - 1 - words[::-1].index("after")
    kind, body, after = words[0], words[1:cut], numbers(words[cut + 1:])
    if kind == "run":
        at, jobs, writes = natural(body[0]), body.index("reads"), body.index("writes")
        read, made = numbers(body[jobs + 1:writes]), numbers(body[writes + 1:])
        pairs = ([(at, file) for file in files] for files in (read, made))
        return Task(kind, at, *pairs, moved=made, jobs=numbers(body[2:jobs]), after=after)
    if kind == "clean":
        site, file = natural(body[1]), natural(body[3])
        return Task(kind, site, removes=(site, file), after=after)
    if kind != "transfer":
        raise ValueError(kind)
    file, (source, where), to = natural(body[0]), body[2:4], OUT if body[-1] == OUT else natural(body[-1])
    reads, writes = [(natural(where), file)] if source == "site" else [], [] if to == OUT else [(to, file)]
    return Task(kind, to, reads, writes, [file], pfn=name_of(where) if source == "pfn" else None, after=after)


def read_line(plan, first, words):
    if first == "workflow":
        plan.name = name_of(words[0])
    elif first == "policy":
        plan.policy = Policy(natural(words[0]), words[1] == "1", None if words[2] == "-" else natural(words[2]))
        if plan.policy.output is not None:
            plan.bounds[OUT] = plan.policy.output
    elif first == "site":
        plan.bounds[len(plan.sites)] = natural(words[2])
        plan.sites.append(name_of(words[1]))
    elif first == "file":
        plan.files.append(name_of(words[1]))
        plan.sizes.append(None if words[2] == "-" else natural(words[2]))
    elif first == "job":
        plan.jobs.append(name_of(words[1]))
    elif first == "task":
        plan.tasks.append(read_task(words[1:]))
    elif first == "order":
        plan.order = numbers(words)


def is_whole(plan):
    """Whether each task is of sites, jobs and files that are there, and the order has each once, after those before it."""
    sites, done = {OUT, *range(len(plan.sites))}, set()
    for task in plan.tasks:
        pairs = [*task.reads, *task.goods(), *([task.removes] if task.removes else [])]
        are_there = all(place in sites and file < len(plan.files) for place, file in pairs)
        if task.site not in sites or not are_there or any(job >= len(plan.jobs) for job in task.jobs):
            return False
    for number in plan.order:
        if number in done or number >= len(plan.tasks) or not done.issuperset(plan.tasks[number].after):
            return False
        done.add(number)
    return len(done) == len(plan.tasks) and not without_size(plan.tasks, plan.sizes)


def read_plan(content):
    """The plan that a text says, up to its line `closed`; or the number of the first line that isn't one of a plan."""
    plan, lines = Plan(), content.split("\n")
    for number, line in enumerate(lines, 1):
        first, *words = line.split(" ")
        if number == 1 and line != "plan 1" or line == "closed" and not is_whole(plan):
            break
        if line == "closed":
            return plan
        try:
            read_line(plan, first, words)
        except (ValueError, IndexError):
            break
    raise OfRecord(f"bad plan {number}")
