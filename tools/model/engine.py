"""A run by one worker: the tasks in the plan's order, over a store."""
import json
from dataclasses import dataclass, field

from .faults import FailedAtWork
from .plan import Plan, plan_of
from .record import written
from .store import UNREADABLE, Store, file_name, pieces
from .tables import uses_of
from .transformations import Declined, apply, digest_of, refuse_tools, tools_of
from .words import printed, some


class Failed(Exception):
    """A task that failed: the words of its entry, and those of the outcome."""

    def __init__(self, entry, outcome):
        super().__init__(outcome)
        self.entry = entry
        self.outcome = outcome

    def may_pass(self):
        """Whether the host or the tool failed: what was tried may go well another time."""
        return self.entry.split(" ")[0] in ("hostfailed", "toolfailed")


@dataclass
class Engine:
    plan: Plan
    tools: list
    store: Store
    failing_runs: set
    runs: dict = field(default_factory=dict)
    worker: int = 0
    record: list = field(default_factory=list)
    again: dict = field(default_factory=dict)
    arrived: dict = field(default_factory=dict)

    def name(self, file):
        return self.plan.files[file]

    def site(self, number):
        return self.plan.sites[number]

    # What a task comes to

    def host(self, task, did, sizes=()):
        if not did:
            raise Failed(" ".join(["hostfailed", *map(str, sizes)]), f"host {task}")

    def publish(self, task, site, file, data, sizes=()):
        self.host(task, self.store.call(), sizes)
        self.store.scratch[self.site(site), self.name(file)] = data
        self.store.trace.append(f"publish {printed(self.site(site))} {printed(self.name(file))} {len(data)}")

    def read(self, number, site, file):
        self.host(number, self.store.call())
        return self.store.scratch[self.site(site), self.name(file)]

    def replica(self, number, task):
        file = task.moved[0]
        self.host(number, self.store.call())
        name, declared = printed(self.name(file)), self.plan.sizes[file]
        data = self.store.replicas.get(task.pfn)
        self.host(number, data is not UNREADABLE)
        if data is None:
            raise Failed("absent", f"absent {name} {printed(task.pfn)}")
        if len(data) > declared:
            raise Failed(f"toolong {len(data)}", f"replica {name} {declared} {len(data)}")
        return data

    def compare(self, file, data):
        wanted, got = self.plan.sums.get(file), digest_of(data)
        if wanted not in (None, got):
            raise Failed(f"checksum {got}", f"checksum {printed(self.name(file))} {wanted} {got}")

    def part(self, number, made, nth):
        """The nth read or append of what a call opened or made."""
        self.host(number, (made, nth) not in self.store.failing_parts)

    def move(self, number, task):
        file = task.moved[0]
        data = self.read(number, *task.reads[0]) if task.reads else self.replica(number, task)
        opened = self.store.calls
        self.host(number, self.store.call())
        draft = self.store.calls
        for nth in range(1, pieces(data) + 1):
            self.part(number, opened, nth)
            self.part(number, draft, nth)
        self.part(number, opened, pieces(data) + 1)
        if not task.reads:
            self.compare(file, data)
        if task.writes:
            self.publish(number, *task.writes[0], data)
        else:
            self.host(number, self.store.call())
            self.store.delivered[self.name(file)] = data
            self.store.trace.append(f"deliver {printed(self.name(file))} {len(data)}")
            self.arrived[file] = data
        return f"arrive {self.worker} {number} {len(data)}"

    def compute(self, task, held):
        for place in task.jobs:
            job = self.plan.workflow.jobs[place]
            self.runs[self.worker] = self.runs.get(self.worker, 0) + 1
            if self.runs[self.worker] in self.failing_runs:
                raise Failed(f"toolfailed {place}", f"tool {printed(job.id)}")
            try:
                made = apply(self.tools[place], job.arguments, [held[file] for file in job.inputs], len(job.outputs))
            except Declined:
                raise Failed(f"declined {place}", f"declined {printed(job.id)}") from None
            held.update(zip(job.outputs, made))

    def refuse_long(self, task, held):
        for _, file in task.writes:
            declared, length, job = self.plan.sizes[file], len(held[file]), self.plan.makers[file]
            if length > declared:
                words = f"{printed(self.plan.workflow.jobs[job].id)} {printed(self.name(file))} {declared} {length}"
                raise Failed(f"oversize {job} {file} {length}", f"oversize {words}")

    def run(self, number, task):
        held, opened, drafts = {}, [], []
        for site, file in task.reads:
            held[file] = self.read(number, site, file)
            opened.append((self.store.calls, held[file]))
        for _ in task.writes:
            self.host(number, self.store.call())
            drafts.append(self.store.calls)
        for made, data in opened:
            for nth in range(1, pieces(data) + 2):
                self.part(number, made, nth)
        self.compute(task, held)
        self.refuse_long(task, held)
        for made in drafts:
            self.part(number, made, 1)
        sizes = []
        for site, file in task.writes:
            self.publish(number, site, file, held[file], sizes)
            sizes.append(len(held[file]))
        return " ".join(["end", str(self.worker), str(number), *map(str, sizes)])

    def remove(self, number, task):
        site, file = task.removes
        self.host(number, self.store.call())
        del self.store.scratch[self.site(site), self.name(file)]
        self.store.trace.append(f"remove {printed(self.site(site))} {printed(self.name(file))}")
        return f"clean {self.worker} {number}"

    def do(self, number):
        """Does a task, and gives the entry that it ends with."""
        task = self.plan.tasks[number]
        return (self.remove if task.removes else self.run if task.jobs else self.move)(number, task)

    # The run

    def enter(self, entry):
        self.record.append(entry)

    def is_ended(self, number, is_begun=False):
        """One attempt of a task, and whether it ended. It may be tried again as often as the policy allows; a failure for good
        is raised."""
        if not (is_begun or self.plan.tasks[number].removes):
            self.enter(f"grant {self.worker} {number}")
        try:
            self.enter(self.do(number))
        except Failed as failed:
            is_last = self.again.get(number, 0) == self.plan.policy.retries or not failed.may_pass()
            self.enter(f"{'fail' if is_last else 'again'} {self.worker} {number} {failed.entry}")
            if is_last:
                raise
            self.again[number] = self.again.get(number, 0) + 1
            return False
        return True

    def look(self):
        """Each site that the plan uses has to be empty; else the fault."""
        used = {site for task in self.plan.tasks for site, _ in task.reads + task.writes}
        for site in sorted(used):
            if not self.store.call():
                return "host -"
            if any(at == self.site(site) for at, _ in self.store.scratch):
                return f"scratch {printed(self.site(site))}"
        return None

    def tasks(self):
        for number in self.plan.order:
            # One that failed is begun anew at once: its inputs are read and its outputs written from the start.
            while not self.is_ended(number):
                pass

    def work(self):
        """The fault with which the run ends, if there is one."""
        fault = self.look()
        try:
            if fault is None:
                self.tasks()
        except Failed as failed:
            return failed.outcome
        return fault

    def text(self, fault):
        lines = written(self.record)
        for file, data in sorted(self.arrived.items()):
            lines.append(f"delivered {printed(self.name(file))} {len(data)} {digest_of(data)}")
        return lines + [f"failed {fault}" if fault else "done"]

    def ended(self):
        """Runs, and gives the status and the lines."""
        fault = self.work()
        return (FailedAtWork.status if fault else 0), self.text(fault)


def engine_of(survey, store, failing_runs=frozenset(), kind=Engine):
    """An engine over the plan of the documents, or a refusal: of planning, or of the first job's tool that isn't known."""
    plan = plan_of(survey)
    tools = tools_of(survey.request, plan.workflow)
    refuse_tools(plan.workflow, tools, plan.planned.kept)
    return kind(plan, tools, store, set(failing_runs))


def catalogue(workflow, store):
    """The line that `produce` prints of a run that is done: what was delivered with its flag, in order."""
    outputs = [use for job in workflow["jobs"] for use in uses_of(job) if use["type"] == "output"]
    flagged = {use["lfn"] for use in outputs if some(use.get("registerReplica"), True)}
    entries = []
    for name in filter(flagged.__contains__, store.delivered):
        pfn = {"pfn": f"output/{file_name(name)}", "site": "local"}
        entries.append({"checksum": {"sha256": digest_of(store.delivered[name])}, "lfn": name, "pfns": [pfn]})
    return json.dumps({"pegasus": "5.0", "replicas": entries}, ensure_ascii=False, separators=(",", ":"))
