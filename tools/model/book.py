"""What a record means: which entry is allowed after those before it, and what is held and left to do then."""
import math
from dataclasses import dataclass, field

from .order import Ordering, used_of
from .plan import Plan
from .record import TRIED_AGAIN
from .tasks import OUT


@dataclass
class State:
    """What the entries so far come to. What is held is reserved from its writer's first grant on, whatever fails, and
    stored from the writer's end until it is removed; what was delivered is held for good. What a plan's text doesn't say isn't
    judged of a plan that was read."""

    plan: Plan
    rest: list = None
    held: dict = field(default_factory=dict)
    runs: dict = field(default_factory=dict)
    ended: set = field(default_factory=set)
    tried: dict = field(default_factory=dict)
    has_failed: bool = False

    def __post_init__(self):
        self.rest = list(self.plan.order) if self.rest is None else self.rest

    def declared(self, good):
        return self.plan.sizes[good[1]]

    def is_within(self, held):
        """Whether what is held is within every bound."""
        used = used_of(held)
        return all(used.get(place, 0) <= bound for place, bound in self.plan.bounds.items())

    def with_goods(self, held, number):
        """What is held once a task has its room."""
        return {**held, **{good: self.declared(good) for good in self.plan.tasks[number].goods()}}

    def fits(self, held, rest, begun):
        """Whether these tasks, one after the other, keep each bound, each after its parents."""
        if not self.is_within(held):
            return False
        held, used, before = dict(held), used_of(held), set(begun)
        for number in rest:
            task = self.plan.tasks[number]
            if not before.issuperset(task.after):
                return False
            before.add(number)
            for good in task.goods():
                used[good[0]] = used.get(good[0], 0) + self.declared(good) - held.get(good, 0)
                held[good] = self.declared(good)
            if task.removes:
                used[task.site] = used.get(task.site, 0) - held.pop(task.removes, 0)
            if used.get(task.site, 0) > self.plan.bounds.get(task.site, math.inf):
                return False
        return True

    def may_begin(self, number):
        task = self.plan.tasks[number]
        if not self.ended.issuperset(task.after):
            return False
        held = self.with_goods(self.held, number)
        held.pop(task.removes, None)
        begun = self.ended | set(self.runs) | {number}
        return self.fits(held, [other for other in self.rest if other != number], begun)

    def choice(self):
        """The task that may begin next, if there is one."""
        if self.has_failed:
            return None
        return next((number for number in self.rest if self.may_begin(number)), None)

    def fresh(self):
        """Where nothing else may begin, the task that may begin under an order of its own and that order, if there is one."""
        if not self.plan.policy.fresh or self.has_failed or self.choice() is not None:
            return None
        ready = [number for number in self.rest if self.ended.issuperset(self.plan.tasks[number].after)
                 and self.is_within(self.with_goods(self.held, number))]
        orders = ((number, self.order_with(number)) for number in ready[:4])
        return next(((number, order) for number, order in orders if order is not None), None)

    def order_with(self, number):
        """The order of all other tasks that wait, while this one runs, or nothing."""
        left = [other for other in self.rest if other != number]
        made = Ordering(self.plan, left=left, held=self.with_goods(self.held, number))
        return made.order if made.is_whole() else None

    def stored(self):
        """What stands at the sites, by site and then by file, with its length."""
        writers = {pair: number for number, task in enumerate(self.plan.tasks) for pair in task.writes}
        return {pair: self.held[pair] for pair in sorted(it for it in self.held if it[0] != OUT) if writers[pair] in self.ended}

    # Failures

    def is_cause(self, task, words):
        """Whether these words of a failure fit the task, and the sizes that were published before it."""
        kind, *more = words
        if kind in ("hostfailed", "memory"):
            sizes = [int(word) for word in more]
            is_few = task.kind == "run" and len(sizes) <= len(task.writes)
            return not sizes or is_few and all(size <= self.declared(pair) for size, pair in zip(sizes, task.writes))
        if kind in ("absent", "checksum", "toolong"):
            return task.pfn is not None and self.is_of_source(task, kind, more)
        if kind == "oversize":
            job, made, length = (int(word) for word in more)
            is_written = task.kind == "run" and job in task.jobs and (task.site, made) in task.writes
            is_maker = self.plan.makers is None or self.plan.makers.get(made) == job
            return is_written and is_maker and length > self.plan.sizes[made]
        return kind in ("declined", "toolfailed") and task.kind == "run" and int(more[0]) in task.jobs

    def is_of_source(self, task, kind, more):
        """Whether what is told of a transfer's source may be: a length that is too great, or another digest."""
        if kind == "toolong":
            return int(more[0]) > self.plan.sizes[task.moved[0]]
        return kind == "absent" or self.plan.sums is None or self.plan.sums.get(task.moved[0], more[0]) != more[0]

    def fail(self, kind, number, worker, cause):
        """A failure for good, or one after which the task is tried again: it stands in front then. What a task has reserved
        stays so."""
        task, tried = self.plan.tasks[number], self.tried.get(number, 0)
        is_open = self.runs.get(number) == worker
        is_choice = task.kind == "clean" and self.choice() == number
        if not (is_open or is_choice) or not self.is_cause(task, cause):
            return False
        may_pass = cause[0] in TRIED_AGAIN and not self.has_failed
        if kind == "fail":
            if may_pass and tried != self.plan.policy.retries:
                return False
            self.has_failed = True
            if is_open:
                # It stays reserved, and is open no more.
                self.runs[number] = None
            return True
        if not may_pass or tried >= self.plan.policy.retries:
            return False
        self.tried[number] = tried + 1
        self.runs.pop(number, None)
        self.rest = [number, *(other for other in self.rest if other != number)]
        return True

    # Beginnings and ends

    def grant(self, number, worker):
        self.rest.remove(number)
        self.held = self.with_goods(self.held, number)
        self.runs[number] = worker
        return True

    def begin(self, kind, number, worker):
        """A grant or a removal of what may begin next, or a grant under a fresh order."""
        task = self.plan.tasks[number]
        if (task.kind == "clean") != (kind == "clean"):
            return False
        if kind == "regrant":
            return self.regrant(number, worker)
        if self.choice() != number:
            return False
        if kind == "grant":
            return self.grant(number, worker)
        self.rest.remove(number)
        self.ended.add(number)
        self.held.pop(task.removes, None)
        return True

    def regrant(self, number, worker):
        found = self.fresh()
        if found is None or found[0] != number:
            return False
        self.rest = [number, *found[1]]
        return self.grant(number, worker)

    def close(self, kind, number, worker, sizes):
        """The end of a transfer or a run, with the sizes of what it brought."""
        task = self.plan.tasks[number]
        goods, expected = task.goods(), {"arrive": "transfer", "end": "run"}[kind]
        if self.runs.get(number) != worker or task.kind != expected or len(sizes) != len(goods):
            return False
        if any(size > self.declared(good) for size, good in zip(sizes, goods)):
            return False
        del self.runs[number]
        self.ended.add(number)
        self.held.update(zip(goods, sizes))
        return True

    def enter(self, words):
        """Goes on by an entry, or tells that it isn't allowed."""
        kind, worker, number, *more = words
        number = int(number)
        if number >= len(self.plan.tasks):
            return False
        if kind in ("grant", "regrant", "clean"):
            return self.begin(kind, number, worker)
        if kind in ("fail", "again"):
            return self.fail(kind, number, worker, more)
        return self.close(kind, number, worker, [int(word) for word in more])
