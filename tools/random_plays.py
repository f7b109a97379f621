"""Records of runs that nobody ran, for tools/random-workflows: by up to sixteen workers in any order, with attempts that fail and
grants under fresh orders, each entry one that the rules allow after those before it.
"""
from __future__ import annotations

from model.book import State
from model.judge import WORKERS
from model.record import TRIED_AGAIN, written


class Play:
    """A record as it grows, entry by entry."""

    def __init__(self, chance, plan):
        self.chance, self.plan = chance, plan
        self.state, self.entries = State(plan), []
        self.workers = chance.some(map(str, range(WORKERS)), 1, chance.choice((1, 2, 4, 16)))
        self.failing = chance.choice((0, 0, 0.05, 0.2))

    def enter(self, *words):
        entry = [str(word) for word in words]
        assert self.state.enter(entry), entry
        self.entries.append(" ".join(entry))

    def running(self):
        """The tasks that are under way, each with its worker."""
        return [(number, worker) for number, worker in self.state.runs.items() if worker is not None]

    def idle(self):
        busy = {worker for _, worker in self.running()}
        return [worker for worker in self.workers if worker not in busy]

    def size(self, good):
        """Mostly as long as was declared, or shorter."""
        declared = self.state.declared(good)
        return declared if self.chance.is_so(0.5) else self.chance.randint(0, declared)

    def causes(self, task):
        """Those that may come of a task."""
        yield ["hostfailed"]
        if task.kind == "run":
            job = self.chance.choice(task.jobs)
            yield from (["toolfailed", job], ["declined", job])
            yield ["hostfailed", *(self.size(good) for good in task.writes[:self.chance.randint(0, len(task.writes))])]
        if task.pfn is not None:
            yield from (["absent"], ["toolong", self.plan.sizes[task.moved[0]] + 1])

    def fail(self, number, worker):
        cause = self.chance.choice(list(self.causes(self.plan.tasks[number])))
        may_pass = cause[0] in TRIED_AGAIN and not self.state.has_failed
        is_again = may_pass and self.state.tried.get(number, 0) < self.plan.policy.retries
        self.enter("again" if is_again else "fail", worker, number, *cause)

    def end(self):
        """One of the tasks that are under way ends, or fails."""
        number, worker = self.chance.choice(self.running())
        task = self.plan.tasks[number]
        if self.chance.is_so(self.failing):
            self.fail(number, worker)
        else:
            self.enter("end" if task.kind == "run" else "arrive", worker, number, *(self.size(good) for good in task.goods()))

    def begin(self, number, kind):
        """A worker that has nothing to do begins what may begin next."""
        worker = self.chance.choice(self.idle())
        if self.plan.tasks[number].kind != "clean":
            self.enter(kind, worker, number)
        elif self.chance.is_so(self.failing / 2):
            self.fail(number, worker)
        else:
            self.enter("clean", worker, number)

    def next(self):
        """What may begin, if anything may and there is a worker for it."""
        if not self.idle() or self.state.has_failed:
            return None
        number = self.state.choice()
        if number is not None:
            return number, "grant"
        found = self.state.fresh()
        return None if found is None else (found[0], "regrant")

    def step(self):
        """Whether something was entered."""
        found = self.next()
        if found and (not self.running() or self.chance.is_so(0.6)):
            self.begin(*found)
        elif self.running():
            self.end()
        else:
            return False
        return True

    def text(self):
        return "".join(f"{line}\n" for line in written(self.entries))


def played(chance, plan):
    """A record of a plan, whole or as far as it came."""
    play = Play(chance, plan)
    most = 10**6 if chance.is_so(0.6) else chance.randint(0, 2 * len(plan.tasks))
    while most > 0 and play.step():
        most -= 1
    return play
