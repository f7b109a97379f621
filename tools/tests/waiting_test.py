"""Those who wait for the lock (crates/ruled_lock/src/queue.rt, news.rt), step by step, in every order of their steps.

No clause says that one who waits is ever woken, so here a model of these two files is looked at in each state that it can
come to: there is none in which somebody hasn't ended and nobody can go on. That the models would show it is seen by leaving
steps out: each one that is left out gets them stuck.
"""
from dataclasses import dataclass, replace


def stuck(start, steps, has_ended):
    """A state that some order of steps leads to, in which somebody hasn't ended and nobody can go on; None where there is none."""
    seen, left = {start}, [start]
    while left:
        state = left.pop()
        following = list(steps(state))
        if not following and not has_ended(state):
            return state
        left += {it for it in following if it not in seen}
        seen.update(following)
    return None


# The turn


@dataclass(frozen=True)
class Turn:
    """The turn, the words of the queue, and of each worker what it does next, the calls that it saw and its turns to come."""

    workers: tuple
    is_free: bool = True
    looking: int = 0
    asleep: int = 0
    called: bool = False
    calls: int = 0

    def moved(self, number, step, saw=0, turns=None, **words):
        left = self.workers[number][2] if turns is None else turns
        workers = list(self.workers)
        workers[number] = (step, saw, left)
        # Workers are alike, so only how many are at each step matters.
        return replace(self, workers=tuple(sorted(workers)), **words)


def look(it, number, found, taken):
    return it.moved(number, taken, is_free=False) if it.is_free else it.moved(number, found, it.workers[number][1])


def woken(it, number):
    """After a call: one of those who sleep wakes, if there is one."""
    sleepers = {worker: at for at, worker in enumerate(it.workers) if worker[0] == "sleeps"}
    if not sleepers:
        yield it.moved(number, "gave")
    for worker, at in sleepers.items():
        workers = [other for place, other in enumerate(it.workers) if place not in (at, number)]
        both = [("wakes", 0, worker[2]), ("gave", 0, it.workers[number][2])]
        yield replace(it, workers=tuple(sorted([*workers, *both])))


# What a worker does at each step, and what it does next.
TAKING = {
    "comes": lambda it, n, saw: [look(it, n, "begins to look", "has the turn")],
    "begins to look": lambda it, n, saw: [it.moved(n, "looks", looking=it.looking + 1)],
    "looks": lambda it, n, saw: [look(it, n, "has looked", "found it free")],
    "has looked": lambda it, n, saw: [it.moved(n, "looks"), it.moved(n, "lies down", asleep=it.asleep + 1)],
    "lies down": lambda it, n, saw: [it.moved(n, "heeds no call", it.calls)],
    "heeds no call": lambda it, n, saw: [it.moved(n, "looks away", saw, called=False)],
    "looks away": lambda it, n, saw: [it.moved(n, "looks once more", saw, looking=it.looking - 1)],
    "looks once more": lambda it, n, saw: [look(it, n, "falls asleep", "rises with it")],
    "falls asleep": lambda it, n, saw: [it.moved(n, "sleeps", saw) if it.calls == saw else it.moved(n, "wakes")],
    "sleeps": lambda it, n, saw: [],
    "wakes": lambda it, n, saw: [it.moved(n, "looks round", looking=it.looking + 1)],
    "looks round": lambda it, n, saw: [it.moved(n, "rises", called=False)],
    "rises": lambda it, n, saw: [it.moved(n, "looks", asleep=it.asleep - 1)],
    "found it free": lambda it, n, saw: [it.moved(n, "has the turn", looking=it.looking - 1)],
    "rises with it": lambda it, n, saw: [it.moved(n, "has risen", called=False)],
    "has risen": lambda it, n, saw: [it.moved(n, "has the turn", asleep=it.asleep - 1)],
}
GIVING = {
    "has the turn": lambda it, n, saw: [it.moved(n, "gives", turns=it.workers[n][2] - 1, is_free=True)],
    "gives": lambda it, n, saw: [it.moved(n, "gave" if it.looking else "sees none look")],
    "sees none look": lambda it, n, saw: [it.moved(n, "would call" if it.asleep else "gave")],
    "would call": lambda it, n, saw: [it.moved(n, "gave" if it.called else "calls", called=True)],
    "calls": lambda it, n, saw: [it.moved(n, "wakes one", calls=it.calls + 1)],
    "wakes one": lambda it, n, saw: woken(it, n),
    "gave": lambda it, n, saw: [it.moved(n, "comes" if it.workers[n][2] else "has ended")],
    "has ended": lambda it, n, saw: [],
}
TURN = TAKING | GIVING


def steps_of(table):
    def steps(it):
        for number, (step, saw, _) in enumerate(it.workers):
            yield from table[step](it, number, saw)

    return steps


def turn_stuck(table, workers, turns):
    start = Turn(tuple(("comes", 0, turns) for _ in range(workers)))
    return stuck(start, steps_of(table), lambda it: all(step == "has ended" for step, _, _ in it.workers))


# The news


@dataclass(frozen=True)
class News:
    """Tasks that may begin, run and have ended; the turns with news; of each worker what it does next and what it has heard."""

    workers: tuple
    ready: int = 1
    ended: int = 0
    turns: int = 0
    asleep: int = 0

    def moved(self, number, step, heard=0, **words):
        workers = list(self.workers)
        workers[number] = (step, heard)
        return replace(self, workers=tuple(sorted(workers)), **words)

    def with_woken(self, number, step, least):
        """One worker goes on, and others that sleep wake: one of them, or all."""
        sleepers = [at for at, worker in enumerate(self.workers) if worker[0] == "sleeps"]
        for chosen in [sleepers] if least == "all" or not sleepers else [[it] for it in sleepers]:
            workers = [("hears", it[1]) if at in chosen else it for at, it in enumerate(self.workers)]
            workers[number] = (step, 0)
            yield replace(self, workers=tuple(sorted(workers)))


def news_steps(after, wakes):
    """By how many tasks may begin after so many have ended, and by what wakes others."""
    total = sum(after)

    def lease(it, number):
        if it.ended == total:
            return it.moved(number, "saw the end")
        if it.ready:
            return it.moved(number, "began", ready=it.ready - 1, turns=it.turns + 1)
        return it.moved(number, "found nothing", it.turns)

    def of(it, number, step, heard):
        match step:
            case "leases":
                yield lease(it, number)
            case "began" | "saw the end":
                following, least = ("works", "one") if step == "began" else ("has ended", "all")
                wake = it.asleep and step in wakes
                yield from it.with_woken(number, following, least) if wake else [it.moved(number, following)]
            case "works":
                ended = it.ended + 1
                yield it.moved(number, "leases", ready=it.ready + after[ended] if ended < len(after) else it.ready, ended=ended, turns=it.turns + 1)
            case "found nothing":
                yield it.moved(number, "hears", heard, asleep=it.asleep + 1)
            case "hears":
                heard_more = it.turns != heard
                yield it.moved(number, "leases", asleep=it.asleep - 1) if heard_more else it.moved(number, "sleeps", heard)

    def steps(it):
        for number, (step, heard) in enumerate(it.workers):
            yield from of(it, number, step, heard)

    return steps


def news_stuck(after, workers, wakes=("began", "saw the end")):
    start = News(tuple(("leases", 0) for _ in range(workers)), ready=after[0])
    return stuck(start, news_steps(after, wakes), lambda it: all(step == "has ended" for step, _ in it.workers))


# What gets them stuck, each left out or done too soon.
FAULTS = {
    "nobody is called": {"sees none look": lambda it, n, saw: [it.moved(n, "gave")]},
    "one who wakes leaves the call standing": {"looks round": lambda it, n, saw: [it.moved(n, "rises")]},
    "one who lies down doesn't look once more": {"looks once more": lambda it, n, saw: [it.moved(n, "falls asleep", saw)]},
    "one who falls asleep heeds no call": {"falls asleep": lambda it, n, saw: [it.moved(n, "sleeps", saw)]},
    "calls are counted after they are heeded": {
        "lies down": lambda it, n, saw: [it.moved(n, "heeds no call", called=False)],
        "heeds no call": lambda it, n, saw: [it.moved(n, "looks away", it.calls)],
    },
}
# How many tasks may begin when none, one, two and so on have ended.
SHAPES = [[1, 1, 1], [1, 3, 0, 0], [2, 0, 1, 2, 0], [4, 0, 0, 0]]


def main():
    for workers, turns in [(2, 3), (3, 2)]:
        assert turn_stuck(TURN, workers, turns) is None, (workers, turns)
    for fault, other in FAULTS.items():
        assert turn_stuck(TURN | other, 2, 3) or turn_stuck(TURN | other, 3, 3), fault
    for shape in SHAPES:
        for workers in (2, 3, 4):
            assert news_stuck(shape, workers) is None, (shape, workers)
    # A worker that began a task need not wake another one for all to end; then fewer work beside each other.
    assert all(news_stuck(shape, 3, ("saw the end",)) is None for shape in SHAPES)
    assert any(news_stuck(shape, 3, ("began",)) for shape in SHAPES), "nobody is woken at the end"
    print(f"waiting: ok, of {len(FAULTS) + 1} faults each gets them stuck")


main()
