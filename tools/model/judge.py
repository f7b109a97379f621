"""Verdicts on records, and their sums."""
from dataclasses import dataclass, field

from .book import State
from .order import used_of
from .record import read_record

# As many workers as a run may have.
WORKERS = 16


@dataclass
class Sums:
    """What the entries of a record come to."""

    peaks: list
    counts: dict = field(default_factory=lambda: dict.fromkeys(["grant", "arrive", "end", "clean", "fail", "again"], 0))
    moved: int = 0

    def add(self, words, held):
        self.counts["grant" if words[0] == "regrant" else words[0]] += 1
        if words[0] == "arrive":
            self.moved += int(words[3])
        used = used_of(held)
        self.peaks = [max(most, used.get(site, 0)) for site, most in enumerate(self.peaks)]

    def lines(self):
        told = {kind: count for kind, count in self.counts.items() if count or kind != "again"}
        lines = [f"{kind}s {count}" for kind, count in told.items()] + [f"moved {self.moved}"]
        return lines + [f"peak {site} {most}" for site, most in enumerate(self.peaks)]


def judged(plan, entries, workers=WORKERS):
    """The verdict on a record, and its sums up to where it is legal: `complete` where each entry is allowed after those before
    it and all tasks have ended with no failure, `legal` where each is allowed, else the number, from 1, of the first that
    isn't."""
    state, sums = State(plan), Sums([0] * len(plan.sites))
    for place, words in enumerate(entries, 1):
        if int(words[1]) >= workers or not state.enter(words):
            return f"illegal {place}", sums
        if not state.is_within(state.held):
            return f"over its bound {place}", sums
        sums.add(words, state.held)
    is_whole = len(state.ended) == len(plan.tasks) and not state.has_failed
    return "complete" if is_whole else "legal", sums


def verdict(plan, text, workers=WORKERS):
    """The verdict on the record within a run's text."""
    return judged(plan, read_record(text.encode()), workers)[0]


def told(command, plan, data, workers=WORKERS):
    """The status and the lines of `audit` or `stat`, where planning has no fault."""
    found, sums = judged(plan, read_record(data), workers)
    lines = sums.lines() if command == "stat" and not found.startswith("illegal") else []
    return 0, [f"verdict {found}", *lines, "done"]
