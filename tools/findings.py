"""What a look finds, for tools/why: each thing with what is told of it, and whether it is in the way of a run."""
from __future__ import annotations

from dataclasses import dataclass, field

import names

MOST_ALIKE = 20


@dataclass
class Finding:
    """One thing: its kind, a line, the lines below it, and for programs what it is about."""

    kind: str
    line: str
    is_in_the_way: bool = False
    below: list[str] = field(default_factory=list)
    facts: dict = field(default_factory=dict)

    def lines(self):
        yield f"in the way: {self.line}" if self.is_in_the_way else self.line
        yield from (f"    {line}" for line in self.below)

    def tree(self):
        return {"kind": self.kind, "in_the_way": self.is_in_the_way, "told": [self.line, *self.below], **self.facts}


def in_the_way(kind, line, /, *below, **facts):
    return Finding(kind, line, True, [it for it in below if it], facts)


def note(kind, line, /, *below, **facts):
    return Finding(kind, line, False, [it for it in below if it], facts)


def verdict(found):
    count = sum(it.is_in_the_way for it in found)
    return "nothing in the way" if not count else f"{names.counted(count, 'thing')} in the way"


def text(found):
    """The lines of all that was found. Of very many things of one kind the first are told, and how many more there are."""
    counts = {}
    for it in found:
        counts[it.kind, it.is_in_the_way] = counts.get((it.kind, it.is_in_the_way), 0) + 1
    told = {}
    for it in found:
        key = it.kind, it.is_in_the_way
        told[key] = told.get(key, 0) + 1
        if told[key] <= MOST_ALIKE:
            yield from it.lines()
        elif told[key] == counts[key]:
            yield f"and {counts[key] - MOST_ALIKE} more of this kind ({it.kind}): --json tells all of them"
    yield verdict(found)


def tree(found, **more):
    return {**more, "findings": [it.tree() for it in found], "verdict": verdict(found)}
