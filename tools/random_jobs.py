"""Jobs and files of random workflows, for tools/random-workflows: which tools there are, over which files, and what these hold.
"""
from __future__ import annotations

import random
from dataclasses import dataclass

from model.transformations import TOOLS, Declined, apply

ODD = ("a b", "x/y", ".hidden", "50%", "\u00e9", "..", 'a"b', "tab\there", "%41", "-", "x.", "sites", "\u4e16/..", "~", "a\\b",
       "line\nfeed", "\U0001f600", "\u007f")
WORDS = ("fig", "apple", "banana", "kiwi", "pear", "an", "\u00e9t\u00e9", "fig", "0", "7", "x y")


class Chance(random.Random):
    """Random numbers, with the questions that are asked here."""

    def is_so(self, share):
        return self.random() < share

    def some(self, values, least, most):
        """So many of the values, each once, in a random order."""
        found = list(values)
        return self.sample(found, min(len(found), self.randint(least, most)))

    def text(self):
        return " ".join(self.choices(WORDS, k=self.randint(0, 3)))


@dataclass
class File:
    """A file of a workflow; what it holds is known unless a job on its way makes nothing."""

    name: str
    data: bytes | None
    is_made: bool
    is_read: bool = False
    size: int = 0
    stated: str = "default"


# What files hold


def lines(chance):
    made = "\n".join(chance.text() for _ in range(chance.randint(0, 6)))
    return (made + "\n" * chance.is_so(0.8)).encode()


def numbers(chance):
    return "".join(f"{chance.randint(0, 10**chance.randint(1, 17))}\n" for _ in range(chance.randint(0, 4))).encode()


def columns(chance):
    return "".join("\t".join(chance.choices(WORDS, k=chance.randint(1, 4))) + "\n" for _ in range(chance.randint(1, 5))).encode()


def long(chance):
    """Longer than the pieces in which files are moved."""
    return (columns(chance) * 70_000)[: 65_536 * chance.randint(1, 2) + chance.randint(-1, 1)]


def content(chance):
    if chance.is_so(0.004):
        return long(chance)
    return chance.choices((lines, numbers, columns, lambda it: it.randbytes(it.randint(0, 30))), (5, 3, 3, 1))[0](chance)


# A workflow


class Workflow:
    """The jobs and files of a workflow as it is made, each job after those that make what it reads."""

    def __init__(self, chance, prefix):
        self.chance, self.prefix = chance, prefix
        self.is_odd = chance.is_so(0.2)
        self.files, self.jobs, self.tools = [], [], {}
        self.names = {}

    def name(self, word, share=0.4):
        """A name that is there once, now and then an odd one."""
        number = self.names[word] = self.names.get(word, -1) + 1
        odd = self.chance.choice(ODD) if self.is_odd and self.chance.is_so(share) else ""
        return f"{odd}{word}{number}"

    def add_base(self):
        self.files.append(File(self.name("b"), content(self.chance), is_made=False))

    def arguments(self, tool):
        """Such as the tool needs, and now and then others."""
        chance = self.chance
        if chance.is_so(0.02):
            return chance.choice(([], ["x"], [""], ["-1"], [10**18], ["1" * 19], [-5]))
        made = {
            "text": lambda: [chance.choice((chance.text(), chance.randint(-9, 99), "12")) for _ in range(chance.randint(0, 3))],
            "take": lambda: [chance.choice((chance.randint(0, 4), str(chance.randint(0, 4)), "003", "9" * 18))],
            "drop": lambda: [chance.choice((chance.randint(0, 3), "0", "1"))],
            "holds": lambda: [chance.choice(("an", "fig", "\u00e9", "\t", "7"))],
            "column": lambda: [chance.randint(1, 3)],
        }.get(tool, list)()
        return made + ["more"] * (tool != "text" and chance.is_so(0.1))

    def inputs(self, tool):
        if tool == "text" and not self.chance.is_so(0.02):
            return []
        least = 0 if self.chance.is_so(0.05) else 1
        late = self.files[-6:] if self.chance.is_so(0.6) else self.files
        return self.chance.some(late, least, 3)

    def outputs(self, tool):
        if self.chance.is_so(0.01):
            return self.chance.choice((0, 2))
        return self.chance.randint(1, 3) if tool == "deal" else 1

    def drawn(self):
        """A tool with its arguments, inputs, the number of its outputs and what they hold, if that is anything."""
        tool = self.chance.choice(TOOLS)
        arguments, inputs, count = self.arguments(tool), self.inputs(tool), self.outputs(tool)
        if any(file.data is None for file in inputs):
            return tool, arguments, inputs, [None] * count
        try:
            made = apply(tool, [str(it) for it in arguments], [file.data for file in inputs], count)
        except Declined:
            made = None
        return tool, arguments, inputs, made if made is not None else [None] * count

    def add_job(self):
        """One that makes something, but for a few."""
        for _ in range(8):
            tool, arguments, inputs, made = self.drawn()
            if all(data is not None and len(data) < 300_000 for data in made) or self.chance.is_so(0.01):
                break
        else:
            tool, arguments, inputs, made = "text", ["word"], [], [b"word\n"]
        outputs = [File(self.name("f"), data, is_made=True) for data in made]
        for file in inputs:
            file.is_read = True
        self.files += outputs
        self.jobs.append({"tool": tool, "arguments": arguments, "inputs": inputs, "outputs": outputs})


def grown(chance, prefix, most, least=1):
    """So many jobs at most, over a few files that none of them makes."""
    made = Workflow(chance, prefix)
    for _ in range(chance.randint(0, 4)):
        made.add_base()
    for _ in range(chance.randint(least, most) if chance.is_so(0.99) else 0):
        made.add_job()
    return made
