"""What the table of docs/COMMANDS.md says of a line that a call can end with."""
from __future__ import annotations

import re
from dataclasses import dataclass

import beside

PAGE = beside.HERE.parent / "docs" / "COMMANDS.md"
HEADS = ["Line", "Status", "What it means, and what to do"]


@dataclass
class Ending:
    """A row: what its lines look like, and its cells."""

    patterns: list
    status: str
    advice: str

    def literal(self, line):
        """How many words of a line stand in the row as they are, or nothing where the line is another one."""
        fitting = [words for words in self.patterns if fits(words, line.split(" "))]
        return max((sum(not is_any(word) for word in words) for words in fitting), default=None)


def is_any(word):
    """Whether a word stands for what comes there."""
    return word.rstrip(".").isupper() or word == ".."


def fits(words, found):
    """Whether a line's words are those of a pattern: `..`, and what ends so, stands for any number of words."""
    for place, word in enumerate(words):
        if word.endswith(".."):
            return len(found) > place
        if place == len(found) or not is_any(word) and word != found[place]:
            return False
    return len(found) == len(words)


def cells(line):
    return [it.strip() for it in re.split(r"(?<!\\)\|", line.strip().strip("|"))]


def patterns(cell):
    """The lines of a row's first cell, as words. One that begins with two points goes on as the first does."""
    found = [it.split(" ") for it in re.findall("`([^`]*)`", cell)]
    return [[found[0][0], *words[1:]] if words[0] == ".." else words for words in found]


def table(text=None):
    lines = (PAGE.read_text(encoding="utf-8") if text is None else text).splitlines()
    heads = [place for place, line in enumerate(lines) if line.startswith("| ") and cells(line) == HEADS]
    for line in lines[heads[0] + 2:] if heads else []:
        if not line.startswith("| "):
            return
        cell, *more = cells(line)
        if "`" in cell and len(more) == len(HEADS) - 1:
            yield Ending(patterns(cell), *more)


def ending_of(line):
    """The row of a line, of several the one that has most of its words; or nothing."""
    try:
        found = [(it.literal(line), it) for it in table()]
    except OSError:
        return None
    fitting = [pair for pair in found if pair[0]]
    return max(fitting, key=lambda pair: pair[0])[1] if fitting else None


def told(found):
    return f"docs/COMMANDS.md says: {found.advice}" if found and found.advice else ""


def advice(line):
    """What the page says to do where a call ended with a line, in one line; nothing where it says nothing."""
    return told(ending_of(line))


def advice_of(words):
    """The same for the first words of a line."""
    found = words.split(" ")
    return told(next((it for it in table() if any(pattern[:len(found)] == found for pattern in it.patterns)), None))
