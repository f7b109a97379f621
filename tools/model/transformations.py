"""The twelve transformations of texts, the tools of jobs."""
import hashlib

from .faults import Refused
from .words import printed, some

TOOLS = ("text", "join", "take", "drop", "deal", "sorted", "distinct", "count", "holds", "column", "total", "digest")


class Declined(Exception):
    """Of these inputs and arguments a tool makes nothing."""


def lines_of(data):
    return data.decode("latin-1").split("\n")[:-1] if data.endswith(b"\n") or not data else data.decode("latin-1").split("\n")


def joined(lines):
    return "".join(line + "\n" for line in lines).encode("latin-1")


def number(words, place):
    if place >= len(words) or not 1 <= len(words[place]) <= 18 or not all(c in "0123456789" for c in words[place]):
        raise Declined
    return int(words[place])


def total(lines):
    return str(sum(number([line], 0) for line in lines)).encode() + b"\n"


def holding(words, lines):
    if not words or not words[0]:
        raise Declined
    text = words[0].encode().decode("latin-1")
    return joined(line for line in lines if text in line)


def column(words, lines):
    place = number(words, 0)
    if place == 0:
        raise Declined
    pieces = [line.split("\t") for line in lines]
    return joined(line[place - 1] if place <= len(line) else "" for line in pieces)


def text_of(words, inputs):
    if inputs:
        raise Declined
    return " ".join(words).encode() + b"\n"


def make_one(tool, words, inputs):
    whole = b"".join(inputs)
    lines = lines_of(whole)
    makers = {
        "text": lambda: text_of(words, inputs),
        "join": lambda: whole,
        "take": lambda: joined(lines[:number(words, 0)]),
        "drop": lambda: joined(lines[number(words, 0):]),
        "sorted": lambda: joined(sorted(lines)),
        "distinct": lambda: joined(dict.fromkeys(lines)),
        "count": lambda: f"{len(lines)} {len(whole)}\n".encode(),
        "holds": lambda: holding(words, lines),
        "column": lambda: column(words, lines),
        "total": lambda: total(lines),
        "digest": lambda: hashlib.sha256(whole).hexdigest().encode() + b"\n",
    }
    return makers[tool]()


def apply(tool, words, inputs, outs):
    """What a tool makes: one file, but for `deal`, which deals the lines to all of its outputs."""
    if tool == "deal":
        if not outs:
            raise Declined
        lines = lines_of(b"".join(inputs))
        return [joined(lines[place::outs]) for place in range(outs)]
    if outs != 1:
        raise Declined
    return [make_one(tool, words, inputs)]


def digest_of(data):
    return hashlib.sha256(data).hexdigest()


def tools_of(request, workflow):
    """The tool of each job: the one that the request names for its transformation, else the one of that name."""
    stated = some(request.get("tools"), {})
    return [stated.get(job.transformation[1], job.transformation[1]) for job in workflow.jobs]


def unknown_tools(tools, kept=None):
    """The jobs, or the kept ones, whose tool is none of the twelve."""
    return [place for place, tool in enumerate(tools) if (kept is None or kept[place]) and tool not in TOOLS]


def refuse_tools(workflow, tools, kept=None):
    for place in unknown_tools(tools, kept):
        raise Refused(f"tool {printed(workflow.jobs[place].id)} {printed(tools[place])}")
