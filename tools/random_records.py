"""Records that were changed by chance, for tools/random-workflows: some are records still, and some of these are legal."""
from __future__ import annotations

WORDS = ("grant", "regrant", "arrive", "end", "clean", "fail", "again", "closed", "record", "absent", "hostfailed",
         "toolfailed", "declined", "memory", "oversize", "toolong", "checksum", "0", "1", "4294967295", "4294967296",
         "18446744073709551616", "01", "-1", "+1", "1e3", "", "x", "\u00e9", "\t", "\r", "\0")
CAUSES = ("absent", "toolong 99", "checksum " + "0" * 64, "oversize 0 0 99", "declined 0", "toolfailed 0", "hostfailed",
          "hostfailed 1", "memory", "memory 0")
CHANGES = []


def change(made):
    """One of the ways in which lines are changed."""
    CHANGES.append(made)
    return made


@change
def swap(chance, lines):
    """Two lines change places, mostly neighbours."""
    one = chance.randrange(len(lines))
    other = one - 1 if chance.is_so(0.6) else chance.randrange(len(lines))
    lines[one], lines[other] = lines[other], lines[one]


@change
def take_out(chance, lines):
    del lines[chance.randrange(len(lines))]


@change
def double(chance, lines):
    at = chance.randrange(len(lines))
    lines.insert(at, lines[at])


@change
def change_word(chance, lines):
    at = chance.randrange(len(lines))
    words = lines[at].split(" ")
    place = chance.randrange(len(words))
    if words[place].isdigit() and chance.is_so(0.7):
        words[place] = str(max(0, int(words[place]) + chance.choice((-1, 1, 1, 2, 15))))
    else:
        words[place] = chance.choice(WORDS)
    lines[at] = " ".join(words)


@change
def add_word(chance, lines):
    at = chance.randrange(len(lines))
    lines[at] += " " + chance.choice(WORDS)


@change
def put_failure(chance, lines):
    """A task that was granted fails in place of its end, or before it."""
    grants = [at for at, line in enumerate(lines) if line.startswith(("grant ", "regrant ")) and len(line.split(" ")) >= 3]
    if not grants:
        return
    at = chance.choice(grants)
    _, worker, task = lines[at].split(" ")[:3]
    entry = f"{chance.choice(('fail', 'again'))} {worker} {task} {chance.choice(CAUSES)}"
    if chance.is_so(0.5):
        lines[at + 1:at + 2] = [entry]
    else:
        lines.insert(at + 1, entry)
    if any(line.startswith("again ") for line in lines):
        lines[0] = "record 2"


@change
def cut(chance, lines):
    """The first entries, which are a record again with the line `closed`."""
    at = chance.randrange(1, len(lines) + 1)
    lines[at:] = ["closed"] if chance.is_so(0.8) else []


def changed(chance, text):
    """A run's text with its record changed at a place or two."""
    record, _, rest = text.partition("closed\n")
    lines = (record + "closed").split("\n")
    for _ in range(chance.choice((1, 1, 2))):
        if lines:
            chance.choice(CHANGES)(chance, lines)
    made = "\n".join(lines) + "\n" * chance.is_so(0.97)
    return made + (rest if chance.is_so(0.7) else "")
