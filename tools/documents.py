"""What tools that read and write documents have in common: which keys aren't acted on, files that are never written over, and
the words of a call."""
import argparse
import itertools
import json
import os
import re
import sys

from model.reading import escaped

MOST_ALIKE = 3


def ignored(value, table, path=""):
    """The paths of the keys that are in no table."""
    if isinstance(table, list):
        if isinstance(value, list):
            for place, part in enumerate(value):
                yield from ignored(part, table[0], f"{path}/{place}")
    elif table and isinstance(value, dict):
        for key, part in value.items():
            here = f"{path}/{escaped(key)}"
            if key in table:
                yield from ignored(part, table[key], here)
            else:
                yield here


def pattern(path):
    """A path with a `*` for each of its numbers."""
    return re.sub(r"/\d+(?=/|$)", "/*", path)


def alike(paths):
    """Paths by what they are but for their numbers."""
    found = {}
    for path in paths:
        found.setdefault(pattern(path), []).append(path)
    return found


def together(paths):
    """Paths as they are told: more than three that differ in their numbers alone are one line, where the first stood."""
    paths = list(paths)
    groups = alike(paths)
    for path in paths:
        them = groups[pattern(path)]
        if len(them) <= MOST_ALIKE:
            yield path
        elif path == them[0]:
            yield f"{pattern(path)} {len(them)} times, first {path}"


def members(value, key):
    """The places and objects of a list, if there is one under the key."""
    found = value.get(key) if isinstance(value, dict) else None
    return [(place, it) for place, it in enumerate(found) if isinstance(it, dict)] if isinstance(found, list) else []


def names_beside(path):
    """A path, and those that are taken one after the other where something stands there."""
    root, end = os.path.splitext(path)
    yield path
    yield f"{root}.new{end}"
    yield from (f"{root}.new-{number}{end}" for number in itertools.count(2))


def holds(path, content):
    try:
        with open(path, "rb") as file:
            return file.read() == content
    except OSError:
        return False


def put(path, content, to=None):
    """Writes a file where there is none. Where another one stands that stays, and this one is written beside it and told, on
    standard output or there. It gives the path at which the content stands now."""
    chosen = next(it for it in names_beside(path) if not os.path.lexists(it) or holds(it, content))
    if not os.path.lexists(chosen):
        with open(chosen, "xb") as file:
            file.write(content)
    if chosen != path:
        print(f"kept {path}, which holds something else; {chosen} is what would stand there", file=to or sys.stdout)
    return chosen


def write(folder, name, value):
    text = json.dumps(value, ensure_ascii=False, indent=1) + "\n"
    return put(os.path.join(folder, f"{name}.json"), text.encode("utf-8"))


def parser(text):
    """A parser of a command line whose help is the tool's own text: what it does, its usage, and the rest."""
    about, usage, rest = text.strip().split("\n\n", 2)
    plain = argparse.RawDescriptionHelpFormatter
    return argparse.ArgumentParser(usage=usage.strip(), description=f"{about}\n\n{rest}", formatter_class=plain)


def natural(most):
    """What a word of the command line has to be: a whole number up to this one."""
    def read(text):
        if not (text.isascii() and text.isdigit() and int(text) <= most):
            raise argparse.ArgumentTypeError(f"{text} is no whole number up to {most}")
        return int(text)
    return read
